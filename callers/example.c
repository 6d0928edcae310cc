/* A tester's job on a slot table, in C: 1,024 slots of 3 bits in block RAMs of 256 rows and 4 bits. The rows are laid out, slots are patched, the record
 * is written and listed, read back and compared. The first slots are also made of flip-flops, for a chip without a block RAM to spare.
 * callers/rust/examples/slots.rs does the same and prints the same text. Status 0: all as expected. */
#include <stdio.h>
#include <stdlib.h>
#include <string.h>

#include "tablegoose.h"

enum { SLOTS = 1024, BITS = 3, ENTRIES = 4, IMAGE = 4096, RECORD = TABLEGOOSE_HEAD_BYTES + 2 * IMAGE / 8 };

static uint8_t rows[SLOTS * BITS], image[IMAGE], back[IMAGE], record[RECORD], text[5 * TABLEGOOSE_MAX_LINE];

/* The soft bit 9 stands above bit 8, which selects among memories too; the third entry holds no bit. */
static const tablegoose_params table = {SLOTS, BITS, 1u << 9, 8, 4};
static const uint32_t entries[ENTRIES] = {0, 1, TABLEGOOSE_NO_BIT, 2};

static void check(const char *what, uint32_t number) {
    if (number != 0) {
        printf("%s: refused %u: %s\n", what, (unsigned)number, tablegoose_refusal_text(number));
        exit(1);
    }
}

/* Slot i is owned by i x 5 mod 8; every sixteenth is free, which is X. */
static void make_rows(void) {
    for (int i = 0; i < SLOTS; i++)
        for (int b = 0; b < BITS; b++) rows[i * BITS + b] = i % 16 == 15 ? TABLEGOOSE_TRIT_X : (i * 5 >> b) & 1;
}

static void lay_out(void) {
    tablegoose_measured m = tablegoose_measure(table, entries, ENTRIES);
    check("measure", m.number);
    printf("%u memories of depth %u, %u trits\n", (unsigned)m.shape.all_mems, (unsigned)m.shape.full_depth, (unsigned)m.shape.image_size);
    check("fill", tablegoose_fill_rows(image, IMAGE, table, entries, ENTRIES, rows, sizeof rows));
    tablegoose_placed p = tablegoose_place_of(table, entries, ENTRIES, 700, 3);
    check("place", p.number);
    printf("slot 700, bit 2: memory %u, row %u, bit %u\n", (unsigned)p.place.memory, (unsigned)p.place.row, (unsigned)p.place.bit);
}

/* A slot gets an owner; the rows are kept alike. */
static uint32_t patch(uint32_t slot, const uint8_t trits[BITS]) {
    uint32_t number = tablegoose_patch_row(image, IMAGE, table, entries, ENTRIES, slot, trits, BITS);
    if (number == 0) memcpy(rows + slot * BITS, trits, BITS);
    return number;
}

static void patch_slots(void) {
    static const uint8_t six[BITS] = {0, 1, 1}, none[BITS] = {2, 2, 2};
    check("patch", patch(700, six));
    check("patch", patch(701, none));
    uint32_t number = patch(SLOTS, six);
    printf("slot 1024: refused %u: %s\n", (unsigned)number, tablegoose_refusal_text(number));
}

static void write_record(void) {
    tablegoose_head head = tablegoose_sizes_of(tablegoose_laid_out(table, entries, ENTRIES));
    check("sizes", head.number);
    tablegoose_count short_room = tablegoose_write_record(record, RECORD - 1, head.sizes, image, IMAGE);
    printf("one byte short: refused %u: %s\n", (unsigned)short_room.number, tablegoose_refusal_text(short_room.number));
    tablegoose_count written = tablegoose_write_record(record, RECORD, head.sizes, image, IMAGE);
    check("record", written.number);
    printf("record of %u bytes\n", (unsigned)written.count);
    tablegoose_count listed = tablegoose_list_record(text, sizeof text, record, RECORD);
    check("list", listed.number);
    fwrite(text, 1, listed.count, stdout);
}

/* The first slot that the record's image does not hold as the rows do, or SLOTS. */
static uint32_t first_other(void) {
    check("read", tablegoose_read_record(back, IMAGE, record, RECORD).number);
    for (uint32_t slot = 0; slot < SLOTS; slot++) {
        uint8_t found[BITS];
        check("row", tablegoose_read_row(found, BITS, table, entries, ENTRIES, back, IMAGE, slot));
        if (memcmp(found, rows + slot * BITS, BITS) != 0) return slot;
    }
    return SLOTS;
}

enum { FEW = 16, ADDR = 4, WORDS = 2000, FIRST_NET = 10, OUTPUT = 30, CLOCK = 5 };

static uint32_t log_words[WORDS], scratch[2 * FEW * BITS];

/* The first slots with a write port and a read port as registers: what the log asks for. */
static void lower(void) {
    tablegoose_memory m;
    memset(&m, 0, sizeof m);
    m.depth = FEW, m.width = BITS, m.init_len = FEW * BITS, m.write_count = 1, m.read_count = 1;
    m.write_ports[0].addr_len = ADDR, m.write_ports[0].data_len = BITS, m.write_ports[0].mask_len = BITS, m.write_ports[0].clock.net = CLOCK;
    m.read_ports[0].addr_len = ADDR, m.read_ports[0].data_len = BITS;
    uint32_t nets[2 * ADDR + 2 * BITS], output[BITS];
    for (uint32_t i = 0; i < 2 * ADDR + 2 * BITS; i++) nets[i] = FIRST_NET + i;
    for (uint32_t i = 0; i < BITS; i++) output[i] = OUTPUT + i;
    tablegoose_log_state st = {0, 100};
    tablegoose_logged made = tablegoose_lower_fallback(log_words, WORDS, st, scratch, 2 * FEW * BITS - 1, m, nets, sizeof nets / sizeof *nets, rows,
                                                       FEW * BITS, output, BITS);
    printf("scratch one word short: refused %u: %s\n", (unsigned)made.number, tablegoose_refusal_text(made.number));
    made = tablegoose_lower_fallback(log_words, WORDS, made.state, scratch, 2 * FEW * BITS, m, nets, sizeof nets / sizeof *nets, rows, FEW * BITS,
                                     output, BITS);
    check("fallback", made.number);
    unsigned cells = 0, flip_flops = 0;
    for (size_t at = 0; at < made.state.used; at += 4 + log_words[at + 3]) cells++, flip_flops += log_words[at] == 9;
    printf("%u slots as registers: %u entries, %u of them flip-flops, next net %u\n", (unsigned)FEW, cells, flip_flops, (unsigned)made.state.next);
}

int main(void) {
    make_rows();
    lay_out();
    patch_slots();
    write_record();
    uint32_t other = first_other();
    printf("slots read back alike: %u\n", (unsigned)other);
    /* The lowest known bit of byte 300 of the bit arrays, and its value bit, are cleared: the trit becomes X. */
    record[TABLEGOOSE_HEAD_BYTES + 300] &= 0xFE;
    record[TABLEGOOSE_HEAD_BYTES + IMAGE / 8 + 300] &= 0xFE;
    printf("a trit of the record lost: slot %u differs\n", (unsigned)first_other());
    lower();
    return other == SLOTS ? 0 : 1;
}
