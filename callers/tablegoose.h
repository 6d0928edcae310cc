/* Tablegoose for C and C++: every exported function and its structs. Link with target/libtablegoose.a, which scripts/archive makes.
 *
 * Rules of all calls
 * - A call is total: any values may be given. Bad ones are refused by a number (tablegoose_refusal), and a refused call changes nothing that it was lent.
 *   A number is the function's result, or the first field of it; 0 means accepted. In a refused answer every other field is 0, but a log state, and a
 *   memory that the call changes, is the one that was given. "Numbers 2, 4, 20" lists a call's numbers in the order in which they are tried, each over
 *   the whole input.
 * - An array is a pointer and a length in elements; a pointer may be null where the length is 0. What is written to comes first; it must not overlap what
 *   else is given. An accepted call writes what its text says, from the array's start, and keeps the rest.
 * - A trit is a byte: 0, 1, or 2 for X. A net is a word: 0, 1, TABLEGOOSE_NET_X, or a cell's number + 2. A control is a net or its inverse.
 * - A flag in a struct is 0 or 1; another word is refused by 4. A flag that is an argument is a bool.
 * - The functions keep no state, allocate nothing and may be called from many threads at once. A list at the end says how much stack each takes. */
#ifndef TABLEGOOSE_H
#define TABLEGOOSE_H

#include <stdbool.h>
#include <stddef.h>
#include <stdint.h>

#ifdef __cplusplus
extern "C" {
#endif

/* ---- limits, by document 01's names */

#define TABLEGOOSE_MAX_DEPTH 32768        /* rows of a memory */
#define TABLEGOOSE_MAX_WIDTH 128          /* bits of a row */
#define TABLEGOOSE_MAX_BITS 32768         /* depth x width */
#define TABLEGOOSE_MAX_PORTS 8            /* read ports, write ports, a list of ports */
#define TABLEGOOSE_MAX_WIDE 4             /* a port's data is width x 2^k: the largest k, old or new */
#define TABLEGOOSE_ADDR_BITS 32           /* a port's address length plus its k */
#define TABLEGOOSE_MAX_ROW 256            /* entries of a row */
#define TABLEGOOSE_MAX_UNIT 256           /* data_width_unit, at least 1 */
#define TABLEGOOSE_MAX_HARD 15            /* hard_addr_bits */
#define TABLEGOOSE_MAX_GRANULARITY 64     /* at least 1 */
#define TABLEGOOSE_MAX_MERGE 4096         /* bits of a value given to a mux or a merge */
#define TABLEGOOSE_MAX_COLUMNS 32768      /* a result's columns, rounded up to the unit; so also its memories */
#define TABLEGOOSE_MAX_IMAGE 131072       /* a result's trits */
#define TABLEGOOSE_MAX_NETS 16777216      /* the next free net never passes this */
#define TABLEGOOSE_MAX_PARTIAL 32767      /* a record's partial depth */
#define TABLEGOOSE_FIRST_CELL 2           /* the first net of a cell */
#define TABLEGOOSE_NET_X 4294967295u      /* the net X */
#define TABLEGOOSE_TRIT_X 2               /* the trit code of X */
#define TABLEGOOSE_NO_BIT 4294967295u     /* an entry that names no bit */
#define TABLEGOOSE_HEAD_BYTES 12          /* of a record, before its bit arrays */
#define TABLEGOOSE_MAX_RECORD 32780       /* the longest record's bytes */
#define TABLEGOOSE_MAX_LINE 50            /* the longest line of a listing */

/* ---- refusal numbers */

enum tablegoose_refusal {
    TABLEGOOSE_ACCEPTED = 0,
    TABLEGOOSE_TOO_LARGE = 1,
    TABLEGOOSE_BAD_SHAPE = 2,
    TABLEGOOSE_BAD_DEPTH = 3,
    TABLEGOOSE_BAD_CODE = 4,
    TABLEGOOSE_BAD_GRANULARITY = 5,
    TABLEGOOSE_ROW_TOO_LONG = 6,
    TABLEGOOSE_BAD_ENTRIES = 7,
    TABLEGOOSE_BAD_SOFT_MASK = 8,
    TABLEGOOSE_BAD_WIDE_LOG = 9,
    TABLEGOOSE_RESULT_TOO_LARGE = 10,
    TABLEGOOSE_WRITE_CLOCKS_DIFFER = 11,
    TABLEGOOSE_READ_CLOCKS_DIFFER = 12,
    TABLEGOOSE_MIXED_RELATIONS = 13,
    TABLEGOOSE_SHORT_ADDRESS = 14,
    TABLEGOOSE_OUT_OF_RANGE = 15,
    TABLEGOOSE_RECORD_HEAD = 16,
    TABLEGOOSE_RECORD_SIZES = 17,
    TABLEGOOSE_RECORD_BITS = 18,
    TABLEGOOSE_NO_ROOM = 20,
    TABLEGOOSE_NO_NETS = 21,
    TABLEGOOSE_NO_FLIP_FLOP = 22,
    TABLEGOOSE_NO_SWIZZLE = 23
};

/* What a number means. */
static inline const char *tablegoose_refusal_text(uint32_t number) {
    switch (number) {
    case TABLEGOOSE_ACCEPTED: return "accepted";
    case TABLEGOOSE_TOO_LARGE: return "a size or a list is too long";
    case TABLEGOOSE_BAD_SHAPE: return "the shape of a port, or lengths that must agree";
    case TABLEGOOSE_BAD_DEPTH: return "the depth is no multiple of a port's 2^k";
    case TABLEGOOSE_BAD_CODE: return "a bad net, control or trit code, or a patch row not of the memory's width";
    case TABLEGOOSE_BAD_GRANULARITY: return "a granularity outside 1 to 64, or not one per write port";
    case TABLEGOOSE_ROW_TOO_LONG: return "the padded row would pass 256 entries";
    case TABLEGOOSE_BAD_ENTRIES: return "the entries do not name each bit below the width exactly once";
    case TABLEGOOSE_BAD_SOFT_MASK: return "the depth is no multiple of 2^(top soft bit + 1)";
    case TABLEGOOSE_BAD_WIDE_LOG: return "a new wide log: not one per port, above the hard bits, or too small";
    case TABLEGOOSE_RESULT_TOO_LARGE: return "the result is too large";
    case TABLEGOOSE_WRITE_CLOCKS_DIFFER: return "the write clocks differ";
    case TABLEGOOSE_READ_CLOCKS_DIFFER: return "the read flip-flop clocks differ";
    case TABLEGOOSE_MIXED_RELATIONS: return "a write port has both a read-before-write and a transparent relation";
    case TABLEGOOSE_SHORT_ADDRESS: return "the narrower port of a transparent pair has too few address bits";
    case TABLEGOOSE_OUT_OF_RANGE: return "port, row, entry or memory out of range";
    case TABLEGOOSE_RECORD_HEAD: return "record: the first word is not 5, or the length is wrong";
    case TABLEGOOSE_RECORD_SIZES: return "record: the sizes break the rules";
    case TABLEGOOSE_RECORD_BITS: return "record: a value bit without its known bit, or a spare bit set";
    case TABLEGOOSE_NO_ROOM: return "the result does not fit the room";
    case TABLEGOOSE_NO_NETS: return "the next free net is below 2 or would pass its limit";
    case TABLEGOOSE_NO_FLIP_FLOP: return "a flip-flop is needed and the port has none";
    case TABLEGOOSE_NO_SWIZZLE: return "no swizzle was accepted yet";
    default: return "no refusal number";
    }
}

/* ---- answers of more than one kind of call */

typedef struct {
    uint32_t number;
    uint32_t value;
} tablegoose_result;

typedef struct {
    uint32_t number;
    size_t count;
} tablegoose_count;

/* ---- trits and constants: a constant is an array of trit codes */

/* IEEE 1364; value: a trit's code. Number 4. */
tablegoose_result tablegoose_trit_not(uint8_t a);
tablegoose_result tablegoose_trit_and(uint8_t a, uint8_t b);
tablegoose_result tablegoose_trit_or(uint8_t a, uint8_t b);

/* value 1: every trit is X, also where there is none. Number 4. */
tablegoose_result tablegoose_const_is_undef(const uint8_t *a, size_t a_len);

/* Trit by trit into out, a_len of them. Numbers 4, 20. */
uint32_t tablegoose_const_not(uint8_t *out, size_t out_len, const uint8_t *a, size_t a_len);

/* Trit by trit into out, a_len of them. Numbers 2 (the lengths differ), 4, 20. */
uint32_t tablegoose_const_and(uint8_t *out, size_t out_len, const uint8_t *a, size_t a_len, const uint8_t *b, size_t b_len);
uint32_t tablegoose_const_or(uint8_t *out, size_t out_len, const uint8_t *a, size_t a_len, const uint8_t *b, size_t b_len);

/* Whether [start, end) is a part of an array of this size, a constant or a value: the part is the caller's own. Number 15. */
uint32_t tablegoose_slice_refusal(size_t start, size_t end, size_t size);

/* ---- nets, controls and values: a value is an array of nets */

/* is_cell 1: value is the cell's number; 0: a constant net, value is its trit's code. */
typedef struct {
    uint32_t is_cell;
    uint32_t value;
} tablegoose_driver;

/* known 1: the net is always this trit; 0: it is a cell's, and trit is 0. */
typedef struct {
    uint32_t known;
    uint32_t trit;
} tablegoose_constant;

/* polarity 0 is the net itself (Pos), 1 its inverse (Neg). Good controls are Pos of 0, 1 or a cell's net, and Neg of a cell's net; others are refused by
 * 4. A mux select may also be Pos of X. */
typedef struct {
    uint32_t polarity;
    uint32_t net;
} tablegoose_control;

typedef struct {
    uint32_t number;
    tablegoose_control control;
} tablegoose_control_result;

/* value: the net of a cell's number. Number 4. */
tablegoose_result tablegoose_net_of_cell(uint32_t cell);

/* What drives a net. No numbers. */
tablegoose_driver tablegoose_cell_of_net(uint32_t net);

/* 1: the net is 0, 1 or X. No numbers. */
uint32_t tablegoose_net_is_const(uint32_t net);

/* The constant that a net is. No numbers. */
tablegoose_constant tablegoose_net_as_const(uint32_t net);

/* The inverse; of a constant it is the other constant. Number 4. */
tablegoose_control_result tablegoose_control_not(tablegoose_control c);

/* value 1: the control is v, which is 0 or 1, for ever. Number 4. */
tablegoose_result tablegoose_control_is_always(tablegoose_control c, uint32_t v);

/* value 1: every net is X, also where there is none. Number 4. */
tablegoose_result tablegoose_value_is_undef(const uint32_t *v, size_t v_len);

/* The value into out, filled up with net 0 to n nets. Numbers 2 (v_len above n), 4, 20. */
uint32_t tablegoose_zext(uint32_t *out, size_t out_len, const uint32_t *v, size_t v_len, size_t n);

/* The select bits of a write and a read port with the wide logs kw and kr: the first |kw - kr| nets of the narrower one's address, into out.
 * count: how many. Numbers 14, 20. */
tablegoose_count tablegoose_narrower_select(uint32_t *out, size_t out_len, const uint32_t *waddr, size_t waddr_len, const uint32_t *raddr,
                                            size_t raddr_len, uint32_t kw, uint32_t kr);

/* ---- the log of cell requests
 *
 * An entry is words: kind, result width, first result net, number of operand words, operands. Kinds: 1 void; 2 not; 3 and; 4 or; 5 mux (select, then,
 * else); 6 eq; 7 shl, 8 ushr (stride, select length, select, value); 9 flip-flop (data; clock, clear, reset, enable as polarity and net; reset over
 * enable; clear, reset, init trits); 10 replace (from, to; width and first net 0). An accepted request appends its entries at log[st.used], writes
 * nothing else of the log, and gives the state after it. The nets that it makes are st.next, st.next + 1 and so on. Every request ends with the numbers
 * 20 (used words and new ones pass log_len) and 21 (the next free net is below 2 or would pass its limit), also where it logs nothing. */

typedef struct {
    size_t used;
    uint32_t next;
} tablegoose_log_state;

/* A reset_over_enable above 1 is refused by 4. */
typedef struct {
    tablegoose_control clock;
    tablegoose_control clear;
    tablegoose_control reset;
    tablegoose_control enable;
    uint32_t reset_over_enable;
} tablegoose_controls;

typedef struct {
    uint32_t number;
    tablegoose_log_state state;
} tablegoose_logged;

typedef struct {
    uint32_t number;
    uint32_t net;
    tablegoose_log_state state;
} tablegoose_net_logged;

typedef struct {
    uint32_t number;
    tablegoose_controls controls;
    tablegoose_log_state state;
} tablegoose_controls_logged;

/* So many new nets. Numbers 20, 21. Words 4. */
tablegoose_logged tablegoose_add_void(uint32_t *log, size_t log_len, tablegoose_log_state st, uint32_t width);

/* The inverse of each net. Numbers 4, 20, 21. Words 4 + a_len. */
tablegoose_logged tablegoose_add_not(uint32_t *log, size_t log_len, tablegoose_log_state st, const uint32_t *a, size_t a_len);

/* And, or: net by net. Numbers 2 (the lengths differ), 4, 20, 21. Words 4 + 2 a_len. */
tablegoose_logged tablegoose_add_and(uint32_t *log, size_t log_len, tablegoose_log_state st, const uint32_t *a, size_t a_len, const uint32_t *b,
                                     size_t b_len);
tablegoose_logged tablegoose_add_or(uint32_t *log, size_t log_len, tablegoose_log_state st, const uint32_t *a, size_t a_len, const uint32_t *b,
                                    size_t b_len);

/* Whether two values are equal, in one net. Numbers 2, 4, 20, 21. Words 4 + 2 a_len. */
tablegoose_logged tablegoose_add_eq(uint32_t *log, size_t log_len, tablegoose_log_state st, const uint32_t *a, size_t a_len, const uint32_t *b,
                                    size_t b_len);

/* Each net of `from` replaced by that of `to`; no new nets. Numbers 2, 4, 20, 21. Words 4 + 2 from_len. */
tablegoose_logged tablegoose_replace_value(uint32_t *log, size_t log_len, tablegoose_log_state st, const uint32_t *from, size_t from_len,
                                           const uint32_t *to, size_t to_len);

/* The value moved up (shl) or down (ushr) by select times stride. Numbers 4, 20, 21. Words 6 + select_len + a_len. */
tablegoose_logged tablegoose_add_shl(uint32_t *log, size_t log_len, tablegoose_log_state st, uint32_t stride, const uint32_t *select,
                                     size_t select_len, const uint32_t *a, size_t a_len);
tablegoose_logged tablegoose_add_ushr(uint32_t *log, size_t log_len, tablegoose_log_state st, uint32_t stride, const uint32_t *select,
                                      size_t select_len, const uint32_t *a, size_t a_len);

/* a where the select is 1, else b. A Neg select is logged as its net with the values exchanged. Numbers 1 (above MAX_MERGE bits), 2, 4, 20, 21.
 * Words 5 + 2 a_len. */
tablegoose_logged tablegoose_add_mux(uint32_t *log, size_t log_len, tablegoose_log_state st, tablegoose_control select, const uint32_t *a,
                                     size_t a_len, const uint32_t *b, size_t b_len);

/* A flip-flop. Numbers 2 (trits not one per bit), 4, 20, 21. Words 13 + 4 bits_len. */
tablegoose_logged tablegoose_add_dff(uint32_t *log, size_t log_len, tablegoose_log_state st, tablegoose_controls c, const uint32_t *bits,
                                     size_t bits_len, const uint8_t *clear, size_t clear_len, const uint8_t *reset, size_t reset_len,
                                     const uint8_t *init, size_t init_len);

/* net: a net that is the control, after a not where it is Neg. Numbers 4, 20, 21. Words 5 or 0. */
tablegoose_net_logged tablegoose_into_pos(uint32_t *log, size_t log_len, tablegoose_log_state st, tablegoose_control c);

/* controls: the same with a reset that is over the enable. Already set: nothing; reset always 0 or enable always 1: only the flag; else an and of reset
 * and enable, each after a not where it is Neg. Only reset, enable and the flag are looked at. Numbers 4, 20, 21. Words at most 16. */
tablegoose_controls_logged tablegoose_remap_reset_over_enable(uint32_t *log, size_t log_len, tablegoose_log_state st, tablegoose_controls c);

/* Merges: equal bits are kept once, in order of first appearance. The net of each bit goes to out, a_len (bits_len) of them.
 * Numbers 1 (above MAX_MERGE bits), 2, 4, 20 (out or log), 21. Words at most those of the request without merging; bitwise: of one mux per run of
 * equal neighbouring selects. */
tablegoose_logged tablegoose_add_dedup_mux(uint32_t *log, size_t log_len, tablegoose_log_state st, uint32_t *out, size_t out_len,
                                           tablegoose_control select, const uint32_t *a, size_t a_len, const uint32_t *b, size_t b_len);
tablegoose_logged tablegoose_add_dedup_dff(uint32_t *log, size_t log_len, tablegoose_log_state st, uint32_t *out, size_t out_len,
                                           tablegoose_controls c, const uint32_t *bits, size_t bits_len, const uint8_t *clear, size_t clear_len,
                                           const uint8_t *reset, size_t reset_len, const uint8_t *init, size_t init_len);
tablegoose_logged tablegoose_add_bitwise_mux(uint32_t *log, size_t log_len, tablegoose_log_state st, uint32_t *out, size_t out_len,
                                             const uint32_t *s, size_t s_len, const uint32_t *a, size_t a_len, const uint32_t *b, size_t b_len);

/* ---- memories
 *
 * A memory is a struct with the lengths of its lists, and two arrays with their contents, part after part:
 *   nets:  for each write port address, data, mask; then for each read port its address.
 *   trits: the initial trits (depth x width, row 0 and bit 0 first); then for each read port clear, reset, init, also where it is not clocked.
 * The arrays have exactly the lengths that the struct says, else number 2. Every call over a memory tries 1 to 4 over the whole of it. */

typedef struct {
    uint32_t addr_len;
    uint32_t data_len;
    uint32_t mask_len;
    tablegoose_control clock;
} tablegoose_write_port;

/* relations: one per write port, 0 undefined, 1 read before write, 2 transparent. clocked 0: there is no flip-flop, and the relations, the controls and
 * the trits play no part. clocked or reset_over_enable above 1 is refused by 4. */
typedef struct {
    uint32_t addr_len;
    uint32_t data_len;
    uint32_t clear_len;
    uint32_t reset_len;
    uint32_t init_len;
    uint32_t relations_len;
    uint8_t relations[TABLEGOOSE_MAX_PORTS];
    uint32_t clocked;
    tablegoose_control clock;
    tablegoose_control clear;
    tablegoose_control reset;
    tablegoose_control enable;
    uint32_t reset_over_enable;
} tablegoose_read_port;

typedef struct {
    uint32_t depth;
    uint32_t width;
    uint32_t init_len;
    uint32_t write_count;
    uint32_t read_count;
    tablegoose_write_port write_ports[TABLEGOOSE_MAX_PORTS];
    tablegoose_read_port read_ports[TABLEGOOSE_MAX_PORTS];
} tablegoose_memory;

typedef struct {
    uint32_t number;
    size_t start;
    size_t size;
} tablegoose_slice;

typedef struct {
    uint32_t number;
    tablegoose_memory memory;
} tablegoose_extracted;

/* value: k, where data of this size is width x 2^k. Number 2. */
tablegoose_result tablegoose_wide_log2(uint32_t width, size_t size);

/* Whether a memory keeps the rules. Numbers 1, 2, 3, 4. */
uint32_t tablegoose_memory_refusal(tablegoose_memory m, const uint32_t *nets, size_t nets_len, const uint8_t *trits, size_t trits_len);

/* count: the read ports' data bits in all. Numbers 1 to 4. */
tablegoose_count tablegoose_output_len(tablegoose_memory m, const uint32_t *nets, size_t nets_len, const uint8_t *trits, size_t trits_len);

/* Where a read port's part of the outputs starts, and its size. Numbers 1 to 4, 15. */
tablegoose_slice tablegoose_read_port_output_slice(tablegoose_memory m, const uint32_t *nets, size_t nets_len, const uint8_t *trits,
                                                   size_t trits_len, size_t port);

/* value 1: all write ports have one clock. Numbers 1 to 4. */
tablegoose_result tablegoose_can_lower_fallback(tablegoose_memory m, const uint32_t *nets, size_t nets_len, const uint8_t *trits, size_t trits_len);

/* The memory with the listed read ports, in the list's order; a port may be named twice. output: a net for each output bit. The new memory's nets and
 * trits and its outputs go to the rooms: at most as many nets as the write ports have and the listed ports' addresses, as many trits as the initial ones
 * and those of the listed clocked ports, and the listed ports' data bits. Numbers 1 (also a list above 8), 2 (also output_len), 3, 4, 15, 20. */
tablegoose_extracted tablegoose_extract_read_ports(uint32_t *room_nets, size_t room_nets_len, uint8_t *room_trits, size_t room_trits_len,
                                                   uint32_t *room_output, size_t room_output_len, tablegoose_memory m, const uint32_t *nets,
                                                   size_t nets_len, const uint8_t *trits, size_t trits_len, const uint32_t *list, size_t list_len,
                                                   const uint32_t *output, size_t output_len);

/* ---- calls on a memory's ports, which add to a log
 *
 * Memory and log state go in by value and come back in the answer, so that `memory = r.memory; st = r.state;` is right after accepted and refused calls: a
 * refused call gives both back as they were. After an accepted call the controls of ports without a flip-flop are 0. The arrays change in place: output
 * has a net for each output bit, read port after read port. Each call ends with 20 (used words and new ones pass log_len) and 21. */

typedef struct {
    uint32_t number;
    tablegoose_memory memory;
    tablegoose_log_state state;
} tablegoose_driven;

/* The read port's flip-flop taken out of the memory and logged behind the port, with muxes for the write ports that the port is transparent to. The port's
 * part of output becomes new nets; its trits stay in the array and play no part. A port without a flip-flop stays as it is.
 * Numbers 1, 2 (also output_len), 3, 4 (also output), 14 (a transparent pair's narrower address is too short), 15, 20, 21. */
tablegoose_driven tablegoose_unmap_read_dff(uint32_t *log, size_t log_len, tablegoose_log_state st, uint32_t *output, size_t output_len,
                                            tablegoose_memory m, const uint32_t *nets, size_t nets_len, const uint8_t *trits, size_t trits_len,
                                            size_t port);

/* Each write port that has a read-before-write relation writes half a cycle later, with the other edge of its clock, behind logged flip-flops of its
 * address, data and mask, whose new nets take their places in nets; the relations to it become undefined. Numbers 1 to 4, 12, 13, 22, 20, 21. */
tablegoose_driven tablegoose_emulate_read_before_write(uint32_t *log, size_t log_len, tablegoose_log_state st, uint32_t *nets, size_t nets_len,
                                                       tablegoose_memory m, const uint8_t *trits, size_t trits_len);

/* The data of write port `write` laid over bits, which read port `read` reads, where the two are at one address and the write port's mask is set; with
 * masked also over mask, a 1 at each such bit. The results go to bits_to and mask_to, bits_len (mask_len) of them; without masked, mask and mask_to play no
 * part. Numbers 1 (also above MAX_MERGE bits), 2 (also bits_len, mask_len), 3, 4 (also bits, mask), 14, 15, 20 (bits_to, mask_to or log), 21. */
tablegoose_logged tablegoose_transparency_mux(uint32_t *log, size_t log_len, tablegoose_log_state st, uint32_t *bits_to, size_t bits_to_len,
                                              uint32_t *mask_to, size_t mask_to_len, tablegoose_memory m, const uint32_t *nets, size_t nets_len,
                                              const uint8_t *trits, size_t trits_len, size_t read, size_t write, const uint32_t *bits,
                                              size_t bits_len, const uint32_t *mask, size_t mask_len, bool masked);

/* Reset, clear and initial value taken off a clocked read port, and with include_transparency its transparent relations too, and logged behind the port. The
 * port's part of output becomes new nets and its trits become X. A port that has none of them stays as it is. Numbers 1, 2 (also output_len), 3, 4 (also
 * output), 14 (with include_transparency: a transparent pair's narrower address is too short), 15, 22, 20, 21. */
tablegoose_driven tablegoose_unmap_read_init_reset_transparency(uint32_t *log, size_t log_len, tablegoose_log_state st, uint32_t *output,
                                                                size_t output_len, uint8_t *trits, size_t trits_len, tablegoose_memory m,
                                                                const uint32_t *nets, size_t nets_len, size_t port, bool include_transparency);

/* ---- plans: a plan's numbers, and its lists as arrays: the entries of a row (a bit's number, or TABLEGOOSE_NO_BIT), and the new wide log of each write
 * port and of each read port */

typedef struct {
    uint32_t soft_addr_bits_mask;
    uint32_t hard_addr_bits;
    uint32_t data_width_unit;
} tablegoose_memory_swizzle;

/* The number is called refusal here. */
typedef struct {
    uint32_t refusal;
    uint32_t writes[TABLEGOOSE_MAX_PORTS];
    uint32_t reads[TABLEGOOSE_MAX_PORTS];
} tablegoose_mux_bits;

/* The entries of a row into out, padded so that bits whose write masks differ lie in different granules; one granularity per write port. count: how many,
 * at most MAX_ROW. Numbers 1 to 4, 5, 6, 20. */
tablegoose_count tablegoose_make_data_swizzle(uint32_t *out, size_t out_len, tablegoose_memory m, const uint32_t *nets, size_t nets_len,
                                              const uint8_t *trits, size_t trits_len, const uint32_t *granularities, size_t granularities_len);

/* The depths of the memories that a swizzle would give, into out; how many is all_mems of tablegoose_measure. Numbers 1 to 4, 7, 8, 10, 20. */
uint32_t tablegoose_swizzle_depths(uint32_t *out, size_t out_len, tablegoose_memory m, const uint32_t *nets, size_t nets_len, const uint8_t *trits,
                                   size_t trits_len, tablegoose_memory_swizzle s, const uint32_t *entries, size_t entries_len,
                                   const uint32_t *writes, size_t writes_len, const uint32_t *reads, size_t reads_len);

/* The address bits that each write port and each listed read port would decode with muxes; `reads` has one wide log per listed port.
 * Numbers 1 (also a list above 8), 2, 3, 4, 7, 8, 9, 15. */
tablegoose_mux_bits tablegoose_swizzle_mux_bits(tablegoose_memory m, const uint32_t *nets, size_t nets_len, const uint8_t *trits, size_t trits_len,
                                                const uint32_t *ports, size_t ports_len, tablegoose_memory_swizzle s, const uint32_t *entries,
                                                size_t entries_len, const uint32_t *writes, size_t writes_len, const uint32_t *reads,
                                                size_t reads_len);

/* ---- images by a layout
 *
 * A layout is a memory's depth and width, a plan's numbers, and the entries of a row as an array. An image is the trits of all resulting memories, memory
 * after memory, row 0 and bit 0 first: image_size of tablegoose_measure. Calls that go by a layout that no accepted swizzle has are refused by 23. */

typedef struct {
    uint32_t depth;
    uint32_t width;
    uint32_t soft_mask;
    uint32_t hard;
    uint32_t unit;
} tablegoose_params;

/* The memory, the row in it, the bit of that row, and the index in the image. */
typedef struct {
    uint64_t memory;
    uint64_t row;
    uint64_t bit;
    uint64_t index;
} tablegoose_place;

typedef struct {
    uint32_t number;
    tablegoose_place place;
} tablegoose_placed;

/* Full memories and all; the depth of a full one and of the others; columns, rounded up to the unit; trits of all memories, and those of the image, which
 * has none where the width is 0. */
typedef struct {
    uint64_t full_mems;
    uint64_t all_mems;
    uint64_t full_depth;
    uint64_t part_depth;
    uint64_t columns;
    uint64_t trits;
    uint64_t image_size;
} tablegoose_shape;

typedef struct {
    uint32_t number;
    tablegoose_shape shape;
} tablegoose_measured;

/* What a layout gives. Number 1. */
tablegoose_measured tablegoose_measure(tablegoose_params p, const uint32_t *entries, size_t entries_len);

/* Where an entry of a row goes. Numbers 1, 15. */
tablegoose_placed tablegoose_place_of(tablegoose_params p, const uint32_t *entries, size_t entries_len, uint32_t row, size_t entry);

/* The image of a memory's rows (depth x width trits, row 0 and bit 0 first) into image: image_size trits. Numbers 23, 2, 4, 20. */
uint32_t tablegoose_fill_rows(uint8_t *image, size_t image_len, tablegoose_params p, const uint32_t *entries, size_t entries_len,
                              const uint8_t *rows, size_t rows_len);

/* Exchanges one row of an image: the places of its entries that name a bit. Numbers 23, 4 (also trits_len), 15, 20 (image_len below image_size). */
uint32_t tablegoose_patch_row(uint8_t *image, size_t image_len, tablegoose_params p, const uint32_t *entries, size_t entries_len, uint32_t row,
                              const uint8_t *trits, size_t trits_len);

/* The trits at a row's places into room, width of them. Numbers 23, 15, 20 (room or image too short). */
uint32_t tablegoose_read_row(uint8_t *room, size_t room_len, tablegoose_params p, const uint32_t *entries, size_t entries_len, const uint8_t *image,
                             size_t image_len, uint32_t row);

/* A list of patches on one image: calls has four words for each: its row, where its trits start in trits, how many they are, and how many trits of the
 * buffer it is lent, at most all. Each call's own number goes to numbers, calls_len / 4 of them; a refused one changes nothing.
 * Number 20 where numbers is too short. */
uint32_t tablegoose_patch_each(uint8_t *buffer, size_t buffer_len, uint32_t *numbers, size_t numbers_len, tablegoose_params p,
                               const uint32_t *entries, size_t entries_len, const uint32_t *calls, size_t calls_len, const uint8_t *trits,
                               size_t trits_len);

/* tablegoose_fill_rows, then tablegoose_patch_each. Numbers 23, 2, 4, 20 (image or numbers). */
uint32_t tablegoose_fill_then_patch(uint8_t *buffer, size_t buffer_len, uint32_t *numbers, size_t numbers_len, tablegoose_params p,
                                    const uint32_t *entries, size_t entries_len, const uint8_t *rows, size_t rows_len, const uint32_t *calls,
                                    size_t calls_len, const uint8_t *trits, size_t trits_len);

/* ---- the same by the state that a swizzle hands on: one struct with the entries in it, of which len are in use. The unit is 0 before any swizzle. */

typedef struct {
    uint32_t depth;
    uint32_t width;
    uint32_t soft_mask;
    uint32_t hard;
    uint32_t unit;
    uint32_t len;
    uint32_t entries[TABLEGOOSE_MAX_ROW];
} tablegoose_laid;

/* A record's sizes: the unit, how many full memories and their depth, how many others and theirs. */
typedef struct {
    uint32_t unit;
    uint32_t full;
    uint32_t full_depth;
    uint32_t partial;
    uint32_t partial_depth;
} tablegoose_sizes;

typedef struct {
    uint32_t number;
    tablegoose_sizes sizes;
} tablegoose_head;

/* The state before any swizzle. No numbers. */
tablegoose_laid tablegoose_unset(void);

/* The state of a layout; that of no swizzle where the row is longer than MAX_ROW. No numbers: the calls that go by it are refused. */
tablegoose_laid tablegoose_laid_out(tablegoose_params p, const uint32_t *entries, size_t entries_len);

/* As tablegoose_fill_rows, patch_row, read_row, patch_each and fill_then_patch, with the same numbers. */
uint32_t tablegoose_fill(uint8_t *image, size_t image_len, tablegoose_laid laid, const uint8_t *rows, size_t rows_len);
uint32_t tablegoose_patch(uint8_t *image, size_t image_len, tablegoose_laid laid, uint32_t row, const uint8_t *trits, size_t trits_len);
uint32_t tablegoose_read_laid_row(uint8_t *room, size_t room_len, tablegoose_laid laid, const uint8_t *image, size_t image_len, uint32_t row);
uint32_t tablegoose_patch_all(uint8_t *buffer, size_t buffer_len, uint32_t *numbers, size_t numbers_len, tablegoose_laid laid, const uint32_t *calls,
                              size_t calls_len, const uint8_t *trits, size_t trits_len);
uint32_t tablegoose_fill_and_patch(uint8_t *buffer, size_t buffer_len, uint32_t *numbers, size_t numbers_len, tablegoose_laid laid,
                                   const uint8_t *rows, size_t rows_len, const uint32_t *calls, size_t calls_len, const uint8_t *trits,
                                   size_t trits_len);

/* The sizes of a record of its images. Number 23. */
tablegoose_head tablegoose_sizes_of(tablegoose_laid laid);

/* ---- the swizzle: a memory split by a plan
 *
 * The resulting memories share their ports. A write port has one address and one clock, a read port one address and one flip-flop; data, mask and trits are
 * those of all memories. They go to lent arrays, and the functions tablegoose_swizzled_.. say which part of an array a memory has:
 *   nets_to:  for each write port its address, then the data of all memories, memory after memory, then their masks; then for each read port its address.
 *   trits_to: for each clocked read port the clear trits of all memories, memory after memory, then their reset trits, then their init trits.
 *   image:    the trits of all memories, memory after memory, row 0 and bit 0 first: their initial trits.
 * A memory is unit bits wide. Its data of a port are unit x 2^wide bits, row after row. Its outputs are new nets: tablegoose_swizzled_output.
 * The given memory, its arrays and the output nets stay as they are: each old output net is replaced by an entry of the log. */

/* A part of a lent array: where it starts, and how many elements it has. */
typedef struct {
    size_t start;
    size_t size;
} tablegoose_part;

typedef struct {
    uint32_t addr_len;
    uint32_t wide;
    tablegoose_control clock;
} tablegoose_wide_write_port;

/* first: the first of its output nets. clocked 0: there is no flip-flop, and the relations and the controls play no part. */
typedef struct {
    uint32_t addr_len;
    uint32_t wide;
    uint32_t first;
    uint32_t relations_len;
    uint8_t relations[TABLEGOOSE_MAX_PORTS];
    uint32_t clocked;
    tablegoose_control clock;
    tablegoose_control clear;
    tablegoose_control reset;
    tablegoose_control enable;
    uint32_t reset_over_enable;
} tablegoose_wide_read_port;

/* Full memories and all; the depth of a full one and of the others; the width of each. */
typedef struct {
    uint32_t full;
    uint32_t mems;
    uint32_t full_depth;
    uint32_t part_depth;
    uint32_t unit;
    uint32_t write_count;
    uint32_t read_count;
    tablegoose_wide_write_port write_ports[TABLEGOOSE_MAX_PORTS];
    tablegoose_wide_read_port read_ports[TABLEGOOSE_MAX_PORTS];
} tablegoose_wide_memory;

/* The memories; how many nets and trits of the arrays are theirs; the state for patches of the image; the sizes of its record. In a refused answer the
 * log state is the one that was given, and laid is that of no swizzle. */
typedef struct {
    uint32_t number;
    tablegoose_log_state state;
    tablegoose_wide_memory memory;
    size_t nets_used;
    size_t trits_used;
    tablegoose_laid laid;
    tablegoose_sizes sizes;
} tablegoose_swizzled;

/* patches: the number of the list of patches; that of the swizzle where it is refused. */
typedef struct {
    tablegoose_swizzled swizzled;
    uint32_t patches;
} tablegoose_swizzled_patches;

/* A memory split by a plan: output has a net for each output bit. An accepted call writes the log, the image and the first nets_used and trits_used elements
 * of nets_to and trits_to; of scratch, as many elements as it needs have any values after it. Width 0 gives no memories and logs nothing; depth 0 gives none
 * either, takes the flip-flops out of the memory and replaces the outputs by X. Numbers 1, 2 (also output_len), 3, 4 (also output), 7, 8, 9, 10 (not for
 * width 0), 14 (depth 0: a transparent pair's narrower address is too short), 20 (log, image, nets_to, trits_to or scratch), 21.
 * Rooms, with C for unit x all_mems of tablegoose_measure and n for a port's new wide log: image image_size; nets_to hard - n + 2 C 2^n for each write port
 * and hard - n for each read port; trits_to 3 C 2^n for each clocked read port; of scratch C 2^n of the read port with the largest n are enough. */
tablegoose_swizzled tablegoose_swizzle(uint32_t *log, size_t log_len, tablegoose_log_state st, uint8_t *image, size_t image_len, uint32_t *nets_to,
                                       size_t nets_to_len, uint8_t *trits_to, size_t trits_to_len, uint32_t *scratch, size_t scratch_len,
                                       tablegoose_memory m, const uint32_t *nets, size_t nets_len, const uint8_t *trits, size_t trits_len,
                                       const uint32_t *output, size_t output_len, tablegoose_memory_swizzle s, const uint32_t *entries,
                                       size_t entries_len, const uint32_t *writes, size_t writes_len, const uint32_t *reads, size_t reads_len);

/* tablegoose_swizzle, then tablegoose_patch_all on its image: calls and rows are those of a list of patches, and each call's number goes to numbers. The list's
 * own number is patches: 20 where numbers is too short, and then no patch is made. */
tablegoose_swizzled_patches tablegoose_swizzle_and_patch(
    uint32_t *log, size_t log_len, tablegoose_log_state st, uint8_t *image, size_t image_len, uint32_t *nets_to, size_t nets_to_len, uint8_t *trits_to,
    size_t trits_to_len, uint32_t *scratch, size_t scratch_len, uint32_t *numbers, size_t numbers_len, tablegoose_memory m, const uint32_t *nets,
    size_t nets_len, const uint8_t *trits, size_t trits_len, const uint32_t *output, size_t output_len, tablegoose_memory_swizzle s,
    const uint32_t *entries, size_t entries_len, const uint32_t *writes, size_t writes_len, const uint32_t *reads, size_t reads_len,
    const uint32_t *calls, size_t calls_len, const uint8_t *rows, size_t rows_len);

/* Memory n's depth; 0 where there is no such memory. No numbers. */
uint32_t tablegoose_swizzled_depth(tablegoose_wide_memory g, size_t n);

/* Memory n's part of the image. Here and below: a part of size 0 where there is no such memory or port, and for the trits where the port is not clocked. */
tablegoose_part tablegoose_swizzled_image(tablegoose_wide_memory g, size_t n);

/* Of nets_to: address, data and mask of write port j of memory n, and the address of its read port i. All memories have the same addresses. */
tablegoose_part tablegoose_swizzled_write_addr(tablegoose_wide_memory g, size_t n, size_t j);
tablegoose_part tablegoose_swizzled_write_data(tablegoose_wide_memory g, size_t n, size_t j);
tablegoose_part tablegoose_swizzled_write_mask(tablegoose_wide_memory g, size_t n, size_t j);
tablegoose_part tablegoose_swizzled_read_addr(tablegoose_wide_memory g, size_t n, size_t i);

/* Of trits_to: clear, reset and init trits of read port i of memory n. */
tablegoose_part tablegoose_swizzled_clear(tablegoose_wide_memory g, size_t n, size_t i);
tablegoose_part tablegoose_swizzled_reset(tablegoose_wide_memory g, size_t n, size_t i);
tablegoose_part tablegoose_swizzled_init(tablegoose_wide_memory g, size_t n, size_t i);

/* The output net of a bit of read port i of memory n; 0 where there is none. */
uint32_t tablegoose_swizzled_output(tablegoose_wide_memory g, size_t n, size_t i, size_t bit);

/* ---- the fallback: a memory as flip-flops and muxes
 *
 * Each read port's flip-flop is taken out of the memory as by tablegoose_unmap_read_dff. Then each row is a register: a flip-flop of the first write port's
 * clock that starts with the row's trits, and before it a mux for each write port in order, the last one winning. Without write ports a row is its trits. All of
 * it stands in the log, and each old output net is replaced by entries of the log. No image comes of it: the state for patches of an earlier swizzle stays
 * good. The given memory, its arrays and the output nets stay as they are. */

/* output has a net for each output bit. An accepted call writes the log; of scratch, 2 x write_count x depth x width elements (data and mask of each write
 * port for all rows), which it needs, have any values after it. Width 0 logs the read ports' flip-flops alone; depth 0 replaces the outputs by X. Numbers 1,
 * 2 (also output_len), 3, 4 (also output), 11 (the write clocks differ), 14 (a transparent pair's narrower address is too short), 20 (scratch or log), 21. */
tablegoose_logged tablegoose_lower_fallback(uint32_t *log, size_t log_len, tablegoose_log_state st, uint32_t *scratch, size_t scratch_len,
                                            tablegoose_memory m, const uint32_t *nets, size_t nets_len, const uint8_t *trits, size_t trits_len,
                                            const uint32_t *output, size_t output_len);

/* ---- records of images */

/* index, depth, known trits and ones of a memory. */
typedef struct {
    size_t index;
    size_t depth;
    size_t known;
    size_t ones;
} tablegoose_summary;

typedef struct {
    uint32_t number;
    tablegoose_summary summary;
} tablegoose_summarized;

/* The record of an image into out. count: its bytes, HEAD_BYTES + 2 ceil(trits / 8), where trits = unit (full full_depth + partial partial_depth), of
 * which the image must have as many; further ones are not looked at. Numbers 4, 17, 20 (image or out too short). */
tablegoose_count tablegoose_write_record(uint8_t *out, size_t out_len, tablegoose_sizes sizes, const uint8_t *image, size_t image_len);

/* The image of a record into image: as many trits as its sizes say. Numbers 16, 17, 18, 20. */
tablegoose_head tablegoose_read_record(uint8_t *image, size_t image_len, const uint8_t *bytes, size_t bytes_len);

/* The sizes of a record of `total` bytes, of which the first are given: HEAD_BYTES are enough. Numbers 16, 17. */
tablegoose_head tablegoose_record_header(const uint8_t *first, size_t first_len, size_t total);

/* What stands in memory `index` of an image. Numbers 4, 15, 17, 20. */
tablegoose_summarized tablegoose_memory_summary(tablegoose_sizes sizes, const uint8_t *image, size_t image_len, size_t index);

/* What the lister prints for a record, into out: a text also for a record that is refused. count: its bytes; a room of MAX_LINE bytes for each memory
 * and MAX_LINE more is always enough. Number 20. */
tablegoose_count tablegoose_list_record(uint8_t *out, size_t out_len, const uint8_t *bytes, size_t bytes_len);

/* The same for an input of `total` bytes, of which the first are given. */
tablegoose_count tablegoose_list_input(uint8_t *out, size_t out_len, const uint8_t *first, size_t first_len, size_t total);

/* ---- stack: what each function takes at most, in bytes, beside the structs that it is given; read from the x86-64 code by scripts/stack.py
 *     256 tablegoose_add_and
 *   52736 tablegoose_add_bitwise_mux
 *   81920 tablegoose_add_dedup_dff
 *   52736 tablegoose_add_dedup_mux
 *     768 tablegoose_add_dff
 *     256 tablegoose_add_eq
 *     384 tablegoose_add_mux
 *     256 tablegoose_add_not
 *     256 tablegoose_add_or
 *     384 tablegoose_add_shl
 *     384 tablegoose_add_ushr
 *     128 tablegoose_add_void
 *    4992 tablegoose_can_lower_fallback
 *     128 tablegoose_cell_of_net
 *     128 tablegoose_const_and
 *     128 tablegoose_const_is_undef
 *     128 tablegoose_const_not
 *     128 tablegoose_const_or
 *     128 tablegoose_control_is_always
 *     128 tablegoose_control_not
 *  144768 tablegoose_emulate_read_before_write
 *    9856 tablegoose_extract_read_ports
 *    1664 tablegoose_fill
 *    2176 tablegoose_fill_and_patch
 *     512 tablegoose_fill_rows
 *    1024 tablegoose_fill_then_patch
 *     128 tablegoose_into_pos
 *    1280 tablegoose_laid_out
 *     384 tablegoose_list_input
 *     384 tablegoose_list_record
 *  836864 tablegoose_lower_fallback
 *    6528 tablegoose_make_data_swizzle
 *     128 tablegoose_measure
 *    4992 tablegoose_memory_refusal
 *     128 tablegoose_memory_summary
 *     128 tablegoose_narrower_select
 *     128 tablegoose_net_as_const
 *     128 tablegoose_net_is_const
 *     128 tablegoose_net_of_cell
 *    4992 tablegoose_output_len
 *    1664 tablegoose_patch
 *    1792 tablegoose_patch_all
 *     640 tablegoose_patch_each
 *     512 tablegoose_patch_row
 *     128 tablegoose_place_of
 *    1536 tablegoose_read_laid_row
 *    5760 tablegoose_read_port_output_slice
 *     384 tablegoose_read_record
 *     512 tablegoose_read_row
 *     256 tablegoose_record_header
 *     640 tablegoose_remap_reset_over_enable
 *     256 tablegoose_replace_value
 *    1408 tablegoose_sizes_of
 *     128 tablegoose_slice_refusal
 *  473728 tablegoose_swizzle
 *  472960 tablegoose_swizzle_and_patch
 *    4992 tablegoose_swizzle_depths
 *    6272 tablegoose_swizzle_mux_bits
 *    2304 tablegoose_swizzled_clear
 *    1536 tablegoose_swizzled_depth
 *    1536 tablegoose_swizzled_image
 *    2304 tablegoose_swizzled_init
 *    1536 tablegoose_swizzled_output
 *    1536 tablegoose_swizzled_read_addr
 *    2304 tablegoose_swizzled_reset
 *    1536 tablegoose_swizzled_write_addr
 *    2304 tablegoose_swizzled_write_data
 *    2304 tablegoose_swizzled_write_mask
 *  158208 tablegoose_transparency_mux
 *     128 tablegoose_trit_and
 *     128 tablegoose_trit_not
 *     128 tablegoose_trit_or
 *  145152 tablegoose_unmap_read_dff
 *  202880 tablegoose_unmap_read_init_reset_transparency
 *     128 tablegoose_unset
 *     128 tablegoose_value_is_undef
 *     128 tablegoose_wide_log2
 *     128 tablegoose_write_record
 *     128 tablegoose_zext
 */

#ifdef __cplusplus
}
#endif

#endif
