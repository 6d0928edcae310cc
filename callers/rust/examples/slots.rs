//! A tester's job on a slot table, in Rust: 1,024 slots of 3 bits in block RAMs of 256 rows and 4 bits. The rows are laid out, slots are patched, the
//! record is written and listed, read back and compared. The first slots are also made of flip-flops, for a chip without a block RAM to spare.
//! `callers/example.c` does the same and prints the same text.

use tablegoose::{
    Cell, Control, HEAD_BYTES, Image, Layout, Log, Memory, Net, ReadPort, Record, Refusal, Swizzle, Trit, WritePort, fallback_scratch, ffi, trits,
};

const SLOTS: u32 = 1024;
const BITS: usize = 3;

/// The soft bit 9 stands above bit 8, which selects among memories too; the third entry holds no bit.
fn table() -> Layout {
    let plan = Swizzle {
        data_swizzle: vec![Some(0), Some(1), None, Some(2)],
        soft_addr_bits_mask: 1 << 9,
        hard_addr_bits: 8,
        data_width_unit: 4,
        ..Swizzle::default()
    };
    Layout::new(SLOTS, BITS as u32, &plan)
}

/// Slot i is owned by i × 5 mod 8; every sixteenth is free, which is X.
fn rows() -> Vec<Vec<Trit>> {
    let bit = |slot: u32, place: usize| if ((slot * 5) >> place) & 1 == 1 { Trit::One } else { Trit::Zero };
    let row = |slot: u32| (0..BITS).map(|place| if slot % 16 == 15 { Trit::X } else { bit(slot, place) }).collect();
    (0..SLOTS).map(row).collect()
}

fn lay_out(table: &Layout, rows: &[Vec<Trit>]) -> Result<Image, Refusal> {
    let shape = table.shape()?;
    println!("{} memories of depth {}, {} trits", shape.all_mems, shape.full_depth, shape.image_size);
    let image = table.fill(&rows.concat())?;
    let place = table.place_of(700, 3)?;
    println!("slot 700, bit 2: memory {}, row {}, bit {}", place.memory, place.row, place.bit);
    Ok(image)
}

/// A slot gets an owner; the rows are kept alike.
fn patch(image: &mut Image, rows: &mut [Vec<Trit>], slot: u32, owner: &str) -> Result<(), Refusal> {
    let owner = trits(owner)?;
    image.patch(slot, &owner)?;
    rows[slot as usize] = owner;
    Ok(())
}

fn write_record(image: &Image) -> Result<Record, Refusal> {
    let record = image.record()?;
    let codes: Vec<u8> = image.trits().iter().map(|trit| trit.code()).collect();
    let mut short = vec![0; record.0.len() - 1];
    let answer = ffi::write_record(&mut short, image.layout().sizes()?, &codes);
    if let Err(refusal) = Refusal::check(answer.number) {
        println!("one byte short: {refusal}");
    }
    println!("record of {} bytes", record.0.len());
    print!("{}", record.list());
    Ok(record)
}

/// The first slot that the record's image does not hold as the rows do, or SLOTS.
fn first_other(table: &Layout, rows: &[Vec<Trit>], record: &Record) -> Result<u32, Refusal> {
    let image = table.image(&record.read()?.1)?;
    for slot in 0..SLOTS {
        if image.row(slot)? != rows[slot as usize] {
            return Ok(slot);
        }
    }
    Ok(SLOTS)
}

const FEW: usize = 16;
const ADDR: usize = 4;

/// The first slots with a write port and a read port as registers: what the log asks for.
fn lower(rows: &[Vec<Trit>]) -> Result<(), Refusal> {
    let write = WritePort { addr: Net(10).run(ADDR), data: Net(14).run(BITS), mask: Net(17).run(BITS), clock: Control::Pos(Net(5)) };
    let read = ReadPort { addr: Net(20).run(ADDR), data_len: BITS, flip_flop: None, relations: vec![] };
    let init_value = rows[..FEW].concat();
    let memory = Memory { depth: FEW as u32, width: BITS as u32, init_value, write_ports: vec![write], read_ports: vec![read] };
    let given = memory.lowered();
    let mut short = vec![0; fallback_scratch(&given.memory) - 1];
    let st = ffi::LogState { used: 0, next: 100 };
    let answer = ffi::lower_fallback(&mut [0; 2000], st, &mut short, given.memory, &given.nets, &given.trits, &[30, 31, 32]);
    if let Err(refusal) = Refusal::check(answer.number) {
        println!("scratch one word short: {refusal}");
    }
    let mut log = Log::new(2000, Net(100));
    memory.lower_fallback(&mut log, &Net(30).run(BITS))?;
    let flip_flops = log.entries().filter(|entry| matches!(entry.cell, Cell::FlipFlop { .. })).count();
    println!("{FEW} slots as registers: {} entries, {flip_flops} of them flip-flops, next net {}", log.entries().count(), log.next().0);
    Ok(())
}

fn main() -> Result<(), Refusal> {
    let (table, mut rows) = (table(), rows());
    let mut image = lay_out(&table, &rows)?;
    patch(&mut image, &mut rows, 700, "011")?;
    patch(&mut image, &mut rows, 701, "XXX")?;
    if let Err(refusal) = patch(&mut image, &mut rows, SLOTS, "011") {
        println!("slot 1024: {refusal}");
    }
    let mut record = write_record(&image)?;
    let other = first_other(&table, &rows, &record)?;
    println!("slots read back alike: {other}");
    // The lowest known bit of byte 300 of the bit arrays, and its value bit, are cleared: the trit becomes X.
    let half = (record.0.len() - HEAD_BYTES) / 2;
    record.0[HEAD_BYTES + 300] &= 0xFE;
    record.0[HEAD_BYTES + half + 300] &= 0xFE;
    println!("a trit of the record lost: slot {} differs", first_other(&table, &rows, &record)?);
    lower(&rows)?;
    assert_eq!(other, SLOTS);
    Ok(())
}
