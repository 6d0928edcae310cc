//! Document 01's examples through the safe types, and the values of the calls that lend no room.

mod common;

use common::{FIRST_LIST, FIRST_RECORD, NETS, TRITS, controls, memory, plan, pos};
use tablegoose::*;

/// A plan of a row's entries, -1 for none.
fn split(entries: &[i32], mask: u32, hard: u32, unit: u32) -> Swizzle {
    Swizzle {
        data_swizzle: entries.iter().map(|&entry| u32::try_from(entry).ok()).collect(),
        soft_addr_bits_mask: mask,
        hard_addr_bits: hard,
        data_width_unit: unit,
        ..Swizzle::default()
    }
}

fn bare(depth: u32, width: u32) -> Memory {
    Memory { depth, width, init_value: vec![Trit::Zero; (depth * width) as usize], ..Memory::default() }
}

fn number<T>(result: Result<T, Refusal>) -> u32 {
    result.err().map_or(0, Refusal::number)
}

/// Memory and row of a row's first entry.
fn place(depth: u32, width: u32, plan: &Swizzle, row: u32) -> (u64, u64, u64) {
    let place = Layout::new(depth, width, plan).place_of(row, 0).expect("a place");
    (place.memory, place.row, place.bit)
}

#[test]
fn depths_and_places() {
    let plan = split(&[0, 1], 0, 1, 2);
    assert_eq!(bare(3, 2).swizzle_depths(&plan), Ok(vec![2, 1]));
    assert_eq!(place(3, 2, &plan, 2), (1, 0, 0));
    let plan = split(&[0, 1, 2], 0, 1, 2);
    assert_eq!(bare(3, 3).swizzle_depths(&plan), Ok(vec![2, 2, 1]));
    assert_eq!(place(3, 3, &plan, 2), (1, 0, 1));
    assert_eq!(place(4, 1, &split(&[0], 2, 1, 1), 2), (1, 0, 0));
    let plan = split(&[0], 4, 1, 1);
    assert_eq!((place(8, 1, &plan, 4).0, place(8, 1, &plan, 6).0), (2, 3));
    let plan = split(&[0], 1, 2, 1);
    assert_eq!(bare(6, 1).swizzle_depths(&plan), Ok(vec![3, 3]));
    assert_eq!(number(bare(5, 1).swizzle_depths(&plan)), 8);
    assert_eq!(number(bare(32_768, 1).check()), 0);
    assert_eq!(number(bare(32_769, 1).check()), 1);
}

fn with_mask(width: u32, masks: &[&[u32]]) -> Memory {
    let port = |mask: &&[u32]| WritePort {
        addr: vec![Net(10)],
        data: Net(20).run(mask.len()),
        mask: mask.iter().map(|&net| Net(net)).collect(),
        clock: Control::Pos(Net(5)),
    };
    Memory { write_ports: masks.iter().map(port).collect(), ..bare(2, width) }
}

#[test]
fn entries_of_a_row() {
    let bits = |list: &[i32]| Ok(split(list, 0, 0, 1).data_swizzle);
    assert_eq!(with_mask(3, &[&[7, 7, 8]]).make_data_swizzle(&[2]), bits(&[0, 1, 2, -1]));
    assert_eq!(with_mask(3, &[&[7, 8, 8]]).make_data_swizzle(&[2]), bits(&[0, -1, 1, 2]));
    let twelve = [&[0, 1, 2, 3][..], &[-1; 8]].concat();
    assert_eq!(with_mask(4, &[&[7; 4], &[7; 4]]).make_data_swizzle(&[3, 4]), bits(&twelve));
}

#[test]
fn mux_bits() {
    for (chunks, expected) in [(1, 0), (2, 1), (5, 3)] {
        let memory = with_mask(1, &[&[7]]);
        let memory = Memory { depth: chunks, init_value: vec![Trit::X; chunks as usize], ..memory };
        let plan = Swizzle { write_wide_log2: vec![0], ..split(&[0], 0, 0, 1) };
        assert_eq!(memory.swizzle_mux_bits(&[], &plan), Ok(MuxBits { writes: vec![expected], reads: vec![] }));
    }
    assert_eq!(number(with_mask(1, &[&[7]]).swizzle_mux_bits(&[0], &split(&[0], 0, 0, 1))), 9);
}

#[test]
fn record_of_the_first_example() {
    let layout = Layout::new(3, 2, &split(&[0, 1], 0, 1, 2));
    let image = layout.fill(&trits("10X100").expect("trits")).expect("an image");
    let record = image.record().expect("a record");
    assert_eq!(record.0, FIRST_RECORD);
    assert_eq!(record.list(), FIRST_LIST);
    assert_eq!(list_input(&record.0, 14), FIRST_LIST);
    assert_eq!(list_input(&record.0[..12], 40_000), "refused 16\n");
    assert_eq!(record.read(), Ok((layout.sizes().expect("sizes"), image.trits())));
    assert_eq!(record.header(), layout.sizes());
    assert_eq!(number(Record(FIRST_RECORD[..13].to_vec()).read()), 16);
    assert_eq!(number(Record::write(Sizes::default(), &[])), 17);
    let summary = image.summary(0).expect("a memory");
    assert_eq!((summary.index, summary.depth, summary.known, summary.ones), (0, 2, 3, 2));
    assert_eq!(memory_summary(layout.sizes().expect("sizes"), &image.trits(), 0), Ok(summary));
    assert_eq!(number(image.summary(2)), 15);
}

#[test]
fn patches() {
    let layout = Layout::new(8, 1, &split(&[0], 4, 1, 1));
    let mut image = layout.fill(&[Trit::Zero; 8]).expect("an image");
    let one = |row| Patch { row, trits: vec![Trit::One] };
    assert_eq!(image.patch_each(&[one(6), one(8), Patch { row: 0, trits: vec![] }]), Ok(vec![0, 15, 4]));
    assert_eq!(image.row(6), Ok(vec![Trit::One]));
    let (again, numbers) = layout.fill_then_patch(&[Trit::Zero; 8], &[one(6), one(8)]).expect("an image");
    assert_eq!((&again, numbers), (&image, vec![0, 15]));
    let laid = layout.laid_out();
    let mut other = laid.fill(&[Trit::Zero; 8]).expect("an image");
    assert_eq!(laid.patch_all(&mut other, &[one(8), one(5)]), Ok(vec![15, 0]));
    assert_eq!((laid.patch(&mut other, 5, &[Trit::Zero]), laid.patch(&mut other, 6, &[Trit::One])), (Ok(()), Ok(())));
    assert_eq!((&other, laid.read_row(&other, 6), laid.layout()), (&image, Ok(vec![Trit::One]), layout.clone()));
    assert_eq!(laid.fill_and_patch(&[Trit::Zero; 8], &[one(6)]), Ok((other, vec![0])));
    assert_eq!((number(Laid::unset().fill(&[])), number(Laid::unset().patch(&mut image, 6, &[Trit::One]))), (23, 23));
    assert_eq!((number(Laid::unset().sizes()), number(Laid::unset().read_row(&image, 6))), (23, 23));
    assert_eq!(Laid::unset().patch_all(&mut image, &[one(6)]), Ok(vec![23]));
    assert_eq!(number(image.patch(8, &[Trit::One])), 15);
    assert_eq!(again, image);
    assert_eq!(number(layout.fill(&[Trit::Zero; 7])), 2);
    assert_eq!(number(Layout::new(8, 1, &split(&[0], 4, 1, 0)).fill(&[Trit::Zero; 8])), 23);
    assert_eq!(number(layout.image(&[Trit::X])), 20);
    assert_eq!(layout.image(&image.trits()), Ok(image));
}

#[test]
fn trits_nets_and_controls() {
    let three = [Trit::Zero, Trit::One, Trit::X];
    assert_eq!(const_not(&three), Ok(trits("10X").expect("trits")));
    assert_eq!(const_and(&three, &[Trit::X; 3]), Ok(trits("0XX").expect("trits")));
    assert_eq!(const_or(&three, &[Trit::X; 3]), Ok(trits("X1X").expect("trits")));
    assert_eq!(number(const_or(&three, &[])), 2);
    assert_eq!((Trit::X.and(Trit::Zero), Trit::X.or(Trit::One), Trit::X.inverted()), (Trit::Zero, Trit::One, Trit::X));
    assert!(is_undef(&[]) && is_undef(&[Trit::X]) && !is_undef(&three));
    assert_eq!((slice(&three, 1..3), number(slice(&three, 2..4))), (Ok(&three[1..]), 15));
    assert_eq!((Net::of_cell(3), number(Net::of_cell(u32::MAX))), (Ok(Net(5)), 4));
    assert_eq!((Net(5).driver(), Net::X.driver()), (Driver::Cell(3), Driver::Constant(Trit::X)));
    assert_eq!((Net::ONE.as_const(), Net(5).as_const(), Net(5).is_const()), (Some(Trit::One), None, false));
    assert_eq!((Control::ZERO.inverse(), Control::Pos(Net(5)).inverse()), (Ok(Control::ONE), Ok(Control::Neg(Net(5)))));
    assert_eq!((number(Control::Neg(Net::ONE).inverse()), Control::ONE.is_always(true)), (4, Ok(true)));
    assert_eq!((value_is_undef(&[Net::X]), number(value_is_undef(&[Net(u32::MAX - 1)]))), (Ok(true), 4));
    assert_eq!((zext(&[Net(5)], 2), number(zext(&[Net(5)], 0))), (Ok(vec![Net(5), Net::ZERO]), 2));
    let (long, short) = (Net(5).run(3), Net(9).run(1));
    assert_eq!(narrower_select(&long, &short, 0, 2), Ok(Net(5).run(2)));
    assert_eq!(number(narrower_select(&short, &long, 0, 2)), 14);
    assert_eq!((wide_log2(3, 12), number(wide_log2(3, 7))), (Ok(2), 2));
    assert_eq!(number(trits("1?")), 4);
}

#[test]
fn refusals_have_texts() {
    for number in (1..=23).filter(|&number| number != 19) {
        let refusal = Refusal::check(number).expect_err("a number");
        assert!(refusal.text() != "no refusal number" && refusal.to_string().starts_with(&format!("refused {number}: ")));
    }
    assert_eq!(Refusal::check(19).expect_err("a number").text(), "no refusal number");
}

#[test]
fn log_entries_are_read_back() {
    let mut log = Log::new(1_000, Net(100));
    let f = FlipFlop {
        controls: Controls::clocked(Control::Neg(Net(5))),
        clear_value: vec![Trit::X],
        reset_value: vec![Trit::One],
        init_value: vec![Trit::Zero],
    };
    let (a, b) = (Net(8).run(2), Net(20).run(2));
    assert_eq!(log.add_void(2), Ok(Net(100).run(2)));
    assert_eq!(log.add_not(&a), Ok(Net(102).run(2)));
    assert_eq!(log.add_and(&a, &b), Ok(Net(104).run(2)));
    assert_eq!(log.add_or(&a, &b), Ok(Net(106).run(2)));
    assert_eq!(log.add_mux(Control::Neg(Net(7)), &a, &b), Ok(Net(108).run(2)));
    assert_eq!(log.add_eq(&a, &b), Ok(Net(110)));
    assert_eq!(log.add_shl(4, &a, &b), Ok(Net(111).run(2)));
    assert_eq!(log.add_ushr(4, &a, &b), Ok(Net(113).run(2)));
    assert_eq!(log.add_dff(&[Net(9)], &f), Ok(Net(115).run(1)));
    assert_eq!(log.replace_value(&a, &b), Ok(()));
    assert_eq!(log.into_pos(Control::Neg(Net(9))), Ok(Net(116)));
    let before = log.clone();
    assert_eq!(number(log.add_not(&[Net(1_000)])), 4);
    assert_eq!(number(log.add_void(u32::MAX)), 21);
    assert_eq!(log, before);
    let cells: Vec<Cell> = log.entries().map(|entry| entry.cell).collect();
    let expected = [
        Cell::Void,
        Cell::Not(a.clone()),
        Cell::And(a.clone(), b.clone()),
        Cell::Or(a.clone(), b.clone()),
        Cell::Mux { select: Net(7), then: b.clone(), other: a.clone() },
        Cell::Eq(a.clone(), b.clone()),
        Cell::Shl { stride: 4, select: a.clone(), value: b.clone() },
        Cell::Ushr { stride: 4, select: a.clone(), value: b.clone() },
        Cell::FlipFlop { data: vec![Net(9)], flip_flop: f },
        Cell::Replace { from: a, to: b },
        Cell::Not(vec![Net(9)]),
    ];
    assert_eq!(cells, expected);
    assert_eq!(log.entries().map(|entry| entry.made.len()).sum::<usize>(), 17);
}

#[test]
fn merges_keep_equal_bits_once() {
    let mut log = Log::new(1_000, Net(100));
    let (a, b) = ([Net(8), Net(9), Net(8)], [Net(1), Net(1), Net(1)]);
    assert_eq!(log.add_dedup_mux(Control::Pos(Net(7)), &a, &b), Ok(vec![Net(100), Net(101), Net(100)]));
    assert_eq!(log.add_bitwise_mux(&[Net(7), Net(6), Net(6)], &a, &b), Ok(vec![Net(102), Net(103), Net(104)]));
    let f = FlipFlop {
        controls: Controls::clocked(Control::Pos(Net(5))),
        clear_value: vec![Trit::X; 3],
        reset_value: vec![Trit::X; 3],
        init_value: vec![Trit::X, Trit::X, Trit::Zero],
    };
    assert_eq!(log.add_dedup_dff(&a, &f), Ok(vec![Net(105), Net(106), Net(107)]));
    let c = Controls { reset: Control::Pos(Net(6)), enable: Control::Neg(Net(7)), ..f.controls };
    let remapped = log.remap_reset_over_enable(c).expect("controls");
    assert_eq!(remapped, Controls { reset: Control::Pos(Net(109)), reset_over_enable: true, ..c });
    assert_eq!(number(log.add_dedup_mux(Control::Neg(Net::X), &a, &b)), 4);
}

/// A memory with a write port and two read ports, one of them clocked.
fn ported() -> Memory {
    let f = FlipFlop {
        controls: Controls::clocked(Control::Pos(Net(5))),
        clear_value: vec![Trit::X],
        reset_value: vec![Trit::One],
        init_value: vec![Trit::Zero],
    };
    let clocked = ReadPort { addr: vec![Net(60)], data_len: 1, flip_flop: Some(f), relations: vec![Relation::Transparent] };
    let plain = ReadPort { addr: vec![Net(61), Net(62)], data_len: 2, flip_flop: None, relations: vec![] };
    Memory { read_ports: vec![clocked, plain], ..with_mask(1, &[&[7]]) }
}

#[test]
fn memories() {
    let memory = ported();
    assert_eq!((memory.check(), memory.output_len()), (Ok(()), Ok(3)));
    assert_eq!((memory.read_port_output_slice(1), number(memory.read_port_output_slice(2))), (Ok(1..3), 15));
    assert_eq!(memory.can_lower_fallback(), Ok(true));
    assert_eq!(memory.lowered().lifted(), memory);
    let (extracted, output) = memory.extract_read_ports(&[1, 0, 1], &Net(80).run(3)).expect("a memory");
    let ports = [1, 0, 1].map(|port: usize| memory.read_ports[port].clone());
    assert_eq!(extracted, Memory { read_ports: ports.to_vec(), ..memory.clone() });
    assert_eq!(output, [81, 82, 80, 81, 82].map(Net));
    assert_eq!(number(memory.extract_read_ports(&[2], &Net(80).run(3))), 15);
    assert_eq!(number(memory.extract_read_ports(&[0], &Net(80).run(2))), 2);
    let nine = Memory { read_ports: vec![memory.read_ports[1].clone(); 9], ..memory.clone() };
    assert_eq!(number(nine.check()), 1);
    let clocks = Memory {
        write_ports: vec![memory.write_ports[0].clone(), WritePort { clock: Control::Neg(Net(5)), ..memory.write_ports[0].clone() }],
        read_ports: vec![],
        ..memory
    };
    assert_eq!(clocks.can_lower_fallback(), Ok(false));
}

/// The clocked port reads at once into a new net; its flip-flop and the write port's data stand behind it in the log.
#[test]
fn read_flip_flops_are_unmapped() {
    let (before, mut log, mut output) = (ported(), Log::new(1_000, Net(100)), Net(80).run(3));
    let mut memory = before.clone();
    assert_eq!(memory.unmap_read_dff(&mut log, &mut output, 0), Ok(()));
    assert_eq!(output, [100, 81, 82].map(Net));
    let plain = ReadPort { flip_flop: None, relations: vec![], ..before.read_ports[0].clone() };
    assert_eq!(memory, Memory { read_ports: vec![plain, before.read_ports[1].clone()], ..before.clone() });
    let cells: Vec<Cell> = log.entries().map(|entry| entry.cell).collect();
    let expected = [
        Cell::Void,
        Cell::Eq(vec![Net(60)], vec![Net(10)]),
        Cell::Mux { select: Net(101), then: vec![Net(7)], other: vec![Net::ZERO] },
        Cell::Mux { select: Net(102), then: vec![Net(20)], other: vec![Net(100)] },
        Cell::FlipFlop { data: vec![Net(103)], flip_flop: before.read_ports[0].flip_flop.clone().expect("a flip-flop") },
        Cell::Replace { from: vec![Net(80)], to: vec![Net(104)] },
    ];
    assert_eq!(cells, expected);
    // A port without a flip-flop stays; refused calls change nothing.
    let (again, words, outputs) = (memory.clone(), log.clone(), output.clone());
    assert_eq!(memory.unmap_read_dff(&mut log, &mut output, 0), Ok(()));
    assert_eq!(number(memory.unmap_read_dff(&mut log, &mut output, 2)), 15);
    assert_eq!(number(memory.unmap_read_dff(&mut log, &mut output[..2], 0)), 2);
    assert_eq!((&memory, &log, &output), (&again, &words, &outputs));
    let (mut memory, mut log, mut output) = (before.clone(), Log::new(20, Net(100)), Net(80).run(3));
    assert_eq!(number(memory.unmap_read_dff(&mut log, &mut output, 0)), 20);
    assert_eq!((memory, log, output), (before, Log::new(20, Net(100)), Net(80).run(3)));
}

/// The write port's data over one net that a read port reads, without a mask and with one.
#[test]
fn writes_are_laid_over_reads() {
    let (memory, mut log) = (ported(), Log::new(1_000, Net(100)));
    let plain = memory.transparency_mux(&mut log, 0, 0, &[Net(80)], None);
    assert_eq!(plain, Ok(Overlay { bits: vec![Net(102)], mask: None }));
    let masked = memory.transparency_mux(&mut log, 0, 0, &[Net(80)], Some(&[Net(81)])).expect("an overlay");
    assert_eq!((masked.bits.len(), masked.mask.map(|mask| mask.len())), (1, Some(1)));
    let before = log.clone();
    assert_eq!(number(memory.transparency_mux(&mut log, 2, 0, &[Net(80)], None)), 15);
    assert_eq!(number(memory.transparency_mux(&mut log, 0, 0, &[], None)), 2);
    assert_eq!(number(memory.transparency_mux(&mut log, 0, 0, &[Net(80)], Some(&[]))), 2);
    assert_eq!(number(memory.transparency_mux(&mut log, 0, 0, &[Net(999)], None)), 4);
    assert_eq!(log, before);
}

/// The port keeps its flip-flop, without an initial value; what it had stands behind it in the log.
#[test]
fn initial_values_are_unmapped() {
    let (before, mut log, mut output) = (ported(), Log::new(1_000, Net(100)), Net(80).run(3));
    let mut memory = before.clone();
    assert_eq!(memory.unmap_read_init_reset_transparency(&mut log, &mut output, 0, false), Ok(()));
    let undefined = vec![Trit::X];
    let f = before.read_ports[0].flip_flop.clone().expect("a flip-flop");
    let f = FlipFlop { clear_value: undefined.clone(), reset_value: undefined.clone(), init_value: undefined, ..f };
    let port = ReadPort { flip_flop: Some(f), ..before.read_ports[0].clone() };
    assert_eq!(memory, Memory { read_ports: vec![port, before.read_ports[1].clone()], ..before.clone() });
    assert_eq!((output[0] != Net(80), &output[1..]), (true, &Net(81).run(2)[..]));
    // Nothing is left but the transparency; refused calls change nothing.
    let (again, words, outputs) = (memory.clone(), log.clone(), output.clone());
    assert_eq!(memory.unmap_read_init_reset_transparency(&mut log, &mut output, 0, false), Ok(()));
    assert_eq!(number(memory.unmap_read_init_reset_transparency(&mut log, &mut output, 1, true)), 22);
    assert_eq!(number(memory.unmap_read_init_reset_transparency(&mut log, &mut output, 2, true)), 15);
    assert_eq!((&memory, &log, &output), (&again, &words, &outputs));
    assert_eq!(memory.unmap_read_init_reset_transparency(&mut log, &mut output, 0, true), Ok(()));
    assert_eq!(memory.read_ports[0].relations, [Relation::Undefined]);
}

/// The write port writes at the other edge of its clock, behind flip-flops.
#[test]
fn read_before_write_is_emulated() {
    let mut before = ported();
    before.read_ports.pop();
    before.read_ports[0].relations = vec![Relation::ReadBeforeWrite];
    let (mut memory, mut log) = (before.clone(), Log::new(1_000, Net(100)));
    assert_eq!(memory.emulate_read_before_write(&mut log), Ok(()));
    let write = WritePort { addr: vec![Net(100)], data: vec![Net(101)], mask: vec![Net(102)], clock: Control::Neg(Net(5)) };
    let read = ReadPort { relations: vec![Relation::Undefined], ..before.read_ports[0].clone() };
    assert_eq!(memory, Memory { write_ports: vec![write], read_ports: vec![read], ..before.clone() });
    let data: Vec<Vec<Net>> = log
        .entries()
        .map(|entry| match entry.cell {
            Cell::FlipFlop { data, .. } => data,
            cell => panic!("{cell:?}"),
        })
        .collect();
    assert_eq!(data, [[10], [20], [7]].map(|nets| nets.map(Net).to_vec()));
    let mut mixed = ported();
    assert_eq!(number(mixed.emulate_read_before_write(&mut log)), 22);
    mixed.read_ports[1] = before.read_ports[0].clone();
    assert_eq!(number(mixed.emulate_read_before_write(&mut log)), 13);
}

/// Each row of a memory with three ports in a memory of its own.
fn row_by_row() -> Swizzle {
    Swizzle { write_wide_log2: vec![0], read_wide_log2: vec![0, 0], ..split(&[0], 1, 0, 1) }
}

#[test]
fn memories_are_split() {
    let (memory, mut log, plan) = (ported(), Log::new(1_000, Net(100)), row_by_row());
    let split = memory.swizzle(&mut log, &Net(80).run(3), &plan).expect("memories");
    let made: Vec<Net> = log.entries().flat_map(|entry| entry.made).collect();
    assert_eq!(made, Net(100).run((log.next().0 - 100) as usize));
    assert_eq!((split.len(), split.is_empty(), split.memories().len()), (2, false, 2));
    let mut outputs = vec![];
    for part in split.memories() {
        assert_eq!((part.depth(), part.width(), part.image()), (1, 1, vec![Trit::Zero]));
        let write: Vec<WritePort> = part.write_ports().collect();
        assert_eq!((&write[0].addr[..], &write[0].data, write[0].clock), (&[][..], &Net(20).run(1), Control::Pos(Net(5))));
        assert!(made.contains(&write[0].mask[0]));
        let read: Vec<ReadPort> = part.read_ports().collect();
        let first = memory.read_ports[0].clone();
        assert_eq!(read[0], ReadPort { addr: vec![], ..first });
        assert_eq!((&read[1].addr[..], read[1].data_len, &read[1].flip_flop), (&[][..], 1, &None));
        outputs.extend(part.outputs());
        let alone = part.to_memory();
        assert_eq!((alone.check(), alone.output_len(), alone == Memory::from(part)), (Ok(()), Ok(2), true));
        assert_eq!((alone.init_value, alone.write_ports, alone.read_ports), (part.image(), write, read));
    }
    assert_eq!((outputs.len(), split.memory(2).is_none()), (4, true));
    let voids: Vec<Net> = log.entries().filter(|entry| entry.cell == Cell::Void).flat_map(|entry| entry.made).collect();
    assert!(outputs.iter().all(|net| voids.contains(net)) && voids.len() == 4);
    let replaced: Vec<Vec<Net>> = log
        .entries()
        .filter_map(|entry| match entry.cell {
            Cell::Replace { from, .. } => Some(from),
            _ => None,
        })
        .collect();
    assert_eq!(replaced, [Net(80).run(1), Net(81).run(2)]);
}

#[test]
fn split_memories_are_patched() {
    let (memory, plan, output) = (ported(), row_by_row(), Net(80).run(3));
    let mut log = Log::new(1_000, Net(100));
    let mut split = memory.swizzle(&mut log, &output, &plan).expect("memories");
    let one = |row| Patch { row, trits: vec![Trit::One] };
    let patches = [one(1), one(2), Patch { row: 0, trits: vec![] }];
    let (other, numbers) = memory.swizzle_and_patch(&mut Log::new(1_000, Net(100)), &output, &plan, &patches).expect("memories");
    assert_eq!(split.patch_each(&patches), Ok(numbers));
    assert_eq!(split, other);
    assert_eq!((split.row(1), split.memory(1).map(|part| part.image())), (Ok(vec![Trit::One]), Some(vec![Trit::One])));
    assert_eq!((split.patch(0, &[Trit::X]), number(split.patch(2, &[Trit::X]))), (Ok(()), 15));
    let (layout, rows) = (Layout::of(&memory, &plan), [Trit::X, Trit::One]);
    assert_eq!((split.image(), split.record()), (&layout.fill(&rows).expect("an image"), layout.fill(&rows).expect("an image").record()));
    assert_eq!((split.laid(), Ok(split.sizes())), (&layout.laid_out(), layout.sizes()));
}

#[test]
fn refused_swizzles_change_nothing() {
    let (memory, plan, output) = (ported(), row_by_row(), Net(80).run(3));
    let tried = |memory: &Memory, room: usize, next: u32, output: &[Net], plan: &Swizzle| {
        let mut log = Log::new(room, Net(next));
        let number = number(memory.swizzle(&mut log, output, plan));
        assert!(number == 0 || log == Log::new(room, Net(next)));
        number
    };
    assert_eq!(tried(&memory, 20, 100, &output, &plan), 20);
    assert_eq!(tried(&memory, 1_000, 16_777_216, &output, &plan), 21);
    assert_eq!(tried(&memory, 1_000, 100, &output[..2], &plan), 2);
    assert_eq!(tried(&memory, 1_000, 81, &output, &plan), 4);
    assert_eq!(tried(&memory, 1_000, 100, &output, &split(&[1], 1, 0, 1)), 7);
    assert_eq!(tried(&memory, 1_000, 100, &output, &Swizzle { soft_addr_bits_mask: 2, ..plan.clone() }), 8);
    assert_eq!(tried(&memory, 1_000, 100, &output, &Swizzle { soft_addr_bits_mask: 0, ..plan.clone() }), 9);
    // Without bits there is nothing to give; without rows the flip-flop is unmapped.
    let none = Memory { width: 0, ..bare(2, 0) };
    let mut log = Log::new(0, Net(2));
    assert!(none.swizzle(&mut log, &[], &split(&[-1], 0, 0, 1)).is_ok_and(|split| split.is_empty()));
    let empty = Memory { depth: 0, init_value: vec![], ..memory };
    let mut log = Log::new(1_000, Net(100));
    assert!(empty.swizzle(&mut log, &output, &plan).is_ok_and(|split| split.is_empty()));
    assert!(log.entries().last().is_some_and(|entry| matches!(entry.cell, Cell::Replace { to, .. } if to == [Net::X; 3])));
}

/// Each row is a void, a mux for the write port, a flip-flop that starts with the row, and replacements; the read ports select among the rows.
#[test]
fn memories_become_registers() {
    let memory = Memory { init_value: vec![Trit::One, Trit::X], ..ported() };
    let (mut log, output) = (Log::new(1_000, Net(100)), Net(80).run(3));
    assert_eq!(memory.lower_fallback(&mut log, &output), Ok(()));
    let made: Vec<Net> = log.entries().flat_map(|entry| entry.made).collect();
    assert_eq!(made, Net(100).run((log.next().0 - 100) as usize));
    let flip_flops: Vec<FlipFlop> = log
        .entries()
        .filter_map(|entry| match entry.cell {
            Cell::FlipFlop { flip_flop, .. } => Some(flip_flop),
            _ => None,
        })
        .collect();
    let row = |trit: Trit| FlipFlop {
        controls: Controls::clocked(Control::Pos(Net(5))),
        clear_value: vec![trit],
        reset_value: vec![trit],
        init_value: vec![trit],
    };
    let first = memory.read_ports[0].flip_flop.clone().expect("a flip-flop");
    assert_eq!(flip_flops, [first, row(Trit::One), row(Trit::X)]);
    // Without write ports a row is its trits.
    let table = Memory { write_ports: vec![], read_ports: vec![memory.read_ports[1].clone()], ..memory };
    let mut log = Log::new(1_000, Net(100));
    assert_eq!(table.lower_fallback(&mut log, &output[..2]), Ok(()));
    assert!(log.entries().any(|entry| matches!(entry.cell, Cell::Replace { to, .. } if to == [Net::ONE])));
}

#[test]
fn refused_fallbacks_change_nothing() {
    let (memory, output) = (ported(), Net(80).run(3));
    let tried = |memory: &Memory, room: usize, next: u32, output: &[Net]| {
        let mut log = Log::new(room, Net(next));
        let number = number(memory.lower_fallback(&mut log, output));
        assert!(number == 0 || log == Log::new(room, Net(next)));
        number
    };
    assert_eq!(tried(&memory, 20, 100, &output), 20);
    assert_eq!(tried(&memory, 1_000, 16_777_216, &output), 21);
    assert_eq!(tried(&memory, 1_000, 100, &output[..2]), 2);
    assert_eq!(tried(&memory, 1_000, 81, &output), 4);
    let other = WritePort { clock: Control::Neg(Net(5)), ..memory.write_ports[0].clone() };
    let clocks = Memory { write_ports: vec![memory.write_ports[0].clone(), other], read_ports: vec![], ..memory.clone() };
    assert_eq!(tried(&clocks, 1_000, 100, &[]), 11);
    // Without rows the flip-flop is unmapped, and the outputs become X.
    let empty = Memory { depth: 0, init_value: vec![], ..memory };
    let mut log = Log::new(1_000, Net(100));
    assert_eq!(empty.lower_fallback(&mut log, &output), Ok(()));
    assert!(log.entries().last().is_some_and(|entry| matches!(entry.cell, Cell::Replace { to, .. } if to == [Net::X; 3])));
}

/// Codes that the safe types do not have: 4, and every field of the answer 0.
#[test]
fn flags_and_polarities() {
    let bad = ffi::Control { polarity: 2, net: 7 };
    let refused = ffi::ControlAnswer { number: 4, control: ffi::Control::default() };
    assert_eq!(ffi::control_not(bad), refused);
    assert_eq!(ffi::control_is_always(pos(0), 2), ffi::Answer { number: 4, value: 0 });
    assert_eq!(ffi::trit_and(0, 3), ffi::Answer { number: 4, value: 0 });
    let (mut log, st) = ([7; 40], common::state());
    let logged = ffi::remap_reset_over_enable(&mut log, st, ffi::Controls { reset_over_enable: 2, ..controls() });
    assert_eq!((logged.number, logged.controls, logged.state, log), (4, ffi::Controls::default(), st, [7; 40]));
    let with = |change: fn(&mut ffi::Memory)| {
        let mut m = memory();
        change(&mut m);
        ffi::memory_refusal(m, &NETS, &TRITS)
    };
    assert_eq!(with(|_| ()), 0);
    assert_eq!(with(|m| m.read_ports[0].clocked = 2), 4);
    assert_eq!(with(|m| m.read_ports[0].reset_over_enable = 2), 4);
    assert_eq!(with(|m| m.write_ports[0].clock.polarity = 2), 4);
    assert_eq!(with(|m| m.read_ports[0].relations[0] = 3), 4);
    assert_eq!(with(|m| m.read_ports[0].relations_len = 9), 2);
    assert_eq!(with(|m| m.write_count = 9), 1);
    assert_eq!(with(|m| m.write_count = u32::MAX), 1);
    let bits = ffi::swizzle_mux_bits(memory(), &NETS, &TRITS, &[1], plan(), &[0], &[0], &[0]);
    assert_eq!(bits, ffi::MuxBits { refusal: 15, writes: [0; 8], reads: [0; 8] });
}
