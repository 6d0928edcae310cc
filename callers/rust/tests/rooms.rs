//! Every call that writes into lent room: exact rooms, larger ones, each one short by one and each one empty, and a refused input. All rooms hold a
//! pattern, and every word of them is compared.

mod common;

use common::*;
use tablegoose::ffi::{self, Control, Laid, Sizes};

/// Runs a call on rooms of these lengths: its number, and the rooms after it.
fn run(call: &Call, like: &[Room], lens: &[usize]) -> (u32, Vec<Room>) {
    let mut rooms = fresh(like, lens);
    let number = call(&mut rooms);
    (number, rooms)
}

/// The rooms of these lengths as they are before a call.
fn fresh(like: &[Room], lens: &[usize]) -> Vec<Room> {
    like.iter().zip(lens).map(|(room, &len)| room.of_len(len)).collect()
}

fn sweep(case: Case) {
    let (name, like) = (case.name, &case.rooms);
    let need: Vec<usize> = like.iter().map(Room::len).collect();
    let (number, exact) = run(&case.accepted, like, &need);
    assert_eq!(number, 0, "{name}: exact rooms");
    let larger: Vec<usize> = need.iter().map(|len| len + 3).collect();
    let (number, rooms) = run(&case.accepted, like, &larger);
    assert_eq!(number, 0, "{name}: larger rooms");
    for ((room, exact), &len) in rooms.into_iter().zip(&exact).zip(&need) {
        let (room, rest) = room.cut(len);
        assert_eq!(room, *exact, "{name}: another result in a larger room");
        assert_eq!(rest, rest.of_len(3), "{name}: something past the result was written");
    }
    for place in 0..need.len() {
        for short in [need[place].saturating_sub(1), 0] {
            let mut lens = need.clone();
            lens[place] = short;
            let (number, rooms) = run(&case.accepted, like, &lens);
            assert_eq!(number, 20, "{name}: room {place} of {short}");
            assert_eq!(rooms, fresh(like, &lens), "{name}: a call without room wrote");
        }
    }
    for lens in [need.clone(), larger, vec![0; need.len()]] {
        let (number, rooms) = run(&case.refused.1, like, &lens);
        assert_eq!(number, case.refused.0, "{name}: a refused input");
        assert_eq!(rooms, fresh(like, &lens), "{name}: a refused call wrote");
    }
}

/// A call with one room of bytes: its need, an accepted input, and a number with an input that it refuses.
fn byte_room(name: &'static str, need: usize, good: impl Fn(&mut [u8]) -> u32 + 'static, number: u32, bad: impl Fn(&mut [u8]) -> u32 + 'static) {
    sweep(case(name, vec![bytes(need)], move |r| good(r[0].bytes()), number, move |r| bad(r[0].bytes())));
}

/// The same with a room of words.
fn word_room(name: &'static str, need: usize, good: impl Fn(&mut [u32]) -> u32 + 'static, number: u32, bad: impl Fn(&mut [u32]) -> u32 + 'static) {
    sweep(case(name, vec![words(need)], move |r| good(r[0].words()), number, move |r| bad(r[0].words())));
}

#[test]
fn constants_and_values() {
    byte_room("const_not", 3, |out| ffi::const_not(out, &[0, 1, 2]), 4, |out| ffi::const_not(out, &[3]));
    byte_room("const_and", 2, |out| ffi::const_and(out, &[0, 1], &[2, 1]), 2, |out| ffi::const_and(out, &[3], &[0, 1]));
    byte_room("const_or", 2, |out| ffi::const_or(out, &[0, 1], &[2, 1]), 4, |out| ffi::const_or(out, &[0, 0], &[0, 255]));
    word_room("zext", 3, |out| ffi::zext(out, &[9, 8], 3), 2, |out| ffi::zext(out, &[9, 8], 1));
    let select = |waddr: &'static [u32]| move |out: &mut [u32]| ffi::narrower_select(out, waddr, &[1], 0, 2).number;
    word_room("narrower_select", 2, select(&[7, 8, 9]), 14, select(&[7]));
}

#[test]
fn requests_of_values() {
    let (st, bad) = (state(), 100);
    word_room("add_not", 6, move |log| ffi::add_not(log, st, &[8, 9]).number, 4, move |log| ffi::add_not(log, st, &[bad]).number);
    let and = move |b: &'static [u32]| move |log: &mut [u32]| ffi::add_and(log, st, &[8, 9], b).number;
    word_room("add_and", 8, and(&[1, 2]), 2, and(&[1]));
    let or = move |b: [u32; 2]| move |log: &mut [u32]| ffi::add_or(log, st, &[8, 9], &b).number;
    word_room("add_or", 8, or([1, 2]), 4, or([1, bad]));
    let eq = move |b: &'static [u32]| move |log: &mut [u32]| ffi::add_eq(log, st, &[8, 9], b).number;
    word_room("add_eq", 8, eq(&[1, 2]), 2, eq(&[]));
    let replace = move |to: &'static [u32]| move |log: &mut [u32]| ffi::replace_value(log, st, &[8, 9], to).number;
    word_room("replace_value", 8, replace(&[1, 2]), 2, replace(&[1, 2, 3]));
    let shl = move |select: u32| move |log: &mut [u32]| ffi::add_shl(log, st, 4, &[select], &[9, 1]).number;
    word_room("add_shl", 9, shl(8), 4, shl(bad));
    let ushr = move |net: u32| move |log: &mut [u32]| ffi::add_ushr(log, st, 4, &[8], &[9, net]).number;
    word_room("add_ushr", 9, ushr(1), 4, ushr(bad));
    word_room(
        "add_void",
        4,
        move |log| ffi::add_void(log, st, 3).number,
        20,
        move |log| {
            // It has no number for its input: a log that is used past its end.
            ffi::add_void(log, ffi::LogState { used: 1_000, ..st }, 3).number
        },
    );
}

#[test]
fn requests_with_controls() {
    let st = state();
    let neg = |net: u32| Control { polarity: 1, net };
    let mux = move |a: &'static [u32]| move |log: &mut [u32]| ffi::add_mux(log, st, neg(7), a, &[1, 2]).number;
    word_room("add_mux", 9, mux(&[8, 9]), 1, mux(&[9; 4_097]));
    let dff = move |reset: &'static [u8]| move |log: &mut [u32]| ffi::add_dff(log, st, controls(), &[8], &[0], reset, &[2]).number;
    word_room("add_dff", 17, dff(&[1]), 2, dff(&[]));
    let into_pos = move |c: Control| move |log: &mut [u32]| ffi::into_pos(log, st, c).number;
    word_room("into_pos", 5, into_pos(neg(7)), 4, into_pos(Control { polarity: 2, net: 7 }));
    let remap = move |reset_over_enable: u32| {
        let c = ffi::Controls { reset: neg(7), enable: neg(8), reset_over_enable, ..controls() };
        move |log: &mut [u32]| ffi::remap_reset_over_enable(log, st, c).number
    };
    word_room("remap_reset_over_enable", 16, remap(0), 4, remap(2));
}

/// A merge with its log and the room of its result.
fn two(call: impl Fn(&mut [u32], &mut [u32]) -> u32 + 'static) -> impl Fn(&mut [Room]) -> u32 + 'static {
    move |rooms| {
        let [log, out] = rooms else { panic!("two rooms") };
        call(log.words(), out.words())
    }
}

#[test]
fn merges() {
    let st = state();
    let mux = move |b: &'static [u32]| two(move |log, out| ffi::add_dedup_mux(log, st, out, pos(7), &[8, 9, 8], b).number);
    sweep(case("add_dedup_mux", vec![words(9), words(3)], mux(&[1, 2, 1]), 2, mux(&[1])));
    let dff = move |clear: [u8; 2]| two(move |log, out| ffi::add_dedup_dff(log, st, out, controls(), &[8, 8], &clear, &[1, 1], &[2, 2]).number);
    sweep(case("add_dedup_dff", vec![words(17), words(2)], dff([0, 0]), 4, dff([0, 3])));
    let bitwise = move |s: [u32; 3]| two(move |log, out| ffi::add_bitwise_mux(log, st, out, &s, &[8, 8, 8], &[1, 1, 1]).number);
    sweep(case("add_bitwise_mux", vec![words(14), words(3)], bitwise([7, 7, 6]), 4, bitwise([7, 7, 100])));
}

#[test]
fn memories_and_plans() {
    let extract = |list: &'static [u32]| {
        move |r: &mut [Room]| {
            let [nets, trits, output] = r else { panic!("three rooms") };
            ffi::extract_read_ports(nets.words(), trits.bytes(), output.words(), memory(), &NETS, &TRITS, list, &[80]).number
        }
    };
    sweep(case("extract_read_ports", vec![words(5), bytes(8), words(2)], extract(&[0, 0]), 15, extract(&[1])));
    let entries = |granularities: &'static [u32]| move |out: &mut [u32]| ffi::make_data_swizzle(out, memory(), &NETS, &TRITS, granularities).number;
    word_room("make_data_swizzle", 4, entries(&[4]), 5, entries(&[]));
    let depths = |entries: &'static [u32]| move |out: &mut [u32]| ffi::swizzle_depths(out, memory(), &NETS, &TRITS, plan(), entries, &[0], &[0]);
    word_room("swizzle_depths", 2, depths(&[0]), 7, depths(&[1]));
}

/// A call that changes a memory, the state and lent arrays in place; a refused one leaves all of them.
fn changing(before: ffi::Memory, driven: ffi::Driven, kept: bool) -> u32 {
    let same = driven.memory == before && driven.state == state() && kept;
    assert_eq!(same, driven.number != 0);
    driven.number
}

#[test]
fn ports() {
    let unmap = |port: usize| {
        move |log: &mut [u32]| {
            let mut output = [80];
            let driven = ffi::unmap_read_dff(log, state(), &mut output, memory(), &NETS, &TRITS, port);
            changing(memory(), driven, output == [80])
        }
    };
    word_room("unmap_read_dff", 47, unmap(0), 15, unmap(1));
    let reset = |port: usize| {
        move |log: &mut [u32]| {
            let (mut output, mut trits) = ([80], TRITS);
            let driven = ffi::unmap_read_init_reset_transparency(log, state(), &mut output, &mut trits, memory(), &NETS, port, true);
            changing(memory(), driven, output == [80] && trits == TRITS)
        }
    };
    word_room("unmap_read_init_reset_transparency", 84, reset(0), 15, reset(1));
    let emulate = |clocked: u32| {
        move |log: &mut [u32]| {
            let (mut nets, mut m) = (NETS, memory());
            (m.read_ports[0].relations[0], m.read_ports[0].clocked) = (1, clocked);
            let driven = ffi::emulate_read_before_write(log, state(), &mut nets, m, &TRITS);
            changing(m, driven, nets == NETS)
        }
    };
    word_room("emulate_read_before_write", 51, emulate(1), 22, emulate(0));
}

#[test]
fn overlays() {
    let mux = |write: usize, masked: bool| {
        move |r: &mut [Room]| {
            let [log, bits, rest @ ..] = r else { panic!("two rooms") };
            let mut none = words(0);
            let mask = rest.first_mut().unwrap_or(&mut none).words();
            let (log, bits) = (log.words(), bits.words());
            ffi::transparency_mux(log, state(), bits, mask, memory(), &NETS, &TRITS, 0, write, &[80], &[81], masked).number
        }
    };
    sweep(case("transparency_mux", vec![words(20), words(1)], mux(0, false), 15, mux(1, false)));
    sweep(case("transparency_mux with a mask", vec![words(33), words(1), words(1)], mux(0, true), 15, mux(1, true)));
}

/// The small memory's two rows in a memory each: log, image, nets, trits and scratch.
fn swizzle_rooms() -> Vec<Room> {
    vec![words(60), bytes(2), words(4), bytes(6), words(2)]
}

#[test]
fn swizzles() {
    let swizzle = |entries: &'static [u32]| {
        move |r: &mut [Room]| {
            let [log, image, nets, trits, scratch] = r else { panic!("five rooms") };
            let (log, image, nets, trits, scratch) = (log.words(), image.bytes(), nets.words(), trits.bytes(), scratch.words());
            let s = ffi::swizzle(log, state(), image, nets, trits, scratch, memory(), &NETS, &TRITS, &[80], plan(), entries, &[0], &[0]);
            assert_eq!((s.state == state(), s.laid == ffi::unset(), s.memory.mems == 0), (s.number != 0, s.number != 0, s.number != 0));
            s.number
        }
    };
    sweep(case("swizzle", swizzle_rooms(), swizzle(&[0]), 7, swizzle(&[1])));
    let rooms = tablegoose::SwizzleRooms::of(&memory(), plan(), &[0], &[0], &[0]);
    assert_eq!(rooms, tablegoose::SwizzleRooms { image: 2, nets: 4, trits: 6, scratch: 2 });
    assert_eq!(tablegoose::SwizzleRooms::of(&memory(), plan(), &[0], &[0], &[]), tablegoose::SwizzleRooms::default());
}

/// Row 1 becomes X, and row 2 is not there.
const ROW_CALLS: [u32; 8] = [1, 0, 1, 2, 2, 0, 1, 2];

#[test]
fn swizzles_and_patches() {
    let swizzle = |output: &'static [u32]| {
        move |r: &mut [Room]| {
            let [log, image, nets, trits, scratch] = r else { panic!("five rooms") };
            let (log, image, nets, trits, scratch) = (log.words(), image.bytes(), nets.words(), trits.bytes(), scratch.words());
            let (mut numbers, m, p, e, o) = ([9; 3], memory(), plan(), &[0], output);
            let (calls, rows) = (&ROW_CALLS, &[2]);
            let both =
                ffi::swizzle_and_patch(log, state(), image, nets, trits, scratch, &mut numbers, m, &NETS, &TRITS, o, p, e, &[0], &[0], calls, rows);
            assert_eq!(numbers, if both.swizzled.number == 0 { [0, 15, 9] } else { [9; 3] });
            assert_eq!(both.patches, both.swizzled.number);
            both.swizzled.number
        }
    };
    sweep(case("swizzle_and_patch", swizzle_rooms(), swizzle(&[80]), 2, swizzle(&[])));
    // The room for the numbers alone is short: the swizzle is made, and no patch.
    let (mut log, mut image, mut nets, mut trits, mut scratch) = ([0; 60], [9; 2], [0; 4], [9; 6], [0; 2]);
    let (log, image, nets, trits, scratch) = (&mut log, &mut image, &mut nets, &mut trits, &mut scratch);
    let (m, p, e, o) = (memory(), plan(), &[0], &[80]);
    let both = ffi::swizzle_and_patch(log, state(), image, nets, trits, scratch, &mut [9], m, &NETS, &TRITS, o, p, e, &[0], &[0], &ROW_CALLS, &[2]);
    assert_eq!((both.swizzled.number, both.patches, *image), (0, 20, [1, 0]));
}

#[test]
fn fallbacks() {
    let lower = |output: &'static [u32]| {
        move |r: &mut [Room]| {
            let [log, scratch] = r else { panic!("two rooms") };
            let answer = ffi::lower_fallback(log.words(), state(), scratch.words(), memory(), &NETS, &TRITS, output);
            assert_eq!(answer.state == state(), answer.number != 0);
            answer.number
        }
    };
    sweep(case("lower_fallback", vec![words(170), words(4)], lower(&[80]), 2, lower(&[])));
    assert_eq!(tablegoose::fallback_scratch(&memory()), 4);
    assert_eq!(tablegoose::fallback_scratch(&ffi::Memory { depth: u32::MAX, width: u32::MAX, ..memory() }), 0);
    assert_eq!(tablegoose::fallback_scratch(&ffi::Memory { write_count: u32::MAX, ..memory() }), 0);
}

fn laid() -> Laid {
    ffi::laid_out(first(), &FIRST_ENTRIES)
}

#[test]
fn images() {
    let (p, e) = (first(), &FIRST_ENTRIES);
    let fill_rows = move |len: usize| move |image: &mut [u8]| ffi::fill_rows(image, p, e, &FIRST_ROWS[..len]);
    byte_room("fill_rows", 6, fill_rows(6), 2, fill_rows(5));
    let patch_row = move |row: u32| move |image: &mut [u8]| ffi::patch_row(image, p, e, row, &[2, 1]);
    byte_room("patch_row", 6, patch_row(2), 15, patch_row(3));
    let read_row = move |row: u32| move |room: &mut [u8]| ffi::read_row(room, p, e, &FIRST_ROWS, row);
    byte_room("read_row", 2, read_row(1), 15, read_row(3));
    let fill = |laid: Laid| move |image: &mut [u8]| ffi::fill(image, laid, &FIRST_ROWS);
    byte_room("fill", 6, fill(laid()), 23, fill(ffi::unset()));
    let patch = |laid: Laid| move |image: &mut [u8]| ffi::patch(image, laid, 2, &[2, 1]);
    byte_room("patch", 6, patch(laid()), 23, patch(ffi::unset()));
    let read_laid_row = |laid: Laid| move |room: &mut [u8]| ffi::read_laid_row(room, laid, &FIRST_ROWS, 1);
    byte_room("read_laid_row", 2, read_laid_row(laid()), 23, read_laid_row(ffi::unset()));
    // An image that is too short to read from.
    assert_eq!(ffi::read_row(&mut [0; 2], p, e, &FIRST_ROWS[..5], 1), 20);
    assert_eq!(ffi::read_laid_row(&mut [0; 2], laid(), &FIRST_ROWS[..5], 1), 20);
}

/// Two patches: row 2 becomes X 1, and row 3 is not there.
const CALLS: [u32; 8] = [2, 0, 2, 6, 3, 0, 2, 6];
const PATCHES: [u8; 2] = [2, 1];

#[test]
fn rows_and_patches_at_once() {
    let by_layout = |rows: &'static [u8]| {
        move |r: &mut [Room]| {
            let [image, numbers] = r else { panic!("two rooms") };
            ffi::fill_then_patch(image.bytes(), numbers.words(), first(), &FIRST_ENTRIES, rows, &CALLS, &PATCHES)
        }
    };
    sweep(case("fill_then_patch", vec![bytes(6), words(2)], by_layout(&FIRST_ROWS), 4, by_layout(&[1, 0, 2, 1, 0, 3])));
    let by_state = |rows: &'static [u8]| {
        move |r: &mut [Room]| {
            let [image, numbers] = r else { panic!("two rooms") };
            ffi::fill_and_patch(image.bytes(), numbers.words(), laid(), rows, &CALLS, &PATCHES)
        }
    };
    sweep(case("fill_and_patch", vec![bytes(6), words(2)], by_state(&FIRST_ROWS), 2, by_state(&[])));
}

/// The list on an image that holds the first example, by the layout or by the state: its number, the image and the numbers after it.
fn patched(by_state: bool, set: bool, image_len: usize, room: usize) -> (u32, [u8; 6], [u32; 3]) {
    let (mut image, mut numbers) = (FIRST_ROWS, [9; 3]);
    let (buffer, out) = (&mut image[..image_len], &mut numbers[..room]);
    let p = if set { first() } else { ffi::Params { unit: 0, ..first() } };
    let number = match by_state {
        false => ffi::patch_each(buffer, out, p, &FIRST_ENTRIES, &CALLS, &PATCHES),
        true => ffi::patch_all(buffer, out, if set { laid() } else { ffi::unset() }, &CALLS, &PATCHES),
    };
    (number, image, numbers)
}

#[test]
fn lists_of_patches() {
    for by_state in [false, true] {
        for room in [2, 3] {
            assert_eq!(patched(by_state, true, 6, room), (0, [1, 0, 2, 1, 2, 1], [0, 15, 9]));
        }
        for room in [0, 1] {
            assert_eq!(patched(by_state, true, 6, room), (20, FIRST_ROWS, [9; 3]));
        }
        // A buffer without room for the image, and no swizzle: each call has its own number.
        for len in [5, 0] {
            assert_eq!(patched(by_state, true, len, 3), (0, FIRST_ROWS, [20, 15, 9]));
        }
        assert_eq!(patched(by_state, false, 6, 3), (0, FIRST_ROWS, [23, 23, 9]));
    }
}

#[test]
fn records() {
    let sizes = Sizes { unit: 2, full: 1, full_depth: 2, partial: 1, partial_depth: 1 };
    let write = |sizes: Sizes| move |out: &mut [u8]| ffi::write_record(out, sizes, &FIRST_ROWS).number;
    byte_room("write_record", 14, write(sizes), 17, write(Sizes::default()));
    let read = |from: usize| move |image: &mut [u8]| ffi::read_record(image, &FIRST_RECORD[from..]).number;
    byte_room("read_record", 6, read(0), 16, read(1));
    // An image that is too short to write from.
    assert_eq!(ffi::write_record(&mut [0; 14], sizes, &FIRST_ROWS[..5]).number, 20);
    assert_eq!(ffi::memory_summary(sizes, &FIRST_ROWS[..5], 0).number, 20);
}

/// A listing has no number but 20: a refused record has a text too.
#[test]
fn listings() {
    for (bytes, text) in [(&FIRST_RECORD[..], FIRST_LIST), (&FIRST_RECORD[..13], "refused 16\n")] {
        for (len, whole) in [0, text.len() - 1, text.len(), text.len() + 3].into_iter().flat_map(|len| [(len, true), (len, false)]) {
            let mut out = vec![0xA5; len];
            let answer = match whole {
                true => ffi::list_record(&mut out, bytes),
                false => ffi::list_input(&mut out, bytes, bytes.len()),
            };
            let expected = if len < text.len() { (20, "") } else { (0, text) };
            assert_eq!((answer.number, &out[..answer.count]), (expected.0, expected.1.as_bytes()), "a room of {len}");
            assert!(out[answer.count..].iter().all(|&byte| byte == 0xA5), "a room of {len}");
        }
    }
}
