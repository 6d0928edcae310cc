//! Document 01's examples and docs/CALLING.md's worked examples, word by word, and each number of each op.

use oracle::answer;
use oracle::cases::{examples, numbers, small};
use oracle::image::{Layout, Place};
use oracle::stats::Stats;
use oracle::wire::{Call, Words};

fn answered(words: &str) -> Vec<u32> {
    let given: Vec<u32> = words.split_whitespace().map(|word| word.parse().unwrap()).collect();
    answer(&given)
}

#[test]
fn wire_swizzle_with_patch() {
    let answer = answered("27 30  6  0 0 2  3 2  6 1 0 2 1 0 0  0 0  0  2 0 1  0  0  0  1 2  1  6 2  2 2 1");
    let memories = [2, 2, 2, 4, 1, 0, 2, 1, 0, 0, 0, 1, 2, 2, 0, 0, 0, 0, 0];
    let expected = [&[0, 31, 0, 2, 0][..], &memories, &[1, 0], &[6, 1, 0, 2, 1, 2, 1]].concat();
    assert_eq!(answer, expected);
}

#[test]
fn wire_record() {
    let answer = answered("31 13  14  2 1 2 1 1  6 1 0 2 1 0 0");
    assert_eq!(answer, [0, 15, 14, 5, 0, 2, 0, 1, 0, 2, 0, 1, 0, 1, 0, 59, 9]);
}

#[test]
fn lister_prints_document_01s_example() {
    let answer = answered("33 15  14 5 0 2 0 1 0 2 0 1 0 1 0 59 9");
    let text: String = answer[3..].iter().filter_map(|&word| char::from_u32(word)).collect();
    assert_eq!(text, "memories 2 trits 6\n0 2 3 2 load\n1 1 2 0 blank\n");
    let answer = answered("33 14  13 5 0 2 0 1 0 2 0 1 0 1 0 59");
    let text: String = answer[3..].iter().filter_map(|&word| char::from_u32(word)).collect();
    assert_eq!(text, "refused 16\n");
}

/// Width, depth, mask, hard bits and unit with entries in order; then depths.
#[test]
fn starred_depths() {
    let cases = [
        ((2, 3, 0, 1, 2), &[2, 1][..]),
        ((3, 3, 0, 1, 2), &[2, 2, 1]),
        ((1, 4, 2, 1, 1), &[2, 2]),
        ((1, 8, 4, 1, 1), &[2, 2, 2, 2]),
        ((1, 6, 1, 2, 1), &[3, 3]),
        ((1, 5, 1, 2, 1), &[]),
    ];
    let mut given = examples::all().into_iter().filter(|call| call.op() == 25);
    for ((width, depth, mask, hard, unit), depths) in cases {
        let Some(Call::SwizzleDepths(c)) = given.next() else { panic!("a call for depths") };
        assert_eq!((c.memory.width, c.memory.depth), (width, depth));
        assert_eq!((c.plan.soft_mask, c.plan.hard, c.plan.unit), (mask, hard, unit));
        let answer = answer(&Call::SwizzleDepths(c).case());
        if depths.is_empty() {
            assert_eq!(answer, [8, 0]);
        } else {
            assert_eq!(answer[3..], *depths);
        }
    }
}

#[test]
fn starred_places() {
    let layout = |depth, width, soft_mask, hard, unit| Layout {
        depth,
        width,
        entries: (0..width).collect(),
        soft_mask,
        hard,
        unit,
    };
    let place = |memory, row, bit| Place { memory, row, bit };
    assert_eq!(layout(3, 2, 0, 1, 2).place(2, 0), place(1, 0, 0));
    assert_eq!(layout(3, 3, 0, 1, 2).place(2, 0), place(1, 0, 1));
    assert_eq!(layout(4, 1, 2, 1, 1).place(2, 0), place(1, 0, 0));
    assert_eq!(layout(8, 1, 4, 1, 1).place(4, 0), place(2, 0, 0));
    assert_eq!(layout(8, 1, 4, 1, 1).place(6, 0), place(3, 0, 0));
}

#[test]
fn starred_rows_and_chunk_bits() {
    let none = u32::MAX;
    let rows: Vec<Vec<u32>> =
        examples::all().iter().filter(|call| call.op() == 24).map(|call| answer(&call.case())[3..].to_vec()).collect();
    assert_eq!(rows[0], [0, 1, 2, none]);
    assert_eq!(rows[1], [0, none, 1, 2]);
    assert_eq!(rows[2], [&[0, 1, 2, 3][..], &[none; 8]].concat());
    let bits: Vec<Vec<u32>> =
        examples::all().iter().filter(|call| call.op() == 26).map(|call| answer(&call.case())).collect();
    assert_eq!(bits, [[0, 4, 1, 0, 1, 0], [0, 4, 1, 1, 1, 1], [0, 4, 1, 3, 1, 3]]);
}

#[test]
fn depth_limit() {
    let numbers: Vec<u32> =
        examples::all().iter().filter(|call| call.op() == 28).map(|call| answer(&call.case())[0]).collect();
    assert_eq!(numbers, [0, 1]);
}

/// IEEE 1364's tables for and, or and not.
#[test]
fn trit_tables() {
    let pairs = "9 0 0 0 1 1 1 2 2 2  9 0 1 2 0 1 2 0 1 2";
    assert_eq!(answered(&format!("2 21 9 {pairs}"))[3..], [0, 0, 0, 0, 1, 2, 0, 2, 2]);
    assert_eq!(answered(&format!("3 21 9 {pairs}"))[3..], [0, 1, 2, 1, 1, 1, 2, 1, 2]);
    assert_eq!(answered("1 5 3 3 0 1 2")[3..], [1, 0, 2]);
}

/// A fallback of width 0 with one clocked transparent port.
#[test]
fn fallback_of_width_0() {
    let answer = answered("29 33  99 0 100  1 0 0 1 1  1 7 0 0 0 5  1 4 0 1 0 5 0 0 0 0 0 1 0  0 0 0  1 2  0");
    let kinds = [&[1, 0, 100, 0][..], &[6, 1, 100, 2, 4, 7], &[5, 0, 101, 1, 100]].concat();
    assert_eq!(answer[5..5 + kinds.len()], kinds);
    assert_eq!(answer[answer.len() - 4..], [10, 0, 0, 0]);
}

#[test]
fn each_number() {
    for (number, call) in numbers::all() {
        assert_eq!(answer(&call.case())[0], number, "{call:?}");
    }
}

/// The numbers that each op can give, by document 01.
const REACHABLE: [(u32, &[u32]); 25] = [
    (1, &[4, 20]),
    (2, &[2, 4, 20]),
    (3, &[2, 4, 20]),
    (4, &[4]),
    (5, &[4]),
    (6, &[4, 20, 21]),
    (10, &[1, 2, 4, 20, 21]),
    (11, &[1, 2, 4, 20, 21]),
    (12, &[1, 2, 4, 20, 21]),
    (13, &[1, 2, 3, 4, 14, 15, 20, 21]),
    (20, &[1, 2, 3, 4, 15]),
    (21, &[1, 2, 3, 4, 14, 15, 20, 21]),
    (22, &[1, 2, 3, 4, 14, 15, 20, 21, 22]),
    (23, &[1, 2, 3, 4, 12, 13, 20, 21, 22]),
    (24, &[1, 2, 3, 4, 5, 6, 20]),
    (25, &[1, 2, 3, 4, 7, 8, 10, 20]),
    (26, &[1, 2, 3, 4, 7, 8, 9, 15]),
    (27, &[1, 2, 3, 4, 7, 8, 9, 10, 14, 20, 21]),
    (28, &[1, 2, 3, 4]),
    (29, &[1, 2, 3, 4, 11, 14, 20, 21]),
    (30, &[]),
    (31, &[4, 17, 20]),
    (32, &[16, 17, 18, 20]),
    (33, &[]),
    (40, &[2, 4, 20, 23]),
];

#[test]
fn small_cases_meet_every_number() {
    let mut stats = Stats::default();
    for call in small::all() {
        let case = call.case();
        assert_eq!(Call::from_case(&case).as_ref(), Some(&call));
        let answer = answer(&case);
        assert!(answer[0] < 24, "{call:?}");
        stats.count(&case, &answer);
    }
    for (op, numbers) in REACHABLE {
        for number in numbers.iter().chain(&[0]) {
            assert_ne!(stats.of(op, *number), 0, "op {op}, number {number}");
        }
        let given: Vec<u32> = (1..24).filter(|&number| stats.of(op, number) != 0).collect();
        assert_eq!(given, numbers, "op {op}");
    }
    for (op, numbers) in [(27, &[0, 4, 15, 20][..]), (30, &[0, 4, 15, 20, 23]), (33, &[0, 16, 17, 18]), (40, &[0, 4, 15, 20])] {
        for number in numbers {
            assert_ne!(stats.part_of(op, *number), 0, "op {op}, part {number}");
        }
    }
    println!("{stats}");
}

/// A case that is not whole, or of an unknown op.
#[test]
fn broken_cases() {
    for words in ["", "1", "1 0", "1 3 9 2 0", "1 4 9 2 0 1 1", "7 0", "6 8 9 0 9 0 5 0 6 2"] {
        assert_eq!(answered(words), [oracle::NO_CASE, 0], "{words}");
    }
    assert!(Words(&[]).word().is_none());
}
