//! Rooms of a pattern, lent to calls and compared word by word.
#![allow(dead_code)]

use tablegoose::ffi::{Control, Controls, LogState, Memory, MemorySwizzle, Params, ReadPort, WritePort};

/// A room of bytes or of words.
#[derive(Clone, Debug, PartialEq, Eq)]
pub enum Room {
    Bytes(Vec<u8>),
    Words(Vec<u32>),
}

impl Room {
    /// The same kind of room, of another length and all of the pattern.
    pub fn of_len(&self, len: usize) -> Room {
        match self {
            Room::Bytes(_) => Room::Bytes(vec![0xA5; len]),
            Room::Words(_) => Room::Words(vec![0xA5A5_A5A5; len]),
        }
    }

    pub fn len(&self) -> usize {
        match self {
            Room::Bytes(all) => all.len(),
            Room::Words(all) => all.len(),
        }
    }

    pub fn bytes(&mut self) -> &mut [u8] {
        let Room::Bytes(all) = self else { panic!("a room of bytes") };
        all
    }

    pub fn words(&mut self) -> &mut [u32] {
        let Room::Words(all) = self else { panic!("a room of words") };
        all
    }

    /// The room cut to a length, and the rest.
    pub fn cut(mut self, len: usize) -> (Room, Room) {
        let rest = match &mut self {
            Room::Bytes(all) => Room::Bytes(all.split_off(len)),
            Room::Words(all) => Room::Words(all.split_off(len)),
        };
        (self, rest)
    }
}

pub fn bytes(need: usize) -> Room {
    Room::Bytes(vec![0xA5; need])
}

pub fn words(need: usize) -> Room {
    Room::Words(vec![0xA5A5_A5A5; need])
}

/// A call by the number that it gives on its rooms.
pub type Call = Box<dyn Fn(&mut [Room]) -> u32>;

/// A call that is accepted with rooms of exactly these lengths, and one that a number refuses whatever the rooms.
pub struct Case {
    pub name: &'static str,
    pub rooms: Vec<Room>,
    pub accepted: Call,
    pub refused: (u32, Call),
}

pub fn case(
    name: &'static str,
    rooms: Vec<Room>,
    accepted: impl Fn(&mut [Room]) -> u32 + 'static,
    number: u32,
    refused: impl Fn(&mut [Room]) -> u32 + 'static,
) -> Case {
    Case { name, rooms, accepted: Box::new(accepted), refused: (number, Box::new(refused)) }
}

// ---- a small memory: two rows of one bit, one write port and one clocked read port

pub const NETS: [u32; 4] = [10, 20, 40, 60];
pub const TRITS: [u8; 5] = [1, 0, 2, 2, 2];

pub fn pos(net: u32) -> Control {
    Control { polarity: 0, net }
}

pub fn controls() -> Controls {
    Controls { clock: pos(5), clear: pos(0), reset: pos(0), enable: pos(1), reset_over_enable: 0 }
}

pub fn memory() -> Memory {
    let mut m = Memory { depth: 2, width: 1, init_len: 2, write_count: 1, read_count: 1, ..Memory::default() };
    m.write_ports[0] = WritePort { addr_len: 1, data_len: 1, mask_len: 1, clock: pos(5) };
    m.read_ports[0] = ReadPort {
        addr_len: 1,
        data_len: 1,
        clear_len: 1,
        reset_len: 1,
        init_len: 1,
        relations_len: 1,
        relations: [2, 0, 0, 0, 0, 0, 0, 0],
        clocked: 1,
        clock: pos(5),
        clear: pos(0),
        reset: pos(0),
        enable: pos(1),
        reset_over_enable: 0,
    };
    m
}

/// Two memories of one row.
pub fn plan() -> MemorySwizzle {
    MemorySwizzle { soft_addr_bits_mask: 0, hard_addr_bits: 0, data_width_unit: 1 }
}

/// Document 01's first example: three rows of two bits in memories of two rows and one.
pub fn first() -> Params {
    Params { depth: 3, width: 2, soft_mask: 0, hard: 1, unit: 2 }
}

pub const FIRST_ENTRIES: [u32; 2] = [0, 1];
pub const FIRST_ROWS: [u8; 6] = [1, 0, 2, 1, 0, 0];
pub const FIRST_RECORD: [u8; 14] = [5, 0, 2, 0, 1, 0, 2, 0, 1, 0, 1, 0, 0x3B, 9];
pub const FIRST_LIST: &str = "memories 2 trits 6\n0 2 3 2 load\n1 1 2 0 blank\n";

pub fn state() -> LogState {
    LogState { used: 0, next: 100 }
}
