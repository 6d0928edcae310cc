//! The limits of document 01, "How large a memory may be", and the numbers of the record.

pub const DEPTH: u32 = 32_768;
pub const WIDTH: u32 = 128;
/// Depth × width.
pub const BITS: u64 = 32_768;
/// Read ports, write ports, and ports in a list.
pub const PORTS: usize = 8;
/// The largest k of a port, and the largest new wide log.
pub const WIDE: u32 = 4;
/// Address length plus k.
pub const ADDRESS: usize = 32;
/// Entries of a row.
pub const ROW: usize = 256;
pub const UNIT: u32 = 256;
pub const HARD: u32 = 15;
pub const GRANULARITY: u32 = 64;
/// Bits of a value given to a mux or a merge.
pub const MERGE: usize = 4_096;
/// Columns of a result after rounding up to the unit.
pub const COLUMNS: u64 = 32_768;
/// Trits of an image.
pub const TRITS: u64 = 131_072;
/// What the next free net never passes.
pub const NETS: u32 = 16_777_216;
/// The first net that a cell drives.
pub const FIRST_CELL: u32 = 2;

/// The net X.
pub const X: u32 = u32::MAX;
/// An entry that names no bit.
pub const NONE: u32 = u32::MAX;
/// The trit code of X, which is also the largest.
pub const TRIT_X: u32 = 2;

/// A record's first word, its first bytes, and its largest partial depth.
pub const RECORD: u32 = 5;
pub const HEAD: usize = 12;
pub const PARTIAL: u32 = 32_767;
