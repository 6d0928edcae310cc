//! Tablegoose: a verified memory splitter. A memory is split over block RAMs; each trit of each image stands where the rules put it.
//!
//! Every call is total: bad input is refused by a number of document 01 ([`Refusal`]) and changes nothing. The functions behind it are proved; this
//! crate turns its types into their structs and arrays and back, and only [`ffi`] has unsafe code.
//!
//! ```
//! use tablegoose::{Layout, Swizzle, trits};
//!
//! // Three rows of two bits, split over memories of two rows.
//! let plan = Swizzle { data_swizzle: vec![Some(0), Some(1)], hard_addr_bits: 1, data_width_unit: 2, ..Swizzle::default() };
//! let layout = Layout::new(3, 2, &plan);
//! let mut image = layout.fill(&trits("10X100")?)?;
//! image.patch(2, &trits("X1")?)?;
//! assert_eq!(image.row(2)?, trits("X1")?);
//! assert_eq!(image.record()?.list(), "memories 2 trits 6\n0 2 3 2 load\n1 1 1 1 load\n");
//! # Ok::<(), tablegoose::Refusal>(())
//! ```

mod fallback;
pub mod ffi;
mod image;
mod log;
mod memory;
mod net;
mod ports;
mod record;
mod refusal;
mod rooms;
mod swizzle;

pub use image::{Image, Laid, Layout, Patch, Place, Shape};
pub use log::{Cell, Controls, Entries, Entry, FlipFlop, Log};
pub use memory::{Lowered, Memory, MuxBits, ReadPort, Relation, Swizzle, WritePort, wide_log2};
pub use net::{Control, Driver, Net, Trit, const_and, const_not, const_or, is_undef, narrower_select, slice, trits, value_is_undef, zext};
pub use ports::Overlay;
pub use record::{HEAD_BYTES, Record, Sizes, Summary, header, list_input, memory_summary};
pub use refusal::Refusal;
pub use rooms::{SwizzleRooms, fallback_scratch};
pub use swizzle::{Swizzled, SwizzledMemory};

/// A memory's depth × width.
pub const MAX_BITS: u64 = 32_768;
/// A result's columns, rounded up to the unit.
pub const MAX_COLUMNS: u64 = 32_768;
/// A result's trits.
pub const MAX_IMAGE: u64 = 131_072;
