//! Where a trit goes, written plainly from document 01: sizes of a swizzle, places, images, patches.

use crate::limits::{NONE, TRIT_X};
use crate::wire::{Memory, Patch, Plan, Sizes};

/// What a swizzle hands on for patches.
#[derive(Clone, Debug, PartialEq, Eq)]
pub struct Layout {
    pub depth: u32,
    pub width: u32,
    pub entries: Vec<u32>,
    pub soft_mask: u32,
    pub hard: u32,
    pub unit: u32,
}

/// A resulting memory, a row in it and a bit of that row.
#[derive(Clone, Copy, Debug, PartialEq, Eq)]
pub struct Place {
    pub memory: u64,
    pub row: u64,
    pub bit: u64,
}

impl Layout {
    pub fn of(memory: &Memory, plan: &Plan) -> Layout {
        Layout {
            depth: memory.depth,
            width: memory.width,
            entries: plan.entries.clone(),
            soft_mask: plan.soft_mask,
            hard: plan.hard,
            unit: plan.unit,
        }
    }

    /// Row length, L.
    fn row_len(&self) -> u64 {
        self.entries.len() as u64
    }

    pub fn soft_bits(&self) -> u32 {
        self.soft_mask.count_ones()
    }

    fn base_depth(&self) -> u64 {
        self.depth as u64 >> self.soft_bits()
    }

    fn full_chunks(&self) -> u64 {
        self.base_depth() >> self.hard
    }

    pub fn full_depth(&self) -> u64 {
        1 << self.hard
    }

    pub fn partial_depth(&self) -> u64 {
        self.base_depth() % self.full_depth()
    }

    pub fn chunks(&self) -> u64 {
        self.full_chunks() + (self.partial_depth() != 0) as u64
    }

    /// Memories over a number of chunks.
    fn memories_over(&self, chunks: u64) -> u64 {
        (self.row_len() * (1 << self.soft_bits()) * chunks).div_ceil(self.unit as u64)
    }

    pub fn full_memories(&self) -> u64 {
        self.memories_over(self.full_chunks())
    }

    pub fn memories(&self) -> u64 {
        self.memories_over(self.chunks())
    }

    /// Columns after rounding up to the unit.
    pub fn columns(&self) -> u64 {
        self.memories() * self.unit as u64
    }

    /// The depth of a memory. Partial columns inside the last full memory have the full depth.
    pub fn depth_of(&self, memory: u64) -> u64 {
        if memory < self.full_memories() { self.full_depth() } else { self.partial_depth() }
    }

    /// Rows of all memories before one.
    fn rows_before(&self, memory: u64) -> u64 {
        let full = memory.min(self.full_memories());
        full * self.full_depth() + (memory - full) * self.partial_depth()
    }

    /// Image trits by the formula, whatever the width.
    pub fn trits(&self) -> u64 {
        self.rows_before(self.memories()) * self.unit as u64
    }

    /// Image trits of the result. Width 0 gives no memories.
    pub fn image_trits(&self) -> u64 {
        if self.width == 0 { 0 } else { self.trits() }
    }

    /// The sizes that a record of the image has. A depth is 0 where its count is 0.
    pub fn sizes(&self) -> Sizes {
        let (full, all) = if self.width == 0 { (0, 0) } else { (self.full_memories(), self.memories()) };
        let depth = |count: u64, depth: u64| if count == 0 { 0 } else { depth as u32 };
        Sizes {
            unit: self.unit,
            full: full as u32,
            full_depth: depth(full, self.full_depth()),
            partial: (all - full) as u32,
            partial_depth: depth(all - full, self.partial_depth()),
        }
    }

    /// Chunk and row in it, by the walk over the bits of a row number.
    fn chunk_and_row(&self, row: u32) -> (u64, u64) {
        let (mut chunk, mut chunk_bits) = (0, 0);
        let (mut new_row, mut row_bits) = (0, 0);
        for bit in 0..32 {
            let value = (row as u64 >> bit) & 1;
            if (self.soft_mask >> bit) & 1 == 1 || row_bits == self.hard {
                chunk |= value << chunk_bits;
                chunk_bits += 1;
            } else {
                new_row |= value << row_bits;
                row_bits += 1;
            }
        }
        (chunk, new_row)
    }

    /// Where entry `entry` of a row goes.
    pub fn place(&self, row: u32, entry: usize) -> Place {
        let (chunk, new_row) = self.chunk_and_row(row);
        let column = chunk * self.row_len() + entry as u64;
        let unit = self.unit as u64;
        Place { memory: column / unit, row: new_row, bit: column % unit }
    }

    /// The number of a place's trit in the image.
    fn index(&self, place: Place) -> usize {
        ((self.rows_before(place.memory) + place.row) * self.unit as u64 + place.bit) as usize
    }

    /// Stores a row at the places of the entries that name a bit.
    pub fn store_row(&self, image: &mut [u32], row: u32, trits: &[u32]) {
        for (entry, &bit) in self.entries.iter().enumerate() {
            if bit != NONE {
                image[self.index(self.place(row, entry))] = trits[bit as usize];
            }
        }
    }

    /// The image of a memory's rows: X wherever no entry that names a bit reaches.
    pub fn lay_out(&self, rows: &[u32]) -> Vec<u32> {
        let mut image = vec![TRIT_X; self.image_trits() as usize];
        let width = self.width as usize;
        if width != 0 {
            for (row, trits) in rows.chunks(width).enumerate() {
                self.store_row(&mut image, row as u32, trits);
            }
        }
        image
    }
}

/// The laid-out state: the last accepted swizzle and its image.
#[derive(Clone, Debug, Default)]
pub struct LaidOut {
    pub layout: Option<Layout>,
    pub image: Vec<u32>,
}

impl LaidOut {
    /// Applies a patch that is not refused.
    pub fn patch(&mut self, patch: &Patch) {
        if let Some(layout) = &self.layout {
            layout.store_row(&mut self.image, patch.row, &patch.trits);
        }
    }
}
