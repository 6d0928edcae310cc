//! The rooms that a swizzle and a fallback need, in closed form.

use crate::ffi;

/// Elements of the rooms for a swizzle's image, nets and trits, and of its scratch: a call with these is not refused for them, and with one element less of
/// any it is refused by 20.
#[derive(Clone, Copy, Debug, Default, PartialEq, Eq)]
pub struct SwizzleRooms {
    /// Trits of the image.
    pub image: usize,
    /// Nets of the resulting memories' ports.
    pub nets: usize,
    /// Trits of their read ports.
    pub trits: usize,
    /// Nets of scratch.
    pub scratch: usize,
}

impl SwizzleRooms {
    /// Of a memory and a plan that keep the rules; others are refused whatever the rooms, and need none.
    pub fn of(m: &ffi::Memory, s: ffi::MemorySwizzle, entries: &[u32], writes: &[u32], reads: &[u32]) -> SwizzleRooms {
        let one_log_each = writes.len() == m.write_count as usize && reads.len() == m.read_count as usize;
        if !one_log_each || m.write_count.max(m.read_count) as usize > ffi::MAX_PORTS {
            return SwizzleRooms::default();
        }
        Split::of(m, s, entries).and_then(|split| split.rooms(m, writes, reads)).unwrap_or_default()
    }
}

/// Nets of scratch that a fallback needs: data and mask of each write port for all rows. With one less it is refused by 20. Of a memory that keeps the
/// rules; others are refused whatever the scratch, and need none.
pub fn fallback_scratch(m: &ffi::Memory) -> usize {
    let bits = u64::from(m.depth) * u64::from(m.width);
    if m.write_count as usize > ffi::MAX_PORTS || bits > crate::MAX_BITS { 0 } else { 2 * m.write_count as usize * bits as usize }
}

/// How rows and columns are split; nothing where a size is past its limit.
struct Split {
    width: u32,
    soft_mask: u32,
    hard: u32,
    chunks: u64,
    columns: u64,
    image: usize,
}

impl Split {
    fn of(m: &ffi::Memory, s: ffi::MemorySwizzle, entries: &[u32]) -> Option<Split> {
        let (soft_mask, hard, unit) = (s.soft_addr_bits_mask, s.hard_addr_bits, s.data_width_unit);
        let params = ffi::Params { depth: m.depth, width: m.width, soft_mask, hard, unit };
        let measured = ffi::measure(params, entries);
        let shape = measured.shape;
        if measured.number != 0 || hard > 15 || m.depth > 32_768 || m.width > 128 || shape.image_size > crate::MAX_IMAGE {
            return None;
        }
        // Without rows or bits there are no memories.
        let columns = if m.depth == 0 || m.width == 0 { 0 } else { shape.columns };
        let chunks = (m.depth as u64 >> soft_mask.count_ones()).div_ceil(1 << hard);
        let split = Split { width: m.width, soft_mask, hard, chunks, columns, image: shape.image_size as usize };
        (columns <= crate::MAX_COLUMNS).then_some(split)
    }

    fn is_soft(&self, bit: u32) -> bool {
        (self.soft_mask >> bit) & 1 == 1
    }

    /// The pieces of a port: nothing where its data, its address or its new wide log breaks a rule.
    fn pieces(&self, data_len: u32, addr_len: u32, new: u32) -> Option<u64> {
        let k = (0..=4).find(|k| self.width << k == data_len)?;
        if new > self.hard.min(4) || addr_len > 32 - k {
            return None;
        }
        let low = (0..k).filter(|&bit| !self.is_soft(bit)).count() as u32;
        let soft = (k..k + addr_len).filter(|&bit| self.is_soft(bit)).count() as u32;
        let taken = new.checked_sub(low)?.min(addr_len - soft);
        Some(self.chunks << (soft + taken))
    }

    fn rooms(&self, m: &ffi::Memory, writes: &[u32], reads: &[u32]) -> Option<SwizzleRooms> {
        let mut rooms = SwizzleRooms { image: self.image, ..Default::default() };
        if self.columns == 0 {
            return Some(rooms);
        }
        let wide = |new: u32| (self.columns << new) as usize;
        for (port, &new) in m.write_ports.iter().zip(writes) {
            self.pieces(port.data_len, port.addr_len, new)?;
            rooms.nets += (self.hard - new) as usize + 2 * wide(new);
        }
        for (port, &new) in m.read_ports.iter().zip(reads) {
            let pieces = self.pieces(port.data_len, port.addr_len, new)?;
            rooms.nets += (self.hard - new) as usize;
            rooms.trits += if port.clocked == 1 { 3 * wide(new) } else { 0 };
            rooms.scratch = rooms.scratch.max((pieces * port.data_len as u64) as usize);
        }
        Some(rooms)
    }
}
