//! Image records: written, read, listed.

use crate::ffi;
use crate::net::{Trit, codes, trits_of};
use crate::refusal::Refusal;

pub use crate::ffi::{Sizes, Summary};

/// The bytes of a record's head.
pub const HEAD_BYTES: usize = 12;

/// The longest line of a listing.
const LINE_BYTES: usize = 50;

/// The bytes of an image record, which need not be a good one.
#[derive(Clone, Debug, PartialEq, Eq)]
pub struct Record(pub Vec<u8>);

/// The trits of all memories of these sizes.
fn trits_in(s: &Sizes) -> u64 {
    let rows = s.full as u64 * s.full_depth as u64 + s.partial as u64 * s.partial_depth as u64;
    rows.saturating_mul(s.unit as u64).min(crate::MAX_IMAGE)
}

impl Record {
    /// The record of an image with these sizes. Numbers 17 and 20.
    pub fn write(sizes: Sizes, image: &[Trit]) -> Result<Record, Refusal> {
        Record::of_codes(sizes, &codes(image))
    }

    pub(crate) fn of_codes(sizes: Sizes, image: &[u8]) -> Result<Record, Refusal> {
        let mut out = vec![0; HEAD_BYTES + 2 * trits_in(&sizes).div_ceil(8) as usize];
        let answer = ffi::write_record(&mut out, sizes, image);
        Refusal::check(answer.number)?;
        out.truncate(answer.count);
        Ok(Record(out))
    }

    /// Its sizes by its head and its length. Numbers 16 and 17.
    pub fn header(&self) -> Result<Sizes, Refusal> {
        header(&self.0, self.0.len())
    }

    /// Its sizes and the image. Numbers 16, 17 and 18.
    pub fn read(&self) -> Result<(Sizes, Vec<Trit>), Refusal> {
        let length = self.header().map_or(0, |sizes| trits_in(&sizes) as usize);
        let mut image = vec![0; length];
        let head = ffi::read_record(&mut image, &self.0);
        Refusal::check(head.number).map(|()| (head.sizes, trits_of(&image)))
    }

    /// What the lister prints for it: also a refused record has a text.
    pub fn list(&self) -> String {
        listed(&self.0, self.0.len(), |out| ffi::list_record(out, &self.0))
    }
}

/// The sizes of a record of `total` bytes by its first ones. Numbers 16 and 17.
pub fn header(first: &[u8], total: usize) -> Result<Sizes, Refusal> {
    let head = ffi::record_header(first, total);
    Refusal::check(head.number).map(|()| head.sizes)
}

/// What the lister prints for an input of `total` bytes, of which the first are given.
pub fn list_input(first: &[u8], total: usize) -> String {
    listed(first, total, |out| ffi::list_input(out, first, total))
}

/// A line for each memory and one before them.
fn listed(first: &[u8], total: usize, call: impl FnOnce(&mut [u8]) -> ffi::Count) -> String {
    let memories = header(first, total).map_or(0, |s| s.full as usize + s.partial as usize);
    let mut out = vec![0; LINE_BYTES * (memories + 1)];
    let answer = call(&mut out);
    out.truncate(answer.count);
    String::from_utf8(out).expect("the text has letters, digits, spaces and line ends")
}

/// What stands in a memory of an image with these sizes. Numbers 15, 17 and 20.
pub fn memory_summary(sizes: Sizes, image: &[Trit], index: usize) -> Result<Summary, Refusal> {
    let answer = ffi::memory_summary(sizes, &codes(image), index);
    Refusal::check(answer.number).map(|()| answer.summary)
}
