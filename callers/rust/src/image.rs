//! Layouts and images: where each trit of a memory goes, rows laid out, exchanged and read back.

use crate::ffi;
use crate::memory::{Memory, Swizzle, entry_words};
use crate::net::{Trit, codes, filled, trits_of};
use crate::record::{Record, Sizes, Summary};
use crate::refusal::Refusal;

pub use crate::ffi::{Place, Shape};

/// A layout: a memory's sizes and how its rows are split. Calls by a layout that no accepted swizzle has are refused by 23.
#[derive(Clone, Debug, PartialEq, Eq)]
pub struct Layout {
    params: ffi::Params,
    entries: Vec<u32>,
}

impl Layout {
    /// The layout of a memory of this depth and width under a plan, whose wide logs play no part.
    pub fn new(depth: u32, width: u32, plan: &Swizzle) -> Layout {
        let params = ffi::Params { depth, width, soft_mask: plan.soft_addr_bits_mask, hard: plan.hard_addr_bits, unit: plan.data_width_unit };
        Layout { params, entries: entry_words(&plan.data_swizzle) }
    }

    /// The layout of a memory under a plan.
    pub fn of(memory: &Memory, plan: &Swizzle) -> Layout {
        Layout::new(memory.depth, memory.width, plan)
    }

    /// The memories that it gives, their depths, and the trits of the image. Number 1 where a size is too large.
    pub fn shape(&self) -> Result<Shape, Refusal> {
        let measured = ffi::measure(self.params, &self.entries);
        Refusal::check(measured.number).map(|()| measured.shape)
    }

    /// Where an entry of a row goes. Numbers 1 and 15.
    pub fn place_of(&self, row: u32, entry: usize) -> Result<Place, Refusal> {
        let placed = ffi::place_of(self.params, &self.entries, row, entry);
        Refusal::check(placed.number).map(|()| placed.place)
    }

    /// The state that a swizzle with this layout hands on.
    pub fn laid_out(&self) -> Laid {
        Laid(ffi::laid_out(self.params, &self.entries))
    }

    /// The sizes of a record of its images, or number 23.
    pub fn sizes(&self) -> Result<Sizes, Refusal> {
        self.laid_out().sizes()
    }

    /// How many trits the image has, as far as the layout is within its limits.
    fn image_len(&self) -> usize {
        self.shape().map_or(0, |shape| shape.image_size.min(crate::MAX_IMAGE) as usize)
    }

    /// The image of a memory's rows, row 0 and bit 0 first. Numbers 23, 2, 4 and 20.
    pub fn fill(&self, rows: &[Trit]) -> Result<Image, Refusal> {
        let mut trits = vec![Trit::X.code(); self.image_len()];
        Refusal::check(ffi::fill_rows(&mut trits, self.params, &self.entries, &codes(rows)))?;
        Ok(Image { layout: self.clone(), trits })
    }

    /// The image of a memory's rows after a list of patches, and the number of each patch, 0 where it was accepted.
    pub fn fill_then_patch(&self, rows: &[Trit], patches: &[Patch]) -> Result<(Image, Vec<u32>), Refusal> {
        let (calls, given) = calls_of(patches);
        let mut buffer = vec![Trit::X.code(); self.image_len()];
        let mut numbers = vec![0; patches.len()];
        let rows = codes(rows);
        Refusal::check(ffi::fill_then_patch(&mut buffer, &mut numbers, self.params, &self.entries, &rows, &calls, &given))?;
        Ok((Image { layout: self.clone(), trits: buffer }, numbers))
    }

    /// An image that was read from a record, say. Number 20 where it has not as many trits as the layout gives, 23 where the layout has none.
    pub fn image(&self, trits: &[Trit]) -> Result<Image, Refusal> {
        self.sizes()?;
        if trits.len() != self.image_len() {
            return Err(Refusal::of(20));
        }
        Ok(Image { layout: self.clone(), trits: codes(trits) })
    }
}

/// One row to exchange: its number and its trits.
#[derive(Clone, Debug, PartialEq, Eq)]
pub struct Patch {
    /// The row's number.
    pub row: u32,
    /// A trit for each bit of the memory's width.
    pub trits: Vec<Trit>,
}

/// Four words for each patch: row, where its trits start, how many, and how much of the buffer it is lent; then the trits of all.
pub(crate) fn calls_of(patches: &[Patch]) -> (Vec<u32>, Vec<u8>) {
    let (mut calls, mut trits) = (vec![], vec![]);
    for patch in patches {
        calls.extend([patch.row, trits.len() as u32, patch.trits.len() as u32, u32::MAX]);
        trits.extend(codes(&patch.trits));
    }
    (calls, trits)
}

/// An image: the trits of all memories that a layout gives, memory after memory, row 0 and bit 0 first.
#[derive(Clone, Debug, PartialEq, Eq)]
pub struct Image {
    layout: Layout,
    trits: Vec<u8>,
}

impl Image {
    /// The image that a swizzle laid out.
    pub(crate) fn laid_out(laid: &Laid, trits: Vec<u8>) -> Image {
        Image { layout: laid.layout(), trits }
    }

    /// The codes of its trits.
    pub(crate) fn codes(&self) -> &[u8] {
        &self.trits
    }

    /// Its layout.
    pub fn layout(&self) -> &Layout {
        &self.layout
    }

    /// Its trits.
    pub fn trits(&self) -> Vec<Trit> {
        trits_of(&self.trits)
    }

    /// Exchanges one row. Numbers 23, 4 and 15.
    pub fn patch(&mut self, row: u32, trits: &[Trit]) -> Result<(), Refusal> {
        Refusal::check(ffi::patch_row(&mut self.trits, self.layout.params, &self.layout.entries, row, &codes(trits)))
    }

    /// Exchanges rows in order: the number of each patch, 0 where it was accepted.
    pub fn patch_each(&mut self, patches: &[Patch]) -> Result<Vec<u32>, Refusal> {
        let ((calls, given), mut numbers) = (calls_of(patches), vec![0; patches.len()]);
        let (params, entries) = (self.layout.params, &self.layout.entries);
        Refusal::check(ffi::patch_each(&mut self.trits, &mut numbers, params, entries, &calls, &given))?;
        Ok(numbers)
    }

    /// The trits at a row's places. Number 15 where there is no such row.
    pub fn row(&self, row: u32) -> Result<Vec<Trit>, Refusal> {
        let width = self.layout.params.width as usize;
        filled(width, |room| ffi::read_row(room, self.layout.params, &self.layout.entries, &self.trits, row))
    }

    /// What stands in one of its memories. Number 15 where there is no such memory.
    pub fn summary(&self, index: usize) -> Result<Summary, Refusal> {
        let answer = ffi::memory_summary(self.layout.sizes()?, &self.trits, index);
        Refusal::check(answer.number).map(|()| answer.summary)
    }

    /// Its record.
    pub fn record(&self) -> Result<Record, Refusal> {
        Record::of_codes(self.layout.sizes()?, &self.trits)
    }
}

/// The state that a swizzle hands on: it says by itself where rows go, or that there was no swizzle yet, and then every call is refused by 23.
#[derive(Clone, Debug, PartialEq, Eq)]
pub struct Laid(ffi::Laid);

impl Laid {
    pub(crate) fn of(laid: ffi::Laid) -> Laid {
        Laid(laid)
    }

    /// The state before any swizzle.
    pub fn unset() -> Laid {
        Laid(ffi::unset())
    }

    /// The layout that it has; where there was no swizzle, one that is refused.
    pub fn layout(&self) -> Layout {
        let ffi::Laid { depth, width, soft_mask, hard, unit, len, entries } = self.0;
        let used = entries.len().min(len as usize);
        Layout { params: ffi::Params { depth, width, soft_mask, hard, unit }, entries: entries[..used].to_vec() }
    }

    /// The sizes of a record of its images, or number 23.
    pub fn sizes(&self) -> Result<Sizes, Refusal> {
        let head = ffi::sizes_of(self.0);
        Refusal::check(head.number).map(|()| head.sizes)
    }

    /// As [`Layout::fill`].
    pub fn fill(&self, rows: &[Trit]) -> Result<Image, Refusal> {
        let layout = self.layout();
        let mut trits = vec![Trit::X.code(); layout.image_len()];
        Refusal::check(ffi::fill(&mut trits, self.0, &codes(rows)))?;
        Ok(Image { layout, trits })
    }

    /// As [`Layout::fill_then_patch`].
    pub fn fill_and_patch(&self, rows: &[Trit], patches: &[Patch]) -> Result<(Image, Vec<u32>), Refusal> {
        let (layout, (calls, given)) = (self.layout(), calls_of(patches));
        let (mut trits, mut numbers) = (vec![Trit::X.code(); layout.image_len()], vec![0; patches.len()]);
        Refusal::check(ffi::fill_and_patch(&mut trits, &mut numbers, self.0, &codes(rows), &calls, &given))?;
        Ok((Image { layout, trits }, numbers))
    }

    /// Exchanges one row of an image, as [`Image::patch`].
    pub fn patch(&self, image: &mut Image, row: u32, trits: &[Trit]) -> Result<(), Refusal> {
        Refusal::check(ffi::patch(&mut image.trits, self.0, row, &codes(trits)))
    }

    /// Exchanges rows of an image, as [`Image::patch_each`].
    pub fn patch_all(&self, image: &mut Image, patches: &[Patch]) -> Result<Vec<u32>, Refusal> {
        let ((calls, given), mut numbers) = (calls_of(patches), vec![0; patches.len()]);
        Refusal::check(ffi::patch_all(&mut image.trits, &mut numbers, self.0, &calls, &given))?;
        Ok(numbers)
    }

    /// The trits at a row's places in an image, as [`Image::row`].
    pub fn read_row(&self, image: &Image, row: u32) -> Result<Vec<Trit>, Refusal> {
        filled(self.0.width as usize, |room| ffi::read_laid_row(room, self.0, &image.trits, row))
    }
}
