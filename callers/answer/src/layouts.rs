//! Op 40: rows laid out, then patches. The library has it by the layout and by the state that a swizzle hands on, as one call and row by row: each
//! way runs, and all must agree.

use tablegoose::ffi::{self, Params};

use crate::calls::{IMAGE_ROOM, Outcome, unless};
use crate::lent::Lent;
use crate::wire::{Words, put_list};

/// What an op 40 asks for.
struct Asked {
    room: usize,
    params: Params,
    entries: Lent<u32>,
    rows: Lent<u8>,
    /// Four words for each patch: row, where its trits start, how many, lent room.
    calls: Lent<u32>,
    trits: Lent<u8>,
}

/// A number, and where it is 0 the patches' numbers and the image.
type Found = (u32, Vec<u32>, Vec<u8>);

pub fn layout(words: &mut Words) -> Option<Outcome> {
    let room = (words.word()? as usize).min(IMAGE_ROOM);
    let (depth, width, rows) = (words.word()?, words.word()?, words.codes("rows")?);
    let plan = words.plan()?;
    let params = plan.params(depth, width);
    let (calls, trits) = patches(words)?;
    words.end()?;
    let asked = Asked { room, params, entries: plan.entries, rows, calls: Lent::of("calls", calls), trits: Lent::of("trits", trits) };
    let found = asked
        .at_once(|image, numbers, a| ffi::fill_then_patch(image, numbers, a.params, a.entries.get(), a.rows.get(), a.calls.get(), a.trits.get()));
    let laid = ffi::laid_out(params, asked.entries.get());
    let by_state = asked.at_once(|image, numbers, a| ffi::fill_and_patch(image, numbers, laid, a.rows.get(), a.calls.get(), a.trits.get()));
    assert!(found == by_state, "finding: fill_then_patch and fill_and_patch differ: {found:?}, {by_state:?}");
    let one_by_one = asked.one_by_one();
    assert!(found == one_by_one, "finding: fill_then_patch and single calls differ: {found:?}, {one_by_one:?}");
    let (number, numbers, image) = found;
    Some(unless(number, |to| {
        put_list(to, &numbers);
        put_list(to, &image);
    }))
}

/// A number of patches, each: lent room, row, trits. Four words of a call for each, and the trits of all.
pub fn patches(words: &mut Words) -> Option<(Vec<u32>, Vec<u8>)> {
    let (mut calls, mut trits) = (vec![], vec![]);
    for _ in 0..words.word()? {
        let (room, row, list) = (words.word()?, words.word()?, words.list()?);
        calls.extend([row, trits.len() as u32, list.len() as u32, room]);
        trits.extend(list.iter().map(|&word| word.min(255) as u8));
    }
    Some((calls, trits))
}

/// A patch of an image, of which so many trits are lent; what is lent past the image holds a pattern.
pub fn patch_lent(image: &mut Vec<u8>, room: u32, patch: impl FnOnce(&mut [u8]) -> u32) -> u32 {
    let mut lent = image.clone();
    lent.resize((room as usize).min(IMAGE_ROOM), 0xA5);
    let mut lent = Lent::of("image", lent);
    let number = patch(lent.get_mut());
    if number == 0 {
        *image = lent.wrote(0..image.len()).to_vec();
    }
    number
}

impl Asked {
    /// The trits of the image, where the layout has one.
    fn size(&self) -> usize {
        ffi::measure(self.params, self.entries.get()).shape.image_size as usize
    }

    fn at_once(&self, call: impl FnOnce(&mut [u8], &mut [u32], &Asked) -> u32) -> Found {
        let count = self.calls.get().len() / 4;
        let (mut image, mut numbers) = (Lent::room("image", self.room), Lent::room("numbers", count));
        let number = call(image.get_mut(), numbers.get_mut(), self);
        if number != 0 {
            return (number, vec![], vec![]);
        }
        (0, numbers.wrote(0..count).to_vec(), image.wrote(0..self.size()).to_vec())
    }

    /// The rows first, then each patch by itself on as much of the image as it is lent; every second one by the state.
    fn one_by_one(&self) -> Found {
        let mut image = Lent::room("image", self.room);
        let number = ffi::fill_rows(image.get_mut(), self.params, self.entries.get(), self.rows.get());
        if number != 0 {
            return (number, vec![], vec![]);
        }
        let mut trits = image.wrote(0..self.size()).to_vec();
        let laid = ffi::laid_out(self.params, self.entries.get());
        let mut numbers = vec![];
        for (place, call) in self.calls.get().chunks_exact(4).enumerate() {
            let &[row, start, count, room] = call else { unreachable!("four words") };
            let given = &self.trits.get()[start as usize..(start + count) as usize];
            let number = patch_lent(&mut trits, room, |lent| match place % 2 {
                0 => ffi::patch_row(lent, self.params, self.entries.get(), row, given),
                _ => ffi::patch(lent, laid, row, given),
            });
            if number == 0 {
                self.read_back(&trits, row, given);
            }
            numbers.push(number);
        }
        (0, numbers, trits)
    }

    /// A row that was just exchanged reads back as it was given.
    fn read_back(&self, image: &[u8], row: u32, given: &[u8]) {
        let mut room = Lent::room("room", given.len());
        let number = ffi::read_row(room.get_mut(), self.params, self.entries.get(), image, row);
        assert!(number == 0 && room.wrote(0..given.len()) == given, "finding: row {row} reads back otherwise: {number}");
    }
}
