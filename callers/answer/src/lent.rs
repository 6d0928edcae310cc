//! Buffers that are lent to a call: each has exactly the length that the case says, and nothing may change in it but what the call may write.
//!
//! A buffer stands between words of a pattern. With TABLEGOOSE_GUARD=1 it ends where a page ends and the next page cannot be touched, so that a read or
//! a store past its end stops the program.

use std::cell::Cell;
use std::ops::Range;

mod pages;

use pages::Pages;

thread_local! {
    /// The case that is being answered and its op, for the text of a finding.
    pub static NOW: Cell<(usize, u32)> = const { Cell::new((0, 0)) };
}

/// Elements of the pattern before a buffer, and behind it where no guard is.
const SLACK: usize = 64;

/// What buffers hold: bytes or words.
pub trait Element: Copy + Eq + 'static {
    const PATTERN: Self;
}

impl Element for u8 {
    const PATTERN: u8 = 0xA5;
}

impl Element for u32 {
    const PATTERN: u32 = 0xA5A5_A5A5;
}

/// Where the elements are: the buffer stands from `SLACK` on.
enum Held<T> {
    Plain(Vec<T>),
    Guarded(Pages<T>),
}

/// A lent buffer. When it goes away, everything in it that no call may have written must be as it was.
pub struct Lent<T: Element> {
    name: &'static str,
    held: Held<T>,
    /// The buffer as it should be.
    right: Vec<T>,
}

impl<T: Element> Lent<T> {
    /// A buffer with this content.
    pub fn of(name: &'static str, right: Vec<T>) -> Lent<T> {
        let (len, slack) = (right.len(), [T::PATTERN; SLACK]);
        let held = if pages::wanted() {
            let mut pages = Pages::new(SLACK + len);
            pages.all_mut()[..SLACK].copy_from_slice(&slack);
            pages.all_mut()[SLACK..].copy_from_slice(&right);
            Held::Guarded(pages)
        } else {
            Held::Plain([&slack[..], &right, &slack].concat())
        };
        Lent { name, held, right }
    }

    /// A room of so many elements, all of the pattern.
    pub fn room(name: &'static str, len: usize) -> Lent<T> {
        Lent::of(name, vec![T::PATTERN; len])
    }

    fn all(&self) -> &[T] {
        match &self.held {
            Held::Plain(all) => all,
            Held::Guarded(pages) => pages.all(),
        }
    }

    pub fn get(&self) -> &[T] {
        &self.all()[SLACK..SLACK + self.right.len()]
    }

    pub fn get_mut(&mut self) -> &mut [T] {
        let end = SLACK + self.right.len();
        match &mut self.held {
            Held::Plain(all) => &mut all[SLACK..end],
            Held::Guarded(pages) => &mut pages.all_mut()[SLACK..end],
        }
    }

    /// What an accepted call wrote: this part may have changed.
    pub fn wrote(&mut self, part: Range<usize>) -> &[T] {
        let written = self.get()[part.clone()].to_vec();
        self.right[part.clone()].copy_from_slice(&written);
        &self.get()[part]
    }

    /// All of it may have changed.
    pub fn wrote_all(&mut self) -> &[T] {
        self.wrote(0..self.right.len())
    }
}

impl<T: Element> Drop for Lent<T> {
    fn drop(&mut self) {
        if std::thread::panicking() {
            return;
        }
        let around = self.all()[..SLACK].iter().chain(&self.all()[SLACK + self.right.len()..]);
        let place = self.get().iter().zip(&self.right).position(|(found, right)| found != right);
        let (case, op) = NOW.get();
        if let Some(place) = place {
            panic!("finding: case {case}, call {op}: `{}` has changed at {place}, which the call may not write", self.name);
        }
        if around.into_iter().any(|&element| element != T::PATTERN) {
            panic!("finding: case {case}, call {op}: something beside `{}` has changed", self.name);
        }
    }
}

#[cfg(test)]
mod tests {
    use super::*;

    #[test]
    fn what_is_written_may_change() {
        let mut lent = Lent::room("out", 3);
        lent.get_mut()[1] = 7_u32;
        assert_eq!(lent.wrote(1..2), [7]);
    }

    #[test]
    #[should_panic(expected = "`out` has changed at 2")]
    fn a_change_elsewhere_is_found() {
        let mut lent = Lent::room("out", 3);
        lent.get_mut()[1..].fill(7_u8);
        lent.wrote(0..2);
    }

    #[test]
    #[should_panic(expected = "something beside `out` has changed")]
    fn a_change_beside_is_found() {
        let mut lent = Lent::<u32>::room("out", 3);
        let Held::Plain(all) = &mut lent.held else { return };
        all[SLACK + 3] = 0;
    }

    /// The last element ends where a page ends.
    #[test]
    fn guarded_buffers_end_at_a_page() {
        for len in [0, 1, 1_024, 5_000] {
            let mut pages = Pages::<u32>::new(len);
            pages.all_mut().fill(7);
            assert_eq!(pages.all().as_ptr_range().end as usize % 4_096, 0);
            assert!(pages.all().iter().all(|&word| word == 7));
        }
    }
}
