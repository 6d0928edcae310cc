//! Memory that ends where a page ends, with a page behind it that cannot be touched.

use std::ffi::{c_int, c_void};
use std::marker::PhantomData;
use std::sync::LazyLock;

const PAGE: usize = 4_096;
const NONE: c_int = 0;
const READ_WRITE: c_int = 3;
/// Private and of no file, on Linux.
const PRIVATE: c_int = 0x22;

unsafe extern "C" {
    fn mmap(at: *mut c_void, len: usize, protection: c_int, flags: c_int, file: c_int, offset: i64) -> *mut c_void;
    fn mprotect(at: *mut c_void, len: usize, protection: c_int) -> c_int;
    fn munmap(at: *mut c_void, len: usize) -> c_int;
}

static WANTED: LazyLock<bool> = LazyLock::new(|| std::env::var_os("TABLEGOOSE_GUARD").is_some_and(|value| value == "1"));

/// Whether buffers are guarded.
pub fn wanted() -> bool {
    *WANTED
}

/// So many elements, the last of which ends at the guarded page.
pub struct Pages<T> {
    start: *mut u8,
    /// Bytes of the pages before the guarded one.
    size: usize,
    len: usize,
    of: PhantomData<T>,
}

impl<T: Copy> Pages<T> {
    pub fn new(len: usize) -> Pages<T> {
        let size = (len * size_of::<T>()).next_multiple_of(PAGE);
        // Safety: new pages are asked for, wherever they are; of these the last one is closed.
        let start = unsafe {
            let start = mmap(std::ptr::null_mut(), size + PAGE, READ_WRITE, PRIVATE, -1, 0);
            assert!(start as isize != -1, "no pages");
            assert!(mprotect(start.byte_add(size), PAGE, NONE) == 0, "a page cannot be closed");
            start
        };
        Pages { start: start.cast(), size, len, of: PhantomData }
    }

    fn first(&self) -> *mut T {
        // Safety: the elements fit the pages before the guarded one, and a page is aligned for them.
        unsafe { self.start.add(self.size - self.len * size_of::<T>()).cast() }
    }

    pub fn all(&self) -> &[T] {
        // Safety: the pages are this value's own, and zero until they are written; every element is a number.
        unsafe { std::slice::from_raw_parts(self.first(), self.len) }
    }

    pub fn all_mut(&mut self) -> &mut [T] {
        // Safety: as above, and the borrow is the only one.
        unsafe { std::slice::from_raw_parts_mut(self.first(), self.len) }
    }
}

impl<T> Drop for Pages<T> {
    fn drop(&mut self) {
        // Safety: these pages were asked for by `new` and are given back once.
        unsafe { munmap(self.start.cast(), self.size + PAGE) };
    }
}
