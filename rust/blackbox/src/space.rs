//! Memory for an image of any size: only the pages that are touched are there.

use std::os::raw::{c_int, c_void};
use std::ptr::{self, NonNull};
use std::slice;

extern "C" {
    fn mmap(
        address: *mut c_void,
        length: usize,
        protection: c_int,
        flags: c_int,
        file: c_int,
        offset: i64,
    ) -> *mut c_void;
    fn munmap(address: *mut c_void, length: usize) -> c_int;
}

const READ_WRITE: c_int = 1 | 2;
const PRIVATE_ANONYMOUS_NORESERVE: c_int = 0x02 | 0x20 | 0x4000;

/// Zero bytes, aligned to a page. An image's medium: the parts that are needed are loaded into it.
pub struct Space {
    start: NonNull<u8>,
    length: usize,
}

impl Space {
    /// `None`: there is not enough memory.
    pub fn new(length: u64) -> Option<Space> {
        let length = usize::try_from(length).ok().filter(|length| *length <= isize::MAX as usize)?;
        if length == 0 {
            return Some(Space { start: NonNull::<u64>::dangling().cast(), length });
        }
        let start = unsafe { mmap(ptr::null_mut(), length, READ_WRITE, PRIVATE_ANONYMOUS_NORESERVE, -1, 0) };
        // a failure is the address with all bits set
        if start as usize == usize::MAX {
            return None;
        }
        Some(Space { start: NonNull::new(start.cast())?, length })
    }
}

impl AsRef<[u8]> for Space {
    fn as_ref(&self) -> &[u8] {
        unsafe { slice::from_raw_parts(self.start.as_ptr(), self.length) }
    }
}

impl AsMut<[u8]> for Space {
    fn as_mut(&mut self) -> &mut [u8] {
        unsafe { slice::from_raw_parts_mut(self.start.as_ptr(), self.length) }
    }
}

impl Drop for Space {
    fn drop(&mut self) {
        if self.length > 0 {
            unsafe { munmap(self.start.as_ptr().cast(), self.length) };
        }
    }
}
