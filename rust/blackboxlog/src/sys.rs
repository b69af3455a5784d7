//! The archive's functions, as include/blackboxlog.h declares them. A test holds the two and the archive against each other.

/// So many numbers are enough for every plan.
pub const PLAN_WORDS: usize = 54;

/// The codes of a reply.
pub mod code {
    pub const OK: u64 = 0;
    pub const TOO_SHORT: u64 = 1;
    pub const BAD_SELECTOR: u64 = 2;
    pub const BAD_CHECKSUM: u64 = 3;
    pub const SIZE_ZERO: u64 = 4;
    pub const HEAD_PAST_TAIL: u64 = 5;
    pub const TOO_FULL: u64 = 6;
    pub const WRONG_SIZE: u64 = 7;
    pub const NO_ROOM: u64 = 8;
    pub const BEFORE_HEAD: u64 = 9;
    pub const BEYOND_TAIL: u64 = 10;
    pub const BAD_HANDLE: u64 = 11;
    pub const SHORT_PLAN: u64 = 12;
    pub const MISALIGNED: u64 = 100;
    pub const OVERLAP: u64 = 101;
    pub const BROKEN_PLAN: u64 = 102;
}

/// The codes of a step.
pub mod step {
    pub const PUT: u64 = 0;
    pub const FLUSH: u64 = 1;
    pub const REFUSED: u64 = 2;
}

/// A step of a plan is six numbers, of which the first is its kind.
pub const STEP_WORDS: usize = 6;

/// The kinds of steps that the crate knows. The second number says where bytes or a number are put; then come the first of the bytes and the one
/// behind the last; or the number.
pub mod kind {
    pub const FLUSH: u64 = 0;
    pub const BYTES: u64 = 1;
    pub const NUMBER: u64 = 2;
}

#[repr(C)]
#[derive(Clone, Copy, Debug, PartialEq, Eq)]
pub struct Handle {
    pub live: u64,
    pub head: u64,
    pub tail: u64,
    pub size: u64,
}

#[repr(C)]
#[derive(Clone, Copy, Debug, PartialEq, Eq)]
pub struct Reply {
    pub code: u64,
    pub number: u64,
    pub other: u64,
    pub steps: u64,
    pub handle: Handle,
}

#[repr(C)]
#[derive(Clone, Copy, Debug, PartialEq, Eq)]
pub struct Stepped {
    pub code: u64,
    pub at: u64,
    pub length: u64,
}

#[link(name = "blackboxlog", kind = "static")]
extern "C" {
    pub fn bbl_crc64(bytes: *const u8, length: usize) -> u64;
    pub fn bbl_open(medium: *const u8, medium_length: usize) -> Reply;
    pub fn bbl_plan_setup(medium: *const u8, medium_length: usize, plan: *mut u64, words: usize) -> Reply;
    pub fn bbl_plan_append_of(
        medium: *const u8,
        medium_length: usize,
        live: u64,
        head: u64,
        tail: u64,
        size: u64,
        length: u64,
        plan: *mut u64,
        words: usize,
    ) -> Reply;
    pub fn bbl_plan_advance(
        medium: *const u8,
        medium_length: usize,
        handle: Handle,
        position: u64,
        plan: *mut u64,
        words: usize,
    ) -> Reply;
    pub fn bbl_step(
        medium: *mut u8,
        medium_length: usize,
        plan: *const u64,
        words: usize,
        bytes: *const u8,
        length: usize,
        i: u64,
    ) -> Stepped;
    pub fn bbl_put_bytes(
        medium: *mut u8,
        medium_length: usize,
        at: u64,
        bytes: *const u8,
        length: usize,
        a: u64,
        b: u64,
    ) -> u64;
    pub fn bbl_put_number(medium: *mut u8, medium_length: usize, at: u64, number: u64) -> u64;
    pub fn bbl_read(
        medium: *const u8,
        medium_length: usize,
        handle: Handle,
        position: u64,
        out: *mut u8,
        length: usize,
    ) -> Reply;
    pub fn bbl_ask(medium: *const u8, medium_length: usize, handle: Handle) -> Reply;
}
