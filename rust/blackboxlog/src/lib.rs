//! A record log on persistent memory, whose functions are proved.
//!
//! The log is endless: positions only grow. It keeps the bytes from its *head*, the oldest kept, to its *tail*, the next to be written, in a
//! ring on a *medium*, a run of bytes that the caller lends. Whenever the power goes, in the middle of whatever write, the medium opens as
//! the log before the operation that was under way or as the log after it. This is proved of the archive `libblackboxlog.a` that the crate
//! links; the crate itself is ordinary Rust over it. It has no dependencies, and without the feature `std` it needs no operating system.
//!
//! ```
//! use blackboxlog::{Log, Medium};
//!
//! let mut medium = Medium::zeroed(1 << 16).unwrap();
//! let mut log = Log::setup(&mut medium)?;
//! let position = log.append(b"12:00:01 rudder 3 starboard")?;
//!
//! // after the accident
//! let log = Log::open(&mut medium)?;
//! assert_eq!(log.read_vec(position, 27)?, b"12:00:01 rudder 3 starboard");
//! # Ok::<(), blackboxlog::Error>(())
//! ```
//!
//! # What is asked of the memory
//!
//! 1. The medium begins at an address that is a multiple of 8.
//! 2. The memory takes what is written in aligned pieces of 8 bytes: a power cut leaves each piece as it was or as it was to be.
//! 3. After a flush, all that was written before it is there for good. Between two flushes anything may arrive in any order.
//! 4. Nobody else writes to the medium while an operation is under way.
//! 5. When a medium is opened or set up, nothing that was written to it before is still on its way. After a power cut that is so. A program
//!    that ended while the power stayed, and starts again, writes the medium back and flushes before it opens it.
//!
//! How a memory is flushed is said by a [`Memory`], or by whoever carries out the steps of an [`Operation`].

#![no_std]
#![deny(missing_docs)]

#[cfg(feature = "std")]
extern crate std;

#[cfg(not(target_arch = "x86_64"))]
compile_error!("libblackboxlog.a is for x86-64: build with --target x86_64-unknown-linux-gnu");

mod archive;
mod error;
mod log;
#[cfg(feature = "std")]
mod medium;
mod memory;
#[allow(dead_code)]
mod sys;

pub use crate::error::{Error, Which};
pub use crate::log::{Log, Numbers, Operation, Reader};
#[cfg(feature = "std")]
pub use crate::medium::Medium;
pub use crate::memory::{Memory, Plain, Step};

/// The version of this crate, of the C header and of the program `blackbox`.
pub const VERSION: &str = "0.2.0";

/// A medium of so many bytes more has a capacity of so many bytes.
///
/// ```
/// use blackboxlog::{Log, Medium, OVERHEAD};
///
/// let log = Log::setup(Medium::zeroed(OVERHEAD + 1000).unwrap())?;
/// assert_eq!(log.ask()?.capacity, 1000);
/// # Ok::<(), blackboxlog::Error>(())
/// ```
pub const OVERHEAD: usize = 73;

/// The checksum CRC-64/XZ, as in the headers of the log.
///
/// ```
/// assert_eq!(blackboxlog::crc64(b"123456789"), 0x995dc9bbdf1939fa);
/// ```
pub fn crc64(bytes: &[u8]) -> u64 {
    archive::crc64(bytes)
}
