//! What a log asks of the memory under it.

/// What a step of an operation did.
#[derive(Clone, Copy, Debug, PartialEq, Eq)]
pub enum Step<'a> {
    /// Bytes were written, at least one.
    Written {
        /// Their offset in the medium.
        at: usize,
        /// The bytes: a part of the medium itself, so that their address is the one to write back.
        bytes: &'a [u8],
    },
    /// Everything that was written so far must be there for good before the next step.
    Flush,
}

/// The memory of a medium: what is done after each write and at each flush.
///
/// A closure that takes a [`Step`] is one; [`Plain`] does nothing. A memory that can fail, as a file can, is better served by an
/// [`Operation`](crate::Operation), which hands out the steps one by one.
///
/// ```
/// use blackboxlog::{Log, Medium, Memory};
///
/// /// Persistent memory of x86-64, where a line of the cache has 64 bytes.
/// struct Persistent;
///
/// impl Memory for Persistent {
///     fn written(&mut self, _at: usize, bytes: &[u8]) {
///         let first = bytes.as_ptr() as usize / 64;
///         let last = (bytes.as_ptr() as usize + bytes.len() - 1) / 64;
///         for line in first..=last {
///             // clflush is in every x86-64; where there is clwb, it is faster
///             unsafe { core::arch::x86_64::_mm_clflush((line * 64) as *const u8) };
///         }
///     }
///
///     fn flush(&mut self) {
///         unsafe { core::arch::x86_64::_mm_sfence() };
///     }
/// }
///
/// let mut medium = Medium::zeroed(4096).unwrap();
/// let mut log = Log::setup_with(&mut medium, Persistent)?;
/// log.append(b"rudder 3 starboard")?;
/// # Ok::<(), blackboxlog::Error>(())
/// ```
pub trait Memory {
    /// These bytes, at least one, were written at this offset of the medium. Begin to write them back.
    fn written(&mut self, at: usize, bytes: &[u8]);
    /// Return when everything that was written is there for good.
    fn flush(&mut self);
}

impl<F: FnMut(Step<'_>)> Memory for F {
    fn written(&mut self, at: usize, bytes: &[u8]) {
        self(Step::Written { at, bytes });
    }

    fn flush(&mut self) {
        self(Step::Flush);
    }
}

/// Memory that needs no flush. A power cut may then leave a medium that does not open: it is for trying things out, and for images that are
/// kept otherwise.
///
/// ```
/// use blackboxlog::{Log, Medium, Plain};
///
/// let mut medium = Medium::zeroed(100).unwrap();
/// let log = Log::setup_with(&mut medium, Plain)?;
/// # Ok::<(), blackboxlog::Error>(())
/// ```
#[derive(Clone, Copy, Debug, Default, PartialEq, Eq)]
pub struct Plain;

impl Memory for Plain {
    fn written(&mut self, _at: usize, _bytes: &[u8]) {}

    fn flush(&mut self) {}
}
