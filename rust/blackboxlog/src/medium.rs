use std::alloc::{alloc_zeroed, dealloc, Layout};
use std::ops::{Deref, DerefMut};
use std::ptr::NonNull;
use std::slice;

/// A medium in ordinary memory, aligned to 8 as a log needs it: for tests and for images.
///
/// ```
/// use blackboxlog::Medium;
///
/// let mut medium = Medium::zeroed(82).unwrap();
/// assert_eq!(medium.len(), 82);
/// medium[0] = 1;
/// assert_eq!(Medium::zeroed(usize::MAX), None);
/// ```
pub struct Medium {
    start: NonNull<u64>,
    layout: Layout,
}

// The bytes belong to the medium alone.
unsafe impl Send for Medium {}
unsafe impl Sync for Medium {}

impl Medium {
    /// So many zero bytes, or `None` if there is not enough memory. Bytes that are never touched cost nothing.
    ///
    /// ```
    /// assert!(blackboxlog::Medium::zeroed(1 << 20).unwrap().iter().all(|byte| *byte == 0));
    /// ```
    pub fn zeroed(length: usize) -> Option<Medium> {
        let layout = Layout::from_size_align(length, 8).ok()?;
        if length == 0 {
            return Some(Medium { start: NonNull::dangling(), layout });
        }
        // the layout has at least one byte
        let start = NonNull::new(unsafe { alloc_zeroed(layout) })?.cast();
        Some(Medium { start, layout })
    }

    /// A copy of these bytes, or `None` if there is not enough memory.
    ///
    /// ```
    /// use blackboxlog::Medium;
    /// assert_eq!(&Medium::copy_of(b"abc").unwrap()[..], b"abc");
    /// ```
    pub fn copy_of(bytes: &[u8]) -> Option<Medium> {
        let mut medium = Medium::zeroed(bytes.len())?;
        medium.copy_from_slice(bytes);
        Some(medium)
    }
}

impl Deref for Medium {
    type Target = [u8];

    fn deref(&self) -> &[u8] {
        // so many bytes are allocated, and zero or written
        unsafe { slice::from_raw_parts(self.start.as_ptr().cast(), self.layout.size()) }
    }
}

impl DerefMut for Medium {
    fn deref_mut(&mut self) -> &mut [u8] {
        unsafe { slice::from_raw_parts_mut(self.start.as_ptr().cast(), self.layout.size()) }
    }
}

impl AsRef<[u8]> for Medium {
    fn as_ref(&self) -> &[u8] {
        self
    }
}

impl AsMut<[u8]> for Medium {
    fn as_mut(&mut self) -> &mut [u8] {
        self
    }
}

impl Drop for Medium {
    fn drop(&mut self) {
        if self.layout.size() > 0 {
            unsafe { dealloc(self.start.as_ptr().cast(), self.layout) }
        }
    }
}

impl PartialEq for Medium {
    fn eq(&self, other: &Medium) -> bool {
        self[..] == other[..]
    }
}

impl Eq for Medium {}

impl std::fmt::Debug for Medium {
    fn fmt(&self, f: &mut std::fmt::Formatter<'_>) -> std::fmt::Result {
        write!(f, "Medium of {} bytes", self.len())
    }
}
