use core::fmt;

use crate::sys::{code, Reply};

/// One of the two headers of a medium.
#[derive(Clone, Copy, Debug, PartialEq, Eq, Hash)]
pub enum Which {
    /// The one at offset 8.
    First,
    /// The one at offset 40.
    Second,
}

impl Which {
    pub(crate) fn of(live: u64) -> Which {
        if live == 1 {
            Which::Second
        } else {
            Which::First
        }
    }
}

impl fmt::Display for Which {
    fn fmt(&self, f: &mut fmt::Formatter<'_>) -> fmt::Result {
        f.write_str(match self {
            Which::First => "first",
            Which::Second => "second",
        })
    }
}

/// Why something was refused, with the numbers. A refusal has written nothing, except for [`Error::BrokenPlan`].
///
/// ```
/// use blackboxlog::{Error, Log, Medium};
///
/// let mut medium = Medium::zeroed(73 + 100).unwrap();
/// let mut log = Log::setup(&mut medium)?;
/// log.append(&[0; 90])?;
/// let refused = log.append(&[0; 11]).unwrap_err();
/// assert_eq!(refused, Error::NoRoom { room: 10 });
/// assert_eq!(refused.to_string(), "no room for so many bytes: there is room for 10");
/// # Ok::<(), Error>(())
/// ```
#[derive(Clone, Copy, Debug, PartialEq, Eq, Hash)]
#[non_exhaustive]
pub enum Error {
    /// The medium has 72 bytes or fewer.
    TooShort {
        /// The length that is required: 73.
        required: u64,
    },
    /// Damaged: the selector, at offset 0, has neither of its two values.
    BadSelector {
        /// What it has.
        found: u64,
    },
    /// Damaged: the checksum of the live header is wrong.
    BadChecksum {
        /// The header that the selector names.
        live: Which,
        /// The checksum that is stored in it.
        stored: u64,
        /// The checksum of its numbers as they are.
        computed: u64,
    },
    /// Not a log: the size is 0.
    SizeZero,
    /// Not a log: the head is past the tail.
    HeadPastTail {
        /// The head in the live header.
        head: u64,
        /// The tail in the live header.
        tail: u64,
    },
    /// Not a log: from head to tail there are as many bytes as the ring has, or more.
    TooFull {
        /// The head in the live header.
        head: u64,
        /// The tail in the live header.
        tail: u64,
        /// The ring's size in the live header.
        size: u64,
    },
    /// Not a log: the header's size is not that of the ring that the medium has.
    WrongSize {
        /// The ring's size in the live header.
        size: u64,
        /// The ring that the medium has: its length less 72.
        ring: u64,
    },
    /// There is no room for so many bytes.
    NoRoom {
        /// How many bytes there is room for. With that many an append is not refused.
        room: u64,
    },
    /// The position is before the head.
    BeforeHead {
        /// The head.
        head: u64,
    },
    /// The position, or the end of the bytes to read, is beyond the tail.
    BeyondTail {
        /// The tail.
        tail: u64,
    },
    /// The handle can't be a log of this medium's length. A [`Log`](crate::Log) keeps the handle itself, so it is not seen, unless the medium
    /// changes its length.
    BadHandle,
    /// The plan has too few numbers. This crate's plans have enough, so it is not seen.
    ShortPlan {
        /// How many are enough.
        words: u64,
    },
    /// The medium begins at an address that is not a multiple of 8.
    Misaligned {
        /// What remains of the address.
        remainder: u64,
    },
    /// The bytes to append, or the place for the bytes that are read, overlap the medium. Safe code can't do that.
    Overlap,
    /// A step of a plan was refused. This crate's plans fit, so it is not seen, unless the medium changes its length. The medium is as after
    /// a power cut; open it again.
    BrokenPlan {
        /// The step, counted from 0.
        step: u64,
    },
    /// No log is open: none was opened, or an [`Operation`](crate::Operation) was dropped before its end and left the medium as a power cut
    /// would. [`Log::reopen`](crate::Log::reopen) opens what stands there.
    NotOpen,
    /// There is not enough memory to read into.
    NoMemory {
        /// How many bytes were asked for.
        bytes: u64,
    },
    /// A code that this crate does not know: the archive is of another version.
    Unknown {
        /// The code.
        code: u64,
    },
}

impl Error {
    pub(crate) fn of(reply: &Reply) -> Error {
        let (number, other) = (reply.number, reply.other);
        match reply.code {
            code::TOO_SHORT => Error::TooShort { required: number },
            code::BAD_SELECTOR => Error::BadSelector { found: number },
            code::BAD_CHECKSUM => {
                Error::BadChecksum { live: Which::of(reply.handle.live), stored: number, computed: other }
            }
            code::SIZE_ZERO => Error::SizeZero,
            code::HEAD_PAST_TAIL => Error::HeadPastTail { head: number, tail: other },
            code::TOO_FULL => Error::TooFull { head: number, tail: other, size: reply.handle.size },
            code::WRONG_SIZE => Error::WrongSize { size: number, ring: other },
            code::NO_ROOM => Error::NoRoom { room: number },
            code::BEFORE_HEAD => Error::BeforeHead { head: number },
            code::BEYOND_TAIL => Error::BeyondTail { tail: number },
            code::BAD_HANDLE => Error::BadHandle,
            code::SHORT_PLAN => Error::ShortPlan { words: number },
            code => Error::Unknown { code },
        }
    }

    /// The reason without its numbers, in the words of `bbl_reason` of the C header.
    ///
    /// ```
    /// assert_eq!(blackboxlog::Error::NoRoom { room: 3 }.reason(), "no room for so many bytes");
    /// ```
    pub fn reason(&self) -> &'static str {
        match self {
            Error::TooShort { .. } => "the medium is too short",
            Error::BadSelector { .. } => "damaged: the selector has neither of its two values",
            Error::BadChecksum { .. } => "damaged: the checksum of the live header is wrong",
            Error::SizeZero => "not a log: the size is 0",
            Error::HeadPastTail { .. } => "not a log: the head is past the tail",
            Error::TooFull { .. } => "not a log: more bytes between head and tail than the ring can keep",
            Error::WrongSize { .. } => "not a log: the size is not that of the medium's ring",
            Error::NoRoom { .. } => "no room for so many bytes",
            Error::BeforeHead { .. } => "the position is before the head",
            Error::BeyondTail { .. } => "beyond the tail",
            Error::BadHandle => "the handle can't be a log of this medium",
            Error::ShortPlan { .. } => "the plan has too few numbers",
            Error::Misaligned { .. } => "the medium is not aligned to 8 bytes",
            Error::Overlap => "the bytes overlap the medium",
            Error::BrokenPlan { .. } => "a step of the plan was refused",
            Error::NotOpen => "no log is open",
            Error::NoMemory { .. } => "not enough memory",
            Error::Unknown { .. } => "unknown code",
        }
    }

    /// Whether opening says that the medium is damaged: its selector or its live header.
    ///
    /// ```
    /// use blackboxlog::{Error, Reader};
    /// assert!(Reader::open(&[0; 100]).unwrap_err().is_damage());
    /// assert!(!Reader::open(&[0; 72]).unwrap_err().is_damage());
    /// ```
    pub fn is_damage(&self) -> bool {
        matches!(self, Error::BadSelector { .. } | Error::BadChecksum { .. })
    }

    /// Whether opening says that the medium is not a log: its live header has a right checksum, and numbers that no log has.
    ///
    /// ```
    /// assert!(blackboxlog::Error::SizeZero.is_not_a_log());
    /// ```
    pub fn is_not_a_log(&self) -> bool {
        matches!(self, Error::SizeZero | Error::HeadPastTail { .. } | Error::TooFull { .. } | Error::WrongSize { .. })
    }
}

impl fmt::Display for Error {
    fn fmt(&self, f: &mut fmt::Formatter<'_>) -> fmt::Result {
        f.write_str(self.reason())?;
        match *self {
            Error::TooShort { required } => write!(f, ": {} bytes are required", required),
            Error::BadSelector { found } => write!(f, ": it is {:016x}", found),
            Error::BadChecksum { live, stored, computed } => {
                write!(f, ": the {} header has {:016x} stored, and {:016x} is computed", live, stored, computed)
            }
            Error::HeadPastTail { head, tail } => write!(f, ": head {}, tail {}", head, tail),
            Error::TooFull { head, tail, size } => write!(f, ": head {}, tail {}, size {}", head, tail, size),
            Error::WrongSize { size, ring } => write!(f, ": size {}, and the ring has {}", size, ring),
            Error::NoRoom { room } => write!(f, ": there is room for {}", room),
            Error::BeforeHead { head } => write!(f, ": the head is {}", head),
            Error::BeyondTail { tail } => write!(f, ": the tail is {}", tail),
            Error::ShortPlan { words } => write!(f, ": {} are enough", words),
            Error::Misaligned { remainder } => write!(f, ": the remainder of its address is {}", remainder),
            Error::BrokenPlan { step } => write!(f, ": step {}", step),
            Error::NoMemory { bytes } => write!(f, " for {} bytes", bytes),
            Error::Unknown { code } => write!(f, ": {}", code),
            Error::SizeZero | Error::BadHandle | Error::Overlap | Error::NotOpen => Ok(()),
        }
    }
}

#[cfg(feature = "std")]
impl std::error::Error for Error {}
