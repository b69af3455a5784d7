//! Where things stand on a medium, for showing them. Whether it is a log is not judged here: opening does that.

use std::fmt;

use blackboxlog::{crc64, Which};

pub const SELECTOR_OF_FIRST: u64 = 0xa328_42d1_9001_605e;
pub const SELECTOR_OF_SECOND: u64 = 0xab21_aa73_0695_31b7;
pub const RING: u64 = 72;
/// What opening looks at.
pub const HEADERS_END: u64 = RING;

pub fn header_at(which: Which) -> usize {
    match which {
        Which::First => 8,
        Which::Second => 40,
    }
}

fn number_at(medium: &[u8], at: usize) -> u64 {
    medium[at..at + 8].iter().rev().fold(0, |number, byte| number << 8 | u64::from(*byte))
}

/// What stands in front of the ring, of a medium of 73 bytes or more.
pub struct Front {
    pub selector: u64,
    pub first: Header,
    pub second: Header,
}

impl Front {
    /// `None`: the medium is too short to have one.
    pub fn of(medium: &[u8]) -> Option<Front> {
        if medium.len() as u64 <= RING {
            return None;
        }
        Some(Front {
            selector: number_at(medium, 0),
            first: Header::of(medium, Which::First),
            second: Header::of(medium, Which::Second),
        })
    }

    /// The header that the selector names.
    pub fn live(&self) -> Option<Which> {
        match self.selector {
            SELECTOR_OF_FIRST => Some(Which::First),
            SELECTOR_OF_SECOND => Some(Which::Second),
            _ => None,
        }
    }

    pub fn headers(&self) -> [(Which, &Header); 2] {
        [(Which::First, &self.first), (Which::Second, &self.second)]
    }
}

/// Whether a medium, of any length, may hold what is left of a log: its selector is one of the two values, or one with a few bits flipped (zeros
/// are farther away), or one of the headers is right.
pub fn remains(medium: &[u8]) -> bool {
    let near = |value: u64| (number_at(medium, 0) ^ value).count_ones() <= 12;
    let selector = medium.len() >= 8 && (near(SELECTOR_OF_FIRST) || near(SELECTOR_OF_SECOND));
    let right = |front: Front| front.headers().iter().any(|(_, header)| header.is_right() && header.size != 0);
    selector || Front::of(medium).map_or(false, right)
}

pub struct Header {
    pub stored: u64,
    pub computed: u64,
    pub head: u64,
    pub tail: u64,
    pub size: u64,
}

impl Header {
    fn of(medium: &[u8], which: Which) -> Header {
        let at = header_at(which);
        Header {
            stored: number_at(medium, at),
            computed: crc64(&medium[at + 8..at + 32]),
            head: number_at(medium, at + 8),
            tail: number_at(medium, at + 16),
            size: number_at(medium, at + 24),
        }
    }

    pub fn is_right(&self) -> bool {
        self.stored == self.computed
    }

    /// Which of its numbers no log on a medium with such a ring has.
    pub fn fault(&self, ring: u64) -> Option<&'static str> {
        if self.size == 0 {
            Some("the size is 0")
        } else if self.head > self.tail {
            Some("the head is past the tail")
        } else if self.tail - self.head >= self.size {
            Some("more bytes between head and tail than the ring can keep")
        } else if self.size != ring {
            Some("the size is not that of the medium's ring")
        } else {
            None
        }
    }
}

impl fmt::Display for Header {
    fn fmt(&self, f: &mut fmt::Formatter<'_>) -> fmt::Result {
        write!(f, "head {}, tail {}, size {}", self.head, self.tail, self.size)
    }
}
