//! The format of document 01 §1: where everything stands. No offset has its number anywhere else.

use crate::crc::crc64;

pub const SELECTOR_AT: usize = 0;
pub const FIRST_HEADER_AT: usize = 8;
pub const SECOND_HEADER_AT: usize = 40;
pub const RING_AT: usize = 72;

pub const HEADER_LENGTH: usize = 32;

/// "0xa32842d19001605e, the first header is live; 0xab21aa73069531b7, the second".
pub const FIRST: u64 = 0xa32842d19001605e;
pub const SECOND: u64 = 0xab21aa73069531b7;

pub fn selector(second: bool) -> u64 {
    if second {
        SECOND
    } else {
        FIRST
    }
}

pub fn header_at(second: bool) -> usize {
    if second {
        SECOND_HEADER_AT
    } else {
        FIRST_HEADER_AT
    }
}

/// "Numbers are unsigned 64-bit, stored little-endian."
pub fn number_at(medium: &[u8], at: usize) -> u64 {
    u64::from_le_bytes(medium[at..at + 8].try_into().expect("eight bytes"))
}

/// "A header is checksum (8), head (8), tail (8), size (8). The checksum is over the last 24 bytes".
pub fn header(head: u64, tail: u64, size: u64) -> [u8; HEADER_LENGTH] {
    let mut bytes = [0; HEADER_LENGTH];
    bytes[8..16].copy_from_slice(&head.to_le_bytes());
    bytes[16..24].copy_from_slice(&tail.to_le_bytes());
    bytes[24..32].copy_from_slice(&size.to_le_bytes());
    let checksum = crc64(&bytes[8..]);
    bytes[..8].copy_from_slice(&checksum.to_le_bytes());
    bytes
}

/// "Position p is stored at 72 + p mod size."
pub fn place(size: u64, position: u64) -> usize {
    RING_AT + (position % size) as usize
}

#[cfg(test)]
mod tests {
    use super::*;

    #[test]
    fn worked_checksums_of_document_01() {
        let checksum = |head, tail, size| number_at(&header(head, tail, size), 0);
        assert_eq!(checksum(0, 0, 4024), 0x329fc849810e7b1d);
        assert_eq!(checksum(0, 100, 4024), 0x4f7d438f09d1b9d5);
        assert_eq!(checksum(1679, 100, 4024), 0x8eb6c6d648f439d5);
        assert_eq!(checksum(0, 0, 1), 0x6c28174384cf2c2c);
    }

    #[test]
    fn selectors_differ_in_25_bits() {
        assert_eq!((FIRST ^ SECOND).count_ones(), 25);
    }
}
