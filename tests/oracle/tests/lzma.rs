//! The checksum here against liblzma's, which Debian has in the package liblzma-dev.

use oracle::crc64fast::Digest;

#[link(name = "lzma")]
extern "C" {
    fn lzma_crc64(bytes: *const u8, length: usize, crc: u64) -> u64;
}

fn by_liblzma(bytes: &[u8]) -> u64 {
    // SAFETY: liblzma reads `length` bytes from the pointer, and that is the slice.
    unsafe { lzma_crc64(bytes.as_ptr(), bytes.len(), 0) }
}

fn by_digest(parts: &[&[u8]]) -> u64 {
    let mut digest = Digest::new();
    for part in parts {
        digest.write(part);
    }
    digest.sum64()
}

/// Bytes without a pattern that the checksum could miss (xorshift, fixed seed).
fn bytes(count: usize) -> Vec<u8> {
    let mut state = 0x9e37_79b9_7f4a_7c15u64;
    let mut next = || {
        state ^= state << 13;
        state ^= state >> 7;
        state ^= state << 17;
        (state >> 56) as u8
    };
    (0..count).map(|_| next()).collect()
}

#[test]
fn same_as_liblzma_on_every_length_up_to_4200() {
    let all = bytes(4200);
    for length in 0..=all.len() {
        assert_eq!(by_digest(&[&all[..length]]), by_liblzma(&all[..length]), "length {}", length);
    }
}

#[test]
fn same_as_liblzma_on_every_part_of_80_bytes() {
    let all = bytes(80);
    for from in 0..=all.len() {
        for to in from..=all.len() {
            assert_eq!(by_digest(&[&all[from..to]]), by_liblzma(&all[from..to]), "from {} to {}", from, to);
        }
    }
}

#[test]
fn same_as_liblzma_on_every_byte_and_on_a_long_run() {
    for byte in 0..=255 {
        assert_eq!(by_digest(&[&[byte]]), by_liblzma(&[byte]), "byte {}", byte);
    }
    let long = bytes(1 << 20);
    assert_eq!(by_digest(&[&long]), by_liblzma(&long));
}

#[test]
fn same_whole_and_in_two_parts() {
    let all = bytes(200);
    for cut in 0..=all.len() {
        assert_eq!(by_digest(&[&all[..cut], &all[cut..]]), by_digest(&[&all]), "cut at {}", cut);
    }
}
