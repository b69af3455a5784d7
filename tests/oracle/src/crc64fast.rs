//! Scaffolding: the checksum that upstream takes from the crate crc64fast, with that crate's names. It is the
//! CRC-64 of xz: polynomial 0x42f0e1eba9ea3693, bits reflected, all ones before and after.

/// The polynomial with its bits reflected.
const POLYNOMIAL: u64 = 0xc96c_5795_d787_0f42;

/// For each byte, what eight turns of the register make of it.
const TABLE: [u64; 256] = table();

const fn table() -> [u64; 256] {
    let mut table = [0; 256];
    let mut byte = 0;
    while byte < 256 {
        let mut register = byte as u64;
        let mut bit = 0;
        while bit < 8 {
            register = (register >> 1) ^ (POLYNOMIAL * (register & 1));
            bit += 1;
        }
        table[byte] = register;
        byte += 1;
    }
    table
}

pub struct Digest {
    register: u64,
}

impl Digest {
    #[allow(clippy::new_without_default)]
    pub fn new() -> Digest {
        Digest { register: u64::MAX }
    }

    pub fn write(&mut self, bytes: &[u8]) {
        for byte in bytes {
            let low = self.register as u8 ^ byte;
            self.register = (self.register >> 8) ^ TABLE[low as usize];
        }
    }

    pub fn sum64(&self) -> u64 {
        !self.register
    }
}
