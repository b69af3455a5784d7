//! The checksum of document 01: CRC-64 as used by xz.

/// "polynomial 0x42f0e1eba9ea3693, bits reflected".
const POLYNOMIAL: u64 = 0x42f0e1eba9ea3693u64.reverse_bits();

/// Eight tables: `TABLES[k][b]` is what the byte b makes of the register when k zero bytes follow it.
static TABLES: [[u64; 256]; 8] = tables();

/// "all ones before and after"; one bit at a time, from the lowest of each byte.
pub fn crc64_by_bits(bytes: &[u8]) -> u64 {
    let mut register = u64::MAX;
    for byte in bytes {
        for bit in 0..8 {
            let top = (register ^ u64::from(byte >> bit)) & 1;
            register = (register >> 1) ^ (POLYNOMIAL * top);
        }
    }
    !register
}

/// The same, eight bytes at a time: the cut tests open hundreds of millions of media.
pub fn crc64(bytes: &[u8]) -> u64 {
    let mut register = u64::MAX;
    let mut words = bytes.chunks_exact(8);
    for word in &mut words {
        let mixed = register ^ u64::from_le_bytes(word.try_into().expect("eight bytes"));
        register = (0..8).fold(0, |sum, i| sum ^ TABLES[7 - i][(mixed >> (8 * i)) as usize & 255]);
    }
    for byte in words.remainder() {
        register = (register >> 8) ^ TABLES[0][(register as u8 ^ byte) as usize];
    }
    !register
}

const fn tables() -> [[u64; 256]; 8] {
    let mut tables = [[0; 256]; 8];
    let mut byte = 0;
    while byte < 256 {
        let mut register = byte as u64;
        let mut turn = 0;
        while turn < 64 {
            register = (register >> 1) ^ (POLYNOMIAL * (register & 1));
            turn += 1;
            if turn % 8 == 0 {
                tables[turn / 8 - 1][byte] = register;
            }
        }
        byte += 1;
    }
    tables
}

#[cfg(test)]
mod tests {
    use super::*;

    #[test]
    fn worked_values_of_document_01() {
        assert_eq!(crc64_by_bits(b"123456789"), 0x995dc9bbdf1939fa);
        assert_eq!(crc64_by_bits(b"0"), 0x9901423b97329582);
        assert_eq!(crc64_by_bits(b"1"), 0x2a2f0e859495caed);
    }

    #[test]
    fn by_tables_is_by_bits() {
        let bytes: Vec<u8> = (0..400u32).map(|i| (i * i * 7 + i / 3) as u8).collect();
        for from in 0..bytes.len() {
            for to in from..bytes.len().min(from + 40) {
                assert_eq!(crc64(&bytes[from..to]), crc64_by_bits(&bytes[from..to]));
            }
        }
    }
}
