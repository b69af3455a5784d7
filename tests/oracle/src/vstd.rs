//! Scaffolding: the three functions of Verus's library that the bodies call, under the names of their modules.

pub mod bytes {
    pub fn u64_from_le_bytes(bytes: &[u8]) -> u64 {
        u64::from_le_bytes(bytes.try_into().expect("eight bytes"))
    }

    pub fn u64_to_le_bytes(number: u64) -> Vec<u8> {
        number.to_le_bytes().to_vec()
    }
}

pub mod slice {
    pub fn slice_subrange(slice: &[u8], from: usize, to: usize) -> &[u8] {
        &slice[from..to]
    }
}
