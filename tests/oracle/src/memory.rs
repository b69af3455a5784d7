//! Scaffolding: persistent memory as a vector of bytes, with the list of its writes.

use crate::pmemspec_t::PersistentMemory;

/// A write as it reached the memory.
#[derive(Clone, Debug, PartialEq, Eq)]
pub struct Write {
    pub at: u64,
    pub bytes: Vec<u8>,
}

/// What the memory holds, and each write so far, the oldest first. An access out of range panics.
#[derive(Clone, Debug, Default)]
pub struct RecordedMemory {
    pub contents: Vec<u8>,
    pub writes: Vec<Write>,
}

impl RecordedMemory {
    pub fn new(contents: Vec<u8>) -> RecordedMemory {
        RecordedMemory { contents, writes: Vec::new() }
    }
}

impl PersistentMemory for RecordedMemory {
    fn read(&self, addr: u64, num_bytes: u64) -> Vec<u8> {
        self.contents[addr as usize..][..num_bytes as usize].to_vec()
    }

    fn write(&mut self, addr: u64, bytes: &[u8]) {
        self.contents[addr as usize..][..bytes.len()].copy_from_slice(bytes);
        self.writes.push(Write { at: addr, bytes: bytes.to_vec() });
    }
}

/// Memory that is lent to a log, so that its owner has it back afterwards.
impl<PM: PersistentMemory> PersistentMemory for &mut PM {
    fn read(&self, addr: u64, num_bytes: u64) -> Vec<u8> {
        (**self).read(addr, num_bytes)
    }

    fn write(&mut self, addr: u64, bytes: &[u8]) {
        (**self).write(addr, bytes)
    }
}
