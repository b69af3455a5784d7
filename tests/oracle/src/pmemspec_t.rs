// From microsoft/verified-storage, pmemlog/src/pmemspec_t.rs, at commit 15f8869cec3fe5a4fb68c43bf04d5808bc9a1fab.
// Copyright (c) Microsoft Corporation. Licensed under the MIT License; the text stands in this repository's NOTICE.
// Made by tests/oracle/erase: ghost code is erased, all else is verbatim but for the lines that README.md lists.

/*

  This file specifies, with the `PersistentMemory` type, the behavior
  of a persistent memory region. One of the things it models is what
  can happen to the persistent memory region if the system crashes in
  the middle of a write.

*/

#![allow(dead_code)]
#![allow(non_upper_case_globals)]
#![allow(unused_variables)]

use crate::vstd::bytes::*;
use crate::vstd::slice::*;

#[cfg(not(verus_keep_ghost))]
use crate::crc64fast::Digest;

verus! {

    pub const crc_size: u64 = 8;

    pub fn bytes_crc(header_bytes: &Vec<u8>) -> Vec<u8>
    {
        #[cfg(not(verus_keep_ghost))]
        {
            let mut c = Digest::new();
            c.write(header_bytes.as_slice());
            u64_to_le_bytes(c.sum64())
        }
        #[cfg(verus_keep_ghost)]
        unimplemented!()
    }

    // The second assumption, encapsulated in
    // `axiom_corruption_detecting_boolean`, is that the values
    // `cdb0_val` and `cdb1_val` are so randomly different from each
    // other that corruption can't make one appear to be the other.
    // That is, if we know we wrote either `cdb0_val` or `cdb1_val` to
    // a certain part of persistent memory, and when we read that same
    // part we get `cdb0_val` or `cdb1_val`, we can assume it matches
    // what we last wrote to it. To justify the assumption that
    // `cdb0_val` and `cdb1_val` are different from each other, we set
    // them to CRC(b"0") and CRC(b"1"), respectively.

    pub const cdb0_val: u64 = 0xa32842d19001605e; // CRC(b"0")
    pub const cdb1_val: u64 = 0xab21aa73069531b7; // CRC(b"1")

    // We mark this as `external_body` so that the verifier can't see
    // that there's nothing important in it and thereby shortcut some
    // checks.

    pub trait PersistentMemory : Sized {

        /// This is the model of some routine that reads the
        /// `num_bytes` bytes at address `addr`.
        fn read(&self, addr: u64, num_bytes: u64) -> Vec<u8>;

        /// This is the model of some routine that writes `bytes`
        /// starting at address `addr`.
        fn write(&mut self, addr: u64, bytes: &[u8]);

    }

    /// A `WriteRestrictedPersistentMemory<P>` object wraps a
    /// `PersistentMemory` object to restrict how it's written.
    /// Untrusted code passed one of these can only write to the
    /// encapsulated persistent memory by providing a permission of
    /// type `P`. That permission must allow all possible states `s`
    /// such that crashing in the middle of the write might leave the
    /// persistent memory in state `s`.
    pub struct WriteRestrictedPersistentMemory<PM>
        where
            PM: PersistentMemory
    {
        pm: PM
    }

    impl <PM> WriteRestrictedPersistentMemory<PM>
        where
            PM: PersistentMemory
    {

        pub fn new(pm: PM) -> Self
        {
            Self { pm: pm }
        }

        pub fn get_pm_ref(&self) -> &PM
        {
            &self.pm
        }

        /// This `write` function can only be called if a crash in the
        /// middle of the requested write will leave the persistent
        /// memory in a state allowed by `perm`. The state must be
        /// allowed no matter what subset of the persistence chunks
        /// have been flushed.
        pub fn write(&mut self, addr: u64, bytes: &[u8])
        {
            self.pm.write(addr, bytes)
        }
    }

}
