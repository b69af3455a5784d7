// From microsoft/verified-storage, pmemlog/src/main_t.rs, at commit 15f8869cec3fe5a4fb68c43bf04d5808bc9a1fab.
// Copyright (c) Microsoft Corporation. Licensed under the MIT License; the text stands in this repository's NOTICE.
// Made by tests/oracle/erase: ghost code is erased, all else is verbatim but for the lines that README.md lists.

#![allow(dead_code)]

use std::fmt::Write;

use crate::logimpl_v::*;
use crate::pmemspec_t::*;
use crate::vstd::slice::*;

verus! {

    /// A `InfiniteLogImpl` wraps an `UntrustedLogImpl` to provide the
    /// executable interface that turns a persistent memory region
    /// into an effectively infinite log. It provides a simple
    /// interface to higher-level code.
    pub struct InfiniteLogImpl<PM: PersistentMemory> {
        untrusted_log_impl: UntrustedLogImpl,
        wrpm: WriteRestrictedPersistentMemory<PM>,
    }

    #[derive(Debug)]
    pub enum InfiniteLogErr {
        InsufficientSpaceForSetup { required_space: u64 },
        CantReadBeforeHead { head: u64 },
        CantReadPastTail { tail: u64 },
        InsufficientSpaceForAppend { available_space: u64 },
        CRCMismatch,
        CantAdvanceHeadPositionBeforeHead { head: u64 },
        CantAdvanceHeadPositionBeyondTail { tail: u64 },
    }

    impl <PM: PersistentMemory> InfiniteLogImpl<PM> {

        /// This static function takes a `PersistentMemory` and writes
        /// to it such that its state represents an empty log starting
        /// at head position 0. This function is meant to be called
        /// exactly once per log, to create and initialize it.
        pub fn setup(pm: &mut PM, device_size: u64) -> Result<u64, InfiniteLogErr>
        {
            UntrustedLogImpl::untrusted_setup(pm, device_size)
        }

        /// This static function takes a `PersistentMemory` and wraps
        /// it into an `InfiniteLogImpl`. It's meant to be called after
        /// setting up the persistent memory or after crashing and
        /// restarting.
        pub fn start(pm: PM, device_size: u64) -> Result<InfiniteLogImpl<PM>, InfiniteLogErr>
        {
            // The untrusted `start` routine may write to persistent memory, as long
            // as it keeps its abstraction as a log unchanged.
            let mut wrpm = WriteRestrictedPersistentMemory::new(pm);
            match UntrustedLogImpl::untrusted_start(&mut wrpm, device_size) {
                Ok(untrusted_log_impl) => Ok(InfiniteLogImpl { untrusted_log_impl, wrpm }),
                Err(e) => Err(e)
            }
        }

        /// This function appends to the log and returns the offset at
        /// which the append happened.
        pub fn append(&mut self, bytes_to_append: &Vec<u8>) -> Result<u64, InfiniteLogErr>
        {
            // For crash safety, we must restrict the untrusted code's
            // writes to persistent memory. We must only let it write
            // such that, if a crash happens in the middle of a write,
            // the view of the persistent state is either the current
            // state or the current state with `bytes_to_append`
            // appended.

            self.untrusted_log_impl.untrusted_append(&mut self.wrpm, bytes_to_append)
        }

        /// This function advances the head index of the log.
        pub fn advance_head(&mut self, new_head: u64) -> Result<(), InfiniteLogErr>
        {
            // For crash safety, we must restrict the untrusted code's
            // writes to persistent memory. We must only let it write
            // such that, if a crash happens in the middle of a write,
            // the view of the persistent state is either the current
            // state or the current state with the head advanced to
            // `new_head`.

            self.untrusted_log_impl.untrusted_advance_head(&mut self.wrpm, new_head)
        }

        /// This function reads `len` bytes from byte position `pos`
        /// in the log. It returns a vector of those bytes.
        pub fn read(&self, pos: u64, len: u64) -> Result<Vec<u8>, InfiniteLogErr>
        {
            // We don't need to provide permission to write to the
            // persistent memory because the untrusted code is only
            // getting a non-mutable reference to it and thus can't
            // write it. Note that the `UntrustedLogImpl` itself *is*
            // mutable, so it can freely update its in-memory state
            // (e.g., its cache) if it chooses.
            self.untrusted_log_impl.untrusted_read(&self.wrpm, pos, len)
        }

        /// This function returns a tuple consisting of the head and
        /// tail positions of the log.
        pub fn get_head_and_tail(&self) -> Result<(u64, u64, u64), InfiniteLogErr>
        {
            // We don't need to provide permission to write to the
            // persistent memory because the untrusted code is only
            // getting a non-mutable reference to it and thus can't
            // write it. Note that the `UntrustedLogImpl` itself *is*
            // mutable, so it can freely update its in-memory state
            // (e.g., its local copy of head and tail) if it chooses.
            self.untrusted_log_impl.untrusted_get_head_and_tail(&self.wrpm)
        }
    }
}

mod parts; // scaffolding: takes a log apart, and puts it together
