//! Scaffolding: a log from its memory and its numbers, and these from a log. Upstream keeps both private; the
//! tests go on from one state in several ways.

use super::{InfiniteLogImpl, PersistentMemory, UntrustedLogImpl, WriteRestrictedPersistentMemory};

impl<PM: PersistentMemory> InfiniteLogImpl<PM> {
    pub fn from_parts(untrusted_log_impl: UntrustedLogImpl, pm: PM) -> Self {
        InfiniteLogImpl { untrusted_log_impl, wrpm: WriteRestrictedPersistentMemory::new(pm) }
    }

    pub fn numbers(&self) -> &UntrustedLogImpl {
        &self.untrusted_log_impl
    }

    pub fn memory(&self) -> &PM {
        self.wrpm.get_pm_ref()
    }
}

impl Clone for UntrustedLogImpl {
    fn clone(&self) -> Self {
        UntrustedLogImpl { ..*self }
    }
}
