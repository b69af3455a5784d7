//! The executable bodies of pmemlog, as a judge of other implementations. README.md says how it was made and
//! which lines are scaffolding.

// Scaffolding: Verus's macro, with no ghost code left in it.
macro_rules! verus {
    ($($items:tt)*) => { $($items)* };
}

pub mod crc64fast;
pub mod memory;
pub mod vstd;

#[rustfmt::skip]
#[allow(clippy::all, unused_imports)]
pub mod logimpl_v;
#[rustfmt::skip]
#[allow(clippy::all, unused_imports)]
pub mod main_t;
#[rustfmt::skip]
#[allow(clippy::all, unused_imports, unknown_lints, unexpected_cfgs)]
pub mod pmemspec_t;
