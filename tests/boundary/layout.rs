//! The layouts of the crate's declarations, its codes and their reasons, a line for each: layout.c prints the same of the header.

#[allow(dead_code)]
#[path = "../../rust/blackboxlog/src/sys.rs"]
mod sys;

use blackboxlog::{Error, Which};
use std::mem::{size_of, size_of_val};
use sys::{code, Handle, Reply, Stepped};

macro_rules! layout {
    ($name:literal, $value:expr, $type:ty, $($field:ident),*) => {
        let value: $type = $value;
        println!("{} {}", $name, size_of::<$type>());
        $(println!(
            "{}.{} {} {}",
            $name,
            stringify!($field),
            std::ptr::addr_of!(value.$field) as usize - std::ptr::addr_of!(value) as usize,
            size_of_val(&value.$field),
        );)*
    };
}

fn main() {
    let handle = Handle { live: 0, head: 0, tail: 0, size: 0 };
    layout!("bbl_handle", handle, Handle, live, head, tail, size);
    let reply = Reply { code: 0, number: 0, other: 0, steps: 0, handle };
    layout!("bbl_reply", reply, Reply, code, number, other, steps, handle);
    layout!("bbl_stepped", Stepped { code: 0, at: 0, length: 0 }, Stepped, code, at, length);
    let codes = [
        ("TOO_SHORT", code::TOO_SHORT, Error::TooShort { required: 0 }),
        ("BAD_SELECTOR", code::BAD_SELECTOR, Error::BadSelector { found: 0 }),
        ("BAD_CHECKSUM", code::BAD_CHECKSUM, Error::BadChecksum { live: Which::First, stored: 0, computed: 0 }),
        ("SIZE_ZERO", code::SIZE_ZERO, Error::SizeZero),
        ("HEAD_PAST_TAIL", code::HEAD_PAST_TAIL, Error::HeadPastTail { head: 0, tail: 0 }),
        ("TOO_FULL", code::TOO_FULL, Error::TooFull { head: 0, tail: 0, size: 0 }),
        ("WRONG_SIZE", code::WRONG_SIZE, Error::WrongSize { size: 0, ring: 0 }),
        ("NO_ROOM", code::NO_ROOM, Error::NoRoom { room: 0 }),
        ("BEFORE_HEAD", code::BEFORE_HEAD, Error::BeforeHead { head: 0 }),
        ("BEYOND_TAIL", code::BEYOND_TAIL, Error::BeyondTail { tail: 0 }),
        ("BAD_HANDLE", code::BAD_HANDLE, Error::BadHandle),
        ("SHORT_PLAN", code::SHORT_PLAN, Error::ShortPlan { words: 0 }),
        ("MISALIGNED", code::MISALIGNED, Error::Misaligned { remainder: 0 }),
        ("OVERLAP", code::OVERLAP, Error::Overlap),
        ("BROKEN_PLAN", code::BROKEN_PLAN, Error::BrokenPlan { step: 0 }),
    ];
    for (name, code, error) in codes {
        println!("{} {} {}", name, code, error.reason());
    }
    println!("PLAN_WORDS {}", sys::PLAN_WORDS);
    println!("VERSION {}", blackboxlog::VERSION);
}
