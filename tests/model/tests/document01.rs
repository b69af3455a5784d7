//! The model against the sentences of document 01: refusals with their numbers and in their order, and the run of §5.

use model::format::{header, header_at, selector, FIRST, RING_AT, SELECTOR_AT};
use model::log::*;

/// A medium of `ring` bytes more than 72 whose live header has these numbers and a right checksum.
fn forged(ring: usize, head: u64, tail: u64, size: u64, second: bool) -> Vec<u8> {
    let mut medium = vec![0xa5; RING_AT + ring];
    medium[SELECTOR_AT..8].copy_from_slice(&selector(second).to_le_bytes());
    let at = header_at(second);
    medium[at..at + 32].copy_from_slice(&header(head, tail, size));
    medium
}

fn carry_out(plan: Result<Plan, Refusal>, medium: &mut [u8]) -> Handle {
    let plan = plan.expect("accepted");
    plan.writes.iter().for_each(|write| write.apply(medium));
    plan.handle
}

#[test]
fn the_run_of_section_5() {
    let mut medium = vec![0xa5; 82];
    let log = carry_out(plan_setup(82), &mut medium);
    assert_eq!(ask(log, 82), Ok(Numbers { head: 0, tail: 0, capacity: 9 }));
    let log = carry_out(plan_append(log, &[1, 2, 3, 4, 5, 6], 82), &mut medium);
    assert_eq!(plan_append(log, &[7; 4], 82), Err(Refusal::NoRoom { room: 3 }));
    let log = carry_out(plan_advance(log, 5, 82), &mut medium);
    assert_eq!(log.tail, 6);
    let log = carry_out(plan_append(log, &[7, 8, 9, 10, 11, 12, 13], 82), &mut medium);
    assert_eq!(medium[78..82], [7, 8, 9, 10]);
    assert_eq!(medium[72..75], [11, 12, 13]);
    assert_eq!(read(log, &medium, 5, 8), Ok(vec![6, 7, 8, 9, 10, 11, 12, 13]));
    assert_eq!(plan_append(log, &[14; 2], 82), Err(Refusal::NoRoom { room: 1 }));
    assert_eq!(open(&medium), Ok(log));
}

#[test]
fn set_up_and_open_refuse_72_bytes_or_fewer() {
    let short = Refusal::TooShort { required: 73 };
    for length in 0..=72 {
        assert_eq!(plan_setup(length), Err(short));
        assert_eq!(open(&vec![0xa5; length]), Err(short));
    }
    assert!(plan_setup(73).is_ok());
}

#[test]
fn open_refuses_another_selector() {
    let mut medium = forged(1, 0, 0, 1, false);
    medium[0] ^= 1;
    assert_eq!(open(&medium), Err(Refusal::BadSelector { found: FIRST ^ 1 }));
}

#[test]
fn open_refuses_a_wrong_checksum_of_the_live_header_only() {
    for second in [false, true] {
        let good = forged(1, 0, 0, 1, second);
        for at in header_at(second)..header_at(second) + 32 {
            let mut medium = good.clone();
            medium[at] ^= 0x10;
            assert!(matches!(open(&medium), Err(Refusal::BadChecksum { second: which, .. }) if which == second));
        }
        for at in header_at(!second)..header_at(!second) + 32 {
            let mut medium = good.clone();
            medium[at] ^= 0x10;
            assert!(open(&medium).is_ok());
        }
    }
    let mut medium = forged(1, 0, 0, 1, false);
    medium[8] ^= 1;
    let computed = 0x6c28174384cf2c2c;
    assert_eq!(open(&medium), Err(Refusal::BadChecksum { second: false, stored: computed ^ 1, computed }));
}

/// The four media that upstream's `start` takes for logs.
#[test]
fn open_refuses_what_is_not_a_log() {
    let open = |head, tail, size| open(&forged(1, head, tail, size, false));
    assert_eq!(open(0, 0, 0), Err(Refusal::SizeZero));
    assert_eq!(open(1, 0, 1), Err(Refusal::HeadPastTail { head: 1, tail: 0 }));
    assert_eq!(open(0, 1, 1), Err(Refusal::TooFull { head: 0, tail: 1, size: 1 }));
    assert_eq!(open(1, 1, 2), Err(Refusal::WrongSize { size: 2, ring: 1 }));
}

/// Where several tests fail, the first one answers.
#[test]
fn open_tests_in_this_order() {
    let open = |head, tail, size| open(&forged(1, head, tail, size, true));
    assert_eq!(open(1, 0, 0), Err(Refusal::SizeZero));
    assert_eq!(open(0, 9, 0), Err(Refusal::SizeZero));
    assert_eq!(open(9, 0, 2), Err(Refusal::HeadPastTail { head: 9, tail: 0 }));
    assert_eq!(open(0, 2, 2), Err(Refusal::TooFull { head: 0, tail: 2, size: 2 }));
    assert_eq!(open(0, u64::MAX, u64::MAX), Err(Refusal::TooFull { head: 0, tail: u64::MAX, size: u64::MAX }));
    assert_eq!(open(0, 0, u64::MAX), Err(Refusal::WrongSize { size: u64::MAX, ring: 1 }));
}

#[test]
fn refusals_name_the_smaller_room_the_head_and_the_tail() {
    let log = Handle { second: false, head: u64::MAX - 1, tail: u64::MAX - 1, size: 1 };
    assert_eq!(plan_append(log, &[1; 2], 73), Err(Refusal::NoRoom { room: 0 }));
    let log = Handle { second: false, head: u64::MAX - 1, tail: u64::MAX - 1, size: 9 };
    assert_eq!(plan_append(log, &[1; 2], 81), Err(Refusal::NoRoom { room: 1 }));
    let log = Handle { second: false, head: 5, tail: 7, size: 9 };
    let medium = forged(9, 5, 7, 9, false);
    assert_eq!(plan_advance(log, 4, 81), Err(Refusal::BeforeHead { head: 5 }));
    assert_eq!(plan_advance(log, 8, 81), Err(Refusal::BeyondTail { tail: 7 }));
    assert_eq!(read(log, &medium, 4, u64::MAX), Err(Refusal::BeforeHead { head: 5 }));
    assert_eq!(read(log, &medium, 5, 3), Err(Refusal::BeyondTail { tail: 7 }));
    assert_eq!(read(log, &medium, 8, 0), Err(Refusal::BeyondTail { tail: 7 }));
    assert_eq!(read(log, &medium, 5, u64::MAX), Err(Refusal::BeyondTail { tail: 7 }));
    assert_eq!(read(log, &medium, 7, 0), Ok(vec![]));
}

/// "A handle that can't be a log of this medium's length is refused by every operation".
#[test]
fn a_handle_that_cannot_be_is_refused_by_every_operation() {
    let numbers = [0, 1, 2, 3, u64::MAX - 72, u64::MAX - 71, u64::MAX - 1, u64::MAX];
    for length in [0, 8, 71, 72, 73, 74, 75] {
        let medium = vec![0xa5; length];
        for (head, tail, size) in all_triples(&numbers) {
            let handle = Handle { second: true, head, tail, size };
            let fits = head <= tail && tail - head < size && u128::from(size) + 72 == length as u128;
            assert_eq!(handle.possible(length), fits);
            let refused = Err(Refusal::BadHandle);
            assert_eq!(plan_append(handle, &[1; 3], length).map(|_| ()) == refused, !fits);
            assert_eq!(plan_advance(handle, tail, length).map(|_| ()) == refused, !fits);
            assert_eq!(read(handle, &medium, head, 0).map(|_| ()) == refused, !fits);
            assert_eq!(ask(handle, length).map(|_| ()) == refused, !fits);
        }
    }
}

fn all_triples(numbers: &[u64]) -> Vec<(u64, u64, u64)> {
    let pairs = numbers.iter().flat_map(|a| numbers.iter().map(move |b| (*a, *b)));
    pairs.flat_map(|(a, b)| numbers.iter().map(move |c| (a, b, *c))).collect()
}
