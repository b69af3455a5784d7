//! What the source really does, found by running it: the order of writes, the numbers in refusals, and what
//! `start` takes for a log.

use oracle::crc64fast::Digest;
use oracle::logimpl_v::{contents_offset, header1_pos, header2_pos, incorruptible_bool_pos};
use oracle::main_t::{InfiniteLogErr, InfiniteLogImpl};
use oracle::memory::RecordedMemory;
use oracle::pmemspec_t::{cdb0_val, cdb1_val};
use std::panic::{catch_unwind, AssertUnwindSafe};

type Log<'a> = InfiniteLogImpl<&'a mut RecordedMemory>;

fn crc(bytes: &[u8]) -> u64 {
    let mut digest = Digest::new();
    digest.write(bytes);
    digest.sum64()
}

fn content(head: u64, tail: u64, size: u64) -> Vec<u8> {
    [head, tail, size].iter().flat_map(|number| number.to_le_bytes()).collect()
}

/// A medium for a ring of `ring` bytes whose first header is live, has these numbers and a right checksum.
fn forged(ring: u64, head: u64, tail: u64, size: u64) -> RecordedMemory {
    let mut contents = vec![0xa5; (contents_offset + ring) as usize];
    let numbers = content(head, tail, size);
    contents[0..8].copy_from_slice(&cdb0_val.to_le_bytes());
    contents[8..16].copy_from_slice(&crc(&numbers).to_le_bytes());
    contents[16..40].copy_from_slice(&numbers);
    RecordedMemory::new(contents)
}

fn set_up(ring: u64) -> RecordedMemory {
    let mut memory = RecordedMemory::new(vec![0xa5; (contents_offset + ring) as usize]);
    InfiniteLogImpl::setup(&mut memory, contents_offset + ring).expect("set up");
    memory
}

fn start(memory: &mut RecordedMemory) -> Result<Log<'_>, InfiniteLogErr> {
    let length = memory.contents.len() as u64;
    memory.writes.clear();
    InfiniteLogImpl::start(memory, length)
}

/// Offset and length of each write since the log was started.
fn writes(log: &Log) -> Vec<(u64, usize)> {
    log.memory().writes.iter().map(|write| (write.at, write.bytes.len())).collect()
}

/// The writes of one append to a ring of 10 bytes with these positions.
fn writes_of_append(head: u64, tail: u64, length: usize) -> Vec<(u64, usize)> {
    let mut memory = forged(10, head, tail, 10);
    let mut log = start(&mut memory).expect("a log");
    assert_eq!(log.append(&vec![1; length]).ok(), Some(tail));
    writes(&log)
}

fn room(result: Result<u64, InfiniteLogErr>) -> u64 {
    match result {
        Err(InfiniteLogErr::InsufficientSpaceForAppend { available_space }) => available_space,
        other => panic!("not refused: {:?}", other),
    }
}

fn panics(action: impl FnOnce()) -> bool {
    catch_unwind(AssertUnwindSafe(action)).is_err()
}

const HEADER: (u64, usize) = (header2_pos, 32);
const SELECTOR: (u64, usize) = (incorruptible_bool_pos, 8);

#[test]
fn set_up_writes_the_first_header_then_the_selector() {
    let memory = set_up(10);
    let order: Vec<_> = memory.writes.iter().map(|write| (write.at, write.bytes.len())).collect();
    assert_eq!(order, [(header1_pos, 32), SELECTOR]);
    assert_eq!(memory.writes[1].bytes, cdb0_val.to_le_bytes());
}

#[test]
fn set_up_refuses_72_bytes_or_fewer() {
    for length in 0..=72 {
        let mut memory = RecordedMemory::new(vec![0xa5; length]);
        let result = InfiniteLogImpl::setup(&mut memory, length as u64);
        assert!(matches!(result, Err(InfiniteLogErr::InsufficientSpaceForSetup { required_space: 73 })));
        assert!(memory.writes.is_empty());
    }
    assert_eq!(InfiniteLogImpl::setup(&mut RecordedMemory::new(vec![0xa5; 73]), 73).ok(), Some(0));
}

#[test]
fn start_and_read_write_nothing() {
    let mut memory = forged(10, 3, 12, 10);
    let log = start(&mut memory).expect("a log");
    assert!(log.read(3, 9).is_ok());
    assert!(log.get_head_and_tail().is_ok());
    assert!(writes(&log).is_empty());
}

#[test]
fn advance_writes_the_other_header_then_the_selector() {
    let mut memory = forged(10, 3, 12, 10);
    let mut log = start(&mut memory).expect("a log");
    log.advance_head(3).expect("advance to the head");
    log.advance_head(12).expect("advance to the tail");
    assert_eq!(writes(&log), [HEADER, SELECTOR, (header1_pos, 32), SELECTOR]);
    assert_eq!(log.memory().writes[1].bytes, cdb1_val.to_le_bytes());
    assert_eq!(log.memory().writes[3].bytes, cdb0_val.to_le_bytes());
}

#[test]
fn append_writes_the_bytes_then_the_other_header_then_the_selector() {
    assert_eq!(writes_of_append(0, 2, 3), [(74, 3), HEADER, SELECTOR]);
    assert_eq!(writes_of_append(8, 11, 3), [(73, 3), HEADER, SELECTOR]);
}

#[test]
fn append_that_passes_the_end_writes_two_pieces() {
    assert_eq!(writes_of_append(5, 6, 7), [(78, 4), (72, 3), HEADER, SELECTOR]);
}

#[test]
fn append_that_ends_at_the_ring_s_end_writes_an_empty_second_piece() {
    assert_eq!(writes_of_append(5, 6, 4), [(78, 4), (72, 0), HEADER, SELECTOR]);
}

#[test]
fn empty_append_writes_an_empty_piece_and_switches() {
    assert_eq!(writes_of_append(0, 0, 0), [(72, 0), HEADER, SELECTOR]);
    assert_eq!(writes_of_append(5, 6, 0), [(78, 0), HEADER, SELECTOR]);
}

#[test]
fn refusals_write_nothing() {
    let mut memory = forged(10, 3, 12, 10);
    let mut log = start(&mut memory).expect("a log");
    assert_eq!(room(log.append(&vec![1])), 0);
    assert!(matches!(log.advance_head(2), Err(InfiniteLogErr::CantAdvanceHeadPositionBeforeHead { head: 3 })));
    assert!(matches!(log.advance_head(13), Err(InfiniteLogErr::CantAdvanceHeadPositionBeyondTail { tail: 12 })));
    assert!(matches!(log.read(2, 1), Err(InfiniteLogErr::CantReadBeforeHead { head: 3 })));
    assert!(matches!(log.read(12, 1), Err(InfiniteLogErr::CantReadPastTail { tail: 12 })));
    assert!(matches!(log.read(u64::MAX, 1), Err(InfiniteLogErr::CantReadPastTail { tail: 12 })));
    assert!(writes(&log).is_empty());
}

/// The test against 2^64 comes first, so the room named may be more than is free; document 01 asks for the smaller.
#[test]
fn refused_append_names_the_room_of_the_first_test_that_fails() {
    let last = u64::MAX - 1;
    let mut memory = forged(1, last, last, 1);
    let mut log = start(&mut memory).expect("a log");
    assert_eq!(room(log.append(&vec![1; 2])), 1);
    assert_eq!(room(log.append(&vec![1; 1])), 0);
}

/// Tried here on rings of up to 12 bytes: its number would be one more than the second test's.
#[test]
fn the_branch_of_too_little_between_tail_and_head_never_answers() {
    for size in 1..=12 {
        for head in 0..size {
            for tail in head..head + size {
                for length in 0..=size as usize + 1 {
                    let mut memory = forged(size, head, tail, size);
                    let mut log = start(&mut memory).expect("a log");
                    let free = size - 1 - (tail - head);
                    match log.append(&vec![1; length]) {
                        Ok(position) => assert!(position == tail && length as u64 <= free),
                        refused => assert_eq!((room(refused), length as u64 > free), (free, true)),
                    }
                }
            }
        }
    }
}

#[test]
fn start_tests_the_selector_and_the_checksum() {
    let mut memory = forged(1, 0, 0, 1);
    memory.contents[0] ^= 1;
    assert!(matches!(start(&mut memory), Err(InfiniteLogErr::CRCMismatch)));
    let mut memory = forged(1, 0, 0, 1);
    memory.contents[8] ^= 1;
    assert!(matches!(start(&mut memory), Err(InfiniteLogErr::CRCMismatch)));
}

// Four media of 73 bytes that `start` takes for logs. Each is "not a log" by document 01.

#[test]
fn start_accepts_size_0_and_then_divides_by_zero() {
    let mut memory = forged(1, 0, 0, 0);
    let mut log = start(&mut memory).expect("accepted");
    assert!(panics(|| drop(log.append(&vec![]))));
}

#[test]
fn start_accepts_a_head_past_the_tail_and_then_append_underflows() {
    let mut memory = forged(1, 1, 0, 1);
    let mut log = start(&mut memory).expect("accepted");
    assert!(panics(|| drop(log.append(&vec![]))));
}

#[test]
fn start_accepts_a_ring_full_to_the_last_byte_and_then_reads_no_bytes() {
    let mut memory = forged(1, 0, 1, 1);
    let log = start(&mut memory).expect("accepted");
    assert_eq!(log.read(0, 1).ok(), Some(vec![]));
}

#[test]
fn start_accepts_a_size_that_is_not_the_medium_s_and_then_writes_out_of_range() {
    let mut memory = forged(1, 1, 1, 2);
    let mut log = start(&mut memory).expect("accepted");
    assert!(panics(|| drop(log.append(&vec![1]))));
}

#[test]
fn worked_checksums_of_document_01() {
    assert_eq!(crc(b"123456789"), 0x995dc9bbdf1939fa);
    assert_eq!(crc(&content(0, 0, 4024)), 0x329fc849810e7b1d);
    assert_eq!(crc(&content(0, 100, 4024)), 0x4f7d438f09d1b9d5);
    assert_eq!(crc(&content(0, 0, 1)), 0x6c28174384cf2c2c);
    assert_eq!(crc(&content(1679, 100, 4024)), 0x8eb6c6d648f439d5);
}

#[test]
fn selectors_differ_in_25_bits_and_are_no_checksums() {
    assert_eq!((cdb0_val ^ cdb1_val).count_ones(), 25);
    assert_eq!(crc(b"0"), 0x9901423b97329582);
    assert_eq!(crc(b"1"), 0x2a2f0e859495caed);
}

/// The damage of document 01 §4 over the border between checksum and head: the checksum does not see it.
#[test]
fn damage_over_the_border_of_the_checksum_is_accepted() {
    let good = forged(4024, 0, 100, 4024);
    let mut damaged = forged(4024, 1679, 100, 4024);
    let changed = |i: &usize| good.contents[i / 8] >> (i % 8) & 1 != damaged.contents[i / 8] >> (i % 8) & 1;
    let bits: Vec<usize> = (0..72 * 8).filter(changed).collect();
    assert_eq!(bits.len(), 28);
    assert!(bits[27] - bits[0] < 60);
    assert!(start(&mut damaged).is_ok());
}

#[test]
fn the_run_of_document_01() {
    let mut memory = RecordedMemory::new(vec![0xa5; 82]);
    assert_eq!(InfiniteLogImpl::setup(&mut memory, 82).ok(), Some(9));
    let mut log = start(&mut memory).expect("a log");
    assert_eq!(log.append(&vec![1, 2, 3, 4, 5, 6]).ok(), Some(0));
    assert_eq!(room(log.append(&vec![7; 4])), 3);
    assert_eq!(log.advance_head(5).ok(), Some(()));
    assert_eq!(log.append(&vec![7, 8, 9, 10, 11, 12, 13]).ok(), Some(6));
    assert_eq!(log.memory().contents[78..82], [7, 8, 9, 10]);
    assert_eq!(log.memory().contents[72..75], [11, 12, 13]);
    assert_eq!(log.read(5, 8).ok(), Some(vec![6, 7, 8, 9, 10, 11, 12, 13]));
    assert_eq!(room(log.append(&vec![14; 2])), 1);
    assert_eq!(log.get_head_and_tail().ok(), Some((5, 13, 9)));
}
