//! Prints the sample: sequences of operations on rings of 1 to 12 bytes with the oracle's answers, a line for each
//! operation. README.md has the format; sample.txt is what this prints.

use oracle::crc64fast::Digest;
use oracle::logimpl_v::contents_offset;
use oracle::main_t::{InfiniteLogErr, InfiniteLogImpl};
use oracle::memory::RecordedMemory;

const LARGEST_RING: u64 = 12;

type Log<'a> = InfiniteLogImpl<&'a mut RecordedMemory>;

#[derive(Clone, Copy)]
enum Operation {
    Append(u64),
    AdvanceBy0,
    AdvanceBy1,
    AdvanceToTail,
    ReadAll,
    Reopen,
}

/// What an operation answered, as a letter and a number, and the bytes if it was a read.
struct Answer {
    letter: char,
    number: u64,
    bytes: Vec<u8>,
}

fn answer(letter: char, number: u64) -> Answer {
    Answer { letter, number, bytes: Vec::new() }
}

/// Numbers that look random and are the same in every run (xorshift).
struct Numbers(u64);

impl Numbers {
    fn below(&mut self, limit: u64) -> u64 {
        self.0 ^= self.0 << 13;
        self.0 ^= self.0 >> 7;
        self.0 ^= self.0 << 17;
        (self.0 >> 32) % limit
    }

    /// Half are appends, and half of these short, so that enough of them are accepted.
    fn operation(&mut self, ring: u64) -> Operation {
        match self.below(20) {
            0..=4 => Operation::Append(self.below(ring + 2)),
            5..=9 => Operation::Append(self.below(ring / 2 + 1)),
            10 => Operation::AdvanceBy0,
            11..=12 => Operation::AdvanceBy1,
            13..=15 => Operation::AdvanceToTail,
            16..=17 => Operation::ReadAll,
            _ => Operation::Reopen,
        }
    }
}

impl Operation {
    fn letter(self) -> char {
        match self {
            Operation::Append(length) => (b'0' + length as u8) as char,
            Operation::AdvanceBy0 => 'h',
            Operation::AdvanceBy1 => 'n',
            Operation::AdvanceToTail => 't',
            Operation::ReadAll => 'r',
            Operation::Reopen => 'o',
        }
    }
}

/// The byte that is appended at a position.
fn byte_of(position: u64) -> u8 {
    ((7 * position + 1) % 256) as u8
}

fn numbers_of(log: &Log) -> (u64, u64, u64) {
    log.get_head_and_tail().expect("always answered")
}

fn append(log: &mut Log, length: u64) -> Answer {
    let (_, tail, _) = numbers_of(log);
    let bytes = (tail..tail + length).map(byte_of).collect();
    match log.append(&bytes) {
        Ok(position) => answer('p', position),
        Err(InfiniteLogErr::InsufficientSpaceForAppend { available_space }) => answer('f', available_space),
        Err(other) => panic!("append answered {:?}", other),
    }
}

fn advance(log: &mut Log, new_head: u64) -> Answer {
    match log.advance_head(new_head) {
        Ok(()) => answer('h', new_head),
        Err(InfiniteLogErr::CantAdvanceHeadPositionBeyondTail { tail }) => answer('b', tail),
        Err(other) => panic!("advance answered {:?}", other),
    }
}

fn read_all(log: &Log) -> Answer {
    let (head, tail, _) = numbers_of(log);
    let bytes = log.read(head, tail - head).expect("within the log");
    Answer { letter: 'r', number: bytes.len() as u64, bytes }
}

fn reopened(memory: &mut RecordedMemory) -> Log<'_> {
    let length = memory.contents.len() as u64;
    InfiniteLogImpl::start(memory, length).expect("a log")
}

fn perform(log: &mut Log, operation: Operation) -> Answer {
    let (head, tail, capacity) = numbers_of(log);
    match operation {
        Operation::Append(length) => append(log, length),
        Operation::AdvanceBy0 => advance(log, head),
        Operation::AdvanceBy1 => advance(log, head + 1),
        Operation::AdvanceToTail => advance(log, tail),
        Operation::ReadAll => read_all(log),
        Operation::Reopen => answer('o', capacity),
    }
}

fn print_line(letter: char, answer: &Answer, log: &Log) {
    let (head, tail, _) = numbers_of(log);
    let mut digest = Digest::new();
    digest.write(&log.memory().contents);
    digest.write(&answer.bytes);
    println!("{} {} {} {} {} {:016x}", letter, answer.letter, answer.number, head, tail, digest.sum64());
}

/// Larger rings have more to show.
fn operations_for(ring: u64) -> u64 {
    10 + 5 * ring
}

fn print_sequence(ring: u64, numbers: &mut Numbers) {
    let length = contents_offset + ring;
    let mut memory = RecordedMemory::new((0..length).map(|i| i as u8).collect());
    let capacity = InfiniteLogImpl::setup(&mut memory, length).expect("long enough");
    let mut log = reopened(&mut memory);
    print_line((b'A' + ring as u8 - 1) as char, &answer('c', capacity), &log);
    for _ in 0..operations_for(ring) {
        let operation = numbers.operation(ring);
        if let Operation::Reopen = operation {
            log = reopened(&mut memory);
        }
        let answer = perform(&mut log, operation);
        print_line(operation.letter(), &answer, &log);
    }
}

fn main() {
    let mut numbers = Numbers(0x0123_4567_89ab_cdef);
    for ring in 1..=LARGEST_RING {
        print_sequence(ring, &mut numbers);
    }
}
