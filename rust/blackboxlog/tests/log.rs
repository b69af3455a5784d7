//! The crate through its public interface: answers, refusals with their numbers and words, the memory's hooks, operations left in the middle.

use blackboxlog::{Error, Log, Medium, Memory, Numbers, Plain, Reader, Step, Which};

const FIRST: u64 = 0xa328_42d1_9001_605e;
const SECOND: u64 = 0xab21_aa73_0695_31b7;

fn medium(length: usize) -> Medium {
    let mut medium = Medium::zeroed(length).unwrap();
    medium.fill(0xee);
    medium
}

fn put(medium: &mut [u8], at: usize, number: u64) {
    medium[at..at + 8].copy_from_slice(&number.to_le_bytes());
}

fn put_header(medium: &mut [u8], at: usize, head: u64, tail: u64, size: u64) {
    put(medium, at + 8, head);
    put(medium, at + 16, tail);
    put(medium, at + 24, size);
    let checksum = blackboxlog::crc64(&medium[at + 8..at + 32]);
    put(medium, at, checksum);
}

#[test]
fn the_run_of_document_01() {
    let mut medium = medium(82);
    let mut log = Log::setup(&mut medium).unwrap();
    assert_eq!(log.append(b"abcdef"), Ok(0));
    assert_eq!(log.append(b"ghij"), Err(Error::NoRoom { room: 3 }));
    assert_eq!(log.advance(5), Ok(()));
    assert_eq!(log.append(b"ghijklm"), Ok(6));
    assert_eq!(log.read_vec(5, 8).unwrap(), b"fghijklm");
    assert_eq!(log.append(b"no"), Err(Error::NoRoom { room: 1 }));
    assert_eq!(log.ask(), Ok(Numbers { head: 5, tail: 13, capacity: 9 }));
    assert_eq!(log.room(), Ok(1));
    assert_eq!(&medium[72..], b"klmdefghij");
}

#[test]
fn opening_says_what_is_wrong() {
    let mut m = Medium::zeroed(100).unwrap();
    let open = |m: &Medium| Reader::open(m).map(|_| ()).unwrap_err();
    for length in 0..73 {
        assert_eq!(Reader::open(&m[..length]).unwrap_err(), Error::TooShort { required: 73 });
    }
    assert_eq!(open(&m), Error::BadSelector { found: 0 });
    put(&mut m, 0, SECOND);
    put_header(&mut m, 40, 0, 0, 28);
    m[40] ^= 1;
    let stored = u64::from_le_bytes([m[40], m[41], m[42], m[43], m[44], m[45], m[46], m[47]]);
    assert_eq!(open(&m), Error::BadChecksum { live: Which::Second, stored, computed: stored ^ 1 });
    put(&mut m, 0, FIRST);
    assert!(matches!(open(&m), Error::BadChecksum { live: Which::First, stored: 0, .. }));
    assert!(open(&m).is_damage() && !open(&m).is_not_a_log());
    put_header(&mut m, 8, 0, 0, 0);
    assert_eq!(open(&m), Error::SizeZero);
    put_header(&mut m, 8, u64::MAX, 7, 28);
    assert_eq!(open(&m), Error::HeadPastTail { head: u64::MAX, tail: 7 });
    put_header(&mut m, 8, 5, 33, 28);
    assert_eq!(open(&m), Error::TooFull { head: 5, tail: 33, size: 28 });
    put_header(&mut m, 8, 5, 32, 29);
    assert_eq!(open(&m), Error::WrongSize { size: 29, ring: 28 });
    assert!(open(&m).is_not_a_log() && !open(&m).is_damage());
    put_header(&mut m, 8, 5, 32, 28);
    assert_eq!(Reader::open(&m).unwrap().ask(), Ok(Numbers { head: 5, tail: 32, capacity: 27 }));
}

#[test]
fn a_refusal_writes_nothing() {
    let mut log = Log::setup(medium(100)).unwrap();
    log.append(&[1; 20]).unwrap();
    log.advance(5).unwrap();
    let before = Medium::copy_of(log.medium()).unwrap();
    let mut out = [7; 16];
    assert_eq!(log.append(&[0; 13]), Err(Error::NoRoom { room: 12 }));
    assert_eq!(log.advance(4), Err(Error::BeforeHead { head: 5 }));
    assert_eq!(log.advance(21), Err(Error::BeyondTail { tail: 20 }));
    assert_eq!(log.advance(u64::MAX), Err(Error::BeyondTail { tail: 20 }));
    assert_eq!(log.read(4, &mut out), Err(Error::BeforeHead { head: 5 }));
    assert_eq!(log.read(5, &mut out), Err(Error::BeyondTail { tail: 20 }));
    assert_eq!(log.read(u64::MAX, &mut out), Err(Error::BeyondTail { tail: 20 }));
    assert_eq!(log.read_vec(5, u64::MAX), Err(Error::BeyondTail { tail: 20 }));
    assert_eq!(log.read_vec(u64::MAX, u64::MAX), Err(Error::BeyondTail { tail: 20 }));
    assert_eq!(log.read_vec(4, u64::MAX), Err(Error::BeforeHead { head: 5 }));
    assert_eq!(out, [7; 16]);
    assert_eq!(log.medium(), &before[..]);
    assert_eq!(log.ask(), Ok(Numbers { head: 5, tail: 20, capacity: 27 }));
    assert_eq!(log.append(&[0; 12]), Ok(20));
}

#[test]
fn set_up_of_every_length() {
    for length in 0..=200 {
        let set_up = Log::setup(medium(length));
        if length < 73 {
            assert_eq!(set_up.unwrap_err(), Error::TooShort { required: 73 });
        } else {
            let log = set_up.unwrap();
            assert_eq!(log.ask(), Ok(Numbers { head: 0, tail: 0, capacity: length as u64 - 73 }));
            assert!(log.medium()[72..].iter().all(|byte| *byte == 0xee));
        }
    }
}

#[test]
fn words() {
    let checksum = Error::BadChecksum { live: Which::Second, stored: 0x12, computed: 0xffff_ffff_ffff_ffff };
    for (error, words) in [
        (Error::TooShort { required: 73 }, "the medium is too short: 73 bytes are required"),
        (
            Error::BadSelector { found: 1 },
            "damaged: the selector has neither of its two values: it is 0000000000000001",
        ),
        (
            checksum,
            "damaged: the checksum of the live header is wrong: the second header has 0000000000000012 stored, \
             and ffffffffffffffff is computed",
        ),
        (Error::SizeZero, "not a log: the size is 0"),
        (Error::HeadPastTail { head: 2, tail: 1 }, "not a log: the head is past the tail: head 2, tail 1"),
        (
            Error::TooFull { head: 2, tail: 12, size: 10 },
            "not a log: more bytes between head and tail than the ring can keep: head 2, tail 12, size 10",
        ),
        (
            Error::WrongSize { size: 9, ring: 10 },
            "not a log: the size is not that of the medium's ring: size 9, and the ring has 10",
        ),
        (Error::NoRoom { room: 3 }, "no room for so many bytes: there is room for 3"),
        (Error::BeforeHead { head: 5 }, "the position is before the head: the head is 5"),
        (Error::BeyondTail { tail: 6 }, "beyond the tail: the tail is 6"),
        (Error::Misaligned { remainder: 4 }, "the medium is not aligned to 8 bytes: the remainder of its address is 4"),
        (Error::Overlap, "the bytes overlap the medium"),
        (Error::NotOpen, "no log is open"),
        (Error::NoMemory { bytes: 9 }, "not enough memory for 9 bytes"),
    ] {
        let error: Box<dyn std::error::Error + Send + Sync> = Box::new(error);
        assert_eq!(error.to_string(), words);
    }
}

#[test]
fn a_medium_that_is_not_aligned_is_refused() {
    let mut m = medium(200);
    Log::setup(&mut m).unwrap();
    for off in 1..8 {
        let before = Medium::copy_of(&m).unwrap();
        let refused = Error::Misaligned { remainder: off as u64 };
        assert_eq!(Log::setup(&mut m[off..]).unwrap_err(), refused);
        assert_eq!(Log::open(&mut m[off..]).unwrap_err(), refused);
        assert_eq!(m, before);
    }
    // reading takes it
    let mut shifted = medium(201);
    shifted[1..].copy_from_slice(&m);
    assert!(Reader::open(&shifted[1..]).is_ok());
}

#[test]
fn bytes_that_overlap_the_medium_are_refused() {
    let mut m = medium(200);
    let start = m.as_mut_ptr();
    let mut log = Log::setup(&mut m[..128]).unwrap();
    log.append(b"0123456789").unwrap();
    let before = Medium::copy_of(log.medium()).unwrap();
    for off in 0..190 {
        // what no safe code has: a second way to the medium's bytes
        let bytes = unsafe { std::slice::from_raw_parts(start.add(off), 10) };
        let appended = log.append(bytes);
        assert_eq!(appended, if off < 128 { Err(Error::Overlap) } else { appended });
        let out = unsafe { std::slice::from_raw_parts_mut(start.add(off), 10) };
        if off < 128 {
            assert_eq!(log.read(0, out), Err(Error::Overlap));
            assert_eq!(log.medium(), &before[..]);
        } else {
            assert!(appended.is_ok() || appended == Err(Error::NoRoom { room: log.room().unwrap() }));
        }
    }
}

/// What the memory was told.
#[derive(Debug, PartialEq)]
enum Told {
    Written(usize, Vec<u8>),
    Flush,
}

struct Listener<'a>(&'a mut Vec<Told>);

impl Memory for Listener<'_> {
    fn written(&mut self, at: usize, bytes: &[u8]) {
        self.0.push(Told::Written(at, bytes.to_vec()));
    }

    fn flush(&mut self) {
        self.0.push(Told::Flush);
    }
}

#[test]
fn the_memory_is_told_of_every_write_in_order() {
    let mut m = medium(72 + 32);
    Log::setup(&mut m).unwrap().append(&[1; 26]).unwrap();
    Log::open(&mut m).unwrap().advance(26).unwrap();
    let mut image = m.to_vec();
    let mut told = Vec::new();
    let mut log = Log::open_with(&mut m, Listener(&mut told)).unwrap();
    log.append(b"0123456789ab").unwrap();
    let after = log.into_medium();
    for step in &told {
        if let Told::Written(at, bytes) = step {
            assert!(!bytes.is_empty());
            image[*at..at + bytes.len()].copy_from_slice(bytes);
        }
    }
    assert_eq!(image, after.to_vec());
    let n = told.len();
    assert_eq!(told[n - 1], Told::Flush);
    assert_eq!(told[n - 2], Told::Written(0, SECOND.to_le_bytes().to_vec()));
    assert_eq!(told[n - 3], Told::Flush);
    // a closure hears the same
    let mut again = Medium::copy_of(&image).unwrap();
    let mut steps = Vec::new();
    Log::open_with(&mut again, |step: Step<'_>| steps.push(matches!(step, Step::Flush))).unwrap().advance(30).unwrap();
    assert_eq!(steps.last(), Some(&true));
    assert!(steps.len() >= 4);
}

#[test]
fn an_operation_that_is_left_in_the_middle_is_a_cut() {
    let mut m = medium(82);
    let mut log = Log::setup(&mut m).unwrap();
    log.append(b"abcdef").unwrap();
    log.advance(5).unwrap();
    let start = Medium::copy_of(log.medium()).unwrap();
    for many in 0.. {
        let mut log = Log::open(Medium::copy_of(&start).unwrap()).unwrap();
        let mut operation = log.begin_append(b"ghijklm").unwrap();
        let mut steps = 0;
        while steps < many && operation.step().unwrap().is_some() {
            steps += 1;
        }
        let finished = steps < many;
        drop(operation);
        assert_eq!(log.is_open(), finished);
        if !finished {
            assert_eq!(log.append(b"x"), Err(Error::NotOpen));
            assert_eq!(log.advance(5), Err(Error::NotOpen));
            assert_eq!(log.read(5, &mut []), Err(Error::NotOpen));
            assert_eq!(log.read_vec(5, 0), Err(Error::NotOpen));
            assert_eq!(log.room(), Err(Error::NotOpen));
            log.reopen().unwrap();
        }
        let found = log.ask().unwrap();
        let kept = log.read_vec(found.head, found.kept()).unwrap();
        assert!(kept == b"f" || kept == b"fghijklm");
        if finished {
            assert_eq!(kept, b"fghijklm");
            return;
        }
    }
}

/// Every cut of an append: after each number of steps, each piece of what was written since the last flush is there or not.
#[test]
fn every_cut_of_an_append() {
    let mut m = medium(72 + 16);
    let mut log = Log::setup(&mut m).unwrap();
    log.append(b"0123456789").unwrap();
    log.advance(8).unwrap();
    let mut flushed = log.medium().to_vec();
    let mut now = flushed.clone();
    let mut cuts = 0;
    let mut operation = log.begin_append(b"abcdefghijk").unwrap();
    loop {
        let pieces: Vec<usize> =
            (0..now.len().div_euclid(8)).filter(|p| now[8 * p..8 * p + 8] != flushed[8 * p..8 * p + 8]).collect();
        for subset in 0..1u32 << pieces.len() {
            let mut left = flushed.clone();
            for (i, p) in pieces.iter().enumerate() {
                if subset >> i & 1 == 1 {
                    left[8 * p..8 * p + 8].copy_from_slice(&now[8 * p..8 * p + 8]);
                }
            }
            let log = Reader::open(&left).unwrap();
            let found = log.ask().unwrap();
            let kept = log.read_vec(found.head, found.kept()).unwrap();
            assert!(kept == b"89" || kept == b"89abcdefghijk");
            cuts += 1;
        }
        match operation.step().unwrap() {
            Some(Step::Written { at, bytes }) => now[at..at + bytes.len()].copy_from_slice(bytes),
            Some(Step::Flush) => flushed.copy_from_slice(&now),
            None => break,
        }
    }
    assert!(cuts >= 10);
    assert_eq!(Reader::open(&flushed).unwrap().ask(), Ok(Numbers { head: 8, tail: 21, capacity: 15 }));
}

#[test]
fn sequences_against_a_list_of_all_bytes() {
    let mut seed = 88172645463325252u64;
    let mut random = move |below: u64| {
        seed ^= seed << 13;
        seed ^= seed >> 7;
        seed ^= seed << 17;
        seed % below
    };
    for size in 1..=40 {
        let mut log = Log::setup(medium(72 + size as usize)).unwrap();
        let mut all = Vec::new();
        let mut head = 0;
        for _ in 0..300 {
            let n = random(size + 2);
            let room = size - 1 - (all.len() as u64 - head);
            assert_eq!(log.room(), Ok(room));
            match random(4) {
                0 | 1 => {
                    let bytes: Vec<u8> = (0..n).map(|_| random(256) as u8).collect();
                    let appended = log.append(&bytes);
                    if n > room {
                        assert_eq!(appended, Err(Error::NoRoom { room }));
                    } else {
                        assert_eq!(appended, Ok(all.len() as u64));
                        all.extend(bytes);
                    }
                }
                2 => {
                    let advanced = log.advance(head + n);
                    if head + n > all.len() as u64 {
                        assert_eq!(advanced, Err(Error::BeyondTail { tail: all.len() as u64 }));
                    } else {
                        assert_eq!(advanced, Ok(()));
                        head += n;
                    }
                }
                _ => log.reopen().unwrap(),
            }
            let kept = all.len() as u64 - head;
            assert_eq!(log.ask(), Ok(Numbers { head, tail: all.len() as u64, capacity: size - 1 }));
            assert_eq!(log.read_vec(head, kept).unwrap(), &all[head as usize..]);
        }
    }
}

#[test]
fn any_bytes_as_a_medium() {
    let mut seed = 1234567890123456789u64;
    let mut random = move || {
        seed ^= seed << 13;
        seed ^= seed >> 7;
        seed ^= seed << 17;
        seed
    };
    for round in 0..3000 {
        let mut m = Medium::zeroed((random() % 140) as usize).unwrap();
        m.iter_mut().for_each(|byte| *byte = random() as u8);
        if m.len() > 72 && round % 2 == 0 {
            put(&mut m, 0, if round % 4 == 0 { FIRST } else { SECOND });
            let size = if random() % 2 == 0 { m.len() as u64 - 72 } else { random() % 100 };
            let head = if random() % 2 == 0 { random() } else { random() % 50 };
            put_header(&mut m, if round % 4 == 0 { 8 } else { 40 }, head, head.wrapping_add(random() % 60), size);
        }
        if let Ok(mut log) = Log::open(&mut m) {
            let found = log.ask().unwrap();
            assert_eq!(log.read_vec(found.head, found.kept()).unwrap().len() as u64, found.kept());
            let room = log.room().unwrap();
            assert_eq!(log.append(&vec![1; room as usize]), Ok(found.tail));
            assert_eq!(log.advance(found.tail + room), Ok(()));
        }
    }
}

#[test]
fn media_of_many_kinds() {
    let mut words = [0u64; 20];
    let bytes: &mut [u8] = unsafe { std::slice::from_raw_parts_mut(words.as_mut_ptr().cast(), 160) };
    assert_eq!(Log::setup(&mut *bytes).unwrap().append(b"a"), Ok(0));
    assert_eq!(Log::open_with(bytes, Plain).unwrap().append(b"b"), Ok(1));
    let mut boxed: Box<[u8]> = vec![0; 100].into_boxed_slice();
    // ordinary memory is often aligned, and where it is not it is refused
    match Log::setup(&mut boxed) {
        Ok(log) => assert_eq!(log.ask().unwrap().capacity, 27),
        Err(error) => assert!(matches!(error, Error::Misaligned { .. })),
    }
    fn is_send<T: Send + Sync>() {}
    is_send::<Log<Medium>>();
    is_send::<Reader<'_>>();
    is_send::<Error>();
}

#[test]
fn a_medium_that_grows_is_noticed() {
    let mut log = Log::setup(vec![0u8; 100]).unwrap();
    log.append(b"abc").unwrap();
    let mut longer = log.into_medium();
    longer.push(0);
    assert_eq!(Log::open(longer).unwrap_err(), Error::WrongSize { size: 28, ring: 29 });
}
