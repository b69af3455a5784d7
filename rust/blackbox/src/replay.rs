//! Operations on a medium in memory, one a line, and one line for each answer.

use std::io::{self, BufRead, BufReader, BufWriter, Read, Write};

use blackboxlog::{Error, Log, Medium};

use crate::failure::{output, refused, Failure};
use crate::progress::Progress;

/// Reads operations from `input` until its end and writes the answers to `output`. What is answered is written out whenever the next line has
/// to be waited for.
pub fn replay(input: impl Read, to: impl Write) -> Result<(), Failure> {
    let mut input = BufReader::with_capacity(1 << 16, input);
    let mut answers = BufWriter::with_capacity(1 << 16, to);
    let mut log = Log::on(Medium::zeroed(0).ok_or(Error::NoMemory { bytes: 0 })?);
    let mut line = Vec::new();
    let mut lines = 0;
    let mut progress = Progress::new("lines", None);
    loop {
        if input.buffer().is_empty() {
            answers.flush().map_err(output)?;
        }
        line.clear();
        match input.read_until(b'\n', &mut line) {
            Ok(0) => break,
            Ok(_) => {}
            Err(error) => return refused(format!("standard input: {}", error)),
        }
        answer(&mut log, &line, &mut answers).map_err(output)?;
        lines += 1;
        if lines % 4096 == 0 {
            progress.at(lines);
        }
    }
    answers.flush().map_err(output)
}

/// The operation of a line, or why it is none.
enum Operation<'a> {
    Medium(Medium),
    Setup,
    Open,
    Append(Vec<u8>),
    Advance(u64),
    Read(u64, u64),
    Ask,
    Dump,
    Wrong(&'a str),
}

fn answer(log: &mut Log<Medium>, line: &[u8], to: &mut impl Write) -> io::Result<()> {
    match parse(line) {
        Operation::Medium(medium) => {
            *log = Log::on(medium);
            writeln!(to, "ok")
        }
        Operation::Setup => match setup(log) {
            Ok(capacity) => writeln!(to, "ok capacity {}", capacity),
            Err(error) => refusal(error, to),
        },
        Operation::Open => match log.reopen().and_then(|()| log.ask()) {
            Ok(found) => writeln!(to, "ok opened {} {} {}", found.head, found.tail, found.capacity),
            Err(error) => refusal(error, to),
        },
        Operation::Append(bytes) => match log.append(&bytes) {
            Ok(position) => writeln!(to, "ok at {}", position),
            Err(error) => refusal(error, to),
        },
        Operation::Advance(position) => match log.advance(position) {
            Ok(()) => writeln!(to, "ok"),
            Err(error) => refusal(error, to),
        },
        Operation::Read(position, length) => match log.read_vec(position, length) {
            Ok(bytes) => {
                to.write_all(b"ok ")?;
                write_hex(&bytes, to)
            }
            Err(error) => refusal(error, to),
        },
        Operation::Ask => match log.ask() {
            Ok(found) => writeln!(to, "ok {} {} {}", found.head, found.tail, found.capacity),
            Err(error) => refusal(error, to),
        },
        Operation::Dump => write_hex(log.medium(), to),
        Operation::Wrong(why) => writeln!(to, "error {}", why),
    }
}

/// Set-up answers a capacity and leaves no log open; opening does that.
fn setup(log: &mut Log<Medium>) -> Result<u64, Error> {
    let capacity = log.begin_setup()?.finish(&mut blackboxlog::Plain)?;
    log.close();
    Ok(capacity)
}

fn refusal(error: Error, to: &mut impl Write) -> io::Result<()> {
    match error {
        Error::TooShort { required } => writeln!(to, "refused too-short {}", required),
        Error::BadSelector { .. } => writeln!(to, "damaged selector"),
        Error::BadChecksum { .. } => writeln!(to, "damaged header"),
        Error::SizeZero => writeln!(to, "not-a-log size-zero"),
        Error::HeadPastTail { .. } => writeln!(to, "not-a-log head-past-tail"),
        Error::TooFull { .. } => writeln!(to, "not-a-log too-full"),
        Error::WrongSize { .. } => writeln!(to, "not-a-log wrong-size"),
        Error::NoRoom { room } => writeln!(to, "refused no-room {}", room),
        Error::BeforeHead { head } => writeln!(to, "refused before-head {}", head),
        Error::BeyondTail { tail } => writeln!(to, "refused beyond-tail {}", tail),
        Error::NotOpen => writeln!(to, "refused no-handle"),
        other => writeln!(to, "error {}", other),
    }
}

fn parse(line: &[u8]) -> Operation<'_> {
    let mut words = line.split(u8::is_ascii_whitespace).filter(|word| !word.is_empty());
    let name = match words.next() {
        Some(name) => name,
        None => return Operation::Wrong("an empty line"),
    };
    let (one, two, more) = (words.next(), words.next(), words.next().is_some());
    match (name, one, two, more) {
        (b"medium", Some(n), None, false) => {
            with_number(n, |n| match usize::try_from(n).ok().and_then(Medium::zeroed) {
                Some(medium) => Operation::Medium(medium),
                None => Operation::Wrong("not enough memory for such a medium"),
            })
        }
        (b"medium-hex", Some(hex), None, false) => match parse_hex(hex).as_deref().map(Medium::copy_of) {
            Some(Some(medium)) => Operation::Medium(medium),
            Some(None) => Operation::Wrong("not enough memory for such a medium"),
            None => Operation::Wrong("not hexadecimal"),
        },
        (b"setup", None, None, false) => Operation::Setup,
        (b"open", None, None, false) => Operation::Open,
        (b"append", Some(hex), None, false) => match parse_hex(hex) {
            Some(bytes) => Operation::Append(bytes),
            None => Operation::Wrong("not hexadecimal"),
        },
        (b"advance", Some(position), None, false) => with_number(position, Operation::Advance),
        (b"read", Some(position), Some(length), false) => {
            with_number(position, |position| with_number(length, |length| Operation::Read(position, length)))
        }
        (b"ask", None, None, false) => Operation::Ask,
        (b"dump", None, None, false) => Operation::Dump,
        (b"medium" | b"medium-hex" | b"setup" | b"open" | b"append" | b"advance" | b"read" | b"ask" | b"dump", ..) => {
            Operation::Wrong("too few or too many words")
        }
        _ => Operation::Wrong("no such operation"),
    }
}

fn with_number<'a>(word: &[u8], then: impl FnOnce(u64) -> Operation<'a>) -> Operation<'a> {
    match parse_number(word) {
        Some(number) => then(number),
        None => Operation::Wrong("not a number from 0 to 2^64 - 1"),
    }
}

/// Decimal digits only.
pub fn parse_number(word: &[u8]) -> Option<u64> {
    if word.is_empty() {
        return None;
    }
    word.iter().try_fold(0u64, |number, digit| match digit {
        b'0'..=b'9' => number.checked_mul(10)?.checked_add(u64::from(digit - b'0')),
        _ => None,
    })
}

/// Two digits for each byte; `-` for none.
fn parse_hex(word: &[u8]) -> Option<Vec<u8>> {
    if word == b"-" {
        return Some(Vec::new());
    }
    if word.len() % 2 != 0 {
        return None;
    }
    word.chunks_exact(2).map(|pair| Some(digit(pair[0])? << 4 | digit(pair[1])?)).collect()
}

fn digit(character: u8) -> Option<u8> {
    match character {
        b'0'..=b'9' => Some(character - b'0'),
        b'a'..=b'f' => Some(character - b'a' + 10),
        b'A'..=b'F' => Some(character - b'A' + 10),
        _ => None,
    }
}

fn write_hex(bytes: &[u8], to: &mut impl Write) -> io::Result<()> {
    const DIGITS: &[u8; 16] = b"0123456789abcdef";
    if bytes.is_empty() {
        return to.write_all(b"-\n");
    }
    let mut text = [0; 1024];
    for part in bytes.chunks(512) {
        for (pair, byte) in text.chunks_exact_mut(2).zip(part) {
            pair[0] = DIGITS[usize::from(byte >> 4)];
            pair[1] = DIGITS[usize::from(byte & 15)];
        }
        to.write_all(&text[..2 * part.len()])?;
    }
    to.write_all(b"\n")
}
