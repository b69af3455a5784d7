//! blackbox: formats, fills, reads and examines images of Blackboxlog.

mod check;
mod failure;
mod format;
mod image;
mod lock;
mod map;
mod progress;
mod replay;
mod space;
mod usage;

use std::ffi::{OsStr, OsString};
use std::fs::File;
use std::io::{self, Read, Write};
use std::path::Path;
use std::process;

use blackboxlog::{Error, Log, Reader};

use failure::{output, refused, wrong_use, Failure};
use image::{is_there, space_for, Disk, Image, CHUNK};
use progress::Progress;
use usage::{Command, Words};

fn main() {
    let words: Vec<OsString> = std::env::args_os().skip(1).collect();
    let status = match run(&words) {
        Ok(()) => 0,
        Err(Failure::Quiet) => 1,
        Err(Failure::Refused(why)) => told(&why, 1),
        Err(Failure::Use(why)) => told(&why, 2),
    };
    process::exit(status)
}

fn told(why: &str, status: i32) -> i32 {
    let _ = writeln!(io::stderr(), "blackbox: {}", why.trim_end());
    status
}

fn run(words: &[OsString]) -> Result<(), Failure> {
    let (command, words) = match usage::command(words)? {
        usage::Asked::Run(command, words) => (command, words),
        usage::Asked::Say(text) => return say(&text),
    };
    match command {
        Command::Format => format(&words),
        Command::Info => info(&words),
        Command::Append => append(&words),
        Command::Read => read(&words),
        Command::Advance => advance(&words),
        Command::Dump => dump(&words),
        Command::Check => check(&words),
        Command::Map => map(&words),
        Command::Replay => replay::replay(io::stdin().lock(), io::stdout().lock()),
    }
}

fn say(text: &str) -> Result<(), Failure> {
    let mut out = io::stdout().lock();
    out.write_all(text.as_bytes()).and_then(|()| out.flush()).map_err(output)
}

/// Says what was done to an image. If that can't be said on standard output, it is said with the failure: it was done all the same.
fn done(what: &str, text: &str) -> Result<(), Failure> {
    let mut out = io::stdout().lock();
    let said = out.write_all(text.as_bytes()).and_then(|()| out.flush());
    said.or_else(|error| refused(format!("{}, but standard output: {}", what, error)))
}

fn format(words: &Words) -> Result<(), Failure> {
    let path = Path::new(&words.given[0]);
    let length = size(&words.given[1])?;
    // planned before anything is touched
    let mut log = Log::on(space_for(length)?);
    let plan = log.begin_setup()?;
    is_there(path)?;
    let look = |image: &Image| if words.has("--force") { Ok(()) } else { spare(image) };
    let capacity = Disk::make(path, length, look)?.carry_out(plan)?;
    done(&format!("it is formatted with a capacity of {}", capacity), &format!("capacity {}\n", capacity))
}

/// Refuses to format over a log, or over what may be left of one.
fn spare(image: &Image) -> Result<(), Failure> {
    let remains = format::remains(image.medium());
    match image.reader().and_then(|log| log.ask()) {
        Ok(log) => {
            refused(format!("{}: it holds a log that keeps {} bytes; --force formats it", image.name(), log.kept()))
        }
        Err(error) if remains => {
            refused(format!("{}: it may hold a log ({}); --force formats it", image.name(), error))
        }
        Err(_) => Ok(()),
    }
}

fn info(words: &Words) -> Result<(), Failure> {
    let image = Image::open(Path::new(&words.given[0]), false)?;
    let log = opened(&image)?;
    let numbers = log.ask()?;
    say(&format!(
        "length   {}\ncapacity {}\nhead     {}\ntail     {}\nkept     {}\nroom     {}\n",
        image.length(),
        numbers.capacity,
        numbers.head,
        numbers.tail,
        numbers.kept(),
        log.room()?
    ))
}

/// The log on an image. A refusal names the image.
fn opened(image: &Image) -> Result<Reader<'_>, Failure> {
    image.reader().or_else(|error| refused(format!("{}: {}", image.name(), error)))
}

fn append(words: &Words) -> Result<(), Failure> {
    let image = Image::open(Path::new(&words.given[0]), true)?;
    let room = opened(&image)?.room()?;
    image.release();
    let bytes = match words.given.get(1) {
        Some(file) if file != OsStr::new("-") => {
            let name = Path::new(file).display();
            match File::open(file) {
                Ok(file) => at_most(file, room, &name)?,
                Err(error) => return refused(format!("{}: {}", name, error)),
            }
        }
        _ => at_most(io::stdin().lock(), room, &"standard input")?,
    };
    // what was read to its end fits, or is refused: there may be more room by now, but not all of it was read
    if bytes.len() as u64 > room {
        return Err(Error::NoRoom { room }.into());
    }
    let (mut log, disk) = image.into_log()?;
    let position = disk.carry_out(log.begin_append(&bytes)?)?;
    done(&format!("appended at {}", position), &format!("at {}\n", position))
}

/// All bytes of a source, or one more than there is room for: enough for a refusal.
fn at_most(mut from: impl Read, room: u64, name: &dyn std::fmt::Display) -> Result<Vec<u8>, Failure> {
    let mut bytes = Vec::new();
    let mut part = vec![0; CHUNK];
    let mut progress = Progress::new("read", None);
    while bytes.len() as u64 <= room {
        let wanted = (room - bytes.len() as u64).saturating_add(1).min(CHUNK as u64) as usize;
        let got = match from.read(&mut part[..wanted]) {
            Ok(0) => break,
            Ok(got) => got,
            Err(error) if error.kind() == io::ErrorKind::Interrupted => 0,
            Err(error) => return refused(format!("{}: {}", name, error)),
        };
        if bytes.try_reserve(got).is_err() {
            return Err(Error::NoMemory { bytes: (bytes.len() + got) as u64 }.into());
        }
        bytes.extend_from_slice(&part[..got]);
        progress.at(bytes.len() as u64);
    }
    Ok(bytes)
}

fn read(words: &Words) -> Result<(), Failure> {
    let position = number(&words.given[1])?;
    let length = number(&words.given[2])?;
    let mut image = Image::open(Path::new(&words.given[0]), false)?;
    show(&mut image, Some((position, length)))
}

fn dump(words: &Words) -> Result<(), Failure> {
    show(&mut Image::open(Path::new(&words.given[0]), false)?, None)
}

/// Writes a run of bytes of the log, or all that it keeps, to standard output.
fn show(image: &mut Image, run: Option<(u64, u64)>) -> Result<(), Failure> {
    let log = opened(image)?;
    let numbers = log.ask()?;
    let (position, length) = run.unwrap_or((numbers.head, numbers.kept()));
    // the position by the log itself; the length before so many bytes are loaded
    log.read(position, &mut [])?;
    if length > numbers.tail - position {
        return Err(Error::BeyondTail { tail: numbers.tail }.into());
    }
    image.load_positions(numbers, position, length)?;
    image.release();
    let log = opened(image)?;
    let mut out = io::stdout().lock();
    let mut part = vec![0; CHUNK.min(length as usize)];
    let mut progress = Progress::new("written", Some(length));
    let mut done = 0;
    while done < length {
        let wanted = (length - done).min(CHUNK as u64) as usize;
        log.read(position + done, &mut part[..wanted])?;
        out.write_all(&part[..wanted]).map_err(output)?;
        done += wanted as u64;
        progress.at(done);
    }
    out.flush().map_err(output)
}

fn advance(words: &Words) -> Result<(), Failure> {
    let position = number(&words.given[1])?;
    let image = Image::open(Path::new(&words.given[0]), true)?;
    let (mut log, disk) = image.into_log()?;
    disk.carry_out(log.begin_advance(position)?)?;
    done(&format!("the head is at {}", position), &format!("head {}\n", position))
}

fn check(words: &Words) -> Result<(), Failure> {
    let image = Image::open(Path::new(&words.given[0]), false)?;
    let (report, is_log) = check::report(image.medium());
    say(&report)?;
    if is_log {
        Ok(())
    } else {
        opened(&image).map(|_| ())
    }
}

fn map(words: &Words) -> Result<(), Failure> {
    let image = Image::open(Path::new(&words.given[0]), false)?;
    let drawn = map::Map::of(image.name(), image.medium());
    let map = drawn.or_else(|error| refused(format!("{}: {}", image.name(), error)))?;
    say(&if words.has("--svg") { map.svg() } else { map.text() })
}

fn number(word: &OsStr) -> Result<u64, Failure> {
    match word.to_str().and_then(|word| replay::parse_number(word.as_bytes())) {
        Some(number) => Ok(number),
        None => wrong_use(format!("not a number from 0 to 2^64 - 1: {}", Path::new(word).display())),
    }
}

/// A number of bytes, perhaps with K, M, G or T behind it.
fn size(word: &OsStr) -> Result<u64, Failure> {
    let text = word.to_str().unwrap_or("");
    let shift =
        ["K", "M", "G", "T"].iter().position(|letter| text.ends_with(letter)).map_or(0, |i| 10 * (i as u32 + 1));
    let digits = if shift == 0 { text } else { &text[..text.len() - 1] };
    match replay::parse_number(digits.as_bytes()).and_then(|number| number.checked_mul(1 << shift)) {
        Some(number) => Ok(number),
        None => wrong_use(format!("not a number of bytes: {}", Path::new(word).display())),
    }
}
