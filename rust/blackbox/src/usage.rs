//! The commands, their words and their help.

use std::ffi::{OsStr, OsString};

use crate::failure::{wrong_use, Failure};

#[derive(Clone, Copy, Debug, PartialEq, Eq)]
pub enum Command {
    Format,
    Info,
    Append,
    Read,
    Advance,
    Dump,
    Check,
    Map,
    Replay,
}

struct About {
    command: Command,
    name: &'static str,
    words: &'static str,
    /// How many words it takes, at least and at most.
    takes: (usize, usize),
    options: &'static [&'static str],
    short: &'static str,
    long: &'static str,
}

const COMMANDS: [About; 9] = [
    About {
        command: Command::Format,
        name: "format",
        words: "IMAGE SIZE [--force]",
        takes: (2, 2),
        options: &["--force"],
        short: "make an image of SIZE bytes with an empty log",
        long: "SIZE is in bytes, at least 73; K, M, G and T behind it stand for powers of 1024. The log's capacity is 73 bytes less, and is
printed. A file that is not there is made; one that is there gets this length. If it holds a log, or what may be left of one, it is
refused, unless --force is given. Whatever else stands in it is lost.

A power cut while a log is formatted over leaves the old log, the new one, or an image that is damaged. If SIZE is not the length that the
file had, the old log is lost as soon as the file has its new length.
",
    },
    About {
        command: Command::Info,
        name: "info",
        words: "IMAGE",
        takes: (1, 1),
        options: &[],
        short: "say head, tail and capacity",
        long: "Prints a line each: the image's length, the log's capacity, head, tail, how many bytes it keeps, and how many there is room for.
",
    },
    About {
        command: Command::Append,
        name: "append",
        words: "IMAGE [FILE|-]",
        takes: (1, 2),
        options: &[],
        short: "append a file, or standard input, as one record",
        long: "Appends all bytes of FILE, or of standard input, at the tail, and prints the position of the first. All of them are appended or none:
it is refused if there is no room for them.

A power cut leaves the log before or the log after; after, once the position is printed.
",
    },
    About {
        command: Command::Read,
        name: "read",
        words: "IMAGE POS LEN",
        takes: (3, 3),
        options: &[],
        short: "write LEN bytes from position POS to standard output",
        long: "It is refused, and nothing is written, if one of the positions is not kept: before the head, or beyond the tail.
",
    },
    About {
        command: Command::Advance,
        name: "advance",
        words: "IMAGE POS",
        takes: (2, 2),
        options: &[],
        short: "move the head to position POS: what is before it is no longer kept",
        long: "It is refused if POS is before the head or beyond the tail.

A power cut leaves the log before or the log after; after, once the head is printed.
",
    },
    About {
        command: Command::Dump,
        name: "dump",
        words: "IMAGE",
        takes: (1, 1),
        options: &[],
        short: "write all kept bytes to standard output",
        long: "From the head to the tail, as they stand on the image: contents carry no checksum in this format.
",
    },
    About {
        command: Command::Check,
        name: "check",
        words: "IMAGE",
        takes: (1, 1),
        options: &[],
        short: "say what stands on an image, and what is wrong with it",
        long: "Prints the selector and both headers with their offsets, stored and computed checksums and numbers, and whether that is a log. The
header that is not live may hold anything: a wrong checksum there is no fault. The exit status is 0 if it is a log, and 1 if not.
",
    },
    About {
        command: Command::Map,
        name: "map",
        words: "IMAGE [--svg]",
        takes: (1, 1),
        options: &["--svg"],
        short: "draw selector, headers and ring",
        long: "Draws a picture on standard output, in characters or with --svg as SVG. In the row of characters that is the ring a # stands for
kept bytes, a . for free ones, and a + for some of both. An image of 73 bytes or more that is no log is drawn too, as far as it is known;
the exit status is 0 then too.
",
    },
    About {
        command: Command::Replay,
        name: "replay",
        words: "",
        takes: (0, 0),
        options: &[],
        short: "carry out operations from standard input on a medium in memory",
        long: "One operation a line, and one line for each answer:

  medium N          a medium of N zero bytes; no log is open    ok
  medium-hex HEX    a medium of these bytes; no log is open     ok
  setup             set up an empty log; no log is open         ok capacity C
  open              open the log                                ok opened HEAD TAIL CAPACITY
  append HEX        append these bytes                          ok at POS
  advance POS       move the head                               ok
  read POS LEN      read LEN bytes                              ok HEX
  ask               head, tail and capacity                     ok HEAD TAIL CAPACITY
  dump              the medium's bytes                          HEX

HEX is - for no bytes. Numbers are decimal, up to 2^64 - 1. Other answers:

  refused too-short 73        the medium has 72 bytes or fewer
  damaged selector|header     the selector has neither value; the live header's checksum is wrong
  not-a-log size-zero|head-past-tail|too-full|wrong-size
                              the live header has numbers that no log has
  refused no-room ROOM        there is room for ROOM bytes
  refused before-head HEAD    the position is before the head
  refused beyond-tail TAIL    the position, or the end of the bytes, is beyond the tail
  refused no-handle           no log is open
  error WHY                   the line is none of these operations
",
    },
];

/// The words behind a command: without options, and the options.
pub struct Words {
    pub given: Vec<OsString>,
    options: Vec<&'static str>,
}

impl Words {
    pub fn has(&self, option: &str) -> bool {
        self.options.contains(&option)
    }
}

pub enum Asked {
    Run(Command, Words),
    Say(String),
}

/// What a command line asks for.
pub fn command(words: &[OsString]) -> Result<Asked, Failure> {
    let first = match words.first() {
        Some(first) => first,
        None => return wrong_use(format!("no command\n\n{}", overview())),
    };
    if first == "--help" || first == "-h" || first == "help" {
        return match words {
            [_] => Ok(Asked::Say(overview())),
            [_, word] => find(word).map_or_else(|| unknown(word), |about| Ok(Asked::Say(help(about)))),
            _ => wrong_use("it is used as 'blackbox --help [COMMAND]'"),
        };
    }
    if first == "--version" || first == "-V" {
        return match words {
            [_] => Ok(Asked::Say(format!("blackbox {}\n", blackboxlog::VERSION))),
            _ => wrong_use("it is used as 'blackbox --version'"),
        };
    }
    let about = match find(first) {
        Some(about) => about,
        None => return unknown(first),
    };
    sorted(about, &words[1..])
}

fn unknown(word: &OsStr) -> Result<Asked, Failure> {
    wrong_use(format!("no such command: {}; try 'blackbox --help'", word.to_string_lossy()))
}

/// How a command is used.
fn form(about: &About) -> String {
    format!("blackbox {} {}", about.name, about.words).trim_end().to_string()
}

/// Options and other words of a command, each where it belongs. Behind -- there are no options.
fn sorted(about: &'static About, words: &[OsString]) -> Result<Asked, Failure> {
    let mut found = Words { given: Vec::new(), options: Vec::new() };
    let mut ended = false;
    for word in words {
        let text = word.to_string_lossy();
        if ended || !text.starts_with('-') || text == "-" {
            found.given.push(word.clone());
        } else if text == "--" {
            ended = true;
        } else if text == "--help" || text == "-h" {
            return Ok(Asked::Say(help(about)));
        } else if let Some(option) = about.options.iter().find(|option| **option == text) {
            found.options.push(option);
        } else {
            return wrong_use(format!("no such option: {}; it is used as '{}'", text, form(about)));
        }
    }
    if found.given.len() < about.takes.0 || found.given.len() > about.takes.1 {
        return wrong_use(format!("it is used as '{}'", form(about)));
    }
    Ok(Asked::Run(about.command, found))
}

fn find(name: &OsStr) -> Option<&'static About> {
    COMMANDS.iter().find(|about| name == about.name)
}

fn help(about: &About) -> String {
    format!("{}\n\n{}.\n\n{}", form(about), capital(about.short), about.long)
}

fn capital(text: &str) -> String {
    text[..1].to_uppercase() + &text[1..]
}

fn overview() -> String {
    let mut text = String::from("blackbox COMMAND ..: images of Blackboxlog, a record log on persistent memory\n\n");
    for about in &COMMANDS {
        text += &format!("  {:<32} {}\n", format!("{} {}", about.name, about.words), about.short);
    }
    text + "
'blackbox COMMAND --help' says more of one; 'blackbox --version' says the version.
Commands on the same image at the same time wait for each other, for five seconds at most.
Exit status: 0 done; 1 refused, with the reason on standard error; 2 wrong use. If an image was changed and the answer can't be written to
standard output, the status is 1 too, and standard error says what was done. A closed standard input or output counts as empty.
"
}
