//! judge [--quick | --long]: the source against the archive, which server.c has linked.
//! judge --case 'CASE': one case.

use compare::parts::Extent;
use judge::archive::Archive;

/// Plans may change as long as the bytes that they leave do not, so the writes are only counted.
const QUICK: Extent = Extent {
    command: "tests/judge/run",
    same_writes: false,
    longest: 3,
    cut_longest: 2,
    cut_shapes: false,
    random: 20_000,
};
const LONG: Extent = Extent { longest: 5, cut_longest: 3, cut_shapes: true, random: 2_000_000, ..QUICK };

fn main() {
    let arguments: Vec<String> = std::env::args().skip(1).collect();
    let words: Vec<&str> = arguments.iter().map(String::as_str).collect();
    match words[..] {
        [] | ["--quick"] => QUICK.all(&mut Archive::start()),
        ["--long"] => LONG.all(&mut Archive::start()),
        ["--case", case] => QUICK.one(&mut Archive::start(), case),
        _ => {
            eprintln!("usage: judge [--quick | --long] | --case 'CASE'");
            std::process::exit(2);
        }
    }
}
