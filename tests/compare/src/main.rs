//! compare [--quick | --long]: the source against the model.
//! compare --case 'CASE': one case.

use compare::parts::Extent;
use model::subject::Model;

const QUICK: Extent = Extent {
    command: "tests/compare/run",
    same_writes: true,
    longest: 3,
    cut_longest: 2,
    cut_shapes: true,
    random: 50_000,
};
const LONG: Extent = Extent { longest: 5, cut_longest: 4, random: 2_000_000, ..QUICK };

fn main() {
    let arguments: Vec<String> = std::env::args().skip(1).collect();
    let words: Vec<&str> = arguments.iter().map(String::as_str).collect();
    match words[..] {
        [] | ["--quick"] => QUICK.all(&mut Model::new()),
        ["--long"] => LONG.all(&mut Model::new()),
        ["--case", case] => QUICK.one(&mut Model::new(), case),
        _ => {
            eprintln!("usage: compare [--quick | --long] | --case 'CASE'");
            std::process::exit(2);
        }
    }
}
