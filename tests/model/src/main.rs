//! cuts [--quick | --long]: the model under every cut, and the mutants, which must be caught.
//! cuts [--mutant NAME] --case 'CASE': one case, with every cut of each of its operations.

use model::crash::{Counts, Medium, Tester};
use model::mutants::Mutant;
use model::report::Report;
use model::setup::{first_header_damaged, first_header_live, neither_selector, second_header_live, Row};
use model::subject::{Model, Subject};
use model::walk::Failure;

const RINGS: [u64; 15] = [1, 2, 3, 4, 5, 6, 7, 8, 9, 10, 11, 12, 16, 17, 24];

fn main() {
    let arguments: Vec<String> = std::env::args().skip(1).collect();
    let words: Vec<&str> = arguments.iter().map(String::as_str).collect();
    match words[..] {
        [] | ["--quick"] => all(false),
        ["--long"] => all(true),
        ["--case", case] => one(&mut Model::new(), case),
        ["--mutant", name, "--case", case] => match Mutant::named(name) {
            Some(mut mutant) => one(&mut mutant, case),
            None => usage(),
        },
        _ => usage(),
    }
}

fn usage() {
    eprintln!("usage: cuts [--quick | --long] | [--mutant NAME] --case 'CASE'; mutants: {:?}", Mutant::ALL);
    std::process::exit(2);
}

fn all(long: bool) {
    let mut report = Report::new();
    let (longest, twice) = if long { (5, 12) } else { (3, 4) };
    report.part(&format!("every cut of sequences of up to {} operations", longest), || {
        tried(&mut Model::new(), |tester| tester.sequences(&RINGS, longest))
    });
    report
        .part("every cut of one operation on every shape", || tried(&mut Model::new(), |tester| tester.shapes(&RINGS)));
    report.part("every cut after every cut", || tried(&mut Model::new(), |tester| tester.cut_twice(&RINGS[..twice])));
    report.part("cuts of set-up, second header live", || row(second_header_live));
    report.part("cuts of set-up, first header live", || row(first_header_live));
    report.part("cuts of set-up, neither selector", || row(neither_selector));
    report.part("cuts of set-up, first header damaged", || row(first_header_damaged));
    for mutant in Mutant::ALL.into_iter().filter(|mutant| mutant.breaks_the_log()) {
        report.part(&format!("mutant {:?}", mutant), || caught(mutant));
    }
    report.end()
}

fn tried<S: Subject>(
    subject: &mut S,
    run: impl FnOnce(&mut Tester<S>) -> Result<(), Failure>,
) -> Result<String, String> {
    let mut tester = Tester::new(subject, Medium::InOrder);
    match run(&mut tester) {
        Ok(()) => {
            let Counts { operations, cuts } = tester.counts;
            Ok(format!("{} cuts of {} operations", cuts, operations))
        }
        Err(Failure { case, what }) => {
            Err(format!("{}: {}\n      repeat: tests/model/run --case '{}'", case, what, case))
        }
    }
}

fn row(tried: fn(&mut Model) -> Result<Row, String>) -> Result<String, String> {
    tried(&mut Model::new()).map(|row| row.to_string())
}

/// A mutant passes this test when it fails the others.
fn caught(mut mutant: Mutant) -> Result<String, String> {
    let name = format!("{:?}", mutant);
    let mut tester = Tester::new(&mut mutant, Medium::InOrder);
    match tester.sequences(&RINGS[..12], 3).and_then(|()| tester.cut_twice(&RINGS[..4])) {
        Ok(()) => Err("not caught".to_string()),
        Err(Failure { case, what }) => {
            Ok(format!("caught: {}: {}\n      repeat: tests/model/run --mutant {} --case '{}'", case, what, name, case))
        }
    }
}

fn one<S: Subject>(subject: &mut S, text: &str) {
    let mut report = Report::new();
    report.part(text, || {
        let case = text.parse()?;
        let mut tester = Tester::new(subject, Medium::InOrder);
        tester.case(&case)?;
        Ok(format!("{} cuts of {} operations", tester.counts.cuts, tester.counts.operations))
    });
    report.end()
}
