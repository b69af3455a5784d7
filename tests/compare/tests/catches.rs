//! The comparison itself: it passes what is right, and it catches wrong logs with small cases.

use compare::oracle::Oracle;
use compare::pair::Pair;
use model::mutants::Mutant;
use model::subject::Subject;
use model::walk::Failure;

fn sequences<S: Subject>(subject: &mut S, longest: usize) -> Result<(), Failure> {
    Pair::new(subject).sequences(&[1, 2, 3, 4], longest)
}

fn case_of(failure: Result<(), Failure>) -> String {
    failure.expect_err("not caught").case.to_string()
}

#[test]
fn mutants_are_caught() {
    for mut mutant in Mutant::ALL {
        let name = format!("{:?}", mutant);
        let mut pair = Pair::new(&mut mutant);
        pair.cuts = true;
        assert!(pair.sequences(&[1, 2, 3], 4).is_err(), "{} is not caught", name);
    }
}

#[test]
fn wrong_answers_and_bytes_are_caught_with_the_smallest_case() {
    for (mut mutant, smallest) in [
        (Mutant::OtherNumber, "1 setup +1"),
        (Mutant::RefusalWrites, "1 setup a1"),
        (Mutant::ByteBesideSteps, "1 setup a0"),
        (Mutant::EmptyAppendWritesNothing, "1 setup a0"),
        (Mutant::ReadOffAtWrap, "3 setup a2 t a2 R"),
    ] {
        assert_eq!(case_of(sequences(&mut mutant, 4)), smallest);
        let random = Pair::new(&mut mutant).random(2000).expect_err("not caught");
        assert!(random.case.operations.len() <= 3, "{}", random.case);
    }
}

/// The source against itself differs in nothing but what document 01 asks for: the room, and what is no log.
#[test]
fn the_source_is_not_document_01() {
    let mut subject = Oracle::new();
    assert!(sequences(&mut subject, 3).is_ok());
    let failure = Pair::new(&mut subject).shapes(&[1]).expect_err("not caught");
    assert!(failure.what.contains("the smaller room is 0"), "{}", failure.what);
    assert!(Pair::new(&mut subject).openings().is_err());
}
