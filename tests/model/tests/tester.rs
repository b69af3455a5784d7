//! The cut test itself: the smallest case of some mutants, with and without a cut.

use model::crash::{Medium, Tester};
use model::mutants::Mutant;

fn smallest(mut mutant: Mutant) -> (String, String) {
    let failure = Tester::new(&mut mutant, Medium::InOrder).sequences(&[1, 2, 3], 3).expect_err("not caught");
    (failure.case.to_string(), failure.what)
}

#[test]
fn a_torn_header_is_caught() {
    let (case, what) = smallest(Mutant::LiveHeaderInPlace);
    assert_eq!(case, "2 setup a1");
    assert!(what.contains("cut after 1 whole writes with the pieces at [8]"), "{}", what);
}

#[test]
fn a_byte_outside_the_steps_is_caught() {
    for (mutant, expected) in [(Mutant::ByteBesideSteps, "1 setup a0"), (Mutant::RefusalWrites, "1 setup a1")] {
        let (case, what) = smallest(mutant);
        assert_eq!(case, expected);
        assert!(what.contains("the byte at 72"), "{}", what);
    }
}

#[test]
fn a_wrong_answer_is_caught() {
    let (case, what) = smallest(Mutant::OtherNumber);
    assert_eq!(case, "1 setup +1");
    assert!(what.contains("should answer Err(BeyondTail { tail: 0 })"), "{}", what);
}
