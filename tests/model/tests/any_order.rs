//! A medium that keeps writes until told to flush, and takes their pieces in any order: where the log needs flushes, and
//! the smallest cut that shows it.

use model::cases::forged;
use model::crash::{Medium, Tester};
use model::device::{cuts_in_any_order, Cut};
use model::log::{open, Handle, Refusal};
use model::subject::{Flushes, Model, Subject};
use model::walk::Failure;

/// The smallest case that goes wrong, or how many cuts showed nothing wrong.
fn tried(flushes: Flushes, rings: &[u64], longest: usize) -> Result<u64, Failure> {
    let mut model = Model { flushes };
    let mut tester = Tester::new(&mut model, Medium::AnyOrder);
    tester.sequences(rings, longest)?;
    Ok(tester.counts.cuts)
}

fn smallest(flushes: Flushes, rings: &[u64], longest: usize) -> (String, String) {
    let failure = tried(flushes, rings, longest).expect_err("should go wrong");
    (failure.case.to_string(), failure.what)
}

const RINGS: [u64; 6] = [1, 2, 3, 4, 8, 12];

#[test]
fn flushes_before_and_after_the_selector_are_enough() {
    let around = tried(Flushes::AroundSelector, &RINGS, 3).expect("nothing wrong");
    let after_each = tried(Flushes::AfterEach, &RINGS, 3).expect("nothing wrong");
    assert!(around > after_each && after_each > 50_000, "{} and {} cuts", around, after_each);
}

/// The selector arrives, and the header that it names has not.
#[test]
fn without_a_flush_before_the_selector() {
    for flushes in [Flushes::Nowhere, Flushes::AfterSelector] {
        let (case, what) = smallest(flushes, &RINGS, 2);
        assert_eq!(case, "1 setup a0");
        assert!(what.contains("pieces at [0]") && what.contains("BadChecksum"), "{}", what);
    }
}

/// The next operation writes the header that the selector on the medium still names. On a ring of 1 byte that header
/// never changes.
#[test]
fn without_a_flush_after_the_selector() {
    let (case, what) = smallest(Flushes::BeforeSelector, &RINGS, 2);
    assert_eq!(case, "2 setup a0 a1");
    assert!(what.contains("pieces at [8]") && what.contains("BadChecksum"), "{}", what);
}

/// What opens when a ring of 3 bytes gets two appends of 1 byte and of the second only these pieces arrived.
fn second_append_cut(flushes: Flushes, pieces: &[usize]) -> Result<Handle, Refusal> {
    let mut model = Model { flushes };
    let kept = forged(3, 0, 0, false);
    let (mut medium, mut steps) = (kept.clone(), vec![]);
    let mut handle = model.open(&medium).expect("a log");
    for byte in [1, 2] {
        model.append_steps(&mut medium, &mut handle, &[byte], &mut steps).expect("room");
    }
    let flushed = 2;
    let wanted = Cut { done: flushed, pieces: pieces.to_vec() };
    let found =
        cuts_in_any_order(&kept, &[], &steps, |left, cut| if cut() == wanted { Err(open(left)) } else { Ok(()) });
    found.expect_err("there is such a cut")
}

/// The same without a flush after the selector: an append that was answered is lost, or the log is damaged.
#[test]
fn an_answered_append_can_be_lost_without_a_flush_after_the_selector() {
    let lost = second_append_cut(Flushes::BeforeSelector, &[]).expect("a log");
    assert_eq!((lost.second, lost.tail), (false, 0));
    let damaged = second_append_cut(Flushes::BeforeSelector, &[1]);
    assert!(matches!(damaged, Err(Refusal::BadChecksum { second: false, .. })));
}

/// What opens after each cut of set-up on a log whose second header is live.
fn cuts_of_set_up(flushes: Flushes) -> Vec<Result<Handle, Refusal>> {
    let medium = forged(3, 5, 6, true);
    let mut steps = vec![];
    Model { flushes }.setup_steps(&mut medium.clone(), &mut steps).expect("long enough");
    let mut opened = vec![];
    let end: Result<(), ()> = cuts_in_any_order(&medium, &[], &steps, |left, _| {
        opened.push(open(left));
        Ok(())
    });
    assert!(end.is_ok());
    opened
}

#[test]
fn set_up_needs_a_flush_before_its_selector() {
    let damaged = |opened: &Result<Handle, Refusal>| matches!(opened, Err(Refusal::BadChecksum { second: false, .. }));
    assert!(cuts_of_set_up(Flushes::Nowhere).iter().any(damaged));
    assert!(cuts_of_set_up(Flushes::BeforeSelector).iter().all(Result::is_ok));
}
