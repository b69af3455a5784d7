//! What a cut during set-up leaves: each row finds what it should, and the examples.

use model::cases::forged;
use model::device::{Cut, Step};
use model::format::header;
use model::log::{open, Numbers, Refusal};
use model::setup::{
    cuts_of_set_up, first_header_damaged, first_header_live, neither_selector, second_header_live, with_first_header,
    Found, Row,
};
use model::subject::{Model, Subject};

#[test]
fn second_header_live_the_old_log_or_the_new() {
    let Row { old, new, damaged, mixtures } = second_header_live(&mut Model::new()).expect("as it should be");
    assert!(old > 1000 && new > 100);
    assert_eq!((damaged, mixtures), (0, 0));
}

#[test]
fn first_header_live_the_old_log_or_damaged_or_the_new() {
    let Row { old, new, damaged, mixtures } = first_header_live(&mut Model::new()).expect("as it should be");
    assert!(old > 1000 && new > 1000 && damaged > 1000);
    assert_eq!(mixtures, 0);
}

#[test]
fn neither_selector_damaged_or_the_new() {
    let Row { old, new, damaged, mixtures } = neither_selector(&mut Model::new()).expect("as it should be");
    assert!(new > 1000 && damaged > 1000);
    assert_eq!((old, mixtures), (0, 0));
}

#[test]
fn first_header_damaged_can_become_a_mixture() {
    let Row { old, new, damaged, mixtures } = first_header_damaged(&mut Model::new()).expect("as it should be");
    assert!(new > 10 && damaged > 10 && mixtures > 10);
    assert_eq!(old, 0);
}

/// The new log can appear before all of its header is written: where the rest of it stood there already.
#[test]
fn first_header_live_the_new_log_as_soon_as_its_header_is_whole() {
    let left = cuts_of_set_up(&mut Model::new(), &forged(3, 0, 2, false)).expect("set up");
    let new = left.iter().filter(|left| left.found == Found::New).count();
    assert_eq!((new, left.len()), (5, 17));
}

/// The smallest medium on which a cut during set-up leaves a log that never was.
#[test]
fn the_smallest_mixture() {
    let medium = with_first_header(2, header(0, 1, 2), 256, 1);
    assert!(matches!(open(&medium), Err(Refusal::BadChecksum { second: false, .. })));
    let mixture = Found::Mixture(Numbers { head: 0, tail: 1, capacity: 1 });
    for left in cuts_of_set_up(&mut Model::new(), &medium).expect("set up") {
        let Cut { done, pieces } = &left.cut;
        // The size stood there already, so its piece makes no difference.
        let expected = match (done, &pieces[..]) {
            (0, [2] | [2, 4]) => mixture,
            (0, [1, 2, 3] | [1, 2, 3, 4]) | (1, _) => Found::New,
            _ => Found::Damaged,
        };
        assert_eq!(left.found, expected, "{:?}", left.cut);
    }
}

#[test]
fn too_short_writes_nothing() {
    for length in 0..=72 {
        let mut medium = vec![0xa5; length];
        let mut steps: Vec<Step> = vec![];
        let answer = Model::new().setup_steps(&mut medium, &mut steps);
        assert_eq!(answer, Err(Refusal::TooShort { required: 73 }));
        assert!(steps.is_empty() && medium == vec![0xa5; length]);
    }
}
