//! What a cut leaves: the two enumerations against each other and against counts made by hand.

use model::device::{cuts_in_any_order, cuts_in_order, Cut, Step, Write};
use std::collections::BTreeSet;

type Left = BTreeSet<Vec<u8>>;

fn put(at: usize, bytes: &[u8]) -> Step {
    Step::Put(Write { at, bytes: bytes.to_vec() })
}

fn in_order(medium: &[u8], steps: &[Step]) -> Left {
    let mut left = Left::new();
    let end: Result<(), ()> = cuts_in_order(medium, steps, |cut, _| {
        left.insert(cut.to_vec());
        Ok(())
    });
    assert!(end.is_ok());
    left
}

fn in_any_order(medium: &[u8], steps: &[Step]) -> Left {
    let mut left = Left::new();
    let end: Result<(), ()> = cuts_in_any_order(medium, &[], steps, |cut, _| {
        left.insert(cut.to_vec());
        Ok(())
    });
    assert!(end.is_ok());
    left
}

#[test]
fn a_write_is_torn_at_multiples_of_8() {
    let left = in_order(&[0; 20], &[put(6, &[1; 12])]);
    let pieces = |first: u8, second: u8, third: u8| {
        let piece = |i: usize| {
            if i < 8 {
                first
            } else if i < 16 {
                second
            } else {
                third
            }
        };
        (0..20).map(|i| if (6..18).contains(&i) { piece(i) } else { 0 }).collect::<Vec<u8>>()
    };
    let expected: Left = (0..8).map(|set: u8| pieces(set & 1, set >> 1 & 1, set >> 2)).collect();
    assert_eq!(left, expected);
}

#[test]
fn earlier_writes_are_there_and_later_ones_are_not() {
    let left = in_order(&[0; 8], &[put(0, &[1]), put(1, &[1]), put(2, &[1])]);
    let expected = [[0, 0, 0], [1, 0, 0], [1, 1, 0], [1, 1, 1]];
    assert_eq!(left, expected.iter().map(|start| [&start[..], &[0; 5]].concat()).collect());
}

#[test]
fn an_empty_write_and_no_write_leave_the_medium() {
    let medium = [7; 9];
    let alone: Left = [medium.to_vec()].into_iter().collect();
    assert_eq!(in_order(&medium, &[]), alone);
    assert_eq!(in_order(&medium, &[put(9, &[])]), alone);
    assert_eq!(in_any_order(&medium, &[put(9, &[]), Step::Flush]), alone);
}

#[test]
fn each_cut_is_visited_once_with_its_name() {
    let mut cuts = Vec::new();
    let end: Result<(), ()> = cuts_in_order(&[0; 24], &[put(0, &[1; 16]), put(16, &[1; 8])], |_, cut| {
        cuts.push(cut());
        Ok(())
    });
    assert!(end.is_ok());
    let cut = |done, pieces: &[usize]| Cut { done, pieces: pieces.to_vec() };
    assert_eq!(cuts, [cut(0, &[]), cut(0, &[0]), cut(0, &[1]), cut(0, &[0, 1]), cut(1, &[2])]);
}

#[test]
fn with_a_flush_after_each_write_any_order_is_in_order() {
    let writes = [put(6, &[1; 12]), put(3, &[2; 4]), put(0, &[3; 20]), put(9, &[]), put(8, &[4; 8])];
    for used in 0..=writes.len() {
        let flushed: Vec<Step> = writes[..used].iter().flat_map(|write| [write.clone(), Step::Flush]).collect();
        assert_eq!(in_any_order(&[0; 20], &flushed), in_order(&[0; 20], &writes[..used]));
    }
}

#[test]
fn without_flushes_pieces_of_all_writes_mix() {
    assert_eq!(in_any_order(&[0; 24], &[put(0, &[1; 16]), put(16, &[1; 8])]).len(), 8);
    assert_eq!(in_any_order(&[0; 24], &[put(0, &[1; 16]), Step::Flush, put(16, &[1; 8])]).len(), 5);
}

/// Two writes to one piece: neither, one, the other, or both, in either order.
#[test]
fn without_flushes_overlapping_writes_come_in_any_order() {
    let left = in_any_order(&[0; 8], &[put(0, &[1, 1]), put(1, &[2, 2])]);
    let expected = [[0, 0, 0], [1, 1, 0], [0, 2, 2], [1, 2, 2], [1, 1, 2]];
    assert_eq!(left, expected.iter().map(|start| [&start[..], &[0; 5]].concat()).collect());
}
