//! What a cut during set-up leaves, by what stood on the medium before. A subject sets media up; each row of the table is
//! tried on every shape of a log on rings of 1 to 12 bytes.

use crate::cases::{background, forged, shapes, Start};
use crate::device::{cuts_in_order, writes, Cut};
use crate::format::{header, number_at, selector, FIRST_HEADER_AT, HEADER_LENGTH, RING_AT, SELECTOR_AT};
use crate::log::{Numbers, Refusal};
use crate::subject::Subject;
use std::fmt;

/// What opens after a cut.
#[derive(Clone, Copy, Debug, PartialEq, Eq)]
pub enum Found {
    Old,
    New,
    Damaged,
    /// A log that is neither the old nor the new one.
    Mixture(Numbers),
}

/// How often each was found.
#[derive(Clone, Copy, Debug, Default, PartialEq, Eq)]
pub struct Row {
    pub old: u64,
    pub new: u64,
    pub damaged: u64,
    pub mixtures: u64,
}

/// A cut of set-up: which one, the first header that it leaves, and what opens.
pub struct Left {
    pub cut: Cut,
    pub header: Vec<u8>,
    pub found: Found,
}

impl Left {
    pub fn selector_written(&self) -> bool {
        self.cut.done == 1
    }
}

/// "a log, second header live": "the old log until the selector is switched, then the new one".
pub fn second_header_live<S: Subject>(subject: &mut S) -> Result<Row, String> {
    row(subject, logs(true), |_, left| if left.selector_written() { Found::New } else { Found::Old })
}

/// "a log, first header live": "the old log, damaged, or the new one as soon as its header is whole". A torn header that
/// is neither differs from one of the two in one piece, and the checksum sees that.
pub fn first_header_live<S: Subject>(subject: &mut S) -> Result<Row, String> {
    row(subject, logs(false), |before, left| {
        if left.header == first_header(before) {
            Found::Old
        } else if left.header == fresh_header(before) {
            Found::New
        } else {
            Found::Damaged
        }
    })
}

/// "neither selector value": "damaged until the selector, then the new log".
pub fn neither_selector<S: Subject>(subject: &mut S) -> Result<Row, String> {
    let spoiled = logs(true).chain(logs(false)).map(|mut medium| {
        medium[SELECTOR_AT] ^= 1;
        medium
    });
    let media = (1..=12).map(background).chain(spoiled);
    row(subject, media, |_, left| if left.selector_written() { Found::New } else { Found::Damaged })
}

/// "first selector, header damaged": "damaged, the new log, or a log whose header is a mixture". One field of a good header
/// is changed, so a mixture is that good header again: the cut wrote just that field back.
pub fn first_header_damaged<S: Subject>(subject: &mut S) -> Result<Row, String> {
    row(subject, damaged_logs(), |before, left| {
        if left.header == fresh_header(before) {
            Found::New
        } else {
            mixture(&left.header).map_or(Found::Damaged, Found::Mixture)
        }
    })
}

/// Tries set-up on each medium; each cut must leave what is expected.
fn row<S: Subject>(
    subject: &mut S,
    media: impl Iterator<Item = Vec<u8>>,
    expected: impl Fn(&[u8], &Left) -> Found,
) -> Result<Row, String> {
    let mut row = Row::default();
    for medium in media {
        for left in cuts_of_set_up(subject, &medium)? {
            if left.found != expected(&medium, &left) {
                return Err(format!("{:?} leaves {:?} on the medium {:?}", left.cut, left.found, medium));
            }
            row.count(left.found);
        }
    }
    Ok(row)
}

/// Every cut of set-up on a medium.
pub fn cuts_of_set_up<S: Subject>(subject: &mut S, medium: &[u8]) -> Result<Vec<Left>, String> {
    let (mut whole, mut steps) = (medium.to_vec(), vec![]);
    subject.setup_steps(&mut whole, &mut steps).map_err(|refusal| format!("set-up: {:?}", refusal))?;
    let places: Vec<usize> = writes(&steps).map(|write| write.at).collect();
    if places != [FIRST_HEADER_AT, SELECTOR_AT] {
        return Err(format!("set-up writes at {:?}", places));
    }
    let old = numbers(subject, medium);
    let new = numbers(subject, &whole);
    let mut found = vec![];
    cuts_in_order(medium, &steps, |left, cut| {
        let opened = classified(numbers(subject, left), old, new)?;
        found.push(Left { cut: cut(), header: first_header(left).to_vec(), found: opened });
        Ok(())
    })
    .map(|()| found)
}

fn numbers<S: Subject>(subject: &mut S, medium: &[u8]) -> Result<Numbers, Refusal> {
    let handle = subject.open(medium)?;
    subject.ask(medium, &handle)
}

fn classified(
    opened: Result<Numbers, Refusal>,
    old: Result<Numbers, Refusal>,
    new: Result<Numbers, Refusal>,
) -> Result<Found, String> {
    match opened {
        Ok(_) if opened == old => Ok(Found::Old),
        Ok(_) if opened == new => Ok(Found::New),
        Ok(numbers) => Ok(Found::Mixture(numbers)),
        Err(Refusal::BadSelector { .. } | Refusal::BadChecksum { .. } | Refusal::Damaged) => Ok(Found::Damaged),
        Err(refusal) => Err(format!("set-up keeps the size, but {:?}", refusal)),
    }
}

/// Every shape with this header live, but for the empty log at position 0: there old and new are the same.
fn logs(second: bool) -> impl Iterator<Item = Vec<u8>> {
    let starts = (1..=12).flat_map(|ring| shapes(ring).into_iter().map(move |start| (ring, start)));
    starts.filter_map(move |(ring, start)| match start {
        Start::At { head, tail, second: live } if live == second && tail > 0 => Some(forged(ring, head, tail, second)),
        _ => None,
    })
}

/// Media whose selector names the first header, which is that of a log but for its head or its tail.
fn damaged_logs() -> impl Iterator<Item = Vec<u8>> {
    let logs = (1..=4u64).flat_map(|ring| (0..ring).map(move |tail| (ring, tail)));
    logs.flat_map(|(ring, tail)| {
        [[256, tail], [1 << 40, tail], [0, tail + 256], [0, u64::MAX]]
            .into_iter()
            .map(move |[head, wrong_tail]| with_first_header(ring, header(0, tail, ring), head, wrong_tail))
    })
}

/// A medium whose selector names the first header: that of `good`, with these positions in it.
pub fn with_first_header(ring: u64, good: [u8; HEADER_LENGTH], head: u64, tail: u64) -> Vec<u8> {
    let mut medium = background(ring);
    medium[SELECTOR_AT..][..8].copy_from_slice(&selector(false).to_le_bytes());
    medium[FIRST_HEADER_AT..][..HEADER_LENGTH].copy_from_slice(&good);
    medium[FIRST_HEADER_AT + 8..][..8].copy_from_slice(&head.to_le_bytes());
    medium[FIRST_HEADER_AT + 16..][..8].copy_from_slice(&tail.to_le_bytes());
    medium
}

fn first_header(medium: &[u8]) -> &[u8] {
    &medium[FIRST_HEADER_AT..][..HEADER_LENGTH]
}

fn fresh_header(medium: &[u8]) -> [u8; HEADER_LENGTH] {
    header(0, 0, (medium.len() - RING_AT) as u64)
}

/// The numbers in a header, if its checksum is right.
fn mixture(bytes: &[u8]) -> Option<Numbers> {
    let number = |at| number_at(bytes, at);
    let (head, tail, size) = (number(8), number(16), number(24));
    (header(head, tail, size) == bytes).then(|| Numbers { head, tail, capacity: size - 1 })
}

impl Row {
    fn count(&mut self, found: Found) {
        match found {
            Found::Old => self.old += 1,
            Found::New => self.new += 1,
            Found::Damaged => self.damaged += 1,
            Found::Mixture(_) => self.mixtures += 1,
        }
    }
}

impl fmt::Display for Row {
    fn fmt(&self, out: &mut fmt::Formatter) -> fmt::Result {
        let Row { old, new, damaged, mixtures } = self;
        write!(out, "{} old, {} new, {} damaged, {} mixtures", old, new, damaged, mixtures)
    }
}
