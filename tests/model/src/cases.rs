//! Cases: where a log starts and what is done to it, as values, as text, and all of them in order.
//!
//! As text: `RING START OPERATION ..`, where START is `setup` or `at:HEAD:TAIL:first` (or `second`), and an operation is
//! `aN` append N bytes, `+N` advance by N, `t` advance to the tail, `vP` advance to position P, `R` read all,
//! `rP:N` read N bytes from P, `o` reopen. An operation with `!D` or `!D:P,..` after it is cut: D of its writes were done,
//! and of the next one the pieces P.

use crate::device::{Cut, Write};
use crate::format::{header, header_at, place, selector, RING_AT, SELECTOR_AT};
use crate::meaning::Log;
use std::fmt;
use std::str::FromStr;

#[derive(Clone, Copy, Debug, PartialEq, Eq)]
pub enum Start {
    SetUp,
    /// A log with these positions, on whichever header.
    At {
        head: u64,
        tail: u64,
        second: bool,
    },
}

#[derive(Clone, Copy, Debug, PartialEq, Eq)]
pub enum Action {
    Append(u64),
    AdvanceBy(u64),
    AdvanceToTail,
    AdvanceTo(u64),
    ReadAll,
    Read(u64, u64),
    Reopen,
}

#[derive(Clone, Debug, PartialEq, Eq)]
pub struct Operation {
    pub action: Action,
    pub cut: Option<Cut>,
}

#[derive(Clone, Debug, PartialEq, Eq)]
pub struct Case {
    pub ring: u64,
    pub start: Start,
    pub operations: Vec<Operation>,
}

/// An action with the numbers that it has in a log.
#[derive(Clone, Copy, Debug, PartialEq, Eq)]
pub enum Resolved {
    Append(u64),
    Advance(u64),
    Read(u64, u64),
    Reopen,
}

impl Action {
    pub fn uncut(self) -> Operation {
        Operation { action: self, cut: None }
    }

    /// Positions that pass 2^64 - 1 start again at 0, where an advance is refused.
    pub fn resolve(self, head: u64, tail: u64) -> Resolved {
        match self {
            Action::Append(length) => Resolved::Append(length),
            Action::AdvanceBy(distance) => Resolved::Advance(head.wrapping_add(distance)),
            Action::AdvanceToTail => Resolved::Advance(tail),
            Action::AdvanceTo(position) => Resolved::Advance(position),
            Action::ReadAll => Resolved::Read(head, tail - head),
            Action::Read(position, length) => Resolved::Read(position, length),
            Action::Reopen => Resolved::Reopen,
        }
    }
}

/// The byte that is appended at a position. On rings of up to 88 bytes it is unlike those of a ring's length before and
/// after it, so that an old byte is never like the new one at its place; on larger ones it looks random.
pub fn byte_of(ring: u64, position: u64) -> u8 {
    let mut mixed = position.wrapping_mul(0x9e37_79b9_7f4a_7c15);
    if ring > 88 {
        mixed = (mixed ^ mixed >> 29).wrapping_mul(0xbf58_476d_1ce4_e5b9);
    }
    (mixed >> 56) as u8
}

pub fn bytes_from(ring: u64, position: u64, length: u64) -> Vec<u8> {
    (0..length).map(|i| byte_of(ring, position.wrapping_add(i))).collect()
}

/// What a medium holds before anything is written to it: no selector, no header.
pub fn background(ring: u64) -> Vec<u8> {
    (0..RING_AT as u64 + ring).map(|i| (7 * i + 3) as u8).collect()
}

/// A medium with a log whose ring holds `byte_of` its positions. The other header is background.
pub fn forged(ring: u64, head: u64, tail: u64, second: bool) -> Vec<u8> {
    let mut medium = background(ring);
    (head..tail).for_each(|position| medium[place(ring, position)] = byte_of(ring, position));
    Write { at: header_at(second), bytes: header(head, tail, ring).to_vec() }.apply(&mut medium);
    Write { at: SELECTOR_AT, bytes: selector(second).to_le_bytes().to_vec() }.apply(&mut medium);
    medium
}

/// The log that is on such a medium.
pub fn forged_log(ring: u64, head: u64, tail: u64) -> Log {
    Log { head, bytes: bytes_from(ring, head, tail - head), capacity: ring - 1 }
}

/// The actions of which sequences are made.
pub fn sequence_actions(ring: u64) -> Vec<Action> {
    let mut actions: Vec<Action> = (0..=ring + 1).map(Action::Append).collect();
    actions.extend([
        Action::AdvanceBy(0),
        Action::AdvanceBy(1),
        Action::AdvanceToTail,
        Action::ReadAll,
        Action::Reopen,
    ]);
    actions
}

/// Every head modulo the ring, every number of kept bytes and both headers, with low positions, with positions about
/// 2^32 and 2^63, and with tails up to 2^64 - 1.
pub fn shapes(ring: u64) -> Vec<Start> {
    let mut shapes = Vec::new();
    for kept in 0..ring {
        let highest = u64::MAX - kept;
        let low = 0..2 * ring;
        let middle = (1 << 32)..(1 << 32) + ring;
        let high = (1 << 63) - 1..(1 << 63) - 1 + ring;
        let last = highest - 2 * ring..highest;
        for head in low.chain(middle).chain(high).chain(last).chain([highest]) {
            for second in [false, true] {
                shapes.push(Start::At { head, tail: head + kept, second });
            }
        }
    }
    shapes
}

/// The changes that are tried on each shape.
pub fn shape_changes(ring: u64, head: u64, tail: u64) -> Vec<Action> {
    let mut actions: Vec<Action> = (0..=ring + 2).map(Action::Append).collect();
    actions.extend(around(head, tail).map(Action::AdvanceTo));
    actions
}

/// The reads that are tried on each shape.
pub fn shape_reads(head: u64, tail: u64) -> Vec<Action> {
    let lengths = 0..=tail - head + 2;
    around(head, tail).flat_map(|position| lengths.clone().map(move |length| Action::Read(position, length))).collect()
}

/// Positions from before the head to beyond the tail, where there are such, and the two ends of all positions.
fn around(head: u64, tail: u64) -> impl Iterator<Item = u64> {
    (head.saturating_sub(2)..tail).chain([tail, tail.saturating_add(1), tail.saturating_add(2), 0, u64::MAX])
}

impl fmt::Display for Start {
    fn fmt(&self, out: &mut fmt::Formatter) -> fmt::Result {
        match self {
            Start::SetUp => write!(out, "setup"),
            Start::At { head, tail, second } => {
                write!(out, "at:{}:{}:{}", head, tail, if *second { "second" } else { "first" })
            }
        }
    }
}

impl fmt::Display for Operation {
    fn fmt(&self, out: &mut fmt::Formatter) -> fmt::Result {
        match self.action {
            Action::Append(length) => write!(out, "a{}", length)?,
            Action::AdvanceBy(distance) => write!(out, "+{}", distance)?,
            Action::AdvanceToTail => write!(out, "t")?,
            Action::AdvanceTo(position) => write!(out, "v{}", position)?,
            Action::ReadAll => write!(out, "R")?,
            Action::Read(position, length) => write!(out, "r{}:{}", position, length)?,
            Action::Reopen => write!(out, "o")?,
        }
        if let Some(cut) = &self.cut {
            let pieces: Vec<String> = cut.pieces.iter().map(usize::to_string).collect();
            write!(out, "!{}{}{}", cut.done, if pieces.is_empty() { "" } else { ":" }, pieces.join(","))?;
        }
        Ok(())
    }
}

impl fmt::Display for Case {
    fn fmt(&self, out: &mut fmt::Formatter) -> fmt::Result {
        write!(out, "{} {}", self.ring, self.start)?;
        self.operations.iter().try_for_each(|operation| write!(out, " {}", operation))
    }
}

fn number<T: FromStr>(text: &str) -> Result<T, String> {
    text.parse().map_err(|_| format!("'{}' is no number", text))
}

impl FromStr for Start {
    type Err = String;

    fn from_str(text: &str) -> Result<Start, String> {
        let fields: Vec<&str> = text.split(':').collect();
        match fields[..] {
            ["setup"] => Ok(Start::SetUp),
            ["at", head, tail, side @ ("first" | "second")] => {
                Ok(Start::At { head: number(head)?, tail: number(tail)?, second: side == "second" })
            }
            _ => Err(format!("'{}' is no start", text)),
        }
    }
}

impl FromStr for Cut {
    type Err = String;

    fn from_str(text: &str) -> Result<Cut, String> {
        let (done, pieces) = text.split_once(':').unwrap_or((text, ""));
        let pieces: Result<_, _> = pieces.split(',').filter(|piece| !piece.is_empty()).map(number).collect();
        Ok(Cut { done: number(done)?, pieces: pieces? })
    }
}

impl FromStr for Operation {
    type Err = String;

    fn from_str(text: &str) -> Result<Operation, String> {
        let (text, cut) = match text.split_once('!') {
            Some((text, cut)) => (text, Some(cut.parse()?)),
            None => (text, None),
        };
        let (letter, rest) = text.split_at(text.len().min(1));
        let action = match (letter, rest.split_once(':')) {
            ("a", None) => Action::Append(number(rest)?),
            ("+", None) => Action::AdvanceBy(number(rest)?),
            ("v", None) => Action::AdvanceTo(number(rest)?),
            ("r", Some((position, length))) => Action::Read(number(position)?, number(length)?),
            ("t", None) if rest.is_empty() => Action::AdvanceToTail,
            ("R", None) if rest.is_empty() => Action::ReadAll,
            ("o", None) if rest.is_empty() => Action::Reopen,
            _ => return Err(format!("'{}' is no operation", text)),
        };
        Ok(Operation { action, cut })
    }
}

impl FromStr for Case {
    type Err = String;

    fn from_str(text: &str) -> Result<Case, String> {
        let mut words = text.split_whitespace();
        let ring = number(words.next().ok_or("no ring")?)?;
        let start = words.next().ok_or("no start")?.parse()?;
        let operations: Result<_, _> = words.map(str::parse).collect();
        Ok(Case { ring, start, operations: operations? })
    }
}

#[cfg(test)]
mod tests {
    use super::*;

    #[test]
    fn text_and_back() {
        for text in ["3 setup", "12 at:5:9:second a0 +1 t v7 R r3:4 o", "2 setup a1!0 a1!1:5,7 o"] {
            assert_eq!(text.parse::<Case>().map(|case| case.to_string()), Ok(text.to_string()));
        }
        for text in ["", "3", "3 at:1:2", "3 setup x", "x setup", "3 setup a", "3 setup tt"] {
            assert!(text.parse::<Case>().is_err(), "{}", text);
        }
    }

    #[test]
    fn neighbouring_bytes_differ() {
        for position in 0..1000 {
            for distance in 1..=88 {
                assert_ne!(byte_of(88, position), byte_of(88, position + distance));
            }
        }
    }
}
