//! The parts of the comparison, for any subject, and what is printed of them.

use crate::pair::{Counts, Pair, RoomRule};
use crate::random::LARGEST_RING;
use model::report::Report;
use model::subject::Subject;
use model::walk::Failure;

pub const RINGS: [u64; 12] = [1, 2, 3, 4, 5, 6, 7, 8, 9, 10, 11, 12];

/// How much is tried of what, and how a subject is compared.
#[derive(Clone, Copy, Debug)]
pub struct Extent {
    /// The command that a failure names.
    pub command: &'static str,
    /// Whether the subject must make the source's writes, one by one.
    pub same_writes: bool,
    /// The longest sequences, and the longest whose cuts are opened.
    pub longest: usize,
    pub cut_longest: usize,
    /// Whether the cuts of one operation on every shape are opened.
    pub cut_shapes: bool,
    /// How many random sequences.
    pub random: u64,
}

impl Extent {
    pub fn all<S: Subject>(&self, subject: &mut S) {
        let mut report = Report::new();
        report.part("set-up on media of up to 4,168 bytes", || {
            self.pair(subject).set_ups(72 + LARGEST_RING as usize).map(|lengths| format!("{} lengths", lengths))
        });
        report.part("opening of any header", || self.pair(subject).openings().map(|media| format!("{} media", media)));
        report.part(&format!("rings of 1 to 12 bytes, sequences of up to {} operations", self.longest), || {
            self.tried(subject, false, |pair| pair.sequences(&RINGS, self.longest))
        });
        report
            .part(&format!("the same of up to {} operations, opening what every cut leaves", self.cut_longest), || {
                self.tried(subject, true, |pair| pair.sequences(&RINGS, self.cut_longest))
            });
        let cuts = if self.cut_shapes { ", opening what every cut leaves" } else { "" };
        report.part(&format!("every shape with one operation{}", cuts), || {
            self.tried(subject, self.cut_shapes, |pair| pair.shapes(&RINGS))
        });
        report.part(&format!("random sequences on rings of up to {} bytes", LARGEST_RING), || {
            let tried = self.tried(subject, false, |pair| pair.random(self.random));
            tried.map(|text| format!("{} sequences, {}", self.random, text))
        });
        report.end()
    }

    /// One case.
    pub fn one<S: Subject>(&self, subject: &mut S, text: &str) {
        let mut report = Report::new();
        report.part(text, || {
            let case = text.parse()?;
            let mut pair = self.pair(subject);
            pair.cuts = true;
            pair.case(&case)?;
            Ok(described(&pair.counts))
        });
        report.end()
    }

    fn pair<'a, S: Subject>(&self, subject: &'a mut S) -> Pair<'a, S> {
        let mut pair = Pair::new(subject);
        pair.same_writes = self.same_writes;
        pair
    }

    fn tried<S: Subject>(
        &self,
        subject: &mut S,
        cuts: bool,
        run: impl FnOnce(&mut Pair<S>) -> Result<(), Failure>,
    ) -> Result<String, String> {
        let mut pair = self.pair(subject);
        pair.cuts = cuts;
        match run(&mut pair) {
            Ok(()) => Ok(described(&pair.counts)),
            Err(Failure { case, what }) => {
                Err(format!("{}: {}\n      repeat: {} --case '{}'", case, what, self.command, case))
            }
        }
    }
}

fn described(counts: &Counts) -> String {
    let cuts = if counts.cuts > 0 { format!(", {} cuts", counts.cuts) } else { String::new() };
    let rooms = match &counts.smallest_room {
        Some(RoomRule { case, named, smaller, .. }) => {
            format!(", {} rooms by document 01's rule; smallest '{}': {}, not {}", counts.rooms, case, smaller, named)
        }
        None => String::new(),
    };
    let writes = match counts.other_writes {
        0 => String::new(),
        others => format!(", {} with other writes than the source's", others),
    };
    format!("{} operations{}{}{}", counts.operations, cuts, rooms, writes)
}
