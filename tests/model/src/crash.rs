//! Every cut: a log is driven through cases, each operation is cut wherever it can be, and what is left is opened again by
//! the same log. It must show the log before the operation or the one after it.

use crate::cases::{
    background, bytes_from, forged, forged_log, sequence_actions, shape_changes, Action, Case, Operation, Resolved,
    Start,
};
use crate::device::{cuts_in_any_order, cuts_in_order, writes, Cut, Step, Write, PIECE};
use crate::meaning::Log;
use crate::subject::Subject;
use crate::walk::{each_continuation, each_shape, sequences, Driver, Failure};

/// What the medium does with writes when the power goes.
#[derive(Clone, Copy, Debug, PartialEq, Eq)]
pub enum Medium {
    /// Document 01: all earlier writes are there.
    InOrder,
    /// Pieces of all writes since the last flush arrive or do not, in any order.
    AnyOrder,
}

#[derive(Clone, Copy, Debug, Default)]
pub struct Counts {
    pub operations: u64,
    pub cuts: u64,
}

/// A log in the course of a case.
#[derive(Clone)]
pub struct State<H> {
    medium: Vec<u8>,
    handle: H,
    /// What the log should be.
    log: Log,
    /// For `Medium::AnyOrder`: what has arrived for good, and the writes that have not.
    kept: Vec<u8>,
    pending: Vec<Write>,
}

impl<H> State<H> {
    fn changes(&self) -> Vec<Action> {
        shape_changes(self.log.capacity + 1, self.log.head, self.log.tail())
    }
}

/// Drives a subject and counts.
pub struct Tester<'a, S: Subject> {
    pub subject: &'a mut S,
    pub medium: Medium,
    pub counts: Counts,
}

impl<'a, S: Subject> Tester<'a, S> {
    pub fn new(subject: &'a mut S, medium: Medium) -> Self {
        Tester { subject, medium, counts: Counts::default() }
    }

    /// Every cut of the last operation of each sequence of up to `longest`.
    pub fn sequences(&mut self, rings: &[u64], longest: usize) -> Result<(), Failure> {
        sequences(self, rings, longest)
    }

    /// Every cut of one change on every shape of a log.
    pub fn shapes(&mut self, rings: &[u64]) -> Result<(), Failure> {
        each_shape(self, rings, |tester, state, case| each_continuation(tester, state, &state.changes(), 1, case))
    }

    /// One change on every shape, cut at every place, and then another, cut at every place.
    pub fn cut_twice(&mut self, rings: &[u64]) -> Result<(), Failure> {
        each_shape(self, rings, |tester, state, case| {
            for action in state.changes() {
                for (operation, left) in tester.all_cuts(state, action) {
                    case.operations.push(operation);
                    each_continuation(tester, &left, &sequence_actions(case.ring), 1, case)?;
                    case.operations.pop();
                }
            }
            Ok(())
        })
    }

    /// One case, with every cut of each of its operations that is not itself cut.
    pub fn case(&mut self, case: &Case) -> Result<(), String> {
        let mut state = self.begin(case)?;
        for operation in &case.operations {
            state = match &operation.cut {
                None => self.operate(&state, operation.action, case, true)?,
                Some(_) => self
                    .all_cuts(&state, operation.action)
                    .into_iter()
                    .find(|(found, _)| found == operation)
                    .map(|(_, left)| left)
                    .ok_or_else(|| format!("{}: there is no such cut", operation))?,
            };
        }
        Ok(())
    }

    /// Answers what is wrong with the subject's answer. The log that `next` should be goes by what the subject answered,
    /// so that cuts of a wrongly accepted operation are judged as well.
    fn perform(&mut self, next: &mut State<S::Handle>, action: Action, steps: &mut Vec<Step>) -> Result<(), String> {
        match action.resolve(next.log.head, next.log.tail()) {
            Resolved::Append(length) => {
                let bytes = bytes_from(next.log.capacity + 1, next.log.tail(), length);
                let answer = self.subject.append_steps(&mut next.medium, &mut next.handle, &bytes, steps);
                let expected = next.log.answer_to_append(length);
                if answer.is_ok() {
                    next.log = next.log.with(&bytes);
                }
                same(answer, expected)
            }
            Resolved::Advance(to) => {
                let answer = self.subject.advance_steps(&mut next.medium, &mut next.handle, to, steps);
                let expected = next.log.answer_to_advance(to);
                if answer.is_ok() && expected.is_ok() {
                    next.log = next.log.from(to);
                }
                same(answer, expected)
            }
            Resolved::Read(position, length) => {
                let answer = self.subject.read(&next.medium, &next.handle, position, length);
                same(answer, next.log.answer_to_read(position, length))
            }
            Resolved::Reopen => match self.subject.open(&next.medium) {
                Ok(handle) => {
                    next.handle = handle;
                    Ok(())
                }
                Err(refusal) => Err(format!("not reopened: {:?}", refusal)),
            },
        }
    }

    fn cuts_show_before_or_after(
        &mut self,
        state: &State<S::Handle>,
        after: &Log,
        steps: &[Step],
    ) -> Result<(), String> {
        let before = &state.log;
        let medium = self.medium;
        let visit = |left: &[u8], cut: &dyn Fn() -> Cut| {
            self.counts.cuts += 1;
            match self.opened(left) {
                Ok((_, log)) if log == *before || log == *after => Ok(()),
                other => Err(format!("{}, it opens as {:?}", described(&cut()), other.map(|(_, log)| log))),
            }
        };
        match medium {
            Medium::InOrder => cuts_in_order(&state.medium, steps, visit),
            Medium::AnyOrder => cuts_in_any_order(&state.kept, &state.pending, steps, visit),
        }
    }

    /// Each cut of an action with the state that reopening then finds; those that find none are the affair of `operate`.
    fn all_cuts(&mut self, state: &State<S::Handle>, action: Action) -> Vec<(Operation, State<S::Handle>)> {
        let mut after = state.clone();
        let mut steps = vec![];
        // The answer is judged where the same operation is not cut.
        let _ = self.perform(&mut after, action, &mut steps);
        let mut found = vec![];
        let end: Result<(), ()> = cuts_in_order(&state.medium, &steps, |left, cut| {
            if let Ok((handle, log)) = self.opened(left) {
                let operation = Operation { action, cut: Some(cut()) };
                found.push((operation, State { medium: left.to_vec(), handle, log, kept: vec![], pending: vec![] }));
            }
            Ok(())
        });
        debug_assert!(end.is_ok());
        found
    }

    /// Opens a medium and reads all that it shows.
    fn opened(&mut self, medium: &[u8]) -> Result<(S::Handle, Log), String> {
        let handle = self.subject.open(medium).map_err(|refusal| format!("{:?}", refusal))?;
        let log = self.shown(medium, &handle)?;
        Ok((handle, log))
    }

    /// The log that a handle shows.
    fn shown(&mut self, medium: &[u8], handle: &S::Handle) -> Result<Log, String> {
        let numbers = self.subject.ask(medium, handle).map_err(|refusal| format!("asked: {:?}", refusal))?;
        let length = numbers.tail.checked_sub(numbers.head).ok_or_else(|| format!("{:?}", numbers))?;
        let bytes = self.subject.read(medium, handle, numbers.head, length);
        let bytes = bytes.map_err(|refusal| format!("{:?}, reading it: {:?}", numbers, refusal))?;
        if bytes.len() as u64 != length {
            return Err(format!("{:?}, reading it: {} bytes", numbers, bytes.len()));
        }
        Ok(Log { head: numbers.head, bytes, capacity: numbers.capacity })
    }

    /// The log through the handle, and the log through opening again.
    fn shows_its_log(&mut self, state: &State<S::Handle>) -> Result<(), String> {
        same(self.shown(&state.medium, &state.handle), Ok(state.log.clone()))?;
        same(self.opened(&state.medium).map(|(_, log)| log), Ok(state.log.clone()))
    }
}

impl<S: Subject> Driver for Tester<'_, S> {
    type State = State<S::Handle>;

    fn begin(&mut self, case: &Case) -> Result<Self::State, String> {
        let (medium, log) = match case.start {
            Start::SetUp => {
                let mut medium = background(case.ring);
                let capacity = self.subject.setup_steps(&mut medium, &mut vec![]);
                if capacity != Ok(case.ring - 1) {
                    return Err(format!("set-up answers {:?}", capacity));
                }
                (medium, forged_log(case.ring, 0, 0))
            }
            Start::At { head, tail, second } => {
                (forged(case.ring, head, tail, second), forged_log(case.ring, head, tail))
            }
        };
        let handle = self.subject.open(&medium).map_err(|refusal| format!("not opened: {:?}", refusal))?;
        let kept = if self.medium == Medium::AnyOrder { medium.clone() } else { vec![] };
        let state = State { medium, handle, log, kept, pending: vec![] };
        self.shows_its_log(&state)?;
        Ok(state)
    }

    /// At the end of a case tries all cuts of the action, and then its answer against what it should be.
    fn operate(&mut self, state: &Self::State, action: Action, _: &Case, end: bool) -> Result<Self::State, String> {
        let mut next = state.clone();
        let mut steps = vec![];
        let verdict = self.perform(&mut next, action, &mut steps);
        if end {
            self.counts.operations += 1;
            steps_make_the_medium(&state.medium, &steps, &next.medium)?;
            self.cuts_show_before_or_after(state, &next.log, &steps)?;
            verdict?;
            self.shows_its_log(&next)?;
        }
        if self.medium == Medium::AnyOrder {
            settle(&mut next, steps);
        }
        Ok(next)
    }
}

/// Nothing was written but what the subject says; so a refusal wrote nothing.
fn steps_make_the_medium(before: &[u8], steps: &[Step], after: &[u8]) -> Result<(), String> {
    let mut made = before.to_vec();
    writes(steps).for_each(|write| write.apply(&mut made));
    match (0..made.len()).find(|at| made[*at] != after[*at]) {
        None => Ok(()),
        Some(at) => Err(format!("the byte at {} is not what the steps make of it", at)),
    }
}

/// What has arrived for good after these steps, and what has not.
fn settle<H>(state: &mut State<H>, steps: Vec<Step>) {
    for step in steps {
        match step {
            Step::Put(write) => state.pending.push(write),
            Step::Flush => {
                state.pending.iter().for_each(|write| write.apply(&mut state.kept));
                state.pending.clear();
            }
        }
    }
}

fn same<T: PartialEq + std::fmt::Debug>(answer: T, expected: T) -> Result<(), String> {
    if answer == expected {
        Ok(())
    } else {
        Err(format!("answers {:?}, should answer {:?}", answer, expected))
    }
}

fn described(cut: &Cut) -> String {
    let places: Vec<String> = cut.pieces.iter().map(|piece| (piece * PIECE).to_string()).collect();
    format!("cut after {} whole writes with the pieces at [{}] of what follows", cut.done, places.join(", "))
}
