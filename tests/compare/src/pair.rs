//! The oracle and a subject side by side: every answer, every write, every byte of the medium.

use crate::oracle::Oracle;
use model::cases::{background, bytes_from, forged, shape_changes, shape_reads, Action, Case, Resolved, Start};
use model::device::{cuts_in_order, writes, Step, Write};
use model::log::{Numbers, Refusal};
use model::subject::{Call, Subject};
use model::walk::{each_continuation, each_shape, sequences, Driver, Failure};
use oracle::logimpl_v::UntrustedLogImpl;

/// Both logs in the course of a case.
#[derive(Clone)]
pub struct State<H> {
    pub numbers: Numbers,
    oracle: Side<UntrustedLogImpl>,
    subject: Side<H>,
}

#[derive(Clone)]
struct Side<H> {
    medium: Vec<u8>,
    handle: H,
}

/// A refused append whose rooms differ as they may: the source names one by 2^64, document 01 the smaller.
#[derive(Clone, Debug)]
pub struct RoomRule {
    pub case: Case,
    pub length: u64,
    pub named: u64,
    pub smaller: u64,
}

#[derive(Clone, Debug, Default)]
pub struct Counts {
    pub operations: u64,
    pub cuts: u64,
    pub rooms: u64,
    pub smallest_room: Option<RoomRule>,
    /// Operations whose writes are not the source's, where they need not be.
    pub other_writes: u64,
}

impl Counts {
    /// Counts an allowed difference, and keeps the smallest.
    fn allow(&mut self, found: RoomRule) {
        let measure = |rule: &RoomRule| (rule.case.operations.len(), rule.case.ring, rule.length);
        self.rooms += 1;
        match &self.smallest_room {
            Some(smallest) if measure(smallest) <= measure(&found) => {}
            _ => self.smallest_room = Some(found),
        }
    }
}

pub struct Pair<'a, S: Subject> {
    pub oracle: Oracle,
    pub subject: &'a mut S,
    pub counts: Counts,
    /// Whether both also open every medium that a cut leaves.
    pub cuts: bool,
    /// Whether the subject must make the source's writes, one by one. Otherwise only the bytes that they leave count.
    pub same_writes: bool,
}

impl<'a, S: Subject> Pair<'a, S> {
    pub fn new(subject: &'a mut S) -> Self {
        Pair { oracle: Oracle::new(), subject, counts: Counts::default(), cuts: false, same_writes: true }
    }

    pub fn sequences(&mut self, rings: &[u64], longest: usize) -> Result<(), Failure> {
        sequences(self, rings, longest)
    }

    /// One operation on every shape of a log.
    pub fn shapes(&mut self, rings: &[u64]) -> Result<(), Failure> {
        each_shape(self, rings, |pair, state, case| {
            let Numbers { head, tail, .. } = state.numbers;
            let mut actions = shape_changes(case.ring, head, tail);
            actions.extend(shape_reads(head, tail));
            actions.push(Action::Reopen);
            each_continuation(pair, state, &actions, 1, case)
        })
    }

    /// One case.
    pub fn case(&mut self, case: &Case) -> Result<(), String> {
        let mut state = self.begin(case)?;
        for operation in &case.operations {
            if operation.cut.is_some() {
                return Err(format!("{}: cuts are for tests/model", operation));
            }
            state = self.operate(&state, operation.action, case, true)?;
        }
        Ok(())
    }

    /// Both set up the same medium. Answers what each left.
    pub fn set_up(&mut self, medium: Vec<u8>) -> Result<(Vec<u8>, Vec<u8>), String> {
        let (mut left, mut right) = (medium.clone(), medium);
        let (mut oracle_steps, mut subject_steps) = (vec![], vec![]);
        let answers = (
            self.oracle.setup_steps(&mut left, &mut oracle_steps),
            self.subject.setup_steps(&mut right, &mut subject_steps),
        );
        same("answers", &answers.0, &answers.1)?;
        self.compare_writes(&oracle_steps, &subject_steps)?;
        same("media", &left, &right)?;
        Ok((left, right))
    }

    /// Carries an action out on both sides and compares. Answers the source's steps.
    fn perform(&mut self, state: &mut State<S::Handle>, action: Action, case: &Case) -> Result<Vec<Step>, String> {
        let (mut steps, mut other_steps) = (vec![], vec![]);
        let numbers = state.numbers;
        let State { oracle: left, subject: right, .. } = state;
        match action.resolve(numbers.head, numbers.tail) {
            Resolved::Append(length) => {
                let bytes = bytes_from(numbers.capacity + 1, numbers.tail, length);
                let answer = self.oracle.append_steps(&mut left.medium, &mut left.handle, &bytes, &mut steps);
                let other = self.subject.append_steps(&mut right.medium, &mut right.handle, &bytes, &mut other_steps);
                self.same_but_for_rooms(answer, other, numbers, length, case)?;
            }
            Resolved::Advance(to) => {
                let answer = self.oracle.advance_steps(&mut left.medium, &mut left.handle, to, &mut steps);
                let other = self.subject.advance_steps(&mut right.medium, &mut right.handle, to, &mut other_steps);
                same("answers", &answer, &other)?;
            }
            Resolved::Read(position, length) => {
                let answer = self.oracle.read(&left.medium, &left.handle, position, length);
                let other = self.subject.read(&right.medium, &right.handle, position, length);
                same("answers", &answer, &other)?;
            }
            Resolved::Reopen => self.reopen(state)?,
        }
        self.compare_writes(&steps, &other_steps)?;
        Ok(steps)
    }

    fn compare_writes(&mut self, oracle: &[Step], subject: &[Step]) -> Result<(), String> {
        let (oracle, subject) = (nonempty(oracle), nonempty(subject));
        if self.same_writes {
            return same("writes", &oracle, &subject);
        }
        self.counts.other_writes += u64::from(oracle != subject);
        Ok(())
    }

    /// Each opens the medium that the other wrote.
    fn reopen(&mut self, state: &mut State<S::Handle>) -> Result<(), String> {
        let State { oracle: left, subject: right, .. } = state;
        std::mem::swap(&mut left.medium, &mut right.medium);
        let (answer, other) = (self.oracle.open(&left.medium), self.subject.open(&right.medium));
        left.handle = answer.map_err(|refusal| format!("the oracle reopens as {:?}", refusal))?;
        right.handle = other.map_err(|refusal| format!("the subject reopens as {:?}", refusal))?;
        Ok(())
    }

    /// The numbers that both answer, and all bytes.
    fn same_state(&mut self, state: &mut State<S::Handle>) -> Result<(), String> {
        let State { oracle: left, subject: right, .. } = &*state;
        let numbers = self.oracle.ask(&left.medium, &left.handle);
        same("numbers", &numbers, &self.subject.ask(&right.medium, &right.handle))?;
        same("media", &left.medium, &right.medium)?;
        state.numbers = numbers.map_err(|refusal| format!("asked: {:?}", refusal))?;
        Ok(())
    }

    /// The one difference that document 01 asks for, and then it must be there: where positions and ring both lack room and
    /// the source names the room by positions, the smaller room.
    fn same_but_for_rooms(
        &mut self,
        answer: Result<u64, Refusal>,
        other: Result<u64, Refusal>,
        numbers: Numbers,
        length: u64,
        case: &Case,
    ) -> Result<(), String> {
        let by_positions = u64::MAX - numbers.tail;
        let by_ring = numbers.capacity - (numbers.tail - numbers.head);
        if length <= by_positions || by_positions <= by_ring {
            return same("answers", &answer, &other);
        }
        same("answers", &answer, &Err(Refusal::NoRoom { room: by_positions }))?;
        if other != Err(Refusal::NoRoom { room: by_ring }) {
            return Err(format!("the subject answers {:?}, but the smaller room is {}", other, by_ring));
        }
        self.counts.allow(RoomRule { case: case.clone(), length, named: by_positions, smaller: by_ring });
        Ok(())
    }

    /// Both open every medium that a cut of these steps leaves, and find the same.
    fn same_after_cuts(&mut self, medium: &[u8], steps: &[Step]) -> Result<(), String> {
        cuts_in_order(medium, steps, |left, cut| {
            self.counts.cuts += 1;
            let found = shown(&mut self.oracle, left);
            same("opened", &found, &shown(self.subject, left)).map_err(|what| format!("{:?}: {}", cut(), what))
        })
    }
}

impl<S: Subject> Driver for Pair<'_, S> {
    type State = State<S::Handle>;

    fn begin(&mut self, case: &Case) -> Result<Self::State, String> {
        let (medium, other) = match case.start {
            Start::SetUp => self.set_up(background(case.ring))?,
            Start::At { head, tail, second } => {
                let medium = forged(case.ring, head, tail, second);
                (medium.clone(), medium)
            }
        };
        let handle = self.oracle.open(&medium).map_err(|refusal| format!("the oracle opens as {:?}", refusal))?;
        let other_handle =
            self.subject.open(&other).map_err(|refusal| format!("the subject opens as {:?}", refusal))?;
        let numbers = Numbers { head: handle.head, tail: handle.tail, capacity: case.ring - 1 };
        let mut state =
            State { numbers, oracle: Side { medium, handle }, subject: Side { medium: other, handle: other_handle } };
        self.same_state(&mut state)?;
        Ok(state)
    }

    fn operate(&mut self, state: &Self::State, action: Action, case: &Case, end: bool) -> Result<Self::State, String> {
        let mut next = state.clone();
        let steps = self.perform(&mut next, action, case)?;
        self.same_state(&mut next)?;
        if end {
            self.counts.operations += 1;
        }
        if end && self.cuts {
            self.same_after_cuts(&state.oracle.medium, &steps)?;
        }
        Ok(next)
    }

    fn announce(&mut self, state: &Self::State, actions: &[Action]) {
        let Numbers { head, tail, capacity } = state.numbers;
        // What cuts leave is opened in between.
        if self.cuts {
            return;
        }
        for action in actions {
            let call = match action.resolve(head, tail) {
                Resolved::Append(length) => Call::Append(bytes_from(capacity + 1, tail, length)),
                Resolved::Advance(to) => Call::Advance(to),
                Resolved::Read(position, length) => Call::Read(position, length),
                Resolved::Reopen => Call::Open,
            };
            self.subject.announce(&state.subject.medium, Some(&state.subject.handle), call);
        }
    }
}

/// What a log shows of a medium: its numbers and its bytes, or that it is damaged.
fn shown<S: Subject>(subject: &mut S, medium: &[u8]) -> Result<(Numbers, Vec<u8>), Refusal> {
    let handle = subject.open(medium).map_err(in_one_word)?;
    let numbers = subject.ask(medium, &handle)?;
    let length = numbers.tail - numbers.head;
    Ok((numbers, subject.read(medium, &handle, numbers.head, length)?))
}

/// Upstream's word for both kinds of damage.
pub fn in_one_word(refusal: Refusal) -> Refusal {
    match refusal {
        Refusal::BadSelector { .. } | Refusal::BadChecksum { .. } => Refusal::Damaged,
        other => other,
    }
}

/// The source also makes writes of no bytes; they change nothing, and document 01 does not ask for them.
fn nonempty(steps: &[Step]) -> Vec<&Write> {
    writes(steps).filter(|write| !write.bytes.is_empty()).collect()
}

fn same<T: PartialEq + std::fmt::Debug>(what: &str, oracle: &T, subject: &T) -> Result<(), String> {
    if oracle == subject {
        Ok(())
    } else {
        Err(format!("{} differ: the oracle's {:?}, the subject's {:?}", what, oracle, subject))
    }
}
