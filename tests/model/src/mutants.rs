//! Wrong logs, made from the model by one change each. The comparison must catch every one, and the cut test all that
//! break the log.

use crate::device::{Step, Write};
use crate::format::{header, header_at, number_at, place, HEADER_LENGTH, SECOND, SELECTOR_AT};
use crate::log::{
    ask, commit_writes, data_writes, open, plan_advance, plan_append, read, Handle, Numbers, Plan, Refusal,
};
use crate::subject::{Model, Subject};

#[derive(Clone, Copy, Debug, PartialEq, Eq)]
pub enum Mutant {
    /// Switches the selector before the header is whole.
    SelectorFirst,
    /// Writes the live header in place.
    LiveHeaderInPlace,
    /// Appends up to size bytes, so that full and empty look alike.
    AppendOfAllSize,
    /// After reopening reports a tail past what was committed: that of the other header, where it is whole. A single cut
    /// does not show it, since the bytes are there; a cut of the next operation, which writes that header, does.
    TailPastCommitted,
    /// Keeps a running position modulo size.
    PositionModuloSize,
    /// Writes the appended bytes when the selector is switched already.
    BytesLast,
    // From here on wrong without any cut.
    /// Writes the last byte of the ring although the append is refused.
    RefusalWrites,
    /// Writes the last byte of the ring beside what the append's steps say.
    ByteBesideSteps,
    /// Names the tail and 1 where an advance is refused.
    OtherNumber,
    /// Reads the last byte one off where the read goes on at the ring's start.
    ReadOffAtWrap,
    /// Answers an empty append without writing anything.
    EmptyAppendWritesNothing,
}

impl Mutant {
    pub const ALL: [Mutant; 11] = [
        Mutant::SelectorFirst,
        Mutant::LiveHeaderInPlace,
        Mutant::AppendOfAllSize,
        Mutant::TailPastCommitted,
        Mutant::PositionModuloSize,
        Mutant::BytesLast,
        Mutant::RefusalWrites,
        Mutant::ByteBesideSteps,
        Mutant::OtherNumber,
        Mutant::ReadOffAtWrap,
        Mutant::EmptyAppendWritesNothing,
    ];

    /// The last one is a right log, with other bytes on its medium than the source's.
    pub fn breaks_the_log(self) -> bool {
        self != Mutant::EmptyAppendWritesNothing
    }

    pub fn named(name: &str) -> Option<Mutant> {
        Mutant::ALL.into_iter().find(|mutant| format!("{:?}", mutant) == name)
    }

    /// The plan that the mutant makes of the right one.
    fn spoil(self, before: Handle, plan: Plan) -> Plan {
        let Plan { mut writes, handle } = plan;
        match self {
            Mutant::SelectorFirst => {
                writes.rotate_right(1);
                Plan { writes, handle }
            }
            Mutant::LiveHeaderInPlace => {
                let data = writes.len() - 2;
                writes.truncate(data);
                let bytes = header(handle.head, handle.tail, handle.size).to_vec();
                writes.push(Write { at: header_at(before.second), bytes });
                Plan { writes, handle: Handle { second: before.second, ..handle } }
            }
            Mutant::PositionModuloSize => {
                let data = writes.len() - 2;
                writes.truncate(data);
                let handle = Handle { tail: handle.tail % handle.size, ..handle };
                writes.extend(commit_writes(handle));
                Plan { writes, handle }
            }
            Mutant::BytesLast => {
                writes.rotate_right(2);
                Plan { writes, handle }
            }
            _ => Plan { writes, handle },
        }
    }

    fn plan_append(self, handle: Handle, bytes: &[u8], length: usize) -> Result<Plan, Refusal> {
        let tail = handle.tail.checked_add(bytes.len() as u64);
        match (self, tail) {
            (Mutant::AppendOfAllSize, Some(tail)) if tail - handle.head == handle.size => {
                let next = Handle { second: !handle.second, tail, ..handle };
                let mut writes = data_writes(handle, bytes);
                writes.extend(commit_writes(next));
                Ok(Plan { writes, handle: next })
            }
            _ => plan_append(handle, bytes, length),
        }
    }
}

/// The further of the two headers' tails, if the header that is not live has a right checksum and these numbers fit.
fn further_tail(medium: &[u8], live: Handle) -> u64 {
    let other = &medium[header_at(!live.second)..][..HEADER_LENGTH];
    let tail = number_at(other, 16);
    let whole = header(number_at(other, 8), tail, number_at(other, 24)) == other;
    let further = Handle { tail, ..live };
    if whole && tail > live.tail && further.possible(medium.len()) {
        tail
    } else {
        live.tail
    }
}

impl Subject for Mutant {
    type Handle = Handle;

    fn setup_steps(&mut self, medium: &mut [u8], steps: &mut Vec<Step>) -> Result<u64, Refusal> {
        Model::new().setup_steps(medium, steps)
    }

    fn open(&mut self, medium: &[u8]) -> Result<Handle, Refusal> {
        match (*self, open(medium)) {
            (Mutant::TailPastCommitted, Ok(handle)) => Ok(Handle { tail: further_tail(medium, handle), ..handle }),
            (Mutant::AppendOfAllSize, Err(Refusal::TooFull { head, tail, size })) if tail - head == size => {
                Ok(Handle { second: number_at(medium, SELECTOR_AT) == SECOND, head, tail, size })
            }
            (_, answer) => answer,
        }
    }

    fn append_steps(
        &mut self,
        medium: &mut [u8],
        handle: &mut Handle,
        bytes: &[u8],
        steps: &mut Vec<Step>,
    ) -> Result<u64, Refusal> {
        let position = handle.tail;
        if *self == Mutant::EmptyAppendWritesNothing && bytes.is_empty() {
            return Ok(position);
        }
        let plan = self.plan_append(*handle, bytes, medium.len());
        if *self == Mutant::ByteBesideSteps || *self == Mutant::RefusalWrites && plan.is_err() {
            *medium.last_mut().expect("a medium") ^= 1;
        }
        Model::new().carry_out(self.spoil(*handle, plan?), medium, handle, steps);
        Ok(position)
    }

    fn advance_steps(
        &mut self,
        medium: &mut [u8],
        handle: &mut Handle,
        to: u64,
        steps: &mut Vec<Step>,
    ) -> Result<(), Refusal> {
        match plan_advance(*handle, to, medium.len()) {
            Err(Refusal::BeyondTail { tail }) if *self == Mutant::OtherNumber => {
                return Err(Refusal::BeyondTail { tail: tail + 1 });
            }
            plan => Model::new().carry_out(self.spoil(*handle, plan?), medium, handle, steps),
        }
        Ok(())
    }

    fn read(&mut self, medium: &[u8], handle: &Handle, position: u64, length: u64) -> Result<Vec<u8>, Refusal> {
        let alike = place(handle.size, handle.head) == place(handle.size, handle.tail);
        if *self == Mutant::AppendOfAllSize && alike {
            return Ok(vec![]);
        }
        let mut bytes = read(*handle, medium, position, length)?;
        let passes_the_end = position % handle.size + length > handle.size;
        if *self == Mutant::ReadOffAtWrap && passes_the_end {
            *bytes.last_mut().expect("more than none") = medium[place(handle.size, position + length)];
        }
        Ok(bytes)
    }

    fn ask(&mut self, medium: &[u8], handle: &Handle) -> Result<Numbers, Refusal> {
        if *self == Mutant::AppendOfAllSize {
            return Ok(Numbers { head: handle.head, tail: handle.tail, capacity: handle.size - 1 });
        }
        ask(*handle, medium.len())
    }
}
