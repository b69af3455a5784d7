//! What the tests drive: a log of any making. The model is one; the source and the compiled archive are others.

use crate::device::{Step, Write};
use crate::log::{ask, open, plan_advance, plan_append, plan_setup, read, Handle, Numbers, Plan, Refusal};

/// A call of a log: what `Subject`'s functions get besides the medium and the handle.
#[derive(Clone, Debug, PartialEq, Eq)]
pub enum Call {
    Open,
    Append(Vec<u8>),
    Advance(u64),
    Read(u64, u64),
}

/// A log under test. An operation that writes carries its steps out on the medium and appends them to `steps`; it changes
/// the handle where it succeeds, and nothing at all where it refuses.
pub trait Subject {
    type Handle: Clone;

    /// Makes the medium an empty log. Answers the capacity.
    fn setup_steps(&mut self, medium: &mut [u8], steps: &mut Vec<Step>) -> Result<u64, Refusal>;

    fn open(&mut self, medium: &[u8]) -> Result<Self::Handle, Refusal>;

    /// Answers the position of the first byte.
    fn append_steps(
        &mut self,
        medium: &mut [u8],
        handle: &mut Self::Handle,
        bytes: &[u8],
        steps: &mut Vec<Step>,
    ) -> Result<u64, Refusal>;

    fn advance_steps(
        &mut self,
        medium: &mut [u8],
        handle: &mut Self::Handle,
        to: u64,
        steps: &mut Vec<Step>,
    ) -> Result<(), Refusal>;

    fn read(&mut self, medium: &[u8], handle: &Self::Handle, position: u64, length: u64) -> Result<Vec<u8>, Refusal>;

    fn ask(&mut self, medium: &[u8], handle: &Self::Handle) -> Result<Numbers, Refusal>;

    /// Says that this call on this medium is soon to come. A subject that is far away can send several on their way at once.
    fn announce(&mut self, _medium: &[u8], _handle: Option<&Self::Handle>, _call: Call) {}
}

/// Where a plan flushes.
#[derive(Clone, Copy, Debug, PartialEq, Eq)]
pub enum Flushes {
    /// After each write: document 01's rule that all earlier writes are there.
    AfterEach,
    /// Before the selector's write and after it.
    AroundSelector,
    BeforeSelector,
    AfterSelector,
    Nowhere,
}

impl Flushes {
    /// The steps of a plan, whose last write is the selector's.
    pub fn steps(self, writes: Vec<Write>) -> Vec<Step> {
        let last = writes.len().saturating_sub(1);
        let mut steps = Vec::with_capacity(2 * writes.len());
        for (i, write) in writes.into_iter().enumerate() {
            let selector = i == last;
            if selector && matches!(self, Flushes::AroundSelector | Flushes::BeforeSelector) {
                steps.push(Step::Flush);
            }
            steps.push(Step::Put(write));
            let after_selector = selector && matches!(self, Flushes::AroundSelector | Flushes::AfterSelector);
            if after_selector || self == Flushes::AfterEach {
                steps.push(Step::Flush);
            }
        }
        steps
    }
}

/// The model of this crate.
#[derive(Clone, Copy, Debug)]
pub struct Model {
    pub flushes: Flushes,
}

impl Model {
    /// As document 01 has it.
    pub fn new() -> Model {
        Model { flushes: Flushes::AfterEach }
    }

    pub(crate) fn carry_out(&self, plan: Plan, medium: &mut [u8], handle: &mut Handle, steps: &mut Vec<Step>) {
        plan.writes.iter().for_each(|write| write.apply(medium));
        steps.extend(self.flushes.steps(plan.writes));
        *handle = plan.handle;
    }
}

impl Default for Model {
    fn default() -> Model {
        Model::new()
    }
}

impl Subject for Model {
    type Handle = Handle;

    fn setup_steps(&mut self, medium: &mut [u8], steps: &mut Vec<Step>) -> Result<u64, Refusal> {
        let plan = plan_setup(medium.len())?;
        let mut handle = plan.handle;
        self.carry_out(plan, medium, &mut handle, steps);
        Ok(handle.size - 1)
    }

    fn open(&mut self, medium: &[u8]) -> Result<Handle, Refusal> {
        open(medium)
    }

    fn append_steps(
        &mut self,
        medium: &mut [u8],
        handle: &mut Handle,
        bytes: &[u8],
        steps: &mut Vec<Step>,
    ) -> Result<u64, Refusal> {
        let position = handle.tail;
        self.carry_out(plan_append(*handle, bytes, medium.len())?, medium, handle, steps);
        Ok(position)
    }

    fn advance_steps(
        &mut self,
        medium: &mut [u8],
        handle: &mut Handle,
        to: u64,
        steps: &mut Vec<Step>,
    ) -> Result<(), Refusal> {
        self.carry_out(plan_advance(*handle, to, medium.len())?, medium, handle, steps);
        Ok(())
    }

    fn read(&mut self, medium: &[u8], handle: &Handle, position: u64, length: u64) -> Result<Vec<u8>, Refusal> {
        read(*handle, medium, position, length)
    }

    fn ask(&mut self, medium: &[u8], handle: &Handle) -> Result<Numbers, Refusal> {
        ask(*handle, medium.len())
    }
}
