//! The source as a subject: its answers in the words of document 01.

use model::device::{Step, Write};
use model::log::{Numbers, Refusal};
use model::subject::Subject;
use oracle::logimpl_v::UntrustedLogImpl;
use oracle::main_t::{InfiniteLogErr, InfiniteLogImpl};
use oracle::memory::RecordedMemory;

type Log<'a> = InfiniteLogImpl<&'a mut RecordedMemory>;

/// Holds the memory that the source works on; each operation copies the medium in and, where it writes, out again.
#[derive(Default)]
pub struct Oracle {
    memory: RecordedMemory,
}

impl Oracle {
    pub fn new() -> Oracle {
        Oracle::default()
    }

    fn load(&mut self, medium: &[u8]) {
        self.memory.contents.clear();
        self.memory.contents.extend_from_slice(medium);
        self.memory.writes.clear();
    }

    fn store(&mut self, medium: &mut [u8], steps: &mut Vec<Step>) {
        medium.copy_from_slice(&self.memory.contents);
        let put = |write: oracle::memory::Write| Step::Put(Write { at: write.at as usize, bytes: write.bytes });
        steps.extend(self.memory.writes.drain(..).map(put));
    }

    /// Runs an operation of the source that writes.
    fn change<T>(
        &mut self,
        medium: &mut [u8],
        handle: &mut UntrustedLogImpl,
        steps: &mut Vec<Step>,
        operation: impl FnOnce(&mut Log) -> Result<T, InfiniteLogErr>,
    ) -> Result<T, Refusal> {
        self.load(medium);
        let mut log = InfiniteLogImpl::from_parts(handle.clone(), &mut self.memory);
        let answer = operation(&mut log);
        *handle = log.numbers().clone();
        self.store(medium, steps);
        answer.map_err(refusal)
    }
}

/// Where the source has one word for a wrong selector and a wrong checksum, `Damaged` stands for both.
fn refusal(error: InfiniteLogErr) -> Refusal {
    match error {
        InfiniteLogErr::InsufficientSpaceForSetup { required_space } => Refusal::TooShort { required: required_space },
        InfiniteLogErr::CantReadBeforeHead { head } => Refusal::BeforeHead { head },
        InfiniteLogErr::CantReadPastTail { tail } => Refusal::BeyondTail { tail },
        InfiniteLogErr::InsufficientSpaceForAppend { available_space } => Refusal::NoRoom { room: available_space },
        InfiniteLogErr::CRCMismatch => Refusal::Damaged,
        InfiniteLogErr::CantAdvanceHeadPositionBeforeHead { head } => Refusal::BeforeHead { head },
        InfiniteLogErr::CantAdvanceHeadPositionBeyondTail { tail } => Refusal::BeyondTail { tail },
    }
}

impl Subject for Oracle {
    type Handle = UntrustedLogImpl;

    fn setup_steps(&mut self, medium: &mut [u8], steps: &mut Vec<Step>) -> Result<u64, Refusal> {
        self.load(medium);
        let answer = InfiniteLogImpl::setup(&mut self.memory, medium.len() as u64);
        self.store(medium, steps);
        answer.map_err(refusal)
    }

    fn open(&mut self, medium: &[u8]) -> Result<UntrustedLogImpl, Refusal> {
        self.load(medium);
        let log = InfiniteLogImpl::start(&mut self.memory, medium.len() as u64);
        let handle = log.map(|log| log.numbers().clone());
        assert!(self.memory.writes.is_empty(), "start wrote");
        handle.map_err(refusal)
    }

    fn append_steps(
        &mut self,
        medium: &mut [u8],
        handle: &mut UntrustedLogImpl,
        bytes: &[u8],
        steps: &mut Vec<Step>,
    ) -> Result<u64, Refusal> {
        self.change(medium, handle, steps, |log| log.append(&bytes.to_vec()))
    }

    fn advance_steps(
        &mut self,
        medium: &mut [u8],
        handle: &mut UntrustedLogImpl,
        to: u64,
        steps: &mut Vec<Step>,
    ) -> Result<(), Refusal> {
        self.change(medium, handle, steps, |log| log.advance_head(to))
    }

    fn read(
        &mut self,
        medium: &[u8],
        handle: &UntrustedLogImpl,
        position: u64,
        length: u64,
    ) -> Result<Vec<u8>, Refusal> {
        self.load(medium);
        let log = InfiniteLogImpl::from_parts(handle.clone(), &mut self.memory);
        log.read(position, length).map_err(refusal)
    }

    fn ask(&mut self, _medium: &[u8], handle: &UntrustedLogImpl) -> Result<Numbers, Refusal> {
        let log = InfiniteLogImpl::from_parts(handle.clone(), &mut self.memory);
        let (head, tail, capacity) = log.get_head_and_tail().map_err(refusal)?;
        Ok(Numbers { head, tail, capacity })
    }
}
