//! Random sequences on rings of up to 4,096 bytes, with lengths and positions about every boundary. The seeds are fixed;
//! a sequence that goes wrong is made smaller before it is reported.

use crate::pair::Pair;
use model::cases::{Action, Case, Start};
use model::log::Numbers;
use model::subject::Subject;
use model::walk::{Driver, Failure};

/// Numbers that look random and are the same in every run (xorshift).
pub struct Chance(u64);

impl Chance {
    pub fn new(seed: u64) -> Chance {
        Chance(seed.wrapping_mul(0x9e37_79b9_7f4a_7c15) | 1)
    }

    pub fn number(&mut self) -> u64 {
        self.0 ^= self.0 << 13;
        self.0 ^= self.0 >> 7;
        self.0 ^= self.0 << 17;
        self.0.wrapping_mul(0x2545_f491_4f6c_dd1d)
    }

    /// Below the limit, which is not 0.
    pub fn below(&mut self, limit: u64) -> u64 {
        (self.number() >> 11) % limit
    }

    /// Up to the limit.
    fn to(&mut self, limit: u64) -> u64 {
        self.below(limit.saturating_add(1))
    }

    fn one_of(&mut self, choices: &[u64]) -> u64 {
        choices[self.below(choices.len() as u64) as usize]
    }
}

pub const LARGEST_RING: u64 = 4096;
const LONGEST: u64 = 16;

impl<S: Subject> Pair<'_, S> {
    /// This many sequences, from set-up and from logs anywhere.
    pub fn random(&mut self, sequences: u64) -> Result<(), Failure> {
        for seed in 1..=sequences {
            self.random_sequence(&mut Chance::new(seed))?;
        }
        Ok(())
    }

    fn random_sequence(&mut self, chance: &mut Chance) -> Result<(), Failure> {
        let ring = random_ring(chance);
        let mut case = Case { ring, start: random_start(chance, ring), operations: vec![] };
        let begun = self.begin(&case);
        let mut state = begun.map_err(|what| Failure { case: case.clone(), what })?;
        for _ in 0..=chance.below(LONGEST) {
            let action = random_action(chance, ring, state.numbers);
            case.operations.push(action.uncut());
            state = match self.operate(&state, action, &case, true) {
                Ok(next) => next,
                Err(what) => return Err(self.smaller(Failure { case, what })),
            };
        }
        Ok(())
    }

    /// Leaves out operations for as long as the rest still goes wrong.
    fn smaller(&mut self, failure: Failure) -> Failure {
        for left_out in 0..failure.case.operations.len() {
            let mut case = failure.case.clone();
            case.operations.remove(left_out);
            if let Err(what) = self.case(&case) {
                return self.smaller(Failure { case, what });
            }
        }
        failure
    }
}

/// Small rings as often as large ones, and the two ends more often.
fn random_ring(chance: &mut Chance) -> u64 {
    let largest = 2 << chance.below(12);
    let any = 1 + chance.below(largest);
    chance.one_of(&[any, any, any, any, any, largest, LARGEST_RING, 1])
}

fn random_start(chance: &mut Chance, ring: u64) -> Start {
    if chance.below(4) == 0 {
        return Start::SetUp;
    }
    let kept = chance.below(ring);
    let near = chance.to(2 * ring);
    let any = chance.number().min(u64::MAX - kept);
    let head = chance.one_of(&[near, any, u64::MAX - kept - near, u64::MAX - kept]);
    Start::At { head, tail: head + kept, second: chance.below(2) == 1 }
}

fn random_action(chance: &mut Chance, ring: u64, numbers: Numbers) -> Action {
    match chance.below(8) {
        0..=3 => random_append(chance, ring, numbers),
        4..=5 => random_advance(chance, numbers),
        6 => random_read(chance, numbers),
        _ => Action::Reopen,
    }
}

fn random_append(chance: &mut Chance, ring: u64, numbers: Numbers) -> Action {
    let room = numbers.capacity - (numbers.tail - numbers.head);
    let to_the_end = ring - numbers.tail % ring;
    let any = chance.to(ring + 2);
    let fitting = chance.to(room);
    let choices =
        [0, 1, room, room + 1, to_the_end, to_the_end - 1, to_the_end + 1, ring, any, fitting, fitting, fitting];
    Action::Append(chance.one_of(&choices))
}

fn random_advance(chance: &mut Chance, Numbers { head, tail, .. }: Numbers) -> Action {
    let inside = head + chance.to(tail - head);
    let outside = chance.one_of(&[head.saturating_sub(1), tail.saturating_add(1), 0, u64::MAX]);
    Action::AdvanceTo(chance.one_of(&[inside, inside, inside, head, tail, outside]))
}

fn random_read(chance: &mut Chance, Numbers { head, tail, .. }: Numbers) -> Action {
    let from = head + chance.to(tail - head);
    let length = chance.to(tail - from);
    let outside = chance.one_of(&[head.saturating_sub(1), tail.saturating_add(1), 0, u64::MAX]);
    match chance.below(8) {
        0 => Action::Read(outside, length),
        1 => Action::Read(from, tail - from + 1),
        2..=3 => Action::ReadAll,
        _ => Action::Read(from, length),
    }
}
