//! Goes through cases in order, the small ones first, so that the first that goes wrong is the smallest.

use crate::cases::{sequence_actions, shapes, Action, Case, Start};

/// A case that went wrong, and how.
#[derive(Clone, Debug)]
pub struct Failure {
    pub case: Case,
    pub what: String,
}

/// What carries cases out, one operation after the other.
pub trait Driver {
    type State;

    fn begin(&mut self, case: &Case) -> Result<Self::State, String>;

    /// Carries out an action, the last of the case so far. Where the case is to end with it, tries all that can be tried.
    fn operate(&mut self, state: &Self::State, action: Action, case: &Case, end: bool) -> Result<Self::State, String>;

    /// Says that these actions are carried out next, each on this state.
    fn announce(&mut self, _state: &Self::State, _actions: &[Action]) {}
}

/// All sequences of up to `longest` actions after set-up, on each ring.
pub fn sequences<D: Driver>(driver: &mut D, rings: &[u64], longest: usize) -> Result<(), Failure> {
    for length in 1..=longest {
        for ring in rings {
            let mut case = Case { ring: *ring, start: Start::SetUp, operations: vec![] };
            let state = begin(driver, &case)?;
            each_continuation(driver, &state, &sequence_actions(*ring), length, &mut case)?;
        }
    }
    Ok(())
}

/// Every shape of a log on each ring.
pub fn each_shape<D: Driver>(
    driver: &mut D,
    rings: &[u64],
    mut visit: impl FnMut(&mut D, &D::State, &mut Case) -> Result<(), Failure>,
) -> Result<(), Failure> {
    for ring in rings {
        for start in shapes(*ring) {
            let mut case = Case { ring: *ring, start, operations: vec![] };
            let state = begin(driver, &case)?;
            visit(driver, &state, &mut case)?;
        }
    }
    Ok(())
}

/// Every sequence of exactly `length` more of these actions; shorter ones are tried on their own.
pub fn each_continuation<D: Driver>(
    driver: &mut D,
    state: &D::State,
    actions: &[Action],
    length: usize,
    case: &mut Case,
) -> Result<(), Failure> {
    if length == 1 {
        driver.announce(state, actions);
    }
    for action in actions {
        case.operations.push(action.uncut());
        let next = driver.operate(state, *action, case, length == 1);
        let next = next.map_err(|what| Failure { case: case.clone(), what })?;
        if length > 1 {
            each_continuation(driver, &next, actions, length - 1, case)?;
        }
        case.operations.pop();
    }
    Ok(())
}

fn begin<D: Driver>(driver: &mut D, case: &Case) -> Result<D::State, Failure> {
    driver.begin(case).map_err(|what| Failure { case: case.clone(), what })
}
