//! What the sessions share: a line that is open, and jobs done to their end.

use makowist_host::controller::{Refusal, State, Status, Transaction};
use makowist_host::jobs::Worked;

pub const ACCEPTED: u64 = 0;
pub const REJECTED: u64 = 1;

/// A state with the line open for node 1.
pub fn with_open_line() -> State {
    let mut state = State::fresh();
    state.start().unwrap();
    state.connect(1).unwrap();
    state.master(1).unwrap();
    state.sync(1).unwrap();
    state.sync(1).unwrap();
    state
}

pub fn work(state: &mut State, job: u64, number: u64, outcome: u64) -> Worked {
    state.work(1, job, number, outcome, 0)
}

/// The statuses that the job's events tell, step after step, until no rule holds or the push is refused.
pub fn told(state: &mut State, job: u64, number: u64, outcome: u64) -> (Vec<Status>, Refusal) {
    let mut statuses = Vec::new();
    loop {
        match work(state, job, number, outcome).reply {
            Ok(event) => statuses.extend(event.map(|event| event.status)),
            Err(refusal) => return (statuses, refusal),
        }
    }
}

pub fn commit(state: &mut State, number: u64) {
    let all = (vec![Status::InProgress, Status::Complete], Refusal::NoRule);
    assert_eq!(told(state, 1, number, ACCEPTED), all);
}

pub fn commit_rollback(state: &mut State, number: u64) {
    state.rollback(number).unwrap();
    let all = (vec![Status::InProgress, Status::Complete], Refusal::NoRule);
    assert_eq!(told(state, 3, number, ACCEPTED), all);
}

pub fn transaction(state: &State, number: u64) -> Transaction {
    *state.transaction(state.given(number).unwrap()).unwrap()
}
