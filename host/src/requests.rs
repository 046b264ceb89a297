//! Random calls: those that a host would make from a state, and any whatever; jobs to ask after, nights, and logs to add
//! to totals.

use crate::arguments::{Numbers, Wide};
use crate::controller::{Number, Ordinal, State, Status, Term, LOG_LIMIT};
use crate::night::{Night, BUDGET_LIMIT, OUTCOMES};
use crate::northbound::{bytes_of, Request};
use crate::random::Random;
use crate::sheet::{Counts, Tally, LOGS, TOTALS};
use crate::why::Question;

/// A valid change on few paths, so that changes meet.
pub fn change(random: &mut Random) -> Vec<u8> {
    let paths = if random.once_in(4) { 32 } else { 6 };
    let mut pairs: Vec<(u16, u16)> = Vec::new();
    let mut path = random.below(3);
    for _ in 0..random.between(1, 4) {
        if path >= paths {
            break;
        }
        pairs.push((path as u16, value(random)));
        path += random.between(1, 1 + paths / 4);
    }
    bytes_of(&pairs)
}

fn value(random: &mut Random) -> u16 {
    match random.below(6) {
        0 => 0,
        1 => random.bits() as u16,
        _ => random.between(1, 9) as u16,
    }
}

/// Every number that a call from the state may name: 0, a few that are folded, those kept, and one past the end.
pub fn numbers(state: &State) -> impl Iterator<Item = u64> {
    let lowest = state.folded.0.saturating_sub(2).max(1);
    std::iter::once(0).chain(lowest.into()..=u64::from(state.highest().0) + 1)
}

/// One of them, or any that is folded.
pub fn any_number(state: &State, random: &mut Random) -> u64 {
    match random.below(8) {
        0 => random.below(usize::from(state.folded.0) + 1) as u64,
        _ => u64::from(state.folded.0) + random.below(state.log.len() + 2) as u64,
    }
}

/// A call that brings the work on: the line first, then the log, now and then something that disturbs.
pub fn sensible(state: &State, log_limit: usize, random: &mut Random) -> Request {
    if random.once_in(60) {
        return disturbing(state, random);
    }
    if !random.once_in(8) {
        if let Some(request) = line(state, random) {
            return request;
        }
    }
    let all_committed = state.committed.change == state.highest();
    match random.below(10) {
        0 | 1 if state.log.len() < log_limit => Request::Append(change(random)),
        3..=5 if all_committed && state.log.len() < log_limit => Request::Append(change(random)),
        0 => Request::Fold(to_fold(state, random)),
        2 if random.once_in(4) => Request::Fold(to_fold(state, random)),
        2 => Request::Rollback(to_roll_back(state, random)),
        _ => job(state, random),
    }
}

/// The next call that opens the line, where it is not open.
fn line(state: &State, random: &mut Random) -> Option<Request> {
    let Some(master) = state.mastership.master else {
        let place = random.below(state.connections.len());
        let node = place as u64 + 1;
        return Some(match (state.target.running, state.connections[place].connected) {
            (false, _) => Request::Start,
            (true, false) => Request::Connect(node),
            (true, true) => Request::Master(node),
        });
    };
    let connection = state.connections[usize::from(master.number()) - 1];
    let node = u64::from(master.number());
    if !connection.connected {
        let early = state.target.running && random.once_in(3);
        return Some(if early { Request::Connect(node) } else { Request::Master(node) });
    }
    if state.reconnected(master) {
        return Some(if random.once_in(4) { Request::Disconnect(node) } else { Request::Master(node) });
    }
    (state.configuration.term < state.mastership.term || state.mastership.term == Term(0)).then_some(Request::Sync(node))
}

fn disturbing(state: &State, random: &mut Random) -> Request {
    let node = match state.mastership.master {
        Some(master) if random.once_in(2) => master.number().into(),
        _ => random.between(1, 8) as u64,
    };
    match random.below(6) {
        0 => Request::Stop,
        1 => Request::Start,
        2 => Request::Disconnect(node),
        3 => Request::Connect(node),
        4 => Request::Master(node),
        _ => Request::Sync(node),
    }
}

fn to_roll_back(state: &State, random: &mut Random) -> u64 {
    match random.below(3) {
        0 => any_number(state, random),
        _ => state.committed.revision.0.into(),
    }
}

/// Mostly one of the finished front's, or the first that is not finished; whether the moment is a lucky one is not asked.
fn to_fold(state: &State, random: &mut Random) -> u64 {
    let folded = u64::from(state.folded.0);
    let finished = state.log.iter().take_while(|transaction| transaction.is_finished()).count();
    match random.below(8) {
        0 => any_number(state, random),
        1..=3 => folded + finished as u64,
        _ => folded + random.between(1, finished + 1) as u64,
    }
}

fn job(state: &State, random: &mut Random) -> Request {
    let node = state.mastership.master.map_or(1, |master| master.number().into());
    let (job, number) = match random.below(8) {
        0..=2 => on_commit_side(state, random),
        3..=6 => on_apply_side(state, random),
        _ => (random.between(1, 4) as u64, any_number(state, random)),
    };
    let outcome = random.once_in(7).into();
    let cut = random.one_of(&[0, 0, 0, 0, 1, 2]);
    Request::Work { node, job, number, outcome, cut }
}

fn on_commit_side(state: &State, random: &mut Random) -> (u64, u64) {
    let committed = &state.committed;
    let begun = |number: Number| state.transaction(number).is_some_and(|it| it.r.commit == Status::InProgress);
    if begun(committed.index) {
        return (3, committed.index.0.into());
    }
    let rolled_back =
        state.transaction(committed.revision).is_some_and(|it| matches!(it.r.commit, Status::Pending | Status::InProgress));
    let finishes = state.transaction(committed.change).is_some_and(|it| it.c.commit == Status::InProgress);
    match random.below(4) {
        0 | 1 if finishes => (1, committed.change.0.into()),
        1 | 2 if rolled_back => (3, committed.revision.0.into()),
        _ if committed.change == state.highest() => on_apply_side(state, random),
        _ => (1, u64::from(committed.change.0) + 1),
    }
}

/// A job on what carries the next ordinal, or the present one.
fn on_apply_side(state: &State, random: &mut Random) -> (u64, u64) {
    let present = state.applied.ordinal;
    let wanted = if random.once_in(4) { present } else { Ordinal(present.0 + 1) };
    let carried = |ordinal: Ordinal| ordinal == wanted && ordinal != Ordinal::NONE;
    for (number, transaction) in state.kept() {
        if carried(transaction.c.ordinal) {
            return (2, number.0.into());
        }
        if carried(transaction.r.ordinal) {
            return (4, number.0.into());
        }
    }
    (random.one_of(&[2, 4]), any_number(state, random))
}

/// Any call at all, its operands mostly near the ends of their ranges, now and then one with more than 16 bits.
pub fn wild(state: &State, random: &mut Random) -> Request {
    let mut request = any(state, random);
    if random.once_in(12) {
        widen(request.numbers(), random);
    }
    request
}

/// Makes one of the numbers, if there is any, a wide one.
pub fn widen(mut numbers: Numbers, random: &mut Random) {
    if !numbers.is_empty() {
        let place = random.below(numbers.len());
        let number = &mut *numbers[place].1;
        *number = random.one_of(&Wide::ALL).of(*number & 0xffff);
    }
}

/// Any call whose operands have 16 bits, or hardly more.
fn any(state: &State, random: &mut Random) -> Request {
    let node = |random: &mut Random| match random.below(6) {
        0 => random.one_of(&[0, 9, 255, 256, 257, 65535]),
        _ => random.between(1, 8) as u64,
    };
    let number = |random: &mut Random| match random.below(6) {
        0 => random.one_of(&[0, 127, 128, 129, 256, 257, 32768, 65535]),
        _ => any_number(state, random),
    };
    match random.below(16) {
        0 => Request::Append(any_pairs(random)),
        1 => Request::Append(change(random)),
        2 => Request::Rollback(number(random)),
        3 => Request::Fold(number(random)),
        4 => Request::Start,
        5 => Request::Stop,
        6 => Request::Connect(node(random)),
        7 => Request::Disconnect(node(random)),
        8 => Request::Master(node(random)),
        9 => Request::Sync(node(random)),
        10 if random.once_in(40) => Request::Fresh(random.one_of(&[0, 0, 1, 1, 2, 255, 65535])),
        _ => {
            let job = if random.once_in(9) { random.one_of(&[0, 5, 256, 257, 65535]) } else { random.between(1, 4) as u64 };
            let outcome = if random.once_in(20) { random.one_of(&[2, 256, 65535]) } else { random.below(2) as u64 };
            let cut = if random.once_in(20) { random.one_of(&[3, 256, 65535]) } else { random.below(3) as u64 };
            Request::Work { node: node(random), job, number: number(random), outcome, cut }
        }
    }
}

/// A job to ask after, mostly one of the master's; now and then by no node, or no job.
pub fn any_question(state: &State, random: &mut Random) -> Question {
    let master = state.mastership.master.map_or(1, |master| master.number().into());
    let node = match random.below(12) {
        0 => random.one_of(&[0, 9, 255, 256, 257, 65535]),
        1 | 2 => random.between(1, 8) as u64,
        _ => master,
    };
    let job = if random.once_in(12) { random.one_of(&[0, 5, 256, 257, 65535]) } else { random.between(1, 4) as u64 };
    Question { node, job, number: any_number(state, random) }
}

/// A table for a night: all accepted, or some rejected, or all.
pub fn table(random: &mut Random) -> Vec<u8> {
    let rejected_one_in = random.one_of(&[1, 2, 4, 16]);
    match random.below(3) {
        0 => vec![0; OUTCOMES],
        _ => (0..OUTCOMES).map(|_| random.once_in(rejected_one_in).into()).collect(),
    }
}

/// A night, mostly one of the master's; now and then by no node, past the budget's limit, or with a table that is none.
pub fn any_night(state: &State, random: &mut Random) -> Night {
    let node = any_question(state, random).node;
    let enough = 6 * state.log.len();
    let budget = match random.below(8) {
        0 => 0,
        1 => BUDGET_LIMIT,
        2 => enough as u64,
        3 if random.once_in(3) => random.one_of(&[BUDGET_LIMIT - 1, BUDGET_LIMIT + 1, 65_535]),
        4 => random.below(enough + 1) as u64,
        _ => random.below(9) as u64,
    };
    let mut night = Night { node, budget, outcomes: table(random) };
    match random.below(24) {
        0 => night.outcomes.resize(random.one_of(&[0, 1, OUTCOMES - 1, OUTCOMES + 1, 2 * OUTCOMES]), 0),
        1 => night.outcomes[random.one_of(&[0, OUTCOMES / 2, OUTCOMES - 1])] = random.one_of(&[2, 255]),
        2 => widen(night.numbers(), random),
        _ => {}
    }
    night
}

/// A log at a place of the sheet, mostly with totals that those before it can have; now and then past either end, of
/// another length, or with more than they can have.
pub fn any_tally(random: &mut Random) -> Tally {
    let log = match random.below(8) {
        0 => random.one_of(&[0, LOGS as u64 + 1, LOGS as u64 + 2, 255, 256, 257, 65_535]),
        1 => 1,
        2 => LOGS as u64,
        _ => random.between(1, LOGS) as u64,
    };
    let limit = LOG_LIMIT * (log.clamp(1, LOGS as u64) as usize - 1);
    let any = random.below(limit + 1);
    let far = random.one_of(&[limit + LOG_LIMIT, 65_535, 65_536, 65_537]);
    let together = random.one_of(&[0, limit, any, any, any, limit + 1, far]);
    let mut tally = Tally { log, totals: vec![0; TOTALS] };
    tally.store(&spread(together, random));
    if random.once_in(12) {
        tally.totals.resize(random.one_of(&[0, 1, 2, TOTALS - 1, TOTALS + 1, TOTALS + 2, 2 * TOTALS]), 0);
    }
    if random.once_in(12) {
        widen(tally.numbers(), random);
    }
    tally
}

/// Six numbers that are so much together, or as much as they can be.
fn spread(together: usize, random: &mut Random) -> Counts {
    let mut left = together;
    let mut counts = Counts::default();
    let last = random.below(counts.len());
    for place in (0..counts.len()).filter(|place| *place != last) {
        let part = if random.once_in(3) { 0 } else { random.below(left + 1).min(65_535) };
        counts[place] = part as u16;
        left -= part;
    }
    counts[last] = left.min(65_535) as u16;
    counts
}

/// Bytes for an append that are seldom a valid change.
fn any_pairs(random: &mut Random) -> Vec<u8> {
    match random.below(4) {
        0 => (0..random.below(24)).map(|_| random.below(34) as u8).collect(),
        1 => bytes_of(&[]),
        2 => {
            let path = random.one_of(&[0, 3, 31, 32, 33, 255, 256, 259, 65535]);
            bytes_of(&[(path, value(random))])
        }
        _ => {
            let pairs: Vec<_> = (0..random.between(1, 6)).map(|_| (random.below(33) as u16, value(random))).collect();
            bytes_of(&pairs)
        }
    }
}
