//! Where nights are worked through beside those of sessions: chosen states, made-up ones, short sessions, logs of as many as can
//! be kept. They are the same on every machine.

use crate::desk::{Compared, Desk};
use crate::nights::{night, Behind, Room};
use crate::outside::{self, lent};
use crate::sessions::opened;
use crate::wide;
use makowist_host::controller::{Number, State, LOG_LIMIT};
use makowist_host::made_up::made_up;
use makowist_host::night::{Night, BUDGET_LIMIT, OUTCOMES};
use makowist_host::northbound::{bytes_of, Request};
use makowist_host::random::Random;
use makowist_host::requests::{any_night, sensible, table};

pub fn run(desk: &mut Desk) -> Compared<()> {
    let mut random = Random::new(2);
    desk.reached = false;
    chosen(desk)?;
    for _ in 0..MADE_UP {
        let (state, bytes) = made_up(&mut random);
        some(desk, &state, &bytes, &mut random)?;
    }
    desk.reached = true;
    FOLDED.into_iter().try_for_each(|folded| session(desk, folded, &mut random))?;
    FOLDED.into_iter().try_for_each(|folded| full(desk, folded))?;
    desk.reached = false;
    Ok(())
}

/// How many made-up states, and how many calls of a session after each of these last folds, one in so many of which is stopped.
const MADE_UP: usize = 400;
const CALLS: usize = 500;
const STOPPED_ONE_IN: usize = 4;
const FOLDED: [Number; 3] = [Number::NONE, Number(126), Number(65_000)];

/// Whether a night is due: once in so many times, and less often the more are kept, since a turn may try them all.
pub fn is_due(state: &State, once_in: usize, random: &mut Random) -> bool {
    random.once_in(once_in * (1 + state.log.len() / 4))
}

/// A night at random from a state, in a room at random.
pub fn any(desk: &mut Desk, state: &State, bytes: &[u8], random: &mut Random) -> Compared<Option<Behind>> {
    let asked = any_night(state, random);
    night(desk, Some(state), bytes, &asked, random.one_of(&Room::ALL))
}

/// A few nights from a state: at random, and with all that is enough.
fn some(desk: &mut Desk, state: &State, bytes: &[u8], random: &mut Random) -> Compared<()> {
    for _ in 0..3 {
        any(desk, state, bytes, random)?;
    }
    enough(desk, state, bytes, random)
}

/// The master's night of six jobs for each, with a table at random.
pub fn enough(desk: &mut Desk, state: &State, bytes: &[u8], random: &mut Random) -> Compared<()> {
    let node = state.mastership.master.map_or(1, |master| master.number().into());
    let asked = Night { node, budget: 6 * state.log.len() as u64, outcomes: table(random) };
    night(desk, Some(state), bytes, &asked, random.one_of(&Room::ALL)).map(|_| ())
}

/// Nights from the states of a session on few transactions, and from some of them with the target stopped.
fn session(desk: &mut Desk, folded: Number, random: &mut Random) -> Compared<()> {
    let (mut state, mut bytes) = opened(desk, folded)?;
    for _ in 0..CALLS {
        let request = sensible(&state, 4, random);
        desk.call(&mut state, &mut bytes, &request)?;
        some(desk, &state, &bytes, random)?;
        if random.once_in(STOPPED_ONE_IN) {
            if let Some((stopped, stopped_bytes, _)) = desk.call_from(&state, &bytes, &Request::Stop)? {
                some(desk, &stopped, &stopped_bytes, random)?;
            }
        }
    }
    Ok(())
}

/// Nights on a log of as many as can be kept: what is appended, then with every rollback asked and nothing applied.
fn full(desk: &mut Desk, folded: Number) -> Compared<()> {
    let (mut state, mut bytes) = opened(desk, folded)?;
    let numbers = u64::from(folded.0) + 1..=u64::from(folded.0) + LOG_LIMIT as u64;
    for number in numbers.clone() {
        desk.call(&mut state, &mut bytes, &Request::Append(bytes_of(&[(number as u16 % 32, number as u16)])))?;
    }
    let mut odd = Night { node: 1, budget: BUDGET_LIMIT, outcomes: vec![0; OUTCOMES] };
    night(desk, Some(&state), &bytes, &odd, Room::Exact)?;
    for number in numbers.clone().flat_map(|number| [number, number]) {
        desk.call(&mut state, &mut bytes, &Request::Work { node: 1, job: 1, number, outcome: 0, cut: 0 })?;
    }
    numbers.clone().try_for_each(|number| desk.call(&mut state, &mut bytes, &Request::Rollback(number)).map(|_| ()))?;
    for (budget, last) in [(6 * LOG_LIMIT as u64, 0), (6 * LOG_LIMIT as u64 - 1, 1), (100, 1)] {
        (odd.budget, odd.outcomes[OUTCOMES - 1]) = (budget, last);
        night(desk, Some(&state), &bytes, &odd, Room::ByteTooLong)?;
    }
    Ok(())
}

/// Nights from the chosen states of the calls from outside, and such as are refused; and of an image that is none.
fn chosen(desk: &mut Desk) -> Compared<()> {
    let mut place = 0;
    for state in outside::states() {
        let bytes = lent(desk, &state);
        for asked in nights(state.log.len()).into_iter().chain(odd_nights()) {
            place += 1;
            night(desk, Some(&state), &bytes, &asked, Room::ALL[place % Room::ALL.len()])?;
        }
    }
    let state = outside::states().next().expect("a chosen state");
    let mut bytes = lent(desk, &state);
    outside::spoil(&mut bytes);
    nights(0).into_iter().chain(odd_nights()).try_for_each(|asked| night(desk, None, &bytes, &asked, Room::Exact).map(|_| ()))
}

/// Nights of node 1 in range: few where many are kept.
fn nights(kept: usize) -> Vec<Night> {
    let tables = [[0, 0], [1, 1], [0, 1], [1, 0]].map(|two| two.repeat(OUTCOMES / 2));
    let budgets: &[u64] = if kept > 4 { &[0, 3] } else { &[0, 1, 2, 3, 5, 8, BUDGET_LIMIT] };
    let each = tables.iter().flat_map(|outcomes| budgets.iter().map(move |budget| (outcomes, *budget)));
    each.map(|(outcomes, budget)| Night { node: 1, budget, outcomes: outcomes.clone() }).collect()
}

/// Nights that are refused, for one thing or for two: nodes, budgets, lengths of the table, and an outcome above 1 at its first,
/// a middle and its last place.
fn odd_nights() -> Vec<Night> {
    let table = |length: usize, place: usize, outcome: u8| {
        let mut outcomes = vec![0; length];
        outcomes.get_mut(place).into_iter().for_each(|at| *at = outcome);
        outcomes
    };
    let whole = table(OUTCOMES, 0, 0);
    let mut all: Vec<Night> =
        [0, 2, 8, 9].iter().map(|node| Night { node: *node, budget: 1, outcomes: whole.clone() }).collect();
    for node in [0, 1, 2] {
        let budgets = [BUDGET_LIMIT - 1, BUDGET_LIMIT, BUDGET_LIMIT + 1, 65_535];
        all.extend(budgets.map(|budget| Night { node, budget, outcomes: whole.clone() }));
        for (length, place, outcome) in [
            (0, 0, 0),
            (1, 0, 0),
            (OUTCOMES - 1, 0, 0),
            (OUTCOMES + 1, 0, 0),
            (2 * OUTCOMES, 0, 0),
            (OUTCOMES, 0, 2),
            (OUTCOMES, 1, 2),
            (OUTCOMES, OUTCOMES / 2, 3),
            (OUTCOMES, OUTCOMES - 1, 2),
            (OUTCOMES, OUTCOMES - 1, 255),
        ] {
            all.push(Night { node, budget: 2, outcomes: table(length, place, outcome) });
        }
    }
    all
}

/// Nights of node 1 with a number made wide, in each way.
pub fn widened(desk: &mut Desk, state: &State, bytes: &[u8]) -> Compared<()> {
    let asked = Night { node: 1, budget: 2, outcomes: vec![0; OUTCOMES] };
    wide::widened(&asked, Night::numbers)
        .into_iter()
        .try_for_each(|asked| night(desk, Some(state), bytes, &asked, Room::Larger).map(|_| ()))
}
