//! Every state that a controller with a few transactions and the line open can reach, and every call from each: from
//! fresh, and from where so many are folded that the ring's end, or the last number, is near.

use crate::by_itself;
use crate::desk::{Compared, Desk};
use crate::sessions::opened_of;
use makowist_host::arguments::Wide;
use makowist_host::controller::{Number, State};
use makowist_host::guarded::Edge;
use makowist_host::northbound::{bytes_of, Request};
use makowist_host::random::Random;
use makowist_host::reads::Query;
use makowist_host::requests::numbers;
use makowist_host::switch::Switch;
use std::collections::HashSet;

/// The changes that are appended, one after another. They meet on two paths, and one deletes.
const CHANGES: [&[(u16, u16)]; 5] =
    [&[(3, 7)], &[(3, 9), (5, 1)], &[(3, 0), (5, 2)], &[(0, 1), (3, 4), (5, 0), (31, 65535)], &[(5, 6)]];

/// With which a job on a kept number is called; on another number with the first alone.
const OUTCOMES_AND_CUTS: [(u64, u64); 6] = [(0, 0), (0, 1), (0, 2), (1, 0), (1, 1), (1, 2)];

/// Of how many states one is read whole.
const READ_ONE_IN: usize = 15;

/// From how many states one night is worked through.
const NIGHT_ONE_IN: usize = 4;

/// The last folds from which a second append goes round the ring's end, and past the last number.
const BEFORE_THE_RINGS_END: Number = Number(127);
const BEFORE_THE_LAST: Number = Number(65_534);

/// Walks from fresh, and less far from near either end and with a target that remembers, for at most half the time. Answers whether
/// it came to every state.
pub fn run(desk: &mut Desk, transactions: usize) -> Compared<bool> {
    let fewer = transactions.saturating_sub(1).max(2);
    let forgets = [(false, Number::NONE, transactions), (false, BEFORE_THE_LAST, 2)];
    let remembers = [(true, Number::NONE, fewer), (true, BEFORE_THE_RINGS_END, fewer)];
    for (remembers, folded, transactions) in forgets.into_iter().chain(remembers) {
        if !walk(desk, remembers, folded, transactions)? {
            return Ok(false);
        }
    }
    Ok(true)
}

/// Walks breadth first, comparing every call from every state.
fn walk(desk: &mut Desk, remembers: bool, folded: Number, transactions: usize) -> Compared<bool> {
    let mut random = Random::new(2);
    let mut seen = HashSet::new();
    let (state, bytes) = opened_of(desk, remembers, folded)?;
    seen.insert((state.clone(), Switch::default()));
    let mut level = vec![(state, bytes, Switch::default())];
    while !level.is_empty() {
        let mut next = Vec::new();
        for (place, (state, bytes, switch)) in level.iter().enumerate() {
            if desk.is_half_over() {
                return Ok(false);
            }
            desk.edge = if place % 2 == 0 { Edge::End } else { Edge::Begin };
            desk.lend(bytes);
            for (request, walks) in requests(state, usize::from(state.highest().0 - folded.0), transactions) {
                if let (Some((after, after_bytes, served)), true) = (desk.call_from(state, bytes, &request)?, walks) {
                    let mut switch = switch.clone();
                    desk.switched(&mut switch, (&after, &after_bytes), &request, &served)?;
                    next.extend(seen.insert((after.clone(), switch.clone())).then_some((after, after_bytes, switch)));
                }
            }
            for room in 0..=2 * transactions + 1 {
                desk.read(Some(state), bytes, room)?;
            }
            if place % READ_ONE_IN == 0 {
                for query in queries(state) {
                    desk.query(Some(state), bytes, query)?;
                }
                desk.sheet(Some(state), bytes)?;
            }
            if place % NIGHT_ONE_IN == 0 {
                by_itself::enough(desk, state, bytes, &mut random)?;
            }
            desk.counts.states += 1;
            desk.counts.remembers.walked[usize::from(remembers)] += 1;
        }
        level = next;
    }
    Ok(true)
}

/// Every call from a state that has taken so many appends, and whether the walk goes on from where it leads: those that
/// leave the line as it is do.
fn requests(state: &State, appended: usize, transactions: usize) -> Vec<(Request, bool)> {
    let append = Request::Append(bytes_of(CHANGES[appended.min(CHANGES.len() - 1)]));
    let mut all = vec![
        (append, appended < transactions),
        (Request::Append(Vec::new()), false),
        (Request::Append(bytes_of(&[(4, 1), (4, 2)])), false),
        (Request::Fresh(0), false),
        (Request::Fresh(1), false),
        (Request::Fresh(2), false),
        (Request::Start, false),
        (Request::Stop, false),
    ];
    for node in [0, 1, 2, 8, 9] {
        let calls = [Request::Connect, Request::Disconnect, Request::Master, Request::Sync];
        all.extend(calls.map(|call| (call(node), false)));
    }
    for number in numbers(state) {
        all.push((Request::Rollback(number), true));
        all.push((Request::Fold(number), true));
        let is_kept = state.given(number).is_ok_and(|number| state.transaction(number).is_some());
        let tried = if is_kept { &OUTCOMES_AND_CUTS[..] } else { &OUTCOMES_AND_CUTS[..1] };
        for job in 1..=4 {
            for (outcome, cut) in tried.iter().copied() {
                all.push((Request::Work { node: 1, job, number, outcome, cut }, true));
            }
            all.push((Request::Work { node: 2, job, number, outcome: 0, cut: 0 }, false));
        }
    }
    let number = u64::from(state.highest().0);
    for [node, job, outcome, cut] in [[0, 1, 0, 0], [9, 1, 0, 0], [1, 0, 0, 0], [1, 5, 0, 0], [1, 1, 2, 0], [1, 1, 0, 3]] {
        all.push((Request::Work { node, job, number, outcome, cut }, false));
    }
    let number = Wide::Above16.of(number);
    all.extend([Request::Rollback(number), Request::Fold(number)].map(|request| (request, false)));
    all.extend((1..=4).map(|job| (Request::Work { node: 1, job, number, outcome: 0, cut: 0 }, false)));
    all
}

/// Every read of what differs between these states: the log, the heads, and the values of the paths that are changed.
fn queries(state: &State) -> impl Iterator<Item = Query> {
    let changed = |path: u64| CHANGES.iter().any(|change| change.iter().any(|(changed, _)| u64::from(*changed) == path));
    Query::all(state).into_iter().filter(move |query| match query {
        Query::Value { path, .. } | Query::Owner { path } => changed(*path),
        Query::Connection { .. } => false,
        _ => true,
    })
}
