//! Sessions from fresh, or from an imported list: mostly sensible calls, some refused, some cut. The independent controller keeps
//! its typed state from call to call, so that a fault of the codec cannot hide one of the rules.

use crate::by_itself;
use crate::desk::{Compared, Desk, MOST_ROOM};
use crate::lists;
use makowist_host::controller::{Number, Ordinal, State, PATHS};
use makowist_host::image::{self, LENGTH};
use makowist_host::northbound::Request;
use makowist_host::random::Random;
use makowist_host::reads::Query;
use makowist_host::requests::{change, sensible, wild};
use makowist_host::switch::Switch;

/// The calls of a long session, which takes the numbers round the ring more than once.
const LONG: usize = 12_000;

/// Of how many calls on a short log one is followed by a night, and of how many nights the session goes on behind one.
const NIGHT_ONE_IN: usize = 40;
const GOES_ON_ONE_IN: usize = 6;

/// Of how many sessions one begins with a list imported.
const IMPORTED_ONE_IN: usize = 5;

/// A controller with the line open for node 1, its target one that forgets. Where a last fold is named, all up to it was set,
/// applied and folded.
pub fn opened(desk: &mut Desk, folded: Number) -> Compared<(State, Vec<u8>)> {
    opened_of(desk, false, folded)
}

/// The same with a target of either kind.
pub fn opened_of(desk: &mut Desk, remembers: bool, folded: Number) -> Compared<(State, Vec<u8>)> {
    let mut state = State::fresh();
    let mut bytes = vec![0xff; LENGTH];
    desk.lend(&bytes);
    for request in [
        Request::Fresh(remembers.into()),
        Request::Start,
        Request::Connect(1),
        Request::Master(1),
        Request::Sync(1),
        Request::Sync(1),
    ] {
        desk.call(&mut state, &mut bytes, &request)?;
    }
    if folded != Number::NONE {
        fold_all(&mut state, folded);
        image::encode(&state, &mut bytes);
        desk.lend(&bytes);
    }
    Ok((state, bytes))
}

/// The state as if so many changes had been committed, applied and folded.
fn fold_all(state: &mut State, folded: Number) {
    let values = std::array::from_fn::<u16, PATHS, _>(|path| 100 + path as u16);
    let owners = std::array::from_fn::<Number, PATHS, _>(|path| Number(folded.0 - path as u16));
    let ordinal = Ordinal(folded.0.into());
    state.folded = folded;
    state.base = values;
    state.target.values = values;
    let (committed, applied) = (&mut state.committed, &mut state.applied);
    (committed.values, committed.owners, applied.values) = (values, owners, values);
    (committed.index, committed.change, committed.target, committed.revision) = (folded, folded, folded, folded);
    (applied.index, applied.target, applied.revision) = (folded, folded, folded);
    (committed.ordinal, applied.ordinal) = (ordinal, ordinal);
}

/// Runs sessions until so many calls have been compared, or the time is up.
pub fn run(desk: &mut Desk, calls: u64, random: &mut Random) -> Compared<()> {
    let end = desk.counts.calls + calls;
    while desk.counts.calls < end && !desk.is_over() {
        session(desk, random)?;
    }
    Ok(())
}

fn session(desk: &mut Desk, random: &mut Random) -> Compared<()> {
    let Begun { mut state, mut bytes, mut is_imported } = begun(desk, random)?;
    let mut switch = Switch::default();
    let log_limit = random.one_of(&[1, 2, 3, 4, 6, 16, 40, 128, 130]);
    let length = if random.once_in(30) { LONG } else { 20 + random.below(25 * log_limit) };
    let wildness = random.one_of(&[3, 10, 40]);
    if log_limit >= 128 && random.once_in(2) {
        for _ in 0..129 {
            let request = Request::Append(change(random));
            desk.call(&mut state, &mut bytes, &request)?;
        }
    }
    for _ in 0..length {
        let request = match random.once_in(wildness) {
            true => wild(&state, random),
            false => sensible(&state, log_limit, random),
        };
        let served = desk.call(&mut state, &mut bytes, &request)?;
        desk.sheet_behind(&state, &bytes)?;
        desk.switched(&mut switch, (&state, &bytes), &request, &served)?;
        is_imported &= !matches!(request, Request::Fresh(_));
        if is_imported && served.reply.is_ok() {
            desk.counts.imports.calls_behind += 1;
            desk.counts.imports.folds_behind += u64::from(matches!(request, Request::Fold(_)));
        }
        if random.once_in(16) {
            desk.read(Some(&state), &bytes, random.below(MOST_ROOM + 1))?;
        }
        if random.once_in(8) {
            desk.query(Some(&state), &bytes, Query::any(&state, random))?;
        }
        if by_itself::is_due(&state, NIGHT_ONE_IN, random) {
            let passed = by_itself::any(desk, &state, &bytes, random)?;
            if let Some((after, after_bytes, passed)) = passed.filter(|_| random.once_in(GOES_ON_ONE_IN)) {
                (state, bytes) = (after, after_bytes);
                desk.lend(&bytes);
                desk.counts.imports.nights_behind += u64::from(is_imported);
                desk.switched_by_night(&mut switch, (&state, &bytes), &passed)?;
            }
        }
    }
    Ok(())
}

/// State and image with which a session begins.
struct Begun {
    state: State,
    bytes: Vec<u8>,
    is_imported: bool,
}

/// Bytes at random, made fresh with a target of either kind, or now and then what a list is imported as.
fn begun(desk: &mut Desk, random: &mut Random) -> Compared<Begun> {
    let mut bytes: Vec<u8> = (0..LENGTH).map(|_| random.bits() as u8).collect();
    if random.once_in(IMPORTED_ONE_IN) {
        if let Some((state, bytes)) = lists::begun(desk, &bytes, random)? {
            desk.lend(&bytes);
            return Ok(Begun { state, bytes, is_imported: true });
        }
    }
    desk.lend(&bytes);
    let mut state = State::fresh();
    let remembers = random.below(2);
    desk.call(&mut state, &mut bytes, &Request::Fresh(remembers as u64))?;
    desk.counts.remembers.sessions[remembers] += 1;
    Ok(Begun { state, bytes, is_imported: false })
}

/// Compares the live list in rooms of every length in bytes, for lists of every length that follow on a last fold.
pub fn rooms(desk: &mut Desk, folded: Number) -> Compared<()> {
    let (mut state, mut bytes) = opened(desk, folded)?;
    for number in u64::from(folded.0) + 1..=u64::from(folded.0) + 129 {
        for room in 0..=MOST_ROOM {
            desk.read(Some(&state), &bytes, room)?;
        }
        desk.call(&mut state, &mut bytes, &Request::Append(vec![5, 0, number as u8, 1]))?;
        for _ in 0..2 {
            let request = Request::Work { node: 1, job: 1, number, outcome: 0, cut: 0 };
            desk.call(&mut state, &mut bytes, &request)?;
        }
    }
    Ok(())
}
