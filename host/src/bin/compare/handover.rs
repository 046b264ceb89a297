//! Order 11 where it is chosen to show: every four statuses; every ordinal beside the applied one; every path that
//! differs, in each way; every place on the sheet and every kind of totals; sessions in which each class, and each
//! store of a push, does; and whole sheets.

use crate::desk::{Compared, Desk};
use crate::outside::{lent, many, spoil, with_net, OPEN};
use crate::sessions::opened;
use makowist_host::arguments::Wide;
use makowist_host::controller::{Number, Ordinal, Phase, State, Status, Values, LOG_LIMIT, PATHS};
use makowist_host::guarded::Edge;
use makowist_host::image::{self, HIGHEST_STATUSES, LENGTH};
use makowist_host::made_up::{damage, made_up};
use makowist_host::northbound::{act, bytes_of, Request};
use makowist_host::random::Random;
use makowist_host::requests::{numbers, sensible};
use makowist_host::sheet::{Counts, Tally, LOGS, TOTALS};

/// The last folds that states and sessions follow on.
const FOLDED: [u16; 3] = [0, 100, 65_535 - LOG_LIMIT as u16];

pub fn run(desk: &mut Desk) -> Compared<()> {
    desk.reached = false;
    statuses(desk)?;
    ordinals(desk)?;
    drifts(desk)?;
    for edge in [Edge::End, Edge::Begin] {
        desk.edge = edge;
        tallies(desk)?;
    }
    desk.reached = true;
    for (folded, edge) in FOLDED.into_iter().zip([Edge::End, Edge::Begin, Edge::End]) {
        desk.edge = edge;
        session(desk, Number(folded))?;
    }
    desk.reached = false;
    drawn(desk, &mut Random::new(11))
}

/// All numbers that four statuses can be, over logs of as many as can be kept, both phases in turn.
fn statuses(desk: &mut Desk) -> Compared<()> {
    let all: Vec<u16> = (0..=HIGHEST_STATUSES).collect();
    for (place, numbers) in all.chunks(LOG_LIMIT).enumerate() {
        let mut state = with_net(&many(FOLDED[place % FOLDED.len()], numbers.len()), OPEN);
        for (it, number) in state.log.iter_mut().zip(numbers) {
            let [commit, apply, back, undo] =
                [343, 49, 7, 1].map(|weight| Status::ALL[usize::from(number / weight % 7)]);
            (it.c.commit, it.c.apply, it.r.commit, it.r.apply) = (commit, apply, back, undo);
            it.phase = if (number + number / 7) % 2 == 0 { Phase::Change } else { Phase::Rollback };
        }
        every_number(desk, &state)?;
    }
    Ok(())
}

/// Both applies in every status, with ordinals at, below and above the applied one; a first and a last number.
fn ordinals(desk: &mut Desk) -> Compared<()> {
    let each: Vec<(usize, u32, u32)> =
        (0..7).flat_map(|status| (0..3).flat_map(move |own| (0..3).map(move |other| (status, own, other)))).collect();
    for (applied, folded) in (0..3).zip(FOLDED) {
        let mut state = with_net(&many(folded, each.len()), OPEN);
        (state.applied.ordinal, state.committed.ordinal) = (Ordinal(applied), Ordinal((applied + 1) % 3));
        for (it, (status, own, other)) in state.log.iter_mut().zip(&each) {
            (it.c.apply, it.r.apply) = (Status::ALL[*status], Status::ALL[(status + 3) % 7]);
            (it.c.commit, it.r.commit) = (Status::ALL[(status + 1) % 7], Status::ALL[(status + 2) % 7]);
            (it.c.ordinal, it.r.ordinal) = (Ordinal(*own), Ordinal(*other));
        }
        every_number(desk, &state)?;
        state.log.iter_mut().for_each(|it| (it.c, it.r) = (it.r, it.c));
        every_number(desk, &state)?;
    }
    Ok(())
}

/// Reads of every number, one past the end and folded ones too, and a few tallies.
fn every_number(desk: &mut Desk, state: &State) -> Compared<()> {
    let bytes = lent(desk, state);
    desk.sheet_of(Some(state), &bytes, &numbers(state).collect::<Vec<_>>())?;
    for log in [1, 2, LOGS as u64] {
        desk.tally(Some(state), &bytes, &Tally { log, totals: vec![0; TOTALS] })?;
    }
    Ok(())
}

/// Tables that are the same, that differ at each path alone in each way, at some, and at all; the target and the base
/// have others.
fn drifts(desk: &mut Desk) -> Compared<()> {
    let values: Values = std::array::from_fn(|path| 200 + path as u16);
    let mut all = vec![
        (values, values),
        ([0; PATHS], [0; PATHS]),
        ([0; PATHS], values),
        (values, values.map(|value| value + 256)),
    ];
    for path in 0..PATHS {
        for differs in [[200, 201], [200, 200 + 256], [200, 0], [0, 200]] {
            let (mut committed, mut applied) = (values, values);
            [committed[path], applied[path]] = differs;
            all.push((committed, applied));
        }
        let mut others = values.map(|value| value + 1);
        others[path] -= 1;
        all.push((values, others));
    }
    for (place, (committed, applied)) in all.into_iter().enumerate() {
        let mut state = with_net(&many(FOLDED[place % FOLDED.len()], 2), OPEN);
        (state.committed.values, state.applied.values) = (committed, applied);
        (state.target.values, state.base) = (values.map(|value| value + 7), [9; PATHS]);
        every_number(desk, &state)?;
    }
    Ok(())
}

/// Every place of a sheet with every kind of totals, of logs that keep none, one and 128, and of what is no image.
fn tallies(desk: &mut Desk) -> Compared<()> {
    let mut full = with_net(&many(0, LOG_LIMIT), OPEN);
    for (it, status) in full.log.iter_mut().zip(Status::ALL.into_iter().cycle()) {
        it.c.apply = status;
    }
    for state in [with_net(&many(0, 0), OPEN), with_net(&many(2, 1), OPEN), full] {
        let bytes = lent(desk, &state);
        asked().iter().try_for_each(|asked| desk.tally(Some(&state), &bytes, asked).map(|_| ()))?;
        let mut spoilt = bytes.clone();
        spoil(&mut spoilt);
        for bad in [&spoilt[..], &bytes[..LENGTH - 1], &bytes[..0]] {
            desk.lend(bad);
            asked().iter().try_for_each(|asked| desk.tally(None, bad, asked).map(|_| ()))?;
            desk.sheet_of(None, bad, &[0, 1, state.highest().0.into(), u64::MAX])?;
        }
    }
    Ok(())
}

/// Places, totals and lengths, each with the others in range, and two out of range together.
fn asked() -> Vec<Tally> {
    let whole = |log: u64, totals: &Counts| {
        let mut tally = Tally { log, totals: vec![0; TOTALS] };
        tally.store(totals);
        tally
    };
    let narrow = [0, 1, 2, 3, 4, 40, LOGS as u64 - 1, LOGS as u64, LOGS as u64 + 1, LOGS as u64 + 2, 255, 256, 65_535];
    let wide = [0, 1, LOGS as u64].into_iter().flat_map(|log| Wide::ALL.map(|wide| wide.of(log)));
    let mut all = Vec::new();
    for log in narrow.into_iter().chain(wide) {
        let limit = LOG_LIMIT as u16 * (log.clamp(1, LOGS as u64) as u16 - 1);
        all.extend(totals(limit).iter().map(|totals| whole(log, totals)));
        for length in [0, 1, 2, TOTALS - 2, TOTALS - 1, TOTALS + 1, TOTALS + 2, 2 * TOTALS] {
            all.push(Tally { log, totals: vec![0; length] });
        }
    }
    all.push(Tally { log: 2, totals: vec![1; TOTALS - 1] });
    all.push(Tally { log: 2, totals: vec![255; TOTALS + 1] });
    all
}

/// Totals about a limit: at it and past it, in each place alone and spread; and such as are far past it, or within it
/// in 16 bits alone.
fn totals(limit: u16) -> Vec<Counts> {
    let alone = |place: usize, total: u16| {
        let mut counts = Counts::default();
        counts[place] = total;
        counts
    };
    let mut all = vec![Counts::default(), [limit; 6], [u16::MAX; 6], [65_535, 1, 0, 0, 0, 0], [0, 0, 65_530, 3, 2, 1]];
    for place in 0..6 {
        let rest = alone((place + 1) % 6, limit - limit.min(250));
        let spread: Counts = std::array::from_fn(|each| rest[each] + alone(place, limit.min(250))[each]);
        all.extend([alone(place, limit), alone(place, limit + 1), alone(place, limit + LOG_LIMIT as u16), spread]);
        all.push(std::array::from_fn(|each| spread[each] + u16::from(each == 5 - place)));
    }
    all
}

/// A session on numbers that are counted from its last fold.
struct Session<'a> {
    desk: &'a mut Desk,
    state: State,
    bytes: Vec<u8>,
    folded: u64,
}

impl Session<'_> {
    /// Makes a call, and compares all that is read of the state behind it.
    fn call(&mut self, request: &Request) -> Compared<()> {
        self.desk.call(&mut self.state, &mut self.bytes, request)?;
        self.desk.sheet_of(Some(&self.state), &self.bytes, &numbers(&self.state).collect::<Vec<_>>())?;
        self.desk.sheet(Some(&self.state), &self.bytes)
    }

    fn append(&mut self, pairs: &[(u16, u16)]) -> Compared<()> {
        self.call(&Request::Append(bytes_of(pairs)))
    }

    /// A job with these outcomes and cuts, one after another.
    fn job(&mut self, job: u64, number: u64, steps: &[(u64, u64)]) -> Compared<()> {
        let number = self.folded + number;
        steps.iter().try_for_each(|(outcome, cut)| {
            self.call(&Request::Work { node: 1, job, number, outcome: *outcome, cut: *cut })
        })
    }

    fn rollback(&mut self, number: u64) -> Compared<()> {
        self.call(&Request::Rollback(self.folded + number))
    }
}

/// Steps of a job: whole ones, one that is rejected, and a push that is cut at its first store, at its second, and then
/// made good.
const WHOLE: [(u64, u64); 2] = [(0, 0); 2];
const REJECTED: [(u64, u64); 2] = [(0, 0), (1, 0)];
const CUT: [(u64, u64); 4] = [(0, 0), (0, 1), (0, 2), (0, 0)];

/// 1 is pushed in three steps; 2 is invalid; the switch rejects 3, and 4 is Aborted; 4 is undone (Canceled), then 3, in
/// three steps; 5 is taken and undone; 6 is taken. Then the front is folded, and all paths are set and not applied.
fn session(desk: &mut Desk, folded: Number) -> Compared<()> {
    let (state, bytes) = opened(desk, folded)?;
    let mut it = Session { desk, state, bytes, folded: folded.0.into() };
    for number in 1..=4 {
        it.append(&[(number, 7), (31, 10 + number)])?;
        it.job(1, number.into(), if number == 2 { &REJECTED } else { &WHOLE })?;
    }
    it.job(2, 1, &CUT)?;
    it.job(2, 3, &REJECTED)?;
    it.job(2, 4, &WHOLE)?;
    for number in [4, 3] {
        it.rollback(number)?;
        it.job(3, number, &WHOLE)?;
        it.job(4, number, &CUT)?;
    }
    for number in [5, 6] {
        it.append(&[(0, 1), (3, 0), (31, number as u16)])?;
        it.job(1, number, &WHOLE)?;
        it.job(2, number, &CUT[..3])?;
        it.job(2, number, &WHOLE)?;
        if number == 5 {
            it.rollback(number)?;
            it.job(3, number, &WHOLE)?;
            it.job(4, number, &WHOLE)?;
        }
    }
    it.call(&Request::Fold(it.folded + 2))?;
    for (number, first) in (7..).zip((0..PATHS as u16).step_by(4)) {
        it.append(&std::array::from_fn::<_, 4, _>(|place| (first + place as u16, 1000)))?;
        it.job(1, number, &WHOLE)?;
    }
    it.call(&Request::Fold(it.folded + 5))
}

/// How many whole sheets are drawn, and how many calls lie between the logs of theirs that a session leads to.
const SHEETS: usize = 24;
const CALLS: usize = 20;

/// Whole sheets at random: of no log, one, some, 64 and more; logs of a session, made-up ones, and such as are damaged.
pub fn drawn(desk: &mut Desk, random: &mut Random) -> Compared<()> {
    for place in 0..SHEETS {
        let length = [0, 1, random.between(2, 40), LOGS, LOGS + 1, LOGS + 3][place % 6];
        let mut led = State::fresh();
        let logs: Vec<_> = (0..length).map(|_| log(&mut led, random)).collect();
        desk.whole_sheet(&logs)?;
    }
    Ok(())
}

/// A log at random: what its bytes decode to, and they.
fn log(led: &mut State, random: &mut Random) -> (Option<State>, Vec<u8>) {
    let (state, mut bytes) = match random.below(3) {
        0 => {
            for _ in 0..CALLS {
                let request = sensible(led, LOG_LIMIT, random);
                act(led, &request);
            }
            let mut bytes = vec![0; LENGTH];
            image::encode(led, &mut bytes);
            (led.clone(), bytes)
        }
        _ => made_up(random),
    };
    if random.once_in(4) {
        damage(&mut bytes, &state, random);
    }
    (image::decode(&bytes), bytes)
}
