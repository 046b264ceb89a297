//! What the programs of order 11 are given: chosen inputs, the same in every run, then such as are drawn.

use makowist_host::controller::{Number, Ordinal, Phase, State, Status, LOG_LIMIT, PATHS};
use makowist_host::image::{self, at, put_u16, HIGHEST_STATUSES, LENGTH};
use makowist_host::made_up::{damage, made_up};
use makowist_host::northbound::{act, bytes_of, Request};
use makowist_host::random::Random;
use makowist_host::requests::{change, sensible};
use makowist_host::sheet::LOGS;

/// An image of a state, with nonsense where nothing is looked at.
pub fn image_of(state: &State) -> Vec<u8> {
    let mut bytes = vec![0xee; LENGTH];
    put_u16(&mut bytes, at::HIGHEST, state.highest().0);
    image::encode(state, &mut bytes);
    bytes
}

/// A session that goes on from log to log.
pub struct Session(State, usize);

impl Session {
    pub fn new(random: &mut Random) -> Session {
        Session(State::fresh(), random.one_of(&[1, 2, 4, 8, 40, LOG_LIMIT]))
    }

    /// The state so many calls further on.
    pub fn next(&mut self, random: &mut Random) -> State {
        for _ in 0..random.below(20) {
            let request = sensible(&self.0, self.1, random);
            act(&mut self.0, &request);
        }
        self.0.clone()
    }
}

/// A made-up state whose committed values differ from the applied in few paths, and few of whose base values are set.
fn drifting(random: &mut Random) -> State {
    let mut state = made_up(random).0;
    state.committed.values = state.applied.values;
    for _ in 0..random.below(4) {
        let path = random.one_of(&[0, 1, 15, 30, 31]);
        state.committed.values[path] = random.one_of(&[0, 1, state.applied.values[path] ^ 0x100]);
    }
    let none = random.below(PATHS + 1);
    state.base.iter_mut().enumerate().filter(|(path, _)| path * 7 % PATHS < none).for_each(|(_, value)| *value = 0);
    state
}

/// A log at random: mostly an image, of a session or made up, now and then one that is damaged.
fn log(session: &mut Session, random: &mut Random) -> Vec<u8> {
    let state = match random.below(3) {
        0 => session.next(random),
        1 => drifting(random),
        _ => made_up(random).0,
    };
    let mut bytes = image_of(&state);
    if random.once_in(5) {
        damage(&mut bytes, &state, random);
        bytes.resize(LENGTH, 0);
    }
    bytes
}

/// Logs with every number that four statuses can be, both phases, ordinals at and beside the applied one.
fn of_every_status() -> Vec<Vec<u8>> {
    let all: Vec<u16> = (0..=HIGHEST_STATUSES).collect();
    all.chunks(LOG_LIMIT).enumerate().map(|(place, numbers)| image_of(&of_statuses(place, numbers))).collect()
}

fn of_statuses(place: usize, numbers: &[u16]) -> State {
    let mut state = State::fresh();
    (state.folded, state.applied.ordinal) = (Number([0, 100, 65_407][place % 3]), Ordinal(place as u32 % 2));
    state.committed.ordinal = Ordinal(2);
    for (number, path) in numbers.iter().zip((0..PATHS as u16).cycle()) {
        state.append(&[(path, *number)]).expect("there is room");
        let it = state.log.last_mut().expect("one was appended");
        let [commit, apply, back, undo] = [343, 49, 7, 1].map(|weight| Status::ALL[usize::from(number / weight % 7)]);
        (it.c.commit, it.c.apply, it.r.commit, it.r.apply) = (commit, apply, back, undo);
        it.phase = if (number + number / 7) % 2 == 0 { Phase::Change } else { Phase::Rollback };
        (it.c.ordinal, it.r.ordinal) = (Ordinal(u32::from(number / 3 % 3)), Ordinal(u32::from(number % 3)));
    }
    state
}

/// Logs that differ at each path alone, at none and at all.
fn of_every_path() -> Vec<Vec<u8>> {
    let mut states = vec![State::fresh(); PATHS + 2];
    for (path, state) in states.iter_mut().enumerate().take(PATHS) {
        (state.committed.values[path], state.target.values[path % 7]) = (1 + path as u16, 9);
    }
    states[PATHS].committed.values = [256; PATHS];
    states.iter().map(image_of).collect()
}

/// A log of as many as can be kept, each of four pairs of the longest.
fn longest() -> Vec<u8> {
    let mut state = State::fresh();
    (state.folded, state.base) = (Number(65_407), [65_535; PATHS]);
    let pairs = [(28, 65_535), (29, 65_535), (30, 65_535), (31, 65_535)];
    for _ in 0..LOG_LIMIT {
        state.append(&pairs).expect("there is room");
    }
    state.log.iter_mut().for_each(|it| it.c.apply = Status::Complete);
    state.committed.values = [65_535; PATHS];
    image_of(&state)
}

/// A session's states in which a push is cut at each of its stores, and then its rollback's.
fn cut_pushes() -> Vec<Vec<u8>> {
    let mut state = State::fresh();
    let work = |job: u64, cut: u64| Request::Work { node: 1, job, number: 1, outcome: 0, cut };
    let mut requests =
        vec![Request::Start, Request::Connect(1), Request::Master(1), Request::Sync(1), Request::Sync(1)];
    requests.push(Request::Append(bytes_of(&[(3, 7), (4, 0)])));
    requests.extend([work(1, 0), work(1, 0), work(2, 0), work(2, 1), work(2, 2), work(2, 0), Request::Rollback(1)]);
    requests.extend([work(3, 0), work(3, 0), work(4, 0), work(4, 1), work(4, 2), work(4, 0), Request::Fold(1)]);
    let mut images = vec![image_of(&state)];
    for request in requests {
        act(&mut state, &request);
        images.push(image_of(&state));
    }
    images
}

/// An image that is none: its master is no node.
fn bad() -> Vec<u8> {
    let mut bytes = longest();
    bytes[at::MASTERSHIP] = 9;
    bytes
}

/// Chosen inputs of the sheet: of every length about that of an image, about that of 64, and bad logs at each end.
fn chosen_sheets() -> Vec<Vec<u8>> {
    let (longest, bad) = (longest(), bad());
    let mut all = vec![Vec::new(), of_every_status().concat(), of_every_path().concat(), cut_pushes().concat()];
    let many = longest.repeat(LOGS + 3);
    all.extend(
        [1, 2, LENGTH / 2, LENGTH - 1, LENGTH, LENGTH + 1, 2 * LENGTH - 1].map(|length| many[..length].to_vec()),
    );
    all.extend([[&bad[..], &longest, &bad].concat(), [&longest[..], &bad, &longest].concat()]);
    for length in [LOGS - 1, LOGS, LOGS + 1, LOGS + 2].map(|logs| LENGTH * logs) {
        all.extend([length - 1, length, length + 1].map(|length| many[..length].to_vec()));
    }
    let fresh = image_of(&State::fresh());
    all.push([fresh.repeat(LOGS), bad.clone()].concat());
    all.push([bad.repeat(LOGS), fresh].concat());
    all
}

/// So many inputs of the sheet: those that are chosen, and others.
pub fn sheets(count: usize, random: &mut Random) -> Vec<Vec<u8>> {
    let mut all = chosen_sheets();
    while all.len() < count {
        let logs = match random.below(6) {
            0 => random.between(LOGS, LOGS + 2),
            1 => random.below(3),
            _ => random.below(LOGS),
        };
        let mut session = Session::new(random);
        let mut input: Vec<u8> = (0..logs).flat_map(|_| log(&mut session, random)).collect();
        if random.once_in(4) {
            input.truncate(random.below(input.len() + 1));
        }
        all.push(input);
    }
    all
}

/// So many inputs of the record: those that are chosen, and others, most of them an image.
pub fn records(count: usize, random: &mut Random) -> Vec<Vec<u8>> {
    let (longest, bad) = (longest(), bad());
    let mut all = [of_every_status(), cut_pushes()].concat();
    all.extend([0, 1, LENGTH - 1, LENGTH, LENGTH + 1, 2 * LENGTH].map(|length| longest.repeat(2)[..length].to_vec()));
    all.push(bad);
    let mut session = Session::new(random);
    while all.len() < count {
        if random.once_in(16) {
            session = Session::new(random);
        }
        if random.once_in(8) {
            act(&mut session.0, &Request::Append(change(random)));
        }
        let mut input = log(&mut session, random);
        match random.below(24) {
            0 => input.truncate(random.below(LENGTH)),
            1 => input.resize(LENGTH + random.between(1, 3), 0),
            _ => {}
        }
        all.push(input);
    }
    all
}
