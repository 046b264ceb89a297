//! The calls that are measured, each with the image that it is made on.

use crate::measure::Measured;
use makowist_host::controller::{Refusal, State, LOG_LIMIT};
use makowist_host::image::{self, at, ENTRY, LENGTH};
use makowist_host::lean;
use makowist_host::northbound::{self, act, bytes_of, Request};
use makowist_host::peer;
use makowist_host::reads::Query;
use makowist_host::why::{Question, Reason};
use std::ops::Range;

/// A transaction's fields that show its pairs.
const PAIRS_FIELD: u64 = 9;
const PATH_FIELD: u64 = 10;

/// The path whose owner is asked for. No change that `append` makes sets it, so that the list is read to its end.
const UNSET_PATH: u64 = 31;

/// How many entries the measured logs have.
pub const LENGTHS: [usize; 4] = [0, 16, 64, 128];

#[derive(Clone, Debug)]
pub enum Call {
    Request(Request),
    Read(Query),
    Live,
    WellFormed,
    /// Who set a path, by reading the live list and its pairs, as before order 7.
    OwnerByList(u64),
}

pub struct Scene {
    pub name: &'static str,
    pub length: usize,
    pub image: Vec<u8>,
    pub call: Call,
    /// The part of the log that the call writes.
    written: Range<usize>,
}

/// Who does the work.
#[derive(Clone, Copy, PartialEq, Eq, Debug)]
pub enum Side {
    /// The exported functions of the proved archive.
    Proved,
    /// The independent controller's rules on the records that the call needs.
    Independent,
    /// The independent controller with its whole state decoded and encoded.
    Typed,
    /// A plain sum of the image's used bytes.
    Floor,
    /// The same bytes summed by words of eight.
    Words,
    /// Nothing: what the measuring itself costs.
    Nothing,
}

impl Measured for Scene {
    type Side = Side;
    /// An image, and room for a live list.
    type Ground = (Vec<u8>, [u8; 2 * LOG_LIMIT]);
    const SIDES: &'static [Side] =
        &[Side::Proved, Side::Independent, Side::Typed, Side::Floor, Side::Words, Side::Nothing];

    fn name(&self) -> &str {
        self.name
    }

    fn length(&self) -> usize {
        self.length
    }

    fn ground(&self) -> Self::Ground {
        (self.image.clone(), [0; 2 * LOG_LIMIT])
    }

    fn run(&self, side: Side, (image, room): &mut Self::Ground) -> u64 {
        self.call(side, image, room)
    }

    fn restore(&self, (image, _): &mut Self::Ground) {
        image[at::HIGHEST..].copy_from_slice(&self.image[at::HIGHEST..]);
        image[self.written.clone()].copy_from_slice(&self.image[self.written.clone()]);
    }
}

impl Scene {
    fn new(name: &'static str, length: usize, state: &State, call: Call) -> Scene {
        let mut image = vec![0; LENGTH];
        image::encode(state, &mut image);
        let mut scene = Scene { name, length, image, call, written: 0..0 };
        let mut after = scene.image.clone();
        scene.call(Side::Typed, &mut after, &mut [0; 2 * LOG_LIMIT]);
        let differs: Vec<usize> = (0..at::HIGHEST).filter(|place| after[*place] != scene.image[*place]).collect();
        if let (Some(first), Some(last)) = (differs.first(), differs.last()) {
            scene.written = first / ENTRY * ENTRY..(last / ENTRY + 1) * ENTRY;
        }
        scene
    }

    /// Makes the call on the image and answers its reply.
    fn call(&self, side: Side, image: &mut [u8], room: &mut [u8]) -> u64 {
        let pairs = match &self.call {
            Call::Request(Request::Append(pairs)) => pairs.as_slice(),
            _ => &[],
        };
        match (side, &self.call) {
            (Side::Nothing, _) => 0,
            (Side::Floor, _) => (sum(&image[..ENTRY * self.length]) + sum(&image[at::HIGHEST..])).into(),
            (Side::Words, _) => sum_of_words(&image[..ENTRY * self.length])
                .wrapping_add(sum_of_words(&image[at::HIGHEST..])),
            (Side::Proved, Call::Request(request)) => peer::serve(image, request, pairs),
            (Side::Proved, Call::Read(query)) => peer::read(image, *query),
            (Side::Proved, Call::Live) => peer::live(image, room),
            (Side::Proved, Call::WellFormed) => peer::well_formed(image),
            (Side::Proved, Call::OwnerByList(path)) => {
                by_list(peer::live(image, room), room, *path, |query| peer::read(image, query))
            }
            (Side::Independent, Call::Request(request)) => lean::serve(image, request, pairs),
            (Side::Independent, Call::Read(query)) => lean::read(image, *query),
            (Side::Independent, Call::Live) => lean::live(image, room),
            (Side::Independent, Call::WellFormed) => well_formed(lean::is_well_formed(image)),
            (Side::Independent, Call::OwnerByList(path)) => {
                by_list(lean::live(image, room), room, *path, |query| lean::read(image, query))
            }
            (Side::Typed, Call::Request(request)) => northbound::serve(image, request).packed(),
            (Side::Typed, Call::Read(query)) => query.packed(image::decode(image).as_ref(), image),
            (Side::Typed, Call::Live) => northbound::live(image, room),
            (Side::Typed, Call::WellFormed) => well_formed(image::decode(image).is_some()),
            (Side::Typed, Call::OwnerByList(path)) => {
                let query = |query: Query| query.packed(image::decode(image).as_ref(), image);
                by_list(northbound::live(image, room), room, *path, query)
            }
        }
    }

    /// The three that do the work must agree on it before they are measured.
    pub fn check(&self) -> u64 {
        let answers = [Side::Proved, Side::Independent, Side::Typed].map(|side| {
            let (mut image, mut room) = (self.image.clone(), vec![0; 2 * LOG_LIMIT]);
            (self.call(side, &mut image, &mut room), image, room)
        });
        assert!(answers[0] == answers[2] && answers[1] == answers[2], "{} at {}: the sides differ", self.name, self.length);
        answers[0].0 & 0xff
    }
}

/// The first of a live list that has a pair of that path, packed as an owner is.
fn by_list(listed: u64, room: &[u8], path: u64, read: impl Fn(Query) -> u64) -> u64 {
    let numbers = room.chunks_exact(2).take((listed >> 32) as usize).map(|two| u64::from(image::u16_at(two, 0)));
    let field = |number: u64, field: u64| read(Query::Transaction { number, field }) >> 32;
    let sets = |number: &u64| (0..field(*number, PAIRS_FIELD)).any(|place| field(*number, PATH_FIELD + place) == path);
    numbers.into_iter().find(sets).unwrap_or(0) << 32
}

fn well_formed(formed: bool) -> u64 {
    if formed { peer::WELL_FORMED } else { peer::NOT_WELL_FORMED }
}

#[inline(never)]
fn sum(bytes: &[u8]) -> u32 {
    bytes.iter().map(|byte| u32::from(*byte)).sum()
}

#[inline(never)]
fn sum_of_words(bytes: &[u8]) -> u64 {
    let word = |eight: &[u8]| u64::from_le_bytes(eight.try_into().expect("eight bytes"));
    bytes.chunks_exact(8).map(word).fold(0, u64::wrapping_add)
}

pub fn work(job: u64, number: usize) -> Request {
    Request::Work { node: 1, job, number: number as u64, outcome: 0, cut: 0 }
}

fn append(number: usize) -> Request {
    let path = (number % 29) as u16;
    Request::Append(bytes_of(&[(path, 7), (path + 1, 8), (path + 2, 9)]))
}

/// Carries the requests out, all of which are accepted.
pub fn led(mut state: State, requests: &[Request]) -> State {
    for request in requests {
        let served = act(&mut state, request);
        assert!(served.reply.is_ok(), "{request:?}: {served:?}");
    }
    state
}

/// A log of that length, all of it committed and applied, after a fold of so many, with the line open for node 1.
pub fn applied_after(folded: usize, length: usize) -> State {
    let line = [Request::Start, Request::Connect(1), Request::Master(1), Request::Sync(1), Request::Sync(1)];
    let mut state = led(State::fresh(), &line);
    for number in 1..=folded + length {
        state = led(state, &[append(number), work(1, number), work(1, number), work(2, number), work(2, number)]);
        if number == folded {
            state = led(state, &[Request::Fold(number as u64)]);
        }
    }
    state
}

fn applied(length: usize) -> State {
    applied_after(0, length)
}

/// Every call on a log of that length. An append's log is at most 127 long; jobs on an empty log are refused.
pub fn scenes(length: usize) -> Vec<Scene> {
    let base = applied(length);
    let before_last = applied(length.saturating_sub(1));
    let mut scenes = calls(length, &base, &before_last);
    scenes.extend(jobs(length, &base, before_last.clone()));
    scenes.extend(reads(length, &base));
    scenes.extend(whys(length, &base, &before_last));
    scenes.extend(folds(length, base));
    scenes.extend(rings(length));
    scenes
}

fn requested(name: &'static str, length: usize, state: &State, request: Request) -> Scene {
    Scene::new(name, length, state, Call::Request(request))
}

fn calls(length: usize, base: &State, before_last: &State) -> Vec<Scene> {
    let freed = led(base.clone(), &[Request::Disconnect(1), Request::Master(1), Request::Connect(2)]);
    let synchronising = led(freed.clone(), &[Request::Master(2), Request::Sync(2)]);
    let stopped = led(base.clone(), &[Request::Stop]);
    let again = [Request::Start, Request::Connect(1), Request::Master(1), Request::Master(1), Request::Sync(1)];
    let emptied = led(stopped.clone(), &again);
    [
        ("fresh", base, Request::Fresh(0)),
        ("append", if length == 128 { before_last } else { base }, append(length.min(127) + 1)),
        ("rollback", base, Request::Rollback(length as u64)),
        ("stop", base, Request::Stop),
        ("start", &stopped, Request::Start),
        ("connect", base, Request::Connect(2)),
        ("disconnect", base, Request::Disconnect(1)),
        ("master", &freed, Request::Master(2)),
        ("sync", &synchronising, Request::Sync(2)),
        ("sync of an emptied target", &emptied, Request::Sync(1)),
    ]
    .map(|(name, state, request)| requested(name, length, state, request))
    .into()
}

fn jobs(length: usize, base: &State, before_last: State) -> Vec<Scene> {
    if length == 0 {
        let names = [("job 1 refused", 1), ("job 2 refused", 2), ("job 3 refused", 3), ("job 4 refused", 4)];
        return names.map(|(name, job)| requested(name, length, base, work(job, 1))).into();
    }
    let mut scenes = Vec::new();
    let mut state = led(before_last, &[append(length)]);
    for (name, job) in [("job 1 open", 1), ("job 1 accept", 1), ("job 2 open", 2), ("job 2 push", 2)] {
        scenes.push(requested(name, length, &state, work(job, length)));
        state = led(state, &[work(job, length)]);
    }
    state = led(state, &[Request::Rollback(length as u64)]);
    for (name, job) in [("job 3 open", 3), ("job 3 return", 3), ("job 4 open", 4), ("job 4 push", 4)] {
        scenes.push(requested(name, length, &state, work(job, length)));
        state = led(state, &[work(job, length)]);
    }
    scenes
}

fn reads(length: usize, base: &State) -> Vec<Scene> {
    [
        ("read a value", Call::Read(Query::Value { table: 2, path: 9 })),
        ("read a transaction", Call::Read(Query::Transaction { number: length as u64, field: 4 })),
        ("read a record", Call::Read(Query::Record { field: 9 })),
        ("read a connection", Call::Read(Query::Connection { node: 8, field: 1 })),
        ("read an owner", Call::Read(Query::Owner { path: UNSET_PATH })),
        ("the same by the live list", Call::OwnerByList(UNSET_PATH)),
        ("live list", Call::Live),
        ("well-formed", Call::WellFormed),
    ]
    .map(|(name, call)| Scene::new(name, length, base, call))
    .into()
}

/// A job of node 1 to ask after, of which this is answered.
fn asked(name: &'static str, length: usize, state: &State, job: u64, number: usize, expected: Result<Reason, Refusal>) -> Scene {
    let question = Question { node: 1, job, number: number as u64 };
    assert_eq!(state.why(question).map(|why| why.reason), expected, "{name} at {length}");
    Scene::new(name, length, state, Call::Read(Query::Why(question)))
}

/// Each reason, and each way to what it names, near the log's end; then the questions that are refused.
fn whys(length: usize, base: &State, before_last: &State) -> Vec<Scene> {
    if length == 0 {
        return vec![asked("why: no such number", length, base, 1, 1, Err(Refusal::NoSuchNumber))];
    }
    let (last, before) = (length, length - 1);
    let cut = |job, number: usize, cut| Request::Work { node: 1, job, number: number as u64, outcome: 0, cut };
    let rollback = Request::Rollback(before as u64);
    let appended = led(before_last.clone(), &[append(last)]);
    let two_appended = led(applied(length - 2), &[append(before), append(last)]);
    let committed = led(appended.clone(), &[work(1, last), work(1, last)]);
    let two_committed = led(two_appended.clone(), &[before, before, last, last].map(|number| work(1, number)));
    let unsettled = led(two_committed.clone(), &[work(2, before), cut(2, before, 2)]);
    let opened = led(appended.clone(), &[rollback.clone(), work(1, last)]);
    let begun = led(appended.clone(), &[rollback.clone(), work(3, before)]);
    let cut_off = led(appended.clone(), &[rollback.clone(), cut(3, before, 1)]);
    let covered = led(base.clone(), &[rollback]);
    [
        ("why: finished", base, 2, last, Ok(Reason::Finished)),
        ("why: no rollback asked", base, 3, last, Ok(Reason::NoRollbackAsked)),
        ("why: earlier change", &two_appended, 1, last, Ok(Reason::EarlierChange)),
        ("why: in flight, the target", &opened, 3, before, Ok(Reason::CommitInFlight)),
        ("why: in flight, the lowest", &begun, 1, last, Ok(Reason::CommitInFlight)),
        ("why: in flight, the revision", &cut_off, 1, last, Ok(Reason::CommitInFlight)),
        ("why: change on top", &covered, 3, before, Ok(Reason::ChangeOnTop)),
        ("why: not committed", &appended, 2, last, Ok(Reason::NotCommitted)),
        ("why: earlier ordinal, settled", &two_committed, 2, last, Ok(Reason::EarlierOrdinal)),
        ("why: earlier ordinal, not settled", &unsettled, 2, last, Ok(Reason::EarlierOrdinal)),
        ("why: not waiting", &committed, 2, last, Err(Refusal::NotWaiting)),
    ]
    .map(|(name, state, job, number, expected)| asked(name, length, state, job, number, expected))
    .into()
}

/// Folds of so many where there are so many, and one refused: past the end of an empty log, else for its last entry.
fn folds(length: usize, base: State) -> Vec<Scene> {
    let dropped = [("fold of 1", 1), ("fold of 16", 16), ("fold of 127", 127)];
    let mut scenes: Vec<Scene> = dropped
        .into_iter()
        .filter(|(_, dropped)| *dropped <= length)
        .map(|(name, dropped)| requested(name, length, &base, Request::Fold(dropped as u64)))
        .collect();
    let asked = if length == 0 { base } else { led(base, &[Request::Rollback(length as u64)]) };
    scenes.push(requested("fold refused", length, &asked, Request::Fold(length.max(1) as u64)));
    scenes
}

/// What looks at every entry, where the log begins in the middle of the ring and at its last slot.
fn rings(length: usize) -> Vec<Scene> {
    let mut scenes = Vec::new();
    for (names, slot) in [
        (["well-formed from slot 64", "live list from slot 64", "job 2 open from slot 64"], 64),
        (["well-formed from slot 127", "live list from slot 127", "job 2 open from slot 127"], 127),
    ] {
        let base = applied_after(slot, length);
        scenes.push(Scene::new(names[0], length, &base, Call::WellFormed));
        scenes.push(Scene::new(names[1], length, &base, Call::Live));
        if length > 0 {
            let last = slot + length;
            let pending = led(applied_after(slot, length - 1), &[append(last), work(1, last), work(1, last)]);
            scenes.push(requested(names[2], length, &pending, work(2, last)));
        }
    }
    scenes
}
