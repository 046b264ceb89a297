//! Chosen states, most of which no session reaches, and every call from each: such that every store of the calls from outside
//! shows, each of their conditions decides alone, and each two refusals that follow on each other hold together.

use crate::desk::{Compared, Desk};
use crate::wide;
use makowist_host::controller::{
    Change, Configuration, ConfigurationState, Connection, Mastership, Node, Number, Ordinal, Phase, Progress, State, Status,
    Target, Term, Transaction, LOG_LIMIT, PATHS,
};
use makowist_host::image::{self, at, put_u16, LENGTH};
use makowist_host::northbound::{bytes_of, Request};
use makowist_host::reads::Query;
use makowist_host::requests::numbers;
use makowist_host::why::Question;

/// What lies in an image where nothing is looked at.
const UNUSED: u8 = 0xee;
/// A master's number that no well-formed image has.
const NO_NODE: u8 = 9;
/// The connection that mastership names.
const CONN: u32 = 5;

pub fn run(desk: &mut Desk) -> Compared<()> {
    for log in logs() {
        for net in few_nets() {
            every_call(desk, &with_net(&log, net), &log_requests(&log))?;
        }
        every_call(desk, &with_net(&log, SYNCHRONISING), &net_requests())?;
        damaged(desk, &with_net(&log, OPEN))?;
        damaged(desk, &with_net(&log, STOPPED))?;
    }
    let log = one(Status::Complete, Phase::Change);
    nets().try_for_each(|net| every_call(desk, &with_net(&log, net), &net_requests()))?;
    let state = with_net(&many(2, 1), OPEN);
    let bytes = lent(desk, &state);
    wide::every(desk, &state, &bytes)
}

/// Lends the state's image and compares these calls from it, and a few reads.
fn every_call(desk: &mut Desk, state: &State, requests: &[Request]) -> Compared<()> {
    let bytes = lent(desk, state);
    requests.iter().try_for_each(|request| desk.call_from(state, &bytes, request).map(|_| ()))?;
    for number in [0, state.folded.0.into(), u64::from(state.highest().0) + 1] {
        for field in [0, 1] {
            desk.query(Some(state), &bytes, Query::Transaction { number, field })?;
        }
    }
    (1..=4).try_for_each(|table| desk.query(Some(state), &bytes, Query::Value { table, path: 0 }))?;
    [0, 3, 31, 32].iter().try_for_each(|path| desk.query(Some(state), &bytes, Query::Owner { path: *path }))?;
    for (node, job) in [(0, 1), (1, 0), (1, 1), (1, 2), (1, 4), (2, 1), (1, 5)] {
        for number in [0, 1, state.highest().0.into(), u64::from(state.highest().0) + 1] {
            desk.query(Some(state), &bytes, Query::Why(Question { node, job, number }))?;
        }
    }
    Ok(())
}

/// The logs with each of a few nets.
pub fn states() -> impl Iterator<Item = State> {
    logs().into_iter().flat_map(|log| few_nets().map(|net| with_net(&log, net)))
}

/// Makes the master of an image no node.
pub fn spoil(bytes: &mut [u8]) {
    bytes[at::MASTERSHIP] = NO_NODE;
}

/// The same image with a master that is no node: whatever is asked of it, the answer is 1.
fn damaged(desk: &mut Desk, state: &State) -> Compared<()> {
    let mut bytes = lent(desk, state);
    spoil(&mut bytes);
    desk.lend(&bytes);
    for request in log_requests(state).iter().chain(&net_requests()) {
        desk.call_from_bytes(None, &bytes, request)?;
    }
    for query in [
        Query::Value { table: 0, path: 0 },
        Query::Transaction { number: 1, field: 0 },
        Query::Record { field: 0 },
        Query::Connection { node: 0, field: 1 },
        Query::Owner { path: 32 },
        Query::Why(Question { node: 0, job: 1, number: 1 }),
    ] {
        desk.query(None, &bytes, query)?;
    }
    desk.read(None, &bytes, 0)
}

/// Lends the state's image, and answers its bytes.
pub fn lent(desk: &mut Desk, state: &State) -> Vec<u8> {
    let mut bytes = vec![UNUSED; LENGTH];
    put_u16(&mut bytes, at::HIGHEST, state.highest().0);
    image::encode(state, &mut bytes);
    desk.lend(&bytes);
    bytes
}

/// Where the target, the connection of node 1, mastership and the configuration stand.
#[derive(Clone, Copy)]
pub struct Net {
    pub running: bool,
    pub remembers: bool,
    pub connected: bool,
    pub id: u32,
    pub master: u64,
    pub state: ConfigurationState,
    /// Whether the configuration's term is the mastership's.
    pub same_term: bool,
    /// Whether the target's id and the mastership's term can be counted no further.
    pub at_limit: bool,
}

/// The line is open for node 1.
pub const OPEN: Net = Net {
    running: true,
    remembers: false,
    connected: true,
    id: CONN,
    master: 1,
    state: ConfigurationState::Complete,
    same_term: true,
    at_limit: false,
};

/// The target is stopped.
pub const STOPPED: Net = Net { running: false, ..OPEN };

/// The next synchronise of node 1 writes.
pub const SYNCHRONISING: Net = Net { state: ConfigurationState::InProgress, same_term: false, ..OPEN };

/// The line open, closed by the target, closed by the term, and not the node's.
fn few_nets() -> [Net; 5] {
    let remembering = Net { remembers: true, ..OPEN };
    [OPEN, STOPPED, Net { same_term: false, ..remembering }, Net { master: 0, ..OPEN }, Net { master: 2, ..remembering }]
}

fn nets() -> impl Iterator<Item = Net> {
    let both = [false, true];
    let states = [ConfigurationState::Pending, ConfigurationState::InProgress, ConfigurationState::Complete];
    let nets = both.into_iter().flat_map(move |at_limit| both.map(|same_term| Net { at_limit, same_term, ..OPEN }));
    let nets = nets.flat_map(move |net| states.map(|state| Net { state, ..net }));
    let nets = nets.flat_map(|net| [0, 1, 2].map(|master| Net { master, ..net }));
    let nets = nets.flat_map(|net| [CONN, CONN + 1, u32::MAX].map(|id| Net { id, ..net }));
    let nets = nets.flat_map(move |net| both.map(|remembers| Net { remembers, ..net }));
    nets.flat_map(move |net| {
        both.into_iter().flat_map(move |running| both.map(|connected| Net { running, connected, ..net }))
    })
}

/// The state with that net: nodes 2 and 8 connected, the former with an id equal to conn.
pub fn with_net(state: &State, net: Net) -> State {
    let mut state = state.clone();
    let term = if net.at_limit { u32::MAX } else { 3 };
    (state.target.running, state.target.remembers) = (net.running, net.remembers);
    state.target.id = if net.at_limit { u32::MAX } else { 1 };
    state.connections[0] = Connection { id: net.id, connected: net.connected };
    state.connections[1] = Connection { id: CONN, connected: true };
    state.connections[7] = Connection { id: 2, connected: true };
    state.mastership = Mastership { master: Node::new(net.master), term: Term(term), conn: CONN };
    state.configuration = Configuration { state: net.state, term: Term(term - u32::from(!net.same_term)) };
    state
}

/// A fresh state, each of its tables with values of its own.
pub fn empty() -> State {
    let values = |first: u16| std::array::from_fn::<u16, PATHS, _>(|path| first + path as u16);
    let mut state = State::fresh();
    (state.committed.values, state.applied.values) = (values(100), values(200));
    state.target = Target { id: 0, running: false, remembers: false, values: values(300) };
    state
}

/// One change, with that c.commit and phase, which is committed where that is Complete.
fn one(commit: Status, phase: Phase) -> State {
    let mut state = empty();
    let change = Change::new([(3, 7)].into_iter()).expect("a valid change");
    let r = if phase == Phase::Rollback { Status::Pending } else { Status::None };
    let ordinal = Ordinal(u32::from(commit == Status::Complete));
    state.log.push(Transaction {
        phase,
        change,
        c: Progress { commit, apply: Status::Pending, ordinal },
        r: Progress { commit: r, apply: r, ordinal: Ordinal::NONE },
        r_index: Number::NONE,
        r_values: [0; 4],
        r_owners: [Number::NONE; 4],
    });
    if commit == Status::Complete {
        let committed = &mut state.committed;
        (committed.index, committed.change, committed.target, committed.revision) =
            (Number(1), Number(1), Number(1), Number(1));
        (committed.ordinal, committed.owners[3]) = (ordinal, Number(1));
    }
    state
}

/// So many changes kept after a last fold, none of which has begun.
pub fn many(folded: u16, kept: usize) -> State {
    let mut state = one(Status::Pending, Phase::Change);
    state.folded = Number(folded);
    state.log = vec![state.log[0]; kept];
    let committed = &mut state.committed;
    (committed.index, committed.change, committed.target, committed.revision) =
        (Number(folded), Number(folded), Number(folded), Number(folded));
    committed.owners = [Number(folded); PATHS];
    state
}

/// The rollback of 2 has committed, that of 1 has begun, and 3 waits: no rest, although the target is below the index.
fn in_flight() -> State {
    let mut state = one(Status::Complete, Phase::Rollback);
    let waits = one(Status::Pending, Phase::Change).log[0];
    let mut returned = state.log[0];
    (returned.c.ordinal, returned.r_index) = (Ordinal(2), Number(1));
    (returned.r.commit, returned.r.ordinal) = (Status::Complete, Ordinal(3));
    state.log.extend([returned, waits]);
    let committed = &mut state.committed;
    (committed.index, committed.change, committed.target, committed.ordinal) = (Number(2), Number(2), Number(0), Ordinal(3));
    state
}

/// The logs that calls are made on. The last are those that cost most.
fn logs() -> Vec<State> {
    let mut at_limit = one(Status::InProgress, Phase::Change);
    (at_limit.committed.target, at_limit.committed.ordinal) = (Number(1), Ordinal::LIMIT);
    let mut returning = one(Status::Complete, Phase::Rollback);
    returning.log[0].c.apply = Status::Complete;
    returning.log[0].r = Progress { commit: Status::Complete, apply: Status::InProgress, ordinal: Ordinal(2) };
    returning.applied.ordinal = Ordinal(1);
    let mut pushing = one(Status::Complete, Phase::Change);
    pushing.log[0].c.apply = Status::InProgress;
    let mut failed = pushing.clone();
    failed.log[0].c.apply = Status::Failed;
    let mut finished = one(Status::Complete, Phase::Change);
    finished.log[0].c.apply = Status::Complete;
    finished.applied.ordinal = Ordinal(1);
    vec![
        empty(),
        one(Status::Pending, Phase::Change),
        one(Status::Complete, Phase::Change),
        one(Status::Complete, Phase::Rollback),
        at_limit,
        returning,
        pushing,
        failed,
        finished,
        in_flight(),
        many(2, 1),
        many(200, 1),
        many(65_534, 1),
        many(0, LOG_LIMIT - 1),
        many(65_535 - LOG_LIMIT as u16, LOG_LIMIT),
    ]
}

/// Appends that are a change and that are none for one reason each, and every job, rollback and fold on the ends of the log.
fn log_requests(state: &State) -> Vec<Request> {
    let pairs: [&[(u16, u16)]; 7] = [
        &[(3, 7)],
        &[(3, 7), (5, 9)],
        &[],
        &[(32, 1)],
        &[(4, 1), (4, 2)],
        &[(5, 1), (4, 2)],
        &[(1, 1), (2, 2), (3, 3), (4, 4), (5, 5)],
    ];
    let mut all: Vec<Request> = pairs.iter().map(|pairs| Request::Append(bytes_of(pairs))).collect();
    all.push(Request::Append(vec![3, 0, 7, 0, 5]));
    let kept = u64::from(state.folded.0) + 2..u64::from(state.highest().0);
    for number in numbers(state).filter(|number| !kept.contains(number)) {
        all.extend([Request::Rollback(number), Request::Fold(number)]);
        for (node, job) in [1, 2].into_iter().flat_map(|node| (1..=4).map(move |job| (node, job))) {
            for (outcome, cut) in [(0, 0), (0, 1), (0, 2), (0, 3), (1, 0), (1, 1)] {
                all.push(Request::Work { node, job, number, outcome, cut });
            }
        }
        all.push(Request::Work { node: 0, job: 1, number, outcome: 0, cut: 0 });
    }
    all
}

/// Every call on the target, the connections, mastership and the configuration.
pub fn net_requests() -> Vec<Request> {
    let calls = [Request::Connect, Request::Disconnect, Request::Master, Request::Sync];
    let of_nodes = [0, 1, 2, 8, 9].into_iter().flat_map(|node| calls.map(|call| call(node)));
    [Request::Start, Request::Stop].into_iter().chain(of_nodes).collect()
}
