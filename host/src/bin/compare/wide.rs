//! Numbers of more than 16 bits, in every argument of every function, and rooms that are a byte too short or too long.

use crate::by_itself;
use crate::desk::{Compared, Desk};
use crate::sessions::opened;
use makowist_host::arguments::{Argument, Numbers, Wide};
use makowist_host::controller::{Number, Refusal, State, NODES, PATHS};
use makowist_host::night::{Night, BUDGET_LIMIT, OUTCOMES};
use makowist_host::northbound::{bytes_of, Request};
use makowist_host::reads::{Query, CONNECTION_FIELDS, RECORD_FIELDS, TABLES, TRANSACTION_FIELDS};
use makowist_host::sheet::{Tally, LOGS, TOTALS};
use std::ops::RangeInclusive;

/// The functions that take numbers, each with its arguments in their order.
const FUNCTIONS: [(&str, &[Argument]); 19] = [
    ("rollback", &[Argument::Number]),
    ("fold", &[Argument::Number]),
    ("connect", &[Argument::Node]),
    ("disconnect", &[Argument::Node]),
    ("master", &[Argument::Node]),
    ("sync", &[Argument::Node]),
    ("work", &[Argument::Node, Argument::Job, Argument::Number, Argument::Outcome, Argument::Cut]),
    ("value", &[Argument::Table, Argument::Path]),
    ("transaction", &[Argument::Number, Argument::Field]),
    ("record", &[Argument::Field]),
    ("connection", &[Argument::Node, Argument::Field]),
    ("why", &[Argument::Node, Argument::Job, Argument::Number]),
    ("night", &[Argument::Node, Argument::Budget]),
    ("owner", &[Argument::Path]),
    ("fresh", &[Argument::Remembers]),
    ("class", &[Argument::Number]),
    ("took", &[Argument::Number]),
    ("undone", &[Argument::Number]),
    ("tally", &[Argument::Log]),
];

/// The most arguments that a function has.
const MOST_ARGUMENTS: usize = 5;

/// A room by how it fits a list that is not empty.
#[derive(Clone, Copy)]
enum Room {
    ByteTooShort,
    Exact,
    ByteTooLong,
}

/// Counts by function, argument and how the number is wide; and by how a room fits.
#[derive(Default)]
pub struct Seen {
    wide: [[[u64; Wide::ALL.len()]; MOST_ARGUMENTS]; FUNCTIONS.len()],
    rooms: [u64; 3],
}

impl Seen {
    pub fn called(&mut self, state: &State, request: &Request, answer: u64) {
        let function = match request {
            Request::Append(_) | Request::Start | Request::Stop => return,
            Request::Fresh(_) => 14,
            Request::Rollback(_) => 0,
            Request::Fold(_) => 1,
            Request::Connect(_) => 2,
            Request::Disconnect(_) => 3,
            Request::Master(_) => 4,
            Request::Sync(_) => 5,
            Request::Work { .. } => 6,
        };
        self.saw(function, state, request.clone().numbers(), answer);
    }

    pub fn queried(&mut self, state: &State, mut query: Query, answer: u64) {
        let function = match query {
            Query::Value { .. } => 7,
            Query::Transaction { .. } => 8,
            Query::Record { .. } => 9,
            Query::Connection { .. } => 10,
            Query::Why(_) => 11,
            Query::Owner { .. } => 13,
            Query::Class { .. } => 15,
            Query::Took { .. } => 16,
            Query::Undone { .. } => 17,
            Query::Drift => return,
        };
        self.saw(function, state, query.numbers(), answer);
    }

    pub fn worked_through(&mut self, state: &State, night: &Night, answer: u64) {
        let table_in_range = night.outcomes.len() == OUTCOMES && night.outcomes.iter().all(|outcome| *outcome <= 1);
        if table_in_range {
            self.saw(12, state, night.clone().numbers(), answer);
        }
    }

    /// A tally whose totals every log's place allows.
    pub fn tallied(&mut self, state: &State, asked: &Tally, answer: u64) {
        if asked.totals == [0; TOTALS] {
            self.saw(18, state, asked.clone().numbers(), answer);
        }
    }

    /// Counts a call that is refused for one wide number, all its others being in range.
    fn saw(&mut self, function: usize, state: &State, numbers: Numbers, answer: u64) {
        let range = |argument: Argument| in_range(FUNCTIONS[function].0, argument, state);
        let mut outside = numbers.iter().enumerate().filter(|(_, (argument, number))| !range(*argument).contains(*number));
        let (Some((place, (argument, number))), None) = (outside.next(), outside.next()) else {
            return;
        };
        let wide = Wide::ALL.iter().position(|wide| match wide {
            Wide::Above16 | Wide::Above32 => {
                number.checked_sub(wide.of(0)).is_some_and(|number| number > 0 && range(*argument).contains(&number))
            }
            _ => **number == wide.of(0),
        });
        if let (Some(wide), true) = (wide, answer == u64::from(refusal_of(*argument).number())) {
            self.wide[function][place][wide] += 1;
        }
    }

    /// Counts a list of that length in a room of so many bytes.
    pub fn listed(&mut self, length: usize, room: usize) {
        let fits = match (2 * length).abs_diff(room) {
            0 => Room::Exact,
            1 if room < 2 * length => Room::ByteTooShort,
            1 => Room::ByteTooLong,
            _ => return,
        };
        self.rooms[fits as usize] += u64::from(length > 0);
    }

    /// Prints every count, and answers how many are 0.
    pub fn told(&self) -> usize {
        let mut unseen = self.rooms.iter().filter(|count| **count == 0).count();
        println!("{:>12}  numbers of more than 16 bits, by how: {:?}", "", Wide::ALL);
        for ((function, arguments), counts) in FUNCTIONS.iter().zip(&self.wide) {
            for (argument, counts) in arguments.iter().zip(counts) {
                let (sum, refusal) = (counts.iter().sum::<u64>(), refusal_of(*argument).number());
                println!("{sum:>12}  {function} {argument:?} refused by {refusal}: {counts:?}");
                unseen += counts.iter().filter(|count| **count == 0).count();
            }
        }
        println!("{:>12}  lists in rooms a byte too short, exact, a byte too long: {:?}", "", self.rooms);
        unseen
    }
}

fn refusal_of(argument: Argument) -> Refusal {
    if argument == Argument::Number { Refusal::NoSuchNumber } else { Refusal::OutOfRange }
}

/// The numbers that a function takes without refusing them for their range.
fn in_range(function: &str, argument: Argument, state: &State) -> RangeInclusive<u64> {
    match argument {
        Argument::Node => 1..=NODES as u64,
        Argument::Job => 1..=4,
        Argument::Number => 1..=state.highest().0.into(),
        Argument::Outcome => 0..=1,
        Argument::Cut => 0..=2,
        Argument::Table => 1..=TABLES,
        Argument::Path => 0..=PATHS as u64 - 1,
        Argument::Field if function == "transaction" => 1..=TRANSACTION_FIELDS,
        Argument::Field if function == "record" => 1..=RECORD_FIELDS,
        Argument::Field => 1..=CONNECTION_FIELDS,
        Argument::Budget => 0..=BUDGET_LIMIT,
        Argument::Remembers => 0..=1,
        Argument::Log => 1..=LOGS as u64,
    }
}

/// The last folds that the states follow on: in the last of them the highest number has all its 16 bits set.
const FOLDED: [Number; 3] = [Number::NONE, Number(127), Number(65_533)];

/// From the states of a short session, every call that is in range with each of its numbers made wide in each way.
pub fn run(desk: &mut Desk) -> Compared<()> {
    for folded in FOLDED {
        let (mut state, mut bytes) = opened(desk, folded)?;
        every(desk, &state, &bytes)?;
        for number in u64::from(folded.0) + 1..=u64::from(folded.0) + 2 {
            let append = Request::Append(bytes_of(&[(3, number as u16), (31, 7)]));
            let work = |job: u64| Request::Work { node: 1, job, number, outcome: 0, cut: 0 };
            for request in [append, work(1), work(1), work(2), work(2), Request::Rollback(number), work(3)] {
                desk.call(&mut state, &mut bytes, &request)?;
                every(desk, &state, &bytes)?;
            }
        }
    }
    Ok(())
}

/// Every call that is in range from a state, with each of its numbers made wide in each way; every read so, and a night.
pub fn every(desk: &mut Desk, state: &State, bytes: &[u8]) -> Compared<()> {
    for request in requests(state).iter().flat_map(|request| widened(request, Request::numbers)) {
        desk.call_from(state, bytes, &request)?;
    }
    for query in Query::all(state).iter().flat_map(|query| widened(query, Query::numbers)) {
        desk.query(Some(state), bytes, query)?;
    }
    by_itself::widened(desk, state, bytes)
}

/// The call with each of its numbers made wide in each way.
pub fn widened<T: Clone>(call: &T, numbers: impl Fn(&mut T) -> Numbers) -> Vec<T> {
    let mut all = Vec::new();
    for place in 0..numbers(&mut call.clone()).len() {
        for wide in Wide::ALL {
            let mut widened = call.clone();
            let number = &mut *numbers(&mut widened)[place].1;
            *number = wide.of(*number);
            all.push(widened);
        }
    }
    all
}

/// Every call with its numbers in range, jobs by the master and by another node.
fn requests(state: &State) -> Vec<Request> {
    let nodes = 1..=NODES as u64;
    let calls = [Request::Connect, Request::Disconnect, Request::Master, Request::Sync];
    let mut all: Vec<Request> = nodes.flat_map(|node| calls.map(|call| call(node))).collect();
    all.extend([0, 1].map(Request::Fresh));
    for number in state.kept().map(|(number, _)| u64::from(number.0)) {
        all.extend([Request::Rollback(number), Request::Fold(number)]);
        for (node, job) in [1, 2].into_iter().flat_map(|node| (1..=4).map(move |job| (node, job))) {
            for (outcome, cut) in [(0, 0), (0, 1), (0, 2), (1, 0), (1, 1)] {
                all.push(Request::Work { node, job, number, outcome, cut });
            }
        }
    }
    all
}
