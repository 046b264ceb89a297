//! The C interface's reads over the independent controller: one number of the state at a time, who set a path, a
//! transaction's class and what the switch took of it, where the values differ, or why a job does not move.

use crate::controller::{Connection, Node, Progress, Refusal, State, Transaction, PATHS};
use crate::image::{configuration_code, entry, entry_at, u16_at};
use crate::random::Random;
use crate::requests::{any_number, any_question, numbers, widen};
use crate::why::{Question, Why};

/// What is asked of an image, its numbers as wide as in the C interface.
#[derive(Clone, Copy, PartialEq, Eq, Hash, Debug)]
pub enum Query {
    Value { table: u64, path: u64 },
    Transaction { number: u64, field: u64 },
    Record { field: u64 },
    Connection { node: u64, field: u64 },
    Owner { path: u64 },
    Class { number: u64 },
    Took { number: u64 },
    Undone { number: u64 },
    Drift,
    Why(Question),
}

/// What a query shows.
#[derive(Clone, Copy, PartialEq, Eq, Debug)]
pub enum Shown {
    Number(u32),
    Why(Why),
}

/// How many tables there are, and fields of each record; each counted from 1.
pub const TABLES: u64 = 4;
pub const TRANSACTION_FIELDS: u64 = 21;
pub const RECORD_FIELDS: u64 = 18;
pub const CONNECTION_FIELDS: u64 = 2;

/// The transaction's fields that hold its pairs: paths, values and r.values, four places each.
const PATH_FIELD: u64 = 10;
const VALUE_FIELD: u64 = 14;
const R_VALUE_FIELD: u64 = 18;

impl Query {
    /// A query at random, now and then out of range, folded or past the log's end, or with more than 16 bits.
    pub fn any(state: &State, random: &mut Random) -> Query {
        let mut query = Query::narrow(state, random);
        if random.once_in(12) {
            widen(query.numbers(), random);
        }
        query
    }

    fn narrow(state: &State, random: &mut Random) -> Query {
        let field = |fields: u64, random: &mut Random| match random.once_in(12) {
            true => random.one_of(&[0, fields + 1, 255, 256, 257, 65535]),
            false => random.between(1, fields as usize) as u64,
        };
        match random.below(9) {
            0 | 1 => {
                let table = field(TABLES, random);
                Query::Value { table, path: field(PATHS as u64, random).wrapping_sub(1) }
            }
            8 => Query::Owner { path: field(PATHS as u64, random).wrapping_sub(1) },
            2 | 3 => Query::Record { field: field(RECORD_FIELDS, random) },
            4 => {
                let node = field(8, random);
                Query::Connection { node, field: field(CONNECTION_FIELDS, random) }
            }
            5 => Query::Why(any_question(state, random)),
            _ => {
                let field = field(TRANSACTION_FIELDS, random);
                Query::Transaction { number: any_number(state, random), field }
            }
        }
    }

    /// The class of a transaction, whether the switch took it, and whether it was undone (order 11).
    pub fn of_sheet(number: u64) -> [Query; 3] {
        [Query::Class { number }, Query::Took { number }, Query::Undone { number }]
    }

    /// Every query that is in range on the state's log, a few on what is folded, and one past each range.
    pub fn all(state: &State) -> Vec<Query> {
        let mut all = Vec::new();
        for table in 0..=TABLES + 1 {
            all.extend((0..=PATHS as u64).map(|path| Query::Value { table, path }));
        }
        for number in numbers(state) {
            all.extend((0..=TRANSACTION_FIELDS + 1).map(|field| Query::Transaction { number, field }));
        }
        all.extend((0..=RECORD_FIELDS + 1).map(|field| Query::Record { field }));
        for node in 0..=9 {
            all.extend((0..=CONNECTION_FIELDS + 1).map(|field| Query::Connection { node, field }));
        }
        all.extend((0..=PATHS as u64).map(|path| Query::Owner { path }));
        all.extend(numbers(state).flat_map(Query::of_sheet).chain([Query::Drift]));
        all.extend(questions(state).map(Query::Why));
        all
    }

    /// What is read from a state and the image that it was read from. The bytes answer only for the places past a
    /// transaction's pairs, which carry nothing and which no state here has.
    pub fn read(self, state: &State, image: &[u8]) -> Result<Shown, Refusal> {
        let number = match self {
            Query::Value { table, path } => {
                let values = match table {
                    1 => &state.committed.values,
                    2 => &state.applied.values,
                    3 => &state.target.values,
                    4 => &state.base,
                    _ => return Err(Refusal::OutOfRange),
                };
                (path < PATHS as u64).then(|| values[path as usize].into()).ok_or(Refusal::OutOfRange)?
            }
            Query::Transaction { number, field } => {
                ranged(field, TRANSACTION_FIELDS)?;
                let number = state.given(number)?;
                let transaction = &state.log[state.place(number)?];
                of_transaction(transaction, entry_at(image, number), field)
            }
            Query::Record { field } => {
                ranged(field, RECORD_FIELDS)?;
                of_record(state, field)
            }
            Query::Connection { node, field } => {
                let node = Node::new(node).ok_or(Refusal::OutOfRange)?;
                ranged(field, CONNECTION_FIELDS)?;
                let Connection { id, connected } = state.connection(node);
                if field == 1 { id } else { connected.into() }
            }
            Query::Owner { path } => state.owner(path)?.0.into(),
            Query::Class { number } => state.class(number)?.number().into(),
            Query::Took { number } => state.took(number)?.into(),
            Query::Undone { number } => state.undone(number)?.into(),
            Query::Drift => state.row().mask,
            Query::Why(question) => return state.why(question).map(Shown::Why),
        };
        Ok(Shown::Number(number))
    }

    /// As `read`, of an image that decodes to this, as one number: the answer, a reason, and in the upper half the value or what
    /// is named.
    pub fn packed(self, state: Option<&State>, image: &[u8]) -> u64 {
        match state.ok_or(Refusal::NotWellFormed).and_then(|state| self.read(state, image)) {
            Ok(Shown::Number(value)) => u64::from(value) << 32,
            Ok(Shown::Why(why)) => why.packed(),
            Err(refusal) => refusal.number().into(),
        }
    }
}

/// Every job of the master on each number; on the highest also no job, and one of nodes that are not master.
fn questions(state: &State) -> impl Iterator<Item = Question> {
    let master = state.mastership.master.map_or(1, |master| master.number().into());
    let question = |node, job, number| Question { node, job, number };
    let of_master = numbers(state).flat_map(move |number| (1..=4).map(move |job| question(master, job, number)));
    let refused = [(master, 0), (master, 5), (0, 1), (master % 8 + 1, 1), (9, 1)];
    let highest = state.highest().0.into();
    of_master.chain(refused.into_iter().map(move |(node, job)| question(node, job, highest)))
}

fn ranged(field: u64, fields: u64) -> Result<(), Refusal> {
    (1..=fields).contains(&field).then_some(()).ok_or(Refusal::OutOfRange)
}

fn of_transaction(transaction: &Transaction, bytes: &[u8], field: u64) -> u32 {
    let pairs = transaction.change.pairs();
    let place = |from: u64| (field - from) as usize;
    let used = |from: u64| Some(place(from)).filter(|place| *place < pairs.len());
    match field {
        1 => transaction.phase as u32,
        2..=4 => of_progress(&transaction.c, field - 2),
        5..=7 => of_progress(&transaction.r, field - 5),
        8 => transaction.r_index.0.into(),
        9 => pairs.len() as u32,
        PATH_FIELD..=13 => used(PATH_FIELD)
            .map_or(bytes[entry::PATHS + place(PATH_FIELD)], |place| pairs[place].path)
            .into(),
        VALUE_FIELD..=17 => used(VALUE_FIELD)
            .map_or(u16_at(bytes, entry::VALUES + 2 * place(VALUE_FIELD)), |place| pairs[place].value)
            .into(),
        _ => used(R_VALUE_FIELD)
            .map_or(u16_at(bytes, entry::R_VALUES + 2 * place(R_VALUE_FIELD)), |place| {
                transaction.r_values[place]
            })
            .into(),
    }
}

fn of_progress(progress: &Progress, field: u64) -> u32 {
    match field {
        0 => progress.commit.code().into(),
        1 => progress.apply.code().into(),
        _ => progress.ordinal.0,
    }
}

fn of_record(state: &State, field: u64) -> u32 {
    let (committed, applied) = (&state.committed, &state.applied);
    match field {
        1 => state.highest().0.into(),
        2 => committed.index.0.into(),
        3 => committed.change.0.into(),
        4 => committed.target.0.into(),
        5 => committed.revision.0.into(),
        6 => committed.ordinal.0,
        7 => applied.index.0.into(),
        8 => applied.target.0.into(),
        9 => applied.revision.0.into(),
        10 => applied.ordinal.0,
        11 => configuration_code(state.configuration.state).into(),
        12 => state.configuration.term.0,
        13 => state.mastership.master.map_or(0, |master| master.number().into()),
        14 => state.mastership.term.0,
        15 => state.mastership.conn,
        16 => state.target.id,
        17 => state.target.running.into(),
        _ => state.folded.0.into(),
    }
}
