//! The numbers that the C interface's functions take: what each means, and how one that is too great is made.

use crate::night::Night;
use crate::northbound::Request;
use crate::reads::Query;
use crate::sheet::Tally;
use crate::why::Question;

/// What a number that is handed to a function means.
#[derive(Clone, Copy, PartialEq, Eq, Hash, Debug)]
pub enum Argument {
    Node,
    Job,
    Number,
    Outcome,
    Cut,
    Table,
    Path,
    Field,
    Budget,
    Remembers,
    Log,
}

impl Argument {
    pub const ALL: [Argument; 11] = [
        Argument::Node,
        Argument::Job,
        Argument::Number,
        Argument::Outcome,
        Argument::Cut,
        Argument::Table,
        Argument::Path,
        Argument::Field,
        Argument::Budget,
        Argument::Remembers,
        Argument::Log,
    ];
}

/// A call's numbers, in the order of its function's arguments.
pub type Numbers<'a> = Vec<(Argument, &'a mut u64)>;

impl Request {
    pub fn numbers(&mut self) -> Numbers<'_> {
        match self {
            Request::Append(_) | Request::Start | Request::Stop => Vec::new(),
            Request::Fresh(remembers) => vec![(Argument::Remembers, remembers)],
            Request::Rollback(number) | Request::Fold(number) => vec![(Argument::Number, number)],
            Request::Connect(node) | Request::Disconnect(node) | Request::Master(node) | Request::Sync(node) => {
                vec![(Argument::Node, node)]
            }
            Request::Work { node, job, number, outcome, cut } => vec![
                (Argument::Node, node),
                (Argument::Job, job),
                (Argument::Number, number),
                (Argument::Outcome, outcome),
                (Argument::Cut, cut),
            ],
        }
    }
}

impl Query {
    pub fn numbers(&mut self) -> Numbers<'_> {
        match self {
            Query::Value { table, path } => vec![(Argument::Table, table), (Argument::Path, path)],
            Query::Transaction { number, field } => vec![(Argument::Number, number), (Argument::Field, field)],
            Query::Record { field } => vec![(Argument::Field, field)],
            Query::Connection { node, field } => vec![(Argument::Node, node), (Argument::Field, field)],
            Query::Owner { path } => vec![(Argument::Path, path)],
            Query::Class { number } | Query::Took { number } | Query::Undone { number } => {
                vec![(Argument::Number, number)]
            }
            Query::Drift => Vec::new(),
            Query::Why(Question { node, job, number }) => {
                vec![(Argument::Node, node), (Argument::Job, job), (Argument::Number, number)]
            }
        }
    }
}

impl Night {
    pub fn numbers(&mut self) -> Numbers<'_> {
        vec![(Argument::Node, &mut self.node), (Argument::Budget, &mut self.budget)]
    }
}

impl Tally {
    pub fn numbers(&mut self) -> Numbers<'_> {
        vec![(Argument::Log, &mut self.log)]
    }
}

/// How a number has more than 16 bits. Who keeps 16 of them, or 32, takes it for 0, for the greatest, or for a number that
/// is in range.
#[derive(Clone, Copy, PartialEq, Eq, Hash, Debug)]
pub enum Wide {
    Bit16,
    Bit32,
    Greatest,
    Above16,
    Above32,
}

impl Wide {
    pub const ALL: [Wide; 5] = [Wide::Bit16, Wide::Bit32, Wide::Greatest, Wide::Above16, Wide::Above32];

    /// The wide number in place of one of 16 bits.
    pub fn of(self, number: u64) -> u64 {
        match self {
            Wide::Bit16 => 1 << 16,
            Wide::Bit32 => 1 << 32,
            Wide::Greatest => u64::MAX,
            Wide::Above16 => (1 << 16) + number,
            Wide::Above32 => (1 << 32) + number,
        }
    }
}
