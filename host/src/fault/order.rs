//! The order of a call's refusals: each neighbouring pair of it, asked in the other order.

use crate::arguments::Argument;
use crate::controller::{ConfigurationState, Number, Ordinal, Refusal, State, Term};
use crate::controller::Node;
use crate::image::{self, at};
use crate::night::Night;
use crate::northbound::{self, act, bytes_of, Request};
use crate::reads::Query;
use crate::why::Question;

/// A function of the C interface that can refuse for more than one reason.
#[derive(Clone, Copy, PartialEq, Eq, Debug)]
pub enum Call {
    Fresh,
    Append,
    Rollback,
    Start,
    Stop,
    Connect,
    Disconnect,
    Master,
    Sync,
    Work,
    Fold,
    Live,
    Value,
    Transaction,
    Record,
    Connection,
    Owner,
    Why,
    Night,
    Class,
    Took,
    Undone,
    Tally,
}

/// The refusals of each call in their order: the paper's, with 9 in append, 17 and 18 as order 10 puts them, 15 as order
/// 4; a tally asks first what it is lent.
pub const ORDERS: [(Call, &[u8]); 23] = [
    (Call::Fresh, &[1, 2]),
    (Call::Append, &[1, 3, 4, 9]),
    (Call::Rollback, &[1, 5, 18, 6]),
    (Call::Start, &[1, 7, 9]),
    (Call::Stop, &[1, 7]),
    (Call::Connect, &[1, 2, 7, 8, 9]),
    (Call::Disconnect, &[1, 2, 7]),
    (Call::Master, &[1, 2, 11, 9]),
    (Call::Sync, &[1, 2, 10, 11, 12]),
    (Call::Work, &[1, 2, 5, 18, 10, 11, 9, 12, 13]),
    (Call::Fold, &[1, 5, 17]),
    (Call::Live, &[1, 14]),
    (Call::Value, &[1, 2]),
    (Call::Transaction, &[1, 2, 5, 18]),
    (Call::Record, &[1, 2]),
    (Call::Connection, &[1, 2]),
    (Call::Owner, &[1, 2]),
    (Call::Why, &[1, 2, 5, 18, 10, 15]),
    (Call::Night, &[1, 2, 10]),
    (Call::Class, &[1, 5, 18]),
    (Call::Took, &[1, 5, 18]),
    (Call::Undone, &[1, 5, 18]),
    (Call::Tally, &[2, 1]),
];

/// A neighbouring pair of a call's refusals: where both hold, the later one is answered.
#[derive(Clone, Copy, PartialEq, Eq, Debug)]
pub struct Swapped(pub Call, pub u8, pub u8);

impl Swapped {
    pub fn all() -> impl Iterator<Item = Swapped> {
        ORDERS.into_iter().flat_map(|(call, order)| order.windows(2).map(move |pair| Swapped(call, pair[0], pair[1])))
    }

    /// The refusal that is answered in place of this one, where the later one holds too.
    pub fn refusal(self, before: &State, request: &Request, refusal: Refusal) -> Option<Refusal> {
        let Swapped(call, first, then) = self;
        if call_of(request) != call || refusal.number() != first {
            return None;
        }
        let later = Refusal::ALL.into_iter().find(|refusal| refusal.number() == then)?;
        self.later_holds(before, request, later).then_some(later)
    }

    fn later_holds(self, before: &State, request: &Request, later: Refusal) -> bool {
        let Swapped(call, first, _) = self;
        match (call, first, request) {
            (Call::Rollback, 18, _) => true,
            (Call::Work, 18, Request::Work { node, .. }) => Node::new(*node) != before.mastership.master,
            (Call::Work, 11, Request::Work { job, .. }) => matches!(job, 1 | 3) && before.committed.ordinal == Ordinal::LIMIT,
            (Call::Work, 9, Request::Work { node, .. }) => !Node::new(*node).is_some_and(|node| before.line_open(node)),
            _ => {
                let (mut state, mut request) = (before.clone(), request.clone());
                without(first, &mut state, &mut request);
                act(&mut state, &request).reply == Err(later)
            }
        }
    }

    /// The refusal that is answered in place of 1, where a later one is looked for first.
    pub fn of_damaged(self, bytes: &[u8], request: &Request) -> Option<Refusal> {
        let Swapped(call, first, then) = self;
        if call_of(request) != call || first != 1 {
            return None;
        }
        // of what is made fresh the length alone is asked
        let mut state = if call == Call::Fresh { State::fresh() } else { repaired(bytes)? };
        act(&mut state, request).reply.err().filter(|refusal| refusal.number() == then)
    }

    /// The refusal of a night, with this order; where there is no state, of bytes that are no image.
    pub fn night(self, before: Option<&State>, night: &Night, refusal: Refusal) -> Refusal {
        let Swapped(call, first, _) = self;
        let is_master = |state: &State| state.mastership.master.is_some_and(|master| u64::from(master.number()) == night.node);
        match (call, first, before) {
            (Call::Night, 1, None) if night.ranged().is_none() => Refusal::OutOfRange,
            (Call::Night, 2, Some(state)) if !is_master(state) => Refusal::NotMaster,
            _ => refusal,
        }
    }

    /// As a live list is answered, with this order.
    pub fn live_of(self, state: Option<&State>, bytes: &[u8], room: &mut [u8]) -> u64 {
        let repaired = repaired(bytes).filter(|_| state.is_none() && self.0 == Call::Live);
        let answer = repaired.map(|state| northbound::live_of(Some(&state), &mut room.to_vec()));
        match answer {
            Some(answer) if answer == u64::from(self.2) => answer,
            _ => northbound::live_of(state, room),
        }
    }

    /// As a read is answered, with this order.
    pub fn read(self, state: Option<&State>, bytes: &[u8], query: Query) -> u64 {
        let Swapped(call, first, then) = self;
        let answer = query.packed(state, bytes);
        if Some(call) != call_read(query) || answer != u64::from(first) {
            return answer;
        }
        let Some(mut state) = state.cloned().or_else(|| repaired(bytes)) else {
            return answer;
        };
        let mut asked = query;
        match &mut asked {
            Query::Transaction { field, .. } if first == 2 => *field = 1,
            Query::Transaction { number, .. } if first == 5 && *number == 0 => *number = 1,
            Query::Class { number } | Query::Took { number } | Query::Undone { number } if first == 5 && *number == 0 => {
                *number = 1
            }
            Query::Why(question) => question_without(first, &mut state, question),
            _ => {}
        }
        let later = asked.packed(Some(&state), bytes);
        if later == u64::from(then) { later } else { answer }
    }
}

fn call_of(request: &Request) -> Call {
    match request {
        Request::Fresh(_) => Call::Fresh,
        Request::Append(_) => Call::Append,
        Request::Rollback(_) => Call::Rollback,
        Request::Start => Call::Start,
        Request::Stop => Call::Stop,
        Request::Connect(_) => Call::Connect,
        Request::Disconnect(_) => Call::Disconnect,
        Request::Master(_) => Call::Master,
        Request::Sync(_) => Call::Sync,
        Request::Work { .. } => Call::Work,
        Request::Fold(_) => Call::Fold,
    }
}

/// The read that can be refused for more than one reason.
fn call_read(query: Query) -> Option<Call> {
    Some(match query {
        Query::Value { .. } => Call::Value,
        Query::Transaction { .. } => Call::Transaction,
        Query::Record { .. } => Call::Record,
        Query::Connection { .. } => Call::Connection,
        Query::Owner { .. } => Call::Owner,
        Query::Class { .. } => Call::Class,
        Query::Took { .. } => Call::Took,
        Query::Undone { .. } => Call::Undone,
        Query::Drift => return None,
        Query::Why(_) => Call::Why,
    })
}

/// The state of an image in which only the master's number is no node's.
fn repaired(bytes: &[u8]) -> Option<State> {
    let mut bytes = bytes.to_vec();
    *bytes.get_mut(at::MASTERSHIP)? = 0;
    image::decode(&bytes)
}

/// Makes the state, or what is asked, such that this refusal does not hold.
fn without(refusal: u8, state: &mut State, request: &mut Request) {
    match refusal {
        2 => request.numbers().into_iter().for_each(|(argument, number)| *number = in_range(argument, *number)),
        5 => number_in_range(state, request),
        _ => match request {
            Request::Append(bytes) if refusal == 3 => *bytes = bytes_of(&[(3, 7)]),
            Request::Append(_) => {
                state.log.remove(0);
                state.folded = Number(state.folded.0 + 1);
            }
            Request::Start => state.target.running = false,
            Request::Connect(node) if refusal == 7 => state.connections[*node as usize - 1].connected = false,
            Request::Connect(_) => state.target.running = true,
            Request::Master(node) => {
                state.mastership.master = None;
                state.connections[*node as usize - 1].connected = true;
            }
            Request::Sync(node) | Request::Work { node, .. } if refusal == 10 => state.mastership.master = Node::new(*node),
            Request::Sync(_) => state.mastership.term = Term(state.configuration.term.0.saturating_add(1)),
            Request::Work { node, .. } => open_line(state, *node as usize - 1),
            _ => {}
        },
    }
}

/// Makes the state, or the job that is asked after, such that this refusal does not hold.
fn question_without(refusal: u8, state: &mut State, question: &mut Question) {
    match refusal {
        2 => {
            question.node = in_range(Argument::Node, question.node);
            question.job = in_range(Argument::Job, question.job);
        }
        5 if question.number == 0 => question.number = 1,
        18 => question.number = state.highest().0.into(),
        10 => state.mastership.master = Node::new(question.node),
        _ => {}
    }
}

fn in_range(argument: Argument, number: u64) -> u64 {
    match argument {
        Argument::Node => number.clamp(1, 8),
        Argument::Job => number.clamp(1, 4),
        Argument::Outcome => number.min(1),
        Argument::Cut => number.min(2),
        Argument::Remembers => number.min(1),
        _ => number,
    }
}

/// In place of 0 the first number, which may be folded; in place of what no fold takes the first that is kept.
fn number_in_range(state: &State, request: &mut Request) {
    match request {
        Request::Fold(number) => *number = u64::from(state.folded.0) + 1,
        Request::Rollback(number) | Request::Work { number, .. } if *number == 0 => *number = 1,
        _ => {}
    }
}

fn open_line(state: &mut State, place: usize) {
    state.target.running = true;
    state.connections[place].connected = true;
    state.mastership.conn = state.connections[place].id;
    state.configuration.state = ConfigurationState::Complete;
    state.configuration.term = state.mastership.term;
}
