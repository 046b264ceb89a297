//! The state of one target's change controller, and the calls from outside.
//!
//! Every call takes a well-formed state and either changes it or answers the refusal and leaves it as it was. The four
//! jobs are in `jobs`.

use crate::jobs::{self, Work, Worked};

/// The most transactions that a log keeps.
pub const LOG_LIMIT: usize = 128;
/// The most pairs that a change holds.
pub const PAIR_LIMIT: usize = 4;
/// How many paths there are, from 0 on.
pub const PATHS: usize = 32;
/// How many nodes there are, from 1 on.
pub const NODES: usize = 8;

/// The number of a transaction in the log, from 1 on. 0 is none.
#[derive(Clone, Copy, PartialEq, Eq, PartialOrd, Ord, Hash, Debug, Default)]
pub struct Number(pub u16);

impl Number {
    pub const NONE: Number = Number(0);
    pub const LIMIT: Number = Number(u16::MAX);

    /// The number before this one. Asked only of a transaction's number, which is 1 or more.
    pub fn before(self) -> Number {
        Number(self.0 - 1)
    }
}

/// The place of a commit in the order of commits. 0 is none.
#[derive(Clone, Copy, PartialEq, Eq, PartialOrd, Ord, Hash, Debug, Default)]
pub struct Ordinal(pub u32);

impl Ordinal {
    pub const NONE: Ordinal = Ordinal(0);
    pub const LIMIT: Ordinal = Ordinal(131_070);

    /// The next ordinal, where there is one within the limit.
    pub fn next(self) -> Option<Ordinal> {
        (self < Ordinal::LIMIT).then(|| Ordinal(self.0 + 1))
    }

    /// Whether this is the ordinal right after `other`. No ordinal is never next.
    pub fn follows(self, other: Ordinal) -> bool {
        self.0.checked_sub(1) == Some(other.0)
    }
}

/// A mastership's term.
#[derive(Clone, Copy, PartialEq, Eq, PartialOrd, Ord, Hash, Debug, Default)]
pub struct Term(pub u32);

/// One of the eight nodes.
#[derive(Clone, Copy, PartialEq, Eq, Hash, Debug)]
pub struct Node(u8);

impl Node {
    /// The node of that number, from 1 to 8.
    pub fn new(number: u64) -> Option<Node> {
        (1..=NODES as u64).contains(&number).then_some(Node(number as u8))
    }

    pub fn number(self) -> u8 {
        self.0
    }

    fn place(self) -> usize {
        usize::from(self.0) - 1
    }
}

#[derive(Clone, Copy, PartialEq, Eq, Hash, Debug)]
pub enum Status {
    None,
    Pending,
    InProgress,
    Complete,
    Aborted,
    Canceled,
    Failed,
}

impl Status {
    pub const ALL: [Status; 7] = [
        Status::None,
        Status::Pending,
        Status::InProgress,
        Status::Complete,
        Status::Aborted,
        Status::Canceled,
        Status::Failed,
    ];

    pub fn code(self) -> u8 {
        self as u8
    }

    pub fn from_code(code: u8) -> Option<Status> {
        Status::ALL.get(usize::from(code)).copied()
    }

    pub fn is_done(self) -> bool {
        matches!(self, Status::Complete | Status::Aborted | Status::Canceled | Status::Failed)
    }
}

#[derive(Clone, Copy, PartialEq, Eq, Hash, Debug)]
pub enum Phase {
    Change = 1,
    Rollback = 2,
}

#[derive(Clone, Copy, PartialEq, Eq, Hash, Debug)]
pub enum Stage {
    Commit = 1,
    Apply = 2,
}

#[derive(Clone, Copy, PartialEq, Eq, Hash, Debug, Default)]
pub struct Pair {
    pub path: u8,
    pub value: u16,
}

/// 1 to 4 pairs whose paths rise strictly.
#[derive(Clone, Copy, PartialEq, Eq, Hash, Debug)]
pub struct Change {
    count: u8,
    pairs: [Pair; PAIR_LIMIT],
}

impl Change {
    /// The change of these paths and values, where it is a valid one.
    pub fn new(pairs: impl ExactSizeIterator<Item = (u16, u16)>) -> Option<Change> {
        let count = pairs.len();
        if !(1..=PAIR_LIMIT).contains(&count) {
            return None;
        }
        let mut change = Change { count: count as u8, pairs: Default::default() };
        let mut lowest = 0;
        for (place, (path, value)) in pairs.enumerate() {
            if usize::from(path) >= PATHS || path < lowest {
                return None;
            }
            lowest = path + 1;
            change.pairs[place] = Pair { path: path as u8, value };
        }
        Some(change)
    }

    pub fn pairs(&self) -> &[Pair] {
        &self.pairs[..usize::from(self.count)]
    }
}

/// A value for each path; 0 is absent.
pub type Values = [u16; PATHS];

/// For each path the number of the newest live change that set it (order 7).
pub type Owners = [Number; PATHS];

/// Replaces the values of the pairs' paths.
pub fn overlay(values: &mut Values, pairs: &[Pair]) {
    for pair in pairs {
        values[usize::from(pair.path)] = pair.value;
    }
}

/// How far a change, or a rollback, has come.
#[derive(Clone, Copy, PartialEq, Eq, Hash, Debug)]
pub struct Progress {
    pub commit: Status,
    pub apply: Status,
    pub ordinal: Ordinal,
}

#[derive(Clone, Copy, PartialEq, Eq, Hash, Debug)]
pub struct Transaction {
    pub phase: Phase,
    pub change: Change,
    pub c: Progress,
    pub r: Progress,
    /// The revision to return to, below the transaction's own number.
    pub r_index: Number,
    /// One for each pair: what its path held before. Places past the pairs are 0 here.
    pub r_values: [u16; PAIR_LIMIT],
    /// One for each pair: who owned its path before (order 7). Each is below the transaction's own number, also in the places past
    /// the pairs, which are kept here for that.
    pub r_owners: [Number; PAIR_LIMIT],
}

impl Transaction {
    fn appended(change: Change) -> Transaction {
        Transaction {
            phase: Phase::Change,
            change,
            c: Progress { commit: Status::Pending, apply: Status::Pending, ordinal: Ordinal::NONE },
            r: Progress { commit: Status::None, apply: Status::None, ordinal: Ordinal::NONE },
            r_index: Number::NONE,
            r_values: [0; PAIR_LIMIT],
            r_owners: [Number::NONE; PAIR_LIMIT],
        }
    }

    /// The pairs that lay r.values back on the change's paths.
    pub fn returning_pairs(&self) -> Change {
        let mut returning = self.change;
        for (pair, value) in returning.pairs.iter_mut().zip(self.r_values) {
            pair.value = value;
        }
        returning
    }

    /// Whether nothing is left to do of it: invalid, or applied with no rollback asked, or rolled back to the end.
    pub fn is_finished(&self) -> bool {
        let applied = self.c.apply == Status::Complete && self.phase == Phase::Change;
        self.c.commit == Status::Failed || applied || self.r.apply.is_done()
    }

    fn is_well_formed(&self, number: Number) -> bool {
        self.r_index < number && self.c.ordinal <= Ordinal::LIMIT && self.r.ordinal <= Ordinal::LIMIT
    }
}

#[derive(Clone, PartialEq, Eq, Hash, Debug)]
pub struct Committed {
    pub index: Number,
    pub change: Number,
    pub target: Number,
    /// At most `change`.
    pub revision: Number,
    pub ordinal: Ordinal,
    pub values: Values,
    /// Each at most `change`. One that is folded stays here; `State::owner` does not show it.
    pub owners: Owners,
}

#[derive(Clone, PartialEq, Eq, Hash, Debug)]
pub struct Applied {
    pub index: Number,
    pub target: Number,
    pub revision: Number,
    pub ordinal: Ordinal,
    pub values: Values,
}

#[derive(Clone, Copy, PartialEq, Eq, Hash, Debug)]
pub enum ConfigurationState {
    Pending,
    InProgress,
    Complete,
}

/// The configuration's state with the term it belongs to.
#[derive(Clone, Copy, PartialEq, Eq, Hash, Debug)]
pub struct Configuration {
    pub state: ConfigurationState,
    pub term: Term,
}

#[derive(Clone, Copy, PartialEq, Eq, Hash, Debug)]
pub struct Mastership {
    pub master: Option<Node>,
    pub term: Term,
    pub conn: u32,
}

#[derive(Clone, Copy, PartialEq, Eq, Hash, Debug, Default)]
pub struct Connection {
    pub id: u32,
    pub connected: bool,
}

#[derive(Clone, PartialEq, Eq, Hash, Debug)]
pub struct Target {
    pub id: u32,
    pub running: bool,
    /// Whether it keeps its values while it is stopped (order 13). Fixed when the controller is fresh.
    pub remembers: bool,
    pub values: Values,
}

#[derive(Clone, PartialEq, Eq, Hash, Debug)]
pub struct State {
    /// The last fold: this number and all below it are dropped. 0 is none.
    pub folded: Number,
    /// What the dropped live changes have set.
    pub base: Values,
    /// The transactions that are kept: their numbers follow on the last fold.
    pub log: Vec<Transaction>,
    pub committed: Committed,
    pub applied: Applied,
    pub configuration: Configuration,
    pub mastership: Mastership,
    pub connections: [Connection; NODES],
    pub target: Target,
}

/// Why a call changed nothing; `number` is the paper's.
#[derive(Clone, Copy, PartialEq, Eq, Hash, Debug)]
pub enum Refusal {
    NotWellFormed = 1,
    OutOfRange,
    NotAChange,
    LogFull,
    NoSuchNumber,
    NoRollback,
    AlreadySo,
    TargetStopped,
    CounterAtLimit,
    NotMaster,
    NoRule,
    LineNotOpen,
    PushRejected,
    NoRoom,
    NotWaiting,
    NotTheNewest,
    NotFinished,
    Folded,
}

impl Refusal {
    pub const ALL: [Refusal; 18] = [
        Refusal::NotWellFormed,
        Refusal::OutOfRange,
        Refusal::NotAChange,
        Refusal::LogFull,
        Refusal::NoSuchNumber,
        Refusal::NoRollback,
        Refusal::AlreadySo,
        Refusal::TargetStopped,
        Refusal::CounterAtLimit,
        Refusal::NotMaster,
        Refusal::NoRule,
        Refusal::LineNotOpen,
        Refusal::PushRejected,
        Refusal::NoRoom,
        Refusal::NotWaiting,
        Refusal::NotTheNewest,
        Refusal::NotFinished,
        Refusal::Folded,
    ];

    pub fn number(self) -> u8 {
        self as u8
    }
}

/// What keeps a fold from being allowed.
#[derive(Clone, Copy, PartialEq, Eq, Hash, Debug)]
pub enum Hindrance {
    /// The commit side is not at rest.
    NotAtRest,
    /// The applied side is not settled.
    NotSettled,
    /// The event with the next ordinal is not Pending any more.
    NextBegun,
    /// The applied target has moved to it.
    TargetMoved,
    /// One of those to be dropped is not finished.
    Unfinished,
}

impl Hindrance {
    pub const ALL: [Hindrance; 5] = [
        Hindrance::NotAtRest,
        Hindrance::NotSettled,
        Hindrance::NextBegun,
        Hindrance::TargetMoved,
        Hindrance::Unfinished,
    ];
}

#[derive(Clone, Copy, PartialEq, Eq, Hash, Debug)]
pub struct Event {
    pub phase: Phase,
    pub stage: Stage,
    pub number: Number,
    pub status: Status,
}

impl State {
    /// A fresh controller of a target that forgets.
    pub fn fresh() -> State {
        State::fresh_of(false)
    }

    /// A fresh controller of a target of either kind.
    pub fn fresh_of(remembers: bool) -> State {
        State {
            folded: Number::NONE,
            base: [0; PATHS],
            log: Vec::new(),
            committed: Committed {
                index: Number::NONE,
                change: Number::NONE,
                target: Number::NONE,
                revision: Number::NONE,
                ordinal: Ordinal::NONE,
                values: [0; PATHS],
                owners: [Number::NONE; PATHS],
            },
            applied: Applied {
                index: Number::NONE,
                target: Number::NONE,
                revision: Number::NONE,
                ordinal: Ordinal::NONE,
                values: [0; PATHS],
            },
            configuration: Configuration { state: ConfigurationState::Pending, term: Term(0) },
            mastership: Mastership { master: None, term: Term(0), conn: 0 },
            connections: [Connection::default(); NODES],
            target: Target { id: 0, running: false, remembers, values: [0; PATHS] },
        }
    }

    /// The paper's "well-formed", as far as the types leave it open.
    pub fn is_well_formed(&self) -> bool {
        self.is_well_formed_whatever_owners() && self.has_well_formed_owners()
    }

    /// The same but for what order 7 asks.
    pub fn is_well_formed_whatever_owners(&self) -> bool {
        let Committed { index, change, target, revision, ordinal, .. } = self.committed;
        let applied = &self.applied;
        let numbers = [index, change, target, revision, applied.index, applied.target, applied.revision];
        self.log.len() <= LOG_LIMIT
            && usize::from(self.folded.0) + self.log.len() <= usize::from(Number::LIMIT.0)
            && self.kept().all(|(number, transaction)| transaction.is_well_formed(number))
            && numbers.iter().all(|number| *number <= self.highest())
            && revision <= change
            && ordinal <= Ordinal::LIMIT
            && applied.ordinal <= Ordinal::LIMIT
    }

    /// Makes the state a fresh one, whatever it was.
    pub fn freshen(&mut self, remembers: u64) -> Result<(), Refusal> {
        let remembers = match remembers {
            0 => false,
            1 => true,
            _ => return Err(Refusal::OutOfRange),
        };
        *self = State::fresh_of(remembers);
        Ok(())
    }

    /// The highest number given.
    pub fn highest(&self) -> Number {
        Number(self.folded.0 + self.log.len() as u16)
    }

    /// The kept transactions, each with its number.
    pub fn kept(&self) -> impl Iterator<Item = (Number, &Transaction)> {
        (self.folded.0..Number::LIMIT.0).map(|before| Number(before + 1)).zip(&self.log)
    }

    /// Answers the new entry's number.
    pub fn append(&mut self, pairs: &[(u16, u16)]) -> Result<Number, Refusal> {
        let change = Change::new(pairs.iter().copied()).ok_or(Refusal::NotAChange)?;
        if self.log.len() >= LOG_LIMIT {
            return Err(Refusal::LogFull);
        }
        if self.highest() == Number::LIMIT {
            return Err(Refusal::CounterAtLimit);
        }
        self.log.push(Transaction::appended(change));
        Ok(self.highest())
    }

    /// Asks for the rollback of a committed change.
    pub fn rollback(&mut self, number: u64) -> Result<(), Refusal> {
        let place = self.place(self.given(number)?)?;
        let transaction = &mut self.log[place];
        if transaction.phase != Phase::Change || transaction.c.commit != Status::Complete {
            return Err(Refusal::NoRollback);
        }
        transaction.phase = Phase::Rollback;
        transaction.r.commit = Status::Pending;
        transaction.r.apply = Status::Pending;
        Ok(())
    }

    pub fn start(&mut self) -> Result<(), Refusal> {
        if self.target.running {
            return Err(Refusal::AlreadySo);
        }
        self.target.id = counted(self.target.id)?;
        self.target.running = true;
        Ok(())
    }

    pub fn stop(&mut self) -> Result<(), Refusal> {
        if !self.target.running {
            return Err(Refusal::AlreadySo);
        }
        self.target.running = false;
        if !self.target.remembers {
            self.target.values = [0; PATHS];
        }
        for connection in &mut self.connections {
            connection.connected = false;
        }
        Ok(())
    }

    pub fn connect(&mut self, node: u64) -> Result<(), Refusal> {
        let node = Node::new(node).ok_or(Refusal::OutOfRange)?;
        let connection = &mut self.connections[node.place()];
        if connection.connected {
            return Err(Refusal::AlreadySo);
        }
        if !self.target.running {
            return Err(Refusal::TargetStopped);
        }
        connection.id = counted(connection.id)?;
        connection.connected = true;
        Ok(())
    }

    pub fn disconnect(&mut self, node: u64) -> Result<(), Refusal> {
        let node = Node::new(node).ok_or(Refusal::OutOfRange)?;
        let connection = &mut self.connections[node.place()];
        if !connection.connected {
            return Err(Refusal::AlreadySo);
        }
        connection.connected = false;
        Ok(())
    }

    /// Makes a connected node the master where there is none; frees the mastership of a master that is not connected, or
    /// that has reconnected.
    pub fn master(&mut self, node: u64) -> Result<(), Refusal> {
        let node = Node::new(node).ok_or(Refusal::OutOfRange)?;
        let connection = self.connection(node);
        match self.mastership.master {
            None if connection.connected => {
                self.mastership.term = Term(counted(self.mastership.term.0)?);
                self.mastership.master = Some(node);
                self.mastership.conn = connection.id;
                Ok(())
            }
            Some(master) if master == node && (!connection.connected || self.reconnected(node)) => {
                self.mastership.master = None;
                Ok(())
            }
            _ => Err(Refusal::NoRule),
        }
    }

    /// Whether the node is master and connected, but not by the connection that mastership names (order 1).
    pub fn reconnected(&self, node: Node) -> bool {
        let connection = self.connection(node);
        self.mastership.master == Some(node) && connection.connected && connection.id != self.mastership.conn
    }

    /// Begins, or ends, the synchronising of the target with the applied values in a new term. Answers how many paths it wrote.
    pub fn sync(&mut self, node: u64) -> Result<u16, Refusal> {
        let node = Node::new(node).ok_or(Refusal::OutOfRange)?;
        if self.mastership.master != Some(node) {
            return Err(Refusal::NotMaster);
        }
        if self.configuration.term >= self.mastership.term {
            return Err(Refusal::NoRule);
        }
        if self.configuration.state != ConfigurationState::InProgress {
            self.configuration.state = ConfigurationState::InProgress;
            return Ok(0);
        }
        if !self.reaches_target(node) {
            return Err(Refusal::LineNotOpen);
        }
        let mut written = 0;
        for (value, applied) in self.target.values.iter_mut().zip(self.applied.values) {
            if *value != applied {
                *value = applied;
                written += 1;
            }
        }
        self.configuration = Configuration { state: ConfigurationState::Complete, term: self.mastership.term };
        Ok(written)
    }

    /// One step of one of the four jobs, by a node, on a transaction.
    pub fn work(&mut self, node: u64, job: u64, number: u64, outcome: u64, cut: u64) -> Worked {
        let (node, job, outcome, cut) = match jobs::ranged(node, job, outcome, cut) {
            Some(ranged) => ranged,
            None => return Worked::refused(Refusal::OutOfRange),
        };
        let (number, place) = match self.given(number).and_then(|number| Ok((number, self.place(number)?))) {
            Ok(found) => found,
            Err(refusal) => return Worked::refused(refusal),
        };
        if self.mastership.master != Some(node) {
            return Worked::refused(Refusal::NotMaster);
        }
        let at_rest = self.at_rest();
        let line_open = self.line_open(node);
        let mut transaction = self.log[place];
        let worked = Work {
            job,
            number,
            outcome,
            cut,
            transaction: &mut transaction,
            committed: &mut self.committed,
            applied: &mut self.applied,
            target_values: &mut self.target.values,
        }
        .done(at_rest, line_open, |ordinal| settled(&self.log, ordinal));
        self.log[place] = transaction;
        worked
    }

    /// Folds the front of the log away, up to that number.
    pub fn fold(&mut self, number: u64) -> Result<(), Refusal> {
        let number = self.given(number)?;
        if number <= self.folded {
            return Err(Refusal::NoSuchNumber);
        }
        if Hindrance::ALL.iter().any(|hindrance| self.is_hindered(number, *hindrance)) {
            return Err(Refusal::NotFinished);
        }
        self.drop_up_to(number);
        Ok(())
    }

    /// Whether that keeps the kept ones up to the number from being folded.
    pub fn is_hindered(&self, number: Number, hindrance: Hindrance) -> bool {
        match hindrance {
            Hindrance::NotAtRest => !self.at_rest(),
            Hindrance::NotSettled => !settled(&self.log, self.applied.ordinal),
            Hindrance::NextBegun => self.next_events().any(|(apply, _)| apply != Status::Pending),
            Hindrance::TargetMoved => self.next_events().any(|(_, moves_to)| moves_to == self.applied.target),
            Hindrance::Unfinished => {
                self.kept().take_while(|(kept, _)| *kept <= number).any(|(_, transaction)| !transaction.is_finished())
            }
        }
    }

    /// What carries the ordinal after the applied one: its apply status, and where the applied target moves for it.
    fn next_events(&self) -> impl Iterator<Item = (Status, Number)> + '_ {
        let both = |(number, it): (Number, &Transaction)| [(it.c, number), (it.r, it.r_index)];
        let next = |progress: &Progress| progress.ordinal.follows(self.applied.ordinal);
        self.kept().flat_map(both).filter(move |(progress, _)| next(progress)).map(|(progress, to)| (progress.apply, to))
    }

    /// Lays the live ones up to the number on the base, oldest first, and keeps none of them.
    pub fn drop_up_to(&mut self, number: Number) {
        let dropped: Vec<Number> = self.live().filter(|live| *live <= number).collect();
        for live in dropped.into_iter().rev() {
            let change = self.transaction(live).expect("a kept number").change;
            overlay(&mut self.base, change.pairs());
        }
        self.log.drain(..usize::from(number.0 - self.folded.0));
        self.folded = number;
    }

    /// The live list, newest first: from the committed revision, each hop to r.index, until 0 or the last fold.
    pub fn live(&self) -> impl Iterator<Item = Number> + '_ {
        let kept = |number: Number| (number > self.folded).then_some(number);
        std::iter::successors(kept(self.committed.revision), move |number| kept(self.transaction(*number)?.r_index))
    }

    /// The number as a transaction's, where it is one that was given. It is compared in all its bits.
    pub fn given(&self, number: u64) -> Result<Number, Refusal> {
        let was_given = (1..=u64::from(self.highest().0)).contains(&number);
        was_given.then_some(Number(number as u16)).ok_or(Refusal::NoSuchNumber)
    }

    /// The transaction of that number, where it is kept.
    pub fn transaction(&self, number: Number) -> Option<&Transaction> {
        self.place(number).ok().map(|place| &self.log[place])
    }

    /// Where the transaction of that number stands among the kept ones.
    pub fn place(&self, number: Number) -> Result<usize, Refusal> {
        if number == Number::NONE || number > self.highest() {
            return Err(Refusal::NoSuchNumber);
        }
        if number <= self.folded {
            return Err(Refusal::Folded);
        }
        Ok(usize::from(number.before().0 - self.folded.0))
    }

    pub fn connection(&self, node: Node) -> Connection {
        self.connections[node.place()]
    }

    /// Whether the node is connected by the connection that mastership names, to a target that runs.
    fn reaches_target(&self, node: Node) -> bool {
        let connection = self.connection(node);
        connection.connected && connection.id == self.mastership.conn && self.target.running
    }

    /// Whether the line is open for the node.
    pub fn line_open(&self, node: Node) -> bool {
        self.mastership.master == Some(node)
            && self.reaches_target(node)
            && self.configuration.state == ConfigurationState::Complete
            && self.configuration.term == self.mastership.term
    }

    /// Whether the commit side is at rest.
    pub fn at_rest(&self) -> bool {
        self.committed.at_rest(self.transaction(self.committed.index))
    }
}

impl Committed {
    /// Whether the commit side is at rest, given the transaction at `index`, where it is kept. A folded one is Done.
    pub fn at_rest(&self, at_index: Option<&Transaction>) -> bool {
        if self.index == Number::NONE {
            return self.target == Number::NONE;
        }
        let change_done = at_index.map_or(true, |transaction| transaction.c.commit.is_done());
        let rollback_done = at_index.map_or(true, |transaction| transaction.r.commit.is_done());
        let returned = self.target == self.revision && self.revision < self.index;
        (self.target == self.index && change_done) || (returned && rollback_done)
    }
}

/// Whether every change and rollback that carries the applied ordinal has a Done apply status.
pub fn settled(log: &[Transaction], ordinal: Ordinal) -> bool {
    let over = |progress: &Progress| progress.ordinal != ordinal || progress.apply.is_done();
    ordinal == Ordinal::NONE || log.iter().all(|transaction| over(&transaction.c) && over(&transaction.r))
}

/// One more, where the 32-bit counter has one more.
pub fn counted(counter: u32) -> Result<u32, Refusal> {
    counter.checked_add(1).ok_or(Refusal::CounterAtLimit)
}
