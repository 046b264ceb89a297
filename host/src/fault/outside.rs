//! Wrong copies of the calls from outside: each store left out or made otherwise, each condition not asked.

use crate::controller::{
    Configuration, ConfigurationState, Node, Number, Ordinal, Phase, Refusal, State, Status, Term, Transaction, LOG_LIMIT,
    PATHS,
};
use crate::northbound::{act, bytes_of, pairs_of, Answer, Request, Served};

/// One call as it is with a slip in it: the state before it, the one that it leaves, what was asked and the reply.
pub struct Slipped<'a> {
    before: State,
    state: &'a mut State,
    request: &'a Request,
    served: Served,
}

macro_rules! slips {
    ($($slip:ident $says:literal $made:expr,)*) => {
        /// A call from outside that does one thing wrong.
        #[derive(Clone, Copy, PartialEq, Eq, Debug)]
        pub enum Slip { $(#[doc = $says] $slip),* }

        impl Slip {
            pub const ALL: &'static [Slip] = &[$(Slip::$slip),*];

            fn made(self) -> fn(&mut Slipped) {
                match self { $(Slip::$slip => $made),* }
            }
        }
    };
}

slips! {
    // ---- fresh
    FreshForgets "A target that remembers is made one that forgets." |it| if it.freshened() { it.state.target.remembers = false },
    FreshRemembers "A target that forgets is made one that remembers." |it| if it.freshened() {
        it.state.target.remembers = true;
    },
    FreshOfTwo "A flag above 1 is taken for 1." |it| if let Request::Fresh(_) = it.request {
        it.despite_by(Refusal::OutOfRange, &Request::Fresh(1));
    },
    FreshOfEven "Of the flag the lowest bit alone is looked at." |it| if let Request::Fresh(remembers) = *it.request {
        it.despite_by(Refusal::OutOfRange, &Request::Fresh(remembers & 1));
    },
    FreshRunsOn "The target's id and whether it runs stay." |it| if it.freshened() {
        (it.state.target.id, it.state.target.running) = (it.before.target.id, it.before.target.running);
    },
    // ---- append
    AppendStoresNothing "Answers the number and appends nothing." |it| it.appended(|log| log.truncate(log.len() - 1)),
    AppendAnswersTheLast "Answers the number before." |it| if let Ok(Answer::Appended(number)) = it.served.reply {
        it.served.reply = Ok(Answer::Appended(number.before()));
    },
    AppendInPhaseRollback "Phase Rollback." |it| it.entered(|entry| entry.phase = Phase::Rollback),
    AppendWithoutCommit "c.commit None." |it| it.entered(|entry| entry.c.commit = Status::None),
    AppendWithoutApply "c.apply None." |it| it.entered(|entry| entry.c.apply = Status::None),
    AppendRollbackCommit "r.commit Pending." |it| it.entered(|entry| entry.r.commit = Status::Pending),
    AppendRollbackApply "r.apply Pending." |it| it.entered(|entry| entry.r.apply = Status::Pending),
    AppendOrdinal "c.ordinal 1." |it| it.entered(|entry| entry.c.ordinal = Ordinal(1)),
    AppendRollbackOrdinal "r.ordinal 1." |it| it.entered(|entry| entry.r.ordinal = Ordinal(1)),
    AppendRevision "r.index is the number before." |it| {
        let before = it.before.highest();
        it.entered(|entry| entry.r_index = before)
    },
    AppendReturn "r.values are the change's own." |it| it.entered(|entry| entry.r_values[0] = entry.change.pairs()[0].value),
    AppendOfNoPairs "No pairs are taken for one." |it| it.pairs(|pairs| if pairs.is_empty() { pairs.push((0, 0)) }),
    AppendOfFivePairs "A fifth pair is left out." |it| it.pairs(|pairs| pairs.truncate(4)),
    AppendOfPath32 "Paths begin again at 32." |it| it.pairs(|pairs| pairs.iter_mut().for_each(|pair| pair.0 %= 32)),
    AppendOfEqualPaths "The first of two equal paths is taken." |it| it.pairs(|pairs| pairs.dedup_by_key(|pair| pair.0)),
    AppendOfFallingPaths "Paths are put in order." |it| it.pairs(|pairs| pairs.sort_by_key(|pair| pair.0)),
    AppendOfPartOfAPair "Bytes past the last whole pair are left out." |it| if let Request::Append(bytes) = it.request {
        it.instead(&Request::Append(bytes[..bytes.len() / 4 * 4].to_vec()));
    },
    AppendFullAt127 "4 where 127 are kept." |it| if it.before.log.len() == LOG_LIMIT - 1 {
        it.appended(|log| log.truncate(log.len() - 1));
        it.served.reply = it.served.reply.and(Err(Refusal::LogFull));
    },
    // ---- rollback
    RollbackKeepsPhase "Phase stays Change." |it| it.asked(|entry| entry.phase = Phase::Change),
    RollbackWithoutCommit "r.commit is not set." |it| it.asked(|entry| entry.r.commit = Status::None),
    RollbackWithoutApply "r.apply is not set." |it| it.asked(|entry| entry.r.apply = Status::None),
    RollbackTwice "The phase is not looked at." |it| it.despite(Refusal::NoRollback, |state, request| {
        asked_entry(state, request, |entry| entry.phase = Phase::Change)
    }),
    RollbackOfUncommitted "c.commit is not looked at." |it| it.despite(Refusal::NoRollback, |state, request| {
        asked_entry(state, request, |entry| entry.c.commit = Status::Complete)
    }),
    // ---- start, stop
    StartKeepsId "The target's id stays." |it| if it.took(&Request::Start) { it.state.target.id = it.before.target.id },
    StartDoesNotRun "The target stays stopped." |it| if it.took(&Request::Start) { it.state.target.running = false },
    StartForgets "The target's values become 0." |it| if it.took(&Request::Start) { it.state.target.values = [0; PATHS] },
    StartLosesTheFlag "The target remembers no more." |it| if it.took(&Request::Start) { it.state.target.remembers = false },
    StartSetsTheFlag "The target remembers from then on." |it| if it.took(&Request::Start) { it.state.target.remembers = true },
    StartWhereItRuns "7 is not asked." |it| if *it.request == Request::Start {
        it.despite(Refusal::AlreadySo, |state, _| state.target.running = false)
    },
    StartWraps "9 is not asked." |it| if *it.request == Request::Start {
        it.despite(Refusal::CounterAtLimit, |state, _| state.target.id = 0)
    },
    StopGoesOnRunning "The target goes on running." |it| if it.took(&Request::Stop) { it.state.target.running = true },
    StopKeepsValues "The values of a target that forgets stay." |it| if it.took(&Request::Stop) {
        it.state.target.values = it.before.target.values;
    },
    StopForgets "The values of a target that remembers become 0." |it| if it.took(&Request::Stop) {
        it.state.target.values = [0; PATHS];
    },
    StopForgetsTheLast "Of a target that remembers the last path becomes 0." |it| if it.took(&Request::Stop) {
        it.state.target.values[PATHS - 1] = 0;
    },
    StopOnTheWrongKind "Who forgets remembers, and who remembers forgets." |it| if it.took(&Request::Stop) {
        it.state.target.values = if it.before.target.remembers { [0; PATHS] } else { it.before.target.values };
    },
    StopAsApplied "A target that remembers has the applied values." |it| if it.took(&Request::Stop) && it.before.target.remembers {
        it.state.target.values = it.state.applied.values;
    },
    StopLosesTheFlag "The target remembers no more." |it| if it.took(&Request::Stop) { it.state.target.remembers = false },
    StopSetsTheFlag "The target remembers from then on." |it| if it.took(&Request::Stop) { it.state.target.remembers = true },
    StopKeepsConnections "The nodes stay connected." |it| if it.took(&Request::Stop) {
        it.state.connections = it.before.connections;
    },
    StopKeepsTheLastNode "Node 8 stays connected." |it| if it.took(&Request::Stop) {
        it.state.connections[7] = it.before.connections[7];
    },
    StopForgetsIds "The connections' ids become 0." |it| if it.took(&Request::Stop) {
        it.state.connections.iter_mut().for_each(|connection| connection.id = 0);
    },
    StopWhereItIsStopped "7 is not asked." |it| if *it.request == Request::Stop {
        it.despite(Refusal::AlreadySo, |state, _| state.target.running = true)
    },
    // ---- connect, disconnect
    ConnectKeepsId "The connection's id stays." |it| if let (Request::Connect(node), Ok(_)) = it.said() {
        it.state.connections[node as usize - 1].id = it.before.connections[node as usize - 1].id;
    },
    ConnectDoesNotConnect "The node stays disconnected." |it| if let (Request::Connect(node), Ok(_)) = it.said() {
        it.state.connections[node as usize - 1].connected = false;
    },
    ConnectWhereConnected "7 is not asked." |it| if let Request::Connect(node) = *it.request {
        it.despite(Refusal::AlreadySo, |state, _| state.connections[node as usize - 1].connected = false)
    },
    ConnectToStopped "8 is not asked." |it| if let Request::Connect(_) = *it.request {
        it.despite(Refusal::TargetStopped, |state, _| state.target.running = true);
        it.state.target.running = it.before.target.running;
    },
    ConnectWraps "9 is not asked." |it| if let Request::Connect(node) = *it.request {
        it.despite(Refusal::CounterAtLimit, |state, _| state.connections[node as usize - 1].id = 0)
    },
    DisconnectKeepsIt "The node stays connected." |it| if let (Request::Disconnect(node), Ok(_)) = it.said() {
        it.state.connections[node as usize - 1].connected = true;
    },
    DisconnectForgetsId "The connection's id becomes 0." |it| if let (Request::Disconnect(node), Ok(_)) = it.said() {
        it.state.connections[node as usize - 1].id = 0;
    },
    DisconnectWhereLost "7 is not asked." |it| if let Request::Disconnect(node) = *it.request {
        it.despite(Refusal::AlreadySo, |state, _| state.connections[node as usize - 1].connected = true)
    },
    // ---- mastership
    MasterNotStored "There is no master still." |it| if it.taken() { it.state.mastership.master = None },
    MasterKeepsTerm "The term stays." |it| if it.taken() { it.state.mastership.term = it.before.mastership.term },
    MasterKeepsConn "conn stays." |it| if it.taken() { it.state.mastership.conn = it.before.mastership.conn },
    MasterStays "One that is lost, or has reconnected, stays master." |it| if it.freed() {
        it.state.mastership.master = it.before.mastership.master;
    },
    MasterLostForgetsTerm "A lost one is freed and the term becomes 0." |it| if it.freed() && !it.is_connected() {
        it.state.mastership.term = Term(0);
    },
    MasterLostForgetsConn "A lost one is freed and conn becomes 0." |it| if it.freed() && !it.is_connected() {
        it.state.mastership.conn = 0;
    },
    MasterNotConnected "A node that is not connected is taken." |it| if let Request::Master(node) = *it.request {
        let place = (node as usize).wrapping_sub(1);
        it.despite_where(Refusal::NoRule, |state| state.mastership.master.is_none(), |state, _| {
            state.connections[place].connected = true
        });
        it.state.connections = it.before.connections;
    },
    MasterFromAnother "One that is connected is taken in place of another." |it| if let Request::Master(node) = *it.request {
        it.despite_where(
            Refusal::NoRule,
            |state| state.mastership.master.is_some() && state.mastership.master != Node::new(node),
            |state, _| state.mastership.master = None,
        )
    },
    MasterFreedByAnother "A node that is lost frees another's." |it| if let Request::Master(node) = *it.request {
        let lost = !it.is_connected();
        it.despite_where(Refusal::NoRule, |state| lost && state.mastership.master.is_some(), |state, _| {
            state.mastership.master = Node::new(node)
        })
    },
    MasterWraps "9 is not asked." |it| if let Request::Master(_) = *it.request {
        it.despite(Refusal::CounterAtLimit, |state, _| state.mastership.term = Term(0));
    },
    // ---- synchronise
    SyncBeginsNothing "It does not become InProgress." |it| if it.began() { it.state.configuration = it.before.configuration },
    SyncAtOnce "It becomes Complete at once." |it| if it.began() {
        it.state.configuration = Configuration { state: ConfigurationState::Complete, term: it.state.mastership.term };
    },
    SyncBeginsAtTheTerm "The term is set where it begins." |it| if it.began() {
        it.state.configuration.term = it.state.mastership.term;
    },
    SyncKeepsValues "The target's values stay." |it| if it.completed() { it.state.target.values = it.before.target.values },
    SyncOfCommitted "The target gets the committed values." |it| if it.completed() {
        it.state.target.values = it.state.committed.values;
    },
    SyncTrustsMemory "A target that remembers is not written." |it| if it.completed() && it.before.target.remembers {
        it.state.target.values = it.before.target.values;
    },
    SyncTrustsMemoryAndSaysSo "The same, and 0 is answered." |it| if it.completed() && it.before.target.remembers {
        it.state.target.values = it.before.target.values;
        it.served.reply = Ok(Answer::Wrote(0));
    },
    SyncLeavesTheFirst "The first path that differs is not written." |it| if let Some(path) = it.differing().next() {
        it.state.target.values[path] = it.before.target.values[path];
    },
    SyncLeavesTheLast "The last path that differs is not written." |it| if let Some(path) = it.differing().last() {
        it.state.target.values[path] = it.before.target.values[path];
    },
    SyncLeavesTheLastUncounted "The same, and it is not counted." |it| if let Some(path) = it.differing().last() {
        it.state.target.values[path] = it.before.target.values[path];
        it.counts(it.differing().count() - 1);
    },
    SyncDeletesNothing "A path that is absent among the applied is left." |it| for path in it.differing() {
        if it.state.applied.values[path] == 0 {
            it.state.target.values[path] = it.before.target.values[path];
        }
    },
    SyncSetsNoneAnew "A path that has another value is left." |it| for path in it.differing() {
        if it.before.target.values[path] != 0 {
            it.state.target.values[path] = it.before.target.values[path];
        }
    },
    SyncCountsAll "It answers 32." |it| if it.completed() { it.counts(PATHS) },
    SyncCountsNone "It answers 0." |it| if it.completed() { it.counts(0) },
    SyncCountsOneMore "It answers one more." |it| if it.completed() { it.counts(it.differing().count() + 1) },
    SyncCountsAsFlag "It answers whether a path differs." |it| if it.completed() { it.counts(it.differing().count().min(1)) },
    SyncCountsTheSame "It answers how many are the same." |it| if it.completed() { it.counts(PATHS - it.differing().count()) },
    SyncCountsPresent "It answers how many applied values are not absent." |it| if it.completed() {
        it.counts(it.state.applied.values.iter().filter(|value| **value != 0).count());
    },
    SyncCountsWhoForgets "It answers 32 for a target that forgets." |it| if it.completed() && !it.before.target.remembers {
        it.counts(PATHS);
    },
    SyncCountsCommitted "It answers in how many the target differs from the committed values." |it| if it.completed() {
        let committed = it.state.committed.values.iter().zip(it.before.target.values);
        it.counts(committed.filter(|(committed, value)| **committed != *value).count());
    },
    SyncCountsLowBytes "Of the values the lower bytes alone are compared to count." |it| if it.completed() {
        let (applied, values) = (it.state.applied.values, it.before.target.values);
        it.counts((0..PATHS).filter(|path| applied[*path] as u8 != values[*path] as u8).count());
    },
    SyncBeginsWithACount "Where it becomes InProgress it answers how many differ." |it| if it.began() {
        let (applied, values) = (it.state.applied.values, it.before.target.values);
        it.counts((0..PATHS).filter(|path| applied[*path] != values[*path]).count());
    },
    SyncLosesTheFlag "The target remembers no more." |it| if it.completed() { it.state.target.remembers = false },
    SyncKeepsTerm "The term stays." |it| if it.completed() { it.state.configuration.term = it.before.configuration.term },
    SyncStaysInProgress "It does not become Complete." |it| if it.completed() {
        it.state.configuration.state = ConfigurationState::InProgress;
    },
    SyncByAny "10 is not asked." |it| if let Request::Sync(node) = *it.request {
        it.despite(Refusal::NotMaster, |state, _| state.mastership.master = Node::new(node));
        it.state.mastership = it.before.mastership;
    },
    SyncInItsTerm "11 is not asked." |it| if let Request::Sync(_) = *it.request {
        it.despite(Refusal::NoRule, |state, _| state.configuration.term = Term(0))
    },
    SyncOfLost "Whether it is connected is not asked." |it| if let Request::Sync(node) = *it.request {
        it.despite(Refusal::LineNotOpen, |state, _| state.connections[node as usize - 1].connected = true);
        it.state.connections = it.before.connections;
    },
    SyncOfReconnected "Its id is not looked at." |it| if let Request::Sync(node) = *it.request {
        it.despite(Refusal::LineNotOpen, |state, _| state.mastership.conn = state.connections[node as usize - 1].id);
        it.state.mastership = it.before.mastership;
    },
    SyncOfStopped "Whether the target runs is not asked." |it| if let Request::Sync(_) = *it.request {
        it.despite(Refusal::LineNotOpen, |state, _| state.target.running = true);
        it.state.target.running = it.before.target.running;
    },
    // ---- fold
    FoldKeepsTheMark "The base is laid and nothing is dropped." |it| if let (Request::Fold(_), Ok(_)) = it.said() {
        (it.state.folded, it.state.log) = (it.before.folded, it.before.log.clone());
    },
    FoldAgain "A folded number is accepted, and nothing is folded." |it| if let Request::Fold(number) = *it.request {
        if number > 0 && number <= u64::from(it.before.folded.0) {
            it.served.reply = Ok(Answer::Nothing);
        }
    },
}

impl Slip {
    /// As `northbound::act`, with this slip in it.
    pub fn act(self, state: &mut State, request: &Request) -> Served {
        let before = state.clone();
        let served = act(state, request);
        let mut slipped = Slipped { before, state, request, served };
        self.made()(&mut slipped);
        slipped.served
    }
}

impl Slipped<'_> {
    fn said(&self) -> (Request, Result<Answer, Refusal>) {
        (self.request.clone(), self.served.reply)
    }

    fn took(&self, request: &Request) -> bool {
        self.request == request && self.served.reply.is_ok()
    }

    fn freshened(&self) -> bool {
        matches!(self.request, Request::Fresh(_)) && self.served.reply.is_ok()
    }

    fn of_master(&self) -> bool {
        matches!(self.request, Request::Master(_)) && self.served.reply.is_ok()
    }

    fn taken(&self) -> bool {
        self.of_master() && self.before.mastership.master.is_none()
    }

    fn freed(&self) -> bool {
        self.of_master() && self.before.mastership.master.is_some()
    }

    /// Whether the node that asks for mastership is one, and connected.
    fn is_connected(&self) -> bool {
        matches!(*self.request, Request::Master(node) if Node::new(node).is_some_and(|node| self.before.connection(node).connected))
    }

    fn began(&self) -> bool {
        let sync = matches!(self.request, Request::Sync(_)) && self.served.reply.is_ok();
        sync && self.state.configuration.state == ConfigurationState::InProgress
    }

    fn completed(&self) -> bool {
        let sync = matches!(self.request, Request::Sync(_)) && self.served.reply.is_ok();
        sync && self.state.configuration.state == ConfigurationState::Complete
    }

    /// The paths that a synchronise has written; none where it has not.
    fn differing(&self) -> impl DoubleEndedIterator<Item = usize> {
        let (before, after) = (self.before.target.values, self.state.applied.values);
        let paths = if self.completed() { 0..PATHS } else { 0..0 };
        paths.filter(move |path| before[*path] != after[*path])
    }

    /// Answers so many written paths.
    fn counts(&mut self, paths: usize) {
        self.served.reply = Ok(Answer::Wrote(paths as u16));
    }

    /// Changes the log that an accepted append left.
    fn appended(&mut self, change: impl FnOnce(&mut Vec<Transaction>)) {
        if matches!(self.request, Request::Append(_)) && self.served.reply.is_ok() {
            change(&mut self.state.log);
        }
    }

    /// Changes the entry that an accepted append made.
    fn entered(&mut self, change: impl FnOnce(&mut Transaction)) {
        self.appended(|log| {
            if let Some(entry) = log.last_mut() {
                change(entry);
            }
        });
    }

    /// Changes the entry of which an accepted request asked the rollback.
    fn asked(&mut self, change: impl FnOnce(&mut Transaction)) {
        if self.served.reply.is_ok() {
            asked_entry(self.state, self.request, change);
        }
    }

    /// An append of other pairs in place of these.
    fn pairs(&mut self, change: impl FnOnce(&mut Vec<(u16, u16)>)) {
        if let Request::Append(bytes) = self.request {
            let mut pairs = pairs_of(bytes).unwrap_or(vec![(0, 0), (0, 0)]);
            change(&mut pairs);
            self.instead(&Request::Append(bytes_of(&pairs)));
        }
    }

    /// Another request in place of this one, where this one was refused as no change.
    fn instead(&mut self, request: &Request) {
        self.despite_by(Refusal::NotAChange, request);
    }

    /// Another request in place of this one, where this one was refused so.
    fn despite_by(&mut self, refusal: Refusal, request: &Request) {
        if self.served.reply == Err(refusal) {
            self.served = act(self.state, request);
        }
    }

    /// The call once more where it was refused so, from the state changed such that it is not.
    fn despite(&mut self, refusal: Refusal, change: impl FnOnce(&mut State, &Request)) {
        self.despite_where(refusal, |_| true, change);
    }

    fn despite_where(
        &mut self,
        refusal: Refusal,
        holds: impl FnOnce(&State) -> bool,
        change: impl FnOnce(&mut State, &Request),
    ) {
        if self.served.reply != Err(refusal) || !holds(&self.before) {
            return;
        }
        change(self.state, self.request);
        self.served = act(self.state, self.request);
        if self.served.reply.is_err() {
            *self.state = self.before.clone();
        }
    }
}

/// Changes the entry of which a request asks the rollback.
fn asked_entry(state: &mut State, request: &Request, change: impl FnOnce(&mut Transaction)) {
    if let Request::Rollback(number) = *request {
        if let Ok(place) = state.place(Number(number as u16)) {
            change(&mut state.log[place]);
        }
    }
}
