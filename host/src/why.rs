//! Order 4: why a job that answers 11 does not move: one reason, and what it names.

use crate::controller::{settled, Node, Number, Ordinal, Progress, Refusal, State, Status, Transaction};
use crate::jobs::{ranged, Cut, Job, Outcome, Work};

/// A job on a number, by a node: each as wide as in the C interface.
#[derive(Clone, Copy, PartialEq, Eq, Hash, Debug)]
pub struct Question {
    pub node: u64,
    pub job: u64,
    pub number: u64,
}

/// Why a job does not move; `number` is the paper's place for it.
#[derive(Clone, Copy, PartialEq, Eq, Hash, Debug)]
pub enum Reason {
    Finished = 1,
    NoRollbackAsked,
    EarlierChange,
    CommitInFlight,
    ChangeOnTop,
    NotCommitted,
    EarlierOrdinal,
    /// None of the seven. No session leads to a state in which this is so.
    NoneFits,
}

impl Reason {
    pub const ALL: [Reason; 8] = [
        Reason::Finished,
        Reason::NoRollbackAsked,
        Reason::EarlierChange,
        Reason::CommitInFlight,
        Reason::ChangeOnTop,
        Reason::NotCommitted,
        Reason::EarlierOrdinal,
        Reason::NoneFits,
    ];

    pub fn number(self) -> u8 {
        self as u8
    }

    /// Those that a job uses, in the order in which they are tried.
    pub fn of(job: Job) -> &'static [Reason] {
        match job {
            Job::CommitChange => &[Reason::Finished, Reason::EarlierChange, Reason::CommitInFlight],
            Job::ApplyChange => &[Reason::Finished, Reason::NotCommitted, Reason::EarlierOrdinal],
            Job::CommitRollback => {
                &[Reason::Finished, Reason::NoRollbackAsked, Reason::CommitInFlight, Reason::ChangeOnTop]
            }
            Job::ApplyRollback => {
                &[Reason::Finished, Reason::NoRollbackAsked, Reason::NotCommitted, Reason::EarlierOrdinal]
            }
        }
    }
}

/// What a reason names.
#[derive(Clone, Copy, PartialEq, Eq, Hash, Debug)]
pub enum Named {
    Nothing,
    Number(Number),
    Ordinal(Ordinal),
}

/// A reason with what it names.
#[derive(Clone, Copy, PartialEq, Eq, Hash, Debug)]
pub struct Why {
    pub reason: Reason,
    pub named: Named,
}

impl Why {
    /// What is named, as one number; 0 where nothing is.
    pub fn named(self) -> u32 {
        match self.named {
            Named::Nothing => 0,
            Named::Number(number) => number.0.into(),
            Named::Ordinal(ordinal) => ordinal.0,
        }
    }

    /// The reply as one number: the answer, which is 0, the reason, and in the upper half what it names.
    pub fn packed(self) -> u64 {
        u64::from(self.reason.number()) << 8 | u64::from(self.named()) << 32
    }
}

/// A job in range, by the master, on a transaction that is kept.
#[derive(Clone, Copy)]
pub struct Asked<'a> {
    pub state: &'a State,
    pub node: Node,
    pub job: Job,
    pub number: Number,
    pub transaction: &'a Transaction,
}

impl State {
    /// Why the job does not move, where it answers 11.
    pub fn why(&self, question: Question) -> Result<Why, Refusal> {
        let asked = self.asked(question)?;
        if asked.waits() { Ok(asked.why()) } else { Err(Refusal::NotWaiting) }
    }

    /// What is asked, where the job is not refused before its rules are looked at.
    pub fn asked(&self, Question { node, job, number }: Question) -> Result<Asked<'_>, Refusal> {
        let (node, job, ..) = ranged(node, job, 0, 0).ok_or(Refusal::OutOfRange)?;
        let number = self.given(number)?;
        let transaction = &self.log[self.place(number)?];
        if self.mastership.master != Some(node) {
            return Err(Refusal::NotMaster);
        }
        Ok(Asked { state: self, node, job, number, transaction })
    }

    /// The commit that is under way where the commit side is not at rest.
    pub fn in_flight(&self) -> Number {
        let committed = &self.committed;
        if committed.target > committed.change {
            return committed.target;
        }
        let begun = |it: &Transaction| it.c.commit == Status::InProgress || it.r.commit == Status::InProgress;
        self.kept().find(|(_, it)| begun(it)).map_or(committed.revision, |(number, _)| number)
    }
}

impl Asked<'_> {
    /// Whether the job, done on copies, finds no rule. Neither the outcome nor the cut has a part in that.
    pub fn waits(&self) -> bool {
        self.answer() == Err(Refusal::NoRule)
    }

    /// What the job answers, accepted and whole, done on copies.
    pub fn answer(&self) -> Result<(), Refusal> {
        let state = self.state;
        let (mut transaction, mut target_values) = (*self.transaction, state.target.values);
        let work = Work {
            job: self.job,
            number: self.number,
            outcome: Outcome::Accepted,
            cut: Cut::Nowhere,
            transaction: &mut transaction,
            committed: &mut state.committed.clone(),
            applied: &mut state.applied.clone(),
            target_values: &mut target_values,
        };
        let worked = work.done(state.at_rest(), state.line_open(self.node), |ordinal| settled(&state.log, ordinal));
        worked.reply.map(|_| ())
    }

    /// The first of the job's reasons that is true, or the one that is given where none is.
    pub fn why(&self) -> Why {
        self.first_of(Reason::of(self.job), |reason| self.names(reason))
    }

    /// The first of these reasons that is true, given what each names where it is.
    pub fn first_of(&self, reasons: &[Reason], names: impl Fn(Reason) -> Option<Named>) -> Why {
        let found = reasons.iter().find_map(|reason| names(*reason).map(|named| Why { reason: *reason, named }));
        found.unwrap_or(Why { reason: Reason::NoneFits, named: Named::Nothing })
    }

    /// What a reason names, where it is true.
    pub fn names(&self, reason: Reason) -> Option<Named> {
        let bare = |holds: bool| holds.then_some(Named::Nothing);
        match reason {
            Reason::Finished => bare(self.status().is_done() && !self.close_is_left()),
            Reason::NoRollbackAsked => bare(self.transaction.r.commit == Status::None),
            Reason::EarlierChange => self.earlier_change().map(Named::Number),
            Reason::CommitInFlight => (!self.state.at_rest()).then(|| Named::Number(self.state.in_flight())),
            Reason::ChangeOnTop => {
                Some(self.state.committed.revision).filter(|revision| *revision > self.number).map(Named::Number)
            }
            Reason::NotCommitted => bare(self.progress().commit != Status::Complete),
            Reason::EarlierOrdinal => self.earlier_ordinal().map(Named::Ordinal),
            Reason::NoneFits => None,
        }
    }

    /// How far the job's own phase has come.
    pub fn progress(&self) -> &Progress {
        match self.job {
            Job::CommitChange | Job::ApplyChange => &self.transaction.c,
            Job::CommitRollback | Job::ApplyRollback => &self.transaction.r,
        }
    }

    /// The status of the job's own phase and stage.
    pub fn status(&self) -> Status {
        match self.job {
            Job::CommitChange | Job::CommitRollback => self.progress().commit,
            Job::ApplyChange | Job::ApplyRollback => self.progress().apply,
        }
    }

    /// Whether the job's status stands and the store that closes it is left for the job to make. A rollback's commit has none,
    /// and an apply whose commit is not Complete does not begin.
    pub fn close_is_left(&self) -> bool {
        let begins = self.progress().commit == Status::Complete;
        let next = begins && self.progress().ordinal.follows(self.state.applied.ordinal);
        match self.job {
            Job::CommitChange => {
                self.status() == Status::Failed && self.state.committed.change == self.number.before()
            }
            Job::ApplyChange => matches!(self.status(), Status::Aborted | Status::Failed) && next,
            Job::CommitRollback => false,
            Job::ApplyRollback => self.status() == Status::Canceled && next,
        }
    }

    /// The change after the last that is through commit, where it is an earlier one.
    fn earlier_change(&self) -> Option<Number> {
        let waited_for = Number(self.state.committed.change.0.checked_add(1)?);
        (waited_for < self.number).then_some(waited_for)
    }

    /// The applied ordinal while it is not settled, else the one after it, where it is an earlier one.
    fn earlier_ordinal(&self) -> Option<Ordinal> {
        let applied = self.state.applied.ordinal;
        let waited_for = if settled(&self.state.log, applied) { applied.next()? } else { applied };
        (waited_for < self.progress().ordinal).then_some(waited_for)
    }
}
