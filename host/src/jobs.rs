//! The four jobs. Each looks for the first rule that holds, makes its first store, and then, unless cut, those that follow.

use crate::controller::{
    overlay, Applied, Change, Committed, Event, Node, Number, Ordinal, Phase, Refusal, Stage, Status, Transaction, Values,
    PAIR_LIMIT,
};

#[derive(Clone, Copy, PartialEq, Eq, Hash, Debug)]
pub enum Job {
    CommitChange,
    ApplyChange,
    CommitRollback,
    ApplyRollback,
}

impl Job {
    /// In the order of their numbers, which count from 1.
    pub const ALL: [Job; 4] = [Job::CommitChange, Job::ApplyChange, Job::CommitRollback, Job::ApplyRollback];
}

/// What the model, or the target, said of the change.
#[derive(Clone, Copy, PartialEq, Eq, Hash, Debug)]
pub enum Outcome {
    Accepted,
    Rejected,
}

/// After which store a job ends early, as by a crash. A rule with no store after that one is whole.
#[derive(Clone, Copy, PartialEq, Eq, Hash, Debug)]
pub enum Cut {
    Nowhere,
    AfterFirst,
    AfterSecond,
}

/// The operands of a job where every one is in range.
pub fn ranged(node: u64, job: u64, outcome: u64, cut: u64) -> Option<(Node, Job, Outcome, Cut)> {
    let node = Node::new(node)?;
    let job = match job {
        1 => Job::CommitChange,
        2 => Job::ApplyChange,
        3 => Job::CommitRollback,
        4 => Job::ApplyRollback,
        _ => return None,
    };
    let outcome = match outcome {
        0 => Outcome::Accepted,
        1 => Outcome::Rejected,
        _ => return None,
    };
    let cut = match cut {
        0 => Cut::Nowhere,
        1 => Cut::AfterFirst,
        2 => Cut::AfterSecond,
        _ => return None,
    };
    Some((node, job, outcome, cut))
}

macro_rules! rules {
    ($($rule:ident $stores:literal $says:literal),* $(,)?) => {
        /// The paper's rules in its order: each of its 22 bullets, and each branch of the three that branch.
        #[derive(Clone, Copy, PartialEq, Eq, Hash, Debug)]
        pub enum Rule { $(#[doc = $says] $rule),* }

        impl Rule {
            pub const ALL: &'static [Rule] = &[$(Rule::$rule),*];

            /// How many stores the rule makes when it is not cut.
            pub fn stores(self) -> usize {
                match self { $(Rule::$rule => $stores),* }
            }
        }
    };
}

rules! {
    CommitChangeBegin 1 "Pending, change = i - 1, target = i.",
    CommitChangeOpen 2 "Pending, change = i - 1, at rest.",
    CommitChangeAccept 2 "InProgress, change = i - 1, accepted.",
    CommitChangeReject 2 "InProgress, change = i - 1, rejected.",
    CommitChangeFinish 1 "InProgress, change = i.",
    CommitChangePass 1 "Failed, change = i - 1.",
    CommitRollbackBegin 1 "Pending, revision = i, target = r.index.",
    CommitRollbackOpen 2 "Pending, revision = i, at rest.",
    CommitRollbackReturn 2 "InProgress, revision = i.",
    CommitRollbackFinish 1 "InProgress, revision = r.index.",
    ApplyChangeBegin 1 "Pending, next, target = i.",
    ApplyChangeAbort 2 "Pending, next, settled, r.commit Complete or revision < r.index.",
    ApplyChangeOpen 2 "Pending, next, settled, revision = r.index.",
    ApplyChangeClose 1 "Aborted or Failed, next.",
    ApplyChangeFinish 1 "InProgress, o at least 1, ordinal = o.",
    ApplyChangeFail 2 "InProgress, next, r.commit Complete.",
    ApplyChangePush 3 "InProgress, next, line open, accepted.",
    ApplyChangeReject 2 "InProgress, next, line open, rejected.",
    ApplyChangeNoLine 0 "InProgress, next, line not open: 12.",
    ApplyRollbackBegin 1 "Pending, next, c.apply Complete or Failed, target = r.index.",
    ApplyRollbackOpen 2 "Pending, next, settled, c.apply Complete or Failed.",
    ApplyRollbackCancel 2 "Pending, next, settled, c.apply Aborted.",
    ApplyRollbackClose 1 "Canceled, next.",
    ApplyRollbackFinish 1 "InProgress, o at least 1, ordinal = o.",
    ApplyRollbackPush 3 "InProgress, next, line open, accepted.",
    ApplyRollbackReject 0 "InProgress, next, line open, rejected: 13.",
    ApplyRollbackNoLine 0 "InProgress, next, line not open: 12.",
}

/// What a job came to: the rule that was taken, where one held, and its event or the refusal.
#[derive(Clone, Copy, PartialEq, Eq, Debug)]
pub struct Worked {
    pub rule: Option<Rule>,
    pub reply: Result<Option<Event>, Refusal>,
}

impl Worked {
    pub fn refused(refusal: Refusal) -> Worked {
        Worked { rule: None, reply: Err(refusal) }
    }
}

/// A job at work: what it was asked, and the parts of the state that its rules read and store.
pub struct Work<'a> {
    pub job: Job,
    pub number: Number,
    pub outcome: Outcome,
    pub cut: Cut,
    pub transaction: &'a mut Transaction,
    pub committed: &'a mut Committed,
    pub applied: &'a mut Applied,
    pub target_values: &'a mut Values,
}

impl Work<'_> {
    /// Takes the first rule that holds. `settled` is asked only where a rule names it.
    pub fn done(mut self, at_rest: bool, line_open: bool, settled: impl FnOnce(Ordinal) -> bool) -> Worked {
        match self.job {
            Job::CommitChange => self.commit_change(at_rest),
            Job::CommitRollback => self.commit_rollback(at_rest),
            Job::ApplyChange if self.transaction.c.commit == Status::Complete => self.apply_change(line_open, settled),
            Job::ApplyRollback if self.transaction.r.commit == Status::Complete => {
                self.apply_rollback(line_open, settled)
            }
            Job::ApplyChange | Job::ApplyRollback => Worked::refused(Refusal::NoRule),
        }
    }

    fn commit_change(&mut self, at_rest: bool) -> Worked {
        let i = self.number;
        let waits = self.committed.change == i.before();
        match self.transaction.c.commit {
            Status::Pending if waits && self.committed.target == i => {
                self.begin_change();
                self.silent(Rule::CommitChangeBegin)
            }
            Status::Pending if waits && at_rest => {
                self.committed.target = i;
                self.then(Self::begin_change);
                self.told(Rule::CommitChangeOpen, Status::InProgress)
            }
            Status::InProgress if waits && self.outcome == Outcome::Accepted => self.accept_change(),
            Status::InProgress if waits => {
                self.transaction.c.commit = Status::Failed;
                self.transaction.c.apply = Status::Canceled;
                self.then(Self::pass_change);
                self.told(Rule::CommitChangeReject, Status::Failed)
            }
            Status::InProgress if self.committed.change == i => {
                self.finish_change();
                self.silent(Rule::CommitChangeFinish)
            }
            Status::Failed if waits => {
                self.pass_change();
                self.silent(Rule::CommitChangePass)
            }
            _ => Worked::refused(Refusal::NoRule),
        }
    }

    fn begin_change(&mut self) {
        self.transaction.c.commit = Status::InProgress;
        self.transaction.r_index = self.committed.revision;
        (self.transaction.r_values, self.transaction.r_owners) = Default::default();
        for (place, pair) in self.transaction.change.pairs().iter().enumerate() {
            self.transaction.r_values[place] = self.committed.values[usize::from(pair.path)];
            self.transaction.r_owners[place] = self.committed.owners[usize::from(pair.path)];
        }
    }

    fn accept_change(&mut self) -> Worked {
        let Some(ordinal) = self.committed.ordinal.next() else {
            return self.refused(Rule::CommitChangeAccept, Refusal::CounterAtLimit);
        };
        self.committed.index = self.number;
        self.committed.change = self.number;
        self.committed.revision = self.number;
        self.committed.ordinal = ordinal;
        overlay(&mut self.committed.values, self.transaction.change.pairs());
        self.own_paths([self.number; PAIR_LIMIT]);
        self.then(Self::finish_change);
        self.told(Rule::CommitChangeAccept, Status::Complete)
    }

    fn finish_change(&mut self) {
        self.transaction.c.commit = Status::Complete;
        self.transaction.c.ordinal = self.committed.ordinal;
    }

    fn pass_change(&mut self) {
        self.committed.index = self.number;
        self.committed.change = self.number;
    }

    fn commit_rollback(&mut self, at_rest: bool) -> Worked {
        let r_index = self.transaction.r_index;
        let stands = self.committed.revision == self.number;
        match self.transaction.r.commit {
            Status::Pending if stands && self.committed.target == r_index => {
                self.begin_rollback();
                self.silent(Rule::CommitRollbackBegin)
            }
            Status::Pending if stands && at_rest => {
                self.committed.target = r_index;
                self.then(Self::begin_rollback);
                self.told(Rule::CommitRollbackOpen, Status::InProgress)
            }
            Status::InProgress if stands => self.return_to_r_index(),
            Status::InProgress if self.committed.revision == r_index => {
                self.finish_rollback();
                self.silent(Rule::CommitRollbackFinish)
            }
            _ => Worked::refused(Refusal::NoRule),
        }
    }

    fn begin_rollback(&mut self) {
        self.transaction.r.commit = Status::InProgress;
    }

    fn return_to_r_index(&mut self) -> Worked {
        let Some(ordinal) = self.committed.ordinal.next() else {
            return self.refused(Rule::CommitRollbackReturn, Refusal::CounterAtLimit);
        };
        self.committed.index = self.number;
        self.committed.revision = self.transaction.r_index;
        self.committed.ordinal = ordinal;
        overlay(&mut self.committed.values, self.transaction.returning_pairs().pairs());
        self.own_paths(self.transaction.r_owners);
        self.then(Self::finish_rollback);
        self.told(Rule::CommitRollbackReturn, Status::Complete)
    }

    /// Makes these the owners of the change's paths (order 7).
    fn own_paths(&mut self, owners: [Number; PAIR_LIMIT]) {
        for (pair, owner) in self.transaction.change.pairs().iter().zip(owners) {
            self.committed.owners[usize::from(pair.path)] = owner;
        }
    }

    fn finish_rollback(&mut self) {
        self.transaction.r.commit = Status::Complete;
        self.transaction.r.ordinal = self.committed.ordinal;
    }

    fn apply_change(&mut self, line_open: bool, settled: impl FnOnce(Ordinal) -> bool) -> Worked {
        let o = self.transaction.c.ordinal;
        let next = o.follows(self.applied.ordinal);
        let rolled_back = self.transaction.r.commit == Status::Complete;
        match self.transaction.c.apply {
            Status::Pending if next && self.applied.target == self.number => {
                self.begin_apply_change();
                self.silent(Rule::ApplyChangeBegin)
            }
            Status::Pending if next && settled(self.applied.ordinal) => {
                if rolled_back || self.applied.revision < self.transaction.r_index {
                    self.end_apply_change(Rule::ApplyChangeAbort, Status::Aborted)
                } else if self.applied.revision == self.transaction.r_index {
                    self.applied.target = self.number;
                    self.then(Self::begin_apply_change);
                    self.told(Rule::ApplyChangeOpen, Status::InProgress)
                } else {
                    Worked::refused(Refusal::NoRule)
                }
            }
            Status::Aborted | Status::Failed if next => {
                self.close_change();
                self.silent(Rule::ApplyChangeClose)
            }
            Status::InProgress if o != Ordinal::NONE && self.applied.ordinal == o => {
                self.finish_apply_change();
                self.silent(Rule::ApplyChangeFinish)
            }
            Status::InProgress if next && rolled_back => self.end_apply_change(Rule::ApplyChangeFail, Status::Failed),
            Status::InProgress if next && !line_open => self.refused(Rule::ApplyChangeNoLine, Refusal::LineNotOpen),
            Status::InProgress if next => match self.outcome {
                Outcome::Accepted => self.push_change(),
                Outcome::Rejected => self.end_apply_change(Rule::ApplyChangeReject, Status::Failed),
            },
            _ => Worked::refused(Refusal::NoRule),
        }
    }

    fn begin_apply_change(&mut self) {
        self.transaction.c.apply = Status::InProgress;
    }

    /// The apply ends without a push: its status, then close.
    fn end_apply_change(&mut self, rule: Rule, status: Status) -> Worked {
        self.transaction.c.apply = status;
        self.then(Self::close_change);
        self.told(rule, status)
    }

    fn close_change(&mut self) {
        self.applied.target = self.number;
        self.applied.index = self.number;
        self.applied.ordinal = self.transaction.c.ordinal;
    }

    fn push_change(&mut self) -> Worked {
        let Transaction { change, c, .. } = *self.transaction;
        self.push(Rule::ApplyChangePush, change, (self.number, c.ordinal), Self::finish_apply_change)
    }

    fn finish_apply_change(&mut self) {
        self.transaction.c.apply = Status::Complete;
    }

    fn apply_rollback(&mut self, line_open: bool, settled: impl FnOnce(Ordinal) -> bool) -> Worked {
        let o = self.transaction.r.ordinal;
        let next = o.follows(self.applied.ordinal);
        let change_began = matches!(self.transaction.c.apply, Status::Complete | Status::Failed);
        match self.transaction.r.apply {
            Status::Pending if next && change_began && self.applied.target == self.transaction.r_index => {
                self.begin_apply_rollback();
                self.silent(Rule::ApplyRollbackBegin)
            }
            Status::Pending if next && settled(self.applied.ordinal) => {
                if change_began {
                    self.applied.target = self.transaction.r_index;
                    self.then(Self::begin_apply_rollback);
                    self.told(Rule::ApplyRollbackOpen, Status::InProgress)
                } else if self.transaction.c.apply == Status::Aborted {
                    self.transaction.r.apply = Status::Canceled;
                    self.then(Self::close_rollback);
                    self.told(Rule::ApplyRollbackCancel, Status::Canceled)
                } else {
                    Worked::refused(Refusal::NoRule)
                }
            }
            Status::Canceled if next => {
                self.close_rollback();
                self.silent(Rule::ApplyRollbackClose)
            }
            Status::InProgress if o != Ordinal::NONE && self.applied.ordinal == o => {
                self.finish_apply_rollback();
                self.silent(Rule::ApplyRollbackFinish)
            }
            Status::InProgress if next && !line_open => self.refused(Rule::ApplyRollbackNoLine, Refusal::LineNotOpen),
            Status::InProgress if next => match self.outcome {
                Outcome::Accepted => self.push_rollback(),
                Outcome::Rejected => self.refused(Rule::ApplyRollbackReject, Refusal::PushRejected),
            },
            _ => Worked::refused(Refusal::NoRule),
        }
    }

    fn begin_apply_rollback(&mut self) {
        self.transaction.r.apply = Status::InProgress;
    }

    fn close_rollback(&mut self) {
        self.applied.target = self.transaction.r_index;
        self.applied.index = self.number;
        self.applied.ordinal = self.transaction.r.ordinal;
    }

    fn push_rollback(&mut self) -> Worked {
        let Transaction { r_index, r, .. } = *self.transaction;
        let returning = self.transaction.returning_pairs();
        self.push(Rule::ApplyRollbackPush, returning, (r_index, r.ordinal), Self::finish_apply_rollback)
    }

    fn finish_apply_rollback(&mut self) {
        self.transaction.r.apply = Status::Complete;
    }

    /// An accepted push (order 8): the target's values, then Applied with the event, then the status.
    fn push(&mut self, rule: Rule, pairs: Change, applied: (Number, Ordinal), finish: fn(&mut Self)) -> Worked {
        overlay(self.target_values, pairs.pairs());
        if self.cut == Cut::AfterFirst {
            return self.silent(rule);
        }
        overlay(&mut self.applied.values, pairs.pairs());
        self.applied.index = self.number;
        (self.applied.revision, self.applied.ordinal) = applied;
        if self.cut != Cut::AfterSecond {
            finish(self);
        }
        self.told(rule, Status::Complete)
    }

    /// The second of two stores: left out where the job is cut after the first.
    fn then(&mut self, store: impl FnOnce(&mut Self)) {
        if self.cut != Cut::AfterFirst {
            store(self);
        }
    }

    fn silent(&self, rule: Rule) -> Worked {
        Worked { rule: Some(rule), reply: Ok(None) }
    }

    fn refused(&self, rule: Rule, refusal: Refusal) -> Worked {
        Worked { rule: Some(rule), reply: Err(refusal) }
    }

    fn told(&self, rule: Rule, status: Status) -> Worked {
        let (phase, stage) = match self.job {
            Job::CommitChange => (Phase::Change, Stage::Commit),
            Job::ApplyChange => (Phase::Change, Stage::Apply),
            Job::CommitRollback => (Phase::Rollback, Stage::Commit),
            Job::ApplyRollback => (Phase::Rollback, Stage::Apply),
        };
        Worked { rule: Some(rule), reply: Ok(Some(Event { phase, stage, number: self.number, status })) }
    }
}
