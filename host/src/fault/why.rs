//! Wrong copies of order 4: a reason left out of a job's row or added to it, tried in another order, tested otherwise, or
//! naming something else; and what is no 11 explained.

use crate::controller::{Number, Ordinal, Phase, Progress, Refusal, State, Status, Transaction};
use crate::jobs::Job;
use crate::why::{Asked, Named, Question, Reason, Why};

#[derive(Clone, Copy, PartialEq, Eq, Debug)]
pub enum Guess {
    /// The job does not try that reason.
    LeftOut(Job, Reason),
    /// The job tries that reason too, by its number.
    Added(Job, Reason),
    /// Of two reasons that follow on each other in a job's row, the second is tried first.
    Swapped(Job, Reason, Reason),
    /// A reason is tested otherwise, or names something else.
    Otherwise(Test),
    /// 15 is not asked: what would move is explained too.
    MovingExplained,
    /// A job that answers 12, or 9, is explained.
    LineExplained,
    CounterExplained,
    /// Where no reason fits the answer is 15, or the number asked after is named.
    EighthRefused,
    EighthNamesItself,
}

impl Guess {
    pub fn all() -> Vec<Guess> {
        let seven = || Reason::ALL.into_iter().filter(|reason| *reason != Reason::NoneFits);
        let each = || Job::ALL.into_iter().flat_map(move |job| seven().map(move |reason| (job, reason)));
        let mut all: Vec<Guess> = each().map(|(job, reason)| row(job, reason)).collect();
        for job in Job::ALL {
            let neighbours = Reason::of(job).windows(2).map(|two| (two[0], two[1]));
            all.extend(neighbours.filter(|two| !exclude(job, *two)).map(|(one, then)| Guess::Swapped(job, one, then)));
        }
        all.extend(Test::ALL.iter().copied().map(Guess::Otherwise));
        all.extend([Guess::MovingExplained, Guess::LineExplained, Guess::CounterExplained]);
        all.extend([Guess::EighthRefused, Guess::EighthNamesItself]);
        all
    }

    /// As `State::why`, with this in it.
    pub fn why(self, state: &State, question: Question) -> Result<Why, Refusal> {
        let asked = state.asked(question)?;
        let explained = matches!(
            (self, asked.answer()),
            (_, Err(Refusal::NoRule))
                | (Guess::MovingExplained, _)
                | (Guess::LineExplained, Err(Refusal::LineNotOpen))
                | (Guess::CounterExplained, Err(Refusal::CounterAtLimit))
        );
        let why = asked.first_of(&self.reasons(asked.job), |reason| self.names(&asked, reason));
        match (self, why.reason) {
            _ if !explained => Err(Refusal::NotWaiting),
            (Guess::EighthRefused, Reason::NoneFits) => Err(Refusal::NotWaiting),
            (Guess::EighthNamesItself, Reason::NoneFits) => Ok(Why { named: Named::Number(asked.number), ..why }),
            _ => Ok(why),
        }
    }

    /// Those that the job tries, in their order.
    fn reasons(self, job: Job) -> Vec<Reason> {
        let mut reasons = Reason::of(job).to_vec();
        let place = |reason: Reason| Reason::of(job).iter().position(|each| *each == reason);
        match self {
            Guess::LeftOut(of, reason) if of == job => reasons.retain(|each| *each != reason),
            Guess::Added(to, reason) if to == job => {
                reasons.push(reason);
                reasons.sort_by_key(|reason| reason.number());
            }
            Guess::Swapped(of, one, _) if of == job => {
                place(one).into_iter().for_each(|place| reasons.swap(place, place + 1));
            }
            _ => {}
        }
        reasons
    }

    fn names(self, asked: &Asked, reason: Reason) -> Option<Named> {
        match self {
            Guess::Otherwise(test) if test.made().0 == reason => test.made().1(asked),
            _ => asked.names(reason),
        }
    }
}

/// The job's row without the reason where it has it, with it where it has it not.
fn row(job: Job, reason: Reason) -> Guess {
    if Reason::of(job).contains(&reason) { Guess::LeftOut(job, reason) } else { Guess::Added(job, reason) }
}

/// Whether two reasons of a job are never true together, so that their order does not show: one r.commit is Done, or None.
fn exclude(job: Job, two: (Reason, Reason)) -> bool {
    job == Job::CommitRollback && two == (Reason::Finished, Reason::NoRollbackAsked)
}

macro_rules! tests {
    ($($test:ident $says:literal $reason:ident $made:expr,)*) => {
        /// A reason that is tested otherwise, or names something else.
        #[derive(Clone, Copy, PartialEq, Eq, Debug)]
        pub enum Test { $(#[doc = $says] $test),* }

        impl Test {
            pub const ALL: &'static [Test] = &[$(Test::$test),*];

            /// The reason, and what it names with this in it, where it is taken for true.
            fn made(self) -> (Reason, fn(&Asked) -> Option<Named>) {
                match self { $(Test::$test => (Reason::$reason, $made)),* }
            }
        }
    };
}

tests! {
    // ---- finished
    CompleteUnfinished "Complete is not taken for Done." Finished |it| finished(it, it.status() != Status::Complete),
    AbortedUnfinished "Aborted is not taken for Done." Finished |it| finished(it, it.status() != Status::Aborted),
    CanceledUnfinished "Canceled is not taken for Done." Finished |it| finished(it, it.status() != Status::Canceled),
    FailedUnfinished "Failed is not taken for Done." Finished |it| finished(it, it.status() != Status::Failed),
    NoneFinished "None is taken for Done." Finished |it| done_or(it, Status::None),
    PendingFinished "Pending is taken for Done." Finished |it| done_or(it, Status::Pending),
    InProgressFinished "InProgress is taken for Done." Finished |it| done_or(it, Status::InProgress),
    FinishedByOtherStage "Commit is looked at for apply, and apply for commit." Finished |it| {
        let commits = matches!(it.job, Job::CommitChange | Job::CommitRollback);
        bare(if commits { it.progress().apply } else { it.progress().commit }.is_done())
    },
    FinishedByOtherPhase "The change is looked at for the rollback, and the other way round." Finished |it| {
        let commits = matches!(it.job, Job::CommitChange | Job::CommitRollback);
        bare(if commits { other_phase(it).commit } else { other_phase(it).apply }.is_done())
    },
    // ---- no rollback asked
    AskedByPhase "The phase is looked at." NoRollbackAsked |it| bare(it.transaction.phase == Phase::Change),
    AskedByApply "r.apply is looked at." NoRollbackAsked |it| bare(it.transaction.r.apply == Status::None),
    // ---- an earlier change
    EarlierAtMost "change + 1 at most the number." EarlierChange |it| {
        let next = it.state.committed.change.0.checked_add(1).map(Number);
        next.filter(|next| *next <= it.number).map(Named::Number)
    },
    EarlierByTwo "change + 1 below the number before." EarlierChange |it| {
        let next = it.state.committed.change.0.checked_add(1).map(Number);
        next.filter(|next| *next < it.number.before()).map(Named::Number)
    },
    EarlierByRevision "revision + 1." EarlierChange |it| earlier(it, it.state.committed.revision),
    EarlierByIndex "index + 1." EarlierChange |it| earlier(it, it.state.committed.index),
    EarlierByTarget "target + 1." EarlierChange |it| earlier(it, it.state.committed.target),
    EarlierWraps "change + 1 keeps 16 bits." EarlierChange |it| {
        let next = Number(it.state.committed.change.0.wrapping_add(1));
        (next < it.number).then_some(Named::Number(next))
    },
    EarlierNamesChange "change is named." EarlierChange |it| {
        it.names(Reason::EarlierChange).map(|_| Named::Number(it.state.committed.change))
    },
    EarlierNamesBefore "The number before is named." EarlierChange |it| {
        it.names(Reason::EarlierChange).map(|_| Named::Number(it.number.before()))
    },
    // ---- a commit in flight: whether
    RestBelowIndex "A target below the index, and that rollback Done, is taken for rest." CommitInFlight |it| {
        let committed = &it.state.committed;
        let at_index = it.state.transaction(committed.index);
        let returned = at_index.map_or(true, |last| last.r.commit.is_done());
        it.names(Reason::CommitInFlight).filter(|_| !(committed.target < committed.index && returned))
    },
    RestOfChangesAlone "A rollback's rest is not looked at." CommitInFlight |it| {
        in_flight(it, it.state.committed.target != it.state.committed.index)
    },
    RestOfRollbacksAlone "A change's rest is not looked at." CommitInFlight |it| {
        in_flight(it, it.state.committed.target == it.state.committed.index && it.state.committed.index != Number::NONE)
    },
    RestAtNone "Index and target 0 are not taken for rest." CommitInFlight |it| {
        in_flight(it, it.state.committed.index == Number::NONE)
    },
    RestAtFoldedMark "A folded mark is not taken for Done." CommitInFlight |it| {
        let index = it.state.committed.index;
        in_flight(it, index != Number::NONE && index <= it.state.folded)
    },
    // ---- a commit in flight: its name
    FlightNamesTarget "The target is named always." CommitInFlight |it| flown(it, |state| state.committed.target),
    FlightTargetAtLeast "The target where it is change, or above." CommitInFlight |it| flown(it, |state| {
        let committed = &state.committed;
        if committed.target >= committed.change { committed.target } else { lowest(state, begun) }
    }),
    FlightTargetNever "The target is not looked at." CommitInFlight |it| flown(it, |state| lowest(state, begun)),
    FlightNamesHighest "The highest InProgress." CommitInFlight |it| below_change(it, |state| {
        let last = state.kept().filter(|(_, it)| begun(it)).last();
        last.map_or(state.committed.revision, |(number, _)| number)
    }),
    FlightOfChanges "The lowest with c.commit InProgress." CommitInFlight |it| below_change(it, |state| {
        lowest(state, |it| it.c.commit == Status::InProgress)
    }),
    FlightOfRollbacks "The lowest with r.commit InProgress." CommitInFlight |it| below_change(it, |state| {
        lowest(state, |it| it.r.commit == Status::InProgress)
    }),
    FlightOfPending "The lowest with c.commit or r.commit Pending or InProgress." CommitInFlight |it| below_change(it, |state| {
        lowest(state, |it| begun(it) || it.c.commit == Status::Pending || it.r.commit == Status::Pending)
    }),
    FlightOfApplies "The lowest with c.apply or r.apply InProgress." CommitInFlight |it| below_change(it, |state| {
        lowest(state, |it| it.c.apply == Status::InProgress || it.r.apply == Status::InProgress)
    }),
    FlightCountedFrom1 "The lowest InProgress, counted from 1." CommitInFlight |it| below_change(it, |state| {
        let found = state.log.iter().position(begun);
        found.map_or(state.committed.revision, |place| Number(place as u16 + 1))
    }),
    FlightNamesRevision "The revision, whether or not one is InProgress." CommitInFlight |it| {
        below_change(it, |state| state.committed.revision)
    },
    FlightNamesIndex "The index in place of the revision." CommitInFlight |it| below_change(it, |state| {
        if state.log.iter().any(begun) { lowest(state, begun) } else { state.committed.index }
    }),
    FlightNamesNone "0 in place of the revision." CommitInFlight |it| below_change(it, |state| {
        if state.log.iter().any(begun) { lowest(state, begun) } else { Number::NONE }
    }),
    // ---- a later change on top
    OnTopByChange "change above the number." ChangeOnTop |it| {
        let committed = &it.state.committed;
        (committed.change > it.number).then_some(Named::Number(committed.revision))
    },
    OnTopByTwo "revision above the number after." ChangeOnTop |it| {
        it.names(Reason::ChangeOnTop).filter(|_| it.state.committed.revision.before() > it.number)
    },
    OnTopNamesChange "change is named." ChangeOnTop |it| {
        it.names(Reason::ChangeOnTop).map(|_| Named::Number(it.state.committed.change))
    },
    OnTopNamesNext "The number after is named." ChangeOnTop |it| {
        it.names(Reason::ChangeOnTop).map(|_| Named::Number(Number(it.number.0 + 1)))
    },
    // ---- not committed
    CommittedWhereDone "Done is taken for Complete." NotCommitted |it| bare(!it.progress().commit.is_done()),
    CommittedByOtherPhase "r.commit is looked at for the change, c.commit for the rollback." NotCommitted |it| {
        bare(other_phase(it).commit != Status::Complete)
    },
    NotCommittedNamesItself "The number asked after is named." NotCommitted |it| {
        it.names(Reason::NotCommitted).map(|_| Named::Number(it.number))
    },
    // ---- an earlier ordinal
    OrdinalSettled "The ordinal after the applied one, settled or not." EarlierOrdinal |it| {
        it.state.applied.ordinal.next().and_then(|next| below(it, next))
    },
    OrdinalUnsettled "The applied ordinal, settled or not." EarlierOrdinal |it| below(it, it.state.applied.ordinal),
    OrdinalSettledByChanges "Rollbacks that carry it are not looked at." EarlierOrdinal |it| {
        settled_by(it, |transaction| vec![transaction.c])
    },
    OrdinalSettledByRollbacks "Changes that carry it are not looked at." EarlierOrdinal |it| {
        settled_by(it, |transaction| vec![transaction.r])
    },
    OrdinalAtMost "At most the job's own." EarlierOrdinal |it| {
        let own = it.progress().ordinal;
        Some(waited_for(it)).filter(|waited_for| *waited_for <= own).map(Named::Ordinal)
    },
    OrdinalOfAny "Below the job's own is not asked." EarlierOrdinal |it| Some(Named::Ordinal(waited_for(it))),
    OrdinalAppliedOfAny "Of the applied one it is not asked whether it is below." EarlierOrdinal |it| {
        let waited_for = waited_for(it);
        if waited_for == it.state.applied.ordinal { Some(Named::Ordinal(waited_for)) } else { below(it, waited_for) }
    },
    OrdinalByOtherPhase "r.ordinal is the change's own, c.ordinal the rollback's." EarlierOrdinal |it| {
        Some(waited_for(it)).filter(|waited_for| *waited_for < other_phase(it).ordinal).map(Named::Ordinal)
    },
    OrdinalOfCommitted "The committed ordinal is named." EarlierOrdinal |it| {
        it.names(Reason::EarlierOrdinal).map(|_| Named::Ordinal(it.state.committed.ordinal))
    },
    OrdinalNamesOwn "The job's own is named." EarlierOrdinal |it| {
        it.names(Reason::EarlierOrdinal).map(|_| Named::Ordinal(it.progress().ordinal))
    },
    OrdinalNamesBefore "The one before the job's own is named." EarlierOrdinal |it| {
        it.names(Reason::EarlierOrdinal).map(|_| Named::Ordinal(Ordinal(it.progress().ordinal.0 - 1)))
    },
    OrdinalOf16Bits "The ordinal keeps 16 bits." EarlierOrdinal |it| {
        below(it, waited_for(it)).map(|_| Named::Ordinal(Ordinal(waited_for(it).0 & 0xffff)))
    },
}

fn bare(holds: bool) -> Option<Named> {
    holds.then_some(Named::Nothing)
}

/// Finished, and that too.
fn finished(it: &Asked, and: bool) -> Option<Named> {
    it.names(Reason::Finished).filter(|_| and)
}

/// Finished, or of that status.
fn done_or(it: &Asked, status: Status) -> Option<Named> {
    it.names(Reason::Finished).or(bare(it.status() == status))
}

fn other_phase<'a>(it: &Asked<'a>) -> &'a Progress {
    match it.job {
        Job::CommitChange | Job::ApplyChange => &it.transaction.r,
        Job::CommitRollback | Job::ApplyRollback => &it.transaction.c,
    }
}

/// The number after that one, where it is below the number asked after.
fn earlier(it: &Asked, number: Number) -> Option<Named> {
    number.0.checked_add(1).map(Number).filter(|next| *next < it.number).map(Named::Number)
}

/// Not at rest, or that.
fn in_flight(it: &Asked, or: bool) -> Option<Named> {
    it.names(Reason::CommitInFlight).or_else(|| or.then(|| Named::Number(it.state.in_flight())))
}

/// Not at rest, and that is named.
fn flown(it: &Asked, named: fn(&State) -> Number) -> Option<Named> {
    it.names(Reason::CommitInFlight).map(|_| Named::Number(named(it.state)))
}

/// As `flown`, but the target where it is above change.
fn below_change(it: &Asked, named: fn(&State) -> Number) -> Option<Named> {
    let committed = &it.state.committed;
    if committed.target > committed.change { it.names(Reason::CommitInFlight) } else { flown(it, named) }
}

fn begun(it: &Transaction) -> bool {
    it.c.commit == Status::InProgress || it.r.commit == Status::InProgress
}

/// The lowest of the kept ones of which that holds, or the revision.
fn lowest(state: &State, holds: impl Fn(&Transaction) -> bool) -> Number {
    state.kept().find(|(_, it)| holds(it)).map_or(state.committed.revision, |(number, _)| number)
}

/// The applied ordinal while it is not settled by what carries it there, else the one after.
fn waited_for_by(it: &Asked, carrying: fn(&Transaction) -> Vec<Progress>) -> Ordinal {
    let applied = it.state.applied.ordinal;
    let open = |progress: &Progress| progress.ordinal == applied && !progress.apply.is_done();
    let settled = applied == Ordinal::NONE || !it.state.log.iter().flat_map(carrying).any(|progress| open(&progress));
    if settled { Ordinal(applied.0 + 1) } else { applied }
}

fn waited_for(it: &Asked) -> Ordinal {
    waited_for_by(it, |transaction| vec![transaction.c, transaction.r])
}

fn settled_by(it: &Asked, carrying: fn(&Transaction) -> Vec<Progress>) -> Option<Named> {
    below(it, waited_for_by(it, carrying))
}

/// That ordinal, where it is below the job's own.
fn below(it: &Asked, ordinal: Ordinal) -> Option<Named> {
    (ordinal < it.progress().ordinal).then_some(Named::Ordinal(ordinal))
}
