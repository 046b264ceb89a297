//! Wrong copies of order 2: other jobs tried or in another order, the table read otherwise, another reason to stop, ranges not
//! asked, jobs too many or too few, events shown otherwise.

use crate::controller::{Number, Refusal, State, LOG_LIMIT};
use crate::image;
use crate::jobs::Worked;
use crate::night::{Done, Night, Passed, Stopped, BUDGET_LIMIT, EVENT, OUTCOMES};

#[derive(Clone, Copy, PartialEq, Eq, Debug)]
pub enum Lapse {
    // ---- what a turn tries
    /// The lowest kept number is left out, or the highest.
    FromSecond,
    WithoutLast,
    /// From the highest number downward.
    FromHighest,
    /// Numbers from 1 on, as many as are kept; or by the ring's slots, from its first.
    CountedFrom1,
    BySlot,
    /// The jobs of a number are tried in this order.
    Jobs([u64; 4]),
    /// Job 1 of every number, then job 2 of every number, and so on.
    JobByJob,
    /// A turn begins at the number that the last one worked on, or goes round from the one behind it.
    GoesOn,
    GoesRound,
    /// A number without a job ends the turn.
    EndsWhereIdle,
    /// A job that is refused so ends the turn.
    EndsAt(Refusal),
    // ---- what a job is told
    /// Every job is cut so.
    Cut(u64),
    /// The push of a rollback is told what the table has for the push of the change, or for its validation.
    RollbackByPush,
    RollbackByValidation,
    /// The places are those of the number, folded or not, or those of its slot.
    TableByNumber,
    TableBySlot,
    /// The validation's place is the push's, and the other way round.
    PlacesSwapped,
    /// Both have the first of the two places, or the second.
    ValidationForBoth,
    PushForBoth,
    /// One place for each transaction.
    OneForEach,
    /// The places of the next transaction, or one place further.
    OfTheNext,
    OnePlaceFurther,
    /// The outcomes are used up one after another.
    UsedUp,
    /// The table is not looked at.
    AllAccepted,
    AllRejected,
    // ---- why it stopped
    /// One reason is answered for another.
    StoppedAs(Stopped, Stopped),
    /// A budget that is spent is 2, whatever could go; a budget of 0 is 0.
    SpentUnasked,
    NoBudgetIsOver,
    /// What could still go is asked with every outcome accepted.
    SpentByAccepted,
    /// 12 is looked for in the last job alone, or in those of the first number.
    LineByLast,
    LineByFirst,
    /// 9 is taken for 12.
    CounterAsLine,
    /// A 12 of an earlier turn still counts.
    LineRemembered,
    // ---- what is in range
    /// The greatest budget is this.
    BudgetLimit(u64),
    /// A table that is shorter, or longer, is taken.
    ShortTable,
    LongTable,
    /// An outcome above 1 is taken as rejected, or as accepted.
    GreatRejects,
    GreatAccepts,
    /// Outcomes of no transaction that is kept are not looked at; the first one is not, the last one is not.
    BeyondKeptUnasked,
    FirstUnasked,
    LastUnasked,
    /// 10 is not asked.
    AnyNode,
    // ---- how much is done
    OneMore,
    OneLess,
    /// The last job's stores are not kept; none is; those of owners are not (order 7).
    LastUndone,
    Undone,
    OwnersLeft,
    // ---- what is answered and shown
    /// Only jobs with an event are counted; one more is.
    JobsByEvents,
    JobsOneMore,
    /// The last event is not shown, or each a place late, or in the other order.
    LastUnshown,
    ShownLate,
    ShownBackwards,
    /// A job without an event takes no room.
    SilentSkipped,
    /// Number and status have each other's place.
    PartsSwapped,
    /// An event that does not fit is shown in part; one that just fits is not.
    ShownInPart,
    ExactTooShort,
    /// Bytes behind the events become 0, or those of a refused night.
    RestCleared,
    RefusedClears,
    /// All jobs are counted as shown, or only those with an event.
    ShownByJobs,
    ShownByEvents,
}

/// Orders of the jobs that show: 2 and 3 in states that a session reaches, other pairs where none does. Jobs 1 and 2 of a number,
/// and 3 and 4, never go together: 2 waits for a Complete c.commit, 4 for a Complete r.commit.
const ORDERS: [[u64; 4]; 4] = [[1, 3, 2, 4], [2, 3, 1, 4], [1, 4, 2, 3], [4, 3, 2, 1]];

impl Lapse {
    pub fn all() -> Vec<Lapse> {
        use Lapse::*;
        let mut all = vec![FromSecond, WithoutLast, FromHighest, CountedFrom1, BySlot, JobByJob];
        all.extend([GoesOn, GoesRound, EndsWhereIdle]);
        all.extend(ORDERS.map(Jobs));
        all.extend([Refusal::LineNotOpen, Refusal::CounterAtLimit].map(EndsAt));
        all.extend([Cut(1), Cut(2), RollbackByPush, RollbackByValidation, TableByNumber, TableBySlot, PlacesSwapped]);
        all.extend([ValidationForBoth, PushForBoth, OneForEach, OfTheNext, OnePlaceFurther, UsedUp, AllAccepted, AllRejected]);
        let each_two = Stopped::ALL.into_iter().flat_map(|one| Stopped::ALL.map(|other| (one, other)));
        all.extend(each_two.filter(|(one, other)| one != other).map(|(one, other)| StoppedAs(one, other)));
        all.extend([SpentUnasked, NoBudgetIsOver, SpentByAccepted, LineByLast, LineByFirst, CounterAsLine]);
        all.extend([LineRemembered]);
        all.extend([BUDGET_LIMIT - 1, BUDGET_LIMIT + 1].map(BudgetLimit));
        all.extend([ShortTable, LongTable, GreatRejects, GreatAccepts, BeyondKeptUnasked, FirstUnasked, LastUnasked, AnyNode]);
        all.extend([OneMore, OneLess, LastUndone, Undone, JobsByEvents, JobsOneMore, LastUnshown, ShownLate, ShownBackwards]);
        all.extend([SilentSkipped, PartsSwapped, ShownInPart, ExactTooShort, RestCleared, RefusedClears]);
        all.extend([ShownByJobs, ShownByEvents, OwnersLeft]);
        all
    }

    /// As `State::night`, with this in it.
    pub fn night(self, state: &mut State, night: &Night) -> Result<Passed, Refusal> {
        let mut night = self.taken(state.log.len(), night).ok_or(Refusal::OutOfRange)?;
        let node = night.ranged().ok_or(Refusal::OutOfRange)?;
        match state.mastership.master {
            Some(master) if master == node => {}
            Some(master) if self == Lapse::AnyNode => night.node = master.number().into(),
            _ => return Err(Refusal::NotMaster),
        }
        let before = state.clone();
        let passed = self.passed(state, &night);
        match self {
            Lapse::Undone => *state = before,
            Lapse::OwnersLeft => state.committed.owners = before.committed.owners,
            Lapse::LastUndone => {
                *state = before;
                for done in passed.jobs.split_last().map_or(&[][..], |(_, earlier)| earlier) {
                    state.work(night.node, done.job, done.number.0.into(), done.outcome, 0);
                }
            }
            _ => {}
        }
        Ok(passed)
    }

    /// The night with what is not asked put in range; none where this refuses it.
    fn taken(self, kept: usize, night: &Night) -> Option<Night> {
        let mut night = night.clone();
        let table = &mut night.outcomes;
        match self {
            Lapse::BudgetLimit(limit) if night.budget > limit => return None,
            Lapse::BudgetLimit(_) => night.budget = night.budget.min(BUDGET_LIMIT),
            Lapse::ShortTable => table.resize(table.len().max(OUTCOMES), 0),
            Lapse::LongTable => table.truncate(OUTCOMES),
            Lapse::GreatRejects => table.iter_mut().for_each(|outcome| *outcome = (*outcome).min(1)),
            Lapse::GreatAccepts => table.iter_mut().for_each(|outcome| *outcome = (*outcome == 1).into()),
            Lapse::BeyondKeptUnasked => table.iter_mut().skip(2 * kept).for_each(|outcome| *outcome &= 1),
            Lapse::FirstUnasked => table.iter_mut().take(1).for_each(|outcome| *outcome &= 1),
            Lapse::LastUnasked => table.iter_mut().skip(OUTCOMES - 1).for_each(|outcome| *outcome &= 1),
            _ => {}
        }
        Some(night)
    }

    fn passed(self, state: &mut State, night: &Night) -> Passed {
        let budget = match self {
            Lapse::OneMore => night.budget + 1,
            Lapse::OneLess => night.budget.saturating_sub(1),
            _ => night.budget,
        };
        let mut jobs = Vec::new();
        let mut needed_line = false;
        let stopped = loop {
            needed_line |= self == Lapse::LineRemembered && needs_line(state, night);
            if jobs.len() as u64 == budget {
                break self.spent(state, night, &jobs);
            }
            match self.turn(state, night, &jobs) {
                Ok(done) => jobs.push(done),
                Err(stopped) => break stopped,
            }
        };
        match self {
            Lapse::StoppedAs(from, to) if stopped == from => Passed { jobs, stopped: to },
            _ if needed_line && stopped == Stopped::NothingLeft => Passed { jobs, stopped: Stopped::NoLine },
            _ => Passed { jobs, stopped },
        }
    }

    /// Why it stopped where the budget is spent.
    fn spent(self, state: &State, night: &Night, jobs: &[Done]) -> Stopped {
        let mut asked = night.clone();
        match self {
            Lapse::SpentUnasked => return Stopped::BudgetSpent,
            Lapse::NoBudgetIsOver if jobs.is_empty() => return Stopped::NothingLeft,
            Lapse::SpentByAccepted => asked.outcomes.fill(0),
            _ => {}
        }
        self.turn(&mut state.clone(), &asked, jobs).err().unwrap_or(Stopped::BudgetSpent)
    }

    fn turn(self, state: &mut State, night: &Night, done: &[Done]) -> Result<Done, Stopped> {
        let mut refusals = Vec::new();
        for (place, job) in self.tried(state, done) {
            let folded = if self == Lapse::CountedFrom1 { 0 } else { state.folded.0.into() };
            let number = folded + 1 + place as u64;
            let outcome = self.outcome(night, place, number, job, done);
            let cut = if let Lapse::Cut(cut) = self { cut } else { 0 };
            match state.work(night.node, job, number, outcome, cut) {
                Worked { reply: Ok(event), rule } => {
                    let number = state.given(number).expect("a job's number is given");
                    return Ok(Done { job, number, outcome, rule, event });
                }
                Worked { reply: Err(refusal), .. } => refusals.push(refusal),
            }
            let ends = matches!(self, Lapse::EndsAt(refusal) if refusals.last() == Some(&refusal));
            if ends || (self == Lapse::EndsWhereIdle && job == 4) {
                break;
            }
        }
        Err(self.stopped(&refusals))
    }

    /// The places and jobs of a turn, behind these jobs.
    fn tried(self, state: &State, done: &[Done]) -> Vec<(usize, u64)> {
        let kept = state.log.len();
        let last = done.last().map(|done| state.place(done.number).expect("a job's number is kept"));
        let mut places: Vec<usize> = (0..kept).collect();
        let jobs = if let Lapse::Jobs(jobs) = self { jobs } else { [1, 2, 3, 4] };
        match self {
            Lapse::FromSecond => places.retain(|place| *place > 0),
            Lapse::WithoutLast => places.truncate(kept.saturating_sub(1)),
            Lapse::FromHighest => places.reverse(),
            Lapse::BySlot => places.sort_by_key(|place| (usize::from(state.folded.0) + place) % LOG_LIMIT),
            Lapse::GoesOn => places.retain(|place| Some(*place) >= last),
            Lapse::GoesRound => places.rotate_left(last.map_or(0, |last| (last + 1) % kept)),
            Lapse::JobByJob => return jobs.iter().flat_map(|job| places.iter().map(|place| (*place, *job))).collect(),
            _ => {}
        }
        places.into_iter().flat_map(|place| jobs.map(|job| (place, job))).collect()
    }

    fn outcome(self, night: &Night, place: usize, number: u64, job: u64, done: &[Done]) -> u64 {
        let at = |place: usize| night.outcomes.get(place).copied().unwrap_or(0).into();
        let second = job as usize - 1;
        match (self, job) {
            (Lapse::RollbackByPush, 4) => at(2 * place + 1),
            (Lapse::RollbackByValidation, 4) => at(2 * place),
            (_, 3 | 4) => 0,
            (Lapse::TableByNumber, _) => at(2 * (number as usize - 1) + second),
            (Lapse::TableBySlot, _) => at(2 * (number as usize - 1) % OUTCOMES + second),
            (Lapse::PlacesSwapped, _) => at(2 * place + 1 - second),
            (Lapse::ValidationForBoth, _) => at(2 * place),
            (Lapse::PushForBoth, _) => at(2 * place + 1),
            (Lapse::OneForEach, _) => at(place),
            (Lapse::OfTheNext, _) => at(2 * place + 2 + second),
            (Lapse::OnePlaceFurther, _) => at(2 * place + 1 + second),
            (Lapse::UsedUp, _) => at(done.iter().filter(|done| done.job <= 2).count()),
            (Lapse::AllAccepted, _) => 0,
            (Lapse::AllRejected, _) => 1,
            _ => night.outcome(place, job),
        }
    }

    /// Why it stopped where these are the refusals of a turn's jobs.
    fn stopped(self, refusals: &[Refusal]) -> Stopped {
        let needs_line = match self {
            Lapse::LineByLast => refusals.last() == Some(&Refusal::LineNotOpen),
            Lapse::LineByFirst => refusals.iter().take(4).any(|refusal| *refusal == Refusal::LineNotOpen),
            Lapse::CounterAsLine => {
                refusals.iter().any(|refusal| matches!(refusal, Refusal::LineNotOpen | Refusal::CounterAtLimit))
            }
            _ => refusals.contains(&Refusal::LineNotOpen),
        };
        if needs_line { Stopped::NoLine } else { Stopped::NothingLeft }
    }

    /// As `northbound::store_night`, with this in it.
    pub fn store(self, state: &State, passed: &Passed, bytes: &mut [u8], room: &mut [u8]) -> u64 {
        image::encode(state, bytes);
        let mut told = passed.clone();
        let silent = |done: &Done| Done { event: None, ..*done };
        match self {
            Lapse::LastUnshown => told.jobs.iter_mut().next_back().into_iter().for_each(|done| *done = silent(done)),
            Lapse::ShownLate => told.jobs.first().map(silent).into_iter().for_each(|done| told.jobs.insert(0, done)),
            Lapse::ShownBackwards => told.jobs.reverse(),
            Lapse::SilentSkipped => told.jobs.retain(|done| done.event.is_some()),
            _ => {}
        }
        let length = room.len();
        let (lent, more) = match self {
            Lapse::ExactTooShort if length == EVENT * passed.jobs.len() => (length.saturating_sub(1), 0),
            Lapse::ShownInPart => (length, length.next_multiple_of(EVENT) - length),
            _ => (length, 0),
        };
        let mut records = [&room[..lent], &vec![0; more]].concat();
        let shown = told.show(&mut records);
        self.disturb(shown, &mut records);
        room[..lent].copy_from_slice(&records[..lent]);
        self.packed(passed, shown.min(passed.jobs.len()).min(lent / EVENT))
    }

    /// What lies in the room, with this in it, where so many events are shown.
    fn disturb(self, shown: usize, records: &mut [u8]) {
        match self {
            Lapse::PartsSwapped => records.chunks_exact_mut(EVENT).take(shown).for_each(|record| record[8..].rotate_left(4)),
            Lapse::RestCleared => records[EVENT * shown..].fill(0),
            _ => {}
        }
    }

    fn packed(self, passed: &Passed, shown: usize) -> u64 {
        let events = passed.jobs.iter().filter(|done| done.event.is_some()).count();
        let jobs = match self {
            Lapse::JobsByEvents => events,
            Lapse::JobsOneMore => passed.jobs.len() + 1,
            _ => passed.jobs.len(),
        };
        let shown = match self {
            Lapse::ShownByJobs => passed.jobs.len(),
            Lapse::ShownByEvents => passed.jobs.iter().take(shown).filter(|done| done.event.is_some()).count(),
            _ => shown,
        };
        u64::from(passed.stopped.number()) << 8 | (jobs as u64) << 16 | (shown as u64) << 32
    }

    /// What a refused night does to the room.
    pub fn refused(self, room: &mut [u8]) {
        if self == Lapse::RefusedClears {
            room.fill(0);
        }
    }
}

/// Whether some job of a night is refused by 12.
fn needs_line(state: &State, night: &Night) -> bool {
    let each = state.kept().flat_map(|(number, _)| [2, 4].map(|job| (number, job)));
    let refused = |(number, job): (Number, u64)| {
        state.clone().work(night.node, job, number.0.into(), 0, 0).reply == Err(Refusal::LineNotOpen)
    };
    each.into_iter().any(refused)
}
