//! Order 4: which reasons were given, for which job, in states that a session reaches and in others; and what a job that is
//! asked after answers itself.

use makowist_host::controller::{settled, Refusal, State, Status};
use makowist_host::jobs::Job;
use makowist_host::northbound::Request;
use makowist_host::why::{Question, Reason};

/// How a commit in flight is named, and an ordinal.
const IN_FLIGHT: [&str; 3] = ["the target", "the lowest InProgress", "the revision"];
const ORDINAL: [&str; 2] = ["the applied one", "the one after"];

/// What the job of a question answers that is refused by 15.
const NOT_WAITING: [u64; 4] = [0, 9, 12, 13];

/// How often, by whether a session reaches the state: not, then so.
type Count = [u64; 2];

#[derive(Default)]
pub struct Seen {
    /// Jobs that were answered 11 and asked after.
    pub after_11: u64,
    /// Jobs that were asked after, and then called on a copy.
    called: u64,
    reasons: [[Count; Reason::ALL.len()]; Job::ALL.len()],
    /// By reason, where the log is folded.
    folded: [Count; Reason::ALL.len()],
    in_flight: [Count; IN_FLIGHT.len()],
    ordinals: [Count; ORDINAL.len()],
    not_waiting: [u64; NOT_WAITING.len()],
}

/// What is answered to the question after a job that answers this.
pub fn answer_for(job: u64) -> u64 {
    let refused_alike =
        [Refusal::NotWellFormed, Refusal::OutOfRange, Refusal::NoSuchNumber, Refusal::Folded, Refusal::NotMaster];
    if refused_alike.iter().any(|refusal| u64::from(refusal.number()) == job) {
        job
    } else if job == u64::from(Refusal::NoRule.number()) {
        0
    } else {
        Refusal::NotWaiting.number().into()
    }
}

impl Seen {
    /// The job that a question asks after, each outcome and cut in turn.
    pub fn next_job(&self, Question { node, job, number }: Question) -> Request {
        Request::Work { node, job, number, outcome: self.called % 2, cut: self.called / 2 % 3 }
    }

    /// Counts a job that was called behind the question after it.
    pub fn job_answered(&mut self, reply: u64, answer: u64) {
        self.called += 1;
        if reply == u64::from(Refusal::NotWaiting.number()) {
            NOT_WAITING.iter().zip(&mut self.not_waiting).for_each(|(each, count)| *count += u64::from(*each == answer));
        }
    }

    /// Counts a reason that was given.
    pub fn given(&mut self, state: &State, question: Question, reason: Reason, reached: bool) {
        let (place, reached) = (reason as usize - 1, usize::from(reached));
        self.reasons[question.job as usize - 1][place][reached] += 1;
        self.folded[place][reached] += u64::from(state.folded.0 > 0);
        match reason {
            Reason::CommitInFlight => self.in_flight[named_in_flight(state)][reached] += 1,
            Reason::EarlierOrdinal => self.ordinals[usize::from(settled(&state.log, state.applied.ordinal))][reached] += 1,
            _ => {}
        }
    }

    /// Prints every count, and answers how many are 0 that must not be.
    pub fn told(&self) -> usize {
        println!("{:>12}  jobs answered 11 and asked after", self.after_11);
        println!("{:>12}  jobs asked after, then called on a copy", self.called);
        let mut unseen = [self.after_11, self.called].iter().filter(|count| **count == 0).count();
        println!("{:>12}  {:>12}  reason, in states that a session reaches, and in others", "reached", "others");
        for (job, counts) in Job::ALL.into_iter().zip(&self.reasons) {
            for reason in Reason::of(job) {
                unseen += told(counts[*reason as usize - 1], &format!("{job:?} {reason:?}"));
            }
            let [others, reached] = counts[Reason::NoneFits as usize - 1];
            println!("{reached:>12}  {others:>12}  {job:?} {:?}", Reason::NoneFits);
            unseen += usize::from(others == 0);
        }
        for (reason, counts) in Reason::ALL.iter().zip(self.folded).filter(|(reason, _)| **reason != Reason::NoneFits) {
            unseen += told(counts, &format!("{reason:?} where the log is folded"));
        }
        for (way, counts) in IN_FLIGHT.iter().zip(self.in_flight) {
            unseen += told(counts, &format!("{:?} names {way}", Reason::CommitInFlight));
        }
        for (way, counts) in ORDINAL.iter().zip(self.ordinals) {
            unseen += told(counts, &format!("{:?} names {way}", Reason::EarlierOrdinal));
        }
        println!("{:>12}  refused by 15, where the job answers {NOT_WAITING:?}: {:?}", "", self.not_waiting);
        unseen + self.not_waiting.iter().filter(|count| **count == 0).count()
    }
}

/// Prints a count, and answers how many of its two are 0.
fn told(count: Count, what: &str) -> usize {
    let [others, reached] = count;
    println!("{reached:>12}  {others:>12}  {what}");
    count.iter().filter(|count| **count == 0).count()
}

/// How the commit in flight is named: as `IN_FLIGHT` lists it.
fn named_in_flight(state: &State) -> usize {
    let begun = || state.log.iter().any(|it| [it.c.commit, it.r.commit].contains(&Status::InProgress));
    match state.committed.target > state.committed.change {
        true => 0,
        false if begun() => 1,
        false => 2,
    }
}
