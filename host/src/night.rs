//! Order 2: a night's work. Each turn does the first job that is not refused, until none goes or the budget is spent.

use crate::controller::{Event, Node, Number, Phase, Refusal, State, Status, LOG_LIMIT};
use crate::jobs::{Rule, Worked};
use crate::why::{Question, Reason};

/// The most jobs that a night may be given.
pub const BUDGET_LIMIT: u64 = 4096;
/// How many outcomes a table has: two for each transaction that a log can keep.
pub const OUTCOMES: usize = 2 * LOG_LIMIT;
/// How many bytes of room a job's event takes.
pub const EVENT: usize = 16;

/// A night as it is asked for: its numbers as wide as in the C interface, its table as it is lent.
#[derive(Clone, PartialEq, Eq, Hash, Debug)]
pub struct Night {
    pub node: u64,
    pub budget: u64,
    pub outcomes: Vec<u8>,
}

impl Night {
    /// The node, where it, the budget and the table are in range.
    pub fn ranged(&self) -> Option<Node> {
        let table_in_range = self.outcomes.len() == OUTCOMES && self.outcomes.iter().all(|outcome| *outcome <= 1);
        Node::new(self.node).filter(|_| self.budget <= BUDGET_LIMIT && table_in_range)
    }

    /// What is said to a job on the kept transaction of that place, from 0: to the validation of its change and to the push of it
    /// what the table has, to a rollback yes.
    pub fn outcome(&self, place: usize, job: u64) -> u64 {
        match job {
            1 => self.outcomes[2 * place].into(),
            2 => self.outcomes[2 * place + 1].into(),
            _ => 0,
        }
    }
}

/// Why a night stopped; `number` is the paper's.
#[derive(Clone, Copy, PartialEq, Eq, Hash, Debug)]
pub enum Stopped {
    /// Every job is refused, and none with 12.
    NothingLeft,
    /// Every job is refused, some with 12.
    NoLine,
    /// A job could still go.
    BudgetSpent,
}

impl Stopped {
    pub const ALL: [Stopped; 3] = [Stopped::NothingLeft, Stopped::NoLine, Stopped::BudgetSpent];

    pub fn number(self) -> u8 {
        self as u8
    }
}

/// A job that a night did, with what was said to it, the rule that it took and the event that it gave.
#[derive(Clone, Copy, PartialEq, Eq, Debug)]
pub struct Done {
    pub job: u64,
    pub number: Number,
    pub outcome: u64,
    pub rule: Option<Rule>,
    pub event: Option<Event>,
}

/// The jobs of a night, and why it stopped.
#[derive(Clone, PartialEq, Eq, Debug)]
pub struct Passed {
    pub jobs: Vec<Done>,
    pub stopped: Stopped,
}

impl Passed {
    /// Writes the first events that the room holds, and answers how many. A job that gave none has zeros in its place.
    pub fn show(&self, room: &mut [u8]) -> usize {
        let records = room.chunks_exact_mut(EVENT).zip(&self.jobs);
        records.map(|(record, done)| record.copy_from_slice(&recorded(done.event))).count()
    }

    /// The reply as one number: the answer, which is 0, why it stopped, the jobs, and in the upper half the events shown.
    pub fn packed(&self, shown: usize) -> u64 {
        u64::from(self.stopped.number()) << 8 | (self.jobs.len() as u64) << 16 | (shown as u64) << 32
    }
}

/// An event as it lies in the room: phase, stage, number and status, four bytes each.
pub fn recorded(event: Option<Event>) -> [u8; EVENT] {
    let mut record = [0; EVENT];
    if let Some(Event { phase, stage, number, status }) = event {
        let parts = [phase as u32, stage as u32, number.0.into(), status.code().into()];
        record.chunks_exact_mut(4).zip(parts).for_each(|(bytes, part)| bytes.copy_from_slice(&part.to_le_bytes()));
    }
    record
}

impl State {
    /// Does jobs by itself, turn after turn.
    pub fn night(&mut self, night: &Night) -> Result<Passed, Refusal> {
        let node = night.ranged().ok_or(Refusal::OutOfRange)?;
        if self.mastership.master != Some(node) {
            return Err(Refusal::NotMaster);
        }
        let mut jobs = Vec::new();
        while (jobs.len() as u64) < night.budget {
            match self.turn(night) {
                Ok(done) => jobs.push(done),
                Err(stopped) => return Ok(Passed { jobs, stopped }),
            }
        }
        let stopped = self.clone().turn(night).err().unwrap_or(Stopped::BudgetSpent);
        Ok(Passed { jobs, stopped })
    }

    /// Does the first job that is not refused, of the kept ones from the lowest upward, jobs 1 to 4 for each. Where all are, why.
    fn turn(&mut self, night: &Night) -> Result<Done, Stopped> {
        let mut stopped = Stopped::NothingLeft;
        for place in 0..self.log.len() {
            let number = Number(self.folded.0 + 1 + place as u16);
            for job in 1..=4 {
                let outcome = night.outcome(place, job);
                match self.work(night.node, job, number.0.into(), outcome, 0) {
                    Worked { reply: Ok(event), rule } => return Ok(Done { job, number, outcome, rule, event }),
                    Worked { reply: Err(Refusal::LineNotOpen), .. } => stopped = Stopped::NoLine,
                    _ => {}
                }
            }
        }
        Err(stopped)
    }

    /// Whether all that is unfinished, where that node is master, is rollbacks of changes that are not the newest live one.
    pub fn is_done_but_for_covered_rollbacks(&self, node: u64) -> bool {
        let finished = |job: u64, number: Number| {
            let asked = self.asked(Question { node, job, number: number.0.into() });
            asked.is_ok_and(|asked| asked.names(Reason::Finished).is_some())
        };
        let live: Vec<Number> = self.live().collect();
        self.kept().all(|(number, it)| {
            let covered = live.contains(&number) && number < self.committed.revision;
            let waits = covered && it.r.commit == Status::Pending && it.r.apply == Status::Pending;
            let rolled_back = it.phase == Phase::Change || waits || (finished(3, number) && finished(4, number));
            finished(1, number) && finished(2, number) && rolled_back
        })
    }
}
