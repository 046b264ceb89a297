//! Orders 3 and 8: a job that is cut before its rule's last store, as by a crash, and then called again.

use crate::controller::NODES;
use crate::jobs::Rule;
use crate::northbound::{Request, Served};
use crate::random::Random;

/// A job that was accepted and cut before the last of its rule's stores.
#[derive(Clone, Copy, Debug)]
pub struct CutJob {
    pub rule: Rule,
    /// How many of the stores were made: the cut.
    pub made: u64,
    node: u64,
    job: u64,
    number: u64,
    outcome: u64,
}

impl CutJob {
    /// The job that a call was, where it was one that was cut so.
    pub fn of(request: &Request, served: &Served) -> Option<CutJob> {
        let rule = served.rule.filter(|_| served.reply.is_ok())?;
        match *request {
            Request::Work { node, job, number, outcome, cut } if (1..rule.stores() as u64).contains(&cut) => {
                Some(CutJob { rule, made: cut, node, job, number, outcome })
            }
            _ => None,
        }
    }

    /// Whether the last store is all that is left. Else it was a push cut at its first store, which gave no event yet.
    pub fn lacks_the_last_alone(self) -> bool {
        self.made + 1 == self.rule.stores() as u64
    }

    /// The same job, not cut.
    pub fn uncut(self) -> Request {
        let CutJob { node, job, number, outcome, .. } = self;
        Request::Work { node, job, number, outcome, cut: 0 }
    }

    /// The job called again by the same node, with the other outcome or the same, and cut or not; but with the same outcome and
    /// whole where more than the last store is left.
    pub fn again(self, other_outcome: bool, cut: impl Into<u64>) -> Request {
        if !self.lacks_the_last_alone() {
            return self.uncut();
        }
        let CutJob { node, job, number, .. } = self;
        let outcome = self.outcome ^ u64::from(other_outcome);
        Request::Work { node, job, number, outcome, cut: cut.into() }
    }

    /// A call on another node's connection, or on that of a node that there is not.
    pub fn elsewhere(self, random: &mut Random) -> Request {
        let others: Vec<u64> = (0..=NODES as u64 + 1).filter(|node| *node != self.node).collect();
        let node = random.one_of(&others);
        if random.once_in(2) { Request::Connect(node) } else { Request::Disconnect(node) }
    }
}
