//! Order 8: what a session's calls have done to the switch, and demand 3's last sentence, which is about that.

use crate::controller::{overlay, Change, ConfigurationState, Event, Number, Phase, Stage, State, Status, Transaction};
use crate::jobs::Rule;
use crate::night::Passed;
use crate::northbound::{Answer, Request, Served};
use std::collections::BTreeSet;

/// What is to be known of the calls beside the state that they have led to. A fresh controller's is the default.
#[derive(Clone, PartialEq, Eq, Hash, Debug, Default)]
pub struct Switch {
    /// Those that have begun to apply and whose rollback has not completed its apply, by the events that were given.
    begun: BTreeSet<Number>,
    /// The one whose push was last cut at its first store since the last synchronise that wrote, where no accepted push of it
    /// that was not so cut has come since.
    half_pushed: Option<Number>,
}

/// How the target stands to the applied values.
#[derive(Clone, Copy, PartialEq, Eq, Debug)]
pub enum Stands {
    /// The line is not open, and nothing is said.
    LineNotOpen,
    /// It holds the applied values.
    Applied,
    /// It holds them overlaid with the pairs of one that is being applied, or that was rejected then.
    Pushed,
    PushedThenFailed,
    /// It holds them overlaid with the r.values of one.
    Returned,
}

/// How a push that was cut at its first store came to be no more than history.
#[derive(Clone, Copy, PartialEq, Eq, Debug)]
pub enum MadeGood {
    /// The same push again.
    ByRetry,
    /// The push of its rollback, where it was Failed.
    ByRollback,
    BySync,
}

impl Switch {
    /// Takes a call in, given the state that it left.
    pub fn called(&mut self, after: &State, request: &Request, served: &Served) -> Option<MadeGood> {
        let answer = served.reply.ok()?;
        match *request {
            Request::Fresh(_) => *self = Switch::default(),
            Request::Fold(_) => self.begun.retain(|number| *number > after.folded),
            Request::Sync(_) if after.configuration.state == ConfigurationState::Complete => {
                return self.half_pushed.take().map(|_| MadeGood::BySync);
            }
            Request::Work { number, cut, .. } => {
                let number = after.given(number).expect("a job's number is given");
                let event = if let Answer::Told(event) = answer { Some(event) } else { None };
                return self.worked(after, number, served.rule, event, cut == 1);
            }
            _ => {}
        }
        None
    }

    /// Takes a night in: its jobs are calls without a cut.
    pub fn passed(&mut self, after: &State, passed: &Passed) {
        for done in &passed.jobs {
            self.worked(after, done.number, done.rule, done.event, false);
        }
    }

    fn worked(
        &mut self,
        after: &State,
        number: Number,
        rule: Option<Rule>,
        event: Option<Event>,
        at_first: bool,
    ) -> Option<MadeGood> {
        match event {
            Some(Event { phase: Phase::Change, stage: Stage::Apply, status: Status::InProgress, .. }) => {
                self.begun.insert(number);
            }
            Some(Event { phase: Phase::Rollback, stage: Stage::Apply, status: Status::Complete, .. }) => {
                self.begun.remove(&number);
            }
            _ => {}
        }
        let rule = rule.filter(|rule| matches!(rule, Rule::ApplyChangePush | Rule::ApplyRollbackPush))?;
        if at_first {
            self.half_pushed = Some(number);
            return None;
        }
        self.half_pushed.take_if(|half_pushed| *half_pushed == number)?;
        let failed = after.transaction(number).is_some_and(|it| it.c.apply == Status::Failed);
        Some(if failed && rule == Rule::ApplyRollbackPush { MadeGood::ByRollback } else { MadeGood::ByRetry })
    }

    /// How the target stands in the state that the calls have led to; nothing where that is not as demand 3 has it.
    pub fn stands(&self, state: &State) -> Option<Stands> {
        let is_open = state.mastership.master.is_some_and(|master| state.line_open(master));
        if !is_open {
            return Some(Stands::LineNotOpen);
        }
        if state.target.values == state.applied.values {
            return Some(Stands::Applied);
        }
        self.half_pushed?;
        let begun = self.begun.iter().filter_map(|number| state.transaction(*number));
        begun.filter_map(|transaction| laid(state, transaction)).next()
    }

    /// Whether a push that was cut at its first store has not been made good.
    pub fn is_half_pushed(&self) -> bool {
        self.half_pushed.is_some()
    }
}

/// How the target stands where it holds the applied values overlaid with what that transaction pushes.
fn laid(state: &State, transaction: &Transaction) -> Option<Stands> {
    let holds = |pairs: Change| {
        let mut values = state.applied.values;
        overlay(&mut values, pairs.pairs());
        values == state.target.values
    };
    if holds(transaction.change) {
        let failed = transaction.c.apply == Status::Failed;
        return Some(if failed { Stands::PushedThenFailed } else { Stands::Pushed });
    }
    holds(transaction.returning_pairs()).then_some(Stands::Returned)
}
