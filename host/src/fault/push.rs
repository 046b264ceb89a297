//! Wrong copies of order 8: the stores of a push made in other steps, cuts taken otherwise, a cut push treated otherwise.

use super::with_cut;
use crate::controller::{overlay, Change, ConfigurationState, Refusal, State, Status, Values};
use crate::jobs::Rule;
use crate::northbound::{act, Answer, Request, Served};

/// What a push stores, and its event.
#[derive(Clone, Copy, PartialEq, Eq, Debug)]
enum Part {
    Target,
    Head,
    Values,
    Event,
    Status,
}

macro_rules! ways {
    ($($way:ident $says:literal [$whole:expr, $first:expr, $second:expr],)*) => {
        /// A push that stores other parts: when it is whole, cut at its first store, and at its second.
        #[derive(Clone, Copy, PartialEq, Eq, Debug)]
        pub enum Way { $(#[doc = $says] $way),* }

        impl Way {
            pub const ALL: &'static [Way] = &[$(Way::$way),*];

            fn parts(self) -> [&'static [Part]; 3] {
                use Part::*;
                match self { $(Way::$way => [$whole, $first, $second]),* }
            }
        }
    };
}

const ALL: &[Part] = &[Part::Target, Part::Head, Part::Values, Part::Event, Part::Status];
const FIRST: &[Part] = &[Part::Target];
const SECOND: &[Part] = &[Part::Target, Part::Head, Part::Values, Part::Event];

ways! {
    InTwo "Target and Applied are one store, as before the order." [ALL, SECOND, ALL],
    EventWithFirst "The event comes with the first store." [ALL, &[Target, Event], SECOND],
    EventWithThird "The event comes with the last store." [ALL, FIRST, &[Target, Head, Values]],
    AppliedWithFirst "Applied comes with the first store, its event with the second." [ALL, &[Target, Head, Values], SECOND],
    HeadWithFirst "Applied's head comes with the first store." [ALL, &[Target, Head], SECOND],
    ValuesWithFirst "Applied's values come with the first store." [ALL, &[Target, Values], SECOND],
    StatusWithFirst "The status comes with the first store." [ALL, &[Target, Status], ALL],
    StatusWithSecond "The status comes with the second store." [ALL, FIRST, ALL],
    HeadWithThird "Applied's head comes with the last store." [ALL, FIRST, &[Target, Values, Event]],
    ValuesWithThird "Applied's values come with the last store." [ALL, FIRST, &[Target, Head, Event]],
    TargetWithSecond "The first store lays nothing." [ALL, &[], SECOND],
    TargetLast "Applied, then the status, then the target." [ALL, &[Head, Values, Event], &[Head, Values, Event, Status]],
    TargetNever "The target is not laid." [&[Head, Values, Event, Status], &[], &[Head, Values, Event]],
    SecondLeftOut "A cut at the second store leaves that one out." [ALL, FIRST, &[Target, Event]],
    SecondAsFirst "A cut at the second store is one at the first." [ALL, FIRST, FIRST],
    SecondSkipped "A cut at the second store leaves out that one alone." [ALL, FIRST, &[Target, Event, Status]],
    FirstAsSecond "A cut at the first store is one at the second." [ALL, SECOND, SECOND],
    FirstAsNone "A cut at the first store is none." [ALL, ALL, SECOND],
    StatusNever "The status is not stored." [SECOND, FIRST, SECOND],
}

#[derive(Clone, Copy, PartialEq, Eq, Debug)]
pub enum Split {
    /// That push stores its parts so.
    Stores(Rule, Way),
    /// Cut 2 is taken as cut 1 in that rule, which has two stores.
    TwoAsOne(Rule),
    /// Cut 2 is refused.
    TwoRefused,
    /// Cut 3 is taken, as that cut.
    ThreeAs(u64),
    /// Cut at its first store, a push does not ask for the line.
    FirstWithoutLine,
    /// A push that the switch rejects lays the target.
    RejectedLays,
    /// A change that ends as Failed is taken off the target.
    FailedTakesOff,
    /// A push makes the target the applied values and its own.
    OverApplied,
    /// A synchronise leaves on the target what a change that is being applied, or its rollback, sets.
    SyncLeavesPushed,
    /// A synchronise leaves on the target what a Failed change sets.
    SyncLeavesFailed,
}

impl Split {
    pub fn all() -> Vec<Split> {
        let with_stores = |stores: usize| Rule::ALL.iter().copied().filter(move |rule| rule.stores() == stores);
        let mut all: Vec<Split> =
            with_stores(3).flat_map(|rule| Way::ALL.iter().map(move |way| Split::Stores(rule, *way))).collect();
        all.extend(with_stores(2).map(Split::TwoAsOne));
        all.extend([Split::TwoRefused, Split::ThreeAs(0), Split::ThreeAs(1), Split::ThreeAs(2)]);
        all.extend([Split::FirstWithoutLine, Split::RejectedLays, Split::FailedTakesOff, Split::OverApplied]);
        all.extend([Split::SyncLeavesPushed, Split::SyncLeavesFailed]);
        all
    }

    /// As `northbound::act`, with this in it.
    pub fn act(self, state: &mut State, request: &Request) -> Served {
        let before = state.clone();
        let served = act(state, request);
        let Request::Work { cut, number, .. } = *request else {
            self.synchronised(&before, state, request, &served);
            return served;
        };
        match self {
            Split::TwoRefused if cut == 2 => {
                *state = before;
                return Served { reply: Err(Refusal::OutOfRange), rule: None };
            }
            Split::ThreeAs(taken) if cut == 3 => return act(state, &with_cut(request, taken)),
            Split::TwoAsOne(rule) if cut == 2 && served.rule == Some(rule) => {
                *state = before;
                return act(state, &with_cut(request, 1));
            }
            Split::Stores(rule, way) if served.rule == Some(rule) => {
                *state = before;
                return stored(way.parts()[cut as usize], state, request);
            }
            _ => {}
        }
        let Some(place) = state.given(number).ok().and_then(|number| state.place(number).ok()) else {
            return served;
        };
        let transaction = state.log[place];
        self.pushed(&before, state, cut, [transaction.change, transaction.returning_pairs()], served)
    }

    /// The faults of what is on the target, given the change's pairs and those of its rollback.
    fn pushed(self, before: &State, state: &mut State, cut: u64, pairs: [Change; 2], served: Served) -> Served {
        let [change, returning] = pairs;
        let target = &mut state.target.values;
        match (self, served.rule) {
            (Split::FirstWithoutLine, Some(Rule::ApplyChangeNoLine)) if cut == 1 => overlay(target, change.pairs()),
            (Split::FirstWithoutLine, Some(Rule::ApplyRollbackNoLine)) if cut == 1 => overlay(target, returning.pairs()),
            (Split::RejectedLays, Some(Rule::ApplyChangeReject)) => {
                overlay(target, change.pairs());
                return served;
            }
            (Split::FailedTakesOff, Some(Rule::ApplyChangeReject | Rule::ApplyChangeFail)) => {
                let paths = change.pairs().iter().map(|pair| usize::from(pair.path));
                paths.for_each(|path| target[path] = state.applied.values[path]);
                return served;
            }
            (Split::OverApplied, Some(Rule::ApplyChangePush)) => *target = laid(before, change),
            (Split::OverApplied, Some(Rule::ApplyRollbackPush)) => *target = laid(before, returning),
            _ => return served,
        }
        Served { reply: served.reply.or(Ok(Answer::Nothing)), ..served }
    }

    /// The faults of a synchronise that wrote.
    fn synchronised(self, before: &State, state: &mut State, request: &Request, served: &Served) {
        let wrote = matches!(request, Request::Sync(_))
            && served.reply.is_ok()
            && state.configuration.state == ConfigurationState::Complete;
        let left = match self {
            Split::SyncLeavesPushed => Status::InProgress,
            Split::SyncLeavesFailed => Status::Failed,
            _ => return,
        };
        for transaction in state.log.iter().filter(|it| wrote && (it.c.apply == left || it.r.apply == left)) {
            let paths = transaction.change.pairs().iter().map(|pair| usize::from(pair.path));
            paths.for_each(|path| state.target.values[path] = before.target.values[path]);
        }
    }
}

/// Makes these parts of a push alone.
fn stored(parts: &[Part], state: &mut State, request: &Request) -> Served {
    let mut whole = state.clone();
    let served = act(&mut whole, &with_cut(request, 0));
    let mut reply = Ok(Answer::Nothing);
    for part in parts {
        match part {
            Part::Target => state.target.values = whole.target.values,
            Part::Head => {
                let (applied, to) = (&mut state.applied, &whole.applied);
                (applied.index, applied.revision, applied.ordinal) = (to.index, to.revision, to.ordinal);
            }
            Part::Values => state.applied.values = whole.applied.values,
            Part::Event => reply = served.reply,
            Part::Status => state.log.clone_from(&whole.log),
        }
    }
    Served { reply, ..served }
}

/// The applied values with these pairs laid over them.
fn laid(state: &State, pairs: Change) -> Values {
    let mut values = state.applied.values;
    overlay(&mut values, pairs.pairs());
    values
}
