//! Wrong copies of one rule, to show that the comparison finds them. Only the comparison asks for one.
//! Those of imports, of nights, of the order of refusals, of the calls from outside, of owners, of statuses in one number,
//! of what is printed, of a push's stores, of the handover sheet and of reasons are in the modules below.

pub mod import;
pub mod night;
pub mod order;
pub mod outside;
pub mod owner;
pub mod packed;
pub mod print;
pub mod push;
pub mod sheet;
pub mod why;

use crate::arguments::{Argument, Numbers};
use crate::controller::{
    overlay, ConfigurationState, Event, Hindrance, Number, Phase, Refusal, Stage, State, Status, Term, Transaction, Values,
    LOG_LIMIT,
};
use crate::image::{self, at, entry, entry_at, entry_at_mut, ENTRY};
use crate::jobs::Rule;
use crate::night::{Night, Passed};
use crate::northbound::{self, act, Answer, Request, Served};
use crate::reads::Query;
use crate::sheet::{self as sheets, Tally};
use self::import::Blunder;
use self::night::Lapse;
use order::{Call, Swapped};
use outside::Slip;
use owner::Claim;
use packed::Packing;
use push::Split;
use self::sheet::Miscount;
use why::Guess;

#[derive(Clone, Copy, PartialEq, Eq, Debug)]
pub enum Fault {
    /// The rule is never taken: the job answers that no rule holds.
    LeftOut(Rule),
    /// The rule makes all its stores although it is cut.
    NeverCut(Rule),
    /// The rule makes its first store alone although it is not cut.
    AlwaysCut(Rule),
    /// The rule gives no event.
    Silent(Rule),
    /// A change that has begun is marked Aborted, not Failed, when its rollback has committed.
    AbortedOnceBegun,
    /// A rollback in flight is taken for rest.
    RestInFlight,
    /// A push goes through on a configuration of an older term.
    StaleTerm,
    /// A push lays the values on the target alone.
    AppliedForgotten,
    /// Of what a cut has left to the job's next call.
    Retried(Again),
    /// A push is stored, or a cut taken, otherwise (order 8).
    Push(Split),
    /// A master that has reconnected is refused.
    ReconnectedRefused,
    /// A master that has reconnected is freed, and conn is set to 0.
    ReconnectedForgetsConn,
    /// A master that has reconnected is freed, and the term is set to 0.
    ReconnectedForgetsTerm,
    /// A master that is connected with id equal to conn is freed.
    FreedAtConn,
    /// A read of the applied values shows the target's.
    AppliedReadFromTarget,
    /// A read of c.ordinal shows r.ordinal.
    OrdinalReadFromRollback,
    /// A fold is made although that hinders it.
    FoldDespite(Hindrance),
    /// A fold leaves the base as it was.
    BaseNotLaid,
    /// A fold lays the live ones newest first.
    BaseNewestFirst,
    /// A fold lays all that it drops, live or not.
    BaseOfAll,
    /// Numbers past the first 128 are kept in the slot after their own.
    RingOffByOne,
    /// A commit side that rests at a folded mark is taken for one under way.
    FoldedMarkNotDone,
    /// The live list goes on to the first folded number.
    LivePastTheFold,
    /// An append is refused by 4 where 128 numbers are given, however many are kept.
    FullByHighest,
    /// An append after the last number is taken, as number 0.
    LastNumberForgotten,
    /// A job on a folded number goes on to 10 and 11.
    WorkWithout18,
    /// A read of a folded transaction is refused by 5.
    ReadWithout18,
    /// Of a number of that meaning only so many bits are looked at.
    Narrowed(Argument, u32),
    /// A room of an odd length is taken for one byte longer.
    OddRoomTakenAsMore,
    /// A call from outside does that wrong.
    Outside(Slip),
    /// An append leaves the places past the new entry's pairs as they were.
    UnusedKept,
    /// A fresh image keeps the bytes that carry nothing.
    FreshOverOld,
    /// An entry's four statuses are in one number otherwise (order 12).
    Packed(Packing),
    /// An image whose target's flag is above 1 is taken, as of one that remembers, or by the flag's lowest bit (order 13).
    FlagAboveOneTaken,
    FlagByLowestBit,
    /// The flag of a target that remembers is not stored.
    FlagNotStored,
    /// An imported target remembers.
    ImportRemembers,
    /// Of two refusals that follow on each other in a call's order, the second is asked first.
    Swapped(Call, u8, u8),
    /// A reason is given where it is not the one (order 4).
    Why(Guess),
    /// A night passes otherwise (order 2).
    Night(Lapse),
    /// A list is imported otherwise (order 6).
    Import(Blunder),
    /// A path has another owner (order 7).
    Owner(Claim),
    /// A log is classed, counted or added to the totals otherwise (order 11).
    Sheet(Miscount),
    /// Nothing is wrong. None of those that must be found: it shows that one which is not found is told.
    Harmless,
}

impl Fault {
    pub fn all() -> Vec<Fault> {
        let some_stores = || Rule::ALL.iter().copied().filter(|rule| rule.stores() > 1);
        let mut all: Vec<Fault> = Rule::ALL.iter().copied().map(Fault::LeftOut).collect();
        all.extend(some_stores().map(Fault::NeverCut));
        all.extend(some_stores().map(Fault::AlwaysCut));
        all.extend(some_stores().map(Fault::Silent));
        all.extend([Fault::AbortedOnceBegun, Fault::RestInFlight, Fault::StaleTerm, Fault::AppliedForgotten]);
        all.extend(Again::ALL.map(Fault::Retried));
        all.extend(Split::all().into_iter().map(Fault::Push));
        all.extend([Fault::ReconnectedRefused, Fault::ReconnectedForgetsConn, Fault::ReconnectedForgetsTerm]);
        all.extend([Fault::FreedAtConn, Fault::AppliedReadFromTarget, Fault::OrdinalReadFromRollback]);
        all.extend(Hindrance::ALL.map(Fault::FoldDespite));
        all.extend([Fault::BaseNotLaid, Fault::BaseNewestFirst, Fault::BaseOfAll, Fault::RingOffByOne]);
        all.extend([Fault::FoldedMarkNotDone, Fault::LivePastTheFold, Fault::FullByHighest]);
        all.extend([Fault::LastNumberForgotten, Fault::WorkWithout18, Fault::ReadWithout18]);
        all.extend(Argument::ALL.iter().flat_map(|argument| [16, 32].map(|bits| Fault::Narrowed(*argument, bits))));
        all.extend([Fault::OddRoomTakenAsMore, Fault::UnusedKept, Fault::FreshOverOld]);
        all.extend([Fault::FlagAboveOneTaken, Fault::FlagByLowestBit, Fault::FlagNotStored, Fault::ImportRemembers]);
        all.extend(Packing::ALL.map(Fault::Packed));
        all.extend(Slip::ALL.iter().copied().map(Fault::Outside));
        all.extend(Swapped::all().map(|Swapped(call, first, then)| Fault::Swapped(call, first, then)));
        all.extend(Guess::all().into_iter().map(Fault::Why));
        all.extend(Lapse::all().into_iter().map(Fault::Night));
        all.extend(Blunder::all().into_iter().map(Fault::Import));
        all.extend(Claim::all().into_iter().map(Fault::Owner));
        all.extend(Miscount::all().into_iter().map(Fault::Sheet));
        all
    }

    /// The fault of that name, as `{:?}` writes it.
    pub fn named(name: &str) -> Option<Fault> {
        Fault::all().into_iter().chain([Fault::Harmless]).find(|fault| format!("{fault:?}") == name)
    }

    /// As `northbound::act`, with this fault in it.
    pub fn act(self, state: &mut State, request: &Request) -> Served {
        if let Fault::Narrowed(argument, bits) = self {
            let mut narrowed = request.clone();
            narrow(narrowed.numbers(), argument, bits);
            return act(state, &narrowed);
        }
        match self {
            Fault::Outside(slip) => slip.act(state, request),
            Fault::Push(split) => split.act(state, request),
            Fault::Owner(claim) => claim.act(state, request),
            _ => self.acted(state, request),
        }
    }

    /// As `northbound::serve` of bytes that are no image, with this fault in it.
    pub fn serve_damaged(self, bytes: &mut [u8], request: &Request) -> Served {
        let served = northbound::serve(bytes, request);
        let other = match self {
            Fault::Swapped(call, first, then) => Swapped(call, first, then).of_damaged(bytes, request),
            _ => None,
        };
        other.map_or(served, |refusal| Served { reply: Err(refusal), ..served })
    }

    /// Whether it is one of nights alone: no call or read shows it.
    pub fn is_of_nights(self) -> bool {
        matches!(self, Fault::Night(_) | Fault::Narrowed(Argument::Budget, _) | Fault::Swapped(Call::Night, ..))
    }

    /// As `State::night`, with this fault in it; where there is no state, of bytes that are no image.
    pub fn night(self, state: Option<&mut State>, night: &Night) -> Result<Passed, Refusal> {
        let Some(state) = state else {
            return Err(self.refused_night(None, night, Refusal::NotWellFormed));
        };
        let before = state.clone();
        let passed = match self {
            Fault::Night(lapse) => lapse.night(state, night),
            Fault::Narrowed(argument, bits) => {
                let mut narrowed = night.clone();
                narrow(narrowed.numbers(), argument, bits);
                state.night(&narrowed)
            }
            _ => state.night(night),
        };
        passed.map_err(|refusal| self.refused_night(Some(&before), night, refusal))
    }

    fn refused_night(self, before: Option<&State>, night: &Night, refusal: Refusal) -> Refusal {
        match self {
            Fault::Swapped(call, first, then) => Swapped(call, first, then).night(before, night, refusal),
            _ => refusal,
        }
    }

    /// As `northbound::store_night`, with this fault in it.
    pub fn store_night(self, state: &State, passed: &Passed, image: &mut [u8], room: &mut [u8]) -> u64 {
        match self {
            Fault::Night(lapse) => lapse.store(state, passed, image, room),
            _ => northbound::store_night(state, passed, image, room),
        }
    }

    /// What a refused night does to the room, with this fault in it.
    pub fn refuse_night(self, room: &mut [u8]) {
        if let Fault::Night(lapse) = self {
            lapse.refused(room);
        }
    }

    /// Whether it is one of imports alone.
    pub fn is_of_imports(self) -> bool {
        matches!(self, Fault::Import(_) | Fault::ImportRemembers)
    }

    /// As `northbound::import`, with this fault in it.
    pub fn import(self, image: &mut [u8], list: &[u8]) -> u64 {
        match self {
            Fault::Import(blunder) => blunder.import(image, list),
            Fault::ImportRemembers => {
                let reply = northbound::import(image, list);
                if reply == 0 {
                    image[at::REMEMBERS] = 1;
                }
                reply
            }
            _ => northbound::import(image, list),
        }
    }

    /// Whether it is one of owners alone.
    pub fn is_of_owners(self) -> bool {
        matches!(self, Fault::Owner(_))
    }

    /// Whether it is one of the handover sheet alone.
    pub fn is_of_sheets(self) -> bool {
        match self {
            Fault::Sheet(_) | Fault::Narrowed(Argument::Log, _) => true,
            Fault::Swapped(call, ..) => matches!(call, Call::Class | Call::Took | Call::Undone | Call::Tally),
            _ => false,
        }
    }

    /// As `Tally::add`, packed, with this fault in it.
    pub fn add(self, state: Option<&State>, asked: &mut Tally) -> u64 {
        match self {
            Fault::Sheet(miscount) => miscount.add(state, asked),
            Fault::Narrowed(argument, bits) => {
                let log = asked.log;
                narrow(asked.numbers(), argument, bits);
                let added = asked.add(state);
                asked.log = log;
                sheets::packed(added)
            }
            Fault::Swapped(Call::Tally, ..) if state.is_none() => Refusal::NotWellFormed.number().into(),
            _ => sheets::packed(asked.add(state)),
        }
    }

    /// As `image::decode`, with this fault in it.
    pub fn decode(self, bytes: &[u8]) -> Option<State> {
        match self {
            Fault::Owner(claim) => claim.decode(bytes),
            Fault::Packed(packing) => packing.decode(bytes),
            Fault::FlagAboveOneTaken => decode_with_flag(bytes, |flag| flag.min(1)),
            Fault::FlagByLowestBit => decode_with_flag(bytes, |flag| flag & 1),
            _ => image::decode(bytes),
        }
    }

    /// The faults of single rules.
    fn acted(self, state: &mut State, request: &Request) -> Served {
        let before = state.clone();
        let served = act(state, request);
        match self {
            Fault::LeftOut(rule) if served.rule == Some(rule) => {
                *state = before;
                Served { reply: Err(Refusal::NoRule), rule: None }
            }
            Fault::NeverCut(rule) | Fault::AlwaysCut(rule) if served.rule == Some(rule) => {
                *state = before;
                act(state, &with_cut(request, (self == Fault::AlwaysCut(rule)).into()))
            }
            Fault::Silent(rule) if served.rule == Some(rule) => {
                Served { reply: served.reply.map(|_| Answer::Nothing), ..served }
            }
            Fault::AbortedOnceBegun if served.rule == Some(Rule::ApplyChangeFail) => aborted(state, served),
            Fault::RestInFlight if served.reply == Err(Refusal::NoRule) => opened_in_flight(state, request, served),
            Fault::StaleTerm if served.rule == Some(Rule::ApplyChangeNoLine) => pushed_on_stale_term(state, request),
            Fault::AppliedForgotten if served.rule == Some(Rule::ApplyChangePush) => {
                state.applied.values = before.applied.values;
                served
            }
            Fault::Retried(again) => again.acted(&before, state, request, served),
            Fault::ReconnectedRefused if request.is_of_reconnected(&before) => {
                *state = before;
                Served { reply: Err(Refusal::NoRule), rule: None }
            }
            Fault::ReconnectedForgetsConn if request.is_of_reconnected(&before) => {
                state.mastership.conn = 0;
                served
            }
            Fault::ReconnectedForgetsTerm if request.is_of_reconnected(&before) => {
                state.mastership.term = Term(0);
                served
            }
            Fault::FreedAtConn if served.reply == Err(Refusal::NoRule) => freed_at_conn(state, request, served),
            _ => self.folded(before, state, request, served),
        }
    }

    /// The faults of order 10, from the state before a call and the one that it left.
    fn folded(self, before: State, state: &mut State, request: &Request, served: Served) -> Served {
        match (self, request, served.reply) {
            (Fault::FoldDespite(hindrance), Request::Fold(number), Err(Refusal::NotFinished)) => {
                return folded_despite(state, *number, hindrance, served);
            }
            (Fault::BaseNotLaid, Request::Fold(_), Ok(_)) => state.base = before.base,
            (Fault::BaseNewestFirst, Request::Fold(_), Ok(_)) => {
                let dropped = before.live().filter(|number| *number <= state.folded);
                state.base = laid(&before, dropped);
            }
            (Fault::BaseOfAll, Request::Fold(_), Ok(_)) => {
                let dropped = before.kept().map(|(number, _)| number).take_while(|number| *number <= state.folded);
                state.base = laid(&before, dropped);
            }
            _ => {
                if let Some(reply) = self.answered(&before, request, served) {
                    *state = before;
                    return Served { reply, rule: None };
                }
            }
        }
        served
    }

    /// What is answered, with this fault, in place of a call's reply to the state before it; nothing is changed then.
    fn answered(self, before: &State, request: &Request, served: Served) -> Option<Result<Answer, Refusal>> {
        let is_folded = |number: Number| number != Number::NONE && number <= before.folded;
        let not_master = |node: u64| before.mastership.master.map(|master| u64::from(master.number())) != Some(node);
        let opened = matches!(served.rule, Some(Rule::CommitChangeOpen | Rule::CommitRollbackOpen));
        let refusal = match (self, request, served.reply) {
            (Fault::FoldedMarkNotDone, _, Ok(_)) if opened && is_folded(before.committed.index) => Refusal::NoRule,
            (Fault::FullByHighest, Request::Append(_), Ok(_)) if usize::from(before.highest().0) >= LOG_LIMIT => {
                Refusal::LogFull
            }
            (Fault::LastNumberForgotten, Request::Append(_), Err(Refusal::CounterAtLimit)) => {
                return Some(Ok(Answer::Appended(Number::NONE)));
            }
            (Fault::WorkWithout18, Request::Work { node, .. }, Err(Refusal::Folded)) if not_master(*node) => {
                Refusal::NotMaster
            }
            (Fault::WorkWithout18, Request::Work { .. }, Err(Refusal::Folded)) => Refusal::NoRule,
            (Fault::Swapped(call, first, then), _, Err(refusal)) => {
                Swapped(call, first, then).refusal(before, request, refusal)?
            }
            _ => return None,
        };
        Some(Err(refusal))
    }

    /// As `northbound::store`, with this fault in it.
    pub fn store(self, state: &State, request: &Request, image: &mut [u8]) {
        let off_by_one = self == Fault::RingOffByOne && usize::from(state.highest().0) > LOG_LIMIT;
        let slots = if off_by_one { ENTRY } else { 0 };
        let before = image.to_vec();
        image[..at::HIGHEST].rotate_left(slots);
        match (self, request) {
            (Fault::FreshOverOld, Request::Fresh(_)) => image::encode(state, image),
            _ => northbound::store(state, request, image),
        }
        image[..at::HIGHEST].rotate_right(slots);
        if let Fault::Packed(packing) = self {
            packing.store(state, image);
        }
        if self == Fault::FlagNotStored {
            image[at::REMEMBERS] = 0;
        }
        if let (Fault::UnusedKept, Request::Append(_)) = (self, request) {
            let (old, new) = (entry_at(&before, state.highest()), entry_at_mut(image, state.highest()));
            let pairs = usize::from(new[entry::PAIRS]);
            for unused in [entry::PATHS + pairs..entry::VALUES, entry::VALUES + 2 * pairs..entry::R_VALUES] {
                new[unused.clone()].copy_from_slice(&old[unused]);
            }
        }
    }

    /// As `northbound::live_of`, with this fault in it.
    pub fn live_of(self, state: Option<&State>, bytes: &[u8], room: &mut [u8]) -> u64 {
        if let Fault::Swapped(call, first, then) = self {
            return Swapped(call, first, then).live_of(state, bytes, room);
        }
        match state {
            Some(state) if self == Fault::LivePastTheFold => northbound::listed(&live_past_the_fold(state), room),
            Some(state) if self == Fault::OddRoomTakenAsMore => live_in_even_room(state, room),
            _ => northbound::live_of(state, room),
        }
    }

    /// As `Query::packed`, with this fault in it.
    pub fn read(self, state: Option<&State>, bytes: &[u8], query: Query) -> u64 {
        match self {
            Fault::Swapped(call, first, then) => Swapped(call, first, then).read(state, bytes, query),
            Fault::Owner(claim) => claim.read(state, bytes, query),
            Fault::Sheet(miscount) => miscount.read(state, bytes, query),
            Fault::Why(guess) => match (state, query) {
                (Some(state), Query::Why(question)) => {
                    guess.why(state, question).map_or_else(|refusal| refusal.number().into(), |why| why.packed())
                }
                _ => query.packed(state, bytes),
            },
            _ => self.misread(state, query).packed(state, bytes),
        }
    }

    /// The query that is answered in place of this one, with this fault.
    fn misread(self, state: Option<&State>, query: Query) -> Query {
        let is_folded = |number: u64| {
            state.is_some_and(|state| state.given(number).and_then(|number| state.place(number)) == Err(Refusal::Folded))
        };
        match (self, query) {
            (Fault::Narrowed(argument, bits), mut query) => {
                narrow(query.numbers(), argument, bits);
                query
            }
            (Fault::ReadWithout18, Query::Transaction { number, field }) if is_folded(number) => {
                Query::Transaction { number: 0, field }
            }
            (Fault::AppliedReadFromTarget, Query::Value { table: 2, path }) => Query::Value { table: 3, path },
            (Fault::OrdinalReadFromRollback, Query::Transaction { number, field: 4 }) => {
                Query::Transaction { number, field: 7 }
            }
            _ => query,
        }
    }
}

/// Faults of orders 3 and 8: what the stores that a cut has left do wrong when the job is called again.
#[derive(Clone, Copy, PartialEq, Eq, Debug)]
pub enum Again {
    /// A commit's finish counts the ordinal again.
    CountsOrdinal,
    /// An apply's close leaves the target where it was.
    LeavesTarget,
    /// The event is given again.
    Tells,
    /// A rejected outcome refuses it.
    AsksOutcome,
    /// That cut leaves it out again.
    IsCutBy(u64),
    /// A push is made again where only its status is left.
    PushesAgain,
    /// A push whose values the target has already is refused, gives no event, or stores the status alone.
    RefusedOnceLaid,
    SilentOnceLaid,
    FinishedOnceLaid,
}

impl Again {
    const ALL: [Again; 10] = [
        Again::CountsOrdinal,
        Again::LeavesTarget,
        Again::Tells,
        Again::AsksOutcome,
        Again::IsCutBy(1),
        Again::IsCutBy(2),
        Again::PushesAgain,
        Again::RefusedOnceLaid,
        Again::SilentOnceLaid,
        Again::FinishedOnceLaid,
    ];

    /// What a call comes to with this fault, from the state before it and the one that it left.
    fn acted(self, before: &State, state: &mut State, request: &Request, served: Served) -> Served {
        let Some(rule) = served.rule.filter(|_| served.reply.is_ok()) else {
            return served;
        };
        match rule.stores() {
            1 => self.closed(before, state, request, served),
            3 if before.target.values == state.target.values => self.laid_again(before, state, served),
            _ => served,
        }
    }

    /// The one store that a cut may have left.
    fn closed(self, before: &State, state: &mut State, request: &Request, served: Served) -> Served {
        let (&Request::Work { job, number, outcome, cut, .. }, Some(rule)) = (request, served.rule) else {
            return served;
        };
        let number = state.given(number).expect("a job's number is given");
        let place = state.place(number).expect("a job's number is kept");
        let Transaction { change, c, r, .. } = &mut state.log[place];
        let (phase, progress, pairs) = match job {
            1 | 2 => (Phase::Change, c, *change),
            _ => (Phase::Rollback, r, before.log[place].returning_pairs()),
        };
        let (stage, status) = if job % 2 == 1 { (Stage::Commit, progress.commit) } else { (Stage::Apply, progress.apply) };
        let told = Served { reply: Ok(Answer::Told(Event { phase, stage, number, status })), ..served };
        match self {
            Again::CountsOrdinal if matches!(rule, Rule::CommitChangeFinish | Rule::CommitRollbackFinish) => {
                state.committed.ordinal.0 += 1;
                progress.ordinal = state.committed.ordinal;
            }
            Again::LeavesTarget if matches!(rule, Rule::ApplyChangeClose | Rule::ApplyRollbackClose) => {
                state.applied.target = before.applied.target;
            }
            Again::Tells => return told,
            Again::PushesAgain if matches!(rule, Rule::ApplyChangeFinish | Rule::ApplyRollbackFinish) => {
                overlay(&mut state.target.values, pairs.pairs());
                overlay(&mut state.applied.values, pairs.pairs());
                return told;
            }
            Again::AsksOutcome if outcome == 1 => {
                *state = before.clone();
                return Served { reply: Err(Refusal::PushRejected), ..served };
            }
            Again::IsCutBy(by) if cut == by => *state = before.clone(),
            _ => {}
        }
        served
    }

    /// A push that has laid nothing new on the target.
    fn laid_again(self, before: &State, state: &mut State, served: Served) -> Served {
        let reply = match self {
            Again::RefusedOnceLaid => {
                *state = before.clone();
                Err(Refusal::NoRule)
            }
            Again::SilentOnceLaid => Ok(Answer::Nothing),
            Again::FinishedOnceLaid => {
                state.applied = before.applied.clone();
                Ok(Answer::Nothing)
            }
            _ => return served,
        };
        Served { reply, ..served }
    }
}

/// Leaves the numbers of that meaning only their lowest bits.
fn narrow(numbers: Numbers, argument: Argument, bits: u32) {
    for (_, number) in numbers.into_iter().filter(|(each, _)| *each == argument) {
        *number &= (1 << bits) - 1;
    }
}

/// What bytes decode to, the target's flag read so.
fn decode_with_flag(bytes: &[u8], read: impl FnOnce(u8) -> u8) -> Option<State> {
    let mut bytes = bytes.to_vec();
    let flag = bytes.get_mut(at::REMEMBERS)?;
    *flag = read(*flag);
    image::decode(&bytes)
}

fn with_cut(request: &Request, cut: u64) -> Request {
    match *request {
        Request::Work { node, job, number, outcome, .. } => Request::Work { node, job, number, outcome, cut },
        ref other => other.clone(),
    }
}

fn aborted(state: &mut State, served: Served) -> Served {
    let Ok(Answer::Told(event)) = served.reply else {
        return served;
    };
    let place = state.place(event.number).expect("a job's number is kept");
    state.log[place].c.apply = Status::Aborted;
    Served { reply: Ok(Answer::Told(Event { status: Status::Aborted, ..event })), ..served }
}

fn opened_in_flight(state: &mut State, request: &Request, served: Served) -> Served {
    let Request::Work { job: 1, number, cut, .. } = *request else {
        return served;
    };
    let Ok(number) = state.given(number) else {
        return served;
    };
    let returned = state.transaction(state.committed.index).is_some_and(|last| last.r.commit.is_done());
    let waits = state.committed.change == number.before()
        && state.transaction(number).is_some_and(|transaction| transaction.c.commit == Status::Pending);
    if !(waits && returned && state.committed.target < state.committed.index) {
        return served;
    }
    state.committed.target = number;
    if cut == 0 {
        act(state, request);
    }
    let event = Event { phase: Phase::Change, stage: Stage::Commit, number, status: Status::InProgress };
    Served { reply: Ok(Answer::Told(event)), rule: Some(Rule::CommitChangeOpen) }
}

fn pushed_on_stale_term(state: &mut State, request: &Request) -> Served {
    let configuration = state.configuration;
    if configuration.state == ConfigurationState::Complete {
        state.configuration.term = state.mastership.term;
    }
    let served = act(state, request);
    state.configuration = configuration;
    served
}

fn freed_at_conn(state: &mut State, request: &Request, served: Served) -> Served {
    match (request, state.mastership.master) {
        (Request::Master(node), Some(master)) if *node == u64::from(master.number()) => {
            state.mastership.master = None;
            Served { reply: Ok(Answer::Nothing), rule: None }
        }
        _ => served,
    }
}

/// Folds where that is all that hinders it.
fn folded_despite(state: &mut State, number: u64, despite: Hindrance, served: Served) -> Served {
    let number = state.given(number).expect("a number that only 17 refuses was given");
    let hinders = |hindrance: &Hindrance| *hindrance != despite && state.is_hindered(number, *hindrance);
    if Hindrance::ALL.iter().any(hinders) {
        return served;
    }
    state.drop_up_to(number);
    Served { reply: Ok(Answer::Nothing), rule: None }
}

/// The base with these kept ones laid on it, in their order.
fn laid(state: &State, numbers: impl Iterator<Item = Number>) -> Values {
    let mut base = state.base;
    for transaction in numbers.filter_map(|number| state.transaction(number)) {
        overlay(&mut base, transaction.change.pairs());
    }
    base
}

/// The live list as far as the room goes, where a byte more would be enough for it.
fn live_in_even_room(state: &State, room: &mut [u8]) -> u64 {
    let mut more = room.to_vec();
    more.resize(room.len().next_multiple_of(2), 0);
    let answer = northbound::live_of(Some(state), &mut more);
    room.copy_from_slice(&more[..room.len()]);
    answer
}

/// The live list and one hop more.
fn live_past_the_fold(state: &State) -> Vec<Number> {
    let mut list: Vec<Number> = state.live().collect();
    let last = list.last().and_then(|last| state.transaction(*last));
    let next = last.map_or(state.committed.revision, |last| last.r_index);
    list.extend((next != Number::NONE).then_some(next));
    list
}
