//! Wrong copies of order 7: owners set otherwise, remembered or brought back otherwise, folded, shown or held well-formed otherwise.

use crate::controller::{Number, Refusal, State, Status, Transaction, PAIR_LIMIT, PATHS};
use crate::image;
use crate::jobs::Rule;
use crate::northbound::{act, Request, Served};
use crate::reads::Query;

#[derive(Clone, Copy, PartialEq, Eq, Debug)]
pub enum Claim {
    // ---- what a commit sets
    NotSet,
    /// With the status InProgress, or with the status Complete, each a store of its own.
    SetAtBegin,
    SetWithStatus,
    /// A path that has an owner keeps it.
    OldestStays,
    /// Of a change's paths only the first, or the last, is set; all paths that it does not set lose their owner.
    FirstPathAlone,
    LastPathAlone,
    OthersForgotten,
    /// A path that is deleted has no owner, or keeps the one that it had; and so has one that keeps its value.
    DeleteForgotten,
    DeletePassedOver,
    SameValuePassedOver,
    /// Not the number, but the one before it, or the ordinal.
    NumberBefore,
    OrdinalSet,
    /// A change that is invalid is the owner of its paths.
    InvalidOwns,
    // ---- what a change remembers
    NothingRemembered,
    /// By the append, or by the commit's Complete.
    RememberedAtAppend,
    RememberedAtComplete,
    /// For each path the revision; of the first path alone; none that is folded; each in another's place.
    RevisionRemembered,
    FirstRemembered,
    FoldedNotRemembered,
    RememberedBackwards,
    /// Places past the pairs stay as they were.
    UnusedLeft,
    // ---- what a rollback brings back
    NotBroughtBack,
    /// When it is asked for, with its InProgress, or with the status Complete.
    BackWhenAsked,
    BackAtBegin,
    BackWithStatus,
    /// None; the revision to return to; of the first path alone.
    BackToNone,
    BackToRevision,
    FirstPathBack,
    /// Also what stands in the places past the pairs, which are of path 0.
    UnusedBack,
    /// Only where the change is still the owner.
    BackWhereOwned,
    /// A path that becomes absent has no owner.
    AbsentBackToNone,
    // ---- what a fold does
    FoldClears,
    FoldClearsRemembered,
    // ---- what is answered
    /// What is folded is shown, or only the last fold's number; the first number that is kept is not.
    FoldedShown,
    LastFoldShown,
    FirstKeptHidden,
    /// None where the path is absent, or where its owner is not applied.
    AbsentIsNone,
    AppliedAlone,
    /// The newest that names the path, live or not, committed or not; the newest that is committed, undone or not; the revision.
    NewestNaming,
    NewestCommitted,
    RevisionShown,
    NextPath,
    /// Path 32 has none, and path 31 is refused; a path that has no owner is refused.
    Path32Shown,
    Path31Refused,
    NoneRefused,
    // ---- what is well-formed
    OwnersUnasked,
    OwnerUnasked(usize),
    /// Each must be below Committed's change; may be one more; is held to the highest number, or to the revision.
    OwnersBelowChange,
    OwnersOneMore,
    OwnersByHighest,
    OwnersByRevision,
    RememberedUnasked,
    RememberedUnaskedAt(usize),
    /// Places past the pairs are not asked about.
    RememberedWhereUsed,
    /// Each may be the transaction's own number; must be below the one before; is held to r.index, or to Committed's change.
    RememberedItself,
    RememberedOneLess,
    RememberedByRIndex,
    RememberedByChange,
}

impl Claim {
    pub fn all() -> Vec<Claim> {
        use Claim::*;
        let mut all = vec![NotSet, SetAtBegin, SetWithStatus, OldestStays, FirstPathAlone, LastPathAlone, OthersForgotten];
        all.extend([DeleteForgotten, DeletePassedOver, SameValuePassedOver, NumberBefore, OrdinalSet, InvalidOwns]);
        all.extend([NothingRemembered, RememberedAtAppend, RememberedAtComplete, RevisionRemembered, FirstRemembered]);
        all.extend([FoldedNotRemembered, RememberedBackwards, UnusedLeft]);
        all.extend([NotBroughtBack, BackWhenAsked, BackAtBegin, BackWithStatus, BackToNone, BackToRevision, FirstPathBack]);
        all.extend([UnusedBack, BackWhereOwned, AbsentBackToNone, FoldClears, FoldClearsRemembered]);
        all.extend([FoldedShown, LastFoldShown, FirstKeptHidden, AbsentIsNone, AppliedAlone, NewestNaming, NewestCommitted]);
        all.extend([RevisionShown, NextPath, Path32Shown, Path31Refused, NoneRefused]);
        all.extend([OwnersUnasked, OwnersBelowChange, OwnersOneMore, OwnersByHighest, OwnersByRevision]);
        all.extend([0, PATHS / 2, PATHS - 1].map(OwnerUnasked));
        all.extend([RememberedUnasked, RememberedWhereUsed, RememberedItself, RememberedOneLess, RememberedByRIndex]);
        all.extend([RememberedByChange]);
        all.extend((0..PAIR_LIMIT).map(RememberedUnaskedAt));
        all
    }

    /// As `northbound::act`, with this in it.
    pub fn act(self, state: &mut State, request: &Request) -> Served {
        let before = state.clone();
        let served = act(state, request);
        if served.reply.is_err() {
            return served;
        }
        match *request {
            Request::Append(_) if self == Claim::RememberedAtAppend => {
                let place = state.log.len() - 1;
                self.remember(&before, state, place);
            }
            Request::Rollback(number) if self == Claim::BackWhenAsked => {
                let place = place_of(state, number);
                self.bring_back(&before, state, place);
            }
            Request::Fold(_) => self.folded(state),
            Request::Work { number, .. } => self.worked(&before, state, number, served.rule),
            _ => {}
        }
        served
    }

    /// A job's stores, from the state before it to the one that it left.
    fn worked(self, before: &State, state: &mut State, number: u64, rule: Option<Rule>) {
        let place = place_of(state, number);
        let (was, is) = (before.log[place], state.log[place]);
        let moved = |from: Status, to: Status, now: Status| from != to && now == to;
        let begins = moved(was.c.commit, Status::InProgress, is.c.commit);
        let ends = moved(was.c.commit, Status::Complete, is.c.commit);
        let goes_back = moved(was.r.commit, Status::InProgress, is.r.commit);
        let is_back = moved(was.r.commit, Status::Complete, is.r.commit);
        if begins {
            self.remember(before, state, place);
        }
        match rule {
            Some(Rule::CommitChangeAccept) => self.set(before, state, place),
            Some(Rule::CommitRollbackReturn) => self.bring_back(before, state, place),
            _ => {}
        }
        match self {
            Claim::SetAtBegin if begins => self.set(before, state, place),
            Claim::SetWithStatus if ends => Claim::SetAtBegin.set(before, state, place),
            Claim::InvalidOwns if rule == Some(Rule::CommitChangeReject) => self.set(before, state, place),
            Claim::BackAtBegin if goes_back => self.bring_back(before, state, place),
            Claim::BackWithStatus if is_back => Claim::BackAtBegin.bring_back(before, state, place),
            _ => {}
        }
    }

    /// Makes a change the owner of its paths.
    fn set(self, before: &State, state: &mut State, place: usize) {
        let (it, number) = (state.log[place], Number(state.folded.0 + 1 + place as u16));
        let last = it.change.pairs().len() - 1;
        if self == Claim::OthersForgotten {
            state.committed.owners = [Number::NONE; PATHS];
        }
        for (place, pair) in it.change.pairs().iter().enumerate() {
            let path = usize::from(pair.path);
            let had = before.committed.owners[path];
            state.committed.owners[path] = match self {
                Claim::NotSet | Claim::SetWithStatus => had,
                Claim::OldestStays if had != Number::NONE => had,
                Claim::FirstPathAlone if place > 0 => had,
                Claim::LastPathAlone if place < last => had,
                Claim::DeleteForgotten if pair.value == 0 => Number::NONE,
                Claim::DeletePassedOver if pair.value == 0 => had,
                Claim::SameValuePassedOver if pair.value == before.committed.values[path] => had,
                Claim::NumberBefore => number.before(),
                Claim::OrdinalSet => Number(state.committed.ordinal.0 as u16),
                _ => number,
            };
        }
        if self == Claim::RememberedAtComplete {
            state.log[place].r_owners = present(before, &it);
        }
    }

    /// What a change remembers, when it begins to commit or is appended.
    fn remember(self, before: &State, state: &mut State, place: usize) {
        let was = before.log.get(place).map_or_else(Default::default, |was| was.r_owners);
        let it = state.log[place];
        let used = it.change.pairs().len();
        let mut owners = present(before, &it);
        match self {
            Claim::NothingRemembered | Claim::RememberedAtComplete => owners = Default::default(),
            Claim::RememberedAtAppend if it.c.commit != Status::Pending => owners = was,
            Claim::RevisionRemembered => owners[..used].fill(it.r_index),
            Claim::FirstRemembered => owners[1..].fill(Number::NONE),
            Claim::FoldedNotRemembered => unless_folded(&mut owners, before.folded),
            Claim::RememberedBackwards => owners[..used].reverse(),
            Claim::UnusedLeft => owners[used..].copy_from_slice(&was[used..]),
            _ => {}
        }
        state.log[place].r_owners = owners;
    }

    fn bring_back(self, before: &State, state: &mut State, place: usize) {
        let (it, number) = (state.log[place], Number(state.folded.0 + 1 + place as u16));
        for (place, pair) in it.change.pairs().iter().enumerate() {
            let path = usize::from(pair.path);
            let had = before.committed.owners[path];
            state.committed.owners[path] = match self {
                Claim::NotBroughtBack | Claim::BackWithStatus => had,
                Claim::BackToNone => Number::NONE,
                Claim::BackToRevision => it.r_index,
                Claim::FirstPathBack if place > 0 => had,
                Claim::BackWhereOwned if had != number => had,
                Claim::AbsentBackToNone if it.r_values[place] == 0 => Number::NONE,
                _ => it.r_owners[place],
            };
        }
        if self == Claim::UnusedBack {
            it.r_owners[it.change.pairs().len()..].iter().for_each(|owner| state.committed.owners[0] = *owner);
        }
    }

    fn folded(self, state: &mut State) {
        match self {
            Claim::FoldClears => unless_folded(&mut state.committed.owners, state.folded),
            Claim::FoldClearsRemembered => {
                state.log.iter_mut().for_each(|it| unless_folded(&mut it.r_owners, state.folded));
            }
            _ => {}
        }
    }

    /// As `Query::packed`, with this in it.
    pub fn read(self, state: Option<&State>, bytes: &[u8], query: Query) -> u64 {
        match (state, query) {
            (Some(state), Query::Owner { path }) => {
                self.owner(state, path).map_or_else(|refusal| refusal.number().into(), |owner| u64::from(owner.0) << 32)
            }
            _ => query.packed(state, bytes),
        }
    }

    fn owner(self, state: &State, path: u64) -> Result<Number, Refusal> {
        match (self, path) {
            (Claim::Path32Shown, 32) => return Ok(Number::NONE),
            (Claim::Path31Refused, 31) => return Err(Refusal::OutOfRange),
            _ => {}
        }
        let owner = state.owner(path)?;
        let kept = state.committed.owners[path as usize];
        let names = |it: &Transaction| it.change.pairs().iter().any(|pair| u64::from(pair.path) == path);
        let newest = |is_it: &dyn Fn(&Transaction) -> bool| {
            state.kept().filter(|(_, it)| names(it) && is_it(it)).last().map_or(Number::NONE, |(number, _)| number)
        };
        let is_applied = || state.transaction(owner).is_some_and(|it| it.c.apply == Status::Complete);
        Ok(match self {
            Claim::FoldedShown => kept,
            Claim::LastFoldShown if kept == state.folded => kept,
            Claim::FirstKeptHidden if state.folded > Number::NONE && owner > state.folded && owner.before() == state.folded => {
                Number::NONE
            }
            Claim::AbsentIsNone if state.committed.values[path as usize] == 0 => Number::NONE,
            Claim::AppliedAlone if !is_applied() => Number::NONE,
            Claim::NewestNaming => newest(&|_| true),
            Claim::NewestCommitted => newest(&|it| it.c.commit == Status::Complete),
            Claim::RevisionShown if owner != Number::NONE => state.committed.revision,
            Claim::NextPath => return state.owner((path + 1) % PATHS as u64),
            Claim::NoneRefused if owner == Number::NONE => return Err(Refusal::NoSuchNumber),
            _ => owner,
        })
    }

    /// As `image::decode`, with this in it.
    pub fn decode(self, bytes: &[u8]) -> Option<State> {
        image::decode_whatever_owners(bytes).filter(|state| self.takes_owners(state) && self.takes_remembered(state))
    }

    fn takes_owners(self, state: &State) -> bool {
        let change = state.committed.change;
        state.committed.owners.iter().enumerate().all(|(path, owner)| match self {
            Claim::OwnersUnasked => true,
            Claim::OwnerUnasked(unasked) if path == unasked => true,
            Claim::OwnersBelowChange => *owner == Number::NONE || *owner < change,
            Claim::OwnersOneMore => owner.0.saturating_sub(1) <= change.0,
            Claim::OwnersByHighest => *owner <= state.highest(),
            Claim::OwnersByRevision => *owner <= state.committed.revision,
            _ => *owner <= change,
        })
    }

    fn takes_remembered(self, state: &State) -> bool {
        state.kept().all(|(number, it)| {
            it.r_owners.iter().enumerate().all(|(place, owner)| match self {
                Claim::RememberedUnasked => true,
                Claim::RememberedUnaskedAt(unasked) if place == unasked => true,
                Claim::RememberedWhereUsed if place >= it.change.pairs().len() => true,
                Claim::RememberedItself => *owner <= number,
                Claim::RememberedOneLess => *owner == Number::NONE || *owner < number.before(),
                Claim::RememberedByRIndex => *owner <= it.r_index,
                Claim::RememberedByChange => *owner <= state.committed.change,
                _ => *owner < number,
            })
        })
    }
}

/// The owners of a change's paths as they stand.
fn present(state: &State, it: &Transaction) -> [Number; PAIR_LIMIT] {
    let mut owners = [Number::NONE; PAIR_LIMIT];
    for (owner, pair) in owners.iter_mut().zip(it.change.pairs()) {
        *owner = state.committed.owners[usize::from(pair.path)];
    }
    owners
}

/// Makes those that are folded none.
fn unless_folded(owners: &mut [Number], folded: Number) {
    owners.iter_mut().filter(|owner| **owner <= folded).for_each(|owner| *owner = Number::NONE);
}

/// Where the transaction of an accepted call's number stands.
fn place_of(state: &State, number: u64) -> usize {
    state.given(number).and_then(|number| state.place(number)).expect("an accepted call's number is kept")
}
