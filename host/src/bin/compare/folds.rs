//! What order 10 brings, each of which must be seen: folds by what came of them, folded numbers in other calls, the ring.

use makowist_host::controller::{Hindrance, Number, Ordinal, Refusal, State, LOG_LIMIT};
use makowist_host::image::{at, slot, u16_at, u32_at, LENGTH};
use makowist_host::jobs::Rule;
use makowist_host::northbound::{Answer, Request, Served};

#[derive(Clone, Copy, PartialEq, Eq, Debug)]
pub enum Kind {
    FoldAccepted,
    /// A fold refused by 17, for that alone.
    FoldRefusedOnlyFor(Hindrance),
    /// A fold refused by 5, by what its number is.
    FoldOfNone,
    FoldOfFolded,
    FoldPastTheEnd,
    /// 18 by what is asked. A transaction's read is counted with the reads.
    RollbackOfFolded,
    WorkOnFolded,
    /// 18 where the node is not master.
    WorkOnFoldedByAnother,
    /// An append past the first 128, whose slot another number had.
    AppendInUsedSlot,
    /// An append refused by 9.
    AppendPastTheLast,
    /// An append refused by 4 where the last number is given.
    AppendFullAtTheLast,
    /// A commit that opens where the commit side rests at a folded mark.
    OpenedFromFoldedMark,
    /// A rollback's commit that returns to a folded revision.
    ReturnedToFolded,
    /// A call that leaves a ring whose kept ones go round its end.
    RingWraps,
    /// A damaged image, by what is out of its limits.
    ImageFoldedPastHighest,
    ImageKeepsTooMany,
    ImageOrdinalPastLimit,
}

impl Kind {
    pub const ALL: [Kind; 21] = [
        Kind::FoldAccepted,
        Kind::FoldRefusedOnlyFor(Hindrance::NotAtRest),
        Kind::FoldRefusedOnlyFor(Hindrance::NotSettled),
        Kind::FoldRefusedOnlyFor(Hindrance::NextBegun),
        Kind::FoldRefusedOnlyFor(Hindrance::TargetMoved),
        Kind::FoldRefusedOnlyFor(Hindrance::Unfinished),
        Kind::FoldOfNone,
        Kind::FoldOfFolded,
        Kind::FoldPastTheEnd,
        Kind::RollbackOfFolded,
        Kind::WorkOnFolded,
        Kind::WorkOnFoldedByAnother,
        Kind::AppendInUsedSlot,
        Kind::AppendPastTheLast,
        Kind::AppendFullAtTheLast,
        Kind::OpenedFromFoldedMark,
        Kind::ReturnedToFolded,
        Kind::RingWraps,
        Kind::ImageFoldedPastHighest,
        Kind::ImageKeepsTooMany,
        Kind::ImageOrdinalPastLimit,
    ];
}

/// Counts by kind, in their order.
#[derive(Default)]
pub struct Seen([u64; Kind::ALL.len()]);

impl Seen {
    /// Counts what a call shows, with the state that it left and the committed index before it.
    pub fn called(&mut self, rested_at: Number, state: &State, request: &Request, served: &Served) {
        let kind = match (request, served.reply) {
            (Request::Fold(_), Ok(_)) => Some(Kind::FoldAccepted),
            (Request::Fold(number), Err(refusal)) => refused_fold(state, *number, refusal),
            (Request::Rollback(_), Err(Refusal::Folded)) => Some(Kind::RollbackOfFolded),
            (Request::Work { node, .. }, Err(Refusal::Folded)) => Some(work_on_folded(state, *node)),
            (Request::Append(_), reply) => appended(state, reply),
            (Request::Work { number, .. }, Ok(_)) => worked(rested_at, state, *number, served.rule),
            _ => None,
        };
        kind.into_iter().for_each(|kind| self.saw(kind));
        if !state.log.is_empty() && slot(state.highest()) < usize::from(state.folded.0) % LOG_LIMIT {
            self.saw(Kind::RingWraps);
        }
    }

    /// Counts what is wrong with a damaged image.
    pub fn damaged(&mut self, image: &[u8]) {
        if image.len() != LENGTH {
            return;
        }
        match u16_at(image, at::HIGHEST).checked_sub(u16_at(image, at::FOLDED)) {
            None => self.saw(Kind::ImageFoldedPastHighest),
            Some(kept) if usize::from(kept) > LOG_LIMIT => self.saw(Kind::ImageKeepsTooMany),
            Some(_) => {}
        }
        if [at::COMMITTED, at::APPLIED].iter().any(|head| u32_at(image, head + 6) > Ordinal::LIMIT.0) {
            self.saw(Kind::ImageOrdinalPastLimit);
        }
    }

    fn saw(&mut self, kind: Kind) {
        if let Some(place) = Kind::ALL.iter().position(|each| *each == kind) {
            self.0[place] += 1;
        }
    }

    /// Prints every count, and answers how many kinds were never seen.
    pub fn told(&self) -> usize {
        for (kind, count) in Kind::ALL.iter().zip(self.0) {
            println!("{count:>12}  {kind:?}");
        }
        self.0.iter().filter(|count| **count == 0).count()
    }
}

fn refused_fold(state: &State, number: u64, refusal: Refusal) -> Option<Kind> {
    match refusal {
        Refusal::NoSuchNumber if number == 0 => Some(Kind::FoldOfNone),
        Refusal::NoSuchNumber if number <= state.folded.0.into() => Some(Kind::FoldOfFolded),
        Refusal::NoSuchNumber => Some(Kind::FoldPastTheEnd),
        Refusal::NotFinished => {
            let number = state.given(number).ok()?;
            let mut found = Hindrance::ALL.into_iter().filter(|hindrance| state.is_hindered(number, *hindrance));
            found.next().filter(|_| found.next().is_none()).map(Kind::FoldRefusedOnlyFor)
        }
        _ => None,
    }
}

fn work_on_folded(state: &State, node: u64) -> Kind {
    let is_master = state.mastership.master.is_some_and(|master| u64::from(master.number()) == node);
    if is_master { Kind::WorkOnFolded } else { Kind::WorkOnFoldedByAnother }
}

fn appended(state: &State, reply: Result<Answer, Refusal>) -> Option<Kind> {
    match reply {
        Ok(_) if usize::from(state.highest().0) > LOG_LIMIT => Some(Kind::AppendInUsedSlot),
        Err(Refusal::CounterAtLimit) => Some(Kind::AppendPastTheLast),
        Err(Refusal::LogFull) if state.highest() == Number::LIMIT => Some(Kind::AppendFullAtTheLast),
        _ => None,
    }
}

fn worked(rested_at: Number, state: &State, number: u64, rule: Option<Rule>) -> Option<Kind> {
    let is_folded = |number: Number| number != Number::NONE && number <= state.folded;
    match rule? {
        Rule::CommitChangeOpen | Rule::CommitRollbackOpen if is_folded(rested_at) => Some(Kind::OpenedFromFoldedMark),
        Rule::CommitRollbackReturn if is_folded(state.transaction(state.given(number).ok()?)?.r_index) => Some(Kind::ReturnedToFolded),
        _ => None,
    }
}
