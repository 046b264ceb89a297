//! Wrong copies of order 11: classes by other rules, counts, masks and their ones taken otherwise, totals added to or
//! asked otherwise, and what the switch took, or what was undone, read otherwise.

use crate::controller::{Ordinal, Phase, Progress, Refusal, State, Status, Transaction, Values, LOG_LIMIT, PATHS};
use crate::image::{put_u16, u16_at};
use crate::reads::Query;
use crate::sheet::{packed, Class, Counts, Row, Tally, LOGS, TOTALS};

#[derive(Clone, Copy, PartialEq, Eq, Debug)]
pub enum Miscount {
    // ---- the class of a transaction
    /// Of the rules of these two classes the lower one's is tried first.
    TriedFirst(Class, Class),
    /// Undone is r.apply Complete alone, Canceled alone, any that is Done, or the commit alone.
    UndoneWithoutCanceled,
    UndoneWithoutComplete,
    UndoneWhereDone,
    UndoneByCommit,
    /// Being undone goes by the phase, from InProgress on, until the commit is Done, or by r.apply.
    UndoingByPhase,
    UndoingWhereBegun,
    UndoingUntilDone,
    UndoingByApply,
    /// Taken is what has landed, what is Done, or what is committed.
    TakenWhereLanded,
    TakenWhereDone,
    TakenByCommit,
    /// Invalid goes by c.apply Canceled, is any that is Done and not Complete, or is Canceled alone.
    InvalidByApply,
    InvalidWhereNotComplete,
    InvalidWhereCanceled,
    /// Stopped is one of the two alone, or Canceled too, or all that is not under way.
    StoppedWithoutAborted,
    StoppedWithoutFailed,
    StoppedWithCanceled,
    StoppedUnlessUnderWay,
    /// Classes are numbered from 0, or from the other end.
    ClassesFromZero,
    ClassesBackwards,
    // ---- the counts of a log
    /// What is folded is counted as taken; the first that is kept, or the last, is not counted.
    FoldedCounted,
    FirstLeftOut,
    LastLeftOut,
    // ---- the mask and its ones
    MaskOffByOne,
    MaskBackwards,
    MaskOfEqual,
    /// One path is left out.
    PathLeftOut(usize),
    /// Other tables are held together: the committed values and the target's, the applied and the target's, the
    /// committed and the base.
    MaskOfTarget,
    MaskOfAppliedAndTarget,
    MaskOfBase,
    /// The low bytes alone are looked at; a path that is absent on either side does not differ.
    MaskByLowByte,
    MaskWherePresent,
    /// Not the ones, but the mask's lowest byte, or the highest path; 32 ones are none; the read shows the ones.
    DriftOfLowByte,
    DriftOfHighest,
    DriftOf32IsNone,
    OnesShown,
    // ---- the reply and the totals
    PackedBackwards,
    TotalsLeft,
    TotalsReplaced,
    TotalsBackwards,
    TotalsBigEndian,
    TotalsWithoutCarry,
    /// A log that is no image is counted as an open one, or clears the totals; one that is out of range adds, or
    /// clears.
    DamagedAdds,
    DamagedClears,
    OutOfRangeAdds,
    OutOfRangeClears,
    /// Behind 2 the row is shown.
    OutOfRangeShows,
    Log0Taken,
    Log64Refused,
    Log65Taken,
    /// Totals that are shorter, or longer, are taken.
    ShorterTaken,
    LongerTaken,
    /// What the totals are together is not asked; must be below the limit; may be one more; is held to what the logs up
    /// to this one keep; is asked of each alone; is added up in 16 bits.
    LimitUnasked,
    LimitBelow,
    LimitOneMore,
    LimitOfThis,
    LimitOfEach,
    LimitIn16Bits,
    // ---- what the switch took
    Took(Landing),
    Undone(Landing),
    /// Taken is the class, or what is not undone; undone is the class, or goes by the phase.
    TookByClass,
    TookUnlessUndone,
    UndoneByClass,
    UndoneByPhase,
    // ---- of which transaction it is read
    /// A folded number is refused by 5, or is shown, and so is 0; the highest number is refused.
    FoldedRefusedBy5,
    FoldedShown,
    Number0Shown,
    HighestRefused,
}

/// When an apply is taken to have landed.
#[derive(Clone, Copy, PartialEq, Eq, Debug)]
pub enum Landing {
    /// Where it is Complete alone; where it is Done; where it is InProgress, whatever the ordinal.
    ByStatus,
    WhereDone,
    WhereInProgress,
    /// Where it is InProgress and the applied ordinal is its own or above, or is the one before it.
    PastOrdinal,
    BeforeOrdinal,
    /// By the ordinal of the other side, or of Committed.
    OtherOrdinal,
    CommittedOrdinal,
    /// No ordinal is never reached.
    NoneNeverReached,
    /// Where the commit is Complete.
    ByCommit,
}

impl Landing {
    const ALL: [Landing; 9] = [
        Landing::ByStatus,
        Landing::WhereDone,
        Landing::WhereInProgress,
        Landing::PastOrdinal,
        Landing::BeforeOrdinal,
        Landing::OtherOrdinal,
        Landing::CommittedOrdinal,
        Landing::NoneNeverReached,
        Landing::ByCommit,
    ];

    fn has_landed(self, state: &State, it: &Progress, other: &Progress) -> bool {
        let (applied, in_progress) = (state.applied.ordinal, it.apply == Status::InProgress);
        match self {
            Landing::ByStatus => it.apply == Status::Complete,
            Landing::WhereDone if it.apply.is_done() => true,
            Landing::WhereInProgress if in_progress => true,
            Landing::PastOrdinal if in_progress => applied >= it.ordinal,
            Landing::BeforeOrdinal if in_progress => it.ordinal.follows(applied),
            Landing::OtherOrdinal if in_progress => other.ordinal == applied,
            Landing::CommittedOrdinal if in_progress => it.ordinal == state.committed.ordinal,
            Landing::NoneNeverReached if it.ordinal == Ordinal::NONE => it.apply == Status::Complete,
            Landing::ByCommit => it.commit == Status::Complete,
            _ => it.has_landed(applied),
        }
    }
}

impl Miscount {
    pub fn all() -> Vec<Miscount> {
        use Miscount::*;
        let mut all = [Miscount::of_classes(), Miscount::of_masks(), Miscount::of_landing()].concat();
        all.extend([ClassesFromZero, ClassesBackwards, FoldedCounted, FirstLeftOut, LastLeftOut, OnesShown]);
        all.extend([PackedBackwards, TotalsLeft, TotalsReplaced, TotalsBackwards, TotalsBigEndian, TotalsWithoutCarry]);
        all.extend([DamagedAdds, DamagedClears, OutOfRangeAdds, OutOfRangeClears, OutOfRangeShows]);
        all.extend([Log0Taken, Log64Refused, Log65Taken, ShorterTaken, LongerTaken]);
        all.extend([LimitUnasked, LimitBelow, LimitOneMore, LimitOfThis, LimitOfEach, LimitIn16Bits]);
        all.extend([FoldedRefusedBy5, FoldedShown, Number0Shown, HighestRefused]);
        all
    }

    /// Those that the rows of a sheet show.
    pub fn of_rows() -> Vec<Miscount> {
        let counts = [Miscount::FoldedCounted, Miscount::FirstLeftOut, Miscount::LastLeftOut];
        [Miscount::of_classes(), Miscount::of_masks(), counts.to_vec()].concat()
    }

    /// Those that the lines of a record show.
    pub fn of_lines() -> Vec<Miscount> {
        [Miscount::of_classes(), Miscount::of_landing()].concat()
    }

    fn of_classes() -> Vec<Miscount> {
        use Miscount::*;
        let mut all: Vec<Miscount> = Class::ALL[1..].windows(2).map(|two| TriedFirst(two[0], two[1])).collect();
        all.extend([UndoneWithoutCanceled, UndoneWithoutComplete, UndoneWhereDone, UndoneByCommit]);
        all.extend([UndoingByPhase, UndoingWhereBegun, UndoingUntilDone, UndoingByApply]);
        all.extend([TakenWhereLanded, TakenWhereDone, TakenByCommit]);
        all.extend([InvalidByApply, InvalidWhereNotComplete, InvalidWhereCanceled]);
        all.extend([StoppedWithoutAborted, StoppedWithoutFailed, StoppedWithCanceled, StoppedUnlessUnderWay]);
        all
    }

    fn of_masks() -> Vec<Miscount> {
        use Miscount::*;
        let mut all: Vec<Miscount> = [0, PATHS / 2, PATHS - 1].map(PathLeftOut).to_vec();
        all.extend([MaskOffByOne, MaskBackwards, MaskOfEqual, MaskOfTarget, MaskOfAppliedAndTarget, MaskOfBase]);
        all.extend([MaskByLowByte, MaskWherePresent, DriftOfLowByte, DriftOfHighest, DriftOf32IsNone]);
        all
    }

    fn of_landing() -> Vec<Miscount> {
        use Miscount::*;
        let mut all: Vec<Miscount> = Landing::ALL.map(Took).to_vec();
        all.extend(Landing::ALL.map(Undone));
        all.extend([TookByClass, TookUnlessUndone, UndoneByClass, UndoneByPhase]);
        all
    }

    /// The number of a transaction's class, by the first rule that fits.
    pub fn class(self, state: &State, it: &Transaction) -> u8 {
        let mut rules = [
            (Class::Undone, self.is_undone(it)),
            (Class::Undoing, self.is_undoing(it)),
            (Class::Taken, self.is_taken(state, it)),
            (Class::Invalid, self.is_invalid(it)),
            (Class::Stopped, self.is_stopped(it)),
        ];
        if let Some(place) =
            rules.iter().position(|(class, _)| matches!(self, Miscount::TriedFirst(_, first) if first == *class))
        {
            rules.swap(place, place + 1);
        }
        rules.iter().find(|(_, fits)| *fits).map_or(Class::Open, |(class, _)| *class).number()
    }

    fn is_undone(self, it: &Transaction) -> bool {
        match self {
            Miscount::UndoneWithoutCanceled => it.r.apply == Status::Complete,
            Miscount::UndoneWithoutComplete => it.r.apply == Status::Canceled,
            Miscount::UndoneWhereDone => it.r.apply.is_done(),
            Miscount::UndoneByCommit => it.r.commit == Status::Complete,
            _ => matches!(it.r.apply, Status::Complete | Status::Canceled),
        }
    }

    fn is_undoing(self, it: &Transaction) -> bool {
        match self {
            Miscount::UndoingByPhase => it.phase == Phase::Rollback,
            Miscount::UndoingWhereBegun => !matches!(it.r.commit, Status::None | Status::Pending),
            Miscount::UndoingUntilDone => matches!(it.r.commit, Status::Pending | Status::InProgress),
            Miscount::UndoingByApply => it.r.apply != Status::None,
            _ => it.r.commit != Status::None,
        }
    }

    fn is_taken(self, state: &State, it: &Transaction) -> bool {
        match self {
            Miscount::TakenWhereLanded => it.c.has_landed(state.applied.ordinal),
            Miscount::TakenWhereDone => it.c.apply.is_done(),
            Miscount::TakenByCommit => it.c.commit == Status::Complete,
            _ => it.c.apply == Status::Complete,
        }
    }

    fn is_invalid(self, it: &Transaction) -> bool {
        match self {
            Miscount::InvalidByApply => it.c.apply == Status::Canceled,
            Miscount::InvalidWhereNotComplete => it.c.commit.is_done() && it.c.commit != Status::Complete,
            Miscount::InvalidWhereCanceled => it.c.commit == Status::Canceled,
            _ => it.c.commit == Status::Failed,
        }
    }

    fn is_stopped(self, it: &Transaction) -> bool {
        match self {
            Miscount::StoppedWithoutAborted => it.c.apply == Status::Failed,
            Miscount::StoppedWithoutFailed => it.c.apply == Status::Aborted,
            Miscount::StoppedWithCanceled => matches!(it.c.apply, Status::Aborted | Status::Canceled | Status::Failed),
            Miscount::StoppedUnlessUnderWay => !matches!(it.c.apply, Status::Pending | Status::InProgress),
            _ => matches!(it.c.apply, Status::Aborted | Status::Failed),
        }
    }

    fn counts(self, state: &State) -> Counts {
        let mut counts = Counts::default();
        let kept = match (self, state.log.len()) {
            (Miscount::FirstLeftOut, 1..) => &state.log[1..],
            (Miscount::LastLeftOut, 1..) => &state.log[..state.log.len() - 1],
            _ => &state.log,
        };
        kept.iter().for_each(|it| counts[usize::from(self.class(state, it)) - 1] += 1);
        match self {
            Miscount::FoldedCounted => counts[Class::Taken.place()] += state.folded.0.min(LOG_LIMIT as u16),
            Miscount::ClassesFromZero => counts.rotate_left(1),
            Miscount::ClassesBackwards => counts.reverse(),
            _ => {}
        }
        counts
    }

    fn mask(self, state: &State) -> u32 {
        let (committed, applied, target) = (&state.committed.values, &state.applied.values, &state.target.values);
        let mask = match self {
            Miscount::MaskOfTarget => mask_of(committed, target),
            Miscount::MaskOfAppliedAndTarget => mask_of(applied, target),
            Miscount::MaskOfBase => mask_of(committed, &state.base),
            Miscount::MaskByLowByte => {
                mask_of(&committed.map(|value| value & 0xff), &applied.map(|value| value & 0xff))
            }
            _ => mask_of(committed, applied),
        };
        match self {
            Miscount::MaskOffByOne => mask.rotate_left(1),
            Miscount::MaskBackwards => mask.reverse_bits(),
            Miscount::MaskOfEqual => !mask,
            Miscount::PathLeftOut(path) => mask & !(1 << path),
            Miscount::MaskWherePresent => mask & mask_of(committed, &[0; PATHS]) & mask_of(applied, &[0; PATHS]),
            _ => mask,
        }
    }

    pub fn row(self, state: &State) -> Row {
        let mask = self.mask(state);
        let drift = match self {
            Miscount::DriftOfLowByte => mask & 0xff,
            Miscount::DriftOfHighest => u32::BITS - mask.leading_zeros(),
            Miscount::DriftOf32IsNone => mask.count_ones() % u32::BITS,
            _ => mask.count_ones(),
        };
        Row { counts: self.counts(state), mask, drift: drift as u8 }
    }

    /// As `Query::packed`, with this in it.
    pub fn read(self, state: Option<&State>, bytes: &[u8], query: Query) -> u64 {
        let right = self.refused(state, query).unwrap_or_else(|| query.packed(state, bytes));
        let Some(state) = state.filter(|_| right & 0xff == 0) else {
            return right;
        };
        let it = |number: u64| state.given(number).ok().and_then(|number| state.transaction(number));
        let shown = match query {
            Query::Class { number } => {
                let class = it(number).map_or(1, |it| self.class(state, it));
                match self {
                    Miscount::ClassesFromZero => u32::from(class) - 1,
                    Miscount::ClassesBackwards => 7 - u32::from(class),
                    _ => class.into(),
                }
            }
            Query::Took { number } => it(number).is_some_and(|it| self.took(state, it)).into(),
            Query::Undone { number } => it(number).is_some_and(|it| self.undone(state, it)).into(),
            Query::Drift if self == Miscount::OnesShown => self.row(state).drift.into(),
            Query::Drift => self.mask(state),
            _ => return right,
        };
        u64::from(shown) << 32
    }

    /// The answer by the number alone, where this takes it otherwise. What is shown of a number that is not kept is an
    /// open one.
    fn refused(self, state: Option<&State>, query: Query) -> Option<u64> {
        let (Some(state), Query::Class { number } | Query::Took { number } | Query::Undone { number }) = (state, query)
        else {
            return None;
        };
        let (folded, highest) = (state.folded.0.into(), state.highest().0.into());
        let is_folded = (1..=folded).contains(&number);
        match self {
            Miscount::FoldedRefusedBy5 if is_folded => Some(Refusal::NoSuchNumber.number().into()),
            Miscount::FoldedShown if is_folded => Some(0),
            Miscount::Number0Shown if number == 0 => Some(0),
            Miscount::HighestRefused if number == highest && number > folded => {
                Some(Refusal::NoSuchNumber.number().into())
            }
            _ => None,
        }
    }

    pub fn took(self, state: &State, it: &Transaction) -> bool {
        let applied = state.applied.ordinal;
        match self {
            Miscount::Took(landing) => landing.has_landed(state, &it.c, &it.r),
            Miscount::TookByClass => it.class() == Class::Taken,
            Miscount::TookUnlessUndone => it.c.has_landed(applied) && !it.r.has_landed(applied),
            _ => it.c.has_landed(applied),
        }
    }

    pub fn undone(self, state: &State, it: &Transaction) -> bool {
        match self {
            Miscount::Undone(landing) => landing.has_landed(state, &it.r, &it.c),
            Miscount::UndoneByClass => it.class() == Class::Undone,
            Miscount::UndoneByPhase => it.phase == Phase::Rollback,
            _ => it.r.has_landed(state.applied.ordinal),
        }
    }

    /// As `Tally::add`, packed, with this in it.
    pub fn add(self, state: Option<&State>, asked: &mut Tally) -> u64 {
        let row = state.map(|state| self.row(state));
        let Some(totals) = self.ranged(asked) else {
            return self.out_of_range(row, asked);
        };
        let Some(row) = row else {
            match self {
                Miscount::DamagedAdds => self.store(asked, totals, Counts::from([1, 0, 0, 0, 0, 0])),
                Miscount::DamagedClears => asked.totals.fill(0),
                _ => {}
            }
            return Refusal::NotWellFormed.number().into();
        };
        self.store(asked, totals, row.counts);
        let mut shown = row;
        if self == Miscount::PackedBackwards {
            shown.counts.reverse();
        }
        packed(Ok(shown))
    }

    /// The totals, where they and the place are taken.
    fn ranged(self, asked: &Tally) -> Option<Counts> {
        let logs = match self {
            Miscount::Log0Taken => 0..=LOGS as u64,
            Miscount::Log64Refused => 1..=LOGS as u64 - 1,
            Miscount::Log65Taken => 1..=LOGS as u64 + 1,
            _ => 1..=LOGS as u64,
        };
        let lengths = match self {
            Miscount::ShorterTaken => 0..=TOTALS,
            Miscount::LongerTaken => TOTALS..=usize::MAX,
            _ => TOTALS..=TOTALS,
        };
        if !logs.contains(&asked.log) || !lengths.contains(&asked.totals.len()) {
            return None;
        }
        let mut whole = asked.totals.clone();
        whole.resize(TOTALS, 0);
        let totals = Counts::from(std::array::from_fn(|place| u16_at(&whole, 2 * place)));
        self.is_within(&totals, LOG_LIMIT as u64 * asked.log.saturating_sub(1)).then_some(totals)
    }

    /// Whether no more than that limit stands in the totals.
    fn is_within(self, totals: &Counts, limit: u64) -> bool {
        let together: u64 = totals.iter().copied().map(u64::from).sum();
        match self {
            Miscount::LimitUnasked => true,
            Miscount::LimitBelow => together < limit || limit == 0 && together == 0,
            Miscount::LimitOneMore => together <= limit + 1,
            Miscount::LimitOfThis => together <= limit + LOG_LIMIT as u64,
            Miscount::LimitOfEach => totals.iter().all(|total| u64::from(*total) <= limit),
            Miscount::LimitIn16Bits => together % (1 << 16) <= limit,
            _ => together <= limit,
        }
    }

    /// A refusal by 2.
    fn out_of_range(self, row: Option<Row>, asked: &mut Tally) -> u64 {
        let refusal = Refusal::OutOfRange.number().into();
        match (self, row) {
            (Miscount::OutOfRangeAdds, Some(row)) if asked.totals.len() == TOTALS => {
                let totals = Counts::from(std::array::from_fn(|place| u16_at(&asked.totals, 2 * place)));
                self.store(asked, totals, row.counts);
            }
            (Miscount::OutOfRangeClears, _) => asked.totals.fill(0),
            (Miscount::OutOfRangeShows, Some(row)) => return packed(Ok(row)) | refusal,
            _ => {}
        }
        refusal
    }

    /// Adds to the totals, as far as there is room for them.
    fn store(self, asked: &mut Tally, totals: Counts, counts: Counts) {
        let mut sums: Counts = std::array::from_fn(|place| match self {
            Miscount::TotalsReplaced => counts[place],
            Miscount::TotalsWithoutCarry => totals[place] & 0xff00 | totals[place].wrapping_add(counts[place]) & 0xff,
            _ => totals[place].wrapping_add(counts[place]),
        });
        match self {
            Miscount::TotalsLeft => return,
            Miscount::TotalsBackwards => sums = std::array::from_fn(|place| totals[place] + counts[5 - place]),
            Miscount::TotalsBigEndian => sums = sums.map(u16::swap_bytes),
            _ => {}
        }
        let mut whole = [0; TOTALS];
        (0..).zip(sums).for_each(|(place, sum)| put_u16(&mut whole, 2 * place, sum));
        asked.totals.iter_mut().zip(whole).for_each(|(byte, sum)| *byte = sum);
    }
}

/// The paths at which two tables differ, a bit each.
fn mask_of(one: &Values, other: &Values) -> u32 {
    one.iter().zip(other).rev().fold(0, |mask, (one, other)| mask << 1 | u32::from(one != other))
}
