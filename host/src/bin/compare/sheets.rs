//! Order 11: what the switch took. The class of transactions, whether each was taken and undone, where the values
//! differ, and logs that are added to lent totals: reply, every byte of the totals and of the image; and whole sheets,
//! whose totals are what their logs keep.

use crate::desk::{same_bytes, shown, Compared, Desk, Difference};
use makowist_host::controller::{Number, Ordinal, Progress, State, Status, Transaction, LOG_LIMIT, PATHS};
use makowist_host::peer;
use makowist_host::reads::Query;
use makowist_host::requests::{any_number, any_tally, numbers};
use makowist_host::sheet::{packed, Class, Tally, LOGS, TOTALS};

/// Up to so many kept ones all are read; of more a few.
const ALL_UP_TO: usize = 9;

/// Of how many calls of a session one is followed by all of this.
const ONE_IN: u64 = 16;

/// In which states a kind must be seen: in such as a session reaches and in others, or in others alone.
#[derive(Clone, Copy, PartialEq, Eq)]
enum Where {
    Each,
    Others,
}

macro_rules! kinds {
    ($($kind:ident $place:ident $says:literal,)*) => {
        /// What a log shows.
        #[derive(Clone, Copy, PartialEq, Eq, Debug)]
        enum Kind { $($kind),* }

        const KINDS: &[(Kind, Where, &str)] = &[$((Kind::$kind, Where::$place, $says)),*];
    };
}

kinds! {
    Open Each "an open transaction",
    Stopped Each "a stopped one",
    Invalid Each "an invalid one",
    Taken Each "a taken one",
    Undoing Each "one that is being undone",
    Undone Each "one that is undone",
    UndoneCanceled Each "an undone one whose r.apply is Canceled",
    UndoingAndTaken Each "one being undone that the rule for taken fits too",
    UndoingAndStopped Each "one being undone that the rule for stopped fits too",
    TakenAndInvalid Others "a taken one that the rule for invalid fits too",
    InvalidAndStopped Others "an invalid one that the rule for stopped fits too",
    UndoneAlone Others "an undone one that the rule for being undone does not fit",
    Took Each "one that the switch took",
    TookCut Each "one that it took, the status not yet stored",
    TookNot Each "one that is being applied and was not pushed",
    TookUndone Each "one that it took and that was undone",
    BackCut Each "an undone one, the status not yet stored",
    BackNot Each "one whose rollback is being applied and was not pushed",
    NoOrdinal Others "one that is being applied with no ordinal, and none is applied",
    DriftNone Each "a log none of whose paths differs",
    DriftOne Each "one of whose paths one differs",
    DriftSome Each "one of whose paths some differ",
    DriftAll Each "one of whose paths all differ",
    DriftFirst Each "one whose path 0 differs",
    DriftLast Each "one whose path 31 differs",
    Empty Each "one that keeps no transaction",
    Full Each "one that keeps 128",
    Folded Each "one whose front is folded",
}

/// What is wrong with a tally.
#[derive(Clone, Copy, PartialEq, Eq, Debug)]
enum Wrong {
    Log0,
    Log65,
    LogFar,
    Shorter,
    Longer,
    /// The totals are one more than the logs before can keep, or more.
    OneMore,
    Above,
}

const WRONG: [Wrong; 7] =
    [Wrong::Log0, Wrong::Log65, Wrong::LogFar, Wrong::Shorter, Wrong::Longer, Wrong::OneMore, Wrong::Above];

/// What an accepted tally shows.
const ACCEPTED: [&str; 5] =
    ["the first log", "the 64th", "totals of all that those before it keep", "a count that carries", "128 added"];

#[derive(Default)]
pub struct Seen {
    pub tallies: u64,
    /// Calls since the last that was followed.
    behind: u64,
    /// By kind, and by whether a session reaches the state: not, then so.
    kinds: [[u64; 2]; KINDS.len()],
    accepted: [u64; ACCEPTED.len()],
    /// By what alone is wrong, of images that are some, and of others.
    refused: [[u64; 2]; WRONG.len()],
    /// Those refused for the image alone.
    damaged: u64,
    /// Whole sheets, their logs, and those of them that were refused.
    sheets: u64,
    logs: [u64; 2],
}

impl Seen {
    /// Counts what a state shows, each kind once.
    fn saw(&mut self, state: &State, reached: bool) {
        let mut seen = [false; KINDS.len()];
        state.log.iter().for_each(|it| kinds_of(state, it).into_iter().for_each(|kind| seen[kind as usize] = true));
        let drifted: Vec<usize> = state.drifted().collect();
        let kind = match drifted.len() {
            0 => Kind::DriftNone,
            1 => Kind::DriftOne,
            PATHS => Kind::DriftAll,
            _ => Kind::DriftSome,
        };
        seen[kind as usize] = true;
        for (kind, is_so) in [
            (Kind::DriftFirst, drifted.first() == Some(&0)),
            (Kind::DriftLast, drifted.last() == Some(&(PATHS - 1))),
            (Kind::Empty, state.log.is_empty()),
            (Kind::Full, state.log.len() == LOG_LIMIT),
            (Kind::Folded, state.folded > Number::NONE),
        ] {
            seen[kind as usize] |= is_so;
        }
        (0..KINDS.len()).filter(|kind| seen[*kind]).for_each(|kind| self.kinds[kind][usize::from(reached)] += 1);
    }

    /// Counts a tally by its answer, and by what is wrong with it.
    fn tallied(&mut self, state: Option<&State>, asked: &Tally, answer: u64) {
        self.tallies += 1;
        match (answer, state) {
            (0, Some(state)) => {
                let totals: Vec<u64> =
                    asked.totals.chunks(2).map(|two| u64::from(two[0]) + 256 * u64::from(two[1])).collect();
                let counts = state.row().counts;
                let carries =
                    totals.iter().zip(counts).any(|(total, count)| total / 256 != (total + u64::from(count)) / 256);
                let at_limit = asked.log > 1 && totals.iter().sum::<u64>() == LOG_LIMIT as u64 * (asked.log - 1);
                let shown = [asked.log == 1, asked.log == LOGS as u64, at_limit, carries, state.log.len() == LOG_LIMIT];
                self.accepted.iter_mut().zip(shown).for_each(|(count, is_so)| *count += u64::from(is_so));
            }
            (1, None) => self.damaged += 1,
            (2, state) => {
                if let [wrong] = wrongs(asked)[..] {
                    self.refused[wrong as usize][usize::from(state.is_none())] += 1;
                }
            }
            _ => {}
        }
    }

    /// Prints every count, and answers how many are 0 that must not be.
    pub fn told(&self) -> usize {
        println!(
            "{:>12}  logs added to totals, reply, totals and image compared; {} refused for the image",
            self.tallies, self.damaged
        );
        println!("{:>12}  {:>12}  logs, in states that a session reaches, and in others", "reached", "others");
        let mut unseen =
            [self.tallies, self.damaged, self.sheets].iter().chain(&self.logs).filter(|count| **count == 0).count();
        for ((_, place, says), [others, reached]) in KINDS.iter().zip(self.kinds) {
            println!("{reached:>12}  {others:>12}  {says}");
            unseen += usize::from(others == 0) + usize::from(reached == 0 && *place == Where::Each);
        }
        for (says, count) in ACCEPTED.iter().zip(self.accepted) {
            println!("{count:>12}  logs added: {says}");
        }
        for (wrong, [good, bad]) in WRONG.iter().zip(self.refused) {
            println!("{good:>12}  {bad:>12}  logs refused by 2 for {wrong:?} alone: of an image, and of what is none");
        }
        println!("{:>12}  whole sheets; logs of theirs taken, and refused: {:?}", self.sheets, self.logs);
        unseen + self.accepted.iter().chain(self.refused.iter().flatten()).filter(|count| **count == 0).count()
    }
}

/// What a transaction shows.
fn kinds_of(state: &State, it: &Transaction) -> Vec<Kind> {
    let of_class = [Kind::Open, Kind::Stopped, Kind::Invalid, Kind::Taken, Kind::Undoing, Kind::Undone];
    let class = it.class();
    let (applied, is_taken) = (state.applied.ordinal, it.c.apply == Status::Complete);
    let is_stopped = matches!(it.c.apply, Status::Aborted | Status::Failed);
    let cut = |side: &Progress| side.apply == Status::InProgress && side.has_landed(applied);
    let waits = |side: &Progress| side.apply == Status::InProgress && !side.has_landed(applied);
    let none = it.c.apply == Status::InProgress && [it.c.ordinal, applied] == [Ordinal::NONE; 2];
    let kinds = [
        (of_class[class.place()], true),
        (Kind::UndoneCanceled, it.r.apply == Status::Canceled),
        (Kind::UndoingAndTaken, class == Class::Undoing && is_taken),
        (Kind::UndoingAndStopped, class == Class::Undoing && is_stopped),
        (Kind::TakenAndInvalid, class == Class::Taken && it.c.commit == Status::Failed),
        (Kind::InvalidAndStopped, class == Class::Invalid && is_stopped),
        (Kind::UndoneAlone, class == Class::Undone && it.r.commit == Status::None),
        (Kind::Took, it.c.has_landed(applied)),
        (Kind::TookCut, cut(&it.c)),
        (Kind::TookNot, waits(&it.c)),
        (Kind::TookUndone, it.c.has_landed(applied) && it.r.has_landed(applied)),
        (Kind::BackCut, cut(&it.r)),
        (Kind::BackNot, waits(&it.r)),
        (Kind::NoOrdinal, none),
    ];
    kinds.into_iter().filter(|(_, is_so)| *is_so).map(|(kind, _)| kind).collect()
}

/// What is wrong with a tally, whatever the image.
fn wrongs(asked: &Tally) -> Vec<Wrong> {
    let mut all = match asked.log {
        0 => vec![Wrong::Log0],
        log if log == LOGS as u64 + 1 => vec![Wrong::Log65],
        log if log > LOGS as u64 => vec![Wrong::LogFar],
        _ => Vec::new(),
    };
    match asked.totals.len() {
        0..TOTALS => all.push(Wrong::Shorter),
        TOTALS => {
            let together: u64 = asked.totals.chunks(2).map(|two| u64::from(two[0]) + 256 * u64::from(two[1])).sum();
            match together.checked_sub(LOG_LIMIT as u64 * asked.log.saturating_sub(1).min(LOGS as u64)) {
                None | Some(0) => {}
                Some(1) => all.push(Wrong::OneMore),
                Some(_) => all.push(Wrong::Above),
            }
        }
        _ => all.push(Wrong::Longer),
    }
    all
}

impl Desk {
    /// Whether there is no fault put in, or one of the sheet.
    pub fn asks_for_sheets(&self) -> bool {
        self.fault.map_or(true, |fault| fault.is_of_sheets())
    }

    /// As `sheet`, behind some of a session's calls.
    pub fn sheet_behind(&mut self, state: &State, bytes: &[u8]) -> Compared<()> {
        self.counts.sheets.behind += 1;
        if self.counts.sheets.behind % ONE_IN == 0 {
            self.sheet(Some(state), bytes)
        } else {
            Ok(())
        }
    }

    /// Compares, of bytes that have been lent, what is read of their transactions, where their values differ, and a
    /// tally at random.
    pub fn sheet(&mut self, state: Option<&State>, bytes: &[u8]) -> Compared<()> {
        if !self.asks_for_sheets() {
            return Ok(());
        }
        let asked: Vec<u64> = match state {
            Some(state) if state.log.len() <= ALL_UP_TO => numbers(state).collect(),
            Some(state) => {
                let ends = [0, state.folded.0.into(), u64::from(state.highest().0), u64::from(state.highest().0) + 1];
                ends.into_iter().chain((0..4).map(|_| any_number(state, &mut self.drawn))).collect()
            }
            None => vec![0, 1],
        };
        self.sheet_of(state, bytes, &asked)?;
        let tally = any_tally(&mut self.drawn);
        self.tally(state, bytes, &tally).map(|_| ())
    }

    /// The reads of the sheet, of these numbers.
    pub fn sheet_of(&mut self, state: Option<&State>, bytes: &[u8], asked: &[u64]) -> Compared<()> {
        let reads = asked.iter().flat_map(|number| Query::of_sheet(*number)).chain([Query::Drift]);
        reads.into_iter().try_for_each(|query| self.query(state, bytes, query))?;
        if let Some(state) = state {
            self.counts.sheets.saw(state, self.reached);
        }
        Ok(())
    }

    /// Adds lent bytes to totals, by both. Answers the totals that are left.
    pub fn tally(&mut self, state: Option<&State>, bytes: &[u8], asked: &Tally) -> Compared<Vec<u8>> {
        let mut expected = asked.clone();
        let answer = match self.fault {
            None => packed(expected.add(state)),
            Some(fault) => fault.add(state, &mut expected),
        };
        let lent_totals = self.lent_room.bytes(asked.totals.len(), self.edge);
        lent_totals.copy_from_slice(&asked.totals);
        let lent = self.lent.bytes(bytes.len(), self.edge);
        let reply = peer::tally(lent, asked.log, lent_totals);
        if reply != answer || lent_totals != expected.totals {
            let what = format!("{asked:?}\n  independent {answer:#x} {:?}\n  proved {reply:#x}", expected.totals);
            return Err(Difference::of_call(format!("{what} {lent_totals:?}\n{}", shown(bytes))));
        }
        same_bytes(bytes, lent)?;
        self.counts.read(answer);
        self.counts.sheets.tallied(state, asked, answer & 0xff);
        if let Some(state) = state {
            self.counts.wide.tallied(state, asked, answer & 0xff);
        }
        Ok(expected.totals)
    }

    /// A whole sheet: each log is added to what those before it have left. What is left in the end is what they keep,
    /// of those that were not refused; one log more is refused, and leaves it.
    pub fn whole_sheet(&mut self, logs: &[(Option<State>, Vec<u8>)]) -> Compared<()> {
        let mut totals = vec![0; TOTALS];
        let mut kept = 0;
        for (log, (state, bytes)) in (1..).zip(logs) {
            self.lend(bytes);
            totals = self.tally(state.as_ref(), bytes, &Tally { log, totals })?;
            let is_taken = state.is_some() && log <= LOGS as u64;
            kept += state.as_ref().filter(|_| is_taken).map_or(0, |state| state.log.len());
            self.counts.sheets.logs[usize::from(!is_taken)] += 1;
        }
        let together: usize = totals.chunks(2).map(|two| usize::from(two[0]) + 256 * usize::from(two[1])).sum();
        if together != kept {
            return Err(Difference::of_call(format!(
                "a sheet of {} logs: {kept} kept, {totals:?} counted",
                logs.len()
            )));
        }
        self.counts.sheets.sheets += 1;
        Ok(())
    }
}
