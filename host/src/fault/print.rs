//! Wrong copies of the texts of order 11, the handover sheet and the record of one image, to show that the inputs which
//! the programs are held to tell them from the right ones.

use crate::controller::{Number, Refusal, State, PATHS};
use crate::fault::sheet::Miscount;
use crate::image::{self, LENGTH};
use crate::record;
use crate::sheet::{counted, refused, written, Class, Counts, Row, LOGS};

#[derive(Clone, Copy, PartialEq, Eq, Debug)]
pub enum Misprint {
    /// In the sheet, or in the record, that stands wrong.
    Sheet(Miscount),
    Record(Miscount),
    // ---- which logs the sheet has
    /// Logs are counted from 0.
    LogsFromZero,
    /// A last piece that is shorter than an image is passed over, or filled up with zeros, or stands for a log as the
    /// one before it.
    ShortPassedOver,
    ShortFilled,
    ShortIsTheLast,
    /// An empty input is a bad log.
    EmptyIsALog,
    /// A bad log ends the sheet; has counts in its line, all 0; is counted as an open one; is not counted as a place.
    BadLogEnds,
    BadLogShown,
    BadLogCounted,
    BadLogPassedOver,
    /// The 64th log is refused, or the 65th is taken; its line is left out, all of it, or where it is shorter than an
    /// image; a line is written for each log behind it too; no totals are written behind it; it is judged by 1 where it
    /// is bad.
    The64thRefused,
    The65thTaken,
    The65thUnsaid,
    TheShort65thUnsaid,
    ReadsOn,
    The65thIsTheEnd,
    TheBad65thIs1,
    // ---- how the sheet is written
    MaskHexadecimal,
    MaskSigned,
    DriftLeftOut,
    KeysSwapped,
    TotalsOfTheLast,
    TotalsWithLog,
    TotalsLeftOut,
    // ---- how the record is written
    /// Of bytes that are more than an image the first are taken; of no image nothing is said.
    MoreTaken,
    NoImageUnsaid,
    NewestFirst,
    NumbersFrom1,
    /// Pairs that delete are left out, and all pairs but the first.
    DeletesLeftOut,
    FirstPairAlone,
    FoldedIsNext,
    /// Absent base values are written too; the base falls; its key is left out where there is none.
    BaseWithAbsent,
    BaseFalling,
    BaseUnsaid,
    /// Held is the live list, the class taken, or all that was taken, undone or not; it falls; its line is left out
    /// where there is none.
    HeldIsLive,
    HeldIsTaken,
    HeldWithUndone,
    HeldFalling,
    HeldUnsaid,
}

impl Misprint {
    pub fn all() -> Vec<Misprint> {
        use Misprint::*;
        let mut all: Vec<Misprint> = Miscount::of_rows().into_iter().map(Sheet).collect();
        all.extend(Miscount::of_lines().into_iter().map(Record));
        all.extend([LogsFromZero, ShortPassedOver, ShortFilled, ShortIsTheLast, EmptyIsALog]);
        all.extend([BadLogEnds, BadLogShown, BadLogCounted, BadLogPassedOver]);
        all.extend([
            The64thRefused,
            The65thTaken,
            The65thUnsaid,
            TheShort65thUnsaid,
            ReadsOn,
            The65thIsTheEnd,
            TheBad65thIs1,
        ]);
        all.extend([
            MaskHexadecimal,
            MaskSigned,
            DriftLeftOut,
            KeysSwapped,
            TotalsOfTheLast,
            TotalsWithLog,
            TotalsLeftOut,
        ]);
        all.extend([MoreTaken, NoImageUnsaid, NewestFirst, NumbersFrom1, DeletesLeftOut, FirstPairAlone, FoldedIsNext]);
        all.extend([BaseWithAbsent, BaseFalling, BaseUnsaid]);
        all.extend([HeldIsLive, HeldIsTaken, HeldWithUndone, HeldFalling, HeldUnsaid]);
        all
    }

    /// As `sheet::sheet`, with this in it.
    pub fn sheet(self, input: &[u8]) -> String {
        let (mut totals, mut last) = (Counts::default(), Counts::default());
        let mut text = String::new();
        let pieces = self.pieces(input);
        for (log, bytes) in (1..).zip(&pieces) {
            if log > self.most() {
                text.push_str(&self.past_the_last(log, bytes));
                match self {
                    Misprint::The65thIsTheEnd => return text,
                    Misprint::ReadsOn => continue,
                    _ => break,
                }
            }
            let row = self.row(bytes);
            last = row.map_or([0; 6], |row| row.counts);
            (0..6).for_each(|place| totals[place] += last[place]);
            text.push_str(&self.line(log, row));
            match (self, row) {
                (Misprint::BadLogEnds, None) => break,
                (Misprint::BadLogCounted, None) => totals[0] += 1,
                _ => {}
            }
        }
        text + &self.totals(pieces.len(), if self == Misprint::TotalsOfTheLast { &last } else { &totals })
    }

    fn most(self) -> usize {
        match self {
            Misprint::The64thRefused => LOGS - 1,
            Misprint::The65thTaken => LOGS + 1,
            _ => LOGS,
        }
    }

    /// What each log is read from.
    fn pieces(self, input: &[u8]) -> Vec<Vec<u8>> {
        let mut pieces: Vec<Vec<u8>> = input.chunks(LENGTH).map(<[u8]>::to_vec).collect();
        let is_short = pieces.last().is_some_and(|last| last.len() < LENGTH);
        match self {
            Misprint::EmptyIsALog if pieces.is_empty() => pieces.push(Vec::new()),
            Misprint::BadLogPassedOver => pieces.retain(|bytes| image::decode(bytes).is_some()),
            Misprint::ShortPassedOver if is_short => pieces.truncate(pieces.len() - 1),
            Misprint::ShortFilled => pieces.iter_mut().for_each(|bytes| bytes.resize(LENGTH, 0)),
            Misprint::ShortIsTheLast if is_short && pieces.len() > 1 => {
                let place = pieces.len() - 1;
                pieces[place] = pieces[place - 1].clone();
            }
            _ => {}
        }
        pieces
    }

    /// What is said of the 65th log.
    fn past_the_last(self, log: usize, bytes: &[u8]) -> String {
        match self {
            Misprint::The65thUnsaid => String::new(),
            Misprint::TheShort65thUnsaid if bytes.len() < LENGTH => String::new(),
            Misprint::TheBad65thIs1 if image::decode(bytes).is_none() => refused(log, Refusal::NotWellFormed),
            _ => refused(log, Refusal::OutOfRange),
        }
    }

    fn row(self, bytes: &[u8]) -> Option<Row> {
        let state = image::decode(bytes)?;
        Some(match self {
            Misprint::Sheet(miscount) => miscount.row(&state),
            _ => state.row(),
        })
    }

    fn line(self, log: usize, row: Option<Row>) -> String {
        let log = if self == Misprint::LogsFromZero { log - 1 } else { log };
        let Some(row) = row else {
            let none = Row { counts: [0; 6], mask: 0, drift: 0 };
            return match self {
                Misprint::BadLogShown => written(log, &none).replace('\n', " answer=1\n"),
                _ => refused(log, Refusal::NotWellFormed),
            };
        };
        let right = written(log, &row);
        let mask = format!("mask={} ", row.mask);
        match self {
            Misprint::MaskHexadecimal => right.replace(&mask, &format!("mask={:x} ", row.mask)),
            Misprint::MaskSigned => right.replace(&mask, &format!("mask={} ", row.mask as i32)),
            Misprint::DriftLeftOut => right.replace(&format!(" drift={}", row.drift), ""),
            Misprint::KeysSwapped => right.replace("undoing", "?").replace("undone", "undoing").replace('?', "undone"),
            _ => right,
        }
    }

    fn totals(self, logs: usize, totals: &Counts) -> String {
        match self {
            Misprint::TotalsLeftOut => String::new(),
            Misprint::TotalsWithLog => format!("log={logs} {}\n", counted(totals)),
            _ => format!("{}\n", counted(totals)),
        }
    }

    /// As `record::record`, with this in it.
    pub fn record(self, input: &[u8]) -> String {
        let bytes = match self {
            Misprint::MoreTaken => &input[..input.len().min(LENGTH)],
            _ => input,
        };
        let Some(state) = image::decode(bytes) else {
            return if self == Misprint::NoImageUnsaid { String::new() } else { record::record(&[]) };
        };
        let mut lines: Vec<String> = state.kept().map(|(number, _)| self.change(&state, number)).collect();
        if self == Misprint::NewestFirst {
            lines.reverse();
        }
        lines.concat() + &self.folded(&state) + &self.held(&state)
    }

    fn change(self, state: &State, number: Number) -> String {
        let it = state.transaction(number).expect("a kept number");
        let right = record::written(state, number, it);
        let pairs = it.change.pairs();
        let shown = |pairs: &[_]| format!("pairs={} ", record::joined(pairs.iter()));
        let texts: Vec<String> = pairs.iter().map(|pair| format!("{}:{}", pair.path, pair.value)).collect();
        let setting: Vec<String> = texts.iter().filter(|text| !text.ends_with(":0")).cloned().collect();
        match self {
            Misprint::NumbersFrom1 => {
                right.replace(&format!("number={} ", number.0), &format!("number={} ", number.0 - state.folded.0))
            }
            Misprint::DeletesLeftOut => right.replace(&shown(&texts), &shown(&setting)),
            Misprint::FirstPairAlone => right.replace(&shown(&texts), &shown(&texts[..1])),
            Misprint::Record(miscount) => {
                let (class, took) = (miscount.class(state, it), u8::from(miscount.took(state, it)));
                let undone = u8::from(miscount.undone(state, it));
                format!("number={} {}class={class} took={took} undone={undone}\n", number.0, shown(&texts))
            }
            _ => right,
        }
    }

    fn folded(self, state: &State) -> String {
        let right = record::folded(state);
        let mut base: Vec<(usize, u16)> = (0..PATHS).zip(state.base).collect();
        base.retain(|(_, value)| self == Misprint::BaseWithAbsent || *value != 0);
        let shown = |base: &[(usize, u16)]| record::joined(base.iter().map(|(path, value)| format!("{path}:{value}")));
        match self {
            Misprint::FoldedIsNext => {
                right.replace(&format!("folded={} ", state.folded.0), &format!("folded={} ", state.folded.0 + 1))
            }
            Misprint::BaseWithAbsent => format!("folded={} base={}\n", state.folded.0, shown(&base)),
            Misprint::BaseFalling => {
                base.reverse();
                format!("folded={} base={}\n", state.folded.0, shown(&base))
            }
            Misprint::BaseUnsaid => right.replace(" base=\n", "\n"),
            _ => right,
        }
    }

    fn held(self, state: &State) -> String {
        let of_kept = |is_it: &dyn Fn(Number) -> bool| {
            state.kept().map(|(number, _)| number).filter(|each| is_it(*each)).collect()
        };
        let numbers: Vec<Number> = match self {
            Misprint::HeldIsLive => of_kept(&|number| state.live().any(|live| live == number)),
            Misprint::HeldIsTaken => of_kept(&|number| state.class(number.0.into()) == Ok(Class::Taken)),
            Misprint::HeldWithUndone => of_kept(&|number| state.took(number.0.into()) == Ok(true)),
            Misprint::HeldFalling => state.held().collect::<Vec<_>>().into_iter().rev().collect(),
            Misprint::HeldUnsaid if state.held().next().is_none() => return String::new(),
            Misprint::Record(miscount) => of_kept(&|number| {
                let it = state.transaction(number).expect("a kept number");
                miscount.took(state, it) && !miscount.undone(state, it)
            }),
            _ => state.held().collect(),
        };
        record::held(numbers.into_iter())
    }
}
