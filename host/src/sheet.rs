//! Order 11: what the switches took. The class of each kept transaction, by its rule; the row of a log, how many are in
//! each class and where the committed values differ from the applied; a log added to a lent record of totals; and the
//! whole sheet, for any bytes.

use crate::controller::{Refusal, State, Status, Transaction, LOG_LIMIT, PATHS};
use crate::image::{self, put_u16, u16_at, LENGTH};

/// The most logs of a sheet.
pub const LOGS: usize = 64;

#[derive(Clone, Copy, PartialEq, Eq, Hash, Debug)]
pub enum Class {
    Open = 1,
    Stopped,
    Invalid,
    Taken,
    Undoing,
    Undone,
}

impl Class {
    /// In the order of their numbers, which is that of a line's keys.
    pub const ALL: [Class; 6] =
        [Class::Open, Class::Stopped, Class::Invalid, Class::Taken, Class::Undoing, Class::Undone];

    pub fn number(self) -> u8 {
        self as u8
    }

    /// Where it stands among the classes, from 0.
    pub fn place(self) -> usize {
        self as usize - 1
    }

    fn key(self) -> &'static str {
        match self {
            Class::Open => "open",
            Class::Stopped => "stopped",
            Class::Invalid => "invalid",
            Class::Taken => "taken",
            Class::Undoing => "undoing",
            Class::Undone => "undone",
        }
    }
}

/// How many transactions are in each class.
pub type Counts = [u16; Class::ALL.len()];

/// The bytes of a lent record of totals: two for each class.
pub const TOTALS: usize = 2 * Class::ALL.len();

impl Transaction {
    /// The class, by the first rule that fits.
    pub fn class(&self) -> Class {
        if matches!(self.r.apply, Status::Complete | Status::Canceled) {
            Class::Undone
        } else if self.r.commit != Status::None {
            Class::Undoing
        } else if self.c.apply == Status::Complete {
            Class::Taken
        } else if self.c.commit == Status::Failed {
            Class::Invalid
        } else if matches!(self.c.apply, Status::Aborted | Status::Failed) {
            Class::Stopped
        } else {
            Class::Open
        }
    }
}

/// What the sheet says of a log that is not refused.
#[derive(Clone, Copy, PartialEq, Eq, Debug)]
pub struct Row {
    pub counts: Counts,
    /// Bit p for path p, where it differs.
    pub mask: u32,
    /// How many paths differ.
    pub drift: u8,
}

impl State {
    /// The class of a kept transaction.
    pub fn class(&self, number: u64) -> Result<Class, Refusal> {
        Ok(self.log[self.place(self.given(number)?)?].class())
    }

    /// The paths at which the committed and the applied value are not the same.
    pub fn drifted(&self) -> impl Iterator<Item = usize> + '_ {
        (0..PATHS).filter(|path| self.committed.values[*path] != self.applied.values[*path])
    }

    pub fn row(&self) -> Row {
        let mut counts = Counts::default();
        self.log.iter().for_each(|it| counts[it.class().place()] += 1);
        let mask = self.drifted().map(|path| 1 << path).sum();
        Row { counts, mask, drift: self.drifted().count() as u8 }
    }
}

/// A log that is to be added to totals, as the C interface is asked: its place on the sheet, from 1, and what is lent.
#[derive(Clone, PartialEq, Eq, Hash, Debug)]
pub struct Tally {
    pub log: u64,
    pub totals: Vec<u8>,
}

impl Tally {
    /// The totals, where place and record are such as a sheet has: none exceeds what so many logs before this one can
    /// keep.
    pub fn ranged(&self) -> Option<Counts> {
        if !(1..=LOGS as u64).contains(&self.log) || self.totals.len() != TOTALS {
            return None;
        }
        let totals: Counts = std::array::from_fn(|place| u16_at(&self.totals, 2 * place));
        let together: u64 = totals.iter().copied().map(u64::from).sum();
        (together <= LOG_LIMIT as u64 * (self.log - 1)).then_some(totals)
    }

    /// Adds the row of a log, where its image decodes to a state, to the totals. Refused, it leaves them.
    pub fn add(&mut self, state: Option<&State>) -> Result<Row, Refusal> {
        let totals = self.ranged().ok_or(Refusal::OutOfRange)?;
        let row = state.ok_or(Refusal::NotWellFormed)?.row();
        self.store(&added(&totals, &row.counts));
        Ok(row)
    }

    pub fn store(&mut self, totals: &Counts) {
        for (place, total) in totals.iter().enumerate() {
            put_u16(&mut self.totals, 2 * place, *total);
        }
    }
}

fn added(totals: &Counts, counts: &Counts) -> Counts {
    std::array::from_fn(|place| totals[place] + counts[place])
}

/// The reply as one number: answer, the six counts, and how many paths differ, a byte each from the lowest up.
pub fn packed(added: Result<Row, Refusal>) -> u64 {
    let Row { counts, drift, .. } = match added {
        Ok(row) => row,
        Err(refusal) => return refusal.number().into(),
    };
    let bytes = [&[0], counts.map(|count| count as u8).as_slice(), &[drift]].concat();
    u64::from_le_bytes(bytes.try_into().expect("eight bytes"))
}

/// Everything that the sheet says of this input: images one after another.
pub fn sheet(input: &[u8]) -> String {
    let mut totals = Counts::default();
    let mut text = String::new();
    for (log, bytes) in (1..).zip(input.chunks(LENGTH)) {
        if log > LOGS {
            text.push_str(&refused(log, Refusal::OutOfRange));
            break;
        }
        match image::decode(bytes).map(|state| state.row()) {
            Some(row) => {
                totals = added(&totals, &row.counts);
                text.push_str(&written(log, &row));
            }
            None => text.push_str(&refused(log, Refusal::NotWellFormed)),
        }
    }
    text + &counted(&totals) + "\n"
}

/// The line of a log.
pub fn written(log: usize, row: &Row) -> String {
    format!("log={log} {} mask={} drift={}\n", counted(&row.counts), row.mask, row.drift)
}

/// The line of a log that is refused.
pub fn refused(log: usize, refusal: Refusal) -> String {
    format!("log={log} answer={}\n", refusal.number())
}

/// Counts under their keys.
pub fn counted(counts: &Counts) -> String {
    Class::ALL.map(|class| format!("{}={}", class.key(), counts[class.place()])).join(" ")
}
