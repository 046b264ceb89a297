//! Order 11: change by change, what the switch took of a log and what was undone; and the record of one image, in
//! lines.

use crate::controller::{Number, Ordinal, Progress, Refusal, State, Status, Transaction};
use crate::image;
use std::fmt::Display;

impl Progress {
    /// Whether the apply's Complete was told: it is Complete, or InProgress with the push that carries its ordinal made
    /// and only the status left.
    pub fn has_landed(&self, applied: Ordinal) -> bool {
        match self.apply {
            Status::Complete => true,
            Status::InProgress => self.ordinal == applied,
            _ => false,
        }
    }
}

impl State {
    /// Whether the switch took a kept change.
    pub fn took(&self, number: u64) -> Result<bool, Refusal> {
        let place = self.place(self.given(number)?)?;
        Ok(self.log[place].c.has_landed(self.applied.ordinal))
    }

    /// Whether it took the rollback of one.
    pub fn undone(&self, number: u64) -> Result<bool, Refusal> {
        let place = self.place(self.given(number)?)?;
        Ok(self.log[place].r.has_landed(self.applied.ordinal))
    }

    /// The kept changes that it took and that were not undone, rising.
    pub fn held(&self) -> impl Iterator<Item = Number> + '_ {
        let applied = self.applied.ordinal;
        let is_held = move |it: &Transaction| it.c.has_landed(applied) && !it.r.has_landed(applied);
        self.kept().filter(move |(_, it)| is_held(it)).map(|(number, _)| number)
    }
}

/// Everything that the record says of this input: one image.
pub fn record(input: &[u8]) -> String {
    let Some(state) = image::decode(input) else {
        return format!("answer={}\n", Refusal::NotWellFormed.number());
    };
    let lines: String = state.kept().map(|(number, it)| written(&state, number, it)).collect();
    lines + &folded(&state) + &held(state.held())
}

/// The line of a kept transaction.
pub fn written(state: &State, Number(number): Number, it: &Transaction) -> String {
    let applied = state.applied.ordinal;
    let (class, took, undone) = (it.class().number(), it.c.has_landed(applied), it.r.has_landed(applied));
    let pairs = joined(it.change.pairs().iter().map(|pair| format!("{}:{}", pair.path, pair.value)));
    format!("number={number} pairs={pairs} class={class} took={} undone={}\n", u8::from(took), u8::from(undone))
}

/// The line of what is folded, with the base of the paths that have one.
pub fn folded(state: &State) -> String {
    let set = state.base.iter().enumerate().filter(|(_, value)| **value != 0);
    format!("folded={} base={}\n", state.folded.0, joined(set.map(|(path, value)| format!("{path}:{value}"))))
}

/// The line of the changes that are held.
pub fn held(numbers: impl Iterator<Item = Number>) -> String {
    format!("held={}\n", joined(numbers.map(|number| number.0)))
}

pub fn joined(items: impl Iterator<Item = impl Display>) -> String {
    items.map(|item| item.to_string()).collect::<Vec<_>>().join(",")
}
