//! Order 6: the old controller's lists. A list is judged whole, entry by entry; then the calls that it stands for are made on a
//! fresh state.

use crate::controller::{Change, Number, Refusal, State, LOG_LIMIT, PAIR_LIMIT};
use crate::image::u16_at;
use crate::jobs::Worked;
use crate::northbound::{bytes_of, Request};

/// The most entries that a list may have.
pub const ENTRY_LIMIT: usize = 256;
/// How many bytes of a list an entry takes.
pub const ENTRY: usize = 20;
/// The kinds of entries.
pub const CHANGE: u16 = 1;
pub const ROLLBACK: u16 = 2;

/// An entry as it is lent.
#[derive(Clone, Copy, PartialEq, Eq, Hash, Debug)]
pub enum Entry {
    /// So many pairs as it says that it has, and the four for which it has places; those past its pairs are 0 here.
    Change { count: u16, pairs: [(u16, u16); PAIR_LIMIT] },
    /// The position in the list of the entry that it undoes, from 1 on.
    Rollback { named: u16 },
    /// Of neither kind.
    Neither { kind: u16 },
}

impl Entry {
    pub fn change(pairs: &[(u16, u16)]) -> Entry {
        Entry::counted(pairs.len().try_into().unwrap_or(u16::MAX), pairs.iter().copied())
    }

    /// A change that says that it has so many pairs.
    pub fn counted(count: u16, pairs: impl Iterator<Item = (u16, u16)>) -> Entry {
        let mut places = [(0, 0); PAIR_LIMIT];
        places.iter_mut().zip(pairs.take(count.into())).for_each(|(place, pair)| *place = pair);
        Entry::Change { count, pairs: places }
    }

    fn read(bytes: &[u8]) -> Entry {
        let second = u16_at(bytes, 2);
        match u16_at(bytes, 0) {
            CHANGE => Entry::counted(second, bytes[4..].chunks_exact(4).map(|four| (u16_at(four, 0), u16_at(four, 2)))),
            ROLLBACK => Entry::Rollback { named: second },
            kind => Entry::Neither { kind },
        }
    }

    /// Its bytes, 0 where they carry nothing.
    pub fn bytes(&self) -> [u8; ENTRY] {
        let (kind, second) = match *self {
            Entry::Change { count, .. } => (CHANGE, count),
            Entry::Rollback { named } => (ROLLBACK, named),
            Entry::Neither { kind } => (kind, 0),
        };
        let mut bytes = [0; ENTRY];
        let numbers = [kind, second].into_iter().chain(self.pairs().iter().flat_map(|(path, value)| [*path, *value]));
        bytes.chunks_exact_mut(2).zip(numbers).for_each(|(two, number)| two.copy_from_slice(&number.to_le_bytes()));
        bytes
    }

    /// A change's pairs, as far as it has places for them.
    pub fn pairs(&self) -> &[(u16, u16)] {
        match self {
            Entry::Change { count, pairs } => &pairs[..PAIR_LIMIT.min((*count).into())],
            _ => &[],
        }
    }

    /// Whether it is a change whose pairs are a valid one's.
    pub fn is_valid_change(&self) -> bool {
        match self {
            Entry::Change { count, .. } if usize::from(*count) > PAIR_LIMIT => false,
            _ => Change::new(self.pairs().iter().copied()).is_some(),
        }
    }
}

/// The bytes to lend for these entries.
pub fn listed(entries: &[Entry]) -> Vec<u8> {
    entries.iter().flat_map(Entry::bytes).collect()
}

/// Why a list is refused, and the position of the entry for which it is: 0 where it is the list itself.
#[derive(Clone, Copy, PartialEq, Eq, Debug)]
pub struct Refused {
    pub refusal: Refusal,
    pub position: u16,
}

impl Refused {
    /// The reply as one number: the answer, and in the upper half the position.
    pub fn packed(self) -> u64 {
        u64::from(self.refusal.number()) | u64::from(self.position) << 32
    }
}

/// The entries in a list's bytes, where they are whole and not too many.
pub fn entries(bytes: &[u8]) -> Result<Vec<Entry>, Refused> {
    if bytes.len() % ENTRY != 0 || bytes.len() > ENTRY * ENTRY_LIMIT {
        return Err(Refused { refusal: Refusal::OutOfRange, position: 0 });
    }
    Ok(bytes.chunks_exact(ENTRY).map(Entry::read).collect())
}

/// Looks for the first entry that is not as it must be.
pub fn judge(entries: &[Entry]) -> Result<(), Refused> {
    let (mut changes, mut live) = (0, Vec::new());
    for (position, entry) in (1..).zip(entries) {
        let refused = |refusal: Refusal| Err(Refused { refusal, position });
        match entry {
            Entry::Change { .. } if !entry.is_valid_change() => return refused(Refusal::NotAChange),
            Entry::Change { .. } if changes == LOG_LIMIT => return refused(Refusal::LogFull),
            Entry::Change { .. } => {
                changes += 1;
                live.push(position);
            }
            Entry::Rollback { named } if live.last() == Some(named) => {
                live.pop();
            }
            Entry::Rollback { .. } | Entry::Neither { .. } => return refused(Refusal::NotTheNewest),
        }
    }
    Ok(())
}

/// The calls that a good list stands for, from fresh.
pub fn calls(entries: &[Entry]) -> Vec<Request> {
    let mut calls = vec![Request::Fresh(0), Request::Start, Request::Connect(1), Request::Master(1)];
    let (mut numbers, mut changes) = (Vec::new(), 0);
    for entry in entries {
        let (call, job, number) = match entry {
            Entry::Change { .. } => {
                changes += 1;
                (Request::Append(bytes_of(entry.pairs())), 1, changes)
            }
            Entry::Rollback { named } => {
                let number = numbers[usize::from(*named) - 1];
                (Request::Rollback(number), 3, number)
            }
            Entry::Neither { kind } => unreachable!("an entry of kind {kind}"),
        };
        let work = Request::Work { node: 1, job, number, outcome: 0, cut: 0 };
        calls.extend([call, work.clone(), work]);
        numbers.push(number);
    }
    calls
}

impl State {
    /// The state that the calls of a list reach, where the list is one.
    pub fn imported(bytes: &[u8]) -> Result<State, Refused> {
        let entries = entries(bytes)?;
        judge(&entries)?;
        let mut state = State::ready();
        let mut numbers = Vec::new();
        for entry in &entries {
            numbers.push(state.enter(entry, &numbers));
        }
        Ok(state)
    }

    /// A fresh controller whose target, which forgets, runs, with node 1 connected and master.
    pub fn ready() -> State {
        let mut state = State::fresh();
        state.start().and_then(|()| state.connect(1)).and_then(|()| state.master(1)).expect("a fresh controller");
        state
    }

    /// Makes the calls of an entry of a list that has been judged. `numbers` are those of the changes, by their positions; answers
    /// the number of the change that is made, or undone.
    fn enter(&mut self, entry: &Entry, numbers: &[Number]) -> Number {
        let (job, number) = match entry {
            Entry::Change { .. } => (1, self.append(entry.pairs()).expect("a valid change, and room")),
            Entry::Rollback { named } => {
                let number = numbers[usize::from(*named) - 1];
                self.rollback(number.0.into()).expect("a committed change");
                (3, number)
            }
            Entry::Neither { kind } => unreachable!("an entry of kind {kind}"),
        };
        self.commit(job, number);
        number
    }

    /// A commit by node 1 from its beginning to its end.
    pub fn commit(&mut self, job: u64, number: Number) {
        for _ in 0..2 {
            let Worked { reply, .. } = self.work(1, job, number.0.into(), 0, 0);
            reply.expect("a commit that nothing stands against");
        }
    }
}
