//! Random lists of the old controller, and what makes a good one bad at one place.

use crate::controller::{LOG_LIMIT, PATHS};
use crate::import::Entry;
use crate::northbound::pairs_of;
use crate::random::Random;
use crate::requests::change;

/// The positions in a good list: of its changes that live, the newest last, of those that are undone, and of its rollbacks.
#[derive(Clone, Default, Debug)]
pub struct Positions {
    pub live: Vec<u16>,
    pub dead: Vec<u16>,
    pub rollbacks: Vec<u16>,
}

impl Positions {
    pub fn of(entries: &[Entry]) -> Positions {
        let mut positions = Positions::default();
        for (position, entry) in (1..).zip(entries) {
            match entry {
                Entry::Change { .. } => positions.live.push(position),
                _ => {
                    positions.rollbacks.push(position);
                    positions.dead.extend(positions.live.pop());
                }
            }
        }
        positions
    }
}

/// A change at random.
pub fn any_change(random: &mut Random) -> Entry {
    Entry::change(&pairs_of(&change(random)).expect("whole pairs"))
}

/// A good list of so many entries: of three, so many are changes, while there is room for them.
pub fn good(length: usize, changes_of_3: usize, random: &mut Random) -> Vec<Entry> {
    let (mut entries, mut live, mut changes) = (Vec::new(), Vec::new(), 0);
    while entries.len() < length {
        let changed = random.below(3) < changes_of_3 || live.is_empty();
        if changed && changes < LOG_LIMIT {
            changes += 1;
            entries.push(any_change(random));
            live.push(entries.len() as u16);
        } else if let Some(named) = live.pop() {
            entries.push(Entry::Rollback { named });
        } else {
            break;
        }
    }
    entries
}

/// A good list of any length, mostly a short one.
pub fn any_good(random: &mut Random) -> Vec<Entry> {
    let length = match random.below(24) {
        0 => random.one_of(&[254, 255, 256]),
        1 => random.below(257),
        _ => random.below(13),
    };
    good(length, random.between(1, 3), random)
}

/// How the entry at one place of a list is bad.
#[derive(Clone, Copy, PartialEq, Eq, Hash, Debug)]
pub enum Bad {
    /// A change of none, or of more than 4; of so many that a count of one byte would be in range.
    NoPairs,
    FivePairs,
    ManyPairs,
    WideCount,
    /// A path above 31, and one that would be in range in one byte.
    Path32,
    WidePath,
    /// Paths that do not rise.
    EqualPaths,
    FallingPaths,
    /// A rollback of a change that is undone, of a rollback, of a live change below the newest.
    NamesDead,
    NamesRollback,
    NamesOlder,
    /// Of itself, of the position behind it, of none, of one past the end of every list, of one whose lower byte is right.
    NamesItself,
    NamesLater,
    NamesNone,
    NamesPastEnd,
    NamesWide,
    /// Of neither kind: below, above, and such that one byte would be a kind.
    Kind0,
    Kind3,
    WideChange,
    WideRollback,
}

impl Bad {
    pub const ALL: [Bad; 20] = [
        Bad::NoPairs,
        Bad::FivePairs,
        Bad::ManyPairs,
        Bad::WideCount,
        Bad::Path32,
        Bad::WidePath,
        Bad::EqualPaths,
        Bad::FallingPaths,
        Bad::NamesDead,
        Bad::NamesRollback,
        Bad::NamesOlder,
        Bad::NamesItself,
        Bad::NamesLater,
        Bad::NamesNone,
        Bad::NamesPastEnd,
        Bad::NamesWide,
        Bad::Kind0,
        Bad::Kind3,
        Bad::WideChange,
        Bad::WideRollback,
    ];

    /// Whether it is bad pairs.
    pub fn is_of_pairs(self) -> bool {
        (self as usize) <= Bad::FallingPaths as usize
    }

    /// An entry that is bad in this way behind these, where there is one.
    pub fn behind(self, before: &[Entry]) -> Option<Entry> {
        let Positions { live, dead, rollbacks } = Positions::of(before);
        let itself = before.len() as u16 + 1;
        let names = |named: u16| Entry::Rollback { named };
        let pairs = [(3, 7), (4, 0), (9, 65_535), (31, 1)];
        Some(match self {
            Bad::NoPairs => Entry::change(&[]),
            Bad::FivePairs => Entry::counted(5, pairs.into_iter()),
            Bad::ManyPairs => Entry::counted(u16::MAX, pairs.into_iter()),
            Bad::WideCount => Entry::counted(256 + 4, pairs.into_iter()),
            Bad::Path32 => Entry::change(&[(3, 7), (PATHS as u16, 1)]),
            Bad::WidePath => Entry::change(&[(3, 7), (256 + 4, 1)]),
            Bad::EqualPaths => Entry::change(&[(3, 7), (4, 1), (4, 1)]),
            Bad::FallingPaths => Entry::change(&[(3, 7), (9, 1), (10, 2), (8, 1)]),
            Bad::NamesDead => names(*dead.last()?),
            Bad::NamesRollback => names(*rollbacks.last()?),
            Bad::NamesOlder => names(*live.iter().rev().nth(1)?),
            Bad::NamesItself => names(itself),
            Bad::NamesLater => names(itself + 1),
            Bad::NamesNone => names(0),
            Bad::NamesPastEnd => names(u16::MAX),
            Bad::NamesWide => names(256 + *live.last()?),
            Bad::Kind0 => Entry::Neither { kind: 0 },
            Bad::Kind3 => Entry::Neither { kind: 3 },
            Bad::WideChange => Entry::Neither { kind: 256 + 1 },
            Bad::WideRollback => Entry::Neither { kind: 512 + 2 },
        })
    }

    /// The list with its entry at that place, from 0, made bad in this way, where it can be.
    pub fn put(self, entries: &[Entry], place: usize) -> Option<Vec<Entry>> {
        let mut spoilt = entries.to_vec();
        *spoilt.get_mut(place)? = self.behind(&entries[..place])?;
        Some(spoilt)
    }
}
