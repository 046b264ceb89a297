//! An entry's four statuses in one number (order 12), taken or stored otherwise.

use crate::controller::{Number, State, Transaction};
use crate::image::{self, at, entry, entry_at, entry_at_mut, put_u16, u16_at, HIGHEST_STATUSES};

#[derive(Clone, Copy, PartialEq, Eq, Debug)]
pub enum Packing {
    /// A number of 2,401 is taken, as 2,400.
    OneAboveTaken,
    /// A number of 2,400 is refused.
    HighestRefused,
    /// Of a number above 2,400 the low byte is looked at.
    LowByteTaken,
    /// A change's commit and apply are stored in each other's place.
    ChangeSwapped,
    /// A rollback's commit and apply are stored in each other's place.
    RollbackSwapped,
    /// The rollback's two are stored in the change's place, and the change's in the rollback's.
    SidesSwapped,
    /// c.commit counts 342.
    WrongWeight,
    /// Each status counts eight times the next, not seven.
    WeightsOfEight,
}

impl Packing {
    pub const ALL: [Packing; 8] = [
        Packing::OneAboveTaken,
        Packing::HighestRefused,
        Packing::LowByteTaken,
        Packing::ChangeSwapped,
        Packing::RollbackSwapped,
        Packing::SidesSwapped,
        Packing::WrongWeight,
        Packing::WeightsOfEight,
    ];

    /// As `image::decode`, with this fault in it.
    pub fn decode(self, bytes: &[u8]) -> Option<State> {
        if bytes.len() != image::LENGTH {
            return None;
        }
        let mut taken = bytes.to_vec();
        for number in kept(bytes) {
            let statuses = u16_at(entry_at(bytes, number), entry::STATUSES);
            let read = match self {
                Packing::OneAboveTaken if statuses == HIGHEST_STATUSES + 1 => HIGHEST_STATUSES,
                Packing::HighestRefused if statuses == HIGHEST_STATUSES => HIGHEST_STATUSES + 1,
                Packing::LowByteTaken if statuses > HIGHEST_STATUSES => statuses % 256,
                _ => statuses,
            };
            put_u16(entry_at_mut(&mut taken, number), entry::STATUSES, read);
        }
        image::decode(&taken)
    }

    /// Stores the statuses of the entries that the state has otherwise, after it was stored.
    pub fn store(self, state: &State, bytes: &mut [u8]) {
        for (number, transaction) in state.kept() {
            if let Some(statuses) = self.statuses(transaction) {
                put_u16(entry_at_mut(bytes, number), entry::STATUSES, statuses);
            }
        }
    }

    fn statuses(self, transaction: &Transaction) -> Option<u16> {
        let Transaction { c, r, .. } = transaction;
        let [a, b, c, d] = [c.commit, c.apply, r.commit, r.apply].map(|status| u16::from(status.code()));
        let by = |weights: [u16; 4]| weights[0] * a + weights[1] * b + weights[2] * c + weights[3] * d;
        Some(match self {
            Packing::ChangeSwapped => by([49, 343, 7, 1]),
            Packing::RollbackSwapped => by([343, 49, 1, 7]),
            Packing::SidesSwapped => by([7, 1, 343, 49]),
            Packing::WrongWeight => by([342, 49, 7, 1]),
            Packing::WeightsOfEight => by([512, 64, 8, 1]),
            Packing::OneAboveTaken | Packing::HighestRefused | Packing::LowByteTaken => return None,
        })
    }
}

/// The numbers that an image's bytes keep, where they are no more than the ring has.
fn kept(bytes: &[u8]) -> impl Iterator<Item = Number> {
    let (folded, highest) = (u16_at(bytes, at::FOLDED), u16_at(bytes, at::HIGHEST));
    (folded..highest).take(crate::controller::LOG_LIMIT).map(|before| Number(before + 1))
}
