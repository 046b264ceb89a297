//! Order 7: who set a path. The controller keeps it beside the committed values; the whole live list says the same in every state
//! that a session reaches.

use crate::controller::{Number, Owners, Refusal, State, PATHS};

impl State {
    /// The newest live change that set the path, as it is kept. 0 where none did, or where it is folded.
    pub fn owner(&self, path: u64) -> Result<Number, Refusal> {
        let place = usize::try_from(path).map_err(|_| Refusal::OutOfRange)?;
        let owner = *self.committed.owners.get(place).ok_or(Refusal::OutOfRange)?;
        Ok(if owner <= self.folded { Number::NONE } else { owner })
    }

    /// The same of every path by reading the live list, newest first, and nothing that is kept of owners.
    pub fn owners_by_list(&self) -> Owners {
        let mut owners = [Number::NONE; PATHS];
        for number in self.live() {
            let change = self.transaction(number).expect("a live change is kept").change;
            for pair in change.pairs() {
                let owner = &mut owners[usize::from(pair.path)];
                if *owner == Number::NONE {
                    *owner = number;
                }
            }
        }
        owners
    }

    /// What well-formed asks of owners: none is past Committed's change, and a transaction remembers none that is not before it.
    pub fn has_well_formed_owners(&self) -> bool {
        self.committed.owners.iter().all(|owner| *owner <= self.committed.change)
            && self.kept().all(|(number, transaction)| transaction.r_owners.iter().all(|owner| *owner < number))
    }
}
