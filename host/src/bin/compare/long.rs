//! Long migrations: one log from fresh to the last number, folded on its way, every call compared.

use crate::desk::{Compared, Desk, MOST_ROOM};
use crate::sessions::opened;
use makowist_host::controller::{Number, Ordinal, State, LOG_LIMIT};
use makowist_host::northbound::Request;
use makowist_host::random::Random;
use makowist_host::reads::Query;
use makowist_host::requests::change;

/// A migration under way: the state and its image, which has been lent.
struct Migration<'a> {
    desk: &'a mut Desk,
    state: State,
    bytes: Vec<u8>,
}

/// Runs a migration in which one change in so many is rolled back. With each rolled back the ordinals come to their limit.
/// Answers the highest number and ordinal.
pub fn run(desk: &mut Desk, rolled_back_one_in: usize, random: &mut Random) -> Compared<(Number, Ordinal)> {
    let (state, bytes) = opened(desk, Number::NONE)?;
    let mut migration = Migration { desk, state, bytes };
    while migration.state.highest() < Number::LIMIT && !migration.desk.is_over() {
        let number = u64::from(migration.state.highest().0) + 1;
        migration.call(&Request::Append(change(random)))?;
        migration.jobs([1, 1, 2, 2], number)?;
        if random.once_in(rolled_back_one_in) {
            migration.call(&Request::Rollback(number))?;
            migration.jobs([3, 3, 4, 4], number)?;
        }
        migration.fold(random)?;
        if random.once_in(16) {
            migration.read(random)?;
        }
    }
    migration.end()?;
    let (highest, ordinal) = (migration.state.highest(), migration.state.applied.ordinal);
    desk.counts.migrations += u64::from(highest == Number::LIMIT);
    Ok((highest, ordinal))
}

impl Migration<'_> {
    fn call(&mut self, request: &Request) -> Compared<()> {
        self.desk.call(&mut self.state, &mut self.bytes, request).map(|_| ())
    }

    fn jobs(&mut self, jobs: [u64; 4], number: u64) -> Compared<()> {
        jobs.iter().try_for_each(|job| self.call(&Request::Work { node: 1, job: *job, number, outcome: 0, cut: 0 }))
    }

    /// Folds some of the kept ones where the log is full, and now and then where it is not. The last 128 stay.
    fn fold(&mut self, random: &mut Random) -> Compared<()> {
        let (kept, left) = (self.state.log.len(), usize::from(Number::LIMIT.0 - self.state.highest().0));
        let count = match left {
            0..LOG_LIMIT => return Ok(()),
            LOG_LIMIT => kept,
            _ if kept < LOG_LIMIT && !random.once_in(40) => return Ok(()),
            _ => random.between(1, kept),
        };
        self.call(&Request::Fold(u64::from(self.state.folded.0) + count as u64))
    }

    fn read(&mut self, random: &mut Random) -> Compared<()> {
        self.desk.read(Some(&self.state), &self.bytes, random.below(MOST_ROOM + 1))?;
        self.desk.sheet(Some(&self.state), &self.bytes)?;
        self.desk.query(Some(&self.state), &self.bytes, Query::any(&self.state, random))
    }

    /// No append goes further: not while 128 are kept, and not when they are folded.
    fn end(&mut self) -> Compared<()> {
        let append = Request::Append(vec![3, 0, 7, 0]);
        self.call(&append)?;
        for query in Query::all(&self.state) {
            self.desk.query(Some(&self.state), &self.bytes, query)?;
        }
        for number in [self.state.folded.0 + 1, Number::LIMIT.0].map(u64::from) {
            self.call(&Request::Fold(number))?;
            self.call(&append)?;
        }
        Ok(())
    }
}
