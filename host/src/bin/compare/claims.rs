//! Order 7 where it is chosen to show: sessions in which every store of an owner does, what is remembered and brought back, and what
//! a fold hides; states that no session reaches; and images at the edges of what well-formed asks of owners.

use crate::desk::{Compared, Desk};
use crate::outside::{lent, many, with_net, OPEN};
use crate::sessions::opened;
use makowist_host::controller::{Change, Number, Phase, State, Status, PAIR_LIMIT, PATHS};
use makowist_host::guarded::Edge;
use makowist_host::image::{at, entry, put_u16, slot, ENTRY};
use makowist_host::northbound::{bytes_of, Request};
use makowist_host::reads::Query;

/// The last folds that the sessions follow on.
const FOLDED: [Number; 3] = [Number::NONE, Number(127), Number(65_500)];

pub fn run(desk: &mut Desk) -> Compared<()> {
    desk.reached = true;
    for (folded, cut) in FOLDED.into_iter().flat_map(|folded| [(folded, 0), (folded, 1)]) {
        desk.edge = if cut == 0 { Edge::End } else { Edge::Begin };
        session(desk, folded, cut)?;
    }
    desk.reached = false;
    strange(desk)?;
    [0, 200, 65_532].into_iter().try_for_each(|folded| images(desk, folded))?;
    desk.edge = Edge::End;
    Ok(())
}

/// A session on numbers that are counted from its last fold.
struct Session<'a> {
    desk: &'a mut Desk,
    state: State,
    bytes: Vec<u8>,
    folded: u64,
    /// With which the commits are made.
    cut: u64,
}

impl Session<'_> {
    /// Makes a call, and reads every owner, and one of a path that is none.
    fn call(&mut self, request: &Request) -> Compared<bool> {
        let served = self.desk.call(&mut self.state, &mut self.bytes, request)?;
        self.desk.owners(&self.state, &self.bytes)?;
        let none = [PATHS as u64, 255, 256, 65_535].map(|path| Query::Owner { path });
        none.into_iter().try_for_each(|query| self.desk.query(Some(&self.state), &self.bytes, query))?;
        Ok(served.reply.is_ok())
    }

    fn append(&mut self, pairs: &[(u16, u16)]) -> Compared<()> {
        self.call(&Request::Append(bytes_of(pairs))).map(|_| ())
    }

    /// A job to its end. An apply is not cut: cut at its first store again and again, a push would not end.
    fn job(&mut self, job: u64, number: u64, outcome: u64) -> Compared<()> {
        let cut = if job % 2 == 1 { self.cut } else { 0 };
        let work = Request::Work { node: 1, job, number: self.folded + number, outcome, cut };
        while self.call(&work)? {}
        Ok(())
    }

    fn commit(&mut self, number: u64) -> Compared<()> {
        self.job(1, number, 0)
    }

    fn undo(&mut self, number: u64) -> Compared<()> {
        self.call(&Request::Rollback(self.folded + number))?;
        self.job(3, number, 0)
    }

    fn fold(&mut self, number: u64) -> Compared<()> {
        self.call(&Request::Fold(self.folded + number)).map(|_| ())
    }
}

/// 2 sets all paths of 1 again, one by a delete and one to the value that it has; 3 is invalid; 4 is undone, then 6 and 5; 7 lives. All
/// is applied and, 1 first, folded but 7; 8 is set over what is folded, and undone.
fn session(desk: &mut Desk, folded: Number, cut: u64) -> Compared<()> {
    let (state, bytes) = opened(desk, folded)?;
    let mut session = Session { desk, state, bytes, folded: folded.0.into(), cut };
    session.append(&[(3, 7), (5, 1)])?;
    session.commit(1)?;
    session.append(&[(0, 4), (3, 0), (5, 1), (31, 9)])?;
    session.append(&[(3, 5)])?;
    session.commit(2)?;
    session.job(1, 3, 1)?;
    session.append(&[(4, 4), (5, 0), (31, 2)])?;
    session.commit(4)?;
    session.undo(4)?;
    session.append(&[(3, 6), (4, 1)])?;
    session.append(&[(3, 8)])?;
    session.commit(5)?;
    session.commit(6)?;
    session.undo(6)?;
    session.undo(5)?;
    session.append(&[(4, 1), (5, 5)])?;
    session.commit(7)?;
    for (job, number) in [(2, 1), (2, 2), (2, 4), (4, 4), (2, 5), (2, 6), (4, 6), (4, 5), (2, 7)] {
        session.job(job, number, 0)?;
    }
    session.fold(1)?;
    session.fold(6)?;
    session.append(&[(0, 1), (3, 3)])?;
    session.commit(8)?;
    session.undo(8)
}

/// Jobs from states that no session reaches: what is remembered in places past the pairs, and a rollback of what owns its path no
/// longer.
fn strange(desk: &mut Desk) -> Compared<()> {
    let mut state = with_net(&many(200, 2), OPEN);
    state.log[0].r_owners = [Number(200), Number(199), Number(198), Number(197)];
    each_cut(desk, &state, 1)?;
    state.committed.target = Number(201);
    each_cut(desk, &state, 1)?;
    state.log[0].c.commit = Status::InProgress;
    each_cut(desk, &state, 1)?;
    (state.log[0].phase, state.log[0].c.commit, state.log[0].r.commit) = (Phase::Rollback, Status::Complete, Status::InProgress);
    (state.log[0].r_index, state.committed.target) = (Number(199), Number(199));
    (state.committed.index, state.committed.change, state.committed.revision) = (Number(201), Number(201), Number(201));
    state.committed.owners = std::array::from_fn(|path| Number(150 + path as u16));
    each_cut(desk, &state, 3)
}

/// A job on the first that is kept, with each outcome and cut.
fn each_cut(desk: &mut Desk, state: &State, job: u64) -> Compared<()> {
    let bytes = lent(desk, state);
    let number = u64::from(state.folded.0) + 1;
    for (outcome, cut) in [(0, 0), (0, 1), (0, 2), (1, 0), (1, 1)] {
        desk.call_from(state, &bytes, &Request::Work { node: 1, job, number, outcome, cut })?;
    }
    Ok(())
}

/// Images of three kept after a last fold, no, one and all of them through their commit: an owner of each path, and one that each of
/// the three remembers in each place, at its limit and past it.
fn images(desk: &mut Desk, folded: u16) -> Compared<()> {
    for through in [0, 1, 3] {
        let mut state = with_net(&many(folded, 3), OPEN);
        let change = folded + through;
        state.committed.change = Number(change);
        let bytes = lent(desk, &state);
        for (path, owner) in (0..PATHS).flat_map(|path| beside(change).map(|owner| (path, owner))) {
            let mut bytes = bytes.clone();
            put_u16(&mut bytes, at::OWNERS + 2 * path, owner);
            image(desk, &bytes, path as u64)?;
        }
        for (kept, pairs) in (0..3).flat_map(|kept| (1..=PAIR_LIMIT).map(move |pairs| (kept, pairs))) {
            state.log[kept].change = Change::new((1..=pairs as u16).map(|path| (path, 7))).expect("a valid change");
            let bytes = lent(desk, &state);
            let number = folded + 1 + kept as u16;
            for (place, owner) in (0..PAIR_LIMIT).flat_map(|place| beside(number).map(|owner| (place, owner))) {
                let mut bytes = bytes.clone();
                put_u16(&mut bytes, ENTRY * slot(Number(number)) + entry::R_OWNERS + 2 * place, owner);
                image(desk, &bytes, place as u64)?;
            }
        }
    }
    Ok(())
}

/// Numbers beside one, and far from it; one whose lower byte is the same.
fn beside(number: u16) -> [u16; 6] {
    [0, number.saturating_sub(1), number, number.saturating_add(1), number.wrapping_add(256), u16::MAX]
}

/// Whether it is well-formed, who owns the path, and a call.
fn image(desk: &mut Desk, bytes: &[u8], path: u64) -> Compared<()> {
    let decoded = desk.decoded(bytes);
    desk.lend(bytes);
    desk.counts.owners.damaged(bytes);
    desk.read(decoded.as_ref(), bytes, 8)?;
    desk.query(decoded.as_ref(), bytes, Query::Owner { path })?;
    desk.call_from_bytes(decoded.as_ref(), bytes, &Request::Stop)
}
