//! Chosen states, most of which no session reaches, and what is answered of every job from each: such that each test of a reason
//! decides alone, each two of a job's reasons hold together, and each number that is named differs from all others.

use crate::desk::{Compared, Desk};
use crate::outside::{lent, many, with_net, OPEN};
use makowist_host::controller::{Number, Ordinal, Phase, State, Status};
use makowist_host::reads::Query;
use makowist_host::why::Question;

/// How many are kept; the one asked after is the third of them.
const KEPT: usize = 5;
const ASKED: usize = 2;

/// The last folds that the kept ones follow on: none, some, and as many as leave the last number the highest.
const FOLDED: [u16; 3] = [0, 200, u16::MAX - KEPT as u16];

pub fn run(desk: &mut Desk) -> Compared<()> {
    FOLDED.into_iter().try_for_each(|folded| {
        commits(desk, folded)?;
        applies(desk, folded)
    })
}

/// Where the committed head stands, each number counted from the last fold: index, change, target, revision.
const HEADS: [[u16; 4]; 19] = [
    [0, 0, 0, 0],
    [1, 1, 0, 1],
    [1, 1, 1, 1],
    [2, 2, 2, 2],
    [2, 2, 1, 2],
    [2, 2, 3, 2],
    [2, 2, 5, 2],
    [2, 2, 1, 1],
    [3, 3, 3, 3],
    [3, 3, 2, 3],
    [3, 3, 2, 2],
    [4, 4, 4, 4],
    [4, 5, 5, 4],
    [5, 5, 4, 5],
    [5, 5, 4, 4],
    [5, 5, 3, 3],
    [5, 5, 2, 2],
    [5, 5, 1, 3],
    [1, 5, 4, 2],
];

/// Every c.commit and r.commit of the one asked after, from each head, while the others are through or one of them is not.
fn commits(desk: &mut Desk, folded: u16) -> Compared<()> {
    for (c, r) in each_two(&Status::ALL, &Status::ALL) {
        for (place, head) in HEADS.into_iter().enumerate() {
            let mut state = through(folded);
            let [index, change, target, revision] = head.map(|number| Number(folded + number));
            let committed = &mut state.committed;
            (committed.index, committed.change, committed.target, committed.revision) = (index, change, target, revision);
            state.applied.ordinal = Ordinal(3);
            let asked = &mut state.log[ASKED];
            (asked.c.commit, asked.r.commit) = (c, r);
            (asked.c.ordinal, asked.r.ordinal) = (Ordinal(7), Ordinal(8));
            let one_of = |place: usize| Status::ALL[place % Status::ALL.len()];
            (asked.c.apply, asked.r.apply) = (one_of(place + c as usize), one_of(place + 3 * r as usize));
            asked.phase = if place % 2 == 0 { Phase::Change } else { Phase::Rollback };
            asked.r_index = Number(folded + u16::from(place % 3 != 0));
            state.log[4].r.commit = Status::Complete;
            match place % 4 {
                1 => state.log[3].c.commit = Status::InProgress,
                2 => state.log[1].r.commit = Status::InProgress,
                3 => (state.log[0].c.commit, state.log[4].c.commit) = (Status::Pending, Status::InProgress),
                _ => {}
            }
            each_job(desk, &state)?;
        }
    }
    Ok(())
}

/// The applied ordinal, and the c.ordinal and r.ordinal of the one asked after.
const ORDINALS: [[u32; 3]; 11] = [
    [0, 0, 0],
    [0, 1, 2],
    [1, 2, 3],
    [1, 3, 2],
    [2, 2, 4],
    [2, 4, 2],
    [4, 3, 2],
    [5, 8, 9],
    [6, 9, 7],
    [70_000, 70_002, 70_003],
    [131_070, 131_070, 131_069],
];

/// Every c.apply and r.apply of the one asked after, for each of a few statuses of its commits and each place of its ordinals,
/// while the applied one is settled, and while it is not by a change or by a rollback.
fn applies(desk: &mut Desk, folded: u16) -> Compared<()> {
    let commits = [Status::None, Status::Pending, Status::Complete, Status::Failed];
    for (place, ((c, r), (c_apply, r_apply))) in
        each_two(&each_two(&commits, &commits), &each_two(&Status::ALL, &Status::ALL)).into_iter().enumerate()
    {
        let mut state = through(folded);
        let [applied, c_ordinal, r_ordinal] = ORDINALS[place % ORDINALS.len()];
        state.applied.ordinal = Ordinal(applied);
        state.applied.revision = Number(folded + [0, 1, 2][place % 3]);
        state.applied.target = Number(folded + [0, 3, 4, 4][place % 4]);
        let asked = &mut state.log[ASKED];
        (asked.c.commit, asked.c.apply, asked.c.ordinal) = (c, c_apply, Ordinal(c_ordinal));
        (asked.r.commit, asked.r.apply, asked.r.ordinal) = (r, r_apply, Ordinal(r_ordinal));
        asked.r_index = Number(folded + 1);
        let (other, ordinal) = (&mut state.log[1], Ordinal(applied));
        match place % 5 {
            0 => (other.c.apply, other.c.ordinal) = (Status::InProgress, ordinal),
            1 => (other.r.apply, other.r.ordinal) = (Status::InProgress, ordinal),
            _ => (other.c.apply, other.c.ordinal) = (Status::Complete, ordinal),
        }
        each_job(desk, &state)?;
    }
    Ok(())
}

fn each_job(desk: &mut Desk, state: &State) -> Compared<()> {
    let state = with_net(state, OPEN);
    let bytes = lent(desk, &state);
    let number = u64::from(state.folded.0) + 1 + ASKED as u64;
    (1..=4).try_for_each(|job| desk.query(Some(&state), &bytes, Query::Why(Question { node: 1, job, number })))
}

/// A log after that last fold, all of whose changes are through commit and apply.
fn through(folded: u16) -> State {
    let mut state = many(folded, KEPT);
    state.log.iter_mut().for_each(|it| (it.c.commit, it.c.apply) = (Status::Complete, Status::Complete));
    let last = state.highest();
    let committed = &mut state.committed;
    (committed.index, committed.change, committed.target, committed.revision) = (last, last, last, last);
    state
}

fn each_two<A: Copy, B: Copy>(some: &[A], others: &[B]) -> Vec<(A, B)> {
    some.iter().flat_map(|one| others.iter().map(|other| (*one, *other))).collect()
}
