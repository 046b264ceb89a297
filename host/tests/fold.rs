//! Order 10 on the independent controller alone: the finished front of the log is folded away.

mod common;

use common::{commit, commit_rollback, told, transaction, with_open_line, work, ACCEPTED, REJECTED};
use makowist_host::controller::{Hindrance, Number, Ordinal, Refusal, State, Status, LOG_LIMIT};
use makowist_host::image::LENGTH;
use makowist_host::lines::stepped;
use makowist_host::reads::{Query, Shown};

/// Appends a change, commits it, and applies it.
fn apply(state: &mut State, pairs: &[(u16, u16)]) -> u64 {
    let number = state.append(pairs).unwrap().0.into();
    commit(state, number);
    assert_eq!(told(state, 2, number, ACCEPTED), (vec![Status::InProgress, Status::Complete], Refusal::NoRule));
    number
}

/// Applies the rollback of a change whose rollback has been committed.
fn apply_rollback(state: &mut State, number: u64) {
    assert_eq!(told(state, 4, number, ACCEPTED), (vec![Status::InProgress, Status::Complete], Refusal::NoRule));
}

/// One step of a job by node 1, cut after its first store.
fn cut(state: &mut State, job: u64, number: u64) {
    assert!(state.work(1, job, number, ACCEPTED, 1).reply.is_ok());
}

fn live(state: &State) -> Vec<u16> {
    state.live().map(|number| number.0).collect()
}

/// The fold is refused by 17, by this alone, and nothing has changed.
fn refused_for(state: &State, number: u64, hindrance: Hindrance) {
    let given = state.given(number).unwrap();
    let found = Hindrance::ALL.into_iter().filter(|each| state.is_hindered(given, *each));
    assert_eq!(found.collect::<Vec<_>>(), [hindrance]);
    let mut after = state.clone();
    assert_eq!(after.fold(number), Err(Refusal::NotFinished));
    assert_eq!(after, *state);
}

#[test]
fn the_room_of_the_folded_serves_again() {
    let mut state = with_open_line();
    for number in 1..=LOG_LIMIT as u16 {
        assert_eq!(apply(&mut state, &[(number % 32, number)]), number.into());
    }
    assert_eq!(state.append(&[(3, 7)]), Err(Refusal::LogFull));
    assert_eq!(state.fold(100), Ok(()));
    assert_eq!((state.folded, state.highest(), state.log.len()), (Number(100), Number(128), 28));
    assert_eq!((state.base[4], state.base[5], state.base[31]), (100, 69, 95));
    for number in 129..=228 {
        assert_eq!(apply(&mut state, &[(3, number)]), number.into());
    }
    assert_eq!(state.append(&[(3, 7)]), Err(Refusal::LogFull));
    assert_eq!(live(&state), (101..=228).rev().collect::<Vec<_>>());
    assert_eq!(state.committed.ordinal, Ordinal(228));
    assert!(state.is_well_formed());
}

#[test]
fn a_rollback_onto_a_folded_change() {
    let mut state = with_open_line();
    apply(&mut state, &[(3, 7)]);
    apply(&mut state, &[(3, 9), (4, 1)]);
    state.fold(1).unwrap();
    assert_eq!((state.base[3], state.base[4]), (7, 0));
    assert_eq!(transaction(&state, 2).r_index, Number(1));
    commit_rollback(&mut state, 2);
    assert_eq!((state.committed.revision, live(&state)), (Number(1), vec![]));
    assert_eq!(state.committed.values[3..5], [7, 0]);
    apply_rollback(&mut state, 2);
    assert_eq!((state.applied.target, state.applied.revision), (Number(1), Number(1)));
    assert_eq!(state.target.values[3..5], [7, 0]);
    assert_eq!(state.fold(2), Ok(()));
    assert_eq!(state.base, state.committed.values);
    assert_eq!(apply(&mut state, &[(5, 5)]), 3);
}

/// With everything folded both marks are at or below the fold, and the commit side is at rest all the same.
#[test]
fn a_folded_mark_counts_as_done() {
    let mut state = with_open_line();
    apply(&mut state, &[(3, 7)]);
    state.fold(1).unwrap();
    assert_eq!(live(&state), []);
    assert_eq!(apply(&mut state, &[(3, 8)]), 2);
    commit_rollback(&mut state, 2);
    apply_rollback(&mut state, 2);
    state.fold(2).unwrap();
    assert_eq!((state.committed.index, state.committed.target), (Number(2), Number(1)));
    assert_eq!(apply(&mut state, &[(3, 9)]), 3);
    commit_rollback(&mut state, 3);
    assert_eq!(state.committed.values[3], 7);
}

#[test]
fn the_base_is_what_the_live_ones_set() {
    let mut state = with_open_line();
    apply(&mut state, &[(3, 7), (4, 4)]);
    apply(&mut state, &[(3, 9), (5, 5)]);
    apply(&mut state, &[(6, 6)]);
    commit_rollback(&mut state, 3);
    apply_rollback(&mut state, 3);
    state.append(&[(7, 7)]).unwrap();
    assert_eq!(told(&mut state, 1, 4, REJECTED).0, [Status::InProgress, Status::Failed]);
    apply(&mut state, &[(4, 0)]);
    state.fold(5).unwrap();
    let mut base = [0; 32];
    (base[3], base[5]) = (9, 5);
    assert_eq!((state.base, state.committed.values), (base, base));
}

#[test]
fn no_fold_while_a_commit_is_under_way() {
    let mut state = with_open_line();
    apply(&mut state, &[(3, 7)]);
    state.append(&[(3, 9)]).unwrap();
    cut(&mut state, 1, 2);
    refused_for(&state, 1, Hindrance::NotAtRest);
    assert!(work(&mut state, 1, 2, ACCEPTED).reply.is_ok());
    cut(&mut state, 1, 2);
    refused_for(&state, 1, Hindrance::NotAtRest);
    assert!(work(&mut state, 1, 2, ACCEPTED).reply.is_ok());
    assert_eq!(state.fold(1), Ok(()));
}

#[test]
fn no_fold_while_a_push_is_not_settled() {
    let mut state = with_open_line();
    apply(&mut state, &[(3, 7)]);
    state.append(&[(3, 9)]).unwrap();
    commit(&mut state, 2);
    assert!(work(&mut state, 2, 2, ACCEPTED).reply.is_ok());
    cut(&mut state, 2, 2);
    assert_eq!(state.clone().fold(1), Err(Refusal::NotFinished));
    assert!(state.work(1, 2, 2, ACCEPTED, 2).reply.is_ok());
    refused_for(&state, 1, Hindrance::NotSettled);
    assert!(work(&mut state, 2, 2, ACCEPTED).reply.is_ok());
    assert_eq!(state.fold(2), Ok(()));
}

/// An end whose closing store was cut away: Aborted, then Canceled.
#[test]
fn no_fold_before_a_closing_store() {
    let mut state = with_open_line();
    apply(&mut state, &[(3, 7)]);
    state.append(&[(3, 9)]).unwrap();
    commit(&mut state, 2);
    commit_rollback(&mut state, 2);
    for (job, status) in [(2, Status::Aborted), (4, Status::Canceled)] {
        cut(&mut state, job, 2);
        let transaction = transaction(&state, 2);
        assert_eq!(if job == 2 { transaction.c.apply } else { transaction.r.apply }, status);
        refused_for(&state, 1, Hindrance::NextBegun);
        assert!(work(&mut state, job, 2, ACCEPTED).reply.is_ok());
        assert_eq!(state.clone().fold(1), Ok(()));
    }
    assert_eq!(state.fold(2), Ok(()));
}

#[test]
fn no_fold_once_the_applied_target_has_moved() {
    let mut state = with_open_line();
    apply(&mut state, &[(3, 7)]);
    state.append(&[(3, 9)]).unwrap();
    commit(&mut state, 2);
    assert_eq!(state.clone().fold(1), Ok(()));
    cut(&mut state, 2, 2);
    refused_for(&state, 1, Hindrance::TargetMoved);
    assert_eq!(told(&mut state, 2, 2, ACCEPTED).0, [Status::Complete]);
    commit_rollback(&mut state, 2);
    cut(&mut state, 4, 2);
    refused_for(&state, 1, Hindrance::TargetMoved);
    assert_eq!(told(&mut state, 4, 2, ACCEPTED).0, [Status::Complete]);
    assert_eq!(state.fold(2), Ok(()));
}

#[test]
fn no_fold_of_what_is_not_finished() {
    let mut state = with_open_line();
    state.append(&[(3, 7)]).unwrap();
    refused_for(&state, 1, Hindrance::Unfinished);
    commit(&mut state, 1);
    refused_for(&state, 1, Hindrance::Unfinished);
    assert_eq!(told(&mut state, 2, 1, REJECTED).0, [Status::InProgress, Status::Failed]);
    refused_for(&state, 1, Hindrance::Unfinished);
    state.rollback(1).unwrap();
    refused_for(&state, 1, Hindrance::Unfinished);
    assert_eq!(told(&mut state, 3, 1, ACCEPTED).0, [Status::InProgress, Status::Complete]);
    refused_for(&state, 1, Hindrance::Unfinished);
    apply_rollback(&mut state, 1);
    apply(&mut state, &[(3, 9)]);
    state.rollback(2).unwrap();
    refused_for(&state, 2, Hindrance::Unfinished);
    assert_eq!(state.fold(1), Ok(()));
}

#[test]
fn numbers_that_cannot_be_folded() {
    let mut state = with_open_line();
    assert_eq!(state.fold(0), Err(Refusal::NoSuchNumber));
    assert_eq!(state.fold(1), Err(Refusal::NoSuchNumber));
    apply(&mut state, &[(3, 7)]);
    apply(&mut state, &[(3, 9)]);
    state.append(&[(3, 1)]).unwrap();
    state.fold(2).unwrap();
    for number in [0, 1, 2, 4, 65535] {
        assert_eq!(state.fold(number), Err(Refusal::NoSuchNumber), "{number}");
    }
    assert_eq!(state.fold(3), Err(Refusal::NotFinished));
}

/// 18 stands straight after 5, before every later refusal.
#[test]
fn a_folded_number_in_another_call() {
    let mut state = with_open_line();
    apply(&mut state, &[(3, 7)]);
    apply(&mut state, &[(3, 9)]);
    state.fold(1).unwrap();
    assert_eq!(state.rollback(1), Err(Refusal::Folded));
    for job in 1..=4 {
        assert_eq!(work(&mut state, job, 1, ACCEPTED).reply, Err(Refusal::Folded));
        assert_eq!(state.work(2, job, 1, ACCEPTED, 0).reply, Err(Refusal::Folded));
    }
    assert_eq!(state.work(9, 1, 1, ACCEPTED, 0).reply, Err(Refusal::OutOfRange));
    assert_eq!(state.work(2, 1, 0, ACCEPTED, 0).reply, Err(Refusal::NoSuchNumber));
    assert_eq!(state.work(2, 1, 3, ACCEPTED, 0).reply, Err(Refusal::NoSuchNumber));
    let read = |number, field| Query::Transaction { number, field }.read(&state, &[0; LENGTH]);
    assert_eq!(read(1, 1), Err(Refusal::Folded));
    assert_eq!(read(1, 22), Err(Refusal::OutOfRange));
    assert_eq!(read(0, 1), Err(Refusal::NoSuchNumber));
    assert_eq!(read(2, 3), Ok(Shown::Number(Status::Complete.code().into())));
}

#[test]
fn the_last_number() {
    let mut state = with_open_line();
    state.folded = Number(65_535 - 128);
    for _ in 0..128 {
        state.append(&[(3, 7)]).unwrap();
    }
    assert_eq!(state.highest(), Number::LIMIT);
    assert_eq!(state.append(&[]), Err(Refusal::NotAChange));
    assert_eq!(state.append(&[(3, 7)]), Err(Refusal::LogFull));
    state.drop_up_to(Number(65_408));
    assert_eq!(state.append(&[(3, 7)]), Err(Refusal::CounterAtLimit));
    state.drop_up_to(Number::LIMIT);
    assert_eq!(state.append(&[(3, 7)]), Err(Refusal::CounterAtLimit));
    assert!(state.is_well_formed());
}

#[test]
fn the_steppers_line() {
    let input = "call=append pairs=3:7\ncall=fold number=1\ncall=start\ncall=connect node=1\ncall=master node=1\n\
                 call=work node=1 job=1 number=1 outcome=1 cut=0\ncall=work node=1 job=1 number=1 outcome=1 cut=0\n\
                 call=fold number=1\ncall=fold number=1\ncall=rollback number=1\n";
    let answers: Vec<String> = stepped(input.as_bytes()).lines().map(str::to_string).collect();
    let answer = |number| format!("answer={number} phase=0 stage=0 number=0 status=0");
    assert_eq!((&answers[1], &answers[7]), (&answer(17), &answer(0)));
    assert_eq!((&answers[8], &answers[9]), (&answer(5), &answer(18)));
}
