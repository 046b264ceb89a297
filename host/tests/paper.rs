//! The paper's own sessions, P1 to P12 and the stepper's example, on the independent controller alone.

mod common;

use common::{commit, commit_rollback, told, transaction, with_open_line, work, ACCEPTED, REJECTED};
use makowist_host::controller::{Mastership, Number, Ordinal, Refusal, State, Status, Term};
use makowist_host::lines::{read, stepped};

#[test]
fn p1_append_of_no_pairs() {
    assert_eq!(State::fresh().append(&[]), Err(Refusal::NotAChange));
}

#[test]
fn p2_path_31_and_path_32() {
    assert_eq!(State::fresh().append(&[(31, 1)]), Ok(Number(1)));
    assert_eq!(State::fresh().append(&[(32, 1)]), Err(Refusal::NotAChange));
}

#[test]
fn p3_equal_paths() {
    assert_eq!(State::fresh().append(&[(3, 1), (3, 1)]), Err(Refusal::NotAChange));
}

#[test]
fn p4_entry_128_and_the_next() {
    let mut state = State::fresh();
    for number in 1..=128 {
        assert_eq!(state.append(&[(3, 7)]), Ok(Number(number)));
    }
    assert_eq!(state.append(&[(3, 7)]), Err(Refusal::LogFull));
}

#[test]
fn p5_rollback_asked_too_early_and_twice() {
    let mut state = with_open_line();
    assert_eq!(state.rollback(1), Err(Refusal::NoSuchNumber));
    state.append(&[(3, 7)]).unwrap();
    assert_eq!(state.rollback(1), Err(Refusal::NoRollback));
    commit(&mut state, 1);
    assert_eq!(state.rollback(1), Ok(()));
    assert_eq!(state.rollback(1), Err(Refusal::NoRollback));
}

#[test]
fn p6_connect_with_the_target_stopped() {
    assert_eq!(State::fresh().connect(1), Err(Refusal::TargetStopped));
}

#[test]
fn p7_job_without_master() {
    let mut state = State::fresh();
    state.append(&[(3, 7)]).unwrap();
    assert_eq!(work(&mut state, 1, 1, ACCEPTED).reply, Err(Refusal::NotMaster));
}

#[test]
fn p8_second_change_while_the_first_is_pending() {
    let mut state = with_open_line();
    state.append(&[(3, 7)]).unwrap();
    state.append(&[(3, 9)]).unwrap();
    assert_eq!(work(&mut state, 1, 2, ACCEPTED).reply, Err(Refusal::NoRule));
}

#[test]
fn p9_rollbacks_in_their_order() {
    let mut state = with_open_line();
    state.append(&[(3, 7)]).unwrap();
    state.append(&[(3, 9)]).unwrap();
    commit(&mut state, 1);
    commit(&mut state, 2);
    assert_eq!(state.committed.values[3], 9);
    state.rollback(1).unwrap();
    assert_eq!(work(&mut state, 3, 1, ACCEPTED).reply, Err(Refusal::NoRule));
    commit_rollback(&mut state, 2);
    assert_eq!(state.committed.values[3], 7);
    assert_eq!(told(&mut state, 3, 1, ACCEPTED).0, [Status::InProgress, Status::Complete]);
    assert_eq!(state.committed.values[3], 0);
}

#[test]
fn p10_a_rejected_push_and_what_stood_on_it() {
    let mut state = with_open_line();
    state.append(&[(3, 7)]).unwrap();
    state.append(&[(3, 9)]).unwrap();
    state.append(&[(4, 1)]).unwrap();
    commit(&mut state, 1);
    commit(&mut state, 2);
    assert_eq!(told(&mut state, 2, 1, REJECTED).0, [Status::InProgress, Status::Failed]);
    assert_eq!(told(&mut state, 2, 2, ACCEPTED).0, [Status::Aborted]);
    commit_rollback(&mut state, 2);
    commit_rollback(&mut state, 1);
    commit(&mut state, 3);
    assert_eq!(told(&mut state, 4, 2, ACCEPTED).0, [Status::Canceled]);
    assert_eq!(told(&mut state, 4, 1, ACCEPTED).0, [Status::InProgress, Status::Complete]);
    assert_eq!(told(&mut state, 2, 3, ACCEPTED).0, [Status::InProgress, Status::Complete]);
    assert_eq!(transaction(&state, 2).r.apply, Status::Canceled);
    assert_eq!(transaction(&state, 1).r.apply, Status::Complete);
    assert_eq!((state.target.values[3], state.target.values[4]), (0, 1));
}

#[test]
fn p11_rolled_back_before_its_apply() {
    let mut state = with_open_line();
    state.append(&[(3, 7)]).unwrap();
    commit(&mut state, 1);
    commit_rollback(&mut state, 1);
    assert_eq!(told(&mut state, 2, 1, ACCEPTED).0, [Status::Aborted]);
    assert_eq!(told(&mut state, 4, 1, ACCEPTED).0, [Status::Canceled]);
}

#[test]
fn p12_an_invalid_change_takes_no_ordinal() {
    let mut state = with_open_line();
    state.append(&[(3, 7)]).unwrap();
    state.append(&[(3, 9)]).unwrap();
    assert_eq!(told(&mut state, 1, 1, REJECTED).0, [Status::InProgress, Status::Failed]);
    commit(&mut state, 2);
    assert_eq!(transaction(&state, 2).c.ordinal, Ordinal(1));
}

#[test]
fn a_cut_job_is_taken_up_again() {
    let mut state = with_open_line();
    state.append(&[(3, 7)]).unwrap();
    for (job, cut) in [(1, 1), (2, 2)] {
        while state.work(1, job, 1, ACCEPTED, cut).reply.is_ok() {}
    }
    let done = transaction(&state, 1).c;
    assert_eq!((done.commit, done.apply, done.ordinal), (Status::Complete, Status::Complete, Ordinal(1)));
    assert_eq!(state.target.values[3], 7);
}

#[test]
fn a_rollback_in_flight_is_no_rest() {
    let mut state = with_open_line();
    for value in 1..=3 {
        state.append(&[(3, value)]).unwrap();
    }
    commit(&mut state, 1);
    commit(&mut state, 2);
    commit_rollback(&mut state, 2);
    state.rollback(1).unwrap();
    assert!(state.work(1, 3, 1, ACCEPTED, 1).reply.is_ok());
    assert_eq!(work(&mut state, 1, 3, ACCEPTED).reply, Err(Refusal::NoRule));
}

#[test]
fn a_begun_change_fails_and_its_rollback_is_pushed() {
    let mut state = with_open_line();
    state.append(&[(3, 7)]).unwrap();
    commit(&mut state, 1);
    assert!(work(&mut state, 2, 1, ACCEPTED).reply.is_ok());
    commit_rollback(&mut state, 1);
    assert_eq!(told(&mut state, 2, 1, ACCEPTED).0, [Status::Failed]);
    assert_eq!(told(&mut state, 4, 1, REJECTED), (vec![Status::InProgress], Refusal::PushRejected));
    assert_eq!(told(&mut state, 4, 1, ACCEPTED).0, [Status::Complete]);
}

#[test]
fn the_live_list_hops_to_r_index() {
    let mut state = with_open_line();
    for value in 1..=3 {
        state.append(&[(3, value)]).unwrap();
        commit(&mut state, value.into());
    }
    assert_eq!(state.live().collect::<Vec<_>>(), [Number(3), Number(2), Number(1)]);
    commit_rollback(&mut state, 3);
    assert_eq!(state.live().collect::<Vec<_>>(), [Number(2), Number(1)]);
}

/// Order 1: the line drops while change 1 is being applied, and the node is back before anyone else asks.
#[test]
fn a_master_that_reconnected_is_freed() {
    let mut state = with_open_line();
    state.append(&[(3, 7)]).unwrap();
    commit(&mut state, 1);
    assert!(work(&mut state, 2, 1, ACCEPTED).reply.is_ok());
    assert_eq!(state.master(1), Err(Refusal::NoRule));
    state.disconnect(1).unwrap();
    state.connect(1).unwrap();
    assert_eq!(work(&mut state, 2, 1, ACCEPTED).reply, Err(Refusal::LineNotOpen));
    let stuck = state.clone();
    assert_eq!(state.master(1), Ok(()));
    assert_eq!(state, State { mastership: Mastership { master: None, ..stuck.mastership }, ..stuck });
    assert_eq!(state.master(1), Ok(()));
    assert_eq!((state.mastership.term, state.mastership.conn), (Term(2), 2));
    state.sync(1).unwrap();
    state.sync(1).unwrap();
    assert_eq!(told(&mut state, 2, 1, ACCEPTED), (vec![Status::Complete], Refusal::NoRule));
    assert_eq!(state.target.values[3], 7);
    assert_eq!(state.master(1), Err(Refusal::NoRule));
}

const EXAMPLE: &str = "\
call=append pairs=3:7
call=start
call=connect node=1
call=master node=1
call=work node=1 job=1 number=1 outcome=0 cut=0
call=work node=1 job=1 number=1 outcome=0 cut=1
call=work node=1 job=2 number=1 outcome=0 cut=0
";

const EXAMPLE_ANSWERS: &str = "\
answer=0 phase=0 stage=0 number=1 status=0
answer=0 phase=0 stage=0 number=0 status=0
answer=0 phase=0 stage=0 number=0 status=0
answer=0 phase=0 stage=0 number=0 status=0
answer=0 phase=1 stage=1 number=1 status=2
answer=0 phase=1 stage=1 number=1 status=3
answer=11 phase=0 stage=0 number=0 status=0
committed=1 committed_ordinal=1 applied=0 applied_ordinal=0
";

#[test]
fn the_steppers_example() {
    assert_eq!(stepped(EXAMPLE.as_bytes()), EXAMPLE_ANSWERS);
    assert_eq!(stepped(EXAMPLE.trim_end().as_bytes()), EXAMPLE_ANSWERS);
}

#[test]
fn what_lines_are_readable() {
    for line in [
        "call=append pairs=",
        "call=append pairs=03:007,1:65535,9:9,9:9,9:9,9:9",
        "call=connect node=0000000000000000000000000000000000000000000001",
        "call=rollback number=0",
        "call=fold number=65535",
        "call=work node=65535 job=9 number=0 outcome=7 cut=2",
    ] {
        assert!(read(line.as_bytes()).is_some(), "{line}");
    }
    for line in [
        "", " ", "call=", "start", "Call=start", "call=start ", " call=start", "call=start\r", "call=start node=1",
        "call=append", "call=append ", "call=append pairs", "call=append pairs=1", "call=append pairs=1:2,",
        "call=append pairs=,1:2", "call=append pairs=1:2:3", "call=append pairs=:1", "call=append pairs=1:65536",
        "call=append pairs=1:+2", "call=append pairs=1:2 ", "call=append pairs=1: 2", "call=connect", "call=connect node",
        "call=connect node=", "call=connect node=-1", "call=connect node=0x1", "call=connect  node=1",
        "call=connect node=65536", "call=connect node=99999999999999999999", "call=connect node=1 node=1",
        "call=connect\tnode=1", "call=work node=1 job=1 number=1 cut=0 outcome=0", "call=work node=1 job=1 number=1 outcome=0",
        "call=work node=1 job=1 number=1 outcome=0 cut=0 cut=0", "call=live", "call=fresh",
        "call=fold", "call=fold number=", "call=fold node=1", "call=fold number=1 number=1", "call=connect node=\u{663}",
    ] {
        assert!(read(line.as_bytes()).is_none(), "{line:?}");
    }
    assert!(read(b"call=start\xff").is_none());
    assert_eq!(stepped(b"").lines().count(), 1);
    assert_eq!(stepped(b"\n").lines().count(), 2);
    assert_eq!(stepped(b"\n\n").lines().count(), 3);
}
