//! Order 4 on the independent controller alone: why a job that answers 11 does not move.

mod common;

use common::{commit, commit_rollback, told, transaction, with_open_line, work, ACCEPTED, REJECTED};
use makowist_host::controller::{Number, Ordinal, Phase, Refusal, State, Status};
use makowist_host::lines::{questioning, read, stepped, Line};
use makowist_host::northbound::act;
use makowist_host::random::Random;
use makowist_host::requests::{numbers, sensible, wild};
use makowist_host::why::{Named, Question, Reason, Why};

/// Why node 1's job does not move.
fn why(state: &State, job: u64, number: u64) -> Result<(Reason, u32), Refusal> {
    state.why(Question { node: 1, job, number }).map(|why| (why.reason, why.named()))
}

/// The job answers 11, whatever its outcome and cut, and this is why.
fn waits(state: &State, job: u64, number: u64, reason: Reason, named: u32) {
    for (outcome, cut) in [(0, 0), (0, 1), (0, 2), (1, 0), (1, 1), (1, 2)] {
        let reply = state.clone().work(1, job, number, outcome, cut).reply;
        assert_eq!(reply, Err(Refusal::NoRule), "job {job} on {number}");
    }
    assert_eq!(why(state, job, number), Ok((reason, named)), "job {job} on {number}");
}

fn append(state: &mut State) -> u64 {
    state.append(&[(3, 7)]).unwrap().0.into()
}

fn apply(state: &mut State, number: u64) {
    assert_eq!(told(state, 2, number, ACCEPTED).0, [Status::InProgress, Status::Complete]);
}

/// One step of a job by node 1, cut after its first store.
fn cut(state: &mut State, job: u64, number: u64) {
    assert!(state.work(1, job, number, ACCEPTED, 1).reply.is_ok());
}

#[test]
fn a_change_waits_for_its_commit() {
    let mut state = with_open_line();
    (1..=3).for_each(|number| assert_eq!(append(&mut state), number));
    waits(&state, 1, 3, Reason::EarlierChange, 1);
    waits(&state, 1, 2, Reason::EarlierChange, 1);
    assert_eq!(why(&state, 1, 1), Err(Refusal::NotWaiting));
    cut(&mut state, 1, 1);
    waits(&state, 1, 2, Reason::EarlierChange, 1);
    assert_eq!(told(&mut state, 1, 1, ACCEPTED).0, [Status::Complete]);
    waits(&state, 1, 1, Reason::Finished, 0);
    waits(&state, 1, 3, Reason::EarlierChange, 2);
    state.rollback(1).unwrap();
    cut(&mut state, 3, 1);
    waits(&state, 1, 2, Reason::CommitInFlight, 1);
    waits(&state, 1, 3, Reason::EarlierChange, 2);
    assert!(work(&mut state, 3, 1, ACCEPTED).reply.is_ok());
    waits(&state, 1, 2, Reason::CommitInFlight, 1);
    assert!(work(&mut state, 3, 1, ACCEPTED).reply.is_ok());
    assert_eq!(told(&mut state, 1, 2, REJECTED).0, [Status::InProgress, Status::Failed]);
    waits(&state, 1, 2, Reason::Finished, 0);
    waits(&state, 2, 2, Reason::Finished, 0);
}

/// The end of an invalid change is not there before its second store.
#[test]
fn what_is_left_to_close_is_not_finished() {
    let mut state = with_open_line();
    append(&mut state);
    assert!(work(&mut state, 1, 1, ACCEPTED).reply.is_ok());
    assert!(state.work(1, 1, 1, REJECTED, 1).reply.is_ok());
    assert_eq!(why(&state, 1, 1), Err(Refusal::NotWaiting));
    assert!(work(&mut state, 1, 1, ACCEPTED).reply.is_ok());
    waits(&state, 1, 1, Reason::Finished, 0);
    assert_eq!(append(&mut state), 2);
    commit(&mut state, 2);
    commit_rollback(&mut state, 2);
    for job in [2, 4] {
        cut(&mut state, job, 2);
        let transaction = transaction(&state, 2);
        assert!(if job == 2 { transaction.c.apply } else { transaction.r.apply }.is_done());
        assert_eq!(why(&state, job, 2), Err(Refusal::NotWaiting));
        assert!(work(&mut state, job, 2, ACCEPTED).reply.is_ok());
        waits(&state, job, 2, Reason::Finished, 0);
    }
}

#[test]
fn a_change_waits_for_its_apply() {
    let mut state = with_open_line();
    (1..=3).for_each(|number| assert_eq!(append(&mut state), number));
    waits(&state, 2, 1, Reason::NotCommitted, 0);
    commit(&mut state, 1);
    waits(&state, 2, 3, Reason::NotCommitted, 0);
    commit(&mut state, 2);
    commit(&mut state, 3);
    waits(&state, 2, 2, Reason::EarlierOrdinal, 1);
    waits(&state, 2, 3, Reason::EarlierOrdinal, 1);
    assert!(work(&mut state, 2, 1, ACCEPTED).reply.is_ok());
    for cut in [1, 2] {
        assert!(state.work(1, 2, 1, ACCEPTED, cut).reply.is_ok());
        waits(&state, 2, 2, Reason::EarlierOrdinal, 1);
        waits(&state, 2, 3, Reason::EarlierOrdinal, 1);
    }
    assert!(work(&mut state, 2, 1, ACCEPTED).reply.is_ok());
    waits(&state, 2, 1, Reason::Finished, 0);
    waits(&state, 2, 3, Reason::EarlierOrdinal, 2);
    assert_eq!(why(&state, 2, 2), Err(Refusal::NotWaiting));
}

#[test]
fn a_rollback_waits_for_its_commit() {
    let mut state = with_open_line();
    (1..=3).for_each(|number| assert_eq!(append(&mut state), number));
    waits(&state, 3, 1, Reason::NoRollbackAsked, 0);
    (1..=2).for_each(|number| commit(&mut state, number));
    waits(&state, 3, 1, Reason::NoRollbackAsked, 0);
    state.rollback(1).unwrap();
    waits(&state, 3, 1, Reason::ChangeOnTop, 2);
    cut(&mut state, 1, 3);
    waits(&state, 3, 1, Reason::CommitInFlight, 3);
    waits(&state, 3, 2, Reason::NoRollbackAsked, 0);
    commit_in_flight(&mut state);
    waits(&state, 3, 1, Reason::ChangeOnTop, 3);
    for number in [3, 2] {
        commit_rollback(&mut state, number);
        waits(&state, 3, number, Reason::Finished, 0);
    }
    assert_eq!(why(&state, 3, 1), Err(Refusal::NotWaiting));
}

/// Brings the commit of 3, whose target is set, to its end, looking at what is named on the way.
fn commit_in_flight(state: &mut State) {
    assert!(work(state, 1, 3, ACCEPTED).reply.is_ok());
    waits(state, 3, 1, Reason::CommitInFlight, 3);
    cut(state, 1, 3);
    assert_eq!((state.committed.change, state.committed.target), (Number(3), Number(3)));
    waits(state, 3, 1, Reason::CommitInFlight, 3);
    assert!(work(state, 1, 3, ACCEPTED).reply.is_ok());
}

/// The target of a rollback is below the last change: what is begun is named, and before it has begun the revision.
#[test]
fn a_rollback_in_flight_is_named() {
    let mut state = with_open_line();
    for number in 1..=3 {
        append(&mut state);
        commit(&mut state, number);
    }
    state.rollback(3).unwrap();
    state.rollback(1).unwrap();
    cut(&mut state, 3, 3);
    assert_eq!((state.committed.target, state.committed.revision), (Number(2), Number(3)));
    waits(&state, 3, 1, Reason::CommitInFlight, 3);
    assert!(work(&mut state, 3, 3, ACCEPTED).reply.is_ok());
    waits(&state, 3, 1, Reason::CommitInFlight, 3);
    cut(&mut state, 3, 3);
    assert_eq!((state.committed.target, state.committed.revision), (Number(2), Number(2)));
    waits(&state, 3, 1, Reason::CommitInFlight, 3);
    assert!(work(&mut state, 3, 3, ACCEPTED).reply.is_ok());
    waits(&state, 3, 1, Reason::ChangeOnTop, 2);
}

#[test]
fn a_rollback_waits_for_its_apply() {
    let mut state = with_open_line();
    for number in 1..=2 {
        append(&mut state);
        commit(&mut state, number);
    }
    waits(&state, 4, 2, Reason::NoRollbackAsked, 0);
    state.rollback(2).unwrap();
    waits(&state, 4, 2, Reason::NotCommitted, 0);
    assert_eq!(told(&mut state, 3, 2, ACCEPTED).0, [Status::InProgress, Status::Complete]);
    waits(&state, 4, 2, Reason::EarlierOrdinal, 1);
    apply(&mut state, 1);
    waits(&state, 4, 2, Reason::EarlierOrdinal, 2);
    assert_eq!(told(&mut state, 2, 2, ACCEPTED).0, [Status::Aborted]);
    assert_eq!(told(&mut state, 4, 2, ACCEPTED).0, [Status::Canceled]);
    waits(&state, 4, 2, Reason::Finished, 0);
    commit_rollback(&mut state, 1);
    assert_eq!(told(&mut state, 4, 1, ACCEPTED).0, [Status::InProgress, Status::Complete]);
    waits(&state, 4, 1, Reason::Finished, 0);
}

/// What is named is a number, or an ordinal, and the two are kept apart.
#[test]
fn what_is_named_is_a_number_or_an_ordinal() {
    let mut state = with_open_line();
    for _ in 0..3 {
        append(&mut state);
    }
    assert_eq!(told(&mut state, 1, 1, REJECTED).0, [Status::InProgress, Status::Failed]);
    commit(&mut state, 2);
    commit(&mut state, 3);
    let named = |job, number| state.why(Question { node: 1, job, number }).map(|why| why.named);
    assert_eq!(named(2, 3), Ok(Named::Ordinal(Ordinal(1))));
    state.rollback(2).unwrap();
    let named = |job, number| state.why(Question { node: 1, job, number }).map(|why| why.named);
    assert_eq!(named(3, 2), Ok(Named::Number(Number(3))));
    assert_eq!(named(3, 3), Ok(Named::Nothing));
    let why = Why { reason: Reason::EarlierOrdinal, named: Named::Ordinal(Ordinal(131_069)) };
    assert_eq!(why.packed(), 7 << 8 | 131_069 << 32);
}

#[test]
fn refusals_in_their_order() {
    let mut state = with_open_line();
    for number in 1..=3 {
        append(&mut state);
        commit(&mut state, number);
    }
    apply(&mut state, 1);
    state.fold(1).unwrap();
    let asked = |node, job, number| state.why(Question { node, job, number }).map(|why| why.reason);
    for (node, job) in [(0, 1), (9, 1), (1, 0), (1, 5), (1 << 16 | 1, 1), (1, 1 << 32 | 2), (u64::MAX, 1)] {
        assert_eq!(asked(node, job, 0), Err(Refusal::OutOfRange), "{node} {job}");
        assert_eq!(asked(node, job, 2), Err(Refusal::OutOfRange), "{node} {job}");
    }
    for number in [0, 4, 65535, 1 << 16 | 2, 1 << 32 | 2, u64::MAX] {
        assert_eq!(asked(2, 1, number), Err(Refusal::NoSuchNumber), "{number}");
    }
    assert_eq!(asked(2, 1, 1), Err(Refusal::Folded));
    assert_eq!(asked(2, 2, 2), Err(Refusal::NotMaster));
    assert_eq!(asked(1, 2, 2), Err(Refusal::NotWaiting));
    assert_eq!(asked(1, 1, 2), Ok(Reason::Finished));
}

/// A job that waits for the line answers 12, and one whose ordinal has no next 9: neither is 11.
#[test]
fn another_refusal_is_no_reason() {
    let mut state = with_open_line();
    append(&mut state);
    commit(&mut state, 1);
    assert!(work(&mut state, 2, 1, ACCEPTED).reply.is_ok());
    state.stop().unwrap();
    assert_eq!(work(&mut state, 2, 1, ACCEPTED).reply, Err(Refusal::LineNotOpen));
    assert_eq!(why(&state, 2, 1), Err(Refusal::NotWaiting));
    append(&mut state);
    assert!(work(&mut state, 1, 2, ACCEPTED).reply.is_ok());
    state.committed.ordinal = Ordinal::LIMIT;
    assert_eq!(work(&mut state, 1, 2, ACCEPTED).reply, Err(Refusal::CounterAtLimit));
    assert_eq!(why(&state, 1, 2), Err(Refusal::NotWaiting));
}

/// Only those that are kept are looked at, under the numbers that they have.
#[test]
fn reasons_where_the_log_is_folded() {
    let mut state = with_open_line();
    for number in 1..=200 {
        append(&mut state);
        commit(&mut state, number);
        apply(&mut state, number);
        state.fold(number).unwrap();
    }
    (201..=203).for_each(|number| assert_eq!(append(&mut state), number));
    waits(&state, 1, 203, Reason::EarlierChange, 201);
    commit(&mut state, 201);
    waits(&state, 1, 201, Reason::Finished, 0);
    commit(&mut state, 202);
    waits(&state, 2, 202, Reason::EarlierOrdinal, 201);
    state.rollback(201).unwrap();
    waits(&state, 3, 201, Reason::ChangeOnTop, 202);
    state.rollback(202).unwrap();
    assert!(work(&mut state, 3, 202, ACCEPTED).reply.is_ok());
    waits(&state, 1, 203, Reason::CommitInFlight, 202);
    waits(&state, 3, 201, Reason::CommitInFlight, 202);
    assert_eq!(why(&state, 1, 200), Err(Refusal::Folded));
}

/// The change after the last number is below none.
#[test]
fn nothing_is_waited_for_past_the_last_number() {
    let mut state = with_open_line();
    state.folded = Number(65_534);
    append(&mut state);
    let committed = &mut state.committed;
    (committed.index, committed.change, committed.target) = (Number::LIMIT, Number::LIMIT, Number::LIMIT);
    state.log[0].c.commit = Status::Complete;
    waits(&state, 1, 65_535, Reason::Finished, 0);
    state.log[0].c.commit = Status::Aborted;
    waits(&state, 1, 65_535, Reason::Finished, 0);
    state.log[0].c.commit = Status::None;
    waits(&state, 1, 65_535, Reason::CommitInFlight, 0);
    state.log[0].r.commit = Status::InProgress;
    waits(&state, 1, 65_535, Reason::CommitInFlight, 65_535);
}

/// In states that no session reaches: what the phase says does not matter, nor an unsettled ordinal that is no earlier one; and an
/// apply that does not begin, for its commit is not Complete, has nothing left to close.
#[test]
fn reasons_in_states_that_no_session_reaches() {
    let mut state = with_open_line();
    append(&mut state);
    state.log[0].phase = Phase::Rollback;
    waits(&state, 3, 1, Reason::NoRollbackAsked, 0);
    state.log[0].r.commit = Status::Pending;
    waits(&state, 3, 1, Reason::NoneFits, 0);
    state.log[0].c.commit = Status::Complete;
    state.log[0].c.ordinal = Ordinal(2);
    state.applied.ordinal = Ordinal(2);
    waits(&state, 2, 1, Reason::NoneFits, 0);
    state.log[0].c.ordinal = Ordinal(3);
    state.applied.revision = Number(1);
    waits(&state, 2, 1, Reason::NoneFits, 0);
    state.log[0].c.apply = Status::Failed;
    assert_eq!(why(&state, 2, 1), Err(Refusal::NotWaiting));
    state.log[0].c.commit = Status::Pending;
    waits(&state, 2, 1, Reason::Finished, 0);
    state.log[0].c.apply = Status::InProgress;
    waits(&state, 2, 1, Reason::NotCommitted, 0);
}

/// From every state of random sessions: a reason exactly where each outcome and cut answers 11, and never the eighth.
#[test]
fn a_reason_is_given_exactly_where_the_job_answers_11() {
    let mut random = Random::new(4);
    let mut seen = [0; 8];
    for log_limit in [2, 3, 5] {
        let mut state = State::fresh();
        for turn in 0..6000 {
            let request =
                if turn % 16 == 0 { wild(&state, &mut random) } else { sensible(&state, log_limit, &mut random) };
            act(&mut state, &request);
            for (job, number) in (1..=4).flat_map(|job| numbers(&state).map(move |number| (job, number))) {
                let node = state.mastership.master.map_or(1, |master| master.number().into());
                let (outcome, cut) = (random.below(2) as u64, random.below(3) as u64);
                let answer = state.clone().work(node, job, number, outcome, cut).reply;
                match (state.why(Question { node, job, number }), answer) {
                    (Ok(why), Err(Refusal::NoRule)) => seen[why.reason as usize - 1] += 1,
                    (Err(Refusal::NotWaiting), Ok(_))
                    | (
                        Err(Refusal::NotWaiting),
                        Err(Refusal::CounterAtLimit | Refusal::LineNotOpen | Refusal::PushRejected),
                    ) => {}
                    (Err(refusal), Err(answer)) if refusal == answer && refusal != Refusal::NoRule => {}
                    differs => panic!("{node} {job} {number}: {differs:?}"),
                }
            }
        }
    }
    assert!(seen[..7].iter().all(|count| *count > 0), "{seen:?}");
    assert_eq!(seen[7], 0);
}

#[test]
fn the_steppers_line() {
    let input = "call=append pairs=3:7\ncall=append pairs=3:9\ncall=why node=1 job=1 number=2\ncall=start\n\
                 call=connect node=1\ncall=master node=1\ncall=why node=1 job=1 number=2\ncall=why node=1 job=1 number=1\n\
                 call=why node=0 job=1 number=0\ncall=why node=1 job=1 number=3\ncall=why node=1 job=2 number=2\n\
                 call=why node=1 job=1\ncall=why node=1 job=1 number=1 outcome=0 cut=0\ncall=why node=1 job=1 number=65536\n";
    let answers: Vec<String> = stepped(input.as_bytes()).lines().map(str::to_string).collect();
    let why = |answer: u64, reason: u64, named: u64| format!("answer={answer} reason={reason} named={named}");
    let unreadable = "answer=2 phase=0 stage=0 number=0 status=0".to_string();
    assert_eq!(answers[2], why(10, 0, 0));
    let explained = [why(0, 3, 1), why(15, 0, 0), why(2, 0, 0), why(5, 0, 0), why(0, 6, 0)];
    assert_eq!(answers[6..11], explained);
    assert_eq!(answers[11..14], [unreadable.clone(), unreadable.clone(), unreadable]);
    assert_eq!(answers[14], "committed=0 committed_ordinal=0 applied=0 applied_ordinal=0");
}

#[test]
fn a_question_written_as_a_line_is_read_as_that_question() {
    for question in [Question { node: 1, job: 2, number: 3 }, Question { node: 0, job: 65_535, number: 65_535 }] {
        let line = questioning(question).unwrap();
        assert_eq!(read(line.trim_end().as_bytes()), Some(Line::Why(question)));
    }
    assert_eq!(questioning(Question { node: 1, job: 2, number: 65_536 }), None);
}
