//! Order 2 on the independent controller alone: a night's jobs, its outcomes, why it stops, and what is left then.

mod common;

use common::{commit, commit_rollback, told, transaction, with_open_line, work, ACCEPTED, REJECTED};
use makowist_host::controller::{Number, Ordinal, Refusal, State, Status};
use makowist_host::image::{at, decode, encode, put_u16, LENGTH};
use makowist_host::lines::{nightly, read, stepped, Line};
use makowist_host::night::{Night, Passed, Stopped, BUDGET_LIMIT, EVENT, OUTCOMES};
use makowist_host::northbound::{self, act};
use makowist_host::random::Random;
use makowist_host::requests::{sensible, wild};

/// A night of node 1 whose table has 1 at these places.
fn night(budget: u64, rejected: &[usize]) -> Night {
    let mut outcomes = vec![0; OUTCOMES];
    rejected.iter().for_each(|place| outcomes[*place] = 1);
    Night { node: 1, budget, outcomes }
}

/// The jobs that were done, each with its number, and why the night stopped.
fn passed(state: &mut State, budget: u64, rejected: &[usize]) -> (Vec<(u64, u16)>, Stopped) {
    let Passed { jobs, stopped } = state.night(&night(budget, rejected)).unwrap();
    (jobs.iter().map(|done| (done.job, done.number.0)).collect(), stopped)
}

fn with_appended(count: u16) -> State {
    let mut state = with_open_line();
    (1..=count).for_each(|number| assert_eq!(state.append(&[(number % 32, number)]), Ok(Number(number))));
    state
}

/// Whether some job of node 1 would not be refused, with every outcome accepted.
fn some_job_goes(state: &State) -> bool {
    state.kept().any(|(number, _)| (1..=4).any(|job| state.clone().work(1, job, number.0.into(), 0, 0).reply.is_ok()))
}

#[test]
fn each_turn_does_the_first_job_of_the_lowest_number() {
    let mut state = with_appended(2);
    let jobs = [(1, 1), (1, 1), (2, 1), (2, 1), (1, 2), (1, 2), (2, 2), (2, 2)];
    assert_eq!(passed(&mut state, 100, &[]), (jobs.to_vec(), Stopped::NothingLeft));
    state.rollback(1).unwrap();
    state.rollback(2).unwrap();
    let jobs = [(3, 2), (3, 2), (3, 1), (3, 1), (4, 2), (4, 2), (4, 1), (4, 1)];
    assert_eq!(passed(&mut state, 100, &[]), (jobs.to_vec(), Stopped::NothingLeft));
    assert_eq!((state.committed.revision, state.applied.revision), (Number::NONE, Number::NONE));
}

/// A change is applied before its rollback is committed, where both can go.
#[test]
fn jobs_1_to_4_in_their_order() {
    let mut state = with_appended(1);
    commit(&mut state, 1);
    state.rollback(1).unwrap();
    let jobs = [(2, 1), (2, 1), (3, 1), (3, 1), (4, 1), (4, 1)];
    assert_eq!(passed(&mut state, 6, &[]), (jobs.to_vec(), Stopped::NothingLeft));
}

#[test]
fn each_turn_gives_its_jobs_event() {
    let mut state = with_appended(1);
    let jobs = state.clone().night(&night(9, &[])).unwrap().jobs;
    let alone: Vec<_> = [1, 1, 2, 2].iter().map(|job| work(&mut state, *job, 1, ACCEPTED).reply.unwrap()).collect();
    assert_eq!(jobs.iter().map(|done| done.event).collect::<Vec<_>>(), alone);
}

#[test]
fn a_budget_that_is_spent() {
    for budget in 0..=5 {
        let mut state = with_appended(1);
        let stopped = if budget < 4 { Stopped::BudgetSpent } else { Stopped::NothingLeft };
        let (jobs, why) = passed(&mut state, budget, &[]);
        assert_eq!((jobs.len() as u64, why), (budget.min(4), stopped));
    }
    let mut state = with_open_line();
    assert_eq!(passed(&mut state, 0, &[]), (vec![], Stopped::NothingLeft));
    assert_eq!(passed(&mut state, BUDGET_LIMIT, &[]), (vec![], Stopped::NothingLeft));
}

/// What needs the line waits, and the commits go on; a budget spent there is 1 and not 2.
#[test]
fn a_line_that_is_not_open() {
    let mut state = with_appended(2);
    state.disconnect(1).unwrap();
    let jobs = [(1, 1), (1, 1), (2, 1), (1, 2), (1, 2)];
    for budget in [5, 6] {
        assert_eq!(passed(&mut state.clone(), budget, &[]), (jobs.to_vec(), Stopped::NoLine));
    }
    assert_eq!(passed(&mut state, 4, &[]), (jobs[..4].to_vec(), Stopped::BudgetSpent));
    assert_eq!(passed(&mut state, 1, &[]), (jobs[4..].to_vec(), Stopped::NoLine));
    assert_eq!(passed(&mut state, 0, &[]), (vec![], Stopped::NoLine));
}

/// Place 0 is the validation of the first and 1 its push, 2 the validation of the second, and so on.
#[test]
fn two_outcomes_for_each() {
    let mut state = with_appended(3);
    let (jobs, stopped) = passed(&mut state, 100, &[2, 5]);
    assert_eq!(jobs, [(1, 1), (1, 1), (2, 1), (2, 1), (1, 2), (1, 2), (1, 3), (1, 3), (2, 3), (2, 3)]);
    assert_eq!(stopped, Stopped::NothingLeft);
    let statuses = [1, 2, 3].map(|number| transaction(&state, number).c);
    assert_eq!(statuses.map(|c| c.commit), [Status::Complete, Status::Failed, Status::Complete]);
    assert_eq!(statuses.map(|c| c.apply), [Status::Complete, Status::Canceled, Status::Failed]);
}

#[test]
fn a_rollbacks_push_counts_as_accepted() {
    let mut state = with_appended(1);
    passed(&mut state, 4, &[]);
    commit_rollback(&mut state, 1);
    assert_eq!(passed(&mut state, 9, &[0, 1]), (vec![(4, 1), (4, 1)], Stopped::NothingLeft));
    assert_eq!(transaction(&state, 1).r.apply, Status::Complete);
}

/// A job that was cut is finished by one without an event; none is cut by the night.
#[test]
fn a_cut_job_is_finished_without_an_event() {
    let mut state = with_appended(1);
    assert!(state.work(1, 1, 1, ACCEPTED, 1).reply.is_ok());
    let jobs = state.night(&night(2, &[])).unwrap().jobs;
    assert_eq!(jobs[0].event, None);
    assert_eq!(jobs[1].event.map(|event| event.status), Some(Status::Complete));
    let mut room = [0xab; 2 * EVENT];
    assert_eq!(Passed { jobs, stopped: Stopped::BudgetSpent }.show(&mut room), 2);
    assert_eq!(room[..EVENT], [0; EVENT]);
    assert_eq!(room[EVENT..], [1, 0, 0, 0, 1, 0, 0, 0, 1, 0, 0, 0, 3, 0, 0, 0]);
}

/// Numbers, and the table, are of those that are kept (order 10).
#[test]
fn a_night_where_the_log_is_folded() {
    let mut state = with_appended(3);
    passed(&mut state, 8, &[]);
    state.fold(2).unwrap();
    assert_eq!(state.append(&[(1, 1)]), Ok(Number(4)));
    let jobs = [(1, 3), (1, 3), (1, 4), (1, 4), (2, 4), (2, 4)];
    assert_eq!(passed(&mut state, 9, &[0, 3, 4, 6]), (jobs.to_vec(), Stopped::NothingLeft));
    assert_eq!([3, 4].map(|number| transaction(&state, number).c.commit), [Status::Failed, Status::Complete]);
    assert_eq!(transaction(&state, 4).c.apply, Status::Failed);
}

/// A job that is refused by 9 is passed over, as any other.
#[test]
fn a_counter_at_its_limit_is_a_refusal_like_others() {
    let mut state = with_appended(2);
    commit(&mut state, 1);
    (state.committed.ordinal, state.log[0].c.ordinal) = (Ordinal::LIMIT, Ordinal::LIMIT);
    state.applied.ordinal = Ordinal(131_069);
    assert_eq!(passed(&mut state, 9, &[]), (vec![(2, 1), (2, 1), (1, 2)], Stopped::NothingLeft));
    assert_eq!(work(&mut state, 1, 2, ACCEPTED).reply, Err(Refusal::CounterAtLimit));
    assert_eq!(passed(&mut state, 9, &[2]), (vec![(1, 2)], Stopped::NothingLeft));
}

/// What waits in the end is the rollback of a change on which a later live one lies.
#[test]
fn a_covered_rollback_is_left() {
    let mut state = with_appended(2);
    passed(&mut state, 8, &[]);
    state.rollback(1).unwrap();
    assert_eq!(passed(&mut state, 12, &[]), (vec![], Stopped::NothingLeft));
    assert!(state.is_done_but_for_covered_rollbacks(1));
    state.rollback(2).unwrap();
    assert!(!state.is_done_but_for_covered_rollbacks(1));
    assert_eq!(passed(&mut state, 12, &[]).0.len(), 8);
    assert!(state.is_done_but_for_covered_rollbacks(1));
}

/// One transaction needs six: committed, its rollback asked, nothing applied.
#[test]
fn six_jobs_for_each_are_needed_and_enough() {
    let mut state = with_appended(128);
    (1..=128).for_each(|number| commit(&mut state, number));
    (1..=128).for_each(|number| state.rollback(number).unwrap());
    let (jobs, stopped) = passed(&mut state.clone(), 6 * 128 - 1, &[]);
    assert_eq!((jobs.len(), stopped), (767, Stopped::BudgetSpent));
    let (jobs, stopped) = passed(&mut state, 6 * 128, &[]);
    assert_eq!((jobs.len(), stopped), (768, Stopped::NothingLeft));
    assert!(state.is_done_but_for_covered_rollbacks(1) && state.live().next().is_none());
}

#[test]
fn refusals_in_their_order() {
    let mut state = with_appended(1);
    let before = state.clone();
    let mut refused = |night: Night| state.night(&night).map(|passed| passed.jobs.len());
    let table = |length: usize, place: usize, outcome: u8| {
        let mut outcomes = vec![0; length];
        outcomes.get_mut(place).into_iter().for_each(|at| *at = outcome);
        outcomes
    };
    for node in [0, 9, 1 << 16 | 1, 1 << 32 | 1, u64::MAX] {
        assert_eq!(refused(Night { node, ..night(8, &[]) }), Err(Refusal::OutOfRange), "node {node}");
    }
    let odd_tables = [(0, 0, 0), (255, 0, 0), (257, 0, 0), (256, 0, 2), (256, 127, 255), (256, 255, 2)];
    for node in [1, 2] {
        for budget in [4097, 1 << 16 | 8, 1 << 32 | 8, u64::MAX] {
            assert_eq!(refused(Night { node, ..night(budget, &[]) }), Err(Refusal::OutOfRange), "{node} {budget}");
        }
        for (length, place, outcome) in odd_tables {
            let outcomes = table(length, place, outcome);
            assert_eq!(refused(Night { node, budget: 8, outcomes }), Err(Refusal::OutOfRange), "{length} {place}");
        }
    }
    assert_eq!(refused(Night { node: 2, ..night(8, &[]) }), Err(Refusal::NotMaster));
    assert_eq!(refused(Night { node: 2, ..night(0, &[]) }), Err(Refusal::NotMaster));
    assert_eq!(state, before);
    let mut image = vec![7; LENGTH];
    assert_eq!(northbound::night(&mut image, &Night { node: 0, ..night(8, &[]) }, &mut []), 1);
    assert_eq!(northbound::night(&mut image[1..], &night(8, &[]), &mut []), 1);
}

/// Why nothing goes any more, or that something does, as every job answers by itself.
fn stopped(left: &State, night: &Night) -> Stopped {
    let each = (0..left.log.len()).flat_map(|place| (1..=4).map(move |job| (place, job)));
    let refusals = each.map(|(place, job)| {
        let number = u64::from(left.folded.0) + 1 + place as u64;
        left.clone().work(night.node, job, number, night.outcome(place, job), 0).reply.err()
    });
    let refusals: Vec<Option<Refusal>> = refusals.collect();
    match (refusals.contains(&None), refusals.contains(&Some(Refusal::LineNotOpen))) {
        (true, _) => Stopped::BudgetSpent,
        (false, true) => Stopped::NoLine,
        (false, false) => Stopped::NothingLeft,
    }
}

/// From every state of random sessions: the jobs called one by one, the count of them, the reason by what would go; and behind
/// six jobs for each kept one, with the line open, nothing left but covered rollbacks.
#[test]
fn a_night_is_the_jobs_that_it_does() {
    let mut random = Random::new(2);
    let mut stops = [0; 3];
    for log_limit in [1, 3, 8] {
        let mut state = State::fresh();
        for turn in 0..3000 {
            let request = if turn % 16 == 0 { wild(&state, &mut random) } else { sensible(&state, log_limit, &mut random) };
            act(&mut state, &request);
            let Some(master) = state.mastership.master else { continue };
            let node = u64::from(master.number());
            let outcomes = (0..OUTCOMES).map(|_| random.once_in(4).into()).collect();
            let enough = 6 * state.log.len() as u64;
            let budget = if random.once_in(2) { enough } else { random.below(12) as u64 };
            let night = Night { node, budget, outcomes };
            let (mut left, mut alone) = (state.clone(), state.clone());
            let passed = left.night(&night).unwrap();
            for done in &passed.jobs {
                let worked = alone.work(node, done.job, done.number.0.into(), done.outcome, 0);
                assert_eq!((worked.reply, worked.rule), (Ok(done.event), done.rule));
            }
            assert_eq!(left, alone);
            assert!(passed.jobs.len() as u64 == budget || passed.stopped != Stopped::BudgetSpent);
            assert_eq!(passed.stopped, stopped(&left, &night));
            stops[usize::from(passed.stopped.number())] += 1;
            if state.line_open(master) && budget >= enough {
                assert!(passed.stopped == Stopped::NothingLeft && left.is_done_but_for_covered_rollbacks(node));
            }
            if random.once_in(20) {
                state = left;
            }
        }
    }
    assert!(stops.iter().all(|count| *count > 0), "{stops:?}");
}

/// The first events that the room holds are written, and bytes behind them stay.
#[test]
fn events_in_rooms_of_every_length() {
    let state = with_appended(1);
    let mut image = vec![0; LENGTH];
    encode(&state, &mut image);
    let mut whole = [0xab; 5 * EVENT];
    assert_eq!(northbound::night(&mut image.clone(), &night(8, &[]), &mut whole), 4 << 16 | 4 << 32);
    assert_eq!(whole[4 * EVENT..], [0xab; EVENT]);
    for length in 0..whole.len() {
        let (mut after, mut room) = (image.clone(), vec![0xab; length]);
        let written = (length / EVENT).min(4);
        assert_eq!(northbound::night(&mut after, &night(8, &[]), &mut room), 4 << 16 | (written as u64) << 32);
        assert_eq!(room[..EVENT * written], whole[..EVENT * written]);
        assert!(room[EVENT * written..].iter().all(|byte| *byte == 0xab));
        assert!(!some_job_goes(&decode(&after).unwrap()));
    }
    let mut room = [0xab; EVENT];
    assert_eq!(northbound::night(&mut image.clone(), &night(2, &[]), &mut room), 2 << 8 | 2 << 16 | 1 << 32);
    assert_eq!(northbound::night(&mut image, &night(4097, &[]), &mut room), 2);
    assert_eq!(room[..8], [1, 0, 0, 0, 1, 0, 0, 0]);
}

/// A change that begins and ends in one night leaves its unused places as job by job.
#[test]
fn the_image_of_a_night_is_that_of_its_jobs() {
    let state = with_appended(1);
    let mut image = vec![0xee; LENGTH];
    put_u16(&mut image, at::HIGHEST, 1);
    encode(&state, &mut image);
    let mut by_night = image.clone();
    northbound::night(&mut by_night, &night(4, &[]), &mut []);
    let mut state = state;
    for job in [1, 1, 2, 2] {
        work(&mut state, job, 1, ACCEPTED).reply.unwrap();
        encode(&state, &mut image);
    }
    assert!(image == by_night);
}

#[test]
fn the_steppers_line() {
    let opening = "call=start\ncall=connect node=1\ncall=master node=1\ncall=sync node=1\ncall=sync node=1\n\
                   call=append pairs=3:7\n";
    let answer = |line: &str| stepped(format!("{opening}{line}\n").as_bytes()).lines().nth(6).unwrap().to_string();
    let told = |answer: u64, jobs: u64, stopped: u64| format!("answer={answer} jobs={jobs} stopped={stopped}");
    let unreadable = "answer=2 phase=0 stage=0 number=0 status=0";
    assert_eq!(answer("call=night node=1 budget=8 outcomes="), told(0, 4, 0));
    assert_eq!(answer("call=night node=1 budget=8 outcomes=1"), told(0, 2, 0));
    assert_eq!(answer("call=night node=01 budget=03 outcomes=01"), told(0, 3, 2));
    assert_eq!(answer(&format!("call=night node=1 budget=0 outcomes={}", "0".repeat(256))), told(0, 0, 2));
    assert_eq!(answer(&format!("call=night node=1 budget=0 outcomes={}", "0".repeat(257))), told(2, 0, 0));
    for refused in ["node=0 budget=8 outcomes=", "node=1 budget=4097 outcomes=", "node=1 budget=8 outcomes=02"] {
        assert_eq!(answer(&format!("call=night {refused}")), told(2, 0, 0), "{refused}");
    }
    assert_eq!(answer("call=night node=2 budget=8 outcomes="), told(10, 0, 0));
    for line in [
        "",
        " node=1 budget=8",
        " node=1 outcomes=0",
        " budget=8 node=1 outcomes=",
        " node=1 budget= outcomes=",
        " node=1 budget=65536 outcomes=",
        "  node=1 budget=8 outcomes=",
        " node=1 budget=8  outcomes=",
        " node=1 budget=8 outcomes=0 ",
        " node=1 budget=8 outcomes=0,1",
        " node=1 budget=8 outcomes=-1",
        " node=1 budget=8 outcomes=0 outcomes=0",
    ] {
        assert_eq!(answer(&format!("call=night{line}")), unreadable, "{line}");
    }
}

#[test]
fn a_night_written_as_a_line_is_read_as_that_night() {
    let long = Night { outcomes: vec![9; 300], ..night(65_535, &[]) };
    for night in [night(8, &[1, 255]), night(0, &[]), long] {
        assert_eq!(read(nightly(&night).unwrap().trim_end().as_bytes()), Some(Line::Night(night)));
    }
    assert_eq!(nightly(&night(65_536, &[])), None);
    assert_eq!(nightly(&Night { outcomes: vec![10; 256], ..night(8, &[]) }), None);
    assert_eq!(nightly(&Night { outcomes: vec![0; 255], ..night(8, &[]) }), None);
}

/// A night of rejections ends too, and its events are those of demand 3's sequences.
#[test]
fn a_night_of_rejections() {
    let mut state = with_appended(2);
    let (jobs, stopped) = passed(&mut state, 20, &[1]);
    assert_eq!((jobs.len(), stopped), (7, Stopped::NothingLeft));
    assert_eq!(transaction(&state, 2).c.apply, Status::Aborted);
    assert_eq!(told(&mut state, 2, 2, REJECTED), (vec![], Refusal::NoRule));
}
