//! Order 8 on the independent controller alone: an accepted push is three stores, what a cut leaves of it, and what makes that
//! good.

mod common;

use common::{commit, commit_rollback, told, transaction, with_open_line, work, ACCEPTED, REJECTED};
use makowist_host::controller::{Event, Number, Phase, Refusal, Stage, State, Status};
use makowist_host::northbound::{act, Answer, Request, Served};
use makowist_host::random::Random;
use makowist_host::requests::{sensible, wild};
use makowist_host::retry::CutJob;
use makowist_host::switch::{MadeGood, Stands, Switch};

/// A state in which change 1, of path 3 to 7, is being applied: its push comes next.
fn about_to_push() -> State {
    let mut state = with_open_line();
    state.append(&[(3, 7)]).unwrap();
    commit(&mut state, 1);
    assert!(work(&mut state, 2, 1, ACCEPTED).reply.is_ok());
    state
}

/// The same of its rollback, to what path 3 had before: nothing.
fn about_to_push_back() -> State {
    let mut state = about_to_push();
    assert!(work(&mut state, 2, 1, ACCEPTED).reply.is_ok());
    commit_rollback(&mut state, 1);
    assert!(work(&mut state, 4, 1, ACCEPTED).reply.is_ok());
    state
}

/// Both pushes, each with its job and its event.
fn pushes() -> [(State, u64, Event); 2] {
    let event = |phase| Event { phase, stage: Stage::Apply, number: Number(1), status: Status::Complete };
    [(about_to_push(), 2, event(Phase::Change)), (about_to_push_back(), 4, event(Phase::Rollback))]
}

/// Path 3 on the target and in the applied values.
fn path_3(state: &State) -> (u16, u16) {
    (state.target.values[3], state.applied.values[3])
}

#[test]
fn target_then_applied_with_the_event_then_status() {
    for (before, job, event) in pushes() {
        let mut whole = before.clone();
        assert_eq!(whole.work(1, job, 1, ACCEPTED, 0).reply, Ok(Some(event)));
        let mut first = before.clone();
        assert_eq!(first.work(1, job, 1, ACCEPTED, 1).reply, Ok(None));
        assert_eq!(first, State { target: whole.target.clone(), ..before.clone() });
        let mut second = before.clone();
        assert_eq!(second.work(1, job, 1, ACCEPTED, 2).reply, Ok(Some(event)));
        assert_eq!(second, State { log: before.log, ..whole.clone() });
    }
    assert_eq!(path_3(&about_to_push_back()), (7, 7));
}

#[test]
fn a_push_cut_at_its_first_store_is_called_again() {
    for (mut state, job, event) in pushes() {
        let mut whole = state.clone();
        assert!(work(&mut whole, job, 1, ACCEPTED).reply.is_ok());
        for _ in 0..2 {
            assert_eq!(state.work(1, job, 1, ACCEPTED, 1).reply, Ok(None));
        }
        for node in [2, 3] {
            state.connect(node).unwrap();
            whole.connect(node).unwrap();
        }
        assert_eq!(work(&mut state, job, 1, ACCEPTED).reply, Ok(Some(event)));
        assert_eq!(state, whole);
        assert_eq!(work(&mut state, job, 1, ACCEPTED).reply, Err(Refusal::NoRule));
    }
}

/// Nothing is laid twice: even where the switch has another value by then, the status is all that is stored.
#[test]
fn a_push_cut_at_its_second_store_is_called_again() {
    for (before, job, _) in pushes() {
        let mut whole = before.clone();
        assert!(work(&mut whole, job, 1, ACCEPTED).reply.is_ok());
        for (outcome, cut) in [(0, 0), (0, 1), (0, 2), (1, 0), (1, 1), (1, 2)] {
            let mut state = before.clone();
            assert!(state.work(1, job, 1, ACCEPTED, 2).reply.is_ok());
            let mut apart = state.clone();
            assert_eq!(state.work(1, job, 1, outcome, cut).reply, Ok(None));
            assert_eq!(state, whole);
            apart.target.values[3] = 5;
            assert_eq!(apart.work(1, job, 1, outcome, cut).reply, Ok(None));
            assert_eq!(apart.target.values[3], 5);
        }
    }
}

#[test]
fn cut_2_is_no_cut_in_rules_of_fewer_stores() {
    let mut random = Random::new(8);
    let mut seen = [0; 4];
    let mut state = State::fresh();
    for _ in 0..20_000 {
        let request = sensible(&state, 4, &mut random);
        if let Request::Work { node, job, number, outcome, .. } = request {
            let (mut whole, mut cut) = (state.clone(), state.clone());
            let worked = whole.work(node, job, number, outcome, 0);
            assert_eq!(cut.work(node, job, number, outcome, 2), worked);
            let stores = worked.rule.map_or(0, |rule| rule.stores());
            assert_eq!(cut == whole, stores < 3);
            seen[stores] += 1;
        }
        act(&mut state, &request);
    }
    assert!(seen.iter().all(|count| *count > 0), "{seen:?}");
}

#[test]
fn a_cut_above_2_is_out_of_range() {
    for (state, job, _) in pushes() {
        for cut in [3, 4, 256, 1 << 16, 1 << 32 | 1, u64::MAX] {
            let mut after = state.clone();
            assert_eq!(after.work(1, job, 1, ACCEPTED, cut).reply, Err(Refusal::OutOfRange), "{cut}");
            assert_eq!(after, state);
        }
    }
}

/// The push lands, the controller stops, and with it the line: a synchronise takes it off the switch, and it is pushed again.
#[test]
fn a_cut_push_whose_line_is_lost() {
    let mut state = about_to_push();
    assert!(state.work(1, 2, 1, ACCEPTED, 1).reply.is_ok());
    assert_eq!(path_3(&state), (7, 0));
    state.disconnect(1).unwrap();
    for cut in [0, 1, 2] {
        assert_eq!(state.work(1, 2, 1, ACCEPTED, cut).reply, Err(Refusal::LineNotOpen));
    }
    state.master(1).unwrap();
    state.connect(2).unwrap();
    state.master(2).unwrap();
    state.sync(2).unwrap();
    assert_eq!(path_3(&state), (7, 0));
    state.sync(2).unwrap();
    assert_eq!(path_3(&state), (0, 0));
    let event = Event { phase: Phase::Change, stage: Stage::Apply, number: Number(1), status: Status::Complete };
    assert_eq!(state.work(2, 2, 1, ACCEPTED, 0).reply, Ok(Some(event)));
    assert_eq!(path_3(&state), (7, 7));
}

/// As far as the controller knows it was never on the switch; it is, until its rollback is pushed.
#[test]
fn a_cut_push_that_is_then_rejected() {
    let mut state = about_to_push();
    assert!(state.work(1, 2, 1, ACCEPTED, 1).reply.is_ok());
    assert_eq!(told(&mut state, 2, 1, REJECTED).0, [Status::Failed]);
    assert_eq!(path_3(&state), (7, 0));
    state.append(&[(4, 1)]).unwrap();
    commit(&mut state, 2);
    assert_eq!(told(&mut state, 2, 2, ACCEPTED).0, [Status::Aborted]);
    commit_rollback(&mut state, 2);
    commit_rollback(&mut state, 1);
    assert_eq!(told(&mut state, 4, 2, ACCEPTED).0, [Status::Canceled]);
    assert_eq!(path_3(&state), (7, 0));
    assert!(work(&mut state, 4, 1, ACCEPTED).reply.is_ok());
    assert_eq!(state.work(1, 4, 1, ACCEPTED, 1).reply, Ok(None));
    assert_eq!(path_3(&state), (0, 0));
    assert_eq!(work(&mut state, 4, 1, REJECTED).reply, Err(Refusal::PushRejected));
    assert_eq!(told(&mut state, 4, 1, ACCEPTED).0, [Status::Complete]);
    assert_eq!(transaction(&state, 1).r.apply, Status::Complete);
}

/// A rollback that commits while the change is half pushed: the change is Failed, and its rollback takes it off.
#[test]
fn a_cut_push_that_is_rolled_back() {
    let mut state = about_to_push();
    assert!(state.work(1, 2, 1, ACCEPTED, 1).reply.is_ok());
    commit_rollback(&mut state, 1);
    assert_eq!(told(&mut state, 2, 1, ACCEPTED).0, [Status::Failed]);
    assert_eq!(path_3(&state), (7, 0));
    assert_eq!(told(&mut state, 4, 1, ACCEPTED).0, [Status::InProgress, Status::Complete]);
    assert_eq!(path_3(&state), (0, 0));
}

#[test]
fn a_rollbacks_cut_push() {
    let mut state = about_to_push_back();
    assert_eq!(state.work(1, 4, 1, ACCEPTED, 1).reply, Ok(None));
    assert_eq!(path_3(&state), (0, 7));
    assert_eq!(work(&mut state, 4, 1, REJECTED).reply, Err(Refusal::PushRejected));
    assert_eq!(path_3(&state), (0, 7));
    let event = Event { phase: Phase::Rollback, stage: Stage::Apply, number: Number(1), status: Status::Complete };
    assert_eq!(state.work(1, 4, 1, ACCEPTED, 2).reply, Ok(Some(event)));
    assert_eq!((path_3(&state), transaction(&state, 1).r.apply), ((0, 0), Status::InProgress));
    assert_eq!(work(&mut state, 4, 1, REJECTED).reply, Ok(None));
    assert_eq!(transaction(&state, 1).r.apply, Status::Complete);
}

/// From every state of random sessions: the last sentence of demand 3, by what the calls have done to the switch.
#[test]
fn the_target_holds_the_applied_values_or_one_push_more() {
    let mut random = Random::new(8);
    let (mut stood, mut made_good) = (Vec::new(), Vec::new());
    for log_limit in [1, 3, 8] {
        let (mut state, mut switch) = (State::fresh(), Switch::default());
        for turn in 0..20_000 {
            let request = if turn % 16 == 0 { wild(&state, &mut random) } else { sensible(&state, log_limit, &mut random) };
            let served = act(&mut state, &request);
            made_good.extend(switch.called(&state, &request, &served));
            stood.push(switch.stands(&state).unwrap_or_else(|| panic!("{request:?} leaves {state:?}\n{switch:?}")));
        }
    }
    for stands in [Stands::LineNotOpen, Stands::Applied, Stands::Pushed, Stands::PushedThenFailed, Stands::Returned] {
        assert!(stood.contains(&stands), "{stands:?}");
    }
    for way in [MadeGood::ByRetry, MadeGood::ByRollback, MadeGood::BySync] {
        assert!(made_good.contains(&way), "{way:?}");
    }
}

/// A session from fresh in which change 1, of path 3 to 7, is being applied.
fn switched() -> (State, Switch) {
    let (mut state, mut switch) = (State::fresh(), Switch::default());
    let work = |job: u64| Request::Work { node: 1, job, number: 1, outcome: 0, cut: 0 };
    let line = [Request::Start, Request::Connect(1), Request::Master(1), Request::Sync(1), Request::Sync(1)];
    for request in line.into_iter().chain([Request::Append(vec![3, 0, 7, 0]), work(1), work(1), work(2)]) {
        let served = act(&mut state, &request);
        switch.called(&state, &request, &served);
    }
    (state, switch)
}

/// Not the values of a change whose push was not cut, nor those of a path that it does not set; nor any others than Applied once
/// the cut push is made good.
#[test]
fn the_target_may_hold_no_more_than_that() {
    let (before, switch) = switched();
    let mut state = before.clone();
    assert_eq!(switch.stands(&state), Some(Stands::Applied));
    state.target.values[3] = 7;
    assert_eq!(switch.stands(&state), None);
    let (mut state, mut switch) = (before, switch);
    let mut call = |state: &mut State, job: u64, cut: u64| {
        let request = Request::Work { node: 1, job, number: 1, outcome: 0, cut };
        let served = act(state, &request);
        (switch.called(state, &request, &served), switch.clone())
    };
    let (made_good, half_pushed) = call(&mut state, 2, 1);
    assert_eq!((made_good, half_pushed.stands(&state)), (None, Some(Stands::Pushed)));
    let mut other = state.clone();
    other.target.values[4] = 1;
    assert_eq!(half_pushed.stands(&other), None);
    let (made_good, whole) = call(&mut state, 2, 2);
    assert_eq!((made_good, whole.stands(&state)), (Some(MadeGood::ByRetry), Some(Stands::Applied)));
    state.target.values[3] = 0;
    assert_eq!(whole.stands(&state), None);
    assert_eq!(half_pushed.stands(&state), Some(Stands::Returned));
    state.disconnect(1).unwrap();
    assert_eq!(whole.stands(&state), Some(Stands::LineNotOpen));
}

/// What a call answers and leaves, on a copy.
fn made(state: &State, request: &Request) -> (Served, State) {
    let mut left = state.clone();
    (act(&mut left, request), left)
}

/// From every state of random sessions: a job that is cut and called again leaves what the uncut one does, its event once.
#[test]
fn a_retry_leaves_what_the_uncut_job_does() {
    let mut random = Random::new(3);
    let mut seen = Vec::new();
    let mut state = State::fresh();
    for _ in 0..40_000 {
        let request = sensible(&state, 4, &mut random);
        let before = state.clone();
        let served = act(&mut state, &request);
        let Some(cut) = CutJob::of(&request, &served) else { continue };
        let (uncut, left) = made(&before, &cut.uncut());
        let (again, left_again) = made(&state, &cut.again(random.once_in(2), random.below(3) as u64));
        assert_eq!(left_again, left);
        let (told, silent) = if cut.lacks_the_last_alone() { (served, again) } else { (again, served) };
        assert_eq!((told.reply, silent.reply), (uncut.reply, Ok(Answer::Nothing)));
        seen.push((cut.rule, cut.made));
    }
    seen.sort_by_key(|(rule, made)| (*rule as usize, *made));
    seen.dedup();
    assert_eq!(seen.len(), 11 + 2 * 2);
}
