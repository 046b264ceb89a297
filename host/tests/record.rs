//! Order 11 on the independent controller alone: what the switch took, change by change.

mod common;

use common::{commit, commit_rollback, told, transaction, with_open_line, ACCEPTED, REJECTED};
use makowist_host::controller::{Event, Number, Phase, Stage, State, Status};
use makowist_host::fault::{print::Misprint, sheet::Miscount};
use makowist_host::image::{self, at, LENGTH};
use makowist_host::made_up::{damage, made_up};
use makowist_host::northbound::{act, Answer, Request};
use makowist_host::random::Random;
use makowist_host::reads::Query;
use makowist_host::record::record;
use makowist_host::requests::{sensible, wild};
use std::collections::HashSet;

fn of(state: &State) -> String {
    let mut bytes = vec![0xee; LENGTH];
    image::put_u16(&mut bytes, at::HIGHEST, state.highest().0);
    image::encode(state, &mut bytes);
    record(&bytes)
}

fn applied(state: &mut State, pairs: &[(u16, u16)]) {
    let number = state.append(pairs).unwrap().0.into();
    commit(state, number);
    assert_eq!(told(state, 2, number, ACCEPTED).0, [Status::InProgress, Status::Complete]);
}

#[test]
fn a_fresh_image() {
    assert_eq!(of(&State::fresh()), "folded=0 base=\nheld=\n");
}

#[test]
fn what_is_no_image() {
    let mut bytes = vec![0; LENGTH];
    image::encode(&with_open_line(), &mut bytes);
    assert_ne!(record(&bytes), "answer=1\n");
    for other in [&bytes[..0], &bytes[..1], &bytes[..LENGTH - 1], &[&bytes[..], &[0]].concat(), &bytes.repeat(2)] {
        assert_eq!(record(other), "answer=1\n", "{}", other.len());
    }
    bytes[at::MASTERSHIP] = 9;
    assert_eq!(record(&bytes), "answer=1\n");
}

/// Cut at its first store a push is not taken; at its second it is, and c.apply is InProgress.
#[test]
fn a_cut_push() {
    let mut state = with_open_line();
    state.append(&[(3, 7), (4, 0)]).unwrap();
    let line =
        |class: u8, took: u8| format!("number=1 pairs=3:7,4:0 class={class} took={took} undone=0\nfolded=0 base=\n");
    assert_eq!(of(&state), line(1, 0) + "held=\n");
    commit(&mut state, 1);
    for (cut, status, class, took) in [
        (0, Status::InProgress, 1, 0),
        (1, Status::InProgress, 1, 0),
        (2, Status::InProgress, 1, 1),
        (0, Status::Complete, 4, 1),
    ] {
        assert!(state.work(1, 2, 1, ACCEPTED, cut).reply.is_ok());
        assert_eq!(transaction(&state, 1).c.apply, status);
        assert_eq!(of(&state), line(class, took) + if took == 1 { "held=1\n" } else { "held=\n" });
    }
}

/// The same of a rollback: being undone until its push is made, then undone, and of the class when the status is
/// stored.
#[test]
fn an_undone_one() {
    let mut state = with_open_line();
    applied(&mut state, &[(3, 7)]);
    applied(&mut state, &[(3, 9)]);
    let lines = |class: u8, undone: u8, held: &str| {
        let first = "number=1 pairs=3:7 class=4 took=1 undone=0\n";
        format!("{first}number=2 pairs=3:9 class={class} took=1 undone={undone}\nfolded=0 base=\nheld={held}\n")
    };
    assert_eq!(of(&state), lines(4, 0, "1,2"));
    commit_rollback(&mut state, 2);
    assert_eq!(of(&state), lines(5, 0, "1,2"));
    for (cut, class, undone, held) in [(0, 5, 0, "1,2"), (1, 5, 0, "1,2"), (2, 5, 1, "1"), (0, 6, 1, "1")] {
        assert!(state.work(1, 4, 2, ACCEPTED, cut).reply.is_ok());
        assert_eq!(of(&state), lines(class, undone, held));
    }
}

/// A change that the switch never took is undone by its class alone.
#[test]
fn a_canceled_one() {
    let mut state = with_open_line();
    state.append(&[(31, 65_535)]).unwrap();
    commit(&mut state, 1);
    commit_rollback(&mut state, 1);
    assert_eq!(told(&mut state, 2, 1, ACCEPTED).0, [Status::Aborted]);
    assert_eq!(told(&mut state, 4, 1, ACCEPTED).0, [Status::Canceled]);
    assert_eq!(of(&state), "number=1 pairs=31:65535 class=6 took=0 undone=0\nfolded=0 base=\nheld=\n");
}

/// What is folded is a number and the base; the list of what is held has the kept ones alone.
#[test]
fn folded_logs() {
    let mut state = with_open_line();
    applied(&mut state, &[(0, 1), (3, 7), (31, 9)]);
    applied(&mut state, &[(3, 0)]);
    state.append(&[(5, 5)]).unwrap();
    assert_eq!(told(&mut state, 1, 3, REJECTED).0, [Status::InProgress, Status::Failed]);
    applied(&mut state, &[(1, 2), (2, 3), (4, 5), (6, 7)]);
    let (third, fourth) =
        ("number=3 pairs=5:5 class=3 took=0 undone=0\n", "number=4 pairs=1:2,2:3,4:5,6:7 class=4 took=1 undone=0\n");
    state.fold(1).unwrap();
    let second = "number=2 pairs=3:0 class=4 took=1 undone=0\n";
    assert_eq!(of(&state), format!("{second}{third}{fourth}folded=1 base=0:1,3:7,31:9\nheld=2,4\n"));
    state.fold(2).unwrap();
    assert_eq!(of(&state), format!("{third}{fourth}folded=2 base=0:1,31:9\nheld=4\n"));
    state.fold(4).unwrap();
    assert_eq!(of(&state), "folded=4 base=0:1,1:2,2:3,4:5,6:7,31:9\nheld=\n");
    for (number, answer) in [(0, 5), (1, 18), (4, 18), (5, 5), (65_536 + 4, 5), (u64::MAX, 5)] {
        for query in Query::of_sheet(number) {
            assert_eq!(query.packed(Some(&state), &[]), answer, "{query:?}");
            assert_eq!(query.packed(None, &[]), 1);
        }
    }
}

/// A log that goes round the ring's end, and one at the last number.
#[test]
fn numbers_that_are_great() {
    for folded in [127, 65_533] {
        let mut state = with_open_line();
        state.folded = Number(folded);
        let head = &mut state.committed;
        (head.index, head.change, head.target, head.revision) =
            (Number(folded), Number(folded), Number(folded), Number(folded));
        (state.applied.index, state.applied.target, state.applied.revision) =
            (Number(folded), Number(folded), Number(folded));
        applied(&mut state, &[(3, 7)]);
        state.append(&[(4, 1)]).unwrap();
        let (first, second) = (folded + 1, folded + 2);
        let lines = format!(
            "number={first} pairs=3:7 class=4 took=1 undone=0\nnumber={second} pairs=4:1 class=1 took=0 undone=0\n"
        );
        assert_eq!(of(&state), format!("{lines}folded={folded} base=\nheld={first}\n"));
    }
}

/// In every state of long sessions, with cut jobs, folds and disturbances: taken, and undone, is exactly what an event
/// Complete told.
#[test]
fn it_is_what_the_events_told() {
    let mut random = Random::new(4);
    let (mut cut, mut undone) = (0, 0);
    for log_limit in [1, 2, 4, 8, 30] {
        let mut state = State::fresh();
        let mut completed: HashSet<(Phase, Number)> = HashSet::new();
        for turn in 0..6_000 {
            let request =
                if turn % 9 == 0 { wild(&state, &mut random) } else { sensible(&state, log_limit, &mut random) };
            let served = act(&mut state, &request);
            if matches!(request, Request::Fresh(_)) && served.reply.is_ok() {
                completed.clear();
            }
            if let Ok(Answer::Told(Event { phase, stage: Stage::Apply, number, status: Status::Complete })) =
                served.reply
            {
                completed.insert((phase, number));
            }
            for (number, it) in state.kept() {
                let (took, was_undone) = (state.took(number.0.into()).unwrap(), state.undone(number.0.into()).unwrap());
                assert_eq!(took, completed.contains(&(Phase::Change, number)), "{number:?} of {state:?}");
                assert_eq!(was_undone, completed.contains(&(Phase::Rollback, number)), "{number:?} of {state:?}");
                cut += u32::from(took && it.c.apply == Status::InProgress);
                undone += u32::from(was_undone && it.r.apply == Status::InProgress);
            }
        }
    }
    assert!(cut > 200 && undone > 50, "{cut} {undone}");
}

/// Of a made-up state: a line for each that is kept, then the two; what is held is what the lines say.
#[test]
fn the_lines_say_what_is_held() {
    let mut random = Random::new(5);
    for _ in 0..500 {
        let (state, mut bytes) = made_up(&mut random);
        let text = record(&bytes);
        let held: Vec<&str> = text
            .lines()
            .filter(|line| line.ends_with(" took=1 undone=0"))
            .map(|line| &line["number=".len()..line.find(' ').unwrap()])
            .collect();
        assert_eq!(text.lines().count(), state.log.len() + 2);
        assert_eq!(text.lines().last(), Some(format!("held={}", held.join(",")).as_str()));
        assert_eq!(Misprint::TotalsLeftOut.record(&bytes), text);
        assert_eq!(Misprint::Record(Miscount::OnesShown).record(&bytes), text);
        damage(&mut bytes, &state, &mut random);
        assert_eq!(record(&bytes) == "answer=1\n", image::decode(&bytes).is_none());
    }
}
