//! Order 6 on the independent controller alone: what a list leads to, and which entry a refusal names.

mod common;

use common::{commit, commit_rollback, told, transaction, with_open_line, ACCEPTED, REJECTED};
use makowist_host::controller::{
    ConfigurationState, Number, Ordinal, Phase, Refusal, State, Status, Term, LOG_LIMIT,
};
use makowist_host::fault::Fault;
use makowist_host::image::{decode, LENGTH};
use makowist_host::import::{entries, judge, listed, Entry, Refused, ENTRY, ENTRY_LIMIT};
use makowist_host::lines::{importing, read, stepped, Line};
use makowist_host::lists::{any_good, Bad};
use makowist_host::northbound;
use makowist_host::random::Random;

fn change(pairs: &[(u16, u16)]) -> Entry {
    Entry::change(pairs)
}

fn rollback(named: u16) -> Entry {
    Entry::Rollback { named }
}

fn imported(entries: &[Entry]) -> State {
    State::imported(&listed(entries)).unwrap()
}

fn refused(entries: &[Entry]) -> (u8, u16) {
    let Refused { refusal, position } = State::imported(&listed(entries)).unwrap_err();
    (refusal.number(), position)
}

/// The example of docs/IMPORT.md.
#[test]
fn the_pages_example() {
    let list = [
        change(&[(3, 7)]),
        change(&[(3, 9), (5, 1)]),
        rollback(2),
        change(&[(3, 0), (31, 65_535)]),
        change(&[(0, 1), (1, 2), (5, 4)]),
        rollback(5),
        change(&[(5, 6)]),
    ];
    let state = imported(&list);
    assert_eq!(state.log.len(), 5);
    let committed = &state.committed;
    assert_eq!([committed.index, committed.change, committed.target, committed.revision].map(|number| number.0), [5; 4]);
    assert_eq!(committed.ordinal, Ordinal(7));
    let held: Vec<(usize, u16)> = committed.values.iter().copied().enumerate().filter(|(_, value)| *value != 0).collect();
    assert_eq!(held, [(5, 6), (31, 65_535)]);
    let ordinals: Vec<(u32, u32)> = state.log.iter().map(|it| (it.c.ordinal.0, it.r.ordinal.0)).collect();
    assert_eq!(ordinals, [(1, 0), (2, 3), (4, 0), (5, 6), (7, 0)]);
    let before: Vec<(u16, [u16; 4])> = state.log.iter().map(|it| (it.r_index.0, it.r_values)).collect();
    assert_eq!(before, [(0, [0; 4]), (1, [7, 0, 0, 0]), (1, [7, 0, 0, 0]), (3, [0; 4]), (3, [0; 4])]);
    assert_eq!(state.live().map(|number| number.0).collect::<Vec<_>>(), [5, 3, 1]);
}

#[test]
fn a_list_of_none_is_the_three_calls() {
    let state = imported(&[]);
    assert_eq!(state, State::ready());
    assert!(state.target.running && state.connections[0].connected);
    assert_eq!((state.target.id, state.connections[0].id, state.mastership.conn), (1, 1, 1));
    assert_eq!(state.mastership.master.map(|master| master.number()), Some(1));
    assert_eq!((state.mastership.term, state.configuration.term), (Term(1), Term(0)));
    assert_eq!(state.configuration.state, ConfigurationState::Pending);
}

/// All commits are finished and nothing is applied.
#[test]
fn commits_are_finished_and_nothing_is_applied() {
    let state = imported(&[change(&[(3, 7)]), change(&[(4, 1)]), rollback(2)]);
    let (kept, undone) = (transaction(&state, 1), transaction(&state, 2));
    assert_eq!((kept.phase, kept.c.commit, kept.c.apply), (Phase::Change, Status::Complete, Status::Pending));
    assert_eq!((kept.r.commit, kept.r.apply), (Status::None, Status::None));
    assert_eq!((undone.phase, undone.c.commit, undone.c.apply), (Phase::Rollback, Status::Complete, Status::Pending));
    assert_eq!((undone.r.commit, undone.r.apply), (Status::Complete, Status::Pending));
    assert!(state.at_rest());
    assert_eq!((state.applied.ordinal, state.applied.revision), (Ordinal::NONE, Number::NONE));
    assert_eq!((state.applied.values, state.target.values), ([0; 32], [0; 32]));
}

/// A change overlays: what it does not name stays, and its rollback brings back what it found.
#[test]
fn a_change_overlays() {
    let state = imported(&[change(&[(1, 10), (2, 20)]), change(&[(2, 21)])]);
    assert_eq!((state.committed.values[1], state.committed.values[2]), (10, 21));
    let state = imported(&[change(&[(1, 10), (2, 20)]), change(&[(2, 21)]), rollback(2)]);
    assert_eq!((state.committed.values[1], state.committed.values[2]), (10, 20));
}

/// By the calls made one by one, for many lists; and a list is good exactly where none of its calls is refused.
#[test]
fn it_is_what_the_calls_leave() {
    let mut random = Random::new(1);
    let mut bad = 0;
    for _ in 0..4_000 {
        let mut list = any_good(&mut random);
        if random.once_in(2) && !list.is_empty() {
            let place = random.below(list.len());
            list = random.one_of(&Bad::ALL).put(&list, place).unwrap_or(list);
        }
        let by_calls = called(&list);
        assert_eq!(State::imported(&listed(&list)).ok(), by_calls, "{list:?}");
        bad += usize::from(by_calls.is_none());
    }
    assert!((1_000..3_000).contains(&bad), "{bad}");
}

/// The state that the calls of a list leave, none where one is refused. A rollback's position is looked up among the changes.
fn called(list: &[Entry]) -> Option<State> {
    let mut state = State::fresh();
    state.start().ok()?;
    state.connect(1).ok()?;
    state.master(1).ok()?;
    let mut numbers = vec![None; list.len()];
    for (place, entry) in list.iter().enumerate() {
        let (job, number) = match entry {
            Entry::Change { count, .. } if usize::from(*count) == entry.pairs().len() => {
                let number = u64::from(state.append(entry.pairs()).ok()?.0);
                numbers[place] = Some(number);
                (1, number)
            }
            Entry::Rollback { named } => {
                let number = (*numbers.get(usize::from(*named).checked_sub(1)?)?)?;
                state.rollback(number).ok()?;
                (3, number)
            }
            _ => return None,
        };
        for _ in 0..2 {
            state.work(1, job, number, 0, 0).reply.ok()?;
        }
    }
    Some(state)
}

#[test]
fn the_first_bad_entry_is_named() {
    let good = [change(&[(3, 7)]), change(&[(4, 1)]), rollback(2)];
    for (place, bad) in (0..good.len()).flat_map(|place| Bad::ALL.map(|bad| (place, bad))) {
        let Some(list) = bad.put(&good, place) else {
            continue;
        };
        let refusal = if bad.is_of_pairs() { 3 } else { 16 };
        assert_eq!(refused(&list), (refusal, place as u16 + 1), "{bad:?}");
        let twice = [&list[..], &[Entry::Neither { kind: 7 }, change(&[])]].concat();
        assert_eq!(refused(&twice), (refusal, place as u16 + 1), "{bad:?}");
    }
}

#[test]
fn anything_but_the_newest_live_change_is_refused() {
    let three = [change(&[(1, 1)]), change(&[(2, 2)]), change(&[(3, 3)])];
    let after = |more: &[Entry]| [&three[..], more].concat();
    assert_eq!(imported(&after(&[rollback(3), rollback(2), rollback(1)])).committed.revision, Number::NONE);
    assert_eq!(refused(&after(&[rollback(2)])), (16, 4));
    assert_eq!(refused(&after(&[rollback(3), rollback(3)])), (16, 5));
    assert_eq!(refused(&after(&[rollback(3), rollback(4)])), (16, 5));
    assert_eq!(refused(&after(&[rollback(3), rollback(1)])), (16, 5));
    assert_eq!(refused(&after(&[rollback(0)])), (16, 4));
    assert_eq!(refused(&after(&[rollback(4)])), (16, 4));
    assert_eq!(refused(&after(&[rollback(5)])), (16, 4));
    assert_eq!(refused(&[rollback(1)]), (16, 1));
    let again = after(&[rollback(3), change(&[(4, 4)]), rollback(5), rollback(2), rollback(1)]);
    assert_eq!(imported(&again).committed.revision, Number::NONE);
}

#[test]
fn so_many_fit() {
    let changes = vec![change(&[(1, 1)]); LOG_LIMIT];
    let undone: Vec<Entry> = (1..=LOG_LIMIT as u16).rev().map(rollback).collect();
    assert_eq!(imported(&changes).log.len(), LOG_LIMIT);
    let whole = [&changes[..], &undone[..]].concat();
    assert_eq!(whole.len(), ENTRY_LIMIT);
    assert_eq!((imported(&whole).committed.revision, imported(&whole).committed.ordinal), (Number::NONE, Ordinal(256)));
    for more in 0..LOG_LIMIT {
        let list = [&changes[..], &undone[..more], &[change(&[(2, 2)])]].concat();
        assert_eq!(refused(&list), (4, (LOG_LIMIT + more) as u16 + 1));
        let list = [&changes[..], &undone[..more], &[change(&[])]].concat();
        assert_eq!(refused(&list), (3, (LOG_LIMIT + more) as u16 + 1));
    }
    assert_eq!(refused(&[&whole[..], &[change(&[(2, 2)])]].concat()), (2, 0));
    assert_eq!(refused(&[&[Entry::Neither { kind: 0 }], &whole[..]].concat()), (2, 0));
}

#[test]
fn bytes_that_are_not_whole() {
    let list = listed(&[change(&[(3, 7)]), change(&[(4, 1)])]);
    for length in 0..=list.len() {
        let expected = if length % ENTRY == 0 { Ok(length / ENTRY) } else { Err((Refusal::OutOfRange, 0)) };
        let found = State::imported(&list[..length]);
        assert_eq!(found.map(|state| state.log.len()).map_err(|refused| (refused.refusal, refused.position)), expected);
    }
}

/// As in the header: kind, count or position, then four pairs, two bytes each, the lower one first.
#[test]
fn an_entry_s_bytes() {
    let bytes = [1, 0, 2, 0, 3, 0, 0x39, 0x30, 31, 0, 0xff, 0xff, 0, 0, 0, 0, 0, 0, 0, 0];
    assert_eq!(change(&[(3, 12_345), (31, 65_535)]).bytes(), bytes);
    assert_eq!(entries(&bytes).unwrap(), [change(&[(3, 12_345), (31, 65_535)])]);
    let mut bytes = [0; ENTRY];
    bytes[..4].copy_from_slice(&[2, 0, 2, 1]);
    assert_eq!(rollback(258).bytes(), bytes);
    bytes[4..].fill(0xab);
    assert_eq!(entries(&bytes).unwrap(), [rollback(258)]);
    bytes[..4].copy_from_slice(&[1, 0, 5, 0]);
    assert_eq!(judge(&entries(&bytes).unwrap()).unwrap_err().refusal, Refusal::NotAChange);
}

/// The image before does not matter; a refused list writes no byte, whatever they are.
#[test]
fn whole_images() {
    let mut random = Random::new(3);
    let good = listed(&[change(&[(3, 7)]), change(&[(4, 1)]), rollback(2)]);
    let mut first = vec![0; LENGTH];
    assert_eq!(northbound::import(&mut first, &good), 0);
    assert_eq!(decode(&first), State::imported(&good).ok());
    for _ in 0..50 {
        let before: Vec<u8> = (0..LENGTH).map(|_| random.bits() as u8).collect();
        let mut image = before.clone();
        assert_eq!(northbound::import(&mut image, &good[..ENTRY + 1]), 2);
        assert_eq!(northbound::import(&mut image, &listed(&[rollback(1)])), 16 | 1 << 32);
        assert_eq!(image, before);
        assert_eq!(northbound::import(&mut image[1..], &good), 1);
        assert_eq!(image, before);
        assert_eq!(northbound::import(&mut image, &good), 0);
        assert_eq!(image, first);
    }
}

/// Behind an import it cannot be told from the calls that the list stands for: two synchronises open the line.
#[test]
fn the_line_is_opened_behind_it() {
    let mut state = imported(&[change(&[(3, 7)]), change(&[(4, 1)]), rollback(2), change(&[(5, 2)])]);
    state.sync(1).unwrap();
    state.sync(1).unwrap();
    let mut called = with_open_line();
    called.append(&[(3, 7)]).unwrap();
    commit(&mut called, 1);
    called.append(&[(4, 1)]).unwrap();
    commit(&mut called, 2);
    commit_rollback(&mut called, 2);
    called.append(&[(5, 2)]).unwrap();
    commit(&mut called, 3);
    assert_eq!(state, called);
    assert_eq!(told(&mut state, 2, 1, ACCEPTED).0, [Status::InProgress, Status::Complete]);
    assert_eq!(told(&mut state, 2, 2, ACCEPTED).0, [Status::Aborted]);
    assert_eq!(told(&mut state, 4, 2, ACCEPTED).0, [Status::Canceled]);
    assert_eq!(told(&mut state, 2, 3, REJECTED).0, [Status::InProgress, Status::Failed]);
}

#[test]
fn a_night_applies_it() {
    let import = "call=import entries=3:7/4:1/2/5:2\n";
    let night = "call=sync node=1\ncall=sync node=1\ncall=night node=1 budget=64 outcomes=\n";
    let answers = stepped([import, night].concat().as_bytes());
    assert!(answers.ends_with("committed=3 committed_ordinal=4 applied=3 applied_ordinal=4\n"), "{answers}");
}

#[test]
fn lines() {
    let answer = |line: &str| stepped(line.as_bytes()).lines().next().unwrap().to_string();
    let unreadable = "answer=2 phase=0 stage=0 number=0 status=0";
    for (entries, answered) in [
        ("", "answer=0 position=0"),
        ("3:7,4:1/3:9/2", "answer=0 position=0"),
        ("03:007/3:9/00002", "answer=0 position=0"),
        ("/", "answer=3 position=1"),
        ("3:7/", "answer=3 position=2"),
        ("3:7//1", "answer=3 position=2"),
        ("1:1,2:2,3:3,4:4,5:5", "answer=3 position=1"),
        ("3:7/32:1", "answer=3 position=2"),
        ("3:7/0", "answer=16 position=2"),
        ("3:7/65535", "answer=16 position=2"),
        ("3:7/1/1", "answer=16 position=3"),
        ("3:7/1/2", "answer=16 position=3"),
        ("3:7/65536", unreadable),
        ("3:7/-1", unreadable),
        ("3:7/1 ", unreadable),
        ("3:7/3:7,", unreadable),
        ("3:7/,3:7", unreadable),
        ("3:7 /1", unreadable),
        ("3:7/3:65536", unreadable),
        ("3:7/3", "answer=16 position=2"),
        ("3:7:1", unreadable),
    ] {
        assert_eq!(answer(&format!("call=import entries={entries}")), answered, "{entries}");
    }
    for rest in ["", " ", " entries", " pairs=3:7", " entries=3:7 node=1"] {
        assert_eq!(answer(&format!("call=import{rest}")), unreadable, "{rest}");
    }
    assert_eq!(answer(&format!("call=import entries={}", vec!["1:1"; 257].join("/"))), "answer=2 position=0");
    assert_eq!(answer(&format!("call=import entries={}x", "1:1/".repeat(257))), unreadable);
    assert_eq!(answer(&format!("call=import entries={}", vec!["1:1"; 129].join("/"))), "answer=4 position=129");
    let five = vec!["1:1"; 70_000].join(",");
    assert_eq!(answer(&format!("call=import entries={five}")), "answer=3 position=1");
}

/// It stands in place of the fresh start: as the first line alone, and one that is refused or unreadable uses the place up.
#[test]
fn the_first_line_alone() {
    let unreadable = "answer=2 phase=0 stage=0 number=0 status=0";
    let import = "call=import entries=3:7";
    for first in ["call=import entries=1", "call=import", "call=start", "", "call=import entries=4:4"] {
        let answers = stepped(format!("{first}\n{import}\n").as_bytes());
        assert_eq!(answers.lines().nth(1), Some(unreadable), "{first}");
    }
    let answers = stepped(format!("call=import entries=1\n{import}\ncall=start\n").as_bytes());
    assert_eq!(answers.lines().nth(2), Some("answer=0 phase=0 stage=0 number=0 status=0"));
    assert!(answers.ends_with("committed=0 committed_ordinal=0 applied=0 applied_ordinal=0\n"));
}

/// A list goes into a line and comes back.
#[test]
fn lines_and_lists() {
    let mut random = Random::new(9);
    for _ in 0..500 {
        let list = any_good(&mut random);
        let line = importing(&list).unwrap();
        assert_eq!(read(line.trim_end().as_bytes()), Some(Line::Import(list)));
    }
    assert_eq!(importing(&[change(&[])]), None);
    assert_eq!(importing(&[Entry::Neither { kind: 3 }]), None);
    assert_eq!(importing(&[Entry::counted(5, [(1, 1), (2, 2), (3, 3), (4, 4)].into_iter())]), None);
}

/// Without a fault the copy that faults are put into is the independent one.
#[test]
fn the_copy_for_faults_is_one() {
    let mut random = Random::new(4);
    let blunder = Fault::named("Import(EntryLimit(257))").unwrap();
    for _ in 0..1_000 {
        let mut list = any_good(&mut random);
        if random.once_in(2) {
            let place = random.below(list.len() + 1);
            list = random.one_of(&Bad::ALL).put(&list, place).unwrap_or(list);
        }
        let before: Vec<u8> = (0..LENGTH).map(|_| random.bits() as u8).collect();
        let bytes = listed(&list);
        let (mut by_one, mut by_other) = (before.clone(), before.clone());
        let reply = northbound::import(&mut by_one, &bytes);
        assert_eq!(blunder.import(&mut by_other, &bytes), reply);
        assert_eq!(by_one, by_other);
    }
}
