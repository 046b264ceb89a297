//! Order 7 on the independent controller alone: who set a path.

mod common;

use common::{commit, commit_rollback, told, transaction, with_open_line, ACCEPTED, REJECTED};
use makowist_host::controller::{Number, Refusal, State, Status, PATHS};
use makowist_host::fault::{owner::Claim, Fault};
use makowist_host::image::{self, at, entry, put_u16, ENTRY, LENGTH};
use makowist_host::import::{listed, Entry};
use makowist_host::lean;
use makowist_host::lines::{read, stepped, Line};
use makowist_host::lists::any_good;
use makowist_host::northbound::{act, Request};
use makowist_host::random::Random;
use makowist_host::reads::Query;
use makowist_host::requests::{sensible, wild};

fn owner(state: &State, path: u64) -> u16 {
    state.owner(path).unwrap().0
}

/// What is kept of owners is what the whole live list says.
fn holds(state: &State) {
    for (path, listed) in (0..).zip(state.owners_by_list()) {
        assert_eq!(state.owner(path), Ok(listed), "path {path} of {state:?}");
    }
}

fn committed(state: &mut State, pairs: &[(u16, u16)]) -> u64 {
    let number = state.append(pairs).unwrap().0.into();
    commit(state, number);
    number
}

fn applied(state: &mut State, pairs: &[(u16, u16)]) -> u64 {
    let number = committed(state, pairs);
    assert_eq!(told(state, 2, number, ACCEPTED).0, [Status::InProgress, Status::Complete]);
    number
}

#[test]
fn nobody_at_first() {
    let state = State::fresh();
    assert!((0..32).all(|path| owner(&state, path) == 0));
    for path in [32, 33, 255, 256, 65_535, 65_536, 1 << 32, u64::MAX] {
        assert_eq!(state.owner(path), Err(Refusal::OutOfRange), "{path}");
    }
}

#[test]
fn the_newest_live_change() {
    let mut state = with_open_line();
    committed(&mut state, &[(3, 7), (5, 1)]);
    assert_eq!([3, 4, 5].map(|path| owner(&state, path)), [1, 0, 1]);
    committed(&mut state, &[(3, 9)]);
    assert_eq!([3, 4, 5].map(|path| owner(&state, path)), [2, 0, 1]);
    commit_rollback(&mut state, 2);
    assert_eq!([3, 4, 5].map(|path| owner(&state, path)), [1, 0, 1]);
    commit_rollback(&mut state, 1);
    assert_eq!([3, 4, 5].map(|path| owner(&state, path)), [0, 0, 0]);
}

#[test]
fn a_delete_owns_its_path() {
    let mut state = with_open_line();
    committed(&mut state, &[(3, 7)]);
    committed(&mut state, &[(3, 0)]);
    assert_eq!((state.committed.values[3], owner(&state, 3)), (0, 2));
    committed(&mut state, &[(3, 0), (4, 0)]);
    assert_eq!((owner(&state, 3), owner(&state, 4)), (3, 3));
    commit_rollback(&mut state, 3);
    assert_eq!((owner(&state, 3), owner(&state, 4)), (2, 0));
}

/// A change to the value that is there owns the path all the same; an invalid one does not, nor one that is only appended.
#[test]
fn who_owns_and_who_does_not() {
    let mut state = with_open_line();
    committed(&mut state, &[(3, 7)]);
    committed(&mut state, &[(3, 7)]);
    assert_eq!(owner(&state, 3), 2);
    state.append(&[(3, 8)]).unwrap();
    assert_eq!(owner(&state, 3), 2);
    assert_eq!(told(&mut state, 1, 3, REJECTED).0, [Status::InProgress, Status::Failed]);
    assert_eq!(owner(&state, 3), 2);
    holds(&state);
}

/// What was there is remembered by the store that makes it InProgress, which also sets r.index and r.values; the owner moves with the
/// store of Complete, before the status, and so back.
#[test]
fn store_by_store() {
    let mut state = with_open_line();
    committed(&mut state, &[(3, 7)]);
    state.append(&[(3, 9), (4, 1)]).unwrap();
    assert_eq!(transaction(&state, 2).r_owners, [Number(0); 4]);
    let (nothing, remembered) = ([Number(0); 4], [1, 0, 0, 0].map(Number));
    for (status, r_owners, owners) in [
        (Status::Pending, nothing, [1, 0]),
        (Status::InProgress, remembered, [1, 0]),
        (Status::InProgress, remembered, [2, 2]),
        (Status::Complete, remembered, [2, 2]),
    ] {
        assert!(state.work(1, 1, 2, ACCEPTED, 1).reply.is_ok());
        let it = transaction(&state, 2);
        assert_eq!((it.c.commit, it.r_owners, [3, 4].map(|path| owner(&state, path))), (status, r_owners, owners));
    }
    state.rollback(2).unwrap();
    for (status, owners) in
        [(Status::Pending, [2, 2]), (Status::InProgress, [2, 2]), (Status::InProgress, [1, 0]), (Status::Complete, [1, 0])]
    {
        assert!(state.work(1, 3, 2, ACCEPTED, 1).reply.is_ok());
        let it = transaction(&state, 2);
        assert_eq!((it.r.commit, it.r_owners, [3, 4].map(|path| owner(&state, path))), (status, remembered, owners));
    }
}

/// A fold leaves what is kept and what is remembered; what is folded is answered as 0, and given back so.
#[test]
fn a_fold() {
    let mut state = with_open_line();
    applied(&mut state, &[(3, 7), (4, 4)]);
    applied(&mut state, &[(4, 5)]);
    applied(&mut state, &[(3, 9)]);
    state.fold(1).unwrap();
    assert_eq!((owner(&state, 3), owner(&state, 4), transaction(&state, 3).r_owners[0]), (3, 2, Number(1)));
    holds(&state);
    commit_rollback(&mut state, 3);
    assert_eq!((owner(&state, 3), state.committed.owners[3], state.committed.values[3]), (0, Number(1), 7));
    holds(&state);
    assert_eq!(told(&mut state, 4, 3, ACCEPTED).0, [Status::InProgress, Status::Complete]);
    state.fold(3).unwrap();
    assert!((0..32).all(|path| owner(&state, path) == 0));
    assert_eq!(state.committed.owners[4], Number(2));
    committed(&mut state, &[(4, 1)]);
    assert_eq!((owner(&state, 4), transaction(&state, 4).r_owners[0]), (4, Number(2)));
    assert!(state.is_well_formed());
}

#[test]
fn an_import_leaves_them_as_its_calls_do() {
    let (change, rollback) = (Entry::change, |named| Entry::Rollback { named });
    let list = [change(&[(3, 7)]), change(&[(3, 9), (5, 1)]), rollback(2), change(&[(3, 0), (31, 65_535)]), change(&[(5, 6)])];
    let state = State::imported(&listed(&list)).unwrap();
    assert_eq!([0, 3, 5, 31].map(|path| owner(&state, path)), [0, 3, 4, 3]);
    assert_eq!(state.log.iter().map(|it| it.r_owners[0].0).collect::<Vec<_>>(), [0, 1, 1, 0]);
    let mut random = Random::new(7);
    for _ in 0..500 {
        holds(&State::imported(&listed(&any_good(&mut random))).unwrap());
    }
}

/// In every state of long sessions, with cut jobs, folds and disturbances.
#[test]
fn it_is_what_the_whole_live_list_says() {
    let mut random = Random::new(1);
    let (mut moved, mut folded) = (0, 0);
    for log_limit in [1, 2, 4, 8, 30, 128] {
        let mut state = State::fresh();
        for turn in 0..6_000 {
            let owners = state.committed.owners;
            let request = if turn % 9 == 0 { wild(&state, &mut random) } else { sensible(&state, log_limit, &mut random) };
            act(&mut state, &request);
            holds(&state);
            assert!(state.is_well_formed());
            moved += u32::from(state.committed.owners != owners);
        }
        folded += u32::from(state.folded.0);
    }
    assert!(moved > 1_000 && folded > 200, "{moved} {folded}");
}

/// The codec: the table behind the committed values, four places at the end of an entry, and both limits.
#[test]
fn whole_images() {
    let mut state = with_open_line();
    committed(&mut state, &[(3, 7)]);
    committed(&mut state, &[(3, 9), (31, 1)]);
    state.append(&[(3, 1)]).unwrap();
    let mut bytes = vec![0; LENGTH];
    image::encode(&state, &mut bytes);
    assert_eq!((bytes[at::OWNERS + 6], bytes[at::OWNERS + 62], bytes[ENTRY + entry::R_OWNERS]), (2, 2, 1));
    let queries = (0..PATHS as u64 + 2).map(|path| Query::Owner { path });
    for (place, most) in [(at::OWNERS, 2), (at::OWNERS + 62, 2), (ENTRY + entry::R_OWNERS, 1), (2 * ENTRY + entry::R_OWNERS + 6, 2)] {
        for (owner, is_formed) in [(0, true), (most, true), (most + 1, false), (most + 256, false), (u16::MAX, false)] {
            let mut bytes = bytes.clone();
            put_u16(&mut bytes, place, owner);
            let decoded = image::decode(&bytes);
            assert_eq!(decoded.is_some(), is_formed, "{owner} at {place}");
            assert_eq!(lean::is_well_formed(&bytes), is_formed, "{owner} at {place}");
            assert!(image::decode_whatever_owners(&bytes).is_some());
            for query in queries.clone() {
                assert_eq!(lean::read(&bytes, query), query.packed(decoded.as_ref(), &bytes), "{query:?}");
            }
        }
    }
}

#[test]
fn lines() {
    let session = "call=append pairs=3:7\ncall=start\ncall=connect node=1\ncall=master node=1\n\
                   call=work node=1 job=1 number=1 outcome=0 cut=0\ncall=owner path=3\n\
                   call=work node=1 job=1 number=1 outcome=0 cut=0\n";
    let answered = |line: &str| stepped(format!("{session}{line}").as_bytes()).lines().nth(7).unwrap().to_string();
    assert_eq!(stepped(session.as_bytes()).lines().nth(5), Some("answer=0 owner=0"));
    let unreadable = "answer=2 phase=0 stage=0 number=0 status=0";
    for (line, answer) in [
        ("call=owner path=3", "answer=0 owner=1"),
        ("call=owner path=0003", "answer=0 owner=1"),
        ("call=owner path=0", "answer=0 owner=0"),
        ("call=owner path=31", "answer=0 owner=0"),
        ("call=owner path=32", "answer=2 owner=0"),
        ("call=owner path=65535", "answer=2 owner=0"),
        ("call=owner path=65536", unreadable),
        ("call=owner path=", unreadable),
        ("call=owner path=-1", unreadable),
        ("call=owner path=3 ", unreadable),
        ("call=owner path=3 path=3", unreadable),
        ("call=owner number=3", unreadable),
        ("call=owner", unreadable),
    ] {
        assert_eq!(answered(line), answer, "{line}");
    }
    assert_eq!(read(b"call=owner path=7"), Some(Line::Owner(7)));
}

/// Without a fault the copy that faults are put into is the independent one: what path 0 may hold is all that this one leaves open.
#[test]
fn the_copy_for_faults_is_one() {
    let harmless = Claim::OwnerUnasked(0);
    let mut random = Random::new(3);
    let (mut one, mut other) = (State::fresh(), State::fresh());
    for _ in 0..5_000 {
        let request = sensible(&one, 8, &mut random);
        assert_eq!(act(&mut one, &request), harmless.act(&mut other, &request));
        assert_eq!(one, other);
        let path = random.below(34) as u64;
        assert_eq!(Query::Owner { path }.packed(Some(&one), &[]), harmless.read(Some(&other), &[], Query::Owner { path }));
        if random.once_in(20) {
            let mut bytes = vec![0; LENGTH];
            image::encode(&one, &mut bytes);
            put_u16(&mut bytes, at::OWNERS + 2 * random.between(1, 31), random.below(4 + usize::from(one.highest().0)) as u16);
            assert_eq!(image::decode(&bytes), harmless.decode(&bytes));
        }
    }
    assert!(one.folded > Number::NONE);
    assert!(Claim::all().iter().all(|claim| Fault::named(&format!("Owner({claim:?})")) == Some(Fault::Owner(*claim))));
    assert_eq!(Fault::Owner(Claim::NotSet).act(&mut one, &Request::Fresh(0)).packed(), 0);
}
