//! Order 13: a target that remembers keeps its values while it is stopped; of either kind a synchronise writes the paths that
//! differ, and answers how many.

use makowist_host::controller::{ConfigurationState, Refusal, State, PATHS};
use makowist_host::fault::outside::Slip;
use makowist_host::fault::Fault;
use makowist_host::image::{self, at, LENGTH};
use makowist_host::import::{listed, Entry};
use makowist_host::lean;
use makowist_host::lines::{read, stepped, Line};
use makowist_host::northbound::{self, act, Answer, Request};
use makowist_host::random::Random;
use makowist_host::requests::{sensible, wild};
use makowist_host::switch::Switch;

const KINDS: [bool; 2] = [false, true];

/// A target of that kind with the line open for node 1.
fn opened(remembers: bool) -> State {
    let mut state = State::fresh_of(remembers);
    state.start().unwrap();
    state.connect(1).unwrap();
    state.master(1).unwrap();
    assert_eq!([state.sync(1), state.sync(1)], [Ok(0), Ok(0)]);
    state
}

/// The next change, applied by a push with that cut.
fn pushed(state: &mut State, pairs: &[(u16, u16)], cut: u64) {
    let number = state.append(pairs).unwrap().0.into();
    for (job, cut) in [(1, 0), (1, 0), (2, 0), (2, cut)] {
        state.work(1, job, number, 0, cut).reply.unwrap();
    }
}

fn applied(state: &mut State, pairs: &[(u16, u16)]) {
    pushed(state, pairs, 0);
}

/// Stops the target and starts it again, and answers how many paths the synchronise wrote.
fn power_cycled(state: &mut State) -> u16 {
    state.stop().unwrap();
    state.start().unwrap();
    resynchronised(state)
}

/// Connects again where the line was lost, and answers how many paths the synchronise wrote.
fn resynchronised(state: &mut State) -> u16 {
    state.connect(1).unwrap();
    state.master(1).unwrap();
    state.master(1).unwrap();
    assert_eq!(state.sync(1), Ok(0));
    assert_eq!(state.configuration.state, ConfigurationState::InProgress);
    let written = state.sync(1).unwrap();
    assert_eq!(state.target.values, state.applied.values);
    written
}

#[test]
fn a_stop_keeps_the_values_of_a_target_that_remembers() {
    for remembers in KINDS {
        let mut state = opened(remembers);
        applied(&mut state, &[(3, 7), (31, 65535)]);
        let values = state.target.values;
        state.stop().unwrap();
        assert_eq!(state.target.values, if remembers { values } else { [0; PATHS] });
        assert_eq!((state.target.running, state.target.remembers), (false, remembers));
        assert!(state.connections.iter().all(|connection| !connection.connected));
        assert_eq!(state.stop(), Err(Refusal::AlreadySo));
        state.start().unwrap();
        assert_eq!(state.target.values, if remembers { values } else { [0; PATHS] });
        assert_eq!((state.target.id, state.target.remembers), (2, remembers));
    }
}

#[test]
fn a_synchronise_answers_how_many_paths_it_wrote() {
    for remembers in KINDS {
        let mut state = opened(remembers);
        assert_eq!(power_cycled(&mut state), 0);
        applied(&mut state, &[(3, 7)]);
        assert_eq!(power_cycled(&mut state), if remembers { 0 } else { 1 });
        for first in (0..32).step_by(4) {
            applied(&mut state, &[(first, 1), (first + 1, 1), (first + 2, 1), (first + 3, 1)]);
        }
        assert_eq!(power_cycled(&mut state), if remembers { 0 } else { 32 });
        applied(&mut state, &[(9, 0), (10, 0)]);
        assert_eq!(power_cycled(&mut state), if remembers { 0 } else { 30 });
        state.disconnect(1).unwrap();
        assert_eq!(resynchronised(&mut state), 0);
    }
}

/// A push that is cut at its first store is all that a target that remembers has before a synchronise takes it back; what is absent
/// among the applied values is written too.
#[test]
fn a_cut_push_is_taken_back() {
    for (remembers, power) in KINDS.into_iter().flat_map(|remembers| KINDS.map(|power| (remembers, power))) {
        let mut state = opened(remembers);
        applied(&mut state, &[(3, 7), (4, 7)]);
        pushed(&mut state, &[(3, 7), (4, 0), (5, 9)], 1);
        assert_eq!(state.target.values[3..6], [7, 0, 9]);
        let written = if power {
            power_cycled(&mut state)
        } else {
            state.disconnect(1).unwrap();
            resynchronised(&mut state)
        };
        assert_eq!(written, 2, "remembers {remembers}, power {power}");
        assert_eq!(state.target.values[3..6], [7, 7, 0]);
    }
}

/// The kind makes no difference but to what a target has while it is stopped, or started again and not synchronised.
#[test]
fn with_the_line_open_both_kinds_are_one() {
    let mut random = Random::new(13);
    for _ in 0..300 {
        let mut states = KINDS.map(State::fresh_of);
        let mut switches = [Switch::default(), Switch::default()];
        for _ in 0..random.between(20, 200) {
            let request = if random.once_in(8) { wild(&states[0], &mut random) } else { sensible(&states[0], 4, &mut random) };
            if matches!(request, Request::Fresh(_)) {
                continue;
            }
            let served = states.each_mut().map(|state| act(state, &request));
            if !matches!(request, Request::Sync(_)) {
                assert_eq!(served[0], served[1], "{request:?}");
            }
            for ((state, switch), served) in states.iter().zip(&mut switches).zip(&served) {
                switch.called(state, &request, served);
                assert!(switch.stands(state).is_some(), "{request:?}: {state:?}");
            }
            let [forgets, remembers] = &states;
            let is_open = forgets.mastership.master.is_some_and(|master| forgets.line_open(master));
            let mut like = remembers.clone();
            like.target.remembers = false;
            if !is_open {
                like.target.values = forgets.target.values;
            }
            assert_eq!(*forgets, like, "{request:?}");
        }
    }
}

/// In a session one cut push is all by which a target that remembers differs: at most four paths.
#[test]
fn a_target_that_remembers_is_written_little() {
    let mut random = Random::new(7);
    let mut written = [0; 5];
    for _ in 0..600 {
        let mut state = State::fresh_of(true);
        for _ in 0..200 {
            let request = sensible(&state, 4, &mut random);
            if let (Request::Sync(_), Ok(Answer::Wrote(paths))) = (&request, act(&mut state, &request).reply) {
                written[usize::from(paths)] += 1;
            }
        }
    }
    assert!(written[0] > 0 && written[1] > 0, "{written:?}");
}

#[test]
fn the_flag_is_fixed() {
    let mut random = Random::new(3);
    for remembers in KINDS {
        let mut state = State::fresh_of(remembers);
        for _ in 0..5_000 {
            let request = wild(&state, &mut random);
            if !matches!(request, Request::Fresh(_)) {
                act(&mut state, &request);
            }
            assert_eq!(state.target.remembers, remembers, "{request:?}");
        }
    }
    let mut state = State::fresh_of(true);
    assert_eq!(state.freshen(2), Err(Refusal::OutOfRange));
    assert_eq!(state, State::fresh_of(true));
    assert_eq!(state.freshen(0), Ok(()));
    assert_eq!(state, State::fresh());
}

#[test]
fn an_imported_target_forgets() {
    let list = listed(&[Entry::change(&[(3, 7)])]);
    let mut bytes = vec![1; LENGTH];
    assert_eq!(northbound::import(&mut bytes, &list), 0);
    assert_eq!(bytes[at::REMEMBERS], 0);
    assert!(!image::decode(&bytes).unwrap().target.remembers);
}

/// The reply has the number where an append's is, and nothing else.
#[test]
fn the_number_of_a_reply() {
    for remembers in [0, 1] {
        let mut bytes = vec![0; LENGTH];
        let mut lean_bytes = bytes.clone();
        let mut serve = |request: Request| {
            let pairs = if let Request::Append(pairs) = &request { pairs.clone() } else { Vec::new() };
            let reply = northbound::serve(&mut bytes, &request).packed();
            assert_eq!(lean::serve(&mut lean_bytes, &request, &pairs), reply, "{request:?}");
            assert_eq!(bytes, lean_bytes, "{request:?}");
            reply
        };
        let open = [Request::Master(1), Request::Sync(1), Request::Sync(1)];
        let begin = [Request::Fresh(remembers), Request::Start, Request::Connect(1)];
        let replies: Vec<u64> = begin.into_iter().chain(open).map(&mut serve).collect();
        assert_eq!(replies, [0; 6]);
        assert_eq!(serve(Request::Append(vec![3, 0, 7, 0, 4, 0, 1, 0])), 1 << 32);
        for job in [1, 1, 2, 2] {
            assert_eq!(serve(Request::Work { node: 1, job, number: 1, outcome: 0, cut: 0 }) & 0xff, 0);
        }
        let again = [Request::Stop, Request::Start, Request::Connect(1), Request::Master(1), Request::Master(1), Request::Sync(1)];
        assert!(again.into_iter().map(&mut serve).all(|reply| reply == 0));
        assert_eq!(serve(Request::Sync(1)), if remembers == 1 { 0 } else { 2 << 32 });
        assert_eq!(serve(Request::Sync(1)), 11);
    }
}

/// It stands in place of the fresh start, as an import does: as the first line alone, which a refused or unreadable one uses up.
#[test]
fn the_first_line_alone() {
    let (refused, accepted) = ("answer=2 phase=0 stage=0 number=0 status=0", "answer=0 phase=0 stage=0 number=0 status=0");
    let first = |line: &str| stepped(format!("{line}\n").as_bytes()).lines().next().unwrap_or_default().to_string();
    for line in ["call=fresh remembers=0", "call=fresh remembers=1", "call=fresh remembers=0001"] {
        assert_eq!(first(line), accepted, "{line}");
    }
    assert_eq!(read(b"call=fresh remembers=2"), Some(Line::Fresh(2)));
    assert_eq!(first("call=fresh remembers=2"), refused);
    for line in [
        "call=fresh", "call=fresh ", "call=fresh remembers", "call=fresh remembers=", "call=fresh remembers=65536",
        "call=fresh remembers=1 ", "call=fresh  remembers=1", "call=fresh remembers=yes", "call=fresh remembers=1 remembers=1",
        "call=fresh node=1", "call=fresh Remembers=1",
    ] {
        assert_eq!(read(line.as_bytes()), None, "{line}");
        assert_eq!(first(line), refused, "{line}");
    }
    for line in ["call=fresh remembers=2", "call=fresh", "call=start", "", "call=fresh remembers=1", "call=import entries=4:4"] {
        for second in ["call=fresh remembers=1", "call=import entries=3:7"] {
            let answers = stepped(format!("{line}\n{second}\n").as_bytes());
            assert_eq!(answers.lines().nth(1), Some(refused), "{line}, {second}");
        }
    }
}

/// A synchronise's line shows its number as an append's does.
#[test]
fn a_session_through_a_power_cycle() {
    let line_opens = "call=master node=1\ncall=sync node=1\ncall=sync node=1\n";
    let work = |job: u64| format!("call=work node=1 job={job} number=1 outcome=0 cut=0\n").repeat(2);
    for remembers in [0, 1] {
        let calls = [
            format!("call=fresh remembers={remembers}\ncall=start\ncall=connect node=1\n{line_opens}"),
            format!("call=append pairs=3:7,4:1\n{}{}", work(1), work(2)),
            format!("call=stop\ncall=start\ncall=connect node=1\ncall=master node=1\n{line_opens}"),
        ];
        let answers = stepped(calls.concat().as_bytes());
        let answers: Vec<&str> = answers.lines().collect();
        let number = if remembers == 1 { 0 } else { 2 };
        let [begun, written] = [0, number].map(|number| format!("answer=0 phase=0 stage=0 number={number} status=0"));
        assert_eq!(answers[answers.len() - 3..answers.len() - 1], [begun, written]);
    }
}

/// Each slip of this order changes what some chosen call comes to; the comparison finds them by such calls.
#[test]
fn slips_are_seen() {
    let mut state = opened(true);
    applied(&mut state, &[(3, 7)]);
    let stopped = |fault: Fault| {
        let mut state = state.clone();
        fault.act(&mut state, &Request::Stop);
        state.target.values[3]
    };
    assert_eq!(stopped(Fault::Harmless), 7);
    assert_eq!(stopped(Fault::Outside(Slip::StopForgets)), 0);
    state.stop().unwrap();
    state.target.values[4] = 1;
    state.start().unwrap();
    state.connect(1).unwrap();
    for _ in 0..2 {
        state.master(1).unwrap();
    }
    let begun = |fault: Fault| fault.act(&mut state.clone(), &Request::Sync(1)).packed() >> 32;
    assert_eq!(begun(Fault::Harmless), 0);
    assert_eq!(begun(Fault::Outside(Slip::SyncBeginsWithACount)), 1);
    state.sync(1).unwrap();
    let written = |fault: Fault| fault.act(&mut state.clone(), &Request::Sync(1)).packed() >> 32;
    assert_eq!(written(Fault::Harmless), 1);
    assert_eq!(written(Fault::Outside(Slip::SyncCountsAll)), 32);
}
