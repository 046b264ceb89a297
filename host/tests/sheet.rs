//! Order 11 on the independent controller alone: the handover sheet.

mod common;

use common::{commit, commit_rollback, told, transaction, with_open_line, ACCEPTED, REJECTED};
use makowist_host::controller::{Number, Refusal, State, Status, LOG_LIMIT, PATHS};
use makowist_host::fault::{print::Misprint, sheet::Miscount, Fault};
use makowist_host::image::{self, at, entry, entry_at_mut, put_u16, HIGHEST_STATUSES, LENGTH};
use makowist_host::lean;
use makowist_host::made_up::{damage, made_up};
use makowist_host::northbound::act;
use makowist_host::random::Random;
use makowist_host::reads::Query;
use makowist_host::requests::{any_number, any_tally, sensible, wild};
use makowist_host::sheet::{packed, sheet, Class, Counts, Tally, LOGS, TOTALS};

fn image_of(state: &State) -> Vec<u8> {
    let mut bytes = vec![0; LENGTH];
    image::encode(state, &mut bytes);
    bytes
}

/// So many changes of one path that are only appended.
fn appended(count: u16) -> State {
    let mut state = with_open_line();
    for value in 1..=count {
        state.append(&[(3, value)]).unwrap();
    }
    state
}

fn bad() -> Vec<u8> {
    let mut bytes = image_of(&appended(5));
    bytes[at::MASTERSHIP] = 9;
    bytes
}

const NONE: &str = "open=0 stopped=0 invalid=0 taken=0 undoing=0 undone=0";

fn tallied(log: u64, totals: &[u8]) -> Tally {
    Tally { log, totals: totals.to_vec() }
}

/// A session in which each class comes up: 1 is taken, 2 invalid, 3 rejected by the switch, 4 aborted, 5 only appended.
fn of_each() -> State {
    let mut state = appended(5);
    [1, 3, 4].into_iter().for_each(|number| {
        if number == 3 {
            assert_eq!(told(&mut state, 1, 2, REJECTED).0, [Status::InProgress, Status::Failed]);
        }
        commit(&mut state, number);
    });
    assert_eq!(told(&mut state, 2, 1, ACCEPTED).0, [Status::InProgress, Status::Complete]);
    assert_eq!(told(&mut state, 2, 3, REJECTED).0, [Status::InProgress, Status::Failed]);
    assert_eq!(told(&mut state, 2, 4, ACCEPTED).0, [Status::Aborted]);
    state
}

#[test]
fn each_class_where_a_session_leads() {
    let mut state = of_each();
    let classes = |state: &State| [1, 2, 3, 4, 5].map(|number| transaction(state, number).class().number());
    assert_eq!(classes(&state), [4, 3, 2, 2, 1]);
    state.rollback(4).unwrap();
    assert_eq!(classes(&state), [4, 3, 2, 5, 1]);
    assert_eq!(told(&mut state, 3, 4, ACCEPTED).0, [Status::InProgress, Status::Complete]);
    assert_eq!(classes(&state), [4, 3, 2, 5, 1]);
    assert_eq!(told(&mut state, 4, 4, ACCEPTED).0, [Status::Canceled]);
    assert_eq!(classes(&state), [4, 3, 2, 6, 1]);
    commit_rollback(&mut state, 3);
    assert_eq!(told(&mut state, 4, 3, ACCEPTED).0, [Status::InProgress, Status::Complete]);
    state.rollback(1).unwrap();
    assert_eq!(classes(&state), [5, 3, 6, 6, 1]);
    assert_eq!(state.row().counts, [1, 0, 1, 0, 1, 2]);
}

/// Every number of four statuses: how many are in each class, and the same where it lies in the image.
#[test]
fn each_class_by_its_rule() {
    let mut bytes = image_of(&appended(1));
    let mut counts = Counts::default();
    for statuses in 0..=HIGHEST_STATUSES {
        put_u16(entry_at_mut(&mut bytes, Number(1)), entry::STATUSES, statuses);
        let state = image::decode(&bytes).unwrap();
        let class = state.class(1).unwrap();
        counts[class.place()] += 1;
        assert_eq!(lean::class(&bytes, 1), u64::from(class.number()) << 32, "{statuses}");
    }
    assert_eq!(counts, [120, 60, 30, 35, 1470, 686]);
}

#[test]
fn the_first_rule_that_fits() {
    use Status::*;
    for (statuses, class) in [
        ([Complete, Complete, Complete, Complete], Class::Undone),
        ([Complete, Aborted, Complete, Canceled], Class::Undone),
        ([Pending, Pending, None, Canceled], Class::Undone),
        ([Complete, Complete, Complete, Failed], Class::Undoing),
        ([Failed, Complete, Pending, Pending], Class::Undoing),
        ([Complete, Failed, Failed, Aborted], Class::Undoing),
        ([Failed, Complete, None, None], Class::Taken),
        ([Pending, Complete, None, Pending], Class::Taken),
        ([Failed, Aborted, None, None], Class::Invalid),
        ([Failed, Canceled, None, InProgress], Class::Invalid),
        ([Complete, Aborted, None, None], Class::Stopped),
        ([Pending, Failed, None, Aborted], Class::Stopped),
        ([Complete, Canceled, None, None], Class::Open),
        ([Canceled, InProgress, None, Failed], Class::Open),
        ([None, None, None, None], Class::Open),
    ] {
        let mut state = appended(1);
        let it = &mut state.log[0];
        [it.c.commit, it.c.apply, it.r.commit, it.r.apply] = statuses;
        assert_eq!(it.class(), class, "{statuses:?}");
        let mut counts = Counts::default();
        counts[class.place()] = 1;
        assert_eq!(state.row().counts, counts);
    }
}

#[test]
fn a_class_is_read_of_what_is_kept() {
    let mut state = of_each();
    state.fold(2).unwrap();
    for (number, answer) in
        [(0, 5), (1, 18), (2, 18), (3, 2 << 32), (4, 2 << 32), (5, 1 << 32), (6, 5), (65_536 + 3, 5), (u64::MAX, 5)]
    {
        assert_eq!(Query::Class { number }.packed(Some(&state), &[]), answer, "{number}");
        assert_eq!(lean::class(&image_of(&state), number), answer, "{number}");
    }
    assert_eq!(Query::Class { number: 0 }.packed(None, &[]), 1);
    assert_eq!(
        sheet(&image_of(&state)).lines().next(),
        Some("log=1 open=1 stopped=2 invalid=0 taken=0 undoing=0 undone=0 mask=8 drift=1")
    );
}

#[test]
fn drift_at_either_end() {
    let mut state = appended(0);
    let line = |state: &State, mask: u32, drift: u8| {
        assert_eq!(sheet(&image_of(state)), format!("log=1 {NONE} mask={mask} drift={drift}\n{NONE}\n"));
        let row = state.row();
        assert_eq!((row.mask, row.drift), (mask, drift));
        assert_eq!(Query::Drift.packed(Some(state), &[]), u64::from(mask) << 32);
        assert_eq!(lean::drift(&image_of(state)), u64::from(mask) << 32);
    };
    line(&state, 0, 0);
    state.committed.values[0] = 7;
    line(&state, 1, 1);
    state.applied.values[31] = 256;
    line(&state, 2_147_483_649, 2);
    state.applied.values[0] = 7;
    line(&state, 2_147_483_648, 1);
    state.committed.values[31] = 256;
    line(&state, 0, 0);
    state.target.values = [9; PATHS];
    state.base = [8; PATHS];
    line(&state, 0, 0);
    state.committed.values = [300; PATHS];
    line(&state, u32::MAX, 32);
}

#[test]
fn an_empty_input() {
    assert_eq!(sheet(&[]), format!("{NONE}\n"));
}

#[test]
fn a_last_log_that_is_cut_short_is_bad() {
    let bytes = image_of(&of_each());
    let row = "log=1 open=1 stopped=2 invalid=1 taken=1 undoing=0 undone=0 mask=8 drift=1\n";
    let totals = "open=1 stopped=2 invalid=1 taken=1 undoing=0 undone=0\n";
    assert_eq!(sheet(&bytes), format!("{row}{totals}"));
    for more in [1, 2, LENGTH / 2, LENGTH - 1] {
        let input = [&bytes[..], &bytes[..more]].concat();
        assert_eq!(sheet(&input), format!("{row}log=2 answer=1\n{totals}"));
        assert_eq!(sheet(&bytes[..more]), format!("log=1 answer=1\n{NONE}\n"));
    }
}

#[test]
fn damaged_logs_add_nothing() {
    let (good, bad) = (image_of(&appended(3)), bad());
    let text = sheet(&[&bad[..], &good, &bad, &good, &bad].concat());
    let row = "open=3 stopped=0 invalid=0 taken=0 undoing=0 undone=0 mask=0 drift=0";
    let totals = "open=6 stopped=0 invalid=0 taken=0 undoing=0 undone=0";
    assert_eq!(text, format!("log=1 answer=1\nlog=2 {row}\nlog=3 answer=1\nlog=4 {row}\nlog=5 answer=1\n{totals}\n"));
}

#[test]
fn sixty_four_logs_and_one_more() {
    let full = image_of(&appended(LOG_LIMIT as u16));
    let totals = "open=8192 stopped=0 invalid=0 taken=0 undoing=0 undone=0\n";
    let rows: String = (1..=LOGS)
        .map(|log| format!("log={log} open=128 stopped=0 invalid=0 taken=0 undoing=0 undone=0 mask=0 drift=0\n"))
        .collect();
    let input = full.repeat(LOGS);
    assert_eq!(sheet(&input), format!("{rows}{totals}"));
    for more in [&full[..1], &full, &bad(), &full.repeat(3)] {
        assert_eq!(sheet(&[&input[..], more].concat()), format!("{rows}log=65 answer=2\n{totals}"));
    }
}

#[test]
fn a_tally_adds_to_the_totals() {
    let state = of_each();
    let mut asked = tallied(1, &[0; TOTALS]);
    let row = asked.add(Some(&state)).unwrap();
    assert_eq!(asked.totals, [1, 0, 2, 0, 1, 0, 1, 0, 0, 0, 0, 0]);
    assert_eq!(packed(Ok(row)), 0x0100_0001_0102_0100);
    asked = tallied(9, &[255, 0, 0, 1, 0, 0, 255, 1, 0, 0, 1, 0]);
    assert_eq!(asked.add(Some(&state)), Ok(row));
    assert_eq!(asked.totals, [0, 1, 2, 1, 1, 0, 0, 2, 0, 0, 1, 0]);
    let mut all = State::fresh();
    all.committed.values = [1; PATHS];
    assert_eq!(packed(Ok(all.row())), 32 << 56);
    let full = appended(LOG_LIMIT as u16);
    assert_eq!(packed(Ok(full.row())), 128 << 8);
}

/// 2 comes first: for the place, for the length, for what the logs before cannot have; then 1. No byte is changed.
#[test]
fn a_tally_that_is_refused() {
    let state = of_each();
    let within = |log: u64, together: u16| {
        let mut asked = tallied(log, &[0; TOTALS]);
        asked.store(&[together / 2, 0, 0, 0, 0, together - together / 2]);
        asked
    };
    let refused = [
        tallied(0, &[0; TOTALS]),
        tallied(65, &[0; TOTALS]),
        tallied(65_536 + 1, &[0; TOTALS]),
        tallied((1 << 32) + 1, &[0; TOTALS]),
        tallied(u64::MAX, &[0; TOTALS]),
        tallied(1, &[0; TOTALS - 1]),
        tallied(1, &[0; TOTALS + 1]),
        tallied(1, &[]),
        within(1, 1),
        within(2, 129),
        within(64, 128 * 63 + 1),
        tallied(64, &[0xff; TOTALS]),
        tallied(64, &[0xff, 0xff, 1, 0, 0, 0, 0, 0, 0, 0, 0, 0]),
    ];
    for asked in refused {
        for image in [Some(&state), None] {
            let mut added = asked.clone();
            assert_eq!(added.add(image), Err(Refusal::OutOfRange), "{asked:?}");
            assert_eq!(added, asked);
        }
    }
    for asked in [within(1, 0), within(2, 128), within(2, 127), within(64, 128 * 63)] {
        let mut added = asked.clone();
        assert_eq!(added.add(None), Err(Refusal::NotWellFormed), "{asked:?}");
        assert_eq!(added, asked);
        assert!(added.add(Some(&state)).is_ok(), "{asked:?}");
    }
    assert_eq!([Err(Refusal::OutOfRange), Err(Refusal::NotWellFormed)].map(packed), [2, 1]);
}

/// Logs at random: what a sheet says in the end is what its logs keep together, and what their tallies leave.
#[test]
fn totals_are_what_is_kept() {
    let mut random = Random::new(11);
    let mut refused = 0;
    for _ in 0..40 {
        let mut input = Vec::new();
        let mut kept = 0;
        let mut totals = vec![0; TOTALS];
        for log in 1..=random.between(1, LOGS) as u64 {
            let (state, mut bytes) = made_up(&mut random);
            if random.once_in(3) {
                damage(&mut bytes, &state, &mut random);
                bytes.resize(LENGTH, 0);
            }
            let state = image::decode(&bytes);
            let mut asked = Tally { log, totals };
            let added = asked.add(state.as_ref());
            assert_eq!(added.ok(), state.as_ref().map(State::row));
            totals = asked.totals;
            kept += state.as_ref().map_or(0, |state| state.log.len());
            refused += u32::from(state.is_none());
            input.extend(bytes);
        }
        let text = sheet(&input);
        let last = text.lines().last().unwrap();
        let together: usize =
            last.split(' ').map(|item| item.split_once('=').unwrap().1.parse::<usize>().unwrap()).sum();
        assert_eq!(together, kept, "{last}");
        let left = totals.chunks(2).map(|two| u16::from_le_bytes([two[0], two[1]]).to_string());
        let shown = last.split(' ').map(|item| item.split_once('=').unwrap().1.to_string());
        assert!(left.eq(shown), "{last} {totals:?}");
    }
    assert!(refused > 100, "{refused}");
}

/// In every state of long sessions each kept transaction is in one class, and the reads where they lie show the same.
#[test]
fn the_lean_reads_show_the_same() {
    let mut random = Random::new(2);
    for log_limit in [2, 8, 128] {
        let mut state = State::fresh();
        for turn in 0..4_000 {
            let request =
                if turn % 9 == 0 { wild(&state, &mut random) } else { sensible(&state, log_limit, &mut random) };
            act(&mut state, &request);
            let row = state.row();
            assert_eq!(row.counts.iter().map(|count| usize::from(*count)).sum::<usize>(), state.log.len());
            assert_eq!(u32::from(row.drift), row.mask.count_ones());
            if turn % 8 == 0 {
                let bytes = image_of(&state);
                let number = any_number(&state, &mut random);
                for query in Query::of_sheet(number).into_iter().chain([Query::Drift]) {
                    assert_eq!(lean::read(&bytes, query), query.packed(Some(&state), &bytes), "{query:?}");
                }
            }
        }
    }
    for _ in 0..1_000 {
        let (state, bytes) = made_up(&mut random);
        let number = any_number(&state, &mut random);
        for query in Query::of_sheet(number).into_iter().chain([Query::Drift]) {
            assert_eq!(lean::read(&bytes, query), query.packed(Some(&state), &bytes), "{query:?}");
        }
    }
}

/// Without a fault the copies that faults are put into are the independent one: these are wrong elsewhere alone.
#[test]
fn the_copy_for_faults_is_one() {
    let (miscount, misprint) = (Fault::Sheet(Miscount::OnesShown), Misprint::The65thTaken);
    let mut random = Random::new(3);
    for _ in 0..2_000 {
        let (state, mut bytes) = made_up(&mut random);
        if random.once_in(3) {
            damage(&mut bytes, &state, &mut random);
        }
        let state = image::decode(&bytes);
        let (mut one, mut other) = (any_tally(&mut random), Tally { log: 0, totals: Vec::new() });
        other.clone_from(&one);
        assert_eq!(packed(one.add(state.as_ref())), miscount.add(state.as_ref(), &mut other));
        assert_eq!(one, other);
        let number = state.as_ref().map_or(1, |state| any_number(state, &mut random));
        for query in Query::of_sheet(number) {
            assert_eq!(query.packed(state.as_ref(), &bytes), miscount.read(state.as_ref(), &bytes, query));
        }
        assert_eq!(sheet(&bytes), misprint.sheet(&bytes));
        assert_eq!(sheet(&bytes), Misprint::FoldedIsNext.sheet(&bytes));
    }
    assert!(Miscount::all().iter().all(|each| Fault::named(&format!("Sheet({each:?})")) == Some(Fault::Sheet(*each))));
}
