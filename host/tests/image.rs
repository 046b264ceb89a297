//! The codec: a state's way through the image and back, and which bytes a call leaves alone.

use makowist_host::arguments::Wide;
use makowist_host::controller::{Number, State, LOG_LIMIT, PAIR_LIMIT, PATHS};
use makowist_host::image::{self, at, entry, weight, ENTRY, HIGHEST_STATUSES, LENGTH};
use makowist_host::northbound::{self, bytes_of, Request};
use makowist_host::random::Random;
use makowist_host::lean;
use makowist_host::lines::{self, Line};
use makowist_host::reads::Query;
use makowist_host::requests::{any_question, sensible, wild};
use makowist_host::why::Question;

fn fresh() -> Vec<u8> {
    let mut bytes = vec![0xa5; LENGTH];
    assert_eq!(northbound::serve(&mut bytes, &Request::Fresh(0)).packed(), 0);
    bytes
}

fn serve(bytes: &mut [u8], request: Request) -> u64 {
    northbound::serve(bytes, &request).packed()
}

fn work(job: u64, number: u64) -> Request {
    Request::Work { node: 1, job, number, outcome: 0, cut: 0 }
}

/// An image with two changes, the first committed and the second begun, and the line open.
fn some() -> Vec<u8> {
    let mut bytes = fresh();
    for request in [
        Request::Append(bytes_of(&[(3, 7), (9, 8)])),
        Request::Append(bytes_of(&[(1, 1)])),
        Request::Start,
        Request::Connect(1),
        Request::Master(1),
        Request::Sync(1),
        Request::Sync(1),
        work(1, 1),
        work(1, 1),
        work(1, 2),
    ] {
        assert_eq!(serve(&mut bytes, request) & 0xff, 0);
    }
    bytes
}

#[test]
fn the_layout_ends_where_it_says() {
    assert_eq!(entry::R_OWNERS + 2 * PAIR_LIMIT, ENTRY);
    assert_eq!(ENTRY * LOG_LIMIT, at::HIGHEST);
    assert_eq!(at::COMMITTED_VALUES + 2 * PATHS, at::OWNERS);
    assert_eq!(at::OWNERS + 2 * PATHS, at::APPLIED);
    assert_eq!([at::TARGET + 4, at::RUNNING + 1, at::REMEMBERS + 1], [at::RUNNING, at::REMEMBERS, at::CONNECTIONS]);
    assert_eq!(at::CONNECTIONS + 8 * at::CONNECTION, at::FOLDED);
    assert_eq!(at::BASE + 2 * PATHS, LENGTH);
}

#[test]
fn fresh_is_zero_but_for_the_pending_configuration() {
    let mut expected = vec![0; LENGTH];
    expected[at::CONFIGURATION] = 1;
    assert_eq!(fresh(), expected);
    assert_eq!(image::decode(&expected), Some(State::fresh()));
    expected[at::REMEMBERS] = 1;
    let mut remembering = fresh();
    assert_eq!(serve(&mut remembering, Request::Fresh(1)), 0);
    assert_eq!(remembering, expected);
    assert_eq!(image::decode(&expected), Some(State::fresh_of(true)));
    for remembers in [2, 256, 1 << 16, (1 << 32) + 1, u64::MAX] {
        assert_eq!(serve(&mut remembering, Request::Fresh(remembers)), 2);
        assert_eq!(lean::fresh(&mut remembering, remembers), 2);
        assert_eq!(remembering, expected);
    }
}

#[test]
fn what_is_decoded_is_encoded_to_the_same_bytes() {
    let mut bytes = some();
    let state = image::decode(&bytes).unwrap();
    for byte in &mut bytes[2 * ENTRY..at::HIGHEST] {
        *byte = 0xee;
    }
    bytes[entry::PATHS + 2] = 77;
    bytes[entry::R_VALUES + 4] = 78;
    let before = bytes.clone();
    assert_eq!(image::decode(&bytes), Some(state.clone()));
    image::encode(&state, &mut bytes);
    assert_eq!(bytes, before);
}

/// An image whose ring wraps: 101 to 160 are kept, in the slots from 100 to the last and from 0 to 31.
fn wrapped() -> Vec<u8> {
    let mut bytes = some();
    for request in [work(1, 2), work(2, 1), work(2, 1), work(2, 2), work(2, 2)] {
        assert_eq!(serve(&mut bytes, request) & 0xff, 0);
    }
    for number in 3..=160 {
        let append = Request::Append(bytes_of(&[(number as u16 % 32, number as u16)]));
        for request in [append, work(1, number), work(1, number), work(2, number), work(2, number)] {
            assert_eq!(serve(&mut bytes, request) & 0xff, 0);
        }
        if number % 50 == 0 && number <= 100 {
            assert_eq!(serve(&mut bytes, Request::Fold(number)), 0);
        }
    }
    bytes
}

#[test]
fn a_ring_that_wraps_comes_back_as_it_was() {
    let mut bytes = wrapped();
    let unused = ENTRY * 32..ENTRY * 100;
    bytes[unused.clone()].fill(0xee);
    let state = image::decode(&bytes).unwrap();
    assert_eq!((state.folded, state.highest()), (Number(100), Number(160)));
    for (number, slot) in [(101, 100), (128, 127), (129, 0), (160, 31)] {
        assert_eq!(image::slot(Number(number)), slot);
        let value = state.transaction(Number(number)).unwrap().change.pairs()[0].value;
        assert_eq!((value, image::u16_at(&bytes, ENTRY * slot + entry::VALUES)), (number, number));
    }
    let before = bytes.clone();
    image::encode(&state, &mut bytes);
    assert_eq!(bytes, before);
    for query in Query::all(&state) {
        assert_eq!(lean::read(&bytes, query), query.packed(Some(&state), &bytes), "{query:?}");
    }
    assert_eq!(serve(&mut bytes, Request::Fold(130)), 0);
    assert_eq!(bytes[..at::HIGHEST], before[..at::HIGHEST]);
    assert_eq!(bytes[at::HIGHEST..at::FOLDED], before[at::HIGHEST..at::FOLDED]);
    assert_eq!(image::u16_at(&bytes, at::BASE + 2 * (130 % 32)), 130);
}

#[test]
fn the_lean_calls_lead_to_the_same_bytes() {
    let mut random = Random::new(7);
    for begin in [fresh(), wrapped()] {
        let (mut typed, mut lean) = (begin.clone(), begin);
        let mut folded = Number::NONE;
        for turn in 0..20_000 {
            let state = image::decode(&typed).unwrap();
            if turn % 4 == 0 {
                let query = Query::Why(any_question(&state, &mut random));
                assert_eq!(lean::read(&lean, query), query.packed(Some(&state), &typed), "{query:?}");
            }
            let request = if turn % 8 == 0 { wild(&state, &mut random) } else { sensible(&state, 128, &mut random) };
            let pairs = if let Request::Append(pairs) = &request { pairs.as_slice() } else { &[] };
            let expected = northbound::serve(&mut typed, &request).packed();
            assert_eq!(lean::serve(&mut lean, &request, pairs), expected, "{request:?}");
            assert!(typed == lean, "{request:?}");
            folded = folded.max(state.folded);
        }
        assert!(folded > Number(128));
    }
}

#[test]
fn the_lean_reads_show_the_same() {
    let mut random = Random::new(8);
    let bytes = wrapped();
    let state = image::decode(&bytes).unwrap();
    for _ in 0..20_000 {
        let query = Query::any(&state, &mut random);
        assert_eq!(lean::read(&bytes, query), query.packed(Some(&state), &bytes), "{query:?}");
    }
    for length in 0..=2 * state.live().count() + 3 {
        let (mut typed, mut lean) = (vec![0xab; length], vec![0xab; length]);
        assert_eq!(lean::live(&bytes, &mut lean), northbound::live(&bytes, &mut typed));
        assert_eq!(lean, typed);
    }
}

#[test]
fn a_number_is_never_cut() {
    let bytes = some();
    for wide in Wide::ALL {
        for (request, answer) in [
            (Request::Connect(wide.of(2)), 2),
            (Request::Rollback(wide.of(1)), 5),
            (Request::Work { node: 1, job: wide.of(1), number: wide.of(2), outcome: 0, cut: 0 }, 2),
            (work(1, wide.of(2)), 5),
        ] {
            let mut after = bytes.clone();
            assert_eq!(serve(&mut after, request.clone()), answer, "{request:?}");
            assert_eq!(after, bytes);
        }
    }
}

#[test]
fn another_length_is_not_well_formed() {
    let mut bytes = some();
    assert!(image::decode(&bytes[..LENGTH - 1]).is_none());
    bytes.push(0);
    assert!(image::decode(&bytes).is_none());
    for remembers in [0, 1, 2, u64::MAX] {
        assert_eq!(serve(&mut bytes, Request::Fresh(remembers)), 1);
        assert_eq!(lean::fresh(&mut bytes, remembers), 1);
    }
}

#[test]
fn append_zeroes_the_places_it_does_not_use() {
    let mut bytes = some();
    bytes[2 * ENTRY..4 * ENTRY].fill(0xee);
    assert_eq!(serve(&mut bytes, Request::Append(bytes_of(&[(5, 6)]))), 3 << 32);
    let mut entry = [0; ENTRY];
    image::put_u16(&mut entry, entry::STATUSES, 343 + 49);
    entry[entry::PHASE..entry::R_INDEX].copy_from_slice(&[1, 1]);
    entry[entry::PATHS] = 5;
    entry[entry::VALUES] = 6;
    assert_eq!(bytes[2 * ENTRY..3 * ENTRY], entry);
    assert!(bytes[3 * ENTRY..4 * ENTRY].iter().all(|byte| *byte == 0xee));
}

/// The owners that it remembers too: its path 3 is that of change 1, and the places past its pairs are below its own number.
#[test]
fn a_begun_change_gets_all_its_r_values_anew() {
    let mut bytes = some();
    for request in [work(1, 2), Request::Append(bytes_of(&[(3, 7)]))] {
        assert_eq!(serve(&mut bytes, request) & 0xff, 0);
    }
    let third = 2 * ENTRY;
    bytes[third + entry::R_VALUES..third + entry::R_OWNERS].fill(0xee);
    bytes[third + entry::VALUES + 2..third + entry::R_VALUES].fill(0xdd);
    (0..PAIR_LIMIT).for_each(|place| image::put_u16(&mut bytes, third + entry::R_OWNERS + 2 * place, 2));
    image::put_u16(&mut bytes, at::COMMITTED_VALUES + 6, 55);
    assert_eq!(serve(&mut bytes, work(1, 3)) & 0xff, 0);
    assert_eq!(bytes[third + entry::R_VALUES..third + entry::R_OWNERS], [55, 0, 0, 0, 0, 0, 0, 0]);
    assert_eq!(bytes[third + entry::R_OWNERS..third + ENTRY], [1, 0, 0, 0, 0, 0, 0, 0]);
    assert!(bytes[third + entry::VALUES + 2..third + entry::R_VALUES].iter().all(|byte| *byte == 0xdd));
}

#[test]
fn a_byte_out_of_range_is_refused() {
    let cases = [
        (entry::STATUSES + 1, 10), (entry::STATUSES + 1, 128), (entry::PHASE, 0), (entry::PHASE, 3), (entry::PAIRS, 0),
        (entry::PAIRS, 5), (entry::R_INDEX, 1), (entry::C_ORDINAL + 2, 2), (entry::R_ORDINAL + 3, 1),
        (entry::R_OWNERS, 1), (entry::R_OWNERS + 6, 1), (entry::R_OWNERS + 7, 1), (ENTRY + entry::R_OWNERS + 2, 2),
        (at::OWNERS, 2), (at::OWNERS + 63, 1),
        (entry::PATHS, 9), (entry::PATHS + 1, 32), (at::HIGHEST, 0), (at::HIGHEST, 129), (at::FOLDED, 3), (at::COMMITTED, 3),
        (at::COMMITTED + 4, 2), (at::COMMITTED + 8, 2), (at::APPLIED + 2, 3), (at::CONFIGURATION, 0),
        (at::CONFIGURATION, 4), (at::MASTERSHIP, 9), (at::RUNNING, 2), (at::REMEMBERS, 2),
        (at::REMEMBERS, 255), (at::CONNECTIONS + 4, 2),
    ];
    for (place, byte) in cases {
        let mut bytes = some();
        bytes[place] = byte;
        assert!(image::decode(&bytes).is_none(), "{place} {byte}");
        let before = bytes.clone();
        assert_eq!(serve(&mut bytes, Request::Start), 1);
        assert_eq!(lean::start(&mut bytes), 1);
        assert_eq!(bytes, before);
    }
}

/// Order 12: c.commit × 343 + c.apply × 49 + r.commit × 7 + r.apply. Every four statuses have their number, and nothing above
/// 2,400 is one.
#[test]
fn four_statuses_have_one_number() {
    let mut bytes = some();
    let first = image::entry_at(&bytes, Number(1)).to_vec();
    let mut number = 0;
    for [a, b, c, d] in (0..7).flat_map(|a| (0..7).flat_map(move |b| (0..7).flat_map(move |c| (0..7).map(move |d| [a, b, c, d])))) {
        image::put_u16(&mut bytes, entry::STATUSES, number);
        let one = image::decode_entry(&bytes[..ENTRY]).unwrap();
        assert_eq!([one.c.commit, one.c.apply, one.r.commit, one.r.apply].map(|status| status.code()), [a, b, c, d]);
        assert_eq!(image::statuses(&one), number);
        let state = image::decode(&bytes);
        for (field, code) in [(2, a), (3, b), (5, c), (6, d)] {
            let query = Query::Transaction { number: 1, field };
            assert_eq!(query.packed(state.as_ref(), &bytes), u64::from(code) << 32);
            assert_eq!(lean::read(&bytes, query), u64::from(code) << 32);
        }
        number += 1;
    }
    assert_eq!(number, HIGHEST_STATUSES + 1);
    for above in number..=u16::MAX {
        bytes[..ENTRY].copy_from_slice(&first);
        image::put_u16(&mut bytes, entry::STATUSES, above);
        assert!(image::decode(&bytes).is_none());
        assert_eq!(lean::read(&bytes, Query::Record { field: 1 }), 1);
    }
}

#[test]
fn any_well_formed_bytes_come_back_as_they_were() {
    let mut random = Random::new(5);
    let mut seen = 0;
    for _ in 0..2000 {
        let mut bytes = some();
        for _ in 0..random.between(1, 3) {
            let place = place_in_use(&mut random);
            bytes[place] = random.below(8) as u8;
        }
        if let Some(state) = image::decode(&bytes) {
            let before = bytes.clone();
            image::encode(&state, &mut bytes);
            assert_eq!(bytes, before);
            seen += 1;
        }
    }
    assert!(seen > 100);
}

/// From images that differ from those of a session in a few bytes, so that every reason is given.
#[test]
fn the_lean_reasons_are_the_same() {
    let mut random = Random::new(9);
    let mut begin = some();
    let append = Request::Append(bytes_of(&[(5, 6)]));
    for request in [append.clone(), append, work(1, 2)] {
        assert_eq!(serve(&mut begin, request) & 0xff, 0);
    }
    let in_entries = |fields: &[usize]| -> Vec<usize> {
        fields.iter().flat_map(|field| [0, 1, 2].map(|slot| ENTRY * slot + field)).collect()
    };
    let mut numbers = in_entries(&[entry::R_INDEX, entry::C_ORDINAL, entry::R_ORDINAL]);
    numbers.extend([at::COMMITTED, at::APPLIED].iter().flat_map(|head| [0, 2, 4, 6].map(|field| head + field)));
    numbers.push(at::COMMITTED_CHANGE);
    let mut seen = [0; 8];
    for _ in 0..6_000 {
        let mut bytes = begin.clone();
        for _ in 0..random.between(1, 4) {
            let weight = random.one_of(&[weight::C_COMMIT, weight::C_APPLY, weight::R_COMMIT, weight::R_APPLY]);
            let number = Number(random.between(1, 3) as u16);
            image::put_status(image::entry_at_mut(&mut bytes, number), weight, random.below(7) as u8);
            bytes[random.one_of(&numbers)] = random.below(4) as u8;
        }
        let state = image::decode(&bytes);
        for (job, number) in (1..=4).flat_map(|job| [1, 2, 3, 4].map(|number| (job, number))) {
            let query = Query::Why(Question { node: 1, job, number });
            let expected = query.packed(state.as_ref(), &bytes);
            assert_eq!(lean::read(&bytes, query), expected, "{query:?} {state:?}");
            let reason = (expected >> 8 & 0xff) as usize;
            seen.get_mut(reason.wrapping_sub(1)).into_iter().for_each(|count| *count += 1);
        }
    }
    assert!(seen.iter().all(|count| *count > 30), "{seen:?}");
}

#[test]
fn a_read_where_it_lies_shows_what_the_state_has() {
    let mut bytes = some();
    bytes[entry::PATHS + 2] = 77;
    bytes[entry::VALUES + 6] = 78;
    bytes[entry::R_VALUES + 4] = 79;
    let state = image::decode(&bytes);
    for query in Query::all(state.as_ref().unwrap()) {
        assert_eq!(lean::read(&bytes, query), query.packed(state.as_ref(), &bytes), "{query:?}");
    }
    assert_eq!(Query::Transaction { number: 1, field: 15 }.packed(state.as_ref(), &bytes), 8 << 32);
    assert_eq!(Query::Record { field: 5 }.packed(state.as_ref(), &bytes), 1 << 32);
    assert_eq!(Query::Value { table: 1, path: 9 }.packed(state.as_ref(), &bytes), 8 << 32);
    assert_eq!(Query::Connection { node: 1, field: 2 }.packed(state.as_ref(), &bytes), 1 << 32);
    assert_eq!(Query::Transaction { number: 3, field: 22 }.packed(state.as_ref(), &bytes), 2);
    assert_eq!(Query::Transaction { number: 3, field: 21 }.packed(state.as_ref(), &bytes), 5);
    assert_eq!(Query::Record { field: 0 }.packed(None, &bytes), 1);
}

#[test]
fn a_call_written_as_a_line_is_read_as_that_call() {
    let mut random = Random::new(6);
    let mut state = State::fresh();
    let mut written = 0;
    for turn in 0..3000 {
        let request = if turn % 2 == 0 { wild(&state, &mut random) } else { sensible(&state, 128, &mut random) };
        if let Some(line) = lines::asking(&request) {
            let read = line.strip_suffix('\n').and_then(|line| lines::read(line.as_bytes()));
            assert_eq!(read, Some(Line::Call(request.clone())));
            northbound::act(&mut state, &request);
            written += 1;
        }
    }
    assert!(written > 2000);
}

fn place_in_use(random: &mut Random) -> usize {
    match random.below(3) {
        0 => random.below(2 * ENTRY),
        _ => random.between(at::HIGHEST, LENGTH - 1),
    }
}
