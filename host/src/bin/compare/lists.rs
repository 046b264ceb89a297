//! The lists that are imported beside those of sessions: chosen ones, and random ones, good and nearly good.

use crate::desk::{Compared, Desk};
use crate::imports::import;
use crate::outside;
use makowist_host::controller::{State, LOG_LIMIT};
use makowist_host::guarded::Edge;
use makowist_host::image::{self, LENGTH};
use makowist_host::import::{listed, Entry, ENTRY, ENTRY_LIMIT};
use makowist_host::lists::{any_good, good, Bad};
use makowist_host::random::Random;

/// How many lists at random, of which one in so many is a good one.
const AT_RANDOM: usize = 1_500;
const GOOD_ONE_IN: usize = 3;

/// Chosen lists, and such as are drawn with one seed: the same on every machine.
pub fn run(desk: &mut Desk) -> Compared<()> {
    let mut random = Random::new(6);
    let nonsense: Vec<u8> = (0..LENGTH).map(|_| random.bits() as u8).collect();
    for edge in [Edge::End, Edge::Begin] {
        desk.edge = edge;
        lengths(desk, &nonsense)?;
        spoilt(desk, &nonsense)?;
        images(desk, &nonsense)?;
    }
    desk.edge = Edge::End;
    full(desk, &nonsense)?;
    drawn(desk, &mut random)
}

/// Lists at random, each into bytes at random, at either edge.
pub fn drawn(desk: &mut Desk, random: &mut Random) -> Compared<()> {
    let edge = desk.edge;
    for _ in 0..AT_RANDOM {
        desk.edge = random.one_of(&[Edge::End, Edge::Begin]);
        at_random(desk, random)?;
    }
    desk.edge = edge;
    Ok(())
}

/// A change by its place, so that no two are the same.
fn change(place: usize) -> Entry {
    let (place, paths) = (place as u16, 1 + place as u16 % 4);
    Entry::change(&(0..paths).map(|path| (place % 28 + path, (place * 7 + path) % 11)).collect::<Vec<_>>())
}

/// So many changes and behind them so many rollbacks, the newest first.
fn nested(changes: usize, rollbacks: usize) -> Vec<Entry> {
    let undone = (0..rollbacks).map(|back| Entry::Rollback { named: (changes - back) as u16 });
    (0..changes).map(change).chain(undone).collect()
}

/// So many entries, a change and its rollback in turn.
fn in_turn(length: usize) -> Vec<Entry> {
    let entry = |place: usize| if place % 2 == 0 { change(place) } else { Entry::Rollback { named: place as u16 } };
    (0..length).map(entry).collect()
}

/// One that has all kinds of entries: changes that are undone, that live, and rollbacks; its positions are not its numbers.
fn mixed() -> Vec<Entry> {
    let rollback = |named: u16| Entry::Rollback { named };
    vec![
        Entry::change(&[(3, 7)]),
        Entry::change(&[(3, 9), (5, 1)]),
        rollback(2),
        Entry::change(&[(3, 0), (31, 65_535)]),
        Entry::change(&[(0, 1), (3, 4), (5, 0), (30, 256)]),
        rollback(5),
        rollback(4),
        Entry::change(&[(3, 2), (5, 6)]),
        Entry::change(&[(5, 300)]),
    ]
}

/// Good lists of chosen lengths, and bytes that are no list.
fn lengths(desk: &mut Desk, nonsense: &[u8]) -> Compared<()> {
    let mixed = mixed();
    for length in 0..=mixed.len() {
        import(desk, nonsense, &listed(&mixed[..length]))?;
    }
    for length in [1, 2, ENTRY_LIMIT - 1] {
        import(desk, nonsense, &listed(&in_turn(length)))?;
    }
    let mut unused = listed(&mixed);
    for (place, entry) in mixed.iter().enumerate() {
        let used = 4 + 4 * entry.pairs().len();
        unused[ENTRY * place + used..ENTRY * (place + 1)].fill(0xab);
    }
    import(desk, nonsense, &unused)?;
    let many = listed(&in_turn(ENTRY_LIMIT + 2));
    let bad = listed(&[&[Entry::Neither { kind: 0 }], &in_turn(ENTRY_LIMIT + 1)[..]].concat());
    for list in [many, bad] {
        for length in [1, 2, ENTRY - 1, ENTRY + 1, 2 * ENTRY - 1, ENTRY * ENTRY_LIMIT - 1] {
            import(desk, nonsense, &list[..length])?;
        }
        for more in [1, ENTRY - 1, ENTRY, ENTRY + 1, 2 * ENTRY] {
            import(desk, nonsense, &list[..ENTRY * ENTRY_LIMIT + more])?;
        }
    }
    Ok(())
}

/// Each way in which an entry is bad: alone, at the first, a middle and the last place of a short list and of a long one; and with
/// another bad one behind it.
fn spoilt(desk: &mut Desk, nonsense: &[u8]) -> Compared<()> {
    let long = in_turn(ENTRY_LIMIT);
    for list in [mixed()[..1].to_vec(), mixed(), long] {
        for (bad, place) in Bad::ALL.iter().flat_map(|bad| places(list.len()).map(move |place| (*bad, place))) {
            let Some(spoilt) = bad.put(&list, place) else {
                continue;
            };
            import(desk, nonsense, &listed(&spoilt))?;
            let other = if bad.is_of_pairs() { Bad::Kind3 } else { Bad::NoPairs };
            let twice = spoilt.len() - 1;
            if let Some(twice) = other.put(&spoilt, twice).filter(|_| place < twice) {
                import(desk, nonsense, &listed(&twice))?;
            }
        }
    }
    Ok(())
}

/// The first places, some between, and the last.
fn places(length: usize) -> impl Iterator<Item = usize> + Clone {
    let middle = if length < 16 { 1..length } else { length / 2..length / 2 + 2 };
    let mut all: Vec<usize> = [0, length - 1].into_iter().chain(middle).collect();
    all.sort_unstable();
    all.dedup();
    all.into_iter()
}

/// Lists of as many changes as can be kept, and of one more.
fn full(desk: &mut Desk, nonsense: &[u8]) -> Compared<()> {
    for rollbacks in [0, 1, LOG_LIMIT - 1, LOG_LIMIT] {
        import(desk, nonsense, &listed(&nested(LOG_LIMIT, rollbacks)))?;
    }
    import(desk, nonsense, &listed(&in_turn(ENTRY_LIMIT)))?;
    let undone = [0, LOG_LIMIT - 2, LOG_LIMIT - 1].map(|rollbacks| nested(LOG_LIMIT, rollbacks));
    for list in undone.into_iter().chain([in_turn(ENTRY_LIMIT - 1)]) {
        for last in [change(0), Entry::change(&[]), Entry::change(&[(3, 7), (3, 7)]), Entry::Neither { kind: 0 }] {
            let one_more = [&list[..], &[last]].concat();
            import(desk, nonsense, &listed(&one_more))?;
            if one_more.len() < ENTRY_LIMIT {
                import(desk, nonsense, &listed(&[&one_more[..], &[Entry::Neither { kind: 9 }]].concat()))?;
            }
        }
    }
    Ok(())
}

/// Into what is no image, and into images that are some.
fn images(desk: &mut Desk, nonsense: &[u8]) -> Compared<()> {
    let bad = listed(&[Entry::Neither { kind: 0 }]);
    let lists = [listed(&mixed()), Vec::new(), bad, vec![0; 7], listed(&in_turn(ENTRY_LIMIT + 1))];
    for list in &lists {
        for length in [0, 1, ENTRY, LENGTH - 1] {
            import(desk, &nonsense[..length], list)?;
        }
        for more in [1, LENGTH] {
            import(desk, &[nonsense, &nonsense[..more]].concat(), list)?;
        }
        let mut bytes = vec![0; LENGTH];
        import(desk, &bytes, list)?;
        for state in [State::fresh(), outside::states().next().expect("a chosen state")] {
            image::encode(&state, &mut bytes);
            import(desk, &bytes, list)?;
        }
    }
    Ok(())
}

/// A list at random: a good one, or one with a bad entry, or with other bytes at some place.
fn at_random(desk: &mut Desk, random: &mut Random) -> Compared<()> {
    let before: Vec<u8> = (0..LENGTH).map(|_| random.bits() as u8).collect();
    let entries = any_good(random);
    let mut list = listed(&entries);
    if !random.once_in(GOOD_ONE_IN) {
        if let Some(spoilt) = random.one_of(&Bad::ALL).put(&entries, random.below(entries.len() + 1)) {
            list = listed(&spoilt);
        }
        if random.once_in(4) {
            for _ in 0..random.between(1, 3).min(list.len()) {
                let place = random.below(list.len());
                list[place] = random.one_of(&[0, 1, 2, 3, 4, 5, 31, 32, 255]);
            }
        }
        if random.once_in(12) {
            list.resize(random.below(2 * list.len() + ENTRY), 1);
        }
    }
    import(desk, &before, &list).map(|_| ())
}

/// Bytes at random, made the image of a good list, with which a session begins.
pub fn begun(desk: &mut Desk, bytes: &[u8], random: &mut Random) -> Compared<Option<(State, Vec<u8>)>> {
    let most = if random.once_in(20) { ENTRY_LIMIT } else { 8 };
    import(desk, bytes, &listed(&good(random.below(most + 1), 2, random)))
}
