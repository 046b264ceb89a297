//! Order 6: imports, each held against the independent controller's, reply and every byte of image and list; and, where it is
//! accepted, against the calls that it stands for, made one by one on the proved controller.

use crate::desk::{shown, Compared, Desk, Difference};
use makowist_host::controller::{Refusal, State, LOG_LIMIT};
use makowist_host::image::{self, LENGTH};
use makowist_host::import::{self, Entry, ENTRY, ENTRY_LIMIT};
use makowist_host::lists::Positions;
use makowist_host::northbound::{self, Request};
use makowist_host::peer;

/// Where the bad entry of a list is: the only one, the first, between others, the last.
#[derive(Clone, Copy, PartialEq, Eq, Debug)]
enum Where {
    Alone,
    First,
    Between,
    Last,
}

/// What a rollback names that is refused for it: a change that is undone, a rollback, a live change below the newest, itself, an
/// entry behind it, or no entry of the list.
#[derive(Clone, Copy, PartialEq, Eq, Debug)]
enum What {
    Dead,
    Rollback,
    Older,
    Itself,
    Later,
    Nothing,
}

/// What is lent to become the image.
#[derive(Clone, Copy, PartialEq, Eq, Debug)]
enum Before {
    Fresh,
    /// Another well-formed image.
    WellFormed,
    Nonsense,
    /// Bytes of another length.
    OfOtherLength,
}

/// What an import shows.
#[derive(Clone, Copy, PartialEq, Eq, Debug)]
enum Kind {
    Accepted(Before),
    Refused(Before),
    /// Accepted lists of so many entries.
    Entries(usize),
    /// Of as many changes as can be kept; each of them undone, one by one or all in the end.
    FullLog,
    FullLogUndone,
    /// A change that deletes, that has four pairs, that sets a path which has a value.
    Deletes,
    FourPairs,
    SetsAgain,
    /// A path that the newest live change does not name keeps its value.
    Overlays,
    /// A rollback that comes behind another with nothing between; of a change whose number is not its place.
    RollbackOnRollback,
    Renumbered,
    /// Bytes that carry nothing are not 0.
    UnusedNonsense,
    /// 2, for one of two alone, or for both; also where an entry is bad.
    NotWhole,
    TooMany,
    NotWholeTooMany,
    TooManyAndBad,
    /// Bad pairs, the 129th change, what names anything else, what is of neither kind.
    BadPairs(Where),
    The129th(Where),
    NotTheNewest(Where),
    Names(What),
    Neither(Where),
    /// The 129th change has bad pairs.
    BadPairsThe129th,
    /// An entry behind the first bad one is bad in another way.
    TwoBad,
}

impl Kind {
    fn all() -> Vec<Kind> {
        let mut all = vec![Kind::FullLog, Kind::FullLogUndone];
        all.extend([Kind::Deletes, Kind::FourPairs, Kind::SetsAgain, Kind::Overlays]);
        all.extend([Before::Fresh, Before::WellFormed, Before::Nonsense].map(Kind::Accepted));
        all.extend([Before::Fresh, Before::WellFormed, Before::Nonsense, Before::OfOtherLength].map(Kind::Refused));
        all.extend([0, 1, ENTRY_LIMIT - 1, ENTRY_LIMIT].map(Kind::Entries));
        all.extend([Kind::RollbackOnRollback, Kind::Renumbered, Kind::UnusedNonsense]);
        all.extend([Kind::NotWhole, Kind::TooMany, Kind::NotWholeTooMany, Kind::TooManyAndBad]);
        let places = [Where::Alone, Where::First, Where::Between, Where::Last];
        all.extend(places.map(Kind::BadPairs));
        all.extend([Where::Between, Where::Last].map(Kind::The129th));
        all.extend(places.map(Kind::NotTheNewest));
        let named = [What::Dead, What::Rollback, What::Older, What::Itself, What::Later, What::Nothing];
        all.extend(named.map(Kind::Names));
        all.extend(places.map(Kind::Neither));
        all.extend([Kind::BadPairsThe129th, Kind::TwoBad]);
        all
    }
}

#[derive(Default)]
pub struct Seen {
    pub imports: u64,
    /// Calls that an accepted one stands for, made one by one.
    calls: u64,
    /// By the places of `Kind::all`.
    kinds: Vec<u64>,
    /// Calls, folds and nights that were accepted in sessions that began with one.
    pub calls_behind: u64,
    pub folds_behind: u64,
    pub nights_behind: u64,
}

impl Seen {
    fn saw(&mut self, kind: Kind) {
        let all = Kind::all();
        self.kinds.resize(all.len(), 0);
        let place = all.iter().position(|each| *each == kind);
        place.into_iter().for_each(|place| self.kinds[place] += 1);
    }

    /// Prints every count, and answers how many are 0.
    pub fn told(&self) -> usize {
        println!("{:>12}  imports compared, every byte of image and list", self.imports);
        println!("{:>12}  calls that they stand for, made one by one, which left the same", self.calls);
        let behind = [self.calls_behind, self.folds_behind, self.nights_behind];
        println!("{:>12}  calls, folds and nights accepted in sessions that began with one: {behind:?}", "");
        let mut unseen = [self.imports, self.calls].iter().chain(&behind).filter(|count| **count == 0).count();
        for (place, kind) in Kind::all().into_iter().enumerate() {
            let count = self.kinds.get(place).copied().unwrap_or(0);
            println!("{count:>12}  imports: {kind:?}");
            unseen += usize::from(count == 0);
        }
        unseen
    }
}

/// Compares an import into these bytes, on copies. Answers state and image behind it, where it was accepted.
pub fn import(desk: &mut Desk, before: &[u8], list: &[u8]) -> Compared<Option<(State, Vec<u8>)>> {
    let mut expected = before.to_vec();
    let reply = match desk.fault {
        None => northbound::import(&mut expected, list),
        Some(fault) => fault.import(&mut expected, list),
    };
    hold(desk, before, list, reply, &expected)?;
    desk.counts.imported(reply);
    count(desk, before, list);
    if reply != 0 {
        return Ok(None);
    }
    one_by_one(desk, list, &expected)?;
    let state = State::imported(list).map_err(|refused| Difference::of_call(format!("{refused:?} of an accepted list")))?;
    desk.lend(&expected);
    desk.owners_by_list(&state, &expected)?;
    desk.owners(&state, &expected)?;
    Ok(Some((state, expected)))
}

/// Sends the import to the proved controller and holds its reply, the image and the list against what is expected.
fn hold(desk: &mut Desk, before: &[u8], list: &[u8], reply: u64, expected: &[u8]) -> Compared<()> {
    let lent = desk.lent_copy.bytes(before.len(), desk.edge);
    lent.copy_from_slice(before);
    let lent_list = desk.lent_pairs.bytes(list.len(), desk.edge);
    lent_list.copy_from_slice(list);
    let proved = peer::import(lent, lent_list);
    let what = if proved != reply {
        "is answered otherwise"
    } else if lent != expected {
        "leaves another image"
    } else if lent_list != list {
        "writes the list"
    } else {
        return Ok(());
    };
    let byte = expected.iter().zip(lent.iter()).position(|(expected, found)| expected != found);
    Err(Difference::of_call(format!(
        "an import of {} bytes into {} {what}\n  independent {reply:#x}, proved {proved:#x}, first other byte {byte:?}\n  \
         {:?}\n{}",
        list.len(),
        before.len(),
        import::entries(list),
        shown(expected)
    )))
}

/// Makes the calls of an accepted list on the proved controller: each is accepted, and they leave what the import left.
fn one_by_one(desk: &mut Desk, list: &[u8], left: &[u8]) -> Compared<()> {
    let entries = import::entries(list).map_err(|refused| Difference::of_call(format!("{refused:?} of an accepted list")))?;
    let lent = desk.lent_copy.bytes(LENGTH, desk.edge);
    for request in import::calls(&entries) {
        let pairs = if let Request::Append(pairs) = &request { pairs.as_slice() } else { &[] };
        let answer = peer::serve(lent, &request, pairs) & 0xff;
        if answer != 0 {
            return Err(Difference::of_call(format!("{request:?} of an import is answered {answer}")));
        }
        desk.counts.imports.calls += 1;
    }
    if lent != left {
        return Err(Difference::of_call(format!("an import leaves another image than its calls do\n  {entries:?}")));
    }
    Ok(())
}

/// Counts what an import shows, by the independent reading of its list.
fn count(desk: &mut Desk, before: &[u8], list: &[u8]) {
    let fresh = || {
        let mut fresh = vec![0; LENGTH];
        image::encode(&State::fresh(), &mut fresh);
        fresh
    };
    let before = match before.len() {
        LENGTH if before == fresh() => Before::Fresh,
        LENGTH if image::decode(before).is_some() => Before::WellFormed,
        LENGTH => Before::Nonsense,
        _ => Before::OfOtherLength,
    };
    let kinds = match State::imported(list) {
        Ok(state) if before != Before::OfOtherLength => accepted(&state, list, before),
        Err(_) if before != Before::OfOtherLength => [refused(list), vec![Kind::Refused(before)]].concat(),
        _ => vec![Kind::Refused(before)],
    };
    kinds.into_iter().for_each(|kind| desk.counts.imports.saw(kind));
}

fn accepted(state: &State, list: &[u8], before: Before) -> Vec<Kind> {
    let entries = import::entries(list).expect("a good list");
    let is_rollback = |entry: &Entry| matches!(entry, Entry::Rollback { .. });
    let Positions { live, rollbacks, .. } = Positions::of(&entries);
    let full = state.log.len() == LOG_LIMIT;
    let deletes = |entry: &Entry| entry.pairs().iter().any(|(_, value)| *value == 0);
    let has_four = |entry: &Entry| matches!(entry, Entry::Change { count: 4, .. });
    let renumbered = |(place, entry): (usize, &Entry)| match entry {
        Entry::Rollback { named } => entries[..place].iter().take((*named).into()).any(is_rollback),
        _ => false,
    };
    let kinds = [
        (Kind::Accepted(before), true),
        (Kind::Entries(entries.len()), [0, 1, ENTRY_LIMIT - 1, ENTRY_LIMIT].contains(&entries.len())),
        (Kind::FullLog, full && rollbacks.is_empty()),
        (Kind::FullLogUndone, full && live.is_empty()),
        (Kind::Deletes, entries.iter().any(deletes)),
        (Kind::FourPairs, entries.iter().any(has_four)),
        (Kind::SetsAgain, state.log.iter().any(|it| it.r_values.iter().any(|value| *value != 0))),
        (Kind::Overlays, live.last().is_some_and(|newest| keeps(state, &entries[usize::from(*newest) - 1]))),
        (Kind::RollbackOnRollback, entries.windows(2).any(|two| two.iter().all(is_rollback))),
        (Kind::Renumbered, entries.iter().enumerate().any(renumbered)),
        (Kind::UnusedNonsense, import::listed(&entries) != list),
    ];
    kinds.into_iter().filter(|(_, seen)| *seen).map(|(kind, _)| kind).collect()
}

/// Whether a path that the newest live change does not name has a committed value.
fn keeps(state: &State, newest: &Entry) -> bool {
    let named = |path: usize| newest.pairs().iter().any(|(each, _)| usize::from(*each) == path);
    state.committed.values.iter().enumerate().any(|(path, value)| *value != 0 && !named(path))
}

/// What a rollback in this place, from 0, names, where it is not the newest live change.
fn what(entries: &[Entry], place: usize, named: u16) -> What {
    let Positions { dead, rollbacks, .. } = Positions::of(&entries[..place]);
    match usize::from(named) {
        0 => What::Nothing,
        position if position > entries.len() => What::Nothing,
        position if position > place + 1 => What::Later,
        position if position == place + 1 => What::Itself,
        _ if rollbacks.contains(&named) => What::Rollback,
        _ if dead.contains(&named) => What::Dead,
        _ => What::Older,
    }
}

fn refused(list: &[u8]) -> Vec<Kind> {
    let (whole, few) = (list.len() % ENTRY == 0, list.len() <= ENTRY * ENTRY_LIMIT);
    if !whole || !few {
        let judged = list.chunks(ENTRY * ENTRY_LIMIT).next().map(|first| &first[..first.len() / ENTRY * ENTRY]);
        let is_bad = judged.is_some_and(|judged| State::imported(judged).is_err());
        let kind = match (whole, few) {
            (false, true) => Kind::NotWhole,
            (false, false) => Kind::NotWholeTooMany,
            _ if is_bad => Kind::TooManyAndBad,
            _ => Kind::TooMany,
        };
        return vec![kind];
    }
    let entries = import::entries(list).expect("a whole list");
    let refused = import::judge(&entries).expect_err("a bad list");
    let place = usize::from(refused.position) - 1;
    let position = match (place, entries.len() - place - 1) {
        (0, 0) => Where::Alone,
        (0, _) => Where::First,
        (_, 0) => Where::Last,
        _ => Where::Between,
    };
    let changes = entries[..place].iter().filter(|entry| matches!(entry, Entry::Change { .. })).count();
    let mut kinds = match (refused.refusal, &entries[place]) {
        (Refusal::NotAChange, _) => vec![Kind::BadPairs(position)],
        (Refusal::LogFull, _) => vec![Kind::The129th(position)],
        (_, Entry::Rollback { named }) => vec![Kind::NotTheNewest(position), Kind::Names(what(&entries, place, *named))],
        _ => vec![Kind::Neither(position)],
    };
    let of_129th = refused.refusal == Refusal::NotAChange && changes == LOG_LIMIT;
    let bad_again = entries[place + 1..].iter().any(|entry| match entry {
        Entry::Change { .. } => refused.refusal == Refusal::NotTheNewest && !entry.is_valid_change(),
        Entry::Neither { .. } => refused.refusal != Refusal::NotTheNewest,
        Entry::Rollback { .. } => false,
    });
    let more = [(Kind::BadPairsThe129th, of_129th), (Kind::TwoBad, bad_again)];
    kinds.extend(more.into_iter().filter(|(_, seen)| *seen).map(|(kind, _)| kind));
    kinds
}
