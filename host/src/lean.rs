//! The C interface's calls over the independent controller's rules, without a state: the image is checked where it lies,
//! and only the records that a call reads are loaded, and those that it changes stored. This is what the benchmark sets
//! beside the proved controller, so each call is a function of its own that is never inlined, as the exported ones are.
//! `northbound` is the plain way to the same bytes.

use crate::controller::{
    self, counted, Change, Connection, ConfigurationState, Event, Node, Number, Ordinal, Phase, Refusal, State, Status, Term,
    Transaction, LOG_LIMIT,
};
use crate::image::{
    self, at, entry, put_status, put_u16, put_u32, status_at, u16_at, u32_at, weight, ENTRY, HIGHEST_STATUSES, LENGTH,
};
use crate::jobs::{ranged, Cut, Job, Outcome, Work};
use crate::night::EVENT;
use crate::northbound::{Answer, Request, Served};
use crate::reads::{Query, CONNECTION_FIELDS, RECORD_FIELDS, TRANSACTION_FIELDS};
use crate::why::{Question, Reason};
use std::ops::Range;

type Image = [u8; LENGTH];

/// The numbers that a log keeps: those after the last fold, up to the highest given.
#[derive(Clone, Copy)]
struct Kept {
    folded: u16,
    highest: u16,
}

impl Kept {
    fn count(self) -> usize {
        usize::from(self.highest) - usize::from(self.folded)
    }

    fn number(self, number: u64) -> Result<Number, Refusal> {
        if number == 0 || number > self.highest.into() {
            return Err(Refusal::NoSuchNumber);
        }
        if number <= self.folded.into() {
            return Err(Refusal::Folded);
        }
        Ok(Number(number as u16))
    }
}

/// What the log keeps, where the image is well-formed.
fn checked(image: &Image) -> Option<Kept> {
    let kept = Kept { folded: u16_at(image, at::FOLDED), highest: u16_at(image, at::HIGHEST) };
    let within = |at: usize| u16_at(image, at) <= kept.highest;
    let change = u16_at(image, at::COMMITTED_CHANGE);
    let mut number = kept.folded;
    let formed = within(at::FOLDED)
        && kept.count() <= LOG_LIMIT
        && within(at::COMMITTED_CHANGE)
        && [0, 2, 4].iter().all(|field| within(at::COMMITTED + field) && within(at::APPLIED + field))
        && u16_at(image, at::COMMITTED + 4) <= change
        && image[at::OWNERS..at::APPLIED].chunks_exact(2).all(|owner| u16_at(owner, 0) <= change)
        && u32_at(image, at::COMMITTED + 6) <= Ordinal::LIMIT.0
        && u32_at(image, at::APPLIED + 6) <= Ordinal::LIMIT.0
        && matches!(image[at::CONFIGURATION], 1..=3)
        && image[at::MASTERSHIP] <= 8
        && image[at::RUNNING] <= 1
        && image[at::REMEMBERS] <= 1
        && image[at::CONNECTIONS..at::FOLDED].chunks_exact(at::CONNECTION).all(|connection| connection[4] <= 1)
        && entries(image, kept).all(|bytes| {
            number += 1;
            entry_is_formed(bytes, number)
        });
    formed.then_some(kept)
}

/// The kept entries, oldest first: the ring from the first of them to its end, then the rest from its beginning.
fn entries(image: &Image, kept: Kept) -> impl Iterator<Item = &[u8; ENTRY]> {
    let first = usize::from(kept.folded) % LOG_LIMIT;
    let upper = kept.count().min(LOG_LIMIT - first);
    let run = |slots: Range<usize>| image[ENTRY * slots.start..ENTRY * slots.end].chunks_exact(ENTRY);
    let runs = run(first..first + upper).chain(run(0..kept.count() - upper));
    runs.map(|bytes| bytes.try_into().expect("an entry's bytes"))
}

fn entry_is_formed(bytes: &[u8; ENTRY], number: u16) -> bool {
    let count = usize::from(bytes[entry::PAIRS]);
    u16_at(bytes, entry::STATUSES) <= HIGHEST_STATUSES
        && matches!(bytes[entry::PHASE], 1 | 2)
        && u16_at(bytes, entry::R_INDEX) < number
        && [0, 2, 4, 6].into_iter().all(|place| u16_at(bytes, entry::R_OWNERS + place) < number)
        && u32_at(bytes, entry::C_ORDINAL) <= Ordinal::LIMIT.0
        && u32_at(bytes, entry::R_ORDINAL) <= Ordinal::LIMIT.0
        && matches!(count, 1..=4)
        && paths_rise(&bytes[entry::PATHS..entry::PATHS + count])
}

fn paths_rise(paths: &[u8]) -> bool {
    paths.windows(2).all(|two| two[0] < two[1]) && paths.last().is_some_and(|path| *path < 32)
}

/// Runs a call on a well-formed image and packs its reply.
fn on(image: &mut [u8], call: impl FnOnce(&mut Image, Kept) -> Result<Answer, Refusal>) -> u64 {
    let reply = match <&mut Image>::try_from(image) {
        Ok(image) => checked(image).ok_or(Refusal::NotWellFormed).and_then(|kept| call(image, kept)),
        Err(_) => Err(Refusal::NotWellFormed),
    };
    Served { reply, rule: None }.packed()
}

/// Carries a request out on an image, with an append's pairs lent from `pairs`, and answers the packed reply.
#[inline]
pub fn serve(image: &mut [u8], request: &Request, pairs: &[u8]) -> u64 {
    match *request {
        Request::Fresh(remembers) => fresh(image, remembers),
        Request::Append(_) => append(image, pairs),
        Request::Rollback(number) => rollback(image, number),
        Request::Start => start(image),
        Request::Stop => stop(image),
        Request::Connect(node) => connect(image, node),
        Request::Disconnect(node) => disconnect(image, node),
        Request::Master(node) => master(image, node),
        Request::Sync(node) => sync(image, node),
        Request::Work { node, job, number, outcome, cut } => work(image, node, job, number, outcome, cut),
        Request::Fold(number) => fold(image, number),
    }
}

#[inline(never)]
pub fn fresh(image: &mut [u8], remembers: u64) -> u64 {
    if image.len() != LENGTH {
        return u64::from(Refusal::NotWellFormed.number());
    }
    if remembers > 1 {
        return u64::from(Refusal::OutOfRange.number());
    }
    image.fill(0);
    image[at::CONFIGURATION] = 1;
    image[at::REMEMBERS] = remembers as u8;
    0
}

#[inline(never)]
pub fn append(image: &mut [u8], pairs: &[u8]) -> u64 {
    on(image, |image, kept| {
        if pairs.len() % 4 != 0 {
            return Err(Refusal::NotAChange);
        }
        let change = Change::new(pairs.chunks_exact(4).map(|four| (u16_at(four, 0), u16_at(four, 2))))
            .ok_or(Refusal::NotAChange)?;
        if kept.count() == LOG_LIMIT {
            return Err(Refusal::LogFull);
        }
        let number = Number(kept.highest.checked_add(1).ok_or(Refusal::CounterAtLimit)?);
        let bytes = image::entry_at_mut(image, number);
        bytes.fill(0);
        put_status(bytes, weight::C_COMMIT, Status::Pending.code());
        put_status(bytes, weight::C_APPLY, Status::Pending.code());
        bytes[entry::PHASE] = Phase::Change as u8;
        bytes[entry::PAIRS] = change.pairs().len() as u8;
        for (place, pair) in change.pairs().iter().enumerate() {
            bytes[entry::PATHS + place] = pair.path;
            put_u16(bytes, entry::VALUES + 2 * place, pair.value);
        }
        put_u16(image, at::HIGHEST, number.0);
        Ok(Answer::Appended(number))
    })
}

#[inline(never)]
pub fn rollback(image: &mut [u8], number: u64) -> u64 {
    on(image, |image, kept| {
        let bytes = image::entry_at_mut(image, kept.number(number)?);
        let committed = status_at(bytes, weight::C_COMMIT) == Status::Complete.code();
        if bytes[entry::PHASE] != Phase::Change as u8 || !committed {
            return Err(Refusal::NoRollback);
        }
        bytes[entry::PHASE] = Phase::Rollback as u8;
        put_status(bytes, weight::R_COMMIT, Status::Pending.code());
        put_status(bytes, weight::R_APPLY, Status::Pending.code());
        Ok(Answer::Nothing)
    })
}

#[inline(never)]
pub fn start(image: &mut [u8]) -> u64 {
    on(image, |image, _| {
        if image[at::RUNNING] == 1 {
            return Err(Refusal::AlreadySo);
        }
        let id = counted(u32_at(image, at::TARGET))?;
        put_u32(image, at::TARGET, id);
        image[at::RUNNING] = 1;
        Ok(Answer::Nothing)
    })
}

#[inline(never)]
pub fn stop(image: &mut [u8]) -> u64 {
    on(image, |image, _| {
        if image[at::RUNNING] == 0 {
            return Err(Refusal::AlreadySo);
        }
        image[at::RUNNING] = 0;
        if image[at::REMEMBERS] == 0 {
            image[at::TARGET_VALUES..at::TARGET_VALUES + 64].fill(0);
        }
        let connections = image[at::CONNECTIONS..at::FOLDED].chunks_exact_mut(at::CONNECTION);
        connections.for_each(|connection| connection[4] = 0);
        Ok(Answer::Nothing)
    })
}

fn node_of(node: u64) -> Result<Node, Refusal> {
    Node::new(node).ok_or(Refusal::OutOfRange)
}

fn connection_at(node: Node) -> usize {
    at::CONNECTIONS + at::CONNECTION * (usize::from(node.number()) - 1)
}

fn connection_of(image: &Image, node: Node) -> Connection {
    let at = connection_at(node);
    Connection { id: u32_at(image, at), connected: image[at + 4] == 1 }
}

#[inline(never)]
pub fn connect(image: &mut [u8], node: u64) -> u64 {
    on(image, |image, _| {
        let node = node_of(node)?;
        let connection = connection_of(image, node);
        if connection.connected {
            return Err(Refusal::AlreadySo);
        }
        if image[at::RUNNING] == 0 {
            return Err(Refusal::TargetStopped);
        }
        put_u32(image, connection_at(node), counted(connection.id)?);
        image[connection_at(node) + 4] = 1;
        Ok(Answer::Nothing)
    })
}

#[inline(never)]
pub fn disconnect(image: &mut [u8], node: u64) -> u64 {
    on(image, |image, _| {
        let node = node_of(node)?;
        if !connection_of(image, node).connected {
            return Err(Refusal::AlreadySo);
        }
        image[connection_at(node) + 4] = 0;
        Ok(Answer::Nothing)
    })
}

#[inline(never)]
pub fn master(image: &mut [u8], node: u64) -> u64 {
    on(image, |image, _| {
        let node = node_of(node)?;
        let connection = connection_of(image, node);
        let master = image[at::MASTERSHIP];
        if master == 0 && connection.connected {
            let term = counted(u32_at(image, at::MASTERSHIP + 1))?;
            image[at::MASTERSHIP] = node.number();
            put_u32(image, at::MASTERSHIP + 1, term);
            put_u32(image, at::MASTERSHIP + 5, connection.id);
        } else if master == node.number()
            && (!connection.connected || connection.id != u32_at(image, at::MASTERSHIP + 5))
        {
            image[at::MASTERSHIP] = 0;
        } else {
            return Err(Refusal::NoRule);
        }
        Ok(Answer::Nothing)
    })
}

/// Whether the node is connected by the connection that mastership names, to a target that runs.
fn reaches_target(image: &Image, node: Node) -> bool {
    let connection = connection_of(image, node);
    connection.connected && connection.id == u32_at(image, at::MASTERSHIP + 5) && image[at::RUNNING] == 1
}

#[inline(never)]
pub fn sync(image: &mut [u8], node: u64) -> u64 {
    on(image, |image, _| {
        let node = node_of(node)?;
        if image[at::MASTERSHIP] != node.number() {
            return Err(Refusal::NotMaster);
        }
        let term = u32_at(image, at::MASTERSHIP + 1);
        if u32_at(image, at::CONFIGURATION + 1) >= term {
            return Err(Refusal::NoRule);
        }
        if image[at::CONFIGURATION] != 2 {
            image[at::CONFIGURATION] = 2;
            return Ok(Answer::Nothing);
        }
        if !reaches_target(image, node) {
            return Err(Refusal::LineNotOpen);
        }
        let (applied, behind) = image[at::APPLIED_VALUES..].split_at_mut(at::TARGET_VALUES - at::APPLIED_VALUES);
        let mut written = 0;
        for (value, applied) in behind[..64].chunks_exact_mut(2).zip(applied[..64].chunks_exact(2)) {
            if value != applied {
                value.copy_from_slice(applied);
                written += 1;
            }
        }
        image[at::CONFIGURATION] = 3;
        put_u32(image, at::CONFIGURATION + 1, term);
        Ok(Answer::Wrote(written))
    })
}

fn line_open(image: &Image, node: Node) -> bool {
    let complete = image::decode_configuration(image).is_some_and(|configuration| {
        configuration.state == ConfigurationState::Complete
            && configuration.term == Term(u32_at(image, at::MASTERSHIP + 1))
    });
    complete && image[at::MASTERSHIP] == node.number() && reaches_target(image, node)
}

/// Whether every change and rollback that carries the ordinal has a Done apply status.
fn settled(image: &Image, kept: Kept, ordinal: Ordinal) -> bool {
    ordinal == Ordinal::NONE
        || entries(image, kept).all(|bytes| {
            (u32_at(bytes, entry::C_ORDINAL) != ordinal.0 || is_done(status_at(bytes, weight::C_APPLY)))
                && (u32_at(bytes, entry::R_ORDINAL) != ordinal.0 || is_done(status_at(bytes, weight::R_APPLY)))
        })
}

fn is_done(code: u8) -> bool {
    matches!(code, 3..=6)
}

/// Whether the commit side is at rest. A folded mark is Done.
fn at_rest(image: &Image, kept: Kept) -> bool {
    let [index, target, revision] = [0, 2, 4].map(|field| u16_at(image, at::COMMITTED + field));
    if index == 0 {
        return target == 0;
    }
    let done = |weight: u16| index <= kept.folded || is_done(status_at(image::entry_at(image, Number(index)), weight));
    (target == index && done(weight::C_COMMIT)) || (target == revision && revision < index && done(weight::R_COMMIT))
}

#[inline(never)]
pub fn work(image: &mut [u8], node: u64, job: u64, number: u64, outcome: u64, cut: u64) -> u64 {
    on(image, |image, kept| {
        let (node, job, outcome, cut) = ranged(node, job, outcome, cut).ok_or(Refusal::OutOfRange)?;
        let number = kept.number(number)?;
        let mut transaction = image::decode_entry(image::entry_at(image, number)).ok_or(Refusal::NotWellFormed)?;
        if image[at::MASTERSHIP] != node.number() {
            return Err(Refusal::NotMaster);
        }
        let mut committed = image::decode_committed(image);
        let mut applied = image::decode_applied(image);
        let mut target_values = image::decode_values(image, at::TARGET_VALUES);
        let at_rest = at_rest(image, kept);
        let worked = Work {
            job,
            number,
            outcome,
            cut,
            transaction: &mut transaction,
            committed: &mut committed,
            applied: &mut applied,
            target_values: &mut target_values,
        };
        let event = worked.done(at_rest, line_open(image, node), |ordinal| settled(image, kept, ordinal)).reply?;
        image::encode_entry(&transaction, image::entry_at_mut(image, number));
        match job {
            Job::CommitChange | Job::CommitRollback => image::encode_committed(&committed, image),
            Job::ApplyChange | Job::ApplyRollback => {
                image::encode_applied(&applied, image);
                image::encode_values(&target_values, image, at::TARGET_VALUES);
            }
        }
        Ok(event.map_or(Answer::Nothing, Answer::Told))
    })
}

#[inline(never)]
pub fn fold(image: &mut [u8], number: u64) -> u64 {
    on(image, |image, kept| {
        if number <= kept.folded.into() || number > kept.highest.into() {
            return Err(Refusal::NoSuchNumber);
        }
        let dropped = Kept { highest: number as u16, ..kept };
        let allowed = at_rest(image, kept)
            && settled(image, kept, Ordinal(u32_at(image, at::APPLIED + 6)))
            && next_waits(image, kept)
            && entries(image, dropped).all(is_finished);
        if !allowed {
            return Err(Refusal::NotFinished);
        }
        lay_base(image, dropped);
        put_u16(image, at::FOLDED, dropped.highest);
        Ok(Answer::Nothing)
    })
}

/// Whether what carries the ordinal after the applied one is Pending, and the applied target elsewhere.
fn next_waits(image: &Image, kept: Kept) -> bool {
    let next = u32_at(image, at::APPLIED + 6) + 1;
    let target = u16_at(image, at::APPLIED + 2);
    let waits = |apply: u8, moves_to: u16| apply == Status::Pending.code() && moves_to != target;
    let mut number = kept.folded;
    entries(image, kept).all(|bytes| {
        number += 1;
        (u32_at(bytes, entry::C_ORDINAL) != next || waits(status_at(bytes, weight::C_APPLY), number))
            && (u32_at(bytes, entry::R_ORDINAL) != next || waits(status_at(bytes, weight::R_APPLY), u16_at(bytes, entry::R_INDEX)))
    })
}

fn is_finished(bytes: &[u8; ENTRY]) -> bool {
    let applied = status_at(bytes, weight::C_APPLY) == Status::Complete.code() && bytes[entry::PHASE] == Phase::Change as u8;
    applied || status_at(bytes, weight::C_COMMIT) == Status::Failed.code() || is_done(status_at(bytes, weight::R_APPLY))
}

/// Lays the live ones among the dropped on the base. They come newest first, so a path that has been laid stays.
fn lay_base(image: &mut Image, dropped: Kept) {
    let mut laid = 0u32;
    let mut number = u16_at(image, at::COMMITTED + 4);
    while number > dropped.folded {
        let slot = ENTRY * image::slot(Number(number));
        let pairs = if number <= dropped.highest { usize::from(image[slot + entry::PAIRS]) } else { 0 };
        for place in 0..pairs {
            let path = usize::from(image[slot + entry::PATHS + place]);
            if laid & 1 << path == 0 {
                let value = slot + entry::VALUES + 2 * place;
                image.copy_within(value..value + 2, at::BASE + 2 * path);
            }
            laid |= 1 << path;
        }
        number = u16_at(image, slot + entry::R_INDEX);
    }
}

#[inline(never)]
pub fn is_well_formed(image: &[u8]) -> bool {
    <&Image>::try_from(image).is_ok_and(|image| checked(image).is_some())
}

#[inline(never)]
pub fn live(image: &[u8], room: &mut [u8]) -> u64 {
    let Some((image, kept)) = <&Image>::try_from(image).ok().and_then(|image| Some((image, checked(image)?))) else {
        return u64::from(Refusal::NotWellFormed.number());
    };
    let revision = |at: usize| Some(u16_at(image, at)).filter(|number| *number > kept.folded);
    let list = || {
        std::iter::successors(revision(at::COMMITTED + 4), |number| {
            revision(ENTRY * image::slot(Number(*number)) + entry::R_INDEX)
        })
    };
    let hops = list().count();
    if 2 * hops > room.len() {
        return u64::from(Refusal::NoRoom.number());
    }
    room.chunks_exact_mut(2).zip(list()).for_each(|(place, number)| place.copy_from_slice(&number.to_le_bytes()));
    (hops as u64) << 32
}

/// Where a field lies, from its record's beginning, and its width in bytes.
type Field = (usize, usize);

/// A transaction's fields, in the order of their numbers. The statuses are parts of one: `WEIGHTS`.
const IN_ENTRY: [Field; TRANSACTION_FIELDS as usize] = [
    (entry::PHASE, 1),
    (entry::STATUSES, 2),
    (entry::STATUSES, 2),
    (entry::C_ORDINAL, 4),
    (entry::STATUSES, 2),
    (entry::STATUSES, 2),
    (entry::R_ORDINAL, 4),
    (entry::R_INDEX, 2),
    (entry::PAIRS, 1),
    (entry::PATHS, 1),
    (entry::PATHS + 1, 1),
    (entry::PATHS + 2, 1),
    (entry::PATHS + 3, 1),
    (entry::VALUES, 2),
    (entry::VALUES + 2, 2),
    (entry::VALUES + 4, 2),
    (entry::VALUES + 6, 2),
    (entry::R_VALUES, 2),
    (entry::R_VALUES + 2, 2),
    (entry::R_VALUES + 4, 2),
    (entry::R_VALUES + 6, 2),
];

/// The numbers of the fields that are statuses, and what each counts in the number of them.
const WEIGHTS: [(u64, u16); 4] =
    [(2, weight::C_COMMIT), (3, weight::C_APPLY), (5, weight::R_COMMIT), (6, weight::R_APPLY)];

/// The fields that a state has once.
const ONCE: [Field; RECORD_FIELDS as usize] = [
    (at::HIGHEST, 2),
    (at::COMMITTED, 2),
    (at::COMMITTED_CHANGE, 2),
    (at::COMMITTED + 2, 2),
    (at::COMMITTED + 4, 2),
    (at::COMMITTED + 6, 4),
    (at::APPLIED, 2),
    (at::APPLIED + 2, 2),
    (at::APPLIED + 4, 2),
    (at::APPLIED + 6, 4),
    (at::CONFIGURATION, 1),
    (at::CONFIGURATION + 1, 4),
    (at::MASTERSHIP, 1),
    (at::MASTERSHIP + 1, 4),
    (at::MASTERSHIP + 5, 4),
    (at::TARGET, 4),
    (at::RUNNING, 1),
    (at::FOLDED, 2),
];

const IN_CONNECTION: [Field; CONNECTION_FIELDS as usize] = [(0, 4), (4, 1)];

/// Reads one number where it lies.
#[inline]
pub fn read(image: &[u8], query: Query) -> u64 {
    match query {
        Query::Value { table, path } => value(image, table, path),
        Query::Transaction { number, field } => transaction(image, number, field),
        Query::Record { field } => record(image, field),
        Query::Connection { node, field } => connection(image, node, field),
        Query::Owner { path } => owner(image, path),
        Query::Class { number } => class(image, number),
        Query::Took { number } => landed(image, number, (weight::C_APPLY, entry::C_ORDINAL)),
        Query::Undone { number } => landed(image, number, (weight::R_APPLY, entry::R_ORDINAL)),
        Query::Drift => drift(image),
        Query::Why(Question { node, job, number }) => why(image, node, job, number),
    }
}

#[inline(never)]
pub fn value(image: &[u8], table: u64, path: u64) -> u64 {
    shown(image, |_| {
        let tables = [(at::COMMITTED_VALUES, 2), (at::APPLIED_VALUES, 2), (at::TARGET_VALUES, 2), (at::BASE, 2)];
        let (values, width) = one_of(&tables, table)?;
        (path < 32).then(|| (values + 2 * path as usize, width)).ok_or(Refusal::OutOfRange)
    })
}

#[inline(never)]
pub fn transaction(image: &[u8], number: u64, field: u64) -> u64 {
    answered(image, |image, kept| {
        let (at, width) = one_of(&IN_ENTRY, field)?;
        let bytes = image::entry_at(image, kept.number(number)?);
        let weight = WEIGHTS.iter().find_map(|(status, weight)| (*status == field).then_some(*weight));
        Ok(weight.map_or(number_at(bytes, (at, width)), |weight| status_at(bytes, weight).into()))
    })
}

#[inline(never)]
pub fn record(image: &[u8], field: u64) -> u64 {
    shown(image, |_| one_of(&ONCE, field))
}

#[inline(never)]
pub fn connection(image: &[u8], node: u64, field: u64) -> u64 {
    shown(image, |_| {
        let node = node_of(node)?;
        let (at, width) = one_of(&IN_CONNECTION, field)?;
        Ok((connection_at(node) + at, width))
    })
}

#[inline(never)]
pub fn owner(image: &[u8], path: u64) -> u64 {
    answered(image, |image, kept| {
        let owner = (path < 32).then(|| u16_at(image, at::OWNERS + 2 * path as usize)).ok_or(Refusal::OutOfRange)?;
        Ok(if owner <= kept.folded { 0 } else { owner.into() })
    })
}

/// The class of a transaction, by its rule.
#[inline(never)]
pub fn class(image: &[u8], number: u64) -> u64 {
    answered(image, |image, kept| {
        let bytes = image::entry_at(image, kept.number(number)?);
        let status = |weight: u16| status_at(bytes, weight);
        let statuses = [weight::C_COMMIT, weight::C_APPLY, weight::R_COMMIT, weight::R_APPLY].map(status);
        Ok(match statuses {
            [.., COMPLETE | CANCELED] => 6,
            [_, _, PENDING..=FAILED, _] => 5,
            [_, COMPLETE, ..] => 4,
            [FAILED, ..] => 3,
            [_, ABORTED | FAILED, ..] => 2,
            _ => 1,
        })
    })
}

/// Whether an apply, by its status and its ordinal, was told to be Complete.
#[inline(never)]
pub fn landed(image: &[u8], number: u64, (weight, ordinal): (u16, usize)) -> u64 {
    answered(image, |image, kept| {
        let bytes = image::entry_at(image, kept.number(number)?);
        let made = || u32_at(bytes, ordinal) == u32_at(image, at::APPLIED + 6);
        let status = status_at(bytes, weight);
        Ok((status == COMPLETE || status == IN_PROGRESS && made()).into())
    })
}

/// The paths whose committed and applied values differ, a bit each.
#[inline(never)]
pub fn drift(image: &[u8]) -> u64 {
    answered(image, |image, _| {
        let value = |table: usize, path: usize| u16_at(image, table + 2 * path);
        let differs = |path: &usize| value(at::COMMITTED_VALUES, *path) != value(at::APPLIED_VALUES, *path);
        Ok((0..32).filter(differs).fold(0, |mask, path| mask | 1 << path))
    })
}

fn one_of(fields: &[Field], field: u64) -> Result<Field, Refusal> {
    if field == 0 || field > fields.len() as u64 {
        return Err(Refusal::OutOfRange);
    }
    Ok(fields[field as usize - 1])
}

/// The number at the place that is found in a well-formed image, whose log keeps what is given.
fn shown(image: &[u8], find: impl FnOnce(Kept) -> Result<Field, Refusal>) -> u64 {
    answered(image, |image, kept| Ok(number_at(image, find(kept)?)))
}

fn number_at(bytes: &[u8], (at, width): Field) -> u32 {
    match width {
        1 => bytes[at].into(),
        2 => u16_at(bytes, at).into(),
        _ => u32_at(bytes, at),
    }
}

/// What is read of a well-formed image, packed.
fn answered(image: &[u8], read: impl FnOnce(&Image, Kept) -> Result<u32, Refusal>) -> u64 {
    let read = <&Image>::try_from(image).map_err(|_| Refusal::NotWellFormed).and_then(|image| {
        let kept = checked(image).ok_or(Refusal::NotWellFormed)?;
        read(image, kept)
    });
    match read {
        Ok(value) => u64::from(value) << 32,
        Err(refusal) => refusal.number().into(),
    }
}

/// Why a job does not move, from the fields that its rules and reasons name; the log is gone over once more at most.
#[inline(never)]
pub fn why(image: &[u8], node: u64, job: u64, number: u64) -> u64 {
    let told = <&Image>::try_from(image).map_err(|_| Refusal::NotWellFormed).and_then(|image| {
        let kept = checked(image).ok_or(Refusal::NotWellFormed)?;
        let (node, job, ..) = ranged(node, job, 0, 0).ok_or(Refusal::OutOfRange)?;
        let number = kept.number(number)?;
        if image[at::MASTERSHIP] != node.number() {
            return Err(Refusal::NotMaster);
        }
        let stuck = Stuck { image, kept, number: number.0, bytes: image::entry_at(image, number) };
        let told = match job {
            Job::CommitChange => stuck.commit_change(),
            Job::ApplyChange => stuck.apply_change(),
            Job::CommitRollback => stuck.commit_rollback(),
            Job::ApplyRollback => stuck.apply_rollback(),
        };
        told.ok_or(Refusal::NotWaiting)
    });
    match told {
        Ok((reason, named)) => u64::from(reason.number()) << 8 | u64::from(named) << 32,
        Err(refusal) => refusal.number().into(),
    }
}

/// A job that is asked after: each of its four answers the reason and what that names, and nothing where a rule holds.
struct Stuck<'a> {
    image: &'a Image,
    kept: Kept,
    number: u16,
    bytes: &'a [u8],
}

type Told = Option<(Reason, u32)>;

const NONE: u8 = Status::None as u8;
const PENDING: u8 = Status::Pending as u8;
const IN_PROGRESS: u8 = Status::InProgress as u8;
const COMPLETE: u8 = Status::Complete as u8;
const ABORTED: u8 = Status::Aborted as u8;
const CANCELED: u8 = Status::Canceled as u8;
const FAILED: u8 = Status::Failed as u8;

impl Stuck<'_> {
    fn commit_change(&self) -> Told {
        let change = u16_at(self.image, at::COMMITTED_CHANGE);
        let waits = change == self.number - 1;
        match status_at(self.bytes, weight::C_COMMIT) {
            PENDING if waits && u16_at(self.image, at::COMMITTED + 2) == self.number => None,
            PENDING if waits => (!at_rest(self.image, self.kept)).then(|| self.in_flight()),
            IN_PROGRESS if waits || change == self.number => None,
            FAILED if waits => None,
            status if is_done(status) => Some((Reason::Finished, 0)),
            _ if u32::from(change) + 1 < self.number.into() => Some((Reason::EarlierChange, u32::from(change) + 1)),
            _ if !at_rest(self.image, self.kept) => Some(self.in_flight()),
            _ => Some((Reason::NoneFits, 0)),
        }
    }

    fn commit_rollback(&self) -> Told {
        let revision = u16_at(self.image, at::COMMITTED + 4);
        let r_index = u16_at(self.bytes, entry::R_INDEX);
        let stands = revision == self.number;
        match status_at(self.bytes, weight::R_COMMIT) {
            PENDING if stands && u16_at(self.image, at::COMMITTED + 2) == r_index => None,
            PENDING if stands => (!at_rest(self.image, self.kept)).then(|| self.in_flight()),
            IN_PROGRESS if stands || revision == r_index => None,
            NONE => Some((Reason::NoRollbackAsked, 0)),
            status if is_done(status) => Some((Reason::Finished, 0)),
            _ if !at_rest(self.image, self.kept) => Some(self.in_flight()),
            _ if revision > self.number => Some((Reason::ChangeOnTop, revision.into())),
            _ => Some((Reason::NoneFits, 0)),
        }
    }

    fn apply_change(&self) -> Told {
        let own = u32_at(self.bytes, entry::C_ORDINAL);
        let applied = u32_at(self.image, at::APPLIED + 6);
        let next = own == applied + 1;
        let r_index = u16_at(self.bytes, entry::R_INDEX);
        let committed = status_at(self.bytes, weight::C_COMMIT) == COMPLETE;
        match status_at(self.bytes, weight::C_APPLY) {
            PENDING if committed && next => {
                let goes = u16_at(self.image, at::APPLIED + 2) == self.number;
                let ends = status_at(self.bytes, weight::R_COMMIT) == COMPLETE || u16_at(self.image, at::APPLIED + 4) <= r_index;
                self.opens(goes, ends)
            }
            IN_PROGRESS if committed && (next || (own != 0 && own == applied)) => None,
            ABORTED | FAILED if committed && next => None,
            status if is_done(status) => Some((Reason::Finished, 0)),
            _ if !committed => Some((Reason::NotCommitted, 0)),
            _ => Some(self.earlier_ordinal(own)),
        }
    }

    fn apply_rollback(&self) -> Told {
        let own = u32_at(self.bytes, entry::R_ORDINAL);
        let applied = u32_at(self.image, at::APPLIED + 6);
        let next = own == applied + 1;
        let commit = status_at(self.bytes, weight::R_COMMIT);
        match status_at(self.bytes, weight::R_APPLY) {
            PENDING if commit == COMPLETE && next => {
                let change = status_at(self.bytes, weight::C_APPLY);
                let began = matches!(change, COMPLETE | FAILED);
                let stands = u16_at(self.image, at::APPLIED + 2) == u16_at(self.bytes, entry::R_INDEX);
                self.opens(began && stands, began || change == ABORTED)
            }
            IN_PROGRESS if commit == COMPLETE && (next || (own != 0 && own == applied)) => None,
            CANCELED if commit == COMPLETE && next => None,
            status if is_done(status) => Some((Reason::Finished, 0)),
            _ if commit == NONE => Some((Reason::NoRollbackAsked, 0)),
            _ if commit != COMPLETE => Some((Reason::NotCommitted, 0)),
            _ => Some(self.earlier_ordinal(own)),
        }
    }

    /// Of an apply that is Pending and next: a rule holds where one does that asks nothing of the applied side, or where one
    /// does that asks it to be settled and it is.
    fn opens(&self, goes: bool, where_settled: bool) -> Told {
        let applied = u32_at(self.image, at::APPLIED + 6);
        if goes {
            None
        } else if !settled(self.image, self.kept, Ordinal(applied)) {
            Some((Reason::EarlierOrdinal, applied))
        } else {
            (!where_settled).then_some((Reason::NoneFits, 0))
        }
    }

    /// The ordinal that is waited for, where it is below the job's own.
    fn earlier_ordinal(&self, own: u32) -> (Reason, u32) {
        let applied = u32_at(self.image, at::APPLIED + 6);
        if own <= applied {
            return (Reason::NoneFits, 0);
        }
        let waited_for = applied + u32::from(settled(self.image, self.kept, Ordinal(applied)));
        if waited_for < own { (Reason::EarlierOrdinal, waited_for) } else { (Reason::NoneFits, 0) }
    }

    /// The commit that is under way.
    fn in_flight(&self) -> (Reason, u32) {
        let [target, revision] = [2, 4].map(|field| u16_at(self.image, at::COMMITTED + field));
        if target > u16_at(self.image, at::COMMITTED_CHANGE) {
            return (Reason::CommitInFlight, target.into());
        }
        let begun = |bytes: &[u8; ENTRY]| status_at(bytes, weight::C_COMMIT) == IN_PROGRESS || status_at(bytes, weight::R_COMMIT) == IN_PROGRESS;
        let place = entries(self.image, self.kept).position(begun);
        let named = place.map_or(revision.into(), |place| u32::from(self.kept.folded) + 1 + place as u32);
        (Reason::CommitInFlight, named)
    }
}

/// What the validation and the push of each kept change are answered.
pub type Outcomes = [[Outcome; 2]; LOG_LIMIT];

/// Works through the night (order 2) on a state in memory, which is neither checked nor decoded: as the order reads, each turn
/// tries every kept number from the lowest. The events go into the room as the C interface lays them.
#[inline(never)]
pub fn night_as_read(state: &mut State, node: u64, budget: u64, outcomes: &Outcomes, events: &mut [u8]) -> u64 {
    night(state, node, budget, outcomes, events, |_, _| 0)
}

/// The same, but that numbers from the lowest of which nothing is left are not asked again.
#[inline(never)]
pub fn night_skipping(state: &mut State, node: u64, budget: u64, outcomes: &Outcomes, events: &mut [u8]) -> u64 {
    night(state, node, budget, outcomes, events, skip)
}

/// The turns, each from the place in the log that `begins` answers, given the last one's.
#[inline(always)]
fn night(
    state: &mut State,
    node: u64,
    budget: u64,
    outcomes: &Outcomes,
    events: &mut [u8],
    begins: impl Fn(&State, usize) -> usize,
) -> u64 {
    let Some(node) = Node::new(node).filter(|_| budget <= 4096) else {
        return Refusal::OutOfRange.number().into();
    };
    if state.mastership.master != Some(node) {
        return Refusal::NotMaster.number().into();
    }
    // No job opens the line or closes it.
    let line_open = state.line_open(node);
    let (mut jobs, mut low, mut refused) = (0, 0, None);
    while jobs < budget as usize && refused.is_none() {
        low = begins(state, low);
        match turn(state, low, line_open, outcomes) {
            Ok(event) => {
                put_event(events, jobs, event);
                jobs += 1;
            }
            Err(lacks_line) => refused = Some(lacks_line),
        }
    }
    let refused = refused.or_else(|| turn(&mut state.clone(), low, line_open, outcomes).err());
    let stopped = refused.map_or(2, u64::from);
    stopped << 8 | (jobs as u64) << 16 | (jobs.min(events.len() / EVENT) as u64) << 32
}

fn put_event(events: &mut [u8], place: usize, event: Option<Event>) {
    if let Some(bytes) = events.chunks_exact_mut(EVENT).nth(place) {
        let told = event.map_or([0; 4], |it| [it.phase as u32, it.stage as u32, it.number.0.into(), it.status as u32]);
        bytes.chunks_exact_mut(4).zip(told).for_each(|(four, part)| four.copy_from_slice(&part.to_le_bytes()));
    }
}

/// Does the first job that is not refused and answers its event; where each is, whether one is refused with 12.
fn turn(state: &mut State, low: usize, line_open: bool, outcomes: &Outcomes) -> Result<Option<Event>, bool> {
    let at_rest = state.at_rest();
    let mut lacks_line = false;
    for place in low..state.log.len() {
        let mut transaction = state.log[place];
        for job in Job::ALL.into_iter().filter(|job| has_rules(*job, &state.log[place])) {
            let work = Work {
                job,
                number: Number(state.folded.0 + 1 + place as u16),
                outcome: outcome_of(job, &outcomes[place]),
                cut: Cut::Nowhere,
                transaction: &mut transaction,
                committed: &mut state.committed,
                applied: &mut state.applied,
                target_values: &mut state.target.values,
            };
            match work.done(at_rest, line_open, |ordinal| controller::settled(&state.log, ordinal)).reply {
                Ok(event) => {
                    state.log[place] = transaction;
                    return Ok(event);
                }
                Err(refusal) => lacks_line |= refusal == Refusal::LineNotOpen,
            }
        }
    }
    Err(lacks_line)
}

/// No rule of any job holds for a stage that is None or Complete.
fn has_rules(job: Job, it: &Transaction) -> bool {
    let stage = match job {
        Job::CommitChange => it.c.commit,
        Job::ApplyChange => it.c.apply,
        Job::CommitRollback => it.r.commit,
        Job::ApplyRollback => it.r.apply,
    };
    !matches!(stage, Status::None | Status::Complete)
}

fn outcome_of(job: Job, [validation, push]: &[Outcome; 2]) -> Outcome {
    match job {
        Job::CommitChange => *validation,
        Job::ApplyChange => *push,
        Job::CommitRollback | Job::ApplyRollback => Outcome::Accepted,
    }
}

/// The first place from `low` on whose transaction may move again in this night.
fn skip(state: &State, low: usize) -> usize {
    let stands = |status: Status| !matches!(status, Status::Pending | Status::InProgress);
    let passed = |ordinal: Ordinal| ordinal <= state.applied.ordinal;
    let through = usize::from(state.committed.change.0.saturating_sub(state.folded.0));
    let over = |it: &Transaction| {
        [it.c, it.r].iter().all(|side| stands(side.commit) && stands(side.apply) && passed(side.ordinal))
    };
    let moves = |place: &usize| *place >= through || !over(&state.log[*place]);
    (low..state.log.len()).find(moves).unwrap_or(state.log.len())
}
