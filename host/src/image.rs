//! The byte image of a state: where each field lies, and the state's way out of the bytes and back into them.
//!
//! `decode` answers a state only for a well-formed image. `encode` writes over the image that the state was read from, so
//! that every byte that carries nothing (places past a change's pairs, slots of no number kept) stays what it was.

use crate::controller::{
    Applied, Change, Committed, Configuration, ConfigurationState, Connection, Mastership, Node, Number, Ordinal, Phase,
    Progress, State, Status, Target, Term, Transaction, Values, LOG_LIMIT, NODES, PAIR_LIMIT, PATHS,
};

/// An image's length; bytes of any other length are no image.
pub const LENGTH: usize = 5782;

/// How far apart the slots of the log's ring lie.
pub const ENTRY: usize = 42;

/// The slot of a transaction's number.
pub fn slot(number: Number) -> usize {
    usize::from(number.before().0) % LOG_LIMIT
}

/// The bytes of a number's slot.
pub fn entry_at(image: &[u8], number: Number) -> &[u8] {
    &image[ENTRY * slot(number)..][..ENTRY]
}

/// As `entry_at`, to write.
pub fn entry_at_mut(image: &mut [u8], number: Number) -> &mut [u8] {
    &mut image[ENTRY * slot(number)..][..ENTRY]
}

/// Where the fields of an entry lie in it.
pub mod entry {
    pub const STATUSES: usize = 0;
    pub const PHASE: usize = 2;
    pub const PAIRS: usize = 3;
    pub const R_INDEX: usize = 4;
    pub const C_ORDINAL: usize = 6;
    pub const R_ORDINAL: usize = 10;
    pub const PATHS: usize = 14;
    pub const VALUES: usize = 18;
    pub const R_VALUES: usize = 26;
    pub const R_OWNERS: usize = 34;
}

/// What each of an entry's four statuses counts in the one number of them (order 12).
pub mod weight {
    pub const C_COMMIT: u16 = 343;
    pub const C_APPLY: u16 = 49;
    pub const R_COMMIT: u16 = 7;
    pub const R_APPLY: u16 = 1;
}

/// The highest number of four statuses: each is Failed.
pub const HIGHEST_STATUSES: u16 = 2400;

/// Where the fields after the log lie.
pub mod at {
    pub const HIGHEST: usize = 5376;
    pub const COMMITTED_CHANGE: usize = 5378;
    pub const COMMITTED: usize = 5380;
    pub const COMMITTED_VALUES: usize = 5390;
    pub const OWNERS: usize = 5454;
    pub const APPLIED: usize = 5518;
    pub const APPLIED_VALUES: usize = 5528;
    pub const TARGET_VALUES: usize = 5592;
    pub const CONFIGURATION: usize = 5656;
    pub const MASTERSHIP: usize = 5661;
    pub const TARGET: usize = 5670;
    pub const RUNNING: usize = 5674;
    pub const REMEMBERS: usize = 5675;
    pub const CONNECTIONS: usize = 5676;
    pub const CONNECTION: usize = 5;
    pub const FOLDED: usize = 5716;
    pub const BASE: usize = 5718;
}

pub fn u16_at(bytes: &[u8], at: usize) -> u16 {
    u16::from_le_bytes([bytes[at], bytes[at + 1]])
}

pub fn u32_at(bytes: &[u8], at: usize) -> u32 {
    u32::from_le_bytes([bytes[at], bytes[at + 1], bytes[at + 2], bytes[at + 3]])
}

pub fn put_u16(bytes: &mut [u8], at: usize, value: u16) {
    bytes[at..at + 2].copy_from_slice(&value.to_le_bytes());
}

pub fn put_u32(bytes: &mut [u8], at: usize, value: u32) {
    bytes[at..at + 4].copy_from_slice(&value.to_le_bytes());
}

/// The code of one of an entry's statuses.
pub fn status_at(bytes: &[u8], weight: u16) -> u8 {
    (u16_at(bytes, entry::STATUSES) / weight % 7) as u8
}

/// Puts another code in its place.
pub fn put_status(bytes: &mut [u8], weight: u16, code: u8) {
    let others = u16_at(bytes, entry::STATUSES) - weight * u16::from(status_at(bytes, weight));
    put_u16(bytes, entry::STATUSES, others + weight * u16::from(code));
}

/// The state in the image, where the image is well-formed.
pub fn decode(image: &[u8]) -> Option<State> {
    decode_whatever_owners(image).filter(State::has_well_formed_owners)
}

/// The same where it is well-formed but for what order 7 asks.
pub fn decode_whatever_owners(image: &[u8]) -> Option<State> {
    if image.len() != LENGTH {
        return None;
    }
    let (folded, highest) = (u16_at(image, at::FOLDED), u16_at(image, at::HIGHEST));
    if usize::from(highest.checked_sub(folded)?) > LOG_LIMIT {
        return None;
    }
    let kept = (folded..highest).map(|before| entry_at(image, Number(before + 1)));
    let state = State {
        folded: Number(folded),
        base: decode_values(image, at::BASE),
        log: kept.map(decode_entry).collect::<Option<Vec<_>>>()?,
        committed: decode_committed(image),
        applied: decode_applied(image),
        configuration: decode_configuration(image)?,
        mastership: decode_mastership(image)?,
        connections: decode_connections(image)?,
        target: decode_target(image)?,
    };
    state.is_well_formed_whatever_owners().then_some(state)
}

/// The transaction in an entry's bytes, where its codes are in range and its pairs a valid change.
pub fn decode_entry(bytes: &[u8]) -> Option<Transaction> {
    if u16_at(bytes, entry::STATUSES) > HIGHEST_STATUSES {
        return None;
    }
    let status = |weight: u16| Status::from_code(status_at(bytes, weight));
    let ordinal = |at: usize| Ordinal(u32_at(bytes, at));
    let count = usize::from(bytes[entry::PAIRS]);
    if count > 4 {
        return None;
    }
    let pair = |place: usize| (u16::from(bytes[entry::PATHS + place]), u16_at(bytes, entry::VALUES + 2 * place));
    let mut r_values = [0; PAIR_LIMIT];
    for (place, value) in r_values.iter_mut().take(count).enumerate() {
        *value = u16_at(bytes, entry::R_VALUES + 2 * place);
    }
    Some(Transaction {
        phase: match bytes[entry::PHASE] {
            1 => Phase::Change,
            2 => Phase::Rollback,
            _ => return None,
        },
        change: Change::new((0..count).map(pair))?,
        c: Progress {
            commit: status(weight::C_COMMIT)?,
            apply: status(weight::C_APPLY)?,
            ordinal: ordinal(entry::C_ORDINAL),
        },
        r: Progress {
            commit: status(weight::R_COMMIT)?,
            apply: status(weight::R_APPLY)?,
            ordinal: ordinal(entry::R_ORDINAL),
        },
        r_index: Number(u16_at(bytes, entry::R_INDEX)),
        r_values,
        r_owners: std::array::from_fn(|place| Number(u16_at(bytes, entry::R_OWNERS + 2 * place))),
    })
}

pub fn decode_committed(image: &[u8]) -> Committed {
    let number = |at: usize| Number(u16_at(image, at));
    Committed {
        change: number(at::COMMITTED_CHANGE),
        index: number(at::COMMITTED),
        target: number(at::COMMITTED + 2),
        revision: number(at::COMMITTED + 4),
        ordinal: Ordinal(u32_at(image, at::COMMITTED + 6)),
        values: decode_values(image, at::COMMITTED_VALUES),
        owners: decode_values(image, at::OWNERS).map(Number),
    }
}

pub fn decode_applied(image: &[u8]) -> Applied {
    let number = |at: usize| Number(u16_at(image, at));
    Applied {
        index: number(at::APPLIED),
        target: number(at::APPLIED + 2),
        revision: number(at::APPLIED + 4),
        ordinal: Ordinal(u32_at(image, at::APPLIED + 6)),
        values: decode_values(image, at::APPLIED_VALUES),
    }
}

pub fn decode_values(image: &[u8], at: usize) -> Values {
    let mut values = [0; PATHS];
    for (value, bytes) in values.iter_mut().zip(image[at..at + 2 * PATHS].chunks_exact(2)) {
        *value = u16_at(bytes, 0);
    }
    values
}

pub fn decode_configuration(image: &[u8]) -> Option<Configuration> {
    let state = match image[at::CONFIGURATION] {
        1 => ConfigurationState::Pending,
        2 => ConfigurationState::InProgress,
        3 => ConfigurationState::Complete,
        _ => return None,
    };
    Some(Configuration { state, term: Term(u32_at(image, at::CONFIGURATION + 1)) })
}

pub fn decode_mastership(image: &[u8]) -> Option<Mastership> {
    let master = match image[at::MASTERSHIP] {
        0 => None,
        node => Some(Node::new(u64::from(node))?),
    };
    Some(Mastership {
        master,
        term: Term(u32_at(image, at::MASTERSHIP + 1)),
        conn: u32_at(image, at::MASTERSHIP + 5),
    })
}

pub fn decode_connections(image: &[u8]) -> Option<[Connection; NODES]> {
    let mut connections = [Connection::default(); NODES];
    for (connection, bytes) in connections.iter_mut().zip(image[at::CONNECTIONS..].chunks_exact(at::CONNECTION)) {
        *connection = Connection { id: u32_at(bytes, 0), connected: decode_flag(bytes[4])? };
    }
    Some(connections)
}

pub fn decode_target(image: &[u8]) -> Option<Target> {
    Some(Target {
        id: u32_at(image, at::TARGET),
        running: decode_flag(image[at::RUNNING])?,
        remembers: decode_flag(image[at::REMEMBERS])?,
        values: decode_values(image, at::TARGET_VALUES),
    })
}

fn decode_flag(code: u8) -> Option<bool> {
    match code {
        0 => Some(false),
        1 => Some(true),
        _ => None,
    }
}

/// Writes the state over the image that it was read from, or that its last call was written to.
pub fn encode(state: &State, image: &mut [u8]) {
    let had = Number(u16_at(image, at::HIGHEST));
    for (number, transaction) in state.kept() {
        let bytes = entry_at_mut(image, number);
        if number > had {
            bytes.fill(0);
        }
        encode_entry(transaction, bytes);
    }
    put_u16(image, at::HIGHEST, state.highest().0);
    put_u16(image, at::FOLDED, state.folded.0);
    encode_values(&state.base, image, at::BASE);
    encode_committed(&state.committed, image);
    encode_applied(&state.applied, image);
    encode_configuration(&state.configuration, image);
    encode_mastership(&state.mastership, image);
    encode_connections(&state.connections, image);
    encode_target(&state.target, image);
}

/// Writes a transaction over its entry's bytes.
///
/// A change that begins to commit, however far it then comes, gets r.values anew, and with them the places past its pairs,
/// which become 0; every other store keeps those places. The paper does not look at them, the image's definition does. Of the
/// owners that it remembers the transaction has all four places.
pub fn encode_entry(transaction: &Transaction, bytes: &mut [u8]) {
    let begins = status_at(bytes, weight::C_COMMIT) == Status::Pending.code() && transaction.c.commit != Status::Pending;
    if begins {
        bytes[entry::R_VALUES..entry::R_OWNERS].fill(0);
    }
    put_u16(bytes, entry::STATUSES, statuses(transaction));
    bytes[entry::PHASE] = transaction.phase as u8;
    bytes[entry::PAIRS] = transaction.change.pairs().len() as u8;
    put_u16(bytes, entry::R_INDEX, transaction.r_index.0);
    put_u32(bytes, entry::C_ORDINAL, transaction.c.ordinal.0);
    put_u32(bytes, entry::R_ORDINAL, transaction.r.ordinal.0);
    for (place, (pair, r_value)) in transaction.change.pairs().iter().zip(transaction.r_values).enumerate() {
        bytes[entry::PATHS + place] = pair.path;
        put_u16(bytes, entry::VALUES + 2 * place, pair.value);
        put_u16(bytes, entry::R_VALUES + 2 * place, r_value);
    }
    for (place, owner) in transaction.r_owners.iter().enumerate() {
        put_u16(bytes, entry::R_OWNERS + 2 * place, owner.0);
    }
}

/// A transaction's four statuses in one number.
pub fn statuses(transaction: &Transaction) -> u16 {
    let Transaction { c, r, .. } = transaction;
    [c.commit, c.apply, r.commit, r.apply].into_iter().fold(0, |number, status| 7 * number + u16::from(status.code()))
}

pub fn encode_committed(committed: &Committed, image: &mut [u8]) {
    put_u16(image, at::COMMITTED_CHANGE, committed.change.0);
    put_u16(image, at::COMMITTED, committed.index.0);
    put_u16(image, at::COMMITTED + 2, committed.target.0);
    put_u16(image, at::COMMITTED + 4, committed.revision.0);
    put_u32(image, at::COMMITTED + 6, committed.ordinal.0);
    encode_values(&committed.values, image, at::COMMITTED_VALUES);
    encode_values(&committed.owners.map(|owner| owner.0), image, at::OWNERS);
}

pub fn encode_applied(applied: &Applied, image: &mut [u8]) {
    put_u16(image, at::APPLIED, applied.index.0);
    put_u16(image, at::APPLIED + 2, applied.target.0);
    put_u16(image, at::APPLIED + 4, applied.revision.0);
    put_u32(image, at::APPLIED + 6, applied.ordinal.0);
    encode_values(&applied.values, image, at::APPLIED_VALUES);
}

pub fn encode_values(values: &Values, image: &mut [u8], at: usize) {
    for (bytes, value) in image[at..at + 2 * PATHS].chunks_exact_mut(2).zip(values) {
        bytes.copy_from_slice(&value.to_le_bytes());
    }
}

pub fn encode_configuration(configuration: &Configuration, image: &mut [u8]) {
    image[at::CONFIGURATION] = configuration_code(configuration.state);
    put_u32(image, at::CONFIGURATION + 1, configuration.term.0);
}

pub fn configuration_code(state: ConfigurationState) -> u8 {
    match state {
        ConfigurationState::Pending => 1,
        ConfigurationState::InProgress => 2,
        ConfigurationState::Complete => 3,
    }
}

pub fn encode_mastership(mastership: &Mastership, image: &mut [u8]) {
    image[at::MASTERSHIP] = mastership.master.map_or(0, Node::number);
    put_u32(image, at::MASTERSHIP + 1, mastership.term.0);
    put_u32(image, at::MASTERSHIP + 5, mastership.conn);
}

pub fn encode_connections(connections: &[Connection; NODES], image: &mut [u8]) {
    for (connection, bytes) in connections.iter().zip(image[at::CONNECTIONS..].chunks_exact_mut(at::CONNECTION)) {
        put_u32(bytes, 0, connection.id);
        bytes[4] = connection.connected.into();
    }
}

pub fn encode_target(target: &Target, image: &mut [u8]) {
    put_u32(image, at::TARGET, target.id);
    image[at::RUNNING] = target.running.into();
    image[at::REMEMBERS] = target.remembers.into();
    encode_values(&target.values, image, at::TARGET_VALUES);
}
