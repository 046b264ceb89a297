//! States that are well-formed and otherwise arbitrary, most of which no session reaches, and images that are damaged.

use crate::controller::{
    Applied, Change, Committed, Configuration, ConfigurationState, Connection, Mastership, Node, Number, Ordinal, Owners,
    Phase, Progress, State, Status, Target, Term, Transaction, Values, PATHS,
};
use crate::image::{self, at, entry, entry_at_mut, put_u16, put_u32, slot, u16_at, ENTRY, LENGTH};
use crate::northbound::{pairs_of, Request};
use crate::random::Random;
use crate::requests::{any_number, change};

/// A state that is well-formed and otherwise arbitrary, and its image.
pub fn made_up(random: &mut Random) -> (State, Vec<u8>) {
    let focus = Focus::new(random);
    let state = focus.state(random);
    let bytes = focus.image(&state, random);
    (state, bytes)
}

/// Damages an image in a byte, a field, its length, or everything.
pub fn damage(bytes: &mut Vec<u8>, state: &State, random: &mut Random) {
    match random.below(20) {
        0 => bytes.iter_mut().for_each(|byte| *byte = random.bits() as u8),
        1 => {
            let (short, long) = ([0, 1, ENTRY, at::HIGHEST, at::FOLDED], [LENGTH + 1, LENGTH + ENTRY, 2 * LENGTH, 65536]);
            let length = random.one_of(&[&short[..], &[BEFORE_OWNERS, LENGTH - 1, BEFORE_PACKED], &long].concat());
            bytes.resize(length, random.bits() as u8);
        }
        2..=7 => {
            let place = place_in_use(state, random);
            bytes[place] = random.bits() as u8;
        }
        8 | 9 => {
            let place = place_in_use(state, random);
            bytes[place] ^= 1 << random.below(8);
        }
        10..=14 if !state.log.is_empty() => {
            let number = kept_number(state, random);
            damage_entry(entry_at_mut(bytes, number), number, random);
        }
        15 if !state.log.is_empty() => {
            let number = kept_number(state, random);
            put_u16(entry_at_mut(bytes, number), entry::STATUSES, any_statuses(random));
        }
        _ => damage_record(bytes, random),
    }
}

/// An image's length before order 7, and before order 12.
const BEFORE_OWNERS: usize = 4949;
const BEFORE_PACKED: usize = 6038;

/// One of the kept numbers, of which there is one.
fn kept_number(state: &State, random: &mut Random) -> Number {
    Number(state.folded.0 + 1 + random.below(state.log.len()) as u16)
}

/// A place that some field uses, or any.
fn place_in_use(state: &State, random: &mut Random) -> usize {
    match random.below(4) {
        0 | 1 if !state.log.is_empty() => ENTRY * slot(kept_number(state, random)) + random.below(ENTRY),
        0 => random.below(LENGTH),
        _ => random.between(at::HIGHEST, LENGTH - 1),
    }
}

/// Ordinals at their limit and past it.
const ORDINALS: [u32; 7] = [0, 255, 131_069, 131_070, 131_071, 1 << 24, u32::MAX];

/// A number of four statuses, at its limit or past it, or any in range.
fn any_statuses(random: &mut Random) -> u16 {
    match random.below(4) {
        0 => random.below(2401) as u16,
        _ => random.one_of(&[0, 399, 2399, 2400, 2401, 2402, 2744, 32768, 65535]),
    }
}

/// Puts a number just outside its range, or far, into a field of an entry.
fn damage_entry(bytes: &mut [u8], number: Number, random: &mut Random) {
    match random.below(9) {
        0 => put_u16(bytes, entry::STATUSES, any_statuses(random)),
        1 => bytes[entry::PHASE] = random.one_of(&[0, 1, 2, 3, 255]),
        2 => bytes[entry::PAIRS] = random.one_of(&[0, 1, 4, 5, 255]),
        3 => put_u16(bytes, entry::R_INDEX, random.one_of(&[0, 1, 2, 127, 128, 255, 256, 65535])),
        4 => put_u32(bytes, entry::C_ORDINAL, random.one_of(&ORDINALS)),
        5 => put_u32(bytes, entry::R_ORDINAL, random.one_of(&ORDINALS)),
        6 | 7 => put_u16(bytes, entry::R_OWNERS + 2 * random.below(4), near(number, random)),
        _ => bytes[entry::PATHS + random.below(4)] = random.one_of(&[0, 1, 30, 31, 32, 33, 255]),
    }
}

/// As `damage_entry`, in a record after the log.
fn damage_record(bytes: &mut [u8], random: &mut Random) {
    let heads = [at::COMMITTED, at::APPLIED].into_iter().flat_map(|head| [head, head + 2, head + 4]);
    let numbers: Vec<usize> = heads.chain([at::COMMITTED_CHANGE, at::HIGHEST, at::FOLDED, at::FOLDED]).collect();
    let flags = [at::RUNNING, at::REMEMBERS, at::CONNECTIONS + 4, at::CONNECTIONS + 39];
    match random.below(8) {
        0 | 1 => damage_number(bytes, random.one_of(&numbers), random),
        2 => put_u32(bytes, random.one_of(&[at::COMMITTED + 6, at::APPLIED + 6]), random.one_of(&ORDINALS)),
        3 => bytes[at::CONFIGURATION] = random.one_of(&[0, 1, 3, 4, 255]),
        4 => bytes[at::MASTERSHIP] = random.one_of(&[0, 8, 9, 255]),
        5 | 6 => {
            let change = Number(u16_at(bytes, at::COMMITTED_CHANGE));
            put_u16(bytes, at::OWNERS + 2 * random.below(PATHS), near(change, random));
        }
        _ => bytes[random.one_of(&flags)] = random.one_of(&[0, 1, 2, 255]),
    }
}

/// A number beside that one, or that one, or far.
fn near(Number(number): Number, random: &mut Random) -> u16 {
    let far = random.one_of(&[0, 256, 65535]);
    random.one_of(&[number.saturating_sub(1), number, number.saturating_add(1), number.wrapping_add(256), far])
}

/// Puts a number near one of the log's ends, the kept ones' limit away from one, or far.
fn damage_number(bytes: &mut [u8], place: usize, random: &mut Random) {
    let end = u16_at(bytes, random.one_of(&[at::FOLDED, at::HIGHEST]));
    let near = random.one_of(&[0, 1, 127, 128, 129]);
    let far = random.one_of(&[0, 1, 2, 127, 128, 129, 256, 65535]);
    let number = random.one_of(&[end.saturating_sub(near), end.saturating_add(near), far]);
    put_u16(bytes, place, number);
}

/// What a made-up state is made around: a transaction, its r.index and ordinals, so that rules have a chance to hold.
pub struct Focus {
    folded: u16,
    highest: u16,
    number: u16,
    r_index: u16,
    applied_ordinal: u32,
    master: u16,
    /// Whether all up to the transaction is finished and little is under way, so that a fold has a chance to be allowed.
    folds: bool,
}

impl Focus {
    pub fn new(random: &mut Random) -> Focus {
        let kept = random.one_of(&[0, 1, 2, 2, 3, 3, 4, 5, 9, 30, 127, 128]);
        let folded = random.one_of(&[0, 0, 0, 1, 2, 60, 126, 127, 128, 129, 40_000, 65_535 - kept, 65_534 - kept]);
        let number = if kept == 0 { folded.max(1) } else { folded + 1 + random.below(kept.into()) as u16 };
        let r_index = match random.below(3) {
            0 => random.below(number.into()) as u16,
            _ => random.between(folded.min(number - 1).into(), (number - 1).into()) as u16,
        };
        Focus {
            folded,
            highest: folded + kept,
            number,
            r_index,
            applied_ordinal: random.one_of(&[0, 0, 1, 2, 3, 100, 131_068, 131_069, 131_070]),
            master: random.between(1, 8) as u16,
            folds: random.once_in(4),
        }
    }

    pub fn request(&self, state: &State, random: &mut Random) -> Request {
        let near = |random: &mut Random| match random.below(8) {
            0 => any_number(state, random),
            _ => self.number.into(),
        };
        if self.folds && random.once_in(2) {
            let below = if random.once_in(2) { 0 } else { random.below(state.log.len() + 1) as u64 };
            return Request::Fold(near(random).saturating_sub(below));
        }
        let master = u64::from(self.master);
        match random.below(14) {
            0 => Request::Rollback(near(random)),
            1 => Request::Append(change(random)),
            2 => random.one_of(&[Request::Start, Request::Stop].each_ref()).clone(),
            3 => Request::Master(master),
            4 => Request::Sync(master),
            5 => Request::Connect(master),
            6 | 7 => Request::Fold(near(random)),
            _ => {
                let job = match random.below(3) {
                    0 => random.between(1, 4) as u64,
                    _ if state.transaction(Number(self.number)).is_some_and(|it| it.phase == Phase::Rollback) => {
                        random.one_of(&[3, 4, 4])
                    }
                    _ => random.one_of(&[1, 2, 2]),
                };
                let number = near(random);
                let (outcome, cut) = (random.below(2) as u64, random.below(3) as u64);
                Request::Work { node: master, job, number, outcome, cut }
            }
        }
    }

    /// The state's image with arbitrary bytes wherever nothing is looked at.
    pub fn image(&self, state: &State, random: &mut Random) -> Vec<u8> {
        let mut bytes = vec![0; LENGTH];
        for eight in bytes.chunks_mut(8) {
            let bits = random.bits().to_le_bytes();
            eight.copy_from_slice(&bits[..eight.len()]);
        }
        put_u16(&mut bytes, at::HIGHEST, self.highest);
        image::encode(state, &mut bytes);
        bytes
    }

    pub fn state(&self, random: &mut Random) -> State {
        let log = (self.folded..self.highest).map(|before| self.transaction(before + 1, random)).collect();
        let term = random.one_of(&[0, 1, 7, u32::MAX - 1, u32::MAX]);
        let conn = random.one_of(&[0, 1, 5, u32::MAX]);
        let mut connections = [Connection::default(); 8];
        for connection in &mut connections {
            let id = random.one_of(&[conn, conn, conn.wrapping_add(1), 0, u32::MAX]);
            *connection = Connection { id, connected: random.below(3) > 0 };
        }
        let state = [ConfigurationState::Pending, ConfigurationState::InProgress, ConfigurationState::Complete];
        let applied = self.applied(random);
        let target_values = differing(&applied.values, random);
        State {
            folded: Number(self.folded),
            base: values(random),
            log,
            committed: self.committed(random),
            applied,
            configuration: Configuration {
                state: random.one_of(&[state[0], state[1], state[2], state[2]]),
                term: Term(random.one_of(&[term, term, term.saturating_sub(1), term.saturating_add(1), 0])),
            },
            mastership: Mastership {
                master: Node::new(random.one_of(&[self.master, self.master, self.master, self.master, 0]).into()),
                term: Term(term),
                conn,
            },
            connections,
            target: Target {
                id: random.one_of(&[0, 1, u32::MAX - 1, u32::MAX]),
                running: random.below(4) > 0,
                remembers: random.once_in(2),
                values: target_values,
            },
        }
    }

    fn transaction(&self, number: u16, random: &mut Random) -> Transaction {
        let change = pairs_of(&change(random)).and_then(|pairs| Change::new(pairs.into_iter()));
        let change = change.expect("a valid change");
        let r_owners = std::array::from_fn(|_| self.owner(number - 1, random));
        let mut r_values = [0; 4];
        let r_value = |random: &mut Random| if random.once_in(4) { 0 } else { random.bits() as u16 };
        r_values.iter_mut().take(change.pairs().len()).for_each(|value| *value = r_value(random));
        let focused = number == self.number;
        let status = |random: &mut Random| random.one_of(&Status::ALL);
        let commit = |random: &mut Random| match random.below(3) {
            0 => random.one_of(&Status::ALL),
            1 => random.one_of(&[Status::Pending, Status::InProgress, Status::Failed]),
            _ => Status::Complete,
        };
        let mut transaction = Transaction {
            phase: random.one_of(&[Phase::Change, Phase::Rollback]),
            change,
            c: Progress { commit: commit(random), apply: status(random), ordinal: self.ordinal(random) },
            r: Progress { commit: commit(random), apply: status(random), ordinal: self.ordinal(random) },
            r_index: Number(if focused { self.r_index } else { self.below(number, random) }),
            r_values,
            r_owners,
        };
        if self.folds && number <= self.number {
            finish(&mut transaction, random);
        }
        transaction
    }

    /// A number below that one; the one before it where a fold is to find a long live list.
    fn below(&self, number: u16, random: &mut Random) -> u16 {
        if self.folds && !random.once_in(8) { number - 1 } else { random.below(number.into()) as u16 }
    }

    /// An owner up to that number: the greatest, one of those that rules compare with, none, or any.
    fn owner(&self, most: u16, random: &mut Random) -> Number {
        let any = random.below(usize::from(most) + 1) as u16;
        Number(random.one_of(&[most, self.number, self.folded, self.folded.saturating_add(1), 0, any]).min(most))
    }

    fn ordinal(&self, random: &mut Random) -> Ordinal {
        let present = self.applied_ordinal;
        let near = random.one_of(&[present, present + 1, present + 1, present + 1, present + 2, 0]);
        let limit = Ordinal::LIMIT.0;
        let far = if self.folds { !random.once_in(40) } else { random.once_in(5) };
        Ordinal(if far { random.below(limit as usize + 1) as u32 } else { near.min(limit) })
    }

    /// A number that a head's field may hold: one of those that rules compare with, or any that was given.
    fn head(&self, wanted: &[u16], random: &mut Random) -> Number {
        let number = match random.below(10) {
            0 => random.below(usize::from(self.highest) + 1) as u16,
            1 => random.between(self.folded.into(), self.highest.into()) as u16,
            _ => random.one_of(wanted),
        };
        Number(number.min(self.highest))
    }

    fn committed(&self, random: &mut Random) -> Committed {
        let change = self.head(&[self.number - 1, self.number - 1, self.number, self.highest], random);
        let revision = self.head(&[self.number, self.r_index, change.0], random).min(change);
        let index = self.head(&[change.0, self.number, revision.0, self.folded, 0], random);
        let elsewhere = if self.folds { index.0 } else { self.number };
        let target = self.head(&[elsewhere, self.r_index, index.0, index.0, revision.0, 0], random);
        let ordinal = Ordinal(random.one_of(&[0, 1, 2, 131_069, 131_070]));
        let owners: Owners = std::array::from_fn(|_| self.owner(change.0, random));
        Committed { index, change, target, revision, ordinal, values: values(random), owners }
    }

    fn applied(&self, random: &mut Random) -> Applied {
        Applied {
            index: self.head(&[self.number, self.r_index], random),
            target: self.head(&[self.number, self.r_index, 0], random),
            revision: self.head(&[self.r_index, self.r_index, self.r_index.saturating_sub(1), self.number], random),
            ordinal: Ordinal(self.applied_ordinal),
            values: values(random),
        }
    }
}

/// Brings a transaction to one of its ends, or nearly.
fn finish(transaction: &mut Transaction, random: &mut Random) {
    let done = random.one_of(&Status::ALL[3..]);
    match random.below(200) {
        0 => {}
        1..=60 => transaction.c.commit = Status::Failed,
        61..=130 => {
            transaction.phase = Phase::Change;
            transaction.c.apply = Status::Complete;
        }
        _ => transaction.r.apply = done,
    }
}

/// These values but for all of the paths, none, one or a few, so that a synchronise has as many to write.
fn differing(applied: &Values, random: &mut Random) -> Values {
    let mut values = if random.once_in(2) { values(random) } else { *applied };
    for _ in 0..random.one_of(&[0, 1, 1, 2, 5, 20]) {
        let any = random.bits() as u16;
        values[random.below(PATHS)] = random.one_of(&[0, any]);
    }
    values
}

fn values(random: &mut Random) -> Values {
    let mut values = [0; 32];
    values.iter_mut().for_each(|value| *value = random.bits() as u16);
    values
}
