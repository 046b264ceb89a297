//! Wrong copies of order 6: lists and entries read otherwise, entries taken or refused otherwise, positions counted otherwise,
//! calls left out or made otherwise, bytes written where none may be, or left.

use crate::controller::{
    overlay, Configuration, ConfigurationState, Connection, Node, Number, Ordinal, Phase, Refusal, State, Status, Term, Values,
    LOG_LIMIT, PAIR_LIMIT, PATHS,
};
use crate::image;
use crate::import::{Entry, Refused, ENTRY, ENTRY_LIMIT};
use crate::northbound::store_import;

/// A number of an entry.
#[derive(Clone, Copy, PartialEq, Eq, Debug)]
pub enum Part {
    Kind,
    Count,
    Named,
    Path,
    Value,
}

/// What is otherwise in the state that the first three calls leave.
#[derive(Clone, Copy, PartialEq, Eq, Debug)]
pub enum Begun {
    NoTerm,
    NextTerm,
    NoConn,
    NoTargetId,
    NextTargetId,
    NoConnectionId,
    NextConnectionId,
    Stopped,
    Disconnected,
    NoMaster,
    Master2,
    AllConnected,
    Synchronising,
    Synchronised,
}

#[derive(Clone, Copy, PartialEq, Eq, Debug)]
pub enum Blunder {
    // ---- the list
    /// The most entries are these; a list of more is judged by its entries first.
    EntryLimit(usize),
    EntriesFirst,
    /// A last piece that is no whole entry is left out.
    PieceLeftOut,
    /// What is no image is asked about behind the list; a well-formed one is asked for.
    ImageLast,
    WellFormedAsked,
    // ---- what an entry's bytes say
    /// Of this number the lower byte alone is looked at; of every number the higher byte comes first.
    LowByte(Part),
    HighByteFirst,
    /// Positions that carry nothing must be 0: those past a change's pairs, those of a rollback.
    UnusedAsked,
    RollbackPairsAsked,
    // ---- what is taken
    /// Of too many pairs the first four are taken; entries of no pairs, of bad paths and of neither kind are left out.
    FirstFour,
    NoPairsTaken,
    BadPathsTaken,
    NeitherTaken,
    /// A change that deletes is none.
    DeletesRefused,
    /// 4 before 3; so many changes fit; 128 entries do, or 128 that live.
    FullFirst,
    ChangeLimit(usize),
    FullByEntries,
    FullByLive,
    /// A rollback is taken that names what is undone already, a rollback, a change below the newest live one, nothing.
    DeadTaken,
    RollbackTaken,
    OlderTaken,
    NothingTaken,
    /// A rollback names the number that its change has now, or its position from 0; it means the newest, whatever it names.
    ByNumber,
    FromZero,
    NewestMeant,
    // ---- what is answered
    /// Positions count from 0, from 2, or the changes alone; 2 has one, and so has an accepted list.
    PositionFrom(u16),
    PositionByChanges,
    PositionWith2,
    PositionAccepted,
    PositionLost,
    /// The last bad entry is told; every 3 comes before every 4, and these before every 16.
    LastBad,
    ByRefusal,
    /// One refusal is answered for another.
    Answers(Refusal, Refusal),
    // ---- what is written
    /// A refused list leaves a fresh image, or what the entries before the bad one lead to; a list of no entry writes nothing.
    RefusedIsFresh,
    RefusedWrites,
    EmptyIsNothing,
    /// Bytes that carry nothing stay.
    OverOld,
    // ---- what the calls leave
    Begun(Begun),
    /// A change replaces, or a rollback does, as in the old product.
    Replaces,
    RollbackReplaces,
    /// Commits of this job are left begun; the last one is; rollbacks are asked for and not committed, or not asked for.
    LeftBegun(u64),
    LastLeftBegun,
    OnlyAsked,
    Unasked,
    /// Rollbacks count no ordinal, in the head and in what carries them; changes have none.
    RollbackUncounted,
    ChangeWithoutOrdinal,
    RollbackWithoutOrdinal,
    /// What is undone is not kept.
    UndoneDropped,
    /// The first entry is lost, or the last.
    FirstLost,
    LastLost,
    /// All is applied too; Applied has the values; the target has them.
    AllApplied,
    AppliedValues,
    TargetValues,
    /// Nothing is remembered of what was there before; of the revision; the committed target is left behind.
    RValuesLost,
    RIndexLost,
    TargetLeft,
    /// No path has an owner; nothing is remembered of earlier ones; what is undone keeps its paths; an owner is a position.
    OwnersLost,
    ROwnersLost,
    UndoneOwns,
    OwnersByPosition,
}

impl Blunder {
    pub fn all() -> Vec<Blunder> {
        use Blunder::*;
        let mut all = vec![EntriesFirst, PieceLeftOut, ImageLast, WellFormedAsked, HighByteFirst, UnusedAsked];
        all.extend([ENTRY_LIMIT - 1, ENTRY_LIMIT + 1].map(EntryLimit));
        all.extend([Part::Kind, Part::Count, Part::Named, Part::Path, Part::Value].map(LowByte));
        all.extend([RollbackPairsAsked, FirstFour, NoPairsTaken, BadPathsTaken, NeitherTaken, DeletesRefused, FullFirst]);
        all.extend([LOG_LIMIT - 1, LOG_LIMIT + 1].map(ChangeLimit));
        all.extend([FullByEntries, FullByLive, DeadTaken, RollbackTaken, OlderTaken, NothingTaken]);
        all.extend([ByNumber, FromZero, NewestMeant]);
        all.extend([0, 2].map(PositionFrom));
        all.extend([PositionByChanges, PositionWith2, PositionAccepted, PositionLost, LastBad, ByRefusal]);
        all.extend([
            Answers(Refusal::OutOfRange, Refusal::LogFull),
            Answers(Refusal::NotAChange, Refusal::NotTheNewest),
            Answers(Refusal::LogFull, Refusal::OutOfRange),
            Answers(Refusal::NotTheNewest, Refusal::NotAChange),
            Answers(Refusal::NotTheNewest, Refusal::NoSuchNumber),
            Answers(Refusal::NotTheNewest, Refusal::NoRollback),
        ]);
        all.extend([RefusedIsFresh, RefusedWrites, EmptyIsNothing, OverOld]);
        all.extend(BEGUN.map(Begun));
        all.extend([Replaces, RollbackReplaces, LeftBegun(1), LeftBegun(3), LastLeftBegun, OnlyAsked, Unasked]);
        all.extend([RollbackUncounted, ChangeWithoutOrdinal, RollbackWithoutOrdinal, UndoneDropped, FirstLost, LastLost]);
        all.extend([AllApplied, AppliedValues, TargetValues, RValuesLost, RIndexLost, TargetLeft]);
        all.extend([OwnersLost, ROwnersLost, UndoneOwns, OwnersByPosition]);
        all
    }

    /// As `northbound::import`, with this in it.
    pub fn import(self, bytes: &mut [u8], list: &[u8]) -> u64 {
        let imported = self.imported(list);
        let formed = self != Blunder::WellFormedAsked || image::decode(bytes).is_some();
        if bytes.len() != image::LENGTH || !formed {
            let refused = imported.err().filter(|_| self == Blunder::ImageLast);
            return refused.map_or(Refusal::NotWellFormed.number().into(), Refused::packed);
        }
        let entries = (list.len() / ENTRY) as u64;
        match (self, &imported) {
            (Blunder::RefusedIsFresh, Err(_)) => {
                store_import(Ok(State::fresh()), bytes);
            }
            (Blunder::RefusedWrites, Err(refused)) => {
                let before = &list[..ENTRY * usize::from(refused.position.saturating_sub(1))];
                store_import(Ok(State::imported(before).expect("the entries before the first bad one")), bytes);
            }
            (Blunder::EmptyIsNothing, Ok(_)) if list.is_empty() => return 0,
            (Blunder::OverOld, Ok(state)) => {
                image::encode(state, bytes);
                return 0;
            }
            _ => {}
        }
        let accepted = imported.is_ok();
        let reply = store_import(imported, bytes);
        if self == Blunder::PositionAccepted && accepted { entries << 32 } else { reply }
    }

    fn imported(self, list: &[u8]) -> Result<State, Refused> {
        let told = |refused: Refused| self.told(refused, list);
        let limit = if let Blunder::EntryLimit(limit) = self { limit } else { ENTRY_LIMIT };
        let whole = list.len() % ENTRY == 0 || self == Blunder::PieceLeftOut;
        let entries: Vec<Entry> = list.chunks_exact(ENTRY).map(|bytes| self.read(bytes)).collect();
        if self == Blunder::EntriesFirst {
            self.judge(&entries).map_err(told)?;
        }
        if !whole || entries.len() > limit {
            return Err(told(Refused { refusal: Refusal::OutOfRange, position: 0 }));
        }
        self.judge(&entries).map_err(told)?;
        Ok(self.left(&entries))
    }

    /// An entry as its bytes are read.
    fn read(self, bytes: &[u8]) -> Entry {
        let number = |place: usize, part: Part| {
            let two = [bytes[2 * place], bytes[2 * place + 1]];
            match self {
                Blunder::LowByte(low) if low == part => two[0].into(),
                Blunder::HighByteFirst => u16::from_be_bytes(two),
                _ => u16::from_le_bytes(two),
            }
        };
        match number(0, Part::Kind) {
            1 => {
                let count = number(1, Part::Count);
                let pair = |place: usize| (number(2 + 2 * place, Part::Path), number(3 + 2 * place, Part::Value));
                let unused = bytes[4..].iter().skip(4 * usize::from(count)).any(|byte| *byte != 0);
                let kept = if self == Blunder::UnusedAsked && unused { 0 } else { count };
                Entry::counted(count, (0..PAIR_LIMIT.min(kept.into())).map(pair))
            }
            2 if self == Blunder::RollbackPairsAsked && bytes[4..].iter().any(|byte| *byte != 0) => Entry::Neither { kind: 2 },
            2 => Entry::Rollback { named: number(1, Part::Named) },
            kind => Entry::Neither { kind },
        }
    }

    /// The refusal as it is answered.
    fn told(self, Refused { refusal, position }: Refused, list: &[u8]) -> Refused {
        let entries: Vec<Entry> = list.chunks_exact(ENTRY).map(|bytes| self.read(bytes)).collect();
        let changes = |position: u16| {
            entries.iter().take(position.into()).filter(|entry| matches!(entry, Entry::Change { .. })).count() as u16
        };
        match self {
            Blunder::Answers(from, to) if from == refusal => Refused { refusal: to, position },
            Blunder::PositionFrom(first) if position > 0 => Refused { refusal, position: position + first - 1 },
            Blunder::PositionByChanges => Refused { refusal, position: changes(position) },
            Blunder::PositionWith2 if position == 0 => Refused { refusal, position: ENTRY_LIMIT as u16 + 1 },
            Blunder::PositionLost => Refused { refusal, position: 0 },
            _ => Refused { refusal, position },
        }
    }

    fn judge(self, entries: &[Entry]) -> Result<(), Refused> {
        let mut bad = Vec::new();
        let mut seen = Seen::default();
        for (position, entry) in (1..).zip(entries) {
            bad.extend(self.verdict(entry, &seen, position).err().map(|refusal| Refused { refusal, position }));
            if bad.len() == 1 && !matches!(self, Blunder::LastBad | Blunder::ByRefusal) {
                break;
            }
            seen.enter(entry, position);
        }
        match self {
            Blunder::LastBad => bad.last(),
            Blunder::ByRefusal => bad.iter().min_by_key(|refused| (refused.refusal.number(), refused.position)),
            _ => bad.first(),
        }
        .copied()
        .map_or(Ok(()), Err)
    }

    fn verdict(self, entry: &Entry, seen: &Seen, position: u16) -> Result<(), Refusal> {
        match entry {
            Entry::Change { .. } => {
                let mut refusals =
                    [(Refusal::NotAChange, self.has_bad_pairs(entry)), (Refusal::LogFull, self.is_full(seen, position))];
                if self == Blunder::FullFirst {
                    refusals.reverse();
                }
                refusals.iter().find(|(_, holds)| *holds).map_or(Ok(()), |(refusal, _)| Err(*refusal))
            }
            Entry::Rollback { named } if self.is_taken(*named, seen) => Ok(()),
            Entry::Neither { .. } if self == Blunder::NeitherTaken => Ok(()),
            _ => Err(Refusal::NotTheNewest),
        }
    }

    fn has_bad_pairs(self, entry: &Entry) -> bool {
        let Entry::Change { count, .. } = *entry else {
            return false;
        };
        let (is_short, pairs) = (usize::from(count) <= PAIR_LIMIT, entry.pairs());
        match self {
            Blunder::FirstFour if !is_short => !Entry::change(pairs).is_valid_change(),
            Blunder::NoPairsTaken if count == 0 => false,
            Blunder::BadPathsTaken if is_short => pairs.is_empty(),
            Blunder::DeletesRefused if pairs.iter().any(|(_, value)| *value == 0) => true,
            _ => !entry.is_valid_change(),
        }
    }

    fn is_full(self, seen: &Seen, position: u16) -> bool {
        match self {
            Blunder::ChangeLimit(limit) => seen.changes.len() >= limit,
            Blunder::FullByEntries => usize::from(position) > LOG_LIMIT,
            Blunder::FullByLive => seen.live.len() >= LOG_LIMIT,
            _ => seen.changes.len() >= LOG_LIMIT,
        }
    }

    fn is_taken(self, named: u16, seen: &Seen) -> bool {
        let newest = seen.live.last();
        let is_change = seen.changes.contains(&named);
        match self {
            Blunder::DeadTaken if is_change && !seen.live.contains(&named) => true,
            Blunder::OlderTaken if seen.live.contains(&named) => true,
            Blunder::RollbackTaken if seen.rollbacks.contains(&named) => true,
            Blunder::NothingTaken if named == 0 => true,
            Blunder::NewestMeant => newest.is_some(),
            Blunder::ByNumber => newest.is_some() && newest == seen.changes.get(usize::from(named.wrapping_sub(1))),
            Blunder::FromZero => newest.is_some_and(|newest| *newest == named.wrapping_add(1)),
            _ => newest == Some(&named),
        }
    }

    /// The state that these entries lead to. A call that is refused is passed over.
    fn left(self, entries: &[Entry]) -> State {
        let mut state = self.begun();
        let mut numbers: Vec<Number> = Vec::new();
        let entries = match self {
            Blunder::FirstLost => entries.get(1..).unwrap_or(&[]),
            Blunder::LastLost => &entries[..entries.len().saturating_sub(1)],
            _ => entries,
        };
        for (place, entry) in entries.iter().enumerate() {
            let is_last = place + 1 == entries.len();
            let owners = state.committed.owners;
            let number = match entry {
                Entry::Change { .. } => self.changed(&mut state, entry.pairs(), is_last),
                Entry::Rollback { named } => self.undone(&mut state, &numbers, *named, is_last),
                Entry::Neither { .. } => Number::NONE,
            };
            match (self, entry) {
                (Blunder::UndoneOwns, Entry::Rollback { .. }) => state.committed.owners = owners,
                (Blunder::OwnersByPosition, Entry::Change { .. }) => {
                    entry.pairs().iter().for_each(|(path, _)| {
                        state.committed.owners[usize::from(*path)] = Number(place as u16 + 1);
                    });
                }
                _ => {}
            }
            numbers.push(number);
        }
        self.end(&mut state);
        state
    }

    fn begun(self) -> State {
        let mut state = State::ready();
        let node_1 = &mut state.connections[0];
        match self {
            Blunder::Begun(Begun::NoTerm) => state.mastership.term = Term(0),
            Blunder::Begun(Begun::NextTerm) => state.mastership.term = Term(2),
            Blunder::Begun(Begun::NoConn) => state.mastership.conn = 0,
            Blunder::Begun(Begun::NoTargetId) => state.target.id = 0,
            Blunder::Begun(Begun::NextTargetId) => state.target.id = 2,
            Blunder::Begun(Begun::NoConnectionId) => node_1.id = 0,
            Blunder::Begun(Begun::NextConnectionId) => node_1.id = 2,
            Blunder::Begun(Begun::AllConnected) => state.connections.fill(Connection { id: 1, connected: true }),
            _ => {}
        }
        state
    }

    fn changed(self, state: &mut State, pairs: &[(u16, u16)], is_last: bool) -> Number {
        let Ok(number) = state.append(pairs) else {
            return Number::NONE;
        };
        self.commit(state, 1, number, is_last);
        let place = usize::from(number.0) - 1;
        let change = state.log[place].change;
        match self {
            Blunder::Replaces => {
                state.committed.values = [0; PATHS];
                overlay(&mut state.committed.values, change.pairs());
            }
            Blunder::ChangeWithoutOrdinal => state.log[place].c.ordinal = Ordinal::NONE,
            Blunder::RValuesLost => state.log[place].r_values = [0; PAIR_LIMIT],
            Blunder::RIndexLost => state.log[place].r_index = Number::NONE,
            Blunder::ROwnersLost => state.log[place].r_owners = [Number::NONE; PAIR_LIMIT],
            _ => {}
        }
        number
    }

    fn undone(self, state: &mut State, numbers: &[Number], named: u16, is_last: bool) -> Number {
        let of_place = |place: Option<usize>| place.and_then(|place| numbers.get(place)).copied().unwrap_or_default();
        let number = match self {
            Blunder::NewestMeant => state.committed.revision,
            Blunder::ByNumber => Number(named),
            Blunder::FromZero => of_place(Some(named.into())),
            _ => of_place(usize::from(named).checked_sub(1)),
        };
        if self == Blunder::Unasked || state.rollback(number.0.into()).is_err() || self == Blunder::OnlyAsked {
            return number;
        }
        let before = state.committed.ordinal;
        self.commit(state, 3, number, is_last);
        let place = usize::from(number.0) - 1;
        match self {
            Blunder::RollbackReplaces => {
                state.committed.values = [0; PATHS];
                overlay(&mut state.committed.values, state.log[place].returning_pairs().pairs());
            }
            Blunder::RollbackUncounted => {
                state.committed.ordinal = before;
                state.log[place].r.ordinal = before;
            }
            Blunder::RollbackWithoutOrdinal => state.log[place].r.ordinal = Ordinal::NONE,
            _ => {}
        }
        number
    }

    fn commit(self, state: &mut State, job: u64, number: Number, is_last: bool) {
        let begun = self == Blunder::LeftBegun(job) || (self == Blunder::LastLeftBegun && is_last);
        for _ in 0..if begun { 1 } else { 2 } {
            state.work(1, job, number.0.into(), 0, 0);
        }
    }

    /// What is otherwise once all calls are made.
    fn end(self, state: &mut State) {
        let values: Values = state.committed.values;
        match self {
            Blunder::Begun(Begun::Stopped) => state.target.running = false,
            Blunder::Begun(Begun::Disconnected) => state.connections[0].connected = false,
            Blunder::Begun(Begun::NoMaster) => state.mastership.master = None,
            Blunder::Begun(Begun::Master2) => state.mastership.master = Node::new(2),
            Blunder::Begun(Begun::Synchronising) => {
                state.sync(1).expect("node 1 is master");
            }
            Blunder::Begun(Begun::Synchronised) => {
                state.configuration = Configuration { state: ConfigurationState::Complete, term: state.mastership.term };
            }
            Blunder::UndoneDropped => state.log.retain(|it| it.phase == Phase::Change),
            Blunder::AllApplied => state.log.iter_mut().for_each(|it| it.c.apply = Status::Complete),
            Blunder::AppliedValues => state.applied.values = values,
            Blunder::TargetValues => state.target.values = values,
            Blunder::TargetLeft => state.committed.target = Number::NONE,
            Blunder::OwnersLost => state.committed.owners = [Number::NONE; PATHS],
            _ => {}
        }
    }
}

const BEGUN: [Begun; 14] = [
    Begun::NoTerm,
    Begun::NextTerm,
    Begun::NoConn,
    Begun::NoTargetId,
    Begun::NextTargetId,
    Begun::NoConnectionId,
    Begun::NextConnectionId,
    Begun::Stopped,
    Begun::Disconnected,
    Begun::NoMaster,
    Begun::Master2,
    Begun::AllConnected,
    Begun::Synchronising,
    Begun::Synchronised,
];

/// The positions of the entries before one.
#[derive(Default)]
struct Seen {
    changes: Vec<u16>,
    live: Vec<u16>,
    rollbacks: Vec<u16>,
}

impl Seen {
    fn enter(&mut self, entry: &Entry, position: u16) {
        match entry {
            Entry::Change { .. } => {
                self.changes.push(position);
                self.live.push(position);
            }
            Entry::Rollback { named } => {
                self.rollbacks.push(position);
                self.live.retain(|live| live != named);
            }
            Entry::Neither { .. } => {}
        }
    }
}
