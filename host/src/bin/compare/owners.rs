//! Order 7: who set each path, behind the calls: all 32 owners through the proved controller, and where a session leads as reading
//! the whole live list has them; what they show; and images at the edges of what well-formed asks of owners.

use crate::desk::{same_bytes, shown, Compared, Desk, Difference};
use makowist_host::controller::{Number, State, Status, PATHS};
use makowist_host::image;
use makowist_host::jobs::Rule;
use makowist_host::northbound::{Request, Served};
use makowist_host::peer;
use makowist_host::reads::Query;

/// Up to so many kept ones all owners are read behind every accepted call; with as many more behind one in two, and so on, since
/// each read checks the whole log.
const EVERY_CALL_UP_TO: u64 = 7;

macro_rules! kinds {
    ($($kind:ident $says:literal,)*) => {
        /// What the owners show.
        #[derive(Clone, Copy, PartialEq, Eq, Debug)]
        enum Kind { $($kind),* }

        const KINDS: &[(Kind, &str)] = &[$((Kind::$kind, $says)),*];
    };
}

kinds! {
    Nobody "a path that nobody owns",
    Folded "one whose owner is folded, and is answered as 0",
    Newest "one that the newest live change owns",
    Older "one that an older live change owns",
    Deleted "one that its owner has deleted",
    PastAppended "one that a newer change names which has not begun",
    PastBegun "one that a newer change names which is being committed",
    PastInvalid "one that a newer change names which is invalid",
    PastUndone "one that a newer change names which is undone",
    OverNobody "a commit that sets a path which nobody owns",
    OverKept "a commit that sets a path of another change",
    OverFolded "a commit that sets a path of a folded change",
    BackToNobody "a rollback that gives a path back to nobody",
    BackToKept "a rollback that gives it back to another change",
    BackToDelete "a rollback that gives it back to a change which has deleted it",
    BackToFolded "a rollback that gives it back to a folded change",
    FoldHides "a fold behind which an owner is answered as 0",
    ImageAtChange "an image with an owner that is Committed's change",
    ImagePastChange "an image that is refused for an owner one above it, and for nothing else",
    ImageBefore "an image that remembers, for a transaction, the number before it",
    ImageItself "an image that is refused since it remembers its own number, and for nothing else",
    ImageItselfUnused "the same in a place past its pairs",
}

/// Counts by kind, each by whether a session reaches the state: not, then so.
#[derive(Default)]
pub struct Seen {
    /// Calls behind which owners were compared by every byte of the image, one of them at least not 0.
    images: u64,
    /// Calls that were accepted.
    behind: u64,
    /// Owners read through the proved controller, and held against the whole live list.
    read: u64,
    listed: u64,
    kinds: [[u64; 2]; KINDS.len()],
}

impl Seen {
    fn saw(&mut self, kind: Kind, reached: bool) {
        self.kinds[kind as usize][usize::from(reached)] += 1;
    }

    /// Counts what a call shows, with the state that it left and the last fold before it.
    pub fn called(&mut self, folded: Number, state: &State, request: &Request, served: &Served, reached: bool) {
        let is_hidden = |owner: &Number| *owner > folded && *owner <= state.folded;
        match (request, served.rule) {
            _ if served.reply.is_err() => {}
            (Request::Work { number, .. }, Some(Rule::CommitChangeAccept)) => self.moved(state, *number, false, reached),
            (Request::Work { number, .. }, Some(Rule::CommitRollbackReturn)) => self.moved(state, *number, true, reached),
            (Request::Fold(_), _) if state.committed.owners.iter().any(is_hidden) => self.saw(Kind::FoldHides, reached),
            _ => {}
        }
    }

    /// The paths of a change that has been set, or brought back.
    fn moved(&mut self, state: &State, number: u64, is_back: bool, reached: bool) {
        let number = state.given(number).expect("a job's number is given");
        let it = state.transaction(number).expect("a job's number is kept");
        for (place, owner) in it.r_owners[..it.change.pairs().len()].iter().enumerate() {
            let kind = match (*owner, is_back) {
                (Number::NONE, false) => Kind::OverNobody,
                (Number::NONE, true) => Kind::BackToNobody,
                (owner, false) if owner <= state.folded => Kind::OverFolded,
                (owner, true) if owner <= state.folded => Kind::BackToFolded,
                (_, false) => Kind::OverKept,
                (_, true) if it.r_values[place] == 0 => Kind::BackToDelete,
                (_, true) => Kind::BackToKept,
            };
            self.saw(kind, reached);
        }
    }

    /// Counts what the owners of a state show, each kind once.
    fn answered(&mut self, state: &State, reached: bool) {
        let mut seen = [false; KINDS.len()];
        for (owner, value) in state.committed.owners.iter().zip(state.committed.values) {
            let kind = match *owner {
                Number::NONE => Kind::Nobody,
                owner if owner <= state.folded => Kind::Folded,
                owner if owner == state.committed.revision => Kind::Newest,
                _ => Kind::Older,
            };
            seen[kind as usize] = true;
            seen[Kind::Deleted as usize] |= *owner > state.folded && value == 0;
        }
        for (number, it) in state.kept() {
            let is_newer = |path: u8| state.committed.owners[usize::from(path)] < number;
            let kind = match it.c.commit {
                Status::Pending => Kind::PastAppended,
                Status::InProgress => Kind::PastBegun,
                Status::Failed => Kind::PastInvalid,
                _ if it.r.commit == Status::Complete => Kind::PastUndone,
                _ => continue,
            };
            seen[kind as usize] |= it.change.pairs().iter().any(|pair| is_newer(pair.path));
        }
        KINDS.iter().filter(|(kind, _)| seen[*kind as usize]).for_each(|(kind, _)| self.saw(*kind, reached));
    }

    /// Counts an image by its owners, where nothing else is wrong with it.
    pub fn damaged(&mut self, bytes: &[u8]) {
        let Some(state) = image::decode_whatever_owners(bytes) else {
            return;
        };
        let change = state.committed.change;
        let greatest = state.committed.owners.into_iter().max().unwrap_or_default();
        let remembered = || {
            state.kept().flat_map(|(number, it)| {
                let used = it.change.pairs().len();
                it.r_owners.into_iter().enumerate().map(move |(place, owner)| (number, owner, place < used))
            })
        };
        let not_before: Vec<_> = remembered().filter(|(number, owner, _)| owner >= number).collect();
        let kind = match (not_before.as_slice(), greatest > change) {
            ([], true) if greatest.before() == change => Kind::ImagePastChange,
            ([], false) if greatest == change && change > Number::NONE => Kind::ImageAtChange,
            ([(number, owner, true)], false) if owner == number => Kind::ImageItself,
            ([(number, owner, false)], false) if owner == number => Kind::ImageItselfUnused,
            _ => return,
        };
        self.saw(kind, false);
        let is_before = |(number, owner, _): (Number, Number, bool)| owner > Number::NONE && owner == number.before();
        if kind == Kind::ImageAtChange && remembered().any(is_before) {
            self.saw(Kind::ImageBefore, false);
        }
    }

    /// Prints every count, and answers how many are 0 that must not be.
    pub fn told(&self) -> usize {
        let all = [self.images, self.read, self.listed];
        println!("{:>12}  calls that left an image with owners, every byte compared", self.images);
        println!("{:>12}  owners read, all 32 behind a call; {} held against the whole live list", self.read, self.listed);
        println!("{:>12}  {:>12}  owners, in states that a session reaches, and in others", "reached", "others");
        let mut unseen = all.iter().filter(|count| **count == 0).count();
        for ((kind, says), [others, reached]) in KINDS.iter().zip(self.kinds) {
            println!("{reached:>12}  {others:>12}  {says}");
            let is_of_image = *kind as usize >= Kind::ImageAtChange as usize;
            unseen += usize::from(others == 0) + usize::from(reached == 0 && !is_of_image);
        }
        unseen
    }
}

impl Desk {
    /// The owners behind a call that was accepted. A refused one has left every byte, and its owners were compared before it.
    pub fn owners_behind(&mut self, state: &State, bytes: &[u8]) -> Compared<()> {
        self.counts.owners.images += u64::from(state.committed.owners != [Number::NONE; PATHS]);
        self.counts.owners.behind += 1;
        if self.reached {
            self.owners_by_list(state, bytes)?;
        }
        let one_in = 1 + state.log.len() as u64 / (EVERY_CALL_UP_TO + 1);
        if self.counts.owners.behind % one_in == 0 {
            self.owners(state, bytes)?;
        }
        Ok(())
    }

    /// Holds what is kept of owners against the whole live list.
    pub fn owners_by_list(&mut self, state: &State, bytes: &[u8]) -> Compared<()> {
        for (path, listed) in (0..).zip(state.owners_by_list()) {
            let kept = state.owner(path);
            if kept != Ok(listed) {
                let what = format!("path {path}: the owner is {kept:?}, by the whole live list {listed:?}");
                return Err(Difference::of_call(format!("{what}\n{}", shown(bytes))));
            }
        }
        self.counts.owners.listed += PATHS as u64;
        Ok(())
    }

    /// Compares all 32 owners of an image that has been lent.
    pub fn owners(&mut self, state: &State, bytes: &[u8]) -> Compared<()> {
        let lent = self.lent.bytes(bytes.len(), self.edge);
        for query in (0..PATHS as u64).map(|path| Query::Owner { path }) {
            let expected = match self.fault {
                None => query.packed(Some(state), bytes),
                Some(fault) => fault.read(Some(state), bytes, query),
            };
            let reply = peer::read(lent, query);
            if reply != expected {
                let what = format!("{query:?}\n  independent {expected:#x}\n  proved {reply:#x}");
                return Err(Difference::of_call(format!("{what}\n{}", shown(bytes))));
            }
        }
        same_bytes(bytes, lent)?;
        self.counts.owners.read += PATHS as u64;
        self.counts.owners.answered(state, self.reached);
        Ok(())
    }
}
