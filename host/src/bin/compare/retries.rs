//! Orders 3 and 8: every job that is cut before its last store is called again on copies, and must leave what the uncut job
//! leaves, in each of the two controllers by itself and in both alike. Other nodes may come and go in between.

use crate::desk::{Compared, Difference};
use makowist_host::controller::State;
use makowist_host::guarded::{Edge, Guarded};
use makowist_host::jobs::Rule;
use makowist_host::northbound::{Request, Served};
use makowist_host::peer;
use makowist_host::random::Random;
use makowist_host::retry::CutJob;

/// The most calls between a cut job and its retry.
const MOST_BETWEEN: usize = 3;

/// What is counted of the retries behind each rule's cut: all of them, those with a call between that was accepted, or refused;
/// and, where they are promised with any outcome and cut, those with the other outcome, and those that were cut again.
const COLUMNS: [&str; 6] = ["retried", "call accepted", "call refused", "other outcome", "cut at 1", "cut at 2"];
const COLUMNS_OF_THE_SAME: usize = 3;

/// The most stores that a cut keeps.
const MOST_MADE: usize = 2;

/// The cuts that retries take in turn.
const CUTS: [u64; 3] = [1, 2, 0];

type Row = [u64; COLUMNS.len()];

/// Counts by rule, stores made, and column.
#[derive(Default)]
pub struct Seen([[Row; MOST_MADE]; Rule::ALL.len()]);

impl Seen {
    /// How often a job was called again.
    pub fn retries(&self) -> u64 {
        self.0.iter().flatten().map(|row| row[0]).sum()
    }

    /// The next retry of a job: those behind one cut of its rule take the cuts and the outcomes in turn, the other outcome first,
    /// half of them with some calls between. Where more than the last store is left, the job is called again as it was, whole.
    pub fn next(&self, cut: CutJob, random: &mut Random) -> Retry {
        let [retried, ..] = self.0[cut.rule as usize][cut.made as usize - 1];
        let (other_outcome, cut_again) = match cut.lacks_the_last_alone() {
            true => (retried / CUTS.len() as u64 % 2 == 0, CUTS[retried as usize % CUTS.len()]),
            false => (false, 0),
        };
        let count = if random.once_in(2) { random.between(1, MOST_BETWEEN) } else { 0 };
        let between = (0..count).map(|_| cut.elsewhere(random)).collect();
        Retry { cut, between, other_outcome, cut_again }
    }

    /// Counts a retry, with what the calls between answered.
    pub fn saw(&mut self, retry: &Retry, between: &[u64]) {
        let accepted = between.iter().any(|reply| *reply == 0);
        let refused = between.iter().any(|reply| *reply != 0);
        let seen = [true, accepted, refused, retry.other_outcome, retry.cut_again == 1, retry.cut_again == 2];
        let counts = &mut self.0[retry.cut.rule as usize][retry.cut.made as usize - 1];
        counts.iter_mut().zip(seen).for_each(|(count, seen)| *count += u64::from(seen));
    }

    /// Prints every count, and answers how many are 0 that must not be.
    pub fn told(&self) -> usize {
        let row = |cells: &[String]| cells.iter().map(|cell| format!("{cell:>13}")).collect::<Vec<_>>().join("  ");
        println!("{:>12}  cut jobs called again, which left every byte as the uncut job", self.retries());
        println!("{}  rule and where it was cut (a call: between the two)", row(&COLUMNS.map(str::to_string)));
        let mut unseen = 0;
        for (rule, rows) in Rule::ALL.iter().zip(&self.0) {
            for (made, counts) in (1..rule.stores()).zip(rows) {
                println!("{}  {rule:?} at {made} of {}", row(&counts.map(|count| count.to_string())), rule.stores());
                let expected = if made + 1 == rule.stores() { COLUMNS.len() } else { COLUMNS_OF_THE_SAME };
                unseen += counts[..expected].iter().filter(|count| **count == 0).count();
            }
        }
        unseen
    }
}

/// A cut job, the calls that come then, and the job again.
pub struct Retry {
    cut: CutJob,
    between: Vec<Request>,
    other_outcome: bool,
    cut_again: u64,
}

/// What calls answered, and what they left.
pub struct Made<S> {
    pub replies: Vec<u64>,
    pub left: S,
}

impl Retry {
    /// The uncut job and the calls between, from before it.
    pub fn uncut(&self) -> Vec<Request> {
        std::iter::once(self.cut.uncut()).chain(self.between.iter().cloned()).collect()
    }

    /// The calls between and the job again, from behind the cut.
    pub fn again(&self) -> Vec<Request> {
        self.between.iter().cloned().chain([self.cut.again(self.other_outcome, self.cut_again)]).collect()
    }

    /// Holds one controller to what is promised of a retry, where the cut job was answered so: of the two calls one is answered
    /// as the uncut job and the other with 0 and no event, the calls between the same in both runs, and what they leave is the
    /// same. The first of the two gives the event, but where a push was cut at its first store.
    pub fn hold<S: PartialEq>(&self, side: &str, first: &Served, uncut: &Made<S>, again: &Made<S>) -> Compared<()> {
        let (last, between) = again.replies.split_last().expect("the job is called again");
        let two = if self.cut.lacks_the_last_alone() { [first.packed(), *last] } else { [*last, first.packed()] };
        let what = if two != [uncut.replies[0], 0] || uncut.replies[1..] != *between {
            "is answered otherwise"
        } else if uncut.left != again.left {
            "does not leave what the uncut job leaves"
        } else {
            return Ok(());
        };
        Err(Difference::of_retry(format!(
            "{:?} cut, then {:?}: in the {side} controller this {what}\n  uncut and between {:x?}\n  between and again {:x?}",
            self.cut,
            self.again(),
            uncut.replies,
            again.replies
        )))
    }
}

/// Makes calls on a copy of a state of the independent controller.
pub fn acted(state: &State, calls: &[Request], act: impl Fn(&mut State, &Request) -> Served) -> Made<State> {
    let mut left = state.clone();
    let replies = calls.iter().map(|request| act(&mut left, request).packed()).collect();
    Made { replies, left }
}

/// Makes calls on a copy of an image by the proved controller.
pub fn proved(lent: &mut Guarded, edge: Edge, bytes: &[u8], calls: &[Request]) -> Made<Vec<u8>> {
    let lent = lent.bytes(bytes.len(), edge);
    lent.copy_from_slice(bytes);
    let replies = calls.iter().map(|request| peer::serve(lent, request, &[])).collect();
    Made { replies, left: lent.to_vec() }
}
