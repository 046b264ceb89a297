//! What a comparison has seen: calls, replies, and rules taken, with each cut. Something not seen is a failure.

use crate::folds;
use crate::imports;
use crate::nights;
use crate::owners;
use crate::remembers;
use crate::retries;
use crate::sheets;
use crate::switches;
use crate::whys;
use crate::wide;
use makowist_host::controller::{Refusal, State, PATHS};
use makowist_host::jobs::Rule;
use makowist_host::northbound::{Request, Served};
use makowist_host::reads::{Query, CONNECTION_FIELDS, RECORD_FIELDS, TABLES, TRANSACTION_FIELDS};
use makowist_host::sheet::Class;
use makowist_host::why::Reason;

#[derive(Default)]
pub struct Counts {
    pub calls: u64,
    pub reads: u64,
    /// Those from which every call was compared.
    pub states: u64,
    /// By answer: accepted is 0, a refusal its number.
    answers: [u64; ANSWERS],
    /// By rule and cut.
    rules: [[u64; CUTS]; Rule::ALL.len()],
    /// Masters that had reconnected and were freed.
    pub freed: u64,
    /// Logs led to the last number.
    pub migrations: u64,
    /// Numbers of two bytes in place of four statuses, in range and past it.
    pub statuses: [u64; 2],
    /// Cut jobs called again, on copies; what is called there is not among the calls.
    pub retries: retries::Seen,
    /// What order 10 brings.
    pub folds: folds::Seen,
    /// Reasons that were given, and why none was (order 4).
    pub whys: whys::Seen,
    /// What order 2 brings.
    pub nights: nights::Seen,
    /// What order 6 brings.
    pub imports: imports::Seen,
    /// What order 7 brings.
    pub owners: owners::Seen,
    /// What order 13 brings.
    pub remembers: remembers::Seen,
    /// What order 11 brings.
    pub sheets: sheets::Seen,
    /// What order 8 brings.
    pub switches: switches::Seen,
    /// Numbers of more than 16 bits, and rooms by the byte.
    pub wide: wide::Seen,
    /// By what is read: how often each table, field, path, reason, class, or no and yes, was shown.
    shown: [[u64; MOST_FIELDS]; KINDS.len()],
    /// By what is read: how often each refusal was answered.
    refused: [[u64; ANSWERS]; KINDS.len()],
}

/// Cut 0, 1 and 2: where a rule has fewer stores, they leave the same.
const CUTS: usize = 3;

/// One more than the greatest answer; not every number below it is one.
const ANSWERS: usize = Refusal::Folded as usize + 1;

/// The most fields that anything that is read has: an owner's are its paths.
const MOST_FIELDS: usize = PATHS;

/// What is read, how many tables, fields, paths, reasons or classes it has, and the refusals that it can answer.
const KINDS: [(&str, u64, &[usize]); 10] = [
    ("value", TABLES, &[1, 2]),
    ("transaction", TRANSACTION_FIELDS, &[1, 2, 5, 18]),
    ("record", RECORD_FIELDS, &[1, 2]),
    ("connection", CONNECTION_FIELDS, &[1, 2]),
    ("reason", Reason::ALL.len() as u64, &[1, 2, 5, 18, 10, 15]),
    ("path's owner", PATHS as u64, &[1, 2]),
    ("class", Class::ALL.len() as u64, &[1, 5, 18]),
    ("change taken or not", 2, &[1, 5, 18]),
    ("change undone or not", 2, &[1, 5, 18]),
    ("mask of differing paths", 1, &[1]),
];

impl Counts {
    pub fn called(&mut self, request: &Request, served: &Served) {
        self.calls += 1;
        self.answers[served.reply.map_or_else(|refusal| refusal.number().into(), |_| 0)] += 1;
        if let (Some(rule), Request::Work { cut, .. }) = (served.rule, request) {
            self.rules[rule as usize].get_mut(*cut as usize).into_iter().for_each(|count| *count += 1);
        }
    }

    pub fn read(&mut self, packed: u64) {
        self.reads += 1;
        self.answers[(packed & 0xff) as usize] += 1;
    }

    pub fn imported(&mut self, packed: u64) {
        self.imports.imports += 1;
        self.answers[(packed & 0xff) as usize] += 1;
    }

    pub fn queried(&mut self, state: Option<&State>, query: Query, packed: u64) {
        let (kind, field) = match query {
            Query::Value { table, .. } => (0, table),
            Query::Transaction { field, .. } => (1, field),
            Query::Record { field } => (2, field),
            Query::Connection { field, .. } => (3, field),
            Query::Why(_) => (4, packed >> 8 & 0xff),
            Query::Owner { path } => (5, path.saturating_add(1)),
            Query::Class { .. } => (6, packed >> 32),
            Query::Took { .. } => (7, (packed >> 32) + 1),
            Query::Undone { .. } => (8, (packed >> 32) + 1),
            Query::Drift => (9, 1),
        };
        self.read(packed);
        match packed & 0xff {
            0 => self.shown[kind].get_mut((field as usize).wrapping_sub(1)).into_iter().for_each(|shown| *shown += 1),
            refusal => self.refused[kind][refusal as usize] += 1,
        }
        if let Some(state) = state {
            self.wide.queried(state, query, packed & 0xff);
        }
    }

    /// Prints what was read, and answers how many fields and refusals were never seen.
    fn told_reads(&self) -> usize {
        let mut unseen = 0;
        for (place, (kind, fields, refusals)) in KINDS.into_iter().enumerate() {
            let shown = &self.shown[place][..fields as usize];
            let refused: Vec<u64> = refusals.iter().map(|refusal| self.refused[place][*refusal]).collect();
            let least = shown.iter().min().unwrap_or(&0);
            println!(
                "{:>12}  reads of a {kind} shown, each of {fields} at least {least} times; refused by {refusals:?}: {refused:?}",
                shown.iter().sum::<u64>()
            );
            unseen += shown.iter().chain(&refused).filter(|count| **count == 0).count();
        }
        unseen
    }

    /// Prints every count, and answers how many things were never seen.
    pub fn told(&self) -> usize {
        println!("{:>12}  calls compared, reply and every byte", self.calls);
        println!("{:>12}  reads compared, answer and every byte of image and room", self.reads);
        println!("{:>12}  states visited by the exhaustive walk, every call from each", self.states);
        println!("{:>12}  answer 0", self.answers[0]);
        for refusal in Refusal::ALL {
            println!("{:>12}  answer {} {refusal:?}", self.answers[usize::from(refusal.number())], refusal.number());
        }
        println!("{:>12}  masters that had reconnected freed", self.freed);
        println!("{:>12}  logs led to the last number", self.migrations);
        println!("{:>12}  numbers of four statuses in range, {} past it", self.statuses[0], self.statuses[1]);
        let unseen_retries = self.retries.told();
        let unseen_folds = self.folds.told();
        let unseen_whys = self.whys.told();
        let unseen_nights = self.nights.told();
        let unseen_imports = self.imports.told();
        let unseen_owners = self.owners.told();
        let unseen_switches = self.switches.told();
        let unseen_remembers = self.remembers.told();
        let unseen_sheets = self.sheets.told();
        let unseen_wide = self.wide.told();
        let unseen_reads = self.told_reads();
        println!("{:>12}  {:>12}  {:>12}  rule, and its stores", "cut 0", "cut 1", "cut 2");
        for (rule, [whole, first, second]) in Rule::ALL.iter().zip(&self.rules) {
            println!("{whole:>12}  {first:>12}  {second:>12}  {rule:?} {}", rule.stores());
        }
        let refusals = Refusal::ALL.iter().filter(|refusal| self.answers[usize::from(refusal.number())] > 0).count();
        let unseen_answers = Refusal::ALL.len() - refusals + usize::from(self.answers[0] == 0);
        let unseen_rules = self.rules.iter().flatten().filter(|count| **count == 0).count();
        let rules = self.rules.iter().filter(|counts| counts.iter().sum::<u64>() > 0).count();
        println!("rules seen: {rules} of {}; refusals seen: {refusals} of {}", Rule::ALL.len(), Refusal::ALL.len());
        let unseen = [self.states, self.freed, self.migrations].iter().chain(&self.statuses).filter(|count| **count == 0).count();
        let unseen_orders = [unseen_retries, unseen_folds, unseen_whys, unseen_nights, unseen_imports, unseen_owners, unseen_switches];
        let unseen_orders = unseen_orders.into_iter().chain([unseen_remembers, unseen_sheets]);
        unseen + unseen_answers + unseen_rules + unseen_reads + unseen_orders.sum::<usize>() + unseen_wide
    }
}
