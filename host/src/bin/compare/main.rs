//! Holds the proved controller and the independent one together, call by call, reply and every byte; each of them to what orders
//! 3 and 8 promise, at every job that is cut; both to what order 8 says of the target, and to what order 7 says of owners, at every
//! state of a session, of targets that forget and that remember (order 13); and the proved one to what order 4 does, at every job
//! that is answered 11 or asked after, to what order 2 does, at every night, to what order 6 does, at every import, and to
//! what order 11 says of a sheet's totals, at every sheet.
//!
//! Arguments, each `name=value`, in any order:
//!
//! - `sessions`, `unreached`, `damaged`: how many calls of each kind; `transactions`: how far the exhaustive walk goes
//! - `edges`: at how many edges of lent memory wide numbers, rooms and sessions are compared, to 2: its end, then its beginning
//! - `migrations`: how many logs are led to the last number, to 2: in the second every change is rolled back
//! - `seed`: another one makes another run
//! - `minutes`: go on with new seeds, the walk once and for at most half of them, and stop when they have passed
//! - `fault=NAME`: put that fault into the independent copy; a difference is then expected, and ends the run with 1
//! - `fault=all`: try every fault, and end with 1 where one is not found; `found=NAME` tries that one alone
//! - `overrun=End`, `overrun=Begin`: write the byte outside that edge of a lent slice, which must end the program
//!
//! Ends with 0 where there is no difference and no count is 0: every answer, every rule, with each cut and called again, every
//! reason of every job, every read, every way for a night to pass, for a list to be imported, for a path to have an owner and for a
//! target of either kind to be stopped and synchronised, for a log to stand on the handover sheet, every argument too great
//! in every way.

mod by_itself;
mod claims;
mod counts;
mod desk;
mod every;
mod folds;
mod handover;
mod imports;
mod lists;
mod long;
mod nights;
mod outside;
mod owners;
mod remembers;
mod retries;
mod sessions;
mod sheets;
mod states;
mod statuses;
mod switches;
mod waiting;
mod watch;
mod whys;
mod wide;

use desk::{Compared, Desk};
use makowist_host::controller::Number;
use makowist_host::fault::Fault;
use makowist_host::guarded::{Edge, Guarded};
use makowist_host::random::Random;
use std::process::ExitCode;
use watch::Watch;

#[derive(Clone)]
struct Sizes {
    sessions: u64,
    unreached: u64,
    damaged: u64,
    transactions: usize,
    edges: u64,
    migrations: u64,
}

/// One change in so many is rolled back, migration by migration.
const ROLLED_BACK_ONE_IN: [usize; 2] = [5, 1];

/// The last folds that live lists of every length follow on: the second has its lists go round the ring's end.
const FOLDED: [Number; 2] = [Number::NONE, Number(100)];

struct Arguments {
    sizes: Sizes,
    seed: u64,
    minutes: u64,
    fault: Option<String>,
    found: Option<String>,
    overrun: Option<Edge>,
}

fn arguments() -> Result<Arguments, String> {
    let sizes = Sizes { sessions: 1_000_000, unreached: 400_000, damaged: 150_000, transactions: 3, edges: 2, migrations: 2 };
    let mut arguments = Arguments { sizes, seed: 1, minutes: 0, fault: None, found: None, overrun: None };
    for argument in std::env::args().skip(1) {
        let (name, value) = argument.split_once('=').ok_or(format!("{argument}: expected name=value"))?;
        let number = || value.parse::<u64>().map_err(|error| format!("{argument}: {error}"));
        match name {
            "sessions" => arguments.sizes.sessions = number()?,
            "unreached" => arguments.sizes.unreached = number()?,
            "damaged" => arguments.sizes.damaged = number()?,
            "transactions" => arguments.sizes.transactions = number()?.min(5) as usize,
            "edges" => arguments.sizes.edges = number()?,
            "migrations" => arguments.sizes.migrations = number()?,
            "seed" => arguments.seed = number()?,
            "minutes" => arguments.minutes = number()?,
            "fault" => arguments.fault = Some(value.to_string()),
            "found" => arguments.found = Some(value.to_string()),
            "overrun" if value == "End" => arguments.overrun = Some(Edge::End),
            "overrun" if value == "Begin" => arguments.overrun = Some(Edge::Begin),
            _ => return Err(format!("{argument}: no such argument")),
        }
    }
    Ok(arguments)
}

/// One comparison of every kind: once with the lent slices' ends at a page that is not mapped, once with their beginnings.
fn compare(desk: &mut Desk, sizes: &Sizes, seed: u64, tells: bool) -> Compared<()> {
    let told = |what: &str, desk: &Desk| {
        if tells {
            let (calls, reads, retries) = (desk.counts.calls, desk.counts.reads, desk.counts.retries.retries());
            let (nights, imports, seconds) = (desk.counts.nights.nights, desk.counts.imports.imports, desk.seconds());
            println!(
                "compare: {what}; {calls} calls, {reads} reads, {retries} retries, {nights} nights and {imports} imports so far, \
                 {seconds} s"
            );
        }
    };
    let mut random = Random::new(seed);
    desk.random = Random::new(seed);
    desk.drawn = Random::new(seed);
    compare_chosen(desk, told)?;
    desk.reached = true;
    if sizes.transactions > 0 {
        let extent = if every::run(desk, sizes.transactions)? { "all" } else { "not all, for time" };
        let (states, transactions) = (desk.counts.states, sizes.transactions);
        told(&format!("{states} states with up to {transactions} transactions ({extent}), every call from each"), desk);
    }
    for edge in [Edge::End, Edge::Begin].into_iter().take(sizes.edges as usize) {
        desk.edge = edge;
        wide::run(desk)?;
        told("numbers of more than 16 bits in every argument", desk);
        FOLDED.into_iter().try_for_each(|folded| sessions::rooms(desk, folded))?;
        told("live lists of every length in rooms of every length in bytes", desk);
        sessions::run(desk, sizes.sessions / 2, &mut random)?;
        told("random sessions", desk);
    }
    if desk.imports() {
        lists::drawn(desk, &mut Random::new(seed))?;
        told("lists imported, drawn with the seed", desk);
    }
    desk.reached = false;
    if desk.asks_for_sheets() {
        handover::drawn(desk, &mut Random::new(seed))?;
        told("whole sheets, drawn with the seed", desk);
    }
    states::unreached(desk, sizes.unreached, &mut random)?;
    told("states that no session reaches", desk);
    states::damaged(desk, sizes.damaged, &mut random)?;
    told("damaged images", desk);
    desk.reached = true;
    for rolled_back_one_in in ROLLED_BACK_ONE_IN.into_iter().take(sizes.migrations as usize) {
        let (number, ordinal) = long::run(desk, rolled_back_one_in, &mut random)?;
        told(&format!("a log led to number {} and ordinal {}", number.0, ordinal.0), desk);
    }
    Ok(())
}

/// What is the same on every machine, whatever the seed.
fn compare_chosen(desk: &mut Desk, told: impl Fn(&str, &Desk)) -> Compared<()> {
    desk.reached = false;
    if desk.imports() {
        lists::run(desk)?;
        told("lists imported", desk);
    }
    if desk.asks_for_owners() {
        claims::run(desk)?;
        told("owners in chosen sessions, states and images", desk);
    }
    if desk.asks_for_sheets() {
        handover::run(desk)?;
        told("what the switch took, in chosen sessions, states, totals and sheets", desk);
    }
    if desk.packs_statuses() {
        statuses::run(desk)?;
        told("every number of two bytes in place of four statuses", desk);
    }
    if desk.asks_for_reasons() {
        waiting::run(desk)?;
        told("every reason from chosen states", desk);
    }
    if desk.works_through_nights() {
        by_itself::run(desk)?;
        told("nights from chosen states and short sessions", desk);
    }
    if !desk.waits_for_a_retry() {
        outside::run(desk)?;
        told("every call from chosen states, every order of refusals", desk);
        remembers::run(desk)?;
        told("targets of both kinds in chosen states, images and sessions", desk);
    }
    Ok(())
}

/// Compares, again and again while there is time, and answers whether all was seen and nothing differed.
fn compare_for(arguments: &Arguments, fault: Option<Fault>) -> bool {
    let mut desk = Desk::new(fault, Watch::new(arguments.minutes));
    let mut sizes = arguments.sizes.clone();
    for seed in arguments.seed.. {
        if let Err(difference) = compare(&mut desk, &sizes, seed, seed == arguments.seed) {
            println!("compare: DIFFERENCE with seed {seed} at call {}\n{difference}", desk.counts.calls);
            return false;
        }
        if arguments.minutes == 0 || desk.is_over() {
            break;
        }
        sizes.transactions = 0;
    }
    let unseen = desk.counts.told();
    let (counts, seconds) = (&desk.counts, desk.seconds());
    println!(
        "compare: {} calls, {} reads, {} retries, {} nights, {} imports and {} states compared in {seconds} s, 0 differences, \
         {unseen} kinds never seen",
        counts.calls,
        counts.reads,
        counts.retries.retries(),
        counts.nights.nights,
        counts.imports.imports,
        counts.states,
    );
    unseen == 0
}

/// Tries these faults in the independent copy, and answers whether each was found, and those of a retry by a retry.
fn find_faults(arguments: &Arguments, faults: &[Fault]) -> bool {
    let mut missed = 0;
    for fault in faults {
        let mut desk = Desk::new(Some(*fault), Watch::new(0));
        let found = match compare(&mut desk, &arguments.sizes, arguments.seed, false) {
            Ok(()) => false,
            Err(difference) => difference.is_of_retry || !desk.waits_for_a_retry(),
        };
        println!("{:>10}  {fault:?}{}", desk.counts.calls, if found { "" } else { " was NOT found" });
        missed += usize::from(!found);
    }
    println!("compare: {} faults put in, one at a time; {} found, {missed} missed", faults.len(), faults.len() - missed);
    missed == 0 && !faults.is_empty()
}

/// Writes the byte outside that edge of a lent slice.
fn overrun(edge: Edge) {
    let lent = Guarded::new().bytes(16, edge).as_mut_ptr_range();
    println!("compare: the byte outside a lent slice is written now ({edge:?})");
    let outside = match edge {
        Edge::End => lent.end,
        Edge::Begin => lent.start.wrapping_sub(1),
    };
    // SAFETY: none; it must fault.
    unsafe { outside.write_volatile(1) };
    println!("compare: it went through");
}

fn main() -> ExitCode {
    let arguments = match arguments() {
        Ok(arguments) => arguments,
        Err(error) => {
            eprintln!("compare: {error}");
            return ExitCode::from(2);
        }
    };
    let named = |name: &str| {
        Fault::named(name).ok_or_else(|| eprintln!("compare: no fault is named {name}; there are {:?}", Fault::all()))
    };
    let passed = match (arguments.overrun, arguments.fault.as_deref(), arguments.found.as_deref()) {
        (Some(edge), ..) => {
            overrun(edge);
            Ok(false)
        }
        (_, Some("all"), _) => Ok(find_faults(&arguments, &Fault::all())),
        (_, Some(name), _) => named(name).map(|fault| compare_for(&arguments, Some(fault))),
        (.., Some(name)) => named(name).map(|fault| find_faults(&arguments, &[fault])),
        _ => Ok(compare_for(&arguments, None)),
    };
    match passed {
        Ok(true) => ExitCode::SUCCESS,
        Ok(false) => ExitCode::FAILURE,
        Err(()) => ExitCode::from(2),
    }
}
