//! Kills a server at random moments while it is fed calls, and holds what it kept against the independent controller.
//!
//! `kill KILLS SEED FOLDER COMMAND...`: COMMAND, with the image's file as its last word, is started again and again on the
//! same file in FOLDER, which must be empty; every few kills the file is a new one, missing at first or with a used image.
//! The calls that were answered, and at most the one that was being made, must be what the file shows, byte by byte. The
//! archive beside it must hold each folded transaction once, as it stood when it was folded, and behind them at most a part
//! of what the fold that was being made would archive, which the next start must cut off. A job that was cut before the last
//! of its stores is called again, by the server that is started next where the kill came first. Of a night whole slices
//! must be kept, and what is left of it is asked of the server that is started next. The record of events must have each of
//! those that led to the image, once and in order, and behind them at most a part of those of the step that was being made,
//! which the next start must take back. The switch must have what the image says of it, or what it has by the one call that was
//! being made: a push, which the next start must show by its first store alone and which is asked for again, with the line
//! open or lost meanwhile; or a synchronise, a start or a stop, which it must show whole. In the end the image, the archive,
//! the events and the switch must be those of a server that was never killed, made each cut job whole, and was asked each night
//! once. Ends with 1 where this is not so.

use makowist_host::controller::{ConfigurationState, Number, State, Status, Transaction, LOG_LIMIT, NODES};
use makowist_host::image::{self, LENGTH};
use makowist_host::jobs::Rule;
use makowist_host::lines;
use makowist_host::night::{Done, Night, BUDGET_LIMIT, OUTCOMES};
use makowist_host::northbound::{self, act, Answer, Request, Served};
use makowist_host::random::Random;
use makowist_host::requests::{change, sensible, wild};
use makowist_host::retry::CutJob;
use std::fmt;
use std::fs;
use std::io::{BufRead, BufReader, ErrorKind, Read, Write};
use std::path::{Path, PathBuf};
use std::process::{Child, Command, ExitCode, Output, Stdio};
use std::thread;
use std::time::{Duration, Instant};

/// How often a server is killed on one file before a new one is begun.
const KILLS_TO_A_FILE: u64 = 10;
/// How many calls a server is fed: on most machines more than it answers before it is killed.
const CALLS: usize = 1000;
/// The first of them, into which most kills fall; and one in how many is a night among them, for half of the servers, and else:
/// nights leave few jobs to be cut.
const EARLY: usize = 30;
const EARLY_EVENINGS: usize = 4;
const LATE_EVENINGS: usize = 60;
/// Of how many files one is of a switch that remembers.
const REMEMBERING: usize = 3;
/// One in how many servers begins with a switch that stops.
const OUTAGES: usize = 5;
/// The longest wait for the kill, from the first answer.
const LONGEST: Duration = Duration::from_millis(25);
/// The same from the start, for the kills that fall into it.
const LONGEST_START: Duration = Duration::from_millis(40);
/// The longest wait for a file to change, for the kills that wait for it, the pause between two looks at it, and by how many bytes
/// it grows at most: some lines, so that folds are kept before the one that is cut short, and slices.
const LONGEST_GROWING: Duration = Duration::from_millis(700);
const PAUSE: Duration = Duration::from_micros(10);
const LONGEST_GROWTH: usize = 1000;
/// What the server says where it cuts lines of a fold that was not kept off the archive, where it takes events back, and where
/// its image comes to show what the switch has.
const MENDED: &str = "cut off";
const TAKEN_BACK: &str = "taken back";
const CAUGHT_UP: &str = "ahead of the image";
/// The files beside an image.
const ARCHIVE: &str = ".archive";
const RECORD: &str = ".events";
const SWITCH: &str = ".switch";
/// How many jobs of a night the server does at most before it keeps them.
const SLICE: usize = 8;

type Checked<T> = Result<T, String>;

#[derive(Default)]
struct Seen {
    answered: usize,
    accepted: usize,
    before_any_answer: usize,
    in_flight_kept: usize,
    left_aside: usize,
    folds: usize,
    dropped: usize,
    left_ahead: usize,
    mended: usize,
    retried: usize,
    cut_by_kill: usize,
    made_whole: usize,
    nights: usize,
    night_jobs: usize,
    in_night: usize,
    resumed: usize,
    events_ahead: usize,
    taken_back: usize,
    landed: [usize; Told::ALL.len()],
    caught_up: usize,
    stood: usize,
    lost: usize,
    /// Stops behind which the switch still has values.
    remembered: usize,
    idle: u64,
    kills: u64,
}

impl Seen {
    /// Makes what the server has made, to its end.
    fn made(&mut self, asked: &Asked, kept: &mut Kept) -> bool {
        match asked {
            Asked::Call(request) => self.called(request, kept),
            Asked::Night(night) => self.slept(night, kept, None),
        }
    }

    /// Does a night, slice after slice, to its end, or until the image is the one that was found.
    fn slept(&mut self, night: &Night, kept: &mut Kept, found: Option<&[u8]>) -> bool {
        let slept = Slept::of(&kept.state, night);
        self.nights += usize::from(kept.rest.is_none());
        self.resumed += usize::from(kept.rest.is_some());
        kept.asked_for(night, &slept);
        let mut done = 0;
        for slice in &slept.slices {
            kept.sleep(slice);
            done += slice.len();
            if found.is_some_and(|found| found == kept.bytes) {
                break;
            }
        }
        kept.rest = (done < slept.jobs()).then(|| later(night, done));
        self.night_jobs += done;
        self.in_night += usize::from(kept.rest.is_some());
        slept.is_accepted()
    }

    /// Makes a call that the server has made.
    fn called(&mut self, request: &Request, kept: &mut Kept) -> bool {
        let (folded, cut) = (kept.state.folded.0, kept.cut);
        let accepted = kept.make(request);
        if let Some(cut) = cut {
            let complete = kept.state.configuration.state == ConfigurationState::Complete;
            self.retried += usize::from(kept.cut.is_none());
            self.stood += usize::from(kept.cut.is_none() && stands(Some(cut)));
            self.lost += usize::from(accepted && complete && matches!(request, Request::Sync(_)));
        }
        let has_values = kept.state.target.values.iter().any(|value| *value != 0);
        self.remembered += usize::from(accepted && *request == Request::Stop && has_values);
        self.folds += usize::from(kept.state.folded.0 > folded);
        self.dropped += usize::from(kept.state.folded.0 - folded);
        accepted
    }

    /// Whether the kills have shown what they must.
    fn is_enough(&self) -> bool {
        let Seen { folds, mended, cut_by_kill, in_night, resumed, taken_back, caught_up, stood, lost, remembered, .. } = self;
        let counts = [folds, mended, cut_by_kill, in_night, resumed, taken_back, caught_up, stood, lost, remembered];
        counts.iter().copied().chain(&self.landed).all(|count| *count > 0)
    }

    fn shows(self) -> Checked<Seen> {
        let Seen { idle, kills, .. } = self;
        match self.is_enough() {
            _ if 2 * idle > kills => Err(format!("{idle} of {kills} kills fell when every call had been answered: feed more")),
            false => Err(format!("too few kills to see what they must: {self}")),
            true => Ok(self),
        }
    }
}

impl fmt::Display for Seen {
    fn fmt(&self, to: &mut fmt::Formatter) -> fmt::Result {
        let Seen { answered, accepted, before_any_answer, in_flight_kept, left_aside, .. } = self;
        let Seen { folds, dropped, left_ahead, mended, retried, cut_by_kill, made_whole, .. } = self;
        let Seen { nights, night_jobs, in_night, resumed, events_ahead, taken_back, .. } = self;
        let Seen { landed: [pushes, in_nights, synchronised, powered], caught_up, stood, lost, remembered, .. } = self;
        write!(
            to,
            "{answered} calls answered, {accepted} of them accepted; killed before any answer {before_any_answer}, with a call \
             kept that was not answered {in_flight_kept}, with a file left aside {left_aside}\n\
             kill: {folds} folds kept, each of the {dropped} transactions that they dropped archived once; killed with lines \
             archived whose fold was not kept {left_ahead}, archives mended at a start {mended}\n\
             kill: {nights} nights of {night_jobs} jobs; killed between two slices {in_night}, gone on with {resumed}; killed \
             with events recorded whose image was not kept {events_ahead}, events taken back at a start {taken_back}\n\
             kill: killed between the switch and the image: in a push {pushes}, in a push of a night {in_nights}, in a \
             synchronise {synchronised}, in a start or a stop {powered}; shown by the image at a start {caught_up}\n\
             kill: {retried} cut jobs called again; killed before that {cut_by_kill}; {stood} of them pushes at their first store; \
             synchronises that took such a push back {lost}; stops behind which the switch still had its values {remembered}\n\
             kill: {made_whole} images, archives, events and switches in the end as those of a server that was never killed and \
             made each job and each night whole"
        )
    }
}

/// What folds have dropped, as it must be written down.
#[derive(Clone)]
struct Archive {
    text: String,
    sum: u64,
}

impl Archive {
    fn empty() -> Archive {
        Archive { text: String::new(), sum: SUM_OF_NOTHING }
    }

    fn add(&mut self, number: Number, transaction: &Transaction) {
        self.put(&archived(number, transaction));
        self.put(&format!(" sum={:016x}\n", self.sum));
    }

    fn put(&mut self, text: &str) {
        self.text.push_str(text);
        self.sum = sum_of(self.sum, text.as_bytes());
    }
}

const SUM_OF_NOTHING: u64 = 0xcbf2_9ce4_8422_2325;

/// FNV-1a.
fn sum_of(sum: u64, bytes: &[u8]) -> u64 {
    bytes.iter().fold(sum, |sum, byte| (sum ^ u64::from(*byte)).wrapping_mul(0x100_0000_01b3))
}

/// A transaction's line in the archive, as far as the sum.
fn archived(number: Number, transaction: &Transaction) -> String {
    let Transaction { phase, change, c, r, r_index, r_values, .. } = transaction;
    let pairs: Vec<String> = change.pairs().iter().map(|pair| format!("{}:{}", pair.path, pair.value)).collect();
    let r_values: Vec<String> = r_values.iter().take(pairs.len()).map(u16::to_string).collect();
    let valid = u8::from(c.commit == Status::Complete);
    let taken = u8::from(c.apply == Status::Complete);
    let undone = u8::from(matches!(r.apply, Status::Complete | Status::Canceled));
    format!(
        "number={} pairs={} valid={valid} taken={taken} undone={undone} phase={phase:?} \
         c_commit={:?} c_apply={:?} c_ordinal={} r_commit={:?} r_apply={:?} r_ordinal={} r_index={} r_values={}",
        number.0,
        pairs.join(","),
        c.commit,
        c.apply,
        c.ordinal.0,
        r.commit,
        r.apply,
        r.ordinal.0,
        r_index.0,
        r_values.join(",")
    )
}

/// A night that the master can make, now and then one that is refused.
fn any_night(state: &State, random: &mut Random) -> Night {
    let node = state.mastership.master.map_or(1, |master| master.number().into());
    let limit = BUDGET_LIMIT as usize;
    let budget = if random.once_in(4) { random.below(3 * SLICE) } else { random.between(SLICE, limit) };
    let mut outcomes: Vec<u8> = (0..random.below(OUTCOMES + 1)).map(|_| random.once_in(12).into()).collect();
    outcomes.resize(OUTCOMES, 0);
    let mut night = Night { node, budget: budget as u64, outcomes };
    match random.below(60) {
        0 => night.node = random.below(NODES + 2) as u64,
        1 => night.budget = random.one_of(&[BUDGET_LIMIT, BUDGET_LIMIT + 1, 65535]),
        2 => night.outcomes.resize(random.between(OUTCOMES, OUTCOMES + 2), 0),
        3 => night.outcomes[random.below(OUTCOMES)] = random.between(2, 9) as u8,
        _ => {}
    }
    night
}

/// The same night, so many jobs later.
fn later(night: &Night, jobs: usize) -> Night {
    Night { budget: night.budget - jobs as u64, ..night.clone() }
}

/// The line that asks for it.
fn asking(night: &Night) -> String {
    lines::nightly(night).expect("a night that a line can ask for")
}

/// What a night does, slice by slice, and how it is answered.
struct Slept {
    slices: Vec<Vec<Request>>,
    answer: String,
}

impl Slept {
    fn is_accepted(&self) -> bool {
        self.answer.starts_with("answer=0 ")
    }

    fn jobs(&self) -> usize {
        self.slices.iter().map(Vec::len).sum()
    }

    /// The night from a state. A push is a slice by itself.
    fn of(state: &State, night: &Night) -> Slept {
        let passed = state.clone().night(night);
        let work = |done: &Done| {
            let Done { job, number, outcome, .. } = *done;
            Request::Work { node: night.node, job, number: number.0.into(), outcome, cut: 0 }
        };
        let mut left = passed.as_ref().map_or(&[][..], |passed| &passed.jobs);
        let mut slices = Vec::new();
        while !left.is_empty() {
            let before_push = left.iter().take(SLICE).take_while(|done| !is_push(done.rule)).count();
            let (slice, rest) = left.split_at(before_push.max(1));
            slices.push(slice.iter().map(work).collect());
            left = rest;
        }
        Slept { slices, answer: lines::passed(passed) }
    }
}

fn is_push(rule: Option<Rule>) -> bool {
    matches!(rule, Some(Rule::ApplyChangePush | Rule::ApplyRollbackPush))
}

/// What a line asks for.
#[derive(Clone, Debug)]
enum Asked {
    Call(Request),
    Night(Night),
}

impl Asked {
    /// The calls that it comes to from a state.
    fn calls(&self, state: &State) -> Vec<Request> {
        match self {
            Asked::Call(request) => vec![request.clone()],
            Asked::Night(night) => Slept::of(state, night).slices.concat(),
        }
    }

    /// By what it tells the switch something, if by anything.
    fn tells(&self) -> Told {
        match self {
            Asked::Call(Request::Work { .. }) => Told::Push,
            Asked::Call(Request::Sync(_)) => Told::Synchronise,
            Asked::Call(_) => Told::Power,
            Asked::Night(_) => Told::NightPush,
        }
    }
}

/// By what the switch is told something.
#[derive(Clone, Copy, PartialEq, Eq)]
enum Told {
    Push,
    NightPush,
    Synchronise,
    Power,
}

impl Told {
    const ALL: [Told; 4] = [Told::Push, Told::NightPush, Told::Synchronise, Told::Power];
}

/// What the switch has, as its file says it.
fn switch_of(state: &State) -> String {
    let present = state.target.values.iter().enumerate().filter(|(_, value)| **value != 0);
    let pairs: Vec<String> = present.map(|(path, value)| format!("{path}:{value}")).collect();
    format!("running={} values={}\n", u8::from(state.target.running), pairs.join(","))
}

/// What the switch has by a call, where that is not what it had.
fn told(state: &State, request: &Request) -> Option<String> {
    let mut after = state.clone();
    act(&mut after, request);
    Some(switch_of(&after)).filter(|switch| *switch != switch_of(state))
}

/// A call that the switch shows and the image does not, since the server was killed between the two.
#[derive(Clone)]
struct Landed {
    /// By which the next start makes the image show it: a push cut at its first store, else the call itself.
    shown_by: Request,
    /// The night to which it belongs is gone on with, and makes it good.
    in_rest: bool,
    /// What the switch has.
    switch: String,
}

impl Landed {
    fn of(request: Request, in_rest: bool, switch: &str) -> Landed {
        let shown_by = match request {
            Request::Work { node, job, number, outcome, .. } => Request::Work { node, job, number, outcome, cut: 1 },
            whole => whole,
        };
        Landed { shown_by, in_rest, switch: switch.to_string() }
    }
}

/// A server's image, archive and record as they must be on the disk.
#[derive(Clone)]
struct Kept {
    state: State,
    bytes: Vec<u8>,
    archive: Archive,
    /// What a fold that was not kept may have left behind the archive, until the next start.
    ahead: String,
    /// The record of events.
    record: String,
    /// What a step that was not kept may have left behind the record, until the next start.
    events_ahead: String,
    /// What the switch shows and the image does not, until the next start.
    landed: Option<Landed>,
    /// How many transactions the calls let it keep: where they are few, more of them get finished and folded.
    limit: usize,
    /// The job that was cut and is still to be called again.
    cut: Option<CutJob>,
    /// What is left of a night that was killed between two slices, and is still to be asked for.
    rest: Option<Night>,
    /// What was made, without the cuts.
    whole: Whole,
}

/// The calls of a run in which no job is cut and none called again, and each night is one; and the answers that show an event or
/// are a night's.
#[derive(Clone, Default)]
struct Whole {
    asked: String,
    answers: Vec<String>,
}

impl Kept {
    fn fresh(remembers: bool, limit: usize) -> Kept {
        let mut bytes = vec![0; LENGTH];
        northbound::serve(&mut bytes, &Request::Fresh(remembers.into()));
        let (archive, ahead, whole) = (Archive::empty(), String::new(), Whole::default());
        let (state, record, events_ahead) = (State::fresh_of(remembers), String::new(), String::new());
        let (landed, cut, rest) = (None, None, None);
        Kept { state, bytes, archive, ahead, record, events_ahead, landed, limit, cut, rest, whole }
    }

    /// An image that sensible calls have led to.
    fn used(remembers: bool, limit: usize, random: &mut Random) -> Kept {
        let mut kept = Kept::fresh(remembers, limit);
        for _ in 0..random.below(2000) {
            let request = onward(&kept.state, limit, random);
            kept.serve(&request);
        }
        kept
    }

    fn serve(&mut self, request: &Request) -> Served {
        let archive = self.archive_after(request);
        let served = act(&mut self.state, request);
        if served.reply.is_ok() {
            northbound::store(&self.state, request, &mut self.bytes);
            if let Some(archive) = archive {
                self.archive = archive;
            }
        }
        served
    }

    /// Makes a call, and takes it into the run without cuts: a cut job whole, and a retry not at all; but a push that stands at
    /// its first store not yet, and its retry as the job.
    fn make(&mut self, request: &Request) -> bool {
        let recorded = self.recorded_by(std::slice::from_ref(request));
        let served = self.serve(request);
        self.record.push_str(&recorded);
        let cut = CutJob::of(request, &served);
        if !stands(cut) && (!is_retry(self.cut, request) || stands(self.cut)) {
            self.whole.asked.extend(lines::asking(&cut.map_or(request.clone(), CutJob::uncut)));
        }
        if matches!(served.reply, Ok(Answer::Told(_))) {
            self.whole.answers.push(lines::written(&served));
        }
        self.cut = cut_after(self.cut, request, &served);
        served.reply.is_ok()
    }

    /// Takes a night into the run in which each is one; what is left of one is in it already.
    fn asked_for(&mut self, night: &Night, slept: &Slept) {
        if self.rest.is_none() {
            self.whole.asked.push_str(&asking(night));
            self.whole.answers.push(slept.answer.clone());
        }
    }

    /// Does a slice of a night.
    fn sleep(&mut self, slice: &[Request]) {
        let recorded = self.recorded_by(slice);
        self.record.push_str(&recorded);
        for job in slice {
            self.serve(job);
        }
    }

    /// A server that has begun must have said what it cut off the archive, what it took back of the record, and that its image
    /// comes to show what the switch has.
    fn starts(&mut self, begun: bool, aside: &str, seen: &mut Seen) -> Checked<()> {
        let (mended, taken_back, caught_up) = (aside.contains(MENDED), aside.contains(TAKEN_BACK), aside.contains(CAUGHT_UP));
        seen.mended += usize::from(mended);
        seen.taken_back += usize::from(taken_back);
        seen.caught_up += usize::from(caught_up);
        if !begun {
            return Ok(());
        }
        if (mended, taken_back, caught_up) != (!self.ahead.is_empty(), !self.events_ahead.is_empty(), self.landed.is_some()) {
            let Kept { ahead, events_ahead, landed, .. } = self;
            let landed = landed.as_ref().map(|landed| &landed.switch);
            let lay = format!("{ahead:?} lay behind the archive, {events_ahead:?} the record, the switch has {landed:?}");
            return Err(format!("{lay}, and the server said {aside:?}"));
        }
        self.start();
        Ok(())
    }

    /// What a start makes of the files.
    fn start(&mut self) {
        self.ahead.clear();
        self.events_ahead.clear();
        match self.landed.take() {
            Some(Landed { shown_by, in_rest: true, .. }) => drop(self.serve(&shown_by)),
            Some(Landed { shown_by, in_rest: false, .. }) => drop(self.make(&shown_by)),
            None => {}
        }
    }

    /// What calls that are kept together have to record.
    fn recorded_by(&self, calls: &[Request]) -> String {
        let mut state = self.state.clone();
        let served = calls.iter().map(|call| act(&mut state, call));
        let events = served.filter(|served| matches!(served.reply, Ok(Answer::Told(_))));
        let mut text: String = events.map(|served| lines::written(&served).replacen("answer=0 ", "", 1)).collect();
        if !text.is_empty() {
            text += &format!("from={:016x}\n", sum_of(SUM_OF_NOTHING, &self.bytes));
        }
        text
    }

    /// What the step that is kept next has to record: a call, or the first slice of a night.
    fn recorded_next(&self, asked: &Asked) -> String {
        match asked {
            Asked::Call(request) => self.recorded_by(std::slice::from_ref(request)),
            Asked::Night(night) => {
                let slept = Slept::of(&self.state, night);
                slept.slices.first().map_or(String::new(), |slice| self.recorded_by(slice))
            }
        }
    }

    /// The archive that an accepted fold leads to.
    fn archive_after(&self, request: &Request) -> Option<Archive> {
        let Request::Fold(last) = *request else {
            return None;
        };
        let mut archive = self.archive.clone();
        let dropped = self.state.kept().take_while(|(number, _)| u64::from(number.0) <= last);
        dropped.for_each(|(number, transaction)| archive.add(number, transaction));
        Some(archive)
    }
}

/// A call or a night, as it is asked and as it must be answered.
struct Call {
    asked: Asked,
    line: String,
    answer: String,
}

impl Call {
    /// A call, made on the state, where a line can ask for it.
    fn made(request: Request, state: &mut State) -> Option<Call> {
        let line = lines::asking(&request)?;
        let answer = lines::written(&act(state, &request));
        Some(Call { asked: Asked::Call(request), line, answer })
    }

    /// A night, made on the state.
    fn night(night: Night, state: &mut State) -> Call {
        let Slept { slices, answer } = Slept::of(state, &night);
        for job in slices.iter().flatten() {
            act(state, job);
        }
        Call { line: asking(&night), asked: Asked::Night(night), answer }
    }
}

/// Whether a call is the retry of a job that was cut: no other job comes before it.
fn is_retry(cut: Option<CutJob>, request: &Request) -> bool {
    cut.is_some() && matches!(request, Request::Work { .. })
}

/// Whether a job is a push cut at its first store: the target has it, and no event was given.
fn stands(cut: Option<CutJob>) -> bool {
    cut.is_some_and(|cut| !cut.lacks_the_last_alone())
}

/// The job that is to be called again after a call.
fn cut_after(cut: Option<CutJob>, request: &Request, served: &Served) -> Option<CutJob> {
    if is_retry(cut, request) { CutJob::of(request, served) } else { cut.or(CutJob::of(request, served)) }
}

/// What leads to the retry of a job that was cut, and then that. Of a push that stands at its first store the line may be lost.
fn toward_retry(cut: CutJob, state: &State, loses_line: bool) -> Request {
    let Request::Work { node, .. } = cut.uncut() else { unreachable!("a job") };
    match opening(state, node).filter(|_| stands(Some(cut))) {
        Some(request) => request,
        None if stands(Some(cut)) && loses_line => Request::Disconnect(node),
        None => cut.again(false, 0u64),
    }
}

/// The next call that opens the line for a node, where no other is master and it is not open.
fn opening(state: &State, node: u64) -> Option<Request> {
    let connected = state.connections[node as usize - 1].connected;
    match state.mastership.master {
        None if !connected => Some(Request::Connect(node)),
        None => Some(Request::Master(node)),
        Some(master) if !connected || state.reconnected(master) => Some(Request::Master(node)),
        Some(_) => (state.configuration.term < state.mastership.term).then_some(Request::Sync(node)),
    }
}

/// Calls from a state on, most of them accepted. A job that was cut is called again before anything else is done but on other
/// nodes' connections, or to lose the line and open it again, and what is left of a night comes first of all.
fn calls(kept: &Kept, random: &mut Random) -> Vec<Call> {
    let (mut state, mut cut) = (kept.state.clone(), kept.cut);
    let early_evenings = random.one_of(&[EARLY_EVENINGS, LATE_EVENINGS]);
    let mut calls: Vec<Call> = kept.rest.iter().map(|night| Call::night(night.clone(), &mut state)).collect();
    if cut.is_none() && state.target.running && random.once_in(OUTAGES) {
        calls.extend(outage(&mut state));
    }
    while calls.len() < CALLS {
        let evenings = if calls.len() < EARLY { early_evenings } else { LATE_EVENINGS };
        if cut.is_none() && state.mastership.master.is_some() && random.once_in(evenings) {
            calls.extend(evening(&mut state, kept.limit, random));
            continue;
        }
        let request = match cut {
            Some(cut) if random.once_in(3) => cut.elsewhere(random),
            Some(cut) if stands(Some(cut)) => toward_retry(cut, &state, random.once_in(2)),
            Some(cut) => cut.again(random.once_in(2), random.below(3) as u64),
            None if random.once_in(12) => wild(&state, random),
            None => onward(&state, kept.limit, random),
        };
        if let Some(line) = lines::asking(&request) {
            let served = act(&mut state, &request);
            if served.reply.is_ok() || random.once_in(4) {
                cut = cut_after(cut, &request, &served);
                calls.push(Call { asked: Asked::Call(request), line, answer: lines::written(&served) });
            }
        }
    }
    calls
}

/// The switch stops, and the line is opened again: where it forgets, a synchronise that has something to bring.
fn outage(state: &mut State) -> Vec<Call> {
    let node = state.mastership.master.map_or(1, |master| master.number().into());
    let mut calls: Vec<Call> = [Request::Stop, Request::Start].into_iter().filter_map(|request| Call::made(request, state)).collect();
    while let Some(request) = opening(state, node) {
        calls.extend(Call::made(request, state));
    }
    calls
}

/// Changes, as far as there is room, and then a night.
fn evening(state: &mut State, limit: usize, random: &mut Random) -> Vec<Call> {
    let room = limit.saturating_sub(state.log.len());
    let mut calls = Vec::new();
    for _ in 0..random.below(room.min(SLICE) + 1) {
        calls.extend(Call::made(Request::Append(change(random)), state));
    }
    let night = any_night(state, random);
    calls.push(Call::night(night, state));
    calls
}

/// A sensible call, and where a fold is accepted, more often that.
fn onward(state: &State, limit: usize, random: &mut Random) -> Request {
    let finished = state.log.iter().take_while(|transaction| transaction.is_finished()).count();
    let fold = Request::Fold(u64::from(state.folded.0) + random.between(1, finished.max(1)) as u64);
    match random.once_in(8) && act(&mut state.clone(), &fold).reply.is_ok() {
        true => fold,
        false => sensible(state, limit, random),
    }
}

/// When a server is killed.
enum Moment {
    /// So long after it was started.
    FromStart(Duration),
    /// So long after so many answers.
    FromAnswer(usize, Duration),
    /// As soon as the archive is longer than this, after its first answer.
    AtArchive(usize),
    /// As soon as the record is longer than this: an answer may be that of a whole night.
    AtRecord(usize),
    /// As soon as the switch has this: the image comes to show it after that.
    AtSwitch(String),
    /// As soon as the image is this: the switch must have what it shows.
    AtImage(Vec<u8>),
}

impl Moment {
    fn any(kept: &Kept, calls: &[Call], seen: &Seen, random: &mut Random) -> Moment {
        let mut within = |longest: Duration| Duration::from_micros(random.below(longest.as_micros() as usize) as u64);
        let (from_start, from_answer) = (within(LONGEST_START), within(LONGEST));
        let early = &calls[..EARLY];
        let chosen = match random.below(16) {
            0 => Some(Moment::FromStart(from_start)),
            1 | 2 => Some(Moment::AtArchive(kept.archive.text.len() + random.below(LONGEST_GROWTH))),
            3 => Some(Moment::AtRecord(kept.record.len() + random.below(LONGEST_GROWTH))),
            4 | 5 => Moment::in_night(kept, early, random),
            6 => Moment::at_cut(kept, early),
            7..=12 => Moment::at_switch(kept, early, &seen.landed, random),
            _ => None,
        };
        chosen.unwrap_or(Moment::FromAnswer(1, from_answer))
    }

    /// As soon as the first job that is cut is answered.
    fn at_cut(kept: &Kept, calls: &[Call]) -> Option<Moment> {
        let mut kept = kept.clone();
        let is_cut = |Call { asked, .. }: &Call| {
            Seen::default().made(asked, &mut kept);
            kept.cut.is_some()
        };
        calls.iter().position(is_cut).map(|before| Moment::FromAnswer(before + 1, Duration::ZERO))
    }

    /// As soon as a slice that is not the first one is recorded, of the first night that has any.
    fn in_night(kept: &Kept, calls: &[Call], random: &mut Random) -> Option<Moment> {
        let mut kept = kept.clone();
        for Call { asked, .. } in calls {
            if let Asked::Night(night) = asked {
                let slices = Slept::of(&kept.state, night).slices;
                if slices.len() > 1 {
                    let before = slices.iter().take(random.between(1, slices.len() - 1));
                    before.for_each(|slice| kept.sleep(slice));
                    return Some(Moment::AtRecord(kept.record.len()));
                }
            }
            Seen::default().made(asked, &mut kept);
        }
        None
    }

    /// As soon as the switch has taken something, or now and then as soon as the image shows it, of the kind at which the fewest
    /// kills fell yet: the first of that, or a later one.
    fn at_switch(kept: &Kept, calls: &[Call], fell: &[usize], random: &mut Random) -> Option<Moment> {
        let mut kept = kept.clone();
        let mut by_kind = [const { Vec::new() }; Told::ALL.len()];
        for Call { asked, .. } in calls {
            for request in asked.calls(&kept.state) {
                let switch = told(&kept.state, &request);
                kept.serve(&request);
                by_kind[asked.tells() as usize].extend(switch.map(|switch| (switch, kept.bytes.clone())));
            }
        }
        let (chosen, _) = by_kind.iter().zip(fell).filter(|(told, _)| !told.is_empty()).min_by_key(|(_, fell)| **fell)?;
        let place = if random.once_in(2) { 0 } else { random.below(chosen.len()) };
        let (switch, image) = chosen[place].clone();
        Some(if random.once_in(4) { Moment::AtImage(image) } else { Moment::AtSwitch(switch) })
    }
}

/// What a server said: the whole lines that it answered, and on standard error.
struct Said {
    answers: Vec<String>,
    aside: String,
}

struct Server<'a> {
    command: &'a [String],
    file: PathBuf,
}

impl Server<'_> {
    fn start(&self) -> Checked<Child> {
        let mut command = Command::new(&self.command[0]);
        command.args(&self.command[1..]).arg(&self.file);
        command.stdin(Stdio::piped()).stdout(Stdio::piped()).stderr(Stdio::piped());
        command.spawn().map_err(|error| format!("{}: {error}", self.command[0]))
    }

    /// The file beside the image with that ending.
    fn beside(&self, ending: &str) -> PathBuf {
        let mut name = self.file.as_os_str().to_owned();
        name.push(ending);
        name.into()
    }

    /// What the file holds, where there is one.
    fn kept(&self) -> Checked<Option<Vec<u8>>> {
        match fs::read(&self.file) {
            Ok(bytes) => Ok(Some(bytes)),
            Err(error) if error.kind() == ErrorKind::NotFound => Ok(None),
            Err(error) => Err(error.to_string()),
        }
    }

    /// What the file beside the image holds; nothing where there is none.
    fn text(&self, ending: &str) -> Checked<String> {
        match fs::read_to_string(self.beside(ending)) {
            Ok(text) => Ok(text),
            Err(error) if error.kind() == ErrorKind::NotFound => Ok(String::new()),
            Err(error) => Err(error.to_string()),
        }
    }

    /// The image, the archive, the switch, and the events in the record, without the sums of the images that they led from: a
    /// push that stands shows in those.
    fn files(&self) -> Checked<(Option<Vec<u8>>, String, String, Vec<String>)> {
        let record = self.text(RECORD)?;
        let events = record.lines().filter(|line| !line.starts_with("from=")).map(str::to_string).collect();
        Ok((self.kept()?, self.text(ARCHIVE)?, self.text(SWITCH)?, events))
    }

    /// Whether the files are as they must be.
    fn holds(&self, kept: &Kept) -> Checked<bool> {
        let Kept { state, bytes, archive, record, .. } = kept;
        let beside = self.text(ARCHIVE)? == archive.text && self.text(RECORD)? == *record && self.text(SWITCH)? == switch_of(state);
        Ok(beside && self.kept()?.as_ref() == Some(bytes))
    }

    /// Waits for the moment, and hands on the answers that had to be awaited.
    fn wait_for(&self, moment: Moment, output: &mut impl BufRead) -> Checked<Vec<String>> {
        let awaited = match moment {
            Moment::FromStart(_) | Moment::AtRecord(_) | Moment::AtSwitch(_) | Moment::AtImage(_) => 0,
            Moment::AtArchive(_) => 1,
            Moment::FromAnswer(answers, _) => answers,
        };
        let answers = (0..awaited).map_while(|_| whole_line(output).transpose()).collect();
        match moment {
            Moment::FromStart(wait) | Moment::FromAnswer(_, wait) => thread::sleep(wait),
            Moment::AtArchive(length) => self.wait_for_file(ARCHIVE, |file| is_longer(file, length)),
            Moment::AtRecord(length) => self.wait_for_file(RECORD, |file| is_longer(file, length)),
            Moment::AtSwitch(has) => self.wait_for_file(SWITCH, |file| is_so(file, has.as_bytes())),
            Moment::AtImage(bytes) => self.wait_for_file("", |file| is_so(file, &bytes)),
        }
        answers
    }

    /// Waits for a file beside the image to be so; with hardly a pause, since the image soon shows it.
    fn wait_for_file(&self, ending: &str, has_come: impl Fn(&Path) -> bool) {
        let (file, began) = (self.beside(ending), Instant::now());
        while !has_come(&file) && began.elapsed() < LONGEST_GROWING {
            thread::sleep(PAUSE);
        }
    }

    /// Starts it, feeds it the calls, and kills it.
    fn killed(&self, calls: &[Call], moment: Moment) -> Checked<Said> {
        let mut child = self.start()?;
        let (Some(mut input), Some(output), Some(mut error)) = (child.stdin.take(), child.stdout.take(), child.stderr.take())
        else {
            return Err("no pipes".to_string());
        };
        let asked: String = calls.iter().map(|call| call.line.as_str()).collect();
        // The input stays open until the kill: a server that sees its end would leave by itself.
        let feeder = thread::spawn(move || {
            let _ = input.write_all(asked.as_bytes());
            input
        });
        let mut output = BufReader::new(output);
        let mut said = Said { answers: Vec::new(), aside: String::new() };
        said.answers.extend(self.wait_for(moment, &mut output)?);
        child.kill().map_err(|error| error.to_string())?;
        while let Some(answer) = whole_line(&mut output)? {
            said.answers.push(answer);
        }
        error.read_to_string(&mut said.aside).map_err(|error| error.to_string())?;
        let status = child.wait().map_err(|error| error.to_string())?;
        drop(feeder.join());
        match status.code() {
            None => Ok(said),
            Some(code) => Err(format!("the server ended by itself with {code} before it was killed: {}", said.aside)),
        }
    }

    /// Starts it, feeds it the calls, and lets it leave by itself.
    fn fed(&self, asked: &str) -> Checked<Output> {
        let mut child = self.start()?;
        let input = child.stdin.take();
        let asked = asked.to_string();
        let feeder = thread::spawn(move || input.map(|mut input| input.write_all(asked.as_bytes())));
        let output = child.wait_with_output().map_err(|error| error.to_string())?;
        drop(feeder.join());
        match output.status.success() {
            true => Ok(output),
            false => Err(format!("the server ended with {}: {:?}", output.status, String::from_utf8_lossy(&output.stderr))),
        }
    }

    /// Lays down the image and the archive that a server is to begin with, where they are not fresh.
    fn lay(&self, kept: &Kept) -> Checked<()> {
        if kept.state == State::fresh() {
            return Ok(());
        }
        let laid = fs::write(&self.file, &kept.bytes).and_then(|()| fs::write(self.beside(ARCHIVE), &kept.archive.text));
        laid.map_err(|error| error.to_string())
    }

    /// What is left is asked for: a job that is still cut, or the rest of a night.
    fn goes_on_with(&self, kept: &mut Kept, seen: &mut Seen) -> Checked<()> {
        while let Some(cut) = kept.cut {
            let request = toward_retry(cut, &kept.state, false);
            self.fed(&lines::asking(&request).ok_or("a call that no line asks for")?)?;
            seen.called(&request, kept);
        }
        if let Some(night) = kept.rest.clone() {
            self.fed(&asking(&night))?;
            seen.made(&Asked::Night(night), kept);
        }
        Ok(())
    }

    /// What is left is asked for. Then the files must be those of a server that was never killed, made each cut job whole and
    /// was asked each night once, and that server's answers must show the events of the killed one, and its nights.
    fn ends_as(&self, whole: &Server, kept: &mut Kept, seen: &mut Seen) -> Checked<()> {
        self.closes_with(kept, seen)?;
        self.goes_on_with(kept, seen)?;
        let output = whole.fed(&kept.whole.asked)?;
        let shown = String::from_utf8_lossy(&output.stdout);
        let is_shown = |line: &&str| line.starts_with("answer=") && !line.contains(" phase=0 ");
        if !shown.split_inclusive('\n').filter(is_shown).eq(&kept.whole.answers) {
            return Err("a server that was never killed and made all whole gave other events or nights".to_string());
        }
        let (files, wholes) = (self.files()?, whole.files()?);
        if files != wholes || !self.holds(kept)? {
            let switches = format!("the switch has {:?} and that of the other {:?}", files.2, wholes.2);
            return Err(format!("the files are not those of a server that was never killed and made all whole; {switches}"));
        }
        seen.made_whole += 1;
        Ok(())
    }

    /// Starts it without a call: it must mend archive and record, make the image show what the switch has, show the heads, leave
    /// by itself and change nothing else.
    fn closes_with(&self, kept: &mut Kept, seen: &mut Seen) -> Checked<()> {
        let output = self.start()?.wait_with_output().map_err(|error| error.to_string())?;
        let shown = String::from_utf8_lossy(&output.stdout);
        let aside = String::from_utf8_lossy(&output.stderr);
        if !output.status.success() {
            return Err(format!("started without a call it ended with {} and said {aside:?}", output.status));
        }
        kept.starts(true, &aside, seen)?;
        match shown == lines::closing(&kept.state) && self.holds(kept)? {
            true => Ok(()),
            false => Err(format!("started without a call it showed {shown:?} and left other files: {aside:?}")),
        }
    }
}

fn is_so(file: &Path, bytes: &[u8]) -> bool {
    fs::read(file).is_ok_and(|found| found == bytes)
}

fn is_longer(file: &Path, length: usize) -> bool {
    fs::metadata(file).is_ok_and(|found| found.len() > length as u64)
}

/// The next line. A line without its end was not answered.
fn whole_line(output: &mut impl BufRead) -> Checked<Option<String>> {
    let mut line = String::new();
    output.read_line(&mut line).map_err(|error| error.to_string())?;
    Ok(line.ends_with('\n').then_some(line))
}

/// One kill. Brings `kept` to what the server kept, which must be what was answered, or one call more, or slices of a night.
fn kill_once(server: &Server, kept: &mut Kept, seen: &mut Seen, random: &mut Random) -> Checked<()> {
    let (existed, had_switch) = (server.kept()?.is_some(), server.beside(SWITCH).exists());
    let mut started = kept.clone();
    started.start();
    let calls = calls(&started, random);
    let Said { answers, aside } = server.killed(&calls, Moment::any(&started, &calls, seen, random))?;
    let found = server.kept()?;
    let begun = !answers.is_empty() || found.as_ref().is_some_and(|found| *found != kept.bytes);
    kept.starts(begun, &aside, seen)?;
    for (call, answer) in calls.iter().zip(&answers) {
        if *answer != call.answer {
            return Err(format!("{:?} was answered {answer:?}, not {:?}", call.line, call.answer));
        }
        seen.accepted += usize::from(seen.made(&call.asked, kept));
    }
    seen.answered += answers.len();
    seen.before_any_answer += usize::from(answers.is_empty());
    seen.left_aside += usize::from(server.beside(".new").exists());
    seen.idle += u64::from(answers.len() == calls.len());
    let next = calls.get(answers.len()).map(|call| &call.asked).filter(|_| kept.landed.is_none());
    let not_kept = match found {
        Some(found) => holds_image(&found, next, kept, seen).map_err(|why| format!("after {} answers {why}", answers.len()))?,
        None if !existed && answers.is_empty() => next.cloned(),
        None => return Err("the file is gone".to_string()),
    };
    seen.cut_by_kill += usize::from(kept.cut.is_some());
    holds_archive(&server.text(ARCHIVE)?, not_kept.as_ref(), kept, seen)?;
    holds_record(&server.text(RECORD)?, not_kept.as_ref(), kept, seen)?;
    if begun || had_switch || server.beside(SWITCH).exists() {
        holds_switch(&server.text(SWITCH)?, not_kept.as_ref(), kept, seen)?;
    }
    Ok(())
}

/// The image must be what the answered calls lead to, or those and the next, or slices of that. Answers what was not kept.
fn holds_image(found: &[u8], next: Option<&Asked>, kept: &mut Kept, seen: &mut Seen) -> Checked<Option<Asked>> {
    if found == kept.bytes {
        return Ok(next.cloned());
    }
    let answered = format!("{:?}", kept.state);
    let accepted = match next {
        Some(Asked::Night(night)) => seen.slept(night, kept, Some(found)),
        Some(Asked::Call(request)) => seen.called(request, kept),
        None => false,
    };
    if accepted && found == kept.bytes {
        seen.in_flight_kept += usize::from(kept.rest.is_none());
        return Ok(kept.rest.clone().map(Asked::Night));
    }
    Err(format!(
        "the file shows neither the answered calls nor one more ({next:?})\n  answered: {answered}\n  kept: {}",
        image::decode(found).map_or(format!("{} bytes that are no image", found.len()), |state| format!("{state:?}"))
    ))
}

/// What lies in a file beside the image behind the text that goes with it.
fn behind<'a>(what: &str, found: &'a str, text: &str) -> Checked<&'a str> {
    found.strip_prefix(text).ok_or_else(|| {
        let same = found.lines().zip(text.lines()).take_while(|(found, kept)| found == kept).count();
        let line = |text: &str| text.lines().nth(same).map(str::to_string);
        format!("line {} of the {what} is {:?}\n  and not {:?}", same + 1, line(found), line(text))
    })
}

/// The archive must hold what the kept image has folded. Behind that may lie what was there before the server was started,
/// or the beginning of what the call that was not kept, if it is a fold, has to archive.
fn holds_archive(found: &str, not_kept: Option<&Asked>, kept: &mut Kept, seen: &mut Seen) -> Checked<()> {
    let ahead = behind("archive", found, &kept.archive.text)?;
    let begun = match not_kept {
        Some(Asked::Call(call)) if act(&mut kept.state.clone(), call).reply.is_ok() => kept.archive_after(call),
        _ => None,
    };
    if ahead != kept.ahead && !ahead.is_empty() {
        if !begun.is_some_and(|begun| begun.text.starts_with(found)) {
            return Err(format!("the archive goes on with {ahead:?}, and what was not kept is {not_kept:?}"));
        }
        seen.left_ahead += 1;
    }
    kept.ahead = ahead.to_string();
    Ok(())
}

/// The record must hold the events that led to the kept image. Behind them may lie what was there before the server was started,
/// or the beginning of what the step that was not kept has to record.
fn holds_record(found: &str, not_kept: Option<&Asked>, kept: &mut Kept, seen: &mut Seen) -> Checked<()> {
    let ahead = behind("record", found, &kept.record)?;
    if ahead != kept.events_ahead && !ahead.is_empty() {
        if !not_kept.is_some_and(|asked| kept.recorded_next(asked).starts_with(ahead)) {
            return Err(format!("the record goes on with {ahead:?}, and what was not kept is {not_kept:?}"));
        }
        seen.events_ahead += 1;
    }
    kept.events_ahead = ahead.to_string();
    Ok(())
}

/// The switch must have what the kept image says of it, or what it had before the server was started, or what it has by the
/// step that was not kept.
fn holds_switch(found: &str, not_kept: Option<&Asked>, kept: &mut Kept, seen: &mut Seen) -> Checked<()> {
    let said = kept.landed.as_ref().map_or_else(|| switch_of(&kept.state), |landed| landed.switch.clone());
    if found == said {
        return Ok(());
    }
    let step = not_kept.and_then(|asked| Some((asked.tells(), asked.calls(&kept.state).into_iter().next()?)));
    let Some((tells, request)) = step.filter(|(_, request)| told(&kept.state, request).as_deref() == Some(found)) else {
        return Err(format!("the switch has {found:?}, the image says {said:?}, and what was not kept is {not_kept:?}"));
    };
    seen.landed[tells as usize] += 1;
    kept.landed = Some(Landed::of(request, kept.rest.is_some(), found));
    Ok(())
}

fn run(kills: u64, seed: u64, folder: &Path, command: &[String]) -> Checked<Seen> {
    let mut random = Random::new(seed);
    let mut seen = Seen::default();
    let mut kept = Kept::fresh(false, LOG_LIMIT);
    let (mut server, mut whole) = (Server { command, file: PathBuf::new() }, Server { command, file: PathBuf::new() });
    let mut kill = 0;
    // On a machine that is slow just now more kills come too late: then it goes on until each thing was seen.
    while kill < kills || kill < 2 * kills && !seen.is_enough() {
        if kill % KILLS_TO_A_FILE == 0 || kill == kills {
            server.file = folder.join(format!("image{kill}"));
            whole.file = server.beside(".whole");
            let limit = random.one_of(&[3, 8, LOG_LIMIT]);
            let remembers = random.once_in(REMEMBERING);
            kept = match random.once_in(2) {
                true => Kept::fresh(remembers, limit),
                false => Kept::used(remembers, limit, &mut random),
            };
            [&server, &whole].iter().try_for_each(|server| server.lay(&kept))?;
        }
        kill += 1;
        kill_once(&server, &mut kept, &mut seen, &mut random).map_err(|error| format!("kill {kill}: {error}"))?;
        let is_last = kill % KILLS_TO_A_FILE == 0 || kill == kills;
        let closed = match random.once_in(3) {
            _ if is_last => server.ends_as(&whole, &mut kept, &mut seen),
            true => server.closes_with(&mut kept, &mut seen),
            false => Ok(()),
        };
        closed.map_err(|error| format!("after kill {kill}: {error}"))?;
    }
    Seen { kills: kill, ..seen }.shows()
}

fn main() -> ExitCode {
    let arguments: Vec<String> = std::env::args().skip(1).collect();
    let numbers: Vec<Option<u64>> = arguments.iter().take(2).map(|argument| argument.parse().ok()).collect();
    let ([Some(kills), Some(seed)], Some((folder, command))) = (&numbers[..], arguments.get(2..).and_then(|rest| rest.split_first()))
    else {
        eprintln!("usage: kill KILLS SEED FOLDER COMMAND...");
        return ExitCode::from(2);
    };
    if command.is_empty() {
        eprintln!("kill: no command");
        return ExitCode::from(2);
    }
    let began = Instant::now();
    match run(*kills, *seed, Path::new(folder), command) {
        Ok(seen) => {
            let (kills, seconds) = (seen.kills, began.elapsed().as_secs_f64());
            println!("kill: {kills} kills in {seconds:.1} s, nothing lost, nothing half-written; {seen}");
            ExitCode::SUCCESS
        }
        Err(error) => {
            println!("kill: {error}");
            ExitCode::FAILURE
        }
    }
}
