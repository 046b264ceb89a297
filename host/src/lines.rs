//! The stepper's lines over the independent controller: one call a line in, one answer a line out, the heads at the end.

use crate::controller::{Number, Refusal, State};
use crate::import::{self, Entry, Refused};
use crate::night::{Night, Passed, OUTCOMES};
use crate::northbound::{act, bytes_of, pairs_of, Answer, Request, Served};
use crate::why::{Question, Why};

/// What a line asks for.
#[derive(Clone, PartialEq, Eq, Debug)]
pub enum Line {
    Call(Request),
    Why(Question),
    /// Who set that path.
    Owner(u64),
    Night(Night),
    /// Whether the target remembers. This and an import stand in place of the fresh start: as the first line alone.
    Fresh(u64),
    Import(Vec<Entry>),
}

/// What a line asks for, where it is readable.
pub fn read(line: &[u8]) -> Option<Line> {
    let line = std::str::from_utf8(line).ok()?;
    let (call, operands) = match line.split_once(' ') {
        Some((call, operands)) => (call, Some(operands)),
        None => (line, None),
    };
    let call = call.strip_prefix("call=")?;
    match call {
        "why" => {
            let [node, job, number] = numbers(operands?, ["node", "job", "number"])?;
            Some(Line::Why(Question { node, job, number }))
        }
        "owner" => numbers(operands?, ["path"]).map(|[path]| Line::Owner(path)),
        "night" => read_night(operands?).map(Line::Night),
        "fresh" => numbers(operands?, ["remembers"]).map(|[remembers]| Line::Fresh(remembers)),
        "import" => read_entries(operands?.strip_prefix("entries=")?).map(Line::Import),
        _ => read_call(call, operands).map(Line::Call),
    }
}

/// A night whose table is digits; those that are not there are 0, and those too many stay, to be refused.
fn read_night(operands: &str) -> Option<Night> {
    let (operands, digits) = operands.split_once(" outcomes=")?;
    let [node, budget] = numbers(operands, ["node", "budget"])?;
    let digit = |digit: u8| digit.is_ascii_digit().then(|| digit - b'0');
    let mut outcomes = digits.bytes().map(digit).collect::<Option<Vec<u8>>>()?;
    outcomes.resize(outcomes.len().max(OUTCOMES), 0);
    Some(Night { node, budget, outcomes })
}

/// Entries with a stroke between them: a change is its pairs, a rollback the place that it names.
fn read_entries(text: &str) -> Option<Vec<Entry>> {
    let entry = |text: &str| match read_number(text) {
        Some(named) => Some(Entry::Rollback { named }),
        None => read_pairs(text).map(|pairs| Entry::change(&pairs)),
    };
    if text.is_empty() { Some(Vec::new()) } else { text.split('/').map(entry).collect() }
}

fn read_call(call: &str, operands: Option<&str>) -> Option<Request> {
    match (call, operands) {
        ("start", None) => Some(Request::Start),
        ("stop", None) => Some(Request::Stop),
        ("append", Some(operands)) => Some(Request::Append(bytes_of(&read_pairs(operands.strip_prefix("pairs=")?)?))),
        ("rollback", Some(operands)) => numbers(operands, ["number"]).map(|[number]| Request::Rollback(number)),
        ("fold", Some(operands)) => numbers(operands, ["number"]).map(|[number]| Request::Fold(number)),
        ("connect", Some(operands)) => numbers(operands, ["node"]).map(|[node]| Request::Connect(node)),
        ("disconnect", Some(operands)) => numbers(operands, ["node"]).map(|[node]| Request::Disconnect(node)),
        ("master", Some(operands)) => numbers(operands, ["node"]).map(|[node]| Request::Master(node)),
        ("sync", Some(operands)) => numbers(operands, ["node"]).map(|[node]| Request::Sync(node)),
        ("work", Some(operands)) => numbers(operands, ["node", "job", "number", "outcome", "cut"])
            .map(|[node, job, number, outcome, cut]| Request::Work { node, job, number, outcome, cut }),
        _ => None,
    }
}

/// The numbers of exactly these keys, in this order, one blank between them.
fn numbers<const N: usize>(operands: &str, keys: [&str; N]) -> Option<[u64; N]> {
    let mut found = [0; N];
    let mut fields = operands.split(' ');
    for (number, key) in found.iter_mut().zip(keys) {
        *number = read_number(fields.next()?.strip_prefix(key)?.strip_prefix('=')?)?.into();
    }
    fields.next().is_none().then_some(found)
}

fn read_pairs(text: &str) -> Option<Vec<(u16, u16)>> {
    if text.is_empty() {
        return Some(Vec::new());
    }
    let pair = |text: &str| {
        let (path, value) = text.split_once(':')?;
        Some((read_number(path)?, read_number(value)?))
    };
    text.split(',').map(pair).collect()
}

/// A decimal of digits alone, leading zeros taken, to 65,535.
fn read_number(text: &str) -> Option<u16> {
    if text.is_empty() {
        return None;
    }
    text.bytes().try_fold(0u16, |number, digit| {
        let digit = digit.is_ascii_digit().then(|| u16::from(digit - b'0'))?;
        number.checked_mul(10)?.checked_add(digit)
    })
}

/// The line that asks for a call, wherever it stands. None asks so for a fresh image, for pairs that are not whole, or with a number
/// past 65,535.
pub fn asking(request: &Request) -> Option<String> {
    if request.clone().numbers().iter().any(|(_, number)| **number > u16::MAX.into()) {
        return None;
    }
    Some(match *request {
        Request::Fresh(_) => return None,
        Request::Append(ref bytes) => {
            format!("call=append pairs={}\n", joined(&pairs_of(bytes)?))
        }
        Request::Rollback(number) => format!("call=rollback number={number}\n"),
        Request::Fold(number) => format!("call=fold number={number}\n"),
        Request::Start => "call=start\n".to_string(),
        Request::Stop => "call=stop\n".to_string(),
        Request::Connect(node) => format!("call=connect node={node}\n"),
        Request::Disconnect(node) => format!("call=disconnect node={node}\n"),
        Request::Master(node) => format!("call=master node={node}\n"),
        Request::Sync(node) => format!("call=sync node={node}\n"),
        Request::Work { node, job, number, outcome, cut } => {
            format!("call=work node={node} job={job} number={number} outcome={outcome} cut={cut}\n")
        }
    })
}

fn joined(pairs: &[(u16, u16)]) -> String {
    pairs.iter().map(|(path, value)| format!("{path}:{value}")).collect::<Vec<_>>().join(",")
}

/// The line that a reply is printed as.
pub fn written(served: &Served) -> String {
    let (answer, phase, stage, number, status) = match served.reply {
        Err(refusal) => (refusal.number(), 0, 0, 0, 0),
        Ok(Answer::Nothing) => (0, 0, 0, 0, 0),
        Ok(Answer::Appended(Number(number)) | Answer::Wrote(number)) => (0, 0, 0, number, 0),
        Ok(Answer::Told(event)) => (0, event.phase as u8, event.stage as u8, event.number.0, event.status.code()),
    };
    format!("answer={answer} phase={phase} stage={stage} number={number} status={status}\n")
}

/// The line that a question asks. None asks one with a number past 65,535.
pub fn questioning(Question { node, job, number }: Question) -> Option<String> {
    let written = [node, job, number].iter().all(|number| *number <= u16::MAX.into());
    written.then(|| format!("call=why node={node} job={job} number={number}\n"))
}

/// The line that a reason, or the refusal of one, is printed as.
pub fn explained(why: Result<Why, Refusal>) -> String {
    let (answer, reason, named) = match why {
        Ok(why) => (0, why.reason.number(), why.named()),
        Err(refusal) => (refusal.number(), 0, 0),
    };
    format!("answer={answer} reason={reason} named={named}\n")
}

/// The line that who set a path, or the refusal of it, is printed as.
pub fn owned(owner: Result<Number, Refusal>) -> String {
    let (answer, owner) = match owner {
        Ok(owner) => (0, owner.0),
        Err(refusal) => (refusal.number(), 0),
    };
    format!("answer={answer} owner={owner}\n")
}

/// The line that asks for a night. None asks with a number past 65,535, or with a table that is too short or holds what is no
/// digit.
pub fn nightly(night: &Night) -> Option<String> {
    let Night { node, budget, outcomes } = night;
    let written = [node, budget].iter().all(|number| **number <= u16::MAX.into()) && outcomes.len() >= OUTCOMES;
    let digits = outcomes.iter().map(|outcome| char::from_digit((*outcome).into(), 10)).collect::<Option<String>>()?;
    written.then(|| format!("call=night node={node} budget={budget} outcomes={digits}\n"))
}

/// The line that a night, or the refusal of one, is printed as.
pub fn passed(passed: Result<Passed, Refusal>) -> String {
    let (answer, jobs, stopped) = match passed {
        Ok(passed) => (0, passed.jobs.len(), passed.stopped.number()),
        Err(refusal) => (refusal.number(), 0, 0),
    };
    format!("answer={answer} jobs={jobs} stopped={stopped}\n")
}

/// The line that asks for an import. None asks for an entry of neither kind, for pairs that are not all there, or for one change
/// of no pairs alone, which is written as no entry is.
pub fn importing(entries: &[Entry]) -> Option<String> {
    let written = |entry: &Entry| match entry {
        Entry::Change { count, .. } if usize::from(*count) == entry.pairs().len() => Some(joined(entry.pairs())),
        Entry::Rollback { named } => Some(named.to_string()),
        _ => None,
    };
    let texts = entries.iter().map(written).collect::<Option<Vec<String>>>()?;
    (texts != [""]).then(|| format!("call=import entries={}\n", texts.join("/")))
}

/// The line that an import, or the refusal of one, is printed as.
pub fn imported(imported: Result<(), Refused>) -> String {
    let (answer, position) = imported.err().map_or((0, 0), |refused| (refused.refusal.number(), refused.position));
    format!("answer={answer} position={position}\n")
}

/// The closing line: both heads' revision and ordinal.
pub fn closing(state: &State) -> String {
    format!(
        "committed={} committed_ordinal={} applied={} applied_ordinal={}\n",
        state.committed.revision.0, state.committed.ordinal.0, state.applied.revision.0, state.applied.ordinal.0
    )
}

/// Everything that the stepper writes for this input.
pub fn stepped(input: &[u8]) -> String {
    let mut state = State::fresh();
    let mut output = String::new();
    let whole = input.strip_suffix(b"\n").unwrap_or(input);
    let lines = (!input.is_empty()).then(|| whole.split(|byte| *byte == b'\n'));
    for (place, line) in lines.into_iter().flatten().enumerate() {
        output.push_str(&match read(line) {
            Some(Line::Call(request)) => written(&act(&mut state, &request)),
            Some(Line::Why(question)) => explained(state.why(question)),
            Some(Line::Owner(path)) => owned(state.owner(path)),
            Some(Line::Night(night)) => passed(state.night(&night)),
            Some(Line::Fresh(remembers)) if place == 0 => written(&act(&mut state, &Request::Fresh(remembers))),
            Some(Line::Import(entries)) if place == 0 => {
                imported(State::imported(&import::listed(&entries)).map(|imported| state = imported))
            }
            Some(Line::Fresh(_) | Line::Import(_)) | None => written(&Served { reply: Err(Refusal::OutOfRange), rule: None }),
        });
    }
    output + &closing(&state)
}
