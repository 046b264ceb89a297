//! Holds the programs `sheet` and `record` (order 11) to what the independent controller writes for the same bytes.
//!
//! `HOST_SHEET` and `HOST_RECORD` are the commands that run them, their words with blanks between. Arguments, each
//! `name=value`:
//!
//! - `sheets`, `records`: how many inputs of each; a sheet's has up to 66 logs, a record's is one image or what is none
//! - `seed`: another one draws others
//! - `fault=all`: no program is run; each wrong text is held to the right one, and must differ for one of these inputs
//!
//! Ends with 0 where every byte is the same, each run ended well and said nothing else, and no count is 0.

mod inputs;

use makowist_host::controller::{Number, Progress, Status, LOG_LIMIT, PATHS};
use makowist_host::fault::print::Misprint;
use makowist_host::image::{self, LENGTH};
use makowist_host::random::Random;
use makowist_host::record::record;
use makowist_host::sheet::{sheet, LOGS};
use std::io::{ErrorKind, Write};
use std::process::{Command, ExitCode, Stdio};
use std::thread;

struct Arguments {
    sheets: usize,
    records: usize,
    seed: u64,
    faults: bool,
}

fn arguments() -> Result<Arguments, String> {
    let mut arguments = Arguments { sheets: 300, records: 300, seed: 1, faults: false };
    for argument in std::env::args().skip(1) {
        let (name, value) = argument.split_once('=').ok_or(format!("{argument}: expected name=value"))?;
        let number = || value.parse::<u64>().map_err(|error| format!("{argument}: {error}"));
        match name {
            "sheets" => arguments.sheets = number()? as usize,
            "records" => arguments.records = number()? as usize,
            "seed" => arguments.seed = number()?,
            "fault" if value == "all" => arguments.faults = true,
            _ => return Err(format!("{argument}: no such argument")),
        }
    }
    Ok(arguments)
}

/// The words of the command in a variable.
fn command(variable: &str) -> Result<Vec<String>, String> {
    let words = std::env::var(variable).unwrap_or_default();
    let words: Vec<String> = words.split_whitespace().map(str::to_string).collect();
    if words.is_empty() {
        Err(format!("{variable}: the command that runs the program"))
    } else {
        Ok(words)
    }
}

/// What a program writes for an input that comes in pieces, where it ends well and says nothing else. It may leave
/// input unread.
fn run(words: &[String], input: &[u8], random: &mut Random) -> Result<Vec<u8>, String> {
    let mut command = Command::new(&words[0]);
    command.args(&words[1..]).stdin(Stdio::piped()).stdout(Stdio::piped()).stderr(Stdio::piped());
    let mut child = command.spawn().map_err(|error| format!("{}: {error}", words[0]))?;
    let mut stdin = child.stdin.take().ok_or("no standard input")?;
    let (input, size) = (input.to_vec(), random.one_of(&[1_000, 4_096, 5_783, 65_536, 1 << 20]));
    let hand = thread::spawn(move || input.chunks(size).try_for_each(|piece| stdin.write_all(piece)));
    let output = child.wait_with_output().map_err(|error| error.to_string())?;
    match hand.join().map_err(|_| "the input could not be handed over")? {
        Err(error) if error.kind() != ErrorKind::BrokenPipe => return Err(error.to_string()),
        _ => {}
    }
    if !output.status.success() || !output.stderr.is_empty() {
        return Err(format!("{}, and said: {}", output.status, String::from_utf8_lossy(&output.stderr)));
    }
    Ok(output.stdout)
}

/// Holds what a program wrote to the text.
fn held(name: &str, input: &[u8], wanted: &str, got: Result<Vec<u8>, String>) -> Result<(), String> {
    let of = format!("{name} of {} bytes", input.len());
    let got = got.map_err(|error| format!("{of}: {error}"))?;
    if got == wanted.as_bytes() {
        return Ok(());
    }
    let got = String::from_utf8_lossy(&got);
    let same = wanted.lines().zip(got.lines()).take_while(|(wanted, got)| wanted == got).count();
    let (wanted, got) = (wanted.lines().nth(same), got.lines().nth(same));
    Err(format!("{of}: line {}\n  independent {wanted:?}\n  program {got:?}", same + 1))
}

/// What the inputs show, each of which must not be 0.
#[derive(Default)]
struct Seen(Vec<(&'static str, u64)>);

impl Seen {
    fn saw(&mut self, what: &'static str, is_so: bool) {
        match self.0.iter_mut().find(|(each, _)| *each == what) {
            Some((_, count)) => *count += u64::from(is_so),
            None => self.0.push((what, is_so.into())),
        }
    }

    fn sheet(&mut self, input: &[u8], text: &str) {
        let (short, logs) = (input.len() % LENGTH, input.len().div_ceil(LENGTH));
        let (rows, bad) = (text.matches(" mask=").count(), text.matches(" answer=1").count());
        let totals = text.lines().last().unwrap_or_default().split(['=', ' ']);
        let greatest = totals.filter_map(|word| word.parse::<u64>().ok()).max();
        self.saw("sheets of no log", logs == 0);
        self.saw("sheets of 64 logs", logs == LOGS);
        self.saw("sheets of 65 logs", logs == LOGS + 1);
        self.saw("sheets of more", logs > LOGS + 1);
        self.saw("sheets whose last log is cut short", short > 0 && logs <= LOGS);
        self.saw("sheets whose 65th log is cut short", short > 0 && logs == LOGS + 1);
        self.saw("sheets with bad logs among others", rows > 0 && bad > 0);
        self.saw("sheets with a total of two bytes", greatest.is_some_and(|total| total > 255));
        self.saw("sheets with a mask of all its bits", text.contains(" mask=4294967295 drift=32"));
    }

    fn record(&mut self, input: &[u8]) {
        let Some(state) = image::decode(input) else {
            self.saw("records of bytes of another length", input.len() != LENGTH);
            self.saw("records of damaged images", input.len() == LENGTH);
            return;
        };
        let (applied, has_base) = (state.applied.ordinal, state.base != [0; PATHS]);
        let cut = |side: &Progress| side.apply == Status::InProgress && side.has_landed(applied);
        let holds = state.held().next().is_some();
        self.saw("records of logs that keep none", state.log.is_empty());
        self.saw("records of logs that keep 128", state.log.len() == LOG_LIMIT);
        self.saw("records of logs whose front is folded", state.folded > Number::NONE);
        self.saw("records with a base", has_base);
        self.saw("records without", !has_base);
        self.saw("records that hold some", holds);
        self.saw("records that hold none", !holds);
        self.saw("records of a push that was cut", state.log.iter().any(|it| cut(&it.c)));
        self.saw("records of a rollback's that was cut", state.log.iter().any(|it| cut(&it.r)));
    }

    fn told(&self) -> bool {
        self.0.iter().for_each(|(what, count)| println!("{count:>12}  {what}"));
        !self.0.is_empty() && self.0.iter().all(|(_, count)| *count > 0)
    }
}

/// Runs both programs on all of their inputs.
fn compare(arguments: &Arguments) -> Result<bool, String> {
    let (sheets, records) = (command("HOST_SHEET")?, command("HOST_RECORD")?);
    let mut random = Random::new(arguments.seed);
    let mut seen = Seen::default();
    let (mut logs, mut bytes) = (0, 0);
    for input in inputs::sheets(arguments.sheets, &mut random) {
        let text = sheet(&input);
        held("a sheet", &input, &text, run(&sheets, &input, &mut random))?;
        seen.sheet(&input, &text);
        (logs, bytes) = (logs + text.lines().count() - 1, bytes + text.len());
    }
    println!("programs: {} sheets of {logs} logs, {bytes} bytes, as the independent controller", arguments.sheets);
    for input in inputs::records(arguments.records, &mut random) {
        held("a record", &input, &record(&input), run(&records, &input, &mut random))?;
        seen.record(&input);
    }
    println!("programs: {} records, as the independent controller", arguments.records);
    Ok(seen.told())
}

/// Whether each wrong text differs from the right one for some input.
fn find_faults(arguments: &Arguments) -> bool {
    let mut random = Random::new(arguments.seed);
    let with = |text: fn(&[u8]) -> String, inputs: Vec<Vec<u8>>| -> Vec<(String, Vec<u8>)> {
        inputs.into_iter().map(|input| (text(&input), input)).collect()
    };
    let sheets = with(sheet, inputs::sheets(arguments.sheets, &mut random));
    let records = with(record, inputs::records(arguments.records, &mut random));
    let mut missed = 0;
    let faults = Misprint::all();
    for fault in &faults {
        let found = sheets.iter().any(|(text, input)| *text != fault.sheet(input))
            || records.iter().any(|(text, input)| *text != fault.record(input));
        if !found {
            println!("programs: {fault:?} was NOT found");
            missed += 1;
        }
    }
    println!("programs: {} wrong texts; {} found, {missed} missed", faults.len(), faults.len() - missed);
    missed == 0
}

fn main() -> ExitCode {
    let passed = arguments()
        .and_then(|arguments| if arguments.faults { Ok(find_faults(&arguments)) } else { compare(&arguments) });
    match passed {
        Ok(true) => ExitCode::SUCCESS,
        Ok(false) => ExitCode::FAILURE,
        Err(error) => {
            eprintln!("programs: {error}");
            ExitCode::FAILURE
        }
    }
}
