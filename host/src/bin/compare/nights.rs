//! Order 2: nights, each held against the independent controller's, reply and every byte of image, table and room; against its
//! jobs, called one by one; and against what is promised of six jobs for each transaction.

use crate::desk::{shown, Compared, Desk, Difference, UNWRITTEN};
use makowist_host::controller::{Node, Number, Refusal, State, LOG_LIMIT};
use makowist_host::image;
use makowist_host::jobs::Rule;
use makowist_host::night::{Done, Night, Passed, Stopped, BUDGET_LIMIT, EVENT, OUTCOMES};
use makowist_host::northbound::{self, Answer, Request, Served};
use makowist_host::peer;

/// How the room for events fits the jobs that are done.
#[derive(Clone, Copy, PartialEq, Eq, Debug)]
pub enum Room {
    None,
    ByteTooShort,
    Exact,
    ByteTooLong,
    Larger,
}

impl Room {
    pub const ALL: [Room; 5] = [Room::None, Room::ByteTooShort, Room::Exact, Room::ByteTooLong, Room::Larger];

    fn length(self, jobs: usize) -> usize {
        match self {
            Room::None => 0,
            Room::ByteTooShort => (EVENT * jobs).saturating_sub(1),
            Room::Exact => EVENT * jobs,
            Room::ByteTooLong => EVENT * jobs + 1,
            Room::Larger => EVENT * jobs + 3 * EVENT + 5,
        }
    }
}

/// What a night shows.
#[derive(Clone, Copy, PartialEq, Eq, Debug)]
enum Kind {
    Stopped(Stopped),
    /// The budget is spent where nothing goes.
    SpentAndStopped(Stopped),
    NoBudget,
    Folded,
    LogFull,
    ValidationRejected,
    PushRejected,
    /// The push of a rollback, for whose change the table has a 1.
    RollbackPushedDespiteTable,
    /// A job without an event.
    CutFinished,
    /// A job that is refused by 9 is passed over.
    CounterPassedOver,
    /// The target has other values than Applied, the line open, as where a push was cut at its first store; then a push is made,
    /// or rejected.
    CutPushPushed,
    CutPushRejected,
    /// Six jobs for each, with the line open.
    Enough,
    /// Refused, for that alone.
    NotWellFormed,
    NodeOutOfRange,
    BudgetOutOfRange,
    TableOfOtherLength,
    OutcomeOutOfRange,
    NotMaster,
    /// A room for one job or more.
    Room(Room),
}

impl Kind {
    const ALL: [Kind; 27] = [
        Kind::Stopped(Stopped::NothingLeft),
        Kind::Stopped(Stopped::NoLine),
        Kind::Stopped(Stopped::BudgetSpent),
        Kind::SpentAndStopped(Stopped::NothingLeft),
        Kind::SpentAndStopped(Stopped::NoLine),
        Kind::NoBudget,
        Kind::Folded,
        Kind::LogFull,
        Kind::ValidationRejected,
        Kind::PushRejected,
        Kind::RollbackPushedDespiteTable,
        Kind::CutFinished,
        Kind::CounterPassedOver,
        Kind::CutPushPushed,
        Kind::CutPushRejected,
        Kind::Enough,
        Kind::NotWellFormed,
        Kind::NodeOutOfRange,
        Kind::BudgetOutOfRange,
        Kind::TableOfOtherLength,
        Kind::OutcomeOutOfRange,
        Kind::NotMaster,
        Kind::Room(Room::None),
        Kind::Room(Room::ByteTooShort),
        Kind::Room(Room::Exact),
        Kind::Room(Room::ByteTooLong),
        Kind::Room(Room::Larger),
    ];

    /// Whether it is to be seen in states that no session reaches, and in those that one does.
    fn is_expected(self) -> [bool; 2] {
        match self {
            Kind::NotWellFormed | Kind::CounterPassedOver => [true, false],
            Kind::Enough => [false, true],
            _ => [true, true],
        }
    }
}

/// Counts by kind, each by whether a session reaches the state: not, then so.
#[derive(Default)]
pub struct Seen {
    pub nights: u64,
    /// Jobs that were done in them, and then called one by one.
    jobs: u64,
    kinds: [[u64; 2]; Kind::ALL.len()],
}

impl Seen {
    fn saw(&mut self, kind: Kind, reached: bool) {
        let place = Kind::ALL.iter().position(|each| *each == kind).expect("every kind is listed");
        self.kinds[place][usize::from(reached)] += 1;
    }

    /// Prints every count, and answers how many are 0 that must not be.
    pub fn told(&self) -> usize {
        println!("{:>12}  nights compared, every byte of image, table and room", self.nights);
        println!("{:>12}  jobs of theirs called one by one, which left the same and gave the same events", self.jobs);
        println!("{:>12}  {:>12}  nights, in states that a session reaches, and in others", "reached", "others");
        let mut unseen = [self.nights, self.jobs].iter().filter(|count| **count == 0).count();
        for (kind, counts) in Kind::ALL.into_iter().zip(self.kinds) {
            let [others, reached] = counts;
            println!("{reached:>12}  {others:>12}  {kind:?}");
            unseen += counts.iter().zip(kind.is_expected()).filter(|(count, expected)| **count == 0 && *expected).count();
        }
        unseen
    }
}

/// State and image behind a night, and what it did.
pub type Behind = (State, Vec<u8>, Passed);

/// Compares a night from bytes, `state` being what they decode to, on copies. Answers what is behind it, where it was accepted.
pub fn night(
    desk: &mut Desk,
    state: Option<&State>,
    bytes: &[u8],
    night: &Night,
    room: Room,
) -> Compared<Option<Behind>> {
    let mut after = state.cloned();
    let passed = match (desk.fault, &mut after) {
        (Some(fault), after) => fault.night(after.as_mut(), night),
        (None, Some(after)) => after.night(night),
        (None, None) => Err(Refusal::NotWellFormed),
    };
    let mut expected = Expected {
        bytes: bytes.to_vec(),
        room: vec![UNWRITTEN; room.length(passed.as_ref().map_or(3, |passed| passed.jobs.len()))],
        reply: 0,
    };
    expected.left(desk, after.as_ref(), &passed);
    hold(desk, bytes, night, &expected)?;
    desk.counts.nights.nights += 1;
    let (Some(state), Some(after)) = (state, after) else {
        refused(desk, None, night);
        return Ok(None);
    };
    desk.counts.wide.worked_through(state, night, expected.reply & 0xff);
    let Ok(passed) = passed else {
        refused(desk, Some(state), night);
        return Ok(None);
    };
    one_by_one(desk, bytes, night, &passed, &expected.bytes)?;
    promised(desk, state, &after, night, &passed)?;
    accepted(desk, state, night, &passed, room);
    Ok(Some((after, expected.bytes, passed)))
}

/// What the independent controller answers and leaves.
struct Expected {
    bytes: Vec<u8>,
    room: Vec<u8>,
    reply: u64,
}

impl Expected {
    /// Lays down what a night has left, or the refusal of one.
    fn left(&mut self, desk: &Desk, after: Option<&State>, passed: &Result<Passed, Refusal>) {
        self.reply = match (passed, after, desk.fault) {
            (Ok(passed), Some(after), None) => northbound::store_night(after, passed, &mut self.bytes, &mut self.room),
            (Ok(passed), Some(after), Some(fault)) => fault.store_night(after, passed, &mut self.bytes, &mut self.room),
            (Err(refusal), _, fault) => {
                fault.into_iter().for_each(|fault| fault.refuse_night(&mut self.room));
                refusal.number().into()
            }
            (Ok(_), None, _) => unreachable!("what is no image is refused"),
        };
    }
}

/// Sends the night to the proved controller and holds its reply, the image, the table and the room against what is expected.
fn hold(desk: &mut Desk, bytes: &[u8], night: &Night, expected: &Expected) -> Compared<()> {
    let lent = desk.lent_copy.bytes(bytes.len(), desk.edge);
    lent.copy_from_slice(bytes);
    let outcomes = desk.lent_pairs.bytes(night.outcomes.len(), desk.edge);
    outcomes.copy_from_slice(&night.outcomes);
    let room = desk.lent_room.bytes(expected.room.len(), desk.edge);
    room.fill(UNWRITTEN);
    let reply = peer::night(lent, night.node, night.budget, outcomes, room);
    let what = if reply != expected.reply {
        "is answered otherwise"
    } else if lent != expected.bytes {
        "leaves another image"
    } else if room != expected.room {
        "shows other events"
    } else if outcomes != night.outcomes {
        "writes the table"
    } else {
        return Ok(());
    };
    Err(Difference::of_call(format!(
        "{night:?} {what}\n  independent {:#x} {:?}\n  proved {reply:#x} {room:?}\n{}",
        expected.reply,
        expected.room,
        shown(bytes)
    )))
}

/// Calls the jobs of a night one by one, on a copy: they leave what the night left, and give its events.
fn one_by_one(desk: &mut Desk, bytes: &[u8], night: &Night, passed: &Passed, left: &[u8]) -> Compared<()> {
    let lent = desk.lent_copy.bytes(bytes.len(), desk.edge);
    lent.copy_from_slice(bytes);
    for Done { job, number, outcome, event, .. } in passed.jobs.iter().copied() {
        let request = Request::Work { node: night.node, job, number: number.0.into(), outcome, cut: 0 };
        let expected = Served { reply: Ok(event.map_or(Answer::Nothing, Answer::Told)), rule: None }.packed();
        let reply = peer::serve(lent, &request, &[]);
        if reply != expected {
            return Err(Difference::of_call(format!("{request:?} of {night:?}: {reply:#x}, by night {expected:#x}")));
        }
    }
    if lent != left {
        return Err(Difference::of_call(format!("{night:?} leaves another image than its jobs do, one by one")));
    }
    desk.counts.nights.jobs += passed.jobs.len() as u64;
    Ok(())
}

/// Holds a night to what is promised: it stops for the reason that the proved controller's jobs show, tried on what it left; and
/// from a reached state with the line open, six jobs for each kept one leave nothing but covered rollbacks.
fn promised(desk: &mut Desk, state: &State, after: &State, night: &Night, passed: &Passed) -> Compared<()> {
    let answers = answered(desk, after, night);
    let stopped = match (answers.contains(&0), answers.contains(&Refusal::LineNotOpen.number())) {
        (true, _) => Stopped::BudgetSpent,
        (false, true) => Stopped::NoLine,
        (false, false) => Stopped::NothingLeft,
    };
    if passed.stopped != stopped {
        return Err(Difference::of_call(format!("{night:?} stopped for {:?}, its jobs show {stopped:?}", passed.stopped)));
    }
    if stopped != Stopped::BudgetSpent && answers.contains(&Refusal::CounterAtLimit.number()) {
        desk.counts.nights.saw(Kind::CounterPassedOver, desk.reached);
    }
    let is_open = Node::new(night.node).is_some_and(|node| state.line_open(node));
    if desk.reached && is_open && night.budget >= 6 * state.log.len() as u64 {
        if stopped != Stopped::NothingLeft || !after.is_done_but_for_covered_rollbacks(night.node) {
            return Err(Difference::of_call(format!("{night:?}: six jobs for each are not enough ({stopped:?})")));
        }
        desk.counts.nights.saw(Kind::Enough, true);
    }
    Ok(())
}

/// What the jobs answer on the image that a night's jobs, one by one, have just left, up to the first that is accepted.
fn answered(desk: &mut Desk, after: &State, night: &Night) -> Vec<u8> {
    let lent = desk.lent_copy.bytes(image::LENGTH, desk.edge);
    let mut answers = Vec::new();
    for (place, (number, _)) in after.kept().enumerate() {
        for job in 1..=4 {
            let outcome = night.outcome(place, job);
            let request = Request::Work { node: night.node, job, number: number.0.into(), outcome, cut: 0 };
            answers.push((peer::serve(lent, &request, &[]) & 0xff) as u8);
            if answers.last() == Some(&0) {
                return answers;
            }
        }
    }
    answers
}

/// Counts what an accepted night shows.
fn accepted(desk: &mut Desk, state: &State, night: &Night, passed: &Passed, room: Room) {
    let did = |rule: Rule| passed.jobs.iter().any(|done| done.rule == Some(rule));
    let despite_table = |done: &Done| {
        let place = usize::from(done.number.0 - state.folded.0) - 1;
        done.rule == Some(Rule::ApplyRollbackPush) && night.outcomes[2 * place + 1] == 1
    };
    let spent = passed.jobs.len() as u64 == night.budget && passed.stopped != Stopped::BudgetSpent;
    let is_open = Node::new(night.node).is_some_and(|node| state.line_open(node));
    let differs = is_open && state.target.values != state.applied.values;
    let pushed = did(Rule::ApplyChangePush) || did(Rule::ApplyRollbackPush);
    let kinds = [
        (Kind::Stopped(passed.stopped), true),
        (Kind::SpentAndStopped(passed.stopped), spent),
        (Kind::NoBudget, night.budget == 0),
        (Kind::Folded, state.folded > Number::NONE && !passed.jobs.is_empty()),
        (Kind::LogFull, state.log.len() == LOG_LIMIT),
        (Kind::ValidationRejected, did(Rule::CommitChangeReject)),
        (Kind::PushRejected, did(Rule::ApplyChangeReject)),
        (Kind::RollbackPushedDespiteTable, passed.jobs.iter().any(despite_table)),
        (Kind::CutFinished, passed.jobs.iter().any(|done| done.event.is_none())),
        (Kind::CutPushPushed, differs && pushed),
        (Kind::CutPushRejected, differs && did(Rule::ApplyChangeReject)),
        (Kind::Room(room), !passed.jobs.is_empty()),
    ];
    kinds.into_iter().filter(|(_, seen)| *seen).for_each(|(kind, _)| desk.counts.nights.saw(kind, desk.reached));
}

/// Counts a refused night, where it is refused for one thing alone.
fn refused(desk: &mut Desk, state: Option<&State>, night: &Night) {
    let node = Node::new(night.node);
    let mut kinds = [
        (Kind::NotWellFormed, state.is_none()),
        (Kind::NodeOutOfRange, node.is_none()),
        (Kind::BudgetOutOfRange, night.budget > BUDGET_LIMIT),
        (Kind::TableOfOtherLength, night.outcomes.len() != OUTCOMES),
        (Kind::OutcomeOutOfRange, night.outcomes.iter().any(|outcome| *outcome > 1)),
        (Kind::NotMaster, node.is_some() && state.is_some_and(|state| state.mastership.master != node)),
    ]
    .into_iter()
    .filter(|(_, holds)| *holds);
    if let (Some((kind, _)), None) = (kinds.next(), kinds.next()) {
        desk.counts.nights.saw(kind, desk.reached);
    }
}
