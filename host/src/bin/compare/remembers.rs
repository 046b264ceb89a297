//! Order 13: what stops keep and synchronises write, by kind of target; and states, images and sessions that are chosen such that
//! every path's write, the count and the flag show.

use crate::desk::{Compared, Desk};
use crate::outside::{empty, lent, net_requests, with_net, Net, OPEN, STOPPED, SYNCHRONISING};
use makowist_host::controller::{ConfigurationState, Refusal, State, Target, Values, PATHS};
use makowist_host::guarded::Edge;
use makowist_host::image::{self, at, LENGTH};
use makowist_host::northbound::{bytes_of, Answer, Request, Served};
use makowist_host::reads::Query;
use makowist_host::switch::Switch;

macro_rules! kinds {
    ($($kind:ident $says:literal,)*) => {
        /// What calls do to a target.
        #[derive(Clone, Copy, PartialEq, Eq, Debug)]
        enum Kind { $($kind),* }

        const KINDS: &[(Kind, &str)] = &[$((Kind::$kind, $says)),*];
    };
}

kinds! {
    Fresh "made fresh",
    Stopped "a stop while the target has values",
    Begun "a synchronise that only becomes InProgress while paths differ",
    WroteNone "a synchronise that wrote no path, no value being applied",
    HadAll "a synchronise that wrote no path, values being applied",
    WroteOne "a synchronise that wrote one path",
    WroteSome "a synchronise that wrote some paths",
    WroteAll "a synchronise that wrote all 32",
    Deleted "a synchronise that wrote an absent value over another",
}

/// Counts by kind, each by whether the target remembers, and by whether a session reaches the state: not, then so.
#[derive(Default)]
pub struct Seen {
    kinds: [[[u64; 2]; 2]; KINDS.len()],
    /// Fresh images refused for the flag alone, for the length alone, and for the length where the flag is wrong too.
    refused: [u64; 3],
    /// Images with a flag above 1 and nothing else wrong: 2, and others.
    flags: [u64; 2],
    /// Sessions, and states of the walk, by whether the target remembers.
    pub sessions: [u64; 2],
    pub walked: [u64; 2],
}

impl Seen {
    /// Counts what a call has done, with the target before it and the state that it left.
    pub fn called(&mut self, before: &Target, state: &State, request: &Request, served: &Served, reached: bool) {
        let Ok(answer) = served.reply else {
            return;
        };
        let mut saw = |kind: Kind| self.kinds[kind as usize][usize::from(state.target.remembers)][usize::from(reached)] += 1;
        match (request, answer) {
            (Request::Fresh(_), _) => saw(Kind::Fresh),
            (Request::Stop, _) if before.values != [0; PATHS] => saw(Kind::Stopped),
            (Request::Sync(_), _) if state.configuration.state == ConfigurationState::InProgress => {
                if before.values != state.applied.values {
                    saw(Kind::Begun);
                }
            }
            (Request::Sync(_), Answer::Wrote(written)) => {
                saw(match written {
                    0 if state.applied.values == [0; PATHS] => Kind::WroteNone,
                    0 => Kind::HadAll,
                    1 => Kind::WroteOne,
                    32 => Kind::WroteAll,
                    _ => Kind::WroteSome,
                });
                if before.values.iter().zip(state.applied.values).any(|(value, applied)| *value != 0 && applied == 0) {
                    saw(Kind::Deleted);
                }
            }
            _ => {}
        }
    }

    /// Counts a fresh image that is refused.
    pub fn held(&mut self, request: &Request, served: &Served, length: usize) {
        let Request::Fresh(remembers) = *request else {
            return;
        };
        match (served.reply, remembers > 1, length == LENGTH) {
            (Err(Refusal::OutOfRange), true, true) => self.refused[0] += 1,
            (Err(Refusal::NotWellFormed), false, false) => self.refused[1] += 1,
            (Err(Refusal::NotWellFormed), true, false) => self.refused[2] += 1,
            _ => {}
        }
    }

    /// Counts an image by its target's flag, where nothing else is wrong with it.
    pub fn damaged(&mut self, bytes: &[u8]) {
        let flag = bytes.get(at::REMEMBERS).copied().unwrap_or_default();
        let mut mended = bytes.to_vec();
        if flag > 1 {
            mended[at::REMEMBERS] = 0;
            self.flags[usize::from(flag > 2)] += u64::from(image::decode(&mended).is_some());
        }
    }

    /// Prints every count, and answers how many are 0 that must not be.
    pub fn told(&self) -> usize {
        println!("{:>12}{:>12}{:>12}{:>12}  targets, where a session leads, and elsewhere", "forgets", "", "remembers", "");
        let mut unseen = 0;
        for ((kind, says), [[others, reached], [remembering_others, remembering]]) in KINDS.iter().zip(self.kinds) {
            println!("{reached:>12}{others:>12}{remembering:>12}{remembering_others:>12}  {says}");
            // in a session a target that remembers differs by one cut push at most, and with it by four paths
            let may_be_none = *kind == Kind::WroteAll;
            unseen += [others, reached, remembering_others].iter().filter(|count| **count == 0).count();
            unseen += usize::from(remembering == 0 && !may_be_none);
        }
        println!("{:>12}  fresh refused by 2 for the flag, by 1 for the length, by 1 where both are wrong: {:?}", "", self.refused);
        println!("{:>12}  images refused for a flag of 2, and of more, and for nothing else: {:?}", "", self.flags);
        println!("{:>12}  sessions with a target that forgets, and that remembers: {:?}", "", self.sessions);
        println!("{:>12}  states of the walk with a target that forgets, and that remembers: {:?}", "", self.walked);
        let rest = self.refused.iter().chain(&self.flags).chain(&self.sessions).chain(&self.walked);
        unseen + rest.filter(|count| **count == 0).count()
    }
}

pub fn run(desk: &mut Desk) -> Compared<()> {
    for remembers in [false, true] {
        desk.reached = false;
        for (applied, values) in tables() {
            states(desk, remembers, applied, values)?;
        }
        images(desk, remembers)?;
        desk.reached = true;
        for edge in [Edge::End, Edge::Begin] {
            desk.edge = edge;
            session(desk, remembers)?;
        }
    }
    desk.reached = false;
    desk.edge = Edge::End;
    lengths(desk)
}

/// Applied values, and the target's: the same, absent or not; one path different, each in turn and in each way; some; all.
fn tables() -> Vec<(Values, Values)> {
    let applied: Values = std::array::from_fn(|path| 200 + path as u16);
    let mut all = vec![(applied, applied), ([0; PATHS], [0; PATHS]), ([0; PATHS], applied), (applied, [0; PATHS])];
    all.push((applied, applied.map(|value| value + 1)));
    for path in 0..PATHS {
        for differs in [[200, 201], [200, 200 + 256], [200, 0], [0, 200]] {
            let (mut applied, mut values) = (applied, applied);
            [applied[path], values[path]] = differs;
            all.push((applied, values));
        }
    }
    let (mut some_applied, mut some) = (applied, applied);
    (some[0], some[7], some[31]) = (1, 0, 65535);
    (some_applied[7], some_applied[8]) = (0, 0);
    all.extend([(some_applied, some), (some, some_applied)]);
    all
}

/// The calls that a target's values or flag take part in, from states with these values.
fn states(desk: &mut Desk, remembers: bool, applied: Values, values: Values) -> Compared<()> {
    let begins = Net { state: ConfigurationState::Pending, ..SYNCHRONISING };
    for net in [SYNCHRONISING, begins, OPEN, STOPPED] {
        let mut state = with_net(&empty(), Net { remembers, ..net });
        (state.applied.values, state.target.values) = (applied, values);
        let bytes = lent(desk, &state);
        let calls = [Request::Start, Request::Stop, Request::Sync(1)];
        for request in calls.into_iter().chain([0, 1, 2].map(Request::Fresh)) {
            desk.call_from(&state, &bytes, &request)?;
        }
    }
    Ok(())
}

/// Images with every flag that a byte holds: all but two are none.
fn images(desk: &mut Desk, remembers: bool) -> Compared<()> {
    for net in [SYNCHRONISING, OPEN, STOPPED] {
        let state = with_net(&empty(), Net { remembers, ..net });
        for flag in 0..=u8::MAX {
            let mut bytes = lent(desk, &state);
            bytes[at::REMEMBERS] = flag;
            desk.counts.remembers.damaged(&bytes);
            let decoded = desk.decoded(&bytes);
            desk.lend(&bytes);
            let calls = [Request::Append(bytes_of(&[(3, 7)])), Request::Fresh(0), Request::Fresh(1), Request::Fresh(2)];
            for request in net_requests().iter().chain(&calls) {
                desk.call_from_bytes(decoded.as_ref(), &bytes, request)?;
            }
            desk.read(decoded.as_ref(), &bytes, 0)?;
            desk.query(decoded.as_ref(), &bytes, Query::Value { table: 3, path: 31 })?;
        }
    }
    Ok(())
}

/// Bytes of another length, that of the image before this order among them: what a flag is, is not asked.
fn lengths(desk: &mut Desk) -> Compared<()> {
    for length in [0, 1, at::REMEMBERS, LENGTH - 1, LENGTH + 1] {
        let bytes = vec![0; length];
        desk.lend(&bytes);
        for remembers in [0, 1, 2, 256, u64::MAX] {
            desk.call_from_bytes(None, &bytes, &Request::Fresh(remembers))?;
        }
    }
    Ok(())
}

/// A session with node 1.
struct Session<'a> {
    desk: &'a mut Desk,
    state: State,
    bytes: Vec<u8>,
    switch: Switch,
}

impl Session<'_> {
    fn call(&mut self, request: &Request) -> Compared<()> {
        let served = self.desk.call(&mut self.state, &mut self.bytes, request)?;
        self.desk.switched(&mut self.switch, (&self.state, &self.bytes), request, &served)?;
        (0..PATHS as u64).step_by(5).try_for_each(|path| {
            self.desk.query(Some(&self.state), &self.bytes, Query::Value { table: 3, path })
        })
    }

    /// The line is opened: two calls for mastership where the node was master, and two synchronises.
    fn open(&mut self) -> Compared<()> {
        while !self.state.mastership.master.is_some_and(|master| self.state.line_open(master)) {
            let node = 1;
            let synchronises = self.state.mastership.master.is_some_and(|master| {
                !self.state.reconnected(master) && self.state.connection(master).connected
            });
            self.call(&if synchronises { Request::Sync(node) } else { Request::Master(node) })?;
        }
        Ok(())
    }

    /// The target is without power for a while.
    fn power_cycle(&mut self) -> Compared<()> {
        for request in [Request::Stop, Request::Start, Request::Connect(1)] {
            self.call(&request)?;
        }
        self.open()
    }

    fn reconnect(&mut self) -> Compared<()> {
        for request in [Request::Disconnect(1), Request::Connect(1)] {
            self.call(&request)?;
        }
        self.open()
    }

    /// Appends a change and takes it up to its push, which is made with that cut.
    fn change(&mut self, pairs: &[(u16, u16)], cut: u64) -> Compared<()> {
        self.call(&Request::Append(bytes_of(pairs)))?;
        let number = self.state.highest().0.into();
        for (job, cut) in [(1, 0), (1, 0), (2, 0), (2, cut)] {
            self.call(&Request::Work { node: 1, job, number, outcome: 0, cut })?;
        }
        Ok(())
    }

    /// The push of the highest number again, whole.
    fn again(&mut self) -> Compared<()> {
        let number = self.state.highest().0.into();
        self.call(&Request::Work { node: 1, job: 2, number, outcome: 0, cut: 0 })
    }
}

/// Power cycles and reconnects of a target with no value, with all, with one that is deleted, and behind cut pushes of one pair and
/// of four.
fn session(desk: &mut Desk, remembers: bool) -> Compared<()> {
    let bytes = vec![0xff; LENGTH];
    desk.lend(&bytes);
    let mut it = Session { desk, state: State::fresh(), bytes, switch: Switch::default() };
    for request in [Request::Fresh(2), Request::Fresh(remembers.into()), Request::Start, Request::Connect(1)] {
        if request == Request::Fresh(2) {
            // refused, it leaves bytes that are no image
            let bytes = it.bytes.clone();
            it.desk.call_from_bytes(None, &bytes, &request)?;
        } else {
            it.call(&request)?;
        }
    }
    it.open()?;
    it.power_cycle()?;
    it.change(&[(9, 1)], 0)?;
    it.power_cycle()?;
    for first in (0..PATHS as u16).step_by(4) {
        it.change(&std::array::from_fn::<_, 4, _>(|place| (first + place as u16, 100 + first)), 0)?;
    }
    it.power_cycle()?;
    it.reconnect()?;
    it.change(&[(31, 7)], 1)?;
    it.reconnect()?;
    it.again()?;
    it.change(&[(0, 7), (1, 0), (8, 7), (31, 0)], 1)?;
    it.power_cycle()?;
    it.again()?;
    it.power_cycle()?;
    it.change(&[(1, 5)], 1)?;
    it.reconnect()?;
    it.again()?;
    it.reconnect()
}
