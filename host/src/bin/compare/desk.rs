//! Two controllers side by side: each call goes to both, and reply and every byte must be the same.

use crate::counts::Counts;
use crate::retries;
use crate::watch::Watch;
use crate::whys;
use makowist_host::controller::{Refusal, State, LOG_LIMIT};
use makowist_host::fault::Fault;
use makowist_host::guarded::{Edge, Guarded};
use makowist_host::image;
use makowist_host::northbound::{self, Request, Served};
use makowist_host::peer;
use makowist_host::random::Random;
use makowist_host::reads::Query;
use makowist_host::retry::CutJob;
use makowist_host::why::{Question, Reason};
use std::fmt;

/// A call on which the two did not agree, or a retry or a reason that is not as promised.
pub struct Difference {
    text: String,
    pub is_of_retry: bool,
}

impl Difference {
    pub fn of_call(text: String) -> Difference {
        Difference { text, is_of_retry: false }
    }

    pub fn of_retry(text: String) -> Difference {
        Difference { text, is_of_retry: true }
    }
}

impl fmt::Display for Difference {
    fn fmt(&self, to: &mut fmt::Formatter) -> fmt::Result {
        to.write_str(&self.text)
    }
}

pub type Compared<T> = Result<T, Difference>;

/// What lies in room before the live list, or a night's events, are written there.
pub const UNWRITTEN: u8 = 0xab;

/// The most bytes of room that a live list is lent, past the longest list.
pub const MOST_ROOM: usize = 2 * LOG_LIMIT + 5;

pub struct Desk {
    pub lent: Guarded,
    pub lent_pairs: Guarded,
    pub lent_room: Guarded,
    pub lent_copy: Guarded,
    pub edge: Edge,
    pub fault: Option<Fault>,
    pub counts: Counts,
    /// Whether the states that calls are made from are such as a session leads to.
    pub reached: bool,
    /// The last job that was answered 11 and asked after, from the image that is lent.
    explained: Option<Question>,
    /// What comes between a cut job and its retry.
    pub random: Random,
    /// What the sheet is asked.
    pub drawn: Random,
    watch: Watch,
}

impl Desk {
    pub fn new(fault: Option<Fault>, watch: Watch) -> Desk {
        Desk {
            lent: Guarded::new(),
            lent_pairs: Guarded::new(),
            lent_room: Guarded::new(),
            lent_copy: Guarded::new(),
            edge: Edge::End,
            fault,
            counts: Counts::default(),
            reached: false,
            explained: None,
            random: Random::new(0),
            drawn: Random::new(0),
            watch,
        }
    }

    /// Whether the fault put in, if any, is one that a retry must find.
    pub fn waits_for_a_retry(&self) -> bool {
        matches!(self.fault, Some(Fault::Retried(_)))
    }

    /// Whether there is no fault put in, or one of a reason: no other shows in a chosen state's reasons.
    pub fn asks_for_reasons(&self) -> bool {
        matches!(self.fault, None | Some(Fault::Why(_)))
    }

    /// Whether there is no fault put in, or one of nights.
    pub fn works_through_nights(&self) -> bool {
        self.fault.map_or(true, Fault::is_of_nights)
    }

    /// Whether there is no fault put in, or one of imports.
    pub fn imports(&self) -> bool {
        self.fault.map_or(true, Fault::is_of_imports)
    }

    /// Whether there is no fault put in, or one of owners.
    pub fn asks_for_owners(&self) -> bool {
        self.fault.map_or(true, Fault::is_of_owners)
    }

    /// Whether there is no fault put in, or one of the four statuses in one number.
    pub fn packs_statuses(&self) -> bool {
        matches!(self.fault, None | Some(Fault::Packed(_)))
    }

    /// What bytes decode to.
    pub fn decoded(&self, bytes: &[u8]) -> Option<State> {
        self.fault.map_or_else(|| image::decode(bytes), |fault| fault.decode(bytes))
    }

    /// Whether the comparison's time is up.
    pub fn is_over(&mut self) -> bool {
        self.watch.is_over(&self.counts)
    }

    /// Whether half of it is.
    pub fn is_half_over(&mut self) -> bool {
        self.watch.is_half_over(&self.counts)
    }

    pub fn seconds(&self) -> u64 {
        self.watch.elapsed().as_secs()
    }

    /// Lays these bytes down as the image that the proved controller is lent from now on.
    pub fn lend(&mut self, bytes: &[u8]) {
        self.explained = None;
        self.lent.bytes(bytes.len(), self.edge).copy_from_slice(bytes);
    }

    /// Sends a call to both from the state and its image, which has been lent, and leaves both after the call. Behind one that was
    /// accepted the owners are read. A job that was cut is also called again, on copies; one that was answered 11 is asked after.
    pub fn call(&mut self, state: &mut State, bytes: &mut [u8], request: &Request) -> Compared<Served> {
        let may_be_cut = matches!(request, Request::Work { cut: 1 | 2, .. });
        let before = may_be_cut.then(|| (state.clone(), bytes.to_vec()));
        let served = self.act(state, request);
        if served.reply.is_ok() {
            self.store(state, request, bytes);
        }
        self.hold(bytes, request, served)?;
        if served.reply.is_ok() {
            self.explained = None;
            self.owners_behind(state, bytes)?;
        }
        self.explain(state, bytes, request, &served)?;
        if let Some((before, before_bytes)) = before {
            self.retry(request, &served, (&before, &before_bytes), (state, bytes))?;
        }
        Ok(served)
    }

    /// As `call`, leaving state and image as they were: answers those after the call where it was accepted, and the reply.
    pub fn call_from(&mut self, state: &State, bytes: &[u8], request: &Request) -> Compared<Option<(State, Vec<u8>, Served)>> {
        let mut after = state.clone();
        let served = self.act(&mut after, request);
        if served.reply.is_err() {
            self.hold(bytes, request, served)?;
            return self.explain(state, bytes, request, &served).map(|()| None);
        }
        let mut after_bytes = bytes.to_vec();
        self.store(&after, request, &mut after_bytes);
        self.hold(&after_bytes, request, served)?;
        self.owners_behind(&after, &after_bytes)?;
        self.retry(request, &served, (state, bytes), (&after, &after_bytes))?;
        self.lend(bytes);
        Ok(Some((after, after_bytes, served)))
    }

    fn act(&mut self, state: &mut State, request: &Request) -> Served {
        let reconnected = request.is_of_reconnected(state);
        let (rested_at, folded, target) = (state.committed.index, state.folded, state.target.clone());
        let served = acted(self.fault, state, request);
        self.counts.freed += u64::from(reconnected && served.reply.is_ok());
        self.counts.folds.called(rested_at, state, request, &served);
        self.counts.owners.called(folded, state, request, &served, self.reached);
        self.counts.remembers.called(&target, state, request, &served, self.reached);
        self.counts.wide.called(state, request, served.packed() & 0xff);
        served
    }

    fn store(&self, state: &State, request: &Request, bytes: &mut [u8]) {
        match self.fault {
            None => northbound::store(state, request, bytes),
            Some(fault) => fault.store(state, request, bytes),
        }
    }

    /// Calls a job again where it was cut before its last store, by both, on copies of the state and the image before it and
    /// behind it: it must leave what the uncut job leaves, from the copies before it.
    fn retry(
        &mut self,
        request: &Request,
        served: &Served,
        before: (&State, &[u8]),
        behind: (&State, &[u8]),
    ) -> Compared<()> {
        let Some(cut) = CutJob::of(request, served) else {
            return Ok(());
        };
        let retry = self.counts.retries.next(cut, &mut self.random);
        let act = |state: &mut State, request: &Request| acted(self.fault, state, request);
        let uncut = retries::acted(before.0, &retry.uncut(), act);
        let again = retries::acted(behind.0, &retry.again(), act);
        retry.hold("independent", served, &uncut, &again)?;
        let proved_uncut = retries::proved(&mut self.lent_copy, self.edge, before.1, &retry.uncut());
        let proved_again = retries::proved(&mut self.lent_copy, self.edge, behind.1, &retry.again());
        retry.hold("proved", served, &proved_uncut, &proved_again)?;
        let mut expected = before.1.to_vec();
        self.store(&uncut.left, &cut.uncut(), &mut expected);
        if uncut.replies != proved_uncut.replies || expected != proved_uncut.left {
            return Err(Difference::of_retry(format!("{cut:?}: the two leave other images, or answer otherwise")));
        }
        self.counts.retries.saw(&retry, &uncut.replies[1..]);
        Ok(())
    }

    /// As `call_from`, from bytes that have been lent and may be no image; `state` is what they decode to.
    pub fn call_from_bytes(&mut self, state: Option<&State>, bytes: &[u8], request: &Request) -> Compared<()> {
        if let (Some(state), false) = (state, matches!(request, Request::Fresh(_))) {
            return self.call_from(state, bytes, request).map(|_| ());
        }
        let mut after_bytes = bytes.to_vec();
        let served = match self.fault {
            None => northbound::serve(&mut after_bytes, request),
            Some(fault) => fault.serve_damaged(&mut after_bytes, request),
        };
        self.hold(&after_bytes, request, served)?;
        self.lend(bytes);
        Ok(())
    }

    /// Sends the call to the proved controller and holds its reply and its bytes against what is expected.
    fn hold(&mut self, expected: &[u8], request: &Request, served: Served) -> Compared<Served> {
        let pairs = match request {
            Request::Append(pairs) => pairs.as_slice(),
            _ => &[],
        };
        let lent_pairs = self.lent_pairs.bytes(pairs.len(), self.edge);
        lent_pairs.copy_from_slice(pairs);
        let lent = self.lent.bytes(expected.len(), self.edge);
        let reply = peer::serve(lent, request, lent_pairs);
        self.counts.called(request, &served);
        self.counts.remembers.held(request, &served, expected.len());
        if reply != served.packed() {
            return Err(Difference::of_call(format!(
                "{request:?}\n  independent reply {:#x} {:?} by rule {:?}\n  proved reply {reply:#x}\n{}",
                served.packed(),
                served.reply,
                served.rule,
                shown(expected)
            )));
        }
        if lent_pairs != pairs {
            return Err(Difference::of_call(format!("{request:?}: the lent pairs were written")));
        }
        same_bytes(expected, lent).map_err(|Difference { text, .. }| {
            Difference::of_call(format!("{request:?} by rule {:?}\n{text}\n{}", served.rule, shown(expected)))
        })?;
        Ok(served)
    }

    /// Asks after a job that was answered 11: there is a reason. For another outcome or cut the question is the same, and is not
    /// asked again.
    fn explain(&mut self, state: &State, bytes: &[u8], request: &Request, served: &Served) -> Compared<()> {
        let question = match *request {
            Request::Work { node, job, number, .. } if served.reply == Err(Refusal::NoRule) => Question { node, job, number },
            _ => return Ok(()),
        };
        if self.explained == Some(question) {
            return Ok(());
        }
        let reply = self.compared(Some(state), bytes, Query::Why(question))?;
        if reply & 0xff != 0 {
            return Err(Difference::of_call(format!("{request:?} answers 11, and {question:?} {reply:#x}\n{}", shown(bytes))));
        }
        self.counts.whys.after_11 += 1;
        self.explained = Some(question);
        Ok(())
    }

    /// Compares one read from bytes that have been lent. A job that is asked after is also called, on a copy.
    pub fn query(&mut self, state: Option<&State>, bytes: &[u8], query: Query) -> Compared<()> {
        let reply = self.compared(state, bytes, query)?;
        let Query::Why(question) = query else {
            return Ok(());
        };
        let request = self.counts.whys.next_job(question);
        let lent = self.lent_copy.bytes(bytes.len(), self.edge);
        lent.copy_from_slice(bytes);
        let answer = peer::serve(lent, &request, &[]) & 0xff;
        if reply & 0xff != whys::answer_for(answer) {
            return Err(Difference::of_call(format!(
                "{question:?} is answered {reply:#x}, and {request:?} {answer}\n{}",
                shown(bytes)
            )));
        }
        self.counts.whys.job_answered(reply, answer);
        Ok(())
    }

    /// Sends a read to both, and answers what both do. A reason that is given where a session leads is one of the seven.
    fn compared(&mut self, state: Option<&State>, bytes: &[u8], query: Query) -> Compared<u64> {
        let expected = match self.fault {
            None => query.packed(state, bytes),
            Some(fault) => fault.read(state, bytes, query),
        };
        let lent = self.lent.bytes(bytes.len(), self.edge);
        let reply = peer::read(lent, query);
        self.counts.queried(state, query, expected);
        if reply != expected {
            return Err(Difference::of_call(format!(
                "{query:?}\n  independent {expected:#x}\n  proved {reply:#x}\n{}",
                shown(bytes)
            )));
        }
        same_bytes(bytes, lent)?;
        if let (Some(state), Query::Why(question), 0) = (state, query, reply & 0xff) {
            let reason = Reason::ALL[(reply >> 8 & 0xff) as usize - 1];
            if self.reached && reason == Reason::NoneFits {
                return Err(Difference::of_call(format!("{question:?}: no reason fits in a reached state\n{}", shown(bytes))));
            }
            self.counts.whys.given(state, question, reason, self.reached);
        }
        Ok(reply)
    }

    /// Compares whether lent bytes are well-formed, and their live list in room of so many bytes.
    pub fn read(&mut self, state: Option<&State>, bytes: &[u8], room: usize) -> Compared<()> {
        let mut expected_room = [UNWRITTEN; MOST_ROOM];
        let expected = match self.fault {
            None => northbound::live_of(state, &mut expected_room[..room]),
            Some(fault) => fault.live_of(state, bytes, &mut expected_room[..room]),
        };
        let lent_room = self.lent_room.bytes(room, self.edge);
        lent_room.fill(UNWRITTEN);
        let lent = self.lent.bytes(bytes.len(), self.edge);
        let reply = peer::live(lent, lent_room);
        let formed = peer::well_formed(lent);
        self.counts.read(expected);
        if let Some(state) = state {
            self.counts.wide.listed(state.live().count(), room);
        }
        if reply != expected || lent_room != &expected_room[..room] {
            return Err(Difference::of_call(format!(
                "live list in room of {room} bytes\n  independent {expected:#x} {:?}\n  proved {reply:#x} {lent_room:?}\n{}",
                &expected_room[..room],
                shown(bytes)
            )));
        }
        let expected = if state.is_some() { peer::WELL_FORMED } else { peer::NOT_WELL_FORMED };
        if formed != expected {
            return Err(Difference::of_call(format!("well-formed: expected {expected}, proved {formed}\n{}", shown(bytes))));
        }
        same_bytes(bytes, lent)
    }
}

/// As `northbound::act`, with the fault where there is one.
fn acted(fault: Option<Fault>, state: &mut State, request: &Request) -> Served {
    match fault {
        None => northbound::act(state, request),
        Some(fault) => fault.act(state, request),
    }
}

pub fn same_bytes(expected: &[u8], found: &[u8]) -> Compared<()> {
    if expected == found {
        return Ok(());
    }
    let place = expected.iter().zip(found).position(|(expected, found)| expected != found).unwrap_or(0);
    Err(Difference::of_call(format!(
        "  byte {place}: independent {}, proved {} ({} bytes differ)",
        expected[place],
        found[place],
        expected.iter().zip(found).filter(|(expected, found)| expected != found).count()
    )))
}

/// The image after the call as the independent controller has it, for the reader of a difference.
pub fn shown(bytes: &[u8]) -> String {
    match image::decode(bytes) {
        Some(state) => format!("  independent state after the call: {state:?}"),
        None => format!("  {} bytes that are no image", bytes.len()),
    }
}
