//! The C interface's calls over the independent controller: bytes in, packed reply and bytes out.

use crate::controller::{Event, Node, Number, Refusal, State};
use crate::image;
use crate::import::Refused;
use crate::jobs::Rule;
use crate::night::{Night, Passed};

/// A call of the C interface that changes an image, its numbers as wide as they are there.
#[derive(Clone, PartialEq, Eq, Hash, Debug)]
pub enum Request {
    /// Whether the target remembers.
    Fresh(u64),
    /// The pairs as they are lent: four bytes a pair, path and value.
    Append(Vec<u8>),
    Rollback(u64),
    Start,
    Stop,
    Connect(u64),
    Disconnect(u64),
    Master(u64),
    Sync(u64),
    Work { node: u64, job: u64, number: u64, outcome: u64, cut: u64 },
    Fold(u64),
}

impl Request {
    /// Whether it asks mastership for a master that has reconnected.
    pub fn is_of_reconnected(&self, state: &State) -> bool {
        matches!(*self, Request::Master(node) if Node::new(node).is_some_and(|node| state.reconnected(node)))
    }
}

/// What a call answers: the event, or an append's number, or how many paths a synchronise wrote, or nothing.
#[derive(Clone, Copy, PartialEq, Eq, Debug)]
pub enum Answer {
    Nothing,
    Appended(Number),
    Wrote(u16),
    Told(Event),
}

/// A call's reply, with the rule that a job took.
#[derive(Clone, Copy, PartialEq, Eq, Debug)]
pub struct Served {
    pub reply: Result<Answer, Refusal>,
    pub rule: Option<Rule>,
}

impl Served {
    fn plain(reply: Result<(), Refusal>) -> Served {
        Served { reply: reply.map(|()| Answer::Nothing), rule: None }
    }

    /// The reply as one number: answer, phase, stage, status and number, from the lowest byte up.
    pub fn packed(&self) -> u64 {
        match self.reply {
            Err(refusal) => u64::from(refusal.number()),
            Ok(Answer::Nothing) => 0,
            Ok(Answer::Appended(Number(number)) | Answer::Wrote(number)) => u64::from(number) << 32,
            Ok(Answer::Told(event)) => {
                (event.phase as u64) << 8
                    | (event.stage as u64) << 16
                    | u64::from(event.status.code()) << 24
                    | u64::from(event.number.0) << 32
            }
        }
    }
}

/// The pairs in lent bytes, where their length is whole.
pub fn pairs_of(bytes: &[u8]) -> Option<Vec<(u16, u16)>> {
    let pair = |four: &[u8]| (image::u16_at(four, 0), image::u16_at(four, 2));
    (bytes.len() % 4 == 0).then(|| bytes.chunks_exact(4).map(pair).collect())
}

/// The bytes to lend for these pairs.
pub fn bytes_of(pairs: &[(u16, u16)]) -> Vec<u8> {
    pairs.iter().flat_map(|(path, value)| [path.to_le_bytes(), value.to_le_bytes()].concat()).collect()
}

/// Carries a request out on a state. A refused one leaves the state as it was.
pub fn act(state: &mut State, request: &Request) -> Served {
    match *request {
        Request::Fresh(remembers) => Served::plain(state.freshen(remembers)),
        Request::Append(ref bytes) => {
            let appended = pairs_of(bytes).ok_or(Refusal::NotAChange).and_then(|pairs| state.append(&pairs));
            Served { reply: appended.map(Answer::Appended), rule: None }
        }
        Request::Rollback(number) => Served::plain(state.rollback(number)),
        Request::Start => Served::plain(state.start()),
        Request::Stop => Served::plain(state.stop()),
        Request::Connect(node) => Served::plain(state.connect(node)),
        Request::Disconnect(node) => Served::plain(state.disconnect(node)),
        Request::Master(node) => Served::plain(state.master(node)),
        Request::Sync(node) => Served { reply: state.sync(node).map(Answer::Wrote), rule: None },
        Request::Work { node, job, number, outcome, cut } => {
            let worked = state.work(node, job, number, outcome, cut);
            Served { reply: worked.reply.map(|event| event.map_or(Answer::Nothing, Answer::Told)), rule: worked.rule }
        }
        Request::Fold(number) => Served::plain(state.fold(number)),
    }
}

/// Writes a state that an accepted request led to over the image before it.
pub fn store(state: &State, request: &Request, image: &mut [u8]) {
    if matches!(request, Request::Fresh(_)) {
        image.fill(0);
    }
    image::encode(state, image);
}

/// Carries a request out on an image: check, decode, act, encode. A refused one leaves the image as it was.
pub fn serve(image: &mut [u8], request: &Request) -> Served {
    let state = match request {
        Request::Fresh(_) => (image.len() == image::LENGTH).then(State::fresh),
        _ => image::decode(image),
    };
    let Some(mut state) = state else {
        return Served::plain(Err(Refusal::NotWellFormed));
    };
    let served = act(&mut state, request);
    if served.reply.is_ok() {
        store(&state, request, image);
    }
    served
}

/// Carries a night out on an image, with room for its events, and answers the packed reply.
pub fn night(image: &mut [u8], night: &Night, room: &mut [u8]) -> u64 {
    let Some(mut state) = image::decode(image) else {
        return Refusal::NotWellFormed.number().into();
    };
    match state.night(night) {
        Ok(passed) => store_night(&state, &passed, image, room),
        Err(refusal) => refusal.number().into(),
    }
}

/// Writes the state that a night led to over the image before it, shows its events in the room, and answers the packed reply.
pub fn store_night(state: &State, passed: &Passed, image: &mut [u8], room: &mut [u8]) -> u64 {
    image::encode(state, image);
    passed.packed(passed.show(room))
}

/// Makes the bytes, whatever they hold, the image that a list is imported as, and answers the packed reply.
pub fn import(image: &mut [u8], list: &[u8]) -> u64 {
    if image.len() != image::LENGTH {
        return Refusal::NotWellFormed.number().into();
    }
    store_import(State::imported(list), image)
}

/// Writes the state that a list leads to, and answers the packed reply. A refused list writes nothing.
pub fn store_import(imported: Result<State, Refused>, image: &mut [u8]) -> u64 {
    match imported {
        Ok(state) => {
            image.fill(0);
            image::encode(&state, image);
            0
        }
        Err(refused) => refused.packed(),
    }
}

/// Writes an image's live list into the room and answers its length, packed; room past the list stays.
pub fn live(image: &[u8], room: &mut [u8]) -> u64 {
    live_of(image::decode(image).as_ref(), room)
}

/// As `live`, of what an image decodes to.
pub fn live_of(state: Option<&State>, room: &mut [u8]) -> u64 {
    let Some(state) = state else {
        return u64::from(Refusal::NotWellFormed.number());
    };
    listed(&state.live().collect::<Vec<_>>(), room)
}

/// Writes a list into the room, two bytes a number, and answers its length, packed.
pub fn listed(list: &[Number], room: &mut [u8]) -> u64 {
    let bytes: Vec<u8> = list.iter().flat_map(|number| number.0.to_le_bytes()).collect();
    if bytes.len() > room.len() {
        return u64::from(Refusal::NoRoom.number());
    }
    room[..bytes.len()].copy_from_slice(&bytes);
    (list.len() as u64) << 32
}
