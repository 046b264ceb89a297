//! The nights that are measured (order 2), each from the state that it begins in.

use crate::measure::{Figure, Measured};
use crate::scenes::{applied_after, led, work};
use makowist_host::controller::State;
use makowist_host::image::{self, LENGTH};
use makowist_host::jobs::Outcome;
use makowist_host::lean::{self, Outcomes};
use makowist_host::night::{self, EVENT, OUTCOMES};
use makowist_host::northbound::{bytes_of, Request};
use makowist_host::peer;

/// How many transactions the logs keep.
pub const LENGTHS: [usize; 4] = [16, 32, 64, 128];

/// More than any of them takes.
const BUDGET: u64 = 4096;

/// Who works through the night.
#[derive(Clone, Copy, Debug)]
pub enum Side {
    /// The exported function of the proved archive: the image is checked, and worked on where it lies.
    Proved,
    /// The independent controller on a state in memory, unchecked, each turn from the lowest number.
    AsRead,
    /// The same with the proved one's shortcut: numbers of which nothing is left are not asked again.
    Skipping,
    /// The same on the image: checked and decoded before, encoded after.
    Decoded,
    /// Nothing: what the measuring itself costs.
    Nothing,
}

pub struct Night {
    name: &'static str,
    length: usize,
    state: State,
    image: Vec<u8>,
    asked: night::Night,
    typed: Outcomes,
}

/// What a night is made on, in both shapes, and the room for its events.
pub struct Ground {
    image: Vec<u8>,
    state: State,
    events: Vec<u8>,
}

impl Measured for Night {
    type Side = Side;
    type Ground = Ground;
    const SIDES: &'static [Side] = &[Side::Proved, Side::AsRead, Side::Skipping, Side::Decoded, Side::Nothing];

    fn name(&self) -> &str {
        self.name
    }

    fn length(&self) -> usize {
        self.length
    }

    fn ground(&self) -> Ground {
        Ground { image: self.image.clone(), state: self.state.clone(), events: vec![0; EVENT * BUDGET as usize] }
    }

    fn run(&self, side: Side, ground: &mut Ground) -> u64 {
        let Ground { image, state, events } = ground;
        match side {
            Side::Proved => peer::night(image, 1, self.asked.budget, &self.asked.outcomes, events),
            Side::AsRead => lean::night_as_read(state, 1, self.asked.budget, &self.typed, events),
            Side::Skipping => lean::night_skipping(state, 1, self.asked.budget, &self.typed, events),
            Side::Decoded => self.decoded(image, events),
            Side::Nothing => 0,
        }
    }

    fn restore(&self, ground: &mut Ground) {
        ground.image.copy_from_slice(&self.image);
        ground.state = self.state.clone();
    }
}

impl Night {
    fn new(name: &'static str, length: usize, state: State, rejects: impl Fn(usize) -> bool) -> Night {
        let mut image = vec![0; LENGTH];
        image::encode(&state, &mut image);
        let outcomes = (0..OUTCOMES).map(|place| rejects(place).into()).collect();
        let asked = night::Night { node: 1, budget: BUDGET, outcomes };
        let outcome = |place: usize| if rejects(place) { Outcome::Rejected } else { Outcome::Accepted };
        let typed = std::array::from_fn(|place| [outcome(2 * place), outcome(2 * place + 1)]);
        Night { name, length, state, image, asked, typed }
    }

    #[inline(never)]
    fn decoded(&self, image: &mut [u8], events: &mut [u8]) -> u64 {
        let mut state = image::decode(image).expect("a well-formed image");
        let reply = lean::night_skipping(&mut state, 1, self.asked.budget, &self.typed, events);
        image::encode(&state, image);
        reply
    }

    /// All sides must agree on reply, image and events before they are measured. Answers the jobs that they do.
    pub fn check(&self) -> Figure {
        let answers = [Side::Proved, Side::AsRead, Side::Skipping, Side::Decoded].map(|side| {
            let mut ground = self.ground();
            let reply = self.run(side, &mut ground);
            if matches!(side, Side::AsRead | Side::Skipping) {
                image::encode(&ground.state, &mut ground.image);
            }
            (reply, ground.image, ground.events)
        });
        let agree = answers.iter().all(|answer| *answer == answers[0]);
        assert!(agree && answers[0].0 & 0xff == 0, "{} at {}: the sides differ", self.name, self.length);
        let jobs = (answers[0].0 >> 16 & 0xffff) as f64;
        Figure { name: self.name.to_string(), length: self.length, side: "Jobs".to_string(), cost: jobs }
    }
}

/// A change of so many pairs.
fn append(number: usize, pairs: u16) -> Request {
    let path = number as u16 % 28;
    Request::Append(bytes_of(&(0..pairs).map(|place| (path + place, 7 + place)).collect::<Vec<_>>()))
}

/// So many changes waiting, after a fold of so many, with the line open for node 1.
fn waiting(folded: usize, length: usize, pairs: u16) -> State {
    let appends: Vec<Request> = (1..=length).map(|number| append(folded + number, pairs)).collect();
    led(applied_after(folded, 0), &appends)
}

/// The same, all committed.
fn committed(length: usize) -> State {
    let commit = |number: usize| [work(1, number), work(1, number)];
    led(waiting(0, length, 4), &(1..=length).flat_map(commit).collect::<Vec<_>>())
}

/// The same, all asked to be rolled back.
fn undoing(state: State, length: usize) -> State {
    led(state, &(1..=length).map(|number| Request::Rollback(number as u64)).collect::<Vec<_>>())
}

/// Every night over so many.
pub fn nights(length: usize) -> Vec<Night> {
    let never = |_: usize| false;
    let mut no_budget = Night::new("waiting, a budget of 0", length, waiting(0, length, 4), never);
    no_budget.asked.budget = 0;
    vec![
        Night::new("waiting, 1 pair", length, waiting(0, length, 1), never),
        Night::new("waiting, 4 pairs", length, waiting(0, length, 4), never),
        Night::new("waiting, from slot 64", length, waiting(64, length, 4), never),
        Night::new("waiting, every second validation rejected", length, waiting(0, length, 4), |place| place % 4 == 2),
        Night::new("waiting, every second push rejected", length, waiting(0, length, 4), |place| place % 4 == 3),
        Night::new("committed", length, committed(length), never),
        Night::new("committed, all asked to be rolled back", length, undoing(committed(length), length), never),
        Night::new("applied, all asked to be rolled back", length, undoing(applied_after(0, length), length), never),
        no_budget,
        Night::new("nothing to do", length, applied_after(0, length), never),
    ]
}
