//! The imports that are measured (order 6).

use crate::measure::{Figure, Measured};
use makowist_host::controller::State;
use makowist_host::image::{self, LENGTH};
use makowist_host::import::{self, listed, Entry};
use makowist_host::northbound::{self, Request};
use makowist_host::peer;

/// How many changes the lists have.
pub const LENGTHS: [usize; 4] = [16, 32, 64, 128];

/// Who imports.
#[derive(Clone, Copy, Debug)]
pub enum Side {
    /// The exported function of the proved archive.
    Proved,
    /// The independent controller: the list is judged, and its calls made on a state in memory.
    Typed,
    /// The same, and the state written as an image.
    Encoded,
    /// The proved archive's own calls, one by one on the image, each of which checks it.
    Calls,
    /// Nothing: what the measuring itself costs.
    Nothing,
}

pub struct Import {
    name: &'static str,
    length: usize,
    list: Vec<u8>,
    calls: Vec<Request>,
}

/// The image that is made, and the state.
pub struct Ground {
    image: Vec<u8>,
    state: State,
}

impl Measured for Import {
    type Side = Side;
    type Ground = Ground;
    const SIDES: &'static [Side] = &[Side::Proved, Side::Typed, Side::Encoded, Side::Calls, Side::Nothing];

    fn name(&self) -> &str {
        self.name
    }

    fn length(&self) -> usize {
        self.length
    }

    fn ground(&self) -> Ground {
        Ground { image: vec![0xab; LENGTH], state: State::fresh() }
    }

    fn run(&self, side: Side, Ground { image, state }: &mut Ground) -> u64 {
        match side {
            Side::Proved => peer::import(image, &self.list),
            Side::Typed => self.typed(state),
            Side::Encoded => self.encoded(image),
            Side::Calls => self.called(image),
            Side::Nothing => 0,
        }
    }

    fn restore(&self, _: &mut Ground) {}
}

impl Import {
    fn new(name: &'static str, length: usize, entries: &[Entry]) -> Import {
        Import { name, length, list: listed(entries), calls: import::calls(entries) }
    }

    #[inline(never)]
    fn typed(&self, state: &mut State) -> u64 {
        State::imported(&self.list).map_or_else(import::Refused::packed, |imported| {
            *state = imported;
            0
        })
    }

    #[inline(never)]
    fn encoded(&self, image: &mut [u8]) -> u64 {
        northbound::import(image, &self.list)
    }

    #[inline(never)]
    fn called(&self, image: &mut [u8]) -> u64 {
        self.calls.iter().fold(0, |answers, request| {
            let pairs = if let Request::Append(pairs) = request { pairs.as_slice() } else { &[] };
            answers | peer::serve(image, request, pairs) & 0xff
        })
    }

    /// All sides must agree before they are measured. Answers the entries.
    pub fn check(&self) -> Figure {
        for side in [Side::Proved, Side::Typed, Side::Encoded, Side::Calls] {
            let (mut expected, mut ground) = (vec![0; LENGTH], self.ground());
            assert_eq!(northbound::import(&mut expected, &self.list), 0, "{}", self.name);
            let reply = self.run(side, &mut ground);
            if let Side::Typed = side {
                ground.image.fill(0);
                image::encode(&ground.state, &mut ground.image);
            }
            assert!(reply == 0 && ground.image == expected, "{} at {}: {side:?} differs", self.name, self.length);
        }
        let entries = (self.list.len() / import::ENTRY) as f64;
        Figure { name: self.name.to_string(), length: self.length, side: "Entries".to_string(), cost: entries }
    }
}

/// A change of so many pairs.
fn change(place: usize, pairs: u16) -> Entry {
    let path = place as u16 % 28;
    Entry::change(&(0..pairs).map(|pair| (path + pair, 7 + pair)).collect::<Vec<_>>())
}

/// Every import of so many changes.
pub fn imports(length: usize) -> Vec<Import> {
    let changes = |pairs: u16| (0..length).map(move |place| change(place, pairs));
    let undone = (1..=length as u16).rev().map(|named| Entry::Rollback { named });
    let in_turn = |place: usize| if place % 2 == 0 { change(place, 4) } else { Entry::Rollback { named: place as u16 } };
    vec![
        Import::new("changes, 1 pair", length, &changes(1).collect::<Vec<_>>()),
        Import::new("changes, 4 pairs", length, &changes(4).collect::<Vec<_>>()),
        Import::new("changes, then all undone", length, &changes(4).chain(undone).collect::<Vec<_>>()),
        Import::new("each change undone at once", length, &(0..2 * length).map(in_turn).collect::<Vec<_>>()),
    ]
}

/// Figures of one kind, instructions or nanoseconds, as a table for the documents: a row for each import and length.
pub fn table(unit: &str, figures: &[Figure]) -> String {
    let mut table = format!(
        "| {unit} | changes | entries | proved | independent, its calls on typed memory | to it | and written as an image | \
         to it | the proved calls, one by one | to them |\n|---|--:|--:|--:|--:|--:|--:|--:|--:|--:|\n"
    );
    for of in figures.iter().filter(|figure| figure.side == "Entries") {
        let cost = |side: &str| {
            let wanted = |figure: &&Figure| figure.name == of.name && figure.length == of.length && figure.side == side;
            figures.iter().find(wanted).map_or(0.0, |figure| figure.cost)
        };
        let [proved, typed, encoded, calls] = ["Proved", "Typed", "Encoded", "Calls"].map(cost);
        let ratio = |cost: f64| proved / cost.max(1.0);
        table += &format!(
            "| {} | {} | {:.0} | {proved:.0} | {typed:.0} | {:.2} | {encoded:.0} | {:.2} | {calls:.0} | {:.2} |\n",
            of.name,
            of.length,
            of.cost,
            ratio(typed),
            ratio(encoded),
            ratio(calls)
        );
    }
    table
}
