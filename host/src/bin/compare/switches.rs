//! Order 8: how the target stands to the applied values in the states that sessions reach, and what makes a cut push good.

use crate::desk::{shown, Compared, Desk, Difference};
use makowist_host::controller::State;
use makowist_host::night::Passed;
use makowist_host::northbound::{Request, Served};
use makowist_host::switch::{MadeGood, Stands, Switch};

const STANDS: [Stands; 5] =
    [Stands::LineNotOpen, Stands::Applied, Stands::Pushed, Stands::PushedThenFailed, Stands::Returned];
const MADE_GOOD: [MadeGood; 3] = [MadeGood::ByRetry, MadeGood::ByRollback, MadeGood::BySync];

/// Counts by how the target stands, and by what made a cut push good.
#[derive(Default)]
pub struct Seen {
    stands: [u64; STANDS.len()],
    made_good: [u64; MADE_GOOD.len()],
    /// States in which a cut push has not been made good and yet, the line open, the target holds the applied values: it laid
    /// what was there.
    unseen_on_target: u64,
}

impl Seen {
    /// Prints every count, and answers how many are 0.
    pub fn told(&self) -> usize {
        for (stands, count) in STANDS.iter().zip(self.stands) {
            println!("{count:>12}  states held to demand 3's last sentence: {stands:?}");
        }
        println!("{:>12}  of Applied with a cut push that has not been made good", self.unseen_on_target);
        for (way, count) in MADE_GOOD.iter().zip(self.made_good) {
            println!("{count:>12}  cut pushes made good {way:?}");
        }
        self.stands.iter().chain(&self.made_good).chain([&self.unseen_on_target]).filter(|count| **count == 0).count()
    }
}

impl Desk {
    /// Takes a session's call in, and holds the state that it left to what demand 3 says of the target.
    pub fn switched(&mut self, switch: &mut Switch, after: (&State, &[u8]), request: &Request, served: &Served) -> Compared<()> {
        if let Some(way) = switch.called(after.0, request, served) {
            let place = MADE_GOOD.iter().position(|each| *each == way).expect("every way is listed");
            self.counts.switches.made_good[place] += 1;
        }
        self.stands(switch, after)
    }

    /// The same of a night with which a session goes on.
    pub fn switched_by_night(&mut self, switch: &mut Switch, after: (&State, &[u8]), passed: &Passed) -> Compared<()> {
        switch.passed(after.0, passed);
        self.stands(switch, after)
    }

    fn stands(&mut self, switch: &Switch, (state, bytes): (&State, &[u8])) -> Compared<()> {
        let Some(stands) = switch.stands(state) else {
            let what = "the target does not stand as demand 3 has it";
            return Err(Difference::of_call(format!("{what}: {switch:?}\n{}", shown(bytes))));
        };
        let place = STANDS.iter().position(|each| *each == stands).expect("every one is listed");
        self.counts.switches.stands[place] += 1;
        self.counts.switches.unseen_on_target += u64::from(stands == Stands::Applied && switch.is_half_pushed());
        Ok(())
    }
}
