//! Calls from well-formed states that no session reaches, and from damaged images.

use crate::by_itself;
use crate::desk::{Compared, Desk, MOST_ROOM};
use crate::nights::{self, Room};
use makowist_host::guarded::Edge;
use makowist_host::image;
use makowist_host::made_up::{damage, Focus};
use makowist_host::northbound::Request;
use makowist_host::random::Random;
use makowist_host::reads::Query;
use makowist_host::requests::{any_night, wild};

/// Compares so many calls from states that are well-formed and otherwise arbitrary.
pub fn unreached(desk: &mut Desk, calls: u64, random: &mut Random) -> Compared<()> {
    let end = desk.counts.calls + calls;
    while desk.counts.calls < end && !desk.is_over() {
        let focus = Focus::new(random);
        let state = focus.state(random);
        let bytes = focus.image(&state, random);
        assert_eq!(image::decode(&bytes).as_ref(), Some(&state), "a made-up state is well-formed");
        turn(desk);
        desk.lend(&bytes);
        desk.owners(&state, &bytes)?;
        desk.sheet(Some(&state), &bytes)?;
        for _ in 0..20 {
            let request = match random.once_in(4) {
                true => wild(&state, random),
                false => focus.request(&state, random),
            };
            desk.call_from_bytes(Some(&state), &bytes, &request)?;
        }
        desk.read(Some(&state), &bytes, random.below(MOST_ROOM + 1))?;
        for _ in 0..8 {
            desk.query(Some(&state), &bytes, Query::any(&state, random))?;
        }
        if by_itself::is_due(&state, 2, random) {
            by_itself::any(desk, &state, &bytes, random)?;
        }
    }
    Ok(())
}

/// Compares so many calls from images with a byte, a field, the length or everything damaged.
pub fn damaged(desk: &mut Desk, calls: u64, random: &mut Random) -> Compared<()> {
    let end = desk.counts.calls + calls;
    while desk.counts.calls < end && !desk.is_over() {
        let focus = Focus::new(random);
        let state = focus.state(random);
        let mut bytes = focus.image(&state, random);
        damage(&mut bytes, &state, random);
        desk.counts.folds.damaged(&bytes);
        desk.counts.owners.damaged(&bytes);
        desk.counts.remembers.damaged(&bytes);
        let decoded = desk.decoded(&bytes);
        turn(desk);
        desk.lend(&bytes);
        desk.sheet(decoded.as_ref(), &bytes)?;
        for _ in 0..6 {
            let request = match random.once_in(2) {
                true => wild(&state, random),
                false => focus.request(&state, random),
            };
            desk.call_from_bytes(decoded.as_ref(), &bytes, &request)?;
        }
        if random.once_in(20) {
            let remembers = random.one_of(&[0, 1, 2]);
            desk.call_from_bytes(decoded.as_ref(), &bytes, &Request::Fresh(remembers))?;
        }
        desk.read(decoded.as_ref(), &bytes, random.below(MOST_ROOM + 1))?;
        for _ in 0..4 {
            desk.query(decoded.as_ref(), &bytes, Query::any(&state, random))?;
        }
        if by_itself::is_due(&state, 2, random) {
            let night = any_night(&state, random);
            nights::night(desk, decoded.as_ref(), &bytes, &night, random.one_of(&Room::ALL))?;
        }
    }
    Ok(())
}

/// Lends the next image at the other edge.
fn turn(desk: &mut Desk) {
    desk.edge = match desk.edge {
        Edge::End => Edge::Begin,
        Edge::Begin => Edge::End,
    };
}
