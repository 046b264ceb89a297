//! The proved controller's exported functions, as the C header declares them.

use crate::northbound::Request;
use crate::reads::Query;
use crate::why::Question;

mod exported {
    extern "C" {
        pub fn makowist_fresh(image: *mut u8, length: usize, remembers: u64) -> u64;
        pub fn makowist_append(image: *mut u8, length: usize, pairs: *const u8, pairs_length: usize) -> u64;
        pub fn makowist_rollback(image: *mut u8, length: usize, number: u64) -> u64;
        pub fn makowist_start(image: *mut u8, length: usize) -> u64;
        pub fn makowist_stop(image: *mut u8, length: usize) -> u64;
        pub fn makowist_connect(image: *mut u8, length: usize, node: u64) -> u64;
        pub fn makowist_disconnect(image: *mut u8, length: usize, node: u64) -> u64;
        pub fn makowist_master(image: *mut u8, length: usize, node: u64) -> u64;
        pub fn makowist_sync(image: *mut u8, length: usize, node: u64) -> u64;
        pub fn makowist_work(
            image: *mut u8,
            length: usize,
            node: u64,
            job: u64,
            number: u64,
            outcome: u64,
            cut: u64,
        ) -> u64;
        pub fn makowist_fold(image: *mut u8, length: usize, number: u64) -> u64;
        pub fn makowist_live(image: *const u8, length: usize, room: *mut u8, room_length: usize) -> u64;
        pub fn makowist_well_formed(image: *const u8, length: usize) -> u64;
        pub fn makowist_value(image: *const u8, length: usize, table: u64, path: u64) -> u64;
        pub fn makowist_transaction(image: *const u8, length: usize, number: u64, field: u64) -> u64;
        pub fn makowist_record(image: *const u8, length: usize, field: u64) -> u64;
        pub fn makowist_connection(image: *const u8, length: usize, node: u64, field: u64) -> u64;
        pub fn makowist_owner(image: *const u8, length: usize, path: u64) -> u64;
        pub fn makowist_class(image: *const u8, length: usize, number: u64) -> u64;
        pub fn makowist_took(image: *const u8, length: usize, number: u64) -> u64;
        pub fn makowist_undone(image: *const u8, length: usize, number: u64) -> u64;
        pub fn makowist_drift(image: *const u8, length: usize) -> u64;
        pub fn makowist_tally(image: *const u8, length: usize, log: u64, totals: *mut u8, totals_length: usize) -> u64;
        pub fn makowist_why(image: *const u8, length: usize, node: u64, job: u64, number: u64) -> u64;
        pub fn makowist_night(
            image: *mut u8,
            length: usize,
            node: u64,
            budget: u64,
            outcomes: *const u8,
            outcomes_length: usize,
            events: *mut u8,
            events_length: usize,
        ) -> u64;
        pub fn makowist_import(image: *mut u8, length: usize, entries: *const u8, entries_length: usize) -> u64;
    }
}

/// What `makowist_well_formed` answers for an image that is well-formed, and for one that is not.
pub const WELL_FORMED: u64 = 0;
pub const NOT_WELL_FORMED: u64 = 1;

/// Carries a request out on a lent image, with an append's pairs lent from `pairs`.
#[inline]
pub fn serve(image: &mut [u8], request: &Request, pairs: &[u8]) -> u64 {
    let (bytes, length) = (image.as_mut_ptr(), image.len());
    // SAFETY: every pointer goes with the length of the slice that it was taken from, and nobody else holds the image.
    unsafe {
        match *request {
            Request::Fresh(remembers) => exported::makowist_fresh(bytes, length, remembers),
            Request::Append(_) => exported::makowist_append(bytes, length, pairs.as_ptr(), pairs.len()),
            Request::Rollback(number) => exported::makowist_rollback(bytes, length, number),
            Request::Start => exported::makowist_start(bytes, length),
            Request::Stop => exported::makowist_stop(bytes, length),
            Request::Connect(node) => exported::makowist_connect(bytes, length, node),
            Request::Disconnect(node) => exported::makowist_disconnect(bytes, length, node),
            Request::Master(node) => exported::makowist_master(bytes, length, node),
            Request::Sync(node) => exported::makowist_sync(bytes, length, node),
            Request::Work { node, job, number, outcome, cut } => {
                exported::makowist_work(bytes, length, node, job, number, outcome, cut)
            }
            Request::Fold(number) => exported::makowist_fold(bytes, length, number),
        }
    }
}

/// Works through the night on a lent image, with the outcomes and the room for its events lent.
#[inline]
pub fn night(image: &mut [u8], node: u64, budget: u64, outcomes: &[u8], events: &mut [u8]) -> u64 {
    // SAFETY: as in `serve`.
    unsafe {
        exported::makowist_night(
            image.as_mut_ptr(),
            image.len(),
            node,
            budget,
            outcomes.as_ptr(),
            outcomes.len(),
            events.as_mut_ptr(),
            events.len(),
        )
    }
}

/// Makes a lent image the one that a lent list is imported as.
#[inline]
pub fn import(image: &mut [u8], list: &[u8]) -> u64 {
    // SAFETY: as in `serve`.
    unsafe { exported::makowist_import(image.as_mut_ptr(), image.len(), list.as_ptr(), list.len()) }
}

/// Writes the live list into the room, two bytes a number, and answers its length, packed.
#[inline]
pub fn live(image: &[u8], room: &mut [u8]) -> u64 {
    // SAFETY: as in `serve`.
    unsafe { exported::makowist_live(image.as_ptr(), image.len(), room.as_mut_ptr(), room.len()) }
}

#[inline]
pub fn well_formed(image: &[u8]) -> u64 {
    // SAFETY: as in `serve`.
    unsafe { exported::makowist_well_formed(image.as_ptr(), image.len()) }
}

/// Adds a lent image's row to lent totals, as the log of that place.
#[inline]
pub fn tally(image: &[u8], log: u64, totals: &mut [u8]) -> u64 {
    // SAFETY: as in `serve`.
    unsafe { exported::makowist_tally(image.as_ptr(), image.len(), log, totals.as_mut_ptr(), totals.len()) }
}

/// Reads one number of a lent image, who set a path, what the switch took, or why a job does not move.
#[inline]
pub fn read(image: &[u8], query: Query) -> u64 {
    let (bytes, length) = (image.as_ptr(), image.len());
    // SAFETY: as in `serve`.
    unsafe {
        match query {
            Query::Value { table, path } => exported::makowist_value(bytes, length, table, path),
            Query::Transaction { number, field } => exported::makowist_transaction(bytes, length, number, field),
            Query::Record { field } => exported::makowist_record(bytes, length, field),
            Query::Connection { node, field } => exported::makowist_connection(bytes, length, node, field),
            Query::Owner { path } => exported::makowist_owner(bytes, length, path),
            Query::Class { number } => exported::makowist_class(bytes, length, number),
            Query::Took { number } => exported::makowist_took(bytes, length, number),
            Query::Undone { number } => exported::makowist_undone(bytes, length, number),
            Query::Drift => exported::makowist_drift(bytes, length),
            Query::Why(Question { node, job, number }) => exported::makowist_why(bytes, length, node, job, number),
        }
    }
}
