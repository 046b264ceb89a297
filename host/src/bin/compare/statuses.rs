//! Order 12: every number of two bytes in place of an entry's four statuses.

use crate::desk::{Compared, Desk};
use crate::outside::{lent, many, with_net, OPEN};
use makowist_host::controller::Number;
use makowist_host::image::{entry, entry_at_mut, put_u16, HIGHEST_STATUSES};
use makowist_host::reads::Query;

/// The fields of a transaction that are statuses.
const FIELDS: [u64; 4] = [2, 3, 5, 6];

/// One of three has the number: whether the image is well-formed, and each of the four.
pub fn run(desk: &mut Desk) -> Compared<()> {
    let fresh = lent(desk, &with_net(&many(200, 3), OPEN));
    for statuses in 0..=u16::MAX {
        let number = 201 + statuses % 3;
        let mut bytes = fresh.clone();
        put_u16(entry_at_mut(&mut bytes, Number(number)), entry::STATUSES, statuses);
        let decoded = desk.decoded(&bytes);
        desk.lend(&bytes);
        desk.counts.statuses[usize::from(statuses > HIGHEST_STATUSES)] += 1;
        let asked = if statuses > HIGHEST_STATUSES { 1 } else { FIELDS.len() };
        for field in FIELDS.into_iter().take(asked) {
            desk.query(decoded.as_ref(), &bytes, Query::Transaction { number: u64::from(number), field })?;
        }
    }
    Ok(())
}
