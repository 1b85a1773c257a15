//! The list of banned roads (document 02, P8), and refusal 25.

use crate::reply::*;

/// The list, unless one of its numbers is 0, above R or not above the one before.
pub fn accepted_bans(bans: &[u32], roads: u64) -> Result<&[u32], Reply> {
    let is_bad = |index: &usize| {
        let number = bans[*index];
        number == 0 || u64::from(number) > roads || *index > 0 && number <= bans[*index - 1]
    };
    match (0..bans.len()).find(is_bad) {
        Some(first) => Err(Reply::refused(BAD_BANS, first as u64 + 1)),
        None => Ok(bans),
    }
}
