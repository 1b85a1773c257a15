//! Name: the part of the map that spells a junction's name.

use crate::mapcheck::accepted_map;
use crate::reply::*;

/// The reply, and the part's offset in the map and its length; both are 0 beside a refusal.
pub fn name(map: &[u8], junction: u32) -> (Reply, usize, usize) {
    match named(map, u64::from(junction)) {
        Ok((offset, length)) => (Reply::success(length as u64, 0), offset, length),
        Err(refused) => (refused, 0, 0),
    }
}

fn named(bytes: &[u8], number: u64) -> Result<(usize, usize), Reply> {
    let map = accepted_map(bytes)?;
    if !(1..=map.junctions.len() as u64).contains(&number) {
        return Err(Reply::refused(UNKNOWN_NAME, number));
    }
    let junction = &map.junctions[number as usize - 1];
    let offset = map.names_offset() + junction.name_start as usize;
    Ok((offset, junction.name_length as usize))
}
