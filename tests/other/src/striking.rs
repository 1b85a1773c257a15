//! Striking a road, and the preview of its closure.

use crate::map::Map;
use crate::mapcheck::accepted_map;
use crate::moves::{accepted_run, Document};
use crate::planning::plan;
use crate::reply::*;

pub fn strike(bytes: &mut [u8], road: u32) -> Reply {
    match struck_map(bytes, u64::from(road)) {
        Ok(map) => {
            bytes.copy_from_slice(&map.bytes());
            Reply::success(0, 0)
        }
        Err(refused) => refused,
    }
}

/// The map with the road struck, unless one of refusals 1 to 8 and 24 fits.
fn struck_map(bytes: &[u8], number: u64) -> Result<Map, Reply> {
    let mut map = accepted_map(bytes)?;
    if !(1..=map.roads.len() as u64).contains(&number) {
        return Err(Reply::refused(UNKNOWN_ROAD, number));
    }
    map.strike(number);
    Ok(map)
}

/// What planning answers and writes on a copy of the map in which the road is struck. The road keeps its ban.
pub fn preview(
    map: &[u8],
    order: &[u8],
    bans: &[u32],
    road: u32,
    labels: &mut [u32],
    sheet: &mut [u8],
) -> Reply {
    if let Err(refused) = accepted_run(map, order) {
        return refused;
    }
    let mut copy = map.to_vec();
    let struck = strike(&mut copy, road);
    match struck.number {
        0 => plan::<Document>(&copy, order, bans, labels, sheet),
        _ => struck,
    }
}
