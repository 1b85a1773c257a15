//! Map check: refusals 1 to 8.

use crate::map::{length_needed, Junction, Map, Road, HEADER_BYTES};
use crate::reply::*;
use crate::words::word;

pub const MOST_JUNCTIONS: u64 = 12_288;
pub const MOST_ROADS: u64 = 40_960;
pub const MOST_NAME_BYTES: u64 = 1_048_576;
const LONGEST_NAME: u64 = 32;

pub fn check_map(bytes: &[u8]) -> Reply {
    told(accepted_map(bytes).map(|_| Reply::success(0, 0)))
}

/// The map, unless one of refusals 1 to 8 fits.
pub fn accepted_map(bytes: &[u8]) -> Result<Map, Reply> {
    let map = sized_map(bytes)?;
    let roads = map.roads.len() as u64;
    let first_is_bad = |j: &Junction| j.first > roads;
    let next_is_bad = |number: u64, r: &Road| r.next != 0 && (r.next <= number || r.next > roads);
    refuse(
        BAD_JUNCTION,
        lowest(&map.junctions, |_, j| {
            first_is_bad(j) || bad_junction(&map, j)
        }),
    )?;
    refuse(
        BAD_ROAD,
        lowest(&map.roads, |number, r| {
            next_is_bad(number, r) || bad_road(&map, r)
        }),
    )?;
    refuse(BROKEN_CHAIN, lowest_broken_chain(&map))?;
    refuse(BAD_LETTERING, lowest_bad_letter(&map))?;
    Ok(map)
}

/// The map, unless one of refusals 1 to 6 and 8 fits with first and next aside.
pub fn map_without_chains(bytes: &[u8]) -> Result<Map, Reply> {
    let map = sized_map(bytes)?;
    refuse(
        BAD_JUNCTION,
        lowest(&map.junctions, |_, j| bad_junction(&map, j)),
    )?;
    refuse(BAD_ROAD, lowest(&map.roads, |_, r| bad_road(&map, r)))?;
    refuse(BAD_LETTERING, lowest_bad_letter(&map))?;
    Ok(map)
}

/// Refusals 1 to 4.
fn sized_map(bytes: &[u8]) -> Result<Map, Reply> {
    let length = bytes.len() as u64;
    if bytes.len() < HEADER_BYTES {
        return Err(Reply::refused(SHORT_MAP, length));
    }
    if word(bytes, 0) != 1 {
        return Err(Reply::refused(STRANGE_MAP, 0));
    }
    let [junctions, roads, name_bytes] = [4, 8, 12].map(|offset| word(bytes, offset));
    if !(1..=MOST_JUNCTIONS).contains(&junctions) {
        return Err(Reply::refused(OVERSIZE, 4));
    }
    if roads > MOST_ROADS {
        return Err(Reply::refused(OVERSIZE, 8));
    }
    if name_bytes > MOST_NAME_BYTES {
        return Err(Reply::refused(OVERSIZE, 12));
    }
    let needed = length_needed(junctions as usize, roads as usize, name_bytes as usize);
    if bytes.len() != needed {
        return Err(Reply::refused(MISFIT, needed as u64));
    }
    Ok(Map::read(bytes, junctions as usize, roads as usize))
}

fn refuse(number: u64, place: Option<u64>) -> Result<(), Reply> {
    place.map_or(Ok(()), |place| Err(Reply::refused(number, place)))
}

/// The lowest number, counted from 1, of a bad item.
fn lowest<T>(items: &[T], bad: impl Fn(u64, &T) -> bool) -> Option<u64> {
    (1..)
        .zip(items)
        .find(|(number, item)| bad(*number, item))
        .map(|(number, _)| number)
}

fn bad_junction(map: &Map, junction: &Junction) -> bool {
    junction.car_park > 1
        || !(1..=LONGEST_NAME).contains(&junction.name_length)
        || junction.name_start + junction.name_length > map.names.len() as u64
}

fn bad_road(map: &Map, road: &Road) -> bool {
    let junctions = 1..=map.junctions.len() as u64;
    !junctions.contains(&road.from)
        || !junctions.contains(&road.to)
        || !(1..=2_000_000).contains(&road.metres)
        || !(5..=130).contains(&road.speed)
}

/// The lowest road that is off its own junction's chain or on another's.
/// Next always rises here (refusal 6), so that every chain ends.
fn lowest_broken_chain(map: &Map) -> Option<u64> {
    let mut on_own = vec![false; map.roads.len()];
    let mut on_other = vec![false; map.roads.len()];
    for (number, junction) in (1..).zip(&map.junctions) {
        let mut reached = junction.first;
        while reached != 0 {
            let road = map.road(reached);
            let marks = if road.from == number {
                &mut on_own
            } else {
                &mut on_other
            };
            marks[reached as usize - 1] = true;
            reached = road.next;
        }
    }
    let chained: Vec<_> = on_own.into_iter().zip(on_other).collect();
    lowest(&chained, |_, (own, other)| !own || *other)
}

fn lowest_bad_letter(map: &Map) -> Option<u64> {
    let index = map
        .names
        .iter()
        .position(|letter| !(0x20..=0x7E).contains(letter))?;
    Some((map.names_offset() + index) as u64)
}
