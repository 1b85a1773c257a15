//! The junctions and roads in the bytes of an accepted map, for the planners' conversions.

use other::map::{HEADER_BYTES, JUNCTION_BYTES, ROAD_BYTES};
use other::words::word;

pub struct Road {
    pub number: u32,
    pub from: u32,
    pub to: u32,
    pub time: u32,
}

/// Whether each road is banned, by number; index 0 is no road.
pub fn ban_marks(map: &[u8], bans: &[u32]) -> Vec<bool> {
    let mut banned = vec![false; road_count(map) + 1];
    bans.iter().for_each(|road| banned[*road as usize] = true);
    banned
}

pub fn junction_count(map: &[u8]) -> usize {
    word(map, 4) as usize
}

pub fn road_count(map: &[u8]) -> usize {
    word(map, 8) as usize
}

/// Whether each junction is a car park.
pub fn car_parks(map: &[u8]) -> impl Iterator<Item = bool> + '_ {
    let junctions = &map[HEADER_BYTES..][..JUNCTION_BYTES * junction_count(map)];
    junctions
        .chunks_exact(JUNCTION_BYTES)
        .map(|junction| word(junction, 4) == 1)
}

/// The roads, from the first to the last.
pub fn roads(map: &[u8]) -> impl DoubleEndedIterator<Item = Road> + '_ {
    let start = HEADER_BYTES + JUNCTION_BYTES * junction_count(map);
    let roads = &map[start..][..ROAD_BYTES * road_count(map)];
    let read = |(index, road): (usize, &[u8])| Road {
        number: index as u32 + 1,
        from: word(road, 0) as u32,
        to: word(road, 4) as u32,
        time: road_time(word(road, 8) as u32, word(road, 12) as u32),
    };
    roads.chunks_exact(ROAD_BYTES).enumerate().map(read)
}

/// A road's seconds as in `other::map`, with one division: at an exact half an odd number gives way
/// to the even one above it.
pub fn road_time(metres: u32, speed: u32) -> u32 {
    let (dividend, divisor) = (18 * metres, 5 * speed);
    let lower = dividend / divisor;
    let upwards = 2 * (dividend % divisor) + lower % 2 > divisor;
    (lower + u32::from(upwards)).max(1)
}
