//! Map T, of three junctions and three roads, for the examples.
use crate::listing::bytes_of;

pub fn map_t() -> Vec<u8> {
    let mut map = bytes_of(&[
        1, 3, 3, 9, // header: format, junctions, roads, name bytes
        1, 0, 0, 3, // Hub: first road, car park, name start, name length
        2, 1, 3, 3, // Lay, a car park
        0, 0, 6, 3, // End
        1, 2, 240000, 80, 3, // road 1: from, to, metres, km per hour, next road
        2, 3, 160000, 80, 0, //
        1, 3, 400000, 80, 0, //
    ]);
    map.extend_from_slice(b"HubLayEnd");
    map
}
