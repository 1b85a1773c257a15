//! Practice maps: the same map everywhere for a number of junctions and a start value.

use crate::map::{Junction, Map, Road};

pub const USUAL_START: u32 = 2_463_534_242;

/// The next state of Marsaglia's xorshift on 32 bits.
pub fn draw(state: &mut u32) -> u64 {
    *state ^= *state << 13;
    *state ^= *state >> 17;
    *state ^= *state << 5;
    u64::from(*state)
}

/// The map of 1 to `MOST_JUNCTIONS` junctions and a start other than 0.
pub fn practice_map(junctions: u64, start: u32) -> Map {
    let mut state = start;
    let mut map = Map {
        junctions: Vec::new(),
        roads: Vec::new(),
        names: Vec::new(),
    };
    let mut second_roads = Vec::new();
    for number in 1..=junctions {
        let car_park = u64::from(draw(&mut state).is_multiple_of(4));
        let around = number % junctions + 1;
        let first_metres = metres(draw(&mut state));
        let across = 1 + draw(&mut state) % junctions;
        let second_metres = metres(draw(&mut state));
        let name = format!("J{number}");
        map.junctions.push(Junction {
            first: number,
            car_park,
            name_start: map.names.len() as u64,
            name_length: name.len() as u64,
        });
        map.names.extend(name.bytes());
        map.roads
            .push(road(number, around, first_metres, junctions + number));
        second_roads.push(road(number, across, second_metres, 0));
    }
    map.roads.extend(second_roads);
    map
}

fn metres(drawn: u64) -> u64 {
    1 + drawn % 100_000
}

fn road(from: u64, to: u64, metres: u64, next: u64) -> Road {
    Road {
        from,
        to,
        metres,
        speed: 80,
        next,
    }
}
