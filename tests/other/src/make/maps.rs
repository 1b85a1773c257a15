//! Random sound maps. Few distinct lengths and speeds, so that road times often coincide.

use super::practice::practice_map;
use super::random::Random;
use crate::map::{Junction, Map, Road};

/// Metres and speeds that go together: seconds whose sums often coincide, seconds rounded either
/// way or from an exact half, hours, and roads longer than any limit.
const SCALES: [(&[u64], &[u64]); 5] = [
    (&[10, 20, 30, 40, 50], &[36]),
    (&[100, 200, 300], &[36, 72]),
    (&[1, 5, 15, 20, 21, 25, 29, 35, 45, 50], &[36, 72, 130]),
    (&[80_000, 120_001, 160_000, 240_000], &[80, 90]),
    (
        &[250_000, 500_000, 1_000_000, 1_999_999, 2_000_000],
        &[5, 10, 130],
    ),
];

pub fn random_map(random: &mut Random) -> Map {
    match random.below(20) {
        0..=1 => {
            let start = random.between(1, u64::from(u32::MAX)) as u32;
            practice_map(random.between(1, 6), start)
        }
        2 => {
            let junctions = random.between(20, 200);
            let ends = tree_ends(random, junctions);
            map_over(random, junctions, &ends)
        }
        _ => {
            let junctions = random.pick(&[1, 2, 3, 4, 4, 5, 5, 6, 7, 8]);
            let ends = random_ends(random, junctions);
            map_over(random, junctions, &ends)
        }
    }
}

/// A map whose roads have these ends.
fn map_over(random: &mut Random, junctions: u64, ends: &[(u64, u64)]) -> Map {
    let names = random_names(random);
    let park_chance = random.pick(&[1, 2, 2, 4, 100]);
    let mut map = Map {
        junctions: (0..junctions)
            .map(|_| random_junction(random, park_chance, names.len() as u64))
            .collect(),
        roads: random_roads(random, ends),
        names,
    };
    map.link_chains();
    map
}

fn random_names(random: &mut Random) -> Vec<u8> {
    let length = random.between(1, 80);
    (0..length)
        .map(|_| random.between(0x20, 0x7E) as u8)
        .collect()
}

/// Names may overlap, and some name bytes may belong to none.
fn random_junction(random: &mut Random, park_chance: u64, name_bytes: u64) -> Junction {
    let name_length = random.between(1, name_bytes.min(32));
    Junction {
        first: 0,
        car_park: u64::from(random.one_in(park_chance)),
        name_start: random.between(0, name_bytes - name_length),
        name_length,
    }
}

fn random_roads(random: &mut Random, ends: &[(u64, u64)]) -> Vec<Road> {
    let (all_metres, all_speeds) = random.pick(&SCALES);
    let metres: Vec<u64> = (0..3).map(|_| random.pick(all_metres)).collect();
    let speeds: Vec<u64> = (0..2).map(|_| random.pick(all_speeds)).collect();
    ends.iter()
        .map(|&(from, to)| Road {
            from,
            to,
            metres: random.pick(&metres),
            speed: random.pick(&speeds),
            next: 0,
        })
        .collect()
}

/// Each junction is reached from an earlier one: many labels with few other states.
fn tree_ends(random: &mut Random, junctions: u64) -> Vec<(u64, u64)> {
    (2..=junctions)
        .map(|to| (random.between(1 + to / 8, to - 1), to))
        .collect()
}

/// From and to of every road. Often a line through all junctions is among them, so that journeys
/// get long; the others are parallel to an earlier road, or lie anywhere.
fn random_ends(random: &mut Random, junctions: u64) -> Vec<(u64, u64)> {
    let mut ends: Vec<(u64, u64)> = Vec::new();
    if !random.one_in(3) {
        ends.extend((1..junctions).map(|from| (from, from + 1)));
    }
    for _ in 0..random.between(0, junctions + 1) {
        let any = (random.between(1, junctions), random.between(1, junctions));
        let beside_another = !ends.is_empty() && random.one_in(4);
        let added = if beside_another {
            random.pick(&ends)
        } else {
            any
        };
        ends.insert(random.index(ends.len() + 1), added);
    }
    ends
}
