//! A map with each junction's roads side by side in one list.

use other::mapcheck::MOST_JUNCTIONS;

use crate::map_bytes::{ban_marks, car_parks, junction_count, road_count, roads};

/// Twelve bytes.
#[derive(Clone, Copy, Default)]
pub struct Road {
    pub number: u32,
    pub time: u32,
    to: u16,
    pub is_banned: bool,
}

const _: () = assert!(MOST_JUNCTIONS <= u16::MAX as u64);

impl Road {
    pub fn to(&self) -> u32 {
        self.to.into()
    }
}

#[derive(Clone, Copy, Default)]
struct Junction {
    first_road: u32,
    car_park: bool,
}

pub struct Graph {
    /// By number, with one more behind the last; index 0 is no junction.
    junctions: Vec<Junction>,
    roads: Vec<Road>,
}

impl Graph {
    /// Converts an accepted map and the list of its banned roads.
    pub fn new(map: &[u8], bans: &[u32]) -> Graph {
        let banned = ban_marks(map, bans);
        let mut junctions = vec![Junction::default(); junction_count(map) + 2];
        for (junction, car_park) in junctions[1..].iter_mut().zip(car_parks(map)) {
            junction.car_park = car_park;
        }
        mark_ends(map, &mut junctions);
        let mut sorted = vec![Road::default(); road_count(map)];
        for road in roads(map).rev() {
            let first = &mut junctions[road.from as usize].first_road;
            *first -= 1;
            sorted[*first as usize] = Road {
                number: road.number,
                time: road.time,
                to: road.to as u16,
                is_banned: banned[road.number as usize],
            };
        }
        Graph {
            junctions,
            roads: sorted,
        }
    }

    /// The numbers that a junction may have, and 0.
    pub fn numbers(&self) -> usize {
        self.junctions.len() - 1
    }

    pub fn is_car_park(&self, junction: u32) -> bool {
        self.junctions[junction as usize].car_park
    }

    pub fn roads_of(&self, junction: u32) -> &[Road] {
        let junction = junction as usize;
        let start = self.junctions[junction].first_road as usize;
        let end = self.junctions[junction + 1].first_road as usize;
        &self.roads[start..end]
    }
}

/// Sets each first road to the end of the junction's roads, so that filling them in from behind
/// brings it to their start.
fn mark_ends(map: &[u8], junctions: &mut [Junction]) {
    for road in roads(map) {
        junctions[road.from as usize].first_road += 1;
    }
    let mut end = 0;
    for junction in junctions {
        end += junction.first_road;
        junction.first_road = end;
    }
}
