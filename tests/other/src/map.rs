//! A map as lists, and its bytes. Nothing is judged here.

use std::cmp::Ordering;

use crate::words::{bytes_of, word};

pub const HEADER_BYTES: usize = 16;
pub const JUNCTION_BYTES: usize = 16;
pub const ROAD_BYTES: usize = 20;

#[derive(Clone, Debug, PartialEq, Eq)]
pub struct Junction {
    pub first: u64,
    pub car_park: u64,
    pub name_start: u64,
    pub name_length: u64,
}

#[derive(Clone, Debug, PartialEq, Eq)]
pub struct Road {
    pub from: u64,
    pub to: u64,
    pub metres: u64,
    pub speed: u64,
    pub next: u64,
}

impl Road {
    pub fn time(&self) -> u64 {
        road_time(self.metres, self.speed)
    }
}

/// 18 × metres / (5 × km per hour) to the nearest second, an exact half to the even one, and never
/// below 1.
pub fn road_time(metres: u64, speed: u64) -> u64 {
    let (dividend, divisor) = (18 * metres, 5 * speed);
    let distance = |seconds: u64| (divisor * seconds).abs_diff(dividend);
    let lower = dividend / divisor;
    let nearest = match distance(lower).cmp(&distance(lower + 1)) {
        Ordering::Less => lower,
        Ordering::Equal => lower + lower % 2,
        Ordering::Greater => lower + 1,
    };
    nearest.max(1)
}

#[derive(Clone, Debug, PartialEq, Eq)]
pub struct Map {
    pub junctions: Vec<Junction>,
    pub roads: Vec<Road>,
    pub names: Vec<u8>,
}

/// The length that a map with these counts must have.
pub fn length_needed(junctions: usize, roads: usize, name_bytes: usize) -> usize {
    names_offset(junctions, roads) + name_bytes
}

fn roads_offset(junctions: usize) -> usize {
    HEADER_BYTES + JUNCTION_BYTES * junctions
}

fn names_offset(junctions: usize, roads: usize) -> usize {
    roads_offset(junctions) + ROAD_BYTES * roads
}

impl Map {
    /// Reads bytes of exactly the length that the counts need.
    pub fn read(bytes: &[u8], junctions: usize, roads: usize) -> Map {
        let junction = |index: usize| {
            let at = HEADER_BYTES + JUNCTION_BYTES * index;
            Junction {
                first: word(bytes, at),
                car_park: word(bytes, at + 4),
                name_start: word(bytes, at + 8),
                name_length: word(bytes, at + 12),
            }
        };
        let road = |index: usize| {
            let at = roads_offset(junctions) + ROAD_BYTES * index;
            Road {
                from: word(bytes, at),
                to: word(bytes, at + 4),
                metres: word(bytes, at + 8),
                speed: word(bytes, at + 12),
                next: word(bytes, at + 16),
            }
        };
        Map {
            junctions: (0..junctions).map(junction).collect(),
            roads: (0..roads).map(road).collect(),
            names: bytes[names_offset(junctions, roads)..].to_vec(),
        }
    }

    pub fn bytes(&self) -> Vec<u8> {
        let counts = [self.junctions.len(), self.roads.len(), self.names.len()];
        let mut values = vec![1];
        values.extend(counts.map(|count| count as u64));
        for j in &self.junctions {
            values.extend([j.first, j.car_park, j.name_start, j.name_length]);
        }
        for r in &self.roads {
            values.extend([r.from, r.to, r.metres, r.speed, r.next]);
        }
        let mut bytes = bytes_of(&values);
        bytes.extend(&self.names);
        bytes
    }

    /// Where the name bytes begin.
    pub fn names_offset(&self) -> usize {
        names_offset(self.junctions.len(), self.roads.len())
    }

    /// The road of a number counted from 1.
    pub fn road(&self, number: u64) -> &Road {
        &self.roads[number as usize - 1]
    }

    /// Lets a road, of a number counted from 1, lead back to where it begins.
    pub fn strike(&mut self, number: u64) {
        let road = &mut self.roads[number as usize - 1];
        road.to = road.from;
    }

    /// Lets each chain rise through all its junction's roads. Every from must be a junction.
    pub fn link_chains(&mut self) {
        for junction in &mut self.junctions {
            junction.first = 0;
        }
        let mut last_of = vec![0; self.junctions.len()];
        for index in 0..self.roads.len() {
            let number = index as u64 + 1;
            let from = self.roads[index].from as usize - 1;
            self.roads[index].next = 0;
            match last_of[from] {
                0 => self.junctions[from].first = number,
                before => self.roads[before as usize - 1].next = number,
            }
            last_of[from] = number;
        }
    }
}
