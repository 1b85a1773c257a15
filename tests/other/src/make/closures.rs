//! Roads to strike: mostly ones that the plan drives, others, and numbers that no road has.

use super::orders::tame_both;
use super::random::Random;
use super::{run_of, Run};
use crate::moves::{Document, Trip, DRIVE};
use crate::planning::records_of;
use crate::words::word;

const ALL_BITS: u64 = u32::MAX as u64;

/// The most reachable states of a run, with the road and without it. Fewer than elsewhere, so that previews
/// take little of a comparison's time.
pub const MOST_STATES: usize = 300;

/// A road and the run that its closure is previewed in.
#[derive(Clone, Debug)]
pub struct Closure {
    pub run: Run,
    pub road: u32,
}

/// One of a road that the plan drives, one of any road, and one of a number that no road has.
pub fn random_closures(random: &mut Random, run: &Run) -> Vec<Closure> {
    let closure = |number: u64| Closure {
        run: run.clone(),
        road: number as u32,
    };
    let roads = road_count(&run.map);
    let mut closures = match Trip::open(&run.map, &run.order, &run.bans) {
        Ok(trip) => closures_of_roads(random, &trip),
        Err(_) => vec![closure(random.between(1, roads.max(1)))],
    };
    closures.push(closure(unknown_road(random, roads)));
    closures
}

fn closures_of_roads(random: &mut Random, trip: &Trip) -> Vec<Closure> {
    if trip.map.roads.is_empty() {
        return Vec::new();
    }
    let mut numbers = vec![random.between(1, trip.map.roads.len() as u64)];
    let driven = driven_roads(trip);
    if !driven.is_empty() {
        numbers.push(random.pick(&driven));
    }
    let closure = |number| Closure {
        run: tamed(trip, number),
        road: number as u32,
    };
    numbers.into_iter().map(closure).collect()
}

/// The roads that the plan drives.
fn driven_roads(trip: &Trip) -> Vec<u64> {
    let records = records_of::<Document>(trip);
    let drives = records.iter().filter(|record| record.step.kind == DRIVE);
    drives.map(|record| record.step.number).collect()
}

/// The run, with a latest that leaves few reachable states when the road is struck too: a short road
/// can then be driven round and round.
fn tamed(trip: &Trip, road: u64) -> Run {
    let mut open = trip.clone();
    let mut closed = trip.clone();
    closed.map.strike(road);
    tame_both(&mut open, &mut closed, MOST_STATES);
    run_of(&open)
}

/// R as the map has it, spoilt or not; 0 where it is too short to have one.
pub fn road_count(map: &[u8]) -> u64 {
    if map.len() < 16 {
        0
    } else {
        word(map, 8)
    }
}

/// A number that no road has, unless R is the greatest number there is.
pub fn unknown_road(random: &mut Random, roads: u64) -> u64 {
    random.pick(&[0, (roads + 1).min(ALL_BITS), ALL_BITS])
}
