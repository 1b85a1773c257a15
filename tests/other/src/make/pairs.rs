//! A second run that makes nothing worse than the first (demand 3).

use super::orders::random_parts;
use super::random::Random;
use crate::map::{Map, Road};
use crate::moves::Trip;
use crate::order::{Order, LONGEST_RULE};

pub fn easier_trip(random: &mut Random, trip: &Trip) -> Trip {
    Trip {
        map: easier_map(random, &trip.map),
        order: easier_order(random, &trip.order),
        bans: fewer_bans(random, &trip.bans),
    }
}

/// Some of the banned roads, often all or none of them.
pub fn fewer_bans(random: &mut Random, bans: &[u32]) -> Vec<u32> {
    if bans.is_empty() {
        return Vec::new();
    }
    let kept = random.below(4);
    let is_kept = |_: &u32| kept > 1 || kept == 1 && random.one_in(2);
    bans.iter().copied().filter(is_kept).collect()
}

/// The same junctions and road ends; no road takes longer, no car park is lost, names differ.
fn easier_map(random: &mut Random, map: &Map) -> Map {
    let mut easier = map.clone();
    for junction in &mut easier.junctions {
        if random.one_in(5) {
            junction.car_park = 1;
        }
        junction.name_start = 0;
        junction.name_length = 1;
    }
    for road in &mut easier.roads {
        if random.one_in(2) {
            *road = faster_road(random, road);
        }
    }
    easier.names = b"x".to_vec();
    easier
}

/// Longer roads at a higher speed are tried too: only the road time is compared.
fn faster_road(random: &mut Random, road: &Road) -> Road {
    let changed = Road {
        metres: random.between(1, (2 * road.metres).min(2_000_000)),
        speed: random.between(5, 130),
        ..road.clone()
    };
    if changed.time() <= road.time() {
        changed
    } else {
        road.clone()
    }
}

/// The same trip; limits no lower, pauses and parts no longer, starting figures no higher.
fn easier_order(random: &mut Random, order: &Order) -> Order {
    let spell_limit = raised(random, order.spell_limit);
    let shift_limit = raised(random, order.shift_limit).max(spell_limit);
    let break_time = lowered(random, order.break_time).max(1);
    let rest_time = lowered(random, order.rest_time).max(break_time);
    let spell = lowered(random, order.spell);
    let shift = lowered(random, order.shift).max(spell);
    let [first_part, second_part] = easier_parts(random, order, break_time);
    let week_limit = raised(random, order.week_limit).max(shift_limit);
    let weekly_rest = lowered(random, order.weekly_rest).max(rest_time);
    let week = lowered(random, order.week).max(shift);
    Order {
        spell,
        shift,
        week,
        spell_limit,
        break_time,
        shift_limit,
        rest_time,
        first_part,
        second_part,
        week_limit,
        weekly_rest,
        ..*order
    }
}

/// Parts no longer than they were, and within the shorter break; where there was no split, any.
fn easier_parts(random: &mut Random, order: &Order, break_time: u64) -> [u64; 2] {
    if !order.has_split() {
        return random_parts(random, break_time);
    }
    [order.first_part, order.second_part].map(|part| lowered(random, part).clamp(1, break_time))
}

fn raised(random: &mut Random, value: u64) -> u64 {
    match random.below(4) {
        0 => (value + 1).min(LONGEST_RULE),
        1 => random.between(value, (2 * value).min(LONGEST_RULE)),
        _ => value,
    }
}

fn lowered(random: &mut Random, value: u64) -> u64 {
    match random.below(4) {
        0 => value.saturating_sub(1),
        1 => random.between(0, value),
        _ => value,
    }
}
