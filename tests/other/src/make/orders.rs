//! Random accepted orders, in proportion to the map's road times.

use super::random::Random;
use crate::map::{Map, Road};
use crate::moves::Trip;
use crate::order::{Order, RuleWords, EUROPEAN_RULES, LATEST_CLOCK, LONGEST_RULE};
use crate::planning::reaches_at_most;

/// The most reachable states that a case may have.
pub const MOST_STATES: usize = 1_500;

pub fn random_order(random: &mut Random, map: &Map) -> Order {
    let junctions = map.junctions.len() as u64;
    let unit = random_unit(random, map);
    let hours = random_hours(random, unit);
    let multiple = random.pick(&[0, 2, 5, 10, 20, 40]);
    let span = near(random, unit * multiple);
    let departure = random_departure(random, span);
    let (source, target) = random_ends(random, junctions);
    Order {
        source,
        target,
        departure,
        latest: (departure + span).min(LATEST_CLOCK),
        ..hours
    }
}

/// An order with accepted rules and figures, measured by this unit; it has no trip.
pub fn random_hours(random: &mut Random, unit: u64) -> Order {
    let rules = random_rules(random, unit);
    let [spell_limit, _, shift_limit, .., week_limit, _] = rules;
    let (spell, shift) = random_figures(random, spell_limit, shift_limit);
    let week = random_week(random, unit, shift, week_limit);
    Order::of_hours(rules, [spell, shift, week])
}

/// Often the two ends of the line that many maps have.
fn random_ends(random: &mut Random, junctions: u64) -> (u64, u64) {
    match random.below(12) {
        0..=5 => (1, junctions),
        6..=10 => (random.between(1, junctions), random.between(1, junctions)),
        _ => (junctions, junctions),
    }
}

/// A road's time, often the longest, by which limits and pauses are measured.
pub fn random_unit(random: &mut Random, map: &Map) -> u64 {
    if map.roads.is_empty() {
        return random.between(1, 9);
    }
    let any = map.roads[random.index(map.roads.len())].time();
    let longest = map.roads.iter().map(Road::time).max().expect("a road");
    random.pick(&[any, longest]).min(LONGEST_RULE / 3)
}

/// Words 6 to 13.
fn random_rules(random: &mut Random, unit: u64) -> RuleWords {
    if random.one_in(10) {
        return EUROPEAN_RULES;
    }
    let limits = random_limits(random, unit);
    let [_, break_time, shift_limit, rest_time] = limits;
    let parts = random_parts(random, break_time);
    let week = random_week_rules(random, unit, shift_limit, rest_time);
    rules_of(limits, parts, week)
}

/// Words 6 to 9, 10 and 11, and 12 and 13, as one.
pub fn rules_of(limits: [u64; 4], parts: [u64; 2], week: [u64; 2]) -> RuleWords {
    let words = [&limits[..], &parts, &week].concat();
    words.try_into().expect("eight words")
}

/// Words 6 to 9.
fn random_limits(random: &mut Random, unit: u64) -> [u64; 4] {
    if random.one_in(10) {
        let [limits @ .., _, _, _, _] = EUROPEAN_RULES;
        return limits;
    }
    let limited = |value: u64| value.clamp(1, LONGEST_RULE);
    let [spell_units, shift_units] = match random.below(6) {
        0 => [1, 0], // a rest before every other road
        _ => [random.between(1, 4), random.between(0, 6)],
    };
    let spell_limit = limited(near(random, unit * spell_units));
    let shift_limit = limited(spell_limit + near(random, unit * shift_units));
    let pause = random.pick(&[1, unit / 2, unit, 2 * unit]);
    let break_time = limited(near(random, pause));
    let longer = random.pick(&[0, 1, unit, 3 * unit]);
    let rest_time = limited(break_time + near(random, longer));
    [spell_limit, break_time, shift_limit, rest_time]
}

/// Words 10 and 11. Together the parts are often as long as the break, so that sums of pauses
/// coincide, and often shorter, so that plans have them; neither is so small that pauses alone would
/// fill a case with states.
pub fn random_parts(random: &mut Random, break_time: u64) -> [u64; 2] {
    let third = break_time / 3;
    let part = |length: u64| length.clamp(1, break_time);
    let any = part(random.between(break_time / 10, break_time));
    match random.below(12) {
        0..=2 => [0, 0],
        3 => [part(third), part(2 * third)],
        4 => [part(break_time / 2), part(break_time / 2)],
        5 => [part(2 * third), part(third)],
        6..=9 => [part(third), part(third)],
        10 => random.pick(&[[part(third), any], [any, part(third)]]),
        _ => random.pick(&[[any, break_time], [break_time, any], [break_time; 2]]),
    }
}

/// Words 12 and 13. The week limit is often near the shift limit, so that plans have weekly rests, and
/// sometimes never met; the weekly rest is often hardly longer than the rest, and sometimes so long
/// that no trip has time for it.
fn random_week_rules(random: &mut Random, unit: u64, shift_limit: u64, rest_time: u64) -> [u64; 2] {
    let limited = |value: u64| value.min(LONGEST_RULE);
    let units = random.pick(&[0, 1, 2, 3, 6]);
    let close = limited(shift_limit + near(random, unit * units));
    let longer = random.pick(&[0, 1, unit / 2, unit, unit, 3 * unit]);
    let short = limited(rest_time + near(random, longer));
    match random.below(6) {
        0..=1 => [LONGEST_RULE, LONGEST_RULE],
        2 => [close, LONGEST_RULE],
        _ => [close, short],
    }
}

/// Word 14: often so near its limit that a road or two are left, or none.
fn random_week(random: &mut Random, unit: u64, shift: u64, week_limit: u64) -> u64 {
    let units = random.pick(&[0, 1, 1, 2, 2, 3]);
    let left = near(random, unit * units);
    match random.below(6) {
        0..=2 => shift,
        3..=4 => week_limit.saturating_sub(left).max(shift),
        _ => random.between(shift, week_limit),
    }
}

/// Words 4 and 5.
fn random_figures(random: &mut Random, spell_limit: u64, shift_limit: u64) -> (u64, u64) {
    match random.below(6) {
        0..=3 => (0, 0),
        4 => (spell_limit, random.pick(&[spell_limit, shift_limit])),
        _ => {
            let shift = random.between(0, shift_limit);
            (random.between(0, shift.min(spell_limit)), shift)
        }
    }
}

fn random_departure(random: &mut Random, span: u64) -> u64 {
    match random.below(4) {
        0 => 0,
        1 => random.below(1_000),
        2 => random.below(LATEST_CLOCK),
        _ => LATEST_CLOCK.saturating_sub(span),
    }
}

/// Mostly the value itself, sometimes one less or one more: limits are often just met.
fn near(random: &mut Random, value: u64) -> u64 {
    match random.below(8) {
        0 => value.saturating_sub(1),
        1 => value + 1,
        _ => value,
    }
}

/// Brings latest nearer until a trip has few reachable states.
pub fn tame(trip: &mut Trip) {
    while !reaches_at_most(trip, MOST_STATES) {
        bring_latest_nearer(trip);
    }
}

/// The same for two trips that share departure and latest, until each has at most so many.
pub fn tame_both(one: &mut Trip, other: &mut Trip, most: usize) {
    while !reaches_at_most(one, most) || !reaches_at_most(other, most) {
        bring_latest_nearer(one);
        bring_latest_nearer(other);
    }
}

fn bring_latest_nearer(trip: &mut Trip) {
    let order = &mut trip.order;
    order.latest = order.departure + (order.latest - order.departure) * 2 / 3;
}
