//! Trips along a line of car parks whose driver soon needs a weekly rest and, behind it, a break, for which
//! the parts of a split may stand.

use super::orders::rules_of;
use super::random::Random;
use super::sketch::{Sketch, METRES_OF_A_SECOND};
use crate::moves::Trip;
use crate::order::Order;

const ROADS: usize = 3;

pub fn week_trip(random: &mut Random) -> Trip {
    let seconds: [u64; ROADS] = [(); ROADS].map(|()| random.between(3, 6));
    let mut sketch = Sketch::default();
    let mut junction = sketch.junction(true);
    for road in seconds {
        let next = sketch.junction(true);
        sketch.road(junction, next, METRES_OF_A_SECOND * road);
        junction = next;
    }
    let map = sketch.map();
    let order = Order {
        source: 1,
        target: junction,
        ..random_hours(random, seconds)
    };
    Trip::without_bans(map, order)
}

/// The hours left of the week end before or behind one of the roads. A spell lasts for two roads, and often
/// the parts of a split are shorter than the break.
fn random_hours(random: &mut Random, seconds: [u64; ROADS]) -> Order {
    let all: u64 = seconds.iter().sum();
    let spell_limit = all - seconds[ROADS - 1];
    let break_time = random.between(3, 6);
    let [first_part, second_part] = [random.between(1, 2), random.between(1, break_time)];
    let rest_time = break_time + random.between(0, 4);
    let weekly_rest = rest_time + random.between(0, 4);
    let shift_limit = all + random.between(0, 2);
    let driven: u64 = seconds[..random.index(ROADS)].iter().sum();
    let left = (driven + random.between(0, 1)).saturating_sub(random.between(0, 1));
    let week = shift_limit + random.between(0, 3);
    let limits = [spell_limit, break_time, shift_limit, rest_time];
    let rules = rules_of(
        limits,
        [first_part, second_part],
        [week + left, weekly_rest],
    );
    let shift = random.pick(&[0, 0, all]);
    Order {
        latest: all + weekly_rest + 2 * break_time,
        ..Order::of_hours(rules, [0, shift, week])
    }
}
