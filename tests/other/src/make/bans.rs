//! Trips with banned roads, at clocks near those at which a ban begins or ends, and ban lists, most of them spoilt.

use super::orders::{random_unit, rules_of, tame_both, MOST_STATES};
use super::random::Random;
use super::sketch::{Sketch, METRES_OF_A_SECOND, METRES_OF_NINE_SECONDS};
use super::{draw_trip, random_trip};
use crate::calendar::{day_of, easter, Date, DAY_SECONDS, FEASTS, OPENING};
use crate::map::Map;
use crate::moves::{Document, Trip};
use crate::order::{Order, RuleWords, LATEST_CLOCK};
use crate::planning::records_of;

const LAST_DAY: u64 = LATEST_CLOCK / DAY_SECONDS;
const LAST_YEAR: u64 = 2063;
const MOST_DRAWS: usize = 5;

/// Mostly one on which the bans change the plan: several are drawn until one is found.
pub fn ban_trip(random: &mut Random) -> Trip {
    match random.below(20) {
        0 => return tied_by_the_kind(random),
        1..=4 => return hours_at_a_gate(random),
        _ => {}
    }
    let trip = random_trip(random);
    let mut banned = with_bans(random, &trip);
    let is_any_good = random.one_in(5);
    for _ in 0..MOST_DRAWS {
        if is_any_good || changes_the_plan(&banned) {
            break;
        }
        let drawn = draw_trip(random);
        let trip = random.pick(&[&trip, &drawn]).clone();
        banned = with_bans(random, &trip);
    }
    banned
}

/// A break is needed between two roads, of which the first is banned. The queue before it is often as long as a first
/// part, which then takes no time that the journey would not take without it. With the mark the second part leads where
/// the break does, which is as long: only the lower kind may be written.
fn tied_by_the_kind(random: &mut Random) -> Trip {
    let seconds: [u64; 2] = [(); 2].map(|()| random.between(2, 9));
    let mut sketch = Sketch::default();
    let [source, park, target] = [true, true, false].map(|is_park| sketch.junction(is_park));
    for (from, to, seconds) in [(source, park, seconds[0]), (park, target, seconds[1])] {
        sketch.road(from, to, METRES_OF_A_SECOND * seconds);
    }
    let all: u64 = seconds.iter().sum();
    let break_time = random.between(2, 6);
    let first_part = random.between(1, break_time);
    let queue = first_part + random.pick(&[0, 0, 1, break_time]) - random.below(2);
    let limits = [all - 1, break_time, all, break_time + 9];
    let rules = rules_of(limits, [first_part, break_time], [all, break_time + 9]);
    let opening = DAY_SECONDS * any_sunday(random) + OPENING;
    let order = Order {
        source,
        target,
        departure: opening - queue,
        latest: opening + all + 2 * break_time,
        ..Order::of_hours(rules, [0; 3])
    };
    let bans = random.pick(&[&[1][..], &[1, 2]]).to_vec();
    Trip {
        bans,
        ..Trip::without_bans(sketch.map(), order)
    }
}

/// Two long roads, of which one or both are banned. The lorry comes to one of them at a moment at which a ban may begin or
/// end, or a second beside it, and latest leaves time for the queue. A limit often asks for a break or a rest, for which
/// the queue must not stand.
fn hours_at_a_gate(random: &mut Random) -> Trip {
    let counts: [u64; 2] = [(); 2].map(|()| random.between(60, 1_500));
    let seconds = counts.map(|count| 9 * count);
    let mut sketch = Sketch::default();
    let [source, middle, target] = [(); 3].map(|()| sketch.junction(random.one_in(2)));
    for (from, to, count) in [(source, middle, counts[0]), (middle, target, counts[1])] {
        sketch.road(from, to, METRES_OF_NINE_SECONDS * count);
    }
    let all: u64 = seconds.iter().sum();
    let rules = rules_at_a_gate(random, all);
    let edge = DAY_SECONDS * random_day(random) + random.pick(&[0, OPENING]);
    let came_at = edge + random.below(3);
    let driven = random.pick(&[0, seconds[0]]);
    let departure = (came_at - 1).saturating_sub(driven);
    let latest = departure + all + OPENING + random.pick(&[0, 0, rules[1], rules[3]]);
    let order = Order {
        source,
        target,
        departure: departure.min(LATEST_CLOCK),
        latest: latest.min(LATEST_CLOCK),
        ..Order::of_hours(rules, [0; 3])
    };
    let bans = random.pick(&[&[1][..], &[2], &[1, 2]]).to_vec();
    let mut banned = Trip {
        bans,
        ..Trip::without_bans(sketch.map(), order)
    };
    tame_beside_unbanned(&mut banned);
    banned
}

fn rules_at_a_gate(random: &mut Random, all: u64) -> RuleWords {
    let spell_limit = all - random.below(2);
    let shift_limit = random.pick(&[spell_limit, all]);
    let parts = random.pick(&[[0, 0], [0, 0], [900, 1_800], [900, 2_700]]);
    let limits = [spell_limit, 2_700, shift_limit, 39_600];
    rules_of(limits, parts, [all, 162_000])
}

fn any_sunday(random: &mut Random) -> u64 {
    7 * random.below(LAST_DAY / 7) + 1
}

/// Whether there is a plan, and another one without the ban list.
fn changes_the_plan(trip: &Trip) -> bool {
    let banned = records_of::<Document>(trip);
    !banned.is_empty() && banned != records_of::<Document>(&without_list(trip))
}

fn without_list(trip: &Trip) -> Trip {
    Trip::without_bans(trip.map.clone(), trip.order.clone())
}

/// The trip with some roads banned, begun shortly before a moment at which a ban may begin or end. There are few
/// reachable states, with the bans and without them.
fn with_bans(random: &mut Random, trip: &Trip) -> Trip {
    let mut banned = trip.clone();
    banned.bans = random_list(random, trip.map.roads.len() as u64);
    let unit = random_unit(random, &trip.map);
    let moment = random_moment(random, unit).min(LATEST_CLOCK);
    let ahead = unit * random.below(5) + u64::from(random.one_in(4));
    let most = (DAY_SECONDS + OPENING).min(20 * unit);
    let longer = random.pick(&[0, unit, 4 * unit, OPENING.min(most), most]);
    let order = &mut banned.order;
    let span = order.latest - order.departure;
    order.departure = moment.saturating_sub(ahead);
    order.latest = (order.departure + span + longer).min(LATEST_CLOCK);
    tame_beside_unbanned(&mut banned);
    banned
}

/// The law that bans make nothing earlier asks for both plans.
fn tame_beside_unbanned(banned: &mut Trip) {
    let mut unbanned = without_list(banned);
    tame_both(banned, &mut unbanned, MOST_STATES);
}

/// The beginning or the end of a ban, or a moment that is neither. Where roads are short, the queue must be so too.
fn random_moment(random: &mut Random, unit: u64) -> u64 {
    let midnight = DAY_SECONDS * random_day(random);
    let opening = midnight + OPENING;
    let is_short = unit < OPENING / 20;
    match random.below(10) {
        0..=2 => opening,
        3 => opening - random.below(2),
        4 if is_short => opening + random.below(2),
        4 => midnight + random.below(DAY_SECONDS),
        5 => midnight + DAY_SECONDS,
        6..=7 => midnight,
        _ if is_short => opening - unit * random.below(4),
        _ => midnight,
    }
}

/// A Sunday, another ban day, a day beside one, or one near the end of a year or of February.
fn random_day(random: &mut Random) -> u64 {
    let year = random.between(2000, LAST_YEAR);
    let near_easter = |distance: i64| easter(year).saturating_add_signed(distance);
    let date = |(month, day)| day_of(Date { year, month, day });
    let sunday = any_sunday(random);
    let day = match random.below(10) {
        0..=2 => sunday,
        3..=6 => near_easter(random.pick(&FEASTS)),
        7..=8 => near_easter(random.pick(&[-3, -1, 0, 2, 38, 40, 48, 49, 51])),
        _ => date(random.pick(&[(1, 1), (2, 28), (2, 29), (3, 1), (12, 31)])),
    };
    if day <= LAST_DAY {
        day
    } else {
        sunday
    }
}

/// A list that passes: none of the roads, one, all, or any.
fn random_list(random: &mut Random, roads: u64) -> Vec<u32> {
    let all = 1..=roads as u32;
    match random.below(8) {
        _ if roads == 0 => Vec::new(),
        0 => Vec::new(),
        1 => vec![random.between(1, roads) as u32],
        2 => vec![roads as u32],
        3..=4 => all.collect(),
        _ => all.filter(|_| random.one_in(2)).collect(),
    }
}

const LISTS: usize = 6;

/// A list that passes, and several that are spoilt.
pub fn random_lists(random: &mut Random, map: &Map) -> Vec<Vec<u32>> {
    let roads = map.roads.len() as u64;
    let mut lists = vec![random_list(random, roads)];
    lists.extend((1..LISTS).map(|_| spoilt_list(random, roads)));
    lists
}

/// A list with a fault at its first place, in its middle or at its last, sometimes with two.
pub fn spoilt_list(random: &mut Random, roads: u64) -> Vec<u32> {
    let mut list = random_list(random, roads);
    list.extend(list.is_empty().then_some(1));
    for _ in 0..random.pick(&[1, 1, 2]) {
        let any = random.index(list.len());
        let at = random.pick(&[0, any, list.len() - 1]);
        spoil(random, &mut list, at, roads as u32);
    }
    list
}

/// A number that is 0 or above R, equal to its neighbour or in its place.
fn spoil(random: &mut Random, list: &mut Vec<u32>, at: usize, roads: u32) {
    match random.below(6) {
        0 => list[at] = 0,
        1 => list[at] = roads + 1,
        2 => list[at] = random.pick(&[roads + 256, roads + 65_536, u32::MAX]),
        3 => list.swap(0, at),
        4 => list[at] = list[at.saturating_sub(1)],
        _ => list.insert(at, list[at]),
    }
}
