//! Trips on which another state has the answer's clock and spell: only their rank by shift, week and mark
//! tells whether it is counted.

use super::orders::rules_of;
use super::random::Random;
use crate::map::{Junction, Map, Road};
use crate::moves::Trip;
use crate::order::Order;

pub fn tied_trip(random: &mut Random) -> Trip {
    match random.below(3) {
        0 => tied_by_the_shift(random),
        1 => tied_by_the_week(random),
        _ => tied_by_the_mark(random),
    }
}

/// Two ways from junction 1, each over a car park, 2 or 3, to an end of its own, 4 or 5.
struct Ways {
    /// Seconds to the car park.
    longer: u64,
    shorter: u64,
    /// Seconds from either car park to the end.
    last: u64,
    /// Whether junction 1 is a car park too.
    has_park: bool,
    /// Where the longer way ends, and where the other does.
    ends: (u64, u64),
}

impl Ways {
    fn random(random: &mut Random, difference: u64) -> Ways {
        let shorter = random.between(1, 4);
        Ways {
            longer: shorter + difference,
            shorter,
            last: random.between(2, 6),
            has_park: false,
            ends: random.pick(&[(4, 5), (5, 4)]),
        }
    }

    /// The limit of spell and shift that asks for a rest at the car park.
    fn limit(&self) -> u64 {
        self.longer.max(self.last)
    }

    /// Mostly the end of the longer way.
    fn target(&self, random: &mut Random) -> u64 {
        let (end, other_end) = self.ends;
        random.pick(&[end, end, other_end])
    }

    fn map(&self) -> Map {
        let (end, other_end) = self.ends;
        let roads = [
            (1, 2, self.longer),
            (2, end, self.last),
            (1, 3, self.shorter),
            (3, other_end, self.last),
        ];
        let mut map = Map {
            junctions: (1..=5).map(|number| self.junction(number)).collect(),
            roads: roads.map(road).into(),
            names: b"x".to_vec(),
        };
        map.link_chains();
        map
    }

    fn junction(&self, number: u64) -> Junction {
        let is_park = [2, 3].contains(&number) || number == 1 && self.has_park;
        Junction {
            first: 0,
            car_park: u64::from(is_park),
            name_start: 0,
            name_length: 1,
        }
    }
}

/// The driver must rest at the start. The hours left of the week ask for a weekly rest there on the longer
/// way, and then a break at the car park is enough; on the shorter one two rests often take as long: the
/// state there has a lower shift than the answer, and a higher week.
fn tied_by_the_shift(random: &mut Random) -> Trip {
    let last = random.between(1, 3);
    let difference = last + random.between(1, 2);
    let ways = Ways {
        last,
        has_park: true,
        ..Ways::random(random, difference)
    };
    let break_time = random.between(1, 3);
    let more_rest = random.between(0, 2);
    let rest_time = more_rest + difference + break_time + random.pick(&[0, 0, 0, 1]);
    let weekly_rest = rest_time + more_rest;
    let shift_limit = ways.longer + last + random.between(0, 2);
    let week = shift_limit + random.between(0, 3);
    let week_limit = week + ways.shorter + last;
    let limits = [ways.longer, break_time, shift_limit, rest_time];
    let rules = rules_of(limits, [0, 0], [week_limit, weekly_rest]);
    let map = ways.map();
    let order = Order {
        source: 1,
        target: ways.target(random),
        latest: 3 * weekly_rest + 2 * ways.longer,
        ..Order::of_hours(rules, [0, shift_limit, week])
    };
    Trip::without_bans(map, order)
}

/// Neither rest takes longer than the other, so that the weekly one is taken. On the shorter way a first
/// part behind it often makes up for the seconds that the way is shorter: the state there has the mark
/// and all other figures of the answer.
fn tied_by_the_mark(random: &mut Random) -> Trip {
    let first_part = random.between(1, 4);
    let difference = first_part + random.pick(&[0, 0, 0, 1]);
    let ways = Ways::random(random, difference);
    let order = tied_order(random, &ways, first_part, 0);
    let week_limit = order.week_limit + random.between(0, 9);
    let map = ways.map();
    let order = Order {
        week_limit,
        ..order
    };
    Trip::without_bans(map, order)
}

/// The hours left of the week ask for a weekly rest on the longer way, and on the shorter one not. There a
/// rest and a first part often take as long as the weekly rest and the seconds that the way is shorter:
/// the state has the mark, and a higher week than the answer.
fn tied_by_the_week(random: &mut Random) -> Trip {
    let difference = random.between(1, 2);
    let more_rest = random.between(1, 2);
    let first_part = difference + more_rest + random.pick(&[0, 0, 0, 1]);
    let ways = Ways::random(random, difference);
    let order = tied_order(random, &ways, first_part, more_rest);
    let week = ways.limit() + random.between(0, 3);
    let week_limit = week + ways.shorter + ways.last;
    let map = ways.map();
    let order = Order {
        week,
        week_limit,
        ..order
    };
    Trip::without_bans(map, order)
}

/// An order with a weekly rest so much longer than the rest, and the lowest week limit that there may be.
fn tied_order(random: &mut Random, ways: &Ways, first_part: u64, more_rest: u64) -> Order {
    let limit = ways.limit();
    let break_time = first_part + random.between(0, 3);
    let rest_time = break_time + random.between(0, 4);
    let second_part = random.between(1, break_time);
    let weekly_rest = rest_time + more_rest;
    let limits = [limit, break_time, limit, rest_time];
    let rules = rules_of(limits, [first_part, second_part], [limit, weekly_rest]);
    Order {
        source: 1,
        target: ways.target(random),
        latest: 2 * limit + 2 * weekly_rest,
        ..Order::of_hours(rules, [0; 3])
    }
}

/// A road by from, to and seconds.
fn road((from, to, seconds): (u64, u64, u64)) -> Road {
    Road {
        from,
        to,
        metres: 10 * seconds,
        speed: 36,
        next: 0,
    }
}
