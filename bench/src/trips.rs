//! The trips that are timed: from junction 1 under the European figures, to targets chosen by N without a split, for a
//! driver who comes from a weekly rest.

use other::make::practice::{draw, USUAL_START};
use other::order::{Order, EUROPEAN_RULES, LATEST_CLOCK};

use crate::map_bytes::road_count;
use crate::maps::NamedMap;
use crate::strong::{Graph, Strong};
use crate::trip::Trip;

#[derive(Clone)]
pub struct NamedTrip {
    pub name: String,
    pub order: Order,
    /// The banned roads, rising.
    pub bans: Vec<u32>,
}

/// When a trip sets out that meets a Sunday, by name: the evening before, 1 January 2000, and that morning.
const SUNDAY_DEPARTURES: [(&str, u64); 2] = [("Saturday 20:00", 72_000), ("Sunday 06:00", 108_000)];

/// What a driver late in the week may drive before a weekly rest.
const LEFT_OF_THE_WEEK: u64 = 10_800;

impl NamedTrip {
    /// The same trip with Europe's parts of a break.
    pub fn with_split(&self) -> NamedTrip {
        NamedTrip {
            order: european_split_order(self.order.target),
            ..self.clone()
        }
    }

    /// The same trip for a driver who comes from a rest and has driven nearly all of the week.
    pub fn late_in_the_week(&self) -> NamedTrip {
        NamedTrip {
            order: Order {
                week: self.order.week_limit - LEFT_OF_THE_WEEK,
                ..self.order.clone()
            },
            ..self.clone()
        }
    }

    /// The same trip over a Sunday, with so many roads in a hundred of the map banned, whichever are drawn.
    fn over_a_sunday(
        &self,
        map: &NamedMap,
        (name, departure): (&str, u64),
        percent: u64,
    ) -> NamedTrip {
        let mut state = USUAL_START;
        let is_drawn = |_: &u32| draw(&mut state) % 100 < percent;
        let roads = 1..=road_count(&map.bytes) as u32;
        let banned = NamedTrip {
            order: Order {
                departure,
                ..self.order.clone()
            },
            bans: roads.filter(is_drawn).collect(),
            ..self.clone()
        };
        banned.called(&format!("{name}, {percent}% banned"))
    }

    /// The same trip with this behind its name.
    pub fn called(self, what: &str) -> NamedTrip {
        NamedTrip {
            name: format!("{}, {what}", self.name),
            ..self
        }
    }

    fn unbanned(name: String, order: Order) -> NamedTrip {
        let bans = Vec::new();
        NamedTrip { name, order, bans }
    }
}

pub fn european_order(target: u64) -> Order {
    Order {
        first_part: 0,
        second_part: 0,
        ..european_split_order(target)
    }
}

/// The same with the parts of a split break.
pub fn european_split_order(target: u64) -> Order {
    Order {
        source: 1,
        target,
        latest: LATEST_CLOCK,
        ..Order::of_hours(EUROPEAN_RULES, [0, 0, 0])
    }
}

/// Each trip with each departure, and with so many roads in a hundred banned.
pub fn sunday_trips(map: &NamedMap, trips: &[NamedTrip], percents: &[u64]) -> Vec<NamedTrip> {
    let with_bans = |trip: &NamedTrip, departure| {
        let banned = |percent: &u64| trip.over_a_sunday(map, departure, *percent);
        percents.iter().map(banned).collect::<Vec<NamedTrip>>()
    };
    let departing = |trip| SUNDAY_DEPARTURES.map(|departure| with_bans(trip, departure));
    trips.iter().flat_map(departing).flatten().collect()
}

/// The targets that a million labels reach, by N.
pub struct Targets {
    /// N and target, by rising N.
    by_labels: Vec<(usize, u64)>,
}

impl Targets {
    /// A search passes through the same labels whatever its target, so that one tells every N.
    pub fn of(map: &[u8]) -> Targets {
        let trip = Trip::new(&european_order(1));
        let needed = Strong::default().labels_to_each(&Graph::new(map, &[]), &trip);
        let mut by_labels: Vec<_> = needed
            .into_iter()
            .zip(0..)
            .filter(|(labels, _)| *labels > 0)
            .collect();
        by_labels.sort_unstable();
        Targets { by_labels }
    }

    /// Targets whose N is the 10th, 50th and 95th percentile.
    pub fn near_middle_far(&self) -> Vec<NamedTrip> {
        [("near", 10), ("middle", 50), ("far", 95)]
            .map(|(name, percentile)| {
                let index = (self.by_labels.len() - 1) * percentile / 100;
                let (_, target) = self.by_labels[index];
                NamedTrip::unbanned(format!("{name}, to {target}"), european_order(target))
            })
            .into()
    }

    /// For each of these counts the target with the lowest N not below it, where there is one, and
    /// the target that is reached last.
    pub fn with_labels(&self, counts: &[usize]) -> Vec<NamedTrip> {
        let first_with = |count: &usize| {
            let index = self.by_labels.partition_point(|(labels, _)| labels < count);
            self.by_labels.get(index)
        };
        counts
            .iter()
            .filter_map(first_with)
            .chain(self.by_labels.last())
            .map(|(_, target)| NamedTrip::unbanned(format!("to {target}"), european_order(*target)))
            .collect()
    }
}
