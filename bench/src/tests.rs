//! The planners against the other planner, which enumerates every reachable state, and against each
//! other on maps too large for that.

use other::case_probes::AMPLE_WORDS;
use other::make::orders::MOST_STATES;
use other::make::random::Random;
use other::make::{case, Run};
use other::map::road_time;
use other::mapcheck::{check_map, MOST_JUNCTIONS};
use other::moves::{Document, Trip as SmallTrip, FIRST, SECOND, WEEKLY};
use other::operations::DOCUMENT;
use other::order::Order;
use other::reply::Reply;
use other::retiming::audit;
use other::sheet::{sheet_bytes, Sheet};

use crate::answer::Answer;
use crate::ban_days::{ban_days, gate};
use crate::journeys::wander;
use crate::map_bytes;
use crate::maps::{dense_comb, grid, hubs, practice, uniform_grid, usual_comb, NamedMap};
use crate::ordinary::{self, Ordinary};
use crate::planning::Planners;
use crate::strong::heap::Heap;
use crate::strong::{self, Strong};
use crate::trip::Trip;
use crate::trips::{european_order, european_split_order, sunday_trips, NamedTrip, Targets};

const SEED: u64 = 1;
const CASES: u64 = 900;

/// Both planners, so that their storage is used again from case to case.
#[derive(Default)]
struct Both {
    ordinary: Ordinary,
    strong: Strong,
}

impl Both {
    fn answers(&mut self, map: &[u8], order: &Order, bans: &[u32]) -> [Answer; 2] {
        let trip = Trip::new(order);
        [
            self.ordinary.plan(&ordinary::Graph::new(map, bans), &trip),
            self.strong.plan(&strong::Graph::new(map, bans), &trip),
        ]
    }
}

fn enumerated(run: &Run) -> Answer {
    let mut labels = vec![0; AMPLE_WORDS];
    let mut sheet = vec![0; sheet_bytes(MOST_STATES)];
    let reply = (DOCUMENT.plan)(&run.map, &run.order, &run.bans, &mut labels, &mut sheet);
    Answer::told(&reply, &sheet).expect("an accepted run with label space and sheet to spare")
}

#[test]
fn road_times_are_the_other_planners() {
    for speed in 5..=130 {
        for metres in (1..=2_000).chain(1_998_001..=2_000_000) {
            let other = road_time(u64::from(metres), u64::from(speed));
            assert_eq!(u64::from(map_bytes::road_time(metres, speed)), other);
        }
    }
}

#[test]
fn both_answer_as_the_other_planner() {
    let mut both = Both::default();
    let (mut planned, mut split, mut weekly, mut queued) = (0, 0, 0, 0);
    let (mut without_road, mut most_labels) = (0, 0);
    for number in 0..CASES {
        for run in case(SEED, number).runs() {
            let Ok(trip) = SmallTrip::open(&run.map, &run.order, &run.bans) else {
                continue;
            };
            let meant = enumerated(run);
            for answer in both.answers(&run.map, &trip.order, &run.bans) {
                assert_eq!(answer, meant, "seed {SEED}, case {number}");
            }
            let [open, _] = both.answers(&run.map, &trip.order, &[]);
            queued += u64::from(open != meant);
            match meant {
                Answer::Planned(ref sheet) => {
                    planned += 1;
                    split += u64::from(has_a(sheet, &[FIRST, SECOND]));
                    weekly += u64::from(has_a(sheet, &[WEEKLY]));
                }
                Answer::NoRoad(_) => without_road += 1,
            }
            most_labels = most_labels.max(meant.labels());
        }
    }
    println!(
        "{planned} planned, {split} with a split break, {weekly} with a weekly rest, {queued} changed by bans, {without_road} without a road, up to {most_labels} labels"
    );
    assert!(planned > 300 && split > 10 && weekly > 10 && queued > 10);
    assert!(without_road > 50 && most_labels > 100);
}

/// Whether one of the moves is of one of these kinds.
fn has_a(sheet: &Sheet, kinds: &[u64]) -> bool {
    let mut records = sheet.records.iter();
    records.any(|record| kinds.contains(&record.step.kind))
}

/// Short pauses leave many labels at a junction.
#[test]
fn both_agree_on_larger_maps() {
    let mut both = Both::default();
    for map in [practice(256), practice(1_024), grid(16), grid(32)] {
        for target in (1..=256).step_by(9) {
            let european = european_order(target);
            let short_pauses = Order {
                break_time: 600,
                rest_time: 700,
                ..european.clone()
            };
            let split = european_split_order(target);
            let short_parts = Order {
                first_part: 300,
                second_part: 400,
                ..split.clone()
            };
            let short_weeks = Order {
                week_limit: 32_400,
                weekly_rest: 800,
                ..short_pauses.clone()
            };
            let split_short_weeks = Order {
                week: 30_000,
                weekly_rest: 50_000,
                week_limit: 40_000,
                ..short_parts.clone()
            };
            let without_split = [european, short_pauses, short_weeks];
            let with_split = [split, short_parts, split_short_weeks];
            for order in without_split.into_iter().chain(with_split) {
                let [one, two] = both.answers(&map.bytes, &order, &[]);
                assert_eq!(one, two, "{}, {order:?}", map.name);
            }
        }
    }
}

/// A short first part fits into a queue, and a second as long as the break leads where that leads.
#[test]
fn both_agree_on_larger_maps_with_bans() {
    let mut both = Both::default();
    let mut changed = 0;
    for map in [practice(256), practice(1_024), grid(16)] {
        let trips = Targets::of(&map.bytes).near_middle_far();
        for trip in sunday_trips(&map, &trips, &[1, 10, 100]) {
            let short_parts = Order {
                first_part: 300,
                second_part: 2_700,
                ..trip.order.clone()
            };
            for order in [&trip.order, &short_parts] {
                let [one, two] = both.answers(&map.bytes, order, &trip.bans);
                assert_eq!(one, two, "{}, {}", map.name, trip.name);
                let [open, _] = both.answers(&map.bytes, order, &[]);
                changed += u64::from(one != open);
            }
        }
    }
    assert!(changed > 50, "{changed}");
}

#[test]
fn targets_have_the_labels_that_a_search_takes() {
    let map = practice(1_024);
    let labels = |trip: &NamedTrip| {
        let [answer, _] = Both::default().answers(&map.bytes, &trip.order, &trip.bans);
        answer.labels() as usize
    };
    let counts = [1, 100, 1_000];
    let targets = Targets::of(&map.bytes);
    let trips = targets.with_labels(&counts);
    assert_eq!(trips.len(), counts.len() + 1);
    for (trip, least) in trips.iter().zip(counts) {
        assert!((least..least + 10).contains(&labels(trip)));
    }
    let [_, _, far] = &targets.near_middle_far()[..] else {
        panic!("near, middle and far");
    };
    assert!(labels(&trips[counts.len()]) >= labels(far));
}

/// From the middle trip on the driver cannot do without.
#[test]
fn trips_late_in_the_week_take_a_weekly_rest() {
    let map = practice(1_024);
    let [_, middle, far] = &Targets::of(&map.bytes).near_middle_far()[..] else {
        panic!("near, middle and far");
    };
    for trip in [middle, far] {
        let late = trip.late_in_the_week();
        let takes_weekly_rest = |trip: &NamedTrip| {
            let answers = Both::default().answers(&map.bytes, &trip.order, &trip.bans);
            answers.map(|answer| match answer {
                Answer::Planned(sheet) => has_a(&sheet, &[WEEKLY]),
                Answer::NoRoad(_) => panic!("{}", trip.name),
            })
        };
        assert_eq!(takes_weekly_rest(trip), [false; 2]);
        assert_eq!(takes_weekly_rest(&late), [true; 2]);
    }
}

#[test]
fn wandering_makes_true_sheets() {
    let map = practice(64);
    let journey = wander(&map, 500);
    let reply = audit::<Document>(&map.bytes, &journey.order, &[], &journey.sheet);
    assert_eq!((reply.number, reply.place), (0, journey.moves));
}

#[test]
fn maps_pass_the_check() {
    let passes = |map: NamedMap| assert_eq!(check_map(&map.bytes), Reply::success(0, 0));
    passes(practice(MOST_JUNCTIONS));
    passes(grid(5));
    passes(grid(96));
    passes(uniform_grid(96));
    passes(dense_comb(350));
    passes(usual_comb(400));
    for degree in [50, 200, 1_000] {
        passes(hubs(degree, 5_000));
    }
}

#[test]
fn degrees_are_those_of_the_maps() {
    for (map, degree) in [
        (practice(1_024), 2),
        (grid(8), 4),
        (uniform_grid(8), 4),
        (usual_comb(8), 2),
        (hubs(50, 200), 50),
    ] {
        assert_eq!(map.degree(), degree, "{}", map.name);
    }
}

#[test]
fn a_uniform_grid_has_one_road_time() {
    let map = uniform_grid(8);
    assert!(map_bytes::roads(&map.bytes).all(|road| road.time == 450));
}

#[test]
fn lists_of_labels_grow_along_a_comb() {
    let labels_a_junction = |teeth| {
        let map = dense_comb(teeth);
        let trips = Targets::of(&map.bytes).with_labels(&[]);
        let [answer, _] = Both::default().answers(&map.bytes, &trips[0].order, &[]);
        answer.labels() / (2 * teeth)
    };
    let [short, long] = [40, 160].map(labels_a_junction);
    assert!(short > 2 && long > 20 * short, "{short}, then {long}");
}

#[test]
fn all_agree_on_combs_and_hubs() {
    let mut planners = Planners::default();
    for map in [dense_comb(60), hubs(12, 120), uniform_grid(16)] {
        for trip in Targets::of(&map.bytes).near_middle_far() {
            let split = trip.with_split();
            let banned = sunday_trips(&map, &[trip.clone(), split.clone()], &[10, 100]);
            let early_and_late = [split, trip.late_in_the_week(), trip];
            for trip in banned.into_iter().chain(early_and_late) {
                assert!(planners.labels(&map, &trip).expect("one plan") > 0);
            }
        }
    }
}

#[test]
fn the_heap_gives_keys_in_order() {
    let random = &mut Random::new(SEED, 0);
    let mut heap = Heap::default();
    for count in 0..200 {
        let mut keys: Vec<u128> = (0..count).map(|_| random.below(50).into()).collect();
        keys.iter().for_each(|key| heap.push(*key));
        keys.sort_unstable();
        let given: Vec<u128> = std::iter::from_fn(|| heap.pop()).collect();
        assert_eq!(given, keys);
    }
}

/// The clocks of document 02's words: ends of the ban, Easter 2000 and 2024, and the day of the latest clock.
#[test]
fn gates_open_at_22() {
    for (clock, entry) in [
        (86_399, 86_399),
        (86_400, 165_600),
        (165_599, 165_600),
        (165_600, 165_600),
        (9_590_400, 9_669_600),
        (9_842_400, 9_842_400),
        (9_849_600, 9_928_800),
        (13_132_800, 13_212_000),
        (14_083_200, 14_162_400),
        (764_985_600, 765_064_800),
        (2_000_000_000, 2_000_000_000),
    ] {
        assert_eq!(gate(clock), entry);
    }
}

/// Four feasts of each year up to 2062, and two of 2063: its Ascension is behind the latest clock.
#[test]
fn feasts_are_no_sundays() {
    let feasts = ban_days().filter(|day| day % 7 != 1).count();
    let sundays = ban_days().count() - feasts;
    assert_eq!((sundays, feasts), (3_307, 4 * 63 + 2));
}
