//! Random cases, small enough for every reachable state to be enumerated.

pub mod bans;
pub mod closures;
pub mod damage;
pub mod maps;
pub mod orders;
pub mod pairs;
pub mod practice;
pub mod random;
pub mod sheets;
pub mod sketch;
pub mod ties;
pub mod traces;
pub mod weeks;

use crate::moves::{Document, Trip};
use crate::planning::{answer_of, labels_of, reachable_states};
use closures::Closure;
use random::Random;
use sheets::Timing;
use traces::Replay;

/// A map and an order, as bytes, and a ban list.
#[derive(Clone, Debug)]
pub struct Run {
    pub map: Vec<u8>,
    pub order: Vec<u8>,
    pub bans: Vec<u32>,
}

impl Run {
    pub fn without_bans(map: Vec<u8>, order: Vec<u8>) -> Run {
        let bans = Vec::new();
        Run { map, order, bans }
    }
}

/// What every operation is tried on.
#[derive(Clone, Debug)]
pub struct Case {
    pub run: Run,
    /// Sheets to retime and audit, each with its own order.
    pub timings: Vec<Timing>,
    /// Maps, most of them spoilt, to check, to chain and to find names in.
    pub spoilt_maps: Vec<Vec<u8>>,
    /// A second run that makes nothing worse than `run`, which is then accepted (demand 3).
    pub easier: Option<Run>,
    /// Traces, each with its own rules and figures.
    pub replays: Vec<Replay>,
    /// Roads to strike, each with its own order.
    pub closures: Vec<Closure>,
    /// Ban lists, most of them spoilt.
    pub lists: Vec<Vec<u32>>,
}

impl Case {
    pub fn runs(&self) -> impl Iterator<Item = &Run> {
        [Some(&self.run), self.easier.as_ref()]
            .into_iter()
            .flatten()
    }

    /// Of its runs and of its sheets, some of them spoilt.
    pub fn orders(&self) -> impl Iterator<Item = &Vec<u8>> {
        let of_runs = self.runs().map(|run| &run.order);
        of_runs.chain(self.timings.iter().map(|timing| &timing.order))
    }
}

const TIMINGS: usize = 4;
const SPOILT_ORDERS: usize = 4;
const SPOILT_MAPS: usize = 8;
const REPLAYS: usize = 8;
const MOST_DRAWS: usize = 12;

/// So many cases to one with a ban list.
const CASES_TO_BANS: u64 = 3;

/// The case of a seed and a number: each can be made again on its own.
pub fn case(seed: u64, number: u64) -> Case {
    let random = &mut Random::new(seed, number);
    let has_bans = number.is_multiple_of(CASES_TO_BANS);
    let trip = match has_bans {
        true => bans::ban_trip(random),
        false => random_trip(random),
    };
    let mut case = match random.below(10) {
        0..=4 => sound_case(random, &trip),
        5..=6 => pair_case(random, &trip),
        7..=8 => damaged_map_case(random, &trip),
        _ => damaged_order_case(random, &trip),
    };
    let replay = |_| traces::random_replay(random);
    case.replays = (0..REPLAYS).map(replay).collect();
    case.closures = closures::random_closures(random, &case.run);
    if has_bans {
        case.lists = bans::random_lists(random, &trip.map);
        spoil_damaged_run(random, &mut case);
    }
    case
}

/// Where the map or the order is damaged, the list often is too.
fn spoil_damaged_run(random: &mut Random, case: &mut Case) {
    let run = &mut case.run;
    if Trip::open(&run.map, &run.order, &run.bans).is_err() && random.one_in(2) {
        run.bans = random.pick(&[&case.lists[0], &case.lists[1]]).clone();
    }
}

/// Most trips drawn at random have hardly a label, so that several are drawn until one has as many
/// as wanted; failing that, the one with the most is taken.
fn random_trip(random: &mut Random) -> Trip {
    let wanted = random.pick(&[1, 2, 4, 8, 12, 16]);
    let journey = !random.one_in(4);
    let mut best = draw_trip(random);
    let mut most = count_labels(&best, journey);
    for _ in 0..MOST_DRAWS {
        if most >= wanted {
            break;
        }
        let trip = draw_trip(random);
        let labels = count_labels(&trip, journey);
        if labels > most {
            (best, most) = (trip, labels);
        }
    }
    best
}

fn draw_trip(random: &mut Random) -> Trip {
    match random.below(200) {
        0..=3 => return ties::tied_trip(random),
        4 => return weeks::week_trip(random),
        _ => {}
    }
    let map = maps::random_map(random);
    let order = orders::random_order(random, &map);
    let mut trip = Trip::without_bans(map, order);
    orders::tame(&mut trip);
    trip
}

/// N; 0 where a journey is asked for and there is none.
fn count_labels(trip: &Trip, journey: bool) -> usize {
    let reachable = reachable_states::<Document>(trip);
    match answer_of::<Document>(trip, &reachable) {
        None if journey => 0,
        answer => labels_of::<Document>(&reachable, answer).len(),
    }
}

fn run_of(trip: &Trip) -> Run {
    Run {
        map: trip.map.bytes(),
        order: trip.order.bytes(),
        bans: trip.bans.clone(),
    }
}

fn sound_case(random: &mut Random, trip: &Trip) -> Case {
    let mut timings: Vec<Timing> = (0..TIMINGS + SPOILT_ORDERS)
        .map(|_| sheets::random_timing(random, trip))
        .collect();
    for timing in &mut timings[TIMINGS..] {
        timing.order = damage::damaged_order(random, &trip.order.bytes());
    }
    Case {
        run: run_of(trip),
        timings,
        spoilt_maps: (0..SPOILT_MAPS)
            .map(|_| damage::damaged_map(random, &trip.map))
            .collect(),
        easier: None,
        replays: Vec::new(),
        closures: Vec::new(),
        lists: Vec::new(),
    }
}

fn pair_case(random: &mut Random, trip: &Trip) -> Case {
    let mut trip = trip.clone();
    let mut easier = pairs::easier_trip(random, &trip);
    orders::tame_both(&mut trip, &mut easier, orders::MOST_STATES);
    Case {
        run: run_of(&trip),
        timings: Vec::new(),
        spoilt_maps: Vec::new(),
        easier: Some(run_of(&easier)),
        replays: Vec::new(),
        closures: Vec::new(),
        lists: Vec::new(),
    }
}

fn damaged_map_case(random: &mut Random, trip: &Trip) -> Case {
    let mut case = sound_case(random, trip);
    case.run.map = damage::damaged_map(random, &trip.map);
    tame_run(&mut case.run);
    case
}

fn damaged_order_case(random: &mut Random, trip: &Trip) -> Case {
    let mut case = sound_case(random, trip);
    case.run.order = damage::damaged_order(random, &case.run.order);
    tame_run(&mut case.run);
    case
}

/// A damaged run may still be accepted, and then reach far more states.
fn tame_run(run: &mut Run) {
    if let Ok(mut trip) = Trip::open(&run.map, &run.order, &run.bans) {
        orders::tame(&mut trip);
        run.order = trip.order.bytes();
    }
}
