//! Times planning without bans beside the library that knew none, on the same trips, and prints a table in markdown. A
//! plan that differs ends it; no time does.

use std::cell::RefCell;
use std::process::ExitCode;
use std::time::Duration;

use bench::answer::Answer;
use bench::machine::{exit_code, load, processor};
use bench::maps::{grid, hubs, practice, uniform_grid, usual_comb, NamedMap};
use bench::planning::LONGEST_PLAN;
use bench::table::{grouped, microseconds, Table};
use bench::timing::{best_of_longer, ratio, take};
use bench::trips::{NamedTrip, Targets};
use differential::LIBRARY;
use other::mapcheck::MOST_JUNCTIONS;
use other::planning::{MOST_LABELS, WORDS_OF_A_LABEL};
use other::reply::Reply;
use other::sheet::sheet_bytes;

const RUNS: usize = 15;
/// For all runs of one trip.
const LEAST_TIME: Duration = Duration::from_secs(2);
const LABEL_COUNTS: [usize; 4] = [1_000, 3_000, 10_000, 20_000];
/// Of the trips that the library is judged by.
const LEAST_LABELS: u64 = 500;

// Planning of the library of before, which bench/before.sh builds and gives this name. It takes no ban list.
#[link(name = "before", kind = "static")]
extern "C" {
    fn before_plan(
        map: *const u8,
        map_length: usize,
        order: *const u8,
        order_length: usize,
        words: *mut u32,
        word_count: usize,
        sheet: *mut u8,
        sheet_length: usize,
        reply: *mut u64,
        reply_count: usize,
    );
}

/// The space that both libraries are lent.
struct Desk {
    words: Vec<u32>,
    sheet: Vec<u8>,
}

impl Desk {
    fn before(&mut self, map: &[u8], order: &[u8]) -> Reply {
        let Desk { words, sheet } = self;
        let mut reply = [0; 3];
        // SAFETY: as the header of before asks: so many elements as each length says, those written lent as `&mut`.
        unsafe {
            before_plan(
                map.as_ptr(),
                map.len(),
                order.as_ptr(),
                order.len(),
                words.as_mut_ptr(),
                words.len(),
                sheet.as_mut_ptr(),
                sheet.len(),
                reply.as_mut_ptr(),
                reply.len(),
            )
        };
        let [number, place, arrival] = reply;
        match number {
            0 => Reply::success(place, arrival),
            _ => Reply::refused(number, place),
        }
    }

    fn now(&mut self, map: &[u8], order: &[u8]) -> Reply {
        (LIBRARY.plan)(map, order, &[], &mut self.words, &mut self.sheet)
    }

    /// N, unless the two plans differ.
    fn agreed_labels(&mut self, map: &[u8], order: &[u8]) -> Result<u64, String> {
        let reply = self.before(map, order);
        let before = Answer::told(&reply, &self.sheet)?;
        let reply = self.now(map, order);
        let now = Answer::told(&reply, &self.sheet)?;
        if before != now {
            let told = [&before, &now].map(Answer::summary);
            return Err(format!("the plans differ: {}", told.join("; ")));
        }
        Ok(now.labels())
    }

    fn best_times(&mut self, map: &[u8], order: &[u8]) -> [Duration; 2] {
        let desk = RefCell::new(self);
        best_of_longer(
            RUNS,
            LEAST_TIME,
            [
                &mut || take(desk.borrow_mut().before(map, order)),
                &mut || take(desk.borrow_mut().now(map, order)),
            ],
        )
    }

    fn time(&mut self, map: &NamedMap, trip: &NamedTrip) -> Result<Timed, String> {
        let order = trip.order.bytes();
        let labels = self
            .agreed_labels(&map.bytes, &order)
            .map_err(|why| format!("{}, {}: {why}", map.name, trip.name))?;
        let [before, now] = self.best_times(&map.bytes, &order);
        Ok(Timed {
            labels,
            before,
            now,
        })
    }
}

struct Timed {
    labels: u64,
    before: Duration,
    now: Duration,
}

impl Timed {
    fn ratio(&self) -> f64 {
        ratio(self.now, self.before)
    }

    fn cells(&self, map: &NamedMap, trip: &NamedTrip) -> [String; 6] {
        [
            map.name.clone(),
            trip.name.clone(),
            grouped(self.labels),
            microseconds(self.before),
            microseconds(self.now),
            three_decimals(self.ratio()),
        ]
    }
}

fn main() -> ExitCode {
    exit_code(report())
}

fn report() -> Result<(), String> {
    println!("{}, {} when begun.", processor(), load());
    println!("Each figure is the best of {RUNS} runs or more that take turns.\n");
    let mut desk = Desk {
        words: vec![0; WORDS_OF_A_LABEL * MOST_LABELS],
        sheet: vec![0; sheet_bytes(LONGEST_PLAN)],
    };
    let numbers = ["N", "before, µs", "now, µs", "now / before"];
    let mut table = Table::new(&["map", "trip"], &numbers);
    let mut judged = Vec::new();
    for (map, trip) in maps_with_trips().iter().flat_map(each_trip) {
        let timed = desk.time(map, trip)?;
        table.add(&timed.cells(map, trip));
        if timed.labels >= LEAST_LABELS {
            judged.push(timed.ratio());
        }
    }
    table.print();
    print_judged(judged);
    println!("{} when done.", load());
    Ok(())
}

type MapWithTrips = (NamedMap, Vec<NamedTrip>);

fn each_trip((map, trips): &MapWithTrips) -> impl Iterator<Item = (&NamedMap, &NamedTrip)> {
    trips.iter().map(move |trip| (map, trip))
}

fn maps_with_trips() -> Vec<MapWithTrips> {
    let practice_maps = [256, 1_024, 4_096, MOST_JUNCTIONS].map(practice);
    let grids = [32, 64, 96].map(grid).into_iter();
    let uniform_grids = [32, 64, 96].map(uniform_grid);
    let others = [usual_comb(400), hubs(50, 5_000)];
    let all = practice_maps.into_iter().chain(grids).chain(uniform_grids);
    all.chain(others).map(with_trips).collect()
}

/// Near, middle and far; on the largest practice map also by N, with a split and late in the week.
fn with_trips(map: NamedMap) -> MapWithTrips {
    let targets = Targets::of(&map.bytes);
    let mut trips = targets.near_middle_far();
    if map.name == practice(MOST_JUNCTIONS).name {
        for trip in targets.with_labels(&LABEL_COUNTS) {
            trips.push(trip.with_split().called("with a split"));
            trips.push(trip.late_in_the_week().called("late in the week"));
        }
    }
    (map, trips)
}

/// The median and the highest.
fn print_judged(mut ratios: Vec<f64>) {
    ratios.sort_by(f64::total_cmp);
    let Some(highest) = ratios.last() else {
        return;
    };
    println!(
        "- now / before, N ≥ {LEAST_LABELS}: median {}, highest {}; {} trips\n",
        three_decimals(ratios[ratios.len() / 2]),
        three_decimals(*highest),
        ratios.len()
    );
}

fn three_decimals(ratio: f64) -> String {
    format!("{ratio:.3}")
}
