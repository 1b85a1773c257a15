//! Holds the library's plans against those of Boost.Graph's `r_c_shortest_paths` (`bench/boost`), on small random trips
//! with bans and without and on practice maps, and prints the times on practice maps as a table in markdown. A plan that
//! differs ends it; no time does.

use std::fs::{create_dir_all, write};
use std::io::Error;
use std::path::PathBuf;
use std::process::{Command, ExitCode};
use std::time::Duration;

use bench::answer::Answer;
use bench::ban_days::ban_days;
use bench::machine::{exit_code, load, processor};
use bench::maps::{practice, NamedMap};
use bench::planning::{Planners, Timed};
use bench::table::{grouped, microseconds, ratio_text, Table};
use bench::timing::ratio;
use bench::trips::{NamedTrip, Targets};
use other::make::{case, Run};
use other::mapcheck::MOST_JUNCTIONS;
use other::moves::{Trip as SmallTrip, WEEKLY};
use other::order::Order;

const USAGE: &str = "boost PROGRAM FOLDER";
const SEED: u64 = 1;
const SMALL_TRIPS: usize = 1_000;
const PRACTICE_SIZES: [u64; 4] = [256, 1_024, 4_096, MOST_JUNCTIONS];
const RUNS: usize = 5;
/// For all runs of one trip.
const MOST_SECONDS: usize = 20;

fn main() -> ExitCode {
    let arguments: Vec<String> = std::env::args().skip(1).collect();
    let done = match &arguments[..] {
        [program, folder] => report(&Boost {
            program: program.into(),
            folder: folder.into(),
        }),
        _ => Err(USAGE.to_string()),
    };
    exit_code(done)
}

fn report(boost: &Boost) -> Result<(), String> {
    println!("{}, {} when begun.", processor(), load());
    let mut planners = Planners::default();
    compare_small_trips(boost, &mut planners)?;
    println!(
        "Each figure is the best of {RUNS} runs; those of (c) are not in turn with the others.\n"
    );
    println!("### Beside Boost.Graph, microseconds\n");
    print_practice_trips(boost, &mut planners)?;
    println!("{} when done.", load());
    Ok(())
}

/// The program of `bench/boost`, and where its maps and orders are put.
struct Boost {
    program: PathBuf,
    folder: PathBuf,
}

/// What Boost finds; none where it takes too long.
struct Searched {
    /// Stopped at the first label at target, as the library is.
    first: Option<Found>,
    /// Every undominated state at target.
    all: Option<Found>,
}

#[derive(Debug)]
struct Found {
    /// Arrival, spell, shift and week; none where there is no road.
    end: Option<[u64; 4]>,
    labels: u64,
    time: Duration,
}

impl Boost {
    fn search(&self, runs: usize, trips: &[Run]) -> Result<Vec<Searched>, String> {
        let folders = self.lay_out(trips).map_err(|error| error.to_string())?;
        write(self.ban_days(), bytes_of(ban_days())).map_err(|error| error.to_string())?;
        let first = self.find("first", runs, &folders)?;
        let all = self.find("all", runs, &folders)?;
        let both = first.into_iter().zip(all);
        Ok(both.map(|(first, all)| Searched { first, all }).collect())
    }

    fn ban_days(&self) -> PathBuf {
        self.folder.join("ban_days")
    }

    /// Writes each trip's files into a folder of its own.
    fn lay_out(&self, trips: &[Run]) -> Result<Vec<PathBuf>, Error> {
        let write_trip = |(number, trip): (usize, &Run)| {
            let folder = self.folder.join(number.to_string());
            create_dir_all(&folder)?;
            write(folder.join("map"), &trip.map)?;
            write(folder.join("order"), &trip.order)?;
            write(folder.join("bans"), bytes_of(trip.bans.iter().copied()))?;
            Ok(folder)
        };
        trips.iter().enumerate().map(write_trip).collect()
    }

    fn find(
        &self,
        mode: &str,
        runs: usize,
        folders: &[PathBuf],
    ) -> Result<Vec<Option<Found>>, String> {
        let ran = Command::new(&self.program)
            .args([mode, &runs.to_string(), &MOST_SECONDS.to_string()])
            .arg(self.ban_days())
            .args(folders)
            .output()
            .map_err(|error| error.to_string())?;
        if !ran.status.success() {
            return Err(String::from_utf8_lossy(&ran.stderr).into_owned());
        }
        let lines = String::from_utf8_lossy(&ran.stdout);
        let found: Vec<Option<Found>> = lines.lines().map(read_line).collect::<Result<_, _>>()?;
        if found.len() != folders.len() {
            return Err("Boost's program does not answer every trip".to_string());
        }
        Ok(found)
    }
}

fn bytes_of(words: impl Iterator<Item = u32>) -> Vec<u8> {
    words.flat_map(u32::to_le_bytes).collect()
}

fn read_line(line: &str) -> Result<Option<Found>, String> {
    let strange = || format!("Boost's program says: {line}");
    let mut words = line.split(' ');
    let kind = words.next().ok_or_else(strange)?;
    let numbers: Result<Vec<u64>, _> = words.map(str::parse).collect();
    let numbers = numbers.map_err(|_| strange())?;
    let (end, labels, nanoseconds) = match (kind, &numbers[..]) {
        ("late", []) => return Ok(None),
        ("none", &[labels, nanoseconds]) => (None, labels, nanoseconds),
        ("planned", &[arrival, spell, shift, week, labels, nanoseconds]) => {
            (Some([arrival, spell, shift, week]), labels, nanoseconds)
        }
        _ => return Err(strange()),
    };
    Ok(Some(Found {
        end,
        labels,
        time: Duration::from_nanos(nanoseconds),
    }))
}

/// Refuses another arrival, spell, shift or week of either search, and another N of the one that stops where the library
/// does.
fn agree(answer: &Answer, searched: &Searched) -> Result<(), String> {
    let end = match answer {
        Answer::Planned(sheet) => Some([sheet.arrival, sheet.spell, sheet.shift, sheet.week]),
        Answer::NoRoad(_) => None,
    };
    let labels = answer.labels();
    let Searched { first, all } = searched;
    let first_agrees = |found: &Found| found.end == end && found.labels == labels;
    let all_agrees = |found: &Found| found.end == end;
    if first.as_ref().is_none_or(first_agrees) && all.as_ref().is_none_or(all_agrees) {
        return Ok(());
    }
    Err(format!(
        "the library has {end:?}, N {labels}, and Boost {first:?}, all: {all:?}"
    ))
}

fn compare_small_trips(boost: &Boost, planners: &mut Planners) -> Result<(), String> {
    let trips = small_trips();
    let searches = boost.search(1, &trips)?;
    let (mut planned, mut weekly, mut split, mut banned) = (0, 0, 0, 0);
    for (number, (trip, searched)) in trips.iter().zip(&searches).enumerate() {
        let answer = planners.library_answer(&trip.map, &trip.order, &trip.bans)?;
        if searched.first.is_none() || searched.all.is_none() {
            return Err(format!("small trip {number} takes Boost too long"));
        }
        agree(&answer, searched).map_err(|why| format!("small trip {number}: {why}"))?;
        if let Answer::Planned(sheet) = &answer {
            let mut records = sheet.records.iter();
            planned += 1;
            weekly += u64::from(records.any(|record| record.step.kind == WEEKLY));
        }
        split += u64::from(Order::read(&trip.order).has_split());
        banned += u64::from(!trip.bans.is_empty());
    }
    println!(
        "{} small trips agree in arrival, spell, shift, week and N: {planned} have a plan, {weekly} of them with a weekly rest, {split} an order with a split, {banned} banned roads.\n",
        trips.len()
    );
    Ok(())
}

/// The first random runs that are accepted.
fn small_trips() -> Vec<Run> {
    let is_accepted = |run: &Run| SmallTrip::open(&run.map, &run.order, &run.bans).is_ok();
    let runs_of = |number| case(SEED, number).runs().cloned().collect::<Vec<Run>>();
    let runs = (0..).flat_map(runs_of);
    runs.filter(is_accepted).take(SMALL_TRIPS).collect()
}

fn print_practice_trips(boost: &Boost, planners: &mut Planners) -> Result<(), String> {
    let mut table = Table::new(
        &["map", "trip"],
        &[
            "N",
            "library",
            "less map check",
            "(a)",
            "(b)",
            "(c)",
            "labels of (c)",
            "(c) / less map check",
            "(c) stopped",
            "(c) stopped / less map check",
        ],
    );
    for map in PRACTICE_SIZES.map(practice) {
        for trip in Targets::of(&map.bytes).near_middle_far() {
            let timed = planners.time(RUNS, &map, &trip)?;
            let searched = search_practice(boost, planners, &map, &trip)?;
            table.add(&practice_row(&timed, &searched));
        }
    }
    table.print();
    Ok(())
}

fn search_practice(
    boost: &Boost,
    planners: &mut Planners,
    map: &NamedMap,
    trip: &NamedTrip,
) -> Result<Searched, String> {
    let run = Run {
        map: map.bytes.clone(),
        order: trip.order.bytes(),
        bans: trip.bans.clone(),
    };
    let answer = planners.library_answer(&run.map, &run.order, &run.bans)?;
    let mut searched = boost.search(RUNS, &[run])?;
    let searched = searched.remove(0);
    agree(&answer, &searched).map_err(|why| format!("{}, {}: {why}", map.name, trip.name))?;
    Ok(searched)
}

fn practice_row(timed: &Timed, searched: &Searched) -> [String; 12] {
    let times = &timed.times;
    let library = times.library_less_check();
    let told = |found: &Option<Found>, tell: &dyn Fn(&Found) -> String| match found {
        Some(found) => tell(found),
        None => format!("over {MOST_SECONDS} s"),
    };
    let time = |found: &Found| microseconds(found.time);
    let times_library = |found: &Found| ratio_text(ratio(found.time, library));
    [
        timed.map.clone(),
        timed.trip.clone(),
        grouped(timed.labels),
        microseconds(times.library),
        microseconds(library),
        microseconds(times.ordinary),
        microseconds(times.strong),
        told(&searched.all, &time),
        told(&searched.all, &|found| grouped(found.labels)),
        told(&searched.all, &times_library),
        told(&searched.first, &time),
        told(&searched.first, &times_library),
    ]
}
