//! Times the proved library against planners written here, and prints tables in markdown. A plan or
//! a reply that differs ends it; no time does.

mod checks;
mod closures;
mod tables;

use std::process::ExitCode;

use bench::machine::{exit_code, load, processor};
use bench::maps::{dense_comb, grid, hubs, practice, uniform_grid, usual_comb, NamedMap};
use bench::planning::{Planners, Timed, LEAST_TIME};
use bench::previews;
use bench::trips::{sunday_trips, NamedTrip, Targets};
use checks::{print_map_checks, print_sheet_checks};
use closures::print_previews;
use other::mapcheck::MOST_JUNCTIONS;
use tables::{print_ratios, print_summary, print_times};

const USAGE: &str = "bench [--quick]";

/// How much is timed.
struct Extent {
    runs: usize,
    /// On combs, where a run takes seconds.
    comb_runs: usize,
    practice_sizes: &'static [u64],
    grid_sides: &'static [u64],
    comb_teeth: u64,
    dense_comb_teeth: u64,
    hub_degrees: &'static [u64],
    /// Of all the hubs together, whatever their degree.
    hub_leaves: u64,
    /// The label counts at which growth is seen, beside that of the target reached last.
    label_counts: &'static [usize],
    /// The moves of the sheets that are retimed and audited.
    sheet_lengths: &'static [u64],
}

const WHOLE: Extent = Extent {
    runs: 15,
    comb_runs: 5,
    practice_sizes: &[256, 1_024, 4_096, MOST_JUNCTIONS],
    grid_sides: &[32, 64, 96],
    comb_teeth: 400,
    dense_comb_teeth: 350,
    hub_degrees: &[50, 200, 1_000],
    hub_leaves: 5_000,
    label_counts: &[1_000, 3_000, 10_000, 20_000, 50_000],
    sheet_lengths: &[1_000, 10_000, 100_000],
};

const QUICK: Extent = Extent {
    runs: 5,
    comb_runs: 5,
    practice_sizes: &[256, 4_096],
    grid_sides: &[32],
    comb_teeth: 100,
    dense_comb_teeth: 100,
    hub_degrees: &[50],
    hub_leaves: 1_000,
    label_counts: &[1_000],
    sheet_lengths: &[1_000],
};

fn main() -> ExitCode {
    let arguments: Vec<String> = std::env::args().skip(1).collect();
    let arguments: Vec<&str> = arguments.iter().map(String::as_str).collect();
    let done = match arguments[..] {
        [] => report(&WHOLE),
        ["--quick"] => report(&QUICK),
        _ => Err(USAGE.to_string()),
    };
    exit_code(done)
}

fn report(extent: &Extent) -> Result<(), String> {
    let runs = extent.runs;
    println!("{}, {} when begun.", processor(), load());
    println!(
        "Each figure is the best of {runs} runs that take turns, on combs of {}; of planning it is the best of more, where these take less than {} s, and of previews less than {} ms.\n",
        extent.comb_runs,
        LEAST_TIME.as_secs(),
        previews::LEAST_TIME.as_millis()
    );
    let maps = usual_maps(extent);
    report_planning(extent, &maps)?;
    report_bans(extent)?;
    println!("### Previews of closures, microseconds\n");
    print_previews(runs, &maps)?;
    println!("### Map check, nanoseconds per road\n");
    print_map_checks(runs, &maps)?;
    println!("### Retiming and audit, nanoseconds per move\n");
    print_sheet_checks(runs, &maps[0], extent.sheet_lengths)?;
    println!("{} when done.", load());
    Ok(())
}

fn usual_maps(extent: &Extent) -> Vec<NamedMap> {
    let practice_maps = extent.practice_sizes.iter().map(|size| practice(*size));
    let grids = extent.grid_sides.iter().map(|side| grid(*side));
    practice_maps.chain(grids).collect()
}

fn report_planning(extent: &Extent, usual_maps: &[NamedMap]) -> Result<(), String> {
    let runs = extent.runs;
    let sides = extent.grid_sides.iter();
    let uniform_grids: Vec<NamedMap> = sides.map(|side| uniform_grid(*side)).collect();
    let combs = [usual_comb(extent.comb_teeth)];
    let dense_combs = [dense_comb(extent.dense_comb_teeth)];
    let all_hubs = |degree: &u64| hubs(*degree, extent.hub_leaves);
    let hubs: Vec<NamedMap> = extent.hub_degrees.iter().map(all_hubs).collect();

    let mut planning = Planning::default();
    planning.report_maps("Planning", runs, usual_maps)?;
    planning.report_maps("Uniform grid", runs, &uniform_grids)?;
    planning.report_maps("Comb", extent.comb_runs, &combs)?;
    report_growth(extent, &mut planning)?;
    // Weak spots, which the summary leaves out.
    let mut weak = Planning::default();
    weak.report_maps("Dense comb", extent.comb_runs, &dense_combs)?;
    weak.report_maps("Hubs", runs, &hubs)?;
    println!("### Summary\n");
    print_summary(&planning.timed);
    Ok(())
}

/// Growth with N on two maps, the first also with a split, which has the more labels, and for a
/// driver who needs a weekly rest on the way.
fn report_growth(extent: &Extent, planning: &mut Planning) -> Result<(), String> {
    let counts = extent.label_counts;
    let map = practice(MOST_JUNCTIONS);
    let trips = Targets::of(&map.bytes).with_labels(counts);
    let split: Vec<NamedTrip> = trips.iter().map(NamedTrip::with_split).collect();
    let late: Vec<NamedTrip> = trips.iter().map(NamedTrip::late_in_the_week).collect();
    let uniform = uniform_grid(96);
    let uniform_trips = Targets::of(&uniform.bytes).with_labels(counts);
    for (what, map, trips) in [
        ("Growth with N", &map, trips),
        ("The same trips with a split", &map, split),
        ("The same trips late in the week", &map, late),
        ("Growth with N, uniform grid", &uniform, uniform_trips),
    ] {
        let trips = trips.into_iter().map(|trip| (map, trip));
        planning.report(what, extent.runs, trips)?;
    }
    Ok(())
}

/// So many roads in a hundred are banned.
const BANNED_PERCENTS: [u64; 3] = [1, 10, 100];

/// Middle and far trips over a Sunday on the largest practice map and grid, each behind the same trip without bans.
fn report_bans(extent: &Extent) -> Result<(), String> {
    let practice_map = extent.practice_sizes.last().map(|size| practice(*size));
    let grid_map = extent.grid_sides.last().map(|side| grid(*side));
    let mut planning = Planning::default();
    for map in practice_map.into_iter().chain(grid_map) {
        let mut trips = Vec::new();
        for trip in Targets::of(&map.bytes)
            .near_middle_far()
            .into_iter()
            .skip(1)
        {
            let banned = sunday_trips(&map, std::slice::from_ref(&trip), &BANNED_PERCENTS);
            trips.push(trip);
            trips.extend(banned);
        }
        let what = format!("Ban days, {}", map.name);
        let trips = trips.into_iter().map(|trip| (&map, trip));
        planning.report(&what, extent.runs, trips)?;
    }
    println!("### Ban days, summary\n");
    print_summary(&planning.timed);
    Ok(())
}

/// Times trips, prints their tables and keeps their times for the summary.
#[derive(Default)]
struct Planning {
    planners: Planners,
    timed: Vec<Timed>,
}

impl Planning {
    /// The near, middle and far trips of these maps.
    fn report_maps(&mut self, what: &str, runs: usize, maps: &[NamedMap]) -> Result<(), String> {
        let trips_of = |map: &NamedMap| Targets::of(&map.bytes).near_middle_far();
        let trips = maps
            .iter()
            .flat_map(|map| trips_of(map).into_iter().map(move |trip| (map, trip)));
        self.report(what, runs, trips)
    }

    fn report<'a>(
        &mut self,
        what: &str,
        runs: usize,
        trips: impl Iterator<Item = (&'a NamedMap, NamedTrip)>,
    ) -> Result<(), String> {
        let timed: Result<Vec<Timed>, String> = trips
            .map(|(map, trip)| self.planners.time(runs, map, &trip))
            .collect();
        let timed = timed?;
        println!("### {what}, nanoseconds per label\n");
        print_times(&timed);
        println!("### {what}, ratios\n");
        print_ratios(&timed);
        self.timed.extend(timed);
        Ok(())
    }
}
