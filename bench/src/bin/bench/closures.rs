//! The table of closures: what a preview takes beside planning.

use bench::maps::NamedMap;
use bench::previews::{Desk, TimedPreview};
use bench::table::{grouped, microseconds, ratio_text, Table};
use bench::timing::ratio;
use bench::trips::Targets;

/// The near, middle and far trips of these maps, each with two roads closed in turn.
pub fn print_previews(runs: usize, maps: &[NamedMap]) -> Result<(), String> {
    let mut table = Table::new(
        &["map", "trip", "road closed"],
        &[
            "N",
            "N without it",
            "planning",
            "preview",
            "planning on a struck copy",
            "preview / planning",
            "preview / planning on a struck copy",
        ],
    );
    let mut desk = Desk::default();
    for map in maps {
        for trip in Targets::of(&map.bytes).near_middle_far() {
            for timed in desk.time(runs, map, &trip)? {
                table.add(&cells(&timed));
            }
        }
    }
    table.print();
    Ok(())
}

fn cells(timed: &TimedPreview) -> Vec<String> {
    let [open, without] = timed.labels.map(grouped);
    let times = [timed.planning, timed.preview, timed.struck_planning];
    let ratios = [timed.planning, timed.struck_planning].map(|time| ratio(timed.preview, time));
    let texts = [&timed.map, &timed.trip, &timed.road].map(String::clone);
    let mut cells = texts.to_vec();
    cells.extend([open, without]);
    cells.extend(times.map(microseconds));
    cells.extend(ratios.map(ratio_text));
    cells
}
