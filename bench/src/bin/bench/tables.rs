//! The tables of trips, and between which ratios they lie.

use std::time::Duration;

use bench::planning::{Timed, Times};
use bench::table::{brief, grouped, ratio_text, Table};
use bench::timing::{nanoseconds_each, ratio};

/// The highest degree of the maps that the summary takes in. The library's time for a label grows
/// with the degree.
const SMALL_DEGREE: usize = 4;

/// Milliseconds, and nanoseconds per label.
pub fn print_times(all: &[Timed]) {
    let mut table = Table::new(
        &["map", "trip"],
        &[
            "N",
            "library, ms",
            "library, ns",
            "less map check",
            "(a)",
            "(a) and conversion",
            "(b)",
            "(b) and conversion",
        ],
    );
    for timed in all {
        let times = &timed.times;
        let each = |time| brief(nanoseconds_each(time, timed.labels));
        table.add(&[
            timed.map.clone(),
            timed.trip.clone(),
            grouped(timed.labels),
            brief(1_000.0 * times.library.as_secs_f64()),
            each(times.library),
            each(times.library_less_check()),
            each(times.ordinary),
            each(times.ordinary + times.conversion),
            each(times.strong),
            each(times.strong + times.compact_conversion),
        ]);
    }
    table.print();
}

pub fn print_ratios(all: &[Timed]) {
    let mut table = Table::new(
        &["map", "trip"],
        &[
            "N",
            "library / (a)",
            "less map check / (a)",
            "library / (b)",
            "less map check / (b)",
        ],
    );
    for timed in all {
        let times = &timed.times;
        table.add(&[
            timed.map.clone(),
            timed.trip.clone(),
            grouped(timed.labels),
            ratio_text(ratio(times.library, times.ordinary)),
            ratio_text(ratio(times.library_less_check(), times.ordinary)),
            ratio_text(ratio(times.library, times.strong)),
            ratio_text(ratio(times.library_less_check(), times.strong)),
        ]);
    }
    table.print();
}

/// Between which ratios the trips lie that are long enough to judge the library by.
pub fn print_summary(all: &[Timed]) {
    print_range("(a)", 500, all, |times| times.ordinary);
    print_range("(b)", 5_000, all, |times| times.strong);
    println!();
}

fn print_range(peer: &str, least: u64, all: &[Timed], time_of: fn(&Times) -> Duration) {
    let is_judged = |timed: &&Timed| timed.labels >= least && timed.degree <= SMALL_DEGREE;
    let ratio_of = |timed: &Timed| ratio(timed.times.library_less_check(), time_of(&timed.times));
    let mut judged: Vec<&Timed> = all.iter().filter(is_judged).collect();
    judged.sort_by(|one, other| ratio_of(one).total_cmp(&ratio_of(other)));
    let told = |timed: &&Timed| {
        let ratio = ratio_text(ratio_of(timed));
        let labels = grouped(timed.labels);
        format!("{ratio} ({}, {}, N {labels})", timed.map, timed.trip)
    };
    let ends: Vec<String> = judged
        .first()
        .into_iter()
        .chain(judged.last())
        .map(told)
        .collect();
    println!(
        "- less map check / {peer}, N ≥ {}, degree ≤ {SMALL_DEGREE}: {}; {} trips",
        grouped(least),
        ends.join(" .. "),
        judged.len()
    );
}
