//! The calls with a case's ban lists, most of them spoilt.

use crate::bans::accepted_bans;
use crate::case_probes::{junction_count, marked_words};
use crate::closure_probes::preview_in;
use crate::make::closures::{road_count, unknown_road, Closure};
use crate::make::random::Random;
use crate::make::{Case, Run};
use crate::planning::WORDS_OF_A_LABEL;
use crate::probe::Probe;
use crate::sheet::SHEET_HEADER_BYTES;

/// The sheets of a case that are timed with each list.
const TIMED: usize = 2;

pub fn probes(case: &Case, random: &mut Random) -> Vec<Probe> {
    let mut probes = Vec::new();
    for list in &case.lists {
        let run = Run {
            bans: list.clone(),
            ..case.run.clone()
        };
        probes.extend(check_probes(&run));
        if accepted_bans(list, road_count(&run.map)).is_ok() {
            continue; // a search could be long, and the case's runs have such lists
        }
        probes.push(cramped_plan(random, &run));
        probes.push(cramped_preview(random, &run));
        for timing in case.timings.iter().take(TIMED) {
            let order = timing.order.clone();
            let run = Run {
                order,
                ..run.clone()
            };
            probes.extend(timed_probes(random, &run, &timing.sheet));
        }
    }
    probes
}

/// With the map's R, one more and one less, the last number and the one before it as R, and the least and the greatest R.
fn check_probes(run: &Run) -> Vec<Probe> {
    let roads = road_count(&run.map);
    let last = run.bans.last().map_or(0, |last| u64::from(*last));
    let greatest = u64::from(u32::MAX);
    let mut counts = vec![0, roads, roads + 1, last, greatest];
    counts.extend([roads, last].map(|count| count.saturating_sub(1)));
    counts.sort();
    counts.dedup();
    let probe = |count: u64| Probe::CheckOrder {
        order: run.order.clone(),
        bans: run.bans.clone(),
        junctions: junction_count(&run.map) as u32,
        roads: count.min(greatest) as u32,
    };
    counts.into_iter().map(probe).collect()
}

/// So little label space and so short a sheet that a search which is not to begin would often end with refusal 12 or 14.
fn cramped(random: &mut Random) -> (usize, usize) {
    let label_words = random.pick(&[0, WORDS_OF_A_LABEL - 1, 3 * WORDS_OF_A_LABEL]);
    (label_words, random.pick(&[0, SHEET_HEADER_BYTES]))
}

fn cramped_plan(random: &mut Random, run: &Run) -> Probe {
    let (label_words, bytes) = cramped(random);
    Probe::Plan {
        run: run.clone(),
        labels: marked_words(random, label_words),
        sheet: random.bytes(bytes),
    }
}

/// Of a road, or of a number that no road has, which is judged before the list.
fn cramped_preview(random: &mut Random, run: &Run) -> Probe {
    let roads = road_count(&run.map);
    let known = random.between(1, roads.max(1));
    let unknown = unknown_road(random, roads);
    let closure = Closure {
        run: run.clone(),
        road: random.pick(&[known, known, unknown]) as u32,
    };
    let (label_words, bytes) = cramped(random);
    preview_in(random, &closure, label_words, bytes)
}

/// Retiming and audit of a sheet, which is sometimes torn: that is judged after the list.
fn timed_probes(random: &mut Random, run: &Run, sheet: &[u8]) -> [Probe; 2] {
    let torn = sheet.len() - usize::from(!sheet.is_empty() && random.one_in(3));
    let sheet = sheet[..torn].to_vec();
    let out = random.bytes(sheet.len());
    let retime = Probe::Retime {
        run: run.clone(),
        sheet: sheet.clone(),
        out,
    };
    let run = run.clone();
    [retime, Probe::Audit { run, sheet }]
}
