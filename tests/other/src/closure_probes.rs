//! The calls that strike a case's roads and preview their closures.

use crate::case_probes::{label_count, marked_words};
use crate::make::closures::{road_count, unknown_road, Closure, MOST_STATES};
use crate::make::random::Random;
use crate::make::{Case, Run};
use crate::moves::Trip;
use crate::operations::Operations;
use crate::planning::WORDS_OF_A_LABEL;
use crate::probe::{answer, Probe};
use crate::reply::BAD_ROAD;
use crate::sheet::{sheet_bytes, SHEET_HEADER_BYTES};
use crate::words::word;

/// A preview with label space and sheet to spare.
pub fn ample_preview(random: &mut Random, closure: &Closure) -> Probe {
    let label_words = WORDS_OF_A_LABEL * MOST_STATES;
    preview_in(random, closure, label_words, sheet_bytes(MOST_STATES))
}

pub fn preview_in(
    random: &mut Random,
    closure: &Closure,
    label_words: usize,
    bytes: usize,
) -> Probe {
    Probe::Preview {
        run: closure.run.clone(),
        road: closure.road,
        labels: marked_words(random, label_words),
        sheet: random.bytes(bytes),
    }
}

/// Every call for a case's closures. `trusted` finds N and M of the struck trips, around which the lent
/// lengths are chosen.
pub fn probes(trusted: &Operations, case: &Case, random: &mut Random) -> Vec<Probe> {
    let mut probes = Vec::new();
    for map in case.spoilt_maps.iter().chain([&case.run.map]) {
        probes.extend(strike_probes(random, map));
        probes.extend(refused_probe(random, map, &case.run.order, &case.run.bans));
    }
    for timing in &case.timings {
        probes.extend(refused_probe(
            random,
            &case.run.map,
            &timing.order,
            &case.run.bans,
        ));
    }
    for closure in &case.closures {
        probes.push(Probe::Strike {
            map: closure.run.map.clone(),
            road: closure.road,
        });
        probes.extend(preview_probes(trusted, closure, random));
    }
    probes
}

/// The last road and the number after it are among those struck.
fn strike_probes(random: &mut Random, map: &[u8]) -> Vec<Probe> {
    let roads = road_count(map);
    let any = random.between(1, roads.max(1));
    let probe = |number: u64| Probe::Strike {
        map: map.to_vec(),
        road: number.min(u64::from(u32::MAX)) as u32,
    };
    [0, any, roads, roads + 1, u64::MAX].map(probe).into()
}

/// Of a run that is refused: the preview of a number that no road has, which is judged later, or of the
/// bad road, since striking it could mend it.
fn refused_probe(random: &mut Random, map: &[u8], order: &[u8], bans: &[u32]) -> Option<Probe> {
    let refused = Trip::open(map, order, bans).err()?;
    let unknown = unknown_road(random, road_count(map));
    let number = match refused.number {
        BAD_ROAD => random.pick(&[refused.place, unknown]),
        _ => unknown,
    };
    let closure = Closure {
        run: Run {
            map: map.to_vec(),
            order: order.to_vec(),
            bans: bans.to_vec(),
        },
        road: number as u32,
    };
    let label_words = random.pick(&[0, WORDS_OF_A_LABEL - 1, WORDS_OF_A_LABEL]);
    let bytes = random.pick(&[0, SHEET_HEADER_BYTES]);
    Some(preview_in(random, &closure, label_words, bytes))
}

fn preview_probes(trusted: &Operations, closure: &Closure, random: &mut Random) -> Vec<Probe> {
    let seen = answer(trusted, &ample_preview(random, closure));
    let moves = match seen.reply.number {
        0 => word(&seen.written, 0) as usize,
        _ => 0,
    };
    let exact = sheet_bytes(moves);
    let labels = WORDS_OF_A_LABEL * label_count(&seen.reply).unwrap_or(1);
    let lengths = [
        random.pick(&[(0, 0), (labels - 1, exact)]),
        (labels, exact),
        (labels, exact - 1),
        (labels + WORDS_OF_A_LABEL - 1, exact + random.index(30)),
    ];
    lengths
        .into_iter()
        .map(|(label_words, bytes)| preview_in(random, closure, label_words, bytes))
        .collect()
}
