//! The calls that a case is tried with.

use std::collections::BTreeSet;

use crate::ban_probes;
use crate::closure_probes;
use crate::make::closures::road_count;
use crate::make::orders::MOST_STATES;
use crate::make::random::Random;
use crate::make::traces::Replay;
use crate::make::{Case, Run};
use crate::operations::Operations;
use crate::planning::WORDS_OF_A_LABEL;
use crate::probe::{answer, Probe};
use crate::reply::{Reply, NO_ROAD};
use crate::sheet::{sheet_bytes, SHEET_HEADER_BYTES};
use crate::words::word;

/// Label words enough for any case.
pub const AMPLE_WORDS: usize = WORDS_OF_A_LABEL * MOST_STATES;

/// Marked label words.
pub fn marked_words(random: &mut Random, count: usize) -> Vec<u32> {
    (0..count).map(|_| random.bits() as u32).collect()
}

/// A planning call with label space and sheet to spare, for any case.
pub fn ample_plan(random: &mut Random, run: &Run) -> Probe {
    Probe::Plan {
        run: run.clone(),
        labels: marked_words(random, AMPLE_WORDS),
        sheet: random.bytes(sheet_bytes(MOST_STATES)),
    }
}

/// The label count that a reply to an ample plan tells, if it tells one.
pub fn label_count(reply: &Reply) -> Option<usize> {
    (reply.number == 0 || reply.number == NO_ROAD).then_some(reply.place as usize)
}

/// Every call for a case. `trusted` finds N and M, around which the lent lengths are chosen.
pub fn probes(trusted: &Operations, case: &Case, random: &mut Random) -> Vec<Probe> {
    let mut probes = Vec::new();
    for map in case.spoilt_maps.iter().chain([&case.run.map]) {
        probes.extend(map_probes(random, map));
    }
    for order in case.orders() {
        probes.extend(order_probes(order, &case.run));
    }
    for timing in &case.timings {
        let run = Run {
            order: timing.order.clone(),
            ..case.run.clone()
        };
        probes.extend(sheet_probes(random, &run, &timing.sheet));
    }
    for run in case.runs() {
        probes.extend(plan_probes(trusted, run, random));
    }
    probes.extend(case.replays.iter().map(Replay::probe));
    probes.extend(closure_probes::probes(trusted, case, random));
    probes.extend(ban_probes::probes(case, random));
    probes
}

fn map_probes(random: &mut Random, map: &[u8]) -> Vec<Probe> {
    let mut probes = vec![
        Probe::CheckMap { map: map.to_vec() },
        Probe::MakeChains { map: map.to_vec() },
        Probe::MakeChains {
            map: scrambled_links(random, map),
        },
    ];
    probes.extend(name_probes(random, map));
    probes
}

/// The map with other words for first and next, where it is long enough to have them.
fn scrambled_links(random: &mut Random, map: &[u8]) -> Vec<u8> {
    let mut scrambled = map.to_vec();
    if map.len() < 16 {
        return scrambled;
    }
    let junctions = word(map, 4) as usize;
    let roads = word(map, 8) as usize;
    let firsts = (0..junctions).map(|index| 16 + 16 * index);
    let nexts = (0..roads).map(|index| 16 + 16 * junctions + 20 * index + 16);
    for at in firsts.chain(nexts).take_while(|at| at + 4 <= map.len()) {
        let any = random.bits() as u32;
        let link = random.pick(&[0, 1, roads as u32, any, u32::MAX]);
        scrambled[at..at + 4].copy_from_slice(&link.to_le_bytes());
    }
    scrambled
}

/// J as the map has it, spoilt or not; 1 where it is too short to have one.
pub fn junction_count(map: &[u8]) -> u64 {
    if map.len() < 16 {
        1
    } else {
        word(map, 4)
    }
}

/// The last junction and the number after it are among those asked for.
fn name_probes(random: &mut Random, map: &[u8]) -> Vec<Probe> {
    let junctions = junction_count(map);
    let any = random.between(1, junctions.max(1));
    let probe = |number: u64| Probe::Name {
        map: map.to_vec(),
        junction: number.min(u64::from(u32::MAX)) as u32,
    };
    [0, any, junctions, junctions + 1, u64::MAX]
        .map(probe)
        .into()
}

/// The order check with the map's J, the order's source and its target as J, one less than each, and
/// the least and the greatest J.
fn order_probes(order: &[u8], run: &Run) -> Vec<Probe> {
    let junctions = junction_count(&run.map);
    let ends = order.chunks_exact(4).take(2).map(|end| word(end, 0));
    let counts: BTreeSet<u64> = ends
        .chain([junctions])
        .flat_map(|count| [count.saturating_sub(1), count])
        .chain([0, u64::from(u32::MAX)])
        .collect();
    let probe = |count| Probe::CheckOrder {
        order: order.to_vec(),
        bans: run.bans.clone(),
        junctions: count as u32,
        roads: road_count(&run.map) as u32,
    };
    counts.into_iter().map(probe).collect()
}

fn plan_probes(trusted: &Operations, run: &Run, random: &mut Random) -> Vec<Probe> {
    let ample = ample_plan(random, run);
    let seen = answer(trusted, &ample);
    let count = label_count(&seen.reply).unwrap_or(1);
    let moves = match seen.reply.number {
        0 => word(&seen.written, 0) as usize,
        _ => 0,
    };
    let exact = sheet_bytes(moves);
    let labels = WORDS_OF_A_LABEL * count;
    let one_less = labels - WORDS_OF_A_LABEL;
    let lengths = [
        (0, exact),
        (WORDS_OF_A_LABEL - 1, exact),
        (one_less, exact),
        (one_less, 0),
        (labels - 1, exact),
        (labels, exact),
        (labels, exact - 1),
        (labels, exact + random.index(30)),
        (labels + WORDS_OF_A_LABEL - 1, exact),
        (labels + WORDS_OF_A_LABEL - 1, SHEET_HEADER_BYTES - 1),
        (labels + WORDS_OF_A_LABEL, exact),
        (labels + WORDS_OF_A_LABEL, 0),
        (AMPLE_WORDS, exact),
    ];
    let probe = |(label_words, bytes)| Probe::Plan {
        run: run.clone(),
        labels: marked_words(random, label_words),
        sheet: random.bytes(bytes),
    };
    let mut probes: Vec<Probe> = lengths.into_iter().map(probe).collect();
    if seen.reply.number == 0 {
        probes.extend(sheet_probes(random, run, &seen.written[..exact]));
    }
    probes
}

/// Retiming into sheets around the length needed, and the audit.
fn sheet_probes(random: &mut Random, run: &Run, sheet: &[u8]) -> Vec<Probe> {
    let longer = sheet.len() + random.index(20);
    let lengths = [sheet.len(), sheet.len().saturating_sub(1), longer];
    let retime = |length| Probe::Retime {
        run: run.clone(),
        sheet: sheet.to_vec(),
        out: random.bytes(length),
    };
    let mut probes: Vec<Probe> = lengths.into_iter().map(retime).collect();
    probes.push(Probe::Audit {
        run: run.clone(),
        sheet: sheet.to_vec(),
    });
    probes
}
