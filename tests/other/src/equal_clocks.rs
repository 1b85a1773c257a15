//! Trips on a grid whose roads all take the same time, so that a junction is reached from several sides at one clock. It
//! has more junctions than the library's small arrays have entries, and so near a latest that few states are reachable.
//! The first of them are also previewed with a road closed, and planned on a Sunday evening with every
//! road banned.

use crate::calendar::{DAY_SECONDS, OPENING};
use crate::make::sketch::closed_grid;
use crate::make::Run;
use crate::order::{Order, RuleWords, EUROPEAN_RULES};
use crate::planning::WORDS_OF_A_LABEL;
use crate::probe::Probe;
use crate::sheet::sheet_bytes;

const SIDE: u64 = 40;
const METRES: u64 = 10_000;
const ROAD_SECONDS: u64 = 450;
const MOST_ROADS_DRIVEN: u64 = 16;
const AMPLE_LABELS: usize = 3_000;

/// Row and column of the targets: near; reached at the latest second; round the edge; too far.
const TARGETS: [(u64, u64); 4] = [(3, 5), (8, 8), (35, 36), (20, 20)];

/// The road from the source to the right, which plans to the first target drive. There are other ways as short.
const CLOSED: u32 = 1;

/// Those to the first target without a split.
const PREVIEWS: usize = 2;

/// So many roads could be driven before 22:00.
const ROADS_TO_OPENING: u64 = 3;

/// A break takes as long as six roads; with a split, its parts take as long as two and four.
const NO_SPLIT: RuleWords = {
    let mut rules = EUROPEAN_RULES;
    (rules[4], rules[5]) = (0, 0);
    rules
};

/// The spell that leaves five roads before a break.
const TIRED: u64 = EUROPEAN_RULES[0] - 5 * ROAD_SECONDS;

pub fn probes() -> Vec<Probe> {
    let map = closed_grid(SIDE, || METRES).bytes();
    let run = |order: &Order| Run::without_bans(map.clone(), order.bytes());
    let labels = vec![0xA5A5_A5A5; WORDS_OF_A_LABEL * AMPLE_LABELS];
    let sheet = vec![0xEE; sheet_bytes(MOST_ROADS_DRIVEN as usize)];
    let plan = |order: &Order| Probe::Plan {
        run: run(order),
        labels: labels.clone(),
        sheet: sheet.clone(),
    };
    let preview = |order: &Order| Probe::Preview {
        run: run(order),
        road: CLOSED,
        labels: labels.clone(),
        sheet: sheet.clone(),
    };
    let on_sunday = |order: &Order| Probe::Plan {
        run: Run {
            bans: (1..=4 * (SIDE * SIDE) as u32).collect(),
            ..run(&begun_before_an_opening(order))
        },
        labels: labels.clone(),
        sheet: sheet.clone(),
    };
    let orders = orders();
    let near = &orders[..PREVIEWS];
    let plans = orders.iter().map(plan);
    plans
        .chain(near.iter().map(preview))
        .chain(near.iter().map(on_sunday))
        .collect()
}

/// Begun on a Sunday evening.
fn begun_before_an_opening(order: &Order) -> Order {
    let departure = DAY_SECONDS + OPENING - ROADS_TO_OPENING * ROAD_SECONDS;
    Order {
        departure,
        latest: departure + order.latest,
        ..order.clone()
    }
}

/// To each target, with a split and without, rested and after some hours.
fn orders() -> Vec<Order> {
    let mut orders = Vec::new();
    for (row, column) in TARGETS {
        for rules in [NO_SPLIT, EUROPEAN_RULES] {
            orders.extend([0, TIRED].map(|driven| Order {
                source: 1,
                target: 1 + row * SIDE + column,
                latest: MOST_ROADS_DRIVEN * ROAD_SECONDS,
                ..Order::of_hours(rules, [driven; 3])
            }));
        }
    }
    orders
}
