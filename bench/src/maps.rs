//! The maps that trips are timed on.

use other::make::practice::{draw, practice_map, USUAL_START};
use other::make::sketch::{closed_grid, Sketch};
use other::map::Map;

use crate::map_bytes::{junction_count, roads};

pub struct NamedMap {
    pub name: String,
    pub bytes: Vec<u8>,
}

impl NamedMap {
    /// The most roads that leave a junction: what a planner looks at when it goes on from a label.
    pub fn degree(&self) -> usize {
        let mut leaving = vec![0; junction_count(&self.bytes) + 1];
        roads(&self.bytes).for_each(|road| leaving[road.from as usize] += 1);
        leaving.into_iter().max().unwrap_or_default()
    }
}

fn named(name: String, map: Map) -> NamedMap {
    NamedMap {
        name,
        bytes: map.bytes(),
    }
}

/// The practice map of document 02 (P14) and its usual start.
pub fn practice(junctions: u64) -> NamedMap {
    let map = practice_map(junctions, USUAL_START);
    named(format!("practice {junctions}"), map)
}

/// A grid whose roads have 1 to 20,000 metres.
pub fn grid(side: u64) -> NamedMap {
    let mut state = USUAL_START;
    let map = closed_grid(side, || 1 + draw(&mut state) % 20_000);
    named(format!("grid {side} × {side}"), map)
}

/// A grid whose roads all take 450 seconds, so that many labels have the same clock and only the
/// other figures rank them.
pub fn uniform_grid(side: u64) -> NamedMap {
    let map = closed_grid(side, || 10_000);
    named(format!("uniform grid {side} × {side}"), map)
}

/// A spine with a tooth at each junction, which ends in a car park and is longer than the tooth
/// before. The lists of labels grow along the spine: a pause at a later tooth costs more time and
/// leaves a lower spell, shift or week, so that no choice of the teeth of the last break, of the last
/// rest and of the last weekly rest dominates another while the limits allow both. The shorter the
/// spine's roads, the more teeth are within the limits, and the longer the lists.
pub fn comb(teeth: u64, apart: u64, step: u64) -> NamedMap {
    let mut sketch = Sketch::default();
    for number in 1..=teeth {
        let spine = sketch.junction(false);
        let tooth = sketch.junction(true);
        sketch.road(spine, tooth, step * number);
        sketch.road(tooth, spine, step * number);
        if number < teeth {
            sketch.road(spine, tooth + 1, apart);
        }
    }
    named(format!("comb {teeth}"), sketch.map())
}

/// Weeks of driving, and on 400 teeth up to 177 labels at a junction.
pub fn usual_comb(teeth: u64) -> NamedMap {
    comb(teeth, 80_000, 20)
}

/// As many labels at a junction as there are teeth, and more.
pub fn dense_comb(teeth: u64) -> NamedMap {
    comb(teeth, 6_000, 100)
}

/// A ring of hubs with so many leaves each, every fourth a car park. A road of 1 to 100,000 metres
/// leads to each leaf and back, and another on to the next hub, so that a trip passes every hub
/// between its ends and the hubs have several labels.
pub fn hubs(degree: u64, leaves: u64) -> NamedMap {
    let mut state = USUAL_START;
    let mut metres = || 1 + draw(&mut state) % 100_000;
    let mut sketch = Sketch::default();
    let hubs = leaves / degree;
    for _ in 0..hubs {
        sketch.junction(false);
    }
    for hub in 1..=hubs {
        for number in 0..degree {
            let leaf = sketch.junction(number % 4 == 0);
            let out = metres();
            sketch.road(hub, leaf, out);
            sketch.road(leaf, hub, out);
            sketch.road(leaf, hub % hubs + 1, metres());
        }
    }
    named(format!("hubs of degree {degree}"), sketch.map())
}
