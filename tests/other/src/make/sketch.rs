//! Maps that are put together junction by junction and road by road.

use crate::map::{Junction, Map, Road};

/// Metres that take a second on a sketched road, to the nearest second.
pub const METRES_OF_A_SECOND: u64 = 22;

/// Metres that take exactly nine.
pub const METRES_OF_NINE_SECONDS: u64 = 200;

pub struct Sketch(Map);

impl Default for Sketch {
    fn default() -> Sketch {
        Sketch(Map {
            junctions: Vec::new(),
            roads: Vec::new(),
            names: b"G".to_vec(),
        })
    }
}

impl Sketch {
    /// Adds a junction and gives its number.
    pub fn junction(&mut self, is_car_park: bool) -> u64 {
        self.0.junctions.push(Junction {
            first: 0,
            car_park: u64::from(is_car_park),
            name_start: 0,
            name_length: 1,
        });
        self.0.junctions.len() as u64
    }

    /// Adds a road at 80 km per hour; its ends may be added later.
    pub fn road(&mut self, from: u64, to: u64, metres: u64) {
        self.0.roads.push(Road {
            from,
            to,
            metres,
            speed: 80,
            next: 0,
        });
    }

    pub fn map(mut self) -> Map {
        self.0.link_chains();
        self.0
    }
}

/// Junctions in rows and columns that close round, each with a road to its four neighbours. Every
/// fourth junction of a row or column is a car park.
pub fn closed_grid(side: u64, mut metres: impl FnMut() -> u64) -> Map {
    let mut sketch = Sketch::default();
    for row in 0..side {
        for column in 0..side {
            let from = sketch.junction((row + column) % 4 == 0);
            for (down, right) in [(0, 1), (1, 0), (0, side - 1), (side - 1, 0)] {
                let to = 1 + (row + down) % side * side + (column + right) % side;
                sketch.road(from, to, metres());
            }
        }
    }
    sketch.map()
}
