//! Planning: the library and the two planners on the same trips.

use std::time::Duration;

use differential::LIBRARY;
use other::planning::{MOST_LABELS, WORDS_OF_A_LABEL};
use other::sheet::sheet_bytes;

use crate::answer::Answer;
use crate::maps::NamedMap;
use crate::ordinary::{self, Ordinary};
use crate::strong::{self, Strong};
use crate::timing::{best_of_longer, take};
use crate::trip::Trip;
use crate::trips::NamedTrip;

/// For all runs of one trip.
pub const LEAST_TIME: Duration = Duration::from_secs(1);

/// The moves that the library's sheet has room for.
pub const LONGEST_PLAN: usize = 100_000;

/// A map, an order and its ban list in the form that each planner takes.
struct Prepared<'a> {
    map: &'a [u8],
    order: Vec<u8>,
    bans: &'a [u32],
    trip: Trip,
    graph: ordinary::Graph,
    compact_graph: strong::Graph,
}

impl Prepared<'_> {
    fn new<'a>(map: &'a NamedMap, trip: &'a NamedTrip) -> Prepared<'a> {
        Prepared {
            map: &map.bytes,
            order: trip.order.bytes(),
            bans: &trip.bans,
            trip: Trip::new(&trip.order),
            graph: ordinary::Graph::new(&map.bytes, &trip.bans),
            compact_graph: strong::Graph::new(&map.bytes, &trip.bans),
        }
    }
}

pub struct Times {
    pub library: Duration,
    pub ordinary: Duration,
    pub strong: Duration,
    map_check: Duration,
    pub conversion: Duration,
    pub compact_conversion: Duration,
}

impl Times {
    pub fn library_less_check(&self) -> Duration {
        self.library.saturating_sub(self.map_check)
    }
}

/// A trip and its times.
pub struct Timed {
    pub map: String,
    /// The map's.
    pub degree: usize,
    pub trip: String,
    pub labels: u64,
    pub times: Times,
}

/// The space that the library is lent and the planners' storage. They are used again for each trip,
/// so that no time has the taking of memory in it.
pub struct Planners {
    words: Vec<u32>,
    sheet: Vec<u8>,
    ordinary: Ordinary,
    strong: Strong,
}

impl Default for Planners {
    fn default() -> Planners {
        Planners {
            words: vec![0; WORDS_OF_A_LABEL * MOST_LABELS],
            sheet: vec![0; sheet_bytes(LONGEST_PLAN)],
            ordinary: Ordinary::default(),
            strong: Strong::default(),
        }
    }
}

impl Planners {
    /// What the library answers.
    pub fn library_answer(
        &mut self,
        map: &[u8],
        order: &[u8],
        bans: &[u32],
    ) -> Result<Answer, String> {
        let reply = (LIBRARY.plan)(map, order, bans, &mut self.words, &mut self.sheet);
        Answer::told(&reply, &self.sheet)
    }

    /// Times a trip, unless the three plans differ.
    pub fn time(&mut self, runs: usize, map: &NamedMap, trip: &NamedTrip) -> Result<Timed, String> {
        Ok(Timed {
            map: map.name.clone(),
            degree: map.degree(),
            trip: trip.name.clone(),
            labels: self.labels(map, trip)?,
            times: self.best_times(runs, &Prepared::new(map, trip)),
        })
    }

    /// N, unless the three plans differ.
    pub fn labels(&mut self, map: &NamedMap, trip: &NamedTrip) -> Result<u64, String> {
        self.agreed_labels(&Prepared::new(map, trip))
            .map_err(|why| format!("{}, {}: {why}", map.name, trip.name))
    }

    /// N, where all three plan alike: the same moves, figures and N.
    fn agreed_labels(&mut self, on: &Prepared) -> Result<u64, String> {
        let library = self.library_answer(on.map, &on.order, on.bans)?;
        let ordinary = self.ordinary.plan(&on.graph, &on.trip);
        let strong = self.strong.plan(&on.compact_graph, &on.trip);
        if library != ordinary || library != strong {
            let told = [&library, &ordinary, &strong].map(Answer::summary);
            return Err(format!(
                "the plans of the library, (a) and (b) differ: {}",
                told.join("; ")
            ));
        }
        Ok(library.labels())
    }

    fn best_times(&mut self, runs: usize, on: &Prepared) -> Times {
        let Planners {
            words,
            sheet,
            ordinary,
            strong,
        } = self;
        let best = best_of_longer(
            runs,
            LEAST_TIME,
            [
                &mut || take((LIBRARY.plan)(on.map, &on.order, on.bans, words, sheet)),
                &mut || take(ordinary.plan(&on.graph, &on.trip)),
                &mut || take(strong.plan(&on.compact_graph, &on.trip)),
                &mut || take((LIBRARY.check_map)(on.map)),
                &mut || take(ordinary::Graph::new(on.map, on.bans)),
                &mut || take(strong::Graph::new(on.map, on.bans)),
            ],
        );
        let [library, ordinary, strong, map_check, conversion, compact_conversion] = best;
        Times {
            library,
            ordinary,
            strong,
            map_check,
            conversion,
            compact_conversion,
        }
    }
}
