//! The strong planner: tentative labels are single numbers in a four-way heap, settled labels are
//! records of 16 bytes in one run, and dominance is tested both when a tentative label enters the
//! heap and when it leaves. Where no label of a junction has so low a spell, shift or week, the
//! labels there are not looked at.

mod graph;
pub mod heap;
mod key;
mod settled;

use other::planning::MOST_LABELS;
use other::sheet::Record;

use crate::answer::Answer;
use crate::trip::{record_of, sheet_ending_at, State, Step, Trip};
pub use graph::Graph;
use graph::Road;
use heap::Heap;
use key::{Key, MOST_ENTRIES};
use settled::{Origin, Settled};

/// The storage of a search, kept from call to call.
#[derive(Default)]
pub struct Strong {
    waiting: Heap,
    /// Where each label comes from that entered the heap, in turn. Labels are settled by number and
    /// their moves enter in order, so that of two with one state the first has the lowest parent,
    /// then its lowest move.
    entered: Vec<Origin>,
    settled: Settled,
}

impl Strong {
    pub fn plan(&mut self, graph: &Graph, trip: &Trip) -> Answer {
        let at_target = |state: &State, _| state.junction == trip.target;
        let found = self.settle_until(graph, trip, at_target);
        let labels = self.settled.count() as u64;
        match found {
            Some(end) => Answer::Planned(sheet_ending_at(&end, labels, self.records(graph, trip))),
            None => Answer::NoRoad(labels),
        }
    }

    /// For each junction as target, how many labels a search takes; 0 where the most labels that
    /// there may be do not reach it. Index 0 is no junction.
    pub fn labels_to_each(&mut self, graph: &Graph, trip: &Trip) -> Vec<usize> {
        let mut needed = vec![0; graph.numbers()];
        self.settle_until(graph, trip, |state, labels| {
            let first = &mut needed[state.junction as usize];
            if *first == 0 {
                *first = labels;
            }
            labels == MOST_LABELS
        });
        needed
    }

    /// Settles labels by rank until one is the last, as told from its state and number.
    fn settle_until(
        &mut self,
        graph: &Graph,
        trip: &Trip,
        mut is_last: impl FnMut(&State, usize) -> bool,
    ) -> Option<State> {
        self.waiting.clear();
        self.entered.clear();
        self.settled.clear(graph.numbers());
        self.enter(&trip.start, Origin { parent: 0, step: 0 });
        while let Some(key) = self.waiting.pop().map(Key) {
            let state = key.state();
            if self.settled.covers(&state) {
                continue;
            }
            self.settled.add(&state, self.entered[key.entry()]);
            if is_last(&state, self.settled.count()) {
                return Some(state);
            }
            self.push_moves(graph, trip, &state);
        }
        None
    }

    /// The legal moves from the label settled last.
    fn push_moves(&mut self, graph: &Graph, trip: &Trip, state: &State) {
        for road in graph.roads_of(state.junction) {
            let after = after_road(trip, state, road);
            self.push_legal(trip, road.number, &after);
        }
        if graph.is_car_park(state.junction) {
            for (step, after) in trip.pauses(state) {
                self.push_legal(trip, step, &after);
            }
        }
    }

    fn push_legal(&mut self, trip: &Trip, step: Step, after: &State) {
        if trip.allows(after) && !self.settled.covers(after) {
            let parent = self.settled.count() as u32;
            self.enter(after, Origin { parent, step });
        }
    }

    fn enter(&mut self, state: &State, origin: Origin) {
        let entry = self.entered.len();
        assert!(entry < MOST_ENTRIES, "more labels wait than have a number");
        self.entered.push(origin);
        self.waiting.push(Key::new(state, entry).0);
    }

    /// The plan's records. Labels keep no clock, so that the steps are timed again.
    fn records(&self, graph: &Graph, trip: &Trip) -> Vec<Record> {
        let mut state = trip.start;
        let timed = |step: Step| {
            state = after_step(graph, trip, &state, step);
            record_of(step, &state)
        };
        self.settled.steps().into_iter().map(timed).collect()
    }
}

fn after_step(graph: &Graph, trip: &Trip, state: &State, step: Step) -> State {
    if let Some((_, after)) = trip.pauses(state).find(|(pause, _)| *pause == step) {
        return after;
    }
    let mut roads = graph.roads_of(state.junction).iter();
    let road = roads
        .find(|road| road.number == step)
        .expect("a road of this junction");
    after_road(trip, state, road)
}

fn after_road(trip: &Trip, state: &State, road: &Road) -> State {
    trip.after_drive(state, road.to(), road.time, road.is_banned)
}
