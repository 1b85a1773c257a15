//! The ordinary planner: a binary heap of tentative labels and a list of the labels at each
//! junction. Dominance is tested when a tentative label leaves the heap.

use std::cmp::Reverse;
use std::collections::BinaryHeap;

use other::moves::Mark;
use other::sheet::Record;

use crate::answer::Answer;
use crate::map_bytes::{ban_marks, car_parks, roads};
use crate::trip::{record_of, sheet_ending_at, State, Step, Trip};

struct Road {
    number: u32,
    to: u32,
    time: u32,
    is_banned: bool,
}

#[derive(Default)]
struct Junction {
    car_park: bool,
    roads: Vec<Road>,
}

/// A map as lists of roads with their times.
pub struct Graph {
    /// By number; index 0 is no junction.
    junctions: Vec<Junction>,
}

impl Graph {
    /// Converts an accepted map and the list of its banned roads.
    pub fn new(map: &[u8], bans: &[u32]) -> Graph {
        let banned = ban_marks(map, bans);
        let mut junctions = vec![Junction::default()];
        junctions.extend(car_parks(map).map(|car_park| Junction {
            car_park,
            roads: Vec::new(),
        }));
        for road in roads(map) {
            junctions[road.from as usize].roads.push(Road {
                number: road.number,
                to: road.to,
                time: road.time,
                is_banned: banned[road.number as usize],
            });
        }
        Graph { junctions }
    }
}

/// The derived comparison is by rank, then lets the lowest parent and its lowest move win.
#[derive(Clone, Copy, PartialEq, Eq, PartialOrd, Ord)]
struct Label {
    state: State,
    /// The parent's number, counted from 1; 0 at the start.
    parent: u32,
    step: Step,
}

/// The storage of a search, kept from call to call.
#[derive(Default)]
pub struct Ordinary {
    waiting: BinaryHeap<Reverse<Label>>,
    settled: Vec<Label>,
    /// Spell, shift, week and mark of the labels at each junction. Their clocks are never later than
    /// the clock of a tentative label, since labels are settled in rank order.
    settled_at: Vec<Vec<(u32, u32, u32, Mark)>>,
}

impl Ordinary {
    pub fn plan(&mut self, graph: &Graph, trip: &Trip) -> Answer {
        self.clear(graph.junctions.len());
        self.waiting.push(Reverse(Label {
            state: trip.start,
            parent: 0,
            step: 0,
        }));
        while let Some(Reverse(label)) = self.waiting.pop() {
            if self.is_covered(&label.state) {
                continue;
            }
            self.settle(label);
            if label.state.junction == trip.target {
                let labels = self.settled.len() as u64;
                return Answer::Planned(sheet_ending_at(&label.state, labels, self.records()));
            }
            self.push_moves(graph, trip, &label.state);
        }
        Answer::NoRoad(self.settled.len() as u64)
    }

    fn clear(&mut self, junctions: usize) {
        self.waiting.clear();
        self.settled.clear();
        self.settled_at.iter_mut().for_each(Vec::clear);
        self.settled_at.resize(junctions, Vec::new());
    }

    fn is_covered(&self, state: &State) -> bool {
        self.settled_at[state.junction as usize]
            .iter()
            .any(|&(spell, shift, week, mark)| {
                spell <= state.spell
                    && shift <= state.shift
                    && week <= state.week
                    && mark <= state.mark
            })
    }

    fn settle(&mut self, label: Label) {
        let state = &label.state;
        let figures = (state.spell, state.shift, state.week, state.mark);
        self.settled_at[state.junction as usize].push(figures);
        self.settled.push(label);
    }

    /// The legal moves from the label settled last.
    fn push_moves(&mut self, graph: &Graph, trip: &Trip, state: &State) {
        let junction = &graph.junctions[state.junction as usize];
        for road in &junction.roads {
            let after = trip.after_drive(state, road.to, road.time, road.is_banned);
            self.push_legal(trip, road.number, after);
        }
        if junction.car_park {
            for (step, after) in trip.pauses(state) {
                self.push_legal(trip, step, after);
            }
        }
    }

    fn push_legal(&mut self, trip: &Trip, step: Step, after: State) {
        if trip.allows(&after) {
            self.waiting.push(Reverse(Label {
                state: after,
                parent: self.settled.len() as u32,
                step,
            }));
        }
    }

    /// The records of the plan that ends with the label settled last.
    fn records(&self) -> Vec<Record> {
        let mut records = Vec::new();
        let mut label = &self.settled[self.settled.len() - 1];
        while label.parent != 0 {
            records.push(record_of(label.step, &label.state));
            label = &self.settled[label.parent as usize - 1];
        }
        records.reverse();
        records
    }
}
