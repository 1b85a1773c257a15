//! Settled labels: 16 bytes each in one run, with those of a junction chained from the last to the
//! first.

use other::moves::Mark;
use other::planning::MOST_LABELS;

use crate::trip::{State, Step, WEEKLY_STEP};

const FIGURE_BITS: u32 = 20; // a figure and a label's number are at most 1,000,000
const FIGURE_MASK: u64 = (1 << FIGURE_BITS) - 1;
const UNMARKED_AT: u32 = 3 * FIGURE_BITS;

const STEP_BITS: u32 = 16;
const STEP_MASK: u64 = (1 << STEP_BITS) - 1;
const PARENT_AT: u32 = STEP_BITS;
const PREVIOUS_AT: u32 = PARENT_AT + FIGURE_BITS;

const _: () = assert!(WEEKLY_STEP >> STEP_BITS == 0);

#[derive(Clone, Copy)]
struct Label {
    /// Whether without the mark, then spell, shift and week.
    figures: u64,
    /// The number of the label before it at its junction, 0 for none, then parent and step.
    links: u64,
}

impl Label {
    fn new(state: &State, previous: u32, Origin { parent, step }: Origin) -> Label {
        let unmarked = u64::from(state.mark == Mark::Unmarked);
        let [spell, shift, week] = [state.spell, state.shift, state.week].map(u64::from);
        let wheel_times = spell << (2 * FIGURE_BITS) | shift << FIGURE_BITS | week;
        let [previous, parent, step] = [previous, parent, step].map(u64::from);
        Label {
            figures: unmarked << UNMARKED_AT | wheel_times,
            links: previous << PREVIOUS_AT | parent << PARENT_AT | step,
        }
    }

    fn covers(&self, state: &State) -> bool {
        let unmarked = self.figures >> UNMARKED_AT == 1;
        let spell = ((self.figures >> (2 * FIGURE_BITS)) & FIGURE_MASK) as u32;
        let shift = ((self.figures >> FIGURE_BITS) & FIGURE_MASK) as u32;
        let week = (self.figures & FIGURE_MASK) as u32;
        let good_mark = !unmarked || state.mark == Mark::Unmarked;
        spell <= state.spell && shift <= state.shift && week <= state.week && good_mark
    }

    fn previous(&self) -> u32 {
        (self.links >> PREVIOUS_AT) as u32
    }

    fn parent(&self) -> u32 {
        ((self.links >> PARENT_AT) & FIGURE_MASK) as u32
    }

    fn step(&self) -> Step {
        (self.links & STEP_MASK) as Step
    }
}

/// Where a label comes from: its parent's number, 0 at the start, and the parent's move.
#[derive(Clone, Copy)]
pub struct Origin {
    pub parent: u32,
    pub step: Step,
}

/// What is known of the labels at a junction.
#[derive(Clone, Copy)]
struct Gathered {
    least_spell: u32,
    least_shift: u32,
    least_week: u32,
    /// The number of the last label, 0 for none.
    last: u32,
}

const NONE_GATHERED: Gathered = Gathered {
    least_spell: u32::MAX,
    least_shift: u32::MAX,
    least_week: u32::MAX,
    last: 0,
};

impl Gathered {
    /// Whether no label has so low a figure.
    fn is_below(&self, state: &State) -> bool {
        state.spell < self.least_spell
            || state.shift < self.least_shift
            || state.week < self.least_week
    }
}

#[derive(Default)]
pub struct Settled {
    labels: Vec<Label>,
    gathered: Vec<Gathered>,
}

impl Settled {
    pub fn clear(&mut self, junctions: usize) {
        self.labels.clear();
        self.gathered.clear();
        self.gathered.resize(junctions, NONE_GATHERED);
    }

    pub fn count(&self) -> usize {
        self.labels.len()
    }

    /// Whether a label covers a state whose clock is not before any label's.
    pub fn covers(&self, state: &State) -> bool {
        let gathered = &self.gathered[state.junction as usize];
        if gathered.is_below(state) {
            return false;
        }
        let mut number = gathered.last;
        while number != 0 {
            let label = &self.labels[number as usize - 1];
            if label.covers(state) {
                return true;
            }
            number = label.previous();
        }
        false
    }

    pub fn add(&mut self, state: &State, origin: Origin) {
        assert!(self.count() < MOST_LABELS, "more labels than have a number");
        let gathered = &mut self.gathered[state.junction as usize];
        self.labels.push(Label::new(state, gathered.last, origin));
        *gathered = Gathered {
            least_spell: gathered.least_spell.min(state.spell),
            least_shift: gathered.least_shift.min(state.shift),
            least_week: gathered.least_week.min(state.week),
            last: self.labels.len() as u32,
        };
    }

    /// The steps from the start to the last label.
    pub fn steps(&self) -> Vec<Step> {
        let mut steps = Vec::new();
        let mut label = &self.labels[self.count() - 1];
        while label.parent() != 0 {
            steps.push(label.step());
            label = &self.labels[label.parent() as usize - 1];
        }
        steps.reverse();
        steps
    }
}
