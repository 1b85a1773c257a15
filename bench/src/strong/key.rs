//! A tentative label as one number. Keys are in the order of rank; of those with one state the one
//! comes first that entered the heap first.

use other::mapcheck::MOST_JUNCTIONS;
use other::moves::Mark;

use crate::trip::State;

// The fields from the lowest bits up. The clock's 31 bits are above them: 128 in all.
const ENTRY_BITS: u32 = 22;
const JUNCTION_BITS: u32 = 14;
const MARK_BITS: u32 = 1; // 0 with the mark, which comes first in rank
const FIGURE_BITS: u32 = 20;

const _: () = assert!(MOST_JUNCTIONS >> JUNCTION_BITS == 0);

const JUNCTION_AT: u32 = ENTRY_BITS;
const MARK_AT: u32 = JUNCTION_AT + JUNCTION_BITS;
const WEEK_AT: u32 = MARK_AT + MARK_BITS;
const SHIFT_AT: u32 = WEEK_AT + FIGURE_BITS;
const SPELL_AT: u32 = SHIFT_AT + FIGURE_BITS;
const CLOCK_AT: u32 = SPELL_AT + FIGURE_BITS;

/// The most tentative labels of a search.
pub const MOST_ENTRIES: usize = 1 << ENTRY_BITS;

#[derive(Clone, Copy)]
pub struct Key(pub u128);

impl Key {
    /// `entry` counts the labels that entered the heap before.
    pub fn new(state: &State, entry: usize) -> Key {
        Key(u128::from(state.clock) << CLOCK_AT
            | u128::from(state.spell) << SPELL_AT
            | u128::from(state.shift) << SHIFT_AT
            | u128::from(state.week) << WEEK_AT
            | u128::from(state.mark == Mark::Unmarked) << MARK_AT
            | u128::from(state.junction) << JUNCTION_AT
            | entry as u128)
    }

    pub fn state(self) -> State {
        State {
            clock: (self.0 >> CLOCK_AT) as u32,
            spell: self.field(SPELL_AT, FIGURE_BITS),
            shift: self.field(SHIFT_AT, FIGURE_BITS),
            week: self.field(WEEK_AT, FIGURE_BITS),
            mark: match self.field(MARK_AT, MARK_BITS) {
                0 => Mark::Marked,
                _ => Mark::Unmarked,
            },
            junction: self.field(JUNCTION_AT, JUNCTION_BITS),
        }
    }

    pub fn entry(self) -> usize {
        self.field(0, ENTRY_BITS) as usize
    }

    fn field(self, at: u32, bits: u32) -> u32 {
        (self.0 >> at) as u32 & ((1 << bits) - 1)
    }
}
