//! Long journeys without bans, whose sheets are retimed and audited.

use other::make::random::Random;
use other::moves::{Document, Trip};
use other::order::{Order, LATEST_CLOCK, LONGEST_RULE};
use other::sheet::{Record, Sheet};

use crate::maps::NamedMap;
use crate::trips::european_order;

const SEED: u64 = 1;

/// A sheet with the order that it is true for.
pub struct Journey {
    pub order: Vec<u8>,
    pub sheet: Vec<u8>,
    pub moves: u64,
}

/// So many legal moves at random from junction 1, with short pauses and the widest limits.
pub fn wander(map: &NamedMap, moves: u64) -> Journey {
    let order = widest_order(1).bytes();
    let trip = Trip::open(&map.bytes, &order, &[]).expect("a sound map and order");
    let random = &mut Random::new(SEED, moves);
    let mut state = trip.start();
    let mut records = Vec::new();
    for _ in 0..moves {
        let (step, after) = random.pick(&trip.legal_moves::<Document>(&state));
        state = after;
        records.push(Record {
            step,
            clock: state.clock,
        });
    }
    Journey {
        order: widest_order(state.junction).bytes(),
        sheet: Sheet::ending_at(&state, 0, records).bytes(),
        moves,
    }
}

fn widest_order(target: u64) -> Order {
    Order {
        spell_limit: LONGEST_RULE,
        shift_limit: LONGEST_RULE,
        week_limit: LONGEST_RULE,
        break_time: 1,
        rest_time: 1,
        weekly_rest: 1,
        latest: LATEST_CLOCK,
        ..european_order(target)
    }
}
