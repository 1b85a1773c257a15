//! The order and refusals 9 to 11, and the check of an order with its ban list.

use crate::bans::accepted_bans;
use crate::reply::*;
use crate::words::word;

pub const ORDER_BYTES: usize = 60;
pub const LATEST_CLOCK: u64 = 2_000_000_000;
pub const LONGEST_RULE: u64 = 1_000_000;

/// Words 6 to 13: spell limit, break, shift limit, rest, first part, second part, week limit and
/// weekly rest.
pub type RuleWords = [u64; 8];

pub const EUROPEAN_RULES: RuleWords = [16_200, 2_700, 32_400, 39_600, 900, 1_800, 201_600, 162_000];

#[derive(Clone, Debug, PartialEq, Eq)]
pub struct Order {
    pub source: u64,
    pub target: u64,
    pub departure: u64,
    pub latest: u64,
    pub spell: u64,
    pub shift: u64,
    pub spell_limit: u64,
    pub break_time: u64,
    pub shift_limit: u64,
    pub rest_time: u64,
    pub first_part: u64,
    pub second_part: u64,
    pub week_limit: u64,
    pub weekly_rest: u64,
    pub week: u64,
}

impl Order {
    /// The order that 60 bytes spell.
    pub fn read(bytes: &[u8]) -> Order {
        let at = |number: usize| word(bytes, 4 * number);
        Order {
            source: at(0),
            target: at(1),
            departure: at(2),
            latest: at(3),
            spell: at(4),
            shift: at(5),
            spell_limit: at(6),
            break_time: at(7),
            shift_limit: at(8),
            rest_time: at(9),
            first_part: at(10),
            second_part: at(11),
            week_limit: at(12),
            weekly_rest: at(13),
            week: at(14),
        }
    }

    /// An order with these words 6 to 13, and 4, 5 and 14. The others are 0, for want of a trip.
    pub fn of_hours(rules: RuleWords, figures: [u64; 3]) -> Order {
        let [spell_limit, break_time, shift_limit, rest_time, parts_and_week @ ..] = rules;
        let [first_part, second_part, week_limit, weekly_rest] = parts_and_week;
        let [spell, shift, week] = figures;
        Order {
            source: 0,
            target: 0,
            departure: 0,
            latest: 0,
            spell,
            shift,
            spell_limit,
            break_time,
            shift_limit,
            rest_time,
            first_part,
            second_part,
            week_limit,
            weekly_rest,
            week,
        }
    }

    pub fn words(&self) -> [u64; 15] {
        [
            self.source,
            self.target,
            self.departure,
            self.latest,
            self.spell,
            self.shift,
            self.spell_limit,
            self.break_time,
            self.shift_limit,
            self.rest_time,
            self.first_part,
            self.second_part,
            self.week_limit,
            self.weekly_rest,
            self.week,
        ]
    }

    pub fn bytes(&self) -> Vec<u8> {
        crate::words::bytes_of(&self.words())
    }

    /// Whether a first and a second part may stand for a break.
    pub fn has_split(&self) -> bool {
        self.first_part != 0
    }

    /// Each rule on words 6 to 13: the word it is charged to, and whether it holds. A lone zero
    /// among the parts is charged itself.
    pub fn rules(&self) -> [(u64, bool); 14] {
        [
            (6, 1 <= self.spell_limit),
            (8, self.spell_limit <= self.shift_limit),
            (8, self.shift_limit <= LONGEST_RULE),
            (7, 1 <= self.break_time),
            (9, self.break_time <= self.rest_time),
            (9, self.rest_time <= LONGEST_RULE),
            (10, self.first_part <= self.break_time),
            (10, self.first_part != 0 || self.second_part == 0),
            (11, self.second_part <= self.break_time),
            (11, self.second_part != 0 || self.first_part == 0),
            (12, self.shift_limit <= self.week_limit),
            (12, self.week_limit <= LONGEST_RULE),
            (13, self.rest_time <= self.weekly_rest),
            (13, self.weekly_rest <= LONGEST_RULE),
        ]
    }

    /// Each rule on words 0 to 5 and 14, likewise.
    pub fn trip(&self, junctions: u64) -> Vec<(u64, bool)> {
        let ends = [
            (0, (1..=junctions).contains(&self.source)),
            (1, (1..=junctions).contains(&self.target)),
            (3, self.departure <= self.latest),
            (3, self.latest <= LATEST_CLOCK),
        ];
        ends.into_iter().chain(self.figures()).collect()
    }

    /// Those on words 4, 5 and 14, the starting figures: one above its limit is charged itself.
    pub fn figures(&self) -> [(u64, bool); 5] {
        [
            (4, self.spell <= self.spell_limit),
            (5, self.spell <= self.shift),
            (5, self.shift <= self.shift_limit),
            (14, self.shift <= self.week),
            (14, self.week <= self.week_limit),
        ]
    }
}

pub fn check_order(bytes: &[u8], bans: &[u32], junctions: u32, roads: u32) -> Reply {
    let judged = accepted_order(bytes, u64::from(junctions))
        .and_then(|_| accepted_bans(bans, u64::from(roads)));
    told(judged.map(|_| Reply::success(0, 0)))
}

/// The order, unless one of refusals 9 to 11 fits.
pub fn accepted_order(bytes: &[u8], junctions: u64) -> Result<Order, Reply> {
    if bytes.len() != ORDER_BYTES {
        return Err(Reply::refused(BAD_ORDER, bytes.len() as u64));
    }
    let order = Order::read(bytes);
    refuse_broken(BAD_RULES, &order.rules())?;
    refuse_broken(BAD_TRIP, &order.trip(junctions))?;
    Ok(order)
}

/// Refuses with the first word that a broken rule is charged to.
pub fn refuse_broken(number: u64, rules: &[(u64, bool)]) -> Result<(), Reply> {
    let broken = rules.iter().filter(|(_, holds)| !holds);
    match broken.map(|(charged, _)| *charged).min() {
        Some(first) => Err(Reply::refused(number, first)),
        None => Ok(()),
    }
}
