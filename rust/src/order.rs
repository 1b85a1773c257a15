//! Orders, and the rules and figures that they carry.
use crate::words::{bytes_of, words_in};
use crate::{ORDER_BYTES, Refusal, Refused};

const ORDER_WORDS: usize = ORDER_BYTES / 4;
const RULE_WORDS: usize = 8;

/// How long a driver may be at the wheel, and how long the pauses are that allow more: words 6 to 13 of an order, in
/// seconds.
///
/// ```
/// let european = trunk::Rules::european();
/// assert_eq!((european.first_part, european.second_part), (900, 1_800));
/// let undivided = european.without_split();
/// assert_eq!(undivided.words(), [16_200, 2_700, 32_400, 39_600, 0, 0, 201_600, 162_000]);
/// ```
#[derive(Clone, Copy, Debug, PartialEq, Eq, Hash)]
pub struct Rules {
    /// The most wheel time from one break, second part, rest or weekly rest to the next.
    pub spell_limit: u32,
    /// How long a break is.
    pub break_time: u32,
    /// The most wheel time from one rest or weekly rest to the next.
    pub shift_limit: u32,
    /// How long a rest is.
    pub rest_time: u32,
    /// How long the first part of a split break is; both parts are 0 where a break cannot be split.
    pub first_part: u32,
    /// How long the second part is.
    pub second_part: u32,
    /// The most wheel time from one weekly rest to the next.
    pub week_limit: u32,
    /// How long a weekly rest is.
    pub weekly_rest: u32,
}

impl Rules {
    /// The European rules: Regulation (EC) 561/2006, which lets 15 minutes followed by 30 stand for a break. Its week is
    /// counted here from one weekly rest to the next.
    pub const fn european() -> Rules {
        Rules {
            spell_limit: 16_200,
            break_time: 2_700,
            shift_limit: 32_400,
            rest_time: 39_600,
            first_part: 900,
            second_part: 1_800,
            week_limit: 201_600,
            weekly_rest: 162_000,
        }
    }

    /// The same rules, but a break cannot be split.
    pub const fn without_split(self) -> Rules {
        Rules {
            first_part: 0,
            second_part: 0,
            ..self
        }
    }

    /// Words 6 to 13 of an order.
    pub const fn words(self) -> [u32; RULE_WORDS] {
        [
            self.spell_limit,
            self.break_time,
            self.shift_limit,
            self.rest_time,
            self.first_part,
            self.second_part,
            self.week_limit,
            self.weekly_rest,
        ]
    }

    /// The rules that words 6 to 13 of an order give. They are not judged here.
    pub const fn from_words(words: [u32; RULE_WORDS]) -> Rules {
        let [
            spell_limit,
            break_time,
            shift_limit,
            rest_time,
            parts_and_week @ ..,
        ] = words;
        let [first_part, second_part, week_limit, weekly_rest] = parts_and_week;
        Rules {
            spell_limit,
            break_time,
            shift_limit,
            rest_time,
            first_part,
            second_part,
            week_limit,
            weekly_rest,
        }
    }
}

/// A driver's figures: words 4, 5 and 14 of an order, in seconds, and the mark. The default is a driver who comes from a
/// weekly rest.
#[derive(Clone, Copy, Debug, Default, PartialEq, Eq, Hash)]
pub struct Figures {
    /// Wheel time since the last break, second part, rest or weekly rest.
    pub spell: u32,
    /// Wheel time since the last rest or weekly rest.
    pub shift: u32,
    /// Wheel time since the last weekly rest.
    pub week: u32,
    /// Whether the first part of a split break is behind the driver, and no pause since that clears it. An order's start
    /// carries no mark.
    pub marked: bool,
}

/// An order: a trip, the driver's figures at its start and the rules. Times are in seconds.
///
/// It has the driver's three figures without a mark, since an order's start carries none; [`Order::with_figures`] takes
/// them from a replay's.
///
/// ```
/// use trunk::{Figures, Order, Rules};
///
/// let order = Order::european(1, 3, 0, 100_000);
/// assert_eq!(trunk::check_order(&order.to_bytes(), &[], 3, 3), Ok(()));
/// assert_eq!(Order::from_bytes(&order.to_bytes()), Ok(order));
///
/// let figures = Figures { spell: 4_500, shift: 15_300, week: 15_300, marked: true };
/// let split = Order { rules: Rules::european(), ..order }.with_figures(figures);
/// assert_eq!((split.spell, split.shift, split.week), (4_500, 15_300, 15_300));
/// assert_eq!(trunk::check_order(&split.to_bytes(), &[], 3, 3), Ok(()));
/// ```
#[derive(Clone, Copy, Debug, PartialEq, Eq, Hash)]
pub struct Order {
    /// The junction where the trip starts.
    pub source: u32,
    /// The junction where it ends.
    pub target: u32,
    /// When it starts.
    pub departure: u32,
    /// When it must have ended.
    pub latest: u32,
    /// Wheel time since the last break, second part, rest or weekly rest.
    pub spell: u32,
    /// Wheel time since the last rest or weekly rest.
    pub shift: u32,
    /// The limits and the pauses.
    pub rules: Rules,
    /// Wheel time since the last weekly rest.
    pub week: u32,
}

impl Order {
    /// For a driver who comes from a weekly rest, under the European rules without a split of the break: a split takes more
    /// label space, so it is asked for, with `rules: Rules::european()`.
    pub const fn european(source: u32, target: u32, departure: u32, latest: u32) -> Order {
        Order {
            source,
            target,
            departure,
            latest,
            spell: 0,
            shift: 0,
            rules: Rules::european().without_split(),
            week: 0,
        }
    }

    /// The same trip for a driver with these figures. Their mark is left out.
    pub const fn with_figures(self, figures: Figures) -> Order {
        Order {
            spell: figures.spell,
            shift: figures.shift,
            week: figures.week,
            ..self
        }
    }

    /// The fifteen words of an order.
    pub fn words(&self) -> [u32; ORDER_WORDS] {
        let mut words = [0; ORDER_WORDS];
        let ends = [self.source, self.target, self.departure, self.latest];
        words[..4].copy_from_slice(&ends);
        words[4..6].copy_from_slice(&[self.spell, self.shift]);
        words[6..14].copy_from_slice(&self.rules.words());
        words[14] = self.week;
        words
    }

    /// The order that fifteen words hold. They are not judged here.
    pub const fn from_words(words: [u32; ORDER_WORDS]) -> Order {
        let [
            source,
            target,
            departure,
            latest,
            spell,
            shift,
            rules @ ..,
            week,
        ] = words;
        Order {
            source,
            target,
            departure,
            latest,
            spell,
            shift,
            rules: Rules::from_words(rules),
            week,
        }
    }

    /// The order's bytes, as the operations read them.
    pub fn to_bytes(&self) -> [u8; ORDER_BYTES] {
        let mut bytes = [0; ORDER_BYTES];
        for (place, byte) in bytes.iter_mut().zip(bytes_of(self.words())) {
            *place = byte;
        }
        bytes
    }

    /// The order that these bytes hold; another length than [`ORDER_BYTES`] is [`Refusal::BadOrder`]. Nothing else is judged
    /// here: that is [`check_order`](crate::check_order).
    pub fn from_bytes(bytes: &[u8]) -> Result<Order, Refused> {
        if bytes.len() != ORDER_BYTES {
            let place = bytes.len() as u64;
            return Err(Refused {
                refusal: Refusal::BadOrder,
                place,
            });
        }
        Ok(Order::from_words(words_in(bytes)))
    }
}
