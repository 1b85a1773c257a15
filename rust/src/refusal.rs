//! Refusals: their names, numbers and sentences.
use std::error::Error;
use std::fmt;

/// The numbers and sentences are those of `include/trunk.h`; a test holds the two together.
macro_rules! refusals {
    ($($name:ident = $number:literal, $sentence:literal;)*) => {
        /// Why a call refuses, in the order of the refusals' numbers. It is displayed as its sentence, which says what the
        /// place is too.
        ///
        /// Later versions refuse for more reasons, so a `match` needs an arm for the others.
        ///
        /// ```
        /// use trunk::Refusal;
        ///
        /// let refusal = Refusal::from_number(13).unwrap();
        /// assert_eq!(refusal, Refusal::NoRoad);
        /// assert_eq!(refusal.number(), 13);
        /// let sentence = "no legal journey exists; the place is the number of labels";
        /// assert_eq!(refusal.to_string(), sentence);
        /// ```
        #[derive(Clone, Copy, Debug, PartialEq, Eq, Hash)]
        #[non_exhaustive]
        #[repr(u8)]
        pub enum Refusal {
            $(#[doc = $sentence] $name = $number,)*
        }

        impl Refusal {
            /// In the order of their numbers, which count from 1.
            pub(crate) const ALL: &[Refusal] = &[$(Refusal::$name),*];

            fn sentence(self) -> &'static str {
                match self {
                    $(Refusal::$name => $sentence,)*
                }
            }
        }
    };
}

refusals! {
    ShortMap = 1, "the map is shorter than 16 bytes; the place is its length";
    StrangeMap = 2, "the map's format is not 1; the place is 0";
    Oversize = 3, "a count of junctions, roads or name bytes is out of range; the place is its offset in the map, 4, 8 or 12";
    Misfit = 4, "the map's length is not what its counts need; the place is the length needed";
    BadJunction = 5, "a junction's first road, car park or name is out of range; the place is the lowest such junction";
    BadRoad = 6, "a road's from, to, metres, speed or next road is out of range; the place is the lowest such road";
    BrokenChain = 7, "a road is not on the chain of its from-junction, or is on another's; the place is the lowest such road";
    BadLettering = 8, "a byte of the names is outside 0x20 to 0x7E; the place is the lowest such offset in the map";
    BadOrder = 9, "the order is not 60 bytes long; the place is its length";
    BadRules = 10, "a limit or a pause of the rules is out of range; the place is the first such word of an order, 6 to 13";
    BadTrip = 11, "the trip or a starting figure is out of range; the place is the first such word of an order, 0, 1, 3, 4, 5 or 14";
    Full = 12, "more labels are needed than fit; the place is how many fit";
    NoRoad = 13, "no legal journey exists; the place is the number of labels";
    ShortSheet = 14, "the sheet to write is too short; the place is the bytes needed";
    TornSheet = 15, "the length of the sheet to read does not fit its moves, at most 999,999; the place is that length";
    ForeignMove = 16, "a move is not offered where it is taken; the place is the move, from 1";
    Overrun = 17, "a move takes a figure over its limit or the clock past the latest arrival; the place is the move, from 1";
    FalseFigure = 18, "a clock or the header is not true; the place is the move, from 1, and for the header the moves + 1";
    Stray = 19, "the moves do not end at the target; the place is the junction reached";
    UnknownName = 20, "the map has no such junction; the place is the junction asked for";
    TornTrace = 21, "the trace's length is not a multiple of 8; the place is its length";
    OddRecord = 22, "a record's activity is not 0 to 2 or its seconds are not 1 to 1,000,000; the place is the record, from 1";
    PastLimit = 23, "driving takes a figure over its limit; the place is the record, from 1";
    UnknownRoad = 24, "the map has no such road; the place is the road asked for";
    BadBans = 25, "a number of the ban list is 0, above the road count or not above the one before; the place is its position, from 1";
}

impl Refusal {
    /// The refusal's number, as a reply and `include/trunk.h` have it.
    pub const fn number(self) -> u64 {
        self as u64
    }

    /// The refusal of this number; none for 0, which is a success, and for a number that this version does not know.
    pub fn from_number(number: u64) -> Option<Refusal> {
        let mut refusals = Refusal::ALL.iter().copied();
        refusals.find(|refusal| refusal.number() == number)
    }
}

impl fmt::Display for Refusal {
    fn fmt(&self, f: &mut fmt::Formatter<'_>) -> fmt::Result {
        f.write_str(self.sentence())
    }
}

impl Error for Refusal {}

/// A refusal and its place.
///
/// ```
/// use trunk::{Refusal, Refused};
///
/// let refused = trunk::check_map(&[]).unwrap_err();
/// let (refusal, place) = (Refusal::ShortMap, 0);
/// assert_eq!(refused, Refused { refusal, place });
/// let line = "refusal 1, place 0: the map is shorter than 16 bytes; the place is its length";
/// assert_eq!(refused.to_string(), line);
/// ```
#[derive(Clone, Copy, Debug, PartialEq, Eq, Hash)]
pub struct Refused {
    /// Why.
    pub refusal: Refusal,
    /// Where, or how many: the refusal's sentence says what the place is.
    pub place: u64,
}

impl fmt::Display for Refused {
    fn fmt(&self, f: &mut fmt::Formatter<'_>) -> fmt::Result {
        let (number, place) = (self.refusal.number(), self.place);
        write!(f, "refusal {number}, place {place}: {}", self.refusal)
    }
}

impl Error for Refused {}
