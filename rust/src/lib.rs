//! Safe Rust over the trunk lorry planner, a library that is proved in Rattle: from a road map with car parks, a
//! driver's hours and a trip to the legal route, with breaks and rests, that arrives first.
//!
//! Maps, orders, sheets and traces are bytes; `docs/FORMATS.md` describes every word of them, each refusal, and the words
//! used here. [`Order`] and [`Sheet`] read and write such bytes, and [`trace_bytes`] writes a trace's. Every operation ends,
//! allocates nothing, and answers bad input by a refusal that changes no byte.
//!
//! A map of two junctions and one road, written word by word, and a trip from one to the other:
//!
//! ```
//! use trunk::{LABEL_WORDS, Move, MoveKind, Order, Sheet};
//!
//! let words = [
//!     1, 2, 1, 2, // header: format, junctions, roads, name bytes
//!     1, 0, 0, 1, // A: first road, no car park, start and length of its name
//!     0, 0, 1, 1, // B: no road leaves it
//!     1, 2, 1_000, 80, 0, // road 1: from, to, metres, km per hour, next road from there
//! ];
//! let mut map: Vec<u8> = words.into_iter().flat_map(u32::to_le_bytes).collect();
//! map.extend(b"AB");
//! trunk::check_map(&map)?;
//!
//! let order = Order::european(1, 2, 0, 100).to_bytes();
//! let mut labels = [0; 2 * LABEL_WORDS];
//! let mut lent = [0; 100];
//! let planned = trunk::plan(&map, &order, &[], &mut labels, &mut lent)?;
//! assert_eq!((planned.labels, planned.arrival), (2, 45));
//! let (kind, number, clock) = (MoveKind::Drive, 1, 45);
//! assert_eq!(Sheet::from_bytes(&lent)?.moves, [Move { kind, number, clock }]);
//! assert_eq!(trunk::name(&map, 2)?, "B");
//! # Ok::<(), trunk::Refused>(())
//! ```
//!
//! A road takes 18 × metres / (5 × km per hour) seconds, to the nearest second, an exact half to the even one, and never
//! below 1.
//!
//! Beside an order goes its ban list: the numbers of the banned roads, rising; `&[]` bans none. A banned road may not be
//! entered from 00:00:00 on and before 22:00:00 on Sundays, Good Friday, Easter Monday, Ascension and Whit Monday: a lorry
//! that comes then queues until 22:00 of that day. Only the moment of entry counts. The queue is neither driving nor a
//! pause: the clock alone sees it, and no car park is needed. Clock 0 is then 00:00 on 1 January 2000, a Saturday.
//!
//! [`plan`] and [`preview`] need [`PLAN_STACK_BYTES`] of stack and every other call [`STACK_BYTES`], whatever the map.
//! Threads of the standard library have 2 MiB unless they are given less.
//!
//! The package links `libtrunk.a`, which `tools/build.sh library` writes to `target/staticlib` of the repository; the variable
//! `TRUNK_LIB_DIR` names another folder that has it, a relative one counted from this package's. It is for x86-64 Linux.
#![warn(missing_docs)]

mod order;
mod raw;
mod refusal;
mod sheet;
mod trace;
mod words;

pub use order::{Figures, Order, Rules};
pub use refusal::{Refusal, Refused};
pub use sheet::{Move, MoveKind, Sheet};
pub use trace::{Activity, TraceRecord, trace_bytes};

/// The version of the calls, formats and numbers that this package describes, as in `include/trunk.h`. It rises by one with
/// each change that a caller must follow. [`version`] is that of the library.
pub const VERSION: u32 = 2;
/// The most junctions of a map.
pub const MOST_JUNCTIONS: usize = 12_288;
/// The most roads of a map.
pub const MOST_ROADS: usize = 40_960;
/// The most bytes of a map's names.
pub const MOST_NAME_BYTES: usize = 1_048_576;
/// The length of the largest map.
pub const MOST_MAP_BYTES: usize = 16 + 16 * MOST_JUNCTIONS + 20 * MOST_ROADS + MOST_NAME_BYTES;
/// The most labels that [`plan`] and [`preview`] use.
pub const MOST_LABELS: usize = 1_000_000;
/// The length of an order: fifteen words, source, target, departure, latest arrival, spell, shift, the eight of [`Rules`]
/// and week.
pub const ORDER_BYTES: usize = 60;
/// The words of a label in the label space of [`plan`] and [`preview`].
pub const LABEL_WORDS: usize = 10;
/// The bytes of a sheet's header: six words, moves, arrival, spell, shift, week and labels. The moves' records follow.
pub const SHEET_HEADER_BYTES: usize = 24;
/// The bytes of a move's record on a sheet: three words, its kind, its number and the clock after it.
pub const SHEET_RECORD_BYTES: usize = 12;
/// The stack to leave for [`plan`] and [`preview`].
pub const PLAN_STACK_BYTES: usize = 256 * 1024;
/// The stack to leave for every other call.
pub const STACK_BYTES: usize = 64 * 1024;
/// The seconds of a day. Days are counted from 0, which is Saturday 1 January 2000: clock / `DAY_SECONDS`.
pub const DAY_SECONDS: u32 = 86_400;
/// A sheet's kind of move: a drive, by the road of the record's number. The other kinds are pauses, at the junction of
/// the record's number.
pub const DRIVE: u32 = 1;
/// A sheet's kind of move: a break.
pub const BREAK: u32 = 2;
/// A sheet's kind of move: a rest.
pub const REST: u32 = 3;
/// A sheet's kind of move: the first part of a split break.
pub const FIRST_PART: u32 = 4;
/// A sheet's kind of move: the second part of a split break.
pub const SECOND_PART: u32 = 5;
/// A sheet's kind of move: a weekly rest.
pub const WEEKLY_REST: u32 = 6;
/// The bytes of a trace's record: two words, the activity and its seconds.
pub const TRACE_RECORD_BYTES: usize = 8;
/// The most seconds of a trace's record.
pub const MOST_TRACE_SECONDS: u32 = 1_000_000;
/// A trace's activity: other work.
pub const OTHER_WORK: u32 = 0;
/// A trace's activity: driving.
pub const DRIVING: u32 = 1;
/// A trace's activity: a pause.
pub const PAUSE: u32 = 2;

/// A plan was written to the sheet.
#[derive(Clone, Copy, Debug, PartialEq, Eq, Hash)]
pub struct Planned {
    /// How many labels the search counted, N on the sheet.
    pub labels: u64,
    /// When the plan arrives, in seconds.
    pub arrival: u64,
}

/// A sheet was retimed or audited.
#[derive(Clone, Copy, Debug, PartialEq, Eq, Hash)]
pub struct Timed {
    /// How many moves the sheet has.
    pub moves: u64,
    /// When they arrive, in seconds.
    pub arrival: u64,
}

/// A trace was replayed.
#[derive(Clone, Copy, Debug, PartialEq, Eq, Hash)]
pub struct Replayed {
    /// How many records the trace has.
    pub records: u64,
}

/// What a call told: number, place, arrival. It is kept inside; callers get a `Result`.
struct Reply {
    number: u64,
    place: u64,
    arrival: u64,
}

impl Reply {
    fn accepted(self) -> Result<Reply, Refused> {
        match self.number {
            0 => Ok(self),
            number => Err(Refused {
                refusal: refusal_of(number),
                place: self.place,
            }),
        }
    }

    fn planned(self) -> Planned {
        Planned {
            labels: self.place,
            arrival: self.arrival,
        }
    }
}

/// The refusal of a reply's number. Only a library of another version tells a number that this package does not know.
fn refusal_of(number: u64) -> Refusal {
    Refusal::from_number(number).unwrap_or_else(|| {
        panic!(
            "refusal {number} of the library, version {}, is not known to the package, version {VERSION}",
            version()
        )
    })
}

/// Lends three numbers to a call and reads the reply from them.
fn replied(call: impl FnOnce(*mut u64, usize)) -> Result<Reply, Refused> {
    let mut numbers = [0; 3];
    call(numbers.as_mut_ptr(), numbers.len());
    let [number, place, arrival] = numbers;
    Reply {
        number,
        place,
        arrival,
    }
    .accepted()
}

// In each call below, the pointers and lengths are those of slices, which Rust keeps valid, aligned and, where they are
// `&mut`, apart from all others. That is all the library asks (`include/trunk.h`).

/// The version of the library that is linked. A program may compare it with [`VERSION`] at its start.
///
/// ```
/// assert_eq!(trunk::version(), trunk::VERSION);
/// ```
pub fn version() -> u32 {
    raw::trunk_version()
}

/// Map check: refusals 1 to 8.
///
/// ```
/// use trunk::{Refusal, Refused};
///
/// let map = std::fs::read("../crates/plan/data/map")?; // map T: Hub 1, Lay 2, a car park, End 3
/// assert_eq!(trunk::check_map(&map), Ok(()));
/// let (refusal, place) = (Refusal::Misfit, 133);
/// assert_eq!(trunk::check_map(&map[..132]), Err(Refused { refusal, place }));
/// # Ok::<(), std::io::Error>(())
/// ```
pub fn check_map(map: &[u8]) -> Result<(), Refused> {
    replied(|reply, count| unsafe { raw::trunk_check_map(map.as_ptr(), map.len(), reply, count) })?;
    Ok(())
}

/// Order check: an order and its ban list alone, as they are typed. Refusals 9 to 11, 25.
///
/// `junctions` and `roads` are how many the map has that both are meant for, the words at offsets 4 and 8 of that map.
///
/// ```
/// use trunk::{Order, Refusal, Refused};
///
/// let order = Order::european(1, 3, 0, 100_000).to_bytes();
/// assert_eq!(trunk::check_order(&order, &[], 3, 3), Ok(()));
/// let (refusal, place) = (Refusal::BadTrip, 1); // word 1: there is no junction 3
/// assert_eq!(trunk::check_order(&order, &[], 2, 3), Err(Refused { refusal, place }));
///
/// assert_eq!(trunk::check_order(&order, &[1, 3], 3, 3), Ok(()));
/// let (refusal, place) = (Refusal::BadBans, 2); // the second number: there is no road 3
/// assert_eq!(trunk::check_order(&order, &[1, 3], 3, 2), Err(Refused { refusal, place }));
/// ```
pub fn check_order(order: &[u8], bans: &[u32], junctions: u32, roads: u32) -> Result<(), Refused> {
    replied(|reply, count| unsafe {
        raw::trunk_check_order(
            order.as_ptr(),
            order.len(),
            bans.as_ptr(),
            bans.len(),
            junctions,
            roads,
            reply,
            count,
        )
    })?;
    Ok(())
}

/// Planning: writes the first-arriving legal plan to the sheet. Refusals 1 to 11, 25, 12 to 14.
///
/// `bans` are the banned roads, rising. The clock after a drive has the queue in it. `words` is label space,
/// [`LABEL_WORDS`] a label, of which at most [`MOST_LABELS`] are used; what it holds does not matter before and is of no
/// use afterwards. A plan of M moves takes 24 + 12M bytes of the sheet; the bytes after them stay.
///
/// ```
/// let map = std::fs::read("../crates/plan/data/map")?; // map T: Hub 1, Lay 2, a car park, End 3
/// let order = trunk::Order::european(1, 3, 0, 100_000).to_bytes();
/// let mut words = [0; 10 * trunk::LABEL_WORDS];
/// let mut sheet = [0; 1000];
/// let planned = trunk::plan(&map, &order, &[], &mut words, &mut sheet)?;
/// assert_eq!((planned.labels, planned.arrival), (4, 20_700));
///
/// let full = trunk::plan(&map, &order, &[], &mut words[..30], &mut sheet).unwrap_err();
/// let line = "refusal 12, place 3: more labels are needed than fit; the place is how many fit";
/// assert_eq!(full.to_string(), line);
///
/// // On Sunday 2 January 2000 the lorry is at Lay long before road 2 opens at 22:00, and drives two hours from then on.
/// let sunday = trunk::DAY_SECONDS;
/// let order = trunk::Order::european(1, 3, sunday, 2 * sunday).to_bytes();
/// let queued = trunk::plan(&map, &order, &[2], &mut words, &mut sheet)?;
/// assert_eq!(queued.arrival, u64::from(sunday) + (22 + 2) * 3_600);
/// # Ok::<(), Box<dyn std::error::Error>>(())
/// ```
pub fn plan(
    map: &[u8],
    order: &[u8],
    bans: &[u32],
    words: &mut [u32],
    sheet: &mut [u8],
) -> Result<Planned, Refused> {
    let reply = replied(|reply, count| unsafe {
        raw::trunk_plan(
            map.as_ptr(),
            map.len(),
            order.as_ptr(),
            order.len(),
            bans.as_ptr(),
            bans.len(),
            words.as_mut_ptr(),
            words.len(),
            sheet.as_mut_ptr(),
            sheet.len(),
            reply,
            count,
        )
    })?;
    Ok(reply.planned())
}

/// Retiming: writes the moves of a sheet with their true figures, queues counted, to another sheet. Refusals 1 to 11, 25,
/// 15, 16 and 17 move by move, 19, 14.
///
/// The sheet that is read is exactly 24 + 12M bytes for its M moves.
///
/// ```
/// use trunk::{Move, MoveKind, Order, Sheet};
///
/// let map = std::fs::read("../crates/plan/data/map")?; // map T: Hub 1, Lay 2, a car park, End 3
/// let order = Order::european(1, 3, 0, 100_000).to_bytes();
/// let moves = [(MoveKind::Drive, 1), (MoveKind::Rest, 2), (MoveKind::Drive, 2)];
/// let untimed = |(kind, number)| Move { kind, number, clock: 0 };
/// let typed = Sheet { moves: moves.map(untimed).to_vec(), ..Sheet::default() }.to_bytes();
/// let mut out = vec![0; typed.len()];
/// let timed = trunk::retime(&map, &order, &[], &typed, &mut out)?;
/// assert_eq!((timed.moves, timed.arrival), (3, 57_600));
/// assert_eq!(Sheet::from_bytes(&out)?.moves[1].clock, 50_400);
///
/// // On Sunday 2 January 2000 the rest ends at 136,800, and road 2, which takes 7,200, opens at 165,600.
/// let sunday = Order::european(1, 3, trunk::DAY_SECONDS, 200_000).to_bytes();
/// assert_eq!(trunk::retime(&map, &sunday, &[2], &typed, &mut out)?.arrival, 172_800);
/// # Ok::<(), Box<dyn std::error::Error>>(())
/// ```
pub fn retime(
    map: &[u8],
    order: &[u8],
    bans: &[u32],
    sheet: &[u8],
    out: &mut [u8],
) -> Result<Timed, Refused> {
    let reply = replied(|reply, count| unsafe {
        raw::trunk_retime(
            map.as_ptr(),
            map.len(),
            order.as_ptr(),
            order.len(),
            bans.as_ptr(),
            bans.len(),
            sheet.as_ptr(),
            sheet.len(),
            out.as_mut_ptr(),
            out.len(),
            reply,
            count,
        )
    })?;
    Ok(Timed {
        moves: reply.place,
        arrival: reply.arrival,
    })
}

/// Audit: whether a sheet's moves are legal and its figures true, queues counted. Refusals 1 to 11, 25, 15, 16 to 18 move by
/// move, 19, 18 for the header.
///
/// The sheet is exactly 24 + 12M bytes for its M moves. Its label count is not judged.
///
/// ```
/// use trunk::{Order, Refusal, Refused};
///
/// let map = std::fs::read("../crates/plan/data/map")?; // map T: Hub 1, Lay 2, a car park, End 3
/// let order = Order::european(1, 3, 0, 100_000).to_bytes();
/// let mut sheet = [0; 60];
/// trunk::plan(&map, &order, &[], &mut [0; 10 * trunk::LABEL_WORDS], &mut sheet)?;
/// let timed = trunk::audit(&map, &order, &[], &sheet)?;
/// assert_eq!((timed.moves, timed.arrival), (3, 20_700));
/// assert_eq!(trunk::audit(&map, &order, &[2], &sheet)?, timed); // clock 0 is a Saturday's
///
/// sheet[4] += 1; // the arrival in the header
/// let (refusal, place) = (Refusal::FalseFigure, 4);
/// assert_eq!(trunk::audit(&map, &order, &[], &sheet), Err(Refused { refusal, place }));
/// # Ok::<(), Box<dyn std::error::Error>>(())
/// ```
pub fn audit(map: &[u8], order: &[u8], bans: &[u32], sheet: &[u8]) -> Result<Timed, Refused> {
    let reply = replied(|reply, count| unsafe {
        raw::trunk_audit(
            map.as_ptr(),
            map.len(),
            order.as_ptr(),
            order.len(),
            bans.as_ptr(),
            bans.len(),
            sheet.as_ptr(),
            sheet.len(),
            reply,
            count,
        )
    })?;
    Ok(Timed {
        moves: reply.place,
        arrival: reply.arrival,
    })
}

/// The part of the map that spells a junction's name. Refusals 1 to 8, 20.
///
/// ```
/// let map = std::fs::read("../crates/plan/data/map")?; // map T: Hub 1, Lay 2, a car park, End 3
/// assert_eq!(trunk::name(&map, 2), Ok("Lay"));
/// let unknown = trunk::name(&map, 4).unwrap_err();
/// assert_eq!((unknown.refusal, unknown.place), (trunk::Refusal::UnknownName, 4));
/// # Ok::<(), std::io::Error>(())
/// ```
pub fn name(map: &[u8], junction: u32) -> Result<&str, Refused> {
    let mut part = [0; 2];
    replied(|reply, count| unsafe {
        raw::trunk_name(
            map.as_ptr(),
            map.len(),
            junction,
            reply,
            count,
            part.as_mut_ptr(),
            part.len(),
        )
    })?;
    let [from, length] = part.map(|number: u64| number as usize);
    let spelt = std::str::from_utf8(&map[from..from + length]);
    Ok(spelt.expect("the names of an accepted map are bytes 0x20 to 0x7E"))
}

/// Chain making: sets each junction's first road and each road's next road, whatever they were, and nothing else.
/// Refusals 1 to 6, not judging those fields, and 8.
///
/// ```
/// let map = std::fs::read("../crates/plan/data/map")?; // map T: Hub 1, Lay 2, a car park, End 3
/// let mut unchained = map.clone();
/// unchained[16..20].fill(0); // Hub's first road
/// assert_eq!(trunk::check_map(&unchained).unwrap_err().refusal, trunk::Refusal::BrokenChain);
/// trunk::make_chains(&mut unchained)?;
/// assert_eq!(unchained, map);
/// # Ok::<(), Box<dyn std::error::Error>>(())
/// ```
pub fn make_chains(map: &mut [u8]) -> Result<(), Refused> {
    replied(|reply, count| unsafe {
        raw::trunk_make_chains(map.as_mut_ptr(), map.len(), reply, count)
    })?;
    Ok(())
}

/// Replaying: brings a driver's figures up to date from a tachograph's trace. Refusals 10, 11, 21, then 22 and 23 record
/// by record; a refusal leaves the figures.
///
/// [`trace_bytes`] makes a trace of records. A record is two little-endian words: [`OTHER_WORK`], [`DRIVING`] or
/// [`PAUSE`], and its seconds, 1 to [`MOST_TRACE_SECONDS`]. Driving adds to spell, shift and week. Neighbouring pauses
/// are one pause, judged whole, with the mark from before it. At least as long as the break it clears spell and the
/// mark, at least as long as the rest shift too, at least as long as the weekly rest week too. One shorter than the
/// break counts where the rules have a split: with the mark and at least as long as the second part it clears mark and
/// spell, otherwise it sets the mark if it is at least as long as the first part. Other work clears nothing and ends a
/// pause, and so does the trace's end: the pauses of two traces are not joined.
///
/// ```
/// use trunk::{Activity, Figures, Rules, TraceRecord};
///
/// let trace = trunk::trace_bytes(&[
///     TraceRecord::new(Activity::Driving, 10_800),
///     TraceRecord::new(Activity::Pause, 2_700),
///     TraceRecord::new(Activity::Driving, 4_500),
/// ]);
/// let mut figures = Figures::default(); // from a weekly rest
/// let replayed = trunk::replay(&trace, Rules::european(), &mut figures)?;
/// assert_eq!(replayed.records, 3);
/// let (spell, shift, week, marked) = (4_500, 15_300, 15_300, false);
/// assert_eq!(figures, Figures { spell, shift, week, marked });
/// # Ok::<(), trunk::Refused>(())
/// ```
pub fn replay(trace: &[u8], rules: Rules, figures: &mut Figures) -> Result<Replayed, Refused> {
    let words = rules.words();
    let mut lent = [
        figures.spell,
        figures.shift,
        figures.week,
        figures.marked.into(),
    ];
    let answer = replied(|reply, count| unsafe {
        raw::trunk_replay(
            trace.as_ptr(),
            trace.len(),
            words.as_ptr(),
            words.len(),
            lent.as_mut_ptr(),
            lent.len(),
            reply,
            count,
        )
    });
    let [spell, shift, week, mark] = lent;
    *figures = Figures {
        spell,
        shift,
        week,
        marked: mark != 0,
    };
    Ok(Replayed {
        records: answer?.place,
    })
}

/// Striking a road, as for a closure: sets its to-junction to its from-junction, and nothing else. Roads count from 1.
/// Refusals 1 to 8, 24.
///
/// The map passes the map check as before. Nothing tells afterwards where the road led.
///
/// ```
/// let mut map = std::fs::read("../crates/plan/data/map")?; // map T: road 2 leads from Lay 2 to End 3
/// let order = trunk::Order::european(1, 3, 0, 100_000).to_bytes();
/// trunk::strike(&mut map, 2)?;
/// let mut words = [0; 10 * trunk::LABEL_WORDS];
/// let none = trunk::plan(&map, &order, &[], &mut words, &mut []).unwrap_err();
/// assert_eq!(none.refusal, trunk::Refusal::NoRoad);
/// # Ok::<(), Box<dyn std::error::Error>>(())
/// ```
pub fn strike(map: &mut [u8], road: u32) -> Result<(), Refused> {
    replied(|reply, count| unsafe {
        raw::trunk_strike(map.as_mut_ptr(), map.len(), road, reply, count)
    })?;
    Ok(())
}

/// Preview of a closure: answers and writes exactly what [`plan`] would with a copy of the map in which [`strike`] has
/// struck the road. The map itself is only read. Refusals 1 to 11, which judge the map as it is, 24, 25, then 12 to 14 of
/// the trip without the road.
///
/// `bans`, `words` and `sheet` are those of [`plan`]; refusals 1 to 11, 24 and 25 leave the words. A struck road keeps its
/// ban.
///
/// ```
/// let map = std::fs::read("../crates/plan/data/map")?; // map T: road 3 leads from Hub 1 to End 3
/// let order = trunk::Order::european(1, 3, 0, 100_000).to_bytes();
/// let (mut words, mut sheet) = ([0; 10 * trunk::LABEL_WORDS], [0; 1000]);
/// // The plan does not use road 3, and there is none without road 2.
/// let closed = trunk::preview(&map, &order, &[], 3, &mut words, &mut sheet)?;
/// assert_eq!(closed.arrival, 20_700);
/// let none = trunk::preview(&map, &order, &[], 2, &mut words, &mut sheet).unwrap_err();
/// assert_eq!(none.refusal, trunk::Refusal::NoRoad);
///
/// // Road 2 banned, on Sunday 2 January 2000.
/// let sunday = trunk::Order::european(1, 3, trunk::DAY_SECONDS, 200_000).to_bytes();
/// let queued = trunk::preview(&map, &sunday, &[2], 3, &mut words, &mut sheet)?;
/// assert_eq!(queued.arrival, 172_800);
/// # Ok::<(), Box<dyn std::error::Error>>(())
/// ```
pub fn preview(
    map: &[u8],
    order: &[u8],
    bans: &[u32],
    road: u32,
    words: &mut [u32],
    sheet: &mut [u8],
) -> Result<Planned, Refused> {
    let reply = replied(|reply, count| unsafe {
        raw::trunk_preview(
            map.as_ptr(),
            map.len(),
            order.as_ptr(),
            order.len(),
            bans.as_ptr(),
            bans.len(),
            road,
            words.as_mut_ptr(),
            words.len(),
            sheet.as_mut_ptr(),
            sheet.len(),
            reply,
            count,
        )
    })?;
    Ok(reply.planned())
}

#[cfg(test)]
mod tests;
