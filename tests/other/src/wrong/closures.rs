//! Wrong copies of striking and of the preview.

use super::{clear_tail, WrongCopy};
use crate::map::Map;
use crate::mapcheck::accepted_map;
use crate::moves::{Document, Move, Trip, DRIVE};
use crate::operations::{Operations, DOCUMENT};
use crate::planning::{plan, records_of, WORDS_OF_A_LABEL};
use crate::reply::*;
use crate::sheet::{sheet_bytes, Record};
use crate::striking::{preview, strike};
use crate::words::{put_word, word};

type StrikeFunction = fn(&mut [u8], u32) -> Reply;

pub fn copies() -> Vec<WrongCopy> {
    let mut copies = strike_copies().to_vec();
    copies.extend(preview_copies());
    copies
}

fn strike_copies() -> [WrongCopy; 13] {
    let striking: [(&'static str, StrikeFunction); 13] = [
        ("strike-moves-the-other-end", moves_the_other_end),
        ("strike-takes-the-road-off-its-chain", off_its_chain),
        ("strike-clears-metres", clears_metres),
        ("strike-clears-speed", clears_speed),
        ("strike-takes-parallel-roads-too", takes_parallel_roads),
        ("strike-takes-the-way-back-too", takes_the_way_back),
        ("strike-knows-road-0", knows_road_0),
        ("strike-knows-no-last-road", knows_no_last_road),
        ("strike-knows-no-road-that-leads-back", knows_no_loop),
        ("strike-tells-the-last-road", tells_the_last_road),
        ("strike-judges-the-number-first", judges_the_number_first),
        ("strike-mends-a-bad-end", mends_a_bad_end),
        ("strike-despite-bad-lettering", despite_bad_lettering),
    ];
    striking.map(|(name, strike)| WrongCopy {
        name,
        operations: Operations { strike, ..DOCUMENT },
    })
}

/// Judges as it must, and makes another change than striking.
fn change_instead(map: &mut [u8], road: u32, change: fn(&mut Map, usize)) -> Reply {
    let reply = strike(&mut map.to_vec(), road);
    if reply.number == 0 {
        let mut changed = accepted_map(map).expect("a map that was struck");
        change(&mut changed, road as usize - 1);
        map.copy_from_slice(&changed.bytes());
    }
    reply
}

fn lead_back(map: &mut Map, index: usize) {
    map.strike(index as u64 + 1);
}

fn moves_the_other_end(map: &mut [u8], road: u32) -> Reply {
    change_instead(map, road, |map, index| {
        map.roads[index].from = map.roads[index].to;
    })
}

/// The road before it leads on to the one behind it.
fn off_its_chain(map: &mut [u8], road: u32) -> Reply {
    change_instead(map, road, |map, index| {
        lead_back(map, index);
        let (number, behind) = (index as u64 + 1, map.roads[index].next);
        let firsts = map.junctions.iter_mut().map(|junction| &mut junction.first);
        let nexts = map.roads.iter_mut().map(|road| &mut road.next);
        let links = firsts.chain(nexts).filter(|link| **link == number);
        links.for_each(|link| *link = behind);
    })
}

fn clears_metres(map: &mut [u8], road: u32) -> Reply {
    change_instead(map, road, |map, index| {
        lead_back(map, index);
        map.roads[index].metres = 0;
    })
}

fn clears_speed(map: &mut [u8], road: u32) -> Reply {
    change_instead(map, road, |map, index| {
        lead_back(map, index);
        map.roads[index].speed = 0;
    })
}

/// Strikes every road between these junctions.
fn strike_between(map: &mut Map, from: u64, to: u64) {
    for road in &mut map.roads {
        if (road.from, road.to) == (from, to) {
            road.to = from;
        }
    }
}

fn lead_parallels_back(map: &mut Map, index: usize) {
    let (from, to) = (map.roads[index].from, map.roads[index].to);
    strike_between(map, from, to);
}

fn takes_parallel_roads(map: &mut [u8], road: u32) -> Reply {
    change_instead(map, road, lead_parallels_back)
}

fn takes_the_way_back(map: &mut [u8], road: u32) -> Reply {
    change_instead(map, road, |map, index| {
        let (from, to) = (map.roads[index].from, map.roads[index].to);
        lead_back(map, index);
        strike_between(map, to, from);
    })
}

fn knows_road_0(map: &mut [u8], road: u32) -> Reply {
    match strike(map, road) {
        reply if reply == Reply::refused(UNKNOWN_ROAD, 0) => Reply::success(0, 0),
        reply => reply,
    }
}

fn is_last_road(map: &[u8], road: u32) -> bool {
    accepted_map(map).is_ok_and(|map| road > 0 && map.roads.len() == road as usize)
}

fn knows_no_last_road(map: &mut [u8], road: u32) -> Reply {
    if is_last_road(map, road) {
        return Reply::refused(UNKNOWN_ROAD, road.into());
    }
    strike(map, road)
}

fn knows_no_loop(map: &mut [u8], road: u32) -> Reply {
    let before = map.to_vec();
    match strike(map, road) {
        reply if reply.number == 0 && map == before => Reply::refused(UNKNOWN_ROAD, road.into()),
        reply => reply,
    }
}

/// The place of an unknown road is R.
fn told_by_the_last_road(map: &[u8], reply: Reply) -> Reply {
    match reply.number {
        UNKNOWN_ROAD => Reply::refused(UNKNOWN_ROAD, word(map, 8)),
        _ => reply,
    }
}

fn tells_the_last_road(map: &mut [u8], road: u32) -> Reply {
    let reply = strike(map, road);
    told_by_the_last_road(map, reply)
}

/// By R as the map has it, if it is long enough to have one.
fn is_known(map: &[u8], road: u32) -> bool {
    map.len() >= 16 && (1..=word(map, 8)).contains(&road.into())
}

fn judges_the_number_first(map: &mut [u8], road: u32) -> Reply {
    if map.len() >= 16 && !is_known(map, road) {
        return Reply::refused(UNKNOWN_ROAD, road.into());
    }
    strike(map, road)
}

/// Lets the road lead back, where it is within the map, whatever else is wrong.
fn strike_unjudged(map: &mut [u8], road: u32) {
    if is_known(map, road) {
        let at = 16 + 16 * word(map, 4) as usize + 20 * (road as usize - 1);
        if at + 20 <= map.len() {
            map.copy_within(at..at + 4, at + 4);
        }
    }
}

fn mends_a_bad_end(map: &mut [u8], road: u32) -> Reply {
    let mut copy = map.to_vec();
    strike_unjudged(&mut copy, road);
    let reply = strike(&mut copy, road);
    if reply.number == 0 {
        map.copy_from_slice(&copy);
    }
    reply
}

fn despite_bad_lettering(map: &mut [u8], road: u32) -> Reply {
    let reply = strike(map, road);
    if reply.number == BAD_LETTERING {
        strike_unjudged(map, road);
    }
    reply
}

fn preview_copies() -> [WrongCopy; 17] {
    [
        wrong_preview::<OfTheOpenMap>(),
        wrong_preview::<ClosesParallelRoads>(),
        wrong_preview::<StrikesTheLentMap>(),
        wrong_preview::<JudgesTheStruckMap>(),
        wrong_preview::<UnknownBeforeTrip>(),
        wrong_preview::<UnknownBehindFull>(),
        wrong_preview::<OfNoRoadPlans>(),
        wrong_preview::<PreviewsNoLastRoad>(),
        wrong_preview::<PreviewsTheLastRoad>(),
        wrong_preview::<UndrivenIsThePlan>(),
        wrong_preview::<CountsTheOpenLabels>(),
        wrong_preview::<FullByTheOpenLabels>(),
        wrong_preview::<ShortByTheOpenPlan>(),
        wrong_preview::<ShortSheetSucceeds>(),
        wrong_preview::<LeavesTheSheet>(),
        wrong_preview::<ClearsTheTail>(),
        wrong_preview::<TouchesLabelsEarly>(),
    ]
}

fn wrong_preview<Wrong: WrongPreview>() -> WrongCopy {
    WrongCopy {
        name: Wrong::NAME,
        operations: Operations {
            preview: previewing::<Wrong>,
            ..DOCUMENT
        },
    }
}

/// What a preview is lent.
struct Lent<'a> {
    map: &'a mut [u8],
    order: &'a [u8],
    bans: &'a [u32],
    road: u32,
    labels: &'a mut [u32],
    sheet: &'a mut [u8],
}

impl Lent<'_> {
    fn preview(&mut self) -> Reply {
        preview(
            self.map,
            self.order,
            self.bans,
            self.road,
            self.labels,
            self.sheet,
        )
    }

    fn plan(&mut self) -> Reply {
        plan::<Document>(self.map, self.order, self.bans, self.labels, self.sheet)
    }

    /// The reply alone: nothing is written to the sheet.
    fn preview_apart(&mut self) -> Reply {
        let mut sheet = self.sheet.to_vec();
        preview(
            self.map,
            self.order,
            self.bans,
            self.road,
            self.labels,
            &mut sheet,
        )
    }

    /// What striking replies, on a copy.
    fn strike_apart(&self) -> Reply {
        strike(&mut self.map.to_vec(), self.road)
    }
}

trait WrongPreview {
    const NAME: &'static str;

    fn answer(lent: Lent) -> Reply;
}

fn previewing<Wrong: WrongPreview>(
    map: &mut [u8],
    order: &[u8],
    bans: &[u32],
    road: u32,
    labels: &mut [u32],
    sheet: &mut [u8],
) -> Reply {
    Wrong::answer(Lent {
        map,
        order,
        bans,
        road,
        labels,
        sheet,
    })
}

/// The plan of the open map, with space to spare: its reply and its sheet.
fn open_plan(map: &[u8], order: &[u8], bans: &[u32]) -> (Reply, Vec<u8>) {
    let mut sheet = vec![0; 100_000];
    let reply = plan::<Document>(map, order, bans, &mut [0; 100_000], &mut sheet);
    (reply, sheet)
}

struct OfTheOpenMap;

impl WrongPreview for OfTheOpenMap {
    const NAME: &'static str = "preview-of-the-open-map";

    fn answer(mut lent: Lent) -> Reply {
        match lent.strike_apart().number {
            UNKNOWN_ROAD => lent.preview(),
            _ => lent.plan(),
        }
    }
}

struct ClosesParallelRoads;

impl WrongPreview for ClosesParallelRoads {
    const NAME: &'static str = "preview-closes-parallel-roads-too";

    fn answer(mut lent: Lent) -> Reply {
        let mut copy = lent.map.to_vec();
        match takes_parallel_roads(&mut copy, lent.road).number {
            0 => plan::<Document>(&copy, lent.order, lent.bans, lent.labels, lent.sheet),
            _ => lent.preview(),
        }
    }
}

struct StrikesTheLentMap;

impl WrongPreview for StrikesTheLentMap {
    const NAME: &'static str = "preview-strikes-the-lent-map";

    fn answer(mut lent: Lent) -> Reply {
        let reply = lent.preview();
        strike(lent.map, lent.road);
        reply
    }
}

struct JudgesTheStruckMap;

impl WrongPreview for JudgesTheStruckMap {
    const NAME: &'static str = "preview-judges-the-struck-map";

    fn answer(lent: Lent) -> Reply {
        let mut copy = lent.map.to_vec();
        mends_a_bad_end(&mut copy, lent.road);
        preview(
            &copy,
            lent.order,
            lent.bans,
            lent.road,
            lent.labels,
            lent.sheet,
        )
    }
}

struct UnknownBeforeTrip;

impl WrongPreview for UnknownBeforeTrip {
    const NAME: &'static str = "preview-unknown-before-the-trip";

    fn answer(mut lent: Lent) -> Reply {
        let struck = lent.strike_apart();
        match lent.preview() {
            reply if reply.number == BAD_TRIP && struck.number == UNKNOWN_ROAD => struck,
            reply => reply,
        }
    }
}

/// No trip needs less than a label.
struct UnknownBehindFull;

impl WrongPreview for UnknownBehindFull {
    const NAME: &'static str = "preview-unknown-behind-full";

    fn answer(mut lent: Lent) -> Reply {
        match lent.preview() {
            reply if reply.number == UNKNOWN_ROAD && lent.labels.len() < WORDS_OF_A_LABEL => {
                Reply::refused(FULL, 0)
            }
            reply => reply,
        }
    }
}

struct OfNoRoadPlans;

impl WrongPreview for OfNoRoadPlans {
    const NAME: &'static str = "preview-of-no-road-plans";

    fn answer(mut lent: Lent) -> Reply {
        match lent.preview() {
            reply if reply.number == UNKNOWN_ROAD && lent.road == 0 => lent.plan(),
            reply => reply,
        }
    }
}

struct PreviewsNoLastRoad;

impl WrongPreview for PreviewsNoLastRoad {
    const NAME: &'static str = "preview-knows-no-last-road";

    fn answer(mut lent: Lent) -> Reply {
        let reply = lent.preview_apart();
        if !reply.is_before_search() && is_last_road(lent.map, lent.road) {
            return Reply::refused(UNKNOWN_ROAD, lent.road.into());
        }
        lent.preview()
    }
}

struct PreviewsTheLastRoad;

impl WrongPreview for PreviewsTheLastRoad {
    const NAME: &'static str = "preview-tells-the-last-road";

    fn answer(mut lent: Lent) -> Reply {
        let reply = lent.preview();
        told_by_the_last_road(lent.map, reply)
    }
}

/// Right but for N: other states may be dominated.
struct UndrivenIsThePlan;

impl WrongPreview for UndrivenIsThePlan {
    const NAME: &'static str = "preview-of-an-undriven-road-is-the-plan";

    fn answer(mut lent: Lent) -> Reply {
        let drive = Move {
            kind: DRIVE,
            number: lent.road.into(),
        };
        let drives = |record: &Record| record.step == drive;
        let open =
            Trip::open(lent.map, lent.order, lent.bans).map(|trip| records_of::<Document>(&trip));
        let known = lent.strike_apart().number == 0;
        if known && open.is_ok_and(|records| !records.is_empty() && !records.iter().any(drives)) {
            return lent.plan();
        }
        lent.preview()
    }
}

struct CountsTheOpenLabels;

impl WrongPreview for CountsTheOpenLabels {
    const NAME: &'static str = "preview-counts-the-open-labels";

    fn answer(mut lent: Lent) -> Reply {
        let mut reply = lent.preview();
        if reply.is_before_search() {
            return reply;
        }
        let (open, _) = open_plan(lent.map, lent.order, lent.bans);
        match (reply.number, open.number) {
            (0, 0) => {
                reply.place = open.place;
                put_word(lent.sheet, 20, open.place);
            }
            (NO_ROAD, NO_ROAD) => reply.place = open.place,
            _ => {}
        }
        reply
    }
}

struct FullByTheOpenLabels;

impl WrongPreview for FullByTheOpenLabels {
    const NAME: &'static str = "preview-full-by-the-open-labels";

    fn answer(mut lent: Lent) -> Reply {
        let reply = lent.preview_apart();
        if !reply.is_before_search() {
            let open = plan::<Document>(
                lent.map,
                lent.order,
                lent.bans,
                lent.labels,
                &mut lent.sheet.to_vec(),
            );
            if open.number == FULL {
                return open;
            }
        }
        lent.preview()
    }
}

struct ShortByTheOpenPlan;

impl WrongPreview for ShortByTheOpenPlan {
    const NAME: &'static str = "preview-short-by-the-open-plan";

    fn answer(mut lent: Lent) -> Reply {
        let reply = lent.preview();
        if reply.number != SHORT_SHEET {
            return reply;
        }
        let (_, open) = open_plan(lent.map, lent.order, lent.bans);
        Reply::refused(SHORT_SHEET, sheet_bytes(word(&open, 0) as usize) as u64)
    }
}

struct ShortSheetSucceeds;

impl WrongPreview for ShortSheetSucceeds {
    const NAME: &'static str = "preview-of-a-short-sheet-succeeds";

    fn answer(mut lent: Lent) -> Reply {
        match lent.preview() {
            Reply {
                number: SHORT_SHEET,
                place,
                ..
            } => preview(
                lent.map,
                lent.order,
                lent.bans,
                lent.road,
                lent.labels,
                &mut vec![0; place as usize],
            ),
            reply => reply,
        }
    }
}

struct LeavesTheSheet;

impl WrongPreview for LeavesTheSheet {
    const NAME: &'static str = "preview-sheet-unwritten";

    fn answer(mut lent: Lent) -> Reply {
        lent.preview_apart()
    }
}

struct ClearsTheTail;

impl WrongPreview for ClearsTheTail {
    const NAME: &'static str = "preview-clears-tail";

    fn answer(mut lent: Lent) -> Reply {
        let reply = lent.preview();
        if reply.number == 0 {
            clear_tail(lent.sheet);
        }
        reply
    }
}

/// Touches them before it judges the road's number.
struct TouchesLabelsEarly;

impl WrongPreview for TouchesLabelsEarly {
    const NAME: &'static str = "preview-touches-labels-early";

    fn answer(mut lent: Lent) -> Reply {
        let reply = lent.preview();
        if let (UNKNOWN_ROAD, Some(first)) = (reply.number, lent.labels.first_mut()) {
            *first = !*first;
        }
        reply
    }
}
