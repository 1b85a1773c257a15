//! Previews of closures: the library beside its own planning, on the map as it is and on a copy in which the road is
//! struck. No road is banned.

use std::cell::RefCell;
use std::time::Duration;

use differential::LIBRARY;
use other::moves::DRIVE;
use other::planning::{MOST_LABELS, WORDS_OF_A_LABEL};
use other::reply::Reply;
use other::sheet::sheet_bytes;

use crate::answer::Answer;
use crate::map_bytes::roads;
use crate::maps::NamedMap;
use crate::planning::LONGEST_PLAN;
use crate::timing::{best_of_longer, take};
use crate::trips::NamedTrip;

/// For all runs of one closure.
pub const LEAST_TIME: Duration = Duration::from_millis(300);

/// A closure and its times.
pub struct TimedPreview {
    pub map: String,
    pub trip: String,
    pub road: String,
    /// N as the map is, and without the road.
    pub labels: [u64; 2],
    pub planning: Duration,
    pub preview: Duration,
    pub struck_planning: Duration,
}

/// The space that the library is lent for each call.
pub struct Desk {
    words: Vec<u32>,
    sheet: Vec<u8>,
}

impl Default for Desk {
    fn default() -> Desk {
        Desk {
            words: vec![0; WORDS_OF_A_LABEL * MOST_LABELS],
            sheet: vec![0; sheet_bytes(LONGEST_PLAN)],
        }
    }
}

impl Desk {
    fn plan(&mut self, map: &[u8], order: &[u8]) -> Reply {
        (LIBRARY.plan)(map, order, &[], &mut self.words, &mut self.sheet)
    }

    fn preview(&mut self, map: &mut [u8], order: &[u8], road: u32) -> Reply {
        (LIBRARY.preview)(map, order, &[], road, &mut self.words, &mut self.sheet)
    }

    fn answer(&self, reply: Reply) -> Result<Answer, String> {
        Answer::told(&reply, &self.sheet)
    }

    /// Times the closure of a road that the plan drives, and that of another road of the same junction.
    pub fn time(
        &mut self,
        runs: usize,
        map: &NamedMap,
        trip: &NamedTrip,
    ) -> Result<Vec<TimedPreview>, String> {
        let Some(driven) = self.detoured_road(map, trip)? else {
            return Ok(Vec::new());
        };
        let mut closures = vec![("driven", driven)];
        closures.extend(road_beside(&map.bytes, driven).map(|road| ("beside it", road)));
        closures
            .into_iter()
            .map(|closure| self.time_closure(runs, map, trip, closure))
            .collect()
    }

    /// From the middle of the plan on, the first road that it drives and that there is a way round.
    fn detoured_road(&mut self, map: &NamedMap, trip: &NamedTrip) -> Result<Option<u32>, String> {
        let order = trip.order.bytes();
        let reply = self.plan(&map.bytes, &order);
        let Answer::Planned(sheet) = self.answer(reply)? else {
            return Ok(None);
        };
        let behind = &sheet.records[sheet.records.len() / 2..];
        for record in behind.iter().filter(|record| record.step.kind == DRIVE) {
            let road = record.step.number as u32;
            let reply = self.preview(&mut map.bytes.clone(), &order, road);
            if let Answer::Planned(_) = self.answer(reply)? {
                return Ok(Some(road));
            }
        }
        Ok(None)
    }

    fn time_closure(
        &mut self,
        runs: usize,
        map: &NamedMap,
        trip: &NamedTrip,
        (which, road): (&str, u32),
    ) -> Result<TimedPreview, String> {
        let order = trip.order.bytes();
        let labels = self
            .agreed_labels(map, &order, road)
            .map_err(|why| format!("{}, {}, road {road}: {why}", map.name, trip.name))?;
        let [planning, preview, struck_planning] = self.best_times(runs, map, &order, road);
        Ok(TimedPreview {
            map: map.name.clone(),
            trip: trip.name.clone(),
            road: format!("{which}, {road}"),
            labels,
            planning,
            preview,
            struck_planning,
        })
    }

    /// N as the map is and without the road, unless the preview differs from planning on a struck copy.
    fn agreed_labels(
        &mut self,
        map: &NamedMap,
        order: &[u8],
        road: u32,
    ) -> Result<[u64; 2], String> {
        let reply = self.plan(&map.bytes, order);
        let open = self.answer(reply)?;
        let reply = self.preview(&mut map.bytes.clone(), order, road);
        let previewed = self.answer(reply)?;
        let reply = self.plan(&struck(&map.bytes, road), order);
        let planned = self.answer(reply)?;
        if previewed != planned {
            let told = [&previewed, &planned].map(Answer::summary);
            return Err(format!(
                "the preview and the plan on a struck copy differ: {}",
                told.join("; ")
            ));
        }
        Ok([open.labels(), planned.labels()])
    }

    /// Of planning, of the preview and of planning on the struck copy. These two make the same search, and the second of two
    /// like searches finds the processor used to it, some hundredths of a short one: so planning stands before each.
    fn best_times(
        &mut self,
        runs: usize,
        map: &NamedMap,
        order: &[u8],
        road: u32,
    ) -> [Duration; 3] {
        let struck = struck(&map.bytes, road);
        // Planning and the preview read the same bytes: where these lie in memory is then the same for both.
        let lent = RefCell::new(map.bytes.clone());
        let desk = RefCell::new(self);
        let plan = |map: &[u8]| take(desk.borrow_mut().plan(map, order));
        let preview = |map: &mut [u8]| take(desk.borrow_mut().preview(map, order, road));
        let [planning, preview, planning_again, struck_planning] = best_of_longer(
            runs,
            LEAST_TIME,
            [
                &mut || plan(&lent.borrow()),
                &mut || preview(&mut lent.borrow_mut()),
                &mut || plan(&lent.borrow()),
                &mut || plan(&struck),
            ],
        );
        [planning.min(planning_again), preview, struck_planning]
    }
}

fn struck(map: &[u8], road: u32) -> Vec<u8> {
    let mut copy = map.to_vec();
    let reply = (LIBRARY.strike)(&mut copy, road);
    assert_eq!(reply, Reply::success(0, 0), "a road of a sound map");
    copy
}

/// Another road of the junction that a road leaves.
fn road_beside(map: &[u8], number: u32) -> Option<u32> {
    let from = roads(map).find(|road| road.number == number)?.from;
    roads(map)
        .find(|road| road.from == from && road.number != number)
        .map(|road| road.number)
}
