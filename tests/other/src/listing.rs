//! What the program `plan` prints, by document 01's "Trial trips".

use crate::moves::{Document, Move, Trip, BREAK, DRIVE, FIRST, REST, SECOND, WEEKLY};
use crate::planning::{plan, WORDS_OF_A_LABEL};
use crate::sheet::{sheet_bytes, Record, Sheet};
use crate::words::word;

/// The labels that the program lends. A plan has fewer moves than labels.
const LABELS: usize = 1_600;

/// Listings of trips that stand one after the other: the lengths of map and order, two words, then
/// the map, then the order. An empty line follows each listing, which has none itself.
pub fn listings(mut trips: &[u8]) -> String {
    let mut text = String::new();
    while !trips.is_empty() {
        let [map_length, order_length] = [0, 4].map(|offset| word(trips, offset) as usize);
        let (map, behind_map) = trips[8..].split_at(map_length);
        let (order, next_trips) = behind_map.split_at(order_length);
        text += &listing(map, order);
        text += "\n";
        trips = next_trips;
    }
    text
}

/// The listing of a map and an order, which are not too big for the program. It lends an empty ban list.
pub fn listing(map: &[u8], order: &[u8]) -> String {
    let mut labels = vec![0; WORDS_OF_A_LABEL * LABELS];
    let mut lent = vec![0; sheet_bytes(LABELS)];
    let reply = plan::<Document>(map, order, &[], &mut labels, &mut lent);
    if reply.number != 0 {
        return format!("refused {} {}\n", reply.number, reply.place);
    }
    let trip = Trip::open(map, order, &[]).expect("a planned trip is accepted");
    let written = sheet_bytes(word(&lent, 0) as usize);
    let sheet = Sheet::read(&lent[..written]).expect("a plan's sheet");
    let moves = sheet.records.iter().map(|record| move_line(&trip, record));
    moves.chain([arrival_line(&sheet)]).collect()
}

fn move_line(trip: &Trip, record: &Record) -> String {
    let Move { kind, number } = record.step;
    let word = match kind {
        DRIVE => "drive",
        BREAK => "break",
        REST => "rest",
        FIRST => "first",
        SECOND => "second",
        WEEKLY => "weekly",
        _ => panic!("no word for kind {kind}"),
    };
    let reached = match kind {
        DRIVE => trip.map.road(number).to,
        _ => number,
    };
    format!("{word} {number} {} {}\n", name(trip, reached), record.clock)
}

fn name(trip: &Trip, junction: u64) -> String {
    let junction = &trip.map.junctions[junction as usize - 1];
    let [start, length] = [junction.name_start, junction.name_length].map(|figure| figure as usize);
    String::from_utf8_lossy(&trip.map.names[start..start + length]).into_owned()
}

fn arrival_line(sheet: &Sheet) -> String {
    let Sheet {
        arrival,
        spell,
        shift,
        labels,
        ..
    } = sheet;
    format!("arrive {arrival} {spell} {shift} labels {labels}\n")
}
