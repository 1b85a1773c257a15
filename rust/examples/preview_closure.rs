//! Plans a trip, previews it with each road of the map closed, then strikes one of them and plans again, as
//! `examples/preview_closure.c` does.
mod ending;
mod listing;

use std::process::ExitCode;

use listing::{bytes_of, print_moves};
use trunk::{LABEL_WORDS, Order, Refusal, Refused};

const ROADS: u32 = 4;
const CLOSED: u32 = 2;

fn main() -> ExitCode {
    ending::ended(preview_closures())
}

fn preview_closures() -> Result<(), Refused> {
    let mut map = map_with_a_detour();
    let order = Order::european(1, 4, 0, 100_000).to_bytes();
    let mut words = vec![0; LABEL_WORDS * 100]; // room for 100 labels
    let mut sheet = vec![0; 1000];

    let open = trunk::plan(&map, &order, &[], &mut words, &mut sheet)?;
    println!("all open: arrives {}", open.arrival);
    print_moves(&map, &sheet)?;
    for road in 1..=ROADS {
        match trunk::preview(&map, &order, &[], road, &mut words, &mut sheet) {
            Ok(closed) => {
                let later = closed.arrival - open.arrival;
                println!(
                    "road {road} closed: arrives {}, {later} later",
                    closed.arrival
                );
            }
            Err(refused) if refused.refusal == Refusal::NoRoad => {
                println!("road {road} closed: no road is left");
            }
            Err(refused) => return Err(refused),
        }
    }

    trunk::strike(&mut map, CLOSED)?;
    let struck = trunk::plan(&map, &order, &[], &mut words, &mut sheet)?;
    println!("road {CLOSED} struck: arrives {}", struck.arrival);
    print_moves(&map, &sheet)
}

fn map_with_a_detour() -> Vec<u8> {
    let mut map = bytes_of(&[
        1, 4, ROADS, 12, // header: format, junctions, roads, name bytes
        1, 0, 0, 3, // Hub: first road, car park, name start, name length
        2, 1, 3, 3, // Lay, a car park
        4, 1, 6, 3, // Inn, a car park
        0, 0, 9, 3, // End
        1, 2, 240000, 80, 0, // road 1: from, to, metres, km per hour, next road
        2, 4, 160000, 80, 3, // from Lay straight on
        2, 3, 100000, 80, 0, // from Lay round by Inn
        3, 4, 120000, 80, 0, //
    ]);
    map.extend_from_slice(b"HubLayInnEnd");
    map
}
