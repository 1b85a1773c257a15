//! Writes a map of two junctions and one road word by word, as docs/FORMATS.md does, plans the trip from one to the other
//! and prints the reply and the one move, as `examples/two_junctions.c` does.
mod ending;
mod listing;

use std::error::Error;
use std::process::ExitCode;

use trunk::{LABEL_WORDS, Order};

fn main() -> ExitCode {
    ending::ended(plan())
}

fn plan() -> Result<(), Box<dyn Error>> {
    if trunk::version() != trunk::VERSION {
        return Err("the library is of another version than the package".into());
    }
    let map = map();
    let order = Order::european(1, 2, 0, 100);
    let mut words = [0; LABEL_WORDS * 2]; // room for two labels
    let mut sheet = [0; 100];
    let planned = trunk::plan(&map, &order.to_bytes(), &[], &mut words, &mut sheet)?;
    println!("reply 0 {} {}", planned.labels, planned.arrival);
    listing::print_moves(&map, &sheet)?;
    Ok(())
}

fn map() -> Vec<u8> {
    let mut map = listing::bytes_of(&[
        1, 2, 1, 2, // header: format, junctions, roads, name bytes
        1, 0, 0, 1, // A: first road, no car park, name start, name length
        0, 0, 1, 1, // B: no road leaves it
        1, 2, 1_000, 80, 0, // road 1: from, to, metres, km per hour, next road
    ]);
    map.extend(b"AB");
    map
}
