//! Puts a map together from junctions and roads, chains it and writes it to a file: `make_map FILE`.
//! The one made here is map T.
mod ending;
mod files;

use std::error::Error;
use std::fs;
use std::process::ExitCode;

/// A junction: its name, and whether it is a car park.
struct Junction(&'static str, bool);

/// A road: from and to, as junction numbers from 1, metres and km per hour.
struct Road(u32, u32, u32, u32);

fn main() -> ExitCode {
    let arguments: Vec<String> = std::env::args().skip(1).collect();
    match &arguments[..] {
        [file] => ending::ended(make_map(file)),
        _ => files::usage("make_map FILE"),
    }
}

fn make_map(file: &str) -> Result<(), Box<dyn Error>> {
    let junctions = [
        Junction("Hub", false),
        Junction("Lay", true),
        Junction("End", false),
    ];
    let roads = [
        Road(1, 2, 240_000, 80),
        Road(2, 3, 160_000, 80),
        Road(1, 3, 400_000, 80),
    ];
    let mut map = map_bytes(&junctions, &roads);
    trunk::make_chains(&mut map)?;
    files::named(file, fs::write(file, &map))?;
    println!("{} bytes written to {file}", map.len());
    Ok(())
}

/// The map's bytes, with every first and next road 0: chain making sets them.
fn map_bytes(junctions: &[Junction], roads: &[Road]) -> Vec<u8> {
    let names: Vec<u8> = junctions.iter().flat_map(|j| j.0.bytes()).collect();
    let counts = [junctions.len(), roads.len(), names.len()];
    let mut words = vec![1];
    words.extend(counts.map(|count| count as u32));
    let mut start = 0;
    for Junction(name, car_park) in junctions {
        let length = name.len() as u32;
        words.extend([0, u32::from(*car_park), start, length]);
        start += length;
    }
    for Road(from, to, metres, speed) in roads {
        words.extend([*from, *to, *metres, *speed, 0]);
    }
    let mut bytes: Vec<u8> = words.iter().flat_map(|word| word.to_le_bytes()).collect();
    bytes.extend(names);
    bytes
}
