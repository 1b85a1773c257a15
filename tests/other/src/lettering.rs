//! Maps whose name bytes a check may take several at a time: each length, with bad bytes at each place.

use std::ops::RangeInclusive;

use crate::make::random::Random;
use crate::map::Map;
use crate::probe::Probe;
use crate::special::{junction_without_roads, round_road};

/// Lengths on both sides of several words, of pairs of words, and with every tail.
pub const LENGTHS: RangeInclusive<usize> = 1..=26;
/// Bytes next to the letters, at the ends of the halves, and a letter with its high bit set.
const BAD_BYTES: [u8; 7] = [0x00, 0x1F, 0x7F, 0x80, 0x9F, 0xC1, 0xFF];
/// Neighbours from which a sum or a difference would carry soonest.
const AROUND: [[u8; 2]; 3] = [[0x20, 0x20], [0x7E, 0x7E], [0x20, 0x7E]];
/// Long enough for many turns of a loop, with a tail of three.
pub const LONG: usize = 4_099;

/// Map checks and chain makings, which judge the names likewise.
pub fn probes() -> Vec<Probe> {
    let mut letterings = vec![Vec::new()];
    letterings.extend(one_bad_byte());
    letterings.extend(two_bad_bytes());
    letterings.extend(every_byte_at_every_place());
    letterings.extend(bad_byte_near_a_long_end());
    let calls = |(number, names): (usize, Vec<u8>)| {
        let map = named_map(names, number % 2).bytes();
        [
            Probe::CheckMap { map: map.clone() },
            Probe::MakeChains { map },
        ]
    };
    letterings.into_iter().enumerate().flat_map(calls).collect()
}

/// One junction, and one road or none: the names start at a multiple of eight bytes or four behind it.
fn named_map(names: Vec<u8>, roads: usize) -> Map {
    let mut map = Map {
        junctions: vec![junction_without_roads()],
        roads: vec![round_road(); roads],
        names,
    };
    map.link_chains();
    map
}

/// Letters, two in turn.
fn letters(length: usize, around: [u8; 2]) -> Vec<u8> {
    around.into_iter().cycle().take(length).collect()
}

fn spoilt(mut names: Vec<u8>, place: usize, byte: u8) -> Vec<u8> {
    names[place] = byte;
    names
}

/// Every length and place, and each length without a bad byte.
fn one_bad_byte() -> Vec<Vec<u8>> {
    let mut letterings = Vec::new();
    for (length, around) in LENGTHS.flat_map(|length| AROUND.map(|around| (length, around))) {
        let sound = letters(length, around);
        for place in 0..length {
            letterings.extend(BAD_BYTES.map(|byte| spoilt(sound.clone(), place, byte)));
        }
        letterings.push(sound);
    }
    letterings
}

/// Every two places of the longest of the lengths, with bytes at random.
fn two_bad_bytes() -> Vec<Vec<u8>> {
    let mut random = Random::new(8, 2);
    let length = *LENGTHS.end();
    let mut letterings = Vec::new();
    for place in 0..length {
        for other in place + 1..length {
            let bytes = [0, 0].map(|_| random.pick(&BAD_BYTES));
            let names = letters(length, random.pick(&AROUND));
            let one = spoilt(names, place, bytes[0]);
            letterings.push(spoilt(one, other, bytes[1]));
        }
    }
    letterings
}

/// Each of the 256 bytes at each place of two words.
fn every_byte_at_every_place() -> Vec<Vec<u8>> {
    let at = |place| {
        (0..=u8::MAX)
            .flat_map(move |byte| AROUND.map(|around| spoilt(letters(8, around), place, byte)))
    };
    (0..8).flat_map(at).collect()
}

fn bad_byte_near_a_long_end() -> Vec<Vec<u8>> {
    let at = |place| spoilt(letters(LONG, AROUND[2]), place, 0x7F);
    (LONG - 20..LONG).map(at).collect()
}
