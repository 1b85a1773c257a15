//! What the examples share: words as bytes, and the lines of a plan.
use trunk::{Move, MoveKind, Refused, Sheet};

pub fn bytes_of(words: &[u32]) -> Vec<u8> {
    words.iter().flat_map(|word| word.to_le_bytes()).collect()
}

/// The moves on a sheet, a line each: a move's word, number, the name of the junction reached, and clock.
pub fn print_moves(map: &[u8], sheet: &[u8]) -> Result<(), Refused> {
    for step in Sheet::from_bytes(sheet)?.moves {
        let name = trunk::name(map, reached(map, step))?;
        println!("{} {} {name} {}", step.kind, step.number, step.clock);
    }
    Ok(())
}

/// A drive ends where its road leads, a pause where it is taken.
fn reached(map: &[u8], step: Move) -> u32 {
    match step.kind {
        MoveKind::Drive => end_of(map, step.number),
        _ => step.number,
    }
}

/// The to-junction is the second word of a road.
fn end_of(map: &[u8], road: u32) -> u32 {
    let junctions = word_at(map, 4) as usize;
    word_at(map, 16 + 16 * junctions + 20 * (road as usize - 1) + 4)
}

fn word_at(bytes: &[u8], at: usize) -> u32 {
    u32::from_le_bytes(bytes[at..at + 4].try_into().unwrap())
}
