//! Map check, retiming and audit: the library against the other planner's functions.

use std::time::Duration;

use bench::journeys::{wander, Journey};
use bench::map_bytes::road_count;
use bench::maps::NamedMap;
use other::mapcheck;
use other::operations::DOCUMENT;
use other::reply::Reply;

use bench::table::{brief, grouped, ratio_text, Table};
use bench::timing::{best_of, nanoseconds_each, ratio, take};
use differential::LIBRARY;

/// Nanoseconds per road, unless the replies differ.
pub fn print_map_checks(runs: usize, maps: &[NamedMap]) -> Result<(), String> {
    let mut table = Table::new(&["map"], &["roads", "library", "other", "library / other"]);
    for map in maps {
        let bytes = &map.bytes[..];
        agree(
            &map.name,
            (LIBRARY.check_map)(bytes),
            mapcheck::check_map(bytes),
        )?;
        let [library, other] = map_check_times(runs, bytes);
        let roads = road_count(bytes) as u64;
        table.add(&[
            map.name.clone(),
            grouped(roads),
            brief(nanoseconds_each(library, roads)),
            brief(nanoseconds_each(other, roads)),
            ratio_text(ratio(library, other)),
        ]);
    }
    table.print();
    Ok(())
}

fn agree(what: &str, library: Reply, other: Reply) -> Result<(), String> {
    if library == other && library.number == 0 {
        return Ok(());
    }
    Err(format!(
        "{what}: {library:?} of the library, {other:?} of the other"
    ))
}

/// The library's and the other's.
fn map_check_times(runs: usize, map: &[u8]) -> [Duration; 2] {
    best_of(
        runs,
        [&mut || take((LIBRARY.check_map)(map)), &mut || {
            take(mapcheck::check_map(map))
        }],
    )
}

/// Nanoseconds per move, unless the replies or the sheets written differ.
pub fn print_sheet_checks(runs: usize, map: &NamedMap, lengths: &[u64]) -> Result<(), String> {
    let mut table = Table::new(
        &["operation"],
        &[
            "moves",
            "library",
            "less map check",
            "other",
            "less its map check",
            "library / other",
            "less map checks",
        ],
    );
    let checks = map_check_times(runs, &map.bytes);
    for journey in lengths.iter().map(|moves| wander(map, *moves)) {
        let [retimes, audits] = sheet_times(runs, &map.bytes, &journey)?;
        table.add(&sheet_row("retiming", journey.moves, retimes, checks));
        table.add(&sheet_row("audit", journey.moves, audits, checks));
    }
    table.print();
    Ok(())
}

/// The times of retiming and of audit, each the library's and the other's.
fn sheet_times(runs: usize, map: &[u8], journey: &Journey) -> Result<[[Duration; 2]; 2], String> {
    let (order, bans, sheet) = (&journey.order[..], &[], &journey.sheet[..]);
    let mut out = vec![0; sheet.len()];
    let mut other_out = vec![0; sheet.len()];
    agree(
        "retiming",
        (LIBRARY.retime)(map, order, bans, sheet, &mut out),
        (DOCUMENT.retime)(map, order, bans, sheet, &mut other_out),
    )?;
    if out != sheet || other_out != sheet {
        return Err("retiming a true sheet writes another".to_string());
    }
    agree(
        "audit",
        (LIBRARY.audit)(map, order, bans, sheet),
        (DOCUMENT.audit)(map, order, bans, sheet),
    )?;
    let [library_retime, other_retime, library_audit, other_audit] = best_of(
        runs,
        [
            &mut || take((LIBRARY.retime)(map, order, bans, sheet, &mut out)),
            &mut || take((DOCUMENT.retime)(map, order, bans, sheet, &mut other_out)),
            &mut || take((LIBRARY.audit)(map, order, bans, sheet)),
            &mut || take((DOCUMENT.audit)(map, order, bans, sheet)),
        ],
    );
    Ok([[library_retime, other_retime], [library_audit, other_audit]])
}

/// `times` and `checks` are the library's and the other's.
fn sheet_row(
    operation: &str,
    moves: u64,
    times: [Duration; 2],
    checks: [Duration; 2],
) -> [String; 8] {
    let each = |time| brief(nanoseconds_each(time, moves));
    let [library, other] = times;
    let [library_less, other_less] = [0, 1].map(|side| times[side].saturating_sub(checks[side]));
    [
        operation.to_string(),
        grouped(moves),
        each(library),
        each(library_less),
        each(other),
        each(other_less),
        ratio_text(ratio(library, other)),
        ratio_text(ratio(library_less, other_less)),
    ]
}
