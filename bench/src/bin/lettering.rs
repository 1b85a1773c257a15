//! Times the check of name bytes beside the byte-wise one that the library had before and a plain loop over the same
//! bytes, and prints a table in markdown. A reply that differs ends it; no time does.

use std::hint::black_box;
use std::process::ExitCode;
use std::time::Duration;

use bench::machine::{load, processor};
use bench::table::{brief, grouped, ratio_text, Table};
use bench::timing::{best_of, nanoseconds_each, ratio, take};
use differential::LIBRARY;
use other::make::practice::{practice_map, USUAL_START};
use other::map::Map;
use other::mapcheck::{MOST_JUNCTIONS, MOST_NAME_BYTES};
use other::reply::{Reply, BAD_LETTERING};

/// Many, since a check of the names is the difference of two map checks.
const RUNS: usize = 1_000;
/// About so many bytes of maps are checked in each run.
const BYTES_EACH_RUN: usize = 4_000_000;
const PRACTICE_SIZES: [u64; 3] = [1_024, 4_096, MOST_JUNCTIONS];

// The map check of the library of before, which bench/lettering.sh builds and gives this name.
#[link(name = "bytewise", kind = "static")]
extern "C" {
    fn bytewise_check_map(map: *const u8, map_length: usize, reply: *mut u64, reply_count: usize);
}

fn bytewise(map: &[u8]) -> Reply {
    let mut reply = [0; 3];
    // SAFETY: as `include/trunk.h` asks: a map of so many bytes, and a reply of three words that is written.
    unsafe { bytewise_check_map(map.as_ptr(), map.len(), reply.as_mut_ptr(), reply.len()) };
    let [number, place, arrival] = reply;
    match number {
        0 => Reply::success(place, arrival),
        _ => Reply::refused(number, place),
    }
}

fn plain_loop(names: &[u8]) -> Option<usize> {
    names.iter().position(|byte| !(0x20..=0x7E).contains(byte))
}

fn main() -> ExitCode {
    println!("{}, {} when begun.", processor(), load());
    println!("Each figure is the best of {RUNS} runs that take turns.\n");
    let mut table = Table::new(
        &["map"],
        &[
            "name bytes",
            "library",
            "byte-wise",
            "plain loop",
            "byte-wise / library",
            "library / plain loop",
            "whole check, µs",
            "byte-wise, µs",
        ],
    );
    for lettering in PRACTICE_SIZES.into_iter().flat_map(usual_and_filled) {
        if let Err(complaint) = lettering.agree() {
            eprintln!("{complaint}");
            return ExitCode::FAILURE;
        }
        table.add(&lettering.row());
    }
    table.print();
    println!("{} when done.", load());
    ExitCode::SUCCESS
}

/// The practice map, and the same with letters behind its names up to the most that a map may have.
fn usual_and_filled(junctions: u64) -> [Lettering; 2] {
    let usual = practice_map(junctions, USUAL_START);
    let mut filled = usual.clone();
    filled
        .names
        .extend((0x20..=0x7E).cycle().take(MOST_NAME_BYTES as usize));
    filled.names.truncate(MOST_NAME_BYTES as usize);
    [
        Lettering::of(format!("practice {junctions}"), &usual),
        Lettering::of(format!("practice {junctions}, names filled"), &filled),
    ]
}

/// A map, and the same junctions and roads with one letter for all names.
struct Lettering {
    title: String,
    map: Vec<u8>,
    bare: Vec<u8>,
    names_start: usize,
}

/// What so many calls took.
struct Times {
    library: Duration,
    library_bare: Duration,
    before: Duration,
    before_bare: Duration,
    plain: Duration,
}

impl Lettering {
    fn of(title: String, map: &Map) -> Lettering {
        let mut bare = map.clone();
        bare.names = b"J".to_vec();
        for junction in &mut bare.junctions {
            (junction.name_start, junction.name_length) = (0, 1);
        }
        Lettering {
            title,
            map: map.bytes(),
            bare: bare.bytes(),
            names_start: map.names_offset(),
        }
    }

    fn names(&self) -> &[u8] {
        &self.map[self.names_start..]
    }

    /// Both map checks pass both maps, and both find a bad byte where the plain loop finds it.
    fn agree(&self) -> Result<(), String> {
        for map in [&self.map, &self.bare] {
            self.told(map, Reply::success(0, 0))?;
        }
        let last = self.names().len() - 1;
        for bad in [0, 1, 2, 3, last / 2, last] {
            let mut spoilt = self.map.clone();
            spoilt[self.names_start + bad] = 0x7F;
            let found = plain_loop(&spoilt[self.names_start..]).unwrap_or_default();
            let place = (self.names_start + found) as u64;
            self.told(&spoilt, Reply::refused(BAD_LETTERING, place))?;
        }
        Ok(())
    }

    fn told(&self, map: &[u8], expected: Reply) -> Result<(), String> {
        match [(LIBRARY.check_map)(map), bytewise(map)] {
            both if both == [expected; 2] => Ok(()),
            both => Err(format!("{}: {both:?}, not {expected:?}", self.title)),
        }
    }

    fn times(&self, calls: usize) -> Times {
        let many = |check: fn(&[u8]) -> Reply, map: &[u8]| {
            (0..calls).for_each(|_| take(check(black_box(map))));
        };
        let [library, library_bare, before, before_bare, plain] = best_of(
            RUNS,
            [
                &mut || many(LIBRARY.check_map, &self.map),
                &mut || many(LIBRARY.check_map, &self.bare),
                &mut || many(bytewise, &self.map),
                &mut || many(bytewise, &self.bare),
                &mut || (0..calls).for_each(|_| take(plain_loop(black_box(self.names())))),
            ],
        );
        Times {
            library,
            library_bare,
            before,
            before_bare,
            plain,
        }
    }

    fn row(&self) -> [String; 9] {
        let calls = BYTES_EACH_RUN.div_ceil(self.map.len());
        let times = self.times(calls);
        let name_bytes = self.names().len() as u64;
        let each_byte = |time| format!("{:.3}", nanoseconds_each(time, calls as u64 * name_bytes));
        let each_call = |time| brief(nanoseconds_each(time, calls as u64) / 1_000.0);
        let library = times.library.saturating_sub(times.library_bare);
        let before = times.before.saturating_sub(times.before_bare);
        [
            self.title.clone(),
            grouped(name_bytes),
            each_byte(library),
            each_byte(before),
            each_byte(times.plain),
            ratio_text(ratio(before, library)),
            ratio_text(ratio(library, times.plain)),
            each_call(times.library),
            each_call(times.before),
        ]
    }
}
