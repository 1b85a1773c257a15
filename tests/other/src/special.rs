//! Single large calls that random cases never make: the greatest counts, and one more.

use crate::calendar::{DAY_SECONDS, OPENING};
use crate::case_probes::AMPLE_WORDS;
use crate::make::orders::tame;
use crate::make::practice::{practice_map, USUAL_START};
use crate::make::Run;
use crate::map::{Junction, Map, Road};
use crate::mapcheck::{MOST_JUNCTIONS, MOST_NAME_BYTES, MOST_ROADS};
use crate::moves::{Move, Trip, DRIVE};
use crate::operations::LentFigures;
use crate::order::{Order, EUROPEAN_RULES, LATEST_CLOCK};
use crate::planning::{MOST_LABELS, WORDS_OF_A_LABEL};
use crate::probe::Probe;
use crate::replay::{DRIVING, LONGEST_ACTIVITY, OTHER_WORK, PAUSE};
use crate::sheet::{Record, Sheet, MOST_MOVES};
use crate::words::bytes_of;

pub fn probes() -> Vec<Probe> {
    let mut probes = largest_map_probes();
    probes.extend(oversize_map_probes());
    probes.extend(longest_list_probes());
    probes.extend(longest_sheet_probes());
    probes.push(label_space_to_spare());
    probes.push(shared_chain());
    probes.extend(trace_probes());
    probes.push(largest_practice_map());
    probes
}

/// The largest map, sound and with a fault at its very end.
fn largest_map_probes() -> Vec<Probe> {
    let sound = wide_map(MOST_JUNCTIONS, MOST_ROADS);
    let mut off_its_chain = sound.clone();
    let last = off_its_chain.roads.len() - 1;
    off_its_chain.roads[last].from = 1;
    let mut bad_letter = sound.clone();
    *bad_letter.names.last_mut().expect("name bytes") = 0x7F;
    let mut probes = vec![
        Probe::MakeChains {
            map: off_its_chain.bytes(),
        },
        Probe::Strike {
            map: sound.bytes(),
            road: MOST_ROADS as u32,
        },
        preview_of_the_last_road(sound.bytes()),
        Probe::Name {
            map: sound.bytes(),
            junction: MOST_JUNCTIONS as u32,
        },
        plan_to_the_last_junction(sound.bytes()),
    ];
    for map in [sound, off_its_chain, bad_letter] {
        probes.push(Probe::CheckMap { map: map.bytes() });
    }
    probes
}

/// Every road of the largest map banned on a Sunday, and the last one twice.
fn longest_list_probes() -> [Probe; 3] {
    let departure = DAY_SECONDS;
    let order = Order {
        departure,
        latest: departure + OPENING + 1_000,
        ..order_to_the_last_junction()
    };
    let all: Vec<u32> = (1..=MOST_ROADS as u32).collect();
    let mut last_twice = all.clone();
    last_twice[MOST_ROADS as usize - 2] = MOST_ROADS as u32;
    let check = |bans: &[u32]| Probe::CheckOrder {
        order: order.bytes(),
        bans: bans.to_vec(),
        junctions: MOST_JUNCTIONS as u32,
        roads: MOST_ROADS as u32,
    };
    let plan = Probe::Plan {
        run: Run {
            map: wide_map(MOST_JUNCTIONS, MOST_ROADS).bytes(),
            order: order.bytes(),
            bans: all.clone(),
        },
        labels: vec![0xA5A5_A5A5; AMPLE_WORDS],
        sheet: vec![0xEE; 1_000],
    };
    [check(&all), check(&last_twice), plan]
}

/// Whole maps, sound but for one junction or one road too many.
fn oversize_map_probes() -> Vec<Probe> {
    let calls = |(junctions, roads)| {
        let map = wide_map(junctions, roads).bytes();
        [
            Probe::CheckMap { map: map.clone() },
            Probe::MakeChains { map: map.clone() },
            Probe::Strike {
                map: map.clone(),
                road: MOST_ROADS as u32,
            },
            plan_to_the_last_junction(map.clone()),
            preview_of_the_last_road(map),
        ]
    };
    [
        (MOST_JUNCTIONS + 1, MOST_ROADS),
        (MOST_JUNCTIONS, MOST_ROADS + 1),
    ]
    .into_iter()
    .flat_map(calls)
    .collect()
}

/// With it the last road of the largest map leads to its last junction.
const STEP_OF_WIDE_MAP: u64 = 8_191;

/// A map whose roads all lead the same number of junctions on, the last ones the shortest, with as
/// many name bytes as a map may have.
fn wide_map(junctions: u64, roads: u64) -> Map {
    let junction = |number: u64| Junction {
        first: 0,
        car_park: number % 2,
        name_start: number,
        name_length: 32,
    };
    let road = |number: u64| Road {
        from: 1 + number % junctions,
        to: 1 + (number + STEP_OF_WIDE_MAP) % junctions,
        metres: roads + 1 - number,
        speed: 80,
        next: 0,
    };
    let mut map = Map {
        junctions: (1..=junctions).map(junction).collect(),
        roads: (1..=roads).map(road).collect(),
        names: vec![b'n'; MOST_NAME_BYTES as usize],
    };
    map.link_chains();
    map
}

/// In the largest map two drives, by roads 32,769 and 40,960: 8,192 metres and 1 metre.
fn plan_to_the_last_junction(map: Vec<u8>) -> Probe {
    plan_with_ample_space(map, &order_to_the_last_junction())
}

fn order_to_the_last_junction() -> Order {
    Order {
        source: 8_194,
        target: MOST_JUNCTIONS,
        latest: 1_000,
        ..european_order()
    }
}

/// With the last road struck, road 28,672 takes its place: 12,289 metres.
fn preview_of_the_last_road(map: Vec<u8>) -> Probe {
    Probe::Preview {
        run: Run::without_bans(map, order_to_the_last_junction().bytes()),
        road: MOST_ROADS as u32,
        labels: vec![0xA5A5_A5A5; AMPLE_WORDS],
        sheet: vec![0xEE; 1_000],
    }
}

fn plan_with_ample_space(map: Vec<u8>, order: &Order) -> Probe {
    Probe::Plan {
        run: Run::without_bans(map, order.bytes()),
        labels: vec![0xA5A5_A5A5; AMPLE_WORDS],
        sheet: vec![0xEE; 1_000],
    }
}

/// From junction 1 to itself under the European rules, with all the time there is.
fn european_order() -> Order {
    Order {
        source: 1,
        target: 1,
        latest: LATEST_CLOCK,
        ..Order::of_hours(EUROPEAN_RULES, [0; 3])
    }
}

/// As many drives round a road of one second as a sheet may hold, and one more.
fn longest_sheet_probes() -> Vec<Probe> {
    let run = Run::without_bans(round_trip_map().bytes(), patient_order().bytes());
    let mut probes = Vec::new();
    for moves in [MOST_MOVES, MOST_MOVES + 1] {
        let sheet = round_trips(moves).bytes();
        probes.push(Probe::Retime {
            run: run.clone(),
            out: vec![0xEE; sheet.len() + 1],
            sheet: sheet.clone(),
        });
        probes.push(Probe::Audit {
            run: run.clone(),
            sheet,
        });
    }
    probes
}

fn round_trip_map() -> Map {
    let mut map = Map {
        junctions: vec![junction_without_roads()],
        roads: vec![round_road()],
        names: b"x".to_vec(),
    };
    map.link_chains();
    map
}

pub fn junction_without_roads() -> Junction {
    Junction {
        first: 0,
        car_park: 1,
        name_start: 0,
        name_length: 1,
    }
}

/// A road of one second from junction 1 to itself.
pub fn round_road() -> Road {
    Road {
        from: 1,
        to: 1,
        metres: 1,
        speed: 130,
        next: 0,
    }
}

/// The same with the widest limits and pauses of a second.
fn patient_order() -> Order {
    Order {
        spell_limit: 1_000_000,
        break_time: 1,
        shift_limit: 1_000_000,
        rest_time: 1,
        first_part: 1,
        second_part: 1,
        week_limit: 1_000_000,
        weekly_rest: 1,
        ..european_order()
    }
}

fn round_trips(moves: u64) -> Sheet {
    let record = |clock| Record {
        step: Move {
            kind: DRIVE,
            number: 1,
        },
        clock,
    };
    Sheet {
        arrival: moves,
        spell: moves,
        shift: moves,
        week: moves,
        labels: 1,
        records: (1..=moves).map(record).collect(),
    }
}

/// More label words than may be used.
fn label_space_to_spare() -> Probe {
    let order = Order {
        latest: 10,
        ..patient_order()
    };
    Probe::Plan {
        run: Run::without_bans(round_trip_map().bytes(), order.bytes()),
        labels: vec![0xA5A5_A5A5; WORDS_OF_A_LABEL * (MOST_LABELS + 1)],
        sheet: vec![0xEE; 25],
    }
}

/// Every junction has the first road's chain, which runs through all roads of junction 1.
fn shared_chain() -> Probe {
    let mut map = Map {
        junctions: vec![junction_without_roads(); 1_000],
        roads: vec![round_road(); 2_000],
        names: b"x".to_vec(),
    };
    map.link_chains();
    map.junctions
        .iter_mut()
        .for_each(|junction| junction.first = 1);
    Probe::CheckMap { map: map.bytes() }
}

/// An empty trace, neighbouring pauses of 2^32 seconds together, and a long trace, sound and with a
/// fault at its very end.
fn trace_probes() -> [Probe; 4] {
    let mut last_too_long = long_trace();
    *last_too_long.last_mut().expect("a record") = (DRIVING, 1);
    [
        european_replay(&[], [15, 20, 25, 1]),
        european_replay(&pause_of_two_to_the_32nd(), [16_200, 32_400, 201_600, 1]),
        european_replay(&long_trace(), [0; 4]),
        european_replay(&last_too_long, [0; 4]),
    ]
}

/// Records by activity and seconds, under the European rules.
fn european_replay(records: &[(u64, u64)], figures: LentFigures) -> Probe {
    let words = |&(activity, seconds): &(u64, u64)| [activity, seconds];
    Probe::Replay {
        trace: bytes_of(&records.iter().flat_map(words).collect::<Vec<u64>>()),
        rules: EUROPEAN_RULES.map(|figure| figure as u32),
        figures,
    }
}

/// A sum that is 0 in 32 bits; the driver needs the weekly rest for the driving behind it.
fn pause_of_two_to_the_32nd() -> Vec<(u64, u64)> {
    let (whole, left) = ((1 << 32) / LONGEST_ACTIVITY, (1 << 32) % LONGEST_ACTIVITY);
    let mut records = vec![(PAUSE, LONGEST_ACTIVITY); whole as usize];
    records.extend([(PAUSE, left), (DRIVING, 16_200)]);
    records
}

/// Weeks that just keep the European rules: every limit, break, part and rest is met exactly.
fn long_trace() -> Vec<(u64, u64)> {
    let day_with_a_break = [
        (OTHER_WORK, 1_800),
        (DRIVING, 16_200),
        (PAUSE, 1_500),
        (PAUSE, 1_200),
        (DRIVING, 16_200),
        (OTHER_WORK, 900),
        (PAUSE, 19_800),
        (PAUSE, 19_800),
    ];
    let day_with_a_split = [
        (DRIVING, 9_000),
        (PAUSE, 900),
        (DRIVING, 7_200),
        (PAUSE, 1_000),
        (PAUSE, 800),
        (DRIVING, 16_200),
        (PAUSE, 19_800),
        (PAUSE, 19_800),
    ];
    let six_days = [day_with_a_break, day_with_a_split].concat().repeat(3);
    let end_of_the_week = [(DRIVING, 7_200), (PAUSE, 81_000), (PAUSE, 81_000)];
    [&six_days[..], &end_of_the_week].concat().repeat(4_000)
}

/// The largest practice map, with so near a latest that few states are reachable.
fn largest_practice_map() -> Probe {
    let map = practice_map(MOST_JUNCTIONS, USUAL_START);
    let order = Order {
        target: 4,
        latest: 30_000,
        ..european_order()
    };
    let mut trip = Trip::without_bans(map, order);
    tame(&mut trip);
    plan_with_ample_space(trip.map.bytes(), &trip.order)
}
