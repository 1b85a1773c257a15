//! Plans map T on a Sunday, with no road banned and with the last one banned, and then times the first plan's moves under
//! the ban: the lorry queues at the gate until 22:00, and a rest in place of the queue costs nothing. As
//! `examples/sunday_trip.c` does.
mod ending;
mod listing;
mod map_t;

use std::process::ExitCode;

use trunk::{DAY_SECONDS, LABEL_WORDS, MoveKind, Order, Refused, Sheet};

const SUNDAY: u32 = DAY_SECONDS; // 2 January 2000, at 00:00
const MONDAY: u32 = 2 * DAY_SECONDS;
const BANS: [u32; 1] = [2]; // the road from Lay to End

fn main() -> ExitCode {
    ending::ended(plan_and_retime())
}

fn plan_and_retime() -> Result<(), Refused> {
    let map = map_t::map_t();
    let order = Order::european(1, 3, SUNDAY, MONDAY).to_bytes();
    let open = plan(&map, &order, &[])?;
    print_plan("no ban", &map, &open)?;
    let banned = plan(&map, &order, &BANS)?;
    print_plan("road 2 banned", &map, &banned)?;

    let open = open.to_bytes();
    let mut retimed = vec![0; open.len()];
    trunk::retime(&map, &order, &BANS, &open, &mut retimed)?;
    let retimed = Sheet::from_bytes(&retimed)?;
    print_plan("the first plan under the ban", &map, &retimed)
}

fn plan(map: &[u8], order: &[u8], bans: &[u32]) -> Result<Sheet, Refused> {
    let mut words = vec![0; LABEL_WORDS * 100]; // room for 100 labels
    let mut sheet = vec![0; 1000];
    trunk::plan(map, order, bans, &mut words, &mut sheet)?;
    Sheet::from_bytes(&sheet)
}

fn print_plan(title: &str, map: &[u8], sheet: &Sheet) -> Result<(), Refused> {
    let (arrival, shift, queues) = (sheet.arrival, sheet.shift, queues_of(sheet));
    println!("{title}: arrives {arrival}, shift {shift}, queues {queues}");
    listing::print_moves(map, &sheet.to_bytes())
}

/// What is neither a pause nor driving, of which the week has all: the driver comes from a weekly rest and takes none.
fn queues_of(sheet: &Sheet) -> u32 {
    let mut clock = SUNDAY;
    let mut pauses = 0;
    for step in &sheet.moves {
        if step.kind != MoveKind::Drive {
            pauses += step.clock - clock;
        }
        clock = step.clock;
    }
    sheet.arrival - SUNDAY - pauses - sheet.week
}
