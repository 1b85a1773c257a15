//! Plans map T and prints the reply and the moves on the sheet, as `examples/plan_map_t.c` does.
mod ending;
mod listing;
mod map_t;

use std::process::ExitCode;

use trunk::{LABEL_WORDS, Order, Refused};

fn main() -> ExitCode {
    ending::ended(plan())
}

/// Under the European rules without a split, for a driver who comes from a weekly rest.
fn plan() -> Result<(), Refused> {
    let map = map_t::map_t();
    let order = Order::european(1, 3, 0, 100_000);
    let mut words = vec![0; LABEL_WORDS * 100]; // room for 100 labels
    let mut sheet = vec![0; 1000];
    let planned = trunk::plan(&map, &order.to_bytes(), &[], &mut words, &mut sheet)?;
    println!("reply 0 {} {}", planned.labels, planned.arrival);
    listing::print_moves(&map, &sheet)
}
