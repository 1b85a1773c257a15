//! Tables in markdown.

use std::time::Duration;

pub struct Table {
    lines: Vec<String>,
}

impl Table {
    /// Columns that hold text, then columns that hold numbers.
    pub fn new(texts: &[&str], numbers: &[&str]) -> Table {
        let heads: Vec<_> = texts.iter().chain(numbers).map(|s| s.to_string()).collect();
        let marks = [vec!["---"; texts.len()], vec!["--:"; numbers.len()]].concat();
        Table {
            lines: vec![line(&heads), format!("|{}|", marks.join("|"))],
        }
    }

    pub fn add(&mut self, cells: &[String]) {
        self.lines.push(line(cells));
    }

    pub fn print(&self) {
        println!("{}\n", self.lines.join("\n"));
    }
}

fn line(cells: &[String]) -> String {
    format!("| {} |", cells.join(" | "))
}

/// A whole number with commas between thousands.
pub fn grouped(number: u64) -> String {
    match number / 1_000 {
        0 => number.to_string(),
        thousands => format!("{},{:03}", grouped(thousands), number % 1_000),
    }
}

/// A time: two decimals below 10, none above.
pub fn brief(time: f64) -> String {
    if time < 10.0 {
        format!("{time:.2}")
    } else {
        format!("{time:.0}")
    }
}

pub fn microseconds(time: Duration) -> String {
    match time.as_micros() as u64 {
        ..10 => brief(1_000_000.0 * time.as_secs_f64()),
        whole => grouped(whole),
    }
}

pub fn ratio_text(ratio: f64) -> String {
    format!("{ratio:.2}")
}
