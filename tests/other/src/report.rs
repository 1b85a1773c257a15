//! Calls and answers as text, bytes in hexadecimal.

use std::fmt::Write;

use crate::make::Run;
use crate::probe::{Answer, Probe};
use crate::reply::Reply;

impl Probe {
    pub fn operation(&self) -> &'static str {
        match self {
            Probe::CheckMap { .. } => "check map",
            Probe::CheckOrder { .. } => "check order",
            Probe::Plan { .. } => "plan",
            Probe::Retime { .. } => "retime",
            Probe::Audit { .. } => "audit",
            Probe::Name { .. } => "name",
            Probe::MakeChains { .. } => "make chains",
            Probe::Replay { .. } => "replay",
            Probe::Strike { .. } => "strike",
            Probe::Preview { .. } => "preview",
        }
    }

    /// Everything lent, bytes in hexadecimal.
    pub fn describe(&self) -> String {
        let mut text = format!("operation: {}\n", self.operation());
        match self {
            Probe::CheckMap { map } | Probe::MakeChains { map } => show(&mut text, "map", map),
            Probe::CheckOrder {
                order,
                bans,
                junctions,
                roads,
            } => {
                show(&mut text, "order", order);
                let _ = writeln!(text, "ban list: {bans:?}");
                let _ = writeln!(text, "junctions: {junctions}, roads: {roads}");
            }
            Probe::Plan { run, labels, sheet } => {
                show_run(&mut text, run);
                let _ = writeln!(text, "label words: {}", labels.len());
                show(&mut text, "sheet before", sheet);
            }
            Probe::Retime { run, sheet, out } => {
                show_run(&mut text, run);
                show(&mut text, "sheet", sheet);
                show(&mut text, "other sheet before", out);
            }
            Probe::Audit { run, sheet } => {
                show_run(&mut text, run);
                show(&mut text, "sheet", sheet);
            }
            Probe::Name { map, junction } => {
                show(&mut text, "map", map);
                let _ = writeln!(text, "junction: {junction}");
            }
            Probe::Replay {
                trace,
                rules,
                figures,
            } => {
                show(&mut text, "trace", trace);
                let _ = writeln!(text, "rules: {rules:?}");
                let _ = writeln!(text, "figures before: {figures:?}");
            }
            Probe::Strike { map, road } => {
                show(&mut text, "map", map);
                let _ = writeln!(text, "road: {road}");
            }
            Probe::Preview {
                run,
                road,
                labels,
                sheet,
            } => {
                show_run(&mut text, run);
                let _ = writeln!(text, "road: {road}");
                let _ = writeln!(text, "label words: {}", labels.len());
                show(&mut text, "sheet before", sheet);
            }
        }
        text
    }
}

impl Answer {
    pub fn describe(&self) -> String {
        let Reply {
            number,
            place,
            arrival,
        } = self.reply;
        let (offset, length) = self.part;
        let mut text = format!("reply: {number} {place} {arrival}\n");
        let _ = writeln!(text, "part: {length} bytes at {offset}");
        show(&mut text, "written", &self.written);
        let _ = writeln!(text, "labels kept before the search: {}", self.labels_kept);
        let _ = writeln!(text, "map kept by a preview: {}", self.map_kept);
        let _ = writeln!(text, "margins kept: {}", self.margins_kept);
        text
    }
}

pub fn show_run(text: &mut String, run: &Run) {
    show(text, "map", &run.map);
    show(text, "order", &run.order);
    let shown = &run.bans[..run.bans.len().min(MOST_SHOWN)];
    let _ = writeln!(text, "ban list ({} numbers): {shown:?}", run.bans.len());
}

/// The longest bytes shown whole; random cases stay below it.
const MOST_SHOWN: usize = 20_000;

fn show(text: &mut String, title: &str, bytes: &[u8]) {
    let _ = write!(text, "{title} ({} bytes): ", bytes.len());
    text.push_str(&hexadecimal(&bytes[..bytes.len().min(MOST_SHOWN)]));
    text.push_str(if bytes.len() > MOST_SHOWN {
        "..\n"
    } else {
        "\n"
    });
}

pub fn hexadecimal(bytes: &[u8]) -> String {
    bytes.iter().fold(String::new(), |mut text, byte| {
        let _ = write!(text, "{byte:02x}");
        text
    })
}
