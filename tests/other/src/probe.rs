//! A single call of an operation with everything it is lent, and what is seen afterwards.

use crate::lent::Lent;
use crate::make::Run;
use crate::operations::{LentFigures, LentRules, Operations};
use crate::reply::Reply;

/// One call. The bytes and words lent for writing hold marks beforehand.
#[derive(Clone, Debug)]
pub enum Probe {
    CheckMap {
        map: Vec<u8>,
    },
    CheckOrder {
        order: Vec<u8>,
        bans: Vec<u32>,
        junctions: u32,
        roads: u32,
    },
    Plan {
        run: Run,
        labels: Vec<u32>,
        sheet: Vec<u8>,
    },
    Retime {
        run: Run,
        sheet: Vec<u8>,
        out: Vec<u8>,
    },
    Audit {
        run: Run,
        sheet: Vec<u8>,
    },
    Name {
        map: Vec<u8>,
        junction: u32,
    },
    MakeChains {
        map: Vec<u8>,
    },
    Replay {
        trace: Vec<u8>,
        rules: LentRules,
        figures: LentFigures,
    },
    Strike {
        map: Vec<u8>,
        road: u32,
    },
    Preview {
        run: Run,
        road: u32,
        labels: Vec<u32>,
        sheet: Vec<u8>,
    },
}

/// What a call leaves: the documents fix all of it.
#[derive(Clone, Debug, PartialEq, Eq)]
pub struct Answer {
    pub reply: Reply,
    /// Offset and length of a name.
    pub part: (usize, usize),
    /// The sheet, map or figures lent for writing, afterwards.
    pub written: Vec<u8>,
    /// False where label words changed although the search had not begun.
    pub labels_kept: bool,
    /// False where a preview changed the map.
    pub map_kept: bool,
    /// False where bytes or words around the lent ones changed.
    pub margins_kept: bool,
}

impl Answer {
    fn of(reply: Reply) -> Answer {
        Answer {
            reply,
            part: (0, 0),
            written: Vec::new(),
            labels_kept: true,
            map_kept: true,
            margins_kept: true,
        }
    }
}

pub fn answer(operations: &Operations, probe: &Probe) -> Answer {
    match probe {
        Probe::CheckMap { map } => Answer::of((operations.check_map)(map)),
        Probe::CheckOrder {
            order,
            bans,
            junctions,
            roads,
        } => Answer::of((operations.check_order)(order, bans, *junctions, *roads)),
        Probe::Plan { run, labels, sheet } => answer_plan(operations, run, labels, sheet),
        Probe::Retime { run, sheet, out } => {
            let mut lent = Lent::new(out, 0xA5);
            let reply = (operations.retime)(&run.map, &run.order, &run.bans, sheet, lent.content());
            written(reply, lent)
        }
        Probe::Audit { run, sheet } => {
            Answer::of((operations.audit)(&run.map, &run.order, &run.bans, sheet))
        }
        Probe::Name { map, junction } => {
            let (reply, offset, length) = (operations.name)(map, *junction);
            Answer {
                part: (offset, length),
                ..Answer::of(reply)
            }
        }
        Probe::MakeChains { map } => {
            let mut lent = Lent::new(map, 0xA5);
            let reply = (operations.make_chains)(lent.content());
            written(reply, lent)
        }
        Probe::Replay {
            trace,
            rules,
            figures,
        } => answer_replay(operations, trace, *rules, figures),
        Probe::Strike { map, road } => {
            let mut lent = Lent::new(map, 0xA5);
            let reply = (operations.strike)(lent.content(), *road);
            written(reply, lent)
        }
        Probe::Preview {
            run,
            road,
            labels,
            sheet,
        } => answer_preview(operations, run, *road, labels, sheet),
    }
}

fn answer_plan(operations: &Operations, run: &Run, labels: &[u32], sheet: &[u8]) -> Answer {
    answer_search(labels, sheet, |labels, sheet| {
        (operations.plan)(&run.map, &run.order, &run.bans, labels, sheet)
    })
}

fn answer_preview(
    operations: &Operations,
    run: &Run,
    road: u32,
    labels: &[u32],
    sheet: &[u8],
) -> Answer {
    let mut map = Lent::new(&run.map, 0xA5);
    let answer = answer_search(labels, sheet, |labels, sheet| {
        (operations.preview)(map.content(), &run.order, &run.bans, road, labels, sheet)
    });
    Answer {
        map_kept: map.is_unchanged(),
        ..answer
    }
}

/// What a search leaves that is lent these labels and this sheet.
fn answer_search(
    labels: &[u32],
    sheet: &[u8],
    search: impl FnOnce(&mut [u32], &mut [u8]) -> Reply,
) -> Answer {
    let mut lent_labels = Lent::new(labels, 0xA5A5_A5A5);
    let mut lent_sheet = Lent::new(sheet, 0xA5);
    let reply = search(lent_labels.content(), lent_sheet.content());
    Answer {
        labels_kept: !reply.is_before_search() || lent_labels.is_unchanged(),
        margins_kept: lent_labels.margins_kept() && lent_sheet.margins_kept(),
        ..written(reply, lent_sheet)
    }
}

fn answer_replay(
    operations: &Operations,
    trace: &[u8],
    rules: LentRules,
    figures: &LentFigures,
) -> Answer {
    let mut lent = Lent::new(figures, 0xA5A5_A5A5);
    let content = lent.content().try_into().expect("as many as lent");
    let reply = (operations.replay)(trace, rules, content);
    let bytes = |figure: &u32| figure.to_le_bytes();
    Answer {
        margins_kept: lent.margins_kept(),
        written: lent.content().iter().flat_map(bytes).collect(),
        ..Answer::of(reply)
    }
}

fn written(reply: Reply, mut lent: Lent<u8>) -> Answer {
    Answer {
        margins_kept: lent.margins_kept(),
        written: lent.content().to_vec(),
        ..Answer::of(reply)
    }
}
