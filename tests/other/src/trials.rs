//! Answers the worked cases that `tests/worked_cases.py` stores for the program `trials`, in that
//! program's format.

use crate::operations::DOCUMENT;
use crate::reply::Reply;
use crate::report::hexadecimal;
use crate::words::word;

/// What the label words of a preview hold beforehand; the case's number is its road.
const MARKED_WORD: u32 = 0xEEEE_EEEE;

/// One line for each case, as the program must print it.
pub fn answers(mut stored: &[u8]) -> String {
    let mut lines = String::new();
    while !stored.is_empty() {
        lines.push_str(&answer_next(&mut stored));
    }
    lines
}

fn answer_next(stored: &mut &[u8]) -> String {
    let kind = take(stored, 1)[0];
    let title_length = usize::from(take(stored, 1)[0]);
    let title = String::from_utf8_lossy(take(stored, title_length));
    let figures = take(stored, 28);
    let [number, roads, label_words, lengths @ ..]: [usize; 7] =
        std::array::from_fn(|index| word(figures, 4 * index) as usize);
    let [map, order, list, sheet] = lengths.map(|length| take(stored, length));
    let bans = &numbers(list)[..];
    let answer = match kind {
        b'm' => line((DOCUMENT.check_map)(map)),
        b'o' => line((DOCUMENT.check_order)(
            order,
            bans,
            number as u32,
            roads as u32,
        )),
        b'n' => {
            let (reply, offset, length) = (DOCUMENT.name)(map, number as u32);
            let name = String::from_utf8_lossy(&map[offset..offset + length]);
            format!("{} <{name}>", line(reply))
        }
        b'c' => written(map, |map| (DOCUMENT.make_chains)(map)),
        b'r' => written(&vec![0xEE; number], |out| {
            (DOCUMENT.retime)(map, order, bans, sheet, out)
        }),
        b'a' => line((DOCUMENT.audit)(map, order, bans, sheet)),
        b'p' => planned(vec![number as u32; label_words], sheet, |words, lent| {
            (DOCUMENT.plan)(map, order, bans, words, lent)
        }),
        b't' => replayed(order, number as u32, sheet),
        b's' => written(map, |map| (DOCUMENT.strike)(map, number as u32)),
        b'v' => planned(vec![MARKED_WORD; label_words], sheet, |words, lent| {
            (DOCUMENT.preview)(&mut map.to_vec(), order, bans, number as u32, words, lent)
        }),
        other => format!("unknown kind {other}"),
    };
    format!("{title}: {answer}\n")
}

/// The reply, and what lent bytes hold afterwards.
fn written(before: &[u8], write: impl FnOnce(&mut [u8]) -> Reply) -> String {
    let mut lent = before.to_vec();
    let reply = write(&mut lent);
    format!("{} {}", line(reply), hexadecimal(&lent))
}

/// The reply, the sheet afterwards and, where the search was not begun, whether the label words stayed.
fn planned(
    before: Vec<u32>,
    sheet: &[u8],
    plan: impl FnOnce(&mut [u32], &mut [u8]) -> Reply,
) -> String {
    let mut words = before.clone();
    let mut lent = sheet.to_vec();
    let reply = plan(&mut words, &mut lent);
    let stayed = match (reply.is_before_search(), words == before) {
        (true, true) => " kept",
        (true, false) => " changed",
        (false, _) => "",
    };
    format!("{} {}{stayed}", line(reply), hexadecimal(&lent))
}

/// The reply, and the figures afterwards, the mark last. The hours are words 4 to 14 of an order.
fn replayed(hours: &[u8], mark: u32, trace: &[u8]) -> String {
    let words = std::array::from_fn(|index| word(hours, 4 * index) as u32);
    let [spell, shift, rules @ .., week]: [u32; 11] = words;
    let mut figures = [spell, shift, week, mark];
    let reply = (DOCUMENT.replay)(trace, rules, &mut figures);
    let [spell, shift, week, mark] = figures;
    format!("{} {spell} {shift} {week} {mark}", line(reply))
}

/// The words of a ban list.
fn numbers(list: &[u8]) -> Vec<u32> {
    let number = |bytes: &[u8]| word(bytes, 0) as u32;
    list.chunks_exact(4).map(number).collect()
}

fn take<'a>(stored: &mut &'a [u8], length: usize) -> &'a [u8] {
    let (taken, rest) = stored.split_at(length);
    *stored = rest;
    taken
}

fn line(reply: Reply) -> String {
    format!("{} {} {}", reply.number, reply.place, reply.arrival)
}
