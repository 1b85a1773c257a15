//! Retiming and audit on map T.

use super::fixtures::*;
use crate::operations::DOCUMENT;
use crate::order::Order;
use crate::reply::Reply;
use crate::sheet::Sheet;

const PLAN: [(u64, u64, u64); 3] = [(1, 1, 10_800), (2, 2, 13_500), (1, 2, 20_700)];

/// With the shift as the week, which there is no weekly rest to make another.
fn sheet(rows: &[(u64, u64, u64)], arrival: u64, spell: u64, shift: u64) -> Vec<u8> {
    sheet_of_week(rows, [arrival, spell, shift, shift])
}

fn sheet_of_week(rows: &[(u64, u64, u64)], figures: [u64; 4]) -> Vec<u8> {
    let [arrival, spell, shift, week] = figures;
    let sheet = Sheet {
        arrival,
        spell,
        shift,
        week,
        labels: 77,
        records: records(rows),
    };
    sheet.bytes()
}

fn true_sheet() -> Vec<u8> {
    sheet(&PLAN, 20_700, 7_200, 18_000)
}

fn retime(order: &Order, given: &[u8], length: usize) -> (Reply, Vec<u8>) {
    let mut out = vec![MARK; length];
    let reply = (DOCUMENT.retime)(&map_t().bytes(), &order.bytes(), &[], given, &mut out);
    (reply, out)
}

fn audit(order: &Order, given: &[u8]) -> Reply {
    (DOCUMENT.audit)(&map_t().bytes(), &order.bytes(), &[], given)
}

/// A refusal that retiming and audit share; the other sheet stays.
fn both(order: &Order, given: &[u8], number: u64, place: u64) {
    assert_eq!(
        retime(order, given, 100),
        (refused(number, place), vec![MARK; 100])
    );
    assert_eq!(audit(order, given), refused(number, place));
}

pub fn retimed() {
    let false_figures = sheet(&[(1, 1, 9), (2, 2, 8), (1, 2, 7)], 1, 2, 3);
    let (reply, out) = retime(&order_t(), &false_figures, 64);
    assert_eq!(reply, Reply::success(3, 20_700));
    assert_eq!(out[..60], true_sheet());
    assert_eq!(out[60..], [MARK; 4]);
    let rested = sheet_of_week(
        &[(1, 1, 10_800), (3, 2, 50_400), (1, 2, 57_600)],
        [57_600, 7_200, 7_200, 18_000],
    );
    assert_eq!(
        retime(&order_t(), &rested, 60),
        (Reply::success(3, 57_600), rested)
    );
    let mut home = order_t();
    (
        home.target,
        home.departure,
        home.spell,
        home.shift,
        home.week,
    ) = (1, 7, 5, 6, 6);
    let nothing = sheet(&[], 7, 5, 6);
    assert_eq!(
        retime(&home, &sheet(&[], 0, 0, 0), 24),
        (Reply::success(0, 7), nothing)
    );
}

pub fn moves_that_are_refused() {
    for (kind, number) in [
        (0, 1),
        (4, 1),
        (5, 1),
        (6, 1),
        (7, 1),
        (257, 1),
        (1, 0),
        (1, 2),
        (1, 4),
        (1, ALL_BITS),
        (2, 1),
    ] {
        let foreign = sheet(&[(kind, number, 0), PLAN[1], PLAN[2]], 0, 0, 0);
        both(&order_t(), &foreign, 16, 1);
    }
    both(&order_t(), &sheet(&[PLAN[0], (2, 3, 0)], 0, 0, 0), 16, 2);
    let mut order = order_t();
    order.spell_limit = 10_799;
    both(&order, &sheet(&[PLAN[0], (9, 9, 9)], 0, 0, 0), 17, 1);
    order = order_t();
    order.shift_limit = 17_999;
    both(&order, &true_sheet(), 17, 3);
    order = order_t();
    order.latest = 13_499;
    both(&order, &true_sheet(), 17, 2);
}

pub fn torn() {
    let plan = true_sheet();
    both(&order_t(), &[], 15, 0);
    for length in [19, 20, 23, 24, 56, 59] {
        both(&order_t(), &plan[..length], 15, length as u64);
    }
    both(&order_t(), &[&plan[..], b"x"].concat(), 15, 61);
    for moves in [0, 2, 4, 1_000_000, 3 + (1 << 30), ALL_BITS] {
        both(&order_t(), &with_word(&plan, 0, moves), 15, 60);
    }
}

pub fn stray_and_short() {
    both(&order_t(), &sheet(&PLAN[..2], 9, 9, 9)[..36], 15, 36);
    let stray = sheet(&PLAN[..2], 9, 9, 9);
    both(&order_t(), &stray, 19, 2);
    assert_eq!(retime(&order_t(), &stray, 0).0, refused(19, 2));
    both(&order_t(), &sheet(&[], 0, 0, 0), 19, 1);
    assert_eq!(
        retime(&order_t(), &true_sheet(), 59),
        (refused(14, 60), vec![MARK; 59])
    );
}

pub fn false_figures() {
    assert_eq!(audit(&order_t(), &true_sheet()), Reply::success(3, 20_700));
    let false_clock = sheet(&[PLAN[0], (2, 2, 13_501), PLAN[2]], 20_700, 7_200, 18_000);
    assert_eq!(audit(&order_t(), &false_clock), refused(18, 2));
    for offset in [4, 8, 12, 16] {
        assert_eq!(
            audit(&order_t(), &with_word(&true_sheet(), offset, 1)),
            refused(18, 4)
        );
    }
    let mut order = order_t();
    order.latest = 20_699;
    let late_and_false = sheet(&[PLAN[0], PLAN[1], (1, 2, 1)], 0, 0, 0);
    assert_eq!(audit(&order, &late_and_false), refused(17, 3));
    let false_then_late = sheet(&[(1, 1, 1), PLAN[1], PLAN[2]], 0, 0, 0);
    assert_eq!(audit(&order, &false_then_late), refused(18, 1));
}
