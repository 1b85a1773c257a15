//! Orders, sheets and traces as types, beside their bytes.
use super::*;

/// Each word its own number, so that none can stand for another.
#[test]
fn an_order_is_fifteen_words() {
    let words = [1, 2, 3, 4, 5, 6, 7, 8, 9, 10, 11, 12, 13, 14, 15];
    let rules = Rules {
        spell_limit: 7,
        break_time: 8,
        shift_limit: 9,
        rest_time: 10,
        first_part: 11,
        second_part: 12,
        week_limit: 13,
        weekly_rest: 14,
    };
    let order = Order {
        source: 1,
        target: 2,
        departure: 3,
        latest: 4,
        spell: 5,
        shift: 6,
        rules,
        week: 15,
    };
    assert_eq!(order.words(), words);
    assert_eq!(Order::from_words(words), order);
    assert_eq!(order.to_bytes()[..], bytes_of(&words)[..]);
    assert_eq!(Order::from_bytes(&bytes_of(&words)), Ok(order));
    assert_eq!(Rules::from_words(rules.words()), rules);
}

#[test]
fn a_european_order_is_rested_and_without_a_split() {
    let order = Order::european(1, 3, 0, 100_000);
    assert_eq!(order.to_bytes()[..], order_t(100_000)[..]);
    let split = Order {
        rules: Rules::european(),
        ..order
    };
    let with_parts = order_with_parts(100_000, [900, 1_800]);
    assert_eq!(split.to_bytes()[..], with_parts[..]);
}

/// The mark has no word in an order.
#[test]
fn an_order_takes_figures_without_their_mark() {
    let order = Order::european(1, 3, 0, 100_000).with_figures(figures([5, 6, 7], true));
    assert_eq!((order.spell, order.shift, order.week), (5, 6, 7));
    let unmarked = Order::european(1, 3, 0, 100_000).with_figures(figures([5, 6, 7], false));
    assert_eq!(order, unmarked);
}

/// As the order check refuses them.
#[test]
fn an_order_of_another_length_is_refused() {
    for length in [0, 40, 48, 59, 61] {
        let bytes = vec![0; length];
        let bad = refused(Refusal::BadOrder, length as u64);
        assert_eq!(Order::from_bytes(&bytes), bad);
        assert_eq!(
            check_order(&bytes, &[], 3, 3),
            refused(Refusal::BadOrder, length as u64)
        );
    }
}

fn sheet_of_t() -> Sheet {
    let step = |kind, number, clock| Move {
        kind,
        number,
        clock,
    };
    Sheet {
        arrival: 20_700,
        spell: 7_200,
        shift: 18_000,
        week: 18_001,
        labels: 4,
        moves: vec![
            step(MoveKind::Drive, 1, 10_800),
            step(MoveKind::Break, 2, 13_500),
            step(MoveKind::Drive, 2, 20_700),
        ],
    }
}

/// The week is another number than the shift here, so that neither can stand for the other.
#[test]
fn a_sheet_is_its_header_and_records() {
    let bytes = bytes_of(&[
        3, 20_700, 7_200, 18_000, 18_001, 4, // header
        1, 1, 10_800, 2, 2, 13_500, 1, 2, 20_700, // records
    ]);
    assert_eq!(sheet_of_t().to_bytes(), bytes);
    assert_eq!(Sheet::from_bytes(&bytes), Ok(sheet_of_t()));
    let longer = [&bytes[..], &[0xEE; 40]].concat();
    assert_eq!(Sheet::from_bytes(&longer), Ok(sheet_of_t()));
    assert_eq!(Sheet::default().to_bytes(), [0; SHEET_HEADER_BYTES]);
}

#[test]
fn a_sheet_shorter_than_its_moves_is_torn() {
    let bytes = sheet_of_t().to_bytes();
    for length in 0..bytes.len() {
        let torn = refused(Refusal::TornSheet, length as u64);
        assert_eq!(Sheet::from_bytes(&bytes[..length]), torn);
    }
}

/// As many moves as there may be are read; one more is refused, also where its bytes are there.
#[test]
fn a_sheet_has_at_most_999_999_moves() {
    let drives = bytes_of(&vec![1; 3 * 1_000_000]);
    let with_count = |count: u32| {
        let header = bytes_of(&[count, 0, 0, 0, 0, 0]);
        Sheet::from_bytes(&[&header[..], &drives].concat())
    };
    assert_eq!(with_count(999_999).unwrap().moves.len(), 999_999);
    let length = (SHEET_HEADER_BYTES + drives.len()) as u64;
    for count in [1_000_000, u32::MAX] {
        assert_eq!(with_count(count), refused(Refusal::TornSheet, length));
    }
}

#[test]
fn a_kind_that_is_none_is_a_foreign_move() {
    for kind in [0, 7, 257, u32::MAX] {
        let mut bytes = sheet_of_t().to_bytes();
        bytes[36..40].copy_from_slice(&kind.to_le_bytes());
        assert_eq!(Sheet::from_bytes(&bytes), refused(Refusal::ForeignMove, 2));
        assert_eq!(MoveKind::from_number(kind), None);
    }
}

/// The words of the program's listing.
#[test]
fn kinds_have_their_numbers_and_words() {
    let words = ["drive", "break", "rest", "first", "second", "weekly"];
    for (number, word) in (1..).zip(words) {
        let kind = MoveKind::from_number(number).unwrap();
        assert_eq!((kind.number(), kind.word()), (number, word));
        assert_eq!(kind.to_string(), word);
    }
}

#[test]
fn a_trace_is_pairs_of_words() {
    let records = [
        TraceRecord::new(Activity::OtherWork, 1_800),
        TraceRecord::new(Activity::Driving, 1_000_000),
        TraceRecord::new(Activity::Pause, 900),
    ];
    let pairs = trace_of(&[(OTHER_WORK, 1_800), (DRIVING, 1_000_000), (PAUSE, 900)]);
    assert_eq!(trace_bytes(&records), pairs);
    assert_eq!(trace_bytes(&[]), []);
}
