//! The header for C beside this package: version, figures, numbers and sentences.
use super::*;

const HEADER: &str = include_str!("../../../include/trunk.h");

/// The package's, the header's and the library's.
#[test]
fn one_version() {
    assert!(HEADER.contains(&format!("\n#define TRUNK_VERSION {VERSION}\n")));
    assert_eq!(version(), VERSION);
}

#[test]
fn the_header_has_the_same_figures() {
    for (name, figure) in [
        ("MOST_LABELS", MOST_LABELS),
        ("MOST_JUNCTIONS", MOST_JUNCTIONS),
        ("MOST_ROADS", MOST_ROADS),
        ("MOST_NAME_BYTES", MOST_NAME_BYTES),
        ("ORDER_BYTES", ORDER_BYTES),
        ("LABEL_WORDS", LABEL_WORDS),
        ("SHEET_HEADER_BYTES", SHEET_HEADER_BYTES),
        ("SHEET_RECORD_BYTES", SHEET_RECORD_BYTES),
        ("DRIVE", DRIVE as usize),
        ("BREAK", BREAK as usize),
        ("REST", REST as usize),
        ("FIRST_PART", FIRST_PART as usize),
        ("SECOND_PART", SECOND_PART as usize),
        ("WEEKLY_REST", WEEKLY_REST as usize),
        ("PLAN_STACK_BYTES", PLAN_STACK_BYTES),
        ("STACK_BYTES", STACK_BYTES),
        ("DAY_SECONDS", DAY_SECONDS as usize),
        ("TRACE_RECORD_BYTES", TRACE_RECORD_BYTES),
        ("MOST_TRACE_SECONDS", MOST_TRACE_SECONDS as usize),
        ("OTHER_WORK", OTHER_WORK as usize),
        ("DRIVING", DRIVING as usize),
        ("PAUSE", PAUSE as usize),
    ] {
        assert!(
            HEADER.contains(&format!(" TRUNK_{name} = {figure},")),
            "{name}"
        );
    }
}

/// In the order of an order's words.
#[test]
fn the_header_has_the_european_rules() {
    let names = [
        "SPELL_LIMIT",
        "BREAK_TIME",
        "SHIFT_LIMIT",
        "REST_TIME",
        "FIRST_PART",
        "SECOND_PART",
        "WEEK_LIMIT",
        "WEEKLY_REST",
    ];
    let named = |(name, seconds)| format!("    TRUNK_EUROPEAN_{name} = {seconds},\n");
    let rules = names.into_iter().zip(Rules::european().words());
    assert!(HEADER.contains(&rules.map(named).collect::<String>()));
}

/// `TRUNK_SHORT_MAP` for `ShortMap`.
fn name_in_c(refusal: Refusal) -> String {
    let mut name = "TRUNK".to_string();
    for letter in format!("{refusal:?}").chars() {
        if letter.is_uppercase() {
            name.push('_');
        }
        name.extend(letter.to_uppercase());
    }
    name
}

#[test]
fn the_header_has_the_same_numbers() {
    for (i, &refusal) in Refusal::ALL.iter().enumerate() {
        assert_eq!(refusal.number(), i as u64 + 1);
    }
    let entry =
        |refusal: &Refusal| format!(",\n    {} = {}", name_in_c(*refusal), refusal.number());
    let entries: String = Refusal::ALL.iter().map(entry).collect();
    assert!(HEADER.contains(&format!("    TRUNK_DONE = 0{entries}\n}};")));
}

/// The whole table, so that neither side has a sentence more.
#[test]
fn the_header_has_the_same_sentences() {
    let row = |refusal: &Refusal| format!("        /* {:2} */ \"{refusal}\",\n", refusal.number());
    let rows: String = Refusal::ALL.iter().map(row).collect();
    let table = format!("texts[] = {{\n        /*  0 */ \"done\",\n{rows}    }};\n");
    assert!(HEADER.contains(&table), "{table}");
}

#[test]
fn refusals_have_their_numbers() {
    for &refusal in Refusal::ALL {
        assert_eq!(Refusal::from_number(refusal.number()), Some(refusal));
    }
    let beyond = Refusal::ALL.len() as u64 + 1;
    for number in [0, beyond, 256 + 1, (1 << 32) + 1, u64::MAX] {
        assert_eq!(Refusal::from_number(number), None);
    }
}

#[test]
fn a_refusal_is_told_in_words() {
    let full = Refused {
        refusal: Refusal::Full,
        place: 3,
    };
    let line = "refusal 12, place 3: more labels are needed than fit; the place is how many fit";
    assert_eq!(full.to_string(), line);
    let error: Box<dyn std::error::Error> = full.into();
    assert_eq!(error.to_string(), line);
}

#[test]
fn a_number_that_is_not_known_is_told_with_the_versions() {
    let beyond = Refusal::ALL.len() as u64 + 1;
    let panic = std::panic::catch_unwind(|| refusal_of(beyond)).unwrap_err();
    let line = format!(
        "refusal {beyond} of the library, version {}, is not known to the package, version {VERSION}",
        version()
    );
    assert_eq!(panic.downcast_ref(), Some(&line));
}
