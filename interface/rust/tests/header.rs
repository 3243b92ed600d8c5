//! The C header gives every name the number that the wrapper gives it.

use std::collections::BTreeMap;
use twin1750::{layout, Refusal};

/// The numbers of the header, by the names after `TWIN1750_`.
fn header() -> BTreeMap<String, u32> {
    let path = concat!(env!("CARGO_MANIFEST_DIR"), "/../twin1750.h");
    let text = std::fs::read_to_string(path).expect("the header");
    let mut numbers = BTreeMap::new();
    for line in text.lines() {
        let words: Vec<&str> = line.trim_start_matches("#define").split_whitespace().collect();
        let (name, number) = match words[..] {
            [name, "=", number, ..] | [name, number] => (name, number.trim_end_matches(',')),
            _ => continue,
        };
        if let (Some(name), Ok(number)) = (name.strip_prefix("TWIN1750_"), number.parse()) {
            assert_eq!(numbers.insert(name.to_string(), number), None, "{name} stands twice");
        }
    }
    numbers
}

/// The name of a refusal in the header: capital, a stroke between its words.
fn refused(refusal: Refusal) -> String {
    let mut name = String::from("REFUSED");
    for letter in format!("{refusal:?}").chars() {
        if letter.is_uppercase() {
            name.push('_');
        }
        name.push(letter.to_ascii_uppercase());
    }
    name
}

#[test]
fn numbers_of_the_header() {
    let words = [
        ("STATE", layout::STATE_WORDS),
        ("PAGES", 512),
        ("PORTS", 1024),
        ("DURATIONS", layout::DURATIONS),
        ("LINE", layout::LINE_BYTES),
        ("IC", layout::IC),
        ("SW", layout::SW),
        ("MK", layout::MK),
        ("PI", layout::PI),
        ("FT", layout::FT),
        ("MARKS", layout::MARKS),
        ("TIMER_A", layout::TIMER_A),
        ("TIMER_B", layout::TIMER_B),
        ("REMAINDER_A", layout::REMAINDER_A),
        ("REMAINDER_B", layout::REMAINDER_B),
        ("MFS", layout::MFS),
        ("COUNTER_HIGH", layout::COUNTER_HIGH),
        ("COUNTER_LOW", layout::COUNTER_LOW),
    ];
    let marks = [
        ("ENABLED", layout::ENABLED),
        ("HOLD", layout::HOLD),
        ("A_RUNS", layout::A_RUNS),
        ("B_RUNS", layout::B_RUNS),
    ];
    let mut numbers: BTreeMap<String, u32> = Refusal::ALL.map(|r| (refused(r), r.number())).into();
    numbers.extend(words.map(|(name, word)| (name.to_string(), word as u32)));
    numbers.extend(marks.map(|(name, mark)| (name.to_string(), u32::from(mark))));
    numbers.extend([("VERSION".to_string(), layout::VERSION), ("DONE".to_string(), 0)]);
    assert_eq!(header(), numbers);
}
