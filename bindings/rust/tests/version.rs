//! The package has the version and the sizes of the C header.

use korehyumo::{Event, ANSWER_BYTES, MOST_ANSWERS, MOST_EVENTS, MOST_PAIRS};

/// The header of the C interface.
const HEADER: &str = include_str!("../../../include/korehyumo.h");

/// What the header defines a name as.
fn defined(name: &str) -> Option<&'static str> {
    let define = format!("#define KOREHYUMO_{name} ");
    HEADER.lines().find_map(|line| line.strip_prefix(&define))
}

#[test]
fn is_the_headers() {
    assert_eq!(
        defined("VERSION"),
        Some(concat!("\"", env!("CARGO_PKG_VERSION"), "\""))
    );
}

#[test]
fn sizes_are_the_headers() {
    for (name, size) in [
        ("EVENT_BYTES", Event::BYTES),
        ("MOST_EVENTS", MOST_EVENTS),
        ("MOST_PAIRS", MOST_PAIRS),
        ("ANSWER_BYTES", ANSWER_BYTES),
        ("MOST_ANSWERS", MOST_ANSWERS),
    ] {
        assert_eq!(defined(name), Some(&size.to_string()[..]), "{name}");
    }
}
