//! Tests of the runner, with a call that asks for a copy of two letters.

use crate::cases::kinds::{Cases, Kind};
use crate::definition::values::Definition;
use crate::running::arrival::Arrival;
use crate::running::call::{Answer, Call, Feeding, Right};
use crate::running::compare::compare;
use crate::running::report::{is_right, Outcome};
use std::ffi::OsString;
use std::sync::Arc;

/// The call, whose cases come one after another or in a run each.
fn copies(feeding: Feeding) -> Call {
    Call {
        name: "copy",
        things: "copies",
        columns: &[&["early", "late"]],
        summary: &["late"],
        random: 10,
        cases: |definition, seed, random| Cases {
            definition: definition.clone(),
            seed,
            kinds: vec![
                Kind::listed("few", vec![("first".into(), b"ab".to_vec()), ("last".into(), b"yz".to_vec())]),
                Kind::new("drawn", random, |_, draw, _| (String::new(), vec![draw.one_of(b"cdef"), draw.one_of(b"wxyz")])),
            ],
        },
        feeding,
        right: |_, input| {
            let counts = vec![(if input[0] < b'n' { "early" } else { "late" }, 1)];
            Right::output(input.to_vec(), counts)
        },
        given: |_, input| vec![format!("given {}", input.escape_ascii())],
        told: |_, _, output| output.iter().map(|byte| ("letter".to_string(), byte.to_string())).collect(),
    }
}

/// What came of a shell script that is asked for copies, its report, and whether all agree.
fn compared(feeding: Feeding, script: &str) -> (Outcome, String, bool) {
    let call = copies(feeding);
    let cases = Arc::new((call.cases)(&Definition::now(), 1, 10));
    let program = ["sh", "-c", script].map(OsString::from);
    let outcome = compare(&call, &cases, 0..cases.total(), false, &program);
    let (report, agree) = (outcome.report(&call, &cases), outcome.all_agree(&cases));
    (outcome, report, agree)
}

/// Cases one after another.
const ONE_RUN: Feeding = Feeding::OneRun(|_, _| Ok(None));
/// A run for each of two ways of each case.
const RUN_EACH: Feeding = Feeding::RunEach(|_, _, _, _| vec![Arrival::Pipe, Arrival::Pieces(1)]);

/// A right program agrees, and the report counts by kind and by column.
#[test]
fn right_programs() {
    for (feeding, runs, ways) in [(ONE_RUN, 1, "1 through a pipe"), (RUN_EACH, 24, "12 byte by byte, 12 through a pipe")] {
        let (outcome, report, agree) = compared(feeding, "exec cat");
        assert!(agree && outcome.failures.is_empty() && outcome.first.is_empty(), "{report}");
        assert!(report.contains("\nfew                         2       0            1            1\n"), "{report}");
        assert!(report.contains("\nall                        12       0           11            1\n"), "{report}");
        let last = format!("runs: {ways}\ncompare: 12 copies, 1 late, {runs} runs, 0 differ\n");
        assert!(report.ends_with(&last), "{report}");
    }
}

/// A program that differs is told, with the first cases in which it does.
#[test]
fn wrong_programs() {
    for feeding in [ONE_RUN, RUN_EACH] {
        let (outcome, report, agree) = compared(feeding, "exec tr b-x c-y");
        assert!(!agree && outcome.failures.is_empty());
        assert_eq!((outcome.all().differ, outcome.first.len()), (11, 3));
        let shown = "difference, case 0: few; first; 2 bytes through a pipe\n  given ab\n  letter: compare has 98, program has 99\n";
        assert!(report.contains(shown), "{report}");
        assert!(report.ends_with(" runs, 11 differ\n"), "{report}");
    }
}

/// Answers that are too few or too many, complaints and bad ends are told.
#[test]
fn failing_programs() {
    for (script, told) in [
        (
            "head -c 5; cat >/dev/null",
            "the answers end too early: 2 whole ones and 1 bytes came; the program ended with status 0 and said \"\"",
        ),
        ("cat; echo xyz", "the program wrote 4 bytes or more after its answers; the program ended with status 0 and said \"\""),
        ("cat; echo no >&2", "the program ended with status 0 and said \"no\\n\""),
        ("cat; exit 3", "the program ended with status 3 and said \"\""),
    ] {
        let (outcome, report, agree) = compared(ONE_RUN, script);
        assert!(!agree && outcome.failures == [told], "{report}");
        assert!(report.contains(&format!("failure: {told}\ncompare: failed, of 12 cases ")), "{report}");
    }
    let (outcome, report, _) = compared(RUN_EACH, "cat; echo no >&2; exit 3");
    assert_eq!((outcome.all().differ, outcome.failures.len()), (12, 0));
    assert!(report.contains("  the program ended with status 3, and not with 0\n  it complained \"no\\n\", and not \"\"\n"));
    let cases = Arc::new((copies(RUN_EACH).cases)(&Definition::now(), 1, 0));
    let outcome = compare(&copies(RUN_EACH), &cases, 0..2, true, &["/no/such/program".into()]);
    assert!(outcome.all().compared == 0 && outcome.failures[0].contains("the program cannot be started"));
}

/// An answer has to be what every way to find it has.
#[test]
fn other_ways() {
    let mut right = Right::output(vec![1], vec![]);
    let answer = right.answer.clone();
    assert!(is_right(&right, &answer));
    right.other_way = Some(("another way", vec![2]));
    assert!(!is_right(&right, &answer) && !is_right(&right, &Answer { output: vec![2], ..answer.clone() }));
    right.other_way = Some(("another way", vec![1]));
    assert!(is_right(&right, &answer));
}
