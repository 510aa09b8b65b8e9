//! Tests of what the cases of each call are, and of how its answers are counted and shown.

use crate::calls::all::{call, CALLS};
use crate::calls::{answers, capture, event, sheet, trace};
use crate::cases::kinds::{Case, Cases};
use crate::cases::lines::Form;
use crate::cases::sheet_pairs::SMALL_PIECE;
use crate::cases::text::fields_of;
use crate::cases::wire::{event_record, handed_over, lent_in, question_in, question_record, trace_case, trace_rooms};
use crate::definition;
use crate::definition::answers::{list, list_in_words, question_in_words};
use crate::definition::codes::{byte, DERR, EXPLAINED};
use crate::definition::event::{alone, has_a_step};
use crate::definition::sheet::{each_event, lines, CRLF};
use crate::definition::trace::{event_of, judge, Lent};
use crate::definition::values::Definition;
use crate::running::arrival::Arrival;
use crate::running::call::{Answer, Call, Feeding};
use crate::running::report::{difference, Outcome};
use std::collections::BTreeSet;
use std::fs;
use std::path::{Path, PathBuf};

/// What the cases of a kind come to: columns, each with how many cases have it at least, in so many of a hundred.
#[rustfmt::skip]
const MIX: &[(&str, &str, &[(&str, u64)])] = &[
    ("event", "combinations", &[("accepted", 100)]),
    ("event", "tags and TagOps", &[("accepted", 100), ("with a step", 5)]),
    ("event", "DERR on its forward", &[("accepted", 100), ("with a step", 0)]),
    ("event", "DERR on any forward", &[("accepted", 100)]),
    ("event", "both error fields", &[("accepted", 100)]),
    ("event", "single-byte sweeps", &[("with a step", 0), ("refused 4", 80), ("refused 5", 6)]),
    ("event", "both forward codes", &[("accepted", 100), ("with a step", 1)]),
    ("event", "mutated", &[("accepted", 100), ("with a step", 30)]),
    ("event", "outside range", &[("refused 4", 100)]),
    ("event", "other requests", &[("refused 4", 20), ("refused 5", 70)]),
    ("event", "at the limits", &[("accepted", 40), ("refused 4", 40)]),
    ("event", "lengths 0 to 40", &[("refused 1", 95), ("with a step", 1)]),
    ("event", "near a row", &[("accepted", 100), ("with a step", 0)]),
    ("trace", "every set", &[("accepted", 100), ("by histories", 100), ("lost", 15), ("discarded", 3)]),
    ("trace", "every forward error", &[("accepted", 100), ("by histories", 100), ("explained", 20), ("Requester", 3), ("Home", 2)]),
    ("trace", "many lengths", &[("refused 1", 100)]),
    ("trace", "other event lengths", &[("refused 1", 100)]),
    ("trace", "at the limits", &[("accepted", 40), ("refused 1", 35), ("refused 2", 5), ("refused 3", 5), ("refused 4", 2)]),
    ("trace", "up to 64 events", &[("accepted", 100), ("explained", 1_900), ("unexplained", 60), ("lost", 20), ("discarded", 10)]),
    ("trace", "up to 4 events", &[("accepted", 100), ("by histories", 100), ("unexplained", 15), ("Requester", 5), ("discarded", 4)]),
    ("trace", "bad sets", &[("refused 2", 100)]),
    ("trace", "bad pair numbers", &[("refused 3", 100)]),
    ("trace", "bad bytes", &[("refused 4", 100)]),
    ("trace", "bad requests", &[("refused 5", 100)]),
    ("trace", "several damages", &[("refused 1", 15), ("refused 2", 7), ("refused 3", 30), ("refused 4", 12), ("refused 5", 5)]),
    ("trace", "bad lengths", &[("refused 1", 100)]),
    ("trace", "anything", &[("accepted", 15), ("refused 1", 5), ("refused 2", 5), ("refused 3", 30), ("refused 4", 8)]),
    ("trace", "high pair numbers", &[("accepted", 20), ("refused 3", 40), ("refused 4", 20), ("refused 5", 10), ("explained", 80)]),
    ("trace", "bad sets far back", &[("refused 1", 30), ("refused 2", 60)]),
    ("trace", "too many pairs", &[("refused 1", 100)]),
    ("trace", "pairs alike in part", &[("accepted", 100), ("by histories", 30), ("explained", 6_000), ("unexplained", 20), ("Home", 50)]),
    ("trace", "large tables", &[("accepted", 30), ("refused 1", 2), ("refused 2", 5), ("refused 3", 5), ("explained", 500)]),
    ("sheet", "known names", &[("accepted", 100), ("explained", 900), ("unexplained", 10_000), ("discarded", 7)]),
    ("sheet", "from one state", &[("accepted", 100), ("explained", 30_000), ("unexplained", 30_000), ("Home", 100), ("Requester", 100)]),
    ("sheet", "names not known", &[("accepted", 1), ("refused 8", 95)]),
    ("sheet", "each byte value", &[("accepted", 0), ("refused 8", 98)]),
    ("sheet", "pair fields", &[("accepted", 14), ("refused 3", 4), ("refused 7", 8), ("refused 8", 65)]),
    ("sheet", "pairs after others", &[("accepted", 28), ("refused 3", 10), ("refused 8", 50), ("explained", 800), ("unexplained", 50)]),
    ("sheet", "pairs cut by reads", &[("accepted", 50), ("refused 8", 50), ("explained", 500), ("unexplained", 50)]),
    ("sheet", "forward and fwdErr", &[("accepted", 5), ("refused 3", 3), ("refused 7", 5), ("refused 8", 70), ("unexplained", 5)]),
    ("sheet", "other columns", &[("refused 6", 45), ("refused 8", 45)]),
    ("sheet", "ends of lines", &[("accepted", 0), ("refused 6", 6), ("refused 8", 90)]),
    ("sheet", "first and last", &[("accepted", 1), ("refused 6", 35), ("refused 8", 55)]),
    ("sheet", "headers", &[("refused 6", 98), ("refused 8", 0)]),
    ("sheet", "refusals", &[("refused 3", 20), ("refused 7", 20), ("refused 8", 45)]),
    ("sheet", "line lengths", &[("refused 6", 10), ("refused 7", 50), ("refused 8", 30)]),
    ("sheet", "borders of reads", &[("accepted", 45), ("refused 7", 15), ("refused 8", 30), ("lost", 1_000)]),
    ("sheet", "many pairs", &[("accepted", 100), ("unexplained", 1_000), ("not judged", 1_000), ("Requester", 1_000),
        ("discarded", 1_000)]),
    ("sheet", "drawn", &[("accepted", 100), ("explained", 3_000), ("unexplained", 50), ("not judged", 300), ("lost", 90),
        ("discarded", 50)]),
    ("sheet", "drawn, damaged", &[("accepted", 2), ("refused 3", 1), ("refused 6", 8), ("refused 7", 3), ("refused 8", 60)]),
    ("sheet", "anything", &[("accepted", 5), ("refused 6", 20), ("refused 8", 20)]),
    ("sheet", "cut at every byte", &[("accepted", 100), ("explained", 1_000), ("unexplained", 500), ("Home", 200), ("Requester", 100)]),
    ("sheet", "cut twice", &[("accepted", 100), ("explained", 300), ("unexplained", 300)]),
    ("sheet", "even pieces", &[("accepted", 100), ("explained", 1_500), ("Home", 200), ("Requester", 200)]),
    ("sheet", "ends in lines", &[("accepted", 1), ("refused 8", 95), ("explained", 200), ("unexplained", 200)]),
    ("sheet", "damaged bytes", &[("accepted", 1), ("refused 3", 0), ("refused 7", 0), ("refused 8", 95)]),
    ("sheet", "damaged fields", &[("accepted", 6), ("refused 7", 0), ("refused 8", 90)]),
    ("sheet", "damaged names", &[("accepted", 1), ("refused 8", 95)]),
    ("sheet", "byte values", &[("accepted", 4), ("refused 3", 1), ("refused 8", 90)]),
    ("sheet", "a million drawn", &[("accepted", 50), ("refused 7", 50), ("explained", 80_000_000), ("unexplained", 500_000),
        ("not judged", 5_000_000), ("Home", 500_000), ("Requester", 500_000), ("lost", 500_000), ("discarded", 200_000)]),
    ("sheet", "every pair", &[("accepted", 100), ("explained", 5_000_000), ("unexplained", 2_000_000), ("Home", 2_000_000)]),
    ("capture", "pair numbers", &[("accepted", 100), ("unexplained", 100_000), ("Home", 100_000), ("not judged", 100)]),
    ("capture", "pairs alike in part", &[("accepted", 100), ("explained", 100_000), ("unexplained", 50), ("Home", 100)]),
    ("capture", "marks", &[("refused 1", 80), ("refused 4", 1), ("cut", 5), ("accepted", 0)]),
    ("capture", "both error fields", &[("accepted", 100), ("explained", 5_000), ("unexplained", 50_000), ("Requester", 500)]),
    ("capture", "refusals", &[("refused 4", 40), ("refused 5", 45), ("explained", 1_000)]),
    ("capture", "cut records", &[("cut", 90), ("explained", 1_000)]),
    ("capture", "drawn", &[("accepted", 100), ("explained", 1_000), ("discarded", 10)]),
    ("capture", "drawn, damaged", &[("refused 4", 30), ("refused 5", 30), ("explained", 1_000)]),
    ("capture", "drawn, cut", &[("cut", 70), ("explained", 1_000)]),
    ("answers", "every question", &[("accepted", 60), ("refused 9", 35), ("answers", 300), ("empty", 20)]),
    ("answers", "each byte value", &[("refused 4", 80), ("refused 5", 15), ("accepted", 0), ("refused 9", 0)]),
    ("answers", "several outside", &[("refused 4", 95), ("refused 5", 1), ("accepted", 0), ("refused 9", 0)]),
    ("answers", "each length of room", &[("accepted", 60), ("refused 9", 29), ("empty", 25)]),
    ("answers", "drawn", &[("accepted", 70), ("refused 9", 20), ("answers", 340)]),
    ("answers", "drawn, damaged", &[("refused 4", 70), ("refused 5", 20)]),
    ("answers", "anything", &[("accepted", 50), ("refused 4", 30), ("refused 5", 3), ("refused 9", 2)]),
];

/// The cases of a call with fewer random ones than are usual, where these are many.
fn few(call: &Call, seed: u64) -> Cases {
    (call.cases)(&Definition::now(), seed, call.random.min(160_000))
}

/// The cases of a kind come to what they are made for, and what is counted has a column.
#[test]
fn mix() {
    for call in CALLS {
        let cases = few(call, 1);
        let mut counted = BTreeSet::new();
        for (_, kind, columns) in MIX.iter().filter(|(name, _, _)| *name == call.name) {
            let mut outcome = Outcome::default();
            for case in cases.of_kind(kind).take(3_000) {
                let right = (call.right)(&cases.definition, &case.input);
                counted.extend(right.counts.iter().filter(|(_, number)| *number > 0).map(|(name, _)| *name));
                outcome.count(0, &right, false);
            }
            let all = outcome.all();
            for (column, share) in columns.iter() {
                let number = all.of(column);
                assert!(number * 100 >= share * all.compared && number > 0, "{kind}: {number} {column}");
            }
        }
        // The column of 3 is for captures of before Q-6.
        let of_now = |column: &&str| (call.name, *column) != ("capture", "refused 3");
        assert_eq!(counted, call.columns.concat().into_iter().filter(of_now).collect());
    }
}

/// The requests that are judged since Q-4.
const REQUESTS: [u8; 10] = [1, 2, 4, 7, 9, 10, 18, 20, 21, 22];

/// The requests and duties of the explained events of a trace, a sheet or a capture.
fn requests_and_duties(definition: &Definition, call: &str, input: &[u8]) -> Vec<(u8, u8)> {
    let mut requests = Vec::new();
    let told: Vec<(u8, u8)> = match call {
        "trace" => {
            let judged = judge(definition, &lent_in(input));
            let events = 0..if judged.refusal == 0 { judged.place } else { 0 };
            requests.extend(events.clone().map(|n| event_of(definition, &judged.lent, n)[byte::REQUEST]));
            events.map(|n| (judged.lent.verdicts[n], judged.lent.duties[n])).collect()
        }
        "sheet" => {
            each_event(definition, &lines(input), |_, event| requests.push(event[byte::REQUEST]));
            definition::sheet::answer(definition, input).told
        }
        _ => {
            let record = definition::capture::record_bytes(definition);
            let records = definition::capture::records_in(definition, input).unwrap();
            requests.extend(records.chunks_exact(record).map(|record| record[2 + byte::REQUEST]));
            definition::capture::answer(definition, input).told
        }
    };
    let explained = requests.into_iter().zip(told).filter(|(_, (verdict, _))| *verdict == EXPLAINED);
    explained.map(|(request, (_, duty))| (request, duty)).collect()
}

/// Traces, sheets and captures mix all requests, and every duty that a request can have comes up for it.
#[test]
fn all_requests_come_up() {
    let home = REQUESTS.iter().filter(|request| **request != 10).map(|request| (*request, 1));
    let none_and_lost = REQUESTS.iter().flat_map(|request| [(*request, 0), (*request, 3)]);
    let expected: BTreeSet<(u8, u8)> = none_and_lost.chain(home).chain([(18, 2), (20, 2), (22, 2), (10, 4)]).collect();
    for (name, kind) in [
        ("trace", "up to 64 events"),
        ("trace", "up to 4 events"),
        ("sheet", "many pairs"),
        ("sheet", "drawn"),
        ("capture", "whole parts"),
        ("capture", "long"),
    ] {
        let cases = few(call(name).unwrap(), 1);
        let came = cases.of_kind(kind).take(3_000).flat_map(|case| requests_and_duties(&cases.definition, name, &case.input));
        assert_eq!(came.collect::<BTreeSet<(u8, u8)>>(), expected, "{name}, {kind}");
    }
    let (events, questions) = (few(&event::CALL, 1), few(&answers::CALL, 1));
    for kind in ["combinations", "tags and TagOps", "single-byte sweeps", "mutated", "lengths 0 to 40", "near a row"] {
        let some = events.of_kind(kind).step_by(if kind == "combinations" { 97 } else { 1 });
        let stepped = some.filter(|case| has_a_step(&events.definition, handed_over(&case.input)));
        let came: BTreeSet<u8> = stepped.map(|case| case.input[1]).filter(|request| REQUESTS.contains(request)).collect();
        assert_eq!(came, REQUESTS.into(), "{kind}");
    }
    for kind in ["every question", "each length of room", "drawn"] {
        let came: BTreeSet<u8> = questions.of_kind(kind).map(|case| case.input[0]).collect();
        assert_eq!(came, REQUESTS.into(), "{kind}");
    }
}

/// Requests just outside the ten come up as refusals of single events, traces, captures and questions.
#[test]
fn requests_outside_come_up() {
    let outside = [0, 3, 5, 6, 8, 11, 17, 19, 23, 39, 41, 42];
    for (name, kinds) in [
        ("event", &["single-byte sweeps", "other requests"][..]),
        ("trace", &["each byte value", "bad requests"]),
        ("capture", &["refusals"]),
        ("answers", &["each byte value", "drawn, damaged"]),
    ] {
        let cases = few(call(name).unwrap(), 1);
        let definition = &cases.definition;
        let refused = |case: Case| match name {
            "event" => (alone(definition, handed_over(&case.input)).refusal == 5).then(|| case.input[1]),
            "answers" => (list(definition, question_in(&case.input).0, &[]).refusal == 5).then(|| case.input[0]),
            "trace" => {
                let lent = lent_in(&case.input);
                let (refusal, place) = definition::trace::refused(definition, &lent);
                (refusal == 5).then(|| event_of(definition, &lent, place)[byte::REQUEST])
            }
            _ => match definition::capture::answer(definition, &case.input).stop {
                Some((5, event)) => {
                    let record = definition.capture_mark.len() + event * definition::capture::record_bytes(definition);
                    Some(case.input[record + 2])
                }
                _ => None,
            },
        };
        for kind in kinds {
            let came: BTreeSet<u8> = cases.of_kind(kind).filter_map(refused).collect();
            let missing: Vec<&u8> = outside.iter().filter(|request| !came.contains(request)).collect();
            assert!(missing.is_empty() && REQUESTS.iter().all(|request| !came.contains(request)), "{name}, {kind}: {missing:?}");
        }
    }
}

/// A case asked for twice is the same, and another seed draws others.
#[test]
fn cases_are_repeatable() {
    for call in CALLS {
        let (one, two) = (few(call, 1), few(call, 2));
        assert_eq!(one.total(), two.total());
        let anything = one.kinds.iter().position(|kind| call.name == "sheet" && kind.name == "anything");
        let drawn = anything.unwrap_or(one.kinds.len() - 1);
        let first = one.first(drawn);
        let others = (first..first + 10).filter(|number| one.case(*number).input != two.case(*number).input);
        assert!(others.count() > 5, "{}", call.name);
        assert!((0..first).step_by(1_009).all(|number| one.case(number) == one.case(number)));
    }
}

/// The kinds whose cases go through all values do, and every case of a trace fits into its rooms.
#[test]
fn sweeps_are_whole() {
    let (events, traces) = (few(&event::CALL, 1), few(&trace::CALL, 1));
    let combinations: BTreeSet<Vec<u8>> = events.of_kind("combinations").step_by(10).map(|case| case.input).collect();
    assert_eq!((events.kinds[0].count, combinations.len()), (4_505_600, 450_560));
    let values: BTreeSet<(usize, u8)> =
        events.of_kind("single-byte sweeps").take(3_840).enumerate().map(|(n, case)| (n / 256, case.input[1 + n / 256])).collect();
    assert_eq!(values.len(), 15 * 256);
    let lengths: BTreeSet<u8> = events.of_kind("lengths 0 to 40").take(41).map(|case| case.input[0]).collect();
    assert_eq!(lengths, (0..=40).collect());
    let rooms = trace_rooms(&traces.definition);
    let large = traces.first(17)..traces.total();
    for case in (0..traces.first(8)).chain(large).map(|number| traces.case(number)) {
        let lent = lent_in(&case.input);
        let fits = |(n, part): (usize, &Vec<u8>)| part.len() <= rooms[n] * Lent::PARTS[n].1;
        assert!(lent.parts().into_iter().enumerate().all(fits));
    }
    let questions = few(&answers::CALL, 1);
    let asked: BTreeSet<Vec<u8>> = questions.of_kind("every question").map(|case| case.input[..6].to_vec()).collect();
    assert_eq!((questions.kinds[0].count, asked.len()), (12 * 1_680, 1_680));
    let values: BTreeSet<(usize, u8)> =
        questions.of_kind("each byte value").enumerate().map(|(n, case)| (n / 256 % 6, case.input[n / 256 % 6])).collect();
    assert_eq!(values.len(), 6 * 256);
    let lengths = questions.of_kind("each length of room").map(|case| question_in(&case.input).1.len());
    assert_eq!(lengths.collect::<BTreeSet<usize>>(), (0..=609).collect());
    assert!((0..questions.total()).step_by(7).all(|number| questions.case(number).input.len() == 648));
}

/// Single events go through both error fields together, with each request, response, TagOp and forward, and DERR on a response's own
/// forward through all that the columns name.
#[test]
fn error_fields_are_swept() {
    let events = few(&event::CALL, 1);
    let places = |event: &[u8], places: &[usize]| places.iter().map(|place| event[1 + place]).collect::<Vec<u8>>();
    let named = [0, 5, 6, 7, 8, 9, 10, 11, 12, 14];
    let came: BTreeSet<Vec<u8>> = events.of_kind("both error fields").map(|case| places(&case.input, &named)).collect();
    // Requests, responses, TagOps, RespErrs, forwards and errors of the forward.
    assert_eq!(came.len(), 10 * 22 * 4 * 4 * 5 * 4);
    for (kind, count) in [("DERR on its forward", 10 * 8 * 4 * 14 * 4 * 4 * 8), ("DERR on any forward", 10 * 8 * 4 * 22 * 4 * 4 * 4)] {
        let came: BTreeSet<Vec<u8>> = events.of_kind(kind).map(|case| handed_over(&case.input).to_vec()).collect();
        assert_eq!(came.len(), count, "{kind}");
        assert!(came.iter().all(|event| event[byte::FORWARDED] == 1 && event[byte::FWD_ERR] == DERR), "{kind}");
    }
    let near: BTreeSet<Vec<u8>> = events.of_kind("near a row").map(|case| places(&case.input, &[0, 1, 2, 3, 4, 11, 14])).collect();
    // For each request, flags and tags that are seen: each error with a forward and without.
    assert_eq!(near.len(), 10 * 8 * 3 * 2 * 4);
}

/// Each call has cases with DERR on forwarded data that is explained, and with other errors that are not.
#[test]
fn errors_come_up() {
    let mut expected: BTreeSet<(u8, u8, bool)> = (0..4).map(|error| (1, error, false)).collect();
    expected.extend([(0, 0, true), (0, 0, false), (0, 1, false), (0, 2, false), (0, 3, false), (1, 0, true), (1, 2, true)]);
    let definition = Definition::now();
    for (name, kinds) in [("trace", &["up to 64 events", "up to 4 events"][..]), ("capture", &["whole parts"]), ("sheet", &["known names"])]
    {
        for kind in kinds {
            let mut came = BTreeSet::new();
            for case in few(call(name).unwrap(), 1).of_kind(kind).take(3_000) {
                came.extend(forwards_and_errors(&definition, name, &case.input));
            }
            // On a sheet there is no error without a forward.
            let expected = expected.iter().filter(|(forward, error, _)| name != "sheet" || *forward == 1 || *error == 0).copied();
            assert_eq!(came, expected.collect(), "{name}, {kind}");
        }
    }
}

/// Whether each event of an accepted trace, sheet or capture forwards, the error byte that it has, and whether it is explained.
fn forwards_and_errors(definition: &Definition, call: &str, input: &[u8]) -> Vec<(u8, u8, bool)> {
    let mut events: Vec<Vec<u8>> = Vec::new();
    let told: Vec<(u8, u8)> = match call {
        "trace" => {
            let judged = judge(definition, &lent_in(input));
            events.extend((0..judged.place).map(|n| event_of(definition, &judged.lent, n).to_vec()));
            judged.lent.verdicts.into_iter().zip(judged.lent.duties).collect()
        }
        "sheet" => {
            each_event(definition, &lines(input), |_, event| events.push(event.to_vec()));
            definition::sheet::answer(definition, input).told
        }
        _ => {
            let records = definition::capture::records_in(definition, input).unwrap();
            events.extend(records.chunks_exact(definition::capture::record_bytes(definition)).map(|record| record[2..].to_vec()));
            definition::capture::answer(definition, input).told
        }
    };
    let judged = events.iter().zip(told).filter(|(_, (verdict, _))| *verdict <= 1);
    judged.map(|(event, (verdict, _))| (event[byte::FORWARDED], event[byte::FWD_ERR], verdict == EXPLAINED)).collect()
}

/// Every sheet is answered as before Q-6 up to the first line that Q-6 is about. There it was refused: with 8 if the number has five
/// digits, and with 3 if it has four.
#[test]
fn sheets_before_q6() {
    let [five, six] = [5, 6].map(|stage| Definition::at_stage(stage).unwrap());
    let (mut same, mut refused) = (0, [0; 2]);
    let sheets = few(&sheet::CALL, 1);
    for case in (0..sheets.total()).map(|number| sheets.case(number)) {
        let [before, now] = [&five, &six].map(|definition| definition::sheet::answer(definition, &case.input));
        let lines = lines(&case.input);
        // So many lines have a number that is a pair or is refused with 3.
        let numbered = match now.refusal {
            None => lines.len(),
            Some((3, line)) => line,
            Some((_, line)) => line - 1,
        };
        let pair = |n: usize| String::from_utf8_lossy(lines[n].split(|byte| *byte == b',').next().unwrap_or(&[])).to_string();
        let new = (1..numbered).find(|n| pair(*n).parse().is_ok_and(|pair: usize| pair >= five.most_pairs));
        let Some(n) = new else {
            assert!(before.output == now.output && before.refusal == now.refusal, "{}", case.how);
            same += usize::from(now.refusal.is_none());
            continue;
        };
        let digits = pair(n).len();
        let number = if digits == 5 { 8 } else { 3 };
        let answers = now.output.split_inclusive(|byte| *byte == b'\n').take(n).flatten().copied();
        let expected: Vec<u8> = answers.chain(format!("refused,{number},{}\r\n", n + 1).into_bytes()).collect();
        assert!((4..=5).contains(&digits) && before.output == expected, "{}", case.how);
        refused[digits - 4] += usize::from(now.refusal.is_none());
    }
    assert!(same > 400 && refused[0] > 100 && refused[1] > 200, "{same} {refused:?}");
}

/// Every trace is answered as before Q-6 if its table was no longer than it could be, and was refused with 1 if it was.
#[test]
fn traces_before_q6() {
    let [five, six] = [5, 6].map(|stage| Definition::at_stage(stage).unwrap());
    let traces = few(&trace::CALL, 1);
    let (mut same, mut refused) = (0, 0);
    // All that are about limits, and some others.
    let others = (0..traces.first(7)).chain(traces.first(8)..traces.first(17)).step_by(13);
    for number in others.chain(traces.first(7)..traces.first(8)).chain(traces.first(17)..traces.total()) {
        let lent = lent_in(&traces.case(number).input);
        let [before, now] = [&five, &six].map(|definition| judge(definition, &lent));
        if lent.table.len() <= five.most_pairs {
            assert_eq!(before, now, "case {number}");
            same += 1;
        } else {
            assert!((before.refusal, before.place) == (1, 0) && before.lent == lent, "case {number}");
            refused += usize::from(now.refusal == 0);
        }
    }
    assert!(same > 10_000 && refused > 150, "{same} {refused}");
}

/// Every capture is answered as before Q-6 up to the part with the first event of a pair that was none, where it was refused with 3;
/// since then none is.
#[test]
fn captures_before_q6() {
    let [five, six] = [5, 6].map(|stage| Definition::at_stage(stage).unwrap());
    let (record, part) = (definition::capture::record_bytes(&six), six.most_events);
    let captures = few(&capture::CALL, 1);
    let (mut same, mut refused) = (0, 0);
    for case in (0..captures.total()).map(|number| captures.case(number)) {
        let [before, now] = [&five, &six].map(|definition| definition::capture::answer(definition, &case.input));
        // So many events are looked at, of a part that is cut none.
        let looked_at = match now.stop {
            None => usize::MAX,
            Some((0, event)) => event - event % part,
            Some((1, _)) => 0,
            Some((3, _)) => panic!("{} is refused with 3", case.how),
            Some((_, event)) => event + 1,
        };
        let records = definition::capture::records_in(&six, &case.input).unwrap_or(&[]).chunks_exact(record);
        let mut pairs = records.map(|record| usize::from(u16::from_le_bytes([record[0], record[1]])));
        match pairs.position(|pair| pair >= five.most_pairs).filter(|event| *event < looked_at) {
            Some(event) => {
                let whole_parts = &case.input[..six.capture_mark.len() + (event - event % part) * record];
                let told = definition::capture::answer(&six, whole_parts).output;
                // The last line counts the events.
                let lines: Vec<&[u8]> = told.split_inclusive(|byte| *byte == b'\n').collect();
                let expected = (Some((3, event)), lines[..lines.len() - 1].concat());
                assert_eq!((before.stop, before.output), expected, "{}", case.how);
                refused += 1;
            }
            None => {
                assert_eq!((before.stop, before.output), (now.stop, now.output), "{}", case.how);
                same += 1;
            }
        }
    }
    assert!(same > 100 && refused > 100, "{same} {refused}");
}

/// Large tables come up in traces of each number of events, with high pair numbers that they just have and just lack, and with bad
/// sets at many places.
#[test]
fn large_tables_come_up() {
    let definition = Definition::now();
    let traces = few(&trace::CALL, 1);
    let (mut lengths, mut numbers, mut places) = (BTreeSet::new(), BTreeSet::new(), BTreeSet::new());
    for kind in ["at the limits", "high pair numbers", "bad sets far back"] {
        for lent in traces.of_kind(kind).map(|case| lent_in(&case.input)) {
            let events = lent.verdicts.len();
            let (refusal, place) = definition::trace::refused(&definition, &lent);
            lengths.insert((lent.table.len(), events, refusal == 0));
            match refusal {
                2 => drop(places.insert(place)),
                3 => drop(numbers.insert((lent.pair(place).unwrap(), lent.table.len(), false))),
                0 => numbers.extend((0..events).filter_map(|n| lent.pair(n)).map(|pair| (pair, lent.table.len(), true))),
                _ => {}
            }
        }
    }
    for (length, accepted) in [(65_535, true), (65_536, true), (65_537, false), (4_095, true), (4_096, true), (4_097, true)] {
        assert!([0, 1, 64, 4_096].iter().all(|events| lengths.contains(&(length, *events, accepted))), "{length}");
    }
    assert!([(4_095, true), (4_096, true), (4_097, false)]
        .iter()
        .all(|(events, accepted)| lengths.contains(&(65_536, *events, *accepted))));
    assert!([32_767, 32_768].iter().all(|length| lengths.contains(&(*length, 4_096, true))));
    for number in [0, 4_095, 4_096, 9_999, 32_767, 32_768, 65_534, 65_535] {
        assert!(numbers.contains(&(number, number, false)) && numbers.contains(&(number, number + 1, true)), "{number}");
    }
    assert!([0, 4_095, 4_096, 32_767, 32_768, 65_534, 65_535].iter().all(|place| places.contains(place)), "{places:?}");
}

/// There are sheets and a capture in which every pair comes twice, and captures of pairs that were none before Q-6.
#[test]
fn every_pair_comes_up() {
    let definition = Definition::now();
    let twice: Vec<usize> = (0..2 * definition.most_pairs).map(|n| n / 2).collect();
    for case in few(&sheet::CALL, 1).of_kind("every pair") {
        let mut pairs = Vec::new();
        each_event(&definition, &lines(&case.input), |pair, _| pairs.push(pair));
        pairs.sort_unstable();
        assert!(pairs == twice, "{}", case.how);
    }
    let (mut all, mut ends) = (0, BTreeSet::new());
    for case in few(&capture::CALL, 1).of_kind("pair numbers") {
        let records = definition::capture::records_in(&definition, &case.input).unwrap();
        let records = records.chunks_exact(definition::capture::record_bytes(&definition));
        let mut pairs: Vec<usize> = records.map(|record| usize::from(u16::from_le_bytes([record[0], record[1]]))).collect();
        ends.extend(pairs.last().copied());
        pairs.sort_unstable();
        all += usize::from(pairs == twice);
    }
    assert_eq!(all, 1);
    assert!([4_095, 4_096, 9_999, 10_000, 32_767, 32_768, 65_534, 65_535].iter().all(|pair| ends.contains(pair)), "{ends:?}");
}

/// Drawn sheets have pairs of all five lengths, damaged ones are refused for numbers of five digits and of six, and reads part a pair of
/// five digits at every place.
#[test]
fn pairs_of_five_digits_come_up() {
    let sheets = few(&sheet::CALL, 1);
    let Feeding::RunEach(arrivals) = sheet::CALL.feeding else { panic!("a run each") };
    let digits = |line: &[u8]| line.iter().take_while(|byte| byte.is_ascii_digit()).count();
    let mut drawn = BTreeSet::new();
    for case in sheets.of_kind("drawn") {
        drawn.extend(lines(&case.input)[1..].iter().map(|line| digits(line)));
    }
    assert_eq!(drawn, (1..=5).collect());
    let refused = sheets.of_kind("drawn, damaged").filter_map(|case| {
        let (number, line) = definition::sheet::answer(&sheets.definition, &case.input).refusal?;
        Some((number, digits(lines(&case.input)[line - 1])))
    });
    let refused: BTreeSet<(u8, usize)> = refused.collect();
    assert!([(3, 5), (8, 5), (8, 6)].iter().all(|both| refused.contains(both)), "{refused:?}");
    let mut parted = BTreeSet::new();
    for (n, case) in sheets.of_kind("pairs cut by reads").enumerate() {
        let number = sheets.first(case.kind) + n as u64;
        for arrival in arrivals(&sheets, number, &case, false).into_iter().filter(|way| *way == Arrival::Pieces(SMALL_PIECE)) {
            let mut read = 0;
            for piece in arrival.pieces(&case.input) {
                read += piece.len();
                let begun = case.input[..read].rsplit(|byte| *byte == b'\n').next().unwrap_or(&[]).len();
                let pair = digits(&case.input[read - begun..]);
                parted.extend((pair == 5 && begun <= 5).then_some(begun));
            }
        }
    }
    assert_eq!(parted, (0..=5).collect());
}

/// The place of a line's beginning in a sheet, by the line's number from 0 on.
fn place_of_line(sheet: &[u8], n: usize) -> usize {
    lines(sheet)[..n].iter().map(|line| line.len() + CRLF.len()).sum()
}

/// Sheets that are cut at every byte have every name of every column, and pairs of all lengths, in good lines with 300 bytes on both sides.
/// They are cut at every byte from the header's end on, and those that are cut twice at every byte behind the first cut.
#[test]
fn good_lines_are_cut_at_every_byte() {
    let sheets = few(&sheet::CALL, 1);
    let Feeding::RunEach(arrivals) = sheet::CALL.feeding else { panic!("a run each") };
    let form = Form::new(&sheets.definition);
    let mut came: BTreeSet<(usize, Vec<u8>)> = BTreeSet::new();
    let (mut digits, mut lengths) = (BTreeSet::new(), BTreeSet::new());
    for kind in ["cut at every byte", "cut twice"] {
        for case in sheets.of_kind(kind) {
            let all = lines(&case.input);
            for (n, line) in all.iter().enumerate().skip(1) {
                let begin = place_of_line(&case.input, n);
                if begin >= 300 && begin + line.len() + 300 <= case.input.len() {
                    let fields = fields_of(line);
                    digits.insert(fields[0].len());
                    lengths.insert(line.len());
                    came.extend(fields.into_iter().enumerate().skip(1));
                }
            }
            let cuts: Vec<(Option<usize>, usize)> = arrivals(&sheets, 0, &case, false)
                .into_iter()
                .map(|way| match way {
                    Arrival::Cut(place) => (None, place),
                    Arrival::CutTwice(first, second) => (Some(first), second),
                    other => panic!("{other:?} is no cut"),
                })
                .collect();
            let (first, header) = (cuts[0].0, sheets.definition.header.len());
            let begin = first.unwrap_or(header);
            assert_eq!(cuts, (begin..=case.input.len()).map(|place| (first, place)).collect::<Vec<_>>(), "{}", case.how);
            assert!((900..2_000).contains(&case.input.len()), "{} bytes", case.input.len());
            assert!(first.is_none_or(|first| first > header && first + 600 < case.input.len()));
        }
    }
    let columns = form.columns().into_iter().enumerate().skip(1);
    let names = columns.flat_map(|(n, column)| form.names(column).into_iter().map(move |name| (n, name.as_bytes().to_vec())));
    assert_eq!((came, digits), (names.collect(), (1..=5).collect()));
    let ends = [form.of_length(0), form.of_length(160)].map(|line| Some(line.len()));
    assert_eq!([lengths.first().copied(), lengths.last().copied()], ends);
}

/// Sheets of some 2,000 bytes arrive in pieces of each length up to 400, and others end at every byte of a line.
#[test]
fn pieces_and_ends_of_each_length() {
    let sheets = few(&sheet::CALL, 1);
    let Feeding::RunEach(arrivals) = sheet::CALL.feeding else { panic!("a run each") };
    for case in sheets.of_kind("even pieces") {
        assert!((1_900..2_400).contains(&case.input.len()), "{} bytes", case.input.len());
        assert_eq!(arrivals(&sheets, 0, &case, false), (1..=400).map(Arrival::Pieces).collect::<Vec<_>>());
    }
    let mut ends: BTreeSet<(usize, Option<usize>, bool)> = BTreeSet::new();
    for case in sheets.of_kind("ends in lines") {
        let all = lines(&case.input);
        // The lines before the last one are as long as it is as a whole.
        ends.insert((all[1].len(), all.get(6).map(|line| line.len()), case.input.ends_with(CRLF)));
        let pieces = arrivals(&sheets, 1, &case, false)[1].pieces(&case.input).into_iter().map(<[u8]>::len).collect::<Vec<_>>();
        let [two, five] = [2, 5].map(|n| place_of_line(&case.input, n)..place_of_line(&case.input, n) + all[n].len() + CRLF.len());
        assert!(two.contains(&pieces[0]) && five.contains(&(pieces[0] + pieces[1])), "{}", case.how);
    }
    let widths: BTreeSet<usize> = ends.iter().map(|(width, _, _)| *width).collect();
    assert_eq!(widths.len(), 5);
    let (least, most) = (widths.first().copied().unwrap_or(0), widths.last().copied().unwrap_or(0));
    assert!(least < 50 && most > 100 && widths.contains(&sheets.definition.header.len()), "{widths:?}");
    for width in widths {
        let with_crlf = (0..=width).map(Some).all(|end| ends.contains(&(width, end, true)));
        let without = (1..=width).map(Some).all(|end| ends.contains(&(width, end, false)));
        assert!(with_crlf && without && ends.contains(&(width, None, true)), "{width}");
    }
}

/// A damaged line has 300 bytes behind it, and each name of each column stands in some that is good.
#[test]
fn damaged_lines_have_many_bytes_behind() {
    let sheets = few(&sheet::CALL, 1);
    let form = Form::new(&sheets.definition);
    let mut good: BTreeSet<(usize, Vec<u8>)> = BTreeSet::new();
    for kind in ["damaged bytes", "damaged fields", "damaged names", "byte values"] {
        for case in sheets.of_kind(kind) {
            let all = lines(&case.input);
            let behind = place_of_line(&case.input, 2) + all[2].len().min(160) + 300;
            assert!(behind <= case.input.len(), "{}", case.how);
            if kind == "damaged names" && definition::sheet::answer(&sheets.definition, &case.input).refusal.is_none() {
                good.extend(fields_of(all[2]).into_iter().enumerate().skip(1));
            }
        }
    }
    let columns = form.columns().into_iter().enumerate().skip(1);
    let names = columns.flat_map(|(n, column)| form.names(column).into_iter().map(move |name| (n, name.as_bytes().to_vec())));
    assert_eq!(good, names.collect());
}

/// Sheets of a million drawn events have pairs of all lengths and many events of every name; one event more is refused with 7.
#[test]
fn a_million_drawn_events() {
    let sheets = few(&sheet::CALL, 1);
    let form = Form::new(&sheets.definition);
    let names: usize = form.columns().into_iter().skip(1).map(|column| form.names(column).len()).sum();
    for (n, case) in sheets.of_kind("a million drawn").enumerate() {
        let told = definition::sheet::answer(&sheets.definition, &case.input);
        assert_eq!((told.told.len(), told.refusal), (1_000_000, [None, Some((7, 1_000_002))][n]));
        let (mut digits, mut came) = (BTreeSet::new(), BTreeSet::new());
        for line in lines(&case.input)[1..].iter().step_by(7) {
            let fields: Vec<&[u8]> = line.split(|byte| *byte == b',').collect();
            digits.insert(fields[0].len());
            came.extend(fields.into_iter().enumerate().skip(1));
        }
        assert_eq!((digits, came.len()), ((1..=5).collect(), names));
    }
}

/// The path of a sample.
fn sample(name: &str) -> PathBuf {
    Path::new(env!("CARGO_MANIFEST_DIR")).join("../samples").join(name)
}

/// Every sample has the answer that stands beside it, and every capture is that of the sheet of its name.
#[test]
fn samples_have_their_answers() {
    let definition = Definition::now();
    let read = |name: &str| fs::read(sample(name)).unwrap_or_else(|_| panic!("there is a sample {name}"));
    let (mut sheets, mut captures) = (0, 0);
    for file in fs::read_dir(sample("")).unwrap() {
        let name = file.unwrap().file_name().into_string().unwrap();
        match name.split_once('.') {
            Some((_, "csv")) => {
                let told = definition::sheet::answer(&definition, &read(&name)).output;
                assert_eq!(told, read(&format!("answers/{name}")), "{name}");
                sheets += 1;
            }
            Some((stem, "capture")) => {
                let told = definition::capture::answer(&definition, &read(&name));
                assert_eq!((told.output, told.stop), (read(&format!("answers/{stem}.txt")), None), "{name}");
                let made = definition::capture::of_sheet(&definition, &read(&format!("{stem}.csv")));
                assert_eq!(made, (read(&name), None), "{name}");
                captures += 1;
            }
            _ => {}
        }
    }
    assert!(sheets >= 12 && captures >= 4, "{sheets} sheets and {captures} captures");
    let asked = String::from_utf8(read("questions.txt")).unwrap();
    let question = |line: &str| question_in_words(&definition, &line.split(' ').collect::<Vec<&str>>()).unwrap();
    let told: String = asked.lines().map(|line| list_in_words(&definition, &question(line))).collect();
    assert_eq!(told.into_bytes(), read("answers/questions.txt"));
}

/// The samples of single events, of a trace and of questions say what they are for.
#[test]
fn samples_in_one_run() {
    let definition = Definition::now();
    let told = |name: &str, file: &str| -> Vec<Vec<u8>> {
        let call = call(name).unwrap();
        let Feeding::OneRun(next) = call.feeding else { panic!("one run") };
        let (input, mut cases) = (fs::read(sample(file)).unwrap(), Vec::new());
        let mut rest = &input[..];
        while let Some(case) = next(&definition, &mut rest).unwrap() {
            cases.push((call.right)(&definition, &case).answer.output);
        }
        cases
    };
    // The notebook's entries a to n, each from the state before that it names.
    let before = [1, 5, 3, 3, 3, 3, 6, 6, 1, 1, 1, 3, 3, 1];
    let entries = told("event", "notebook.events");
    let sets: Vec<u8> = entries.iter().zip(before).map(|(output, before): (&Vec<u8>, usize)| output[2 + before]).collect();
    assert_eq!(sets, [33, 0, 64, 0, 33, 0, 33, 0, 1, 0, 32, 0, 1, 0]);
    assert!(entries.iter().all(|output| output[..2] == [0, 1]));
    assert_eq!(told("trace", "example.traces"), [[0, 4, 0, 0, 0, 0, 0, 0, 1, 2, 1, 0, 0, 0, 33, 33, 0, 0]]);
    let lists: Vec<(u8, u8)> = told("answers", "odd.questions").iter().map(|output| (output[0], output[4])).collect();
    assert_eq!(lists, [(0, 57), (9, 0), (0, 0), (0, 5), (4, 0), (5, 0)]);
}

/// Sheets that are to be run once take turns, but those about borders come out of a file; an empty capture arrives in every way.
#[test]
fn ways_to_arrive() {
    let (sheets, captures) = (few(&sheet::CALL, 1), few(&capture::CALL, 1));
    let Feeding::RunEach(arrivals) = sheet::CALL.feeding else { panic!("a run each") };
    let mut ways = BTreeSet::new();
    for number in (0..sheets.first(sheets.kinds.len() - 1)).step_by(3) {
        let case = sheets.case(number);
        let once = arrivals(&sheets, number, &case, true);
        assert!(once.len() == 1 && arrivals(&sheets, number, &case, false).contains(&once[0]));
        let borders = sheets.kinds[case.kind].name == "borders of reads";
        assert!(!borders || once == [Arrival::File], "{}", case.how);
        ways.insert((borders, once[0].counted()));
    }
    // Few sheets arrive in pieces of other lengths.
    assert!(ways.len() > 8, "{ways:?}");
    let Feeding::RunEach(arrivals) = capture::CALL.feeding else { panic!("a run each") };
    let empty = Case { kind: 0, how: String::new(), input: vec![] };
    assert_eq!(arrivals(&captures, 1, &empty, false).len(), 4);
}

/// A wrong answer is shown by the things in which it differs.
#[test]
fn differences_are_shown() {
    let definition = Definition::now();
    let event = [2, 0, 0, 0, 3, 0, 1, 1, 0, 0, 0, 0, 0, 7, 0];
    let mut lent = Lent { table: vec![127], ..Lent::default() };
    lent.push(0, &event, [9; 3]);
    let capture = [definition.capture_mark, &[0, 0], &event].concat();
    let line = "0,SnpClean,0,0,0,?,SnpResp_SC,Invalid,OK,-,?,-";
    let question = question_record(&[1, 0, 0, 0, 0, 0], 22, &[9; 640]);
    let cases = [
        ("event", event_record(15, &event), 12, "  duty from UD: compare has 0 none, program has 1 Home\n"),
        ("event", event_record(15, &event), 3, "  set from UC: compare has 33 {I SC}, program has 32 {SC}\n"),
        ("event", event_record(15, &event), 0, "  byte 14 error of the forwarded data: 0\n"),
        ("event", event_record(15, &event), 0, ", forward -, final ?, fwdErr -\n"),
        ("trace", trace_case(&lent), 6, "  verdicts at 0: compare has 0 explained, program has 1 unexplained\n"),
        ("trace", trace_case(&lent), 8, "  after-sets at 0: compare has 33 {I SC}, program has 32 {SC}\n"),
        ("sheet", format!("{}\r\n{line}", definition.header).into(), 27, "  line 2, to \"0,SnpClean,"),
        ("capture", capture, 9, "  line 1: compare has \"1 events: 1 explained"),
        ("answers", question.clone(), 3, "  place: compare has 0, program has 65536\n"),
        ("answers", question.clone(), 4, "  count: compare has 2, program has 3\n"),
        ("answers", question.clone(), 22, "  answer 1: compare has [0, 1, 0, 0, 0, 3, 0, 0, 0, 0] request SnpShared, "),
        ("answers", question.clone(), 28, "  room at 20: compare has 9, program has 8\n"),
        ("answers", question, 30, "  past the room at 22: compare has 9, program has 8\n"),
    ];
    for (name, input, place, text) in cases {
        let call = call(name).unwrap();
        let right = (call.right)(&definition, &input);
        let mut other = right.answer.clone();
        other.output[place] ^= 1;
        let shown = difference(call, &definition, &input, &right, &other);
        assert!(shown.contains(text), "{shown}");
        let other = Answer { complaint: b"no".to_vec(), status: 3, ..right.answer.clone() };
        let shown = difference(call, &definition, &input, &right, &other);
        assert_eq!(shown, "  the program ended with status 3, and not with 0\n  it complained \"no\", and not \"\"\n");
    }
}
