//! Tests of the definition: the notebook's entries, facts about the rows, and answers worked out by hand.

use crate::definition::answers::{all_questions, answers, list, list_in_words, question_in_words, Listed, BEFORE};
use crate::definition::codes::*;
use crate::definition::columns::columns;
use crate::definition::event::{alone, duty, has_a_step, Alone};
use crate::definition::histories::enumerate;
use crate::definition::rows::B4_46;
use crate::definition::sheet::{lines, Reader};
use crate::definition::steps::{permitted, step};
use crate::definition::tag_ops::TagColumn;
use crate::definition::trace::{judge, judge_event, Judged, Lent};
use crate::definition::values::Definition;
use crate::definition::{capture, sheet};
use std::collections::{BTreeMap, BTreeSet};

/// What is told of a line judged alone from a state: the states after and the duty.
fn from(definition: &Definition, before: &str, line: &str) -> (String, &'static str) {
    let (_, event) = Reader::new(definition).fields(line.as_bytes()).expect("a good line");
    let answer = alone(definition, &event);
    let before = usize::from(place_of(&STATES, before).expect("a state"));
    assert_eq!((answer.refusal, answer.place), (0, 1));
    (states_of(answer.sets[before]).join(" "), DUTIES[usize::from(answer.duties[before])])
}

/// A line of before Q-5 as a definition has it, with this error of its forward where there is a column for it.
fn line_at(definition: &Definition, line: &str, error: &str) -> String {
    match (definition.has_fwd_err(), line.contains(",CompData_")) {
        (false, _) => line.to_string(),
        (true, true) => format!("{line},{error}"),
        (true, false) => format!("{line},-"),
    }
}

/// The entries of the notebook, and two of the wrong readings, which stay true with Q-2, Q-4 and Q-5.
#[test]
#[rustfmt::skip]
fn notebook() {
    for (entry, before, line, states, duty) in [
        ("a", "UC", "0,SnpClean,0,0,0,Invalid,SnpResp_SC,Invalid,OK,-,?", "I SC", "none"),
        ("b", "SC", "0,SnpShared,1,0,0,Invalid,SnpResp_SC,Invalid,OK,-,?", "", "none"),
        ("c", "UD", "0,SnpShared,0,0,0,Invalid,SnpRespData_SD,Invalid,OK,-,?", "SD", "none"),
        ("d", "UD", "0,SnpShared,0,1,0,Invalid,SnpRespData_SD,Invalid,OK,-,?", "", "none"),
        ("e", "UD", "0,SnpCleanFwd,0,0,0,Invalid,SnpResp_SC_Fwded_SD_PD,Invalid,OK,CompData_SD_PD,?", "I SC", "Requester"),
        ("f", "UD", "0,SnpCleanFwd,0,0,0,Dirty,SnpResp_SC_Fwded_SD_PD,Invalid,OK,CompData_SD_PD,?", "", "none"),
        ("g", "SD", "0,SnpCleanFwd,0,0,0,Dirty,SnpRespData_SC_PD_Fwded_SC,Update,OK,CompData_SC,?", "I SC", "Home"),
        ("h", "SD", "0,SnpCleanFwd,0,0,0,Dirty,SnpRespData_SC_PD_Fwded_SC,Transfer,OK,CompData_SC,?", "", "none"),
        ("i", "UC", "0,SnpPreferUniqueFwd,0,0,0,Invalid,SnpResp_I_Fwded_UC,Invalid,OK,CompData_UC,?", "I", "none"),
        ("j", "UC", "0,SnpPreferUniqueFwd,0,0,1,Invalid,SnpResp_I_Fwded_UC,Invalid,OK,CompData_UC,?", "", "none"),
        ("k", "UC", "0,SnpPreferUniqueFwd,0,0,0,Invalid,SnpResp_SC_Fwded_SC,Invalid,OK,CompData_SC,?", "SC", "none"),
        ("l", "UD", "0,SnpShared,0,0,0,Invalid,SnpResp_I,Invalid,OK,-,?", "", "none"),
        ("m", "UD", "0,SnpShared,0,0,0,Invalid,SnpResp_I,Invalid,NDERR,-,?", "I", "lost"),
        ("n", "UC", "0,SnpClean,0,0,0,Dirty,SnpResp_I,Invalid,OK,-,?", "", "none"),
        ("data", "UD", "0,SnpCleanFwd,1,0,0,?,SnpRespData_SC_Fwded_SD_PD,Invalid,OK,CompData_SD_PD,?", "I SC", "Requester"),
        ("both", "SC", "0,SnpPreferUniqueFwd,0,0,1,?,SnpResp_SC_Fwded_SC,Invalid,OK,CompData_SC,?", "SC", "none"),
    ] {
        for stage in 0..=5 {
            let definition = Definition::at_stage(stage).unwrap();
            let told = from(&definition, before, &line_at(&definition, line, "OK"));
            assert_eq!(told, (states.to_string(), duty), "entry {entry} at stage {stage}");
        }
    }
}

/// All events of the codes that rows name, of any flags, tag state, TagOp and RespErr, the state after not seen and any byte behind
/// it 0.
fn events_of_rows(definition: &Definition) -> Vec<Vec<u8>> {
    let mut events = vec![vec![]];
    let below = |bound: u8| (0..bound).map(|value| vec![value]).collect::<Vec<_>>();
    let requests = definition.requests.iter().map(|(_, code)| vec![*code]).collect();
    let responses = definition.responses().iter().map(|response| response.bytes().to_vec()).collect();
    let forwards = definition.forwards().iter().map(|forward| vec![forward.present, forward.resp]).collect();
    for next in [requests, below(2), below(2), below(2), below(4), responses, below(4), below(4), forwards] {
        events = events.iter().flat_map(|event| next.iter().map(|next| [&event[..], next].concat())).collect();
    }
    let behind = vec![0; definition.event_bytes() - byte::AFTER - 1];
    events.iter().map(|event| [&event[..], &[STATE_NOT_SEEN], &behind].concat()).collect()
}

/// An event with every error of the forwarded data, where there is a byte for it.
fn with_each_error(definition: &Definition, event: &[u8]) -> Vec<Vec<u8>> {
    match definition.has_fwd_err() {
        true => (0..4).map(|error| changed(event, byte::FWD_ERR, error)).collect(),
        false => vec![event.to_vec()],
    }
}

/// Facts about the rows that others computed: see docs/DECISIONS.md for those that the judge rests on.
#[test]
fn facts() {
    facts_at(&Definition::base());
}

/// The facts about the rows stay with Q-2.
#[test]
fn facts_with_q2() {
    facts_at(&Definition::at_stage(2).unwrap());
}

/// The facts about the rows stay with Q-4, whose rows go from no other sets to no other sets.
#[test]
fn facts_with_q4() {
    facts_at(&Definition::at_stage(4).unwrap());
}

/// The facts about the rows stay with Q-5, and no fact hangs on the error of the forwarded data.
#[test]
fn facts_with_q5() {
    facts_at(&Definition::at_stage(5).unwrap());
}

/// Asserts the facts about the rows.
fn facts_at(definition: &Definition) {
    let mut seen = BTreeSet::new();
    for event in events_of_rows(definition).iter().flat_map(|event| with_each_error(definition, event)) {
        let Alone { sets, duties, .. } = alone(definition, &event);
        let with = |place: usize, value: u8| {
            let mut other = event.clone();
            other[place] = value;
            alone(definition, &other).sets
        };
        let all = match (event[byte::RESP], event[byte::REQUEST]) {
            (0 | 4, _) => 1,
            (3, _) => 64,
            (_, 22) => 32,
            _ => 33,
        };
        for n in (0..7).filter(|n| sets[*n] != 0) {
            assert_eq!(sets[n], all, "the set after follows from Resp");
            assert_eq!(duties[n] != 0, holds_dirty(1 << n) && !holds_dirty(all), "a duty goes with the dirt");
        }
        match (event[byte::TAG], event[byte::REQUEST]) {
            (0, 1) => assert!([2, 4, 21].iter().all(|request| with(byte::REQUEST, *request) == sets)),
            (0, 18) => assert_eq!(with(byte::REQUEST, 20), sets),
            (1, _) => assert_eq!(with(byte::TAG, 0), sets),
            (3, _) => {
                let (clean, dirty) = (with(byte::TAG, 1), with(byte::TAG, 2));
                assert!((0..7).all(|n| sets[n] == clean[n] | dirty[n] && (dirty[n] == 0 || n == 3 || n == 6)));
            }
            _ => {}
        }
        if sets != [0; 7] {
            assert!(event[byte::RESP_ERR] != 1 && event[byte::TAG_OP] != 3, "EXOK and Match fit no row");
            assert!(event.get(byte::FWD_ERR).is_none_or(|error| [0, 2 * event[byte::FORWARDED]].contains(error)), "{event:?}");
            for after in 0..=STATE_NOT_SEEN {
                let some = with(byte::AFTER, after);
                let before: u8 = (0..7).filter(|n| some[*n] != 0).map(|n| 1 << n).sum();
                let set = some.iter().fold(0, |union, set| union | set);
                assert!(after == STATE_NOT_SEEN || set == all & 1 << after);
                seen.extend((before != 0).then_some((before, set)));
            }
        }
    }
    assert_eq!(seen.len(), 15);
}

/// One event alone is refused for its length, then for a byte outside its range, then for its request, which Q-4 may have added.
#[test]
fn events_refused() {
    let good = [2, 0, 0, 0, 0, 0, 1, 1, 0, 0, 0, 0, 0, 7];
    let limits = [255, 1, 1, 1, 3, 1, 31, 7, 7, 3, 3, 1, 7, 7];
    events_refused_but(&Definition::base(), good, limits, &[1, 2, 4, 18, 20, 21, 22]);
    events_refused_but(&Definition::at_stage(3).unwrap(), good, limits, &[1, 2, 4, 18, 20, 21, 22]);
    events_refused_but(&Definition::at_stage(4).unwrap(), good, limits, &[1, 2, 4, 7, 9, 10, 18, 20, 21, 22]);
}

/// With Q-5 an event has 15 bytes, and the last one a range too.
#[test]
fn events_refused_with_q5() {
    let good = [2, 0, 0, 0, 0, 0, 1, 1, 0, 0, 0, 0, 0, 7, 0];
    let limits = [255, 1, 1, 1, 3, 1, 31, 7, 7, 3, 3, 1, 7, 7, 3];
    events_refused_but(&Definition::at_stage(5).unwrap(), good, limits, &[1, 2, 4, 7, 9, 10, 18, 20, 21, 22]);
}

/// Asserts what one event alone is refused for where a good one, the limits of its bytes and the requests that are judged are these.
fn events_refused_but<const BYTES: usize>(definition: &Definition, good: [u8; BYTES], limits: [u8; BYTES], requests: &[u8]) {
    let refused = |bytes: &[u8], refusal: u8| {
        let expected = Alone { refusal, ..Alone::default() };
        assert_eq!(alone(definition, bytes), expected, "{bytes:?}");
    };
    let lengths = (0..=2 * BYTES).filter(|length| *length != BYTES);
    lengths.for_each(|length| refused(&[good, good].concat()[..length], 1));
    refused(&[255; BYTES][1..], 1);
    for (n, limit) in limits.into_iter().enumerate().skip(1) {
        let mut bytes = good;
        bytes[n] = limit;
        assert_eq!(alone(definition, &bytes).refusal, 0);
        bytes[n] = limit + 1;
        for request in [2, 0, 7, 8, 9, 10] {
            bytes[0] = request;
            refused(&bytes, 4);
        }
    }
    for request in 0..=255 {
        let mut bytes = good;
        bytes[0] = request;
        match requests.contains(&request) {
            true => assert_eq!((alone(definition, &bytes).refusal, alone(definition, &bytes).place), (0, 1)),
            false => refused(&bytes, 5),
        }
    }
}

/// Asserts that a question in words has these answers in words, one after another.
fn listed(definition: &Definition, question: &str, answers: &str) {
    let words: Vec<&str> = question.split(' ').collect();
    let text = list_in_words(definition, &question_in_words(definition, &words).unwrap());
    let lines: Vec<&str> = text.lines().collect();
    let header = ["response,TagOp,RespErr,forward,final", "response,TagOp,RespErr,forward,final,fwdErr"];
    assert_eq!((lines[0], &lines[1..].join(" ")[..]), (header[usize::from(definition.has_fwd_err())], answers), "{question}");
    assert!(text.ends_with('\n'));
}

/// Answers of before Q-5 in words, with OK and with DERR on forwarded data.
fn with_errors(answers: &str) -> String {
    let errors = |answer: &str| if answer.contains(",CompData_") { vec!["OK", "DERR"] } else { vec!["-"] };
    let each = answers.split_whitespace().flat_map(|answer| errors(answer).into_iter().map(move |error| format!("{answer},{error}")));
    each.collect::<Vec<String>>().join(" ")
}

/// Lists worked out by hand, which Q-2 and Q-4 leave as they are, and to which Q-5 adds DERR on forwarded data.
#[test]
fn lists() {
    for (question, answers) in [
        ("SnpShared 0 0 0 Invalid I", "SnpResp_I,Invalid,OK,-,I SnpResp_I,Invalid,NDERR,-,I"),
        ("SnpPreferUnique 1 1 1 Clean UCE", "SnpResp_I,Invalid,OK,-,I SnpResp_I,Invalid,NDERR,-,I"),
        ("SnpPreferUniqueFwd 0 0 0 Clean UCE", "SnpResp_I,Invalid,OK,-,I SnpResp_I,Invalid,NDERR,-,I"),
        (
            "SnpClean 0 0 0 Invalid SC",
            "SnpResp_I,Invalid,OK,-,I SnpResp_I,Invalid,NDERR,-,I SnpResp_SC,Invalid,OK,-,I SnpResp_SC,Invalid,OK,-,SC",
        ),
        ("SnpClean 0 0 0 Dirty UC", ""),
        ("SnpShared 0 0 0 Dirty UDP", ""),
        ("SnpCleanFwd 0 0 0 Dirty UDP", ""),
        (
            "SnpCleanFwd 1 0 1 Clean UDP",
            "SnpResp_I,Invalid,NDERR,-,I SnpRespDataPtl_I_PD,Invalid,OK,-,I SnpRespDataPtl_I_PD,Invalid,DERR,-,I",
        ),
        (
            "SnpPreferUniqueFwd 0 0 0 Invalid UC",
            "SnpResp_I,Invalid,NDERR,-,I SnpResp_I_Fwded_UC,Invalid,OK,CompData_UC,I SnpResp_SC_Fwded_SC,Invalid,OK,CompData_SC,SC",
        ),
        ("SnpPreferUniqueFwd 0 0 1 Invalid UC", "SnpResp_I,Invalid,NDERR,-,I SnpResp_SC_Fwded_SC,Invalid,OK,CompData_SC,SC"),
        (
            "SnpPreferUniqueFwd 1 0 0 Dirty SD",
            "SnpResp_I,Invalid,NDERR,-,I SnpRespData_I_PD,Update,OK,-,I SnpRespData_I_PD,Update,DERR,-,I \
             SnpRespData_SD_Fwded_SC,Transfer,OK,CompData_SC,SD SnpRespData_SD_Fwded_SC,Transfer,DERR,CompData_SC,SD \
             SnpRespData_SC_PD_Fwded_SC,Update,OK,CompData_SC,SC SnpRespData_SC_PD_Fwded_SC,Update,DERR,CompData_SC,SC",
        ),
    ] {
        for stage in 1..=4 {
            listed(&Definition::at_stage(stage).unwrap(), question, answers);
        }
        listed(&Definition::at_stage(5).unwrap(), question, &with_errors(answers));
    }
}

/// Lists worked out by hand that are shorter with Q-2, and stay so with Q-4.
#[test]
fn lists_with_q2() {
    for (question, answers) in [
        (
            "SnpShared 0 0 0 Dirty SD",
            "SnpResp_I,Invalid,NDERR,-,I SnpRespData_SD,Transfer,OK,-,SD SnpRespData_SD,Transfer,DERR,-,SD \
             SnpRespData_I_PD,Update,OK,-,I SnpRespData_I_PD,Update,DERR,-,I SnpRespData_SC_PD,Update,OK,-,I \
             SnpRespData_SC_PD,Update,OK,-,SC SnpRespData_SC_PD,Update,DERR,-,I SnpRespData_SC_PD,Update,DERR,-,SC",
        ),
        (
            "SnpNotSharedDirty 1 1 0 Dirty UD",
            "SnpResp_I,Invalid,NDERR,-,I SnpRespData_I_PD,Update,OK,-,I SnpRespData_I_PD,Update,DERR,-,I \
             SnpRespData_SC_PD,Update,OK,-,I SnpRespData_SC_PD,Update,OK,-,SC SnpRespData_SC_PD,Update,DERR,-,I \
             SnpRespData_SC_PD,Update,DERR,-,SC",
        ),
        (
            "SnpPreferUnique 1 0 0 Clean UDP",
            "SnpResp_I,Invalid,NDERR,-,I SnpRespDataPtl_I_PD,Invalid,OK,-,I SnpRespDataPtl_I_PD,Invalid,DERR,-,I",
        ),
        (
            "SnpClean 1 0 1 Invalid SC",
            "SnpResp_I,Invalid,NDERR,-,I SnpRespData_I,Invalid,OK,-,I SnpRespData_I,Invalid,DERR,-,I \
             SnpRespData_I,Transfer,OK,-,I SnpRespData_I,Transfer,DERR,-,I SnpRespData_SC,Invalid,OK,-,I \
             SnpRespData_SC,Invalid,OK,-,SC SnpRespData_SC,Invalid,DERR,-,I SnpRespData_SC,Invalid,DERR,-,SC \
             SnpRespData_SC,Transfer,OK,-,I SnpRespData_SC,Transfer,OK,-,SC SnpRespData_SC,Transfer,DERR,-,I \
             SnpRespData_SC,Transfer,DERR,-,SC",
        ),
    ] {
        [2, 3, 4].iter().for_each(|stage| listed(&Definition::at_stage(*stage).unwrap(), question, answers));
        listed(&Definition::at_stage(5).unwrap(), question, &with_errors(answers));
    }
}

/// Every list has what the judgment of one event permits among all events of names, each answer once and in ascending order.
#[test]
fn lists_by_judgment() {
    for (stage, questions, longest) in [(1, 1_176, 29), (2, 1_176, 29), (4, 1_680, 29), (5, 1_680, 57)] {
        lists_by_judgment_of(&Definition::at_stage(stage).unwrap(), questions, longest);
    }
}

/// Asserts that every list has what the judgment of one event permits, that there are so many, and that the longest has so many
/// answers.
fn lists_by_judgment_of(definition: &Definition, questions: usize, longest: usize) {
    let mut lists: BTreeMap<Vec<u8>, BTreeSet<Vec<u8>>> = BTreeMap::new();
    let events = events_of_rows(definition);
    let seen = events.iter().filter(|event| event[byte::TAG] != TAG_NOT_SEEN);
    for event in seen.flat_map(|event| with_each_error(definition, event)) {
        for (before, set) in (0..).zip(alone(definition, &event).sets) {
            let list = lists.entry([&event[..BEFORE], &[before]].concat()).or_default();
            let after = (0..7).filter(|after| holds(set, *after));
            list.extend(after.map(|after| changed(&event, byte::AFTER, after)[BEFORE..].to_vec()));
        }
    }
    assert_eq!(all_questions(definition), lists.keys().cloned().collect::<Vec<_>>());
    assert_eq!((lists.len(), lists.values().map(BTreeSet::len).max()), (questions, Some(longest)));
    for (question, list) in lists {
        assert_eq!(answers(definition, &question), list.into_iter().collect::<Vec<_>>(), "{question:?}");
    }
}

/// A question is refused for a byte outside its range, then for its request, then for its room; else the list begins the room.
#[test]
fn lists_refused() {
    let definition = Definition::at_stage(1).unwrap();
    let good = [1, 0, 0, 0, 0, 0];
    let refused = |question: [u8; 6], room: &[u8], refusal: u8| {
        assert_eq!(list(&definition, &question, room), Listed { refusal, count: 0, room: room.to_vec() }, "{question:?}");
    };
    for (n, limit) in [1, 1, 1, 2, 6].into_iter().enumerate() {
        for request in [1, 3] {
            let mut question = good;
            (question[0], question[1 + n]) = (request, limit + 1);
            refused(question, &[], 4);
            refused(question, &[7; 300], 4);
            question[1 + n] = limit;
            let accepted = list(&definition, &question, &[7; 300]).refusal;
            assert_eq!(accepted, if request == 1 { 0 } else { 5 });
        }
    }
    refused([0, 0, 0, 0, 0, 0], &[], 5);
    (0..18).for_each(|length| refused(good, &vec![7; length], 9));
    for more in [0, 1, 100] {
        let own = list(&definition, &good, &vec![7; 18 + more]);
        let room = [&[0, 1, 0, 0, 0, 0, 0, 0, 0, 0, 1, 0, 0, 0, 3, 0, 0, 0], &vec![7; more][..]].concat();
        assert_eq!(own, Listed { refusal: 0, count: 2, room });
    }
    for room in [&[][..], &[7; 5]] {
        assert_eq!(list(&definition, &[1, 0, 0, 0, 2, 0], room), Listed { refusal: 0, count: 0, room: room.to_vec() });
    }
}

/// The answers with data of B4.46: the states before with RetToSrc 1, and what Q-2 lets each carry with Invalid tags, with Clean
/// ones, with Dirty ones, and with tags that were not seen.
#[rustfmt::skip]
const PLAIN_DATA: [(&str, &str, [&str; 4]); 6] = [
    ("SnpRespData_SC",      "UC SC", ["Invalid Transfer", "Invalid Transfer", "",         "Invalid Transfer"]),
    ("SnpRespData_I",       "UC SC", ["Invalid Transfer", "Invalid Transfer", "",         "Invalid Transfer"]),
    ("SnpRespData_SD",      "UD SD", ["Invalid Transfer", "Invalid Transfer", "Transfer", "Invalid Transfer"]),
    ("SnpRespData_SC_PD",   "UD SD", ["Invalid Transfer", "Invalid Transfer", "Update",   "Invalid Transfer Update"]),
    ("SnpRespData_I_PD",    "UD SD", ["Invalid Transfer", "Invalid Transfer", "Update",   "Invalid Transfer Update"]),
    ("SnpRespDataPtl_I_PD", "UDP",   ["Invalid",          "Invalid",          "",         "Invalid"]),
];

/// The TagOps with which an answer with data to a plain snoop is explained from a state, by the words of a sheet.
fn tag_ops_taken(definition: &Definition, before: &str, request: &str, tag: &str, answer: &str) -> String {
    let line = |tag_op: &str| format!("0,{request},1,0,0,{tag},{answer},{tag_op},OK,-,?");
    let is_taken = |tag_op: &&str| !from(definition, before, &line(tag_op)).0.is_empty();
    TAG_OPS.into_iter().filter(is_taken).collect::<Vec<&str>>().join(" ")
}

/// From the states that an answer is for all four plain snoops take the TagOps of the table by hand, and from others none.
#[test]
fn tag_ops_of_plain_data() {
    let definition = Definition::at_stage(2).unwrap();
    for request in ["SnpShared", "SnpClean", "SnpNotSharedDirty", "SnpPreferUnique"] {
        for (answer, states, tag_ops) in PLAIN_DATA {
            for (tag, tag_ops) in ["Invalid", "Clean", "Dirty", "?"].into_iter().zip(tag_ops) {
                for before in STATES {
                    let expected = if states.split(' ').any(|state| state == before) { tag_ops } else { "" };
                    let taken = tag_ops_taken(&definition, before, request, tag, answer);
                    assert_eq!(taken, expected, "{request} {answer} from {before} with {tag} tags");
                }
            }
        }
    }
}

/// Before Q-2 the same answers took any TagOp up to Update, with Dirty tags from UD and SD alone.
#[test]
fn tag_ops_of_plain_data_before_q2() {
    for definition in [0, 1].map(|stage| Definition::at_stage(stage).unwrap()) {
        for (answer, states, _) in PLAIN_DATA {
            for before in states.split(' ') {
                let taken = |tag: &str| tag_ops_taken(&definition, before, "SnpShared", tag, answer);
                let with_dirty = if states == "UD SD" { "Invalid Transfer Update" } else { "" };
                assert_eq!(["Invalid", "Clean", "?"].map(taken), ["Invalid Transfer Update"; 3], "{answer}");
                assert_eq!(taken("Dirty"), with_dirty, "{answer}");
            }
        }
    }
}

/// Q-2 permits nothing new, and of 1,440 events with data in answer to plain snoops it takes something away.
#[test]
fn q2_only_takes_away() {
    let [one, two] = [1, 2].map(|stage| Definition::at_stage(stage).unwrap());
    let mut other = 0;
    for event in events_of_rows(&one) {
        let (old, new) = (alone(&one, &event), alone(&two, &event));
        assert_eq!((old.refusal, old.place), (new.refusal, new.place));
        for before in 0..7 {
            assert_eq!(new.sets[before] & !old.sets[before], 0, "{event:?}");
            assert!(new.sets[before] == 0 || new.duties[before] == old.duties[before], "{event:?}");
        }
        if old != new {
            assert!([1, 2, 4, 21].contains(&event[byte::REQUEST]) && event[byte::CHANNEL] == DAT, "{event:?}");
            other += 1;
        }
    }
    // For 4 snoops, 2 RespErrs and 2 values of excl: so many tags and TagOps for so many flags, an answer of the table each.
    assert_eq!(other, 4 * 2 * 2 * (3 * 4 + 3 * 4 + 5 * 2 + 4 * 4 + 4 * 4 + 6 * 4));
}

/// Every list of Q-1 keeps with Q-2 all answers but some with data to plain snoops, and gets none.
#[test]
fn q2_only_shortens_lists() {
    let [one, two] = [1, 2].map(|stage| Definition::at_stage(stage).unwrap());
    for question in all_questions(&one) {
        let (old, new) = (answers(&one, &question), answers(&two, &question));
        assert!(new.iter().all(|answer| old.contains(answer)), "{question:?}");
        let mut gone = old.iter().filter(|answer| !new.contains(answer));
        assert!(gone.all(|answer| [1, 2, 4, 21].contains(&question[byte::REQUEST]) && answer[0] == DAT), "{question:?}");
    }
}

/// B4.46 follows the other tables with Q-2: the column in Q-2's words says of its rows what theirs says.
#[test]
fn plain_column_follows_the_others() {
    let (plain, mut forwarding) = (Definition::at_stage(2).unwrap(), Definition::at_stage(2).unwrap());
    forwarding.set_tag_column(B4_46, TagColumn::Forwarding);
    assert_eq!(plain.tag_column(B4_46), TagColumn::Plain);
    for event in events_of_rows(&plain) {
        assert_eq!(alone(&plain, &event), alone(&forwarding, &event), "{event:?}");
    }
}

/// The sample with the capture that Q-2 tells of: its second event is explained before, and unexplained from then on.
#[test]
fn sample_of_dropped_tags() {
    let sample = include_bytes!("../../../samples/dirty_tags.csv");
    let told = |stage: usize, sheet: &[u8]| String::from_utf8(sheet::answer(&Definition::at_stage(stage).unwrap(), sheet).output).unwrap();
    let (before, after) = (told(1, &before_q5(sample)), told(2, &before_q5(sample)));
    assert_eq!(told(5, sample), after);
    let differ: Vec<(&str, &str)> = before.lines().zip(after.lines()).filter(|(old, new)| old != new).collect();
    assert_eq!(differ, [("1,explained,Home,I", "1,unexplained,none,"), ("2,explained,none,I", "2,not judged,none,")]);
    assert_eq!((before.lines().count(), after.lines().count()), (8, 8));
}

/// Dirty tags that leave with Invalid, as in the capture that Q-2 tells of, are remarked from then on.
#[test]
fn dirty_tags_that_leave_with_invalid() {
    let sheet = format!("{HEAD}{}", GOOD.replace("0,Invalid,", "0,Dirty,"));
    for (stage, output) in [(0, TOLD), (1, TOLD), (2, "0,unexplained,none,\r\n")] {
        answered(&Definition::at_stage(stage).unwrap(), sheet.as_bytes(), output);
    }
}

/// Q-4's answers by hand, for each state before: to SnpUnique with RetToSrc 0 and with 1, to SnpCleanInvalid and to SnpMakeInvalid.
#[rustfmt::skip]
const INVALIDATED: [(&str, [&str; 4]); 7] = [
    ("I",   ["none fail",       "none fail",       "none fail",    "none fail"]),
    ("UC",  ["none clean fail", "none clean fail", "none fail",    "none fail"]),
    ("UCE", ["none fail",       "none fail",       "none fail",    "none fail"]),
    ("UD",  ["dirty fail",      "dirty fail",      "dirty fail",   "none fail"]),
    ("UDP", ["partial fail",    "partial fail",    "partial fail", "none fail"]),
    ("SC",  ["none fail",       "clean fail",      "none fail",    "none fail"]),
    ("SD",  ["dirty fail",      "dirty fail",      "dirty fail",   "none fail"]),
];

/// The answers of that table: the response, its RespErrs, its TagOps with Invalid or Clean tags and those with Dirty ones; then its
/// duty from a clean state and from a Dirty one.
#[rustfmt::skip]
const GIVEN: [(&str, [&str; 4], [u8; 2]); 5] = [
    ("none",    ["SnpResp_I",           "OK",      "Invalid",          "Invalid"], [0, 4]),
    ("clean",   ["SnpRespData_I",       "OK DERR", "Invalid Transfer", ""],        [0, 0]),
    ("dirty",   ["SnpRespData_I_PD",    "OK DERR", "Invalid Transfer", "Update"],  [1, 1]),
    ("partial", ["SnpRespDataPtl_I_PD", "OK DERR", "Invalid",          ""],        [1, 1]),
    ("fail",    ["SnpResp_I",           "NDERR",   "Invalid",          "Invalid"], [0, 3]),
];

/// The duty with which these tables permit an answer from a state before under a tag state, if they do, by the words of a sheet.
fn duty_by_hand(before: &str, column: usize, tag: &str, [response, tag_op, resp_err]: [&str; 3]) -> Option<u8> {
    let has = |list: &str, word: &str| list.split(' ').any(|one| one == word);
    let (_, cells) = INVALIDATED.iter().find(|(state, _)| *state == before)?;
    let taken = GIVEN.iter().find(|(word, [name, resp_errs, others, with_dirty], _)| {
        let tag_ops = match (tag, before) {
            ("Dirty", "UD" | "SD") => with_dirty,
            ("Dirty", _) => "",
            _ => others,
        };
        has(cells[column], word) && *name == response && has(resp_errs, resp_err) && has(tag_ops, tag_op)
    });
    taken.map(|(_, _, duties)| duties[usize::from(["UD", "UDP", "SD"].contains(&before))])
}

/// An event with another value at a place.
fn changed(event: &[u8], place: usize, value: u8) -> Vec<u8> {
    [&event[..place], &[value], &event[place + 1..]].concat()
}

/// Whether a request is one of Q-4's.
fn is_of_q4(request: u8) -> bool {
    [7, 9, 10].contains(&request)
}

/// Every event of Q-4's snoops and of codes that rows name is judged as the tables by hand say, whatever DoNotGoToSD and excl are.
#[test]
fn invalidating_snoops_by_hand() {
    let definition = Definition::at_stage(4).unwrap();
    let columns = columns(&definition);
    for event in events_of_rows(&definition).into_iter().filter(|event| is_of_q4(event[byte::REQUEST])) {
        let names: Vec<&str> = columns.iter().map(|column| column.name_in(&event).unwrap()).collect();
        let [request, ret_to_src, _, _, tag, response, tag_op, resp_err, forward, _] = names[..] else { panic!("other columns") };
        let column = match (request, ret_to_src) {
            ("SnpUnique", "0") => 0,
            ("SnpUnique", _) => 1,
            ("SnpCleanInvalid", _) => 2,
            _ => 3,
        };
        let duty = |before: &str| {
            let tags = TAGS.iter().filter(|one| tag == "?" || tag == **one);
            let mut duties = tags.filter_map(|tag| duty_by_hand(before, column, tag, [response, tag_op, resp_err]));
            duties.next().filter(|_| forward == "-")
        };
        let by_hand = STATES.map(duty);
        for after in 0..=STATE_NOT_SEEN {
            let seen = by_hand.map(|duty| duty.filter(|_| after == I || after == STATE_NOT_SEEN));
            let (sets, duties) = (seen.map(|duty| u8::from(duty.is_some())), seen.map(|duty| duty.unwrap_or(0)));
            let expected = Alone { refusal: 0, place: 1, sets, duties };
            assert_eq!(alone(&definition, &changed(&event, byte::AFTER, after)), expected, "{names:?} to {after}");
        }
    }
}

/// Over the whole sweep an event with an old request is judged as before Q-4, and one with a new request no longer refused.
#[test]
fn q4_only_adds() {
    let [three, four] = [3, 4].map(|stage| Definition::at_stage(stage).unwrap());
    let mut with_a_step = BTreeMap::new();
    let mut other = 0;
    for event in events_of_rows(&four) {
        for after in 0..=STATE_NOT_SEEN {
            let event = changed(&event, byte::AFTER, after);
            let (old, new) = (alone(&three, &event), alone(&four, &event));
            if is_of_q4(event[byte::REQUEST]) {
                assert_eq!((old, new.refusal, new.place), (Alone { refusal: 5, ..Alone::default() }, 0, 1), "{event:?}");
                *with_a_step.entry(event[byte::REQUEST]).or_insert(0) += i32::from(new.sets != [0; 7]);
                other += 1;
            } else {
                assert_eq!(old, new, "{event:?}");
            }
        }
    }
    // For 3 snoops: flags, tag states, responses, TagOps, RespErrs, forwards and states after.
    assert_eq!(other, 3 * 8 * 4 * 22 * 4 * 4 * 5 * 8);
    // For 8 flags and 2 states after: SnpResp_I with OK and with NDERR by the tag states; each data by the tag states and their
    // TagOps, with 2 RespErrs.
    let (no_data, fails, clean, dirty, partial) = (3, 4, 3 * 2 * 2, (2 + 2 + 1 + 3) * 2, 3 * 2);
    let unique = no_data + fails + clean + dirty + partial;
    let clean_invalid = no_data + fails + dirty + partial;
    // Only SnpMakeInvalid has an OK answer without data under Dirty tags.
    let make_invalid = no_data + 1 + fails;
    let expected = [(7, unique), (9, clean_invalid), (10, make_invalid)].map(|(request, tagged)| (request, 8 * 2 * tagged));
    assert_eq!(with_a_step, BTreeMap::from(expected));
}

/// From every set an event with an old request is judged as before Q-4.
#[test]
fn q4_keeps_verdicts_from_sets() {
    let [three, four] = [3, 4].map(|stage| Definition::at_stage(stage).unwrap());
    for event in events_of_rows(&three).iter().filter(|event| has_a_step(&three, event)) {
        for set in 0..=ALL_STATES {
            assert_eq!(judge_event(&three, event, set), judge_event(&four, event, set), "{event:?} from {set}");
        }
    }
}

/// With Q-4 a trace and a question are refused with 5 for none of the ten requests, and for all others as before.
#[test]
fn requests_refused_with_q4() {
    let [three, four] = [3, 4].map(|stage| Definition::at_stage(stage).unwrap());
    for request in 0..=255 {
        let mut lent = lent(&EXAMPLE, &[0, 1, 0, 4], &[127; 5]);
        lent.events[2 * 14] = request;
        let expected = match request {
            1 | 2 | 4 | 18 | 20 | 21 | 22 => [0, 0],
            7 | 9 | 10 => [5, 0],
            _ => [5, 5],
        };
        for (definition, refusal) in [&three, &four].into_iter().zip(expected) {
            let judged = judge(definition, &lent);
            assert_eq!((judged.refusal, judged.place), (refusal, if refusal == 0 { 4 } else { 2 }), "request {request}");
            assert!(refusal == 0 || judged.lent == lent, "request {request}");
            let told = list(definition, &[request, 0, 0, 0, 0, 0], &[7; 300]);
            assert_eq!((told.refusal, told.count > 0), (refusal, refusal == 0), "request {request}");
            assert_eq!(list(definition, &[request, 0, 0, 0, 3, 0], &[7; 300]).refusal, 4, "request {request}");
        }
    }
}

/// Lists of Q-4's snoops, worked out by hand.
#[test]
fn lists_with_q4() {
    let definition = Definition::at_stage(4).unwrap();
    for (question, answers) in [
        ("SnpUnique 0 0 0 Invalid I", "SnpResp_I,Invalid,OK,-,I SnpResp_I,Invalid,NDERR,-,I"),
        (
            "SnpUnique 0 1 1 Clean UC",
            "SnpResp_I,Invalid,OK,-,I SnpResp_I,Invalid,NDERR,-,I SnpRespData_I,Invalid,OK,-,I SnpRespData_I,Invalid,DERR,-,I \
             SnpRespData_I,Transfer,OK,-,I SnpRespData_I,Transfer,DERR,-,I",
        ),
        ("SnpUnique 0 0 0 Invalid SC", "SnpResp_I,Invalid,OK,-,I SnpResp_I,Invalid,NDERR,-,I"),
        (
            "SnpUnique 1 0 0 Invalid SC",
            "SnpResp_I,Invalid,NDERR,-,I SnpRespData_I,Invalid,OK,-,I SnpRespData_I,Invalid,DERR,-,I \
             SnpRespData_I,Transfer,OK,-,I SnpRespData_I,Transfer,DERR,-,I",
        ),
        ("SnpUnique 1 0 1 Dirty SD", "SnpResp_I,Invalid,NDERR,-,I SnpRespData_I_PD,Update,OK,-,I SnpRespData_I_PD,Update,DERR,-,I"),
        ("SnpUnique 0 0 0 Dirty UDP", ""),
        ("SnpCleanInvalid 1 0 0 Invalid UC", "SnpResp_I,Invalid,OK,-,I SnpResp_I,Invalid,NDERR,-,I"),
        ("SnpCleanInvalid 1 1 0 Clean SC", "SnpResp_I,Invalid,OK,-,I SnpResp_I,Invalid,NDERR,-,I"),
        (
            "SnpCleanInvalid 0 0 0 Clean UD",
            "SnpResp_I,Invalid,NDERR,-,I SnpRespData_I_PD,Invalid,OK,-,I SnpRespData_I_PD,Invalid,DERR,-,I \
             SnpRespData_I_PD,Transfer,OK,-,I SnpRespData_I_PD,Transfer,DERR,-,I",
        ),
        (
            "SnpCleanInvalid 0 0 1 Invalid UDP",
            "SnpResp_I,Invalid,NDERR,-,I SnpRespDataPtl_I_PD,Invalid,OK,-,I SnpRespDataPtl_I_PD,Invalid,DERR,-,I",
        ),
        ("SnpCleanInvalid 0 0 0 Dirty SC", ""),
        ("SnpMakeInvalid 0 0 0 Invalid UC", "SnpResp_I,Invalid,OK,-,I SnpResp_I,Invalid,NDERR,-,I"),
        ("SnpMakeInvalid 1 1 1 Dirty UD", "SnpResp_I,Invalid,OK,-,I SnpResp_I,Invalid,NDERR,-,I"),
        ("SnpMakeInvalid 1 0 0 Clean UDP", "SnpResp_I,Invalid,OK,-,I SnpResp_I,Invalid,NDERR,-,I"),
        ("SnpMakeInvalid 1 0 0 Dirty UDP", ""),
        ("SnpMakeInvalid 0 0 0 Dirty I", ""),
    ] {
        listed(&definition, question, answers);
        listed(&Definition::at_stage(5).unwrap(), question, &with_errors(answers));
    }
}

/// The lists of old requests stay with Q-4, and those of its snoops have so many answers together.
#[test]
fn q4_only_adds_lists() {
    let [three, four] = [3, 4].map(|stage| Definition::at_stage(stage).unwrap());
    let mut added = BTreeMap::new();
    for question in all_questions(&four) {
        let list = answers(&four, &question);
        match is_of_q4(question[byte::REQUEST]) {
            true => *added.entry(question[byte::REQUEST]).or_insert(0) += list.len(),
            false => assert_eq!(list, answers(&three, &question), "{question:?}"),
        }
    }
    // For 4 values of DoNotGoToSD and excl: from I, UC, UCE, UD, UDP, SC and SD with 2 tag states, and from UD and SD with Dirty tags.
    let [unique_0, unique_1] = [2, 5].map(|shared| 2 * (2 + 6 + 2 + 5 + 3 + shared + 5) + 3 + 3);
    let clean_invalid = 2 * (2 + 2 + 2 + 5 + 3 + 2 + 5) + 3 + 3;
    let make_invalid = 2 * (7 * 2) + 2 + 2;
    assert_eq!(added, BTreeMap::from([(7, 4 * (unique_0 + unique_1)), (9, 4 * 2 * clean_invalid), (10, 4 * 2 * make_invalid)]));
}

/// Every permitted step under tags that were seen: an event, the state before and the state after.
fn permitted_steps(definition: &Definition) -> Vec<(Vec<u8>, u8, u8)> {
    let mut steps = Vec::new();
    let events = events_of_rows(definition);
    let each = events.iter().flat_map(|event| with_each_error(definition, event));
    for event in each.filter(|event| event[byte::TAG] != TAG_NOT_SEEN && has_a_step(definition, event)) {
        for (before, after) in (0..49).map(|n| (n / 7, n % 7)) {
            if permitted(definition, &event, event[byte::TAG], before, after) {
                steps.push((event.clone(), before, after));
            }
        }
    }
    steps
}

/// The duty clause of demand 2: where a Dirty line ends not Dirty, without NDERR and other than by SnpMakeInvalid, exactly one of
/// Home and the Requester is told.
#[test]
fn duty_clause() {
    [4, 5].iter().for_each(|stage| duty_clause_at(&Definition::at_stage(*stage).unwrap()));
}

/// Asserts the duty clause.
fn duty_clause_at(definition: &Definition) {
    let mut passed_on = BTreeSet::new();
    for (event, before, after) in permitted_steps(definition) {
        let (to_home, to_requester) = ([4, 5].contains(&event[byte::RESP]), [6, 7].contains(&event[byte::FWD_STATE]));
        let ends = holds_dirty(1 << before) && !holds_dirty(1 << after);
        if ends && event[byte::RESP_ERR] != NDERR && event[byte::REQUEST] != 10 {
            assert!(to_home != to_requester, "{event:?} from {before} to {after}");
            let told = duty(definition, &event, 1 << before);
            assert_eq!(told, if to_home { 1 } else { 2 }, "{event:?} from {before} to {after}");
            passed_on.insert(event[byte::REQUEST]);
        } else {
            assert!(!to_home && !to_requester, "{event:?} from {before} to {after}");
        }
    }
    assert_eq!(passed_on, BTreeSet::from([1, 2, 4, 7, 9, 18, 20, 21, 22]));
}

/// SnpMakeInvalid is answered with SnpResp_I alone: no permitted answer has PD, data or a forward.
#[test]
fn make_invalid_gives_nothing() {
    for definition in [4, 5].map(|stage| Definition::at_stage(stage).unwrap()) {
        let own: Vec<_> = permitted_steps(&definition).into_iter().filter(|(event, _, _)| event[byte::REQUEST] == 10).collect();
        // For 8 flags and 2 RespErrs: 7 states with Invalid and with Clean tags, 2 with Dirty ones.
        assert_eq!(own.len(), 8 * 2 * (7 + 7 + 2));
        for (event, _, after) in own {
            assert_eq!(
                (&event[byte::CHANNEL..=byte::TAG_OP], &event[byte::FORWARDED..=byte::FORWARDED_RESP]),
                (&[0, 1, 0, 0, 0][..], &[0, 0][..])
            );
            assert!(after == I && event.get(byte::FWD_ERR).is_none_or(|error| *error == 0));
        }
    }
}

/// The row law: a line is Dirty after a step as it was before, or it was and no longer is, and the step has one of the four duties.
#[test]
fn row_law() {
    [4, 5].iter().for_each(|stage| row_law_at(&Definition::at_stage(*stage).unwrap()));
}

/// Asserts the row law.
fn row_law_at(definition: &Definition) {
    let mut duties = BTreeSet::new();
    for (event, before, after) in permitted_steps(definition) {
        let told = duty(definition, &event, 1 << before);
        let [was, is] = [before, after].map(|state| u8::from(holds_dirty(1 << state)));
        assert_eq!(was, is + u8::from([1, 2, 3, 4].contains(&told)), "{event:?} from {before} to {after}");
        assert!(told != 4 || event[byte::REQUEST] == 10 && event[byte::RESP_ERR] == OK, "{event:?}");
        duties.insert(told);
    }
    assert_eq!(duties, BTreeSet::from([0, 1, 2, 3, 4]));
}

/// A sample, its answer in the samples' folder, and what is told of its lines by hand.
type Sample = (&'static [u8], &'static [u8], &'static str);

/// The samples of Q-4.
const SAMPLES_OF_Q4: [Sample; 2] = [
    (
        include_bytes!("../../../samples/discarded.csv"),
        include_bytes!("../../../samples/answers/discarded.csv"),
        "0,explained,none,SD\r\n1,explained,discarded,I\r\n2,explained,none,I\r\n3,explained,Home,I\r\n\
         4,explained,Home,I\r\n5,explained,none,SC\r\n6,explained,none,I\r\n7,explained,none,SD\r\n\
         8,unexplained,none,\r\n9,not judged,none,\r\n10,explained,discarded,I\r\n",
    ),
    (
        include_bytes!("../../../samples/lost.csv"),
        include_bytes!("../../../samples/answers/lost.csv"),
        "0,explained,none,SD\r\n1,explained,lost,I\r\n2,explained,none,I\r\n3,explained,none,SD\r\n\
         4,explained,lost,I\r\n5,explained,none,SC\r\n6,explained,none,I\r\n7,explained,Home,I\r\n\
         8,explained,none,SD\r\n9,unexplained,none,\r\n10,explained,lost,I\r\n",
    ),
];

/// A sheet without its last column, which it has since Q-5.
fn before_q5(sheet: &[u8]) -> Vec<u8> {
    let text = String::from_utf8_lossy(sheet).to_string();
    let lines = text.split_terminator("\r\n").map(|line| line.rsplit_once(',').map_or(line, |(line, _)| line));
    lines.flat_map(|line| format!("{line}\r\n").into_bytes()).collect()
}

/// The samples of Q-4 are answered as they are by hand, and before it refused at the first of its names.
#[test]
fn samples_of_q4() {
    for (sample, answer, told) in SAMPLES_OF_Q4 {
        let before = before_q5(sample);
        (5..=6).for_each(|stage| answered(&Definition::at_stage(stage).unwrap(), sample, told));
        answered(&Definition::at_stage(4).unwrap(), &before, told);
        answered(&Definition::at_stage(3).unwrap(), &before, "0,explained,none,SD\r\nrefused,8,3\r\n");
        assert_eq!(String::from_utf8_lossy(answer), format!("event,verdict,duty,states\r\n{told}"));
    }
}

/// A sheet knows Q-4's three names with it and not before, and none that is only near them.
#[test]
fn names_with_q4() {
    let [three, four] = [3, 4].map(|stage| Definition::at_stage(stage).unwrap());
    let refused = |definition: &Definition, name: &str| {
        let sheet = format!("{HEAD}{}", GOOD.replace("SnpShared", name));
        sheet::answer(definition, sheet.as_bytes()).refusal
    };
    for name in ["SnpUnique", "SnpCleanInvalid", "SnpMakeInvalid"] {
        assert_eq!((refused(&three, name), refused(&four, name)), (Some((8, 2)), None), "{name}");
    }
    for name in "SnpUniqueFwd Snpunique SnpUniqu SnpUniquee SnpCleanShared SnpCleanInvalidFwd SnpMakeInvalidStash SnpInvalid 7".split(' ') {
        assert_eq!((refused(&three, name), refused(&four, name)), (Some((8, 2)), Some((8, 2))), "{name}");
    }
}

/// The four events of the definition's example.
const EXAMPLE: [[u8; 14]; 4] = [
    [1, 0, 0, 0, 0, 1, 1, 5, 0, 0, 0, 0, 0, 7],
    [1, 1, 0, 0, 0, 1, 1, 1, 0, 0, 0, 0, 0, 7],
    [2, 0, 0, 0, 0, 1, 1, 3, 0, 0, 0, 0, 0, 7],
    [2, 0, 0, 0, 0, 0, 1, 0, 0, 0, 0, 0, 0, 0],
];
/// SnpClean answered with SnpResp_SC, tags and state after not seen.
const TO_SC: [u8; 14] = [2, 0, 0, 0, 3, 0, 1, 1, 0, 0, 0, 0, 0, 7];
/// SnpClean answered with SnpResp_I and NDERR, tags and state after not seen.
const WITH_NDERR: [u8; 14] = [2, 0, 0, 0, 3, 0, 1, 0, 0, 0, 3, 0, 0, 7];
/// SnpCleanFwd answered with SnpResp_SC_Fwded_SD_PD.
const TO_REQUESTER: [u8; 14] = [18, 0, 0, 0, 3, 0, 9, 1, 7, 0, 0, 1, 7, 7];

/// A trace of some events, whose three other buffers hold bytes that no answer has.
fn lent<const BYTES: usize>(events: &[[u8; BYTES]], pairs: &[u16], table: &[u8]) -> Lent {
    let mut lent = Lent { table: table.to_vec(), ..Lent::default() };
    events.iter().zip(pairs).for_each(|(event, pair)| lent.push(*pair, event, [201, 202, 203]));
    lent
}

/// A trace by hand: events of so many bytes, pairs and table, then verdicts, duties, after-sets and the table.
type ByHand<'a, const BYTES: usize = 14> = (&'a [[u8; BYTES]], &'a [u16], &'a [u8], [&'a [u8]; 4]);

/// An event with 0 for the bytes that it lacks.
fn event_at(definition: &Definition, event: &[u8]) -> Vec<u8> {
    let mut event = event.to_vec();
    event.resize(definition.event_bytes(), 0);
    event
}

/// Asserts that traces are judged as they are by hand, and that their histories say the same; events have 0 for bytes that they lack.
fn judged_by_hand<const BYTES: usize>(definition: &Definition, traces: &[ByHand<BYTES>]) {
    for (events, pairs, table, [verdicts, duties, after_sets, table_after]) in traces {
        let mut lent = lent(events, pairs, table);
        lent.events = events.iter().flat_map(|event| event_at(definition, event)).collect();
        let mut after = lent.clone();
        [&mut after.verdicts, &mut after.duties, &mut after.after_sets, &mut after.table]
            .into_iter()
            .zip([verdicts, duties, after_sets, table_after])
            .for_each(|(part, bytes)| *part = bytes.to_vec());
        let expected = Judged { refusal: 0, place: events.len(), lent: after };
        assert_eq!(judge(definition, &lent), expected);
        assert_eq!(enumerate(definition, &lent).0, expected);
    }
}

/// Traces worked out by hand, which requests up to Q-6 leave as they are.
#[test]
fn traces() {
    let traces: [ByHand; 9] = [
        (&EXAMPLE, &[0; 4], &[127], [&[0, 0, 1, 2], &[1, 0, 0, 0], &[33, 33, 0, 0], &[0]]),
        (&EXAMPLE, &[3, 1, 3, 1], &[127, 127, 9, 8, 0], [&[0, 0, 1, 0], &[1, 0, 0, 0], &[33, 33, 0, 1], &[127, 1, 9, 0, 0]]),
        (&[EXAMPLE[0]; 2], &[1, 0], &[1, 8], [&[0, 1], &[1, 0], &[33, 0], &[0, 33]]),
        (&[TO_REQUESTER; 3], &[0, 1, 2], &[64, 55, 0], [&[0, 1, 2], &[2, 0, 0], &[33, 0, 0], &[33, 0, 0]]),
        (&[WITH_NDERR; 3], &[0, 1, 2], &[16, 39, 127], [&[0, 0, 0], &[3, 0, 3], &[1, 1, 1], &[1, 1, 1]]),
        (&[WITH_NDERR; 2], &[0, 0], &[8], [&[0, 0], &[3, 0], &[1, 1], &[1]]),
        (&[TO_SC, TO_SC, EXAMPLE[2], TO_SC], &[0; 4], &[127], [&[0, 0, 1, 2], &[0; 4], &[33, 33, 0, 0], &[0]]),
        (&[], &[], &[0, 5, 127], [&[], &[], &[], &[0, 5, 127]]),
        (&[], &[], &[], [&[]; 4]),
    ];
    (0..=6).for_each(|stage| judged_by_hand(&Definition::at_stage(stage).unwrap(), &traces));
}

/// SnpMakeInvalid answered with SnpResp_I, tags and state after not seen.
const MAKE_INVALID: [u8; 14] = [10, 0, 0, 0, 3, 0, 1, 0, 0, 0, 0, 0, 0, 7];
/// The same with NDERR.
const MAKE_INVALID_WITH_NDERR: [u8; 14] = [10, 0, 0, 0, 3, 0, 1, 0, 0, 0, 3, 0, 0, 7];
/// The same without an error, with Dirty tags, all flags and I seen after.
const MAKE_INVALID_WITH_TAGS: [u8; 14] = [10, 1, 1, 1, 2, 0, 1, 0, 0, 0, 0, 0, 0, 0];
/// SnpUnique answered with SnpResp_I, tags and state after not seen.
const UNIQUE: [u8; 14] = [7, 0, 0, 0, 3, 0, 1, 0, 0, 0, 0, 0, 0, 7];
/// SnpCleanInvalid answered with SnpRespData_I_PD, Update and DERR, with all flags, tags and state after not seen.
const CLEAN_INVALID: [u8; 14] = [9, 1, 1, 1, 3, 1, 1, 4, 0, 2, 2, 0, 0, 7];

/// Traces with Q-4's snoops, worked out by hand; the sets are UD, UDP, SD, all, I UC UCE SC, I and none where there are seven.
#[test]
fn traces_with_q4() {
    let [seven, sets, to_i]: [&[u8]; 3] = [&[0, 0, 0, 0, 0, 0, 2], &[8, 16, 64, 127, 39, 1, 0], &[1, 1, 1, 1, 1, 1, 0]];
    let pairs: &[u16] = &[0, 1, 2, 3, 4, 5, 6];
    let traces: [ByHand; 8] = [
        (&[MAKE_INVALID; 7], pairs, sets, [seven, &[4, 4, 4, 4, 0, 0, 0], to_i, to_i]),
        (&[MAKE_INVALID_WITH_NDERR; 7], pairs, sets, [seven, &[3, 3, 3, 3, 0, 0, 0], to_i, to_i]),
        // UDP has no Dirty tags, and I UC UCE SC has none either.
        (
            &[MAKE_INVALID_WITH_TAGS; 7],
            pairs,
            sets,
            [&[0, 1, 0, 0, 1, 1, 2], &[4, 0, 4, 4, 0, 0, 0], &[1, 0, 1, 1, 0, 0, 0], &[1, 0, 1, 1, 0, 0, 0]],
        ),
        // SnpUnique throws nothing away, though its set before holds a Dirty state.
        (&[UNIQUE; 7], pairs, sets, [&[1, 1, 1, 0, 0, 0, 2], &[0; 7], &[0, 0, 0, 1, 1, 1, 0], &[0, 0, 0, 1, 1, 1, 0]]),
        (
            &[CLEAN_INVALID; 7],
            pairs,
            sets,
            [&[0, 1, 0, 0, 1, 1, 2], &[1, 0, 1, 1, 0, 0, 0], &[1, 0, 1, 1, 0, 0, 0], &[1, 0, 1, 1, 0, 0, 0]],
        ),
        // The duty goes by the set just before the event.
        (&[MAKE_INVALID; 3], &[0; 3], &[127], [&[0; 3], &[4, 0, 0], &[1; 3], &[1]]),
        (
            &[EXAMPLE[2], MAKE_INVALID, MAKE_INVALID_WITH_NDERR, UNIQUE],
            &[1; 4],
            &[0, 127],
            [&[0; 4], &[0, 4, 0, 0], &[64, 1, 1, 1], &[0, 1]],
        ),
        (
            &[EXAMPLE[2], MAKE_INVALID_WITH_NDERR, MAKE_INVALID, EXAMPLE[2]],
            &[1; 4],
            &[0, 127],
            [&[0, 0, 0, 1], &[0, 3, 0, 0], &[64, 1, 1, 0], &[0, 0]],
        ),
    ];
    (4..=6).for_each(|stage| judged_by_hand(&Definition::at_stage(stage).unwrap(), &traces));
}

/// Refused traces: what is changed in the example over five pairs, and the refusal with its place; nothing lent changes.
#[test]
fn traces_refused() {
    let definition = Definition::base();
    let changes: [(fn(&mut Lent), u8, usize); 24] = [
        (|lent| lent.events.truncate(55), 1, 0),
        (|lent| lent.events.truncate(43), 1, 0),
        (|lent| lent.events.truncate(42), 1, 0),
        (|lent| lent.pairs.truncate(6), 1, 0),
        (|lent| lent.verdicts.push(0), 1, 0),
        (|lent| lent.duties.clear(), 1, 0),
        (|lent| lent.after_sets.truncate(3), 1, 0),
        (|lent| (lent.after_sets, lent.table[0], lent.events[1]) = (vec![0; 5], 128, 2), 1, 0),
        (|lent| lent.table[4] = 128, 2, 4),
        (|lent| (lent.table[3], lent.table[1]) = (255, 200), 2, 1),
        (|lent| (lent.table[2], lent.events[1], lent.pairs[0]) = (128, 2, 5), 2, 2),
        (|lent| lent.set_pair(0, 5), 3, 0),
        (|lent| lent.set_pair(3, 256), 3, 3),
        (|lent| lent.set_pair(2, 65_535), 3, 2),
        (|lent| (lent.pairs[4], lent.events[28], lent.events[41]) = (5, 0, 8), 3, 2),
        (|lent| (lent.pairs[4], lent.pairs[2]) = (5, 6), 3, 1),
        (|lent| lent.events[14 + 13] = 8, 4, 1),
        (|lent| (lent.events[14], lent.events[14 + 6]) = (0, 32), 4, 1),
        (|lent| (lent.events[4], lent.pairs[2]) = (4, 5), 4, 0),
        (|lent| lent.events[0] = 7, 5, 0),
        (|lent| lent.events[42] = 0, 5, 3),
        (|lent| (lent.events[14], lent.pairs[4], lent.events[28 + 1]) = (9, 5, 2), 5, 1),
        (|lent| lent.table.clear(), 3, 0),
        (|lent| lent.table = vec![0; 4_097], 1, 0),
    ];
    for (n, (change, refusal, place)) in changes.into_iter().enumerate() {
        let mut lent = lent(&EXAMPLE, &[0, 1, 0, 4], &[127; 5]);
        change(&mut lent);
        assert_eq!(judge(&definition, &lent), Judged { refusal, place, lent: lent.clone() }, "change {n}");
    }
    let most = |events: usize| lent(&vec![WITH_NDERR; events], &vec![4_095; events], &[8; 4_096]);
    let judged = judge(&definition, &most(4_096));
    assert_eq!((judged.refusal, judged.place, judged.lent.table[4_095]), (0, 4_096, 1));
    assert_eq!((&judged.lent.duties[..2], &judged.lent.table[..4_095]), (&[3, 0][..], &[8; 4_095][..]));
    assert_eq!(judge(&definition, &most(4_097)).refusal, 1);
}

/// Histories counted by hand.
#[test]
fn histories() {
    let definition = Definition::base();
    let count = |events: &[[u8; 14]], set: u8| enumerate(&definition, &lent(events, &[0; 4], &[set])).1;
    // UC and SC step to SC and to I under Invalid and under Clean tags.
    assert_eq!(count(&[TO_SC], 127), 7 + 8);
    // The four that ended in SC go on, four ways each, and none passes an event that only UD and SD have.
    assert_eq!(count(&[TO_SC; 2], 127), 7 + 8 + 16);
    assert_eq!(count(&[TO_SC, TO_SC, EXAMPLE[2], TO_SC], 127), 7 + 8 + 16);
    assert_eq!(count(&[TO_SC], 0), 0);
    // A step exists exactly where an event alone has it.
    for event in EXAMPLE.iter().chain([&TO_SC, &WITH_NDERR, &TO_REQUESTER]) {
        let sets = alone(&definition, event).sets;
        for (before, after) in (0..49).map(|n| (n / 7, n % 7)) {
            let any = (0..3).any(|tag| permitted(&definition, event, tag, before, after));
            assert_eq!(any, holds(sets[usize::from(before)], after));
        }
        for set in 0..128 {
            let union = (0..7).filter(|n| holds(set, *n)).fold(0, |union, n| union | sets[usize::from(n)]);
            assert_eq!(step(&definition, event, set), union);
        }
    }
}

/// The header with its CRLF.
const HEAD: &str = "pair,request,RetToSrc,DoNotGoToSD,excl,tag,response,TagOp,RespErr,forward,final\r\n";
/// A line that leaves its pair in I or SC, with the duty to Home, and what is told of it as event 0.
const GOOD: &str = "0,SnpShared,0,0,0,Invalid,SnpRespData_SC_PD,Invalid,OK,-,?";
const TOLD: &str = "0,explained,Home,I SC\r\n";

/// Asserts that a sheet is answered with this after the output's header.
fn answered(definition: &Definition, sheet: &[u8], output: &str) {
    let own = sheet::answer(definition, sheet);
    let expected = format!("event,verdict,duty,states\r\n{output}");
    assert_eq!(String::from_utf8_lossy(&own.output), expected, "{}", sheet.escape_ascii());
}

/// Sheets worked out by hand: what follows the header, and what follows the output's header.
#[test]
fn sheets() {
    let definition = Definition::base();
    let x = "x".repeat(200_000);
    let long = |length: usize, end: &str| format!("{}{end}", &x[..length]);
    let sheets = [
        ("", ""),
        (&format!("{GOOD}\r\n"), TOLD),
        (GOOD, TOLD),
        (&format!("{GOOD}\r\n\r\n"), &format!("{TOLD}refused,8,3\r\n")),
        (&format!("{GOOD}\r\n\r"), &format!("{TOLD}refused,8,3\r\n")),
        (&format!("{GOOD}\r\n\n"), &format!("{TOLD}refused,8,3\r\n")),
        (&format!("{GOOD}\r\r\n{GOOD}"), "refused,8,2\r\n"),
        (&format!("{GOOD}\n{GOOD}"), "refused,8,2\r\n"),
        (&format!("\r\n{GOOD}"), "refused,8,2\r\n"),
        (HEAD, "refused,8,2\r\n"),
        (&long(160, "\r\n"), "refused,8,2\r\n"),
        (&long(161, "\r\n"), "refused,7,2\r\n"),
        (&long(160, ""), "refused,8,2\r\n"),
        (&long(161, ""), "refused,7,2\r\n"),
        (&long(159, "\r\r\n"), "refused,8,2\r\n"),
        (&long(160, "\r\r\n"), "refused,7,2\r\n"),
        (&long(160, "\r"), "refused,7,2\r\n"),
        (&long(160, "\n"), "refused,7,2\r\n"),
        (&long(200_000, ""), "refused,7,2\r\n"),
        (
            "4095,SnpCleanFwd,0,0,0,?,SnpResp_SC_Fwded_SD_PD,Invalid,OK,CompData_SD_PD,?\r\n\
             0,SnpShared,0,0,0,?,SnpResp_I,Invalid,NDERR,-,?\r\n\
             4095,SnpShared,0,0,0,?,SnpResp_I,Invalid,NDERR,-,I\r\n\
             15,SnpNotSharedDirty,1,0,1,Dirty,SnpRespData_SD,Update,DERR,-,SD\r\n\
             16,SnpPreferUnique,1,1,0,Clean,SnpRespData_SD,Match,OK,-,SD\r\n\
             15,SnpPreferUniqueFwd,0,0,0,Invalid,SnpResp_I_Fwded_UD_PD,Invalid,OK,CompData_UD_PD,I\r\n\
             16,SnpNotSharedDirtyFwd,0,0,0,Invalid,SnpRespDataPtl_I_PD,Invalid,EXOK,-,UDP\r\n\
             7,SnpPreferUniqueFwd,0,0,0,Invalid,SnpResp_SC_Fwded_SC,Transfer,OK,-,UCE\r\n",
            "0,explained,Requester,I SC\r\n1,explained,lost,I\r\n2,explained,none,I\r\n3,explained,none,SD\r\n\
             4,unexplained,none,\r\n5,explained,Requester,I\r\n6,not judged,none,\r\n7,unexplained,none,\r\n",
        ),
    ];
    for (rest, output) in sheets {
        answered(&definition, format!("{HEAD}{rest}").as_bytes(), output);
    }
    for first in ["", "\r\n", "\r", "x", GOOD, &HEAD[1..], &HEAD[..78], &HEAD.replace("\r\n", "\r\r\n"), &format!(" {HEAD}")] {
        answered(&definition, first.as_bytes(), "refused,6,1\r\n");
    }
    answered(&definition, HEAD.trim_end().as_bytes(), "");
    assert_eq!(lines(b"a\n\r\r\n\r\nb\r"), [&b"a\n\r"[..], b"", b"b\r"]);
}

/// Fields that make a line good or bad: the column, the fields that are known there, and some that are not.
#[test]
fn fields() {
    let definition = Definition::base();
    let columns = [
        ("0 1 9 10 99 100 999 1000 4095", "00 01 007 0000 04095 10000 65536 1a -1 +1 1/ 1: / : ? -"),
        (
            "SnpShared SnpClean SnpNotSharedDirty SnpCleanFwd SnpNotSharedDirtyFwd SnpPreferUnique SnpPreferUniqueFwd",
            "SnpUnique snpShared SnpSharedFwd - 1",
        ),
        ("0 1", "2 00 01 - ? x"),
        ("0 1", "2 11 -1 true"),
        ("0 1", "I 10 0x1"),
        ("Invalid Clean Dirty ?", "Update - invalid not-seen ??"),
        (
            "SnpResp_I SnpResp_SC SnpRespData_I SnpRespData_SC SnpRespData_SD SnpRespData_I_PD SnpRespData_SC_PD \
             SnpRespDataPtl_I_PD SnpResp_I_Fwded_SC SnpResp_SC_Fwded_SC SnpResp_SD_Fwded_SC SnpResp_I_Fwded_SD_PD \
             SnpResp_SC_Fwded_SD_PD SnpResp_I_Fwded_UC SnpResp_I_Fwded_UD_PD SnpRespData_I_Fwded_SC \
             SnpRespData_SC_Fwded_SC SnpRespData_SD_Fwded_SC SnpRespData_I_Fwded_SD_PD SnpRespData_SC_Fwded_SD_PD \
             SnpRespData_I_PD_Fwded_SC SnpRespData_SC_PD_Fwded_SC",
            "SnpResp_SC_PD SnpRespDataPtl_I SnpResp_I_Fwded SnpRespData_SD_Fwded_SD_PD SnpResp ?",
        ),
        ("Invalid Transfer Update Match", "Clean ? -"),
        ("OK EXOK DERR NDERR", "Ok ? -"),
        ("- CompData_SC CompData_UC CompData_UD_PD CompData_SD_PD", "CompData_I ? SC"),
        ("I UC UCE UD UDP SC SD ?", "- SCE i \"I\" I\0"),
    ];
    let refused = |column: usize, field: &str| {
        let mut fields: Vec<&str> = GOOD.split(',').collect();
        fields[column] = field;
        let line = format!("{HEAD}{}", fields.join(","));
        sheet::answer(&definition, line.as_bytes()).refusal
    };
    for (column, (known, unknown)) in columns.into_iter().enumerate() {
        known.split(' ').for_each(|field| assert_eq!(refused(column, field), None, "{field}"));
        for field in unknown.split(' ').chain(["", " 0", "0 "]) {
            assert_eq!(refused(column, field), Some((8, 2)), "{field}");
        }
    }
    ["4096", "4097", "9999"].iter().for_each(|pair| assert_eq!(refused(0, pair), Some((3, 2))));
    // 7 comes before 8, and 8 before 3.
    assert_eq!((refused(0, "4096,"), refused(0, "4096,x")), (Some((8, 2)), Some((8, 2))));
    assert_eq!(refused(10, &" ".repeat(104)), Some((7, 2)));
    assert_eq!(refused(10, &" ".repeat(103)), Some((8, 2)));
}

/// A capture by hand: records, the output and what stops the run.
type CaptureByHand = (Vec<u8>, &'static str, Option<(u8, usize)>);

/// Captures worked out by hand.
#[test]
#[rustfmt::skip]
fn captures() {
    let definition = Definition::base();
    let record = |pair: u16, event: &[u8]| [&pair.to_le_bytes()[..], event].concat();
    let plain = |count: usize| record(1, &[1, 0, 0, 0, 3, 0, 1, 0, 0, 0, 0, 0, 0, 7]).repeat(count);
    let example = EXAMPLE.map(|event| record(0, &event)).concat();
    let (to_sd, nderr) = (record(9, &EXAMPLE[2]), record(9, &WITH_NDERR));
    let bad = |pair: u16, place: usize, value: u8| {
        let mut record = record(pair, &EXAMPLE[0]);
        record[place] = value;
        record
    };
    let captures: [CaptureByHand; 13] = [
        (vec![], "0 events: 0 explained, 0 unexplained, 0 not judged\n", None),
        (example.clone(), "event 0, pair 0: Home holds the duty\nevent 2, pair 0: unexplained\n\
             4 events: 2 explained, 1 unexplained, 1 not judged\n", None),
        ([&record(4_095, &TO_REQUESTER)[..], &to_sd, &nderr].concat(),
             "event 0, pair 4095: the Requester holds the duty\nevent 2, pair 9: the duty is lost\n\
             3 events: 3 explained, 0 unexplained, 0 not judged\n", None),
        ([&to_sd[..], &plain(4_095), &nderr, &to_sd].concat(),
             "event 4096, pair 9: the duty is lost\nevent 4097, pair 9: unexplained\n\
             4098 events: 4097 explained, 1 unexplained, 0 not judged\n", None),
        (plain(8_192), "8192 events: 8192 explained, 0 unexplained, 0 not judged\n", None),
        ([&example[..], &bad(0, 1, 16)].concat(), "", Some((3, 4))),
        ([&example[..], &bad(0, 15, 8), &plain(9)].concat(), "", Some((4, 4))),
        ([&example[..16], &plain(4_094), &bad(0, 2, 3)].concat(), "", Some((5, 4_095))),
        ([&example[..16], &plain(4_095), &bad(0, 2, 3)].concat(), "event 0, pair 0: Home holds the duty\n", Some((5, 4_096))),
        (example[..15].to_vec(), "", Some((0, 0))),
        ([&bad(0, 2, 3)[..], &example[..1]].concat(), "", Some((0, 1))),
        ([&example[..16], &plain(4_095), &[1]].concat(), "event 0, pair 0: Home holds the duty\n", Some((0, 4_096))),
        ([&bad(0, 2, 3)[..], &plain(4_095), &[1]].concat(), "", Some((5, 0))),
    ];
    for (n, (records, output, stop)) in captures.into_iter().enumerate() {
        let own = capture::answer(&definition, &records);
        assert_eq!((String::from_utf8_lossy(&own.output), own.stop), (output.into(), stop), "capture {n}");
    }
    let stopped = |stop| capture::Answered { stop: Some(stop), ..Default::default() }.message();
    assert_eq!(stopped((5, 4_097)), "capture: refused with 5 at event 4097\n");
    assert_eq!(stopped((0, 12)), "capture: it ends within event 12\n");
    let whole = format!("{HEAD}{GOOD}\r\n258,{}\r\nx", &GOOD[2..]);
    let expected = ([record(0, &EXAMPLE[0]), record(258, &EXAMPLE[0])].concat(), Some((8, 4)));
    assert_eq!(capture::of_sheet(&definition, whole.as_bytes()), expected);
}

/// Captures with Q-4's snoops, worked out by hand, and what they were answered before.
#[test]
#[rustfmt::skip]
fn captures_with_q4() {
    let [three, four] = [3, 4].map(|stage| Definition::at_stage(stage).unwrap());
    let record = |pair: u16, event: &[u8]| [&pair.to_le_bytes()[..], event].concat();
    let to_sd = record(9, &EXAMPLE[2]);
    let captures: [CaptureByHand; 4] = [
        ([&to_sd[..], &record(9, &MAKE_INVALID), &record(9, &MAKE_INVALID)].concat(),
             "event 1, pair 9: the line is discarded\n3 events: 3 explained, 0 unexplained, 0 not judged\n", None),
        ([&to_sd[..], &record(9, &MAKE_INVALID_WITH_NDERR)].concat(),
             "event 1, pair 9: the duty is lost\n2 events: 2 explained, 0 unexplained, 0 not judged\n", None),
        ([&to_sd[..], &record(8, &CLEAN_INVALID), &record(8, &UNIQUE), &record(9, &UNIQUE)].concat(),
             "event 1, pair 8: Home holds the duty\nevent 3, pair 9: unexplained\n\
             4 events: 3 explained, 1 unexplained, 0 not judged\n", None),
        ([&to_sd[..], &record(9, &changed(&MAKE_INVALID, byte::REQUEST, 8))].concat(), "", Some((5, 1))),
    ];
    for (n, (records, output, stop)) in captures.into_iter().enumerate() {
        let own = capture::answer(&four, &records);
        assert_eq!((String::from_utf8_lossy(&own.output), own.stop), (output.into(), stop), "capture {n}");
        let before = capture::answer(&three, &records);
        assert_eq!((before.output, before.stop), (vec![], Some((5, 1))), "capture {n}");
    }
}

/// Events with errors on forwarded data, worked out by hand: the state before, the line, the states after and the duty.
#[test]
#[rustfmt::skip]
fn errors_of_forwarded_data() {
    let definition = Definition::at_stage(5).unwrap();
    for (before, line, states, duty) in [
        // Entry e with each error: DERR changes nothing, and the others fit no row.
        ("UD", "0,SnpCleanFwd,0,0,0,Invalid,SnpResp_SC_Fwded_SD_PD,Invalid,OK,CompData_SD_PD,?,OK", "I SC", "Requester"),
        ("UD", "0,SnpCleanFwd,0,0,0,Invalid,SnpResp_SC_Fwded_SD_PD,Invalid,OK,CompData_SD_PD,?,DERR", "I SC", "Requester"),
        ("UD", "0,SnpCleanFwd,0,0,0,Invalid,SnpResp_SC_Fwded_SD_PD,Invalid,OK,CompData_SD_PD,?,EXOK", "", "none"),
        ("UD", "0,SnpCleanFwd,0,0,0,Invalid,SnpResp_SC_Fwded_SD_PD,Invalid,OK,CompData_SD_PD,?,NDERR", "", "none"),
        // Home gets no data, and so no DERR.
        ("UD", "0,SnpCleanFwd,0,0,0,Invalid,SnpResp_SC_Fwded_SD_PD,Invalid,DERR,CompData_SD_PD,?,OK", "", "none"),
        ("UD", "0,SnpCleanFwd,0,0,0,Invalid,SnpResp_SC_Fwded_SD_PD,Invalid,DERR,CompData_SD_PD,?,DERR", "", "none"),
        // Home gets data too: either has DERR, or both, or none.
        ("SD", "0,SnpNotSharedDirtyFwd,1,0,1,Clean,SnpRespData_SC_Fwded_SD_PD,Transfer,OK,CompData_SD_PD,SC,OK", "SC", "Requester"),
        ("SD", "0,SnpNotSharedDirtyFwd,1,0,1,Clean,SnpRespData_SC_Fwded_SD_PD,Transfer,OK,CompData_SD_PD,SC,DERR", "SC", "Requester"),
        ("SD", "0,SnpNotSharedDirtyFwd,1,0,1,Clean,SnpRespData_SC_Fwded_SD_PD,Transfer,DERR,CompData_SD_PD,SC,OK", "SC", "Requester"),
        ("SD", "0,SnpNotSharedDirtyFwd,1,0,1,Clean,SnpRespData_SC_Fwded_SD_PD,Transfer,DERR,CompData_SD_PD,SC,DERR", "SC", "Requester"),
        ("SD", "0,SnpNotSharedDirtyFwd,1,0,1,Clean,SnpRespData_SC_Fwded_SD_PD,Transfer,EXOK,CompData_SD_PD,SC,DERR", "", "none"),
        ("SD", "0,SnpNotSharedDirtyFwd,1,0,1,Clean,SnpRespData_SC_Fwded_SD_PD,Transfer,NDERR,CompData_SD_PD,SC,DERR", "", "none"),
        ("SD", "0,SnpNotSharedDirtyFwd,1,0,1,Clean,SnpRespData_SC_Fwded_SD_PD,Transfer,DERR,CompData_SD_PD,SC,NDERR", "", "none"),
        // Entries g to k with DERR.
        ("SD", "0,SnpCleanFwd,0,0,0,Dirty,SnpRespData_SC_PD_Fwded_SC,Update,OK,CompData_SC,?,DERR", "I SC", "Home"),
        ("SD", "0,SnpCleanFwd,0,0,0,Dirty,SnpRespData_SC_PD_Fwded_SC,Update,DERR,CompData_SC,?,DERR", "I SC", "Home"),
        ("SD", "0,SnpCleanFwd,0,0,0,Dirty,SnpRespData_SC_PD_Fwded_SC,Transfer,OK,CompData_SC,?,DERR", "", "none"),
        ("UC", "0,SnpPreferUniqueFwd,0,0,0,Invalid,SnpResp_I_Fwded_UC,Invalid,OK,CompData_UC,?,DERR", "I", "none"),
        ("UC", "0,SnpPreferUniqueFwd,0,0,1,Invalid,SnpResp_I_Fwded_UC,Invalid,OK,CompData_UC,?,DERR", "", "none"),
        ("UC", "0,SnpPreferUniqueFwd,0,0,0,Invalid,SnpResp_SC_Fwded_SC,Invalid,OK,CompData_SC,?,DERR", "SC", "none"),
        ("UD", "0,SnpPreferUniqueFwd,1,1,0,Clean,SnpResp_I_Fwded_UD_PD,Invalid,OK,CompData_UD_PD,I,DERR", "I", "Requester"),
        // DERR makes no other CompData good, and needs one.
        ("UD", "0,SnpCleanFwd,0,0,0,Invalid,SnpResp_SC_Fwded_SD_PD,Invalid,OK,CompData_SC,?,DERR", "", "none"),
        ("UD", "0,SnpShared,0,0,0,Invalid,SnpResp_I,Invalid,NDERR,-,?,-", "I", "lost"),
        ("UD", "0,SnpShared,0,0,0,Invalid,SnpResp_I,Invalid,NDERR,CompData_SC,?,DERR", "", "none"),
    ] {
        assert_eq!(from(&definition, before, line), (states.to_string(), duty), "{line} from {before}");
    }
}

/// Without a forward the byte of its error is 0; any other in range is accepted and has no step, and what is past it is refused.
#[test]
fn no_forward_has_no_error() {
    let definition = Definition::at_stage(5).unwrap();
    let [to_sc, nderr, data] = [[0, 1, 1, 0, 0, 0], [0, 1, 0, 0, 0, 3], [1, 1, 5, 0, 2, 2]];
    for (answer, sets, duties) in [
        (to_sc, [0, 33, 0, 0, 0, 33, 0], [0; 7]),
        (nderr, [1; 7], [0, 0, 0, 3, 3, 0, 3]),
        (data, [0, 0, 0, 33, 0, 0, 33], [0, 0, 0, 1, 0, 0, 1]),
    ] {
        let told = |error: u8| alone(&definition, &[&[2, 0, 0, 0, 3][..], &answer, &[0, 0, 7, error]].concat());
        assert_eq!(told(0), Alone { refusal: 0, place: 1, sets, duties });
        [1, 2, 3].iter().for_each(|error| assert_eq!(told(*error), Alone { place: 1, ..Alone::default() }));
        [4, 5, 128, 255].iter().for_each(|error| assert_eq!(told(*error), Alone { refusal: 4, ..Alone::default() }));
    }
}

/// Over the whole sweep an event with 0 for the new byte is judged as its 14 bytes are before Q-5, one with DERR on forwarded data as
/// with OK, and one with any other error in range is accepted and has no step.
#[test]
fn q5_judges_as_before() {
    let [four, five] = [4, 5].map(|stage| Definition::at_stage(stage).unwrap());
    let no_step = Alone { place: 1, ..Alone::default() };
    let mut with_derr = 0;
    for event in events_of_rows(&four) {
        for after in 0..=STATE_NOT_SEEN {
            let event = changed(&event, byte::AFTER, after);
            let old = alone(&four, &event);
            let derr = if event[byte::FORWARDED] == 1 { old } else { no_step };
            let told = [0, 1, 2, 3].map(|error| alone(&five, &[&event[..], &[error]].concat()));
            assert_eq!(told, [old, no_step, derr, no_step], "{event:?}");
            with_derr += u32::from(derr != no_step);
        }
    }
    // Each permitted event with a forward: by flags and tags, by TagOps with RespErrs, and by states after.
    assert_eq!(with_derr, forwarding_by_hand());
}

/// How many events with a forward have a step, whatever the state after is, of any flags, tags, TagOp and RespErr.
fn forwarding_by_hand() -> u32 {
    // With Clean, Invalid and unseen tags: one TagOp without data; two TagOps and two RespErrs with data.
    let (plain, data) = (3, 3 * 2 * 2);
    // Under Dirty tags: SnpResp_SD too; with data to Home Transfer for SD, and Update for PD, which unseen tags take besides.
    let (plain_sd, data_sd, data_pd) = (plain + 1, data + 2, data + 2 + 2);
    // States after: what the answer says, or not seen; SC may be I, but not for SnpPreferUniqueFwd.
    let (one, two) = (2, 3);
    // For two snoops: DoNotGoToSD forbids SD, excl is ignored, and RetToSrc is asked for but with PD to Home.
    let from_clean = 2 * 2 * (plain + data) * (two + one);
    let to_sd = 2 * (plain_sd + data_sd) * one;
    let to_requester = 2 * 2 * (plain + data) * (two + one);
    let to_home = 2 * 2 * 2 * data_pd * (two + one);
    // For SnpPreferUniqueFwd: B4.59 whatever excl is, and B4.60 where it is 0.
    let unique = 2 * 2 * (plain + data) * one + to_sd + 2 * 2 * 2 * data_pd * one + 2 * 2 * (plain + plain) * one;
    2 * (from_clean + to_sd + to_requester + to_home) + unique
}

/// From every set an event with 0 for the new byte is judged as before Q-5, and one with DERR on forwarded data as with OK.
#[test]
fn q5_keeps_verdicts_from_sets() {
    let [four, five] = [4, 5].map(|stage| Definition::at_stage(stage).unwrap());
    for event in events_of_rows(&four).iter().filter(|event| has_a_step(&four, event)) {
        for set in 0..=ALL_STATES {
            let old = judge_event(&four, event, set);
            let none = [if set == 0 { NOT_JUDGED } else { UNEXPLAINED }, 0, 0];
            let derr = if event[byte::FORWARDED] == 1 { old } else { none };
            let told = [0, 1, 2, 3].map(|error| judge_event(&five, &[&event[..], &[error]].concat(), set));
            assert_eq!(told, [old, none, derr, none], "{event:?} from {set}");
        }
    }
}

/// Every list has with Q-5 the old answers with 0 for the new byte, and those with a forward with DERR besides; the longest has 57.
#[test]
fn q5_only_adds_derr_to_lists() {
    let [four, five] = [4, 5].map(|stage| Definition::at_stage(stage).unwrap());
    let mut longest = 0;
    for question in all_questions(&four) {
        let mut expected: Vec<Vec<u8>> = Vec::new();
        for answer in answers(&four, &question) {
            expected.push([&answer[..], &[OK]].concat());
            if answer[byte::FORWARDED - byte::CHANNEL] == 1 {
                expected.push([&answer[..], &[DERR]].concat());
            }
        }
        assert_eq!(answers(&five, &question), expected, "{question:?}");
        longest = longest.max(expected.len());
    }
    assert_eq!((longest, all_questions(&five)), (57, all_questions(&four)));
    assert_eq!(answers(&five, &[18, 1, 0, 0, 0, 3]).len(), 57);
}

/// Lists with errors on forwarded data, worked out by hand.
#[test]
fn lists_with_q5() {
    let definition = Definition::at_stage(5).unwrap();
    for (question, answers) in [
        ("SnpShared 0 0 0 Invalid I", "SnpResp_I,Invalid,OK,-,I,- SnpResp_I,Invalid,NDERR,-,I,-"),
        ("SnpMakeInvalid 1 1 1 Dirty UD", "SnpResp_I,Invalid,OK,-,I,- SnpResp_I,Invalid,NDERR,-,I,-"),
        ("SnpCleanFwd 0 0 0 Dirty UC", ""),
        (
            "SnpPreferUniqueFwd 0 0 0 Invalid UC",
            "SnpResp_I,Invalid,NDERR,-,I,- SnpResp_I_Fwded_UC,Invalid,OK,CompData_UC,I,OK \
             SnpResp_I_Fwded_UC,Invalid,OK,CompData_UC,I,DERR SnpResp_SC_Fwded_SC,Invalid,OK,CompData_SC,SC,OK \
             SnpResp_SC_Fwded_SC,Invalid,OK,CompData_SC,SC,DERR",
        ),
        (
            "SnpCleanFwd 0 1 0 Invalid SC",
            "SnpResp_I,Invalid,NDERR,-,I,- SnpResp_I_Fwded_SC,Invalid,OK,CompData_SC,I,OK \
             SnpResp_I_Fwded_SC,Invalid,OK,CompData_SC,I,DERR SnpResp_SC_Fwded_SC,Invalid,OK,CompData_SC,I,OK \
             SnpResp_SC_Fwded_SC,Invalid,OK,CompData_SC,I,DERR SnpResp_SC_Fwded_SC,Invalid,OK,CompData_SC,SC,OK \
             SnpResp_SC_Fwded_SC,Invalid,OK,CompData_SC,SC,DERR",
        ),
        (
            "SnpNotSharedDirtyFwd 1 1 0 Dirty SD",
            "SnpResp_I,Invalid,NDERR,-,I,- SnpRespData_I_PD_Fwded_SC,Update,OK,CompData_SC,I,OK \
             SnpRespData_I_PD_Fwded_SC,Update,OK,CompData_SC,I,DERR SnpRespData_I_PD_Fwded_SC,Update,DERR,CompData_SC,I,OK \
             SnpRespData_I_PD_Fwded_SC,Update,DERR,CompData_SC,I,DERR SnpRespData_SC_PD_Fwded_SC,Update,OK,CompData_SC,I,OK \
             SnpRespData_SC_PD_Fwded_SC,Update,OK,CompData_SC,I,DERR SnpRespData_SC_PD_Fwded_SC,Update,OK,CompData_SC,SC,OK \
             SnpRespData_SC_PD_Fwded_SC,Update,OK,CompData_SC,SC,DERR SnpRespData_SC_PD_Fwded_SC,Update,DERR,CompData_SC,I,OK \
             SnpRespData_SC_PD_Fwded_SC,Update,DERR,CompData_SC,I,DERR SnpRespData_SC_PD_Fwded_SC,Update,DERR,CompData_SC,SC,OK \
             SnpRespData_SC_PD_Fwded_SC,Update,DERR,CompData_SC,SC,DERR",
        ),
    ] {
        listed(&definition, question, answers);
    }
}

/// With Q-5 a list needs ten bytes for each answer, and with fewer nothing is written.
#[test]
fn rooms_with_q5() {
    let definition = Definition::at_stage(5).unwrap();
    let refused = |question: [u8; 6], length: usize, refusal: u8| {
        let room = vec![7; length];
        assert_eq!(list(&definition, &question, &room), Listed { refusal, count: 0, room: room.clone() }, "{length}");
    };
    (0..20).for_each(|length| refused([1, 0, 0, 0, 0, 0], length, 9));
    for more in [0, 1, 10, 100] {
        let own = list(&definition, &[1, 0, 0, 0, 0, 0], &vec![7; 20 + more]);
        let room = [&[0, 1, 0, 0, 0, 0, 0, 0, 0, 0, 0, 1, 0, 0, 0, 3, 0, 0, 0, 0], &vec![7; more][..]].concat();
        assert_eq!(own, Listed { refusal: 0, count: 2, room });
    }
    [0, 512, 513, 514, 568, 569].iter().for_each(|length| refused([18, 1, 0, 0, 0, 3], *length, 9));
    let own = list(&definition, &[18, 1, 0, 0, 0, 3], &[7; 571]);
    assert_eq!((own.refusal, own.count, own.room[570]), (0, 57, 7));
    // The first answer that forwards, with OK and with DERR, and the last one.
    assert_eq!(own.room[10..30], [1, 6, 0, 7, 0, 0, 1, 7, 0, 0, 1, 6, 0, 7, 0, 0, 1, 7, 0, 2]);
    assert_eq!(own.room[560..570], [1, 6, 5, 1, 1, 2, 1, 1, 5, 2]);
    refused([18, 1, 0, 0, 3, 3], 571, 4);
    refused([19, 1, 0, 0, 0, 3], 571, 5);
    refused([1, 0, 0, 0, 2, 1], 0, 0);
}

/// SnpCleanFwd answered with SnpResp_SC_Fwded_SD_PD, the forwarded data having DERR.
const TO_REQUESTER_WITH_DERR: [u8; 15] = [18, 0, 0, 0, 3, 0, 9, 1, 7, 0, 0, 1, 7, 7, 2];
/// The same, the forwarded data having NDERR.
const TO_REQUESTER_WITH_NDERR: [u8; 15] = [18, 0, 0, 0, 3, 0, 9, 1, 7, 0, 0, 1, 7, 7, 3];
/// SnpCleanFwd answered with SnpRespData_SC_PD_Fwded_SC, Home's data having DERR and the forwarded data too.
const TO_HOME_WITH_DERR: [u8; 15] = [18, 1, 0, 0, 3, 1, 6, 5, 1, 1, 2, 1, 1, 5, 2];
/// SnpClean answered with SnpResp_SC and DERR of a forward that isn't there.
const NO_FORWARD_WITH_DERR: [u8; 15] = [2, 0, 0, 0, 3, 0, 1, 1, 0, 0, 0, 0, 0, 7, 2];

/// Traces with errors on forwarded data, worked out by hand.
#[test]
fn traces_with_q5() {
    let ok = changed(&TO_REQUESTER_WITH_DERR, byte::FWD_ERR, 0).try_into().unwrap();
    let exok = changed(&TO_REQUESTER_WITH_DERR, byte::FWD_ERR, 1).try_into().unwrap();
    let no_error = changed(&NO_FORWARD_WITH_DERR, byte::FWD_ERR, 0).try_into().unwrap();
    let traces: [ByHand<15>; 7] = [
        (&[TO_REQUESTER_WITH_DERR; 3], &[0, 1, 2], &[64, 55, 0], [&[0, 1, 2], &[2, 0, 0], &[33, 0, 0], &[33, 0, 0]]),
        (&[TO_REQUESTER_WITH_NDERR; 3], &[0, 1, 2], &[64, 127, 0], [&[1, 1, 2], &[0; 3], &[0; 3], &[0; 3]]),
        (&[exok, ok, TO_REQUESTER_WITH_DERR], &[0, 1, 2], &[8, 8, 8], [&[1, 0, 0], &[0, 2, 2], &[0, 33, 33], &[0, 33, 33]]),
        (&[TO_REQUESTER_WITH_NDERR, ok], &[0, 0], &[127], [&[1, 2], &[0, 0], &[0, 0], &[0]]),
        (&[TO_HOME_WITH_DERR, no_error], &[0, 0], &[127], [&[0, 0], &[1, 0], &[32, 33], &[33]]),
        (&[NO_FORWARD_WITH_DERR, no_error, no_error], &[0, 0, 1], &[127, 32], [&[1, 2, 0], &[0; 3], &[0, 0, 33], &[0, 33]]),
        (&[ok, TO_REQUESTER_WITH_DERR], &[0, 0], &[72], [&[0, 1], &[2, 0], &[33, 0], &[0]]),
    ];
    (5..=6).for_each(|stage| judged_by_hand(&Definition::at_stage(stage).unwrap(), &traces));
}

/// A trace of so many bytes of events and so many of all that goes with events, all of them 0, over one pair.
fn zeros(bytes: usize, events: usize) -> Lent {
    let [verdicts, duties, after_sets] = [0, 0, 0].map(|byte| vec![byte; events]);
    Lent { events: vec![0; bytes], pairs: vec![0; 2 * events], table: vec![127], verdicts, duties, after_sets }
}

/// Traces refused with Q-5: what is changed in the example over five pairs, and the refusal with its place.
#[test]
fn traces_refused_with_q5() {
    let definition = Definition::at_stage(5).unwrap();
    let example = EXAMPLE.map(|event| <[u8; 15]>::try_from(event_at(&definition, &event)).unwrap());
    let changes: [(fn(&mut Lent), u8, usize); 16] = [
        (|lent| lent.events.truncate(59), 1, 0),
        (|lent| lent.events.truncate(56), 1, 0),
        (|lent| lent.events.truncate(45), 1, 0),
        (|lent| lent.events.push(0), 1, 0),
        (|lent| lent.events.extend([0; 15]), 1, 0),
        (|lent| lent.events[14] = 4, 4, 0),
        (|lent| lent.events[29] = 255, 4, 1),
        (|lent| lent.events[59] = 4, 4, 3),
        (|lent| (lent.events[14], lent.events[59]) = (3, 4), 4, 3),
        (|lent| (lent.events[15], lent.events[29]) = (0, 4), 4, 1),
        (|lent| (lent.events[0], lent.events[29]) = (0, 4), 5, 0),
        (|lent| (lent.pairs[2], lent.events[29]) = (5, 4), 3, 1),
        (|lent| (lent.pairs[4], lent.events[29]) = (5, 4), 4, 1),
        (|lent| (lent.table[4], lent.events[14]) = (128, 4), 2, 4),
        // Fifteen old events have as many bytes as fourteen new ones.
        (|lent| *lent = zeros(210, 15), 1, 0),
        (|lent| lent.events = EXAMPLE.concat(), 1, 0),
    ];
    for (n, (change, refusal, place)) in changes.into_iter().enumerate() {
        let mut lent = lent(&example, &[0, 1, 0, 4], &[127; 5]);
        change(&mut lent);
        assert_eq!(judge(&definition, &lent), Judged { refusal, place, lent: lent.clone() }, "change {n}");
    }
    for error in [1, 2, 3] {
        let mut lent = lent(&example, &[0, 1, 0, 4], &[127; 5]);
        lent.events[29] = error;
        let judged = judge(&definition, &lent);
        assert_eq!((judged.refusal, judged.place, &judged.lent.verdicts[..]), (0, 4, &[0, 1, 1, 0][..]));
    }
    let most = |events: usize| lent(&vec![TO_REQUESTER_WITH_DERR; events], &vec![4_095; events], &[8; 4_096]);
    let judged = judge(&definition, &most(4_096));
    assert_eq!((judged.refusal, judged.place, &judged.lent.duties[..2]), (0, 4_096, &[2, 0][..]));
    assert_eq!(judge(&definition, &most(4_097)).refusal, 1);
}

/// A line that forwards with the duty to the Requester, as it was before Q-5.
const FORWARDS: &str = "5,SnpCleanFwd,0,0,0,?,SnpResp_SC_Fwded_SD_PD,Invalid,OK,CompData_SD_PD,?";

/// Sheets with Q-5's column, worked out by hand.
#[test]
fn sheets_with_q5() {
    let definition = Definition::at_stage(5).unwrap();
    let head = HEAD.replace("final\r\n", "final,fwdErr\r\n");
    let exchanged = HEAD.replace("final\r\n", "fwdErr,final\r\n");
    let (requester, unexplained) = ("0,explained,Requester,I SC\r\n", "0,unexplained,none,\r\n");
    let x = "x".repeat(200);
    let sheets = [
        (format!("{head}{GOOD},-\r\n"), TOLD.to_string()),
        (format!("{head}{GOOD},-"), TOLD.to_string()),
        (head.clone(), String::new()),
        // The old header, whatever stands behind it, and a new one in another order.
        (HEAD.to_string(), "refused,6,1\r\n".to_string()),
        (format!("{HEAD}{GOOD}\r\n"), "refused,6,1\r\n".to_string()),
        (format!("{HEAD}{GOOD},-\r\n"), "refused,6,1\r\n".to_string()),
        (format!("{exchanged}{GOOD},-\r\n"), "refused,6,1\r\n".to_string()),
        (format!("{},\r\n{GOOD},-\r\n", HEAD.trim_end()), "refused,6,1\r\n".to_string()),
        // Eleven fields and thirteen.
        (format!("{head}{GOOD}\r\n"), "refused,8,2\r\n".to_string()),
        (format!("{head}{GOOD},-\r\n{GOOD}\r\n"), format!("{TOLD}refused,8,3\r\n")),
        (format!("{head}{FORWARDS}\r\n"), "refused,8,2\r\n".to_string()),
        (format!("{head}{GOOD},-,-\r\n"), "refused,8,2\r\n".to_string()),
        (format!("{head}{GOOD},-,\r\n"), "refused,8,2\r\n".to_string()),
        (format!("{head}{GOOD},\r\n"), "refused,8,2\r\n".to_string()),
        // The error before the final state.
        (format!("{head}{},-,?\r\n", &GOOD[..GOOD.len() - 2]), "refused,8,2\r\n".to_string()),
        // - in one column alone.
        (format!("{head}{FORWARDS},-\r\n"), "refused,8,2\r\n".to_string()),
        (format!("{head}{GOOD},OK\r\n"), "refused,8,2\r\n".to_string()),
        (format!("{head}{GOOD},DERR\r\n"), "refused,8,2\r\n".to_string()),
        // 8 comes before 3, and 7 before 8.
        (format!("{head}4096{},-\r\n", &FORWARDS[1..]), "refused,8,2\r\n".to_string()),
        (format!("{head}4096{},OK\r\n", &FORWARDS[1..]), "refused,3,2\r\n".to_string()),
        (format!("{head}4096{},-\r\n", &GOOD[1..]), "refused,3,2\r\n".to_string()),
        (format!("{head}{GOOD}{},OK\r\n", &x[..99]), "refused,8,2\r\n".to_string()),
        (format!("{head}{GOOD}{},OK\r\n", &x[..100]), "refused,7,2\r\n".to_string()),
        // Each name.
        (format!("{head}{FORWARDS},OK\r\n"), requester.to_string()),
        (format!("{head}{FORWARDS},DERR\r\n"), requester.to_string()),
        (format!("{head}{FORWARDS},EXOK\r\n"), unexplained.to_string()),
        (format!("{head}{FORWARDS},NDERR\r\n"), unexplained.to_string()),
        (format!("{head}{FORWARDS},NDERR\r\n{FORWARDS},OK"), format!("{unexplained}1,not judged,none,\r\n")),
    ];
    for (sheet, output) in sheets {
        answered(&definition, sheet.as_bytes(), &output);
        // Before Q-5 its header was another one.
        if sheet.starts_with(&head) {
            answered(&Definition::at_stage(4).unwrap(), sheet.as_bytes(), "refused,6,1\r\n");
        }
    }
}

/// The names of fwdErr with a forward and without, and fields that it doesn't know.
#[test]
fn fields_with_q5() {
    let definition = Definition::at_stage(5).unwrap();
    let head = HEAD.replace("final\r\n", "final,fwdErr\r\n");
    let refused = |line: &str, field: &str| sheet::answer(&definition, format!("{head}{line},{field}").as_bytes()).refusal;
    for field in ["OK", "EXOK", "DERR", "NDERR"] {
        assert_eq!((refused(FORWARDS, field), refused(GOOD, field)), (None, Some((8, 2))), "{field}");
    }
    assert_eq!((refused(FORWARDS, "-"), refused(GOOD, "-")), (Some((8, 2)), None));
    for field in ["", " ", "?", "--", "Ok", "ok", "OK ", " OK", "OKAY", "EXOKAY", "DERr", "NDERRR", "0", "2", "CompData_SC", "\"OK\""] {
        assert_eq!((refused(FORWARDS, field), refused(GOOD, field)), (Some((8, 2)), Some((8, 2))), "{field}");
    }
}

/// Captures with Q-5's mark and byte, worked out by hand.
#[test]
#[rustfmt::skip]
fn captures_with_q5() {
    let [four, five] = [4, 5].map(|stage| Definition::at_stage(stage).unwrap());
    let old = |pair: u16, event: &[u8]| [&pair.to_le_bytes()[..], event].concat();
    let record = |pair: u16, event: &[u8]| old(pair, &event_at(&five, event));
    let mark = b"CHI\x0f".to_vec();
    let example = EXAMPLE.map(|event| record(0, &event)).concat();
    let plain = |count: usize| record(1, &[1, 0, 0, 0, 3, 0, 1, 0, 0, 0, 0, 0, 0, 7]).repeat(count);
    let old_plain = |count: usize| old(1, &[1, 0, 0, 0, 3, 0, 1, 0, 0, 0, 0, 0, 0, 7]).repeat(count);
    let bad = record(0, &changed(&TO_REQUESTER_WITH_DERR, byte::FWD_ERR, 4));
    let captures: [CaptureByHand; 24] = [
        // No mark, a cut one, another one, an old capture.
        (vec![], "", Some((1, 0))),
        (b"C".to_vec(), "", Some((1, 0))),
        (b"CH".to_vec(), "", Some((1, 0))),
        (b"CHI".to_vec(), "", Some((1, 0))),
        (b"CHI\x0e".to_vec(), "", Some((1, 0))),
        ([b"CHI\x0e", &example[..]].concat(), "", Some((1, 0))),
        ([b"CHI\x0e", &old_plain(3)[..]].concat(), "", Some((1, 0))),
        ([b"chi\x0f", &example[..]].concat(), "", Some((1, 0))),
        ([b"\nCHI\x0f", &example[..]].concat(), "", Some((1, 0))),
        (example.clone(), "", Some((1, 0))),
        (old_plain(1), "", Some((1, 0))),
        (old_plain(17), "", Some((1, 0))),
        // The mark, and records as before.
        (mark.clone(), "0 events: 0 explained, 0 unexplained, 0 not judged\n", None),
        ([&mark[..], &example].concat(), "event 0, pair 0: Home holds the duty\nevent 2, pair 0: unexplained\n\
             4 events: 2 explained, 1 unexplained, 1 not judged\n", None),
        ([&mark[..], &record(9, &TO_REQUESTER_WITH_DERR), &record(300, &TO_HOME_WITH_DERR)].concat(),
             "event 0, pair 9: the Requester holds the duty\nevent 1, pair 300: Home holds the duty\n\
             2 events: 2 explained, 0 unexplained, 0 not judged\n", None),
        ([&mark[..], &record(9, &TO_REQUESTER_WITH_NDERR), &record(9, &TO_SC)].concat(),
             "event 0, pair 9: unexplained\n2 events: 0 explained, 1 unexplained, 1 not judged\n", None),
        ([&mark[..], &record(9, &NO_FORWARD_WITH_DERR)].concat(),
             "event 0, pair 9: unexplained\n1 events: 0 explained, 1 unexplained, 0 not judged\n", None),
        ([&mark[..], &plain(4_097)].concat(), "4097 events: 4097 explained, 0 unexplained, 0 not judged\n", None),
        ([&mark[..], &example, &bad].concat(), "", Some((4, 4))),
        ([&mark[..], &example[..17], &plain(4_095), &bad].concat(), "event 0, pair 0: Home holds the duty\n", Some((4, 4_096))),
        ([&mark[..], &example[..16]].concat(), "", Some((0, 0))),
        ([&mark[..], &example, &[0]].concat(), "", Some((0, 4))),
        // The mark twice is a pair that isn't there, and old records are no new ones.
        ([&mark[..], &mark, &plain(1)[..13]].concat(), "", Some((3, 0))),
        ([&mark[..], &old_plain(17)].concat(), "", Some((4, 1))),
    ];
    for (n, (capture, output, stop)) in captures.into_iter().enumerate() {
        let own = capture::answer(&five, &capture);
        assert_eq!((String::from_utf8_lossy(&own.output), own.stop), (output.into(), stop), "capture {n}");
    }
    let no_mark = capture::answer(&five, &example);
    assert_eq!((no_mark.message(), no_mark.told), ("capture: refused with 1 at event 0\n".to_string(), vec![]));
    // Before Q-5 there was no mark.
    assert_eq!(capture::answer(&four, &[]).stop, None);
    assert_eq!(capture::answer(&four, &mark).stop, Some((0, 0)));
    assert_eq!(capture::answer(&four, &old_plain(17)).told.len(), 17);
    let head = HEAD.replace("final\r\n", "final,fwdErr\r\n");
    let sheet = format!("{head}{GOOD},-\r\n{FORWARDS},DERR\r\n{FORWARDS},-\r\n");
    let expected = [mark.clone(), record(0, &EXAMPLE[0]), record(5, &TO_REQUESTER_WITH_DERR)].concat();
    assert_eq!(capture::of_sheet(&five, sheet.as_bytes()), (expected, Some((8, 4))));
    assert_eq!(capture::of_sheet(&five, HEAD.as_bytes()), (mark, Some((6, 1))));
}

/// The samples of Q-5 are answered as they are by hand.
#[test]
fn samples_of_q5() {
    let [four, five] = [4, 5].map(|stage| Definition::at_stage(stage).unwrap());
    let sample = include_bytes!("../../../samples/forwarded_error.csv");
    answered(
        &five,
        sample,
        "0,explained,none,SD\r\n1,explained,Requester,I SC\r\n2,explained,Requester,I\r\n3,explained,Home,SC\r\n\
         4,explained,none,I SC\r\n5,explained,Requester,SC\r\n6,unexplained,none,\r\n7,not judged,none,\r\n",
    );
    let told = capture::answer(&five, include_bytes!("../../../samples/forwarded_error.capture"));
    let by_hand = "event 1, pair 70: the Requester holds the duty\nevent 2, pair 71: the Requester holds the duty\n\
         event 3, pair 72: Home holds the duty\nevent 5, pair 73: the Requester holds the duty\nevent 6, pair 73: unexplained\n\
         8 events: 6 explained, 1 unexplained, 1 not judged\n";
    assert_eq!((String::from_utf8_lossy(&told.output), told.stop), (by_hand.into(), None));
    // The morning of before Q-5 was answered before it as the morning is from then on.
    let (before, now) = (include_bytes!("../../../samples/before_fwd_err.csv"), include_bytes!("../../../samples/morning.csv"));
    answered(&five, before, "refused,6,1\r\n");
    assert_eq!(before_q5(now), before);
    assert_eq!(sheet::answer(&four, before).output, sheet::answer(&five, now).output);
}

/// A table of so many pairs, all of them in any state but some that have these sets.
fn table_of(pairs: usize, others: &[(usize, u8)]) -> Vec<u8> {
    let mut table = vec![ALL_STATES; pairs];
    others.iter().for_each(|(pair, set)| table[*pair] = *set);
    table
}

/// Traces over as many pairs as there can be with Q-6, worked out by hand; pairs 4095 and 65535 are equal modulo 4,096, as are 0, 4096
/// and 32768.
#[test]
fn traces_with_q6() {
    let six = Definition::at_stage(6).unwrap();
    let events = [EXAMPLE[2], TO_SC, EXAMPLE[0], TO_REQUESTER, WITH_NDERR, EXAMPLE[2], TO_SC, TO_SC];
    let pairs = [4_095, 65_535, 4_096, 0, 4_095, 65_535, 32_767, 32_768];
    let told: [&[u8]; 3] = [&[0, 0, 0, 0, 0, 1, 0, 0], &[0, 0, 1, 2, 3, 0, 0, 0], &[64, 33, 33, 33, 1, 0, 33, 33]];
    let after = [(4_095, 1), (65_535, 0), (4_096, 33), (0, 33), (32_767, 33), (32_768, 33)];
    let table = table_of(65_536, &after);
    judged_by_hand(&six, &[(&events, &pairs, &[ALL_STATES; 65_536], [told[0], told[1], told[2], &table])]);
    // Sets that are lent far back, and events of the last pairs alone.
    let (before, after) = ([(65_534, 0), (65_535, 8), (4_095, 0)], [(65_534, 0), (65_535, 1), (4_095, 0)]);
    let [before, after] = [before, after].map(|others| table_of(65_536, &others));
    let expected: [&[u8]; 4] = [&[2, 0, 0], &[0, 3, 0], &[0, 1, 1], &after];
    judged_by_hand(&six, &[(&[WITH_NDERR; 3], &[65_534, 65_535, 65_535], &before, expected)]);
}

/// What is told of a trace with more pairs than there can be.
const TOO_MANY: (u8, usize) = (1, 0);

/// Asserts what traces are refused with and where, or that they are accepted, with Q-6 and before it.
fn refused_with_q6(traces: &[(Lent, (u8, usize), (u8, usize))]) {
    let [five, six] = [5, 6].map(|stage| Definition::at_stage(stage).unwrap());
    for (n, (lent, now, before)) in traces.iter().enumerate() {
        for (definition, expected) in [(&six, now), (&five, before)] {
            let judged = judge(definition, lent);
            assert_eq!((judged.refusal, judged.place), *expected, "trace {n}");
            assert!(judged.refusal == 0 || judged.lent == *lent, "trace {n}");
        }
    }
}

/// A trace of events of these pairs that are good, over a table.
fn good_events(pairs: &[u16], table: Vec<u8>) -> Lent {
    lent(&vec![TO_REQUESTER_WITH_DERR; pairs.len()], pairs, &table)
}

/// Numbers of pairs and of events, and pair numbers that a table just has and just lacks.
#[test]
fn many_pairs_with_q6() {
    let over = |pairs: &[u16], length: usize| good_events(pairs, table_of(length, &[]));
    let most = |events: usize, length: usize| over(&vec![65_535; events], length);
    refused_with_q6(&[
        (over(&[], 4_096), (0, 0), (0, 0)),
        (over(&[], 4_097), (0, 0), TOO_MANY),
        (over(&[], 65_536), (0, 0), TOO_MANY),
        (over(&[], 65_537), TOO_MANY, TOO_MANY),
        (over(&[4_095], 4_096), (0, 1), (0, 1)),
        (over(&[0, 4_096], 4_096), (3, 1), (3, 1)),
        (over(&[0, 4_096], 4_097), (0, 2), TOO_MANY),
        (over(&[0, 65_535], 4_097), (3, 1), TOO_MANY),
        (over(&[0, 32_768], 32_768), (3, 1), TOO_MANY),
        (over(&[0, 32_768], 32_769), (0, 2), TOO_MANY),
        (over(&[65_534, 0, 65_535], 65_535), (3, 2), TOO_MANY),
        (over(&[65_534, 0, 65_535], 65_536), (0, 3), TOO_MANY),
        (over(&[0, 65_535], 65_537), TOO_MANY, TOO_MANY),
        // There can be no more events than before.
        (most(4_095, 65_536), (0, 4_095), TOO_MANY),
        (most(4_096, 65_536), (0, 4_096), TOO_MANY),
        (most(4_097, 65_536), (1, 0), TOO_MANY),
        (most(4_096, 65_535), (3, 0), TOO_MANY),
        (zeros(15 * 4_097, 4_097), (1, 0), (1, 0)),
    ]);
}

/// Bad sets of large tables, and the order of the refusals over them.
#[test]
fn bad_sets_with_q6() {
    let bad_set = |pair: usize, length: usize| table_of(length, &[(pair, 128)]);
    // Puts a value into a byte of the first event.
    let with = |place: usize, value: u8, lent: Lent| Lent { events: changed(&lent.events, place, value), ..lent };
    let all_bad = with(byte::AFTER, 8, good_events(&[65_535, 0], bad_set(65_536, 65_537)));
    refused_with_q6(&[
        (good_events(&[], bad_set(4_095, 4_096)), (2, 4_095), (2, 4_095)),
        (good_events(&[], bad_set(4_096, 65_536)), (2, 4_096), TOO_MANY),
        (good_events(&[], bad_set(65_535, 65_536)), (2, 65_535), TOO_MANY),
        (good_events(&[], table_of(65_536, &[(65_535, 255), (4_096, 128), (32_768, 200)])), (2, 4_096), TOO_MANY),
        // 1 comes before 2, and 2 before 3, 4 and 5.
        (good_events(&[], bad_set(65_536, 65_537)), TOO_MANY, TOO_MANY),
        (Lent { duties: vec![], ..good_events(&[65_535], bad_set(65_535, 65_536)) }, (1, 0), TOO_MANY),
        (Lent { verdicts: vec![0; 9], ..all_bad.clone() }, TOO_MANY, TOO_MANY),
        (all_bad, TOO_MANY, TOO_MANY),
        (good_events(&[65_535], bad_set(65_534, 65_535)), (2, 65_534), TOO_MANY),
        (with(byte::AFTER, 8, good_events(&[0], bad_set(65_535, 65_536))), (2, 65_535), TOO_MANY),
        (with(byte::REQUEST, 3, good_events(&[0], bad_set(65_535, 65_536))), (2, 65_535), TOO_MANY),
        // Of one event 3 comes before 4 and 5, and of two the first.
        (with(byte::AFTER, 8, good_events(&[65_535], table_of(65_535, &[]))), (3, 0), TOO_MANY),
        (with(byte::AFTER, 8, good_events(&[65_535], table_of(65_536, &[]))), (4, 0), TOO_MANY),
        (with(byte::REQUEST, 3, good_events(&[65_535], table_of(65_535, &[]))), (3, 0), TOO_MANY),
        (with(byte::REQUEST, 3, good_events(&[65_535], table_of(65_536, &[]))), (5, 0), TOO_MANY),
        (with(byte::REQUEST, 3, good_events(&[0, 65_535], table_of(65_535, &[]))), (5, 0), TOO_MANY),
    ]);
}

/// A line of before Q-5 with this field for its pair and with a last field more.
fn line_of_pair(pair: &str, line: &str) -> String {
    format!("{pair},{},-\r\n", line.split_once(',').unwrap().1)
}

/// Asserts that lines after a sheet's header are answered with this after the output's header with Q-6, and with that before it.
fn answered_with_q6(lines: &str, now: &str, before: &str) {
    for (stage, output) in [(6, now), (5, before)] {
        let definition = Definition::at_stage(stage).unwrap();
        answered(&definition, format!("{}\r\n{lines}", definition.header).as_bytes(), output);
    }
}

/// Sheets with pairs of five digits, worked out by hand, and how they were answered before Q-6.
#[test]
fn sheets_with_q6() {
    let home = |pair: &str| line_of_pair(pair, GOOD);
    let to_sd = |pair: &str| line_of_pair(pair, "0,SnpClean,0,0,0,?,SnpRespData_SD,Transfer,OK,-,?");
    let not_known = |pair: &str| line_of_pair(pair, "0,SnpShared,0,0,0,Invalid,SnpRespData_SC_PD,Invalid,OK,-,x");
    let told = |n: usize| format!("{n},explained,Home,I SC\r\n");
    let refused = |number: usize, line: usize| format!("refused,{number},{line}\r\n");
    let both = |output: String| (output.clone(), output);
    let sheets = [
        (home("4095"), both(told(0))),
        (home("4096"), (told(0), refused(3, 2))),
        (home("9999"), (told(0), refused(3, 2))),
        (home("10000"), (told(0), refused(8, 2))),
        (home("65535"), (told(0), refused(8, 2))),
        (home("65536"), (refused(3, 2), refused(8, 2))),
        (home("99999"), (refused(3, 2), refused(8, 2))),
        (home("100000"), both(refused(8, 2))),
        (home("04095"), both(refused(8, 2))),
        (home("065535"), both(refused(8, 2))),
        // 8 comes before 3, and 7 before 8.
        (not_known("4096"), both(refused(8, 2))),
        (not_known("65535"), both(refused(8, 2))),
        (not_known("65536"), both(refused(8, 2))),
        (format!("65536{}\r\n", ",".repeat(155)), both(refused(8, 2))),
        (format!("65536{}\r\n", ",".repeat(156)), both(refused(7, 2))),
        // What stands before a refusal stays.
        (home("7") + &home("65536"), (told(0) + &refused(3, 3), told(0) + &refused(8, 3))),
        (home("7") + &home("4096") + &home("x"), (told(0) + &told(1) + &refused(8, 4), told(0) + &refused(3, 3))),
        (home("7") + &home("10000") + &home("7"), (told(0) + &told(1) + "2,unexplained,none,\r\n", told(0) + &refused(8, 3))),
        // Pairs that are equal modulo 4,096 or 65,536, and ones of which one begins or ends the other.
        (home("0") + &home("4096") + &home("32768"), (told(0) + &told(1) + &told(2), told(0) + &refused(3, 3))),
        (home("65535") + &home("4095") + &home("32767"), (told(0) + &told(1) + &told(2), refused(8, 2))),
        (home("65535") + &home("6553") + &home("5535"), (told(0) + &told(1) + &told(2), refused(8, 2))),
        (home("0") + &home("65536"), (told(0) + &refused(3, 3), told(0) + &refused(8, 3))),
        (home("65535") + &to_sd("65535") + &home("65535"), (told(0) + "1,unexplained,none,\r\n2,not judged,none,\r\n", refused(8, 2))),
        (to_sd("65535") + &home("65534") + &home("65535"), ("0,explained,none,SD\r\n".to_string() + &told(1) + &told(2), refused(8, 2))),
    ];
    sheets.iter().for_each(|(lines, (now, before))| answered_with_q6(lines, now, before));
}

/// Numbers of more than five digits, and fields that are no numbers as pairs are written.
const NO_PAIRS: &str = "100000 131071 999999 4294967295 4294967296 4295032831 18446744073709551615 18446744073709551616 00 01 00000 \
    000000 065535 6553x x5535 -65535 +65535";

/// Every number of up to five digits is a pair if it is below 65,536, and else refused with 3; before Q-6 it was a pair if it was below
/// 4,096, and else refused with 3 if it had up to four digits and with 8 if it had five.
#[test]
fn pairs_with_q6() {
    for (stage, most, digits) in [(5, 4_096, 4), (6, 65_536, 5)] {
        let definition = Definition::at_stage(stage).unwrap();
        let read = |pair: &str| {
            let line = line_of_pair(pair, GOOD);
            let mut read = None;
            let refusal =
                sheet::each_event(&definition, &[definition.header.as_bytes(), line.trim_end().as_bytes()], |pair, _| read = Some(pair));
            read.ok_or(refusal)
        };
        for number in 0..100_000 {
            let expected = match number {
                _ if number < most => Ok(number),
                _ if number.to_string().len() <= digits => Err(Some((3, 2))),
                _ => Err(Some((8, 2))),
            };
            assert_eq!(read(&number.to_string()), expected, "{number}");
        }
        NO_PAIRS.split(' ').for_each(|field| assert_eq!(read(field), Err(Some((8, 2))), "{field}"));
    }
}

/// Captures with pairs that there could not be before Q-6, worked out by hand: no pair number is refused any more.
#[test]
#[rustfmt::skip]
fn captures_with_q6() {
    let [five, six] = [5, 6].map(|stage| Definition::at_stage(stage).unwrap());
    let record = |pair: u16, event: &[u8]| [&pair.to_le_bytes()[..], &event_at(&six, event)].concat();
    let capture = |records: &[Vec<u8>]| [b"CHI\x0f", &records.concat()[..]].concat();
    let plain = |count: usize| record(1, &[1, 0, 0, 0, 3, 0, 1, 0, 0, 0, 0, 0, 0, 7]).repeat(count);
    let captures: [(Vec<u8>, &str, (&str, usize)); 7] = [
        (capture(&[record(4_096, &EXAMPLE[0])]),
             "event 0, pair 4096: Home holds the duty\n1 events: 1 explained, 0 unexplained, 0 not judged\n", ("", 0)),
        (capture(&[record(4_095, &EXAMPLE[0]), record(65_535, &EXAMPLE[0]), record(65_535, &EXAMPLE[2]), record(65_535, &TO_SC)]),
             "event 0, pair 4095: Home holds the duty\nevent 1, pair 65535: Home holds the duty\n\
             event 2, pair 65535: unexplained\n4 events: 2 explained, 1 unexplained, 1 not judged\n", ("", 1)),
        (capture(&[record(0, &EXAMPLE[2]), record(4_096, &TO_SC), record(32_768, &TO_REQUESTER), record(65_534, &WITH_NDERR)]),
             "event 2, pair 32768: the Requester holds the duty\nevent 3, pair 65534: the duty is lost\n\
             4 events: 4 explained, 0 unexplained, 0 not judged\n", ("", 1)),
        // A set is kept from one part to the next.
        (capture(&[record(65_535, &EXAMPLE[2]), plain(4_095), record(65_535, &WITH_NDERR), record(4_095, &WITH_NDERR)]),
             "event 4096, pair 65535: the duty is lost\nevent 4097, pair 4095: the duty is lost\n\
             4098 events: 4098 explained, 0 unexplained, 0 not judged\n", ("", 0)),
        (capture(&[record(3, &EXAMPLE[0]), plain(4_095), record(65_535, &EXAMPLE[0])]),
             "event 0, pair 3: Home holds the duty\nevent 4096, pair 65535: Home holds the duty\n\
             4097 events: 4097 explained, 0 unexplained, 0 not judged\n", ("event 0, pair 3: Home holds the duty\n", 4_096)),
        (capture(&[plain(4_095), record(9_999, &TO_SC)]), "4096 events: 4096 explained, 0 unexplained, 0 not judged\n", ("", 4_095)),
        (capture(&[plain(4_096), record(10_000, &TO_SC)]), "4097 events: 4097 explained, 0 unexplained, 0 not judged\n", ("", 4_096)),
    ];
    for (n, (capture, output, (before, event))) in captures.into_iter().enumerate() {
        for (definition, output, stop) in [(&six, output, None), (&five, before, Some((3, event)))] {
            let own = capture::answer(definition, &capture);
            assert_eq!((String::from_utf8_lossy(&own.output), own.stop), (output.into(), stop), "capture {n}");
        }
    }
}

/// What was refused with 3 for its pair is refused with Q-6 for what else is wrong with the event; a sheet's last pair comes into its
/// capture, and no pair after it.
#[test]
fn captures_refused_with_q6() {
    let [five, six] = [5, 6].map(|stage| Definition::at_stage(stage).unwrap());
    let record = |event: &[u8]| [&b"CHI\x0f\xff\xff"[..], &event_at(&six, event)].concat();
    let stops = |capture: &[u8]| [&five, &six].map(|definition| capture::answer(definition, capture).stop);
    assert_eq!(stops(&record(&changed(&EXAMPLE[0], byte::AFTER, 8))), [Some((3, 0)), Some((4, 0))]);
    assert_eq!(stops(&record(&changed(&EXAMPLE[0], byte::REQUEST, 3))), [Some((3, 0)), Some((5, 0))]);
    assert_eq!(stops(&record(&EXAMPLE[0])[..20]), [Some((0, 0)), Some((0, 0))]);
    // The mark twice is a pair too.
    assert_eq!(stops(&[&b"CHI\x0fCHI\x0f"[..], &[0; 13]].concat()), [Some((3, 0)), Some((4, 0))]);
    let sheet = format!("{}\r\n{}{}", six.header, line_of_pair("65535", GOOD), line_of_pair("65536", GOOD));
    assert_eq!(capture::of_sheet(&six, sheet.as_bytes()), (record(&EXAMPLE[0]), Some((3, 3))));
}

/// The samples of Q-6 are answered as they are by hand, and before it were refused at the first pair of five digits.
#[test]
fn samples_of_q6() {
    let [five, six] = [5, 6].map(|stage| Definition::at_stage(stage).unwrap());
    let sample = include_bytes!("../../../samples/high_pairs.csv");
    answered(
        &six,
        sample,
        "0,explained,none,SD\r\n1,explained,none,SC\r\n2,explained,Home,SC\r\n3,explained,Requester,I SC\r\n\
         4,explained,none,I\r\n5,explained,none,SC\r\n6,explained,Home,I\r\n7,unexplained,none,\r\n\
         8,explained,none,I\r\n9,not judged,none,\r\n10,explained,none,SC\r\n11,explained,none,I SC\r\n",
    );
    answered(&five, sample, "0,explained,none,SD\r\nrefused,8,3\r\n");
    let told = capture::answer(&six, include_bytes!("../../../samples/high_pairs.capture"));
    let by_hand = "event 2, pair 4096: Home holds the duty\nevent 3, pair 9999: the Requester holds the duty\n\
         event 6, pair 4095: Home holds the duty\nevent 7, pair 10000: unexplained\n\
         12 events: 10 explained, 1 unexplained, 1 not judged\n";
    assert_eq!((String::from_utf8_lossy(&told.output), told.stop), (by_hand.into(), None));
    let refused = include_bytes!("../../../samples/refused-3.csv");
    answered(&six, refused, &format!("{TOLD}refused,3,3\r\n"));
    answered(&five, refused, &format!("{TOLD}refused,8,3\r\n"));
}
