//! The definition's codes and names, and the conversions between them.

mod common;

use common::{all_answers, wire, Bytes, FORWARDS, HIGHEST, REQUESTS, RESPONSES, SHEET};
use korehyumo::{
    Answer, Duty, Event, EventNumber, Fields, Forward, FwdState, PairNumber, Request, Resp,
    RespErr, State, StateSet, TagOp, TagState, Verdict,
};
use std::fmt::{Debug, Display};

/// Asserts that a type has exactly these names and codes.
fn has_codes<Kind>(all: &[Kind], codes: &[(&str, u8)], code_of: fn(Kind) -> u8)
where
    Kind: Copy + Debug + Display + PartialEq + TryFrom<u8>,
{
    let written: Vec<(String, u8)> = all
        .iter()
        .map(|kind| (kind.to_string(), code_of(*kind)))
        .collect();
    let expected: Vec<(String, u8)> = codes
        .iter()
        .map(|(name, code)| (name.to_string(), *code))
        .collect();
    assert_eq!(written, expected);
    for code in 0..=255 {
        let known = all.iter().copied().find(|kind| code_of(*kind) == code);
        assert_eq!(Kind::try_from(code).ok(), known);
    }
}

#[test]
fn codes_of_states() {
    let states = [
        ("I", 0),
        ("UC", 1),
        ("UCE", 2),
        ("UD", 3),
        ("UDP", 4),
        ("SC", 5),
        ("SD", 6),
    ];
    has_codes(&State::ALL, &states, State::code);
    let dirty: Vec<State> = State::ALL
        .into_iter()
        .filter(|state| state.is_dirty())
        .collect();
    assert_eq!(dirty, [State::UD, State::UDP, State::SD]);
}

#[test]
fn codes_of_a_snoop() {
    let requests = [
        ("SnpShared", 1),
        ("SnpClean", 2),
        ("SnpNotSharedDirty", 4),
        ("SnpUnique", 7),
        ("SnpCleanInvalid", 9),
        ("SnpMakeInvalid", 10),
        ("SnpCleanFwd", 18),
        ("SnpNotSharedDirtyFwd", 20),
        ("SnpPreferUnique", 21),
        ("SnpPreferUniqueFwd", 22),
    ];
    has_codes(&Request::ALL, &requests, Request::code);
    has_codes(
        &TagState::ALL,
        &[("Invalid", 0), ("Clean", 1), ("Dirty", 2)],
        TagState::code,
    );
}

#[test]
fn codes_of_an_answer() {
    let tag_ops = [("Invalid", 0), ("Transfer", 1), ("Update", 2), ("Match", 3)];
    has_codes(&TagOp::ALL, &tag_ops, TagOp::code);
    let resp_errs = [("OK", 0), ("EXOK", 1), ("DERR", 2), ("NDERR", 3)];
    has_codes(&RespErr::ALL, &resp_errs, RespErr::code);
    let resps = [("I", 0), ("SC", 1), ("SD", 3), ("I_PD", 4), ("SC_PD", 5)];
    has_codes(&Resp::ALL, &resps, Resp::code);
    let fwd_states = [("SC", 1), ("UC", 2), ("UD_PD", 6), ("SD_PD", 7)];
    has_codes(&FwdState::ALL, &fwd_states, FwdState::code);
}

/// Verdicts and duties have the definition's words, and a code without a name keeps its number.
#[test]
fn codes_of_findings() {
    for (code, word) in [
        (0, "explained"),
        (1, "unexplained"),
        (2, "not judged"),
        (3, "verdict 3"),
    ] {
        assert_eq!(Verdict::from(code).to_string(), word);
    }
    for (code, word) in [
        (0, "none"),
        (1, "Home"),
        (2, "Requester"),
        (3, "lost"),
        (4, "discarded"),
        (5, "duty 5"),
    ] {
        assert_eq!(Duty::from(code).to_string(), word);
    }
    for code in 0..=255 {
        assert_eq!(Verdict::from(code).code(), code);
        assert_eq!(Duty::from(code).code(), code);
        assert_eq!(matches!(Verdict::from(code), Verdict::Other(_)), code > 2);
        assert_eq!(matches!(Duty::from(code), Duty::Other(_)), code > 4);
    }
}

#[test]
fn numbers() {
    assert_eq!(PairNumber(4_095).to_string(), "4095");
    assert_eq!(PairNumber(65_535).to_string(), "65535");
    assert_eq!(EventNumber(1_000_000).to_string(), "1000000");
    assert!(PairNumber(2) < PairNumber(10));
    assert!(PairNumber(10) < PairNumber(65_535));
    assert!(EventNumber(2) < EventNumber(10));
}

/// Every set, as a byte and as states.
#[test]
fn sets() {
    for byte in 0..=127 {
        let set = StateSet::try_from(byte).unwrap();
        assert_eq!(set.bits(), byte);
        assert_eq!(set.iter().collect::<StateSet>(), set);
        let weights: u32 = set.iter().map(|state| 1 << state.code()).sum();
        assert_eq!(weights, u32::from(byte));
        assert_eq!(set.iter().count(), set.len());
        assert_eq!(set.is_empty(), byte == 0);
        assert_eq!(set.holds_dirty(), byte & (8 + 16 + 64) != 0);
        let held = |state: &State| byte >> state.code() & 1 == 1;
        assert!(State::ALL
            .iter()
            .all(|state| set.contains(*state) == held(state)));
    }
}

/// No byte above 127 is a set.
#[test]
fn no_sets() {
    for byte in 128..=255 {
        assert_eq!(StateSet::try_from(byte).unwrap_err().code, byte);
    }
}

#[test]
fn words_of_sets() {
    assert_eq!(StateSet::EMPTY.to_string(), "");
    assert_eq!(StateSet::ALL.to_string(), "I UC UCE UD UDP SC SD");
    assert_eq!(StateSet::from(State::UDP).to_string(), "UDP");
    assert_eq!(StateSet::try_from(33).unwrap().to_string(), "I SC");
    assert_eq!(format!("{:?}", StateSet::try_from(33).unwrap()), "{I, SC}");
    let twice: StateSet = [State::SD, State::I, State::SD].into_iter().collect();
    assert_eq!(twice.bits(), 65);
}

#[test]
fn the_responses_of_the_rows() {
    for (name, codes) in RESPONSES {
        let answer = Answer::from_wire(wire(codes)).unwrap();
        assert_eq!(answer.to_string(), name);
        assert_eq!(answer.wire(), wire(codes));
        assert_eq!(answer.resp().code(), codes[2]);
        let forward = FORWARDS.iter().find(|(_, code)| *code == codes[3]);
        assert_eq!(
            answer.forward().to_string(),
            forward.map_or("-", |(name, _)| name)
        );
    }
}

#[test]
fn answers_are_read_back() {
    assert_eq!(all_answers().len(), 175);
    for answer in all_answers() {
        assert_eq!(Answer::from_wire(answer.wire()), Some(answer));
    }
}

/// The last byte of a response is read as the error field of its forwarded data; without a forward it is 0.
#[test]
fn errors_of_the_responses() {
    for (name, codes) in RESPONSES {
        for last in 0..=255 {
            let mut wire = wire(codes);
            wire[6] = last;
            let fwd_err = RespErr::try_from(last).ok().filter(|_| codes[3] != 0);
            let read = Answer::from_wire(wire);
            assert_eq!(read.is_some(), fwd_err.is_some() || last == 0);
            if let Some(answer) = read {
                assert_eq!(answer.wire(), wire);
                assert_eq!(answer.to_string(), name);
                assert_eq!(answer.forward().fwd_err(), fwd_err);
            }
        }
    }
}

/// Of all bytes in range, only those of an answer are read as one.
#[test]
fn other_bytes_are_no_answer() {
    let limits = [2, 32, 8, 8, 2, 8, 4];
    let bytes = |number: u32| {
        let mut rest = number;
        limits.map(|limit| {
            let byte = rest % limit;
            rest /= limit;
            byte as u8
        })
    };
    let all = 0..limits.iter().product();
    let read = all.filter(|number| Answer::from_wire(bytes(*number)).is_some());
    assert_eq!(read.count(), all_answers().len());
}

/// SnpCleanFwd answered by SnpResp_SC_Fwded_SD_PD, entry e of the notebook.
const FORWARDED: Bytes = [18, 0, 0, 0, 0, 0, 9, 1, 7, 0, 0, 1, 7, 7, 0];

/// Each field is written to its byte, and read back from it.
#[test]
fn fields_and_bytes() {
    let [shared, ..] = SHEET.map(|bytes| Event::from(bytes).fields().unwrap());
    assert_eq!(
        shared.to_string(),
        "SnpShared,0,0,0,Invalid,SnpRespData_SC_PD,Invalid,OK,-,?,-"
    );
    assert_eq!(Event::from(shared).bytes(), &SHEET[0]);
    for byte in [0, 1, 2, 3, 4, 9, 10, 13, 14] {
        for value in 0..=HIGHEST[byte] {
            let mut bytes = FORWARDED;
            bytes[byte] = value;
            let fields = Event::from(bytes).fields();
            assert_eq!(fields.is_some(), byte != 0 || REQUESTS.contains(&value));
            if let Some(fields) = fields {
                assert_eq!(Bytes::from(Event::from(fields)), bytes);
            }
        }
        let mut bytes = FORWARDED;
        bytes[byte] = HIGHEST[byte].saturating_add(1);
        assert_eq!(Event::from(bytes).fields(), None);
    }
}

/// The error field of forwarded data is printed last, and without a forward only 0 has a name.
#[test]
fn errors_by_name() {
    for (code, name) in [(0, "OK"), (1, "EXOK"), (2, "DERR"), (3, "NDERR")] {
        let mut bytes = FORWARDED;
        bytes[14] = code;
        assert_eq!(
            Event::from(bytes).to_string(),
            format!("SnpCleanFwd,0,0,0,Invalid,SnpResp_SC_Fwded_SD_PD,Invalid,OK,CompData_SD_PD,?,{name}")
        );
        bytes = SHEET[0];
        bytes[14] = code;
        assert_eq!(Event::from(bytes).fields().is_some(), code == 0);
    }
}

/// An event in which some byte has no name is written as its bytes.
#[test]
fn events_without_names() {
    let mut bytes = SHEET[0];
    bytes[6] = 31;
    let written = Event::from(bytes).to_string();
    assert_eq!(written, "[1, 0, 0, 0, 0, 1, 31, 5, 0, 0, 0, 0, 0, 7, 0]");
}

/// The example's four lines, and one in which no field has its usual value.
#[test]
fn fields_by_name() {
    let lines = SHEET.map(|bytes| Event::from(bytes).to_string());
    assert_eq!(
        lines,
        [
            "SnpShared,0,0,0,Invalid,SnpRespData_SC_PD,Invalid,OK,-,?,-",
            "SnpShared,1,0,0,Invalid,SnpRespData_SC,Invalid,OK,-,?,-",
            "SnpClean,0,0,0,Invalid,SnpRespData_SD,Invalid,OK,-,?,-",
            "SnpClean,0,0,0,Invalid,SnpResp_I,Invalid,OK,-,I,-",
        ]
    );
    let fields = Fields {
        request: Request::SnpPreferUniqueFwd,
        ret_to_src: true,
        do_not_go_to_sd: true,
        excl: true,
        tag: None,
        answer: Answer::SnpRespData(
            Resp::I_PD,
            Forward::CompData(FwdState::UD_PD, RespErr::NDERR),
        ),
        tag_op: TagOp::Match,
        resp_err: RespErr::EXOK,
        state_after: Some(State::SD),
    };
    assert_eq!(
        fields.to_string(),
        "SnpPreferUniqueFwd,1,1,1,?,SnpRespData_I_PD_Fwded_UD_PD,Match,EXOK,CompData_UD_PD,SD,NDERR"
    );
    assert_eq!(
        Event::from(fields).bytes(),
        &[22, 1, 1, 1, 3, 1, 6, 4, 6, 3, 1, 1, 6, 6, 3]
    );
}
