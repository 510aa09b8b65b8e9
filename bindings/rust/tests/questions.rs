//! The answers that the rows permit to a question: held to the judge of one event, in bytes and in words, and refused.

mod common;

use common::{all_answers, wire, Draw, FORWARDS, REQUESTS, RESPONSES};
use korehyumo::{
    judge_event, list_answers, permitted_answers, Answer, Event, EventNumber, Fields, Forward,
    Permitted, Question, Refusal, Request, Resp, RespErr, State, TagOp, TagState, ANSWER_BYTES,
    MOST_ANSWERS,
};

/// The bytes of a listed answer.
type AnswerBytes = [u8; ANSWER_BYTES];

/// The byte that fills a room before a call; no answer has it.
const LENT: u8 = 201;

/// The bytes of a room that is larger than any list.
const ENOUGH: usize = MOST_ANSWERS * ANSWER_BYTES + 30;

/// SnpCleanFwd to a line in UDP.
const PARTIAL: [u8; 6] = [18, 0, 0, 0, 0, 4];

/// Its three answers.
const PARTIAL_LIST: [u8; 3 * ANSWER_BYTES] = [
    0, 1, 0, 0, 0, 3, 0, 0, 0, 0, //
    1, 5, 4, 0, 0, 0, 0, 0, 0, 0, //
    1, 5, 4, 0, 0, 2, 0, 0, 0, 0,
];

/// Every question from a state before.
fn questions_from(before: State) -> Vec<Question> {
    let mut questions = Vec::new();
    for request in Request::ALL {
        for tag in TagState::ALL {
            questions.extend((0..8).map(|flags: u8| Question {
                ret_to_src: flags & 1 != 0,
                do_not_go_to_sd: flags & 2 != 0,
                excl: flags & 4 != 0,
                tag,
                ..Question::new(request, before)
            }));
        }
    }
    questions
}

/// Every question.
fn questions() -> Vec<Question> {
    State::ALL.into_iter().flat_map(questions_from).collect()
}

/// An answer with its other fields by name.
fn permitted(answer: Answer, tag_op: TagOp, resp_err: RespErr, state_after: State) -> Permitted {
    Permitted::Named {
        answer,
        tag_op,
        resp_err,
        state_after,
    }
}

/// Every answer that has a name, in ascending order of the bytes.
fn all_named() -> Vec<Permitted> {
    let mut all = Vec::new();
    for answer in all_answers() {
        for tag_op in TagOp::ALL {
            for resp_err in RespErr::ALL {
                all.extend(State::ALL.map(|after| permitted(answer, tag_op, resp_err, after)));
            }
        }
    }
    all.sort_by_key(|permitted| permitted.bytes());
    all
}

/// The event in which a question gets an answer that has a name.
fn event(question: Question, permitted: Permitted) -> Event {
    match permitted {
        Permitted::Named {
            answer,
            tag_op,
            resp_err,
            state_after,
        } => Event::from(Fields {
            request: question.request,
            ret_to_src: question.ret_to_src,
            do_not_go_to_sd: question.do_not_go_to_sd,
            excl: question.excl,
            tag: Some(question.tag),
            answer,
            tag_op,
            resp_err,
            state_after: Some(state_after),
        }),
        other => panic!("{other} has no name"),
    }
}

/// Listed are those of all named answers that the judge of one event permits, in ascending order.
#[test]
fn every_question() -> Result<(), Refusal> {
    let all = all_named();
    assert_eq!((questions().len(), all.len()), (1_680, 175 * 4 * 4 * 7));
    for question in questions_from(State::I) {
        let mut lists = State::ALL.map(|_| Vec::new());
        for permitted in &all {
            let judgment = judge_event(event(question, *permitted))?;
            for before in judgment.befores().iter() {
                lists[usize::from(before.code())].push(*permitted);
            }
        }
        for (before, list) in State::ALL.into_iter().zip(lists) {
            let question = Question { before, ..question };
            assert_eq!(permitted_answers(question)?, list, "{question:?}");
        }
    }
    Ok(())
}

/// NDERR's answer is in every list, except that Dirty tags permit nothing outside UD and SD.
#[test]
fn errors_and_dirty_tags() -> Result<(), Refusal> {
    let plain = Answer::SnpResp(Resp::I, Forward::NoForward);
    let in_error = permitted(plain, TagOp::Invalid, RespErr::NDERR, State::I);
    for question in questions() {
        let answers = permitted_answers(question)?;
        let none =
            question.tag == TagState::Dirty && !matches!(question.before, State::UD | State::SD);
        assert_eq!(answers.is_empty(), none, "{question:?}");
        assert_eq!(answers.contains(&in_error), !none, "{question:?}");
    }
    Ok(())
}

/// In every list each answer that forwards stands with OK and with DERR on the forwarded data, whatever its RespErr.
#[test]
fn errors_on_forwarded_data() -> Result<(), Refusal> {
    let mut forwards = 0;
    for question in questions() {
        let answers = permitted_answers(question)?;
        for listed in &answers {
            let mut other = listed.bytes();
            match (other[6], other[9]) {
                (0, 0) => continue,
                (1, 0) => other[9] = 2,
                (1, 2) => other[9] = 0,
                _ => panic!("{listed}"),
            }
            assert!(answers.contains(&Permitted::from(other)), "{question:?}");
            forwards += 1;
        }
    }
    assert!(forwards > 1_000, "{forwards}");
    Ok(())
}

/// The longest list has the most answers.
#[test]
fn the_longest_list() -> Result<(), Refusal> {
    let mut longest = 0;
    for question in questions() {
        longest = longest.max(permitted_answers(question)?.len());
    }
    assert_eq!((longest, MOST_ANSWERS, ANSWER_BYTES), (57, 57, 10));
    Ok(())
}

/// A list over plain bytes is the same as by name, and takes no more room than its answers.
#[test]
fn over_bytes_as_by_name() -> Result<(), Refusal> {
    for question in questions() {
        let answers = permitted_answers(question)?;
        let bytes: Vec<u8> = answers.iter().flat_map(|answer| answer.bytes()).collect();
        let mut room = vec![LENT; bytes.len() + 1];
        let just_enough = &mut room[..bytes.len()];
        assert_eq!(
            list_answers(question.bytes(), just_enough),
            Ok(answers.len())
        );
        assert_eq!(room.pop(), Some(LENT));
        assert_eq!(room, bytes, "{question:?}");
    }
    Ok(())
}

/// The byte that a name stands for, in the order of a column's names.
fn code_of(names: &[&str], word: &str) -> u8 {
    names.iter().position(|name| *name == word).unwrap() as u8
}

/// The ten bytes of a line of the bench sheet's last six fields.
fn read(line: &str) -> AnswerBytes {
    let errors = ["OK", "EXOK", "DERR", "NDERR"];
    let words: Vec<&str> = line.split(',').collect();
    let [response, tag_op, resp_err, forward, state_after, fwd_err] =
        <[&str; 6]>::try_from(words).unwrap();
    let named = RESPONSES.iter().find(|(name, _)| *name == response);
    let [channel, opcode, resp, fwd_state, present, its_resp, without] = wire(named.unwrap().1);
    let forwarded = FORWARDS.iter().find(|(name, _)| *name == forward);
    assert_eq!(forwarded.is_none(), forward == "-");
    assert_eq!(forwarded.is_none(), fwd_err == "-");
    assert_eq!(forwarded.map_or(0, |(_, code)| *code), its_resp);
    [
        channel,
        opcode,
        resp,
        fwd_state,
        code_of(&["Invalid", "Transfer", "Update", "Match"], tag_op),
        code_of(&errors, resp_err),
        present,
        its_resp,
        code_of(&["I", "UC", "UCE", "UD", "UDP", "SC", "SD"], state_after),
        forwarded.map_or(without, |_| code_of(&errors, fwd_err)),
    ]
}

/// The words of every listed answer stand for its bytes.
#[test]
fn words_are_read_back() -> Result<(), Refusal> {
    for question in questions() {
        for answer in permitted_answers(question)? {
            assert_eq!(read(&answer.to_string()), answer.bytes());
        }
    }
    Ok(())
}

/// Every answer that has a name is read back from its bytes, and printed as the end of its event's line.
#[test]
fn names_and_bytes() {
    let question = Question::new(Request::SnpShared, State::I);
    for permitted in all_named() {
        assert_eq!(Permitted::from(permitted.bytes()), permitted);
        let event = event(question, permitted);
        assert_eq!(
            event.bytes()[Event::BYTES - ANSWER_BYTES..],
            permitted.bytes()
        );
        assert_eq!(
            event.to_string(),
            format!("SnpShared,0,0,0,Invalid,{permitted}")
        );
    }
}

/// Bytes without a name are kept and printed as numbers, and no byte is taken for another.
#[test]
fn bytes_without_names() {
    let mut bytes = [1, 1, 5, 0, 1, 0, 0, 0, 5, 0];
    assert!(matches!(Permitted::from(bytes), Permitted::Named { .. }));
    bytes[8] = 7;
    let other = Permitted::from(bytes);
    assert_eq!(other, Permitted::Other(bytes));
    assert_eq!(other.to_string(), "[1, 1, 5, 0, 1, 0, 0, 0, 7, 0]");
    let without_forward = Permitted::from([1, 1, 5, 0, 1, 0, 0, 0, 5, 2]);
    assert_eq!(
        without_forward.to_string(),
        "[1, 1, 5, 0, 1, 0, 0, 0, 5, 2]"
    );
    let named: Vec<AnswerBytes> = all_named().iter().map(|named| named.bytes()).collect();
    let mut draw = Draw(0x1618_0339_8874_9894);
    for _ in 0..20_000 {
        let mut bytes = named[draw.below(named.len() as u64) as usize];
        bytes[draw.below(ANSWER_BYTES as u64) as usize] = draw.byte(255);
        let read = Permitted::from(bytes);
        assert_eq!(read.bytes(), bytes);
        let known = named.binary_search(&bytes).is_ok();
        assert_eq!(matches!(read, Permitted::Named { .. }), known);
    }
}

/// Asserts that a question is refused so, and that the room stays as it was lent.
fn refused(question: [u8; 6], room: usize, refusal: Refusal, number: u8) {
    let mut lent = vec![LENT; room];
    assert_eq!(list_answers(question, &mut lent), Err(refusal));
    assert_eq!((refusal.number(), refusal.place()), (number, 0));
    assert!(lent.iter().all(|byte| *byte == LENT));
}

/// A byte above its highest value: refused before the request and the room.
#[test]
fn ranges() {
    let highest = [22, 1, 1, 1, 2, 6];
    assert!(list_answers(highest, &mut [0; MOST_ANSWERS * ANSWER_BYTES]).is_ok());
    for byte in 1..6 {
        for value in highest[byte] + 1..=255 {
            for request in [22, 3] {
                let mut question = [request, 0, 0, 0, 0, 0];
                question[byte] = value;
                refused(question, 0, Refusal::Range(EventNumber(0)), 4);
                refused(question, ENOUGH, Refusal::Range(EventNumber(0)), 4);
            }
        }
    }
}

/// A request that is not one of the ten: refused before the room.
#[test]
fn requests() {
    for request in (0..=255).filter(|request| !REQUESTS.contains(request)) {
        let question = [request, 0, 1, 0, 1, 3];
        refused(question, 0, Refusal::Request(EventNumber(0)), 5);
        refused(question, ENOUGH, Refusal::Request(EventNumber(0)), 5);
    }
}

/// A room that is too small is left as it was lent, and one that is large enough past the last answer.
#[test]
fn rooms() {
    let needed = PARTIAL_LIST.len();
    for room in 0..needed {
        refused(PARTIAL, room, Refusal::Room, 9);
    }
    for past in 0..300 {
        let mut lent = vec![LENT; needed + past];
        assert_eq!(list_answers(PARTIAL, &mut lent), Ok(3));
        assert_eq!(lent[..needed], PARTIAL_LIST);
        assert!(lent[needed..].iter().all(|byte| *byte == LENT));
    }
    let dirty_uc = [1, 0, 0, 0, 2, 1];
    assert_eq!(list_answers(dirty_uc, &mut []), Ok(0));
}

/// Any bytes as a question with any room: accepted, or refused with the room as it was lent.
#[test]
fn any_question() {
    let mut draw = Draw(0x5772_1566_4901_5329);
    for _ in 0..20_000 {
        let highest = if draw.below(4) == 0 { 255 } else { 2 };
        let question = [(); 6].map(|()| draw.byte(highest));
        let length = draw.below(ENOUGH as u64) as usize;
        let before = draw.bytes(length);
        let mut room = before.clone();
        let kept = match list_answers(question, &mut room) {
            Ok(count) => count * ANSWER_BYTES,
            Err(refusal) => {
                assert!([4, 5, 9].contains(&refusal.number()));
                0
            }
        };
        assert_eq!(room[kept..], before[kept..]);
    }
}
