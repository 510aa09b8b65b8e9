//! The error field of forwarded data: which values the rows explain beside each RespErr, and which are refused.

mod common;

use common::{put_response, Bytes, Lent, REQUESTS, RESPONSES, SHEET};
use korehyumo::{
    judge_event, Answer, Duty, Event, EventNumber, Fields, Forward, FwdState, Judge, PairNumber,
    Refusal, Request, Resp, RespErr, State, StateSet, Verdict,
};

/// The place of RespErr in an event.
const RESP_ERR: usize = 10;
/// The place of the error field of forwarded data.
const FWD_ERR: usize = 14;

/// SnpCleanFwd answered by SnpResp_SC_Fwded_SD_PD, entry e of the notebook.
const PASSED_ON: Bytes = [18, 0, 0, 0, 0, 0, 9, 1, 7, 0, 0, 1, 7, 7, 0];

/// The event with these two error fields.
fn with_errors(event: Bytes, resp_err: u8, fwd_err: u8) -> Bytes {
    let mut event = event;
    event[RESP_ERR] = resp_err;
    event[FWD_ERR] = fwd_err;
    event
}

/// Each snoop without DoNotGoToSD and excl with each response that explains it from some state without any error.
fn explained_events() -> Result<Vec<Bytes>, Refusal> {
    let mut events = Vec::new();
    for request in REQUESTS {
        for ret_to_src in 0..2 {
            for (_, codes) in RESPONSES {
                let mut event = [0; Event::BYTES];
                (event[0], event[1], event[13]) = (request, ret_to_src, 7);
                put_response(&mut event, codes);
                if !judge_event(event)?.befores().is_empty() {
                    events.push(event);
                }
            }
        }
    }
    Ok(events)
}

/// With a forward both fields in every combination: explained with OK or DERR on the forwarded data, and as without it.
#[test]
fn with_a_forward() -> Result<(), Refusal> {
    let mut events = explained_events()?;
    events.retain(|event| event[11] == 1);
    assert_eq!(events.len(), 38);
    for event in events {
        let judgment = judge_event(event)?;
        let with_data = event[5] == 1;
        for resp_err in 0..4 {
            for fwd_err in 0..4 {
                let judged = judge_event(with_errors(event, resp_err, fwd_err))?;
                let to_home = resp_err == 0 || resp_err == 2 && with_data;
                if to_home && (fwd_err == 0 || fwd_err == 2) {
                    assert_eq!(judged, judgment);
                } else {
                    assert!(judged.befores().is_empty());
                }
            }
        }
    }
    Ok(())
}

/// Without a forward both fields in every combination: unexplained with anything but 0 in the field of forwarded data.
#[test]
fn without_a_forward() -> Result<(), Refusal> {
    let mut events = explained_events()?;
    events.retain(|event| event[11] == 0);
    assert_eq!(events.len(), 94);
    for event in events {
        let with_data = event[5] == 1;
        let is_snp_resp_i = event[5..8] == [0, 1, 0];
        for resp_err in 0..4 {
            let to_home = match resp_err {
                0 => true,
                2 => with_data,
                3 => is_snp_resp_i,
                _ => false,
            };
            for fwd_err in 0..4 {
                let judged = judge_event(with_errors(event, resp_err, fwd_err))?;
                assert_eq!(judged.befores().is_empty(), !(to_home && fwd_err == 0));
            }
        }
    }
    Ok(())
}

/// In a trace OK and DERR are explained with the same duty and states, and EXOK and NDERR are unexplained, not refused.
#[test]
fn in_traces() {
    let events = [0, 1, 2, 3].map(|fwd_err| with_errors(PASSED_ON, 0, fwd_err));
    let mut lent = Lent::new(&events, &[0, 1, 2, 3], &[8; 4]);
    assert_eq!(lent.judge(), Ok(4));
    assert_eq!(lent.verdicts, [0, 1, 0, 1]);
    assert_eq!(lent.duties, [2, 0, 2, 0]);
    assert_eq!(lent.afters, [33, 0, 33, 0]);
    assert_eq!(lent.table, [33, 0, 33, 0]);

    let events = [0, 1, 2, 3].map(|fwd_err| with_errors(SHEET[0], 0, fwd_err));
    let mut lent = Lent::new(&events, &[0, 1, 2, 3], &[8; 4]);
    assert_eq!(lent.judge(), Ok(4));
    assert_eq!(lent.verdicts, [0, 1, 1, 1]);
    assert_eq!(lent.duties, [1, 0, 0, 0]);
    assert_eq!(lent.table, [33, 0, 0, 0]);
}

/// The field above 3 is refused with 4, with a forward and without.
#[test]
fn out_of_range() {
    for value in 4..=255 {
        for event in [PASSED_ON, SHEET[0]] {
            let bad = with_errors(event, 0, value);
            assert_eq!(judge_event(bad), Err(Refusal::Range(EventNumber(0))));
            let lent = Lent::new(&[event, bad, event], &[0; 3], &[127]);
            lent.refused(Refusal::Range(EventNumber(1)), 4, 1);
        }
    }
}

/// DERR on the forwarded data alone, by name: every event with one is read back with both of its fields.
#[test]
fn by_name() -> Result<(), Refusal> {
    for resp_err in RespErr::ALL {
        for fwd_err in RespErr::ALL {
            let forward = Forward::CompData(FwdState::SC, fwd_err);
            let answer = Answer::SnpRespData(Resp::SC_PD, forward);
            let fields = Fields {
                resp_err,
                ..Fields::new(Request::SnpCleanFwd, answer)
            };
            let event = Event::from(fields);
            assert_eq!(event.fields(), Some(fields));
            assert_eq!(event.bytes()[RESP_ERR], resp_err.code());
            assert_eq!(event.bytes()[FWD_ERR], fwd_err.code());

            let mut judge = Judge::with_sets([StateSet::only(State::UD)])?;
            let finding = judge.judge(&[(PairNumber(0), event)])?[0];
            let data_errors = [RespErr::OK, RespErr::DERR];
            if data_errors.contains(&resp_err) && data_errors.contains(&fwd_err) {
                assert_eq!(finding.to_string(), "explained,Home,I SC");
            } else {
                assert_eq!(finding.verdict, Verdict::Unexplained);
                assert_eq!(finding.duty, Duty::None);
            }
        }
    }
    Ok(())
}
