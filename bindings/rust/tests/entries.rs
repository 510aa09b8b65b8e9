//! The notebook's entries a to n, each judged alone and as a trace of one event.

use korehyumo::{
    judge_event, Answer, Duty, Event, Fields, Finding, Forward, FwdState, Judge, PairNumber,
    Refusal, Request, Resp, RespErr, State, StateSet, TagOp, TagState, Verdict,
};

/// An entry: an event, the state before, and the states after and the duty that it must give.
struct Entry {
    name: char,
    before: State,
    fields: Fields,
    after: &'static [State],
    duty: Duty,
}

/// An entry with no duty.
fn entry(name: char, before: State, fields: Fields, after: &'static [State]) -> Entry {
    Entry {
        name,
        before,
        fields,
        after,
        duty: Duty::None,
    }
}

/// Entries a to d, l, m and n: plain snoops.
fn plain_entries() -> Vec<Entry> {
    let without = |resp| Answer::SnpResp(resp, Forward::NoForward);
    let clean_kept = Fields::new(Request::SnpClean, without(Resp::SC));
    let b = Fields {
        ret_to_src: true,
        ..Fields::new(Request::SnpShared, without(Resp::SC))
    };
    let c = Fields::new(
        Request::SnpShared,
        Answer::SnpRespData(Resp::SD, Forward::NoForward),
    );
    let d = Fields {
        do_not_go_to_sd: true,
        ..c
    };
    let l = Fields::new(Request::SnpShared, without(Resp::I));
    let m = Fields {
        resp_err: RespErr::NDERR,
        ..l
    };
    let n = Fields {
        tag: Some(TagState::Dirty),
        ..Fields::new(Request::SnpClean, without(Resp::I))
    };
    vec![
        entry('a', State::UC, clean_kept, &[State::I, State::SC]),
        entry('b', State::SC, b, &[]),
        entry('c', State::UD, c, &[State::SD]),
        entry('d', State::UD, d, &[]),
        entry('l', State::UD, l, &[]),
        Entry {
            duty: Duty::Lost,
            ..entry('m', State::UD, m, &[State::I])
        },
        entry('n', State::UC, n, &[]),
    ]
}

/// Entries e to h: SnpCleanFwd.
fn forwarding_entries() -> Vec<Entry> {
    let to_requester = Answer::SnpResp(Resp::SC, Forward::CompData(FwdState::SD_PD, RespErr::OK));
    let to_home = Answer::SnpRespData(Resp::SC_PD, Forward::CompData(FwdState::SC, RespErr::OK));
    let e = Fields::new(Request::SnpCleanFwd, to_requester);
    let f = Fields {
        tag: Some(TagState::Dirty),
        ..e
    };
    let g = Fields {
        tag: Some(TagState::Dirty),
        tag_op: TagOp::Update,
        ..Fields::new(Request::SnpCleanFwd, to_home)
    };
    let h = Fields {
        tag_op: TagOp::Transfer,
        ..g
    };
    vec![
        Entry {
            duty: Duty::Requester,
            ..entry('e', State::UD, e, &[State::I, State::SC])
        },
        entry('f', State::UD, f, &[]),
        Entry {
            duty: Duty::Home,
            ..entry('g', State::SD, g, &[State::I, State::SC])
        },
        entry('h', State::SD, h, &[]),
    ]
}

/// Entries i to k: SnpPreferUniqueFwd.
fn preferring_entries() -> Vec<Entry> {
    let given_up = Answer::SnpResp(Resp::I, Forward::CompData(FwdState::UC, RespErr::OK));
    let shared = Answer::SnpResp(Resp::SC, Forward::CompData(FwdState::SC, RespErr::OK));
    let i = Fields::new(Request::SnpPreferUniqueFwd, given_up);
    let j = Fields { excl: true, ..i };
    let k = Fields::new(Request::SnpPreferUniqueFwd, shared);
    vec![
        entry('i', State::UC, i, &[State::I]),
        entry('j', State::UC, j, &[]),
        entry('k', State::UC, k, &[State::SC]),
    ]
}

/// All fourteen.
fn entries() -> Vec<Entry> {
    let mut all = plain_entries();
    all.extend(forwarding_entries());
    all.extend(preferring_entries());
    all.sort_by_key(|entry| entry.name);
    all
}

#[test]
fn there_are_fourteen() {
    let names: String = entries().iter().map(|entry| entry.name).collect();
    assert_eq!(names, "abcdefghijklmn");
}

#[test]
fn alone() -> Result<(), Refusal> {
    for entry in entries() {
        let outcome = judge_event(Event::from(entry.fields))?[entry.before];
        let after: StateSet = entry.after.iter().copied().collect();
        assert_eq!(
            (outcome.after, outcome.duty),
            (after, entry.duty),
            "entry {}",
            entry.name
        );
    }
    Ok(())
}

#[test]
fn as_traces() -> Result<(), Refusal> {
    for entry in entries() {
        let mut judge = Judge::with_sets([StateSet::only(entry.before)])?;
        let after: StateSet = entry.after.iter().copied().collect();
        let verdict = if after.is_empty() {
            Verdict::Unexplained
        } else {
            Verdict::Explained
        };
        let duty = entry.duty;
        let findings = judge.judge(&[(PairNumber(0), Event::from(entry.fields))])?;
        assert_eq!(
            findings,
            [Finding {
                verdict,
                duty,
                after
            }],
            "entry {}",
            entry.name
        );
        assert_eq!(
            judge.set_of(PairNumber(0)),
            Some(after),
            "entry {}",
            entry.name
        );
    }
    Ok(())
}
