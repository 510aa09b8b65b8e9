//! Any input: no call panics, and every answer is one that the definition allows.

mod common;

use common::{
    put_response, Bytes, Draw, Lent, HIGHEST, LAST_PAIR, OLD_MOST_PAIRS, REQUESTS, RESPONSES,
};
use korehyumo::{
    judge_event, Duty, Event, Finding, Judge, PairNumber, Refusal, State, StateSet, Verdict,
    MOST_EVENTS, MOST_PAIRS,
};

/// An event with every byte in its range. Three in four have an answer of the rows, so that many are explained.
fn event(draw: &mut Draw) -> Bytes {
    let mut bytes = HIGHEST.map(|highest| draw.byte(highest));
    bytes[0] = REQUESTS[draw.below(10) as usize];
    if draw.below(4) == 0 {
        return bytes;
    }
    let fwd_err = bytes[14];
    let (_, codes) = RESPONSES[draw.below(22) as usize];
    put_response(&mut bytes, codes);
    if draw.below(8) == 0 {
        bytes[14] = fwd_err;
    } else {
        bytes[14] = if codes[3] == 0 { 0 } else { fwd_err / 2 * 2 };
        bytes[9] = 0;
        bytes[10] = if draw.below(8) == 0 { 3 } else { 0 };
        bytes[13] = 7;
    }
    bytes
}

/// A trace with good lengths, pairs, sets and events.
fn good(draw: &mut Draw) -> Lent {
    let pairs = draw.below(20) + 1;
    let n = draw.below(20);
    let events: Vec<Bytes> = (0..n).map(|_| event(draw)).collect();
    let numbers: Vec<u16> = (0..n).map(|_| draw.below(pairs) as u16).collect();
    let table: Vec<u8> = (0..pairs).map(|_| draw.byte(127)).collect();
    Lent::new(&events, &numbers, &table)
}

/// The states after an event and the duty, put together from what the event alone gives for each state of the set.
fn from_alone(event: Event, before: StateSet) -> (StateSet, Duty) {
    let judgment = judge_event(event).unwrap();
    let steps = || before.iter().map(|state| judgment[state]);
    let after = steps().flat_map(|outcome| outcome.after.iter()).collect();
    let duty = steps()
        .map(|outcome| outcome.duty)
        .find(|duty| *duty != Duty::None);
    (after, duty.unwrap_or(Duty::None))
}

/// Any bytes in buffers of any lengths: accepted, or refused with no buffer changed.
#[test]
fn any_bytes() {
    let mut draw = Draw(0x1234_5678_9abc_def1);
    for _ in 0..20_000 {
        let n = draw.below(4) as usize;
        let mut any = |most: u64| {
            if draw.below(3) == 0 {
                draw.below(most) as usize
            } else {
                n
            }
        };
        let lengths = [any(60), any(5), any(5), any(5), any(5), any(5)];
        let before = Lent {
            events: draw.bytes(if lengths[0] == n {
                Event::BYTES * n
            } else {
                lengths[0]
            }),
            pairs: (0..lengths[1]).map(|_| draw.pair()).collect(),
            table: draw.bytes(lengths[2]),
            verdicts: draw.bytes(lengths[3]),
            duties: draw.bytes(lengths[4]),
            afters: draw.bytes(lengths[5]),
        };
        let mut lent = before.clone();
        match lent.judge() {
            Ok(accepted) => assert_eq!((accepted, lent.verdicts.len()), (n, n)),
            Err(refusal) => {
                assert!((1..=5).contains(&refusal.number()));
                assert_eq!(lent, before);
            }
        }
    }
}

/// Any bytes as one event.
#[test]
fn any_event() {
    let mut draw = Draw(0x0fed_cba9_8765_4321);
    for _ in 0..20_000 {
        let length = if draw.below(2) == 0 {
            Event::BYTES
        } else {
            draw.below(50) as usize
        };
        let bytes = draw.bytes(length);
        let refusal = judge_event(&bytes).err();
        assert_eq!(
            refusal == Some(Refusal::Lengths),
            bytes.len() != Event::BYTES
        );
    }
}

/// A trace as pairs and events.
fn named(lent: &Lent) -> Vec<(PairNumber, Event)> {
    let event = |bytes: &[u8]| Event::from(Bytes::try_from(bytes).unwrap());
    let pairs = lent.pairs.iter().map(|pair| PairNumber(*pair));
    let events = lent.events.chunks_exact(Event::BYTES).map(event);
    pairs.zip(events).collect()
}

/// A judge with the sets of a table.
fn judge_of(table: &[u8]) -> Judge {
    let set = |byte: &u8| StateSet::try_from(*byte).unwrap();
    Judge::with_sets(table.iter().map(set)).unwrap()
}

/// `Judge` answers as `judge_trace` does, for good traces and for some with a wrong byte.
#[test]
fn by_name_as_over_buffers() {
    let mut draw = Draw(0x7777_1234_5555_9999);
    for _ in 0..5_000 {
        let mut lent = good(&mut draw);
        if !lent.events.is_empty() && draw.below(3) == 0 {
            let at = draw.below(lent.events.len() as u64) as usize;
            lent.events[at] = draw.byte(255);
        }
        let mut judge = judge_of(&lent.table);
        let findings = judge.judge(&named(&lent)).map(<[Finding]>::to_vec);
        let accepted = lent.judge();
        assert_eq!(findings.as_ref().map(Vec::len), accepted.as_ref().copied());
        assert!(judge
            .sets()
            .map(StateSet::bits)
            .eq(lent.table.iter().copied()));
        let findings = findings.unwrap_or_default();
        for (k, finding) in findings.iter().enumerate() {
            let bytes = (
                finding.verdict.code(),
                finding.duty.code(),
                finding.after.bits(),
            );
            assert_eq!(bytes, (lent.verdicts[k], lent.duties[k], lent.afters[k]));
        }
    }
}

/// A trace answers each event as the event alone does from the states of its pair's set.
#[test]
fn traces_as_events_alone() -> Result<(), Refusal> {
    let mut draw = Draw(0x3141_5926_5358_9793);
    let mut verdicts = [0; 3];
    for _ in 0..2_000 {
        let lent = good(&mut draw);
        let mut judge = judge_of(&lent.table);
        for (pair, event) in named(&lent) {
            let before = judge.set_of(pair).unwrap();
            let finding = judge.judge(&[(pair, event)])?[0];
            let verdict = match (before.is_empty(), finding.after.is_empty()) {
                (true, _) => Verdict::NotJudged,
                (false, true) => Verdict::Unexplained,
                (false, false) => Verdict::Explained,
            };
            assert_eq!((finding.after, finding.duty), from_alone(event, before));
            assert_eq!(finding.verdict, verdict);
            verdicts[usize::from(verdict.code())] += 1;
        }
    }
    assert!(verdicts.iter().all(|count| *count > 500), "{verdicts:?}");
    Ok(())
}

/// A pair number at a border, one that is equal to such a one modulo 4,096, or any.
fn pair(draw: &mut Draw) -> u16 {
    let borders = [0, 255, 256, OLD_MOST_PAIRS - 1, OLD_MOST_PAIRS, LAST_PAIR];
    let border = borders[draw.below(6) as usize];
    match draw.below(3) {
        0 => border,
        1 => border.wrapping_add(OLD_MOST_PAIRS * draw.below(16) as u16),
        _ => draw.pair(),
    }
}

/// Over the largest table each event is answered as over a table of its pair alone, and the sets of other pairs stay.
#[test]
fn the_largest_table() {
    let mut draw = Draw(0x6553_6409_6655_3640);
    let mut verdicts = [0; 3];
    for _ in 0..20 {
        let events: Vec<Bytes> = (0..MOST_EVENTS).map(|_| event(&mut draw)).collect();
        let pairs: Vec<u16> = (0..MOST_EVENTS).map(|_| pair(&mut draw)).collect();
        let mut table: Vec<u8> = (0..MOST_PAIRS).map(|_| draw.byte(127)).collect();
        let mut lent = Lent::new(&events, &pairs, &table);
        assert_eq!(lent.judge(), Ok(MOST_EVENTS));
        for (k, pair) in pairs.iter().enumerate() {
            let set = &mut table[usize::from(*pair)];
            let mut alone = Lent::new(&[events[k]], &[0], &[*set]);
            assert_eq!(alone.judge(), Ok(1));
            let answer = [lent.verdicts[k], lent.duties[k], lent.afters[k]];
            assert_eq!(
                [alone.verdicts[0], alone.duties[0], alone.afters[0]],
                answer
            );
            *set = alone.table[0];
            verdicts[usize::from(answer[0])] += 1;
        }
        assert_eq!(lent.table, table);
    }
    assert!(verdicts.iter().all(|count| *count > 500), "{verdicts:?}");
}

/// The duty is Home by Resp, Requester by FwdState, and lost or discarded only from a Dirty state.
#[test]
fn duties_of_events_alone() -> Result<(), Refusal> {
    let mut draw = Draw(0x2718_2818_2845_9045);
    let mut told = [0; 5];
    for _ in 0..20_000 {
        let bytes = event(&mut draw);
        let judgment = judge_event(bytes)?;
        for before in State::ALL {
            let expected = match (
                judgment[before].after.is_empty(),
                bytes[7],
                bytes[8],
                bytes[10],
            ) {
                (true, ..) => Duty::None,
                (false, 4 | 5, ..) => Duty::Home,
                (false, _, 6 | 7, _) => Duty::Requester,
                (false, _, _, 3) if before.is_dirty() => Duty::Lost,
                (false, _, _, 0) if before.is_dirty() && bytes[0] == 10 => Duty::Discarded,
                _ => Duty::None,
            };
            assert_eq!(judgment[before].duty, expected);
            told[usize::from(expected.code())] += 1;
        }
    }
    assert!(told.iter().all(|count| *count > 100), "{told:?}");
    Ok(())
}

/// With forwarded data OK and DERR on it are judged alike, and EXOK and NDERR unexplained; without, all but 0 is unexplained.
#[test]
fn errors_on_forwarded_data() -> Result<(), Refusal> {
    let mut draw = Draw(0x4669_2016_0910_2990);
    let mut explained = [0; 2];
    for _ in 0..20_000 {
        let mut bytes = event(&mut draw);
        let present = bytes[11];
        let mut judged = |fwd_err: u8| {
            bytes[14] = fwd_err;
            judge_event(bytes)
        };
        let (ok, exok, derr, nderr) = (judged(0)?, judged(1)?, judged(2)?, judged(3)?);
        assert!(exok.befores().is_empty() && nderr.befores().is_empty());
        if present == 1 {
            assert_eq!(derr, ok);
        } else {
            assert!(derr.befores().is_empty());
        }
        explained[usize::from(present)] += u32::from(!ok.befores().is_empty());
    }
    assert!(explained.iter().all(|count| *count > 500), "{explained:?}");
    Ok(())
}
