//! The wrong judges, each with what it does.

use crate::cases::text::{fields_of, line_of, Fields};
use crate::cases::wire::{handed_over, lent_in, number, question_in, trace_answer, trace_case, LIST_PLACE};
use crate::definition::answers::{answer_bytes, answers, list, BEFORE, QUESTION_BYTES};
use crate::definition::capture::{self, record_bytes, records_in};
use crate::definition::codes::*;
use crate::definition::event::{alone, is_request, refusal};
use crate::definition::rows::{rows as printed, Row, B4_46, B4_60, NDERR_ROW, SNP_CLEAN_INVALID, SNP_MAKE_INVALID, SNP_UNIQUE};
use crate::definition::sheet::{self, lines, CRLF, OUTPUT_HEADER};
use crate::definition::tag_ops::TagColumn;
use crate::definition::trace::{event_of, judge, judge_event, refused, whole_events, Judged, Lent};
use crate::definition::values::{Definition, PAIRS_BEFORE_Q6};
use crate::running::arrival::Arrival;
use crate::running::call::Answer;
use crate::wrong::noticing::{Flaw, Wrong};
use std::ops::RangeInclusive;
use Flaw::{Gets, Given, Tells, Value};

/// The requests of Q-4.
const OF_Q4: [u8; 3] = [7, 9, 10];

/// How many bytes an event had before Q-5.
const OLD_BYTES: usize = 14;

/// How many pair numbers there are of 15 bits.
const HALF: usize = 1 << 15;
/// A pair that is like all others.
const ONE_OF_MANY: usize = 54_321;

/// The places of columns of a sheet that a judge is wrong about.
mod column {
    pub const REQUEST: usize = 1;
    pub const TAG: usize = 5;
    pub const RESPONSE: usize = 6;
    pub const RESP_ERR: usize = 8;
    pub const FORWARD: usize = 9;
    pub const FINAL: usize = 10;
    pub const FWD_ERR: usize = 11;
}

/// All the wrong judges, by the call that each answers.
#[rustfmt::skip]
pub const WRONG: &[Wrong] = &[
    // One event. Its record has the event from byte 1 on; its answer has refusal, place, seven sets and seven duties.
    wrong("event", "SC in the answer is taken as SC kept", Value(|d| rows(d, |row| row.after.truncate(1)))),
    wrong("event", "UC with SnpRespData_I ends in SC", Value(|d| row(d, B4_46, "SnpRespData_I").after = vec![5])),
    wrong("event", "a row for UD and SD is for UD alone", Value(|d| row(d, "B4.57", "SnpResp_SC_Fwded_SD_PD").before = vec![UD])),
    wrong("event", "RetToSrc is ignored", Value(|d| rows(d, |row| row.ret_to_src = None))),
    wrong("event", "DoNotGoToSD is ignored", Given(|_, record| record[1 + byte::DO_NOT_GO_TO_SD] &= 254)),
    wrong("event", "excl is ignored", Given(|_, record| instead(record, byte::EXCL, 1, 0))),
    wrong("event", "B4.60 is never used", Given(|_, record| instead(record, byte::EXCL, 0, 1))),
    wrong("event", "B4.60 is used alone where excl is 0", Tells(|d, record, answer| {
        if answer.output[0] == 0 && record[1 + byte::REQUEST] == 22 && record[1 + byte::EXCL] == 0 {
            let mut other = d.clone();
            other.rows.retain(|row| row.table != "B4.59");
            let alone = alone(&other, handed_over(record));
            answer.output = [&[0, 1][..], &alone.sets, &alone.duties].concat();
        }
    })),
    wrong("event", "SnpPreferUnique stands in no table", Value(|d| d.tables[0].1.retain(|request| *request != 21))),
    wrong("event", "Dirty tags are taken for Invalid", Given(|_, record| instead(record, byte::TAG, 2, 0))),
    wrong("event", "tags not seen are taken for Invalid", Given(|_, record| instead(record, byte::TAG, 3, 0))),
    wrong("event", "a state after not seen is taken for I", Given(|_, record| instead(record, byte::AFTER, 7, 0))),
    wrong("event", "EXOK is taken for OK", Given(|_, record| instead(record, byte::RESP_ERR, 1, 0))),
    wrong("event", "Match is taken for Update", Given(|_, record| instead(record, byte::TAG_OP, 3, 2))),
    wrong("event", "plain data carries any TagOp up to Update", Value(|d| d.set_tag_column(B4_46, TagColumn::UpToUpdate))),
    wrong("event", "B4.57 takes any TagOp up to Update", Value(|d| d.set_tag_column("B4.57", TagColumn::UpToUpdate))),
    wrong("event", "Dirty tags leave with any TagOp up to Update under a plain snoop", Given(|d, record| {
        if is_plain_data(d, record) && record[1 + byte::TAG] == TAG_DIRTY && record[1 + byte::TAG_OP] <= UPDATE {
            record[1 + byte::TAG_OP] = if record[1 + byte::RESP] == RESP_SD { TRANSFER } else { UPDATE };
        }
    })),
    wrong("event", "SnpRespData_SD leaves Dirty tags with Invalid under a plain snoop", Given(|d, record| {
        if is_plain_data(d, record) && record[1 + byte::TAG] == TAG_DIRTY && record[1 + byte::RESP] == RESP_SD {
            instead(record, byte::TAG_OP, TAG_OP_INVALID, TRANSFER);
        }
    })),
    wrong("event", "SnpRespDataPtl_I_PD has Transfer under a plain snoop", Given(|d, record| {
        if is_plain_data(d, record) && record[1 + byte::OPCODE] == 5 {
            instead(record, byte::TAG_OP, TRANSFER, TAG_OP_INVALID);
        }
    })),
    wrong("event", "plain data has Update under other tags than Dirty", Given(|d, record| {
        if is_plain_data(d, record) && record[1 + byte::TAG] < TAG_DIRTY {
            instead(record, byte::TAG_OP, UPDATE, TRANSFER);
        }
    })),
    wrong("event", "data under SnpPreferUnique carries any TagOp up to Update", Value(|d| widen(d, 21))),
    wrong("event", "FwdState 5 with CompData 5 is taken for UC", Given(|_, record| {
        if [record[1 + byte::FWD_STATE], record[1 + byte::FORWARDED_RESP]] == [5, 5] {
            (record[1 + byte::FWD_STATE], record[1 + byte::FORWARDED_RESP]) = (2, 2);
        }
    })),
    wrong("event", "the forwarded data's Resp is not looked at", Given(|_, record| {
        if record[1 + byte::FORWARDED_RESP] < 8 {
            record[1 + byte::FORWARDED_RESP] = record[1 + byte::FWD_STATE];
        }
    })),
    wrong("event", "NDERR from a Dirty line is illegal", Value(|d| {
        rows(d, |row| row.before.retain(|state| row.table != NDERR_ROW || !holds_dirty(1 << state)))
    })),
    wrong("event", "data to Home is duty to Home", Tells(|_, record, answer| {
        if record[1 + byte::CHANNEL] == DAT {
            answer.output[9..].iter_mut().filter(|duty| **duty == 2).for_each(|duty| *duty = 1);
        }
    })),
    wrong("event", "a duty is told where no step is", Tells(|_, record, answer| {
        if answer.output[0] == 0 && RESPS_WITH_PD.contains(&record[1 + byte::RESP]) {
            answer.output[9..].fill(1);
        }
    })),
    wrong("event", "5 is told before 4", Tells(|d, record, answer| {
        if answer.output[0] == 4 && !is_request(d, record[1]) {
            answer.output[0] = 5;
        }
    })),
    wrong("event", "opcode 31 is out of range", Value(|d| d.limits[byte::OPCODE] = 30)),
    wrong("event", "a state after of 8 is in range", Value(|d| d.limits[byte::AFTER] = 8)),
    wrong("event", "SnpOnce is judged", Value(|d| d.requests.push(("SnpOnce", 3)))),
    wrong("event", "a refused event has place 1", Tells(|_, _, answer| answer.output[1] = 1)),
    wrong("event", "of too many bytes the first are read", Given(|d, record| record[0] = record[0].min(d.event_bytes() as u8))),
    wrong("event", "one byte too few is read as an event", Given(|d, record| {
        record[0] += u8::from(usize::from(record[0]) + 1 == d.event_bytes());
    })),
    // One event of Q-4's snoops.
    wrong("event", "SC answers SnpUnique with data at RetToSrc 0 too", Value(|d| add(d, "SnpUnique | SC | 0 | - | SnpRespData_I | I"))),
    wrong("event", "SC answers SnpUnique without data at RetToSrc 1 too", Value(|d| add(d, "SnpUnique | SC | 1 | - | SnpResp_I | I"))),
    wrong("event", "SC answers SnpUnique only at RetToSrc 0", Value(|d| {
        d.rows.retain(|row| row.table != SNP_UNIQUE || row.ret_to_src != Some(1));
    })),
    wrong("event", "UC answers SnpUnique only with data", Value(|d| {
        without(d, SNP_UNIQUE, 1);
        add(d, "SnpUnique | UC | X | - | SnpRespData_I | I");
    })),
    wrong("event", "UCE answers SnpUnique with data too", Value(|d| add(d, "SnpUnique | UCE | X | - | SnpRespData_I | I"))),
    wrong("event", "UD answers SnpUnique with clean data too", Value(|d| add(d, "SnpUnique | UD | X | - | SnpRespData_I | I"))),
    wrong("event", "UDP answers SnpUnique with a whole line too", Value(|d| add(d, "SnpUnique | UDP | X | - | SnpRespData_I_PD | I"))),
    wrong("event", "SnpUnique leaves a clean line in SC or I", Value(|d| row(d, SNP_UNIQUE, "SnpRespData_I").after.push(5))),
    wrong("event", "UC answers SnpCleanInvalid with data too", Value(|d| add(d, "SnpCleanInvalid | UC | X | - | SnpRespData_I | I"))),
    wrong("event", "SC answers SnpCleanInvalid only at RetToSrc 0", Value(shared_at_0)),
    wrong("event", "UD answers SnpCleanInvalid without data too", Value(|d| add(d, "SnpCleanInvalid | UD | X | - | SnpResp_I | I"))),
    wrong("event", "UDP does not answer SnpCleanInvalid", Value(|d| without(d, SNP_CLEAN_INVALID, UDP))),
    wrong("event", "UD does not answer SnpMakeInvalid", Value(|d| without(d, SNP_MAKE_INVALID, UD))),
    wrong("event", "I does not answer SnpMakeInvalid", Value(|d| without(d, SNP_MAKE_INVALID, I))),
    wrong("event", "Dirty lines answer SnpMakeInvalid with data too", Value(dirty_data)),
    wrong("event", "UC answers SnpMakeInvalid with data too", Value(|d| {
        add(d, "SnpMakeInvalid | UC | X | - | SnpRespData_I | I");
        d.set_tag_column(SNP_MAKE_INVALID, TagColumn::Plain);
    })),
    wrong("event", "SnpMakeInvalid asks for RetToSrc 0", Value(|d| row(d, SNP_MAKE_INVALID, "SnpResp_I").ret_to_src = Some(0))),
    wrong("event", "SnpMakeInvalid's answer may have DERR", Given(|_, record| {
        if asks(record, 10) {
            instead(record, byte::RESP_ERR, DERR, OK);
        }
    })),
    wrong("event", "SnpMakeInvalid's answer has Update under Dirty tags too", Given(|_, record| {
        if asks(record, 10) && record[1 + byte::TAG] == TAG_DIRTY {
            instead(record, byte::TAG_OP, UPDATE, TAG_OP_INVALID);
        }
    })),
    wrong("event", "UDP answers SnpMakeInvalid under Dirty tags", Tells(|_, record, answer| {
        if asks(record, 10) && record[1 + byte::TAG] == TAG_DIRTY {
            [2, 9].iter().for_each(|first| answer.output[first + usize::from(UDP)] = answer.output[first + usize::from(UD)]);
        }
    })),
    wrong("event", "nothing answers SnpMakeInvalid under Dirty tags", Tells(|_, record, answer| {
        no_step(answer, asks(record, 10) && record[1 + byte::TAG] == TAG_DIRTY);
    })),
    wrong("event", "data under SnpUnique carries any TagOp up to Update", Value(|d| d.set_tag_column(SNP_UNIQUE, TagColumn::UpToUpdate))),
    wrong("event", "data under SnpCleanInvalid carries any TagOp up to Update", Value(|d| {
        d.set_tag_column(SNP_CLEAN_INVALID, TagColumn::UpToUpdate);
    })),
    wrong("event", "NDERR has no row for Q-4's snoops", Tells(|_, record, answer| {
        no_step(answer, asks_of_q4(record) && record[1 + byte::RESP_ERR] == NDERR);
    })),
    wrong("event", "excl forbids SnpUnique", Tells(|_, record, answer| no_step(answer, asks(record, 7) && record[1 + byte::EXCL] == 1))),
    wrong("event", "DoNotGoToSD forbids SnpCleanInvalid", Tells(|_, record, answer| {
        no_step(answer, asks(record, 9) && record[1 + byte::DO_NOT_GO_TO_SD] == 1);
    })),
    wrong("event", "SnpUnique follows B4.46", Value(|d| follow_b4_46(d, SNP_UNIQUE, 7))),
    wrong("event", "SnpCleanInvalid follows B4.46", Value(|d| follow_b4_46(d, SNP_CLEAN_INVALID, 9))),
    wrong("event", "SnpMakeInvalid follows B4.46", Value(|d| follow_b4_46(d, SNP_MAKE_INVALID, 10))),
    wrong("event", "SnpUnique follows B4.46 too", Value(|d| d.tables[0].1.push(7))),
    wrong("event", "SnpCleanInvalid is taken for SnpUnique", Given(|_, record| instead(record, byte::REQUEST, 9, 7))),
    wrong("event", "SnpUnique is taken for SnpCleanInvalid", Given(|_, record| instead(record, byte::REQUEST, 7, 9))),
    wrong("event", "SnpMakeInvalid is taken for SnpCleanInvalid", Given(|_, record| instead(record, byte::REQUEST, 10, 9))),
    wrong("event", "SnpUnique is refused", Value(|d| refuse_request(d, 7))),
    wrong("event", "SnpCleanInvalid is refused", Value(|d| refuse_request(d, 9))),
    wrong("event", "SnpMakeInvalid is refused", Value(|d| refuse_request(d, 10))),
    wrong("event", "request 8 is judged", Value(|d| d.requests.push(("SnpCleanShared", 8)))),
    wrong("event", "request 8 is taken for SnpCleanInvalid", Given(|_, record| instead(record, byte::REQUEST, 8, 9))),
    wrong("event", "request 42 is taken for SnpMakeInvalid", Given(|_, record| instead(record, byte::REQUEST, 42, 10))),
    wrong("event", "SnpMakeInvalid has duty 4 with NDERR too", Tells(|_, record, answer| duties(record, answer, 10, 3, 4))),
    wrong("event", "SnpMakeInvalid has duty 3 without an error too", Tells(|_, record, answer| duties(record, answer, 10, 4, 3))),
    wrong("event", "SnpMakeInvalid has no duty without an error", Value(|d| d.discarding.clear())),
    wrong("event", "SnpMakeInvalid has duty 1", Tells(|_, record, answer| duties(record, answer, 10, 4, 1))),
    wrong("event", "SnpUnique has duty 4", Tells(|_, record, answer| duties(record, answer, 7, 1, 4))),
    wrong("event", "SnpMakeInvalid has duty 4 from clean states too", Tells(|_, record, answer| {
        if asks(record, 10) && record[1 + byte::RESP_ERR] == OK {
            let (sets, duties) = answer.output[2..].split_at_mut(7);
            sets.iter().zip(duties).filter(|(set, _)| **set != 0).for_each(|(_, duty)| *duty = 4);
        }
    })),
    wrong("event", "UDP is not Dirty to SnpMakeInvalid", Tells(|_, record, answer| {
        if asks(record, 10) && answer.output[9 + usize::from(UDP)] == 4 {
            answer.output[9 + usize::from(UDP)] = 0;
        }
    })),
    // One event with Q-5's byte.
    wrong("event", "EXOK on forwarded data is permitted", Value(|d| d.forwarded_errors.push(EXOK))),
    wrong("event", "NDERR on forwarded data is permitted", Value(|d| d.forwarded_errors.push(NDERR))),
    wrong("event", "DERR on forwarded data is not permitted", Value(|d| d.forwarded_errors = vec![OK])),
    wrong("event", "OK on forwarded data is not permitted", Value(|d| d.forwarded_errors = vec![DERR])),
    wrong("event", "DERR on forwarded data needs DERR to Home", Given(|d, record| {
        forbid(d, record, |event| event[byte::FWD_ERR] == DERR && event[byte::RESP_ERR] != DERR);
    })),
    wrong("event", "DERR to Home needs DERR on forwarded data", Given(|d, record| {
        forbid(d, record, |event| event[byte::FWD_ERR] == OK && event[byte::RESP_ERR] == DERR);
    })),
    wrong("event", "DERR stands in one of the two fields alone", Given(|d, record| {
        forbid(d, record, |event| event[byte::FWD_ERR] == DERR && event[byte::RESP_ERR] == DERR);
    })),
    wrong("event", "DERR on forwarded data needs data to Home", Given(|d, record| {
        forbid(d, record, |event| event[byte::FWD_ERR] == DERR && event[byte::CHANNEL] == RSP);
    })),
    wrong("event", "DERR on forwarded data needs that Home gets no data", Given(|d, record| {
        forbid(d, record, |event| event[byte::FWD_ERR] == DERR && event[byte::CHANNEL] == DAT);
    })),
    wrong("event", "data that passes the Dirty line on has no DERR", Given(|d, record| {
        forbid(d, record, |event| event[byte::FWD_ERR] == DERR && FWD_STATES_WITH_PD.contains(&event[byte::FWD_STATE]));
    })),
    wrong("event", "data forwarded under SnpPreferUniqueFwd has no DERR", Given(|d, record| {
        forbid(d, record, |event| event[byte::FWD_ERR] == DERR && event[byte::REQUEST] == 22);
    })),
    wrong("event", "data forwarded under Dirty tags has no DERR", Given(|d, record| {
        forbid(d, record, |event| event[byte::FWD_ERR] == DERR && event[byte::TAG] == TAG_DIRTY);
    })),
    wrong("event", "EXOK is permitted without a forward", Given(|d, record| pass_over(d, record, EXOK))),
    wrong("event", "DERR is permitted without a forward", Given(|d, record| pass_over(d, record, DERR))),
    wrong("event", "NDERR is permitted without a forward", Given(|d, record| pass_over(d, record, NDERR))),
    wrong("event", "NDERR's row has NDERR in both fields", Given(|d, record| {
        if asks_whole(d, record) && record[1 + byte::RESP_ERR] == NDERR {
            pass_over(d, record, NDERR);
        }
    })),
    wrong("event", "the new byte is not read", Given(|_, record| record[1 + byte::FWD_ERR] = 0)),
    wrong("event", "the new byte is read for its range alone", Given(|d, record| {
        if record[1 + byte::FWD_ERR] <= d.limits[byte::FWD_ERR] {
            record[1 + byte::FWD_ERR] = 0;
        }
    })),
    wrong("event", "the low bit of the new byte is not looked at", Given(|d, record| {
        if record[1 + byte::FWD_ERR] <= d.limits[byte::FWD_ERR] {
            record[1 + byte::FWD_ERR] &= 254;
        }
    })),
    wrong("event", "the new byte may be anything", Value(|d| d.limits[byte::FWD_ERR] = 255)),
    wrong("event", "a new byte of 4 is in range", Value(|d| d.limits[byte::FWD_ERR] = 4)),
    wrong("event", "a new byte of 3 is out of range", Value(|d| d.limits[byte::FWD_ERR] = 2)),
    wrong("event", "EXOK on forwarded data is refused", Tells(|d, record, answer| {
        if asks_whole(d, record) && record[1 + byte::FWD_ERR] == EXOK {
            refuse_accepted(answer, 4);
        }
    })),
    wrong("event", "an error without a forward is refused", Tells(|d, record, answer| {
        if asks_whole(d, record) && record[1 + byte::FORWARDED] == 0 && record[1 + byte::FWD_ERR] != 0 {
            refuse_accepted(answer, 4);
        }
    })),
    wrong("event", "an event of 14 bytes is read as one without an error", Given(|_, record| {
        if usize::from(record[0]) == OLD_BYTES {
            (record[0], record[1 + byte::FWD_ERR]) = (record[0] + 1, 0);
        }
    })),
    wrong("event", "the new byte stands before the state after", Given(|_, record| record.swap(1 + byte::AFTER, 1 + byte::FWD_ERR))),
    wrong("event", "the new byte is taken for Home's field", Given(|d, record| {
        if asks_whole(d, record) && record[1 + byte::FORWARDED] == 1 && record[1 + byte::FWD_ERR] <= 3 {
            record[1 + byte::RESP_ERR] = record[1 + byte::FWD_ERR];
        }
    })),
    wrong("event", "Home's field is taken for the new byte", Given(|d, record| {
        if asks_whole(d, record) && record[1 + byte::FORWARDED] == 1 && record[1 + byte::FWD_ERR] <= 3 {
            record[1 + byte::FWD_ERR] = record[1 + byte::RESP_ERR];
        }
    })),
    wrong("event", "DERR on forwarded data takes the duty from the Requester", Tells(|d, record, answer| {
        duties_with_derr(d, record, answer, 0);
    })),
    wrong("event", "DERR on forwarded data leaves the duty to Home", Tells(|d, record, answer| duties_with_derr(d, record, answer, 1))),
    wrong("event", "DERR on forwarded data loses the duty", Tells(|d, record, answer| duties_with_derr(d, record, answer, 3))),
    // A whole trace. Its answer has refusal, place in 32 bits, table, verdicts, duties and after-sets.
    wrong("trace", "a refusal clears the verdicts", Tells(|_, case, answer| {
        let lent = lent_in(case);
        if answer.output[0] != 0 {
            answer.output[5 + lent.table.len()..][..lent.verdicts.len()].fill(0);
        }
    })),
    wrong("trace", "a refusal leaves the events before it judged", Tells(|d, case, answer| {
        retell(d, case, answer, true, |_, _, told| told);
    })),
    wrong("trace", "the table is left as lent", Tells(|_, case, answer| {
        let table = lent_in(case).table;
        answer.output[5..][..table.len()].copy_from_slice(&table);
    })),
    wrong("trace", "a pair's number is its low byte", Given(|_, case| {
        change(case, |lent| lent.pairs.iter_mut().skip(1).step_by(2).for_each(|byte| *byte = 0));
    })),
    wrong("trace", "of several bad sets the last is told", Tells(|_, case, answer| {
        if let (2, Some(pair)) = (answer.output[0], lent_in(case).table.iter().rposition(|set| *set > 127)) {
            refuse(answer, 2, pair);
        }
    })),
    wrong("trace", "128 is taken for the empty set", Given(|d, case| {
        if refused(d, &lent_in(case)).0 == 2 {
            change(case, |lent| lent.table.iter_mut().filter(|set| **set == 128).for_each(|set| *set = 0));
        }
    })),
    wrong("trace", "a set in the middle of a table may be anything", Given(|d, case| {
        let lent = lent_in(case);
        match refused(d, &lent) {
            (2, pair) if pair > 300 && pair + 1 < lent.table.len() => change(case, |lent| lent.table[pair] = 0),
            _ => {}
        }
    })),
    wrong("trace", "an event in the middle of a trace may be anything", Given(|d, case| {
        let lent = lent_in(case);
        let last = lent.verdicts.len().saturating_sub(1);
        if let (3..=5, event) = refused(d, &lent) {
            if event > 64 && event < last {
                change(case, |lent| {
                    lent.set_pair(event, 0);
                    lent.events.copy_within(0..d.event_bytes(), event * d.event_bytes());
                });
            }
        }
    })),
    wrong("trace", "a bad set is told before too many events", Tells(|d, case, answer| {
        let (lent, most) = (lent_in(case), Definition { most_events: usize::MAX, ..d.clone() });
        if let (1, (2, pair)) = (answer.output[0], refused(&most, &lent)) {
            refuse(answer, 2, pair);
        }
    })),
    wrong("trace", "a bad event is told before too many pairs", Tells(|d, case, answer| {
        let (lent, most) = (lent_in(case), Definition { most_pairs: usize::MAX, ..d.clone() });
        if let (1, (number @ 3..=5, event)) = (answer.output[0], refused(&most, &lent)) {
            refuse(answer, number, event);
        }
    })),
    wrong("trace", "a short room for after-sets is told last where events are many", Tells(|d, case, answer| {
        let mut lent = lent_in(case);
        if lent.verdicts.len() > 64 && lent.after_sets.len() < lent.verdicts.len() {
            lent.after_sets.resize(lent.verdicts.len(), 0);
            if let (1, (number @ 2..=5, place)) = (answer.output[0], refused(d, &lent)) {
                refuse(answer, number, place);
            }
        }
    })),
    wrong("trace", "4,096 events are too many", Value(|d| d.most_events -= 1)),
    wrong("trace", "4,097 events are not too many", Value(|d| d.most_events += 1)),
    wrong("trace", "65,537 pairs are not too many", Value(|d| d.most_pairs += 1)),
    wrong("trace", "bytes past the last whole event are passed over", Given(|d, case| {
        change(case, |lent| lent.events.truncate(whole_events(d, lent) * d.event_bytes()));
    })),
    wrong("trace", "a bad set is told before a wrong length", Tells(|_, case, answer| {
        if let (1, Some(pair)) = (answer.output[0], lent_in(case).table.iter().position(|set| *set > 127)) {
            refuse(answer, 2, pair);
        }
    })),
    wrong("trace", "a bad event is told before a bad set", Tells(|d, case, answer| {
        let mut lent = lent_in(case);
        lent.table.fill(0);
        if let (2, (number @ 3..=5, place)) = (answer.output[0], refused(d, &lent)) {
            refuse(answer, number, place);
        }
    })),
    wrong("trace", "all pair numbers are looked at first", Tells(|_, case, answer| {
        let lent = lent_in(case);
        let bad = (0..lent.verdicts.len()).find(|n| lent.pair(*n).is_some_and(|pair| pair >= lent.table.len()));
        if let (4 | 5, Some(event)) = (answer.output[0], bad) {
            refuse(answer, 3, event);
        }
    })),
    wrong("trace", "a bad byte is told before a bad pair number", Tells(|d, case, answer| {
        let lent = lent_in(case);
        if let (3, place) = refused(d, &lent) {
            if let number @ 4..=5 = refusal(d, event_of(d, &lent, place)) {
                refuse(answer, number, place);
            }
        }
    })),
    wrong("trace", "an unexplained event leaves the set", Tells(|d, case, answer| {
        retell(d, case, answer, false, |_, before, told| if told[0] == UNEXPLAINED { [1, 0, before] } else { told });
    })),
    wrong("trace", "a lost pair's event is unexplained", Tells(|d, case, answer| {
        retell(d, case, answer, false, |_, _, told| [told[0].min(1), told[1], told[2]]);
    })),
    wrong("trace", "the set of a lost pair becomes all states", Tells(|d, case, answer| {
        retell(d, case, answer, false, |_, before, told| if before == 0 { [2, 0, ALL_STATES] } else { told });
    })),
    wrong("trace", "of the states after one is kept", Tells(|d, case, answer| {
        retell(d, case, answer, false, |_, _, told| [told[0], told[1], told[2] & told[2].wrapping_neg()]);
    })),
    wrong("trace", "lost is told whatever the set before", Tells(|d, case, answer| {
        let lent = lent_in(case);
        let nderr = |n: usize| event_of(d, &lent, n)[byte::RESP_ERR] == NDERR;
        retell(d, case, answer, false, |n, _, told| if told[0] == 0 && nderr(n) { [0, 3, told[2]] } else { told });
    })),
    wrong("trace", "all events are told what the first is", Tells(|d, case, answer| {
        let mut first = None;
        retell(d, case, answer, false, |_, _, told| *first.get_or_insert(told));
    })),
    wrong("trace", "plain data carries any TagOp up to Update", Value(|d| d.set_tag_column(B4_46, TagColumn::UpToUpdate))),
    wrong("trace", "the place of an accepted trace is 0", Tells(|_, _, answer| {
        if answer.output[0] == 0 {
            refuse(answer, 0, 0);
        }
    })),
    // A whole trace with Q-4's snoops.
    wrong("trace", "SnpMakeInvalid has duty 4 with NDERR too", Tells(|d, case, answer| {
        retell_asked(d, case, answer, 10, |_, _, _, told| if told[1] == 3 { [0, 4, told[2]] } else { told });
    })),
    wrong("trace", "SnpMakeInvalid has duty 3 without an error too", Tells(|d, case, answer| {
        retell_asked(d, case, answer, 10, |_, _, _, told| if told[1] == 4 { [0, 3, told[2]] } else { told });
    })),
    wrong("trace", "SnpMakeInvalid has no duty without an error", Value(|d| d.discarding.clear())),
    wrong("trace", "SnpUnique has duty 4", Value(|d| d.discarding.push(7))),
    wrong("trace", "SnpCleanInvalid has duty 4", Value(|d| d.discarding.push(9))),
    wrong("trace", "SnpShared has duty 4", Value(|d| d.discarding.push(1))),
    wrong("trace", "SnpMakeInvalid has duty 4 whatever the set before", Tells(|d, case, answer| {
        retell_asked(d, case, answer, 10, |_, event, _, told| match (told[0], event[byte::RESP_ERR]) {
            (EXPLAINED, OK) => [0, 4, told[2]],
            _ => told,
        });
    })),
    wrong("trace", "SnpMakeInvalid has duty 4 only where all states before are Dirty", Tells(|d, case, answer| {
        retell_asked(d, case, answer, 10, |_, _, before, told| match (told[1], before & !(1 << UD | 1 << UDP | 1 << SD)) {
            (4, clean) if clean != 0 => [0, 0, told[2]],
            _ => told,
        });
    })),
    wrong("trace", "UDP is not Dirty to SnpMakeInvalid", Tells(|d, case, answer| {
        retell_asked(d, case, answer, 10, |_, _, before, told| match (told[1], before & (1 << UD | 1 << SD)) {
            (4, 0) => [0, 0, told[2]],
            _ => told,
        });
    })),
    wrong("trace", "duty 4 goes by the set that the trace starts from", Tells(|d, case, answer| {
        let lent = lent_in(case);
        let started_dirty = |n: usize| lent.pair(n).is_some_and(|pair| holds_dirty(lent.table[pair]));
        retell_asked(d, case, answer, 10, |n, event, _, told| match (told[0], event[byte::RESP_ERR]) {
            (EXPLAINED, OK) => [0, 4 * u8::from(started_dirty(n)), told[2]],
            _ => told,
        });
    })),
    wrong("trace", "duty 4 is told of an unexplained event too", Tells(|d, case, answer| {
        retell_asked(d, case, answer, 10, |_, _, before, told| match (told[0], holds_dirty(before)) {
            (UNEXPLAINED, true) => [UNEXPLAINED, 4, 0],
            _ => told,
        });
    })),
    wrong("trace", "duty 4 is told of a lost pair too", Tells(|d, case, answer| {
        retell_asked(d, case, answer, 10, |_, _, before, told| if before == 0 { [told[0], 4, told[2]] } else { told });
    })),
    wrong("trace", "SnpMakeInvalid leaves the set", Tells(|d, case, answer| {
        retell_asked(d, case, answer, 10, |_, _, before, told| if told[0] == EXPLAINED { [0, told[1], before] } else { told });
    })),
    wrong("trace", "SnpMakeInvalid leaves the pair lost", Tells(|d, case, answer| {
        retell_asked(d, case, answer, 10, |_, _, _, told| [told[0], told[1], 0]);
    })),
    wrong("trace", "SC answers SnpUnique with data at RetToSrc 0 too", Value(|d| add(d, "SnpUnique | SC | 0 | - | SnpRespData_I | I"))),
    wrong("trace", "SC answers SnpCleanInvalid only at RetToSrc 0", Value(shared_at_0)),
    wrong("trace", "UD does not answer SnpMakeInvalid", Value(|d| without(d, SNP_MAKE_INVALID, UD))),
    wrong("trace", "SnpUnique follows B4.46 too", Value(|d| d.tables[0].1.push(7))),
    wrong("trace", "SnpUnique is refused", Value(|d| refuse_request(d, 7))),
    wrong("trace", "SnpCleanInvalid is refused", Value(|d| refuse_request(d, 9))),
    wrong("trace", "SnpMakeInvalid is refused", Value(|d| refuse_request(d, 10))),
    wrong("trace", "request 8 is judged", Value(|d| d.requests.push(("SnpCleanShared", 8)))),
    // A whole trace with Q-5's byte.
    wrong("trace", "EXOK on forwarded data is permitted", Value(|d| d.forwarded_errors.push(EXOK))),
    wrong("trace", "NDERR on forwarded data is permitted", Value(|d| d.forwarded_errors.push(NDERR))),
    wrong("trace", "DERR on forwarded data is not permitted", Value(|d| d.forwarded_errors = vec![OK])),
    wrong("trace", "DERR on forwarded data needs DERR to Home", Given(|d, case| {
        change_events(d, case, |_, event| {
            if event[byte::FORWARDED] == 1 && event[byte::FWD_ERR] == DERR && event[byte::RESP_ERR] == OK {
                event[byte::FWD_ERR] = NDERR;
            }
        });
    })),
    wrong("trace", "DERR is permitted without a forward", Given(|d, case| {
        change_events(d, case, |_, event| {
            if [event[byte::FORWARDED], event[byte::FWD_ERR]] == [0, DERR] {
                event[byte::FWD_ERR] = 0;
            }
        });
    })),
    wrong("trace", "the new byte is not read", Given(|d, case| change_events(d, case, |_, event| event[byte::FWD_ERR] = 0))),
    wrong("trace", "only the first event's new byte is read", Given(|d, case| {
        change_events(d, case, |n, event| event[byte::FWD_ERR] *= u8::from(n == 0));
    })),
    wrong("trace", "the last event's new byte is not read", Given(|d, case| {
        let last = whole_events(d, &lent_in(case)).saturating_sub(1);
        change_events(d, case, |n, event| event[byte::FWD_ERR] *= u8::from(n < last));
    })),
    wrong("trace", "the new byte may be anything", Value(|d| d.limits[byte::FWD_ERR] = 255)),
    wrong("trace", "a new byte of 4 is in range", Value(|d| d.limits[byte::FWD_ERR] = 4)),
    wrong("trace", "a new byte of 3 is out of range", Value(|d| d.limits[byte::FWD_ERR] = 2)),
    wrong("trace", "events of 14 bytes are read as ones without an error", Given(|d, case| {
        let lent = lent_in(case);
        if lent.events.len() == OLD_BYTES * lent.verdicts.len() {
            change(case, |lent| lent.events = widened(d, &lent.events));
        }
    })),
    wrong("trace", "more than 57,344 bytes of events are too many", Tells(|d, case, answer| {
        let lent = lent_in(case);
        if lent.events.len() > OLD_BYTES * d.most_events {
            answer.output = trace_answer(&Judged { refusal: 1, place: 0, lent });
        }
    })),
    wrong("trace", "DERR on forwarded data takes the duty from the Requester", Tells(|d, case, answer| {
        retell_derr(d, case, answer, |told| if told[1] == 2 { [told[0], 0, told[2]] } else { told });
    })),
    wrong("trace", "DERR on forwarded data loses the duty", Tells(|d, case, answer| {
        retell_derr(d, case, answer, |told| if told[1] == 2 { [told[0], 3, told[2]] } else { told });
    })),
    wrong("trace", "DERR on forwarded data leaves the pair lost", Tells(|d, case, answer| {
        retell_derr(d, case, answer, |told| [told[0], told[1], 0]);
    })),
    // A whole trace with Q-6's pairs.
    wrong("trace", "there can be as many events as pairs", Value(|d| d.most_events = d.most_pairs)),
    wrong("trace", "65,536 pairs are too many", Value(|d| d.most_pairs -= 1)),
    wrong("trace", "4,097 pairs are too many", Value(old_limit)),
    wrong("trace", "a table's length is kept in 16 bits", Tells(|d, case, answer| {
        let lent = lent_in(case);
        let (kept, past) = lent.table.split_at(lent.table.len() % (usize::from(u16::MAX) + 1));
        if !past.is_empty() {
            let mut judged = judge(d, &Lent { table: kept.to_vec(), ..lent.clone() });
            judged.lent.table.extend(past);
            answer.output = trace_answer(&judged);
        }
    })),
    wrong("trace", "a bad set is told before too many pairs", Tells(|d, case, answer| {
        let (lent, most) = (lent_in(case), Definition { most_pairs: usize::MAX, ..d.clone() });
        if let (1, (2, pair)) = (answer.output[0], refused(&most, &lent)) {
            refuse(answer, 2, pair);
        }
    })),
    wrong("trace", "a pair's number is its low 12 bits", Given(|_, case| {
        change(case, |lent| renumber(lent, |pair| pair % PAIRS_BEFORE_Q6));
    })),
    wrong("trace", "a pair's number is its low 15 bits", Given(|_, case| change(case, |lent| renumber(lent, |pair| pair % HALF)))),
    wrong("trace", "pairs that are equal modulo 4,096 have one set", Given(|d, case| {
        if refused(d, &lent_in(case)).0 == 0 {
            change(case, |lent| renumber(lent, |pair| pair % PAIRS_BEFORE_Q6));
        }
    })),
    wrong("trace", "pairs that are equal modulo 32,768 have one set", Given(|d, case| {
        if refused(d, &lent_in(case)).0 == 0 {
            change(case, |lent| renumber(lent, |pair| pair % HALF));
        }
    })),
    wrong("trace", "pairs 0 and 4,096 have one set", Given(|d, case| {
        if refused(d, &lent_in(case)).0 == 0 {
            change(case, |lent| renumber(lent, |pair| if pair == PAIRS_BEFORE_Q6 { 0 } else { pair }));
        }
    })),
    wrong("trace", "pair number 4,096 is refused", Tells(|d, case, answer| refuse_pairs(d, case, answer, |pair| pair == PAIRS_BEFORE_Q6))),
    wrong("trace", "pair numbers above 4,095 are refused", Tells(|d, case, answer| {
        refuse_pairs(d, case, answer, |pair| pair >= PAIRS_BEFORE_Q6);
    })),
    wrong("trace", "pair numbers above 32,767 are refused", Tells(|d, case, answer| refuse_pairs(d, case, answer, |pair| pair >= HALF))),
    wrong("trace", "pair number 65,535 is taken for none", Tells(|d, case, answer| {
        refuse_pairs(d, case, answer, |pair| pair == usize::from(u16::MAX));
    })),
    wrong("trace", "pair numbers above 32,767 are below any length", Given(|_, case| change(case, |lent| {
        let length = lent.table.len();
        renumber(lent, |pair| if pair >= HALF.max(length) { 0 } else { pair });
    }))),
    wrong("trace", "the set of pair 4,096 may be anything", Given(|d, case| {
        if let (2, PAIRS_BEFORE_Q6) = refused(d, &lent_in(case)) {
            change(case, |lent| lent.table[PAIRS_BEFORE_Q6] = 0);
        }
    })),
    wrong("trace", "from pair 4,096 on a set may be anything", Given(|d, case| {
        if let (2, PAIRS_BEFORE_Q6..) = refused(d, &lent_in(case)) {
            change(case, |lent| lent.table[PAIRS_BEFORE_Q6..].iter_mut().for_each(|set| *set &= ALL_STATES));
        }
    })),
    wrong("trace", "the place of a bad set is told modulo 4,096", Tells(|_, _, answer| {
        other_place(answer, 2, |pair| pair % PAIRS_BEFORE_Q6);
    })),
    wrong("trace", "the place of a bad set is told as a number with a sign", Tells(|_, _, answer| {
        other_place(answer, 2, |pair| pair as i16 as usize);
    })),
    wrong("trace", "sets from pair 4,096 on are cleared", Tells(|_, case, answer| {
        retell_high_sets(case, answer, |_, high| high.fill(0));
    })),
    wrong("trace", "sets from pair 4,096 on are left as lent", Tells(|_, case, answer| {
        retell_high_sets(case, answer, |lent, high| high.copy_from_slice(&lent.table[PAIRS_BEFORE_Q6..]));
    })),
    wrong("trace", "sets from pair 4,096 on become all states where no event is", Tells(|_, case, answer| {
        retell_high_sets(case, answer, |lent, high| {
            let used: Vec<usize> = (0..lent.verdicts.len()).filter_map(|n| lent.pair(n)).collect();
            let others = high.iter_mut().enumerate().filter(|(n, _)| !used.contains(&(PAIRS_BEFORE_Q6 + n)));
            others.for_each(|(_, set)| *set = ALL_STATES);
        });
    })),
    wrong("trace", "the set of pair 65,535 is left as lent", Tells(|_, case, answer| {
        let table = lent_in(case).table;
        if let (0, Some(set)) = (answer.output[0], table.get(usize::from(u16::MAX))) {
            answer.output[5 + usize::from(u16::MAX)] = *set;
        }
    })),
    // A bench sheet.
    wrong("sheet", "LF alone ends a line", Given(|_, sheet| *sheet = replaced(&replaced(sheet, CRLF, b"\n"), b"\n", CRLF))),
    wrong("sheet", "a CR before the CRLF is dropped", Given(|_, sheet| *sheet = replaced(sheet, b"\r\r\n", CRLF))),
    wrong("sheet", "a pair may have leading zeros", Given(|_, sheet| {
        let number = |line: &[u8]| {
            let zeros = line.iter().take_while(|byte| **byte == b'0').count();
            let more = line.get(zeros).is_some_and(u8::is_ascii_digit);
            line[if more { zeros } else { zeros.saturating_sub(1) }..].to_vec()
        };
        *sheet = sheet.split_inclusive(|byte| *byte == b'\n').flat_map(number).collect();
    })),
    wrong("sheet", "a colon is taken for a digit", Given(|_, sheet| *sheet = replaced(sheet, b":", b"9"))),
    wrong("sheet", "quotes are taken off", Given(|_, sheet| *sheet = replaced(sheet, b"\"", b""))),
    wrong("sheet", "an empty line at the end is passed over", Given(|_, sheet| {
        if sheet.ends_with(b"\r\n\r\n") {
            sheet.truncate(sheet.len() - 2);
        }
    })),
    wrong("sheet", "capitals of the header do not matter", Given(|d, sheet| {
        let length = d.header.len().min(sheet.len());
        if sheet[..length].eq_ignore_ascii_case(d.header.as_bytes()) {
            sheet[..length].copy_from_slice(d.header.as_bytes());
        }
    })),
    wrong("sheet", "a last line without its CRLF is passed over", Given(|_, sheet| {
        let end = sheet.windows(2).rposition(|two| two == CRLF);
        sheet.truncate(end.map_or(0, |end| end + 2));
    })),
    wrong("sheet", "a line can have 161 bytes", Value(|d| d.longest_line += 1)),
    wrong("sheet", "the CRLF counts among the 160 bytes", Value(|d| d.longest_line -= 2)),
    wrong("sheet", "there can be a line more", Value(|d| d.most_lines += 1)),
    wrong("sheet", "pair 65535 is refused with 3", Value(|d| d.most_pairs -= 1)),
    wrong("sheet", "six digits are refused with 3", Value(|d| d.pair_digits += 1)),
    wrong("sheet", "plain data carries any TagOp up to Update", Value(|d| d.set_tag_column(B4_46, TagColumn::UpToUpdate))),
    wrong("sheet", "CompData_UC is not known", Value(|d| rows(d, |row| {
        if row.forward.name == "CompData_UC" {
            row.forward.name = "CompData_none";
        }
    }))),
    wrong("sheet", "3 is told before 8", Tells(|d, sheet, answer| {
        no_pair_first(sheet, answer, |pair| pair.len() <= d.pair_digits && pair.parse().is_ok_and(|pair: usize| pair >= d.most_pairs));
    })),
    wrong("sheet", "lines end in LF", Tells(|_, _, answer| answer.output = replaced(&answer.output, CRLF, b"\n"))),
    wrong("sheet", "event 1000 is told as 000", Tells(|_, _, answer| answer.output = replaced(&answer.output, b"\n1000,", b"\n000,"))),
    wrong("sheet", "SC is named before I", Tells(|_, _, answer| answer.output = replaced(&answer.output, b"I SC\r", b"SC I\r"))),
    wrong("sheet", "answers before a refusal are taken back", Tells(|_, _, answer| {
        if let Some(place) = answer.output.windows(7).position(|bytes| bytes == b"refused") {
            answer.output.drain(OUTPUT_HEADER.len() + 2..place);
        }
    })),
    wrong("sheet", "a CRLF that two reads part is no end", Gets(|arrival, sheet| {
        let pieces = arrival.pieces(sheet);
        let next = |n: usize| pieces.get(n + 1).map(|next| next[0]);
        let parted = |n: usize| pieces[n].ends_with(b"\r") && next(n) == Some(b'\n');
        (0..pieces.len()).flat_map(|n| pieces[n][..pieces[n].len() - usize::from(parted(n))].to_vec()).collect()
    })),
    wrong("sheet", "a byte is lost after 4,096 in one read", Gets(|arrival, sheet| {
        if arrival == Arrival::Pipe { lose(sheet, 4_096, 0..=255) } else { sheet.to_vec() }
    })),
    wrong("sheet", "a CR is lost before byte 131,072 of a file", Gets(|arrival, sheet| {
        if arrival == Arrival::File { lose(sheet, 131_072, 13..=13) } else { sheet.to_vec() }
    })),
    wrong("sheet", "a CR is lost before byte 1,048,576 of a file", Gets(|arrival, sheet| {
        if arrival == Arrival::File { lose(sheet, 1 << 20, 13..=13) } else { sheet.to_vec() }
    })),
    wrong("sheet", "one read is taken for all", Gets(first_piece)),
    // A bench sheet with Q-4's snoops.
    wrong("sheet", "discarded is spelled lost", Tells(|_, _, answer| {
        answer.output = replaced(&answer.output, b",discarded,", b",lost,");
    })),
    wrong("sheet", "discarded is spelled with a capital", Tells(|_, _, answer| {
        answer.output = replaced(&answer.output, b",discarded,", b",Discarded,");
    })),
    wrong("sheet", "discarded is spelled thrown away", Tells(|_, _, answer| {
        answer.output = replaced(&answer.output, b",discarded,", b",thrown away,");
    })),
    wrong("sheet", "NDERR under SnpMakeInvalid is discarded", Tells(|_, sheet, answer| {
        let given = lines(sheet);
        let asked = |n: usize| given.get(n).is_some_and(|line| line.windows(15).any(|word| word == b",SnpMakeInvalid"));
        let told = lines(&answer.output).into_iter().enumerate().map(|(n, line)| match asked(n) {
            true => replaced(line, b",lost,", b",discarded,"),
            false => line.to_vec(),
        });
        answer.output = told.flat_map(|line| [&line, CRLF].concat()).collect();
    })),
    wrong("sheet", "SnpMakeInvalid has no duty without an error", Value(|d| d.discarding.clear())),
    wrong("sheet", "SnpUnique has duty 4", Value(|d| d.discarding.push(7))),
    wrong("sheet", "SnpUnique is not known", Value(|d| refuse_request(d, 7))),
    wrong("sheet", "SnpCleanInvalid is not known", Value(|d| refuse_request(d, 9))),
    wrong("sheet", "SnpMakeInvalid is not known", Value(|d| refuse_request(d, 10))),
    wrong("sheet", "SnpCleanShared is known", Value(|d| d.requests.push(("SnpCleanShared", 8)))),
    wrong("sheet", "SnpCleanInvalid and SnpMakeInvalid are exchanged", Value(|d| {
        d.requests.iter_mut().for_each(|(_, code)| *code = [*code, 10, 9][usize::from(*code == 9) + 2 * usize::from(*code == 10)]);
    })),
    wrong("sheet", "SC answers SnpUnique without data at RetToSrc 1 too", Value(|d| add(d, "SnpUnique | SC | 1 | - | SnpResp_I | I"))),
    wrong("sheet", "Dirty lines answer SnpMakeInvalid with data too", Value(dirty_data)),
    wrong("sheet", "data under SnpUnique carries any TagOp up to Update", Value(|d| d.set_tag_column(SNP_UNIQUE, TagColumn::UpToUpdate))),
    // A bench sheet with Q-5's column.
    wrong("sheet", "EXOK on forwarded data is permitted", Value(|d| d.forwarded_errors.push(EXOK))),
    wrong("sheet", "NDERR on forwarded data is permitted", Value(|d| d.forwarded_errors.push(NDERR))),
    wrong("sheet", "DERR on forwarded data is not permitted", Value(|d| d.forwarded_errors = vec![OK])),
    wrong("sheet", "NDERR in fwdErr is a lost duty", Tells(|_, sheet, answer| {
        let given = lines(sheet);
        let nderr = |n: usize| given.get(n).is_some_and(|line| line.ends_with(b",NDERR"));
        let told = lines(&answer.output).into_iter().enumerate().map(|(n, line)| match nderr(n) {
            true => replaced(line, b",unexplained,none,", b",explained,lost,I"),
            false => line.to_vec(),
        });
        answer.output = told.flat_map(|line| [&line, CRLF].concat()).collect();
    })),
    wrong("sheet", "fwdErr is taken for RespErr", Given(|d, sheet| change_fields(d, sheet, |fields| {
        if fields[column::FWD_ERR] != b"-" {
            fields[column::RESP_ERR] = fields[column::FWD_ERR].clone();
        }
    }))),
    wrong("sheet", "RespErr is taken for fwdErr", Given(|d, sheet| change_fields(d, sheet, |fields| {
        if fields[column::FWD_ERR] != b"-" {
            fields[column::FWD_ERR] = fields[column::RESP_ERR].clone();
        }
    }))),
    wrong("sheet", "fwdErr stands before final in a line", Given(|d, sheet| {
        change_fields(d, sheet, |fields| fields.swap(column::FINAL, column::FWD_ERR));
    })),
    wrong("sheet", "fwdErr may stand before final", Given(|d, sheet| {
        let exchanged = |line: &[u8]| {
            let mut fields = fields_of(line);
            if fields.len() > column::FWD_ERR {
                fields.swap(column::FINAL, column::FWD_ERR);
            }
            line_of(&fields)
        };
        if lines(sheet).first().is_some_and(|first| exchanged(first) == d.header.as_bytes()) {
            change_lines(sheet, |_, line| exchanged(line));
        }
    })),
    wrong("sheet", "- in fwdErr alone is taken for OK", Given(|d, sheet| change_fields(d, sheet, |fields| {
        if fields[column::FORWARD] != b"-" && fields[column::FWD_ERR] == b"-" {
            fields[column::FWD_ERR] = b"OK".to_vec();
        }
    }))),
    wrong("sheet", "OK without a forward is taken for -", Given(|d, sheet| change_fields(d, sheet, |fields| {
        if fields[column::FORWARD] == b"-" && fields[column::FWD_ERR] == b"OK" {
            fields[column::FWD_ERR] = b"-".to_vec();
        }
    }))),
    wrong("sheet", "fwdErr is not looked at without a forward", Given(|d, sheet| change_fields(d, sheet, |fields| {
        if fields[column::FORWARD] == b"-" {
            fields[column::FWD_ERR] = b"-".to_vec();
        }
    }))),
    wrong("sheet", "an error without a forward is unexplained", Given(|d, sheet| change_fields(d, sheet, |fields| {
        if fields[column::FORWARD] == b"-" && [&b"EXOK"[..], b"DERR", b"NDERR"].contains(&&fields[column::FWD_ERR][..]) {
            (fields[column::FORWARD], fields[column::FWD_ERR]) = (b"CompData_SC".to_vec(), b"NDERR".to_vec());
        }
    }))),
    wrong("sheet", "- is not known in fwdErr", Given(|d, sheet| change_fields(d, sheet, |fields| {
        if fields[column::FWD_ERR] == b"-" {
            fields[column::FWD_ERR] = b"x".to_vec();
        }
    }))),
    wrong("sheet", "nothing in fwdErr is taken for -", Given(|d, sheet| change_fields(d, sheet, |fields| {
        if fields[column::FORWARD] == b"-" && fields[column::FWD_ERR].is_empty() {
            fields[column::FWD_ERR] = b"-".to_vec();
        }
    }))),
    wrong("sheet", "- alone is told after 3", Given(|d, sheet| change_fields(d, sheet, |fields| {
        if fields[0] == d.most_pairs.to_string().as_bytes() && fields[column::FORWARD] != b"-" && fields[column::FWD_ERR] == b"-" {
            fields[column::FWD_ERR] = b"OK".to_vec();
        }
    }))),
    wrong("sheet", "EXOK is not known in fwdErr", Given(|d, sheet| other_name(d, sheet, b"EXOK", b"x"))),
    wrong("sheet", "NDERR is not known in fwdErr", Given(|d, sheet| other_name(d, sheet, b"NDERR", b"x"))),
    wrong("sheet", "DERR is not known in fwdErr", Given(|d, sheet| other_name(d, sheet, b"DERR", b"x"))),
    wrong("sheet", "OKAY is known in fwdErr", Given(|d, sheet| other_name(d, sheet, b"OKAY", b"OK"))),
    wrong("sheet", "small letters are known in fwdErr", Given(|d, sheet| change_fields(d, sheet, |fields| {
        fields[column::FWD_ERR].make_ascii_uppercase();
    }))),
    wrong("sheet", "a sheet with the old header is read", Given(|d, sheet| {
        if is_old(d, sheet) {
            change_lines(sheet, |n, line| if n == 0 { d.header.into() } else { with_error(d, line) });
        }
    })),
    wrong("sheet", "the old header stands before new lines too", Given(|d, sheet| {
        if is_old(d, sheet) {
            change_lines(sheet, |n, line| if n == 0 { d.header.into() } else { line.to_vec() });
        }
    })),
    wrong("sheet", "a line of 11 fields is read", Given(|d, sheet| {
        change_lines(sheet, |n, line| if n == 0 { line.to_vec() } else { with_error(d, line) });
    })),
    wrong("sheet", "a line of 11 fields is read where it forwards nothing", Given(|d, sheet| {
        change_lines(sheet, |n, line| match with_error(d, line) {
            other if n > 0 && other.ends_with(b",-") => other,
            _ => line.to_vec(),
        });
    })),
    wrong("sheet", "a line of 13 fields is read", Given(|d, sheet| {
        change_lines(sheet, |n, line| match fields_of(line) {
            fields if n > 0 && fields.len() == columns(d) + 1 => line_of(&fields[..columns(d)]),
            _ => line.to_vec(),
        });
    })),
    // A bench sheet with Q-6's pairs.
    wrong("sheet", "65536 is taken for pair 0", Given(|d, sheet| {
        change_pairs(d, sheet, |pair| (pair == d.most_pairs.to_string()).then_some(0));
    })),
    wrong("sheet", "five digits above 65535 are taken modulo 65,536", Given(|d, sheet| {
        change_pairs(d, sheet, |pair| number_of(pair, d.pair_digits).map(|pair| pair % d.most_pairs));
    })),
    wrong("sheet", "six digits are taken modulo 65,536", Given(|d, sheet| {
        let six = d.pair_digits + 1;
        change_pairs(d, sheet, |pair| number_of(pair, six).filter(|_| pair.len() == six).map(|pair| pair % d.most_pairs));
    })),
    wrong("sheet", "any number is taken modulo 65,536", Given(|d, sheet| {
        change_pairs(d, sheet, |pair| number_of(pair, usize::MAX).map(|pair| pair % d.most_pairs));
    })),
    wrong("sheet", "65536 is refused with 8", Given(|d, sheet| {
        change_pair_fields(d, sheet, |pair| (pair == d.most_pairs.to_string()).then_some("x".to_string()));
    })),
    wrong("sheet", "five digits above 65535 are refused with 8", Given(|d, sheet| {
        change_pair_fields(d, sheet, |pair| number_of(pair, d.pair_digits).filter(|pair| *pair >= d.most_pairs).map(|_| "x".to_string()));
    })),
    wrong("sheet", "five digits are refused with 8", Value(|d| d.pair_digits -= 1)),
    wrong("sheet", "five digits are refused with 3", Given(|d, sheet| {
        change_pairs(d, sheet, |pair| number_of(pair, d.pair_digits).filter(|_| pair.len() == d.pair_digits).map(|_| d.most_pairs));
    })),
    wrong("sheet", "pairs above 4095 are refused with 3", Value(old_limit)),
    wrong("sheet", "pairs above 32767 are refused with 3", Value(|d| d.most_pairs = HALF)),
    wrong("sheet", "65535 is not known for a pair", Given(|d, sheet| {
        change_pair_fields(d, sheet, |pair| (pair == (d.most_pairs - 1).to_string()).then_some("x".to_string()));
    })),
    wrong("sheet", "pairs that are equal modulo 4,096 have one set", Given(|d, sheet| {
        change_pairs(d, sheet, |pair| pair_of(d, pair).map(|pair| pair % PAIRS_BEFORE_Q6));
    })),
    wrong("sheet", "pairs that are equal modulo 32,768 have one set", Given(|d, sheet| {
        change_pairs(d, sheet, |pair| pair_of(d, pair).map(|pair| pair % HALF));
    })),
    wrong("sheet", "pairs 0 and 4096 have one set", Given(|d, sheet| {
        change_pairs(d, sheet, |pair| pair_of(d, pair).filter(|pair| *pair == PAIRS_BEFORE_Q6).map(|_| 0));
    })),
    wrong("sheet", "the fifth digit is not read", Given(|d, sheet| {
        change_pair_fields(d, sheet, |pair| (pair.len() == d.pair_digits).then(|| pair[..d.pair_digits - 1].to_string()));
    })),
    wrong("sheet", "the first of five digits is not read", Given(|d, sheet| {
        change_pair_fields(d, sheet, |pair| (pair.len() == d.pair_digits && !pair.starts_with('0')).then(|| pair[1..].to_string()));
    })),
    wrong("sheet", "a leading zero is taken where four digits follow", Given(|d, sheet| {
        change_pair_fields(d, sheet, |pair| pair.strip_prefix('0').filter(|rest| rest.len() + 1 == d.pair_digits).map(str::to_string));
    })),
    wrong("sheet", "a leading zero is taken where five digits follow", Given(|d, sheet| {
        change_pair_fields(d, sheet, |pair| pair.strip_prefix('0').filter(|rest| rest.len() == d.pair_digits).map(str::to_string));
    })),
    wrong("sheet", "3 is told before 8 for 65536", Tells(|d, sheet, answer| {
        no_pair_first(sheet, answer, |pair| pair == d.most_pairs.to_string());
    })),
    wrong("sheet", "only the first 4,096 pairs start from all states", Tells(|d, sheet, answer| {
        retell_sheet(d, sheet, answer, |pair| if pair < PAIRS_BEFORE_Q6 { ALL_STATES } else { 0 }, |_| true);
    })),
    wrong("sheet", "pair 54321 starts from no state", Tells(|d, sheet, answer| {
        retell_sheet(d, sheet, answer, |pair| if pair == ONE_OF_MANY { 0 } else { ALL_STATES }, |_| true);
    })),
    wrong("sheet", "the sets of pairs from 4,096 on are not kept", Tells(|d, sheet, answer| {
        retell_sheet(d, sheet, answer, |_| ALL_STATES, |pair| pair < PAIRS_BEFORE_Q6);
    })),
    wrong("sheet", "the set of pair 65535 is not kept", Tells(|d, sheet, answer| {
        retell_sheet(d, sheet, answer, |_| ALL_STATES, |pair| pair < usize::from(u16::MAX));
    })),
    wrong("sheet", "a pair's fifth digit is lost where a read of several bytes ends before it", Gets(lose_fifth_digits)),
    // A bench sheet whose lines are read in another way where many bytes stand behind their beginning.
    wrong("sheet", "any byte is taken for a comma, many bytes behind it", Given(|d, sheet| mend(d, sheet, |line| {
        (0..line.len()).map(|place| with_bytes(line, place, 1, b",")).collect()
    }))),
    wrong("sheet", "a name is taken without its comma, many bytes behind it", Given(|d, sheet| mend(d, sheet, |line| {
        (1..line.len()).map(|place| with_bytes(line, place, 0, b",")).collect()
    }))),
    wrong("sheet", "a byte more behind a name is passed over, many bytes behind it", Given(|d, sheet| mend(d, sheet, |line| {
        commas(line).into_iter().skip(1).map(|comma| with_bytes(line, comma - 1, 1, b"")).collect()
    }))),
    wrong("sheet", "the last byte of a response is not looked at, many bytes behind it", Given(|d, sheet| mend(d, sheet, |line| {
        let last = commas(line).get(column::RESPONSE).map(|comma| comma - 1);
        last.map_or(vec![], |last| (0..=255).map(|byte| with_bytes(line, last, 1, &[byte])).collect())
    }))),
    wrong("sheet", "a request without its last byte is taken, many bytes behind it", Given(|d, sheet| mend(d, sheet, |line| {
        let end = commas(line).get(column::REQUEST).copied();
        end.map_or(vec![], |end| (b'a'..=b'z').map(|byte| with_bytes(line, end, 0, &[byte])).collect())
    }))),
    wrong("sheet", "the ninth byte of a request is not looked at, many bytes behind it", Given(|d, sheet| mend(d, sheet, |line| {
        let ninth = commas(line).first().map(|comma| comma + 9).filter(|ninth| *ninth < line.len());
        ninth.map_or(vec![], |ninth| (b'A'..=b'z').map(|byte| with_bytes(line, ninth, 1, &[byte])).collect())
    }))),
    wrong("sheet", "capitals of a tag do not matter, many bytes behind it", Given(|d, sheet| mend(d, sheet, |line| {
        with_field(line, column::TAG, |tag| [tag[..1].to_ascii_uppercase(), tag[1..].to_ascii_lowercase()].concat())
    }))),
    wrong("sheet", "a TagOp is taken for a tag, many bytes behind it", Given(|d, sheet| mend(d, sheet, |line| {
        with_field(line, column::TAG, |tag| if is_of(&TAG_OPS, tag) { b"Dirty".to_vec() } else { tag.to_vec() })
    }))),
    wrong("sheet", "a final state is taken for no error of the forward, many bytes behind it", Given(|d, sheet| mend(d, sheet, |line| {
        with_field(line, column::FWD_ERR, |error| if is_of(&STATES, error) { b"OK".to_vec() } else { error.to_vec() })
    }))),
    wrong("sheet", "- in forward alone is taken, many bytes behind it", Given(|d, sheet| mend(d, sheet, |line| {
        with_field(line, column::FWD_ERR, |error| if is_of(&RESP_ERRS, error) { b"-".to_vec() } else { error.to_vec() })
    }))),
    wrong("sheet", "a digit of a pair has any upper bits, many bytes behind it", Given(|d, sheet| mend(d, sheet, |line| {
        let end = commas(line).first().copied().unwrap_or(0);
        let digits: Vec<u8> = line[..end].iter().map(|byte| if byte & 15 < 10 { b'0' | byte & 15 } else { *byte }).collect();
        vec![[&digits, &line[end..]].concat()]
    }))),
    wrong("sheet", "a semicolon is a digit of a pair, many bytes behind it", Given(|d, sheet| mend(d, sheet, |line| {
        vec![replaced(line, b";", b"9")]
    }))),
    wrong("sheet", "only the last bit of a flag is looked at, many bytes behind it", Given(|d, sheet| mend(d, sheet, |line| {
        let mut fields = fields_of(line);
        let flags = fields.iter_mut().skip(column::REQUEST + 1).take(3).filter(|flag| flag.len() == 1);
        flags.for_each(|flag| flag[0] = b'0' | flag[0] & 1);
        vec![line_of(&fields)]
    }))),
    wrong("sheet", "only the CR of a CRLF is looked at, many bytes behind it", Given(|d, sheet| mend(d, sheet, |line| {
        let crs = (0..line.len()).filter(|place| line[*place] == b'\r');
        crs.map(|cr| with_bytes(line, cr, 2, CRLF)).collect()
    }))),
    wrong("sheet", "only the LF of a CRLF is looked at, many bytes behind it", Given(|d, sheet| mend(d, sheet, |line| {
        let lfs = (1..line.len()).filter(|place| line[*place] == b'\n');
        lfs.map(|lf| with_bytes(line, lf - 1, 2, CRLF)).collect()
    }))),
    wrong("sheet", "what an earlier read of many bytes left makes the last line whole", Gets(end_of_before)),
    wrong("sheet", "a line is taken before its CRLF has come, many bytes before it", Gets(|arrival, sheet| {
        end_early(arrival, sheet, |line| is_good(&Definition::now(), line))
    })),
    wrong("sheet", "a long line is lost whose CRLF ends a read, many bytes before it", Gets(|arrival, sheet| {
        last_lines(arrival, sheet, |line, begun| (line.len() > 95 && begun == 0).then(Vec::new))
    })),
    wrong("sheet", "a long line is lost of whose next one a byte has come, many bytes before it", Gets(|arrival, sheet| {
        last_lines(arrival, sheet, |line, begun| (line.len() > 95 && begun == 1).then(Vec::new))
    })),
    wrong("sheet", "a line is of pair 7 if a read ends over 100 bytes behind it, many bytes before it", Gets(|arrival, sheet| {
        last_lines(arrival, sheet, |line, begun| {
            let others = line.iter().position(|byte| *byte == b',').filter(|_| begun > 100)?;
            Some([b"7", &line[others..], CRLF].concat())
        })
    })),
    wrong("sheet", "two digits of an event from 543,210 on are exchanged", Tells(|_, _, answer| renumber_events(answer, |n| match n {
        543_210.. => n / 1_000 * 1_000 + n % 10 * 100 + n / 10 % 10 * 10 + n / 100 % 10,
        _ => n,
    }))),
    wrong("sheet", "event 999,999 is told as 99,999", Tells(|_, _, answer| {
        renumber_events(answer, |n| if n == 999_999 { 99_999 } else { n });
    })),
    wrong("sheet", "from event 900,000 on Requester is told as Home", Tells(|_, _, answer| {
        let numbers = answer.output.windows(9).position(|bytes| bytes == b"\r\n900000,");
        if let Some(place) = numbers {
            let rest = replaced(&answer.output[place..], b",Requester,", b",Home,");
            answer.output = [&answer.output[..place], &rest].concat();
        }
    })),
    // A capture.
    wrong("capture", "one read is taken for all", Gets(first_piece)),
    wrong("capture", "standard input is read though a file is named", Gets(|arrival, capture| match arrival {
        Arrival::Named => b"x".to_vec(),
        _ => capture.to_vec(),
    })),
    wrong("capture", "the high byte of a pair comes first", Given(|d, capture| {
        change_records(d, capture, |records| records.chunks_exact_mut(record_bytes(d)).for_each(|record| record.swap(0, 1)));
    })),
    wrong("capture", "bytes past the last whole record are passed over", Given(|d, capture| {
        change_records(d, capture, |records| records.truncate(records.len() / record_bytes(d) * record_bytes(d)));
    })),
    wrong("capture", "a part starts from all states again", Tells(|d, capture, answer| {
        let part = d.most_events * record_bytes(d);
        if answer.status == 0 && capture.len() > d.capture_mark.len() + part {
            let last = answer.output.split_inclusive(|byte| *byte == b'\n').next_back().unwrap_or(&[]).to_vec();
            let parts = records_in(d, capture).unwrap_or(&[]).chunks(part).enumerate();
            let answers = parts.map(|(n, records)| (n * d.most_events, capture::answer(d, &[d.capture_mark, records].concat())));
            let events = answers.flat_map(|(first, part)| renumbered(&part.output, |event| event + first));
            answer.output = events.filter(|line| line.starts_with(b"event")).flatten().chain(last).collect();
        }
    })),
    wrong("capture", "events are counted from the first of their part", Tells(|d, _, answer| {
        answer.output = renumbered(&answer.output, |event| event % d.most_events).concat();
    })),
    wrong("capture", "what was told is taken back at a refusal", Tells(|_, _, answer| {
        if answer.status == 1 {
            answer.output.clear();
        }
    })),
    wrong("capture", "a refusal ends with status 0", Tells(|_, _, answer| {
        if answer.complaint.starts_with(b"capture: refused") {
            answer.status = 0;
        }
    })),
    wrong("capture", "a refusal says nothing", Tells(|_, _, answer| {
        if answer.complaint.starts_with(b"capture: refused") {
            answer.complaint.clear();
        }
    })),
    wrong("capture", "a cut ends with status 0", Tells(|_, _, answer| {
        if answer.complaint.starts_with(b"capture: it ends") {
            answer.status = 0;
        }
    })),
    wrong("capture", "plain data carries any TagOp up to Update", Value(|d| d.set_tag_column(B4_46, TagColumn::UpToUpdate))),
    wrong("capture", "a lost duty is not told", Tells(|_, _, answer| {
        let lines = answer.output.split_inclusive(|byte| *byte == b'\n');
        answer.output = lines.filter(|line| !line.ends_with(b"lost\n")).collect::<Vec<&[u8]>>().concat();
    })),
    // A capture with Q-4's snoops.
    wrong("capture", "a discarded duty is not told", Tells(|_, _, answer| {
        let lines = answer.output.split_inclusive(|byte| *byte == b'\n');
        answer.output = lines.filter(|line| !line.ends_with(b"discarded\n")).collect::<Vec<&[u8]>>().concat();
    })),
    wrong("capture", "a discarded duty is told as lost", Tells(|_, _, answer| {
        answer.output = replaced(&answer.output, b"discarded\n", b"lost\n");
    })),
    wrong("capture", "SnpUnique has duty 4", Value(|d| d.discarding.push(7))),
    wrong("capture", "SnpMakeInvalid is refused", Value(|d| refuse_request(d, 10))),
    wrong("capture", "request 8 is judged", Value(|d| d.requests.push(("SnpCleanShared", 8)))),
    wrong("capture", "request 41 is judged", Value(|d| d.requests.push(("SnpCleanInvalid in another place", 41)))),
    // A capture with Q-5's mark and byte.
    wrong("capture", "EXOK on forwarded data is permitted", Value(|d| d.forwarded_errors.push(EXOK))),
    wrong("capture", "NDERR on forwarded data is permitted", Value(|d| d.forwarded_errors.push(NDERR))),
    wrong("capture", "DERR on forwarded data is not permitted", Value(|d| d.forwarded_errors = vec![OK])),
    wrong("capture", "the new byte may be anything", Value(|d| d.limits[byte::FWD_ERR] = 255)),
    wrong("capture", "the new byte is not read", Given(|d, capture| {
        change_records(d, capture, |records| records.chunks_exact_mut(record_bytes(d)).for_each(|record| record[2 + byte::FWD_ERR] = 0));
    })),
    wrong("capture", "a capture without a mark is read", Given(|d, capture| {
        if !capture.starts_with(d.capture_mark) {
            *capture = [d.capture_mark, capture].concat();
        }
    })),
    wrong("capture", "an old capture is read", Given(|d, capture| {
        if !capture.starts_with(&d.capture_mark[..3]) && capture.len() % (2 + OLD_BYTES) == 0 {
            *capture = widened_records(d, capture);
        }
    })),
    wrong("capture", "an old capture of 17 records is read as 16 new ones", Given(|d, capture| {
        if !capture.starts_with(&d.capture_mark[..3]) && capture.len() % record_bytes(d) == 0 {
            *capture = [d.capture_mark, capture].concat();
        }
    })),
    wrong("capture", "a mark with 14 is taken for the right one", Given(|d, capture| {
        if capture.starts_with(b"CHI\x0e") {
            capture[..4].copy_from_slice(d.capture_mark);
        }
    })),
    wrong("capture", "old records behind a mark with 14 are read", Given(|d, capture| {
        if capture.starts_with(b"CHI\x0e") && (capture.len() - 4) % (2 + OLD_BYTES) == 0 {
            *capture = widened_records(d, &capture[4..]);
        }
    })),
    wrong("capture", "the mark's number is not looked at", Given(|d, capture| {
        if capture.len() >= 4 && capture.starts_with(b"CHI") {
            capture[..4].copy_from_slice(d.capture_mark);
        }
    })),
    wrong("capture", "the mark's letters are not looked at", Given(|d, capture| {
        if capture.get(3) == d.capture_mark.last() {
            capture[..4].copy_from_slice(d.capture_mark);
        }
    })),
    wrong("capture", "the mark's last letter is not looked at", Given(|_, capture| {
        if capture.len() >= 4 {
            capture[2] = b'I';
        }
    })),
    wrong("capture", "the mark's letters may be small", Given(|_, capture| {
        let letters = capture.len().min(3);
        capture[..letters].make_ascii_uppercase();
    })),
    wrong("capture", "the mark may come after other bytes", Given(|d, capture| {
        if let Some(place) = capture.windows(4).position(|bytes| bytes == d.capture_mark) {
            capture.drain(..place);
        }
    })),
    wrong("capture", "an input without anything is a capture without events", Given(|d, capture| {
        if capture.is_empty() {
            *capture = d.capture_mark.to_vec();
        }
    })),
    wrong("capture", "a cut mark is a capture without events", Given(|d, capture| {
        if !capture.is_empty() && d.capture_mark.starts_with(capture) {
            *capture = d.capture_mark.to_vec();
        }
    })),
    wrong("capture", "a mark alone is refused", Given(|d, capture| {
        if capture == d.capture_mark {
            capture.clear();
        }
    })),
    wrong("capture", "the mark has to come with the first read", Gets(|arrival, capture| match first_piece(arrival, capture) {
        piece if piece.len() < 4 => piece,
        _ => capture.to_vec(),
    })),
    wrong("capture", "a capture without a mark is told to end within event 0", Tells(|_, _, answer| {
        if answer.complaint == NO_MARK {
            answer.complaint = b"capture: it ends within event 0\n".to_vec();
        }
    })),
    wrong("capture", "a capture without a mark is refused with 6", Tells(|_, _, answer| {
        if answer.complaint == NO_MARK {
            answer.complaint = b"capture: refused with 6 at event 0\n".to_vec();
        }
    })),
    wrong("capture", "a capture without a mark is counted as one without events", Tells(|_, _, answer| {
        if answer.complaint == NO_MARK {
            answer.output = b"0 events: 0 explained, 0 unexplained, 0 not judged\n".to_vec();
        }
    })),
    // A capture with Q-6's pairs.
    wrong("capture", "pairs above 4,095 are refused with 3", Value(old_limit)),
    wrong("capture", "pairs above 32,767 are refused with 3", Value(|d| d.most_pairs = HALF)),
    wrong("capture", "pair 65,535 is refused with 3", Value(|d| d.most_pairs -= 1)),
    wrong("capture", "events of pair 65,535 are passed over", Given(|d, capture| change_records(d, capture, |records| {
        let kept = records.chunks(record_bytes(d)).filter(|record| !record.starts_with(&u16::MAX.to_le_bytes()));
        *records = kept.collect::<Vec<&[u8]>>().concat();
    }))),
    wrong("capture", "a pair is told modulo 4,096", Tells(|_, _, answer| other_pairs(answer, |pair| (pair % PAIRS_BEFORE_Q6).to_string()))),
    wrong("capture", "a pair is told as a number with a sign", Tells(|_, _, answer| other_pairs(answer, |pair| (pair as i16).to_string()))),
    wrong("capture", "pairs that are equal modulo 4,096 have one set", Tells(|d, capture, answer| {
        retell_parts(d, capture, answer, |_, lent| renumber(lent, |pair| pair % PAIRS_BEFORE_Q6));
    })),
    wrong("capture", "pairs that are equal modulo 32,768 have one set", Tells(|d, capture, answer| {
        retell_parts(d, capture, answer, |_, lent| renumber(lent, |pair| pair % HALF));
    })),
    wrong("capture", "pairs 0 and 4,096 have one set", Tells(|d, capture, answer| {
        retell_parts(d, capture, answer, |_, lent| renumber(lent, |pair| if pair == PAIRS_BEFORE_Q6 { 0 } else { pair }));
    })),
    wrong("capture", "only the first 4,096 pairs start from all states", Tells(|d, capture, answer| {
        retell_parts(d, capture, answer, |part, lent| lent.table[PAIRS_BEFORE_Q6..].iter_mut().for_each(|set| *set *= u8::from(part > 0)));
    })),
    wrong("capture", "pair 54,321 starts from no state", Tells(|d, capture, answer| {
        retell_parts(d, capture, answer, |part, lent| lent.table[ONE_OF_MANY] *= u8::from(part > 0));
    })),
    wrong("capture", "pairs from 4,096 on start from all states again with each part", Tells(|d, capture, answer| {
        retell_parts(d, capture, answer, |_, lent| lent.table[PAIRS_BEFORE_Q6..].fill(ALL_STATES));
    })),
    wrong("capture", "pairs from 4,096 on are lost with each part", Tells(|d, capture, answer| {
        retell_parts(d, capture, answer, |part, lent| lent.table[PAIRS_BEFORE_Q6..].iter_mut().for_each(|set| *set *= u8::from(part == 0)));
    })),
    wrong("capture", "pair 65,535 starts from all states again with each part", Tells(|d, capture, answer| {
        retell_parts(d, capture, answer, |_, lent| lent.table[usize::from(u16::MAX)] = ALL_STATES);
    })),
    // The list of answers. Its answer has refusal, place in three bytes, count in four, and the lent bytes with those past them.
    wrong("answers", "an answer is listed twice", Tells(|d, record, answer| relist(d, record, answer, |list| {
        list.extend_from_within(list.len().saturating_sub(1)..);
    }))),
    wrong("answers", "the last two answers are exchanged", Tells(|d, record, answer| relist(d, record, answer, |list| {
        if let [.., one, other] = &mut list[..] {
            std::mem::swap(one, other);
        }
    }))),
    wrong("answers", "the list is descending", Tells(|d, record, answer| relist(d, record, answer, |list| list.reverse()))),
    wrong("answers", "a state after not seen is listed too", Tells(|d, record, answer| {
        relist(d, record, answer, |list| list_too(list, |_| true, byte::AFTER, STATE_NOT_SEEN));
    })),
    wrong("answers", "UDP has Transfer under a forwarding snoop", Tells(|d, record, answer| {
        if !is_plain(d, record[byte::REQUEST]) {
            relist(d, record, answer, |list| list_too(list, |answer| answer.starts_with(&[DAT, 5]), byte::TAG_OP, TRANSFER));
        }
    })),
    wrong("answers", "SnpRespDataPtl_I_PD has Transfer under a plain snoop", Tells(|d, record, answer| {
        if is_plain(d, record[byte::REQUEST]) {
            relist(d, record, answer, |list| list_too(list, |answer| answer.starts_with(&[DAT, 5]), byte::TAG_OP, TRANSFER));
        }
    })),
    wrong("answers", "plain data has Update under other tags than Dirty", Tells(|d, record, answer| {
        if is_plain(d, record[byte::REQUEST]) && record[byte::TAG] != TAG_DIRTY {
            relist(d, record, answer, |list| list_too(list, |answer| answer.starts_with(&[DAT, 1]), byte::TAG_OP, UPDATE));
        }
    })),
    wrong("answers", "Dirty tags leave with Invalid under a plain snoop", Tells(|d, record, answer| {
        if is_plain(d, record[byte::REQUEST]) && record[byte::TAG] == TAG_DIRTY {
            relist(d, record, answer, |list| list_too(list, |answer| answer[0] == DAT, byte::TAG_OP, TAG_OP_INVALID));
        }
    })),
    wrong("answers", "plain SnpRespData_SD has Update under Dirty tags", Tells(|d, record, answer| {
        if is_plain(d, record[byte::REQUEST]) && record[byte::TAG] == TAG_DIRTY {
            relist(d, record, answer, |list| list_too(list, |answer| answer.starts_with(&[DAT, 1, RESP_SD]), byte::TAG_OP, UPDATE));
        }
    })),
    wrong("answers", "plain answers with PD have Transfer under Dirty tags", Tells(|d, record, answer| {
        if is_plain(d, record[byte::REQUEST]) && record[byte::TAG] == TAG_DIRTY {
            relist(d, record, answer, |list| list_too(list, |answer| RESPS_WITH_PD.contains(&answer[2]), byte::TAG_OP, TRANSFER));
        }
    })),
    wrong("answers", "the rows that B4.59 and B4.60 share are listed twice", Tells(|d, record, answer| {
        let question = question_in(record).0;
        let of_table = |table: &str| {
            let mut other = d.clone();
            other.rows.retain(|row| row.table == table);
            answers(&other, question)
        };
        let (mut shared, b4_60) = (of_table("B4.59"), of_table(B4_60));
        shared.retain(|answer| b4_60.contains(answer));
        relist(d, record, answer, |list| {
            list.append(&mut shared);
            list.sort();
        });
    })),
    wrong("answers", "the NDERR answer is left out", Value(|d| d.rows.retain(|row| row.table != NDERR_ROW))),
    wrong("answers", "the rows of B4.60 are left out", Value(|d| d.rows.retain(|row| row.table != B4_60))),
    wrong("answers", "plain data carries any TagOp up to Update", Value(|d| d.set_tag_column(B4_46, TagColumn::UpToUpdate))),
    wrong("answers", "B4.57 takes any TagOp up to Update", Value(|d| d.set_tag_column("B4.57", TagColumn::UpToUpdate))),
    wrong("answers", "data under SnpPreferUnique carries any TagOp up to Update", Value(|d| widen(d, 21))),
    wrong("answers", "RetToSrc is ignored", Value(|d| rows(d, |row| row.ret_to_src = None))),
    wrong("answers", "DoNotGoToSD is ignored", Given(|_, record| record[byte::DO_NOT_GO_TO_SD] &= 254)),
    wrong("answers", "excl is ignored", Given(|_, record| record[byte::EXCL] &= 254)),
    wrong("answers", "UC has answers under Dirty tags", Given(|_, record| {
        if [record[byte::TAG], record[BEFORE]] == [TAG_DIRTY, 1] {
            record[byte::TAG] = 0;
        }
    })),
    wrong("answers", "a tag state of 3 is taken for Invalid", Given(|_, record| {
        if record[byte::TAG] == TAG_NOT_SEEN {
            record[byte::TAG] = 0;
        }
    })),
    wrong("answers", "a state before of 7 has an empty list", Given(|_, record| {
        if record[byte::TAG] <= TAG_DIRTY && record[BEFORE] == STATE_NOT_SEEN {
            (record[byte::TAG], record[BEFORE]) = (TAG_DIRTY, I);
        }
    })),
    wrong("answers", "an empty list is refused", Tells(|d, record, answer| {
        if listed(d, answer) == Some(0) {
            list_nothing(record, answer, 9);
        }
    })),
    wrong("answers", "just enough room is too little", Tells(|d, record, answer| {
        if listed(d, answer) == Some(question_in(record).1.len()) {
            list_nothing(record, answer, 9);
        }
    })),
    wrong("answers", "a byte too little is enough", Given(|d, record| {
        let (question, room, _) = question_in(record);
        let length = room.len() + 1;
        if list(d, question, room).refusal == 9 && answers(d, question).concat().len() == length {
            record[QUESTION_BYTES..LIST_PLACE].copy_from_slice(&(length as u16).to_le_bytes());
        }
    })),
    wrong("answers", "the room's length is its low byte", Given(|_, record| record[QUESTION_BYTES + 1] = 0)),
    wrong("answers", "of a list that is too long is written what fits", Tells(|d, record, answer| {
        let (question, room, _) = question_in(record);
        if answer.output[0] == 9 {
            answer.output[LIST_PLACE..][..room.len()].copy_from_slice(&answers(d, question).concat()[..room.len()]);
        }
    })),
    wrong("answers", "a refusal clears the room", Tells(|_, record, answer| {
        if answer.output[0] != 0 {
            answer.output[LIST_PLACE..][..question_in(record).1.len()].fill(0);
        }
    })),
    wrong("answers", "a byte is written behind the last answer", Tells(|d, record, answer| {
        if let Some(length) = listed(d, answer).filter(|length| *length < question_in(record).1.len()) {
            answer.output[LIST_PLACE + length] = 0;
        }
    })),
    wrong("answers", "a byte is written behind the room", Tells(|_, record, answer| {
        let (_, room, rest) = question_in(record);
        if answer.output[0] == 0 && !rest.is_empty() {
            answer.output[LIST_PLACE + room.len()] = 0;
        }
    })),
    wrong("answers", "the count is one too high", Tells(|_, _, answer| answer.output[4] += u8::from(answer.output[0] == 0))),
    wrong("answers", "the count is told though the list is refused", Tells(|d, record, answer| {
        if answer.output[0] == 9 {
            answer.output[4] = answers(d, question_in(record).0).len() as u8;
        }
    })),
    wrong("answers", "an accepted question has place 1", Tells(|_, _, answer| answer.output[1] += u8::from(answer.output[0] == 0))),
    wrong("answers", "a refused question has place 1", Tells(|_, _, answer| answer.output[1] += u8::from(answer.output[0] != 0))),
    wrong("answers", "5 is told before 4", Tells(|d, record, answer| {
        if answer.output[0] == 4 && !is_request(d, record[byte::REQUEST]) {
            answer.output[0] = 5;
        }
    })),
    wrong("answers", "9 is told before 5", Tells(|_, record, answer| no_room_first(record, answer, 5))),
    wrong("answers", "9 is told before 4", Tells(|_, record, answer| no_room_first(record, answer, 4))),
    // The list of answers to Q-4's snoops.
    wrong("answers", "SC answers SnpUnique with data at RetToSrc 0 too", Value(|d| add(d, "SnpUnique | SC | 0 | - | SnpRespData_I | I"))),
    wrong("answers", "SC answers SnpUnique without data at RetToSrc 1 too", Value(|d| add(d, "SnpUnique | SC | 1 | - | SnpResp_I | I"))),
    wrong("answers", "UC answers SnpUnique only with data", Value(|d| {
        without(d, SNP_UNIQUE, 1);
        add(d, "SnpUnique | UC | X | - | SnpRespData_I | I");
    })),
    wrong("answers", "UC answers SnpCleanInvalid with data too", Value(|d| add(d, "SnpCleanInvalid | UC | X | - | SnpRespData_I | I"))),
    wrong("answers", "SC answers SnpCleanInvalid only at RetToSrc 0", Value(shared_at_0)),
    wrong("answers", "UD does not answer SnpMakeInvalid", Value(|d| without(d, SNP_MAKE_INVALID, UD))),
    wrong("answers", "Dirty lines answer SnpMakeInvalid with data too", Value(dirty_data)),
    wrong("answers", "UDP answers SnpMakeInvalid under Dirty tags", Given(|_, record| {
        if [record[byte::REQUEST], record[byte::TAG], record[BEFORE]] == [10, TAG_DIRTY, UDP] {
            record[BEFORE] = UD;
        }
    })),
    wrong("answers", "SnpMakeInvalid's answer has Update under Dirty tags too", Tells(|d, record, answer| {
        if [record[byte::REQUEST], record[byte::TAG]] == [10, TAG_DIRTY] {
            relist(d, record, answer, |list| list_too(list, |_| true, byte::TAG_OP, UPDATE));
        }
    })),
    wrong("answers", "the NDERR answer to Q-4's snoops is left out", Tells(|d, record, answer| {
        if OF_Q4.contains(&record[byte::REQUEST]) {
            relist(d, record, answer, |list| list.retain(|answer| answer[byte::RESP_ERR - byte::CHANNEL] != NDERR));
        }
    })),
    wrong("answers", "excl forbids SnpUnique", Tells(|d, record, answer| {
        if [record[byte::REQUEST], record[byte::EXCL]] == [7, 1] {
            relist(d, record, answer, |list| list.clear());
        }
    })),
    wrong("answers", "DoNotGoToSD forbids SnpCleanInvalid", Tells(|d, record, answer| {
        if [record[byte::REQUEST], record[byte::DO_NOT_GO_TO_SD]] == [9, 1] {
            relist(d, record, answer, |list| list.clear());
        }
    })),
    wrong("answers", "SnpUnique follows B4.46", Value(|d| follow_b4_46(d, SNP_UNIQUE, 7))),
    wrong("answers", "SnpCleanInvalid follows B4.46", Value(|d| follow_b4_46(d, SNP_CLEAN_INVALID, 9))),
    wrong("answers", "data under SnpUnique carries any TagOp up to Update", Value(|d| d.set_tag_column(SNP_UNIQUE, TagColumn::UpToUpdate))),
    wrong("answers", "data under SnpCleanInvalid carries any TagOp up to Update", Value(|d| {
        d.set_tag_column(SNP_CLEAN_INVALID, TagColumn::UpToUpdate);
    })),
    wrong("answers", "SnpUnique is refused", Value(|d| refuse_request(d, 7))),
    wrong("answers", "SnpCleanInvalid is refused", Value(|d| refuse_request(d, 9))),
    wrong("answers", "SnpMakeInvalid is refused", Value(|d| refuse_request(d, 10))),
    wrong("answers", "request 8 is judged", Value(|d| d.requests.push(("SnpCleanShared", 8)))),
    wrong("answers", "request 39 is taken for SnpUnique", Given(|_, record| {
        if record[byte::REQUEST] == 39 {
            record[byte::REQUEST] = 7;
        }
    })),
    // The list of answers with Q-5's byte.
    wrong("answers", "EXOK on forwarded data is listed", Value(|d| d.forwarded_errors.push(EXOK))),
    wrong("answers", "NDERR on forwarded data is listed", Value(|d| d.forwarded_errors.push(NDERR))),
    wrong("answers", "DERR on forwarded data is not listed", Value(|d| d.forwarded_errors = vec![OK])),
    wrong("answers", "DERR is listed without a forward too", Tells(|d, record, answer| relist(d, record, answer, |list| {
        list_too(list, |answer| answer[byte::FORWARDED - byte::CHANNEL] == 0, byte::FWD_ERR, DERR);
    }))),
    wrong("answers", "DERR on forwarded data is listed with DERR to Home alone", Tells(|d, record, answer| {
        relist(d, record, answer, |list| list.retain(|answer| answer[LAST] != DERR || answer[byte::RESP_ERR - byte::CHANNEL] == DERR));
    })),
    wrong("answers", "the NDERR answer has NDERR in the new byte too", Tells(|d, record, answer| relist(d, record, answer, |list| {
        let nderr = list.iter_mut().filter(|answer| answer[byte::RESP_ERR - byte::CHANNEL] == NDERR);
        nderr.for_each(|answer| answer[LAST] = NDERR);
    }))),
    wrong("answers", "the new byte is listed as 0", Tells(|d, record, answer| {
        relist(d, record, answer, |list| list.iter_mut().for_each(|answer| answer[LAST] = 0));
    })),
    wrong("answers", "an answer has nine bytes", Tells(|d, record, answer| relist(d, record, answer, |list| {
        list.iter_mut().for_each(|answer| answer.truncate(LAST));
    }))),
    wrong("answers", "an answer has nine bytes and stands once", Tells(|d, record, answer| relist(d, record, answer, |list| {
        list.iter_mut().for_each(|answer| answer.truncate(LAST));
        list.dedup();
    }))),
    wrong("answers", "nine bytes for an answer are room enough", Tells(|d, record, answer| {
        let (question, room, _) = question_in(record);
        if answer.output[0] == 9 {
            let list = answers(d, question);
            if room.len() >= LAST * list.len() {
                list_nothing(record, answer, 0);
                answer.output[4] = list.len() as u8;
                answer.output[LIST_PLACE..][..room.len()].copy_from_slice(&list.concat()[..room.len()]);
            }
        }
    })),
    wrong("answers", "the list is refused only below nine bytes for an answer", Tells(|d, record, answer| {
        let (question, room, _) = question_in(record);
        if answer.output[0] == 9 && room.len() >= LAST * answers(d, question).len() {
            list_nothing(record, answer, 0);
        }
    })),
    wrong("answers", "eleven bytes for an answer are needed", Tells(|d, record, answer| {
        if listed(d, answer).is_some_and(|length| length / (LAST + 1) * (LAST + 2) > question_in(record).1.len()) {
            list_nothing(record, answer, 9);
        }
    })),
    wrong("answers", "the new byte stands first in an answer", Tells(|d, record, answer| relist(d, record, answer, |list| {
        list.iter_mut().for_each(|answer| answer.rotate_right(1));
        list.sort();
    }))),
    wrong("answers", "the new byte is first in the list's order", Tells(|d, record, answer| relist(d, record, answer, |list| {
        list.sort_by_key(|answer| (answer[LAST], answer.clone()));
    }))),
    wrong("answers", "of two answers that differ in the new byte DERR is first", Tells(|d, record, answer| {
        relist(d, record, answer, |list| list.sort_by_key(|answer| (answer[..LAST].to_vec(), DERR - answer[LAST])));
    })),
    wrong("answers", "the new byte stands before the state after", Tells(|d, record, answer| relist(d, record, answer, |list| {
        list.iter_mut().for_each(|answer| answer.swap(LAST - 1, LAST));
        list.sort();
    }))),
];

/// The place of Q-5's byte in an answer.
const LAST: usize = byte::FWD_ERR - byte::CHANNEL;

/// What is said of a capture that doesn't begin with the mark.
const NO_MARK: &[u8] = b"capture: refused with 1 at event 0\n";

/// A wrong judge by its columns.
const fn wrong(call: &'static str, name: &'static str, flaw: Flaw) -> Wrong {
    Wrong { call, name, flaw }
}

/// The first row of a table that has a response.
fn row<'a>(definition: &'a mut Definition, table: &str, response: &str) -> &'a mut Row {
    let row = definition.rows.iter_mut().find(|row| row.table == table && row.response.name == response);
    row.expect("there is such a row")
}

/// Changes all the rows.
fn rows(definition: &mut Definition, change: fn(&mut Row)) {
    definition.rows.iter_mut().for_each(change);
}

/// Adds rows that are printed as a table prints them.
fn add(definition: &mut Definition, rows: &'static str) {
    definition.rows.extend(printed(rows));
}

/// Takes a state before out of all rows of a table.
fn without(definition: &mut Definition, table: &str, state: u8) {
    let rows = definition.rows.iter_mut().filter(|row| row.table == table);
    rows.for_each(|row| row.before.retain(|before| *before != state));
}

/// Lets SC answer SnpCleanInvalid at RetToSrc 0 alone.
fn shared_at_0(definition: &mut Definition) {
    without(definition, SNP_CLEAN_INVALID, 5);
    add(definition, "SnpCleanInvalid | SC | 0 | - | SnpResp_I | I");
}

/// Lets UD and SD answer SnpMakeInvalid with their data too.
fn dirty_data(definition: &mut Definition) {
    add(definition, "SnpMakeInvalid | UD SD | X | - | SnpRespData_I_PD | I");
    definition.set_tag_column(SNP_MAKE_INVALID, TagColumn::Plain);
}

/// Lets a snoop of Q-4 have the rows of B4.46, and not its own.
fn follow_b4_46(definition: &mut Definition, table: &str, request: u8) {
    definition.rows.retain(|row| row.table != table);
    definition.tables[0].1.push(request);
}

/// Lets a request no longer be judged.
fn refuse_request(definition: &mut Definition, request: u8) {
    definition.requests.retain(|(_, code)| *code != request);
}

/// Lets there be no more pairs than before Q-6.
fn old_limit(definition: &mut Definition) {
    definition.most_pairs = PAIRS_BEFORE_Q6;
}

/// Whether a record's event has a request.
fn asks(record: &[u8], request: u8) -> bool {
    handed_over(record).len() > byte::RESP_ERR && record[1 + byte::REQUEST] == request
}

/// Whether a record's event has a request of Q-4.
fn asks_of_q4(record: &[u8]) -> bool {
    OF_Q4.iter().any(|request| asks(record, *request))
}

/// Lets an event have no step from any state, where that is asked for.
fn no_step(answer: &mut Answer, asked: bool) {
    if asked {
        answer.output[2..].fill(0);
    }
}

/// Whether a record hands over as many bytes as an event has.
fn asks_whole(definition: &Definition, record: &[u8]) -> bool {
    handed_over(record).len() == definition.event_bytes()
}

/// Lets no step explain some events with a forward.
fn forbid(definition: &Definition, record: &mut [u8], some: fn(&[u8]) -> bool) {
    if asks_whole(definition, record) && record[1 + byte::FORWARDED] == 1 && some(handed_over(record)) {
        record[1 + byte::FWD_ERR] = NDERR;
    }
}

/// Takes an error for 0 where an event has no forward.
fn pass_over(definition: &Definition, record: &mut [u8], error: u8) {
    if asks_whole(definition, record) && record[1 + byte::FORWARDED] == 0 {
        instead(record, byte::FWD_ERR, error, 0);
    }
}

/// Refuses an accepted event with a number.
fn refuse_accepted(answer: &mut Answer, number: u8) {
    if answer.output[0] == 0 {
        answer.output.fill(0);
        answer.output[0] = number;
    }
}

/// Puts a duty in the place of the Requester's for an event that has DERR on forwarded data.
fn duties_with_derr(definition: &Definition, record: &[u8], answer: &mut Answer, wrong: u8) {
    if asks_whole(definition, record) && record[1 + byte::FWD_ERR] == DERR {
        answer.output[9..].iter_mut().filter(|duty| **duty == 2).for_each(|duty| *duty = wrong);
    }
}

/// Puts a duty in the place of another for a request.
fn duties(record: &[u8], answer: &mut Answer, request: u8, right: u8, wrong: u8) {
    if asks(record, request) {
        answer.output[9..].iter_mut().filter(|duty| **duty == right).for_each(|duty| *duty = wrong);
    }
}

/// Lets data in answer to one plain snoop carry any TagOp up to Update.
fn widen(definition: &mut Definition, request: u8) {
    const WIDE: &str = "B4.46 with a wider tag column";
    let wide: Vec<Row> = definition.rows.iter().filter(|row| row.table == B4_46).cloned().collect();
    definition.rows.extend(wide.into_iter().map(|row| Row { table: WIDE, ..row }));
    definition.tables.push((WIDE, vec![request]));
    definition.set_tag_column(WIDE, TagColumn::UpToUpdate);
}

/// Whether a request is a plain snoop.
fn is_plain(definition: &Definition, request: u8) -> bool {
    definition.requests_of(B4_46).contains(&request)
}

/// Whether a record has an event of a plain snoop with data.
fn is_plain_data(definition: &Definition, record: &[u8]) -> bool {
    let event = handed_over(record);
    event.len() == definition.event_bytes() && is_plain(definition, event[byte::REQUEST]) && event[byte::CHANNEL] == DAT
}

/// Puts a value in the place of another into a byte of a record's event.
fn instead(record: &mut [u8], place: usize, value: u8, other: u8) {
    if handed_over(record).get(place) == Some(&value) {
        record[1 + place] = other;
    }
}

/// Changes what is lent in a trace's case.
fn change(case: &mut Vec<u8>, change: impl FnOnce(&mut Lent)) {
    let mut lent = lent_in(case);
    change(&mut lent);
    *case = trace_case(&lent);
}

/// Changes the whole events of a trace's case, each by its number.
fn change_events(definition: &Definition, case: &mut Vec<u8>, event: impl Fn(usize, &mut [u8])) {
    let bytes = definition.event_bytes();
    change(case, |lent| lent.events.chunks_exact_mut(bytes).enumerate().for_each(|(n, bytes)| event(n, bytes)));
}

/// Old events with 0 for the byte that they lack.
fn widened(definition: &Definition, events: &[u8]) -> Vec<u8> {
    let mut widened = Vec::new();
    for event in events.chunks(OLD_BYTES) {
        widened.extend(event);
        widened.resize(widened.len() + definition.event_bytes() - OLD_BYTES, 0);
    }
    widened
}

/// The capture of old records, with 0 for the byte that they lack.
fn widened_records(definition: &Definition, records: &[u8]) -> Vec<u8> {
    let record = |record: &[u8]| [&record[..2], &widened(definition, &record[2..])].concat();
    [definition.capture_mark.to_vec(), records.chunks(2 + OLD_BYTES).flat_map(record).collect()].concat()
}

/// Changes the records of a capture that begins with the mark.
fn change_records(definition: &Definition, capture: &mut Vec<u8>, change: impl FnOnce(&mut Vec<u8>)) {
    if let Some(records) = records_in(definition, capture) {
        let mut records = records.to_vec();
        change(&mut records);
        *capture = [definition.capture_mark, &records].concat();
    }
}

/// Gives an answer to a trace another number and place.
fn refuse(answer: &mut Answer, number: u8, place: usize) {
    answer.output[0] = number;
    answer.output[1..5].copy_from_slice(&(place as u32).to_le_bytes());
}

/// Gives the place of a refused trace another number if it was refused with this number.
fn other_place(answer: &mut Answer, refusal: u8, place: fn(usize) -> usize) {
    if answer.output[0] == refusal {
        let right = number(&answer.output[1..]);
        refuse(answer, refusal, place(right));
    }
}

/// Gives the events of a trace other pair numbers.
fn renumber(lent: &mut Lent, number: impl Fn(usize) -> usize) {
    for event in 0..lent.pairs.len() / 2 {
        let pair = lent.pair(event).expect("an event that a number is lent for has a pair");
        lent.set_pair(event, number(pair) as u16);
    }
}

/// Refuses a trace with 3 at the first event that has one of some pair numbers, if nothing else is told before.
fn refuse_pairs(definition: &Definition, case: &[u8], answer: &mut Answer, some: fn(usize) -> bool) {
    let lent = lent_in(case);
    let looked_at = match refused(definition, &lent) {
        (1 | 2, _) => 0,
        (0, events) => events,
        (_, event) => event + 1,
    };
    if let Some(place) = (0..looked_at).find(|event| lent.pair(*event).is_some_and(some)) {
        answer.output = trace_answer(&Judged { refusal: 3, place, lent });
    }
}

/// Changes the sets after an accepted trace of those pairs that there could not be before Q-6.
fn retell_high_sets(case: &[u8], answer: &mut Answer, change: fn(&Lent, &mut [u8])) {
    let lent = lent_in(case);
    if answer.output[0] == 0 && lent.table.len() > PAIRS_BEFORE_Q6 {
        change(&lent, &mut answer.output[5..][PAIRS_BEFORE_Q6..lent.table.len()]);
    }
}

/// Tells the events of a trace anew, all of an accepted one: an event's number, its pair's set before and what is right of it
/// give its verdict, its duty and the set after.
fn retell<T>(definition: &Definition, case: &[u8], answer: &mut Answer, before_refusal: bool, mut tell: T)
where
    T: FnMut(usize, u8, [u8; 3]) -> [u8; 3],
{
    let mut lent = lent_in(case);
    let (refusal, place) = refused(definition, &lent);
    if refusal == 1 || refusal == 2 || refusal != 0 && !before_refusal {
        return;
    }
    for n in 0..place {
        let pair = lent.pair(n).expect("an event before a refusal has a pair");
        let before = lent.table[pair];
        let told = tell(n, before, judge_event(definition, event_of(definition, &lent, n), before));
        [lent.verdicts[n], lent.duties[n], lent.after_sets[n]] = told;
        lent.table[pair] = told[2];
    }
    answer.output.truncate(5);
    lent.parts()[2..].iter().for_each(|part| answer.output.extend(*part));
}

/// Tells the events of an accepted trace with a request anew, each by its number, its bytes, its pair's set before and what is
/// right of it.
fn retell_asked<T>(definition: &Definition, case: &[u8], answer: &mut Answer, request: u8, mut tell: T)
where
    T: FnMut(usize, &[u8], u8, [u8; 3]) -> [u8; 3],
{
    let lent = lent_in(case);
    retell(definition, case, answer, false, |n, before, told| match event_of(definition, &lent, n) {
        event if event[byte::REQUEST] == request => tell(n, event, before, told),
        _ => told,
    });
}

/// Tells the explained events of an accepted trace anew that have DERR on forwarded data, by what is right of each.
fn retell_derr(definition: &Definition, case: &[u8], answer: &mut Answer, tell: fn([u8; 3]) -> [u8; 3]) {
    let lent = lent_in(case);
    retell(definition, case, answer, false, |n, _, told| match event_of(definition, &lent, n)[byte::FWD_ERR] {
        DERR if told[0] == EXPLAINED => tell(told),
        _ => told,
    });
}

/// Changes the lines of a sheet, each by its number from 0 on.
fn change_lines(sheet: &mut Vec<u8>, change: impl Fn(usize, &[u8]) -> Vec<u8>) {
    let changed: Vec<Vec<u8>> = lines(sheet).into_iter().enumerate().map(|(n, line)| change(n, line)).collect();
    let end = if sheet.ends_with(CRLF) { CRLF } else { b"" };
    *sheet = [&changed.join(CRLF), end].concat();
}

/// Changes the fields of the lines after the header that have as many as there are columns.
fn change_fields(definition: &Definition, sheet: &mut Vec<u8>, change: impl Fn(&mut Fields)) {
    change_lines(sheet, |n, line| {
        let mut fields = fields_of(line);
        if n > 0 && fields.len() == columns(definition) {
            change(&mut fields);
        }
        line_of(&fields)
    });
}

/// The number of a pair's field that has at most so many digits and no leading zero.
fn number_of(field: &str, digits: usize) -> Option<usize> {
    let no_leading_zero = field == "0" || !field.starts_with('0');
    field.parse().ok().filter(|_| no_leading_zero && field.len() <= digits)
}

/// The pair of a field, if there is such a pair.
fn pair_of(definition: &Definition, field: &str) -> Option<usize> {
    number_of(field, definition.pair_digits).filter(|pair| *pair < definition.most_pairs)
}

/// Puts another number in the place of a pair's field of digits, if there is one for it.
fn change_pairs(definition: &Definition, sheet: &mut Vec<u8>, other: impl Fn(&str) -> Option<usize>) {
    change_pair_fields(definition, sheet, |field| other(field).map(|number| number.to_string()));
}

/// Puts another field in the place of a pair's field of digits, if there is one for it, in the lines after the header that are not
/// too long.
fn change_pair_fields(definition: &Definition, sheet: &mut Vec<u8>, other: impl Fn(&str) -> Option<String>) {
    change_lines(sheet, |n, line| {
        let mut fields = fields_of(line);
        let digits = fields[0].iter().all(u8::is_ascii_digit) && !fields[0].is_empty();
        if n > 0 && digits && line.len() <= definition.longest_line {
            let changed = other(&String::from_utf8_lossy(&fields[0]));
            fields[0] = changed.map_or(fields[0].clone(), String::into_bytes);
        }
        line_of(&fields)
    });
}

/// Refuses a line with 3 that was refused with 8, if its pair is one of some.
fn no_pair_first(sheet: &[u8], answer: &mut Answer, some: impl Fn(&str) -> bool) {
    let number = lines(&answer.output).len();
    if answer.output.ends_with(format!("refused,8,{number}\r\n").as_bytes()) {
        let fields = fields_of(lines(sheet)[number - 1]);
        if some(&String::from_utf8_lossy(&fields[0])) {
            answer.output = replaced(&answer.output, b"refused,8", b"refused,3");
        }
    }
}

/// Answers a sheet by other sets that its pairs start from, and of which not all are kept from line to line.
fn retell_sheet(definition: &Definition, sheet: &[u8], answer: &mut Answer, start: fn(usize) -> u8, is_kept: fn(usize) -> bool) {
    let mut table: Vec<u8> = (0..definition.most_pairs).map(start).collect();
    let own = sheet::answer_by(definition, sheet, |pair, event| {
        let judged = judge_event(definition, event, table[pair]);
        table[pair] = if is_kept(pair) { judged[2] } else { table[pair] };
        judged
    });
    answer.output = own.output;
}

/// How many columns a sheet has.
fn columns(definition: &Definition) -> usize {
    definition.header.split(',').count()
}

/// Puts a field in the place of another in the column fwdErr.
fn other_name(definition: &Definition, sheet: &mut Vec<u8>, name: &[u8], other: &[u8]) {
    change_fields(definition, sheet, |fields| {
        if fields[column::FWD_ERR] == name {
            fields[column::FWD_ERR] = other.to_vec();
        }
    });
}

/// Whether a sheet begins with the header without its last column.
fn is_old(definition: &Definition, sheet: &[u8]) -> bool {
    let old = definition.header.rsplit_once(',').map(|(old, _)| old.as_bytes());
    lines(sheet).first().copied() == old
}

/// A line with a last field more if that is all that it lacks: - without a forward, and OK with one.
fn with_error(definition: &Definition, line: &[u8]) -> Vec<u8> {
    let mut fields = fields_of(line);
    if fields.len() + 1 == columns(definition) {
        fields.push(if fields[column::FORWARD] == b"-" { b"-".to_vec() } else { b"OK".to_vec() });
    }
    line_of(&fields)
}

/// How many bytes an accepted question's list has by the count that is told.
fn listed(definition: &Definition, answer: &Answer) -> Option<usize> {
    (answer.output[0] == 0).then(|| number(&answer.output[4..]) * answer_bytes(definition))
}

/// Answers a question with a number and without any list.
fn list_nothing(record: &[u8], answer: &mut Answer, refusal: u8) {
    answer.output = [&[refusal, 0, 0, 0, 0, 0, 0, 0][..], &record[LIST_PLACE..]].concat();
}

/// Refuses a question without room for that, and not with another number.
fn no_room_first(record: &[u8], answer: &mut Answer, refusal: u8) {
    if answer.output[0] == refusal && question_in(record).1.is_empty() {
        answer.output[0] = 9;
    }
}

/// Lists other answers to an accepted question, if there is room for them.
fn relist<C>(definition: &Definition, record: &[u8], answer: &mut Answer, change: C)
where
    C: FnOnce(&mut Vec<Vec<u8>>),
{
    if answer.output[0] != 0 {
        return;
    }
    let (question, room, _) = question_in(record);
    let mut list = answers(definition, question);
    change(&mut list);
    let bytes = list.concat();
    if bytes.len() <= room.len() {
        list_nothing(record, answer, 0);
        answer.output[4] = list.len() as u8;
        answer.output[LIST_PLACE..][..bytes.len()].copy_from_slice(&bytes);
    }
}

/// Adds to a list some of its answers with another value at a place of the event.
fn list_too(list: &mut Vec<Vec<u8>>, some: fn(&[u8]) -> bool, place: usize, value: u8) {
    let mut others: Vec<Vec<u8>> = list.iter().filter(|answer| some(answer)).cloned().collect();
    others.iter_mut().for_each(|answer| answer[place - byte::CHANNEL] = value);
    list.append(&mut others);
    list.sort();
    list.dedup();
}

/// Bytes in which some others stand in the place of these.
fn replaced(bytes: &[u8], these: &[u8], others: &[u8]) -> Vec<u8> {
    let mut replaced = Vec::with_capacity(bytes.len());
    let mut rest = bytes;
    while let Some(place) = rest.windows(these.len()).position(|window| window == these) {
        replaced.extend([&rest[..place], others].concat());
        rest = &rest[place + these.len()..];
    }
    [&replaced[..], rest].concat()
}

/// The first piece of what arrives.
fn first_piece(arrival: Arrival, input: &[u8]) -> Vec<u8> {
    arrival.pieces(input).first().map_or(vec![], |piece| piece.to_vec())
}

/// What is left of a sheet where the byte before each border of reads is lost if it is one of these.
fn lose(sheet: &[u8], border: usize, bytes: RangeInclusive<u8>) -> Vec<u8> {
    let lost = |n: usize, byte: u8| n % border == border - 1 && bytes.contains(&byte);
    sheet.iter().enumerate().filter(|(n, byte)| !lost(*n, **byte)).map(|(_, byte)| *byte).collect()
}

/// What is left of a sheet where a digit is lost that follows four others at the beginning of a line if a read of several bytes ends
/// before it.
fn lose_fifth_digits(arrival: Arrival, sheet: &[u8]) -> Vec<u8> {
    let mut left: Vec<u8> = Vec::with_capacity(sheet.len());
    let mut last = 0;
    for piece in arrival.pieces(sheet) {
        let begun = left.rsplit(|byte| *byte == b'\n').next().unwrap_or(&[]);
        let lost = last > 1 && begun.len() == 4 && begun.iter().chain(&piece[..1]).all(u8::is_ascii_digit);
        left.extend(&piece[usize::from(lost)..]);
        last = piece.len();
    }
    left
}

/// How many bytes are many behind the beginning of a line, or before the end of a read.
const MANY: usize = 256;

/// Whether a line says an event of a pair.
fn is_good(definition: &Definition, line: &[u8]) -> bool {
    sheet::Reader::new(definition).fields(line).is_some()
}

/// The places of the commas of a line.
fn commas(line: &[u8]) -> Vec<usize> {
    (0..line.len()).filter(|place| line[*place] == b',').collect()
}

/// A line with some bytes in the place of so many from a place on.
fn with_bytes(line: &[u8], place: usize, count: usize, bytes: &[u8]) -> Vec<u8> {
    [&line[..place], bytes, &line[line.len().min(place + count)..]].concat()
}

/// A line with another field in a column, if it has a field there that is not empty.
fn with_field(line: &[u8], column: usize, other: impl Fn(&[u8]) -> Vec<u8>) -> Vec<Vec<u8>> {
    let mut fields = fields_of(line);
    if let Some(field) = fields.get_mut(column).filter(|field| !field.is_empty()) {
        *field = other(field);
    }
    vec![line_of(&fields)]
}

/// Whether a field is one of some names.
fn is_of(names: &[&str], field: &[u8]) -> bool {
    names.iter().any(|name| name.as_bytes() == field)
}

/// Puts a good line, or two, in the place of the first line that is refused with 8 if many bytes stand behind its beginning and one of
/// the ways to mend it makes it good.
fn mend(definition: &Definition, sheet: &mut Vec<u8>, ways: impl Fn(&[u8]) -> Vec<Vec<u8>>) {
    let all = lines(sheet);
    let Some((sheet::MALFORMED, number)) = sheet::each_event(definition, &all, |_, _| {}) else { return };
    let line = all[number - 1];
    let begin: usize = all[..number - 1].iter().map(|line| line.len() + CRLF.len()).sum();
    if sheet.len() - begin >= MANY {
        let first_is_good = |other: &Vec<u8>| is_good(definition, lines(other).first().unwrap_or(&&b""[..]));
        if let Some(mended) = ways(line).into_iter().find(first_is_good) {
            let end = begin + line.len();
            *sheet = [&sheet[..begin], &mended, &sheet[end..]].concat();
        }
    }
}

/// A sheet that ends within a line goes on with what an earlier read left in the room behind it, if that makes the line good and there
/// was a read of many bytes. Before each read what is left of a line is moved to the room's beginning.
fn end_of_before(arrival: Arrival, sheet: &[u8]) -> Vec<u8> {
    let mut room: Vec<u8> = vec![0; sheet.len()];
    let (mut filled, mut begin, pieces) = (0, 0, arrival.pieces(sheet));
    if pieces.iter().all(|piece| piece.len() < MANY) {
        return sheet.to_vec();
    }
    for piece in pieces {
        room.copy_within(begin..filled, 0);
        filled -= begin;
        room[filled..filled + piece.len()].copy_from_slice(piece);
        filled += piece.len();
        begin = room[..filled].windows(2).rposition(|two| two == CRLF).map_or(0, |end| end + CRLF.len());
    }
    let end = room[filled..].windows(2).position(|two| two == CRLF).map_or(filled, |end| filled + end);
    let is_whole = filled > begin && is_good(&Definition::now(), &room[begin..end]);
    if is_whole {
        [sheet, &room[filled..end]].concat()
    } else {
        sheet.to_vec()
    }
}

/// A sheet in which a line that has begun ends where a read of many bytes does, if it is one of some lines.
fn end_early(arrival: Arrival, sheet: &[u8], some: impl Fn(&[u8]) -> bool) -> Vec<u8> {
    let mut read: Vec<u8> = Vec::with_capacity(sheet.len());
    for piece in arrival.pieces(sheet) {
        read.extend(piece);
        let begin = read.windows(2).rposition(|two| two == CRLF).map_or(0, |end| end + CRLF.len());
        if piece.len() >= MANY && read.len() < sheet.len() && some(&read[begin..]) {
            read.extend(CRLF);
        }
    }
    read
}

/// A sheet in which the last whole line of each read of many bytes but the last is another, with its CRLF, if there is one for it and
/// for how many bytes of the next line have come.
fn last_lines(arrival: Arrival, sheet: &[u8], other: impl Fn(&[u8], usize) -> Option<Vec<u8>>) -> Vec<u8> {
    let pieces = arrival.pieces(sheet);
    let mut left: Vec<u8> = Vec::with_capacity(sheet.len());
    for (n, piece) in pieces.iter().enumerate() {
        left.extend(*piece);
        let end = left.windows(2).rposition(|two| two == CRLF);
        let before = end.and_then(|end| left[..end].windows(2).rposition(|two| two == CRLF));
        if let (Some(before), Some(end), true) = (before, end, piece.len() >= MANY && n + 1 < pieces.len()) {
            let (begin, next) = (before + CRLF.len(), end + CRLF.len());
            if let Some(other) = other(&left[begin..end], left.len() - next) {
                left.splice(begin..next, other);
            }
        }
    }
    left
}

/// Tells other numbers of events.
fn renumber_events(answer: &mut Answer, number: impl Fn(usize) -> usize) {
    let line = |line: &[u8]| {
        let digits = line.iter().take_while(|byte| byte.is_ascii_digit()).count();
        let event = String::from_utf8_lossy(&line[..digits]).parse().ok();
        [&event.map_or(vec![], |event| number(event).to_string().into_bytes()), &line[digits..]].concat()
    };
    answer.output = answer.output.split_inclusive(|byte| *byte == b'\n').flat_map(line).collect();
}

/// Answers a capture by other things lent for each of its parts, each by its number.
fn retell_parts(definition: &Definition, capture: &[u8], answer: &mut Answer, change: fn(usize, &mut Lent)) {
    let mut part = 0;
    let own = capture::answer_by(definition, capture, |lent| {
        let mut other = lent.clone();
        change(part, &mut other);
        part += 1;
        let mut judged = judge(definition, &other);
        judged.lent.pairs.clone_from(&lent.pairs);
        judged
    });
    (answer.complaint, answer.status) = (own.message().into_bytes(), i32::from(own.stop.is_some()));
    answer.output = own.output;
}

/// Tells the events of a capture with other numbers of their pairs.
fn other_pairs(answer: &mut Answer, number: fn(usize) -> String) {
    let line = |line: &[u8]| {
        let text = String::from_utf8_lossy(line).to_string();
        let pair = text.split_once(", pair ").and_then(|(event, rest)| Some((event, rest.split_once(':')?)));
        let other = pair.and_then(|(event, (pair, what))| Some(format!("{event}, pair {}:{what}", number(pair.parse().ok()?))));
        other.unwrap_or(text).into_bytes()
    };
    answer.output = answer.output.split_inclusive(|byte| *byte == b'\n').flat_map(line).collect();
}

/// The lines of an output to a capture, with other numbers of events.
fn renumbered(output: &[u8], number: impl Fn(usize) -> usize) -> Vec<Vec<u8>> {
    let line = |line: &[u8]| {
        let text = String::from_utf8_lossy(line).to_string();
        let event = text.strip_prefix("event ").and_then(|rest| rest.split_once(','));
        let other = event.and_then(|(event, rest)| Some(format!("event {},{rest}", number(event.parse().ok()?))));
        other.unwrap_or(text).into_bytes()
    };
    output.split_inclusive(|byte| *byte == b'\n').map(line).collect()
}

#[cfg(test)]
mod tests {
    use super::*;
    use crate::calls::all::CALLS;
    use crate::wrong::noticing::{few_cases, noticed};

    /// The cases of every call notice each of its wrong judges.
    #[test]
    fn wrong_judges_are_noticed() {
        for call in CALLS {
            let noticed = noticed(call, &few_cases(call), WRONG);
            let unnoticed = noticed.iter().filter(|(_, case)| case.is_none()).map(|(wrong, _)| wrong.name);
            assert_eq!(unnoticed.collect::<Vec<&str>>(), [""; 0], "{}", call.name);
        }
    }
}
