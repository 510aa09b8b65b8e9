//! Whether the rows permit a step, by the rules about tags, TagOp and errors.

use crate::definition::codes::*;
use crate::definition::rows::{Row, B4_60, NDERR_ROW};
use crate::definition::values::Definition;

/// Whether an event is a permitted step from a state before to a state after under a tag state.
pub fn permitted(definition: &Definition, event: &[u8], tag: u8, before: u8, after: u8) -> bool {
    definition.rows.iter().any(|row| agrees(definition, row, event) && steps(definition, row, event, tag, before, after))
}

/// The rows that agree with an event in all that doesn't hang on the tags or the states.
pub fn agreeing<'a>(definition: &'a Definition, event: &[u8]) -> Vec<&'a Row> {
    definition.rows.iter().filter(|row| agrees(definition, row, event)).collect()
}

/// The set of all states after that some agreeing rows permit from one state before.
pub fn set_after(definition: &Definition, rows: &[&Row], event: &[u8], before: u8) -> u8 {
    let mut set = 0;
    for row in rows.iter().filter(|row| row.before.contains(&before)) {
        for after in &row.after {
            if (0..3).any(|tag| steps(definition, row, event, tag, before, *after)) {
                set |= 1 << after;
            }
        }
    }
    set
}

/// The set of all states after an event that a step reaches from a state in the set before.
pub fn step(definition: &Definition, event: &[u8], set: u8) -> u8 {
    let rows = agreeing(definition, event);
    let before = (0..7).filter(|before| !rows.is_empty() && holds(set, *before));
    before.fold(0, |reached, before| reached | set_after(definition, &rows, event, before))
}

/// Whether a row agrees with an event in all that doesn't hang on the tags or the states.
fn agrees(definition: &Definition, row: &Row, event: &[u8]) -> bool {
    event[byte::CHANNEL] == row.response.channel
        && event[byte::OPCODE] == row.response.opcode
        && event[byte::RESP] == row.response.resp
        && event[byte::FWD_STATE] == row.response.fwd_state
        && event[byte::FORWARDED] == row.forward.present
        && event[byte::FORWARDED_RESP] == row.forward.resp
        && row.ret_to_src.is_none_or(|ret_to_src| event[byte::RET_TO_SRC] == ret_to_src)
        && !(row.not_with_do_not_go_to_sd && event[byte::DO_NOT_GO_TO_SD] == 1)
        && !(row.table == B4_60 && event[byte::EXCL] == 1)
        && resp_err_fits(row, event[byte::RESP_ERR])
        && fwd_err_fits(definition, row, event.get(byte::FWD_ERR).copied())
        && is_for(definition, row.table, event[byte::REQUEST])
}

/// Whether a row that agrees with an event goes from a state before to a state after under a tag state, both as seen.
fn steps(definition: &Definition, row: &Row, event: &[u8], tag: u8, before: u8, after: u8) -> bool {
    row.before.contains(&before)
        && row.after.contains(&after)
        && (event[byte::TAG] == TAG_NOT_SEEN || event[byte::TAG] == tag)
        && (event[byte::AFTER] == STATE_NOT_SEEN || event[byte::AFTER] == after)
        && tag_fits(row, tag, before)
        && tag_op_fits(definition, row, tag, before, event[byte::TAG_OP])
}

/// Whether a table is for a request; the row of NDERR is for all.
fn is_for(definition: &Definition, table: &str, request: u8) -> bool {
    table == NDERR_ROW || definition.tables.iter().any(|(name, requests)| *name == table && requests.contains(&request))
}

/// Whether a row takes this RespErr.
fn resp_err_fits(row: &Row, resp_err: u8) -> bool {
    if row.table == NDERR_ROW {
        resp_err == NDERR
    } else if row.response.channel == DAT {
        resp_err == OK || resp_err == DERR
    } else {
        resp_err == OK
    }
}

/// Whether a row takes this error of the forwarded data, for which an event may have no byte.
fn fwd_err_fits(definition: &Definition, row: &Row, fwd_err: Option<u8>) -> bool {
    match fwd_err {
        None => true,
        Some(fwd_err) if row.forward.present == 1 => definition.forwarded_errors.contains(&fwd_err),
        Some(fwd_err) => fwd_err == 0,
    }
}

/// Whether a row from a state before can be taken under a tag state.
fn tag_fits(row: &Row, tag: u8, before: u8) -> bool {
    if tag != TAG_DIRTY {
        return true;
    }
    (before == UD || before == SD) && !FWD_STATES_WITH_PD.contains(&row.forward.resp)
}

/// Whether a row from a state before takes this TagOp under a tag state.
fn tag_op_fits(definition: &Definition, row: &Row, tag: u8, before: u8, tag_op: u8) -> bool {
    if row.response.channel != DAT {
        return tag_op == TAG_OP_INVALID;
    }
    definition.tag_column(row.table).tag_ops(row, tag, before).contains(&tag_op)
}
