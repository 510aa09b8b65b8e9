//! Events drawn from the rows.

use crate::cases::draw::Draw;
use crate::definition::codes::*;
use crate::definition::event::has_a_step;
use crate::definition::rows::{Row, B4_60, NDERR_ROW};
use crate::definition::steps::step;
use crate::definition::values::Definition;

/// How often an explained event is tried for before anything is taken.
const TRIES: usize = 20;

/// The set {I}.
const ONLY_I: u8 = 1 << I;

/// An event that follows a row in most of what the row asks for, tags and state after often not seen.
pub fn event_by_row(definition: &Definition, draw: &mut Draw, row: &Row, keeping: bool) -> Vec<u8> {
    let data = row.response.channel == DAT;
    let flags = [0, 1];
    let mut event = vec![0; definition.event_bytes()];
    event[byte::REQUEST] = draw.one_of(&definition.requests_of(row.table));
    event[byte::RET_TO_SRC] = row.ret_to_src.unwrap_or_else(|| draw.one_of(&flags));
    event[byte::DO_NOT_GO_TO_SD] = if row.not_with_do_not_go_to_sd { 0 } else { draw.one_of(&flags) };
    event[byte::EXCL] = if row.table == B4_60 { 0 } else { draw.one_of(&flags) };
    event[byte::TAG] = draw.one_of(&[0, 1, 2, TAG_NOT_SEEN, TAG_NOT_SEEN]);
    event[byte::CHANNEL..=byte::FWD_STATE].copy_from_slice(&row.response.bytes());
    event[byte::TAG_OP] = if data { draw.one_of(&[TAG_OP_INVALID, TRANSFER, UPDATE]) } else { TAG_OP_INVALID };
    event[byte::RESP_ERR] = match (row.table, data) {
        (NDERR_ROW, _) => NDERR,
        (_, true) => draw.one_of(&[OK, OK, DERR]),
        (_, false) => OK,
    };
    event[byte::FORWARDED] = row.forward.present;
    event[byte::FORWARDED_RESP] = row.forward.resp;
    event[byte::AFTER] = match draw.below(3) {
        // Rows name the state that the answer says first, and I that it may be after it.
        0 if keeping => row.after[0],
        0 => draw.one_of(&row.after),
        _ => STATE_NOT_SEEN,
    };
    if definition.has_fwd_err() && row.forward.present == 1 {
        event[byte::FWD_ERR] = draw.one_of(&definition.forwarded_errors);
    }
    event
}

/// An event for which a step exists, of each table as likely as of the others.
pub fn permitted_event(definition: &Definition, draw: &mut Draw) -> Vec<u8> {
    loop {
        let table = definition.tables.get(draw.place(definition.tables.len() + 1)).map_or(NDERR_ROW, |(table, _)| table);
        let rows: Vec<&Row> = definition.rows.iter().filter(|row| row.table == table).collect();
        let row = draw.one_of(&rows);
        let mut event = event_by_row(definition, draw, row, false);
        event[byte::TAG] = draw.below(4) as u8;
        event[byte::AFTER] = if draw.one_in(2) { draw.one_of(&row.after) } else { STATE_NOT_SEEN };
        if has_a_step(definition, &event) {
            return event;
        }
    }
}

/// An event that is explained from a set, but for rare ones, or that follows any row where the set is empty.
pub fn explained_event(definition: &Definition, draw: &mut Draw, set: u8, keeping: bool) -> Vec<u8> {
    let mut event = Vec::new();
    for _ in 0..TRIES {
        let before = state_of(draw, set, keeping);
        let row = row_from(definition, draw, before, keeping);
        event = event_by_row(definition, draw, row, keeping);
        if set == 0 || step(definition, &event, set) != 0 {
            break;
        }
    }
    event
}

/// A state of a set, other than I if the line is to be kept and that can be, or any where the set is empty.
fn state_of(draw: &mut Draw, set: u8, keeping: bool) -> u8 {
    let from = match set & !ONLY_I {
        others if others != 0 && keeping => others,
        _ if set == 0 => ALL_STATES,
        _ => set,
    };
    draw.one_of(&(0..7).filter(|state| holds(from, *state)).collect::<Vec<u8>>())
}

/// A row for a state before, one after which the line can still be there if it is to be kept and that can be.
fn row_from<'a>(definition: &'a Definition, draw: &mut Draw, before: u8, keeping: bool) -> &'a Row {
    let rows = || definition.rows.iter().filter(|row| row.before.contains(&before));
    let kept: Vec<&Row> = rows().filter(|row| keeping && row.after != [I]).collect();
    if !kept.is_empty() {
        return draw.one_of(&kept);
    }
    let nderr = draw.one_in(6);
    draw.one_of(&rows().filter(|row| (row.table == NDERR_ROW) == nderr).collect::<Vec<&Row>>())
}

/// An event that is explained from a set but for one byte in its range, or one drawn without regard to the set.
pub fn stray_event(definition: &Definition, draw: &mut Draw, set: u8) -> Vec<u8> {
    match draw.below(8) {
        0 => permitted_event(definition, draw),
        1 => any_in_range(definition, draw),
        _ => {
            let keeping = draw.one_in(3);
            let mut event = explained_event(definition, draw, set, keeping);
            let n = draw.place(event.len());
            let explained = event[n];
            while event[n] == explained {
                event[n] = byte_in_range(definition, draw, n);
            }
            event
        }
    }
}

/// A value in the range of this byte of an event.
pub fn byte_in_range(definition: &Definition, draw: &mut Draw, n: usize) -> u8 {
    match n {
        byte::REQUEST => draw.one_of(&definition.requests).1,
        _ => draw.below(u64::from(definition.limits[n]) + 1) as u8,
    }
}

/// An event of any bytes in range.
pub fn any_in_range(definition: &Definition, draw: &mut Draw) -> Vec<u8> {
    (0..definition.event_bytes()).map(|n| byte_in_range(definition, draw, n)).collect()
}

/// One of some pairs, less often one that is lost or surely in I.
pub fn lively_pair(draw: &mut Draw, pairs: &[usize], sets: &[u8]) -> usize {
    let pair = draw.one_of(pairs);
    match sets[pair] <= ONLY_I && !draw.one_in(3) {
        true => draw.one_of(pairs),
        false => pair,
    }
}
