//! The TagOps that an answer with data can carry, by the tag column that its table follows.

use crate::definition::codes::*;
use crate::definition::rows::Row;

/// A tag column that tables can follow.
#[derive(Clone, Copy, Debug, PartialEq, Eq)]
pub enum TagColumn {
    /// What document 01 says of B4.46: any TagOp up to Update, whatever the tags are.
    UpToUpdate,
    /// What document 01 says of B4.57, B4.59 and B4.60.
    Forwarding,
    /// What Q-2 says of B4.46, and Q-4 of its snoops: the house rule until the printed table is at hand.
    Plain,
}

impl TagColumn {
    /// The TagOps that a row with data takes from a state before under a tag state.
    pub fn tag_ops(self, row: &Row, tag: u8, before: u8) -> &'static [u8] {
        match self {
            TagColumn::UpToUpdate => &[TAG_OP_INVALID, TRANSFER, UPDATE],
            TagColumn::Forwarding => forwarding(row.response.resp, tag, before),
            TagColumn::Plain => plain(row.response.name, tag),
        }
    }
}

/// The TagOps of data in answer to a forwarding snoop, by its Resp, the tag state and the state before.
fn forwarding(resp: u8, tag: u8, before: u8) -> &'static [u8] {
    match tag {
        TAG_DIRTY if resp == RESP_SD => &[TRANSFER],
        TAG_DIRTY if RESPS_WITH_PD.contains(&resp) => &[UPDATE],
        TAG_DIRTY => &[],
        _ if before == UDP => &[TAG_OP_INVALID],
        _ => &[TAG_OP_INVALID, TRANSFER],
    }
}

/// The TagOps of data in answer to a plain snoop, by the name of the answer and the tag state.
fn plain(answer: &str, tag: u8) -> &'static [u8] {
    match (tag, answer) {
        (TAG_DIRTY, "SnpRespData_SD") => &[TRANSFER],
        (TAG_DIRTY, answer) if answer.ends_with("_PD") => &[UPDATE],
        // Q-2 names no other answer under Dirty tags, and no other comes from UD or SD.
        (TAG_DIRTY, _) => &[],
        (_, "SnpRespDataPtl_I_PD") => &[TAG_OP_INVALID],
        _ => &[TAG_OP_INVALID, TRANSFER],
    }
}
