//! The codes that the bytes of an event hold, and the names that the documents give them.

/// The place of each byte in an event.
pub mod byte {
    pub const REQUEST: usize = 0;
    pub const RET_TO_SRC: usize = 1;
    pub const DO_NOT_GO_TO_SD: usize = 2;
    pub const EXCL: usize = 3;
    pub const TAG: usize = 4;
    pub const CHANNEL: usize = 5;
    pub const OPCODE: usize = 6;
    pub const RESP: usize = 7;
    pub const FWD_STATE: usize = 8;
    pub const TAG_OP: usize = 9;
    pub const RESP_ERR: usize = 10;
    pub const FORWARDED: usize = 11;
    pub const FORWARDED_RESP: usize = 12;
    pub const AFTER: usize = 13;
    /// An event has this byte since Q-5.
    pub const FWD_ERR: usize = 14;

    /// What each byte is, for a reader.
    #[rustfmt::skip]
    pub const NAMES: [&str; 15] = [
        "request", "RetToSrc", "DoNotGoToSD", "excl", "tag state", "channel", "opcode", "Resp", "FwdState", "TagOp",
        "RespErr", "forwarded data present", "its Resp", "state after", "error of the forwarded data",
    ];
}

/// The line states, each at its code.
pub const STATES: [&str; 7] = ["I", "UC", "UCE", "UD", "UDP", "SC", "SD"];
/// The state of a line that is not there.
pub const I: u8 = 0;
/// Unique Dirty.
pub const UD: u8 = 3;
/// Unique Dirty Partial.
pub const UDP: u8 = 4;
/// Shared Dirty.
pub const SD: u8 = 6;
/// What byte 13 holds where the state after was not seen.
pub const STATE_NOT_SEEN: u8 = 7;

/// The tag states, each at its code.
pub const TAGS: [&str; 3] = ["Invalid", "Clean", "Dirty"];
/// The state of tags that were changed.
pub const TAG_DIRTY: u8 = 2;
/// What byte 4 holds where the tag state was not seen.
pub const TAG_NOT_SEEN: u8 = 3;

/// The channel of answers without data.
pub const RSP: u8 = 0;
/// The channel of answers with data.
pub const DAT: u8 = 1;

/// The values of Resp that a response can name, with their codes.
pub const RESPS: [(&str, u8); 5] = [("I", 0), ("SC", 1), ("SD", RESP_SD), ("I_PD", 4), ("SC_PD", 5)];
/// The Resp that says SD.
pub const RESP_SD: u8 = 3;
/// The values of Resp that pass the Dirty line to Home.
pub const RESPS_WITH_PD: [u8; 2] = [4, 5];

/// The values of FwdState, and of the forwarded data's own Resp, with their codes.
pub const FWD_STATES: [(&str, u8); 4] = [("SC", 1), ("UC", 2), ("UD_PD", 6), ("SD_PD", 7)];
/// The values of FwdState that pass the Dirty line to the Requester.
pub const FWD_STATES_WITH_PD: [u8; 2] = [6, 7];

/// The values of TagOp, each at its code.
pub const TAG_OPS: [&str; 4] = ["Invalid", "Transfer", "Update", "Match"];
/// The TagOp of an answer that brings no tags.
pub const TAG_OP_INVALID: u8 = 0;
/// The TagOp of tags that are as they came.
pub const TRANSFER: u8 = 1;
/// The TagOp of tags that were changed.
pub const UPDATE: u8 = 2;

/// The values of RespErr, and of the forwarded data's own error field, each at its code.
pub const RESP_ERRS: [&str; 4] = ["OK", "EXOK", "DERR", "NDERR"];
/// No error.
pub const OK: u8 = 0;
/// An exclusive access succeeded.
pub const EXOK: u8 = 1;
/// The data is bad.
pub const DERR: u8 = 2;
/// The snoop failed, without data.
pub const NDERR: u8 = 3;

/// How a sheet writes that nothing is forwarded.
pub const NOTHING: &str = "-";

/// The verdicts, each at its byte.
pub const VERDICTS: [&str; 3] = ["explained", "unexplained", "not judged"];
/// A step exists.
pub const EXPLAINED: u8 = 0;
/// No step exists from a set that is not empty.
pub const UNEXPLAINED: u8 = 1;
/// The pair is already lost.
pub const NOT_JUDGED: u8 = 2;

/// Who holds the duty to write back, or what became of it, each at its byte; Q-4 adds the last.
pub const DUTIES: [&str; 5] = ["none", "Home", "Requester", "lost", "discarded"];

/// The set of all seven states, above which no byte is a set.
pub const ALL_STATES: u8 = 127;

/// Whether a set holds a state, state n having the weight 2^n.
pub fn holds(set: u8, state: u8) -> bool {
    set >> state & 1 == 1
}

/// Whether a set holds a Dirty state.
pub fn holds_dirty(set: u8) -> bool {
    holds(set, UD) || holds(set, UDP) || holds(set, SD)
}

/// The states of a set by their names, in table order.
pub fn states_of(set: u8) -> Vec<&'static str> {
    (0..7).filter(|state| holds(set, *state)).map(|state| STATES[usize::from(state)]).collect()
}

/// The code of a name in a list of names and codes.
fn code_of(codes: &[(&str, u8)], name: &str) -> Option<u8> {
    codes.iter().find(|(known, _)| *known == name).map(|(_, code)| *code)
}

/// The code of a name in a list in which each name stands at its code.
pub fn place_of(names: &[&str], name: &str) -> Option<u8> {
    names.iter().position(|known| *known == name).map(|place| place as u8)
}

/// An answer to Home as the tables name it, by its bytes 5 to 8.
#[derive(Clone, Copy, Debug, PartialEq, Eq)]
pub struct Response {
    /// The name in the tables.
    pub name: &'static str,
    pub channel: u8,
    pub opcode: u8,
    pub resp: u8,
    pub fwd_state: u8,
}

impl Response {
    /// The response that a name spells: the message, its Resp and, after Fwded, its FwdState.
    pub fn named(name: &'static str) -> Option<Response> {
        let (answer, forwarded) = match name.split_once("_Fwded_") {
            Some((answer, forwarded)) => (answer, Some(forwarded)),
            None => (name, None),
        };
        let (message, resp) = answer.split_once('_')?;
        let (channel, opcode) = match (message, forwarded) {
            ("SnpResp", None) => (RSP, 1),
            ("SnpResp", Some(_)) => (RSP, 9),
            ("SnpRespData", None) => (DAT, 1),
            ("SnpRespDataPtl", None) => (DAT, 5),
            ("SnpRespData", Some(_)) => (DAT, 6),
            _ => return None,
        };
        let fwd_state = match forwarded {
            Some(forwarded) => code_of(&FWD_STATES, forwarded)?,
            None => 0,
        };
        Some(Response { name, channel, opcode, resp: code_of(&RESPS, resp)?, fwd_state })
    }

    /// The bytes 5 to 8 of an event that has this response.
    pub fn bytes(&self) -> [u8; 4] {
        [self.channel, self.opcode, self.resp, self.fwd_state]
    }
}

/// The data that the snoopee forwards to the Requester, or none, by its bytes 11 and 12.
#[derive(Clone, Copy, Debug, PartialEq, Eq)]
pub struct Forward {
    /// The name on a sheet's line.
    pub name: &'static str,
    pub present: u8,
    pub resp: u8,
}

impl Forward {
    /// The forward that a name spells, which is - for none.
    pub fn named(name: &'static str) -> Option<Forward> {
        if name == NOTHING {
            return Some(Forward { name, present: 0, resp: 0 });
        }
        let resp = code_of(&FWD_STATES, name.strip_prefix("CompData_")?)?;
        Some(Forward { name, present: 1, resp })
    }

    /// The bytes 11 and 12 of an event that has this forward.
    pub fn bytes(&self) -> [u8; 2] {
        [self.present, self.resp]
    }
}

#[cfg(test)]
mod tests {
    use super::*;

    /// Names spell codes as the definition says by its example, and what is no name spells none.
    #[test]
    fn names_spell_codes() {
        let bytes = |name| Response::named(name).map(|response| response.bytes());
        assert_eq!(bytes("SnpRespData_SC_PD_Fwded_SC"), Some([1, 6, 5, 1]));
        assert_eq!(bytes("SnpResp_I"), Some([0, 1, 0, 0]));
        assert_eq!(bytes("SnpRespDataPtl_I_PD"), Some([1, 5, 4, 0]));
        assert_eq!(bytes("SnpResp_SD_Fwded_UD_PD"), Some([0, 9, 3, 6]));
        for name in ["SnpResp", "SnpResp_UC", "SnpRespDataPtl_I_PD_Fwded_SC", "Snp_I", "SnpResp_I_Fwded_I"] {
            assert_eq!(bytes(name), None, "{name}");
        }
        let forward = |name| Forward::named(name).map(|forward| (forward.present, forward.resp));
        assert_eq!(forward("-"), Some((0, 0)));
        assert_eq!(forward("CompData_SD_PD"), Some((1, 7)));
        assert_eq!(forward("CompData_UC"), Some((1, 2)));
        assert_eq!((forward("CompData_I"), forward("SC")), (None, None));
    }

    /// Sets are read by their weights.
    #[test]
    fn sets() {
        assert_eq!(states_of(1 + 32).join(" "), "I SC");
        assert_eq!(states_of(ALL_STATES), STATES);
        let dirty: Vec<u8> = (0..7).filter(|state| holds_dirty(1 << state)).collect();
        assert_eq!(dirty, [3, 4, 6]);
    }
}
