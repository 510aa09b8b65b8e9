//! The snoopee's answer to Home, and what it forwards.

use crate::codes::{FwdState, Resp, RespErr};
use std::fmt;

/// What the snoopee forwards to the Requester.
///
/// ```
/// use korehyumo::{Forward, FwdState, RespErr};
///
/// let forward = Forward::CompData(FwdState::SC, RespErr::DERR);
/// assert_eq!(forward.to_string(), "CompData_SC");
/// assert_eq!(forward.fwd_err(), Some(RespErr::DERR));
/// assert_eq!(Forward::NoForward.fwd_err(), None);
/// ```
#[derive(Clone, Copy, Debug, PartialEq, Eq, Hash)]
pub enum Forward {
    /// Nothing.
    NoForward,
    /// Data, with the state that it gives the Requester, and its own error field (fwdErr).
    CompData(FwdState, RespErr),
}

/// The snoopee's answer to Home, together with what it forwards to the Requester.
///
/// ```
/// use korehyumo::{Answer, Forward, FwdState, Resp, RespErr};
///
/// let answer = Answer::SnpRespData(Resp::SC_PD, Forward::CompData(FwdState::SC, RespErr::DERR));
/// assert_eq!(answer.to_string(), "SnpRespData_SC_PD_Fwded_SC");
/// assert_eq!(answer.forward().to_string(), "CompData_SC");
/// assert_eq!(answer.wire(), [1, 6, 5, 1, 1, 1, 2]);
/// assert_eq!(Answer::from_wire([1, 6, 5, 1, 1, 1, 2]), Some(answer));
/// ```
#[derive(Clone, Copy, Debug, PartialEq, Eq, Hash)]
pub enum Answer {
    /// Without data: SnpResp, or SnpRespFwded if something is forwarded.
    SnpResp(Resp, Forward),
    /// With data: SnpRespData, or SnpRespDataFwded if something is forwarded.
    SnpRespData(Resp, Forward),
    /// With part of the data: SnpRespDataPtl, which never forwards.
    SnpRespDataPtl(Resp),
}

/// The channel of an answer without data.
const RSP: u8 = 0;
/// The channel of an answer with data.
const DAT: u8 = 1;

impl Forward {
    /// The error field of the forwarded data; `None` if nothing is forwarded.
    pub const fn fwd_err(self) -> Option<RespErr> {
        match self {
            Forward::NoForward => None,
            Forward::CompData(_, fwd_err) => Some(fwd_err),
        }
    }

    /// The name of that error field on the bench sheet: `OK` and its like, or `-` if nothing is forwarded.
    pub(crate) fn fwd_err_name(self) -> &'static str {
        self.fwd_err().map_or("-", RespErr::name)
    }
}

impl Answer {
    /// Its Resp.
    pub const fn resp(self) -> Resp {
        match self {
            Answer::SnpResp(resp, _)
            | Answer::SnpRespData(resp, _)
            | Answer::SnpRespDataPtl(resp) => resp,
        }
    }

    /// What it forwards.
    pub const fn forward(self) -> Forward {
        match self {
            Answer::SnpResp(_, forward) | Answer::SnpRespData(_, forward) => forward,
            Answer::SnpRespDataPtl(_) => Forward::NoForward,
        }
    }

    /// Its seven bytes in an event, bytes 5 to 8, 11, 12 and 14: channel, opcode, Resp, FwdState, forwarded data present, and the
    /// Resp and the error field of that data.
    pub const fn wire(self) -> [u8; 7] {
        let (channel, plain, forwarding) = match self {
            Answer::SnpResp(..) => (RSP, 1, 9),
            Answer::SnpRespData(..) => (DAT, 1, 6),
            Answer::SnpRespDataPtl(_) => (DAT, 5, 5),
        };
        let resp = self.resp().code();
        match self.forward() {
            Forward::NoForward => [channel, plain, resp, 0, 0, 0, 0],
            Forward::CompData(state, fwd_err) => {
                let state = state.code();
                [channel, forwarding, resp, state, 1, state, fwd_err.code()]
            }
        }
    }

    /// The answer with these seven bytes, in the order of [`wire`](Answer::wire); `None` if this type has no such answer.
    pub fn from_wire(wire: [u8; 7]) -> Option<Answer> {
        let resp = Resp::try_from(wire[2]).ok()?;
        let forward = match (FwdState::try_from(wire[3]), RespErr::try_from(wire[6])) {
            (Ok(state), Ok(fwd_err)) => Forward::CompData(state, fwd_err),
            _ => Forward::NoForward,
        };
        let all = [
            Answer::SnpResp(resp, forward),
            Answer::SnpRespData(resp, forward),
            Answer::SnpRespDataPtl(resp),
        ];
        all.into_iter().find(|answer| answer.wire() == wire)
    }
}

impl fmt::Display for Forward {
    /// Writes its name as on the bench sheet: `CompData_SC` and its like, or `-` for nothing. The error has a column of its own.
    fn fmt(&self, f: &mut fmt::Formatter<'_>) -> fmt::Result {
        match self {
            Forward::NoForward => f.pad("-"),
            Forward::CompData(state, _) => f.pad(&format!("CompData_{state}")),
        }
    }
}

impl fmt::Display for Answer {
    /// Writes its name as in the tables, such as `SnpRespData_SC_PD_Fwded_SC`.
    fn fmt(&self, f: &mut fmt::Formatter<'_>) -> fmt::Result {
        let message = match self {
            Answer::SnpResp(..) => "SnpResp",
            Answer::SnpRespData(..) => "SnpRespData",
            Answer::SnpRespDataPtl(_) => "SnpRespDataPtl",
        };
        let resp = self.resp();
        match self.forward() {
            Forward::NoForward => f.pad(&format!("{message}_{resp}")),
            Forward::CompData(state, _) => f.pad(&format!("{message}_{resp}_Fwded_{state}")),
        }
    }
}
