//! What several tests use.

// Each test uses a part of it.
#![allow(dead_code)]

use korehyumo::{
    judge_trace, Answer, Event, Forward, FwdState, Refusal, Resp, RespErr, MOST_PAIRS,
};

/// The bytes of an event.
pub type Bytes = [u8; Event::BYTES];

/// The last pair of the largest table.
pub const LAST_PAIR: u16 = (MOST_PAIRS - 1) as u16;

/// The most pairs of a table in version 0.2.0.
pub const OLD_MOST_PAIRS: u16 = 4_096;

/// The four events of the definition's example sheet.
pub const SHEET: [Bytes; 4] = [
    [1, 0, 0, 0, 0, 1, 1, 5, 0, 0, 0, 0, 0, 7, 0],
    [1, 1, 0, 0, 0, 1, 1, 1, 0, 0, 0, 0, 0, 7, 0],
    [2, 0, 0, 0, 0, 1, 1, 3, 0, 0, 0, 0, 0, 7, 0],
    [2, 0, 0, 0, 0, 0, 1, 0, 0, 0, 0, 0, 0, 0, 0],
];

/// SnpShared answered by SnpResp_I with NDERR, entry m of the notebook.
pub const IN_ERROR: Bytes = [1, 0, 0, 0, 0, 0, 1, 0, 0, 0, 3, 0, 0, 7, 0];

/// The highest value of each byte of an event. Of the request only the ten codes are judged.
pub const HIGHEST: Bytes = [255, 1, 1, 1, 3, 1, 31, 7, 7, 3, 3, 1, 7, 7, 3];

/// The codes of the ten requests.
pub const REQUESTS: [u8; 10] = [1, 2, 4, 7, 9, 10, 18, 20, 21, 22];

/// The 22 responses of the rows, with their channel, opcode, Resp and FwdState.
pub const RESPONSES: [(&str, [u8; 4]); 22] = [
    ("SnpResp_I", [0, 1, 0, 0]),
    ("SnpResp_SC", [0, 1, 1, 0]),
    ("SnpRespData_I", [1, 1, 0, 0]),
    ("SnpRespData_SC", [1, 1, 1, 0]),
    ("SnpRespData_SD", [1, 1, 3, 0]),
    ("SnpRespData_I_PD", [1, 1, 4, 0]),
    ("SnpRespData_SC_PD", [1, 1, 5, 0]),
    ("SnpRespDataPtl_I_PD", [1, 5, 4, 0]),
    ("SnpResp_I_Fwded_SC", [0, 9, 0, 1]),
    ("SnpResp_SC_Fwded_SC", [0, 9, 1, 1]),
    ("SnpResp_SD_Fwded_SC", [0, 9, 3, 1]),
    ("SnpResp_I_Fwded_SD_PD", [0, 9, 0, 7]),
    ("SnpResp_SC_Fwded_SD_PD", [0, 9, 1, 7]),
    ("SnpResp_I_Fwded_UC", [0, 9, 0, 2]),
    ("SnpResp_I_Fwded_UD_PD", [0, 9, 0, 6]),
    ("SnpRespData_I_Fwded_SC", [1, 6, 0, 1]),
    ("SnpRespData_SC_Fwded_SC", [1, 6, 1, 1]),
    ("SnpRespData_SD_Fwded_SC", [1, 6, 3, 1]),
    ("SnpRespData_I_Fwded_SD_PD", [1, 6, 0, 7]),
    ("SnpRespData_SC_Fwded_SD_PD", [1, 6, 1, 7]),
    ("SnpRespData_I_PD_Fwded_SC", [1, 6, 4, 1]),
    ("SnpRespData_SC_PD_Fwded_SC", [1, 6, 5, 1]),
];

/// The names of forwarded data, with their codes.
pub const FORWARDS: [(&str, u8); 4] = [
    ("CompData_SC", 1),
    ("CompData_UC", 2),
    ("CompData_UD_PD", 6),
    ("CompData_SD_PD", 7),
];

/// The seven bytes of a response and of the forwarded data that its row has, without an error on that.
pub fn wire(codes: [u8; 4]) -> [u8; 7] {
    let [channel, opcode, resp, fwd_state] = codes;
    [
        channel,
        opcode,
        resp,
        fwd_state,
        u8::from(fwd_state != 0),
        fwd_state,
        0,
    ]
}

/// Puts a response into an event, with the forwarded data that its row has and without an error on that.
pub fn put_response(event: &mut Bytes, codes: [u8; 4]) {
    let wire = wire(codes);
    event[5..9].copy_from_slice(&wire[..4]);
    event[11..13].copy_from_slice(&wire[4..6]);
    event[14] = wire[6];
}

/// Every value of `Answer`.
pub fn all_answers() -> Vec<Answer> {
    let mut forwards = vec![Forward::NoForward];
    for state in FwdState::ALL {
        forwards.extend(RespErr::ALL.map(|fwd_err| Forward::CompData(state, fwd_err)));
    }
    let mut answers: Vec<Answer> = Resp::ALL.map(Answer::SnpRespDataPtl).to_vec();
    for resp in Resp::ALL {
        answers.extend(
            forwards
                .iter()
                .map(|forward| Answer::SnpResp(resp, *forward)),
        );
        answers.extend(
            forwards
                .iter()
                .map(|forward| Answer::SnpRespData(resp, *forward)),
        );
    }
    answers
}

/// The six buffers of a call.
#[derive(Clone, Debug, PartialEq, Eq)]
pub struct Lent {
    pub events: Vec<u8>,
    pub pairs: Vec<u16>,
    pub table: Vec<u8>,
    pub verdicts: Vec<u8>,
    pub duties: Vec<u8>,
    pub afters: Vec<u8>,
}

impl Lent {
    /// A trace and a table. The answers are filled with bytes that no answer has.
    pub fn new(events: &[Bytes], pairs: &[u16], table: &[u8]) -> Lent {
        let n = events.len();
        Lent {
            events: events.concat(),
            pairs: pairs.to_vec(),
            table: table.to_vec(),
            verdicts: vec![201; n],
            duties: vec![202; n],
            afters: vec![203; n],
        }
    }

    /// Lends the buffers to the judge.
    pub fn judge(&mut self) -> Result<usize, Refusal> {
        judge_trace(
            &self.events,
            &self.pairs,
            &mut self.table,
            &mut self.verdicts,
            &mut self.duties,
            &mut self.afters,
        )
    }

    /// Asserts that the trace is refused so, and that no buffer changes.
    pub fn refused(&self, refusal: Refusal, number: u8, place: u64) {
        let mut lent = self.clone();
        assert_eq!(lent.judge(), Err(refusal));
        assert_eq!((refusal.number(), refusal.place()), (number, place));
        assert_eq!(lent, *self);
    }
}

/// A generator of pseudo-random numbers, the same in every run.
pub struct Draw(pub u64);

impl Draw {
    /// A number below a limit.
    pub fn below(&mut self, limit: u64) -> u64 {
        self.0 ^= self.0 << 13;
        self.0 ^= self.0 >> 7;
        self.0 ^= self.0 << 17;
        (self.0 >> 11) % limit
    }

    /// Any pair number.
    pub fn pair(&mut self) -> u16 {
        self.below(MOST_PAIRS as u64) as u16
    }

    /// A byte up to a highest value.
    pub fn byte(&mut self, highest: u8) -> u8 {
        self.below(u64::from(highest) + 1) as u8
    }

    /// So many bytes of any value.
    pub fn bytes(&mut self, count: usize) -> Vec<u8> {
        (0..count).map(|_| self.byte(255)).collect()
    }
}
