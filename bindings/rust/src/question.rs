//! What would have been in order: every answer that the rows permit to a question.

use crate::answer::Answer;
use crate::calls;
use crate::codes::{Request, RespErr, State, TagOp, TagState};
use crate::refusal::Refusal;
use std::fmt;

/// How many bytes a listed answer has: bytes 5 to 14 of an event.
///
/// ```
/// use korehyumo::{Event, ANSWER_BYTES};
///
/// assert_eq!(ANSWER_BYTES, Event::BYTES - 5);
/// ```
pub const ANSWER_BYTES: usize = 10;
/// The most answers that a list has.
///
/// ```
/// use korehyumo::{list_answers, Refusal, ANSWER_BYTES, MOST_ANSWERS};
///
/// let mut room = [0; MOST_ANSWERS * ANSWER_BYTES]; // never too small
/// assert_eq!(list_answers([18, 1, 0, 0, 0, 3], &mut room)?, MOST_ANSWERS);
/// # Ok::<(), Refusal>(())
/// ```
pub const MOST_ANSWERS: usize = 57;

/// A snoop, the tag state and the state before: what an answer is permitted by.
///
/// ```
/// use korehyumo::{Question, Request, State, TagState};
///
/// let question = Question {
///     tag: TagState::Dirty,
///     ..Question::new(Request::SnpCleanFwd, State::SD)
/// };
/// assert_eq!(question.bytes(), [18, 0, 0, 0, 2, 6]);
/// ```
#[derive(Clone, Copy, Debug, PartialEq, Eq, Hash)]
pub struct Question {
    /// The request.
    pub request: Request,
    /// RetToSrc: Home asked for the data too.
    pub ret_to_src: bool,
    /// DoNotGoToSD: the snoopee must not go to SD.
    pub do_not_go_to_sd: bool,
    /// excl: the snoopee is known to be in an exclusive sequence.
    pub excl: bool,
    /// The snoopee's tag state.
    pub tag: TagState,
    /// The snoopee's state before.
    pub before: State,
}

/// An answer that the rows permit, with its state after.
///
/// ```
/// use korehyumo::{Answer, Forward, FwdState, Permitted, Resp, RespErr, State, TagOp};
///
/// let permitted = Permitted::Named {
///     answer: Answer::SnpRespData(Resp::SC_PD, Forward::CompData(FwdState::SC, RespErr::DERR)),
///     tag_op: TagOp::Transfer,
///     resp_err: RespErr::OK,
///     state_after: State::I,
/// };
/// assert_eq!(permitted.to_string(), "SnpRespData_SC_PD_Fwded_SC,Transfer,OK,CompData_SC,I,DERR");
/// assert_eq!(permitted.bytes(), [1, 6, 5, 1, 1, 0, 1, 1, 0, 2]);
/// assert_eq!(Permitted::from([1, 6, 5, 1, 1, 0, 1, 1, 0, 2]), permitted);
/// ```
#[derive(Clone, Copy, Debug, PartialEq, Eq, Hash)]
#[non_exhaustive]
pub enum Permitted {
    /// An answer by name.
    Named {
        /// The answer to Home, with what is forwarded and the error field of that.
        answer: Answer,
        /// The answer's TagOp.
        tag_op: TagOp,
        /// The answer's RespErr, which is the one to Home.
        resp_err: RespErr,
        /// The snoopee's state after.
        state_after: State,
    },
    /// Bytes without a name in this version of the package.
    Other([u8; ANSWER_BYTES]),
}

impl Question {
    /// How many bytes a question has.
    pub const BYTES: usize = 6;

    /// A snoop and the state before with the usual other fields: flags 0, tag state Invalid.
    ///
    /// ```
    /// use korehyumo::{Question, Request, State};
    ///
    /// let question = Question::new(Request::SnpShared, State::UD);
    /// assert_eq!(question.bytes(), [1, 0, 0, 0, 0, 3]);
    /// ```
    pub const fn new(request: Request, before: State) -> Question {
        Question {
            request,
            ret_to_src: false,
            do_not_go_to_sd: false,
            excl: false,
            tag: TagState::Invalid,
            before,
        }
    }

    /// Its bytes: the first five of an event, and the state before.
    pub fn bytes(self) -> [u8; Question::BYTES] {
        [
            self.request.code(),
            u8::from(self.ret_to_src),
            u8::from(self.do_not_go_to_sd),
            u8::from(self.excl),
            self.tag.code(),
            self.before.code(),
        ]
    }
}

impl Permitted {
    /// Its bytes: bytes 5 to 14 of an event.
    pub const fn bytes(self) -> [u8; ANSWER_BYTES] {
        match self {
            Permitted::Named {
                answer,
                tag_op,
                resp_err,
                state_after,
            } => {
                let [channel, opcode, resp, fwd_state, present, its_resp, fwd_err] = answer.wire();
                [
                    channel,
                    opcode,
                    resp,
                    fwd_state,
                    tag_op.code(),
                    resp_err.code(),
                    present,
                    its_resp,
                    state_after.code(),
                    fwd_err,
                ]
            }
            Permitted::Other(bytes) => bytes,
        }
    }

    /// The answer with these bytes; `None` if some byte has no name.
    fn named(bytes: [u8; ANSWER_BYTES]) -> Option<Permitted> {
        let [channel, opcode, resp, fwd_state, tag_op, resp_err, present, its_resp, state_after, fwd_err] =
            bytes;
        let wire = [channel, opcode, resp, fwd_state, present, its_resp, fwd_err];
        Some(Permitted::Named {
            answer: Answer::from_wire(wire)?,
            tag_op: TagOp::try_from(tag_op).ok()?,
            resp_err: RespErr::try_from(resp_err).ok()?,
            state_after: State::try_from(state_after).ok()?,
        })
    }
}

impl From<[u8; ANSWER_BYTES]> for Permitted {
    /// The answer with these bytes; `Other` if some byte has no name.
    fn from(bytes: [u8; ANSWER_BYTES]) -> Permitted {
        Permitted::named(bytes).unwrap_or(Permitted::Other(bytes))
    }
}

impl fmt::Display for Permitted {
    /// Writes the last six fields of a line of the bench sheet, or its bytes as numbers if it has no name.
    fn fmt(&self, f: &mut fmt::Formatter<'_>) -> fmt::Result {
        match self {
            Permitted::Named {
                answer,
                tag_op,
                resp_err,
                state_after,
            } => {
                let forward = answer.forward();
                write!(f, "{answer},{tag_op},{resp_err},{forward},{state_after},")?;
                f.write_str(forward.fwd_err_name())
            }
            Permitted::Other(bytes) => write!(f, "{bytes:?}"),
        }
    }
}

/// Lists every answer that the rows permit to a question, each once, in ascending order of their bytes.
///
/// ```
/// use korehyumo::{permitted_answers, Question, Refusal, Request, State, TagState};
///
/// let question = Question::new(Request::SnpCleanFwd, State::UDP);
/// let answers = permitted_answers(question)?;
/// let lines: Vec<String> = answers.iter().map(|answer| answer.to_string()).collect();
/// assert_eq!(
///     lines,
///     [
///         "SnpResp_I,Invalid,NDERR,-,I,-",
///         "SnpRespDataPtl_I_PD,Invalid,OK,-,I,-",
///         "SnpRespDataPtl_I_PD,Invalid,DERR,-,I,-",
///     ]
/// );
///
/// // Dirty tags exist only with UD and SD
/// let answers = permitted_answers(Question { tag: TagState::Dirty, ..question })?;
/// assert!(answers.is_empty());
/// # Ok::<(), Refusal>(())
/// ```
///
/// # Errors
///
/// None from this version of the library. A later one may have new refusals, or lists of more than [`MOST_ANSWERS`], which are
/// refused with [`Refusal::Room`].
pub fn permitted_answers(question: Question) -> Result<Vec<Permitted>, Refusal> {
    let mut room = [0; MOST_ANSWERS * ANSWER_BYTES];
    let count = list_answers(question.bytes(), &mut room)?;
    let listed = room.chunks_exact(ANSWER_BYTES).take(count);
    let bytes = listed.filter_map(|answer| <[u8; ANSWER_BYTES]>::try_from(answer).ok());
    Ok(bytes.map(Permitted::from).collect())
}

/// Lists every answer that the rows permit to a question over plain bytes, and gives their count. Nothing is allocated.
///
/// | bytes | what they hold |
/// |---|---|
/// | `question` | request, RetToSrc, DoNotGoToSD, excl, tag state and state before |
/// | `room` | after the call, [`ANSWER_BYTES`] for each answer; those past the last are as they were lent |
///
/// [`permitted_answers`] does the same with types in place of bytes.
///
/// ```
/// use korehyumo::{list_answers, Refusal};
///
/// let snp_clean_to_i = [2, 0, 0, 0, 0, 0];
/// let mut room = [99; 22];
/// assert_eq!(list_answers(snp_clean_to_i, &mut room)?, 2);
/// assert_eq!(room[..10], [0, 1, 0, 0, 0, 0, 0, 0, 0, 0]); // SnpResp_I
/// assert_eq!(room[10..20], [0, 1, 0, 0, 0, 3, 0, 0, 0, 0]); // SnpResp_I with NDERR
/// assert_eq!(room[20..], [99; 2]);
///
/// assert_eq!(list_answers(snp_clean_to_i, &mut room[..19]), Err(Refusal::Room));
/// # Ok::<(), Refusal>(())
/// ```
///
/// # Errors
///
/// - [`Refusal::Range`] of event 0: a flag is not 0 or 1, the tag state is above 2, or the state before is above 6.
/// - [`Refusal::Request`] of event 0: the request is not one of the ten.
/// - [`Refusal::Room`]: the list has more bytes than the room.
///
/// The room is then as it was lent.
pub fn list_answers(question: [u8; Question::BYTES], room: &mut [u8]) -> Result<usize, Refusal> {
    let result = calls::answers(question, room);
    Refusal::unless_accepted(result)?;
    // the upper 32 bits are the count
    Ok((result >> 32) as usize)
}
