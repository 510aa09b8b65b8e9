//! Events, as bytes and field by field.

use crate::answer::Answer;
use crate::codes::{Request, RespErr, State, TagOp, TagState};
use std::fmt;

/// One snoop and its answer, as fifteen bytes. It can hold any bytes; the judge refuses bad ones.
///
/// ```
/// use korehyumo::{Answer, Event, Fields, Forward, Request, Resp};
///
/// let captured = Event::from([1, 0, 0, 0, 0, 1, 1, 5, 0, 0, 0, 0, 0, 7, 0]);
/// let answer = Answer::SnpRespData(Resp::SC_PD, Forward::NoForward);
/// let named = Event::from(Fields::new(Request::SnpShared, answer));
/// assert_eq!(captured, named);
/// ```
#[derive(Clone, Copy, Debug, PartialEq, Eq, Hash)]
pub struct Event([u8; Event::BYTES]);

/// One snoop and its answer, field by field.
///
/// ```
/// use korehyumo::{Answer, Event, Fields, Forward, FwdState, Request, Resp, RespErr, TagOp, TagState};
///
/// // entry g of the notebook
/// let answer = Answer::SnpRespData(Resp::SC_PD, Forward::CompData(FwdState::SC, RespErr::OK));
/// let fields = Fields {
///     tag: Some(TagState::Dirty),
///     tag_op: TagOp::Update,
///     ..Fields::new(Request::SnpCleanFwd, answer)
/// };
/// assert_eq!(fields.to_string(), "SnpCleanFwd,0,0,0,Dirty,SnpRespData_SC_PD_Fwded_SC,Update,OK,CompData_SC,?,OK");
/// assert_eq!(Event::from(fields).fields(), Some(fields));
/// ```
#[derive(Clone, Copy, Debug, PartialEq, Eq, Hash)]
pub struct Fields {
    /// The request.
    pub request: Request,
    /// RetToSrc: Home asked for the data too.
    pub ret_to_src: bool,
    /// DoNotGoToSD: the snoopee must not go to SD.
    pub do_not_go_to_sd: bool,
    /// excl: the snoopee is known to be in an exclusive sequence.
    pub excl: bool,
    /// The snoopee's tag state; `None` if it was not seen.
    pub tag: Option<TagState>,
    /// The answer to Home, with what was forwarded and the error field of that.
    pub answer: Answer,
    /// The answer's TagOp.
    pub tag_op: TagOp,
    /// The answer's RespErr, which is the one to Home.
    pub resp_err: RespErr,
    /// The snoopee's state after; `None` if it was not seen.
    pub state_after: Option<State>,
}

/// The code of a tag state that was not seen.
const TAG_NOT_SEEN: u8 = 3;
/// The code of a state after that was not seen.
const STATE_NOT_SEEN: u8 = 7;

impl Event {
    /// How many bytes an event has.
    pub const BYTES: usize = 15;

    /// Its bytes.
    pub const fn bytes(&self) -> &[u8; Event::BYTES] {
        &self.0
    }

    /// Its fields; `None` if some byte has no name. The judge may accept such an event all the same.
    pub fn fields(&self) -> Option<Fields> {
        let bytes = &self.0;
        Some(Fields {
            request: Request::try_from(bytes[0]).ok()?,
            ret_to_src: flag(bytes[1])?,
            do_not_go_to_sd: flag(bytes[2])?,
            excl: flag(bytes[3])?,
            tag: seen(bytes[4], TAG_NOT_SEEN)?,
            answer: Answer::from_wire([
                bytes[5], bytes[6], bytes[7], bytes[8], bytes[11], bytes[12], bytes[14],
            ])?,
            tag_op: TagOp::try_from(bytes[9]).ok()?,
            resp_err: RespErr::try_from(bytes[10]).ok()?,
            state_after: seen(bytes[13], STATE_NOT_SEEN)?,
        })
    }
}

impl Fields {
    /// A snoop and its answer with the usual other fields: flags 0, tag state and TagOp Invalid, RespErr OK, state after not seen.
    pub const fn new(request: Request, answer: Answer) -> Fields {
        Fields {
            request,
            ret_to_src: false,
            do_not_go_to_sd: false,
            excl: false,
            tag: Some(TagState::Invalid),
            answer,
            tag_op: TagOp::Invalid,
            resp_err: RespErr::OK,
            state_after: None,
        }
    }
}

/// A byte as a flag.
fn flag(byte: u8) -> Option<bool> {
    match byte {
        0 => Some(false),
        1 => Some(true),
        _ => None,
    }
}

/// A byte as a value that was seen, or as one that was not; `None` if it is neither.
fn seen<Kind: TryFrom<u8>>(byte: u8, not_seen: u8) -> Option<Option<Kind>> {
    if byte == not_seen {
        return Some(None);
    }
    Kind::try_from(byte).ok().map(Some)
}

impl From<[u8; Event::BYTES]> for Event {
    fn from(bytes: [u8; Event::BYTES]) -> Event {
        Event(bytes)
    }
}

impl From<Event> for [u8; Event::BYTES] {
    fn from(event: Event) -> [u8; Event::BYTES] {
        event.0
    }
}

impl From<Fields> for Event {
    fn from(fields: Fields) -> Event {
        let [channel, opcode, resp, fwd_state, present, its_resp, fwd_err] = fields.answer.wire();
        Event([
            fields.request.code(),
            u8::from(fields.ret_to_src),
            u8::from(fields.do_not_go_to_sd),
            u8::from(fields.excl),
            fields.tag.map_or(TAG_NOT_SEEN, TagState::code),
            channel,
            opcode,
            resp,
            fwd_state,
            fields.tag_op.code(),
            fields.resp_err.code(),
            present,
            its_resp,
            fields.state_after.map_or(STATE_NOT_SEEN, State::code),
            fwd_err,
        ])
    }
}

impl AsRef<[u8]> for Event {
    fn as_ref(&self) -> &[u8] {
        &self.0
    }
}

impl fmt::Display for Event {
    /// Writes its fields, or its bytes as numbers if some byte has no name.
    fn fmt(&self, f: &mut fmt::Formatter<'_>) -> fmt::Result {
        match self.fields() {
            Some(fields) => fields.fmt(f),
            None => write!(f, "{:?}", self.0),
        }
    }
}

impl fmt::Display for Fields {
    /// Writes the eleven fields that follow the pair on a line of the bench sheet.
    fn fmt(&self, f: &mut fmt::Formatter<'_>) -> fmt::Result {
        let flags = [self.ret_to_src, self.do_not_go_to_sd, self.excl].map(u8::from);
        write!(
            f,
            "{},{},{},{},",
            self.request, flags[0], flags[1], flags[2]
        )?;
        write!(
            f,
            "{},{},",
            self.tag.map_or("?", TagState::name),
            self.answer
        )?;
        let forward = self.answer.forward();
        write!(f, "{},{},{forward},", self.tag_op, self.resp_err)?;
        write!(
            f,
            "{},{}",
            self.state_after.map_or("?", State::name),
            forward.fwd_err_name()
        )
    }
}
