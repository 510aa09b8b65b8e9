//! One event judged alone.

use crate::calls;
use crate::codes::State;
use crate::findings::Duty;
use crate::refusal::Refusal;
use crate::sets::StateSet;
use std::array;
use std::ops::Index;

/// What an event does to a line that was in one state before it.
#[derive(Clone, Copy, Debug, PartialEq, Eq, Hash)]
pub struct Outcome {
    /// The states that the line can be in afterwards; empty if the rows permit no step from that state.
    pub after: StateSet,
    /// The duty, judged from that state alone.
    pub duty: Duty,
}

/// One event judged alone: an [`Outcome`] for each of the seven states before.
///
/// It is indexed by the state before: `judgment[State::UD]`.
#[derive(Clone, Copy, Debug, PartialEq, Eq, Hash)]
pub struct Judgment([Outcome; State::ALL.len()]);

impl Index<State> for Judgment {
    type Output = Outcome;

    fn index(&self, before: State) -> &Outcome {
        &self.0[usize::from(before.code())]
    }
}

impl Judgment {
    /// The states before from which the rows permit a step.
    pub fn befores(&self) -> StateSet {
        let steps = |before: &State| !self[*before].after.is_empty();
        State::ALL.into_iter().filter(steps).collect()
    }
}

/// Judges one event alone, from each of the seven states. The event is an [`Event`](crate::Event) or any bytes.
///
/// ```
/// use korehyumo::{judge_event, Answer, Duty, Event, Fields, Forward, Refusal, Request, Resp, State};
///
/// let answer = Answer::SnpRespData(Resp::SC_PD, Forward::NoForward);
/// let judgment = judge_event(Event::from(Fields::new(Request::SnpShared, answer)))?;
/// assert_eq!(judgment[State::UD].after.to_string(), "I SC");
/// assert_eq!(judgment[State::UD].duty, Duty::Home);
/// assert!(judgment[State::UC].after.is_empty());
/// assert_eq!(judgment.befores().to_string(), "UD SD");
///
/// assert_eq!(judge_event([0; Event::BYTES - 1]), Err(Refusal::Lengths));
/// # Ok::<(), Refusal>(())
/// ```
///
/// # Errors
///
/// - [`Refusal::Lengths`]: there are not [`Event::BYTES`](crate::Event::BYTES) bytes.
/// - [`Refusal::Range`] of event 0: a byte from 1 to 14 is outside its range.
/// - [`Refusal::Request`] of event 0: the request is not one of the ten.
pub fn judge_event<Bytes: AsRef<[u8]>>(event: Bytes) -> Result<Judgment, Refusal> {
    let (result, sets, duties) = calls::event(event.as_ref());
    Refusal::unless_accepted(result)?;
    Ok(Judgment(array::from_fn(|before| Outcome {
        after: StateSet::given(sets[before]),
        duty: Duty::from(duties[before]),
    })))
}
