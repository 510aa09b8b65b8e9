//! Judges AMBA CHI snoop answers: whether the rows of the CHI tables permit an answer, which states the cache can be in
//! afterwards, and who now holds the duty to write a Dirty line back. It also lists every answer that would have been in order.
//!
//! A library that is proved for every input does the judging. This package is safe Rust over its C interface. An input that
//! can't be judged is a [`Refusal`], and a refused call changes nothing that was lent. No call panics.
//!
//! | call | what it does |
//! |---|---|
//! | [`judge_event`] | judges one event alone: for each of the seven states before, the states after and the duty |
//! | [`Judge`] | judges trace after trace and keeps the sets of the pairs: a verdict, a duty and a set for each event |
//! | [`judge_trace`] | judges one trace over plain buffers, without allocation |
//! | [`permitted_answers`] | lists every answer that the rows permit to a [`Question`]: a snoop, a tag state and a state before |
//! | [`list_answers`] | lists them over plain bytes, without allocation |
//!
//! One event of one pair:
//!
//! ```
//! use korehyumo::{Answer, Event, Fields, Forward, Judge, PairNumber, Request, Resp};
//!
//! # fn main() -> Result<(), korehyumo::Refusal> {
//! let answer = Answer::SnpRespData(Resp::SC_PD, Forward::NoForward);
//! let event = Event::from(Fields::new(Request::SnpShared, answer));
//! let mut judge = Judge::new(1)?;
//! let findings = judge.judge(&[(PairNumber(0), event)])?;
//! assert_eq!(findings[0].to_string(), "explained,Home,I SC");
//! # Ok(())
//! # }
//! ```
//!
//! The definition's own example. A cache hands its Dirty line to Home, then claims to hold it still. That is unexplained, and
//! the pair is not judged from there on:
//!
//! ```
//! use korehyumo::{Answer, Event, Fields, Forward, Judge, PairNumber, Refusal, Request, Resp, State, Verdict};
//!
//! fn main() -> Result<(), Refusal> {
//!     let with_data = |resp| Answer::SnpRespData(resp, Forward::NoForward);
//!     let without = |resp| Answer::SnpResp(resp, Forward::NoForward);
//!     let events = [
//!         Fields::new(Request::SnpShared, with_data(Resp::SC_PD)),
//!         Fields { ret_to_src: true, ..Fields::new(Request::SnpShared, with_data(Resp::SC)) },
//!         Fields::new(Request::SnpClean, with_data(Resp::SD)),
//!         Fields { state_after: Some(State::I), ..Fields::new(Request::SnpClean, without(Resp::I)) },
//!     ];
//!     let trace = events.map(|fields| (PairNumber(0), Event::from(fields)));
//!
//!     let mut judge = Judge::new(1)?;
//!     let findings = judge.judge(&trace)?;
//!     let lines: Vec<String> = findings.iter().map(|finding| finding.to_string()).collect();
//!     assert_eq!(lines, ["explained,Home,I SC", "explained,none,I SC", "unexplained,none,", "not judged,none,"]);
//!     assert_eq!(findings.iter().position(|finding| finding.verdict == Verdict::Unexplained), Some(2));
//!     assert!(judge.set_of(PairNumber(0)).unwrap().is_empty());
//!     Ok(())
//! }
//! ```
//!
//! What an odd event could have been answered with:
//!
//! ```
//! use korehyumo::{permitted_answers, Question, Refusal, Request, State};
//!
//! let answers = permitted_answers(Question::new(Request::SnpClean, State::UCE))?;
//! let lines: Vec<String> = answers.iter().map(|answer| answer.to_string()).collect();
//! assert_eq!(lines, ["SnpResp_I,Invalid,OK,-,I,-", "SnpResp_I,Invalid,NDERR,-,I,-"]);
//! # Ok::<(), Refusal>(())
//! ```
//!
//! A later library may have refusals, verdicts, duties and answers without a name in this version of the package. They come as
//! [`Refusal::Unknown`], [`Verdict::Other`], [`Duty::Other`] and [`Permitted::Other`], with their numbers.

#![deny(unsafe_code)]
#![deny(unsafe_op_in_unsafe_fn)]
#![warn(missing_docs)]

mod alone;
mod answer;
#[allow(unsafe_code)]
mod calls;
mod codes;
mod event;
mod findings;
mod judge;
mod numbers;
mod question;
mod refusal;
mod sets;
mod trace;

pub use alone::{judge_event, Judgment, Outcome};
pub use answer::{Answer, Forward};
pub use codes::{FwdState, Request, Resp, RespErr, State, TagOp, TagState, UnknownCode};
pub use event::{Event, Fields};
pub use findings::{Duty, Finding, Verdict};
pub use judge::Judge;
pub use numbers::{EventNumber, PairNumber};
pub use question::{
    list_answers, permitted_answers, Permitted, Question, ANSWER_BYTES, MOST_ANSWERS,
};
pub use refusal::Refusal;
pub use sets::StateSet;
pub use trace::{judge_trace, MOST_EVENTS, MOST_PAIRS};

/// The examples of the package's README.
#[cfg(doctest)]
#[doc = include_str!("../README.md")]
pub struct Readme;
