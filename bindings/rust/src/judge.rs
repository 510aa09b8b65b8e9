//! Traces judged one after another.

use crate::event::Event;
use crate::findings::{Duty, Finding, Verdict};
use crate::numbers::PairNumber;
use crate::refusal::Refusal;
use crate::sets::StateSet;
use crate::trace::{judge_trace, MOST_EVENTS, MOST_PAIRS};

/// Judges one trace after another, and keeps the set of each pair from trace to trace.
///
/// ```
/// use korehyumo::{Answer, Duty, Event, Fields, Forward, Judge, PairNumber, Refusal, Request, Resp, Verdict};
///
/// let gave_up = Answer::SnpRespData(Resp::SC_PD, Forward::NoForward);
/// let kept = Answer::SnpRespData(Resp::SD, Forward::NoForward);
/// let mut judge = Judge::new(8)?;
///
/// let trace = [(PairNumber(3), Event::from(Fields::new(Request::SnpShared, gave_up)))];
/// let findings = judge.judge(&trace)?;
/// assert_eq!((findings[0].verdict, findings[0].duty), (Verdict::Explained, Duty::Home));
/// assert_eq!(judge.set_of(PairNumber(3)).unwrap().to_string(), "I SC");
///
/// let trace = [(PairNumber(3), Event::from(Fields::new(Request::SnpClean, kept)))];
/// let findings = judge.judge(&trace)?;
/// assert_eq!(findings[0].verdict, Verdict::Unexplained);
/// # Ok::<(), Refusal>(())
/// ```
#[derive(Clone, Debug)]
pub struct Judge {
    table: Vec<u8>,
    lent: Lent,
    findings: Vec<Finding>,
}

/// The other buffers of a call, kept for the next call.
#[derive(Clone, Debug, Default)]
struct Lent {
    events: Vec<u8>,
    pairs: Vec<u16>,
    verdicts: Vec<u8>,
    duties: Vec<u8>,
    afters: Vec<u8>,
}

impl Judge {
    /// A judge of this many pairs, each with all seven states possible.
    ///
    /// ```
    /// use korehyumo::{Judge, PairNumber, Refusal, StateSet, MOST_PAIRS};
    ///
    /// let judge = Judge::new(MOST_PAIRS)?; // every pair number is one of its pairs
    /// assert_eq!(judge.set_of(PairNumber(u16::MAX)), Some(StateSet::ALL));
    /// assert_eq!(Judge::new(MOST_PAIRS + 1).err(), Some(Refusal::Lengths));
    /// # Ok::<(), Refusal>(())
    /// ```
    ///
    /// # Errors
    ///
    /// [`Refusal::Lengths`] for more than [`MOST_PAIRS`].
    pub fn new(pairs: usize) -> Result<Judge, Refusal> {
        Judge::with_sets((0..pairs).map(|_| StateSet::ALL))
    }

    /// A judge of pairs with these sets, from pair 0 on. An empty set is allowed: that pair is already lost.
    ///
    /// ```
    /// use korehyumo::{Judge, PairNumber, Refusal, State, StateSet};
    ///
    /// let judge = Judge::with_sets([StateSet::only(State::UD), StateSet::EMPTY])?;
    /// assert_eq!(judge.set_of(PairNumber(0)), Some(StateSet::only(State::UD)));
    /// assert_eq!(judge.set_of(PairNumber(2)), None);
    /// # Ok::<(), Refusal>(())
    /// ```
    ///
    /// # Errors
    ///
    /// [`Refusal::Lengths`] for more than [`MOST_PAIRS`].
    pub fn with_sets<Sets: IntoIterator<Item = StateSet>>(sets: Sets) -> Result<Judge, Refusal> {
        let sets = sets.into_iter().map(StateSet::bits);
        let table: Vec<u8> = sets.take(MOST_PAIRS + 1).collect();
        if table.len() > MOST_PAIRS {
            return Err(Refusal::Lengths);
        }
        Ok(Judge {
            table,
            lent: Lent::default(),
            findings: Vec::new(),
        })
    }

    /// The states that a pair can be in now; `None` if there is no such pair.
    pub fn set_of(&self, pair: PairNumber) -> Option<StateSet> {
        let set = self.table.get(usize::from(pair.0))?;
        Some(StateSet::given(*set))
    }

    /// The states that each pair can be in now, from pair 0 on.
    pub fn sets(&self) -> impl ExactSizeIterator<Item = StateSet> + '_ {
        self.table.iter().map(|set| StateSet::given(*set))
    }

    /// Judges a trace of up to [`MOST_EVENTS`] events, each with its pair, and gives a finding for each in the same order.
    ///
    /// # Errors
    ///
    /// Any [`Refusal`] except [`Refusal::Set`] and [`Refusal::Room`], and except [`Refusal::Pair`] with [`MOST_PAIRS`] pairs. The
    /// sets of the pairs are then as before.
    pub fn judge(&mut self, trace: &[(PairNumber, Event)]) -> Result<&[Finding], Refusal> {
        if trace.len() > MOST_EVENTS {
            return Err(Refusal::Lengths);
        }
        self.lent.take(trace);
        self.lent.judge_on(&mut self.table)?;
        self.findings.clear();
        self.findings.extend(self.lent.findings());
        Ok(&self.findings)
    }
}

impl Lent {
    /// Copies a trace into the buffers, and makes room for its answers.
    fn take(&mut self, trace: &[(PairNumber, Event)]) {
        self.pairs.clear();
        self.pairs.extend(trace.iter().map(|(pair, _)| pair.0));
        self.events.clear();
        self.events
            .extend(trace.iter().flat_map(|(_, event)| event.bytes()));
        for answers in [&mut self.verdicts, &mut self.duties, &mut self.afters] {
            answers.resize(trace.len(), 0);
        }
    }

    /// Judges the trace with a table of sets.
    fn judge_on(&mut self, table: &mut [u8]) -> Result<usize, Refusal> {
        judge_trace(
            &self.events,
            &self.pairs,
            table,
            &mut self.verdicts,
            &mut self.duties,
            &mut self.afters,
        )
    }

    /// The answers, one for each event.
    fn findings(&self) -> impl Iterator<Item = Finding> + '_ {
        let answers = self.verdicts.iter().zip(&self.duties).zip(&self.afters);
        answers.map(|((verdict, duty), after)| Finding {
            verdict: Verdict::from(*verdict),
            duty: Duty::from(*duty),
            after: StateSet::given(*after),
        })
    }
}
