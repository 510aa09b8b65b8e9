//! The comparison of a program with the definition over the cases of a call.

use crate::cases::kinds::{Case, Cases};
use crate::cases::wire::fill;
use crate::running::arrival::Arrival;
use crate::running::call::{Answer, Call, Feeding, Right};
use crate::running::program::{run, start};
use crate::running::report::{difference, is_right, shown, Outcome};
use std::ffi::OsString;
use std::io::{self, Read, Write};
use std::ops::Range;
use std::sync::atomic::{AtomicBool, AtomicU64, Ordering};
use std::sync::mpsc::{channel, Receiver, Sender};
use std::sync::Arc;
use std::thread;

/// How many runs there are at a time.
const AT_A_TIME: usize = 2;
/// How many cases are handed on together.
const TOGETHER: usize = 256;
/// How many bytes after the last answer are counted before the rest is left unread.
const EXTRA: usize = 1 << 20;

/// A comparison of some cases of a call, and what came of it so far.
struct Comparison<'a> {
    call: &'a Call,
    cases: &'a Cases,
    outcome: Outcome,
}

/// Compares a program with the definition over some cases of a call, each arriving in one way alone if that is asked for.
pub fn compare(call: &Call, cases: &Arc<Cases>, numbers: Range<u64>, once: bool, program: &[OsString]) -> Outcome {
    match call.feeding {
        Feeding::OneRun(_) => compare_in_one_run(call, cases, numbers, program),
        Feeding::RunEach(arrivals) => compare_in_runs(call, cases, numbers, |number, case| {
            let input = Arc::new(case.input.clone());
            let arrivals = arrivals(cases, number, case, once);
            arrivals.into_iter().map(|arrival| Ok((arrival, run(program, &input, arrival)?))).collect()
        }),
    }
}

/// Compares a program that takes some cases one after another.
fn compare_in_one_run(call: &Call, cases: &Arc<Cases>, numbers: Range<u64>, program: &[OsString]) -> Outcome {
    let mut comparison = Comparison { call, cases, outcome: Outcome::default() };
    let failure = comparison.one_run(cases, numbers, program).err();
    comparison.outcome.failures.extend(failure);
    comparison.outcome
}

impl Comparison<'_> {
    /// Compares what a program told of a case, by the ways in which the case arrived.
    fn case(&mut self, number: u64, case: &Case, right: &Right, told: &[(Arrival, Answer)]) {
        let mut differs = false;
        for (arrival, answer) in told {
            if !is_right(right, answer) {
                differs = true;
                let (kind, bytes, way) = (self.cases.kinds[case.kind].name, case.input.len(), arrival.name());
                let how = if case.how.is_empty() { "drawn" } else { &case.how };
                let what = || difference(self.call, &self.cases.definition, &case.input, right, answer);
                self.outcome.differs(number, || format!("{kind}; {how}; {bytes} bytes {way}\n{}", what()));
            }
        }
        self.outcome.count(case.kind, right, differs);
    }

    /// Runs a program on some cases one after another, or tells what kept that from being done.
    fn one_run(&mut self, cases: &Arc<Cases>, numbers: Range<u64>, program: &[OsString]) -> Result<(), String> {
        let (sender, made) = channel();
        let fed = (Arc::clone(cases), numbers.clone());
        let mut started = start(program, move |input| feed(&fed.0, fed.1, &sender, input))?;
        self.outcome.runs.insert(Arrival::Pipe.name(), 1);
        let answers = self.answers(numbers, &made, &mut started.output);
        let end = started.end();
        if let (Err(failure), Ok((complaint, status))) = (&answers, &end) {
            return Err(format!("{failure}; the program ended with status {status} and said {}", shown(complaint)));
        }
        answers?;
        match end? {
            (complaint, 0) if complaint.is_empty() => Ok(()),
            (complaint, status) => Err(format!("the program ended with status {status} and said {}", shown(&complaint))),
        }
    }

    /// Compares the answers that come in with the right ones to the same cases.
    fn answers(&mut self, numbers: Range<u64>, made: &Receiver<Vec<Case>>, output: &mut dyn Read) -> Result<(), String> {
        let unread = |error: io::Error| format!("the answers cannot be read: {error}");
        let mut told = [(Arrival::Pipe, Answer::default())];
        for (number, case) in numbers.clone().zip(made.iter().flatten()) {
            let right = (self.call.right)(&self.cases.definition, &case.input);
            let answer = &mut told[0].1.output;
            answer.resize(right.answer.output.len(), 0);
            let came = fill(output, answer).map_err(unread)?;
            if came < answer.len() {
                let whole = number - numbers.start;
                return Err(format!("the answers end too early: {whole} whole ones and {came} bytes came"));
            }
            self.case(number, &case, &right, &told);
        }
        match fill(output, &mut vec![0; EXTRA]).map_err(unread)? {
            0 => Ok(()),
            came => Err(format!("the program wrote {came} bytes or more after its answers")),
        }
    }
}

/// Writes some cases, after handing them on to be compared.
fn feed(cases: &Cases, numbers: Range<u64>, sender: &Sender<Vec<Case>>, input: &mut dyn Write) -> io::Result<()> {
    for first in numbers.clone().step_by(TOGETHER) {
        let last = numbers.end.min(first + TOGETHER as u64);
        let made: Vec<Case> = (first..last).map(|number| cases.case(number)).collect();
        let bytes = made.iter().map(|case| &case.input[..]).collect::<Vec<&[u8]>>().concat();
        // Nobody takes them any more only where the run was given up.
        let _ = sender.send(made);
        input.write_all(&bytes)?;
    }
    Ok(())
}

/// Compares runs on some cases, of which several are made at a time.
fn compare_in_runs<R>(call: &Call, cases: &Cases, numbers: Range<u64>, run: R) -> Outcome
where
    R: Fn(u64, &Case) -> Result<Vec<(Arrival, Answer)>, String> + Sync,
{
    let next = AtomicU64::new(numbers.start);
    let failed = AtomicBool::new(false);
    let part = || {
        let mut comparison = Comparison { call, cases, outcome: Outcome::default() };
        while !failed.load(Ordering::SeqCst) {
            let number = next.fetch_add(1, Ordering::SeqCst);
            if number >= numbers.end {
                break;
            }
            let case = cases.case(number);
            match run(number, &case) {
                Ok(told) => {
                    comparison.case(number, &case, &(call.right)(&cases.definition, &case.input), &told);
                    told.iter().for_each(|(way, _)| *comparison.outcome.runs.entry(way.counted()).or_default() += 1);
                }
                Err(failure) => {
                    failed.store(true, Ordering::SeqCst);
                    comparison.outcome.failures.push(format!("case {number}, {}: {failure}", case.how));
                }
            }
        }
        comparison.outcome
    };
    let parts: Vec<Outcome> = thread::scope(|scope| {
        let threads: Vec<_> = (0..AT_A_TIME).map(|_| scope.spawn(part)).collect();
        threads.into_iter().map(|thread| thread.join().expect("a part of the comparison ends well")).collect()
    });
    let mut whole = Outcome::default();
    parts.into_iter().for_each(|part| whole.add(part));
    whole
}
