//! What a call is: how its cases are made and given, what the right answer is, and what is counted and shown of it.

use crate::cases::kinds::{Case, Cases};
use crate::definition::values::Definition;
use crate::running::arrival::Arrival;
use std::io::{self, Read};

/// What a run of a program comes to.
#[derive(Clone, Debug, Default, PartialEq, Eq)]
pub struct Answer {
    /// What it writes.
    pub output: Vec<u8>,
    /// What it complains of.
    pub complaint: Vec<u8>,
    /// The status it ends with, less than 0 where a signal ends it.
    pub status: i32,
}

/// The right answer to a case.
pub struct Right {
    /// What a program has to do.
    pub answer: Answer,
    /// What it has to write by another way to find it, and the name of that way.
    pub other_way: Option<(&'static str, Vec<u8>)>,
    /// What is counted, each under the name of its column.
    pub counts: Vec<(&'static str, u64)>,
}

impl Right {
    /// The right answer that is an output alone.
    pub fn output(output: Vec<u8>, counts: Vec<(&'static str, u64)>) -> Right {
        Right { answer: Answer { output, ..Answer::default() }, other_way: None, counts }
    }
}

/// Reads the next case of an input, or nothing where the input has ended.
type Next = fn(&Definition, &mut dyn Read) -> io::Result<Option<Vec<u8>>>;

/// How a program gets its cases.
#[derive(Clone, Copy)]
pub enum Feeding {
    /// In one run, one after another; each is answered with as many bytes as are right.
    OneRun(Next),
    /// In a run for each way to arrive of each case, or for one of these ways if each case is to be run once.
    RunEach(fn(&Cases, u64, &Case, bool) -> Vec<Arrival>),
}

/// Lines about what a case gives.
type Given = fn(&Definition, &[u8]) -> Vec<String>;

/// What an answer to a case tells, thing by thing: its name and its value.
type Told = fn(&Definition, &[u8], &[u8]) -> Vec<(String, String)>;

/// A call, described once.
pub struct Call {
    /// Its name on the command line.
    pub name: &'static str,
    /// What its cases are.
    pub things: &'static str,
    /// What is counted, in the groups in which the report has it.
    pub columns: &'static [&'static [&'static str]],
    /// The counted things that the summary tells.
    pub summary: &'static [&'static str],
    /// How many random cases there are where no number is named.
    pub random: u64,
    /// Its cases under a seed, with so many random ones.
    pub cases: fn(&Definition, u64, u64) -> Cases,
    /// How a program gets them.
    pub feeding: Feeding,
    /// The right answer to a case.
    pub right: fn(&Definition, &[u8]) -> Right,
    /// What a case gives, for a reader.
    pub given: Given,
    /// What an answer tells, for a reader.
    pub told: Told,
}
