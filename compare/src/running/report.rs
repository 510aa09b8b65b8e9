//! Counts, differences, and the report about them.

use crate::cases::kinds::Cases;
use crate::definition::values::Definition;
use crate::running::call::{Answer, Call, Right};
use std::collections::BTreeMap;

/// How many differences are shown.
const SHOWN: usize = 3;
/// How many lines about a case, and how many things in which answers differ, are shown.
const SHOWN_LINES: usize = 70;
/// How many bytes of a line are shown.
const SHOWN_BYTES: usize = 170;

/// How the cases of one kind came out.
#[derive(Clone, Debug, Default)]
pub struct Count {
    /// Cases compared.
    pub compared: u64,
    /// Cases on which an answer differs from the right one.
    pub differ: u64,
    /// What else was counted, by its name.
    counted: Vec<(&'static str, u64)>,
}

impl Count {
    /// What was counted under a name.
    pub fn of(&self, name: &str) -> u64 {
        self.counted.iter().find(|(known, _)| *known == name).map_or(0, |(_, number)| *number)
    }

    /// Counts under a name.
    fn add(&mut self, name: &'static str, number: u64) {
        match self.counted.iter_mut().find(|(known, _)| *known == name) {
            Some((_, sum)) => *sum += number,
            None => self.counted.push((name, number)),
        }
    }

    /// Counts another count in.
    fn add_all(&mut self, other: &Count) {
        self.compared += other.compared;
        self.differ += other.differ;
        other.counted.iter().for_each(|(name, number)| self.add(name, *number));
    }
}

/// What came of a comparison.
#[derive(Default)]
pub struct Outcome {
    /// The counts, a kind each.
    pub counts: BTreeMap<usize, Count>,
    /// How many runs there were, by the way in which the input arrived.
    pub runs: BTreeMap<String, u64>,
    /// The first answers that differ, each with the number of its case and what a reader is shown.
    pub first: Vec<(u64, String)>,
    /// What kept cases from being compared, in plain words.
    pub failures: Vec<String>,
}

impl Outcome {
    /// Counts a case in.
    pub fn count(&mut self, kind: usize, right: &Right, differs: bool) {
        let count = self.counts.entry(kind).or_default();
        count.compared += 1;
        count.differ += u64::from(differs);
        right.counts.iter().for_each(|(name, number)| count.add(name, *number));
    }

    /// Keeps what is shown of an answer that differs, if it is among the first.
    pub fn differs(&mut self, number: u64, shown: impl FnOnce() -> String) {
        if self.first.len() < SHOWN {
            self.first.push((number, shown()));
        }
    }

    /// Takes in the outcome of another part of the same comparison.
    pub fn add(&mut self, part: Outcome) {
        for (kind, other) in part.counts {
            self.counts.entry(kind).or_default().add_all(&other);
        }
        part.runs.into_iter().for_each(|(name, runs)| *self.runs.entry(name).or_default() += runs);
        self.first.extend(part.first);
        self.first.sort();
        self.first.truncate(SHOWN);
        self.failures.extend(part.failures);
    }

    /// The counts of all kinds together.
    pub fn all(&self) -> Count {
        let mut all = Count::default();
        self.counts.values().for_each(|count| all.add_all(count));
        all
    }

    /// Whether every case was compared, none differs and nothing else went wrong.
    pub fn all_agree(&self, cases: &Cases) -> bool {
        let all = self.all();
        self.failures.is_empty() && all.compared == cases.total() && all.differ == 0
    }

    /// What came of the comparison, for a reader.
    pub fn report(&self, call: &Call, cases: &Cases) -> String {
        let all = self.all();
        let none = Count::default();
        let kinds = cases.kinds.iter().enumerate();
        let counts = kinds.map(|(n, kind)| (kind.name, self.counts.get(&n).unwrap_or(&none)));
        let lines: Vec<(&str, &Count)> = counts.chain([("all", &all)]).collect();
        let mut text = format!("{}, seed {}\n", call.things, cases.seed);
        for group in call.columns {
            text += &table(call.things, group, &lines);
        }
        let runs: Vec<String> = self.runs.iter().map(|(name, runs)| format!("{runs} {name}")).collect();
        text += &format!("runs: {}\n", runs.join(", "));
        for (number, shown) in &self.first {
            text += &format!("difference, case {number}: {shown}");
        }
        self.failures.iter().for_each(|failure| text += &format!("failure: {failure}\n"));
        if !self.failures.is_empty() || all.compared != cases.total() {
            text += &format!("compare: failed, of {} cases ", cases.total());
        } else {
            text += "compare: ";
        }
        let told: String = call.summary.iter().map(|name| format!(", {} {name}", all.of(name))).collect();
        let runs: u64 = self.runs.values().sum();
        text + &format!("{} {}{told}, {runs} runs, {} differ\n", all.compared, call.things, all.differ)
    }
}

/// A table of counted things by kind.
fn table(things: &str, columns: &[&str], lines: &[(&str, &Count)]) -> String {
    let mut text = format!("{things:<20}{:>9}{:>8}", "compared", "differ");
    columns.iter().for_each(|name| text += &format!("{name:>13}"));
    text += "\n";
    for (name, count) in lines {
        text += &format!("{name:<20}{:>9}{:>8}", count.compared, count.differ);
        columns.iter().for_each(|name| text += &format!("{:>13}", count.of(name)));
        text += "\n";
    }
    text
}

/// What a program has to write, by each way to find it that finds something else.
fn outputs(right: &Right) -> impl Iterator<Item = (&'static str, &Vec<u8>)> {
    let other = right.other_way.iter().map(|(name, output)| (*name, output));
    [("compare", &right.answer.output)].into_iter().chain(other.filter(|(_, output)| **output != right.answer.output))
}

/// Whether two complaints are both none, or begin with the same line.
fn same_complaint(one: &[u8], other: &[u8]) -> bool {
    let first = |complaint: &[u8]| complaint.split(|byte| *byte == b'\n').next().map(<[u8]>::to_vec);
    one.is_empty() == other.is_empty() && first(one) == first(other)
}

/// Whether an answer is the right one.
pub fn is_right(right: &Right, other: &Answer) -> bool {
    outputs(right).all(|(_, output)| *output == other.output)
        && other.status == right.answer.status
        && same_complaint(&right.answer.complaint, &other.complaint)
}

/// What differs in an answer from the right one, for a reader.
pub fn difference(call: &Call, definition: &Definition, input: &[u8], right: &Right, other: &Answer) -> String {
    let Answer { complaint, status, .. } = &right.answer;
    let mut text = String::new();
    if other.status != *status {
        text += &format!("  the program ended with status {}, and not with {status}\n", other.status);
    }
    if !same_complaint(complaint, &other.complaint) {
        text += &format!("  it complained {}, and not {}\n", shown(&other.complaint), shown(complaint));
    }
    for (name, output) in outputs(right).filter(|(_, output)| **output != other.output) {
        let given = (call.given)(definition, input);
        given.iter().take(SHOWN_LINES).for_each(|line| text += &format!("  {line}\n"));
        let [ours, theirs] = [output, &other.output].map(|output| (call.told)(definition, input, output));
        text += &things_that_differ(name, &ours, &theirs);
    }
    text
}

/// The first things that a way to find an output and a program tell differently.
fn things_that_differ(name: &str, ours: &[(String, String)], theirs: &[(String, String)]) -> String {
    let nothing = (String::new(), "nothing".to_string());
    let differ = (0..ours.len().max(theirs.len())).filter(|n| ours.get(*n) != theirs.get(*n));
    let line = |n: usize| {
        let [(thing, our), (other_thing, their)] = [ours, theirs].map(|told| told.get(n).unwrap_or(&nothing));
        format!("  {}: {name} has {our}, program has {their}\n", if thing.is_empty() { other_thing } else { thing })
    };
    differ.take(SHOWN_LINES).map(line).collect()
}

/// Bytes for a reader, or their beginning where there are many.
pub fn shown(bytes: &[u8]) -> String {
    match bytes.get(..SHOWN_BYTES) {
        Some(first) if bytes.len() > SHOWN_BYTES => {
            format!("\"{}\" and {} bytes more", first.escape_ascii(), bytes.len() - SHOWN_BYTES)
        }
        _ => format!("\"{}\"", bytes.escape_ascii()),
    }
}
