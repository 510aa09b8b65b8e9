//! The histories of a short trace, enumerated one by one, and the answer that they alone give.

use crate::definition::codes::{holds, EXPLAINED, NOT_JUDGED, UNEXPLAINED};
use crate::definition::event::{duty, ACCEPTED};
use crate::definition::steps::permitted;
use crate::definition::trace::{event_of, whole_events, Judged, Lent};
use crate::definition::values::Definition;

/// A state that a pair starts in, and a tag state and a state after for each of its events so far.
struct History {
    start: u8,
    steps: Vec<(u8, u8)>,
}

impl History {
    /// The state in which it ends.
    fn end(&self) -> u8 {
        self.steps.last().map_or(self.start, |(_, after)| *after)
    }
}

/// Goes through a history and all that go on from it over the events that a pair still has.
fn go_through(definition: &Definition, history: &mut History, events: &[&[u8]], visit: &mut dyn FnMut(&History)) {
    visit(history);
    if let Some((event, later)) = events.split_first() {
        let before = history.end();
        for tag in 0..3 {
            for after in 0..7 {
                if permitted(definition, event, tag, before, after) {
                    history.steps.push((tag, after));
                    go_through(definition, history, later, visit);
                    history.steps.pop();
                }
            }
        }
    }
}

/// How many histories of a pair end in each state, after none of its events, after one of them, and so on.
fn ends(definition: &Definition, set: u8, events: &[&[u8]]) -> Vec<[u64; 7]> {
    let mut ends = vec![[0; 7]; events.len() + 1];
    for start in (0..7).filter(|start| holds(set, *start)) {
        let mut history = History { start, steps: Vec::new() };
        go_through(definition, &mut history, events, &mut |history: &History| {
            ends[history.steps.len()][usize::from(history.end())] += 1;
        });
    }
    ends
}

/// The set of the states in which some history ends.
fn set_of(ends: &[u64; 7]) -> u8 {
    (0..7).filter(|state| ends[*state] > 0).map(|state| 1 << state).sum()
}

/// The answer that the histories of an accepted trace give, and how many there are, those of each number of events.
pub fn enumerate(definition: &Definition, lent: &Lent) -> (Judged, u64) {
    let mut told = lent.clone();
    let mut histories = 0;
    let n = whole_events(definition, lent);
    for pair in 0..lent.table.len() {
        let numbers: Vec<usize> = (0..n).filter(|event| lent.pair(*event) == Some(pair)).collect();
        let events: Vec<&[u8]> = numbers.iter().map(|event| event_of(definition, lent, *event)).collect();
        let ends = ends(definition, lent.table[pair], &events);
        let sets: Vec<u8> = ends.iter().map(set_of).collect();
        for (so_far, event) in numbers.into_iter().enumerate() {
            let (reached, passed) = (sets[so_far], sets[so_far + 1]);
            (told.verdicts[event], told.duties[event]) = match (reached, passed) {
                (0, _) => (NOT_JUDGED, 0),
                (_, 0) => (UNEXPLAINED, 0),
                _ => (EXPLAINED, duty(definition, events[so_far], reached)),
            };
            told.after_sets[event] = passed;
        }
        told.table[pair] = sets[events.len()];
        histories += ends.iter().flatten().sum::<u64>();
    }
    (Judged { refusal: ACCEPTED, place: n, lent: told }, histories)
}
