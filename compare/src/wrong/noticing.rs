//! Which case notices a wrong judge first.

use crate::cases::kinds::Cases;
use crate::definition::values::Definition;
use crate::running::arrival::Arrival;
use crate::running::call::{Answer, Call, Feeding};
use crate::running::report::is_right;

/// A judge that does one thing wrong.
pub struct Wrong {
    /// The name of the call that it answers.
    pub call: &'static str,
    /// What it does.
    pub name: &'static str,
    /// How it comes to its answers.
    pub flaw: Flaw,
}

/// How a wrong judge comes to its answers.
pub enum Flaw {
    /// It goes by a definition of which a value is another.
    Value(fn(&mut Definition)),
    /// It takes the case for another.
    Given(fn(&Definition, &mut Vec<u8>)),
    /// It gets something else of what arrives in a way.
    Gets(fn(Arrival, &[u8]) -> Vec<u8>),
    /// It tells something else than the right answer.
    Tells(fn(&Definition, &[u8], &mut Answer)),
}

impl Wrong {
    /// What it answers to a case that arrives in a way and has this right answer, the definition being the one it goes by.
    fn answer(&self, call: &Call, definition: &Definition, input: &[u8], arrival: Arrival, right: &Answer) -> Answer {
        // Only a judge that goes by another definition answers the same input otherwise.
        let answer_to = |other: &[u8]| if other == input { right.clone() } else { (call.right)(definition, other).answer };
        match self.flaw {
            Flaw::Value(_) => (call.right)(definition, input).answer,
            Flaw::Given(change) => {
                let mut other = input.to_vec();
                change(definition, &mut other);
                answer_to(&other)
            }
            Flaw::Gets(gets) => answer_to(&gets(arrival, input)),
            Flaw::Tells(change) => {
                let mut answer = right.clone();
                change(definition, input, &mut answer);
                answer
            }
        }
    }

    /// The definition that it goes by.
    fn definition(&self, right: &Definition) -> Definition {
        let mut definition = right.clone();
        if let Flaw::Value(change) = self.flaw {
            change(&mut definition);
        }
        definition
    }
}

/// How many cases of each kind are tried.
const EACH: u64 = 2_000;

/// The cases of a call that wrong judges are tried with, fewer of them random than are usual.
pub fn few_cases(call: &Call) -> Cases {
    (call.cases)(&Definition::now(), 1, call.random / 20)
}

/// The numbers of the cases that are tried: of each kind the last, and others from all over it.
fn sample(cases: &Cases) -> impl Iterator<Item = u64> + '_ {
    let kinds = cases.kinds.iter().enumerate().filter(|(_, kind)| kind.count > 0);
    kinds.flat_map(move |(n, kind)| {
        let last = cases.first(n) + kind.count - 1;
        // The prime divides no count, so that none is tried twice.
        (0..kind.count.min(EACH)).map(move |k| last - k * 1_000_003 % kind.count)
    })
}

/// The case that notices each wrong judge of a call, in words, if one of those tried does.
pub fn noticed<'a>(call: &Call, cases: &Cases, wrongs: &'a [Wrong]) -> Vec<(&'a Wrong, Option<String>)> {
    let of_call = wrongs.iter().filter(|wrong| wrong.call == call.name);
    let mut judges: Vec<_> = of_call.map(|wrong| (wrong, wrong.definition(&cases.definition), None)).collect();
    for number in sample(cases) {
        if judges.iter().all(|(_, _, noticed)| noticed.is_some()) {
            break;
        }
        let case = cases.case(number);
        let right = (call.right)(&cases.definition, &case.input);
        let arrivals = match call.feeding {
            Feeding::OneRun(_) => vec![Arrival::Pipe],
            Feeding::RunEach(arrivals) => arrivals(cases, number, &case, false),
        };
        for (wrong, definition, noticed) in judges.iter_mut().filter(|(_, _, noticed)| noticed.is_none()) {
            // Only to a judge that gets something else the way matters.
            let ways = if matches!(wrong.flaw, Flaw::Gets(_)) { &arrivals[..] } else { &arrivals[..1] };
            let differs = |way: &Arrival| !is_right(&right, &wrong.answer(call, definition, &case.input, *way, &right.answer));
            let way = ways.iter().find(|way| differs(way));
            *noticed = way.map(|way| {
                let how = [&case.how, &format!("case {number}")][usize::from(case.how.is_empty())].clone();
                format!(
                    "{}: {how}{}",
                    cases.kinds[case.kind].name,
                    if ways.len() > 1 { format!(", {}", way.name()) } else { String::new() }
                )
            });
        }
    }
    judges.into_iter().map(|(wrong, _, noticed)| (wrong, noticed)).collect()
}
