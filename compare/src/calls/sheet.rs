//! A bench sheet answered by a program.

use crate::calls::words::{counts_of, EVENTS, REFUSALS};
use crate::cases::draw::Draw;
use crate::cases::kinds::{Case, Cases};
use crate::cases::sheet_cuts::{cuts_before_the_end, first_cut};
use crate::cases::sheet_pairs::SMALL_PIECE;
use crate::cases::sheets::sheets;
use crate::definition::sheet::{answer, lines};
use crate::definition::values::Definition;
use crate::running::arrival::{Arrival, LONGEST_PIECE};
use crate::running::call::{Call, Feeding, Right};
use crate::running::report::shown;

/// The most bytes of a sheet that arrives in small pieces.
const SMALL: usize = 4_096;
/// The most bytes of the pieces of each length.
const LONGEST_EVEN: usize = 400;

/// The call of a bench sheet: the whole input is answered with the whole output.
pub const CALL: Call = Call {
    name: "sheet",
    things: "sheets",
    columns: &[&["lines", "accepted", "refused 3", "refused 6", "refused 7", "refused 8"], EVENTS],
    summary: &["lines"],
    random: 1_000,
    cases: sheets,
    feeding: Feeding::RunEach(arrivals),
    right,
    given: |_, _| Vec::new(),
    told,
};

/// The right answer.
fn right(definition: &Definition, sheet: &[u8]) -> Right {
    let own = answer(definition, sheet);
    let refusal = own.refusal.map_or(0, |(number, _)| usize::from(number));
    let mut counts = counts_of(own.told.into_iter());
    counts.extend([("lines", own.lines as u64), (REFUSALS[refusal], 1)]);
    Right::output(own.output, counts)
}

/// The ways in which a sheet arrives, or one of them in turn.
fn arrivals(cases: &Cases, number: u64, case: &Case, once: bool) -> Vec<Arrival> {
    let kind = cases.kinds[case.kind].name;
    // Only out of a file are the borders between two reads where they are looked for.
    let borders = kind == "borders of reads";
    let whole = if borders || number % 4 == 0 { Arrival::File } else { Arrival::Pipe };
    let any = Arrival::AnyPieces(Draw::new(cases.seed, number).next());
    let small = case.input.len() <= SMALL;
    let (header, end) = (cases.definition.header.len(), case.input.len());
    let mut arrivals = match kind {
        "every pair" | "a million drawn" | "a million lines" => vec![whole],
        "cut at every byte" => (header..=end).map(Arrival::Cut).collect(),
        "cut twice" => {
            let first = first_cut(&cases.definition);
            (first..=end).map(|second| Arrival::CutTwice(first, second)).collect()
        }
        "even pieces" => (1..=LONGEST_EVEN).map(Arrival::Pieces).collect(),
        "ends in lines" => {
            let (first, second) = cuts_before_the_end(&cases.definition, &case.input);
            vec![whole, Arrival::CutTwice(first, second)]
        }
        // One of twenty is cut anywhere, and one of twenty arrives in pieces of any length.
        "damaged bytes" | "damaged fields" | "damaged names" | "byte values" => match number % 20 {
            3 => vec![whole, Arrival::Cut(header + Draw::new(cases.seed, number).place(end - header))],
            15 => vec![whole, any],
            _ => vec![whole],
        },
        "drawn" | "drawn, damaged" | "anything" => vec![whole, any],
        "the example" => vec![Arrival::Pipe, Arrival::File, Arrival::Pieces(1), Arrival::Pieces(SMALL_PIECE)],
        _ if small => vec![whole, Arrival::Pieces(1), Arrival::Pieces(SMALL_PIECE)],
        _ => vec![whole, Arrival::Pieces(LONGEST_PIECE)],
    };
    let without_any = ["names not known", "each byte value", "cut at every byte", "cut twice", "even pieces", "ends in lines"];
    let without_any = [&without_any[..], &["damaged bytes", "damaged fields", "damaged names", "byte values"]].concat();
    if number % 5 == 0 && arrivals.len() > 1 && !arrivals.contains(&any) && !without_any.contains(&kind) {
        arrivals.push(any);
    }
    match once {
        true => vec![arrivals[if borders { 0 } else { number as usize % arrivals.len() }]],
        false => arrivals,
    }
}

/// The lines of an output, each with the sheet's line that it answers.
fn told(_: &Definition, sheet: &[u8], output: &[u8]) -> Vec<(String, String)> {
    let given = lines(sheet);
    let told = |(n, line): (usize, &[u8])| {
        let given = given.get(n).map_or("no line".to_string(), |line| shown(line));
        (format!("line {}, to {given}", n + 1), shown(line))
    };
    output.split_inclusive(|byte| *byte == b'\n').enumerate().map(told).collect()
}
