//! Bench sheets of good lines that are cut at every byte: between two reads, between three, and by the end of the input.

use crate::cases::draw::Draw;
use crate::cases::drawn::event_by_row;
use crate::cases::kinds::Gathered;
use crate::cases::lines::{Form, AT_HAND};
use crate::cases::sheet_draws::lines_of_width;
use crate::cases::sheet_pairs::to_sd;
use crate::cases::text::{fields_of, line_of, Fields};
use crate::definition::codes::ALL_STATES;
use crate::definition::rows::Row;
use crate::definition::sheet::CRLF;
use crate::definition::steps::step;
use crate::definition::values::Definition;

/// How many events are drawn for each response, of which the one with the most names that are missing is taken.
const TRIES: usize = 60;

/// A pair of so many digits.
fn pair_of(definition: &Definition, draw: &mut Draw, digits: usize) -> usize {
    let least = if digits == 1 { 0 } else { 10_usize.pow(digits as u32 - 1) };
    least + draw.place(definition.most_pairs.min(10_usize.pow(digits as u32)) - least)
}

/// Good lines in which every name of every column stands, of pairs of all lengths: for each response one that is explained, some with
/// the names that no row has, and the longest and the shortest line.
pub fn lines_of_all_names(form: &Form, draw: &mut Draw) -> Vec<Vec<u8>> {
    let (definition, columns) = (form.definition, form.columns());
    let mut missing: Vec<Vec<&str>> = columns.iter().map(|column| form.names(column)).collect();
    missing[0].clear();
    let mut lines: Vec<Vec<u8>> = Vec::new();
    let mut take = |missing: &mut Vec<Vec<&str>>, fields: Fields| {
        missing.iter_mut().zip(&fields).for_each(|(names, field)| names.retain(|name| name.as_bytes() != field));
        lines.push(line_of(&fields));
    };
    for (n, response) in definition.responses().into_iter().enumerate() {
        let rows: Vec<&Row> = definition.rows.iter().filter(|row| row.response == response).collect();
        let pair = pair_of(definition, draw, 1 + n % definition.pair_digits);
        let mut best: Option<(usize, Fields)> = None;
        for _ in 0..TRIES {
            let row = draw.one_of(&rows);
            let event = event_by_row(definition, draw, row, false);
            let fields = form.event_fields(pair, &event);
            let is_missing = |(names, field): &(&Vec<&str>, &Vec<u8>)| names.iter().any(|name| name.as_bytes() == &field[..]);
            let new = missing.iter().zip(&fields).filter(is_missing).count();
            if step(definition, &event, ALL_STATES) != 0 && best.as_ref().is_none_or(|(most, _)| new > *most) {
                best = Some((new, fields));
            }
        }
        take(&mut missing, best.expect("a response has an explained event").1);
    }
    while missing.iter().any(|names| !names.is_empty()) {
        let digits = 1 + draw.place(definition.pair_digits);
        let pair = pair_of(definition, draw, digits).to_string();
        let changes: Vec<(&str, &[u8])> =
            columns.iter().zip(&missing).filter_map(|(column, names)| Some((*column, names.last()?.as_bytes()))).collect();
        // The columns about the forward follow each other.
        take(&mut missing, fields_of(&form.plain_with(&[&[("pair", pair.as_bytes())], &changes[..]].concat())));
    }
    lines.extend([form.of_length(definition.longest_line), form.of_length(0)]);
    lines
}

/// So many lines that have fields of the same lengths as a good one, with other pairs and flags.
fn alike(form: &Form, line: &[u8], count: usize) -> Vec<Vec<u8>> {
    let columns = form.columns();
    let digits = fields_of(line)[0].len();
    let least = if digits == 1 { 0 } else { 10_usize.pow(digits as u32 - 1) };
    let below = form.definition.most_pairs.min(10_usize.pow(digits as u32));
    let other = |n: usize| {
        let mut fields = fields_of(line);
        fields[0] = (least + (n + 1) * 1_237 % (below - least)).to_string().into_bytes();
        for (bit, flag) in ["RetToSrc", "DoNotGoToSD", "excl"].into_iter().enumerate() {
            let place = columns.iter().position(|column| *column == flag).expect("a flag has a column");
            fields[place] = vec![b'0' + (n >> bit & 1) as u8];
        }
        line_of(&fields)
    };
    (0..count).map(other).collect()
}

/// A line that is as long as the header, so that all lines of a sheet of such ones begin at multiples of one length.
fn as_long_as_the_header(form: &Form, draw: &mut Draw) -> Vec<u8> {
    let pairs = [form.definition.most_pairs - 1];
    lines_of_width(form, draw, form.definition.header.len(), 1, &pairs).remove(0)
}

/// Into how many sheets the lines of all names are put.
const SHEETS: usize = 3;
/// How many lines that are as long as the header a sheet has that is cut.
const FEW: usize = 12;
/// How many such lines a sheet has that arrives in pieces of each length.
const MANY: usize = 22;
/// How many lines stand before one that the input ends in.
const BEFORE_THE_END: usize = 5;

/// The first of some lines, as many as have many bytes together.
fn up_to_many(lines: impl Iterator<Item = Vec<u8>>) -> Vec<Vec<u8>> {
    let mut first: Vec<Vec<u8>> = Vec::new();
    for line in lines {
        if first.concat().len() >= AT_HAND {
            break;
        }
        first.push(line);
    }
    first
}

/// Adds sheets of good lines that are to be cut at every byte: lines of all names with others before them and with pairs of theirs
/// again behind them, and lines that are as long as the header.
pub fn cut_sheets(form: &Form, sheets: &mut Gathered, seed: u64) {
    let mut draw = Draw::new(seed, 100);
    let lines = lines_of_all_names(form, &mut draw);
    let part = lines.len().div_ceil(SHEETS);
    for (n, some) in lines.chunks(part).enumerate() {
        let others = lines[(n + 1) * part % lines.len()..].iter().chain(&lines).cloned();
        let again = some.iter().map(|line| to_sd(form, &String::from_utf8_lossy(&fields_of(line)[0])));
        let all = [up_to_many(others), some.to_vec(), up_to_many(again)].concat();
        sheets.add(format!("lines {} of all names", n + 1), form.sheet(&all));
    }
    let line = as_long_as_the_header(form, &mut draw);
    sheets.add("lines as long as the header", form.sheet(&alike(form, &line, FEW)));
}

/// Adds a sheet of lines that are as long as the header, which is to be cut in one of them and at every byte behind it.
pub fn twice_cut_sheets(form: &Form, sheets: &mut Gathered, seed: u64) {
    let line = as_long_as_the_header(form, &mut Draw::new(seed, 101));
    // One line more, as the same line may be drawn as for the sheet that is cut once.
    sheets.add("lines as long as the header", form.sheet(&alike(form, &line, FEW + 1)));
}

/// Where a sheet that is cut twice is cut first, which is in its third line.
pub fn first_cut(definition: &Definition) -> usize {
    2 * (definition.header.len() + CRLF.len()) + definition.header.len() / 2
}

/// Adds sheets that are to arrive in pieces of each length.
pub fn even_pieces(form: &Form, sheets: &mut Gathered, seed: u64) {
    sheets.add("lines of all names", form.sheet(&lines_of_all_names(form, &mut Draw::new(seed, 102))));
    let line = as_long_as_the_header(form, &mut Draw::new(seed, 103));
    sheets.add("lines as long as the header", form.sheet(&alike(form, &line, MANY)));
}

/// Adds sheets that end at every byte of their last line, be there a CRLF or not, after lines with fields of the same lengths.
pub fn ends_in_lines(form: &Form, sheets: &mut Gathered, seed: u64) {
    let wide = as_long_as_the_header(form, &mut Draw::new(seed, 104));
    let lines = [&form.typical()[..], &[("as long as the header", wide)]].concat();
    for (how, line) in lines {
        let before = form.sheet(&alike(form, &line, BEFORE_THE_END));
        for end in 0..=line.len() {
            for crlf in [&b""[..], CRLF] {
                let with = if crlf.is_empty() { "" } else { " and a CRLF" };
                sheets.add(format!("{end} bytes of a line, {how}{with}"), [&before[..], &line[..end], crlf].concat());
            }
        }
        sheets.add(format!("a line, {how}, and a CR"), [&before[..], &line, b"\r"].concat());
    }
}

/// The places at which a sheet that ends in a line is cut: in the second line and in the fifth, if its lines are equally long.
pub fn cuts_before_the_end(definition: &Definition, sheet: &[u8]) -> (usize, usize) {
    let begin = definition.header.len() + CRLF.len();
    let rest = sheet.len().saturating_sub(begin);
    (begin + rest * 3 / 11, begin + rest * 9 / 11)
}
