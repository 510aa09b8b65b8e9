//! Bench sheets drawn at random: good ones, damaged ones, long ones, and ones whose lines borders between reads fall in.

use crate::cases::alike::alike_pairs;
use crate::cases::damage::{any_byte, damage_bytes};
use crate::cases::draw::Draw;
use crate::cases::drawn::{explained_event, lively_pair};
use crate::cases::kinds::{Gathered, Made};
use crate::cases::lines::{without_crlf, Form, OTHER_ENDS, OTHER_REQUESTS, PAIR_FIELDS};
use crate::cases::text::{fields_of, line_of};
use crate::definition::codes::{ALL_STATES, NOTHING};
use crate::definition::sheet::{Reader, CRLF};
use crate::definition::steps::step;
use crate::definition::values::{Definition, PAIRS_BEFORE_Q6};

/// What the lines of a sheet without damage are drawn to be.
#[derive(Clone, Copy)]
struct Shape {
    /// How many there are, the header apart.
    lines: usize,
    /// How many of a thousand lines are strays, which need not be explained.
    strays: u64,
    /// How many bytes each has, if all are to be equally long.
    width: Option<usize>,
}

/// Lines without damage, of pairs that come in an order that may hang on the table of sets.
fn lines_of_pairs<F>(form: &Form, draw: &mut Draw, shape: &Shape, mut order: F) -> Vec<Vec<u8>>
where
    F: FnMut(usize, &[u8]) -> usize,
{
    let reader = Reader::new(form.definition);
    let mut table = vec![ALL_STATES; form.definition.most_pairs];
    let mut lines = Vec::with_capacity(shape.lines);
    while lines.len() < shape.lines {
        let pair = order(lines.len(), &table);
        let line = any_line(form, draw, pair, table[pair], shape.strays);
        if shape.width.is_none_or(|width| width == line.len()) {
            let (_, event) = reader.fields(&line).expect("a line without damage can be read");
            table[pair] = step(form.definition, &event, table[pair]);
            lines.push(line);
        }
    }
    lines
}

/// A line of a pair that is mostly explained from the pair's set, unless it is a stray.
fn any_line(form: &Form, draw: &mut Draw, pair: usize, set: u8, strays: u64) -> Vec<u8> {
    let keeping = draw.one_in(2);
    let mut fields = form.event_fields(pair, &explained_event(form.definition, draw, set, keeping));
    if draw.below(1_000) < strays {
        for _ in 0..draw.one_of(&[1, 1, 1, 3]) {
            let n = 1 + draw.place(fields.len() - 1);
            fields[n] = draw.one_of(&form.names(form.columns()[n])).into();
        }
        form.agree_on_forward(&mut fields);
    }
    line_of(&fields)
}

/// Lines without damage, each of any of some pairs.
fn good_lines(form: &Form, draw: &mut Draw, shape: &Shape, pairs: &[usize]) -> Vec<Vec<u8>> {
    let mut order = Draw::new(draw.next(), 0);
    lines_of_pairs(form, draw, shape, |_, table| lively_pair(&mut order, pairs, table))
}

/// So many lines without damage that have this length, each of any of some pairs.
pub fn lines_of_width(form: &Form, draw: &mut Draw, width: usize, lines: usize, pairs: &[usize]) -> Vec<Vec<u8>> {
    good_lines(form, draw, &Shape { lines, strays: 0, width: Some(width) }, pairs)
}

/// Some pairs, of few digits as often as of many.
fn some_pairs(definition: &Definition, draw: &mut Draw, count: usize) -> Vec<usize> {
    let below: Vec<usize> = (1..=definition.pair_digits as u32).map(|digits| definition.most_pairs.min(10_usize.pow(digits))).collect();
    let pair = |_| {
        let below = draw.one_of(&below);
        draw.place(below)
    };
    (0..count).map(pair).collect()
}

/// A sheet of so many lines and pairs without damage, the last CRLF of which may be absent.
pub fn good(definition: &Definition, draw: &mut Draw, lines: usize, pairs: usize) -> Made {
    let form = Form::new(definition);
    let shape = Shape { lines, strays: draw.one_of(&[0, 20, 100, 300]), width: None };
    let some = some_pairs(definition, draw, pairs);
    let whole = form.sheet(&good_lines(&form, draw, &shape, &some));
    (format!("{lines} lines of {pairs} pairs"), if draw.one_in(4) { without_crlf(whole) } else { whole })
}

/// A line and what ends it.
type Ended = (Vec<u8>, Vec<u8>);

/// A sheet with damage to a line or two, to some bytes, or to both.
pub fn damaged(definition: &Definition, draw: &mut Draw) -> Made {
    let form = Form::new(definition);
    let shape = Shape { lines: 1 + draw.place(8), strays: 50, width: None };
    let pairs = some_pairs(definition, draw, 3);
    let lines = [vec![definition.header.into()], good_lines(&form, draw, &shape, &pairs)].concat();
    let mut parts: Vec<Ended> = lines.into_iter().map(|line| (line, CRLF.to_vec())).collect();
    if draw.one_in(4) {
        parts[shape.lines].1.clear();
    }
    let (to_lines, to_bytes) = draw.one_of(&[(1, 0), (1, 0), (1, 0), (2, 0), (0, 1), (0, 2), (1, 1)]);
    for _ in 0..to_lines {
        let n = if draw.one_in(30) { 0 } else { 1 + draw.place(parts.len() - 1) };
        damage_line(&form, draw, &mut parts, n);
    }
    let mut bytes: Vec<u8> = parts.into_iter().flat_map(|(line, end)| [line, end].concat()).collect();
    (0..to_bytes).for_each(|_| damage_bytes(draw, &mut bytes, &OTHER_ENDS));
    (format!("{} lines, damage to {to_lines} of them and {to_bytes} times to bytes", shape.lines), bytes)
}

/// Does damage to a line: to its fields, its length, its end or its bytes, or puts another before it.
fn damage_line(form: &Form, draw: &mut Draw, parts: &mut Vec<Ended>, n: usize) {
    let (line, end) = &mut parts[n];
    match draw.below(8) {
        0..=3 => damage_fields(form, draw, line),
        4 => {
            let length = if draw.one_in(3) { draw.place(400) } else { form.definition.longest_line - 3 + draw.place(7) };
            line.resize(length, draw.one_of(b"xxx,, 0?\r\n\0"));
        }
        5 => *end = draw.one_of(&OTHER_ENDS).to_vec(),
        6 => {
            let put = draw.one_of(&[&b""[..], b"", b"\r", b"\n", form.definition.header.as_bytes()]);
            parts.insert(n, (put.to_vec(), CRLF.to_vec()));
        }
        _ => damage_bytes(draw, line, &OTHER_ENDS),
    }
}

/// Does damage to a field of a line, or to the number or order of its fields.
fn damage_fields(form: &Form, draw: &mut Draw, line: &mut Vec<u8>) {
    let mut fields = fields_of(line);
    let (column, other) = (draw.place(fields.len()), draw.place(fields.len()));
    match draw.below(12) {
        0..=5 => fields[column] = strange_name(form, draw, column, &fields[column]),
        6..=8 => fields[0] = strange_pair(form.definition, draw, &fields[0]),
        9 => drop(fields.remove(column)),
        10 => fields.insert(column, fields[column].clone()),
        _ => fields.swap(column, other),
    }
    *line = line_of(&fields);
}

/// A field that a column probably doesn't know, often near the one that stood there.
fn strange_name(form: &Form, draw: &mut Draw, column: usize, field: &[u8]) -> Vec<u8> {
    let columns = form.columns();
    let mut name = field.to_vec();
    match draw.below(6) {
        0 => name.truncate(draw.place(field.len() + 1)),
        1 => name.insert(draw.place(field.len() + 1), any_byte(draw)),
        2 if !name.is_empty() => {
            let place = draw.place(name.len());
            name[place] = any_byte(draw);
        }
        3 => name = draw.one_of(&OTHER_REQUESTS).into(),
        4 => {
            let other = draw.one_of(&columns);
            name = draw.one_of(&form.names(other)).into();
        }
        _ => {
            let other = draw.one_of(&form.names(columns[column.min(columns.len() - 1)]));
            name.extend(&other.as_bytes()[..1 + draw.place(other.len())]);
        }
    }
    name
}

/// A field for a pair that is no pair, or any number, or has other digits than the one that stood there.
fn strange_pair(definition: &Definition, draw: &mut Draw, field: &[u8]) -> Vec<u8> {
    let digits = definition.pair_digits as u32;
    let number = match draw.below(5) {
        0 => return draw.one_of(&PAIR_FIELDS.split(' ').collect::<Vec<&str>>()).into(),
        1 => return other_digits(draw, field),
        2 => definition.most_pairs - 6 + draw.place(12),
        3 => definition.most_pairs + draw.place(10_usize.pow(digits) - definition.most_pairs),
        _ => {
            let below = draw.one_of(&[10, 100, 10_000, 100_000, 10_000_000]);
            draw.place(below)
        }
    };
    number.to_string().into_bytes()
}

/// A number's digits with one more, one fewer or another one, or with a zero before them.
fn other_digits(draw: &mut Draw, number: &[u8]) -> Vec<u8> {
    let mut digits = number.to_vec();
    let (place, digit) = (draw.place(digits.len() + 1), b'0' + draw.below(10) as u8);
    match draw.below(4) {
        0 => digits.insert(place, digit),
        1 if place < digits.len() => drop(digits.remove(place)),
        2 if place < digits.len() => digits[place] = digit,
        _ => digits.insert(0, b'0'),
    }
    digits
}

/// Names, commas, ends of lines and bytes in any order, mostly after the header.
pub fn anything(definition: &Definition, draw: &mut Draw) -> Made {
    let form = Form::new(definition);
    let mut bytes = Vec::new();
    if !draw.one_in(8) {
        bytes.extend(definition.header.as_bytes());
        bytes.extend(draw.one_of(&[CRLF, CRLF, CRLF, CRLF, b"\r", b"\n", b""]));
    }
    let parts = draw.one_of(&[0, 1, 2, 5, 20, 100, 300]);
    let ends = draw.one_of(&[3, 10, 40]);
    for _ in 0..draw.place(parts + 1) {
        match draw.below(ends) {
            0 => bytes.extend(CRLF),
            1 => bytes.push(draw.one_of(b"\r\n")),
            2 => bytes.push(any_byte(draw)),
            n => {
                let columns = form.columns();
                let names = form.names(columns[n as usize % columns.len()]);
                bytes.extend(format!("{},", draw.one_of(&names)).as_bytes());
            }
        }
    }
    (format!("up to {parts} names and bytes"), bytes)
}

/// How many bytes the lines of the sheets about borders have, CRLF included.
const WIDTH: usize = 58;
/// The borders that are tried one by one.
const BORDERS: [usize; 9] = [512, 1_024, 2_048, SMALL_BORDER, 8_192, 16_384, 32_768, 65_536, LAST_BORDER];
/// The border up to which all is tried.
const SMALL_BORDER: usize = 4_096;
/// The last border, at twice the most that a pipe holds.
const LAST_BORDER: usize = 131_072;
/// Lines without their CRLF that end a sheet at a border, by their length, and what ends them.
#[rustfmt::skip]
const AT_BORDERS: [(usize, &[u8]); 7] = [
    (159, b"\r\r\n"), (160, b"\r\r\n"), (158, b"\rx\r\n"), (159, b"\rx\r\n"), (160, b"\r\n"), (161, b"\r\n"),
    (0, b"\r\n"),
];

/// A sheet of so many bytes, in which all lines are good and all but the first two equally long.
fn of_bytes(form: &Form, lines: &[Vec<u8>], bytes: usize) -> Vec<u8> {
    let rest = bytes - form.definition.header.len() - 2 * CRLF.len();
    let count = (rest - form.of_length(0).len()) / WIDTH;
    let first = form.of_length(rest - count * WIDTH);
    let sheet = form.sheet(&[first].iter().chain(lines.iter().cycle().take(count)).cloned().collect::<Vec<_>>());
    assert_eq!(sheet.len(), bytes);
    sheet
}

/// The most pairs of each length whose lines borders fall in, so few that most come again.
const OF_EACH_LENGTH: usize = 150;

/// Pairs of all lengths but two whose digits without the first are no pair, so that it can't get lost unseen.
fn first_digit_matters(definition: &Definition) -> Vec<usize> {
    let matters = |digits: &str| digits.len() == 1 || (digits.len() > 2 && digits[1..].starts_with('0'));
    let mut by_length = vec![Vec::new(); definition.pair_digits + 1];
    for pair in 0..definition.most_pairs {
        let digits = pair.to_string();
        if matters(&digits) {
            by_length[digits.len()].push(pair);
        }
    }
    by_length.iter().flat_map(|pairs| pairs.iter().step_by(pairs.len().div_ceil(OF_EACH_LENGTH).max(1)).copied()).collect()
}

/// Adds sheets in which a border between two reads falls on every place of a line, of its CRLF and of its beginning.
pub fn borders(form: &Form, sheets: &mut Gathered, seed: u64) {
    let shape = Shape { lines: LAST_BORDER / WIDTH + 2, strays: 30, width: Some(WIDTH - CRLF.len()) };
    let lines = good_lines(form, &mut Draw::new(seed, 0), &shape, &first_digit_matters(form.definition));
    let of_bytes = |bytes: usize| of_bytes(form, &lines, bytes);
    for border in [SMALL_BORDER, LAST_BORDER] {
        for more in 0..WIDTH {
            let how = format!("borders up to {border}, all lines moved by {more}");
            sheets.add(how, of_bytes(border + WIDTH + more));
        }
    }
    sheets.add("a CR before byte 1,048,576", of_bytes((1 << 20) + 1));
    for border in BORDERS {
        for bytes in [border - 1, border, border + 1, border + 2] {
            let mut half = of_bytes(bytes + 1);
            half.pop();
            sheets.add(format!("{bytes} bytes in all"), of_bytes(bytes));
            sheets.add(format!("{bytes} bytes without the last CRLF"), without_crlf(of_bytes(bytes + 2)));
            sheets.add(format!("{bytes} bytes and the last LF missing"), half);
        }
        for (n, (length, end)) in AT_BORDERS.into_iter().enumerate() {
            for cr in [border - 1, border - 2, border, border + 1] {
                if border > SMALL_BORDER && (n > 2 || cr < border - 1 || cr > border) {
                    continue;
                }
                let mut bytes = of_bytes(cr - length);
                bytes.resize(cr, b'x');
                let how = format!("{length} bytes and \"{}\" at byte {cr}", end.escape_ascii());
                sheets.add(how, [&bytes, end, &form.after(), CRLF].concat());
            }
        }
    }
}

/// The place of each line's pair among some pairs, by the line's number and how many pairs there are.
type Order = fn(usize, usize) -> usize;

/// Orders in which all of some pairs come.
const ORDERS: [(&str, Order); 4] = [
    ("many pairs, from the first", |n, pairs| n % pairs),
    ("many pairs, from the last", |n, pairs| pairs - 1 - n % pairs),
    ("many pairs, not in order", |n, pairs| (n * 1_103 + 17) % pairs),
    ("many pairs, twice together", |n, _| n / 2),
];

/// Adds sheets with many pairs from all over, one after another, and with pairs that are alike in part.
pub fn many_pairs(form: &Form, sheets: &mut Gathered, seed: u64) {
    // As many pairs as there were before Q-6, one of each stretch of pairs, and not always the same one.
    let (pairs, stretch) = (PAIRS_BEFORE_Q6, form.definition.most_pairs / PAIRS_BEFORE_Q6);
    let long = Shape { lines: 2 * pairs, strays: 100, width: None };
    for (n, (how, order)) in ORDERS.into_iter().enumerate() {
        let pair = |n: usize, _: &[u8]| {
            let place = order(n, pairs);
            place * stretch + place % stretch
        };
        let lines = lines_of_pairs(form, &mut Draw::new(seed, 1 + n as u64), &long, pair);
        sheets.add(how, form.sheet(&lines));
    }
    let short = Shape { lines: 200, ..long };
    for (n, (how, pairs)) in alike_pairs(form.definition).into_iter().enumerate() {
        let order = |n: usize, _: &[u8]| pairs[(n * 5 + n / 7) % pairs.len()];
        let lines = lines_of_pairs(form, &mut Draw::new(seed, 10 + n as u64), &short, order);
        sheets.add(how, form.sheet(&lines));
    }
}

/// How many sheets there are of as many lines as there can be, one fewer or one more.
pub const MOST: u64 = 4;

/// One of these sheets.
pub fn most_lines(definition: &Definition, number: u64) -> Made {
    let most = definition.most_lines;
    let (how, lines, last): (&str, usize, &[u8]) = match number {
        0 => ("one line fewer than can be, the last without its CRLF", most - 1, b""),
        1 => ("as many lines as can be", most, CRLF),
        2 => ("one line more than can be, and that one empty", most, b"\r\n\r\n"),
        _ => ("one line more than can be, without its CRLF", most + 1, b""),
    };
    let form = Form::new(definition);
    let rest = |changes: &[(&str, &[u8])]| form.plain_with(&[&[("pair", &b""[..]), ("tag", b"?")], changes].concat());
    let clean: (&str, &[u8]) = ("request", b"SnpClean");
    let forwarded: [(&str, &[u8]); 3] = [("response", b"SnpResp_SD_Fwded_SC"), ("forward", b"CompData_SC"), ("fwdErr", b"DERR")];
    // Most pairs are never lost.
    let [to_i, to_sc, to_sd, dirty, nderr] = [
        rest(&[clean]),
        rest(&[("response", b"SnpResp_SC")]),
        rest(&[&[("request", &b"SnpCleanFwd"[..])], &forwarded[..]].concat()),
        rest(&[clean, ("response", b"SnpRespData_SD"), ("TagOp", b"Transfer")]),
        rest(&[clean, ("RespErr", b"NDERR")]),
    ];
    let mut sheet = definition.header.as_bytes().to_vec();
    for n in 0..lines - 1 {
        let pair = n * 7 % definition.most_pairs;
        sheet.extend(format!("\r\n{pair}").as_bytes());
        // Pairs that are equal modulo the pairs of before Q-6 have other lines.
        sheet.extend(match (pair + pair / PAIRS_BEFORE_Q6) % 8 {
            0..=3 => &to_i,
            4 | 5 => &to_sc,
            6 => &to_sd,
            _ if n % 1_000 < 500 => &dirty,
            _ => &nderr,
        });
    }
    sheet.extend(last);
    (how.to_string(), sheet)
}

/// How many sheets there are of as many events as there can be, or one more, drawn at random.
pub const DRAWN_MOST: u64 = 2;

/// How many lines are drawn for each set beside those with every name, of which lines each pair that has the set gets any.
const OF_EACH_SET: usize = 4_000;

/// Lines of pair 0 that are drawn for a set: many that are explained, and one with every name of every column.
fn lines_from(form: &Form, draw: &mut Draw, set: u8) -> Vec<Vec<u8>> {
    let columns = form.columns();
    let mut lines: Vec<Vec<u8>> = (0..OF_EACH_SET).map(|_| any_line(form, draw, 0, set, 0)).collect();
    for (n, column) in columns.iter().enumerate().skip(1) {
        for name in form.names(column) {
            let mut fields = fields_of(&any_line(form, draw, 0, set, 0));
            fields[n] = name.into();
            let forward = columns.iter().position(|other| *other == "forward").expect("there is such a column");
            // An error of the forward needs one.
            if *column == "fwdErr" && (name == NOTHING || fields[forward] == NOTHING.as_bytes()) {
                fields[forward] = if name == NOTHING { NOTHING.into() } else { b"CompData_SC".to_vec() };
            }
            form.agree_on_forward(&mut fields);
            lines.push(line_of(&fields));
        }
    }
    lines
}

/// One of these sheets, whose lines are good.
pub fn drawn_most(definition: &Definition, draw: &mut Draw, number: u64) -> Made {
    let (form, reader) = (Form::new(definition), Reader::new(definition));
    // What stands after the pair in the lines that are drawn for a set, each with the set after it.
    let mut drawn: Vec<Vec<(Vec<u8>, u8)>> = vec![Vec::new(); usize::from(ALL_STATES) + 1];
    let rest_and_after = |line: Vec<u8>, set: u8| {
        let (_, event) = reader.fields(&line).expect("a line without damage can be read");
        (line[1..].to_vec(), step(definition, &event, set))
    };
    let mut table = vec![ALL_STATES; definition.most_pairs];
    let mut sheet = definition.header.as_bytes().to_vec();
    for _ in 0..definition.most_lines - 1 + number as usize {
        // One of eight has few digits.
        let pairs = if draw.one_in(8) { draw.one_of(&[10, 100, 1_000, 4_096]) } else { definition.most_pairs };
        let pair = draw.place(pairs);
        let set = table[pair];
        let lines = &mut drawn[usize::from(set)];
        if lines.is_empty() {
            lines.extend(lines_from(&form, draw, set).into_iter().map(|line| rest_and_after(line, set)));
        }
        let (rest, after) = &lines[draw.place(lines.len())];
        table[pair] = *after;
        sheet.extend(CRLF);
        sheet.extend(pair.to_string().as_bytes());
        sheet.extend(rest);
    }
    sheet.extend(CRLF);
    (["as many events as can be, drawn", "one event more than can be, drawn"][number as usize].to_string(), sheet)
}
