//! Bench sheets with one damaged line that has many good ones behind it: every byte of it changed, every field and every end of it
//! exchanged, every name spoiled, and every byte value at some of its places.

use crate::cases::kinds::Gathered;
use crate::cases::lines::{Form, OTHER_ENDS, PAIR_FIELDS};
use crate::cases::sheet_pairs::to_sd;
use crate::cases::text::{fields_of, line_of};
use crate::definition::codes::NOTHING;
use crate::definition::sheet::CRLF;

/// Bytes that are tried in the place of every other in the longest and the shortest line.
const TELLING: &[u8] = b",\r\n\0 09/:-?_";
/// Bytes that are tried so in other lines.
const FEWER: &[u8] = b",\r\n09";

/// Adds the sheet of some bytes in the place of a line and its CRLF, behind which the line's own pair comes again.
fn add(form: &Form, sheets: &mut Gathered, how: String, line: &[u8], ended: &[u8]) {
    let pair = String::from_utf8_lossy(&fields_of(line)[0]).to_string();
    sheets.add(how, form.amid(ended, &[to_sd(form, &pair)]));
}

/// What stands in the place of a byte and of the next one, in each way in which they are damaged.
fn damaged_at(ended: &[u8], place: usize, telling: &[u8]) -> Vec<(String, Vec<u8>)> {
    let byte = ended[place];
    let others = [byte.wrapping_add(1), byte.wrapping_sub(1), byte ^ 32, byte.wrapping_add(128)];
    // What is no letter has no other case.
    let others = others.into_iter().filter(|other| *other != byte ^ 32 || byte.is_ascii_alphabetic());
    let put = |bytes: &[u8], rest: usize| [&ended[..place], bytes, &ended[rest..]].concat();
    let replaced = telling.iter().copied().chain(others).map(|other| (format!("is byte {other}"), put(&[other], place + 1)));
    let mut damaged: Vec<(String, Vec<u8>)> = replaced.collect();
    damaged.push(("is left out".to_string(), put(&[], place + 1)));
    damaged.push(("stands twice".to_string(), put(&[byte, byte], place + 1)));
    if let Some(next) = ended.get(place + 1) {
        damaged.push(("and the next are exchanged".to_string(), put(&[*next, byte], place + 2)));
    }
    damaged
}

/// Adds sheets with a line of each kind of which one byte is damaged in each way.
pub fn damaged_bytes(form: &Form, sheets: &mut Gathered, _: u64) {
    for (n, (what, line)) in form.typical().into_iter().enumerate() {
        let ended = [&line[..], CRLF].concat();
        for place in 0..ended.len() {
            for (how, damaged) in damaged_at(&ended, place, if n < 2 { TELLING } else { FEWER }) {
                add(form, sheets, format!("byte {place} of a line, {what}, {how}"), &line, &damaged);
            }
        }
    }
}

/// Adds sheets with a line of which a field is a name of any column, a comma is the end of a line, or the end is something else.
pub fn damaged_fields(form: &Form, sheets: &mut Gathered, _: u64) {
    let columns = form.columns();
    for (n, (what, line)) in form.typical().into_iter().enumerate() {
        let fields = fields_of(&line);
        // The longest and the shortest line have every name in every column.
        for other in columns.iter().take(if n < 2 { columns.len() } else { 0 }) {
            for name in form.names(other) {
                for (place, column) in columns.iter().enumerate() {
                    let mut changed = fields.clone();
                    changed[place] = name.into();
                    let how = format!("{column} is {name} of {other} in a line, {what}");
                    add(form, sheets, how, &line, &[&line_of(&changed), CRLF].concat());
                }
            }
        }
        for place in 1..fields.len() {
            let (begin, end) = (line_of(&fields[..place]), line_of(&fields[place..]));
            let how = format!("a CRLF in the place of the comma before {} in a line, {what}", columns[place]);
            add(form, sheets, how, &line, &[&begin, CRLF, &end, CRLF].concat());
        }
        for end in [&b","[..]].into_iter().chain(OTHER_ENDS) {
            let how = format!("\"{}\" for the CRLF of a line, {what}", end.escape_ascii());
            add(form, sheets, how, &line, &[&line[..], end].concat());
        }
        for column in columns.iter().filter(|column| form.names(column).contains(&NOTHING)) {
            let place = columns.iter().position(|other| other == column).expect("it is a column");
            let mut changed = fields.clone();
            changed[place] = if fields[place] == NOTHING.as_bytes() { form.names(column)[1].into() } else { NOTHING.into() };
            add(form, sheets, format!("{column} alone changed in a line, {what}"), &line, &[&line_of(&changed), CRLF].concat());
        }
    }
}

/// Bytes that are tried behind a name.
const MORE: &[u8] = b"x_ 0-\0\r";

/// Adds sheets with a line in which each name of each column stands as it is, a byte longer or shorter, and with each of its bytes
/// changed or left out.
pub fn damaged_names(form: &Form, sheets: &mut Gathered, _: u64) {
    let mut put = |column: &str, field: &[u8]| {
        let line = form.plain_with(&[("pair", b"1234"), (column, field)]);
        let how = format!("{column} is \"{}\", with many lines behind it", field.escape_ascii());
        add(form, sheets, how, &line, &[&line, CRLF].concat());
    };
    for column in form.columns().into_iter().skip(1) {
        for name in form.names(column) {
            let name = name.as_bytes();
            put(column, name);
            put(column, &[name, &name[name.len() - 1..]].concat());
            put(column, &[b"x", name].concat());
            MORE.iter().for_each(|more| put(column, &[name, &[*more]].concat()));
            for place in 0..name.len() {
                let byte = name[place];
                for other in [byte ^ 1, byte | 128] {
                    put(column, &[&name[..place], &[other], &name[place + 1..]].concat());
                }
                put(column, &[&name[..place], &name[place + 1..]].concat());
            }
        }
    }
}

/// Pairs of each length, of which one has every byte value in each of its places.
const PAIRS: [&str; 5] = ["12345", "7", "42", "907", "3456"];

/// Numbers above the last pair that are tried, as many from there on.
const ABOVE: usize = 40;

/// Adds sheets with a line of which a byte goes through all values: a digit of its pair, a flag, a comma and a byte of its CRLF. Others
/// have all fields that are tried for a pair, and numbers above the last pair.
pub fn byte_values(form: &Form, sheets: &mut Gathered, _: u64) {
    let rest: [(&str, &[u8]); 3] = [("tag", b"?"), ("response", b"SnpResp_SC"), ("final", b"SC")];
    let with = |changes: &[(&str, &[u8])]| form.plain_with(&[&rest, changes].concat());
    let numbers = (0..ABOVE).map(|n| (form.definition.most_pairs + n).to_string());
    for field in PAIR_FIELDS.split(' ').map(str::to_string).chain(numbers).chain([String::new()]) {
        let line = with(&[("pair", field.as_bytes())]);
        add(form, sheets, format!("pair is \"{}\", with many lines behind it", field.escape_debug()), &line, &[&line, CRLF].concat());
    }
    for (n, pair) in PAIRS.into_iter().enumerate() {
        let line = with(&[("pair", pair.as_bytes())]);
        let ended = [&line[..], CRLF].concat();
        // The other pairs have the values near digits, and some with a digit's lower bits.
        let near = |byte: &u8| n == 0 || (47..64).contains(byte) || byte & 15 < 10 && [1, 7, 11].contains(&(byte >> 4));
        let values: Vec<u8> = (0..=255).filter(near).collect();
        for place in 0..pair.len() {
            for value in &values {
                let mut changed = ended.clone();
                changed[place] = *value;
                add(form, sheets, format!("byte {place} of pair {pair} is {value}, with many lines behind it"), &line, &changed);
            }
        }
    }
    let line = with(&[("pair", b"4095")]);
    let ended = [&line[..], CRLF].concat();
    let commas: Vec<usize> = (0..ended.len()).filter(|place| ended[*place] == b',').collect();
    let flags: Vec<usize> = commas[1..4].iter().map(|comma| comma + 1).collect();
    for value in 0..=255u8 {
        let n = usize::from(value);
        for place in [flags[n % flags.len()], commas[n % commas.len()], line.len(), line.len() + 1] {
            let mut changed = ended.clone();
            changed[place] = value;
            add(form, sheets, format!("byte {place} of a line is {value}, with many lines behind it"), &line, &changed);
        }
    }
}
