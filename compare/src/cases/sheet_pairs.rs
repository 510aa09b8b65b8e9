//! Bench sheets about the pairs of lines: their fields, pairs after others that they might be taken for, pairs that two reads part, and
//! every pair there is.

use crate::cases::kinds::{Gathered, Made};
use crate::cases::lines::{without_crlf, Changes, Form, PAIR_FIELDS};
use crate::cases::text::{fields_of, line_of};
use crate::definition::sheet::CRLF;
use crate::definition::values::{Definition, PAIRS_BEFORE_Q6};
use std::collections::BTreeSet;

/// Fields for a pair that stand in lines with each other thing wrong.
const BESIDE_ALL: [&str; 9] = ["4095", "4096", "9999", "10000", "04096", "65535", "65536", "99999", "100000"];
/// Fields for a pair that stand in lines with some other things wrong; a blank parts them.
const BESIDE_SOME: &str = "65534 65537 655350 4294967295 4295032831 00 04095 065535 00000 000000 010000";
/// How many columns there are from one to the next of those that are wrong beside these.
const SOME: usize = 5;

/// Adds sheets with one line of which the pair's field is tried, some of them with something else wrong besides.
pub fn pair_fields(form: &Form, sheets: &mut Gathered, _: u64) {
    for field in PAIR_FIELDS.split(' ').chain(["", " 1", "1 "]) {
        let line = form.plain_with(&[("pair", field.as_bytes())]);
        let how = format!("pair is \"{}\"", field.escape_debug());
        sheets.add(how.clone(), form.between(&line));
        let last = without_crlf(form.sheet(&[form.before(), line]));
        sheets.add(how + ", at the very end", last);
    }
    let longest = form.definition.longest_line;
    for field in BESIDE_ALL {
        beside_others(form, sheets, field, 1);
        for length in longest - 1..=longest + 3 {
            for byte in [b'?', b','] {
                let mut long = form.plain_with(&[("pair", field.as_bytes())]);
                long.resize(length, byte);
                let how = format!("pair is \"{field}\" and the line has {length} bytes, many of them {}", char::from(byte));
                sheets.add(how, form.between(&long));
            }
        }
    }
    BESIDE_SOME.split(' ').for_each(|field| beside_others(form, sheets, field, SOME));
}

/// Adds sheets with one line that has this field for a pair, a column of it not known or too many fields or too few.
fn beside_others(form: &Form, sheets: &mut Gathered, field: &str, step: usize) {
    let good = form.plain_with(&[("pair", field.as_bytes())]);
    let mut add = |how: &str, line: Vec<u8>| {
        sheets.add(format!("pair is \"{field}\" and {how}"), form.between(&line));
    };
    for (n, column) in form.columns().into_iter().enumerate().skip(1).step_by(step) {
        let mut fields = fields_of(&good);
        fields[n].push(b'x');
        add(&format!("{column} is not known"), line_of(&fields));
        fields.truncate(n);
        add(&format!("there are {n} fields"), line_of(&fields));
    }
    add("there is one more comma", [&good[..], b","].concat());
}

/// Fields for a pair that come after lines of other pairs; a blank parts them.
const AFTER_OTHERS: &str = "4095 4096 4097 9999 10000 10001 32767 32768 36864 61440 65534 65535 65536 65537 69632 99999 100000 131071 \
    655350 4294967295 4295032831 00 04095 04096 09999 065535 00000 000000 010000";

/// The pairs that a field might be taken for where digits or bits of its number get lost, the one that it is left out.
fn taken_for(definition: &Definition, field: &str) -> BTreeSet<usize> {
    let number: usize = field.parse().expect("a field of digits");
    let moduli = [1 << 8, PAIRS_BEFORE_Q6, 1 << 15, 1 << 16, 10_000, 100_000];
    let by_bits = moduli.into_iter().map(|modulus| number % modulus);
    let ends = (1..field.len()).flat_map(|end| [&field[..end], &field[end..]]);
    let by_digits = ends.map(|digits| digits.parse().expect("digits"));
    let others = by_bits.chain(by_digits).chain([0, number, number.saturating_sub(1), number + 1]);
    others.filter(|pair| *pair < definition.most_pairs && pair.to_string() != field).collect()
}

/// A line of a pair's field with some fields, its tags not seen.
fn line_with(form: &Form, pair: &str, changes: &Changes) -> Vec<u8> {
    form.plain_with(&[&[("pair", pair.as_bytes()), ("tag", b"?")], changes].concat())
}

/// A line that no Dirty pair can have, and that leaves its pair in I.
pub fn to_i(form: &Form, pair: &str) -> Vec<u8> {
    line_with(form, pair, &[("request", b"SnpClean"), ("final", b"I")])
}

/// A line that only a pair in UD or SD can have, and that leaves it in SD.
pub fn to_sd(form: &Form, pair: &str) -> Vec<u8> {
    line_with(form, pair, &[("request", b"SnpClean"), ("response", b"SnpRespData_SD"), ("TagOp", b"Transfer")])
}

/// A line with the duty to Home that only a pair in UD or SD can have, and that leaves it in SC.
fn to_home(form: &Form, pair: &str) -> Vec<u8> {
    line_with(form, pair, &[("response", b"SnpRespData_SC_PD"), ("TagOp", b"Transfer"), ("final", b"SC")])
}

/// Adds sheets in which a field comes after lines of pairs that it might be taken for, and these come again after it.
pub fn pairs_after_others(form: &Form, sheets: &mut Gathered, _: u64) {
    for field in AFTER_OTHERS.split(' ') {
        let others: Vec<String> = taken_for(form.definition, field).iter().map(usize::to_string).collect();
        let lines = |line: fn(&Form, &str) -> Vec<u8>| others.iter().map(|pair| line(form, pair)).collect::<Vec<_>>();
        let [i, sd, home] = [to_i, to_sd, to_home].map(|line| line(form, field));
        let not_known = [&sd[..], b"x"].concat();
        let own = [home.clone(), sd.clone(), i.clone()];
        let mut add = |how: &str, parts: &[&[Vec<u8>]]| sheets.add(format!("pair is \"{field}\" {how}"), form.sheet(&parts.concat()));
        add("in SD after others in I", &[&lines(to_i), std::slice::from_ref(&sd), &lines(to_i)]);
        add("in I after others in SD", &[&lines(to_sd), std::slice::from_ref(&i), &lines(to_sd)]);
        add("and lost, others in SD", &[&lines(to_sd), &own, &lines(to_home), &own, &lines(to_i)]);
        add("three times, others between", &[&[sd.clone()], &lines(to_i), &[sd.clone()], &lines(to_sd), &[home]]);
        add("and another field not known after others", &[&lines(to_i), std::slice::from_ref(&not_known), &lines(to_i)]);
        add("and another field not known after itself", &[&[sd, not_known], &lines(to_i)]);
        add("again and again", &[&vec![i; 5]]);
    }
}

/// How many bytes the small pieces have in which sheets arrive.
pub const SMALL_PIECE: usize = 7;

/// Adds sheets whose lines begin at every place of the small pieces, so that these part pairs of five digits at every place.
pub fn cut_pairs(form: &Form, sheets: &mut Gathered, _: u64) {
    let shortest = form.of_length(0).len();
    for more in 0..2 * SMALL_PIECE {
        let first = form.of_length(shortest + more);
        for pair in ["65535", "12345", "49876"] {
            let (begin, end) = pair.split_at(pair.len() - 1);
            let pairs = [begin, pair, &pair[1..], begin, pair, end, pair];
            let of_pairs = [to_i, to_sd, to_i, to_i, to_home, to_i, to_home].into_iter().zip(pairs).map(|(line, pair)| line(form, pair));
            let lines: Vec<Vec<u8>> = [first.clone()].into_iter().chain(of_pairs).collect();
            let whole = form.sheet(&lines);
            sheets.add(format!("pair {pair} after a line of {} bytes", first.len()), whole.clone());
            // The input ends within the last pair.
            let last = whole.len() - CRLF.len() - lines[lines.len() - 1].len();
            let digits = 1 + more % pair.len();
            sheets.add(
                format!("pair {pair} after a line of {} bytes, cut after {digits} digits", first.len()),
                whole[..last + digits].to_vec(),
            );
        }
    }
}

/// How many sheets there are of every pair.
pub const EVERY_PAIR: u64 = 2;

/// A sheet in which every pair comes twice: all of them and then all of them back, or in another order twice together.
pub fn every_pair(definition: &Definition, number: u64) -> Made {
    let (form, pairs) = (Form::new(definition), definition.most_pairs);
    let lines = [to_i, to_sd, to_home].map(|line| line(&form, ""));
    let mut sheet = definition.header.as_bytes().to_vec();
    for n in 0..2 * pairs {
        let (pair, time) = match number {
            0 => (n.min(2 * pairs - 1 - n), n / pairs),
            _ => ((n / 2 * 1_103 + 17) % pairs, n % 2),
        };
        // Pairs that are alike in part come with other lines.
        let turn = [0, 4, 8, 12].map(|bits| pair >> bits).iter().sum::<usize>();
        sheet.extend(CRLF);
        sheet.extend(pair.to_string().as_bytes());
        sheet.extend(&lines[(turn + time * (pair % 5)) % lines.len()]);
    }
    let how = ["every pair, there and back", "every pair, twice together"][number as usize];
    (how.to_string(), if number == 0 { [&sheet, CRLF].concat() } else { sheet })
}
