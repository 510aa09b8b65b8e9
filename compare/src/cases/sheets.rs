//! The cases of a bench sheet: sheets that go through names, bytes, fields, ends and lengths of lines one after another, and others.

use crate::cases::kinds::{share, Cases, Gathered, Kind};
use crate::cases::lines::{without_crlf, Form, OTHER_ENDS, OTHER_REQUESTS};
use crate::cases::sheet_cuts::{cut_sheets, ends_in_lines, even_pieces, twice_cut_sheets};
use crate::cases::sheet_damage::{byte_values, damaged_bytes, damaged_fields, damaged_names};
use crate::cases::sheet_draws::{anything, borders, damaged, drawn_most, good, many_pairs, most_lines, DRAWN_MOST, MOST};
use crate::cases::sheet_pairs::{cut_pairs, every_pair, pair_fields, pairs_after_others, EVERY_PAIR};
use crate::cases::text::{fields_of, line_of, spoiled, spoiled_fields};
use crate::definition::codes::NOTHING;
use crate::definition::sheet::{CRLF, OUTPUT_HEADER};
use crate::definition::values::Definition;

/// Adds the sheets of a kind, those that are drawn from a seed.
type Sweep = fn(&Form, &mut Gathered, u64);

/// The kinds whose sheets are gathered one after another.
const SWEEPS: [(&str, Sweep); 18] = [
    ("the example", example),
    ("known names", known_names),
    ("from one state", from_one_state),
    ("names not known", names_not_known),
    ("each byte value", each_byte),
    ("pair fields", pair_fields),
    ("pairs after others", pairs_after_others),
    ("pairs cut by reads", cut_pairs),
    ("other fields", other_fields),
    ("forward and fwdErr", forward_and_error),
    ("other columns", other_columns),
    ("ends of lines", ends_of_lines),
    ("first and last", first_and_last),
    ("headers", headers),
    ("refusals", refusals),
    ("line lengths", line_lengths),
    ("borders of reads", borders),
    ("many pairs", many_pairs),
];

/// The kinds that come after the drawn ones, whose sheets are gathered too: good lines that are cut, and damage with many lines behind it.
const LATER_SWEEPS: [(&str, Sweep); 8] = [
    ("cut at every byte", cut_sheets),
    ("cut twice", twice_cut_sheets),
    ("even pieces", even_pieces),
    ("ends in lines", ends_in_lines),
    ("damaged bytes", damaged_bytes),
    ("damaged fields", damaged_fields),
    ("damaged names", damaged_names),
    ("byte values", byte_values),
];

/// The cases of a bench sheet.
pub fn sheets(definition: &Definition, seed: u64, random: u64) -> Cases {
    let mut gathered = Gathered::default();
    let form = Form::new(definition);
    let mut swept = |(name, sweep): (&'static str, Sweep)| {
        sweep(&form, &mut gathered, seed);
        gathered.kind(name)
    };
    let mut kinds = Vec::from(SWEEPS.map(&mut swept));
    kinds.extend([
        Kind::new("drawn", share(random, 4, 10), |d, draw, n| {
            // One of many lines and pairs among forty.
            let (lines, pairs) = match n % 40 {
                0 => (1_000 + draw.place(1_000), 1 + draw.place(1_000)),
                _ => (draw.place(60), draw.one_of(&[1, 2, 3, 5, 9, 20])),
            };
            good(d, draw, lines, pairs)
        }),
        Kind::new("drawn, damaged", share(random, 5, 10), |d, draw, _| damaged(d, draw)),
        Kind::new("anything", share(random, 1, 10), |d, draw, _| anything(d, draw)),
    ]);
    kinds.extend(LATER_SWEEPS.map(&mut swept));
    kinds.extend([
        Kind::new("every pair", EVERY_PAIR, |d, _, n| every_pair(d, n)),
        Kind::new("a million drawn", DRAWN_MOST, drawn_most),
        Kind::new("a million lines", MOST, |d, _, n| most_lines(d, n)),
    ]);
    Cases { definition: definition.clone(), seed, kinds }
}

/// Adds the definition's example and its beginnings.
fn example(form: &Form, sheets: &mut Gathered, _: u64) {
    let lines = [
        form.plain_with(&[("response", b"SnpRespData_SC_PD")]),
        form.plain_with(&[("RetToSrc", b"1"), ("response", b"SnpRespData_SC")]),
        form.plain_with(&[("request", b"SnpClean"), ("response", b"SnpRespData_SD")]),
        form.plain_with(&[("request", b"SnpClean"), ("final", b"I")]),
    ];
    for count in (0..=lines.len()).rev() {
        let whole = form.sheet(&lines[..count]);
        sheets.add(format!("the example's first {count} events"), whole.clone());
        sheets.add(format!("the example's first {count} events, without the last CRLF"), without_crlf(whole));
    }
}

/// Columns by their names, each with the fields that it goes through.
type Varies<'a> = Vec<(&'a str, Vec<&'a str>)>;

/// The sheet of plain lines that go through all combinations of some columns' fields, each of a pair of its own.
fn product(form: &Form, varies: &Varies) -> Vec<u8> {
    let count = varies.iter().map(|(_, fields)| fields.len()).product();
    let line = |number: usize| {
        let pair = number.to_string();
        let mut changes = vec![("pair", pair.as_bytes())];
        let mut rest = number;
        for (column, fields) in varies.iter().rev() {
            changes.push((column, fields[rest % fields.len()].as_bytes()));
            rest /= fields.len();
        }
        form.plain_with(&changes)
    };
    form.sheet(&(0..count).map(line).collect::<Vec<_>>())
}

/// Adds sheets of lines with known names: what varies, and through which names.
fn known_names(form: &Form, sheets: &mut Gathered, _: u64) {
    let all = |column: &'static str| (column, form.names(column));
    let errors = form.forward_errors();
    for column in form.columns().into_iter().skip(1) {
        sheets.add(format!("every name of {column} in plain lines"), product(form, &vec![all(column)]));
    }
    for (request, _) in &form.definition.requests {
        for flags in 0..8 {
            let flag = |n: usize| vec![["0", "1"][flags >> n & 1]];
            let flags_vary = [("RetToSrc", flag(0)), ("DoNotGoToSD", flag(1)), ("excl", flag(2))];
            let begin = [&[("request", vec![*request])], &flags_vary[..], &[all("response")]].concat();
            let varies = [&begin[..], &[all("forward")]].concat();
            sheets.add(format!("{request} with every answer, flags {flags:03b}"), product(form, &varies));
            if !errors.is_empty() {
                let forwards = form.names("forward").into_iter().filter(|name| *name != NOTHING).collect();
                let varies = [&begin[..], &[("forward", forwards), ("fwdErr", errors.clone())]].concat();
                sheets.add(format!("{request} with every answer and forward error, flags {flags:03b}"), product(form, &varies));
            }
        }
    }
    for row in &form.definition.rows {
        let code = form.definition.requests_of(row.table).pop();
        let request = form.definition.requests.iter().find(|(_, request)| Some(*request) == code);
        let mut varies = vec![
            ("request", vec![request.expect("a table is for a request").0]),
            ("RetToSrc", vec![if row.ret_to_src == Some(1) { "1" } else { "0" }]),
            ("response", vec![row.response.name]),
            ("forward", vec![row.forward.name]),
            all("tag"),
            all("TagOp"),
            all("RespErr"),
            ("final", vec!["I", "SC", "SD", "UD", "?"]),
        ];
        if row.forward.present == 1 && !errors.is_empty() {
            varies.push(("fwdErr", errors.clone()));
        }
        let how = format!("{} {} with every tag, TagOp and error", row.table, row.response.name);
        sheets.add(how, product(form, &varies));
    }
}

/// Answers that leave a pair of any state in one state, which is seen after them.
const TO_ONE_STATE: [(&str, &str); 3] = [("SnpResp_I", "I"), ("SnpResp_SC", "SC"), ("SnpRespData_SD", "SD")];

/// Adds for each request a sheet in which pairs are left in one state first, and then give each answer with its own forward, which
/// has every error.
fn from_one_state(form: &Form, sheets: &mut Gathered, _: u64) {
    let forwards = form.definition.forwards();
    let own = |fwd_state: u8| forwards.iter().find(|forward| forward.resp == fwd_state).expect("a response has its forward").name;
    for (request, _) in &form.definition.requests {
        let mut lines: Vec<Vec<u8>> = Vec::new();
        for (answer, last) in TO_ONE_STATE {
            for (response, ret_to_src) in form.definition.responses().iter().flat_map(|response| [(response, "0"), (response, "1")]) {
                let forward = own(response.fwd_state);
                let errors = match form.forward_errors() {
                    errors if forward != NOTHING && !errors.is_empty() => errors,
                    // A field of a column that is not there stands nowhere.
                    _ => vec![NOTHING],
                };
                for error in &errors {
                    let pair = (lines.len() / 2).to_string();
                    let of_pair = |fields: &[(&str, &str)]| {
                        let both = [&[("pair", &pair[..]), ("tag", "?")], fields].concat();
                        form.plain_with(&both.iter().map(|(column, field)| (*column, field.as_bytes())).collect::<Vec<_>>())
                    };
                    lines.push(of_pair(&[("response", answer), ("final", last)]));
                    let named = [("response", response.name), ("forward", forward), ("fwdErr", *error)];
                    lines.push(of_pair(&[&[("request", *request), ("RetToSrc", ret_to_src)], &named[..]].concat()));
                }
            }
        }
        sheets.add(format!("{request} with every answer from I, SC and SD"), form.sheet(&lines));
    }
}

/// Fields that a column doesn't know, though somebody might write them there; a semicolon parts them.
#[rustfmt::skip]
const STRANGE: [(&str, &str); 11] = [
    ("request", "-;?;1;SnpShared ; SnpShared;SnpClean_"),
    ("RetToSrc", ";2;00;01;10;-;?;true;O;l;0 ; 0;-0;+1;0.0"),
    ("DoNotGoToSD", ";2;00;11;-;?;x;1 ; 1"),
    ("excl", ";2;9;00;01;-;?;I;0x1"),
    ("tag", ";-;None;not seen;0;3;??;? ;UD;Update;Transfer;I"),
    ("response", "-;?;SnpResp;SnpResp_;SnpRespData;SnpRespFwded;SnpRespDataFwded_SC"),
    ("TagOp", ";-;?;Clean;Dirty;0;None"),
    ("RespErr", ";-;?;OKAY;EXOKAY;SLVERR;DECERR;ERR;0;Ok"),
    ("forward", ";--;?;SC;CompData;CompData_;Comp_SC;CompData_I;CompData_SD;CompData_UD;CompData_UCE;CompData_SC_PD;\
         CompData_UC_PD;CompAck;SnpResp_SC_Fwded_SC"),
    ("final", ";-;??;SCE;UDE;M;O;E;S;U;0;7;I SC;I|SC;UC UD;not seen"),
    ("fwdErr", ";--;?;OKAY;EXOKAY;SLVERR;DECERR;ERR;0;2;Ok;None;CompData_SC;OK DERR;NDERR_PD"),
];

/// Adds sheets with one line of which a name is cut, changed or strange, and so mostly not known.
fn names_not_known(form: &Form, sheets: &mut Gathered, _: u64) {
    let mut add = |column: &str, field: &[u8]| {
        let how = format!("{column} is \"{}\"", field.escape_ascii());
        sheets.add(how, form.between(&form.plain_with(&[(column, field)])));
    };
    let plain = fields_of(&form.plain());
    for column in form.columns().into_iter().skip(1) {
        for name in form.names(column) {
            spoiled(name.as_bytes()).iter().for_each(|field| add(column, field));
        }
        for (other, field) in form.columns().into_iter().zip(&plain) {
            [&field[..], form.names(other)[1].as_bytes(), other.as_bytes()].iter().for_each(|field| add(column, field));
        }
    }
    OTHER_REQUESTS.iter().for_each(|name| add("request", name.as_bytes()));
    for message in ["SnpResp", "SnpRespData", "SnpRespDataPtl"] {
        for resp in ["I", "UC", "SC", "SD", "I_PD", "SC_PD", "SD_PD"] {
            for fwd in ["", "_Fwded_I", "_Fwded_SC", "_Fwded_UC", "_Fwded_UD_PD", "_Fwded_SD_PD"] {
                add("response", format!("{message}_{resp}{fwd}").as_bytes());
            }
        }
    }
    for (column, fields) in STRANGE {
        fields.split(';').for_each(|field| add(column, field.as_bytes()));
    }
}

/// Adds sheets with one line of which one byte goes through all values.
fn each_byte(form: &Form, sheets: &mut Gathered, _: u64) {
    let plain = form.plain();
    for byte in 0..=255u8 {
        let place = 1 + usize::from(byte) % (plain.len() - 1);
        let flag = ["RetToSrc", "DoNotGoToSD", "excl"][usize::from(byte % 3)];
        let lines = [
            ("for a pair", form.plain_with(&[("pair", &[byte])])),
            ("for a flag", form.plain_with(&[(flag, &[byte])])),
            ("at the end of a line", [&plain[..], &[byte]].concat()),
            ("within a line", [&plain[..place], &[byte], &plain[place..]].concat()),
        ];
        for (how, line) in lines {
            sheets.add(format!("byte {byte} {how}"), form.between(&line));
        }
    }
}

/// Adds sheets with one line of more or fewer fields, or with a field at a wrong place.
fn other_fields(form: &Form, sheets: &mut Gathered, _: u64) {
    let plain = form.plain();
    let fields = fields_of(&plain);
    let mut lines: Vec<(String, Vec<u8>)> = Vec::new();
    for count in 0..=14 {
        let mut resized = fields.clone();
        resized.resize(count, b"?".to_vec());
        let commas = vec![b','; count];
        lines.push((format!("{count} fields"), line_of(&resized)));
        lines.push((format!("{count} commas"), commas.clone()));
        lines.push((format!("the line and {count} commas"), [&plain[..], &commas].concat()));
        lines.push((format!("{count} commas and the line"), [&commas[..], &plain].concat()));
    }
    for (how, column, line) in spoiled_fields(&fields) {
        lines.push((format!("{how} {}", form.columns()[column]), line));
    }
    for column in 1..fields.len() {
        let comma = line_of(&fields[..column]).len();
        for byte in [b';', b' ', b'\t', 0, b'\r', b'\n'] {
            let mut changed = plain.clone();
            changed[comma] = byte;
            lines.push((format!("byte {byte} in the place of the comma before column {column}"), changed));
        }
    }
    let text = String::from_utf8_lossy(&plain).to_string();
    lines.extend([
        ("every field in quotes".into(), format!("\"{}\"", text.replace(',', "\",\"")).into()),
        ("the line in quotes".into(), format!("\"{text}\"").into()),
        ("spaces after commas".into(), text.replace(',', ", ").into()),
        ("two lines in one".into(), text.repeat(2).into()),
    ]);
    for (how, line) in lines {
        // The plain line as it is would be tried with others.
        if line != plain || how.ends_with("fields") {
            sheets.add(how.clone(), form.between(&line));
            sheets.add(how + ", at the very end", [form.sheet(&[]), line].concat());
        }
    }
}

/// Fields for the columns about the forward that are not known there; a semicolon parts them.
const NO_FORWARDS: &str = ";--;?;OK;CompData";
/// Fields for the column fwdErr that are not known there; a semicolon parts them.
const NO_ERRORS: &str = ";--;?;- ; -;Ok;OKAY;0;I;CompData_SC";

/// Adds sheets with one line that has every field of forward with every one of fwdErr, and so often - in one of the two alone.
fn forward_and_error(form: &Form, sheets: &mut Gathered, _: u64) {
    let fwded: [(&str, &[u8]); 3] = [("request", b"SnpCleanFwd"), ("tag", b"?"), ("response", b"SnpResp_SC_Fwded_SC")];
    let (long, no_pair) = ("?".repeat(form.definition.longest_line), form.no_pair());
    let forwards = [&form.names("forward")[..], &NO_FORWARDS.split(';').collect::<Vec<&str>>()].concat();
    let errors = [&[NOTHING][..], &form.forward_errors(), &NO_ERRORS.split(';').collect::<Vec<&str>>()].concat();
    for forward in forwards {
        for error in &errors {
            let about: [(&str, &[u8]); 2] = [("forward", forward.as_bytes()), ("fwdErr", error.as_bytes())];
            let how = format!("forward is \"{forward}\" and fwdErr is \"{error}\"");
            sheets.add(how.clone(), form.between(&form.plain_with(&about)));
            sheets.add(format!("{how} with SnpCleanFwd"), form.between(&form.plain_with(&[&fwded[..], &about].concat())));
            let both_known = form.names("forward").contains(&forward) && form.names("fwdErr").contains(error);
            for (besides, column, field) in [("no such pair", "pair", &no_pair), ("a long line", "final", &long)] {
                if both_known {
                    let line = form.plain_with(&[&about[..], &[(column, field.as_bytes())]].concat());
                    sheets.add(format!("{how}, and {besides}"), form.between(&line));
                }
            }
        }
    }
}

/// Places of columns in other orders than their own, with one fewer, one more, or the last one elsewhere, each with what was done.
fn other_orders(columns: &[&str]) -> Vec<(String, Vec<usize>)> {
    let last = columns.len() - 1;
    let mut orders: Vec<(String, Vec<usize>)> = Vec::new();
    for (place, column) in columns.iter().enumerate() {
        let elsewhere = (0..place).chain([last]).chain(place..last).collect();
        orders.push((format!("without {column}"), (0..=last).filter(|other| *other != place).collect()));
        orders.push((format!("with {} in the place of {column}", columns[last]), elsewhere));
    }
    for place in [last - 1, last] {
        orders.push((format!("with {} again at the end", columns[place]), (0..=last).chain([place]).collect()));
    }
    orders.retain(|(_, order)| *order != (0..=last).collect::<Vec<usize>>());
    orders
}

/// Adds sheets with a column fewer or more in the header, in lines or in both, or with a column at another place.
fn other_columns(form: &Form, sheets: &mut Gathered, _: u64) {
    let header = form.definition.header.as_bytes().to_vec();
    let fwded: [(&str, &[u8]); 2] = [("request", b"SnpCleanFwd"), ("response", b"SnpResp_SC_Fwded_SC")];
    let forwarding = form.plain_with(&[&fwded[..], &[("forward", &b"CompData_SC"[..])]].concat());
    let lines = [form.before(), forwarding, form.plain(), form.after()];
    let sheet = |header: &[u8], lines: &[Vec<u8>]| {
        let all = [&[header.to_vec()][..], lines].concat();
        all.iter().flat_map(|line| [line, CRLF].concat()).collect::<Vec<u8>>()
    };
    for (how, order) in other_orders(&form.columns()) {
        let changed = |line: &Vec<u8>| {
            let fields = fields_of(line);
            line_of(&order.iter().map(|place| fields[*place].clone()).collect::<Vec<_>>())
        };
        let (other_header, other_lines) = (changed(&header), lines.each_ref().map(changed));
        sheets.add(format!("header and lines {how}"), sheet(&other_header, &other_lines));
        sheets.add(format!("the header {how}"), sheet(&other_header, &lines));
        sheets.add(format!("the header {how}, alone"), sheet(&other_header, &[]));
        sheets.add(format!("the lines {how}"), sheet(&header, &other_lines));
        // The line that forwards, and the plain one.
        for n in [1, 2] {
            let mut mixed = lines.clone();
            mixed[n].clone_from(&other_lines[n]);
            sheets.add(format!("line {} {how}", n + 2), sheet(&header, &mixed));
        }
        sheets.add(format!("the header {how} after the header"), sheet(&header, &[other_header.clone(), form.before()]));
        sheets.add(format!("the header after the header {how}"), sheet(&other_header, &[header.clone(), form.before()]));
    }
    sheets.add("the sample before_fwd_err.csv", include_bytes!("../../../samples/before_fwd_err.csv").to_vec());
}

/// Adds sheets with CR and LF alone at each place of a line, and with other ends of lines.
fn ends_of_lines(form: &Form, sheets: &mut Gathered, _: u64) {
    let lines = [form.before(), form.plain(), form.after()];
    let alone: [&[u8]; 5] = [b"\r", b"\n", b"\r\r", b"\n\r", b"\r\n"];
    // In the last line CR and LF alone are enough.
    for (n, alone) in [(1, &alone[..]), (2, &alone[..2])] {
        for place in 0..=lines[n].len() {
            for put in alone {
                let mut changed = lines.clone();
                changed[n].splice(place..place, put.iter().copied());
                let how = format!("\"{}\" at place {place} of line {}", put.escape_ascii(), n + 2);
                sheets.add(how, form.sheet(&changed));
            }
        }
    }
    let all = [&[form.definition.header.into()][..], &lines].concat();
    let changed: [&[usize]; 6] = [&[1], &[2], &[3], &[4], &[2, 3, 4], &[1, 2, 3, 4]];
    for end in OTHER_ENDS {
        for numbers in changed {
            let end_of = |n: usize| if numbers.contains(&(n + 1)) { end } else { CRLF };
            let bytes = all.iter().enumerate().flat_map(|(n, line)| [line, end_of(n)].concat()).collect();
            sheets.add(format!("\"{}\" for the CRLF of lines {numbers:?}", end.escape_ascii()), bytes);
        }
    }
}

/// What is tried before the first line, between lines and after the last.
#[rustfmt::skip]
const BITS: [&[u8]; 25] = [
    b"", b"\r\n", b"\r", b"\n", b"\r\r", b"\n\n", b"\n\r", b"\r\n\r\n", b"\r\n\r", b"\r\n\n", b"\r\r\n", b"\n\r\n",
    b"\r\n\r\n\r\n", b"\0", b"\0\r\n", b"x", b",", b" ", b" \r\n", b"\x1a", b"\xff", b"\"", b"0", b"0\r\n",
    b"\xef\xbb\xbf",
];

/// Adds sheets that are nearly nothing, cut ones, and ones with empty or strange first and last lines.
fn first_and_last(form: &Form, sheets: &mut Gathered, _: u64) {
    let lines = [form.before(), form.after()];
    let [none, one, two] = [0, 1, 2].map(|count| form.sheet(&lines[..count]));
    for bit in BITS {
        let places: [(&str, &[u8], &[u8]); 9] = [
            ("as the whole input", b"", b""),
            ("and nothing after the header", &none, b""),
            ("after the header's text", &none[..none.len() - 2], b""),
            ("after one event", &one, b""),
            ("after two events", &two, b""),
            ("in the place of the last CRLF", &two[..two.len() - 2], b""),
            ("before the header", b"", &two),
            ("before the first event", &none, &two[none.len()..]),
            ("before the second event", &one, &two[one.len()..]),
        ];
        for (how, before, after) in places {
            sheets.add(format!("\"{}\" {how}", bit.escape_ascii()), [before, bit, after].concat());
        }
    }
    for end in 0..two.len() {
        sheets.add(format!("the first {end} bytes of a sheet"), two[..end].to_vec());
    }
}

/// What is tried before the header and after it.
#[rustfmt::skip]
const HEADER_BITS: [&[u8]; 15] = [
    b",", b" ", b"\0", b"x", b",x", b",final", b",fwdErr", b",fwderr", b"\t", b"\r", b"\n", b"\xef\xbb\xbf", b"\xfe\xff", b"#", b"\"",
];

/// Adds sheets with another header.
fn headers(form: &Form, sheets: &mut Gathered, _: u64) {
    let header = form.definition.header;
    let bytes = header.as_bytes();
    let before = String::from_utf8_lossy(&form.before()).to_string();
    let mut others: Vec<(String, Vec<u8>)> = Vec::new();
    others.extend(spoiled(bytes).into_iter().map(|other| ("the header spoiled".to_string(), other)));
    for (how, column, other) in spoiled_fields(&fields_of(bytes)) {
        others.push((format!("the header, {how} {}", form.columns()[column]), other));
    }
    for bit in HEADER_BITS {
        others.push((format!("the header and \"{}\"", bit.escape_ascii()), [bytes, bit].concat()));
        others.push((format!("\"{}\" and the header", bit.escape_ascii()), [bit, bytes].concat()));
    }
    let texts = [
        ("the header with semicolons", header.replace(',', ";")),
        ("the header with commas and spaces", header.replace(',', ", ")),
        ("the header with dashes", header.replace(',', "-")),
        ("the output's header", OUTPUT_HEADER.to_string()),
        ("an event for a header", before.clone()),
        ("the header twice in a line", header.repeat(2)),
        ("the header twice", format!("{header}\r\n{header}")),
        ("the header, an event and the header", format!("{header}\r\n{before}\r\n{header}")),
        ("the header after a line", format!("x\r\n{header}")),
        ("the header in the reverse", header.chars().rev().collect()),
    ];
    others.extend(texts.map(|(how, text)| (how.to_string(), text.into_bytes())));
    for (how, other) in others {
        sheets.add(how, [&other, CRLF, before.as_bytes(), CRLF].concat());
    }
}

/// Adds sheets with a refusal at many lines, and with several.
fn refusals(form: &Form, sheets: &mut Gathered, _: u64) {
    let refused = [
        ("3", form.plain_with(&[("pair", form.no_pair().as_bytes())])),
        ("8", form.plain_with(&[("final", b"sc")])),
        ("7", vec![b'0'; form.definition.longest_line + 1]),
        ("8 for nothing", vec![]),
    ];
    let good = |lines: usize| (0..lines).map(|n| form.plain_with(&[("pair", (n % 40).to_string().as_bytes())]));
    for lines in [0, 1, 2, 7, 8, 9, 10, 97, 98, 99, 253, 254, 255, 997, 998, 999, 9_998, 9_999] {
        for (first, line) in if lines < 9_998 { &refused[..] } else { &refused[1..2] } {
            let before: Vec<Vec<u8>> = good(lines).chain([line.clone()]).collect();
            if lines > 99 {
                sheets.add(format!("refusal {first} after {lines} events"), form.sheet(&before));
            }
            let seconds = if lines > 99 {
                0
            } else if lines > 9 {
                1
            } else {
                refused.len()
            };
            for (second, other) in &refused[..seconds] {
                let all: Vec<Vec<u8>> = before.iter().cloned().chain([other.clone()]).chain(good(2)).collect();
                let how = format!("refusal {first} and then {second} after {lines} events");
                sheets.add(how, form.sheet(&all));
            }
        }
    }
}

/// The lengths of lines that are tried beside those near the longest.
#[rustfmt::skip]
const OTHER_LENGTHS: [usize; 29] = [
    101, 127, 128, 129, 191, 192, 193, 255, 256, 257, 300, 319, 320, 321, 416, 417, 511, 512, 513, 1_024, 4_095, 4_096,
    4_097, 5_000, 65_535, 65_536, 65_636, 70_000, 200_000,
];

/// What long lines are tried to end in, a CRLF or not.
#[rustfmt::skip]
const LONG_ENDS: [&[u8]; 14] = [
    b"", b"\r\n", b"\r", b"\r\r", b"\r\r\n", b"\r\r\r\n", b"\n", b"\n\r", b"\n\r\n", b"\n\n\r\n", b"\rx", b"\rx\r\n",
    b"\nx\r\n", b"\r\rx\r\n",
];

/// A line of this length that begins with some text and goes on with one byte.
fn filled((text, byte): (&str, u8), length: usize) -> Vec<u8> {
    let mut line = text.as_bytes().to_vec();
    line.resize(length, byte);
    line
}

/// Adds sheets with long lines at the first place, in the middle and at the end.
fn line_lengths(form: &Form, sheets: &mut Gathered, _: u64) {
    let (before, after, longest) = (form.before(), form.after(), form.definition.longest_line);
    let plain = String::from_utf8_lossy(&form.plain()).to_string();
    let bytes = [b'x', b',', b'1', 0, 255, b'\r', b'\n'].map(|byte| ("", byte));
    let no_pair = format!("{},SnpShared,0,0,0,Invalid,SnpResp_I", form.no_pair());
    let begun = [(&plain[..], b'x'), (&plain, b' '), (&no_pair, b'I')];
    let near = bytes.iter().chain(&begun).flat_map(|filler| (longest - 2..=longest + 2).map(|length| (*filler, length)));
    let far = OTHER_LENGTHS.into_iter().flat_map(|length| [(bytes[0], length), (begun[0], length)]);
    for (filler, length) in near.chain(far) {
        let line = filled(filler, length);
        let last = form.sheet(&[before.clone(), line.clone()]);
        let placed = [
            ("line 2", form.sheet(&[line.clone(), before.clone(), after.clone()])),
            ("line 3, the last,", last.clone()),
            ("line 3 without a CRLF", without_crlf(last)),
            ("line 4", form.sheet(&[before.clone(), after.clone(), line, before.clone()])),
        ];
        for (place, bytes) in placed {
            sheets.add(format!("{place} of {length} bytes, \"{}\" and byte {}", filler.0, filler.1), bytes);
        }
    }
    let header = form.definition.header;
    for length in (longest - 2..=longest + 2).chain([256, 5_000, 70_000, 200_000]) {
        for filler in [(header, b'x'), (header, b','), (header, b' '), ("", b'x'), ("", b'\r')] {
            let line = filled(filler, length);
            let how = format!("line 1 of {length} bytes, \"{}\" and byte {}", filler.0, filler.1);
            sheets.add(format!("{how}, alone"), line.clone());
            sheets.add(how, [&line, CRLF, &before, CRLF].concat());
        }
    }
    for length in longest - 5..=longest + 2 {
        for end in LONG_ENDS {
            let last = [form.sheet(std::slice::from_ref(&before)), filled(bytes[0], length), end.to_vec()].concat();
            let how = format!("{length} bytes and \"{}\"", end.escape_ascii());
            sheets.add(format!("{how} at the very end"), last.clone());
            sheets.add(how, [&last, &after, CRLF].concat());
        }
    }
}
