//! The lines that bench sheets are made of.

use crate::cases::text::{line_of, Fields};
use crate::definition::codes::NOTHING;
use crate::definition::columns::{columns, Column};
use crate::definition::sheet::CRLF;
use crate::definition::values::Definition;

/// What is tried in the place of a CRLF.
#[rustfmt::skip]
pub const OTHER_ENDS: [&[u8]; 20] = [
    b"", b"\r", b"\n", b"\n\r", b"\r\r", b"\n\n", b"\r\r\n", b"\r\r\r\n", b"\n\r\n", b"\r\n\n", b"\r\n\r",
    b"\r\n\r\n", b"\r\n\r\n\r\n", b"\r \n", b" \r\n", b"\0\r\n", b"\r\0\n", b"\x1a\r\n", b"\x0b", b"\xc2\x85",
];

/// Snoops that CHI has or might have, and that document 01 does not judge; Q-4 judges three of them.
#[rustfmt::skip]
pub const OTHER_REQUESTS: [&str; 19] = [
    "SnpUnique", "SnpUniqueFwd", "SnpOnce", "SnpOnceFwd", "SnpSharedFwd", "SnpCleanShared", "SnpCleanInvalid",
    "SnpMakeInvalid", "SnpQuery", "SnpDVMOp", "SnpStashUnique", "SnpStashShared", "SnpUniqueStash",
    "SnpMakeInvalidStash", "SnpLCrdReturn", "SnpNotShared", "SnpInvalid", "SnpMakeUnique", "SnpCleanInvalidFwd",
];

/// Fields that are tried for a pair; a blank parts them.
pub const PAIR_FIELDS: &str = "0 1 9 10 11 99 100 255 256 999 1000 1001 1023 2047 2048 3999 4000 4089 4090 4094 4095 \
    4096 4097 4099 4100 4195 4999 5000 5095 8191 8192 9000 9999 10000 10001 16383 16384 32767 32768 32769 40950 40960 \
    59999 60000 64999 65000 65499 65500 65529 65530 65534 65535 65536 65537 65538 65539 65540 65545 65600 66000 66535 \
    69631 69632 70000 75535 98304 99999 100000 100001 131071 131072 165535 655350 655359 655360 999999 1000000 4294967295 \
    4294967296 4294967297 4295032831 4295032832 18446744073709551615 18446744073709551616 18446744073709617151 00 01 007 \
    000 0000 0001 0095 04095 04096 09999 00000 00001 010000 065535 065536 000000 000001 0065535 1a a1 a -1 -0 +1 +0 1.0 \
    1e3 0x1 / 1/ /1 : 1: :1 ? - 1_0 1,0 '1 \"1\" 6553a 655a5 a5535 6553/ 6553: -6553 +65535 -65535 65.535 65,535 6_5535 \
    0xffff \"65535\" 12345678901234567890123456789012345678901 \u{ff11} 6553\u{ff15}";

/// How many bytes of good lines stand at least behind a line that has many behind it.
pub const AT_HAND: usize = 320;

/// Some pair numbers of each length.
const PAIRS: [&str; 6] = ["0", "7", "16", "255", "4095", "65535"];

/// The form of a sheet's lines under a definition.
pub struct Form<'a> {
    pub definition: &'a Definition,
    /// The columns after the pair's.
    columns: Vec<Column>,
}

/// Other fields for some columns, each by the column's name.
pub type Changes<'a> = [(&'a str, &'a [u8])];

impl<'a> Form<'a> {
    /// The form under a definition.
    pub fn new(definition: &'a Definition) -> Form<'a> {
        Form { definition, columns: columns(definition) }
    }

    /// The names of all columns.
    pub fn columns(&self) -> Vec<&'static str> {
        self.definition.header.split(',').collect()
    }

    /// The names that a column knows, or some pairs of each length.
    pub fn names(&self, column: &str) -> Vec<&'static str> {
        match self.columns.iter().find(|known| known.name == column) {
            Some(column) => column.names.iter().map(|(name, _)| *name).collect(),
            None => PAIRS.into_iter().filter(|pair| pair.parse().is_ok_and(|pair: usize| pair < self.definition.most_pairs)).collect(),
        }
    }

    /// The lowest number that is no pair.
    pub fn no_pair(&self) -> String {
        self.definition.most_pairs.to_string()
    }

    /// The names that forwarded data's errors have in the column fwdErr, if there is one.
    pub fn forward_errors(&self) -> Vec<&'static str> {
        let column = self.columns.iter().find(|column| column.name == "fwdErr");
        let names = column.map_or(vec![], |_| self.names("fwdErr"));
        names.into_iter().filter(|name| *name != NOTHING).collect()
    }

    /// The fields of a line about a pair's event, whose bytes have names.
    pub fn event_fields(&self, pair: usize, event: &[u8]) -> Fields {
        let names = self.columns.iter().map(|column| column.name_in(event).expect("an event's bytes have names").into());
        [pair.to_string().into_bytes()].into_iter().chain(names).collect()
    }

    /// A good line, each of whose fields can be changed: the first name of each column, and a final state that was not seen.
    pub fn plain(&self) -> Vec<u8> {
        self.plain_with(&[])
    }

    /// The plain line with other fields in some columns; of the two about the forward, one that is not changed follows the other.
    pub fn plain_with(&self, changes: &Changes) -> Vec<u8> {
        let changed = |column: &str| changes.iter().rfind(|(changed, _)| *changed == column).map(|(_, field)| *field);
        let is_something = |column: &str| changed(column).is_some_and(|field| field != NOTHING.as_bytes());
        let field = |column: &str| match changed(column) {
            Some(field) => field.to_vec(),
            None if column == "final" => b"?".to_vec(),
            None if column == "forward" && is_something("fwdErr") => b"CompData_SC".to_vec(),
            None if column == "fwdErr" && is_something("forward") => b"OK".to_vec(),
            None => self.names(column)[0].into(),
        };
        line_of(&self.columns().into_iter().map(field).collect::<Fields>())
    }

    /// Lets the column fwdErr of a line's fields, if there is one, agree with the column forward on whether there is a forward.
    pub fn agree_on_forward(&self, fields: &mut Fields) {
        let place = |name: &str| self.columns().iter().position(|column| *column == name);
        if let (Some(forward), Some(fwd_err)) = (place("forward"), place("fwdErr")) {
            match [forward, fwd_err].map(|place| fields[place] == NOTHING.as_bytes()) {
                [true, false] => fields[fwd_err] = NOTHING.into(),
                [false, true] => fields[fwd_err] = b"OK".to_vec(),
                _ => {}
            }
        }
    }

    /// A line that leaves pair 1 in I or SC, with the duty to Home.
    pub fn before(&self) -> Vec<u8> {
        let answer: [(&str, &[u8]); 2] = [("response", b"SnpRespData_SC_PD"), ("TagOp", b"Transfer")];
        self.plain_with(&[&[("pair", &b"1"[..]), ("request", b"SnpClean"), ("tag", b"?")], &answer[..]].concat())
    }

    /// A line that is explained after that one, and leaves pair 1 in SC.
    pub fn after(&self) -> Vec<u8> {
        self.plain_with(&[("pair", b"1"), ("tag", b"?"), ("response", b"SnpResp_SC"), ("final", b"SC")])
    }

    /// A line of known names that has this length, which is not more than the longest has, and no forward if it can.
    pub fn of_length(&self, length: usize) -> Vec<u8> {
        let line = self.with_length(length, false);
        match line.len() < length {
            true => self.with_length(length, true),
            false => line,
        }
    }

    /// A line of known names that has at most this length if it can, with a forward or without.
    fn with_length(&self, length: usize, forwards: bool) -> Vec<u8> {
        let columns = self.columns();
        let mut fields: Vec<&str> = columns.iter().map(|column| self.longest(column, 0, forwards)).collect();
        for n in (0..columns.len()).rev() {
            let missing = length.saturating_sub(fields.join(",").len());
            fields[n] = self.longest(columns[n], fields[n].len() + missing, forwards);
        }
        fields.join(",").into_bytes()
    }

    /// The longest name of a column that has not more bytes than this, or else its shortest, with a forward or without.
    fn longest(&self, column: &str, most: usize, forwards: bool) -> &'static str {
        let mut names = self.names(column);
        if names.contains(&NOTHING) {
            names.retain(|name| (*name != NOTHING) == forwards);
        }
        let longest = names.iter().filter(|name| name.len() <= most).max_by_key(|name| name.len());
        longest.or(names.iter().min_by_key(|name| name.len())).expect("a column has names")
    }

    /// The sheet of some lines after the header, each with its CRLF.
    pub fn sheet(&self, lines: &[Vec<u8>]) -> Vec<u8> {
        let header = self.definition.header.as_bytes().to_vec();
        [header].iter().chain(lines).flat_map(|line| [line, CRLF].concat()).collect()
    }

    /// The sheet of a line between two good ones.
    pub fn between(&self, line: &[u8]) -> Vec<u8> {
        self.sheet(&[self.before(), line.to_vec(), self.after()])
    }

    /// The sheet of some bytes in the place of a line and its CRLF, with many good lines behind it.
    pub fn amid(&self, ended: &[u8], behind: &[Vec<u8>]) -> Vec<u8> {
        let mut sheet = [&self.sheet(&[self.before()])[..], ended].concat();
        let begin = sheet.len();
        let lines = behind.iter().cloned().chain([self.after(), self.of_length(0), self.before()].into_iter().cycle());
        for line in lines {
            if sheet.len() - begin >= AT_HAND {
                break;
            }
            sheet.extend([&line, CRLF].concat());
        }
        sheet
    }

    /// Good lines of each kind, each with what it is: the longest, the shortest, and two that are explained, one of which forwards.
    pub fn typical(&self) -> Vec<(&'static str, Vec<u8>)> {
        let fwded: [(&str, &[u8]); 3] = [("response", b"SnpResp_SC_Fwded_SC"), ("forward", b"CompData_SC"), ("fwdErr", b"DERR")];
        let pair = (self.definition.most_pairs - 1).to_string();
        let forwards = [&[("pair", pair.as_bytes()), ("request", b"SnpCleanFwd"), ("tag", b"Clean"), ("final", b"I")], &fwded[..]].concat();
        let data: &[(&str, &[u8])] = &[("response", b"SnpRespData_SC_PD"), ("TagOp", b"Transfer"), ("final", b"SC"), ("tag", b"?")];
        vec![
            ("the longest", self.of_length(self.definition.longest_line)),
            ("the shortest", self.of_length(0)),
            ("one that forwards", self.plain_with(&forwards)),
            ("a plain one", self.plain_with(&[&[("pair", &b"1234"[..]), ("RetToSrc", b"1")], data].concat())),
        ]
    }
}

/// The bytes without the CRLF that they end in.
pub fn without_crlf(mut sheet: Vec<u8>) -> Vec<u8> {
    sheet.truncate(sheet.len() - CRLF.len());
    sheet
}
