//! The values that the documents fix, and what each follow-up request changes in them.

use crate::definition::codes::{byte, Forward, Response, DERR, OK};
use crate::definition::rows::{rows, Row, B4_46, B4_60, PRINTED, PRINTED_BY_Q4, SNP_CLEAN_INVALID, SNP_MAKE_INVALID, SNP_UNIQUE, TABLES};
use crate::definition::tag_ops::TagColumn;

/// What the documents fix. A request that is in force changes some of these values.
#[derive(Clone, Debug)]
pub struct Definition {
    /// The requests that are judged, with their codes, in ascending order.
    pub requests: Vec<(&'static str, u8)>,
    /// The highest value in the range of each byte of an event; the request has none but its codes.
    pub limits: Vec<u8>,
    /// The tables, each with the requests it is for.
    pub tables: Vec<(&'static str, Vec<u8>)>,
    /// The rows, table by table.
    pub rows: Vec<Row>,
    /// The tables with data, each with the tag column that it follows.
    pub tag_columns: Vec<(&'static str, TagColumn)>,
    /// The requests whose OK answer throws a Dirty line away on purpose.
    pub discarding: Vec<u8>,
    /// The errors that forwarded data can have, none where an event has no byte for them.
    pub forwarded_errors: Vec<u8>,
    /// The most events that a trace can have.
    pub most_events: usize,
    /// The most pairs that a table of sets can have, and how many a sheet and a capture have.
    pub most_pairs: usize,
    /// The header that a sheet begins with.
    pub header: &'static str,
    /// The most digits of a pair on a sheet.
    pub pair_digits: usize,
    /// The most bytes that a sheet's line can have.
    pub longest_line: usize,
    /// The most lines that a sheet can have.
    pub most_lines: usize,
    /// What a capture begins with, ahead of its records.
    pub capture_mark: &'static [u8],
}

/// The most pairs that there could be before Q-6.
pub const PAIRS_BEFORE_Q6: usize = 4_096;

/// The last follow-up request that is in force, or 0 where none is.
pub const IN_FORCE: usize = 6;

/// Changes a definition as a follow-up request asks.
type Change = fn(&mut Definition);

/// What follow-up requests change, each by its number.
const CHANGES: &[(usize, Change)] = &[(2, tags_of_plain_snoops), (4, invalidating_snoops), (5, error_of_forwarded_data), (6, more_pairs)];

/// plain data no longer carries any TagOp up to Update.
fn tags_of_plain_snoops(definition: &mut Definition) {
    definition.set_tag_column(B4_46, TagColumn::Plain);
}

/// three more snoops, each with a table of its own; the data of two follows Q-2, and the third throws Dirty lines away.
fn invalidating_snoops(definition: &mut Definition) {
    let snoops = [(SNP_UNIQUE, 7), (SNP_CLEAN_INVALID, 9), (SNP_MAKE_INVALID, 10)];
    definition.requests.extend(snoops);
    definition.requests.sort_by_key(|(_, code)| *code);
    definition.tables.extend(snoops.map(|(name, code)| (name, vec![code])));
    definition.rows.extend(rows(PRINTED_BY_Q4));
    definition.set_tag_column(SNP_UNIQUE, TagColumn::Plain);
    definition.set_tag_column(SNP_CLEAN_INVALID, TagColumn::Plain);
    definition.discarding.push(10);
}

/// an event has a byte more, for the error of the forwarded data, a sheet has a column for it, and a capture has a mark.
fn error_of_forwarded_data(definition: &mut Definition) {
    definition.limits.push(3);
    definition.forwarded_errors = vec![OK, DERR];
    definition.header = "pair,request,RetToSrc,DoNotGoToSD,excl,tag,response,TagOp,RespErr,forward,final,fwdErr";
    // The last byte is how many an event has.
    definition.capture_mark = &[b'C', b'H', b'I', 15];
}

/// there can be as many pairs as there are pair numbers of 16 bits, and a pair on a sheet has up to five digits.
fn more_pairs(definition: &mut Definition) {
    definition.most_pairs = 65_536;
    definition.pair_digits = 5;
}

impl Definition {
    /// Document 01 alone.
    pub fn base() -> Definition {
        Definition {
            requests: vec![
                ("SnpShared", 1),
                ("SnpClean", 2),
                ("SnpNotSharedDirty", 4),
                ("SnpCleanFwd", 18),
                ("SnpNotSharedDirtyFwd", 20),
                ("SnpPreferUnique", 21),
                ("SnpPreferUniqueFwd", 22),
            ],
            limits: vec![255, 1, 1, 1, 3, 1, 31, 7, 7, 3, 3, 1, 7, 7],
            tables: TABLES.map(|(table, requests)| (table, requests.to_vec())).to_vec(),
            rows: rows(PRINTED),
            tag_columns: vec![
                (B4_46, TagColumn::UpToUpdate),
                ("B4.57", TagColumn::Forwarding),
                ("B4.59", TagColumn::Forwarding),
                (B4_60, TagColumn::Forwarding),
            ],
            discarding: vec![],
            forwarded_errors: vec![],
            most_events: 4_096,
            most_pairs: PAIRS_BEFORE_Q6,
            header: "pair,request,RetToSrc,DoNotGoToSD,excl,tag,response,TagOp,RespErr,forward,final",
            pair_digits: 4,
            longest_line: 160,
            most_lines: 1_000_001,
            capture_mark: &[],
        }
    }

    /// The definition with the follow-up requests up to one in force, if that one is.
    pub fn at_stage(request: usize) -> Option<Definition> {
        let mut definition = Definition::base();
        CHANGES.iter().filter(|(number, _)| *number <= request).for_each(|(_, change)| change(&mut definition));
        (0..=IN_FORCE).contains(&request).then_some(definition)
    }

    /// The definition with all follow-up requests in force that are.
    pub fn now() -> Definition {
        Definition::at_stage(IN_FORCE).expect("the last request is in force")
    }

    /// The requests that a table is for; the row of NDERR is for all.
    pub fn requests_of(&self, table: &str) -> Vec<u8> {
        match self.tables.iter().find(|(name, _)| *name == table) {
            Some((_, requests)) => requests.clone(),
            None => self.requests.iter().map(|(_, code)| *code).collect(),
        }
    }

    /// The tag column that a table with data follows.
    pub fn tag_column(&self, table: &str) -> TagColumn {
        let column = self.tag_columns.iter().find(|(name, _)| *name == table);
        column.expect("a table with data follows a tag column").1
    }

    /// Lets a table follow a tag column, and no longer the one that it followed.
    pub fn set_tag_column(&mut self, table: &'static str, column: TagColumn) {
        self.tag_columns.retain(|(name, _)| *name != table);
        self.tag_columns.push((table, column));
    }

    /// How many bytes an event has.
    pub fn event_bytes(&self) -> usize {
        self.limits.len()
    }

    /// Whether an event has a byte for the error of the forwarded data.
    pub fn has_fwd_err(&self) -> bool {
        self.event_bytes() > byte::FWD_ERR
    }

    /// The responses that the rows name, each once.
    pub fn responses(&self) -> Vec<Response> {
        each_once(self.rows.iter().map(|row| row.response))
    }

    /// The forwards that the rows name, each once, no forward among them.
    pub fn forwards(&self) -> Vec<Forward> {
        each_once(self.rows.iter().map(|row| row.forward))
    }
}

/// Things in the order in which they come first.
fn each_once<T: PartialEq>(things: impl Iterator<Item = T>) -> Vec<T> {
    let mut once = Vec::new();
    for thing in things {
        if !once.contains(&thing) {
            once.push(thing);
        }
    }
    once
}

#[cfg(test)]
mod tests {
    use super::*;

    /// The rows name as many responses and forwards as the definition counts.
    #[test]
    fn names_are_counted() {
        for definition in [Definition::base(), Definition::now()] {
            assert_eq!(definition.responses().len(), 22);
            assert_eq!(definition.forwards().len(), 1 + 4);
        }
    }

    /// Every stage up to the last can be asked, and no later one.
    #[test]
    fn stages() {
        assert!((0..=IN_FORCE).all(|request| Definition::at_stage(request).is_some()));
        assert!(Definition::at_stage(IN_FORCE + 1).is_none());
        assert!(CHANGES.iter().all(|(number, _)| (1..=IN_FORCE).contains(number)));
    }

    /// change no value, so that stage 1 is document 01 and stage 3 is stage 2.
    #[test]
    fn stages_without_a_change() {
        let stages = [0, 1, 2, 3, 4, 5, 6].map(|request| format!("{:?}", Definition::at_stage(request).unwrap()));
        let [zero, one, two, three, four, five, six] = stages;
        assert_eq!((&zero, &two), (&one, &three));
        assert!(one != two && three != four && four != five && five != six);
    }

    /// Q-4 keeps all requests, tables, rows, tag columns and limits that there were, and adds three snoops with their rows.
    #[test]
    fn q4_keeps_what_was() {
        let [three, four] = [3, 4].map(|request| Definition::at_stage(request).unwrap());
        let codes: Vec<u8> = four.requests.iter().map(|(_, code)| *code).collect();
        assert_eq!(codes, [1, 2, 4, 7, 9, 10, 18, 20, 21, 22]);
        assert!(three.requests.iter().all(|request| four.requests.contains(request)));
        assert_eq!(four.tables[..three.tables.len()], three.tables);
        assert_eq!(four.tag_columns[..three.tag_columns.len()], three.tag_columns);
        assert_eq!(format!("{:?}", &four.rows[..three.rows.len()]), format!("{:?}", three.rows));
        assert_eq!((four.rows.len() - three.rows.len(), &four.limits), (12, &three.limits));
    }

    /// Q-5 adds a byte, a column and a mark, whose last byte is the length of an event, and changes nothing else.
    #[test]
    fn q5_keeps_what_was() {
        let [four, mut five] = [4, 5].map(|request| Definition::at_stage(request).unwrap());
        assert_eq!([four.event_bytes(), five.event_bytes()], [14, 15]);
        assert_eq!([four.has_fwd_err(), five.has_fwd_err()], [false, true]);
        assert_eq!((four.capture_mark, five.capture_mark), (&b""[..], &b"CHI\x0f"[..]));
        assert_eq!(five.header, format!("{},fwdErr", four.header));
        assert_eq!((five.limits.pop(), &five.forwarded_errors), (Some(3), &vec![0, 2]));
        five.forwarded_errors.clear();
        (five.header, five.capture_mark) = (four.header, four.capture_mark);
        assert_eq!(format!("{five:?}"), format!("{four:?}"));
    }

    /// Q-6 raises the pairs to as many as there are numbers of 16 bits, gives a pair on a sheet a digit more, and changes nothing else.
    #[test]
    fn q6_keeps_what_was() {
        let [five, mut six] = [5, 6].map(|request| Definition::at_stage(request).unwrap());
        assert_eq!([five.most_pairs, six.most_pairs], [4_096, 65_536]);
        assert_eq!([five.pair_digits, six.pair_digits], [4, 5]);
        assert_eq!(six.most_pairs - 1, usize::from(u16::MAX));
        // The last pair has as many digits as a pair can have, so that a number of more digits is never a pair.
        assert_eq!([&five, &six].map(|definition| (definition.most_pairs - 1).to_string().len()), [five.pair_digits, six.pair_digits]);
        assert_eq!((six.most_events, six.event_bytes()), (4_096, 15));
        (six.most_pairs, six.pair_digits) = (five.most_pairs, five.pair_digits);
        assert_eq!(format!("{six:?}"), format!("{five:?}"));
    }
}
