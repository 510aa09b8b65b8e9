//! A bench sheet answered, line by line.

use crate::definition::codes::{states_of, ALL_STATES, DUTIES, VERDICTS};
use crate::definition::columns::{agree_on_forward, columns, Column};
use crate::definition::trace::{judge_event, NO_PAIR};
use crate::definition::values::Definition;

/// The header that the output begins with.
pub const OUTPUT_HEADER: &str = "event,verdict,duty,states";
/// What ends a line.
pub const CRLF: &[u8] = b"\r\n";

/// The refusal of a sheet that begins otherwise than with its header.
pub const NO_HEADER: u8 = 6;
/// The refusal of a line that is too long or one too many.
pub const TOO_LONG: u8 = 7;
/// The refusal of a line that names no event of a pair.
pub const MALFORMED: u8 = 8;

/// What a sheet is answered with.
#[derive(Clone, Debug, PartialEq, Eq)]
pub struct Answered {
    /// The whole output.
    pub output: Vec<u8>,
    /// How many lines the sheet has.
    pub lines: usize,
    /// The number and the line of the refusal that ended the run, if one did.
    pub refusal: Option<(u8, usize)>,
    /// The verdict and the duty of each event.
    pub told: Vec<(u8, u8)>,
}

/// The answer to a whole sheet, every pair of which starts from any state.
pub fn answer(definition: &Definition, sheet: &[u8]) -> Answered {
    let mut table = vec![ALL_STATES; definition.most_pairs];
    answer_by(definition, sheet, |pair, event| {
        let judged = judge_event(definition, event, table[pair]);
        table[pair] = judged[2];
        judged
    })
}

/// The answer to a whole sheet by the judgment of each event, which is its verdict, its duty and the set after it.
pub fn answer_by<J>(definition: &Definition, sheet: &[u8], mut judge: J) -> Answered
where
    J: FnMut(usize, &[u8]) -> [u8; 3],
{
    let lines = lines(sheet);
    let mut output = format!("{OUTPUT_HEADER}\r\n");
    let mut told = Vec::new();
    let refusal = each_event(definition, &lines, |pair, event| {
        let [verdict, duty, after] = judge(pair, event);
        let (n, states) = (told.len(), states_of(after).join(" "));
        output += &format!("{n},{},{},{states}\r\n", VERDICTS[usize::from(verdict)], DUTIES[usize::from(duty)]);
        told.push((verdict, duty));
    });
    if let Some((number, line)) = refusal {
        output += &format!("refused,{number},{line}\r\n");
    }
    Answered { output: output.into_bytes(), lines: lines.len(), refusal, told }
}

/// The lines of a sheet without their CRLF, of which the last may have had none.
pub fn lines(sheet: &[u8]) -> Vec<&[u8]> {
    let mut lines = Vec::new();
    let mut rest = sheet;
    while !rest.is_empty() {
        let end = rest.windows(2).position(|two| two == CRLF);
        lines.push(&rest[..end.unwrap_or(rest.len())]);
        rest = end.map_or(&[], |end| &rest[end + 2..]);
    }
    lines
}

/// Visits the pair and the event of each line up to the first that is refused, and tells the number and line of its refusal.
pub fn each_event<V>(definition: &Definition, lines: &[&[u8]], mut visit: V) -> Option<(u8, usize)>
where
    V: FnMut(usize, &[u8]),
{
    if lines.first() != Some(&definition.header.as_bytes()) {
        return Some((NO_HEADER, 1));
    }
    let reader = Reader::new(definition);
    for (n, line) in lines.iter().enumerate().skip(1) {
        match reader.line(n + 1, line) {
            Ok((pair, event)) => visit(pair, &event),
            Err(number) => return Some((number, n + 1)),
        }
    }
    None
}

/// Reads lines by the names that a definition knows.
pub struct Reader<'a> {
    definition: &'a Definition,
    columns: Vec<Column>,
}

impl<'a> Reader<'a> {
    /// A reader of the names of a definition.
    pub fn new(definition: &'a Definition) -> Reader<'a> {
        Reader { definition, columns: columns(definition) }
    }

    /// The pair and the event of the line of this number, or the number of its refusal.
    fn line(&self, number: usize, line: &[u8]) -> Result<(usize, Vec<u8>), u8> {
        if line.len() > self.definition.longest_line || number > self.definition.most_lines {
            return Err(TOO_LONG);
        }
        let (pair, event) = self.fields(line).ok_or(MALFORMED)?;
        if pair >= self.definition.most_pairs {
            return Err(NO_PAIR);
        }
        Ok((pair, event))
    }

    /// The pair number and the event that a line's fields say, if they say any.
    pub fn fields(&self, line: &[u8]) -> Option<(usize, Vec<u8>)> {
        let mut fields = std::str::from_utf8(line).ok()?.split(',');
        let pair = self.pair_number(fields.next()?)?;
        let fields: Vec<&str> = fields.collect();
        if fields.len() != self.columns.len() || !agree_on_forward(&self.columns, &fields) {
            return None;
        }
        let mut event = vec![0; self.definition.event_bytes()];
        for (column, field) in self.columns.iter().zip(fields) {
            let bytes = column.bytes(field)?;
            event[column.place..column.place + bytes.len()].copy_from_slice(bytes);
        }
        Some((pair, event))
    }

    /// The number that a pair's field is, be there such a pair or not.
    fn pair_number(&self, field: &str) -> Option<usize> {
        let digits = !field.is_empty() && field.bytes().all(|byte| byte.is_ascii_digit());
        let leading_zero = field.starts_with('0') && field != "0";
        match digits && !leading_zero && field.len() <= self.definition.pair_digits {
            true => field.parse().ok(),
            false => None,
        }
    }
}
