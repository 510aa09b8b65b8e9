//! The columns of a bench sheet: the names that each knows, and the bytes of an event that each name stands for.

use crate::definition::codes::*;
use crate::definition::values::Definition;

/// How a tag state or a final state that was not seen is written.
const NOT_SEEN: &str = "?";

/// A column after the pair's.
#[derive(Clone, Debug)]
pub struct Column {
    /// Its name in the header.
    pub name: &'static str,
    /// The place of the first byte that it gives.
    pub place: usize,
    /// The names that it knows, each with the bytes that it stands for.
    pub names: Vec<(&'static str, Vec<u8>)>,
}

impl Column {
    /// The bytes that a field stands for, if the column knows it.
    pub fn bytes(&self, field: &str) -> Option<&[u8]> {
        self.names.iter().find(|(name, _)| *name == field).map(|(_, bytes)| &bytes[..])
    }

    /// The name of what an event has in the column's bytes, if there is one.
    pub fn name_in(&self, event: &[u8]) -> Option<&'static str> {
        let forwards = event[byte::FORWARDED] != 0;
        let agrees = |name: &str| !self.is_about_forward() || (name != NOTHING) == forwards;
        let mut names = self.names.iter().filter(|(name, bytes)| event[self.place..].starts_with(bytes) && agrees(name));
        names.next().map(|(name, _)| *name)
    }

    /// Whether it says of the forwarded data something, or that there is none.
    pub fn is_about_forward(&self) -> bool {
        self.bytes(NOTHING).is_some()
    }
}

/// Whether the fields of a line agree on whether there is forwarded data: - stands in all columns about it, or in none.
pub fn agree_on_forward(columns: &[Column], fields: &[&str]) -> bool {
    let about = columns.iter().zip(fields).filter(|(column, _)| column.is_about_forward());
    let mut nothing = about.map(|(_, field)| *field == NOTHING);
    let first = nothing.next();
    nothing.all(|other| Some(other) == first)
}

/// The columns after the pair's, in the order of the header.
pub fn columns(definition: &Definition) -> Vec<Column> {
    definition.header.split(',').skip(1).map(|name| column(definition, name)).collect()
}

/// The column of a name.
fn column(definition: &Definition, name: &'static str) -> Column {
    let at_codes = |names: &[&'static str]| {
        let codes = names.iter().enumerate().map(|(code, name)| (*name, vec![code as u8]));
        codes.collect::<Vec<(&str, Vec<u8>)>>()
    };
    let requests = || definition.requests.iter().map(|(name, code)| (*name, vec![*code])).collect();
    let responses = || definition.responses().iter().map(|response| (response.name, response.bytes().to_vec())).collect();
    let forwards = || definition.forwards().iter().map(|forward| (forward.name, forward.bytes().to_vec())).collect();
    let (place, names) = match name {
        "request" => (byte::REQUEST, requests()),
        "RetToSrc" => (byte::RET_TO_SRC, at_codes(&["0", "1"])),
        "DoNotGoToSD" => (byte::DO_NOT_GO_TO_SD, at_codes(&["0", "1"])),
        "excl" => (byte::EXCL, at_codes(&["0", "1"])),
        // What was not seen has the code after all others.
        "tag" => (byte::TAG, at_codes(&[&TAGS[..], &[NOT_SEEN]].concat())),
        "response" => (byte::CHANNEL, responses()),
        "TagOp" => (byte::TAG_OP, at_codes(&TAG_OPS)),
        "RespErr" => (byte::RESP_ERR, at_codes(&RESP_ERRS)),
        "forward" => (byte::FORWARDED, forwards()),
        "final" => (byte::AFTER, at_codes(&[&STATES[..], &[NOT_SEEN]].concat())),
        // Where nothing is forwarded the byte is 0, as it is with OK.
        "fwdErr" => (byte::FWD_ERR, [vec![(NOTHING, vec![0])], at_codes(&RESP_ERRS)].concat()),
        other => panic!("no column is named {other}"),
    };
    Column { name, place, names }
}
