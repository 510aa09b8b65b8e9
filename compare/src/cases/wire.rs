//! How cases are written that a program takes one after another.

use crate::definition::answers::QUESTION_BYTES;
use crate::definition::trace::{Judged, Lent};
use crate::definition::values::Definition;
use std::io::{self, Read};

/// How many bytes can be handed over as one event.
pub const EVENT_ROOM: usize = 40;

/// How many bytes can be lent for a list of answers.
pub const LIST_ROOM: usize = 640;
/// The place of the first of them in the record of a question, and in what it is answered with.
pub const LIST_PLACE: usize = QUESTION_BYTES + 2;

/// The most things that each part of a whole trace can have, in a case.
pub fn trace_rooms(definition: &Definition) -> [usize; 6] {
    let events = 2 * definition.most_events;
    [16 * definition.most_events, events, 2 * definition.most_pairs, events, events, events]
}

/// The record of one event: a length, and a room of which so many bytes are handed over.
pub fn event_record(length: usize, room: &[u8]) -> Vec<u8> {
    let mut record = vec![0; 1 + EVENT_ROOM];
    record[0] = length as u8;
    record[1..=room.len()].copy_from_slice(room);
    record
}

/// The bytes that an event's record hands over.
pub fn handed_over(record: &[u8]) -> &[u8] {
    &record[1..1 + usize::from(record[0])]
}

/// The next record of one event, or nothing where the input has ended.
pub fn next_event(_: &Definition, input: &mut dyn Read) -> io::Result<Option<Vec<u8>>> {
    next(input, 1 + EVENT_ROOM, |record| (usize::from(record[0]) <= EVENT_ROOM).then_some(0))
}

/// The record of a question: its bytes, a length in 16 bits, and bytes of which so many are lent for the list.
pub fn question_record(question: &[u8], length: usize, bytes: &[u8]) -> Vec<u8> {
    [question, &(length as u16).to_le_bytes(), bytes].concat()
}

/// The question in a record, the room lent for its list, which is all that there is where the length says more, and the rest.
pub fn question_in(record: &[u8]) -> (&[u8], &[u8], &[u8]) {
    let length = u16::from_le_bytes([record[QUESTION_BYTES], record[QUESTION_BYTES + 1]]);
    let (room, rest) = record[LIST_PLACE..].split_at(LIST_ROOM.min(length.into()));
    (&record[..QUESTION_BYTES], room, rest)
}

/// The next record of a question, or nothing where the input has ended.
pub fn next_question(_: &Definition, input: &mut dyn Read) -> io::Result<Option<Vec<u8>>> {
    next(input, LIST_PLACE + LIST_ROOM, |_| Some(0))
}

/// The case of a whole trace: how many things each part has, 32 bits each, and then the parts.
pub fn trace_case(lent: &Lent) -> Vec<u8> {
    let parts = lent.parts();
    let lengths = parts.iter().zip(Lent::PARTS).map(|(part, (_, bytes))| (part.len() / bytes) as u32);
    let mut case: Vec<u8> = lengths.flat_map(u32::to_le_bytes).collect();
    parts.into_iter().for_each(|part| case.extend(part));
    case
}

/// What is lent in the case of a whole trace.
pub fn lent_in(case: &[u8]) -> Lent {
    let (lengths, mut rest) = case.split_at(4 * Lent::PARTS.len());
    let mut lent = Lent::default();
    for (n, part) in lent.parts_mut().into_iter().enumerate() {
        let (bytes, more) = rest.split_at(bytes_of_part(lengths, n));
        part.extend(bytes);
        rest = more;
    }
    lent
}

/// What a whole trace is answered with: refusal, place in 32 bits, and the four parts that a call may write.
pub fn trace_answer(judged: &Judged) -> Vec<u8> {
    let mut answer = vec![judged.refusal];
    answer.extend((judged.place as u32).to_le_bytes());
    judged.lent.parts()[2..].iter().for_each(|part| answer.extend(*part));
    answer
}

/// How many bytes a part has by the lengths of its case.
fn bytes_of_part(lengths: &[u8], part: usize) -> usize {
    number(&lengths[4 * part..]) * Lent::PARTS[part].1
}

/// The next case of a whole trace, or nothing where the input has ended.
pub fn next_trace(definition: &Definition, input: &mut dyn Read) -> io::Result<Option<Vec<u8>>> {
    let rooms = trace_rooms(definition);
    next(input, 4 * Lent::PARTS.len(), |lengths| {
        let fits = (0..rooms.len()).all(|part| bytes_of_part(lengths, part) <= rooms[part] * Lent::PARTS[part].1);
        fits.then(|| (0..rooms.len()).map(|part| bytes_of_part(lengths, part)).sum())
    })
}

/// The number of 32 bits that some bytes begin with, the low byte first.
pub fn number(bytes: &[u8]) -> usize {
    u32::from_le_bytes([bytes[0], bytes[1], bytes[2], bytes[3]]) as usize
}

/// The next case of an input: so many bytes, and then as many more as these ask for, if there is room for them.
fn next<M>(input: &mut dyn Read, first: usize, more: M) -> io::Result<Option<Vec<u8>>>
where
    M: Fn(&[u8]) -> Option<usize>,
{
    let bad = |message: &str| io::Error::new(io::ErrorKind::InvalidData, message);
    let cut = || bad("the input ends within a case");
    let mut case = vec![0; first];
    match fill(input, &mut case)? {
        0 => return Ok(None),
        came if came < first => return Err(cut()),
        _ => {}
    }
    let more = more(&case).ok_or_else(|| bad("a case is larger than its room"))?;
    case.resize(first + more, 0);
    match fill(input, &mut case[first..])? == more {
        true => Ok(Some(case)),
        false => Err(cut()),
    }
}

/// Reads until the bytes are full or there is no more, and tells how many came.
pub fn fill(from: &mut dyn Read, bytes: &mut [u8]) -> io::Result<usize> {
    let mut filled = 0;
    while filled < bytes.len() {
        match from.read(&mut bytes[filled..]) {
            Ok(0) => break,
            Ok(came) => filled += came,
            Err(error) if error.kind() == io::ErrorKind::Interrupted => {}
            Err(error) => return Err(error),
        }
    }
    Ok(filled)
}

#[cfg(test)]
mod tests {
    use super::*;

    /// A trace in which every length is different.
    fn lent() -> Lent {
        let (duties, after_sets) = (vec![10, 11, 12, 13], vec![14, 15]);
        Lent { events: vec![1, 2], pairs: (3..9).collect(), table: vec![], verdicts: vec![9], duties, after_sets }
    }

    /// A trace's case has its lengths first, low byte first, and then its parts; it is read again, and a cut one is not.
    #[test]
    fn traces() {
        let definition = Definition::base();
        let case = trace_case(&lent());
        let lengths: Vec<u8> = [2, 3, 0, 1, 4, 2].iter().flat_map(|length| [*length, 0, 0, 0]).collect();
        assert_eq!(case, [lengths, (1..=15).collect()].concat());
        assert_eq!(lent_in(&case), lent());
        let two = [&case[..], &case].concat();
        let mut input = &two[..];
        assert_eq!(next_trace(&definition, &mut input).unwrap(), Some(case.clone()));
        assert_eq!(next_trace(&definition, &mut input).unwrap(), Some(case.clone()));
        assert_eq!(next_trace(&definition, &mut input).unwrap(), None);
        for length in 1..case.len() {
            assert!(next_trace(&definition, &mut &case[..length]).is_err(), "{length}");
        }
        for (part, most) in trace_rooms(&definition).into_iter().enumerate() {
            let mut room = Lent::default();
            room.parts_mut()[part].resize((most + 1) * Lent::PARTS[part].1, 0);
            assert!(next_trace(&definition, &mut &trace_case(&room)[..]).is_err());
            room.parts_mut()[part].truncate(most * Lent::PARTS[part].1);
            assert!(next_trace(&definition, &mut &trace_case(&room)[..]).is_ok());
        }
    }

    /// Of the rooms of a trace only the table's has grown with Q-6.
    #[test]
    fn rooms() {
        let [before, now] = [5, 6].map(|stage| trace_rooms(&Definition::at_stage(stage).unwrap()));
        assert_eq!(before, [65_536, 8_192, 8_192, 8_192, 8_192, 8_192]);
        assert_eq!(now, [65_536, 8_192, 131_072, 8_192, 8_192, 8_192]);
    }

    /// An event's record hands over as many bytes as it says, which are at most the room.
    #[test]
    fn events() {
        let definition = Definition::base();
        let record = event_record(3, &[7, 8, 9, 10]);
        assert_eq!((record.len(), handed_over(&record)), (41, &[7, 8, 9][..]));
        assert_eq!(next_event(&definition, &mut &record[..]).unwrap(), Some(record.clone()));
        assert_eq!(next_event(&definition, &mut &[][..]).unwrap(), None);
        assert!(next_event(&definition, &mut &record[..40]).is_err());
        assert!(next_event(&definition, &mut &event_record(40, &[])[..]).is_ok());
        assert!(next_event(&definition, &mut &event_record(41, &[])[..]).is_err());
    }

    /// A question's record lends as many bytes as it says, but no more than there are; it is read again, and a cut one is not.
    #[test]
    fn questions() {
        let definition = Definition::base();
        let bytes: Vec<u8> = (0..640).map(|n| (n % 251) as u8).collect();
        let record = question_record(&[1, 0, 1, 0, 2, 6], 258, &bytes);
        assert_eq!((record.len(), &record[..9]), (648, &[1, 0, 1, 0, 2, 6, 2, 1, 0][..]));
        assert_eq!(question_in(&record), (&[1, 0, 1, 0, 2, 6][..], &bytes[..258], &bytes[258..]));
        for (length, lent) in [(0, 0), (1, 1), (640, 640), (641, 640), (65_535, 640)] {
            assert_eq!(question_in(&question_record(&[0; 6], length, &bytes)).1, &bytes[..lent]);
        }
        assert_eq!(next_question(&definition, &mut &record[..]).unwrap(), Some(record.clone()));
        assert_eq!(next_question(&definition, &mut &[][..]).unwrap(), None);
        assert!(next_question(&definition, &mut &record[..647]).is_err());
    }
}
