//! Judges a binary capture, and prints each unexplained event and each duty that was handed over, lost or discarded.
//!
//!     capture [FILE]
//!
//! A capture starts with a mark of four bytes: 'C', 'H', 'I' and the length of an event, 15. Then comes a record of 17 bytes for
//! each event: the pair number in two bytes, low byte first, and the 15 bytes of the event. Without FILE it is read from standard
//! input. Every 16-bit number is a pair, so no event is refused with 3. Each pair starts with all seven states possible.
//!
//! The capture may have any length. It is judged `MOST_EVENTS` events at a time, and the judge keeps the sets from each part to the
//! next.
//!
//! Records grew by one byte in version 0.2.0. An old capture has records of 16 bytes and no mark. Put the mark in front and a byte
//! 0 behind each record, and it is a new one. An input that does not start with the whole mark is refused with 1 at event 0 before
//! anything is judged: 17 records of the old format have the length of 16 new ones, so the length alone would not tell.
//!
//! Programs of versions 0.1.0 and 0.2.0 have 4,096 pairs. One of 0.1.0 judges nothing of a new capture: it refuses the mark, which
//! reads as a pair above 4,095, with 3 at event 0, or says that the capture ends within an event. One of 0.2.0 refuses the first
//! event of a pair above 4,095 with 3.

use korehyumo::{
    Duty, Event, EventNumber, Finding, Judge, PairNumber, Refusal, Verdict, MOST_EVENTS, MOST_PAIRS,
};
use std::env;
use std::fmt;
use std::fs::File;
use std::io::{self, BufWriter, Read, Write};
use std::process::ExitCode;

/// How a capture starts: three letters and the length of an event.
const MARK: [u8; 4] = [b'C', b'H', b'I', Event::BYTES as u8];
/// How many bytes a record has.
const RECORD: usize = 2 + Event::BYTES;
/// How many bytes of a capture are judged at a time.
const PART: usize = MOST_EVENTS * RECORD;

/// An event with its pair.
type PairedEvent = (PairNumber, Event);

/// Why the program stops before the end of a capture.
#[derive(Debug)]
enum Stop {
    /// The command line names more than one file.
    Words,
    /// The file can't be opened.
    NotOpened(io::Error),
    /// The input can't be read.
    NotRead(io::Error),
    /// The output can't be written.
    NotWritten(io::Error),
    /// The input ends within a record.
    EndsWithin(EventNumber),
    /// The judge refuses an event with this number; a capture without the mark is refused like wrong lengths.
    Refused(u8, EventNumber),
}

impl fmt::Display for Stop {
    fn fmt(&self, f: &mut fmt::Formatter<'_>) -> fmt::Result {
        match self {
            Stop::Words => write!(
                f,
                "it takes the name of one file, or none for standard input"
            ),
            Stop::NotOpened(error) => write!(f, "the file can't be opened: {error}"),
            Stop::NotRead(error) => write!(f, "the input can't be read: {error}"),
            Stop::NotWritten(error) => write!(f, "the output can't be written: {error}"),
            Stop::EndsWithin(event) => write!(f, "it ends within event {event}"),
            Stop::Refused(number, event) => write!(f, "refused with {number} at event {event}"),
        }
    }
}

/// How many events were judged so far, in all and by verdict.
#[derive(Default)]
struct Counts {
    events: u64,
    explained: u64,
    unexplained: u64,
    not_judged: u64,
}

impl Counts {
    /// The number of the event that comes this many events after those judged so far.
    fn number(&self, later: u64) -> EventNumber {
        EventNumber(self.events + later)
    }

    /// Counts an event.
    fn add(&mut self, verdict: Verdict) {
        self.events += 1;
        match verdict {
            Verdict::Explained => self.explained += 1,
            Verdict::Unexplained => self.unexplained += 1,
            Verdict::NotJudged => self.not_judged += 1,
            // A verdict of a later library; `tell` prints a line for it.
            _ => (),
        }
    }
}

impl fmt::Display for Counts {
    fn fmt(&self, f: &mut fmt::Formatter<'_>) -> fmt::Result {
        write!(f, "{} events: {} explained, ", self.events, self.explained)?;
        write!(
            f,
            "{} unexplained, {} not judged",
            self.unexplained, self.not_judged
        )
    }
}

fn main() -> ExitCode {
    let mut out = BufWriter::new(io::stdout().lock());
    let judged = input().and_then(|input| judge_capture(input, &mut out));
    // The findings so far come before the message.
    let written = out.flush().map_err(Stop::NotWritten);
    match judged.and(written) {
        Ok(()) => ExitCode::SUCCESS,
        Err(stop) => {
            // If standard error can't be written, there is nowhere else to say so.
            let _ = writeln!(io::stderr(), "capture: {stop}");
            ExitCode::FAILURE
        }
    }
}

/// The file that the command line names, or standard input.
fn input() -> Result<Box<dyn Read>, Stop> {
    let mut words = env::args_os().skip(1);
    match (words.next(), words.next()) {
        (None, _) => Ok(Box::new(io::stdin())),
        (Some(name), None) => match File::open(name) {
            Ok(file) => Ok(Box::new(file)),
            Err(error) => Err(Stop::NotOpened(error)),
        },
        _ => Err(Stop::Words),
    }
}

/// Judges a capture part by part, and prints what it finds.
fn judge_capture(mut input: impl Read, out: &mut impl Write) -> Result<(), Stop> {
    let mut counts = Counts::default();
    let mut part = Vec::with_capacity(PART);
    read_bytes(&mut input, MARK.len(), &mut part)?;
    if part != MARK {
        return Err(refused(Refusal::Lengths, &counts));
    }
    let mut judge = Judge::new(MOST_PAIRS).map_err(|refusal| refused(refusal, &counts))?;
    loop {
        read_bytes(&mut input, PART, &mut part)?;
        judge_part(&mut judge, &part, &mut counts, out)?;
        if part.len() < PART {
            return writeln!(out, "{counts}").map_err(Stop::NotWritten);
        }
    }
}

/// Reads so many bytes of a capture in place of those before, fewer only at its end.
fn read_bytes(input: &mut impl Read, most: usize, bytes: &mut Vec<u8>) -> Result<(), Stop> {
    bytes.clear();
    let read = input.take(most as u64).read_to_end(bytes);
    read.map(|_| ()).map_err(Stop::NotRead)
}

/// Judges one part of a capture, and prints what it finds.
fn judge_part(
    judge: &mut Judge,
    part: &[u8],
    counts: &mut Counts,
    out: &mut impl Write,
) -> Result<(), Stop> {
    if part.len() % RECORD != 0 {
        return Err(Stop::EndsWithin(
            counts.number((part.len() / RECORD) as u64),
        ));
    }
    let trace: Vec<PairedEvent> = part.chunks_exact(RECORD).map(paired_event).collect();
    let findings = judge
        .judge(&trace)
        .map_err(|refusal| refused(refusal, counts))?;
    for ((pair, _), finding) in trace.iter().zip(findings) {
        tell(out, counts.number(0), *pair, finding).map_err(Stop::NotWritten)?;
        counts.add(finding.verdict);
    }
    // The lines of a part are seen before the next part arrives.
    out.flush().map_err(Stop::NotWritten)
}

/// The event of a record, with its pair.
fn paired_event(record: &[u8]) -> PairedEvent {
    let mut event = [0; Event::BYTES];
    event.copy_from_slice(&record[2..]);
    let pair = u16::from_le_bytes([record[0], record[1]]);
    (PairNumber(pair), Event::from(event))
}

/// A refusal in the part that is judged now, with its event's number in the capture.
fn refused(refusal: Refusal, judged: &Counts) -> Stop {
    Stop::Refused(refusal.number(), judged.number(refusal.place()))
}

/// Prints a line for an unexplained event, and one for a duty that was handed over, lost or discarded.
fn tell(
    out: &mut impl Write,
    event: EventNumber,
    pair: PairNumber,
    finding: &Finding,
) -> io::Result<()> {
    match finding.verdict {
        Verdict::Explained | Verdict::NotJudged => (),
        Verdict::Unexplained => writeln!(out, "event {event}, pair {pair}: unexplained")?,
        other => writeln!(out, "event {event}, pair {pair}: {other}")?,
    }
    match finding.duty {
        Duty::None => Ok(()),
        Duty::Home => writeln!(out, "event {event}, pair {pair}: Home holds the duty"),
        Duty::Requester => writeln!(
            out,
            "event {event}, pair {pair}: the Requester holds the duty"
        ),
        Duty::Lost => writeln!(out, "event {event}, pair {pair}: the duty is lost"),
        Duty::Discarded => writeln!(out, "event {event}, pair {pair}: the line is discarded"),
        other => writeln!(out, "event {event}, pair {pair}: {other}"),
    }
}

#[cfg(test)]
mod tests {
    use super::*;

    /// The bytes of an event.
    type Bytes = [u8; Event::BYTES];

    /// SnpShared answered by SnpRespData_SC_PD.
    const GAVE_UP: Bytes = [1, 0, 0, 0, 0, 1, 1, 5, 0, 0, 0, 0, 0, 7, 0];
    /// SnpClean answered by SnpRespData_SD.
    const KEPT: Bytes = [2, 0, 0, 0, 0, 1, 1, 3, 0, 0, 0, 0, 0, 7, 0];
    /// SnpCleanFwd answered by SnpResp_SC_Fwded_SD_PD, entry e of the notebook.
    const PASSED_ON: Bytes = [18, 0, 0, 0, 0, 0, 9, 1, 7, 0, 0, 1, 7, 7, 0];
    /// The same with DERR on the forwarded data.
    const PASSED_ON_DERR: Bytes = [18, 0, 0, 0, 0, 0, 9, 1, 7, 0, 0, 1, 7, 7, 2];
    /// The same with NDERR on the forwarded data, which no row has.
    const PASSED_ON_NDERR: Bytes = [18, 0, 0, 0, 0, 0, 9, 1, 7, 0, 0, 1, 7, 7, 3];
    /// SnpShared answered by SnpResp_I with NDERR, entry m of the notebook.
    const IN_ERROR: Bytes = [1, 0, 0, 0, 0, 0, 1, 0, 0, 0, 3, 0, 0, 7, 0];

    /// The records of some events, each with its pair.
    fn records(events: &[(u16, Bytes)]) -> Vec<u8> {
        let record = |(pair, event): &(u16, Bytes)| [&pair.to_le_bytes()[..], event].concat();
        events.iter().flat_map(record).collect()
    }

    /// What is printed for an input, and why the program stops early if it does.
    fn told_of(input: &[u8]) -> (String, Option<String>) {
        let mut out = Vec::new();
        let judged = judge_capture(input, &mut out);
        (
            String::from_utf8(out).unwrap(),
            judged.err().map(|stop| stop.to_string()),
        )
    }

    /// The same for the mark and these records.
    fn told(records: &[u8]) -> (String, Option<String>) {
        told_of(&[&MARK[..], records].concat())
    }

    /// Asserts that an input is refused for its start, and nothing is printed.
    fn refused_at_once(input: &[u8]) {
        let stop = "refused with 1 at event 0".to_string();
        assert_eq!(told_of(input), (String::new(), Some(stop)));
    }

    /// Each line that can be printed, and the counts.
    #[test]
    fn each_line() {
        let capture = records(&[
            (0, GAVE_UP),
            (65_535, PASSED_ON),
            (258, IN_ERROR),
            (0, KEPT),
            (0, KEPT),
            (258, IN_ERROR),
        ]);
        let lines = "event 0, pair 0: Home holds the duty\n\
                     event 1, pair 65535: the Requester holds the duty\n\
                     event 2, pair 258: the duty is lost\n\
                     event 3, pair 0: unexplained\n\
                     6 events: 4 explained, 1 unexplained, 1 not judged\n";
        assert_eq!(told(&capture), (lines.to_string(), None));
    }

    /// An error on the forwarded data: DERR changes nothing, and NDERR is unexplained.
    #[test]
    fn errors_on_forwarded_data() {
        let capture = records(&[(5, PASSED_ON_DERR), (6, PASSED_ON_NDERR)]);
        let lines = "event 0, pair 5: the Requester holds the duty\n\
                     event 1, pair 6: unexplained\n\
                     2 events: 1 explained, 1 unexplained, 0 not judged\n";
        assert_eq!(told(&capture), (lines.to_string(), None));
    }

    /// A capture without events is the mark alone.
    #[test]
    fn empty() {
        let line = "0 events: 0 explained, 0 unexplained, 0 not judged\n";
        assert_eq!(told_of(b"CHI\x0f"), (line.to_string(), None));
    }

    /// Records without a mark, with a cut one, and with another one: refused before anything is judged.
    #[test]
    fn other_starts() {
        let records = records(&[(7, GAVE_UP), (7, KEPT)]);
        refused_at_once(&[]);
        refused_at_once(&records);
        for cut in 0..MARK.len() {
            refused_at_once(&MARK[..cut]);
            refused_at_once(&[&MARK[..cut], &records].concat());
        }
        for at in 0..MARK.len() {
            for other in (0..=255).filter(|byte| *byte != MARK[at]) {
                let mut start = MARK;
                start[at] = other;
                refused_at_once(&[&start[..], &records].concat());
            }
        }
    }

    /// Old captures of up to 40 records of 16 bytes: refused, even where they have the length of new records.
    #[test]
    fn old_captures() {
        let mut record = records(&[(7, GAVE_UP)]);
        record.pop();
        for count in 1..=40 {
            refused_at_once(&record.repeat(count));
        }
        assert_eq!(record.repeat(17).len(), 16 * RECORD);
    }

    /// An old capture becomes a new one with the mark in front and a byte 0 behind each record.
    #[test]
    fn old_captures_made_new() {
        let capture = records(&[(7, GAVE_UP), (9, PASSED_ON), (7, KEPT)]);
        let old: Vec<&[u8]> = capture
            .chunks_exact(RECORD)
            .map(|record| &record[..RECORD - 1])
            .collect();
        let made_new = [&b"CHI\x0f"[..], &old.join(&0), &[0]].concat();
        assert_eq!(told_of(&made_new), told(&capture));
    }

    /// Sets are kept from part to part, and events are numbered over the whole capture.
    #[test]
    fn several_parts() {
        let mut capture = records(&[(7, GAVE_UP)]);
        capture.extend(records(&vec![(9, IN_ERROR); 2 * MOST_EVENTS - 1]));
        let first = "event 0, pair 7: Home holds the duty\nevent 1, pair 9: the duty is lost\n";
        let whole = format!("{first}8192 events: 8192 explained, 0 unexplained, 0 not judged\n");
        assert_eq!(told(&capture), (whole, None));
        capture.extend(records(&[(7, KEPT)]));
        let last = "event 8192, pair 7: unexplained\n8193 events: 8192 explained, 1 unexplained, 0 not judged\n";
        assert_eq!(told(&capture), (format!("{first}{last}"), None));
    }

    /// Every pair number of a record is judged, and no event of one is refused with 3.
    #[test]
    fn every_pair() {
        let events: Vec<(u16, Bytes)> = (0..=u16::MAX).map(|pair| (pair, GAVE_UP)).collect();
        let mut lines: Vec<String> = (0..MOST_PAIRS)
            .map(|pair| format!("event {pair}, pair {pair}: Home holds the duty\n"))
            .collect();
        lines.push("65536 events: 65536 explained, 0 unexplained, 0 not judged\n".to_string());
        assert_eq!(told(&records(&events)), (lines.concat(), None));
    }

    /// Pairs 4,095, 4,096 and 65,535 have sets of their own, also from part to part.
    #[test]
    fn high_pairs() {
        let mut capture = records(&[(4_096, GAVE_UP), (65_535, KEPT)]);
        capture.extend(records(&vec![(9, KEPT); MOST_EVENTS]));
        capture.extend(records(&[(4_095, KEPT), (4_096, KEPT), (65_535, KEPT)]));
        capture.extend(records(&[(0, KEPT), (4_095, PASSED_ON), (65_535, GAVE_UP)]));
        let lines = "event 0, pair 4096: Home holds the duty\n\
                     event 4099, pair 4096: unexplained\n\
                     event 4102, pair 4095: the Requester holds the duty\n\
                     event 4103, pair 65535: Home holds the duty\n\
                     4104 events: 4103 explained, 1 unexplained, 0 not judged\n";
        assert_eq!(told(&capture), (lines.to_string(), None));
    }

    /// A refusal is numbered over the whole capture, and the lines of the parts before it are printed.
    #[test]
    fn refused_parts() {
        let mut capture = records(&vec![(9, IN_ERROR); MOST_EVENTS]);
        let first = "event 0, pair 9: the duty is lost\n".to_string();
        let refused = |capture: &[u8], stop: &str| {
            assert_eq!(told(capture), (first.clone(), Some(stop.to_string())));
        };
        capture.extend(records(&[(7, GAVE_UP), (7, KEPT)]));
        let event = MOST_EVENTS * RECORD + 2;
        capture[event] = 3;
        refused(&capture, "refused with 5 at event 4096");
        capture[event + Event::BYTES - 1] = 4;
        refused(&capture, "refused with 4 at event 4096");
    }

    /// A part that ends within a record is not judged.
    #[test]
    fn cut_records() {
        let cut_at = |bytes: usize| {
            let capture = records(&[(7, GAVE_UP), (7, GAVE_UP)]);
            told(&capture[..bytes])
        };
        for bytes in 1..2 * RECORD {
            let stop = format!("it ends within event {}", bytes / RECORD);
            if bytes != RECORD {
                assert_eq!(cut_at(bytes), (String::new(), Some(stop)));
            }
        }
        let mut capture = records(&vec![(9, IN_ERROR); MOST_EVENTS + 1]);
        capture.extend([7, 0, 1]);
        let first = "event 0, pair 9: the duty is lost\n".to_string();
        assert_eq!(
            told(&capture),
            (first, Some("it ends within event 4097".to_string()))
        );
    }

    /// An input and output that always fails.
    struct Broken;

    impl Read for Broken {
        fn read(&mut self, _: &mut [u8]) -> io::Result<usize> {
            Err(io::ErrorKind::Other.into())
        }
    }

    impl Write for Broken {
        fn write(&mut self, _: &[u8]) -> io::Result<usize> {
            Err(io::ErrorKind::Other.into())
        }

        fn flush(&mut self) -> io::Result<()> {
            Err(io::ErrorKind::Other.into())
        }
    }

    /// A failed read and a failed write are told apart, and no counts are printed.
    #[test]
    fn broken_files() {
        let capture = [&MARK[..], &records(&[(7, GAVE_UP)])].concat();
        for bytes in 0..=capture.len() {
            let mut out = Vec::new();
            let stop = judge_capture(capture[..bytes].chain(Broken), &mut out).unwrap_err();
            assert!(matches!(stop, Stop::NotRead(_)));
            assert_eq!(out, b"");
        }
        let stop = judge_capture(&capture[..], &mut Broken).unwrap_err();
        assert!(matches!(stop, Stop::NotWritten(_)));
    }
}
