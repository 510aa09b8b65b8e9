//! An independent program that answers what the snoop judge is asked, from the definition alone, and compares the judge's
//! programs with its own answers.

#![forbid(unsafe_code)]

mod calls;
mod cases;
mod definition;
#[cfg(test)]
mod layers;
mod running;
mod wrong;

use calls::all::{call, CALLS};
use definition::answers::{list_in_words, question_in_words};
use definition::capture::of_sheet;
use definition::values::Definition;
use running::call::{Call, Feeding};
use running::compare::compare;
use std::env;
use std::ffi::OsString;
use std::fs::File;
use std::io::{self, BufReader, BufWriter, Read, Write};
use std::process::ExitCode;
use std::sync::Arc;
use wrong::judges::WRONG;
use wrong::noticing::{few_cases, noticed};

/// How the program is called.
const USAGE: &str = "usage:
  compare CALL [--once] [--seed N] [--random N] [--stage N] -- PROGRAM ARGS..
      compares a program
  compare answer CALL [--stage N] [FILE]
      answers the cases on standard input, or in a file
  compare wrong [CALL]
      tells which case notices each judge that is wrong on purpose
  compare make capture
      writes the capture of the sheet on standard input
  compare list REQUEST RETTOSRC DONOTGOTOSD EXCL TAG BEFORE
      writes every answer that the cache could have given, all in the words of a sheet
A stage is the number of the last follow-up request that is in force, or 0.";

/// What is wrong with words that name no call.
const NO_CALL: &str = "that is no call of this program";

/// The most random cases that can be asked for.
const MOST_RANDOM: u64 = 1_000_000_000;

/// Ends with 0 where all is well, 1 where something differs or fails, and 2 where it was called wrongly.
fn main() -> ExitCode {
    let words: Vec<OsString> = env::args_os().skip(1).collect();
    let outcome = match asked(&words) {
        Ok(asked) => asked,
        Err(message) => {
            let names: Vec<&str> = CALLS.iter().map(|call| call.name).collect();
            eprintln!("compare: {message}\n{USAGE}\nCALL is one of {}", names.join(", "));
            return ExitCode::from(2);
        }
    };
    match done(outcome) {
        Ok(true) => ExitCode::SUCCESS,
        Ok(false) => ExitCode::from(1),
        Err(error) => {
            eprintln!("compare: failed, {error}");
            ExitCode::from(1)
        }
    }
}

/// What a command line asks for.
enum Asked {
    /// The comparison of a program.
    Compare { call: &'static Call, once: bool, seed: u64, random: u64, definition: Definition, program: Vec<OsString> },
    /// Answers to the cases of a call.
    Answer { call: &'static Call, definition: Definition, file: Option<OsString> },
    /// The cases of some calls that notice each wrong judge.
    Wrong { calls: Vec<&'static Call> },
    /// The capture of a sheet.
    MakeCapture,
    /// The list of a question's answers.
    List { question: Vec<u8> },
}

/// What the words of a command line ask for.
fn asked(words: &[OsString]) -> Result<Asked, String> {
    let first: Vec<&str> = words.iter().take(2).map(|word| word.to_str().unwrap_or("")).collect();
    let (verb, rest) = match first[..] {
        ["make", "capture"] if words.len() == 2 => return Ok(Asked::MakeCapture),
        ["list", ..] => return Ok(Asked::List { question: question(&words[1..])? }),
        ["wrong"] => return Ok(Asked::Wrong { calls: CALLS.to_vec() }),
        ["wrong", name] if words.len() == 2 => return Ok(Asked::Wrong { calls: vec![call(name).ok_or(NO_CALL)?] }),
        ["answer", name] => (call(name), &words[2..]),
        [name, ..] => (call(name), &words[1..]),
        [] => (None, words),
    };
    let call = verb.ok_or(NO_CALL)?;
    let (mut once, mut seed, mut random, mut definition) = (false, 1, call.random, Definition::now());
    let mut rest = rest.iter();
    let mut file = None;
    while let Some(word) = rest.next() {
        let word = word.to_str().unwrap_or("");
        match (word, first[0] == "answer") {
            ("--once", false) => once = true,
            ("--seed", false) => seed = number(rest.next(), u64::MAX)?,
            ("--random", false) => random = number(rest.next(), MOST_RANDOM)?,
            ("--stage", _) => {
                let request = number(rest.next(), u64::MAX)? as usize;
                definition = Definition::at_stage(request).ok_or("that request is not in force yet")?;
            }
            ("--", false) if rest.len() > 0 => {
                let program = rest.cloned().collect();
                return Ok(Asked::Compare { call, once, seed, random, definition, program });
            }
            (name, true) if rest.len() == 0 && !name.starts_with('-') => file = Some(OsString::from(name)),
            _ => return Err(format!("{word:?} is not known, or nothing stands after it")),
        }
    }
    match first[0] {
        "answer" => Ok(Asked::Answer { call, definition, file }),
        _ => Err("no program is named after --".to_string()),
    }
}

/// The number that a word is, if it is one and not over the most.
fn number(word: Option<&OsString>, most: u64) -> Result<u64, String> {
    let number = word.and_then(|word| word.to_str()).and_then(|word| word.parse().ok());
    number.filter(|number| *number <= most).ok_or(format!("a number up to {most} is missing"))
}

/// The question that words ask, if they ask one.
fn question(words: &[OsString]) -> Result<Vec<u8>, String> {
    let words: Vec<&str> = words.iter().map(|word| word.to_str().unwrap_or("")).collect();
    question_in_words(&Definition::now(), &words).ok_or(format!("no question in range is asked by {words:?}"))
}

/// Does what was asked for, and tells whether all was well.
fn done(asked: Asked) -> io::Result<bool> {
    match asked {
        Asked::Compare { call, once, seed, random, definition, program } => {
            let cases = Arc::new((call.cases)(&definition, seed, random));
            let outcome = compare(call, &cases, 0..cases.total(), once, &program);
            print!("{}", outcome.report(call, &cases));
            Ok(outcome.all_agree(&cases))
        }
        Asked::Answer { call, definition, file } => {
            let mut input: Box<dyn Read> = match file {
                Some(file) => Box::new(File::open(file)?),
                None => Box::new(io::stdin()),
            };
            answer(call, &definition, &mut input, &mut io::stdout().lock())
        }
        Asked::Wrong { calls } => {
            let mut all = true;
            for call in calls {
                for (wrong, noticed) in noticed(call, &few_cases(call), WRONG) {
                    all &= noticed.is_some();
                    println!("{}: {}: {}", call.name, wrong.name, noticed.unwrap_or("not noticed".to_string()));
                }
            }
            Ok(all)
        }
        Asked::MakeCapture => {
            let (capture, refusal) = of_sheet(&Definition::now(), &all(&mut io::stdin())?);
            io::stdout().write_all(&capture)?;
            match refusal {
                None => Ok(true),
                Some((number, line)) => Err(io::Error::other(format!("the sheet is refused with {number} at line {line}"))),
            }
        }
        Asked::List { question } => {
            io::stdout().write_all(list_in_words(&Definition::now(), &question).as_bytes())?;
            Ok(true)
        }
    }
}

/// Answers an input the way the judge's program for a call is to answer it, and tells whether it ends with 0.
fn answer(call: &Call, definition: &Definition, input: &mut dyn Read, output: &mut dyn Write) -> io::Result<bool> {
    let mut output = BufWriter::new(output);
    let mut well = true;
    match call.feeding {
        Feeding::OneRun(next) => {
            let mut input = BufReader::new(input);
            while let Some(case) = next(definition, &mut input)? {
                output.write_all(&(call.right)(definition, &case).answer.output)?;
            }
        }
        Feeding::RunEach(_) => {
            let answer = (call.right)(definition, &all(input)?).answer;
            output.write_all(&answer.output)?;
            output.flush()?;
            io::stderr().write_all(&answer.complaint)?;
            well = answer.status == 0;
        }
    }
    output.flush()?;
    Ok(well)
}

/// All that comes until there is no more.
fn all(from: &mut dyn Read) -> io::Result<Vec<u8>> {
    let mut bytes = Vec::new();
    // Of a piece that is longer than the room for it the rest would be lost, so the room never shrinks.
    let mut room = vec![0; 1 << 16];
    loop {
        match from.read(&mut room) {
            Ok(0) => return Ok(bytes),
            Ok(came) => bytes.extend(&room[..came]),
            Err(error) if error.kind() == io::ErrorKind::Interrupted => {}
            Err(error) => return Err(error),
        }
    }
}

#[cfg(test)]
mod tests {
    use super::*;

    /// What the words of a command line ask for.
    fn asked_by(line: &str) -> Result<Asked, String> {
        asked(&line.split(' ').map(OsString::from).collect::<Vec<_>>())
    }

    /// The options before the program are read, and those after it are the program's.
    #[test]
    fn words() {
        let Ok(Asked::Compare { once, seed, random, program, .. }) =
            asked_by("sheet --once --seed 5 --random 9 --stage 0 -- judge --seed 6")
        else {
            panic!("that is a comparison");
        };
        assert_eq!((once, seed, random), (true, 5, 9));
        assert_eq!(program, ["judge", "--seed", "6"].map(OsString::from));
        let Ok(Asked::Compare { once, seed, random, .. }) = asked_by("trace -- judge") else {
            panic!("that is a comparison");
        };
        assert_eq!((once, seed, random), (false, 1, 140_000));
        assert!(matches!(asked_by("answer event"), Ok(Asked::Answer { file: None, .. })));
        assert!(matches!(asked_by("answer capture --stage 0 name"), Ok(Asked::Answer { file: Some(_), .. })));
        assert!(matches!(asked_by("wrong"), Ok(Asked::Wrong { calls }) if calls.len() == CALLS.len()));
        assert!(matches!(asked_by("wrong sheet"), Ok(Asked::Wrong { calls }) if calls.len() == 1));
        assert!(matches!(asked_by("make capture"), Ok(Asked::MakeCapture)));
        let asked = asked_by("list SnpNotSharedDirty 1 0 1 Dirty SD");
        assert!(matches!(asked, Ok(Asked::List { question }) if question == [4, 1, 0, 1, 2, 6]));
        let asked = asked_by("list SnpMakeInvalid 0 1 0 Clean UDP");
        assert!(matches!(asked, Ok(Asked::List { question }) if question == [10, 0, 1, 0, 1, 4]));
    }

    /// A command line that asks for nothing known is refused.
    #[test]
    fn wrong_words() {
        let lines = "|else -- judge|event|event --|event judge|event --seed|event --seed x -- judge|event --stage 99 -- judge|\
                     event --random 1000000001 -- judge|answer|answer else|answer event --once|answer capture file more|\
                     make|make sheet|make capture more|wrong else|wrong sheet more|list|list SnpShared 0 0 0 Clean|\
                     list SnpShared 0 0 0 Clean I I|list SnpOnce 0 0 0 Clean I|list SnpCleanShared 0 0 0 Clean I|\
                     list SnpShared 0 0 2 Clean I|list SnpShared 0 0 0 ? I|list SnpShared 0 0 0 Clean ?|\
                     list 1 0 0 0 0 0|list SnpShared I 0 0 0 Clean";
        for line in lines.split('|') {
            assert!(asked_by(line).is_err(), "{line}");
        }
    }

    /// Inputs are answered as the judge's programs are to answer them, and an input that is cut is an error.
    #[test]
    fn answers() {
        let definition = Definition::now();
        let answered = |name: &str, input: &[u8]| {
            let mut output = Vec::new();
            let well = answer(call(name).unwrap(), &definition, &mut &input[..], &mut output);
            well.map(|well| (output, well))
        };
        let record = [&[15, 2, 0, 0, 0, 0, 0, 1, 1, 0, 0, 0, 0, 0, 7, 0][..], &[9; 25]].concat();
        let told = vec![0, 1, 0, 33, 0, 0, 0, 33, 0, 0, 0, 0, 0, 0, 0, 0];
        assert_eq!(answered("event", &[&record[..], &record].concat()).unwrap(), (told.repeat(2), true));
        assert!(answered("event", &record[..40]).is_err());
        let lengths: Vec<u8> = [15, 1, 2, 1, 1, 1].iter().flat_map(|length| [*length, 0, 0, 0]).collect();
        let case = [&lengths[..], &record[1..16], &[1, 0, 5, 127, 91, 92, 93]].concat();
        assert_eq!(answered("trace", &case).unwrap(), (vec![0, 1, 0, 0, 0, 5, 33, 0, 0, 33], true));
        let told = b"event,verdict,duty,states\r\nrefused,6,1\r\n".to_vec();
        assert_eq!(answered("sheet", b"").unwrap(), (told, true));
        assert_eq!(answered("capture", &[0; 17]).unwrap(), (vec![], false));
        let told = b"0 events: 0 explained, 0 unexplained, 0 not judged\n".to_vec();
        assert_eq!(answered("capture", b"CHI\x0f").unwrap(), (told, true));
        assert_eq!(answered("capture", b"CHI\x0f\x00").unwrap(), (vec![], false));
        let record = [&[1, 0, 0, 0, 0, 0, 21, 0][..], &[9; 640]].concat();
        let list = [0, 1, 0, 0, 0, 0, 0, 0, 0, 0, 0, 1, 0, 0, 0, 3, 0, 0, 0, 0];
        let told = [&[0, 0, 0, 0, 2, 0, 0, 0][..], &list, &[9; 620]].concat();
        assert_eq!(answered("answers", &[&record[..], &record].concat()).unwrap(), (told.repeat(2), true));
        assert!(answered("answers", &record[..647]).is_err());
    }
}
