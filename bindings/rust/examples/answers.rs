//! Prints every answer that the rows permit to a question.
//!
//!     answers REQUEST RETTOSRC DONOTGOTOSD EXCL TAG BEFORE
//!
//! The six words are spelled as on the bench sheet: `answers SnpShared 0 0 0 Invalid UD`. BEFORE is the state before. The first
//! line names the columns, which are the sheet's last six. Each line that follows is an answer.

use korehyumo::{permitted_answers, Question, Refusal, Request, State, TagState};
use std::env;
use std::fmt;
use std::io::{self, Write};
use std::process::ExitCode;

/// The first line of the output.
const COLUMNS: &str = "response,TagOp,RespErr,forward,final,fwdErr";

/// Why the program prints no answers.
#[derive(Debug)]
enum Stop {
    /// The command line has another number of words than six.
    Words,
    /// A word is none of those that can stand in its place.
    Word(&'static str, String),
    /// The question is refused.
    Refused(Refusal),
    /// The output can't be written.
    NotWritten(io::Error),
}

impl fmt::Display for Stop {
    fn fmt(&self, f: &mut fmt::Formatter<'_>) -> fmt::Result {
        let call = "call it as answers REQUEST RETTOSRC DONOTGOTOSD EXCL TAG BEFORE, \
                    such as answers SnpShared 0 0 0 Invalid UD";
        match self {
            Stop::Words => write!(f, "it takes six words; {call}"),
            Stop::Word(place, word) => write!(f, "{word:?} is no {place}; {call}"),
            Stop::Refused(refusal) => refusal.fmt(f),
            Stop::NotWritten(error) => write!(f, "the output can't be written: {error}"),
        }
    }
}

fn main() -> ExitCode {
    let words = env::args_os().skip(1);
    let words: Vec<String> = words
        .map(|word| word.to_string_lossy().into_owned())
        .collect();
    let printed = question(&words).and_then(|question| print(question, &mut io::stdout()));
    match printed {
        Ok(()) => ExitCode::SUCCESS,
        Err(stop) => {
            // If standard error can't be written, there is nowhere else to say so.
            let _ = writeln!(io::stderr(), "answers: {stop}");
            ExitCode::FAILURE
        }
    }
}

/// The question in these words.
fn question(words: &[String]) -> Result<Question, Stop> {
    match words {
        [request, ret_to_src, do_not_go_to_sd, excl, tag, before] => Ok(Question {
            request: named(&Request::ALL, Request::name, "REQUEST", request)?,
            ret_to_src: flag("RETTOSRC", ret_to_src)?,
            do_not_go_to_sd: flag("DONOTGOTOSD", do_not_go_to_sd)?,
            excl: flag("EXCL", excl)?,
            tag: named(&TagState::ALL, TagState::name, "TAG", tag)?,
            before: named(&State::ALL, State::name, "BEFORE", before)?,
        }),
        _ => Err(Stop::Words),
    }
}

/// The value with this name.
fn named<Kind: Copy>(
    all: &[Kind],
    name: fn(Kind) -> &'static str,
    place: &'static str,
    word: &str,
) -> Result<Kind, Stop> {
    let known = all.iter().copied().find(|value| name(*value) == word);
    known.ok_or_else(|| Stop::Word(place, word.to_string()))
}

/// The flag with this word.
fn flag(place: &'static str, word: &str) -> Result<bool, Stop> {
    match word {
        "0" => Ok(false),
        "1" => Ok(true),
        _ => Err(Stop::Word(place, word.to_string())),
    }
}

/// Prints the columns, and a line for each answer to a question.
fn print(question: Question, out: &mut impl Write) -> Result<(), Stop> {
    let answers = permitted_answers(question).map_err(Stop::Refused)?;
    let mut lines = format!("{COLUMNS}\n");
    for answer in answers {
        lines.push_str(&format!("{answer}\n"));
    }
    let written = out.write_all(lines.as_bytes());
    written.and_then(|()| out.flush()).map_err(Stop::NotWritten)
}

#[cfg(test)]
mod tests {
    use super::*;

    /// The words of a command line.
    fn words(line: &str) -> Vec<String> {
        line.split(' ').map(str::to_string).collect()
    }

    /// What is printed for a command line, or the message.
    fn told(line: &str) -> Result<String, String> {
        let mut out = Vec::new();
        let printed = question(&words(line)).and_then(|question| print(question, &mut out));
        match printed {
            Ok(()) => Ok(String::from_utf8(out).unwrap()),
            Err(stop) => Err(stop.to_string()),
        }
    }

    /// A question with answers, and one that the rows permit none to.
    #[test]
    fn lists() {
        let answers = "response,TagOp,RespErr,forward,final,fwdErr\n\
                       SnpResp_I,Invalid,NDERR,-,I,-\n\
                       SnpResp_SD_Fwded_SC,Invalid,OK,CompData_SC,SD,OK\n\
                       SnpResp_SD_Fwded_SC,Invalid,OK,CompData_SC,SD,DERR\n\
                       SnpRespData_I_PD_Fwded_SC,Update,OK,CompData_SC,I,OK\n\
                       SnpRespData_I_PD_Fwded_SC,Update,OK,CompData_SC,I,DERR\n\
                       SnpRespData_I_PD_Fwded_SC,Update,DERR,CompData_SC,I,OK\n\
                       SnpRespData_I_PD_Fwded_SC,Update,DERR,CompData_SC,I,DERR\n\
                       SnpRespData_SC_PD_Fwded_SC,Update,OK,CompData_SC,I,OK\n\
                       SnpRespData_SC_PD_Fwded_SC,Update,OK,CompData_SC,I,DERR\n\
                       SnpRespData_SC_PD_Fwded_SC,Update,OK,CompData_SC,SC,OK\n\
                       SnpRespData_SC_PD_Fwded_SC,Update,OK,CompData_SC,SC,DERR\n\
                       SnpRespData_SC_PD_Fwded_SC,Update,DERR,CompData_SC,I,OK\n\
                       SnpRespData_SC_PD_Fwded_SC,Update,DERR,CompData_SC,I,DERR\n\
                       SnpRespData_SC_PD_Fwded_SC,Update,DERR,CompData_SC,SC,OK\n\
                       SnpRespData_SC_PD_Fwded_SC,Update,DERR,CompData_SC,SC,DERR\n";
        let none = "response,TagOp,RespErr,forward,final,fwdErr\n";
        assert_eq!(told("SnpCleanFwd 0 0 0 Dirty UD").unwrap(), answers);
        assert_eq!(told("SnpShared 0 0 0 Dirty UC").unwrap(), none);
    }

    /// Each word goes to its own field.
    #[test]
    fn fields() {
        let asked = question(&words("SnpCleanFwd 0 1 1 Dirty SD")).unwrap();
        assert_eq!(asked.bytes(), [18, 0, 1, 1, 2, 6]);
        let asked = question(&words("SnpNotSharedDirtyFwd 1 0 0 Clean SC")).unwrap();
        assert_eq!(asked.bytes(), [20, 1, 0, 0, 1, 5]);
        let asked = question(&words("SnpPreferUnique 0 0 1 Invalid I")).unwrap();
        assert_eq!(asked.bytes(), [21, 0, 0, 1, 0, 0]);
    }

    /// A word that can't stand in its place, and a wrong number of words.
    #[test]
    fn wrong_words() {
        let call = "; call it as answers REQUEST RETTOSRC DONOTGOTOSD EXCL TAG BEFORE, \
                    such as answers SnpShared 0 0 0 Invalid UD";
        for (line, about) in [
            ("snpshared 0 0 0 Invalid UD", "\"snpshared\" is no REQUEST"),
            ("SnpShared 2 0 0 Invalid UD", "\"2\" is no RETTOSRC"),
            ("SnpShared 0 00 0 Invalid UD", "\"00\" is no DONOTGOTOSD"),
            ("SnpShared 0 0 - Invalid UD", "\"-\" is no EXCL"),
            ("SnpShared 0 0 0 ? UD", "\"?\" is no TAG"),
            ("SnpShared 0 0 0 Invalid ", "\"\" is no BEFORE"),
            ("SnpShared 0 0 0 Invalid", "it takes six words"),
            ("SnpShared 0 0 0 Invalid UD UD", "it takes six words"),
        ] {
            assert_eq!(told(line), Err(format!("{about}{call}")));
        }
        assert!(matches!(question(&[]), Err(Stop::Words)));
    }

    /// An output that always fails.
    struct Broken;

    impl Write for Broken {
        fn write(&mut self, _: &[u8]) -> io::Result<usize> {
            Err(io::ErrorKind::Other.into())
        }

        fn flush(&mut self) -> io::Result<()> {
            Err(io::ErrorKind::Other.into())
        }
    }

    /// A failed write is told.
    #[test]
    fn broken_output() {
        let asked = Question::new(Request::SnpShared, State::I);
        assert!(matches!(
            print(asked, &mut Broken),
            Err(Stop::NotWritten(_))
        ));
    }
}
