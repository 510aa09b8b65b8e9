//! Runs a program, feeds it and reads what it writes.

use crate::running::arrival::Arrival;
use crate::running::call::Answer;
use std::env;
use std::ffi::OsString;
use std::fs::{self, File};
use std::io::{self, BufWriter, ErrorKind, Read, Write};
use std::os::unix::io::OwnedFd;
use std::os::unix::net::UnixDatagram;
use std::os::unix::process::ExitStatusExt;
use std::path::PathBuf;
use std::process::{self, Child, ChildStdin, Command, Stdio};
use std::sync::atomic::{AtomicU64, Ordering};
use std::sync::mpsc::{sync_channel, Receiver, RecvTimeoutError};
use std::sync::Arc;
use std::thread;
use std::time::{Duration, Instant};

/// How long a program may write nothing, and how long it may take to end once it writes no more.
const PATIENCE: Duration = Duration::from_secs(120);
/// How long the next piece is kept back, so that a program that waits for it has read what came before.
const PAUSE: Duration = Duration::from_millis(25);
/// The most bytes that are taken of what a program writes on one input.
const MOST_OUTPUT: u64 = 1 << 28;
/// How many bytes are written or read at once.
const AT_ONCE: usize = 1 << 14;
/// How many bytes an empty pipe always takes at once, so that nobody need wait for a reader.
const A_PIPE_HOLDS: usize = 4_096;
/// How often the end is told to a program whose input arrives in pieces, should it ask again.
const ENDS: usize = 8;
/// What stands on standard input where a file is named.
const NOT_ASKED_FOR: &[u8] = b"x";

/// What a program writes, as it comes.
pub struct Arriving {
    chunks: Receiver<io::Result<Vec<u8>>>,
    chunk: Vec<u8>,
    taken: usize,
}

impl Arriving {
    /// What comes out of somewhere.
    fn new(mut from: impl Read + Send + 'static) -> Arriving {
        let (sender, chunks) = sync_channel(16);
        thread::spawn(move || loop {
            let mut chunk = vec![0; AT_ONCE];
            let came = match from.read(&mut chunk) {
                Ok(0) => return,
                Ok(came) => Ok(came),
                Err(error) if error.kind() == ErrorKind::Interrupted => continue,
                Err(error) => Err(error),
            };
            chunk.truncate(*came.as_ref().unwrap_or(&0));
            // Nobody listens any more only where the run was given up.
            if sender.send(came.map(|_| chunk)).is_err() {
                return;
            }
        });
        Arriving { chunks, chunk: Vec::new(), taken: 0 }
    }

    /// All that comes until there is no more.
    fn all(&mut self) -> Result<Vec<u8>, String> {
        let mut bytes = Vec::new();
        match self.take(MOST_OUTPUT).read_to_end(&mut bytes) {
            Ok(_) if (bytes.len() as u64) < MOST_OUTPUT => Ok(bytes),
            Ok(_) => Err("the program wrote without end and was stopped".to_string()),
            Err(error) => Err(format!("the program's output cannot be read: {error}")),
        }
    }
}

impl Read for Arriving {
    fn read(&mut self, bytes: &mut [u8]) -> io::Result<usize> {
        while self.taken == self.chunk.len() {
            match self.chunks.recv_timeout(PATIENCE) {
                Ok(chunk) => (self.chunk, self.taken) = (chunk?, 0),
                Err(RecvTimeoutError::Disconnected) => return Ok(0),
                Err(RecvTimeoutError::Timeout) => return Err(io::Error::new(ErrorKind::TimedOut, "nothing came")),
            }
        }
        let came = bytes.len().min(self.chunk.len() - self.taken);
        bytes[..came].copy_from_slice(&self.chunk[self.taken..self.taken + came]);
        self.taken += came;
        Ok(came)
    }
}

/// A program that was started.
pub struct Started {
    child: Child,
    /// What it writes.
    pub output: Arriving,
    /// What it complains of.
    complaint: Arriving,
}

impl Started {
    /// Starts a command.
    fn new(mut command: Command) -> Result<Started, String> {
        command.stdout(Stdio::piped()).stderr(Stdio::piped());
        let mut child = command.spawn().map_err(|error| format!("the program cannot be started: {error}"))?;
        let output = Arriving::new(child.stdout.take().ok_or("the program has no output")?);
        let complaint = Arriving::new(child.stderr.take().ok_or("the program has no way to complain")?);
        Ok(Started { child, output, complaint })
    }

    /// What it complained of and the status it ended with, or less than 0 where a signal ended it.
    pub fn end(mut self) -> Result<(Vec<u8>, i32), String> {
        let complaint = self.complaint.all()?;
        let start = Instant::now();
        let mut pause = Duration::from_micros(20);
        while start.elapsed() < PATIENCE {
            match self.child.try_wait() {
                Ok(Some(status)) => return Ok((complaint, status.code().or(status.signal().map(|n| -n)).unwrap_or(-1))),
                Ok(None) => thread::sleep(pause),
                Err(error) => return Err(format!("the program's end is not known: {error}")),
            }
            pause = (2 * pause).min(Duration::from_millis(5));
        }
        Err("the program did not end after its output and was stopped".to_string())
    }
}

impl Drop for Started {
    fn drop(&mut self) {
        // It has ended where all went well.
        let _ = self.child.kill();
        let _ = self.child.wait();
    }
}

/// The command that runs a program.
fn command(program: &[OsString]) -> Result<Command, String> {
    let (name, args) = program.split_first().ok_or("no program is named")?;
    let mut command = Command::new(name);
    command.args(args).stdin(Stdio::piped());
    Ok(command)
}

/// Starts a program, whose standard input is written to while its output is read.
pub fn start<F>(program: &[OsString], feed: F) -> Result<Started, String>
where
    F: FnOnce(&mut dyn Write) -> io::Result<()> + Send + 'static,
{
    let mut started = Started::new(command(program)?)?;
    let input = started.child.stdin.take().ok_or("the program has no input")?;
    thread::spawn(move || {
        let mut input = BufWriter::with_capacity(AT_ONCE, input);
        // A program that took less than its input shows by its answers, which then are too few.
        let _ = feed(&mut input).and_then(|()| input.flush());
    });
    Ok(started)
}

/// Runs a program on an input, or tells in plain words why that could not be done.
pub fn run(program: &[OsString], input: &Arc<Vec<u8>>, arrival: Arrival) -> Result<Answer, String> {
    let mut command = command(program)?;
    let mut named = None;
    let mut socket = None;
    let no_way = |error: io::Error| format!("the input cannot arrive {}: {error}", arrival.name());
    match arrival {
        Arrival::Pipe | Arrival::Pauses => {}
        Arrival::File => {
            let file = NamedFile::new(input).and_then(|file| File::open(&file.path)).map_err(no_way)?;
            command.stdin(file);
        }
        Arrival::Named => {
            let file = NamedFile::new(input).map_err(no_way)?;
            command.arg(&file.path);
            named = Some(file);
        }
        Arrival::Pieces(_) | Arrival::AnyPieces(_) | Arrival::Cut(_) | Arrival::CutTwice(_, _) => {
            let (ours, theirs) = UnixDatagram::pair().map_err(no_way)?;
            command.stdin(Stdio::from(OwnedFd::from(theirs)));
            socket = Some(ours);
        }
    }
    // The program alone holds its end from then on, so that feeding fails once it has ended.
    let mut started = Started::new(command)?;
    let (stdin, input, length) = (started.child.stdin.take(), Arc::clone(input), input.len());
    // A program that has told a refusal need not take the rest.
    let feed = move || match (stdin, socket) {
        (Some(stdin), _) => write(stdin, &input, arrival),
        (None, Some(socket)) => send(&socket, &input, arrival),
        (None, None) => Ok(()),
    };
    match arrival {
        Arrival::File => {}
        Arrival::Pipe if length <= A_PIPE_HOLDS => drop(feed()),
        _ => drop(thread::spawn(feed)),
    }
    let output = started.output.all()?;
    let (complaint, status) = started.end()?;
    drop(named);
    Ok(Answer { output, complaint, status })
}

/// Writes to a program's standard input what arrives there.
fn write(mut to: ChildStdin, input: &[u8], arrival: Arrival) -> io::Result<()> {
    if arrival == Arrival::Named {
        return to.write_all(NOT_ASKED_FOR);
    }
    for (n, piece) in arrival.pieces(input).into_iter().enumerate() {
        if n > 0 {
            thread::sleep(PAUSE);
        }
        to.write_all(piece)?;
    }
    Ok(())
}

/// Sends an input in pieces, and then its end.
fn send(to: &UnixDatagram, input: &[u8], arrival: Arrival) -> io::Result<()> {
    for piece in arrival.pieces(input).into_iter().chain([&[][..]; ENDS]) {
        to.send(piece)?;
    }
    Ok(())
}

/// A file with a name, which is gone when this is.
struct NamedFile {
    path: PathBuf,
}

impl NamedFile {
    /// A file that holds an input.
    fn new(input: &[u8]) -> io::Result<NamedFile> {
        static FILES: AtomicU64 = AtomicU64::new(0);
        let name = format!("compare-input-{}-{}", process::id(), FILES.fetch_add(1, Ordering::SeqCst));
        let file = NamedFile { path: env::temp_dir().join(name) };
        File::options().write(true).create_new(true).open(&file.path)?.write_all(input)?;
        Ok(file)
    }
}

impl Drop for NamedFile {
    fn drop(&mut self) {
        // That it is gone already is no trouble.
        let _ = fs::remove_file(&self.path);
    }
}

#[cfg(test)]
mod tests {
    use super::*;

    /// Every way in which an input can arrive.
    #[rustfmt::skip]
    const WAYS: [Arrival; 10] = [
        Arrival::Pipe, Arrival::Pauses, Arrival::File, Arrival::Named, Arrival::Pieces(1), Arrival::Pieces(7),
        Arrival::Pieces(4_095), Arrival::AnyPieces(1), Arrival::Cut(77), Arrival::CutTwice(50, 3_000),
    ];

    /// What a shell script does with some bytes, which stand in the file that is its argument or on its input.
    fn ran(script: &str, bytes: &[u8], arrival: Arrival) -> Answer {
        let program = ["sh", "-c", script, "script"].map(OsString::from);
        run(&program, &Arc::new(bytes.to_vec()), arrival).unwrap()
    }

    /// A program gets the whole input whichever way it arrives, be it empty or long.
    #[test]
    fn inputs_arrive() {
        for arrival in WAYS {
            for length in [0, 1, 100, 5_000, 200_000] {
                // A read has no room for a piece of any length.
                let large = matches!(arrival, Arrival::Pipe | Arrival::Pauses | Arrival::File | Arrival::Named | Arrival::Pieces(4_095));
                if length < 10_000 || large {
                    let bytes: Vec<u8> = (0..length).map(|n| (n % 251) as u8).collect();
                    let output = bytes.clone();
                    assert_eq!(ran("exec cat \"$@\"", &bytes, arrival), Answer { output, ..Answer::default() });
                }
            }
        }
    }

    /// Each read of an input in pieces gets one piece, however much it asks for.
    #[test]
    fn a_piece_with_each_read() {
        let bytes: Vec<u8> = (0..5_000).map(|n| (n % 251) as u8).collect();
        for arrival in WAYS.into_iter().skip(4) {
            for reads in 1..=3 {
                let read = "dd bs=65536 count=1 2>/dev/null; ".repeat(reads);
                let pieces: Vec<&[u8]> = arrival.pieces(&bytes).into_iter().take(reads).collect();
                assert_eq!(ran(&read, &bytes, arrival).output, pieces.concat(), "{}, {reads} reads", arrival.name());
            }
        }
    }

    /// What a program complains of and how it ends is told, though it takes none of its input.
    #[test]
    fn complaints_and_ends() {
        for arrival in WAYS {
            let told = ran("echo out; echo no >&2; exit 3", &[b'x'; 300_000], arrival);
            assert_eq!(told, Answer { output: b"out\n".to_vec(), complaint: b"no\n".to_vec(), status: 3 });
        }
        assert_eq!(ran("kill -9 $$", b"", Arrival::Pipe).status, -9);
    }

    /// Where a file is named, standard input holds something else, and the file is gone afterwards.
    #[test]
    fn named_files() {
        let told = ran("cat; cat \"$1\"; echo \"$1\" >&2", b"yz", Arrival::Named);
        assert_eq!(told.output, b"xyz");
        let path = String::from_utf8(told.complaint).unwrap();
        assert!(!PathBuf::from(path.trim_end()).exists());
    }
}
