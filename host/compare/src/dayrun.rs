//! Runs the program `dayrun` and holds what it writes to what is due.

use crate::days;
use std::fs::File;
use std::io::{Read, Write};
use std::os::fd::OwnedFd;
use std::os::unix::net::UnixStream;
use std::path::{Path, PathBuf};
use std::process::{Child, ChildStdout, Command, ExitStatus, Stdio};
use std::sync::atomic::{AtomicU32, Ordering};
use std::sync::mpsc::{channel, Receiver, Sender};
use std::thread;
use std::time::{Duration, Instant};

/// Where `bash scripts/build` puts the program, seen from this package.
const PROGRAM: &str = "../../target/bin/dayrun";
/// After so long a program that writes nothing, or does not end, hangs.
const LIMIT: Duration = Duration::from_secs(20);

/// The program: the one that the environment variable DAYRUN names, or the one
/// at the top of the repository.
pub fn program() -> PathBuf {
    let own = || Path::new(env!("CARGO_MANIFEST_DIR")).join(PROGRAM);
    let path = std::env::var_os("DAYRUN").map_or_else(own, PathBuf::from);
    assert!(
        path.is_file(),
        "the program dayrun is missing ({}): make it with bash scripts/build",
        path.display()
    );
    path
}

/// A file in the temporary folder, taken away in the end.
pub struct Temporary(PathBuf);

impl Temporary {
    /// A name that no other file has.
    pub fn named(name: &str) -> Temporary {
        static NUMBER: AtomicU32 = AtomicU32::new(0);
        let number = NUMBER.fetch_add(1, Ordering::Relaxed);
        let name = format!("dayrun-{}-{number}-{name}", std::process::id());
        Temporary(std::env::temp_dir().join(name))
    }

    /// A file that holds these bytes.
    pub fn holding(bytes: &[u8]) -> Temporary {
        let file = Temporary::named("input");
        std::fs::write(file.path(), bytes).expect("the temporary folder can be written");
        file
    }

    pub fn path(&self) -> &Path {
        &self.0
    }

    /// The file as a program's standard input.
    pub fn as_input(&self) -> Stdio {
        File::open(self.path())
            .expect("the file was written")
            .into()
    }
}

impl Drop for Temporary {
    fn drop(&mut self) {
        _ = std::fs::remove_file(&self.0);
    }
}

/// A program that has ended.
pub struct Ended {
    pub output: Vec<u8>,
    pub status: ExitStatus,
}

/// A program under way.
pub struct Running {
    child: Child,
    input: Option<Sender<Vec<u8>>>,
    output: Option<Receiver<Vec<u8>>>,
    /// What it has written so far.
    pub received: Vec<u8>,
}

impl Running {
    /// Starts a command whose input is set and whose output is read here.
    pub fn start(mut command: Command) -> Running {
        command.stdout(Stdio::piped());
        let mut running = Running::start_unread(command);
        let output = running.child.stdout.take().expect("the output is a pipe");
        running.output = Some(pieces_from(output));
        running
    }

    /// Starts a command whose input is set and whose output goes elsewhere.
    pub fn start_unread(mut command: Command) -> Running {
        let mut child = command.spawn().expect("the program can be started");
        let input = child.stdin.take().map(pieces_to);
        Running {
            child,
            input,
            output: None,
            received: Vec::new(),
        }
    }

    /// Starts the day run with a pipe as input that is kept open.
    pub fn on_pipe() -> Running {
        let mut command = Command::new(program());
        command.stdin(Stdio::piped());
        Running::start(command)
    }

    /// Starts the day run with a socket as input that is kept open: unlike a
    /// pipe it may give more than 65,536 bytes to one read.
    pub fn on_socket() -> Running {
        let (ours, theirs) = UnixStream::pair().expect("a pair of sockets");
        let mut command = Command::new(program());
        command.stdin(OwnedFd::from(theirs));
        let mut running = Running::start(command);
        running.input = Some(pieces_to(ours));
        running
    }

    /// Writes a piece to the input, without waiting until it is read.
    pub fn send(&mut self, piece: &[u8]) {
        let input = self.input.as_ref().expect("the input is a pipe");
        // A program that is gone reads nothing: its output tells.
        _ = input.send(piece.to_vec());
    }

    /// Waits until this has been written, or until it cannot be any more: the
    /// bytes differ, none come, or the output has ended.
    pub fn wait_for(&mut self, due: &[u8]) {
        let start = Instant::now();
        while self.received.len() < due.len() && due.starts_with(&self.received) {
            let left = LIMIT.saturating_sub(start.elapsed());
            let output = self.output.as_ref().expect("the output is a pipe");
            match output.recv_timeout(left) {
                Ok(piece) => self.received.extend(piece),
                Err(_) => break,
            }
        }
    }

    /// Lets the reader of the output go away.
    pub fn stop_reading(&mut self) {
        self.child.stdout = None;
    }

    /// Ends the input, reads the rest of the output and waits for the end.
    pub fn end(mut self) -> Ended {
        self.input = None;
        if let Some(output) = self.output.take() {
            let start = Instant::now();
            while let Ok(piece) = output.recv_timeout(LIMIT.saturating_sub(start.elapsed())) {
                self.received.extend(piece);
            }
        }
        Ended {
            status: self.wait(),
            output: std::mem::take(&mut self.received),
        }
    }

    fn wait(&mut self) -> ExitStatus {
        let start = Instant::now();
        while start.elapsed() < LIMIT {
            if let Some(status) = self.child.try_wait().expect("the program can be asked") {
                return status;
            }
            thread::sleep(Duration::from_micros(200));
        }
        panic!("dayrun does not end");
    }
}

impl Drop for Running {
    fn drop(&mut self) {
        _ = self.child.kill();
        _ = self.child.wait();
    }
}

/// A thread that writes each piece it is given.
fn pieces_to(mut input: impl Write + Send + 'static) -> Sender<Vec<u8>> {
    let (sender, pieces) = channel::<Vec<u8>>();
    thread::spawn(move || {
        for piece in pieces {
            if input.write_all(&piece).is_err() {
                break;
            }
        }
    });
    sender
}

/// A thread that hands over what it reads.
fn pieces_from(mut output: ChildStdout) -> Receiver<Vec<u8>> {
    let (sender, receiver) = channel();
    thread::spawn(move || {
        let mut buffer = vec![0; 65_536];
        while let Ok(length @ 1..) = output.read(&mut buffer) {
            if sender.send(buffer[..length].to_vec()).is_err() {
                break;
            }
        }
    });
    receiver
}

/// Runs the day run on a file.
pub fn from_file(day: &[u8]) -> Ended {
    let file = Temporary::holding(day);
    let mut command = Command::new(program());
    command.stdin(file.as_input());
    Running::start(command).end()
}

/// Runs the day run on a pipe into which these pieces are written.
pub fn from_pieces<'a>(pieces: impl IntoIterator<Item = &'a [u8]>) -> Ended {
    let mut running = Running::on_pipe();
    for piece in pieces {
        running.send(piece);
    }
    running.end()
}

/// The program ended well and wrote this.
pub fn check(day: &[u8], ended: &Ended, due: &[u8], what: &str) {
    check_lines(day, &ended.output, due, what);
    assert!(ended.status.success(), "{what}: {}", ended.status);
}

/// The output is what is due; a failure tells the first line that differs and
/// the message there.
pub fn check_lines(day: &[u8], output: &[u8], due: &[u8], what: &str) {
    if output == due {
        return;
    }
    let (written, wanted) = (lines(output), lines(due));
    let same = written.iter().zip(&wanted).take_while(|(a, b)| a == b);
    let place = same.count();
    let shown = |lines: &[&[u8]]| match lines.get(place) {
        Some(line) => format!("\"{}\"", line.escape_ascii()),
        None => String::from("nothing"),
    };
    panic!(
        "{what}: a day of {} bytes: line {} of the report is {} and has to be {}\n{}",
        day.len(),
        place + 1,
        shown(&written),
        shown(&wanted),
        days::subject_of(day, place)
    );
}

/// The lines of a report, each with its newline.
fn lines(report: &[u8]) -> Vec<&[u8]> {
    report.split_inclusive(|&byte| byte == b'\n').collect()
}
