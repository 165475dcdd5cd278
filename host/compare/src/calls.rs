//! Counts the calls that a program makes, by the library `host/c/calls.c`.

use crate::dayrun::{Ended, Running, Temporary};
use std::path::Path;
use std::process::Command;

/// The library's source, seen from this package.
const SOURCE: &str = "../c/calls.c";

/// The calls on standard input and standard output.
#[derive(Clone, Copy, Debug, PartialEq, Eq)]
pub struct Calls {
    pub reads: usize,
    pub writes: usize,
}

/// The compiled library.
pub struct Library(Temporary);

impl Library {
    /// Compiles the library into the temporary folder.
    pub fn compile() -> Library {
        let library = Temporary::named("calls.so");
        let status = Command::new("gcc")
            .args(["-O1", "-shared", "-fPIC", "-o"])
            .arg(library.path())
            .arg(Path::new(env!("CARGO_MANIFEST_DIR")).join(SOURCE))
            .arg("-ldl")
            .status()
            .expect("gcc can be started");
        assert!(status.success(), "gcc ends with {status} on host/c/calls.c");
        Library(library)
    }

    /// Runs a command whose input is set; its calls are counted.
    pub fn run(&self, mut command: Command) -> (Ended, Calls) {
        let counts = Temporary::named("calls");
        command.env("LD_PRELOAD", self.0.path());
        command.env("CALLS_FILE", counts.path());
        let ended = Running::start(command).end();
        let text = std::fs::read_to_string(counts.path())
            .expect("the library tells its counts where the program ends by itself");
        let counts: Vec<usize> = text.split_whitespace().flat_map(str::parse).collect();
        let &[reads, writes] = counts.as_slice() else {
            panic!("the library tells {text}");
        };
        assert!(reads > 0, "the program reads without calling read");
        assert!(writes > 0, "the program writes without calling write");
        (ended, Calls { reads, writes })
    }
}
