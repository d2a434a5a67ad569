//! Running the program that is held against the Rust.

use std::io::{Read, Write};
use std::path::PathBuf;
use std::process::{exit, Child, Command, ExitStatus, Stdio};
use std::sync::mpsc;
use std::thread;
use std::time::{Duration, Instant};

/// How long one run may take; the longest takes seconds.
const LIMIT: Duration = Duration::from_secs(60);

#[derive(Clone)]
pub struct Driver {
    pub path: PathBuf,
    pub arguments: Vec<String>,
}

/// What a run of the driver gave.
#[derive(Clone, PartialEq, Eq)]
pub struct Run {
    pub output: Vec<u8>,
    /// How it ended, if not well.
    pub failed: Option<String>,
}

impl Driver {
    pub fn run(&self, script: &[u8]) -> Run {
        let mut child = Command::new(&self.path)
            .args(&self.arguments)
            .stdin(Stdio::piped())
            .stdout(Stdio::piped())
            .stderr(Stdio::null())
            .spawn()
            .unwrap_or_else(|error| panic!("{} cannot be run: {error}", self.path.display()));
        let end = Instant::now() + LIMIT;
        let mut input = child.stdin.take().expect("piped input");
        let mut pipe = child.stdout.take().expect("piped output");
        let bytes = script.to_vec();
        // A driver that stops early closes its input; that shows in its output.
        thread::spawn(move || drop(input.write_all(&bytes)));
        let (ended, answer) = mpsc::channel();
        thread::spawn(move || {
            let mut output = Vec::new();
            let read = pipe.read_to_end(&mut output);
            // Nobody listens once the time is up.
            drop(ended.send(read.map(|_| output)));
        });
        let Ok(read) = answer.recv_timeout(LIMIT) else { self.hangs(&mut child, script) };
        let output = read.expect("driver output");
        let Some(status) = status_by(&mut child, end) else { self.hangs(&mut child, script) };
        Run { output, failed: (!status.success()).then(|| status.to_string()) }
    }

    /// A driver that hangs ends the comparison: to make its script small would hang again and again.
    fn hangs(&self, child: &mut Child, script: &[u8]) -> ! {
        drop(child.kill());
        drop(child.wait());
        println!(
            "{} was still running after {} seconds, on a script of {} bytes that starts {}",
            self.path.display(),
            LIMIT.as_secs(),
            script.len(),
            crate::show::hex(&script[..script.len().min(64)])
        );
        exit(1)
    }
}

/// How the child ended, if it did so in time. Its output is closed, so it is about to.
fn status_by(child: &mut Child, end: Instant) -> Option<ExitStatus> {
    loop {
        if let Some(status) = child.try_wait().expect("the driver's status") {
            return Some(status);
        }
        if Instant::now() >= end {
            return None;
        }
        thread::sleep(Duration::from_millis(1));
    }
}
