//! Asking: one run of the program that is tried, from a stream of questions to its lines.

use std::io::{BufRead, BufReader, Write};
use std::process::{Child, Command, Stdio};
use std::sync::mpsc::{channel, Receiver, RecvTimeoutError};
use std::thread;
use std::time::Duration;

/// So long may the next line take.
const PATIENCE: Duration = Duration::from_secs(300);

/// What a run wrote, and what went wrong besides.
pub struct Run {
    /// Each with its line feed, if it has one.
    pub lines: Vec<Vec<u8>>,
    pub trouble: Option<String>,
}

pub fn run(command: &[String], stream: Vec<u8>) -> Run {
    let mut child = match start(command) {
        Ok(child) => child,
        Err(error) => {
            return Run {
                lines: Vec::new(),
                trouble: Some(format!("can't start {command:?}: {error}")),
            }
        }
    };
    let mut input = child.stdin.take().expect("a pipe");
    // Written beside the reading, so that neither pipe fills up for good.
    // A program that ends early closes the pipe; its lines show that.
    thread::spawn(move || drop(input.write_all(&stream)));
    let lines = lines_of(&mut child);
    let mut run = collect(lines, &mut child);
    let status = child.wait().expect("the child's status");
    if run.trouble.is_none() && !status.success() {
        run.trouble = Some(format!("it ended with {status}"));
    }
    run
}

fn start(command: &[String]) -> std::io::Result<Child> {
    Command::new(&command[0])
        .args(&command[1..])
        .stdin(Stdio::piped())
        .stdout(Stdio::piped())
        .spawn()
}

fn lines_of(child: &mut Child) -> Receiver<Vec<u8>> {
    let (sender, receiver) = channel();
    let mut output = BufReader::new(child.stdout.take().expect("a pipe"));
    thread::spawn(move || loop {
        let mut line = Vec::new();
        match output.read_until(b'\n', &mut line) {
            Ok(count) if count > 0 => drop(sender.send(line)),
            _ => return,
        }
    });
    receiver
}

fn collect(lines: Receiver<Vec<u8>>, child: &mut Child) -> Run {
    let mut run = Run {
        lines: Vec::new(),
        trouble: None,
    };
    loop {
        match lines.recv_timeout(PATIENCE) {
            Ok(line) => run.lines.push(line),
            Err(RecvTimeoutError::Disconnected) => return run,
            Err(RecvTimeoutError::Timeout) => {
                run.trouble = Some(format!("no line for {PATIENCE:?}; it was stopped"));
                drop(child.kill());
                return run;
            }
        }
    }
}
