//! Answers request lines (docs/ASK.md) by goblin 0.10.7: `ok` with the values, `no` where it refuses, `absent` where it has nothing to give
//! and no error, `panic`, `hang` where it does not end in time, `none` where it has no counterpart of the door. `fault` is a panic of this
//! program's own code.
//!
//! The process that reads the lines hands each to a worker, a second process of the same program, and starts a new one where the
//! worker hangs.
mod exception;
mod fat;
mod ground;
mod pe;
mod request;
mod symver;

use request::Request;
use std::io::{BufRead, BufReader, Write};
use std::process::{Child, ChildStdin, Command, Stdio};
use std::sync::atomic::{AtomicBool, Ordering};
use std::sync::mpsc::{channel, Receiver};
use std::time::Duration;

const SECONDS: u64 = 2;

fn answer(request: &Request) -> Option<String> {
    ground::answer(request)
        .or_else(|| fat::answer(request))
        .or_else(|| pe::answer(request))
        .or_else(|| exception::answer(request))
        .or_else(|| symver::answer(request))
}

/// What a door of goblin's gave: its values, or a refusal.
pub fn told<T, E>(result: Result<T, E>, values: impl FnOnce(T) -> Vec<String>) -> String {
    match result {
        Ok(value) => {
            let mut words = vec!["ok".to_string()];
            words.extend(values(value));
            words.join(" ")
        }
        Err(_) => "no".to_string(),
    }
}

/// The same, of a door that may have nothing to give.
pub fn told_found<T, E>(result: Result<Option<T>, E>, values: impl FnOnce(T) -> Vec<String>) -> String {
    match result {
        Ok(None) => "absent".to_string(),
        Ok(Some(value)) => told(Ok::<T, E>(value), values),
        Err(_) => "no".to_string(),
    }
}

/// Whether the last panic was in a file of this program, not of goblin or of what it is built on.
static OWN: AtomicBool = AtomicBool::new(false);

fn work() {
    std::panic::set_hook(Box::new(|info| {
        OWN.store(info.location().map_or(true, |place| !place.file().starts_with('/')), Ordering::SeqCst);
    }));
    let mut file = Vec::new();
    let stdin = std::io::stdin();
    let mut stdout = std::io::stdout();
    for line in stdin.lock().lines() {
        let line = line.expect("standard input is text");
        let reply = if let Some(path) = line.strip_prefix("load ") {
            match std::fs::read(path) {
                Ok(bytes) => {
                    file = bytes;
                    format!("ok {}", file.len())
                }
                Err(_) => "? the file cannot be opened".to_string(),
            }
        } else {
            match Request::parse(&line, &file) {
                Some(request) => std::panic::catch_unwind(|| answer(&request))
                    .map(|reply| reply.unwrap_or("none".to_string()))
                    .unwrap_or_else(|_| if OWN.load(Ordering::SeqCst) { "fault" } else { "panic" }.to_string()),
                None => "?".to_string(),
            }
        };
        writeln!(stdout, "{reply}").and_then(|_| stdout.flush()).expect("standard output takes text");
    }
}

struct Worker {
    child: Child,
    stdin: ChildStdin,
    replies: Receiver<String>,
}

impl Worker {
    fn start() -> Worker {
        let program = std::env::current_exe().expect("the program knows its path");
        let mut child = Command::new(program)
            .arg("--work")
            .stdin(Stdio::piped())
            .stdout(Stdio::piped())
            .spawn()
            .expect("a worker starts");
        let stdin = child.stdin.take().expect("the worker reads");
        let stdout = child.stdout.take().expect("the worker writes");
        let (send, replies) = channel();
        std::thread::spawn(move || {
            for line in BufReader::new(stdout).lines() {
                if line.is_err() || send.send(line.unwrap()).is_err() {
                    return;
                }
            }
        });
        Worker { child, stdin, replies }
    }

    fn ask(&mut self, line: &str) -> Option<String> {
        writeln!(self.stdin, "{line}").ok()?;
        self.replies.recv_timeout(Duration::from_secs(SECONDS)).ok()
    }
}

fn main() {
    if std::env::args().nth(1).as_deref() == Some("--work") {
        return work();
    }
    let mut worker = Worker::start();
    let mut loaded: Option<String> = None;
    let mut stdout = std::io::BufWriter::new(std::io::stdout());
    for line in std::io::stdin().lock().lines() {
        let line = line.expect("standard input is text");
        if line.starts_with("load ") {
            loaded = Some(line.clone());
        }
        let reply = worker.ask(&line).unwrap_or_else(|| {
            let _ = worker.child.kill();
            let _ = worker.child.wait();
            worker = Worker::start();
            if let Some(load) = &loaded {
                worker.ask(load);
            }
            "hang".to_string()
        });
        writeln!(stdout, "{reply}").expect("standard output takes text");
    }
    drop(worker.stdin);
    let _ = worker.child.wait();
}
