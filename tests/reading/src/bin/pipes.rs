//! `pipes stream PROGRAM`, `pipes relay PROGRAM`: gives the program of `gate stream`, or
//! the example host program, messages through a pipe, in pieces with pauses between. A
//! refusal that stands has to be written while the pipe is still open, and nothing
//! before it or, if none stands, before the end of the input; what is written then has
//! to be what the reading says, and from `relay` what it writes of the same message in
//! a file.

use std::io::{Read, Write};
use std::path::Path;
use std::process::{Child, Command, ExitCode, Stdio};
use std::sync::mpsc::{channel, Receiver, RecvTimeoutError};
use std::thread::spawn;
use std::time::Duration;

use reading::generate::{self, Random};
use reading::printed::listing_lines;
use reading::vectors::{hex, to_hex};
use reading::{closing, release, standing, table_bytes, Refusal, Release, Row, LIMITS};

/// Between two pieces.
const PAUSE: Duration = Duration::from_millis(2);

/// For what must not be written.
const LONG_PAUSE: Duration = Duration::from_millis(60);

/// For what has to be written.
const PATIENCE: Duration = Duration::from_secs(20);

const SUBSCRIBER: u64 = 7;

#[derive(PartialEq, Eq)]
enum Event {
    Wrote,
    Silent,
    Ended,
}

/// A program that is running, and what it has written so far.
struct Running {
    child: Child,
    output: Receiver<Vec<u8>>,
    written: Vec<u8>,
}

impl Running {
    fn start(command: &mut Command) -> Result<Running, String> {
        let mut child = command
            .stdin(Stdio::piped())
            .stdout(Stdio::piped())
            .spawn()
            .map_err(|error| format!("cannot run it: {error}"))?;
        let mut stdout = child.stdout.take().expect("a pipe");
        let (send, output) = channel();
        spawn(move || {
            let mut piece = [0; 4_096];
            while let Ok(size @ 1..) = stdout.read(&mut piece) {
                let _ = send.send(piece[..size].to_vec());
            }
        });
        Ok(Running { child, output, written: Vec::new() })
    }

    /// What it does next, if it does so within that time.
    fn next(&mut self, time: Duration) -> Event {
        match self.output.recv_timeout(time) {
            Ok(piece) => {
                self.written.extend(piece);
                Event::Wrote
            }
            Err(RecvTimeoutError::Timeout) => Event::Silent,
            Err(RecvTimeoutError::Disconnected) => Event::Ended,
        }
    }

    fn words(&self) -> String {
        String::from_utf8_lossy(&self.written).into_owned()
    }
}

impl Drop for Running {
    fn drop(&mut self) {
        let _ = self.child.kill();
        let _ = self.child.wait();
    }
}

/// Feeds a message in pieces of those sizes and compares what comes back, and with what
/// status, if one is given.
fn drive(
    command: &mut Command,
    message: &[u8],
    sizes: &[usize],
    due: &str,
    status: Option<i32>,
) -> Result<(), String> {
    let mut running = Running::start(command)?;
    let mut pipe = running.child.stdin.take().expect("a pipe");
    let (mut fed, mut early) = (0, false);
    for (k, size) in sizes.iter().enumerate() {
        // A program that has refused the message doesn't read on: no error here.
        let _ = pipe.write_all(&message[fed..fed + size]);
        fed += size;
        early = standing(&message[..fed], &LIMITS).is_some();
        if early {
            break;
        }
        let pause = if k + 1 < sizes.len() { PAUSE } else { LONG_PAUSE };
        if running.next(pause) != Event::Silent {
            return Err(format!("after {fed} bytes wrote {:?}, or ended", running.words()));
        }
    }
    while early && running.written.len() < due.len() {
        if running.next(PATIENCE) != Event::Wrote {
            let words = running.words();
            return Err(format!("before the end of the input wrote {words:?} for {due:?}"));
        }
    }
    drop(pipe);
    loop {
        match running.next(PATIENCE) {
            Event::Wrote => (),
            Event::Silent => return Err("did not end".to_string()),
            Event::Ended => break,
        }
    }
    if running.words() != due {
        return Err(format!("wrote {:?} for {due:?}", running.words()));
    }
    let ended = running.child.wait().map_err(|error| error.to_string())?;
    match status {
        Some(status) if ended.code() != Some(status) => Err(format!("ended with {ended}")),
        _ => Ok(()),
    }
}

/// Messages with the sizes of their pieces.
fn cases() -> Vec<(Vec<u8>, Vec<usize>)> {
    let c = hex("01821482f6841a0001000022008183332a05");
    let mut random = Random::new(1);
    let settings = generate::settings(&mut random);
    let full = generate::full_message(&mut random, settings, LIMITS.bytes);
    assert_eq!(full.len(), LIMITS.bytes);
    let mut cases = vec![(Vec::new(), vec![]), (c.clone(), vec![1; c.len()])];
    for (digits, sizes) in [
        ("01", vec![1]),
        ("01821482f6831a000100002212", vec![6, 1, 6]),
        ("01821482f6836521 6f646d312000", vec![7, 3, 4]),
        // Refused by 2 and by 9, at the end only.
        ("0182", vec![1, 1]),
        ("01821481 1904", vec![4, 2]),
        ("01821481 440000", vec![2, 3, 2]),
        // Refused before.
        ("02", vec![1]),
        ("0180", vec![1, 1]),
        ("01821482f6836521 6f6420312000", vec![6, 1, 1, 3, 2, 1]),
        ("01821481 1800 ffffffff", vec![10]),
        ("01821482f684f6200080 00", vec![10, 1]),
    ] {
        cases.push((hex(digits), sizes));
    }
    // At the limit, past it with an accepted front, past it with a string that is cut.
    cases.push((full.clone(), vec![2_048; 8]));
    cases.push(([&full[..], &[0x82]].concat(), vec![8_000, 8_000, 384, 1]));
    let mut string = hex("0182148159 3ffa");
    string.resize(LIMITS.bytes + 1, 0);
    cases.push((string, vec![16_000, 385]));
    cases
}

/// What `relay` writes of a message in a file, and its status; these have to be the
/// reading's answers in its words.
fn from_file(
    command: &mut Command,
    file: &Path,
    message: &[u8],
    table: &[u8],
) -> Result<(String, i32), String> {
    std::fs::write(file, message).map_err(|error| error.to_string())?;
    let output = command.arg(file).output().map_err(|error| error.to_string())?;
    let words = String::from_utf8_lossy(&output.stdout).into_owned();
    let (answer, status) = match (closing(message, &LIMITS), release(message, table, SUBSCRIBER)) {
        (Err(Refusal { test, place }), _) => {
            (format!("message: refused {} at byte {place}: ", test as u8), 2)
        }
        (_, Ok(Release::No(entry))) => (format!("no, entry {entry} is not granted, rows"), 1),
        _ => ("yes, rows".to_string(), 0),
    };
    match words.contains(&answer) && output.status.code() == Some(status) {
        true => Ok((words, status)),
        false => Err(format!("of a file: wrote {words:?} and ended with {}", output.status)),
    }
}

fn compare(kind: &str, program: &str, folder: &Path) -> Result<usize, String> {
    let table = table_bytes(&[Row { subscriber: SUBSCRIBER, namespace: 65_536 }]);
    let table_file = folder.join("table");
    std::fs::write(&table_file, &table).map_err(|error| error.to_string())?;
    let command = || {
        let mut command = Command::new(program);
        if kind == "relay" {
            command.arg(&table_file).arg(SUBSCRIBER.to_string());
        }
        command
    };
    let cases = cases();
    for (message, sizes) in &cases {
        let driven = match kind {
            "relay" => from_file(&mut command(), &folder.join("message"), message, &table)
                .and_then(|(due, status)| {
                    drive(&mut command(), message, sizes, &due, Some(status))
                }),
            _ => {
                let due = listing_lines(message, &closing(message, &LIMITS));
                drive(&mut command(), message, sizes, &due, None)
            }
        };
        driven.map_err(|words| format!("{} in pieces of {sizes:?}: {words}", to_hex(message)))?;
    }
    Ok(cases.len())
}

fn main() -> ExitCode {
    let arguments: Vec<String> = std::env::args().skip(1).collect();
    let [kind, program] = &arguments[..] else {
        eprintln!("usage: pipes stream|relay PROGRAM");
        return ExitCode::FAILURE;
    };
    let folder = std::env::temp_dir().join(format!("pipes-{}", std::process::id()));
    let outcome = std::fs::create_dir(&folder)
        .map_err(|error| error.to_string())
        .and_then(|()| compare(kind, program, &folder));
    let _ = std::fs::remove_dir_all(&folder);
    match outcome {
        Ok(messages) => {
            println!("{messages} messages in pieces with pauses: all answered in time");
            ExitCode::SUCCESS
        }
        Err(difference) => {
            eprintln!("{kind}: {difference}");
            ExitCode::FAILURE
        }
    }
}
