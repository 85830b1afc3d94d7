//! Compares the reading with a decoder that others wrote.
//!
//! `peers NAME PROGRAM [ARGUMENT]...`: the program reads lines of hex and
//! writes what it makes of each (see `reading::appendix`). Asked are RFC 8949's
//! examples, which have to come out as the RFC says; the fixed inputs and as
//! many again from the grammar: those that the reading accepts have to be
//! well-formed, with the same values, and those refused by test 2 or 9, for
//! bytes that are missing, must not be well-formed.

use std::io::Write;
use std::process::{Command, ExitCode, Stdio};

use reading::appendix::{examples, notation_of_diagnostic, notation_of_records};
use reading::generate::{self, Random};
use reading::vectors::{self, hex, to_hex, Call, Line};
use reading::{check_message, check_single, items_message, items_single, Answer};

const MALFORMED: &str = "malformed";

/// What a peer is known not to read, though it is well-formed.
fn beyond(peer: &str, diagnostic: &str) -> bool {
    // libcbor 0.8 knows no simple values but 20 to 23.
    peer == "libcbor" && diagnostic.starts_with("simple(")
}

/// The peer's answers, line by line.
fn ask(program: &[String], lines: String) -> std::io::Result<String> {
    let mut child = Command::new(&program[0])
        .args(&program[1..])
        .stdin(Stdio::piped())
        .stdout(Stdio::piped())
        .spawn()?;
    let mut stdin = child.stdin.take().unwrap();
    let writer = std::thread::spawn(move || stdin.write_all(lines.as_bytes()));
    let output = child.wait_with_output()?;
    writer.join().unwrap()?;
    match output.status.success() {
        true => Ok(String::from_utf8_lossy(&output.stdout).into_owned()),
        false => Err(std::io::Error::other(format!("ended with {}", output.status))),
    }
}

fn main() -> ExitCode {
    let arguments: Vec<String> = std::env::args().skip(1).collect();
    let [name, program @ ..] = &arguments[..] else { panic!("usage: peers NAME PROGRAM") };

    // Each input with what is expected of the peer.
    let mut asked: Vec<(Vec<u8>, String)> = Vec::new();
    let mut left_out = Vec::new();
    for example in examples() {
        match beyond(name, example.diagnostic) {
            true => left_out.push(example.diagnostic),
            false => asked.push((hex(example.hex), notation_of_diagnostic(example.diagnostic))),
        }
    }
    let published = asked.len();

    let mut inputs: Vec<(bool, Vec<u8>)> = Vec::new();
    for line in vectors::lines() {
        let Line::Input { call, input, .. } = line else { continue };
        match call {
            Call::Single | Call::ItemsSingle => inputs.push((true, input)),
            Call::Message | Call::ItemsMessage => inputs.push((false, input)),
            Call::Write | Call::Read => (),
        }
    }
    let mut random = Random::new(8949);
    for _ in 0..inputs.len() {
        let settings = generate::settings(&mut random);
        inputs.push((true, generate::single(&mut random, settings)));
        inputs.push((false, generate::message(&mut random, settings)));
    }
    let (mut accepted, mut cut) = (0, 0);
    for (is_single, input) in inputs {
        let (answer, records) = match is_single {
            true => (check_single(&input), items_single(&input)),
            false => (check_message(&input), items_message(&input)),
        };
        match (answer, records) {
            (Answer::Accepted(_), Ok(records)) => {
                accepted += 1;
                let values = notation_of_records(&input, &records);
                asked.push((input, values));
            }
            // The empty message lacks its version; as a sequence it is one.
            (Answer::Refused { number: 2 | 9, .. }, Err(_)) if !input.is_empty() => {
                cut += 1;
                asked.push((input, MALFORMED.to_string()));
            }
            _ => (),
        }
    }

    let lines: String = asked.iter().map(|(input, _)| to_hex(input) + "\n").collect();
    let answers = match ask(program, lines) {
        Ok(answers) => answers,
        Err(error) => {
            println!("peer {name}: {error}");
            return ExitCode::FAILURE;
        }
    };
    let answers: Vec<&str> = answers.lines().map(str::trim).collect();
    if answers.len() != asked.len() {
        println!("peer {name}: {} answers to {} inputs", answers.len(), asked.len());
        return ExitCode::FAILURE;
    }
    let mut wrong = 0;
    for ((input, expected), answer) in asked.iter().zip(answers) {
        if expected != answer {
            wrong += 1;
            println!("peer {name}: {}", to_hex(input));
            println!("  expected: {expected}");
            println!("  peer:     {answer}");
        }
    }
    if wrong > 0 {
        println!("peer {name}: {wrong} inputs differ");
        return ExitCode::FAILURE;
    }
    for diagnostic in left_out {
        println!("peer {name}: {diagnostic} is left out, it reads no such value");
    }
    println!(
        "peer {name}: {published} published examples, {accepted} accepted inputs and {cut} cut \
         ones, all as expected"
    );
    ExitCode::SUCCESS
}
