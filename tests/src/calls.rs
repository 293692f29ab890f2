//! Holds the program `calls` against the model: what it writes, byte for byte.
use crate::random::Random;
use crate::{input, lines};
use std::fs::{self, File};
use std::io::Write;
use std::path::Path;
use std::process::{Command, Output, Stdio};
use std::thread;
use std::time::Duration;

const PROGRAM: &str = concat!(env!("CARGO_MANIFEST_DIR"), "/../crates/calls/out/calls");
const INPUT: &str = concat!(env!("CARGO_MANIFEST_DIR"), "/../target/calls.in");

/// Two inputs with the answers of another model, two with next to nothing, and a random one, fed as a
/// file and in pieces through a pipe.
pub fn compare(seed: u64) {
    told("calls-short", include_bytes!("../calls-short.in"), include_bytes!("../calls-short.out"));
    told("calls-long", include_bytes!("../calls-long.in"), include_bytes!("../calls-long.out"));
    told("no input", b"", b"");
    told("one newline", b"\n", b"bad\n");

    let mut rng = Random::new(seed);
    let input = input::random(&mut rng);
    let answers = lines::answers(&input);
    fs::write(INPUT, &input).expect(INPUT);
    same("a file", &from_file(INPUT), &answers);
    let pieces = pieces(&mut rng, &input);
    same("pieces", &piped(&pieces), &answers);
    println!(
        "program calls: {} lines of {} bytes, as a file and in {} pieces: the same {} bytes of answers",
        input.split(|&b| b == b'\n').count(),
        input.len(),
        pieces.len(),
        answers.len()
    );
}

fn told(name: &str, input: &[u8], answers: &[u8]) {
    same(&format!("{name}, by the model"), &lines::answers(input), answers);
    same(name, &piped(&[input]), answers);
}

fn same(name: &str, given: &[u8], answers: &[u8]) {
    let lines = |text: &[u8]| -> Vec<String> {
        text.split_inclusive(|&b| b == b'\n').map(|l| String::from_utf8_lossy(l).into_owned()).collect()
    };
    if given != answers {
        let (given, answers) = (lines(given), lines(answers));
        let i = (0..).find(|&i| given.get(i) != answers.get(i)).unwrap();
        panic!("calls, {name}: line {} of the answers is {:?}, not {:?}", i + 1, given.get(i), answers.get(i));
    }
}

/// The input in pieces of 1 to 70,000 bytes, of short ones as many as of long ones.
fn pieces<'a>(rng: &mut Random, mut input: &'a [u8]) -> Vec<&'a [u8]> {
    let mut pieces = Vec::new();
    while !input.is_empty() {
        let most = 70_000 >> rng.below(17);
        let (piece, rest) = input.split_at(input.len().min(1 + rng.below(most) as usize));
        pieces.push(piece);
        input = rest;
    }
    pieces
}

/// From a file each read fills the program's buffer.
fn from_file(path: &str) -> Vec<u8> {
    written(program().stdin(File::open(path).expect(path)).output().expect(PROGRAM))
}

/// A pause after each piece lets the program read it by itself, mostly.
fn piped(pieces: &[&[u8]]) -> Vec<u8> {
    let mut child = program().stdin(Stdio::piped()).stdout(Stdio::piped()).spawn().expect(PROGRAM);
    let mut stdin = child.stdin.take().unwrap();
    thread::scope(|s| {
        s.spawn(move || {
            for piece in pieces {
                if stdin.write_all(piece).is_err() {
                    return; // the program has ended: its answers tell
                }
                thread::sleep(Duration::from_millis(1));
            }
        });
        written(child.wait_with_output().expect(PROGRAM))
    })
}

fn program() -> Command {
    assert!(Path::new(PROGRAM).exists(), "{PROGRAM} is missing: rt run in crates/calls builds it");
    Command::new(PROGRAM)
}

fn written(output: Output) -> Vec<u8> {
    assert!(output.status.success(), "calls ended with {}", output.status);
    output.stdout
}
