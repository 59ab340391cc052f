//! Compares the product with the reference: `compare SEED COUNT` calls of the static library beside those of every byte, or
//! `compare --program PATH SEED SESSIONS` sessions of the program.

use reference::calls::{Call, Outcome};
use reference::generator::{self, Reach, Session};
use reference::model::BLOCK_LENGTH;
use reference::product;
use reference::random::Random;
use reference::Service;
use std::env;
use std::error::Error;
use std::fs;
use std::io::{self, Write};
use std::process::{Command, ExitCode, Stdio};
use std::thread;

const CALLS_PER_SESSION: usize = 50;
/// How many bytes of a session's input are written at once, by turns.
const PIECES: [usize; 4] = [1, 61, 4096, 1 << 20];

fn main() -> ExitCode {
    reference::exit(run())
}

fn run() -> Result<(), Box<dyn Error>> {
    let arguments: Vec<String> = env::args().skip(1).collect();
    match &arguments[..] {
        [seed, count] => library(seed.parse()?, count.parse()?),
        [option, path, seed, sessions] if option == "--program" => {
            program(path, seed.parse()?, sessions.parse()?)
        }
        _ => Err("usage: compare SEED COUNT | compare --program PATH SEED SESSIONS".into()),
    }
}

/// The calls of every byte, then those of the seed.
fn library(seed: u64, count: usize) -> Result<(), Box<dyn Error>> {
    let service = product::service()?;
    let mut both = Both::new(service);
    generator::every_byte().try_for_each(|call| both.run(call))?;
    let fixed = both.history.len();
    let mut seeds = Random::new(seed);
    let mut done = 0;
    while done < count {
        let mut session = Session::new(seeds.number(), Reach::Blocks);
        let mut both = Both::new(service);
        for _ in 0..CALLS_PER_SESSION.min(count - done) {
            both.run(session.call(&both.reference))?;
            done += 1;
        }
    }
    println!("{fixed} calls of every byte and {count} of the seed, no difference");
    Ok(())
}

/// A session of both, each with its block.
struct Both {
    service: Service,
    reference: Vec<i64>,
    product: Vec<i64>,
    history: Vec<Call>,
}

impl Both {
    fn new(service: Service) -> Self {
        let [reference, product] = [(); 2].map(|()| vec![0; BLOCK_LENGTH]);
        Self { service, reference, product, history: Vec::new() }
    }

    /// Compares reply length, whole buffer and whole block after a call.
    fn run(&mut self, call: Call) -> Result<(), Box<dyn Error>> {
        let expected = call.run(reference::answer, &mut self.reference);
        let outcome = call.run(self.service, &mut self.product);
        self.history.push(call);
        if outcome == expected {
            return Ok(());
        }
        let difference = difference(&self.history, &expected, &outcome)?;
        Err(format!("call {} of a session differs\n{difference}", self.history.len()).into())
    }
}

/// Says what differs, and leaves the session's calls as text for the program `calls`.
fn difference(history: &[Call], expected: &Outcome, outcome: &Outcome) -> Result<String, io::Error> {
    let path = env::temp_dir().join("compare.calls");
    let texts: Vec<Vec<u8>> = history.iter().map(Call::text).collect();
    fs::write(&path, texts.join(&b'\n'))?;
    let places = expected.block.iter().zip(&outcome.block).enumerate();
    let differing = places.filter(|(_, (expected, found))| expected != found);
    let [call, reference, product] = [&texts[texts.len() - 1], &expected.text(), &outcome.text()]
        .map(|text| String::from_utf8_lossy(text).into_owned());
    Ok(format!(
        "{call}\nreference {reference}\nproduct   {product}\nthe session up to this call is in {}\n\
         block places (reference, product): {:?}",
        path.display(),
        differing.take(10).collect::<Vec<_>>(),
    ))
}

/// Standard output, one line for each input line.
fn program(path: &str, seed: u64, sessions: usize) -> Result<(), Box<dyn Error>> {
    let mut seeds = Random::new(seed);
    for number in 0..sessions {
        let input = session_input(seeds.number());
        let mut expected = Vec::new();
        reference::session(&input[..], &mut expected)?;
        let mut child = Command::new(path).stdin(Stdio::piped()).stdout(Stdio::piped()).spawn()?;
        let mut pipe = child.stdin.take().ok_or("no pipe")?;
        let copy = input.clone();
        let piece = PIECES[number % PIECES.len()];
        let writer = thread::spawn(move || copy.chunks(piece).try_for_each(|part| pipe.write_all(part)));
        let output = child.wait_with_output()?;
        // A program that stops reading early shows by its output.
        writer.join().map_err(|_| "the writing thread failed")?.ok();
        if output.stdout == expected && output.status.success() {
            continue;
        }
        let file = env::temp_dir().join("compare.lines");
        fs::write(&file, &input)?;
        let split = |text: &[u8]| -> Vec<String> {
            text.split(|&byte| byte == b'\n').map(|line| String::from_utf8_lossy(line).into()).collect()
        };
        let [lines, wanted, found] = [&input, &expected, &output.stdout].map(|text| split(text));
        let place = wanted.iter().zip(&found).take_while(|(wanted, found)| wanted == found).count();
        let [line, wanted, found] = [&lines, &wanted, &found].map(|lines| lines.get(place));
        return Err(format!(
            "session {number} ({}), whose input is in {}, differs at line {}: {line:?}\n\
             reference {wanted:?}\nprogram   {found:?}",
            output.status,
            file.display(),
            place + 1,
        )
        .into());
    }
    println!("{sessions} sessions, no difference");
    Ok(())
}

/// A session's lines, the last one sometimes without its line end.
fn session_input(seed: u64) -> Vec<u8> {
    let mut session = Session::new(seed, Reach::Lines);
    let mut block = vec![0; BLOCK_LENGTH];
    let mut input = Vec::new();
    for _ in 0..CALLS_PER_SESSION {
        let call = session.call(&block);
        reference::answer(&call.line, &mut block, &mut [0; reference::LONGEST_REPLY]);
        input.extend_from_slice(&call.line);
        input.push(b'\n');
    }
    if seed.is_multiple_of(3) {
        input.pop();
    }
    input
}
