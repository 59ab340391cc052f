//! Runs the program `junction` for long and under hard conditions (see README.md):
//! `endurance PROGRAM lines PASSES | bytes | line CHARACTERS | closed`.

use reference::generator::{Reach, Session};
use reference::model::BLOCK_LENGTH;
use reference::random::Random;
use reference::LONGEST_REPLY;
use std::env;
use std::error::Error;
use std::fs;
use std::io::{self, BufReader, Read, Write};
use std::process::{Child, ChildStdin, ChildStdout, Command, ExitCode, Stdio};
use std::thread;
use std::time::{Duration, Instant};

type Outcome = Result<(), Box<dyn Error>>;

/// How many lines a pass has.
const LINES: usize = 10_000;
/// How many lines are drawn from one seed, and the seed of the seeds.
const LINES_PER_SEED: usize = 50;
const SEED: u64 = 1;
/// Every so many lines come some of studies of every size; the others are of small ones.
const LARGE: usize = 2_000;
/// A pass begins with this load, document 01's J, so that every pass has the same replies.
const FIRST: &[u8] = b"010200010202000002000000000000000000010001000001000000000003000002\n";
/// How many bytes a slow writer pauses behind, and for how long.
const SLOW: usize = 20_000;
const WAIT: Duration = Duration::from_micros(200);

fn main() -> ExitCode {
    reference::exit(run())
}

fn run() -> Outcome {
    let words: Vec<String> = env::args().skip(1).collect();
    let words: Vec<&str> = words.iter().map(String::as_str).collect();
    let begin = Instant::now();
    match words[..] {
        [program, "lines", passes] => lines(program, passes.parse()?),
        [program, "bytes"] => bytes(program),
        [program, "line", characters] => line(program, characters.parse()?),
        [program, "closed"] => closed(program),
        _ => Err("usage: endurance PROGRAM lines PASSES | bytes | line CHARACTERS | closed".into()),
    }?;
    println!("{:.1} s", begin.elapsed().as_secs_f64());
    Ok(())
}

/// The program with its output's pipe; its input's pipe goes to whoever writes.
struct Run {
    child: Child,
    output: BufReader<ChildStdout>,
}

fn start(program: &str) -> Result<(Run, ChildStdin), Box<dyn Error>> {
    let mut child = Command::new(program).stdin(Stdio::piped()).stdout(Stdio::piped()).spawn()?;
    let input = child.stdin.take().ok_or("no pipe")?;
    let output = BufReader::new(child.stdout.take().ok_or("no pipe")?);
    Ok((Run { child, output }, input))
}

impl Run {
    /// Closes the input and reads what is left of the output. The program must end well.
    fn end(mut self, input: ChildStdin) -> Result<Vec<u8>, Box<dyn Error>> {
        drop(input);
        let mut rest = Vec::new();
        self.output.read_to_end(&mut rest)?;
        let status = self.child.wait()?;
        if !status.success() {
            return Err(status.to_string().into());
        }
        Ok(rest)
    }
}

/// Writes an input from a thread of its own, so that the output can be read meanwhile.
fn write(mut pipe: ChildStdin, write: impl Fn(&mut ChildStdin) -> io::Result<()> + Send + 'static) -> Writer {
    thread::spawn(move || {
        write(&mut pipe)?;
        Ok(pipe)
    })
}

type Writer = thread::JoinHandle<io::Result<ChildStdin>>;

fn written(writer: Writer) -> Result<ChildStdin, Box<dyn Error>> {
    Ok(writer.join().map_err(|_| "the writing thread failed")??)
}

/// The highest resident size that the system has seen of a process, as it prints it.
fn peak(child: &Child) -> Result<String, Box<dyn Error>> {
    let status = fs::read_to_string(format!("/proc/{}/status", child.id()))?;
    let line = status.lines().find(|line| line.starts_with("VmHWM:")).ok_or("no VmHWM")?;
    Ok(line["VmHWM:".len()..].trim().to_string())
}

/// Whether a line, in either form, is a search with a budget above 4,095, which would take most of the time.
fn is_long_search(line: &[u8]) -> bool {
    let forms = [[&b"06"[..], b"0600000"], [b"46", b"4600000"]];
    forms.into_iter().any(|[kind, short]| line.starts_with(kind) && !line.starts_with(short))
}

/// Mixed lines of every kind and refusal.
fn mixed_lines() -> Vec<u8> {
    let mut seeds = Random::new(SEED);
    let mut block = vec![0; BLOCK_LENGTH];
    let mut input = FIRST.to_vec();
    let mut session = Session::new(seeds.number(), Reach::SmallLines);
    let mut reply = [0; LONGEST_REPLY];
    reference::answer(&FIRST[..FIRST.len() - 1], &mut block, &mut reply);
    let mut number = 1;
    while number < LINES {
        if number % LINES_PER_SEED == 0 {
            let reach = if number % LARGE == 0 { Reach::Lines } else { Reach::SmallLines };
            session = Session::new(seeds.number(), reach);
        }
        let call = session.call(&block);
        if is_long_search(&call.line) || call.line.contains(&b'\n') {
            continue;
        }
        reference::answer(&call.line, &mut block, &mut reply);
        input.extend_from_slice(&call.line);
        input.push(b'\n');
        number += 1;
    }
    input
}

/// The replies to an input by the reference.
fn replies(input: &[u8]) -> Result<Vec<u8>, Box<dyn Error>> {
    let mut expected = Vec::new();
    reference::session(input, &mut expected)?;
    Ok(expected)
}

/// The same mixed lines again and again, all replies compared.
fn lines(program: &str, passes: usize) -> Outcome {
    let input = mixed_lines();
    let expected = replies(&input)?;
    println!("{passes} passes of {LINES} lines, {} bytes a pass", input.len());
    let (mut run, pipe) = start(program)?;
    let writer = write(pipe, move |pipe| (0..passes).try_for_each(|_| pipe.write_all(&input)));
    let mut found = vec![0; expected.len()];
    for pass in 1..=passes {
        run.output.read_exact(&mut found)?;
        if found != expected {
            return Err(format!("pass {pass} differs").into());
        }
        if pass % (passes / 10).max(1) == 0 {
            println!("{} lines, peak resident size {}", pass * LINES, peak(&run.child)?);
        }
    }
    let rest = run.end(written(writer)?)?;
    if rest.is_empty() {
        Ok(())
    } else {
        Err(format!("{} bytes too many", rest.len()).into())
    }
}

/// One pass, one byte at a time, with a pause between two bytes of its first lines.
fn bytes(program: &str) -> Outcome {
    let input = mixed_lines();
    let expected = replies(&input)?;
    println!("{} bytes, each by a write of its own, the first {SLOW} with pauses of {WAIT:?}", input.len());
    let (mut run, pipe) = start(program)?;
    let writer = write(pipe, move |pipe| {
        for (number, byte) in input.iter().enumerate() {
            pipe.write_all(&[*byte])?;
            if number < SLOW {
                thread::sleep(WAIT);
            }
        }
        Ok(())
    });
    let mut found = vec![0; expected.len()];
    run.output.read_exact(&mut found)?;
    let pipe = written(writer)?;
    println!("peak resident size {}", peak(&run.child)?);
    let rest = run.end(pipe)?;
    if rest.is_empty() && found == expected {
        Ok(())
    } else {
        Err("the replies differ".into())
    }
}

/// One line of so many characters, without a line end.
fn line(program: &str, characters: usize) -> Outcome {
    let (run, pipe) = start(program)?;
    let zeros = vec![b'0'; 1 << 16];
    let writer = write(pipe, move |pipe| {
        let mut left = characters;
        while left > 0 {
            let n = left.min(zeros.len());
            pipe.write_all(&zeros[..n])?;
            left -= n;
        }
        Ok(())
    });
    let pipe = written(writer)?;
    println!("a line of {characters} characters, peak resident size {}", peak(&run.child)?);
    let reply = run.end(pipe)?;
    if reply == b"FF02\n" {
        Ok(())
    } else {
        Err(format!("the reply is {reply:?}").into())
    }
}

/// A reader that closes after the first reply, while lines still come: the program must end.
fn closed(program: &str) -> Outcome {
    let input = mixed_lines();
    let (mut run, pipe) = start(program)?;
    let writer = write(pipe, move |pipe| loop {
        pipe.write_all(&input)?;
    });
    let mut first = [0; 27];
    run.output.read_exact(&mut first)?;
    drop(run.output);
    let status = run.child.wait()?;
    let broken = written(writer).is_err();
    println!("the first reply was {:?}; then the program ended: {status}", String::from_utf8_lossy(&first));
    if broken {
        Ok(())
    } else {
        Err("the writer was not stopped".into())
    }
}
