//! Instructions, counted by callgrind.

use crate::inputs::{self, Input};
use crate::services::{self, Named};
use crate::tables::tries;
use crate::timing::compare;
use std::env;
use std::error::Error;
use std::process::Command;

type Outcome<T> = Result<T, Box<dyn Error>>;

pub fn print() -> Outcome<()> {
    print_head("instructions of a line")?;
    for input in inputs::short_inputs() {
        // A second call: the first may also set up the memory that a service takes for itself.
        let second = |named: &Named| Ok(instructions(named, &input, 2)? - instructions(named, &input, 1)?);
        print_row(&input, 0, second)?;
    }
    println!();
    print_head("instructions of a try")?;
    for (long, one) in inputs::long_inputs().iter().zip(inputs::one_try_inputs()) {
        let more = tries(&compare(&services::answering(long)?, long)?.reply)? - 1;
        // Less a search of one try: what a search does besides its walk is in both.
        let a_try = |named: &Named| {
            let walk = instructions(named, long, 1)? - instructions(named, &one, 1)?;
            Ok(walk / more as f64)
        };
        print_row(long, 1, a_try)?;
    }
    Ok(())
}

fn print_head(figure: &str) -> Outcome<()> {
    print!("{figure:<24}");
    services::all()?.iter().for_each(|named| print!("{:>14}", named.name));
    println!();
    Ok(())
}

fn print_row(input: &Input, decimals: usize, figure: impl Fn(&Named) -> Outcome<f64>) -> Outcome<()> {
    print!("{:<24}", input.name);
    for named in services::answering(input)? {
        print!("{:>14.*}", decimals, figure(&named)?);
    }
    println!();
    Ok(())
}

/// The instructions of a row's calls: this program makes them under callgrind, which counts inside of the
/// service's function.
fn instructions(named: &Named, input: &Input, calls: usize) -> Outcome<f64> {
    let output = Command::new("valgrind")
        .args(["--tool=callgrind", "--callgrind-out-file=/dev/null"])
        .arg(format!("--toggle-collect={}", named.function))
        .arg(env::current_exe()?)
        .args(["--only", named.name, &input.name, &calls.to_string()])
        .output()
        .map_err(|error| format!("valgrind: {error}"))?;
    let printed = String::from_utf8(output.stderr)?;
    let collected = printed.lines().find_map(|line| line.split_once("Collected : "));
    let (_, count) = collected.ok_or(printed.as_str())?;
    Ok(count.trim().parse()?)
}
