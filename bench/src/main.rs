//! Times the product's service beside the reference and an expert's walk (see README.md). Words: none for the
//! tables of times, `--count` for instructions, `--stack` for the stack of the product's calls,
//! `--only SERVICE ROW CALLS` for the calls of one row on one service, for a profiler.

mod counting;
mod expert;
mod inputs;
mod services;
mod stack;
mod tables;
mod timing;

use std::env;
use std::error::Error;
use std::process::ExitCode;
use timing::Lent;

fn main() -> ExitCode {
    reference::exit(run())
}

fn run() -> Result<(), Box<dyn Error>> {
    let words: Vec<String> = env::args().skip(1).collect();
    let words: Vec<&str> = words.iter().map(String::as_str).collect();
    match words[..] {
        [] => tables::print(),
        ["--count"] => counting::print(),
        ["--stack"] => stack::print(),
        ["--only", name, row, calls] => only(name, row, calls.parse()?),
        _ => Err("usage: bench/run [--count | --stack | --only ours|reference|expert ROW CALLS]".into()),
    }
}

/// The calls of one row on one service.
fn only(name: &str, row: &str, calls: usize) -> Result<(), Box<dyn Error>> {
    let input = inputs::all().find(|input| input.name == row).ok_or("no such row")?;
    let services = services::answering(&input)?;
    let named = services.iter().find(|named| named.name == name).ok_or("no such service for this row")?;
    let time = Lent::new(&input).calls(named.service, &input, calls);
    println!("{row}: {calls} calls in {time:?}");
    Ok(())
}
