//! The tables of times.

use crate::inputs::{self, Input};
use crate::services;
use crate::timing::{compare, times, Rounds};
use reference::lines::{LONGEST_LINE, LONGEST_LOAD};
use std::error::Error;

/// How often each service is timed, in turn, for a row of the first table.
const ROUNDS: usize = 501;
/// The same, for a long search.
const LONG_ROUNDS: usize = 41;
/// Over the columns of `ratio`.
const RATIO_HEAD: &str = "   least  median  quartiles   ";

pub fn print() -> Result<(), Box<dyn Error>> {
    print_conditions();
    println!("{:<24}{:>10}{:>15}{:>8}{:>12}", "a line", "ours, µs", "reference, µs", "ratio", "expert, µs");
    for input in inputs::short_inputs() {
        print_line(&input)?;
    }
    println!();
    println!("{:<30}{:^30}{:^30}{:^30}", "", "million tries a second", "ours / expert", "ours / reference");
    println!(
        "{:<20}{:>10}{:>10}{:>10}{:>10}{RATIO_HEAD}{RATIO_HEAD}",
        "a long search", "tries", "ours", "expert", "reference"
    );
    for input in inputs::long_inputs() {
        print_search(&input)?;
    }
    Ok(())
}

fn print_conditions() {
    let studies = inputs::LONG_STUDIES.map(|(seed, top)| format!("{seed} (costs to {top})")).join(", ");
    println!(
        "The product's library, the reference and an expert's walk in safe Rust, all built for release, in turn\n\
         on the same inputs. Before it is timed, each row is run once on all: reply, block and buffer are the\n\
         same. A row's time is the median of {ROUNDS} rounds, a round being a batch of calls for each; the ratio\n\
         is our time over the reference's. All use the same block and the same reply buffer, warm and never\n\
         cleared. Calls that leave the block as it is are timed together; where they change it, each is timed\n\
         alone and the block is restored by copying outside of the timed part. The expert's walk answers\n\
         searches in loaded order alone, and checks neither line nor block.\n\
         small: document 01's J, 2 trains of 2 choices, 1 pair. full: 24 trains of 8 choices, 48 pairs, seed {},\n\
         costs to 1000000. Search: budget {}; turned, and the order: the last train first. Screen, planner and\n\
         record: of each train's last choice. Refused: a wrong character, or a cost too high, at the very end\n\
         of a load of {LONGEST_LOAD} characters; a kind 10; 24 trains of 8 choices, whose tries are too many; a\n\
         wrong sum of {LONGEST_LINE} characters. Radio: the same load, tightening and search in their second form.\n\
         Save: a reply of {LONGEST_LOAD} characters for the full study. Dearest: of J's sizes; of 17 trains of one\n\
         choice and 7 of 8.\n\
         Clauses: 3 over 2 trains; 500 over 24 trains that name 48 pairs. Steps: behind a tightening, so that\n\
         the bound is above 0; fives: as full, all costs being multiples of 5.\n\
         Long search: budget {}, full studies of the seeds\n\
         {studies}, and a dearest\n\
         study, 13 trains without pairs, that has as many tries; {LONG_ROUNDS} rounds.\n\
         Tries a second are those of the fastest round. Least: the ratio of the fastest rounds. Median and\n\
         quartiles: of the ratios of the two times of each round.\n",
        inputs::SEED,
        inputs::SMALL_BUDGET,
        inputs::LONG_BUDGET,
    );
}

fn print_line(input: &Input) -> Result<(), String> {
    let services = services::answering(input)?;
    let keeps = compare(&services, input)?.keeps;
    let medians: Vec<f64> = times(&services, input, keeps, ROUNDS).iter().map(Rounds::median).collect();
    let expert = medians.get(2).map_or(String::new(), |time| format!("{:.2}", time / 1e3));
    println!(
        "{:<24}{:>10.2}{:>15.2}{:>8.2}{:>12}",
        input.name,
        medians[0] / 1e3,
        medians[1] / 1e3,
        medians[0] / medians[1],
        expert
    );
    Ok(())
}

fn print_search(input: &Input) -> Result<(), Box<dyn Error>> {
    let services = services::answering(input)?;
    let compared = compare(&services, input)?;
    let tries = tries(&compared.reply)?;
    let times = times(&services, input, compared.keeps, LONG_ROUNDS);
    let [ours, reference, expert] = &times[..] else { return Err("not all services answer".into()) };
    let rate = |times: &Rounds| tries as f64 / times.least() * 1e3;
    println!(
        "{:<20}{:>10}{:>10.0}{:>10.0}{:>10.0}{}{}",
        input.name,
        tries,
        rate(ours),
        rate(expert),
        rate(reference),
        ratio(ours, expert),
        ratio(ours, reference)
    );
    Ok(())
}

/// The ratio of the least times, then the median and the quartiles of the rounds' ratios.
fn ratio(ours: &Rounds, other: &Rounds) -> String {
    let ratios = ours.over(other);
    format!(
        "{:>8.2}{:>8.2}{:>6.2} to {:.2}",
        ours.least() / other.least(),
        ratios.median(),
        ratios.quartile(1),
        ratios.quartile(3)
    )
}

/// "Search: 86, 01 ended or 00 spent, count (4)": the count of a reply.
pub fn tries(reply: &[u8]) -> Result<u64, Box<dyn Error>> {
    let count = reply.get(4..12).ok_or("no reply of a search")?;
    Ok(u64::from_str_radix(std::str::from_utf8(count)?, 16)?)
}
