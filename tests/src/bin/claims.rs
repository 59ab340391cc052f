//! `claims [--reference] SEED SESSIONS`: checks document 01's claims and what is said of rounds, of forbidden entries, of
//! stopping at the bound, of clauses, of reasons, of bounds in steps, of orders, of records and of dearest studies on sessions of
//! small studies, what is said of two rooms on four times two lists for each session, and what is said of saves, of records, of
//! dearest studies and of lines by radio on as many sessions over studies of every size and blocks that no line makes; once, the
//! dearest study that has as many tries as there may be.

use reference::claims::{check_session, Tally};
use reference::random::Random;
use reference::{product, Service};
use std::env;
use std::error::Error;
use std::process::ExitCode;

const CALLS: usize = 66;

fn main() -> ExitCode {
    reference::exit(run())
}

fn run() -> Result<(), Box<dyn Error>> {
    let arguments: Vec<String> = env::args().skip(1).collect();
    let (service, seed, sessions): (Service, &str, &str) = match &arguments[..] {
        [seed, sessions] => (product::service()?, seed, sessions),
        [option, seed, sessions] if option == "--reference" => (reference::answer, seed, sessions),
        _ => return Err("usage: claims [--reference] SEED SESSIONS".into()),
    };
    let mut seeds = Random::new(seed.parse()?);
    let mut tally = Tally::default();
    tally.dearest.check_limit(service)?;
    for _ in 0..sessions.parse()? {
        let seed = seeds.number();
        check_session(service, seed, CALLS, &mut tally)?;
        tally.saves.check_session(service, seed, CALLS)?;
        tally.taken.check_session(service, seed, CALLS)?;
        tally.dearest.check_session(service, seed, CALLS)?;
        tally.second_forms.check_session(service, seed, CALLS)?;
        (0..4).try_for_each(|more| tally.rooms.check_session(service, seed.wrapping_add(more)))?;
    }
    println!("{tally:?}");
    Ok(())
}
