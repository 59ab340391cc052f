//! An independent reference of the junction bound service (document 01, and the changes of document 02 that have
//! landed), and the test tools over it.

pub mod asked;
pub mod calls;
pub mod claims;
pub mod clause_lines;
pub mod clauses;
pub mod dearest;
pub mod dearest_lines;
pub mod generator;
pub mod linear;
pub mod lines;
pub mod literals;
pub mod model;
pub mod multiples;
pub mod operations;
pub mod orders;
pub mod product;
pub mod radio;
pub mod radio_lines;
pub mod random;
pub mod reasons;
pub mod record_lines;
pub mod records;
pub mod rewriting;
pub mod rooms;
pub mod saves;
pub mod search;
pub mod second_forms;
pub mod steps;
pub mod stops;
pub mod studies;
pub mod taken;
pub mod weights;

use lines::{Fields, Kind, LONGEST_LINE};
use model::{Refusal, Study, BLOCK_LENGTH};
use reasons::Reason;
use records::Record;
use search::End;
use std::error::Error;
use std::io::{self, BufRead, Write};
use std::process::ExitCode;

/// "The buffer of 17 becomes 74 for all lines."
pub const LEAST_BUFFER: usize = 74;

/// The longest reply is the longest load line that a save by radio may answer with. Of the others only a record of 24 trains, by
/// radio of 23 too, and the line of a dearest study, of 516 characters at most, are longer than the least buffer.
pub const LONGEST_REPLY: usize = LONGEST_LINE;

/// A service: line, lent block, lent reply buffer; gives the number of bytes written to its front.
pub type Service = fn(&[u8], &mut [i64], &mut [u8]) -> usize;

/// Answers one line: document 01 as a whole, and the changes that have landed.
pub fn answer(line: &[u8], block: &mut [i64], reply: &mut [u8]) -> usize {
    // "17 hands back an empty part and writes nothing."
    if reply.len() < LEAST_BUFFER {
        return 0;
    }
    let bytes = declined(respond(line, block));
    let digits = lines::digits(&bytes);
    // Of a save: "where it doesn't fit, the answer is 17, judged after 5." Of a record "17 as for a save comes last", and of a
    // dearest study "17 as for a save, last". None of them has changed anything. By radio both additions must fit too.
    if digits.len() > reply.len() {
        return 0;
    }
    reply[..digits.len()].copy_from_slice(&digits);
    digits.len()
}

/// "A declined line answers FF and the number as one byte."
fn declined(bytes: Result<Vec<u8>, Refusal>) -> Vec<u8> {
    bytes.unwrap_or_else(|refusal| vec![0xFF, refusal as u8])
}

/// The reply's bytes to a line in either form: "1, 2, 3 and 16 come before the kind is known and stay plain."
fn respond(line: &[u8], block: &mut [i64]) -> Result<Vec<u8>, Refusal> {
    // "Order: 17, 16, 2, 1, 3, 4." Change 14: "25, wrong sum, after 3 and before 4."
    let state = model::decode(block)?;
    let bytes = lines::bytes(line)?;
    match radio::plain(&bytes) {
        None => respond_plainly(bytes, state, block),
        Some(plain) => {
            Ok(radio::second(declined(plain.and_then(|bytes| respond_plainly(bytes, state, block)))))
        }
    }
}

/// The reply's bytes to a plain line's. The block is written only where a line of kinds 01 to 04, 08, 09 or 0B is accepted.
fn respond_plainly(bytes: Vec<u8>, state: Option<Study>, block: &mut [i64]) -> Result<Vec<u8>, Refusal> {
    // "3, 4. Then fields from left to right ... Then 10, 12 or 14." Change 7: "20 ..., after 5 and before 10." Change 10:
    // "21 ..., after 5." Change 11: 22 and 23 "follow 5, 22 first". Change 13: "24 ..., after 5."
    let (kind, fields) = lines::split(bytes)?;
    let present = || state.ok_or(Refusal::Fresh);
    match kind {
        Kind::Load => Ok(hold(0x81, &lines::load(fields)?, block)),
        // "The reply is 89 as for a load, and the line sets the costs as a load does."
        Kind::Clauses => Ok(hold(0x89, &lines::clauses(fields)?.study()?, block)),
        Kind::Add => rewrite(0x82, present()?, block, |study| {
            let add = lines::add(fields, study)?;
            operations::add(study, &add)
        }),
        Kind::Shift => rewrite(0x83, present()?, block, |study| {
            let shift = lines::shift(fields, study)?;
            operations::shift(study, &shift)
        }),
        Kind::Tighten => rewrite(0x84, present()?, block, |study| {
            fields.end()?;
            operations::tighten(study)
        }),
        // "Kind 08, no fields, is a directional round. ... The reply is 88 with constant and bound; 12 applies."
        Kind::Round => rewrite(0x88, present()?, block, |study| {
            fields.end()?;
            operations::round(study)
        }),
        // "Certify and search change nothing in the block."
        Kind::Certify => certify(&present()?, fields),
        Kind::Search => search(&present()?, fields),
        Kind::Save => save(&present()?, fields),
        Kind::Explain => explain(&present()?, fields),
        Kind::Order => order(present()?, fields, block),
        Kind::Screen => screen(&present()?, fields),
        Kind::Planner => planner(&present()?, fields),
        Kind::Record => record(&present()?, fields),
        // "It answers with a load line." "Of the block only 16 is judged."
        Kind::Dearest => Ok(lines::saved(&dearest::study(&lines::sizes(fields)?)?)),
    }
}

/// Holds the study, changed as the line says.
fn rewrite(
    code: u8,
    mut study: Study,
    block: &mut [i64],
    change: impl FnOnce(&mut Study) -> Result<(), Refusal>,
) -> Result<Vec<u8>, Refusal> {
    change(&mut study)?;
    Ok(hold(code, &study, block))
}

/// Writes the study to the block. "Kinds 01 to 04: 81 to 84, c0 in parts (6), bound in points (6)." So do 88 and 89.
fn hold(code: u8, study: &Study, block: &mut [i64]) -> Vec<u8> {
    study.encode(block);
    let mut bytes = vec![code];
    lines::put(&mut bytes, 6, study.constant);
    lines::put(&mut bytes, 6, study.bound());
    bytes
}

/// "Certify: 85, 01 if reached else 00, E (8), W (3)." Reached means E = W × c0.
fn certify(study: &Study, fields: Fields) -> Result<Vec<u8>, Refusal> {
    let certificate = lines::certificate(fields, study)?;
    let ceiling = operations::ceiling(study, &certificate)?;
    let reached = ceiling == certificate.whole * study.constant;
    let mut bytes = vec![0x85, reached as u8];
    lines::put(&mut bytes, 8, ceiling);
    lines::put(&mut bytes, 3, certificate.whole);
    Ok(bytes)
}

/// "Search: 86, 01 ended or 00 spent, count (4), cost (6), one byte a train." "A search that ends without a plan says
/// 02, with cost and plan FF."
fn search(study: &Study, fields: Fields) -> Result<Vec<u8>, Refusal> {
    let walk = search::walk(study, lines::budget(fields)?, Some(study.bound()));
    let flag = match (walk.end, &walk.best) {
        (End::Spent, _) => 0,
        (_, Some(_)) => 1,
        (_, None) => 2,
    };
    let mut bytes = vec![0x86, flag];
    lines::put(&mut bytes, 4, walk.count);
    match &walk.best {
        Some(best) => {
            lines::put(&mut bytes, 6, study.points(best.total));
            bytes.extend(best.plan.iter().map(|&choice| choice as u8));
        }
        // "With no plan yet (budget below n), cost and plan are all FF."
        None => bytes.resize(bytes.len() + 6 + study.trains.len(), 0xFF),
    }
    Ok(bytes)
}

/// "Kind 07, with no fields, answers with a load line for H." It changes nothing in the block.
fn save(study: &Study, fields: Fields) -> Result<Vec<u8>, Refusal> {
    fields.end()?;
    Ok(lines::saved(study))
}

/// "The reply is 8A, reason, train, the last FF unless 02." It changes nothing in the block.
fn explain(study: &Study, fields: Fields) -> Result<Vec<u8>, Refusal> {
    let (reason, train) = match reasons::reason(study, &lines::question(fields, study)?) {
        Reason::Neither => (0, 0xFF),
        Reason::Own => (1, 0xFF),
        Reason::Partner(train) => (2, train as u8),
    };
    Ok(vec![0x8A, reason, train])
}

/// "Kind 0B gives n train numbers. ... The reply is 8B and the order."
fn order(mut study: Study, fields: Fields, block: &mut [i64]) -> Result<Vec<u8>, Refusal> {
    study.order = lines::order(fields, &study)?;
    study.encode(block);
    let numbers = study.order.iter().map(|&train| train as u8);
    Ok([0x8B].into_iter().chain(numbers).collect())
}

/// "Kind 0C reads one for screens: 8C, n and choices." 22, and "23 ... (never for 0C)": no bound or cost is looked at.
fn screen(study: &Study, fields: Fields) -> Result<Vec<u8>, Refusal> {
    let record = lines::record(fields)?;
    records::plan(study, &record.choices)?;
    Ok(record.front(0x8C))
}

/// "Kind 0D reads one for planners: 8D and the record", as it was read.
fn planner(study: &Study, fields: Fields) -> Result<Vec<u8>, Refusal> {
    let record = lines::record(fields)?;
    record.judge(study)?;
    Ok(record.whole(0x8D))
}

/// "Kind 0E with n choices ... writes one (8E, record), with the published bound." A bound above the plan's total, which only
/// blocks that no line makes have, is 23 here too.
fn record(study: &Study, fields: Fields) -> Result<Vec<u8>, Refusal> {
    let record = Record::of(study, lines::choices(fields, study)?)?;
    record.judge(study)?;
    Ok(record.whole(0x8E))
}

/// "A program reads standard input, starts fresh, and prints a reply line for each input line; a
/// last line without a line end is a line too, unless empty."
pub fn session(mut input: impl BufRead, mut output: impl Write) -> io::Result<()> {
    let mut block = vec![0; BLOCK_LENGTH];
    let mut reply = [0; LONGEST_REPLY];
    while let Some(line) = next_line(&mut input)? {
        let written = answer(&line, &mut block, &mut reply);
        output.write_all(&reply[..written])?;
        output.write_all(b"\n")?;
    }
    output.flush()
}

/// The input's next line without its line feed.
pub fn next_line(input: &mut impl BufRead) -> io::Result<Option<Vec<u8>>> {
    let mut line = Vec::new();
    if input.read_until(b'\n', &mut line)? == 0 {
        return Ok(None);
    }
    if line.last() == Some(&b'\n') {
        line.pop();
    }
    Ok(Some(line))
}

/// A program's end: an error is shown on standard error.
pub fn exit(result: Result<(), Box<dyn Error>>) -> ExitCode {
    match result {
        Ok(()) => ExitCode::SUCCESS,
        Err(error) => {
            eprintln!("{error}");
            ExitCode::FAILURE
        }
    }
}
