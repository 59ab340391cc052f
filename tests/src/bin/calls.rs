//! `calls [--reference]`: runs calls given as text on standard input (see README.md).

use reference::calls::Call;
use reference::model::BLOCK_LENGTH;
use reference::{next_line, product};
use std::env;
use std::error::Error;
use std::io::{self, Write};
use std::process::ExitCode;

fn main() -> ExitCode {
    reference::exit(run())
}

fn run() -> Result<(), Box<dyn Error>> {
    let service = match env::args().nth(1).as_deref() {
        None => product::service()?,
        Some("--reference") => reference::answer,
        Some(_) => return Err("usage: calls [--reference]".into()),
    };
    let mut input = io::stdin().lock();
    let mut output = io::BufWriter::new(io::stdout().lock());
    let mut block = vec![0; BLOCK_LENGTH];
    let mut number = 0;
    while let Some(text) = next_line(&mut input)? {
        number += 1;
        let call = Call::parse(&text).ok_or_else(|| format!("line {number}: not a call"))?;
        output.write_all(&call.run(service, &mut block).text())?;
        output.write_all(b"\n")?;
    }
    Ok(output.flush()?)
}
