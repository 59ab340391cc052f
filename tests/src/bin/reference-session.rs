//! Prints the reference's reply to each line of standard input, from a fresh block.

use std::io;

fn main() -> io::Result<()> {
    reference::session(io::stdin().lock(), io::stdout().lock())
}
