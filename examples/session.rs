//! Document 01's session from Rust: four lines on one block, each reply printed on a line.

use std::io::{self, Write};

const BLOCK_NUMBERS: usize = 6676;
const REPLY_BYTES: usize = 74;

const LINES: [&str; 4] = [
    "010200010202000002000000000000000000010001000001000000000003000002",
    "04",
    "05000001000001000000000000000001000000000001000000000000",
    "060000000A",
];

#[link(name = "service", kind = "static")]
extern "C" {
    fn junction_answer(
        line: *const u8,
        line_length: usize,
        block: *mut i64,
        block_length: usize,
        reply: *mut u8,
        reply_length: usize,
    ) -> usize;
}

/// Answers a line on a block, and hands back the written front of the buffer. The call asks nothing of the contents and lengths.
fn answer<'a>(line: &[u8], block: &mut [i64], reply: &'a mut [u8]) -> &'a [u8] {
    // SAFETY: slices are valid for their lengths, aligned and never null, and those that are lent for writing overlap no other.
    let n = unsafe {
        junction_answer(
            line.as_ptr(),
            line.len(),
            block.as_mut_ptr(),
            block.len(),
            reply.as_mut_ptr(),
            reply.len(),
        )
    };
    &reply[..n]
}

fn main() -> io::Result<()> {
    let mut block = vec![0; BLOCK_NUMBERS];
    let mut reply = [0; REPLY_BYTES];
    let mut out = io::stdout().lock();
    for line in LINES {
        out.write_all(answer(line.as_bytes(), &mut block, &mut reply))?;
        out.write_all(b"\n")?;
    }
    Ok(())
}
