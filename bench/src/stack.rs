//! The stack that a call of the product's library uses: below the caller's frame a thread's stack is filled
//! with a pattern, the call is made, and the lowest word is looked for that no longer holds it.

use crate::inputs::{self, Input};
use reference::{product, Service, LONGEST_REPLY};
use std::error::Error;
use std::thread;

/// The stack of the thread, and how many words of it are filled: far more than a call uses.
const STACK: usize = 1 << 20;
const WORDS: usize = 1 << 16;
/// The bytes below the caller's buffer that are not filled, since its frame goes on there, and filling has
/// one too. They count as used.
const KEPT: usize = 1 << 10;
const PATTERN: u64 = 0x5AC3_5AC3_5AC3_5AC3;

pub fn print() -> Result<(), Box<dyn Error>> {
    let service = product::service()?;
    println!("{:<24}{:>14}", "a line", "stack, bytes");
    for input in inputs::all() {
        let name = input.name.clone();
        let thread = thread::Builder::new().stack_size(STACK).spawn(move || used(service, &input))?;
        let bytes = thread.join().map_err(|_| "the thread failed")?;
        println!("{name:<24}{bytes:>14}");
    }
    Ok(())
}

/// The bytes of stack below this frame that a call uses.
#[inline(never)]
fn used(service: Service, input: &Input) -> usize {
    let mut block = input.block.clone();
    let mut reply = [0; LONGEST_REPLY];
    let top = reply.as_ptr() as usize;
    fill(top);
    service(&input.line, &mut block, &mut reply);
    let lowest = (0..WORDS).rev().find(|&number| read(top, number) != PATTERN);
    assert!(lowest != Some(WORDS - 1), "the call uses all of the stack that was filled");
    KEPT + lowest.map_or(0, |number| (number + 1) * size_of::<u64>())
}

/// The words below the kept bytes, from the highest down.
fn word(top: usize, number: usize) -> *mut u64 {
    (((top - KEPT) / size_of::<u64>() - number - 1) * size_of::<u64>()) as *mut u64
}

fn fill(top: usize) {
    for number in 0..WORDS {
        // The word lies in this thread's stack, which is all mapped, and below every frame in use.
        unsafe { word(top, number).write_volatile(PATTERN) };
    }
}

fn read(top: usize, number: usize) -> u64 {
    // As in `fill`.
    unsafe { word(top, number).read_volatile() }
}
