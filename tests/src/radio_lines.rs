//! Lines by radio of the generator: right ones of every kind, and each damage.

use crate::lines::{self, LONGEST_LINE};
use crate::radio::{second_form, sum, ADDED};
use crate::random::Random;

/// How many of a hundred lines come by radio.
pub const SHARE: u64 = 34;

/// The line's second form, now and then damaged; the line as it is, where it has none.
pub fn any_form(random: &mut Random, line: Vec<u8>) -> Vec<u8> {
    let Some(second) = second_form(&line) else { return line };
    match random.below(10) {
        0 => damaged_characters(random, second),
        1 => wrong_sum(random, second),
        _ => second,
    }
}

/// "Radio drops characters": one byte, two characters, or one; one that came as another, or a byte more at the end.
fn damaged_characters(random: &mut Random, mut line: Vec<u8>) -> Vec<u8> {
    let byte = 2 * random.below(line.len() / 2);
    match random.below(8) {
        0 | 1 => drop(line.drain(byte..byte + 2)),
        2 | 3 => {
            line.remove(random.below(line.len()));
            line.remove(random.below(line.len()));
        }
        4 => drop(line.remove(random.below(line.len()))),
        5 => line.truncate(line.len() - 2),
        6 => line.extend_from_slice(random.pick(&[b"00", b"00", b"01", b"FF"])),
        _ => {
            let place = random.below(line.len());
            line[place] = random.pick(b"0123456789ABCDEF");
        }
    }
    line
}

/// Another last byte, mostly by another rule, or other bytes before it: two that changed places leave the sum as it is.
fn wrong_sum(random: &mut Random, line: Vec<u8>) -> Vec<u8> {
    let mut bytes = lines::bytes(&line).expect("digits");
    let last = bytes.len() - 1;
    let (kind, right) = (bytes[0], bytes[last]);
    // Carried round at 255.
    let total: u64 = bytes[..last].iter().map(|&byte| u64::from(byte)).sum();
    let at_255 = ((255 - total % 255) % 255) as u8;
    match random.below(12) {
        0 => bytes[last] = right.wrapping_add(1),
        1 => bytes[last] = right.wrapping_sub(1),
        // Of the plain line, and of the bytes from the second on.
        2 => bytes[last] = right.wrapping_add(ADDED),
        3 => bytes[last] = right.wrapping_add(kind),
        4 => bytes[last] = at_255,
        // The sum itself, and its bits turned over.
        5 => bytes[last] = right.wrapping_neg(),
        6 => bytes[last] = right.wrapping_sub(1) ^ random.pick(&[0, 0x80]),
        7 => bytes[last] = random.number() as u8,
        8 => bytes.swap(random.below(last + 1), random.below(last + 1)),
        9 => {
            // Two that make up for each other.
            let [up, down] = [(); 2].map(|()| random.below(last + 1));
            bytes[up] = bytes[up].wrapping_add(1);
            bytes[down] = bytes[down].wrapping_sub(1);
        }
        _ => other_kind(random, &mut bytes),
    }
    lines::digits(&bytes)
}

/// A right sum behind a kind that there is not, or behind another one.
fn other_kind(random: &mut Random, bytes: &mut [u8]) {
    let last = bytes.len() - 1;
    let known = ADDED + 1 + random.below(15) as u8;
    let further = ADDED + 16 + random.below(4) as u8;
    let twice = bytes[0].wrapping_add(ADDED);
    bytes[0] = random.pick(&[ADDED, ADDED, ADDED + 16, further, known, twice, bytes[0] - ADDED, 0]);
    bytes[last] = sum(&bytes[..last]).wrapping_neg();
}

/// Lines about kinds and sums that no line of the generator has.
pub fn junk(random: &mut Random) -> Vec<u8> {
    let length = LONGEST_LINE - 2 + random.below(5);
    match random.below(3) {
        0 => {
            let mut line: Vec<u8> = random.pick(&["04", "44", "44BC", "47B9", "40C0"]).into();
            line.resize(length, b'0');
            line
        }
        1 => {
            let kind = ADDED + random.below(18) as u8;
            let end = random.pick(&[kind.wrapping_neg(), 0, kind]);
            lines::digits(&[kind, end])
        }
        _ => random
            .pick(&[
                "40", "41", "44", "47", "4A", "4F", "50", "440", "44bc", "44BD", "44BC0", "40C0", "50B0",
                "4A00B6", "4C03B1", "4F010B", "C1", "C43C", "4400BC", "4F0101AF", "81", "FF01",
            ])
            .into(),
    }
}
