//! Change 14, 'Lines over train radio': the second form of lines and of replies, one layer between their bytes and what these
//! bytes say.

use crate::lines::{self, Kind, LONGEST_LINE};
use crate::model::Refusal;

/// "A line whose kind has 40 hexadecimal added."
pub const ADDED: u8 = 0x40;
/// How many characters the further byte has: a reply by radio "fits where plain reply and two characters fit".
pub const SUM_CHARACTERS: usize = 2;
/// How the reply to a declined line begins.
const DECLINED: u8 = 0xFF;

/// "The sum of all its bytes, carried round at 256."
pub fn sum(bytes: &[u8]) -> u8 {
    bytes.iter().fold(0, |sum, byte| sum.wrapping_add(*byte))
}

/// The bytes with the two additions, of a line whose kind there is or of a reply: "the reply's kind gains the same 40, and FF
/// stays FF".
pub fn second(mut bytes: Vec<u8>) -> Vec<u8> {
    if bytes[0] != DECLINED {
        bytes[0] += ADDED;
    }
    bytes.push(sum(&bytes).wrapping_neg());
    bytes
}

/// A line's bytes "with the two additions removed", or 25, where it is a second form: "Every kind so far has this second form",
/// and no other number has, so that 40 and 50 are 3.
pub fn plain(bytes: &[u8]) -> Option<Result<Vec<u8>, Refusal>> {
    let kind = bytes[0].checked_sub(ADDED).filter(|&number| Kind::of(number).is_some())?;
    if sum(bytes) != 0 {
        return Some(Err(Refusal::Sum));
    }
    // A kind alone is no right sum, so that there is a last byte behind it.
    let fields = &bytes[1..bytes.len() - 1];
    Some(Ok([&[kind], fields].concat()))
}

/// Whether a line is a second form, its sum being right or wrong.
pub fn is_second(line: &[u8]) -> bool {
    lines::bytes(line).is_ok_and(|bytes| plain(&bytes).is_some())
}

/// The second form of a plain line whose kind there is, where it is "within the limit of 2".
pub fn second_form(line: &[u8]) -> Option<Vec<u8>> {
    let bytes = lines::bytes(line).ok()?;
    Kind::of(bytes[0])?;
    Some(lines::digits(&second(bytes))).filter(|line| line.len() <= LONGEST_LINE)
}

/// A second form "with the two additions removed ..., if its sum is right".
pub fn plain_form(line: &[u8]) -> Option<Vec<u8>> {
    let bytes = lines::bytes(line).ok()?;
    plain(&bytes)?.ok().map(|bytes| lines::digits(&bytes))
}

/// A reply to such a line without its two additions. One of two bytes is 16, which comes before the kind is known.
pub fn plain_reply(reply: &[u8]) -> Vec<u8> {
    let Ok(mut bytes) = lines::bytes(reply) else { return reply.to_vec() };
    if bytes.len() > 2 {
        bytes.pop();
        if bytes[0] != DECLINED {
            bytes[0] = bytes[0].wrapping_sub(ADDED);
        }
    }
    lines::digits(&bytes)
}

/// A line with its reply, both "with the two additions removed" where the line is a second form whose sum is right.
pub struct Exchange {
    pub by_radio: bool,
    pub line: Vec<u8>,
    pub reply: Vec<u8>,
}

impl Exchange {
    pub fn of(line: &[u8], reply: &[u8]) -> Self {
        match plain_form(line) {
            Some(plain) => Self { by_radio: true, line: plain, reply: plain_reply(reply) },
            None => Self { by_radio: false, line: line.to_vec(), reply: reply.to_vec() },
        }
    }
}
