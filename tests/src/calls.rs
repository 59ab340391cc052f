//! One call with its lent buffer and block, its text form, and digests.

use crate::model::BLOCK_LENGTH;
use crate::Service;

/// What the buffer holds before a call.
pub const FILLING: u8 = 0xAA;
/// Places behind the lent ones that a service must not write.
const SPARE: usize = 16;
const MODULUS: u64 = 4_294_967_291;

/// The block that a call is given.
#[derive(Clone)]
pub enum Setting {
    /// As the call before left it.
    AsLeft,
    /// Edited by (place, value) first; the edits are kept.
    Edited(Vec<(usize, i64)>),
    /// For this call alone, a copy cut or extended with zeros.
    Length(usize),
}

pub struct Call {
    pub capacity: usize,
    pub setting: Setting,
    pub line: Vec<u8>,
}

/// What a call left: the whole buffer, the part of it that was handed back, and the lent block.
#[derive(PartialEq, Eq)]
pub struct Outcome {
    pub written: usize,
    pub buffer: Vec<u8>,
    pub block: Vec<i64>,
}

impl Call {
    /// The block that the call is given; `held` is the block from call to call.
    pub fn given(&self, held: &[i64]) -> Vec<i64> {
        let mut block = held.to_vec();
        match &self.setting {
            Setting::AsLeft => {}
            Setting::Edited(edits) => edits.iter().for_each(|&(place, value)| block[place] = value),
            Setting::Length(length) => block.resize(*length, 0),
        }
        block
    }

    /// Runs the call, and keeps what it leaves unless its block was a copy.
    pub fn run(&self, service: Service, held: &mut [i64]) -> Outcome {
        let mut block = self.given(held);
        let length = block.len();
        block.resize(length + SPARE, -1);
        let mut buffer = vec![FILLING; self.capacity + SPARE];
        let written = service(&self.line, &mut block[..length], &mut buffer[..self.capacity]);
        assert!(written <= self.capacity, "more handed back than the buffer holds");
        let spared = block[length..].iter().all(|&value| value == -1)
            && buffer[self.capacity..].iter().all(|&byte| byte == FILLING);
        assert!(spared, "written behind the lent block or buffer");
        block.truncate(length);
        buffer.truncate(self.capacity);
        if !matches!(self.setting, Setting::Length(_)) {
            held.copy_from_slice(&block);
        }
        Outcome { written, buffer, block }
    }

    /// Reads `CAP BLOCKSPEC LINE`.
    pub fn parse(text: &[u8]) -> Option<Self> {
        let mut parts = text.splitn(3, |&byte| byte == b' ');
        let mut word = || std::str::from_utf8(parts.next()?).ok();
        let capacity = word()?.parse().ok()?;
        let setting = match word()? {
            "-" => Setting::AsLeft,
            spec => match spec.strip_prefix("len=") {
                Some(length) => Setting::Length(length.parse().ok()?),
                None => Setting::Edited(spec.split(',').map(edit).collect::<Option<_>>()?),
            },
        };
        let line = parts.next()?.to_vec();
        Some(Self { capacity, setting, line })
    }

    /// The text that `parse` reads. A line feed, which it has no room for, shows as a carriage
    /// return: another character of refusal 1.
    pub fn text(&self) -> Vec<u8> {
        let setting = match &self.setting {
            Setting::AsLeft => "-".into(),
            Setting::Edited(edits) if edits.is_empty() => "-".into(),
            Setting::Length(length) => format!("len={length}"),
            Setting::Edited(edits) => {
                let edit = |(place, value): &(usize, i64)| format!("{place}={value}");
                edits.iter().map(edit).collect::<Vec<_>>().join(",")
            }
        };
        let mut text = format!("{} {setting} ", self.capacity).into_bytes();
        text.extend(self.line.iter().map(|&byte| if byte == b'\n' { b'\r' } else { byte }));
        text
    }
}

fn edit(text: &str) -> Option<(usize, i64)> {
    let (place, value) = text.split_once('=')?;
    let place = place.parse().ok().filter(|&place| place < BLOCK_LENGTH)?;
    Some((place, value.parse().ok()?))
}

impl Outcome {
    pub fn reply(&self) -> &[u8] {
        &self.buffer[..self.written]
    }

    /// The reply part (`~` where it is empty), the block's digest, the buffer's digest.
    pub fn text(&self) -> Vec<u8> {
        let mut text = match self.reply() {
            [] => b"~".to_vec(),
            reply => reply.to_vec(),
        };
        let block = digest(self.block.iter().copied());
        let buffer = digest(self.buffer.iter().map(|&byte| byte.into()));
        text.extend(format!(" {block:08X} {buffer:08X}").bytes());
        text
    }
}

/// h = 1, then for each number v in order h = (h × 65,599 + (v mod P) + 1) mod P.
pub fn digest(numbers: impl Iterator<Item = i64>) -> u64 {
    numbers.fold(1, |h, number| {
        let rest = number.rem_euclid(MODULUS as i64) as u64;
        (h * 65_599 + rest + 1) % MODULUS
    })
}
