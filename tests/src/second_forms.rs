//! Change 14, 'Lines over train radio', checked from the outside: each list of lines plain and by radio, sums of replies, and
//! lines that go back as they came.

use crate::calls::{Call, Setting};
use crate::claims::{accepted, demand, Reader};
use crate::generator::{Reach, Session};
use crate::lines;
use crate::model::{self, BLOCK_LENGTH};
use crate::radio::{is_second, plain_form, plain_reply, second_form, sum, SUM_CHARACTERS};
use crate::random::Random;
use crate::{Service, LEAST_BUFFER, LONGEST_REPLY};

/// "FF and the number as one byte": how many characters a refusal has, but for a line by radio.
const PLAIN_REFUSAL: usize = 4;

/// How often second forms were put to the test.
#[derive(Default, Debug)]
pub struct SecondForms {
    /// Lines that were asked in both forms: accepted, refused, and too long for their buffer; lines that have one form only.
    pub twins: [usize; 3],
    pub single: usize,
    /// Replies to second forms: accepted and refused, those that say 25, none, and those on blocks that are not well formed.
    pub sums: [usize; 2],
    pub wrong: usize,
    pub empty: usize,
    pub ill_formed: usize,
    /// Lines of kind 4C that had other digits behind the choices: accepted, refused, and with a wrong sum.
    pub screens: [usize; 3],
    /// Loads by radio that a save by radio gave back, and replies of kind 41 that were loaded again.
    pub given_back: usize,
    pub loaded: usize,
    /// Records that were written by radio and read by radio.
    pub records: usize,
}

/// A line in both forms, its plain one first.
fn forms(line: &[u8]) -> Option<[Vec<u8>; 2]> {
    match plain_form(line) {
        Some(plain) => Some([plain, line.to_vec()]),
        None => Some([line.to_vec(), second_form(line)?]),
    }
}

/// The reply to a line in a buffer of this length, on the block.
fn ask(service: Service, line: &[u8], block: &mut [i64], capacity: usize) -> Vec<u8> {
    let call = Call { capacity, setting: Setting::AsLeft, line: line.to_vec() };
    call.run(service, block).reply().to_vec()
}

/// "The sum of all its bytes, carried round at 256, is 0."
fn sums_to_0(text: &[u8]) -> bool {
    lines::bytes(text).is_ok_and(|bytes| sum(&bytes) == 0)
}

impl SecondForms {
    /// One session over studies of every size and blocks that no line makes: its list of lines as it is, and each of its calls
    /// plain and by radio, in a buffer two bytes longer.
    pub fn check_session(&mut self, service: Service, seed: u64, calls: usize) -> Result<(), String> {
        let mut session = Session::new(seed, Reach::Blocks);
        let mut random = Random::new(!seed);
        let mut plain = vec![0; BLOCK_LENGTH];
        let mut by_radio = plain.clone();
        for number in 0..calls {
            let call = session.call(&plain);
            let mut check = || {
                self.check_sum(service, &call, &plain)?;
                self.check_twins(service, &call, [&mut plain, &mut by_radio])?;
                self.check_screen(service, &call, &plain, &mut random)
            };
            check().map_err(|claim: String| {
                let line = String::from_utf8_lossy(&call.line);
                format!("session {seed} by radio, call {number}: {claim}\nline {line}")
            })?;
        }
        Ok(())
    }

    /// "Every reply to such a line then ends so too", refused or not, and 25 is one of them; "1, 2, 3 and 16 ... stay plain, and
    /// 17 stays empty".
    fn check_sum(&mut self, service: Service, call: &Call, block: &[i64]) -> Result<(), String> {
        if !is_second(&call.line) {
            return Ok(());
        }
        let given = call.given(block);
        let outcome = call.run(service, &mut block.to_vec());
        let right = plain_form(&call.line).is_some();
        match outcome.reply() {
            [] => {
                self.empty += 1;
                demand(call.capacity < LEAST_BUFFER || right, "a wrong sum is 17")
            }
            reply if model::decode(&given).is_err() => {
                self.ill_formed += 1;
                demand(reply == b"FF10", "16 isn't plain")
            }
            reply => {
                let place = if accepted(reply) { &mut self.sums[0] } else { &mut self.sums[1] };
                *place += 1;
                self.wrong += usize::from(!right);
                demand(right == (reply != b"FF19E8"), "25 of a right sum, or not of a wrong one")?;
                demand(right || outcome.block == given, "a line with a wrong sum changed the block")?;
                demand(sums_to_0(reply), "a reply by radio has another sum")
            }
        }
    }

    /// "With the two additions removed, such a line, if its sum is right and it is within the limit of 2, answers and acts as its
    /// plain form does in a buffer two bytes shorter, that one of 74 or more": each list in two forms.
    fn check_twins(
        &mut self,
        service: Service,
        call: &Call,
        [plain, by_radio]: [&mut Vec<i64>; 2],
    ) -> Result<(), String> {
        let run = |line: &[u8], capacity: usize, block: &mut [i64]| {
            Call { capacity, setting: call.setting.clone(), line: line.to_vec() }.run(service, block)
        };
        let Some([line, second]) = forms(&call.line) else {
            self.single += 1;
            let [one, other] = [plain, by_radio].map(|block| run(&call.line, call.capacity, block));
            demand(one == other, "a line answers otherwise behind lines by radio")?;
            let plainly = is_second(&call.line) || one.reply().len() <= PLAIN_REFUSAL;
            return demand(plainly, "a line that has no second form is refused by radio");
        };
        let capacity = call.capacity.max(LEAST_BUFFER);
        let one = run(&line, capacity, plain);
        let other = run(&second, capacity + SUM_CHARACTERS, by_radio);
        let place = if one.written == 0 { 2 } else { usize::from(!accepted(one.reply())) };
        self.twins[place] += 1;
        demand(one.block == other.block, "a line by radio leaves another block than its plain form")?;
        demand(one.reply() == plain_reply(other.reply()), "a line by radio answers otherwise")?;
        match other.reply() {
            [b'C', b'1', ..] => self.check_given_back(service, &other.block, &second),
            [b'C', b'E', ..] => self.check_record(service, &other.block, other.reply()),
            [b'4', b'1', ..] => self.check_loaded(service, &other.block, other.reply()),
            _ => Ok(()),
        }
    }

    /// "In the second form a screen's answer depends on bound and cost bytes only by whether the sum is right": with other digits
    /// behind the choices, as many, and a sum that is right or wrong as the line's is, the answer is the same.
    fn check_screen(
        &mut self,
        service: Service,
        call: &Call,
        block: &[i64],
        random: &mut Random,
    ) -> Result<(), String> {
        let Some(bytes) = lines::bytes(&call.line).ok().filter(|bytes| bytes[0] == 0x4C) else {
            return Ok(());
        };
        let behind = 2 + bytes.get(1).map_or(0, |&n| usize::from(n));
        if behind >= bytes.len() {
            return Ok(());
        }
        let right = sum(&bytes) == 0;
        let answer = |bytes: &[u8]| {
            let mut after = block.to_vec();
            let reply = ask(service, &lines::digits(bytes), &mut after, call.capacity);
            demand(after == block, "a screen changed the block").map(|()| reply)
        };
        let reply = answer(&bytes)?;
        self.screens[if right { usize::from(!accepted(&reply)) } else { 2 }] += 1;
        for _ in 0..4 {
            let mut other = bytes.clone();
            let last = other.len() - 1;
            other[behind..].iter_mut().for_each(|byte| *byte = random.number() as u8);
            let missing = sum(&other[..last]).wrapping_neg();
            other[last] = if right { missing } else { missing.wrapping_add(1 + random.below(255) as u8) };
            demand(answer(&other)? == reply, "a screen's answer by radio depends on bound or cost")?;
        }
        Ok(())
    }

    /// Straight after an accepted line of kind 41 a line of kind 47 gives back that very line, "where it doesn't fit" 17.
    fn check_given_back(&mut self, service: Service, block: &[i64], load: &[u8]) -> Result<(), String> {
        self.given_back += 1;
        let least = load.len().max(LEAST_BUFFER);
        for (capacity, expected) in [(least, load), (least - 1, &[]), (LONGEST_REPLY, load)] {
            let mut after = block.to_vec();
            let saved = ask(service, b"47B9", &mut after, capacity);
            demand(saved == expected, "a save by radio isn't the line loaded")?;
            demand(after == block, "a save by radio changed the block")?;
        }
        Ok(())
    }

    /// "It answers with a load line", by radio with one in its second form: it is loaded as it is.
    fn check_loaded(&mut self, service: Service, block: &[i64], load: &[u8]) -> Result<(), String> {
        self.loaded += 1;
        for before in [&[0; BLOCK_LENGTH], block] {
            let loaded = ask(service, load, &mut before.to_vec(), LEAST_BUFFER);
            demand(loaded.starts_with(b"C1"), "a load line that was shown by radio isn't loaded by radio")?;
        }
        Ok(())
    }

    /// "A written record is taken by both straight afterwards, in a buffer as long", all by radio.
    fn check_record(&mut self, service: Service, block: &[i64], written: &[u8]) -> Result<(), String> {
        self.records += 1;
        let plain = plain_reply(written);
        let n = Reader(&plain[2..]).number(1) as usize;
        for (kind, code, shown) in [("0C", "8C", &plain[2..4 + 2 * n]), ("0D", "8D", &plain[2..])] {
            let line = second_form(&[kind.as_bytes(), &plain[2..]].concat()).ok_or("no second form")?;
            let reply = ask(service, &line, &mut block.to_vec(), written.len().max(LEAST_BUFFER));
            let right = plain_reply(&reply) == [code.as_bytes(), shown].concat();
            demand(right, "a record that was written by radio isn't taken by radio")?;
        }
        Ok(())
    }
}
