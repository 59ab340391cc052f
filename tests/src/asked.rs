//! Calls from the outside, with their additions removed, and what may be asked beside them.

use crate::calls::{Call, Setting};
use crate::claims::demand;
use crate::generator::{Reach, Session};
use crate::model::BLOCK_LENGTH;
use crate::radio::{self, Exchange, SUM_CHARACTERS};
use crate::radio_lines::SHARE;
use crate::random::Random;
use crate::{Service, LONGEST_REPLY};

/// A line of any kind, in its plain form, and its reply; whether both went by radio, their buffer's length, and the block that
/// they left.
pub(crate) struct Asked<'a> {
    pub service: Service,
    pub block: &'a [i64],
    pub capacity: usize,
    pub by_radio: bool,
    pub line: &'a [u8],
    pub reply: &'a [u8],
}

/// The reply to a line that leaves the block, of any length, as it is.
pub(crate) fn reply(
    service: Service,
    line: &[u8],
    block: &[i64],
    capacity: usize,
) -> Result<Vec<u8>, String> {
    let call = Call { capacity, setting: Setting::Length(block.len()), line: line.to_vec() };
    let outcome = call.run(service, &mut block.to_vec());
    demand(outcome.block == block, "a line that leaves the block changed it")?;
    Ok(outcome.reply().to_vec())
}

/// The reply to a plain line, which now and then goes by radio, in the longest buffer; the reply's additions are removed.
pub(crate) fn in_either_form(
    service: Service,
    random: &mut Random,
    line: &[u8],
    block: &mut [i64],
) -> Vec<u8> {
    let second = radio::second_form(line).filter(|_| random.chance(SHARE));
    let line = second.unwrap_or_else(|| line.to_vec());
    let call = Call { capacity: LONGEST_REPLY, setting: Setting::AsLeft, line };
    let outcome = call.run(service, block);
    Exchange::of(&call.line, outcome.reply()).reply
}

impl Asked<'_> {
    pub(crate) fn is(&self, kind: &[u8]) -> bool {
        self.line.starts_with(kind)
    }

    /// The reply to a plain line on the block, which stays.
    pub(crate) fn reply(&self, line: &[u8], capacity: usize) -> Result<Vec<u8>, String> {
        reply(self.service, line, self.block, capacity)
    }

    /// The reply to another line in this one's form and buffer, which leaves the block.
    pub(crate) fn again(&self, line: &[u8]) -> Result<Vec<u8>, String> {
        if !self.by_radio {
            return self.reply(line, self.capacity);
        }
        let second = radio::second_form(line).ok_or("a line has no second form")?;
        Ok(radio::plain_reply(&self.reply(&second, self.capacity)?))
    }

    /// How long a plain reply may be: by radio "where plain reply and two characters fit".
    pub(crate) fn room(&self) -> usize {
        self.capacity.saturating_sub(if self.by_radio { SUM_CHARACTERS } else { 0 })
    }
}

/// One session over studies of every size and blocks that no line makes. Each call is checked, with the block that the next one
/// is given.
pub(crate) fn check_calls(
    service: Service,
    seed: u64,
    calls: usize,
    of: &str,
    mut check: impl FnMut(&Asked, &[i64], &mut Random) -> Result<(), String>,
) -> Result<(), String> {
    let mut session = Session::new(seed, Reach::Blocks);
    let mut random = Random::new(!seed);
    let mut block = vec![0; BLOCK_LENGTH];
    for number in 0..calls {
        let call = session.call(&block);
        let outcome = call.run(service, &mut block);
        let Exchange { by_radio, line, reply } = Exchange::of(&call.line, outcome.reply());
        let (capacity, block) = (call.capacity, &block);
        let asked = Asked { service, block: &outcome.block, capacity, by_radio, line: &line, reply: &reply };
        check(&asked, block, &mut random)
            .map_err(|claim| format!("session {seed} of {of}, call {number}: {claim}"))?;
    }
    Ok(())
}
