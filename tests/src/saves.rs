//! Change 1, 'Saving a study', checked from the outside: by saves and loads alone.

use crate::asked::check_calls;
use crate::calls::{Call, Setting};
use crate::claims::demand;
use crate::lines::LONGEST_LOAD;
use crate::model::{self, BLOCK_LENGTH, FORBIDDEN, ORDER};
use crate::orders;
use crate::{Service, LEAST_BUFFER, LONGEST_REPLY};
use std::ops::Range;

/// How often saves were put to the test.
#[derive(Default, Debug)]
pub struct Saves {
    /// Saved lines that were loaded again.
    pub loaded: usize,
    /// Of these, saves of blocks whose T isn't s × H or whose c0 isn't 0, of blocks with a forbidden entry, and of blocks with
    /// another order than a load sets.
    pub rewritten: usize,
    pub forbidden: usize,
    pub ordered: usize,
    /// Loads that a save gave back, and saves straight after lines of clauses.
    pub given_back: usize,
    pub of_clauses: usize,
}

/// Places of n, s and m; of sizes, pairs and H of choices; of H of pairs.
const LOADED: [Range<usize>; 3] = [0..3, 4..316, 508..3_580];
/// From a place of H to that of T, of choices and of pairs.
const HELD: [(Range<usize>, usize); 2] = [(124..316, 316 - 124), (508..3_580, 3_580 - 508)];

/// T = s × H, both −1 where an entry is forbidden, and c0 = 0.
fn as_loaded(block: &[i64]) -> bool {
    let expected = |loaded: i64| if loaded == FORBIDDEN { FORBIDDEN } else { block[1] * loaded };
    let held = |(places, to_held): &(Range<usize>, usize)| {
        places.clone().all(|place| block[place + to_held] == expected(block[place]))
    };
    block[3] == 0 && HELD.iter().all(held)
}

/// The reply to a line in a buffer of this length, on the block.
fn reply(service: Service, line: &[u8], block: &mut [i64], capacity: usize) -> Vec<u8> {
    let call = Call { capacity, setting: Setting::AsLeft, line: line.to_vec() };
    call.run(service, block).reply().to_vec()
}

impl Saves {
    /// "Loading that line gives the same n, s, sizes, pairs and H", into a fresh block and into the one
    /// that was saved; "T becomes s × H, c0 becomes 0". A load "sets 0 to n−1".
    pub fn check_saved(&mut self, service: Service, block: &[i64], saved: &[u8]) -> Result<(), String> {
        self.loaded += 1;
        self.rewritten += usize::from(!as_loaded(block));
        self.forbidden += usize::from(block.contains(&FORBIDDEN));
        self.ordered += usize::from(block[ORDER] != orders::loaded(block[0]));
        demand(saved.len() <= LONGEST_LOAD, "a saved line is too long")?;
        for before in [&[0; BLOCK_LENGTH], block] {
            let mut after = before.to_vec();
            let loaded = reply(service, saved, &mut after, LEAST_BUFFER);
            demand(loaded.starts_with(b"81"), "a saved line isn't loaded")?;
            let same = LOADED.into_iter().all(|places| after[places.clone()] == block[places]);
            demand(same, "a saved line loads other numbers")?;
            let order = after[ORDER] == orders::loaded(after[0]);
            demand(as_loaded(&after) && order, "a saved line isn't loaded as it must be")?;
        }
        Ok(())
    }

    /// "Saving straight after any accepted line of kind 01 gives back that line", into every buffer that
    /// holds it; "where it doesn't fit, the answer is 17". A save changes nothing.
    pub fn check_load(&mut self, service: Service, block: &[i64], load: &[u8]) -> Result<(), String> {
        self.given_back += 1;
        let least = load.len().max(LEAST_BUFFER);
        for (capacity, expected) in [(least, load), (least - 1, &[]), (LONGEST_REPLY, load)] {
            let mut after = block.to_vec();
            demand(reply(service, b"07", &mut after, capacity) == expected, "a save isn't the line loaded")?;
            demand(after == block, "a save changed the block")?;
        }
        Ok(())
    }

    /// The save straight after an accepted line of clauses: loading it on a fresh block makes the very block that the
    /// clauses made, since "the line sets the costs as a load does".
    pub fn check_clauses(&mut self, service: Service, block: &[i64]) -> Result<Vec<u8>, String> {
        self.of_clauses += 1;
        let mut after = block.to_vec();
        let saved = reply(service, b"07", &mut after, LONGEST_REPLY);
        demand(after == block, "a save changed the block")?;
        let mut loaded = vec![0; BLOCK_LENGTH];
        reply(service, &saved, &mut loaded, LEAST_BUFFER);
        demand(loaded == block, "the save after clauses loads another block")?;
        Ok(saved)
    }

    /// One session over studies of every size and blocks that no line makes: each load and each line of clauses that is
    /// accepted, and a save behind each call that leaves a study.
    pub fn check_session(&mut self, service: Service, seed: u64, calls: usize) -> Result<(), String> {
        check_calls(service, seed, calls, "saves", |asked, block, _| {
            if asked.reply.starts_with(b"81") {
                self.check_load(service, asked.block, asked.line)?;
            }
            if asked.reply.starts_with(b"89") {
                self.check_clauses(service, asked.block)?;
            }
            if !matches!(model::decode(block), Ok(Some(_))) {
                return Ok(());
            }
            let mut after = block.to_vec();
            let saved = reply(service, b"07", &mut after, LONGEST_REPLY);
            demand(after == block, "a save changed the block")?;
            self.check_saved(service, block, &saved)
        })
    }
}
