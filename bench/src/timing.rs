//! How calls are compared and timed.

use crate::inputs::Input;
use crate::services::Named;
use reference::calls::Call;
use reference::calls::Setting::AsLeft;
use reference::{Service, LONGEST_REPLY};
use std::hint::black_box;
use std::time::{Duration, Instant};

/// About how long a batch of calls takes: long against the clock's resolution.
const BATCH: Duration = Duration::from_micros(200);

/// The lent block and the lent reply buffer, which holds every reply: one of each for all calls of all services.
pub struct Lent {
    block: Vec<i64>,
    reply: [u8; LONGEST_REPLY],
}

impl Lent {
    /// Copies the block that the input begins from.
    pub fn new(input: &Input) -> Self {
        Self { block: input.block.clone(), reply: [0; LONGEST_REPLY] }
    }

    /// Calls that each begin from the input's block. The time is that of the calls alone.
    pub fn calls(&mut self, service: Service, input: &Input, count: usize) -> Duration {
        let mut time = Duration::ZERO;
        for _ in 0..count {
            self.block.copy_from_slice(&input.block);
            time += self.batch(service, input, 1);
        }
        time
    }

    /// Calls that each begin from the block that the one before left.
    fn batch(&mut self, service: Service, input: &Input, count: usize) -> Duration {
        let service = black_box(service);
        let start = Instant::now();
        for _ in 0..count {
            black_box(service(&input.line, &mut self.block, &mut self.reply));
        }
        start.elapsed()
    }

    /// The time of a call in nanoseconds, by a batch. Calls that keep the block are timed together.
    fn timed(&mut self, service: Service, input: &Input, count: usize, keeps: bool) -> f64 {
        let time = if keeps { self.batch(service, input, count) } else { self.calls(service, input, count) };
        time.as_nanos() as f64 / count as f64
    }
}

/// What the services agree in.
pub struct Compared {
    /// Whether the block is left as it was.
    pub keeps: bool,
    pub reply: Vec<u8>,
}

/// Runs each service once: reply, block and buffer must be the same, and the reply of the row's kind.
pub fn compare(services: &[Named], input: &Input) -> Result<Compared, String> {
    let call = Call { capacity: LONGEST_REPLY, setting: AsLeft, line: input.line.clone() };
    let run = |named: &Named| call.run(named.service, &mut input.block.clone());
    let outcome = run(&services[0]);
    if let Some(other) = services[1..].iter().find(|named| run(named) != outcome) {
        return Err(format!("{}: {} and {} differ", input.name, services[0].name, other.name));
    }
    if !outcome.reply().starts_with(input.reply.as_bytes()) {
        return Err(format!("{}: the reply is of another kind", input.name));
    }
    Ok(Compared { keeps: outcome.block == input.block, reply: outcome.reply().to_vec() })
}

/// A figure of every round: the time of a call in nanoseconds, or a ratio of two times.
pub struct Rounds(Vec<f64>);

impl Rounds {
    /// The quartiles: 0 is the least, 2 the median, 4 the highest.
    pub fn quartile(&self, number: usize) -> f64 {
        let mut sorted = self.0.clone();
        sorted.sort_by(f64::total_cmp);
        sorted[number * (sorted.len() - 1) / 4]
    }

    pub fn least(&self) -> f64 {
        self.quartile(0)
    }

    pub fn median(&self) -> f64 {
        self.quartile(2)
    }

    /// The ratio of the two figures of each round.
    pub fn over(&self, other: &Self) -> Self {
        Self(self.0.iter().zip(&other.0).map(|(figure, other)| figure / other).collect())
    }
}

/// Times the services in turn: a batch of each is a round.
pub fn times(services: &[Named], input: &Input, keeps: bool, rounds: usize) -> Vec<Rounds> {
    let mut lent = Lent::new(input);
    let once = services.iter().map(|named| lent.calls(named.service, input, 2) / 2);
    let slowest = once.max().unwrap_or_default();
    let count = (BATCH.as_nanos() / slowest.as_nanos().max(1)).max(1) as usize;
    lent.block.copy_from_slice(&input.block);
    let mut times: Vec<Rounds> = services.iter().map(|_| Rounds(Vec::new())).collect();
    for _ in 0..rounds {
        for (times, named) in times.iter_mut().zip(services) {
            times.0.push(lent.timed(named.service, input, count, keeps));
        }
    }
    times
}
