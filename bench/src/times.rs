//! Times of all sides on one grid, in interleaved rounds.
use std::time::{Duration, Instant};

use case::Case;
use library::exports::Lent;

use crate::clock::{Spent, timed};
use crate::plan::Plan;
use crate::served::{Memory, Served};
use crate::sides::{Outcome, Units, allocating_call, expected, hash_of, lent_call};

const ROUNDS: usize = 9;
const MOST_ROUNDS: usize = 999;

/// The calls that a round has.
#[derive(Clone, Copy, Debug, PartialEq, Eq)]
pub enum Way {
    Rust(Units, Memory),
    Lent,
    Allocating,
}

impl Way {
    pub const RUST: Way = Way::Rust(Units::Sixteen, Memory::Cold);
    pub const ONE_UNIT: Way = Way::Rust(Units::One, Memory::Cold);
    pub const WARM: Way = Way::Rust(Units::Sixteen, Memory::Warm);
    pub const WARM_ONE_UNIT: Way = Way::Rust(Units::One, Memory::Warm);

    const ALL: [Way; 6] = [Way::RUST, Way::ONE_UNIT, Way::Lent, Way::WARM, Way::WARM_ONE_UNIT, Way::Allocating];
}

/// The times of a round, in the order of the ways.
type Round = [Spent; Way::ALL.len()];

/// A grid with the least times of each way.
#[derive(Debug)]
pub struct Timed {
    pub plan: Plan,
    pub takes: u64,
    spent: Round,
}

impl Timed {
    /// The least times of a way.
    pub fn of(&self, way: Way) -> Spent {
        self.spent[Way::ALL.iter().position(|&known| known == way).expect("each way is measured")]
    }

    /// The processor time of one way as a part of another's.
    pub fn ratio(&self, way: Way, to: Way) -> f64 {
        self.of(way).processor.as_secs_f64() / self.of(to).processor.as_secs_f64()
    }
}

/// All that the calls need, made beforehand.
struct Ready<'a> {
    case: &'a Case,
    /// A process for each memory, in their order.
    served: Vec<Served>,
    lent: Lent,
    expected: Outcome,
}

/// All sides on a grid, in nine rounds or more until so much time is spent. An answer that differs is an error.
pub fn time(plan: &Plan, at_least: Duration) -> Result<Timed, String> {
    let case = plan.case();
    let served: Result<_, _> = Memory::ALL.into_iter().map(|memory| Served::start(plan, memory)).collect();
    let served = served.map_err(|error| format!("a process of the Rust: {error}"))?;
    let lent = Lent::new(case.search, plan.cells());
    let mut ready = Ready { case: &case, served, lent, expected: expected(&case) };
    // Not timed: it leaves the lent buffers zero and their pages touched, and each Rust what it keeps.
    ready.round(0)?;
    let mut spent = ready.round(0)?;
    let (started, mut rounds) = (Instant::now(), 1);
    while rounds < ROUNDS || started.elapsed() < at_least && rounds < MOST_ROUNDS {
        let round = ready.round(rounds)?;
        spent.iter_mut().zip(round).for_each(|(least, time)| *least = least.least(time));
        rounds += 1;
    }
    Ok(Timed { plan: plan.clone(), takes: ready.expected.takes, spent })
}

impl Ready<'_> {
    /// Each way once, another one first in each round.
    fn round(&mut self, number: usize) -> Result<Round, String> {
        let mut spent = [Spent { processor: Duration::ZERO, wall: Duration::ZERO }; Way::ALL.len()];
        for turn in 0..spent.len() {
            let at = (number + turn) % spent.len();
            spent[at] = self.call(Way::ALL[at])?;
        }
        Ok(spent)
    }

    /// A call of one way, whose answer must be the expected one.
    fn call(&mut self, way: Way) -> Result<Spent, String> {
        let (spent, outcome) = match way {
            Way::Rust(units, memory) => {
                let (spent, hash) = self.served[memory as usize].call(units)?;
                // The Rust does not know its takes.
                (spent, Outcome { takes: self.expected.takes, hash })
            }
            Way::Lent => {
                let (spent, takes) = timed(|| lent_call(self.case, &mut self.lent));
                (spent, Outcome { takes, hash: hash_of(&self.lent.answer) })
            }
            Way::Allocating => {
                let (spent, sheet) = timed(|| allocating_call(self.case));
                (spent, Outcome { takes: sheet.takes, hash: hash_of(&sheet.cells) })
            }
        };
        if outcome != self.expected {
            return Err(format!("{way:?} gives {outcome:x?}, the counting build {:x?}", self.expected));
        }
        Ok(spent)
    }
}

#[cfg(test)]
mod tests {
    use super::*;
    use crate::plans::{SMALL, plans};

    /// For each grid and each way of ours, a wrong hash is an error, and so are wrong takes. The test's program can't be
    /// started to serve the Rust, whose answers are tested there.
    #[test]
    fn a_difference_is_an_error() {
        for plan in plans(&SMALL) {
            let case = plan.case();
            let right = expected(&case);
            let result = |way, expected| {
                let lent = Lent::new(case.search, plan.cells());
                Ready { case: &case, served: vec![], lent, expected }.call(way)
            };
            for way in [Way::Lent, Way::Allocating] {
                assert!(result(way, right).is_ok());
                assert!(result(way, Outcome { hash: right.hash ^ 1, ..right }).is_err());
                assert!(result(way, Outcome { takes: right.takes + 1, ..right }).is_err());
            }
        }
    }
}
