//! Our library held against the model of document 01 on any tables and any arguments.

use crate::any_calls::any_call;
use crate::any_tables::{area_words, good, words, DAMAGES};
use crate::calls::number;
use crate::compare::{Compared, Tally};
use crate::random::Random;
use crate::tables::{Tables, MOST_AREAS, MOST_PAGES, WORDS};
use crate::trial::Trial;

/// A run over many tables, with a sequence of calls on each.
pub struct AnyRun {
    pub name: &'static str,
    tables: fn(&mut Random) -> Tables,
    rounds: u64,
    calls: u64,
}

pub const RUNS: [AnyRun; 4] = [
    AnyRun { name: "any arguments, good tables, capacity 0 to 3", tables: small, rounds: 100_000, calls: 30 },
    AnyRun {
        name: "any arguments, good tables, capacity 256, full or nearly so",
        tables: full,
        rounds: 1_000,
        calls: 200,
    },
    AnyRun {
        name: "any arguments, good tables but for their size, P = 65,535 to 65,537",
        tables: large,
        rounds: 200,
        calls: 40,
    },
    AnyRun { name: "any arguments, tables of random words", tables: wild, rounds: 200_000, calls: 5 },
];

impl AnyRun {
    pub fn run(&self, seed: u64, times: u64) -> Compared<Tally> {
        let mut random = Random::new(seed);
        let mut trial = Trial::default();
        for _ in 0..self.rounds * times {
            let mut tables = (self.tables)(&mut random);
            for _ in 0..self.calls {
                let call = any_call(&mut random, &tables);
                trial.compare(&mut tables, &call)?;
            }
        }
        Ok(trial.tally)
    }
}

/// Room runs out all the time.
fn small(random: &mut Random) -> Tables {
    let capacity = random.below(4) as usize;
    let length = area_words(random, capacity);
    let pages = random.one_of(&[0, 1, 2, 5, 8, 12, 20]);
    let areas = random.between(0, capacity as u64) as usize;
    good(random, length, pages, areas)
}

/// The area table may be longer than the largest capacity asks.
fn full(random: &mut Random) -> Tables {
    let length = area_words(random, MOST_AREAS);
    let areas = MOST_AREAS - random.below(4) as usize;
    good(random, length, 1_500, areas)
}

/// The largest page table, and those one entry off. Each call looks at every entry.
fn large(random: &mut Random) -> Tables {
    let pages = random.one_of(&[MOST_PAGES - 1, MOST_PAGES, MOST_PAGES, MOST_PAGES + 1]);
    let capacity = random.one_of(&[3, 16, MOST_AREAS]);
    let length = area_words(random, capacity);
    let areas = random.between(0, capacity as u64) as usize;
    good(random, length, pages, areas)
}

/// Few of these are good.
fn wild(random: &mut Random) -> Tables {
    let length = random.below(14) as usize;
    let pages = random.one_of(&[0, 1, 4, 8]);
    words(random, length, pages)
}

/// Tables that fail to be good in one way, each way in turn: every call is refused with 1.
pub fn damaged(seed: u64, times: u64) -> Compared<Tally> {
    let mut random = Random::new(seed);
    let mut trial = Trial::default();
    for round in 0..1_700 * times {
        let areas = random.between(2, 8) as usize;
        let mut tables = good(&mut random, 8 * WORDS, 100, areas);
        let damage = DAMAGES[round as usize % DAMAGES.len()];
        damage(&mut random, &mut tables);
        for _ in 0..60 {
            let call = any_call(&mut random, &tables);
            let answer = trial.compare(&mut tables, &call)?;
            if answer.number != number::BAD_TABLES {
                return Err(format!("answer {} on damaged tables", answer.number));
            }
        }
    }
    Ok(trial.tally)
}
