//! All runs that compare, one after the other.

use crate::any_runs;
use crate::compare::{Compared, Tally};
use crate::ground_runs::Extent;
use crate::{every_call, exhaustive, ground_runs, numbers};
use std::time::Instant;

/// The random runs on the shared ground.
const EXTENTS: [Extent; 4] = [
    Extent { capacity: 16, pages: 64, sequences: 500, calls: 2_000 },
    Extent { capacity: 256, pages: 700, sequences: 100, calls: 4_000 },
    Extent { capacity: 256, pages: 4_096, sequences: 50, calls: 10_000 },
    Extent { capacity: 256, pages: 65_536, sequences: 2, calls: 4_000 },
];

/// Makes every run once, the random ones `times` as long, and prints a line for each. Stops at the
/// first mismatch.
pub fn run(seed: u64, times: u64) -> Compared<()> {
    report("library, document 01's numbers to check by", numbers::run)?;
    let with_crate = shared_ground(seed, times)?;
    let with_model = everywhere(seed, times)?;
    with_model.saw_everything()?;
    println!(
        "all the same, seed {seed}: {} calls compared with the crate, {} with the model",
        with_crate.calls(),
        with_model.calls()
    );
    Ok(())
}

/// Our library held against the crate.
fn shared_ground(seed: u64, times: u64) -> Compared<Tally> {
    let mut all = Tally::default();
    for (pages, length) in [(2, 4), (3, 3), (4, 2)] {
        let name = format!("crate, all sequences of up to {length} changes, P = {pages}");
        all.add(&report(&name, || exhaustive::sequences(pages, length))?);
    }
    for pages in [4, 5] {
        let name = format!("crate, all states, P = {pages}");
        all.add(&report(&name, || exhaustive::states(pages))?);
    }
    for extent in EXTENTS {
        let Extent { capacity, pages, .. } = extent;
        let name = format!("crate, random sequences, P = {pages}, capacity {capacity}");
        all.add(&report(&name, || ground_runs::run(seed, times, &extent))?);
    }
    Ok(all)
}

/// Our library held against the model.
fn everywhere(seed: u64, times: u64) -> Compared<Tally> {
    let mut all = Tally::default();
    for (pages, capacity) in [(0, 0), (0, 1), (1, 0), (1, 1), (2, 1), (2, 2), (3, 2), (3, 3), (4, 2)] {
        let name = format!("model, all states, P = {pages}, capacity {capacity}");
        all.add(&report(&name, || every_call::run(pages, capacity))?);
    }
    for run in &any_runs::RUNS {
        let name = format!("model, random, {}", run.name);
        all.add(&report(&name, || run.run(seed, times))?);
    }
    let name = "model, random, any arguments, tables that fail to be good in one way";
    all.add(&report(name, || any_runs::damaged(seed, times))?);
    Ok(all)
}

/// Makes a run and prints how many calls it compared and how often each number was the answer.
fn report(name: &str, run: impl FnOnce() -> Compared<Tally>) -> Compared<Tally> {
    let start = Instant::now();
    let tally = run().map_err(|mismatch| format!("{name}: mismatch\n{mismatch}"))?;
    let seconds = start.elapsed().as_secs_f64();
    println!("{name}: {} calls in {seconds:.1} s, answers{}", tally.calls(), tally.by_number());
    Ok(tally)
}
