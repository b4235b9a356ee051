//! Times our library and the crate on the same calls. This is no test: nothing is compared but the
//! answers, once, so that both sides are known to do the same work.

use crate::calls::{Call, Mapping, Protection, Search};
use crate::crate_side::CrateSet;
use crate::library;
use crate::random::Random;
use crate::tables::{Backend, Tables, PAGE, WORDS};
use std::hint::black_box;
use std::time::{Duration, Instant};

const HEADER: &str = "\
10,000 mixed calls on areas of 8 pages, the same for both sides, in release builds: ns a call, best of 30
rounds. Questions are find, overlaps and search; changes are map, unmap and protect. No buffer is cleared
between calls. Each round starts from new tables with all areas mapped, which is not timed.
areas      calls  crate  library  library/crate  good test  its share of library";
const CALLS: usize = 10_000;
const ROUNDS: usize = 30;
const SEED: u64 = 9;
/// The pages of an area, followed by as many that lie in none.
const AREA_PAGES: u64 = 8;
/// So many calls are made between two measurements of the good test.
const STRETCH: usize = 100;

pub fn run() {
    println!("{HEADER}");
    for areas in [16, 256] {
        let bench = Bench::new(areas);
        bench.check();
        bench.only("all", |_| true);
        bench.only("questions", |call| !call.is_change());
        bench.only("changes", Call::is_change);
    }
}

/// Maps that make all areas, and the calls to be timed after them.
struct Bench {
    areas: u64,
    maps: Vec<Call>,
    calls: Vec<Call>,
}

impl Bench {
    fn new(areas: u64) -> Bench {
        let mut random = Random::new(SEED);
        Bench { areas, maps: (0..areas).map(map).collect(), calls: mixed_calls(&mut random, areas) }
    }

    fn tables(&self) -> Tables {
        let mut tables = Tables::fresh(self.areas as usize * WORDS, self.pages());
        for call in &self.maps {
            library::perform(&mut tables, call);
        }
        tables
    }

    fn crate_set(&self) -> CrateSet {
        let mut crate_set = CrateSet::fresh(self.pages());
        for call in &self.maps {
            crate_set.perform(call);
        }
        crate_set
    }

    fn pages(&self) -> usize {
        (self.areas * 2 * AREA_PAGES) as usize
    }

    fn check(&self) {
        let (mut tables, mut crate_set) = (self.tables(), self.crate_set());
        for call in &self.calls {
            let answer = library::perform(&mut tables, call);
            assert_eq!(answer, crate_set.perform(call), "{call:x?}");
        }
    }

    /// Times some of the calls and prints a line. The sides take turns, so that both meet whatever
    /// else the machine does.
    fn only(&self, name: &str, which: fn(&Call) -> bool) {
        let areas = self.areas;
        let calls: Vec<Call> = self.calls.iter().copied().filter(which).collect();
        let bench = Bench { areas, maps: self.maps.clone(), calls };
        let mut best = [f64::INFINITY; 3];
        for _ in 0..ROUNDS {
            let times = [bench.time_crate(), bench.time_library(), bench.time_good_test()];
            for (best, time) in best.iter_mut().zip(times) {
                *best = best.min(time.as_nanos() as f64 / bench.calls.len() as f64);
            }
        }
        let [by_crate, by_library, good_test] = best;
        let (ratio, share) = (by_library / by_crate, 100.0 * good_test / by_library);
        print!("{areas:5} {name:>10} {by_crate:6.0} {by_library:8.0} {ratio:14.2}");
        println!("{good_test:11.0} {share:20.0}%");
    }

    fn time_crate(&self) -> Duration {
        let mut crate_set = self.crate_set();
        let start = Instant::now();
        for call in &self.calls {
            black_box(crate_set.perform(call));
        }
        start.elapsed()
    }

    fn time_library(&self) -> Duration {
        let mut tables = self.tables();
        let start = Instant::now();
        for call in &self.calls {
            black_box(library::perform(&mut tables, call));
        }
        start.elapsed()
    }

    /// Times len, which does nothing but test that the tables are good, on the tables as they are
    /// between the calls.
    fn time_good_test(&self) -> Duration {
        let mut tables = self.tables();
        let mut time = Duration::ZERO;
        for stretch in self.calls.chunks(STRETCH) {
            for call in stretch {
                library::perform(&mut tables, call);
            }
            let start = Instant::now();
            for _ in stretch {
                black_box(library::perform(&mut tables, &Call::Len));
            }
            time += start.elapsed();
        }
        time
    }
}

/// Where an area lies, by its number.
fn place(area: u64) -> (u64, u64) {
    (area * 2 * AREA_PAGES * PAGE, AREA_PAGES * PAGE)
}

/// Every other area is lazy.
fn map(area: u64) -> Call {
    let (start, size) = place(area);
    let backend = if area.is_multiple_of(2) { Backend::Lazy } else { Backend::Linear(7) };
    Call::Map(Mapping::new(start, size, 1, backend, false))
}

/// All areas or all but one are mapped at any time: what is unmapped is what is mapped next.
fn mixed_calls(random: &mut Random, areas: u64) -> Vec<Call> {
    let mut unmapped = None;
    let space = areas * 2 * AREA_PAGES * PAGE;
    let mut draw = || {
        let (start, size) = place(random.below(areas));
        let near = start + random.below(2 * AREA_PAGES) * PAGE;
        match random.below(6) {
            0 | 1 => match unmapped.take() {
                Some(area) => map(area),
                None => {
                    unmapped = Some(start / PAGE / (2 * AREA_PAGES));
                    Call::Unmap { start, size }
                }
            },
            2 => {
                let (set, clear) = random.one_of(&[(2, 0), (0, 2)]);
                Call::Protect(Protection { start, size, set, clear })
            }
            3 => Call::Find { address: near },
            4 => Call::Overlaps { start: near, size: size.min(space - near) },
            _ => {
                Call::FindFreeArea(Search { hint: near, size, limit_start: 0, limit_end: space, align: PAGE })
            }
        }
    };
    (0..CALLS).map(|_| draw()).collect()
}
