// Measures `read_stoch` and `build` beside the same reader and builder in Rust, in one process.
#[path = "../clock.rs"]
mod clock;
mod digest;
mod fold;
#[path = "../fractions/fraction.rs"]
#[allow(dead_code)]
mod fraction;
#[path = "../fractions/gcd.rs"]
mod gcd;
#[path = "../heap.rs"]
mod heap;
#[path = "../mix.rs"]
mod mix;
#[path = "../reader/names.rs"]
mod names;
#[path = "../reader/number.rs"]
mod number;
#[path = "../random.rs"]
mod random;
#[path = "../reader/reader.rs"]
#[allow(dead_code)]
mod reader;
mod rows;
mod stoch;
#[allow(dead_code)]
mod texts;
mod tree;
#[path = "../fractions/wide.rs"]
mod wide;

use clock::{require_same, spent};
use heap::keep_memory;
use mix::with;
use reader::{Core, read_core};
use std::hint::black_box;
use stoch::{Stoch, read_stoch};
use texts::Texts;
use tree::{BuildFault, Program, build};

unsafe extern "C" {
    fn rattle_read(
        core: *const u8,
        core_len: usize,
        time: *const u8,
        time_len: usize,
        stoch: *const u8,
        stoch_len: usize,
        times: u64,
    ) -> u64;
    fn rattle_cases(
        core: *const u8,
        core_len: usize,
        time: *const u8,
        time_len: usize,
        stoch: *const u8,
        stoch_len: usize,
    ) -> u64;
    fn rattle_build(
        core: *const u8,
        core_len: usize,
        time: *const u8,
        time_len: usize,
        stoch: *const u8,
        stoch_len: usize,
        times: u64,
    ) -> u64;
    fn rattle_program(
        core: *const u8,
        core_len: usize,
        time: *const u8,
        time_len: usize,
        stoch: *const u8,
        stoch_len: usize,
    ) -> u64;
    fn malloc_trim(pad: usize) -> i32;
}

/// Nanoseconds for each comparison, and turns that it has at least.
const TIME: f64 = 8e9;
const TURNS: usize = 10;

fn of_fail((line, cause): (u32, u32)) -> u64 {
    with(line as u64, cause as u64)
}

fn of_fault(fault: BuildFault) -> u64 {
    match fault {
        BuildFault::Limit => 2,
        BuildFault::Passed(_) => 3,
    }
}

fn core_of(texts: &Texts) -> Core {
    let Ok(core) = read_core(black_box(texts.core.as_bytes())) else { panic!("the core isn't read") };
    core
}

fn stoch_of(texts: &Texts, core: &Core) -> Result<Stoch, (u32, u32)> {
    read_stoch(black_box(texts.stoch.as_bytes()), core, &texts.periods)
}

/// Reads the core, and then the stoch file so many times.
fn rust_read(texts: &Texts, times: u64) -> u64 {
    let core = core_of(texts);
    (0..times).fold(0, |sum, _| {
        let number = match black_box(stoch_of(texts, &core)) {
            Ok(Stoch::Blocks(blocks)) => blocks.len() as u64,
            Ok(Stoch::Scenarios(branches)) => branches.len() as u64,
            Err(fail) => of_fail(fail),
        };
        with(sum, number)
    })
}

/// Reads the core and the stoch file, and then builds the program so many times.
fn rust_build(texts: &Texts, times: u64) -> u64 {
    let core = core_of(texts);
    let Ok(stoch) = stoch_of(texts, &core) else { return 0 };
    (0..times).fold(0, |sum, _| {
        let number = match black_box(build(black_box(&core), &texts.periods, &stoch)) {
            Ok(program) => program.nodes.len() as u64,
            Err(fault) => of_fault(fault),
        };
        with(sum, number)
    })
}

fn count_of_values(stoch: &Stoch) -> usize {
    match stoch {
        Stoch::Blocks(blocks) => blocks.iter().flat_map(|block| &block.cases).map(|case| case.sets.len()).sum(),
        Stoch::Scenarios(branches) => branches.iter().map(|branch| branch.sets.len()).sum(),
    }
}

fn count_of_entries(program: &Program) -> usize {
    program.nodes.iter().flatten().flat_map(|node| &node.rows).map(|row| row.entries.len()).sum()
}

/// Prints the least time of each, less that of a call which does it no time, and their ratio. The two take turns, so that what else the
/// machine does falls on both.
fn compare(name: &str, size: &str, times: u64, rattle: impl Fn(u64) -> u64, rust: impl Fn(u64) -> u64) {
    let mut best = [f64::MAX; 4];
    let began = spent();
    let mut turns = 0;
    while turns < TURNS || spent() - began < TIME {
        let mut answers = [0; 4];
        for (place, of) in [&rattle as &dyn Fn(u64) -> u64, &rust].into_iter().enumerate() {
            for (kind, times) in [(0, times), (2, 0)] {
                // No call finds memory that the one before it left.
                unsafe { malloc_trim(0) };
                let start = spent();
                answers[place + kind] = black_box(of(black_box(times)));
                best[place + kind] = best[place + kind].min(spent() - start);
            }
        }
        require_same(name, answers[0], answers[1]);
        turns += 1;
    }
    let each = |place: usize| (best[place] - best[place + 2]) / times as f64 / 1e6;
    let (ours, theirs) = (each(0), each(1));
    println!("{name:44} {size:58} Rattle {ours:7.2} ms   Rust {theirs:7.2} ms   ratio {:.2}", ours / theirs);
}

fn read(name: &str, texts: Texts) {
    let (core, time, stoch) = (texts.core.as_bytes(), texts.time.as_bytes(), texts.stoch.as_bytes());
    let (size, theirs) = match stoch_of(&texts, &core_of(&texts)) {
        Ok(cases) => (count_of_values(&cases), digest::of_cases(&cases)),
        Err(fail) => (0, of_fail(fail)),
    };
    let ours =
        unsafe { rattle_cases(core.as_ptr(), core.len(), time.as_ptr(), time.len(), stoch.as_ptr(), stoch.len()) };
    require_same(name, ours, theirs);
    let rattle = |times| unsafe {
        rattle_read(core.as_ptr(), core.len(), time.as_ptr(), time.len(), stoch.as_ptr(), stoch.len(), times)
    };
    let size = format!("{} bytes, {size} values", stoch.len());
    compare(name, &size, 1, rattle, |times| rust_read(&texts, times));
}

fn built(name: &str, texts: Texts, times: u64) {
    let (core, time, stoch) = (texts.core.as_bytes(), texts.time.as_bytes(), texts.stoch.as_bytes());
    let (size, theirs) = {
        let core = core_of(&texts);
        let Ok(stoch) = stoch_of(&texts, &core) else { panic!("the stoch file isn't read") };
        match build(&core, &texts.periods, &stoch) {
            Ok(program) => (
                format!(
                    "{} scenarios, {} nodes, {} entries",
                    program.scenarios.len(),
                    program.nodes.len(),
                    count_of_entries(&program)
                ),
                digest::of_program(&program),
            ),
            Err(fault) => (String::new(), of_fault(fault)),
        }
    };
    let ours =
        unsafe { rattle_program(core.as_ptr(), core.len(), time.as_ptr(), time.len(), stoch.as_ptr(), stoch.len()) };
    require_same(name, ours, theirs);
    let rattle = |times| unsafe {
        rattle_build(core.as_ptr(), core.len(), time.as_ptr(), time.len(), stoch.as_ptr(), stoch.len(), times)
    };
    compare(name, &size, times, rattle, |times| rust_build(&texts, times));
}

fn main() {
    keep_memory();
    // Without a word all are compared, else those whose names have it.
    let wanted = std::env::args().nth(1).unwrap_or_default();
    let files: [(&str, fn() -> Texts); 8] = [
        ("reading SCENARIOS, replaced and added", texts::scenarios),
        ("reading two chains by turns", texts::two_chains),
        ("reading sixteen chains by turns", texts::sixteen_chains),
        ("reading seventeen chains by turns", texts::seventeen_chains),
        ("reading a hundred chains by turns", texts::hundred_chains),
        ("reading BLOCKS, four of ten cases", texts::blocks),
        ("reading BLOCKS, two of a hundred cases", texts::short_blocks),
        ("reading INDEP", texts::indep),
    ];
    for (name, texts) in files {
        if name.contains(&wanted) {
            read(name, texts());
        }
    }
    let programs: [(&str, fn() -> Texts, u64); 4] = [
        ("building three periods of SCENARIOS", texts::three_periods, 4),
        ("building five periods of SCENARIOS", texts::branching, 4),
        ("building five periods of BLOCKS", texts::four_blocks, 4),
        ("building large nodes", texts::large_nodes, 1),
    ];
    for (name, texts, times) in programs {
        if name.contains(&wanted) {
            built(name, texts(), times);
        }
    }
}
