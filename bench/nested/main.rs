// Measures `session` beside the same nested method in Rust, in one process.
#[path = "../clock.rs"]
mod clock;
mod cuts;
#[path = "../trees/fold.rs"]
mod fold;
#[path = "../fractions/fraction.rs"]
#[allow(dead_code)]
mod fraction;
#[path = "../fractions/gcd.rs"]
mod gcd;
mod machine;
#[path = "../mix.rs"]
mod mix;
#[path = "../reader/names.rs"]
mod names;
mod node;
#[path = "../reader/number.rs"]
mod number;
#[path = "../reader/reader.rs"]
#[allow(dead_code)]
mod reader;
#[path = "../trees/rows.rs"]
mod rows;
#[path = "../simplex/simplex.rs"]
#[allow(dead_code)]
mod simplex;
#[path = "../trees/stoch.rs"]
#[allow(dead_code)]
mod stoch;
mod table;
#[path = "../trees/tree.rs"]
#[allow(dead_code)]
mod tree;
#[path = "../fractions/wide.rs"]
#[allow(dead_code)]
mod wide;

use clock::{require_same, spent};
use fraction::Frac;
use machine::{Report, Status, solve};
use mix::with;
use std::fmt::Write;
use std::hint::black_box;
use stoch::{Periods, read_stoch};
use tree::{Program, build};

unsafe extern "C" {
    fn rattle_solve(
        core: *const u8,
        core_len: usize,
        time: *const u8,
        time_len: usize,
        stoch: *const u8,
        stoch_len: usize,
        solves: u64,
        times: u64,
    ) -> u64;
}

/// Nanoseconds for each comparison, and turns that it has at least.
const TIME: f64 = 8e9;
const TURNS: usize = 3;

/// As many solves as `solve` allows where the words don't say how many.
const SOLVES: u64 = 100_000;

struct Texts {
    core: String,
    time: String,
    stoch: String,
    periods: Periods,
}

/// The numbers of a made program.
struct Draw(u64);

impl Draw {
    fn below(&mut self, n: u64) -> u64 {
        self.0 = (75 * self.0 + 74) % 65_537;
        self.0 % n
    }
}

/// A made program of so many stages, branches below each node, and items: in each stage but the last items are ordered within a common
/// limit; behind it their demand is met from what was ordered and kept, from a dearer source, and what is left is kept.
fn made(stages: usize, branches: usize, items: usize) -> Texts {
    let mut draw = Draw(1);
    let (mut rows, mut columns, mut rhs, mut stoch) = (String::new(), String::new(), String::new(), String::new());
    let mut time = String::from("TIME MAKE\nPERIODS\n");
    let mut periods = Periods { names: Vec::new(), column_stage: Vec::new(), row_stage: Vec::new() };
    for t in 1..=stages {
        let stage = t as u32 - 1;
        let first = if t == 1 { String::from("X1_1 COST") } else { format!("Y{t}_1 D{t}_1") };
        writeln!(time, " {first} P{t}").unwrap();
        periods.names.push(format!("P{t}").into_bytes());
        for i in 1..=items {
            if t > 1 {
                writeln!(rows, " E D{t}_{i}").unwrap();
                periods.row_stage.push(stage);
                writeln!(columns, " Y{t}_{i} COST {}\n Y{t}_{i} D{t}_{i} 1", 10 + draw.below(10)).unwrap();
                writeln!(columns, " Z{t}_{i} COST 1\n Z{t}_{i} D{t}_{i} -1").unwrap();
                if t < stages {
                    writeln!(columns, " Z{t}_{i} D{}_{i} 1", t + 1).unwrap();
                }
                periods.column_stage.extend([stage; 2]);
            }
            if t < stages {
                let cost = 1 + draw.below(5);
                writeln!(columns, " X{t}_{i} COST {cost}\n X{t}_{i} C{t} 1\n X{t}_{i} D{}_{i} 1", t + 1).unwrap();
                periods.column_stage.push(stage);
            }
        }
        if t < stages {
            writeln!(rows, " L C{t}").unwrap();
            periods.row_stage.push(stage);
            writeln!(rhs, " RHS C{t} {}", 20 * items).unwrap();
        }
    }
    for t in 2..=stages {
        for _ in 0..branches {
            writeln!(stoch, " BL B{t} P{t} 1/{branches}").unwrap();
            for i in 1..=items {
                writeln!(stoch, " RHS D{t}_{i} {}", draw.below(20)).unwrap();
            }
        }
    }
    time.push_str("ENDATA\n");
    Texts {
        core: format!("NAME MAKE\nROWS\n N COST\n{rows}COLUMNS\n{columns}RHS\n{rhs}ENDATA\n"),
        time,
        stoch: format!("STOCH MAKE\nBLOCKS DISCRETE\n{stoch}ENDATA\n"),
        periods,
    }
}

fn program(texts: &Texts) -> Program {
    let Ok(core) = reader::read_core(texts.core.as_bytes()) else { panic!("the core isn't read") };
    let Ok(stoch) = read_stoch(texts.stoch.as_bytes(), &core, &texts.periods) else {
        panic!("the stoch file isn't read")
    };
    let Ok(program) = build(&core, &texts.periods, &stoch) else { panic!("the program isn't built") };
    program
}

fn with_value(sum: u64, value: Option<Frac>) -> u64 {
    match value {
        Some(value) => {
            let sum = with(sum, u64::from(value.num() < 0));
            with(with(sum, value.num().unsigned_abs() as u64), value.den() as u64)
        }
        None => with(sum, 7),
    }
}

/// A number that depends on the status, on the upper end, and of an optimum on the lengths of both lists.
fn of_report(report: &Report) -> u64 {
    let status = match report.status {
        Status::Optimal => 1,
        Status::Infeasible => return with(0, 2),
        Status::Unbounded => 3,
        Status::OpenSolves => 4,
        Status::OpenPassed => 6,
    };
    let sum = with_value(with(0, status), report.upper);
    if report.status == Status::Optimal {
        with(with(sum, report.sizes.0 as u64), report.sizes.1 as u64)
    } else {
        sum
    }
}

fn rust_solve(program: &Program, solves: u64, times: u64) -> u64 {
    (0..times).fold(0, |sum, _| {
        let Ok(report) = solve(black_box(program), solves) else { panic!("a sum of the tree passes") };
        with(sum, of_report(black_box(&report)))
    })
}

fn shown(value: Option<Frac>) -> String {
    value.map_or(String::from("none"), |value| format!("{}/{}", value.num(), value.den()))
}

fn compare(stages: usize, branches: usize, items: usize) {
    let name = format!("{stages} periods, {branches} cases, {items} items");
    let texts = made(stages, branches, items);
    let program = program(&texts);
    let (core, time, stoch) = (texts.core.as_bytes(), texts.time.as_bytes(), texts.stoch.as_bytes());
    let rattle = |solves, times| unsafe {
        rattle_solve(
            core.as_ptr(), core.len(), time.as_ptr(), time.len(), stoch.as_ptr(), stoch.len(), solves, times,
        )
    };
    let Ok(report) = solve(&program, SOLVES) else { panic!("a sum of the tree passes") };
    // The two take the same way: they know the same after so many solves.
    for part in 1..8 {
        let solves = report.solves * part / 8;
        require_same(&name, rattle(solves, 1), rust_solve(&program, solves, 1));
    }
    let once = {
        let start = spent();
        black_box(rust_solve(&program, SOLVES, 1));
        spent() - start
    };
    let times = (3e8 / once).clamp(1.0, 1000.0) as u64;
    let mut best = [f64::MAX; 2];
    let (mut turns, began) = (0, spent());
    while turns < TURNS || spent() - began < TIME {
        let start = spent();
        let ours = rattle(SOLVES, times);
        best[0] = best[0].min(spent() - start);
        let start = spent();
        let theirs = rust_solve(&program, SOLVES, times);
        best[1] = best[1].min(spent() - start);
        require_same(&name, ours, theirs);
        turns += 1;
    }
    let each = |place: usize| best[place] / times as f64 / 1e6;
    println!(
        "{name:34} {:5} nodes {:8?} {:>12} {:6} solves {:8} pivots   Rattle {:9.3} ms   Rust {:9.3} ms   ratio {:.2}",
        program.nodes.len(),
        report.status,
        shown(report.upper),
        report.solves,
        report.pivots,
        each(0),
        each(1),
        each(0) / each(1)
    );
}

fn main() {
    let sizes = [
        (2, 2, 1), (3, 2, 2), (3, 3, 2), (4, 3, 1), (5, 2, 1), (2, 3, 5), (2, 4, 10), (6, 2, 1), (3, 4, 2), (4, 2, 2), (3, 3, 5), (4, 2, 4),
    ];
    for (stages, branches, items) in sizes {
        compare(stages, branches, items);
    }
}
