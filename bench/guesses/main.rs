// Measures `basis_guess::solve` beside the same methods in Rust, in one process.
// The kinds: flow from n places to n others; rows that ask for some of random columns, with entries of 1 or mixed
// ones; and periods with stock between them.
mod bounded;
#[path = "../clock.rs"]
mod clock;
mod dual;
mod lp;
mod lu;
mod markowitz;
mod primal;

use bounded::{Basis, End};
use clock::{require_same, spent};
use lp::{Lp, Place};
use std::hint::black_box;

unsafe extern "C" {
    fn rattle_guess(kind: u64, size: u64, times: u64) -> u64;
}

const WORK: u64 = 1_000_000_000_000;
const INFINITY: f64 = f64::INFINITY;

/// The sequence that the library makes its programs of.
struct Random(u64);

impl Random {
    fn step(&mut self) -> u64 {
        self.0 = self.0.wrapping_mul(6364136223846793005).wrapping_add(1442695040888963407);
        self.0 >> 33
    }
    fn digit(&mut self) -> f64 {
        (self.step() % 10) as f64
    }
}

fn add_columns(program: &mut Lp, count: u64, high: f64, random: &mut Random) {
    for _ in 0..count {
        program.columns.push(Vec::new());
        program.low.push(0.0);
        program.high.push(high);
        program.cost.push(1.0 + random.digit());
    }
}

fn add_cover_rows(program: &mut Lp, rows: u64, columns: u64, is_mixed: bool, random: &mut Random) {
    for _ in 0..rows {
        let mut entries = Vec::new();
        for column in 0..columns {
            if random.step() % (1 + columns / 8) == 0 {
                let digit = random.digit();
                entries.push((column as u32, if is_mixed { 1.0 + digit } else { 1.0 }));
            }
        }
        let low = 1.0 + random.digit();
        program.push_row(entries, low, INFINITY);
    }
}

fn add_shares(program: &mut Lp, count: u64, step: u64, stride: u64, width: u64, low: f64, high: f64) {
    for row in 0..count {
        let entries = (0..width).map(|entry| ((row * step + entry * stride) as u32, 1.0)).collect();
        program.push_row(entries, low, high);
    }
}

fn add_periods(program: &mut Lp, size: u64, random: &mut Random) {
    for period in 0..size {
        let first = period as u32 * 3;
        let mut entries = Vec::new();
        if period > 0 {
            entries.push((first - 1, 1.0));
        }
        entries.extend([(first, 1.0), (first + 1, 1.0), (first + 2, -1.0)]);
        let want = 1.0 + random.digit();
        program.push_row(entries, want, want);
    }
}

fn made(kind: u64, size: u64) -> Lp {
    let mut program = Lp::default();
    match kind {
        0 => {
            add_columns(&mut program, size * size, 4.0, &mut Random(7));
            add_shares(&mut program, size, size, 1, size, -INFINITY, 30.0);
            add_shares(&mut program, size, 1, size, size, 25.0, INFINITY);
        }
        1 => {
            let mut random = Random(11);
            add_columns(&mut program, size, INFINITY, &mut random);
            add_cover_rows(&mut program, size, size, false, &mut random);
        }
        2 => {
            let mut random = Random(13);
            add_columns(&mut program, size * 2, 9.0, &mut random);
            add_cover_rows(&mut program, size, size * 2, true, &mut random);
        }
        _ => {
            let mut random = Random(17);
            add_columns(&mut program, size * 3, 5.5, &mut random);
            add_periods(&mut program, size, &mut random);
        }
    }
    program
}

fn solved(program: &Lp) -> u64 {
    let Some(mut basis) = Basis::new(program, &[], WORK) else { return 0 };
    let mut sum: u64 = match primal::solve(&mut basis) {
        End::Optimal => 1,
        End::Infeasible { position, .. } => 2 + basis.head[position] as u64,
        End::Unbounded => 3,
        End::Lost => 4,
    };
    for place in &basis.place {
        let code = match place {
            Place::Basic => 0,
            Place::Low => 1,
            Place::High => 2,
            Place::Free => 3,
        };
        sum = sum.wrapping_mul(31).wrapping_add(code);
    }
    sum
}

fn rust_guess(kind: u64, size: u64, times: u64) -> u64 {
    let program = made(kind, size);
    (0..times).fold(0, |_, _| solved(black_box(&program)))
}

/// The least processor time of five, in milliseconds a solve, and the number of the answer.
fn measured(guess: impl Fn(u64) -> u64, times: u64) -> (f64, u64) {
    let mut least = f64::INFINITY;
    let mut sum = 0;
    for _ in 0..5 {
        let start = spent();
        sum = guess(times);
        least = least.min((spent() - start) / 1e6 / times as f64);
    }
    (least, sum)
}

const KINDS: [&str; 4] = ["transport", "cover", "mixed", "periods"];

/// The kind, the size and how often the program is solved.
const PROGRAMS: [(u64, u64, u64); 10] = [
    (0, 10, 500),
    (0, 40, 20),
    (1, 30, 500),
    (1, 100, 80),
    (1, 400, 5),
    (1, 1000, 1),
    (2, 100, 40),
    (2, 400, 5),
    (3, 100, 80),
    (3, 2000, 2),
];

fn main() {
    for (kind, size, times) in PROGRAMS {
        let name = KINDS[kind as usize];
        let (rattle, ours) = measured(|times| unsafe { rattle_guess(kind, size, times) }, times);
        let (rust, theirs) = measured(|times| rust_guess(kind, size, times), times);
        require_same(name, ours, theirs);
        let ratio = rattle / rust;
        println!("{name:10} {size:5}  Rattle {rattle:9.3} ms  Rust {rust:9.3} ms  ratio {ratio:.2}  same answers");
    }
}
