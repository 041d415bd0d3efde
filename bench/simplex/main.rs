// Measures `solve` beside the same path in Rust, in one process.
#[path = "../fractions/fraction.rs"]
#[allow(dead_code)]
mod fraction;
#[path = "../fractions/gcd.rs"]
mod gcd;
#[path = "../random.rs"]
mod random;
mod simplex;
#[path = "../fractions/wide.rs"]
#[allow(dead_code)]
mod wide;

use fraction::{Frac, Term};
use random::Random;
use simplex::{Outcome, Program, solve, whole};
use std::hint::black_box;
use std::time::Instant;

unsafe extern "C" {
    fn rattle_solve(cells: *const u64, len: usize, rows: u64, columns: u64, times: u64) -> u64;
}

/// Nanoseconds for each program.
const TIME: f64 = 5e9;
const TASKS: u64 = 6;

/// A program by its cells: a row, a column, twice the numerator, and one more where it is negative, and
/// the denominator. The right side stands behind the columns, the cost behind the rows.
struct Cells {
    rows: u64,
    columns: u64,
    words: Vec<u64>,
}

impl Cells {
    fn put(&mut self, row: u64, column: u64, num: i64, den: u64) {
        let sign = (num < 0) as u64;
        self.words.extend([row, column, 2 * num.unsigned_abs() + sign, den]);
    }
}

/// The factors of the rows and columns of the data: 1, or small fractions.
fn factor(random: &mut Random, is_whole: bool) -> (i64, u64) {
    if is_whole { (1, 1) } else { (1 + random.below(9) as i64, 1 + random.below(9)) }
}

/// Persons and tasks, each matched at most once: each pair of a person and one of six tasks is a column,
/// with a gain.
fn matching(rows: u64, is_whole: bool) -> Cells {
    let mut random = Random(88172645463325252 + rows);
    let size = rows / 2;
    let slacks = size * TASKS;
    let mut cells = Cells { rows, columns: slacks + rows, words: Vec::new() };
    let tasks: Vec<u64> =
        (0..slacks).map(|column| (column / TASKS + column % TASKS * 7) % size).collect();
    for row in 0..rows {
        let (num, den) = factor(&mut random, is_whole);
        for column in 0..slacks {
            let is_there =
                if row < size { column / TASKS == row } else { tasks[column as usize] == row - size };
            if is_there {
                cells.put(row, column, num, den);
            }
        }
        cells.put(row, slacks + row, 1, 1);
        cells.put(row, cells.columns, num, den);
    }
    for column in 0..slacks {
        cells.put(rows, column, -1 - random.below(99) as i64, 1);
    }
    cells
}

/// Columns that each use up a stretch of rows: half of the cells, on average, are not 0.
fn stretches(rows: u64, is_whole: bool) -> Cells {
    let mut random = Random(362436069 + rows);
    let slacks = 2 * rows;
    let mut cells = Cells { rows, columns: slacks + rows, words: Vec::new() };
    let columns: Vec<(u64, u64, i64, u64)> = (0..slacks)
        .map(|_| {
            let first = random.below(rows / 2);
            let length = rows / 4 + random.below(rows / 2);
            let (num, den) = factor(&mut random, is_whole);
            (first, (first + length).min(rows), num, den)
        })
        .collect();
    for row in 0..rows {
        for (column, &(first, end, num, den)) in columns.iter().enumerate() {
            if first <= row && row < end {
                cells.put(row, column as u64, num, den);
            }
        }
        cells.put(row, slacks + row, 1, 1);
        cells.put(row, cells.columns, 5 + random.below(20) as i64, 1);
    }
    for column in 0..slacks {
        cells.put(rows, column, -1 - random.below(99) as i64, 1);
    }
    cells
}

fn value(num: u64, den: u64) -> Frac {
    let size = (num / 2) as i128;
    Frac::new(if num % 2 == 1 { -size } else { size }, den as i128).unwrap()
}

fn program(cells: &Cells) -> Program {
    let count = cells.rows as usize;
    let mut rows = vec![Vec::new(); count + 1];
    let mut right = vec![whole(0); count];
    for cell in cells.words.chunks_exact(4) {
        let value = value(cell[2], cell[3]);
        if cell[1] == cells.columns {
            right[cell[0] as usize] = value;
        } else {
            rows[cell[0] as usize].push(Term { column: cell[1], value });
        }
    }
    for row in &mut rows {
        row.sort_by_key(|term| term.column);
    }
    let cost = rows.pop().unwrap();
    Program { columns: cells.columns, rows, right, cost }
}

fn mix(sum: u64, column: u64, value: Frac) -> u64 {
    let low = |n: i128| n.unsigned_abs() as u64;
    sum.wrapping_mul(31)
        .wrapping_add(column ^ low(value.num()) ^ low(value.den()).wrapping_mul(7))
}

fn mix_form(sum: u64, form: &[Term]) -> u64 {
    form.iter().fold(sum, |sum, term| mix(sum, term.column, term.value))
}

fn mix_values(sum: u64, values: &[Frac]) -> u64 {
    values.iter().fold(sum, |sum, value| mix(sum, 0, *value))
}

fn digest(sum: u64, outcome: &Outcome) -> u64 {
    match outcome {
        Outcome::Optimal { point, duals } => mix_values(mix_form(sum, point), duals),
        Outcome::Infeasible { duals } => mix_values(sum.wrapping_add(1), duals),
        Outcome::Unbounded { point, ray } => mix_form(mix_form(sum.wrapping_add(2), point), ray),
    }
}

fn rust_solve(program: &Program, times: u64) -> u64 {
    let mut sum = 0;
    for _ in 0..times {
        sum = match solve(black_box(program)).0 {
            Ok(outcome) => digest(sum, &outcome),
            Err(_) => sum,
        };
    }
    sum
}

/// Prints the least time of each. The two take turns, so that what else the machine does falls on both;
/// the time that it takes to read the cells is taken off.
fn compare(name: &str, cells: &Cells) {
    let rust = program(cells);
    let (outcome, pivots, merged) = solve(&rust);
    let end = match outcome {
        Ok(Outcome::Optimal { .. }) => "optimal",
        Ok(Outcome::Infeasible { .. }) => "infeasible",
        Ok(Outcome::Unbounded { .. }) => "unbounded",
        Err(_) => "passed",
    };
    let times = (5_000_000 / (merged + 1)).clamp(1, 200);
    let rattle = |times| unsafe {
        rattle_solve(cells.words.as_ptr(), cells.words.len(), cells.rows, cells.columns, times)
    };
    let timed = |f: &dyn Fn(u64) -> u64, times: u64| {
        let start = Instant::now();
        let answer = black_box(f(black_box(times)));
        (start.elapsed().as_nanos() as f64, answer)
    };
    let mut best = [f64::MAX; 3];
    let mut answers = [0; 2];
    let began = Instant::now();
    while (began.elapsed().as_nanos() as f64) < TIME {
        let (all, ours) = timed(&rattle, times);
        let (none, _) = timed(&rattle, 0);
        let (other, theirs) = timed(&|times| rust_solve(&rust, times), times);
        best = [best[0].min(all), best[1].min(none), best[2].min(other)];
        answers = [ours, theirs];
    }
    let each = |total: f64| total / times as f64;
    let (ours, theirs) = (each(best[0] - best[1]), each(best[2]));
    let note = if answers[0] == answers[1] { "" } else { "   DIFFERENT ANSWERS" };
    println!(
        "{name:26} {end:8} {pivots:5} pivots {merged:9} entries   Rattle {:9.3} ms  Rust {:9.3} ms  ratio {:.2}   {:5.1} ns an entry{note}",
        ours / 1e6,
        theirs / 1e6,
        ours / theirs,
        ours / merged as f64,
    );
}

fn main() {
    for rows in [20, 50, 100, 200] {
        for is_whole in [true, false] {
            let data = if is_whole { "whole" } else { "fractions" };
            compare(&format!("sparse, {rows} rows, {data}"), &matching(rows, is_whole));
            compare(&format!("dense, {rows} rows, {data}"), &stretches(rows, is_whole));
        }
    }
}
