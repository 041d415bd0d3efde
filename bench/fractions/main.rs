// The operations of `frac128` beside the same algorithms in Rust: nanoseconds of each, and ratios.
mod fraction;
mod gcd;
mod wide;

use fraction::{Frac, Passed, Term, add_scaled};
use std::hint::black_box;
use std::time::Instant;

unsafe extern "C" {
    fn rattle_sums(words: *const u64, len: usize, times: u64) -> u64;
    fn rattle_differences(words: *const u64, len: usize, times: u64) -> u64;
    fn rattle_products(words: *const u64, len: usize, times: u64) -> u64;
    fn rattle_quotients(words: *const u64, len: usize, times: u64) -> u64;
    fn rattle_comparisons(words: *const u64, len: usize, times: u64) -> u64;
    fn rattle_steps(words: *const u64, len: usize, times: u64) -> u64;
    fn rattle_products_and_differences(words: *const u64, len: usize, times: u64) -> u64;
    fn rattle_rows(
        row: *const u64,
        row_len: usize,
        other: *const u64,
        other_len: usize,
        times: u64,
    ) -> u64;
}

type Measured = unsafe extern "C" fn(*const u64, usize, u64) -> u64;

/// The words of a fraction: a sign, the halves of its numerator and of its denominator.
const WORDS: usize = 5;
const RUNS: usize = 40;
const TIMES: u64 = 40;

/// Xorshift.
struct Random(u64);

impl Random {
    fn next(&mut self) -> u64 {
        self.0 ^= self.0 << 13;
        self.0 ^= self.0 >> 7;
        self.0 ^= self.0 << 17;
        self.0
    }

    /// A number of just so many bits.
    fn bits(&mut self, bits: u32) -> u128 {
        let word = (self.next() as u128) << 64 | self.next() as u128;
        (word >> (128 - bits)) | 1 << (bits - 1)
    }

    /// The words of a fraction, whose head is twice the column and the sign.
    fn fraction(&mut self, column: u64, num_bits: u32, den_bits: u32) -> [u64; WORDS] {
        let num = self.bits(num_bits);
        let den = self.bits(den_bits);
        let head = column * 2 + self.next() % 2;
        [head, (num >> 64) as u64, num as u64, (den >> 64) as u64, den as u64]
    }
}

fn size(high: u64, low: u64) -> i128 {
    (((high as u128) << 64 | low as u128) & i128::MAX as u128) as i128
}

fn low(n: i128) -> u64 {
    n.unsigned_abs() as u64
}

fn fraction(words: &[u64]) -> Option<Frac> {
    let num = size(words[1], words[2]);
    let den = size(words[3], words[4]);
    if den == 0 {
        return None;
    }
    Frac::new(if words[0] % 2 == 1 { -num } else { num }, den)
}

fn fractions(words: &[u64]) -> Vec<Frac> {
    words.chunks_exact(WORDS).filter_map(fraction).collect()
}

fn terms(words: &[u64]) -> Vec<Term> {
    let term = |five: &[u64]| Some(Term { column: five[0] / 2, value: fraction(five)? });
    words.chunks_exact(WORDS).filter_map(term).collect()
}

fn mix(sum: u64, value: Result<Frac, Passed>) -> u64 {
    match value {
        Ok(value) => sum.wrapping_mul(31).wrapping_add(low(value.num())) ^ low(value.den()),
        Err(_) => sum.wrapping_add(1),
    }
}

/// One number of all pairs, `times` times.
#[inline(always)]
fn pairs(words: &[u64], times: u64, step: impl Fn(u64, Frac, Frac) -> u64) -> u64 {
    let all = fractions(words);
    let mut sum = 0;
    for _ in 0..times {
        for pair in all.chunks_exact(2) {
            sum = step(sum, pair[0], pair[1]);
        }
    }
    sum
}

fn sums(words: &[u64], times: u64) -> u64 {
    pairs(words, times, |sum, a, b| mix(sum, a.add(b)))
}

fn differences(words: &[u64], times: u64) -> u64 {
    pairs(words, times, |sum, a, b| mix(sum, a.sub(b)))
}

fn products(words: &[u64], times: u64) -> u64 {
    pairs(words, times, |sum, a, b| mix(sum, a.mul(b)))
}

fn quotients(words: &[u64], times: u64) -> u64 {
    pairs(words, times, |sum, a, b| if b.is_zero() { sum } else { mix(sum, a.div(b)) })
}

fn comparisons(words: &[u64], times: u64) -> u64 {
    pairs(words, times, |sum, a, b| {
        if a < b { sum.wrapping_add(1) } else { sum.wrapping_mul(31) }
    })
}

/// One number of all threes, `times` times.
#[inline(always)]
fn threes(words: &[u64], times: u64, step: impl Fn(u64, Frac, Frac, Frac) -> u64) -> u64 {
    let all = fractions(words);
    let mut sum = 0;
    for _ in 0..times {
        for three in all.chunks_exact(3) {
            sum = step(sum, three[0], three[1], three[2]);
        }
    }
    sum
}

fn steps(words: &[u64], times: u64) -> u64 {
    threes(words, times, |sum, x, a, b| mix(sum, x.less_product(a, b)))
}

fn difference_with_product(x: Frac, a: Frac, b: Frac) -> Result<Frac, Passed> {
    x.sub(a.mul(b)?)
}

fn products_and_differences(words: &[u64], times: u64) -> u64 {
    threes(words, times, |sum, x, a, b| mix(sum, difference_with_product(x, a, b)))
}

/// The words of a fraction that is a text.
fn words_of(text: &str) -> Option<[u64; WORDS]> {
    let (num, den) = text.split_once('/')?;
    let num: i128 = num.parse().ok()?;
    let den: u128 = den.parse().ok()?;
    let size = num.unsigned_abs();
    let head = (num < 0) as u64;
    Some([head, (size >> 64) as u64, size as u64, (den >> 64) as u64, den as u64])
}

/// The lines of a file that `operands.py` wrote, by their names.
fn groups(lines: &str) -> Vec<(&str, Vec<u64>)> {
    let mut all: Vec<(&str, Vec<u64>)> = Vec::new();
    for (name, numbers) in lines.lines().filter_map(|line| line.split_once(": ")) {
        if all.last().is_none_or(|(last, _)| *last != name) {
            all.push((name, Vec::new()));
        }
        let words = numbers.split(' ').filter_map(words_of).flatten();
        all.last_mut().expect("one was pushed").1.extend(words);
    }
    all
}

/// Sums and steps, and each step beside its product and its difference.
fn compare_groups(lines: &str) {
    for (name, words) in groups(lines) {
        let measured = |f: Measured| {
            let words = &words;
            move |times| unsafe { f(words.as_ptr(), words.len(), times) }
        };
        if name.starts_with("sum") {
            let count = words.len() / (2 * WORDS);
            compare(name, count, measured(rattle_sums), |times| sums(&words, times));
        } else {
            let count = words.len() / (3 * WORDS);
            compare(name, count, measured(rattle_steps), |times| steps(&words, times));
            let both = measured(rattle_products_and_differences);
            compare("  its product and difference", count, both, |times| {
                products_and_differences(&words, times)
            });
        }
    }
}

fn rows(row: &[u64], other: &[u64], times: u64) -> u64 {
    let row = terms(row);
    let other = terms(other);
    let weight = row[0].value;
    let mut sum = 0u64;
    for _ in 0..times {
        match add_scaled(&row, weight, &other) {
            Ok(all) => {
                for term in &all {
                    sum = sum.wrapping_add(term.column ^ low(term.value.den()));
                }
            }
            Err(_) => sum = sum.wrapping_add(1),
        }
    }
    sum
}

/// Prints the least time of each, in nanoseconds an operation. The two take turns, so that what else
/// the machine does falls on both.
fn compare(name: &str, count: usize, rattle: impl Fn(u64) -> u64, rust: impl Fn(u64) -> u64) {
    // Without the time that it takes to read the words.
    let timed = |f: &dyn Fn(u64) -> u64, times: u64| {
        let start = Instant::now();
        let answer = black_box(f(black_box(times)));
        (start.elapsed().as_nanos() as f64, answer)
    };
    let mut best = [f64::MAX; 4];
    let mut answers = [0; 2];
    for _ in 0..RUNS {
        for (k, f) in [&rattle as &dyn Fn(u64) -> u64, &rust].into_iter().enumerate() {
            let (all, answer) = timed(f, TIMES);
            let (none, _) = timed(f, 0);
            best[k] = best[k].min(all);
            best[k + 2] = best[k + 2].min(none);
            answers[k] = answer;
        }
    }
    let each = |k: usize| (best[k] - best[k + 2]) / (count as f64 * TIMES as f64);
    let (ours, theirs) = (each(0), each(1));
    let note = if answers[0] == answers[1] { "" } else { "   DIFFERENT ANSWERS" };
    println!("{name:34} Rattle {ours:7.1}   Rust {theirs:7.1}   ratio {:.2}{note}", ours / theirs);
}

fn main() {
    let mut random = Random(88172645463325252);
    let pairs = 1000;
    let operations: [(&str, Measured, fn(&[u64], u64) -> u64); 5] = [
        ("add", rattle_sums, sums),
        ("sub", rattle_differences, differences),
        ("mul", rattle_products, products),
        ("div", rattle_quotients, quotients),
        ("cmp", rattle_comparisons, comparisons),
    ];
    for (name, measured, rust) in operations {
        for (num_bits, den_bits) in [(16, 1), (8, 8), (16, 16), (31, 31), (60, 60), (100, 100)] {
            let words: Vec<u64> =
                (0..2 * pairs).flat_map(|_| random.fraction(0, num_bits, den_bits)).collect();
            compare(
                &format!("{name}, {num_bits} over {den_bits} bits"),
                pairs,
                |times| unsafe { measured(words.as_ptr(), words.len(), times) },
                |times| rust(&words, times),
            );
        }
    }
    let entries = 200;
    for (num_bits, den_bits) in [(8, 1), (8, 4), (16, 8), (31, 20)] {
        let mut row = || {
            let mut column = 0;
            let mut words = Vec::new();
            for _ in 0..entries {
                column += 1 + random.next() % 3;
                words.extend(random.fraction(column, num_bits, den_bits));
            }
            words
        };
        let (row, other): (Vec<u64>, Vec<u64>) = (row(), row());
        compare(
            &format!("row entry, {num_bits} over {den_bits} bits"),
            2 * entries,
            |times| unsafe {
                rattle_rows(row.as_ptr(), row.len(), other.as_ptr(), other.len(), times)
            },
            |times| rows(&row, &other, times),
        );
    }
    if let Some(path) = std::env::args().nth(1) {
        compare_groups(&std::fs::read_to_string(path).expect("a file of operands.py"));
    }
}
