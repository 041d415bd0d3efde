// Measures `read_core` beside the same reader in Rust, in one process, or the memory that it takes.
#[path = "../fractions/fraction.rs"]
#[allow(dead_code)]
mod fraction;
#[path = "../fractions/gcd.rs"]
mod gcd;
mod names;
mod number;
#[path = "../random.rs"]
mod random;
mod reader;
#[path = "../fractions/wide.rs"]
mod wide;

use fraction::Frac;
use random::Random;
use reader::{Core, Kind, read_core};
use std::fmt::Write;
use std::hint::black_box;
use std::time::Instant;

unsafe extern "C" {
    fn rattle_read(text: *const u8, len: usize, times: u64) -> u64;
}

/// Nanoseconds for each text.
const TIME: f64 = 6e9;
const ROWS: u64 = 4000;
const COLUMNS: u64 = 4000;
/// Entries of a column: 100,000 in all.
const ENTRIES: u64 = 25;

#[derive(Clone, Copy)]
enum Style {
    Whole,
    Decimal,
    Fraction,
}

/// What a core with all sections is like.
#[derive(Clone, Copy)]
struct Shape {
    style: Style,
    /// Whether a column's entries come in rising order, or in none.
    is_rising: bool,
    /// Entries of a line.
    pairs: u64,
    /// Bytes of a name.
    width: usize,
    /// It has this part of the constraints, of the columns and so of the entries: 1 for all, 2 for half of them.
    part: u64,
}

/// One entry a line, and a little over 8,000,000 bytes.
const ONE_A_LINE: Shape = Shape { style: Style::Whole, is_rising: true, pairs: 1, width: 25, part: 1 };

/// Two entries a line, and longer names for as many bytes.
const TWO_A_LINE: Shape = Shape { style: Style::Decimal, is_rising: true, pairs: 2, width: 34, part: 1 };

/// A name of so many bytes: letters, and a number behind them.
fn name(letters: &str, number: u64, width: usize) -> String {
    format!("{letters}{number:00$}", width - letters.len())
}

fn number(random: &mut Random, style: Style) -> String {
    match style {
        Style::Whole => format!("{}", 1 + random.below(999)),
        Style::Decimal => format!("-{}.{:04}", random.below(99), 1 + random.below(9998)),
        Style::Fraction => format!("{}/{}", 1 + random.below(99_999), 1 + random.below(9_999)),
    }
}

fn core(shape: Shape) -> String {
    let mut random = Random(88172645463325252);
    let (row_count, column_count) = (ROWS / shape.part, COLUMNS / shape.part);
    let row_names: Vec<String> = (0..row_count).map(|row| name("ROW", row, shape.width)).collect();
    let column_names: Vec<String> = (0..column_count).map(|column| name("COLUMN", column, shape.width)).collect();
    let mut text = String::from("NAME          LARGE\nROWS\n N  COST\n");
    for (place, row) in row_names.iter().enumerate() {
        let kind = ["L", "G", "E"][place % 3];
        writeln!(text, " {kind}  {row}").unwrap();
    }
    text.push_str("COLUMNS\n");
    for (column, name) in (0..).zip(&column_names) {
        let cost = number(&mut random, shape.style);
        writeln!(text, "    {name}  COST  {cost:>12}").unwrap();
        let mut rows: Vec<u64> = (0..ENTRIES).map(|entry| (column * 7 + entry * 151) % row_count).collect();
        if shape.is_rising {
            rows.sort();
        }
        for pairs in rows.chunks(shape.pairs as usize) {
            write!(text, "    {name}").unwrap();
            for row in pairs {
                let value = number(&mut random, shape.style);
                write!(text, "  {}  {value:>12}", row_names[*row as usize]).unwrap();
            }
            text.push('\n');
        }
    }
    text.push_str("RHS\n");
    for row in &row_names {
        let value = number(&mut random, shape.style);
        writeln!(text, "    RHS  {row}  {value:>12}").unwrap();
    }
    text.push_str("RANGES\n");
    for row in &row_names[..row_names.len() / 4] {
        let value = number(&mut random, shape.style);
        writeln!(text, "    RANGE  {row}  {value:>12}").unwrap();
    }
    text.push_str("BOUNDS\n");
    for column in &column_names {
        writeln!(text, " LO BOUND  {column}  {:>12}", "-1000").unwrap();
        writeln!(text, " UP BOUND  {column}  {:>12}", "1000").unwrap();
    }
    text.push_str("ENDATA\n");
    text
}

/// One column with an entry in each constraint, in falling order, and others that are small.
fn long_columns() -> String {
    let mut text = String::from("ROWS\n N COST\n");
    for row in 0..ROWS {
        writeln!(text, " L ROW{row}").unwrap();
    }
    text.push_str("COLUMNS\n");
    for column in 0..ENTRIES {
        for row in (0..ROWS).rev() {
            writeln!(text, " COLUMN{column} ROW{row} 1").unwrap();
        }
    }
    text.push_str("ENDATA\n");
    text
}

/// As many N rows as fit, with short names.
fn free_rows() -> String {
    let digits = b"0123456789abcdefghijklmnopqrstuvwxyzABCDEFGHIJKLMNOPQRSTUVWXYZ";
    let mut text = String::from("ROWS\n");
    let mut row = 0;
    while text.len() < 8_388_000 {
        text.push_str(" N ");
        let mut left = row;
        loop {
            text.push(digits[left % 62] as char);
            left /= 62;
            if left == 0 {
                break;
            }
        }
        text.push('\n');
        row += 1;
    }
    text.push_str("COLUMNS\nENDATA\n");
    text
}

fn mix(sum: u64, column: u64, value: Frac) -> u64 {
    let low = |n: i128| n.unsigned_abs() as u64;
    sum.wrapping_mul(31)
        .wrapping_add(column ^ low(value.num()) ^ low(value.den()).wrapping_mul(7))
}

fn mix_option(sum: u64, value: Option<Frac>) -> u64 {
    match value {
        Some(value) => mix(sum, 1, value),
        None => sum.wrapping_mul(31),
    }
}

fn digest(sum: u64, core: &Core) -> u64 {
    black_box((&core.objective, &core.skipped, &core.rhs_set));
    let mut all = sum;
    for row in &core.rows {
        black_box((&row.name, row.kind == Kind::Less));
        all = mix_option(mix(all, 0, row.rhs), row.range);
    }
    for column in &core.columns {
        black_box(&column.name);
        all = mix_option(mix_option(mix(all, 0, column.cost), column.lower), column.upper);
        for term in &column.entries {
            all = mix(all, term.column, term.value);
        }
    }
    all
}

fn rust_read(text: &str, times: u64) -> u64 {
    let mut sum = 0u64;
    for _ in 0..times {
        sum = match read_core(black_box(text.as_bytes())) {
            Ok(core) => digest(sum, &core),
            Err((line, _)) => sum.wrapping_add(line as u64).wrapping_mul(31),
        };
    }
    sum
}

/// Prints the least time of each; the two take turns, so that what else the machine does falls on both.
fn compare(name: &str, text: &str) {
    let rattle = |times| unsafe { rattle_read(text.as_ptr(), text.len(), times) };
    let rust = |times| rust_read(text, times);
    let timed = |f: &dyn Fn(u64) -> u64| {
        let start = Instant::now();
        let answer = black_box(f(black_box(1)));
        (start.elapsed().as_nanos() as f64, answer)
    };
    let mut best = [f64::MAX; 2];
    let mut answers = [0; 2];
    let began = Instant::now();
    while (began.elapsed().as_nanos() as f64) < TIME {
        let (ours, one) = timed(&rattle);
        let (theirs, other) = timed(&rust);
        best = [best[0].min(ours), best[1].min(theirs)];
        answers = [one, other];
    }
    let note = if answers[0] == answers[1] { "" } else { "   DIFFERENT ANSWERS" };
    println!(
        "{name:33} {:9} bytes   Rattle {:7.1} ms  Rust {:7.1} ms  ratio {:.2}   Rattle {:5.2} ns a byte{note}",
        text.len(),
        best[0] / 1e6,
        best[1] / 1e6,
        best[0] / best[1],
        best[0] / text.len() as f64
    );
}

fn peak() -> u64 {
    let status = std::fs::read_to_string("/proc/self/status").unwrap();
    let line = status.lines().find(|line| line.starts_with("VmHWM")).unwrap();
    line.split_whitespace().nth(1).unwrap().parse::<u64>().unwrap() * 1024
}

/// Prints the most memory that the process held, less what it held before.
fn memory(name: &str, text: &str) {
    let before = peak();
    let sum = unsafe { rattle_read(text.as_ptr(), text.len(), 1) };
    let more = peak() - before;
    println!("{name:33} {:9} bytes   held at most {more:10} bytes more, {:.1} times ({sum:x})", text.len(), more as f64 / text.len() as f64);
}

fn main() {
    // The last two show how the time grows with the size.
    let texts: [(&str, fn() -> String); 8] = [
        ("whole numbers, one a line", || core(ONE_A_LINE)),
        ("decimals, two a line", || core(TWO_A_LINE)),
        ("fractions, two a line", || core(Shape { style: Style::Fraction, ..TWO_A_LINE })),
        ("whole numbers in any order", || core(Shape { is_rising: false, ..ONE_A_LINE })),
        ("columns of 4,000 entries, falling", long_columns),
        ("N rows alone", free_rows),
        ("half of the first", || core(Shape { part: 2, ..ONE_A_LINE })),
        ("a quarter of the first", || core(Shape { part: 4, ..ONE_A_LINE })),
    ];
    let wanted = std::env::args().nth(1);
    for (place, (name, text)) in texts.iter().enumerate() {
        match &wanted {
            None => compare(name, &text()),
            Some(number) if *number == place.to_string() => memory(name, &text()),
            Some(_) => {}
        }
    }
}
