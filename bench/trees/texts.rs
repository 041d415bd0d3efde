// The files that are read: cores in periods, and what may come.
use crate::random::Random;
use crate::stoch::Periods;
use std::fmt::Write;

pub struct Texts {
    pub core: String,
    pub time: String,
    pub stoch: String,
    /// What the time file means.
    pub periods: Periods,
}

impl Random {
    /// A whole number, a decimal or a fraction.
    pub fn value(&mut self) -> String {
        match self.below(4) {
            0 => format!("{}", 1 + self.below(999)),
            1 => format!("{}.{}", self.below(99), 1 + self.below(9)),
            2 => format!("-{}.{:02}", self.below(9), 1 + self.below(98)),
            _ => format!("{}/{}", 1 + self.below(99), 2 + self.below(8)),
        }
    }
}

pub fn random() -> Random {
    Random(88172645463325252)
}

/// So many rows and columns a period has.
#[derive(Clone, Copy)]
struct Part {
    rows: usize,
    columns: usize,
}

const WIDE: [Part; 5] = [Part { rows: 200, columns: 200 }; 5];
const NARROW: [Part; 5] = [Part { rows: 10, columns: 10 }; 5];

fn row(stage: usize, number: usize) -> String {
    format!("R{}_{number:03}", stage + 1)
}

fn column(stage: usize, number: usize) -> String {
    format!("C{}_{number:03}", stage + 1)
}

/// The files without cases. The rows of a column are given by their periods and their numbers in these.
fn without_cases(parts: &[Part], rows_of: impl Fn(usize, usize) -> Vec<(usize, usize)>) -> Texts {
    let mut random = random();
    let mut rows = String::new();
    let mut columns = String::new();
    let mut rhs = String::new();
    let mut ranges = String::new();
    let mut time = String::from("TIME BENCH\nPERIODS\n");
    let mut periods = Periods { names: Vec::new(), column_stage: Vec::new(), row_stage: Vec::new() };
    for (stage, part) in parts.iter().enumerate() {
        for number in 0..part.rows {
            let kind = ["L", "G", "E"][number % 3];
            writeln!(rows, " {kind} {}", row(stage, number)).unwrap();
            writeln!(rhs, "    RHS {} {}", row(stage, number), random.value()).unwrap();
            if number % 4 == 0 {
                writeln!(ranges, "    RNG {} {}", row(stage, number), random.value()).unwrap();
            }
            periods.row_stage.push(stage as u32);
        }
        for number in 0..part.columns {
            let name = column(stage, number);
            writeln!(columns, "    {name} COST {}", random.value()).unwrap();
            for (stage, number) in rows_of(stage, number) {
                writeln!(columns, "    {name} {} {}", row(stage, number), random.value()).unwrap();
            }
            periods.column_stage.push(stage as u32);
        }
        let first = if part.rows == 0 { String::from("COST") } else { row(stage, 0) };
        writeln!(time, "    {} {first} P{}", column(stage, 0), stage + 1).unwrap();
        periods.names.push(format!("P{}", stage + 1).into_bytes());
    }
    time.push_str("ENDATA\n");
    let core = format!("NAME BENCH\nROWS\n N COST\n{rows}COLUMNS\n{columns}RHS\n{rhs}RANGES\n{ranges}ENDATA\n");
    Texts { core, time, stoch: String::new(), periods }
}

/// Each column has three rows of its period and one of the next.
fn in_band(parts: &[Part]) -> Texts {
    without_cases(parts, |stage, number| {
        let own = (0..3).map(|entry| (stage, (number * 7 + entry * 3) % parts[stage].rows));
        let next = parts.get(stage + 1).map(|part| (stage + 1, number % part.rows));
        own.chain(next).collect()
    })
}

/// A line of two values.
fn pair(text: &mut String, random: &mut Random, column: &str, first: &str, second: &str) {
    let (one, other) = (random.value(), random.value());
    writeln!(text, "    {column:7} {first:7} {one:>8} {second:7} {other:>8}").unwrap();
}

/// The line that begins a scenario. The probabilities add up to a little less than 1.
fn head(text: &mut String, number: usize, parent: Option<usize>, stage: usize) {
    let parent = parent.map_or(String::from("ROOT"), |parent| format!("SCEN{parent:04}"));
    let weight = 97 + number % 7;
    writeln!(text, " SC SCEN{number:04} {parent:8} 0.{weight:06} P{}", stage + 1).unwrap();
}

/// So many lines of values of a scenario, from its branch period on.
fn values(text: &mut String, random: &mut Random, parts: &[Part], scenario: usize, stage: usize, lines: usize) {
    for line in 0..lines {
        let at = stage + line % (parts.len() - stage);
        let (rows, columns) = (parts[at].rows, parts[at].columns);
        let column = column(at, (scenario * 13 + line * 11) % columns);
        let first = scenario * 17 + line * 2;
        let (first, second) = (row(at, first % rows), row(at, (first + 1) % rows));
        match line % 4 {
            0 | 1 => pair(text, random, "RHS", &first, &second),
            2 => pair(text, random, &column, "COST", &first),
            _ => pair(text, random, &column, &first, &second),
        }
    }
}

/// Scenarios of a tree in which each node has ten children, each with so many lines of values. Each is the child of the first
/// scenario that has its node in the period before. The last fifth adds to its parents' values.
fn tree(parts: &[Part], lines: usize) -> Texts {
    let mut random = random();
    let mut texts = in_band(parts);
    let last = parts.len() - 1;
    let count = 10usize.pow(last as u32);
    let text = &mut texts.stoch;
    text.push_str("STOCH BENCH\nSCENARIOS DISCRETE REPLACE\n");
    for scenario in 0..count {
        if scenario == count / 5 * 4 {
            text.push_str("SCENARIOS DISCRETE ADD\n");
        }
        let (mut stage, mut unit) = (last, 1);
        while stage > 1 && scenario / unit % 10 == 0 {
            stage -= 1;
            unit *= 10;
        }
        let parent = if scenario == 0 { None } else { Some(scenario - scenario / unit % 10 * unit) };
        head(text, scenario, parent, stage);
        values(text, &mut random, parts, scenario, stage, lines);
    }
    text.push_str("ENDATA\n");
    texts
}

pub fn scenarios() -> Texts {
    tree(&WIDE, 17)
}

/// Scenarios in so many chains by turns: each adds to the values of the one that many before it.
fn chains(count: usize) -> Texts {
    let mut random = random();
    let mut texts = in_band(&WIDE);
    let text = &mut texts.stoch;
    text.push_str("STOCH BENCH\nSCENARIOS DISCRETE ADD\n");
    for scenario in 0..10_000usize {
        head(text, scenario, scenario.checked_sub(count), 1);
        values(text, &mut random, &WIDE, scenario, 1, 17);
    }
    text.push_str("ENDATA\n");
    texts
}

pub fn two_chains() -> Texts {
    chains(2)
}

pub fn sixteen_chains() -> Texts {
    chains(16)
}

pub fn seventeen_chains() -> Texts {
    chains(17)
}

pub fn hundred_chains() -> Texts {
    chains(100)
}

pub fn branching() -> Texts {
    tree(&NARROW, 4)
}

/// For each of these periods a block of so many cases, in which all right-hand sides, all costs, and so many pairs of entries of each
/// column change.
fn in_blocks(parts: &[Part], stages: &[usize], cases: usize, pairs: usize) -> Texts {
    let mut random = random();
    let mut texts = in_band(parts);
    let text = &mut texts.stoch;
    text.push_str("STOCH BENCH\nBLOCKS DISCRETE\n");
    for stage in stages.iter().copied() {
        let Part { rows, columns } = parts[stage];
        for _ in 0..cases {
            writeln!(text, " BL BLOCK{stage} P{} 1/{cases}", stage + 1).unwrap();
            for first in (0..rows).step_by(2) {
                pair(text, &mut random, "RHS", &row(stage, first), &row(stage, first + 1));
            }
            for number in 0..columns {
                let name = column(stage, number);
                pair(text, &mut random, &name, "COST", &row(stage, rows - 1));
                for first in (0..pairs).map(|pair| 2 * pair) {
                    pair(text, &mut random, &name, &row(stage, first), &row(stage, first + 1));
                }
            }
        }
    }
    text.push_str("ENDATA\n");
    texts
}

pub fn blocks() -> Texts {
    in_blocks(&WIDE, &[1, 2, 3, 4], 10, 21)
}

pub fn short_blocks() -> Texts {
    in_blocks(&WIDE, &[1, 4], 100, 3)
}

pub fn four_blocks() -> Texts {
    in_blocks(&NARROW, &[1, 2, 3, 4], 10, 1)
}

/// Right-hand sides and some costs with two hundred cases each.
pub fn indep() -> Texts {
    let mut random = random();
    let mut texts = in_band(&WIDE);
    let last = WIDE.len() - 1;
    let rhs =
        (1..=last).flat_map(|stage| (0..WIDE[stage].rows).map(move |number| ("RHS".into(), row(stage, number), stage)));
    let costs = (0..200).map(|number| (column(last, number), "COST".into(), last));
    let entries: Vec<(String, String, usize)> = rhs.chain(costs).collect();
    let text = &mut texts.stoch;
    text.push_str("STOCH BENCH\nINDEP DISCRETE\n");
    for (column, row, stage) in entries {
        for case in 0..200 {
            let value = random.value();
            let chance = if case % 2 == 0 { "0.004" } else { "0.006" };
            writeln!(text, "    {column:8} {row:8} {value:>8} P{} {chance}", stage + 1).unwrap();
        }
    }
    text.push_str("ENDATA\n");
    texts
}

/// Adds as many scenarios as there may be, with nodes of their own from the second of three periods on.
fn with_scenarios(mut texts: Texts) -> Texts {
    let mut random = random();
    let text = &mut texts.stoch;
    text.push_str("STOCH BENCH\nSCENARIOS DISCRETE\n");
    for scenario in 0..9999 {
        head(text, scenario, None, 1);
        writeln!(text, "    RHS R2_000 {}", random.value()).unwrap();
        writeln!(text, "    RHS R3_000 {}", random.value()).unwrap();
    }
    text.push_str("ENDATA\n");
    texts
}

/// Three periods with a column each.
pub fn three_periods() -> Texts {
    let parts = [Part { rows: 0, columns: 1 }, Part { rows: 1, columns: 1 }, Part { rows: 1, columns: 1 }];
    with_scenarios(without_cases(&parts, |stage, _| match stage {
        0 => vec![(1, 0)],
        1 => vec![(1, 0), (2, 0)],
        _ => vec![(2, 0)],
    }))
}

/// Three periods with ten rows and ten columns each.
pub fn three_narrow() -> Texts {
    with_scenarios(in_band(&NARROW[..3]))
}

/// Six periods with ten rows and ten columns each; four cases of each but the first.
pub fn six_narrow() -> Texts {
    in_blocks(&[NARROW[0]; 6], &[1, 2, 3, 4, 5], 4, 1)
}

/// A hundred rows of fifty entries at each of as many nodes as there may be.
pub fn large_nodes() -> Texts {
    let mut random = random();
    let parts = [Part { rows: 0, columns: 1 }, Part { rows: 100, columns: 100 }];
    let mut texts = without_cases(&parts, |stage, number| {
        (0..100 * stage).filter(|row| (row + number) % 2 == 0).map(|row| (1, row)).collect()
    });
    let text = &mut texts.stoch;
    text.push_str("STOCH BENCH\nSCENARIOS DISCRETE\n");
    for scenario in 0..1990 {
        writeln!(text, " SC SCEN{scenario:04} ROOT 1/1990 P2").unwrap();
        for line in 0..10 {
            let at = (scenario * 7 + line * 2) % 100;
            pair(text, &mut random, "RHS", &row(1, at), &row(1, (at + 1) % 100));
            pair(text, &mut random, &column(1, at), "COST", &row(1, at));
        }
    }
    text.push_str("ENDATA\n");
    texts
}
