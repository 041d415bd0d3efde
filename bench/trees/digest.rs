// Numbers that depend on all that was read or built, as those of the library.
use crate::fraction::{Frac, Term};
use crate::mix::with;
use crate::stoch::{Entry, Sets, Stoch};
use crate::tree::Program;

fn low(n: i128) -> u64 {
    n.unsigned_abs() as u64
}

pub fn with_value(sum: u64, value: Frac) -> u64 {
    let sign = if value.num() < 0 { 1 } else { 0 };
    with(with(with(sum, sign), low(value.num())), low(value.den()))
}

fn with_option(sum: u64, value: Option<Frac>) -> u64 {
    match value {
        Some(value) => with_value(with(sum, 1), value),
        None => with(sum, 0),
    }
}

fn with_number(sum: u64, number: Option<u32>) -> u64 {
    with(sum, number.map_or(0, |number| number as u64 + 1))
}

pub fn with_name(sum: u64, name: &[u8]) -> u64 {
    name.iter().fold(with(sum, name.len() as u64), |sum, byte| with(sum, *byte as u64))
}

fn with_terms(sum: u64, terms: &[Term]) -> u64 {
    terms.iter().fold(with(sum, terms.len() as u64), |sum, term| with_value(with(sum, term.column), term.value))
}

pub fn with_entry(sum: u64, entry: Entry) -> u64 {
    match entry {
        Entry::Cost { column } => with(with(sum, 1), column as u64),
        Entry::Matrix { row, column } => with(with(with(sum, 2), row as u64), column as u64),
        Entry::Rhs { row } => with(with(sum, 3), row as u64),
    }
}

fn with_sets(sum: u64, sets: &Sets) -> u64 {
    sets.iter().fold(with(sum, sets.len() as u64), |sum, (entry, value)| with_value(with_entry(sum, *entry), *value))
}

pub fn of_cases(stoch: &Stoch) -> u64 {
    let mut sum = 0;
    match stoch {
        Stoch::Blocks(blocks) => {
            for block in blocks {
                sum = with(with(sum, block.stage as u64), block.cases.len() as u64);
                for case in &block.cases {
                    sum = with_sets(with_value(sum, case.probability), &case.sets);
                }
            }
        }
        Stoch::Scenarios(branches) => {
            for branch in branches {
                sum = with_number(with_name(sum, &branch.name), branch.parent);
                sum = with_value(with(sum, branch.stage as u64), branch.probability);
                sum = with_sets(sum, &branch.sets);
            }
        }
    }
    sum
}

pub fn of_program(program: &Program) -> u64 {
    let mut sum = with_name(with_name(0, &program.objective), &program.rhs);
    for name in &program.periods {
        sum = with_name(sum, name);
    }
    for column in &program.columns {
        sum = with(with_name(sum, &column.name), column.stage as u64);
        sum = with_option(with_option(sum, column.lower), column.upper);
    }
    for row in &program.rows {
        sum = with(with_name(sum, &row.name), row.stage as u64);
        sum = with_option(with(sum, row.kind as u64), row.range);
    }
    for node in program.nodes.iter().flatten() {
        sum = with_number(with(sum, node.stage as u64), node.parent);
        sum = with_terms(sum, &node.cost);
        for row in &node.rows {
            sum = with_terms(with(sum, row.row as u64), &row.entries);
            sum = with_option(with_option(sum, row.low), row.high);
        }
    }
    for scenario in &program.scenarios {
        sum = with_value(with_name(sum, &scenario.name), scenario.probability);
        sum = scenario.path.iter().fold(sum, |sum, node| with(sum, *node as u64));
    }
    sum
}
