// The making of cuts from their records in Rust, as the proved library does it.
use crate::cuts::{Cut, Record, Used};
use crate::digest::of_number;
use crate::words::Solution;
use std::sync::Arc;

/// The record once more.
fn copy(record: &Record) -> Record {
    let used = record.used.iter().map(|one| Used { weight: one.weight, cut: Arc::clone(&one.cut) }).collect();
    Record { node: record.node, kind: record.kind, multipliers: record.multipliers.clone(), used }
}

/// The cuts of tasks from their records, so many times; without `is_made` the records are copied and that is all.
pub fn of_cuts(solutions: &[Solution], is_made: bool, times: u64) -> u64 {
    let mut sum = 0;
    for (task, cut) in solutions {
        for _ in 0..times {
            let source = copy(&cut.source);
            if is_made && let Ok(cut) = Cut::of(source, &task.datum) {
                sum = of_number(sum, cut.constant);
            }
        }
    }
    sum
}
