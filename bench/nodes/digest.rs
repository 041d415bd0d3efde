// Numbers that depend on all that is found, as those of the proved library.
use crate::cuts::{Cut, CutKind};
use crate::fraction::{Frac, Passed, Term};
use crate::mix::with;
use crate::node::Solved;

fn with_size(sum: u64, size: u128) -> u64 {
    with(with(sum, size as u64), (size >> 64) as u64)
}

fn with_value(sum: u64, value: Frac) -> u64 {
    let sum = with(sum, u64::from(value.num() < 0));
    with_size(with_size(sum, value.num().unsigned_abs()), value.den().unsigned_abs())
}

/// A little of a number, where it takes no longer than a look.
pub fn of_number(sum: u64, value: Frac) -> u64 {
    with(sum, value.num().unsigned_abs() as u64)
}

fn with_form(sum: u64, form: &[Term]) -> u64 {
    let sum = with(sum, form.len() as u64);
    form.iter().fold(sum, |sum, term| with_value(with(sum, term.column), term.value))
}

fn with_passed(sum: u64, passed: &Passed) -> u64 {
    with_value(with_value(with(sum, passed.op as u64), passed.a), passed.b)
}

/// The cut with its record and what it rests on.
fn with_cut(sum: u64, cut: &Cut) -> u64 {
    let sum = with(sum, u64::from(cut.source.kind == CutKind::Ray));
    let used = &cut.source.used;
    let sum = used.iter().fold(with_form(sum, &cut.source.multipliers), |sum, one| {
        with_value(with_value(sum, one.weight), one.cut.constant)
    });
    with_form(with_value(with(sum, cut.support.len() as u64), cut.constant), &cut.form)
}

pub fn of_solved(sum: u64, solved: &Result<Solved, Passed>) -> u64 {
    match solved {
        Ok(Solved::Point { point, value, cut }) => {
            let sum = with_value(with_form(with(sum, 1), point), *value);
            cut.iter().fold(sum, |sum, cut| with_cut(sum, cut))
        }
        Ok(Solved::NoPoint { cut }) => with_cut(with(sum, 2), cut),
        Ok(Solved::Loose) => with(sum, 3),
        Err(passed) => with_passed(with(sum, 4), passed),
        Ok(Solved::NotGood) => with(sum, 5),
    }
}

/// What is found of a task whose path has more pivots than are allowed.
pub fn of_pivots_ended(sum: u64) -> u64 {
    with(sum, 6)
}

/// Whether the offered cut was added, or what passed.
pub fn of_offer(sum: u64, offer: &Result<bool, Passed>) -> u64 {
    match offer {
        Ok(true) => with(sum, 1),
        Ok(false) => with(sum, 2),
        Err(passed) => with_passed(with(sum, 4), passed),
    }
}
