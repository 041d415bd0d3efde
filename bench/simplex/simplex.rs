// The two-phase path with Bland's rule in Rust, by the steps of `simplex_core` and with its row
// representation: sparse rows that merge into a spare buffer and are copied back at their size.
use crate::fraction::{Frac, Passed, Term};
use std::cmp::Ordering;

struct Line {
    entries: Vec<Term>,
    right: Frac,
}

struct Row {
    basic: u64,
    line: Line,
}

struct Work {
    zero: Frac,
    spare: Vec<Term>,
    pivots: u64,
    /// Entries of the rows that were updated and of those that were taken away.
    merged: u64,
}

struct Tableau {
    rows: Vec<Row>,
    objective: Vec<Term>,
    work: Work,
}

pub struct Program {
    pub columns: u64,
    pub rows: Vec<Vec<Term>>,
    pub right: Vec<Frac>,
    pub cost: Vec<Term>,
}

pub enum Outcome {
    Optimal { point: Vec<Term>, duals: Vec<Frac> },
    Infeasible { duals: Vec<Frac> },
    Unbounded { point: Vec<Term>, ray: Vec<Term> },
}

pub fn whole(n: i128) -> Frac {
    Frac::new(n, 1).unwrap()
}

/// The entry of a column, found by bisection.
fn find(entries: &[Term], column: u64, zero: Frac) -> Frac {
    let mut first = 0;
    let mut end = entries.len();
    while first < end {
        let middle = first + (end - first) / 2;
        if entries[middle].column < column {
            first = middle + 1;
        } else {
            end = middle;
        }
    }
    match entries.get(first) {
        Some(term) if term.column == column => term.value,
        _ => zero,
    }
}

/// The quotient; a number divided by 1 is the number itself.
#[inline(always)]
fn over(value: Frac, by: Frac) -> Result<Frac, Passed> {
    if by.is_one() { Ok(value) } else { value.div(by) }
}

fn push(done: &mut Vec<Term>, column: u64, value: Frac) {
    if !value.is_zero() {
        done.push(Term { column, value });
    }
}

fn subtract_terms(
    factor: Frac,
    row: &[Term],
    pivot: &[Term],
    done: &mut Vec<Term>,
    zero: Frac,
) -> Result<(), Passed> {
    done.reserve(row.len() + pivot.len());
    let (mut i, mut j) = (0, 0);
    while i < row.len() && j < pivot.len() {
        let (x, y) = (row[i], pivot[j]);
        if x.column < y.column {
            done.push(x);
            i += 1;
        } else if y.column < x.column {
            push(done, y.column, zero.less_product(factor, y.value)?);
            j += 1;
        } else {
            push(done, x.column, x.value.less_product(factor, y.value)?);
            i += 1;
            j += 1;
        }
    }
    done.extend_from_slice(&row[i..]);
    while j < pivot.len() {
        let y = pivot[j];
        push(done, y.column, zero.less_product(factor, y.value)?);
        j += 1;
    }
    Ok(())
}

/// Takes `factor` times the pivot's entries away.
fn subtract(
    entries: &mut Vec<Term>,
    factor: Frac,
    pivot: &[Term],
    work: &mut Work,
) -> Result<(), Passed> {
    work.merged += (entries.len() + pivot.len()) as u64;
    work.spare.clear();
    subtract_terms(factor, entries, pivot, &mut work.spare, work.zero)?;
    entries.clear();
    entries.reserve_exact(work.spare.len());
    entries.extend_from_slice(&work.spare);
    entries.shrink_to_fit();
    Ok(())
}

impl Line {
    fn divide(&mut self, by: Frac) -> Result<(), Passed> {
        for term in &mut self.entries {
            term.value = over(term.value, by)?;
        }
        self.right = over(self.right, by)?;
        Ok(())
    }

    fn clear(&mut self, factor: Frac, pivot: &Line, work: &mut Work) -> Result<(), Passed> {
        subtract(&mut self.entries, factor, &pivot.entries, work)?;
        self.right = self.right.less_product(factor, pivot.right)?;
        Ok(())
    }
}

enum End {
    Done,
    Open(u64),
}

impl Tableau {
    /// The costs of phase one less each row in order, in one pass: the numbers stand by column.
    fn price_first(&mut self, first: usize) -> Result<(), Passed> {
        let one = whole(1);
        let mut values = vec![self.work.zero; first];
        values.resize(first + self.rows.len(), one);
        for row in &self.rows {
            for term in &row.line.entries {
                let value = &mut values[term.column as usize];
                *value = value.less_product(one, term.value)?;
            }
        }
        let terms = values.iter().zip(0..).filter(|(value, _)| !value.is_zero());
        self.objective = terms.map(|(&value, column)| Term { column, value }).collect();
        Ok(())
    }

    fn price(&mut self, cost: &[Term]) -> Result<(), Passed> {
        let zero = self.work.zero;
        let mut objective = cost.to_vec();
        for row in &self.rows {
            let factor = find(cost, row.basic, zero);
            if !factor.is_zero() {
                subtract(&mut objective, factor, &row.line.entries, &mut self.work)?;
            }
        }
        self.objective = objective;
        Ok(())
    }

    fn pivot(&mut self, column: u64, index: usize) -> Result<(), Passed> {
        let mut pivot = self.rows.remove(index).line;
        pivot.divide(find(&pivot.entries, column, self.work.zero))?;
        for row in &mut self.rows {
            let factor = find(&row.line.entries, column, self.work.zero);
            if !factor.is_zero() {
                row.line.clear(factor, &pivot, &mut self.work)?;
            }
        }
        let factor = find(&self.objective, column, self.work.zero);
        if !factor.is_zero() {
            subtract(&mut self.objective, factor, &pivot.entries, &mut self.work)?;
        }
        self.rows.insert(index, Row { basic: column, line: pivot });
        self.work.pivots += 1;
        Ok(())
    }

    fn leave(&self, column: u64) -> Result<Option<usize>, Passed> {
        let mut best: Option<(usize, Frac, u64)> = None;
        for (index, row) in self.rows.iter().enumerate() {
            let value = find(&row.line.entries, column, self.work.zero);
            if value.num() > 0 {
                let ratio = over(row.line.right, value)?;
                let is_better = match best {
                    None => true,
                    Some((_, held, basic)) => match ratio.cmp(&held) {
                        Ordering::Less => true,
                        Ordering::Equal => row.basic < basic,
                        Ordering::Greater => false,
                    },
                };
                if is_better {
                    best = Some((index, ratio, row.basic));
                }
            }
        }
        Ok(best.map(|(index, _, _)| index))
    }

    fn follow(&mut self, columns: u64) -> Result<End, Passed> {
        loop {
            let enters = |term: &&Term| term.value.num() < 0 && term.column < columns;
            let Some(term) = self.objective.iter().find(enters) else {
                return Ok(End::Done);
            };
            let column = term.column;
            match self.leave(column)? {
                None => return Ok(End::Open(column)),
                Some(index) => self.pivot(column, index)?,
            }
        }
    }

    fn drive(&mut self, columns: u64) -> Result<(), Passed> {
        for index in 0..self.rows.len() {
            let row = &self.rows[index];
            if row.basic >= columns {
                let column = row.line.entries.iter().map(|t| t.column).find(|&c| c < columns);
                if let Some(column) = column {
                    self.pivot(column, index)?;
                }
            }
        }
        Ok(())
    }

    fn point(&self) -> Vec<Term> {
        let mut terms: Vec<Term> = Vec::new();
        for row in &self.rows {
            place(&mut terms, row.basic, row.line.right);
        }
        terms
    }

    fn negative(&self, entries: &[Term], column: u64) -> Result<Frac, Passed> {
        self.work.zero.sub(find(entries, column, self.work.zero))
    }

    fn ray(&self, column: u64) -> Result<Vec<Term>, Passed> {
        let mut terms = vec![Term { column, value: whole(1) }];
        for row in &self.rows {
            place(&mut terms, row.basic, self.negative(&row.line.entries, column)?);
        }
        Ok(terms)
    }
}

fn place(terms: &mut Vec<Term>, column: u64, value: Frac) {
    if !value.is_zero() {
        let at = terms.iter().position(|t| t.column >= column).unwrap_or(terms.len());
        terms.insert(at, Term { column, value });
    }
}

pub fn solve(program: &Program) -> (Result<Outcome, Passed>, u64, u64) {
    let columns = program.columns;
    let one = whole(1);
    let mut rows = Vec::new();
    for (index, form) in program.rows.iter().enumerate() {
        let column = columns + index as u64;
        let mut entries = form.clone();
        entries.push(Term { column, value: one });
        rows.push(Row { basic: column, line: Line { entries, right: program.right[index] } });
    }
    let work = Work { zero: whole(0), spare: Vec::new(), pivots: 0, merged: 0 };
    let mut tableau = Tableau { rows, objective: Vec::new(), work };
    let outcome = answer(program, &mut tableau);
    (outcome, tableau.work.pivots, tableau.work.merged)
}

fn answer(program: &Program, tableau: &mut Tableau) -> Result<Outcome, Passed> {
    let columns = program.columns;
    let artificial = columns..columns + program.rows.len() as u64;
    tableau.price_first(columns as usize)?;
    tableau.follow(columns)?;
    let is_above = |row: &Row| row.basic >= columns && row.line.right.num() > 0;
    if tableau.rows.iter().any(is_above) {
        let mut duals = Vec::new();
        for column in artificial {
            duals.push(whole(1).sub(find(&tableau.objective, column, whole(0)))?);
        }
        return Ok(Outcome::Infeasible { duals });
    }
    tableau.drive(columns)?;
    tableau.price(&program.cost)?;
    match tableau.follow(columns)? {
        End::Done => {
            let mut duals = Vec::new();
            for column in artificial {
                duals.push(tableau.negative(&tableau.objective, column)?);
            }
            Ok(Outcome::Optimal { point: tableau.point(), duals })
        }
        End::Open(column) => {
            Ok(Outcome::Unbounded { point: tableau.point(), ray: tableau.ray(column)? })
        }
    }
}
