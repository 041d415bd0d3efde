// The program of a node and what is found for it, in Rust, with the steps of `interval_form`, `slack_form`, `farkas_ray` and `node_lp`.
use crate::cuts::{Bounds, Cut, CutFault, CutKind, Datum, Record, Used, get, place_of, push_nonzero};
use crate::fraction::{Frac, Passed, Term};
use crate::rows::NodeRow;
use crate::simplex::{self, Outcome, whole};
use std::sync::Arc;

#[derive(Clone, Copy)]
enum Part {
    Above(Frac, u64),
    Below(Frac, u64),
    Free(u64),
}

#[derive(Clone, Copy, PartialEq)]
enum Sense {
    Less,
    Greater,
    Equal,
}

/// A row that is at most, at least or equal to its right side.
struct Limit {
    entries: Vec<Term>,
    sense: Sense,
    right: Frac,
}

pub struct Task {
    /// Whether costs, and the children's, count: not in a Feasible run.
    pub is_priced: bool,
    pub datum: Datum,
    pub trial: Vec<Term>,
    /// The cuts of each child's pool.
    pub children: Vec<Vec<Arc<Cut>>>,
}

pub enum Solved {
    Point { point: Vec<Term>, value: Frac, cut: Option<Arc<Cut>> },
    NoPoint { cut: Arc<Cut> },
    Loose,
    NotGood,
}

fn parts(columns: &[Bounds]) -> (Vec<Part>, u64) {
    let mut new = 0;
    let parts = columns
        .iter()
        .map(|bound| {
            let part = match (bound.lower, bound.upper) {
                (Some(lower), _) => Part::Above(lower, new),
                (None, Some(upper)) => Part::Below(upper, new),
                (None, None) => Part::Free(new),
            };
            new += if let Part::Free(_) = part { 2 } else { 1 };
            part
        })
        .collect();
    (parts, new)
}

fn shift(part: Part) -> Frac {
    match part {
        Part::Above(bound, _) | Part::Below(bound, _) => bound,
        Part::Free(_) => Frac::ZERO,
    }
}

fn push_spread(terms: &mut Vec<Term>, part: Part, value: Frac) {
    match part {
        Part::Above(_, column) => terms.push(Term { column, value }),
        Part::Below(_, column) => terms.push(Term { column, value: value.neg() }),
        Part::Free(column) => {
            terms.push(Term { column, value });
            terms.push(Term { column: column + 1, value: value.neg() });
        }
    }
}

fn value(part: Part, point: &[Term]) -> Result<Frac, Passed> {
    match part {
        Part::Above(bound, new) => bound.add(get(point, new)),
        Part::Below(bound, new) => bound.sub(get(point, new)),
        Part::Free(new) => get(point, new).sub(get(point, new + 1)),
    }
}

fn with_product(is_sum: bool, start: Frac, a: Frac, b: Frac) -> Result<Frac, Passed> {
    if is_sum { start.add_product(a, b) } else { start.less_product(a, b) }
}

/// What the other columns of a form are worth at the trial, and then the shifts of the node's own.
fn right_side(is_sum: bool, made: &Made, start: Frac, form: &[Term]) -> Result<Frac, Passed> {
    let mut sum = start;
    for term in form {
        if place_of(&made.task.datum.bounds, term.column).is_none() {
            sum = with_product(is_sum, sum, term.value, get(&made.task.trial, term.column))?;
        }
    }
    for term in form {
        if let Some(place) = place_of(&made.task.datum.bounds, term.column) {
            sum = with_product(is_sum, sum, term.value, shift(made.parts[place]))?;
        }
    }
    Ok(sum)
}

/// The program of a node as it is made.
struct Made<'a> {
    task: &'a Task,
    parts: Vec<Part>,
    limits: Vec<Limit>,
}

impl Made<'_> {
    fn own(&self, form: &[Term], is_negative: bool) -> Vec<Term> {
        let mut terms = Vec::new();
        for term in form {
            if let Some(place) = place_of(&self.task.datum.bounds, term.column) {
                push_spread(&mut terms, self.parts[place], if is_negative { term.value.neg() } else { term.value });
            }
        }
        terms
    }

    fn push_row(&mut self, row: &NodeRow, sense: Sense, end: Frac) -> Result<(), Passed> {
        let right = right_side(false, self, end, &row.entries)?;
        self.limits.push(Limit { entries: self.own(&row.entries, false), sense, right });
        Ok(())
    }

    fn push_ends(&mut self, row: &NodeRow) -> Result<(), Passed> {
        match (row.low, row.high) {
            (None, None) => Ok(()),
            (Some(low), None) => self.push_row(row, Sense::Greater, low),
            (None, Some(high)) => self.push_row(row, Sense::Less, high),
            (Some(low), Some(high)) if low == high => self.push_row(row, Sense::Equal, low),
            (Some(low), Some(high)) => {
                self.push_row(row, Sense::Greater, low)?;
                self.push_row(row, Sense::Less, high)
            }
        }
    }

    fn push_cut(&mut self, child: usize, cut: &Cut) -> Result<(), Passed> {
        let right = right_side(true, self, cut.constant, &cut.form)?;
        let mut entries = self.own(&cut.form, true);
        if cut.source.kind == CutKind::Bound {
            push_spread(&mut entries, self.parts[self.task.datum.bounds.len() + child], whole(1));
        }
        self.limits.push(Limit { entries, sense: Sense::Greater, right });
        Ok(())
    }

    fn push_bounds(&mut self, all: &[Bounds]) -> Result<(), Passed> {
        for (place, bound) in all.iter().enumerate() {
            if let (Some(low), Some(high), Part::Above(_, column)) = (bound.lower, bound.upper, self.parts[place]) {
                let right = high.sub(low)?;
                let entries = vec![Term { column, value: whole(1) }];
                self.limits.push(Limit { entries, sense: Sense::Less, right });
            }
        }
        Ok(())
    }
}

fn is_taken(is_priced: bool, cut: &Cut) -> bool {
    is_priced || cut.source.kind == CutKind::Ray
}

fn turned(is_turned: bool, value: Frac) -> Frac {
    if is_turned { value.neg() } else { value }
}

fn is_turned(limit: &Limit) -> bool {
    limit.right.num() < 0
}

/// The rows as equations with slack columns.
fn standard(columns: u64, limits: &[Limit], cost: Vec<Term>) -> simplex::Program {
    let mut slack = columns;
    let mut rows = Vec::with_capacity(limits.len());
    let mut right = Vec::with_capacity(limits.len());
    for limit in limits {
        let turn = is_turned(limit);
        let mut terms = Vec::with_capacity(limit.entries.len() + 1);
        terms.extend(limit.entries.iter().map(|term| Term { column: term.column, value: turned(turn, term.value) }));
        if limit.sense != Sense::Equal {
            let one = if limit.sense == Sense::Less { whole(1) } else { whole(-1) };
            terms.push(Term { column: slack, value: turned(turn, one) });
            slack += 1;
        }
        rows.push(terms);
        right.push(turned(turn, limit.right));
    }
    simplex::Program { columns: slack, rows, right, cost }
}

fn limit_count(row: &NodeRow) -> usize {
    match (row.low, row.high) {
        (None, None) => 0,
        (Some(low), Some(high)) if low != high => 2,
        _ => 1,
    }
}

/// The multipliers of the node's rows, and how many duals they take.
fn own_multipliers(rows: &[NodeRow], duals: &[Frac]) -> Result<(Vec<Term>, usize), Passed> {
    let mut form = Vec::new();
    let mut taken = 0;
    for row in rows {
        let mut sum = Frac::ZERO;
        for dual in &duals[taken..taken + limit_count(row)] {
            sum = sum.add(*dual)?;
        }
        push_nonzero(&mut form, u64::from(row.row), sum);
        taken += limit_count(row);
    }
    Ok((form, taken))
}

/// The test that multipliers show that there is no point: the column sums and the value.
fn test_ray(program: &simplex::Program, duals: &[Frac]) -> Result<(), Passed> {
    for column in 0..program.columns {
        let mut sum = Frac::ZERO;
        for (row, dual) in program.rows.iter().zip(duals) {
            sum = sum.add_product(get(row, column), *dual)?;
        }
    }
    let mut sum = Frac::ZERO;
    for (dual, right) in duals.iter().zip(&program.right) {
        sum = sum.add_product(*dual, *right)?;
    }
    Ok(())
}

fn cut_of(task: &Task, kind: CutKind, multipliers: Vec<Term>, weights: &[Frac]) -> Result<Arc<Cut>, CutFault> {
    let taken = task.children.iter().flatten().filter(|cut| is_taken(task.is_priced, cut));
    let used = taken
        .zip(weights)
        .filter(|(_, weight)| !weight.is_zero())
        .map(|(cut, weight)| Used { weight: *weight, cut: Arc::clone(cut) })
        .collect();
    let source = Record { node: task.datum.node, kind, multipliers, used };
    Ok(Arc::new(Cut::of(source, &task.datum)?))
}

fn or_not_good(cut: Result<Arc<Cut>, CutFault>, with: impl FnOnce(Arc<Cut>) -> Solved) -> Result<Solved, Passed> {
    match cut {
        Ok(cut) => Ok(with(cut)),
        Err(CutFault::NotGood) => Ok(Solved::NotGood),
        Err(CutFault::Passed(passed)) => Err(passed),
    }
}

/// The program of a node: its rows, how many of them are cuts, and the equations that they make.
pub struct Built<'a> {
    made: Made<'a>,
    cuts: usize,
    program: simplex::Program,
}

/// Makes the rows of a node's program and its standard form.
pub fn build(task: &Task) -> Result<Built<'_>, Passed> {
    let datum = &task.datum;
    let mut all = datum.bounds.clone();
    if task.is_priced {
        all.extend(datum.shares.iter().map(|share| Bounds { column: share.child, lower: None, upper: None }));
    }
    let (parts, columns) = parts(&all);
    let mut made = Made { task, parts, limits: Vec::new() };
    for row in &datum.rows {
        made.push_ends(row)?;
    }
    let own = made.limits.len();
    for (child, cuts) in task.children.iter().enumerate() {
        for cut in cuts.iter().filter(|cut| is_taken(task.is_priced, cut)) {
            made.push_cut(child, cut)?;
        }
    }
    let cuts = made.limits.len() - own;
    made.push_bounds(&all)?;
    let mut cost = made.own(&datum.cost, false);
    if task.is_priced {
        for (place, share) in datum.shares.iter().enumerate() {
            push_spread(&mut cost, made.parts[datum.bounds.len() + place], share.share);
        }
    }
    let program = standard(columns, &made.limits, cost);
    Ok(Built { made, cuts, program })
}

impl Built<'_> {
    /// The multipliers of the node's rows, and the weights of the cuts.
    fn multipliers(&self, duals: &[Frac]) -> Result<(Vec<Term>, Vec<Frac>), Passed> {
        let signed: Vec<Frac> =
            self.made.limits.iter().zip(duals).map(|(limit, dual)| turned(is_turned(limit), *dual)).collect();
        let (multipliers, taken) = own_multipliers(&self.made.task.datum.rows, &signed)?;
        Ok((multipliers, signed[taken..taken + self.cuts].to_vec()))
    }

    /// What is made of an optimum.
    fn best(&self, point: &[Term], duals: &[Frac]) -> Result<Solved, Passed> {
        let task = self.made.task;
        let datum = &task.datum;
        let (multipliers, weights) = self.multipliers(duals)?;
        let mut values = Vec::new();
        for (bound, part) in datum.bounds.iter().zip(&self.made.parts) {
            push_nonzero(&mut values, u64::from(bound.column), value(*part, point)?);
        }
        let mut sum = Frac::ZERO;
        for term in &datum.cost {
            sum = sum.add_product(term.value, get(&values, term.column))?;
        }
        if !task.is_priced {
            return Ok(Solved::Point { point: values, value: sum, cut: None });
        }
        for (place, share) in datum.shares.iter().enumerate() {
            let cost = value(self.made.parts[datum.bounds.len() + place], point)?;
            sum = sum.add_product(share.share, cost)?;
        }
        let cut = cut_of(task, CutKind::Bound, multipliers, &weights);
        or_not_good(cut, |cut| Solved::Point { point: values, value: sum, cut: Some(cut) })
    }

    /// What is made of an infeasible end.
    fn nowhere(&self, duals: &[Frac]) -> Result<Solved, Passed> {
        let (multipliers, weights) = self.multipliers(duals)?;
        test_ray(&self.program, duals)?;
        let cut = cut_of(self.made.task, CutKind::Ray, multipliers, &weights);
        or_not_good(cut, |cut| Solved::NoPoint { cut })
    }
}

/// What is found for the program of a node, and how many pivots it took.
pub fn solve_node(task: &Task) -> (Result<Solved, Passed>, u64) {
    match build(task) {
        Ok(built) => {
            let (outcome, pivots, _) = simplex::solve(&built.program);
            (outcome.and_then(|outcome| found(&built, &outcome)), pivots)
        }
        Err(passed) => (Err(passed), 0),
    }
}

fn found(built: &Built, outcome: &Outcome) -> Result<Solved, Passed> {
    match outcome {
        Outcome::Optimal { point, duals } => built.best(point, duals),
        Outcome::Infeasible { duals } => built.nowhere(duals),
        Outcome::Unbounded { .. } => Ok(Solved::Loose),
    }
}
