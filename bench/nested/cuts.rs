// Cuts with the records that prove them, pools, and flat duals in Rust, with the steps of `cut_proof`, `cut_pool` and `dual_assemble`.
use crate::fraction::{Frac, Passed, Term, add_scaled};
use crate::rows::NodeRow;
use std::cmp::Ordering;
use std::sync::Arc;

#[derive(Clone, Copy, PartialEq)]
pub enum CutKind {
    Bound,
    Ray,
}

#[derive(Clone, Copy)]
pub struct Bounds {
    pub column: u32,
    pub lower: Option<Frac>,
    pub upper: Option<Frac>,
}

#[derive(Clone, Copy)]
pub struct Share {
    pub child: u32,
    pub share: Frac,
}

/// The data of a node in a run.
pub struct Datum {
    pub node: u32,
    pub cost: Vec<Term>,
    pub rows: Vec<NodeRow>,
    pub bounds: Vec<Bounds>,
    pub shares: Vec<Share>,
}

/// A version of a part of a node's data: its rows, or its costs. Nothing is edited here, so versions are 0.
#[derive(Clone, Copy, PartialEq, PartialOrd)]
pub struct Stamp {
    pub node: u32,
    pub is_costs: bool,
    pub version: u32,
}

pub struct Used {
    pub weight: Frac,
    pub cut: Arc<Cut>,
}

pub struct Record {
    pub node: u32,
    pub kind: CutKind,
    pub multipliers: Vec<Term>,
    pub used: Vec<Used>,
}

pub struct Cut {
    pub source: Record,
    pub constant: Frac,
    pub form: Vec<Term>,
    pub support: Vec<Stamp>,
}

pub enum CutFault {
    NotGood,
    Passed(Passed),
}

impl From<Passed> for CutFault {
    fn from(passed: Passed) -> CutFault {
        CutFault::Passed(passed)
    }
}

pub fn get(form: &[Term], column: u64) -> Frac {
    match form.binary_search_by_key(&column, |term| term.column) {
        Ok(place) => form[place].value,
        Err(_) => Frac::ZERO,
    }
}

pub fn push_nonzero(form: &mut Vec<Term>, column: u64, value: Frac) {
    if !value.is_zero() {
        form.push(Term { column, value });
    }
}

/// The place of a column among those of the node.
pub fn place_of(bounds: &[Bounds], column: u64) -> Option<usize> {
    bounds.binary_search_by_key(&column, |bound| u64::from(bound.column)).ok()
}

fn used_end(low: Option<Frac>, high: Option<Frac>, number: Frac) -> Option<Frac> {
    match number.num().cmp(&0) {
        Ordering::Greater => low,
        Ordering::Less => high,
        Ordering::Equal => Some(Frac::ZERO),
    }
}

fn column_sum(rows: &[NodeRow], source: &Record, column: u64, start: Frac) -> Result<Frac, Passed> {
    let mut sum = start;
    for row in rows {
        let entry = get(&row.entries, column);
        if !entry.is_zero() {
            sum = sum.less_product(entry, get(&source.multipliers, u64::from(row.row)))?;
        }
    }
    for one in &source.used {
        sum = sum.add_product(one.weight, get(&one.cut.form, column))?;
    }
    Ok(sum)
}

fn union(xs: &[u64], ys: &[Term]) -> Vec<u64> {
    let mut all = Vec::with_capacity(xs.len() + ys.len());
    let (mut i, mut j) = (0, 0);
    while i < xs.len() && j < ys.len() {
        let (x, y) = (xs[i], ys[j].column);
        all.push(x.min(y));
        i += usize::from(x <= y);
        j += usize::from(y <= x);
    }
    all.extend_from_slice(&xs[i..]);
    all.extend(ys[j..].iter().map(|term| term.column));
    all
}

fn merge(xs: &[Stamp], ys: &[Stamp]) -> Vec<Stamp> {
    let mut all = Vec::with_capacity(xs.len() + ys.len());
    let (mut i, mut j) = (0, 0);
    while i < xs.len() && j < ys.len() {
        if xs[i] < ys[j] {
            all.push(xs[i]);
            i += 1;
        } else {
            all.push(ys[j]);
            i += usize::from(xs[i] == ys[j]);
            j += 1;
        }
    }
    all.extend_from_slice(&xs[i..]);
    all.extend_from_slice(&ys[j..]);
    all
}

fn support_of(source: &Record) -> Vec<Stamp> {
    let own = |is_costs| Stamp { node: source.node, is_costs, version: 0 };
    let mut all = vec![own(false)];
    if source.kind == CutKind::Bound {
        all.push(own(true));
    }
    for one in &source.used {
        all = merge(&all, &one.cut.support);
    }
    all
}

/// A fraction that need not be in lowest terms.
#[derive(Clone, Copy)]
struct Unreduced {
    num: i128,
    den: u128,
}

// Two numbers below this in size have a product below 2^126.
const HALF: u128 = 0x8000_0000_0000_0000;

fn short_product(a: i128, b: i128) -> Option<i128> {
    (a.unsigned_abs() < HALF && b.unsigned_abs() < HALF).then(|| a * b)
}

fn size_product(a: u128, b: u128) -> Option<u128> {
    (a < HALF && b < HALF).then(|| a * b)
}

fn repeated(number: i128, times: u128) -> Option<i128> {
    match times {
        1 => Some(number),
        _ if times < HALF => short_product(number, times as i128),
        _ => None,
    }
}

fn quotient(a: u128, b: u128) -> u128 {
    if a < HALF && b < HALF { (a as u64 / b as u64) as u128 } else { a / b }
}

impl Unreduced {
    fn of(number: Frac) -> Unreduced {
        Unreduced { num: number.num(), den: number.den() as u128 }
    }

    fn reduced(self) -> Frac {
        Frac::new(self.num, self.den as i128).expect("the lowest terms are no larger")
    }

    /// The sum with `num` over `den`, where the denominators times these factors are the same.
    fn over(self, own: u128, num: i128, den: u128, across: u128) -> Option<Unreduced> {
        let common = size_product(self.den, own)?;
        if common != size_product(den, across)? {
            return None;
        }
        let sum = repeated(self.num, own)?.checked_add(repeated(num, across)?)?;
        (sum != i128::MIN).then_some(Unreduced { num: sum, den: common })
    }

    #[cold]
    fn widened(self, num: i128, den: u128) -> Option<Unreduced> {
        let between = Frac::new(self.den as i128, den as i128)?;
        self.over(between.den() as u128, num, den, between.num().unsigned_abs())
    }

    fn step(self, factor: Frac, times: Frac) -> Option<Unreduced> {
        let num = short_product(factor.num(), times.num())?;
        let den = size_product(factor.den() as u128, times.den() as u128)?;
        self.over(1, num, den, quotient(self.den, den)).or_else(|| self.widened(num, den))
    }

    fn add_product(self, factor: Frac, times: Frac) -> Result<Unreduced, Passed> {
        if factor.is_zero() || times.is_zero() {
            return Ok(self);
        }
        match self.step(factor, times) {
            Some(sum) => Ok(sum),
            None => Ok(Unreduced::of(self.reduced().add_product(factor, times)?)),
        }
    }
}

struct Worth {
    sum: Unreduced,
    is_good: bool,
}

impl Worth {
    fn add(&mut self, number: Frac, end: Option<Frac>) -> Result<(), Passed> {
        match end {
            None => self.is_good = false,
            Some(end) => self.sum = self.sum.add_product(number, end)?,
        }
        Ok(())
    }
}

/// The value in a column: at the place that is guessed, or by bisection.
fn near(terms: &[Term], guess: &mut usize, column: u64) -> Frac {
    match terms.get(*guess) {
        Some(term) if term.column == column => {
            *guess += 1;
            term.value
        }
        _ => get(terms, column),
    }
}

/// Where a column may stand.
fn likely_place(tally: &[Term], column: u64) -> usize {
    let Some(last) = tally.last() else {
        return 0;
    };
    if column > last.column {
        return tally.len();
    }
    let back = (last.column - column) as usize;
    if back < tally.len() && tally[tally.len() - 1 - back].column == column {
        return tally.len() - 1 - back;
    }
    tally.partition_point(|term| term.column < column)
}

/// A product of which a factor is 1 or -1.
fn unit_product(a: Frac, b: Frac) -> Option<Frac> {
    if a.is_one() {
        Some(b)
    } else if b.is_one() {
        Some(a)
    } else if b.neg().is_one() {
        Some(a.neg())
    } else {
        None
    }
}

fn plus(number: Frac, weight: Frac, value: Frac) -> Result<Frac, Passed> {
    match unit_product(weight, value) {
        None => number.add_product(weight, value),
        Some(product) if number.is_zero() => Ok(product),
        Some(product) => number.add(product),
    }
}

/// Adds a weight times a form; `None` where a sum passes.
fn add_form(tally: &mut [Term], weight: Frac, form: &[Term]) -> Option<()> {
    for term in form {
        let place = likely_place(tally, term.column);
        let found = tally.get_mut(place).filter(|found| found.column == term.column)?;
        found.value = plus(found.value, weight, term.value).ok()?;
    }
    Some(())
}

fn is_own_near(bounds: &[Bounds], column: u64) -> bool {
    let Some(first) = bounds.first() else {
        return false;
    };
    let Some(place) = column.checked_sub(u64::from(first.column)) else {
        return false;
    };
    bounds.get(place as usize).is_some_and(|found| u64::from(found.column) == column) || place_of(bounds, column).is_some()
}

/// The columns that can have a sum other than 0.
fn summed_columns(source: &Record, datum: &Datum) -> Vec<u64> {
    let mut all = Vec::new();
    let forms = datum.rows.iter().map(|row| &row.entries).chain(source.used.iter().map(|one| &one.cut.form));
    for form in forms {
        all.extend(form.iter().map(|term| term.column).filter(|column| !is_own_near(&datum.bounds, *column)));
    }
    all.sort_unstable();
    let earlier = all.len();
    all.extend(datum.bounds.iter().map(|bound| u64::from(bound.column)));
    if earlier > 0 && earlier < all.len() && all[earlier - 1] > all[earlier] {
        all.sort_unstable();
    }
    all
}

/// The sums of all columns in one pass; `None` where one passes.
fn all_sums(source: &Record, datum: &Datum) -> Option<Vec<Term>> {
    let columns = summed_columns(source, datum);
    let mut tally: Vec<Term> = Vec::with_capacity(columns.len());
    for column in columns {
        if tally.last().is_none_or(|last| last.column < column) {
            tally.push(Term { column, value: Frac::ZERO });
        }
    }
    if source.kind == CutKind::Bound {
        add_form(&mut tally, Frac::ONE, &datum.cost)?;
    }
    let mut guess = 0;
    for row in &datum.rows {
        let multiplier = near(&source.multipliers, &mut guess, u64::from(row.row));
        if !multiplier.is_zero() {
            add_form(&mut tally, multiplier.neg(), &row.entries)?;
        }
    }
    for one in &source.used {
        add_form(&mut tally, one.weight, &one.cut.form)?;
    }
    Some(tally)
}

/// The reduced costs of the node's own columns.
fn price(source: &Record, datum: &Datum, sums: Option<&[Term]>) -> Result<Vec<Frac>, Passed> {
    let mut priced = Vec::with_capacity(datum.bounds.len());
    let mut guess = sums.map_or(0, |tally| tally.len().saturating_sub(datum.bounds.len()));
    for bound in &datum.bounds {
        let column = u64::from(bound.column);
        priced.push(match (sums, source.kind) {
            (Some(tally), _) => near(tally, &mut guess, column),
            (None, CutKind::Bound) => column_sum(&datum.rows, source, column, get(&datum.cost, column))?,
            (None, CutKind::Ray) => column_sum(&datum.rows, source, column, Frac::ZERO)?,
        });
    }
    Ok(priced)
}

/// The form over the columns that aren't the node's own.
fn form(source: &Record, datum: &Datum, sums: Option<&[Term]>) -> Result<Vec<Term>, Passed> {
    if let Some(tally) = sums {
        let outer = tally.iter().filter(|term| !term.value.is_zero() && !is_own_near(&datum.bounds, term.column));
        return Ok(outer.copied().collect());
    }
    let mut columns = Vec::new();
    for row in &datum.rows {
        columns = union(&columns, &row.entries);
    }
    for one in &source.used {
        columns = union(&columns, &one.cut.form);
    }
    let mut form = Vec::new();
    for column in columns {
        if place_of(&datum.bounds, column).is_none() {
            push_nonzero(&mut form, column, column_sum(&datum.rows, source, column, Frac::ZERO)?);
        }
    }
    Ok(form)
}

impl Cut {
    pub fn of(source: Record, datum: &Datum) -> Result<Cut, CutFault> {
        let sums = all_sums(&source, datum);
        let priced = price(&source, datum, sums.as_deref())?;
        let form = form(&source, datum, sums.as_deref())?;
        let mut worth = Worth { sum: Unreduced::of(Frac::ZERO), is_good: true };
        let mut guess = 0;
        for row in &datum.rows {
            let number = near(&source.multipliers, &mut guess, u64::from(row.row));
            worth.add(number, used_end(row.low, row.high, number))?;
        }
        for (bound, number) in datum.bounds.iter().zip(priced) {
            worth.add(number, used_end(bound.lower, bound.upper, number))?;
        }
        for one in &source.used {
            worth.add(one.weight, Some(one.cut.constant))?;
        }
        if !worth.is_good {
            return Err(CutFault::NotGood);
        }
        let support = support_of(&source);
        Ok(Cut { source, constant: worth.sum.reduced(), form, support })
    }

    pub fn at(&self, trial: &[Term]) -> Result<Frac, Passed> {
        let mut sum = self.constant;
        for term in &self.form {
            sum = sum.add_product(term.value, get(trial, term.column))?;
        }
        Ok(sum)
    }
}

/// The cuts of one node. Nothing is swept here, so no touch is known.
#[derive(Default)]
pub struct Pool {
    pub cuts: Vec<Arc<Cut>>,
    pub number: u64,
}

impl Pool {
    pub fn put(&mut self, cut: Arc<Cut>) {
        self.cuts.push(cut);
        self.number += 1;
    }

    /// Whether the cut is added.
    pub fn offer(&mut self, cut: Arc<Cut>, trial: &[Term]) -> Result<bool, Passed> {
        let kind = cut.source.kind;
        let value = cut.at(trial)?;
        let mut best = if kind == CutKind::Ray { Some(Frac::ZERO) } else { None };
        for held in &self.cuts {
            if held.source.kind == kind {
                let there = held.at(trial)?;
                best = Some(best.map_or(there, |best| if best <= there { there } else { best }));
            }
        }
        let is_added = best.is_none_or(|best| value > best);
        if is_added {
            self.put(cut);
        }
        Ok(is_added)
    }
}

/// The multipliers of all nodes from a cut, depth first.
pub fn flat(cut: &Cut, nodes: usize) -> Result<Vec<Vec<Term>>, Passed> {
    fn add(table: &mut [Vec<Term>], weight: Frac, cut: &Cut) -> Result<(), Passed> {
        let place = cut.source.node as usize;
        table[place] = add_scaled(&table[place], weight, &cut.source.multipliers)?;
        for one in &cut.source.used {
            add(table, weight.mul(one.weight)?, &one.cut)?;
        }
        Ok(())
    }
    let mut table = vec![Vec::new(); nodes];
    add(&mut table, Frac::ONE, cut)?;
    Ok(table)
}

/// The cut of a node that the numbers of a dual make, with the children's cuts by their shares.
pub fn ground(datum: &Datum, total: Frac, dual: &[Term], children: Vec<Arc<Cut>>) -> Result<Arc<Cut>, CutFault> {
    let mut multipliers = Vec::new();
    for row in &datum.rows {
        let number = get(dual, u64::from(row.row));
        let quotient = if total.is_zero() { Frac::ZERO } else { number.div(total)? };
        push_nonzero(&mut multipliers, u64::from(row.row), quotient);
    }
    let used = datum.shares.iter().zip(children).map(|(share, cut)| Used { weight: share.share, cut }).collect();
    let source = Record { node: datum.node, kind: CutKind::Bound, multipliers, used };
    Ok(Arc::new(Cut::of(source, datum)?))
}
