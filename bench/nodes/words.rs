// Tasks and cuts as words, which the proved library reads.
use crate::cuts::{Cut, CutKind, Datum};
use crate::fraction::{Frac, Term};
use crate::node::Task;
use crate::tasks::Held;
use std::sync::Arc;

/// A task and the cut that is found for it.
pub type Solution<'a> = (&'a Task, &'a Cut);

#[derive(Default)]
pub struct Words(Vec<u64>);

impl Words {
    pub fn tasks(tasks: &[Task]) -> Vec<u64> {
        let mut words = Words::default();
        words.all(tasks, Words::task);
        words.0
    }

    /// Each task with the record of its cut.
    pub fn records(solutions: &[Solution]) -> Vec<u64> {
        let mut words = Words::default();
        words.all(solutions, |words, (task, cut)| {
            words.task(task);
            words.record(task, cut);
        });
        words.0
    }

    /// A pool's node, its cuts and the trial.
    pub fn held(held: &Held) -> Vec<u64> {
        let mut words = Words::default();
        words.number(held.cuts[0].source.node);
        words.cuts(&held.cuts);
        words.form(&held.trial);
        words.0
    }

    fn number(&mut self, number: impl Into<u64>) {
        self.0.push(number.into());
    }

    /// The halves of the numerator's size and of the denominator, and whether it is negative.
    fn value(&mut self, value: Frac) {
        let size = value.num().unsigned_abs();
        self.number(size as u64);
        self.number((size >> 64) as u64);
        self.number(value.den() as u64);
        self.number((value.den() >> 64) as u64);
        self.number(value.num() < 0);
    }

    fn end(&mut self, end: Option<Frac>) {
        self.number(end.is_some());
        if let Some(end) = end {
            self.value(end);
        }
    }

    /// How many there are, and each.
    fn all<T>(&mut self, items: &[T], write: impl Fn(&mut Words, &T)) {
        self.number(items.len() as u64);
        items.iter().for_each(|item| write(self, item));
    }

    fn form(&mut self, form: &[Term]) {
        self.all(form, |words, term| {
            words.number(term.column);
            words.value(term.value);
        });
    }

    fn datum(&mut self, datum: &Datum) {
        self.number(datum.node);
        self.form(&datum.cost);
        self.all(&datum.rows, |words, row| {
            words.number(row.row);
            words.form(&row.entries);
            words.end(row.low);
            words.end(row.high);
        });
        self.all(&datum.bounds, |words, bound| {
            words.number(bound.column);
            words.end(bound.lower);
            words.end(bound.upper);
        });
        self.all(&datum.shares, |words, share| {
            words.number(share.child);
            words.value(share.share);
        });
    }

    /// Whether it is a Ray cut, the grandchild whose cut is used, the constant and the form.
    fn cuts(&mut self, cuts: &[Arc<Cut>]) {
        self.all(cuts, |words, cut| {
            words.number(cut.source.kind == CutKind::Ray);
            words.number(cut.source.used[0].cut.source.node);
            words.value(cut.constant);
            words.form(&cut.form);
        });
    }

    /// Whether it is of a Ray cut, the multipliers, and of each used cut the places of the child and of the cut, and the weight.
    fn record(&mut self, task: &Task, cut: &Cut) {
        self.number(cut.source.kind == CutKind::Ray);
        self.form(&cut.source.multipliers);
        self.all(&cut.source.used, |words, used| {
            let place_in = |cuts: &Vec<Arc<Cut>>| cuts.iter().position(|cut| Arc::ptr_eq(cut, &used.cut));
            let places = task.children.iter().map(place_in).enumerate();
            let (child, place) = places.filter_map(|(child, place)| Some((child, place?))).next().expect("it is one of the task's");
            words.number(child as u64);
            words.number(place as u64);
            words.value(used.weight);
        });
    }

    fn task(&mut self, task: &Task) {
        self.datum(&task.datum);
        self.form(&task.trial);
        for cuts in &task.children {
            self.cuts(cuts);
        }
    }
}
