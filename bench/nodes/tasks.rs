// Made programs of nodes: stocks of items, which are ordered, bought and kept, and cuts about what they cost later.
use crate::cuts::{Bounds, Cut, CutKind, Datum, Record, Share, Used, push_nonzero};
use crate::fraction::{Frac, Term};
use crate::node::Task;
use crate::random::Random;
use crate::rows::NodeRow;
use std::sync::Arc;

const NODE: u32 = 1;
const FIRST_CHILD: u32 = 2;

/// An item's columns: what is ordered, bought, kept and wanting.
const COLUMNS: u64 = 4;

/// Items of which a cut speaks, at most.
const SPOKEN: usize = 2;

/// So many prices there are: where each item has one of its own, the sums of many rows pass 128 bits.
const PRICES: u64 = 4;

/// One cut of so many about a child of a task is a Ray cut.
const RAYS: u64 = 10;

/// The cuts that a pool is to hold, and a trial.
pub struct Held {
    pub cuts: Vec<Arc<Cut>>,
    pub trial: Vec<Term>,
}

/// How the numbers of a task are made.
pub struct Maker {
    random: Random,
    is_whole: bool,
    items: u64,
    /// What an item costs later where it is wanting, and where there is too much.
    prices: Vec<(Frac, Frac)>,
}

/// What numbers there are.
pub fn kind_of(is_whole: bool) -> &'static str {
    if is_whole { "whole" } else { "decimals" }
}

fn fraction(num: u64, den: u64) -> Frac {
    Frac::new(i128::from(num), i128::from(den)).expect("the numbers are small")
}

impl Maker {
    /// Makes tasks of so many rows; each number stands for others.
    pub fn new(number: u64, is_whole: bool, rows: u32) -> Maker {
        let items = u64::from(rows).div_ceil(3);
        let mut maker = Maker { random: Random(88_172_645_463_325_252 + 7_919 * number), is_whole, items, prices: Vec::new() };
        maker.prices = (0..PRICES).map(|_| (maker.number(4, 12), maker.number(1, 3))).collect();
        maker
    }

    /// A whole number from `least` to below `end`.
    fn whole(&mut self, least: u64, end: u64) -> Frac {
        fraction(least + self.random.below(end - least), 1)
    }

    /// A number from `least` to below `end`: whole, or with two digits behind the point.
    fn number(&mut self, least: u64, end: u64) -> Frac {
        if self.is_whole { self.whole(least, end) } else { fraction(100 * least + self.random.below(100 * (end - least)), 100) }
    }

    /// The column of an item. Before them stand those before the node: the stocks, one for each item.
    fn column(&self, item: u64, place: u64) -> u64 {
        self.items + COLUMNS * item + place
    }

    /// Ordered, bought and kept of an item, with what was there: just the demand.
    fn balance(&mut self, item: u64) -> NodeRow {
        let one = Frac::ONE;
        let own = [(0, one), (1, one), (2, one.neg()), (3, one.neg())];
        let mut entries = vec![Term { column: item, value: one }];
        entries.extend(own.map(|(place, value)| Term { column: self.column(item, place), value }));
        let demand = self.number(5, 25);
        NodeRow { row: 0, entries, low: Some(demand), high: Some(demand) }
    }

    /// What the orders of three items take of a machine, which runs for some time at least.
    fn machine(&mut self, item: u64) -> NodeRow {
        let first = item / 3 * 3;
        let columns: Vec<u64> = (first..self.items.min(first + 3)).map(|item| self.column(item, 0)).collect();
        let entries = columns.into_iter().map(|column| Term { column, value: self.whole(1, 4) }).collect();
        NodeRow { row: 0, entries, low: Some(self.number(2, 6)), high: Some(self.number(30, 60)) }
    }

    /// What is bought and kept of an item is enough.
    fn reserve(&mut self, item: u64) -> NodeRow {
        let entries = [1, 2].map(|place| Term { column: self.column(item, place), value: Frac::ONE }).to_vec();
        NodeRow { row: 0, entries, low: Some(self.number(1, 9)), high: None }
    }

    fn rows(&mut self, count: u32) -> Vec<NodeRow> {
        (0..count)
            .map(|row| {
                let item = u64::from(row / 3);
                let made = match row % 3 {
                    0 => self.balance(item),
                    1 => self.machine(item),
                    _ => self.reserve(item),
                };
                NodeRow { row, ..made }
            })
            .collect()
    }

    fn bounds(&mut self) -> Vec<Bounds> {
        let zero = Some(Frac::ZERO);
        let mut all = Vec::new();
        for item in 0..self.items {
            let (most, room) = (Some(self.number(10, 20)), Some(self.number(40, 60)));
            for (place, lower, upper) in [(0, zero, most), (1, zero, None), (2, zero, room), (3, None, zero)] {
                all.push(Bounds { column: self.column(item, place) as u32, lower, upper });
            }
        }
        all
    }

    fn cost(&mut self) -> Vec<Term> {
        let mut all = Vec::new();
        for item in 0..self.items {
            let values = [self.number(1, 6), self.number(8, 16), self.number(0, 3), self.number(20, 30).neg()];
            for (place, value) in (0..).zip(values) {
                push_nonzero(&mut all, self.column(item, place), value);
            }
        }
        all
    }

    /// A cut about a child: of some items, what is kept is worth a price below a demand, or costs above it; a Ray cut says that some has
    /// to be kept of them together. It is made of one row and of a cut about one of the child's children.
    fn cut(&mut self, child: u32, kind: CutKind, below: &Arc<Cut>) -> Arc<Cut> {
        let mut items = [0; SPOKEN].map(|_| self.random.below(self.items)).to_vec();
        items.sort_unstable();
        items.dedup();
        let mut entries = Vec::new();
        let mut low = Frac::ZERO;
        for item in items {
            let slope = match (kind, self.random.below(3)) {
                (CutKind::Ray, _) => Frac::ONE,
                (CutKind::Bound, 0) => self.prices[(item % PRICES) as usize].1.neg(),
                (CutKind::Bound, _) => self.prices[(item % PRICES) as usize].0,
            };
            let demand = if kind == CutKind::Ray { self.number(0, 3) } else { self.number(5, 25) };
            low = low.add_product(slope, demand).ok().expect("the numbers are small");
            push_nonzero(&mut entries, self.column(item, 2), slope);
        }
        let source = Record {
            node: child,
            kind,
            multipliers: vec![Term { column: 0, value: Frac::ONE }],
            used: vec![Used { weight: Frac::ONE, cut: Arc::clone(below) }],
        };
        let rows = vec![NodeRow { row: 0, entries, low: Some(low), high: None }];
        made(source, rows)
    }

    /// So many cuts about a child, one of so many a Ray cut.
    fn cuts(&mut self, child: u32, count: u64, rays: u64) -> Vec<Arc<Cut>> {
        let below = below(child).map(|node| made(nothing(node), Vec::new()));
        let kinds = (1..=count).map(|number| if number % rays == 0 { CutKind::Ray } else { CutKind::Bound });
        kinds.zip(below.iter().cycle()).map(|(kind, below)| self.cut(child, kind, below)).collect()
    }

    /// A node of so many rows with so many cuts about two children; without cuts it has no child. Where it is `full`, more of the
    /// first item is there than can be kept.
    pub fn task(&mut self, rows: u32, cuts: u64, full: bool) -> Task {
        let numbers = FIRST_CHILD..FIRST_CHILD + if cuts > 0 { 2 } else { 0 };
        let share = fraction(1, 2);
        let datum = Datum {
            node: NODE,
            cost: self.cost(),
            rows: self.rows(rows),
            bounds: self.bounds(),
            shares: numbers.clone().map(|child| Share { child, share }).collect(),
        };
        let mut trial = self.trial(self.items);
        if full {
            trial[0].value = fraction(999, 1);
        }
        let children = numbers.map(|child| self.cuts(child, cuts / 2, RAYS)).collect();
        Task { is_priced: true, datum, trial, children }
    }

    fn trial(&mut self, columns: u64) -> Vec<Term> {
        (0..columns).map(|column| Term { column, value: self.number(1, 12) }).collect()
    }

    /// So many Bound cuts about a child, and a trial of the columns before it.
    pub fn held(&mut self, count: u64) -> Held {
        Held { cuts: self.cuts(FIRST_CHILD, count, count + 1), trial: self.trial((COLUMNS + 1) * self.items) }
    }
}

/// The two children of a child.
fn below(child: u32) -> [u32; 2] {
    [2 * child, 2 * child + 1]
}

/// The record of a cut that says that costs are at least 0.
fn nothing(node: u32) -> Record {
    Record { node, kind: CutKind::Bound, multipliers: Vec::new(), used: Vec::new() }
}

/// The cut of a record over a node without columns.
fn made(source: Record, rows: Vec<NodeRow>) -> Arc<Cut> {
    let datum = Datum { node: source.node, cost: Vec::new(), rows, bounds: Vec::new(), shares: Vec::new() };
    Cut::of(source, &datum).map(Arc::new).ok().expect("each end is there")
}
