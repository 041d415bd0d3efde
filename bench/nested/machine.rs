// The nested method in Rust, with the steps of `pass_core`: a Feasible, a Recession and a Cost run.
use crate::cuts::{Bounds, Cut, CutFault, Datum, Pool, Share, flat, get, ground};
use crate::fraction::{Frac, Passed, Term, add_scaled};
use crate::node::{Solved, Task, solve_node};
use crate::rows::NodeRow;
use crate::simplex::whole;
use crate::table::Table;
use crate::tree::{Node, Program};
use std::sync::Arc;

#[derive(Clone, Copy, PartialEq)]
enum Run {
    Feasible,
    Recession,
    Cost,
}

/// What stops the method.
enum Stop {
    Passed,
    Stuck,
}

impl From<Passed> for Stop {
    fn from(_passed: Passed) -> Stop {
        Stop::Passed
    }
}

#[derive(Clone, Copy, PartialEq, Debug)]
pub enum Status {
    Optimal,
    Infeasible,
    Unbounded,
    OpenSolves,
    OpenPassed,
}

/// What is found of a program.
pub struct Report {
    pub status: Status,
    pub upper: Option<Frac>,
    pub solves: u64,
    pub pivots: u64,
    /// The numbers of the policy, and the multipliers, where both ends are there.
    pub sizes: (usize, usize),
}

struct Last {
    point: Vec<Term>,
    along: Vec<Term>,
}

struct Priced {
    cost: Frac,
    policy: Vec<Vec<Term>>,
}

struct Machine<'a> {
    program: &'a Program,
    children: Vec<Vec<u32>>,
    columns: Vec<Vec<Bounds>>,
    totals: Vec<Frac>,
    shares: Vec<Frac>,
    run: Run,
    table: Table,
    plain: Vec<Pool>,
    cone: Vec<Pool>,
    lasts: Vec<Option<Last>>,
    upper: Option<Priced>,
    lower: Option<(Frac, Arc<Cut>)>,
    direction: Option<Priced>,
    root: Option<Arc<Cut>>,
    nowhere: Option<Arc<Cut>>,
    solves: u64,
    pivots: u64,
}

fn node_of(place: &Option<Node>) -> &Node {
    place.as_ref().expect("no node was dropped")
}

fn totals(program: &Program) -> Result<(Vec<Frac>, Vec<Frac>), Passed> {
    let mut totals = vec![Frac::ZERO; program.nodes.len()];
    for scenario in &program.scenarios {
        for node in &scenario.path {
            let total = &mut totals[*node as usize];
            *total = total.add(scenario.probability)?;
        }
    }
    let mut shares = Vec::new();
    for (place, node) in program.nodes.iter().enumerate() {
        shares.push(match node_of(node).parent {
            None => Frac::ONE,
            Some(parent) => totals[place].div(totals[parent as usize])?,
        });
    }
    Ok((totals, shares))
}

fn derived_bound(run: Run, absent: i128, bound: Option<Frac>) -> Option<Frac> {
    match (run, bound) {
        (Run::Recession, None) => Some(whole(absent)),
        (Run::Recession, Some(_)) => Some(Frac::ZERO),
        _ => bound,
    }
}

fn derived_end(run: Run, end: Option<Frac>) -> Option<Frac> {
    if run == Run::Recession { end.map(|_| Frac::ZERO) } else { end }
}

impl<'a> Machine<'a> {
    fn start(program: &'a Program) -> Result<Machine<'a>, Passed> {
        let nodes = program.nodes.len();
        let mut children = vec![Vec::new(); nodes];
        let mut parents = Vec::new();
        for (place, node) in program.nodes.iter().enumerate() {
            let parent = node_of(node).parent;
            if let Some(parent) = parent {
                children[parent as usize].push(place as u32);
            }
            parents.push(parent.unwrap_or(0));
        }
        let mut columns = vec![Vec::new(); program.periods.len()];
        for (place, column) in program.columns.iter().enumerate() {
            let bounds = Bounds { column: place as u32, lower: column.lower, upper: column.upper };
            columns[column.stage as usize].push(bounds);
        }
        let (totals, shares) = totals(program)?;
        let pools = || (0..nodes).map(|_| Pool::default()).collect();
        Ok(Machine {
            program,
            children,
            columns,
            totals,
            shares,
            run: Run::Feasible,
            table: Table::new(parents),
            plain: pools(),
            cone: pools(),
            lasts: (0..nodes).map(|_| None).collect(),
            upper: None,
            lower: None,
            direction: None,
            root: None,
            nowhere: None,
            solves: 0,
            pivots: 0,
        })
    }

    fn pools(&mut self) -> &mut Vec<Pool> {
        if self.run == Run::Recession { &mut self.cone } else { &mut self.plain }
    }

    fn datum(&self, run: Run, node: u32) -> Datum {
        let stated = node_of(&self.program.nodes[node as usize]);
        let rows = stated.rows.iter().map(|row| NodeRow {
            row: row.row,
            entries: row.entries.clone(),
            low: derived_end(run, row.low),
            high: derived_end(run, row.high),
        });
        let bounds = self.columns[stated.stage as usize].iter().map(|bound| Bounds {
            column: bound.column,
            lower: derived_bound(run, -1, bound.lower),
            upper: derived_bound(run, 1, bound.upper),
        });
        let share = |child: &u32| Share { child: *child, share: self.shares[*child as usize] };
        Datum {
            node,
            cost: if run == Run::Feasible { Vec::new() } else { stated.cost.clone() },
            rows: rows.collect(),
            bounds: bounds.collect(),
            shares: self.children[node as usize].iter().map(share).collect(),
        }
    }

    fn task(&mut self, node: u32) -> Task {
        let datum = self.datum(self.run, node);
        let parent = node_of(&self.program.nodes[node as usize]).parent;
        let trial = match parent.and_then(|parent| self.lasts[parent as usize].as_ref()) {
            Some(last) => last.along.clone(),
            None => Vec::new(),
        };
        let numbers = self.children[node as usize].clone();
        let pools = self.pools();
        let children = numbers.iter().map(|child| pools[*child as usize].cuts.clone()).collect();
        Task { is_priced: self.run != Run::Feasible, datum, trial, children }
    }

    /// Whether the report is settled, and how.
    fn settled(&self, stop: Option<&Stop>, solves: u64) -> Option<Status> {
        let shown = match self.run {
            Run::Feasible => self.nowhere.as_ref().map(|_| Status::Infeasible),
            Run::Recession => match &self.direction {
                Some(direction) if self.table.is_closed && direction.cost < Frac::ZERO => Some(Status::Unbounded),
                _ => None,
            },
            Run::Cost => match (&self.lower, &self.upper) {
                (Some((lower, _)), Some(upper)) if *lower == upper.cost => Some(Status::Optimal),
                _ => None,
            },
        };
        shown.or(match stop {
            Some(Stop::Passed) => Some(Status::OpenPassed),
            Some(Stop::Stuck) => Some(Status::OpenSolves),
            None if self.solves >= solves => Some(Status::OpenSolves),
            None => None,
        })
    }

    fn advance(&mut self) -> Result<bool, Stop> {
        if self.table.is_closed && self.run != Run::Cost {
            self.open_next()?;
            return Ok(true);
        }
        let Some(node) = self.table.begin() else { return Ok(false) };
        let task = self.task(node);
        let (solved, pivots) = solve_node(&task);
        self.solves += 1;
        self.pivots += pivots;
        match solved? {
            Solved::Point { point, value, cut } => {
                let along = add_scaled(&task.trial, whole(1), &point)?;
                self.lasts[node as usize] = Some(Last { point, along });
                let is_raised = match cut {
                    Some(cut) if node > 0 => self.pools()[node as usize].offer(cut, &task.trial)?,
                    Some(cut) => {
                        if self.run == Run::Cost && self.lower.as_ref().is_none_or(|(best, _)| *best < value) {
                            self.lower = Some((value, Arc::clone(&cut)));
                        }
                        self.root = Some(cut);
                        false
                    }
                    None => false,
                };
                self.commit(node, true, is_raised);
                if self.table.is_complete {
                    self.take_policy()?;
                }
            }
            Solved::NoPoint { cut } => {
                self.lasts[node as usize] = None;
                let is_raised = if node > 0 {
                    self.pools()[node as usize].offer(cut, &task.trial)?
                } else {
                    self.nowhere = Some(cut);
                    false
                };
                self.commit(node, false, is_raised);
            }
            Solved::Loose | Solved::NotGood => return Err(Stop::Stuck),
        }
        Ok(true)
    }

    fn commit(&mut self, node: u32, has_point: bool, is_raised: bool) {
        self.table.commit(node, &self.children[node as usize], has_point);
        if is_raised {
            self.table.raise(node);
        }
    }

    /// The joined policy of a complete state, and its cost.
    fn take_policy(&mut self) -> Result<(), Passed> {
        let mut cost = Frac::ZERO;
        for (place, node) in self.program.nodes.iter().enumerate() {
            if let Some(last) = &self.lasts[place] {
                let mut own = Frac::ZERO;
                for term in &node_of(node).cost {
                    own = own.add_product(term.value, get(&last.point, term.column))?;
                }
                cost = cost.add_product(self.totals[place], own)?;
            }
        }
        let is_better = self.run == Run::Recession || self.upper.as_ref().is_none_or(|best| cost < best.cost);
        if is_better {
            let point = |last: &Option<Last>| last.as_ref().map_or(Vec::new(), |last| last.point.clone());
            let found = Priced { cost, policy: self.lasts.iter().map(point).collect() };
            match self.run {
                Run::Recession => self.direction = Some(found),
                Run::Feasible | Run::Cost => self.upper = Some(found),
            }
        }
        Ok(())
    }

    /// Opens the run behind a closed one, whose pools get a cut of each node first.
    fn open_next(&mut self) -> Result<(), Stop> {
        let nodes = self.program.nodes.len();
        let (next, dual) = match (self.run, &self.root) {
            (Run::Feasible, _) => (Run::Recession, vec![Vec::new(); nodes]),
            (_, Some(root)) => (Run::Cost, flat(root, nodes)?),
            (_, None) => (Run::Cost, vec![Vec::new(); nodes]),
        };
        let mut cuts: Vec<Option<Arc<Cut>>> = vec![None; nodes];
        for node in (0..nodes as u32).rev() {
            let datum = self.datum(next, node);
            let below = self.children[node as usize].iter().filter_map(|child| cuts[*child as usize].clone()).collect();
            match ground(&datum, self.totals[node as usize], &dual[node as usize], below) {
                Ok(cut) => cuts[node as usize] = Some(cut),
                Err(CutFault::NotGood) => return Err(Stop::Stuck),
                Err(CutFault::Passed(_)) => return Err(Stop::Passed),
            }
        }
        self.run = next;
        for (node, cut) in cuts.into_iter().enumerate().skip(1) {
            if let Some(cut) = cut {
                self.pools()[node].put(cut);
            }
        }
        self.lasts.iter_mut().for_each(|last| *last = None);
        self.root = None;
        self.table.open();
        Ok(())
    }
}

/// Solves the program, with so many solves of nodes at most.
pub fn solve(program: &Program, solves: u64) -> Result<Report, Passed> {
    let mut machine = Machine::start(program)?;
    let mut stop = None;
    let status = loop {
        if let Some(status) = machine.settled(stop.as_ref(), solves) {
            break status;
        }
        match machine.advance() {
            Ok(true) => {}
            Ok(false) => break Status::OpenSolves,
            Err(reason) => stop = Some(reason),
        }
    };
    let count = |lists: &[Vec<Term>]| lists.iter().map(Vec::len).sum();
    let multipliers = match &machine.lower {
        Some((_, cut)) => count(&flat(cut, program.nodes.len())?),
        None => 0,
    };
    let policy = machine.upper.as_ref().map_or(0, |upper| count(&upper.policy));
    Ok(Report {
        status,
        upper: machine.upper.map(|upper| upper.cost),
        solves: machine.solves,
        pivots: machine.pivots,
        sizes: (policy, multipliers),
    })
}
