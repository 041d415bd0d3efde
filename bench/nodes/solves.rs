// Solves of nodes, the making of their programs, and that of their cuts, in Rattle and in Rust.
use crate::cuts::Cut;
use crate::digest::{of_pivots_ended, of_solved};
use crate::node::{Solved, Task, build, solve_node};
use crate::records::of_cuts;
use crate::tasks::{Maker, kind_of};
use crate::turns::{Least, Side};
use crate::words::{Solution, Words};
use std::hint::black_box;
use std::sync::Arc;

unsafe extern "C" {
    fn rattle_solve(words: *const u64, len: usize, pivots: u64, times: u64) -> u64;
    fn rattle_cuts(words: *const u64, len: usize, is_made: u64, times: u64) -> u64;
}

/// More pivots than any task takes.
const PIVOTS: u64 = 1_000_000;

/// The tasks in their order, each so many times.
fn turns_of(tasks: &[Task], times: u64) -> impl Iterator<Item = &Task> {
    tasks.iter().flat_map(move |task| (0..times).map(move |_| black_box(task)))
}

fn of_solves(tasks: &[Task], times: u64) -> u64 {
    turns_of(tasks, times).fold(0, |sum, task| of_solved(sum, &solve_node(task).0))
}

/// Makes the programs, and no more.
fn of_builds(tasks: &[Task], times: u64) -> u64 {
    turns_of(tasks, times).fold(0, |sum, task| match black_box(build(task)) {
        Ok(_) => of_pivots_ended(sum),
        Err(passed) => of_solved(sum, &Err(passed)),
    })
}

/// Nodes of so many rows with so many cuts about their children, and what was found and measured.
pub struct Nodes {
    name: String,
    tasks: Vec<Task>,
    cuts: Vec<Option<Arc<Cut>>>,
    points: usize,
    passed: usize,
    pivots: u64,
    words: Vec<u64>,
    solves: Least,
    /// In Rattle a solve in which no pivot is allowed, so that it makes the first tableau as well.
    builds: Least,
    records: Least,
}

impl Nodes {
    /// So many nodes, the last of which has no point.
    pub fn new(is_whole: bool, rows: u32, cuts: u64, count: u64) -> Nodes {
        let name = format!("{:8} {rows:3} rows {cuts:3} cuts", kind_of(is_whole));
        let task = |number| Maker::new(number, is_whole, rows).task(rows, cuts, number + 1 == count);
        let tasks: Vec<Task> = (0..count).map(task).collect();
        let mut nodes = Nodes {
            words: Words::tasks(&tasks),
            tasks,
            cuts: Vec::new(),
            points: 0,
            passed: 0,
            pivots: 0,
            solves: Least::new(&name),
            builds: Least::new(&name),
            records: Least::new(&name),
            name,
        };
        nodes.find();
        nodes
    }

    fn find(&mut self) {
        for task in &self.tasks {
            let (solved, pivots) = solve_node(task);
            self.pivots += pivots;
            self.points += usize::from(matches!(solved, Ok(Solved::Point { .. })));
            self.passed += usize::from(solved.is_err());
            self.cuts.push(match solved {
                Ok(Solved::Point { cut, .. }) => cut,
                Ok(Solved::NoPoint { cut }) => Some(cut),
                _ => None,
            });
        }
    }

    /// Has both sides take turns.
    pub fn take(&mut self) {
        let (tasks, words) = (&self.tasks, &self.words);
        let solve = |pivots, times| unsafe { rattle_solve(words.as_ptr(), words.len(), pivots, times) };
        let read = |_| solve(0, 0);
        let nothing = |_| 0;
        self.solves.take(
            Side { whole: &|times| solve(PIVOTS, times), rest: &read },
            Side { whole: &|times| of_solves(tasks, times), rest: &nothing },
        );
        self.builds.take(
            Side { whole: &|times| solve(0, times), rest: &read },
            Side { whole: &|times| of_builds(tasks, times), rest: &nothing },
        );
        let solutions = solutions(tasks, &self.cuts);
        let words = Words::records(&solutions);
        let make = |is_made, times| unsafe { rattle_cuts(words.as_ptr(), words.len(), is_made, times) };
        self.records.take(
            Side { whole: &|times| make(1, times), rest: &|times| make(0, times) },
            Side { whole: &|times| of_cuts(&solutions, true, times), rest: &|times| of_cuts(&solutions, false, times) },
        );
    }

    pub fn print(&self) {
        let (solves, builds, records) = (self.solves.each(), self.builds.each(), self.records.each());
        let (count, name) = (self.tasks.len(), &self.name);
        let each = |time: f64| time / count as f64 / 1e6;
        let cuts = self.cuts.iter().flatten().count();
        let cut = records[0] / cuts as f64;
        let pivot = (solves[0] - builds[0]) / self.pivots as f64;
        let (points, passed, pivots) = (self.points, self.passed, self.pivots / count as u64);
        let without = cuts - points;
        print!("{name}: {points} with a point, {without} without, {passed} passed, {pivots:4} pivots");
        print!("   Rattle {:9.4} ms, Rust {:9.4} ms, ratio {:.2}", each(solves[0]), each(solves[1]), solves[0] / solves[1]);
        print!("   making {:5.2} %, no pivot {:5.2} %", 100.0 * builds[1] / solves[1], 100.0 * builds[0] / solves[0]);
        println!("   cut {:7.2} us, ratio {:.2}, {:5.2} pivots", cut / 1e3, records[0] / records[1], cut / pivot);
    }
}

/// The tasks that have a cut, with it.
fn solutions<'a>(tasks: &'a [Task], cuts: &'a [Option<Arc<Cut>>]) -> Vec<Solution<'a>> {
    tasks.iter().zip(cuts).filter_map(|(task, cut)| Some((task, cut.as_deref()?))).collect()
}
