// Pools of cuts that are offered one and swept, in Rattle and in Rust, with the steps of `cut_pool`.
use crate::cuts::{Cut, Pool};
use crate::digest::{of_number, of_offer};
use crate::fraction::Passed;
use crate::mix::with;
use crate::tasks::{Held, Maker, kind_of};
use crate::turns::{Least, Side};
use crate::words::Words;
use std::sync::Arc;

unsafe extern "C" {
    fn rattle_values(words: *const u64, len: usize, times: u64) -> u64;
    fn rattle_offers(words: *const u64, len: usize, times: u64) -> u64;
    fn rattle_sweeps(words: *const u64, len: usize, is_swept: u64, times: u64) -> u64;
}

/// So many cuts a pool has.
const HELD: u64 = 300;

/// That the rows of a node were edited.
struct Touch {
    node: u32,
    version: u32,
}

fn rests(cut: &Cut, touch: &Touch) -> bool {
    cut.support.iter().any(|stamp| stamp.node == touch.node && !stamp.is_costs && stamp.version < touch.version)
}

fn pool(held: &Held) -> Pool {
    let mut pool = Pool::default();
    held.cuts.iter().for_each(|cut| pool.put(Arc::clone(cut)));
    pool
}

/// Takes those that rest on the touch out of the pool.
fn sweep(pool: &mut Pool, touch: &Touch) -> Vec<Arc<Cut>> {
    let (mut kept, mut retired) = (Vec::new(), Vec::new());
    for cut in &pool.cuts {
        let side = if rests(cut, touch) { &mut retired } else { &mut kept };
        side.push(Arc::clone(cut));
    }
    pool.cuts = kept;
    pool.number += 1;
    retired
}

/// The values of all cuts at the trial, so many times.
fn of_values(held: &Held, times: u64) -> Result<u64, Passed> {
    let mut sum = 0;
    for _ in 0..times {
        for cut in &held.cuts {
            sum = of_number(sum, cut.at(&held.trial)?);
        }
    }
    Ok(sum)
}

/// Offers the first cut of a pool to it, so many times.
fn of_offers(held: &Held, times: u64) -> u64 {
    let mut pool = pool(held);
    (0..times).fold(0, |sum, _| of_offer(sum, &pool.offer(Arc::clone(&held.cuts[0]), &held.trial)))
}

/// Makes a pool so many times and sweeps it for the rows of the node whose cut its first cut uses; without `is_swept` it is only made.
fn of_sweeps(held: &Held, is_swept: bool, times: u64) -> u64 {
    let touch = Touch { node: held.cuts[0].source.used[0].cut.source.node, version: 1 };
    let mut sum = 0;
    for _ in 0..times {
        let mut pool = pool(held);
        if is_swept {
            let retired = sweep(&mut pool, &touch);
            sum = with(with(sum, retired.len() as u64), pool.number);
        }
    }
    sum
}

/// A pool of cuts about a child of a node of so many rows, and what was measured.
pub struct Pools {
    name: String,
    held: Held,
    words: Vec<u64>,
    values: Least,
    offers: Least,
    sweeps: Least,
}

impl Pools {
    pub fn new(is_whole: bool, rows: u32) -> Pools {
        let name = format!("{:8} {rows:3} rows, a pool of {HELD} cuts", kind_of(is_whole));
        let held = Maker::new(0, is_whole, rows).held(HELD);
        Pools {
            words: Words::held(&held),
            held,
            values: Least::new(&name),
            offers: Least::new(&name),
            sweeps: Least::new(&name),
            name,
        }
    }

    /// Has both sides take turns.
    pub fn take(&mut self) {
        let (held, words) = (&self.held, &self.words);
        let (words, len) = (words.as_ptr(), words.len());
        let nothing = |_| 0;
        let value = |times| unsafe { rattle_values(words, len, times) };
        self.values.take(
            Side { whole: &value, rest: &|_| value(0) },
            Side { whole: &|times| of_values(held, times).unwrap_or(0), rest: &nothing },
        );
        let offer = |times| unsafe { rattle_offers(words, len, times) };
        self.offers.take(
            Side { whole: &offer, rest: &|_| offer(0) },
            Side { whole: &|times| of_offers(held, times), rest: &nothing },
        );
        let sweep = |is_swept, times| unsafe { rattle_sweeps(words, len, is_swept, times) };
        self.sweeps.take(
            Side { whole: &|times| sweep(1, times), rest: &|times| sweep(0, times) },
            Side { whole: &|times| of_sweeps(held, true, times), rest: &|times| of_sweeps(held, false, times) },
        );
    }

    pub fn print(&self) {
        let (values, offers, sweeps) = (self.values.each(), self.offers.each(), self.sweeps.each());
        let ratio = |times: [f64; 2]| times[0] / times[1];
        print!("{}: {HELD} values {:6.2} us, ratio {:.2}", self.name, values[0] / 1e3, ratio(values));
        print!("   offer {:6.2} us, ratio {:.2}, {:.2} of the values", offers[0] / 1e3, ratio(offers), offers[0] / values[0]);
        println!("   sweep {:6.2} us, ratio {:.2}", sweeps[0] / 1e3, ratio(sweeps));
    }
}
