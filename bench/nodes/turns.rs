// The least times of two calls that take turns.
use crate::clock::{require_same, spent};
use std::hint::black_box;

/// Nanoseconds that a turn of one side takes about, and all turns that are taken one after the other.
const TURN: f64 = 3e6;
const TIME: f64 = 1e8;

/// A call that does something so many times, and one that does all but that.
pub struct Side<'a> {
    pub whole: &'a dyn Fn(u64) -> u64,
    pub rest: &'a dyn Fn(u64) -> u64,
}

fn timed(call: &dyn Fn(u64) -> u64, times: u64) -> (f64, u64) {
    let start = spent();
    let answer = black_box(call(black_box(times)));
    (spent() - start, answer)
}

/// The least times of both sides, Rattle's first.
pub struct Least {
    name: String,
    /// How many times a turn does it; 0 before the first one.
    times: u64,
    wholes: [f64; 2],
    rests: [f64; 2],
}

impl Least {
    pub fn new(name: &str) -> Least {
        Least { name: String::from(name), times: 0, wholes: [f64::MAX; 2], rests: [f64::MAX; 2] }
    }

    /// Has the two take turns for a while. It stops the benchmark where they differ.
    pub fn take(&mut self, rattle: Side, rust: Side) {
        if self.times == 0 {
            let (once, _) = timed(rust.whole, 1);
            self.times = (TURN / once).clamp(1.0, 100_000.0) as u64;
        }
        let began = spent();
        while spent() - began < TIME {
            let answers = [0, 1].map(|place| self.turn(place, [&rattle, &rust][place]));
            require_same(&self.name, answers[0], answers[1]);
        }
    }

    fn turn(&mut self, place: usize, side: &Side) -> u64 {
        let (whole, answer) = timed(side.whole, self.times);
        let (rest, _) = timed(side.rest, self.times);
        self.wholes[place] = self.wholes[place].min(whole);
        self.rests[place] = self.rests[place].min(rest);
        answer
    }

    /// Nanoseconds of doing it once.
    pub fn each(&self) -> [f64; 2] {
        [0, 1].map(|place| (self.wholes[place] - self.rests[place]) / self.times as f64)
    }
}
