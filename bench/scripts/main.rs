// Measures `read_script` beside the same reader in Rust, in one process.
#[path = "../clock.rs"]
mod clock;
#[path = "../fractions/fraction.rs"]
#[allow(dead_code)]
mod fraction;
#[path = "../fractions/gcd.rs"]
mod gcd;
#[path = "../fractions/wide.rs"]
mod wide;
#[path = "../heap.rs"]
mod heap;
mod lists;
#[path = "../mix.rs"]
mod mix;
#[path = "../nodes/turns.rs"]
mod turns;
#[path = "../random.rs"]
mod random;
#[path = "../reader/names.rs"]
mod names;
#[path = "../reader/number.rs"]
mod number;
#[path = "../reader/reader.rs"]
#[allow(dead_code)]
mod reader;
mod script;
#[path = "../trees/digest.rs"]
#[allow(dead_code)]
mod digest;
#[path = "../trees/fold.rs"]
mod fold;
#[path = "../trees/rows.rs"]
mod rows;
#[path = "../trees/stoch.rs"]
mod stoch;
#[path = "../trees/texts.rs"]
#[allow(dead_code)]
mod texts;
#[path = "../trees/tree.rs"]
mod tree;

use clock::require_same;
use digest::{with_entry, with_name, with_value};
use lists::{refused, sets};
use mix::with;
use script::{Act, Item, MOST_COMMANDS, read_script};
use std::hint::black_box;
use texts::Texts;
use tree::Program;
use turns::{Least, Side};

unsafe extern "C" {
    #[rustfmt::skip]
    fn rattle_read(
        core: *const u8, core_len: usize, time: *const u8, time_len: usize, stoch: *const u8, stoch_len: usize,
        edits: *const u8, edits_len: usize, times: u64,
    ) -> u64;
    #[rustfmt::skip]
    fn rattle_items(
        core: *const u8, core_len: usize, time: *const u8, time_len: usize, stoch: *const u8, stoch_len: usize,
        edits: *const u8, edits_len: usize,
    ) -> u64;
}

/// So often each list is measured, a while apart.
const ROUNDS: usize = 10;

fn program_of(texts: &Texts) -> Program {
    let core = reader::read_core(texts.core.as_bytes()).ok().expect("a core");
    let stoch = stoch::read_stoch(texts.stoch.as_bytes(), &core, &texts.periods).ok().expect("cases");
    tree::build(&core, &texts.periods, &stoch).ok().expect("a program")
}

fn with_item(sum: u64, item: &Item) -> u64 {
    let all = with(sum, item.work);
    match &item.act {
        Act::Change(set) => with_value(with_entry(with_name(all, &set.scenario), set.entry), set.value),
        Act::Solve => with(all, 2),
    }
}

/// The texts of a program and an edit list for it.
struct Input<'a> {
    texts: &'a Texts,
    edits: &'a str,
}

impl Input<'_> {
    /// Reads the program, and then the edit list so many times, by Rattle.
    fn rattle(&self, times: u64) -> u64 {
        let Texts { core, time, stoch, .. } = self.texts;
        unsafe {
            rattle_read(
                core.as_ptr(), core.len(), time.as_ptr(), time.len(), stoch.as_ptr(), stoch.len(), self.edits.as_ptr(), self.edits.len(),
                times,
            )
        }
    }

    fn rust(&self, times: u64) -> u64 {
        let program = program_of(black_box(self.texts));
        (0..times).fold(0, |sum, _| match black_box(read_script(black_box(self.edits.as_bytes()), &program)) {
            Ok(items) => with(sum, items.len() as u64),
            Err((line, cause)) => with(sum, with(line as u64, cause as u64)),
        })
    }

    /// Stops the benchmark where the two have different items, or different faults. It gives the line at fault and the cause.
    fn require_same(&self, name: &str, program: &Program) -> Option<(u32, u32)> {
        let Texts { core, time, stoch, .. } = self.texts;
        let edits = self.edits;
        let ours = unsafe {
            rattle_items(
                core.as_ptr(), core.len(), time.as_ptr(), time.len(), stoch.as_ptr(), stoch.len(), edits.as_ptr(), edits.len(),
            )
        };
        let (theirs, fault) = match read_script(edits.as_bytes(), program) {
            Ok(items) => (items.iter().fold(0, with_item), None),
            Err((line, cause)) => (with(line as u64, cause as u64), Some((line, cause))),
        };
        require_same(name, ours, theirs);
        fault
    }
}

fn compare(name: &str, texts: &Texts, program: &Program, count: usize) {
    let edits = sets(program, count).join("\n");
    let input = Input { texts, edits: &edits };
    let fault = input.require_same(name, program);
    assert!(fault.is_none(), "{name}: a line is refused: {fault:?}");
    let mut least = Least::new(name);
    for _ in 0..ROUNDS {
        least.take(
            Side { whole: &|times| input.rattle(times), rest: &|_| input.rattle(0) },
            Side { whole: &|times| input.rust(times), rest: &|_| input.rust(0) },
        );
    }
    let [ours, theirs] = least.each().map(|time| time / 1e6);
    println!(
        "{name:14} {:6} nodes, {:5} scenarios, {count:5} SETs   Rattle {ours:8.2} ms   Rust {theirs:8.2} ms   ratio {:.2}",
        program.nodes.len(),
        program.scenarios.len(),
        ours / theirs
    );
}

fn main() {
    heap::keep_memory();
    // Without a word both programs are edited, else those whose names have it.
    let wanted = std::env::args().nth(1).unwrap_or_default();
    let programs: [(&str, fn() -> Texts); 2] = [("six periods", texts::six_narrow), ("three periods", texts::three_narrow)];
    for (name, texts) in programs.into_iter().filter(|(name, _)| name.contains(&wanted)) {
        let texts = texts();
        let program = program_of(&texts);
        for edits in refused(&program) {
            let fault = Input { texts: &texts, edits: &edits }.require_same(name, &program);
            let (line, cause) = fault.expect("a list that is refused");
            println!("{name:14} line {line} is refused with {cause} by both");
        }
        for count in [0, MOST_COMMANDS] {
            compare(name, &texts, &program, count);
        }
    }
}
