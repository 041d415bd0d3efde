// Measures `solve_node`, `Cut::of` and pools of cuts beside the same steps in Rust, in one process.
#[path = "../clock.rs"]
mod clock;
#[path = "../nested/cuts.rs"]
#[allow(dead_code)]
mod cuts;
mod digest;
#[path = "../fractions/fraction.rs"]
#[allow(dead_code)]
mod fraction;
#[path = "../fractions/gcd.rs"]
mod gcd;
#[path = "../mix.rs"]
mod mix;
#[path = "../nested/node.rs"]
mod node;
mod pools;
#[path = "../random.rs"]
mod random;
mod records;
#[path = "../trees/rows.rs"]
mod rows;
#[path = "../simplex/simplex.rs"]
#[allow(dead_code)]
mod simplex;
mod solves;
mod tasks;
mod turns;
#[path = "../fractions/wide.rs"]
mod wide;
mod words;

use pools::Pools;
use solves::Nodes;

/// Rows of a node, cuts about its children, and how many such nodes.
const SIZES: [(u32, u64, u64); 9] =
    [(10, 0, 5), (10, 30, 5), (10, 300, 3), (30, 0, 5), (30, 30, 5), (30, 300, 3), (100, 0, 5), (100, 30, 5), (100, 300, 3)];

/// So often each is measured, a while apart, since the machine may be busy for some seconds.
const ROUNDS: usize = 3;

fn main() {
    let kinds = [true, false];
    let sizes = kinds.iter().flat_map(|is_whole| SIZES.map(|(rows, cuts, count)| Nodes::new(*is_whole, rows, cuts, count)));
    let mut nodes: Vec<Nodes> = sizes.collect();
    let mut pools: Vec<Pools> = kinds.iter().flat_map(|is_whole| [10, 30, 100].map(|rows| Pools::new(*is_whole, rows))).collect();
    for _ in 0..ROUNDS {
        nodes.iter_mut().for_each(Nodes::take);
        pools.iter_mut().for_each(Pools::take);
    }
    nodes.iter().for_each(Nodes::print);
    pools.iter().for_each(Pools::print);
}
