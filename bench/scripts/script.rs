// The reader of edit lists in Rust, of SETs alone, which are all that the lists have: names are found in hash tables.
use crate::fraction::{Frac, Term};
use crate::names::Names;
use crate::reader::{Line, lines_of, number};
use crate::rows::NodeRow;
use crate::stoch::Entry;
use crate::tree::{Node, Program, interval, set_term};

pub struct Set {
    pub scenario: Vec<u8>,
    pub entry: Entry,
    pub value: Frac,
}

pub enum Act {
    Change(Set),
    Solve,
}

pub struct Item {
    pub work: u64,
    pub act: Act,
}

type Fault = u32;

/// So many commands a list has at most.
pub const MOST_COMMANDS: usize = 10_000;
/// So many entries and costs a program has at most over all nodes, each by itself.
const MOST_ENTRIES: usize = 10_000_000;

/// What the commands so far come to.
struct Draft {
    /// The program after their edits, and its entries and costs over all nodes.
    program: Program,
    entries: usize,
    costs: usize,
    scenarios: Names,
    columns: Names,
    rows: Names,
    items: Vec<Item>,
}

fn table<'a>(names: impl Iterator<Item = &'a Vec<u8>>) -> Names {
    let mut table = Names::empty();
    names.for_each(|name| table.add(name));
    table
}

fn row_of(node: &mut Node, row: u32) -> &mut NodeRow {
    let place = node.rows.binary_search_by_key(&row, |row| row.row).expect("a row of the node's stage");
    &mut node.rows[place]
}

/// Sets the value in a column of terms, of which the program has so many over all nodes.
fn set(terms: &mut Vec<Term>, count: &mut usize, column: u32, value: Frac) -> Result<(), Fault> {
    let less = terms.len();
    set_term(terms, column as u64, value);
    *count = *count + terms.len() - less;
    if *count > MOST_ENTRIES { Err(49) } else { Ok(()) }
}

impl Draft {
    fn start(program: &Program) -> Draft {
        let nodes = || program.nodes.iter().flatten();
        Draft {
            program: program.clone(),
            entries: nodes().flat_map(|node| &node.rows).map(|row| row.entries.len()).sum(),
            costs: nodes().map(|node| node.cost.len()).sum(),
            scenarios: table(program.scenarios.iter().map(|scenario| &scenario.name)),
            columns: table(program.columns.iter().map(|column| &column.name)),
            rows: table(program.rows.iter().map(|row| &row.name)),
            items: Vec::new(),
        }
    }

    /// The entry that two fields name, whose column isn't of a later stage than its row.
    fn entry(&self, column: &[u8], row: &[u8]) -> Result<Entry, Fault> {
        let program = &self.program;
        let place = || self.rows.place(row).ok_or(55u32);
        let Some(column) = self.columns.place(column) else {
            let is_rhs = column == program.rhs || column == b"RHS";
            return if is_rhs { Ok(Entry::Rhs { row: place()? as u32 }) } else { Err(55) };
        };
        if row == program.objective {
            return Ok(Entry::Cost { column: column as u32 });
        }
        let row = place()?;
        if program.rows[row].stage < program.columns[column].stage {
            return Err(42);
        }
        Ok(Entry::Matrix { row: row as u32, column: column as u32 })
    }

    fn apply(&mut self, scenario: usize, entry: Entry, value: Frac) -> Result<(), Fault> {
        let Program { columns, rows, nodes, scenarios, .. } = &mut self.program;
        let stage = match entry {
            Entry::Cost { column } => columns[column as usize].stage,
            Entry::Matrix { row, .. } | Entry::Rhs { row } => rows[row as usize].stage,
        };
        let place = scenarios[scenario].path[stage as usize];
        let node = nodes[place as usize].as_mut().expect("a live node");
        match entry {
            Entry::Cost { column } => set(&mut node.cost, &mut self.costs, column, value),
            Entry::Matrix { row, column } => set(&mut row_of(node, row).entries, &mut self.entries, column, value),
            Entry::Rhs { row } => {
                let stated = &rows[row as usize];
                let found = row_of(node, row);
                (found.low, found.high) = interval(stated.kind, value, stated.range).map_err(|_| 57u32)?;
                Ok(())
            }
        }
    }

    fn step(&mut self, line: &Line) -> Result<(), Fault> {
        if self.items.len() >= MOST_COMMANDS {
            return Err(56);
        }
        let [b"SET", fields @ ..] = line.fields() else { return Err(50) };
        let [name, column, row, word] = fields else { return Err(18) };
        let scenario = self.scenarios.place(name).ok_or(51u32)?;
        let entry = self.entry(column, row)?;
        let value = number(word)?;
        self.apply(scenario, entry, value)?;
        self.items.push(Item { work: 0, act: Act::Change(Set { scenario: name.to_vec(), entry, value }) });
        Ok(())
    }
}

/// The items of the edit list, with a report at the end, or the line at fault and the cause.
pub fn read_script(text: &[u8], program: &Program) -> Result<Vec<Item>, (u32, Fault)> {
    let mut draft = Draft::start(program);
    for line in lines_of(text) {
        draft.step(&line).map_err(|fault| (line.number, fault))?;
    }
    draft.items.push(Item { work: 0, act: Act::Solve });
    Ok(draft.items)
}
