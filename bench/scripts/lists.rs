// The edit lists that are read: SETs of right-hand sides, costs and matrix entries by turns.
use crate::script::MOST_COMMANDS;
use crate::texts::random;
use crate::tree::Program;

fn text(name: &[u8]) -> &str {
    str::from_utf8(name).expect("a name of ASCII letters")
}

/// So many SETs, each of a scenario, a row and a column by chance. A matrix entry is of a column that comes no later than its row.
pub fn sets(program: &Program, count: usize) -> Vec<String> {
    let mut random = random();
    let mut below = |n: usize| random.below(n as u64) as usize;
    let places: Vec<[usize; 3]> = (0..count)
        .map(|_| {
            let row = below(program.rows.len());
            let columns = program.columns.partition_point(|column| column.stage <= program.rows[row].stage);
            [below(program.scenarios.len()), row, below(columns)]
        })
        .collect();
    let line = |(number, [scenario, row, column]): (usize, &[usize; 3])| {
        let scenario = text(&program.scenarios[*scenario].name);
        let (row, column) = (text(&program.rows[*row].name), text(&program.columns[*column].name));
        let (column, row) = [("RHS", row), (column, text(&program.objective)), (column, row)][number % 3];
        format!("SET {scenario} {column} {row} {}", random.value())
    };
    places.iter().enumerate().map(line).collect()
}

/// Lists with one line that is refused, for each cause that a SET may have but for the limit of entries, and one with a line too many.
pub fn refused(program: &Program) -> Vec<String> {
    let name = text(&program.scenarios[program.scenarios.len() / 2].name);
    let (first, last) = (text(&program.rows[0].name), text(&program.columns[program.columns.len() - 1].name));
    let lines = [
        format!("PUT {name} RHS {first} 1"),
        format!("SET {name} RHS {first}"),
        format!("SET NOBODY RHS {first} 1"),
        format!("SET {name} RHS NOTHING 1"),
        format!("SET {name} NOTHING {first} 1"),
        format!("SET {name} {last} {first} 1"),
        format!("SET {name} RHS {first} 1x"),
        format!("SET {name} RHS {first} 1e40"),
        // The other end of the row is further from 0 than any number.
        format!("SET {name} RHS {first} -{}", i128::MAX),
    ];
    let mut lists: Vec<String> = Vec::new();
    for line in lines {
        let mut list = sets(program, MOST_COMMANDS);
        list[MOST_COMMANDS / 2] = line;
        lists.push(list.join("\n"));
    }
    lists.push(sets(program, MOST_COMMANDS + 1).join("\n"));
    lists
}
