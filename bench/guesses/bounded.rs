// A basis of a program over bounded columns in floating point: factors with etas, values, reduced costs.
use crate::lp::{Lp, Place, Vector};
use crate::lu::{Lu, Sparse};

pub const TOLERANCE: f64 = 1e-9;
const MOST_ETAS: usize = 100;

struct Eta {
    at: u32,
    inverse: f64,
    entries: Sparse<f64>,
}

#[derive(Clone, Copy, PartialEq, Debug)]
pub enum End {
    Optimal,
    /// The basic column at this position can't be brought within its bounds; whether it is below them.
    Infeasible { position: usize, is_below: bool },
    Unbounded,
    /// The steps have ended, or numbers went wrong.
    Lost,
}

#[derive(Default, Clone, Copy)]
pub struct Counts {
    pub dual: u64,
    pub primal: u64,
    pub factors: u64,
}

pub struct Basis<'a> {
    pub lp: &'a Lp,
    pub n: usize,
    pub m: usize,
    pub cost: Vec<f64>,
    pub head: Vec<u32>,
    pub place: Vec<Place>,
    pub x: Vec<f64>,
    pub d: Vec<f64>,
    lu: Option<Lu<f64>>,
    etas: Vec<Eta>,
    eta_entries: usize,
    work: Vec<f64>,
    /// The places of `work` that may be other than 0; none where there are many.
    given: Vec<u32>,
    /// 0 between two calls.
    unit: Vec<f64>,
    /// The row of the tableau of the last `row`, by column, and which of its columns are other than 0.
    pub alpha: Vec<f64>,
    pub touched: Vec<u32>,
    pub counts: Counts,
    /// What is left of the work that is allowed; each entry that is looked at counts as 1.
    pub work_left: u64,
    entries: u64,
}

impl<'a> Basis<'a> {
    /// The basis where these columns are basic; what is missing or depends is filled up with rows.
    pub fn new(lp: &'a Lp, places: &[Place], work_left: u64) -> Option<Basis<'a>> {
        let (n, m) = (lp.columns.len(), lp.rows.len());
        let mut cost = lp.cost.clone();
        cost.resize(n + m, 0.0);
        let mut basis = Basis {
            lp,
            n,
            m,
            cost,
            head: Vec::with_capacity(m),
            place: Vec::with_capacity(n + m),
            x: vec![0.0; n + m],
            d: vec![0.0; n + m],
            lu: None,
            etas: Vec::new(),
            eta_entries: 0,
            work: vec![0.0; m],
            given: Vec::new(),
            unit: vec![0.0; m],
            alpha: vec![0.0; n + m],
            touched: Vec::new(),
            counts: Counts::default(),
            work_left,
            entries: lp.columns.iter().map(|column| column.len() as u64).sum(),
        };
        for column in 0..n + m {
            let place = places.get(column).copied().unwrap_or(if column < n { lp.rest(column) } else { Place::Basic });
            let place = match place {
                Place::Basic if basis.head.len() < m => {
                    basis.head.push(column as u32);
                    Place::Basic
                }
                Place::Low if lp.low[column].is_finite() => Place::Low,
                Place::High if lp.high[column].is_finite() => Place::High,
                _ => lp.rest(column),
            };
            basis.place.push(place);
        }
        let mut row = 0;
        while basis.head.len() < m && row < m {
            if basis.place[n + row] != Place::Basic {
                basis.place[n + row] = Place::Basic;
                basis.head.push((n + row) as u32);
            }
            row += 1;
        }
        if basis.factor() { Some(basis) } else { None }
    }

    fn spend(&mut self, work: usize) {
        self.work_left = self.work_left.saturating_sub(work as u64 + 1);
    }

    pub fn is_spent(&self) -> bool {
        self.work_left == 0
    }

    /// Factors the basis anew. Columns that depend on others give way to rows.
    pub fn factor(&mut self) -> bool {
        let units: Vec<[(u32, f64); 1]> = (0..self.m as u32).map(|row| [(row, -1.0)]).collect();
        for _ in 0..20 {
            self.counts.factors += 1;
            let column = |column: &u32| -> &[(u32, f64)] {
                let column = *column as usize;
                if column < self.n { &self.lp.columns[column] } else { &units[column - self.n] }
            };
            let columns: Vec<&[(u32, f64)]> = self.head.iter().map(column).collect();
            match Lu::of(&columns) {
                Ok(lu) => {
                    let work = 4 * lu.entries() + 4 * self.m;
                    self.lu = Some(lu);
                    self.etas.clear();
                    self.eta_entries = 0;
                    self.spend(work);
                    return true;
                }
                Err(left) => {
                    for (row, position) in left.rows.iter().zip(&left.columns) {
                        let out = self.head[*position as usize] as usize;
                        self.place[out] = self.lp.rest(out);
                        let row = self.n + *row as usize;
                        self.head[*position as usize] = row as u32;
                        self.place[row] = Place::Basic;
                    }
                }
            }
        }
        false
    }

    pub fn is_due(&self) -> bool {
        self.etas.len() >= MOST_ETAS + self.m / 20 || self.eta_entries > self.m + 1000 + 2 * self.lu.as_ref().map_or(0, Lu::entries)
    }

    pub fn has_etas(&self) -> bool {
        !self.etas.is_empty()
    }

    /// From `work` by row to a solution by position.
    fn forward(&mut self, solution: &mut Vector) {
        solution.clear();
        let Some(lu) = &self.lu else { return };
        lu.forward(&mut self.work, &self.given, &mut solution.values, &mut solution.places);
        self.given.clear();
        for eta in &self.etas {
            let value = solution.values[eta.at as usize];
            if value == 0.0 {
                continue;
            }
            let value = value * eta.inverse;
            for (position, entry) in &eta.entries {
                solution.less(*position, entry * value);
            }
            solution.values[eta.at as usize] = value;
        }
        let work = solution.places.len() + self.etas.len() + self.m / 16;
        self.spend(work);
    }

    /// From costs by position, which are spent, to multipliers by row.
    pub fn backward(&self, costs: &mut [f64], given: &mut Vec<u32>, solution: &mut Vector) {
        solution.clear();
        let Some(lu) = &self.lu else { return };
        for eta in self.etas.iter().rev() {
            let mut value = costs[eta.at as usize];
            for (position, entry) in &eta.entries {
                value -= entry * costs[*position as usize];
            }
            if value != 0.0 && costs[eta.at as usize] == 0.0 && !given.is_empty() {
                given.push(eta.at);
            }
            costs[eta.at as usize] = value * eta.inverse;
        }
        lu.backward(costs, given, &mut solution.values, &mut solution.places);
    }

    fn scatter(&mut self, column: usize, factor: f64) {
        if column < self.n {
            for (row, value) in &self.lp.columns[column] {
                self.work[*row as usize] += value * factor;
                self.given.push(*row);
            }
        } else {
            self.work[column - self.n] -= factor;
            self.given.push((column - self.n) as u32);
        }
    }

    /// The column of the tableau, by position.
    pub fn column(&mut self, column: usize, solution: &mut Vector) {
        self.scatter(column, 1.0);
        self.forward(solution);
    }

    /// What several columns, each with its factor, make of the basic ones.
    pub fn columns(&mut self, factors: &[(u32, f64)], solution: &mut Vector) {
        for (column, factor) in factors {
            self.scatter(*column as usize, *factor);
        }
        self.forward(solution);
    }

    pub fn of_rows(&mut self, rows: &Vector, solution: &mut Vector) {
        for row in &rows.places {
            self.work[*row as usize] = rows.values[*row as usize];
        }
        self.given.extend_from_slice(&rows.places);
        self.forward(solution);
    }

    /// The row of the inverse at a position, and with it the row of the tableau.
    pub fn row(&mut self, position: usize, rho: &mut Vector) {
        let mut unit = std::mem::take(&mut self.unit);
        unit[position] = 1.0;
        let mut given = vec![position as u32];
        self.backward(&mut unit, &mut given, rho);
        self.unit = unit;
        for column in &self.touched {
            self.alpha[*column as usize] = 0.0;
        }
        self.touched.clear();
        for row in &rho.places {
            let row = *row as usize;
            let factor = rho.values[row];
            if factor.abs() < 1e-14 {
                continue;
            }
            for (column, value) in &self.lp.rows[row] {
                let place = &mut self.alpha[*column as usize];
                if *place == 0.0 {
                    self.touched.push(*column);
                }
                *place += factor * value;
                if *place == 0.0 {
                    *place = 1e-300;
                }
            }
            self.alpha[self.n + row] = -factor;
            self.touched.push((self.n + row) as u32);
        }
        let work = 2 * self.touched.len() + rho.places.len() + self.eta_entries + self.m / 16;
        self.spend(work);
    }

    /// Puts the columns that aren't basic to their bounds and computes the others.
    pub fn values(&mut self) {
        self.spend(self.n + 2 * self.m + self.entries as usize);
        for column in 0..self.n + self.m {
            match self.place[column] {
                Place::Basic => continue,
                Place::Low => self.x[column] = self.lp.low[column],
                Place::High => self.x[column] = self.lp.high[column],
                Place::Free => self.x[column] = 0.0,
            }
            let value = self.x[column];
            if value != 0.0 {
                self.scatter(column, -value);
            }
        }
        let mut solution = Vector::new(self.m);
        self.forward(&mut solution);
        for position in 0..self.m {
            self.x[self.head[position] as usize] = solution.values[position];
        }
    }

    /// The multipliers of the rows, and all reduced costs.
    pub fn prices(&mut self) -> Vec<f64> {
        self.spend(self.n + 2 * self.m + self.entries as usize);
        let mut costs: Vec<f64> = self.head.iter().map(|column| self.cost[*column as usize]).collect();
        let mut multipliers = Vector::new(self.m);
        self.backward(&mut costs, &mut Vec::new(), &mut multipliers);
        let y = multipliers.values;
        for column in 0..self.n {
            self.d[column] = if self.place[column] == Place::Basic {
                0.0
            } else {
                let mut sum = self.cost[column];
                for (row, value) in &self.lp.columns[column] {
                    sum -= value * y[*row as usize];
                }
                sum
            };
        }
        for row in 0..self.m {
            let column = self.n + row;
            self.d[column] = if self.place[column] == Place::Basic { 0.0 } else { self.cost[column] + y[row] };
        }
        y
    }

    /// By how much a column is below its low bound (below 0) or above its high one (above 0), beyond the tolerance.
    pub fn excess(&self, column: usize) -> f64 {
        let (x, low, high) = (self.x[column], self.lp.low[column], self.lp.high[column]);
        if x < low && low - x > TOLERANCE * (1.0 + low.abs()) {
            x - low
        } else if x > high && x - high > TOLERANCE * (1.0 + high.abs()) {
            x - high
        } else {
            0.0
        }
    }

    /// Whether the reduced cost of a column that isn't basic has the wrong sign.
    pub fn is_wrong(&self, column: usize, tolerance: f64) -> bool {
        if self.lp.low[column] == self.lp.high[column] {
            return false;
        }
        match self.place[column] {
            Place::Basic => false,
            Place::Low => self.d[column] < -tolerance,
            Place::High => self.d[column] > tolerance,
            Place::Free => self.d[column].abs() > tolerance,
        }
    }

    /// The column enters at the position, with its column of the tableau.
    pub fn exchange(&mut self, position: usize, column: usize, tableau: &Vector) {
        let mut entries = Vec::with_capacity(tableau.places.len());
        for place in &tableau.places {
            let value = tableau.values[*place as usize];
            if *place as usize != position && value.abs() > 1e-14 {
                entries.push((*place, value));
            }
        }
        self.eta_entries += entries.len();
        self.etas.push(Eta { at: position as u32, inverse: 1.0 / tableau.values[position], entries });
        self.head[position] = column as u32;
        self.place[column] = Place::Basic;
    }
}
