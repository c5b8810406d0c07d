//! Whether tables are well formed, in one pass over each.

use crate::sets::{contained, is_single, lowest, union, EMPTY};
use crate::tables::{Tables, CLAUSES, LITERALS, UNIVERSALS, VARIABLES, WIDTH};

impl Tables {
    pub fn well_formed(&self) -> bool {
        self.counts_fit() && self.variables_fit() && self.clauses_fit() && self.rest_is_zero()
    }

    fn counts_fit(&self) -> bool {
        let counts = &self.counts;
        counts.variables <= VARIABLES
            && counts.bound <= counts.variables
            && counts.universals <= UNIVERSALS
            && counts.formula <= CLAUSES
            && counts.clauses <= CLAUSES
            && counts.literals <= LITERALS
            && counts.bound + counts.clauses == counts.formula + counts.steps + counts.variables
    }

    fn variables_fit(&self) -> bool {
        let (mut universals, mut all, mut others) = (0, EMPTY, EMPTY);
        for index in 0..self.counts.variables {
            let set = self.sets[index];
            let fork = index >= self.counts.bound;
            match self.kinds[index] {
                0 if set == EMPTY && !fork => (),
                1 if is_single(set) && !fork => {
                    all = union(all, set);
                    universals += 1;
                }
                2 if !fork => others = union(others, set),
                3 if fork => others = union(others, set),
                _ => return false,
            }
        }
        // So many single places are the lowest ones only if they are different.
        universals == self.counts.universals && all == lowest(universals) && contained(others, all)
    }

    fn clauses_fit(&self) -> bool {
        let counts = &self.counts;
        let (mut start, mut empty) = (0, 0);
        for index in 0..counts.clauses {
            let end = usize::from(self.ends[index]);
            if end < start || end > counts.literals || end - start > WIDTH {
                return false;
            }
            if end == start && empty == 0 {
                empty = index + 1;
            }
            if !self.clause_fits(start, end, index < counts.formula) {
                return false;
            }
            start = end;
        }
        start == counts.literals && empty == counts.empty
    }

    fn clause_fits(&self, start: usize, end: usize, of_formula: bool) -> bool {
        let bound = match of_formula {
            true => self.counts.bound,
            false => self.counts.variables,
        };
        let mut last = 0;
        for &literal in &self.literals[start..end] {
            let variable = usize::from(literal.unsigned_abs());
            if variable <= last || variable > bound || self.kinds[variable - 1] == 0 {
                return false;
            }
            last = variable;
        }
        true
    }

    /// Of the sets the rest is tested where they are read.
    fn rest_is_zero(&self) -> bool {
        let counts = &self.counts;
        self.literals[counts.literals..].iter().all(|&l| l == 0)
            && self.ends[counts.clauses..].iter().all(|&e| e == 0)
            && self.kinds[counts.variables..].iter().all(|&k| k == 0)
    }
}
