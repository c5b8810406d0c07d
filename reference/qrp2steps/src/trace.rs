//! QRP: `p qrp V N`, the prefix, a line for each step (its number, its
//! literals, 0, the numbers of its antecedents, 0) and `r UNSAT`.

use std::collections::BTreeMap;

use checker::clause::{clause_of, Clause};

use crate::qdimacs::numbers;

#[derive(Clone, Debug, PartialEq, Eq)]
pub struct Step {
    pub number: i32,
    pub clause: Clause,
    /// None for a clause of the formula, one for a reduction, two for a
    /// resolution.
    pub antecedents: Vec<i32>,
}

/// The steps that lead to the empty clause, each behind its antecedents.
pub fn read(text: &str) -> Result<Vec<Step>, String> {
    let mut steps = Vec::new();
    let mut refuted = false;
    for line in text.lines() {
        match line.split_whitespace().next() {
            None | Some("c" | "p" | "a" | "e") => (),
            Some("r") => refuted = line.trim() == "r UNSAT",
            Some(_) => steps.push(step(line).map_err(|error| format!("{line}: {error}"))?),
        }
    }
    if !refuted {
        return Err("the trace does not end with r UNSAT".into());
    }
    needed(steps)
}

fn step(line: &str) -> Result<Step, String> {
    let mut words = line.split_whitespace();
    let number = words.next().and_then(|word| word.parse().ok());
    Ok(Step {
        number: number.ok_or("no number leads")?,
        clause: clause_of(&numbers(&mut words)?),
        antecedents: numbers(&mut words)?,
    })
}

/// Leaves out what the empty clause does not follow from, as cubes.
fn needed(mut steps: Vec<Step>) -> Result<Vec<Step>, String> {
    let end = steps.iter().rposition(|step| step.clause.is_empty());
    steps.truncate(end.ok_or("no empty clause")? + 1);
    let places: BTreeMap<i32, usize> = (0..).zip(&steps).map(|(i, s)| (s.number, i)).collect();
    let mut wanted = vec![false; steps.len()];
    wanted[steps.len() - 1] = true;
    for place in (0..steps.len()).rev() {
        if !wanted[place] {
            continue;
        }
        for antecedent in &steps[place].antecedents {
            match places.get(antecedent) {
                Some(&earlier) if earlier < place => wanted[earlier] = true,
                _ => return Err(format!("step {antecedent} is used before it is there")),
            }
        }
    }
    let mut keep = wanted.into_iter();
    steps.retain(|_| keep.next() == Some(true));
    Ok(steps)
}
