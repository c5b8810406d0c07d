//! QDIMACS: a prefix of quantifier blocks and clauses.

use std::collections::BTreeSet;

use checker::clause::{clause_of, has_complementary, Clause};

/// A block of the prefix.
#[derive(Clone, Debug, PartialEq, Eq)]
pub struct Block {
    pub universal: bool,
    pub variables: Vec<u32>,
}

#[derive(Clone, Debug, Default, PartialEq, Eq)]
pub struct Qbf {
    pub variables: u32,
    pub prefix: Vec<Block>,
    /// The clauses that are no tautologies.
    pub clauses: Vec<Clause>,
}

/// The numbers up to a 0.
pub fn numbers<'a>(words: &mut impl Iterator<Item = &'a str>) -> Result<Vec<i32>, String> {
    let mut numbers = Vec::new();
    for word in words {
        match word.parse() {
            Ok(0) => return Ok(numbers),
            Ok(number) => numbers.push(number),
            Err(_) => return Err(format!("{word} is no number")),
        }
    }
    Err("a 0 is missing".into())
}

/// Reads a text; clauses may run over several lines.
pub fn read(text: &str) -> Result<Qbf, String> {
    let lines = text.lines().filter(|line| !line.starts_with('c'));
    let mut words = lines.flat_map(str::split_whitespace).peekable();
    let header: Vec<&str> = words.by_ref().take(4).collect();
    let mut qbf = match header.as_slice() {
        ["p", "cnf", variables, _] => Qbf {
            variables: variables.parse().map_err(|_| "V is no number")?,
            ..Qbf::default()
        },
        _ => return Err("the header is missing".into()),
    };
    while let Some(&word) = words.peek() {
        if word == "a" || word == "e" {
            words.next();
            let variables = numbers(&mut words)?;
            qbf.prefix.push(Block {
                universal: word == "a",
                variables: variables.iter().map(|v| v.unsigned_abs()).collect(),
            });
        } else {
            let clause = clause_of(&numbers(&mut words)?);
            qbf.clauses.push(clause);
        }
    }
    qbf.clauses.retain(|clause| !has_complementary(clause));
    Ok(qbf)
}

impl Qbf {
    /// Variables that the clauses use and no block declares: existentials
    /// outside the prefix.
    fn free(&self) -> BTreeSet<u32> {
        let literals = self.clauses.iter().flatten();
        let mut free: BTreeSet<u32> = literals.map(|literal| literal.variable()).collect();
        for variable in self.prefix.iter().flat_map(|block| &block.variables) {
            free.remove(variable);
        }
        free
    }

    /// The DQDIMACS text: an existential depends on the universals before it, as
    /// on the `e` lines of both formats.
    pub fn text(&self) -> String {
        let line = |front: &str, rest: &[String]| format!("{front} {} 0\n", rest.join(" "));
        let named =
            |variables: &[u32]| -> Vec<String> { variables.iter().map(u32::to_string).collect() };
        let mut text = format!("p cnf {} {}\n", self.variables, self.clauses.len());
        for variable in self.free() {
            text += &format!("d {variable} 0\n");
        }
        for block in self.prefix.iter().filter(|b| !b.variables.is_empty()) {
            let letter = if block.universal { "a" } else { "e" };
            text += &line(letter, &named(&block.variables));
        }
        for clause in &self.clauses {
            let literals = clause
                .iter()
                .map(|literal| format!("{} ", literal.number()));
            text.extend(literals);
            text += "0\n";
        }
        text
    }
}

#[cfg(test)]
mod tests {
    use super::*;

    #[test]
    fn existentials_depend_on_the_universals_before_them() {
        let text = "c\np cnf 6 3\ne 1 0\na 2 3 0\ne 4 0\na 5 0\ne 6 0\n1 -2 0\n4\n6 0 3 -3 0\n";
        let wanted = "p cnf 6 2\ne 1 0\na 2 3 0\ne 4 0\na 5 0\ne 6 0\n1 -2 0\n4 6 0\n";
        let read = read(text).unwrap();
        assert_eq!(read.text(), wanted);
    }

    #[test]
    fn free_variables_depend_on_nothing() {
        let read = read("p cnf 3 1\na 1 0\n1 -3 0\n").unwrap();
        assert_eq!(read.text(), "p cnf 3 1\nd 3 0\na 1 0\n1 -3 0\n");
    }

    #[test]
    fn texts_that_are_none() {
        for text in ["", "p cnf 1", "p cnf 1 1\n1", "p cnf 1 1\nx 0\n"] {
            assert!(read(text).is_err(), "{text}");
        }
    }
}
