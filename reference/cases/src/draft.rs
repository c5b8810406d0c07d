//! Document 01, "Formula text": a formula before it is written down, and the
//! many texts that say the same.

use crate::random::Random;

/// A prefix line.
#[derive(Clone, Debug, PartialEq, Eq)]
pub enum Prefix {
    Universals(Vec<u32>),
    Existentials(Vec<u32>),
    Existential(u32, Vec<u32>),
}

/// A formula to be written as a text.
#[derive(Clone, Debug, Default, PartialEq, Eq)]
pub struct Draft {
    pub variables: usize,
    pub prefix: Vec<Prefix>,
    pub clauses: Vec<Vec<i32>>,
}

fn words<T: ToString>(front: &[&str], numbers: &[T]) -> Vec<String> {
    let front = front.iter().map(|word| word.to_string());
    let numbers = numbers.iter().map(T::to_string);
    front.chain(numbers).chain([String::from("0")]).collect()
}

impl Prefix {
    fn words(&self) -> Vec<String> {
        match self {
            Prefix::Universals(named) => words(&["a"], named),
            Prefix::Existentials(named) => words(&["e"], named),
            Prefix::Existential(variable, set) => words(&["d", &variable.to_string()], set),
        }
    }
}

impl Draft {
    fn header(&self) -> String {
        format!("p cnf {} {}", self.variables, self.clauses.len())
    }

    /// The tokens of the lines behind the header.
    fn lines(&self) -> impl Iterator<Item = Vec<String>> + '_ {
        let prefix = self.prefix.iter().map(Prefix::words);
        prefix.chain(self.clauses.iter().map(|clause| words(&[], clause)))
    }

    /// The plainest text.
    pub fn plain(&self) -> Vec<u8> {
        let mut text = self.header();
        for line in self.lines() {
            text.push('\n');
            text.push_str(&line.join(" "));
        }
        text.push('\n');
        text.into_bytes()
    }

    /// A text of the same formula with comments, wide gaps and repeats.
    pub fn loose(&self, random: &mut Random) -> Vec<u8> {
        let mut text = Vec::new();
        for _ in 0..random.below(3) {
            text.extend(comment(random));
        }
        let mut repeating = self.clone();
        repeating.repeat_some(random);
        let header: Vec<String> = self.header().split(' ').map(String::from).collect();
        for line in std::iter::once(header).chain(repeating.lines()) {
            text.extend(gapped(&line, random).into_bytes());
        }
        text
    }

    /// Repeats some set members and literals, and mixes the literals.
    fn repeat_some(&mut self, random: &mut Random) {
        for line in &mut self.prefix {
            if let Prefix::Existential(_, set) = line {
                set.extend(random.some(&set.clone(), 15));
                random.shuffle(set);
            }
        }
        for clause in &mut self.clauses {
            clause.extend(random.some(&clause.clone(), 10));
            random.shuffle(clause);
        }
    }
}

/// A comment line; it is free behind its first byte.
fn comment(random: &mut Random) -> Vec<u8> {
    let lines: [&[u8]; 6] = [
        b"c\n",
        b"c p cnf 1 1\n",
        b"cnf 0\n",
        b"c \t\r \0 \xFF \n",
        b"c 1 -1 0 \n",
        b"c a comment\n",
    ];
    random.pick(&lines).to_vec()
}

fn gapped(words: &[String], random: &mut Random) -> String {
    let mut line = String::new();
    for (index, word) in words.iter().enumerate() {
        if index > 0 {
            let gap = if random.chance(8) {
                random.between(2, 4)
            } else {
                1
            };
            line.push_str(&" ".repeat(gap));
        }
        line.push_str(word);
    }
    line.push('\n');
    line
}
