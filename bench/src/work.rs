//! What is timed: the largest texts, long lists, questions on full tables and tidy
//! texts.
//! The works of `random` are random ones.

use cases::case::{bytes_of, Words};
use checker::driver::Buffers;
use checker::limits::TIDY_BYTES;
use differential::scenario::Call;

/// A call on given buffers.
pub struct Input {
    pub start: Buffers,
    pub call: Call,
}

/// Calls of one kind.
pub struct Work {
    pub name: String,
    /// Each round makes the next call, in a circle.
    pub inputs: Vec<Input>,
}

/// A formula and a list of equal records on it, as many as there is room for.
#[derive(Clone)]
pub struct List {
    pub name: &'static str,
    text: String,
    record: Words,
    pub most: usize,
}

impl Input {
    /// The load of a text into zero buffers.
    pub fn load(text: String) -> Input {
        Input {
            start: Buffers::zero(),
            call: Call::Load(text.into_bytes()),
        }
    }

    /// The write of a formula over an output as long as its tidy text.
    pub fn write(text: &str) -> Input {
        let start = loaded(text);
        let length = start.write(&mut vec![0; TIDY_BYTES]);
        Input {
            start,
            call: Call::Write(length.expect("an output that is long enough")),
        }
    }

    /// Records, or bytes of text.
    fn size(&self) -> usize {
        match &self.call {
            Call::Load(text) => text.len(),
            Call::Write(length) => *length,
            Call::Run(records) => records.len() / 16,
            _ => 1,
        }
    }
}

impl Work {
    fn one(name: &str, input: Input) -> Work {
        Work {
            name: name.into(),
            inputs: vec![input],
        }
    }

    pub fn input(&self, round: usize) -> &Input {
        &self.inputs[round % self.inputs.len()]
    }

    /// The mean of the inputs' sizes.
    pub fn size(&self) -> usize {
        self.inputs.iter().map(Input::size).sum::<usize>() / self.inputs.len()
    }
}

pub fn joined<T: ToString>(numbers: impl IntoIterator<Item = T>) -> String {
    let words = numbers.into_iter().map(|number| number.to_string());
    words.collect::<Vec<_>>().join(" ")
}

/// 2,048 clauses of 4 literals.
fn short_clauses() -> String {
    let mut text = format!(
        "p cnf 99 2048\na {} 0\ne {} 0\n",
        joined(10..=40),
        joined(41..=99)
    );
    for clause in 0..2_048 {
        let at = |step: usize| 10 + (clause * 7 + step * 23) % 90;
        text += &format!("{} -{} {} {} 0\n", at(0), at(1), at(2), at(3));
    }
    text
}

/// 256 clauses of 32 literals, each line falling.
fn falling_clauses() -> String {
    let mut text = format!(
        "p cnf 99 256\na {} 0\ne {} 0\n",
        joined(10..=40),
        joined(41..=99)
    );
    for clause in 0..256 {
        let first = 10 + clause % 58;
        text += &format!("{} 0\n", joined((first..first + 32).rev()));
    }
    text
}

/// The most bytes of a text.
pub const TEXT_LIMIT: usize = 32_768;

/// So many universals and sets of all of them, no clause; a comment in front fills the text up to its limit.
fn large_sets(universals: usize) -> String {
    let mut text = format!("p cnf 512 0\na {} 0\n", joined(1..=universals));
    for existential in universals + 1..=512 {
        let line = format!("d {existential} {} 0\n", joined(1..=universals));
        if text.len() + line.len() + "c\n".len() <= TEXT_LIMIT {
            text += &line;
        }
    }
    let free = TEXT_LIMIT - text.len() - "c\n".len();
    format!("c{}\n{text}", " ".repeat(free))
}

pub fn loads() -> Vec<Work> {
    let texts = [
        ("load, 2,048 clauses of 4 literals", short_clauses()),
        (
            "load, 256 clauses of 32 literals, falling",
            falling_clauses(),
        ),
        ("load, sets of 64 universals", large_sets(64)),
        ("load, sets of 256 universals", large_sets(256)),
    ];
    let works = texts.map(|(name, text)| Work::one(name, Input::load(text)));
    works.into()
}

/// So many universals; all others are existentials that see them all.
fn full_sets(universals: usize) -> String {
    let (named, existentials) = (joined(1..=universals), joined(universals + 1..=512));
    format!("p cnf 512 0\na {named} 0\ne {existentials} 0\n")
}

pub fn writes() -> Vec<Work> {
    let small = "p cnf 2 2\na 1 0\nd 2 0\n1 2 0\n-1 -2 0\n";
    let texts = [
        ("write, 2,048 clauses of 4 literals", short_clauses()),
        ("write, 256 clauses of 32 literals", falling_clauses()),
        ("write, 448 sets of 64 universals", full_sets(64)),
        ("write, 256 sets of 256 universals", full_sets(256)),
        ("write, a small formula", small.into()),
    ];
    let works = texts.map(|(name, text)| Work::one(name, Input::write(&text)));
    works.into()
}

fn list(name: &'static str, text: String, record: Words, most: usize) -> List {
    List {
        name,
        text,
        record,
        most,
    }
}

pub fn lists() -> Vec<List> {
    let wide = joined(2..=32);
    vec![
        list(
            "resolutions to 3 literals",
            "p cnf 4 2\na 1 0\ne 2 3 4 0\n1 2 3 0\n-1 3 4 0\n".into(),
            (1, [1, 2, 1]),
            2_046,
        ),
        list(
            "reductions to 3 literals",
            "p cnf 4 1\na 1 0\nd 2 0\nd 3 0\nd 4 0\n1 2 3 4 0\n".into(),
            (2, [1, 0, 1]),
            2_047,
        ),
        list(
            "resolutions of 32 literals",
            format!("p cnf 32 2\na 1 0\ne {wide} 0\n1 {wide} 0\n-1 {wide} 0\n"),
            (1, [1, 2, 1]),
            262,
        ),
        list(
            "reductions of 32 literals",
            format!("p cnf 33 1\na {wide} 0\n{wide} 0\n"),
            (2, [1, 0, 2]),
            272,
        ),
        list(
            "forks of 2 literals",
            "p cnf 3 1\na 1 2 0\nd 3 2 0\n1 3 0\n".into(),
            (3, [1, 1, 2]),
            509,
        ),
        list(
            "forks of 32 literals",
            format!("p cnf 32 1\na {} 0\n{} 0\n", joined(1..=32), joined(1..=32)),
            (3, [1, 0xFFFF, 0xFFFF_0000]),
            240,
        ),
    ]
}

/// Lists on formulas with 256 universals, whose sets have bits in all words.
pub fn wide_lists() -> Vec<List> {
    let universals = joined(1..=256);
    let every_eighth = joined((1..=32).map(|number| 8 * number));
    let wide = format!("p cnf 256 1\na {universals} 0\n{every_eighth} 0\n");
    let sets = "d 257 1 65 129 193 0\nd 258 64 128 192 256 0\n";
    vec![
        list(
            "reductions of 32 literals, 256 universals",
            wide.clone(),
            (2, [1, 0, 256]),
            263,
        ),
        list(
            "forks of 2 literals, 256 universals",
            format!("p cnf 258 1\na {universals} 0\n{sets}257 258 0\n"),
            (3, [1, 1, 2]),
            254,
        ),
        list(
            "forks of 32 literals, 256 universals",
            wide,
            (3, [1, 0xFFFF, 0xFFFF_0000]),
            240,
        ),
    ]
}

/// The buffers of a loaded formula.
pub fn loaded(text: &str) -> Buffers {
    let mut buffers = Buffers::zero();
    buffers.load(text.as_bytes()).expect("an accepted text");
    buffers
}

impl List {
    /// A run of so many records.
    pub fn run(&self, records: usize) -> Work {
        let input = Input {
            start: loaded(&self.text),
            call: Call::Run(bytes_of(&vec![self.record; records])),
        };
        Work::one(self.name, input)
    }

    /// A run of one record, and the three questions, on tables that the others filled.
    pub fn single(&self, tables: &str) -> [Work; 4] {
        let mut full = loaded(&self.text);
        full.run(&bytes_of(&vec![self.record; self.most - 1]));
        let work = |name, call| {
            let start = full.clone();
            Work::one(&format!("{name}, {tables}"), Input { start, call })
        };
        let last = self.most as u32;
        [
            work("run of one record", Call::Run(bytes_of(&[self.record]))),
            work("show", Call::Show(last)),
            work("length of a clause", Call::Clause(last)),
            work("kind of a variable", Call::Variable(1)),
        ]
    }
}
