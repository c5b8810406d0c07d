//! Document 01, "The four lent tables", the paragraph "The tables are well
//! formed when", with Note 6 of document 02: its sixteen conditions in order,
//! each a function of its own that is safe on any contents, and the state behind
//! well-formed tables.

use std::collections::{BTreeMap, BTreeSet};

use crate::clause::Literal;
use crate::limits;
use crate::refusal::Number;
use crate::state::{Counts, Kind, State, Variable};
use crate::tables::Tables;

/// A dependency set as the places of its bits.
type Places = BTreeSet<usize>;

/// The number of conditions.
pub const CONDITIONS: usize = 16;

/// Tables of the stated sizes together with their counts.
///
/// The counts are wide, so that no sum wraps.
struct Lent<'a> {
    literals: &'a [i16],
    ends: &'a [u16],
    sets: &'a [u64],
    kinds: &'a [u8],
    header_variables: u64,
    variables: u64,
    universals: u64,
    formula_clauses: u64,
    clauses: u64,
    literal_count: u64,
    steps: u64,
    lowest_empty: u64,
}

/// The state behind the tables, or 1, or 2.
pub fn rebuild(tables: &Tables, counts: &Counts) -> Result<State, Number> {
    if !tables.are_long_enough() {
        return Err(Number::TooShort);
    }
    let lent = Lent::new(tables, counts);
    if lent.first_broken().is_some() {
        return Err(Number::IllFormed);
    }
    Ok(lent.state())
}

/// The first broken condition, 1 to 16, of tables that are long enough.
pub fn first_broken(tables: &Tables, counts: &Counts) -> Option<usize> {
    Lent::new(tables, counts).first_broken()
}

/// Every broken condition, 1 to 16, of tables that are long enough.
pub fn broken(tables: &Tables, counts: &Counts) -> Vec<usize> {
    let lent = Lent::new(tables, counts);
    (1..=CONDITIONS).filter(|&c| !lent.holds(c)).collect()
}

/// The variable of a table literal; wide, since -32,768 has no complement.
fn variable_of(literal: i16) -> u64 {
    u64::from(literal.unsigned_abs())
}

fn all_zero<T: Default + PartialEq>(entries: &[T], from: u64) -> bool {
    let zero = T::default();
    entries
        .iter()
        .skip(from as usize)
        .all(|entry| *entry == zero)
}

impl<'a> Lent<'a> {
    fn new(tables: &'a Tables, counts: &Counts) -> Lent<'a> {
        Lent {
            literals: &tables.literals[..limits::LITERALS],
            ends: &tables.ends[..limits::CLAUSES],
            sets: &tables.sets[..limits::WORDS],
            kinds: &tables.kinds[..limits::VARIABLES],
            header_variables: counts.header_variables.into(),
            variables: counts.variables.into(),
            universals: counts.universals.into(),
            formula_clauses: counts.formula_clauses.into(),
            clauses: counts.clauses.into(),
            literal_count: counts.literals.into(),
            steps: counts.steps.into(),
            lowest_empty: counts.lowest_empty.into(),
        }
    }

    fn first_broken(&self) -> Option<usize> {
        (1..=CONDITIONS).find(|&condition| !self.holds(condition))
    }

    fn holds(&self, condition: usize) -> bool {
        match condition {
            1 => self.counts_within_limits(),
            2 => self.header_variables <= self.variables,
            3 => self.universals_are_kind_1(),
            4 => self.clauses_add_up(),
            5 => self.ends_rise_to_the_literals(),
            6 => self.clauses_ascend(),
            7 => self.clauses_are_narrow(),
            8 => self.literals_are_over_known_variables(),
            9 => self.formula_clauses_are_over_declared(),
            10 => self.universal_sets_fill_the_lowest_bits(),
            11 => self.other_sets_lie_inside(),
            12 => self.kinds.iter().all(|&kind| kind <= 3),
            13 => self.undeclared_have_set_0(),
            14 => self.forks_are_the_numbers_above_v(),
            15 => self.lowest_empty_is_right(),
            16 => self.rest_is_zero(),
            _ => unreachable!("sixteen conditions"),
        }
    }

    /// (1) The counts are within the limits.
    fn counts_within_limits(&self) -> bool {
        self.header_variables <= limits::VARIABLES as u64
            && self.variables <= limits::VARIABLES as u64
            && self.universals <= limits::UNIVERSALS as u64
            && self.formula_clauses <= limits::CLAUSES as u64
            && self.clauses <= limits::CLAUSES as u64
            && self.literal_count <= limits::LITERALS as u64
    }

    /// (3) The universals are the entries of kind 1.
    fn universals_are_kind_1(&self) -> bool {
        self.universals == self.sets_of_kind(|kind| kind == 1).count() as u64
    }

    /// (4) Clauses are formula clauses, accepted steps and fork variables.
    fn clauses_add_up(&self) -> bool {
        let header_and_clauses = self.header_variables + self.clauses;
        header_and_clauses == self.formula_clauses + self.steps + self.variables
    }

    /// (5) The ends never fall and the last, 0 if there is none, is the count.
    fn ends_rise_to_the_literals(&self) -> bool {
        let used = self.used_ends();
        let last = used.last().copied().unwrap_or(0);
        used.windows(2).all(|pair| pair[0] <= pair[1]) && u64::from(last) == self.literal_count
    }

    /// (6) Each clause is strictly ascending by variable.
    fn clauses_ascend(&self) -> bool {
        let rises = |pair: &[i16]| variable_of(pair[0]) < variable_of(pair[1]);
        self.each_clause()
            .all(|clause| clause.windows(2).all(rises))
    }

    /// (7) Each clause has at most 32 literals.
    fn clauses_are_narrow(&self) -> bool {
        self.each_clause()
            .all(|clause| clause.len() <= limits::WIDTH)
    }

    /// (8) Literals are over declared or fork variables in use.
    fn literals_are_over_known_variables(&self) -> bool {
        let known = |&l: &i16| variable_of(l) <= self.variables && self.kind_of(l) != 0;
        self.each_clause().all(|clause| clause.iter().all(known))
    }

    /// (9) Formula clauses are over declared variables only.
    fn formula_clauses_are_over_declared(&self) -> bool {
        let declared = |&l: &i16| matches!(self.kind_of(l), 1 | 2);
        let mut clauses = self.each_clause().take(self.formula_clauses as usize);
        clauses.all(|clause| clause.iter().all(declared))
    }

    /// (10) The universals' sets are single different bits that fill the lowest places.
    fn universal_sets_fill_the_lowest_bits(&self) -> bool {
        let sets: Vec<Places> = self.sets_of_kind(|kind| kind == 1).collect();
        let lowest: Places = (0..sets.len()).collect();
        // So many single bits fill so many places only if they are different.
        sets.iter().all(|set| set.len() == 1) && union(sets) == lowest
    }

    /// (11) Every other declared or fork set lies inside these.
    fn other_sets_lie_inside(&self) -> bool {
        let all = union(self.sets_of_kind(|kind| kind == 1));
        self.sets_of_kind(|kind| kind == 2 || kind == 3)
            .all(|set| set.is_subset(&all))
    }

    /// (13) Undeclared variables have set 0.
    fn undeclared_have_set_0(&self) -> bool {
        self.sets_of_kind(|kind| kind == 0)
            .all(|set| set.is_empty())
    }

    /// (14) Kind 3 stands on all numbers above V in use and nowhere else.
    fn forks_are_the_numbers_above_v(&self) -> bool {
        (1..).zip(self.kinds).all(|(number, &kind)| {
            let is_fork = number > self.header_variables && number <= self.variables;
            (kind == 3) == is_fork
        })
    }

    /// (15) The lowest empty clause is as the state says, 0 if there is none.
    fn lowest_empty_is_right(&self) -> bool {
        let place = self.each_clause().position(<[i16]>::is_empty);
        self.lowest_empty == place.map_or(0, |index| index as u64 + 1)
    }

    /// (16) All entries between the counts and the stated sizes are 0.
    fn rest_is_zero(&self) -> bool {
        all_zero(self.literals, self.literal_count)
            && all_zero(self.ends, self.clauses)
            && all_zero(self.sets, limits::SET_WORDS as u64 * self.variables)
            && all_zero(self.kinds, self.variables)
    }

    fn used_ends(&self) -> &'a [u16] {
        &self.ends[..self.ends.len().min(self.clauses as usize)]
    }

    /// The stretch of each clause; empty where the ends make none.
    fn each_clause(&self) -> impl Iterator<Item = &'a [i16]> {
        let literals = self.literals;
        let starts = std::iter::once(&0).chain(self.used_ends());
        let stretches = starts.zip(self.used_ends());
        stretches.map(move |(&start, &end)| {
            let stretch = literals.get(usize::from(start)..usize::from(end));
            stretch.unwrap_or(&[])
        })
    }

    /// The kind of a literal's variable; 0 where the table has no entry.
    fn kind_of(&self, literal: i16) -> u8 {
        let index = usize::from(literal.unsigned_abs()).wrapping_sub(1);
        self.kinds.get(index).copied().unwrap_or(0)
    }

    /// Kind and set of variable 1, 2, .. in use; what lies behind is left to (16).
    fn in_use(&self) -> impl Iterator<Item = (u8, &'a [u64])> + 'a {
        let words = self.sets.chunks_exact(limits::SET_WORDS);
        let entries = self.kinds.iter().copied().zip(words);
        entries.take(self.variables as usize)
    }

    fn sets_of_kind(&self, wanted: fn(u8) -> bool) -> impl Iterator<Item = Places> + 'a {
        let entries = self.in_use().filter(move |&(kind, _)| wanted(kind));
        entries.map(|(_, words)| places(words))
    }

    /// The state of well-formed tables.
    fn state(&self) -> State {
        let clause = |stretch: &[i16]| stretch.iter().map(|&l| Literal::of(l.into())).collect();
        let universals = self.universals_by_bit();
        let variables = self.in_use().map(|(kind, words)| Variable {
            kind: kind_numbered(kind),
            set: places(words).iter().map(|&bit| universals[bit]).collect(),
        });
        State {
            header_variables: self.header_variables as usize,
            variables: variables.collect(),
            formula_clauses: self.formula_clauses as usize,
            clauses: self.each_clause().map(clause).collect(),
            steps: self.steps as usize,
            universals,
        }
    }

    /// The universal of bit 0, 1, ..; well-formed tables may give them any order.
    fn universals_by_bit(&self) -> Vec<u32> {
        let numbered = (1..).zip(self.in_use());
        let universals = numbered.filter(|&(_, (kind, _))| kind == 1);
        let by_bit: BTreeMap<Places, u32> = universals
            .map(|(n, (_, words))| (places(words), n))
            .collect();
        by_bit.into_values().collect()
    }
}

fn kind_numbered(kind: u8) -> Kind {
    match kind {
        0 => Kind::Undeclared,
        1 => Kind::Universal,
        2 => Kind::Existential,
        _ => Kind::Fork,
    }
}

/// The places of the bits that are set, the lowest word first.
fn places(words: &[u64]) -> Places {
    let set = |place: &usize| words[place / 64] >> (place % 64) & 1 == 1;
    let words_that_hold = (0..words.len()).filter(|&word| words[word] != 0);
    words_that_hold
        .flat_map(|word| 64 * word..64 * (word + 1))
        .filter(set)
        .collect()
}

fn union(sets: impl IntoIterator<Item = Places>) -> Places {
    sets.into_iter().flatten().collect()
}
