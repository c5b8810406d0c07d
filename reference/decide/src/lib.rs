//! Document 01, "The refutation statement", with Note 3 of document 02: decides
//! small formulas by their meaning, with no rule of any calculus.
//!
//! It has a reader of its own for accepted texts, so that what it decides is
//! what the text says and not what the checker made of it.

#![forbid(unsafe_code)]

use std::collections::{BTreeMap, BTreeSet};

/// The most function-table bits that are decided by default.
pub const BITS: u32 = 20;
/// The most universals in clauses.
pub const UNIVERSALS: usize = 12;

/// A formula as its text says it.
#[derive(Clone, Debug, Default, PartialEq, Eq)]
pub struct Meaning {
    pub universals: Vec<u32>,
    /// Each existential with the universals it depends on.
    pub existentials: BTreeMap<u32, BTreeSet<u32>>,
    /// The literals of each clause, as written.
    pub clauses: Vec<Vec<i32>>,
}

/// A setting: the value of each universal.
pub type Setting = BTreeMap<u32, bool>;

/// A family: for each existential its answer for each setting of its own set.
/// Two settings that agree on the set are one entry, so they answer alike.
pub type Family = BTreeMap<u32, BTreeMap<Setting, bool>>;

/// Reads a text that is accepted by document 01; any other may panic.
pub fn meaning(text: &str) -> Meaning {
    let mut meaning = Meaning::default();
    let lines = text.lines().skip_while(|line| line.starts_with('c'));
    for line in lines.skip(1) {
        let mut words: Vec<&str> = line.split_ascii_whitespace().collect();
        assert_eq!(words.pop(), Some("0"), "lines end with 0");
        let number = |word: &&str| word.parse().expect("a number");
        match words.first().copied() {
            Some("a") => meaning.universals.extend(words[1..].iter().map(number)),
            // An existential sees what is declared so far, and nothing later.
            Some("e") => {
                let so_far: BTreeSet<u32> = meaning.universals.iter().copied().collect();
                let named = words[1..].iter().map(number);
                let each = named.map(|variable| (variable, so_far.clone()));
                meaning.existentials.extend(each);
            }
            Some("d") => {
                let set = words[2..].iter().map(number).collect();
                meaning.existentials.insert(number(&words[1]), set);
            }
            _ => meaning.clauses.push(
                words
                    .iter()
                    .map(|w| w.parse().expect("a literal"))
                    .collect(),
            ),
        }
    }
    meaning
}

/// All settings of the given universals; one if there is none.
pub fn settings<'a>(universals: impl IntoIterator<Item = &'a u32>) -> Vec<Setting> {
    let mut all = vec![Setting::new()];
    for &universal in universals {
        let extended = |setting: &Setting, value| {
            let mut setting = setting.clone();
            setting.insert(universal, value);
            setting
        };
        all = [false, true]
            .iter()
            .flat_map(|&value| all.iter().map(move |s| (s, value)))
            .map(|(setting, value)| extended(setting, value))
            .collect();
    }
    all
}

/// The part of a setting that a set sees.
fn seen(setting: &Setting, set: &BTreeSet<u32>) -> Setting {
    let pairs = setting
        .iter()
        .filter(|(universal, _)| set.contains(universal));
    pairs
        .map(|(&universal, &value)| (universal, value))
        .collect()
}

/// One clause at one setting, over the function-table bits: it is true if a
/// bit in `wanted_true` is set or a bit in `wanted_false` is not.
#[derive(Clone, Copy, Debug, PartialEq, Eq, PartialOrd, Ord)]
struct Instance {
    wanted_true: u64,
    wanted_false: u64,
}

impl Meaning {
    /// The existentials that stand in a clause. The others cannot change the
    /// value of a clause, so families are told apart by these alone.
    fn used(&self) -> BTreeSet<u32> {
        let literals = self.clauses.iter().flatten();
        literals
            .map(|literal| literal.unsigned_abs())
            .filter(|variable| self.existentials.contains_key(variable))
            .collect()
    }

    /// The bits of all function tables, or `None` beyond 2^32.
    pub fn bits(&self) -> Option<u64> {
        let sizes = self.used().into_iter();
        sizes
            .map(|variable| 1u64.checked_shl(self.existentials[&variable].len() as u32))
            .try_fold(0u64, |sum, size| sum.checked_add(size?))
            .filter(|&bits| bits <= 1 << 32)
    }

    /// The place of each function-table entry among the bits of a family.
    fn places(&self) -> BTreeMap<(u32, Setting), u32> {
        let used = self.used();
        let entries = used.iter().flat_map(|&variable| {
            let inputs = settings(&self.existentials[&variable]);
            inputs.into_iter().map(move |input| (variable, input))
        });
        entries.zip(0..).collect()
    }

    /// The instance of a clause at a setting; `None` if a universal makes it true.
    fn instance(
        &self,
        clause: &[i32],
        setting: &Setting,
        places: &BTreeMap<(u32, Setting), u32>,
    ) -> Option<Instance> {
        let mut instance = Instance {
            wanted_true: 0,
            wanted_false: 0,
        };
        for &literal in clause {
            let variable = literal.unsigned_abs();
            let positive = literal > 0;
            if let Some(&value) = setting.get(&variable) {
                if value == positive {
                    return None;
                }
                continue;
            }
            let input = seen(setting, &self.existentials[&variable]);
            let bit = 1 << places[&(variable, input)];
            if positive {
                instance.wanted_true |= bit;
            } else {
                instance.wanted_false |= bit;
            }
        }
        Some(instance)
    }

    /// Every clause at every setting, each requirement once.
    fn instances(&self) -> BTreeSet<Instance> {
        let places = self.places();
        let mut instances = BTreeSet::new();
        for setting in settings(&self.universals) {
            let here = self.clauses.iter();
            instances.extend(here.filter_map(|c| self.instance(c, &setting, &places)));
        }
        instances
    }

    /// The same with the universals that stand in a clause, and no others in any
    /// set. It is true exactly if this is: a family for one is one for the other
    /// with all others false, since no clause has them.
    pub fn essential(&self) -> Meaning {
        let literals = self.clauses.iter().flatten();
        let held: BTreeSet<u32> = literals.map(|literal| literal.unsigned_abs()).collect();
        let mut essential = self.clone();
        essential
            .universals
            .retain(|universal| held.contains(universal));
        for set in essential.existentials.values_mut() {
            set.retain(|universal| held.contains(universal));
        }
        essential
    }

    /// Whether some family makes every clause true at every setting.
    /// `None` if the function tables have more than `limit` bits in all, or the
    /// clauses too many universals.
    pub fn is_true(&self, limit: u32) -> Option<bool> {
        self.essential().is_true_as_it_stands(limit)
    }

    fn is_true_as_it_stands(&self, limit: u32) -> Option<bool> {
        let few = self.universals.len() <= UNIVERSALS;
        let bits = self
            .bits()
            .filter(|&bits| few && bits <= u64::from(limit.min(40)))?;
        let instances = self.instances();
        let holds = |family: u64| {
            let holds_at = |i: &Instance| family & i.wanted_true | !family & i.wanted_false != 0;
            instances.iter().all(holds_at)
        };
        Some((0..1u64 << bits).any(holds))
    }

    /// The value of a literal at a setting under a family.
    fn value(&self, literal: i32, setting: &Setting, family: &Family) -> bool {
        let variable = literal.unsigned_abs();
        let value = match setting.get(&variable) {
            Some(&value) => value,
            None => family[&variable][&seen(setting, &self.existentials[&variable])],
        };
        value == (literal > 0)
    }

    /// Whether a family makes every clause true at every setting, word by word
    /// as document 01 puts it.
    pub fn is_made_true_by(&self, family: &Family) -> bool {
        settings(&self.universals).iter().all(|setting| {
            let is_true = |&literal: &i32| self.value(literal, setting, family);
            self.clauses.iter().all(|clause| clause.iter().any(is_true))
        })
    }

    /// The family whose function tables have the given bits.
    pub fn family(&self, bits: u64) -> Family {
        let mut family = Family::new();
        for ((variable, input), place) in self.places() {
            let value = bits >> place & 1 == 1;
            family.entry(variable).or_default().insert(input, value);
        }
        family
    }
}

/// Whether the formula of an accepted text is true; `None` if it is too large.
pub fn decide(text: &[u8]) -> Option<bool> {
    // Comments are free, so they need not be UTF-8.
    meaning(&String::from_utf8_lossy(text)).is_true(BITS)
}

#[cfg(test)]
mod tests {
    use super::*;

    const FALSE: &[u8] = b"p cnf 2 2\na 1 0\nd 2 0\n1 2 0\n-1 -2 0\n";
    const TRUE: &[u8] = b"p cnf 2 2\na 1 0\ne 2 0\n1 2 0\n-1 -2 0\n";

    #[test]
    fn the_set_decides() {
        assert_eq!(decide(FALSE), Some(false));
        assert_eq!(decide(TRUE), Some(true));
    }

    #[test]
    fn no_universal_is_one_setting() {
        assert_eq!(decide(b"p cnf 0 0\n"), Some(true));
        assert_eq!(decide(b"p cnf 0 1\n0\n"), Some(false));
        assert_eq!(decide(b"p cnf 1 1\ne 1 0\n-1 0\n"), Some(true));
        assert_eq!(decide(b"p cnf 1 2\ne 1 0\n-1 0\n1 0\n"), Some(false));
    }

    #[test]
    fn a_universal_clause_is_false() {
        assert_eq!(decide(b"c x\np cnf 1 1\na 1 0\n1 0\n"), Some(false));
    }

    #[test]
    fn a_later_universal_does_not_count_for_e_lines() {
        let text = b"p cnf 2 2\ne 2 0\na 1 0\n1 2 0\n-1 -2 0\n";
        assert_eq!(decide(text), Some(false));
        let text = b"p cnf 3 2\na 1 0\ne 2 0\na 3 0\n1 2 0\n-1 -2 0\n";
        assert_eq!(decide(text), Some(true));
        let text = b"p cnf 3 2\na 1 0\ne 2 0\na 3 0\n3 2 0\n-3 -2 0\n";
        assert_eq!(decide(text), Some(false));
    }

    #[test]
    fn large_tables_are_left_alone() {
        let text = b"p cnf 6 1\na 1 2 3 4 5 0\ne 6 0\n1 2 3 4 5 6 0\n";
        assert_eq!(decide(text), None);
        let unused = b"p cnf 6 1\na 1 2 3 4 5 0\ne 6 0\n1 -2 0\n";
        assert_eq!(decide(unused), Some(false));
        let many =
            b"p cnf 13 1\na 1 2 3 4 5 6 7 8 9 10 11 12 13 0\n1 2 3 4 5 6 7 8 9 10 11 12 13 0\n";
        assert_eq!(decide(many), None);
    }

    /// Of 256 universals two stand in clauses.
    #[test]
    fn universals_in_no_clause_do_not_count() {
        let named: String = (1..=256).map(|number| format!("{number} ")).collect();
        let clauses = "64 257 0\n-64 -257 0\n193 257 0\n-193 257 0\n";
        let decided = |line: &str, count: usize| {
            let clauses: String = clauses
                .lines()
                .take(count)
                .map(|l| format!("{l}\n"))
                .collect();
            decide(format!("p cnf 257 {count}\na {named}0\n{line} 0\n{clauses}").as_bytes())
        };
        assert_eq!(decided("e 257", 2), Some(true));
        assert_eq!(decided("d 257 64", 2), Some(true));
        assert_eq!(decided("d 257 65", 2), Some(false));
        assert_eq!(decided("e 257", 4), Some(false));
    }

    #[test]
    fn both_ways_of_evaluation_agree() {
        let text = "p cnf 4 3\na 1 2 0\nd 3 1 0\nd 4 2 0\n1 3 4 0\n-1 -3 0\n2 -4 0\n";
        let meaning = meaning(text);
        let bits = meaning.bits().unwrap();
        let instances = meaning.instances();
        let mut made_true = 0;
        for family in 0..1 << bits {
            let fast = instances
                .iter()
                .all(|i| family & i.wanted_true | !family & i.wanted_false != 0);
            assert_eq!(fast, meaning.is_made_true_by(&meaning.family(family)));
            made_true += u32::from(fast);
        }
        assert!(made_true > 0 && made_true < 1 << bits);
    }
}
