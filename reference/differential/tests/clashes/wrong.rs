//! What faulty libraries tell for the right answer.

use checker::limits::WIDTH;

use crate::answers::{both, first_such, Answer, Joined};

impl Answer {
    /// The fields with another number and value for a refused step.
    fn as_number(&self, number: u16, value: i32) -> [u16; 4] {
        [self.fields[0], self.fields[1], number, value as u16]
    }

    /// The fields with another variable for 23, chosen from those in both signs.
    fn telling(&self, choose: impl Fn(&Joined, &[i32]) -> i32) -> [u16; 4] {
        match self.refused(23) {
            Some(joined) => self.as_number(23, choose(joined, &joined.both())),
            None => self.fields,
        }
    }

    /// The same for a resolvent that is too wide; with no variable 24.
    fn telling_wide(&self, choose: impl Fn(&Joined) -> Option<i32>) -> [u16; 4] {
        match self.wide_clash().map(choose) {
            Some(Some(variable)) => self.as_number(23, variable),
            Some(None) => self.as_number(24, 0),
            None => self.fields,
        }
    }

    /// 24 for 23 of a resolvent that is too wide, under a condition.
    fn too_wide_if(&self, condition: impl Fn(&Joined) -> bool) -> [u16; 4] {
        match self.wide_clash() {
            Some(joined) if condition(joined) => self.as_number(24, 0),
            _ => self.fields,
        }
    }

    /// 25 for a number where there is no room either.
    fn without_room(&self, number: u16) -> [u16; 4] {
        match self.refused(number) {
            Some(joined) if !self.has_room(joined.literals().len()) => self.as_number(25, 0),
            _ => self.fields,
        }
    }

    /// The first variable of a kind, or the lowest.
    fn of_kind(&self, both: &[i32], kind: u8) -> i32 {
        first_such(both, |variable| self.kind(variable) == kind)
    }
}

/// The place of a variable's first literal, counted from 1.
fn place(literals: &[i32], variable: i32) -> i32 {
    let place = literals
        .iter()
        .position(|literal| literal.abs() == variable);
    place.map_or(0, |place| place as i32 + 1)
}

/// What a faulty library tells for the right answer to a run.
pub type Fault = fn(&Answer) -> [u16; 4];

/// Faults in the variable that 23 tells.
pub const VARIABLES: [(&str, Fault); 18] = [
    ("the highest", |a| a.telling(|_, both| both[both.len() - 1])),
    ("the second", |a| {
        a.telling(|_, both| *both.get(1).unwrap_or(&both[0]))
    }),
    ("the pivot's", |a| a.telling(|joined, _| joined.pivot.abs())),
    ("the pivot's if it is lower", |a| {
        a.telling(|joined, both| both[0].min(joined.pivot.abs()))
    }),
    ("none", |a| a.telling(|_, _| 0)),
    ("the first positive one of the first clause", |a| {
        a.telling(|joined, both| first_such(both, |v| joined.first.contains(&v)))
    }),
    ("the first negative one of the first clause", |a| {
        a.telling(|joined, both| first_such(both, |v| joined.first.contains(&-v)))
    }),
    ("the first above the pivot", |a| {
        a.telling(|joined, both| first_such(both, |v| v > joined.pivot.abs()))
    }),
    ("the nearest below the pivot", |a| {
        a.telling(|joined, both| {
            let mut below = both.iter().rev().filter(|v| **v < joined.pivot.abs());
            *below.next().unwrap_or(&both[0])
        })
    }),
    ("the lowest universal", |a| {
        a.telling(|_, both| a.of_kind(both, 1))
    }),
    ("the lowest existential", |a| {
        a.telling(|_, both| a.of_kind(both, 2))
    }),
    ("the lowest fork variable", |a| {
        a.telling(|_, both| a.of_kind(both, 3))
    }),
    ("the literal of the first clause", |a| {
        a.telling(|joined, both| match joined.first.contains(&both[0]) {
            true => both[0],
            false => -both[0],
        })
    }),
    ("the place in the first clause", |a| {
        a.telling(|joined, both| place(&joined.first, both[0]))
    }),
    ("the place in the resolvent", |a| {
        a.telling(|joined, both| place(&joined.literals(), both[0]))
    }),
    ("the low 8 bits", |a| a.telling(|_, both| both[0] & 0xFF)),
    ("counted from 0", |a| a.telling(|_, both| both[0] - 1)),
    ("the next", |a| a.telling(|_, both| both[0] + 1)),
];

/// Faults beside it.
pub const OTHERS: [(&str, Fault); 6] = [
    ("the variable in the place of the number", |a| {
        let [tag, step, number, variable] = a.fields;
        match a.refused(23) {
            Some(_) => [tag, step, variable, number],
            None => a.fields,
        }
    }),
    ("no number with the variable", |a| {
        let [tag, step, number, variable] = a.fields;
        match a.refused(23) {
            Some(_) => [tag, step, variable, 0],
            None => [tag, step, number, variable],
        }
    }),
    ("24 with a variable", |a| match a.refused(24) {
        Some(joined) => a.as_number(24, joined.literals()[0].abs()),
        None => a.fields,
    }),
    ("22 with a variable", |a| match a.fields {
        [3, step, 22, _] => [3, step, 22, 1],
        other => other,
    }),
    ("every step with a variable", |a| match a.fields {
        [3, step, number, 0] if step > 0 => [3, step, number, 1],
        other => other,
    }),
    ("the variable of an earlier run", |a| match a.fields {
        [tag, first, second, 0] => [tag, first, second, a.earlier],
        other => other,
    }),
];

/// Faults in the order of the tests.
pub const ORDERS: [(&str, Fault); 22] = [
    ("24 before 23", |a| a.too_wide_if(|_| true)),
    ("24 before 23, with the variable", |a| {
        match a.wide_clash() {
            Some(joined) => a.as_number(24, joined.both()[0]),
            None => a.fields,
        }
    }),
    ("24 before 23 at 33 literals", |a| {
        a.too_wide_if(|joined| joined.literals().len() == WIDTH + 1)
    }),
    ("24 before 23 above 33 literals", |a| {
        a.too_wide_if(|joined| joined.literals().len() > WIDTH + 1)
    }),
    ("24 before 23 for one pair", |a| {
        a.too_wide_if(|joined| joined.both().len() == 1)
    }),
    ("24 before 23 for more pairs", |a| {
        a.too_wide_if(|joined| joined.both().len() > 1)
    }),
    ("24 before 23 for a universal", |a| {
        a.too_wide_if(|joined| a.kind(joined.both()[0]) == 1)
    }),
    ("24 before 23 for an existential", |a| {
        a.too_wide_if(|joined| a.kind(joined.both()[0]) == 2)
    }),
    ("24 before 23 for a fork variable", |a| {
        a.too_wide_if(|joined| a.kind(joined.both()[0]) == 3)
    }),
    ("24 before 23 behind accepted steps", |a| {
        a.too_wide_if(|_| a.fields[1] > 1)
    }),
    ("24 before 23 behind an empty clause", |a| {
        a.too_wide_if(|_| a.emptied)
    }),
    ("24 before 23 on tables of no load", |a| {
        a.too_wide_if(|_| a.lists.is_none())
    }),
    ("no variable of a wide resolvent", |a| {
        a.telling_wide(|_| Some(0))
    }),
    ("the highest of a wide resolvent", |a| {
        a.telling_wide(|joined| joined.both().last().copied())
    }),
    ("the first 32 literals are looked at", |a| {
        a.telling_wide(|joined| both(&joined.literals()[..WIDTH]).first().copied())
    }),
    ("the first 33 literals are looked at", |a| {
        a.telling_wide(|joined| both(&joined.literals()[..=WIDTH]).first().copied())
    }),
    ("the literals from 33 on are looked at", |a| {
        a.telling_wide(|joined| both(&joined.literals()[WIDTH..]).first().copied())
    }),
    ("23 for every wide resolvent", |a| match a.refused(24) {
        Some(joined) => a.as_number(23, joined.literals()[0].abs()),
        None => a.fields,
    }),
    ("25 before 23", |a| a.without_room(23)),
    ("25 before 24", |a| a.without_room(24)),
    ("22 behind 23", |a| {
        match a.refused(22).map(Joined::both).as_deref() {
            Some(&[lowest, ..]) => a.as_number(23, lowest),
            _ => a.fields,
        }
    }),
    ("22 behind 24", |a| match a.refused(22) {
        Some(joined) if joined.is_too_wide() => a.as_number(24, 0),
        _ => a.fields,
    }),
];

/// What a faulty library tells for the right answer to a load.
pub type LoadFault = fn(&[u8], [u16; 4]) -> [u16; 4];

/// Faults in the order of the tests of a clause line.
pub const LINES: [(&str, LoadFault); 3] = [
    ("13 before 11", |text, fields| match fields {
        [4, line, 11, _] if has_pair(text, line) => [4, line, 13, 0],
        _ => fields,
    }),
    ("13 for every wide clause", |text, fields| match fields {
        [4, line, 11, _] if numbers(text, line).is_some() => [4, line, 13, 0],
        _ => fields,
    }),
    ("11 for complementary literals", |_, fields| match fields {
        [4, line, 13, _] => [4, line, 11, 0],
        _ => fields,
    }),
];

/// The numbers of a line that has nothing else.
fn numbers(text: &[u8], line: u16) -> Option<Vec<i32>> {
    let text = String::from_utf8_lossy(text);
    let line = text.lines().nth(usize::from(line).checked_sub(1)?)?;
    let numbers = line.split_whitespace().map(str::parse);
    numbers.collect::<Result<_, _>>().ok()
}

/// Whether a line is one of numbers, and two of them are complementary.
fn has_pair(text: &[u8], line: u16) -> bool {
    numbers(text, line).is_some_and(|numbers| !both(&numbers).is_empty())
}
