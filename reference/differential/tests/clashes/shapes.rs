//! The shapes of the resolutions that are refused with 23 or 24.

use std::collections::BTreeSet;

use crate::answers::{answers, first_such, Answer, Joined};

/// How many runs with 23 there are, of which kinds.
#[derive(Debug, Default)]
struct Tally {
    runs: usize,
    /// With two or more variables in both signs, and with three or more.
    two: usize,
    three: usize,
    /// Of the former: the pivot is below, between and above the variables.
    pivots: [usize; 3],
    /// Of the former: the lowest is not the first positive one, or not the first
    /// negative one, of the first clause.
    signs: [usize; 2],
    /// With 32 literals.
    widest: usize,
    /// The pair is the front, or the end, of the resolvent.
    ends: [usize; 2],
    /// The variable is universal, existential, of a fork.
    kinds: [usize; 3],
    /// The variable is above 255.
    high: usize,
    /// There is an empty clause.
    emptied: usize,
    /// Behind accepted steps of the same list.
    late: usize,
}

impl Tally {
    fn count(&mut self, answer: &Answer, joined: &Joined) {
        let (both, literals) = (joined.both(), joined.literals());
        let (lowest, kind) = (both[0], answer.kind(both[0]));
        assert_eq!(i32::from(answer.fields[3]), lowest);
        assert_eq!(lowest > answer.declared, kind == 3);
        self.runs += 1;
        self.widest += usize::from(literals.len() == 32);
        self.ends[0] += usize::from(literals[0].abs() == lowest);
        self.ends[1] += usize::from(literals[literals.len() - 1].abs() == lowest);
        self.kinds[usize::from(kind) - 1] += 1;
        self.high += usize::from(lowest > 255);
        self.emptied += usize::from(answer.emptied);
        self.late += usize::from(answer.fields[1] > 1);
        if both.len() > 1 {
            self.count_several(joined, &both);
        }
    }

    fn count_several(&mut self, joined: &Joined, both: &[i32]) {
        self.two += 1;
        self.three += usize::from(both.len() > 2);
        let pivot = joined.pivot.abs();
        let below = usize::from(both[0] < pivot);
        let all_below = usize::from(both[both.len() - 1] < pivot);
        self.pivots[below + all_below] += 1;
        let positive = first_such(both, |v| joined.first.contains(&v));
        let negative = first_such(both, |v| joined.first.contains(&-v));
        self.signs[0] += usize::from(positive != both[0]);
        self.signs[1] += usize::from(negative != both[0]);
    }
}

#[test]
fn scenarios_reach_clashes_of_many_shapes() {
    let mut tally = Tally::default();
    let (mut scenarios, mut different) = (BTreeSet::new(), BTreeSet::new());
    for (index, answer) in &answers().runs {
        // Every other answer has 0 in the last field.
        assert_eq!(answer.fields[3] > 0, answer.refused(23).is_some());
        if let Some(joined) = answer.refused(23) {
            tally.count(answer, joined);
            scenarios.insert(index);
            different.insert(joined.clone());
        }
    }
    let (scenarios, different) = (scenarios.len(), different.len());
    assert!(
        scenarios > 450 && different > 450,
        "{scenarios} {different}"
    );
    assert!(tally.two > 200 && tally.three > 100, "{tally:?}");
    let often = |counts: &[usize], least| counts.iter().all(|&count| count > least);
    assert!(
        often(&tally.pivots, 40) && often(&tally.signs, 50),
        "{tally:?}"
    );
    assert!(
        often(&tally.ends, 60) && often(&tally.kinds, 15),
        "{tally:?}"
    );
    assert!(tally.widest > 30 && tally.high > 30, "{tally:?}");
    assert!(tally.emptied > 60 && tally.late > 200, "{tally:?}");
}

/// How many runs are refused for a resolution whose resolvent has over 32 literals.
#[derive(Debug, Default)]
struct Wide {
    runs: usize,
    /// In the first list behind a load, in a later one, on tables of no load.
    lists: [usize; 3],
    /// There is an empty clause.
    emptied: usize,
    /// Behind accepted steps of the same list.
    late: usize,
    /// With 33 literals, and with 60 or more.
    least: usize,
    most: usize,
    /// There is no room either.
    without_room: usize,
    /// The lowest pair begins before place 32, counted from 1, at it, behind it.
    places: [usize; 3],
}

impl Wide {
    fn count(&mut self, answer: &Answer, joined: &Joined) {
        let literals = joined.literals();
        assert!(literals.len() > 32);
        self.runs += 1;
        let list = match answer.lists {
            Some(0) => 0,
            Some(_) => 1,
            None => 2,
        };
        self.lists[list] += 1;
        self.emptied += usize::from(answer.emptied);
        self.late += usize::from(answer.fields[1] > 1);
        self.least += usize::from(literals.len() == 33);
        self.most += usize::from(literals.len() >= 60);
        self.without_room += usize::from(!answer.has_room(literals.len()));
        if let Some(lowest) = joined.both().first() {
            let before = literals.iter().filter(|literal| literal.abs() < *lowest);
            self.places[(before.count().cmp(&31) as i8 + 1) as usize] += 1;
        }
    }

    fn assert_many(&self) {
        let often = |counts: &[usize], least| counts.iter().all(|&count| count > least);
        assert!(self.runs > 150 && often(&self.lists, 15), "{self:?}");
        assert!(self.emptied > 40 && self.late > 60, "{self:?}");
        assert!(self.least > 30 && self.most > 20, "{self:?}");
        assert!(self.without_room > 20, "{self:?}");
    }
}

/// Document 02, Note 5: wide resolvents have a pair and give 23, or have none and
/// give 24.
#[test]
fn scenarios_reach_wide_resolvents_with_and_without_a_pair() {
    let (mut with_pair, mut without) = (Wide::default(), Wide::default());
    for (_, answer) in &answers().runs {
        if let Some(joined) = answer.wide_clash() {
            with_pair.count(answer, joined);
        }
        if let Some(joined) = answer.refused(24) {
            assert!(joined.both().is_empty());
            without.count(answer, joined);
        }
    }
    with_pair.assert_many();
    without.assert_many();
    let many = with_pair.places.iter().all(|&count| count > 10);
    assert!(many && with_pair.runs > 300, "{with_pair:?}");
}
