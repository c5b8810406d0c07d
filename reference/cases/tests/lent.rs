//! Calls on arbitrary well-formed tables, and on damaged ones.

use std::collections::BTreeSet;

use cases::lent::{damaged, well_formed};
use checker::tables::export;
use checker::wellformed::{broken, first_broken, rebuild};

#[test]
fn tables_and_states_go_back_and_forth() {
    for index in 0..600 {
        let lent = well_formed(3, index).lent;
        assert_eq!(broken(&lent.tables, &lent.counts), [], "{index}");
        let state = rebuild(&lent.tables, &lent.counts).unwrap();
        assert_eq!(export(&state), lent.tables);
        assert_eq!(state.counts(), lent.counts);
    }
}

#[test]
fn runs_keep_tables_well_formed_and_earlier_entries() {
    let mut accepted = 0;
    for index in 0..600 {
        let case = well_formed(4, index);
        let before = case.lent.clone();
        let mut lent = case.lent;
        lent.run(&case.records);
        assert_eq!(broken(&lent.tables, &lent.counts), [], "{index}");
        let old = before.counts;
        let same = |count: u16| ..usize::from(count);
        let (new, was) = (&lent.tables, &before.tables);
        assert_eq!(
            new.literals[same(old.literals)],
            was.literals[same(old.literals)]
        );
        assert_eq!(new.ends[same(old.clauses)], was.ends[same(old.clauses)]);
        let words = same(4 * old.variables);
        assert_eq!(new.sets[words], was.sets[words]);
        assert_eq!(
            new.kinds[same(old.variables)],
            was.kinds[same(old.variables)]
        );
        let steps = lent.counts.steps - old.steps;
        let forks = lent.counts.variables - old.variables;
        assert_eq!(lent.counts.clauses - old.clauses, steps + forks);
        accepted += usize::from(steps);
    }
    assert!(accepted > 2_500, "{accepted}");
}

#[test]
fn a_run_is_its_steps_one_by_one() {
    for index in 0..200 {
        let case = well_formed(5, index);
        let (mut whole, mut single) = (case.lent.clone(), case.lent);
        whole.run(&case.records);
        let mut rest = case.records.as_slice();
        while !rest.is_empty() && single.step(rest).is_ok() {
            rest = &rest[16..];
        }
        assert_eq!(whole, single, "{index}");
    }
}

#[test]
fn damaged_tables_are_told_and_left_alone() {
    let mut found = BTreeSet::new();
    for index in 0..3_000 {
        let case = damaged(6, index);
        let mut lent = case.lent.clone();
        let verdict = lent.run(&case.records).to_string();
        match first_broken(&case.lent.tables, &case.lent.counts) {
            Some(condition) => {
                assert_eq!(verdict, "bad 0 2");
                assert_eq!(lent, case.lent);
                found.insert(condition);
            }
            None => assert_ne!(verdict, "bad 0 2"),
        }
    }
    let rare = [7];
    let wanted = (1..=16).filter(|condition| !rare.contains(condition));
    let missing: Vec<usize> = wanted.filter(|c| !found.contains(c)).collect();
    assert_eq!(missing, [], "{found:?}");
}
