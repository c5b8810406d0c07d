//! Document 01, "The four lent tables": the sixteen conditions, each broken
//! alone where that is possible, and what the calls do to lent tables.

use checker::calls::Lent;
use checker::driver::{Buffers, SIZES};
use checker::records::record;
use checker::refusal::Number;
use checker::state::{Counts, State};
use checker::tables::{export, Tables};
use checker::wellformed::{broken, first_broken, rebuild};

/// V = 5 with universals 1, 2, sets {1} of 3 and {2} of 4, and 5 undeclared;
/// two formula clauses, one fork (variable 6) and one reduction to the empty
/// clause: {1, 3, 4}, {2}, {1, 3, 6}, {4, -6}, {}.
fn sample() -> Lent {
    let text = b"p cnf 5 2\na 1 2 0\nd 3 1 0\nd 4 2 0\n1 3 4 0\n2 0\n";
    let mut lent = Lent::zero();
    lent.load(text).unwrap();
    let list = [record(3, [1, 3, 4]), record(2, [2, 0, 2])].concat();
    assert_eq!(lent.run(&list).to_string(), "refuted 2 5");
    lent
}

#[test]
fn the_sample_is_laid_out_as_stated() {
    let Lent { tables, counts } = sample();
    assert_eq!(tables.literals[..10], [1, 3, 4, 2, 1, 3, 6, 4, -6, 0]);
    assert_eq!(tables.ends[..6], [3, 4, 7, 9, 9, 0]);
    let first_words: Vec<u64> = tables.sets.iter().copied().step_by(4).collect();
    assert_eq!(first_words[..7], [1, 2, 1, 2, 0, 0, 0]);
    let mut later_words = tables.sets.chunks(4).flat_map(|set| &set[1..]);
    assert!(later_words.all(|&word| word == 0));
    assert_eq!(tables.kinds[..7], [1, 1, 2, 2, 0, 3, 0]);
    assert_eq!(counts.array(), [5, 6, 2, 2, 5, 9, 2, 5]);
    assert_eq!(broken(&tables, &counts), []);
}

/// A damage and the conditions it must break.
type Damage = (fn(&mut Tables, &mut Counts), &'static [usize]);

const DAMAGES: &[Damage] = &[
    (|_, c| c.header_variables = 6, &[4, 14]),
    (
        |_, c| (c.header_variables, c.variables, c.steps) = (4, 3, 4),
        &[2, 8, 14, 16],
    ),
    (|_, c| c.universals = 3, &[3]),
    (|_, c| c.universals = 65, &[3]),
    (|_, c| c.universals = 256, &[3]),
    (|_, c| c.universals = 257, &[1, 3]),
    (|_, c| c.steps = 3, &[4]),
    (|_, c| c.steps = 65_535, &[4]),
    (|_, c| (c.formula_clauses, c.steps) = (4, 0), &[9]),
    (|_, c| (c.formula_clauses, c.steps) = (2_049, 3), &[1, 4, 9]),
    (|t, _| t.ends[0] = 5, &[5, 6, 15]),
    (|t, _| t.ends[4] = 10, &[5, 8, 15]),
    (|_, c| c.literals = 10, &[5]),
    (|t, _| t.literals.swap(0, 1), &[6]),
    (|t, _| t.literals[4..6].copy_from_slice(&[3, -3]), &[6]),
    (|t, _| t.literals[3] = 5, &[8, 9]),
    (|t, _| t.literals[3] = 0, &[8, 9]),
    (|t, _| t.literals[3] = 7, &[8, 9]),
    (|t, _| t.literals[3] = 513, &[8, 9]),
    (|t, _| t.literals[3] = i16::MIN, &[8, 9]),
    (|t, _| t.literals[3] = 6, &[9]),
    (|t, _| t.literals[8] = 5, &[8]),
    (|t, _| t.sets[4] = 4, &[10, 11]),
    (|t, _| t.sets[4] = 1, &[10, 11]),
    (|t, _| t.sets[4] = 3, &[10]),
    (|t, _| t.sets[4] = 0, &[10, 11]),
    (|t, _| t.sets[12] = 4, &[11]),
    (|t, _| t.sets[20] = 1 << 63, &[11]),
    (|t, _| t.kinds[4] = 4, &[12]),
    (|t, _| t.kinds[4] = 255, &[12]),
    (|t, _| t.sets[16] = 1, &[13]),
    (|t, _| t.kinds[5] = 2, &[14]),
    (|t, _| t.kinds[4] = 3, &[14]),
    (|_, c| c.lowest_empty = 0, &[15]),
    (|_, c| c.lowest_empty = 4, &[15]),
    (|_, c| c.lowest_empty = 2_049, &[15]),
    (|t, _| t.literals[9] = 1, &[16]),
    (|t, _| t.literals[8_191] = 1, &[16]),
    (|t, _| t.ends[5] = 9, &[16]),
    (|t, _| t.ends[2_047] = 9, &[16]),
    (|t, _| t.sets[24] = 1, &[16]),
    (|t, _| t.sets[27] = 1, &[16]),
    (|t, _| t.sets[5] = 1, &[10]),
    (|t, _| (t.sets[4], t.sets[5]) = (0, 1), &[10, 11]),
    (|t, _| (t.sets[4], t.sets[7]) = (0, 2), &[10, 11]),
    (|t, _| t.sets[3] = 1, &[10]),
    (|t, _| t.sets[13] = 2, &[11]),
    (|t, _| t.sets[23] = 1 << 63, &[11]),
    (|t, _| t.sets[17] = 1, &[13]),
    (|t, _| t.sets[19] = 1 << 63, &[13]),
    (|t, _| t.sets[2047] = 1, &[16]),
    (|t, _| t.kinds[6] = 2, &[16]),
    (|t, _| t.kinds[511] = 1, &[16]),
    (|t, _| t.kinds[511] = 3, &[14, 16]),
    (|_, c| c.variables = 65_535, &[1, 4, 14]),
    (|_, c| c.clauses = 65_535, &[1, 4, 5]),
    (|_, c| c.clauses = 6, &[4, 5]),
    (|_, c| c.literals = 65_535, &[1, 5]),
];

#[test]
fn each_condition_is_tested() {
    let sample = sample();
    for (index, (damage, conditions)) in DAMAGES.iter().enumerate() {
        let Lent {
            mut tables,
            mut counts,
        } = sample.clone();
        damage(&mut tables, &mut counts);
        assert_eq!(broken(&tables, &counts), *conditions, "damage {index}");
        assert_eq!(first_broken(&tables, &counts), Some(conditions[0]));
        assert_eq!(rebuild(&tables, &counts), Err(Number::IllFormed));
    }
}

#[test]
fn every_condition_but_the_seventh_is_broken_first_somewhere() {
    let first: std::collections::BTreeSet<usize> = DAMAGES.iter().map(|d| d.1[0]).collect();
    // Condition 7 needs a wide clause and has a test of its own.
    assert_eq!(first, (1..=16).filter(|&c| c != 7).collect());
}

/// Tables of one formula clause {1, .., width}, all universal.
fn one_wide_clause(width: u16) -> Lent {
    let mut lent = Lent::zero();
    for index in 0..usize::from(width) {
        lent.tables.literals[index] = index as i16 + 1;
        lent.tables.sets[4 * index + index / 64] = 1 << (index % 64);
        lent.tables.kinds[index] = 1;
    }
    lent.tables.ends[0] = width;
    lent.counts = Counts::of_array([width, width, width, 1, 1, width, 0, u16::from(width == 0)]);
    lent
}

#[test]
fn clauses_of_32_and_33_literals() {
    for width in [0, 1, 32] {
        let lent = one_wide_clause(width);
        assert_eq!(broken(&lent.tables, &lent.counts), []);
    }
    for width in [33, 64] {
        let lent = one_wide_clause(width);
        assert_eq!(broken(&lent.tables, &lent.counts), [7]);
    }
}

/// Tables of so many universals and no clause, the last of them with bit 0.
fn turned_universals(universals: u16) -> Lent {
    let mut lent = Lent::zero();
    let count = usize::from(universals);
    for index in 0..count {
        let bit = (index + 1) % count;
        lent.tables.sets[4 * index + bit / 64] = 1 << (bit % 64);
        lent.tables.kinds[index] = 1;
    }
    lent.counts = Counts::of_array([universals, universals, universals, 0, 0, 0, 0, 0]);
    lent
}

#[test]
fn bits_fill_the_lowest_places_of_all_words() {
    for universals in [1, 63, 64, 65, 66, 127, 128, 129, 130, 192, 193, 255, 256] {
        let lent = turned_universals(universals);
        assert_eq!(broken(&lent.tables, &lent.counts), [], "{universals}");
        let state = rebuild(&lent.tables, &lent.counts).unwrap();
        assert_eq!(state.universals()[0], u32::from(universals));
        assert_eq!(export(&state), lent.tables);
        // One more place is left out, in the same word or in the next.
        let mut gap = lent;
        gap.tables.kinds[usize::from(universals) - 1] = 0;
        gap.tables.sets[4 * (usize::from(universals) - 1)] = 0;
        gap.counts.universals -= 1;
        let wanted: &[usize] = if universals == 1 { &[] } else { &[10] };
        assert_eq!(broken(&gap.tables, &gap.counts), wanted, "{universals}");
    }
    let mut lent = turned_universals(256);
    lent.tables.kinds[256] = 1;
    lent.tables.sets[4 * 256] = 1;
    lent.counts = Counts::of_array([257, 257, 257, 0, 0, 0, 0, 0]);
    assert_eq!(broken(&lent.tables, &lent.counts), [1, 10]);
}

#[test]
fn bits_may_stand_in_any_order() {
    let mut lent = sample();
    for (variable, word) in [2, 1, 2, 1].into_iter().enumerate() {
        lent.tables.sets[4 * variable] = word;
    }
    assert_eq!(broken(&lent.tables, &lent.counts), []);
    let state = rebuild(&lent.tables, &lent.counts).unwrap();
    assert_eq!(state.universals(), [2, 1]);
    assert_eq!(state.variable(3).unwrap().set, [1].into());
    assert_eq!(export(&state), lent.tables);
    assert_eq!(state.counts(), lent.counts);
}

#[test]
fn states_that_no_list_reaches_are_well_formed() {
    // Two fork variables and no step: clauses = formula clauses + forks.
    let mut lent = Lent::zero();
    lent.tables.kinds[..2].copy_from_slice(&[3, 3]);
    lent.counts = Counts::of_array([0, 2, 0, 0, 2, 0, 0, 1]);
    assert_eq!(broken(&lent.tables, &lent.counts), []);
    assert_eq!(lent.run(&[]).to_string(), "refuted 0 1");
    assert_eq!(broken(&Tables::zero(), &Counts::default()), []);
}

fn shortened(table: usize) -> Lent {
    let mut lent = sample();
    match table {
        0 => lent.tables.literals.truncate(8_191),
        1 => lent.tables.ends.truncate(2_047),
        2 => lent.tables.sets.truncate(2_047),
        _ => lent.tables.kinds.truncate(511),
    }
    lent
}

#[test]
fn short_tables_are_untouched() {
    for table in 0..4 {
        let before = shortened(table);
        let mut lent = before.clone();
        assert_eq!(
            lent.run(&[]),
            checker::verdict::Verdict::bad(0, Number::TooShort)
        );
        assert_eq!(lent.step(&[]), Err((0, Number::TooShort)));
        assert_eq!(lent.clause_length(1), Err(Number::TooShort));
        assert_eq!(lent.variable(1), Err(Number::TooShort));
        assert_eq!(lent.show(1), 0..0);
        assert_eq!(lent, before);
        let refusal = lent.load(b"p cnf 0 0\n").unwrap_err();
        assert_eq!((refusal.line, refusal.number), (0, Number::TooShort));
        assert_eq!(lent.tables, before.tables);
        assert_eq!(lent.counts, Counts::default());
    }
}

#[test]
fn ill_formed_tables_are_unchanged() {
    let mut before = sample();
    before.counts.steps = 3;
    let mut lent = before.clone();
    assert_eq!(lent.run(&[0; 40_000]).to_string(), "bad 0 2");
    assert_eq!(lent.step(&[]), Err((0, Number::IllFormed)));
    assert_eq!(lent.clause_length(9), Err(Number::IllFormed));
    assert_eq!(lent.variable(0), Err(Number::IllFormed));
    assert_eq!(lent.show(1), 0..0);
    assert_eq!(lent, before);
}

fn lengthened() -> Lent {
    let mut lent = sample();
    lent.tables.literals.extend([7; 3]);
    lent.tables.ends.extend([7; 3]);
    lent.tables.sets.extend([7; 3]);
    lent.tables.kinds.extend([7; 3]);
    lent
}

fn tails_are_kept(lent: &Lent) -> bool {
    lent.tables.literals[8_192..] == [7; 3]
        && lent.tables.ends[2_048..] == [7; 3]
        && lent.tables.sets[2_048..] == [7; 3]
        && lent.tables.kinds[512..] == [7; 3]
}

#[test]
fn longer_tables_keep_their_tails() {
    let mut lent = lengthened();
    assert_eq!(lent.step(&record(1, [3, 4, 6])), Ok(()));
    assert_eq!(lent.show(6), 9..12);
    assert!(tails_are_kept(&lent));
    assert_eq!(lent.load(b"").unwrap_err().line, 1);
    assert!(tails_are_kept(&lent));
    assert_eq!(lent.counts, Counts::default());
    assert!(lent.tables.literals[..8_192]
        .iter()
        .all(|&entry| entry == 0));
    assert_eq!(lent.run(&[]).to_string(), "open 0");
}

#[test]
fn shown_clauses_and_questions() {
    let lent = sample();
    assert_eq!(lent.show(1), 0..3);
    assert_eq!(lent.show(4), 7..9);
    assert_eq!(lent.show(5), 9..9);
    assert_eq!(lent.show(0), 0..0);
    assert_eq!(lent.show(6), 0..0);
    assert_eq!(lent.clause_length(5), Ok(0));
    assert_eq!(lent.clause_length(6), Err(Number::ClauseNumber));
    assert_eq!(lent.variable(6), Ok((3, 0)));
    assert_eq!(lent.variable(5), Ok((0, 0)));
    assert_eq!(lent.variable(7), Err(Number::NotThere));
}

#[test]
fn buffers_carry_the_same_calls() {
    let text = b"p cnf 4 1\na 1 2 0\nd 4 2 0\n1 4 0\n";
    let mut buffers = Buffers::zero();
    buffers.0[4].push(9);
    buffers.load(text).unwrap();
    assert_eq!(buffers.run(&record(3, [1, 1, 2])).to_string(), "open 1");
    let mut state = State::load(text).unwrap();
    state.step(&record(3, [1, 1, 2])).unwrap();
    assert_eq!(buffers.0[..4], export(&state).bytes());
    assert_eq!(buffers.0[4][..16], state.counts().bytes());
    assert_eq!(buffers.0[4][..4], [4, 0, 5, 0]);
    assert_eq!(buffers.0[4][16], 9);
    assert_eq!(buffers.0[0][..12], [1, 0, 4, 0, 1, 0, 5, 0, 4, 0, 251, 255]);
    assert_eq!(buffers.show(3), 4..6);
    assert_eq!(buffers.variable(5), Ok((3, 0)));
}

#[test]
fn short_buffers_are_untouched_but_for_a_whole_state() {
    for (index, size) in SIZES.into_iter().enumerate() {
        let mut buffers = Buffers(SIZES.map(|size| vec![5; size]));
        buffers.0[index].truncate(size - 1);
        let before = buffers.clone();
        assert_eq!(buffers.run(&[]).to_string(), "bad 0 1");
        assert_eq!(buffers, before);
        assert_eq!(buffers.load(b"").unwrap_err().number, Number::TooShort);
        assert_eq!(buffers.0[..4], before.0[..4]);
        let state = if index == 4 { vec![5; 15] } else { vec![0; 16] };
        assert_eq!(buffers.0[4], state);
    }
}
