//! Check and repair beside the model on seeded random histories: sound, hurt and wild ones. Every code that a call can
//! give must be met, and no other.

use bindlewort_tests::code::*;
use bindlewort_tests::compare::{self, rounds, Tally};
use bindlewort_tests::histories::{any, grown, wild, History};
use bindlewort_tests::model;
use bindlewort_tests::random::Random;
use bindlewort_tests::NOW;

#[test]
fn check_agrees_with_the_model() {
    let random = &mut Random::seeded(11);
    let tally = &mut Tally::of("check");
    for _ in 0..80_000 * rounds() {
        compare::check(tally, &any(random));
    }
    let rules = [SIZE, START, NODE, EDGE, REFERENCE];
    let faults = [OVERLAP, GAP, OUTSIDE, CYCLE, LATE, DANGLING, DOUBLE];
    tally.met_exactly(&[&[DONE], &rules[..], &faults].concat());
}

#[test]
fn repair_agrees_with_the_model() {
    let random = &mut Random::seeded(12);
    let tally = &mut Tally::of("repair");
    for _ in 0..60_000 * rounds() {
        compare::repair(tally, &any(random));
    }
    tally.met_exactly(&[DONE, SIZE, START, NODE, EDGE, TIE]);
}

#[test]
fn grown_histories_are_accepted_and_need_no_repair() {
    let random = &mut Random::seeded(13);
    let (checks, repairs) = (&mut Tally::of("check"), &mut Tally::of("repair"));
    for _ in 0..10_000 * rounds() {
        let (nodes, steps) = (random.between(1, 12), random.between(0, 60));
        let history = grown(random, nodes, steps);
        compare::check(checks, &history);
        let (said, _) = compare::repair(repairs, &history);
        assert_eq!(said.place, 0, "an accepted history has nothing to repair: {history:?}");
    }
    checks.met_exactly(&[DONE]);
    repairs.met_exactly(&[DONE]);
}

/// After repair no two rows into one node overlap and none leaves a gap, and a second repair finds nothing to do.
#[test]
fn repaired_histories_have_neither_overlap_nor_gap() {
    let random = &mut Random::seeded(14);
    let (checks, repairs) = (&mut Tally::of("check"), &mut Tally::of("repair"));
    let mut mended = 0;
    while mended < 5_000 * rounds() {
        let history = any(random);
        let (said, edges) = compare::repair(repairs, &history);
        if said.code == DONE && said.place > 0 {
            mended += 1;
            let after = History { edges, refs: vec![], ..history };
            let left = compare::check(checks, &after);
            assert!([DONE, OUTSIDE, CYCLE].contains(&left.code), "{left:?} after a repair: {after:?}");
            let (again, _) = compare::repair(repairs, &after);
            assert_eq!((again.code, again.place), (DONE, 0), "a second repair of {after:?}");
        }
    }
    checks.met_exactly(&[DONE, OUTSIDE, CYCLE]);
    repairs.met_exactly(&[DONE, SIZE, START, NODE, EDGE, TIE]);
}

/// The model looks at the instants next to the numbers in the rows; this holds it to trying every instant.
#[test]
fn the_model_misses_no_instant() {
    let random = &mut Random::seeded(15);
    let (mut faulty, mut double) = (0, 0);
    for _ in 0..5_000 * rounds() {
        let History { start, nodes, edges, refs } = wild(random);
        let said = model::check(start, &nodes, &edges, &refs);
        assert_eq!(said, model::check_every_instant(start, &nodes, &edges, &refs, 25));
        faulty += usize::from(said.code >= OVERLAP);
        double += usize::from(said.code == DOUBLE);
    }
    assert!(faulty > 1_000 && double > 100, "only {faulty} of the histories have a fault, {double} of them DOUBLE");
}

/// Each number of sound histories set to one extreme after the other.
#[test]
fn extremes_in_every_place() {
    let random = &mut Random::seeded(16);
    let (checks, repairs) = (&mut Tally::of("check"), &mut Tally::of("repair"));
    let extremes = |n: u32| [0, 1, 2, 3, 4, 5, 6, 65_535, 65_536, n.wrapping_sub(1), n.wrapping_add(1), NOW - 1, NOW];
    for _ in 0..5 * rounds() {
        let sound = grown(random, 8, 60);
        for table in 0..3 {
            let numbers = [&sound.nodes, &sound.edges, &sound.refs][table];
            for (place, &number) in numbers.iter().enumerate() {
                for other in extremes(number) {
                    let mut history = sound.clone();
                    [&mut history.nodes, &mut history.edges, &mut history.refs][table][place] = other;
                    compare::check(checks, &history);
                    compare::repair(repairs, &history);
                }
            }
        }
    }
    checks.met_exactly(&[DONE, NODE, EDGE, REFERENCE, OVERLAP, GAP, OUTSIDE, CYCLE, LATE, DANGLING, DOUBLE]);
    repairs.met_exactly(&[DONE, NODE, EDGE, TIE]);
}
