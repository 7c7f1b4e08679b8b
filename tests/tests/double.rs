//! Document 02's Ask 1, two patients on one session: which references of one attribute are DOUBLE, and since when, in
//! check and in snapshot.

use bindlewort_tests::code::*;
use bindlewort_tests::compare::{self, rounds, Tally};
use bindlewort_tests::histories::{grown, refer_twice, History};
use bindlewort_tests::kind::REF_ATTRIBUTE;
use bindlewort_tests::random::Random;
use bindlewort_tests::{MOST_NODES, MOST_REFS, NOW, SNAPSHOT_WIDTH};

const ENOUGH: usize = MOST_NODES * SNAPSHOT_WIDTH;

type Said = (u32, u32, u32);

/// Code, instant and place that check answers, held to the model too.
fn check(history: &History) -> Said {
    let said = compare::check(&mut Tally::of("check"), history);
    (said.code, said.instant, said.place)
}

/// The patient to whom attribute 3 refers in the snapshot at t, or code, instant and place of the refusal.
fn shown(history: &History, t: u32) -> Result<u32, Said> {
    let (said, out) = compare::snapshot(&mut Tally::of("snapshot"), history, t, ENOUGH);
    let row = out.chunks(SNAPSHOT_WIDTH).take(said.place as usize).find(|row| row[0] == 3);
    match said.code {
        DONE => Ok(row.expect("a row of attribute 3")[2]),
        code => Err((code, said.instant, said.place)),
    }
}

/// Patients 1 and 2 and REF attributes 3 and 4, who stay from 0 on by the rows 0 to 3, with these references.
fn ward(refs: &[[u32; 4]]) -> History {
    let stays = [[0, 1, 0, NOW], [0, 2, 0, NOW], [0, 3, 0, NOW], [0, 4, 0, NOW]];
    let mut history = History::of_elements(4).with_edges(&stays);
    for attribute in [3, 4] {
        history.nodes[3 * attribute] = REF_ATTRIBUTE;
    }
    history.refs = refs.concat();
    history
}

#[test]
fn two_patients_at_once() {
    let history = ward(&[[3, 1, 10, 20], [3, 2, 15, 30]]);
    assert_eq!(check(&history), (DOUBLE, 15, 3));
    assert_eq!(shown(&history, 14), Ok(1));
    assert_eq!(shown(&history, 15), Err((DOUBLE, 15, 3)));
    assert_eq!(shown(&history, 20), Err((DOUBLE, 20, 3)));
    assert_eq!(shown(&history, 21), Ok(2));
}

#[test]
fn one_patient_twice() {
    let history = ward(&[[3, 1, 10, 20], [3, 1, 15, 30]]);
    assert_eq!(check(&history), (DOUBLE, 15, 3));
    assert_eq!(shown(&history, 14), Ok(1));
    assert_eq!(shown(&history, 15), Err((DOUBLE, 15, 3)));
    assert_eq!(shown(&history, 21), Ok(1));
    let equal = ward(&[[3, 1, 10, 20], [3, 1, 10, 20]]);
    assert_eq!(check(&equal), (DOUBLE, 10, 3));
    assert_eq!(shown(&equal, 20), Err((DOUBLE, 20, 3)));
}

#[test]
fn one_reference_each_of_two_attributes() {
    for other in [1, 2] {
        let history = ward(&[[3, 1, 10, 20], [4, other, 10, 20]]);
        assert_eq!(check(&history), (DONE, 0, 0));
        assert_eq!(shown(&history, 10), Ok(1));
    }
}

/// The ward with two references, their rows in either order.
fn either_order(one: [u32; 4], other: [u32; 4]) -> [History; 2] {
    [ward(&[one, other]), ward(&[other, one])]
}

/// Both ends of a label belong to it.
#[test]
fn two_references_that_share_one_instant() {
    for history in either_order([3, 1, 10, 20], [3, 2, 20, 30]) {
        assert_eq!(check(&history), (DOUBLE, 20, 3));
        assert_eq!(shown(&history, 19), Ok(1));
        assert_eq!(shown(&history, 20), Err((DOUBLE, 20, 3)));
        assert_eq!(shown(&history, 21), Ok(2));
    }
}

#[test]
fn one_reference_ends_just_before_the_other_starts() {
    for history in either_order([3, 1, 10, 19], [3, 2, 20, 30]) {
        assert_eq!(check(&history), (DONE, 0, 0));
        assert_eq!(shown(&history, 19), Ok(1));
        assert_eq!(shown(&history, 20), Ok(2));
    }
}

#[test]
fn three_references_at_once() {
    let history = ward(&[[3, 1, 10, 20], [3, 2, 14, 18], [3, 1, 12, 16]]);
    assert_eq!(check(&history), (DOUBLE, 12, 3));
    for t in [12, 14, 16, 17, 18] {
        assert_eq!(shown(&history, t), Err((DOUBLE, t, 3)));
    }
    assert_eq!((shown(&history, 11), shown(&history, 19)), (Ok(1), Ok(1)));
}

/// The place is an attribute and not a row of the table.
#[test]
fn the_smallest_attribute_is_named() {
    let later = ward(&[[4, 1, 10, 20], [4, 2, 10, 20], [3, 1, 10, 20], [3, 2, 10, 20]]);
    let mixed = ward(&[[4, 1, 10, 20], [3, 1, 10, 20], [4, 2, 10, 20], [3, 2, 10, 20]]);
    for history in [later, mixed] {
        assert_eq!(check(&history), (DOUBLE, 10, 3));
        assert_eq!(shown(&history, 10), Err((DOUBLE, 10, 3)));
    }
    let one_sooner = ward(&[[4, 1, 9, 20], [4, 2, 9, 20], [3, 1, 10, 20], [3, 2, 10, 20]]);
    assert_eq!(check(&one_sooner), (DOUBLE, 9, 4));
    assert_eq!(shown(&one_sooner, 9), Err((DOUBLE, 9, 4)));
    assert_eq!(shown(&one_sooner, 10), Err((DOUBLE, 10, 3)));
}

/// Containment rows by their number.
type Stays = [(usize, [u32; 4])];

/// The ward with two references of attribute 3 from 10 on, and with these stays for its own.
fn double_and(stays: &Stays) -> History {
    let mut history = ward(&[[3, 1, 10, 20], [3, 2, 10, 20]]);
    for (row, stay) in stays {
        history.edges[4 * row..][..4].copy_from_slice(stay);
    }
    history
}

#[test]
fn every_other_fault_of_the_instant_is_named_before() {
    let faults: [(&Stays, u32, u32); 5] = [
        (&[(3, [0, 1, 10, NOW])], OVERLAP, 1),
        (&[(1, [0, 2, 0, 9]), (2, [2, 3, 0, NOW])], OUTSIDE, 2),
        (&[(1, [2, 2, 10, NOW])], CYCLE, 2),
        (&[(2, [0, 3, 0, 9])], LATE, 0),
        (&[(1, [0, 2, 0, 9])], DANGLING, 1),
    ];
    for (stays, code, place) in faults {
        let history = double_and(stays);
        assert_eq!(check(&history), (code, 10, place));
        assert_eq!(shown(&history, 10), Err((code, 10, place)));
    }
}

/// Attribute 4 is away from 10 to 11.
#[test]
fn snapshot_sets_a_gap_aside_and_names_the_double() {
    let mut history = double_and(&[(3, [0, 4, 0, 9])]);
    history.edges.extend([0, 4, 12, NOW]);
    assert_eq!(check(&history), (GAP, 10, 4));
    assert_eq!(shown(&history, 10), Err((DOUBLE, 10, 3)));
}

#[test]
fn a_later_fault_of_a_smaller_code_is_not_named() {
    let history = double_and(&[(1, [0, 2, 0, 15])]);
    assert_eq!(check(&history), (DOUBLE, 10, 3));
    assert_eq!(shown(&history, 10), Err((DOUBLE, 10, 3)));
    assert_eq!(shown(&history, 16), Err((DANGLING, 16, 1)));
}

#[test]
fn the_double_is_named_before_missing_room() {
    let (said, _) = compare::snapshot(&mut Tally::of("snapshot"), &double_and(&[]), 10, 0);
    assert_eq!((said.code, said.instant, said.place), (DOUBLE, 10, 3));
}

/// Repair is lent no references: it mends the stays, and the double is left.
#[test]
fn repair_leaves_the_double() {
    let mut history = double_and(&[(3, [0, 4, 0, 9])]);
    history.edges.extend([0, 4, 5, NOW]);
    assert_eq!(check(&history), (OVERLAP, 5, 4));
    let (said, edges) = compare::repair(&mut Tally::of("repair"), &history);
    assert_eq!((said.code, said.place), (DONE, 1));
    assert_eq!(check(&History { edges, ..history }), (DOUBLE, 10, 3));
}

#[test]
fn the_last_instants() {
    let touching = ward(&[[3, 1, 0, NOW - 1], [3, 2, NOW - 1, NOW]]);
    assert_eq!(check(&touching), (DOUBLE, NOW - 1, 3));
    assert_eq!(shown(&touching, NOW - 2), Ok(1));
    assert_eq!(shown(&touching, NOW - 1), Err((DOUBLE, NOW - 1, 3)));
    assert_eq!(shown(&touching, NOW), Ok(2));
    let apart = ward(&[[3, 1, 0, NOW - 2], [3, 2, NOW - 1, NOW]]);
    assert_eq!(check(&apart), (DONE, 0, 0));
    assert_eq!(shown(&apart, NOW), Ok(2));
    let both_current = ward(&[[3, 1, 0, NOW], [3, 2, NOW - 1, NOW]]);
    assert_eq!(check(&both_current), (DOUBLE, NOW - 1, 3));
    assert_eq!(shown(&both_current, NOW), Err((DOUBLE, NOW, 3)));
}

#[test]
fn the_first_instant() {
    let mut history = ward(&[[3, 1, 7, 7], [3, 2, 7, 8]]);
    history.start = 7;
    history.edges.chunks_mut(4).for_each(|row| row[2] = 7);
    assert_eq!(check(&history), (DOUBLE, 7, 3));
    assert_eq!(shown(&history, 7), Err((DOUBLE, 7, 3)));
    assert_eq!(shown(&history, 8), Ok(2));
}

/// The references start one instant after the end of another row: of another attribute, of their own, of a stay.
#[test]
fn where_another_row_has_just_ended() {
    for ended in [[4, 1, 5, 9], [3, 1, 5, 9]] {
        let history = ward(&[ended, [3, 1, 10, 20], [3, 2, 10, 20]]);
        assert_eq!(check(&history), (DOUBLE, 10, 3));
        assert_eq!(shown(&history, 10), Err((DOUBLE, 10, 3)));
    }
    let left = double_and(&[(3, [0, 4, 0, 9])]);
    assert_eq!(check(&left), (DOUBLE, 10, 3));
    assert_eq!(shown(&left, 10), Err((DOUBLE, 10, 3)));
}

/// The last of 1,024 nodes has all 1,024 references, first at once and then one after another.
#[test]
fn as_many_references_as_there_can_be() {
    let last = MOST_NODES as u32 - 1;
    let mut history = History::of_elements(MOST_NODES - 1).with_edges(&[[0, 1, 0, NOW], [0, last, 0, NOW]]);
    history.nodes[3 * (MOST_NODES - 1)] = REF_ATTRIBUTE;
    history.refs = [last, 1, 10, 20].repeat(MOST_REFS);
    assert_eq!(check(&history), (DOUBLE, 10, last));
    assert_eq!(shown(&history, 20), Err((DOUBLE, 20, last)));
    history.refs = (0..MOST_REFS as u32).flat_map(|i| [last, 1, i, i]).collect();
    assert_eq!(check(&history), (DONE, 0, 0));
}

/// Sound histories in which up to three attributes refer twice, each beside the model.
#[test]
fn histories_with_second_references() {
    let random = &mut Random::seeded(41);
    let (checks, snapshots) = (&mut Tally::of("check"), &mut Tally::of("snapshot"));
    for _ in 0..4_000 * rounds() {
        let mut history = grown(random, 8, 40);
        for _ in 0..3 {
            refer_twice(random, &mut history.refs);
            compare::check(checks, &history);
            let t = history.some_instant(random);
            compare::snapshot(snapshots, &history, t, ENOUGH);
        }
    }
    checks.met_exactly(&[DONE, REFERENCE, LATE, DANGLING, DOUBLE]);
    snapshots.met_exactly(&[DONE, REFERENCE, LATE, DANGLING, DOUBLE, EARLY]);
}
