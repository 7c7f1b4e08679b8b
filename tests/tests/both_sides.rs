//! The cases of document 01's 'Both sides of the line', and its 'Errors that look right'.

use bindlewort_tests::code::*;
use bindlewort_tests::compare::{self, Tally};
use bindlewort_tests::histories::{h, History};
use bindlewort_tests::NOW;

/// Code, instant and place that check answers, held to the model too.
fn check(history: &History) -> (u32, u32, u32) {
    let said = compare::check(&mut Tally::of("check"), history);
    (said.code, said.instant, said.place)
}

/// Code, instant and place that repair answers, and the ends that it leaves.
fn repair(history: &History) -> ((u32, u32, u32), Vec<u32>) {
    let (said, edges) = compare::repair(&mut Tally::of("repair"), history);
    ((said.code, said.instant, said.place), edges.chunks(4).map(|row| row[3]).collect())
}

/// H with another number in a containment row.
fn h_with(row: usize, place: usize, number: u32) -> History {
    let mut history = h();
    history.edges[4 * row + place] = number;
    history
}

#[test]
fn check_of_h() {
    assert_eq!(check(&h()), (DANGLING, 100, 0));
}

#[test]
fn check_of_h_with_the_reference_ending_at_99() {
    let mut history = h();
    history.refs[3] = 99;
    assert_eq!(check(&history), (DONE, 0, 0));
}

#[test]
fn h_with_row_3_from_45() {
    let history = h_with(3, 2, 45);
    assert_eq!(check(&history), (OVERLAP, 45, 3));
    assert_eq!(repair(&history), ((DONE, 0, 1), vec![NOW, NOW, 44, 99, 120, 120]));
}

#[test]
fn h_with_row_3_from_52() {
    assert_eq!(check(&h_with(3, 2, 52)), (GAP, 50, 3));
}

#[test]
fn two_elements_hold_each_other() {
    let history = History::of_elements(2).with_edges(&[[0, 1, 0, 14], [1, 2, 10, 20], [2, 1, 15, 30]]);
    assert_eq!(check(&history), (CYCLE, 15, 1));
}

#[test]
fn a_parent_leaves_before_its_child() {
    let history = History::of_elements(2).with_edges(&[[0, 1, 0, 10], [1, 2, 5, 12]]);
    assert_eq!(check(&history), (OUTSIDE, 11, 1));
}

#[test]
fn nested_stays_keep_the_later_end() {
    let history = History::of_elements(1).with_edges(&[[0, 1, 0, NOW], [0, 1, 5, 9]]);
    assert_eq!(repair(&history), ((DONE, 0, 2), vec![4, NOW]));
}

#[test]
fn two_rows_that_start_together() {
    let history = History::of_elements(1).with_edges(&[[0, 1, 5, 9], [0, 1, 5, 7]]);
    assert_eq!(repair(&history), ((TIE, 5, 1), vec![9, 7]));
}

#[test]
fn the_root_alone() {
    assert_eq!(check(&History::of_elements(0)), (DONE, 0, 0));
}

#[test]
fn a_label_of_one_instant_stands_and_a_reversed_one_does_not() {
    let label = |from, to| History::of_elements(1).with_edges(&[[0, 1, from, to]]);
    assert_eq!(check(&label(8, 8)), (DONE, 0, 0));
    assert_eq!(check(&label(9, 8)), (EDGE, 0, 0));
}

#[test]
fn so_many_nodes_stand() {
    assert_eq!(check(&History::of_elements(1_023)), (DONE, 0, 0));
    assert_eq!(check(&History::of_elements(1_024)), (SIZE, 0, 0));
}

#[test]
fn repair_of_h_changes_nothing() {
    assert_eq!(repair(&h()), ((DONE, 0, 0), vec![NOW, NOW, 49, 99, 120, 120]));
}

#[test]
fn two_elements_hold_each_other_all_their_lives() {
    let history = History::of_elements(2).with_edges(&[[1, 2, 3, 9], [2, 1, 3, 9]]);
    assert_eq!(check(&history), (CYCLE, 3, 1));
}

#[test]
fn an_element_holds_itself() {
    let history = History::of_elements(1).with_edges(&[[1, 1, 3, 9]]);
    assert_eq!(check(&history), (CYCLE, 3, 1));
}

#[test]
fn ends_are_inclusive() {
    let stays = |to| History::of_elements(1).with_edges(&[[0, 1, 10, to], [0, 1, 50, 99]]);
    assert_eq!(check(&stays(49)), (DONE, 0, 0));
    assert_eq!(check(&stays(50)), (OVERLAP, 50, 1));
    assert_eq!(check(&stays(48)), (GAP, 49, 1));
}

#[test]
fn an_end_of_now_or_just_before() {
    let held = |to| History::of_elements(2).with_edges(&[[0, 1, 0, to], [1, 2, 0, NOW]]);
    assert_eq!(check(&held(NOW)), (DONE, 0, 0));
    assert_eq!(check(&held(NOW - 1)), (OUTSIDE, NOW, 1));
    let overlapping = History::of_elements(1).with_edges(&[[0, 1, 0, NOW], [0, 1, NOW - 1, NOW]]);
    assert_eq!(check(&overlapping), (OVERLAP, NOW - 1, 1));
}
