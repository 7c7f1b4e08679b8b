//! Tables at, below and past each limit, and accepted histories of full size.

use bindlewort_tests::code::*;
use bindlewort_tests::compare::{self, Tally};
use bindlewort_tests::histories::{chain, late_double, late_fault, most_instants, ward, History, Size};
use bindlewort_tests::NOW;

/// Tables of so many numbers that obey the row rules where they are whole rows: elements, rows into them that follow
/// one another, references that do so too, and none in force at an instant without its nodes.
fn tables(nodes: usize, edges: usize, refs: usize) -> History {
    let fill = |length: usize, row: &dyn Fn(u32) -> Vec<u32>| (0u32..).flat_map(row).take(length).collect::<Vec<u32>>();
    History {
        start: 7,
        nodes: fill(nodes, &|i| vec![[0, 4, 1][(i as usize).min(2)], 1, 0]),
        edges: fill(edges, &|i| match i {
            0 => vec![0, 1, 7, NOW],
            1 => vec![0, 2, 7, NOW],
            _ => vec![0, 3, 100 + 10 * i, 109 + 10 * i],
        }),
        refs: fill(refs, &|i| vec![1, 2, 7 + i, 7 + i]),
    }
}

/// Around the limit of a table: lengths in numbers, and whether they are in size.
fn lengths(width: usize, least: usize, most: usize) -> Vec<(usize, bool)> {
    let mut all = vec![];
    for rows in [0, 1, 2, 8, most - 1, most, most + 1, 2 * most] {
        for more in 0..width {
            all.push((rows * width + more, more == 0 && rows >= least && rows <= most));
        }
    }
    all
}

#[test]
fn every_length_of_one_table_is_judged() {
    let checks = &mut Tally::of("check");
    let repairs = &mut Tally::of("repair");
    for (table, width, least, most) in [(0, 3, 1, 1_024), (1, 4, 0, 2_048), (2, 4, 0, 1_024)] {
        for (length, fits) in lengths(width, least, most) {
            let mut sizes = [3 * 8, 4 * 8, 4 * 8];
            sizes[table] = length;
            let history = tables(sizes[0], sizes[1], sizes[2]);
            let said = compare::check(checks, &history);
            assert_eq!(said.code != SIZE, fits, "check of table {table} with {length} numbers");
            assert!(fits || said.place as usize == table, "check of table {table} with {length} numbers");
            if table < 2 {
                let (said, _) = compare::repair(repairs, &history);
                assert_eq!(said.code != SIZE, fits, "repair of table {table} with {length} numbers");
                assert!(fits || said.place as usize == table, "repair of table {table} with {length} numbers");
            }
        }
    }
    checks.met_exactly(&[DONE, SIZE, EDGE, LATE, DANGLING]);
    repairs.met_exactly(&[DONE, SIZE, EDGE]);
}

#[test]
fn the_first_table_out_of_size_is_named_before_all_else() {
    let tally = &mut Tally::of("check");
    for wrong in 0..8usize {
        let length = |table: usize, right: usize| if wrong & (1 << table) == 0 { right } else { right + 1 };
        let mut history = tables(length(0, 24), length(1, 32), length(2, 32));
        history.start = NOW;
        let said = compare::check(tally, &history);
        let expected = if wrong == 0 { (START, 0) } else { (SIZE, wrong.trailing_zeros()) };
        assert_eq!((said.code, said.place), expected);
    }
    tally.met_exactly(&[SIZE, START]);
}

#[test]
fn start_at_the_last_instants() {
    let tally = &mut Tally::of("check");
    let mut history = History::of_elements(1).with_edges(&[[0, 1, NOW - 1, NOW]]);
    for (start, code) in [(NOW - 2, DONE), (NOW - 1, DONE), (NOW, START)] {
        history.start = start;
        assert_eq!(compare::check(tally, &history).code, code);
    }
    tally.met_exactly(&[DONE, START]);
}

/// The instants at which a row starts or has just ended.
fn change_instants(history: &History) -> usize {
    let mut all: Vec<u32> = history
        .edges
        .chunks(4)
        .chain(history.refs.chunks(4))
        .flat_map(|row| [row[2], row[3].wrapping_add(1)])
        .filter(|&t| t > 0)
        .collect();
    all.push(0);
    all.sort_unstable();
    all.dedup();
    all.len()
}

fn is_full(history: &History) -> bool {
    [history.nodes.len(), history.edges.len(), history.refs.len()] == [3 * 1_024, 4 * 2_048, 4 * 1_024]
}

#[test]
fn full_size_histories_are_accepted() {
    let tally = &mut Tally::of("check");
    for history in [ward(Size::FULL), chain(Size::FULL), most_instants(Size::FULL)] {
        assert!(is_full(&history));
        compare::check(tally, &history);
    }
    tally.met_exactly(&[DONE]);
    assert_eq!(change_instants(&most_instants(Size::FULL)), 5_119);
}

#[test]
fn a_fault_at_the_last_instant_of_a_full_size_history_is_found() {
    let tally = &mut Tally::of("check");
    let history = late_fault(Size::FULL);
    assert!(is_full(&history));
    let said = compare::check(tally, &history);
    assert_eq!((said.code, said.instant, said.place), (OUTSIDE, 5_118, 1));
    let history = late_double(Size::FULL);
    assert!(is_full(&history));
    let said = compare::check(tally, &history);
    assert_eq!((said.code, said.instant, said.place), (DOUBLE, NOW - 1, 1_022));
    tally.met_exactly(&[OUTSIDE, DOUBLE]);
}

#[test]
fn full_size_histories_are_repaired() {
    let tally = &mut Tally::of("repair");
    for sound in [ward(Size::FULL), chain(Size::FULL), most_instants(Size::FULL)] {
        let (said, _) = compare::repair(tally, &sound);
        assert_eq!((said.code, said.place), (DONE, 0));
        // Every end lost: repair finds those of the earlier stays again.
        let mut open = sound.clone();
        for row in open.edges.chunks_mut(4) {
            row[3] = NOW;
        }
        let (said, mended) = compare::repair(tally, &open);
        let lost = sound.edges.chunks(4).zip(mended.chunks(4)).filter(|(row, new)| row[3] != new[3]).count();
        assert!(said.place > 0 && lost < 1_024, "{lost} ends are lost");
    }
    tally.met_exactly(&[DONE]);
}

/// One number of a full-size history one larger, in places spread over all rows; in the chain modulo 1,030, which
/// throws its later stays back to the beginning.
#[test]
fn full_size_histories_hurt_in_one_place() {
    let tally = &mut Tally::of("check");
    let repairs = &mut Tally::of("repair");
    for (sound, bound) in [(ward(Size::FULL), NOW), (chain(Size::FULL), 1_030)] {
        for place in (0..sound.edges.len()).step_by(1_021) {
            let mut history = sound.clone();
            history.edges[place] = history.edges[place].wrapping_add(1) % bound;
            compare::check(tally, &history);
            compare::repair(repairs, &history);
        }
    }
    tally.met_exactly(&[DONE, EDGE, OVERLAP, GAP, OUTSIDE, CYCLE]);
    repairs.met_exactly(&[DONE, EDGE, TIE]);
}

/// One reference of a full-size history goes on: its attribute or its target leaves, or the attribute refers again.
#[test]
fn full_size_histories_with_a_reference_that_does_not_end() {
    let tally = &mut Tally::of("check");
    for sound in [ward(Size::FULL), chain(Size::FULL), most_instants(Size::FULL)] {
        for row in [0, 1_023] {
            let mut history = sound.clone();
            history.refs[4 * row + 3] = NOW;
            compare::check(tally, &history);
        }
    }
    tally.met_exactly(&[DONE, LATE, DANGLING, DOUBLE]);
}
