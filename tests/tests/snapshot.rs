//! Snapshot beside the model, and its cases of 'Both sides of the line'.

use bindlewort_tests::code::*;
use bindlewort_tests::compare::{rounds, snapshot, Tally};
use bindlewort_tests::histories::{any, chain, h, late_double, most_instants, ward, History, Size};
use bindlewort_tests::random::Random;
use bindlewort_tests::{MOST_NODES, NOW, NO_NODE, SNAPSHOT_WIDTH};

const ENOUGH: usize = MOST_NODES * SNAPSHOT_WIDTH;

/// Code, instant and place that snapshot answers, and the rows of an accepted one.
fn shown(history: &History, t: u32) -> ((u32, u32, u32), Vec<[u32; 3]>) {
    let (said, out) = snapshot(&mut Tally::of("snapshot"), history, t, ENOUGH);
    let rows = if said.code == DONE { said.place as usize } else { 0 };
    ((said.code, said.instant, said.place), out.chunks(3).take(rows).map(|r| [r[0], r[1], r[2]]).collect())
}

const N: u32 = NO_NODE;

#[test]
fn h_at_50() {
    let rows = vec![[0, N, N], [1, 0, N], [4, 1, N], [5, 4, 3], [2, 0, N], [3, 2, N]];
    assert_eq!(shown(&h(), 50), ((DONE, 50, 6), rows));
}

#[test]
fn h_before_and_after_the_stays() {
    let rows = vec![[0, N, N], [1, 0, N], [2, 0, N]];
    assert_eq!(shown(&h(), 9), ((DONE, 9, 3), rows.clone()));
    assert_eq!(shown(&h(), 100), ((DANGLING, 100, 0), vec![]));
    assert_eq!(shown(&h(), 121), ((DONE, 121, 3), rows));
}

#[test]
fn a_gap_is_set_aside() {
    let mut history = h();
    history.edges[4 * 3 + 2] = 52;
    assert_eq!(shown(&history, 50), ((DANGLING, 50, 0), vec![]));
    history.refs.clear();
    assert_eq!(shown(&history, 50).0, (DONE, 50, 5));
}

#[test]
fn the_root_alone() {
    let mut history = History::of_elements(0);
    assert_eq!(shown(&history, 0), ((DONE, 0, 1), vec![[0, N, N]]));
    history.start = 7;
    assert_eq!(shown(&history, 6), ((EARLY, 6, 0), vec![]));
    assert_eq!(shown(&history, 7), ((DONE, 7, 1), vec![[0, N, N]]));
}

#[test]
fn the_reference_in_force_is_shown() {
    let mut history = h();
    history.refs = [[5, 1, 60, 70], [5, 2, 20, 59], [5, 3, 71, 99]].concat();
    let referent = |t| shown(&history, t).1.iter().find(|row| row[0] == 5).map(|row| row[2]);
    assert_eq!(
        (referent(59), referent(60), referent(70), referent(71), referent(100)),
        (Some(2), Some(1), Some(1), Some(3), Some(N))
    );
}

/// All codes that snapshot can give, and not GAP, which is set aside.
#[test]
fn snapshot_agrees_with_the_model() {
    let random = &mut Random::seeded(21);
    let tally = &mut Tally::of("snapshot");
    for _ in 0..40_000 * rounds() {
        let history = any(random);
        let t = history.some_instant(random);
        let room = if random.once_in(2) { random.below(30) } else { 30 };
        snapshot(tally, &history, t, room);
    }
    let rules = [SIZE, START, NODE, EDGE, REFERENCE];
    let faults = [OVERLAP, OUTSIDE, CYCLE, LATE, DANGLING, DOUBLE];
    tally.met_exactly(&[&[DONE], &rules[..], &faults, &[ROOM, EARLY]].concat());
}

/// Every room from none to more than enough: one number short is refused, and what is past the rows stays.
#[test]
fn room_just_short_and_just_enough() {
    let tally = &mut Tally::of("snapshot");
    for room in 0..25 {
        let (said, _) = snapshot(tally, &h(), 50, room);
        assert_eq!((said.code, said.instant, said.place), if room < 18 { (ROOM, 50, 6) } else { (DONE, 50, 6) });
    }
    tally.met_exactly(&[DONE, ROOM]);
}

#[test]
fn full_size_histories() {
    let tally = &mut Tally::of("snapshot");
    for history in [ward(Size::FULL), chain(Size::FULL), most_instants(Size::FULL)] {
        for t in [0, 1, 999, 2_500, 4_000, 100_000, NOW - 1, NOW] {
            let (said, _) = snapshot(tally, &history, t, ENOUGH);
            let rows = said.place as usize;
            for (room, code) in [(3 * rows - 1, ROOM), (3 * rows, DONE)] {
                assert_eq!(snapshot(tally, &history, t, room).0.code, code);
            }
        }
    }
    tally.met_exactly(&[DONE, ROOM]);
}

/// The same history one instant earlier can be shown.
#[test]
fn two_references_at_the_last_instants_of_a_full_size_history() {
    let history = late_double(Size::FULL);
    assert_eq!(shown(&history, NOW - 2).0, (DONE, NOW - 2, 1_024));
    assert_eq!(shown(&history, NOW - 1).0, (DOUBLE, NOW - 1, 1_022));
    assert_eq!(shown(&history, NOW).0, (DOUBLE, NOW, 1_022));
}

/// The longest chain that there can be, 1,023 rows, is shown to its last node. One that goes on past that goes round.
#[test]
fn the_longest_chain() {
    let tally = &mut Tally::of("snapshot");
    let rows: Vec<[u32; 4]> = (1..1_024).map(|n| [n - 1, n, 0, NOW]).collect();
    let history = History::of_elements(1_023).with_edges(&rows);
    for (room, code) in [(3 * 1_024 - 1, ROOM), (3 * 1_024, DONE)] {
        let (said, _) = snapshot(tally, &history, 5, room);
        assert_eq!((said.code, said.instant, said.place), (code, 5, 1_024));
    }
    let reversed: Vec<[u32; 4]> = (1..1_024).map(|n| [if n == 1_023 { 0 } else { n + 1 }, n, 0, NOW]).collect();
    let history = History::of_elements(1_023).with_edges(&reversed);
    assert_eq!(snapshot(tally, &history, 5, ENOUGH).0.code, DONE);
    let round: Vec<[u32; 4]> = (1..1_024).map(|n| [if n == 1 { 1_023 } else { n - 1 }, n, 0, NOW]).collect();
    let history = History::of_elements(1_023).with_edges(&round);
    let (said, _) = snapshot(tally, &history, 5, 0);
    assert_eq!((said.code, said.instant, said.place), (CYCLE, 5, 1));
    tally.met_exactly(&[DONE, CYCLE, ROOM]);
}

/// Lengths of one table around its limits: SIZE with the table as its place, before all else.
#[test]
fn sizes_are_judged_first() {
    let tally = &mut Tally::of("snapshot");
    for (table, width, most) in [(0, 3, 1_024), (1, 4, 2_048), (2, 4, 1_024)] {
        for length in [1, width - 1, width + 1, most * width - 1, most * width + 1, (most + 1) * width] {
            let mut tables = [vec![0, 1, 0], vec![], vec![]];
            tables[table].resize(length, 0);
            let [nodes, edges, refs] = tables;
            let (said, _) = snapshot(tally, &History { start: NOW, nodes, edges, refs }, 0, 3);
            assert_eq!((said.code, said.place), (SIZE, table as u32));
        }
    }
    let broken = History { start: NOW, nodes: vec![], edges: vec![1], refs: vec![1] };
    let (said, _) = snapshot(tally, &broken, 0, 3);
    assert_eq!((said.code, said.place), (SIZE, 0));
    tally.met_exactly(&[SIZE]);
}
