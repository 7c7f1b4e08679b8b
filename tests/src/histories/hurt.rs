//! Hurt and wild histories, and tables of random numbers.

use super::{grown, History};
use crate::kind::{ELEMENT, REF_ATTRIBUTE};
use crate::random::Random;
use crate::NOW;

/// One number that may do harm in the place of another.
fn harm(random: &mut Random, number: u32, others: &[u32], start: u32) -> u32 {
    match random.below(10) {
        0 => number.wrapping_add(1),
        1 => number.wrapping_sub(1),
        2 => NOW,
        3 => NOW - 1,
        4 => start,
        5 => start.wrapping_sub(1),
        6 => random.below(8) as u32,
        7 => random.word(),
        _ => random.pick(others),
    }
}

/// Hurts a table of labelled rows in one place.
fn hurt_rows(random: &mut Random, rows: &mut Vec<u32>, start: u32, instants: &[u32]) {
    if rows.len() < 4 {
        return;
    }
    let at = 4 * random.below(rows.len() / 4);
    let other = 4 * random.below(rows.len() / 4);
    match random.below(16) {
        // the row starts or ends at another time: gaps, overlaps, from past to, ends at Now, a start at Now
        0..=6 => {
            let place = at + random.between(2, 3);
            rows[place] = harm(random, rows[place], instants, start);
        }
        // another parent, child, attribute or target: cycles, nodes that are absent, kinds that do not fit
        7..=9 => {
            let place = at + random.below(2);
            rows[place] = random.pick(&[rows[other], rows[other + 1], rows[place].wrapping_add(1)]);
        }
        10 => rows.swap(at, at + 1),
        11 => rows.swap(at + 2, at + 3),
        // a row into the same child at another time
        12 => {
            let row = [rows[at], rows[at + 1], rows[other + 2], rows[other + 3]];
            rows.extend(row);
        }
        13 => {
            rows.drain(at..at + 4);
        }
        // a tie
        14 => rows[at + 2] = rows[other + 2],
        // no longer whole rows
        _ => {
            if random.once_in(4) {
                rows.pop();
            }
        }
    }
}

/// Refers a second time from the attribute of a row, to the same target or to another row's. The row itself goes on, or
/// ends after the second one's start, at it, or just before, which is no fault.
pub fn refer_twice(random: &mut Random, refs: &mut Vec<u32>) {
    if refs.len() < 4 {
        return;
    }
    let at = 4 * random.below(refs.len() / 4);
    let other = 4 * random.below(refs.len() / 4);
    let place = 4 * random.below(refs.len() / 4 + 1);
    let (from, to) = (refs[at + 2], refs[at + 3]);
    let near = from.saturating_add(random.below(4) as u32).min(to);
    let target = refs[random.pick(&[at, other]) + 1];
    let start = random.pick(&[from, near, near.saturating_add(1)]);
    let second = [refs[at], target, start, to.max(start)];
    refs[at + 3] = random.pick(&[near, to]);
    refs.splice(place..place, second);
}

/// Hurts a history in one place.
pub fn hurt(random: &mut Random, history: &mut History) {
    let mut instants = history.label_numbers();
    instants.push(history.start);
    match random.below(28) {
        0 => history.start = harm(random, history.start, &instants, history.start),
        1 | 2 => {
            let place = random.below(history.nodes.len().max(1));
            if let Some(number) = history.nodes.get_mut(place) {
                *number = random.pick(&[0, 1, 2, 3, 4, 5, 6, 65_535, 65_536, NOW]);
            }
        }
        3 => {
            if random.once_in(6) {
                history.nodes.pop();
            }
        }
        4..=9 => hurt_rows(random, &mut history.refs, history.start, &instants),
        10..=13 => refer_twice(random, &mut history.refs),
        _ => hurt_rows(random, &mut history.edges, history.start, &instants),
    }
}

/// Small tables whose rows obey the rules and whose labels lie close together. Nothing begins or ends between 20 and
/// Now. In some of them all nodes stay, so that the references alone can be at fault.
pub fn wild(random: &mut Random) -> History {
    let nodes = random.between(1, 6);
    let mut history = History::of_elements(nodes - 1);
    for n in 1..nodes {
        if random.once_in(3) {
            history.nodes[3 * n] = REF_ATTRIBUTE;
        }
    }
    let kinds: Vec<u32> = history.nodes.chunks(3).map(|node| node[0]).collect();
    let pairs = |fits: fn(u32, u32) -> bool| -> Vec<(usize, usize)> {
        let all = (0..nodes).flat_map(|one| (0..nodes).map(move |other| (one, other)));
        all.filter(|&(one, other)| fits(kinds[one], kinds[other])).collect()
    };
    let mut rows = |pairs: Vec<(usize, usize)>, most: usize| -> Vec<u32> {
        let count = if pairs.is_empty() { 0 } else { random.below(most + 1) };
        let mut row = |_| {
            let (one, other) = random.pick(&pairs);
            let from = random.below(10);
            let to = if random.once_in(5) { NOW } else { random.between(from, 18) as u32 };
            [one as u32, other as u32, from as u32, to]
        };
        (0..count).flat_map(&mut row).collect()
    };
    history.edges = rows(pairs(|parent, child| parent <= 1 && child >= 1), 7);
    history.refs = rows(pairs(|attribute, target| attribute == REF_ATTRIBUTE && target == ELEMENT), 4);
    if random.once_in(3) {
        history.edges = (1..nodes as u32).flat_map(|n| [0, n, 0, NOW]).collect();
    }
    history
}

/// Tables of random numbers, mostly small ones and the largest.
pub fn random_tables(random: &mut Random) -> History {
    let mut numbers = |most: usize, width: usize| {
        let length = if random.once_in(4) { random.below(width * most + 1) } else { width * random.below(most + 1) };
        (0..length).map(|_| some_number(random)).collect::<Vec<u32>>()
    };
    let (nodes, edges, refs) = (numbers(4, 3), numbers(4, 4), numbers(3, 4));
    History { start: some_number(random), nodes, edges, refs }
}

fn some_number(random: &mut Random) -> u32 {
    match random.below(6) {
        0 => NOW - random.below(2) as u32,
        1 => random.word(),
        2 => random.below(70_000) as u32,
        _ => random.below(7) as u32,
    }
}

/// A history of any sort: mostly a grown one, hurt in up to three places.
pub fn any(random: &mut Random) -> History {
    match random.below(8) {
        0 => random_tables(random),
        1 | 2 => wild(random),
        _ => {
            let (nodes, steps) = (random.between(1, 9), random.between(0, 40));
            let mut history = grown(random, nodes, steps);
            for _ in 0..random.below(4) {
                hurt(random, &mut history);
            }
            history
        }
    }
}
