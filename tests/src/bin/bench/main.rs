//! The library beside the same algorithms in plain Rust, interleaved in one run: medians, ratios, growth with size.
//! `tests/bench` builds the library and runs this.

mod plain;

use bindlewort_tests::histories::{chain, late_fault, most_instants, ward, History, Size};
use bindlewort_tests::{check, read_text, repair, snapshot, write_text};
use bindlewort_tests::{Answered, MOST_EDGES, MOST_NODES, MOST_REFS, MOST_TEXT, NOW, SNAPSHOT_WIDTH};
use std::fmt::Debug;
use std::ptr::read_volatile;

const ROUNDS: usize = 21;
/// A sample repeats a call until it takes about so many seconds.
const SAMPLE: f64 = 0.002;

#[repr(C)]
struct Time {
    seconds: i64,
    nanoseconds: i64,
}

extern "C" {
    fn clock_gettime(clock: i32, time: *mut Time) -> i32;
}

/// The processor time of this thread: other work on the machine does not count.
fn seconds() -> f64 {
    const THREAD_CPU_TIME: i32 = 3;
    let mut time = Time { seconds: 0, nanoseconds: 0 };
    assert_eq!(unsafe { clock_gettime(THREAD_CPU_TIME, &mut time) }, 0);
    time.seconds as f64 + time.nanoseconds as f64 * 1e-9
}

fn timed<T: Copy>(repeats: usize, call: &mut impl FnMut() -> T) -> f64 {
    let began = seconds();
    for _ in 0..repeats {
        // so that the compiler leaves nothing of the call out
        unsafe { read_volatile(&call()) };
    }
    (seconds() - began) / repeats as f64
}

fn median(mut samples: Vec<f64>) -> f64 {
    samples.sort_by(f64::total_cmp);
    samples[samples.len() / 2]
}

/// Medians of the library and of its counterpart, in seconds, and the median of their ratios round by round.
fn beside<T: Copy + PartialEq + Debug>(mut library: impl FnMut() -> T, mut plain: impl FnMut() -> T) -> [f64; 3] {
    assert_eq!(library(), plain());
    let repeats = (SAMPLE / timed(1, &mut library).max(1e-9)).ceil() as usize;
    let rounds: Vec<[f64; 2]> =
        (0..ROUNDS).map(|_| [timed(repeats, &mut library), timed(repeats, &mut plain)]).collect();
    [
        median(rounds.iter().map(|r| r[0]).collect()),
        median(rounds.iter().map(|r| r[1]).collect()),
        median(rounds.iter().map(|r| r[0] / r[1]).collect()),
    ]
}

type Shape = (&'static str, fn(Size) -> History);

const SHAPES: [Shape; 4] = [
    ("shallow ward", ward),
    ("chain, 1,000 deep", chain),
    ("5,119 instants", most_instants),
    ("fault at the last", late_fault),
];

/// Times one call over all sizes of a shape. Growth is the library's time over that of half the size.
fn table(call: &str, shape: &Shape, times: impl Fn(&History) -> [f64; 3]) {
    let mut before = None;
    for parts in [1, 2, 4, 8] {
        let [library, plain, ratio] = times(&shape.1(Size::eighths(parts)));
        let growth = before.map_or(String::new(), |b: f64| format!("{:.2}", library / b));
        before = Some(library);
        println!(
            "{call:8} {:18} {parts}/8 {:11.4} ms {:11.4} ms {ratio:7.2} {growth:>7}",
            shape.0,
            library * 1e3,
            plain * 1e3,
        );
    }
}

fn check_times(history: &History) -> [f64; 3] {
    let History { start, nodes, edges, refs } = history;
    beside(|| check(*start, nodes, edges, refs), || plain::check(*start, nodes, edges, refs))
}

/// All ends are lost, so that every row but the last of a node gets another.
fn repair_times(history: &History) -> [f64; 3] {
    let History { start, nodes, edges, .. } = history;
    let mut open = edges.clone();
    open.chunks_mut(4).for_each(|row| row[3] = NOW);
    let with = |call: fn(u32, &[u32], &mut [u32]) -> Answered| {
        let open = &open;
        let mut lent = open.clone();
        move || {
            lent.copy_from_slice(open);
            (call(*start, nodes, &mut lent), lent[3])
        }
    };
    beside(with(repair), with(plain::repair))
}

/// The instant at which the most nodes are present.
fn busiest(history: &History) -> u32 {
    let present = |t: u32| history.edges.chunks(4).filter(|row| row[2] <= t && t <= row[3]).count();
    history.edges.chunks(4).map(|row| row[2]).max_by_key(|&t| present(t)).unwrap()
}

fn out() -> Vec<u32> {
    vec![0; MOST_NODES * SNAPSHOT_WIDTH]
}

fn tables() -> [Vec<u32>; 3] {
    [vec![0; MOST_NODES * 3], vec![0; MOST_EDGES * 4], vec![0; MOST_REFS * 4]]
}

fn text_of(history: &History) -> Vec<u8> {
    let mut text = vec![0; MOST_TEXT];
    let said = write_text(history.start, &history.nodes, &history.edges, &history.refs, &mut text);
    text.truncate(said.place as usize);
    text
}

fn snapshot_times(history: &History) -> [f64; 3] {
    let History { start, nodes, edges, refs } = history;
    let t = busiest(history);
    let (mut one, mut other) = (out(), out());
    beside(
        || (snapshot(*start, nodes, edges, refs, t, &mut one), one[3]),
        || (plain::snapshot(*start, nodes, edges, refs, t, &mut other), other[3]),
    )
}

fn write_times(history: &History) -> [f64; 3] {
    let History { start, nodes, edges, refs } = history;
    let (mut one, mut other) = (vec![0; MOST_TEXT], vec![0; MOST_TEXT]);
    beside(
        || (write_text(*start, nodes, edges, refs, &mut one), one[99]),
        || (plain::write_text(*start, nodes, edges, refs, &mut other), other[99]),
    )
}

fn read_times(history: &History) -> [f64; 3] {
    let text = text_of(history);
    let ([mut n, mut m, mut k], [mut a, mut b, mut c]) = (tables(), tables());
    beside(
        || (read_text(&text, &mut n, &mut m, &mut k), m[7]),
        || (plain::read_text(&text, &mut a, &mut b, &mut c), b[7]),
    )
}

fn main() {
    println!(
        "Median of {ROUNDS} rounds, library and plain Rust in turn, processor time. Sizes are parts of full size."
    );
    println!("{:8} {:18} size {:>13} {:>14} {:>7} {:>7}", "call", "history", "library", "plain", "ratio", "growth");
    for shape in &SHAPES {
        table("check", shape, check_times);
    }
    for shape in &SHAPES[..3] {
        table("snapshot", shape, snapshot_times);
        table("repair", shape, repair_times);
        table("write", shape, write_times);
        table("read", shape, read_times);
    }
}
