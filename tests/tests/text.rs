//! Write text and read text beside the model: round trips, damaged text, room just short and just enough.

use bindlewort_tests::code::*;
use bindlewort_tests::compare::{numbers_read, read_text, rounds, write_text, Tally};
use bindlewort_tests::histories::{chain, grown, h, hurt, most_instants, random_tables, ward, History, Size, H_TEXT};
use bindlewort_tests::random::Random;
use bindlewort_tests::{model, Answered, Reading, MOST_EDGES, MOST_NODES, MOST_REFS, MOST_TEXT, NOW};

const ENOUGH: [usize; 3] = [3 * MOST_NODES, 4 * MOST_EDGES, 4 * MOST_REFS];

/// Room for the longest text and some more.
const LONG: usize = MOST_TEXT + 9;

/// The text of tables that are in size, by the model.
fn text_of(history: &History) -> Option<Vec<u8>> {
    let mut out = vec![0; LONG];
    let said = model::write_text(history.start, &history.nodes, &history.edges, &history.refs, &mut out);
    out.truncate(said.place as usize);
    (said.code == DONE).then_some(out)
}

/// Writes tables, reads the text, and finds the same tables and the same text again.
fn round_trip(writes: &mut Tally, reads: &mut Tally, history: &History) {
    let (said, out) = write_text(writes, history, LONG);
    assert_eq!(said.code, DONE);
    let text = &out[..said.place as usize];
    let (reading, tables) = read_text(reads, text, ENOUGH);
    assert_eq!((reading.answer.code, reading.start), (DONE, history.start));
    for (table, numbers) in [&history.nodes, &history.edges, &history.refs].into_iter().enumerate() {
        assert_eq!(numbers_read(reading)[table], numbers.len());
        assert_eq!(&tables[table][..numbers.len()], &numbers[..]);
    }
}

#[test]
fn h_is_written_and_read() {
    let (said, out) = write_text(&mut Tally::of("write text"), &h(), H_TEXT.len());
    assert_eq!((said.code, said.instant, said.place as usize), (DONE, 0, H_TEXT.len()));
    assert_eq!(out, H_TEXT.as_bytes());
    let (reading, tables) = read_text(&mut Tally::of("read text"), H_TEXT.as_bytes(), [18, 24, 4]);
    let answer = Answered { code: DONE, instant: 0, place: 0 };
    assert_eq!(reading, Reading { answer, start: 0, nodes: 6, edges: 6, refs: 1 });
    assert_eq!(tables, [h().nodes, h().edges, h().refs]);
}

#[test]
fn full_size_tables_make_the_round_trip() {
    let (writes, reads) = (&mut Tally::of("write text"), &mut Tally::of("read text"));
    for history in [ward(Size::FULL), chain(Size::FULL), most_instants(Size::FULL)] {
        round_trip(writes, reads, &history);
    }
    round_trip(writes, reads, &longest());
    writes.met_exactly(&[DONE]);
    reads.met_exactly(&[DONE]);
}

/// Tables of the longest text: as many rows as there can be, and every number has ten digits. An end of `NOW` would be
/// written as a word of three letters.
fn longest() -> History {
    let [nodes, edges, refs] = ENOUGH.map(|numbers| vec![NOW - 1; numbers]);
    History { start: NOW, nodes, edges, refs }
}

#[test]
fn the_longest_text_has_the_stated_length() {
    let tally = &mut Tally::of("write text");
    for (room, code) in [(0, TEXTROOM), (MOST_TEXT - 1, TEXTROOM), (MOST_TEXT, DONE)] {
        let (said, _) = write_text(tally, &longest(), room);
        assert_eq!((said.code, said.place as usize), (code, MOST_TEXT));
    }
    tally.met_exactly(&[DONE, TEXTROOM]);
}

/// Tables of every sort: the text needs no row rules.
#[test]
fn write_text_agrees_with_the_model() {
    let random = &mut Random::seeded(31);
    let (writes, reads) = (&mut Tally::of("write text"), &mut Tally::of("read text"));
    for _ in 0..20_000 * rounds() {
        let history = random_tables(random);
        let needed = text_of(&history).map_or(40, |text| text.len());
        let room = match random.below(4) {
            0 => random.below(needed),
            1 => needed - 1,
            2 => needed,
            _ => needed + random.below(9),
        };
        let (said, _) = write_text(writes, &history, room);
        if said.code == DONE {
            round_trip(writes, reads, &history);
        }
    }
    writes.met_exactly(&[DONE, SIZE, TEXTROOM]);
    reads.met_exactly(&[DONE]);
}

#[test]
fn write_text_judges_sizes_alone() {
    let tally = &mut Tally::of("write text");
    for (table, width, least, most) in [(0, 3, 1, 1_024), (1, 4, 0, 2_048), (2, 4, 0, 1_024)] {
        for rows in [0, 1, most - 1, most, most + 1] {
            for more in [0, 1, width - 1] {
                let mut tables = [vec![9; 3], vec![], vec![]];
                tables[table] = vec![NOW; rows * width + more];
                let [nodes, edges, refs] = tables;
                let (said, _) = write_text(tally, &History { start: NOW, nodes, edges, refs }, LONG);
                let fits = more == 0 && rows >= least && rows <= most;
                assert_eq!(said.code, if fits { DONE } else { SIZE });
                assert!(fits || said.place == table as u32);
            }
        }
    }
    tally.met_exactly(&[DONE, SIZE]);
}

/// Each room from none to more than enough for H.
#[test]
fn text_room_just_short_and_just_enough() {
    let tally = &mut Tally::of("write text");
    for room in 0..H_TEXT.len() + 9 {
        let (said, _) = write_text(tally, &h(), room);
        assert_eq!(said.code, if room < H_TEXT.len() { TEXTROOM } else { DONE });
        assert_eq!(said.place as usize, H_TEXT.len());
    }
    tally.met_exactly(&[DONE, TEXTROOM]);
}

/// Each room from none to more than enough for the tables of H: the first that is too short is named.
#[test]
fn table_room_just_short_and_just_enough() {
    let tally = &mut Tally::of("read text");
    for nodes in [0, 1, 17, 18, 19] {
        for edges in [0, 1, 23, 24, 25] {
            for refs in [0, 1, 3, 4, 5] {
                let (said, _) = read_text(tally, H_TEXT.as_bytes(), [nodes, edges, refs]);
                let short = [nodes < 18, edges < 24, refs < 4].iter().position(|&s| s);
                let expected = short.map_or((DONE, 0), |table| (ROOM, table as u32));
                assert_eq!((said.answer.code, said.answer.place), expected);
            }
        }
    }
    tally.met_exactly(&[DONE, ROOM]);
}

/// Where the first wrong line of a text starts.
fn place(text: &str) -> Option<u32> {
    let (said, _) = read_text(&mut Tally::of("read text"), text.as_bytes(), ENOUGH);
    (said.answer.code == TEXT).then_some(said.answer.place)
}

#[test]
fn the_place_of_wrong_text() {
    // Each line of H with what makes it wrong: the place is its first byte.
    let wrong = [
        (
            "edition=1",
            vec!["edition=2", "edition=01", "edition=", "Edition=1", " edition=1", "edition=1 ", "edition=1\r"],
        ),
        (
            "start=0",
            vec![
                "start=",
                "start=-1",
                "start=+1",
                "start=00",
                "start=4294967296",
                "start=now",
                "start=1,2",
                "start=0x1",
            ],
        ),
        ("nodes=6", vec!["nodes=0", "nodes=1025", "nodes=06", "nodes=", "nodes=4294967296", "nodes", "nodes=6,"]),
        ("edges=6", vec!["edges=2049", "edges=-0", "edges=6\r", "edge=6"]),
        ("refs=1", vec!["refs=1025", "refs=1.0", "refs=one", "refs 1"]),
        (
            "node=4,5,0",
            vec![
                "node=4,5",
                "node=4,5,0,0",
                "node=4,5,",
                "node=,4,5",
                "node=4, 5,0",
                "node=4,5,now",
                "node=4,5,00",
                "edge=4,5,0",
            ],
        ),
        (
            "edge=0,2,0,now",
            vec![
                "edge=0,2,0,Now",
                "edge=0,2,0,NOW",
                "edge=0,2,0,4294967295",
                "edge=0,2,now,5",
                "edge=0,2,0",
                "edge=0,2,0,now ",
                "edge=0,2,0,nowx",
                "edge=0,2,0,no",
                "edge=0,2,0,",
                "edge=0,2,0,now,",
            ],
        ),
        (
            "ref=5,3,20,120",
            vec![
                "ref=5,3,20,4294967295",
                "ref=5,3,20,12a",
                "ref=5,3,20,99999999999",
                "ref=5;3;20;120",
                "ref=5,3,20,120\r",
                "",
            ],
        ),
    ];
    for (line, others) in wrong {
        let at = H_TEXT.find(&format!("{line}\n")).unwrap();
        for other in others {
            let text = H_TEXT.replacen(line, other, 1);
            assert_eq!(place(&text), Some(at as u32), "{other:?} for {line:?}");
        }
    }
    let length = H_TEXT.len() as u32;
    assert_eq!(place(H_TEXT), None);
    assert_eq!(place(""), Some(0));
    assert_eq!(place(&format!("{H_TEXT}\n")), Some(length));
    assert_eq!(place(&format!("{H_TEXT}ref=5,3,20,120\n")), Some(length));
    assert_eq!(place(&H_TEXT.replace("refs=1", "refs=2")), Some(length));
    assert_eq!(place(&H_TEXT.replace("nodes=6", "nodes=5")), H_TEXT.find("node=4").map(|p| p as u32));
    assert_eq!(place(&H_TEXT.replace('\n', "\r\n")), Some(0));
    assert_eq!(place(&format!("\u{feff}{H_TEXT}")), Some(0));
    let largest = "edge=4294967295,4294967295,4294967295,4294967294";
    assert_eq!(place(&H_TEXT.replace("edge=0,1,0,now", largest)), None);
}

/// H cut at each byte: the place is the first byte of the line that lacks its end.
#[test]
fn text_cut_at_every_byte() {
    for length in 0..H_TEXT.len() {
        let cut = &H_TEXT[..length];
        let line = cut.rfind('\n').map_or(0, |at| at + 1);
        assert_eq!(place(cut), Some(line as u32), "cut at {length}");
    }
}

/// H with each byte set to each value: no two such texts are read alike unless a number was changed.
#[test]
fn text_with_every_byte_changed() {
    let tally = &mut Tally::of("read text");
    for at in 0..H_TEXT.len() {
        for byte in 0..=255 {
            let mut text = H_TEXT.as_bytes().to_vec();
            text[at] = byte;
            read_text(tally, &text, [24, 40, 40]);
        }
    }
    tally.met_exactly(&[DONE, TEXT]);
}

/// Damages a text in one place.
fn damage(random: &mut Random, text: &mut Vec<u8>) {
    let at = random.below(text.len() + 1);
    let byte = random.pick(b"0123456789,=\n\r nowNedgrfst-+.\0\xff");
    match random.below(9) {
        0 => text.truncate(at),
        1 => text.insert(at, byte),
        2 => {
            text.splice(at..at, b"now".iter().copied());
        }
        3 => {
            text.splice(at..at, random.word().to_string().into_bytes());
        }
        4 => {
            text.splice(at..at, b"4294967295".iter().copied());
        }
        5 => text.splice(at..at, b"0".iter().copied()).for_each(drop),
        6 if at < text.len() => {
            text.remove(at);
        }
        7 if at < text.len() => text[at] = byte,
        // two lines change places, or one stands twice
        _ => {
            let mut lines: Vec<&[u8]> = text.split_inclusive(|&b| b == b'\n').collect();
            if lines.len() > 1 {
                let (one, other) = (random.below(lines.len()), random.below(lines.len()));
                if random.once_in(2) {
                    lines.swap(one, other);
                } else {
                    lines.insert(one, lines[other]);
                }
                *text = lines.concat();
            }
        }
    }
}

#[test]
fn read_text_agrees_with_the_model() {
    let random = &mut Random::seeded(32);
    let tally = &mut Tally::of("read text");
    let mut short = [0; 3];
    for _ in 0..40_000 * rounds() {
        let mut history = if random.once_in(2) { random_tables(random) } else { grown(random, 6, 12) };
        if random.once_in(4) {
            hurt(random, &mut history);
        }
        let mut text = text_of(&history).unwrap_or_else(|| H_TEXT.into());
        for _ in 0..random.below(3) {
            damage(random, &mut text);
        }
        if random.once_in(50) {
            text = (0..random.below(60)).map(|_| random.word() as u8).collect();
        }
        let room = [0, 1, 2].map(|_| if random.once_in(4) { random.below(40) } else { 200 });
        let (said, _) = read_text(tally, &text, room);
        if said.answer.code == ROOM {
            short[said.answer.place as usize] += 1;
        }
    }
    tally.met_exactly(&[DONE, ROOM, TEXT]);
    assert!(short.iter().all(|&count| count > 100), "places of ROOM: {short:?}");
}

/// A full-size text damaged near its end, and one past the sizes.
#[test]
fn long_text() {
    let tally = &mut Tally::of("read text");
    let text = text_of(&ward(Size::FULL)).unwrap();
    for at in [text.len() - 1, text.len() - 2, text.len() - 40, text.len() / 2, 5] {
        let mut damaged = text.clone();
        damaged[at] = b'x';
        read_text(tally, &damaged, ENOUGH);
    }
    let mut long = text.clone();
    long.extend(vec![b'\n'; 100_000]);
    let (said, _) = read_text(tally, &long, ENOUGH);
    assert_eq!(said.answer.place as usize, text.len());
    tally.met_exactly(&[TEXT]);
}
