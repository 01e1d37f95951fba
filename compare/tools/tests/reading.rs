//! The plain reading of document 01 where the Rust has no answer: log, rows, peak, end, the additions, the display; and
//! replays by example.

use reference::{Answer, PaperAnswer};
use tools::definition::{
    BUILT_IN, CLASSES, Class, Rules, Stacks, Verdict, analysis, analysis_with, built_in_map, classic_map, decode, display,
    fragments, mark, mark_with,
};
use tools::replay::{Ending, Trace, replay};

const LENT: u16 = 777;

/// The verdict, and the log out of one with ten numbers more than needed.
fn marked(bytes: &[u8], main: u32, alt: u32) -> (Verdict, Vec<u16>) {
    let needed = decode(bytes).map_or(0, |instructions| 3 * instructions.len());
    let mut log = vec![LENT; needed + 10];
    let verdict = analysis(bytes, main, alt, &mut log);
    assert!(log[3 * verdict.rows..].iter().all(|number| *number == LENT), "{bytes:02x?}");
    log.truncate(3 * verdict.rows);
    (verdict, log)
}

fn heights(end: &Option<Stacks>) -> Option<(usize, usize)> {
    end.as_ref().map(|end| (end.main.len(), end.alt.len()))
}

/// Request L2: 9 for an unknown item, 24 for bytes that are no number, 25 for a number below zero, each at the place of 9.
#[test]
fn spoilt_indices() {
    let refused: [(&[u8], u32, [u64; 4]); 15] = [
        (b"\x79", 2, [9, 0, 0, 0]),
        (b"\x09\0\0\0\0\0\0\0\0\0\x79", 1, [9, 10, 0, 0]),
        (b"\x01\x80\x79", 1, [24, 2, 0, 0]),
        (b"\x02\x00\x80\x7a", 1, [24, 3, 0, 0]),
        (b"\x01\x00\x79", 1, [24, 2, 0, 0]),
        (b"\x02\x05\x00\x79", 1, [24, 3, 0, 0]),
        (b"\x02\x05\x80\x79", 1, [24, 3, 0, 0]),
        (b"\x4f\x79", 1, [25, 1, 0, 0]),
        (b"\x02\x80\x80\x7a", 1, [25, 3, 0, 0]),
        // 80 00 is 128, and missing items come first.
        (b"\x02\x80\x00\x79", 1, [7, 3, 129, 1]),
        (b"\x79", 0, [7, 0, 1, 0]),
        // ZK: its count, and its tag.
        (b"\x4f\x51\x51\x01\x20\xa6", 0, [25, 5, 0, 0]),
        (b"\x01\x80\x51\x51\x01\x20\xa6", 0, [24, 6, 0, 0]),
        (b"\x51\x51\x01\x20\xa6", 1, [9, 4, 0, 0]),
        (b"\x4f\xa6", 9, [10, 1, 0, 0]),
    ];
    for (bytes, main, [number, offset, a, b]) in refused {
        let (verdict, _) = marked(bytes, main, 0);
        assert_eq!(verdict.answer, Answer { number: number as u32, offset, a, b }, "{bytes:02x?} ({main})");
    }
    // Dead code reads nothing.
    assert_eq!(marked(b"\x4f\x6a\x79", 1, 0).0.answer, Answer::ACCEPTED);
}

/// Section 8, with peak and end where it names them.
#[test]
fn section_8() {
    let accepted: [(&[u8], u32, u32, usize, Option<(usize, usize)>); 6] = [
        (b"", 0, 0, 0, Some((0, 0))),
        (b"\x00\x79", 1, 0, 2, Some((2, 0))),
        (b"\x6b", 244, 0, 244, Some((243, 1))),
        (b"\x63\x6a\x68\x75", 2, 0, 2, Some((0, 0))),
        (b"\x6a\xff", 0, 0, 0, None),
        (b"\x51\x63\x51\x67\x51\x68\x79", 2, 0, 3, Some((3, 0))),
    ];
    for (bytes, main, alt, peak, end) in accepted {
        let (verdict, log) = marked(bytes, main, alt);
        assert_eq!((verdict.answer, verdict.peak, heights(&verdict.end)), (Answer::ACCEPTED, peak, end), "{bytes:02x?}");
        assert_eq!(log.len(), 3 * decode(bytes).unwrap_or_default().len());
    }
    let refused: [(&[u8], u32, u32, [u64; 4], usize); 8] = [
        (b"\x75", 0, 0, [7, 0, 1, 0], 1),
        (b"\x51\x79", 1, 0, [7, 1, 2, 1], 2),
        (b"\x02\x00\x01\x79", 1, 0, [7, 3, 257, 1], 2),
        (b"\x76", 244, 0, [6, 0, 245, 244], 1),
        (b"\x7d", 1, 243, [7, 0, 2, 1], 1),
        (b"\x63\x51\x68", 1, 0, [12, 2, 0, 0], 3),
        (b"\x51\x63", 0, 0, [16, 1, 0, 0], 2),
        (b"\x51\x63\x51\x67\x52\x68\x79", 2, 0, [9, 6, 0, 0], 7),
    ];
    for (bytes, main, alt, [number, offset, a, b], rows) in refused {
        let (verdict, _) = marked(bytes, main, alt);
        assert_eq!(verdict.answer, Answer { number: number as u32, offset, a, b }, "{bytes:02x?}");
        assert_eq!((verdict.rows, verdict.peak, verdict.end), (rows, 0, None), "{bytes:02x?}");
    }
    let open = |times: usize| marked(&[vec![0x6a], vec![0x63; times]].concat(), 0, 0).0;
    assert_eq!(open(25).answer, Answer { number: 5, offset: 25, a: 24, b: 24 });
    assert_eq!(open(24).answer, Answer { number: 16, offset: 24, a: 0, b: 0 });
    assert_eq!((open(25).rows, open(24).rows), (26, 25));
}

/// Offset, main and alt just before, 65,535 twice if dead.
#[test]
fn rows() {
    // Both arms live, then the second dead, then the first.
    assert_eq!(marked(b"\x63\x51\x67\x52\x68\x6b", 1, 0).1, [0, 1, 0, 1, 0, 0, 2, 1, 0, 3, 0, 0, 4, 1, 0, 5, 1, 0]);
    let (dead, live) = ([65_535, 65_535], [1, 0]);
    let row = |offset: u16, heights: [u16; 2]| [offset, heights[0], heights[1]];
    let log = [row(0, [2, 0]), row(1, live), row(2, live), row(3, dead), row(4, live)].concat();
    assert_eq!(marked(b"\x63\x67\x6a\x68\x75", 2, 0).1, log);
    let log = [row(0, [2, 0]), row(1, live), row(2, dead), row(3, live), row(4, live)].concat();
    assert_eq!(marked(b"\x63\x6a\x67\x68\x75", 2, 0).1, log);
    // Offsets past data bytes.
    assert_eq!(marked(b"\x02\x07\x07\x4c\x01\x07\x75", 0, 3).1, [0, 0, 3, 3, 1, 3, 6, 2, 3]);
}

#[test]
fn additions() {
    let long = analysis(&[0x61; 10_001], 300, 0, &mut []);
    assert_eq!(long.answer, Answer { number: 1, offset: 0, a: 10_001, b: 10_000 });
    // 2, then 3, then 4.
    let short = |bytes: &[u8], main| analysis(bytes, main, 0, &mut [LENT; 5]).answer;
    assert_eq!(short(&[0x4c], 245), Answer { number: 2, offset: 0, a: 245, b: 244 });
    assert_eq!(short(&[0x61, 0x61, 0x4c], 0), Answer { number: 3, offset: 2, a: 0, b: 0 });
    assert_eq!(short(&[0x75, 0x61], 0), Answer { number: 4, offset: 0, a: 6, b: 5 });
    assert_eq!(short(&[0x61], 0), Answer::ACCEPTED);
}

/// The paper of section 6, and its log when that is too short for the second of two entries.
#[test]
fn papers() {
    let paper = b"\x01\x00\x01\x00\x0e\x00\x00\x00\x01\x00\x0e\x00\x06\x00\x63\x51\x67\x52\x68\x75";
    let verdict = mark(paper, &mut [LENT; 18]);
    assert_eq!((verdict.answer, verdict.rows, verdict.peak), (PaperAnswer::ACCEPTED, 6, 2));
    let two = b"\x02\x00\x00\x00\x14\x00\x00\x00\x02\x00\x14\x00\x01\x00\x01\x00\x15\x00\x02\x00\x75\x51\x51";
    let mut log = [LENT; 8];
    let verdict = mark(two, &mut log);
    assert_eq!(verdict.answer, PaperAnswer { number: 4, entry: 1, offset: 0, a: 6, b: 5 });
    assert_eq!((verdict.rows, verdict.peak, log), (1, 0, [0, 2, 0, LENT, LENT, LENT, LENT, LENT]));
    let verdict = mark(two, &mut [LENT; 9]);
    assert_eq!((verdict.answer, verdict.rows, verdict.peak), (PaperAnswer::ACCEPTED, 3, 3));
}

/// The built-in map with these rows in place of its own.
fn map(rows: &[(u8, u8)]) -> Vec<u8> {
    let mut map = built_in_map();
    for (code, class) in rows {
        map[4 + usize::from(*code)] = *class;
    }
    map
}

/// Request L6: the map that is built in, and the numbers of its classes.
#[test]
fn the_built_in_map() {
    let map = built_in_map();
    assert_eq!((map.len(), &map[..4]), (260, &[0x00, 0x01, 0x04, 0x00][..]));
    assert_eq!(Rules::read(&map, 244), Ok(BUILT_IN.clone()));
    // The first of each class, in the order of section 2.
    let first = [
        0x50, 0x00, 0x61, 0x63, 0x64, 0x67, 0x68, 0x6a, 0x6b, 0x6c, 0x74, 0x82, 0x77, 0x7d, 0x79, 0x7a, 0xa6, 0x76, 0x6e, 0x6f,
        0x78, 0x70, 0x7b, 0x71, 0x7c, 0x72, 0x69, 0x6d, 0xb2, 0x83, 0x7f, 0x7e,
    ];
    for (number, code) in first.into_iter().enumerate() {
        assert_eq!((usize::from(map[4 + code]), BUILT_IN.class(code as u8)), (number, CLASSES[number]), "{code:02x}");
    }
    assert_eq!(CLASSES[31], Class::Plain(2, 1));
}

/// Request L8: 51 rows less, and what is accepted by the classic map the built-in one answers with the same verdict and log: every
/// fragment of up to two bytes.
#[test]
fn the_classic_map() {
    let (old, own) = (classic_map(), built_in_map());
    let gone: Vec<usize> = (0..260).filter(|place| old[*place] != own[*place]).collect();
    assert!(gone.len() == 51 && gone.iter().all(|place| old[*place] == 0));
    assert!(Rules::read(&old, 244).is_ok());
    let by = |map: &[u8], bytes: &[u8], main| {
        let mut log = [LENT; 6];
        (analysis_with(map, 244, false, bytes, main, 0, &mut log), log)
    };
    let both = (0..=255u8).flat_map(|first| (0..=255u8).map(move |second| vec![first, second]));
    let (mut accepted, mut parted) = (0, 0);
    for bytes in both.chain((0..=255u8).map(|first| vec![first])) {
        for main in [0, 2, 9] {
            let (classic, current) = (by(&old, &bytes, main), by(&own, &bytes, main));
            if classic.0.answer.number == 0 {
                assert_eq!(classic, current, "{bytes:02x?} {main}");
                accepted += 1;
            } else {
                parted += usize::from(current.0.answer.number == 0);
            }
        }
    }
    assert!(accepted > 5_000 && parted > 5_000, "{accepted} {parted}");
    // Dead code is accepted in both years.
    assert_eq!(by(&old, b"\x7e", 2).0.answer, Answer { number: 11, offset: 0, a: 0x7e, b: 0 });
    assert_eq!(by(&old, b"\x6a\x7e", 2).0.answer, Answer::ACCEPTED);
}

/// Each way in which a map is bad, and its neighbours that are good; the limits; the map first.
#[test]
fn bad_maps_and_limits() {
    let number = |map: &[u8], limit| Rules::read(map, limit).err().unwrap_or(0);
    let own = built_in_map();
    for length in 0..260 {
        assert_eq!(number(&own[..length], 244), 28, "{length}");
    }
    let longer = [&own[..], &[0xff; 9]].concat();
    assert_eq!(number(&longer, 244), 0);
    for (place, byte) in [(0, 1), (0, 255), (1, 0), (1, 2), (2, 3), (2, 0), (3, 1), (2, 5)] {
        let mut bad = own.clone();
        bad[place] = byte;
        assert_eq!(number(&bad, 244), 28, "{place} {byte}");
    }
    // Rows further behind, bytes before them free; the last offset there is.
    for offset in [5, 6, 300, 65_535] {
        let mut moved = vec![0xff; offset + 256];
        moved[..4].copy_from_slice(&[0x00, 0x01, offset as u8, (offset >> 8) as u8]);
        moved[offset..].copy_from_slice(&own[4..]);
        assert_eq!(number(&moved, 244), 0, "{offset}");
        assert_eq!(number(&moved[..offset + 255], 244), 28, "{offset}");
    }
    for code in 0..=255u8 {
        for class in 0..=255u8 {
            let early = code <= 0x60 && class != own[4 + usize::from(code)];
            let bad = early || class > 31 || code > 0x60 && class == 1;
            assert_eq!(number(&map(&[(code, class)]), 1), if bad { 28 } else { 0 }, "{code:02x} {class}");
        }
    }
    for limit in [0, 245, 256, 500, 65_536 + 5, u32::MAX] {
        assert_eq!(number(&own, limit), 29, "{limit}");
        assert_eq!(number(&own[..259], limit), 28, "{limit}");
    }
    for limit in 1..=244 {
        assert_eq!(number(&own, limit), 0, "{limit}");
    }
}

#[test]
fn by_a_lent_map() {
    let by = |rows: &[(u8, u8)], bytes: &[u8], main| analysis_with(&map(rows), 244, false, bytes, main, 0, &mut [LENT; 30]);
    // Two IFs and no ELSE.
    let rows = [(0xff, 3), (0x67, 0)];
    let verdict = by(&rows, b"\x63\xff\x68\x51\x68", 2);
    assert_eq!((verdict.answer, verdict.peak, heights(&verdict.end)), (Answer::ACCEPTED, 2, Some((1, 0))));
    assert_eq!(by(&rows, b"\x63\x67\x68", 1).answer, Answer { number: 11, offset: 1, a: 0x67, b: 0 });
    // Without RETURN nothing is dead.
    let verdict = by(&[(0x6a, 0)], b"\x6a\xff", 0);
    assert_eq!((verdict.answer, verdict.rows), (Answer { number: 11, offset: 0, a: 106, b: 0 }, 1));
    // All later codes nothing: what remains are the pushes.
    let nothing: Vec<(u8, u8)> = (0x61..=0xff).map(|code| (code, 2)).collect();
    let verdict = by(&nothing, b"\x51\x63\x75\x6a\xff\x4f", 0);
    assert_eq!((verdict.answer, heights(&verdict.end)), (Answer::ACCEPTED, Some((2, 0))));
    // 28 and 29 before 1 and 21, with nothing written.
    let mut log = [LENT; 3];
    for (map, limit, number) in [(&map(&[])[..259], 0, 28), (&map(&[])[..], 0, 29), (&map(&[])[..], 245, 29)] {
        let verdict = analysis_with(map, limit, false, &[0x61; 10_001], 300, 0, &mut log);
        assert_eq!(verdict, Verdict { answer: Answer { number, offset: 0, a: 0, b: 0 }, rows: 0, peak: 0, end: None });
        let verdict = mark_with(map, limit, false, &[0; 8_001], &mut log);
        assert_eq!(verdict.answer, PaperAnswer { number, entry: 0, offset: 0, a: 0, b: 0 });
    }
    assert_eq!(log, [LENT; 3]);
}

#[test]
fn by_a_lent_limit() {
    let map = built_in_map();
    let by = |limit, bytes: &[u8], main| analysis_with(&map, limit, false, bytes, main, 0, &mut [LENT; 30]).answer;
    assert_eq!(by(1, b"\x51", 0), Answer::ACCEPTED);
    assert_eq!(by(1, b"\x51\x76", 0), Answer { number: 6, offset: 1, a: 2, b: 1 });
    assert_eq!(by(1, b"", 2), Answer { number: 2, offset: 0, a: 2, b: 1 });
    assert_eq!(by(5, b"\x6f", 3), Answer { number: 6, offset: 0, a: 6, b: 5 });
    assert_eq!(by(6, b"\x6f", 3), Answer::ACCEPTED);
    let sample = b"\x01\x00\x01\x00\x0e\x00\x00\x00\x01\x00\x0e\x00\x06\x00\x63\x51\x67\x52\x68\x75";
    for limit in 1..=4 {
        let answer = PaperAnswer { number: 20, entry: 0, offset: 0, a: 5, b: limit };
        assert_eq!(mark_with(&map, limit as u32, false, sample, &mut [LENT; 18]).answer, answer);
    }
    for limit in [5, 244] {
        let verdict = mark_with(&map, limit, false, sample, &mut [LENT; 18]);
        assert_eq!((verdict.answer, verdict.rows, verdict.peak), (PaperAnswer::ACCEPTED, 6, 2));
    }
}

/// A push of so many bytes.
fn pushed(size: u16) -> Vec<u8> {
    [&[0x4d][..], &size.to_le_bytes(), &vec![0xab; size.into()]].concat()
}

/// Request L7.
#[test]
fn in_examined_mode() {
    let map = built_in_map();
    let by = |examined, limit, bytes: &[u8], main| {
        let mut log = [LENT; 30];
        let verdict = analysis_with(&map, limit, examined, bytes, main, 0, &mut log);
        (verdict.answer, verdict.rows, heights(&verdict.end), log)
    };
    let long = Answer { number: 30, offset: 0, a: 521, b: 520 };
    assert_eq!(by(true, 1, &pushed(520), 0), by(false, 1, &pushed(520), 0));
    assert_eq!(by(false, 1, &pushed(521), 0).0, Answer::ACCEPTED);
    assert_eq!(by(true, 1, &pushed(521), 0).0, long);
    // Ahead of the test for room at that push, and of nothing before it.
    assert_eq!(by(false, 1, &pushed(521), 1).0, Answer { number: 6, offset: 0, a: 2, b: 1 });
    assert_eq!((by(true, 1, &pushed(521), 1).0, by(true, 1, &pushed(521), 1).1), (long, 1));
    assert_eq!(by(true, 1, &[&[0x51], &pushed(521)[..]].concat(), 1).0, Answer { number: 6, offset: 0, a: 2, b: 1 });
    assert_eq!(by(true, 1, &pushed(521), 2).0, Answer { number: 2, offset: 0, a: 2, b: 1 });
    // In live code alone.
    let dead = [&[0x6a], &pushed(521)[..]].concat();
    assert_eq!(by(true, 1, &dead, 0), by(false, 1, &dead, 0));
    // SIZE's result and what a result may be are not measured.
    assert_eq!(by(true, 5, b"\x82\x00\xd2", 2).0, Answer::ACCEPTED);
    // A paper: the second of two parts.
    let body = [&[0x75], &pushed(521)[..]].concat();
    let numbers: [u16; 10] = [2, 0, 20, 0, 0, 20, 0, 1, 20, body.len() as u16];
    let paper = [&numbers.map(u16::to_le_bytes).concat(), &body[..]].concat();
    let verdict = mark_with(&map, 4, true, &paper, &mut [LENT; 30]);
    assert_eq!((verdict.answer, verdict.rows), (PaperAnswer { number: 30, entry: 1, offset: 1, a: 521, b: 520 }, 2));
    assert_eq!(mark_with(&map, 4, false, &paper, &mut [LENT; 30]).answer, PaperAnswer::ACCEPTED);
    assert_eq!(fragments(&paper), [(&[][..], 0, 0), (&body, 1, 0)]);
    assert_eq!(fragments(b"\x01\x00\x02\x00\x0e\x00\x01\x00\x03\x00\x0f\x00\x00\x00\x61"), [(&[][..], 5, 0), (b"\x61", 3, 1)]);
}

/// Request L7: the replay faults on pushing such a literal, and on nothing else that is long.
#[test]
fn replays_in_examined_mode() {
    let by = |examined, bytes: &[u8], choice| {
        let rules = BUILT_IN.clone().in_mode(examined);
        let main = vec![vec![1; 600], vec![2; 600]];
        replay(&rules, &decode(bytes).unwrap_or_default(), main, Vec::new(), &mut || choice, &mut || vec![0xaa; 600]).ending
    };
    let ran = |ending: Ending| matches!(ending, Ending::RanOff { .. });
    assert!(ran(by(true, &pushed(520), true)) && ran(by(false, &pushed(521), true)));
    assert_eq!(by(true, &pushed(521), true), Ending::Fault { place: 0, why: "a long element" });
    let armed = [&[0x63], &pushed(521)[..], &[0x68]].concat();
    assert_eq!(by(true, &armed, true), Ending::Fault { place: 1, why: "a long element" });
    assert!(ran(by(true, &armed, false)));
    assert!(ran(by(true, b"\x76\x93\x93\x82", true)));
    assert_eq!(by(true, &[&[0x6a], &pushed(521)[..]].concat(), true), Ending::Returned);
}

#[test]
fn parts_displayed() {
    let (body, initialiser) = (b"\x51\x02\x4c\x07\x75", b"\x4c\x05\x01");
    assert_eq!(display(body, initialiser, 0, 0), [0x51]);
    assert_eq!(display(body, initialiser, 1, 0), [0x02, 0x4c, 0x07]);
    // Inside a push, where the rest is malformed.
    assert_eq!(display(body, initialiser, 2, 0), [0x4c, 0x07, 0x75]);
    assert_eq!(display(body, initialiser, 0, 1), initialiser);
    assert_eq!(display(body, initialiser, 1, 1), [0x05, 0x01]);
    for (offset, mark) in [(5, 0), (6, 0), (usize::MAX, 0), (3, 1), (0, 2), (0, u32::MAX)] {
        assert_eq!(display(body, initialiser, offset, mark), []);
    }
}

/// A replay with these choices; each unknown result is AA.
fn trace(bytes: &[u8], main: &[&[u8]], choices: &[bool]) -> Trace {
    let mut choices = choices.iter();
    let main = main.iter().map(|item| item.to_vec()).collect();
    let mut choose = || *choices.next().expect("a choice");
    replay(&BUILT_IN, &decode(bytes).unwrap_or_default(), main, vec![vec![9; 300]], &mut choose, &mut || vec![0xaa])
}

fn ran_off(main: &[&[u8]], alt: &[&[u8]]) -> Ending {
    let items = |items: &[&[u8]]| items.iter().map(|item| item.to_vec()).collect();
    Ending::RanOff { main: items(main), alt: items(alt) }
}

#[test]
fn replays_with_real_bytes() {
    let long: &[u8] = &[9; 300];
    assert_eq!(trace(b"", &[], &[]).ending, ran_off(&[], &[long]));
    // SIZE pushes the real length, a literal is pushed whole, a result is the next byte string.
    assert_eq!(trace(b"\x6c\x82", &[], &[]).ending, ran_off(&[long, &[0x2c, 0x01]], &[]));
    assert_eq!(trace(b"\x09123456789\x93", &[b"x", b"y"], &[]).ending, ran_off(&[b"x", &[0xaa]], &[long]));
    // 7d puts a copy of the top under the top two; 7b, 79, 7a, 74, a6.
    assert_eq!(trace(b"\x7d", &[b"a", b"b", b"c"], &[]).ending, ran_off(&[b"a", b"c", b"b", b"c"], &[long]));
    assert_eq!(trace(b"\x7b", &[b"a", b"b", b"c"], &[]).ending, ran_off(&[b"b", b"c", b"a"], &[long]));
    assert_eq!(trace(b"\x79", &[b"a", b"b", b"\x01"], &[]).ending, ran_off(&[b"a", b"b", b"a"], &[long]));
    assert_eq!(trace(b"\x7a", &[b"a", b"b", b"\x01"], &[]).ending, ran_off(&[b"b", b"a"], &[long]));
    assert_eq!(trace(b"\x70\x74", &[b"a", b"b", b"c", b"d"], &[]).ending, {
        ran_off(&[b"a", b"b", b"c", b"d", b"a", b"b", &[6]], &[long])
    });
    assert_eq!(trace(b"\xa6", &[b"z", b"a", b"b", b"\x02", b"k", b"p", b"\x20"], &[]).ending, ran_off(&[b"z", &[1]], &[long]));
    let trace_one = trace(b"\x51\x75\x6a\xff", &[], &[]);
    assert_eq!(
        trace_one,
        Trace { reached: vec![(0, 0, 1), (1, 1, 1), (2, 0, 1)], peak: 2, choices: 0, ending: Ending::Returned }
    );
}

#[test]
fn replays_by_choices() {
    let bytes = b"\x51\x63\x63\x51\x67\x52\x68\x67\x53\x68";
    let start: &[&[u8]] = &[b"c"];
    let places = |choices: &[bool]| trace(bytes, start, choices).reached.iter().map(|row| row.0).collect::<Vec<_>>();
    assert_eq!(places(&[true, true]), [0, 1, 2, 3, 4, 7]);
    assert_eq!(places(&[true, false]), [0, 1, 2, 5, 6, 7]);
    assert_eq!(places(&[false]), [0, 1, 8, 9]);
    // Without an ELSE: past ENDIF.
    let places = |choice| trace(b"\x63\x61\x68\x61", start, &[choice]).reached.iter().map(|row| row.0).collect::<Vec<_>>();
    assert_eq!((places(true), places(false)), (vec![0, 1, 2, 3], vec![0, 3]));
}

/// Request L6: a replay goes by the classes and the limit.
#[test]
fn replays_by_a_lent_map() {
    let by = |rows: &[(u8, u8)], limit, bytes: &[u8], choice| {
        let rules = Rules::read(&map(rows), limit).unwrap();
        let main = vec![b"a".to_vec(), b"b".to_vec()];
        replay(&rules, &decode(bytes).unwrap_or_default(), main, Vec::new(), &mut || choice, &mut || vec![0xaa])
    };
    let places = |trace: &Trace| trace.reached.iter().map(|row| row.0).collect::<Vec<_>>();
    // ff is IF, 67 nothing, fe ENDIF besides 68, 62 RETURN.
    let rows = [(0xff, 3), (0x67, 2), (0xfe, 6), (0x62, 7)];
    assert_eq!(places(&by(&rows, 244, b"\xff\x67\x62\xfe\x61", true)), [0, 1, 2]);
    let trace = by(&rows, 244, b"\xff\x67\x62\xfe\x61", false);
    assert_eq!((places(&trace), trace.ending), (vec![0, 4], ran_off(&[b"a"], &[])));
    // At the limit there is no room.
    assert_eq!(by(&[], 3, b"\x51", true).ending, ran_off(&[b"a", b"b", &[1]], &[]));
    assert!(matches!(by(&[], 3, b"\x51\x51", true).ending, Ending::Fault { place: 1, why: "no room" }));
}

#[test]
fn replays_that_fault() {
    let faults = |bytes: &[u8], main: &[&[u8]]| matches!(trace(bytes, main, &[]).ending, Ending::Fault { place: 0, .. });
    let full = vec![b"i".as_slice(); 243];
    let missing: [&[u8]; 6] = [b"\x75", b"\x63", b"\x79", b"\x82", b"\x7d", b"\xa6"];
    assert!(missing.iter().all(|bytes| faults(bytes, &[])));
    assert!(faults(b"\x7d", &[b"a"]) && faults(b"\x6f", &[b"a", b"b"]) && faults(b"\x7f", &[b"a", b"b"]));
    assert!([b"\x51", b"\x76", b"\x7d", b"\x74", b"\x82", b"\xb2"].iter().all(|bytes| faults(*bytes, &full)));
    assert!(!faults(b"\x6b", &full) && !faults(b"\x93", &full));
    let bad: [&[u8]; 6] = [&[0x81], &[0x00], &[0x80], &[1, 0], &[0; 9], &[2]];
    assert!(bad.iter().all(|index| faults(b"\x79", &[b"a", b"b", index])));
    assert!([b"".as_slice(), b"\x22", b"\x20\x00", b"\x21"].iter().all(|tag| faults(b"\xa6", &[b"a", tag])));
    assert!(faults(b"\xff", &[]) && faults(b"\x50", &[]));
}
