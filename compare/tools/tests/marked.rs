//! The examples of document 01 and of the design notes, asked of the Rust.

use reference::{Answer, PaperAnswer, fragment, fragment_outside, limits, paper, paper_outside};

const fn verdict(number: u32, offset: u64, a: u64, b: u64) -> Answer {
    Answer { number, offset, a, b }
}

#[test]
fn section_8() {
    let cases: [(&[u8], u32, u32, Answer); 14] = [
        (b"", 0, 0, Answer::ACCEPTED),
        (b"\x75", 0, 0, verdict(7, 0, 1, 0)),
        (b"\x00\x79", 1, 0, Answer::ACCEPTED),
        (b"\x51\x79", 1, 0, verdict(7, 1, 2, 1)),
        (b"\x02\x00\x01\x79", 1, 0, verdict(7, 3, 257, 1)),
        (b"\x76", 244, 0, verdict(6, 0, 245, 244)),
        (b"\x6b", 244, 0, Answer::ACCEPTED),
        (b"\x7d", 1, 243, verdict(7, 0, 2, 1)),
        (b"\x63\x51\x68", 1, 0, verdict(12, 2, 0, 0)),
        (b"\x63\x6a\x68\x75", 2, 0, Answer::ACCEPTED),
        (b"\x6a\xff", 0, 0, Answer::ACCEPTED),
        (b"\x51\x63", 0, 0, verdict(16, 1, 0, 0)),
        (b"\x51\x63\x51\x67\x52\x68\x79", 2, 0, verdict(9, 6, 0, 0)),
        (b"\x51\x63\x51\x67\x51\x68\x79", 2, 0, Answer::ACCEPTED),
    ];
    for (bytes, main, alt, wanted) in cases {
        assert_eq!(fragment(bytes, main, alt), wanted, "{bytes:02x?} ({main}, {alt})");
        assert!(!fragment_outside(bytes, main, alt));
    }
    let open = |times: usize| [vec![0x6a], vec![0x63; times]].concat();
    assert_eq!(fragment(&open(24), 0, 0), verdict(16, 24, 0, 0));
    assert!(!fragment_outside(&open(24), 0, 0));
    // Document 01 says 5 at 25; the Rust has no such limit.
    assert!(fragment_outside(&open(25), 0, 0));
}

/// The end heights of section 8 and of the notes, which the Rust does not say: one
/// drop more than there are items runs dry, one item more from alt too.
#[test]
fn end_heights() {
    let cases: [(&[u8], u32, u32, usize, usize); 6] = [
        (b"\x6b", 244, 0, 243, 1),
        (b"\x63\x6a\x68\x75", 2, 0, 0, 0),
        (b"\x51\x63\x51\x67\x51\x68\x79", 2, 0, 3, 0),
        (b"\x63\x51\x67\x52\x68\x75", 2, 0, 1, 0),
        (b"\x63\x6a\x68", 1, 0, 0, 0),
        (b"\x74\xa6", 33, 0, 26, 0),
    ];
    for (bytes, main, alt, end_main, end_alt) in cases {
        let after = |code: u8, times: usize| fragment(&[bytes, &vec![code; times]].concat(), main, alt).number;
        assert_eq!((after(0x75, end_main), after(0x75, end_main + 1)), (0, 7), "{bytes:02x?}");
        assert_eq!((after(0x6c, end_alt), after(0x6c, end_alt + 1)), (0, 8), "{bytes:02x?}");
    }
}

#[test]
fn design_notes() {
    assert_eq!(fragment(b"\x63\x6a\x67\x68", 1, 0), Answer::ACCEPTED);
    assert_eq!(fragment(b"\x6a", 1, 0), Answer::ACCEPTED);
    assert_eq!(fragment(b"\x08\xff\xff\xff\xff\xff\xff\xff\x7f\x79", 1, 0), verdict(7, 9, 1 << 63, 1));
    assert_eq!(fragment(b"\x51\x63\x51\x67\x52\x68\x79", 3, 0), verdict(9, 6, 0, 0));
}

#[test]
fn order_of_analysis() {
    // Start, then malformed, then the walk.
    assert_eq!(fragment(b"\xff\x4c", 245, 0), verdict(2, 0, 245, 244));
    assert_eq!(fragment(b"\xff\x4c", u32::MAX, u32::MAX), verdict(2, 0, 2 * u64::from(u32::MAX), 244));
    assert_eq!(fragment(b"\xff\x4c", 244, 0), verdict(3, 1, 0, 0));
    assert_eq!(fragment(b"\x61\xff", 244, 0), verdict(11, 1, 255, 0));
}

#[test]
fn outside() {
    assert!(!fragment_outside(&[0x61; 10_000], 0, 0));
    assert!(fragment_outside(&[0x61; 10_001], 0, 0));
    // 25 open, but refused before that.
    let deep = |before: &[u8]| [before, &[0x63; 25]].concat();
    assert!(fragment_outside(&deep(b""), 25, 0));
    // At the 25th itself 5 comes before 7.
    assert!(fragment_outside(&deep(b""), 24, 0));
    assert!(!fragment_outside(&deep(b""), 23, 0));
    assert!(!fragment_outside(&deep(b"\xff"), 25, 0));
    assert!(!fragment_outside(&deep(b""), 245, 0));
    assert!(!fragment_outside(&[deep(b""), vec![0x4c]].concat(), 25, 0));
    // 24 open, closed, opened again.
    let again = [vec![0x63; 24], vec![0x68], vec![0x63], vec![0x68; 24]].concat();
    assert!(!fragment_outside(&again, 25, 0));
}

#[test]
fn limit_check() {
    assert_eq!(limits(&[0x61; 201]), Answer::ACCEPTED);
    assert_eq!(limits(&[0x61; 202]), verdict(17, 0, 202, 201));
    assert_eq!(limits(&[0x60; 10_000]), Answer::ACCEPTED);
    assert_eq!(limits(&[0x60; 10_001]), verdict(18, 0, 10_001, 10_000));
    assert_eq!(limits(&[vec![0x61; 202], vec![0x60; 10_000]].concat()), verdict(17, 0, 202, 201));
    assert_eq!(limits(&[vec![0x61; 202], vec![0x4d, 0x01]].concat()), verdict(3, 202, 0, 0));
    assert_eq!(limits(b"\x4c\x02\x00\x00\x02\x00"), verdict(3, 4, 0, 0));
}

const EXAMPLE: &[u8] = b"\x01\x00\x01\x00\x0e\x00\x00\x00\x01\x00\x0e\x00\x06\x00\x63\x51\x67\x52\x68\x75";

#[test]
fn papers() {
    let refused = |number, entry, offset, a, b| PaperAnswer { number, entry, offset, a, b };
    assert_eq!(paper(EXAMPLE), PaperAnswer::ACCEPTED);
    let changed = |changes: &[(usize, u8)]| {
        let mut bytes = EXAMPLE.to_vec();
        for (at, byte) in changes {
            bytes[*at] = *byte;
        }
        paper(&bytes)
    };
    // The initialiser: empty at the paper's end, in the header, past the end.
    assert_eq!(changed(&[(4, 20)]), PaperAnswer::ACCEPTED);
    assert_eq!(changed(&[(4, 13)]), refused(19, 0, 0, 0, 0));
    assert_eq!(changed(&[(4, 21)]), refused(19, 0, 0, 0, 0));
    // Not empty, it shares a byte with the body.
    assert_eq!(changed(&[(4, 19), (6, 1)]), refused(19, 0, 0, 0, 0));
    // The last byte its own: it starts from one parameter, and one on alt.
    assert_eq!(changed(&[(4, 19), (6, 1), (12, 5)]), PaperAnswer::ACCEPTED);
    assert_eq!(changed(&[(4, 19), (6, 1), (12, 5), (19, 0x6d)]), refused(7, 1, 0, 2, 1));
    assert_eq!(changed(&[(4, 19), (6, 1), (12, 5), (19, 0x6c)]), PaperAnswer::ACCEPTED);
    // Entries, dispatch, body.
    assert_eq!(changed(&[(0, 0)]), refused(19, 0, 0, 0, 0));
    assert_eq!(changed(&[(0, 33)]), refused(19, 0, 0, 0, 0));
    assert_eq!(changed(&[(2, 240)]), PaperAnswer::ACCEPTED);
    assert_eq!(changed(&[(2, 241)]), refused(20, 0, 0, 245, 244));
    assert_eq!(changed(&[(19, 0x6f)]), refused(7, 0, 5, 3, 2));
    // Size.
    let mut long = EXAMPLE.to_vec();
    long.resize(8_000, 0xff);
    assert_eq!(paper(&long), PaperAnswer::ACCEPTED);
    long.push(0);
    assert_eq!(paper(&long), refused(21, 0, 0, 8_001, 8_000));
    assert_eq!(paper(&EXAMPLE[..19]), refused(19, 0, 0, 0, 0));
    assert_eq!(paper(b""), refused(19, 0, 0, 0, 0));
}

#[test]
fn papers_of_two_entries() {
    let two = |first: (u8, &[u8]), second: (u8, &[u8]), initialiser: &[u8]| {
        let (a, b, c) = (20, 20 + first.1.len() as u8, 20 + (first.1.len() + second.1.len()) as u8);
        let header = [2, 0, 1, 0, c, 0, initialiser.len() as u8, 0];
        let rows = [first.0, 0, a, 0, first.1.len() as u8, 0, second.0, 0, b, 0, second.1.len() as u8, 0];
        [&header, &rows[..], first.1, second.1, initialiser].concat()
    };
    let at = |bytes: Vec<u8>| (paper(&bytes).number, paper(&bytes).entry);
    // From the most parameters, whichever entry has them.
    assert_eq!(at(two((1, b""), (3, b""), b"\x75\x75\x75")), (0, 0));
    assert_eq!(at(two((3, b""), (1, b""), b"\x75\x75\x75")), (0, 0));
    assert_eq!(at(two((2, b""), (1, b""), b"\x75\x75\x75")), (7, 2));
    // The dispatch check of all comes first, then the bodies in order.
    assert_eq!(at(two((1, b"\xff"), (241, b"\x68"), b"\x67")), (20, 1));
    assert_eq!(at(two((1, b"\xff"), (240, b"\x68"), b"\x67")), (11, 0));
    assert_eq!(at(two((1, b""), (240, b"\x68"), b"\x67")), (15, 1));
    assert_eq!(at(two((1, b""), (240, b""), b"\x67")), (13, 2));
    // Outside only if nothing is refused before.
    let deep = [0x63; 25];
    assert!(paper_outside(&two((1, b""), (30, &deep), b"")));
    assert!(!paper_outside(&two((1, b"\xff"), (30, &deep), b"")));
    assert!(!paper_outside(&two((1, b""), (241, &deep), b"")));
    assert!(paper_outside(&two((30, b""), (1, b""), &deep)));
}
