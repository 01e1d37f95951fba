//! The generator of maps: good ones are good and of every kind, damaged ones are both; rewritten bytes have the classes of before.

use tools::definition::{BUILT_IN, CLASSES, Rules, analysis, analysis_by, built_in_map, class_of, decode};
use tools::generate::planned;
use tools::maps::{Codes, damaged_map, good_map, limit};
use tools::rng::Rng;

#[test]
fn good_maps_are_good() {
    let mut rng = Rng::new(6);
    let (mut own, mut moved, mut without) = (0, 0, [0; 32]);
    for _ in 0..5_000 {
        let map = good_map(&mut rng);
        let rules = Rules::read(&map, 244).unwrap_or_else(|number| panic!("{number}: {map:02x?}"));
        own += usize::from(rules == BUILT_IN);
        moved += usize::from(map[2] != 4);
        for (number, class) in CLASSES.into_iter().enumerate() {
            without[number] += usize::from((0x61..=0xff).all(|code| rules.class(code) != class));
        }
    }
    assert!(own > 200 && moved > 500, "{own} {moved}");
    // No later code is push; every other class is missing in some maps and there in most.
    assert_eq!(without[1], 5_000);
    assert!((0..32).filter(|number| *number != 1).all(|number| (20..3_000).contains(&without[number])), "{without:?}");
}

#[test]
fn damaged_maps_are_good_and_bad() {
    let mut rng = Rng::new(28);
    let bad = (0..5_000).filter(|_| Rules::read(&damaged_map(&mut rng), 244).is_err()).count();
    assert!((3_000..4_900).contains(&bad), "{bad}");
}

#[test]
fn limits_are_good() {
    let mut rng = Rng::new(29);
    let limits: Vec<u32> = (0..5_000).map(|_| limit(&mut rng, 30)).collect();
    assert!(limits.iter().all(|limit| (1..=244).contains(limit)));
    assert!((1..=244).filter(|limit| limits.contains(limit)).count() > 200);
    assert!(limits.iter().filter(|limit| (28..=32).contains(*limit)).count() > 2_000);
}

/// By the map the rewritten bytes are what the bytes were, where it has every class that they need.
#[test]
fn rewritten_bytes_have_their_classes() {
    let mut rng = Rng::new(7);
    let (mut whole, mut accepted) = (0, 0);
    for _ in 0..3_000 {
        let rules = Rules::read(&good_map(&mut rng), 244).unwrap();
        let bytes = planned(&mut rng, 3, 1, 20, None);
        let mut other = bytes.clone();
        Codes::of(&rules).rewrite(&mut rng, &mut other);
        let same = |bytes: &[u8], rules: &Rules| -> Vec<_> {
            decode(bytes).unwrap().iter().map(|i| (i.offset, rules.class(i.opcode), i.data.to_vec())).collect()
        };
        if same(&bytes, &BUILT_IN) != same(&other, &rules) {
            let missing = |opcode| (0x61..=0xff).all(|code| rules.class(code) != class_of(opcode));
            assert!(decode(&bytes).unwrap().iter().any(|i| i.opcode > 0x60 && missing(i.opcode)), "{bytes:02x?}");
            continue;
        }
        whole += 1;
        let (mut one, mut two) = (vec![0; 3 * bytes.len()], vec![0; 3 * bytes.len()]);
        let wanted = analysis(&bytes, 3, 1, &mut one);
        let verdict = analysis_by(&rules, &other, 3, 1, &mut two);
        if wanted.answer.number != 11 {
            assert_eq!((verdict, two), (wanted.clone(), one), "{bytes:02x?} {other:02x?}");
        }
        accepted += usize::from(wanted.answer.number == 0);
    }
    assert!(whole > 1_500 && accepted > 1_500, "{whole} {accepted}");
}

/// A paper keeps its header, and each part is rewritten.
#[test]
fn rewritten_papers() {
    let mut rng = Rng::new(8);
    let mut map = built_in_map();
    // 75 and 76 exchanged, and no other DUP.
    map.swap(4 + 0x75, 4 + 0x76);
    let rules = Rules::read(&map, 244).unwrap();
    let header = b"\x02\x00\x00\x00\x14\x00\x02\x00\x01\x00\x16\x00\x01\x00\x01\x00\x17\x00\x03\x00";
    let mut paper = [&header[..], b"\x76\x4c\x76\x01\x76\x76\x76"].concat();
    Codes::of(&rules).rewrite_paper(&mut rng, &mut paper);
    assert_eq!(paper[..20], header[..]);
    // What is malformed stays, and so does data; a byte in no part too.
    assert_eq!(paper[20..], *b"\x75\x4c\x75\x01\x76\x75\x76");
}
