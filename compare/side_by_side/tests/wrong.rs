//! A marker that is wrong in one thing is reported, and with the smallest case.

use side_by_side::check::Case;
use side_by_side::marker::{Lent, Marker, PLAIN, Proved};
use side_by_side::parts::{Sizes, parts};
use side_by_side::replays::{demand_3, reaches_long};
use side_by_side::run::{Outcome, run};
use tools::definition::{self, BUILT_IN, Item, Rules, Stacks, built_in_map, decode};

const SMALL: Sizes = Sizes {
    three_bytes: Some(2_000),
    five_instructions: Some(1_000),
    fragments: 10_000,
    papers: 3_000,
    blanked: 3_000,
    limits: 2_000,
    long: 10,
    nested: 500,
    displays: 3_000,
    mapped: 20_000,
    mapped_papers: 3_000,
    bad_maps: 2_000,
    examined: 3_000,
    examined_papers: 1_000,
};

type OnFragment = fn(&[u8], u32, u32, &mut [u16], [u64; 9]) -> [u64; 9];
type OnItems = fn(&mut [u64]);
type OnLimits = fn([u64; 4]) -> [u64; 4];
type OnPaper = fn(&mut [u16], [u64; 7]) -> [u64; 7];
type OnDisplay = fn([u64; 2]) -> [u64; 2];
type By = fn(&Lent, &[u8], u32, u32, &mut [u16], &mut [u64]) -> [u64; 9];
type PaperBy = fn(&Lent, &[u8], &mut [u16]) -> [u64; 7];

/// The proved marker with one thing changed.
#[derive(Clone, Copy)]
struct Changed {
    fragment: OnFragment,
    items: OnItems,
    limits: OnLimits,
    paper: OnPaper,
    display: OnDisplay,
    by: By,
    paper_by: PaperBy,
}

const UNCHANGED: Changed = Changed {
    fragment: |_, _, _, _, out| out,
    items: |_| {},
    limits: |out| out,
    paper: |_, out| out,
    display: |out| out,
    by: proved,
    paper_by: |by, paper, log| Proved.mark_paper_with(by, paper, log),
};

fn proved(by: &Lent, bytes: &[u8], main: u32, alt: u32, log: &mut [u16], items: &mut [u64]) -> [u64; 9] {
    Proved.analyze_with(by, bytes, main, alt, log, items)
}

impl Marker for Changed {
    fn analyze(&self, fragment: &[u8], main: u32, alt: u32, log: &mut [u16]) -> [u64; 9] {
        let out = Proved.analyze(fragment, main, alt, log);
        (self.fragment)(fragment, main, alt, log, out)
    }

    fn analyze_items(&self, fragment: &[u8], main: u32, alt: u32, log: &mut [u16], items: &mut [u64]) -> [u64; 9] {
        let out = Proved.analyze_items(fragment, main, alt, log, items);
        (self.items)(items);
        (self.fragment)(fragment, main, alt, log, out)
    }

    fn check_limits(&self, bytecode: &[u8]) -> [u64; 4] {
        (self.limits)(Proved.check_limits(bytecode))
    }

    fn mark_paper(&self, paper: &[u8], log: &mut [u16]) -> [u64; 7] {
        let out = Proved.mark_paper(paper, log);
        (self.paper)(log, out)
    }

    fn display(&self, body: &[u8], initialiser: &[u8], offset: usize, mark: u32) -> [u64; 2] {
        (self.display)(Proved.display(body, initialiser, offset, mark))
    }

    fn analyze_with(&self, by: &Lent, fragment: &[u8], main: u32, alt: u32, log: &mut [u16], items: &mut [u64]) -> [u64; 9] {
        (self.by)(by, fragment, main, alt, log, items)
    }

    fn mark_paper_with(&self, by: &Lent, paper: &[u8], log: &mut [u16]) -> [u64; 7] {
        (self.paper_by)(by, paper, log)
    }
}

/// Runs the parts of these names.
fn compare(marker: Changed, names: &[&str], threads: usize, seed: u64) -> Outcome {
    let mut parts = parts(&SMALL);
    parts.retain(|part| names.contains(&part.name));
    assert_eq!(parts.len(), names.len());
    run(&marker, &parts, seed, threads, &|_| {})
}

/// The case reported and what it was held against.
fn reported(marker: Changed, name: &str) -> (Case, String) {
    let found = compare(marker, &[name], 1, 5).found.expect("a difference");
    (found.0, found.1.against.to_string())
}

/// Parts that take little time.
const SHORT: [&str; 12] = [
    "bytes, 3, a sample",
    "fragments",
    "nesting",
    "limit checks",
    "papers",
    "long data",
    "display",
    "maps",
    "papers by maps",
    "bad maps",
    "examined",
    "papers, examined",
];

fn fragment(main: u32, alt: u32, bytes: &[u8], lent: usize) -> Case {
    Case::Fragment { main, alt, bytes: bytes.to_vec(), lent }
}

#[test]
fn nothing_is_reported_of_the_proved_marker() {
    assert!(compare(UNCHANGED, &SHORT, 1, 5).found.is_none());
}

#[test]
fn peak_off_by_one() {
    let (case, against) = reported(
        Changed {
            fragment: |_, _, _, _, mut out| {
                out[5] += u64::from(out[5] > 3);
                out
            },
            ..UNCHANGED
        },
        "fragments",
    );
    let Case::Fragment { main, alt, bytes, .. } = &case else { panic!("{case}") };
    assert!(*main as usize + *alt as usize + bytes.len() <= 4, "{case}");
    assert!(against.starts_with("document 01"), "{against}");
}

/// Long data that begins with 00 is told from other long data.
#[test]
fn long_data_told() {
    let (case, against) = reported(
        Changed {
            fragment: |bytes, _, _, _, mut out| {
                out[5] += u64::from(bytes.len() > 9 && bytes[0] == 9 && bytes[1] == 0);
                out
            },
            ..UNCHANGED
        },
        "long data",
    );
    let Case::Fragments { bytes, other, .. } = &case else { panic!("{case}") };
    assert_eq!((bytes.len(), other.len(), bytes[0], other[0]), (10, 10, 9, 9), "{case}");
    assert!(against.starts_with("ours"), "{against}");
}

/// The same in examined mode alone, and of papers: 7 or more in the second byte of the data, or in the last of the paper.
#[test]
fn long_data_told_in_examined_mode() {
    let by: By = |by, bytes, main, alt, log, items| {
        let mut out = proved(by, bytes, main, alt, log, items);
        out[5] += u64::from(by.examined() && bytes.len() > 9 && bytes[0] == 9 && bytes[2] >= 7);
        out
    };
    let (case, against) = reported(Changed { by, ..UNCHANGED }, "long data");
    let Case::Fragments { bytes, other, .. } = &case else { panic!("{case}") };
    assert_eq!((bytes.len(), other.len(), bytes[0], other[0]), (10, 10, 9, 9), "{case}");
    assert_eq!(against, "ours in examined mode with other long data");
    let paper_by: PaperBy = |by, paper, log| {
        let mut out = Proved.mark_paper_with(by, paper, log);
        out[5] += u64::from(by.examined() && paper.last().is_some_and(|last| *last >= 7));
        out
    };
    let (case, against) = reported(Changed { paper_by, ..UNCHANGED }, "long data");
    assert!(matches!(case, Case::Papers { .. }), "{case}");
    assert_eq!(against, "ours in examined mode with other long data");
}

/// The bytes of an exact item, where there are two or more of them.
#[test]
fn an_items_bytes_lost() {
    let (case, against) = reported(
        Changed {
            items: |items| {
                for item in items.chunks_exact_mut(3) {
                    if (2..=8).contains(&item[0]) {
                        item[1] &= 0xff;
                    }
                }
            },
            ..UNCHANGED
        },
        "fragments",
    );
    let Case::Fragment { main: 0, alt: 0, bytes, .. } = &case else { panic!("{case}") };
    assert!(bytes.len() <= 9, "{case}");
    assert!(against.ends_with("the items of the end"), "{against}");
}

/// A place behind the last item.
#[test]
fn a_place_too_many() {
    let (_, against) = reported(
        Changed {
            items: |items| {
                if let Some(last) = items.iter().rposition(|n| *n == 255) {
                    items[last + 3] = 0;
                }
            },
            ..UNCHANGED
        },
        "fragments",
    );
    assert!(against.ends_with("the items of the end"), "{against}");
}

#[test]
fn figures_exchanged() {
    let (case, against) = reported(
        Changed {
            fragment: |_, _, _, _, mut out| {
                out.swap(2, 3);
                out
            },
            ..UNCHANGED
        },
        "fragments",
    );
    let Case::Fragment { main: 0, alt: 0, bytes, .. } = &case else { panic!("{case}") };
    assert_eq!(bytes.len(), 1, "{case}");
    assert!(against.starts_with("the Rust"), "{against}");
}

/// Wrong only where TUCK finds two items: the smallest case is that and no more.
#[test]
fn the_smallest_case_is_printed() {
    let (case, _) = reported(
        Changed {
            fragment: |bytes, main, _, _, mut out| {
                out[1] += u64::from(main >= 2 && bytes.contains(&0x7d));
                out
            },
            ..UNCHANGED
        },
        "fragments",
    );
    assert_eq!(case, fragment(2, 0, &[0x7d], 3));
    assert_eq!(case.to_string(), "fragment 2 0 7d   (a log of 3)");
}

#[test]
fn everything_accepted() {
    let (_, against) =
        reported(Changed { fragment: |_, _, _, _, out| if out[0] == 0 { out } else { [0; 9] }, ..UNCHANGED }, "fragments");
    assert!(against.starts_with("the Rust"), "{against}");
}

/// 9, 24 and 25 are one message of the Rust: the plain reading tells them apart.
#[test]
fn crooked_and_negative_exchanged() {
    let (_, against) = reported(
        Changed {
            fragment: |_, _, _, _, mut out| {
                out[0] = match out[0] {
                    24 => 25,
                    25 => 24,
                    number => number,
                };
                out
            },
            ..UNCHANGED
        },
        "fragments",
    );
    assert!(against.starts_with("document 01"), "{against}");
}

/// Nothing else is that message.
#[test]
fn a_tag_told_as_a_crooked_number() {
    let (_, against) = reported(
        Changed {
            fragment: |_, _, _, _, mut out| {
                out[0] = if out[0] == 10 { 24 } else { out[0] };
                out
            },
            ..UNCHANGED
        },
        "fragments",
    );
    assert!(against.starts_with("the Rust"), "{against}");
}

#[test]
fn a_row_is_missing() {
    let (case, against) = reported(
        Changed {
            fragment: |_, _, _, log, out| {
                if out[4] >= 2 {
                    log[3 * (out[4] as usize - 1) + 2] = 0xfefe;
                }
                out
            },
            ..UNCHANGED
        },
        "fragments",
    );
    let Case::Fragment { bytes, .. } = &case else { panic!("{case}") };
    assert_eq!(bytes.len(), 2, "{case}");
    assert_eq!(against, "document 01: the log");
}

#[test]
fn the_rest_of_the_log_is_written() {
    let (_, against) = reported(
        Changed {
            fragment: |_, _, _, log, out| {
                if let Some(last) = log.last_mut().filter(|_| out[0] == 0) {
                    *last = 0;
                }
                out
            },
            ..UNCHANGED
        },
        "fragments",
    );
    assert_eq!(against, "document 01: the log");
}

#[test]
fn a_wrong_end() {
    let (case, against) = reported(
        Changed {
            fragment: |bytes, _, _, _, mut out| {
                // As if 6b left its item on main.
                if out[6] == 1 && bytes.contains(&0x6b) {
                    (out[7], out[8]) = (out[7] + 1, out[8] - 1);
                }
                out
            },
            ..UNCHANGED
        },
        "fragments",
    );
    let Case::Fragment { bytes, .. } = &case else { panic!("{case}") };
    assert!(bytes.len() <= 2, "{case}");
    assert!(against.starts_with("document 01"), "{against}");
}

/// Where document 01 says 1, 4 or 5, ours is held to it.
#[test]
fn the_additions() {
    for (number, part) in [(1, "long fragments"), (4, "short logs"), (5, "nesting")] {
        let marker = Changed {
            fragment: match number {
                1 => |_, _, _, _, mut out| {
                    out[3] += u64::from(out[0] == 1);
                    out
                },
                4 => |_, _, _, _, mut out| {
                    out[2] += u64::from(out[0] == 4);
                    out
                },
                _ => |bytes, main, alt, _, mut out| {
                    if out[0] == 5 {
                        let rust = reference::fragment(bytes, main, alt);
                        out[..4].copy_from_slice(&[u64::from(rust.number), rust.offset, rust.a, rust.b]);
                    }
                    out
                },
            },
            ..UNCHANGED
        };
        let (case, against) = reported(marker, part);
        assert!(against.starts_with("document 01"), "{number}: {case} {against}");
    }
}

#[test]
fn limits() {
    let (case, _) = reported(
        Changed {
            limits: |mut out| {
                // 202 allowed.
                if out[0] == 17 && out[2] == 202 {
                    out = [0; 4];
                }
                out
            },
            ..UNCHANGED
        },
        "limit checks",
    );
    let Case::Limits { bytes } = &case else { panic!("{case}") };
    assert_eq!(bytes.len(), 202, "{case}");
    let (case, _) = reported(
        Changed {
            limits: |mut out| {
                out[1] = 0;
                out
            },
            ..UNCHANGED
        },
        "limit checks",
    );
    let Case::Limits { bytes } = &case else { panic!("{case}") };
    assert_eq!(bytes.len(), 2, "{case}");
}

#[test]
fn papers() {
    let wrong: [OnPaper; 5] = [
        // The entry, the offset in the paper instead of the fragment, the peak, the rows, a row.
        |_, mut out| {
            out[1] += u64::from(out[0] == 12);
            out
        },
        |_, mut out| {
            out[2] += u64::from(out[0] == 7 && out[2] > 0);
            out
        },
        |_, mut out| {
            out[6] += u64::from(out[0] == 0 && out[6] > 9);
            out
        },
        |_, mut out| {
            out[5] -= u64::from(out[5] > 3);
            out
        },
        |log, out| {
            if out[5] > 1 {
                log[4] ^= 1;
            }
            out
        },
    ];
    for paper in wrong {
        let (case, _) = reported(Changed { paper, ..UNCHANGED }, "papers");
        let Case::Paper { bytes, .. } = &case else { panic!("{case}") };
        // One entry, and a part or two of few bytes.
        assert!(bytes.len() <= 24, "{case}");
    }
}

#[test]
fn display() {
    let (case, against) = reported(
        Changed {
            display: |mut out| {
                out[1] = out[1].min(2);
                out
            },
            ..UNCHANGED
        },
        "display",
    );
    assert!(matches!(case, Case::Display { .. }), "{case}");
    assert!(against.starts_with("document 01"), "{against}");
}

/// Request L6: what is easily got wrong with a lent map and limit, each found in this part.
#[test]
fn maps_and_limits() {
    let wrong: [(&str, By); 13] = [
        // The built-in table in place of the lent rows, or the rows always right behind the header.
        ("maps", |by, bytes, main, alt, log, items| {
            let out = proved(by, bytes, main, alt, log, items);
            if matches!(out[0], 28 | 29) {
                return out;
            }
            log.fill(0xfefe);
            proved(&Lent { map: built_in_map(), ..by.clone() }, bytes, main, alt, log, items)
        }),
        ("maps", |by, bytes, main, alt, log, items| {
            let mut map = by.map.clone();
            if map.len() >= 260 {
                map[2..4].copy_from_slice(&[4, 0]);
            }
            proved(&Lent { map, ..by.clone() }, bytes, main, alt, log, items)
        }),
        // A code that the classic year leaves unmodelled, modelled (request L8).
        ("classic year", |by, bytes, main, alt, log, items| {
            let mut map = by.map.clone();
            map[4 + 0xd9] = 30;
            proved(&Lent { map, ..by.clone() }, bytes, main, alt, log, items)
        }),
        // 244 in place of the limit, in all and in figures alone; a limit that is one off.
        ("small limits", |by, bytes, main, alt, log, items| {
            let limit = if (1..=244).contains(&by.limit) { 244 } else { by.limit };
            proved(&Lent { limit, ..by.clone() }, bytes, main, alt, log, items)
        }),
        ("maps", |by, bytes, main, alt, log, items| {
            let mut out = proved(by, bytes, main, alt, log, items);
            if out[0] == 6 {
                out[3] = 244;
            }
            out
        }),
        ("maps", |by, bytes, main, alt, log, items| {
            let limit = if (1..=243).contains(&by.limit) { by.limit + 1 } else { by.limit };
            proved(&Lent { limit, ..by.clone() }, bytes, main, alt, log, items)
        }),
        // Bad maps let through: push at a later code, a class above 31, a row up to 60 of another class, one row too few.
        ("bad maps", |by, bytes, main, alt, log, items| {
            let mut map = by.map.clone();
            if map.len() == 260 {
                map[4 + 0x61..].iter_mut().filter(|class| **class == 1).for_each(|class| *class = 0);
            }
            proved(&Lent { map, ..by.clone() }, bytes, main, alt, log, items)
        }),
        ("bad maps", |by, bytes, main, alt, log, items| {
            let mut map = by.map.clone();
            if map.len() == 260 {
                map[4 + 0x61..].iter_mut().filter(|class| **class == 32).for_each(|class| *class = 31);
            }
            proved(&Lent { map, ..by.clone() }, bytes, main, alt, log, items)
        }),
        ("bad maps", |by, bytes, main, alt, log, items| {
            let mut map = by.map.clone();
            if map.len() == 260 && map[4 + 0x50] == 1 {
                map[4 + 0x50] = 0;
            }
            proved(&Lent { map, ..by.clone() }, bytes, main, alt, log, items)
        }),
        ("bad maps", |by, bytes, main, alt, log, items| {
            let mut map = by.map.clone();
            if map.len() == 259 {
                map.push(0);
            }
            proved(&Lent { map, ..by.clone() }, bytes, main, alt, log, items)
        }),
        // 0 taken for a limit; the limit judged first; a row written at 28.
        ("bad maps", |by, bytes, main, alt, log, items| {
            proved(&Lent { limit: by.limit.max(1), ..by.clone() }, bytes, main, alt, log, items)
        }),
        ("bad maps", |by, bytes, main, alt, log, items| {
            let mut out = proved(by, bytes, main, alt, log, items);
            if out[0] == 28 && !(1..=244).contains(&by.limit) {
                out[0] = 29;
            }
            out
        }),
        ("bad maps", |by, bytes, main, alt, log, items| {
            let out = proved(by, bytes, main, alt, log, items);
            if let Some(first) = log.first_mut().filter(|_| out[0] == 28) {
                *first = 0;
            }
            out
        }),
    ];
    for (number, (part, by)) in wrong.into_iter().enumerate() {
        let (case, against) = reported(Changed { by, ..UNCHANGED }, part);
        // A limit that is one off may be seen first where an accepted fragment is asked again at another.
        let (bytes, wanted) = match &case {
            Case::FragmentBy { bytes, .. } => (bytes, "document 01"),
            Case::FragmentAt { bytes, .. } => (bytes, "the same at another limit"),
            _ => panic!("{number}: {case}"),
        };
        assert!(against.starts_with(wanted), "{number}: {against}");
        assert!(bytes.len() <= 3, "{number}: {case}");
    }
}

/// The smallest case names what is wrong: the rows that matter, and no others.
#[test]
fn the_smallest_map_is_printed() {
    // Wrong where ff is IF and an ff stands in the bytes.
    let by: By = |by, bytes, main, alt, log, items| {
        let mut out = proved(by, bytes, main, alt, log, items);
        let rules = Rules::read(&by.map, by.limit);
        out[5] += u64::from(rules.is_ok_and(|rules| rules.class(0xff) == definition::Class::If) && bytes.contains(&0xff));
        out
    };
    let (case, _) = reported(Changed { by, ..UNCHANGED }, "maps");
    assert_eq!(case.to_string(), "fragment 0 0 ff   (a log of 3; the built-in map with ff is 3, at 1)");
}

/// An item or a row that changes with the limit, and acceptance that a higher limit takes away.
#[test]
fn raised_limits() {
    let wrong: [By; 3] = [
        |by, bytes, main, alt, log, items| {
            let out = proved(by, bytes, main, alt, log, items);
            if out[0] == 0 && by.limit == 244 && log.len() == 3 * bytes.len() && log.len() > 3 {
                log[3] ^= 1;
            }
            out
        },
        |by, bytes, main, alt, log, items| {
            let out = proved(by, bytes, main, alt, log, items);
            if out[0] == 0 && by.limit == 244 && log.len() == 3 * bytes.len() && items.len() > 3 {
                items[3] ^= 1;
            }
            out
        },
        |by, bytes, main, alt, log, items| {
            let mut out = proved(by, bytes, main, alt, log, items);
            // Just above the peak.
            if out[0] == 0 && u64::from(by.limit) == out[5] + 1 && log.len() == 3 * bytes.len() && !items.is_empty() {
                out[0] = 6;
            }
            out
        },
    ];
    for (number, by) in wrong.into_iter().enumerate() {
        // The log is just long enough where a case is asked again, and longer where it is held against the plain reading.
        let (case, against) = reported(Changed { by, ..UNCHANGED }, "maps");
        assert!(matches!(case, Case::FragmentAt { .. }), "{number}: {case}");
        assert!(against.starts_with("the same at another limit"), "{number}: {against}");
    }
}

#[test]
fn papers_by_maps() {
    let wrong: [PaperBy; 5] = [
        // By the built-in map; at 244; the dispatch check at 244; its figure; the entry of 6.
        |by, paper, log| Proved.mark_paper_with(&Lent { map: built_in_map(), ..by.clone() }, paper, log),
        |by, paper, log| Proved.mark_paper_with(&Lent { limit: 244, ..by.clone() }, paper, log),
        |by, paper, log| {
            let out = Proved.mark_paper_with(by, paper, log);
            if out[0] == 20 { Proved.mark_paper_with(&Lent { limit: 244, ..by.clone() }, paper, log) } else { out }
        },
        |by, paper, log| {
            let mut out = Proved.mark_paper_with(by, paper, log);
            if out[0] == 20 {
                out[4] = 244;
            }
            out
        },
        |by, paper, log| {
            let mut out = Proved.mark_paper_with(by, paper, log);
            if out[0] == 6 {
                out[1] += 1;
            }
            out
        },
    ];
    for (number, paper_by) in wrong.into_iter().enumerate() {
        let (case, against) = reported(Changed { paper_by, ..UNCHANGED }, "papers by maps");
        let Case::PaperBy { bytes, .. } = &case else { panic!("{number}: {case}") };
        // One entry, and a part or two of few bytes.
        assert!(bytes.len() <= 24, "{number}: {case}");
        assert!(against.starts_with("document 01"), "{number}: {against}");
    }
    // What is accepted stays so at a higher limit.
    let paper_by: PaperBy = |by, paper, log| {
        let mut out = Proved.mark_paper_with(by, paper, log);
        if out[0] == 0 && by.limit > 200 && log.len() == 3 * paper.len() {
            out[6] += 1;
        }
        out
    };
    let (case, against) = reported(Changed { paper_by, ..UNCHANGED }, "papers by maps");
    assert!(matches!(case, Case::PaperAt { .. }), "{case}");
    assert!(against.starts_with("the same at a higher limit"), "{against}");
}

/// As in plain mode, with the log and the items as lent before.
fn plainly(by: &Lent, bytes: &[u8], main: u32, alt: u32, log: &mut [u16], items: &mut [u64]) -> [u64; 9] {
    log.fill(0xfefe);
    proved(&by.in_mode(PLAIN), bytes, main, alt, log, items)
}

/// Where pushes of more than so many bytes stand, and their lengths.
fn longer(bytes: &[u8], than: usize) -> Vec<(u64, u64)> {
    let instructions = decode(bytes).unwrap_or_default();
    let long = instructions.iter().filter(|instruction| instruction.data.len() > than);
    long.map(|instruction| (instruction.offset as u64, instruction.data.len() as u64)).collect()
}

/// Request L7: what is easily got wrong in the examined mode.
#[test]
fn examined() {
    let wrong: [By; 14] = [
        // The mode is not read, in part, or the other way round; plain mode is examined too.
        |by, bytes, main, alt, log, items| proved(&by.in_mode(PLAIN), bytes, main, alt, log, items),
        |by, bytes, main, alt, log, items| proved(&by.in_mode(by.mode & 0xff), bytes, main, alt, log, items),
        |by, bytes, main, alt, log, items| proved(&by.in_mode(u32::from(by.mode == 1)), bytes, main, alt, log, items),
        |by, bytes, main, alt, log, items| proved(&by.in_mode(1), bytes, main, alt, log, items),
        // 521 bytes pass; 520 do not; the length bytes count.
        |by, bytes, main, alt, log, items| {
            let out = proved(by, bytes, main, alt, log, items);
            if out[0] == 30 && out[2] == 521 { plainly(by, bytes, main, alt, log, items) } else { out }
        },
        |by, bytes, main, alt, log, items| {
            let out = proved(by, bytes, main, alt, log, items);
            let first = longer(bytes, 519).first().copied();
            let refused = by.examined() && out[0] == 0 && first == Some((0, 520));
            if refused { [30, 0, 520, 520, 1, 0, 0, 0, 0] } else { out }
        },
        |by, bytes, main, alt, log, items| {
            let mut out = proved(by, bytes, main, alt, log, items);
            if out[0] == 30 {
                out[2] += if bytes[out[1] as usize] == 0x4d { 3 } else { 5 };
            }
            out
        },
        // The figures exchanged; not by 4e; the length in 9 bits.
        |by, bytes, main, alt, log, items| {
            let mut out = proved(by, bytes, main, alt, log, items);
            if out[0] == 30 {
                out.swap(2, 3);
            }
            out
        },
        |by, bytes, main, alt, log, items| {
            let out = proved(by, bytes, main, alt, log, items);
            let four = out[0] == 30 && bytes[out[1] as usize] == 0x4e;
            if four { plainly(by, bytes, main, alt, log, items) } else { out }
        },
        |by, bytes, main, alt, log, items| {
            let mut out = proved(by, bytes, main, alt, log, items);
            if out[0] == 30 {
                out[2] &= 0x1ff;
            }
            out
        },
        // In dead code too.
        |by, bytes, main, alt, log, items| {
            let mut out = proved(by, bytes, main, alt, log, items);
            if let Some((offset, length)) = longer(bytes, 520).first().filter(|_| by.examined() && out[0] == 0) {
                out = [30, *offset, *length, 520, out[4], 0, 0, 0, 0];
            }
            out
        },
        // Behind the test for room.
        |by, bytes, main, alt, log, items| {
            let out = proved(by, bytes, main, alt, log, items);
            if out[0] != 30 {
                return out;
            }
            let plain = plainly(by, bytes, main, alt, log, items);
            if (plain[0], plain[1]) == (6, out[1]) {
                return plain;
            }
            log.fill(0xfefe);
            items.fill(side_by_side::marker::UNWRITTEN);
            proved(by, bytes, main, alt, log, items)
        },
        // The row of the push is not written; an item of the end is lost.
        |by, bytes, main, alt, log, items| {
            let mut out = proved(by, bytes, main, alt, log, items);
            if out[0] == 30 {
                out[4] -= 1;
                log[3 * out[4] as usize..][..3].fill(0xfefe);
            }
            out
        },
        |by, bytes, main, alt, log, items| {
            let out = proved(by, bytes, main, alt, log, items);
            if let Some(first) = items.first_mut().filter(|_| by.examined() && out[0] == 0 && out[7] > 0) {
                *first = 255 - *first;
            }
            out
        },
    ];
    for (number, by) in wrong.into_iter().enumerate() {
        let (case, against) = reported(Changed { by, ..UNCHANGED }, "examined");
        // By the plain reading, where it is asked first; no more than the push and an instruction or two.
        let Case::FragmentBy { by, bytes, .. } = &case else { panic!("{number}: {case}") };
        assert!(against.starts_with("document 01"), "{number}: {against}");
        assert!(bytes.len() <= 540, "{number}: {case}");
        assert_eq!(by.map, built_in_map(), "{number}: {case}");
    }
}

/// The two modes beside one another, and plain replays: with the log just long enough, as it is lent there alone.
#[test]
fn both_modes() {
    let wrong: [By; 4] = [
        // 30 where no replay comes; 0 where one comes; another row; another item.
        |by, bytes, main, alt, log, items| {
            let out = proved(by, bytes, main, alt, log, items);
            let there = by.examined() && log.len() == 3 * bytes.len() && out[0] == 0 && !longer(bytes, 520).is_empty();
            if there { [30, 0, 521, 520, 1, 0, 0, 0, 0] } else { out }
        },
        |by, bytes, main, alt, log, items| {
            let there = by.examined() && log.len() == 3 * bytes.len();
            proved(&by.in_mode(if there { PLAIN } else { by.mode }), bytes, main, alt, log, items)
        },
        |by, bytes, main, alt, log, items| {
            let out = proved(by, bytes, main, alt, log, items);
            if by.mode > 1 && log.len() == 3 * bytes.len() && out[0] == 0 && items.len() > 3 && out[4] > 1 {
                log[4] ^= 1;
            }
            out
        },
        |by, bytes, main, alt, log, items| {
            let out = proved(by, bytes, main, alt, log, items);
            if by.mode > 1 && log.len() == 3 * bytes.len() && out[0] == 0 && items.len() > 3 && out[7] > 0 {
                items[0] ^= 1;
            }
            out
        },
    ];
    for (number, by) in wrong.into_iter().enumerate() {
        let (case, against) = reported(Changed { by, ..UNCHANGED }, "examined");
        assert!(matches!(case, Case::Examined { .. }), "{number}: {case}");
        assert!(against.starts_with("the same in plain mode"), "{number}: {against}");
    }
}

/// The same of papers.
#[test]
fn papers_examined() {
    let wrong: [PaperBy; 4] = [
        // The mode is not read; the entry; the offset in the paper; a row of the accepted fragments before.
        |by, paper, log| Proved.mark_paper_with(&by.in_mode(PLAIN), paper, log),
        |by, paper, log| {
            let mut out = Proved.mark_paper_with(by, paper, log);
            out[1] += u64::from(out[0] == 30);
            out
        },
        |by, paper, log| {
            let mut out = Proved.mark_paper_with(by, paper, log);
            if out[0] == 30 {
                out[2] += 14;
            }
            out
        },
        |by, paper, log| {
            let mut out = Proved.mark_paper_with(by, paper, log);
            if out[0] == 30 {
                out[5] = 1;
            }
            out
        },
    ];
    for (number, paper_by) in wrong.into_iter().enumerate() {
        let (case, against) = reported(Changed { paper_by, ..UNCHANGED }, "papers, examined");
        let Case::PaperBy { bytes, .. } = &case else { panic!("{number}: {case}") };
        // One entry or two, and a push.
        assert!(bytes.len() <= 24 + 540, "{number}: {case}");
        assert!(against.starts_with("document 01"), "{number}: {against}");
    }
    // Accepted, or refused, in examined mode alone where both modes stand beside one another.
    let wrong: [PaperBy; 2] = [
        |by, paper, log| {
            let there = by.examined() && log.len() == 3 * paper.len();
            Proved.mark_paper_with(&by.in_mode(if there { PLAIN } else { by.mode }), paper, log)
        },
        |by, paper, log| {
            let out = Proved.mark_paper_with(by, paper, log);
            let there = by.mode > 1 && log.len() == 3 * paper.len() && out[0] == 0 && by.limit == 244;
            if there { [30, 0, 0, 521, 520, 1, 0] } else { out }
        },
    ];
    for (number, paper_by) in wrong.into_iter().enumerate() {
        let (case, against) = reported(Changed { paper_by, ..UNCHANGED }, "papers, examined");
        let (wanted, again) = match &case {
            Case::ExaminedPaper { .. } => ("the same in plain mode", false),
            Case::PaperAt { .. } => ("the same at a higher limit", true),
            _ => panic!("{number}: {case}"),
        };
        assert!(against.starts_with(wanted) && (number == 1 || !again), "{number}: {case} {against}");
    }
}

/// Whether a replay reaches a long push: with all choices tried, and where there are too many of them.
#[test]
fn long_pushes_reached() {
    let long = [&[0x4d, 0x09, 0x02][..], &[7; 521]].concat();
    let reaches = |bytes: &[u8], main| reaches_long(&BUILT_IN, bytes, main, 0, 9);
    assert_eq!(reaches(&long, 0), Some(true));
    assert_eq!(reaches(&[&[0x4d, 0x08, 0x02][..], &[7; 520]].concat(), 0), Some(false));
    assert_eq!(reaches(&[&[0x6a], &long[..]].concat(), 0), Some(false));
    assert_eq!(reaches(&[&[0x63, 0x6a, 0x67, 0x6a, 0x68], &long[..]].concat(), 1), Some(false));
    assert_eq!(reaches(&[&[0x63, 0x61, 0x67], &long[..], &[0x75, 0x68]].concat(), 1), Some(true));
    // Eight conditionals are 256 lists of choices.
    let many = [0x51, 0x63, 0x68].repeat(8);
    assert_eq!(reaches(&[&many[..], &[0x6a], &long].concat(), 0), None);
    assert_eq!(reaches(&[&many[..], &long].concat(), 0), Some(true));
    assert_eq!(reaches(&many, 0), Some(false));
}

/// Demand 3 in examined mode: a fault where plain replays have none.
#[test]
fn replays_in_examined_mode() {
    let bytes = [&[0x51, 0x4d, 0x09, 0x02][..], &[7; 521], &[0x75]].concat();
    let mut log = vec![0; 9];
    let ours = Proved.analyze(&bytes, 0, 0, &mut log);
    let end = definition::analysis(&bytes, 0, 0, &mut [0; 9]).end;
    assert!(demand_3(&BUILT_IN, &bytes, 0, 0, 9, &ours, &log, end.as_ref()).is_ok());
    let (_, theirs) = demand_3(&BUILT_IN.clone().in_mode(true), &bytes, 0, 0, 9, &ours, &log, end.as_ref()).unwrap_err();
    assert!(theirs.contains("a fault at instruction 1: a long element"), "{theirs}");
}

/// Demand 3 by a map and a limit, with the answer for a fragment changed in one thing.
#[test]
fn replays_by_a_map() {
    let mut map = built_in_map();
    map[4 + 0xff] = 3;
    map[4 + 0xfe] = 6;
    let by = Lent::plain(map, 3);
    let rules = Rules::read(&by.map, by.limit).expect("good rules");
    // ff 51 fe 61: an IF, a push, an ENDIF; from two items, so that the arms differ; with 75 they do not.
    let bytes = [0xff, 0x51, 0x75, 0xfe, 0x51];
    let mut log = [0; 15];
    let ours = Proved.analyze_with(&by, &bytes, 2, 0, &mut log, &mut []);
    assert_eq!(ours, [0, 0, 0, 0, 5, 2, 1, 2, 0]);
    let end = definition::analysis_by(&rules, &bytes, 2, 0, &mut [0; 15]).end.expect("an end");
    let check = |rules: &Rules, ours: &[u64; 9], log: &[u16]| demand_3(rules, &bytes, 2, 0, 9, ours, log, Some(&end));
    let counts = check(&rules, &ours, &log).expect("it is true of these");
    assert_eq!((counts.replays, counts.exhaustive, counts.ran_off), (2, 1, 2));
    // By the built-in map there is a fault; at a lower limit too.
    assert!(check(&BUILT_IN, &ours, &log).is_err());
    assert!(check(&Rules::read(&by.map, 1).expect("good rules"), &ours, &log).is_err());
    for (place, wrong) in [(5, 1), (5, 3), (6, 0), (7, 1)] {
        let mut ours = ours;
        ours[place] = wrong;
        assert!(check(&rules, &ours, &log).is_err(), "{ours:?}");
    }
}

/// Demand 3 alone, with the answer for a fragment changed in one thing.
#[test]
fn replays() {
    // 63 51 67 6a 68 6b: the second arm is dead, ENDIF's row too.
    let bytes = [0x63, 0x51, 0x67, 0x6a, 0x68, 0x6b];
    let mut log = [0; 18];
    let ours = Proved.analyze(&bytes, 2, 0, &mut log);
    let end = definition::analysis(&bytes, 2, 0, &mut [0; 18]).end.expect("an end");
    assert_eq!((ours, &log[12..15]), ([0, 0, 0, 0, 6, 2, 1, 1, 1], &[4, 65_535, 65_535][..]));
    let check = |ours: &[u64; 9], log: &[u16], end: Option<&Stacks>| demand_3(&BUILT_IN, &bytes, 2, 0, 9, ours, log, end);

    let counts = check(&ours, &log, Some(&end)).expect("it is true of these");
    assert_eq!((counts.replays, counts.exhaustive, counts.ran_off, counts.reached), (2, 1, 1, 6));
    // Peak too small, too large; no end, another height.
    for (place, wrong) in [(5, 1), (5, 3), (6, 0), (7, 2), (8, 0)] {
        let mut ours = ours;
        ours[place] = wrong;
        assert!(check(&ours, &log, Some(&end)).is_err(), "{ours:?}");
    }
    // A height in a row, a live row dead, a dead row live.
    for (place, wrong) in [(1, 1), (2, 1), (7, 1), (13, 1), (4, 65_535)] {
        let mut log = log;
        log[place] = wrong;
        assert!(check(&ours, &log, Some(&end)).is_err(), "{log:?}");
    }
    // The bytes of an exact end item; one that is not known.
    for wrong in [Item::Exact(vec![2]), Item::Exact(vec![1, 0])] {
        let mut end = end.clone();
        end.alt[0] = wrong;
        assert!(check(&ours, &log, Some(&end)).is_err(), "{end:?}");
    }
    let mut end_known = end.clone();
    end_known.main[0] = Item::Exact(vec![7; 3]);
    assert!(check(&ours, &log, Some(&end_known)).is_err());
    assert!(check(&ours, &log, None).is_err());

    // An end where none runs off, and a fault.
    let mut log = [0; 3];
    let mut ours = Proved.analyze(&[0x6a], 0, 0, &mut log);
    assert!(demand_3(&BUILT_IN, &[0x6a], 0, 0, 9, &ours, &log, None).is_ok());
    ours[6] = 1;
    assert!(demand_3(&BUILT_IN, &[0x6a], 0, 0, 9, &ours, &log, None).is_err());
    let accepted = [0, 0, 0, 0, 1, 0, 1, 0, 0];
    for code in [0x75, 0x6c, 0xff, 0x79, 0xa6, 0x63] {
        assert!(demand_3(&BUILT_IN, &[code], 0, 0, 9, &accepted, &[0, 0, 0], None).is_err(), "{code:02x}");
    }
}

#[test]
fn a_seed_repeats_a_run() {
    let counts = |threads, seed| {
        let outcome = compare(UNCHANGED, &SHORT, threads, seed);
        assert!(outcome.found.is_none());
        outcome.parts.iter().map(|part| format!("{} {:?}", part.name, part.tally)).collect::<Vec<_>>()
    };
    assert_eq!(counts(1, 7), counts(2, 7));
    assert_ne!(counts(1, 7), counts(1, 8));
}
