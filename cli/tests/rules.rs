//! `--map` and `--limit` of `mark`, `log` and `fragment` (request L6), `--examined` (request L7) and `--year` (request L8) of the
//! same, and `map`.
mod common;

use std::fs;

use common::{DRY, Folder, Numbers, SAMPLE, SAMPLE_LINES, paper};
use listochur::{MAP_BYTES, Options, analyze_with, built_in_map, classic_map};

/// A folder with the two papers and two maps: `own` is the built-in one, in `next` ff is IF and there is no ELSE.
fn folder() -> Folder {
    let folder = Folder::with_papers();
    folder.file("own", &built_in_map());
    folder.file("next", &with_rows(&[(0xff, 3), (0x67, 0)]));
    // 63 ff 68 51 68 from two items
    folder.file("ifs", &paper(0, 2, &[0x63, 0xff, 0x68, 0x51, 0x68]));
    folder
}

/// The built-in map with these rows in place of its own.
fn with_rows(rows: &[(u8, u8)]) -> [u8; MAP_BYTES] {
    let mut map = built_in_map();
    for (code, class) in rows {
        map[4 + usize::from(*code)] = *class;
    }
    map
}

#[test]
fn the_built_in_map_is_written() {
    let folder = folder();
    let ran = folder.run(&["map"]);
    assert_eq!((ran.status, ran.out.as_slice(), ran.err.as_str()), (Some(0), &built_in_map()[..], ""));
    assert_eq!(ran.out.len(), 260);
    folder.run(&["map", "own"]).fails("", &["'own' is one word too many", "usage: listochur map"]);
    folder.shell("listochur map | listochur mark --map - good").gives(0, SAMPLE_LINES);
    // as the help has it: ff is one more IF
    folder
        .shell("listochur map >m && printf '\\3' | dd of=m bs=1 seek=259 conv=notrunc 2>/dev/null && listochur mark --map m ifs")
        .gives(0, "entry 0 peak 2 end 1 0\naccepted\n");
    assert!(folder.run(&["help", "map"]).out().contains("printf '\\3' | dd of=next.map bs=1 seek=259 conv=notrunc"));
}

#[test]
fn papers_by_a_map() {
    let folder = folder();
    folder.run(&["mark", "ifs"]).gives(1, "refused 11 at 0 1 255 0\n");
    folder.run(&["mark", "--map", "next", "ifs"]).gives(0, "entry 0 peak 2 end 1 0\naccepted\n");
    folder.run(&["mark", "ifs", "--map", "next"]).gives(0, "entry 0 peak 2 end 1 0\naccepted\n");
    folder.run(&["mark", "--map", "next", "good"]).gives(1, "refused 11 at 0 2 103 0\n");
    folder.run(&["mark", "--map", "own", "good"]).gives(0, SAMPLE_LINES);
    folder.run_on(&["mark", "--map", "next", "-"], &SAMPLE).gives(1, "refused 11 at 0 2 103 0\n");
    folder.run_on(&["mark", "--map", "-", "ifs"], &with_rows(&[(0xff, 4)])).gives(0, "entry 0 peak 2 end 1 0\naccepted\n");
    // rows that stand further behind, and bytes behind them
    let moved = [&[0, 1, 9, 0, 7, 7, 7, 7, 7][..], &with_rows(&[(0xff, 3)])[4..], b"behind"].concat();
    folder.file("moved", &moved);
    folder.run(&["mark", "--map", "moved", "ifs"]).gives(0, "entry 0 peak 2 end 1 0\naccepted\n");
}

/// 20 at 0 with 5 and 4 at a limit of 4; accepted at 5.
#[test]
fn papers_by_a_limit() {
    let folder = folder();
    for limit in 1..=4 {
        folder.run(&["mark", "--limit", &limit.to_string(), "good"]).gives(1, &format!("refused 20 at 0 0 5 {limit}\n"));
    }
    for limit in ["5", "6", "243", "244", "005"] {
        folder.run(&["mark", "--limit", limit, "good"]).gives(0, SAMPLE_LINES);
    }
    folder.file("high", &paper(0, 7, &[0x6f, 0x6f, 0x6f]));
    folder.run(&["mark", "--limit", "16", "high"]).gives(0, "entry 0 peak 16 end 16 0\naccepted\n");
    folder.run(&["mark", "--limit", "15", "high"]).gives(1, "refused 6 at 0 2 16 15\n");
    folder.run(&["mark", "--limit", "12", "high"]).gives(1, "refused 6 at 0 1 13 12\n");
    folder.run(&["mark", "--map", "next", "--limit", "5", "ifs"]).gives(0, "entry 0 peak 2 end 1 0\naccepted\n");
    folder.run(&["mark", "--limit", "4", "--map", "next", "ifs"]).gives(1, "refused 20 at 0 0 5 4\n");
}

#[test]
fn piles_and_registers() {
    let folder = folder();
    folder.folder("pile");
    folder.file("pile/a", &SAMPLE);
    folder.file("pile/b", &DRY);
    folder.file("pile/c", &paper(0, 2, &[0x63, 0xff, 0x68, 0x51, 0x68]));
    folder.run(&["mark", "--limit", "4", "pile"]).gives(
        1,
        "pile/a: refused 20 at 0 0 5 4\npile/b: refused 20 at 0 0 5 4\npile/c: refused 20 at 0 0 5 4\n\
         papers 3, accepted 0, refused 3 (3 with 20), rows 0, greatest peak 0\n",
    );
    folder.run(&["mark", "--map", "next", "pile", "good"]).gives(
        1,
        "pile/a: refused 11 at 0 2 103 0\npile/b: refused 11 at 0 2 103 0\npile/c: entry 0 peak 2 end 1 0\npile/c: accepted\n\
         good: refused 11 at 0 2 103 0\npapers 4, accepted 1, refused 3 (3 with 11), rows 14, greatest peak 2\n",
    );
    let ran = folder.run(&["mark", "--csv", "--map", "next", "--limit", "5", "pile"]);
    assert_eq!(
        (ran.status, ran.out(), ran.err.as_str()),
        (
            Some(1),
            "name,number,word,entry,offset,first,second,rows,peak,fragments\n\
             pile/a,11,unmodelled,0,2,103,0,3,0,\npile/b,11,unmodelled,0,2,103,0,3,0,\n\
             pile/c,0,accepted,0,0,0,0,5,2,entry 0 peak 2 end 1 0\n",
            "listochur: papers 3, accepted 1, refused 2 (2 with 11), rows 11, greatest peak 2\n"
        )
    );
    let ran = folder.run(&["mark", "--json", "--limit", "4", "good"]);
    assert_eq!(
        (ran.status, ran.out(), ran.err.as_str()),
        (
            Some(1),
            "[\n{\"name\":\"good\",\"number\":20,\"word\":\"dispatch\",\"entry\":0,\"offset\":0,\"first\":5,\"second\":4,\
             \"rows\":0,\"peak\":0,\"fragments\":[]}\n]\n",
            ""
        )
    );
}

#[test]
fn logs() {
    let folder = folder();
    let own = folder.run(&["log", "good"]);
    assert_eq!(own.status, Some(0));
    folder.run(&["log", "--map", "own", "--limit", "5", "good"]).gives(0, own.out());
    folder.run_on(&["log", "--limit", "244", "-"], &SAMPLE).gives(0, own.out());
    let ran = folder.run(&["log", "--limit", "4", "good"]);
    assert_eq!((ran.status, ran.err.as_str()), (Some(1), ""));
    assert!(ran.out().contains("dispatch: sum 5, limit 4") && ran.out().ends_with("\nrefused 20 at 0 0 5 4\n"), "{ran:?}");
    // the second IF and what stands in it are indented by the lent map, under the words of the built-in one
    folder.run(&["log", "--map", "next", "ifs"]).gives(
        0,
        "entry 0: length 5, from main 2 alt 0\n\
         offset main  alt total |of 8            | bytes       instruction\n\
         \x20    0    2    0     2 |####............| 63          OpIf\n\
         \x20    1    1    0     1 |##..............| ff           0xff\n\
         \x20    2    0    0     0 |................| 68           OpEndIf\n\
         \x20    3    0    0     0 |................| 51           Op1\n\
         \x20    4    1    0     1 |##..............| 68          OpEndIf\n\
         accepted: peak 2, end main 1 alt 0\n\naccepted\n",
    );
}

#[test]
fn fragments() {
    let folder = folder();
    folder.run(&["fragment", "--map", "next", "--limit", "2", "2", "0", "63ff685168"]).gives(
        0,
        "accepted, peak 2, end main 1 alt 0\n  main 0 unknown\n\
         offset  main   alt  bytes                       instruction\n\
         \x20    0     2     0  63                          OpIf\n     1     1     0  ff                          0xff\n\
         \x20    2     0     0  68                          OpEndIf\n     3     0     0  51                          Op1\n\
         \x20    4     1     0  68                          OpEndIf\n",
    );
    folder.run(&["fragment", "--limit", "1", "2", "0", "51"]).gives(1, "refused 2, start: sum 2, limit 1\n");
    folder.run(&["fragment", "0", "0", "5151", "--limit", "1"]).gives(
        1,
        "refused 6 at offset 1, stacks full: total wanted 2, limit 1\n\
         offset  main   alt  bytes                       instruction\n\
         \x20    0     0     0  51                          Op1\n     1     1     0  51                          Op1\n",
    );
    // without RETURN
    folder.file("no-return", &with_rows(&[(0x6a, 0)]));
    let ran = folder.run(&["fragment", "--map", "no-return", "0", "0", "6aff"]);
    assert!(ran.status == Some(1) && ran.out().starts_with("refused 11 at offset 0, unmodelled: opcode 6a\n"), "{ran:?}");
    let own = folder.run(&["fragment", "2", "0", "5163516752686b"]);
    folder.run(&["fragment", "--map", "own", "2", "0", "5163516752686b"]).gives(0, own.out());
    folder.run_on(&["fragment", "--map", "-", "2", "0", "5163516752686b"], &built_in_map()).gives(0, own.out());
    folder.run_on(&["fragment", "--map", "own", "2", "0", "@-"], b"Qcghk").gives(
        folder.run_on(&["fragment", "2", "0", "@-"], b"Qcghk").status.unwrap(),
        folder.run_on(&["fragment", "2", "0", "@-"], b"Qcghk").out(),
    );
}

/// Of a bad map or limit is said what is wrong, and nothing is marked: not the papers before a bad one, not standard input.
#[test]
fn nothing_is_marked_by_bad_ones() {
    let folder = folder();
    let bad: [(&str, &[u8], &str); 8] = [
        ("empty", b"", "empty: bad map (28): it has 0 bytes, and its header alone has 4"),
        ("short", &built_in_map()[..259], "short: bad map (28): from offset 4 its 256 rows take 260 bytes, and it has 259"),
        ("text", b"0001 0400", "text: bad map (28): the count of rows is 12336 (30 30 at offset 0), and not 256 (00 01)"),
        (
            "low",
            b"\0\x01\x03\0",
            "low: bad map (28): the first row is at offset 3 (03 00 at offset 2), within the header of 4 bytes",
        ),
        (
            "push",
            &with_rows(&[(0x61, 1)]),
            "push: bad map (28): row 61, at offset 101, is push (1), which no code above 60 may be",
        ),
        (
            "early",
            &with_rows(&[(0x50, 2)]),
            "early: bad map (28): row 50, at offset 84, is nothing (2), and the codes up to 60 keep their own, here unmodelled (0)",
        ),
        (
            "class",
            &with_rows(&[(0x61, 32), (0xff, 99)]),
            "class: bad map (28): row 61, at offset 101, is 32, which is no class: they are 0 to 31, and 1 more row is wrong",
        ),
        ("new\nline", b"\0", "new\\nline: bad map (28): it has 1 byte, and its header alone has 4"),
    ];
    for (name, bytes, said) in bad {
        folder.file(name, bytes);
        for words in [
            &["mark", "good"][..],
            &["mark", "--limit", "0", "good", "bad", "none"],
            &["mark", "--csv", "good"],
            &["mark", "--json", "good", "good"],
            &["log", "good"],
            &["log", "none"],
            &["fragment", "0", "0", "51"],
            &["fragment", "--limit", "245", "0", "0", "@none"],
        ] {
            let words = [&words[..1], &["--map", name], &words[1..]].concat();
            let ran = folder.run(&words);
            assert_eq!((ran.status, ran.out(), &ran.err), (Some(2), "", &format!("listochur: {said}\n")), "{words:?}");
        }
    }
    for limit in ["0", "245", "256", "4294967295"] {
        for words in [&["mark", "good"][..], &["mark", "--csv", "good", "bad"], &["log", "good"], &["fragment", "0", "0", "51"]] {
            for map in [&[][..], &["--map", "own"]] {
                let words = [&words[..1], &["--limit", limit], map, &words[1..]].concat();
                let ran = folder.run(&words);
                let said = format!("listochur: --limit {limit}: bad limit (29): a limit is 1 to 244\n");
                assert_eq!((ran.status, ran.out(), &ran.err), (Some(2), "", &said), "{words:?}");
            }
        }
    }
    let ran = folder.run_on(&["mark", "--map", "-", "good"], b"");
    assert_eq!(ran.err, "listochur: standard input: bad map (28): it has 0 bytes, and its header alone has 4\n");
    // what is no number is bad words
    folder.run(&["mark", "--limit", "4294967296", "good"]).fails("", &["the limit is at most 244", "usage: listochur mark"]);
    folder.run(&["mark", "--limit", "five", "good"]).fails("", &["the limit is a decimal number, and 'five' is none"]);
    folder.run(&["log", "good", "--limit"]).fails("", &["--limit lacks its value", "usage: listochur log"]);
}

#[test]
fn a_map_that_cannot_be_read() {
    let folder = folder();
    for command in [&["mark"][..], &["mark", "--csv"], &["log"]] {
        let words = [command, &["--map", "none", "good"]].concat();
        folder.run(&words).fails("", &["cannot read none"]);
    }
    folder.run(&["fragment", "--map", ".", "0", "0", "51"]).fails("", &["cannot read ."]);
    folder.run(&["mark", "--map", "", "good"]).fails("", &["an empty name names no file"]);
    folder.shell("listochur mark --map - good <&-").fails("", &["standard input", "closed"]);
    folder.run_on(&["mark", "--map", "-", "good", "-"], &SAMPLE).fails("", &["--map - and - are both standard input"]);
    folder.run_on(&["log", "--map", "-", "-"], &SAMPLE).fails("", &["--map - and - are both standard input"]);
    folder.run_on(&["fragment", "--map", "-", "0", "0", "@-"], b"a").fails("", &["--map - and @- are both standard input"]);
    folder.shell("listochur mark --map own good >>own").fails("", &["cannot read own: it is where the output goes"]);
    // the map is no option of the others
    folder.run(&["limits", "--map", "own", "51"]).fails("", &["there is no option '--map'", "usage: listochur limits"]);
    folder.run(&["compare", "--limit", "5", "good"]).fails("", &["there is no option '--limit'", "usage: listochur compare"]);
}

/// 7e is unmodelled in the classic year, skipped in dead code, and 82 and 87 are modelled in both.
#[test]
fn rule_years() {
    let folder = folder();
    for (words, wanted) in [
        (&["map"][..], built_in_map()),
        (&["map", "--year", "current"], built_in_map()),
        (&["map", "--year", "classic"], classic_map()),
    ] {
        let ran = folder.run(words);
        assert_eq!((ran.status, ran.out.as_slice(), ran.err.as_str()), (Some(0), &wanted[..], ""), "{words:?}");
    }
    folder.file("joined", &paper(0, 2, &[0x7e]));
    folder.file("skipped", &paper(0, 2, &[0x6a, 0x7e]));
    folder.file("sized", &paper(0, 2, &[0x87, 0x82]));
    folder.run(&["mark", "--year", "classic", "joined"]).gives(1, "refused 11 at 0 0 126 0\n");
    folder.run(&["mark", "--year", "current", "joined"]).gives(0, "entry 0 peak 2 end 1 0\naccepted\n");
    folder.run(&["mark", "--year", "classic", "--limit", "4", "joined"]).gives(1, "refused 20 at 0 0 5 4\n");
    folder.run(&["mark", "--year", "classic", "joined", "skipped", "sized"]).gives(
        1,
        "joined: refused 11 at 0 0 126 0\nskipped: entry 0 peak 2 end none\nskipped: accepted\n\
         sized: entry 0 peak 2 end 2 0\nsized: accepted\n\
         papers 3, accepted 2, refused 1 (1 with 11), rows 5, greatest peak 2\n",
    );
    // what is accepted in the classic year is so in the current one, with the same lines and log
    for name in ["good", "skipped", "sized"] {
        for command in ["mark", "log"] {
            let wanted = folder.run(&[command, name]);
            for year in ["classic", "current"] {
                folder.run(&[command, "--year", year, name]).gives(0, wanted.out());
            }
        }
    }
    // as the map lent by its bytes
    folder.file("classic", &classic_map());
    for words in [&["log", "joined"][..], &["fragment", "2", "0", "7e"], &["fragment", "2", "0", "6a7e"]] {
        let wanted = folder.run(&[words, &["--map", "classic"]].concat());
        folder.run(&[words, &["--year", "classic"]].concat()).gives(wanted.status.unwrap(), wanted.out());
    }
    folder.shell("listochur map --year classic | listochur mark --map - joined").gives(1, "refused 11 at 0 0 126 0\n");
    folder
        .run(&["mark", "--map", "classic", "--year", "classic", "joined"])
        .fails("", &["--map and --year are one or the other", "usage: listochur mark"]);
    folder.run(&["log", "--year", "next", "good"]).fails("", &["the year is classic or current, and 'next' is neither"]);
    folder.run(&["map", "classic"]).fails("", &["'classic' is one word too many"]);
}

/// The map is read once for all papers: a pipe gives it once.
#[test]
fn a_map_is_read_once() {
    let folder = folder();
    folder
        .shell("mkfifo pipe && { cat next >pipe & } && listochur mark --map pipe ifs ifs ifs | tail -n 1")
        .gives(0, "papers 3, accepted 3, refused 0, rows 15, greatest peak 2\n");
}

/// Papers of any bytes: with the built-in map lent at 244 the lines, the log and the register are those without it.
#[test]
fn the_built_in_map_changes_nothing() {
    let folder = Folder::new();
    folder.folder("pile");
    folder.file("own", &built_in_map());
    let mut numbers = Numbers(6);
    for place in 0..200 {
        let size = numbers.below(20);
        let mut body = numbers.bytes(size);
        for byte in &mut body {
            if numbers.below(4) > 0 {
                *byte = [0x51, 0x52, 0x63, 0x67, 0x68, 0x6a, 0x6b, 0x6c, 0x75, 0x76, 0x79, 0xff][numbers.below(12) as usize];
            }
        }
        let mut bytes = paper(numbers.below(3) as u16, numbers.below(6) as u16, &body);
        if place % 10 == 0 {
            bytes.truncate(numbers.below(20) as usize);
        }
        folder.file(format!("pile/{place}"), &bytes);
    }
    for form in [&["mark"][..], &["mark", "--csv"], &["mark", "--json"]] {
        let wanted = folder.run(&[form, &["pile"]].concat());
        assert_eq!(wanted.status, Some(1));
        for rules in [&["--map", "own"][..], &["--limit", "244"], &["--map", "own", "--limit", "244"]] {
            let ran = folder.run(&[form, rules, &["pile"]].concat());
            assert_eq!((ran.status, ran.out(), &ran.err), (wanted.status, wanted.out(), &wanted.err), "{form:?} {rules:?}");
        }
    }
    for place in 0..40 {
        let name = format!("pile/{place}");
        let wanted = folder.run(&["log", &name]);
        folder.run(&["log", "--map", "own", "--limit", "244", &name]).gives(wanted.status.unwrap(), wanted.out());
    }
}

/// What is said of a map is said exactly where the proved function refuses it: maps of random bytes and damaged ones.
#[test]
fn maps_of_any_bytes() {
    let mut numbers = Numbers(28);
    let (mut good, mut bad) = (0, 0);
    for _ in 0..30_000 {
        let mut map = built_in_map().to_vec();
        for _ in 0..numbers.below(4) {
            let place = if numbers.below(6) == 0 { numbers.below(4) } else { numbers.below(260) };
            let top = if numbers.below(3) == 0 { 256 } else { 34 };
            map[place as usize] = numbers.below(top) as u8;
        }
        match numbers.below(10) {
            0 => map.truncate(numbers.below(261) as usize),
            1 => map.extend(numbers.bytes(9)),
            _ => {}
        }
        let number = analyze_with(&[], 0, 0, &map, Options::built_in(), &mut []).0.number;
        assert_eq!(command::rules::wrong(&map).is_some(), number == 28, "{map:02x?}");
        if number == 28 { bad += 1 } else { good += 1 }
    }
    assert!(good > 3_000 && bad > 3_000, "{good} {bad}");
}

/// The names of the classes that are said are those that the help lists.
#[test]
fn the_help_has_every_class() {
    let folder = folder();
    let help = folder.run(&["help", "map"]).out().to_owned();
    for class in 0..=31u8 {
        if class == 0 {
            continue;
        }
        // the row of 50 is said by the name of its class
        folder.file("bad", &with_rows(&[(0x50, class)]));
        let said = folder.run(&["mark", "--map", "bad", "good"]).err;
        let name = said.split(" is ").nth(1).and_then(|rest| rest.split(" (").next()).unwrap().to_owned();
        match class {
            17..=25 => {
                let numbers: Vec<&str> = name.split(|c: char| !c.is_ascii_digit()).filter(|word| !word.is_empty()).collect();
                // a copy is said by its count and its depth, a rotation by its count and its shift
                let pair = if class < 22 { (numbers[1], numbers[0]) } else { (numbers[0], numbers[1]) };
                assert!(help.contains(&format!("({},{})", pair.0, pair.1)), "{class} {name}");
            }
            _ => assert!(help.contains(&format!("{class} {name}")), "{class} {name}"),
        }
    }
    assert!(help.contains("0 unmodelled"));
}

/// A push of so many bytes.
fn pushed(size: u16) -> Vec<u8> {
    [&[0x4d][..], &size.to_le_bytes(), &vec![0xab; size.into()]].concat()
}

/// 520 bytes pass and 521 do not, in live code alone, and only where `--examined` is given.
#[test]
fn papers_in_examined_mode() {
    let folder = folder();
    folder.file("fits", &paper(0, 0, &pushed(520)));
    folder.file("long", &paper(0, 0, &pushed(521)));
    folder.file("later", &paper(0, 1, &[&[0x75], &pushed(520)[..], &[0x75], &pushed(600)].concat()));
    folder.file("dead", &paper(0, 0, &[&[0x51, 0x6a], &pushed(521)[..]].concat()));
    let one = "entry 0 peak 1 end 1 0\naccepted\n";
    for (name, plain, examined) in [
        ("fits", one, one),
        ("long", one, "refused 30 at 0 0 521 520\n"),
        ("later", one, "refused 30 at 0 525 600 520\n"),
        ("dead", "entry 0 peak 1 end none\naccepted\n", "entry 0 peak 1 end none\naccepted\n"),
        ("good", SAMPLE_LINES, SAMPLE_LINES),
    ] {
        let status = i32::from(examined.starts_with("refused"));
        folder.run(&["mark", name]).gives(0, plain);
        folder.run(&["mark", "--limit", "244", "--map", "own", name]).gives(0, plain);
        folder.run(&["mark", "--examined", name]).gives(status, examined);
        folder.run(&["mark", name, "--map", "own", "--examined", "--limit", "244"]).gives(status, examined);
    }
    folder.shell("listochur mark --examined - <long").gives(1, "refused 30 at 0 0 521 520\n");
    // 20 and 6 of an earlier instruction come first, 30 ahead of 6 at the push itself
    folder.run(&["mark", "--examined", "--limit", "2", "long"]).gives(1, "refused 20 at 0 0 3 2\n");
    folder.file("full", &paper(0, 0, &[&[0x51, 0x6f, 0x51], &pushed(521)[..]].concat()));
    folder.run(&["mark", "--examined", "full"]).gives(1, "refused 7 at 0 1 3 1\n");
    folder.file("full", &paper(0, 0, &[&[0x51; 3], &pushed(521)[..]].concat()));
    folder.run(&["mark", "--limit", "3", "full"]).gives(1, "refused 6 at 0 3 4 3\n");
    folder.run(&["mark", "--limit", "3", "--examined", "full"]).gives(1, "refused 30 at 0 3 521 520\n");
    folder.file("full", &paper(0, 0, &[&[0x51; 4], &pushed(521)[..]].concat()));
    folder.run(&["mark", "--limit", "3", "--examined", "full"]).gives(1, "refused 6 at 0 3 4 3\n");
    // a bad map and a bad limit are said all the same
    folder.run(&["mark", "--examined", "--limit", "0", "long"]).fails("", &["--limit 0: bad limit (29)"]);
    folder.run(&["mark", "--examined", "--map", "long", "long"]).fails("", &["long: bad map (28)"]);
    folder.run(&["mark", "--examined"]).fails("", &["no paper is named", "usage: listochur mark"]);
    folder.run(&["compare", "--examined", "good"]).fails("", &["there is no option '--examined'", "usage: listochur compare"]);
}

#[test]
fn registers_logs_and_fragments_in_examined_mode() {
    let folder = folder();
    folder.file("long", &paper(0, 0, &pushed(521)));
    let ran = folder.run(&["mark", "--csv", "--examined", "good", "long"]);
    assert_eq!(
        (ran.status, ran.out(), ran.err.as_str()),
        (
            Some(1),
            "name,number,word,entry,offset,first,second,rows,peak,fragments\n\
             good,0,accepted,0,0,0,0,6,2,entry 0 peak 2 end 1 0\nlong,30,long element,0,0,521,520,1,0,\n",
            "listochur: papers 2, accepted 1, refused 1 (1 with 30), rows 7, greatest peak 2\n"
        )
    );
    folder
        .run_on(&["sums", "-"], &ran.out)
        .gives(0, "1 with 0, accepted\n1 with 30, long element\npeaks of the accepted: sum 2, count 1\n");
    let ran = folder.run(&["log", "--examined", "long"]);
    assert_eq!((ran.status, ran.err.as_str()), (Some(1), ""));
    assert!(ran.out().contains("^ refused 30, long element: length 521, limit 520\n"), "{ran:?}");
    assert!(ran.out().ends_with("\nrefused 30 at 0 0 521 520\n"), "{ran:?}");
    assert_eq!(folder.run(&["log", "long"]).status, Some(0));
    let plain = folder.run(&["log", "good"]);
    folder.run(&["log", "--examined", "good"]).gives(0, plain.out());
    folder.run_on(&["fragment", "--examined", "1", "0", "@-", "--limit", "1"], &pushed(521)).gives(
        1,
        "refused 30 at offset 0, long element: length 521, limit 520\n\
         offset  main   alt  bytes                       instruction\n\
         \x20    0     1     0  4d 09 02 ab ab ab ab ab ..  <abababababab..>\n",
    );
    let ran = folder.run_on(&["fragment", "1", "0", "@-", "--limit", "1"], &pushed(521));
    assert!(ran.out().starts_with("refused 6 at offset 0, stacks full: total wanted 2, limit 1\n"), "{ran:?}");
    let plain = folder.run_on(&["fragment", "0", "0", "@-"], &pushed(520));
    assert_eq!(plain.status, Some(0));
    folder.run_on(&["fragment", "--examined", "0", "0", "@-"], &pushed(520)).gives(0, plain.out());
}

/// The help says it where the option is taken.
#[test]
fn the_help_has_the_examined_mode() {
    let folder = Folder::new();
    for usage in command::usage::ALL {
        let taken = ["mark", "log", "fragment"].contains(&usage.name);
        assert_eq!(usage.line.contains("[--examined]"), taken, "{}", usage.name);
        let help = folder.run(&["help", usage.name]);
        assert_eq!(help.out().contains("--examined  refuses a literal above 520 bytes, 30"), taken, "{}", usage.name);
    }
    assert!(folder.run(&["help"]).out().contains("--examined has them refused for a literal above 520 bytes"));
}

/// What the README shows of it.
#[test]
fn the_readme_shows_it() {
    let readme = fs::read_to_string(format!("{}/README.md", common::ROOT)).unwrap();
    for line in [
        "./listochur map >next.map",
        "./mark --map next.map room1",
        "./mark --limit 100 room1",
        "./mark --examined room1",
        "./mark --year classic room2",
        "refused 30 at 0 0 521 520",
        "33 is the greatest number in use.",
    ] {
        assert!(readme.contains(line), "{line}");
    }
    for said in [
        "listochur: next.map: bad map (28): row 61, at offset 101, is push (1), which no code above 60 may be",
        "listochur: --limit 245: bad limit (29): a limit is 1 to 244",
    ] {
        assert!(readme.contains(said), "{said}");
    }
}
