//! Listings (request L4): `asm` and `list` as they are run, every code both ways, the boundaries of the length forms, the words
//! outside the form, and the names of document 000.
mod common;

use std::collections::BTreeSet;
use std::env;
use std::fs;

use common::{Folder, Numbers, ROOT};
use listochur::{Converted, assemble, list};

/// The names from a code on.
const NAMES: [(u8, &str); 12] = [
    (0x4f, "Op1Negate"),
    (0x51, "Op1 Op2 Op3 Op4 Op5 Op6 Op7 Op8 Op9 Op10 Op11 Op12 Op13 Op14 Op15 Op16 OpNop"),
    (0x63, "OpIf OpNotIf"),
    (0x67, "OpElse OpEndIf OpVerify OpReturn OpToAltStack OpFromAltStack Op2Drop Op2Dup Op3Dup Op2Over Op2Rot Op2Swap"),
    (0x74, "OpDepth OpDrop OpDup OpNip OpOver OpPick OpRoll OpRot OpSwap OpTuck OpCat OpSubstr"),
    (0x82, "OpSize OpInvert OpAnd OpOr OpXor OpEqual OpEqualVerify"),
    (0x8b, "Op1Add Op1Sub"),
    (0x8f, "OpNegate OpAbs OpNot Op0NotEqual OpAdd OpSub OpMul OpDiv OpMod"),
    (
        0x9a,
        "OpBoolAnd OpBoolOr OpNumEqual OpNumEqualVerify OpNumNotEqual OpLessThan OpGreaterThan OpLessThanOrEqual \
         OpGreaterThanOrEqual OpMin OpMax OpWithin OpZkPrecompile OpBlake2bWithKey OpSHA256",
    ),
    (0xaa, "OpBlake2b OpCheckSigECDSA OpCheckSig OpCheckSigVerify"),
    (0xb0, "OpCheckLockTimeVerify OpCheckSequenceVerify"),
    (
        0xb2,
        "OpTxVersion OpTxInputCount OpTxOutputCount OpTxLockTime OpTxSubnetId OpTxGas OpTxInputIndex OpTxPayloadLen \
         OpBlake3 OpBin2Num OpOutpointTxId OpOutpointIndex OpTxInputSeq OpTxInputAmount OpTxInputSpk OpTxInputDaaScore \
         OpTxInputIsCoinbase OpTxOutputAmount OpTxOutputSpk OpTxInputSpkLen OpTxOutputSpkLen OpTxInputScriptSigLen \
         OpAuthOutputCount OpInputCovenantId OpCovInputCount OpCovOutputCount OpChainblockSeqCommit OpOutputCovenantId \
         OpOutputAuthorizingInput OpBlake3WithKey OpTxPayloadSubstr OpAuthOutputIdx OpNum2Bin OpCovInputIdx OpCovOutputIdx \
         OpTxInputScriptSigSubstr OpTxInputSpkSubstr OpTxOutputSpkSubstr OpCheckSigFromStack OpCheckSigFromStackECDSA",
    ),
];

/// The codes above 4e with their names, in the order of the codes.
fn named() -> Vec<(u8, &'static str)> {
    NAMES.iter().flat_map(|(first, names)| (*first..).zip(names.split(' '))).collect()
}

/// The word of a code above 4e.
fn word(code: u8) -> String {
    let name = named().into_iter().find(|(other, _)| *other == code);
    name.map_or_else(|| format!("0x{code:02x}"), |(_, name)| name.into())
}

/// The word of data.
fn data_word(data: &[u8]) -> String {
    let digits: String = data.iter().map(|byte| format!("{byte:02x}")).collect();
    if data.is_empty() { "Op0".into() } else { format!("<{digits}>") }
}

/// A push in each of the length forms that can say its length, the shortest first.
fn forms(data: &[u8]) -> Vec<Vec<u8>> {
    let size = data.len();
    let mut heads = Vec::new();
    if size <= 0x4b {
        heads.push(vec![size as u8]);
    }
    if let Ok(size) = u8::try_from(size) {
        heads.push(vec![0x4c, size]);
    }
    if let Ok(size) = u16::try_from(size) {
        heads.push([&[0x4d][..], &size.to_le_bytes()].concat());
    }
    heads.push([&[0x4e][..], &(size as u32).to_le_bytes()].concat());
    heads.into_iter().map(|head| [&head[..], data].concat()).collect()
}

fn listing(fragment: &[u8]) -> String {
    let (answer, text) = command::listings::listed(fragment);
    assert_eq!((answer.number, answer.offset, answer.size), (0, 0, text.len()), "{fragment:02x?}");
    String::from_utf8(text).unwrap()
}

fn assembled(listing: &str) -> Vec<u8> {
    let mut fragment = vec![0; listing.len()];
    let answer = assemble(listing.as_bytes(), &mut fragment);
    assert_eq!((answer.number, answer.offset), (0, 0), "{listing}");
    fragment.truncate(answer.size);
    fragment
}

/// These bytes list so, and what is listed assembles to the shortest form.
fn both_ways(fragment: &[u8], text: &str, shortest: &[u8]) {
    assert_eq!(listing(fragment), text);
    assert_eq!(assembled(text), shortest, "{text}");
    assert_eq!(listing(shortest), text);
}

#[test]
fn every_code_both_ways() {
    assert_eq!(named().len(), 123);
    let mut words = BTreeSet::new();
    for code in 0x00..=0x4eu8 {
        let head: &[u8] = match code {
            0x4c => &[3],
            0x4d => &[3, 0],
            0x4e => &[3, 0, 0, 0],
            _ => &[],
        };
        let data: Vec<u8> = (0..if head.is_empty() { code } else { 3 }).map(|k| 255 - k).collect();
        both_ways(&[&[code][..], head, &data].concat(), &data_word(&data), &forms(&data)[0]);
        words.insert(data_word(&data));
    }
    for code in 0x4f..=0xffu8 {
        both_ways(&[code], &word(code), &[code]);
        words.insert(word(code));
    }
    // no two codes have one word; the three long forms have that of 03
    assert_eq!(words.len(), 256 - 3);
    let unmodelled: Vec<u8> = (0x4f..=0xff).filter(|code| word(*code).starts_with("0x")).collect();
    let first = [0x50, 0x62, 0x65, 0x66, 0x73, 0x80, 0x81, 0x89, 0x8a, 0x8d, 0x8e, 0x98, 0x99, 0xa9, 0xae, 0xaf];
    assert_eq!(unmodelled, [&first[..], &(0xda..=0xff).collect::<Vec<u8>>()].concat());
    // all in one fragment
    let fragment: Vec<u8> = (0x4f..=0xff).collect();
    both_ways(&fragment, &(0x4f..=0xff).map(word).collect::<Vec<_>>().join(" "), &fragment);
}

#[test]
fn data_of_every_byte() {
    for byte in 0..=255u8 {
        both_ways(&[1, byte], &format!("<{byte:02x}>"), &[1, byte]);
    }
}

#[test]
fn boundaries_of_the_length_forms() {
    for (size, first) in [(0, 0x00), (1, 0x01), (75, 0x4b), (76, 0x4c), (255, 0x4c), (256, 0x4d), (65_535, 0x4d), (65_536, 0x4e)]
    {
        let data = Numbers(size).bytes(size);
        let forms = forms(&data);
        assert_eq!(forms[0][0], first, "{size}");
        for form in &forms {
            both_ways(form, &data_word(&data), &forms[0]);
            let between = [&[0x76], &form[..], &[0x76]].concat();
            let shortest = [&[0x76], &forms[0][..], &[0x76]].concat();
            both_ways(&between, &format!("OpDup {} OpDup", data_word(&data)), &shortest);
        }
    }
    // no bytes in each form
    for form in [&[0x00][..], &[0x4c, 0], &[0x4d, 0, 0], &[0x4e, 0, 0, 0, 0]] {
        both_ways(form, "Op0", &[0x00]);
    }
    both_ways(&[], "", &[]);
}

/// Words outside the form.
const STRANGE: [&str; 46] = [
    "",
    "<>",
    "<",
    ">",
    "<0>",
    "<5>",
    "<005>",
    "<05",
    "05>",
    "05",
    "<<05>",
    "<05>>",
    "<05>x",
    "<0A>",
    "<aB>",
    "<0g>",
    "<0x05>",
    "<-5>",
    "<05\t06>",
    "0x76",
    "0x00",
    "0x01",
    "0x4c",
    "0x4f",
    "0x51",
    "0xd9",
    "0xDA",
    "0XDA",
    "0xda0",
    "0xdada",
    "0xd",
    "0x",
    "0",
    "x",
    "opdup",
    "OPDUP",
    "OP_DUP",
    "Op",
    "Op17",
    "Op01",
    "OpDupx",
    "OpDu",
    "OpPushData1",
    "OpTrue",
    "OpFalse",
    "OpUnknown80",
];

#[test]
fn strange_words() {
    let with_newlines = ["OpDup\n", "\nOpDup", "OpDup\tOpDup", "OpDup\r", "\t", "\n", "OpDup\0", "<05>\n", "OpDup\u{a0}", "É"];
    for word in STRANGE.into_iter().chain(with_newlines) {
        let mut places = vec![(format!("OpDup {word}"), 6), (format!("OpDup <0506> {word} OpDup"), 13)];
        places.push((format!("{word} OpDup"), 0));
        places.push((format!("Op1 {word} OpDup {word} x"), 4));
        if !word.is_empty() {
            places.push((word.to_owned(), 0));
        }
        for (text, offset) in places {
            for room in [0, 1, 3, 99] {
                let mut lent = vec![b'#'; room];
                let answer = assemble(text.as_bytes(), &mut lent);
                assert_eq!(answer, Converted { number: 26, offset, size: 0 }, "{text:?}");
                assert!(lent.iter().all(|byte| *byte == b'#'), "{text:?}");
            }
        }
    }
    for (text, offset) in [(" OpDup", 0), ("OpDup  OpDup", 6), ("OpDup ", 6), (" ", 0), ("  ", 0), ("OpDup OpDup x", 12)] {
        assert_eq!(assemble(text.as_bytes(), &mut []), Converted { number: 26, offset, size: 0 }, "{text:?}");
    }
    // what is read: a small number as data, and not as its opcode
    for (text, bytes) in [("<05>", &[0x01, 0x05][..]), ("<81>", &[0x01, 0x81]), ("<00>", &[0x01, 0x00]), ("Op5", &[0x55])] {
        assert_eq!(assembled(text), bytes);
    }
}

/// A letter more, less or other in each name, and each pair of names without a space, is a name or strange, as it is written.
#[test]
fn neighbours_of_names() {
    let names: BTreeSet<&str> = named().into_iter().map(|(_, name)| name).chain(["Op0"]).collect();
    let taken = |word: &str| assemble(word.as_bytes(), &mut [0; 99]).number == 0;
    for name in &names {
        assert!(taken(name));
        for place in 0..=name.len() {
            for letter in b'!'..=b'~' {
                let (front, back) = name.split_at(place);
                let more = format!("{front}{}{back}", letter as char);
                assert_eq!(taken(&more), names.contains(more.as_str()), "{more}");
                if let Some(back) = back.get(1..) {
                    let other = format!("{front}{}{back}", letter as char);
                    assert_eq!(taken(&other), names.contains(other.as_str()), "{other}");
                }
            }
            if place < name.len() {
                let less = format!("{}{}", &name[..place], &name[place + 1..]);
                assert_eq!(taken(&less), names.contains(less.as_str()), "{less}");
            }
        }
        for other in &names {
            assert!(!taken(&format!("{name}{other}")));
        }
    }
}

#[test]
fn fragments_of_any_bytes() {
    let mut numbers = Numbers(4);
    let (mut good, mut malformed) = (0, 0);
    for _ in 0..50_000 {
        let size = numbers.below(40);
        let mut fragment = numbers.bytes(size);
        for byte in &mut fragment {
            if numbers.below(3) > 0 {
                *byte = [0x00, 0x01, 0x02, 0x4c, 0x4d, 0x4e, 0x76][numbers.below(7) as usize];
            }
        }
        let (answer, text) = command::listings::listed(&fragment);
        if answer.number == 3 {
            malformed += 1;
            // what stands before it is whole
            let (before, _) = command::listings::listed(&fragment[..answer.offset]);
            assert_eq!(before.number, 0);
            continue;
        }
        good += 1;
        let shortest = assembled(str::from_utf8(&text).unwrap());
        assert!(shortest.len() <= fragment.len());
        assert_eq!(listing(&shortest).into_bytes(), text);
        // one byte less is 27, and leaves what is lent
        if !text.is_empty() {
            let mut lent = vec![b'#'; text.len() - 1];
            assert_eq!(list(&fragment, &mut lent), Converted { number: 27, offset: 0, size: 0 });
            assert!(lent.iter().all(|byte| *byte == b'#'));
        }
    }
    assert!(good > 3_000 && malformed > 3_000, "{good} {malformed}");
}

/// The codes of these names, by the assembler.
fn codes(names: &[&str]) -> Vec<u8> {
    names.iter().flat_map(|name| assembled(name)).collect()
}

/// The names are those of document 000, `stack_analysis.rs`, and from b2 up the codes go in the order of its lists.
#[test]
fn the_names_are_those_of_document_000() {
    let folder = env::var("LISTOCHUR_SHARED").unwrap_or_else(|_| format!("{ROOT}/../shared"));
    let file = "silverscript-lang/src/compiler/compile/stack_analysis.rs";
    let flat = format!("{folder}/src--{}.txt", file.replace('/', "--"));
    let Ok(source) = fs::read_to_string(format!("{folder}/{file}")).or_else(|_| fs::read_to_string(flat)) else {
        eprintln!("skipped: document 000, stack_analysis.rs, is not in {folder}; LISTOCHUR_SHARED names its folder");
        return;
    };
    // its names: words that begin with Op and a capital or a digit, the three that say a length aside
    let words = source.split(|letter: char| !letter.is_ascii_alphanumeric() && letter != '_');
    let names: BTreeSet<&str> = words
        .filter(|word| {
            word.strip_prefix("Op").is_some_and(|rest| rest.starts_with(|c: char| c.is_ascii_uppercase() || c.is_ascii_digit()))
        })
        .filter(|word| !["OpPushData1", "OpPushData2", "OpPushData4"].contains(word))
        .collect();
    let ours: BTreeSet<&str> = named().into_iter().map(|(_, name)| name).chain(["Op0"]).collect();
    // Op2 to Op15 follow from its range
    assert!(source.contains("Op1..=Op16"));
    let between: BTreeSet<String> = (2..=15).map(|n| format!("Op{n}")).collect();
    let all: BTreeSet<&str> = names.iter().copied().chain(between.iter().map(String::as_str)).collect();
    assert_eq!(ours, all);
    assert_eq!(codes(&["Op1", "Op16"]), [0x51, 0x60]);
    for n in 1..=16u8 {
        assert_eq!(assembled(&format!("Op{n}")), [0x50 + n]);
    }
    // its lists of plain effects: each name's code has the effect, and the codes from b2 up are in the list's order
    let mut later = Vec::new();
    let mut counted = 0;
    for (pops, pushes) in [(1, 0), (2, 0), (0, 1), (1, 1), (2, 1), (3, 1)] {
        let end = format!(" => ({pops}, {pushes}),");
        let mut found = Vec::new();
        // an arm of the match: what stands before its effect, from the arm before or the brace on
        for (place, _) in source.match_indices(&end) {
            let before = &source[..place];
            let from = before.rfind([',', '{']).map_or(0, |at| at + 1);
            found.extend(before[from..].split('|').map(str::trim));
        }
        // copies (1, 1) of DUP and the like stand in matches of their own, and are no effects
        let found: Vec<&str> = found.into_iter().filter(|name| !["OpDup", "OpOver", "OpRot", "OpSwap"].contains(name)).collect();
        let own = codes(&found);
        assert_eq!(own.len(), found.len());
        for (name, code) in found.iter().zip(&own) {
            let verdict = listochur::analyze(&[*code], pops, 0, &mut [0; 3]);
            assert_eq!((verdict.number, verdict.end.map(|end| end.main)), (0, Some(pushes)), "{name}");
            if pops > 0 {
                assert_eq!(listochur::analyze(&[*code], pops - 1, 0, &mut [0; 3]).number, 7, "{name}");
            }
        }
        counted += found.len();
        let above: Vec<u8> = own.into_iter().filter(|code| *code >= 0xb2).collect();
        assert!(above.windows(2).all(|pair| pair[0] + 1 == pair[1]), "({pops}, {pushes}): {above:02x?}");
        later.extend(above);
    }
    assert_eq!(counted, 82);
    later.sort_unstable();
    assert_eq!(later, (0xb2..=0xd9).collect::<Vec<u8>>());
}

#[test]
fn assembling() {
    let folder = Folder::new();
    folder.run(&["asm", "--hex", "OpDup <05> OpAdd"]).gives(0, "76010593\n");
    folder.run(&["asm", "--hex", ""]).gives(0, "\n");
    assert_eq!(folder.run(&["asm", "OpDup <ff00>"]).out, [0x76, 0x02, 0xff, 0x00]);
    folder.file("listing", b"Op1 Op16");
    assert_eq!(folder.run(&["asm", "@listing"]).out, [0x51, 0x60]);
    folder.run_on(&["asm", "--hex", "-"], b"0xff").gives(0, "ff\n");
    folder.run_on(&["asm", "--hex", "-"], b"").gives(0, "\n");
    // a refusal is said on standard error, and nothing is written
    let ran = folder.run(&["asm", "OpDup opdup"]);
    assert_eq!(
        (ran.status, ran.out(), ran.err.as_str()),
        (Some(1), "", "listochur: refused 26 at offset 6, strange word: 'opdup'\n")
    );
    folder.file("listing", b"Op1 Op16\n");
    let ran = folder.run(&["asm", "@listing"]);
    assert_eq!((ran.status, ran.out()), (Some(1), ""));
    assert!(ran.err.contains("refused 26 at offset 4, strange word: 'Op16\\n', with a newline at offset 8"), "{ran:?}");
    folder.run(&["asm", "@none"]).fails("", &["cannot read none"]);
    folder.run(&["asm", "OpDup", "Op1"]).fails("", &["'Op1' is one word too many", "usage: listochur asm [--hex] LISTING"]);
    folder.run(&["asm"]).fails("", &["usage: listochur asm"]);
}

#[test]
fn listing_by_the_command() {
    let folder = Folder::new();
    folder.run(&["list", "76 4c0105 50"]).gives(0, "OpDup <05> 0x50");
    folder.run(&["list", "-"]).gives(0, "");
    folder.file("body", &[0xd9; 3]);
    folder.run(&["list", "@body"]).gives(0, &["OpCheckSigFromStackECDSA"; 3].join(" "));
    folder.run_on(&["list", "@-"], &[0x51]).gives(0, "Op1");
    let ran = folder.run(&["list", "760501"]);
    assert_eq!((ran.status, ran.out(), ran.err.as_str()), (Some(1), "", "listochur: refused 3 at offset 1, malformed\n"));
    folder.shell("listochur list 764c0105 | listochur asm --hex -").gives(0, "760105\n");
    folder.run(&["list", "5"]).fails("", &["one digit is left over", "usage: listochur list BYTES"]);
    folder.run(&["list", "@none"]).fails("", &["cannot read none"]);
    folder.run(&["list"]).fails("", &["usage: listochur list BYTES"]);
}
