//! `mark --csv` and `mark --json`: registers that can be read back; `sums` of them.
mod common;

use std::ffi::OsStr;
use std::os::unix::ffi::OsStrExt;
use std::process::Command;

use common::{DRY, Folder, Numbers, SAMPLE, paper, ran};

/// Reads comma-separated values by RFC 4180: fields parted by commas, records by newlines; a field in quotes may hold both, and
/// a quote is doubled.
fn read(text: &[u8]) -> Vec<Vec<Vec<u8>>> {
    let mut records = Vec::new();
    let mut record = Vec::new();
    let mut field = Vec::new();
    let mut rest = text.iter().copied().peekable();
    while let Some(byte) = rest.next() {
        match byte {
            b'"' => {
                assert!(field.is_empty(), "a quote inside a field without quotes");
                loop {
                    match rest.next() {
                        Some(b'"') if rest.next_if_eq(&b'"').is_some() => field.push(b'"'),
                        Some(b'"') => break,
                        Some(byte) => field.push(byte),
                        None => panic!("a quote is open at the end"),
                    }
                }
                assert!(matches!(rest.peek(), Some(b',' | b'\n')), "something behind a closing quote");
            }
            b',' => record.push(std::mem::take(&mut field)),
            b'\n' => {
                record.push(std::mem::take(&mut field));
                records.push(std::mem::take(&mut record));
            }
            _ => field.push(byte),
        }
    }
    assert!(field.is_empty() && record.is_empty(), "the last record has no newline");
    records
}

const COLUMNS: [&str; 10] = ["name", "number", "word", "entry", "offset", "first", "second", "rows", "peak", "fragments"];

/// Names that a register could break at.
const NAMES: [&[u8]; 9] =
    [b"plain", b"a b", b" lead", b"comma,", b"quo\"te", b"new\nline\r", b"no\xffutf", b"back\\slash", b"pr\xc3\xbcfung"];

fn pile() -> Folder {
    let folder = Folder::new();
    folder.folder("pile");
    for (place, name) in NAMES.iter().enumerate() {
        let bytes: &[u8] = if place % 2 == 0 { &SAMPLE } else { &DRY };
        folder.file(OsStr::from_bytes(&[b"pile/", *name].concat()), bytes);
    }
    folder
}

/// The names in their order, with whether they are accepted.
fn sorted() -> Vec<(Vec<u8>, bool)> {
    let mut names: Vec<_> = NAMES.iter().enumerate().map(|(place, name)| ([b"pile/", *name].concat(), place % 2 == 0)).collect();
    names.sort();
    names
}

#[test]
fn comma_separated_values_are_read_back() {
    let ran = pile().run(&["mark", "--csv", "pile"]);
    assert_eq!(ran.status, Some(1));
    assert_eq!(ran.err, "listochur: papers 9, accepted 5, refused 4 (4 with 7), rows 54, greatest peak 2\n");
    let records = read(&ran.out);
    assert_eq!(records[0], COLUMNS.map(|name| name.as_bytes().to_vec()));
    assert_eq!(records.len(), 1 + NAMES.len());
    for (record, (name, accepted)) in records[1..].iter().zip(sorted()) {
        let rest = if accepted {
            ["0", "accepted", "0", "0", "0", "0", "6", "2", "entry 0 peak 2 end 1 0"]
        } else {
            ["7", "main dry", "0", "5", "3", "2", "6", "0", ""]
        };
        let mut expected = vec![name];
        expected.extend(rest.map(|field| field.as_bytes().to_vec()));
        assert_eq!(*record, expected);
    }
}

#[test]
fn python_reads_the_same() {
    let folder = pile();
    let ran_csv = folder.run(&["mark", "--csv", "pile"]);
    let ran_json = folder.run(&["mark", "--json", "pile"]);
    assert_eq!((ran_json.status, &ran_json.err), (Some(1), &ran_csv.err));
    folder.file("csv", &ran_csv.out);
    folder.file("json", &ran_json.out);
    // the two registers against each other, and both against the files of the folder
    let script = r#"
import csv, json, os
columns = "name number word entry offset first second rows peak fragments".split()
with open("csv", newline="", errors="surrogateescape") as f: table = list(csv.DictReader(f))
with open("json", encoding="utf-8") as f: objects = json.load(f)
assert [o["name"] for o in objects] == sorted("pile/" + n for n in os.listdir("pile")), objects
assert len(table) == len(objects) == 9
for row, o in zip(table, objects):
    assert list(row) == list(o) == columns
    assert row["name"] == o["name"]
    assert os.path.isfile(o["name"])
    for c in columns[1:2] + columns[3:9]: assert int(row[c]) == o[c], (row, o)
    assert row["word"] == o["word"]
    lines = ["%s peak %d end %s" % (f["fragment"], f["peak"], "%d %d" % (f["end"]["main"], f["end"]["alt"]) if f["end"] else "none")
             for f in o["fragments"]]
    assert row["fragments"] == "; ".join(lines), row
print("read")
"#;
    let mut python = Command::new("python3");
    ran(python.args(["-c", script]).env("PYTHONUTF8", "1").current_dir(&folder.0), b"").gives(0, "read\n");
}

#[test]
fn json_is_taken_by_json_tool() {
    let folder = pile();
    folder.file("empty", b"");
    for words in [
        &["mark", "--json", "pile"][..],
        &["mark", "--json", "pile/plain"],
        &["mark", "--json", "empty"],
        &["mark", "--json", "none"],
    ] {
        let json = folder.run(words).out;
        let mut python = Command::new("python3");
        let ran = ran(python.args(["-m", "json.tool"]), &json);
        assert_eq!((ran.status, ran.err.as_str()), (Some(0), ""), "{words:?}");
        assert!(ran.out().starts_with('['));
    }
    folder.run(&["mark", "--json", "none"]).fails("[\n]\n", &["cannot read none"]);
}

#[test]
fn a_record_of_each_kind() {
    let folder = Folder::new();
    folder.file("dead", &paper(0, 0, &[0x6a, 0xff]));
    folder.file("large", &paper(0, 1, &[8, 255, 255, 255, 255, 255, 255, 255, 0x7f, 0x79]));
    folder.file("init", &[2, 0, 0, 0, 20, 0, 2, 0, 0, 0, 22, 0, 1, 0, 2, 0, 23, 0, 1, 0, 0x75, 0x75, 0x51, 0x75]);
    let ran = folder.run(&["mark", "--csv", "dead", "init", "large"]);
    assert_eq!(
        ran.out(),
        "name,number,word,entry,offset,first,second,rows,peak,fragments\n\
         dead,0,accepted,0,0,0,0,2,0,entry 0 peak 0 end none\n\
         init,0,accepted,0,0,0,0,4,3,entry 0 peak 1 end 1 0; entry 1 peak 2 end 1 0; state peak 3 end 0 1\n\
         large,7,main dry,0,9,9223372036854775808,1,2,0,\n"
    );
    assert_eq!(ran.status, Some(1));
    let ran = folder.run(&["mark", "--json", "init"]);
    ran.gives(
        0,
        "[\n{\"name\":\"init\",\"number\":0,\"word\":\"accepted\",\"entry\":0,\"offset\":0,\"first\":0,\"second\":0,\"rows\":4,\
         \"peak\":3,\"fragments\":[{\"fragment\":\"entry 0\",\"peak\":1,\"end\":{\"main\":1,\"alt\":0}},\
         {\"fragment\":\"entry 1\",\"peak\":2,\"end\":{\"main\":1,\"alt\":0}},\
         {\"fragment\":\"state\",\"peak\":3,\"end\":{\"main\":0,\"alt\":1}}]}\n]\n",
    );
}

#[test]
fn what_cannot_be_read_has_no_record() {
    let folder = Folder::with_papers();
    let ran = folder.run(&["mark", "--csv", "none", "good"]);
    assert_eq!(read(&ran.out).len(), 2);
    ran.fails(
        "name,number,word,entry,offset,first,second,rows,peak,fragments\ngood,0,accepted,0,0,0,0,6,2,entry 0 peak 2 end 1 0\n",
        &["cannot read none", "papers 1, accepted 1, refused 0, rows 6, greatest peak 2, not read 1"],
    );
}

#[test]
fn no_name_is_a_formula() {
    let folder = Folder::new();
    for name in ["=1+1", "+1", "-1", "@x"] {
        folder.file(name, &SAMPLE);
    }
    let ran = folder.run(&["mark", "--csv", "--", "=1+1", "+1", "-1", "@x"]);
    let names: Vec<_> = read(&ran.out)[1..].iter().map(|record| String::from_utf8(record[0].clone()).unwrap()).collect();
    assert_eq!(names, ["./=1+1", "./+1", "./-1", "./@x"]);
}

#[test]
fn standard_input_is_named_by_its_word() {
    let ran = Folder::new().run_on(&["mark", "--csv", "-"], &SAMPLE);
    assert_eq!(read(&ran.out)[1][0], b"-");
    assert_eq!((ran.status, ran.err.as_str()), (Some(0), ""));
}

#[test]
fn the_reader_of_this_test_reads_what_it_should() {
    let fields = |text: &str| -> Vec<Vec<String>> {
        read(text.as_bytes()).iter().map(|r| r.iter().map(|f| String::from_utf8(f.clone()).unwrap()).collect()).collect()
    };
    assert_eq!(fields("a,b\n\"c\n\"\"d\"\"\",\n"), [["a", "b"], ["c\n\"d\"", ""]]);
}

#[test]
fn any_name_is_read_back() {
    use command::arguments::Form;
    use command::register::Records;
    let verdict = listochur::PaperVerdict { number: 7, entry: 0, offset: 5, first: 3, second: 2, rows: 6, peak: 0 };
    let mut numbers = Numbers(5);
    for _ in 0..20_000 {
        let size = 1 + numbers.below(12);
        // half of the bytes are those that matter
        let name: Vec<u8> = (0..size)
            .map(|_| if numbers.below(2) == 0 { b",\"\n\r\\ ;="[numbers.below(8) as usize] } else { numbers.next() as u8 })
            .collect();
        let mut csv = Records::new(Form::Csv);
        let record = csv.record(&name, &verdict, b"refused 7 at 0 5 3 2\n").unwrap();
        let records = read(&record);
        assert_eq!((records.len(), records[0].len()), (1, 10), "{name:?}");
        let own = records[0][0].strip_prefix(b"./").filter(|_| !name.starts_with(b"./")).unwrap_or(&records[0][0]);
        assert_eq!(own, name);
        // and `sums` reads it the same, whatever stands before it
        let text = [HEAD.as_bytes(), &record, &record].concat();
        assert_eq!(command::register::pairs(&text), Ok(vec![[7, 0]; 2]), "{name:?}");
    }
}

const HEAD: &str = "name,number,word,entry,offset,first,second,rows,peak,fragments\n";

#[test]
fn sums_of_a_register() {
    let folder = pile();
    folder.file("register", &folder.run(&["mark", "--csv", "pile"]).out);
    let expected = "5 with 0, accepted\n4 with 7, main dry\npeaks of the accepted: sum 10, count 5\n";
    folder.run(&["sums", "register"]).gives(0, expected);
    folder.run_on(&["sums", "-"], &folder.run(&["mark", "--csv", "pile"]).out).gives(0, expected);
    // several registers are one sitting
    folder.file("other", format!("{HEAD}a,19,header,0,0,0,0,0,0,\nb,0,accepted,0,0,0,0,1,4294967295,\n").as_bytes());
    folder
        .run(&["sums", "register", "other"])
        .gives(0, "6 with 0, accepted\n4 with 7, main dry\n1 with 19, header\npeaks of the accepted: sum 4294967305, count 6\n");
    // a register of no papers
    folder.run_on(&["sums", "-"], HEAD.as_bytes()).gives(0, "peaks of the accepted: sum 0, count 0\n");
}

#[test]
fn bad_sittings() {
    let folder = Folder::new();
    let refused = "refused 23, bad sitting\n";
    let record = |number: u32| format!("a,{number},,0,0,0,0,0,3,\n");
    let greatest = listochur::NUMBERS as u32 - 1;
    folder.run_on(&["sums", "-"], (HEAD.to_owned() + &record(0) + &record(greatest + 1)).as_bytes()).gives(1, refused);
    let ran = folder.run_on(&["sums", "-"], (HEAD.to_owned() + &record(greatest)).as_bytes());
    assert_eq!(ran.status, Some(0));
    // 8,192 numbers are 4,096 papers
    let most = HEAD.to_owned() + &record(0).repeat(4_096);
    folder
        .run_on(&["sums", "-"], most.as_bytes())
        .gives(0, "4096 with 0, accepted\npeaks of the accepted: sum 12288, count 4096\n");
    folder.run_on(&["sums", "-"], (most.clone() + &record(0)).as_bytes()).gives(1, refused);
    // each of two registers has room, and both together have not
    folder.file("most", most.as_bytes());
    folder.run_on(&["sums", "most", "-"], (HEAD.to_owned() + &record(7)).as_bytes()).gives(1, refused);
}

#[test]
fn what_is_no_register_is_said_with_its_place() {
    let folder = pile();
    let register = folder.run(&["mark", "--csv", "pile"]).out;
    folder.file("register", &register);
    let good = "a,0,accepted,0,0,0,0,6,2,entry 0 peak 2 end 1 0\n";
    for (text, words) in [
        (String::new(), ["- is no register", "line 1 does not name its columns"]),
        (good.into(), ["line 1", "columns"]),
        (HEAD.replace(',', ";"), ["line 1", "columns"]),
        (HEAD.replace('\n', "\r\n"), ["line 1", "columns"]),
        (format!("{HEAD}{good}\n"), ["record at line 3", "1 fields"]),
        (format!("{HEAD}{good}a,0\n{good}"), ["record at line 3", "2 fields"]),
        (format!("{HEAD}{}", good.replace("a,", "a,b,")), ["record at line 2", "11 fields"]),
        (
            format!("{HEAD}{}", good.replace(",0,accepted", ",,accepted")),
            ["line 2", "number is a number up to 4294967295, and '' is none"],
        ),
        (format!("{HEAD}{}", good.replace(",0,accepted", ",+1,accepted")), ["line 2", "'+1' is none"]),
        (format!("{HEAD}{}", good.replace(",6,2,", ",6,4294967296,")), ["line 2", "peak is a number up to"]),
        (format!("{HEAD}{}", good.trim_end()), ["record at line 2", "no newline"]),
        (format!("{HEAD}\"a{good}"), ["record at line 2", "a quote is open"]),
        (format!("{HEAD}\"a\"b{good}"), ["record at line 2", "behind a closing quote"]),
        (format!("{HEAD}a\"b{good}"), ["record at line 2", "a field without quotes"]),
        // a record that begins behind a name of two lines
        (format!("{HEAD}\"a\nb\",{}x\n", &good[2..]), ["record at line 4", "1 fields"]),
    ] {
        folder.run_on(&["sums", "-"], text.as_bytes()).fails("", &words);
        // nothing is summed of the others
        folder.run_on(&["sums", "register", "-"], text.as_bytes()).fails("", &words);
    }
    let json = folder.run(&["mark", "--json", "pile"]).out;
    folder.run_on(&["sums", "-"], &json).fails("", &["line 1"]);
    // a register that breaks off
    for size in 0..register.len() {
        if size < HEAD.len() || register[size - 1] != b'\n' {
            folder.run_on(&["sums", "-"], &register[..size]).fails("", &["- is no register"]);
        }
    }
    folder.run(&["sums", "none"]).fails("", &["cannot read none"]);
    folder.run(&["sums", "pile"]).fails("", &["cannot read pile"]);
    folder.run(&["sums", ""]).fails("", &["an empty name"]);
    folder.run(&["sums"]).fails("", &["no register is named", "usage: listochur sums REGISTER.."]);
}
