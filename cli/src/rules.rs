//! `--map`, `--year`, `--limit` and `--examined`: the map (requests L6 and L8), the limit (request L6) and the mode (request L7)
//! that papers are marked by; and `map`, which writes the map of a year.
//!
//! The map is read once. The proved function judges map and limit, on an empty fragment, before anything is marked; what is wrong is
//! looked for here only after it has said 28 or 29, and only to be said in words.
use listochur::Options;

use crate::marking::reason;
use crate::names::shown;
use crate::papers::{self, Source};
use crate::streams::Output;
use crate::{Status, Stop};

/// A rule year.
#[derive(Clone, Copy, Debug, PartialEq, Eq)]
pub enum Year {
    Current,
    Classic,
}

impl Year {
    /// The year of this name.
    pub fn named(name: &[u8]) -> Option<Self> {
        match name {
            b"current" => Some(Self::Current),
            b"classic" => Some(Self::Classic),
            _ => None,
        }
    }

    /// Its map, which the proved function writes.
    pub fn map(self) -> [u8; listochur::MAP_BYTES] {
        match self {
            Self::Current => listochur::built_in_map(),
            Self::Classic => listochur::classic_map(),
        }
    }
}

/// The map that is named: that of a year, or one to be read.
#[derive(Clone, Debug, PartialEq, Eq)]
pub enum Map {
    Of(Year),
    Lent(Source),
}

/// What the words of a command name.
#[derive(Clone, Debug, Default, PartialEq, Eq)]
pub struct Named {
    pub map: Option<Map>,
    pub limit: Option<u32>,
    pub examined: bool,
}

/// A map and a limit that the proved function has judged to be good, and a mode.
#[derive(Debug)]
pub struct Rules {
    pub map: Vec<u8>,
    pub options: Options,
}

impl Named {
    /// Reads the map, and has it and the limit judged. `None` where nothing is named: then the functions without them are called.
    pub fn read(self) -> Result<Option<Rules>, Stop> {
        if self == Self::default() {
            return Ok(None);
        }
        let Self { map: named, limit, examined } = self;
        let map = match &named {
            Some(Map::Lent(source)) => papers::read(source).map_err(|error| Stop::Failed(source.unread(&error)))?,
            Some(Map::Of(year)) => year.map().into(),
            None => Year::Current.map().into(),
        };
        let plain = limit.map_or_else(Options::built_in, Options::limited);
        let options = if examined { plain.examined() } else { plain };
        let number = listochur::analyze_with(&[], 0, 0, &map, options, &mut []).0.number;
        let (what, why) = match number {
            0 => return Ok(Some(Rules { map, options })),
            29 => (format!("--limit {}", options.limit), Some("a limit is 1 to 244".into())),
            _ => (name(named.as_ref()), wrong(&map)),
        };
        let why = why.map_or_else(String::new, |why| format!(": {why}"));
        Err(Stop::Failed(format!("{what}: {} ({number}){why}", reason(number, 0, 0))))
    }
}

/// The map as a message names it.
fn name(map: Option<&Map>) -> String {
    match map {
        Some(Map::Lent(Source::Input)) => "standard input".into(),
        Some(Map::Lent(source)) => shown(source.name()),
        Some(Map::Of(Year::Classic)) => "the map of the classic year".into(),
        Some(Map::Of(Year::Current)) | None => "the built-in map".into(),
    }
}

/// The classes at their numbers, in words.
const CLASSES: [&str; 32] = [
    "unmodelled",
    "push",
    "nothing",
    "IF",
    "NOTIF",
    "ELSE",
    "ENDIF",
    "RETURN",
    "to alt",
    "from alt",
    "DEPTH",
    "SIZE",
    "NIP",
    "TUCK",
    "PICK",
    "ROLL",
    "ZK",
    "copy of 1 from depth 1",
    "copy of 2 from depth 2",
    "copy of 3 from depth 3",
    "copy of 1 from depth 2",
    "copy of 2 from depth 4",
    "rotation of 3 by 1",
    "rotation of 6 by 2",
    "rotation of 2 by 1",
    "rotation of 4 by 2",
    "pops 1, pushes 0",
    "pops 2, pushes 0",
    "pops 0, pushes 1",
    "pops 1, pushes 1",
    "pops 3, pushes 1",
    "pops 2, pushes 1",
];

/// The header of a map, and its rows.
const HEADER: usize = 4;
const ROWS: usize = 256;

/// The last code whose row is that of the built-in map.
const FIXED: usize = 0x60;

const PUSH: u8 = 1;

/// What is wrong with a map; `None` if nothing is found.
pub fn wrong(map: &[u8]) -> Option<String> {
    let size = map.len();
    let &[a, b, c, d, ..] = map else {
        let bytes = if size == 1 { "byte" } else { "bytes" };
        return Some(format!("it has {size} {bytes}, and its header alone has {HEADER}"));
    };
    let count = u16::from_le_bytes([a, b]);
    if usize::from(count) != ROWS {
        return Some(format!("the count of rows is {count} ({a:02x} {b:02x} at offset 0), and not {ROWS} (00 01)"));
    }
    let first = usize::from(u16::from_le_bytes([c, d]));
    if first < HEADER {
        return Some(format!(
            "the first row is at offset {first} ({c:02x} {d:02x} at offset 2), within the header of {HEADER} bytes"
        ));
    }
    let Some(rows) = map.get(first..first + ROWS) else {
        let end = first + ROWS;
        return Some(format!("from offset {first} its {ROWS} rows take {end} bytes, and it has {size}"));
    };
    let own = listochur::built_in_map();
    let own = own.get(HEADER..)?;
    let mut bad =
        rows.iter().zip(own).enumerate().filter_map(|(code, (class, own))| Some((code, wrong_row(code, *class, *own)?)));
    let (code, why) = bad.next()?;
    let more = match bad.count() {
        0 => String::new(),
        1 => ", and 1 more row is wrong".into(),
        more => format!(", and {more} more rows are wrong"),
    };
    Some(format!("row {code:02x}, at offset {}, is {why}{more}", first + code))
}

/// What is wrong with the row of a code, where the built-in map has `own`.
fn wrong_row(code: usize, class: u8, own: u8) -> Option<String> {
    let Some(name) = CLASSES.get(usize::from(class)) else {
        return Some(format!("{class}, which is no class: they are 0 to 31"));
    };
    if code <= FIXED && class != own {
        let kept = CLASSES.get(usize::from(own))?;
        return Some(format!("{name} ({class}), and the codes up to 60 keep their own, here {kept} ({own})"));
    }
    (code > FIXED && class == PUSH).then(|| format!("{name} ({class}), which no code above 60 may be"))
}

/// `map`: the map of a year, as it is lent.
pub fn map(out: &mut Output, year: Year) -> Result<Status, Stop> {
    out.write(&year.map())?;
    Ok(Status::Good)
}

#[cfg(test)]
mod tests {
    use super::wrong;
    use listochur::{Options, analyze_with, built_in_map};

    /// The built-in map with this byte at this place.
    fn with(place: usize, byte: u8) -> Vec<u8> {
        let mut map = built_in_map().to_vec();
        map[place] = byte;
        map
    }

    fn said(map: &[u8]) -> String {
        wrong(map).unwrap_or_else(|| panic!("nothing is wrong with {map:02x?}"))
    }

    #[test]
    fn words() {
        assert_eq!(said(&[]), "it has 0 bytes, and its header alone has 4");
        assert_eq!(said(&[0]), "it has 1 byte, and its header alone has 4");
        assert_eq!(said(&[0, 1, 4]), "it has 3 bytes, and its header alone has 4");
        assert_eq!(said(&with(1, 0)), "the count of rows is 0 (00 00 at offset 0), and not 256 (00 01)");
        assert_eq!(said(b"0001"), "the count of rows is 12336 (30 30 at offset 0), and not 256 (00 01)");
        assert_eq!(said(&with(2, 3)), "the first row is at offset 3 (03 00 at offset 2), within the header of 4 bytes");
        assert_eq!(said(&with(2, 5)), "from offset 5 its 256 rows take 261 bytes, and it has 260");
        assert_eq!(said(&built_in_map()[..259]), "from offset 4 its 256 rows take 260 bytes, and it has 259");
        assert_eq!(said(&with(4 + 0x61, 1)), "row 61, at offset 101, is push (1), which no code above 60 may be");
        assert_eq!(said(&with(4 + 0xff, 32)), "row ff, at offset 259, is 32, which is no class: they are 0 to 31");
        assert_eq!(
            said(&with(4 + 0x50, 3)),
            "row 50, at offset 84, is IF (3), and the codes up to 60 keep their own, here unmodelled (0)"
        );
        assert_eq!(
            said(&with(4 + 0x60, 31)),
            "row 60, at offset 100, is pops 2, pushes 1 (31), and the codes up to 60 keep their own, here push (1)"
        );
    }

    #[test]
    fn the_first_row_is_named_and_the_others_are_counted() {
        let mut map = with(4 + 0x61, 1);
        map[4 + 0xff] = 200;
        assert_eq!(said(&map), "row 61, at offset 101, is push (1), which no code above 60 may be, and 1 more row is wrong");
        map[4..].fill(1);
        // 50 is not push, and 159 codes are above 60
        assert_eq!(
            said(&map),
            "row 50, at offset 84, is push (1), and the codes up to 60 keep their own, here unmodelled (0), and 159 more rows are \
             wrong"
        );
        let moved = [&[0, 1, 9, 0, 1, 2, 3, 4, 5][..], &with(4 + 0x70, 1)[4..], &[0xff; 3]].concat();
        assert_eq!(said(&moved), "row 70, at offset 121, is push (1), which no code above 60 may be");
    }

    /// Something is found exactly where the proved function says 28: each byte at each place, each length.
    #[test]
    fn something_is_wrong_exactly_where_the_map_is_bad() {
        let bad = |map: &[u8]| analyze_with(&[], 0, 0, map, Options::built_in(), &mut []).0.number == 28;
        let mut good = 0;
        for place in 0..260 {
            for byte in 0..=255 {
                let map = with(place, byte);
                assert_eq!(wrong(&map).is_some(), bad(&map), "{place} {byte}");
                good += u32::from(!bad(&map));
            }
            assert_eq!(wrong(&built_in_map()[..place]).is_some(), bad(&built_in_map()[..place]), "{place}");
        }
        // 31 classes for each of 159 codes, and one byte for each of the others
        assert_eq!(good, 31 * 159 + 0x61 + 4);
        assert_eq!(wrong(&[&built_in_map()[..], &[0xff; 9]].concat()), None);
    }
}
