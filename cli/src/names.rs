//! A paper's name as it stands in a line.
use std::fmt::Write;

/// The name with whatever would break its line, or be taken for something else, written out: a backslash as `\\`, a newline as
/// `\n`, other control characters and bytes that are no UTF-8 as `\xNN`, characters that break lines or turn their direction
/// as `\u{N}`. Two names are never shown alike.
pub fn shown(name: &[u8]) -> String {
    let mut text = String::new();
    for chunk in name.utf8_chunks() {
        for char in chunk.valid().chars() {
            match char {
                '\\' => text.push_str("\\\\"),
                '\n' => text.push_str("\\n"),
                '\r' => text.push_str("\\r"),
                '\t' => text.push_str("\\t"),
                '\0'..='\x1f' | '\x7f' => push(&mut text, format_args!("\\x{:02x}", char as u32)),
                '\u{80}'..='\u{9f}'
                | '\u{200e}'
                | '\u{200f}'
                | '\u{2028}'..='\u{202e}'
                | '\u{2066}'..='\u{2069}'
                | '\u{feff}' => push(&mut text, format_args!("\\u{{{:x}}}", char as u32)),
                _ => text.push(char),
            }
        }
        for byte in chunk.invalid() {
            push(&mut text, format_args!("\\x{byte:02x}"));
        }
    }
    text
}

fn push(text: &mut String, part: std::fmt::Arguments) {
    // writing to a string does not fail
    let _ = text.write_fmt(part);
}

#[cfg(test)]
mod tests {
    use super::shown;

    #[test]
    fn plain_names_stay() {
        for name in ["a", "a b", "a: b", "Prüfung 1.paper", "x\"y'z", "日本"] {
            assert_eq!(shown(name.as_bytes()), name);
        }
    }

    #[test]
    fn what_breaks_a_line_is_written_out() {
        assert_eq!(shown(b"a\nb"), "a\\nb");
        assert_eq!(shown(b"a\\nb"), "a\\\\nb");
        assert_eq!(shown(b"\r\t\x1b\x7f"), "\\r\\t\\x1b\\x7f");
        assert_eq!(shown("\u{85}\u{2028}\u{202e}".as_bytes()), "\\u{85}\\u{2028}\\u{202e}");
        assert_eq!(shown(b"a\xffb\xc3"), "a\\xffb\\xc3");
        assert_eq!(shown("\\xff".as_bytes()), "\\\\xff");
    }

    #[test]
    fn no_name_of_two_bytes_is_shown_as_another_and_each_is_one_line() {
        let mut all = std::collections::HashSet::new();
        for a in 0..=255 {
            for b in 0..=255 {
                let text = shown(&[a, b]);
                assert!(!text.chars().any(char::is_control), "{a:02x} {b:02x}");
                assert!(all.insert(text), "{a:02x} {b:02x}");
            }
        }
    }
}
