//! Lines of an input, one by one, of which none need be text or short.

use std::io::{self, BufRead, Read};

/// The most bytes of a line, without its end.
pub const MOST: usize = 65536;

/// A line: its text without its end, or what is wrong with it as a whole.
#[derive(Debug, PartialEq, Eq)]
pub enum Line {
    Text(String),
    NoText,
    TooLong,
}

/// The next line, and whether it ends with a line feed and not with the input; none at the end of the input.
/// No more of a line that is too long is held than a line may have.
pub fn next(input: &mut impl BufRead) -> io::Result<Option<(Line, bool)>> {
    let mut bytes = Vec::new();
    if input.by_ref().take(MOST as u64 + 1).read_until(b'\n', &mut bytes)? == 0 {
        return Ok(None);
    }
    let is_ended = bytes.last() == Some(&b'\n');
    if is_ended {
        bytes.pop();
    }
    match bytes.len() <= MOST {
        true => Ok(Some((String::from_utf8(bytes).map_or(Line::NoText, Line::Text), is_ended))),
        false => {
            input.skip_until(b'\n')?;
            Ok(Some((Line::TooLong, true)))
        }
    }
}

#[cfg(test)]
mod tests {
    use super::*;
    use std::io::BufReader;

    /// All lines of these bytes, of which a few are read at a time.
    fn lines(bytes: &[u8]) -> Vec<Line> {
        let mut input = BufReader::with_capacity(7, bytes);
        let line = || next(&mut input).unwrap().map(|(line, _)| line);
        std::iter::from_fn(line).collect()
    }

    fn text(text: &str) -> Line {
        Line::Text(text.to_string())
    }

    #[test]
    fn lines_end_with_a_line_feed_or_with_the_input() {
        assert_eq!(lines(b""), []);
        assert_eq!(lines(b"\n"), [text("")]);
        assert_eq!(lines(b"want drum\n\nshow"), [text("want drum"), text(""), text("show")]);
        assert_eq!(lines(b"a\r\n\0b\n"), [text("a\r"), text("\0b")]);
        assert_eq!(next(&mut &b"show\n"[..]).unwrap(), Some((text("show"), true)));
        assert_eq!(next(&mut &b"show"[..]).unwrap(), Some((text("show"), false)));
    }

    #[test]
    fn a_line_that_is_no_text_does_not_hold_up_the_next() {
        assert_eq!(lines(b"\xff\xfe\nshow\n\xc3"), [Line::NoText, text("show"), Line::NoText]);
    }

    #[test]
    fn a_line_that_is_too_long_does_not_hold_up_the_next() {
        let long = |length: usize| vec![b'x'; length];
        let whole = |length| text(&"x".repeat(length));
        assert_eq!(lines(&long(MOST)), [whole(MOST)]);
        assert_eq!(lines(&[&long(MOST)[..], b"\nshow\n"].concat()), [whole(MOST), text("show")]);
        assert_eq!(lines(&long(MOST + 1)), [Line::TooLong]);
        for length in [MOST + 1, MOST + 2, 3 * MOST + 5] {
            let given = lines(&[&long(length)[..], b"\nshow\n"].concat());
            assert_eq!(given, [Line::TooLong, text("show")], "{length}");
        }
    }
}
