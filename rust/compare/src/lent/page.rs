//! A page that is lent to the library: bytes full of rubbish, which are part of more bytes.

use optcheck::{PAGE_BYTES, PAGE_LINE};

/// Bytes after those that are lent.
const BEYOND: usize = 2 * PAGE_LINE;

/// Lengths that are too short for the longest page, and such that are not.
const SHORT: [usize; 3] = [0, PAGE_LINE, PAGE_BYTES - 1];
const LONG: [usize; 2] = [PAGE_BYTES, PAGE_BYTES + PAGE_LINE];

/// Lends bytes of each of these lengths to a call that writes a page at their start and gives its length,
/// and takes the page out. It is an error if a byte changed that is not the page's, if another length
/// gives another page, or if bytes that are too short have one.
pub fn lend(rubbish: u64, mut call: impl FnMut(&mut [u8]) -> usize) -> Result<String, String> {
    for length in SHORT {
        match lend_once(length, rubbish, &mut call)?.len() {
            0 => (),
            given => return Err(format!("{length} bytes, too short, have a page of {given}")),
        }
    }
    let [page, again] = LONG.map(|length| lend_once(length, rubbish, &mut call));
    let (page, again) = (page?, again?);
    match page == again {
        true => String::from_utf8(page).map_err(|error| format!("the page: {error}")),
        false => Err(format!("in {} bytes the page is another than in {}", LONG[1], LONG[0])),
    }
}

/// Lends so many bytes to the call, and takes out as many of them as it gives. It is an error if another
/// byte changed.
fn lend_once(
    length: usize,
    rubbish: u64,
    call: impl FnOnce(&mut [u8]) -> usize,
) -> Result<Vec<u8>, String> {
    let untouched: Vec<u8> = (0..length + BEYOND).map(|i| rubbish_at(rubbish, i)).collect();
    let mut bytes = untouched.clone();
    let given = call(&mut bytes[..length]);
    if given > length {
        return Err(format!("a page of {given} bytes in {length}"));
    }
    if bytes[given..] != untouched[given..] {
        let changed = (given..bytes.len()).find(|&i| bytes[i] != untouched[i]).unwrap_or(given);
        return Err(format!("byte {changed} was written, and the page has {given}"));
    }
    bytes.truncate(given);
    Ok(bytes)
}

/// The rubbish at a byte, which no page has: its highest bit is 1.
fn rubbish_at(rubbish: u64, index: usize) -> u8 {
    0x80 | (rubbish as u8 ^ index as u8)
}

#[cfg(test)]
mod tests {
    use super::super::tests::RUBBISH;
    use super::*;

    const LINE: &[u8] = b"can                0         0         0\n";

    /// Writes a line where the bytes are not too short, and then makes a change.
    fn changed(change: impl Fn(&mut [u8], &mut usize)) -> Result<String, String> {
        lend(RUBBISH, |bytes| {
            let mut given = 0;
            if bytes.len() >= PAGE_BYTES {
                bytes[..LINE.len()].copy_from_slice(LINE);
                given = LINE.len();
            }
            change(bytes, &mut given);
            given
        })
    }

    /// The same, with the change only where the bytes are not too short.
    fn changed_page(change: impl Fn(&mut [u8], &mut usize)) -> Result<String, String> {
        changed(|bytes, given| {
            if bytes.len() >= PAGE_BYTES {
                change(bytes, given);
            }
        })
    }

    #[test]
    fn the_bytes_that_are_given_are_the_page() {
        let line = String::from_utf8(LINE.to_vec()).unwrap();
        assert_eq!(changed(|_, _| ()), Ok(line));
        assert_eq!(rubbish_at(RUBBISH, 3) ^ rubbish_at(!RUBBISH, 3), 0x7f);
    }

    #[test]
    fn a_byte_after_the_page_is_named() {
        let told = changed_page(|bytes, _| bytes[41] = b' ').unwrap_err();
        assert_eq!(told, "byte 41 was written, and the page has 41");
        let told = changed_page(|bytes, _| bytes[PAGE_BYTES - 1] = 0).unwrap_err();
        assert_eq!(told, "byte 84008 was written, and the page has 41");
        let told = changed_page(|_, given| *given -= 1).unwrap_err();
        assert_eq!(told, "byte 40 was written, and the page has 40");
    }

    #[test]
    fn a_page_that_is_longer_than_the_bytes_is_told() {
        let told = changed_page(|bytes, given| *given = bytes.len() + 1).unwrap_err();
        assert_eq!(told, "a page of 84010 bytes in 84009");
    }

    #[test]
    fn bytes_that_are_too_short_have_no_page_and_stay() {
        let told = changed(|bytes, given| {
            if bytes.len() == PAGE_BYTES - 1 {
                bytes[..LINE.len()].copy_from_slice(LINE);
                *given = LINE.len();
            }
        });
        assert_eq!(told.unwrap_err(), "84008 bytes, too short, have a page of 41");
        let told = changed(|bytes, _| {
            if bytes.len() == PAGE_LINE {
                bytes[40] = b'\n';
            }
        });
        assert_eq!(told.unwrap_err(), "byte 40 was written, and the page has 0");
    }

    #[test]
    fn another_page_in_more_bytes_is_told() {
        let told = changed(|bytes, _| {
            if bytes.len() > PAGE_BYTES {
                bytes[19] = b'1';
            }
        });
        assert_eq!(told.unwrap_err(), "in 84050 bytes the page is another than in 84009");
    }

    #[test]
    fn a_byte_that_is_no_text_is_told() {
        let told = changed_page(|bytes, _| bytes[3] = 0xff).unwrap_err();
        assert!(told.starts_with("the page: "), "{told}");
    }
}
