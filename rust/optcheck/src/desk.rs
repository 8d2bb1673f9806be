//! A desk as the library is lent it.

/// A desk's drafts are 1 to this.
pub const DRAFTS: usize = 16;

/// A desk in words, the header's `optcheck_desk`: the number of options, the current order, which drafts
/// are kept, and the order of each. Option k stands at bit k - 1 of a word; draft d at bit d - 1 of `kept`
/// and at place d - 1 of the two arrays. Any values may stand in it.
#[repr(C)]
#[derive(Clone, Copy, Debug, Default, PartialEq, Eq)]
pub struct DeskWords {
    pub options: u32,
    pub wanted: u64,
    pub unwanted: u64,
    pub kept: u64,
    pub draft_wanted: [u64; DRAFTS],
    pub draft_unwanted: [u64; DRAFTS],
}

#[cfg(test)]
mod tests {
    use super::*;
    use std::mem::{align_of, offset_of, size_of};

    const HEADER: &str = include_str!("../include/optcheck.h");

    /// A field of the header's struct: its name, the bytes of an element, and how many there are.
    fn field(line: &str) -> (&str, usize, usize) {
        let (kind, name) = line.trim().trim_end_matches(';').split_once(' ').unwrap();
        let bytes = match kind {
            "uint32_t" => 4,
            "uint64_t" => 8,
            _ => panic!("{kind} is not known"),
        };
        match name.trim_end_matches(']').split_once('[') {
            Some((name, count)) => (name, bytes, count.parse().unwrap()),
            None => (name, bytes, 1),
        }
    }

    /// The offset of each field and the size of the struct, by C's rule: a field stands at the next
    /// multiple of its element's bytes.
    fn of_header() -> (Vec<(&'static str, usize)>, usize) {
        let (before, _) = HEADER.split_once("} optcheck_desk;").unwrap();
        let (_, fields) = before.rsplit_once("typedef struct {\n").unwrap();
        let (mut offsets, mut end, mut widest) = (Vec::new(), 0_usize, 1);
        for (name, bytes, count) in fields.lines().map(field) {
            let offset = end.next_multiple_of(bytes);
            offsets.push((name, offset));
            end = offset + bytes * count;
            widest = widest.max(bytes);
        }
        (offsets, end.next_multiple_of(widest))
    }

    #[test]
    fn the_layout_is_the_headers() {
        let offsets = vec![
            ("options", offset_of!(DeskWords, options)),
            ("wanted", offset_of!(DeskWords, wanted)),
            ("unwanted", offset_of!(DeskWords, unwanted)),
            ("kept", offset_of!(DeskWords, kept)),
            ("draft_wanted", offset_of!(DeskWords, draft_wanted)),
            ("draft_unwanted", offset_of!(DeskWords, draft_unwanted)),
        ];
        assert_eq!(of_header(), (offsets, size_of::<DeskWords>()));
    }

    #[test]
    fn the_layout_is_288_bytes() {
        let offsets: Vec<usize> = of_header().0.into_iter().map(|(_, offset)| offset).collect();
        assert_eq!(offsets, [0, 8, 16, 24, 32, 160]);
        assert_eq!((size_of::<DeskWords>(), align_of::<DeskWords>()), (288, 8));
        assert!(HEADER.contains(&format!("#define OPTCHECK_DRAFTS {DRAFTS}u ")));
    }
}
