//! Tags: a text as a row of `#NAME:value;`, in one pass.

use std::ops::Range;

/// The tags that are looked for by their names. Those up to the offset give an .ssc chart timing of its own.
#[derive(Clone, Copy, Debug, PartialEq, Eq)]
pub(crate) enum Known {
    Bpms,
    Stops,
    Delays,
    Warps,
    Speeds,
    Scrolls,
    Fakes,
    TimeSignatures,
    Labels,
    TickCounts,
    Combos,
    Offset,
    Version,
    NoteData,
    Notes,
    Freezes,
}

/// How many of them are about timing.
pub(crate) const TIMING: usize = 12;

/// Their names.
const NAMES: [(&str, Known); 17] = [
    ("BPMS", Known::Bpms),
    ("STOPS", Known::Stops),
    ("DELAYS", Known::Delays),
    ("WARPS", Known::Warps),
    ("SPEEDS", Known::Speeds),
    ("SCROLLS", Known::Scrolls),
    ("FAKES", Known::Fakes),
    ("TIMESIGNATURES", Known::TimeSignatures),
    ("LABELS", Known::Labels),
    ("TICKCOUNTS", Known::TickCounts),
    ("COMBOS", Known::Combos),
    ("OFFSET", Known::Offset),
    ("VERSION", Known::Version),
    ("NOTEDATA", Known::NoteData),
    ("NOTES", Known::Notes),
    ("NOTES2", Known::Notes),
    ("FREEZES", Known::Freezes),
];

impl Known {
    fn of(name: &[u8]) -> Option<Known> {
        NAMES.into_iter().find(|known| known.0.as_bytes().eq_ignore_ascii_case(name)).map(|known| known.1)
    }

    /// Its place among the timing tags.
    pub(crate) fn timing(self) -> Option<usize> {
        let place = self as usize;
        (place < TIMING).then_some(place)
    }
}

/// One tag, by where its name and its value stand.
#[derive(Clone, Debug)]
pub(crate) struct Tag {
    pub known: Option<Known>,
    pub name: Range<usize>,
    pub value: Range<usize>,
}

impl Tag {
    /// The place of its `#`.
    pub(crate) fn at(&self) -> usize {
        self.name.start - 1
    }

    pub(crate) fn has_name(&self, text: &[u8], name: &str) -> bool {
        text[self.name.clone()].trim_ascii().eq_ignore_ascii_case(name.as_bytes())
    }

    pub(crate) fn is(&self, known: Known) -> bool {
        self.known == Some(known)
    }

    pub(crate) fn timing(&self) -> Option<usize> {
        self.known.and_then(Known::timing)
    }
}

/// Comments become spaces, so that all places stay as they are.
pub(crate) fn blank_comments(text: &mut [u8]) {
    let mut at = 0;
    while at < text.len() {
        match text[at] {
            b'\\' => at += 2,
            b'/' if text.get(at + 1) == Some(&b'/') => {
                while at < text.len() && text[at] != b'\n' {
                    text[at] = b' ';
                    at += 1;
                }
            }
            _ => at += 1,
        }
    }
}

/// Where a value that begins at `from` ends, and where the text goes on behind it.
fn value_end(text: &[u8], from: usize) -> (usize, usize) {
    let mut at = from;
    let mut line_begins = false;
    while at < text.len() {
        match text[at] {
            b'\\' => {
                line_begins = text.get(at + 1).is_some_and(|byte| matches!(byte, b'\r' | b'\n'));
                at += 1;
            }
            b';' => return (at, at + 1),
            b'#' if line_begins => return (at, at),
            b'\r' | b'\n' => line_begins = true,
            b' ' | b'\t' => {}
            _ => line_begins = false,
        }
        at += 1;
    }
    (text.len(), text.len())
}

/// The tags in their order, and the places of each `#` that begins none.
pub(crate) fn scan(text: &[u8]) -> (Vec<Tag>, Vec<usize>) {
    let (mut tags, mut loose) = (Vec::new(), Vec::new());
    let mut at = 0;
    while let Some(found) = text[at..].iter().position(|byte| *byte == b'#').map(|skipped| at + skipped) {
        let start = found + 1;
        let ends_name = |byte: &u8| matches!(byte, b':' | b';' | b'\r' | b'\n' | b'#');
        let end = text[start..].iter().position(ends_name).map_or(text.len(), |length| start + length);
        let known = || Known::of(text[start..end].trim_ascii());
        at = match text.get(end) {
            Some(b':') => {
                let (value, next) = value_end(text, end + 1);
                tags.push(Tag { known: known(), name: start..end, value: end + 1..value });
                next
            }
            Some(b';') => {
                tags.push(Tag { known: known(), name: start..end, value: end..end });
                end + 1
            }
            _ => {
                loose.push(found);
                end
            }
        };
    }
    (tags, loose)
}

/// The fields of a value between colons, those with a backslash before them left out.
pub(crate) fn fields(text: &[u8], value: Range<usize>) -> Vec<Range<usize>> {
    let mut found = Vec::new();
    let (mut start, mut at) = (value.start, value.start);
    while at < value.end {
        match text[at] {
            b'\\' => at += 1,
            b':' => {
                found.push(start..at);
                start = at + 1;
            }
            _ => {}
        }
        at += 1;
    }
    found.push(start..value.end);
    found
}

/// A value as words for a reader: trimmed, without the backslashes that hold characters.
pub(crate) fn words(text: &[u8]) -> String {
    let mut bytes = Vec::with_capacity(text.len());
    let mut held = false;
    for byte in text {
        held = *byte == b'\\' && !held;
        if !held {
            bytes.push(*byte);
        }
    }
    String::from_utf8_lossy(&bytes).trim().to_string()
}

#[cfg(test)]
mod tests {
    use super::*;

    fn read(text: &str) -> (Vec<(String, String)>, Vec<usize>) {
        let mut bytes = text.as_bytes().to_vec();
        blank_comments(&mut bytes);
        let (tags, loose) = scan(&bytes);
        let said = |range: &Range<usize>| words(&bytes[range.clone()]);
        (tags.iter().map(|tag| (said(&tag.name), said(&tag.value))).collect(), loose)
    }

    #[test]
    fn tags_of_all_kinds() {
        for (text, wanted) in [
            ("#TITLE:a\\;b\\#c;#X:1;", &[("TITLE", "a;b#c"), ("X", "1")][..]),
            ("#KEYSOUNDS;#VERSION:;", &[("KEYSOUNDS", ""), ("VERSION", "")]),
            ("#A:1\n  #B:2", &[("A", "1"), ("B", "2")]),
            ("#A:1\\\n#B:2", &[("A", "1\n"), ("B", "2")]),
            ("#A:1\n \\#B:2;", &[("A", "1\n #B:2")]),
            ("#A:x #1;", &[("A", "x #1")]),
            ("#A:x // ; #B:no\n;#C:\\//;", &[("A", "x"), ("C", "//")]),
            ("##A:1;", &[("A", "1")]),
            ("# loose\n#A:1;", &[("A", "1")]),
            ("#A:\\\\;#B:1;", &[("A", "\\"), ("B", "1")]),
            ("#A:x\\", &[("A", "x")]),
            ("no tag", &[]),
            ("", &[]),
        ] {
            let wanted: Vec<(String, String)> = wanted.iter().map(|tag| (tag.0.into(), tag.1.trim().into())).collect();
            assert_eq!(read(text).0, wanted, "{text:?}");
        }
        assert_eq!(read("# loose\n##A:1;#").1, [0, 8, 14]);
    }

    #[test]
    fn fields_of_notes() {
        let text = b"a : b\\:c:;";
        let found: Vec<String> = fields(text, 0..9).into_iter().map(|field| words(&text[field])).collect();
        assert_eq!(found, ["a", "b:c", ""]);
    }
}
