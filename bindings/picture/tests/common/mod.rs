//! Running the command, and reading what it writes.

use std::collections::BTreeMap;
use std::fs;
use std::path::PathBuf;
use std::process::{Command, Output};

pub fn run(words: &[&str]) -> Output {
    let here = PathBuf::from(env!("CARGO_MANIFEST_DIR")).join("tests");
    Command::new(env!("CARGO_BIN_EXE_chart-picture")).args(words).current_dir(here).output().unwrap()
}

/// What the command says where it succeeds.
pub fn said(words: &[&str]) -> String {
    let done = run(words);
    assert!(done.status.success(), "{words:?}: {}", String::from_utf8_lossy(&done.stderr));
    String::from_utf8(done.stdout).unwrap()
}

/// What it complains of where it fails, having written nothing.
pub fn refused(words: &[&str]) -> String {
    let done = run(words);
    assert!(!done.status.success() && done.stdout.is_empty(), "{words:?}");
    String::from_utf8(done.stderr).unwrap()
}

pub fn scratch(name: &str) -> PathBuf {
    PathBuf::from(env!("CARGO_TARGET_TMPDIR")).join(name)
}

/// A file of the tests' own with this text.
pub fn written(name: &str, text: &str) -> String {
    let path = scratch(name);
    fs::write(&path, text).unwrap();
    path.to_str().unwrap().into()
}

/// JSON, read strictly.
#[derive(Debug, Clone, PartialEq)]
pub enum Json {
    Null,
    Truth(bool),
    Number(f64),
    Text(String),
    List(Vec<Json>),
    Fields(BTreeMap<String, Json>),
}

impl Json {
    pub fn read(text: &str) -> Json {
        let mut reader = Reader { bytes: text.as_bytes(), at: 0 };
        let json = reader.value();
        reader.space();
        assert_eq!(reader.at, text.len(), "more than one value");
        json
    }

    pub fn field(&self, name: &str) -> &Json {
        match self {
            Json::Fields(fields) => fields.get(name).unwrap_or_else(|| panic!("no field {name}")),
            _ => panic!("no fields: {self:?}"),
        }
    }

    pub fn list(&self) -> &[Json] {
        match self {
            Json::List(values) => values,
            _ => panic!("no list: {self:?}"),
        }
    }

    pub fn number(&self) -> f64 {
        match self {
            Json::Number(number) => *number,
            _ => panic!("no number: {self:?}"),
        }
    }

    pub fn text(&self) -> &str {
        match self {
            Json::Text(text) => text,
            _ => panic!("no text: {self:?}"),
        }
    }
}

struct Reader<'a> {
    bytes: &'a [u8],
    at: usize,
}

impl Reader<'_> {
    fn space(&mut self) {
        while self.bytes.get(self.at).is_some_and(|byte| b" \n\r\t".contains(byte)) {
            self.at += 1;
        }
    }

    fn next(&mut self) -> u8 {
        self.at += 1;
        self.bytes[self.at - 1]
    }

    fn word(&mut self, word: &str, json: Json) -> Json {
        assert!(self.bytes[self.at..].starts_with(word.as_bytes()));
        self.at += word.len();
        json
    }

    fn value(&mut self) -> Json {
        self.space();
        match self.bytes[self.at] {
            b'n' => self.word("null", Json::Null),
            b't' => self.word("true", Json::Truth(true)),
            b'f' => self.word("false", Json::Truth(false)),
            b'"' => Json::Text(self.string()),
            b'[' => {
                let mut values = Vec::new();
                self.group(b']', |reader| values.push(reader.value()));
                Json::List(values)
            }
            b'{' => {
                let mut fields = BTreeMap::new();
                self.group(b'}', |reader| {
                    reader.space();
                    let name = reader.string();
                    reader.space();
                    assert_eq!(reader.next(), b':');
                    let value = reader.value();
                    assert!(fields.insert(name, value).is_none(), "a field twice");
                });
                Json::Fields(fields)
            }
            _ => {
                let start = self.at;
                while self.bytes.get(self.at).is_some_and(|byte| b"+-.eE0123456789".contains(byte)) {
                    self.at += 1;
                }
                let digits = std::str::from_utf8(&self.bytes[start..self.at]).unwrap();
                let plain = digits.trim_start_matches('-');
                assert!(plain.starts_with(|digit: char| digit.is_ascii_digit()) && !plain.ends_with('.'), "{digits:?}");
                assert!(!plain.starts_with('0') || plain.len() == 1 || !plain.as_bytes()[1].is_ascii_digit());
                Json::Number(digits.parse().unwrap())
            }
        }
    }

    fn group(&mut self, close: u8, mut one: impl FnMut(&mut Self)) {
        self.at += 1;
        self.space();
        if self.bytes[self.at] == close {
            self.at += 1;
            return;
        }
        loop {
            one(self);
            self.space();
            match self.next() {
                b',' => {}
                byte => {
                    assert_eq!(byte, close);
                    return;
                }
            }
        }
    }

    fn string(&mut self) -> String {
        assert_eq!(self.next(), b'"');
        let mut bytes = Vec::new();
        loop {
            match self.next() {
                b'"' => return String::from_utf8(bytes).unwrap(),
                b'\\' => match self.next() {
                    b'n' => bytes.push(b'\n'),
                    b'r' => bytes.push(b'\r'),
                    b't' => bytes.push(b'\t'),
                    b'u' => {
                        let digits = std::str::from_utf8(&self.bytes[self.at..self.at + 4]).unwrap();
                        let character = char::from_u32(u32::from_str_radix(digits, 16).unwrap()).unwrap();
                        bytes.extend(character.to_string().bytes());
                        self.at += 4;
                    }
                    byte => {
                        assert!(b"\"\\/".contains(&byte));
                        bytes.push(byte);
                    }
                },
                byte => {
                    assert!(byte >= 0x20, "a control character in a string");
                    bytes.push(byte);
                }
            }
        }
    }
}

/// A text of a picture: where it stands, and its size.
#[derive(Debug)]
pub struct Shown {
    pub left: f64,
    pub right: f64,
    pub top: f64,
    pub bottom: f64,
    pub text: String,
}

fn attribute(tag: &str, name: &str) -> Option<String> {
    let start = tag.find(&format!(" {name}=\""))? + name.len() + 3;
    Some(tag[start..].split('"').next()?.to_string())
}

/// The texts of a picture, each a little narrower than the picture takes it to be.
pub fn texts(svg: &str) -> Vec<Shown> {
    svg.lines()
        .filter(|line| line.starts_with("<text "))
        .map(|line| {
            let number = |name: &str| attribute(line, name).unwrap().parse::<f64>().unwrap();
            let text = line.split('>').nth(1).unwrap().trim_end_matches("</text").to_string();
            let plain = text.replace("&lt;", "<").replace("&gt;", ">").replace("&quot;", "\"").replace("&amp;", "&");
            let (x, y, size) = (number("x"), number("y"), number("font-size"));
            let width = plain.chars().count() as f64 * size * 0.62;
            let left = match attribute(line, "text-anchor").as_deref() {
                Some("middle") => x - width / 2.0,
                Some("end") => x - width,
                _ => x,
            };
            Shown { left, right: left + width, top: y - 0.75 * size, bottom: y + 0.2 * size, text: plain }
        })
        .collect()
}

/// Every tag that is opened is closed, in order.
pub fn assert_well_formed(svg: &str) {
    let mut open: Vec<&str> = Vec::new();
    for part in svg.split('<').skip(1) {
        let (tag, text) = part.split_once('>').expect("a tag ends");
        assert!(!text.contains('>') && !text.split('&').skip(1).any(|entity| !entity.contains(';')), "{part:?}");
        if let Some(name) = tag.strip_prefix('/') {
            assert_eq!(open.pop(), Some(name));
        } else if !tag.ends_with('/') {
            open.push(tag.split(' ').next().unwrap());
        }
        assert_eq!(tag.matches('"').count() % 2, 0, "{tag:?}");
    }
    assert!(open.is_empty());
}
