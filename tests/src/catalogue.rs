//! A catalogue, its sentences and its labels, written from document 02 alone: lines are cut out first, then each is judged by
//! itself, and strings are found by their keys.

use crate::panel::{EditAnswer, SentenceAnswer};
use std::collections::{BTreeMap, BTreeSet};

/// The answers that have a sentence: acceptance, and every refusal so far.
pub const NUMBERS: [u16; 20] = [
    0, 1, 2, 3, 4, 5, 6, 7, 8, 9, 10, 11, 12, 20, 21, 22, 30, 31, 32, 33,
];

/// The fields that have a label.
pub const FIELDS: [u16; 6] = [1, 2, 3, 4, 5, 6];

/// The lines of a catalogue, and the first of them that has a label, numbered from 1.
pub const LINES: usize = NUMBERS.len() + FIELDS.len();
pub const FIRST_LABEL: usize = NUMBERS.len() + 1;

/// The longest string.
pub const LONGEST: usize = 96;

/// The key of an answer, and that of a field.
fn answer_key(number: u16) -> String {
    format!("r{number}")
}

fn field_key(field: u16) -> String {
    format!("f{field}")
}

/// The keys of the lines, in order.
pub fn keys() -> Vec<String> {
    let answers = NUMBERS.map(answer_key);
    answers.into_iter().chain(FIELDS.map(field_key)).collect()
}

/// A line of these, its line feed included.
pub fn line(key: &str, string: &[u8]) -> Vec<u8> {
    [key.as_bytes(), b"=", string, b"\n"].concat()
}

/// The text of a catalogue with these strings.
pub fn text(strings: &[Vec<u8>]) -> Vec<u8> {
    assert_eq!(strings.len(), LINES);
    let lines = keys().into_iter().zip(strings);
    lines.flat_map(|(key, string)| line(&key, string)).collect()
}

/// The strings of a catalogue that is accepted, by their keys.
pub type Strings<'a> = BTreeMap<String, &'a [u8]>;

fn refused(number: u16, line: usize) -> EditAnswer {
    EditAnswer {
        number,
        row: line as u16,
        slot: 0,
    }
}

/// The string of a line that has this key, its line feed left out; else what is wrong with it.
fn string<'a>(line: Option<&'a [u8]>, key: &str) -> Result<&'a [u8], u16> {
    let behind_key = line.and_then(|line| line.strip_prefix(key.as_bytes()));
    let string = behind_key.and_then(|rest| rest.strip_prefix(b"="));
    match string {
        None => Err(30),
        Some(string) if string.is_empty() || string.len() > LONGEST => Err(31),
        Some(string) => Ok(string),
    }
}

/// The strings of a text, or its refusal.
pub fn strings(text: &[u8]) -> Result<Strings<'_>, EditAnswer> {
    let mut lines: Vec<&[u8]> = text.split(|&byte| byte == b'\n').collect();
    let not_ended = lines.pop().unwrap();
    let mut strings = Strings::new();
    for (i, key) in keys().into_iter().enumerate() {
        let found = string(lines.get(i).copied(), &key).map_err(|f| refused(f, i + 1))?;
        strings.insert(key, found);
    }
    if lines.len() > LINES || !not_ended.is_empty() {
        return Err(refused(30, LINES + 1));
    }
    let mut seen = BTreeSet::new();
    let mut labels = FIELDS.iter().map(|&field| strings[&field_key(field)]);
    match labels.position(|label| !seen.insert(label)) {
        Some(i) => Err(refused(32, FIRST_LABEL + i)),
        None => Ok(strings),
    }
}

/// What a catalogue comes to.
pub fn judge(text: &[u8]) -> EditAnswer {
    strings(text).err().unwrap_or_default()
}

/// Writes the string of a key, and what comes behind it; the key is missing in a good catalogue where it has no string.
fn put(text: &[u8], key: &str, behind: &str, area: &mut [u8]) -> SentenceAnswer {
    let refused = |number, row| SentenceAnswer {
        number,
        row,
        ..SentenceAnswer::default()
    };
    let strings = match strings(text) {
        Ok(strings) => strings,
        Err(answer) => return refused(answer.number, answer.row),
    };
    let Some(string) = strings.get(key) else {
        return refused(33, 0);
    };
    let bytes = [string, behind.as_bytes()].concat();
    if area.len() < bytes.len() {
        return refused(22, 0);
    }
    area[..bytes.len()].copy_from_slice(&bytes);
    SentenceAnswer {
        length: bytes.len(),
        ..SentenceAnswer::default()
    }
}

/// The answer, with `area` as the writing of a sentence leaves it.
pub fn sentence(text: &[u8], number: u16, row: u16, slot: u16, area: &mut [u8]) -> SentenceAnswer {
    let (row, slot) = if number == 0 { (0, 0) } else { (row, slot) };
    put(text, &answer_key(number), &format!(" {row} {slot}"), area)
}

/// The answer, with `area` as the writing of a label leaves it.
pub fn label(text: &[u8], field: u16, area: &mut [u8]) -> SentenceAnswer {
    put(text, &field_key(field), "", area)
}
