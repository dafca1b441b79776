//! Catalogues: the two of the examples, wrong ones of every kind, and every sentence and label of right ones.

use panel_tests::cases::each;
use panel_tests::catalogue::{keys, line, text, FIELDS, FIRST_LABEL, LINES, LONGEST, NUMBERS};
use panel_tests::catalogues::{agree_asked, agree_judge, any, any_asked, Asked, AMPLE};
use panel_tests::random::Random;
use std::collections::BTreeMap;

const ENGLISH: &[u8] = include_bytes!("../../examples/catalogues/english.txt");
const GERMAN: &[u8] = include_bytes!("../../examples/catalogues/german.txt");

/// Rows and slots around each number of digits.
const EDGES: [u16; 11] = [0, 1, 9, 10, 99, 100, 999, 1000, 9999, 10000, 65535];

/// A catalogue under test. The model has agreed to every call of it, so what a test says of the answers stands beside it.
struct Tried {
    random: Random,
    text: Vec<u8>,
}

impl Tried {
    fn new(text: impl AsRef<[u8]>) -> Tried {
        Tried {
            random: Random::new(31),
            text: text.as_ref().to_vec(),
        }
    }

    /// Number and row of the answer, and what was written.
    fn ask(&mut self, asked: Asked, lent: usize) -> (u16, u16, Vec<u8>) {
        let said = agree_asked(&mut self.random, &self.text, asked, lent)
            .unwrap_or_else(|what| panic!("{what}"));
        assert_eq!(said.answer.slot, 0);
        let written = said.area[..said.answer.length].to_vec();
        (said.answer.number, said.answer.row, written)
    }

    /// What is written where there is room.
    fn said(&mut self, asked: Asked) -> Vec<u8> {
        let (number, row, written) = self.ask(asked, AMPLE);
        assert_eq!((number, row), (0, 0), "{asked:?}");
        written
    }

    fn sentence(&mut self, number: u16, row: u16, slot: u16) -> Vec<u8> {
        self.said(Asked::Sentence { number, row, slot })
    }

    fn label(&mut self, field: u16) -> Vec<u8> {
        self.said(Asked::Label { field })
    }

    /// What the catalogue comes to, in judging it and in asking for something, which says the same where it is refused.
    fn judged(&mut self) -> (u16, u16) {
        let verdict = agree_judge(&self.text).unwrap_or_else(|what| panic!("{what}"));
        let asked = any_asked(&mut self.random);
        let (number, row, _) = self.ask(asked, AMPLE);
        if verdict.number != 0 {
            assert_eq!((number, row), (verdict.number, verdict.row), "{asked:?}");
        }
        assert_eq!(verdict.slot, 0);
        (verdict.number, verdict.row)
    }
}

fn judged(text: impl AsRef<[u8]>) -> (u16, u16) {
    Tried::new(text).judged()
}

/// One byte for each line, all different.
fn small_strings() -> Vec<Vec<u8>> {
    (b'A'..b'A' + LINES as u8).map(|byte| vec![byte]).collect()
}

fn small() -> Vec<u8> {
    text(&small_strings())
}

/// The small catalogue with this string in one line, numbered from 1.
fn with(number: usize, string: &[u8]) -> Vec<u8> {
    let mut strings = small_strings();
    strings[number - 1] = string.to_vec();
    text(&strings)
}

/// The lines of the small catalogue.
fn small_lines() -> Vec<Vec<u8>> {
    let strings = small_strings();
    let lines = keys().into_iter().zip(&strings);
    lines.map(|(key, string)| line(&key, string)).collect()
}

/// The string of a line of a good catalogue, numbered from 1, by cutting the text at its line feeds and at the first equals sign.
fn string_of(text: &[u8], number: usize) -> &[u8] {
    let line = text.split(|&b| b == b'\n').nth(number - 1).unwrap();
    line.splitn(2, |&b| b == b'=').nth(1).unwrap()
}

/// A string of this length whose bytes are not all alike.
fn long(length: usize, first: u8) -> Vec<u8> {
    let letter = |i: usize| if i == 0 { first } else { b'a' + (i % 26) as u8 };
    (0..length).map(letter).collect()
}

#[test]
fn the_examples() {
    for example in [ENGLISH, GERMAN] {
        assert_eq!(judged(example), (0, 0));
        let words = std::str::from_utf8(example).unwrap();
        assert!(words.chars().all(|c| c == '\n' || !c.is_control()));
        let mut tried = Tried::new(example);
        for (i, &number) in NUMBERS.iter().enumerate() {
            let string = string_of(example, i + 1);
            // the row and the slot follow
            assert_eq!(string.last(), Some(&b':'));
            let (row, slot) = if number == 0 { (0, 0) } else { (512, 1024) };
            let sentence = [string, format!(" {row} {slot}").as_bytes()].concat();
            assert_eq!(tried.sentence(number, 512, 1024), sentence);
        }
        for (i, &field) in FIELDS.iter().enumerate() {
            assert_eq!(tried.label(field), string_of(example, FIRST_LABEL + i));
        }
    }
    assert!(ENGLISH.is_ascii() && !GERMAN.is_ascii());
    let said = |example, number| Tried::new(example).sentence(number, 3, 1);
    let english = "Source and destination are the same node: change one of them. Row, slot: 3 1";
    let german = "Das Ziel ist kein Knoten dieses Rings: Ziel ändern. Zeile, Zeitschlitz: 3 1";
    assert_eq!(said(ENGLISH, 5), english.as_bytes());
    assert_eq!(said(GERMAN, 4), german.as_bytes());
    assert_eq!(Tried::new(ENGLISH).label(5), b"Span");
    assert_eq!(Tried::new(GERMAN).label(6), b"Bereich");
}

#[test]
fn random_catalogues() {
    let tally = each("catalogue", any, 9_000_000, 20_000);
    if std::env::var("SEED").is_err() {
        for name in ["written", "22", "30", "31", "32", "33"] {
            assert!(tally[name] >= 300, "too few {name}: {tally:?}");
        }
    }
}

#[test]
fn every_prefix() {
    let full = text(&vec![long(LONGEST, b'x'); LINES]);
    for right in [&small(), ENGLISH, GERMAN, &full] {
        for end in 0..right.len() {
            // a line that is cut off, or the first that is missing
            let line = 1 + right[..end].iter().filter(|&&b| b == b'\n').count() as u16;
            assert_eq!(judged(&right[..end]), (30, line));
        }
    }
}

/// How often each number is the verdict.
fn tally(texts: impl Iterator<Item = Vec<u8>>) -> BTreeMap<u16, usize> {
    let mut tally = BTreeMap::new();
    texts.for_each(|text| *tally.entry(judged(text).0).or_insert(0) += 1);
    tally
}

/// The small catalogue with one place changed by each of 256 bytes.
fn at_each<'a>(
    places: usize,
    change: impl Fn(&mut Vec<u8>, usize, u8) + Copy + 'a,
) -> impl Iterator<Item = Vec<u8>> + 'a {
    let bytes = move |at| (0..=255).map(move |byte| (at, byte));
    (0..places).flat_map(bytes).map(move |(at, byte)| {
        let mut text = small();
        change(&mut text, at, byte);
        text
    })
}

#[test]
fn every_byte_replaced() {
    let places = small().len();
    let found = tally(at_each(places, |text, at, byte| text[at] = byte));
    // every byte but a line feed in place of a sentence's, and of a label's but the five others; all others as they are
    let accepted = NUMBERS.len() * 255 + 6 * 250 + (places - LINES);
    let wrong = 256 * places - accepted - LINES - 30;
    let expected = [(0, accepted), (30, wrong), (31, LINES), (32, 30)];
    assert_eq!(found, BTreeMap::from(expected));
}

#[test]
fn every_byte_inserted() {
    let places = small().len() + 1;
    let found = tally(at_each(places, |text, at, byte| text.insert(at, byte)));
    // every byte but a line feed before or behind each string's, and an equals sign before the equals sign
    let accepted = LINES * (2 * 255 + 1);
    let expected = [
        (0, accepted),
        (30, 256 * places - accepted - LINES),
        (31, LINES),
    ];
    assert_eq!(found, BTreeMap::from(expected));
}

#[test]
fn every_byte_dropped() {
    let dropped = |at| {
        let mut text = small();
        text.remove(at);
        text
    };
    let places = small().len();
    let found = tally((0..places).map(dropped));
    assert_eq!(found, BTreeMap::from([(30, places - LINES), (31, LINES)]));
}

#[test]
fn strings_of_every_length() {
    let lengths = (0..=300).chain([352, 512, 608, 65_535, 65_536, 65_537, 65_632, 70_000]);
    for length in lengths {
        for number in 1..=LINES {
            let expected = match length {
                1..=LONGEST => (0, 0),
                _ => (31, number as u16),
            };
            assert_eq!(judged(with(number, &long(length, b'x'))), expected);
        }
    }
}

#[test]
fn bytes_and_not_characters() {
    for number in 1..=LINES {
        // 48 and 49 umlauts, and 32 and 33 signs of three bytes
        assert_eq!(judged(with(number, "ä".repeat(48).as_bytes())), (0, 0));
        assert_eq!(judged(with(number, "€".repeat(32).as_bytes())), (0, 0));
        let wrong = (31, number as u16);
        assert_eq!(judged(with(number, "ä".repeat(49).as_bytes())), wrong);
        assert_eq!(judged(with(number, "€".repeat(33).as_bytes())), wrong);
        assert_eq!(judged(with(number, &[0x80; 97])), wrong);
        assert_eq!(judged(with(number, &[0x80; 96])), (0, 0));
    }
}

#[test]
fn the_longest_catalogue() {
    let strings: Vec<Vec<u8>> = (0..LINES as u8).map(|i| long(LONGEST, b'A' + i)).collect();
    let longest = text(&strings);
    assert_eq!(longest.len(), 2_610);
    assert_eq!(judged(&longest), (0, 0));
    let mut tried = Tried::new(&longest);
    for (number, string) in NUMBERS.into_iter().zip(&strings).skip(1) {
        let sentence = [&string[..], b" 65535 65535"].concat();
        assert_eq!(sentence.len(), 108);
        assert_eq!(tried.sentence(number, 65535, 65535), sentence);
    }
    for (field, string) in FIELDS.into_iter().zip(&strings[FIRST_LABEL - 1..]) {
        assert_eq!(&tried.label(field), string);
    }
}

/// The small catalogue with other labels.
fn labelled(labels: &[Vec<u8>; 6]) -> Vec<u8> {
    let mut strings = small_strings();
    strings.truncate(FIRST_LABEL - 1);
    strings.extend_from_slice(labels);
    text(&strings)
}

#[test]
fn equal_labels_in_every_two_places() {
    for second in 1..6 {
        for first in 0..second {
            for string in [
                &b"x"[..],
                b"Frist",
                &long(LONGEST, b'x'),
                b"\0",
                b"=",
                b"\xff",
            ] {
                let mut labels: [Vec<u8>; 6] = std::array::from_fn(|i| vec![b'a' + i as u8]);
                labels[first] = string.to_vec();
                labels[second] = string.to_vec();
                let line = (FIRST_LABEL + second) as u16;
                assert_eq!(judged(labelled(&labels)), (32, line));
            }
        }
    }
}

#[test]
fn every_way_in_which_labels_repeat() {
    for way in 0..6_usize.pow(6) {
        let kinds: [usize; 6] = std::array::from_fn(|i| way / 6_usize.pow(i as u32) % 6);
        let labels = kinds.map(|kind| vec![b'a' + kind as u8; 1 + kind % 2]);
        let repeats = (0..6).find(|&i| kinds[..i].contains(&kinds[i]));
        let expected = repeats.map_or((0, 0), |i| (32, (FIRST_LABEL + i) as u16));
        assert_eq!(judged(labelled(&labels)), expected);
    }
}

#[test]
fn labels_that_nearly_repeat() {
    let full = long(LONGEST, b'x');
    let mut last = full.clone();
    last[LONGEST - 1] = b'!';
    let near: [[&[u8]; 2]; 10] = [
        [b"Frist", b"frist"],
        [b"Frist", b"Frist "],
        [b"Frist", b"Fris"],
        [b"Frist", b" Frist"],
        [b"Frist", b"Frist\r"],
        [b"Fr\0st", b"Fr\0sT"],
        [b"\0", b"\0\0"],
        [&full, &last],
        [&full, &full[..LONGEST - 1]],
        ["\u{e4}".as_bytes(), "a\u{308}".as_bytes()],
    ];
    for [one, other] in near {
        for (first, second) in [(0, 1), (1, 0), (0, 5), (5, 0), (2, 4)] {
            let mut labels: [Vec<u8>; 6] = std::array::from_fn(|i| vec![b'0' + i as u8]);
            labels[first] = one.to_vec();
            labels[second] = other.to_vec();
            assert_eq!(judged(labelled(&labels)), (0, 0));
        }
    }
}

#[test]
fn sentences_may_repeat() {
    let mut strings = vec![b"x".to_vec(); FIRST_LABEL - 1];
    strings.extend(small_strings().split_off(FIRST_LABEL - 1));
    assert_eq!(judged(text(&strings)), (0, 0));
    // also a label's string
    for label in FIRST_LABEL - 1..LINES {
        let mut strings = small_strings();
        strings[3] = strings[label].clone();
        strings[0] = strings[label].clone();
        assert_eq!(judged(text(&strings)), (0, 0));
    }
}

#[test]
fn lines_missing_twice_or_swapped() {
    let joined = |lines: &[Vec<u8>]| judged(lines.concat());
    for i in 0..LINES {
        let wrong = (30, i as u16 + 1);
        let mut lines = small_lines();
        let own = lines.remove(i);
        assert_eq!(joined(&lines), wrong);
        lines.insert(i, b"\n".to_vec());
        assert_eq!(joined(&lines), wrong);
        lines.insert(i + 1, own.clone());
        assert_eq!(joined(&lines), wrong);
        lines[i] = own.clone();
        assert_eq!(joined(&lines), (30, i as u16 + 2));
        for j in i + 1..LINES {
            let mut lines = small_lines();
            lines.swap(i, j);
            assert_eq!(joined(&lines), wrong);
        }
    }
    // by letters, r10 comes before r2
    let mut keys = keys();
    keys.sort();
    keys.rotate_left(FIELDS.len());
    let lines: Vec<Vec<u8>> = keys.iter().map(|key| line(key, b"x")).collect();
    assert_eq!(joined(&lines), (30, 3));
}

#[test]
fn keys_that_are_none() {
    for (i, key) in keys().into_iter().enumerate() {
        let wrong = (30, i as u16 + 1);
        let (letter, number) = key.split_at(1);
        for other in [
            "",
            letter,
            number,
            &key.to_uppercase(),
            &format!("{letter}0{number}"),
            &format!("{letter}+{number}"),
            &format!("{letter} {number}"),
            &format!("{key} "),
            &format!(" {key}"),
            &format!("{key}0"),
            &format!("{key}\0"),
            &format!("{key}{key}"),
            &format!("\u{feff}{key}"),
            "r13",
            "r19",
            "r23",
            "r34",
            "f0",
            "f7",
            "r65536",
            "r256",
        ] {
            let string = long(LONGEST + 1, b'x');
            // an empty and too long a string are no matter under a wrong key
            for length in [0, 1, LONGEST, LONGEST + 1] {
                let mut lines = small_lines();
                lines[i] = line(other, &string[..length]);
                assert_eq!(judged(lines.concat()), wrong, "{other}");
            }
        }
        for other in [&key[..], &format!("{key}:x"), &format!("{key} =x"), "=x"] {
            let mut lines = small_lines();
            lines[i] = format!("{other}\n").into_bytes();
            assert_eq!(judged(lines.concat()), wrong, "{other}");
        }
    }
}

#[test]
fn lines_that_join_in_later_asks_are_extra_now() {
    for (key, before) in [
        ("r13", 13),
        ("r14", 13),
        ("r15", 13),
        ("r19", 13),
        ("f7", LINES),
    ] {
        let mut lines = small_lines();
        lines.insert(before, line(key, b"x"));
        assert_eq!(judged(lines.concat()), (30, before as u16 + 1));
    }
}

#[test]
fn catalogues_from_before_there_were_lengths() {
    let mut lines = small_lines();
    lines.drain(10..12);
    assert_eq!(judged(lines.concat()), (30, 11));
    lines.insert(10, line("r10", b"x"));
    assert_eq!(judged(lines.concat()), (30, 12));
    lines.insert(11, line("r11", b"x"));
    assert_eq!(judged(lines.concat()), (0, 0));
}

#[test]
fn lines_that_are_not_ended() {
    for i in 0..LINES {
        let whole = small_lines()[..i].concat();
        let key = format!("{}=", keys()[i]);
        // an empty and too long a string are no matter where no line feed ends the line
        for length in [0, 1, LONGEST, LONGEST + 1, 70_000] {
            let text = [&whole, key.as_bytes(), &long(length, b'x')].concat();
            assert_eq!(judged(text), (30, i as u16 + 1));
        }
    }
}

#[test]
fn files_of_other_kinds() {
    let words = String::from_utf8(small()).unwrap();
    assert_eq!(judged(words.replace('\n', "\r")), (30, 1));
    assert_eq!(judged(words.replace("=", " = ")), (30, 1));
    assert_eq!(judged(words.replace("=", ": ")), (30, 1));
    assert_eq!(judged(words.to_uppercase()), (30, 1));
    assert_eq!(judged(format!("\u{feff}{words}")), (30, 1));
    assert_eq!(judged(format!("# English\n{words}")), (30, 1));
    let wide: Vec<u8> = words.bytes().flat_map(|b| [b, 0]).collect();
    assert_eq!(judged(wide), (30, 1));
    assert_eq!(judged("\n".repeat(70_000)), (30, 1));
    assert_eq!(judged(vec![b'r'; 70_000]), (30, 1));
    // with CR LF a carriage return is each string's last byte
    let ended = words.replace('\n', "\r\n");
    assert_eq!(judged(&ended), (0, 0));
    assert_eq!(Tried::new(&ended).sentence(9, 2, 1), b"J\r 2 1");
    assert_eq!(Tried::new(&ended).label(6), b"Z\r");
}

#[test]
fn bytes_behind_the_last_line() {
    let behind = |bytes: &[u8]| judged([&small()[..], bytes].concat());
    for byte in 0..=255 {
        assert_eq!(behind(&[byte]), (30, 27));
    }
    for bytes in ["\n\n", "f7=x\n", "r34=x\n", "f6=\n", "f6=x\n", "# end\n"] {
        assert_eq!(behind(bytes.as_bytes()), (30, 27));
    }
    assert_eq!(behind(&small()), (30, 27));
    assert_eq!(behind(&[b'x'; 70_000]), (30, 27));
}

#[test]
fn every_byte_in_a_string() {
    let bytes: Vec<u8> = (0..=255).filter(|&b| b != b'\n').collect();
    let mut strings: Vec<&[u8]> = bytes.chunks(85).collect();
    strings.extend([
        &b"="[..],
        b"==",
        b"r1=x",
        b"\r",
        b"\0",
        b"\0x\0",
        b" ",
        b"  x  ",
        b"0",
    ]);
    strings.extend([
        &b"\xff\xfe"[..],
        b"\xc3",
        b"\xa4",
        b"\xed\xa0\x80",
        b"12",
        b"\\n",
        b"%u",
    ]);
    for string in strings {
        for (i, &number) in NUMBERS.iter().enumerate() {
            let text = with(i + 1, string);
            assert_eq!(judged(&text), (0, 0));
            let ending: &[u8] = if number == 0 { b" 0 0" } else { b" 7 10" };
            let sentence = Tried::new(&text).sentence(number, 7, 10);
            assert_eq!(sentence, [string, ending].concat());
        }
        for (i, &field) in FIELDS.iter().enumerate() {
            let text = with(FIRST_LABEL + i, string);
            assert_eq!(judged(&text), (0, 0));
            assert_eq!(Tried::new(&text).label(field), string);
        }
    }
}

/// One fault for a line: its number, and the line.
fn faulty_lines(key: &str) -> [(u16, Vec<u8>); 4] {
    [
        (30, line(&format!("x{key}"), b"x")),
        (30, b"\n".to_vec()),
        (31, line(key, b"")),
        (31, line(key, &long(LONGEST + 1, b'x'))),
    ]
}

#[test]
fn the_first_bad_line_decides() {
    let keys = keys();
    for second in 1..LINES {
        for first in 0..second {
            for (number, one) in faulty_lines(&keys[first]) {
                for (_, other) in faulty_lines(&keys[second]) {
                    let mut lines = small_lines();
                    lines[first] = one.clone();
                    lines[second] = other;
                    assert_eq!(judged(lines.concat()), (number, first as u16 + 1));
                }
            }
        }
    }
}

#[test]
fn equal_labels_come_after_all_lines() {
    let labels: [Vec<u8>; 6] = std::array::from_fn(|_| b"x".to_vec());
    let right = labelled(&labels);
    assert_eq!(judged(&right), (32, 22));
    let lines: Vec<&[u8]> = right.split_inclusive(|&b| b == b'\n').collect();
    for (i, key) in keys().iter().enumerate() {
        for (number, other) in faulty_lines(key) {
            let mut lines = lines.clone();
            lines[i] = &other;
            assert_eq!(judged(lines.concat()), (number, i as u16 + 1));
        }
    }
    assert_eq!(judged([&right[..], b"\n"].concat()), (30, 27));
    assert_eq!(judged(&right[..right.len() - 1]), (30, 26));
}

/// What is asked in turn where order matters: for a string, and for none.
fn asked_in_turn() -> [Asked; 6] {
    let sentence = |number| Asked::Sentence {
        number,
        row: 3,
        slot: 4,
    };
    let label = |field| Asked::Label { field };
    [
        sentence(0),
        sentence(9),
        sentence(13),
        label(1),
        label(0),
        label(7),
    ]
}

#[test]
fn the_catalogue_is_judged_before_the_number_and_the_room() {
    let mut labels = small_strings();
    labels[LINES - 1] = labels[LINES - 2].clone();
    let extra = [&small()[..], b"x"].concat();
    for (text, expected) in [
        (Vec::new(), (30, 1)),
        (with(LINES, b""), (31, 26)),
        (with(1, &[b'x'; 97]), (31, 1)),
        (text(&labels), (32, 26)),
        (extra, (30, 27)),
    ] {
        for asked in asked_in_turn() {
            for lent in [0, 1, 4, AMPLE] {
                let (number, row, written) = Tried::new(&text).ask(asked, lent);
                assert_eq!((number, row), expected);
                assert_eq!(written, b"");
            }
        }
    }
}

#[test]
fn the_number_is_judged_before_the_room() {
    let mut tried = Tried::new(small());
    for lent in 0..AMPLE {
        for (asked, none, needed) in [
            (asked_in_turn()[0], false, 5),
            (asked_in_turn()[1], false, 5),
            (asked_in_turn()[2], true, 0),
            (asked_in_turn()[3], false, 1),
            (asked_in_turn()[4], true, 0),
            (asked_in_turn()[5], true, 0),
        ] {
            let (number, row, written) = tried.ask(asked, lent);
            let expected = match (none, lent < needed) {
                (true, _) => (33, 0),
                (false, true) => (22, 0),
                (false, false) => (0, needed),
            };
            assert_eq!((number, written.len()), expected);
            assert_eq!(row, 0);
        }
    }
}

#[test]
fn every_number() {
    let mut tried = Tried::new(small());
    for number in 0..=65535 {
        let (row, slot) = (7, 9);
        let asked = Asked::Sentence { number, row, slot };
        let (answer, row, written) = tried.ask(asked, AMPLE);
        match NUMBERS.iter().position(|&known| known == number) {
            Some(i) => {
                let ending = if number == 0 { "0 0" } else { "7 9" };
                let sentence = format!("{} {ending}", (b'A' + i as u8) as char);
                assert_eq!((answer, written), (0, sentence.into_bytes()));
            }
            None => assert_eq!((answer, row, written), (33, 0, vec![])),
        }
    }
}

#[test]
fn every_field() {
    let mut tried = Tried::new(small());
    for field in 0..=65535 {
        let (answer, row, written) = tried.ask(Asked::Label { field }, AMPLE);
        match field {
            1..=6 => assert_eq!(
                (answer, written),
                (0, vec![b'A' + (NUMBERS.len() - 1) as u8 + field as u8])
            ),
            _ => assert_eq!((answer, row, written), (33, 0, vec![])),
        }
    }
}

#[test]
fn rows_and_slots() {
    let mut tried = Tried::new(ENGLISH);
    for (i, &number) in NUMBERS.iter().enumerate() {
        for row in EDGES {
            for slot in EDGES {
                let (last, also) = if number == 0 { (0, 0) } else { (row, slot) };
                let ending = format!(" {last} {also}");
                let sentence = [string_of(ENGLISH, i + 1), ending.as_bytes()].concat();
                assert_eq!(tried.sentence(number, row, slot), sentence);
            }
        }
    }
    let mut tried = Tried::new(small());
    for row in 0..=65535 {
        let slot = 65535 - row;
        let sentence = format!("J {row} {slot}").into_bytes();
        assert_eq!(tried.sentence(9, row, slot), sentence);
        assert_eq!(tried.sentence(0, row, slot), b"A 0 0");
    }
}

#[test]
fn areas_of_every_length() {
    let longest = text(
        &(0..LINES as u8)
            .map(|i| long(LONGEST, b'A' + i))
            .collect::<Vec<_>>(),
    );
    for text in [&small(), ENGLISH, GERMAN, &longest] {
        let mut tried = Tried::new(text);
        let mut hold = |asked: Asked| {
            let needed = tried.said(asked).len();
            for lent in 0..=needed + 20 {
                let (number, row, written) = tried.ask(asked, lent);
                let expected = if lent < needed { (22, 0) } else { (0, needed) };
                assert_eq!((number, written.len()), expected);
                assert_eq!(row, 0);
            }
        };
        for number in NUMBERS {
            for (row, slot) in [(0, 0), (12, 345), (65535, 65535)] {
                hold(Asked::Sentence { number, row, slot });
            }
        }
        FIELDS
            .iter()
            .for_each(|&field| hold(Asked::Label { field }));
    }
}
