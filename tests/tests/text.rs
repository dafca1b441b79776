//! The table as text: right texts, wrong ones of every kind, and lists and areas of every length.

use panel_tests::cases::each;
use panel_tests::panel::Row;
use panel_tests::random::Random;
use panel_tests::text::text;
use panel_tests::texts::{agree_read, agree_write, any_rows, harmed, there_and_back};

fn row(src: u16, dst: u16, due: u16) -> Row {
    Row::single(src, dst, due)
}

/// Number, line, nodes and rows of the answer, which the model has agreed to.
fn answer(bytes: impl AsRef<[u8]>, lent: usize) -> (u16, u16, u16, u16) {
    let a = agree_read(&mut Random::new(12), bytes.as_ref(), lent)
        .unwrap_or_else(|what| panic!("{what}"))
        .answer;
    (a.number, a.line, a.nodes, a.rows)
}

/// Number and length of the answer, which the model has agreed to.
fn written(nodes: u16, rows: &[Row], lent: usize) -> (u16, usize) {
    let a = agree_write(&mut Random::new(13), nodes, rows, lent)
        .unwrap_or_else(|what| panic!("{what}"))
        .answer;
    (a.number, a.length)
}

const CASE_B: &str = "nodes=4\nrows=2\nsrc=0\ndst=1\nlen=1\ndue=2\nsrc=0\ndst=3\nlen=1\ndue=3\n";

const LARGEST: Row = Row {
    src: 65535,
    dst: 65535,
    len: 65535,
    due: 65535,
};

fn longest() -> Vec<u8> {
    text(65535, &[LARGEST; 512])
}

#[test]
fn random_tables_there_and_back() {
    let tally = each("text", there_and_back, 4_000_000, 6_000);
    if std::env::var("SEED").is_err() {
        for name in ["there and back", "2", "22"] {
            assert!(tally[name] >= 300, "too few {name}: {tally:?}");
        }
    }
}

#[test]
fn random_faults() {
    let tally = each("text", harmed, 5_000_000, 12_000);
    if std::env::var("SEED").is_err() {
        for name in ["accepted", "2", "20", "21"] {
            assert!(tally[name] >= 300, "too few {name}: {tally:?}");
        }
    }
}

#[test]
fn case_b() {
    let rows = [row(0, 1, 2), row(0, 3, 3)];
    let put = agree_write(&mut Random::new(14), 4, &rows, CASE_B.len()).unwrap();
    assert_eq!((put.answer.number, put.answer.length), (0, CASE_B.len()));
    assert_eq!(put.area, CASE_B.as_bytes());
    let taken = agree_read(&mut Random::new(14), CASE_B.as_bytes(), 2).unwrap();
    assert_eq!((taken.answer.nodes, taken.answer.rows), (4, 2));
    assert_eq!(taken.rows, rows);
}

#[test]
fn every_prefix_and_every_byte() {
    let mut random = Random::new(15);
    let several = any_rows(&mut random, 11);
    let texts = [
        text(4, &[]),
        CASE_B.as_bytes().to_vec(),
        text(
            65535,
            &[LARGEST, row(65535, 0, 10), row(9, 99, 999), row(9999, 1, 0)],
        ),
        text(10, &several),
    ];
    let (mut prefixes, mut replaced, mut inserted, mut dropped, mut accepted) = (0, 0, 0, 0, 0);
    for right in &texts {
        let lent = right.iter().filter(|&&b| b == b'\n').count() / 4;
        let hold = |bytes: &[u8]| usize::from(answer(bytes, lent).0 == 0);
        for end in 0..right.len() {
            // a line that is cut off, or the first that is missing
            let line = 1 + right[..end].iter().filter(|&&b| b == b'\n').count() as u16;
            assert_eq!(answer(&right[..end], lent), (20, line, 0, 0));
            prefixes += 1;
        }
        assert_eq!(hold(right), 1);
        for at in 0..right.len() {
            let mut other = right.clone();
            other.remove(at);
            accepted += hold(&other);
            dropped += 1;
            for byte in 0..=255 {
                other = right.clone();
                other[at] = byte;
                accepted += hold(&other);
                replaced += 1;
            }
        }
        for at in 0..=right.len() {
            for byte in 0..=255 {
                let mut other = right.clone();
                other.insert(at, byte);
                accepted += hold(&other);
                inserted += 1;
            }
        }
    }
    println!("text: {prefixes} prefixes, {replaced} with a byte replaced, {inserted} inserted, {dropped} dropped: {accepted} accepted");
}

/// A text in which line `line` of six (nodes, rows and one row's four) has this behind its equals sign, and its number.
fn with(line: usize, value: &[u8]) -> (Vec<u8>, u16) {
    let mut bytes = Vec::new();
    for (i, (key, own)) in [
        ("nodes", "4"),
        ("rows", "1"),
        ("src", "0"),
        ("dst", "1"),
        ("len", "1"),
        ("due", "2"),
    ]
    .iter()
    .enumerate()
    {
        bytes.extend_from_slice(key.as_bytes());
        bytes.push(b'=');
        bytes.extend_from_slice(if i == line { value } else { own.as_bytes() });
        bytes.push(b'\n');
    }
    (bytes, line as u16 + 1)
}

#[test]
fn every_number() {
    let mut count = 0;
    for v in 0..=70_000u32 {
        let numeral = v.to_string();
        for line in [0, 2, 3, 4, 5] {
            let (bytes, number) = with(line, numeral.as_bytes());
            let a = answer(&bytes, 1);
            assert_eq!((a.0, a.1), if v < 65_536 { (0, 0) } else { (20, number) });
            count += 1;
        }
        let body = format!("nodes=4\nrows={v}\n");
        let expected = match v {
            0 => (0, 0, 4, 0),
            1..=512 => (20, 3, 0, 0),
            513..=65_535 => (2, 0, 0, 0),
            _ => (20, 2, 0, 0),
        };
        assert_eq!(answer(&body, 512), expected);
        count += 1;
    }
    println!("text: {count} numerals of 0 to 70000");
}

#[test]
fn wrong_numerals() {
    let wrong: [&[u8]; 44] = [
        b"",
        b"00",
        b"01",
        b"04",
        b"000000",
        b"00004",
        b"0513",
        b"065535",
        b"+4",
        b"-4",
        b"+0",
        b"-0",
        b" 4",
        b"4 ",
        b"\t4",
        b"4\t",
        b"4\r",
        b"\r4",
        b"4\0",
        b"\x004",
        b"\xff4",
        b"4\xff",
        b"4.",
        b"4.0",
        b"4,",
        b"1,000",
        b"4e0",
        b"0x4",
        b"four",
        b"=4",
        b"4=",
        b"4=4",
        b"65536",
        b"65540",
        b"70000",
        b"99999",
        b"100000",
        b"655350",
        b"4294967300",
        b"18446744073709551620",
        b"\xd9\xa4",
        b"\xef\xbc\x94",
        b":",
        b"/",
    ];
    for line in 0..6 {
        for value in wrong {
            let (bytes, number) = with(line, value);
            assert_eq!(answer(&bytes, 1), (20, number, 0, 0));
        }
        // a line feed in front of the numeral, and one too many lines behind it
        let (bytes, number) = with(line, b"\n4");
        assert_eq!(answer(&bytes, 20), (20, number, 0, 0));
        let (bytes, number) = with(line, b"4\n4");
        assert_eq!(answer(&bytes, 20), (20, number + 1, 0, 0));
    }
    println!("text: {} wrong numerals in each of six lines", wrong.len());
}

#[test]
fn wrong_lines() {
    // as a program of another kind would write it
    assert_eq!(answer(CASE_B.replace('\n', "\r\n"), 2), (20, 1, 0, 0));
    assert_eq!(answer(CASE_B.replace('\n', "\r"), 2), (20, 1, 0, 0));
    assert_eq!(answer(format!("\u{feff}{CASE_B}"), 2), (20, 1, 0, 0));
    assert_eq!(answer(CASE_B.replace('=', " = "), 2), (20, 1, 0, 0));
    assert_eq!(answer(CASE_B.replace('=', ":"), 2), (20, 1, 0, 0));
    assert_eq!(answer(CASE_B.to_uppercase(), 2), (20, 1, 0, 0));
    let wide: Vec<u8> = CASE_B.bytes().flat_map(|b| [b, 0]).collect();
    assert_eq!(answer(wide, 2), (20, 1, 0, 0));
    // lines that are missing, twice, or in another order
    assert_eq!(answer("", 2), (20, 1, 0, 0));
    assert_eq!(answer("\n", 2), (20, 1, 0, 0));
    assert_eq!(answer("nodes=4\n", 2), (20, 2, 0, 0));
    assert_eq!(answer("rows=2\nnodes=4\n", 2), (20, 1, 0, 0));
    for number in 1..=10 {
        let mut lines: Vec<&str> = CASE_B.split_inclusive('\n').collect();
        let line = lines.remove(number - 1);
        assert_eq!(answer(lines.concat(), 2), (20, number as u16, 0, 0));
        lines.insert(number - 1, line);
        lines.insert(number - 1, line);
        assert_eq!(answer(lines.concat(), 2), (20, number as u16 + 1, 0, 0));
        lines.remove(number);
        lines[number - 1] = "\n";
        assert_eq!(answer(lines.concat(), 2), (20, number as u16, 0, 0));
        lines[number - 1] = "due=3";
        assert_eq!(answer(lines.concat(), 2).0, 20);
    }
    // bytes after the last line, whatever they are
    for after in [
        "\n",
        "\0",
        " ",
        "x",
        "src=0\n",
        "src=0\ndst=1\nlen=1\ndue=2\n",
        CASE_B,
    ] {
        assert_eq!(answer(format!("{CASE_B}{after}"), 9), (20, 11, 0, 0));
        assert_eq!(
            answer(format!("nodes=4\nrows=0\n{after}"), 9),
            (20, 3, 0, 0)
        );
    }
}

/// A text of one row with this in the place of its length's line.
fn with_length(line: &str) -> String {
    format!("nodes=4\nrows=1\nsrc=0\ndst=1\n{line}due=2\n")
}

#[test]
fn lengths() {
    // the reader does not judge them
    for len in [0, 1, 2, 64, 65, 255, 256, 1_024, 32_768, 65_535] {
        let text = with_length(&format!("len={len}\n"));
        let taken = agree_read(&mut Random::new(28), text.as_bytes(), 1).unwrap();
        assert_eq!((taken.answer.number, taken.rows[0].len), (0, len));
        let put = agree_write(&mut Random::new(28), 4, &taken.rows, text.len()).unwrap();
        assert_eq!(put.area, text.as_bytes());
    }
    // missing, doubled, out of its place, or no number
    assert_eq!(answer(with_length(""), 1), (20, 5, 0, 0));
    assert_eq!(answer(with_length("len=1\nlen=1\n"), 1), (20, 6, 0, 0));
    assert_eq!(answer(with_length("due=1\n"), 1), (20, 5, 0, 0));
    assert_eq!(answer(with_length("due=2\nlen=1\n"), 1), (20, 5, 0, 0));
    for wrong in [
        "len=\n",
        "len=01\n",
        "len=65536\n",
        "LEN=1\n",
        "length=1\n",
        "len=1\r\n",
        "\n",
    ] {
        assert_eq!(answer(with_length(wrong), 1), (20, 5, 0, 0));
    }
    let early = "nodes=4\nrows=1\nsrc=0\nlen=1\ndst=1\ndue=2\n";
    assert_eq!(answer(early, 1), (20, 4, 0, 0));
    let late = "nodes=4\nrows=1\nsrc=0\ndst=1\ndue=2\nlen=1\n";
    assert_eq!(answer(late, 1), (20, 5, 0, 0));
}

#[test]
fn old_texts() {
    let row = "src=0\ndst=1\ndue=2\n";
    for count in [1, 2, 3, 511, 512] {
        let old = format!("nodes=4\nrows={count}\n{}", row.repeat(count));
        assert_eq!(answer(&old, 512), (20, 5, 0, 0));
        assert_eq!(answer(&old, count - 1), (21, 0, 0, 0));
    }
    let old = format!("nodes=4\nrows=513\n{}", row.repeat(513));
    assert_eq!(answer(old, 600), (2, 0, 0, 0));
    // with no row it is a new one
    assert_eq!(answer("nodes=4\nrows=0\n", 0), (0, 0, 4, 0));
}

#[test]
fn directly_after_line_2() {
    let many = "src=0\ndst=1\nlen=1\ndue=2\n".repeat(520);
    for after in ["", "x", "\n", "src=x\n", "src=0\n", &many] {
        let head = |rows: &str| format!("nodes=33\nrows={rows}{after}");
        for lent in [0, 1, 511, 512, 513, 600] {
            // 2 before 21, and both before the lines of the rows
            assert_eq!(answer(head("513\n"), lent), (2, 0, 0, 0));
            assert_eq!(answer(head("65535\n"), lent), (2, 0, 0, 0));
            if lent < 512 {
                assert_eq!(answer(head("512\n"), lent), (21, 0, 0, 0));
            }
            // line 2 first
            assert_eq!(answer(head("65536\n"), lent), (20, 2, 0, 0));
            assert_eq!(answer(head("0513\n"), lent), (20, 2, 0, 0));
        }
    }
    assert_eq!(answer("nodes=33\nrows=513", 600), (20, 2, 0, 0));
    assert_eq!(answer("nodes=x\nrows=513\n", 600), (20, 1, 0, 0));
    // the reader does not judge the number of nodes or the rows' values
    assert_eq!(answer("nodes=0\nrows=0\n", 0), (0, 0, 0, 0));
    assert_eq!(
        answer(
            "nodes=65535\nrows=1\nsrc=65535\ndst=65535\nlen=0\ndue=0\n",
            1
        ),
        (0, 0, 65535, 1)
    );
}

#[test]
fn lists_of_every_length() {
    let mut random = Random::new(16);
    let mut calls = 0;
    for count in (0..=20).chain([255, 256, 511, 512]) {
        let rows = any_rows(&mut random, count);
        let bytes = text(7, &rows);
        let wrong = [&bytes[..], b"x"].concat();
        for lent in (0..=count + 3).filter(|&lent| lent < 24 || count < lent + 5) {
            let short = lent < count;
            let right = if short {
                (21, 0, 0, 0)
            } else {
                (0, 0, 7, count as u16)
            };
            assert_eq!(answer(&bytes, lent), right);
            let last = if short {
                right
            } else {
                (20, 3 + 4 * count as u16, 0, 0)
            };
            assert_eq!(answer(&wrong, lent), last);
            calls += 2;
        }
    }
    println!("text: {calls} readings into lists of every length");
}

#[test]
fn the_longest_text() {
    let bytes = longest();
    assert_eq!(bytes.len(), 20_501);
    assert_eq!(answer(&bytes, 512), (0, 0, 65535, 512));
    assert_eq!(answer(&bytes, 511), (21, 0, 0, 0));
    let full = [LARGEST; 512];
    assert_eq!(written(65535, &full, 20_501), (0, 20_501));
    assert_eq!(written(65535, &full, 20_500), (22, 0));
    assert_eq!(written(65535, &full, 25_000), (0, 20_501));
    assert_eq!(answer([&bytes[..], b"\n"].concat(), 512), (20, 2051, 0, 0));
    let mut random = Random::new(17);
    let mut calls = 0;
    for end in 0..bytes.len() {
        let line = 1 + bytes[..end].iter().filter(|&&b| b == b'\n').count() as u16;
        assert_eq!(answer(&bytes[..end], 512), (20, line, 0, 0));
        calls += 1;
    }
    for _ in 0..1_500 {
        let mut other = bytes.clone();
        let at = random.within(0, bytes.len() - 1);
        other[at] = b"0123456789=\n\r\0\xff"[random.within(0, 14)];
        let number = answer(&other, 512).0;
        let digit = other[at].is_ascii_digit() && bytes[at].is_ascii_digit();
        // a digit in a digit's place makes another number, which may be right
        assert!(number == 20 || digit || other == bytes, "{at}");
        calls += 1;
    }
    println!("text: {calls} texts cut from the longest one or with one of its bytes replaced");
}

#[test]
fn areas_of_every_length() {
    let mut random = Random::new(18);
    let mut calls = 0;
    for count in (0..=12).chain([100, 511, 512]) {
        for nodes in [0, 4, 10, 65535] {
            let rows = any_rows(&mut random, count);
            let needed = text(nodes, &rows).len();
            for lent in
                (0..=needed + 20).filter(|&lent| count < 13 || needed < lent + 20 || lent < 3)
            {
                let expected = if lent < needed { (22, 0) } else { (0, needed) };
                assert_eq!(written(nodes, &rows, lent), expected);
                calls += 1;
            }
        }
    }
    println!("text: {calls} writings into areas of every length");
}

#[test]
fn too_many_rows_to_write() {
    for count in [513, 514, 1_024, 65_535, 65_536, 65_537, 66_048, 100_000] {
        let rows = vec![row(1, 2, 3); count];
        for lent in [0, 20_501, 40 * count] {
            assert_eq!(written(4, &rows, lent), (2, 0));
        }
    }
}
