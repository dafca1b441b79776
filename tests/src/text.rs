//! The table as text, written from documents 01 and 02 alone: lines are cut out first, and then each is held to the one numeral that it may have.

use crate::panel::{ReadAnswer, Row, WriteAnswer};

/// The most rows that a text may have.
const MOST_ROWS: u16 = 512;

/// The text of a table.
pub fn text(nodes: u16, rows: &[Row]) -> Vec<u8> {
    let mut lines = format!("nodes={nodes}\nrows={}\n", rows.len());
    for row in rows {
        let Row { src, dst, len, due } = row;
        lines += &format!("src={src}\ndst={dst}\nlen={len}\ndue={due}\n");
    }
    lines.into_bytes()
}

/// The value of a line, its line feed included, where it is exactly so.
fn value(line: &[u8], key: &str) -> Option<u16> {
    let line = std::str::from_utf8(line).ok()?;
    let numeral = line
        .strip_suffix('\n')?
        .strip_prefix(key)?
        .strip_prefix('=')?;
    let value = numeral.parse::<u16>().ok()?;
    // Rust also takes a sign and leading zeros
    (value.to_string() == numeral).then_some(value)
}

/// The lines of a text, judged in order.
struct Lines<'a> {
    lines: std::slice::SplitInclusive<'a, u8, fn(&u8) -> bool>,
    number: u16,
}

impl Lines<'_> {
    /// The value of the next line, or the number of that line where it is wrong or missing.
    fn next(&mut self, key: &str) -> Result<u16, ReadAnswer> {
        self.number += 1;
        self.lines
            .next()
            .and_then(|line| value(line, key))
            .ok_or_else(|| refused(20, self.number))
    }
}

fn refused(number: u16, line: u16) -> ReadAnswer {
    ReadAnswer {
        number,
        line,
        nodes: 0,
        rows: 0,
    }
}

/// Nodes and rows of a text, where so many records are lent.
fn table(text: &[u8], lent: usize) -> Result<(u16, Vec<Row>), ReadAnswer> {
    let mut lines = Lines {
        lines: text.split_inclusive(|&byte| byte == b'\n'),
        number: 0,
    };
    let nodes = lines.next("nodes")?;
    let count = lines.next("rows")?;
    if count > MOST_ROWS {
        return Err(refused(2, 0));
    }
    if lent < count as usize {
        return Err(refused(21, 0));
    }
    let mut rows = Vec::new();
    for _ in 0..count {
        let src = lines.next("src")?;
        let dst = lines.next("dst")?;
        let len = lines.next("len")?;
        let due = lines.next("due")?;
        rows.push(Row { src, dst, len, due });
    }
    match lines.lines.next() {
        None => Ok((nodes, rows)),
        Some(_) => Err(refused(20, lines.number + 1)),
    }
}

/// The answer, with `rows` as the reader leaves them.
pub fn read(text: &[u8], rows: &mut [Row]) -> ReadAnswer {
    match table(text, rows.len()) {
        Ok((nodes, found)) => {
            rows[..found.len()].copy_from_slice(&found);
            ReadAnswer {
                number: 0,
                line: 0,
                nodes,
                rows: found.len() as u16,
            }
        }
        Err(answer) => answer,
    }
}

/// The answer, with `area` as the writer leaves it.
pub fn write(nodes: u16, rows: &[Row], area: &mut [u8]) -> WriteAnswer {
    if rows.len() > MOST_ROWS as usize {
        return WriteAnswer {
            number: 2,
            length: 0,
        };
    }
    let text = text(nodes, rows);
    if area.len() < text.len() {
        return WriteAnswer {
            number: 22,
            length: 0,
        };
    }
    area[..text.len()].copy_from_slice(&text);
    WriteAnswer {
        number: 0,
        length: text.len(),
    }
}
