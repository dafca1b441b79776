//! Calls of the panel's reader and writer, each held to the model: the answer, the whole list or area, and what lies around it.

use crate::panel::{self, ReadAnswer, Row, WriteAnswer};
use crate::random::Random;
use crate::text;

/// Records or bytes before and behind what is lent that must stay as they are.
const AROUND: usize = 16;

/// The answer and the lent list after the call.
pub struct Taken {
    pub answer: ReadAnswer,
    pub rows: Vec<Row>,
}

/// The answer and the lent area after the call.
pub struct Put {
    pub answer: WriteAnswer,
    pub area: Vec<u8>,
}

/// A text as a failure shows it, its start where it is long.
fn shown(text: &[u8]) -> String {
    let start = text[..text.len().min(300)].escape_ascii();
    format!("{} bytes: \"{start}\"", text.len())
}

/// Reads a text into a list of this length, filled with a pattern, and holds what comes of it to the model.
pub fn agree_read(random: &mut Random, bytes: &[u8], lent: usize) -> Result<Taken, String> {
    let before = random.records(lent + 2 * AROUND);
    let mut rows = before.clone();
    let mut rows_model = before;
    let lent_text = bytes.to_vec();
    let answer = panel::read(&lent_text, &mut rows[AROUND..AROUND + lent]);
    let answer_model = text::read(bytes, &mut rows_model[AROUND..AROUND + lent]);
    let tell = |what: String| format!("{what}\n{lent} records lent, {}", shown(bytes));
    if answer != answer_model {
        return Err(tell(format!(
            "answers {answer:?}, and the model {answer_model:?}"
        )));
    }
    if let Some(i) = (0..rows.len()).find(|&i| rows[i] != rows_model[i]) {
        return Err(tell(format!(
            "record {} is {:?}, and the model's {:?}",
            i as i64 - AROUND as i64,
            rows[i],
            rows_model[i]
        )));
    }
    if lent_text != bytes {
        return Err(tell("the lent text has changed".to_string()));
    }
    rows.truncate(AROUND + lent);
    Ok(Taken {
        answer,
        rows: rows.split_off(AROUND),
    })
}

/// Writes a table into an area of this length, filled with a pattern, and holds what comes of it to the model.
pub fn agree_write(
    random: &mut Random,
    nodes: u16,
    rows: &[Row],
    lent: usize,
) -> Result<Put, String> {
    let before = random.bytes(lent + 2 * AROUND);
    let mut area = before.clone();
    let mut area_model = before;
    let lent_rows = rows.to_vec();
    let answer = panel::write(nodes, &lent_rows, &mut area[AROUND..AROUND + lent]);
    let answer_model = text::write(nodes, rows, &mut area_model[AROUND..AROUND + lent]);
    let tell = |what: String| {
        let start = &rows[..rows.len().min(20)];
        format!(
            "{what}\n{lent} bytes lent, {nodes} nodes, {} rows: {start:?}",
            rows.len()
        )
    };
    if answer != answer_model {
        return Err(tell(format!(
            "answers {answer:?}, and the model {answer_model:?}"
        )));
    }
    if let Some(i) = (0..area.len()).find(|&i| area[i] != area_model[i]) {
        return Err(tell(format!(
            "byte {} is {}, and the model's {}",
            i as i64 - AROUND as i64,
            area[i],
            area_model[i]
        )));
    }
    if lent_rows != rows {
        return Err(tell("the lent rows have changed".to_string()));
    }
    area.truncate(AROUND + lent);
    Ok(Put {
        answer,
        area: area.split_off(AROUND),
    })
}

/// Rows of any 16-bit values.
pub fn any_rows(random: &mut Random, count: usize) -> Vec<Row> {
    (0..count)
        .map(|_| Row {
            src: random.numeral(),
            dst: random.numeral(),
            len: random.numeral(),
            due: random.numeral(),
        })
        .collect()
}

/// How many rows a random table has: few most often, and at times about as many as there may be.
fn any_count(random: &mut Random) -> usize {
    match random.within(0, 9) {
        0 => random.within(500, 512),
        1 => random.within(0, 512),
        2 => random.within(513, 520),
        _ => random.within(0, 12),
    }
}

/// A table of any values, the length of its text, and how many bytes to lend: about as many as needed.
pub fn any_table(random: &mut Random) -> (u16, Vec<Row>, usize, usize) {
    let nodes = random.numeral();
    let count = any_count(random);
    let rows = any_rows(random, count);
    let needed = text::text(nodes, &rows).len();
    let room = match random.within(0, 4) {
        0 => random.within(0, needed - 1),
        1 => needed,
        2 => needed - 1,
        _ => needed + random.within(1, 300),
    };
    (nodes, rows, needed, room)
}

/// A table of any values, written, and read back where it was written.
pub fn there_and_back(random: &mut Random) -> Result<&'static str, String> {
    let (nodes, rows, needed, room) = any_table(random);
    let count = rows.len();
    let put = agree_write(random, nodes, &rows, room)?;
    match (count > 512, room < needed, put.answer.number) {
        (true, _, 2) => return Ok("2"),
        (false, true, 22) => return Ok("22"),
        (false, false, 0) => {}
        (_, _, number) => return Err(format!("{number} for {count} rows and {room} bytes")),
    }
    let lent = count
        + if random.once_in(3) {
            0
        } else {
            random.within(1, 40)
        };
    let taken = agree_read(random, &put.area[..put.answer.length], lent)?;
    let expected = ReadAnswer {
        number: 0,
        line: 0,
        nodes,
        rows: count as u16,
    };
    if taken.answer != expected || taken.rows[..count] != rows {
        return Err(format!(
            "{nodes} nodes and {count} rows come back as {:?}",
            taken.answer
        ));
    }
    Ok("there and back")
}

/// A fault of some kind in a text.
pub fn harm(random: &mut Random, bytes: &mut Vec<u8>) {
    let telling = b"0123456789=\n\r +-.,\0\xffndxsrcoueqtl";
    let byte = telling[random.within(0, telling.len() - 1)];
    let at = random.within(0, bytes.len());
    let lines: Vec<Vec<u8>> = bytes
        .split_inclusive(|&b| b == b'\n')
        .map(<[u8]>::to_vec)
        .collect();
    let some_line = |random: &mut Random| random.within(0, lines.len().max(1) - 1);
    match random.within(0, 7) {
        0 if at < bytes.len() => bytes[at] = byte,
        1 => bytes.insert(at, byte),
        2 if at < bytes.len() => {
            bytes.remove(at);
        }
        3 => bytes.truncate(at),
        4 => bytes.push(byte),
        // one line lost, one twice, or two in each other's place
        5 if !lines.is_empty() => {
            let mut lines = lines.clone();
            lines.remove(some_line(random));
            *bytes = lines.concat();
        }
        6 if !lines.is_empty() => {
            let mut lines = lines.clone();
            let i = some_line(random);
            lines.insert(i, lines[i].clone());
            *bytes = lines.concat();
        }
        _ if !lines.is_empty() => {
            let mut lines = lines.clone();
            let (i, j) = (some_line(random), some_line(random));
            lines.swap(i, j);
            *bytes = lines.concat();
        }
        _ => bytes.push(byte),
    }
}

/// A text with up to three faults, and how many records to lend: about as many as needed.
pub fn any_text(random: &mut Random) -> (Vec<u8>, usize) {
    let nodes = random.numeral();
    let count = any_count(random);
    let mut bytes = text::text(nodes, &any_rows(random, count));
    for _ in 0..random.within(0, 3) {
        harm(random, &mut bytes);
    }
    let lent = match random.within(0, 3) {
        0 => random.within(0, count),
        1 => count,
        _ => count + random.within(1, 20),
    };
    (bytes, lent)
}

/// A text with up to three faults against the model. What is accepted must be what the writer writes.
pub fn harmed(random: &mut Random) -> Result<&'static str, String> {
    let (bytes, lent) = any_text(random);
    let taken = agree_read(random, &bytes, lent)?;
    match taken.answer.number {
        0 => {
            let found = &taken.rows[..taken.answer.rows as usize];
            let put = agree_write(random, taken.answer.nodes, found, bytes.len())?;
            if put.answer.length != bytes.len() || put.area != bytes {
                return Err(format!(
                    "accepted, and the writer writes something else: {}",
                    shown(&bytes)
                ));
            }
            Ok("accepted")
        }
        2 => Ok("2"),
        20 => Ok("20"),
        21 => Ok("21"),
        other => Err(format!("answer {other}")),
    }
}
