//! Calls that judge a catalogue or write of it, each held to the model: the answer, the whole area, and what lies around it.

use crate::cases::Outcome;
use crate::catalogue::{self, text, FIELDS, FIRST_LABEL, LINES, LONGEST, NUMBERS};
use crate::panel::{self, EditAnswer, SentenceAnswer};
use crate::random::Random;
use crate::texts::harm;

/// Bytes before and behind a lent area that must stay as they are.
const AROUND: usize = 16;

/// More bytes than any sentence has.
pub const AMPLE: usize = 120;

/// What is asked of a catalogue.
#[derive(Clone, Copy, Debug)]
pub enum Asked {
    Sentence { number: u16, row: u16, slot: u16 },
    Label { field: u16 },
}

impl Asked {
    pub fn call(self, text: &[u8], area: &mut [u8]) -> SentenceAnswer {
        match self {
            Asked::Sentence { number, row, slot } => panel::sentence(text, number, row, slot, area),
            Asked::Label { field } => panel::label(text, field, area),
        }
    }

    pub fn model(self, text: &[u8], area: &mut [u8]) -> SentenceAnswer {
        match self {
            Asked::Sentence { number, row, slot } => {
                catalogue::sentence(text, number, row, slot, area)
            }
            Asked::Label { field } => catalogue::label(text, field, area),
        }
    }
}

/// The answer and the lent area after the call.
pub struct Said {
    pub answer: SentenceAnswer,
    pub area: Vec<u8>,
}

fn shown(text: &[u8]) -> String {
    let start = text[..text.len().min(400)].escape_ascii();
    format!("{} bytes: \"{start}\"", text.len())
}

/// Judges a catalogue, and holds what comes of it to the model.
pub fn agree_judge(text: &[u8]) -> Result<EditAnswer, String> {
    let lent = text.to_vec();
    let (answer, expected) = (panel::catalogue(&lent), catalogue::judge(text));
    if answer != expected || lent != text {
        return Err(format!(
            "judged {answer:?}, and by the model {expected:?}\n{}",
            shown(text)
        ));
    }
    Ok(answer)
}

/// Asks for a sentence or a label in an area of this length, filled with a pattern, and holds what comes of it to the model.
pub fn agree_asked(
    random: &mut Random,
    text: &[u8],
    asked: Asked,
    lent: usize,
) -> Result<Said, String> {
    let before = random.bytes(lent + 2 * AROUND);
    let mut area = before.clone();
    let mut area_model = before;
    let lent_text = text.to_vec();
    let answer = asked.call(&lent_text, &mut area[AROUND..AROUND + lent]);
    let expected = asked.model(text, &mut area_model[AROUND..AROUND + lent]);
    let tell = |what: String| Err(format!("{asked:?}: {what}\n{lent} lent, {}", shown(text)));
    if answer != expected {
        return tell(format!("answers {answer:?}, and the model {expected:?}"));
    }
    if let Some(i) = (0..area.len()).find(|&i| area[i] != area_model[i]) {
        let at = i as i64 - AROUND as i64;
        return tell(format!(
            "byte {at} is {}, and the model's {}",
            area[i], area_model[i]
        ));
    }
    if lent_text != text {
        return tell("the lent catalogue has changed".to_string());
    }
    area.truncate(AROUND + lent);
    Ok(Said {
        answer,
        area: area.split_off(AROUND),
    })
}

/// A number that has a string, most often.
fn any_of(random: &mut Random, known: &[u16]) -> u16 {
    if random.once_in(6) {
        random.numeral()
    } else {
        known[random.within(0, known.len() - 1)]
    }
}

/// Something to ask for.
pub fn any_asked(random: &mut Random) -> Asked {
    if random.once_in(2) {
        Asked::Label {
            field: any_of(random, &FIELDS),
        }
    } else {
        Asked::Sentence {
            number: any_of(random, &NUMBERS),
            row: random.numeral(),
            slot: random.numeral(),
        }
    }
}

/// A string of bytes that may be in one, short most often.
fn any_string(random: &mut Random) -> Vec<u8> {
    let length = match random.within(0, 9) {
        0 => LONGEST,
        1 => random.within(1, LONGEST),
        _ => random.within(1, 3),
    };
    let byte = |random: &mut Random| match random.within(0, 3) {
        0 => b"= \r\0\xff\xc3\xa4r1"[random.within(0, 8)],
        _ => random.within(b'a' as usize, b'c' as usize) as u8,
    };
    (0..length).map(|_| byte(random)).collect()
}

/// A catalogue: right at times, and else with strings of a wrong length, equal labels or harm of any kind.
pub fn any_catalogue(random: &mut Random) -> Vec<u8> {
    let mut strings: Vec<Vec<u8>> = (0..LINES).map(|_| any_string(random)).collect();
    let labels = &mut strings[FIRST_LABEL - 1..];
    for (i, label) in labels.iter_mut().enumerate() {
        label.truncate(LONGEST - 1);
        label.push(b'0' + i as u8);
    }
    if random.once_in(5) {
        labels[random.within(0, 5)] = labels[random.within(0, 5)].clone();
    }
    if random.once_in(5) {
        let length = [0, LONGEST, LONGEST + 1, 300][random.within(0, 3)];
        strings[random.within(0, LINES - 1)].resize(length, b'x');
    }
    let mut bytes = text(&strings);
    let faults = [0, 0, 1, 2, 3][random.within(0, 4)];
    (0..faults).for_each(|_| harm(random, &mut bytes));
    bytes
}

/// A room for what is asked: about as much as is needed.
pub fn any_room(random: &mut Random, text: &[u8], asked: Asked) -> usize {
    let needed = asked.model(text, &mut [0; AMPLE]).length;
    match random.within(0, 5) {
        0 => random.within(0, AMPLE),
        1 => needed.saturating_sub(1),
        2 => needed + random.within(1, 9),
        _ => needed,
    }
}

/// A random catalogue, judged, and asked for a sentence or a label, against the model.
pub fn any(random: &mut Random) -> Outcome {
    let text = any_catalogue(random);
    let verdict = agree_judge(&text)?;
    let asked = any_asked(random);
    let room = any_room(random, &text, asked);
    let answer = agree_asked(random, &text, asked, room)?.answer;
    if verdict.number != 0 && (answer.number, answer.row) != (verdict.number, verdict.row) {
        return Err(format!("judged {verdict:?}, and {asked:?}: {answer:?}"));
    }
    match answer.number {
        0 => Ok("written"),
        22 => Ok("22"),
        30 => Ok("30"),
        31 => Ok("31"),
        32 => Ok("32"),
        33 => Ok("33"),
        other => Err(format!("answer {other}")),
    }
}
