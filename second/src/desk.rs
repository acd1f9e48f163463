//! Questions and answers as lines of text: `sat HEX ROOM MARKS WORDS`, `causes HEX PORT CLASS ROOM MARKS SLOTS`,
//! `balance HEX ROOM`, `write LENGTH N N ..`. Between words stand blanks, tabs and carriage returns. A line without
//! words, or whose first word starts with #, is no question. What is beyond the desk's buffers or not understood is
//! answered `what?`.

use crate::engine::{Answer, Engine};
use crate::sheet::balance;
use crate::write::write;

pub const MOST_ROOM: u64 = 5_000;
pub const MOST_MARKS: u64 = 8_192;
pub const MOST_WORDS: u64 = 65_536;
pub const MOST_SLOTS: u64 = 4_096;
pub const MOST_BYTES: usize = 4_096;
pub const MOST_LENGTH: u64 = 2_048;

pub struct Desk {
    engine: Engine,
    sheet: Vec<u8>,
    words: Vec<u32>,
    slots: Vec<u16>,
}

impl Default for Desk {
    fn default() -> Self {
        Desk::new()
    }
}

impl Desk {
    pub fn new() -> Desk {
        Desk { engine: Engine::new(), sheet: Vec::new(), words: Vec::new(), slots: Vec::new() }
    }

    /// Puts the line of answer behind `out`; nothing for a blank line or a remark.
    pub fn answer(&mut self, line: &[u8], out: &mut Vec<u8>) {
        let line = line.strip_suffix(b"\n").unwrap_or(line);
        let line = line.strip_suffix(b"\r").unwrap_or(line);
        let mut words = line.split(|&byte| is_blank(byte)).filter(|word| !word.is_empty());
        let Some(verb) = words.next() else {
            return;
        };
        if verb.starts_with(b"#") {
            return;
        }
        if self.understood(verb, words, out).is_none() {
            out.extend_from_slice(b"what?");
        }
        out.push(b'\n');
    }

    /// Answers the question, or gives None before anything was put out.
    fn understood<'a>(&mut self, verb: &[u8], words: impl Iterator<Item = &'a [u8]>, out: &mut Vec<u8>) -> Option<()> {
        if verb == b"write" {
            return put_written(words, out);
        }
        let mut parts = [&b""[..]; 6];
        let mut count = 0;
        for word in words {
            *parts.get_mut(count)? = word;
            count += 1;
        }
        match (verb, count) {
            (b"sat", 4) => self.sat(&parts, out),
            (b"causes", 6) => self.causes(&parts, out),
            (b"balance", 2) => self.balance(&parts, out),
            _ => None,
        }
    }

    fn sat(&mut self, parts: &[&[u8]], out: &mut Vec<u8>) -> Option<()> {
        self.take_sheet(parts[0])?;
        let room = number(parts[1], MOST_ROOM)?;
        let marks = number(parts[2], MOST_MARKS)?;
        self.words.resize(number(parts[3], MOST_WORDS)? as usize, 0);
        let answer = self.engine.sat(&self.sheet, room, marks, &mut self.words);
        put_answer(answer, self.words.iter().map(|&word| word as u64), out);
        Some(())
    }

    fn causes(&mut self, parts: &[&[u8]], out: &mut Vec<u8>) -> Option<()> {
        self.take_sheet(parts[0])?;
        let port = number(parts[1], u64::MAX)?;
        let class = number(parts[2], u64::MAX)?;
        let room = number(parts[3], MOST_ROOM)?;
        let marks = number(parts[4], MOST_MARKS)?;
        self.slots.resize(number(parts[5], MOST_SLOTS)? as usize, 0);
        let answer = self.engine.causes(&self.sheet, port, class, room, marks, &mut self.slots);
        put_answer(answer, self.slots.iter().map(|&slot| slot as u64), out);
        Some(())
    }

    fn balance(&mut self, parts: &[&[u8]], out: &mut Vec<u8>) -> Option<()> {
        self.take_sheet(parts[0])?;
        let room = number(parts[1], u64::MAX)?;
        match balance(&self.sheet, room) {
            Ok(balance) => {
                out.extend_from_slice(b"bal ");
                if balance < 0 {
                    out.push(b'-');
                }
                put_number(balance.unsigned_abs(), out);
            }
            Err(refusal) => put_pair(refusal.into(), out),
        }
        Some(())
    }

    fn take_sheet(&mut self, hex: &[u8]) -> Option<()> {
        self.sheet.clear();
        if hex == b"-" {
            return Some(());
        }
        if hex.len() % 2 == 1 || hex.len() > 2 * MOST_BYTES {
            return None;
        }
        for pair in hex.chunks_exact(2) {
            self.sheet.push(digit(pair[0])? << 4 | digit(pair[1])?);
        }
        Some(())
    }
}

/// What stands between words; a carriage return belongs to the line's end, and is no blank elsewhere.
fn is_blank(byte: u8) -> bool {
    matches!(byte, b' ' | b'\t')
}

fn digit(character: u8) -> Option<u8> {
    (character as char).to_digit(16).map(|digit| digit as u8)
}

/// Decimal digits only, at most `most`.
fn number(text: &[u8], most: u64) -> Option<u64> {
    let mut value: u64 = 0;
    for &character in text {
        if !character.is_ascii_digit() {
            return None;
        }
        value = value.checked_mul(10)?.checked_add((character - b'0') as u64)?;
    }
    (value <= most).then_some(value)
}

fn put_answer(answer: Answer, buffer: impl Iterator<Item = u64>, out: &mut Vec<u8>) {
    put_pair(answer, out);
    out.extend_from_slice(b" : ");
    if answer.is_refusal() {
        out.extend_from_slice(b"untouched");
        return;
    }
    // Blanks stand between words only, so an empty buffer leaves the blank behind the colon at the end.
    for (at, word) in buffer.enumerate() {
        if at > 0 {
            out.push(b' ');
        }
        put_number(word, out);
    }
}

/// The buffer's length, then the numbers of a form in the sheet's order. The answer 0 shows the bytes written.
fn put_written<'a>(mut words: impl Iterator<Item = &'a [u8]>, out: &mut Vec<u8>) -> Option<()> {
    let length = number(words.next()?, MOST_LENGTH)? as usize;
    let numbers = words.map(|word| number(word, u16::MAX as u64).map(|number| number as u16));
    let (number, value, bytes) = write(&numbers.collect::<Option<Vec<u16>>>()?, length);
    put_pair(Answer { number, value }, out);
    out.extend_from_slice(b" : ");
    if number != 0 {
        out.extend_from_slice(b"untouched");
    }
    for byte in bytes {
        out.extend([byte >> 4, byte & 15].map(|digit| b"0123456789abcdef"[digit as usize]));
    }
    Some(())
}

fn put_pair(answer: Answer, out: &mut Vec<u8>) {
    put_number(answer.number as u64, out);
    out.push(b' ');
    put_number(answer.value, out);
}

fn put_number(mut number: u64, out: &mut Vec<u8>) {
    if number < 10 {
        out.push(b'0' + number as u8);
        return;
    }
    let mut digits = [0; 20];
    let mut at = digits.len();
    while number > 0 {
        at -= 1;
        digits[at] = b'0' + (number % 10) as u8;
        number /= 10;
    }
    out.extend_from_slice(&digits[at..]);
}
