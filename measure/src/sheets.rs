//! The stored sheets. A line of the file is `LABEL FAMILY HEX NEED sat|unsat`, or `LABEL FAMILY HEX NEED causes PORT
//! CLASS SETS`; a line that begins with # is a remark.

use crate::hex;

pub struct Stored {
    pub label: String,
    /// constructed or found
    pub family: String,
    pub hex: String,
    pub bytes: Vec<u8>,
    /// the records needed
    pub need: usize,
    pub asks: Asks,
}

#[derive(Clone, Copy, PartialEq, Eq, Debug)]
pub enum Asks {
    Sat { satisfiable: bool },
    Causes { port: u64, class: u64, sets: usize },
}

impl Asks {
    /// The answer, for a table.
    pub fn answer(self) -> String {
        match self {
            Asks::Sat { satisfiable: true } => "satisfiable".to_string(),
            Asks::Sat { satisfiable: false } => "unsatisfiable".to_string(),
            Asks::Causes { sets, .. } => format!("{sets} causes"),
        }
    }
}

/// All stored sheets, or the number of the first line that is not understood.
pub fn parse(text: &str) -> Result<Vec<Stored>, usize> {
    let mut list = Vec::new();
    for (at, line) in text.lines().enumerate() {
        if line.trim().is_empty() || line.starts_with('#') {
            continue;
        }
        list.push(parse_line(line).ok_or(at + 1)?);
    }
    Ok(list)
}

fn parse_line(line: &str) -> Option<Stored> {
    let words: Vec<&str> = line.split_whitespace().collect();
    let [label, family, text, need, rest @ ..] = &words[..] else {
        return None;
    };
    let asks = match rest {
        ["sat"] => Asks::Sat { satisfiable: true },
        ["unsat"] => Asks::Sat { satisfiable: false },
        ["causes", port, class, sets] => {
            Asks::Causes { port: port.parse().ok()?, class: class.parse().ok()?, sets: sets.parse().ok()? }
        }
        _ => return None,
    };
    Some(Stored {
        label: label.to_string(),
        family: family.to_string(),
        hex: text.to_string(),
        bytes: hex::bytes(text)?,
        need: need.parse().ok()?,
        asks,
    })
}
