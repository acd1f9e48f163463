//! The sheets of long.txt: each is read, its search goes beyond a million steps, and FaCT++, where it is installed, agrees with what is known.

use measure::{fact, hex};
use second::engine::Engine;
use second::sheet::{read, Line, Sheet, NOT};
use std::fs;
use std::path::Path;
use std::process::Command;

const BUDGET: u64 = 1_000_000;

struct Long {
    label: String,
    sheet: Sheet,
    /// `sat` or `unsat`, or `causes` with port, class and sets
    known: Vec<String>,
}

fn stored() -> Vec<Long> {
    let lines = include_str!("../long.txt").lines().filter(|line| !line.is_empty() && !line.starts_with('#'));
    lines.map(long).collect()
}

fn long(line: &str) -> Long {
    let words: Vec<&str> = line.split(' ').collect();
    let bytes = hex::bytes(words[1]).expect("hexadecimal");
    let sheet = read(&bytes).unwrap_or_else(|_| panic!("{} is a sheet", words[0]));
    Long { label: words[0].to_string(), sheet, known: words[2..].iter().map(|word| word.to_string()).collect() }
}

impl Long {
    fn number(&self, at: usize) -> u16 {
        self.known[at].parse().expect("a number")
    }

    /// The sheet with these rules alone and the class denied of the port.
    fn denied(&self, set: u16) -> Sheet {
        let mut sheet = self.sheet.clone();
        let (port, class) = (self.number(1) as u8, self.number(2) as u8);
        sheet.rules = (0..).zip(&self.sheet.rules).filter(|(n, _)| set >> n & 1 == 1).map(|(_, &rule)| rule).collect();
        sheet.lines.push(Line { kind: NOT, first: class, second: 0 });
        sheet.classes.push((port, sheet.lines.len() as u8 - 1));
        sheet
    }
}

#[test]
fn they_are_long() {
    let all = stored();
    assert!(all.len() > 10);
    for long in all {
        let mut engine = Engine::new();
        engine.meter.budget = BUDGET;
        let ended = match long.known[0].as_str() {
            "causes" => engine.causes_need(&long.sheet, long.number(1) as u8, long.number(2) as u8).is_ok(),
            _ => engine.sat_need(&long.sheet).is_ok(),
        };
        assert!(!ended, "{} ends", long.label);
    }
}

#[test]
fn fact_agrees() {
    for long in stored() {
        if long.known[0] != "causes" {
            agrees(&long.label, &long.sheet, long.known[0] == "sat");
            continue;
        }
        for set in long.known[3..].iter().map(|set| set.parse::<u16>().expect("a set")) {
            agrees(&long.label, &long.denied(set), false);
            for rule in (0..12).filter(|rule| set >> rule & 1 == 1) {
                agrees(&long.label, &long.denied(set & !(1 << rule)), true);
            }
        }
    }
}

/// Says nothing where FaCT++ is not installed.
fn agrees(label: &str, sheet: &Sheet, expected: bool) {
    let folder = Path::new(env!("CARGO_TARGET_TMPDIR")).join("long");
    fs::create_dir_all(&folder).expect("the folder can be made");
    fs::write(folder.join("sheet.kb"), fact::knowledge(sheet)).expect("the folder can be written");
    fs::write(folder.join("sheet.conf"), fact::settings("sheet.kb")).expect("the folder can be written");
    let Ok(output) = Command::new("FaCT++").arg("sheet.conf").current_dir(folder).output() else {
        return eprintln!("FaCT++ is not installed: nothing compared");
    };
    let written = [output.stdout, output.stderr].concat();
    assert_eq!(fact::verdict(&String::from_utf8_lossy(&written)), Some(expected), "{label}");
}
