//! The stored sheets are what their remarks say.

use measure::family;
use measure::sheets::{parse, Asks};
use second::engine::Engine;
use second::sheet::read;

const STORED: &str = include_str!("../sheets.txt");

#[test]
fn needs_and_answers_are_as_stored() {
    let mut engine = Engine::new();
    for question in parse(STORED).expect("every line is understood") {
        let sheet = read(&question.bytes).expect("every sheet is whole");
        let (need, answer) = match question.asks {
            Asks::Sat { satisfiable } => {
                let need = engine.sat_need(&sheet).expect("no budget is set");
                (need, need.result.is_some() == satisfiable)
            }
            Asks::Causes { port, class, sets } => {
                let need = engine.causes_need(&sheet, port as u8, class as u8).expect("no budget is set");
                (need, need.result == Some(sets))
            }
        };
        assert_eq!(need.records, question.need, "{}", question.label);
        assert!(answer, "{}", question.label);
    }
}

#[test]
fn constructed_sheets_are_the_families() {
    let stored: Vec<&str> = STORED.lines().filter(|line| line.contains(" constructed ")).collect();
    let mut lines = family::lines();
    lines.sort();
    let mut sorted = stored.clone();
    sorted.sort();
    assert_eq!(lines, sorted);
}

/// About 10, 300 and 4,000 records, satisfiable and not, constructed and found: none is missing.
#[test]
fn every_size_answer_and_family_is_there() {
    let questions = parse(STORED).expect("every line is understood");
    for (low, high) in [(9, 11), (257, 320), (3900, 4096)] {
        for wanted in [true, false] {
            for family in ["constructed", "found"] {
                let there = questions.iter().any(|question| {
                    question.asks == Asks::Sat { satisfiable: wanted }
                        && question.family == family
                        && (low..=high).contains(&question.need)
                });
                assert!(there, "{low} to {high}, {wanted}, {family}");
            }
        }
    }
}
