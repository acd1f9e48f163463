//! The sheets that are constructed, each family by its size.

use crate::hex::sheet_hex;
use second::engine::Engine;
use second::sheet::{Line, Sheet, AND, BOTTOM, NAME, ONLY, OR, SOME, TOP};

/// Puts a line behind the others and gives its number.
fn push(sheet: &mut Sheet, kind: u8, first: u8, second: u8) -> u8 {
    sheet.lines.push(Line { kind, first, second });
    sheet.lines.len() as u8 - 1
}

/// Names a and for each of them the line only 0 a, with the rule a ⊑ only 0 a. Gives the only lines.
fn inherited(sheet: &mut Sheet, names: u8) -> Vec<u8> {
    let first = sheet.lines.len() as u8;
    for name in 0..names {
        push(sheet, NAME, name, 0);
    }
    let mut onlys = Vec::new();
    for name in 0..names {
        let only = push(sheet, ONLY, 0, first + name);
        sheet.rules.push((first + name, only));
        onlys.push(only);
    }
    onlys
}

/// Unsatisfiable, 2^names records: the port is in some 0 bottom, and every set of only lines asks for a seed of
/// its own, which clashes at once. With `more` one record more, by a second bottom along another role.
pub fn subsets(names: u8, more: bool) -> Sheet {
    let mut sheet = Sheet::default();
    let bottom = push(&mut sheet, BOTTOM, 0, 0);
    let asks = push(&mut sheet, SOME, 0, bottom);
    sheet.individuals = 1;
    sheet.classes.push((0, asks));
    if more {
        let bottom = push(&mut sheet, BOTTOM, 0, 0);
        let asks = push(&mut sheet, SOME, 1, bottom);
        sheet.classes.push((0, asks));
    }
    inherited(&mut sheet, names);
    sheet
}

/// Satisfiable: the port asks for one seed, and that, under every set of only lines, for a seed of its own that is
/// satisfiable and asks for nothing. 2^names + 1 records; with `of` above 1 one of the first `of` only lines has to
/// hold there, which leaves (2^names)(1 - 2^-of) + 1.
pub fn layers(names: u8, of: u8) -> Sheet {
    let mut sheet = Sheet::default();
    let top = push(&mut sheet, TOP, 0, 0);
    let below = push(&mut sheet, SOME, 0, top);
    let onlys = inherited(&mut sheet, names);
    let mut asked = below;
    if of > 1 {
        let mut either = onlys[0];
        for &only in &onlys[1..of as usize] {
            either = push(&mut sheet, OR, either, only);
        }
        asked = push(&mut sheet, AND, below, either);
    }
    let asks = push(&mut sheet, SOME, 0, asked);
    sheet.individuals = 1;
    sheet.classes.push((0, asks));
    sheet
}

/// A cause question: sheet, port and class.
pub struct Query {
    pub sheet: Sheet,
    pub port: u8,
    pub class: u8,
}

/// The lines of sheets.txt for the constructed sheets.
pub fn lines() -> Vec<String> {
    vec![
        sat_line("10-sat-layers", &layers(3, 1)),
        sat_line("10-unsat-subsets", &subsets(3, true)),
        sat_line("300-sat-layers", &layers(8, 1)),
        sat_line("300-unsat-subsets", &subsets(8, true)),
        sat_line("4000-sat-layers", &layers(12, 5)),
        sat_line("4000-unsat-subsets", &subsets(12, false)),
        causes_line("causes-none", &no_cause()),
        causes_line("causes-many", &many_causes()),
        sat_line("deepest-satisfy", &deepest()),
        causes_line("deepest-causes", &Query { sheet: deepest(), port: 7, class: 31 }),
    ]
}

fn sat_line(label: &str, sheet: &Sheet) -> String {
    let need = Engine::new().sat_need(sheet).expect("no budget is set");
    let answer = if need.result.is_some() { "sat" } else { "unsat" };
    format!("{label} constructed {} {} {answer}", sheet_hex(sheet), need.records)
}

fn causes_line(label: &str, query: &Query) -> String {
    let Query { sheet, port, class } = query;
    let need = Engine::new().causes_need(sheet, *port, *class).expect("no budget is set");
    let sets = need.result.expect("a list has a length");
    format!("{label} constructed {} {} causes {port} {class} {sets}", sheet_hex(sheet), need.records)
}

/// Twelve rules of which no set forces the class: eleven from each of twelve names to the next, and one from the
/// first, which the port has, to some 0 of the second. All 4,096 sets are judged, each with a record at most or two.
pub fn no_cause() -> Query {
    let mut sheet = Sheet::default();
    for name in 0..13 {
        push(&mut sheet, NAME, name, 0);
    }
    let asks = push(&mut sheet, SOME, 0, 1);
    for name in 0..11 {
        sheet.rules.push((name, name + 1));
    }
    sheet.rules.push((0, asks));
    sheet.individuals = 1;
    sheet.classes.push((0, 0));
    Query { sheet, port: 0, class: 12 }
}

/// Twelve rules: from each of four names to the next by three ways, of which any one will do. 81 causes.
pub fn many_causes() -> Query {
    let mut sheet = Sheet::default();
    for name in 0..5 {
        push(&mut sheet, NAME, name, 0);
    }
    let bottom = push(&mut sheet, BOTTOM, 0, 0);
    let asks = push(&mut sheet, SOME, 0, bottom);
    for name in 0..4 {
        let and = push(&mut sheet, AND, name + 1, name + 1);
        let or = push(&mut sheet, OR, asks, name + 1);
        sheet.rules.push((name, name + 1));
        sheet.rules.push((name, and));
        sheet.rules.push((name, or));
    }
    sheet.individuals = 1;
    sheet.classes.push((0, 0));
    Query { sheet, port: 0, class: 4 }
}

/// The deepest: a label without a clash has one mark a line at most, and every call of the search adds a mark, so
/// that 8 individuals and 32 lines allow 256 calls inside the first, and a seed of one mark 32, the last of which clashes.
/// This sheet has them all. Two names a and b, only 0 b, and 29 lines, each the line before and a: line 31 fails by the
/// rule 31 ⊑ 31, then all down to only 0 b, one by one, then a and b by their rules, for one individual after the other. The
/// seed asked for is b fails, and goes the same way; where a holds there, the last rule, a ⊑ b, makes it clash.
pub fn deepest() -> Sheet {
    let mut sheet = Sheet::default();
    let a = push(&mut sheet, NAME, 0, 0);
    let b = push(&mut sheet, NAME, 1, 0);
    let mut last = push(&mut sheet, ONLY, 0, b);
    while sheet.lines.len() < 32 {
        last = push(&mut sheet, AND, last, a);
    }
    sheet.rules.extend([(last, last), (a, a), (b, b), (a, b)]);
    sheet.individuals = 8;
    sheet
}

/// 32 names and twelve rules, each from one name to the next, over 24 of them: every rule splits, or goes on without a
/// choice where the seed is one of its names. For the walk alone: nothing is asked for.
pub fn splits() -> Sheet {
    let mut sheet = Sheet::default();
    for name in 0..32 {
        push(&mut sheet, NAME, name, 0);
    }
    sheet.rules.extend((0..12).map(|rule| (2 * rule, 2 * rule + 1)));
    sheet
}
