//! Sheets drawn at random, and changed at random.

use second::random::Random;
use second::sheet::{Line, Sheet, AND, BOTTOM, NAME, NOT, OR, TOP};

/// A sheet of which everything is drawn at random; few names and roles, so that lines meet.
pub fn draw(random: &mut Random) -> Sheet {
    let mut sheet = Sheet::default();
    for own in 0..random.between(4, 32) as usize {
        let line = any_line(random, own);
        sheet.lines.push(line);
    }
    for _ in 0..random.below(13) {
        let rule = (any(random, sheet.lines.len()), any(random, sheet.lines.len()));
        sheet.rules.push(rule);
    }
    sheet.individuals = random.below(4) as u8;
    if sheet.individuals > 0 {
        for _ in 0..random.below(7) {
            let class = (any(random, sheet.individuals as usize), any(random, sheet.lines.len()));
            sheet.classes.push(class);
        }
        for _ in 0..random.below(4) {
            let role = any_role(random, sheet.individuals as usize);
            sheet.roles.push(role);
        }
    }
    sheet
}

fn any(random: &mut Random, many: usize) -> u8 {
    random.below(many as u64) as u8
}

fn any_role(random: &mut Random, individuals: usize) -> (u8, u8, u8) {
    (any(random, 2), any(random, individuals), any(random, individuals))
}

fn any_line(random: &mut Random, own: usize) -> Line {
    let kind = if own == 0 { any(random, 3) } else { any(random, 8) };
    let (first, second) = match kind {
        TOP | BOTTOM => (0, 0),
        NAME => (any(random, 12), 0),
        NOT => (any(random, own), 0),
        AND | OR => (any(random, own), any(random, own)),
        _ => (any(random, 2), any(random, own)),
    };
    Line { kind, first, second }
}

/// One place changed: a line, a rule, an assertion, put in, taken out or drawn again.
pub fn change(random: &mut Random, sheet: &mut Sheet) {
    let lines = sheet.lines.len();
    match random.below(10) {
        0..=3 => {
            let own = random.below(lines as u64) as usize;
            sheet.lines[own] = any_line(random, own);
        }
        4 if lines < 32 => {
            let line = any_line(random, lines);
            sheet.lines.push(line);
        }
        4..=6 => {
            let rule = (any(random, lines), any(random, lines));
            put(random, &mut sheet.rules, rule, 12);
        }
        7..=8 if sheet.individuals > 0 => {
            let class = (any(random, sheet.individuals as usize), any(random, lines));
            put(random, &mut sheet.classes, class, 16);
        }
        _ if sheet.individuals > 0 => {
            let role = any_role(random, sheet.individuals as usize);
            put(random, &mut sheet.roles, role, 16);
        }
        _ => {}
    }
}

/// Puts an entry in, in the place of another, or takes one out.
fn put<T>(random: &mut Random, list: &mut Vec<T>, entry: T, most: usize) {
    let at = if list.is_empty() { 0 } else { random.below(list.len() as u64) as usize };
    match random.below(3) {
        0 if list.len() < most => list.insert(at, entry),
        1 if !list.is_empty() => {
            list.remove(at);
        }
        _ if !list.is_empty() => list[at] = entry,
        _ => {}
    }
}
