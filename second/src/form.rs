//! Random sheets for the generator: well-formed ones of several sorts, and damage done to them
//! (document 01, "How a sheet is laid out").

use crate::random::Random;
use crate::sheet::{Line, Sheet, AND, BOTTOM, NAME, NOT, ONLY, OR, SOME, TOP};

/// What a number of a sheet is, which fixes the answer if it is too large.
#[derive(Clone, Copy, PartialEq, Eq, Debug)]
pub enum Sort {
    Count,
    KindNameRole,
    LineOrIndividual,
}

/// A number of a sheet, of which `many` values would do.
#[derive(Clone, Copy, Debug)]
pub struct Number {
    pub sort: Sort,
    pub value: u16,
    pub many: u16,
}

/// The numbers of a sheet in order.
pub fn numbers(sheet: &Sheet) -> Vec<Number> {
    let mut list = Writer { list: Vec::new() };
    let (lines, individuals) = (sheet.lines.len(), sheet.individuals as usize);
    list.put(Sort::Count, lines as u8, 33);
    for (own, line) in sheet.lines.iter().enumerate() {
        list.line(own, line);
    }
    list.put(Sort::Count, sheet.rules.len() as u8, 13);
    for &(c, d) in &sheet.rules {
        list.put(Sort::LineOrIndividual, c, lines);
        list.put(Sort::LineOrIndividual, d, lines);
    }
    list.put(Sort::Count, sheet.individuals, 9);
    list.put(Sort::Count, sheet.classes.len() as u8, 17);
    for &(individual, line) in &sheet.classes {
        list.put(Sort::LineOrIndividual, individual, individuals);
        list.put(Sort::LineOrIndividual, line, lines);
    }
    list.put(Sort::Count, sheet.roles.len() as u8, 17);
    for &(role, from, to) in &sheet.roles {
        list.put(Sort::KindNameRole, role, 8);
        list.put(Sort::LineOrIndividual, from, individuals);
        list.put(Sort::LineOrIndividual, to, individuals);
    }
    list.list
}

struct Writer {
    list: Vec<Number>,
}

impl Writer {
    fn put(&mut self, sort: Sort, value: u8, many: usize) {
        self.list.push(Number { sort, value: value as u16, many: many as u16 });
    }

    fn line(&mut self, own: usize, line: &Line) {
        self.put(Sort::KindNameRole, line.kind, 8);
        match line.kind {
            TOP | BOTTOM => {}
            NAME => self.put(Sort::KindNameRole, line.first, 32),
            NOT => self.put(Sort::LineOrIndividual, line.first, own),
            AND | OR => {
                self.put(Sort::LineOrIndividual, line.first, own);
                self.put(Sort::LineOrIndividual, line.second, own);
            }
            _ => {
                self.put(Sort::KindNameRole, line.first, 8);
                self.put(Sort::LineOrIndividual, line.second, own);
            }
        }
    }
}

/// The bytes of numbers, each in its shortest form.
pub fn bytes(numbers: &[Number]) -> Vec<u8> {
    let mut out = Vec::new();
    for number in numbers {
        put_number(number.value, &mut out);
    }
    out
}

fn put_number(value: u16, out: &mut Vec<u8>) {
    if value < 0x80 {
        out.push(value as u8);
    } else {
        out.extend([value as u8 | 0x80, (value >> 7) as u8]);
    }
}

/// A random sheet of a random sort.
pub fn any_sheet(random: &mut Random) -> Sheet {
    match random.below(20) {
        0..=3 => free(random, &Size::small()),
        4..=7 => free(random, &Size::middling()),
        8 => free(random, &Size::large()),
        9..=10 => loops(random),
        11..=13 => ports(random),
        14..=15 => behind(random),
        16..=17 => chain(random),
        18 if random.chance(40) => subsets(random),
        18 => many_records(random),
        _ => brim(random),
    }
}

/// A random sheet of a sort that is good for causes.
pub fn cause_sheet(random: &mut Random) -> Sheet {
    let mut sheet = match random.below(10) {
        0..=5 => chain(random),
        6 => ports(random),
        7 => behind(random),
        8 => loops(random),
        _ => free(random, &Size::middling()),
    };
    sheet.individuals = sheet.individuals.max(1);
    sheet
}

/// A random sheet that is likely to have no model.
pub fn tight_sheet(random: &mut Random) -> Sheet {
    let mut sheet = match random.below(4) {
        0 => free(random, &Size::middling()),
        1 => ports(random),
        2 => behind(random),
        _ => loops(random),
    };
    let lines = sheet.lines.len() as u64;
    if lines > 0 && sheet.lines.len() < 32 {
        let own = random.below(lines) as u8;
        sheet.lines.push(Line { kind: NOT, first: own, second: 0 });
        let denied = lines as u8;
        while sheet.rules.len() < 4 {
            sheet.rules.push((any(random, lines as usize + 1), if random.chance(50) { denied } else { own }));
        }
        if sheet.individuals > 0 && sheet.classes.len() < 14 {
            sheet.classes.push((any(random, sheet.individuals as usize), own));
            sheet.classes.push((any(random, sheet.individuals as usize), any(random, lines as usize + 1)));
        }
    }
    sheet
}

/// A sheet of up to 32 some and only lines, for the balance; it is not meant to be searched.
pub fn arrows(random: &mut Random) -> Sheet {
    let mut sheet = Sheet::default();
    let lines = random.pick(&[0, 1, 2, 3, 8, 11, 12, 13, 31, 32]);
    for own in 0..lines {
        let line = if own == 0 || random.chance(10) {
            Line { kind: TOP, first: 0, second: 0 }
        } else {
            Line { kind: random.pick(&[SOME, ONLY]), first: any(random, 8), second: any(random, own) }
        };
        sheet.lines.push(line);
    }
    sheet
}

struct Size {
    lines: (u64, u64),
    rules: (u64, u64),
    individuals: (u64, u64),
    classes: (u64, u64),
    roles: (u64, u64),
}

impl Size {
    fn small() -> Size {
        Size { lines: (0, 6), rules: (0, 2), individuals: (0, 3), classes: (0, 3), roles: (0, 2) }
    }

    fn middling() -> Size {
        Size { lines: (5, 14), rules: (0, 4), individuals: (0, 4), classes: (1, 6), roles: (0, 5) }
    }

    fn large() -> Size {
        Size { lines: (12, 32), rules: (0, 5), individuals: (1, 8), classes: (2, 16), roles: (0, 16) }
    }
}

fn any(random: &mut Random, many: usize) -> u8 {
    random.below(many as u64) as u8
}

/// Few names and roles, so that lines meet; now and then the largest ones.
struct Words {
    names: Vec<u8>,
    roles: Vec<u8>,
}

impl Words {
    fn new(random: &mut Random) -> Words {
        let names = match random.below(10) {
            0 => vec![0, 31],
            1 => vec![31],
            _ => (0..=any(random, 3)).collect(),
        };
        let roles = match random.below(10) {
            0 => vec![7],
            1 => vec![0, 7],
            2..=6 => vec![0],
            _ => vec![0, 1],
        };
        Words { names, roles }
    }
}

/// Any line that may stand at the given number.
fn any_line(random: &mut Random, words: &Words, own: usize) -> Line {
    let leaf = own == 0 || random.chance(25);
    let kind = if leaf {
        random.pick(&[TOP, BOTTOM, NAME, NAME, NAME, NAME, NAME, NAME])
    } else {
        random.pick(&[NOT, NOT, AND, AND, OR, OR, OR, SOME, SOME, SOME, ONLY, ONLY, ONLY])
    };
    let (first, second) = match kind {
        TOP | BOTTOM => (0, 0),
        NAME => (random.pick(&words.names), 0),
        NOT => (any(random, own), 0),
        AND | OR => {
            let first = any(random, own);
            (first, if random.chance(15) { first } else { any(random, own) })
        }
        _ => (random.pick(&words.roles), any(random, own)),
    };
    Line { kind, first, second }
}

/// Everything at random within a size.
fn free(random: &mut Random, size: &Size) -> Sheet {
    let words = Words::new(random);
    let mut sheet = Sheet::default();
    for own in 0..random.between(size.lines.0, size.lines.1) as usize {
        sheet.lines.push(any_line(random, &words, own));
    }
    let rules = random.between(size.rules.0, size.rules.1);
    let classes = random.between(size.classes.0, size.classes.1);
    let roles = random.between(size.roles.0, size.roles.1);
    sheet.individuals = random.between(size.individuals.0, size.individuals.1) as u8;
    add_rules(random, &mut sheet, rules);
    add_classes(random, &mut sheet, classes);
    add_roles(random, &mut sheet, &words, roles);
    sheet
}

fn add_rules(random: &mut Random, sheet: &mut Sheet, many: u64) {
    let lines = sheet.lines.len();
    for _ in 0..if lines == 0 { 0 } else { many } {
        let rule = match sheet.rules.last() {
            Some(&last) if random.chance(8) => last,
            _ => {
                let c = any(random, lines);
                (c, if random.chance(8) { c } else { any(random, lines) })
            }
        };
        sheet.rules.push(rule);
    }
}

fn add_classes(random: &mut Random, sheet: &mut Sheet, many: u64) {
    let (lines, individuals) = (sheet.lines.len(), sheet.individuals as usize);
    for _ in 0..if lines == 0 || individuals == 0 { 0 } else { many } {
        // later lines say more
        let line = any(random, lines).max(any(random, lines));
        sheet.classes.push((any(random, individuals), line));
    }
}

fn add_roles(random: &mut Random, sheet: &mut Sheet, words: &Words, many: u64) {
    let individuals = sheet.individuals as usize;
    for _ in 0..if individuals == 0 { 0 } else { many } {
        let assertion = match sheet.roles.last() {
            Some(&last) if random.chance(10) => last,
            _ => (random.pick(&words.roles), any(random, individuals), any(random, individuals)),
        };
        sheet.roles.push(assertion);
    }
}

/// Rules that ask for something everywhere, so that seeds ask for seeds in a circle.
fn loops(random: &mut Random) -> Sheet {
    let size = Size { lines: (3, 8), rules: (0, 1), individuals: (0, 2), classes: (0, 2), roles: (0, 2) };
    let mut sheet = free(random, &size);
    let words = Words::new(random);
    let wide = if random.chance(60) { Line { kind: TOP, first: 0, second: 0 } } else { sheet.lines[0] };
    let c = sheet.lines.len() as u8;
    sheet.lines.push(wide);
    for _ in 0..random.between(1, 3) {
        let own = sheet.lines.len();
        let kind = random.pick(&[SOME, SOME, ONLY]);
        sheet.lines.push(Line { kind, first: random.pick(&words.roles), second: any(random, own) });
        sheet.rules.push((c, own as u8));
    }
    sheet
}

/// Several individuals that push marks to one another, with chains, circles and two that point at a third.
fn ports(random: &mut Random) -> Sheet {
    let words = Words::new(random);
    let mut sheet = Sheet::default();
    for own in 0..random.between(2, 5) as usize {
        sheet.lines.push(any_line(random, &words, own));
    }
    for own in sheet.lines.len()..sheet.lines.len() + random.between(2, 6) as usize {
        let line = if random.chance(65) {
            Line { kind: random.pick(&[ONLY, ONLY, SOME]), first: random.pick(&words.roles), second: any(random, own) }
        } else {
            any_line(random, &words, own)
        };
        sheet.lines.push(line);
    }
    if random.chance(50) {
        let own = sheet.lines.len();
        sheet.lines.push(Line { kind: NOT, first: any(random, own), second: 0 });
    }
    sheet.individuals = random.between(2, 5) as u8;
    let (rules, classes, roles) = (random.below(3), random.between(2, 7), random.between(1, 7));
    add_rules(random, &mut sheet, rules);
    add_classes(random, &mut sheet, classes);
    add_roles(random, &mut sheet, &words, roles);
    if random.chance(40) {
        circle(random, &mut sheet, &words);
    }
    sheet
}

/// Each individual points at the next and the last at the first.
fn circle(random: &mut Random, sheet: &mut Sheet, words: &Words) {
    let role = random.pick(&words.roles);
    for from in 0..sheet.individuals {
        sheet.roles.push((role, from, (from + 1) % sheet.individuals));
    }
}

/// Splits whose first branch settles, but asks for a seed that is unsatisfiable, at once or some steps on.
fn behind(random: &mut Random) -> Sheet {
    let words = Words::new(random);
    let mut sheet = Sheet::default();
    let push = |sheet: &mut Sheet, kind: u8, first: u8, second: u8| {
        sheet.lines.push(Line { kind, first, second });
        sheet.lines.len() as u8 - 1
    };
    let name = push(&mut sheet, NAME, random.pick(&words.names), 0);
    let mut bad = match random.below(3) {
        0 => push(&mut sheet, BOTTOM, 0, 0),
        1 => {
            let denied = push(&mut sheet, NOT, name, 0);
            push(&mut sheet, AND, name, denied)
        }
        _ => {
            let top = push(&mut sheet, TOP, 0, 0);
            push(&mut sheet, NOT, top, 0)
        }
    };
    for _ in 0..random.between(1, 3) {
        bad = push(&mut sheet, SOME, random.pick(&words.roles), bad);
    }
    for _ in 0..random.below(4) {
        let own = sheet.lines.len();
        let line = any_line(random, &words, own);
        sheet.lines.push(line);
    }
    let other = any(random, sheet.lines.len());
    let either = push(&mut sheet, OR, bad, other);
    let arrow = push(&mut sheet, random.pick(&[SOME, ONLY]), random.pick(&words.roles), either);
    sheet.individuals = random.below(4) as u8;
    let (rules, classes, roles) = (random.below(3), random.between(0, 3), random.below(4));
    add_rules(random, &mut sheet, rules);
    add_classes(random, &mut sheet, classes);
    add_roles(random, &mut sheet, &words, roles);
    let asked = random.pick(&[either, arrow]);
    if sheet.individuals > 0 && random.chance(70) {
        sheet.classes.push((any(random, sheet.individuals as usize), asked));
    } else {
        let c = any(random, sheet.lines.len());
        sheet.rules.push((c, asked));
    }
    sheet
}

/// Names that force one another by several ways, some through a seed, some in contradiction.
fn chain(random: &mut Random) -> Sheet {
    let mut sheet = Sheet::default();
    let names = random.between(2, 5) as usize;
    for name in 0..names {
        sheet.lines.push(Line { kind: NAME, first: name as u8, second: 0 });
    }
    for _ in 0..random.below(5) {
        let own = sheet.lines.len();
        let line = match random.below(6) {
            0 => Line { kind: BOTTOM, first: 0, second: 0 },
            1 => Line { kind: NOT, first: any(random, own), second: 0 },
            2 | 3 => Line { kind: random.pick(&[SOME, ONLY]), first: any(random, 2), second: any(random, own) },
            _ => Line { kind: random.pick(&[AND, OR]), first: any(random, own), second: any(random, own) },
        };
        sheet.lines.push(line);
    }
    for _ in 0..random.between(1, 7) {
        let c = if random.chance(70) { any(random, names) } else { any(random, sheet.lines.len()) };
        sheet.rules.push((c, any(random, sheet.lines.len())));
    }
    sheet.individuals = random.between(1, 3) as u8;
    let roles = random.below(3);
    sheet.classes.push((0, any(random, names)));
    let classes = random.below(3);
    add_classes(random, &mut sheet, classes);
    add_roles(random, &mut sheet, &Words { names: vec![], roles: vec![0, 1] }, roles);
    sheet
}

/// Rules by which names force one another, others that cannot stand together, and neighbours asked for, so that lists
/// have both marks, and judging takes more records once a class need not fail.
pub fn two_ways(random: &mut Random) -> Sheet {
    let mut sheet = Sheet::default();
    let push = |sheet: &mut Sheet, kind: u8, first: u8, second: u8| {
        sheet.lines.push(Line { kind, first, second });
        sheet.lines.len() as u8 - 1
    };
    let names = random.between(2, 4) as usize;
    for name in 0..names {
        push(&mut sheet, NAME, name as u8, 0);
    }
    let name = any(random, names);
    let denied = push(&mut sheet, NOT, name, 0);
    let mut bad = match random.below(3) {
        0 => push(&mut sheet, BOTTOM, 0, 0),
        1 => push(&mut sheet, AND, name, denied),
        _ => denied,
    };
    if random.chance(30) {
        bad = push(&mut sheet, SOME, any(random, 2), bad);
    }
    let mut asking = Vec::new();
    for _ in 0..random.below(3) {
        let operand = if random.chance(70) { any(random, names) } else { any(random, sheet.lines.len()) };
        let kind = random.pick(&[SOME, SOME, ONLY]);
        asking.push(push(&mut sheet, kind, any(random, 2), operand));
    }
    let mut ends = vec![bad, denied];
    ends.extend(&asking);
    for _ in 0..random.between(1, 3) {
        sheet.rules.push((any(random, names), any(random, names)));
    }
    for _ in 0..random.between(1, 3) {
        let at = random.below(sheet.rules.len() as u64 + 1) as usize;
        let c = if random.chance(80) { any(random, names) } else { any(random, sheet.lines.len()) };
        sheet.rules.insert(at, (c, random.pick(&ends)));
    }
    sheet.individuals = random.between(1, 3) as u8;
    sheet.classes.push((0, any(random, names)));
    if !asking.is_empty() && random.chance(60) {
        sheet.classes.push((any(random, sheet.individuals as usize), random.pick(&asking)));
    }
    if random.chance(30) {
        add_classes(random, &mut sheet, 1);
    }
    let roles = random.below(3);
    add_roles(random, &mut sheet, &Words { names: vec![], roles: vec![0, 1] }, roles);
    sheet
}

/// Some and only lines on which rules split, so that many seeds are reached.
fn many_records(random: &mut Random) -> Sheet {
    let words = Words { names: vec![0, 1], roles: if random.chance(70) { vec![0] } else { vec![0, 1] } };
    let mut sheet = Sheet::default();
    sheet.lines.push(Line { kind: NAME, first: 0, second: 0 });
    sheet.lines.push(Line { kind: random.pick(&[NAME, TOP]), first: 0, second: 0 });
    for own in 2..2 + random.between(3, 6) as usize {
        let kind = random.pick(&[SOME, ONLY]);
        sheet.lines.push(Line { kind, first: random.pick(&words.roles), second: any(random, own) });
    }
    let lines = sheet.lines.len() as u8;
    for own in 2..lines {
        let d = if random.chance(70) { own } else { any(random, lines as usize) };
        sheet.rules.push((own, d));
    }
    sheet.individuals = random.below(3) as u8;
    let classes = random.below(4);
    add_classes(random, &mut sheet, classes);
    sheet
}

/// Each set of k only lines asks for a seed of its own that clashes at once: 2^k records without much work, or
/// one more by a second bottom along another role. With k = 12 that is all the room there may be, or one more.
fn subsets(random: &mut Random) -> Sheet {
    let mut sheet = Sheet::default();
    let names = random.pick(&[1, 2, 3, 3, 4, 4, 5, 6, 7, 12]);
    let more = random.chance(40);
    let bottom = Line { kind: BOTTOM, first: 0, second: 0 };
    sheet.lines.extend([bottom, bottom]);
    sheet.lines.push(Line { kind: SOME, first: 0, second: 0 });
    sheet.lines.push(Line { kind: SOME, first: 1, second: 1 });
    for name in 0..names {
        sheet.lines.push(Line { kind: NAME, first: name, second: 0 });
    }
    for name in 0..names {
        sheet.rules.push((4 + name, sheet.lines.len() as u8));
        sheet.lines.push(Line { kind: ONLY, first: 0, second: 4 + name });
    }
    sheet.individuals = 1;
    sheet.classes.push((0, 2));
    if more {
        sheet.classes.push((0, 3));
    }
    sheet
}

/// Every count at or near its limit, with the largest names and roles.
fn brim(random: &mut Random) -> Sheet {
    let words = Words { names: vec![0, 30, 31], roles: vec![0, 6, 7] };
    let mut sheet = Sheet::default();
    for own in 0..random.between(31, 32) as usize {
        let line = if random.chance(40) {
            Line { kind: NAME, first: random.pick(&words.names), second: 0 }
        } else {
            any_line(random, &words, own)
        };
        sheet.lines.push(line);
    }
    sheet.individuals = random.between(7, 8) as u8;
    let (rules, classes, roles) = (random.pick(&[0, 1, 11, 12]), random.between(15, 16), random.between(15, 16));
    add_rules(random, &mut sheet, rules);
    add_classes(random, &mut sheet, classes);
    add_roles(random, &mut sheet, &words, roles);
    sheet
}

/// The place where the number stands, if all before it are in their shortest form.
fn place(numbers: &[Number], index: usize) -> usize {
    bytes(&numbers[..index]).len()
}

/// A sheet cut short, or ending inside a number.
pub fn cut(random: &mut Random, sheet: &Sheet) -> Vec<u8> {
    let mut whole = bytes(&numbers(sheet));
    whole.truncate(random.below(whole.len() as u64) as usize);
    if random.chance(25) {
        whole.push(random.pick(&[0x80, 0x81, 0xff]));
    }
    whole
}

/// A badly formed number somewhere in the sheet.
pub fn malform(random: &mut Random, sheet: &Sheet) -> Vec<u8> {
    let numbers = numbers(sheet);
    let index = random.below(numbers.len() as u64) as usize;
    let mut whole = bytes(&numbers);
    let at = place(&numbers, index);
    let second = random.pick(&[0x00, 0x00, 0x80, 0x81, 0xff]);
    let low = whole[at] | 0x80;
    whole.splice(at..at + 1, [low, second]);
    if random.chance(20) {
        whole.truncate(at + 2);
    }
    whole
}

/// A number of the given sort that is too large, by one or by more; None if the sheet has none of the sort.
pub fn overdo(random: &mut Random, sheet: &Sheet, sort: Sort) -> Option<Vec<u8>> {
    let mut numbers = numbers(sheet);
    let places: Vec<usize> = (0..numbers.len()).filter(|&i| numbers[i].sort == sort).collect();
    if places.is_empty() {
        return None;
    }
    let index = random.pick(&places);
    let many = numbers[index].many;
    numbers[index].value = random.pick(&[many, many, many + 1, 127, 128, 129, 255, 256, 16383]);
    let mut whole = bytes(&numbers);
    if random.chance(20) {
        whole.truncate(place(&numbers, index + 1));
    }
    Some(whole)
}

/// Spare bytes behind the sheet.
pub fn lengthen(random: &mut Random, sheet: &Sheet) -> Vec<u8> {
    let mut whole = bytes(&numbers(sheet));
    let spare = if random.chance(3) { random.between(100, 3000) } else { random.between(1, 4) };
    for _ in 0..spare {
        whole.push(random.pick(&[0, 1, 0x7f, 0x80, 0xff]));
    }
    whole
}

/// Any damage, or several: bytes changed, put in, taken out; now and then nothing but noise.
pub fn damage(random: &mut Random, sheet: &Sheet) -> Vec<u8> {
    let mut whole = bytes(&numbers(sheet));
    if random.chance(10) {
        whole = (0..random.below(30)).map(|_| random.pick(&[0, 1, 2, 3, 4, 5, 6, 7, 8, 0x80, 0xff])).collect();
    }
    for _ in 0..random.between(1, 3) {
        if whole.is_empty() {
            break;
        }
        let at = random.below(whole.len() as u64) as usize;
        match random.below(4) {
            0 => whole[at] = random.below(256) as u8,
            1 => whole[at] = random.below(9) as u8,
            2 => whole.insert(at, random.below(33) as u8),
            _ => {
                whole.remove(at);
            }
        }
    }
    whole
}
