//! `generate N SEED [write | causes] [--count]` prints N questions for the desk (see desk.rs), the same for the same
//! seed: the three kinds of document 01, all answer numbers of its table, with rooms and buffers just too small, exact
//! and larger. With `write`, questions to the writer instead; with `causes`, questions for cause lists alone, aimed at
//! their marks and at what judging takes with "class fails" and without. `--count` tells on standard error how often
//! the second engine gives each answer, and of cause lists which marks they have and which judgement lacks room.
//!
//! Most questions aim at one answer number; the engine itself says what a sheet needs. Sheets whose search goes
//! beyond a budget of steps are thrown away, so that every question stays cheap. How many that were of how many
//! searched is told on standard error.

use second::causes::{Found, CONTRADICTORY};
use second::desk::Desk;
use second::engine::{Engine, Need};
use second::form::{self, Sort};
use second::lists;
use second::random::Random;
use second::sheet::{read, Sheet, SOME};
use second::verdict::Halt;
use std::collections::BTreeMap;
use std::io::{self, BufWriter, Write};

/// Steps that the search for one question may take: one or two thousandths of a second.
const BUDGET: u64 = 100_000;

/// Answers to aim at; more weight for those that say most about an engine.
const AIMS: &[Aim] = &[
    Aim::Number(1),
    Aim::Number(2),
    Aim::Number(3),
    Aim::Number(4),
    Aim::Number(5),
    Aim::Number(6),
    Aim::Number(7),
    Aim::Number(8),
    Aim::Number(10),
    Aim::Number(10),
    Aim::Number(10),
    Aim::Number(10),
    Aim::Number(11),
    Aim::Number(11),
    Aim::Number(12),
    Aim::Number(12),
    Aim::Number(12),
    Aim::Number(13),
    Aim::Number(13),
    Aim::Number(13),
    Aim::Number(14),
    Aim::Number(14),
    Aim::Number(14),
    Aim::Number(14),
    Aim::Number(15),
    Aim::Number(15),
    Aim::Balance,
    Aim::Balance,
    Aim::Anything,
    Aim::Anything,
    Aim::Anything,
    Aim::Anything,
];

#[derive(Clone, Copy)]
enum Aim {
    Number(u8),
    Balance,
    Anything,
}

struct Generator {
    random: Random,
    engine: Engine,
    /// searches begun, and those given up since they went beyond the budget
    searched: u64,
    left_out: u64,
}

/// A cause query that may be asked of a sheet.
struct Query {
    sheet: Sheet,
    port: u64,
    class: u64,
    /// with "class fails"
    need: Need,
    /// the list with its marks, and what judging it without "class fails" needs
    marked: Found,
}

impl Query {
    /// What both judgements need.
    fn records(&self) -> usize {
        self.need.records.max(self.marked.need)
    }

    fn has_contradictory(&self) -> bool {
        self.marked.slots.iter().any(|slot| slot & CONTRADICTORY != 0)
    }

    fn has_catching(&self) -> bool {
        self.marked.slots.iter().any(|slot| slot & CONTRADICTORY == 0)
    }
}

fn main() -> io::Result<()> {
    let mut count = false;
    let mut ask: fn(&mut Generator) -> String = Generator::question;
    let mut numbers = Vec::new();
    for word in std::env::args().skip(1) {
        match word.parse::<u64>() {
            Ok(number) => numbers.push(number),
            Err(_) if word == "--count" => count = true,
            Err(_) if word == "write" => ask = Generator::write_question,
            Err(_) if word == "causes" => ask = Generator::marked_question,
            Err(_) => return usage(),
        }
    }
    let [many, seed] = numbers[..] else {
        return usage();
    };
    generate(many, seed, ask, count)
}

fn usage() -> io::Result<()> {
    eprintln!("generate N SEED [write | causes] [--count]");
    std::process::exit(2)
}

fn generate(many: u64, seed: u64, ask: fn(&mut Generator) -> String, count: bool) -> io::Result<()> {
    let mut generator = Generator { random: Random(seed), engine: Engine::new(), searched: 0, left_out: 0 };
    let mut output = BufWriter::new(io::stdout().lock());
    let mut counter = Counter { desk: Desk::new(), engine: Engine::new(), counts: BTreeMap::new() };
    for _ in 0..many {
        let question = ask(&mut generator);
        if count {
            counter.take(&question);
        }
        writeln!(output, "{question}")?;
    }
    output.flush()?;
    for (name, number) in &counter.counts {
        eprintln!("{name:<44} {number:>6}");
    }
    let Generator { searched, left_out, .. } = generator;
    if searched > 0 {
        eprintln!("left out as too long (over {BUDGET} steps): {left_out} of {searched} searched");
    }
    Ok(())
}

struct Counter {
    desk: Desk,
    engine: Engine,
    counts: BTreeMap<String, u64>,
}

impl Counter {
    fn take(&mut self, question: &str) {
        let mut answer = Vec::new();
        self.desk.answer(question.as_bytes(), &mut answer);
        let answer = String::from_utf8_lossy(&answer);
        let verb = question.split(' ').next().unwrap_or("");
        let first = answer.split_whitespace().next().unwrap_or("");
        *self.counts.entry(format!("{first:>5} {verb}")).or_default() += 1;
        *self.counts.entry(format!("{first:>5} all")).or_default() += 1;
        if verb == "causes" && ["13", "14", "15"].contains(&first) {
            let sort = self.cause_sort(question, first);
            *self.counts.entry(format!("{first:>5} causes, {sort}")).or_default() += 1;
        }
    }

    /// The marks of a list, or which judgement lacks room.
    fn cause_sort(&mut self, question: &str, first: &str) -> &'static str {
        let words: Vec<&str> = question.split(' ').collect();
        let number = |at: usize| words[at].parse::<usize>().expect("a question in order");
        let sheet = read(&unhex(words[1])).expect("a sheet in order");
        let smallest = self.engine.smallest(&sheet, number(2) as u8, number(3) as u8).expect("no budget is set");
        let marked = self.engine.marked(&sheet, &smallest.slots).expect("no budget is set");
        let contradictory = marked.slots.iter().filter(|&slot| slot & CONTRADICTORY != 0).count();
        match first {
            "13" if marked.need <= number(4) => "with \"class fails\" alone",
            "13" if smallest.need <= number(4) => "without \"class fails\" alone",
            "13" => "with \"class fails\" and without",
            _ if marked.slots.is_empty() => "none listed",
            _ if marked.slots == [CONTRADICTORY] => "the assertions contradictory",
            _ if contradictory == 0 => "all catching",
            _ if contradictory == marked.slots.len() => "all contradictory",
            _ => "both marks in one list",
        }
    }
}

fn unhex(digits: &str) -> Vec<u8> {
    let pairs = (0..digits.len() / 2).map(|at| u8::from_str_radix(&digits[2 * at..2 * at + 2], 16));
    pairs.collect::<Result<_, _>>().unwrap_or_default()
}

fn hex(bytes: &[u8]) -> String {
    if bytes.is_empty() {
        return "-".to_string();
    }
    bytes.iter().map(|byte| format!("{byte:02x}")).collect()
}

fn bytes(sheet: &Sheet) -> Vec<u8> {
    form::bytes(&form::numbers(sheet))
}

impl Generator {
    fn question(&mut self) -> String {
        match self.random.pick(AIMS) {
            Aim::Number(7) => self.wrong_loan(),
            Aim::Number(8) => self.off_the_sheet(),
            Aim::Number(10) => self.model(true),
            Aim::Number(11) => self.model(false),
            Aim::Number(12) => self.no_model(),
            Aim::Number(13) => self.out_of_space(),
            Aim::Number(14) => self.list(true),
            Aim::Number(15) => self.list(false),
            Aim::Number(fault) => self.faulty(fault),
            Aim::Balance => self.balance(),
            Aim::Anything => self.anything(),
        }
    }

    /// A sheet whose satisfiability question is within the budget and as wanted.
    fn sheet(&mut self, make: fn(&mut Random) -> Sheet, wanted: fn(Need) -> bool) -> (Sheet, Need) {
        for _ in 0..400 {
            let sheet = make(&mut self.random);
            if let Some(need) = self.sat_need(&sheet) {
                if wanted(need) {
                    return (sheet, need);
                }
            }
        }
        (Sheet::default(), Need { records: 0, result: Some(3) })
    }

    /// A cause query within the budget and as wanted.
    fn query(&mut self, wanted: fn(Need) -> bool) -> Query {
        self.query_of(form::cause_sheet, |query| wanted(query.need))
    }

    /// The same of sheets of another sort, and judged by the marks too. Where there is none, the last that is cheap.
    fn query_of(&mut self, make: fn(&mut Random) -> Sheet, wanted: impl Fn(&Query) -> bool) -> Query {
        let mut last = None;
        for _ in 0..400 {
            let sheet = make(&mut self.random);
            let port = self.random.below(sheet.individuals as u64);
            let class = self.random.below(sheet.lines.len().max(1) as u64);
            if let Some((need, marked)) = self.causes_need(&sheet, port, class) {
                let query = Query { sheet, port, class, need, marked };
                if wanted(&query) {
                    return query;
                }
                last = Some(query);
            }
        }
        last.expect("some query is cheap")
    }

    fn sat_need(&mut self, sheet: &Sheet) -> Option<Need> {
        self.start_meter();
        let need = self.engine.sat_need(sheet);
        self.counted(need)
    }

    fn start_meter(&mut self) {
        self.engine.meter.steps = 0;
        self.engine.meter.budget = BUDGET;
    }

    fn counted<T>(&mut self, need: Result<T, Halt>) -> Option<T> {
        self.searched += 1;
        self.left_out += need.is_err() as u64;
        need.ok()
    }

    fn causes_need(&mut self, sheet: &Sheet, port: u64, class: u64) -> Option<(Need, Found)> {
        if port >= sheet.individuals as u64 || class >= sheet.lines.len() as u64 {
            return None;
        }
        let both = self.both_judgements(sheet, port as u8, class as u8);
        self.counted(both)
    }

    /// With "class fails" and without, each within the budget.
    fn both_judgements(&mut self, sheet: &Sheet, port: u8, class: u8) -> Result<(Need, Found), Halt> {
        self.start_meter();
        let smallest = self.engine.smallest(sheet, port, class)?;
        self.start_meter();
        let marked = self.engine.marked(sheet, &smallest.slots)?;
        Ok((Need { records: smallest.need, result: Some(smallest.slots.len()) }, marked))
    }

    /// A room in which the need fits: exact, one more, some more, or all there may be.
    fn room_for(&mut self, need: usize) -> u64 {
        let need = need as u64;
        match self.random.below(10) {
            0..=4 => need,
            5..=6 => need + 1,
            7..=8 => need + self.random.below(20),
            _ => 4096,
        }
        .min(4096)
    }

    /// A room in which the need, which is not 0, does not fit.
    fn room_short_of(&mut self, need: usize) -> u64 {
        let need = need as u64;
        match self.random.below(4) {
            0..=1 => need - 1,
            2 => self.random.below(need),
            _ => 0,
        }
        .min(4096)
    }

    /// Enough mark bytes: as many as records, or more.
    fn marks_for(&mut self, room: u64) -> u64 {
        match self.random.below(20) {
            0..=11 => room,
            12..=14 => room + 1,
            15..=18 => room + self.random.below(100),
            _ => 8192,
        }
    }

    /// A buffer of the length wanted or longer.
    fn long_enough(&mut self, wanted: usize) -> u64 {
        let wanted = wanted as u64;
        match self.random.below(10) {
            0..=4 => wanted,
            5..=6 => wanted + 1,
            _ => wanted + self.random.below(12),
        }
    }

    /// A buffer shorter than the length wanted, which is not 0.
    fn too_short(&mut self, wanted: usize) -> u64 {
        let wanted = wanted as u64;
        match self.random.below(4) {
            0..=1 => wanted - 1,
            2 => self.random.below(wanted),
            _ => 0,
        }
    }

    fn sat_question(&mut self, sheet: &[u8], room: u64, words: u64) -> String {
        format!("sat {} {room} {} {words}", hex(sheet), self.marks_for(room))
    }

    fn causes_question(&mut self, query: &Query, room: u64, slots: u64) -> String {
        let marks = self.marks_for(room);
        format!("causes {} {} {} {room} {marks} {slots}", hex(&bytes(&query.sheet)), query.port, query.class)
    }

    fn model(&mut self, fits: bool) -> String {
        let wanted = match self.random.below(4) {
            0 => |need: Need| need.result.is_some(),
            1..=2 => |need: Need| need.result.is_some() && need.records > 0,
            _ => |need: Need| need.result.is_some() && need.records > 3,
        };
        let (sheet, need) = self.sheet(form::any_sheet, wanted);
        let length = need.result.unwrap_or(3);
        let room = self.room_for(need.records);
        let words = if fits { self.long_enough(length) } else { self.too_short(length) };
        self.sat_question(&bytes(&sheet), room, words.min(65_536))
    }

    fn no_model(&mut self) -> String {
        let make = if self.random.chance(70) { form::tight_sheet } else { form::any_sheet };
        let wanted = match self.random.below(3) {
            0 => |need: Need| need.result.is_none(),
            1 => |need: Need| need.result.is_none() && need.records > 0,
            _ => |need: Need| need.result.is_none() && need.records > 1,
        };
        let (sheet, need) = self.sheet(make, wanted);
        let room = self.room_for(need.records);
        let words = self.random.below(20);
        self.sat_question(&bytes(&sheet), room, words)
    }

    fn out_of_space(&mut self) -> String {
        if self.random.chance(40) {
            let query = self.query(|need| need.records > 0);
            if query.need.records == 0 {
                return self.causes_question(&query, 0, 1);
            }
            let room = self.room_short_of(query.need.records);
            let slots = self.random.below(query.need.result.unwrap_or(0) as u64 + 3);
            return self.causes_question(&query, room, slots);
        }
        let make = if self.random.chance(25) { form::tight_sheet } else { form::any_sheet };
        let (sheet, need) = self.sheet(make, |need| need.records > 0);
        let room = self.room_short_of(need.records.max(1));
        let words = self.random.below(need.result.unwrap_or(0) as u64 + 5);
        self.sat_question(&bytes(&sheet), room, words)
    }

    fn list(&mut self, fits: bool) -> String {
        let wanted = match self.random.below(6) {
            0 if fits => |_: Need| true,
            0..=1 => |need: Need| need.result > Some(0),
            2 => |need: Need| need.result > Some(0) && need.records > 0,
            3 => |need: Need| need.result > Some(1) && need.records > 0,
            4 => |need: Need| need.result > Some(2),
            _ => |need: Need| need.result > Some(1),
        };
        let query = self.query(wanted);
        let length = query.need.result.unwrap_or(0);
        let room = self.room_for(query.need.records);
        let slots = if fits || length == 0 { self.long_enough(length) } else { self.too_short(length) };
        self.causes_question(&query, room, slots.min(4096))
    }

    /// Questions for cause lists alone.
    fn marked_question(&mut self) -> String {
        match self.random.below(40) {
            0..=8 => self.marked_list(|query| query.has_catching() && query.has_contradictory()),
            9..=11 => self.marked_list(|query| query.has_contradictory()),
            12..=13 => self.marked_list(|query| query.marked.slots == [CONTRADICTORY]),
            14..=16 => self.marked_list(|query| query.marked.slots.len() > 1),
            17..=18 => self.marked_list(|query| query.records() > 0 && query.has_catching()),
            19..=20 => self.marked_list(|_| true),
            21..=26 => self.marks_out_of_space(|query| query.need.records < query.marked.need),
            27..=29 => self.marks_out_of_space(|query| query.need.records > query.marked.need),
            30..=31 => self.marks_out_of_space(|query| query.need.records > 0 && query.marked.need > 0),
            32..=34 => self.marks_out_of_space(|query| query.need.records != query.marked.need),
            35..=36 => self.off_the_sheet(),
            37 => self.wrong_loan_of_causes(),
            _ => self.damaged_causes(),
        }
    }

    fn marking_sheet(&mut self) -> fn(&mut Random) -> Sheet {
        if self.random.chance(75) {
            form::two_ways
        } else {
            form::cause_sheet
        }
    }

    /// Answers 14 and 15.
    fn marked_list(&mut self, wanted: fn(&Query) -> bool) -> String {
        let make = self.marking_sheet();
        let query = self.query_of(make, wanted);
        let length = query.marked.slots.len();
        let room = self.room_for(query.records());
        let short = length > 0 && self.random.chance(25);
        let slots = if short { self.too_short(length) } else { self.long_enough(length) };
        self.causes_question(&query, room, slots)
    }

    /// Room for the judgement that needs less and not for the other, or for neither; slots enough or too few.
    fn marks_out_of_space(&mut self, wanted: fn(&Query) -> bool) -> String {
        let make = self.marking_sheet();
        let query = self.query_of(make, wanted);
        let (less, more) = (query.need.records.min(query.marked.need), query.records());
        let room = match self.random.below(8) {
            _ if more == 0 => 0,
            0..=1 => less as u64,
            2..=4 => more as u64 - 1,
            5 => self.random.below(more as u64),
            6 => self.random.between(less as u64, more as u64),
            _ => less.saturating_sub(1) as u64,
        };
        let slots = self.random.below(query.marked.slots.len() as u64 + 3);
        self.causes_question(&query, room.min(4096), slots)
    }

    fn wrong_loan_of_causes(&mut self) -> String {
        let query = self.query_of(form::two_ways, |_| true);
        let room = self.random.between(1, 4200);
        let marks = if room > 4096 { room } else { self.random.below(room) };
        format!("causes {} {} {} {room} {marks} 2", hex(&bytes(&query.sheet)), query.port, query.class)
    }

    /// Sheets damaged or cut, in order or not, with small loans.
    fn damaged_causes(&mut self) -> String {
        for _ in 0..400 {
            let sheet = form::two_ways(&mut self.random);
            let whole = form::damage(&mut self.random, &sheet);
            let (port, class) = (self.random.below(3), self.random.below(8));
            let (room, slots) = (self.random.below(4), self.random.below(5));
            let question = format!("causes {} {port} {class} {room} {} {slots}", hex(&whole), self.marks_for(room));
            if self.is_cheap(&question, &whole) {
                return question;
            }
        }
        "causes - 0 0 0 0 0".to_string()
    }

    /// Answer 7, with other things wrong as well.
    fn wrong_loan(&mut self) -> String {
        let (sheet, _) = self.sheet(form::any_sheet, |_| true);
        let whole = if self.random.chance(30) { form::damage(&mut self.random, &sheet) } else { bytes(&sheet) };
        let (room, marks) = match self.random.below(4) {
            0 => (4097, 4097 + self.random.below(100)),
            1 => (self.random.between(4097, 5000), 8192),
            2 => {
                let room = self.random.between(1, 4096);
                (room, room - 1)
            }
            _ => {
                let room = self.random.between(1, 40);
                (room, self.random.below(room))
            }
        };
        match self.random.below(5) {
            0 => {
                let room = self.random.pick(&[4097, 4098, 5000, u64::MAX / 2, u64::MAX - 1]);
                format!("balance {} {room}", hex(&whole))
            }
            1..=2 => format!("sat {} {room} {marks} {}", hex(&whole), self.random.below(9)),
            _ => {
                let (port, class) = (self.random.below(9), self.random.below(33));
                format!("causes {} {port} {class} {room} {marks} {}", hex(&whole), self.random.below(9))
            }
        }
    }

    /// A number that is just not on the sheet, or far from it, also where its low bits would be on it.
    fn off(&mut self, many: u64) -> u64 {
        self.random.pick(&[many, many, many + 1, 255, 256, 1 << 16, 1 << 32, 1 << 63, u64::MAX])
    }

    fn off_the_sheet(&mut self) -> String {
        let mut query = self.query(|_| true);
        if self.random.chance(10) {
            let (sheet, _) = self.sheet(form::any_sheet, |_| true);
            query.sheet = Sheet { individuals: 0, classes: vec![], roles: vec![], ..sheet };
        }
        let side = self.random.below(3);
        if side != 0 {
            query.port = self.off(query.sheet.individuals as u64);
        }
        if side != 1 {
            query.class = self.off(query.sheet.lines.len() as u64);
        }
        let room = self.random.below(query.need.records as u64 + 2);
        let slots = self.random.below(4);
        self.causes_question(&query, room, slots)
    }

    fn faulty(&mut self, number: u8) -> String {
        let make = if self.random.chance(30) { form::cause_sheet } else { form::any_sheet };
        let mut whole = Vec::new();
        for _ in 0..50 {
            let sheet = make(&mut self.random);
            whole = self.fault(number, &sheet);
            if read(&whole).is_err_and(|refusal| refusal.number == number) {
                break;
            }
        }
        self.any_question(&whole)
    }

    fn fault(&mut self, number: u8, sheet: &Sheet) -> Vec<u8> {
        let random = &mut self.random;
        match number {
            1 => form::cut(random, sheet),
            2 => form::malform(random, sheet),
            3 => form::overdo(random, sheet, Sort::Count).unwrap_or_default(),
            4 => form::overdo(random, sheet, Sort::KindNameRole).unwrap_or_default(),
            5 => form::overdo(random, sheet, Sort::LineOrIndividual).unwrap_or_default(),
            _ => form::lengthen(random, sheet),
        }
    }

    /// Any kind of question about a sheet that no engine has to search, or that was found cheap.
    fn any_question(&mut self, sheet: &[u8]) -> String {
        let room = self.random.below(9);
        match self.random.below(5) {
            0 => format!("balance {} {room}", hex(sheet)),
            1..=2 => {
                let words = self.random.below(24);
                self.sat_question(sheet, room, words)
            }
            _ => {
                let marks = self.marks_for(room);
                let (port, class) = (self.random.below(5), self.random.below(12));
                format!("causes {} {port} {class} {room} {marks} {}", hex(sheet), self.random.below(5))
            }
        }
    }

    /// A balance at and around zero, or far below.
    fn balance(&mut self) -> String {
        let sheet =
            if self.random.chance(50) { form::arrows(&mut self.random) } else { form::any_sheet(&mut self.random) };
        let e = sheet.lines.iter().filter(|line| line.kind >= SOME).count() as u32;
        let worst = if e == 0 { 0 } else { (e as u64) << (e - 1) };
        let room = match self.random.below(6) {
            0 => worst,
            1 => worst + 1,
            2 => worst.saturating_sub(1),
            3 => 4096,
            4 => 0,
            _ => self.random.below(4097),
        };
        format!("balance {} {}", hex(&bytes(&sheet)), room.min(4096))
    }

    /// Whole and damaged sheets of every sort, with small loans, whatever the answer may be.
    fn anything(&mut self) -> String {
        if self.random.chance(3) {
            return self.beyond();
        }
        for _ in 0..400 {
            let sheet = form::any_sheet(&mut self.random);
            let whole = if self.random.chance(50) { bytes(&sheet) } else { form::damage(&mut self.random, &sheet) };
            let question = self.any_question(&whole);
            if self.is_cheap(&question, &whole) {
                return question;
            }
        }
        "sat - 0 0 0".to_string()
    }

    /// True if the sheet is faulty, or its search is within the budget whatever the room.
    fn is_cheap(&mut self, question: &str, whole: &[u8]) -> bool {
        let Ok(sheet) = read(whole) else {
            return true;
        };
        let mut words = question.split(' ');
        match words.next() {
            Some("sat") => self.sat_need(&sheet).is_some(),
            Some("causes") => {
                let port = words.nth(1).and_then(|word| word.parse().ok()).unwrap_or(0);
                let class = words.next().and_then(|word| word.parse().ok()).unwrap_or(0);
                let off = port >= sheet.individuals as u64 || class >= sheet.lines.len() as u64;
                off || self.causes_need(&sheet, port, class).is_some()
            }
            _ => true,
        }
    }

    /// A form for the writer, in a buffer of no length, one too short, exact, or longer; now and then no question.
    fn write_question(&mut self) -> String {
        let list = lists::any_list(&mut self.random);
        let wanted = list.len();
        let length = match self.random.below(10) {
            0 => "0".to_string(),
            1..=2 => wanted.saturating_sub(1).to_string(),
            3..=6 => wanted.to_string(),
            7 => (wanted + 1).to_string(),
            8 => self.random.pick(&[5, 255, 256, 2047, 2048]).to_string(),
            _ if self.random.chance(80) => self.random.below(wanted as u64 + 12).to_string(),
            _ => self
                .random
                .pick(&["2049", "18446744073709551616", "-1", "x", "4 65536", "9 0 0 0 0 0x0", ""])
                .to_string(),
        };
        let numbers: Vec<String> = list.iter().map(u16::to_string).collect();
        format!("write {length} {}", numbers.join(" "))
    }

    /// Beyond the desk's buffers, or a word too few or too many.
    fn beyond(&mut self) -> String {
        match self.random.below(8) {
            0 => "sat 0000000000 5001 8192 3".to_string(),
            1 => "sat 0000000000 0 8193 3".to_string(),
            2 => "sat 0000000000 0 0 65537".to_string(),
            3 => "causes 0000000000 0 0 0 0 4097".to_string(),
            4 => "sat 0000000000 0 0".to_string(),
            5 => "balance 0000000000 0 0".to_string(),
            6 => "causes 0000000000 0 0 0 0 0 0".to_string(),
            _ => "sat 0000000000 0 0 65536".to_string(),
        }
    }
}
