//! `measure`, run in the repository's folder, prints the tables of docs/MEASURED.md from measure/sheets.txt.

use measure::clock::{alternate, figures, show, thousands, Times};
use measure::process;
use measure::question::{agreed, need_is_exact, result_length, Lent, Second};
use measure::sheets::{parse, Asks, Stored};
use measure::{fact, family, hex, stack};
use second::form;
use second::label::Label;
use second::search::{Expansions, Meter, Plan};
use second::sheet::read;
use std::error::Error;
use std::fs;
use std::io;
use std::path::{Path, PathBuf};
use std::time::Instant;

type Outcome<T> = Result<T, Box<dyn Error>>;

const SHEETS: &str = "measure/sheets.txt";
const ASK: &str = "target/bin/ask";
const SECOND: &str = "second/target/release/second";
const EXPANSIONS: &str = "target/bin/expansions";
const FOLDER: &str = "measure/target/fact";
const MOST_RECORDS: usize = 4096;

fn main() -> Outcome<()> {
    let questions =
        parse(&fs::read_to_string(SHEETS)?).map_err(|line| format!("{SHEETS}, line {line}: not understood"))?;
    let (deepest, timed): (Vec<Stored>, Vec<Stored>) =
        questions.into_iter().partition(|question| question.label.starts_with("deepest"));
    engines(&timed)?;
    programs(&timed)?;
    stacks(&timed, &deepest)?;
    steps()
}

fn heading(columns: &[&str]) {
    println!("| {} |", columns.join(" | "));
    println!("|{}", "---|".repeat(columns.len()));
}

/// The two engines, call against call.
fn engines(questions: &[Stored]) -> Outcome<()> {
    println!("### Call against call\n");
    heading(&[
        "sheet",
        "family",
        "answer",
        "records",
        "proved",
        "second",
        "ratio",
        "proved, 4,096 lent",
        "second",
        "ratio",
    ]);
    for question in questions {
        need_is_exact(question)?;
        let (exact_proved, exact_second) = against(question, question.need)?;
        let (most_proved, most_second) = against(question, MOST_RECORDS)?;
        println!(
            "| {} | {} | {} | {} | {} | {} | {} | {} | {} | {} |",
            question.label,
            question.family,
            question.asks.answer(),
            thousands(question.need),
            both(exact_proved),
            both(exact_second),
            figures(exact_proved.best / exact_second.best),
            both(most_proved),
            both(most_second),
            figures(most_proved.best / most_second.best),
        );
    }
    println!();
    Ok(())
}

fn both(times: Times) -> String {
    format!("{} ({})", show(times.best), show(times.median))
}

/// Both engines with so many records lent, and a result buffer of just the length wanted.
fn against(question: &Stored, records: usize) -> Outcome<(Times, Times)> {
    let length = result_length(question);
    let (mut lent, mut second) = (Lent::new(records, length), Second::new(records, length));
    let reply = agreed(question, &mut lent, &mut second)?;
    let times = alternate(|| assert_eq!(lent.ask(question), reply), || assert_eq!(second.ask(question), reply));
    agreed(question, &mut lent, &mut second)?;
    Ok(times)
}

/// Whole programs: ours, the second engine's, and FaCT++ where it is installed.
fn programs(questions: &[Stored]) -> Outcome<()> {
    println!("### Start to answer\n");
    fs::create_dir_all(FOLDER)?;
    let folder = Path::new(FOLDER);
    let (ask, second) = (fs::canonicalize(ASK)?, fs::canonicalize(SECOND)?);
    let installed = fact_version(folder)?;
    match &installed {
        Some(version) => println!("FaCT++: {version}\n"),
        None => println!("FaCT++ is not installed here (Debian: `apt-get install fact++`), so it has no column.\n"),
    }
    let mut columns = vec!["sheet", "answer", "records", "ask", "second"];
    if installed.is_some() {
        columns.extend(["FaCT++", "FaCT++ / ask"]);
    }
    heading(&columns);
    for question in questions {
        let Asks::Sat { satisfiable } = question.asks else {
            continue;
        };
        let ours = desk_program(&ask, question, satisfiable)?;
        let other = desk_program(&second, question, satisfiable)?;
        print!(
            "| {} | {} | {} | {} | {} |",
            question.label,
            question.asks.answer(),
            thousands(question.need),
            both(ours),
            both(other)
        );
        if installed.is_some() {
            let theirs = fact_program(question, satisfiable, folder)?;
            print!(" {} | {} |", both(theirs), figures(theirs.best / ours.best));
        }
        println!();
    }
    println!();
    Ok(())
}

/// A program that answers a line of question on standard input by a line on standard output.
fn desk_program(program: &Path, question: &Stored, satisfiable: bool) -> Outcome<Times> {
    let length = result_length(question);
    let line = format!("sat {} {} {} {length}\n", question.hex, question.need, question.need);
    let (times, written) = process::time(program, &[], Path::new("."), line.as_bytes())?;
    let number = if satisfiable { "10 " } else { "12 " };
    if written.iter().any(|text| !text.starts_with(number)) {
        return Err(format!("{}: {} answered {:?}", question.label, program.display(), written[0]).into());
    }
    Ok(times)
}

fn fact_program(question: &Stored, satisfiable: bool, folder: &Path) -> Outcome<Times> {
    let sheet = read(&question.bytes).map_err(|refusal| format!("{}: {refusal:?}", question.label))?;
    fs::write(folder.join("sheet.kb"), fact::knowledge(&sheet))?;
    fs::write(folder.join("sheet.conf"), fact::settings("sheet.kb"))?;
    let (times, written) = process::time(&PathBuf::from("FaCT++"), &["sheet.conf"], folder, b"")?;
    if written.iter().any(|text| fact::verdict(text) != Some(satisfiable)) {
        return Err(format!("{}: FaCT++ says otherwise: {:?}", question.label, written[0]).into());
    }
    Ok(times)
}

/// What FaCT++ says of its version; None if it is not installed.
fn fact_version(folder: &Path) -> Outcome<Option<String>> {
    match process::time(&PathBuf::from("FaCT++"), &["-get-default-options"], folder, b"") {
        Ok((_, written)) => Ok(Some(fact::version(&written[0]).to_string())),
        Err(error) if error.kind() == io::ErrorKind::NotFound => Ok(None),
        Err(error) => Err(error.into()),
    }
}

/// Bytes of stack.
fn stacks(timed: &[Stored], deepest: &[Stored]) -> Outcome<()> {
    println!("### Stack\n");
    heading(&["sheet", "bytes of stack"]);
    let taken: Vec<usize> = timed.iter().map(stack_of).collect();
    if let (Some(least), Some(most)) = (taken.iter().min(), taken.iter().max()) {
        println!("| those above | {} to {} |", thousands(*least), thousands(*most));
    }
    for question in deepest {
        println!("| {} | {} |", question.label, thousands(stack_of(question)));
    }
    println!();
    Ok(())
}

fn stack_of(question: &Stored) -> usize {
    let mut lent = Lent::new(question.need, 0);
    stack::bytes(|| {
        lent.ask(question);
    })
}

/// The walk over settled expansions alone: the program `expansions` against the second engine's walk.
fn steps() -> Outcome<()> {
    println!("### Steps\n");
    let sheet = family::splits();
    let bytes = form::bytes(&form::numbers(&sheet));
    let program = fs::canonicalize(EXPANSIONS)?;
    let (proved, written) = process::time(&program, &[], Path::new("."), &bytes)?;
    let plan = Plan::new(&sheet);
    let (mut counts, mut calls) = (String::new(), 0);
    for line in 0..sheet.lines.len() as u8 {
        let (settled, splits) = walk(&plan, line)?;
        counts += &format!("{line} {settled}\n");
        // every split is two calls
        calls += 2 * splits + 1;
    }
    if written.iter().any(|text| *text != counts) {
        return Err("the walks count different expansions".into());
    }
    let mut rounds = Vec::new();
    for _ in 0..21 {
        let begin = Instant::now();
        for line in 0..sheet.lines.len() as u8 {
            walk(&plan, line)?;
        }
        rounds.push(begin.elapsed().as_nanos() as f64);
    }
    let second = Times::of(rounds);
    heading(&["walk", "calls", "time", "a call"]);
    println!(
        "| `{EXPANSIONS}`, start to answer | {} | {} | {} |",
        thousands(calls as usize),
        both(proved),
        show(proved.best / calls as f64)
    );
    println!("| second | {} | {} | {} |", thousands(calls as usize), both(second), show(second.best / calls as f64));
    println!("\nSheet: `{}`", hex::hex(&bytes));
    Ok(())
}

/// How many settled expansions the seed that the line holds has, and how many splits the walk makes.
fn walk(plan: &Plan, line: u8) -> Outcome<(u64, u64)> {
    let mut meter = Meter { steps: 0, budget: u64::MAX };
    let mut walk = Expansions::default();
    let mut settled = 0;
    walk.begin(plan, Label::holds(line));
    while walk.next(plan, &mut meter).map_err(|_| "too long")?.is_some() {
        settled += 1;
    }
    Ok((settled, meter.steps))
}
