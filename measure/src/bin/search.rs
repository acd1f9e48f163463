//! `search LOW HIGH sat|unsat SEED` draws random sheets and changes them at random, one place at a time, until
//! one needs LOW to HIGH records and has the wanted answer; it prints the sheet, its need and its answer.
//! The same words give the same sheet: what is bounded are steps of the search, not time.
//!
//! A walk starts at a sheet drawn at random that has the wanted answer. A change is kept if the answer stays and
//! the need does not fall (and not beyond HIGH); after too many changes in a row that gained nothing the walk
//! starts again. Nothing of a family goes in: every count, kind, name, role and operand is drawn.

use measure::draw::{change, draw};
use measure::hex::sheet_hex;
use second::engine::{Engine, Need};
use second::random::Random;
use second::sheet::Sheet;
use std::process::ExitCode;

/// Steps that the judging of one sheet may take.
const BUDGET: u64 = 4_000_000;
/// Changes in a row without gain before the walk starts again.
const PATIENCE: u32 = 1_500;

fn main() -> ExitCode {
    let words: Vec<String> = std::env::args().skip(1).collect();
    let Some(mut search) = Search::from_words(&words) else {
        eprintln!("usage: search LOW HIGH sat|unsat SEED");
        return ExitCode::from(2);
    };
    let (sheet, need) = search.run();
    let answer = if need.result.is_some() { "sat" } else { "unsat" };
    println!("{} {} {answer}", sheet_hex(&sheet), need.records);
    eprintln!("{} sheets judged, {} walks", search.judged, search.walks);
    ExitCode::SUCCESS
}

struct Search {
    low: usize,
    high: usize,
    satisfiable: bool,
    random: Random,
    engine: Engine,
    judged: u64,
    walks: u64,
}

impl Search {
    fn from_words(words: &[String]) -> Option<Search> {
        let [low, high, answer, seed] = words else {
            return None;
        };
        let satisfiable = match answer.as_str() {
            "sat" => true,
            "unsat" => false,
            _ => return None,
        };
        Some(Search {
            low: low.parse().ok()?,
            high: high.parse().ok()?,
            satisfiable,
            random: Random(seed.parse().ok()?),
            engine: Engine::new(),
            judged: 0,
            walks: 0,
        })
    }

    fn run(&mut self) -> (Sheet, Need) {
        let mut best = 0;
        loop {
            self.walks += 1;
            let (mut sheet, mut need) = self.start();
            let mut idle = 0;
            while idle < PATIENCE {
                if need.records >= self.low {
                    return (sheet, need);
                }
                let mut other = sheet.clone();
                for _ in 0..self.random.between(1, 3) {
                    change(&mut self.random, &mut other);
                }
                idle += 1;
                let Some(changed) = self.judge(&other) else {
                    continue;
                };
                if changed.records >= need.records {
                    if changed.records > need.records {
                        idle = 0;
                    }
                    (sheet, need) = (other, changed);
                }
            }
            if need.records > best {
                best = need.records;
                eprintln!("walk {}: {best} records", self.walks);
            }
        }
    }

    fn start(&mut self) -> (Sheet, Need) {
        loop {
            let sheet = draw(&mut self.random);
            if let Some(need) = self.judge(&sheet) {
                if need.records > 0 {
                    return (sheet, need);
                }
            }
        }
    }

    /// What the sheet needs, if it has the wanted answer, not too much need, and not too long a search.
    fn judge(&mut self, sheet: &Sheet) -> Option<Need> {
        self.judged += 1;
        self.engine.meter.steps = 0;
        self.engine.meter.budget = BUDGET;
        let need = self.engine.sat_need(sheet).ok()?;
        (need.result.is_some() == self.satisfiable && need.records <= self.high).then_some(need)
    }
}
