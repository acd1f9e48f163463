//! `deepest` tells the bytes of stack that questions about the constructed deepest sheet take.
//! `deepest SEED TRIES` goes on from it and from sheets drawn at random, changing them one place at a time and keeping
//! what goes as deep or deeper, and tells the deepest found.

use measure::draw::{change, draw};
use measure::hex::sheet_hex;
use measure::{family, stack};
use second::engine::Engine;
use second::form;
use second::random::Random;
use second::sheet::Sheet;

/// Steps that the judging of one sheet may take.
const BUDGET: u64 = 50_000;

fn main() {
    let words: Vec<u64> = std::env::args().skip(1).filter_map(|word| word.parse().ok()).collect();
    let sheet = family::deepest();
    println!("constructed: {} bytes by satisfy: {}", satisfy(&sheet), sheet_hex(&sheet));
    let (deep, port, class) = deepest_query(&sheet);
    println!("constructed: {deep} bytes by causes, port {port}, class {class}");
    if let [seed, tries] = words[..] {
        let mut random = Random(seed);
        climb(&mut random, sheet, tries);
        for _ in 0..4 {
            let sheet = draw(&mut random);
            climb(&mut random, sheet, tries);
        }
    }
}

fn bytes(sheet: &Sheet) -> Vec<u8> {
    form::bytes(&form::numbers(sheet))
}

fn satisfy(sheet: &Sheet) -> usize {
    let (mut records, mut marks) = (vec![0; 4096], vec![0; 4096]);
    let bytes = bytes(sheet);
    stack::bytes(|| {
        bargaindune::satisfy(&bytes, &mut records, &mut marks, &mut []);
    })
}

fn causes(sheet: &Sheet, port: u64, class: u64) -> usize {
    let (mut records, mut marks) = (vec![0; 4096], vec![0; 4096]);
    let bytes = bytes(sheet);
    stack::bytes(|| {
        bargaindune::causes(&bytes, port, class, &mut records, &mut marks, &mut []);
    })
}

/// The deepest cause question about the sheet: its bytes, port and class.
fn deepest_query(sheet: &Sheet) -> (usize, u64, u64) {
    let mut deepest = (0, 0, 0);
    for port in 0..sheet.individuals as u64 {
        for class in 0..sheet.lines.len() as u64 {
            deepest = deepest.max((causes(sheet, port, class), port, class));
        }
    }
    deepest
}

fn climb(random: &mut Random, mut sheet: Sheet, tries: u64) {
    let mut engine = Engine::new();
    let mut deep = depth(&mut engine, &sheet).unwrap_or(0);
    let start = deep;
    for _ in 0..tries {
        let mut other = sheet.clone();
        for _ in 0..random.between(1, 3) {
            change(random, &mut other);
        }
        if random.chance(20) {
            other.individuals = 8;
        }
        match depth(&mut engine, &other) {
            Some(changed) if changed >= deep => (sheet, deep) = (other, changed),
            _ => {}
        }
    }
    println!("from {start} by {tries} changes: {deep} bytes by satisfy: {}", sheet_hex(&sheet));
}

/// The bytes that `satisfy` takes; None if the search is too long to be tried.
fn depth(engine: &mut Engine, sheet: &Sheet) -> Option<usize> {
    engine.meter.steps = 0;
    engine.meter.budget = BUDGET;
    engine.sat_need(sheet).ok()?;
    Some(satisfy(sheet))
}
