//! FaCT++, where it is installed, and the second engine agree on sheets drawn at random.

use measure::draw::draw;
use measure::{fact, hex};
use second::engine::Engine;
use second::form;
use second::random::Random;
use second::sheet::Sheet;
use std::fs;
use std::path::Path;
use std::process::Command;

/// Few steps, so that FaCT++ is not kept long either.
const BUDGET: u64 = 2_000;

#[test]
fn fact_agrees() {
    let folder = Path::new(env!("CARGO_TARGET_TMPDIR"));
    let mut random = Random(1);
    let mut engine = Engine::new();
    let (mut satisfiable, mut unsatisfiable) = (0, 0);
    while satisfiable + unsatisfiable < 300 {
        let sheet = if random.chance(50) { draw(&mut random) } else { form::any_sheet(&mut random) };
        engine.meter.steps = 0;
        engine.meter.budget = BUDGET;
        let Ok(need) = engine.sat_need(&sheet) else {
            continue;
        };
        let Some(written) = run(&sheet, folder) else {
            eprintln!("FaCT++ is not installed: nothing compared");
            return;
        };
        let expected = need.result.is_some();
        assert_eq!(fact::verdict(&written), Some(expected), "{}: {written}", hex::sheet_hex(&sheet));
        if expected {
            satisfiable += 1;
        } else {
            unsatisfiable += 1;
        }
    }
    assert!(satisfiable > 50 && unsatisfiable > 50, "{satisfiable} satisfiable, {unsatisfiable} not");
}

/// What FaCT++ writes about the sheet; None if it is not installed.
fn run(sheet: &Sheet, folder: &Path) -> Option<String> {
    fs::write(folder.join("sheet.kb"), fact::knowledge(sheet)).expect("the folder can be written");
    fs::write(folder.join("sheet.conf"), fact::settings("sheet.kb")).expect("the folder can be written");
    let output = Command::new("FaCT++").arg("sheet.conf").current_dir(folder).output().ok()?;
    let written = [output.stdout, output.stderr].concat();
    Some(String::from_utf8_lossy(&written).into_owned())
}
