//! The cause questions that are drawn: enough lists with both marks, and enough that lack room without "class fails"
//! alone; nothing but cause questions, and the same for the same seed.

use std::process::Command;

fn generate(words: &[&str]) -> (String, String) {
    let output = Command::new(env!("CARGO_BIN_EXE_generate")).args(words).output().expect("the generator runs");
    assert!(output.status.success());
    let text = |bytes: Vec<u8>| String::from_utf8(bytes).expect("plain text");
    (text(output.stdout), text(output.stderr))
}

/// How many questions were counted under names with this end.
fn counted(counts: &str, end: &str) -> u64 {
    let pairs = counts.lines().filter_map(|line| line.rsplit_once(' '));
    pairs.filter(|(name, _)| name.trim().ends_with(end)).map(|(_, many)| many.parse::<u64>().expect("a number")).sum()
}

#[test]
fn marks_and_rooms_are_met_often_enough() {
    for seed in ["1", "2"] {
        let (questions, counts) = generate(&["1500", seed, "causes", "--count"]);
        assert_eq!(questions.lines().filter(|line| line.starts_with("causes ")).count(), 1500);
        assert_eq!(counted(&counts, " all"), 1500, "{counts}");
        for (name, least) in [
            ("both marks in one list", 30),
            ("without \"class fails\" alone", 15),
            ("with \"class fails\" alone", 15),
            ("with \"class fails\" and without", 15),
            ("the assertions contradictory", 15),
            ("all contradictory", 30),
            ("all catching", 30),
        ] {
            let many = counted(&counts, &format!(", {name}"));
            assert!(many >= least, "{many} of 1500, {least} wanted: {name}\n{counts}");
        }
    }
}

#[test]
fn the_same_seed_draws_the_same() {
    for sort in [&["200", "5"][..], &["200", "5", "causes"], &["200", "5", "write"]] {
        assert_eq!(generate(sort).0, generate(sort).0);
    }
}
