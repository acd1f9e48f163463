//! The stack is counted rightly, and the deepest sheet is the deepest of those stored.

use measure::question::Lent;
use measure::sheets::{parse, Stored};
use measure::stack;
use std::hint::black_box;

#[inline(never)]
fn touch<const SIZE: usize>() {
    black_box([1u8; SIZE]);
}

#[test]
fn a_known_frame_is_counted() {
    let small = stack::bytes(touch::<1_000>);
    let large = stack::bytes(touch::<101_000>);
    let more = large - small;
    assert!((99_900..=100_100).contains(&more), "{small} and {large}");
}

#[test]
fn no_stored_sheet_goes_deeper() {
    let questions = parse(include_str!("../sheets.txt")).expect("every line is understood");
    let deepest = stack_of(questions.iter().find(|question| question.label == "deepest-causes").expect("it is stored"));
    // 257 and 33 calls inside one another, and what is around them
    assert!((250_000..300_000).contains(&deepest), "{deepest}");
    for question in questions.iter().filter(|question| !question.label.starts_with("4000")) {
        assert!(stack_of(question) <= deepest, "{}", question.label);
    }
}

fn stack_of(question: &Stored) -> usize {
    let mut lent = Lent::new(question.need, 0);
    stack::bytes(|| {
        lent.ask(question);
    })
}
