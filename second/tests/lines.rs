//! What is a question and what is none: blanks, tabs and carriage returns, remarks, and numbers at the edge.

use second::desk::Desk;

fn answer(line: &str) -> String {
    let mut out = Vec::new();
    Desk::new().answer(line.as_bytes(), &mut out);
    String::from_utf8(out).unwrap()
}

#[test]
fn blank_lines_and_remarks_are_not_answered() {
    for line in
        ["", "\n", " \n", "\t\n", "\r\n", " \t\r\n", "#\n", "# sat 0000000000 0 0 3\n", "  # remark\n", "\t#\r\n"]
    {
        assert_eq!(answer(line), "", "{line:?}");
    }
}

#[test]
fn tabs_and_carriage_returns_stand_between_words() {
    for line in ["sat 0000000000 0 0 3", "sat\t0000000000 0 0 3\r\n", "\tsat  0000000000\t0 \t 0 3 \n"] {
        assert_eq!(answer(line), "10 3 : 1 0 0\n", "{line:?}");
    }
}

#[test]
fn sheets_in_capitals_are_read() {
    assert_eq!(answer("sat 8A 0 0 1"), answer("sat 8a 0 0 1"));
    assert_eq!(answer("sat 8A 0 0 1"), "1 0 : untouched\n");
}

#[test]
fn what_is_no_question_is_answered_so() {
    for line in
        ["sat\x0c0000000000 0 0 3", "\x0c", "SAT 0000000000 0 0 3", "sat 000 0 0 3", "sat 0g 0 0 3", "balance 00 -1"]
    {
        assert_eq!(answer(line), "what?\n", "{line:?}");
    }
}

#[test]
fn the_largest_number_of_64_bits_is_a_room() {
    assert_eq!(answer("balance 0000000000 18446744073709551615"), "7 0\n");
    assert_eq!(answer("balance 0000000000 18446744073709551616"), "what?\n");
}

/// A carriage return is no blank: one at the line's end belongs to the end, and any other is in no word.
#[test]
fn carriage_returns_elsewhere_are_not_understood() {
    for line in ["sat\r0000000000 0 0 3\n", "sat 0000000000 0 0 3\r\r\n", "sat 0000000000 0\r 0 3\n"] {
        assert_eq!(answer(line), "what?\n", "{line:?}");
    }
}
