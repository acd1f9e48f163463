//! The writer: against what the reader says of the same numbers spelt as bytes, and what was read written again.

use second::desk::Desk;
use second::form;
use second::lists;
use second::random::Random;
use second::sheet::read;
use second::write::write;

const FRIDAY: &str = "05 0200 0201 0202 060001 0203  04 0001 0102 0301 0402  02  01 0000  01 000100";

fn bytes(hex: &str) -> Vec<u8> {
    let digits: String = hex.split_whitespace().collect();
    (0..digits.len() / 2).map(|i| u8::from_str_radix(&digits[2 * i..2 * i + 2], 16).unwrap()).collect()
}

fn numbers(hex: &str) -> Vec<u16> {
    bytes(hex).into_iter().map(u16::from).collect()
}

/// Each number in as many groups of seven bits as it needs.
fn spelt(numbers: &[u16]) -> Vec<u8> {
    let mut out = Vec::new();
    for &number in numbers {
        let mut rest = number;
        while rest >= 0x80 {
            out.push((rest & 0x7f) as u8 | 0x80);
            rest >>= 7;
        }
        out.push(rest as u8);
    }
    out
}

/// The writer says what the reader says of the bytes, in a buffer that is long enough and in one that is not.
fn agrees(list: &[u16]) -> u8 {
    let spelt = spelt(list);
    let length = spelt.len();
    match read(&spelt) {
        Ok(_) => {
            assert_eq!(write(list, length), (0, length as u64, spelt.clone()), "{list:?}");
            assert_eq!(write(list, length + 9), (0, length as u64, spelt), "{list:?}");
            assert_eq!(write(list, length - 1), (16, length as u64, vec![]), "{list:?}");
            assert_eq!(write(list, 0), (16, length as u64, vec![]), "{list:?}");
            0
        }
        Err(refusal) => {
            for lent in [0, length.saturating_sub(1), length, length + 9] {
                assert_eq!(write(list, lent), (refusal.number, refusal.place, vec![]), "{list:?} in {lent}");
            }
            refusal.number
        }
    }
}

#[test]
fn random_and_damaged_lists_as_the_reader_says() {
    let mut random = Random(20);
    let mut seen = [0; 7];
    for _ in 0..100_000 {
        seen[agrees(&lists::any_list(&mut random)) as usize] += 1;
    }
    assert!(seen.iter().all(|&many| many > 2_000), "{seen:?}");
}

#[test]
fn every_place_of_a_sheet_with_every_edge() {
    let mut random = Random(21);
    let mut longest = 0;
    for _ in 0..400 {
        let whole = lists::of_sheet(&form::any_sheet(&mut random));
        longest = longest.max(whole.len());
        for at in 0..whole.len() {
            let mut list = whole.clone();
            for edge in (0..40).chain(lists::EDGES) {
                list[at] = edge;
                agrees(&list);
            }
            agrees(&whole[..at]);
        }
        for edge in lists::EDGES {
            let mut list = whole.clone();
            list.push(edge);
            assert_eq!(write(&list, 9_999), (6, whole.len() as u64, vec![]));
            agrees(&list);
        }
    }
    assert!(longest > 150, "{longest}");
}

#[test]
fn sheets_that_were_read_are_written_as_they_were() {
    let path = concat!(env!("CARGO_MANIFEST_DIR"), "/../crates/compare/stdin");
    let questions = std::fs::read_to_string(path).unwrap();
    let mut accepted = 0;
    for line in questions.lines().filter(|line| !line.starts_with('#')) {
        let sheet = bytes(line.split(' ').nth(1).unwrap_or("").trim_matches('-'));
        if let Ok(form) = read(&sheet) {
            let (number, length, written) = write(&lists::of_sheet(&form), sheet.len());
            assert_eq!((number, length, &written), (0, sheet.len() as u64, &sheet), "{line}");
            assert_eq!(read(&written), Ok(form), "{line}");
            let question = format!("write {length} {}", sheet.iter().map(u8::to_string).collect::<Vec<_>>().join(" "));
            let hex: String = sheet.iter().map(|byte| format!("{byte:02x}")).collect();
            assert_eq!(answer(&question), format!("0 {length} : {hex}\n"), "{line}");
            accepted += 1;
        }
    }
    assert!(accepted > 1_500, "{accepted}");
}

#[test]
fn limits_come_before_length() {
    let friday = numbers(FRIDAY);
    assert_eq!(friday.len(), 29);
    assert_eq!(write(&friday, 29), (0, 29, bytes(FRIDAY)));
    assert_eq!(write(&friday, 28), (16, 29, vec![]));
    for (at, value, number) in
        [(0, 33, 3), (0, 16_383, 3), (0, 16_384, 2), (1, 8, 4), (2, 32, 4), (8, 8, 4), (9, 3, 5), (9, 65_535, 2)]
    {
        let mut list = friday.clone();
        list[at] = value;
        for length in [0, 28, 29, 2_048] {
            assert_eq!(write(&list, length), (number, at as u64, vec![]), "{value} at {at}");
        }
    }
}

fn answer(line: &str) -> String {
    let mut out = Vec::new();
    Desk::new().answer(line.as_bytes(), &mut out);
    String::from_utf8(out).unwrap()
}

#[test]
fn questions_to_the_writer() {
    for (line, wanted) in [
        ("write 5 0 0 0 0 0", "0 5 : 0000000000\n"),
        ("write\t2048 0 0 00 0 0 \r\n", "0 5 : 0000000000\n"),
        ("write 12 1 2 31 0 8 1 7 0 1 7 7 0", "0 12 : 01021f000801070001070700\n"),
        ("write 4 0 0 0 0 0", "16 5 : untouched\n"),
        ("write 0 0 0 0 0 0", "16 5 : untouched\n"),
        ("write 0", "1 0 : untouched\n"),
        ("write 5 0 0 0 0", "1 4 : untouched\n"),
        ("write 5 65535", "2 0 : untouched\n"),
        ("write 5 0 0 9", "3 2 : untouched\n"),
        ("write 5 1 8", "4 1 : untouched\n"),
        ("write 5 1 3 0", "5 2 : untouched\n"),
        ("write 5 0 0 0 0 0 65535", "6 5 : untouched\n"),
        ("write", "what?\n"),
        ("write 2049 0 0 0 0 0", "what?\n"),
        ("write 5 0 0 0 0 65536", "what?\n"),
        ("write 5 0 0 0 0 0 x", "what?\n"),
        ("write -1", "what?\n"),
        ("write 5 0000000000 0 0 0 -0", "what?\n"),
    ] {
        assert_eq!(answer(line), wanted, "{line:?}");
    }
    let spare = " 7".repeat(2_000);
    assert_eq!(answer(&format!("write 5 0 0 0 0 0{spare}")), "6 5 : untouched\n");
}
