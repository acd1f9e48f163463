//! The bench of document 01, sheets that tell readings apart (docs/DECISIONS.md), every answer number, and the desk's own limits.

use second::desk::Desk;
use second::engine::{Answer, Engine};
use second::sheet::{balance, read, Refusal};

const P1: &str = "0000000000";
const P2: &str = "03 0200 0201 0301 01 0002 01 02 0000 0001 00";
const P3: &str = "03 0200 0201 0301 01 0002 02 02 0000 0101 00";
const P4: &str = "02 00 01 01 0001 00 00 00";
const P5: &str = "02 00 060000 01 0001 00 00 00";
const P6: &str = "09 0200 0201 060000 060001 040001 060004 0305 040203 040706 00 01 01 0008 00";
const P7: &str = "04 0201 0300 070000 070101 00 03 02 0002 0203 02 000001 010201";
const P8: &str = "04 0205 0205 0301 040002 00 01 01 0003 00";
const P9: &str = "03 0200 0201 0202 03 0001 0102 0002 01 01 0000 00";
const P9_TWO: &str = "03 0200 0201 0202 03 0001 0102 0002 02 01 0000 00";
const P10: &str = "03 0200 0201 0202 03 0001 0102 0002 01 02 0000 0002 00";
const P11: &str = "04 0200 0201 060001 01 02 0002 0103 01 01 0000 00";

fn bytes(hex: &str) -> Vec<u8> {
    let digits: String = hex.split_whitespace().collect();
    assert!(digits.len().is_multiple_of(2));
    (0..digits.len() / 2).map(|i| u8::from_str_radix(&digits[2 * i..2 * i + 2], 16).unwrap()).collect()
}

/// Number, value and the buffer at the end; it holds sevens at the start.
fn sat_lent(sheet: &[u8], room: u64, marks: u64, length: usize) -> (u8, u64, Vec<u32>) {
    let mut out = vec![7; length];
    let Answer { number, value } = Engine::new().sat(sheet, room, marks, &mut out);
    (number, value, out)
}

fn sat(hex: &str, room: u64, length: usize) -> (u8, u64, Vec<u32>) {
    sat_lent(&bytes(hex), room, room, length)
}

fn causes(hex: &str, port: u64, class: u64, room: u64, length: usize) -> (u8, u64, Vec<u16>) {
    let mut out = vec![7; length];
    let Answer { number, value } = Engine::new().causes(&bytes(hex), port, class, room, room, &mut out);
    (number, value, out)
}

fn refused(number: u8, place: u64) -> Refusal {
    Refusal { number, place }
}

fn fault(hex: &str) -> (u8, u64) {
    let sheet = bytes(hex);
    let refusal = read(&sheet).unwrap_err();
    // The same fault from every public function, with nothing touched.
    let (number, value, out) = sat_lent(&sheet, 0, 0, 3);
    assert_eq!((number, value, out), (refusal.number, refusal.place, vec![7; 3]));
    let (number, value, out) = causes(hex, 99, 99, 0, 3);
    assert_eq!((number, value, out), (refusal.number, refusal.place, vec![7; 3]));
    assert_eq!(balance(&sheet, 0), Err(refusal));
    assert_eq!(sat_lent(&sheet, 1, 0, 1), (7, 0, vec![7]));
    (refusal.number, refusal.place)
}

#[test]
fn bench_of_models() {
    assert_eq!(sat(P1, 0, 3), (10, 3, vec![1, 0, 0]));
    assert_eq!(sat(P2, 0, 4), (12, 0, vec![0; 4]));
    assert_eq!(sat(P3, 0, 4), (10, 4, vec![2, 1, 2, 0]));
    assert_eq!(sat(P4, 0, 4), (12, 0, vec![0; 4]));
    assert_eq!(sat(P5, 0, 10), (13, 0, vec![0; 10]));
    assert_eq!(sat(P5, 1, 10), (10, 10, vec![2, 0, 0, 2, 0, 0, 1, 1, 0, 1]));
    assert_eq!(sat(P6, 2, 11), (10, 11, vec![3, 0, 1, 2, 2, 0, 0, 1, 0, 0, 2]));
    assert_eq!(sat(P6, 1, 11), (13, 0, vec![0; 11]));
    assert_eq!(sat(P7, 0, 2), (12, 0, vec![0; 2]));
    assert_eq!(sat(P8, 0, 2), (12, 0, vec![0; 2]));
    assert_eq!(sat(P11, 1, 2), (12, 0, vec![0; 2]));
    assert_eq!(sat(P11, 0, 2), (13, 0, vec![0; 2]));
}

#[test]
fn bench_of_causes() {
    assert_eq!(causes(P9, 0, 2, 0, 3), (14, 2, vec![3, 4, 0]));
    assert_eq!(causes(P10, 0, 2, 0, 2), (14, 1, vec![0, 0]));
    assert_eq!(causes(P11, 0, 3, 1, 1), (14, 1, vec![32771]));
    assert_eq!(causes(P11, 0, 3, 0, 1), (13, 0, vec![0]));
    assert_eq!(causes(P9_TWO, 1, 2, 0, 2), (14, 0, vec![0, 0]));
}

#[test]
fn bench_of_faults() {
    assert_eq!(fault("80 00"), (2, 0));
    assert_eq!(fault("80"), (1, 0));
    assert_eq!(fault("21"), (3, 0));
    assert_eq!(fault("01 03 00"), (5, 2));
    assert_eq!(fault("00 00 00 00 00 00"), (6, 5));
}

#[test]
fn answer_1() {
    assert_eq!(fault(""), (1, 0));
    let sheet = bytes(P7);
    for length in 0..sheet.len() {
        assert_eq!(read(&sheet[..length]), Err(refused(1, length as u64)));
        let mut begun = sheet[..length].to_vec();
        begun.push(0x81);
        assert_eq!(read(&begun), Err(refused(1, length as u64)));
    }
}

#[test]
fn answer_2() {
    assert_eq!(fault("80 80"), (2, 0));
    assert_eq!(fault("02 00 81 00"), (2, 2));
    assert_eq!(fault("00 00 ff ff 01"), (2, 2));
    assert_eq!(fault("00 00 00 00 80 00"), (2, 4));
}

#[test]
fn answer_3() {
    assert_eq!(fault("80 01"), (3, 0));
    assert_eq!(fault("00 0d"), (3, 1));
    assert_eq!(fault("00 00 09"), (3, 2));
    assert_eq!(fault("00 00 00 11"), (3, 3));
    assert_eq!(fault("00 00 00 00 ff 7f"), (3, 4));
    let mut most = bytes("20");
    most.extend([0; 32]);
    most.extend([12]);
    most.extend([0; 24]);
    most.extend([8, 16]);
    most.extend([0; 32]);
    most.extend([16]);
    most.extend([0; 48]);
    assert_eq!(sat_lent(&most, 0, 0, 0).0, 11);
}

#[test]
fn answer_4() {
    assert_eq!(fault("01 08"), (4, 1));
    assert_eq!(fault("01 80 01"), (4, 1));
    assert_eq!(fault("01 02 20"), (4, 2));
    assert_eq!(fault("02 00 06 08 00"), (4, 3));
    // role before line
    assert_eq!(fault("02 00 07 08 05"), (4, 3));
    assert_eq!(fault("00 00 01 00 01 08 00 00"), (4, 5));
    assert_eq!(fault("00 00 00 00 01 08 00 00"), (4, 5));
}

#[test]
fn answer_5() {
    assert_eq!(fault("02 00 04 00 01"), (5, 4));
    assert_eq!(fault("02 00 06 00 01"), (5, 4));
    assert_eq!(fault("00 01 00 00"), (5, 2));
    assert_eq!(fault("01 00 01 00 01"), (5, 4));
    assert_eq!(fault("01 00 00 00 01 00 00"), (5, 5));
    assert_eq!(fault("00 00 01 01 00 00"), (5, 5));
    assert_eq!(fault("00 00 01 01 01 80"), (5, 4));
    assert_eq!(fault("00 00 01 00 01 00 00 01"), (5, 7));
    assert_eq!(fault("00 00 00 00 01 07 00 00"), (5, 6));
}

#[test]
fn answer_6() {
    assert_eq!(fault("00 00 00 00 00 80"), (6, 5));
    assert_eq!(fault(&format!("{P2} 01 02 03")), (6, bytes(P2).len() as u64));
}

#[test]
fn answer_7() {
    let p1 = bytes(P1);
    assert_eq!(sat_lent(&p1, 4097, 5000, 1), (7, 0, vec![7]));
    assert_eq!(sat_lent(&p1, 3, 2, 1), (7, 0, vec![7]));
    assert_eq!(sat_lent(&p1, 4096, 4096, 3).0, 10);
    assert_eq!(sat_lent(&p1, 0, 8000, 3).0, 10);
    assert_eq!(causes(P9, 0, 2, 4097, 1), (7, 0, vec![7]));
    assert_eq!(causes(P9, 9, 2, 4097, 1), (7, 0, vec![7]));
    assert_eq!(balance(&p1, 4097), Err(refused(7, 0)));
    assert_eq!(balance(&[], u64::MAX), Err(refused(7, 0)));
}

#[test]
fn answer_8() {
    assert_eq!(causes(P9, 1, 2, 0, 1), (8, 0, vec![7]));
    assert_eq!(causes(P9, 0, 3, 0, 1), (8, 0, vec![7]));
    assert_eq!(causes(P9, u64::MAX, u64::MAX, 0, 1), (8, 0, vec![7]));
    assert_eq!(causes(P9, 256, 256, 0, 1), (8, 0, vec![7]));
    // the unnamed element is no port
    assert_eq!(causes(P5, 0, 0, 0, 1), (8, 0, vec![7]));
    // before 13
    assert_eq!(causes(P11, 1, 3, 0, 1), (8, 0, vec![7]));
}

#[test]
fn answers_10_and_11() {
    assert_eq!(sat(P3, 0, 5), (10, 4, vec![2, 1, 2, 0, 0]));
    assert_eq!(sat(P3, 0, 3), (11, 4, vec![0; 3]));
    assert_eq!(sat(P3, 0, 0), (11, 4, vec![]));
}

#[test]
fn answers_13_to_15() {
    assert_eq!(causes(P9, 0, 2, 0, 2), (14, 2, vec![3, 4]));
    assert_eq!(causes(P9, 0, 2, 0, 1), (15, 2, vec![0]));
    assert_eq!(causes(P9, 0, 2, 0, 0), (15, 2, vec![]));
    assert_eq!(causes(P9_TWO, 1, 2, 0, 0), (14, 0, vec![]));
    // 13 before 15
    assert_eq!(causes(P11, 0, 3, 0, 0), (13, 0, vec![]));
    // a rule written twice gives two sets
    assert_eq!(causes("02 0200 0201 02 0001 0001 01 01 0000 00", 0, 1, 0, 2), (14, 2, vec![1, 2]));
}

/// Document 02, request 02.
#[test]
fn marks() {
    // contradictory assertions force everything, whatever is asked
    const BOTTOM_PORT: &str = "02 0200 01 01 0001 01 01 0001 00";
    for class in [0, 1] {
        assert_eq!(causes(BOTTOM_PORT, 0, class, 0, 2), (14, 1, vec![32768, 0]));
    }
    assert_eq!(causes(BOTTOM_PORT, 0, 0, 0, 0), (15, 1, vec![]));
    // rules 0 and 1 catch the port, rules 0 and 2 contradict each other: the order is by rules
    const BOTH: &str = "05 0200 0201 0202 0301 0203 03 0001 0102 0003 01 01 0000 00";
    assert_eq!(causes(BOTH, 0, 2, 0, 3), (14, 2, vec![3, 32773, 0]));
    assert_eq!(causes(BOTH, 0, 2, 0, 1), (15, 2, vec![0]));
    // of a class that no rule speaks of, the contradiction alone
    assert_eq!(causes(BOTH, 0, 4, 0, 2), (14, 1, vec![32773, 0]));
    // and not where one of its rules does it by itself
    assert_eq!(causes(BOTH, 0, 3, 0, 2), (14, 1, vec![4, 0]));
    // a marked set before one that is not: rules 0 and 1 contradict each other, rule 2 catches
    const MARKED_FIRST: &str = "04 0200 0201 0202 0301 03 0001 0003 0002 01 01 0000 00";
    assert_eq!(causes(MARKED_FIRST, 0, 2, 0, 2), (14, 2, vec![32771, 4]));
    // a contradiction at another port
    const ELSEWHERE: &str = "03 0200 0201 01 01 0002 02 01 0100 00";
    assert_eq!(causes(ELSEWHERE, 0, 1, 0, 1), (14, 1, vec![32769]));
}

/// 13 where only judging a listed set without "class fails" lacks room, and before 15.
#[test]
fn room_for_marks() {
    // the port is in line 0 and in line 1, some 0 0. With "0 fails" it clashes at once, without it there is a seed
    const ASSERTED: &str = "02 0200 060000 00 01 02 0000 0001 00";
    assert_eq!(causes(ASSERTED, 0, 0, 0, 1), (13, 0, vec![0]));
    assert_eq!(causes(ASSERTED, 0, 0, 0, 0), (13, 0, vec![]));
    assert_eq!(causes(ASSERTED, 0, 0, 1, 0), (15, 1, vec![]));
    assert_eq!(causes(ASSERTED, 0, 0, 1, 1), (14, 1, vec![0]));
    // the seed is unsatisfiable: line 1 is bottom
    const CONTRADICTORY: &str = "03 0200 01 060001 00 01 02 0000 0002 00";
    assert_eq!(causes(CONTRADICTORY, 0, 0, 0, 1), (13, 0, vec![0]));
    assert_eq!(causes(CONTRADICTORY, 0, 0, 1, 1), (14, 1, vec![32768]));
}

#[test]
fn balances() {
    assert_eq!(balance(&bytes(P1), 0), Ok(0));
    assert_eq!(balance(&bytes(P1), 4096), Ok(4096));
    assert_eq!(balance(&bytes(P5), 0), Ok(-1));
    assert_eq!(balance(&bytes(P5), 1), Ok(0));
    assert_eq!(balance(&bytes(P6), 11), Ok(-1));
    let mut most = bytes("20 00");
    most.extend((0..31).flat_map(|_| [6, 0, 0]));
    most.extend([0, 0, 0, 0]);
    assert_eq!(balance(&most, 0), Ok(-31 * (1 << 30)));
}

/// Sheet, records needed, answer, words.
const APART: &[(&str, u64, u8, &[u32])] = &[
    ("0400000200050201010300000000", 0, 10, &[1, 0, 0]),
    ("03020002000700010102000201010100", 1, 10, &[3, 0, 1, 0, 3, 0, 0, 2, 1, 0, 2, 2, 0, 2]),
    ("0702000201050100030003030607020707040001020005000600", 1, 10, &[2, 0, 3, 1, 0, 7, 1]),
    ("0402000300000702020101020301000301020000", 0, 10, &[3, 1, 1, 1, 1, 0, 2, 0]),
    ("0302000600000700010102020101000100", 3, 10, &[4, 0, 1, 0, 0, 5, 0, 0, 1, 0, 0, 2, 1, 0, 2, 2, 0, 3, 3, 0, 3]),
    ("0201060100000201000100", 1, 12, &[]),
    ("04020000060201070200010302000000", 2, 10, &[2, 0, 0, 2, 0, 2, 1, 1, 2, 1]),
    ("0400010600010600000002020102010300", 2, 12, &[]),
    ("0201060000010001020000", 0, 10, &[2, 0, 0, 0]),
    ("0302000601000600000002020001000200", 1, 10, &[3, 0, 0, 1, 2, 0, 0, 2, 0, 1, 2]),
    (
        "04020f0600000600010700020103030101000200",
        7,
        10,
        &[6, 0, 0, 0, 32768, 0, 0, 8, 0, 0, 1, 0, 0, 2, 1, 0, 2, 1, 0, 3, 2, 0, 4, 3, 0, 2, 4, 0, 5, 5, 0, 5],
    ),
    ("0201070300010101000000", 1, 10, &[2, 0, 0, 2, 0, 3, 1, 1, 3, 1]),
    ("030200000500010100000301010200", 0, 10, &[3, 0, 1, 0, 0]),
    ("030200000500010202010202030000", 0, 10, &[3, 0, 0, 0, 0]),
    ("050201020203010502010501000001020003000400", 0, 10, &[1, 2, 0]),
    ("01020b010000040000", 0, 10, &[4, 0, 0, 0, 0, 0]),
    ("05020002020501000702020702000004020203020401020201", 0, 10, &[4, 0, 1, 0, 0, 1, 2, 2, 1]),
    (
        "0a0200020203000301040203030405030303060700050700070003020008010902000000000100",
        0,
        10,
        &[3, 5, 0, 0, 2, 0, 0, 0, 1, 0, 0],
    ),
    ("04021d000601000500020102010201010301010001", 1, 10, &[3, 0, 0, 536870912, 2, 0, 1, 1, 1, 1, 2]),
    (
        "0b0202030003000700010503000700030600010500060006000707000405090a0400050706040708000000",
        6,
        10,
        &[5, 4, 0, 4, 4, 4, 8, 0, 0, 1, 1, 0, 2, 1, 0, 3, 2, 0, 1, 3, 0, 2, 3, 0, 4, 4, 0, 2, 4, 0, 4],
    ),
    (
        "0f000201010500010701030202070102020306010505050803070202030a060009040905040d0e040e0c0d0b0e000000",
        1,
        10,
        &[1, 4, 0],
    ),
];

#[test]
fn witnesses() {
    for &(hex, need, number, words) in APART {
        assert_eq!(sat(hex, need, words.len()), (number, words.len() as u64, words.to_vec()), "{hex}");
        if need > 0 {
            assert_eq!(sat(hex, need - 1, words.len()), (13, 0, vec![0; words.len()]), "{hex}");
        }
    }
}

fn desk(questions: &str) -> String {
    let mut desk = Desk::new();
    let mut out = Vec::new();
    for line in questions.split_inclusive('\n') {
        desk.answer(line.as_bytes(), &mut out);
    }
    String::from_utf8(out).unwrap()
}

#[test]
fn desk_answers() {
    assert_eq!(desk("# remark\n\n  \nsat 0000000000 0 0 5\n"), "10 3 : 1 0 0 0 0\n");
    assert_eq!(desk("sat 0000000000 0 0 0"), "11 3 : \n");
    assert_eq!(desk("sat - 0 0 4\nbalance - 0\n"), "1 0 : untouched\n1 0\n");
    assert_eq!(desk("sat 0000000000 4097 8192 4\n"), "7 0 : untouched\n");
    assert_eq!(desk("balance 0200060000010001000000 0\n"), "bal -1\n");
    assert_eq!(desk("balance - 18446744073709551614\n"), "7 0\n");
    let p9: String = P9.split_whitespace().collect();
    assert_eq!(desk(&format!("causes {p9} 0 2 0 0 3\n")), "14 2 : 3 4 0\n");
    assert_eq!(desk(&format!("causes {p9} 18446744073709551615 2 0 0 3\n")), "8 0 : untouched\n");
}

#[test]
fn desk_limits() {
    let long = "00".repeat(4097);
    for question in [
        "sat",
        "sat 00 0 0",
        "sat 00 0 0 0 0",
        "sat 00 5001 8192 0",
        "sat 00 0 8193 0",
        "sat 00 0 0 65537",
        "sat 00 -1 0 0",
        "sat 00 +1 1 0",
        "sat 000 0 0 0",
        "sat 0g 0 0 0",
        "causes 00 0 0 0 0 4097",
        "causes 00 18446744073709551616 0 0 0 0",
        "causes 00 0 0 0 0",
        "balance 00 18446744073709551616",
        "balance 00",
        "weight 00 0",
        &format!("sat {long} 0 0 0"),
        "causes 00 0 0 0 0 0 0",
    ] {
        assert_eq!(desk(question), "what?\n", "{question}");
    }
    assert_eq!(desk(&format!("sat {} 0 0 0\n", &long[2..])), "6 5 : untouched\n");
    assert_eq!(desk("sat 00 5000 8192 65536\n"), "7 0 : untouched\n");
}
