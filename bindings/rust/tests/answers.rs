//! Every answer number, over the bench sheets and the faults of docs/FORMAT.md; and what every buffer ends as.
use bargaindune::{
    balance, causes, satisfy, Answer, Cause, Desk, Listed, Reason, Refusal, Verdict, CONTRADICTORY,
};

// The bench. P4 to P11 are laid out by hand from what the bench says of them.
const P1: &str = "00 00 00 00 00";
const P2: &str = "03 02 00 02 01 03 01 01 00 02 01 02 00 00 00 01 00";
const P3: &str = "03 02 00 02 01 03 01 01 00 02 02 02 00 00 01 01 00";
const P4: &str = "02 00 01 01 00 01 00 00 00";
const P5: &str = "02 00 06 00 00 01 00 01 00 00 00";
const P6: &str =
    "09 02 00 02 01 06 00 00 06 00 01 04 00 01 06 00 04 03 05 04 02 03 04 07 06 00 01 01 00 08 00";
const P7: &str = "04 02 00 07 00 00 03 00 07 01 02 00 03 02 00 01 02 03 02 00 00 01 01 02 01";
const P8: &str = "04 02 05 02 05 03 01 04 00 02 00 01 01 00 03 00";
const P9: &str = "03 02 00 02 01 02 02 03 00 01 01 02 00 02 01 01 00 00 00";
const P9_TWO_PORTS: &str = "03 02 00 02 01 02 02 03 00 01 01 02 00 02 02 01 00 00 00";
const P10: &str = "03 02 00 02 01 02 02 03 00 01 01 02 00 02 01 02 00 00 00 02 00";
const P11: &str = "04 02 00 02 01 06 00 01 01 02 00 02 01 03 01 01 00 00 00";
// Name 0 and bottom; rule 0 ⊑ bottom; the port is in bottom.
const CONTRADICTORY_ASSERTIONS: &str = "02 02 00 01 01 00 01 01 01 00 01 00";
// Names 0 to 3 and not 1; rules 0 ⊑ 1, 1 ⊑ 2, 0 ⊑ not 1; the port is in line 0. Rules 0 and 1 force class 2, and rules 0 and 2 cannot both stand.
const BOTH_MARKS: &str = "05 02 00 02 01 02 02 02 03 03 01 03 00 01 01 02 00 04 01 01 00 00 00";
// The port is in line 0 and in line 1, some 0 0: with "0 fails" it clashes at once, without it there is a neighbour.
const NEIGHBOUR: &str = "02 02 00 06 00 00 00 01 02 00 00 00 01 00";

// What stands in the buffers before a question.
const RECORD: u64 = 0xa5a5_a5a5_a5a5_a5a5;
const MARK: u8 = 0xa5;
const WORD: u32 = 0xa5a5_a5a5;
const SLOT: u16 = 0xa5a5;

fn hex(text: &str) -> Vec<u8> {
    text.split_whitespace()
        .map(|byte| u8::from_str_radix(byte, 16).unwrap())
        .collect()
}

/// Asks with so many records, marks and words lent; checks the records and marks, and hands back the answer and the model buffer.
fn model_of(sheet: &[u8], lent: usize, marked: usize, words: usize) -> (Answer, Vec<u32>) {
    let (mut records, mut marks, mut model) =
        (vec![RECORD; lent], vec![MARK; marked], vec![WORD; words]);
    let answer = satisfy(sheet, &mut records, &mut marks, &mut model);
    ends(answer, &records, &marks);
    if let Answer::Refused(_) = answer {
        assert_eq!(
            model,
            vec![WORD; words],
            "a refusal touched the model buffer"
        );
    }
    (answer, model)
}

/// The same of a cause list.
fn list_of(
    sheet: &[u8],
    port: u64,
    class: u64,
    lent: usize,
    marked: usize,
    slots: usize,
) -> (Answer, Vec<u16>) {
    let (mut records, mut marks, mut list) =
        (vec![RECORD; lent], vec![MARK; marked], vec![SLOT; slots]);
    let answer = causes(sheet, port, class, &mut records, &mut marks, &mut list);
    ends(answer, &records, &marks);
    if let Answer::Refused(_) = answer {
        assert_eq!(list, vec![SLOT; slots], "a refusal touched the list buffer");
    }
    (answer, list)
}

/// Untouched under 1 to 8, and else zero.
fn ends(answer: Answer, records: &[u64], marks: &[u8]) {
    let (record, mark) = match answer {
        Answer::Refused(_) => (RECORD, MARK),
        _ => (0, 0),
    };
    assert!(
        records.iter().all(|&r| r == record),
        "records after {answer:?}"
    );
    assert!(marks.iter().all(|&m| m == mark), "marks after {answer:?}");
}

/// All three questions refuse the sheet alike.
fn refused(text: &str, reason: Reason, place: usize) {
    let sheet = hex(text);
    let refusal = Refusal { reason, place };
    let answer = Answer::Refused(refusal);
    assert_eq!(model_of(&sheet, 2, 3, 4).0, answer, "{text}");
    // a port that is not there is seen later
    assert_eq!(
        list_of(&sheet, u64::MAX, u64::MAX, 2, 3, 4).0,
        answer,
        "{text}"
    );
    assert_eq!(balance(&sheet, 2), Err(refusal), "{text}");
    assert_eq!(
        (answer.number(), answer.carries()),
        (reason.number(), place)
    );
}

#[test]
fn one_cut() {
    refused("", Reason::Cut, 0);
    refused("80", Reason::Cut, 0);
    refused("00 00 00 00", Reason::Cut, 4);
    refused("01 06 00", Reason::Cut, 3);
    refused("00 00 00 00 80", Reason::Cut, 4);
    assert_eq!(Reason::Cut.number(), 1);
}

#[test]
fn two_badly_formed() {
    refused("80 00", Reason::BadlyFormed, 0);
    refused("80 80", Reason::BadlyFormed, 0);
    refused("00 00 ff 80 00", Reason::BadlyFormed, 2);
    assert_eq!(Reason::BadlyFormed.number(), 2);
}

#[test]
fn three_over_limit() {
    refused("21", Reason::OverLimit, 0);
    refused("00 0d", Reason::OverLimit, 1);
    refused("00 00 09", Reason::OverLimit, 2);
    refused("00 00 00 11", Reason::OverLimit, 3);
    refused("00 00 00 00 11", Reason::OverLimit, 4);
    // 128, in two bytes
    refused("80 01", Reason::OverLimit, 0);
    assert_eq!(Reason::OverLimit.number(), 3);
}

#[test]
fn four_too_large() {
    refused("01 08", Reason::TooLarge, 1);
    refused("01 02 20", Reason::TooLarge, 2);
    refused("02 00 06 08 00", Reason::TooLarge, 3);
    refused("00 00 01 00 01 08 00 00", Reason::TooLarge, 5);
    assert_eq!(Reason::TooLarge.number(), 4);
}

#[test]
fn five_not_there() {
    refused("01 03 00", Reason::NotThere, 2);
    refused("00 01 00", Reason::NotThere, 2);
    refused("01 00 00 00 01 00", Reason::NotThere, 5);
    refused("00 00 01 00 01 00 00 01", Reason::NotThere, 7);
    assert_eq!(Reason::NotThere.number(), 5);
}

#[test]
fn six_left_over() {
    refused("00 00 00 00 00 00", Reason::LeftOver, 5);
    // spare bytes are not read as numbers
    refused("00 00 00 00 00 80 80", Reason::LeftOver, 5);
    assert_eq!(Reason::LeftOver.number(), 6);
}

#[test]
fn seven_lent_badly() {
    let badly = Answer::Refused(Refusal {
        reason: Reason::LentBadly,
        place: 0,
    });
    // before the sheet is looked at, also where that is faulty
    for text in [P1, P9, "80 00"] {
        let sheet = hex(text);
        for (lent, marked) in [(4097, 4097), (4097, 5000), (1, 0), (4096, 4095)] {
            assert_eq!(model_of(&sheet, lent, marked, 3).0, badly);
            assert_eq!(list_of(&sheet, 9, 9, lent, marked, 3).0, badly);
        }
        for room in [4097, u64::MAX] {
            assert_eq!(
                balance(&sheet, room),
                Err(Refusal {
                    reason: Reason::LentBadly,
                    place: 0
                })
            );
        }
    }
    assert_eq!(badly.number(), 7);
    // at the limit, and with marks to spare, all is well
    assert_eq!(
        model_of(&hex(P1), 4096, 4096, 3).0,
        Answer::Model { words: 3 }
    );
    assert_eq!(
        model_of(&hex(P1), 0, 10_000, 3).0,
        Answer::Model { words: 3 }
    );
}

#[test]
fn eight_off_sheet() {
    let off = Answer::Refused(Refusal {
        reason: Reason::OffSheet,
        place: 0,
    });
    // P9 has port 0 and lines 0 to 2
    for (port, class) in [
        (1, 2),
        (0, 3),
        (1, 3),
        (u64::MAX, 0),
        (0, u64::MAX),
        (1 << 32, 0),
        (0, 1 << 32),
    ] {
        assert_eq!(list_of(&hex(P9), port, class, 1, 1, 3).0, off);
    }
    // the unnamed element is no port
    assert_eq!(list_of(&hex(P4), 0, 0, 1, 1, 3).0, off);
    // before 13
    assert_eq!(list_of(&hex(P11), 1, 3, 0, 0, 3).0, off);
    assert_eq!(off.number(), 8);
}

#[test]
fn ten_model() {
    let bench: [(&str, usize, &[u32]); 4] = [
        (P1, 0, &[1, 0, 0]),
        (P3, 0, &[2, 1, 2, 0]),
        (P5, 1, &[2, 0, 0, 2, 0, 0, 1, 1, 0, 1]),
        (P6, 2, &[3, 0, 1, 2, 2, 0, 0, 1, 0, 0, 2]),
    ];
    for (text, lent, words) in bench {
        // an exact fit, and with words, records and marks to spare
        for (spare, more) in [(0, 0), (5, 3)] {
            let (answer, model) = model_of(
                &hex(text),
                lent + more,
                lent + 2 * more,
                words.len() + spare,
            );
            assert_eq!(answer, Answer::Model { words: words.len() });
            assert_eq!((answer.number(), answer.carries()), (10, words.len()));
            assert_eq!(model[..words.len()], *words);
            assert_eq!(model[words.len()..], vec![0; spare]);
        }
    }
}

#[test]
fn eleven_long_model() {
    for (text, lent, words) in [(P1, 0, 3), (P3, 0, 4), (P5, 1, 10), (P6, 2, 11)] {
        for shorter in [0, 1, words - 1] {
            let (answer, model) = model_of(&hex(text), lent, lent, shorter);
            assert_eq!(answer, Answer::LongModel { words });
            assert_eq!((answer.number(), answer.carries()), (11, words));
            assert_eq!(model, vec![0; shorter]);
        }
    }
}

#[test]
fn twelve_unsatisfiable() {
    for (text, lent) in [(P2, 0), (P4, 0), (P7, 0), (P8, 0), (P11, 1)] {
        let (answer, model) = model_of(&hex(text), lent, lent, 6);
        assert_eq!(answer, Answer::Unsatisfiable, "{text}");
        assert_eq!((answer.number(), answer.carries()), (12, 0));
        assert_eq!(model, [0; 6]);
    }
}

#[test]
fn thirteen_out_of_space() {
    // P6 needs two records
    for (text, lent) in [(P5, 0), (P6, 0), (P6, 1), (P11, 0)] {
        let (answer, model) = model_of(&hex(text), lent, lent + 1, 6);
        assert_eq!(answer, Answer::OutOfSpace, "{text}");
        assert_eq!((answer.number(), answer.carries()), (13, 0));
        assert_eq!(model, [0; 6]);
    }
    // before 15: rule 0 alone asks for a neighbour, and telling the mark of a listed set takes a record
    for (text, class) in [(P11, 3), (NEIGHBOUR, 0)] {
        for slots in [0, 4] {
            let (answer, list) = list_of(&hex(text), 0, class, 0, 1, slots);
            assert_eq!(answer, Answer::OutOfSpace, "{text}");
            assert_eq!(list, vec![0; slots]);
        }
    }
}

#[test]
fn fourteen_causes() {
    let bench: [(&str, u64, u64, usize, &[u16]); 8] = [
        (P9, 0, 2, 0, &[3, 4]),
        (P10, 0, 2, 0, &[0]),
        (P11, 0, 3, 1, &[32_771]),
        (P9_TWO_PORTS, 1, 2, 0, &[]),
        (CONTRADICTORY_ASSERTIONS, 0, 0, 0, &[32_768]),
        (BOTH_MARKS, 0, 2, 0, &[3, 32_773]),
        (BOTH_MARKS, 0, 3, 0, &[32_773]),
        (NEIGHBOUR, 0, 0, 1, &[0]),
    ];
    for (text, port, class, lent, sets) in bench {
        for (spare, more) in [(0, 0), (5, 3)] {
            let (answer, list) = list_of(
                &hex(text),
                port,
                class,
                lent + more,
                lent + 2 * more,
                sets.len() + spare,
            );
            assert_eq!(answer, Answer::Causes { sets: sets.len() }, "{text}");
            assert_eq!((answer.number(), answer.carries()), (14, sets.len()));
            assert_eq!(list[..sets.len()], *sets);
            assert_eq!(list[sets.len()..], vec![0; spare]);
        }
    }
}

#[test]
fn fifteen_long_list() {
    for (text, class, lent, sets, slots) in [
        (P9, 2, 0, 2, 0),
        (P9, 2, 0, 2, 1),
        (P10, 2, 0, 1, 0),
        (P11, 3, 1, 1, 0),
        (BOTH_MARKS, 2, 0, 2, 1),
    ] {
        let (answer, list) = list_of(&hex(text), 0, class, lent, lent, slots);
        assert_eq!(answer, Answer::LongList { sets }, "{text}");
        assert_eq!((answer.number(), answer.carries()), (15, sets));
        assert_eq!(list, vec![0; slots]);
    }
}

#[test]
fn slots_and_causes() {
    for slot in 0..=u16::MAX {
        let cause = Cause::from_slot(slot);
        assert_eq!(cause.slot(), slot);
        assert_eq!(cause.contradictory, slot >= CONTRADICTORY);
        assert_eq!(cause.rules, slot % CONTRADICTORY);
        assert_eq!(
            cause.rule_numbers().map(|n| 1 << n).sum::<u16>(),
            cause.rules
        );
    }
}

#[test]
fn balances() {
    // no some or only line; one; three, worth 3·2^2
    for (text, bound) in [(P1, 0), (P9, 0), (P5, 1), (P11, 1), (P7, 4), (P6, 12)] {
        for room in [0, 1, 11, 12, 13, 4096] {
            assert_eq!(balance(&hex(text), room), Ok(room as i64 - bound), "{text}");
        }
    }
    // 31 of them, worth 31·2^30
    let mut sheet = hex("20 00");
    sheet.extend(hex("06 00 00").repeat(31));
    sheet.extend(hex("00 00 00 00"));
    assert_eq!(balance(&sheet, 0), Ok(-33_285_996_544));
    assert_eq!(balance(&sheet, 4096), Ok(4096 - 33_285_996_544));
}

#[test]
fn desk_keeps_no_trace() {
    // the same answers whatever was asked before
    let mut desk = Desk::new();
    for _ in 0..2 {
        assert_eq!(
            desk.satisfy(&hex(P6)),
            Ok(Verdict::Model(&[3, 0, 1, 2, 2, 0, 0, 1, 0, 0, 2]))
        );
        assert_eq!(desk.satisfy(&hex(P11)), Ok(Verdict::Unsatisfiable));
        for (text, class, slots) in [
            (P9, 2, &[3, 4][..]),
            (P10, 2, &[0]),
            (P11, 3, &[32_771]),
            (CONTRADICTORY_ASSERTIONS, 0, &[32_768]),
            (BOTH_MARKS, 2, &[3, 32_773]),
        ] {
            let causes: Vec<Cause> = slots.iter().copied().map(Cause::from_slot).collect();
            assert_eq!(
                desk.causes(&hex(text), 0, class),
                Ok(Listed::Causes(&causes))
            );
        }
        assert_eq!(
            desk.satisfy(&hex("21")),
            Err(Refusal {
                reason: Reason::OverLimit,
                place: 0
            })
        );
        assert_eq!(
            desk.causes(&hex(P9), 1, 2),
            Err(Refusal {
                reason: Reason::OffSheet,
                place: 0
            })
        );
        assert_eq!(desk.satisfy(&hex(P1)), Ok(Verdict::Model(&[1, 0, 0])));
    }
}

#[test]
fn desk_grows() {
    // line 0 is top and line n asks for a neighbour in line n - 1; line 31 is asserted of the port.
    // So each element asks for the next, 31 times: 32 elements without names in a row.
    let mut sheet = vec![32, 0];
    for line in 1..32 {
        sheet.extend([6, 0, line - 1]);
    }
    sheet.extend([0, 1, 1, 0, 31, 0]);
    let mut words = vec![32];
    words.extend([0; 32]);
    words.push(31);
    for from in 0..31 {
        words.extend([from, 0, from + 1]);
    }
    assert_eq!(Desk::new().satisfy(&sheet), Ok(Verdict::Model(&words)));
}

#[test]
fn desk_out_of_space() {
    // Bottom, some 0 bottom, twelve names, only 0 of each, and some 1 of the second line; rules: each name ⊑ its only line.
    // The port is in both some lines. Each set of names is handed to a neighbour in bottom, and the neighbour along role 1 takes one record more: 4,097.
    let mut sheet = vec![27, 1, 6, 0, 0];
    for name in 0..12 {
        sheet.extend([2, name]);
    }
    for name in 0..12 {
        sheet.extend([7, 0, 2 + name]);
    }
    sheet.extend([6, 1, 1, 12]);
    for name in 0..12 {
        sheet.extend([2 + name, 14 + name]);
    }
    let both = [1, 2, 0, 1, 0, 26, 0];
    let one = [1, 1, 0, 1, 0];
    assert_eq!(
        Desk::new().satisfy(&[&sheet[..], &both].concat()),
        Ok(Verdict::OutOfSpace)
    );
    assert_eq!(
        Desk::new().satisfy(&[&sheet[..], &one].concat()),
        Ok(Verdict::Unsatisfiable)
    );
}

#[test]
fn refusals_in_words() {
    let text = |reason, place| Refusal { reason, place }.to_string();
    assert_eq!(
        text(Reason::Cut, 4),
        "the sheet ends inside or before a number, at byte 4 of the sheet"
    );
    assert_eq!(
        text(Reason::LentBadly, 0),
        "over 4,096 records lent, or fewer mark bytes than records"
    );
}
