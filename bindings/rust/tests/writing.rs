//! The writer: every limit at and over, lists that are too short or too long, large numbers, short buffers; and sheets that are built by name.
use bargaindune::{
    balance, write, Cause, Fault, Item, Line, Port, Reason, Refusal, Sheet, Written, MOST_SHEET,
};

/// What stands in the buffer before.
const BYTE: u8 = 0xa5;

/// The sheet of docs/FRIDAY.md, as the README has it.
const FRIDAY: [u8; 29] = [
    0x05, 0x02, 0x00, 0x02, 0x01, 0x02, 0x02, 0x06, 0x00, 0x01, 0x02, 0x03, //
    0x04, 0x00, 0x01, 0x01, 0x02, 0x03, 0x01, 0x04, 0x02, //
    0x02, 0x01, 0x00, 0x00, 0x01, 0x00, 0x01, 0x00,
];

/// Each number in groups of seven bits, low group first, the high bit set when another follows.
fn groups(numbers: &[u16]) -> Vec<u8> {
    let mut bytes = Vec::new();
    for &number in numbers {
        let mut rest = number;
        while rest >= 128 {
            bytes.push(0x80 | (rest % 128) as u8);
            rest /= 128;
        }
        bytes.push(rest as u8);
    }
    bytes
}

fn wide(bytes: &[u8]) -> Vec<u16> {
    bytes.iter().map(|&byte| byte.into()).collect()
}

/// Written in buffers of every length up to its own and a few more: these bytes, and nothing else changes.
fn written(numbers: &[u16]) {
    let bytes = groups(numbers);
    let n = bytes.len();
    for room in 0..n + 5 {
        let mut out = vec![BYTE; room];
        let answer = write(numbers, &mut out);
        if room < n {
            assert_eq!(answer, Written::ShortBuffer { bytes: n }, "{numbers:?}");
            assert_eq!((answer.number(), answer.carries()), (16, n));
            assert_eq!(out, vec![BYTE; room]);
        } else {
            assert_eq!(answer, Written::Sheet { bytes: n }, "{numbers:?}");
            assert_eq!((answer.number(), answer.carries()), (0, n));
            assert_eq!(out[..n], bytes);
            assert_eq!(out[n..], vec![BYTE; room - n]);
        }
    }
    assert!(balance(&bytes, 4096).is_ok(), "a reader takes it");
}

/// Refused in buffers of several lengths, which stay as they are; and the bytes of the numbers are refused alike by the reader.
fn refused(numbers: &[u16], reason: Reason, place: usize) {
    let refusal = Refusal { reason, place };
    for room in [0, 1, place, numbers.len(), MOST_SHEET, 1000] {
        let mut out = vec![BYTE; room];
        let answer = write(numbers, &mut out);
        assert_eq!(answer, Written::Refused(refusal), "{numbers:?}");
        assert_eq!(
            (answer.number(), answer.carries()),
            (reason.number(), place)
        );
        assert_eq!(out, vec![BYTE; room], "a refusal touched the buffer");
    }
    assert_eq!(balance(&groups(numbers), 0), Err(refusal), "{numbers:?}");
}

/// A sheet of so many of each: names 0 as lines, and what follows names line 0 and port 0 alone.
fn of_counts(lines: u16, rules: u16, ports: u16, classes: u16, roles: u16) -> Vec<u16> {
    let times = |entry: &[u16], n: u16| entry.repeat(n.into());
    [
        vec![lines],
        times(&[2, 0], lines),
        vec![rules],
        times(&[0, 0], rules),
        vec![ports, classes],
        times(&[0, 0], classes),
        vec![roles],
        times(&[0, 0, 0], roles),
    ]
    .concat()
}

#[test]
fn counts_at_and_over() {
    written(&of_counts(0, 0, 0, 0, 0));
    written(&of_counts(32, 12, 8, 16, 16));
    refused(&of_counts(33, 0, 0, 0, 0), Reason::OverLimit, 0);
    refused(&of_counts(1, 13, 0, 0, 0), Reason::OverLimit, 3);
    refused(&of_counts(1, 0, 9, 0, 0), Reason::OverLimit, 4);
    refused(&of_counts(1, 0, 1, 17, 0), Reason::OverLimit, 5);
    refused(&of_counts(1, 0, 1, 0, 17), Reason::OverLimit, 6);
    // a count is judged before its entries, also where these are not there
    refused(&[33], Reason::OverLimit, 0);
    refused(&[0, 13], Reason::OverLimit, 1);
    refused(&[0, 0, 9], Reason::OverLimit, 2);
    refused(&[0, 0, 0, 17], Reason::OverLimit, 3);
    refused(&[0, 0, 0, 0, 17], Reason::OverLimit, 4);
}

#[test]
fn kinds_names_roles_at_and_over() {
    written(&[2, 0, 7, 0, 0, 0, 0, 0, 0]);
    refused(&[2, 0, 8, 0, 0, 0, 0, 0, 0], Reason::TooLarge, 2);
    written(&[1, 2, 31, 0, 0, 0, 0]);
    refused(&[1, 2, 32, 0, 0, 0, 0], Reason::TooLarge, 2);
    for kind in [6, 7] {
        written(&[2, 0, kind, 7, 0, 0, 0, 0, 0]);
        refused(&[2, 0, kind, 8, 0, 0, 0, 0, 0], Reason::TooLarge, 3);
        // the role before the line
        refused(&[2, 0, kind, 8, 9, 0, 0, 0, 0], Reason::TooLarge, 3);
    }
    written(&[0, 0, 1, 0, 1, 7, 0, 0]);
    refused(&[0, 0, 1, 0, 1, 8, 0, 0], Reason::TooLarge, 5);
}

#[test]
fn lines_and_individuals_at_and_over() {
    // a line names lines before it, and not itself
    written(&[2, 0, 3, 0, 0, 0, 0, 0]);
    refused(&[2, 0, 3, 1, 0, 0, 0, 0], Reason::NotThere, 3);
    refused(&[1, 3, 0, 0, 0, 0, 0], Reason::NotThere, 2);
    for kind in [4, 5] {
        written(&[2, 0, kind, 0, 0, 0, 0, 0, 0]);
        refused(&[2, 0, kind, 1, 0, 0, 0, 0, 0], Reason::NotThere, 3);
        refused(&[2, 0, kind, 0, 1, 0, 0, 0, 0], Reason::NotThere, 4);
    }
    for kind in [6, 7] {
        refused(&[2, 0, kind, 0, 1, 0, 0, 0, 0], Reason::NotThere, 4);
    }
    // rules
    written(&[2, 0, 1, 1, 1, 1, 0, 0, 0]);
    refused(&[2, 0, 1, 1, 2, 0, 0, 0, 0], Reason::NotThere, 4);
    refused(&[2, 0, 1, 1, 0, 2, 0, 0, 0], Reason::NotThere, 5);
    // class assertions
    written(&[1, 0, 0, 2, 1, 1, 0, 0]);
    refused(&[1, 0, 0, 2, 1, 2, 0, 0], Reason::NotThere, 5);
    refused(&[1, 0, 0, 2, 1, 1, 1, 0], Reason::NotThere, 6);
    // role assertions
    written(&[0, 0, 2, 0, 1, 0, 1, 1]);
    refused(&[0, 0, 2, 0, 1, 0, 2, 0], Reason::NotThere, 6);
    refused(&[0, 0, 2, 0, 1, 0, 0, 2], Reason::NotThere, 7);
    // where there is none, none may be named
    refused(&[0, 1, 0, 0, 0, 0, 0], Reason::NotThere, 2);
    refused(&[1, 0, 0, 0, 1, 0, 0, 0], Reason::NotThere, 5);
    refused(&[0, 0, 0, 0, 1, 0, 0, 0], Reason::NotThere, 6);
}

#[test]
fn too_short_and_too_long() {
    let friday = wide(&FRIDAY);
    for n in 0..friday.len() {
        refused(&friday[..n], Reason::Cut, n);
    }
    written(&friday);
    // what is left over is not looked at
    for spare in [0, 127, 128, 16_383, 16_384, 65_535] {
        refused(
            &[&friday[..], &[spare]].concat(),
            Reason::LeftOver,
            friday.len(),
        );
    }
    let long = [friday, vec![65_535; 100_000]].concat();
    assert_eq!(
        write(&long, &mut []),
        Written::Refused(Refusal {
            reason: Reason::LeftOver,
            place: FRIDAY.len()
        })
    );
}

#[test]
fn large_numbers() {
    // what needs a third byte is judged before its value
    for (value, form) in [
        (128, None),
        (16_383, None),
        (16_384, Some(Reason::BadlyFormed)),
        (65_535, Some(Reason::BadlyFormed)),
    ] {
        let or = |reason| form.unwrap_or(reason);
        refused(&[value, 0, 0, 0, 0], or(Reason::OverLimit), 0);
        refused(&[1, value, 0, 0, 0, 0], or(Reason::TooLarge), 1);
        refused(&[1, 2, value, 0, 0, 0, 0], or(Reason::TooLarge), 2);
        refused(&[2, 0, 3, value, 0, 0, 0, 0], or(Reason::NotThere), 3);
        refused(&[2, 0, 6, value, 0, 0, 0, 0], or(Reason::TooLarge), 3);
        refused(&[2, 0, 6, 0, value, 0, 0, 0], or(Reason::NotThere), 4);
        refused(&[0, value, 0, 0, 0], or(Reason::OverLimit), 1);
        refused(&[1, 0, 1, 0, value, 0, 0, 0], or(Reason::NotThere), 4);
        refused(&[0, 0, value, 0, 0], or(Reason::OverLimit), 2);
        refused(&[0, 0, 0, value, 0], or(Reason::OverLimit), 3);
        refused(&[1, 0, 0, 1, 1, value, 0, 0], or(Reason::NotThere), 5);
        refused(&[1, 0, 0, 1, 1, 0, value, 0], or(Reason::NotThere), 6);
        refused(&[0, 0, 0, 0, value], or(Reason::OverLimit), 4);
        refused(&[0, 0, 1, 0, 1, value, 0, 0], or(Reason::TooLarge), 5);
        refused(&[0, 0, 1, 0, 1, 0, value, 0], or(Reason::NotThere), 6);
        refused(&[0, 0, 1, 0, 1, 0, 0, value], or(Reason::NotThere), 7);
        // and it is judged where it stands, before the list is seen to end
        refused(&[value], or(Reason::OverLimit), 0);
    }
    written(&[1, 2, 31, 0, 0, 0, 0]);
    refused(&[127, 0, 0, 0, 0], Reason::OverLimit, 0);
}

#[test]
fn one_number_changed() {
    // whatever is put in whatever place: what the reader says of the bytes
    let full = [
        vec![8, 0, 1, 2, 31, 3, 2, 4, 0, 3, 5, 1, 4, 6, 7, 5, 7, 0, 6],
        vec![2, 0, 1, 7, 7, 3, 2, 0, 7, 2, 4, 2, 0, 2, 1, 7, 1, 0],
    ]
    .concat();
    written(&full);
    let values = (0..40).chain([126, 127, 128, 129, 255, 256, 16_383, 16_384, 65_535]);
    for value in values {
        for place in 0..full.len() {
            let mut numbers = full.clone();
            numbers[place] = value;
            match balance(&groups(&numbers), 4096) {
                Ok(_) => written(&numbers),
                Err(refusal) => refused(&numbers, refusal.reason, refusal.place),
            }
        }
    }
}

#[test]
fn limits_before_length() {
    // the buffer is too short, and the last number is faulty: the fault answers
    let mut numbers = of_counts(32, 12, 8, 16, 16);
    let last = numbers.len() - 1;
    numbers[last] = 8;
    refused(&numbers, Reason::NotThere, last);
}

#[test]
fn the_longest_sheet() {
    // line 0 cannot name a line, so that it has two numbers at most
    let mut sheet = Sheet::new();
    let first = sheet.name(31);
    let mut last = first;
    for _ in 1..32 {
        last = sheet.and(last, first);
    }
    for _ in 0..12 {
        sheet.rule(last, first);
    }
    let ports = [(); 8].map(|()| sheet.port());
    for _ in 0..16 {
        sheet.is_in(ports[7], last);
        sheet.leads(7, ports[7], ports[0]);
    }
    written(&sheet.numbers());
    let bytes = sheet.bytes().unwrap();
    assert_eq!(bytes, groups(&sheet.numbers()));
    assert_eq!(bytes.len(), MOST_SHEET - 1);
}

/// The Friday port by name, as docs/FRIDAY.md tells it.
fn friday() -> Sheet {
    let mut sheet = Sheet::new();
    let drives = 0;
    let debug = sheet.name(0);
    let test = sheet.name(1);
    let exempt = sheet.name(2);
    let drives_test = sheet.some(drives, test);
    let scan = sheet.name(3);
    sheet.rule(debug, test);
    sheet.rule(test, exempt);
    sheet.rule(drives_test, test);
    sheet.rule(scan, exempt);
    let (dbg_tx, bus_out) = (sheet.port(), sheet.port());
    sheet.is_in(dbg_tx, debug);
    sheet.leads(drives, bus_out, dbg_tx);
    sheet
}

#[test]
fn built_friday() {
    assert_eq!(friday().numbers(), wide(&FRIDAY));
    assert_eq!(friday().bytes(), Ok(FRIDAY.to_vec()));
}

#[test]
fn built_bench() {
    // P6: names 0, 1; some 0 0; some 0 1; and 0 1; some 0 4; not 5; and 2 3; and 7 6; one individual, line 8
    let mut p6 = Sheet::new();
    let (a, b) = (p6.name(0), p6.name(1));
    let (some_a, some_b) = (p6.some(0, a), p6.some(0, b));
    let both = p6.and(a, b);
    let some_both = p6.some(0, both);
    let none_both = p6.not(some_both);
    let each = p6.and(some_a, some_b);
    let all = p6.and(each, none_both);
    let port = p6.port();
    p6.is_in(port, all);
    let bytes = [
        vec![9, 2, 0, 2, 1, 6, 0, 0, 6, 0, 1, 4, 0, 1, 6, 0, 4, 3, 5],
        vec![4, 2, 3, 4, 7, 6, 0, 1, 1, 0, 8, 0],
    ];
    assert_eq!(p6.bytes(), Ok(bytes.concat()));
    // the kinds that P6 does not have
    let mut rest = Sheet::new();
    let (top, bottom) = (rest.top(), rest.bottom());
    rest.or(top, bottom);
    rest.only(7, bottom);
    let bytes = vec![4, 0, 1, 5, 0, 1, 7, 7, 1, 0, 0, 0, 0];
    assert_eq!(rest.bytes(), Ok(bytes));
}

/// What is refused of a built sheet, in words.
fn said(sheet: &Sheet) -> String {
    let fault = sheet.bytes().unwrap_err();
    refused(&sheet.numbers(), fault.refusal.reason, fault.refusal.place);
    fault.to_string()
}

#[test]
fn built_faults() {
    let (mut lines, mut rules, mut ports) = (Sheet::new(), friday(), friday());
    for _ in 0..33 {
        lines.top();
    }
    assert_eq!(
        said(&lines),
        "33 as the count of lines: a count over its limit, at byte 0 of the sheet"
    );
    let line = friday().name(0);
    for _ in 4..13 {
        rules.rule(line, line);
    }
    assert_eq!(
        said(&rules),
        "13 as the count of rules: a count over its limit, at byte 12 of the sheet"
    );
    for _ in 2..9 {
        ports.port();
    }
    assert_eq!(
        said(&ports),
        "9 as the count of ports: a count over its limit, at byte 21 of the sheet"
    );

    let (mut classes, mut roles) = (Sheet::new(), Sheet::new());
    let (line, port) = (classes.top(), classes.port());
    for _ in 0..17 {
        classes.is_in(port, line);
    }
    assert_eq!(
        said(&classes),
        "17 as the count of class assertions: a count over its limit, at byte 4 of the sheet"
    );
    let port = roles.port();
    for _ in 0..17 {
        roles.leads(0, port, port);
    }
    assert_eq!(
        said(&roles),
        "17 as the count of role assertions: a count over its limit, at byte 4 of the sheet"
    );

    let mut name = friday();
    name.name(32);
    assert_eq!(
        said(&name),
        "32 in line 5: a kind, name or role too large, at byte 13 of the sheet"
    );
    let mut role = Sheet::new();
    let top = role.top();
    role.only(8, top);
    assert_eq!(
        said(&role),
        "8 in line 1: a kind, name or role too large, at byte 3 of the sheet"
    );
    let mut along = friday();
    let port = along.port();
    along.leads(65_535, port, port);
    assert_eq!(
        said(&along),
        "65535 in role assertion 1: a badly formed number, at byte 29 of the sheet"
    );
}

/// Handles of a sheet with 32 lines and 8 ports.
fn last_handles() -> (Line, Port) {
    let mut sheet = Sheet::new();
    for _ in 0..31 {
        sheet.top();
    }
    for _ in 0..7 {
        sheet.port();
    }
    (sheet.top(), sheet.port())
}

#[test]
fn handles_of_another_sheet() {
    let (line, port) = last_handles();
    let not_there = |sheet: &Sheet| {
        let Fault {
            refusal,
            item,
            value,
        } = sheet.bytes().unwrap_err();
        refused(&sheet.numbers(), Reason::NotThere, refusal.place);
        (item, value)
    };
    let mut sheet = friday();
    let named = sheet.not(line);
    assert_eq!(not_there(&sheet), (Item::Line(named), 31));
    let mut sheet = friday();
    let own = sheet.top();
    let rule = sheet.rule(own, line);
    assert_eq!(not_there(&sheet), (Item::Rule(rule), 31));
    let mut sheet = friday();
    let own = sheet.top();
    sheet.is_in(port, own);
    assert_eq!(not_there(&sheet), (Item::ClassAssertion(1), 7));
    let mut sheet = friday();
    let own = sheet.port();
    sheet.leads(0, own, port);
    assert_eq!(not_there(&sheet), (Item::RoleAssertion(1), 7));
}

#[test]
fn more_than_can_be_counted() {
    // a count that does not fit into 16 bits wants a third byte
    let mut sheet = Sheet::new();
    for _ in 0..70_000 {
        sheet.top();
    }
    let fault = sheet.bytes().unwrap_err();
    assert_eq!(
        (fault.refusal.reason, fault.item),
        (Reason::BadlyFormed, Item::Lines)
    );
    let mut sheet = Sheet::new();
    for _ in 0..70_000 {
        sheet.port();
    }
    let fault = sheet.bytes().unwrap_err();
    assert_eq!(
        (fault.refusal.reason, fault.item),
        (Reason::BadlyFormed, Item::Ports)
    );
}

#[test]
fn rules_in_sets() {
    let mut sheet = friday();
    let line = sheet.top();
    let fifth = sheet.rule(line, line);
    let of = |slot| Cause::from_slot(slot);
    assert!(fifth.is_in(of(1 << 4)) && fifth.is_in(of(u16::MAX)) && !fifth.is_in(of(!(1 << 4))));
    // no set has a rule of a number that no sheet has, and the mark is no rule
    for _ in 5..15 {
        sheet.rule(line, line);
    }
    assert!(!sheet.rule(line, line).is_in(of(u16::MAX)));
    assert!(!sheet.rule(line, line).is_in(of(u16::MAX)));
}
