//! Bargaindune for Rust: can a sheet of classes, rules and ports be met, and which rules force a port into a class?
//!
//! The answers come from a proved engine, linked as `libdesk.a`. The repository's docs/FORMAT.md says what a sheet, a model and a
//! cause list are, byte for byte, and docs/PROMISES.md what is proved of the answers.
//!
//! A [`Sheet`] is built line by line, rule by rule and port by port. [`write()`], [`satisfy`], [`causes`] and [`balance`] take buffers from the
//! caller, of any length, and allocate nothing. [`Desk`] owns buffers that suffice. A call takes up to half a megabyte of stack and keeps nothing,
//! so threads may ask at once. Every call ends, but some not in a lifetime: see [time](#time).
//!
//! ```
//! use bargaindune::{Cause, Desk, Listed, Sheet, Verdict};
//!
//! // three names, each in the next, and the first in the last as well; the port is in the first
//! let mut sheet = Sheet::new();
//! let (debug, test, exempt) = (sheet.name(0), sheet.name(1), sheet.name(2));
//! sheet.rule(debug, test);
//! sheet.rule(test, exempt);
//! sheet.rule(debug, exempt);
//! let port = sheet.port();
//! sheet.is_in(port, debug);
//! let bytes = sheet.bytes()?;
//!
//! let mut desk = Desk::new();
//! // rules 0 and 1 together force the port to be exempt, and so does rule 2 alone
//! let causes = desk.causes(&bytes, port.number(), exempt.number())?;
//! let catching = |rules| Cause { rules, contradictory: false };
//! assert_eq!(causes, Listed::Causes(&[catching(0b011), catching(0b100)]));
//! // one element, in which the names 0, 1 and 2 are true, and no edge
//! assert_eq!(desk.satisfy(&bytes)?, Verdict::Model(&[1, 0b111, 0]));
//! # Ok::<(), Box<dyn std::error::Error>>(())
//! ```
//!
//! # Time
//!
//! Records lent bound memory and not time. What grows, and how:
//! - Each or line that holds, each and line that fails and each rule may split a label in two: with the 12 rules of a full sheet 2^12 labels
//!   of one element, with more such lines more.
//! - The labels of individuals multiply together: 8 ports under 12 rules may have 2^96 joint labels, all of which are tried where none is fine.
//! - Each record is expanded like a label of its own, and again in each pass of striking out; [`causes`] judges up to 2^12 sets of rules.
//!
//! Splits whose first branch is fine cost nothing, so that most sheets take microseconds (docs/MEASURED.md in the repository); but a sheet as a
//! designer might write it, with a dozen rules, six ports and one assertion, can be one that does not end (measure/long.txt). [`balance`]
//! counts records, not time.
//!
//! Nothing cancels a call: there is no limit of steps, no flag that is looked at, and no call back. Where a sheet is not known to be short, ask in a
//! process of its own, which can be killed, or in a thread that can be abandoned; such a thread keeps its processor busy until the process ends.
//! A call that was given up has said nothing, neither that the sheet cannot be met nor that it needs more records.
//!
//! ```
//! use bargaindune::{Desk, Verdict};
//! use std::sync::mpsc::channel;
//! use std::time::Duration;
//!
//! // twelve names, rules n ⊑ n, eight ports, and port 7 has a neighbour in bottom: a person sees at once that it cannot be met
//! let mut sheet = vec![14];
//! sheet.extend((0..12).flat_map(|name| [2, name]));
//! sheet.extend([1, 6, 0, 12, 12]);
//! sheet.extend((0..12).flat_map(|line| [line, line]));
//! sheet.extend([8, 1, 7, 13, 0]);
//! let (tell, told) = channel();
//! std::thread::spawn(move || {
//!     let mut desk = Desk::new();
//!     let can_be_met = desk.satisfy(&sheet).map(|verdict| matches!(verdict, Verdict::Model(_)));
//!     let _ = tell.send(can_be_met);
//! });
//! // the thread has the desk to itself and is left alone
//! assert!(told.recv_timeout(Duration::from_millis(200)).is_err());
//! ```
#![deny(missing_docs)]
#![deny(unsafe_op_in_unsafe_fn)]

use std::fmt;

mod sheet;

pub use sheet::{Fault, Item, Line, Port, Rule, Sheet};

/// The most records that may be lent: with more the answer is [`Reason::LentBadly`].
///
/// A sheet with e some and only lines needs at most e·2^(e-1), so this many suffice up to e = 9. [`balance`] counts them.
///
/// ```
/// // line 0 is top, and nine lines follow: an 0-neighbour is in line 0
/// let mut sheet = vec![10, 0];
/// sheet.extend([6, 0, 0].repeat(9));
/// sheet.extend([0, 0, 0, 0]);
/// assert_eq!(bargaindune::balance(&sheet, bargaindune::MOST_RECORDS as u64), Ok(4096 - 9 * 256));
/// ```
pub const MOST_RECORDS: usize = 4096;

/// Words that suffice for every model: at most 8 individuals and 4,096 more elements, 31 edges asked for by each, and 16 role assertions.
///
/// ```
/// let elements = 8 + bargaindune::MOST_RECORDS;
/// assert_eq!(bargaindune::MOST_WORDS, 2 + elements + 3 * (31 * elements + 16));
/// ```
pub const MOST_WORDS: usize = 385_826;

/// Slots that suffice for every cause list: one for each set of 12 rules.
///
/// ```
/// assert_eq!(bargaindune::MOST_SLOTS, 1 << 12);
/// ```
pub const MOST_SLOTS: usize = 4096;

/// Bytes that suffice for every sheet: five counts, and at most three numbers for each of 32 lines, two for each of 12 rules and of 16 class
/// assertions, and three for each of 16 role assertions. A number that is in order takes one byte.
///
/// ```
/// assert_eq!(bargaindune::MOST_SHEET, 5 + 3 * 32 + 2 * 12 + 2 * 16 + 3 * 16);
/// ```
pub const MOST_SHEET: usize = 205;

/// Why the desk refuses, in the order of the numbers 1 to 8.
///
/// ```
/// use bargaindune::{balance, Reason};
///
/// // a number that another byte should follow
/// assert_eq!(balance(&[0x80], 0).unwrap_err().reason, Reason::Cut);
/// assert_eq!(Reason::Cut.number(), 1);
/// ```
#[derive(Clone, Copy, Debug, PartialEq, Eq, Hash)]
pub enum Reason {
    /// 1: the sheet ends inside or before a number.
    Cut,
    /// 2: a badly formed number.
    BadlyFormed,
    /// 3: a count over its limit.
    OverLimit,
    /// 4: a kind, name or role too large.
    TooLarge,
    /// 5: a line or individual that may not be named there.
    NotThere,
    /// 6: bytes left over.
    LeftOver,
    /// 7: over 4,096 records lent, or fewer mark bytes than records.
    LentBadly,
    /// 8: port or class of a query not on the sheet.
    OffSheet,
}

impl Reason {
    /// The number of the reason, 1 to 8.
    ///
    /// ```
    /// assert_eq!(bargaindune::Reason::OffSheet.number(), 8);
    /// ```
    pub fn number(self) -> u64 {
        match self {
            Reason::Cut => 1,
            Reason::BadlyFormed => 2,
            Reason::OverLimit => 3,
            Reason::TooLarge => 4,
            Reason::NotThere => 5,
            Reason::LeftOver => 6,
            Reason::LentBadly => 7,
            Reason::OffSheet => 8,
        }
    }

    fn from_number(number: u64) -> Option<Reason> {
        Some(match number {
            1 => Reason::Cut,
            2 => Reason::BadlyFormed,
            3 => Reason::OverLimit,
            4 => Reason::TooLarge,
            5 => Reason::NotThere,
            6 => Reason::LeftOver,
            7 => Reason::LentBadly,
            8 => Reason::OffSheet,
            _ => return None,
        })
    }
}

impl fmt::Display for Reason {
    fn fmt(&self, f: &mut fmt::Formatter<'_>) -> fmt::Result {
        f.write_str(match self {
            Reason::Cut => "the sheet ends inside or before a number",
            Reason::BadlyFormed => "a badly formed number",
            Reason::OverLimit => "a count over its limit",
            Reason::TooLarge => "a kind, name or role too large",
            Reason::NotThere => "a line or individual that may not be named there",
            Reason::LeftOver => "bytes left over",
            Reason::LentBadly => "over 4,096 records lent, or fewer mark bytes than records",
            Reason::OffSheet => "port or class not on the sheet",
        })
    }
}

/// A refusal: its reason and its place.
///
/// ```
/// use bargaindune::{balance, Reason, Refusal};
///
/// // one line, `not 0`, which may name only lines before it
/// let refusal = balance(&[1, 3, 0], 0).unwrap_err();
/// assert_eq!(refusal, Refusal { reason: Reason::NotThere, place: 2 });
/// assert_eq!(refusal.to_string(), "a line or individual that may not be named there, at byte 2 of the sheet");
/// ```
#[derive(Clone, Copy, Debug, PartialEq, Eq, Hash)]
pub struct Refusal {
    /// Why.
    pub reason: Reason,
    /// The index of the faulty number's first byte, the sheet's length if it has none, and under [`Reason::LeftOver`] the first spare byte.
    /// [`Reason::LentBadly`] and [`Reason::OffSheet`] have no place, and 0 stands here.
    pub place: usize,
}

impl fmt::Display for Refusal {
    fn fmt(&self, f: &mut fmt::Formatter<'_>) -> fmt::Result {
        match self.reason {
            Reason::LentBadly | Reason::OffSheet => self.reason.fmt(f),
            _ => write!(f, "{}, at byte {} of the sheet", self.reason, self.place),
        }
    }
}

impl std::error::Error for Refusal {}

/// The answers of [`satisfy`] and [`causes`], each with what it carries.
///
/// Under [`Answer::Refused`] no buffer is touched. Under the others all records and all mark bytes lent end as zero, and the model or
/// list buffer holds the result with zeros behind it, or zeros alone.
///
/// ```
/// use bargaindune::{satisfy, Answer};
///
/// // an empty sheet: one element without names, no edge
/// let mut model = [9; 4];
/// let answer = satisfy(&[0, 0, 0, 0, 0], &mut [], &mut [], &mut model);
/// assert_eq!(answer, Answer::Model { words: 3 });
/// assert_eq!(model, [1, 0, 0, 0]);
/// assert_eq!((answer.number(), answer.carries()), (10, 3));
/// ```
#[derive(Clone, Copy, Debug, PartialEq, Eq, Hash)]
pub enum Answer {
    /// 1 to 8: the desk refuses.
    Refused(Refusal),
    /// 10: satisfiable, and the model is written.
    Model {
        /// How many words of the model buffer it takes.
        words: usize,
    },
    /// 11: satisfiable, and the model is longer than its buffer, which ends as zeros.
    LongModel {
        /// How many words it wants.
        words: usize,
    },
    /// 12: no finite interpretation meets the sheet. The model buffer ends as zeros.
    Unsatisfiable,
    /// 13: the records needed outnumber those lent. The model or list buffer ends as zeros. For causes that is so if judging one of the sets, or
    /// telling whether a listed one is contradictory, needs more; and it comes before 15.
    OutOfSpace,
    /// 14: the cause list is written.
    Causes {
        /// How many slots of the list buffer it takes.
        sets: usize,
    },
    /// 15: the cause list is longer than its buffer, which ends as zeros.
    LongList {
        /// How many causes there are.
        sets: usize,
    },
}

impl Answer {
    /// The number of the answer: 1 to 8, or 10 to 15.
    ///
    /// ```
    /// assert_eq!(bargaindune::Answer::Unsatisfiable.number(), 12);
    /// ```
    pub fn number(self) -> u64 {
        match self {
            Answer::Refused(refusal) => refusal.reason.number(),
            Answer::Model { .. } => 10,
            Answer::LongModel { .. } => 11,
            Answer::Unsatisfiable => 12,
            Answer::OutOfSpace => 13,
            Answer::Causes { .. } => 14,
            Answer::LongList { .. } => 15,
        }
    }

    /// What it carries: a place, a length, or 0.
    ///
    /// ```
    /// assert_eq!(bargaindune::Answer::LongList { sets: 2 }.carries(), 2);
    /// ```
    pub fn carries(self) -> usize {
        match self {
            Answer::Refused(refusal) => refusal.place,
            Answer::Model { words } | Answer::LongModel { words } => words,
            Answer::Unsatisfiable | Answer::OutOfSpace => 0,
            Answer::Causes { sets } | Answer::LongList { sets } => sets,
        }
    }
}

/// The mark of a contradictory set: the top bit of its slot.
///
/// ```
/// assert_eq!(bargaindune::CONTRADICTORY, 32_768);
/// ```
pub const CONTRADICTORY: u16 = 1 << 15;

/// A smallest set of rules that forces a port into a class, as a slot of a cause list has it.
///
/// ```
/// use bargaindune::{Cause, Desk, Listed, Sheet};
///
/// // rules 0 and 1 make a debug port exempt; by rules 0 and 2 together it could not be there at all
/// let mut sheet = Sheet::new();
/// let (debug, test, exempt, scan) = (sheet.name(0), sheet.name(1), sheet.name(2), sheet.name(3));
/// let no_test = sheet.not(test);
/// sheet.rule(debug, test);
/// sheet.rule(test, exempt);
/// sheet.rule(debug, no_test);
/// let port = sheet.port();
/// sheet.is_in(port, debug);
/// let bytes = sheet.bytes()?;
///
/// let mut desk = Desk::new();
/// let catching = Cause { rules: 0b011, contradictory: false };
/// let contradictory = Cause { rules: 0b101, contradictory: true };
/// assert_eq!(desk.causes(&bytes, port.number(), exempt.number())?, Listed::Causes(&[catching, contradictory]));
/// // the contradiction is there whatever is asked, and is no reason for a class
/// assert_eq!(desk.causes(&bytes, port.number(), scan.number())?, Listed::Causes(&[contradictory]));
/// # Ok::<(), Box<dyn std::error::Error>>(())
/// ```
#[derive(Clone, Copy, Debug, PartialEq, Eq, Hash)]
pub struct Cause {
    /// The rules of the set, rule n worth 2^n. Of contradictory assertions there is none.
    pub rules: u16,
    /// Whether no finite interpretation meets these rules and the assertions. If so, they force everything, and have to be mended before anything is
    /// blamed on one of them. If not, the set is catching: some interpretation meets it, and each that does has the port in the class.
    pub contradictory: bool,
}

impl Cause {
    /// What a slot of a cause list says.
    ///
    /// ```
    /// use bargaindune::Cause;
    ///
    /// assert_eq!(Cause::from_slot(3), Cause { rules: 3, contradictory: false });
    /// assert_eq!(Cause::from_slot(32_771), Cause { rules: 3, contradictory: true });
    /// ```
    pub fn from_slot(slot: u16) -> Cause {
        Cause {
            rules: slot & !CONTRADICTORY,
            contradictory: slot & CONTRADICTORY != 0,
        }
    }

    /// The slot that says so.
    ///
    /// ```
    /// use bargaindune::Cause;
    ///
    /// assert_eq!(Cause { rules: 0, contradictory: true }.slot(), 32_768);
    /// assert_eq!(Cause { rules: 5, contradictory: false }.slot(), 5);
    /// ```
    pub fn slot(self) -> u16 {
        let mark = if self.contradictory { CONTRADICTORY } else { 0 };
        self.rules & !CONTRADICTORY | mark
    }

    /// The numbers of its rules, ascending.
    ///
    /// ```
    /// use bargaindune::Cause;
    ///
    /// assert_eq!(Cause::from_slot(32_773).rule_numbers().collect::<Vec<_>>(), [0, 2]);
    /// assert_eq!(Cause::from_slot(32_768).rule_numbers().count(), 0);
    /// ```
    pub fn rule_numbers(self) -> impl Iterator<Item = u64> {
        (0..15).filter(move |n| self.rules >> n & 1 == 1)
    }
}

/// The answers of [`write()`], each with what it carries.
///
/// The buffer is touched under [`Written::Sheet`] alone.
///
/// ```
/// use bargaindune::{write, Written};
///
/// // an empty sheet: no lines, rules, ports, class assertions, role assertions
/// let mut out = [9; 7];
/// let answer = write(&[0, 0, 0, 0, 0], &mut out);
/// assert_eq!(answer, Written::Sheet { bytes: 5 });
/// assert_eq!(out, [0, 0, 0, 0, 0, 9, 9]);
/// assert_eq!((answer.number(), answer.carries()), (0, 5));
/// ```
#[derive(Clone, Copy, Debug, PartialEq, Eq, Hash)]
pub enum Written {
    /// 0: the sheet is written at the front of the buffer, and the bytes behind it are as they were.
    Sheet {
        /// How many bytes of the buffer it takes.
        bytes: usize,
    },
    /// 1 to 6: the numbers make no sheet. Reason and place are those that a reader of their bytes would give.
    Refused(Refusal),
    /// 16: the numbers make a sheet that is longer than the buffer.
    ShortBuffer {
        /// How many bytes it wants.
        bytes: usize,
    },
}

impl Written {
    /// The number of the answer: 0, 1 to 6, or 16.
    ///
    /// ```
    /// assert_eq!(bargaindune::Written::ShortBuffer { bytes: 5 }.number(), 16);
    /// ```
    pub fn number(self) -> u64 {
        match self {
            Written::Sheet { .. } => 0,
            Written::Refused(refusal) => refusal.reason.number(),
            Written::ShortBuffer { .. } => 16,
        }
    }

    /// What it carries: a length or a place.
    ///
    /// ```
    /// assert_eq!(bargaindune::Written::ShortBuffer { bytes: 5 }.carries(), 5);
    /// ```
    pub fn carries(self) -> usize {
        match self {
            Written::Sheet { bytes } | Written::ShortBuffer { bytes } => bytes,
            Written::Refused(refusal) => refusal.place,
        }
    }
}

mod exported {
    extern "C" {
        pub fn bargaindune_write(
            numbers: *const u16,
            numbers_length: usize,
            out: *mut u8,
            out_length: usize,
            carried: *mut u64,
        ) -> u64;
        pub fn bargaindune_satisfy(
            sheet: *const u8,
            sheet_length: usize,
            records: *mut u64,
            records_length: usize,
            marks: *mut u8,
            marks_length: usize,
            model: *mut u32,
            model_length: usize,
            carried: *mut u64,
        ) -> u64;
        pub fn bargaindune_causes(
            sheet: *const u8,
            sheet_length: usize,
            port: u64,
            class: u64,
            records: *mut u64,
            records_length: usize,
            marks: *mut u8,
            marks_length: usize,
            list: *mut u16,
            list_length: usize,
            carried: *mut u64,
        ) -> u64;
        pub fn bargaindune_balance(
            sheet: *const u8,
            sheet_length: usize,
            room: u64,
            carried: *mut u64,
            left: *mut i64,
        ) -> u64;
    }
}

/// A place or a length that was carried: it fits, since it counts what a sheet or a model has.
fn as_length(carried: u64) -> usize {
    usize::try_from(carried).expect("a carried length fits")
}

/// What is said is proved of the engine, so anything else means that another archive was linked.
fn strange(number: u64, carried: u64) -> ! {
    panic!("libdesk.a answered {number}, carrying {carried}, which is no answer here")
}

fn refusal(number: u64, carried: u64) -> Refusal {
    match Reason::from_number(number) {
        Some(reason) => Refusal {
            reason,
            place: as_length(carried),
        },
        None => strange(number, carried),
    }
}

/// Writes the sheet of these numbers, each in as many groups of seven bits as it needs. They stand in the order of a sheet: the count of lines,
/// each line's kind and operands, the count of rules, and so on; [`Sheet::numbers`] lays them out.
///
/// Any numbers may be given, however many. Those that make no sheet are refused as a reader would refuse their bytes: [`Reason::Cut`] where they end
/// too early, [`Reason::BadlyFormed`] at a number of 16,384 or more, which wants a third byte, [`Reason::LeftOver`] where some are left over.
/// That is tested before the length of the buffer.
///
/// ```
/// use bargaindune::{write, Reason, Refusal, Written};
///
/// // one line, which is top; no rule; one port, which is in line 0; no role assertion
/// let numbers = [1, 0, 0, 1, 1, 0, 0, 0];
/// let mut out = [9; 9];
/// assert_eq!(write(&numbers, &mut out), Written::Sheet { bytes: 8 });
/// assert_eq!(out, [1, 0, 0, 1, 1, 0, 0, 0, 9]);
/// assert_eq!(write(&numbers, &mut []), Written::ShortBuffer { bytes: 8 });
/// // the port is in line 1, which is not there
/// let refusal = Refusal { reason: Reason::NotThere, place: 6 };
/// assert_eq!(write(&[1, 0, 0, 1, 1, 0, 1, 0], &mut []), Written::Refused(refusal));
/// ```
pub fn write(numbers: &[u16], out: &mut [u8]) -> Written {
    let room = out.len();
    let mut carried = 0;
    // SAFETY: a reference to a slice points to as many entries as its length says, aligned and not null, and mutable ones overlap nothing.
    let number = unsafe {
        exported::bargaindune_write(
            numbers.as_ptr(),
            numbers.len(),
            out.as_mut_ptr(),
            out.len(),
            &mut carried,
        )
    };
    let bytes = as_length(carried);
    match number {
        0 if bytes <= room => Written::Sheet { bytes },
        1..=6 => Written::Refused(refusal(number, carried)),
        16 if room < bytes => Written::ShortBuffer { bytes },
        _ => strange(number, carried),
    }
}

/// Is the sheet satisfiable? With its model, or the length that it wants.
///
/// Any lengths may be lent; over 4,096 records, or fewer marks than records, are refused with [`Reason::LentBadly`]. The answer is never
/// [`Answer::Causes`] or [`Answer::LongList`], and the reason of a refusal is never [`Reason::OffSheet`].
///
/// ```
/// use bargaindune::{satisfy, Answer};
///
/// // line 0 is top, line 1 asks for a neighbour; every element is in line 1
/// let sheet = [2, 0, 6, 0, 0, 1, 0, 1, 0, 0, 0];
/// let mut model = [9; 12];
/// // the neighbour takes a record
/// assert_eq!(satisfy(&sheet, &mut [], &mut [], &mut model), Answer::OutOfSpace);
/// assert_eq!(satisfy(&sheet, &mut [0], &mut [0], &mut model), Answer::Model { words: 10 });
/// // two elements without names; two edges, from 0 along role 0 to 1, and from 1 to itself
/// assert_eq!(model, [2, 0, 0, 2, 0, 0, 1, 1, 0, 1, 0, 0]);
/// ```
pub fn satisfy(sheet: &[u8], records: &mut [u64], marks: &mut [u8], model: &mut [u32]) -> Answer {
    let room = model.len();
    let mut carried = 0;
    // SAFETY: as in `write`.
    let number = unsafe {
        exported::bargaindune_satisfy(
            sheet.as_ptr(),
            sheet.len(),
            records.as_mut_ptr(),
            records.len(),
            marks.as_mut_ptr(),
            marks.len(),
            model.as_mut_ptr(),
            model.len(),
            &mut carried,
        )
    };
    let words = as_length(carried);
    match number {
        1..=7 => Answer::Refused(refusal(number, carried)),
        10 if words <= room => Answer::Model { words },
        11 if room < words => Answer::LongModel { words },
        12 => Answer::Unsatisfiable,
        13 => Answer::OutOfSpace,
        _ => strange(number, carried),
    }
}

/// Which smallest sets of rules force the port, an individual's number, into the class, a line's number? Each set takes a slot, rule n
/// worth 2^n, with [`CONTRADICTORY`] added where nothing can meet its rules and the assertions; the rules ascend. [`Cause::from_slot`] takes a slot apart.
///
/// Any lengths may be lent; over 4,096 records, or fewer marks than records, are refused with [`Reason::LentBadly`]. A port or class that
/// is not on the sheet is refused with [`Reason::OffSheet`]. The answer is never [`Answer::Model`], [`Answer::LongModel`] or
/// [`Answer::Unsatisfiable`]: a sheet that cannot be met forces everything. Of rules that contradict each other the list has all, as a contradictory set, or
/// a part of them that catches by itself, so that a list without a contradictory set does not say that the sheet can be met.
///
/// ```
/// use bargaindune::{causes, Answer};
///
/// let sheet = [3, 2, 0, 2, 1, 2, 2, 3, 0, 1, 1, 2, 0, 2, 1, 1, 0, 0, 0];
/// let mut list = [9; 3];
/// let answer = causes(&sheet, 0, 2, &mut [], &mut [], &mut list);
/// assert_eq!(answer, Answer::Causes { sets: 2 });
/// assert_eq!(list, [3, 4, 0]);
/// assert_eq!(causes(&sheet, 0, 2, &mut [], &mut [], &mut []), Answer::LongList { sets: 2 });
/// // one port, which is in line 1, bottom: the assertions contradict each other
/// let sheet = [2, 2, 0, 1, 0, 1, 1, 0, 1, 0];
/// assert_eq!(causes(&sheet, 0, 0, &mut [], &mut [], &mut list), Answer::Causes { sets: 1 });
/// assert_eq!(list, [32_768, 0, 0]);
/// ```
pub fn causes(
    sheet: &[u8],
    port: u64,
    class: u64,
    records: &mut [u64],
    marks: &mut [u8],
    list: &mut [u16],
) -> Answer {
    let slots = list.len();
    let mut carried = 0;
    // SAFETY: as in `write`.
    let number = unsafe {
        exported::bargaindune_causes(
            sheet.as_ptr(),
            sheet.len(),
            port,
            class,
            records.as_mut_ptr(),
            records.len(),
            marks.as_mut_ptr(),
            marks.len(),
            list.as_mut_ptr(),
            list.len(),
            &mut carried,
        )
    };
    let sets = as_length(carried);
    match number {
        1..=8 => Answer::Refused(refusal(number, carried)),
        13 => Answer::OutOfSpace,
        14 if sets <= slots => Answer::Causes { sets },
        15 if slots < sets => Answer::LongList { sets },
        _ => strange(number, carried),
    }
}

/// What is left of a room of so many records if the sheet needs as many as it can: the room minus e·2^(e-1), where e is the number of some
/// and only lines, and minus 0 where e is 0. Below zero is an answer and no error.
///
/// A room over 4,096 is refused with [`Reason::LentBadly`], before the sheet is looked at.
///
/// ```
/// // one some line
/// let sheet = [2, 0, 6, 0, 0, 1, 0, 1, 0, 0, 0];
/// assert_eq!(bargaindune::balance(&sheet, 1), Ok(0));
/// assert_eq!(bargaindune::balance(&sheet, 0), Ok(-1));
/// ```
pub fn balance(sheet: &[u8], room: u64) -> Result<i64, Refusal> {
    let mut carried = 0;
    let mut left = 0;
    // SAFETY: as in `write`.
    let number = unsafe {
        exported::bargaindune_balance(sheet.as_ptr(), sheet.len(), room, &mut carried, &mut left)
    };
    match number {
        0 => Ok(left),
        1..=7 => Err(refusal(number, carried)),
        _ => strange(number, carried),
    }
}

/// What [`Desk::satisfy`] finds.
///
/// ```
/// use bargaindune::{Desk, Verdict};
///
/// // every element is in line 0, top, and so in line 1, bottom
/// assert_eq!(Desk::new().satisfy(&[2, 0, 1, 1, 0, 1, 0, 0, 0]), Ok(Verdict::Unsatisfiable));
/// ```
#[derive(Clone, Copy, Debug, PartialEq, Eq, Hash)]
pub enum Verdict<'a> {
    /// Satisfiable, with the words of the model.
    Model(&'a [u32]),
    /// No finite interpretation meets the sheet.
    Unsatisfiable,
    /// The sheet needs over 4,096 records.
    OutOfSpace,
}

/// What [`Desk::causes`] finds.
///
/// ```
/// use bargaindune::{Desk, Listed};
///
/// // one line, one port, nothing asserted: no set of rules forces the port into the line
/// assert_eq!(Desk::new().causes(&[1, 2, 0, 0, 1, 0, 0], 0, 0), Ok(Listed::Causes(&[])));
/// ```
#[derive(Clone, Copy, Debug, PartialEq, Eq, Hash)]
pub enum Listed<'a> {
    /// The smallest sets of rules that force the port into the class, ascending by their rules.
    Causes(&'a [Cause]),
    /// Judging some set of rules, or telling whether a listed one is contradictory, needs over 4,096 records.
    OutOfSpace,
}

/// Buffers for any sheet, which says nothing of [time](crate#time), made once: 4,096 records and marks, slots for any cause list, and words for a model, more where one is longer.
///
/// ```
/// use bargaindune::{Desk, Verdict};
///
/// let mut desk = Desk::new();
/// assert_eq!(desk.satisfy(&[0, 0, 0, 0, 0]), Ok(Verdict::Model(&[1, 0, 0])));
/// ```
#[derive(Clone, Debug)]
pub struct Desk {
    records: Vec<u64>,
    marks: Vec<u8>,
    model: Vec<u32>,
    list: Vec<u16>,
    causes: Vec<Cause>,
}

impl Desk {
    /// A desk with empty buffers.
    ///
    /// ```
    /// let desk = bargaindune::Desk::new();
    /// # let _ = desk;
    /// ```
    pub fn new() -> Desk {
        Desk {
            records: vec![0; MOST_RECORDS],
            marks: vec![0; MOST_RECORDS],
            model: vec![0; 64],
            list: vec![0; MOST_SLOTS],
            causes: Vec::new(),
        }
    }

    /// Is the sheet satisfiable? With its model, whatever its length: where it is longer than the buffer, that grows, and the question is
    /// asked again.
    ///
    /// ```
    /// use bargaindune::{Desk, Reason};
    ///
    /// // 33 lines
    /// let refusal = Desk::new().satisfy(&[33]).unwrap_err();
    /// assert_eq!((refusal.reason, refusal.place), (Reason::OverLimit, 0));
    /// ```
    pub fn satisfy(&mut self, sheet: &[u8]) -> Result<Verdict<'_>, Refusal> {
        let mut answer = self.ask(sheet);
        if let Answer::LongModel { words } = answer {
            self.model.resize(words, 0);
            answer = self.ask(sheet);
        }
        match answer {
            Answer::Refused(refusal) => Err(refusal),
            Answer::Model { words } => Ok(Verdict::Model(&self.model[..words])),
            Answer::Unsatisfiable => Ok(Verdict::Unsatisfiable),
            Answer::OutOfSpace => Ok(Verdict::OutOfSpace),
            _ => strange(answer.number(), answer.carries() as u64),
        }
    }

    fn ask(&mut self, sheet: &[u8]) -> Answer {
        satisfy(sheet, &mut self.records, &mut self.marks, &mut self.model)
    }

    /// Which smallest sets of rules force the port into the class? All of them, catching and contradictory: the list buffer has a slot for every set.
    ///
    /// ```
    /// use bargaindune::{Desk, Reason};
    ///
    /// // an empty sheet has no port
    /// let refusal = Desk::new().causes(&[0, 0, 0, 0, 0], 0, 0).unwrap_err();
    /// assert_eq!(refusal.reason, Reason::OffSheet);
    /// ```
    pub fn causes(&mut self, sheet: &[u8], port: u64, class: u64) -> Result<Listed<'_>, Refusal> {
        let answer = causes(
            sheet,
            port,
            class,
            &mut self.records,
            &mut self.marks,
            &mut self.list,
        );
        match answer {
            Answer::Refused(refusal) => Err(refusal),
            Answer::Causes { sets } => {
                let slots = self.list[..sets].iter();
                self.causes.clear();
                self.causes.extend(slots.copied().map(Cause::from_slot));
                Ok(Listed::Causes(&self.causes))
            }
            Answer::OutOfSpace => Ok(Listed::OutOfSpace),
            _ => strange(answer.number(), answer.carries() as u64),
        }
    }
}

impl Default for Desk {
    fn default() -> Desk {
        Desk::new()
    }
}
