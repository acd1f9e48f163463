//! The answers with their numbers and buffers (document 01, "What the desk replies").

use crate::causes::{Found, Judge};
use crate::model;
use crate::search::{Joints, Meter, Plan};
use crate::sheet::{read, Refusal, Sheet, MOST_RECORDS};
use crate::verdict::{verdict, Halt, Records};

/// A number of the table and what it carries.
#[derive(Clone, Copy, PartialEq, Eq, Debug)]
pub struct Answer {
    pub number: u8,
    pub value: u64,
}

impl Answer {
    fn new(number: u8, value: usize) -> Answer {
        Answer { number, value: value as u64 }
    }

    /// Under 1 to 8 no buffer is touched.
    pub fn is_refusal(self) -> bool {
        self.number <= 8
    }
}

impl From<Refusal> for Answer {
    fn from(refusal: Refusal) -> Answer {
        Answer { number: refusal.number, value: refusal.place }
    }
}

/// Holds the buffers that are used again from question to question, and counts steps.
pub struct Engine {
    records: Records,
    joints: Joints,
    pub meter: Meter,
}

/// What a question asks of its lender: records and result length.
#[derive(Clone, Copy, PartialEq, Eq, Debug)]
pub struct Need {
    pub records: usize,
    /// words of the model, slots of the list; None if unsatisfiable
    pub result: Option<usize>,
}

impl Default for Engine {
    fn default() -> Self {
        Engine::new()
    }
}

impl Engine {
    pub fn new() -> Engine {
        Engine { records: Records::default(), joints: Joints::default(), meter: Meter { steps: 0, budget: u64::MAX } }
    }

    /// Satisfiable or not, with the model.
    pub fn sat(&mut self, bytes: &[u8], room: u64, marks: u64, out: &mut [u32]) -> Answer {
        let sheet = match lent(room, marks).and_then(|_| read(bytes)) {
            Ok(sheet) => sheet,
            Err(refusal) => return refusal.into(),
        };
        out.fill(0);
        match self.model(&sheet, room as usize) {
            Err(_) => Answer::new(13, 0),
            Ok(None) => Answer::new(12, 0),
            Ok(Some(words)) if words.len() > out.len() => Answer::new(11, words.len()),
            Ok(Some(words)) => {
                out[..words.len()].copy_from_slice(&words);
                Answer::new(10, words.len())
            }
        }
    }

    /// The smallest sets of rules that force the class at the port, each with its mark. Where one of the judgements
    /// lacks room the answer is 13, whichever it is.
    pub fn causes(&mut self, bytes: &[u8], port: u64, class: u64, room: u64, marks: u64, out: &mut [u16]) -> Answer {
        let sheet = match lent(room, marks).and_then(|_| read(bytes)).and_then(|sheet| on_sheet(sheet, port, class)) {
            Ok(sheet) => sheet,
            Err(refusal) => return refusal.into(),
        };
        out.fill(0);
        let mut judge = self.judge(room as usize);
        let smallest = judge.smallest(&sheet, port as u8, class as u8);
        match smallest.and_then(|smallest| judge.marked(&sheet, &smallest.slots)) {
            Err(_) => Answer::new(13, 0),
            Ok(Found { slots, .. }) if slots.len() > out.len() => Answer::new(15, slots.len()),
            Ok(Found { slots, .. }) => {
                out[..slots.len()].copy_from_slice(&slots);
                Answer::new(14, slots.len())
            }
        }
    }

    /// What a satisfiability question needs.
    pub fn sat_need(&mut self, sheet: &Sheet) -> Result<Need, Halt> {
        let words = self.model(sheet, usize::MAX)?;
        Ok(Need { records: self.records.used(), result: words.map(|words| words.len()) })
    }

    /// What a cause question needs.
    pub fn causes_need(&mut self, sheet: &Sheet, port: u8, class: u8) -> Result<Need, Halt> {
        let smallest = self.smallest(sheet, port, class)?;
        let marked = self.marked(sheet, &smallest.slots)?;
        Ok(Need { records: smallest.need.max(marked.need), result: Some(marked.slots.len()) })
    }

    /// The smallest forcing sets, and what judging with "class fails" needs.
    pub fn smallest(&mut self, sheet: &Sheet, port: u8, class: u8) -> Result<Found, Halt> {
        self.judge(usize::MAX).smallest(sheet, port, class)
    }

    /// These sets with their marks, and what judging them without "class fails" needs.
    pub fn marked(&mut self, sheet: &Sheet, sets: &[u16]) -> Result<Found, Halt> {
        self.judge(usize::MAX).marked(sheet, sets)
    }

    fn model(&mut self, sheet: &Sheet, room: usize) -> Result<Option<Vec<u32>>, Halt> {
        let plan = Plan::new(sheet);
        let good = verdict(&plan, &mut self.records, &mut self.joints, room, &mut self.meter)?;
        Ok(good.map(|joint| model::words(&plan, &self.records, &joint)))
    }

    fn judge(&mut self, room: usize) -> Judge<'_> {
        Judge { records: &mut self.records, joints: &mut self.joints, meter: &mut self.meter, room }
    }
}

/// Answer 7.
fn lent(room: u64, marks: u64) -> Result<(), Refusal> {
    if room > MOST_RECORDS || marks < room {
        return Err(Refusal { number: 7, place: 0 });
    }
    Ok(())
}

/// Answer 8.
fn on_sheet(sheet: Sheet, port: u64, class: u64) -> Result<Sheet, Refusal> {
    if port >= sheet.individuals as u64 || class >= sheet.lines.len() as u64 {
        return Err(Refusal { number: 8, place: 0 });
    }
    Ok(sheet)
}
