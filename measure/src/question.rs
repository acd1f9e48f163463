//! A stored question put to both engines, with buffers of given lengths.

use crate::sheets::{Asks, Stored};
use second::engine::Engine;

/// The number of an answer and what it carries.
pub type Reply = (u64, u64);

/// The buffers lent to the proved engine.
pub struct Lent {
    pub records: Vec<u64>,
    pub marks: Vec<u8>,
    pub words: Vec<u32>,
    pub slots: Vec<u16>,
}

impl Lent {
    /// As many records and mark bytes as said, and a result buffer of the length said, all filled with ones.
    pub fn new(records: usize, result: usize) -> Lent {
        Lent {
            records: vec![u64::MAX; records],
            marks: vec![u8::MAX; records],
            words: vec![u32::MAX; result],
            slots: vec![u16::MAX; result],
        }
    }

    /// Asks the proved engine.
    pub fn ask(&mut self, question: &Stored) -> Reply {
        let answer = match question.asks {
            Asks::Sat { .. } => {
                bargaindune::satisfy(&question.bytes, &mut self.records, &mut self.marks, &mut self.words)
            }
            Asks::Causes { port, class, .. } => {
                bargaindune::causes(&question.bytes, port, class, &mut self.records, &mut self.marks, &mut self.slots)
            }
        };
        (answer.number(), answer.carries() as u64)
    }

    fn is_cleared(&self) -> bool {
        self.records.iter().all(|&record| record == 0) && self.marks.iter().all(|&mark| mark == 0)
    }
}

/// The second engine, which keeps its buffers from question to question, with result buffers of its own.
pub struct Second {
    engine: Engine,
    room: u64,
    words: Vec<u32>,
    slots: Vec<u16>,
}

impl Second {
    pub fn new(room: usize, result: usize) -> Second {
        Second {
            engine: Engine::new(),
            room: room as u64,
            words: vec![u32::MAX; result],
            slots: vec![u16::MAX; result],
        }
    }

    pub fn ask(&mut self, question: &Stored) -> Reply {
        let Second { engine, room, words, slots } = self;
        let answer = match question.asks {
            Asks::Sat { .. } => engine.sat(&question.bytes, *room, *room, words),
            Asks::Causes { port, class, .. } => engine.causes(&question.bytes, port, class, *room, *room, slots),
        };
        (answer.number as u64, answer.value)
    }
}

/// The length of the result: words of the model, slots of the list.
pub fn result_length(question: &Stored) -> usize {
    let (number, value) = Second::new(question.need, 0).ask(question);
    if number == 11 || number == 15 {
        value as usize
    } else {
        0
    }
}

/// Both engines' answer, if it is the same to the last word, as stored, and leaves the buffers cleared.
pub fn agreed(question: &Stored, lent: &mut Lent, second: &mut Second) -> Result<Reply, String> {
    let (proved, other) = (lent.ask(question), second.ask(question));
    if proved != other {
        return Err(format!("{}: the proved engine says {proved:?}, the second {other:?}", question.label));
    }
    let same = match question.asks {
        Asks::Sat { .. } => lent.words == second.words,
        Asks::Causes { .. } => lent.slots == second.slots,
    };
    if !same {
        return Err(format!("{}: the results differ", question.label));
    }
    if !lent.is_cleared() {
        return Err(format!("{}: records or marks are not cleared", question.label));
    }
    let stored = match question.asks {
        Asks::Sat { satisfiable } => proved.0 == if satisfiable { 10 } else { 12 },
        Asks::Causes { sets, .. } => proved == (14, sets as u64),
    };
    if !stored {
        return Err(format!("{}: answered {proved:?}, but another answer is stored", question.label));
    }
    Ok(proved)
}

/// That one record fewer than stored is not enough: the need is exact.
pub fn need_is_exact(question: &Stored) -> Result<(), String> {
    if question.need == 0 {
        return Ok(());
    }
    let reply = Lent::new(question.need - 1, 0).ask(question);
    if reply == (13, 0) {
        return Ok(());
    }
    Err(format!("{}: with one record fewer than stored the answer is {reply:?}", question.label))
}
