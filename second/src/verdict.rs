//! Records, closing them under expansions, striking out unsatisfiable seeds, and the search for the first
//! joint label whose seeds are all satisfiable (document 01, "Labels and the order of the rules", last
//! paragraphs).

use crate::label::Label;
use crate::search::{Asked, Expansions, Joint, Joints, Meter, Plan, TooLong};
use crate::table::Table;

/// A settled expansion and the records of the seeds it asks for, as a part of `Records::asked`.
struct Expansion {
    label: Label,
    from: u32,
    to: u32,
}

/// One record for every seed reached, with its settled expansions.
#[derive(Default)]
pub struct Records {
    seeds: Vec<Label>,
    numbers: Table,
    expansions: Vec<Expansion>,
    asked: Vec<u32>,
    /// for each record, the first expansion not known to ask for a struck-out seed
    choice: Vec<u32>,
    /// for each record, where its expansions end
    end: Vec<u32>,
    struck: Vec<bool>,
    /// what was already asked by expansions of the record now being closed
    seen: Table,
    walk: Expansions,
    list: Vec<Asked>,
}

/// Why there is no verdict.
#[derive(Debug)]
pub enum Halt {
    /// the records needed outnumber those lent
    Space,
    /// longer than the generator wants
    TooLong,
}

impl From<TooLong> for Halt {
    fn from(_: TooLong) -> Halt {
        Halt::TooLong
    }
}

impl Records {
    pub fn clear(&mut self) {
        self.seeds.clear();
        self.numbers.clear();
        self.expansions.clear();
        self.asked.clear();
        self.choice.clear();
        self.end.clear();
        self.struck.clear();
    }

    /// How many records are in use.
    pub fn used(&self) -> usize {
        self.seeds.len()
    }

    pub fn number(&self, seed: Label) -> Option<u32> {
        self.numbers.get(seed.0)
    }

    /// The first settled expansion whose seeds are all satisfiable, of a record that is not struck out.
    pub fn chosen(&self, record: u32) -> Label {
        self.expansions[self.choice[record as usize] as usize].label
    }

    /// The record of a seed, a new one if it has none yet.
    fn take(&mut self, seed: Label, room: usize) -> Result<u32, Halt> {
        let new = self.seeds.len();
        if let Some(old) = self.numbers.get_or_put(seed.0, new as u32) {
            return Ok(old);
        }
        if new >= room {
            return Err(Halt::Space);
        }
        self.seeds.push(seed);
        Ok(new as u32)
    }

    /// Expands every record not yet expanded, and those that come of it.
    fn close(&mut self, plan: &Plan, room: usize, meter: &mut Meter) -> Result<(), Halt> {
        while self.end.len() < self.seeds.len() {
            let record = self.end.len();
            self.choice.push(self.expansions.len() as u32);
            self.expand(plan, self.seeds[record], room, meter)?;
            self.end.push(self.expansions.len() as u32);
            self.struck.push(false);
        }
        Ok(())
    }

    fn expand(&mut self, plan: &Plan, seed: Label, room: usize, meter: &mut Meter) -> Result<(), Halt> {
        self.seen.clear();
        self.walk.begin(plan, seed);
        while let Some(label) = self.walk.next(plan, meter)? {
            // A later expansion that asks for the same seeds is never the first good one, so it is not kept.
            if self.seen.get_or_put(plan.arrow_marks(label).0, 0).is_some() {
                continue;
            }
            self.list.clear();
            plan.ask(label, &mut self.list);
            let from = self.asked.len() as u32;
            for i in 0..self.list.len() {
                let record = self.take(self.list[i].seed, room)?;
                self.asked.push(record);
            }
            self.expansions.push(Expansion { label, from, to: self.asked.len() as u32 });
        }
        Ok(())
    }

    /// Strikes out, from the given record on, all that have no expansion left without a struck-out seed. Records
    /// before it were closed and judged earlier. Backwards, since what is asked for mostly comes later.
    fn strike_out(&mut self, first: usize) {
        let mut changed = true;
        while changed {
            changed = false;
            for record in (first..self.seeds.len()).rev() {
                if !self.struck[record] && !self.advance(record) {
                    self.struck[record] = true;
                    changed = true;
                }
            }
        }
    }

    /// Moves the choice past expansions that ask for a struck-out seed; false if none is left.
    fn advance(&mut self, record: usize) -> bool {
        let mut at = self.choice[record];
        while at < self.end[record] && self.asks_for_struck(at) {
            at += 1;
        }
        self.choice[record] = at;
        at < self.end[record]
    }

    fn asks_for_struck(&self, expansion: u32) -> bool {
        let Expansion { from, to, .. } = self.expansions[expansion as usize];
        self.asked[from as usize..to as usize].iter().any(|&record| self.struck[record as usize])
    }

    /// Takes up all seeds of a settled joint label; true if all are satisfiable.
    fn judge(&mut self, plan: &Plan, joint: &Joint, room: usize, meter: &mut Meter) -> Result<bool, Halt> {
        self.list.clear();
        for &label in &joint[..plan.elements()] {
            plan.ask(label, &mut self.list);
        }
        let asked = std::mem::take(&mut self.list);
        let first = self.used();
        let taken = self.take_all(&asked, room);
        if taken.is_ok() && self.used() > first {
            self.close(plan, room, meter)?;
            self.strike_out(first);
        }
        let good = taken.is_ok() && asked.iter().all(|one| self.is_satisfiable(one.seed));
        self.list = asked;
        taken.map(|_| good)
    }

    fn take_all(&mut self, asked: &[Asked], room: usize) -> Result<(), Halt> {
        for one in asked {
            self.take(one.seed, room)?;
        }
        Ok(())
    }

    fn is_satisfiable(&self, seed: Label) -> bool {
        self.number(seed).is_some_and(|record| !self.struck[record as usize])
    }
}

/// The first settled joint label whose seeds are all satisfiable, or None; Halt::Space exactly if more records
/// are needed than the room has. The records are left as they stand, for the model and to be counted.
pub fn verdict(
    plan: &Plan,
    records: &mut Records,
    joints: &mut Joints,
    room: usize,
    meter: &mut Meter,
) -> Result<Option<Joint>, Halt> {
    records.clear();
    joints.begin(plan);
    while let Some(joint) = joints.next(plan, meter)? {
        if records.judge(plan, &joint, room, meter)? {
            return Ok(Some(joint));
        }
    }
    Ok(None)
}
