//! The cause list and its marks (document 01, "The cause list"; document 02, request 02; docs/DECISIONS.md has the readings).

use crate::label::Label;
use crate::search::{Joints, Meter, Plan};
use crate::sheet::Sheet;
use crate::verdict::{verdict, Halt, Records};

/// The mark of a set that no finite interpretation meets together with the assertions: a slot's top bit.
pub const CONTRADICTORY: u16 = 1 << 15;

/// Sets of rules as slots, ascending by rules, and the most records that one of those judged needs.
pub struct Found {
    pub slots: Vec<u16>,
    pub need: usize,
}

/// What a judgement works with.
pub struct Judge<'a> {
    pub records: &'a mut Records,
    pub joints: &'a mut Joints,
    pub meter: &'a mut Meter,
    pub room: usize,
}

impl Judge<'_> {
    /// True if nothing meets the plan with these rules alone.
    fn is_unsatisfiable(&mut self, plan: &mut Plan, set: u16) -> Result<bool, Halt> {
        plan.keep_rules(set as u32);
        Ok(verdict(plan, self.records, self.joints, self.room, self.meter)?.is_none())
    }

    /// The smallest forcing sets. Judges every set none of whose proper subsets forces. Subsets come before their
    /// supersets in the order of numbers, and every superset of a forcing set forces, so it is enough to look among
    /// the sets listed so far.
    pub fn smallest(&mut self, sheet: &Sheet, port: u8, class: u8) -> Result<Found, Halt> {
        let mut plan = Plan::new(sheet);
        plan.assert(port, Label::fails(class));
        let mut found = Found { slots: Vec::new(), need: 0 };
        for set in 0..1u16 << sheet.rules.len() {
            if found.slots.iter().any(|cause| cause & set == *cause) {
                continue;
            }
            let forces = self.is_unsatisfiable(&mut plan, set)?;
            found.need = found.need.max(self.records.used());
            if forces {
                found.slots.push(set);
            }
        }
        Ok(found)
    }

    /// These sets with their marks, each judged without "class fails".
    pub fn marked(&mut self, sheet: &Sheet, sets: &[u16]) -> Result<Found, Halt> {
        let mut plan = Plan::new(sheet);
        let mut found = Found { slots: Vec::new(), need: 0 };
        for &set in sets {
            let contradictory = self.is_unsatisfiable(&mut plan, set)?;
            found.need = found.need.max(self.records.used());
            found.slots.push(if contradictory { set | CONTRADICTORY } else { set });
        }
        Ok(found)
    }
}
