//! The steps, the walk to the settled labels of one seed, the joint walk of the individuals, and the seeds a
//! settled label asks for (document 01, "Labels and the order of the rules").

use crate::label::{bits, Label};
use crate::sheet::{Sheet, AND, BOTTOM, NAME, NOT, ONLY, OR, SOME, TOP};

pub const MOST_INDIVIDUALS: usize = 8;

/// What a line's mark or a rule calls for. With `second` empty all of `first` is to be added, otherwise it is a
/// split, done where a mark of either side is there.
#[derive(Clone, Copy, Default)]
struct Step {
    first: Label,
    second: Label,
}

/// A some or only line.
#[derive(Clone, Copy, Default)]
struct Arrow {
    role: u8,
    line: u8,
}

/// A sheet made ready for the walk.
pub struct Plan {
    /// for each line, what it calls for if it holds
    if_holds: [Step; 32],
    /// for each line, what it calls for if it fails
    if_fails: [Step; 32],
    /// the not, and, or lines
    stepping: u32,
    tops: u32,
    bottoms: u32,
    /// the lines of one name, for every name that stands on two lines or more
    same_name: Vec<u32>,
    /// the lines of each name
    named: Vec<(u8, u32)>,
    somes: u32,
    onlys: u32,
    arrows: [Arrow; 32],
    all_rules: Vec<Step>,
    /// the rules in force, in sheet order
    rules: Vec<Step>,
    /// role, from, to
    pushes: Vec<(u8, u8, u8)>,
    start: [Label; MOST_INDIVIDUALS],
    /// individuals, or one for the unnamed element
    elements: usize,
}

/// A label on its way. `open` are the marked lines whose step may still add something: labels only grow, so a
/// step that has nothing to add now never has again. For the same reason no rule before `rule` has.
#[derive(Clone, Copy, Default)]
struct Work {
    label: Label,
    open: u32,
    rule: u32,
}

enum Turn {
    Clash,
    /// no step of its own is left
    Quiet,
    Split(Step),
}

/// A seed asked for along a role.
#[derive(Clone, Copy)]
pub struct Asked {
    pub role: u8,
    pub seed: Label,
}

/// The walk was longer than the budget given; only what draws sheets gives one.
#[derive(Debug)]
pub struct TooLong;

/// Counts steps.
pub struct Meter {
    pub steps: u64,
    pub budget: u64,
}

impl Meter {
    fn tick(&mut self) -> Result<(), TooLong> {
        self.steps += 1;
        if self.steps > self.budget {
            return Err(TooLong);
        }
        Ok(())
    }
}

impl Plan {
    pub fn new(sheet: &Sheet) -> Plan {
        let mut plan = Plan {
            if_holds: [Step::default(); 32],
            if_fails: [Step::default(); 32],
            stepping: 0,
            tops: 0,
            bottoms: 0,
            same_name: Vec::new(),
            named: Vec::new(),
            somes: 0,
            onlys: 0,
            arrows: [Arrow::default(); 32],
            all_rules: sheet.rules.iter().map(|&rule| rule_step(rule)).collect(),
            rules: Vec::new(),
            pushes: sheet.roles.clone(),
            start: [Label::EMPTY; MOST_INDIVIDUALS],
            elements: (sheet.individuals as usize).max(1),
        };
        plan.rules.extend_from_slice(&plan.all_rules);
        for (own, line) in sheet.lines.iter().enumerate() {
            plan.take_line(own, line.kind, line.first, line.second);
        }
        plan.same_name = plan.named.iter().map(|&(_, lines)| lines).filter(|lines| lines.count_ones() > 1).collect();
        for &(individual, line) in &sheet.classes {
            plan.assert(individual, Label::holds(line));
        }
        plan
    }

    fn take_line(&mut self, own: usize, kind: u8, first: u8, second: u8) {
        let bit = 1 << own;
        match kind {
            TOP => self.tops |= bit,
            BOTTOM => self.bottoms |= bit,
            NAME => self.take_name(first, bit),
            NOT => {
                self.stepping |= bit;
                self.if_holds[own] = add(Label::fails(first));
                self.if_fails[own] = add(Label::holds(first));
            }
            AND => {
                self.stepping |= bit;
                self.if_holds[own] = add(Label::holds(first).join(Label::holds(second)));
                self.if_fails[own] = Step { first: Label::fails(first), second: Label::fails(second) };
            }
            OR => {
                self.stepping |= bit;
                self.if_holds[own] = Step { first: Label::holds(first), second: Label::holds(second) };
                self.if_fails[own] = add(Label::fails(first).join(Label::fails(second)));
            }
            SOME => {
                self.somes |= bit;
                self.arrows[own] = Arrow { role: first, line: second };
            }
            _ => {
                debug_assert_eq!(kind, ONLY);
                self.onlys |= bit;
                self.arrows[own] = Arrow { role: first, line: second };
            }
        }
    }

    fn take_name(&mut self, name: u8, bit: u32) {
        match self.named.iter_mut().find(|(other, _)| *other == name) {
            Some((_, lines)) => *lines |= bit,
            None => self.named.push((name, bit)),
        }
    }

    /// Adds a mark to an individual's first label.
    pub fn assert(&mut self, individual: u8, mark: Label) {
        let label = &mut self.start[individual as usize];
        *label = label.join(mark);
    }

    /// Keeps in force the rules n with bit n set, in sheet order.
    pub fn keep_rules(&mut self, set: u32) {
        self.rules.clear();
        self.rules.extend(bits(set).map(|n| self.all_rules[n]));
    }

    pub fn elements(&self) -> usize {
        self.elements
    }

    /// Role assertions as role, from, to.
    pub fn pushes(&self) -> &[(u8, u8, u8)] {
        &self.pushes
    }

    /// The mask of true names: those of which some line holds.
    pub fn names(&self, label: Label) -> u32 {
        let mut mask = 0;
        for &(name, lines) in &self.named {
            if label.holding() & lines != 0 {
                mask |= 1 << name;
            }
        }
        mask
    }

    /// The marks of the some and only lines: they alone fix what a settled label asks for.
    pub fn arrow_marks(&self, label: Label) -> Label {
        label.on(self.somes | self.onlys)
    }

    fn clashes(&self, label: Label) -> bool {
        let (holding, failing) = (label.holding(), label.failing());
        (holding & failing) | (holding & self.bottoms) | (failing & self.tops) != 0
            || self.same_name.iter().any(|lines| holding & lines != 0 && failing & lines != 0)
    }

    /// A label at its start; None if it clashes by itself.
    fn begin(&self, label: Label) -> Option<Work> {
        let work = Work { label, open: label.marked() & self.stepping, rule: 0 };
        (!self.clashes(label)).then_some(work)
    }

    /// Adds marks; false on a clash.
    fn add(&self, work: &mut Work, marks: Label) -> bool {
        let new = marks.without(work.label);
        work.label = work.label.join(new);
        work.open |= new.marked() & self.stepping;
        !self.clashes(work.label)
    }

    /// The first step not yet done, by lines ascending, then rules. A label without clash has one mark a line,
    /// so "holds before fails" needs no look.
    fn next_step(&self, work: &mut Work) -> Option<Step> {
        while work.open != 0 {
            let own = work.open.trailing_zeros() as usize;
            work.open &= work.open - 1;
            let holds = work.label.holding() >> own & 1 == 1;
            let step = if holds { self.if_holds[own] } else { self.if_fails[own] };
            if !step.is_done(work.label) {
                return Some(step);
            }
        }
        while let Some(&step) = self.rules.get(work.rule as usize) {
            work.rule += 1;
            if !step.is_done(work.label) {
                return Some(step);
            }
        }
        None
    }

    /// Takes steps up to the next split, clash, or until none is left.
    fn run(&self, work: &mut Work, meter: &mut Meter) -> Result<Turn, TooLong> {
        while let Some(step) = self.next_step(work) {
            meter.tick()?;
            if step.is_split() {
                return Ok(Turn::Split(step));
            }
            if !self.add(work, step.first) {
                return Ok(Turn::Clash);
            }
        }
        Ok(Turn::Quiet)
    }

    /// What a label's only lines that hold and some lines that fail demand along each role.
    fn demands(&self, label: Label) -> [Label; 8] {
        let mut demands = [Label::EMPTY; 8];
        for own in bits(label.holding() & self.onlys) {
            let arrow = self.arrows[own];
            let marks = &mut demands[arrow.role as usize];
            *marks = marks.join(Label::holds(arrow.line));
        }
        for own in bits(label.failing() & self.somes) {
            let arrow = self.arrows[own];
            let marks = &mut demands[arrow.role as usize];
            *marks = marks.join(Label::fails(arrow.line));
        }
        demands
    }

    /// The seeds a settled label asks for, asking lines ascending, put behind those in the list.
    pub fn ask(&self, label: Label, list: &mut Vec<Asked>) {
        let asking = (label.holding() & self.somes) | (label.failing() & self.onlys);
        if asking == 0 {
            return;
        }
        let demands = self.demands(label);
        for own in bits(asking) {
            let arrow = self.arrows[own];
            let mark = if self.somes >> own & 1 == 1 { Label::holds(arrow.line) } else { Label::fails(arrow.line) };
            list.push(Asked { role: arrow.role, seed: mark.join(demands[arrow.role as usize]) });
        }
    }
}

fn add(marks: Label) -> Step {
    Step { first: marks, second: Label::EMPTY }
}

fn rule_step((c, d): (u8, u8)) -> Step {
    Step { first: Label::fails(c), second: Label::holds(d) }
}

impl Step {
    fn is_split(self) -> bool {
        !self.second.is_empty()
    }

    fn is_done(self, label: Label) -> bool {
        if self.is_split() {
            label.has_any(self.first.join(self.second))
        } else {
            label.has_all(self.first)
        }
    }
}

/// The walk through the settled expansions of a seed, first branch first.
#[derive(Default)]
pub struct Expansions {
    waiting: Vec<Work>,
}

impl Expansions {
    pub fn begin(&mut self, plan: &Plan, seed: Label) {
        self.waiting.clear();
        self.waiting.extend(plan.begin(seed));
    }

    /// The next settled label.
    pub fn next(&mut self, plan: &Plan, meter: &mut Meter) -> Result<Option<Label>, TooLong> {
        while let Some(mut work) = self.waiting.pop() {
            loop {
                match plan.run(&mut work, meter)? {
                    Turn::Clash => break,
                    Turn::Quiet => return Ok(Some(work.label)),
                    Turn::Split(step) => {
                        let mut other = work;
                        if plan.add(&mut other, step.second) {
                            self.waiting.push(other);
                        }
                        if !plan.add(&mut work, step.first) {
                            break;
                        }
                    }
                }
            }
        }
        Ok(None)
    }
}

/// The labels of all individuals on their way. Those below `at` have no step of their own.
#[derive(Clone, Copy, Default)]
struct JointWork {
    works: [Work; MOST_INDIVIDUALS],
    at: usize,
}

/// A settled joint label.
pub type Joint = [Label; MOST_INDIVIDUALS];

/// The walk through the settled joint labels, first branch first.
#[derive(Default)]
pub struct Joints {
    waiting: Vec<JointWork>,
}

enum Push {
    Nothing,
    Clash,
    Done,
}

impl Joints {
    pub fn begin(&mut self, plan: &Plan) {
        self.waiting.clear();
        let mut joint = JointWork::default();
        for individual in 0..plan.elements {
            let Some(work) = plan.begin(plan.start[individual]) else {
                return;
            };
            joint.works[individual] = work;
        }
        self.waiting.push(joint);
    }

    /// The next settled joint label.
    pub fn next(&mut self, plan: &Plan, meter: &mut Meter) -> Result<Option<Joint>, TooLong> {
        while let Some(mut joint) = self.waiting.pop() {
            if self.follow(plan, meter, &mut joint)? {
                return Ok(Some(joint.works.map(|work| work.label)));
            }
        }
        Ok(None)
    }

    /// Follows first branches, leaving the second ones waiting. True if it ends settled, false if in a clash.
    fn follow(&mut self, plan: &Plan, meter: &mut Meter, joint: &mut JointWork) -> Result<bool, TooLong> {
        loop {
            if joint.at == plan.elements {
                match push(plan, meter, joint)? {
                    Push::Nothing => return Ok(true),
                    Push::Clash => return Ok(false),
                    Push::Done => joint.at = 0,
                }
            }
            match plan.run(&mut joint.works[joint.at], meter)? {
                Turn::Clash => return Ok(false),
                Turn::Quiet => joint.at += 1,
                Turn::Split(step) => {
                    let mut other = *joint;
                    if plan.add(&mut other.works[joint.at], step.second) {
                        self.waiting.push(other);
                    }
                    if !plan.add(&mut joint.works[joint.at], step.first) {
                        return Ok(false);
                    }
                }
            }
        }
    }
}

/// The first role assertion that still adds a mark adds all that is demanded along it, as one step.
fn push(plan: &Plan, meter: &mut Meter, joint: &mut JointWork) -> Result<Push, TooLong> {
    for &(role, from, to) in &plan.pushes {
        let marks = plan.demands(joint.works[from as usize].label)[role as usize];
        let work = &mut joint.works[to as usize];
        if !work.label.has_all(marks) {
            meter.tick()?;
            return Ok(if plan.add(work, marks) { Push::Done } else { Push::Clash });
        }
    }
    Ok(Push::Nothing)
}
