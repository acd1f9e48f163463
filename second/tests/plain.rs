//! The engine against a slow transcription of document 01 that uses none of its short cuts: labels are sorted
//! sets, every choice of a step looks at all lines again, the search calls itself, all expansions are kept, and
//! seeds are struck out from scratch for every settled joint label.

use second::engine::Engine;
use second::form;
use second::random::Random;
use second::sheet::{Sheet, AND, BOTTOM, NAME, NOT, ONLY, OR, SOME, TOP};
use std::collections::{BTreeMap, BTreeSet};

/// Line and whether it holds.
type Mark = (u8, bool);
type Label = BTreeSet<Mark>;

enum Step {
    Add(Vec<Mark>),
    Split(Mark, Mark),
}

struct Plain<'a> {
    sheet: &'a Sheet,
    rules: Vec<(u8, u8)>,
    fuel: u64,
}

struct Tired;

impl Plain<'_> {
    fn clash(&self, label: &Label) -> bool {
        let lines = &self.sheet.lines;
        label.iter().any(|&(i, holds)| match lines[i as usize].kind {
            BOTTOM if holds => true,
            TOP if !holds => true,
            NAME => label.iter().any(|&(j, other)| {
                let line = lines[j as usize];
                other != holds && line.kind == NAME && line.first == lines[i as usize].first
            }),
            _ => label.contains(&(i, !holds)),
        })
    }

    fn step(&self, label: &Label) -> Option<Step> {
        for (own, line) in self.sheet.lines.iter().enumerate() {
            for holds in [true, false] {
                if !label.contains(&(own as u8, holds)) {
                    continue;
                }
                let (first, second) = ((line.first, holds), (line.second, holds));
                match (line.kind, holds) {
                    (NOT, _) if !label.contains(&(line.first, !holds)) => {
                        return Some(Step::Add(vec![(line.first, !holds)]));
                    }
                    (AND, true) | (OR, false) if !label.contains(&first) || !label.contains(&second) => {
                        return Some(Step::Add(vec![first, second]));
                    }
                    (AND, false) | (OR, true) if !label.contains(&first) && !label.contains(&second) => {
                        return Some(Step::Split(first, second));
                    }
                    _ => {}
                }
            }
        }
        for &(c, d) in &self.rules {
            if !label.contains(&(c, false)) && !label.contains(&(d, true)) {
                return Some(Step::Split((c, false), (d, true)));
            }
        }
        None
    }

    fn demand(&self, label: &Label, role: u8) -> Label {
        let demanding = |&&(i, holds): &&Mark| {
            let line = self.sheet.lines[i as usize];
            line.kind == (if holds { ONLY } else { SOME }) && line.first == role
        };
        label.iter().filter(demanding).map(|&(i, holds)| (self.sheet.lines[i as usize].second, holds)).collect()
    }

    fn seeds(&self, label: &Label) -> Vec<(u8, Label)> {
        let mut list = Vec::new();
        for (own, line) in self.sheet.lines.iter().enumerate() {
            let holds = line.kind == SOME;
            if line.kind >= SOME && label.contains(&(own as u8, holds)) {
                let mut seed = self.demand(label, line.first);
                seed.insert((line.second, holds));
                list.push((line.first, seed));
            }
        }
        list
    }

    /// All settled joint labels behind this one, in order.
    fn settle(&mut self, joint: &[Label], roles: &[(u8, u8, u8)], out: &mut Vec<Vec<Label>>) -> Result<(), Tired> {
        self.fuel = self.fuel.checked_sub(1).ok_or(Tired)?;
        if joint.iter().any(|label| self.clash(label)) {
            return Ok(());
        }
        for at in 0..joint.len() {
            let with = |marks: &[Mark]| {
                let mut other = joint.to_vec();
                other[at].extend(marks);
                other
            };
            match self.step(&joint[at]) {
                None => continue,
                Some(Step::Add(marks)) => return self.settle(&with(&marks), roles, out),
                Some(Step::Split(first, second)) => {
                    self.settle(&with(&[first]), roles, out)?;
                    return self.settle(&with(&[second]), roles, out);
                }
            }
        }
        for &(role, from, to) in roles {
            let marks = self.demand(&joint[from as usize], role);
            if !marks.is_subset(&joint[to as usize]) {
                let mut other = joint.to_vec();
                other[to as usize].extend(marks);
                return self.settle(&other, roles, out);
            }
        }
        out.push(joint.to_vec());
        Ok(())
    }

    fn expansions(&mut self, seed: &Label) -> Result<Vec<Label>, Tired> {
        let mut out = Vec::new();
        self.settle(std::slice::from_ref(seed), &[], &mut out)?;
        Ok(out.into_iter().map(|joint| joint[0].clone()).collect())
    }

    /// Records needed, and the model's words if there is a model.
    fn judge(&mut self, extra: Option<(u8, Mark)>) -> Result<(usize, Option<Vec<u32>>), Tired> {
        let mut start = vec![Label::new(); self.sheet.individuals.max(1) as usize];
        for &(individual, line) in &self.sheet.classes {
            start[individual as usize].insert((line, true));
        }
        if let Some((port, mark)) = extra {
            start[port as usize].insert(mark);
        }
        let mut joints = Vec::new();
        self.settle(&start, &self.sheet.roles.clone(), &mut joints)?;
        let mut records: BTreeMap<Label, Vec<Label>> = BTreeMap::new();
        for joint in joints {
            let mut reached: Vec<Label> = joint.iter().flat_map(|label| self.seeds(label)).map(|(_, s)| s).collect();
            while let Some(seed) = reached.pop() {
                if records.contains_key(&seed) {
                    continue;
                }
                let expansions = self.expansions(&seed)?;
                reached.extend(expansions.iter().flat_map(|label| self.seeds(label)).map(|(_, s)| s));
                records.insert(seed, expansions);
            }
            let good = self.satisfiable(&records);
            if joint.iter().all(|label| self.all_good(label, &good)) {
                return Ok((records.len(), Some(self.words(&joint, &records, &good))));
            }
        }
        Ok((records.len(), None))
    }

    fn all_good(&self, label: &Label, good: &BTreeSet<Label>) -> bool {
        self.seeds(label).iter().all(|(_, seed)| good.contains(seed))
    }

    fn satisfiable(&self, records: &BTreeMap<Label, Vec<Label>>) -> BTreeSet<Label> {
        let mut good: BTreeSet<Label> = records.keys().cloned().collect();
        loop {
            let left: BTreeSet<Label> = good
                .iter()
                .filter(|seed| records[*seed].iter().any(|label| self.all_good(label, &good)))
                .cloned()
                .collect();
            if left.len() == good.len() {
                return good;
            }
            good = left;
        }
    }

    fn words(&self, joint: &[Label], records: &BTreeMap<Label, Vec<Label>>, good: &BTreeSet<Label>) -> Vec<u32> {
        let mut labels = joint.to_vec();
        let mut order: Vec<Label> = Vec::new();
        let mut edges: BTreeSet<(u32, u32, u32)> =
            self.sheet.roles.iter().map(|&(r, a, b)| (a as u32, r as u32, b as u32)).collect();
        let mut from = 0;
        while from < labels.len() {
            for (role, seed) in self.seeds(&labels[from]) {
                let known = order.iter().position(|other| *other == seed);
                let to = known.unwrap_or_else(|| {
                    let first = records[&seed].iter().find(|label| self.all_good(label, good));
                    labels.push(first.expect("a good seed has a good expansion").clone());
                    order.push(seed);
                    order.len() - 1
                });
                edges.insert((from as u32, role as u32, (joint.len() + to) as u32));
            }
            from += 1;
        }
        let mut words = vec![labels.len() as u32];
        for label in &labels {
            let holding = label.iter().filter(|&&(i, holds)| holds && self.sheet.lines[i as usize].kind == NAME);
            words.push(holding.fold(0, |mask, &(i, _)| mask | 1 << self.sheet.lines[i as usize].first));
        }
        words.push(edges.len() as u32);
        words.extend(edges.iter().flat_map(|&(from, role, to)| [from, role, to]));
        words
    }

    /// The cause list with its marks, and the most records that a judgement needs with "class fails", and without;
    /// every proper subset is looked up, and a set is judged both times before the next one.
    fn causes(&mut self, port: u8, class: u8) -> Result<(usize, usize, Vec<u16>), Tired> {
        let sets = 1u16 << self.sheet.rules.len();
        let mut forcing = BTreeSet::new();
        let (mut denied, mut alone, mut list) = (0, 0, Vec::new());
        for set in 0..sets {
            let all = self.sheet.rules.iter().enumerate();
            self.rules = all.filter(|(n, _)| set >> n & 1 == 1).map(|(_, &rule)| rule).collect();
            let (records, words) = self.judge(Some((port, (class, false))))?;
            let smallest = (0..set).all(|other| other & set != other || !forcing.contains(&other));
            if smallest {
                denied = denied.max(records);
            }
            if words.is_some() {
                continue;
            }
            forcing.insert(set);
            if smallest {
                let (records, words) = self.judge(None)?;
                alone = alone.max(records);
                list.push(if words.is_some() { set } else { 32768 + set });
            }
        }
        Ok((denied, alone, list))
    }
}

fn plain(sheet: &Sheet, fuel: u64) -> Plain<'_> {
    Plain { sheet, rules: sheet.rules.clone(), fuel }
}

/// True if the sheet was cheap enough to be compared.
fn compare_sat(engine: &mut Engine, sheet: &Sheet) -> bool {
    let Ok((need, words)) = plain(sheet, 3_000).judge(None) else {
        return false;
    };
    let bytes = form::bytes(&form::numbers(sheet));
    let mut out = vec![7; words.as_ref().map_or(2, Vec::len)];
    let answer = engine.sat(&bytes, need as u64, need as u64, &mut out);
    match words {
        Some(words) => assert_eq!((answer.number, &out), (10, &words), "{sheet:?}"),
        None => assert_eq!((answer.number, &out), (12, &vec![0, 0]), "{sheet:?}"),
    }
    if need > 0 {
        assert_eq!(engine.sat(&bytes, need as u64 - 1, 5000, &mut out).number, 13, "{sheet:?}");
    }
    true
}

/// What there is among the cause questions compared.
#[derive(Default)]
struct Tally {
    compared: u32,
    both_marks: u32,
    second_alone: u32,
}

fn compare_causes(engine: &mut Engine, sheet: &Sheet, port: u8, class: u8, tally: &mut Tally) {
    let Ok((denied, alone, list)) = plain(sheet, 10_000).causes(port, class) else {
        return;
    };
    let need = denied.max(alone);
    tally.compared += 1;
    tally.both_marks += (list.iter().any(|&slot| slot < 32768) && list.iter().any(|&slot| slot >= 32768)) as u32;
    tally.second_alone += (denied < alone) as u32;
    let bytes = form::bytes(&form::numbers(sheet));
    let mut out = vec![7; list.len()];
    let answer = engine.causes(&bytes, port as u64, class as u64, need as u64, need as u64, &mut out);
    assert_eq!((answer.number, answer.value, &out), (14, list.len() as u64, &list), "{sheet:?} {port} {class}");
    if need > 0 {
        let short = engine.causes(&bytes, port as u64, class as u64, need as u64 - 1, 5000, &mut out);
        assert_eq!(short.number, 13, "{sheet:?} {port} {class}");
        assert!(out.iter().all(|&slot| slot == 0));
        let no_slots = engine.causes(&bytes, port as u64, class as u64, need as u64 - 1, 5000, &mut []);
        assert_eq!(no_slots.number, 13, "{sheet:?} {port} {class}");
    }
}

#[test]
fn models_agree() {
    let mut random = Random(11);
    let mut engine = Engine::new();
    let mut compared = 0;
    while compared < 1500 {
        let sheet = if random.chance(70) { form::any_sheet(&mut random) } else { form::tight_sheet(&mut random) };
        compared += compare_sat(&mut engine, &sheet) as u32;
    }
}

#[test]
fn causes_agree() {
    let mut random = Random(12);
    let mut engine = Engine::new();
    let mut tally = Tally::default();
    while tally.compared < 2500 {
        let sheet = if random.chance(50) { form::cause_sheet(&mut random) } else { form::two_ways(&mut random) };
        if sheet.lines.is_empty() || sheet.rules.len() > 7 {
            continue;
        }
        let port = random.below(sheet.individuals as u64) as u8;
        let class = random.below(sheet.lines.len() as u64) as u8;
        compare_causes(&mut engine, &sheet, port, class, &mut tally);
    }
    assert!(tally.both_marks >= 30, "{} lists with both marks", tally.both_marks);
    assert!(tally.second_alone >= 30, "{} that need more without \"class fails\"", tally.second_alone);
}
