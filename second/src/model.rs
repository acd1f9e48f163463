//! The model that is written (document 01, "The model that is written").

use crate::label::Label;
use crate::search::{Joint, Plan};
use crate::verdict::Records;

const NO_ELEMENT: u32 = u32::MAX;

#[derive(Clone, Copy, PartialEq, Eq, PartialOrd, Ord)]
struct Edge {
    from: u32,
    role: u8,
    to: u32,
}

struct Elements {
    labels: Vec<Label>,
    /// for each record, its element
    of_record: Vec<u32>,
}

impl Elements {
    /// The element of a seed, a new one behind the others if it has none yet.
    fn of(&mut self, seed: Label, records: &Records) -> u32 {
        let record = records.number(seed).expect("every seed of a good label has a record");
        let element = &mut self.of_record[record as usize];
        if *element == NO_ELEMENT {
            *element = self.labels.len() as u32;
            self.labels.push(records.chosen(record));
        }
        *element
    }
}

/// The words of the model that starts from a good joint label.
pub fn words(plan: &Plan, records: &Records, joint: &Joint) -> Vec<u32> {
    let mut elements =
        Elements { labels: joint[..plan.elements()].to_vec(), of_record: vec![NO_ELEMENT; records.used()] };
    let mut edges: Vec<Edge> = Vec::new();
    let mut list = Vec::new();
    let mut from = 0;
    while from < elements.labels.len() {
        list.clear();
        plan.ask(elements.labels[from], &mut list);
        for asked in &list {
            let to = elements.of(asked.seed, records);
            edges.push(Edge { from: from as u32, role: asked.role, to });
        }
        from += 1;
    }
    for &(role, from, to) in plan.pushes() {
        edges.push(Edge { from: from as u32, role, to: to as u32 });
    }
    edges.sort_unstable();
    edges.dedup();
    write(plan, &elements.labels, &edges)
}

fn write(plan: &Plan, labels: &[Label], edges: &[Edge]) -> Vec<u32> {
    let mut words = Vec::with_capacity(2 + labels.len() + 3 * edges.len());
    words.push(labels.len() as u32);
    words.extend(labels.iter().map(|&label| plan.names(label)));
    words.push(edges.len() as u32);
    for edge in edges {
        words.extend([edge.from, edge.role as u32, edge.to]);
    }
    words
}
