//! What is reported of a run.
use crate::lines::Lines;
use crate::load::Load;
use crate::node::{Event, Node};
use crate::table::Txn;
use std::mem;

pub struct Report<'a> {
    pub load: &'a Load,
    pub nodes: Vec<Node<'a>>,
}

/// The events of all nodes, each with its region, in ascending order of their stamps, and of their regions where these are equal.
struct Merged<'a> {
    left: Vec<&'a [(u64, Event)]>,
}

impl Iterator for Merged<'_> {
    type Item = (u8, Event);

    fn next(&mut self) -> Option<(u8, Event)> {
        let firsts = self.left.iter().enumerate().filter_map(|(region, left)| Some((left.first()?, region)));
        let ((_, event), region) = firsts.min_by_key(|((stamp, _), region)| (*stamp, *region))?;
        self.left[region] = &self.left[region][1..];
        Some((region as u8, *event))
    }
}

impl Report<'_> {
    fn events(&self) -> Merged<'_> {
        Merged { left: self.nodes.iter().map(|node| &node.events[..]).collect() }
    }

    /// The number of calls, that of answers, and the sum of the rows of region 0.
    pub fn summary(&self) -> Vec<u8> {
        let calls: usize = self.load.sessions.iter().map(|it| it.wanted.len()).sum();
        let answers = self.events().filter(|(_, event)| matches!(event, Event::Answer(_))).count();
        let sum: i128 = self.nodes[0].table.values.iter().flatten().map(|value| i128::from(*value)).sum();
        format!("calls {calls}\nanswers {answers}\nsum {sum}\n").into_bytes()
    }

    /// The whole report.
    pub fn text(&self) -> Vec<u8> {
        let mut lines = Lines::new(self.load);
        lines.word("replies").end();
        for (region, event) in self.events() {
            if let Event::Answer(number) = event {
                let txn = self.txn(region, number);
                lines.reply(txn, self.nodes[usize::from(region)].done.outcome(txn.id).expect("an outcome"));
            }
        }
        lines.word("order").end();
        let mut is_run: Vec<Vec<bool>> = self.nodes.iter().map(|node| vec![false; node.submitted.len()]).collect();
        for (region, event) in self.events() {
            if let Event::Execute(id) = event {
                if !mem::replace(&mut is_run[usize::from(id.region)][id.seq as usize - 1], true) {
                    let outcome = self.nodes[usize::from(region)].done.outcome(id);
                    lines.ran(self.txn(id.region, id.seq), outcome.expect("an outcome"));
                }
            }
        }
        lines.tables(self.nodes.iter().map(|node| &node.table));
        lines.word("events").end();
        self.events().for_each(|(region, event)| self.put_event(&mut lines, region, event));
        lines.into_bytes()
    }

    /// The attempt of this number that a region submitted.
    fn txn(&self, region: u8, number: u32) -> &Txn {
        &self.nodes[usize::from(region)].submitted[number as usize - 1]
    }

    fn put_event(&self, lines: &mut Lines, region: u8, event: Event) {
        match event {
            Event::Submit(number) => lines.word("submit").number(region).session(self.txn(region, number).session),
            Event::Append(source, number) => lines.word("append").number(region).number(source).number(number),
            Event::Deliver(home, first, last) => lines.word("deliver").number(region).number(home).number(first).number(last),
            Event::Insert(home) => lines.word("insert").number(region).number(home),
            Event::Resolve(class) => {
                let ids = &self.nodes[usize::from(region)].classes[class as usize];
                ids.iter().fold(lines.word("resolve").number(region), |lines, id| lines.id(*id))
            }
            Event::Execute(id) => lines.word("execute").number(region).id(id),
            Event::Answer(number) => lines.word("answer").number(region).session(self.txn(region, number).session),
        };
        lines.end();
    }
}
