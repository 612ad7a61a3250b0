//! Transactions, and what one does to the table of a region.
use crate::load::{Body, Id, Key, Keys, Load, Mode};

/// A use of a key: its unit, and what the submitting region knew of that, its home and how often it was moved.
pub struct Use {
    pub key: Key,
    pub unit: Key,
    pub counter: u32,
    pub home: u8,
    pub mode: Mode,
}

/// An attempt: what it is to do, whose it is, and what it uses, in the order of keys.
pub struct Txn {
    pub id: Id,
    pub rank: u8,
    pub body: Body,
    pub session: u32,
    pub call: u32,
    pub attempt: u32,
    pub uses: Vec<Use>,
    /// A bit for each of its homes.
    pub homes: u8,
}

impl Txn {
    /// Its homes, in ascending order.
    pub fn homes(&self) -> impl Iterator<Item = u8> {
        let homes = self.homes;
        (0..8).filter(move |home| homes >> home & 1 == 1)
    }

    /// What the home orders of it: the uses there, and of a move all.
    pub fn part(&self, home: u8) -> impl Iterator<Item = &Use> {
        let is_move = matches!(self.body, Body::Move(..));
        self.uses.iter().filter(move |it| is_move || it.home == home)
    }
}

#[derive(Clone, Copy)]
pub enum Outcome {
    Moved,
    Gave(Option<i64>),
    GaveTwo(i64, i64),
    Aborted(&'static str),
    Stale { unit: Key, had: u32, by: Id },
}

/// The outcomes of what a region has executed, by region and number.
pub struct Done {
    outcomes: Vec<Vec<Option<Outcome>>>,
    pub count: usize,
}

impl Done {
    pub fn new(regions: u8) -> Done {
        Done { outcomes: vec![Vec::new(); usize::from(regions)], count: 0 }
    }

    pub fn outcome(&self, id: Id) -> Option<Outcome> {
        *self.outcomes[usize::from(id.region)].get(id.seq as usize - 1)?
    }

    pub fn note(&mut self, id: Id, outcome: Outcome) {
        let (outcomes, number) = (&mut self.outcomes[usize::from(id.region)], id.seq as usize - 1);
        if outcomes.len() <= number {
            outcomes.resize(number + 1, None);
        }
        outcomes[number] = Some(outcome);
        self.count += 1;
    }
}

/// A unit: its home, and who moved it.
#[derive(Clone)]
pub struct Unit {
    pub home: u8,
    pub movers: Vec<Id>,
}

/// The rows of a region, by their keys, and its units.
pub struct Table {
    pub values: Vec<Option<i64>>,
    pub units: Vec<Unit>,
}

impl Table {
    pub fn new(load: &Load) -> Table {
        let mut values = vec![None; load.keys.texts.len()];
        for (key, value) in &load.rows {
            values[*key as usize] = Some(*value);
        }
        let home = |text: &String| text.as_bytes()[0] % load.regions;
        let units = load.keys.texts.iter().map(|text| Unit { home: home(text), movers: Vec::new() });
        Table { values, units: units.collect() }
    }

    /// What a body uses by this table, in the order of keys, and its homes.
    pub fn annotate(&self, body: Body, keys: &Keys, version: u8) -> (Vec<Use>, u8) {
        let used = |key: Key, mode| {
            let unit = keys.units[key as usize];
            let Unit { home, movers } = &self.units[unit as usize];
            Use { key, unit, counter: movers.len() as u32, home: *home, mode }
        };
        let whole = if version == 2 { Mode::Whole } else { Mode::Write };
        let mut uses = match body {
            Body::Xfer(from, to, _) => vec![used(from, Mode::Write), used(to, Mode::Write)],
            Body::Sum(one, other) => vec![used(one, Mode::Read), used(other, Mode::Read)],
            Body::Get(key) => vec![used(key, Mode::Read)],
            Body::Add(key, _) => vec![used(key, Mode::Write)],
            Body::Move(key, _) => vec![used(key, whole)],
        };
        uses.sort_by_key(|it| keys.ranks[it.key as usize]);
        uses.dedup_by_key(|it| it.key);
        let target = if let Body::Move(_, target) = body { 1 << target } else { 0 };
        let homes = uses.iter().fold(target, |homes, it| homes | 1 << it.home);
        (uses, homes)
    }

    /// Runs a transaction.
    pub fn run(&mut self, txn: &Txn) -> Outcome {
        for Use { unit, counter, .. } in &txn.uses {
            if let Some(by) = self.units[*unit as usize].movers.get(*counter as usize) {
                return Outcome::Stale { unit: *unit, had: *counter, by: *by };
            }
        }
        self.change(txn).unwrap_or_else(Outcome::Aborted)
    }

    fn int(&self, key: Key) -> Result<i64, &'static str> {
        self.values[key as usize].ok_or("kind")
    }

    fn change(&mut self, txn: &Txn) -> Result<Outcome, &'static str> {
        let fit = |sum: Option<i64>| sum.ok_or("overflow");
        Ok(match txn.body {
            Body::Xfer(from, to, n) => {
                let had = self.int(from)?;
                if had < n {
                    return Err("\"funds\"");
                }
                let left = fit(had.checked_sub(n))?;
                let before = if from == to { left } else { self.int(to)? };
                let sum = fit(before.checked_add(n))?;
                self.values[from as usize] = Some(left);
                self.values[to as usize] = Some(sum);
                Outcome::GaveTwo(self.int(from)?, sum)
            }
            Body::Sum(one, other) => Outcome::Gave(Some(fit(self.int(one)?.checked_add(self.int(other)?))?)),
            Body::Get(key) => Outcome::Gave(self.values[key as usize]),
            Body::Add(key, n) => {
                let sum = fit(self.values[key as usize].map_or(Some(n), |old| old.checked_add(n)))?;
                self.values[key as usize] = Some(sum);
                Outcome::Gave(Some(sum))
            }
            Body::Move(unit, target) => {
                let unit = &mut self.units[unit as usize];
                unit.home = target;
                unit.movers.push(txn.id);
                Outcome::Moved
            }
        })
    }
}
