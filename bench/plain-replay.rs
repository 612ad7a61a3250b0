//! Replays a generated load as a plain Rust program would, so that the proved one has something to be compared with. It reads the
//! three files, makes each event where it is legal, and writes the report, which must be the same byte for byte.
//!
//!     rustc -O --edition 2021 -o FILE bench/plain-replay.rs
//!     FILE replay CLUSTER WORKLOAD EVENTS
//!
//! It knows just what the loads of `bench/make-load` have (`plain/load.rs`).
#[allow(dead_code)]
#[path = "plain/graph.rs"]
mod graph;
#[path = "plain/lines.rs"]
mod lines;
#[allow(dead_code)]
#[path = "plain/load.rs"]
mod load;
#[path = "plain/table.rs"]
mod table;

use graph::Graph;
use lines::Lines;
use load::{Id, Load};
use std::collections::HashMap;
use std::fmt::Debug;
use std::io::Write;
use std::rc::Rc;
use std::str::FromStr;
use std::{env, fs, mem, process};
use table::{Done, Outcome, Table, Txn};

enum Event<'a> {
    Submit(u8, &'a str),
    Append(u8, u8, u32),
    Deliver(u8, u8, u32, u32),
    Insert(u8, u8),
    Resolve(u8, Vec<Id>),
    Execute(u8, Id),
    Answer(u8, &'a str),
}

fn number<T: FromStr<Err: Debug>>(word: &str) -> T {
    word.parse().expect("a number")
}

fn id(word: &str) -> Id {
    let (seq, region) = word.split_once('.').expect("an id");
    Id { seq: number(seq), region: number(region) }
}

impl<'a> Event<'a> {
    fn read(line: &'a str) -> Event<'a> {
        let mut words = line.split(' ');
        let (kind, region) = (words.next().expect("a kind"), number(words.next().expect("a region")));
        let mut next = || words.next().expect("a word");
        match kind {
            "submit" => Event::Submit(region, next()),
            "append" => Event::Append(region, number(next()), number(next())),
            "deliver" => Event::Deliver(region, number(next()), number(next()), number(next())),
            "insert" => Event::Insert(region, number(next())),
            "resolve" => Event::Resolve(region, words.map(id).collect()),
            "execute" => Event::Execute(region, id(next())),
            "answer" => Event::Answer(region, next()),
            _ => panic!("no event: {line}"),
        }
    }

    fn rule(&self) -> usize {
        match self {
            Event::Submit(..) => 1,
            Event::Append(..) => 2,
            Event::Deliver(..) => 3,
            Event::Insert(..) => 4,
            Event::Resolve(..) => 5,
            Event::Execute(..) => 6,
            Event::Answer(..) => 7,
        }
    }

    fn put(&self, lines: &mut Lines) {
        match *self {
            Event::Submit(region, session) => lines.word("submit").number(region).word(session),
            Event::Append(home, source, place) => lines.word("append").number(home).number(source).number(place),
            Event::Deliver(region, home, first, last) => {
                lines.word("deliver").number(region).number(home).number(first).number(last)
            }
            Event::Insert(region, home) => lines.word("insert").number(region).number(home),
            Event::Resolve(region, ref ids) => ids.iter().fold(lines.word("resolve").number(region), |lines, id| lines.id(*id)),
            Event::Execute(region, id) => lines.word("execute").number(region).id(id),
            Event::Answer(region, session) => lines.word("answer").number(region).word(session),
        };
        lines.end();
    }
}

/// A session: how many of its calls are answered, and the attempt that it waits for.
#[derive(Default)]
struct Seat {
    answered: usize,
    waits: Option<Rc<Txn>>,
}

struct Region {
    submitted: Vec<Rc<Txn>>,
    /// What it asked each home to place.
    asked: Vec<Vec<Rc<Txn>>>,
    /// How many requests of each region are placed.
    taken: Vec<u32>,
    log: Vec<Rc<Txn>>,
    /// How much of each log it received, and how much of that it inserted.
    received: Vec<usize>,
    inserted: Vec<usize>,
    graph: Graph,
    done: Done,
    table: Table,
}

impl Region {
    fn new(load: &Load) -> Region {
        let regions = usize::from(load.regions);
        Region {
            submitted: Vec::new(),
            asked: vec![Vec::new(); regions],
            taken: vec![0; regions],
            log: Vec::new(),
            received: vec![0; regions],
            inserted: vec![0; regions],
            graph: Graph::new(load.regions, load.keys.texts.len()),
            done: Done::new(load.regions),
            table: Table::new(load),
        }
    }
}

/// All regions and sessions of a load, and what the report says of the events so far.
struct World<'a> {
    load: &'a Load,
    places: HashMap<&'a str, usize>,
    seats: Vec<Seat>,
    regions: Vec<Region>,
    replies: Vec<Rc<Txn>>,
    /// The executed attempts, each with the region that executed it first.
    order: Vec<(Rc<Txn>, usize)>,
    /// By region and number.
    is_run: Vec<Vec<bool>>,
}

impl<'a> World<'a> {
    fn new(load: &'a Load) -> World<'a> {
        World {
            load,
            places: load.sessions.iter().enumerate().map(|(place, it)| (it.name.as_str(), place)).collect(),
            seats: load.sessions.iter().map(|_| Seat::default()).collect(),
            regions: (0..load.regions).map(|_| Region::new(load)).collect(),
            replies: Vec::new(),
            order: Vec::new(),
            is_run: vec![Vec::new(); usize::from(load.regions)],
        }
    }

    /// Makes an event, if it is legal: `None` where it is not.
    fn step(&mut self, event: &Event) -> Option<()> {
        match *event {
            Event::Submit(region, name) => self.submit(region, name),
            Event::Append(home, source, place) => self.append(home.into(), source.into(), place),
            Event::Deliver(region, home, first, last) => self.deliver(region.into(), home.into(), first as usize, last as usize),
            Event::Insert(region, home) => self.insert(region.into(), home),
            Event::Resolve(region, ref ids) => self.resolve(region.into(), ids),
            Event::Execute(region, id) => self.execute(region.into(), id),
            Event::Answer(region, name) => self.answer(region, name),
        }
    }

    /// The place of a session at a region, and whether the attempt that it waits for ends the call, if that is done.
    fn seat(&self, region: u8, name: &str) -> Option<(usize, Option<bool>)> {
        let place = *self.places.get(name)?;
        if self.load.sessions[place].region != region {
            return None;
        }
        let ends = self.seats[place].waits.as_ref().and_then(|txn| {
            let is_stale = matches!(self.regions[usize::from(region)].done.outcome(txn.id)?, Outcome::Stale { .. });
            Some(!is_stale || txn.attempt == self.load.tries)
        });
        Some((place, ends))
    }

    fn submit(&mut self, region: u8, name: &str) -> Option<()> {
        let (place, ends) = self.seat(region, name)?;
        let seat = &mut self.seats[place];
        let attempt = match &seat.waits {
            None => 1,
            Some(_) if ends != Some(false) => return None,
            Some(txn) => txn.attempt + 1,
        };
        let (rank, body) = *self.load.sessions[place].wanted.get(seat.answered)?;
        let here = &mut self.regions[usize::from(region)];
        let id = Id { seq: here.submitted.len() as u32 + 1, region };
        let (uses, homes) = here.table.annotate(body, &self.load.keys, self.load.version);
        let (session, call) = (place as u32, seat.answered as u32 + 1);
        let txn = Rc::new(Txn { id, rank, body, session, call, attempt, uses, homes });
        for home in txn.homes() {
            here.asked[usize::from(home)].push(Rc::clone(&txn));
        }
        seat.waits = Some(Rc::clone(&txn));
        here.submitted.push(txn);
        self.is_run[usize::from(region)].push(false);
        Some(())
    }

    fn append(&mut self, home: usize, source: usize, place: u32) -> Option<()> {
        let txn = self.regions.get(source)?.asked.get(home)?.get(place as usize)?;
        let txn = Rc::clone(txn);
        let here = &mut self.regions[home];
        if here.taken[source] == place {
            here.taken[source] += 1;
            here.log.push(txn);
            here.received[home] += 1;
        }
        Some(())
    }

    fn deliver(&mut self, region: usize, home: usize, first: usize, last: usize) -> Option<()> {
        if first > last || last > self.regions.get(home)?.log.len() {
            return None;
        }
        let received = &mut self.regions.get_mut(region)?.received[home];
        if first <= *received && *received < last {
            *received = last;
        }
        Some(())
    }

    fn insert(&mut self, region: usize, home: u8) -> Option<()> {
        let (log, here) = (usize::from(home), self.regions.get(region)?);
        let place = here.inserted[log];
        if place == *here.received.get(log)? {
            return None;
        }
        let txn = Rc::clone(&self.regions[log].log[place]);
        let here = &mut self.regions[region];
        here.inserted[log] += 1;
        here.graph.insert(home, &txn);
        Some(())
    }

    fn resolve(&mut self, region: usize, ids: &[Id]) -> Option<()> {
        let is_legal = ids.is_sorted_by(|one, next| one < next) && self.regions.get_mut(region)?.graph.resolve(ids);
        is_legal.then_some(())
    }

    fn execute(&mut self, region: usize, id: Id) -> Option<()> {
        let here = self.regions.get_mut(region)?;
        let place = here.graph.ready(id)?;
        let txn = Rc::clone(here.graph.txn(place));
        here.done.note(id, here.table.run(&txn));
        here.graph.finish(place);
        if !mem::replace(&mut self.is_run[usize::from(id.region)][id.seq as usize - 1], true) {
            self.order.push((txn, region));
        }
        Some(())
    }

    fn answer(&mut self, region: u8, name: &str) -> Option<()> {
        let (place, ends) = self.seat(region, name)?;
        if ends != Some(true) {
            return None;
        }
        self.replies.extend(self.seats[place].waits.take());
        self.seats[place].answered += 1;
        Some(())
    }

    fn report(&self, events: &[Event]) -> Vec<u8> {
        let outcome = |region: usize, txn: &Txn| self.regions[region].done.outcome(txn.id).expect("an outcome");
        let mut lines = Lines::new(self.load);
        lines.word("replies").end();
        for txn in &self.replies {
            lines.reply(txn, outcome(txn.id.region.into(), txn));
        }
        lines.word("order").end();
        for (txn, region) in &self.order {
            lines.ran(txn, outcome(*region, txn));
        }
        lines.tables(self.regions.iter().map(|it| &it.table));
        lines.word("events").end();
        for event in events {
            event.put(&mut lines);
        }
        lines.into_bytes()
    }
}

fn main() -> std::io::Result<()> {
    let words: Vec<String> = env::args().skip(1).collect();
    let [_, cluster, workload, events] = words.as_slice() else { panic!("replay CLUSTER WORKLOAD EVENTS") };
    let load = Load::read(&fs::read_to_string(cluster)?, &fs::read_to_string(workload)?);
    let mut world = World::new(&load);
    let text = fs::read_to_string(events)?;
    let events: Vec<Event> = text.lines().map(Event::read).collect();
    for (place, event) in events.iter().enumerate() {
        if world.step(event).is_none() {
            eprintln!("detock: events line {}: rule {}", place + 1, event.rule());
            process::exit(6);
        }
    }
    std::io::stdout().write_all(&world.report(&events))
}
