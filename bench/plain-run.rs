//! Runs a load as a plain Rust program would, so that the proved one has something to be compared with. It has the same regions,
//! packets, phases and stamps, so its report must be the same, byte for byte.
//!
//!     rustc -O --edition 2021 -o FILE bench/plain-run.rs
//!     FILE run CLUSTER WORKLOAD        the report of a run of the load that these files are
//!     FILE run N                       the same of the generated load of N calls
//!     FILE big N                       what `detock big N` prints
//!     FILE files N FOLDER              makes the files `cluster` and `workload` of the generated load
//!
//! It knows just what the loads of `bench/make-load` and of `detock big` have (`plain/load.rs`), and makes all turns in one thread.
#[allow(dead_code)]
#[path = "plain/graph.rs"]
mod graph;
#[path = "plain/lines.rs"]
mod lines;
#[path = "plain/load.rs"]
mod load;
#[path = "plain/node.rs"]
mod node;
#[path = "plain/report.rs"]
mod report;
#[path = "plain/table.rs"]
mod table;

use load::Load;
use node::{Node, Packet};
use report::Report;
use std::io::{self, Write};
use std::{env, fs, mem, path};

/// All nodes, and for each the packets that wait for it, in ascending order of the regions that sent them. A node takes all of them
/// in its next turn, so no link ever holds more than two.
struct Nodes<'a> {
    nodes: Vec<Node<'a>>,
    waiting: Vec<Vec<Packet>>,
}

impl<'a> Nodes<'a> {
    fn new(load: &'a Load) -> Nodes<'a> {
        let nodes: Vec<Node> = (0..load.regions).map(|region| Node::new(load, region)).collect();
        let waiting = nodes.iter().map(|_| Vec::new()).collect();
        Nodes { nodes, waiting }
    }

    /// One turn of every node. What is sent is there for its target in the next phase.
    fn phase(&mut self) {
        let none = self.nodes.iter().map(|_| Vec::new()).collect();
        let waiting = mem::replace(&mut self.waiting, none);
        for (node, packets) in self.nodes.iter_mut().zip(waiting) {
            node.turn(packets, &mut self.waiting);
        }
    }

    /// Whether every call is answered, and every node has executed every attempt.
    fn is_finished(&self) -> bool {
        let attempts: usize = self.nodes.iter().map(|node| node.submitted.len()).sum();
        self.nodes.iter().all(|node| node.is_answered() && node.done.count == attempts)
    }

    /// All nodes after a run of a load.
    fn run(load: &'a Load) -> Vec<Node<'a>> {
        let mut nodes = Nodes::new(load);
        loop {
            nodes.phase();
            if nodes.is_finished() {
                return nodes.nodes;
            }
        }
    }
}

fn report_of(load: &Load) -> Vec<u8> {
    Report { load, nodes: Nodes::run(load) }.text()
}

fn summary_of(load: &Load) -> Vec<u8> {
    Report { load, nodes: Nodes::run(load) }.summary()
}

fn make_files(load: &Load, folder: &path::Path) -> io::Result<()> {
    fs::create_dir_all(folder)?;
    fs::write(folder.join("cluster"), load.cluster_text())?;
    fs::write(folder.join("workload"), load.workload_text())
}

fn main() -> io::Result<()> {
    let words: Vec<String> = env::args().skip(1).collect();
    let words: Vec<&str> = words.iter().map(String::as_str).collect();
    let generated = |calls: &str| Load::generate(calls.parse().expect("a number of calls"));
    let text = match words[..] {
        ["run", calls] => report_of(&generated(calls)),
        ["run", cluster, workload] => report_of(&Load::read(&fs::read_to_string(cluster)?, &fs::read_to_string(workload)?)),
        ["big", calls] => summary_of(&generated(calls)),
        ["files", calls, folder] => return make_files(&generated(calls), path::Path::new(folder)),
        _ => panic!("run CLUSTER WORKLOAD, run N, big N, or files N FOLDER"),
    };
    io::stdout().write_all(&text)
}
