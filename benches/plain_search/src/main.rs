//! The report of `cmh analyse` by plain search, in one thread: what the program is measured beside.
//!
//! It reads a dump of version 1 from standard input and takes it as valid: it looks for no fault but those
//! that stop it. Nobody runs a computation and nothing is proved: verdicts and paths are found by one search
//! backwards from the active processes, groups by the strongly connected components.
//!
//! Names are borrowed from the text of the dump. With the word `tree` they are borrowed from the tree of values
//! that `serde_json` reads the text into, which is what a dump is to the program.

use std::borrow::Cow;
use std::collections::{HashMap, VecDeque};
use std::env;
use std::error::Error;
use std::fs::File;
use std::io::{self, BufWriter, Read, Write};
use std::iter::successors;
use std::os::unix::io::AsFd;

use fixedbitset::FixedBitSet;
use petgraph::algo::tarjan_scc;
use petgraph::graph::{DiGraph, NodeIndex};
use petgraph::Direction::Incoming;
use serde::Deserialize;
use serde_json::Value;

#[derive(Deserialize)]
struct Dump<'a> {
    version: u64,
    #[serde(borrow)]
    sites: Vec<Name<'a>>,
    #[serde(borrow)]
    processes: Vec<Process<'a>>,
}

#[derive(Deserialize)]
struct Process<'a> {
    #[serde(borrow)]
    name: Name<'a>,
    #[serde(borrow)]
    site: Name<'a>,
    state: State,
    #[serde(borrow, default)]
    dependents: Vec<Name<'a>>,
}

#[derive(Deserialize, PartialEq)]
#[serde(rename_all = "lowercase")]
enum State {
    Active,
    Idle,
}

/// A name of the dump, copied only where it is written with an escape.
#[derive(Deserialize, PartialEq, Eq, Hash)]
struct Name<'a>(#[serde(borrow)] Cow<'a, str>);

/// The place of each name.
fn places<'a>(names: impl Iterator<Item = &'a Name<'a>>) -> HashMap<&'a str, u32> {
    names.zip(0..).map(|(name, place)| (&*name.0, place)).collect()
}

fn place(places: &HashMap<&str, u32>, name: &Name) -> Result<u32, String> {
    places.get(&*name.0).copied().ok_or_else(|| format!("nothing has the name {}", name.0))
}

/// Who waits for whom: an edge leads from each process to each of its dependents.
type Graph = DiGraph<(), ()>;

fn graph(processes: &[Process]) -> Result<Graph, String> {
    let known = places(processes.iter().map(|process| &process.name));
    let dependencies = processes.iter().map(|process| process.dependents.len()).sum();
    let mut graph = Graph::with_capacity(processes.len(), dependencies);
    for _ in processes {
        graph.add_node(());
    }
    for (process, from) in processes.iter().zip(0..) {
        for dependent in &process.dependents {
            graph.add_edge(NodeIndex::from(from), place(&known, dependent)?.into(), ());
        }
    }
    Ok(graph)
}

/// How many dependencies each process is from the nearest active one, or `None` where it reaches none.
fn distances(graph: &Graph, processes: &[Process]) -> Vec<Option<u32>> {
    let mut distances = vec![None; processes.len()];
    let mut queue = VecDeque::new();
    for process in graph.node_indices() {
        if processes[process.index()].state == State::Active {
            distances[process.index()] = Some(0);
            queue.push_back((process, 0));
        }
    }
    while let Some((process, distance)) = queue.pop_front() {
        for before in graph.neighbors_directed(process, Incoming) {
            if distances[before.index()].is_none() {
                distances[before.index()] = Some(distance + 1);
                queue.push_back((before, distance + 1));
            }
        }
    }
    distances
}

/// The step of the chosen path of each free process: the least dependent that is one nearer.
fn next_steps(graph: &Graph, distances: &[Option<u32>]) -> Vec<Option<usize>> {
    let step = |process: NodeIndex| {
        let nearer = distances[process.index()]?.checked_sub(1)?;
        let next = graph.neighbors(process).filter(|next| distances[next.index()] == Some(nearer)).min()?;
        Some(next.index())
    };
    graph.node_indices().map(step).collect()
}

/// Deadlocked processes that wait for each other in turn, in the order of the dump, and what they reach besides.
struct Group {
    core: Vec<NodeIndex>,
    rest: FixedBitSet,
}

/// The groups, each after all that it reaches, and the place of each deadlocked process's group among them.
/// `tarjan_scc` gives the components in this order, so that a group's rest is found by those of the groups
/// that it waits for.
fn groups(graph: &Graph, distances: &[Option<u32>]) -> (Vec<Group>, Vec<usize>) {
    let mut groups: Vec<Group> = Vec::new();
    let mut group_of = vec![usize::MAX; distances.len()];
    for mut core in tarjan_scc(graph) {
        if distances[core[0].index()].is_some() {
            continue;
        }
        core.sort_unstable();
        for process in &core {
            group_of[process.index()] = groups.len();
        }
        let rest = rest(graph, &core, &groups, &group_of);
        groups.push(Group { core, rest });
    }
    (groups, group_of)
}

fn rest(graph: &Graph, core: &[NodeIndex], groups: &[Group], group_of: &[usize]) -> FixedBitSet {
    let mut rest = FixedBitSet::with_capacity(group_of.len());
    for next in core.iter().flat_map(|&process| graph.neighbors(process)) {
        // (the group that is being made isn't among them yet)
        if let Some(group) = groups.get(group_of[next.index()]).filter(|_| !rest.contains(next.index())) {
            rest.union_with(&group.rest);
            rest.extend(group.core.iter().map(|process| process.index()));
        }
    }
    rest
}

/// What the lines of the report are made of.
struct Report<'a> {
    processes: &'a [Process<'a>],
    sites: Vec<usize>,
    distances: Vec<Option<u32>>,
    steps: Vec<Option<usize>>,
    groups: Vec<Group>,
    group_of: Vec<usize>,
}

impl<'a> Report<'a> {
    fn of(dump: &'a Dump) -> Result<Self, String> {
        let processes = &dump.processes;
        let known = places(dump.sites.iter());
        let sites = processes.iter().map(|process| Ok(place(&known, &process.site)? as usize));
        let sites = sites.collect::<Result<_, String>>()?;
        let graph = graph(processes)?;
        let distances = distances(&graph, processes);
        let steps = next_steps(&graph, &distances);
        let (groups, group_of) = groups(&graph, &distances);
        Ok(Report { processes, sites, distances, steps, groups, group_of })
    }

    fn name(&self, process: usize) -> &[u8] {
        self.processes[process].name.0.as_bytes()
    }

    fn write(&self, out: &mut impl Write) -> io::Result<()> {
        let count = self.processes.len();
        let active = self.processes.iter().filter(|process| process.state == State::Active).count();
        let deadlocked = self.distances.iter().filter(|distance| distance.is_none()).count();
        writeln!(out, "processes {count} active {active} idle {} deadlocked {deadlocked}", count - active)?;
        let mut by_leader: Vec<usize> = (0..self.groups.len()).collect();
        by_leader.sort_unstable_by_key(|&group| self.groups[group].core[0]);
        let mut numbers = vec![0; self.groups.len()];
        for (&group, number) in by_leader.iter().zip(1..) {
            numbers[group] = number;
        }
        self.write_processes(&numbers, out)?;
        self.write_groups(&by_leader, out)
    }

    fn write_processes(&self, numbers: &[usize], out: &mut impl Write) -> io::Result<()> {
        for (process, distance) in self.distances.iter().enumerate() {
            match distance {
                Some(0) => {}
                Some(_) => self.write_free(process, out)?,
                None => {
                    out.write_all(b"deadlocked ")?;
                    out.write_all(self.name(process))?;
                    writeln!(out, " group {}", numbers[self.group_of[process]])?;
                }
            }
        }
        Ok(())
    }

    fn write_free(&self, process: usize, out: &mut impl Write) -> io::Result<()> {
        out.write_all(b"free ")?;
        out.write_all(self.name(process))?;
        out.write_all(b" path")?;
        for process in successors(Some(process), |&process| self.steps[process]) {
            out.write_all(b" ")?;
            out.write_all(self.name(process))?;
        }
        out.write_all(b"\n")
    }

    fn write_groups(&self, by_leader: &[usize], out: &mut impl Write) -> io::Result<()> {
        // of each site the number of the last group that has it
        let mut last = vec![0; self.sites.iter().max().map_or(0, |most| most + 1)];
        for (&group, number) in by_leader.iter().zip(1..) {
            let Group { core, rest } = &self.groups[group];
            write!(out, "group {number} |")?;
            let core = core.iter().map(|process| process.index());
            let mut sites = self.write_members(core, number, &mut last, out)?;
            out.write_all(if rest.is_clear() { &b" | -"[..] } else { b" |" })?;
            sites += self.write_members(rest.ones(), number, &mut last, out)?;
            writeln!(out, " | sites {sites}")?;
        }
        Ok(())
    }

    /// Writes names of a group, and returns how many sites they add to it.
    fn write_members(
        &self,
        members: impl Iterator<Item = usize>,
        number: usize,
        last: &mut [usize],
        out: &mut impl Write,
    ) -> io::Result<usize> {
        let mut sites = 0;
        for process in members {
            out.write_all(b" ")?;
            out.write_all(self.name(process))?;
            let last = &mut last[self.sites[process]];
            sites += usize::from(*last != number);
            *last = number;
        }
        Ok(sites)
    }
}

fn print(dump: &Dump) -> Result<(), Box<dyn Error>> {
    if dump.version != 1 {
        return Err("not a dump of version 1".into());
    }
    // (a file, since the standard library's own standard output looks for ends of lines)
    let stdout = File::from(io::stdout().as_fd().try_clone_to_owned()?);
    let mut out = BufWriter::with_capacity(1 << 16, stdout);
    Report::of(dump)?.write(&mut out)?;
    out.flush()?;
    Ok(())
}

fn main() -> Result<(), Box<dyn Error>> {
    let mut text = Vec::new();
    io::stdin().lock().read_to_end(&mut text)?;
    if env::args().any(|word| word == "tree") {
        let tree: Value = serde_json::from_slice(&text)?;
        return print(&Dump::deserialize(&tree)?);
    }
    print(&serde_json::from_slice(&text)?)
}
