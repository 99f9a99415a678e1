//! `dual-ledger ages`: each node that ever was, and the sums added up. Lines are done by the text engine and values are read from the bench; this file only
//! writes down when, and adds.
use crate::args::{Args, Form};
use crate::explain::explain;
use crate::input::{self, Progress};
use crate::output::said;
use crate::table;
use crate::twins::Twins;
use dual_ledger::{Bench, Handle, Reply, Session};
use std::io::{self, BufWriter, Write};

/// How a node went.
#[derive(Clone, Copy, PartialEq, Eq)]
pub enum How {
    Expanded,
    Cleared,
}

impl How {
    pub fn word(self) -> &'static str {
        match self {
            How::Expanded => "expanded",
            How::Cleared => "cleared",
        }
    }
}

pub enum Of {
    Vertex(u32),
    Members(Vec<u32>),
}

pub struct Node {
    pub handle: Handle,
    pub of: Of,
    /// The line by which it was made.
    pub made: u64,
    /// The line by which it went, and how.
    pub gone: Option<(u64, How)>,
    /// Then, or now.
    pub value: i64,
}

/// An interface without a parent, with what its stored sum must be.
pub struct Sum {
    pub interface: u8,
    pub stored: i64,
    pub present: i64,
    pub expanded: i64,
}

impl Sum {
    pub fn adds_up(&self) -> bool {
        self.stored == self.present + self.expanded
    }
}

/// A record's nodes, by serial from 1.
#[derive(Default)]
pub struct Book {
    pub nodes: Vec<Node>,
    /// By interface, what blossoms had when they were expanded since its clear.
    expanded: [i64; 8],
}

fn fields(line: &[u8]) -> impl Iterator<Item = u32> + '_ {
    line.split(|byte| *byte == b' ')
        .skip(1)
        .map(|field| field.iter().fold(0u32, |n, digit| n.wrapping_mul(10).wrapping_add(u32::from(digit.wrapping_sub(b'0')))))
}

/// The nodes of an interface's tree.
fn present(bench: &Bench, interface: u8) -> impl Iterator<Item = Handle> + '_ {
    bench.present_nodes(interface).into_iter().flatten().map(|(_, node)| node)
}

fn value(bench: &Bench, node: Handle) -> i64 {
    bench.get_dual_variable(node).unwrap_or(0)
}

impl Book {
    /// What a line will make go, if it is accepted, with the values it has now.
    fn going(&self, bench: &Bench, line: &[u8]) -> Vec<(u32, i64)> {
        match line.first() {
            Some(b'E') => {
                let node = fields(line).nth(1).and_then(|serial| self.nodes.get((serial as usize).wrapping_sub(1)));
                node.map(|node| (node.handle.serial(), value(bench, node.handle))).into_iter().collect()
            }
            Some(b'C') => {
                let interface = fields(line).next().and_then(|unit| u8::try_from(unit).ok()).unwrap_or(u8::MAX);
                present(bench, interface).map(|node| (node.serial(), value(bench, node))).collect()
            }
            _ => vec![],
        }
    }

    /// The node of the newest serial: the last of its interface, unless that fills emptied slots.
    fn made(&self, bench: &Bench, interface: u8) -> Handle {
        let is_it = |node: &Handle| node.serial() as usize == self.nodes.len() + 1;
        let last = bench.nodes_count(interface).and_then(|count| bench.get_node(interface, count.saturating_sub(1)));
        let last = last.ok().flatten().filter(is_it);
        last.or_else(|| present(bench, interface).find(is_it)).expect("the node that was just made is present")
    }

    /// An accepted line was done, and these nodes went by it.
    fn done(&mut self, bench: &Bench, line: &[u8], number: u64, going: Vec<(u32, i64)>) {
        let letter = line[0];
        let unit = fields(line).next().unwrap_or(0) as usize;
        match letter {
            b'D' | b'B' => {
                let handle = self.made(bench, unit as u8);
                let of = match letter {
                    b'D' => Of::Vertex(bench.get_representative_vertex(handle).expect("it is present")),
                    _ => Of::Members(fields(line).skip(1).collect()),
                };
                self.nodes.push(Node { handle, of, made: number, gone: None, value: 0 });
            }
            b'E' => self.expanded[unit] += going.iter().map(|(_, value)| value).sum::<i64>(),
            b'F' => {
                for half in fields(line).skip(1) {
                    self.expanded[unit] += std::mem::take(&mut self.expanded[half as usize]);
                }
            }
            b'C' => self.expanded[unit] = 0,
            _ => {}
        }
        let how = if letter == b'E' { How::Expanded } else { How::Cleared };
        for (serial, value) in going {
            let node = &mut self.nodes[serial as usize - 1];
            (node.gone, node.value) = (Some((number, how)), value);
        }
    }

    /// The record has ended: the values that are left, and the sums.
    fn close(&mut self, bench: &Bench) -> Vec<Sum> {
        let mut sums = vec![];
        for interface in 0..8 {
            let Ok(stored) = bench.sum_dual_variables(interface) else { continue };
            let mut total = 0;
            for node in present(bench, interface) {
                let value = value(bench, node);
                self.nodes[node.serial() as usize - 1].value = value;
                total += value;
            }
            let expanded = self.expanded[interface as usize];
            if bench.nodes_count(interface).is_ok_and(|count| count > 0) || stored != 0 || expanded != 0 {
                sums.push(Sum { interface, stored, present: total, expanded });
            }
        }
        sums
    }
}

/// A record's run, in the engine that it chooses, or in both.
enum Runs {
    One(Session),
    Both(Twins),
}

impl Runs {
    fn bench(&self) -> &Bench {
        match self {
            Runs::One(session) => session.bench(),
            Runs::Both(twins) => twins.plain.bench(),
        }
    }

    fn line(&mut self, line: &[u8], number: u64) -> Result<Reply, String> {
        match self {
            Runs::One(session) => Ok(session.line(line)),
            Runs::Both(twins) => twins.line(line, number).map_err(|why| format!("line {number}: {why}")),
        }
    }

    fn end(&self) -> Result<(), String> {
        match self {
            Runs::One(_) => Ok(()),
            Runs::Both(twins) => twins.end(),
        }
    }
}

pub fn run(args: &Args) -> Result<bool, String> {
    let path = &args.files[0];
    let name = path.display().to_string();
    let from = input::open(path).map_err(|trouble| said(&name, &trouble))?;
    let mut runs = if args.is_plain { Runs::Both(Twins::new(args)) } else { Runs::One(args.session()) };
    let (mut book, mut progress) = (Book::default(), Progress::new(!args.is_quiet));
    let mut over = false;
    let (lines, rest) = input::parts(from, |part| {
        let Some(line) = part.line else { return Ok(()) };
        let going = book.going(runs.bench(), line);
        match runs.line(line, part.number)?.refusal {
            None => book.done(runs.bench(), line, part.number, going),
            Some(refusal) if !args.is_quiet => {
                progress.clear();
                let why = explain(runs.bench(), refusal, line);
                eprintln!("{name}:{}: {} {}: {why}", part.number, refusal.number(), refusal.name());
            }
            Some(_) => {}
        }
        if part.number % 1024 == 0 {
            progress.at(|| format!("{} lines", part.number));
        }
        Ok(())
    })
    .map_err(|why| format!("{name}: {why}"))?;
    progress.clear();
    if !rest.is_empty() {
        eprintln!("dual-ledger: {name}: the input is cut: line {} has no newline, and was not done", lines + 1);
        over = true;
    }
    runs.end().map_err(|why| format!("{name}: {why}"))?;
    let sums = book.close(runs.bench());
    let mut out = BufWriter::with_capacity(1 << 16, io::stdout().lock());
    let written = match args.form {
        Form::Text => table::text(&mut out, &book.nodes, &sums),
        Form::Csv => table::csv(&mut out, &book.nodes, &sums),
        Form::Json => table::json(&mut out, &book.nodes, &sums),
    };
    written.and_then(|()| out.flush()).map_err(|trouble| said("standard output", &trouble))?;
    for sum in sums.iter().filter(|sum| !sum.adds_up()) {
        eprintln!("dual-ledger: {name}: the sum of interface {} is {}, not {} and {}", sum.interface, sum.stored, sum.present, sum.expanded);
        over = true;
    }
    Ok(!over)
}
