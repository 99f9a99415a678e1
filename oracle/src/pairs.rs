//! Every number that a call can be refused by, alone and beside each other that can apply: which apply to a line, and a recording that has them all.
use crate::line::{read, Line};
use crate::model::bench::{Bench, Handle, MEMBERS, PROGRESS, WORN};
use crate::model::groups::Group;
use crate::model::refusals::*;
use crate::model::Model;
use std::collections::{BTreeMap, BTreeSet};

type Numbers = BTreeSet<i64>;

/// The numbers whose condition holds, each judged by itself.
struct Applying<'a> {
    bench: &'a Bench,
    found: Numbers,
}

impl Applying<'_> {
    fn put(&mut self, holds: bool, number: i64) -> &mut Self {
        self.found.extend(holds.then_some(number));
        self
    }

    fn faces(&mut self, units: &[u32]) -> &mut Self {
        let bench = self.bench;
        let face = |unit: &u32| bench.faces.get(*unit as usize);
        self.put(units.iter().any(|unit| face(unit).is_none()), UNIT);
        self.put(units.iter().any(|unit| face(unit).map_or(false, |f| f.parent.is_some())), CHILD)
    }

    fn nodes(&mut self, unit: u32, handles: &[Handle]) -> &mut Self {
        let bench = self.bench;
        self.put(handles.iter().any(|h| bench.node(*h).is_none()), STALE);
        let tree = bench.faces.get(unit as usize).map(|_| bench.top(unit as usize));
        self.put(handles.iter().any(|h| bench.node(*h).is_some() && Some(bench.top(h.unit as usize)) != tree), FOREIGN)
    }

    fn inside(&mut self, handles: &[Handle]) -> &mut Self {
        let bench = self.bench;
        self.put(handles.iter().any(|h| bench.node(*h).map_or(false, |n| n.parent.is_some())), INSIDE)
    }

    fn place(&mut self, unit: u32) -> &mut Self {
        let bench = self.bench;
        self.put(bench.faces.get(unit as usize).map_or(false, |f| f.is_full()), FULL).put(bench.next >= WORN, NO_SERIAL)
    }

    fn blossom(&mut self, unit: u32, members: &[u32], touching: &[(u32, u32)]) {
        let circle: Vec<Handle> = members.iter().map(|s| self.bench.named(*s)).collect();
        let touched: Vec<Handle> = touching.iter().flat_map(|(a, b)| [self.bench.named(*a), self.bench.named(*b)]).collect();
        let present: Vec<&Handle> = circle.iter().filter(|h| self.bench.node(**h).is_some()).collect();
        let twice = (1..present.len()).any(|at| present[..at].contains(&present[at]));
        self.faces(&[unit]).put(circle.is_empty() || circle.len() > MEMBERS, CIRCLE);
        self.put(!touching.is_empty() && touching.len() != circle.len(), TOUCH);
        self.nodes(unit, &[&circle[..], &touched[..]].concat()).inside(&circle).put(twice, TWICE).place(unit);
    }

    fn fuse(&mut self, parent: u32, left: u32, right: u32) {
        let used = self.bench.faces.get(parent as usize).map_or(false, |f| !f.slots.is_empty() || f.progress != 0 || f.children.is_some());
        self.faces(&[parent, left, right]).put(left == right || parent <= left || parent <= right, PAIR).put(used, USED);
        let floored = |unit: u32| self.bench.faces.get(unit as usize).map(|f| f.floored);
        let differ = floored(left).is_some() && floored(right).is_some() && floored(left) != floored(right);
        self.put(differ, MARK);
    }

    fn of_node(&mut self, serial: u32, call: &Line) {
        let h = self.bench.named(serial);
        let node = self.bench.node(h);
        self.put(node.is_none(), STALE);
        match (call, node) {
            (Line::Under(_), Some(n)) => self.put(n.parent.is_none(), TOP),
            (Line::Vertices(_, room), Some(n)) => self.put((*room as i64) < n.size, SMALL),
            _ => self,
        };
    }
}

/// Every number of the table that holds of a line as things are. A node that is gone has neither a kind nor a parent.
pub fn applying(model: &Model, line: &Line) -> Numbers {
    let bench = &model.bench;
    let mut all = Applying { bench, found: Numbers::new() };
    let named = |serial: &u32| bench.named(*serial);
    match line {
        Line::SetUp(first) => drop(all.put(*first == 0, NO_SERIAL)),
        Line::Defect(unit, _) => drop(all.faces(&[*unit]).place(*unit)),
        Line::Blossom(unit, members, touching) => all.blossom(*unit, members, touching),
        Line::Expand(unit, serial) => {
            let h = named(serial);
            let defect = bench.node(h).map_or(false, |n| n.is_defect());
            all.faces(&[*unit]).nodes(*unit, &[h]).put(defect, KIND).inside(&[h]);
        }
        Line::SetState(unit, serial, _) => drop(all.faces(&[*unit]).nodes(*unit, &[named(serial)]).inside(&[named(serial)])),
        Line::Grow(unit, length) => {
            let left = bench.faces.get(*unit as usize).map_or(PROGRESS, |f| PROGRESS - f.progress);
            all.faces(&[*unit]).put(*length < 0 || *length > left, LENGTH);
            all.put((*unit as usize) < bench.faces.len() && bench.is_below(*unit as usize, *length), BELOW);
        }
        Line::Fuse(parent, left, right) => all.fuse(*parent, *left, *right),
        Line::Mark(unit, _) => {
            let late = bench.faces.get(*unit as usize).map_or(false, |f| !f.slots.is_empty() || f.children.is_some());
            all.faces(&[*unit]).put(late, MARK);
        }
        Line::HandleAt(unit, index) => {
            let count = bench.faces.get(*unit as usize).map_or(0, |_| bench.slots(*unit as usize).len());
            all.faces(&[*unit]).put(*index as usize >= count, RANGE);
        }
        Line::Clear(u)
        | Line::Check(u)
        | Line::Strict(u)
        | Line::Sum(u)
        | Line::Speed(u)
        | Line::Count(u)
        | Line::Marked(u, _)
        | Line::Belongs(u, _) => {
            all.faces(&[*u]);
        }
        Line::Value(s) | Line::Outer(s) | Line::Under(s) | Line::First(s) | Line::Vertices(s, _) => all.of_node(*s, line),
        Line::Add(group, o) => {
            let o = o.named(|s| Some(named(s))).expect("each serial has a handle");
            all.put(o.nodes().into_iter().any(|h| bench.node(*h).is_none()), STALE);
            let room = matches!(&model.groups[*group], Group::Conflicts { list, .. } if list.len() >= 128);
            all.put(room && !matches!(o, crate::line::Obstacle::Stop(..) | crate::line::Obstacle::Growth(..)), ROOM);
        }
        Line::Extend(group, other) => {
            all.put(model.groups[*other].handles().into_iter().any(|h| bench.node(h).is_none()), STALE);
            let listed = |g: usize| match &model.groups[g] {
                Group::Conflicts { list, .. } => Some(list.len()),
                Group::Growth(..) => None,
            };
            all.put(matches!((listed(*group), listed(*other)), (Some(a), Some(b)) if a + b > 128), ROOM);
        }
        Line::Asked(group) => drop(all.put(model.groups[*group].is_empty(), NOTHING)),
        Line::Pop(group) | Line::Peek(group) => drop(all.put(matches!(model.groups[*group], Group::Growth(..)), KIND)),
        _ => {}
    }
    all.found
}

/// The call of a line, the three ways to say a blossom being one.
pub fn kind(text: &str) -> char {
    match text.chars().next().unwrap_or('#') {
        'b' | 't' => 'B',
        'w' | 'x' | 'q' | 'r' | 'g' => 'c',
        other => other,
    }
}

/// Which numbers a call was refused by, alone and with which other one applying.
#[derive(Default)]
pub struct Seen(pub BTreeMap<char, BTreeSet<(i64, i64)>>);

impl Seen {
    /// The lowest, which is given, beside each other that applies; alone is (n, n). Whether the line has something that no line before it had.
    pub fn see(&mut self, text: &str, numbers: &Numbers) -> bool {
        let mine = self.0.entry(kind(text)).or_default();
        let before = mine.len();
        if let Some(given) = numbers.first() {
            mine.extend(numbers.iter().filter(|n| numbers.len() == 1 || *n > given).map(|n| (*given, *n)));
        }
        mine.len() > before
    }
}

/// A bench with all that can be wrong in reach: a fused tree 2 with halves 0 and 1, interface 3 with a blossom and emptied slots, 4 with a nest and
/// grown, 5 grown, 6 grown to the limit. Serials from `first`.
fn ground(first: u64) -> Vec<String> {
    let s = |k: u64| first + k - 1;
    vec![
        format!("N {first}"),
        "D 0 1".into(),
        "D 0 2".into(),
        format!("B 0 {}", s(1)),
        "D 1 3".into(),
        "F 2 0 1".into(),
        "D 2 4".into(),
        "D 3 5".into(),
        "D 3 6".into(),
        format!("B 3 {}", s(6)),
        format!("B 3 {}", s(7)),
        format!("E 3 {}", s(9)),
        "D 4 7".into(),
        format!("B 3 {}", s(8)),
        format!("x 1 {}", s(11)),
        format!("E 3 {}", s(11)),
        format!("B 4 {}", s(10)),
        format!("B 4 {}", s(12)),
        "G 4 5".into(),
        "G 5 5".into(),
        format!("G 6 {PROGRESS}"),
    ]
}

/// Nodes of the ground worth naming: free and inside, defect and blossom, of each tree; gone; never made.
fn cast(first: u64) -> Vec<u64> {
    [1, 2, 3, 4, 5, 6, 7, 8, 9, 10, 12, 200].iter().map(|k| first + k - 1).filter(|s| *s < WORN).collect()
}

fn circles(first: u64) -> Vec<Vec<u64>> {
    let nodes = cast(first);
    let mut found: Vec<Vec<u64>> = vec![vec![]];
    found.extend(nodes.iter().map(|a| vec![*a]));
    found.extend(nodes.iter().flat_map(|a| nodes.iter().map(move |b| vec![*a, *b])));
    let some: Vec<Vec<u64>> = found.iter().skip(1).cloned().collect();
    found.extend(some.iter().map(|few| few.iter().cycle().take(65).copied().collect()));
    found.extend(some.iter().map(|few| [&few[..], &few[..1]].concat()));
    found
}

fn words(numbers: &[u64]) -> String {
    numbers.iter().map(|number| format!(" {number}")).collect()
}

/// Lines on a ground, most of them refused in some way.
fn tries(first: u64) -> Vec<String> {
    const UNITS: [u32; 10] = [0, 1, 2, 3, 4, 5, 6, 7, 8, 255];
    let mut found = vec![];
    for unit in UNITS {
        found.extend(["D", "h"].map(|letter| format!("{letter} {unit} 3")));
        found.push(format!("h {unit} 900"));
        found.extend([-1, 1, i64::MAX, i64::MIN].map(|length| format!("G {unit} {length}")));
        found.extend(["C", "K", "k", "s", "p", "n"].map(|letter| format!("{letter} {unit}")));
        for node in cast(first) {
            found.extend([format!("E {unit} {node}"), format!("S {unit} {node} -1"), format!("i {unit} {node}")]);
        }
        for circle in circles(first) {
            found.push(format!("B {unit}{}", words(&circle)));
            found.extend(cast(first).iter().map(|touch| format!("t {unit} {}{} {touch} {touch}", circle.len(), words(&circle))));
        }
        found.extend(UNITS.iter().flat_map(|left| UNITS.iter().map(move |right| format!("F {unit} {left} {right}"))));
    }
    for node in cast(first) {
        found.extend(["v", "o", "u", "f"].map(|letter| format!("{letter} {node}")));
        found.extend([0, 1, 9].map(|room| format!("a {node} {room}")));
        found.extend([format!("x 1 {node}"), format!("x 2 {node}"), format!("q 2 {node}"), format!("c 2 {node} {node} {first} {node}")]);
    }
    found.extend(["j 3 1", "j 2 2", "j 2 1", "z 0", "l 0", "y 3"].map(String::from));
    found.push("N 0".into());
    found
}

/// Groups of the ground: 0 a growth, 1 naming a node that is gone, 2 with 128 entries, 3 empty.
fn groups(first: u64) -> Vec<String> {
    let mut found = vec!["g 0 5 1".to_string()];
    found.extend((0..128).map(|_| format!("x 2 {}", first + 1)));
    found
}

/// The recording: on each ground every line that is refused in a way, or in two at once, that no line before it was, under the numbers that apply.
/// Refused lines change nothing, so one ground serves them all; only set-up from 0 makes a bench, and comes last.
pub fn lines() -> String {
    let mut seen = Seen::default();
    let mut out = String::new();
    for (heading, first, fill, last) in GROUNDS {
        let mut start = ground(first);
        start.extend(groups(first));
        start.extend(fill.iter().flat_map(|(unit, count)| (0..*count).map(move |k| format!("D {unit} {}", 1000 * unit + k))));
        start.extend(last.map(String::from));
        let mut model = Model::new(1);
        start.iter().for_each(|line| drop(model.answer(&read(line).expect("a line"))));
        let kept: Vec<String> = tries(first).into_iter().filter(|text| worth(&mut seen, &model, text)).collect();
        out.push_str(&format!("# {heading}\n{}\n", start.join("\n")));
        kept.iter().for_each(|text| out.push_str(&format!("# {}\n{text}\n", numbers_of(&model, text))));
    }
    out
}

/// A heading, the first serial, interfaces and the defects that fill them, and what comes last.
type Ground = (&'static str, u64, &'static [(usize, usize)], Option<&'static str>);

const GROUNDS: [Ground; 5] = [
    ("room for all", 1, &[], None),
    ("interfaces 2 and 3 full", 1, &[(2, 63), (3, 59)], None),
    ("interface 3 full and a half", 1, &[(3, 59)], Some("F 7 3 4")),
    ("no serial left", WORN - 77, &[(7, 64)], None),
    ("no serial left, interface 3 full", WORN - 72, &[(3, 59)], None),
];

fn worth(seen: &mut Seen, model: &Model, text: &str) -> bool {
    let call = read(text).expect("a line");
    let numbers = applying(model, &call);
    !numbers.is_empty() && seen.see(text, &numbers)
}

fn numbers_of(model: &Model, text: &str) -> String {
    let numbers = applying(model, &read(text).expect("a line"));
    numbers.iter().map(|n| n.to_string()).collect::<Vec<_>>().join(" ")
}
