//! The deepest nests: a defect in a blossom of one member, that one in another, and so on, each level one parent link. Read by all three, links and all.
//!
//! By calls, 255 links: a blossom stands in its interface or in one above it, so a nest goes up through interfaces that stand above one another. Each
//! fuse takes a second half, so that of eight interfaces four can; with 64 slots each they hold the defect and 255 blossoms.
//! By hand, 447: a sound bench may have its nodes anywhere in a tree, and seven interfaces of 64 slots are the largest (a tree has an odd number).
use crate::ledger::Ledger;
use crate::runs;
use crate::words::{encode, Words};
use dual_ledger::{Bench, Handle};
use oracle::line::{numbers, Line};
use oracle::model::bench::{self, Bench as Plain, Class, Member, Node, SLOTS};
use oracle::model::Model;

/// Links of the deepest nest that calls from set-up can make.
pub const BY_CALLS: usize = 255;
/// Links of the deepest nest in a sound bench.
pub const BY_HAND: usize = 447;

/// The lines of a nest of so many links, at most BY_CALLS: the defect has serial 1, the last blossom the next after the links.
pub fn lines(links: usize) -> Vec<String> {
    let mut lines = vec!["D 0 7".to_string()];
    for serial in 1..=links {
        let unit = serial / SLOTS * 2;
        if serial % SLOTS == 0 {
            lines.push(format!("F {unit} {} {}", unit - 2, unit - 1));
        }
        lines.push(format!("B {unit} {serial}"));
    }
    lines
}

/// The same, each blossom touching by the defect at the bottom.
pub fn deep_lines(links: usize) -> Vec<String> {
    let deep = |line: String| match line.strip_prefix("B ").and_then(|rest| rest.split_once(' ')) {
        Some((unit, member)) if member != "1" => format!("b {unit} {member} 1 1"),
        _ => line,
    };
    lines(links).into_iter().map(deep).collect()
}

fn place(at: usize) -> bench::Handle {
    bench::Handle { unit: (at % 7) as u32, slot: (at / 7) as u32, serial: at as u32 + 1 }
}

/// A sound bench whose nest of so many links goes through all of seven interfaces, from one to another at each link; each member touches by itself.
pub fn by_hand(links: usize) -> Plain {
    by_hand_touching(links, |member| member)
}

/// The same, with each member touching by what is said.
pub fn by_hand_touching(links: usize, touched: impl Fn(usize) -> usize) -> Plain {
    let mut bench = Plain::new(links as u32 + 2);
    for (parent, left, right) in [(4, 0, 1), (5, 2, 3), (6, 4, 5)] {
        bench.faces[parent].children = Some((left, right));
        (bench.faces[left].parent, bench.faces[right].parent) = (Some(parent), Some(parent));
    }
    bench.faces[6].speed = 1;
    for at in 0..=links {
        let class = match at.checked_sub(1) {
            None => Class::Defect(7),
            Some(member) => Class::Blossom(vec![Member { node: place(member), touch: [place(touched(member)); 2] }]),
        };
        let parent = Some(place(at + 1)).filter(|_| at < links);
        let node = Node { serial: at as u32 + 1, class, state: parent.is_none() as i64, parent, value: 0, size: 1 };
        bench.faces[at % 7].slots.push(Some(node));
    }
    bench
}

/// The linked ledger on words made by hand, which must pass its test.
fn ledger(words: Box<Words>) -> Result<Ledger, String> {
    let bench = Bench::from_words(&words).map_err(|why| format!("the nest made by hand is refused: {why:?}"))?;
    let handles = (0..=BY_HAND).map(place).map(|h| (h.serial, Handle::new(h.unit as u8, h.slot as u8, h.serial))).collect();
    Ok(Ledger { trusted: bench.clone(), told: bench, before: words.clone(), lent: words, handles, ..Ledger::new(1) })
}

/// How many links the model counts up from the defect.
fn deep(bench: &Plain) -> usize {
    bench.chain(bench.named(1)).len() - 1
}

/// Both nests, everything read: how many reads, or the first difference.
pub fn compare() -> Result<usize, String> {
    let (model, mut asked) = runs::agree(&lines(BY_CALLS))?;
    let bench = by_hand(BY_HAND);
    if (deep(&model.bench), deep(&bench)) != (BY_CALLS, BY_HAND) || bench.broken_rule().is_some() {
        return Err(format!("nests of {} and {} links, {:?}", deep(&model.bench), deep(&bench), bench.broken_rule()));
    }
    let mut model = Model { bench, ..Model::new(1) };
    let mut ledger = ledger(encode(&model.bench))?;
    for line in runs::reads(&model, 0) {
        let (answer, expected) = (ledger.answer(&line)?, model.answer(&line));
        if answer != expected {
            return Err(format!("{line:?}: linked {}, the manual {}", numbers(&answer), numbers(&expected)));
        }
        asked += 1;
    }
    let top = model.answer(&Line::Outer(1));
    if top != [0, BY_HAND as i64 + 1, BY_HAND as i64] {
        return Err(format!("the outermost of {BY_HAND} links is {top:?}"));
    }
    Ok(asked)
}
