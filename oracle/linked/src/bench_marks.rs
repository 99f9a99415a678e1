//! What the modes of an interface cost: defects and blossoms made in one that fills emptied slots, beside one that uses its slots one after another. Nanoseconds of
//! a call: that of a round from a cleared interface less that of the round without the calls in question, by their number. And growths of floored trees.
use crate::bench::{once, Row};
use dual_ledger::{lent, Bench, GrowState, Handle, Verdict};
use oracle::timing::{keep, Original};

/// So many nodes in a round: an interface has no more slots.
const ROUND: usize = 60;

/// The calls of a round, on the bench as it was cleared and marked.
type Calls = fn(&mut Bench, Handle);

fn defects(bench: &mut Bench, _: Handle) {
    (0..ROUND as u32).for_each(|vertex| keep(bench.create_defect_node(0, vertex).is_ok()));
}

/// Each blossom around the one before.
fn blossoms(bench: &mut Bench, first: Handle) {
    (0..ROUND).fold(first, |inner, _| bench.create_blossom(0, &[inner], &[]).expect("a blossom of a round"));
}

/// Each blossom taken apart before the next.
fn expanded(bench: &mut Bench, first: Handle) {
    for _ in 0..ROUND {
        let blossom = bench.create_blossom(0, &[first], &[]).expect("a blossom of a round");
        keep(bench.expand_blossom(0, blossom).is_ok());
    }
}

/// Nanoseconds of a round from a clear.
fn round(fills: bool, calls: Option<Calls>) -> f64 {
    let mut bench = Bench::default();
    once(|_| {
        bench.clear(0).expect("an interface");
        if fills {
            bench.mark_filling(0).expect("a cleared interface");
        }
        let first = bench.create_defect_node(0, 1).expect("the first node of a round");
        calls.into_iter().for_each(|calls| calls(&mut bench, first));
    })
}

fn row(what: &str, fills: bool, calls: Calls) -> Row {
    let trusted = (round(fills, Some(calls)) - round(fills, None)) / ROUND as f64;
    let what = format!("{what}{}", if fills { ", filling" } else { "" });
    Row { what, nodes: ROUND, original: None, trusted, told: None, public: None }
}

/// The check of an outermost blossom that stands before everything in it but defects, as only filling lets calls make it: 32 members, each touching by the defect at
/// the bottom of the deepest of them, 32 links below. How a nest lies is noted when a blossom inside it is looked at, which here comes after all these walks.
fn blossom_first() -> Row {
    const TOP: u8 = 2;
    let made = "the bench has room";
    let mut bench = Bench::default();
    bench.mark_filling(TOP).expect("a new interface");
    let defects: Vec<Handle> = (0..33).map(|vertex| bench.create_defect_node(0, vertex).expect(made)).collect();
    bench.fuse(TOP, 0, 1).expect("a new parent");
    let first = bench.create_blossom(TOP, &defects[32..], &[]).expect(made);
    let mut members = vec![(0..32).fold(defects[0], |inner, _| bench.create_blossom(TOP, &[inner], &[]).expect(made))];
    members.extend(defects[1..32].iter().map(|node| bench.create_blossom(TOP, &[*node], &[]).expect(made)));
    bench.expand_blossom(TOP, first).expect("the first blossom");
    let around = bench.create_blossom(TOP, &members, &vec![[defects[0]; 2]; members.len()]).expect(made);
    assert_eq!((around.slot(), members.len(), bench.sanity_check(TOP)), (0, 32, Ok(Verdict::Sound)));
    let words = bench.words();
    Row {
        what: "check: blossom first".to_string(),
        nodes: bench.present_count(TOP).expect("a top") as usize,
        original: None,
        trusted: once(|_| keep(bench.sanity_check(TOP))),
        told: None,
        public: Some(once(|_| keep(lent::sanity_check(words, TOP)))),
    }
}

/// A tree of so many defects, seven interfaces for 448, all of which shrink from a great height, or none.
fn tree(new: Bench, nodes: usize, floored: bool, shrink: bool) -> (Bench, u8) {
    let mut bench = new;
    (0..7).filter(|_| floored).for_each(|unit| bench.mark_floored(unit).expect("a new interface"));
    let mut all = vec![];
    let mut fill = |bench: &mut Bench, unit: u8| {
        let left = nodes - all.len();
        all.extend((0..left.min(64) as u32).map(|vertex| bench.create_defect_node(unit, 64 * unit as u32 + vertex).expect("there is room")));
    };
    (0..4).for_each(|unit| fill(&mut bench, unit));
    for (parent, left, right) in [(4, 0, 1), (5, 2, 3), (6, 4, 5)] {
        bench.fuse(parent, left, right).expect("halves of one kind");
        fill(&mut bench, parent);
    }
    bench.grow(6, 1 << 35).expect("far from the limit");
    let state = if shrink { GrowState::Shrink } else { GrowState::Grow };
    all.iter().for_each(|node| bench.set_grow_state(6, *node, state).expect("a node of the tree"));
    (bench, 6)
}

/// One growth by 1.
fn growth(nodes: usize, floored: bool, shrink: bool) -> Row {
    let (mut bench, top) = tree(Bench::default(), nodes, floored, shrink);
    let mut words = Box::new(*bench.words());
    Row {
        what: format!("grow, {}{}", if floored { "floored" } else { "no floor" }, if shrink { ", shrinking" } else { "" }),
        nodes,
        original: None,
        trusted: once(|_| keep(bench.grow(top, 1).is_ok())),
        told: None,
        public: Some(once(|_| keep(lent::grow(&mut words, top, 1).is_ok()))),
    }
}

/// One growth by 1 in the plain engine, which touches every node.
fn plain_growth(nodes: usize) -> Row {
    let (mut bench, top) = tree(Bench::plain(1).expect("a serial"), nodes, false, false);
    let mut words = Box::new(*bench.words());
    Row {
        what: "grow, plain engine".to_string(),
        nodes,
        original: None,
        trusted: once(|_| keep(bench.grow(top, 1).is_ok())),
        told: None,
        public: Some(once(|_| keep(lent::grow(&mut words, top, 1).is_ok()))),
    }
}

/// A bench made, in either engine, beside the original's eight interfaces; on words that are lent it is the same call.
fn set_ups() -> [Row; 2] {
    let mut words = Box::new(*Bench::default().words());
    let row = |what: &str, original, trusted| Row { what: what.to_string(), nodes: 0, original, trusted, told: None, public: None };
    let lazy = once(|_| keep(lent::set_up(&mut words, 1).is_ok()));
    let plain = once(|_| keep(lent::set_up_plain(&mut words, 1).is_ok()));
    let original = once(|_| keep(Original::new(0, false, false).faces.len()));
    [row("set_up", Some(original), lazy), row("set_up, plain engine", None, plain)]
}

/// Both marks given, and asked for; the original has none.
fn marks() -> [Row; 4] {
    let mut bench = Bench::default();
    let mut words = Box::new(*bench.words());
    let row = |what: &str, trusted, public| Row { what: what.to_string(), nodes: 0, original: None, trusted, told: None, public: Some(public) };
    let filling = (once(|_| keep(bench.mark_filling(0).is_ok())), once(|_| keep(lent::mark_filling(&mut words, 0).is_ok())));
    let floored = (once(|_| keep(bench.mark_floored(0).is_ok())), once(|_| keep(lent::mark_floored(&mut words, 0).is_ok())));
    let fills = (once(|_| keep(bench.is_filling(0) == Ok(true))), once(|_| keep(lent::is_filling(&words, 0) == Ok(true))));
    let floors = (once(|_| keep(bench.is_floored(0) == Ok(true))), once(|_| keep(lent::is_floored(&words, 0) == Ok(true))));
    [
        row("mark_filling", filling.0, filling.1),
        row("mark_floored", floored.0, floored.1),
        row("is_filling", fills.0, fills.1),
        row("is_floored", floors.0, floors.1),
    ]
}

pub fn rows() -> Vec<Row> {
    let kinds: [(&str, Calls); 3] = [("defect", defects), ("blossom", blossoms), ("blossom, expand", expanded)];
    let mut rows: Vec<Row> = kinds.into_iter().flat_map(|(what, calls)| [row(what, false, calls), row(what, true, calls)]).collect();
    rows.extend(set_ups());
    rows.extend(marks());
    rows.push(blossom_first());
    for nodes in [1, 64, 448] {
        rows.extend([(false, true), (true, false), (true, true)].map(|(floored, shrink)| growth(nodes, floored, shrink)));
        rows.push(plain_growth(nodes));
    }
    rows
}
