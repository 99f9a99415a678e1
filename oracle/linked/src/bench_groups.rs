//! The benchmark's rows of groups, both sides in one run: a growth, conflicts and stops added and taken, one group extended by another, and the question
//! that a decoder asks at every step. Nanoseconds of a call.
use crate::bench::{full, once, Linked, Row};
use dual_ledger::{Group, Obstacle};
use oracle::timing::{keep, Original, Timed};
use original::dual_module::{DualNodePtr, GroupMaxUpdateLength, MaxUpdateLength};
use std::hint::black_box;

const NODES: usize = 60;

/// Both sides with the same nodes, and a row over so many calls.
struct Sides {
    theirs: Vec<DualNodePtr>,
    ours: Linked,
}

impl Sides {
    fn new() -> Sides {
        let (lines, _) = full(NODES);
        let (mut theirs, mut ours) = (Original::new(1000, false, false), Linked::new(1000, false));
        lines.iter().for_each(|line| {
            theirs.call(line);
            ours.call(line)
        });
        Sides { theirs: theirs.nodes.into_iter().flatten().collect(), ours }
    }

    fn conflict(&self, at: usize) -> (MaxUpdateLength, Obstacle) {
        let (a, b) = (4 * at % 52, 4 * at % 52 + 1);
        let node = |at: usize| self.theirs[at].clone();
        let hand = |at: usize| self.ours.nodes[at + 1];
        (MaxUpdateLength::Conflicting((node(a), node(a)), (node(b), node(b))), Obstacle::Conflicting((hand(a), hand(a)), (hand(b), hand(b))))
    }

    fn stop(&self, at: usize) -> (MaxUpdateLength, Obstacle) {
        let a = 4 * (at * 5 % 13);
        let (node, hand) = (self.theirs[a].clone(), self.ours.nodes[a + 1]);
        (MaxUpdateLength::VertexShrinkStop((node, None)), Obstacle::VertexShrinkStop(hand, None))
    }
}

fn row(what: &str, calls: usize, original: f64, trusted: f64) -> Row {
    let each = |time: f64| time / calls as f64;
    Row { what: what.to_string(), nodes: NODES, original: Some(each(original)), trusted: each(trusted), told: None, public: None }
}

/// So many obstacles added to a new group and taken out again.
fn taken(sides: &Sides, what: &str, all: Vec<(MaxUpdateLength, Obstacle)>) -> Row {
    let (theirs, ours): (Vec<_>, Vec<_>) = all.into_iter().unzip();
    let bench = &sides.ours.bench;
    let original = once(|_| {
        let mut group = GroupMaxUpdateLength::new();
        theirs.iter().for_each(|o| group.add(o.clone()));
        theirs.iter().for_each(|_| keep(group.pop().is_some()));
    });
    let trusted = once(|_| {
        let mut group = Group::new();
        ours.iter().for_each(|o| keep(group.add(bench, *o).is_ok()));
        ours.iter().for_each(|_| keep(group.pop().is_ok()));
    });
    row(what, 2 * ours.len(), original, trusted)
}

/// The same, taken out by the pop that spares the stops, which the original has not: with list and stops together it takes twice as many calls as the other.
fn spared(sides: &Sides, what: &str, all: Vec<(MaxUpdateLength, Obstacle)>) -> Row {
    let (bench, ours): (_, Vec<_>) = (&sides.ours.bench, all.into_iter().map(|(_, o)| o).collect());
    let trusted = once(|_| {
        let mut group = Group::new();
        ours.iter().for_each(|o| keep(group.add(bench, *o).is_ok()));
        ours.iter().for_each(|_| keep(group.pop_sparing_stops().is_ok()));
    });
    Row { original: None, ..row(what, 2 * ours.len(), 0.0, trusted) }
}

fn growths(sides: &Sides) -> Row {
    let bench = &sides.ours.bench;
    let original = once(|_| {
        let mut group = GroupMaxUpdateLength::new();
        (0..20).for_each(|at| group.add(MaxUpdateLength::NonZeroGrow((black_box(100 - at), false))));
        keep(group.get_none_zero_growth());
    });
    let trusted = once(|_| {
        let mut group = Group::new();
        (0..20).for_each(|at| keep(group.add(bench, Obstacle::NonZeroGrow(black_box(100 - at), false)).is_ok()));
        keep(group.get_none_zero_growth());
    });
    row("group: growths", 21, original, trusted)
}

/// A group extended by another that is made each time, as a decoder's is.
fn extended(sides: &Sides, what: &str, all: &[(MaxUpdateLength, Obstacle)]) -> Row {
    let bench = &sides.ours.bench;
    let original = once(|_| {
        let (mut group, mut other) = (GroupMaxUpdateLength::new(), GroupMaxUpdateLength::new());
        all.iter().for_each(|(o, _)| {
            group.add(o.clone());
            other.add(o.clone())
        });
        group.extend(other);
        keep(group.is_empty());
    });
    let trusted = once(|_| {
        let (mut group, mut other) = (Group::new(), Group::new());
        all.iter().for_each(|(_, o)| {
            keep(group.add(bench, *o).is_ok());
            keep(other.add(bench, *o).is_ok())
        });
        keep(group.extend(bench, &other).is_ok());
        keep(group.is_empty());
    });
    row(what, 2 * all.len() + 2, original, trusted)
}

fn is_empty() -> Row {
    let (theirs, ours) = (GroupMaxUpdateLength::new(), Group::new());
    row("group: is_empty", 1, once(|_| keep(theirs.is_empty())), once(|_| keep(ours.is_empty())))
}

pub fn rows() -> Vec<Row> {
    let sides = Sides::new();
    let growth = [(MaxUpdateLength::NonZeroGrow((5, false)), Obstacle::NonZeroGrow(5, false))];
    let both: Vec<_> = (0..8).flat_map(|at| [sides.conflict(at), sides.stop(at)]).collect();
    vec![
        growths(&sides),
        taken(&sides, "group: conflicts", (0..8).map(|at| sides.conflict(at)).collect()),
        taken(&sides, "group: stops", (0..8).map(|at| sides.stop(at)).collect()),
        taken(&sides, "group: both", both.clone()),
        spared(&sides, "group: both, sparing", both.clone()),
        extended(&sides, "group: extend", &growth),
        extended(&sides, "group: extend 8", &both),
        is_empty(),
    ]
}
