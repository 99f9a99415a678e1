//! The pop that spares the stops, beside the model: the original has no such call. Groups are drained by it, in the form without tests and in the form on any
//! words; every obstacle must come once, the list from its end, then the stops by rising vertex, and no word may change but those that the call is about.
use crate::group_words::{decode, told, GroupWords};
use crate::ledger::{number, Ledger};
use crate::table::Table;
use dual_ledger::{Bench, Group};
use oracle::generator::plans::GROUPS;
use oracle::generator::rng::Rng;
use oracle::generator::Player;
use oracle::line::{read, Line};
use oracle::model::bench::Handle;
use oracle::model::groups::{Group as Plain, Told, MOST};
use oracle::model::Model;

/// The form on any words, which the crate does not have: number and obstacle's words.
pub fn on_any_words(words: &mut GroupWords) -> (u8, [u64; 5]) {
    extern "C" {
        fn dual_ledger_group_pop_sparing_stops(group: &mut GroupWords, obstacle: &mut [u64; 5]) -> u8;
    }
    let mut obstacle = [u64::MAX; 5];
    // SAFETY: both are lent in the lengths that the header says
    let number = unsafe { dual_ledger_group_pop_sparing_stops(words, &mut obstacle) };
    (number, obstacle)
}

/// One call on each side: the number that all give, and what was taken.
pub fn pop(group: &mut Group, plain: &mut Plain) -> Result<(i64, Option<Told>), String> {
    let (before, was) = (*group.words(), plain.clone());
    let (ours, theirs) = (group.pop_sparing_stops(), plain.pop_sparing_stops());
    let mut lent = before;
    let (lent_number, lent_obstacle) = on_any_words(&mut lent);
    let taken = ours.as_ref().ok().copied().flatten();
    if (number(&ours), taken) != (theirs.0, theirs.1.as_ref().map(told)) {
        return Err(format!("sparing pop of {was:?}: linked {ours:?}, model {theirs:?}"));
    }
    if decode(group.words()).as_ref() != Some(plain) {
        return Err(format!("sparing pop of {was:?}: linked leaves {group:?}, model {plain:?}"));
    }
    if (lent_number as i64, taken.is_some(), &lent) != (theirs.0, lent_obstacle != [0; 5], group.words()) {
        return Err(format!("sparing pop of {was:?}: on any words {lent_number} {lent_obstacle:?}, without tests {ours:?}"));
    }
    match (0..before.len()).find(|at| before[*at] != lent[*at] && !may_change(&was, *at)) {
        Some(at) => Err(format!("sparing pop of {was:?}: word {at} has changed")),
        None => Ok(theirs),
    }
}

/// The list's count while there is a list; else the stops' count, and the stops that move down.
fn may_change(was: &Plain, at: usize) -> bool {
    match was {
        Plain::Growth(..) => false,
        Plain::Conflicts { list, .. } if !list.is_empty() => at == 3,
        Plain::Conflicts { stops, .. } => at == 4 || (645..639 + 6 * stops.len()).contains(&at),
    }
}

/// Pops until there is nothing, and twice more; how many calls.
fn drain(mut group: Group, mut plain: Plain) -> Result<usize, String> {
    let mut due: Vec<Told> = match &plain {
        Plain::Growth(..) => vec![],
        Plain::Conflicts { list, stops } => list.iter().rev().chain(stops.values()).cloned().collect(),
    };
    let (growth, entries) = (matches!(plain, Plain::Growth(..)), due.len());
    due.reverse();
    for _ in 0..entries + 2 {
        let (number, taken) = pop(&mut group, &mut plain)?;
        if taken != due.pop() || (number != 0) != growth {
            return Err(format!("drained: {number} {taken:?} of {plain:?}"));
        }
    }
    Ok(entries + 2)
}

/// A bench of defects at vertices far apart, on both sides, and their names.
struct Wide {
    model: Model,
    bench: Bench,
    nodes: Vec<Handle>,
}

impl Wide {
    fn new() -> Wide {
        let (mut model, mut bench, mut nodes) = (Model::new(1), Bench::default(), vec![]);
        for at in 0..140_u64 {
            let (unit, vertex) = ((at % 3) as u8, (at * 2_654_435_761 % 4_294_967_291) as u32);
            let made = bench.create_defect_node(unit, vertex).expect("room for a defect");
            model.answer(&Line::Defect(unit as u32, vertex));
            nodes.push(model.bench.named(made.serial()));
        }
        Wide { model, bench, nodes }
    }

    /// Up to 128 entries and 128 stops, added in any order.
    fn group(&self, rng: &mut Rng) -> (Group, Plain) {
        let (mut group, mut plain) = (Group::new(), Plain::default());
        let (listed, stopped) = (rng.below(MOST + 1), rng.below(MOST + 1));
        let stops = mixed(rng, self.nodes.clone()).into_iter().take(stopped).map(|node| Told::Stop(node, None));
        let list: Vec<Told> = (0..listed).map(|_| Told::NeedExpand(self.nodes[rng.below(self.nodes.len())])).collect();
        for obstacle in mixed(rng, list.into_iter().chain(stops).collect()) {
            assert_eq!((plain.add(&self.model.bench, &obstacle), group.add(&self.bench, told(&obstacle))), (0, Ok(())));
        }
        (group, plain)
    }
}

/// The same in any order.
fn mixed<T>(rng: &mut Rng, mut all: Vec<T>) -> Vec<T> {
    (1..all.len()).rev().for_each(|at| all.swap(at, rng.below(at + 1)));
    all
}

/// Groups of the plan as they come, and large ones, each drained; so many in all.
pub fn run(seed: u64, count: usize, table: &mut Table) -> Result<(), String> {
    let (mut player, mut ledger, mut rng, wide) = (Player::new(GROUPS, seed), Ledger::new(1), Rng::new(seed ^ 0x5a4e), Wide::new());
    for turn in 0..count {
        let (group, plain) = if turn % 16 == 15 {
            wide.group(&mut rng)
        } else {
            for _ in 0..1 + rng.below(6) {
                let line = player.line();
                ledger.answer(&read(&line).expect("a line of the language"))?;
            }
            let g = rng.below(4);
            (ledger.groups[g].clone(), player.model.groups[g].clone())
        };
        let growth = matches!(plain, Plain::Growth(..));
        let calls = drain(group, plain).map_err(|why| format!("seed {seed}: {why}"))?;
        table.drained[growth as usize] += 1;
        table.spared += calls;
    }
    Ok(())
}
