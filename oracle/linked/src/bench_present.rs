//! Counting and stepping through the present nodes of a bench with 448 slots of which three hold a node, beside a walk of all slots by `get_node`, the
//! original's and the linked ledger's.
use crate::bench::{once, Linked, Row};
use dual_ledger::{lent, Bench};
use oracle::line::{read, Line};
use oracle::timing::{keep, Original, Timed};
use original::pointers::RwLockPtr;

const SLOTS: usize = 64;
const TOP: u8 = 6;

/// Seven interfaces of one tree, all slots used: a defect in each of four, and blossoms around one that were made and taken apart.
fn lines() -> Vec<Line> {
    let mut lines = vec![];
    let mut next = 1;
    let blossoms = |lines: &mut Vec<String>, unit: usize, member: usize, count: usize, next: &mut usize| {
        for _ in 0..count {
            lines.extend([format!("B {unit} {member}"), format!("E {unit} {next}")]);
            *next += 1;
        }
    };
    for unit in 0..4 {
        lines.push(format!("D {unit} {unit}"));
        next += 1;
        blossoms(&mut lines, unit, next - 1, SLOTS - 1, &mut next);
    }
    for (unit, fuse, member) in [(4, "F 4 0 1", 1), (5, "F 5 2 3", 1 + 2 * SLOTS), (6, "F 6 4 5", 1)] {
        lines.push(fuse.to_string());
        blossoms(&mut lines, unit, member, SLOTS, &mut next);
    }
    lines.iter().map(|line| read(line).expect("a line of the language")).collect()
}

/// The same without the defect of interface 3, whose slot is emptied by hand: no call empties a defect's.
fn three(bench: &Bench) -> Bench {
    let mut words = *bench.words();
    let node = 128 + 12 * (SLOTS * 3) + 1;
    words[node..node + 12].fill(0);
    words[16 * 3 + 8] = 0;
    words[16 * TOP as usize + 4] -= 1;
    Bench::from_words(&words).expect("the bench with a slot emptied by hand is sound")
}

pub fn rows() -> Vec<Row> {
    let (mut theirs, mut ours) = (Original::new(2000, false, false), Linked::new(2000, false));
    for line in lines() {
        theirs.call(&line);
        ours.call(&line);
    }
    theirs.faces[3].write().nodes[0] = None;
    let face = theirs.faces[TOP as usize].clone();
    let bench = three(&ours.bench);
    let count = bench.nodes_count(TOP).expect("a top");
    let walked = || (0..count).filter(|at| bench.get_node(TOP, *at).is_ok_and(|node| node.is_some())).count();
    let original = || {
        let face = face.read_recursive();
        (0..face.nodes_count()).filter(|at| face.get_node(*at).is_some()).count()
    };
    let stepped = || bench.present_nodes(TOP).expect("a top").count();
    assert_eq!((count, walked(), original(), stepped(), bench.present_count(TOP)), (448, 3, 3, 3, Ok(3)));
    let row = |what: &str, original, trusted, public| Row { what: what.to_string(), nodes: count as usize, original, trusted, told: None, public };
    vec![
        row("3 of 448, get_node", Some(once(|_| keep(original()))), once(|_| keep(walked())), None),
        row("present_nodes", None, once(|_| keep(stepped())), None),
        row("present_count", None, once(|_| keep(bench.present_count(TOP))), Some(once(|_| keep(lent::present_count(bench.words(), TOP))))),
        row("next_present", None, once(|_| keep(bench.next_present(TOP, 1))), Some(once(|_| keep(lent::next_present(bench.words(), TOP, 1))))),
    ]
}
