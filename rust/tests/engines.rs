//! The plain engine beside the lazy one: the same answers, values that stand in the words, an engine that every call keeps.
use dual_ledger::{lent, Bench, GrowState, Handle, Refusal, Verdict};

/// A node's stored number less its offset, by the words' layout.
fn stored(bench: &Bench, node: Handle) -> i64 {
    let at = 64 * node.interface() as usize + node.slot() as usize;
    bench.words()[128 + 12 * at + 9] as i64 - (1 << 60)
}

/// The same calls on a bench: two trees that grow, fuse, grow on with a node of each kind, blossom and expand; every value after each step.
fn played(mut bench: Bench) -> (Bench, Vec<i64>) {
    let mut seen = vec![];
    let left: Vec<Handle> = (0..3).map(|vertex| bench.create_defect_node(0, vertex).unwrap()).collect();
    let right: Vec<Handle> = (3..6).map(|vertex| bench.create_defect_node(1, vertex).unwrap()).collect();
    let value = |bench: &Bench, node: &Handle| bench.get_dual_variable(*node).unwrap();
    let note = |bench: &Bench, seen: &mut Vec<i64>| seen.extend(left.iter().chain(&right).map(|node| value(bench, node)));
    bench.grow(0, 7).unwrap();
    bench.grow(1, 11).unwrap();
    note(&bench, &mut seen);
    bench.fuse(2, 0, 1).unwrap();
    bench.set_grow_state(2, right[0], GrowState::Shrink).unwrap();
    bench.set_grow_state(2, right[1], GrowState::Stay).unwrap();
    bench.grow(2, 4).unwrap();
    note(&bench, &mut seen);
    let blossom = bench.create_blossom(2, &left, &[]).unwrap();
    bench.grow(2, 2).unwrap();
    seen.push(bench.get_dual_variable(blossom).unwrap());
    bench.expand_blossom(2, blossom).unwrap();
    bench.grow(2, 1).unwrap();
    note(&bench, &mut seen);
    seen.push(bench.sum_dual_variables(2).unwrap());
    (bench, seen)
}

#[test]
fn both_engines_answer_alike() {
    let (lazy, seen) = played(Bench::default());
    let (plain, again) = played(Bench::plain(1).unwrap());
    assert_eq!(seen, again);
    assert_eq!(lazy.sanity_check(2), plain.sanity_check(2));
    assert_ne!(plain.sanity_check(2), Ok(Verdict::Sound), "what the blossom had is in the sum");
    assert!(plain.is_plain() && !lazy.is_plain() && lazy != plain);
    for (_, node) in plain.present_nodes(2).unwrap() {
        assert_eq!(stored(&plain, node), plain.get_dual_variable(node).unwrap());
    }
}

#[test]
fn the_engine_is_kept() {
    let (mut bench, _) = played(Bench::plain(9).unwrap());
    bench.clear(2).unwrap();
    assert!(bench.is_plain());
    bench.mark_floored(0).unwrap();
    bench.mark_filling(0).unwrap();
    assert!((0..8).all(|unit| bench.words()[16 * unit + 9] & 4 == 4));
    let node = bench.create_defect_node(0, 3).unwrap();
    bench.grow(0, 2).unwrap();
    bench.set_grow_state(0, node, GrowState::Shrink).unwrap();
    assert_eq!(bench.grow(0, 3), Err(Refusal::Below));
    bench.grow(0, 2).unwrap();
    assert_eq!(stored(&bench, node), 0);
}

#[test]
fn refused_and_broken() {
    assert_eq!(Bench::plain(0), Err(Refusal::Worn));
    let mut words = Box::new([7; dual_ledger::WORDS]);
    assert_eq!(lent::set_up_plain(&mut words, 0), Err(Refusal::Worn));
    assert_eq!(*words, *Bench::plain(1).unwrap().words());
    for unit in 0..8 {
        let mut mixed = words.clone();
        mixed[16 * unit + 9] ^= 4;
        assert_eq!(Bench::from_words(&mixed), Err(Refusal::Broken));
    }
    words[1] = 65;
    assert!(!lent::is_sound(&words));
}
