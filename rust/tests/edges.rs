//! The manual's edges and worked case, by a bench's calls.
use dual_ledger::{lent, Bench, Group, GrowState, Obstacle, Refusal, Verdict};

#[test]
fn values_through_a_fuse() {
    let mut bench = Bench::default();
    let (a, b) = (bench.create_defect_node(0, 3).unwrap(), bench.create_defect_node(1, 7).unwrap());
    bench.grow(0, 4).unwrap();
    bench.grow(1, 6).unwrap();
    bench.fuse(2, 0, 1).unwrap();
    bench.grow(2, 5).unwrap();
    assert_eq!((bench.get_dual_variable(a), bench.get_dual_variable(b)), (Ok(9), Ok(11)));
    assert_eq!((bench.sum_grow_speed(2), bench.sum_dual_variables(2)), (Ok(2), Ok(20)));
    assert_eq!(bench.create_defect_node(0, 5), Err(Refusal::Child));
}

#[test]
fn limits() {
    let mut bench = Bench::default();
    assert_eq!(bench.grow(0, 1 << 40), Ok(()));
    assert_eq!(bench.grow(0, 1), Err(Refusal::Length));
    assert_eq!(bench.grow(1, -1), Err(Refusal::Length));
    assert!((0..64).all(|vertex| bench.create_defect_node(2, vertex).is_ok()));
    assert_eq!(bench.create_defect_node(2, 64), Err(Refusal::Full));
    assert_eq!(bench.create_defect_node(8, 0), Err(Refusal::Unit));
    assert_eq!(Bench::new(0), Err(Refusal::Worn));
    let mut last = Bench::new(u32::MAX).unwrap();
    assert_eq!(last.create_defect_node(0, 1).unwrap().serial(), u32::MAX);
    assert_eq!(last.create_defect_node(0, 2), Err(Refusal::Worn));
}

#[test]
fn refused_calls_change_nothing() {
    let mut bench = Bench::default();
    let a = bench.create_defect_node(0, 3).unwrap();
    let before = bench.clone();
    assert_eq!(bench.create_blossom(0, &[a, a], &[]), Err(Refusal::Twice));
    assert_eq!(bench.create_blossom(0, &[], &[]), Err(Refusal::Circle));
    assert_eq!(bench.create_blossom(0, &[a], &[[a, a], [a, a]]), Err(Refusal::Touch));
    assert_eq!(bench.expand_blossom(0, a), Err(Refusal::Kind));
    assert_eq!(bench.set_grow_state(1, a, GrowState::Stay), Err(Refusal::Foreign));
    assert_eq!(bench.fuse(1, 1, 0), Err(Refusal::Pair));
    assert_eq!(bench, before);
    bench.clear(0).unwrap();
    assert_eq!(bench.get_dual_variable(a), Err(Refusal::Stale));
}

#[test]
fn the_worked_case() {
    let mut bench = Bench::default();
    let nodes = [3, 8, 9].map(|vertex| bench.create_defect_node(0, vertex).unwrap());
    bench.grow(0, 5).unwrap();
    let blossom = bench.create_blossom(0, &nodes, &[]).unwrap();
    assert_eq!((blossom.interface(), blossom.slot(), blossom.serial()), (0, 3, 4));
    assert_eq!(bench.get_all_vertices(blossom), Ok(vec![3, 8, 9]));
    assert_eq!(bench.ancestor_and_links(nodes[1]), Ok((blossom, 1)));
    assert_eq!(bench.get_secondary_ancestor_blossom(nodes[1]), Ok(nodes[1]));
    assert_eq!(bench.get_secondary_ancestor_blossom(blossom), Err(Refusal::Top));
    assert_eq!(bench.get_representative_vertex(blossom), Ok(3));
    assert_eq!(bench.get_all_vertices_into(blossom, &mut [0; 2]), Err(Refusal::Small));
    bench.grow(0, 2).unwrap();
    bench.set_grow_state(0, blossom, GrowState::Shrink).unwrap();
    bench.grow(0, 1).unwrap();
    assert_eq!(bench.strict_check(0), Ok(Verdict::Sound));
    bench.expand_blossom(0, blossom).unwrap();
    assert_eq!((bench.sum_grow_speed(0), bench.sum_dual_variables(0)), (Ok(3), Ok(16)));
    assert_eq!(bench.sanity_check(0), Ok(Verdict::SumDiffers));
    assert_eq!((bench.nodes_count(0), bench.get_node(0, 3), bench.get_node(0, 4)), (Ok(4), Ok(None), Err(Refusal::Range)));
    assert_eq!((bench.check_ptr_belonging(0, nodes[0]), bench.check_ptr_belonging(0, blossom)), (Ok(true), Ok(false)));
    assert_eq!((bench.present_count(0), bench.next_present(0, 1), bench.next_present(0, 3)), (Ok(3), Ok(Some((1, nodes[1]))), Ok(None)));
    assert_eq!(
        (bench.next_present(0, 4), bench.next_present(8, 0), bench.present_count(8)),
        (Err(Refusal::Range), Err(Refusal::Unit), Err(Refusal::Unit))
    );
}

#[test]
fn present_nodes_across_both_halves() {
    let mut bench = Bench::default();
    let a = bench.create_defect_node(0, 1).unwrap();
    let gone = bench.create_blossom(0, &[a], &[]).unwrap();
    let b = bench.create_defect_node(1, 2).unwrap();
    bench.expand_blossom(0, gone).unwrap();
    bench.fuse(2, 0, 1).unwrap();
    let c = bench.create_defect_node(2, 3).unwrap();
    assert_eq!((bench.nodes_count(2), bench.present_count(2), bench.present_count(0)), (Ok(4), Ok(3), Err(Refusal::Child)));
    let nodes = bench.present_nodes(2).unwrap();
    assert_eq!((nodes.len(), nodes.collect::<Vec<_>>()), (3, vec![(0, a), (2, b), (3, c)]));
    assert_eq!((bench.next_present(2, 1), bench.present_nodes(7).unwrap().next()), (Ok(Some((2, b))), None));
    bench.clear(2).unwrap();
    assert_eq!((bench.present_count(2), bench.next_present(2, 0)), (Ok(0), Err(Refusal::Range)));
}

/// A bench as it was written before there was a map: nodes, and a map of 0.
#[test]
fn words_without_a_map_are_broken() {
    let mut bench = Bench::default();
    bench.create_defect_node(3, 1).unwrap();
    let mut words = *bench.words();
    assert_eq!((words[16 * 3 + 8], Bench::from_words(&words).is_ok()), (1, true));
    for map in [0, 2, 3, 1 << 63 | 1] {
        words[16 * 3 + 8] = map;
        assert!(Bench::from_words(&words).is_err() && !dual_ledger::lent::is_sound(&words));
        assert_eq!(dual_ledger::lent::present_count(&words, 3), Err(Refusal::Broken));
        assert_eq!(dual_ledger::lent::next_present(&words, 3, 0), Err(Refusal::Broken));
    }
}

/// The lowest empty slot, older handles, a blossom before its member, FULL at 64 present, a used count that does not fall.
#[test]
fn emptied_slots_are_filled() {
    let mut bench = Bench::default();
    bench.mark_filling(0).unwrap();
    assert_eq!((bench.is_filling(0), bench.is_filling(1), bench.is_filling(8)), (Ok(true), Ok(false), Err(Refusal::Unit)));
    let a = bench.create_defect_node(0, 1).unwrap();
    let over = bench.create_blossom(0, &[a], &[]).unwrap();
    let b = bench.create_defect_node(0, 2).unwrap();
    bench.expand_blossom(0, over).unwrap();
    assert_eq!((bench.nodes_count(0), bench.present_count(0), bench.get_node(0, 1)), (Ok(3), Ok(2), Ok(None)));
    let mut around = bench.create_blossom(0, &[b], &[]).unwrap();
    assert_eq!((around.slot(), around.serial(), bench.nodes_count(0), b.slot()), (1, 4, Ok(3), 2));
    assert_eq!((bench.get_dual_variable(over), bench.check_ptr_belonging(0, over)), (Err(Refusal::Stale), Ok(false)));
    assert_eq!((bench.get_node(0, 1), bench.get_all_vertices(around), bench.strict_check(0)), (Ok(Some(around)), Ok(vec![2]), Ok(Verdict::Sound)));
    assert!((0..61).all(|vertex| bench.create_defect_node(0, 100 + vertex).is_ok()));
    for turn in 0..300 {
        assert_eq!((bench.create_defect_node(0, 9), bench.create_blossom(0, &[a], &[])), (Err(Refusal::Full), Err(Refusal::Full)), "{turn}");
        bench.expand_blossom(0, around).unwrap();
        let went = std::mem::replace(&mut around, bench.create_blossom(0, &[b], &[]).unwrap());
        assert_eq!((around.slot(), around.serial(), bench.get_dual_variable(went)), (1, 66 + turn, Err(Refusal::Stale)));
    }
    assert_eq!((bench.present_count(0), bench.nodes_count(0)), (Ok(64), Ok(64)));
    assert_eq!(Bench::from_words(bench.words()).unwrap(), bench);
    bench.clear(0).unwrap();
    assert_eq!((bench.is_filling(0), bench.words()[9]), (Ok(false), 0));
}

#[test]
fn marked_late() {
    let mut bench = Bench::default();
    let a = bench.create_defect_node(0, 1).unwrap();
    let before = bench.clone();
    assert_eq!((bench.mark_filling(0), bench.mark_filling(8)), (Err(Refusal::Mark), Err(Refusal::Unit)));
    assert_eq!(bench, before);
    // progress does not hinder, twice is as once, a parent may be marked before its fuse, and the mode is each one's own
    bench.grow(1, 5).unwrap();
    bench.mark_filling(1).unwrap();
    bench.mark_filling(2).unwrap();
    let marked = bench.clone();
    bench.mark_filling(2).unwrap();
    assert_eq!(bench, marked);
    bench.fuse(2, 0, 1).unwrap();
    assert_eq!((bench.mark_filling(2), bench.mark_filling(1), bench.is_filling(1)), (Err(Refusal::Mark), Err(Refusal::Child), Err(Refusal::Child)));
    assert_eq!((bench.is_filling(2), bench.words()[9], bench.words()[16 + 9]), (Ok(true), 0, 1));
    let over = bench.create_blossom(2, &[a], &[]).unwrap();
    bench.expand_blossom(2, over).unwrap();
    assert_eq!(bench.create_defect_node(2, 2).map(|node| node.slot()), Ok(0));
    bench.clear(2).unwrap();
    assert!((0..3).all(|unit| bench.is_filling(unit) == Ok(false)));
    // words from elsewhere
    let mut words = *Bench::default().words();
    lent::mark_filling(&mut words, 3).unwrap();
    assert_eq!((lent::is_filling(&words, 3), words[16 * 3 + 9]), (Ok(true), 1));
    for stray in [4, 5, 1 << 63, u64::MAX] {
        words[16 * 3 + 9] = stray;
        assert!(!lent::is_sound(&words));
        assert_eq!((lent::is_filling(&words, 3), lent::mark_filling(&mut words, 3)), (Err(Refusal::Broken), Err(Refusal::Broken)));
    }
}

/// Down to zero and no further, in the interface and in a tree; what the floor does not speak of.
#[test]
fn no_value_below_zero() {
    let mut bench = Bench::default();
    bench.mark_floored(0).unwrap();
    bench.mark_floored(1).unwrap();
    assert_eq!((bench.is_floored(0), bench.is_floored(2), bench.is_floored(8)), (Ok(true), Ok(false), Err(Refusal::Unit)));
    let [a, b] = [1, 2].map(|vertex| bench.create_defect_node(0, vertex).unwrap());
    let far = bench.create_defect_node(1, 3).unwrap();
    bench.grow(0, 5).unwrap();
    bench.grow(1, 3).unwrap();
    bench.set_grow_state(0, a, GrowState::Shrink).unwrap();
    let before = bench.clone();
    assert_eq!((bench.grow(0, 6), bench.grow(0, 1 << 40), bench.grow(0, -1)), (Err(Refusal::Below), Err(Refusal::Length), Err(Refusal::Length)));
    assert_eq!((bench.grow(0, (1 << 40) - 5), bench == before), (Err(Refusal::Below), true));
    bench.grow(0, 5).unwrap();
    assert_eq!((bench.get_dual_variable(a), bench.grow(0, 1), bench.grow(0, 0)), (Ok(0), Err(Refusal::Below), Ok(())));
    // in a tree every shrinking node counts; a parent is as its halves are
    bench.fuse(2, 0, 1).unwrap();
    assert_eq!((bench.is_floored(2), bench.is_floored(0)), (Ok(true), Err(Refusal::Child)));
    bench.set_grow_state(2, a, GrowState::Grow).unwrap();
    bench.set_grow_state(2, far, GrowState::Shrink).unwrap();
    assert_eq!((bench.grow(2, 4), bench.grow(2, 3), bench.get_dual_variable(far)), (Err(Refusal::Below), Ok(()), Ok(0)));
    // inside a blossom it stays, and the blossom has a value of its own; an expansion leaves it in the sum
    let over = bench.create_blossom(2, &[far, b], &[]).unwrap();
    bench.grow(2, 2).unwrap();
    bench.set_grow_state(2, over, GrowState::Shrink).unwrap();
    assert_eq!((bench.grow(2, 3), bench.grow(2, 1), bench.expand_blossom(2, over)), (Err(Refusal::Below), Ok(()), Ok(())));
    assert_eq!((bench.sanity_check(2), bench.grow(2, 100)), (Ok(Verdict::SumDiffers), Ok(())));
    assert_eq!(Bench::from_words(bench.words()).unwrap(), bench);
    bench.clear(2).unwrap();
    assert!((0..3).all(|unit| bench.is_floored(unit) == Ok(false) && bench.words()[16 * unit as usize + 9] == 0));
}

#[test]
fn floored_late_or_by_halves() {
    let mut bench = Bench::default();
    bench.create_defect_node(0, 1).unwrap();
    bench.grow(1, 5).unwrap();
    bench.mark_floored(1).unwrap();
    bench.mark_floored(1).unwrap();
    bench.mark_floored(3).unwrap();
    let before = bench.clone();
    assert_eq!((bench.mark_floored(0), bench.mark_floored(8)), (Err(Refusal::Mark), Err(Refusal::Unit)));
    assert_eq!((bench.fuse(2, 0, 1), bench.fuse(2, 1, 0), bench.fuse(1, 0, 1)), (Err(Refusal::Mark), Err(Refusal::Mark), Err(Refusal::Pair)));
    assert_eq!(bench, before);
    // a floored parent over halves that are not: the floor goes, the other mark stays
    bench.mark_filling(3).unwrap();
    bench.fuse(3, 0, 2).unwrap();
    assert_eq!((bench.is_floored(3), bench.is_filling(3), bench.mark_floored(3)), (Ok(false), Ok(true), Err(Refusal::Mark)));
    assert_eq!((bench.mark_floored(0), bench.is_floored(0)), (Err(Refusal::Child), Err(Refusal::Child)));
    // by hand: a floor in one half only, and a value below it
    let mut words = *bench.words();
    words[9] = 2;
    assert_eq!((Bench::from_words(&words), lent::is_floored(&words, 3)), (Err(Refusal::Broken), Err(Refusal::Broken)));
    let mut bench = Bench::default();
    bench.mark_floored(0).unwrap();
    bench.create_defect_node(0, 1).unwrap();
    bench.grow(0, 7).unwrap();
    let mut words = *bench.words();
    for (less, is_sound) in [(0, true), (7, true), (8, false), (14, false)] {
        words[128 + 9] = (1 << 60) - less; // the bias: a value of 7 less so many
        assert_eq!(lent::is_sound(&words), is_sound, "{less}");
        assert_eq!(lent::grow(&mut words.clone(), 0, 0).is_ok(), is_sound, "{less}");
    }
}

#[test]
fn under_means_under() {
    let mut bench = Bench::default();
    let [a, b] = [1, 2].map(|vertex| bench.create_defect_node(0, vertex).unwrap());
    let [over_a, over_b] = [a, b].map(|node| bench.create_blossom(0, &[node], &[]).unwrap());
    let both = bench.create_blossom(0, &[over_a, over_b], &[[a, over_a], [a, over_b]]).unwrap();
    assert_eq!((bench.sanity_check(0), bench.strict_check(0)), (Ok(Verdict::Sound), Ok(Verdict::NotUnder(3))));
    bench.expand_blossom(0, both).unwrap();
    bench.create_blossom(0, &[over_a, over_b], &[[a, over_a], [b, over_b]]).unwrap();
    assert_eq!(bench.strict_check(0), Ok(Verdict::Sound));
}

/// A member's own parent is no node that a call can name, so it is written into the words: word 128 + 12 k + 7 is the first touching node of the node at position k.
#[test]
fn the_parent_is_not_under() {
    let mut bench = Bench::default();
    let a = bench.create_defect_node(0, 1).unwrap();
    let over = bench.create_blossom(0, &[a], &[]).unwrap();
    let around = bench.create_blossom(0, &[over], &[]).unwrap();
    assert_eq!(bench.strict_check(0), Ok(Verdict::Sound));
    let mut words = *bench.words();
    words[128 + 12 + 7] = (u64::from(around.serial()) * 64 + 2) * 8;
    let bench = Bench::from_words(&words).unwrap();
    assert_eq!((bench.sanity_check(0), bench.strict_check(0)), (Ok(Verdict::Sound), Ok(Verdict::NotUnder(1))));
}

#[test]
fn words_there_and_back() {
    let mut bench = Bench::new(7).unwrap();
    bench.create_defect_node(3, 1).unwrap();
    assert_eq!(Bench::from_words(bench.words()).unwrap(), bench);
    let mut words = *bench.words();
    words[1] = 65;
    assert_eq!(Bench::from_words(&words), Err(Refusal::Broken));
}

#[test]
fn groups() {
    let mut bench = Bench::default();
    let nodes: Vec<_> = (0..6).map(|vertex| bench.create_defect_node(0, 4 + vertex).unwrap()).collect();
    let mut group = Group::new();
    assert!(group.is_empty() && !group.is_active());
    assert_eq!(group.get_none_zero_growth(), Err(Refusal::Nothing));
    assert_eq!(group.pop(), Err(Refusal::Kind));

    // (5, yes) extended by (5, no) is (5, no); by the largest, nothing
    group.add(&bench, Obstacle::NonZeroGrow(5, true)).unwrap();
    let mut other = Group::new();
    other.add(&bench, Obstacle::NonZeroGrow(5, false)).unwrap();
    group.extend(&bench, &other).unwrap();
    assert_eq!(group.growth(), Some((5, false)));
    group.extend(&bench, &Group::new()).unwrap();
    assert_eq!(group.growth(), Some((5, false)));

    // a pop takes the last of the list and the lowest stop
    let (c1, c2) = (Obstacle::BlossomNeedExpand(nodes[1]), Obstacle::BlossomNeedExpand(nodes[2]));
    for obstacle in [c1, c2, Obstacle::VertexShrinkStop(nodes[0], None), Obstacle::VertexShrinkStop(nodes[5], None)] {
        group.add(&bench, obstacle).unwrap();
    }
    assert_eq!(group.stops().map(|(vertex, _)| vertex).collect::<Vec<_>>(), [4, 9]);
    assert_eq!(group.peek(), Ok(Some(c2)));
    assert_eq!([group.pop(), group.pop(), group.pop()], [Ok(Some(c2)), Ok(Some(c1)), Ok(None)]);
    assert_eq!(Group::from_words(group.words()).unwrap(), group);
    assert_eq!(Group::from_words(&[9; dual_ledger::GROUP_WORDS]), Err(Refusal::Broken));
}

/// The pop that spares the stops: list from the end, then stops by rising vertex, each once; beside it the other pop, which loses stops.
#[test]
fn stops_are_spared() {
    let mut bench = Bench::default();
    let nodes: Vec<_> = (0..6).map(|vertex| bench.create_defect_node(0, 9 - vertex).unwrap()).collect();
    let listed = [0, 3, 5].map(|at| Obstacle::BlossomNeedExpand(nodes[at]));
    let stops = [5, 2, 1, 0].map(|at| Obstacle::VertexShrinkStop(nodes[at], None)); // by rising vertex
    let mut group = Group::new();
    assert_eq!(group.pop_sparing_stops(), Err(Refusal::Kind));
    assert_eq!((group.drain_sparing_stops().count(), group.is_empty()), (0, true));
    for obstacle in [stops[2], listed[0], stops[0], listed[1], stops[3], listed[2], stops[1]] {
        group.add(&bench, obstacle).unwrap();
    }
    let all: Vec<_> = listed.iter().rev().chain(&stops).copied().collect();
    let (mut drained, mut other) = (group.clone(), group.clone());
    assert_eq!(drained.drain_sparing_stops().collect::<Vec<_>>(), all);
    assert_eq!((drained.pop_sparing_stops(), drained.peek(), drained.is_active()), (Ok(None), Ok(None), true));
    assert_eq!(std::iter::from_fn(|| other.pop().unwrap()).collect::<Vec<_>>(), [&all[..3], &all[6..]].concat(), "three stops are lost");

    // a drain that is not finished leaves the rest; where the list is empty both pops agree
    assert_eq!(group.drain_sparing_stops().take(2).collect::<Vec<_>>(), all[..2]);
    assert_eq!((group.list().count(), group.stops().count()), (1, 4));
    assert_eq!((group.peek(), group.pop_sparing_stops()), (Ok(Some(all[2])), Ok(Some(all[2]))));
    other = group.clone();
    assert_eq!((group.pop_sparing_stops(), other.pop()), (Ok(Some(all[3])), Ok(Some(all[3]))));
    assert_eq!(group.words(), other.words());
}

/// What stands past the counts says nothing: not in `==`, and not where words come from elsewhere.
#[test]
fn leftovers_of_groups_say_nothing() {
    let mut bench = Bench::default();
    let nodes = [bench.create_defect_node(0, 1).unwrap(), bench.create_defect_node(0, 2).unwrap()];
    let [mut one, mut two] = nodes.map(|node| {
        let mut group = Group::new();
        group.add(&bench, Obstacle::BlossomNeedExpand(node)).unwrap();
        group
    });
    assert_ne!(one, two);
    assert!(one.pop().is_ok() && two.pop().is_ok());
    assert_eq!(one, two);
    assert_ne!(one, Group::new());

    let mut words = [u64::MAX; dual_ledger::GROUP_WORDS];
    words[..3].copy_from_slice(&[1, 5, 0]);
    let growth = Group::from_words(&words).unwrap();
    assert_eq!(growth.growth(), Some((5, false)));
    words[..5].copy_from_slice(&[2, 0, 0, 1, 0]);
    words[5..10].copy_from_slice(&[4, u64::MAX, 0, 0, 0]);
    let mut far = Group::from_words(&words).unwrap();
    words[6] = 1 << 41;
    assert_eq!(Group::from_words(&words).unwrap(), far, "words that name no node are one");
    assert_eq!(one.extend(&bench, &far), Err(Refusal::Stale));
    far.extend(&bench, &growth).unwrap();
    assert_eq!(far.list().count(), 1);
}

#[test]
fn benches_and_groups_go_between_threads() {
    fn goes<T: Send + Sync>() {}
    goes::<Bench>();
    goes::<Group>();
    let bench = Bench::default();
    std::thread::scope(|scope| {
        scope.spawn(|| assert_eq!(bench.nodes_count(0), Ok(0)));
        scope.spawn(|| assert_eq!(bench.sum_dual_variables(7), Ok(0)));
    });
}

#[test]
fn every_refusal_has_its_number_and_name() {
    for refusal in Refusal::ALL {
        assert_eq!(Refusal::from_number(refusal.number()), Some(refusal));
        assert!(refusal.to_string().starts_with(&format!("{} ({})", refusal.name(), refusal.number())));
    }
    assert!(Refusal::ALL.windows(2).all(|two| two[0].number() < two[1].number()));
    assert_eq!((Refusal::from_number(0), Refusal::from_number(29)), (None, None));
}

#[test]
fn states_that_cannot_both_go_on() {
    use GrowState::{Grow, Shrink, Stay};
    let against = [(Grow, Grow), (Grow, Stay), (Stay, Grow)];
    for a in [Grow, Stay, Shrink] {
        for b in [Grow, Stay, Shrink] {
            assert_eq!(a.is_against(b), against.contains(&(a, b)), "{a:?} {b:?}");
        }
    }
}
