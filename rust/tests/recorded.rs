//! Growing against a recording: beside the steps made one by one, told to a module, refused at each position, and on words from anywhere.
use dual_ledger::{lent, Bench, DualModule, Group, GroupWords, GrowState, Obstacle, Refusal, GROUP_WORDS};

/// A growth of a length.
fn growth(length: i64) -> GroupWords {
    let mut group = Group::new();
    group.add(&Bench::default(), Obstacle::NonZeroGrow(length, false)).unwrap();
    *group.words()
}

fn growths(lengths: &[i64]) -> Vec<GroupWords> {
    lengths.iter().map(|length| growth(*length)).collect()
}

/// Conflicts of a node.
fn conflicts(bench: &Bench) -> GroupWords {
    let node = bench.next_present(0, 0).unwrap().unwrap().1;
    let mut group = Group::new();
    group.add(bench, Obstacle::BlossomNeedExpand(node)).unwrap();
    *group.words()
}

/// Three nodes in interface 0, of which the last shrinks from 10.
fn three() -> Bench {
    let mut bench = Bench::default();
    let nodes = [3, 5, 8].map(|vertex| bench.create_defect_node(0, vertex).unwrap());
    bench.grow(0, 10).unwrap();
    bench.set_grow_state(0, nodes[2], GrowState::Shrink).unwrap();
    bench
}

/// Refused on both forms, with nothing changed.
fn refused(bench: &Bench, interface: u8, length: i64, groups: &[GroupWords], why: Refusal) {
    let (mut tried, mut words, mut lengths) = (bench.clone(), *bench.words(), vec![7; groups.len()]);
    assert_eq!(tried.grow_recorded(interface, length, groups), Err(why));
    assert_eq!(tried.grow_recorded_into(interface, length, groups, &mut lengths), Err(why));
    assert_eq!(lent::grow_recorded(&mut words, interface, length, &groups.concat(), &mut lengths), Err(why));
    assert!(tried == *bench && words == *bench.words() && lengths.iter().all(|length| *length == 7));
}

#[test]
fn the_steps_one_by_one_and_one_growth_leave_the_same() {
    let (mut recorded, mut stepped, mut whole) = (three(), three(), three());
    let steps = recorded.grow_recorded(0, 11, &growths(&[4, 1, 5, 9])).unwrap();
    assert_eq!(steps, [4, 1, 5, 1]);
    steps.iter().for_each(|step| stepped.grow(0, *step as i64).unwrap());
    whole.grow(0, 11).unwrap();
    assert!(recorded == stepped && recorded == whole);
}

#[test]
fn a_slice_is_written_at_its_front_and_the_groups_stay() {
    let groups = growths(&[4, 3, 5]);
    let (mut bench, mut lengths, before) = (three(), [7; 5], groups.clone());
    assert_eq!(bench.grow_recorded_into(0, 7, &groups, &mut lengths), Ok(2));
    assert_eq!((lengths, groups == before), ([4, 3, 7, 7, 7], true));
    let mut words = *three().words();
    assert_eq!(lent::grow_recorded(&mut words, 0, 7, &groups.concat(), &mut lengths), Ok(2));
    assert_eq!(&words, bench.words());
    assert_eq!(bench.grow_recorded_into(0, 7, &groups, &mut lengths[..2]), Err(Refusal::Small));
    assert_eq!((bench.words() == &words, lengths), (true, [4, 3, 7, 7, 7]));
}

#[test]
fn length_0_takes_no_group() {
    let mut bench = three();
    assert_eq!(bench.grow_recorded(0, 0, &[]), Ok(vec![]));
    assert_eq!(bench.grow_recorded(0, 0, &growths(&[0])), Ok(vec![]));
    assert!(bench == three());
}

#[test]
fn each_refusal_at_the_lowest_position() {
    let (bench, stuck) = (three(), conflicts(&three()));
    let mut broken = growth(4);
    broken[2] = 2;
    let first = |second: GroupWords| vec![growth(4), second];
    refused(&bench, 8, -1, &[broken], Refusal::Unit);
    refused(&bench, 0, -1, &[broken], Refusal::Length);
    refused(&bench, 0, 5, &first(broken), Refusal::Broken);
    refused(&bench, 0, 5, &first(*Group::new().words()), Refusal::Nothing);
    refused(&bench, 0, 5, &first(stuck), Refusal::Stuck);
    refused(&bench, 0, 5, &first(growth(0)), Refusal::Stuck);
    refused(&bench, 0, 5, &first(growth(-3)), Refusal::Stuck);
    refused(&bench, 0, 5, &[growth(4)], Refusal::Short);
    refused(&bench, 0, 1 << 40, &first(growth(1 << 40)), Refusal::Length);
    refused(&bench, 0, 1 << 40, &[growth(4), stuck, growth(1 << 40)], Refusal::Stuck);
    refused(&bench, 0, i64::MAX, &[growth(i64::MAX - 1)], Refusal::Length);
    let mut fused = three();
    fused.fuse(2, 0, 1).unwrap();
    refused(&fused, 0, 1, &[broken], Refusal::Child);
    assert_eq!(bench.clone().grow_recorded(0, 4, &first(broken)), Ok(vec![4]), "what is not reached is not tested");
}

#[test]
fn a_floor_stops_the_step_that_would_pass_it() {
    let mut bench = Bench::default();
    bench.mark_floored(0).unwrap();
    let node = bench.create_defect_node(0, 3).unwrap();
    bench.grow(0, 5).unwrap();
    bench.set_grow_state(0, node, GrowState::Shrink).unwrap();
    refused(&bench, 0, 6, &growths(&[3, 3]), Refusal::Below);
    refused(&bench, 0, 6, &growths(&[3, 0]), Refusal::Stuck);
    refused(&bench, 0, 6, &growths(&[3, 2]), Refusal::Short);
    assert_eq!(bench.grow_recorded(0, 5, &growths(&[3, 3])), Ok(vec![3, 2]));
    assert_eq!(bench.get_dual_variable(node), Ok(0));
}

#[test]
fn a_group_that_is_cut_short_is_broken_where_it_is_reached() {
    let words = growths(&[4, 3]).concat();
    let cut = &words[..words.len() - 1];
    let mut bench = *three().words();
    assert_eq!(lent::grow_recorded(&mut bench, 0, 5, cut, &mut [0; 2]), Err(Refusal::Broken));
    assert_eq!(lent::grow_recorded(&mut bench, 0, 4, cut, &mut [0; 1]), Err(Refusal::Small));
    assert_eq!(lent::grow_recorded(&mut bench, 0, 4, cut, &mut [0; 2]), Ok(1));
    assert_eq!(words.len(), 2 * GROUP_WORDS);
    bench[0] = 0;
    assert_eq!(lent::grow_recorded(&mut bench, 8, -1, cut, &mut []), Err(Refusal::Broken));
}

#[derive(Default)]
struct Heard(Vec<(i64, i64)>);

impl DualModule for Heard {
    fn grow(&mut self, bench: &Bench, length: i64) {
        self.0.push((length, bench.sum_dual_variables(0).unwrap()))
    }
}

#[test]
fn a_module_is_told_each_step_with_no_limit() {
    let (mut bench, mut heard) = (three(), Heard::default());
    let groups = growths(&[1; 300]);
    assert_eq!(bench.telling(&mut heard).grow_recorded(0, 300, &groups), Ok(300));
    assert_eq!(heard.0, vec![(1, 330); 300]);
    assert_eq!(bench.telling(&mut heard).grow_recorded(0, 301, &groups), Err(Refusal::Short));
    assert_eq!(heard.0.len(), 300);
}
