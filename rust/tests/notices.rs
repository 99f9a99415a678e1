//! What a dual module is told, and the same calls on lent words.
use dual_ledger::{lent, Bench, DualModule, GrowState, Handle, Notice, Refusal, Reply};

#[derive(Default)]
struct Notes(Vec<String>);

impl DualModule for Notes {
    fn add_defect_node(&mut self, bench: &Bench, node: Handle) {
        self.0.push(format!("defect {} at {}", node.serial(), bench.get_representative_vertex(node).unwrap()))
    }
    fn add_blossom(&mut self, _: &Bench, blossom: Handle) {
        self.0.push(format!("blossom {}", blossom.serial()))
    }
    fn remove_blossom(&mut self, bench: &Bench, blossom: Handle) {
        assert_eq!(bench.get_dual_variable(blossom), Err(Refusal::Stale));
        self.0.push(format!("removed {}", blossom.serial()))
    }
    fn set_grow_state(&mut self, _: &Bench, node: Handle, state: GrowState) {
        self.0.push(format!("{} {state:?}", node.serial()))
    }
    fn prepare_nodes_shrink(&mut self, _: &Bench, circle: &[Handle]) {
        self.0.push(format!("circle {:?}", circle.iter().map(|node| node.serial()).collect::<Vec<_>>()))
    }
    fn grow(&mut self, _: &Bench, length: i64) {
        self.0.push(format!("grown {length}"))
    }
}

#[test]
fn told_in_order() {
    let (mut bench, mut notes) = (Bench::default(), Notes::default());
    let mut telling = bench.telling(&mut notes);
    let a = telling.create_defect_node(0, 3).unwrap();
    let b = telling.create_defect_node(0, 8).unwrap();
    let blossom = telling.create_blossom(0, &[b, a], &[[b, b], [a, a]]).unwrap();
    telling.grow(0, 2).unwrap();
    telling.set_grow_state(0, blossom, GrowState::Shrink).unwrap();
    assert_eq!(telling.set_grow_state(0, a, GrowState::Grow), Err(Refusal::Inside));
    telling.expand_blossom(0, blossom).unwrap();
    telling.fuse(2, 0, 1).unwrap();
    telling.clear(2).unwrap();
    assert_eq!(telling.bench().nodes_count(0), Ok(0));
    let expected =
        ["defect 1 at 3", "defect 2 at 8", "2 Stay", "1 Stay", "circle [2, 1]", "blossom 3", "grown 2", "3 Shrink", "removed 3", "2 Grow", "1 Grow"];
    assert_eq!(notes.0, expected);
}

#[test]
fn lent_words() {
    let mut words = [77; dual_ledger::WORDS];
    let node = Handle::new(0, 0, 1);
    assert_eq!(lent::grow(&mut words, 0, 1).err(), Some(Refusal::Broken));
    assert!(words == [77; dual_ledger::WORDS] && !lent::is_sound(&words));
    lent::set_up(&mut words, 1).unwrap();
    let told = lent::create_defect_node(&mut words, 0, 3).unwrap();
    assert_eq!((told.node(), told.notices().collect::<Vec<_>>()), (Some(node), vec![Notice::DefectAdded(node)]));
    let told = lent::grow(&mut words, 0, 1 << 40).unwrap();
    assert_eq!((told.node(), told.notices().collect::<Vec<_>>()), (None, vec![Notice::Grown(1 << 40)]));
    let told = lent::create_blossom(&mut words, 0, &[node], &[]).unwrap();
    let blossom = told.node().unwrap();
    let expected = [Notice::StateSet(node, GrowState::Stay), Notice::ShrinkPrepared(&[node]), Notice::BlossomAdded(blossom)];
    assert_eq!(told.notices().collect::<Vec<_>>(), expected);
    lent::set_grow_state(&mut words, 0, blossom, GrowState::Stay).unwrap();
    assert_eq!(lent::sum_dual_variables(&words, 0), Ok(1 << 40));
    assert_eq!(lent::expand_blossom(&mut words, 0, blossom).unwrap().notices().len(), 2);
    lent::fuse(&mut words, 2, 0, 1).unwrap();
    lent::clear(&mut words, 2).unwrap();
    assert_eq!(lent::nodes_count(&words, 0), Ok(0));
}

#[test]
fn lines_on_lent_words() {
    let mut words = [77; dual_ledger::WORDS];
    let said = |refusal, serial, speed, sum| Reply { refusal, serial, speed, sum };
    assert_eq!(lent::line(&mut words, b"D 0 3"), said(Some(Refusal::Broken), 0, 0, 0));
    assert!(words == [77; dual_ledger::WORDS]);
    lent::set_up(&mut words, 1).unwrap();
    assert_eq!(lent::line(&mut words, b"D 0 3"), said(None, 1, 1, 0));
    assert_eq!(lent::line(&mut words, b"G 0 5"), said(None, 0, 1, 5));
    assert_eq!(lent::line(&mut words, b"S 0 1 -1"), said(None, 1, -1, 5));
    assert_eq!(lent::line(&mut words, b"G 0 7"), said(None, 0, -1, -2));
    assert_eq!(lent::line(&mut words, b"E 0 2"), said(Some(Refusal::Stale), 0, -1, -2));
    assert_eq!(lent::line(&mut words, b"E 0 2\n"), said(Some(Refusal::Line), 0, 0, 0));
}

#[test]
fn a_module_known_only_at_run_time() {
    let (mut bench, mut notes) = (Bench::default(), Notes::default());
    let module: &mut dyn DualModule = &mut notes;
    bench.telling(module).create_defect_node(0, 3).unwrap();
    assert_eq!(notes.0, ["defect 1 at 3"]);
}

#[test]
fn words_that_are_no_handles_name_nothing() {
    let mut bench = Bench::default();
    bench.create_defect_node(0, 3).unwrap();
    for word in [0, 512 - 1, 1 << 41, u64::MAX] {
        assert_eq!(bench.get_dual_variable(Handle::from_word(word)), Err(Refusal::Stale));
    }
    assert_eq!(Handle::new(8, 0, 1), Handle::new(0, 64, 1));
}
