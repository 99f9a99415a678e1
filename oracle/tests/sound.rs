//! Each rule of a sound bench and of a sound group, broken alone.
use oracle::line::{read, Obstacle};
use oracle::model::bench::{Bench, Class, Handle, PROGRESS, WORN};
use oracle::model::groups::Group;
use oracle::model::Model;

/// Two fused halves with a blossom across them, something else beside.
fn bench() -> Bench {
    let mut model = Model::new(1);
    for line in ["D 0 1", "D 1 2", "G 0 4", "F 2 0 1", "D 2 3", "B 2 1 2", "B 2 4", "G 2 5", "D 3 4"] {
        assert_eq!(model.answer(&read(line).unwrap())[0], 0, "{line}");
    }
    model.bench
}

const BLOSSOM: Handle = Handle { unit: 2, slot: 1, serial: 4 };
const MEMBER: Handle = Handle { unit: 0, slot: 0, serial: 1 };

fn circle(bench: &mut Bench, change: impl FnOnce(&mut Vec<oracle::model::bench::Member>)) {
    if let Class::Blossom(circle) = &mut bench.at_mut(BLOSSOM).class {
        change(circle)
    }
}

#[test]
fn a_bench_from_calls_is_sound() {
    assert!(bench().is_sound());
}

#[test]
fn each_rule_of_a_bench() {
    let breaks: Vec<(&str, fn(&mut Bench))> = vec![
        ("next serial 0", |b| b.next = 0),
        ("next serial past 2^32", |b| b.next = WORN + 1),
        ("65 slots", |b| b.faces[4].slots = vec![None; 65]),
        ("progress below 0", |b| b.faces[4].progress = -1),
        ("progress past 2^40", |b| b.faces[4].progress = PROGRESS + 1),
        ("a half twice", |b| b.faces[2].children = Some((0, 0))),
        ("a half of higher number", |b| b.faces[2].children = Some((0, 3))),
        ("a half that does not link back", |b| b.faces[1].parent = None),
        ("a parent that does not link back", |b| b.faces[3].parent = Some(5)),
        ("a serial twice", |b| b.faces[3].slots[0].as_mut().unwrap().serial = 3),
        ("serial 0", |b| b.faces[3].slots[0].as_mut().unwrap().serial = 0),
        ("a serial not given out", |b| b.faces[3].slots[0].as_mut().unwrap().serial = 99),
        ("a member without parent", |b| b.at_mut(MEMBER).parent = None),
        ("a member that grows", |b| b.at_mut(MEMBER).state = 1),
        ("a parent that is a defect", |b| b.at_mut(MEMBER).parent = Some(Handle { unit: 2, slot: 0, serial: 3 })),
        ("a member twice", |b| circle(b, |c| c.push(c[0].clone()))),
        ("a circle of none", |b| circle(b, Vec::clear)),
        ("a size", |b| b.at_mut(BLOSSOM).size = 3),
        ("a defect's size", |b| b.faces[3].slots[0].as_mut().unwrap().size = 2),
        ("a touching interface", |b| circle(b, |c| c[0].touch[0].unit = 8)),
        ("a touching slot", |b| circle(b, |c| c[0].touch[1].slot = 64)),
        ("a touching serial", |b| circle(b, |c| c[0].touch[0].serial = b'x' as u32)),
        ("a value past the reach", |b| b.at_mut(MEMBER).value = 10),
        ("a sum past 512 times the reach", |b| b.faces[2].sum = 512 * 9 + 1),
        ("a speed", |b| b.faces[2].speed += 1),
        ("a floor in the parent alone", |b| b.faces[2].floored = true),
        ("a floor in one half alone", |b| b.faces[0].floored = true),
        ("a floor in all but one half", |b| (b.faces[1].floored, b.faces[2].floored) = (true, true)),
        ("a value of -1 above a floor", |b| {
            (0..3).for_each(|unit| b.faces[unit].floored = true);
            b.at_mut(MEMBER).value = -1;
        }),
    ];
    for (rule, change) in breaks {
        let mut broken = bench();
        change(&mut broken);
        assert!(!broken.is_sound(), "{rule}");
    }
}

#[test]
fn what_is_free() {
    let free: Vec<(&str, fn(&mut Bench))> = vec![
        ("a half's sum and speed", |b| (b.faces[0].sum, b.faces[0].speed) = (77, 77)),
        ("a touching serial 0", |b| circle(b, |c| c[0].touch[0].serial = 0)),
        ("a value at the reach", |b| b.at_mut(MEMBER).value = -9),
        ("an emptied slot", |b| b.faces[4].slots = vec![None; 64]),
        ("the last next serial", |b| b.next = WORN),
        ("a half that fills slots", |b| b.faces[1].fills = true),
        ("a floored tree", |b| (0..3).for_each(|unit| b.faces[unit].floored = true)),
        ("a value of 0 above a floor", |b| {
            (0..3).for_each(|unit| b.faces[unit].floored = true);
            b.at_mut(MEMBER).value = 0;
        }),
        ("a floored tree beside another", |b| b.faces[3].floored = true),
    ];
    for (what, change) in free {
        let mut sound = bench();
        change(&mut sound);
        assert!(sound.is_sound(), "{what}");
    }
}

#[test]
fn each_rule_of_a_group() {
    let group = |list: Vec<Obstacle<Handle>>, stops: Vec<Obstacle<Handle>>| Group::Conflicts { list, stops: (0..).zip(stops).collect() };
    let expand = Obstacle::NeedExpand(MEMBER);
    let stop = Obstacle::Stop(MEMBER, None);
    assert!(group(vec![expand.clone(); 128], vec![stop.clone(); 128]).is_sound());
    assert!(!group(vec![expand.clone(); 129], vec![]).is_sound());
    assert!(!group(vec![], vec![stop.clone(); 129]).is_sound());
    assert!(!group(vec![stop], vec![]).is_sound());
    assert!(!group(vec![Obstacle::Growth(1, false)], vec![]).is_sound());
    assert!(!group(vec![], vec![expand]).is_sound());
}
