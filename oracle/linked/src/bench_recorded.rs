//! Growing against a recording, by nanoseconds a step: the original's `grow_iterative` over a dual module that plays the groups back and counts, beside the same
//! recording as words, 11,304 bytes a group, of which a step reads three.
use crate::bench::{once, Counting, Row};
use dual_ledger::{lent, Bench, Group, GroupWords, Obstacle};
use oracle::timing::{keep, Played};

fn row((groups, large): (usize, bool)) -> Row {
    let mut bench = Bench::default();
    bench.create_defect_node(0, 1).expect("a new bench");
    let mut group = Group::new();
    group.add(&bench, Obstacle::NonZeroGrow(1, false)).expect("a growth");
    let mut recording: Vec<GroupWords> = oracle::timing::roomy(groups, large);
    recording.resize(groups, *group.words());
    let mut words: Vec<u64> = oracle::timing::roomy(groups * dual_ledger::GROUP_WORDS, large);
    recording.iter().for_each(|group| words.extend_from_slice(group));
    let mut lent_words = Box::new(*bench.words());
    let (mut lengths, mut told, mut module) = (vec![0; groups], bench.clone(), Counting::default());
    let (by, mut original) = (groups as i64, Played::new(1, groups));
    let step = |call: f64| call / groups as f64;
    Row {
        what: format!("grow_recorded, a step{}", if large { ", large pages" } else { "" }),
        nodes: groups,
        original: Some(step(once(|_| original.grow_iterative(by)))),
        trusted: step(once(|_| keep(bench.grow_recorded_into(0, by, &recording, &mut lengths).is_ok()))),
        told: Some(step(once(|_| keep(told.telling(&mut module).grow_recorded(0, by, &recording).is_ok())))),
        public: Some(step(once(|_| keep(lent::grow_recorded(&mut lent_words, 0, by, &words, &mut lengths).is_ok())))),
    }
}

pub fn rows() -> Vec<Row> {
    [(16, false), (1000, false), (10_000, false), (10_000, true)].map(row).into()
}
