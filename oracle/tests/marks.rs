//! The model's marked interfaces, held to the sentences that say what they are: the lowest empty slot, FULL, the used count; no value below zero.
use oracle::generator::plans::MARKS;
use oracle::generator::Player;
use oracle::line::{read, Line};
use oracle::model::bench::{Bench, FACES, SLOTS};
use oracle::model::refusals::{BELOW, CHILD, FULL, LENGTH, MARK, NO_SERIAL, PAIR, UNIT, USED};
use oracle::model::Model;
use oracle::pairs::{applying, Seen};

fn present(bench: &Bench, unit: usize) -> usize {
    bench.slots_of(unit).len()
}

/// Runs of the plan, with `seen` told of each line, the model before and after it, and the number.
fn played(seen: &mut impl FnMut(&Line, &Model, &Model, i64)) {
    for seed in 0..60 {
        let mut player = Player::new(MARKS, 7_000_000 + seed);
        for _ in 0..400 {
            let before = player.model.clone();
            let line = read(&player.line()).unwrap();
            let number = before.clone().answer(&line)[0];
            seen(&line, &before, &player.model, number);
        }
    }
}

#[test]
fn the_lowest_empty_slot_and_the_used_count() {
    let mut highest = [0; FACES];
    let mut filled = 0;
    played(&mut |line, before, after, number| {
        if before.bench == Bench::new(1) {
            highest = [0; FACES];
        }
        match line {
            Line::Clear(unit) if number == 0 => before.bench.tree(*unit as usize).into_iter().for_each(|below| highest[below] = 0),
            Line::Defect(unit, _) | Line::Blossom(unit, ..) if number == 0 => {
                let (unit, made) = (*unit as usize, after.bench.named(before.bench.next as u32));
                let slots = &before.bench.faces[unit].slots;
                let lowest = (0..SLOTS).find(|slot| slots.get(*slot).map_or(true, |node| node.is_none()));
                let expected = if before.bench.faces[unit].fills { lowest } else { Some(slots.len()) };
                assert_eq!((made.unit as usize, Some(made.slot as usize)), (unit, expected));
                filled += ((made.slot as usize) < slots.len()) as usize;
                highest[unit] = highest[unit].max(made.slot as usize + 1);
            }
            _ => {}
        }
        for unit in 0..FACES {
            assert_eq!(after.bench.faces[unit].slots.len(), highest[unit], "the highest slot filled since the clear, and one");
        }
    });
    assert!(filled > 400, "{filled}");
}

/// A filling interface is full exactly with 64 present nodes, the others with 64 used slots.
#[test]
fn full() {
    let mut model = Model::new(1);
    let mut say = |line: &str| model.answer(&read(line).unwrap())[0];
    assert_eq!((say("P 0 1"), say("D 0 1"), say("D 1 1")), (0, 0, 0));
    for at in 0..62 {
        assert_eq!((say(&format!("D 0 {}", at + 2)), say(&format!("D 1 {}", at + 2))), (0, 0));
    }
    for turn in 0..500 {
        // one place left in both; the unmarked one has none after its first blossom
        let serial = blossom_at(turn);
        assert_eq!((say("B 0 1"), say("B 0 3"), say("D 0 9")), (0, FULL, FULL), "turn {turn}");
        assert_eq!(say(&format!("E 0 {serial}")), 0, "turn {turn}");
        let other = say("B 1 2");
        assert_eq!(other, if turn == 0 { 0 } else { FULL }, "turn {turn}");
        if turn == 0 {
            assert_eq!(say(&format!("E 1 {}", serial + 1)), 0);
        }
    }
    drop(say);
    assert_eq!((present(&model.bench, 0), present(&model.bench, 1)), (63, 63));
    assert_eq!((model.bench.faces[0].slots.len(), model.bench.faces[1].slots.len()), (64, 64));
}

/// The serial of the filling interface's blossom at a turn of the test above: 126 defects before, and one blossom of the other after the first.
fn blossom_at(turn: u32) -> u32 {
    127 + turn + (turn > 0) as u32
}

/// Before FULL nothing but CHILD and UNIT, after it WORN: no serial is given out twice.
#[test]
fn no_serial_twice() {
    let mut model = Model::new(u32::MAX - 3);
    let mut seen = std::collections::HashSet::new();
    let mut say = |line: &str| model.answer(&read(line).unwrap());
    say("P 0 1");
    let first = say("D 0 1")[1];
    seen.insert(first);
    while let [0, made, ..] = say(&format!("B 0 {first}"))[..] {
        assert!(seen.insert(made));
        assert_eq!(say(&format!("E 0 {made}"))[0], 0);
    }
    assert_eq!((say("D 0 1")[0], seen.len()), (NO_SERIAL, 4));
}

/// In a floored tree no value is ever below zero; a growth is BELOW exactly where it would make one so, and leaves everything.
#[test]
fn no_value_below_zero() {
    let (mut floored, mut refused, mut at_zero) = (0, 0, 0);
    played(&mut |line, before, after, number| {
        for unit in (0..FACES).filter(|unit| after.bench.faces[*unit].floored && after.is_top(*unit)) {
            assert!(after.bench.present(unit).into_iter().all(|h| after.bench.at(h).value >= 0));
            assert!(after.bench.tree(unit).into_iter().all(|below| after.bench.faces[below].floored));
            floored += 1;
        }
        if let Line::Grow(unit, length) = line {
            if before.is_top(*unit as usize) && *length >= 0 && number != LENGTH {
                let falls = |h| before.bench.at(h).value + before.bench.at(h).state * length < 0;
                let fallen = before.bench.present(*unit as usize).into_iter().any(falls);
                // unfloored trees may have values below zero already
                assert_eq!(number == BELOW, before.bench.faces[*unit as usize].floored && fallen);
                assert!(number == 0 || before.bench == after.bench);
                refused += (number == BELOW) as usize;
                at_zero +=
                    (number == 0 && after.bench.faces[*unit as usize].floored && after.bench.least_shrinking(*unit as usize) == Some(0)) as usize;
            }
        }
    });
    assert!(floored > 10_000 && refused > 30 && at_zero > 50, "{floored} {refused} {at_zero}");
}

/// The scenes have each number of the calls that the marks bring one to, alone and beside each other that can apply.
#[test]
fn each_number_and_each_pair() {
    let (mut model, mut seen) = (Model::new(1), Seen::default());
    for text in include_str!("../scenes/marks.txt").lines().filter(|line| !line.starts_with('#')) {
        let call = read(text).unwrap();
        let numbers = applying(&model, &call);
        assert_eq!(model.answer(&call)[0], numbers.first().copied().unwrap_or(0), "{text}");
        seen.see(text, &numbers);
    }
    let wanted = [
        ('P', vec![(UNIT, UNIT), (CHILD, CHILD), (CHILD, MARK), (MARK, MARK)]),
        ('Q', vec![(UNIT, UNIT), (CHILD, CHILD)]),
        ('G', vec![(LENGTH, LENGTH), (LENGTH, BELOW), (BELOW, BELOW), (CHILD, BELOW)]),
        ('F', vec![(UNIT, MARK), (CHILD, MARK), (PAIR, MARK), (USED, MARK), (MARK, MARK)]),
    ];
    for (letter, pairs) in wanted {
        for pair in pairs {
            assert!(seen.0[&letter].contains(&pair), "{letter}: no {pair:?}");
        }
    }
}
