//! Damaged benches: words that no call makes. The linked ledger must say BROKEN exactly where the plain model does, change nothing then, and else answer as the model.
use crate::bend::bend;
use crate::ledger::{notices, number, state, unit};
use crate::table::Table;
use crate::words::{decode, encode, handle_word, Words};
use dual_ledger::{lent, Bench, Handle, Refusal};
use oracle::generator::rng::Rng;
use oracle::generator::{Plan, Player};
use oracle::line::{numbers, Line, Mode};
use oracle::model::bench::Bench as Plain;
use oracle::model::Model;
use oracle::show;

/// A way to damage words.
type Damage = fn(&mut Rng, &mut Words);

const KINDS: [(&str, Damage); 18] = [
    ("none", |_, _| {}),
    ("one bit of a word in use", |rng, words| flip(rng, words, 1)),
    ("up to eight bits of words in use", |rng, words| (0..1 + rng.below(8)).for_each(|_| flip(rng, words, 1))),
    ("one low bit", |rng, words| low_bit(rng, words)),
    ("a bit anywhere", |rng, words| words[rng.below(dual_ledger::WORDS)] ^= 1 << rng.below(64)),
    ("two fields exchanged", exchange),
    ("a field of another node or interface", copy),
    ("a field set to a limit", limit),
    ("a map's bit for an emptied slot", |rng, words| mark(rng, words, |used, slot, held| slot < used && !held)),
    ("a map without a present node's bit", |rng, words| mark(rng, words, |_, _, held| held)),
    ("a map's bit past the used slots", |rng, words| mark(rng, words, |used, slot, _| used <= slot)),
    ("a map of 0", |rng, words| words[16 * rng.below(8) + 8] = 0),
    ("a bit of a marks word", |rng, words| words[16 * rng.below(8) + 9] ^= 1 << rng.below(64)),
    ("another marks word", |rng, words| words[16 * rng.below(8) + 9] = rng.next() % 10),
    ("a floor in one half only, or gone from it", |rng, words| {
        let halves: Vec<usize> = (0..8).filter(|unit| words[16 * unit + 5] != 0).collect();
        rng.pick(&halves).into_iter().for_each(|unit| words[16 * unit + 9] ^= 2)
    }),
    ("a value of -1 above a floor, or another", sink),
    ("an engine changed in one interface", |rng, words| words[16 * rng.below(8) + 9] ^= 4),
    ("the other engine, and the values as they were", |_, words| (0..8).for_each(|unit| words[16 * unit + 9] ^= 4)),
];

/// One bit of a map changed: of a slot, used or not, and held or not, as asked. Words without such a slot are left.
fn mark(rng: &mut Rng, words: &mut Words, asked: fn(usize, usize, bool) -> bool) {
    let held = |words: &Words, unit: usize, slot: usize| words[128 + 12 * (64 * unit + slot) + 2] != 0;
    let all = (0..8).flat_map(|unit| (0..64).map(move |slot| (unit, slot)));
    let found: Vec<_> = all.filter(|(unit, slot)| asked(words[16 * unit + 1] as usize, *slot, held(words, *unit, *slot))).collect();
    if let Some((unit, slot)) = rng.pick(&found) {
        words[16 * unit + 8] ^= 1 << slot
    }
}

/// A node of a floored interface, its value made -1, or 0, or one less than it is. Words without one are left.
fn sink(rng: &mut Rng, words: &mut Words) {
    let Some(mut bench) = decode(words) else { return };
    let nodes: Vec<_> = (0..8).filter(|unit| bench.faces[*unit].floored).flat_map(|unit| bench.slots_of(unit)).collect();
    if let Some(node) = rng.pick(&nodes) {
        let value = bench.at(node).value;
        bench.at_mut(node).value = rng.pick(&[-1, -1, 0, value - 1]).expect("there are some");
        words.copy_from_slice(&encode(&bench)[..]);
    }
}

/// A word that is not zero, or any: where something is kept.
fn in_use(rng: &mut Rng, words: &Words) -> usize {
    let tries = (0..40).map(|_| if rng.chance(40) { rng.below(129) } else { rng.below(dual_ledger::WORDS) });
    let found: Vec<usize> = tries.collect();
    found.iter().copied().find(|at| words[*at] != 0).unwrap_or(found[0])
}

fn flip(rng: &mut Rng, words: &mut Words, count: usize) {
    (0..count).for_each(|_| words[in_use(rng, words)] ^= 1 << rng.below(64))
}

fn low_bit(rng: &mut Rng, words: &mut Words) {
    words[in_use(rng, words)] ^= 1 << rng.below(10)
}

/// The same field of another record of its kind.
fn peer(rng: &mut Rng, words: &Words, at: usize) -> usize {
    match at {
        0 => 0,
        1..=128 => (at - 1) % 16 + 16 * rng.below(8) + 1,
        _ => {
            let peers: Vec<usize> = (0..512).map(|node| (at - 129) % 12 + 12 * node + 129).filter(|peer| words[*peer] != words[at]).collect();
            rng.pick(&peers).unwrap_or(at)
        }
    }
}

fn exchange(rng: &mut Rng, words: &mut Words) {
    let at = in_use(rng, words);
    let other = if rng.chance(70) { peer(rng, words, at) } else { in_use(rng, words) };
    words.swap(at, other)
}

fn copy(rng: &mut Rng, words: &mut Words) {
    let at = in_use(rng, words);
    words[at] = words[peer(rng, words, at)]
}

fn limit(rng: &mut Rng, words: &mut Words) {
    let at = in_use(rng, words);
    let step = rng.between(-1, 1) as u64;
    let limits = [0, 1, 2, 8, 64, 65, words[0], 1 << 32, 1 << 40, 1 << 41, 1 << 60, 1 << 62, 1024, u64::MAX, words[at]];
    words[at] = rng.pick(&limits).expect("there are some").wrapping_add(step)
}

/// Words all of chance, whole or small.
fn chance(rng: &mut Rng) -> (&'static str, Box<Words>) {
    let small = rng.chance(50);
    let mut words = Box::new([0; dual_ledger::WORDS]);
    words.iter_mut().for_each(|word| *word = if small { rng.next() % 3 } else { rng.next() });
    (if small { "words of chance, small" } else { "words of chance" }, words)
}

/// Benches of a plan, each damaged in many ways; how many in all.
pub fn run(plan: Plan, seed: u64, count: usize, table: &mut Table) -> Result<(), String> {
    let mut player = Player::new(plan, seed);
    let mut rng = Rng::new(seed ^ 0xDA4A6E);
    let mut words = encode(&player.model.bench);
    for turn in 0..count {
        if turn % 8 == 0 {
            (0..1 + rng.below(12)).for_each(|_| drop(player.line()));
            player.model.bench.plain = turn / 8 % 2 == 1;
            words = encode(&player.model.bench);
        }
        let (kind, damaged) = if rng.chance(1) {
            chance(&mut rng)
        } else if rng.chance(40) {
            let mut bent = player.model.bench.clone();
            bend(&mut rng, &mut bent);
            ("a rule of the plain bench", encode(&bent))
        } else {
            let (kind, damage) = KINDS[rng.below(KINDS.len())];
            let mut damaged = words.clone();
            damage(&mut rng, &mut damaged);
            (kind, damaged)
        };
        let found = check(&mut rng, &player.model.bench, &damaged).map_err(|why| format!("{kind}, plan {} seed {seed}: {why}", plan.name))?;
        *table.damaged.entry((kind, found)).or_default() += 1;
    }
    Ok(())
}

/// What words are that are no bench's.
const NO_BENCH: &str = "words of no bench";

/// One bench: the verdict on it, then one public call. The rule that it breaks, if it is not sound.
fn check(rng: &mut Rng, was: &Plain, words: &Words) -> Result<Option<&'static str>, String> {
    let encoded = decode(words);
    let broken = encoded.as_ref().map_or(Some(NO_BENCH), Plain::broken_rule);
    let plain = encoded.filter(|_| broken.is_none());
    let is_sound = lent::is_sound(words);
    if is_sound != plain.is_some() || Bench::from_words(words).is_ok() != is_sound {
        return Err(format!("sound by the model: {}, linked: {is_sound}; words {:?}", plain.is_some(), shown(words)));
    }
    let line = Some(call(rng, was)).filter(|line| plain.as_ref().map_or(true, |plain| same_names(line, was, plain))).unwrap_or(Line::Strict(0));
    let mut after = Box::new(*words);
    let answer = public(&mut after, &line, was);
    let (expected, left) = match plain {
        None => (vec![2], Box::new(*words)),
        Some(bench) => {
            let mut model = Model { bench, groups: vec![] };
            let given = model.answer(&line);
            (short(&line, given), encode(&model.bench))
        }
    };
    if answer != expected {
        return Err(format!("{line:?}: linked {}, model {}; words {:?}", numbers(&answer), numbers(&expected), shown(words)));
    }
    if after != left {
        return Err(format!("{line:?}: other words left than the model's; words {:?}", shown(words)));
    }
    Ok(broken)
}

/// Whether the nodes of a line are in their places still, so that serials name what handles do.
fn same_names(line: &Line, was: &Plain, plain: &Plain) -> bool {
    let same = |serial: &u32| plain.named(*serial) == was.named(*serial);
    match line {
        Line::Blossom(_, members, _) => members.iter().all(same),
        Line::Expand(_, s) | Line::SetState(_, s, _) | Line::Value(s) | Line::Outer(s) | Line::Under(s) | Line::First(s) => same(s),
        _ => true,
    }
}

/// The words that are not zero, with their places.
fn shown(words: &Words) -> Vec<(usize, u64)> {
    words.iter().copied().enumerate().filter(|(_, word)| *word != 0).collect()
}

/// A call or read, naming nodes of the bench as it was.
fn call(rng: &mut Rng, was: &Plain) -> Line {
    let present: Vec<u32> = (0..8).flat_map(|unit| was.slots_of(unit)).map(|h| h.serial).collect();
    let (u, s) = (rng.below(9) as u32, rng.pick(&present).unwrap_or(1));
    match rng.below(22) {
        0 | 1 => Line::Defect(u, rng.below(50) as u32),
        2 | 3 => Line::Blossom(u, rng.some(&present, 3), vec![]),
        4 => Line::Expand(u, s),
        5 => Line::SetState(u, s, rng.between(-1, 1)),
        6 => Line::Grow(u, rng.between(-1, 50)),
        7 => Line::Fuse(u, rng.below(8) as u32, rng.below(8) as u32),
        8 => Line::Clear(u),
        18 => Line::Mark(u, Mode::Filling),
        19 => Line::Marked(u, Mode::Filling),
        20 => Line::Mark(u, Mode::Floored),
        21 => Line::Marked(u, Mode::Floored),
        9 => Line::Strict(u),
        10 => Line::Sum(u),
        11 => Line::Speed(u),
        12 => Line::Count(u),
        13 => Line::HandleAt(u, rng.below(20) as u32),
        14 => Line::Value(s),
        15 => Line::Outer(s),
        16 => Line::Under(s),
        _ => Line::First(s),
    }
}

/// The model's answer without what only the text program shows, speed and sum; its number alone where refused.
fn short(line: &Line, answer: Vec<i64>) -> Vec<i64> {
    let tells = matches!(
        line,
        Line::Defect(..)
            | Line::Blossom(..)
            | Line::Expand(..)
            | Line::SetState(..)
            | Line::Grow(..)
            | Line::Fuse(..)
            | Line::Clear(_)
            | Line::Mark(..)
    );
    match answer[0] {
        0 if tells => [&answer[..2], &answer[4..]].concat(),
        0 => answer,
        refused => vec![refused],
    }
}

/// The line as a public call on lent words: a node is named by what it was before the damage.
fn public(words: &mut Words, line: &Line, was: &Plain) -> Vec<i64> {
    let handle = |serial: &u32| Handle::from_word(handle_word(was.named(*serial)));
    let told = |result: Result<dual_ledger::Told, Refusal>| match &result {
        Ok(told) => [vec![0, told.node().map_or(0, |node| node.serial() as i64)], show::notices(&notices(told))].concat(),
        Err(_) => vec![number(&result)],
    };
    let none = |result: Result<(), Refusal>| if result.is_ok() { vec![0, 0, 0] } else { vec![number(&result)] };
    fn of<const N: usize>(result: Result<[i64; N], Refusal>) -> Vec<i64> {
        match result {
            Ok(values) => [vec![0], values.to_vec()].concat(),
            Err(refusal) => vec![refusal.number() as i64],
        }
    }
    match line {
        Line::Defect(u, vertex) => told(lent::create_defect_node(words, unit(*u), *vertex)),
        Line::Blossom(u, members, _) => told(lent::create_blossom(words, unit(*u), &members.iter().map(handle).collect::<Vec<_>>(), &[])),
        Line::Expand(u, s) => told(lent::expand_blossom(words, unit(*u), handle(s))),
        Line::SetState(u, s, rate) => told(lent::set_grow_state(words, unit(*u), handle(s), state(*rate))),
        Line::Grow(u, length) => told(lent::grow(words, unit(*u), *length)),
        Line::Fuse(p, l, r) => none(lent::fuse(words, unit(*p), unit(*l), unit(*r))),
        Line::Clear(u) => none(lent::clear(words, unit(*u))),
        Line::Mark(u, Mode::Filling) => none(lent::mark_filling(words, unit(*u))),
        Line::Mark(u, Mode::Floored) => none(lent::mark_floored(words, unit(*u))),
        Line::Marked(u, Mode::Floored) => of(lent::is_floored(words, unit(*u)).map(|yes| [yes as i64])),
        Line::Marked(u, Mode::Filling) => of(lent::is_filling(words, unit(*u)).map(|yes| [yes as i64])),
        Line::Strict(u) => of(lent::strict_check(words, unit(*u)).map(|found| [found.number() as i64, found.index() as i64])),
        Line::Sum(u) => of(lent::sum_dual_variables(words, unit(*u)).map(|sum| [sum])),
        Line::Speed(u) => of(lent::sum_grow_speed(words, unit(*u)).map(|speed| [speed])),
        Line::Count(u) => of(lent::nodes_count(words, unit(*u)).map(|count| [count as i64])),
        Line::HandleAt(u, index) => {
            let found = lent::get_node(words, unit(*u), *index);
            of(found.map(|node| node.map_or([0; 3], |h| [h.serial() as i64, h.interface() as i64, h.slot() as i64])))
        }
        Line::Value(s) => of(lent::get_dual_variable(words, handle(s)).map(|value| [value])),
        Line::Outer(s) => of(lent::ancestor_and_links(words, handle(s)).map(|(node, links)| [node.serial() as i64, links as i64])),
        Line::Under(s) => of(lent::get_secondary_ancestor_blossom(words, handle(s)).map(|node| [node.serial() as i64])),
        Line::First(s) => of(lent::get_representative_vertex(words, handle(s)).map(|vertex| [vertex as i64])),
        _ => unreachable!("{line:?} is not called here"),
    }
}
