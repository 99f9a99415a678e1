//! Damaged groups: words that no call makes. The linked ledger must take them for a group exactly where the model does, and then answer as the model.
use crate::group_words::{decode, told, GroupWords};
use crate::ledger::{number, Ledger};
use crate::sparing;
use crate::table::Table;
use dual_ledger::Group;
use oracle::generator::plans::GROUPS;
use oracle::generator::rng::Rng;
use oracle::generator::Player;
use oracle::line::{read, Obstacle};
use oracle::model::bench::Handle;
use oracle::model::groups::{Group as Plain, Told};

type Damage = fn(&mut Rng, &mut GroupWords);

const KINDS: [(&str, Damage); 8] = [
    ("none", |_, _| {}),
    ("a bit", |rng, words| words[place(rng)] ^= 1 << rng.below(64)),
    ("a low bit", |rng, words| words[place(rng)] ^= 1 << rng.below(3)),
    ("a count", |rng, words| words[3 + rng.below(2)] = rng.pick(&[0, 1, 2, 3, 127, 128, 129, 1 << 32]).expect("there are some")),
    ("an entry of another kind or place", |rng, words| exchange(rng, words)),
    ("anything past the counts", |rng, words| spoil(rng, words)),
    ("anything past the counts, and a bit", |rng, words| {
        spoil(rng, words);
        words[place(rng)] ^= 1 << rng.below(64)
    }),
    ("a field set to a limit", |rng, words| {
        words[place(rng)] = rng.pick(&[0, 1, 2, 7, 1 << 32, (1 << 41) - 1, 1 << 41, (1 << 41) + 1, u64::MAX]).expect("there are some")
    }),
];

/// What says nothing is overwritten: of a growth all but its first three words, of conflicts what stands past the counts.
fn spoil(rng: &mut Rng, words: &mut GroupWords) {
    let (listed, stopped) = if words[0] == 1 { (0, 0) } else { (words[3] as usize, words[4] as usize) };
    let head = if words[0] == 1 { 3..5 } else { 5..5 };
    for at in head.chain(5 + 5 * listed..645).chain(645 + 6 * stopped..dual_ledger::GROUP_WORDS) {
        words[at] = (0..8).fold(0, |word, _| word << 8 | rng.below(256) as u64);
    }
}

/// Mostly a word of the head or of the first few entries and stops.
fn place(rng: &mut Rng) -> usize {
    match rng.below(10) {
        0 => rng.below(dual_ledger::GROUP_WORDS),
        1 | 2 => rng.below(5),
        3..=5 => 5 + rng.below(30),
        _ => 645 + rng.below(36),
    }
}

/// The obstacle of a stop and of an entry exchanged, or of two stops.
fn exchange(rng: &mut Rng, words: &mut GroupWords) {
    let (stop, other, entry) = (645 + 6 * rng.below(4), 645 + 6 * rng.below(4), 5 + 5 * rng.below(4));
    let with = if rng.chance(50) { other + 1 } else { entry };
    (0..5).for_each(|at| words.swap(stop + 1 + at, with + at))
}

/// Groups of the plan, each damaged; so many in all.
pub fn run(seed: u64, count: usize, table: &mut Table) -> Result<(), String> {
    let (mut player, mut ledger, mut rng) = (Player::new(GROUPS, seed), Ledger::new(1), Rng::new(seed ^ 0x6709));
    for turn in 0..count {
        if turn % 6 == 0 {
            for _ in 0..1 + rng.below(20) {
                let line = player.line();
                ledger.answer(&read(&line).expect("a line of the language"))?;
            }
        }
        let (g, (kind, damage)) = (rng.below(4), KINDS[rng.below(KINDS.len())]);
        let mut words = *ledger.groups[g].words();
        if decode(&words).as_ref() != Some(&player.model.groups[g]) {
            return Err(format!("seed {seed}: the group's words are not those of the model's group"));
        }
        damage(&mut rng, &mut words);
        let sound = check(&mut rng, &player, &ledger, &words).map_err(|why| format!("{kind}, seed {seed}: {why}"))?;
        *table.groups.entry((kind, sound)).or_default() += 1;
    }
    Ok(())
}

/// One group: the verdict on it, and where it is sound one call. Where it is not, the pop that spares the stops leaves every word of it.
fn check(rng: &mut Rng, player: &Player, ledger: &Ledger, words: &GroupWords) -> Result<bool, String> {
    let (group, plain) = (Group::from_words(words), decode(words));
    match (group, plain) {
        (Err(_), None) => {
            let mut lent = *words;
            match sparing::on_any_words(&mut lent) {
                (2, [0, 0, 0, 0, 0]) if lent == *words => Ok(false),
                answer => Err(format!("sparing pop of no group: {answer:?}")),
            }
        }
        (Ok(group), Some(plain)) => call(rng, player, ledger, group, plain).map(|_| true),
        (group, plain) => Err(format!("linked {group:?}, model {plain:?}")),
    }
}

fn call(rng: &mut Rng, player: &Player, ledger: &Ledger, mut group: Group, mut plain: Plain) -> Result<(), String> {
    let asked = (group.is_empty(), group.is_active(), number(&group.get_none_zero_growth()), group.get_none_zero_growth().ok().flatten());
    let growth = plain.growth();
    if asked != (plain.is_empty(), plain.is_active(), growth.0, growth.1) {
        return Err(format!("asked: linked {asked:?}, model {plain:?}"));
    }
    if (number(&group.peek()), group.peek().ok().flatten()) != (plain.peek().0, plain.peek().1.map(told)) {
        return Err(format!("peek: linked {:?}, model {plain:?}", group.peek()));
    }
    let (before, number) = (group.clone(), change(rng, player, ledger, &mut group, &mut plain)?);
    if number != 0 && group.words() != before.words() {
        return Err(format!("refused by {number}, but the group has changed"));
    }
    match decode(group.words()) == Some(plain) {
        true => Ok(()),
        false => Err(format!("{before:?} became {group:?}")),
    }
}

/// A pop of either kind, an add or an extension by a group of the plan; the number that both give.
fn change(rng: &mut Rng, player: &Player, ledger: &Ledger, group: &mut Group, plain: &mut Plain) -> Result<i64, String> {
    let (ours, theirs) = match rng.below(4) {
        3 => return sparing::pop(group, plain).map(|(number, _)| number),
        0 => {
            let (ours, theirs) = (group.pop(), plain.pop());
            if ours.as_ref().ok().copied().flatten() != theirs.1.as_ref().map(told) {
                return Err(format!("pop: linked {ours:?}, model {theirs:?}"));
            }
            (number(&ours), theirs.0)
        }
        1 => {
            let o = obstacle(rng, player);
            (number(&group.add(&ledger.trusted, told(&o))), plain.add(&player.model.bench, &o))
        }
        _ => {
            let g = rng.below(4);
            (number(&group.extend(&ledger.trusted, &ledger.groups[g])), plain.extend(&player.model.bench, &player.model.groups[g]))
        }
    };
    if ours == theirs {
        Ok(ours)
    } else {
        Err(format!("number: linked {ours}, model {theirs}"))
    }
}

/// An obstacle over nodes of the bench, now and then over one that is gone.
fn obstacle(rng: &mut Rng, player: &Player) -> Told {
    let present: Vec<Handle> = (0..8).flat_map(|unit| player.model.bench.slots_of(unit)).collect();
    let gone = Handle { unit: 0, slot: 0, serial: 0 };
    let node = |rng: &mut Rng| rng.pick(&present).filter(|_| rng.chance(97)).unwrap_or(gone);
    let (a, b, c, d) = (node(rng), node(rng), node(rng), node(rng));
    match rng.below(6) {
        0 => Obstacle::Growth(rng.between(-2, 9), rng.chance(50)),
        1 => Obstacle::Conflicting((a, b), (c, d)),
        2 => Obstacle::Virtual((a, b), rng.below(12) as u32, rng.chance(50)),
        3 => Obstacle::NeedExpand(a),
        4 => Obstacle::Stop(a, None),
        _ => Obstacle::Stop(a, Some((b, c))),
    }
}
