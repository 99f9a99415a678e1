//! Growing against recordings of groups, on benches of generated runs: beside the original's `grow_iterative` over a dual module that plays the recording back,
//! where it neither panics nor hangs, and beside the model in everything. Number, lengths, every word of the bench in three forms, every entry of the slice.
use crate::group_words::{decode, GroupWords};
use crate::ledger::number;
use crate::openings;
use crate::runs::{Run, Sides};
use crate::words::encode;
use dual_ledger::{lent, Bench, DualModule, GROUP_WORDS};
use oracle::generator::rng::Rng;
use oracle::generator::Player;
use oracle::line::read;
use oracle::model::bench::PROGRESS;
use oracle::model::groups::Group as Plain;
use oracle::model::refusals::{BROKEN, SMALL};

/// What stands in the slice before a call.
const FILL: u64 = 0x5a5a;

#[derive(Default)]
pub struct Seen {
    pub calls: usize,
    steps: usize,
    most: usize,
    numbers: [usize; 29],
}

impl std::fmt::Display for Seen {
    fn fmt(&self, f: &mut std::fmt::Formatter) -> std::fmt::Result {
        let each: Vec<String> = self.numbers.iter().enumerate().filter(|(_, n)| **n > 0).map(|(at, n)| format!("{at}: {n}")).collect();
        writeln!(f, "{} recordings grown against, {} steps, up to {} in one; by number: {}", self.calls, self.steps, self.most, each.join(", "))
    }
}

/// Hears of the steps.
#[derive(Default)]
struct Heard(Vec<i64>);

impl DualModule for Heard {
    fn grow(&mut self, _: &Bench, length: i64) {
        self.0.push(length)
    }
}

/// Groups, of the last of which `cut` words are left out.
struct Recording {
    groups: Vec<GroupWords>,
    cut: usize,
}

impl Recording {
    fn words(&self) -> Vec<u64> {
        let mut words = self.groups.concat();
        words.truncate(words.len() - self.cut);
        words
    }

    fn plain(&self) -> Vec<Option<Plain>> {
        let mut plain: Vec<Option<Plain>> = self.groups.iter().map(decode).collect();
        if self.cut > 0 {
            *plain.last_mut().expect("a group is cut") = None;
        }
        plain
    }
}

/// A position: mostly a short growth; what says nothing may be anything.
fn position(rng: &mut Rng, wrong: usize, known: &[dual_ledger::Group]) -> GroupWords {
    let mut words = [rng.next(); GROUP_WORDS];
    let growth = if !rng.chance(wrong) {
        rng.between(1, 9)
    } else {
        match rng.below(9) {
            0 => rng.pick(&[0, -1, -9, i64::MIN]).expect("some"),
            1 => i64::MAX,
            2 | 3 => rng.pick(&[1 << 20, PROGRESS - 1, PROGRESS, PROGRESS + 1, i64::MAX - 1]).expect("some"),
            4 | 5 => return *known[rng.below(known.len())].words(),
            6 => {
                words[..5].copy_from_slice(&[2, 0, 0, 0, 0]);
                return words;
            }
            7 => {
                words[..5].copy_from_slice(&[2, rng.below(2) as u64, rng.below(2) as u64, rng.below(3) as u64, 127 + rng.below(3) as u64]);
                return words;
            }
            _ => {
                words[..3].copy_from_slice(&[rng.below(4) as u64, rng.below(3) as u64, rng.below(4) as u64]);
                return words;
            }
        }
    };
    words[..3].copy_from_slice(&[1, growth as u64, rng.below(2) as u64]);
    words
}

fn recording(rng: &mut Rng, known: &[dual_ledger::Group]) -> Recording {
    let count = if rng.below(300) == 0 { 200 } else { rng.below(20) };
    let wrong = rng.pick(&[0, 0, 0, 8, 30]).expect("some");
    let groups: Vec<GroupWords> = (0..count).map(|_| position(rng, wrong, known)).collect();
    let cut = if count > 0 && rng.chance(10) { 1 + rng.below(GROUP_WORDS - 1) } else { 0 };
    Recording { groups, cut }
}

/// Mostly what the first groups come to, or nearly; else a limit.
fn length(rng: &mut Rng, groups: &[Option<Plain>], progress: i64) -> i64 {
    let growth = |group: &Option<Plain>| if let Some(Plain::Growth(length, _)) = group { (*length).clamp(0, PROGRESS) } else { 0 };
    let first = groups.len() - rng.below(groups.len() + 1) * rng.below(2);
    match rng.below(12) {
        0 => 0,
        1 => rng.pick(&[-1, i64::MIN, i64::MAX, PROGRESS, PROGRESS - progress, PROGRESS - progress + 1]).expect("some"),
        _ => (groups[..first].iter().map(growth).sum::<i64>() + rng.between(-2, 2)).max(0),
    }
}

/// One call by all; what all answer.
fn call(sides: &mut Sides, unit: u32, length: i64, of: &Recording, room: usize) -> Result<(i64, Vec<i64>), String> {
    let (words, plain) = (of.words(), of.plain());
    let (wanted, steps) = sides.replay.grow_recorded(unit, length, &plain, room)?;
    let (ledger, u) = (&mut sides.ledger, unit as u8);
    let (mut lengths, mut heard) = (vec![FILL; room], Heard::default());
    let taken = lent::grow_recorded(&mut ledger.lent, u, length, &words, &mut lengths);
    let mut filled: Vec<u64> = steps.iter().map(|step| *step as u64).collect();
    filled.resize(room, FILL);
    if number(&taken) != wanted || taken.unwrap_or(0) != steps.len() || lengths != filled || words != of.words() {
        return Err(format!("linked {taken:?} {lengths:?}, model {wanted} {steps:?}"));
    }
    if of.cut > 0 {
        // a bench's own calls take whole groups
        let grown = if wanted == 0 { [ledger.trusted.grow(u, length), ledger.told.grow(u, length)] } else { [Ok(()), Ok(())] };
        if grown != [Ok(()), Ok(())] {
            return Err(format!("one growth is refused: {grown:?}"));
        }
    } else {
        let mut again = vec![FILL; room];
        let trusted = ledger.trusted.grow_recorded_into(u, length, &of.groups, &mut again);
        if trusted != taken || again != lengths {
            return Err(format!("trusted {trusted:?} {again:?}, on any words {taken:?} {lengths:?}"));
        }
        // with a module there is always room
        if wanted != SMALL {
            let told = ledger.told.telling(&mut heard).grow_recorded(u, length, &of.groups);
            if told != taken || heard.0 != steps {
                return Err(format!("told {told:?} {:?}, model {wanted} {steps:?}", heard.0));
            }
        }
    }
    if encode(&sides.replay.model.bench) != ledger.lent || ledger.trusted.words() != &*ledger.lent || ledger.told.words() != &*ledger.lent {
        return Err("the words are not those of the plain ledger's bench".to_string());
    }
    if wanted != 0 && ledger.before != ledger.lent {
        return Err(format!("refused by {wanted}, but the words have changed"));
    }
    ledger.before.copy_from_slice(&ledger.lent[..]);
    Ok((wanted, steps))
}

/// Words that hold no sound bench come before all else, and stay.
fn broken(sides: &Sides, unit: u8, length: i64, of: &Recording, room: usize) -> Result<(), String> {
    let mut words = sides.ledger.lent.clone();
    words[0] = 0;
    let (before, mut lengths) = (words.clone(), vec![FILL; room]);
    let refused = lent::grow_recorded(&mut words, unit, length, &of.words(), &mut lengths);
    if number(&refused) != BROKEN || words != before || lengths.iter().any(|length| *length != FILL) {
        return Err(format!("broken words: {refused:?}"));
    }
    Ok(())
}

/// A run of the generator with recordings between its lines.
fn play(run: &Run, seen: &mut Seen) -> Result<(), String> {
    let (mut player, mut sides, mut rng) = (Player::new(run.plan, run.seed), Sides::default(), Rng::new(run.seed ^ 0x17e4));
    let opening = openings::lines(&run.plan, run.seed, run.each);
    for at in 0..opening.len() + run.lines.min(60) {
        let line = opening.get(at).cloned().unwrap_or_else(|| player.line());
        if at < opening.len() {
            player.play(&line);
        }
        sides.turn(&read(&line).expect("the generator makes lines of the language")).map_err(|why| format!("{line}: {why}"))?;
        let unit = if rng.chance(90) { player.top() as u32 } else { rng.pick(&[0, 1, 2, 3, 7, 8, 255]).expect("some") };
        let of = recording(&mut rng, &sides.ledger.groups);
        let plain = of.plain();
        let progress = sides.replay.model.bench.faces.get(unit as usize).map_or(0, |face| face.progress);
        let length = length(&mut rng, &plain, progress);
        let room = if rng.chance(90) { plain.len() } else { rng.below(plain.len() + 3) };
        let (number, steps) = call(&mut sides, unit, length, &of, room).map_err(|why| format!("{unit} by {length} over {plain:?}, {room}: {why}"))?;
        if number == 0 {
            player.play(&format!("G {unit} {length}"));
        }
        if rng.below(50) == 0 {
            broken(&sides, unit as u8, length, &of, room)?;
            seen.numbers[BROKEN as usize] += 1;
        }
        seen.calls += 1;
        seen.steps += steps.len();
        seen.most = seen.most.max(steps.len());
        seen.numbers[number as usize] += 1;
    }
    sides.everything().map(|_| ())
}

/// Until there are so many recordings.
pub fn compare(least: usize, seed: u64, nth: impl Fn(u64, u64) -> Run) -> Result<Seen, String> {
    let mut seen = Seen::default();
    let mut at = 0;
    while seen.calls < least {
        let run = nth(at, seed);
        play(&run, &mut seen).map_err(|why| format!("plan {}, seed {}: {why}", run.plan.name, run.seed))?;
        at += 1;
    }
    Ok(seen)
}
