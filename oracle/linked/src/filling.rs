//! A long shot in one interface that fills emptied slots: ten thousand blossoms made and expanded, none of them refused as FULL, by the linked ledger in all its
//! forms, the plain model and the original. Then the same interface filled to its 64 nodes, where every turn has one place and then none.
use crate::runs::Sides;
use oracle::generator::rng::Rng;
use oracle::line::read;
use oracle::model::bench::Handle;
use oracle::model::refusals::FULL;

const BLOSSOMS: usize = 10_000;
/// Everything is read after so many turns.
const PAUSE: usize = 500;
const SLOTS: usize = 64;

struct Shot {
    sides: Sides,
    rng: Rng,
    lines: usize,
    reads: usize,
    expanded: usize,
    /// how many nodes went into a slot that was used before
    filled: usize,
}

impl Shot {
    /// A line by all; its number.
    fn say(&mut self, line: String) -> Result<i64, String> {
        self.lines += 1;
        let used = self.sides.replay.model.bench.faces[0].slots.len();
        let turn = self.sides.turn(&read(&line)?).map_err(|why| format!("line {} of the long shot, {line}: {why}", self.lines))?;
        let makes = line.starts_with(['D', 'B']) && turn.is_accepted();
        self.filled += (makes && self.sides.replay.model.bench.faces[0].slots.len() == used) as usize;
        Ok(turn.answer[0])
    }

    fn accepted(&mut self, line: String) -> Result<(), String> {
        match self.say(line.clone())? {
            0 => Ok(()),
            number => Err(format!("line {} of the long shot, {line}: refused by {number}", self.lines)),
        }
    }

    fn free(&self, blossoms: bool) -> Vec<Handle> {
        let bench = &self.sides.replay.model.bench;
        let is_it = |h: &Handle| bench.at(*h).parent.is_none() && bench.at(*h).is_defect() != blossoms;
        bench.slots_of(0).into_iter().filter(is_it).collect()
    }

    fn expand(&mut self) -> Result<(), String> {
        let all = self.free(true);
        let Some(h) = self.rng.pick(&all) else { return Ok(()) };
        self.expanded += 1;
        self.accepted(format!("E 0 {}", h.serial))
    }

    /// A blossom of a few free nodes, blossoms too; a state, a growth now and then; then expansions, so that about ten blossoms stand at a time.
    fn turn(&mut self) -> Result<(), String> {
        let free = [self.free(false), self.free(true)].concat();
        let count = 1 + self.rng.below(3);
        let members: String = self.rng.some(&free, count).iter().map(|h| format!(" {}", h.serial)).collect();
        self.accepted(format!("B 0{members}"))?;
        if self.rng.chance(40) {
            let free = [self.free(false), self.free(true)].concat();
            let (h, state) = (self.rng.pick(&free).expect("the blossom is free"), self.rng.between(-1, 1));
            self.accepted(format!("S 0 {} {state}", h.serial))?;
        }
        if self.rng.chance(40) {
            let length = self.rng.between(0, 30);
            self.accepted(format!("G 0 {length}"))?;
        }
        while self.blossoms() > self.rng.below(20) {
            self.expand()?;
        }
        Ok(())
    }

    fn blossoms(&self) -> usize {
        let bench = &self.sides.replay.model.bench;
        bench.slots_of(0).into_iter().filter(|h| !bench.at(*h).is_defect()).count()
    }

    fn look(&mut self) -> Result<(), String> {
        self.reads += self.sides.everything()?;
        Ok(())
    }
}

/// What was compared, or the first difference.
pub fn compare(seed: u64) -> Result<String, String> {
    let mut shot = Shot { sides: Sides::default(), rng: Rng::new(seed), lines: 0, reads: 0, expanded: 0, filled: 0 };
    shot.accepted("P 0 1".to_string())?;
    for vertex in 0..24 {
        shot.accepted(format!("D 0 {vertex}"))?;
    }
    for turn in 0..BLOSSOMS {
        shot.turn()?;
        if turn % PAUSE == 0 {
            shot.look()?;
        }
    }
    while shot.blossoms() > 0 {
        shot.expand()?;
    }
    let made = shot.expanded;
    if made < BLOSSOMS {
        return Err(format!("only {made} blossoms were made and expanded"));
    }
    full(&mut shot)?;
    shot.look()?;
    let (lines, reads, filled) = (shot.lines, shot.reads, shot.filled);
    Ok(format!("a long shot that fills emptied slots: {made} blossoms made and expanded without a FULL, {filled} nodes in slots used before; {lines} lines and {reads} reads"))
}

/// With one place left: a node, FULL, an expansion, and so on.
fn full(shot: &mut Shot) -> Result<(), String> {
    while shot.sides.replay.model.bench.slots_of(0).len() < SLOTS - 1 {
        shot.accepted(format!("D 0 {}", 1_000 + shot.lines))?;
    }
    for turn in 0..200 {
        let free = shot.free(false);
        let (one, other) = (shot.rng.pick(&free).expect("defects are free").serial, free[0].serial);
        shot.accepted(format!("B 0 {one}"))?;
        for line in [format!("B 0 {other}"), format!("D 0 {turn}")] {
            let number = shot.say(line.clone())?;
            // a member of the new blossom is INSIDE, which comes before FULL
            if number != FULL && (one != other || line.starts_with('D')) {
                return Err(format!("{line} with 64 nodes present: {number}, not FULL"));
            }
        }
        shot.expand()?;
    }
    Ok(())
}
