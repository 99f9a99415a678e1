//! Pictures beside the original's: the linked ledger's JSON parsed (serde_json), its values compared with those of the original's `snapshot`, in both forms and
//! by both choices of names, after every line of generated runs and in the deepest nest. The original's text has its own order of keys, so values are compared.
use crate::nests;
use crate::openings;
use crate::runs::{changes, Run, Sides};
use dual_ledger::{lent, Refusal, Verdict};
use oracle::generator::Player;
use oracle::line::read;
use oracle::model::bench::Class;
use serde_json::Value;

/// What was compared: pictures of an interface with nodes whose check says 0, twice each, by the names.
#[derive(Default)]
pub struct Seen {
    pub pictures: usize,
    single: usize,
    fused: usize,
    deep: usize,
    touching: usize,
    emptied: usize,
    filled: usize,
    unsound: usize,
    refused: usize,
}

impl std::fmt::Display for Seen {
    fn fmt(&self, f: &mut std::fmt::Formatter) -> std::fmt::Result {
        writeln!(f, "{} benches with check 0, each by both choices of names: {} single, {} fused;", self.pictures, self.single, self.fused)?;
        writeln!(
            f,
            "{} with a nest of two blossoms or more, {} touching by other nodes than members, {} with emptied slots, {} of trees that fill some",
            self.deep, self.touching, self.emptied, self.filled
        )?;
        writeln!(f, "{} refused as UNSOUND, {} as UNIT or CHILD", self.unsound, self.refused)
    }
}

/// Keys in the order of the manual, each node's six: the text with its values taken out.
fn order(picture: &str, abbrev: bool) -> bool {
    let key = |short: &str, full: &str| format!("\"{}\":", if abbrev { short } else { full });
    let keys =
        [("o", "blossom"), ("t", "touching_children"), ("s", "defect_vertex"), ("g", "grow_state"), ("u", "unit_growth"), ("p", "parent_blossom")];
    let mut rest = picture;
    let mut next = |wanted: String| rest.find(&wanted).map(|at| rest = &rest[at + wanted.len()..]).is_some();
    let count = picture.matches(&key("g", "grow_state")).count();
    let heads = [("s", "sum_grow_speed"), ("d", "sum_dual_variables")];
    heads.iter().all(|(short, full)| next(key(short, full))) && (0..count).all(|_| keys.iter().all(|(short, full)| next(key(short, full))))
}

/// The original's picture with its nodes where the ledger has them, in a tree in which emptied slots are filled: the original has all of them at other indices.
fn placed(sides: &Sides, unit: u8, mut theirs: Value) -> Value {
    let (model, serials) = (&sides.replay.model.bench, sides.replay.serials(unit as u32));
    let ours: Vec<Option<u32>> = model.slots(unit as usize).into_iter().map(|(_, node)| node.map(|node| node.serial)).collect();
    let moved = |index: &Value| {
        let serial = index.as_u64().and_then(|index| serials.get(index as usize));
        serial.and_then(|serial| ours.iter().position(|own| *own == Some(*serial))).map_or(index.clone(), Value::from)
    };
    let all = |list: &Value, each: &dyn Fn(&Value) -> Value| list.as_array().map_or(Value::Null, |list| list.iter().map(each).collect());
    let nodes = theirs["dual_nodes"].as_array().cloned().unwrap_or_default();
    let node = |serial: &Option<u32>| {
        let mut node = serials.iter().position(|own| Some(*own) == *serial).and_then(|at| nodes.get(at)).cloned().unwrap_or(Value::Null);
        for (key, value) in node.as_object_mut().into_iter().flatten() {
            match key.as_str() {
                "o" | "blossom" => *value = all(value, &moved),
                "t" | "touching_children" => *value = all(value, &|pair| all(pair, &moved)),
                "p" | "parent_blossom" => *value = moved(value),
                _ => {}
            }
        }
        node
    };
    theirs["dual_nodes"] = ours.iter().map(node).collect();
    theirs
}

impl Seen {
    /// Every interface of the bench as it stands.
    pub fn look(&mut self, sides: &Sides) -> Result<(), String> {
        for unit in 0..=8u8 {
            let (bench, words) = (&sides.ledger.trusted, &sides.ledger.lent);
            for abbrev in [true, false] {
                let ours = bench.snapshot(unit, abbrev);
                if lent::snapshot(words, unit, abbrev) != ours {
                    return Err(format!("picture of {unit}: the two forms differ"));
                }
                match (bench.sanity_check(unit), ours) {
                    (Ok(Verdict::Sound), Ok(ours)) => self.same(sides, unit, abbrev, &ours)?,
                    (Ok(_), Err(Refusal::Unsound)) => self.unsound += 1,
                    (Err(why), Err(said)) if why == said => self.refused += 1,
                    (check, ours) => return Err(format!("picture of {unit}: {ours:?}, where the check says {check:?}")),
                }
            }
        }
        Ok(())
    }

    /// Of one interface, where the check says 0.
    fn same(&mut self, sides: &Sides, unit: u8, abbrev: bool, ours: &str) -> Result<(), String> {
        let theirs = sides.replay.snapshot(unit as u32, abbrev)?;
        let parsed: Value = serde_json::from_str(ours).map_err(|why| format!("{ours}: {why}"))?;
        let value: Value = serde_json::from_str(&theirs).map_err(|why| why.to_string())?;
        let is_filled = sides.replay.model.bench.has_filling(unit as usize);
        if parsed != (if is_filled { placed(sides, unit, value) } else { value }) {
            return Err(format!("picture of {unit}: linked {ours}, original {theirs}"));
        }
        if !order(ours, abbrev) || ours.contains([' ', '\n']) {
            return Err(format!("picture of {unit}: keys out of order, or a space: {ours}"));
        }
        let bench = &sides.replay.model.bench;
        if abbrev && !bench.slots(unit as usize).is_empty() {
            self.pictures += 1;
            *(if bench.faces[unit as usize].children.is_some() { &mut self.fused } else { &mut self.single }) += 1;
            let nodes: Vec<_> = bench.present(unit as usize).into_iter().map(|h| (h, bench.at(h))).collect();
            let circles = || nodes.iter().filter_map(|(_, node)| if let Class::Blossom(circle) = &node.class { Some(circle) } else { None });
            let is_ring = |h| matches!(bench.at(h).class, Class::Blossom(_));
            self.deep += circles().any(|circle| circle.iter().any(|m| is_ring(m.node))) as usize;
            self.touching += circles().any(|circle| circle.iter().any(|m| m.touch != [m.node; 2])) as usize;
            self.emptied += (nodes.len() < bench.slots(unit as usize).len()) as usize;
            self.filled += is_filled as usize;
        }
        Ok(())
    }
}

/// The deepest nest by calls, and then runs until there are so many.
pub fn compare(least: usize, seed: u64, nth: impl Fn(u64, u64) -> Run) -> Result<Seen, String> {
    let (mut seen, mut sides) = (Seen::default(), Sides::default());
    for line in nests::lines(nests::BY_CALLS) {
        sides.turn(&read(&line).expect("a line of the language"))?;
    }
    seen.look(&sides)?;
    let mut at = 0;
    while seen.pictures < least {
        let run = nth(at, seed);
        played(&run, &mut seen).map_err(|why| format!("plan {}, seed {}: {why}", run.plan.name, run.seed))?;
        at += 1;
    }
    Ok(seen)
}

/// A run's calls that may change the bench, the groups' left out: short runs are looked at after each, long ones at their end.
fn played(run: &Run, seen: &mut Seen) -> Result<(), String> {
    let (mut player, mut sides) = (Player::new(run.plan, run.seed), Sides::default());
    let opening = openings::lines(&run.plan, run.seed, run.each);
    let lines = opening.len() + run.lines;
    for at in 0..lines {
        let line = opening.get(at).cloned().unwrap_or_else(|| player.line());
        if at < opening.len() {
            player.play(&line);
        }
        let call = read(&line).expect("the generator makes lines of the language");
        if changes(&call) {
            sides.turn(&call)?;
            if run.each || at + 60 > lines {
                seen.look(&sides)?;
            }
        }
    }
    Ok(())
}
