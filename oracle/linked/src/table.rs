//! What was compared, counted.
use oracle::coverage::Coverage;
use oracle::line::Line;
use oracle::model::Model;
use oracle::replay::Turn;
use std::collections::BTreeMap;
use std::fmt;

#[derive(Default)]
pub struct Table {
    /// compared at the end, and after every line
    pub runs: [usize; 2],
    /// letter, then number, then how often
    calls: BTreeMap<char, BTreeMap<i64, usize>>,
    verdicts: BTreeMap<(&'static str, i64), usize>,
    marked: usize,
    /// reads made to compare everything, beside the lines of the runs
    pub reads: usize,
    /// shapes, of one run in seventeen
    shapes: Coverage,
    /// damaged benches by kind of damage, and by the rule that they break first; none if they are sound still
    pub damaged: BTreeMap<(&'static str, Option<&'static str>), usize>,
    /// damaged groups by kind of damage, and whether they are sound still
    pub groups: BTreeMap<(&'static str, bool), usize>,
    /// conflicts and growths that the pop that spares the stops was called on until there was nothing, and how many calls
    pub drained: [usize; 2],
    pub spared: usize,
}

impl Table {
    pub fn wants_shapes(&self, seed: u64) -> bool {
        seed % 17 == 0
    }

    pub fn see(&mut self, text: &str, call: &Line, before: Option<&Model>, after: &Model, turn: &Turn) {
        let letter = text.chars().next().unwrap_or(' ');
        *self.calls.entry(letter).or_default().entry(turn.answer[0]).or_default() += 1;
        self.marked += turn.mark.is_some() as usize;
        match call {
            Line::Check(_) if turn.is_accepted() => *self.verdicts.entry(("plain", turn.answer[1])).or_default() += 1,
            Line::Strict(_) if turn.is_accepted() => *self.verdicts.entry(("strict", turn.answer[1])).or_default() += 1,
            _ => {}
        }
        before.into_iter().for_each(|before| self.shapes.see(text, call, before, after, turn));
    }

    pub fn accepted(&self) -> usize {
        self.calls.values().filter_map(|numbers| numbers.get(&0)).sum()
    }

    pub fn refused(&self) -> usize {
        self.calls.values().flatten().filter(|(number, _)| **number != 0).map(|(_, count)| count).sum()
    }

    pub fn damages(&self) -> usize {
        self.damaged.values().sum()
    }
}

impl fmt::Display for Table {
    fn fmt(&self, f: &mut fmt::Formatter) -> fmt::Result {
        let [ends, each] = self.runs;
        writeln!(f, "{} accepted calls, {} refused, in {} runs", self.accepted(), self.refused(), ends + each)?;
        writeln!(f, "everything read after every call in {each} runs, at the end in {ends}: {} reads more", self.reads)?;
        writeln!(f, "{} answers by the manual against the original", self.marked)?;
        writeln!(f, "calls by number (0: accepted):")?;
        for (letter, numbers) in &self.calls {
            let counts: Vec<String> = numbers.iter().map(|(number, count)| format!("{number}: {count}")).collect();
            writeln!(f, "  {letter}  {}", counts.join(", "))?;
        }
        let verdicts: Vec<String> = self.verdicts.iter().map(|((check, verdict), count)| format!("{check} {verdict}: {count}")).collect();
        writeln!(f, "verdicts: {}", verdicts.join(", "))?;
        let shapes: Vec<String> = self.shapes.shapes.iter().map(|(shape, count)| format!("{shape}: {count}")).collect();
        writeln!(f, "shapes, in one run of seventeen: {}, blossoms in one another up to {}", shapes.join(", "), self.shapes.deepest)?;
        self.damages_by(f, "by damage", |(kind, _)| kind)?;
        self.damages_by(f, "BROKEN by", |(_, rule)| rule.unwrap_or("nothing: sound still"))?;
        let shown = |((kind, sound), count): (&(&str, bool), &usize)| format!("{kind}, {}: {count}", if *sound { "sound" } else { "BROKEN" });
        let groups: Vec<String> = self.groups.iter().map(shown).collect();
        writeln!(f, "{} damaged groups: {}", self.groups.values().sum::<usize>(), groups.join(", "))?;
        let [conflicts, growths] = self.drained;
        writeln!(f, "{conflicts} conflicts and {growths} growths drained with the stops spared: {} calls, each in two forms", self.spared)
    }
}

impl Table {
    fn damages_by(&self, f: &mut fmt::Formatter, title: &str, key: impl Fn((&'static str, Option<&'static str>)) -> &'static str) -> fmt::Result {
        let mut counts: BTreeMap<&str, usize> = BTreeMap::new();
        self.damaged.iter().for_each(|(at, count)| *counts.entry(key(*at)).or_default() += count);
        let shown: Vec<String> = counts.iter().map(|(name, count)| format!("{name}: {count}")).collect();
        writeln!(f, "{} damaged benches, {title}: {}", self.damages(), shown.join(", "))
    }
}
