//! Moves with something wrong, or several things at once: each field from a pool in which some do not fit.
use super::Player;
use crate::model::bench::PROGRESS;

impl Player {
    fn any_unit(&mut self) -> usize {
        match self.rng.below(10) {
            0 => self.rng.pick(&[8, 9, 100, 255]).unwrap(),
            1..=4 => self.rng.below(8),
            _ => self.top(),
        }
    }

    fn any_serial(&mut self) -> u32 {
        match self.rng.below(12) {
            0 => u32::MAX,
            1 => self.model.bench.next.min(u32::MAX as u64) as u32,
            2 | 3 => self.rng.pick(&self.past).unwrap_or(1),
            _ => self.node().unwrap_or(1),
        }
    }

    /// A node itself, or now and then any other.
    fn near(&mut self, serial: u32) -> u32 {
        if self.rng.chance(85) {
            serial
        } else {
            self.any_serial()
        }
    }

    fn any_length(&mut self) -> i64 {
        let unit = self.top();
        let left = PROGRESS - self.model.bench.faces[unit].progress;
        self.rng.pick(&[left + 1, left, -1, i64::MIN, i64::MAX, 2 * PROGRESS, 3]).unwrap()
    }

    /// A circle of nodes, mostly of a tree; now and then none, or 65.
    fn any_circle(&mut self, unit: usize) -> Vec<u32> {
        match self.rng.below(30) {
            0 => vec![],
            1 => (0..65).map(|_| self.any_serial()).collect(),
            _ => {
                let inside = self.model.bench.present(unit);
                let count = 1 + self.rng.below(3);
                let one = |player: &mut Player| {
                    let fits = player.rng.pick(&inside).map_or(1, |h| h.serial);
                    if player.rng.chance(25) {
                        player.any_serial()
                    } else {
                        fits
                    }
                };
                (0..count).map(|_| one(self)).collect()
            }
        }
    }

    pub fn wrong_blossom(&mut self) -> Option<String> {
        let unit = self.any_unit();
        let near = if unit < 8 && self.rng.chance(80) { self.model.bench.top(unit) } else { self.top() };
        let members = self.any_circle(near);
        let words = |all: &[u32]| all.iter().map(|s| format!(" {s}")).collect::<String>();
        Some(match self.rng.below(3) {
            0 => format!("B {unit}{}", words(&members)),
            1 => {
                let triples: Vec<String> = members.iter().map(|m| format!(" {m} {} {}", self.near(*m), self.near(*m))).collect();
                format!("b {unit}{}", triples.concat())
            }
            _ => {
                let pairs = 1 + self.rng.below(4);
                let touching: Vec<u32> = (0..2 * pairs).map(|_| self.any_serial()).collect();
                format!("t {unit} {}{}{}", members.len(), words(&members), words(&touching))
            }
        })
    }

    pub fn wrong_call(&mut self) -> Option<String> {
        let unit = self.any_unit();
        Some(match self.rng.below(7) {
            0 => format!("D {unit} {}", self.rng.below(self.plan.vertices)),
            1 | 2 => format!("E {unit} {}", self.any_serial()),
            3 => format!("S {unit} {} {}", self.any_serial(), self.rng.between(-1, 1)),
            4 => format!("G {unit} {}", self.any_length()),
            5 => format!("F {unit} {} {}", self.any_unit(), self.any_unit()),
            _ => return self.wrong_blossom(),
        })
    }

    /// As above, of what the text program can say.
    pub fn wrong_text(&mut self) -> Option<String> {
        let sayable = |line: &String| !line.starts_with('b') && !line.starts_with('t') && line.split(' ').count() > 2;
        self.wrong_call().filter(sayable)
    }

    pub fn wrong_read(&mut self) -> Option<String> {
        let unit = self.any_unit();
        let serial = self.any_serial();
        Some(match self.rng.below(10) {
            0 => format!("h {unit} {}", self.rng.below(140)),
            1 => format!("i {unit} {serial}"),
            2 => format!("a {serial} {}", self.rng.below(4)),
            3 | 4 => format!("{} {unit}", self.rng.pick(&["K", "k", "s", "p", "n", "d"])?),
            _ => format!("{} {serial}", self.rng.pick(&["v", "o", "u", "u", "f"])?),
        })
    }

    pub fn wrong_add(&mut self) -> Option<String> {
        let group = self.rng.below(4);
        let s = [self.any_serial(), self.any_serial(), self.any_serial(), self.any_serial()];
        Some(match self.rng.below(5) {
            0 => format!("c {group} {} {} {} {}", s[0], s[1], s[2], s[3]),
            1 => format!("w {group} {} {} {} {}", s[0], s[1], self.rng.below(self.plan.vertices), self.rng.below(2)),
            2 => format!("x {group} {}", s[0]),
            3 => format!("q {group} {}", s[0]),
            _ => format!("r {group} {} {} {}", s[0], s[1], s[2]),
        })
    }

    pub fn wrong_mark(&mut self) -> Option<String> {
        let letter = self.rng.pick(&["P", "P", "Q"])?;
        Some(format!("{letter} {} {}", self.any_unit(), 1 + self.rng.below(2)))
    }

    pub fn wrong_clear(&mut self) -> Option<String> {
        Some(format!("C {}", self.any_unit())).filter(|_| self.rng.chance(20))
    }
}
