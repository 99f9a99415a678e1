//! The fixed list for timing: accepted operations in shots, as a decoder makes them, as lines of the text program. Seeded.
use crate::generator::moves::serials;
use crate::generator::plans::TEXT;
use crate::generator::Player;
use crate::model::bench::Handle;

/// Adds lines until the list is long enough; each is played.
struct Shots {
    player: Player,
    lines: Vec<String>,
}

impl Shots {
    fn say(&mut self, line: String) {
        assert!(self.player.play(&line), "refused: {line}");
        self.lines.push(line);
    }

    /// Defects of one interface, so many from least to most.
    fn load(&mut self, unit: usize, least: i64, most: i64) {
        for at in 0..self.player.rng.between(least, most) as usize {
            let vertex = 10_000 * unit + 100 * at + self.player.rng.below(100);
            self.say(format!("D {unit} {vertex}"));
        }
    }

    /// A shot: defects, fuses, rounds, a clear. Of ten shots seven are on one interface, two on two halves, one on four quarters fused twice.
    fn shot(&mut self) {
        let (leaves, most, fuses, top): (usize, i64, &[&str], usize) = match self.player.rng.below(10) {
            0..=6 => (1, 24, &[], 0),
            7 | 8 => (2, 20, &["F 2 0 1"], 2),
            _ => (4, 8, &["F 4 0 1", "F 5 2 3", "F 6 4 5"], 6),
        };
        (0..leaves).for_each(|unit| self.load(unit, 8, most));
        fuses.iter().for_each(|fuse| self.say(fuse.to_string()));
        for _ in 0..2 * (20 + self.player.rng.below(40)) {
            self.round(top);
        }
        self.say(format!("C {top}"));
    }

    /// Growth 35 in a hundred, a blossom of 3 to 9 members 12, an expansion 10, else, or where there is none to make, a state set.
    fn round(&mut self, top: usize) {
        let free = self.player.free(top);
        let blossoms: Vec<Handle> = free.iter().copied().filter(|h| !self.player.model.bench.at(*h).is_defect()).collect();
        let choice = self.player.rng.below(100);
        if choice < 35 {
            let length = 1 + self.player.rng.below(100);
            return self.say(format!("G {top} {length}"));
        }
        if choice < 47 && free.len() >= 3 && self.player.has_room(top) {
            let count = 3 + self.player.rng.below(7);
            let members = self.player.rng.some(&free, count);
            return self.say(format!("B {top}{}", serials(&members)));
        }
        if (47..57).contains(&choice) && !blossoms.is_empty() {
            let blossom = self.player.rng.pick(&blossoms).expect("there is one");
            return self.say(format!("E {top} {}", blossom.serial));
        }
        let node = self.player.rng.pick(&free).expect("a tree with nodes has one without parent");
        let state = self.player.rng.between(-1, 1);
        self.say(format!("S {top} {} {state}", node.serial));
    }
}

/// So many operations, the last shot cut off.
pub fn list(count: usize, seed: u64) -> String {
    let mut shots = Shots { player: Player::new(TEXT, seed), lines: vec![] };
    while shots.lines.len() < count {
        shots.shot();
    }
    shots.lines.truncate(count);
    shots.lines.join("\n") + "\n"
}
