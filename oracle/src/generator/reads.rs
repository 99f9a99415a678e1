//! Moves that read: checks, interfaces, nodes.
use super::Player;

impl Player {
    pub fn check(&mut self) -> Option<String> {
        let letter = self.rng.pick(&["K", "k"])?;
        Some(format!("{letter} {}", self.top()))
    }

    pub fn plain_check(&mut self) -> Option<String> {
        Some(format!("K {}", self.top()))
    }

    pub fn of_face(&mut self) -> Option<String> {
        let letter = self.rng.pick(&["s", "p", "n", "d"])?;
        Some(format!("{letter} {}", self.top()))
    }

    pub fn of_mode(&mut self) -> Option<String> {
        Some(format!("Q {} {}", self.top(), 1 + self.rng.below(2)))
    }

    pub fn handle_at(&mut self) -> Option<String> {
        let unit = self.top();
        let count = self.model.bench.slots(unit).len();
        Some(format!("h {unit} {}", self.rng.below(count.max(1)))).filter(|_| count > 0)
    }

    pub fn belongs(&mut self) -> Option<String> {
        let serial = if self.rng.chance(80) { self.node()? } else { self.rng.pick(&self.past)? };
        Some(format!("i {} {serial}", self.top()))
    }

    pub fn of_node(&mut self) -> Option<String> {
        let serial = self.node()?;
        let inside = self.model.bench.at(self.model.bench.named(serial)).parent.is_some();
        let letter = self.rng.pick(if inside { &["v", "o", "f", "u"][..] } else { &["v", "o", "f"] })?;
        Some(format!("{letter} {serial}"))
    }

    pub fn vertices_of(&mut self) -> Option<String> {
        let serial = self.node()?;
        let size = self.model.bench.at(self.model.bench.named(serial)).size;
        Some(format!("a {serial} {}", size + self.rng.between(0, 3)))
    }
}
