//! The check and the strict check: verdict and index of an interface without a parent.
use super::bench::{Bench, Class, Handle};
use std::collections::HashSet;

impl Bench {
    pub fn check(&self, unit: usize) -> (i64, i64) {
        let mut seen = HashSet::new();
        for h in self.present(unit) {
            match &self.at(h).class {
                Class::Defect(vertex) if !seen.insert(*vertex) => return (1, self.index(unit, h)),
                Class::Defect(_) => {}
                Class::Blossom(circle) => {
                    for member in circle {
                        let verdict = self.member_verdict(member.node, &member.touch);
                        if verdict != 0 {
                            return (verdict, self.index(unit, member.node));
                        }
                    }
                }
            }
        }
        let total: i64 = self.present(unit).into_iter().map(|h| self.at(h).value).sum();
        if total == self.faces[unit].sum {
            (0, 0)
        } else {
            (5, 0)
        }
    }

    fn member_verdict(&self, member: Handle, touch: &[Handle; 2]) -> i64 {
        if self.at(member).is_defect() {
            return if touch.iter().all(|h| *h == member) { 0 } else { 2 };
        }
        if touch.iter().any(|h| self.node(*h).is_none()) {
            return 4;
        }
        let outermost = self.outermost(member);
        if touch.iter().any(|h| self.outermost(*h) != outermost) {
            return 3;
        }
        0
    }

    pub fn strict(&self, unit: usize) -> (i64, i64) {
        let plain = self.check(unit);
        if plain.0 != 0 {
            return plain;
        }
        for h in self.present(unit) {
            for member in self.at(h).circle() {
                let is_blossom = !self.at(member.node).is_defect();
                if is_blossom && member.touch.iter().any(|touch| !self.is_under(*touch, member.node)) {
                    return (6, self.index(unit, member.node));
                }
            }
        }
        (0, 0)
    }

    /// The member itself, or a node whose parents lead to it.
    fn is_under(&self, h: Handle, member: Handle) -> bool {
        self.chain(h).contains(&member)
    }
}
