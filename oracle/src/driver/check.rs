//! The check: the original's words turned into a verdict, and the index worked out where it names none.
use super::{Driver, Trouble};
use crate::panics::caught;
use original::dual_module::{DualNodeClass, DualNodePtr, DualNodeWeak};
use original::pointers::RwLockPtr;
use original::visualize::FusionVisualizer;
use std::collections::HashSet;

/// A member of a circle with its two touching nodes.
type Place = (DualNodeWeak, DualNodeWeak, DualNodeWeak);

impl Driver {
    /// Verdict and index of the plain check.
    pub(super) fn check(&self, unit: u32) -> Result<(i64, i64), Trouble> {
        let face = self.face(unit)?;
        match caught(|| face.sanity_check().map(|_| ())) {
            Ok(Ok(())) => Ok((0, 0)),
            Ok(Err(words)) => self.verdict(unit, &words),
            Err(panic) if self.bare => Err(Trouble::Panic(panic)),
            Err(panic) => self.first_gone(unit)?.map(|index| (4, index)).ok_or(Trouble::Panic(panic)),
        }
    }

    /// The original's picture of an interface, as the JSON that it writes for its viewer. It unwraps its check, so that only an interface whose check says 0 has one.
    pub fn snapshot(&self, unit: u32, abbrev: bool) -> Result<String, Trouble> {
        let face = self.face(unit)?;
        caught(|| face.snapshot(abbrev).to_string()).map_err(Trouble::Panic)
    }

    /// The verdict in the check's words.
    fn verdict(&self, unit: u32, words: &str) -> Result<(i64, i64), Trouble> {
        let last = || words.rsplit(' ').next().and_then(|word| word.parse::<i64>().ok());
        let found = if words.starts_with("duplicate defect index") {
            self.second(unit)?.map(|index| (1, index))
        } else if words.starts_with("touching child can only be syndrome node") {
            last().map(|index| (2, index))
        } else if words.contains("is not descendent of") {
            last().map(|index| (3, index))
        } else if words.starts_with("internal error: the sum of dual variables") {
            Some((5, 0))
        } else {
            None
        };
        found.ok_or_else(|| Trouble::Says(words.to_string()))
    }

    fn flat(&self, unit: u32) -> Result<Vec<DualNodePtr>, Trouble> {
        let mut flat = vec![];
        self.face(unit)?.flatten_nodes(&mut flat);
        Ok(flat.into_iter().flatten().collect())
    }

    /// The index of the first defect whose vertex was seen before it.
    fn second(&self, unit: u32) -> Result<Option<i64>, Trouble> {
        let mut seen = HashSet::new();
        let is_second =
            |node: &&DualNodePtr| matches!(node.read_recursive().class, DualNodeClass::DefectVertex { defect_index } if !seen.insert(defect_index));
        Ok(self.flat(unit)?.iter().find(is_second).map(|node| node.read_recursive().index as i64))
    }

    /// The circles' places in the order of the check.
    fn places(&self, unit: u32) -> Result<Vec<Place>, Trouble> {
        let circle = |node: &DualNodePtr| match &node.read_recursive().class {
            DualNodeClass::Blossom { nodes_circle, touching_children } => {
                nodes_circle.iter().zip(touching_children).map(|(m, (a, b))| (m.clone(), a.clone(), b.clone())).collect()
            }
            _ => vec![],
        };
        Ok(self.flat(unit)?.iter().flat_map(circle).collect())
    }

    /// The index of the first blossom member with a touching node that is gone.
    fn first_gone(&self, unit: u32) -> Result<Option<i64>, Trouble> {
        for (member, first, second) in self.places(unit)? {
            let member = match member.upgrade() {
                Some(member) => member,
                None => return Ok(None),
            };
            let member = member.read_recursive();
            if member.class.is_blossom() && (first.upgrade().is_none() || second.upgrade().is_none()) {
                return Ok(Some(member.index as i64));
            }
        }
        Ok(None)
    }

    /// The strict check: the original has none, so after its 0 the walk is made here, over its nodes.
    pub(super) fn strict(&self, unit: u32) -> Result<(i64, i64), Trouble> {
        let plain = self.check(unit)?;
        if plain != (0, 0) {
            return Ok(plain);
        }
        for (member, first, second) in self.places(unit)? {
            let member = member.upgrade_force();
            let is_under = |touch: DualNodeWeak| {
                let mut at = touch.upgrade_force();
                while at != member {
                    let parent = at.read_recursive().parent_blossom.clone();
                    match parent {
                        Some(parent) => at = parent.upgrade_force(),
                        None => return false,
                    }
                }
                true
            };
            let is_blossom = member.read_recursive().class.is_blossom();
            if is_blossom && !(is_under(first) && is_under(second)) {
                return Ok((6, member.read_recursive().index as i64));
            }
        }
        Ok((0, 0))
    }
}
