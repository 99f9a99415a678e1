//! Serials for the original's node objects, by weak pointers: which object a serial names, and which serial an object has.
use original::dual_module::{DualNodePtr, DualNodeWeak};
use original::pointers::RwLockPtr;
use std::collections::HashMap;
use std::sync::Arc;

pub struct Nodes {
    next: u64,
    present: HashMap<u32, DualNodeWeak>,
    /// those that went, in that order; a weak pointer keeps the address from being given out again
    stale: Vec<(u32, DualNodeWeak)>,
    serials: HashMap<usize, u32>,
    keeps_cleared: bool,
}

fn address(node: &DualNodePtr) -> usize {
    Arc::as_ptr(node.ptr()) as usize
}

impl Nodes {
    pub fn new(first: u32, keeps_cleared: bool) -> Self {
        Nodes { next: first as u64, present: HashMap::new(), stale: vec![], serials: HashMap::new(), keeps_cleared }
    }

    /// Gives a new node the next serial. An object used again after a clear gets the new one.
    pub fn made(&mut self, node: &DualNodePtr) -> u32 {
        let serial = self.next as u32;
        self.next += 1;
        self.present.insert(serial, node.downgrade());
        self.serials.insert(address(node), serial);
        serial
    }

    /// The object of a present node; of one that was cleared too, where those are kept.
    pub fn find(&self, serial: u32) -> Option<DualNodePtr> {
        let kept = || self.stale.iter().rev().find(|(s, _)| self.keeps_cleared && *s == serial).map(|(_, weak)| weak);
        self.present.get(&serial).or_else(kept)?.upgrade()
    }

    pub fn gone(&mut self, serial: u32) {
        if let Some(weak) = self.present.remove(&serial) {
            self.stale.push((serial, weak));
        }
    }

    pub fn cleared(&mut self, node: &DualNodePtr) {
        self.gone(self.serial_of(node));
    }

    pub fn serial_of(&self, node: &DualNodePtr) -> u32 {
        self.serials.get(&address(node)).copied().unwrap_or(0)
    }

    pub fn serial_of_weak(&self, weak: &DualNodeWeak) -> u32 {
        match weak.upgrade() {
            Some(node) => self.serial_of(&node),
            None => self.stale.iter().rev().find(|(_, w)| w == weak).map_or(0, |(serial, _)| *serial),
        }
    }
}
