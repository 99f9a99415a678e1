//! The manual's table of refusals: the tests of each call in rising order; the first that holds is the number given, 0 if none does.
use super::bench::{Bench, Handle, FACES, MEMBERS, PROGRESS, WORN};

pub const LINE: i64 = 1;
pub const BROKEN: i64 = 2;
pub const UNIT: i64 = 3;
pub const CHILD: i64 = 4;
pub const LENGTH: i64 = 5;
pub const CIRCLE: i64 = 6;
pub const TOUCH: i64 = 7;
pub const STALE: i64 = 8;
pub const FOREIGN: i64 = 9;
pub const KIND: i64 = 10;
pub const INSIDE: i64 = 11;
pub const TOP: i64 = 12;
pub const TWICE: i64 = 13;
pub const FULL: i64 = 14;
pub const NO_SERIAL: i64 = 15;
pub const PAIR: i64 = 16;
pub const USED: i64 = 17;
pub const RANGE: i64 = 18;
pub const SMALL: i64 = 19;
pub const ROOM: i64 = 20;
pub const NOTHING: i64 = 21;
pub const BELOW: i64 = 25;
pub const MARK: i64 = 26;
pub const STUCK: i64 = 27;
pub const SHORT: i64 = 28;

impl Bench {
    /// UNIT, then CHILD, of the interfaces a call names.
    pub fn no_face(&self, units: &[u32]) -> i64 {
        if units.iter().any(|u| *u as usize >= FACES) {
            UNIT
        } else if units.iter().any(|u| self.faces[*u as usize].parent.is_some()) {
            CHILD
        } else {
            0
        }
    }

    fn is_stale(&self, h: Handle) -> bool {
        self.node(h).is_none()
    }

    fn is_foreign(&self, unit: u32, h: Handle) -> bool {
        self.top(h.unit as usize) != unit as usize
    }

    /// STALE, then FOREIGN, of the nodes a call names.
    fn no_node(&self, unit: u32, handles: &[Handle]) -> i64 {
        if handles.iter().any(|h| self.is_stale(*h)) {
            STALE
        } else if handles.iter().any(|h| self.is_foreign(unit, *h)) {
            FOREIGN
        } else {
            0
        }
    }

    /// FULL, then no serial left.
    fn no_place(&self, unit: u32) -> i64 {
        if self.faces[unit as usize].is_full() {
            FULL
        } else if self.next >= WORN {
            NO_SERIAL
        } else {
            0
        }
    }

    fn is_inside(&self, h: Handle) -> bool {
        self.at(h).parent.is_some()
    }

    pub fn defect_number(&self, unit: u32) -> i64 {
        first([&|| self.no_face(&[unit]), &|| self.no_place(unit)])
    }

    pub fn blossom_number(&self, unit: u32, members: &[Handle], touching: &[[Handle; 2]]) -> i64 {
        let named: Vec<Handle> = members.iter().chain(touching.iter().flatten()).copied().collect();
        let twice = || (1..members.len()).any(|at| members[..at].contains(&members[at]));
        first([
            &|| self.no_face(&[unit]),
            &|| given(members.is_empty() || members.len() > MEMBERS, CIRCLE),
            &|| given(!touching.is_empty() && touching.len() != members.len(), TOUCH),
            &|| self.no_node(unit, &named),
            &|| given(members.iter().any(|h| self.is_inside(*h)), INSIDE),
            &|| given(twice(), TWICE),
            &|| self.no_place(unit),
        ])
    }

    pub fn expand_number(&self, unit: u32, h: Handle) -> i64 {
        first([&|| self.no_face(&[unit]), &|| self.no_node(unit, &[h]), &|| given(self.at(h).is_defect(), KIND), &|| {
            given(self.is_inside(h), INSIDE)
        }])
    }

    pub fn state_number(&self, unit: u32, h: Handle) -> i64 {
        first([&|| self.no_face(&[unit]), &|| self.no_node(unit, &[h]), &|| given(self.is_inside(h), INSIDE)])
    }

    /// A floored tree in which a shrinking node has less than the length.
    pub fn is_below(&self, unit: usize, length: i64) -> bool {
        self.faces[unit].floored && self.least_shrinking(unit).map_or(false, |least| least < length)
    }

    pub fn grow_number(&self, unit: u32, length: i64) -> i64 {
        let too_far = || length < 0 || length > PROGRESS - self.faces[unit as usize].progress;
        first([&|| self.no_face(&[unit]), &|| given(too_far(), LENGTH), &|| given(self.is_below(unit as usize, length), BELOW)])
    }

    /// A mode is chosen before anything is there; progress does not hinder.
    pub fn mode_number(&self, unit: u32) -> i64 {
        let late = || {
            let face = &self.faces[unit as usize];
            !face.slots.is_empty() || face.children.is_some()
        };
        first([&|| self.no_face(&[unit]), &|| given(late(), MARK)])
    }

    pub fn fuse_number(&self, parent: u32, left: u32, right: u32) -> i64 {
        let used = || {
            let face = &self.faces[parent as usize];
            !face.slots.is_empty() || face.progress != 0 || face.children.is_some()
        };
        let floored = |unit: u32| self.faces[unit as usize].floored;
        first([
            &|| self.no_face(&[parent, left, right]),
            &|| given(left == right || parent <= left || parent <= right, PAIR),
            &|| given(used(), USED),
            &|| given(floored(left) != floored(right), MARK),
        ])
    }
}

pub fn given(holds: bool, number: i64) -> i64 {
    if holds {
        number
    } else {
        0
    }
}

/// The first number that is not 0; a test is only made if those before it passed.
pub fn first<const N: usize>(tests: [&dyn Fn() -> i64; N]) -> i64 {
    tests.iter().map(|test| test()).find(|number| *number != 0).unwrap_or(0)
}
