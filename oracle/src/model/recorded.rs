//! Growing against a recorded list of groups (docs/MANUAL.md, Recorded growth), step by step as it is said there: on a bench aside, which is kept where every step
//! was accepted.
use super::bench::Bench;
use super::groups::Group;
use super::refusals::{first, given, BROKEN, LENGTH, NOTHING, SHORT, SMALL, STUCK};

impl Bench {
    /// Number and the lengths of the steps. Positions without a sound group are none; there is room for so many lengths.
    pub fn grow_recorded(&mut self, unit: u32, length: i64, groups: &[Option<Group>], room: usize) -> (i64, Vec<i64>) {
        let number = first([&|| self.no_face(&[unit]), &|| given(length < 0, LENGTH)]);
        if number != 0 {
            return (number, vec![]);
        }
        let (mut after, mut left, mut steps) = (self.clone(), length, vec![]);
        while left > 0 {
            let number = match groups.get(steps.len()) {
                None => SHORT,
                Some(None) => BROKEN,
                Some(Some(Group::Growth(i64::MAX, _))) => NOTHING,
                Some(Some(Group::Growth(growth, _))) if *growth > 0 => {
                    let step = left.min(*growth);
                    left -= step;
                    steps.push(step);
                    after.grow(unit, step).number
                }
                Some(Some(_)) => STUCK,
            };
            if number != 0 {
                return (number, vec![]);
            }
        }
        if room < groups.len() {
            return (SMALL, vec![]);
        }
        *self = after;
        (0, steps)
    }
}
