//! A group's words read as the model's group, by the form in include/dual_ledger.h: plain code, for comparing. Words that are written in no such way are none.
use crate::words::{handle_of, handle_word};
use dual_ledger::{Handle as Hand, Obstacle};
use oracle::line;
use oracle::model::bench::{Handle, NOBODY};
use oracle::model::groups::{Group, Told, MOST};

pub type GroupWords = [u64; dual_ledger::GROUP_WORDS];

const NO_NODE: u64 = 1 << 41;

/// Every word of 2^41 and more is one and the same: it names no node.
fn hand(word: u64) -> Option<Handle> {
    handle_of(word).or_else(|| (word >= NO_NODE).then_some(NOBODY))
}

/// The crate's name of the model's handle.
pub fn named(h: Handle) -> Hand {
    Hand::from_word(if h == NOBODY { NO_NODE } else { handle_word(h) })
}

/// The crate's obstacle of the model's.
pub fn told(o: &Told) -> Obstacle {
    let pair = |(a, b): (Handle, Handle)| (named(a), named(b));
    match o.clone() {
        line::Obstacle::Growth(length, flag) => Obstacle::NonZeroGrow(length, flag),
        line::Obstacle::Conflicting(p, q) => Obstacle::Conflicting(pair(p), pair(q)),
        line::Obstacle::Virtual(p, vertex, mirror) => Obstacle::TouchingVirtual(pair(p), (vertex, mirror)),
        line::Obstacle::NeedExpand(node) => Obstacle::BlossomNeedExpand(named(node)),
        line::Obstacle::Stop(node, with) => Obstacle::VertexShrinkStop(named(node), with.map(pair)),
    }
}

fn flag(word: u64) -> Option<bool> {
    (word < 2).then_some(word == 1)
}

fn obstacle(words: &[u64]) -> Option<Told> {
    let at = |place: usize| hand(words[place]);
    let rest_is_zero = |from: usize| words[from..5].iter().all(|word| *word == 0);
    let (found, said) = match words[0] {
        1 => (line::Obstacle::Growth(words[1] as i64, flag(words[2])?), 3),
        2 => (line::Obstacle::Conflicting((at(1)?, at(2)?), (at(3)?, at(4)?)), 5),
        3 => (line::Obstacle::Virtual((at(1)?, at(2)?), u32::try_from(words[3]).ok()?, flag(words[4])?), 5),
        4 => (line::Obstacle::NeedExpand(at(1)?), 2),
        5 => (line::Obstacle::Stop(at(1)?, None), 2),
        6 => (line::Obstacle::Stop(at(1)?, Some((at(2)?, at(3)?))), 4),
        _ => return None,
    };
    rest_is_zero(said).then_some(found)
}

/// The group that the words hold, if it is sound. Words past the counts, and all but three words of a growth, say nothing.
pub fn decode(words: &GroupWords) -> Option<Group> {
    let stop = |stop: &[u64]| Some((u32::try_from(stop[0]).ok()?, obstacle(&stop[1..])?));
    let (listed, stopped) = (words[3], words[4]);
    match words[0] {
        1 => Some(Group::Growth(words[1] as i64, flag(words[2])?)),
        2 if words[1] == 0 && words[2] == 0 && listed <= MOST as u64 && stopped <= MOST as u64 => {
            let list = words[5..].chunks(5).take(listed as usize).map(obstacle).collect::<Option<Vec<Told>>>()?;
            let pending = words[645..].chunks(6).take(stopped as usize).map(stop).collect::<Option<Vec<(u32, Told)>>>()?;
            let rises = pending.windows(2).all(|two| two[0].0 < two[1].0);
            let group = Group::Conflicts { list, stops: pending.into_iter().collect() };
            Some(group).filter(|group| rises && group.is_sound())
        }
        _ => None,
    }
}
