//! The linked ledger as a third that answers the language: each call by all its forms, on benches that must stay the same word for word.
use crate::words::{decode, Words};
use dual_ledger::{lent, Bench, DualModule, Group, GrowState, Handle, Refusal, Told};
use oracle::line::{Line, Mode, GROUPS};
use oracle::show::{self, Notice};
use std::collections::HashMap;

/// Three benches for the three forms of a call, and the words as they were after the last accepted one.
pub struct Ledger {
    pub trusted: Bench,
    pub told: Bench,
    pub lent: Box<Words>,
    pub before: Box<Words>,
    pub groups: Vec<Group>,
    /// every handle ever given out, so that a stale serial is asked by what named it
    pub handles: HashMap<u32, Handle>,
    /// how many reads were made
    pub asked: usize,
    /// whether the benches are of the plain engine
    pub plain: bool,
}

/// An answer, or how the forms of a call differ among themselves.
pub type Answer = Result<Vec<i64>, String>;

/// Notes what it is told.
#[derive(Default)]
struct Notes(Vec<Notice>);

impl DualModule for Notes {
    fn add_defect_node(&mut self, _: &Bench, node: Handle) {
        self.0.push(Notice::DefectAdded(node.serial()))
    }
    fn add_blossom(&mut self, _: &Bench, blossom: Handle) {
        self.0.push(Notice::BlossomAdded(blossom.serial()))
    }
    fn remove_blossom(&mut self, _: &Bench, blossom: Handle) {
        self.0.push(Notice::BlossomRemoved(blossom.serial()))
    }
    fn set_grow_state(&mut self, _: &Bench, node: Handle, state: GrowState) {
        self.0.push(Notice::StateSet(node.serial(), state.rate() as i64))
    }
    fn prepare_nodes_shrink(&mut self, _: &Bench, circle: &[Handle]) {
        self.0.push(Notice::ShrinkPrepared(circle.iter().map(|node| node.serial()).collect()))
    }
    fn grow(&mut self, _: &Bench, length: i64) {
        self.0.push(Notice::Grown(length))
    }
}

/// The notices of a lent call.
pub fn notices(told: &Told) -> Vec<Notice> {
    let shown = |notice| match notice {
        dual_ledger::Notice::DefectAdded(node) => Notice::DefectAdded(node.serial()),
        dual_ledger::Notice::StateSet(node, state) => Notice::StateSet(node.serial(), state.rate() as i64),
        dual_ledger::Notice::ShrinkPrepared(circle) => Notice::ShrinkPrepared(circle.iter().map(|node| node.serial()).collect()),
        dual_ledger::Notice::BlossomAdded(node) => Notice::BlossomAdded(node.serial()),
        dual_ledger::Notice::BlossomRemoved(node) => Notice::BlossomRemoved(node.serial()),
        dual_ledger::Notice::Grown(length) => Notice::Grown(length),
    };
    told.notices().map(shown).collect()
}

pub fn number<T>(result: &Result<T, Refusal>) -> i64 {
    result.as_ref().err().map_or(0, |refusal| refusal.number() as i64)
}

/// A unit as the calls take it: those above 255 are as wrong as 255.
pub fn unit(unit: u32) -> u8 {
    unit.min(255) as u8
}

pub fn state(rate: i64) -> GrowState {
    match rate {
        1 => GrowState::Grow,
        0 => GrowState::Stay,
        _ => GrowState::Shrink,
    }
}

/// What the forms of one call answered: the node that each names, and the notices of the two that tell.
struct Forms {
    trusted: Result<Option<Handle>, Refusal>,
    told: Result<Option<Handle>, Refusal>,
    lent: Result<Option<Handle>, Refusal>,
    notes: Vec<Notice>,
    lent_notes: Vec<Notice>,
}

impl Ledger {
    /// From 0 as from 1: so the refused set-up leaves it.
    pub fn new(first: u32) -> Self {
        Ledger::over(Bench::new(first).unwrap_or_default())
    }

    /// The same in the plain engine.
    pub fn plain(first: u32) -> Self {
        Ledger::over(Bench::plain(first.max(1)).expect("the serial is not 0"))
    }

    fn over(bench: Bench) -> Self {
        let plain = bench.is_plain();
        let (lent, before) = (Box::new(*bench.words()), Box::new(*bench.words()));
        Ledger { trusted: bench.clone(), told: bench, lent, before, groups: vec![Group::default(); GROUPS], handles: HashMap::new(), asked: 0, plain }
    }

    /// The handle of a serial: the one given out with it, else a made-up one, or a word that is no handle.
    pub fn handle(&self, serial: u32) -> Handle {
        let made_up = || match serial % 3 {
            0 => Handle::from_word((1 << 41) + serial as u64),
            1 => Handle::from_word(u64::MAX - serial as u64),
            _ => Handle::new((serial % 8) as u8, (serial / 8 % 64) as u8, serial),
        };
        self.handles.get(&serial).copied().unwrap_or_else(made_up)
    }

    pub fn answer(&mut self, line: &Line) -> Answer {
        match line {
            Line::SetUp(first) => self.set_up(*first),
            Line::Defect(u, _) | Line::Blossom(u, ..) | Line::Expand(u, _) | Line::SetState(u, ..) | Line::Grow(u, _) => {
                let forms = self.call(line);
                self.settle(*u, forms)
            }
            Line::Fuse(u, ..) | Line::Clear(u) | Line::Mark(u, _) => {
                let forms = self.whole(line);
                self.settle(*u, forms)
            }
            other => self.look(other),
        }
    }

    /// Each set-up goes to the other engine, so that a run is in both.
    fn set_up(&mut self, first: u32) -> Answer {
        let plain = !self.plain;
        *self = if plain { Ledger::plain(first) } else { Ledger::new(first) };
        let mut words = Box::new([first as u64; dual_ledger::WORDS]);
        let lent = number(&if plain { lent::set_up_plain(&mut words, first) } else { lent::set_up(&mut words, first) });
        let whole = if plain { Bench::plain(first) } else { Bench::new(first) };
        if lent != number(&whole) || words != self.lent {
            return Err("set-up on lent words differs from a new bench".to_string());
        }
        Ok(vec![lent])
    }

    /// Calls that tell notices.
    fn call(&mut self, line: &Line) -> Forms {
        let mut notes = Notes::default();
        let handles = |serials: &[u32]| serials.iter().map(|s| self.handle(*s)).collect::<Vec<_>>();
        let (trusted, told, lent) = match line {
            Line::Defect(u, vertex) => (
                self.trusted.create_defect_node(unit(*u), *vertex).map(Some),
                self.told.telling(&mut notes).create_defect_node(unit(*u), *vertex).map(Some),
                lent::create_defect_node(&mut self.lent, unit(*u), *vertex),
            ),
            Line::Blossom(u, members, touching) => {
                let circle = handles(members);
                let touching: Vec<[Handle; 2]> = touching.iter().map(|(a, b)| [self.handle(*a), self.handle(*b)]).collect();
                (
                    self.trusted.create_blossom(unit(*u), &circle, &touching).map(Some),
                    self.told.telling(&mut notes).create_blossom(unit(*u), &circle, &touching).map(Some),
                    lent::create_blossom(&mut self.lent, unit(*u), &circle, &touching),
                )
            }
            Line::Expand(u, serial) => {
                let node = self.handle(*serial);
                (
                    self.trusted.expand_blossom(unit(*u), node).map(|_| Some(node)),
                    self.told.telling(&mut notes).expand_blossom(unit(*u), node).map(|_| Some(node)),
                    lent::expand_blossom(&mut self.lent, unit(*u), node),
                )
            }
            Line::SetState(u, serial, rate) => {
                let node = self.handle(*serial);
                (
                    self.trusted.set_grow_state(unit(*u), node, state(*rate)).map(|_| Some(node)),
                    self.told.telling(&mut notes).set_grow_state(unit(*u), node, state(*rate)).map(|_| Some(node)),
                    lent::set_grow_state(&mut self.lent, unit(*u), node, state(*rate)),
                )
            }
            Line::Grow(u, length) => (
                self.trusted.grow(unit(*u), *length).map(|_| None),
                self.told.telling(&mut notes).grow(unit(*u), *length).map(|_| None),
                lent::grow(&mut self.lent, unit(*u), *length),
            ),
            _ => unreachable!("{line:?} tells nothing"),
        };
        let lent_notes = lent.as_ref().map(notices).unwrap_or_default();
        Forms { trusted, told, lent: lent.map(|answer| answer.node()), notes: notes.0, lent_notes }
    }

    /// Calls on interfaces alone.
    fn whole(&mut self, line: &Line) -> Forms {
        let mut notes = Notes::default();
        let (trusted, told, lent) = match line {
            Line::Fuse(parent, left, right) => {
                let (p, l, r) = (unit(*parent), unit(*left), unit(*right));
                (self.trusted.fuse(p, l, r), self.told.telling(&mut notes).fuse(p, l, r), lent::fuse(&mut self.lent, p, l, r))
            }
            Line::Clear(u) => (self.trusted.clear(unit(*u)), self.told.telling(&mut notes).clear(unit(*u)), lent::clear(&mut self.lent, unit(*u))),
            Line::Mark(u, Mode::Filling) => {
                let u = unit(*u);
                (self.trusted.mark_filling(u), self.told.telling(&mut notes).mark_filling(u), lent::mark_filling(&mut self.lent, u))
            }
            Line::Mark(u, Mode::Floored) => {
                let u = unit(*u);
                (self.trusted.mark_floored(u), self.told.telling(&mut notes).mark_floored(u), lent::mark_floored(&mut self.lent, u))
            }
            _ => unreachable!("{line:?} is no call on interfaces"),
        };
        let none = |result: Result<(), Refusal>| result.map(|_| None);
        Forms { trusted: none(trusted), told: none(told), lent: none(lent), notes: notes.0, lent_notes: vec![] }
    }

    /// The forms' one answer, if they agree in all; a refused one must have left every word as it was.
    fn settle(&mut self, u: u32, forms: Forms) -> Answer {
        if forms.trusted != forms.told || forms.told != forms.lent {
            return Err(format!("trusted {:?}, told {:?}, lent {:?}", forms.trusted, forms.told, forms.lent));
        }
        if forms.notes != forms.lent_notes {
            return Err(format!("told {:?}, lent {:?}", forms.notes, forms.lent_notes));
        }
        if self.trusted.words() != &*self.lent || self.told.words() != &*self.lent {
            return Err("the forms leave different words".to_string());
        }
        let refused = number(&forms.trusted);
        if refused != 0 && self.before != self.lent {
            return Err(format!("refused by {refused}, but the words have changed"));
        }
        self.before.copy_from_slice(&self.lent[..]);
        let node = forms.trusted.ok().flatten();
        self.handles.extend(node.map(|node| (node.serial(), node)));
        let four = self.four(refused, node.map_or(0, |node| node.serial()), u);
        Ok([four, show::notices(&forms.notes)].concat())
    }

    /// Number, serial, and speed and sum of the interface: both 0 for UNIT, and for one that has a parent or is none.
    pub fn four(&self, number: i64, serial: u32, u: u32) -> Vec<i64> {
        let read = |value: Result<i64, Refusal>| if number == 3 { 0 } else { value.unwrap_or(0) };
        vec![number, serial as i64, read(self.trusted.sum_grow_speed(unit(u))), read(self.trusted.sum_dual_variables(unit(u)))]
    }

    /// The plain bench that the words are.
    pub fn seen(&self) -> Result<oracle::model::bench::Bench, String> {
        decode(&self.lent).ok_or_else(|| "the words are no encoding of a bench".to_string())
    }
}
