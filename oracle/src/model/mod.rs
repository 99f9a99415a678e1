//! The plain model, written from the manual alone: a bench and four groups, each line answered with its number, refused ones too.
pub mod bench;
mod calls;
mod check;
pub mod groups;
mod recorded;
pub mod records;
pub mod refusals;
pub mod sound;

use crate::line::{Line, Mode, Obstacle, FILLER, GROUPS};
use crate::show::{self, Class as Shown, Slot};
use bench::{Bench, Class, Handle, Node, FACES};
use calls::Reply;
use groups::{Group, Told};
use refusals::{first, given, NO_SERIAL, RANGE, SMALL, STALE, TOP};

#[derive(Clone)]
pub struct Model {
    pub bench: Bench,
    pub groups: Vec<Group>,
}

fn bits(o: &Told) -> Obstacle<u32> {
    o.named(|h| Some(h.serial)).expect("each handle has a serial")
}

impl Model {
    pub fn new(first: u32) -> Self {
        Model { bench: Bench::new(first), groups: vec![Group::default(); GROUPS] }
    }

    /// The answer of a line: its first number is 0 where the call is accepted.
    pub fn answer(&mut self, line: &Line) -> Vec<i64> {
        let (unit, reply) = match line {
            Line::SetUp(serial) => {
                *self = Model::new((*serial).max(1));
                return vec![given(*serial == 0, NO_SERIAL)];
            }
            Line::Defect(unit, vertex) => (unit, self.bench.defect(*unit, *vertex)),
            Line::Blossom(unit, members, touching) => (unit, self.blossom(*unit, members, touching)),
            Line::Expand(unit, serial) => (unit, self.bench.expand(*unit, self.bench.named(*serial))),
            Line::SetState(unit, serial, state) => (unit, self.bench.set_state(*unit, self.bench.named(*serial), *state)),
            Line::Grow(unit, length) => (unit, self.bench.grow(*unit, *length)),
            Line::Fuse(parent, left, right) => (parent, self.bench.fuse(*parent, *left, *right)),
            Line::Clear(unit) => (unit, self.bench.clear(*unit)),
            Line::Mark(unit, mode) => (unit, self.bench.mark_as(*unit, *mode)),
            Line::Add(..) | Line::Extend(..) | Line::NewGroup(_) | Line::Pop(_) => return self.regroup(line),
            other => return self.look(other),
        };
        self.told(*unit, reply)
    }

    fn blossom(&mut self, unit: u32, members: &[u32], touching: &[(u32, u32)]) -> Reply {
        let named = |serial: &u32| self.bench.named(*serial);
        let members: Vec<Handle> = members.iter().map(named).collect();
        let touching: Vec<[Handle; 2]> = touching.iter().map(|(a, b)| [named(a), named(b)]).collect();
        self.bench.blossom(unit, &members, &touching)
    }

    fn told(&self, unit: u32, reply: Reply) -> Vec<i64> {
        [self.four(reply.number, reply.node.serial, unit), show::notices(&reply.notices)].concat()
    }

    /// Number, serial, and speed and sum of the interface: both 0 for UNIT, and for one that has a parent or is none.
    fn four(&self, number: i64, serial: u32, unit: u32) -> Vec<i64> {
        let face = self.bench.faces.get(unit as usize).filter(|face| number != refusals::UNIT && face.parent.is_none());
        vec![number, serial as i64, face.map_or(0, |f| f.speed), face.map_or(0, |f| f.sum)]
    }

    fn regroup(&mut self, line: &Line) -> Vec<i64> {
        match line {
            Line::NewGroup(g) => self.groups[*g] = Group::default(),
            Line::Add(g, o) => {
                let o = o.named(|s| Some(self.bench.named(*s))).expect("each serial has a handle");
                return vec![self.groups[*g].add(&self.bench, &o)];
            }
            Line::Extend(g, other) => {
                let other = self.groups[*other].clone();
                return vec![self.groups[*g].extend(&self.bench, &other)];
            }
            Line::Pop(g) => {
                let (number, popped) = self.groups[*g].pop();
                return [vec![number], show::taken(popped.as_ref().map(bits).as_ref())].concat();
            }
            _ => unreachable!("{line:?} changes no group"),
        }
        vec![0]
    }

    /// Reads: nothing is changed.
    fn look(&self, line: &Line) -> Vec<i64> {
        let b = &self.bench;
        match line {
            Line::Check(unit) => {
                let number = b.no_face(&[*unit]);
                let (verdict, index) = if number == 0 { b.check(*unit as usize) } else { (0, 0) };
                [self.four(number, verdict as u32, *unit), vec![index]].concat()
            }
            Line::Strict(unit) => self.of_face(*unit, 2, |u| vec![b.strict(u).0, b.strict(u).1]),
            Line::Sum(unit) => self.of_face(*unit, 1, |u| vec![b.faces[u].sum]),
            Line::Speed(unit) => self.of_face(*unit, 1, |u| vec![b.faces[u].speed]),
            Line::Marked(unit, Mode::Filling) => self.of_face(*unit, 1, |u| vec![b.faces[u].fills as i64]),
            Line::Marked(unit, Mode::Floored) => self.of_face(*unit, 1, |u| vec![b.faces[u].floored as i64]),
            Line::Count(unit) => self.of_face(*unit, 1, |u| vec![b.slots(u).len() as i64]),
            Line::HandleAt(unit, index) => self.handle_at(*unit, *index as usize),
            Line::Belongs(unit, serial) => {
                let h = b.named(*serial);
                self.of_face(*unit, 1, |u| vec![(b.node(h).is_some() && b.top(h.unit as usize) == u) as i64])
            }
            Line::Dump(unit) => match b.no_face(&[*unit]) {
                0 => show::slots(&b.slots(*unit as usize).iter().map(|(_, node)| node.map(slot)).collect::<Vec<_>>()),
                number => vec![number, 0],
            },
            Line::Value(serial) => self.of_node(*serial, 1, |h| vec![0, b.at(h).value]),
            Line::Outer(serial) => self.of_node(*serial, 2, |h| vec![0, b.outermost(h).serial as i64, b.chain(h).len() as i64 - 1]),
            Line::Under(serial) => self.of_node(*serial, 1, |h| match b.chain(h).iter().rev().nth(1) {
                Some(under) => vec![0, under.serial as i64],
                None => vec![TOP, 0],
            }),
            Line::First(serial) => self.of_node(*serial, 1, |h| vec![0, b.first_vertex(h) as i64]),
            Line::Vertices(serial, room) => self.vertices(*serial, *room as usize),
            Line::Asked(g) => self.asked(&self.groups[*g]),
            Line::Peek(g) => {
                let (number, top) = self.groups[*g].peek();
                [vec![number], show::taken(top.map(bits).as_ref())].concat()
            }
            Line::Content(g) => [vec![0], show::group(&content(&self.groups[*g]))].concat(),
            _ => unreachable!("{line:?} is no read"),
        }
    }

    /// A read of an interface: 0 and its values, or the number and as many zeros.
    fn of_face(&self, unit: u32, values: usize, read: impl FnOnce(usize) -> Vec<i64>) -> Vec<i64> {
        match self.bench.no_face(&[unit]) {
            0 => [vec![0], read(unit as usize)].concat(),
            number => [vec![number], vec![0; values]].concat(),
        }
    }

    /// A read of a node: its whole answer, or STALE and zeros.
    fn of_node(&self, serial: u32, values: usize, read: impl FnOnce(Handle) -> Vec<i64>) -> Vec<i64> {
        let h = self.bench.named(serial);
        if self.bench.node(h).is_none() {
            return [vec![STALE], vec![0; values]].concat();
        }
        read(h)
    }

    fn handle_at(&self, unit: u32, index: usize) -> Vec<i64> {
        let slots = |u: u32| self.bench.slots(u as usize);
        let number = first([&|| self.bench.no_face(&[unit]), &|| given(index >= slots(unit).len(), RANGE)]);
        if number != 0 {
            return vec![number, 0, 0, 0];
        }
        match slots(unit)[index] {
            (h, Some(_)) => vec![0, h.serial as i64, h.unit as i64, h.slot as i64],
            (_, None) => vec![0, 0, 0, 0],
        }
    }

    fn vertices(&self, serial: u32, room: usize) -> Vec<i64> {
        let h = self.bench.named(serial);
        let mut slice = vec![FILLER; room];
        let number = first([&|| given(self.bench.node(h).is_none(), STALE), &|| given(room < self.bench.at(h).size as usize, SMALL)]);
        let found = if number == 0 { self.bench.vertices(h) } else { vec![] };
        slice.iter_mut().zip(&found).for_each(|(entry, vertex)| *entry = *vertex as i64);
        [vec![number, found.len() as i64], slice].concat()
    }

    fn asked(&self, group: &Group) -> Vec<i64> {
        let (number, length) = group.growth();
        vec![0, group.is_empty() as i64, group.is_active() as i64, number, length.is_some() as i64, length.unwrap_or(0)]
    }

    /// An interface's own slots, each as a dump shows it.
    pub fn own(&self, unit: usize) -> Vec<Vec<i64>> {
        self.bench.faces[unit].slots.iter().map(|node| show::slot(node.as_ref().map(slot).as_ref())).collect()
    }

    /// Whether a unit is one of the bench's, without a parent.
    pub fn is_top(&self, unit: usize) -> bool {
        unit < FACES && self.bench.faces[unit].parent.is_none()
    }
}

fn slot(node: &Node) -> Slot {
    Slot {
        serial: node.serial,
        state: node.state,
        parent: node.parent.map_or(0, |h| h.serial),
        size: node.size,
        value: node.value,
        class: match &node.class {
            Class::Defect(vertex) => Shown::Defect(*vertex as i64),
            Class::Blossom(circle) => Shown::Blossom(circle.iter().map(|m| [m.node.serial, m.touch[0].serial, m.touch[1].serial]).collect()),
        },
    }
}

fn content(group: &Group) -> show::Group {
    match group {
        Group::Growth(length, flag) => show::Group::Growth(*length, *flag),
        Group::Conflicts { list, stops } => {
            show::Group::Conflicts(list.iter().map(bits).collect(), stops.iter().map(|(vertex, o)| (*vertex as i64, bits(o))).collect())
        }
    }
}
