//! The plain ledger's eight calls: the number, and where it is 0 the work and its notices.
use super::bench::{Bench, Class, Face, Handle, Member, Node, NOBODY};
use crate::line::Mode;
use crate::show::Notice;

/// What a call answers: number, node made or named, notices.
pub struct Reply {
    pub number: i64,
    pub node: Handle,
    pub notices: Vec<Notice>,
}

fn refused(number: i64) -> Reply {
    Reply { number, node: NOBODY, notices: vec![] }
}

fn done(node: Handle, notices: Vec<Notice>) -> Reply {
    Reply { number: 0, node, notices }
}

impl Bench {
    pub fn defect(&mut self, unit: u32, vertex: u32) -> Reply {
        let number = self.defect_number(unit);
        if number != 0 {
            return refused(number);
        }
        let h = self.push(unit, Class::Defect(vertex), 1);
        done(h, vec![Notice::DefectAdded(h.serial)])
    }

    pub fn blossom(&mut self, unit: u32, members: &[Handle], touching: &[[Handle; 2]]) -> Reply {
        let number = self.blossom_number(unit, members, touching);
        if number != 0 {
            return refused(number);
        }
        let touch = |at: usize| touching.get(at).copied().unwrap_or([members[at]; 2]);
        let circle = members.iter().enumerate().map(|(at, node)| Member { node: *node, touch: touch(at) }).collect();
        let size = members.iter().map(|m| self.at(*m).size).sum();
        let mut notices: Vec<Notice> = members.iter().map(|m| self.mark(unit, *m, 0)).collect();
        let h = self.push(unit, Class::Blossom(circle), size);
        members.iter().for_each(|m| self.at_mut(*m).parent = Some(h));
        notices.push(Notice::ShrinkPrepared(members.iter().map(|m| m.serial).collect()));
        notices.push(Notice::BlossomAdded(h.serial));
        done(h, notices)
    }

    pub fn expand(&mut self, unit: u32, h: Handle) -> Reply {
        let number = self.expand_number(unit, h);
        if number != 0 {
            return refused(number);
        }
        let node = self.faces[h.unit as usize].slots[h.slot as usize].take().unwrap();
        self.faces[unit as usize].speed -= node.state;
        let mut notices = vec![Notice::BlossomRemoved(h.serial)];
        for member in node.circle() {
            self.at_mut(member.node).parent = None;
            notices.push(self.mark(unit, member.node, 1));
        }
        done(h, notices)
    }

    pub fn set_state(&mut self, unit: u32, h: Handle, state: i64) -> Reply {
        let number = self.state_number(unit, h);
        if number != 0 {
            return refused(number);
        }
        let notice = self.mark(unit, h, state);
        done(h, vec![notice])
    }

    pub fn grow(&mut self, unit: u32, length: i64) -> Reply {
        let number = self.grow_number(unit, length);
        if number != 0 {
            return refused(number);
        }
        let face = &mut self.faces[unit as usize];
        face.sum += length * face.speed;
        face.progress += length;
        for below in self.tree(unit as usize) {
            self.faces[below].slots.iter_mut().flatten().for_each(|node| node.value += length * node.state);
        }
        done(NOBODY, vec![Notice::Grown(length)])
    }

    pub fn fuse(&mut self, parent: u32, left: u32, right: u32) -> Reply {
        let number = self.fuse_number(parent, left, right);
        if number != 0 {
            return refused(number);
        }
        for half in [left, right] {
            let (sum, speed) = (self.faces[half as usize].sum, self.faces[half as usize].speed);
            self.faces[half as usize].parent = Some(parent as usize);
            self.faces[parent as usize].sum += sum;
            self.faces[parent as usize].speed += speed;
        }
        self.faces[parent as usize].children = Some((left as usize, right as usize));
        self.faces[parent as usize].floored = self.faces[left as usize].floored;
        done(NOBODY, vec![])
    }

    pub fn clear(&mut self, unit: u32) -> Reply {
        let number = self.no_face(&[unit]);
        if number != 0 {
            return refused(number);
        }
        self.tree(unit as usize).into_iter().for_each(|below| self.faces[below] = Face::default());
        done(NOBODY, vec![])
    }

    pub fn mark_as(&mut self, unit: u32, mode: Mode) -> Reply {
        let number = self.mode_number(unit);
        if number != 0 {
            return refused(number);
        }
        match mode {
            Mode::Filling => self.faces[unit as usize].fills = true,
            Mode::Floored => self.faces[unit as usize].floored = true,
        }
        done(NOBODY, vec![])
    }

    /// A new node in the free slot, with the next serial: growing, value 0.
    fn push(&mut self, unit: u32, class: Class, size: i64) -> Handle {
        let serial = self.next as u32;
        self.next += 1;
        let face = &mut self.faces[unit as usize];
        let slot = face.free_slot();
        face.slots.resize(face.slots.len().max(slot + 1), None);
        face.slots[slot] = Some(Node { serial, class, state: 1, parent: None, value: 0, size });
        face.speed += 1;
        Handle { unit, slot: slot as u32, serial }
    }

    /// Sets a state; the speed follows.
    fn mark(&mut self, unit: u32, h: Handle, state: i64) -> Notice {
        let before = std::mem::replace(&mut self.at_mut(h).state, state);
        self.faces[unit as usize].speed += state - before;
        Notice::StateSet(h.serial, state)
    }
}
