//! The plain model's bench written as the ledger's words, and read off them, by the layout at the head of crates/bench_words/src/lib.rt: plain code, for comparing.
//! Words that are not the encoding of a bench are read as none, and are BROKEN.
use oracle::model::bench::{Bench, Class, Face, Handle, Member, Node, FACES, PROGRESS, SLOTS};

pub type Words = [u64; dual_ledger::WORDS];

const SUM: u64 = 1 << 62;
const SPEED: u64 = 1024;
const BIAS: i64 = 1 << 60;
/// More than any value, and any size, of a sound bench: so numbers past it need not be carried.
const FAR: i64 = 1 << 59;
const SIZE: u64 = 512;

pub fn handle_word(h: Handle) -> u64 {
    (h.serial as u64 * 64 + h.slot as u64) * 8 + h.unit as u64
}

pub fn handle_of(word: u64) -> Option<Handle> {
    (word < 1 << 41).then_some(Handle { unit: (word % 8) as u32, slot: (word / 8 % 64) as u32, serial: (word / 512) as u32 })
}

fn base(position: usize) -> usize {
    128 + 12 * position + 1
}

fn position(h: Handle) -> usize {
    SLOTS * h.unit as usize + h.slot as usize
}

/// What the values of an interface are behind by: its progress and that of all above it, nothing in the plain engine.
fn above(bench: &Bench, unit: usize) -> i64 {
    if bench.plain {
        return 0;
    }
    bench.faces[unit].progress + bench.faces[unit].parent.map_or(0, |parent| above(bench, parent))
}

pub fn encode(bench: &Bench) -> Box<Words> {
    let mut words = Box::new([0; dual_ledger::WORDS]);
    words[0] = bench.next;
    for (unit, face) in bench.faces.iter().enumerate() {
        let one_more = |half: usize| half as u64 + 1;
        let (left, right) = face.children.map_or((0, 0), |(left, right)| (one_more(left), one_more(right)));
        let (sum, speed) = ((face.sum as u64).wrapping_add(SUM), (face.speed as u64).wrapping_add(SPEED));
        let fields = [face.slots.len() as u64, face.progress as u64, sum, speed, face.parent.map_or(0, one_more), left, right];
        words[16 * unit + 1..16 * unit + 8].copy_from_slice(&fields);
        words[16 * unit + 8] = map(face);
        words[16 * unit + 9] = face.fills as u64 + 2 * face.floored as u64 + 4 * bench.plain as u64;
        let above = above(bench, unit);
        for (slot, node) in face.slots.iter().enumerate() {
            node.iter().for_each(|node| put(bench, &mut words, SLOTS * unit + slot, node, above));
        }
    }
    words
}

/// A bit for each slot that holds a node.
fn map(face: &Face) -> u64 {
    face.slots.iter().enumerate().filter(|(_, node)| node.is_some()).map(|(slot, _)| 1 << slot).sum()
}

/// A node's own fields, and for a blossom those of its members that say where they are in the circle.
fn put(bench: &Bench, words: &mut Words, at: usize, node: &Node, above: i64) {
    let class = match node.class {
        Class::Blossom(_) => 1,
        Class::Defect(vertex) => vertex as u64 + 2,
    };
    let state = [2, 0, 1][(node.state + 1) as usize];
    words[base(at)..base(at) + 4].copy_from_slice(&[node.serial as u64, class, state, node.parent.map_or(0, |h| handle_word(h) + 1)]);
    words[base(at) + 8] = (node.value - node.state * above + BIAS) as u64;
    words[base(at) + 9] = node.size as u64;
    let circle = node.circle();
    for (place, member) in circle.iter().enumerate().filter(|(_, member)| bench.node(member.node).is_some()) {
        let next = circle.get(place + 1).map_or(0, |next| position(next.node) as u64);
        let [first, second] = member.touch.map(handle_word);
        words[base(position(member.node)) + 4..][..4].copy_from_slice(&[place as u64, next, first, second]);
    }
    if let Some(first) = circle.first() {
        words[base(at) + 10] = position(first.node) as u64;
        words[base(at) + 11] = circle.len() as u64;
    }
}

/// The bench that the words are the encoding of, if there is one.
pub fn decode(words: &Words) -> Option<Bench> {
    let mut faces = (0..FACES).map(|unit| face(words, unit)).collect::<Option<Vec<Face>>>()?;
    let plain = words[9] & 4 == 4;
    let parents: Vec<_> = faces.iter().map(|face| (if plain { 0 } else { face.progress }, face.parent)).collect();
    for (unit, face) in faces.iter_mut().enumerate() {
        let above = climb(&parents, unit);
        let slots = (0..used(words, unit)).map(|slot| node(words, SLOTS * unit + slot, above));
        face.slots = slots.collect::<Option<_>>()?;
    }
    let bench = Bench { faces, next: words[0], plain };
    Some(bench).filter(|bench| encode(bench)[..] == words[..])
}

fn climb(parents: &[(i64, Option<usize>)], unit: usize) -> i64 {
    parents[unit].0 + parents[unit].1.map_or(0, |parent| climb(parents, parent))
}

fn used(words: &Words, unit: usize) -> usize {
    words[16 * unit + 1] as usize
}

/// An interface without its slots. None where it breaks a rule that the rest relies on: 64 slots, progress within 2^40, a parent of higher number.
fn face(words: &Words, unit: usize) -> Option<Face> {
    let field = |at: usize| words[16 * unit + at];
    let parent = field(5).checked_sub(1).map(|parent| parent as usize);
    let children = match (field(6), field(7)) {
        (0, 0) => None,
        (left @ 1..=8, right @ 1..=8) => Some((left as usize - 1, right as usize - 1)),
        _ => return None,
    };
    let fits = field(1) <= SLOTS as u64 && field(2) <= PROGRESS as u64 && parent.map_or(true, |parent| unit < parent && parent < FACES);
    let (sum, speed) = (field(3).wrapping_sub(SUM) as i64, field(4).wrapping_sub(SPEED) as i64);
    let (fills, floored) = (field(9) & 1 == 1, field(9) & 2 == 2);
    fits.then_some(Face { slots: vec![], progress: field(2) as i64, sum, speed, parent, children, fills, floored })
}

/// A slot: none inside if it is empty, none at all if it cannot be a slot's.
fn node(words: &Words, at: usize, above: i64) -> Option<Option<Node>> {
    let field = |place: usize| words[base(at) + place];
    let class = match field(1) {
        0 => return Some(None),
        1 => Class::Blossom(circle(words, field(10), field(11))?),
        word => Class::Defect(u32::try_from(word - 2).ok()?),
    };
    let state = *[0, 1, -1].get(field(2) as usize)?;
    let parent = match field(3).checked_sub(1) {
        None => None,
        Some(word) => Some(handle_of(word)?),
    };
    let bias = i64::try_from(field(8)).ok()? - BIAS;
    let fits = bias.abs() < FAR && field(9) <= SIZE;
    let node = Node { serial: u32::try_from(field(0)).ok()?, class, state, parent, value: bias + state * above, size: field(9) as i64 };
    fits.then_some(Some(node))
}

/// A circle from its first member on, each giving the next.
fn circle(words: &Words, first: u64, count: u64) -> Option<Vec<Member>> {
    let mut at = first as usize;
    let mut found = vec![];
    for _ in 0..Some(count).filter(|count| (1..=64).contains(count))? {
        let fields = Some(at).filter(|at| *at < FACES * SLOTS).map(|at| &words[base(at)..base(at) + 12])?;
        let node = Handle { unit: (at / SLOTS) as u32, slot: (at % SLOTS) as u32, serial: u32::try_from(fields[0]).ok()? };
        found.push(Member { node, touch: [handle_of(fields[6])?, handle_of(fields[7])?] });
        at = usize::try_from(fields[5]).ok()?;
    }
    Some(found)
}
