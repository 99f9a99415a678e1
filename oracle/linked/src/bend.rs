//! A plain bench with one thing about it changed: at a limit of a rule, past it, or to what another has. Its words are an encoding, so that only the rule decides.
use oracle::generator::rng::Rng;
use oracle::model::bench::{Bench, Class, Handle, Member, FACES, PROGRESS, SLOTS, WORN};

pub fn bend(rng: &mut Rng, bench: &mut Bench) {
    let unit = busy(rng, bench);
    let nodes: Vec<Handle> = (0..FACES).flat_map(|unit| bench.slots_of(unit)).collect();
    match rng.pick(&nodes).filter(|_| rng.chance(70)) {
        Some(node) => bend_node(rng, bench, node, &nodes),
        None => bend_face(rng, bench, unit),
    }
}

/// Mostly an interface with something in it.
fn busy(rng: &mut Rng, bench: &Bench) -> usize {
    let busy: Vec<usize> = (0..FACES).filter(|unit| !bench.slots_of(*unit).is_empty() || bench.faces[*unit].children.is_some()).collect();
    let any = rng.below(FACES);
    rng.pick(&busy).filter(|_| rng.chance(80)).unwrap_or(any)
}

/// The progress of a tree, which values and sums go by.
fn reach(bench: &Bench, unit: usize) -> i64 {
    bench.tree(bench.top(unit)).into_iter().map(|below| bench.faces[below].progress).sum()
}

fn bend_face(rng: &mut Rng, bench: &mut Bench, unit: usize) {
    let (reach, next) = (reach(bench, unit), bench.next);
    let half = |rng: &mut Rng| rng.below(FACES);
    let (sign, step) = (rng.pick(&[-1, 1]).unwrap(), rng.between(-1, 1));
    let halves = (half(rng), half(rng));
    let face = &mut bench.faces[unit];
    match rng.below(10) {
        0 => bench.next = rng.pick(&[0, 1, WORN, WORN + 1, next - 1, next + 1]).unwrap(),
        1 => face.progress = rng.pick(&[0, PROGRESS, PROGRESS + 1, face.progress + 1]).unwrap(),
        2 => face.sum = sign * (512 * reach + step),
        3 => face.speed += sign,
        4 if face.slots.len() <= SLOTS => face.slots.push(None),
        5 => drop(face.slots.pop()),
        8 => face.fills = !face.fills,
        9 => face.floored = !face.floored,
        6 => face.parent = Some(unit + 1 + rng.below(8)).filter(|parent| *parent < FACES && rng.chance(80)),
        _ => face.children = Some(halves).filter(|_| rng.chance(80)),
    }
}

fn bend_node(rng: &mut Rng, bench: &mut Bench, h: Handle, nodes: &[Handle]) {
    let (reach, next) = (reach(bench, h.unit as usize), bench.next as u32);
    let other = rng.pick(nodes).expect("there is at least the node itself");
    let (sign, step) = (rng.pick(&[-1, 1]).unwrap(), rng.between(-1, 1));
    let node = bench.at_mut(h);
    match rng.below(8) {
        0 => node.serial = rng.pick(&[0, next, next.wrapping_sub(1), other.serial]).unwrap(),
        1 => node.state = rng.between(-1, 1),
        2 => node.value = sign * (reach + step),
        3 => node.size += sign,
        4 => node.parent = Some(other).filter(|_| rng.chance(70)),
        5 => node.class = Class::Defect(rng.below(9) as u32),
        _ => match &mut node.class {
            Class::Blossom(circle) => bend_circle(rng, circle, other, next),
            Class::Defect(vertex) => *vertex = rng.pick(&[0, u32::MAX, *vertex + 1]).unwrap(),
        },
    }
}

fn bend_circle(rng: &mut Rng, circle: &mut Vec<Member>, other: Handle, next: u32) {
    let (at, with, side) = (rng.below(circle.len()), rng.below(circle.len()), rng.below(2));
    match rng.below(7) {
        0 => circle.swap(at, with),
        1 => drop(circle.remove(at)),
        2 => circle.push(circle[at].clone()),
        3 => circle[at].node = other,
        4 => circle[at].touch[side] = other,
        5 => circle[at].touch[side].serial = rng.pick(&[0, next, next.wrapping_sub(1)]).unwrap(),
        _ => (circle[at].touch[side].unit, circle[at].touch[side].slot) = (rng.below(8) as u32, rng.below(64) as u32),
    }
}
