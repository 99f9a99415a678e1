//! How sharp the comparison is: models that are wrong in one point are each told from the original by the plans' runs.
use oracle::generator::plans::{CALLS, GROUPS, READS, TREES, VERDICTS};
use oracle::generator::{Plan, Player};
use oracle::line::{read, Line, Obstacle};
use oracle::model::bench::Class;
use oracle::model::groups::Group;
use oracle::model::Model;
use oracle::replay::Replay;

/// Spoils the model after an accepted call.
type Spoil = fn(&Line, &Model, &mut Model);

/// Whether a few runs of a plan tell the spoiled model from the original.
fn is_told(plan: Plan, spoil: Spoil) -> bool {
    (0..60).any(|seed| {
        let mut player = Player::new(plan, 5_000_000 + seed);
        let mut both = Replay::default();
        (0..160).any(|_| {
            let call = read(&player.line()).unwrap();
            let before = both.model.clone();
            let turn = both.turn(&call);
            if turn.is_accepted() {
                spoil(&call, &before, &mut both.model);
            }
            !turn.agrees()
        })
    })
}

fn value_taken_out_of_the_sum(call: &Line, before: &Model, after: &mut Model) {
    if let Line::Expand(unit, serial) = call {
        after.bench.faces[*unit as usize].sum -= before.bench.at(before.bench.named(*serial)).value;
    }
}

fn members_that_stay(call: &Line, before: &Model, after: &mut Model) {
    if let Line::Expand(unit, serial) = call {
        for member in before.bench.at(before.bench.named(*serial)).circle() {
            after.bench.at_mut(member.node).state = 0;
            after.bench.faces[*unit as usize].speed -= 1;
        }
    }
}

fn a_size_too_large(call: &Line, before: &Model, after: &mut Model) {
    if let Line::Blossom(unit, ..) = call {
        let h = after.bench.named(before.bench.next as u32);
        after.bench.at_mut(h).size += 1;
        assert_eq!(h.unit, *unit);
    }
}

fn touching_nodes_in_the_other_order(call: &Line, before: &Model, after: &mut Model) {
    if let Line::Blossom(..) = call {
        let h = after.bench.named(before.bench.next as u32);
        if let Class::Blossom(circle) = &mut after.bench.at_mut(h).class {
            circle.iter_mut().for_each(|member| member.touch.reverse());
        }
    }
}

fn speed_that_does_not_follow(call: &Line, before: &Model, after: &mut Model) {
    if let Line::SetState(unit, ..) = call {
        after.bench.faces[*unit as usize].speed = before.bench.faces[*unit as usize].speed;
    }
}

fn right_half_first(call: &Line, _: &Model, after: &mut Model) {
    if let Line::Fuse(parent, left, right) = call {
        after.bench.faces[*parent as usize].children = Some((*right as usize, *left as usize));
    }
}

fn a_parent_that_keeps_the_left_sum_only(call: &Line, before: &Model, after: &mut Model) {
    if let Line::Fuse(parent, left, _) = call {
        after.bench.faces[*parent as usize].sum = before.bench.faces[*left as usize].sum;
    }
}

fn only_own_nodes_grow(call: &Line, before: &Model, after: &mut Model) {
    if let Line::Grow(unit, _) = call {
        let below: Vec<usize> = after.bench.tree(*unit as usize).into_iter().filter(|below| *below != *unit as usize).collect();
        below.into_iter().for_each(|unit| after.bench.faces[unit].slots = before.bench.faces[unit].slots.clone());
    }
}

fn a_clear_that_gives_serials_back(call: &Line, _: &Model, after: &mut Model) {
    if let Line::Clear(_) = call {
        let newest = after.bench.faces.iter().flat_map(|face| face.slots.iter().flatten()).map(|node| node.serial).max();
        after.bench.next = newest.unwrap_or(0) as u64 + 1;
    }
}

fn a_pop_that_spares_the_stops(call: &Line, before: &Model, after: &mut Model) {
    if let Line::Pop(g) = call {
        if let (Group::Conflicts { list, stops: old }, Group::Conflicts { stops, .. }) = (&before.groups[*g], &mut after.groups[*g]) {
            if !list.is_empty() {
                *stops = old.clone();
            }
        }
    }
}

fn flags_joined_in_extend(call: &Line, before: &Model, after: &mut Model) {
    if let Line::Extend(g, other) = call {
        if let (Group::Growth(_, a), Group::Growth(_, b), Group::Growth(_, flag)) =
            (&before.groups[*g], &before.groups[*other], &mut after.groups[*g])
        {
            *flag = *a || *b;
        }
    }
}

fn pairs_of_a_conflict_swapped(call: &Line, before: &Model, after: &mut Model) {
    if let Line::Add(g, Obstacle::Stop(..)) = call {
        if let (Group::Conflicts { list: old, .. }, Group::Conflicts { list, .. }) = (&before.groups[*g], &mut after.groups[*g]) {
            if list.len() > old.len() {
                if let Some(Obstacle::Conflicting(p, q)) = list.last_mut() {
                    std::mem::swap(p, q);
                }
            }
        }
    }
}

fn the_new_stop_kept_beside_a_conflict(call: &Line, before: &Model, after: &mut Model) {
    if let Line::Add(g, Obstacle::Stop(serial, _)) = call {
        let vertex = after.bench.first_vertex(after.bench.named(*serial));
        if let (Group::Conflicts { stops: old, .. }, Group::Conflicts { stops, .. }) = (&before.groups[*g], &mut after.groups[*g]) {
            if old.contains_key(&vertex) && !stops.contains_key(&vertex) {
                stops.insert(vertex, Obstacle::Stop(after.bench.named(*serial), None));
            }
        }
    }
}

#[test]
fn each_wrong_model_is_told_from_the_original() {
    let wrong: [(&str, Plan, Spoil); 13] = [
        ("value taken out of the sum at expansion", CALLS, value_taken_out_of_the_sum),
        ("members that stay at expansion", CALLS, members_that_stay),
        ("a size too large", READS, a_size_too_large),
        ("touching nodes in the other order", VERDICTS, touching_nodes_in_the_other_order),
        ("speed that does not follow a state", CALLS, speed_that_does_not_follow),
        ("right half before left", TREES, right_half_first),
        ("a parent with the left sum only", TREES, a_parent_that_keeps_the_left_sum_only),
        ("only own nodes grow", TREES, only_own_nodes_grow),
        ("a clear that gives serials back", CALLS, a_clear_that_gives_serials_back),
        ("a pop that spares the stops", GROUPS, a_pop_that_spares_the_stops),
        ("flags joined in extend", GROUPS, flags_joined_in_extend),
        ("pairs of a conflict swapped", GROUPS, pairs_of_a_conflict_swapped),
        ("the new stop kept beside a conflict", GROUPS, the_new_stop_kept_beside_a_conflict),
    ];
    for (what, plan, spoil) in wrong {
        assert!(is_told(plan, spoil), "not told: {what}");
    }
}

#[test]
fn the_right_model_is_not_told_apart() {
    for plan in [CALLS, READS, TREES, VERDICTS, GROUPS] {
        assert!(!is_told(plan, |_, _, _| {}), "{}", plan.name);
    }
}
