//! The reads and checks of the linked ledger, as numbers. Each fourth is made by both forms, which must agree: the public one tests the whole bench each time.
use crate::ledger::{number, unit, Answer, Ledger};
use crate::words::Words;
use dual_ledger::{lent, Bench, Refusal, Verdict};
use oracle::line::{Line, Mode, FILLER};
use oracle::model::Model;
use std::fmt::Debug;

/// The number, then the values: zeros where refused.
fn shown<T: Clone, const N: usize>(result: &Result<T, Refusal>, values: impl FnOnce(T) -> [i64; N]) -> Vec<i64> {
    let found = result.clone().map(values).unwrap_or([0; N]);
    [vec![number(result)], found.to_vec()].concat()
}

/// One result, if both forms give it, or if only one is asked.
fn both<T: PartialEq + Debug>(
    two: bool,
    trusted: Result<T, Refusal>,
    lent: impl FnOnce() -> Result<T, Refusal>,
) -> Result<Result<T, Refusal>, String> {
    match two.then(lent) {
        Some(lent) if lent != trusted => Err(format!("trusted {trusted:?}, lent {lent:?}")),
        _ => Ok(trusted),
    }
}

/// The reads of present nodes beside a walk of every slot by `get_node`, which is compared with the model: how many, and the next from an index on.
fn stepped(two: bool, bench: &Bench, words: &Words, u: u8, index: u32) -> Result<(), String> {
    let at = |place: u32| bench.get_node(u, place).ok().flatten().map(|node| (place, node));
    let walked = bench.nodes_count(u).map(|count| (0..count).filter_map(at).collect::<Vec<_>>());
    let count = both(two, bench.present_count(u), || lent::present_count(words, u))?;
    let next = both(two, bench.next_present(u, index), || lent::next_present(words, u, index))?;
    let expected = bench.get_node(u, index).map(|_| walked.iter().flatten().copied().find(|(place, _)| index <= *place));
    let stepped = bench.present_nodes(u).map(|nodes| nodes.collect::<Vec<_>>());
    if count != walked.as_ref().map(|all| all.len() as u32).map_err(|refusal| *refusal) || next != expected || stepped != walked {
        return Err(format!("present nodes of {u} from {index}: {count:?}, {next:?}, {stepped:?}, by a walk {expected:?}, {walked:?}"));
    }
    Ok(())
}

impl Ledger {
    pub fn look(&mut self, line: &Line) -> Answer {
        self.asked += 1;
        let two = self.asked % 4 == 0;
        let (bench, words) = (&self.trusted, &*self.lent);
        let one = |value: i64| [value];
        Ok(match line {
            Line::Check(u) => {
                let found = both(two, bench.sanity_check(unit(*u)), || lent::sanity_check(words, unit(*u)))?;
                let verdict = found.unwrap_or(Verdict::Sound);
                [self.four(number(&found), verdict.number() as u32, *u), vec![verdict.index() as i64]].concat()
            }
            Line::Strict(u) => {
                let found = both(two, bench.strict_check(unit(*u)), || lent::strict_check(words, unit(*u)))?;
                shown(&found, |verdict| [verdict.number() as i64, verdict.index() as i64])
            }
            Line::Sum(u) => shown(&both(two, bench.sum_dual_variables(unit(*u)), || lent::sum_dual_variables(words, unit(*u)))?, one),
            Line::Speed(u) => shown(&both(two, bench.sum_grow_speed(unit(*u)), || lent::sum_grow_speed(words, unit(*u)))?, one),
            Line::Count(u) => {
                stepped(two, bench, words, unit(*u), 0)?;
                shown(&both(two, bench.nodes_count(unit(*u)), || lent::nodes_count(words, unit(*u)))?, |n| [n as i64])
            }
            Line::Marked(u, Mode::Filling) => {
                shown(&both(two, bench.is_filling(unit(*u)), || lent::is_filling(words, unit(*u)))?, |yes| [yes as i64])
            }
            Line::Marked(u, Mode::Floored) => {
                shown(&both(two, bench.is_floored(unit(*u)), || lent::is_floored(words, unit(*u)))?, |yes| [yes as i64])
            }
            Line::HandleAt(u, index) => {
                stepped(two, bench, words, unit(*u), *index)?;
                let found = both(two, bench.get_node(unit(*u), *index), || lent::get_node(words, unit(*u), *index))?;
                shown(&found, |node| node.map_or([0; 3], |h| [h.serial() as i64, h.interface() as i64, h.slot() as i64]))
            }
            Line::Belongs(u, serial) => {
                let h = self.handle(*serial);
                shown(&both(two, bench.check_ptr_belonging(unit(*u), h), || lent::check_ptr_belonging(words, unit(*u), h))?, |yes| [yes as i64])
            }
            Line::Dump(u) => match number(&bench.nodes_count(unit(*u))) {
                0 => Model { bench: self.seen()?, groups: vec![] }.answer(line),
                refused => vec![refused, 0],
            },
            Line::Vertices(serial, room) => self.vertices(two, *serial, *room as usize)?,
            other => return self.of_node(two, other),
        })
    }

    /// Reads of one node.
    fn of_node(&mut self, two: bool, line: &Line) -> Answer {
        let (bench, words) = (&self.trusted, &*self.lent);
        Ok(match line {
            Line::Value(s) => {
                let h = self.handle(*s);
                shown(&both(two, bench.get_dual_variable(h), || lent::get_dual_variable(words, h))?, |value| [value])
            }
            Line::Outer(s) => {
                let h = self.handle(*s);
                let found = both(two, bench.ancestor_and_links(h), || lent::ancestor_and_links(words, h))?;
                if found.map(|(ancestor, _)| ancestor) != bench.get_ancestor_blossom(h) {
                    return Err("the outermost blossom differs from that with its links".to_string());
                }
                shown(&found, |(ancestor, links)| [ancestor.serial() as i64, links as i64])
            }
            Line::Under(s) => {
                let h = self.handle(*s);
                let found = both(two, bench.get_secondary_ancestor_blossom(h), || lent::get_secondary_ancestor_blossom(words, h))?;
                shown(&found, |under| [under.serial() as i64])
            }
            Line::First(s) => {
                let h = self.handle(*s);
                shown(&both(two, bench.get_representative_vertex(h), || lent::get_representative_vertex(words, h))?, |vertex| [vertex as i64])
            }
            other => return self.regroup(other),
        })
    }

    fn vertices(&self, two: bool, serial: u32, room: usize) -> Answer {
        let h = self.handle(serial);
        let (mut slice, mut other) = (vec![FILLER as u32; room], vec![FILLER as u32; room]);
        let found = both(two, self.trusted.get_all_vertices_into(h, &mut slice), || lent::get_all_vertices_into(&self.lent, h, &mut other))?;
        let whole = self.trusted.get_all_vertices(h);
        if two && slice != other || found.is_ok_and(|count| whole.as_ref().map(|all| &all[..]) != Ok(&slice[..count])) {
            return Err(format!("all vertices: trusted {slice:?}, lent {other:?}, whole {whole:?}"));
        }
        Ok([shown(&found, |count| [count as i64]), slice.into_iter().map(|vertex| vertex as i64).collect()].concat())
    }
}
