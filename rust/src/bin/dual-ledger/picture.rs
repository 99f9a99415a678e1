//! `dual-ledger picture`: an interface's nodes for the viewer, as they stand after a record or after so many of its lines; or drawn, as an SVG.
use crate::args::Args;
use crate::input;
use crate::output::{print, said};
use crate::svg;
use dual_ledger::Bench;

/// The values of an interface's nodes by index; an emptied slot's is 0.
fn values(bench: &Bench, interface: u8) -> Vec<i64> {
    let count = bench.nodes_count(interface).unwrap_or(0);
    let node = |index| bench.get_node(interface, index).ok().flatten();
    (0..count).map(|index| node(index).and_then(|node| bench.get_dual_variable(node).ok()).unwrap_or(0)).collect()
}

pub fn run(args: &Args) -> Result<bool, String> {
    let (path, name) = (&args.files[0], args.files[0].display().to_string());
    let from = input::open(path).map_err(|trouble| said(&name, &trouble))?;
    let (mut session, mut answers) = (args.session(), vec![]);
    let upto = args.at.unwrap_or(u64::MAX);
    let read = input::parts(from, |part| {
        if part.number <= upto {
            answers.clear();
            session.feed(part.bytes, &mut answers);
        }
        Ok(())
    });
    let (lines, left) = read.map_err(|trouble| format!("{name}: {trouble}"))?;
    if args.at.is_none() && !left.is_empty() {
        return Err(format!("{name}: the last line has no newline, so the record may be cut"));
    }
    if let Some(at) = args.at.filter(|at| *at > lines) {
        return Err(format!("{name}: {lines} lines, and --at asks for {at}"));
    }
    let bench = session.bench();
    let refused = |refusal: dual_ledger::Refusal| format!("{name}: no picture of interface {}: {refusal}", args.unit);
    if args.is_drawn {
        let picture = bench.snapshot(args.unit, true).map_err(refused)?;
        return print(&svg::of(&picture, args.unit, &values(bench, args.unit)).expect("a picture is of the form that is drawn"));
    }
    print(&(bench.snapshot(args.unit, !args.is_full).map_err(refused)? + "\n"))
}
