//! Why a line was refused, in words. The number is the engine's; what is said about it is found by reading the bench, which the line left as it was.
use dual_ledger::{Bench, GrowState, Handle, Refusal};

/// A refused line's fields after the letter, as numbers where they are some.
fn numbers(line: &[u8]) -> Vec<i128> {
    let text = String::from_utf8_lossy(line);
    text.split(' ').skip(1).filter_map(|field| field.parse().ok()).collect()
}

/// Each present node with the interface without a parent whose tree it stands in.
fn nodes(bench: &Bench) -> impl Iterator<Item = (Handle, u8)> + '_ {
    (0..8).flat_map(move |top| bench.present_nodes(top).into_iter().flatten().map(move |(_, node)| (node, top)))
}

fn named(bench: &Bench, serial: i128) -> Option<(Handle, u8)> {
    nodes(bench).find(|(node, _)| i128::from(node.serial()) == serial)
}

/// The interface without a parent that this one is fused into, found by what its tree holds; none where this one has no nodes.
fn top_of(bench: &Bench, interface: i128) -> Option<u8> {
    nodes(bench).find(|(node, _)| i128::from(node.interface()) == interface).map(|(_, top)| top)
}

fn is_child(bench: &Bench, interface: i128) -> bool {
    u8::try_from(interface).is_ok_and(|unit| bench.nodes_count(unit) == Err(Refusal::Child))
}

/// Whether the node has a parent, and the outermost blossom around it.
fn outermost(bench: &Bench, node: Handle) -> Option<Handle> {
    bench.get_ancestor_blossom(node).ok().filter(|outer| *outer != node)
}

/// Whether a node shrinks: its speed rises by one where it is made to stay, which a copy of the bench is asked.
fn shrinks(bench: &Bench, interface: u8, node: Handle) -> bool {
    let mut stays = bench.clone();
    let before = stays.sum_grow_speed(interface);
    stays.set_grow_state(interface, node, GrowState::Stay).is_ok() && stays.sum_grow_speed(interface) == before.map(|speed| speed + 1)
}

/// The shrinking node of least value in a tree, with that value.
fn lowest(bench: &Bench, interface: u8) -> Option<(Handle, i64)> {
    let values = bench.present_nodes(interface).into_iter().flatten().filter_map(|(_, node)| Some((node, bench.get_dual_variable(node).ok()?)));
    let mut all: Vec<(Handle, i64)> = values.collect();
    all.sort_by_key(|(node, value)| (*value, node.serial()));
    all.into_iter().find(|(node, _)| shrinks(bench, interface, *node))
}

/// Which of two halves is floored.
fn one_floored(bench: &Bench, halves: &[i128]) -> Option<String> {
    let is_floored = |unit: &i128| u8::try_from(*unit).is_ok_and(|unit| bench.is_floored(unit) == Ok(true));
    let floored = halves.iter().find(|unit| is_floored(unit))?;
    let other = halves.iter().find(|unit| !is_floored(unit))?;
    Some(format!("interface {floored} is floored, and interface {other} is not"))
}

/// What a line that is not of the grammar has that a line has not.
pub fn line_words(line: &[u8]) -> String {
    if line.len() > 1023 {
        return "it is longer than 1,024 bytes with its newline".to_string();
    }
    if line.is_empty() {
        return "it is empty".to_string();
    }
    if line.starts_with(b"\xef\xbb\xbf") {
        return "it begins with a byte-order mark".to_string();
    }
    if line.ends_with(b"\r") {
        return "it ends with a carriage return".to_string();
    }
    if !line.iter().all(|byte| (b' '..=b'~').contains(byte)) {
        return "it has a byte that is no letter, digit, space or minus".to_string();
    }
    let text = String::from_utf8_lossy(line);
    let fields: Vec<&str> = text.split(' ').collect();
    if fields.iter().any(|field| field.is_empty()) {
        return "two spaces, or a space at an end".to_string();
    }
    if fields[0] == "M" {
        return "an M is the first line of a text or nowhere, M 0 or M 1, and no byte record has it".to_string();
    }
    if !["D", "B", "E", "S", "G", "F", "C", "K"].contains(&fields[0]) {
        return format!("no line begins with '{}'", fields[0]);
    }
    let is_plain = |field: &&&str| field.parse::<i128>().is_ok_and(|number| number.to_string() == **field);
    if let Some(wrong) = fields[1..].iter().find(|field| !is_plain(field)) {
        return format!("'{wrong}' is not a plain number");
    }
    let wanted = match fields[0] {
        "C" | "K" => "one number",
        "D" | "E" | "G" => "two numbers",
        "S" | "F" => "three numbers",
        _ => "two numbers or more",
    };
    let count = fields.len() - 1;
    let is_count = match fields[0] {
        "C" | "K" => count == 1,
        "D" | "E" | "G" => count == 2,
        "S" | "F" => count == 3,
        _ => count >= 2,
    };
    if !is_count {
        return format!("after {} there are to be {wanted}", fields[0]);
    }
    "a number is out of its range".to_string()
}

/// The serials that a line names.
fn serials(line: &[u8], fields: &[i128]) -> Vec<i128> {
    match line.first() {
        Some(b'B') => fields.get(1..).unwrap_or(&[]).to_vec(),
        _ => fields.get(1..2).unwrap_or(&[]).to_vec(),
    }
}

pub fn explain(bench: &Bench, refusal: Refusal, line: &[u8]) -> String {
    let fields = numbers(line);
    let unit = fields.first().copied().unwrap_or(0);
    let interfaces = if line.first() == Some(&b'F') { &fields[..] } else { &fields[..1.min(fields.len())] };
    let named_nodes = || serials(line, &fields).into_iter().filter_map(|serial| named(bench, serial));
    let found = match refusal {
        Refusal::Line => Some(line_words(line)),
        Refusal::Unit => interfaces.iter().find(|unit| **unit > 7).map(|unit| format!("there is no interface {unit}, only 0 to 7")),
        Refusal::Child => interfaces.iter().find(|unit| is_child(bench, **unit)).map(|unit| match top_of(bench, *unit) {
            Some(top) => format!("interface {unit} is fused into interface {top}"),
            None => format!("interface {unit} is fused into another"),
        }),
        Refusal::Length => Some(match fields.get(1) {
            Some(length) if *length < 0 => format!("a growth of {length} is negative"),
            _ => format!("the progress of interface {unit} would pass 2^40"),
        }),
        Refusal::Circle => Some(format!("{} members are more than 64", fields.len().saturating_sub(1))),
        Refusal::Stale => {
            let gone = serials(line, &fields).into_iter().find(|serial| named(bench, *serial).is_none());
            gone.map(|serial| format!("serial {serial} names no present node"))
        }
        Refusal::Foreign => named_nodes()
            .find(|(_, top)| i128::from(*top) != unit)
            .map(|(node, top)| format!("serial {} stands in the tree of interface {top}, not of {unit}", node.serial())),
        Refusal::Kind => serials(line, &fields).first().map(|serial| format!("serial {serial} is a defect, and only blossoms are expanded")),
        Refusal::Inside => named_nodes()
            .find_map(|(node, _)| outermost(bench, node).map(|outer| (node, outer)))
            .map(|(node, outer)| format!("serial {} lies in a blossom, outermost {}", node.serial(), outer.serial())),
        Refusal::Twice => {
            let all = serials(line, &fields);
            all.iter().enumerate().find(|(at, serial)| all[..*at].contains(serial)).map(|(_, serial)| format!("serial {serial} is named twice"))
        }
        Refusal::Full => Some(match u8::try_from(unit).map(|unit| bench.is_filling(unit)) {
            Ok(Ok(true)) => format!("64 nodes of interface {unit} are present"),
            _ => format!("all 64 slots of interface {unit} are used"),
        }),
        Refusal::Worn => Some("no serial is left".to_string()),
        Refusal::Pair => Some(match fields[..] {
            [_, left, right] if left == right => format!("interface {left} cannot be both halves"),
            _ => format!("interface {unit} is not of a higher number than both its halves"),
        }),
        Refusal::Below => u8::try_from(unit).ok().and_then(|unit| lowest(bench, unit)).map(|(node, value)| {
            let length = fields.get(1).copied().unwrap_or(0);
            format!("serial {} shrinks and has {value}, which is less than {length}", node.serial())
        }),
        Refusal::Mark => one_floored(bench, fields.get(1..).unwrap_or(&[])),
        Refusal::Used => Some(format!("interface {unit} has slots used, progress or halves already")),
        _ => None,
    };
    found.unwrap_or_else(|| refusal.about().to_string())
}
