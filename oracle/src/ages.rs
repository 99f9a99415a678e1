//! The ages of a record by the model, as `dual-ledger ages --csv` prints them, worked out another way: which nodes went by a line is seen from the bench before
//! and after it, and what blossoms had when they went is kept by the interface whose slot they held. One record in three is run with interfaces that fill
//! emptied slots (`--fill`) or are floored (`--floor`); of these the answers of `dual-ledger check` are compared too.
use crate::generator::plans::{MIXED, TEXT};
use crate::generator::Player;
use crate::line::{numbers, read, Line};
use crate::model::bench::{Bench, Class, FACES};
use crate::model::Model;
use crate::text;
use std::collections::BTreeMap;
use std::fmt::Write;
use std::process::Command;

struct Aged {
    unit: usize,
    of: String,
    made: usize,
    gone: String,
    value: i64,
}

/// Serial, interface, what it is of and value of each present node.
fn present(bench: &Bench) -> BTreeMap<u32, (usize, String, i64)> {
    let mut found = BTreeMap::new();
    for (unit, face) in bench.faces.iter().enumerate() {
        for node in face.slots.iter().flatten() {
            let of = match &node.class {
                Class::Defect(vertex) => format!("{vertex},"),
                Class::Blossom(circle) => format!(",{}", circle.iter().map(|member| member.node.serial.to_string()).collect::<Vec<_>>().join(" ")),
            };
            found.insert(node.serial, (unit, of, node.value));
        }
    }
    found
}

/// The model as lines of the language leave a new bench.
fn after(before: &[String]) -> Model {
    let mut model = Model::new(1);
    before.iter().for_each(|line| drop(model.answer(&read(line).expect("a line of the language"))));
    model
}

/// What the text engine is to answer to a record on such a bench.
fn answers(before: &[String], input: &[u8]) -> String {
    let mut model = after(before);
    let answer = |(bytes, can_be)| match text::read(bytes).filter(|_| can_be) {
        Some(line) => numbers(&model.answer(&line)[..4]) + "\n",
        None => "1 0 0 0\n".to_string(),
    };
    text::lines(input).map(answer).collect()
}

/// The ages of a record on a bench that lines of the language were done on before.
pub fn csv(before: &[String], input: &[u8]) -> String {
    let mut model = after(before);
    let mut ages: BTreeMap<u32, Aged> = BTreeMap::new();
    let mut expanded = [0; FACES];
    for (at, (bytes, can_be)) in text::lines(input).enumerate() {
        let Some(line) = text::read(bytes).filter(|_| can_be) else { continue };
        let before = present(&model.bench);
        let cleared = match line {
            Line::Clear(unit) if (unit as usize) < FACES => model.bench.tree(unit as usize),
            _ => vec![],
        };
        if model.answer(&line)[0] != 0 {
            continue;
        }
        let after = present(&model.bench);
        cleared.into_iter().for_each(|unit| expanded[unit] = 0);
        for (serial, (unit, _, value)) in before.iter().filter(|(serial, _)| !after.contains_key(serial)) {
            let is_expanded = matches!(line, Line::Expand(..));
            let node = ages.get_mut(serial).expect("it was made");
            node.gone = format!("{},{}", at + 1, if is_expanded { "expanded" } else { "cleared" });
            node.value = *value;
            expanded[*unit] += if is_expanded { *value } else { 0 };
        }
        for (serial, (unit, of, _)) in after.into_iter().filter(|(serial, _)| !before.contains_key(serial)) {
            ages.insert(serial, Aged { unit, of, made: at + 1, gone: ",".to_string(), value: 0 });
        }
    }
    let now = present(&model.bench);
    let mut out = "row,serial,interface,vertex,members,made,gone,how,value,sum,present,expanded\n".to_string();
    for (serial, aged) in &ages {
        let value = now.get(serial).map_or(aged.value, |(_, _, value)| *value);
        writeln!(out, "node,{serial},{},{},{},{},{value},,,", aged.unit, aged.of, aged.made, aged.gone).expect("a string takes it");
    }
    for (unit, face) in model.bench.faces.iter().enumerate().filter(|(_, face)| face.parent.is_none()) {
        let tree = model.bench.tree(unit);
        let total: i64 = now.values().filter(|(own, _, _)| tree.contains(own)).map(|(_, _, value)| value).sum();
        let gone: i64 = tree.iter().map(|own| expanded[*own]).sum();
        let has_slots = tree.iter().any(|own| !model.bench.faces[*own].slots.is_empty());
        if has_slots || face.sum != 0 || gone != 0 {
            writeln!(out, "interface,,{unit},,,,,,,{},{total},{gone}", face.sum).expect("a string takes it");
        }
    }
    out
}

/// Generated records, the ages of each by a command and by the model; how many were compared, or the first that differs.
pub fn compare(command: &str, count: u64) -> Result<String, String> {
    let path = std::env::temp_dir().join(format!("ages-{}.txt", std::process::id()));
    let (mut nodes, mut gone, mut sums, mut lines, mut marked) = (0, 0, 0, 0, 0);
    for seed in 0..count {
        let plan = if seed % 2 == 0 { TEXT } else { MIXED };
        let mut player = Player::new(plan, seed + 1);
        let units: Vec<String> = (0..8).filter(|unit| seed % 3 == 0 && seed / 12 >> unit & 1 == 1).map(|unit| unit.to_string()).collect();
        let (mode, option) = [(1, "--fill"), (2, "--floor")][seed as usize / 6 % 2];
        let marks: Vec<String> = units.iter().map(|unit| format!("P {unit} {mode}")).collect();
        marks.iter().for_each(|line| assert!(player.play(line)));
        let length = 20 + seed % 400;
        let record: String = (0..length).map(|_| if seed % 2 == 0 { player.accepted() } else { player.line() } + "\n").collect();
        std::fs::write(&path, &record).map_err(|why| why.to_string())?;
        let options = units.iter().flat_map(|unit| [option, unit]);
        let output = Command::new(command)
            .args(["ages", "--csv", "--quiet"])
            .args(options.clone())
            .arg(&path)
            .output()
            .map_err(|why| format!("{command}: {why}"))?;
        let (theirs, ours) = (String::from_utf8_lossy(&output.stdout).into_owned(), csv(&marks, record.as_bytes()));
        if theirs != ours || !output.status.success() {
            let line = theirs.lines().zip(ours.lines()).find(|(theirs, ours)| theirs != ours);
            return Err(format!("seed {seed}: {line:?}, status {}; the record is {}", output.status, path.display()));
        }
        if !marks.is_empty() {
            let output = Command::new(command).args(["check", "--quiet", "--answers", "-"]).args(options).arg(&path).output();
            let said = output.map_err(|why| format!("{command}: {why}"))?.stdout;
            if said != answers(&marks, record.as_bytes()).as_bytes() {
                return Err(format!("seed {seed}: the answers differ with {marks:?}; the record is {}", path.display()));
            }
            marked += length;
        }
        lines += length;
        nodes += ours.lines().filter(|line| line.starts_with("node")).count();
        gone += ours.lines().filter(|line| line.contains(",expanded,")).count();
        sums += ours.lines().filter(|line| line.starts_with("interface")).count();
    }
    let _ = std::fs::remove_file(&path);
    Ok(format!("ages: {count} records of {lines} lines: {nodes} nodes, {gone} of them expanded, and {sums} sums, and the answers to {marked} lines on marked interfaces, all as the model has them\n"))
}
