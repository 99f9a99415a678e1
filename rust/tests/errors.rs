//! The table of refusals by function, held against the recorded answers of the model (oracle/recordings): what a call was refused by is just what the
//! table says of it.
use dual_ledger::{Refusal, REFUSALS};
use std::collections::{BTreeMap, BTreeSet};
use std::path::Path;

/// The function that a letter of the recordings calls.
fn function(letter: &str, mode: Option<&str>) -> Option<&'static str> {
    Some(match letter {
        "P" if mode == Some("1") => "mark_filling",
        "Q" if mode == Some("1") => "is_filling",
        "P" => "mark_floored",
        "Q" => "is_floored",
        "N" => "set_up",
        "D" => "create_defect_node",
        "B" | "b" | "t" => "create_blossom",
        "E" => "expand_blossom",
        "S" => "set_grow_state",
        "G" => "grow",
        "F" => "fuse",
        "C" => "clear",
        "K" => "sanity_check",
        "k" => "strict_check",
        "s" => "sum_dual_variables",
        "p" => "sum_grow_speed",
        "n" => "nodes_count",
        "h" => "get_node",
        "i" => "check_ptr_belonging",
        "v" => "get_dual_variable",
        "o" => "get_ancestor_blossom",
        "u" => "get_secondary_ancestor_blossom",
        "f" => "get_representative_vertex",
        "a" => "get_all_vertices_into",
        "g" | "c" | "w" | "x" | "q" | "r" => "add",
        "j" => "extend",
        "z" => "pop",
        "l" => "peek",
        _ => return None,
    })
}

#[test]
fn as_recorded() {
    let folder = Path::new(env!("CARGO_MANIFEST_DIR")).join("../oracle/recordings");
    let mut seen: BTreeMap<&str, BTreeSet<Refusal>> = BTreeMap::new();
    let mut answers = 0;
    for entry in std::fs::read_dir(folder).unwrap().flatten().filter(|entry| entry.path().is_file()) {
        let text = std::fs::read_to_string(entry.path()).unwrap();
        let (mut called, mut mode) = ("", None);
        for line in text.lines() {
            if let Some(answer) = line.strip_prefix("= ") {
                let numbers: Vec<u8> = answer.split(' ').map(|number| number.parse().unwrap_or(0)).collect();
                // `y` answers 0, whether it is empty and active, and only then the growth's number
                let (name, number) = match called {
                    "y" => (Some("get_none_zero_growth"), numbers[3]),
                    _ => (function(called, mode), numbers[0]),
                };
                if let (Some(name), Some(refusal)) = (name, Refusal::from_number(number)) {
                    seen.entry(name).or_default().insert(refusal);
                }
                answers += 1;
            } else if !line.starts_with('#') {
                called = line.split(' ').next().unwrap_or("");
                mode = line.split(' ').nth(2);
            }
        }
    }
    // the reads of present nodes have no letter: their tests are those of the count and of the index (next_of, present_of in crates/read_present)
    for (name, like) in [("present_count", "nodes_count"), ("next_present", "get_node")] {
        let same = seen.get(like).cloned().unwrap_or_default();
        seen.insert(name, same);
    }
    assert!(answers > 30_000, "only {answers} recorded answers");
    let table: BTreeMap<&str, BTreeSet<Refusal>> = REFUSALS.iter().map(|(name, all)| (*name, all.iter().copied().collect())).collect();
    for (name, listed) in &table {
        assert!(REFUSALS.iter().any(|(own, all)| own == name && all.windows(2).all(|two| two[0] < two[1])), "{name} is not in rising order");
        // the original has no pop that spares the stops, and it answers the numbers of the other (ledger_sparing, same-answer)
        if *name == "pop_sparing_stops" {
            assert_eq!(listed, &table["pop"]);
        // the recordings ask for vertices with a slice, and have no pictures (tests/picture.rs), no byte records (tests/records.rs) and no recorded
        // growth (tests/recorded.rs)
        } else if !["get_all_vertices", "snapshot", "snapshot_into", "get", "get_into"].contains(name)
            && !name.starts_with("to_")
            && !name.starts_with("grow_recorded")
        {
            assert_eq!(Some(listed), seen.get(name), "{name}");
        }
    }
    assert!(seen.keys().all(|name| table.contains_key(name)));
}
