//! The recordings of the repository are those that the generator makes, and cover what they are said to cover.
use oracle::coverage::Coverage;
use oracle::recording::{record, replay};
use oracle::recordings::{self, cover, text_input};
use oracle::text;
use std::fs::read;
use std::path::{Path, PathBuf};

fn file(name: &str) -> PathBuf {
    Path::new(env!("CARGO_MANIFEST_DIR")).join(name)
}

fn all() -> Vec<(&'static str, String)> {
    let scenes = |name: &str| String::from_utf8(read(file(name)).unwrap()).unwrap();
    recordings::all(&scenes("scenes/edges.txt"), &scenes("scenes/marks.txt"))
}

#[test]
fn made_again_to_the_same_bytes() {
    for (name, calls) in all() {
        let made = record(&calls).unwrap_or_else(|wrong| panic!("{name}: {wrong}"));
        assert!(made.as_bytes() == read(file(&format!("recordings/{name}.txt"))).unwrap(), "{name} differs from what is kept");
    }
    let input = text_input(2_000, 77);
    assert!(input == read(file("recordings/text/in.txt")).unwrap());
    assert!(text::run(&input).unwrap().as_bytes() == read(file("recordings/text/out.txt")).unwrap());
}

#[test]
fn every_answer_kept_is_given() {
    let mut compared = 0;
    for (name, _) in all() {
        let text = String::from_utf8(read(file(&format!("recordings/{name}.txt"))).unwrap()).unwrap();
        let result = replay(&text, |at, line, turn, written| {
            compared += 1;
            assert!(turn.agrees(), "{name}, line {at}: {line}");
            assert_eq!(written, Some(oracle::line::numbers(&turn.answer).as_str()), "{name}, line {at}: {line}");
        });
        result.unwrap();
    }
    assert!(compared > 30_000, "{compared}");
}

/// Every call accepted, every number but LINE and BROKEN, every verdict, every shape.
#[test]
fn what_they_cover() {
    let mut found = Coverage::default();
    all().iter().for_each(|(_, calls)| cover(calls, &mut found).unwrap());
    let letters = "NDBbtESGFCKkspnhidvoufaegcwxqrjyzlmPQ";
    for letter in letters.chars() {
        assert!(found.calls[&letter.to_string()].contains_key(&0), "{letter} is never accepted");
    }
    for number in (3..=20).chain([25, 26]) {
        assert!(found.calls.values().any(|numbers| numbers.contains_key(&number)), "no {number}");
    }
    (0..=5).for_each(|verdict| assert!(found.verdicts.contains_key(&("plain", verdict)), "no verdict {verdict}"));
    (0..=6).for_each(|verdict| assert!(found.verdicts.contains_key(&("strict", verdict)), "no strict verdict {verdict}"));
    found.shapes.iter().for_each(|(shape, count)| assert!(*count > 0, "no {shape}"));
    assert_eq!(found.deepest, 255);
}
