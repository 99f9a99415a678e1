//! Runs of byte records: on a floored bench, on one that fills, beside single calls, and refused, when nothing changes.
use dual_ledger::records::to_bytes;
use dual_ledger::runs::{run_lent, Four};
use dual_ledger::{Bench, Refusal};

/// The answers of a text, run as a file of records.
fn ran(bench: &mut Bench, text: &str) -> Vec<Four> {
    let mut answers = vec![[7; 4]; text.lines().count() + 1];
    assert_eq!(bench.run(&to_bytes(text).unwrap(), &mut answers), Ok(text.lines().count()));
    assert_eq!(answers.pop(), Some([7; 4]), "what is past the answers stays");
    answers
}

/// A defect, and so many blossoms of it, each made and taken apart: a slot emptied by each.
fn emptied(blossoms: u32) -> String {
    let pairs: String = (2..2 + blossoms).map(|serial| format!("B 0 1\nE 0 {serial}\n")).collect();
    format!("D 0 3\n{pairs}")
}

#[test]
fn a_floor_is_passed_on_and_the_run_goes_on() {
    let text = "D 0 3\nG 0 2\nS 0 1 -1\nG 0 3\nG 0 2\n";
    let mut floored = Bench::default();
    floored.mark_floored(0).unwrap();
    assert_eq!(ran(&mut floored, text), [[0, 1, 1, 0], [0, 0, 1, 2], [0, 1, -1, 2], [25, 0, -1, 2], [0, 0, -1, 0]]);
    assert_eq!(ran(&mut Bench::default(), text)[3], [0, 0, -1, -1]);
}

#[test]
fn a_filling_bench_is_not_full_of_emptied_slots() {
    let text = emptied(70);
    let mut filling = Bench::default();
    filling.mark_filling(0).unwrap();
    assert!(ran(&mut filling, &text).iter().all(|four| four[0] == 0));
    assert!(ran(&mut Bench::default(), &text).iter().any(|four| four[0] == 14));
}

#[test]
fn a_clear_in_a_run_ends_the_marks() {
    let mut bench = Bench::default();
    bench.mark_floored(0).unwrap();
    bench.mark_filling(0).unwrap();
    ran(&mut bench, "C 0\n");
    assert_eq!((bench.is_floored(0), bench.is_filling(0)), (Ok(false), Ok(false)));
}

#[test]
fn a_refused_run_changes_nothing() {
    let file = to_bytes("D 0 3\nG 0 1\n").unwrap();
    let mut bench = Bench::default();
    let mut answers = [[7; 4]; 1];
    assert_eq!(bench.run(&file, &mut answers), Err(Refusal::Small));
    assert_eq!(bench.run(&file[1..], &mut answers), Err(Refusal::File));
    assert_eq!((bench.nodes_count(0), answers), (Ok(0), [[7; 4]; 1]));
    let mut broken = [1; dual_ledger::WORDS];
    assert_eq!(run_lent(&mut broken, &file[1..], &mut answers), Err(Refusal::File));
    assert_eq!(run_lent(&mut broken, &file, &mut answers), Err(Refusal::Broken));
    assert_eq!((broken, answers), ([1; dual_ledger::WORDS], [[7; 4]; 1]));
}
