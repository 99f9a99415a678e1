//! Each row of docs/DIFFERENCES.md, run again: the last answer by the manual (the model) and by the original alone.
//! A row is `| no | calls | the manual's last answer | the original's | words |`, the first three in code. `64* D 0 #` says a call 64 times, `#`
//! counting from 1; `1..65` stands for the numbers between; an answer that ends in ` ..` goes on; a panic has the
//! words given, and the notices after `noted`, none without it.
use oracle::bare;
use oracle::line::{numbers, read, Line};
use oracle::model::Model;

struct Row {
    number: String,
    calls: Vec<Line>,
    document: String,
    original: String,
}

/// The code in a cell.
fn code(cell: &str) -> Option<&str> {
    cell.trim().strip_prefix('`')?.strip_suffix('`')
}

/// The numbers that a field stands for.
fn field(text: &str) -> String {
    let ends: Vec<u32> = text.split("..").filter_map(|end| end.parse().ok()).collect();
    match ends[..] {
        [first, last] => (first..=last).map(|number| number.to_string()).collect::<Vec<_>>().join(" "),
        _ => text.to_string(),
    }
}

/// A call, or as many as it says.
fn calls(text: &str) -> Vec<String> {
    let one = |call: &str| call.split(' ').map(field).collect::<Vec<_>>().join(" ");
    match text.split_once("* ") {
        Some((times, call)) => (1..=times.parse::<u32>().expect("a count")).map(|at| one(&call.replace('#', &at.to_string()))).collect(),
        None => vec![one(text)],
    }
}

fn row(line: &str) -> Option<Row> {
    let cells: Vec<&str> = line.trim().trim_matches('|').split('|').collect();
    if cells.len() < 4 {
        return None;
    }
    let said: Vec<String> = code(cells[1])?.split(" / ").flat_map(calls).collect();
    let calls = said.iter().map(|call| read(call).unwrap_or_else(|why| panic!("{call}: {why}"))).collect();
    let answer = |cell| code(cell).map(str::to_string);
    Some(Row { number: cells[0].trim().to_string(), calls, document: answer(cells[2])?, original: answer(cells[3])? })
}

fn rows() -> Vec<Row> {
    let text = include_str!("../../docs/DIFFERENCES.md");
    text.lines().filter(|line| line.starts_with('|')).filter_map(row).collect()
}

/// Whether an answer is the one that a cell says.
fn says(cell: &str, answer: &str) -> bool {
    if let Some(begin) = cell.strip_suffix(" ..") {
        return answer.starts_with(begin);
    }
    let parts = |text: &str| text.split_once("; noted").map_or((text.to_string(), None), |(a, b)| (a.to_string(), Some(b.to_string())));
    match (cell.strip_prefix("panic"), parts(answer)) {
        (Some(rest), (panic, noted)) => {
            let (words, expected) = parts(rest);
            panic.starts_with("panic ") && panic.contains(words.trim_start()) && noted == expected
        }
        (None, _) => answer == cell,
    }
}

#[test]
fn there_are_rows() {
    assert!(rows().len() >= 70, "{} rows", rows().len());
}

#[test]
fn document_01_as_each_row_says() {
    for row in rows() {
        let mut model = Model::new(1);
        let answers: Vec<String> = row.calls.iter().map(|call| numbers(&model.answer(call))).collect();
        assert!(says(&row.document, answers.last().unwrap()), "row {}: {} but {answers:?}", row.number, row.document);
    }
}

#[test]
fn the_original_as_each_row_says() {
    for row in rows() {
        let outcomes: Vec<String> = bare::run(row.calls).iter().map(|outcome| outcome.to_string()).collect();
        assert!(says(&row.original, outcomes.last().unwrap()), "row {}: {} but {outcomes:?}", row.number, row.original);
    }
}

#[test]
fn the_two_differ_in_each_row() {
    for row in rows() {
        assert_ne!(row.document, row.original, "row {}", row.number);
    }
}
