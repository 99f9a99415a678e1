//! The text program (docs/MANUAL.md, Lines and Answers): its grammar, its lines out of bytes, and its four numbers.
use crate::bare::watched;
use crate::driver::Driver;
use crate::line::Line;
use crate::replay::Replay;

/// The longest line, newline included.
pub const LONGEST: usize = 1024;
const NO_LINE: &str = "1 0 0 0";

/// A plain decimal: no leading zero, minus only before a nonzero number.
fn decimal(field: &str) -> Option<i64> {
    let number: i64 = field.parse().ok()?;
    Some(number).filter(|number| number.to_string() == field)
}

fn within(field: &str, least: i64, most: i64) -> Option<i64> {
    decimal(field).filter(|number| (least..=most).contains(number))
}

fn unit(field: &str) -> Option<u32> {
    within(field, 0, 255).map(|number| number as u32)
}

fn serial(field: &str) -> Option<u32> {
    within(field, 1, u32::MAX as i64).map(|number| number as u32)
}

/// A line without its newline; none if it is not of the grammar.
pub fn read(bytes: &[u8]) -> Option<Line> {
    let fields: Vec<&str> = std::str::from_utf8(bytes).ok()?.split(' ').collect();
    Some(match fields[..] {
        ["D", u, v] => Line::Defect(unit(u)?, within(v, 0, u32::MAX as i64)? as u32),
        ["B", u, _, ..] => Line::Blossom(unit(u)?, fields[2..].iter().map(|s| serial(s)).collect::<Option<_>>()?, vec![]),
        ["E", u, s] => Line::Expand(unit(u)?, serial(s)?),
        ["S", u, s, state] => Line::SetState(unit(u)?, serial(s)?, within(state, -1, 1)?),
        ["G", u, length] => Line::Grow(unit(u)?, decimal(length)?),
        ["F", p, l, r] => Line::Fuse(unit(p)?, unit(l)?, unit(r)?),
        ["C", u] => Line::Clear(unit(u)?),
        ["K", u] => Line::Check(unit(u)?),
        _ => return None,
    })
}

/// The input's lines, each with whether it can be one: ended by a newline and not too long.
pub fn lines(input: &[u8]) -> impl Iterator<Item = (&[u8], bool)> {
    input.split_inclusive(|byte| *byte == b'\n').map(|line| match line.strip_suffix(b"\n") {
        Some(text) => (text, line.len() <= LONGEST),
        None => (line, false),
    })
}

fn four(answer: &[i64]) -> String {
    crate::line::numbers(&answer[..4])
}

/// What `ledger` is to print: the original's numbers where a line is accepted, the manual's where it is refused.
/// An error names the first line on which the two differ.
pub fn run(input: &[u8]) -> Result<String, String> {
    let mut replay = Replay::default();
    let mut out = String::new();
    for (at, (text, can_be)) in lines(input).enumerate() {
        match read(text).filter(|_| can_be) {
            None => out.push_str(NO_LINE),
            Some(line) => {
                let turn = replay.turn(&line);
                if !turn.agrees() {
                    return Err(format!("line {}: the original and the model differ: {:?}, {:?}", at + 1, turn.original, turn.answer));
                }
                out.push_str(&four(&turn.answer));
            }
        }
        out.push('\n');
    }
    Ok(out)
}

/// The original alone on accepted lines; on any other what it does, after `! `. Nothing after a line that hangs.
pub fn raw(input: Vec<u8>) -> Vec<String> {
    watched("! hangs".to_string(), move |sender| {
        let mut driver = Driver::new(1, false);
        for (text, can_be) in lines(&input) {
            let answer = match read(text).filter(|_| can_be).map(|line| driver.answer(&line)) {
                None => "! not of the grammar".to_string(),
                Some(Ok(numbers)) => four(&numbers),
                Some(Err(trouble)) => format!("! {trouble}"),
            };
            if sender.send(answer).is_err() {
                return;
            }
        }
    })
}
