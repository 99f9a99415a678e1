//! The ages as aligned text, as one table of comma-separated values, as one JSON object.
use crate::ages::{Node, Of, Sum};
use std::io::{self, Write};

/// Rows are put together here and written in large pieces.
struct Rows<'a, W: Write> {
    bytes: Vec<u8>,
    to: &'a mut W,
}

const PIECE: usize = 1 << 16;

impl<W: Write> Rows<'_, W> {
    fn put(&mut self, text: &str) {
        self.bytes.extend_from_slice(text.as_bytes());
    }

    /// So many spaces.
    fn space(&mut self, count: usize) {
        self.bytes.resize(self.bytes.len() + count, b' ');
    }

    /// A number, in so many places at least, to their right.
    fn number(&mut self, number: i64, places: usize) {
        let mut digits = [0; 20];
        let (mut at, mut rest) = (digits.len(), number.unsigned_abs());
        loop {
            at -= 1;
            digits[at] = b'0' + (rest % 10) as u8;
            rest /= 10;
            if rest == 0 {
                break;
            }
        }
        if number < 0 {
            at -= 1;
            digits[at] = b'-';
        }
        self.space(places.saturating_sub(digits.len() - at));
        self.bytes.extend_from_slice(&digits[at..]);
    }

    fn members(&mut self, members: &[u32], between: &str) {
        for (at, member) in members.iter().enumerate() {
            self.put(if at == 0 { "" } else { between });
            self.number(i64::from(*member), 0);
        }
    }

    /// A row is done.
    fn end(&mut self, text: &str) -> io::Result<()> {
        self.put(text);
        if self.bytes.len() >= PIECE {
            self.to.write_all(&self.bytes)?;
            self.bytes.clear();
        }
        Ok(())
    }

    fn finish(self) -> io::Result<()> {
        self.to.write_all(&self.bytes)
    }
}

fn rows<W: Write>(to: &mut W) -> Rows<'_, W> {
    Rows { bytes: Vec::with_capacity(2 * PIECE), to }
}

/// How wide a column has to be.
fn widest(head: &str, widths: impl Iterator<Item = usize>) -> usize {
    widths.max().unwrap_or(0).max(head.len())
}

fn digits(number: i64) -> usize {
    let own = number.unsigned_abs().checked_ilog10().unwrap_or(0) as usize + 1;
    own + usize::from(number < 0)
}

fn gone_width(node: &Node) -> usize {
    node.gone.map_or(0, |(line, how)| digits(line as i64) + 2 + how.word().len())
}

pub fn text(out: &mut impl Write, nodes: &[Node], sums: &[Sum]) -> io::Result<()> {
    let serial = widest("serial", nodes.last().iter().map(|node| digits(i64::from(node.handle.serial()))));
    let made = widest("made at", nodes.last().iter().map(|node| digits(node.made as i64)));
    let gone = widest("gone at", nodes.iter().map(gone_width));
    let value = widest("value", nodes.iter().map(|node| digits(node.value)));
    writeln!(out, "{:>serial$}  interface  {:>made$}  {:gone$}  {:>value$}  of", "serial", "made at", "gone at", "value")?;
    let mut row = rows(out);
    for node in nodes {
        row.number(i64::from(node.handle.serial()), serial);
        row.number(i64::from(node.handle.interface()), 2 + 9);
        row.number(node.made as i64, 2 + made);
        row.space(2);
        if let Some((line, how)) = node.gone {
            row.number(line as i64, 0);
            row.put(", ");
            row.put(how.word());
        }
        row.space(gone - gone_width(node));
        row.number(node.value, 2 + value);
        match &node.of {
            Of::Vertex(vertex) => {
                row.put("  vertex ");
                row.number(i64::from(*vertex), 0);
            }
            Of::Members(members) => {
                row.put("  members ");
                row.members(members, " ");
            }
        }
        row.end("\n")?;
    }
    row.finish()?;
    writeln!(out, "\ninterface  stored sum  values present  in expanded blossoms")?;
    for sum in sums {
        let verdict = if sum.adds_up() { "adds up" } else { "DOES NOT ADD UP" };
        writeln!(out, "{:>9}  {:>10}  {:>14}  {:>20}  {verdict}", sum.interface, sum.stored, sum.present, sum.expanded)?;
    }
    Ok(())
}

pub fn csv(out: &mut impl Write, nodes: &[Node], sums: &[Sum]) -> io::Result<()> {
    writeln!(out, "row,serial,interface,vertex,members,made,gone,how,value,sum,present,expanded")?;
    let mut row = rows(out);
    for node in nodes {
        row.put("node,");
        row.number(i64::from(node.handle.serial()), 0);
        row.put(",");
        row.number(i64::from(node.handle.interface()), 0);
        row.put(",");
        match &node.of {
            Of::Vertex(vertex) => row.number(i64::from(*vertex), 0),
            Of::Members(_) => {}
        }
        row.put(",");
        if let Of::Members(members) = &node.of {
            row.members(members, " ");
        }
        row.put(",");
        row.number(node.made as i64, 0);
        row.put(",");
        if let Some((line, how)) = node.gone {
            row.number(line as i64, 0);
            row.put(",");
            row.put(how.word());
        } else {
            row.put(",");
        }
        row.put(",");
        row.number(node.value, 0);
        row.end(",,,\n")?;
    }
    row.finish()?;
    for sum in sums {
        writeln!(out, "interface,,{},,,,,,,{},{},{}", sum.interface, sum.stored, sum.present, sum.expanded)?;
    }
    Ok(())
}

pub fn json(out: &mut impl Write, nodes: &[Node], sums: &[Sum]) -> io::Result<()> {
    write!(out, "{{\"nodes\":[")?;
    let mut row = rows(out);
    for (at, node) in nodes.iter().enumerate() {
        row.put(if at == 0 { "\n{\"serial\":" } else { ",\n{\"serial\":" });
        row.number(i64::from(node.handle.serial()), 0);
        row.put(",\"interface\":");
        row.number(i64::from(node.handle.interface()), 0);
        match &node.of {
            Of::Vertex(vertex) => {
                row.put(",\"vertex\":");
                row.number(i64::from(*vertex), 0);
            }
            Of::Members(members) => {
                row.put(",\"members\":[");
                row.members(members, ",");
                row.put("]");
            }
        }
        row.put(",\"made\":");
        row.number(node.made as i64, 0);
        if let Some((line, how)) = node.gone {
            row.put(",\"gone\":");
            row.number(line as i64, 0);
            row.put(",\"how\":\"");
            row.put(how.word());
            row.put("\"");
        }
        row.put(",\"value\":");
        row.number(node.value, 0);
        row.end("}")?;
    }
    row.finish()?;
    write!(out, "],\n\"interfaces\":[")?;
    for (at, sum) in sums.iter().enumerate() {
        let comma = if at == 0 { "" } else { "," };
        write!(out, "{comma}\n{{\"interface\":{},\"sum\":{},\"present\":{},\"expanded\":{}}}", sum.interface, sum.stored, sum.present, sum.expanded)?;
    }
    writeln!(out, "]}}")
}
