//! The nest of blossoms as an SVG: a box for each node, its members' boxes in it, in circle order. What stands where comes from the picture's JSON
//! (abbreviated names); the values beside it are read from the bench, since the picture has none.
use crate::json::Value;
use std::fmt::Write;

const LEAF: (usize, usize) = (150, 66);
const LINE: usize = 17;
const GAP: usize = 12;
const HEAD: usize = 3 * LINE + 4;

/// A state's word, and its colours: inside, and around.
fn colours(state: &str) -> (&'static str, &'static str) {
    match state {
        "grow" => ("#e3f4e5", "#2e7d32"),
        "shrink" => ("#fde6df", "#c0392b"),
        _ => ("#eef1f4", "#5f7183"),
    }
}

/// A node of the picture.
struct Node {
    vertex: Option<i64>,
    members: Vec<usize>,
    touching: Vec<(i64, i64)>,
    state: String,
    parent: Option<usize>,
    value: i64,
}

struct Nest {
    nodes: Vec<Option<Node>>,
    /// Each box: width and height.
    sizes: Vec<(usize, usize)>,
}

fn node(of: &Value, value: i64) -> Option<Node> {
    let numbers = |key: &str| of.at(key).and_then(Value::list).unwrap_or(&[]);
    let pair = |two: &Value| Some((two.list()?.first()?.number()?, two.list()?.get(1)?.number()?));
    Some(Node {
        vertex: of.at("s")?.number(),
        members: numbers("o").iter().filter_map(|index| index.number().map(|index| index as usize)).collect(),
        touching: numbers("t").iter().filter_map(pair).collect(),
        state: of.at("g")?.text()?.to_string(),
        parent: of.at("p")?.number().map(|index| index as usize),
        value,
    })
}

impl Nest {
    /// Boxes side by side, as many to a row as make a square of them: where each begins, and the size of all.
    fn rows(&self, boxes: &[usize]) -> (Vec<(usize, usize)>, (usize, usize)) {
        let across = (1..).find(|n| n * n >= boxes.len()).unwrap_or(1);
        let (mut places, mut whole, mut top) = (vec![], (0, 0), 0);
        for row in boxes.chunks(across.max(1)) {
            let mut left = 0;
            for index in row {
                places.push((left, top));
                left += self.sizes[*index].0 + GAP;
            }
            whole.0 = whole.0.max(left.saturating_sub(GAP));
            top += row.iter().map(|index| self.sizes[*index].1).max().unwrap_or(0) + GAP;
            whole.1 = top - GAP;
        }
        (places, whole)
    }

    /// A blossom's members are measured before it, from the roots down by recursion.
    fn measure(&mut self, index: usize) {
        let members = self.nodes.get(index).and_then(Option::as_ref).map_or(vec![], |node| node.members.clone());
        members.iter().for_each(|member| self.measure(*member));
        let (_, inner) = self.rows(&members);
        self.sizes[index] = match members.is_empty() {
            true => LEAF,
            false => (LEAF.0.max(inner.0 + 2 * GAP), HEAD + inner.1 + GAP),
        };
    }

    fn draw(&self, out: &mut String, index: usize, (x, y): (usize, usize), touch: Option<(i64, i64)>) {
        let Some(node) = &self.nodes[index] else { return };
        let ((width, height), (fill, stroke)) = (self.sizes[index], colours(&node.state));
        let name = match node.vertex {
            Some(vertex) => format!("node {index}: vertex {vertex}"),
            None => format!("node {index}: blossom"),
        };
        let by = touch.filter(|two| *two != (index as i64, index as i64)).map_or(String::new(), |(a, b)| format!("touches by {a} and {b}"));
        let _ =
            writeln!(out, r#"<rect x="{x}" y="{y}" width="{width}" height="{height}" rx="6" fill="{fill}" stroke="{stroke}" stroke-width="1.5"/>"#);
        let lines =
            [(name, "#1b1f24", "bold"), (format!("value {}: {}", node.value, word(&node.state)), stroke, "normal"), (by, "#57606a", "normal")];
        for (at, (line, colour, weight)) in lines.iter().enumerate() {
            let (left, base) = (x + 8, y + LINE * (at + 1));
            let _ = writeln!(out, r#"<text x="{left}" y="{base}" fill="{colour}" font-weight="{weight}">{line}</text>"#);
        }
        let (places, _) = self.rows(&node.members);
        for (at, (member, (left, top))) in node.members.iter().zip(places).enumerate() {
            self.draw(out, *member, (x + GAP + left, y + HEAD + top), node.touching.get(at).copied());
        }
    }
}

fn word(state: &str) -> &'static str {
    match state {
        "grow" => "grows",
        "shrink" => "shrinks",
        _ => "stays",
    }
}

/// The SVG of a picture, with the values of its nodes by index.
pub fn of(picture: &str, interface: u8, values: &[i64]) -> Option<String> {
    let picture = Value::read(picture)?;
    let (speed, sum) = (picture.at("interface")?.at("s")?.number()?, picture.at("interface")?.at("d")?.number()?);
    let nodes: Vec<Option<Node>> = picture.at("dual_nodes")?.list()?.iter().zip(values).map(|(of, value)| node(of, *value)).collect();
    let roots: Vec<usize> = (0..nodes.len()).filter(|index| nodes[*index].as_ref().is_some_and(|node| node.parent.is_none())).collect();
    let mut nest = Nest { sizes: vec![LEAF; nodes.len()], nodes };
    roots.iter().for_each(|root| nest.measure(*root));
    let (places, (width, height)) = nest.rows(&roots);
    let (width, height) = (width.max(360) + 2 * GAP, height + 2 * GAP + 2 * LINE);
    let mut out = format!(
        "<svg xmlns=\"http://www.w3.org/2000/svg\" width=\"{width}\" height=\"{height}\" viewBox=\"0 0 {width} {height}\" font-family=\"sans-serif\" font-size=\"13\">\n\
         <title>interface {interface}: speed {speed}, sum {sum}</title>\n<rect width=\"{width}\" height=\"{height}\" fill=\"#ffffff\"/>\n\
         <text x=\"{GAP}\" y=\"{}\" font-weight=\"bold\">interface {interface}: speed {speed}, sum {sum}</text>\n",
        GAP + LINE
    );
    for (root, (left, top)) in roots.iter().zip(places) {
        nest.draw(&mut out, *root, (GAP + left, GAP + 2 * LINE + top), None);
    }
    out.push_str("</svg>\n");
    Some(out)
}
