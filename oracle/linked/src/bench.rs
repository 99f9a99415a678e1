//! The benchmark: the original's bare calls and the linked ledger's in one run, over the fixed list and call by call. Best of several passes, each side in turn, by
//! processor time. Prints a table, and writes the same numbers as lines of tabs for the picture.
use crate::ledger::state;
use crate::nests::{self, BY_CALLS, BY_HAND};
use crate::words::encode;
use crate::{bench_groups, bench_marks, bench_present, bench_recorded, bench_records, bench_runs};
use dual_ledger::{lent, Bench, DualModule, GrowState, Handle, Verdict};
use oracle::line::{read, Line};
use oracle::timing::{self, by_kind, keep, kind, least, processor, whole, Original, Timed, KINDS};
use original::pointers::RwLockPtr;
use original::visualize::FusionVisualizer;
use std::fmt::Write;
use std::hint::black_box;

const PASSES: usize = 7;

/// The linked ledger and the handles that a caller would hold; with `tells`, notices go to a module that counts, as the original's do.
pub struct Linked {
    pub bench: Bench,
    pub nodes: Vec<Handle>,
    module: Counting,
    tells: bool,
}

#[derive(Default)]
pub struct Counting(usize);

impl DualModule for Counting {
    fn add_defect_node(&mut self, _: &Bench, _: Handle) {
        self.0 += 1
    }
    fn add_blossom(&mut self, _: &Bench, _: Handle) {
        self.0 += 1
    }
    fn remove_blossom(&mut self, _: &Bench, _: Handle) {
        self.0 += 1
    }
    fn set_grow_state(&mut self, _: &Bench, _: Handle, _: GrowState) {
        self.0 += 1
    }
    fn prepare_nodes_shrink(&mut self, _: &Bench, _: &[Handle]) {
        self.0 += 1
    }
    fn grow(&mut self, _: &Bench, _: i64) {
        self.0 += 1
    }
}

impl Linked {
    pub fn new(serials: usize, tells: bool) -> Self {
        let mut nodes = Vec::with_capacity(serials + 1);
        nodes.push(Handle::from_word(u64::MAX));
        Linked { bench: Bench::default(), nodes, module: Counting::default(), tells }
    }

    fn circle(&self, members: &[u32]) -> Vec<Handle> {
        members.iter().map(|serial| self.nodes[*serial as usize]).collect()
    }

    fn silent(&mut self, line: &Line) {
        let done = match line {
            Line::Defect(u, vertex) => self.bench.create_defect_node(*u as u8, *vertex).map(|node| self.nodes.push(node)),
            Line::Blossom(u, members, _) => self.bench.create_blossom(*u as u8, &self.circle(members), &[]).map(|node| self.nodes.push(node)),
            Line::Expand(u, serial) => self.bench.expand_blossom(*u as u8, self.nodes[*serial as usize]),
            Line::SetState(u, serial, rate) => self.bench.set_grow_state(*u as u8, self.nodes[*serial as usize], state(*rate)),
            Line::Grow(u, length) => self.bench.grow(*u as u8, *length),
            Line::Fuse(p, l, r) => self.bench.fuse(*p as u8, *l as u8, *r as u8),
            Line::Clear(u) => self.bench.clear(*u as u8),
            other => unreachable!("{other:?} is not in the list"),
        };
        done.expect("the list is of accepted calls")
    }

    fn telling(&mut self, line: &Line) {
        let circle = if let Line::Blossom(_, members, _) = line { self.circle(members) } else { vec![] };
        let mut telling = self.bench.telling(&mut self.module);
        let done = match line {
            Line::Defect(u, vertex) => telling.create_defect_node(*u as u8, *vertex).map(|node| self.nodes.push(node)),
            Line::Blossom(u, ..) => telling.create_blossom(*u as u8, &circle, &[]).map(|node| self.nodes.push(node)),
            Line::Expand(u, serial) => telling.expand_blossom(*u as u8, self.nodes[*serial as usize]),
            Line::SetState(u, serial, rate) => telling.set_grow_state(*u as u8, self.nodes[*serial as usize], state(*rate)),
            Line::Grow(u, length) => telling.grow(*u as u8, *length),
            Line::Fuse(p, l, r) => telling.fuse(*p as u8, *l as u8, *r as u8),
            Line::Clear(u) => telling.clear(*u as u8),
            other => unreachable!("{other:?} is not in the list"),
        };
        done.expect("the list is of accepted calls")
    }
}

impl Timed for Linked {
    fn call(&mut self, line: &Line) {
        if self.tells {
            self.telling(line)
        } else {
            self.silent(line)
        }
    }

    fn count(&self) -> usize {
        self.module.0 + self.nodes.len()
    }
}

/// What is measured: what it is, how many nodes, and the nanoseconds of each side; none where a side has no such form.
pub struct Row {
    pub what: String,
    pub nodes: usize,
    pub original: Option<f64>,
    pub trusted: f64,
    pub told: Option<f64>,
    pub public: Option<f64>,
}

/// The list as a whole and by kind.
fn list(lines: &[Line]) -> Vec<Row> {
    let n = lines.len();
    let mut all = [f64::MAX; 3];
    let mut kinds = [[None; 8]; 3];
    for _ in 0..PASSES {
        let times = [whole(lines, Original::new(n, false, false)), whole(lines, Linked::new(n, false)), whole(lines, Linked::new(n, true))];
        all.iter_mut().zip(times).for_each(|(best, time)| *best = best.min(time));
        let times = [by_kind(lines, Original::new(n, false, false)), by_kind(lines, Linked::new(n, false)), by_kind(lines, Linked::new(n, true))];
        kinds.iter_mut().flatten().zip(times.iter().flatten()).for_each(|(best, time)| *best = least(*best, *time));
    }
    let mut rows = vec![Row { what: "list".to_string(), nodes: n, original: Some(all[0]), trusted: all[1], told: Some(all[2]), public: None }];
    for (at, letter) in KINDS.chars().enumerate() {
        if let (Some(original), Some(trusted)) = (kinds[0][at], kinds[1][at]) {
            let nodes = lines.iter().filter(|line| kind(line) == at).count();
            rows.push(Row { what: letter.to_string(), nodes, original: Some(original), trusted, told: kinds[2][at], public: None });
        }
    }
    rows
}

/// Benches of so many nodes: defects in threes, each three in a blossom; 448 in seven interfaces of one tree. The top's number last.
pub fn full(nodes: usize) -> (Vec<Line>, u8) {
    let mut lines: Vec<String> = vec![];
    let mut next = 1;
    let mut fill = |lines: &mut Vec<String>, unit: usize, nodes: usize| {
        for _ in 0..nodes / 4 {
            (0..3).for_each(|at| lines.push(format!("D {unit} {}", next + at)));
            lines.push(format!("B {unit} {next} {} {}", next + 1, next + 2));
            next += 4;
        }
        (0..nodes % 4).for_each(|at| lines.push(format!("D {unit} {}", next + at)));
    };
    if nodes <= 64 {
        fill(&mut lines, 0, nodes);
    } else {
        (0..4).for_each(|unit| fill(&mut lines, unit, 64));
        for fuse in ["F 4 0 1", "F 5 2 3", "F 6 4 5"] {
            lines.push(fuse.to_string());
            fill(&mut lines, fuse.as_bytes()[2] as usize - b'0' as usize, 64);
        }
    }
    let top = if nodes <= 64 { 0 } else { 6 };
    (lines.iter().map(|line| read(line).expect("a line of the language")).collect(), top)
}

/// Nanoseconds of one call, best of several batches.
pub fn once(mut call: impl FnMut(u64)) -> f64 {
    let batch = |call: &mut dyn FnMut(u64), count: u64| {
        let begin = processor();
        (0..count).for_each(call);
        processor() - begin
    };
    let first = batch(&mut call, 20) / 20.0;
    let count = (1_000_000.0 / first.max(5.0)) as u64 + 20;
    (0..25).map(|_| batch(&mut call, count) / count as f64).fold(f64::MAX, f64::min)
}

/// Single calls on a bench of so many nodes.
fn singles(nodes: usize) -> Vec<Row> {
    let (lines, top) = full(nodes);
    let (mut theirs, mut ours, mut telling) = (Original::new(1000, false, false), Linked::new(1000, false), Linked::new(1000, true));
    for line in &lines {
        theirs.call(line);
        ours.call(line);
        telling.call(line);
    }
    let last = *ours.nodes.last().expect("there are nodes");
    let mut words = Box::new(*ours.bench.words());
    let mut picture = vec![0; 1 << 16];
    let face = theirs.faces[top as usize].clone();
    let node = theirs.nodes.last().cloned().flatten().expect("there are nodes");
    let (grow, set) = (Line::Grow(top as u32, 1), |at: u64| Line::SetState(top as u32, last.serial(), (at % 3) as i64 - 1));
    let sets = [set(0), set(1), set(2)];
    let row = |what: &str, original, trusted, told, public| Row {
        what: what.to_string(),
        nodes,
        original: Some(original),
        trusted,
        told,
        public: Some(public),
    };
    vec![
        row(
            "grow",
            once(|_| theirs.call(&grow)),
            once(|_| ours.call(&grow)),
            Some(once(|_| telling.call(&grow))),
            once(|_| keep(lent::grow(&mut words, top, 1).is_ok())),
        ),
        row(
            "set_grow_state",
            once(|at| theirs.call(&sets[at as usize % 3])),
            once(|at| ours.call(&sets[at as usize % 3])),
            Some(once(|at| telling.call(&sets[at as usize % 3]))),
            once(|at| keep(lent::set_grow_state(&mut words, top, last, state((at % 3) as i64 - 1)).is_ok())),
        ),
        row(
            "get_dual_variable",
            once(|_| keep(node.read_recursive().get_dual_variable(&face.read_recursive()))),
            once(|_| keep(ours.bench.get_dual_variable(last))),
            None,
            once(|_| keep(lent::get_dual_variable(&words, last))),
        ),
        row(
            "sanity_check",
            once(|_| keep(face.sanity_check().is_ok())),
            once(|_| keep(ours.bench.sanity_check(top))),
            None,
            once(|_| keep(lent::sanity_check(&words, top))),
        ),
        row(
            "snapshot",
            once(|_| drop(black_box(face.snapshot(true)))),
            once(|_| keep(ours.bench.snapshot_into(top, true, &mut picture))),
            None,
            once(|_| keep(lent::snapshot_into(&words, top, true, &mut picture))),
        ),
    ]
}

/// The walk up from the defect of a nest of so many links, which stand in place of nodes. The deepest nest is made by hand, and the original has it not.
fn walk(links: usize) -> Row {
    let (mut theirs, mut ours) = (Original::new(1000, false, false), Linked::new(1000, false));
    let bench = if links > BY_CALLS {
        Bench::from_words(&encode(&nests::by_hand(links))).expect("the nest made by hand is sound")
    } else {
        for line in nests::lines(links) {
            let line = read(&line).expect("a line of the language");
            theirs.call(&line);
            ours.call(&line);
        }
        ours.bench
    };
    let node = Handle::new(0, 0, 1);
    assert_eq!(bench.ancestor_and_links(node).map(|(_, links)| links as usize), Ok(links));
    let original = theirs.nodes.get(1).cloned().flatten();
    Row {
        what: "get_ancestor_blossom".to_string(),
        nodes: links,
        original: original.map(|node| once(|_| drop(black_box(node.get_ancestor_blossom())))),
        trusted: once(|_| keep(bench.ancestor_and_links(node))),
        told: None,
        public: Some(once(|_| keep(lent::ancestor_and_links(bench.words(), node)))),
    }
}

/// Both checks of a tree, the strict one as a row of its own, which the original has not.
fn checks(what: &str, nodes: usize, bench: &Bench, top: u8, original: Option<f64>) -> [Row; 2] {
    assert_eq!((bench.sanity_check(top), bench.strict_check(top)), (Ok(Verdict::Sound), Ok(Verdict::Sound)));
    let row =
        |check: &str, original, trusted, public| Row { what: format!("{check}: {what}"), nodes, original, trusted, told: None, public: Some(public) };
    let words = bench.words();
    [
        row("check", original, once(|_| keep(bench.sanity_check(top))), once(|_| keep(lent::sanity_check(words, top)))),
        row("strict", None, once(|_| keep(bench.strict_check(top))), once(|_| keep(lent::strict_check(words, top)))),
    ]
}

/// The checks where they have most to do: the deepest nests, by calls and by hand, each blossom touching by the defect at the bottom; and as many
/// defects as a tree holds, whose vertices differ by multiples of 512.
fn hardest() -> Vec<Row> {
    let (mut theirs, mut ours) = (Original::new(1000, false, false), Linked::new(1000, false));
    for line in nests::deep_lines(BY_CALLS) {
        let line = read(&line).expect("a line of the language");
        theirs.call(&line);
        ours.call(&line);
    }
    let face = theirs.faces[6].clone();
    let by_hand = Bench::from_words(&encode(&nests::by_hand_touching(BY_HAND, |_| 0))).expect("the nest made by hand is sound");
    let original = once(|_| keep(face.sanity_check().is_ok()));
    let mut rows = Vec::from(checks("nest", BY_CALLS + 1, &ours.bench, 6, Some(original)));
    rows.extend(checks("nest", BY_HAND + 1, &by_hand, 6, None));
    let (mut theirs, mut ours) = (Original::new(1000, false, false), Linked::new(1000, false));
    let defects = |unit: u32| (0..64).map(move |at| Line::Defect(unit, (unit * 64 + at) * 512));
    let fuses = [(4, 0, 1), (5, 2, 3), (6, 4, 5)];
    let lines = (0..4).flat_map(defects).chain(fuses.into_iter().flat_map(|(p, l, r)| std::iter::once(Line::Fuse(p, l, r)).chain(defects(p))));
    for line in lines {
        theirs.call(&line);
        ours.call(&line);
    }
    let face = theirs.faces[6].clone();
    let original = once(|_| keep(face.sanity_check().is_ok()));
    rows.extend(checks("one bucket", 448, &ours.bench, 6, Some(original)));
    rows
}

/// What a link of the walk takes, by its shortest and its longest.
fn slope(walks: &[Row]) -> f64 {
    let (first, last) = (&walks[0], &walks[walks.len() - 1]);
    (last.trusted - first.trusted) / (last.nodes - first.nodes) as f64
}

fn shown(time: Option<f64>) -> String {
    time.map_or("-".to_string(), |time| format!("{time:.1}"))
}

pub fn table(rows: &[Row]) -> String {
    let mut out = format!("{:20} {:>9} {:>9} {:>9} {:>9} {:>9} {:>7}\n", "ns", "nodes", "original", "trusted", "told", "public", "ratio");
    for row in rows {
        let ratio = row.original.map_or("-".to_string(), |original| format!("{:.1}", original / row.trusted));
        let (what, nodes, trusted) = (&row.what, row.nodes, row.trusted);
        let (original, told, public) = (shown(row.original), shown(row.told), shown(row.public));
        writeln!(out, "{what:20} {nodes:>9} {original:>9} {trusted:>9.1} {told:>9} {public:>9} {ratio:>7}").expect("a string takes all");
    }
    out
}

/// Both sides, on the list in a file; the numbers also as tabs into another.
pub fn run(list_file: &str, numbers: &str) -> Result<(), String> {
    let text = std::fs::read_to_string(list_file).map_err(|why| format!("{list_file}: {why}"))?;
    let mut rows = list(&timing::read(&text)?);
    rows.extend([1, 8, 64, 448].into_iter().flat_map(singles));
    let walks: Vec<Row> = [1, 16, 64, BY_CALLS, BY_HAND].into_iter().map(walk).collect();
    let link = slope(&walks);
    rows.extend(walks);
    rows.extend(hardest());
    rows.extend(bench_present::rows());
    rows.extend(bench_marks::rows());
    rows.extend(bench_groups::rows());
    rows.extend(bench_recorded::rows());
    let tabs: String = rows
        .iter()
        .map(|r| format!("{}\t{}\t{}\t{:.1}\t{}\t{}\n", r.what, r.nodes, shown(r.original), r.trusted, shown(r.told), shown(r.public)))
        .collect();
    std::fs::write(numbers, tabs).map_err(|why| format!("{numbers}: {why}"))?;
    print!("{}", table(&rows));
    println!("original: bare calls over a dual module that counts. trusted: a Bench's calls. told: with notices to a module that counts. public: on any words, tested first.");
    println!("snapshot: the original makes a JSON value of the nodes, the ledger writes the text into a lent buffer.");
    println!("In rows D to C, operations of the list in place of nodes; ratio: original to trusted.");
    println!("3 of 448, get_node: a walk of 448 slots of which 3 hold a node, beside the reads of present nodes on the same bench.");
    println!("get_ancestor_blossom: links in place of nodes, {BY_CALLS} the most by calls, {BY_HAND} the most of a sound bench; a link takes {link:.2} ns, trusted.");
    println!("defect, blossom: one made in an interface that has used its slots one after another, and in one that fills emptied slots; expand: made and taken apart.");
    println!("grow, floored: of a tree in seven interfaces, all of whose nodes grow or all shrink; without a floor beside it.");
    println!(
        "grow_recorded: nanoseconds a step, of so many groups in place of nodes; the original's grow_iterative over a module that plays them back."
    );
    println!("check and strict: both checks. nest: each blossom in the next, touching by the defect at the bottom; one bucket: vertices that are multiples of 512.");
    print!("{}", bench_records::table(text.as_bytes())?);
    print!("{}", bench_runs::table(text.as_bytes(), &timing::read(&text)?)?);
    Ok(())
}
