//! Pictures for the viewer: their refusals, and that the room that is lent for one is always enough.
use dual_ledger::{lent, Bench, Refusal};
use std::fs;
use std::path::PathBuf;
use std::process::{Command, Output};

#[test]
fn refused_in_order() {
    let mut bench = Bench::default();
    let node = bench.create_defect_node(0, 3).unwrap();
    let blossom = bench.create_blossom(0, &[node], &[]).unwrap();
    bench.grow(0, 1).unwrap();
    assert_eq!(bench.snapshot(8, true), Err(Refusal::Unit));
    let mut out = [7; 40];
    assert_eq!(bench.snapshot_into(0, true, &mut out), Err(Refusal::Small));
    bench.expand_blossom(0, blossom).unwrap(); // its value stays in the sum: the check says 5
    assert_eq!(bench.snapshot(0, true), Err(Refusal::Unsound));
    assert_eq!(bench.snapshot_into(0, true, &mut out), Err(Refusal::Unsound));
    bench.fuse(2, 0, 1).unwrap();
    assert_eq!(bench.snapshot(0, true), Err(Refusal::Child));
    assert_eq!(out, [7; 40]);
    let mut words = *bench.words();
    words[0] = 0;
    assert_eq!(lent::snapshot(&words, 8, true), Err(Refusal::Broken));
}

/// Every slot a node with the longest text that it can have, as a member and as a circle.
#[test]
fn room_enough() {
    for abbrev in [true, false] {
        let mut bench = Bench::default();
        for unit in 0..4 {
            for at in 0..32 {
                let node = bench.create_defect_node(unit, u32::MAX - 64 * u32::from(unit) - at).unwrap();
                bench.create_blossom(unit, &[node], &[]).unwrap();
            }
        }
        bench.fuse(4, 0, 1).unwrap();
        bench.fuse(5, 2, 3).unwrap();
        bench.fuse(6, 4, 5).unwrap();
        bench.grow(6, 1 << 40).unwrap();
        let picture = bench.snapshot(6, abbrev).unwrap();
        assert_eq!(picture.matches("\"grow\"").count(), 128);
        let mut out = vec![7; picture.len() + 3];
        assert_eq!(bench.snapshot_into(6, abbrev, &mut out), Ok(picture.len()));
        assert_eq!((&out[..picture.len()], &out[picture.len()..]), (picture.as_bytes(), &[7, 7, 7][..]));
        assert_eq!(bench.snapshot_into(6, abbrev, &mut out[..picture.len() - 1]), Err(Refusal::Small));
        assert_eq!(lent::snapshot(bench.words(), 6, abbrev), Ok(picture));
    }
}

/// Two blossoms in one another, one node growing, one shrinking, the others at rest: the example of the manual.
const RECORD: &str = "D 0 3\nD 0 8\nD 0 9\nD 0 12\nD 0 21\nG 0 5\nB 0 1 2 3\nG 0 2\nB 0 6 4\nG 0 3\nS 0 5 -1\nG 0 1\n";

fn folder(name: &str) -> PathBuf {
    let path = std::env::temp_dir().join(format!("dual-ledger-{}-{name}", std::process::id()));
    fs::create_dir_all(&path).unwrap();
    fs::write(path.join("nest.txt"), RECORD).unwrap();
    path
}

fn command(at: &PathBuf, words: &[&str]) -> Output {
    Command::new(env!("CARGO_BIN_EXE_dual-ledger")).arg("picture").args(words).arg("nest.txt").current_dir(at).output().unwrap()
}

#[test]
fn as_the_command_prints_it() {
    let at = folder("printed");
    let said = |words: &[&str]| String::from_utf8(command(&at, words).stdout).unwrap();
    let mut bench = Bench::default();
    let nodes: Vec<_> = [3, 8, 9].into_iter().map(|vertex| bench.create_defect_node(0, vertex).unwrap()).collect();
    assert_eq!(said(&["--at", "3"]), bench.snapshot(0, true).unwrap() + "\n");
    bench.create_blossom(0, &nodes, &[]).unwrap();
    assert_eq!(said(&["--unit", "7", "--full"]), Bench::default().snapshot(7, false).unwrap() + "\n");
    assert!(said(&["--full"]).starts_with(r#"{"interface":{"sum_grow_speed":0,"sum_dual_variables":"#));
    let refused = command(&at, &["--unit", "8"]);
    assert_eq!((refused.status.code(), refused.stdout.len()), (Some(1), 0));
    assert!(String::from_utf8(refused.stderr).unwrap().contains("UNIT (3)"));
    assert_eq!(command(&at, &["--at", "13"]).status.code(), Some(1));
    assert_eq!(command(&at, &["--at", "x"]).status.code(), Some(2));
    fs::remove_dir_all(at).unwrap();
}

/// The browser that there is, by name or by CHROMIUM.
fn browser() -> Option<String> {
    let named = std::env::var("CHROMIUM").ok().into_iter();
    named.chain(["chromium", "chromium-browser"].map(String::from)).find(|name| Command::new(name).arg("--version").output().is_ok())
}

/// A browser draws the nest: its document, as it stands there, has each node's box and words, and each box lies in its blossom's.
#[test]
fn as_a_browser_shows_it() {
    let Some(browser) = browser() else {
        println!("left out: no browser here (Debian's package chromium, or CHROMIUM)");
        return;
    };
    let at = folder("shown");
    let drawn = command(&at, &["--svg"]);
    assert!(drawn.status.success());
    let svg = String::from_utf8(drawn.stdout).unwrap();
    // in a page that asks the browser where it has put each box, and notes that in its own body
    let ask = "document.body.dataset.boxes = [...document.querySelectorAll('svg > rect')].slice(1).map(r => { const b = r.getBBox(); \
               return [b.x, b.y, b.width, b.height, getComputedStyle(r).fill].join(' '); }).join(';')";
    fs::write(at.join("page.html"), format!("<!doctype html><body>{svg}<script>{ask}</script></body>")).unwrap();
    let page = format!("file://{}", at.join("page.html").display());
    let seen = Command::new(browser).args(["--headless", "--no-sandbox", "--disable-gpu", "--dump-dom", &page]).output().unwrap();
    let seen = String::from_utf8_lossy(&seen.stdout).into_owned();
    let noted = seen.split_once("data-boxes=\"").and_then(|(_, rest)| rest.split_once('"')).map(|(noted, _)| noted.to_string()).unwrap_or_default();
    let boxes: Vec<Vec<String>> = noted.split(';').map(|one| one.splitn(5, ' ').map(String::from).collect()).collect();
    assert_eq!(boxes.len(), 7, "{seen}");
    let place = |at: usize| -> Vec<f64> { boxes[at][..4].iter().map(|number| number.parse().unwrap()).collect() };
    let lies_in = |inner: usize, outer: usize| {
        let (a, b) = (place(inner), place(outer));
        b[0] < a[0] && b[1] < a[1] && a[0] + a[2] < b[0] + b[2] && a[1] + a[3] < b[1] + b[3]
    };
    // drawn: node 4, which shrinks; blossom 6 with blossom 5 (nodes 0, 1, 2) and node 3 in it
    assert!([2, 3, 4, 5, 6].into_iter().all(|inner| lies_in(inner, 1)) && [3, 4, 5].into_iter().all(|inner| lies_in(inner, 2)));
    assert!(!lies_in(0, 1) && !lies_in(6, 2));
    let colours: Vec<&str> = boxes.iter().map(|one| one[4].as_str()).collect();
    assert_eq!(colours[..3], ["rgb(253, 230, 223)", "rgb(227, 244, 229)", "rgb(238, 241, 244)"]);
    for words in [
        "interface 0: speed 0, sum ",
        "node 4: vertex 21",
        "value 9: shrinks",
        "node 6: blossom",
        "value 4: grows",
        "node 5: blossom",
        "value 2: stays",
    ] {
        assert!(svg.contains(words) && seen.contains(words), "{words}");
    }
    fs::remove_dir_all(at).unwrap();
}
