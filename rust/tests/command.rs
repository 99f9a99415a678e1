//! The command `dual-ledger`, as a script meets it: what it prints and its status, on whole records and on everything that can go wrong.
use std::fs;
use std::io::{Read, Write};
use std::path::PathBuf;
use std::process::{Command, Output, Stdio};

const RECORD: &str = "D 0 3\nD 0 8\nD 0 9\nG 0 5\nB 0 1 2 3\nG 0 2\nS 0 4 -1\nG 0 1\nE 0 4\nK 0\n";
const ANSWERS: &str = "0 1 1 0\n0 2 2 0\n0 3 3 0\n0 0 3 15\n0 4 1 15\n0 0 1 17\n0 4 -1 17\n0 0 -1 16\n0 4 3 16\n0 5 3 16\n";

/// A folder of a test's own.
struct Folder(PathBuf);

impl Folder {
    fn new(name: &str) -> Folder {
        let path = std::env::temp_dir().join(format!("dual-ledger-{}-{name}", std::process::id()));
        fs::create_dir_all(&path).unwrap();
        Folder(path)
    }
    fn with(self, name: &str, text: &str) -> Folder {
        fs::write(self.0.join(name), text).unwrap();
        self
    }
    fn command(&self, words: &[&str]) -> Command {
        let mut command = Command::new(env!("CARGO_BIN_EXE_dual-ledger"));
        command.args(words).current_dir(&self.0).stdin(Stdio::null());
        command
    }
    fn run(&self, words: &[&str]) -> (i32, String, String) {
        said(self.command(words).output().unwrap())
    }
}

impl Drop for Folder {
    fn drop(&mut self) {
        let _ = fs::remove_dir_all(&self.0);
    }
}

fn said(output: Output) -> (i32, String, String) {
    let text = |bytes: Vec<u8>| String::from_utf8(bytes).unwrap();
    (output.status.code().unwrap(), text(output.stdout), text(output.stderr))
}

#[test]
fn a_whole_record() {
    let folder = Folder::new("whole").with("shot.txt", RECORD);
    assert_eq!(folder.run(&["check", "shot.txt"]), (0, "shot.txt: 10 lines, 0 refused\n".into(), "".into()));
    assert_eq!(folder.run(&["check", "--quiet", "shot.txt"]), (0, "".into(), "".into()));
    assert_eq!(folder.run(&["check", "--quiet", "--answers", "-", "shot.txt"]), (0, ANSWERS.into(), "".into()));
    assert_eq!(folder.run(&["check", "--quiet", "--answers", "out.txt", "shot.txt", "shot.txt"]), (0, "".into(), "".into()));
    assert_eq!(fs::read_to_string(folder.0.join("out.txt")).unwrap(), ANSWERS.repeat(2));
    assert!(!folder.0.join("out.txt.part").exists());
}

#[test]
fn every_refusal_in_words() {
    let full = (0..64).map(|vertex| format!("D 5 {vertex}\n")).collect::<String>();
    let many = format!("B 5{}\n", " 1".repeat(65));
    let lines = [
        ("D 8 1", "3 UNIT: there is no interface 8, only 0 to 7"),
        ("F 2 0 9", "3 UNIT: there is no interface 9, only 0 to 7"),
        ("G 0 -4", "5 LENGTH: a growth of -4 is negative"),
        ("G 0 1099511627777", "5 LENGTH: the progress of interface 0 would pass 2^40"),
        ("E 0 900", "8 STALE: serial 900 names no present node"),
        ("B 5 1 2 900", "8 STALE: serial 900 names no present node"),
        ("S 0 1 1", "9 FOREIGN: serial 1 stands in the tree of interface 5, not of 0"),
        ("E 5 1", "10 KIND: serial 1 is a defect, and only blossoms are expanded"),
        ("D 5 64", "14 FULL: all 64 slots of interface 5 are used"),
        ("B 5 1 2 2", "13 TWICE: serial 2 is named twice"),
        ("F 3 1 1", "16 PAIR: interface 1 cannot be both halves"),
        ("F 1 0 2", "16 PAIR: interface 1 is not of a higher number than both its halves"),
        ("F 5 0 1", "17 USED: interface 5 has slots used, progress or halves already"),
        ("F 6 5 0", ""),
        ("B 6 1 2", ""),
        ("S 6 1 0", "11 INSIDE: serial 1 lies in a blossom, outermost 65"),
        ("D 5 1", "4 CHILD: interface 5 is fused into interface 6"),
        ("", "1 LINE: it is empty"),
        ("X 0", "1 LINE: no line begins with 'X'"),
        ("D 0", "1 LINE: after D there are to be two numbers"),
        ("D 0 1 2", "1 LINE: after D there are to be two numbers"),
        ("D 256 1", "1 LINE: a number is out of its range"),
        ("D 0 -0", "1 LINE: '-0' is not a plain number"),
        (" D 0 1", "1 LINE: two spaces, or a space at an end"),
        ("D\t0 1", "1 LINE: it has a byte that is no letter, digit, space or minus"),
    ];
    let mut record = full + &many;
    let mut expected = "r.txt:65: 6 CIRCLE: 65 members are more than 64\n".to_string();
    for (at, (line, why)) in lines.iter().enumerate() {
        record += &format!("{line}\n");
        if !why.is_empty() {
            expected += &format!("r.txt:{}: {why}\n", at + 66);
        }
    }
    expected += &format!("r.txt: {} lines, {} refused\n", 65 + lines.len(), lines.len() - 1);
    let folder = Folder::new("words").with("r.txt", &record);
    assert_eq!(folder.run(&["check", "r.txt"]), (0, expected, "".into()));
}

#[test]
fn many_files_in_their_order() {
    let mut folder = Folder::new("many");
    let names: Vec<String> = (0..40).map(|at| format!("{at}.txt")).collect();
    let mut answers = String::new();
    for (at, name) in names.iter().enumerate() {
        folder = folder.with(name, &format!("{}E 7 9\n", RECORD.repeat(1 + at % 3 * 50)));
        answers += &folder.run(&["check", "--answers", "-", "--quiet", name]).1;
    }
    let words: Vec<&str> = ["check", "--jobs", "3", "--quiet", "--answers", "-"].into_iter().chain(names.iter().map(String::as_str)).collect();
    assert_eq!(folder.run(&words), (0, answers, "".into()));
    let (_, shown, _) = folder.run(&["check", "0.txt", "3.txt"]);
    let of = |name: &str| format!("{name}:11: 8 STALE: serial 9 names no present node\n{name}: 11 lines, 1 refused\n");
    assert_eq!(shown, of("0.txt") + &of("3.txt"));
}

#[test]
fn what_goes_wrong_has_a_message_and_a_status() {
    let folder = Folder::new("wrong").with("shot.txt", RECORD).with("cut.txt", "D 0 3\nG 0 1");
    let long = folder.0.join("long.txt");
    fs::write(&long, RECORD.repeat(100_000)).unwrap();
    let fails = |words: &[&str], why: &str| {
        let (status, _, message) = folder.run(words);
        assert_eq!((status, message.as_str()), (1, why), "{words:?}");
    };
    // a full disk, of the answers and of standard output
    fails(&["check", "--quiet", "--answers", "/dev/full", "shot.txt"], "dual-ledger: /dev/full: No space left on device\n");
    fails(&["check", "--quiet", "--answers", "/dev/full", "long.txt"], "dual-ledger: /dev/full: No space left on device\n");
    for words in [
        &["check", "shot.txt"][..],
        &["check", "--quiet", "--answers", "-", "long.txt"],
        &["ages", "shot.txt"],
        &["ages", "--json", "long.txt", "-q"],
        &["--help"],
    ] {
        let full = fs::File::options().write(true).open("/dev/full").unwrap();
        let (status, _, message) = said(folder.command(words).stdout(full).output().unwrap());
        assert_eq!((status, message.as_str()), (1, "dual-ledger: standard output: No space left on device\n"), "{words:?}");
    }
    // a directory, a missing file, one that cannot be written
    for subcommand in ["check", "ages"] {
        fails(&[subcommand, "--quiet", "."], "dual-ledger: .: Is a directory\n");
        fails(&[subcommand, "--quiet", "none.txt"], "dual-ledger: none.txt: No such file or directory\n");
    }
    fails(&["check", "--quiet", "--answers", "none/out.txt", "shot.txt"], "dual-ledger: none/out.txt.part: No such file or directory\n");
    // cut in the middle: answered, but not as whole
    fails(
        &["check", "--quiet", "--answers", "out.txt", "shot.txt", "cut.txt"],
        "dual-ledger: cut.txt: the input is cut: its last line has no newline\n",
    );
    assert!(!folder.0.join("out.txt").exists() && !folder.0.join("out.txt.part").exists());
    fails(&["ages", "--quiet", "cut.txt"], "dual-ledger: cut.txt: the input is cut: line 2 has no newline, and was not done\n");
    // one file of several
    let (status, shown, message) = folder.run(&["check", "none.txt", "shot.txt"]);
    assert_eq!((status, shown.as_str()), (1, "shot.txt: 10 lines, 0 refused\n"));
    assert_eq!(message, "dual-ledger: none.txt: No such file or directory\n");
}

#[test]
fn a_closed_pipe() {
    let folder = Folder::new("pipe");
    fs::write(folder.0.join("long.txt"), format!("{RECORD}C 0\n").repeat(50_000)).unwrap();
    for words in [&["check", "--quiet", "--answers", "-", "long.txt"][..], &["check", "long.txt"], &["ages", "--quiet", "long.txt"]] {
        let mut child = folder.command(words).stdout(Stdio::piped()).stderr(Stdio::piped()).spawn().unwrap();
        let mut first = [0; 5];
        child.stdout.as_mut().unwrap().read_exact(&mut first).unwrap();
        drop(child.stdout.take());
        let (status, _, message) = said(child.wait_with_output().unwrap());
        assert_eq!((status, message.as_str()), (1, "dual-ledger: standard output: Broken pipe\n"), "{words:?}");
    }
}

#[test]
fn standard_input() {
    let folder = Folder::new("input");
    let mut child = folder.command(&["check", "--answers", "-", "--quiet", "-"]).stdin(Stdio::piped()).stdout(Stdio::piped()).spawn().unwrap();
    child.stdin.take().unwrap().write_all(RECORD.as_bytes()).unwrap();
    assert_eq!(said(child.wait_with_output().unwrap()), (0, ANSWERS.into(), "".into()));
}

#[test]
fn called_wrongly() {
    let folder = Folder::new("called").with("shot.txt", RECORD);
    for words in [
        &[][..],
        &["frobnicate"],
        &["check"],
        &["check", "--csv", "shot.txt"],
        &["ages", "shot.txt", "shot.txt"],
        &["check", "--jobs", "0", "shot.txt"],
        &["check", "--jobs"],
    ] {
        let (status, shown, message) = folder.run(words);
        assert_eq!((status, shown.as_str()), (2, ""), "{words:?}");
        assert!(message.starts_with("dual-ledger: ") && message.ends_with("Try 'dual-ledger --help'.\n"), "{message}");
    }
    let (status, help, _) = folder.run(&["--help"]);
    assert!(status == 0 && help.contains("dual-ledger check") && help.contains("dual-ledger ages"));
    assert_eq!(folder.run(&["--version"]).1, format!("dual-ledger {}\n", env!("CARGO_PKG_VERSION")));
}

/// A record that makes and expands more blossoms than an interface has slots: FULL without the mode, none with it.
#[test]
fn emptied_slots_filled() {
    let mut record = "D 0 3\nD 1 4\n".to_string();
    (0..100).for_each(|at| record += &format!("B 0 1\nG 0 1\nE 0 {}\n", at + 3));
    let folder = Folder::new("fill").with("long.txt", &record);
    let (status, shown, _) = folder.run(&["check", "long.txt"]);
    assert!(status == 0 && shown.ends_with("long.txt: 302 lines, 74 refused\n"), "{shown}");
    assert!(shown.contains("long.txt:192: 14 FULL: all 64 slots of interface 0 are used\n"), "{shown}");
    assert_eq!(folder.run(&["check", "--fill", "0", "long.txt"]), (0, "long.txt: 302 lines, 0 refused\n".into(), "".into()));
    assert_eq!(folder.run(&["check", "--fill", "7", "--fill", "0", "--fill", "0", "--quiet", "long.txt"]), (0, "".into(), "".into()));
    assert_eq!(folder.run(&["check", "--fill", "1", "long.txt"]).1, shown);
    let (status, ages, message) = folder.run(&["ages", "--csv", "--fill", "0", "long.txt"]);
    assert_eq!((status, message.as_str()), (0, ""));
    assert_eq!(ages.lines().nth(1), Some("node,1,0,3,,1,,,0,,,"));
    assert_eq!(ages.lines().nth(102), Some("node,102,0,,1,300,302,expanded,1,,,"));
    assert_eq!(ages.lines().nth(103), Some("interface,,0,,,,,,,100,0,100"));
    // the slots that a picture shows
    fs::write(folder.0.join("short.txt"), "D 0 3\nB 0 1\nE 0 2\nB 0 1\nE 0 3\n").unwrap();
    assert!(folder.run(&["picture", "short.txt"]).1.ends_with("},null,null]}\n"));
    assert!(folder.run(&["picture", "--fill", "0", "short.txt"]).1.ends_with("},null]}\n"));
    // 64 present
    let full: String = (0..65).map(|vertex| format!("D 2 {vertex}\n")).collect();
    fs::write(folder.0.join("full.txt"), full).unwrap();
    let shown = folder.run(&["check", "--fill", "2", "full.txt"]).1;
    assert_eq!(shown, "full.txt:65: 14 FULL: 64 nodes of interface 2 are present\nfull.txt: 65 lines, 1 refused\n");
    for words in [
        &["check", "--fill", "8", "full.txt"][..],
        &["ages", "--fill", "x", "full.txt"],
        &["picture", "--fill", "-1", "full.txt"],
        &["check", "full.txt", "--fill"],
    ] {
        let (status, shown, message) = folder.run(words);
        assert_eq!((status, shown.as_str()), (2, ""), "{words:?}");
        assert_eq!(message, "dual-ledger: --fill wants an interface, 0 to 7\nTry 'dual-ledger --help'.\n");
    }
}

/// The wrong length on the line where it happens.
#[test]
fn floors() {
    let record = "D 0 3\nD 1 4\nG 0 5\nS 0 1 -1\nG 0 4\nG 0 2\nG 0 1\nF 2 0 1\n";
    let folder = Folder::new("floor").with("shot.txt", record);
    assert_eq!(folder.run(&["check", "shot.txt"]), (0, "shot.txt: 8 lines, 0 refused\n".into(), "".into()));
    let below = "shot.txt:6: 25 BELOW: serial 1 shrinks and has 1, which is less than 2\n";
    let mixed = "shot.txt:8: 26 MARK: interface 0 is floored, and interface 1 is not\n";
    assert_eq!(folder.run(&["check", "--floor", "0", "shot.txt"]), (0, format!("{below}{mixed}shot.txt: 8 lines, 2 refused\n"), "".into()));
    assert_eq!(folder.run(&["check", "--floor", "0", "--floor", "1", "shot.txt"]).1, format!("{below}shot.txt: 8 lines, 1 refused\n"));
    let (status, ages, message) = folder.run(&["ages", "--csv", "--floor", "0", "--floor", "1", "--fill", "0", "shot.txt"]);
    assert_eq!((status, message.as_str()), (0, below));
    assert_eq!(ages.lines().nth(1), Some("node,1,0,3,,1,,,0,,,"));
    for words in [&["check", "--floor", "8", "shot.txt"][..], &["picture", "--floor", "", "shot.txt"], &["ages", "shot.txt", "--floor"]] {
        let (status, _, message) = folder.run(words);
        assert_eq!((status, message.as_str()), (2, "dual-ledger: --floor wants an interface, 0 to 7\nTry 'dual-ledger --help'.\n"), "{words:?}");
    }
}

#[test]
fn ages_in_three_forms() {
    let folder = Folder::new("ages").with("shot.txt", &format!("{RECORD}D 1 20\nG 1 6\nF 2 0 1\nG 2 5\nS 2 4 1\n"));
    let (status, csv, message) = folder.run(&["ages", "--csv", "shot.txt"]);
    assert_eq!((status, message.as_str()), (0, "shot.txt:15: 8 STALE: serial 4 names no present node\n"));
    assert_eq!(csv.lines().nth(4), Some("node,4,0,,1 2 3,5,9,expanded,1,,,"));
    assert_eq!(csv.lines().last(), Some("interface,,2,,,,,,,42,41,1"));
    let (_, text, _) = folder.run(&["ages", "--quiet", "shot.txt"]);
    assert_eq!(text.lines().nth(4), Some("     4          0        5  9, expanded      1  members 1 2 3"));
    assert!(text.ends_with("        2          42              41                     1  adds up\n"));
    let (_, json, _) = folder.run(&["ages", "--quiet", "--json", "shot.txt"]);
    assert!(json.contains(r#"{"serial":4,"interface":0,"members":[1,2,3],"made":5,"gone":9,"how":"expanded","value":1}"#));
}

#[test]
fn pack_and_unpack() {
    let folder = Folder::new("pack").with("shot.txt", RECORD).with("none.txt", "");
    for name in ["shot", "none"] {
        let (text, bytes, back) = (format!("{name}.txt"), format!("{name}.dlg"), format!("{name}.back"));
        assert_eq!(folder.run(&["pack", &text, &bytes]), (0, "".into(), "".into()));
        assert_eq!(folder.run(&["unpack", &bytes, &back]), (0, "".into(), "".into()));
        assert_eq!(fs::read(folder.0.join(&text)).unwrap(), fs::read(folder.0.join(&back)).unwrap());
        assert!(!folder.0.join(format!("{name}.dlg.part")).exists());
    }
    // the standard streams
    let mut child = folder.command(&["unpack", "-", "-"]).stdin(Stdio::piped()).stdout(Stdio::piped()).spawn().unwrap();
    child.stdin.take().unwrap().write_all(&fs::read(folder.0.join("shot.dlg")).unwrap()).unwrap();
    assert_eq!(said(child.wait_with_output().unwrap()), (0, RECORD.into(), "".into()));
}

#[test]
fn what_does_not_move_has_a_message_and_leaves_nothing() {
    let folder = Folder::new("unmoved").with("shot.txt", RECORD).with("cut.txt", "D 0 3\nG 0 1").with("bad.txt", "D 0 3\nE 0 0\n");
    folder.run(&["pack", "shot.txt", "shot.dlg"]);
    let whole = fs::read(folder.0.join("shot.dlg")).unwrap();
    let spoil = |name: &str, change: &dyn Fn(&mut Vec<u8>)| {
        let mut file = whole.clone();
        change(&mut file);
        fs::write(folder.0.join(name), file).unwrap();
    };
    let end = whole.len();
    spoil("letters", &|file| file[end - 1] = b'1');
    spoil("cut", &|file| drop(file.drain(..8)));
    spoil("start", &|file| file[end - 16 - 4 * 9] += 1);
    spoil("letter", &|file| file[0] = b'Q');
    spoil("pair", &|file| file[28 + 8] = 3);
    spoil("before", &|file| file[end - 8] += 1);
    let fails = |words: &[&str], why: &str| {
        let (status, shown, message) = folder.run(words);
        assert_eq!((status, shown.as_str(), message.as_str()), (1, "", why), "{words:?}");
        assert!(!folder.0.join("out").exists() && !folder.0.join("out.part").exists());
    };
    fails(&["pack", "cut.txt", "out"], "dual-ledger: cut.txt:2: 23 FILE: the last line has no newline, so the record may be cut\n");
    fails(&["pack", "bad.txt", "out"], "dual-ledger: bad.txt:2: 23 FILE: the line is LINE: a number is out of its range\n");
    fails(&["pack", "no.txt", "out"], "dual-ledger: no.txt: No such file or directory\n");
    fails(&["unpack", ".", "out"], "dual-ledger: .: Is a directory\n");
    fails(&["unpack", "cut.txt", "out"], "dual-ledger: cut.txt: 23 FILE: it has 11 bytes, and a trailer alone has 16\n");
    fails(&["unpack", "letters", "out"], "dual-ledger: letters: 23 FILE: it does not end in the letters DLG2\n");
    fails(
        &["unpack", "cut", "out"],
        &format!("dual-ledger: cut: 23 FILE: the trailer says {} bytes before it, and there are {}\n", end - 16, end - 24),
    );
    fails(&["unpack", "start", "out"], "dual-ledger: start: 23 FILE: record 2: the list says byte 7, and it starts at byte 6\n");
    fails(&["unpack", "letter", "out"], "dual-ledger: letter: 23 FILE: record 1, at byte 0: no record begins with byte 81\n");
    fails(
        &["unpack", "before", "out"],
        &format!("dual-ledger: before: 23 FILE: the trailer says {} bytes before it, and there are {}\n", end - 15, end - 16),
    );
    fails(&["unpack", "pair", "out"], "dual-ledger: pair: 22 SELF: record 5: member 1 touches at 3 and 1, which a line cannot say\n");
    fails(&["pack", "shot.txt", "/dev/full"], "dual-ledger: /dev/full: No space left on device\n");
    fails(&["unpack", "shot.dlg", "none/out"], "dual-ledger: none/out.part: No such file or directory\n");
    for words in [&["pack", "shot.txt"][..], &["unpack", "a", "b", "c"], &["pack", "--quiet", "shot.txt", "out"]] {
        assert_eq!(folder.run(words).0, 2, "{words:?}");
    }
}

const AN_M: &str = "an M is the first line of a text or nowhere, M 0 or M 1, and no byte record has it";

#[test]
fn a_first_line_that_chooses_the_engine() {
    let folder =
        Folder::new("engines").with("lazy.txt", RECORD).with("plain.txt", &format!("M 1\n{RECORD}")).with("nought.txt", &format!("M 0\n{RECORD}"));
    for name in ["plain.txt", "nought.txt"] {
        assert_eq!(folder.run(&["check", name]), (0, format!("{name}: 11 lines, 0 refused\n"), "".into()));
        assert_eq!(folder.run(&["check", "--quiet", "--answers", "-", name]), (0, format!("0 0 0 0\n{ANSWERS}"), "".into()));
        let why = format!("dual-ledger: {name}:1: 23 FILE: the line is LINE: {AN_M}\n");
        assert_eq!(folder.run(&["pack", name, "out"]), (1, "".into(), why));
        assert_eq!(folder.run(&["picture", "--at", "7", name]), folder.run(&["picture", "--at", "6", "lazy.txt"]));
    }
    // marks go with either engine: the second defect fills the blossom's slot
    let folder = folder.with("fills.txt", "M 1\nD 0 3\nB 0 1\nE 0 2\nD 0 4\nK 0\n");
    let filled = folder.run(&["check", "--quiet", "--answers", "-", "--fill", "0", "fills.txt"]);
    assert_eq!(filled, (0, "0 0 0 0\n0 1 1 0\n0 2 1 0\n0 2 1 0\n0 3 2 0\n0 0 2 0\n".into(), "".into()));
    let (_, ages, _) = folder.run(&["ages", "--fill", "0", "--plain", "fills.txt"]);
    assert_eq!(ages, folder.run(&["ages", "--fill", "0", "fills.txt"]).1);
    assert!(ages.contains("vertex 4"), "{ages}");
}

#[test]
fn an_m_elsewhere() {
    for (first, line) in [("", 1), ("X\n", 2), ("M 0\n", 2), ("K 0\n", 2)] {
        let wrong = if first.is_empty() { "M 2" } else { "M 1" };
        let folder = Folder::new("elsewhere").with("a.txt", &format!("{first}{wrong}\n{RECORD}"));
        let (status, shown, _) = folder.run(&["check", "a.txt"]);
        assert!(status == 0 && shown.contains(&format!("a.txt:{line}: 1 LINE: {AN_M}\n")), "{shown}");
    }
    for first in ["M 2", "M 01", "M -1", "M", "M ", "M  1", "M 1 ", "m 1", "M1", "\nM 1"] {
        let folder = Folder::new("forms").with("a.txt", &format!("{first}\n{RECORD}"));
        let (status, answers, _) = folder.run(&["check", "--quiet", "--answers", "-", "a.txt"]);
        let lines = 1 + first.matches('\n').count();
        assert_eq!((status, answers), (0, format!("{}{ANSWERS}", "1 0 0 0\n".repeat(lines))), "{first:?}");
    }
    let folder = Folder::new("unended").with("a.txt", "M 1");
    assert_eq!(folder.run(&["check", "--quiet", "--answers", "-", "a.txt"]).0, 1);
}

#[test]
fn ages_in_both_engines() {
    let lazy = Folder::new("both").with("a.txt", RECORD).with("b.txt", &format!("M 0\n{RECORD}")).with("c.txt", &format!("M 2\n{RECORD}"));
    for name in ["a.txt", "b.txt", "c.txt"] {
        assert_eq!(lazy.run(&["ages", "--plain", name]), lazy.run(&["ages", name]));
    }
    assert_eq!(lazy.run(&["check", "--plain", "a.txt"]).0, 2);
}
