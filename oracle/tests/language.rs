//! Wrong lines are named by their number, and the text program's grammar is the manual's.
use oracle::line::read;
use oracle::recording::record;
use oracle::text;

#[test]
fn a_wrong_line_gets_a_message_with_its_number() {
    let wrong = record("N 1\n# fine\nD 0 3\nA 0\n").unwrap_err();
    assert_eq!(wrong.to_string(), "line 4: no call begins with `A`");
    assert_eq!(record("N 1\nD 0\n").unwrap_err().to_string(), "line 2: `D` takes 2 numbers");
    assert_eq!(record("m 4\n").unwrap_err().to_string(), "line 1: no group 4");
}

#[test]
fn numbers_are_written_plainly() {
    for line in [
        "D 0 03",
        "D 0 +3",
        "D  0 3",
        "D 0 3 ",
        "G 0 -0",
        "D 0 4294967296",
        "S 0 1 2",
        "P 0 0",
        "Q 0 3",
        "P 0 -1",
        "g 0 1 2",
        "b 0 1 1",
        "t 0 1 1 1",
        "",
    ] {
        assert!(read(line).is_err(), "{line}");
    }
}

#[test]
fn lines_of_the_text_program() {
    let longest = format!("B 0{}", " 1".repeat(510));
    for line in ["D 255 4294967295", "G 0 -9223372036854775808", "S 0 1 -1", "E 0 4294967295", &longest] {
        assert!(text::read(line.as_bytes()).is_some(), "{line}");
    }
    for line in ["D 256 1", "D 0 4294967296", "E 0 0", "B 0", "G 0 9223372036854775808", "G 0 -0", "D 0 01", "D 0 1\r", "K 0 ", " K 0", "M 1", ""] {
        assert!(text::read(line.as_bytes()).is_none(), "{line}");
    }
}

#[test]
fn overlong_lines_are_one_line_each() {
    let line = |length: usize| [vec![b'x'; length - 1], vec![b'\n']].concat();
    let input = [line(1024), line(1025), line(5000), b"D 0 3\n".to_vec(), vec![b'D'; 3000]].concat();
    assert_eq!(text::run(&input).unwrap(), "1 0 0 0\n1 0 0 0\n1 0 0 0\n0 1 1 0\n1 0 0 0\n");
    let fits = format!("B 0{}{}\n", " 1".repeat(509), " 2");
    assert_eq!((fits.len(), text::run(fits.as_bytes()).unwrap().as_str()), (1024, "6 0 0 0\n"));
    assert_eq!(text::run(b"").unwrap(), "");
    assert_eq!(text::run(b"\n").unwrap(), "1 0 0 0\n");
}
