//! A record's first line, however the record is cut and whatever stands in it: a session against the same record in one piece, and line by line.
use dual_ledger::{Bench, Session};

const RECORD: &str = "D 0 3\nD 0 8\nG 0 5\nB 0 1 2\nG 0 2\nE 0 3\nK 0\n";
const FIRST: [&str; 12] = ["", "M 1\n", "M 0\n", "M 2\n", "M 01\n", "M\n", "\nM 1\n", "M 1\nM 0\n", "X\nM 1\n", "M 1 \n", "D 1 4\nM 1\n", "m 1\n"];

fn whole(text: &str) -> (Vec<u8>, bool) {
    let (mut session, mut answers) = (Session::new(), vec![]);
    session.feed(text.as_bytes(), &mut answers);
    session.end(&mut answers);
    (answers, session.bench().is_plain())
}

#[test]
fn cut_anywhere() {
    for first in FIRST {
        let text = format!("{first}{RECORD}");
        let all = whole(&text);
        assert_eq!(all.1, first.starts_with("M 1\n"), "{first:?}");
        for piece in 1..=16 {
            let (mut session, mut answers) = (Session::new(), vec![]);
            text.as_bytes().chunks(piece).for_each(|piece| session.feed(piece, &mut answers));
            session.end(&mut answers);
            assert_eq!((answers, session.bench().is_plain()), all, "{first:?} in pieces of {piece}");
        }
    }
}

#[test]
fn line_by_line() {
    for first in FIRST {
        let text = format!("{first}{RECORD}");
        let (mut session, mut answers) = (Session::new(), String::new());
        for line in text.lines() {
            let reply = session.line(line.as_bytes());
            let number = reply.refusal.map_or(0, |refusal| refusal.number());
            answers += &format!("{number} {} {} {}\n", reply.serial, reply.speed, reply.sum);
        }
        assert_eq!((answers.into_bytes(), session.bench().is_plain()), whole(&text), "{first:?}");
    }
}

#[test]
fn the_same_answers_in_both_engines() {
    let lazy = whole(RECORD).0;
    for first in ["M 1\n", "M 0\n"] {
        assert_eq!(whole(&format!("{first}{RECORD}")).0, [b"0 0 0 0\n", &lazy[..]].concat());
    }
}

#[test]
fn overlong_and_unended() {
    for length in [1020, 1023, 1024, 1025, 1026, 5000] {
        for first in [b'M', b'D'] {
            let mut text = vec![first; length];
            text.extend_from_slice(b"\nD 0 3\n");
            for piece in [1, 1000, 1024, 4096, 6000] {
                let (mut session, mut answers) = (Session::new(), vec![]);
                text.chunks(piece).for_each(|piece| session.feed(piece, &mut answers));
                assert!(!session.end(&mut answers));
                assert_eq!(answers, b"1 0 0 0\n0 1 1 0\n");
            }
        }
    }
    for text in ["M 1", "M", "D 0 3"] {
        let (mut session, mut answers) = (Session::new(), vec![]);
        session.feed(text.as_bytes(), &mut answers);
        assert!(session.end(&mut answers) && answers == b"1 0 0 0\n" && !session.bench().is_plain());
        // it has ended: what comes now is not its first line
        session.feed(b"M 1\n", &mut answers);
        assert_eq!(answers, b"1 0 0 0\n1 0 0 0\n");
    }
}

#[test]
fn marked_in_either_engine() {
    for (first, is_plain) in [("", false), ("M 0\n", false), ("M 1\n", true)] {
        let mut session = Session::prepared(|bench: &mut Bench| bench.mark_floored(0).unwrap());
        let mut answers = vec![];
        session.feed(format!("{first}D 0 3\nS 0 1 -1\nG 0 1\n").as_bytes(), &mut answers);
        assert!(answers.ends_with(b"25 0 -1 0\n"), "{}", String::from_utf8_lossy(&answers));
        assert_eq!((session.bench().is_plain(), session.bench().is_floored(0)), (is_plain, Ok(true)));
    }
}
