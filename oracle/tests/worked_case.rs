//! The whole case of the manual and P1 to P9: the original's answers where a line is accepted, the manual's number where it is refused.
use oracle::line::{numbers, read};
use oracle::replay::Replay;
use oracle::text;

const INPUT: &str = "D 0 3\nD 0 8\nD 0 9\nG 0 5\nB 0 1 2 3\nG 0 2\nS 0 4 -1\nG 0 1\nE 0 4\nK 0\n";
const OUTPUT: &str = "0 1 1 0\n0 2 2 0\n0 3 3 0\n0 0 3 15\n0 4 1 15\n0 0 1 17\n0 4 -1 17\n0 0 -1 16\n0 4 3 16\n0 5 3 16\n";

/// Plays calls with ` / ` between; each accepted one by the original too. The last answer.
fn last(calls: &str) -> String {
    let mut both = Replay::default();
    let mut answer = String::new();
    for call in calls.split(" / ") {
        let turn = both.turn(&read(call).unwrap());
        assert!(turn.agrees() && turn.mark.is_none(), "{call}: {:?}, {:?}", turn.original, turn.answer);
        assert_eq!(turn.original.is_some(), turn.is_accepted());
        answer = numbers(&turn.answer);
    }
    answer
}

#[test]
fn p10_the_whole_case() {
    assert_eq!(text::raw(INPUT.as_bytes().to_vec()).join("\n") + "\n", OUTPUT);
    assert_eq!(text::run(INPUT.as_bytes()).unwrap(), OUTPUT);
}

#[test]
fn p1_two_halves_grown_and_fused() {
    let calls = "D 0 3 / D 1 7 / G 0 4 / G 1 6 / F 2 0 1 / G 2 5";
    assert_eq!(last(calls), "0 0 2 20 1 6 5");
    assert_eq!(last(&format!("{calls} / v 1")), "0 9");
    assert_eq!(last(&format!("{calls} / v 2")), "0 11");
}

#[test]
fn p2_a_child_is_refused() {
    assert_eq!(last("D 0 3 / D 1 7 / G 0 4 / G 1 6 / F 2 0 1 / G 2 5 / D 0 5"), "4 0 0 0 0");
}

#[test]
fn p3_growth_to_the_limit() {
    assert_eq!(last("G 0 1099511627776"), "0 0 0 0 1 6 1099511627776");
    assert_eq!(last("G 0 1099511627776 / G 0 1"), "5 0 0 0 0");
}

#[test]
fn p4_the_slots_of_an_interface() {
    let calls: Vec<String> = (0..65).map(|vertex| format!("D 0 {vertex}")).collect();
    assert_eq!(last(&calls[..64].join(" / ")), "0 64 64 0 1 1 64");
    assert_eq!(last(&calls.join(" / ")), "14 0 64 0 0");
}

#[test]
fn p5_a_member_twice() {
    assert_eq!(last("D 0 3 / B 0 1 1"), "13 0 1 0 0");
}

#[test]
fn p6_stale_after_a_clear() {
    assert_eq!(last("D 0 3 / C 0 / S 0 1 1"), "8 0 0 0 0");
    assert_eq!(last("D 0 3 / C 0 / D 0 3"), "0 2 1 0 1 1 2");
}

#[test]
fn p7_p8_growths_extended() {
    assert_eq!(last("g 0 5 1 / g 1 5 0 / j 0 1 / m 0"), "0 1 5 0");
    assert_eq!(last("g 0 5 0 / g 1 9223372036854775807 1 / j 0 1 / m 0"), "0 1 5 0");
}

#[test]
fn p9_pops_remove_stops() {
    let calls = "D 0 4 / D 0 9 / x 0 1 / x 0 2 / q 0 1 / q 0 2";
    assert_eq!(last(&format!("{calls} / z 0")), "0 4 2");
    assert_eq!(last(&format!("{calls} / z 0 / z 0")), "0 4 1");
    assert_eq!(last(&format!("{calls} / z 0 / z 0 / z 0")), "0 0");
}
