//! The recording of refusals has every number that a call can give, alone where it can be alone, and each pair of which the lower is given.
use oracle::line::read;
use oracle::model::Model;
use oracle::pairs::{applying, lines, Seen};

/// The call, the numbers it can give in rising order, and those pairs of them that cannot apply at once.
const CALLS: [(char, &[i64], &[(i64, i64)]); 19] = [
    ('D', &[3, 4, 14, 15], &[(3, 4), (3, 14)]),
    ('B', &[3, 4, 6, 7, 8, 9, 11, 13, 14, 15], &[(3, 4), (3, 14)]),
    ('E', &[3, 4, 8, 9, 10, 11], &[(3, 4), (8, 9), (8, 10), (8, 11)]),
    ('S', &[3, 4, 8, 9, 11], &[(3, 4), (8, 9), (8, 11)]),
    ('G', &[3, 4, 5], &[(3, 4)]),
    ('F', &[3, 4, 16, 17], &[]),
    ('C', &[3, 4], &[(3, 4)]),
    ('K', &[3, 4], &[(3, 4)]),
    ('k', &[3, 4], &[(3, 4)]),
    ('s', &[3, 4], &[(3, 4)]),
    ('p', &[3, 4], &[(3, 4)]),
    ('n', &[3, 4], &[(3, 4)]),
    ('h', &[3, 4, 18], &[(3, 4)]),
    ('i', &[3, 4], &[(3, 4)]),
    ('v', &[8], &[]),
    ('u', &[8, 12], &[(8, 12)]),
    ('a', &[8, 19], &[(8, 19)]),
    ('c', &[8, 20], &[]),
    ('j', &[8, 20], &[]),
];

fn seen() -> Seen {
    let mut model = Model::new(1);
    let mut seen = Seen::default();
    for text in lines().lines().filter(|line| !line.starts_with('#')) {
        let call = read(text).unwrap();
        let numbers = applying(&model, &call);
        let answer = model.answer(&call);
        let number = if text.starts_with('y') { answer[3] } else { answer[0] };
        assert_eq!(numbers.first().copied().unwrap_or(0), number, "{text}: the lowest that applies is given");
        seen.see(text, &numbers);
    }
    seen
}

#[test]
fn each_number_and_each_pair() {
    let seen = seen();
    let mut wrong = vec![];
    for (letter, numbers, never) in CALLS {
        let mine = &seen.0[&letter];
        for (at, lower) in numbers.iter().enumerate() {
            for higher in &numbers[at + 1..] {
                let can = !never.contains(&(*lower, *higher));
                if mine.contains(&(*lower, *higher)) != can {
                    wrong.push(format!("{letter}: {lower} beside {higher}, can be: {can}"));
                }
            }
        }
        let alone: Vec<i64> = mine.iter().filter(|(a, b)| a == b).map(|(a, _)| *a).collect();
        // an interface above 7 has no tree and no slots, so that every node is of another tree and every index past the count
        let missing: Vec<i64> = numbers.iter().filter(|n| !alone.contains(n)).copied().collect();
        assert_eq!(missing, if "BESh".contains(letter) { vec![3] } else { vec![] }, "{letter}: never alone");
    }
    assert!(wrong.is_empty(), "{wrong:#?}");
}
