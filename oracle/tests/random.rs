//! Runs of every plan, other than those recorded: the original and the model agree, and every bench and group is sound.
use oracle::generator::plans::{ALL, MARKS, MIXED, TEXT};
use oracle::generator::Player;
use oracle::line::read;
use oracle::replay::Replay;
use oracle::text;

#[test]
fn the_original_and_the_model_agree() {
    for (at, plan) in ALL.into_iter().chain([MARKS]).enumerate() {
        for seed in 0..40 {
            let mut player = Player::new(plan, 1_000_000 * (at as u64 + 1) + seed);
            let mut both = Replay::default();
            for _ in 0..220 {
                let line = player.line();
                let turn = both.turn(&read(&line).unwrap());
                assert!(turn.agrees(), "{} from {seed}: {line}: {:?}, {:?}", plan.name, turn.original, turn.answer);
                assert!(both.model.bench.is_sound(), "{} from {seed}: {line}", plan.name);
                assert!(both.model.groups.iter().all(|group| group.is_sound()), "{} from {seed}: {line}", plan.name);
            }
        }
    }
}

/// Accepted text lines by the original alone are answered as by both; mixed ones are by both.
#[test]
fn text_lines() {
    let lines = |plan, seed, accepted: bool| {
        let mut player = Player::new(plan, seed);
        (0..5_000).map(|_| if accepted { player.accepted() } else { player.line() } + "\n").collect::<String>()
    };
    let accepted = lines(TEXT, 5, true);
    assert_eq!(text::raw(accepted.clone().into_bytes()).join("\n") + "\n", text::run(accepted.as_bytes()).unwrap());
    text::run(lines(MIXED, 6, false).as_bytes()).unwrap();
}

#[test]
fn one_seed_gives_the_same_lines() {
    let lines = || {
        let mut player = Player::new(ALL[0], 9);
        (0..200).map(|_| player.line()).collect::<Vec<_>>()
    };
    assert_eq!(lines(), lines());
}
