//! The limits, straight: each scene a heading and its calls.
use crate::generator::rng::Rng;

const LIMIT: i64 = 1 << 40;

/// Calls under a heading.
struct Scene(Vec<String>);

impl Scene {
    fn new(heading: &str) -> Self {
        Scene(vec![format!("# {heading}"), "N 1".to_string()])
    }

    fn say(&mut self, line: impl Into<String>) -> &mut Self {
        self.0.push(line.into());
        self
    }

    fn all<T: Into<String>>(&mut self, lines: impl IntoIterator<Item = T>) -> &mut Self {
        self.0.extend(lines.into_iter().map(Into::into));
        self
    }

    fn text(&self) -> String {
        self.0.join("\n") + "\n"
    }
}

fn defects(unit: usize, count: usize) -> Vec<String> {
    (0..count).map(|at| format!("D {unit} {}", 1000 * unit + at)).collect()
}

fn words(numbers: impl IntoIterator<Item = usize>) -> String {
    numbers.into_iter().map(|number| format!(" {number}")).collect()
}

fn full() -> Scene {
    let mut s = Scene::new("64 defects fill an interface, and its tree still takes nodes");
    s.all(defects(0, 64)).say("D 0 99").say("B 0 1").say("n 0").say("F 2 0 1").say("D 2 99").say("B 2 1 64").say("E 2 66").say("n 2");
    s.say("h 2 63").say("h 2 64").say("h 2 65").say("h 2 66").say("K 2").say("C 2").say("D 0 99").say("n 0");
    s
}

fn circles() -> Scene {
    let mut s = Scene::new("circles of 64, of 65 and of none");
    s.all(defects(0, 64)).say(format!("B 0{}", words(1..=64))).say("D 1 5").say("F 2 0 1").say(format!("B 2{}", words(1..=65)));
    s.say("B 2").say("t 2 0 1 1").say(format!("B 2{}", words((1..=64).rev()))).say("d 2").say("G 2 3").say("o 64").say("f 66");
    s.say("a 66 64").say("a 66 63").say("K 2").say("k 2").say("E 2 66").say("s 2").say("p 2").say("K 2");
    s
}

fn growth() -> Scene {
    let mut s = Scene::new("growth to 2^40 in one step and in two, and past it");
    s.say("D 0 1").say(format!("G 0 {LIMIT}")).say("G 0 1").say("G 0 0").say("G 0 -1").say("D 1 2").say(format!("G 1 {}", LIMIT - 5));
    s.say("G 1 6").say("G 1 5").say("G 1 1").say("v 1").say("v 2").say("F 2 0 1").say("G 2 1").say(format!("G 2 {LIMIT}"));
    s.say(format!("G 2 {}", LIMIT - 1)).say("G 2 1").say("v 1").say("s 2").say("K 2").say(format!("G 3 {}", i64::MAX));
    s.say(format!("G 3 {}", i64::MIN)).say("C 2").say(format!("G 2 {LIMIT}"));
    s
}

fn grown_tree() -> Scene {
    let mut s = Scene::new("growth in every interface of a tree of seven, to the limit each time");
    for unit in 0..4 {
        s.say(format!("D {unit} {unit}")).say(format!("G {unit} {LIMIT}"));
    }
    for (parent, left, right) in [(4, 0, 1), (5, 3, 2), (6, 4, 5)] {
        s.say(format!("F {parent} {left} {right}"))
            .say(format!("D {parent} {parent}"))
            .say(format!("G {parent} {LIMIT}"))
            .say(format!("G {parent} 1"));
    }
    s.all((1..8).map(|serial| format!("v {serial}"))).say("s 6").say("d 6").say("K 6").say("k 6");
    s
}

/// Blossoms of one in one another.
fn nest() -> Scene {
    let mut s = Scene::new("a nest of 63 blossoms in one interface");
    s.say("D 0 5").all((1..64).map(|inner| format!("B 0 {inner}"))).say("B 0 64").say("D 0 9");
    s.say("o 1").say("u 1").say("f 64").say("a 64 1").say("a 64 0").say("G 0 4").say("K 0").say("k 0").say("v 64").say("v 1");
    s.all((60..65).rev().map(|outer| format!("E 0 {outer}"))).say("o 1").say("K 0");
    s
}

fn deepest_nest() -> Scene {
    let mut s = Scene::new("a nest through a tree of seven interfaces");
    let mut serial = 1;
    s.say("D 0 5");
    let mut fill = |s: &mut Scene, unit: usize, blossoms: usize| {
        for _ in 0..blossoms {
            s.say(format!("B {unit} {serial}"));
            serial += 1;
        }
    };
    fill(&mut s, 0, 63);
    for (parent, left, right) in [(2, 0, 1), (4, 2, 3), (6, 5, 4)] {
        s.say(format!("F {parent} {left} {right}"));
        fill(&mut s, parent, 64);
    }
    s.say("o 1").say("u 1").say("u 255").say("f 256").say("a 256 2").say("G 6 7").say("K 6").say("k 6").say("n 6");
    s.all((250..257).rev().map(|outer| format!("E 6 {outer}"))).say("o 1").say("K 6").say("C 6").say("n 6").say("o 1");
    s
}

fn everything() -> Scene {
    let mut s = Scene::new("all 512 slots");
    s.all((0..4).flat_map(|unit| defects(unit, 64)));
    for (parent, left, right) in [(4, 0, 1), (5, 2, 3), (6, 4, 5)] {
        s.say(format!("F {parent} {left} {right}")).all(defects(parent, 64));
    }
    s.all(defects(7, 64))
        .say("D 6 1")
        .say("D 7 1")
        .say("n 6")
        .say("h 6 447")
        .say("h 6 448")
        .say("h 6 255")
        .say("i 6 448")
        .say("i 6 449")
        .say("i 7 512");
    s.say("G 6 1").say("s 6").say("v 1").say("v 512").say("K 6").say("B 6 1 2").say("C 6").say("n 6").say("D 0 1").say("K 0");
    s
}

fn shapes() -> Scene {
    let mut s = Scene::new("a tree of seven by twos, and one like a chain");
    let trees: [&[(usize, usize, usize)]; 2] = [&[(4, 0, 1), (5, 2, 3), (6, 5, 4)], &[(2, 1, 0), (4, 3, 2), (6, 4, 5)]];
    for (base, fuses) in [(0, trees[0]), (7, trees[1])] {
        s.all((0..4).flat_map(|unit| [format!("D {unit} {unit}"), format!("G {unit} {}", unit + 1)]));
        for (parent, left, right) in fuses {
            s.say(format!("F {parent} {left} {right}")).say(format!("G {parent} 10"));
        }
        s.say("D 6 9").say("d 6").say("n 6").all((0..5).map(|index| format!("h 6 {index}")));
        s.all((0..4).map(|at| format!("v {}", base + at + 1)))
            .say(format!("B 6 {} {}", base + 1, base + 4))
            .say("G 6 2")
            .say(format!("E 6 {}", base + 6));
        s.say("K 6").say("D 7 8").say("C 6").say("n 0").say("n 6").say("d 6");
    }
    s
}

fn serials() -> Scene {
    let mut s = Scene(vec!["# the last serials".to_string(), format!("N {}", u32::MAX - 1)]);
    s.say("D 0 3").say("D 0 4").say("D 0 5").say("B 0 4294967294 4294967295").say("b 0 4294967295 4294967295 4294967295");
    s.say("v 4294967295").say("a 4294967295 1").say("C 0").say("D 0 3").say("v 4294967295").say("G 0 1").say("d 0");
    s.say("# set-up from 0").say("N 0").say("D 0 5").say("v 1").say("N 4294967295").say("D 7 1").say("B 7 4294967295").say("D 7 1");
    s
}

fn long_list() -> Scene {
    let mut s = Scene::new("a list of 128");
    s.all(defects(0, 3)).all((0..128).map(|at| format!("c 0 {} {} 1 1", at % 3 + 1, at % 3 + 1))).say("m 0").say("x 0 1").say("g 0 5 1").say("q 0 2");
    s.say("r 0 2 1 1").say("r 0 2 3 1").say("m 0").say("z 0").say("r 0 2 3 1").say("r 0 2 1 1").say("m 0").say("j 1 0").say("y 1").say("j 1 0");
    s.say("e 1").say("x 1 1").say("j 1 0").say("j 0 1").say("m 1").say("z 0").say("j 0 1").say("y 0");
    s
}

fn many_stops() -> Scene {
    let mut s = Scene::new("128 stops");
    s.all(defects(0, 64))
        .all(defects(1, 64))
        .all(defects(2, 5))
        .all((1..=128).map(|serial| format!("q 0 {serial}")))
        .say("q 0 129")
        .say("r 0 129 1 1");
    s.say("q 0 128")
        .say("r 0 128 1 1")
        .say("r 0 128 2 1")
        .say("q 0 129")
        .say("q 0 130")
        .say("m 0")
        .say("q 1 131")
        .say("j 1 0")
        .say("j 0 1")
        .say("z 0")
        .say("j 0 1");
    s.say("m 0").say("l 0").say("z 0").say("y 0");
    s
}

fn overflowing() -> Scene {
    let mut s = Scene::new("a list that overflows by two stops");
    s.all(defects(0, 3))
        .all((0..128).map(|_| "c 2 2 2 1 1"))
        .say("r 2 1 1 1")
        .say("r 2 1 2 1")
        .say("z 2")
        .say("r 2 1 1 1")
        .say("r 2 1 2 1")
        .say("m 2");
    s
}

fn extending() -> Scene {
    let mut s = Scene::new("extending to 128 and past it");
    s.all(defects(0, 64)).all(defects(1, 64)).all(defects(2, 3));
    s.all((1..=64).map(|serial| format!("r 0 {serial} {serial} 1"))).all((65..=128).map(|serial| format!("r 1 {serial} {serial} 1")));
    s.say("j 0 1").say("q 2 129").say("j 0 2").say("j 2 0").say("e 2").say("m 0").say("r 2 1 2 2").say("r 2 64 3 3").say("j 0 2").say("m 0");
    s.all((0..64).map(|at| format!("x 3 {}", at + 1))).say("j 3 3").say("x 3 1").say("j 3 3").say("j 3 2").say("j 2 3").say("y 2").say("m 2");
    s
}

fn slices() -> Scene {
    let mut s = Scene::new("slices of every size");
    s.all(defects(0, 9))
        .say("B 0 1 2 3")
        .say("B 0 4 5")
        .say("B 0 10 11 6")
        .all((0..10).map(|room| format!("a 12 {room}")))
        .say("a 10 3")
        .say("a 1 1");
    s.say("a 1 0").say("E 0 12").say("a 12 9").say("a 11 2").say("a 13 9");
    s
}

/// Every scene, in order.
pub fn limits() -> String {
    let scenes = [full(), circles(), growth(), grown_tree(), nest(), deepest_nest(), everything(), shapes(), serials(), long_list(), many_stops()];
    let rest = [overflowing(), extending(), slices()];
    scenes.iter().chain(&rest).map(Scene::text).collect()
}

/// Lines of the text program that are none, or only just one, by way of a line that is.
pub fn spoiled(line: &str, rng: &mut Rng) -> Vec<u8> {
    let text = match rng.below(20) {
        0 => String::new(),
        1 => format!("{line} "),
        2 => format!(" {line}"),
        3 => line.replacen(' ', "  ", 1),
        4 => line.replacen(' ', " 0", 1),
        5 => line.replacen(' ', " +", 1),
        6 => line.replacen(' ', " -", 1),
        7 => line.to_lowercase(),
        8 => format!("{line}\r"),
        9 => line.replacen(' ', "\t", 1),
        10 => line.split(' ').next().unwrap_or("").to_string(),
        11 => "D 256 1".to_string(),
        12 => "D 0 4294967296".to_string(),
        13 => "E 0 0".to_string(),
        14 => "G 0 9223372036854775808".to_string(),
        15 => "G 0 -0".to_string(),
        16 => format!("B 0{}", " 1".repeat(65)),
        17 => "S 0 1 2".to_string(),
        18 => format!("{line} 7"),
        _ => "M 1".to_string(),
    };
    text.into_bytes()
}
