//! The line language: a letter and decimal numbers with one space between. Reads a line into a call, or says what is wrong with it.

/// A call of the language. Units and groups are small numbers, nodes are serials, lengths are signed.
#[derive(Clone, Debug, PartialEq, Eq)]
pub enum Line {
    SetUp(u32),
    Defect(u32, u32),
    /// unit, members, touching pairs (none: each member twice)
    Blossom(u32, Vec<u32>, Vec<(u32, u32)>),
    Expand(u32, u32),
    SetState(u32, u32, i64),
    Grow(u32, i64),
    Fuse(u32, u32, u32),
    Clear(u32),
    /// an interface without halves or used slots gets a mode
    Mark(u32, Mode),
    Check(u32),
    Strict(u32),
    Sum(u32),
    Speed(u32),
    Count(u32),
    Marked(u32, Mode),
    HandleAt(u32, u32),
    Belongs(u32, u32),
    Dump(u32),
    Value(u32),
    Outer(u32),
    Under(u32),
    First(u32),
    Vertices(u32, u32),
    NewGroup(usize),
    Add(usize, Obstacle<u32>),
    Extend(usize, usize),
    Asked(usize),
    Pop(usize),
    Peek(usize),
    Content(usize),
}

/// What an interface can be marked as: calls of the library, which the original has not.
#[derive(Clone, Copy, Debug, PartialEq, Eq)]
pub enum Mode {
    /// a new node gets the lowest empty slot
    Filling,
    /// no value falls below zero
    Floored,
}

/// What stands in the way, over any way of naming a node.
#[derive(Clone, Debug, PartialEq, Eq)]
pub enum Obstacle<N> {
    Growth(i64, bool),
    Conflicting((N, N), (N, N)),
    Virtual((N, N), u32, bool),
    NeedExpand(N),
    Stop(N, Option<(N, N)>),
}

impl<N> Obstacle<N> {
    /// The nodes named, in order.
    pub fn nodes(&self) -> Vec<&N> {
        match self {
            Obstacle::Growth(..) => vec![],
            Obstacle::Conflicting((a, b), (c, d)) => vec![a, b, c, d],
            Obstacle::Virtual((a, b), ..) => vec![a, b],
            Obstacle::NeedExpand(a) | Obstacle::Stop(a, None) => vec![a],
            Obstacle::Stop(a, Some((b, c))) => vec![a, b, c],
        }
    }

    /// The same obstacle with nodes named in another way; none if one of them has no such name.
    pub fn named<M>(&self, name: impl Fn(&N) -> Option<M>) -> Option<Obstacle<M>> {
        let pair = |p: &(N, N)| Some((name(&p.0)?, name(&p.1)?));
        Some(match self {
            Obstacle::Growth(length, flag) => Obstacle::Growth(*length, *flag),
            Obstacle::Conflicting(p, q) => Obstacle::Conflicting(pair(p)?, pair(q)?),
            Obstacle::Virtual(p, vertex, mirror) => Obstacle::Virtual(pair(p)?, *vertex, *mirror),
            Obstacle::NeedExpand(a) => Obstacle::NeedExpand(name(a)?),
            Obstacle::Stop(a, None) => Obstacle::Stop(name(a)?, None),
            Obstacle::Stop(a, Some(p)) => Obstacle::Stop(name(a)?, Some(pair(p)?)),
        })
    }
}

pub const GROUPS: usize = 4;
/// What a lent slice is filled with before all vertices are asked.
pub const FILLER: i64 = 77;

/// The fields of a line after its letter.
struct Fields(Vec<i64>);

impl Fields {
    fn signed(&self, at: usize) -> Result<i64, String> {
        self.0.get(at).copied().ok_or_else(|| "too few numbers".to_string())
    }

    fn word(&self, at: usize) -> Result<u32, String> {
        let number = self.signed(at)?;
        u32::try_from(number).map_err(|_| format!("{number} is no unsigned number of 32 bits"))
    }

    fn group(&self, at: usize) -> Result<usize, String> {
        let number = self.word(at)? as usize;
        if number < GROUPS {
            Ok(number)
        } else {
            Err(format!("no group {number}"))
        }
    }

    fn flag(&self, at: usize) -> Result<bool, String> {
        match self.signed(at)? {
            0 => Ok(false),
            1 => Ok(true),
            other => Err(format!("{other} is no flag")),
        }
    }

    fn state(&self, at: usize) -> Result<i64, String> {
        let number = self.signed(at)?;
        if (-1..=1).contains(&number) {
            Ok(number)
        } else {
            Err(format!("{number} is no state"))
        }
    }

    fn mode(&self, at: usize) -> Result<Mode, String> {
        match self.signed(at)? {
            1 => Ok(Mode::Filling),
            2 => Ok(Mode::Floored),
            other => Err(format!("{other} is no mode")),
        }
    }

    fn words(&self, from: usize) -> Result<Vec<u32>, String> {
        (from..self.0.len()).map(|at| self.word(at)).collect()
    }

    fn pair(&self, at: usize) -> Result<(u32, u32), String> {
        Ok((self.word(at)?, self.word(at + 1)?))
    }

    /// The rest from a place on, by twos.
    fn pairs(&self, from: usize) -> Result<Vec<(u32, u32)>, String> {
        (from..self.0.len()).step_by(2).map(|at| self.pair(at)).collect()
    }

    /// A circle by threes: member and its two touching nodes.
    fn triples(&self, from: usize) -> Result<(Vec<u32>, Vec<(u32, u32)>), String> {
        (from..self.0.len()).step_by(3).map(|at| Ok((self.word(at)?, self.pair(at + 1)?))).collect()
    }
}

/// How many numbers a letter takes; none for any number of them.
fn arity(letter: &str) -> Option<usize> {
    Some(match letter {
        "N" | "C" | "K" | "k" | "s" | "p" | "n" | "d" | "v" | "o" | "u" | "f" | "e" | "y" | "z" | "l" | "m" => 1,
        "D" | "E" | "G" | "P" | "Q" | "h" | "i" | "a" | "x" | "q" | "j" => 2,
        "S" | "F" | "g" => 3,
        "r" => 4,
        "c" | "w" => 5,
        _ => return None,
    })
}

fn number(text: &str) -> Result<i64, String> {
    let found: i64 = text.parse().map_err(|_| format!("`{text}` is no number"))?;
    if found.to_string() == text {
        Ok(found)
    } else {
        Err(format!("`{text}` is not written plainly"))
    }
}

/// Reads a line of the language.
pub fn read(text: &str) -> Result<Line, String> {
    let mut words = text.split(' ');
    let letter = words.next().unwrap_or("");
    let f = Fields(words.map(number).collect::<Result<_, _>>()?);
    if let Some(count) = arity(letter) {
        if f.0.len() != count {
            return Err(format!("`{letter}` takes {count} numbers"));
        }
    }
    for reader in [call, look, group] {
        if let Some(line) = reader(letter, &f)? {
            return Ok(line);
        }
    }
    Err(format!("no call begins with `{letter}`"))
}

/// Calls that change the bench.
fn call(letter: &str, f: &Fields) -> Result<Option<Line>, String> {
    Ok(Some(match letter {
        "N" => Line::SetUp(f.word(0)?),
        "D" => Line::Defect(f.word(0)?, f.word(1)?),
        "B" => Line::Blossom(f.word(0)?, f.words(1)?, vec![]),
        "b" => {
            let (members, touching) = f.triples(1)?;
            Line::Blossom(f.word(0)?, members, touching)
        }
        "t" => {
            let count = f.word(1)? as usize;
            let members = (2..2 + count).map(|at| f.word(at)).collect::<Result<_, _>>()?;
            Line::Blossom(f.word(0)?, members, f.pairs(2 + count)?)
        }
        "E" => Line::Expand(f.word(0)?, f.word(1)?),
        "S" => Line::SetState(f.word(0)?, f.word(1)?, f.state(2)?),
        "G" => Line::Grow(f.word(0)?, f.signed(1)?),
        "F" => Line::Fuse(f.word(0)?, f.word(1)?, f.word(2)?),
        "C" => Line::Clear(f.word(0)?),
        "P" => Line::Mark(f.word(0)?, f.mode(1)?),
        _ => return Ok(None),
    }))
}

/// Checks and reads.
fn look(letter: &str, f: &Fields) -> Result<Option<Line>, String> {
    Ok(Some(match letter {
        "K" => Line::Check(f.word(0)?),
        "k" => Line::Strict(f.word(0)?),
        "s" => Line::Sum(f.word(0)?),
        "p" => Line::Speed(f.word(0)?),
        "n" => Line::Count(f.word(0)?),
        "Q" => Line::Marked(f.word(0)?, f.mode(1)?),
        "h" => Line::HandleAt(f.word(0)?, f.word(1)?),
        "i" => Line::Belongs(f.word(0)?, f.word(1)?),
        "d" => Line::Dump(f.word(0)?),
        "v" => Line::Value(f.word(0)?),
        "o" => Line::Outer(f.word(0)?),
        "u" => Line::Under(f.word(0)?),
        "f" => Line::First(f.word(0)?),
        "a" => Line::Vertices(f.word(0)?, f.word(1)?),
        _ => return Ok(None),
    }))
}

/// Calls on groups.
fn group(letter: &str, f: &Fields) -> Result<Option<Line>, String> {
    let add = |o| Ok(Some(Line::Add(f.group(0)?, o)));
    match letter {
        "g" => return add(Obstacle::Growth(f.signed(1)?, f.flag(2)?)),
        "c" => return add(Obstacle::Conflicting(f.pair(1)?, f.pair(3)?)),
        "w" => return add(Obstacle::Virtual(f.pair(1)?, f.word(3)?, f.flag(4)?)),
        "x" => return add(Obstacle::NeedExpand(f.word(1)?)),
        "q" => return add(Obstacle::Stop(f.word(1)?, None)),
        "r" => return add(Obstacle::Stop(f.word(1)?, Some(f.pair(2)?))),
        _ => {}
    }
    Ok(Some(match letter {
        "e" => Line::NewGroup(f.group(0)?),
        "j" => Line::Extend(f.group(0)?, f.group(1)?),
        "y" => Line::Asked(f.group(0)?),
        "z" => Line::Pop(f.group(0)?),
        "l" => Line::Peek(f.group(0)?),
        "m" => Line::Content(f.group(0)?),
        _ => return Ok(None),
    }))
}

/// Numbers with one space between.
pub fn numbers(answer: &[i64]) -> String {
    answer.iter().map(i64::to_string).collect::<Vec<_>>().join(" ")
}
