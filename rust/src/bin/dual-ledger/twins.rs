//! A record in both engines at once, for `dual-ledger ages --plain`. It is proved that they cannot differ; this looks.
use crate::args::Args;
use dual_ledger::{Bench, Handle, Refusal, Reply, Session};

/// What can be read of an interface: its speed, its sum, what its check says, and the values of its nodes.
type Seen = (Result<i64, Refusal>, Result<i64, Refusal>, String, Vec<(Handle, i64)>);

fn seen(bench: &Bench, interface: u8) -> Seen {
    let value = |node| bench.get_dual_variable(node).unwrap_or(i64::MIN);
    let nodes = bench.present_nodes(interface).into_iter().flatten().map(|(_, node)| (node, value(node))).collect();
    let check = format!("{:?}", bench.sanity_check(interface));
    (bench.sum_grow_speed(interface), bench.sum_dual_variables(interface), check, nodes)
}

/// The plain engine's run, and the lazy one's.
pub struct Twins {
    pub plain: Session,
    lazy: Session,
}

/// A record that was opened by this line.
fn opened(args: &Args, line: &[u8]) -> Session {
    let mut session = args.session();
    assert_eq!(session.line(line).refusal, None, "a first line chooses the engine");
    session
}

impl Twins {
    pub fn new(args: &Args) -> Twins {
        Twins { plain: opened(args, b"M 1"), lazy: opened(args, b"M 0") }
    }

    /// Does a line in both, and answers as the plain one, or what is different. The record's own choice is left out.
    pub fn line(&mut self, line: &[u8], number: u64) -> Result<Reply, String> {
        if number == 1 && line.starts_with(b"M") {
            let choice = Session::new().line(line);
            if choice.refusal.is_none() {
                return Ok(choice);
            }
        }
        let (plain, lazy) = (self.plain.line(line), self.lazy.line(line));
        match plain == lazy {
            true => Ok(plain),
            false => Err(format!("the engines differ: plain {plain:?}, lazy {lazy:?}")),
        }
    }

    /// What is different in the end.
    pub fn end(&self) -> Result<(), String> {
        for interface in 0..8 {
            let (plain, lazy) = (seen(self.plain.bench(), interface), seen(self.lazy.bench(), interface));
            if plain != lazy {
                return Err(format!("the engines differ in interface {interface}: plain {plain:?}, lazy {lazy:?}"));
            }
        }
        Ok(())
    }
}
