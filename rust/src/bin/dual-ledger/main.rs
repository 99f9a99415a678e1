//! The command `dual-ledger`: records run and moved by the proved functions, with a status that a script can go by.
//!
//! Statuses: 0 if everything was read, answered and written; 1 if anything failed, with a message that names it; 2 if it was called wrongly.
mod ages;
mod args;
mod check;
mod explain;
mod input;
mod json;
mod output;
mod pack;
mod picture;
mod run;
mod svg;
mod table;
mod twins;
mod whole;

use args::{Args, Asked};
use std::process::ExitCode;

fn main() -> ExitCode {
    let asked = match Args::read(std::env::args_os().skip(1)) {
        Ok(asked) => asked,
        Err(why) => {
            eprintln!("dual-ledger: {why}\nTry 'dual-ledger --help'.");
            return ExitCode::from(2);
        }
    };
    let done = match asked {
        Asked::Help => output::print(args::HELP),
        Asked::Version => output::print(&format!("dual-ledger {}\n", env!("CARGO_PKG_VERSION"))),
        Asked::Check(args) => check::run(&args),
        Asked::Ages(args) => ages::run(&args),
        Asked::Picture(args) => picture::run(&args),
        Asked::Pack(args) => pack::pack(&args),
        Asked::Unpack(args) => pack::unpack(&args),
        Asked::Run(args) => run::run(&args),
    };
    match done {
        Ok(true) => ExitCode::SUCCESS,
        Ok(false) => ExitCode::FAILURE,
        Err(trouble) => {
            eprintln!("dual-ledger: {trouble}");
            ExitCode::FAILURE
        }
    }
}
