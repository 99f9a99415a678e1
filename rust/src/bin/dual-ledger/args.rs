//! What the command was asked for.
use dual_ledger::Session;
use std::ffi::OsString;
use std::path::PathBuf;

pub const HELP: &str = "\
Runs and moves records of the dual ledger (docs/MANUAL.md) by its proved functions.

dual-ledger check [--jobs N] [--quiet] [--answers OUT] [--fill U].. [--floor U].. FILE..
    runs each file, a record of its own, and shows the refused lines: file, line, number, name, why.
    --jobs N       on so many cores; else on all
    --quiet        shows nothing but what failed
    --answers OUT  writes what `ledger` would write, all files in the order named; a file OUT is there
                   only when it is whole; - is standard output

dual-ledger ages [--csv | --json] [--plain] [--quiet] [--fill U].. [--floor U].. FILE
    runs a record and prints each node that ever was: serial, interface, vertex or members, the lines
    of making and going, its value then or now; at the end the sums, added up.
    --csv, --json  as one table, as one object
    --plain        runs it in both engines, whichever its first line chooses, prints the plain one's,
                   and says so where they differ in an answer, a value or a check
    --quiet        does not show refused lines

dual-ledger picture [--unit U] [--full] [--at N] [--svg] [--fill U].. [--floor U].. FILE
    runs a record and prints the nodes of an interface as JSON for the viewer, if its check says 0.
    --unit U       of this interface; else of 0
    --full         with full names; else abbreviated
    --at N         as they stand after the first N lines
    --svg          the nest of blossoms drawn, as an SVG that any browser shows

Each of these marks interfaces before a record runs, as many as are named:
    --fill U       interface U fills the slots that expansions emptied, until it is cleared; it is full
                   when 64 of its nodes are present
    --floor U      a growth of interface U by which a value would fall below zero is refused (BELOW), until
                   it is cleared; so a wrong length is found on its line

dual-ledger pack IN OUT
    moves a text record to byte records, which have a pair of touching serials beside each member of a
    blossom: every pair is the member itself.

dual-ledger unpack IN OUT
    moves byte records back to text, if every pair is the member itself. There and back are the same
    bytes. A file OUT is there only when it is whole.

dual-ledger run [--bench FILE] [--save FILE] IN
    runs byte records, with their touching pairs, and prints the answers as `ledger` prints them.
    --bench FILE   begins from the bench whose words the file keeps; else from an empty one
    --save FILE    keeps the words of the bench after the run; a file is there only when it is whole

A file named - is standard input, or output. Status 0: all was read, answered and written. Status 1: it was not,
and a message says why; a last line without newline counts as cut. Status 2: called wrongly.

dual-ledger --help, dual-ledger --version
";

pub enum Form {
    Text,
    Csv,
    Json,
}

pub struct Args {
    pub files: Vec<PathBuf>,
    pub jobs: usize,
    pub is_quiet: bool,
    pub is_plain: bool,
    pub answers: Option<PathBuf>,
    pub form: Form,
    pub unit: u8,
    pub is_full: bool,
    pub is_drawn: bool,
    pub at: Option<u64>,
    /// interfaces to be marked before a record runs
    pub fills: Vec<u8>,
    pub floors: Vec<u8>,
    pub bench: Option<PathBuf>,
    pub save: Option<PathBuf>,
}

pub enum Asked {
    Help,
    Version,
    Check(Args),
    Ages(Args),
    Picture(Args),
    Pack(Args),
    Unpack(Args),
    Run(Args),
}

#[derive(Clone, Copy, PartialEq, Eq)]
enum Work {
    Check,
    Ages,
    Picture,
    Pack,
    Unpack,
    Run,
}

impl Args {
    /// The words after the program's name.
    pub fn read(mut words: impl Iterator<Item = OsString>) -> Result<Asked, String> {
        let first = words.next().ok_or("what is to be done? check, ages, picture, pack, unpack or run")?;
        let work = match first.to_str() {
            Some("--help" | "-h" | "help") => return Ok(Asked::Help),
            Some("--version" | "-V") => return Ok(Asked::Version),
            Some("check") => Work::Check,
            Some("ages") => Work::Ages,
            Some("picture") => Work::Picture,
            Some("pack") => Work::Pack,
            Some("unpack") => Work::Unpack,
            Some("run") => Work::Run,
            _ => return Err(format!("there is no subcommand {}", first.to_string_lossy())),
        };
        let jobs = std::thread::available_parallelism().map_or(1, usize::from);
        let mut args = Args {
            files: vec![],
            jobs,
            is_quiet: false,
            is_plain: false,
            answers: None,
            form: Form::Text,
            unit: 0,
            is_full: false,
            is_drawn: false,
            at: None,
            fills: vec![],
            floors: vec![],
            bench: None,
            save: None,
        };
        let runs_records = matches!(work, Work::Check | Work::Ages | Work::Picture);
        let mut no_more_options = false;
        while let Some(word) = words.next() {
            match word.to_str() {
                Some("--") if !no_more_options => no_more_options = true,
                Some("--help" | "-h") if !no_more_options => return Ok(Asked::Help),
                Some("--quiet" | "-q") if matches!(work, Work::Check | Work::Ages) && !no_more_options => args.is_quiet = true,
                Some("--jobs" | "-j") if work == Work::Check && !no_more_options => args.jobs = count(words.next())?,
                Some("--answers") if work == Work::Check && !no_more_options => {
                    args.answers = Some(words.next().ok_or("--answers wants a file")?.into())
                }
                Some("--csv") if work == Work::Ages && !no_more_options => args.form = Form::Csv,
                Some("--plain") if work == Work::Ages && !no_more_options => args.is_plain = true,
                Some("--json") if work == Work::Ages && !no_more_options => args.form = Form::Json,
                Some("--full") if work == Work::Picture && !no_more_options => args.is_full = true,
                Some("--svg") if work == Work::Picture && !no_more_options => args.is_drawn = true,
                Some("--unit") if work == Work::Picture && !no_more_options => args.unit = number(words.next(), "--unit wants an interface, 0 to 7")?,
                Some("--at") if work == Work::Picture && !no_more_options => args.at = Some(number(words.next(), "--at wants a number of lines")?),
                Some("--fill") if runs_records && !no_more_options => args.fills.push(interface(words.next(), "--fill")?),
                Some("--bench") if work == Work::Run && !no_more_options => args.bench = Some(words.next().ok_or("--bench wants a file")?.into()),
                Some("--save") if work == Work::Run && !no_more_options => args.save = Some(words.next().ok_or("--save wants a file")?.into()),
                Some("--floor") if runs_records && !no_more_options => args.floors.push(interface(words.next(), "--floor")?),
                Some(option) if !no_more_options && option.starts_with('-') && option != "-" => {
                    return Err(format!("there is no option {option} here"))
                }
                _ => args.files.push(word.into()),
            }
        }
        match (work, args.files.len()) {
            (_, 0) => Err("which file? - is standard input".to_string()),
            (Work::Check, _) => Ok(Asked::Check(args)),
            (Work::Ages, 1) => Ok(Asked::Ages(args)),
            (Work::Ages, _) => Err("ages takes one file".to_string()),
            (Work::Picture, 1) => Ok(Asked::Picture(args)),
            (Work::Picture, _) => Err("picture takes one file".to_string()),
            (Work::Pack, 2) => Ok(Asked::Pack(args)),
            (Work::Unpack, 2) => Ok(Asked::Unpack(args)),
            (Work::Run, 1) => Ok(Asked::Run(args)),
            (Work::Run, _) => Err("run takes one file".to_string()),
            (Work::Pack, _) => Err("pack takes two files, from and to".to_string()),
            (Work::Unpack, _) => Err("unpack takes two files, from and to".to_string()),
        }
    }

    /// A record from its beginning, on a bench whose interfaces are marked as was asked, whatever engine its first line chooses.
    pub fn session(&self) -> Session {
        let (fills, floors) = (self.fills.clone(), self.floors.clone());
        Session::prepared(move |bench| {
            let marked = "an interface of a new bench can be marked";
            fills.iter().for_each(|unit| bench.mark_filling(*unit).expect(marked));
            floors.iter().for_each(|unit| bench.mark_floored(*unit).expect(marked));
        })
    }
}

fn interface(word: Option<OsString>, option: &str) -> Result<u8, String> {
    let wanted = format!("{option} wants an interface, 0 to 7");
    number(word, &wanted).and_then(|unit| Some(unit).filter(|unit| *unit < 8).ok_or(wanted))
}

fn number<T: std::str::FromStr>(word: Option<OsString>, wanted: &str) -> Result<T, String> {
    word.as_ref().and_then(|word| word.to_str()).and_then(|word| word.parse().ok()).ok_or_else(|| wanted.to_string())
}

fn count(word: Option<OsString>) -> Result<usize, String> {
    let given = word.as_ref().and_then(|word| word.to_str()).and_then(|word| word.parse().ok());
    given.filter(|jobs| *jobs > 0).ok_or_else(|| "--jobs wants a number from 1".to_string())
}
