//! Timing over a list of accepted text lines, in whole passes and by kind, of whatever can make the calls. Meant for the release build, where debug
//! assertions and overflow checks are off. Whole passes are measured in processor time, so that other work on the machine does not count.
mod original;
mod played;

use crate::line::Line;
use crate::text;
pub use original::Original;
pub use played::Played;
use std::time::Instant;

pub const KINDS: &str = "DBESGFCK";
const PASSES: usize = 5;

/// What is timed: a side that makes the calls.
pub trait Timed {
    fn call(&mut self, line: &Line);
    /// Something that the calls lead to, so that none can be left out.
    fn count(&self) -> usize;
}

/// Keeps the compiler from leaving out what makes a value.
pub fn keep<T: Copy>(value: T) {
    let kept = value;
    unsafe { std::ptr::read_volatile(&kept) };
}

pub fn kind(line: &Line) -> usize {
    match line {
        Line::Defect(..) => 0,
        Line::Blossom(..) => 1,
        Line::Expand(..) => 2,
        Line::SetState(..) => 3,
        Line::Grow(..) => 4,
        Line::Fuse(..) => 5,
        Line::Clear(_) => 6,
        _ => 7,
    }
}

/// Nanoseconds that no operation of a kind takes: the thread was put aside meanwhile. A check goes through all nodes, and up from each in deep nests.
fn put_aside(kind: usize) -> f64 {
    if kind == 7 {
        20_000_000.0
    } else {
        50_000.0
    }
}

/// The thread's processor time in nanoseconds.
pub fn processor() -> f64 {
    let mut time = libc::timespec { tv_sec: 0, tv_nsec: 0 };
    let done = unsafe { libc::clock_gettime(libc::CLOCK_THREAD_CPUTIME_ID, &mut time) };
    assert_eq!(done, 0, "no processor clock");
    time.tv_sec as f64 * 1e9 + time.tv_nsec as f64
}

/// Room for so many, in pages of 2 MB where asked for and the machine gives them.
pub fn roomy<T>(count: usize, large: bool) -> Vec<T> {
    const LARGE: usize = 1 << 21;
    let room = Vec::with_capacity(count);
    let (begin, end) = (room.as_ptr() as usize, room.as_ptr() as usize + count * std::mem::size_of::<T>());
    let (first, last) = (begin.next_multiple_of(LARGE), end / LARGE * LARGE);
    if large && first < last {
        // advice alone: what the memory holds is not touched, and a machine without such pages says no
        unsafe { libc::madvise(first as *mut libc::c_void, last - first, libc::MADV_HUGEPAGE) };
    }
    room
}

/// What an empty measurement takes.
fn clock() -> f64 {
    let begin = processor();
    (0..1_000_000).for_each(|_| keep(Instant::now()));
    (processor() - begin) / 1_000_000.0
}

/// One pass with a clock around each operation, its own time taken off; what was put aside is left out. Mean nanoseconds by kind, none where none was measured.
pub fn by_kind(lines: &[Line], mut side: impl Timed) -> [Option<f64>; 8] {
    let clock = clock();
    let mut spent = [(0, 0.0); 8];
    for line in lines {
        let begin = Instant::now();
        side.call(line);
        let taken = begin.elapsed().as_nanos() as f64 - clock;
        let (count, sum) = &mut spent[kind(line)];
        if taken < put_aside(kind(line)) {
            *count += 1;
            *sum += taken;
        }
    }
    spent.map(|(count, sum)| (count > 0).then(|| sum / count as f64))
}

/// One pass with one clock around all of it: nanoseconds for an operation.
pub fn whole(lines: &[Line], mut side: impl Timed) -> f64 {
    let begin = processor();
    lines.iter().for_each(|line| side.call(line));
    let taken = processor() - begin;
    keep(side.count());
    taken / lines.len() as f64
}

/// The lines of a list.
pub fn read(list: &str) -> Result<Vec<Line>, String> {
    let read = |(at, line): (usize, &str)| text::read(line.as_bytes()).ok_or(format!("line {}: not of the grammar", at + 1));
    list.lines().enumerate().map(read).collect()
}

/// The smaller of two measures, of which either may be missing.
pub fn least(a: Option<f64>, b: Option<f64>) -> Option<f64> {
    a.into_iter().chain(b).reduce(f64::min)
}

/// The best of five passes of each measure, of the original.
pub fn report(list: &str) -> Result<String, String> {
    let lines = read(list)?;
    let measures = [("bare calls", false, false), ("update() on each node named", true, false), ("and speed and sum read", true, true)];
    let mut out = format!("{} operations, debug assertions {}\n", lines.len(), if cfg!(debug_assertions) { "on" } else { "off" });
    for (name, updates, numbers) in measures {
        let best = (0..PASSES).map(|_| whole(&lines, Original::new(lines.len(), updates, numbers))).fold(f64::MAX, f64::min);
        out += &format!("{name}: {best:.0} ns for an operation\n");
    }
    out += "kind  operations  bare ns  with update() ns\n";
    let best = |updates| {
        let passes: Vec<_> = (0..PASSES).map(|_| by_kind(&lines, Original::new(lines.len(), updates, updates))).collect();
        move |at: usize| passes.iter().fold(None, |found, pass| least(found, pass[at])).map_or("-".to_string(), |best| format!("{best:.0}"))
    };
    let (bare, with) = (best(false), best(true));
    let count = |at| lines.iter().filter(|line| kind(line) == at).count();
    for (at, letter) in KINDS.chars().enumerate().filter(|(at, _)| count(*at) > 0) {
        out += &format!("{letter}     {:10}  {:>7}  {:>16}\n", count(at), bare(at), with(at));
    }
    Ok(out)
}
