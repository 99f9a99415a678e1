//! The archive's functions, as safe ones. Nothing else in this crate is unsafe.
//!
//! Each function of the archive is proved to end with an answer for any arguments, to write only what is lent to be written, and to keep no pointer.
//! A call of one is right, then, if what is lent is as long as include/dual_ledger.h says and what is written overlaps nothing else. Both hold by the types: an array
//! has its length, a slice goes with its own, and `&mut` is lent alone. The forms that test nothing ask besides for words that hold a sound bench: they
//! are declared over `Sound`, which nothing but set-up, the test and those forms themselves can make or change, and a theorem (crates/run_laws) says that every call leaves such words sound.
//! The same holds of `SoundGroup` by the calls' contracts (crates/group_lent_calls).
#![allow(unsafe_code)]

use crate::Handle;
use alloc::boxed::Box;
use core::mem::MaybeUninit;

/// How many words a bench has.
pub const WORDS: usize = 6273;
/// How many words a group has.
pub const GROUP_WORDS: usize = 1413;

/// The words of a bench.
pub type Words = [u64; WORDS];
/// The words of a group.
pub type GroupWords = [u64; GROUP_WORDS];
/// Where nodes were found by their serials; it may hold anything.
pub type Hints = [u16; 512];
/// What is held of a line that is not ended.
pub type Held = [u8; 1024];
pub type ObstacleWords = [u64; 5];
pub type Touching = [[Handle; 2]];

/// The answer of a call that tells its notices: 199 words. A call writes the first three, and of the others as many as those say; the rest stay as they were,
/// so nothing is written there beforehand and nothing is read.
#[derive(Clone)]
#[repr(C)]
pub struct AnswerWords {
    node: Handle,
    count: u64,
    members: u64,
    /// kind, and what it is of
    notices: [[MaybeUninit<u64>; 2]; 66],
    circle: [MaybeUninit<Handle>; 64],
}

const _: () = assert!(core::mem::size_of::<AnswerWords>() == 199 * 8);

impl AnswerWords {
    /// No node and nothing told.
    #[inline]
    pub fn blank() -> Self {
        AnswerWords {
            node: Handle::from_word(0),
            count: 0,
            members: 0,
            notices: [[MaybeUninit::uninit(); 2]; 66],
            circle: [MaybeUninit::uninit(); 64],
        }
    }

    #[inline]
    pub fn node(&self) -> Handle {
        self.node
    }

    /// The notices, each its kind and what it is of.
    #[inline]
    pub fn notices(&self) -> &[[u64; 2]] {
        let told = &self.notices[..self.count as usize];
        // SAFETY: a call is proved to write as many notices as it says, and a blank answer says none; nothing else writes the counts
        unsafe { core::slice::from_raw_parts(told.as_ptr().cast(), told.len()) }
    }

    #[inline]
    pub fn circle(&self) -> &[Handle] {
        let members = &self.circle[..self.members as usize];
        // SAFETY: as above, of members
        unsafe { core::slice::from_raw_parts(members.as_ptr().cast(), members.len()) }
    }
}

/// Words that hold a sound bench.
#[derive(Clone, PartialEq, Eq)]
#[repr(transparent)]
pub struct Sound(Words);

impl Sound {
    /// Set-up from a first serial, and the number it answers; the words are sound whatever it is.
    pub fn set_up(first: u32) -> (Box<Self>, u8) {
        let mut bench = Box::new(Sound([0; WORDS]));
        let number = any::set_up(&mut bench.0, first);
        (bench, number)
    }

    /// The same in the plain engine.
    pub fn set_up_plain(first: u32) -> (Box<Self>, u8) {
        let mut bench = Box::new(Sound([0; WORDS]));
        let number = any::set_up_plain(&mut bench.0, first);
        (bench, number)
    }

    /// The words, if they are sound.
    pub fn tested(words: &Words) -> Option<Box<Self>> {
        (any::is_sound(words) == 1).then(|| Box::new(Sound(*words)))
    }

    pub fn words(&self) -> &Words {
        &self.0
    }
}

/// Words that hold a sound group. What stands past its counts, and all entries of a growth, say nothing: they are whatever stood there before.
#[derive(Clone)]
#[repr(transparent)]
pub struct SoundGroup(GroupWords);

/// Words of groups that were dropped, for the next ones of the thread: a new group then writes three words and asks for no memory.
#[cfg(feature = "std")]
mod spare {
    use super::SoundGroup;
    use core::cell::RefCell;

    /// How many a thread keeps.
    const MOST: usize = 16;

    std::thread_local! {
        static SPARE: RefCell<Vec<Box<SoundGroup>>> = const { RefCell::new(Vec::new()) };
    }

    pub fn take() -> Option<Box<SoundGroup>> {
        SPARE.try_with(|spare| spare.borrow_mut().pop()).ok().flatten()
    }

    pub fn keep(words: Box<SoundGroup>) {
        let _ = SPARE.try_with(|spare| {
            let mut spare = spare.borrow_mut();
            if spare.len() < MOST {
                spare.push(words);
            }
        });
    }
}

/// Without threads to ask for, nothing is kept.
#[cfg(not(feature = "std"))]
mod spare {
    use super::SoundGroup;
    use alloc::boxed::Box;

    pub fn take() -> Option<Box<SoundGroup>> {
        None
    }

    pub fn keep(_: Box<SoundGroup>) {}
}

impl SoundGroup {
    /// The empty group.
    pub fn empty() -> Box<Self> {
        let mut words = spare::take().unwrap_or_else(|| Box::new(SoundGroup([0; GROUP_WORDS])));
        any_group::empty_group(&mut words.0);
        words
    }

    /// The words, if they hold a sound group.
    pub fn tested(words: &GroupWords) -> Option<Box<Self>> {
        (any_group::group_is_sound(words) == 1).then(|| Box::new(SoundGroup(*words)))
    }

    #[inline]
    pub fn words(&self) -> &GroupWords {
        &self.0
    }

    /// Keeps the words for a group to come.
    pub fn keep(words: Box<Self>) {
        spare::keep(words);
    }
}

/// Each function by its name in the archive less `dual_ledger_` and the form.
macro_rules! link {
    ($form:literal $($name:ident($($arg:ident: $type:ty),*) $(-> $number:ty)?;)*) => { $(
        #[inline]
        pub fn $name($($arg: $type),*) $(-> $number)? {
            extern "C" {
                #[link_name = concat!("dual_ledger_", $form, stringify!($name))]
                fn linked($($arg: $type),*) $(-> $number)?;
            }
            // SAFETY: arguments are numbers and references of the header's lengths; a form without tests is lent a `Sound` or a `SoundGroup`
            unsafe { linked($($arg),*) }
        }
    )* };
}

/// A blossom's call: the lists go as pointer and length.
macro_rules! link_blossom {
    ($form:literal $bench:ty, $out:ty) => {
        #[inline]
        pub fn create_blossom(bench: &mut $bench, unit: u8, members: &[Handle], touching: &Touching, out: &mut $out) -> u8 {
            type List = *const Handle;
            extern "C" {
                #[link_name = concat!("dual_ledger_", $form, "create_blossom")]
                fn linked(bench: &mut $bench, unit: u8, members: List, count: usize, touching: List, touches: usize, out: &mut $out) -> u8;
            }
            // SAFETY: as above; a handle is a word, an array of two handles two words, and both lists are of the lengths said
            unsafe { linked(bench, unit, members.as_ptr(), members.len(), touching.as_ptr().cast(), 2 * touching.len(), out) }
        }
    };
}

/// The reads and checks of a form.
macro_rules! link_reads {
    ($form:literal $bench:ty) => {
        link! { $form
            sum_dual_variables(bench: &$bench, unit: u8, sum: &mut i64) -> u8;
            sum_grow_speed(bench: &$bench, unit: u8, speed: &mut i64) -> u8;
            nodes_count(bench: &$bench, unit: u8, count: &mut u64) -> u8;
            is_filling(bench: &$bench, unit: u8, yes: &mut u64) -> u8;
            is_floored(bench: &$bench, unit: u8, yes: &mut u64) -> u8;
            get_node(bench: &$bench, unit: u8, index: u32, node: &mut Handle) -> u8;
            present_count(bench: &$bench, unit: u8, count: &mut u64) -> u8;
            next_present(bench: &$bench, unit: u8, index: u32, next: &mut u32, node: &mut Handle) -> u8;
            check_ptr_belonging(bench: &$bench, unit: u8, node: Handle, inside: &mut u64) -> u8;
            get_dual_variable(bench: &$bench, node: Handle, value: &mut i64) -> u8;
            get_ancestor_blossom(bench: &$bench, node: Handle, ancestor: &mut Handle, links: &mut u64) -> u8;
            get_secondary_ancestor_blossom(bench: &$bench, node: Handle, second: &mut Handle) -> u8;
            get_representative_vertex(bench: &$bench, node: Handle, vertex: &mut u32) -> u8;
            sanity_check(bench: &$bench, unit: u8, verdict: &mut u64, index: &mut u64) -> u8;
            strict_check(bench: &$bench, unit: u8, verdict: &mut u64, index: &mut u64) -> u8;
        }

        pub fn get_all_vertices(bench: &$bench, node: Handle, out: &mut [u32], count: &mut u64) -> u8 {
            extern "C" {
                #[link_name = concat!("dual_ledger_", $form, "get_all_vertices")]
                fn linked(bench: &$bench, node: Handle, out: *mut u32, room: usize, count: &mut u64) -> u8;
            }
            // SAFETY: as above; the slice is of the length said and lent alone
            unsafe { linked(bench, node, out.as_mut_ptr(), out.len(), count) }
        }

        pub fn snapshot(bench: &$bench, unit: u8, abbreviated: u8, out: &mut [u8], length: &mut u64) -> u8 {
            extern "C" {
                #[link_name = concat!("dual_ledger_", $form, "snapshot")]
                fn linked(bench: &$bench, unit: u8, abbreviated: u8, out: *mut u8, room: usize, length: &mut u64) -> u8;
            }
            // SAFETY: as above; the slice is of the length said and lent alone
            unsafe { linked(bench, unit, abbreviated, out.as_mut_ptr(), out.len(), length) }
        }
    };
}

/// On any words: they are tested first.
pub mod any {
    use super::*;

    link! { ""
        set_up(bench: &mut Words, first: u32) -> u8;
        set_up_plain(bench: &mut Words, first: u32) -> u8;
        is_sound(bench: &Words) -> u8;
        create_defect_node(bench: &mut Words, unit: u8, vertex: u32, answer: &mut AnswerWords) -> u8;
        expand_blossom(bench: &mut Words, unit: u8, node: Handle, answer: &mut AnswerWords) -> u8;
        set_grow_state(bench: &mut Words, unit: u8, node: Handle, state: i8, answer: &mut AnswerWords) -> u8;
        grow(bench: &mut Words, unit: u8, length: i64, answer: &mut AnswerWords) -> u8;
        fuse(bench: &mut Words, parent: u8, left: u8, right: u8) -> u8;
        clear(bench: &mut Words, unit: u8) -> u8;
        mark_filling(bench: &mut Words, unit: u8) -> u8;
        mark_floored(bench: &mut Words, unit: u8) -> u8;
    }
    link_blossom!("" Words, AnswerWords);
    link_reads!("" Words);
}

/// On sound words, with the notices.
pub mod told {
    use super::*;

    link! { "told_"
        create_defect_node(bench: &mut Sound, unit: u8, vertex: u32, answer: &mut AnswerWords) -> u8;
        expand_blossom(bench: &mut Sound, unit: u8, node: Handle, answer: &mut AnswerWords) -> u8;
        set_grow_state(bench: &mut Sound, unit: u8, node: Handle, state: i8, answer: &mut AnswerWords) -> u8;
        grow(bench: &mut Sound, unit: u8, length: i64, answer: &mut AnswerWords) -> u8;
    }
    link_blossom!("told_" Sound, AnswerWords);
}

/// On sound words, without notices.
pub mod trusted {
    use super::*;

    link! { "trusted_"
        create_defect_node(bench: &mut Sound, unit: u8, vertex: u32, node: &mut Handle) -> u8;
        expand_blossom(bench: &mut Sound, unit: u8, node: Handle) -> u8;
        set_grow_state(bench: &mut Sound, unit: u8, node: Handle, state: i8) -> u8;
        grow(bench: &mut Sound, unit: u8, length: i64) -> u8;
        fuse(bench: &mut Sound, parent: u8, left: u8, right: u8) -> u8;
        clear(bench: &mut Sound, unit: u8) -> u8;
        mark_filling(bench: &mut Sound, unit: u8) -> u8;
        mark_floored(bench: &mut Sound, unit: u8) -> u8;
    }
    link_blossom!("trusted_" Sound, Handle);
    link_reads!("trusted_" Sound);
}

/// Groups of obstacles, of any words.
mod any_group {
    use super::*;

    link! { ""
        empty_group(group: &mut GroupWords);
        group_is_sound(group: &GroupWords) -> u8;
    }
}

/// Groups of obstacles, of sound words. An obstacle's words are those of an `Obstacle`.
pub mod group {
    use super::*;

    link! { "trusted_"
        group_is_empty(group: &SoundGroup, yes: &mut u64) -> u8;
        group_is_active(group: &SoundGroup, yes: &mut u64) -> u8;
        group_get_none_zero_growth(group: &SoundGroup, asked: &mut u64, length: &mut i64) -> u8;
        group_peek(group: &SoundGroup, obstacle: &mut ObstacleWords) -> u8;
        group_pop(group: &mut SoundGroup, obstacle: &mut ObstacleWords) -> u8;
        group_pop_sparing_stops(group: &mut SoundGroup, obstacle: &mut ObstacleWords) -> u8;
        group_add(bench: &Sound, group: &mut SoundGroup, obstacle: &ObstacleWords) -> u8;
        group_extend(bench: &Sound, group: &mut SoundGroup, other: &SoundGroup) -> u8;
    }
}

/// The text engine, on sound words (a line on any words too).
pub mod text {
    use super::*;

    macro_rules! link_line {
        ($name:ident $link:literal $bench:ty) => {
            pub fn $name(bench: &mut $bench, line: &[u8], hints: &mut Hints, serial: &mut u64, speed: &mut i64, sum: &mut i64) -> u8 {
                extern "C" {
                    #[link_name = $link]
                    fn linked(
                        bench: &mut $bench,
                        line: *const u8,
                        bytes: usize,
                        hints: &mut Hints,
                        serial: &mut u64,
                        speed: &mut i64,
                        sum: &mut i64,
                    ) -> u8;
                }
                // SAFETY: as above; the line is of the length said
                unsafe { linked(bench, line.as_ptr(), line.len(), hints, serial, speed, sum) }
            }
        };
    }
    link_line!(line "dual_ledger_trusted_text_line" Sound);
    link_line!(line_of_any "dual_ledger_text_line" Words);

    pub fn chunk(bench: &mut Sound, chunk: &[u8], buf: &mut Held, held: &mut usize, hints: &mut Hints, out: &mut [u8], wrote: &mut usize) -> u8 {
        #[rustfmt::skip]
        extern "C" {
            #[link_name = "dual_ledger_trusted_text_chunk"]
            fn linked(bench: &mut Sound, chunk: *const u8, bytes: usize, buf: &mut Held, held: &mut usize, hints: &mut Hints, out: *mut u8, room: usize, wrote: &mut usize) -> u8;
        }
        // SAFETY: as above; both slices are of the lengths said, and `out` is lent alone
        unsafe { linked(bench, chunk.as_ptr(), chunk.len(), buf, held, hints, out.as_mut_ptr(), out.len(), wrote) }
    }

    /// It sets the words up, whatever they hold.
    pub fn opening(bench: &mut Sound, chunk: &[u8], buf: &mut Held, held: &mut usize, hints: &mut Hints, out: &mut [u8], wrote: &mut usize) -> u8 {
        #[rustfmt::skip]
        extern "C" {
            #[link_name = "dual_ledger_text_opening"]
            fn linked(bench: &mut Sound, chunk: *const u8, bytes: usize, buf: &mut Held, held: &mut usize, hints: &mut Hints, out: *mut u8, room: usize, wrote: &mut usize) -> u8;
        }
        // SAFETY: as above; both slices are of the lengths said, and `out` is lent alone
        unsafe { linked(bench, chunk.as_ptr(), chunk.len(), buf, held, hints, out.as_mut_ptr(), out.len(), wrote) }
    }

    pub fn end(held: usize, out: &mut [u8], wrote: &mut usize) -> u8 {
        extern "C" {
            #[link_name = "dual_ledger_text_end"]
            fn linked(held: usize, out: *mut u8, room: usize, wrote: &mut usize) -> u8;
        }
        // SAFETY: as above; the slice is of the length said and lent alone
        unsafe { linked(held, out.as_mut_ptr(), out.len(), wrote) }
    }
}

/// Files of byte records, of any bytes.
pub mod records {
    pub fn count(file: &[u8], count: &mut usize) -> u8 {
        extern "C" {
            #[link_name = "dual_ledger_records_count"]
            fn linked(file: *const u8, bytes: usize, count: &mut usize) -> u8;
        }
        // SAFETY: as above; the slice is of the length said
        unsafe { linked(file.as_ptr(), file.len(), count) }
    }

    pub fn get(file: &[u8], at: usize, out: &mut [u64], wrote: &mut usize) -> u8 {
        extern "C" {
            #[link_name = "dual_ledger_records_get"]
            fn linked(file: *const u8, bytes: usize, at: usize, out: *mut u64, room: usize, wrote: &mut usize) -> u8;
        }
        // SAFETY: as above; both slices are of the lengths said, and `out` is lent alone
        unsafe { linked(file.as_ptr(), file.len(), at, out.as_mut_ptr(), out.len(), wrote) }
    }

    macro_rules! link_move {
        ($name:ident $link:literal) => {
            pub fn $name(from: &[u8], out: &mut [u8], wrote: &mut usize) -> u8 {
                extern "C" {
                    #[link_name = $link]
                    fn linked(from: *const u8, bytes: usize, out: *mut u8, room: usize, wrote: &mut usize) -> u8;
                }
                // SAFETY: as above; both slices are of the lengths said, and `out` is lent alone
                unsafe { linked(from.as_ptr(), from.len(), out.as_mut_ptr(), out.len(), wrote) }
            }
        };
    }
    link_move!(to_records "dual_ledger_to_records");
    link_move!(to_text "dual_ledger_to_text");
}

/// Growing against a recording: its groups' words one after the other.
pub mod recorded {
    use super::*;

    macro_rules! link_recorded {
        ($name:ident $link:literal $bench:ty, $group:ty, $words:expr) => {
            pub fn $name(bench: &mut $bench, unit: u8, length: i64, groups: &[$group], lengths: &mut [u64], taken: &mut usize) -> u8 {
                #[rustfmt::skip]
                extern "C" {
                    #[link_name = $link]
                    fn linked(bench: &mut $bench, unit: u8, length: i64, groups: *const u64, words: usize, lengths: *mut u64, room: usize, taken: &mut usize) -> u8;
                }
                let words = $words * groups.len();
                // SAFETY: as above; both slices are of the lengths said, so many words an entry of the first, and `lengths` is lent alone
                unsafe { linked(bench, unit, length, groups.as_ptr().cast(), words, lengths.as_mut_ptr(), lengths.len(), taken) }
            }
        };
    }
    link_recorded!(grow "dual_ledger_trusted_grow_recorded" Sound, GroupWords, GROUP_WORDS);
    link_recorded!(grow_any "dual_ledger_grow_recorded" Words, u64, 1);
}

/// Runs over a file of byte records.
pub mod runs {
    use super::*;

    macro_rules! link_run {
        ($name:ident $link:literal $bench:ty) => {
            pub fn $name(bench: &mut $bench, file: &[u8], answers: &mut [[i64; 4]], count: &mut usize) -> u8 {
                extern "C" {
                    #[link_name = $link]
                    fn linked(bench: &mut $bench, file: *const u8, bytes: usize, answers: *mut i64, room: usize, count: &mut usize) -> u8;
                }
                let room = 4 * answers.len();
                // SAFETY: as above; both slices are of the lengths said, four numbers an entry, and `answers` is lent alone
                unsafe { linked(bench, file.as_ptr(), file.len(), answers.as_mut_ptr().cast(), room, count) }
            }
        };
    }
    link_run!(run "dual_ledger_trusted_run_records" Sound);
    link_run!(run_any "dual_ledger_run_records" Words);
}
