//! Two patches on one bench: a script of patch B, by numbers of its creating calls in place of handles, played twice from set-up, each time between other
//! calls of patch A and from another first serial. All that B sees must be the same: numbers, names, notices, groups, and every read after every call; and
//! its lines, played as text, but for the serial. A fuse that joins the patches, and serials that wear out, must be told: so the comparison can fail.
use crate::ledger::number;
use dual_ledger::{lent, Bench, DualModule, Group, GroupWords, GrowState, Handle, Obstacle, Refusal, GROUP_WORDS};
use oracle::generator::rng::Rng;
use std::fmt;

/// A call of a patch; nodes by number, one that was not given out yet among them.
#[derive(Clone, Debug)]
enum Call {
    Defect(u8, u32),
    Blossom(u8, Vec<usize>, Vec<[usize; 2]>),
    Expand(u8, usize),
    SetState(u8, usize, GrowState),
    Grow(u8, i64),
    /// over a recording of such growths, with the patch's own group after them
    Recorded(u8, i64, Vec<i64>),
    Fuse(u8, u8, u8),
    Clear(u8),
    Filling(u8),
    Floored(u8),
    Stop(usize, Option<[usize; 2]>),
    Conflict([usize; 4]),
    Extend,
    Pop,
    Spare,
}

/// A growth's words.
fn recorded(length: i64) -> GroupWords {
    let mut words = [0; GROUP_WORDS];
    words[..2].copy_from_slice(&[1, length as u64]);
    words
}

/// What a call told, by handles.
#[derive(Default)]
struct Notes(Vec<(&'static str, Vec<Handle>, i64)>);

impl DualModule for Notes {
    fn add_defect_node(&mut self, _: &Bench, node: Handle) {
        self.0.push(("defect added", vec![node], 0))
    }
    fn add_blossom(&mut self, _: &Bench, blossom: Handle) {
        self.0.push(("blossom added", vec![blossom], 0))
    }
    fn remove_blossom(&mut self, _: &Bench, blossom: Handle) {
        self.0.push(("blossom removed", vec![blossom], 0))
    }
    fn set_grow_state(&mut self, _: &Bench, node: Handle, state: GrowState) {
        self.0.push(("state set", vec![node], state.rate() as i64))
    }
    fn prepare_nodes_shrink(&mut self, _: &Bench, circle: &[Handle]) {
        self.0.push(("shrink prepared", circle.to_vec(), 0))
    }
    fn grow(&mut self, _: &Bench, length: i64) {
        self.0.push(("grown", vec![], length))
    }
}

/// A patch on a bench: the handles that it was given, in order, and a group of its own.
#[derive(Clone, Default)]
struct Patch {
    units: Vec<u8>,
    table: Vec<Handle>,
    group: Group,
}

/// A handle as the patch writes it: interface, slot, and the number of its creating call.
type Name = (u8, u8, Option<usize>);

impl Patch {
    fn handle(&self, number: usize) -> Handle {
        self.table.get(number).copied().unwrap_or(Handle::new(8, 0, 0))
    }

    fn name(&self, node: Handle) -> Name {
        (node.interface(), node.slot(), self.table.iter().position(|one| *one == node))
    }

    fn obstacle(&self, obstacle: Obstacle) -> (u8, Vec<Name>) {
        let names = |nodes: &[Handle]| nodes.iter().map(|node| self.name(*node)).collect();
        match obstacle {
            Obstacle::NonZeroGrow(..) => (1, vec![]),
            Obstacle::Conflicting((a, b), (c, d)) => (2, names(&[a, b, c, d])),
            Obstacle::TouchingVirtual((a, b), _) => (3, names(&[a, b])),
            Obstacle::BlossomNeedExpand(a) => (4, names(&[a])),
            Obstacle::VertexShrinkStop(a, None) => (5, names(&[a])),
            Obstacle::VertexShrinkStop(a, Some((b, c))) => (6, names(&[a, b, c])),
        }
    }

    fn grouped(&self) -> String {
        let list: Vec<_> = self.group.list().map(|one| self.obstacle(one)).collect();
        let stops: Vec<_> = self.group.stops().map(|(vertex, one)| (vertex, self.obstacle(one))).collect();
        format!("{:?} {list:?} {stops:?}", self.group.growth())
    }

    /// The call's number and all else that the patch sees of it.
    fn call(&mut self, bench: &mut Bench, call: &Call) -> (i64, String) {
        let mut notes = Notes::default();
        let hand = |numbers: &[usize]| numbers.iter().map(|number| self.handle(*number)).collect::<Vec<_>>();
        let node = |result: Result<(), Refusal>, number: usize| result.map(|_| Some(self.handle(number)));
        let none = |result: Result<(), Refusal>| result.map(|_| None);
        let mut telling = bench.telling(&mut notes);
        let answer = match call {
            Call::Defect(unit, vertex) => telling.create_defect_node(*unit, *vertex).map(Some),
            Call::Blossom(unit, members, touching) => {
                let touching: Vec<[Handle; 2]> = touching.iter().map(|pair| pair.map(|number| self.handle(number))).collect();
                telling.create_blossom(*unit, &hand(members), &touching).map(Some)
            }
            Call::Expand(unit, number) => node(telling.expand_blossom(*unit, self.handle(*number)), *number),
            Call::SetState(unit, number, state) => node(telling.set_grow_state(*unit, self.handle(*number), *state), *number),
            Call::Grow(unit, length) => none(telling.grow(*unit, *length)),
            Call::Recorded(unit, length, growths) => {
                let mut groups: Vec<GroupWords> = growths.iter().map(|growth| recorded(*growth)).collect();
                groups.push(*self.group.words());
                none(telling.grow_recorded(*unit, *length, &groups).map(|_| ()))
            }
            Call::Fuse(parent, left, right) => none(telling.fuse(*parent, *left, *right)),
            Call::Clear(unit) => none(telling.clear(*unit)),
            Call::Filling(unit) => none(telling.mark_filling(*unit)),
            Call::Floored(unit) => none(telling.mark_floored(*unit)),
            grouped => return self.grouping(bench, grouped),
        };
        if let (Call::Defect(..) | Call::Blossom(..), Ok(Some(made))) = (call, answer) {
            self.table.push(made)
        }
        let told: Vec<_> =
            notes.0.iter().map(|(what, nodes, of)| (what, nodes.iter().map(|node| self.name(*node)).collect::<Vec<_>>(), of)).collect();
        (number(&answer), format!("{:?} {told:?}", answer.map(|node| node.map(|node| self.name(node)))))
    }

    /// The calls on the patch's group.
    fn grouping(&mut self, bench: &Bench, call: &Call) -> (i64, String) {
        let at = |number: usize| self.handle(number);
        let (refused, taken) = match call {
            Call::Stop(stop, pair) => {
                let obstacle = Obstacle::VertexShrinkStop(at(*stop), pair.map(|pair| (at(pair[0]), at(pair[1]))));
                (number(&self.group.add(bench, obstacle)), None)
            }
            Call::Conflict([a, b, c, d]) => {
                let obstacle = Obstacle::Conflicting((at(*a), at(*b)), (at(*c), at(*d)));
                (number(&self.group.add(bench, obstacle)), None)
            }
            Call::Extend => {
                let other = self.group.clone();
                (number(&self.group.extend(bench, &other)), None)
            }
            Call::Pop => {
                let answer = self.group.pop();
                (number(&answer), answer.ok().flatten())
            }
            Call::Spare => {
                let answer = self.group.pop_sparing_stops();
                (number(&answer), answer.ok().flatten())
            }
            other => unreachable!("{other:?} is no call on a group"),
        };
        (refused, format!("{:?} {}", taken.map(|one| self.obstacle(one)), self.grouped()))
    }

    /// Every read that the patch can make: of each node that it was given, of each of its interfaces, and of a number that is none's.
    fn look(&self, bench: &Bench) -> Vec<String> {
        let name = |result: Result<Handle, Refusal>| result.map(|node| self.name(node));
        let mut seen = vec![];
        for node in self.table.iter().copied().chain([Handle::new(8, 0, 0)]) {
            let links = bench.ancestor_and_links(node).map(|(outer, links)| (self.name(outer), links));
            let below = name(bench.get_secondary_ancestor_blossom(node));
            let inside: Vec<_> = self.units.iter().map(|unit| bench.check_ptr_belonging(*unit, node)).collect();
            let vertices = (bench.get_representative_vertex(node), bench.get_all_vertices(node));
            seen.push(format!("{:?}: {:?} {links:?} {below:?} {inside:?} {vertices:?}", self.name(node), bench.get_dual_variable(node)));
        }
        for unit in self.units.iter().copied().chain([8]) {
            let count = bench.nodes_count(unit);
            let slots = 0..=count.unwrap_or(0);
            let slots: Vec<_> = slots
                .map(|at| {
                    let next = bench.next_present(unit, at).map(|next| next.map(|(index, node)| (index, self.name(node))));
                    (bench.get_node(unit, at).map(|node| node.map(|node| self.name(node))), next)
                })
                .collect();
            let totals = (bench.sum_dual_variables(unit), bench.sum_grow_speed(unit), count, bench.present_count(unit));
            let marks = (bench.is_filling(unit), bench.is_floored(unit));
            let verdicts = (bench.sanity_check(unit), bench.strict_check(unit), bench.snapshot(unit, true));
            seen.push(format!("interface {unit}: {totals:?} {marks:?} {verdicts:?} {slots:?}"));
        }
        seen
    }

    /// A call that is likely to be accepted, and now and then one that is not.
    fn chance(&self, rng: &mut Rng, bench: &Bench) -> Call {
        let free: Vec<u8> = self.units.iter().copied().filter(|unit| bench.nodes_count(*unit).is_ok()).collect();
        let unit = if rng.chance(4) {
            8 + rng.below(3) as u8
        } else if rng.chance(8) {
            rng.pick(&self.units).unwrap_or(9)
        } else {
            rng.pick(&free).unwrap_or(9)
        };
        let outer = |number: &usize| bench.get_ancestor_blossom(self.table[*number]) == Ok(self.table[*number]);
        let open: Vec<usize> =
            (0..self.table.len()).filter(outer).filter(|number| bench.check_ptr_belonging(unit, self.table[*number]) == Ok(true)).collect();
        let any = |rng: &mut Rng| rng.below(self.table.len() + 2);
        let one = |rng: &mut Rng| if rng.chance(85) { rng.pick(&open).unwrap_or(0) } else { rng.below(self.table.len() + 2) };
        match rng.below(24) {
            0..=7 => Call::Defect(unit, rng.below(40) as u32),
            8..=10 => {
                let mut members: Vec<usize> = (0..1 + rng.below(4)).map(|_| one(rng)).collect();
                if rng.chance(90) {
                    members.sort_unstable();
                    members.dedup();
                }
                let pairs = if rng.chance(50) { members.len() } else { 0 };
                let touching = (0..pairs).map(|at| if rng.chance(70) { [members[at]; 2] } else { [any(rng), any(rng)] }).collect();
                Call::Blossom(unit, members, touching)
            }
            11..=12 => Call::Expand(unit, one(rng)),
            13..=14 => Call::SetState(unit, one(rng), [GrowState::Grow, GrowState::Stay, GrowState::Shrink][rng.below(3)]),
            15..=16 => Call::Grow(unit, rng.between(-1, 40)),
            17 => Call::Recorded(unit, rng.between(0, 20), (0..rng.below(6)).map(|_| rng.between(0, 9)).collect()),
            18 => {
                let mut three: Vec<u8> = (0..3).map(|_| rng.pick(&free).unwrap_or(9)).collect();
                three.sort_unstable();
                Call::Fuse(three[2], three[0], three[1])
            }
            19 if rng.chance(30) => Call::Clear(unit),
            19 => {
                let new: Vec<u8> = free.iter().copied().filter(|unit| bench.nodes_count(*unit) == Ok(0)).collect();
                let unit = if rng.chance(80) { rng.pick(&new).unwrap_or(unit) } else { unit };
                [Call::Filling(unit), Call::Floored(unit)][rng.below(2)].clone()
            }
            20 => Call::Stop(any(rng), if rng.chance(50) { Some([any(rng), any(rng)]) } else { None }),
            21 => Call::Conflict([any(rng), any(rng), any(rng), any(rng)]),
            22 => Call::Extend,
            23 => [Call::Pop, Call::Spare][rng.below(2)].clone(),
            _ => Call::Grow(unit, rng.between(0, 3)),
        }
    }

    /// A line of the text program, where the call is one and names only nodes that were given out.
    fn line(&self, call: &Call) -> Option<String> {
        let serial = |number: &usize| self.table.get(*number).map(|node| node.serial().to_string());
        Some(match call {
            Call::Defect(unit, vertex) => format!("D {unit} {vertex}"),
            Call::Blossom(unit, members, touching) if touching.is_empty() => {
                format!("B {unit} {}", members.iter().map(serial).collect::<Option<Vec<_>>>()?.join(" "))
            }
            Call::Expand(unit, number) => format!("E {unit} {}", serial(number)?),
            Call::SetState(unit, number, state) => format!("S {unit} {} {}", serial(number)?, state.rate()),
            Call::Grow(unit, length) => format!("G {unit} {length}"),
            Call::Fuse(parent, left, right) => format!("F {parent} {left} {right}"),
            Call::Clear(unit) => format!("C {unit}"),
            _ => return None,
        })
    }
}

/// What was compared.
#[derive(Default)]
pub struct Seen {
    pairs: usize,
    calls: [usize; 2],
    others: usize,
    reads: usize,
    lines: usize,
    serials: usize,
    joined: usize,
    worn: usize,
}

impl fmt::Display for Seen {
    fn fmt(&self, f: &mut fmt::Formatter) -> fmt::Result {
        let [accepted, refused] = self.calls;
        writeln!(
            f,
            "{} pairs of runs of two patches: {accepted} accepted calls of the one, {refused} refused, {} calls of the other between them",
            self.pairs, self.others
        )?;
        writeln!(
            f,
            "{} reads and {} lines the same, {} serials not; told: {} fuses that join, {} runs that wear out",
            self.reads, self.lines, self.serials, self.joined, self.worn
        )
    }
}

/// What becomes of the second run: nothing, a fuse that joins, serials that wear out.
#[derive(Clone, Copy, PartialEq)]
enum Spoilt {
    Nothing,
    Joined,
    Worn,
}

/// A pair of runs: the script of B, and the seeds and first serials of either run.
struct Pair {
    ours: Vec<u8>,
    theirs: Vec<u8>,
    script: Vec<Call>,
    seed: u64,
}

impl Pair {
    /// Each interface is A's, B's or neither's; B's script is made on a bench of its own.
    fn new(seed: u64) -> Pair {
        let mut rng = Rng::new(seed ^ 0x2a7c);
        let (mut ours, mut theirs) = (vec![rng.below(4) as u8], vec![4 + rng.below(4) as u8]);
        for unit in (0..8).filter(|unit| ![ours[0], theirs[0]].contains(unit)).collect::<Vec<u8>>() {
            match rng.below(5) {
                0 | 1 => ours.push(unit),
                2 | 3 => theirs.push(unit),
                _ => {}
            }
        }
        if rng.chance(50) {
            std::mem::swap(&mut ours, &mut theirs)
        }
        let (mut bench, mut patch, mut script) = (Bench::default(), Patch { units: ours.clone(), ..Patch::default() }, vec![]);
        for _ in 0..10 + rng.below(60) {
            let call = patch.chance(&mut rng, &bench);
            patch.call(&mut bench, &call);
            script.push(call)
        }
        Pair { ours, theirs, script, seed }
    }

    /// What B sees of one of the runs, call by call, and the serials that it was given; whether the run was spoilt.
    fn run(&self, which: u64, first: u32, spoilt: Spoilt, seen: &mut Seen) -> (Vec<Vec<String>>, Vec<u32>, bool) {
        let mut rng = Rng::new(self.seed * 2 + which);
        let mut bench = Bench::new(first).expect("a first serial");
        let (mut ours, mut theirs) =
            (Patch { units: self.ours.clone(), ..Patch::default() }, Patch { units: self.theirs.clone(), ..Patch::default() });
        let (mut all, mut met) = (vec![], false);
        for call in &self.script {
            for _ in 0..rng.below(5) {
                // the other's handles may be any: now and then it names one of ours
                let foreign = rng.chance(5) && !ours.table.is_empty();
                if foreign {
                    theirs.table.push(ours.table[rng.below(ours.table.len())])
                }
                let other = theirs.chance(&mut rng, &bench);
                theirs.call(&mut bench, &other);
                seen.others += 1
            }
            if spoilt == Spoilt::Joined && !met {
                met = self.joins().any(|(parent, left, right)| bench.fuse(parent, left, right).is_ok())
            }
            let (number, shown) = ours.call(&mut bench, call);
            met |= spoilt == Spoilt::Worn && number == 15;
            seen.calls[(number != 0) as usize] += 1;
            let looked = ours.look(&bench);
            seen.reads += looked.len();
            all.push([vec![format!("{call:?}: {number} {shown}")], looked].concat())
        }
        (all, ours.table.iter().map(|node| node.serial()).collect(), met)
    }

    /// Every fuse of one of ours and one of theirs into a parent that is not ours: one of ours could be cleared at once, which undoes it.
    fn joins(&self) -> impl Iterator<Item = (u8, u8, u8)> + '_ {
        let parents =
            |left: u8, right: u8| (left.max(right) + 1..8).filter(|parent| !self.ours.contains(parent)).map(move |parent| (parent, left, right));
        self.ours.iter().flat_map(move |left| self.theirs.iter().flat_map(move |right| parents(*left, *right)))
    }

    /// The lines of B among lines of A, on words of their own: what is answered but for the serial, and the number of the serial.
    fn typed(&self, which: u64, first: u32) -> Vec<String> {
        let mut rng = Rng::new(self.seed * 3 + which);
        let mut words = Box::new(*Bench::new(first).expect("a first serial").words());
        let (mut ours, mut theirs) =
            (Patch { units: self.ours.clone(), ..Patch::default() }, Patch { units: self.theirs.clone(), ..Patch::default() });
        let mut all = vec![];
        for call in &self.script {
            for _ in 0..rng.below(3) {
                let bench = Bench::from_words(&words).expect("a sound bench");
                let other = theirs.chance(&mut rng, &bench);
                theirs.type_in(&mut words, &other);
            }
            all.extend(ours.type_in(&mut words, call).map(|shown| format!("{call:?}: {shown}")));
            all.extend(self.ours.iter().map(|unit| format!("{:?}", { lent::line(&mut words, format!("K {unit}").as_bytes()) })))
        }
        all
    }

    fn compare(&self, seen: &mut Seen) -> Result<(), String> {
        let mut rng = Rng::new(self.seed ^ 0x51e5);
        let firsts = [1 + rng.below(3) as u32, rng.next() as u32 / 2 + 1];
        let (first, serials, _) = self.run(0, firsts[0], Spoilt::Nothing, seen);
        let (second, others, _) = self.run(1, firsts[1], Spoilt::Nothing, seen);
        if let Some((one, two)) = first.iter().zip(&second).find(|(one, two)| one != two) {
            let at = one.iter().zip(two).find(|(one, two)| one != two);
            return Err(format!("seed {}: what a patch sees differs: {at:?}", self.seed));
        }
        seen.serials += serials.iter().zip(&others).filter(|(one, two)| one != two).count();
        let (first_lines, second_lines) = (self.typed(0, firsts[0]), self.typed(1, firsts[1]));
        if first_lines != second_lines {
            let at = first_lines.iter().zip(&second_lines).find(|(one, two)| one != two);
            return Err(format!("seed {}: what a patch's lines answer differs: {at:?}", self.seed));
        }
        seen.lines += first_lines.len();
        let worn = u32::MAX - rng.below(30) as u32;
        for (spoilt, from) in [(Spoilt::Joined, firsts[1]), (Spoilt::Worn, worn)] {
            let (third, _, met) = self.run(1, from, spoilt, &mut Seen::default());
            if met && third == first {
                return Err(format!("seed {}: a run that was spoilt is not told", self.seed));
            }
            seen.joined += (met && spoilt == Spoilt::Joined) as usize;
            seen.worn += (met && spoilt == Spoilt::Worn) as usize
        }
        seen.pairs += 1;
        Ok(())
    }
}

impl Patch {
    /// A call as a line, if it is one: its answer, the serial by its number.
    fn type_in(&mut self, words: &mut dual_ledger::Words, call: &Call) -> Option<String> {
        let line = self.line(call)?;
        let reply = lent::line(words, line.as_bytes());
        if let (Call::Defect(..) | Call::Blossom(..), None) = (call, reply.refusal) {
            self.table.push(found(words, reply.serial))
        }
        let at = self.table.iter().position(|node| node.serial() == reply.serial);
        Some(format!("{:?} {at:?} {} {}", reply.refusal, reply.speed, reply.sum))
    }
}

/// The handle of a serial: a line shows the serial alone.
fn found(words: &dual_ledger::Words, serial: u32) -> Handle {
    let bench = Bench::from_words(words).expect("a sound bench");
    let nodes: Vec<Handle> = (0..8).filter_map(|unit| bench.present_nodes(unit).ok()).flatten().map(|(_, node)| node).collect();
    nodes.into_iter().find(|node| node.serial() == serial).expect("a node that was made")
}

/// So many pairs of runs.
pub fn compare(count: usize, seed: u64) -> Result<Seen, String> {
    let mut seen = Seen::default();
    for at in 0..count as u64 {
        Pair::new(seed * 1_000_003 + at).compare(&mut seen)?
    }
    if seen.joined == 0 || seen.worn == 0 || seen.serials == 0 {
        return Err(format!("nothing was spoilt, or no serial differs: {seen}"));
    }
    Ok(seen)
}
