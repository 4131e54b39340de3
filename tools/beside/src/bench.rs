//! Speed: a build by the Rust and by the proved library on the same sheets, and the library's walk beside a plain
//! walker, in one run. Each call is timed in many short batches, and the batches of what is compared take turns.
//! Of a build the least batch counts: what else the machine does at the time makes a batch longer, never shorter.
//! The walk itself is a small difference of larger times, and no way to reckon it holds quite still between runs, or
//! between builds of this tool. So it is shown in three ways (the median of the differences of one turn each, over a
//! family's walks their median; from least times and means; and beside the plain walker behind the same passes),
//! bench.sh runs it in several processes, and counts.sh counts instead.

use std::hint::black_box;
use std::time::{Duration, Instant};

use crate::families::{FAMILIES, Member, members};
use crate::oracle::Ready;
use crate::{library, plain};

/// How many batches are timed of each call.
const BATCHES: usize = 40;
const WALK_BATCHES: usize = 100;

/// How long a batch is to be; a call that is longer is a batch by itself.
const BATCH: Duration = Duration::from_micros(50);

/// A walk, after the readers' passes, is to take at most so many times what the plain walker takes.
const WALK_GOAL: f64 = 1.2;

/// Calls in a batch so that it is about as long as it is to be. The first call warms up.
fn calls(mut call: impl FnMut()) -> u32 {
    call();
    let start = Instant::now();
    call();
    let each = start.elapsed().as_nanos().max(1);
    (BATCH.as_nanos() / each).clamp(1, 10_000) as u32
}

/// The least time of a call so far, in nanoseconds.
struct Least {
    calls: u32,
    time: f64,
}

impl Least {
    fn of(call: impl FnMut()) -> Self {
        Least { calls: calls(call), time: f64::INFINITY }
    }

    fn note(&mut self, batch: Duration) {
        self.time = self.time.min(batch.as_nanos() as f64 / f64::from(self.calls));
    }
}

/// Times of a build, in nanoseconds.
struct Build {
    rust: f64,
    /// Freeing the Rust's tree, which is not in the time above.
    freeing: f64,
    library: f64,
    /// The library on an empty sheet: refused 2 once both buffers are cleared. It is in the time above too.
    clearing: f64,
    /// The library where no byte of either buffer is 0 before the call.
    full: f64,
}

/// What the library builds in.
struct Buffers {
    tree: Vec<u8>,
    work: Vec<u8>,
}

impl Buffers {
    fn new() -> Self {
        Buffers { tree: vec![0; 65536], work: vec![0; 65536] }
    }

    fn build(&mut self, sheet: &[u8]) {
        black_box(library::build(black_box(sheet), &mut self.tree, &mut self.work));
    }

    fn fill(&mut self) {
        self.tree.fill(255);
        self.work.fill(255);
        black_box(self);
    }

    /// A batch of builds, each timed by itself, as the Rust's are. One before them is not timed, on either side: it brings
    /// back into the caches what the other side's batch took from them.
    fn batch(&mut self, least: &mut Least, sheet: &[u8], full: bool) {
        let mut time = Duration::ZERO;
        self.build(sheet);
        for _ in 0..least.calls {
            if full {
                self.fill();
            }
            let start = Instant::now();
            self.build(sheet);
            time += start.elapsed();
        }
        least.note(time);
    }
}

/// A batch of builds by the Rust, behind one that is not timed, and the freeing of their trees apart.
fn rust_batch(ready: &Ready, rust: &mut Least, freeing: &mut Least) {
    let data_types = ready.data_types();
    let (mut built, mut freed) = (Duration::ZERO, Duration::ZERO);
    drop(black_box(ready.tree(&data_types)));
    for _ in 0..rust.calls {
        let start = Instant::now();
        let tree = black_box(ready.tree(&data_types));
        let end = Instant::now();
        drop(tree);
        freed += end.elapsed();
        built += end - start;
    }
    rust.note(built);
    freeing.note(freed);
}

fn build(member: &Member) -> Build {
    let ready = Ready::of(&member.checked);
    let data_types = ready.data_types();
    let mut rust = Least::of(|| {
        black_box(ready.tree(&data_types));
    });
    let [mut own, mut empty, mut filled] = std::array::from_fn(|_| Buffers::new());
    let mut library = Least::of(|| own.build(&member.sheet));
    let mut clearing = Least::of(|| empty.build(&[]));
    let mut freeing = Least { calls: rust.calls, time: f64::INFINITY };
    let mut full = Least { calls: library.calls, time: f64::INFINITY };
    for turn in 0..BATCHES {
        rust_batch(&ready, &mut rust, &mut freeing);
        // Whichever comes first has a processor that learnt the Rust's branches.
        if turn % 2 == 0 {
            own.batch(&mut library, &member.sheet, false);
            filled.batch(&mut full, &member.sheet, true);
        } else {
            filled.batch(&mut full, &member.sheet, true);
            own.batch(&mut library, &member.sheet, false);
        }
        empty.batch(&mut clearing, &[], false);
    }
    Build {
        rust: rust.time,
        freeing: freeing.time,
        library: library.time,
        clearing: clearing.time,
        full: full.time,
    }
}

/// A record that no panel has.
const NO_RECORD: u16 = u16::MAX;

// The calls whose times make up a walk.
const WHOLE: usize = 0;
/// The walk of an empty panel: refused 21 once the buffer is cleared and the tree is read.
const TREE: usize = 1;
/// The text call of a record that is not there: refused 33 once the panel is read.
const PANEL: usize = 2;
/// The text call of an empty panel: what calling costs, and turning an empty panel away.
const BARE: usize = 3;
const PLAIN: usize = 4;
const INDEXED: usize = 5;
const TRUSTING: usize = 6;
/// The plain walker where the library's walk itself stands: behind the two passes.
const BEHIND: usize = 7;
/// How many they are.
const CALLS: usize = 8;

/// Their names, as `once` is asked for them.
const WALK_CALLS: [&str; CALLS] =
    ["walk", "tree", "panel", "bare", "plain", "indexed", "trusting", "behind"];

/// Makes one of these calls. The files passed their checks and the walk ends.
#[inline(always)]
fn walk_call(call: usize, tree: &[u8], panel: &[u8], bound: &mut [u16; 576]) -> u64 {
    match call {
        WHOLE => library::walk(tree, panel, bound),
        TREE => library::walk(tree, &[], bound),
        PANEL => library::text(panel, NO_RECORD, 0),
        BARE => library::text(&[], NO_RECORD, 0),
        // SAFETY: the panel fits the sheet of the tree: the library checked both and walked to an end.
        PLAIN => unsafe { plain::asking(tree, panel, bound) },
        INDEXED => plain::indexed(tree, panel, bound),
        // SAFETY: as above.
        TRUSTING => unsafe { plain::trusting(tree, panel, bound) },
        _ => {
            black_box(library::walk(tree, &[], bound));
            black_box(library::text(panel, NO_RECORD, 0));
            // SAFETY: as above.
            unsafe { plain::asking(tree, panel, bound) }
        }
    }
}

/// Nanoseconds a call of a batch.
fn batch<const CALL: usize>(calls: u32, tree: &[u8], panel: &[u8]) -> f64 {
    let mut bound = [0; 576];
    let start = Instant::now();
    for _ in 0..calls {
        black_box(walk_call(CALL, black_box(tree), black_box(panel), black_box(&mut bound)));
    }
    start.elapsed().as_nanos() as f64 / f64::from(calls)
}

/// Times of a walk, in nanoseconds: of each call the median of its batches and the least, the walk itself, and the plain walker
/// behind the passes.
struct Walk {
    of: [f64; CALLS],
    least: [f64; CALLS],
    itself: f64,
    behind: f64,
}

/// The part of a walk that is neither clearing nor reading: see WALK_HEAD.
fn itself(times: &[f64; CALLS]) -> f64 {
    times[WHOLE] - times[TREE] - times[PANEL] + times[BARE]
}

/// The plain walker behind the same two passes.
fn behind(times: &[f64; CALLS]) -> f64 {
    times[BEHIND] - times[TREE] - times[PANEL]
}

fn walk(tree: &[u8], panel: &[u8]) -> Walk {
    let mut bound = [0; 576];
    let answer = library::walk(tree, panel, &mut bound);
    assert_eq!(library::refusal(answer), 0, "a fitting panel is walked");
    library::same_plain(tree, panel, answer, &bound).expect("the plain walkers answer alike");
    let many: [u32; CALLS] = std::array::from_fn(|call| {
        calls(|| {
            black_box(walk_call(call, tree, panel, &mut bound));
        })
    });
    let turn = |_| {
        [
            batch::<WHOLE>(many[WHOLE], tree, panel),
            batch::<TREE>(many[TREE], tree, panel),
            batch::<PANEL>(many[PANEL], tree, panel),
            batch::<BARE>(many[BARE], tree, panel),
            batch::<PLAIN>(many[PLAIN], tree, panel),
            batch::<INDEXED>(many[INDEXED], tree, panel),
            batch::<TRUSTING>(many[TRUSTING], tree, panel),
            batch::<BEHIND>(many[BEHIND], tree, panel),
        ]
    };
    let turns: Vec<[f64; CALLS]> = (0..WALK_BATCHES).map(turn).collect();
    Walk {
        of: std::array::from_fn(|call| median(turns.iter().map(|turn| turn[call]).collect())),
        least: std::array::from_fn(|call| {
            turns.iter().map(|turn| turn[call]).fold(f64::INFINITY, f64::min)
        }),
        itself: median(turns.iter().map(itself).collect()),
        behind: median(turns.iter().map(behind).collect()),
    }
}

fn mean(all: &[f64]) -> f64 {
    all.iter().sum::<f64>() / all.len() as f64
}

fn median(mut all: Vec<f64>) -> f64 {
    all.sort_by(f64::total_cmp);
    all[all.len() / 2]
}

const BUILD_HEAD: &str = "\
Builds, nanoseconds a build, the mean over a family's sheets. The Rust's time is from its typed clauses, which are made before, to its
tree; freeing that tree is apart. The library's is from the sheet's bytes, which it checks whole, to the bytes of the tree file, with
both buffers of 65,536 bytes cleared; clearing is that part of it, timed apart on an empty sheet. The buffers are as the build before
left them; the time with no byte of them 0 is behind that. Ratio: the Rust's time by the library's, of the means; then the median of the
sheets' own ratios.
family    sheets  mean nodes  the Rust  freeing  the library  clearing  ratio  median  goal  full buffers  ratio";

const WALK_HEAD: &str = "\
Walks, nanoseconds a walk; each column has its own median over a family's walks. Whole: the library's call, which clears the binding
buffer, reads the tree file and the panel file with every check, and walks. Tree: the call on an empty panel, refused 21 after the
clearing and the tree's pass. Panel: the text call of a record that is not there, refused 33 after the panel's pass. Bare: the text call
of an empty panel. The walk itself is whole - tree - panel + bare (the last, since each of the two passes has a call of its own in it),
the median over turns in which each call is timed once. Plain: a walker in Rust over the same bytes that gives the same answer, 32 with
its node and step where it is stuck, and checks nothing else; indexed: the same as safe Rust, with its checks of indexes; trusting: one
that does not ask either whether a part is there and of its kind. Ratio: the walk itself by plain, by indexed, by trusting. The next three
columns are another way to reckon: the walk itself and plain from the least batch of each call, the mean over all walks, and their ratio.
These walkers are called again and again, with nothing else between, so that a processor can learn every branch of a walk; behind two
passes it has less to go by. So the last two columns are plain right behind the same two passes (the three calls in a row - tree - panel),
and the ratio of the walk itself to that.
family     walks    whole     tree    panel  bare  itself  plain  ratio  goal  indexed  ratio  trusting  ratio  l.itself l.plain  ratio  behind  ratio";

fn show_builds(name: &str, goal: f64, members: &[Member]) {
    let times: Vec<Build> = members.iter().map(build).collect();
    let of = |part: fn(&Build) -> f64| mean(&times.iter().map(part).collect::<Vec<_>>());
    let (rust, library, full) = (of(|t| t.rust), of(|t| t.library), of(|t| t.full));
    let nodes = mean(&members.iter().map(|m| m.nodes as f64).collect::<Vec<_>>());
    println!(
        "{name:<8} {:>7} {nodes:>11.1} {rust:>9.0} {:>8.0} {library:>12.0} {:>9.0} {:>6.2} {:>7.2} {goal:>5} {full:>13.0} {:>6.2}",
        times.len(),
        of(|t| t.freeing),
        of(|t| t.clearing),
        rust / library,
        median(times.iter().map(|t| t.rust / t.library).collect()),
        rust / full,
    );
}

fn show_walks(name: &str, members: &[Member]) {
    let files = members.iter().flat_map(|m| m.panels.iter().map(|panel| (&m.tree, panel)));
    let times: Vec<Walk> = files.map(|(tree, panel)| walk(tree, panel)).collect();
    let of = |part: &dyn Fn(&Walk) -> f64| median(times.iter().map(part).collect());
    let [whole, tree, panel, bare, plain, indexed, trusting, _] =
        std::array::from_fn(|call| of(&|time| time.of[call]));
    let least: [f64; CALLS] = std::array::from_fn(|call| {
        mean(&times.iter().map(|time| time.least[call]).collect::<Vec<_>>())
    });
    println!(
        "{name:<8} {:>7} {whole:>8.0} {tree:>8.0} {panel:>8.0} {bare:>5.1} {:>7.1} {plain:>6.1} {:>6.2} {WALK_GOAL:>5} {indexed:>8.1} {:>6.2} {trusting:>9.1} {:>6.2} {:>9.1} {:>7.1} {:>6.2} {:>7.1} {:>6.2}",
        times.len(),
        of(&|time| time.itself),
        of(&|time| time.itself / time.of[PLAIN]),
        of(&|time| time.itself / time.of[INDEXED]),
        of(&|time| time.itself / time.of[TRUSTING]),
        itself(&least),
        least[PLAIN],
        itself(&least) / least[PLAIN],
        of(&|time| time.behind),
        of(&|time| time.itself / time.behind),
    );
}

/// Times the families; `again` leaves out what the columns are.
pub fn run(many: usize, seed: u64, again: bool) {
    let head = |words: &str| match again {
        true => words.lines().last().unwrap_or_default().to_string(),
        false => words.to_string(),
    };
    if !again {
        println!(
            "{many} sheets a family, seed {seed}. Batches of about {} microseconds: of a build the least of {BATCHES} counts, of a walk {WALK_BATCHES} are timed.\n",
            BATCH.as_micros()
        );
    }
    let members = members(seed, many);
    println!("{}", head(BUILD_HEAD));
    for (family, members) in FAMILIES.iter().zip(&members) {
        show_builds(family.name, family.goal, members);
    }
    println!("\n{}", head(WALK_HEAD));
    for (family, members) in FAMILIES.iter().zip(&members) {
        show_walks(family.name, members);
    }
}

/// Writes the sheets of each family into a folder of its own, with their trees and panels.
pub fn write(seed: u64, many: usize, dir: &str) -> Result<(), String> {
    for (family, members) in FAMILIES.iter().zip(members(seed, many)) {
        let dir = format!("{dir}/{}", family.name);
        let write = crate::folder(&dir)?;
        for (number, member) in members.iter().enumerate() {
            write(&format!("{number:03}.sheet"), &member.sheet)?;
            write(&format!("{number:03}.tree"), &member.tree)?;
            for (i, panel) in member.panels.iter().enumerate() {
                write(&format!("{number:03}-{i}.panel"), panel)?;
            }
        }
    }
    Ok(())
}

/// Makes one call once on each sheet, or each panel, of such a folder; answers how often. It is run where instructions
/// are counted, so it does nothing else that is of weight.
pub fn once(call: &str, dir: &str) -> Result<usize, String> {
    let mut names: Vec<String> = std::fs::read_dir(dir)
        .map_err(|e| format!("{dir}: {e}"))?
        .filter_map(|entry| entry.ok()?.file_name().into_string().ok())
        .collect();
    names.sort();
    let read = |name: &str| crate::read(&format!("{dir}/{name}"));
    let (mut tree, mut work, mut bound) = (vec![0; 65536], vec![0; 65536], [0; 576]);
    let mut times = 0;
    if call == "build" || call == "clear" {
        for name in names.iter().filter(|name| name.ends_with(".sheet")) {
            let sheet = if call == "build" { read(name)? } else { Vec::new() };
            black_box(library::build(&sheet, &mut tree, &mut work));
            times += 1;
        }
        return Ok(times);
    }
    let number = WALK_CALLS.iter().position(|known| *known == call);
    let number = number.ok_or_else(|| format!("there is no call {call}"))?;
    for name in names.iter().filter(|name| name.ends_with(".panel")) {
        let (tree, panel) = (read(&format!("{}.tree", &name[..3]))?, read(name)?);
        black_box(walk_call(number, &tree, &panel, &mut bound));
        times += 1;
    }
    Ok(times)
}
