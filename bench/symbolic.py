#!/usr/bin/env python3
"""Executes two programs symbolically with `wb_symstep`, beside a plain C interpreter of the chip, in one run: the first
image of a demo pair, whose body of 64 words runs straight through after each of 4 bytes, and a loop that stores at an
address that is a byte and counts on. Prints instructions a second of both, the ratio, and the nodes that an
instruction adds. It proves the program below in a copy of the crates first, so from nothing it runs for many minutes;
wants `rt` and gcc."""
import pathlib, shutil, subprocess, sys, tempfile, time

TOP = pathlib.Path(__file__).resolve().parent.parent
NAMES = ("wb_word", "wb_rom", "wb_alu", "wb_machine", "wb_port", "wb_term", "wb_known", "wb_make", "wb_fold", "wb_symstep", "wb_symport")
BENCH = "symbolic_bench: wb_symport wb_symstep wb_port wb_fold wb_make wb_term wb_machine wb_alu wb_rom wb_word\n"
PLAIN_COUNT, TRIES = 50_000_000, 3

FILES = {
    "proofs/Lib.antt": r'''''',
    "proofs/follow/Invariants.antt": r'''use Rattle.std.proofs.Common.{◌≡◌}
use Rattle.wb_symstep.specs.State.{IsSymState}
use Rattle.symbolic_bench.proofs.follow.Given as goal

abbrev pub invariant-loop : goal.invariant-loop
invariant-loop l = IsSymState l.graph l.state × (l.graph.tables.first ≡ l.image.drom)
''',
    "proofs/run_once/Invariants.antt": r'''use Rattle.std.proofs.Common.{◌≡◌}
use Rattle.wb_symstep.specs.State.{IsSymState}
use Rattle.symbolic_bench.proofs.run_once.Given as goal

abbrev pub invariant-loop-place : goal.invariant-loop-place
invariant-loop-place l = IsSymState l.graph l.state × (l.graph.tables.first ≡ l.image.drom)
''',
    "specs/Lib.antt": r'''''',
    "src/main.rt": r'''//! Executes a program symbolically from power-up. Its arguments are instructions before the first write, instructions
//! after each write, how many writes, how often all of this, and the words of the program.
#![tactic(auto)]

ghost use Rattle.std.specs.Prelude.{◌≡◌, ◌≤◌, IfOk, length};
ghost use Rattle.wb_term.specs.Terms.{Terms};
ghost use Rattle.wb_symstep.specs.State.{IsSymState};
ghost use Rattle.wb_symstep.specs.Stepped.{IsStepped};

use std::alloc::Global;
use std::process::ExitCode;
use std::time::Instant;
use std::{env, io};
use wb_rom::Image;
use wb_symport::sym_write;
use wb_symstep::{OutOfMemory, Stepped, SymState, sym_step};
use wb_term::Graph;
use wb_word::Side;

#[derive(Drop)]
enum Fault {
    Memory,
    Clock,
    Words,
    Fork,
}

impl From<OutOfMemory> for Fault {
    fn from(_: OutOfMemory) -> Self {
        Fault::Memory
    }
}

impl From<io::Error> for Fault {
    fn from(_: io::Error) -> Self {
        Fault::Clock
    }
}

/// The one state that comes of a state.
fn only(stepped: Stepped) -> Result<SymState, Fault>
    ensures { IfOk result (λ s. (g : Terms) → IsStepped g stepped → IsSymState g s) }
{
    match stepped {
        Stepped::One(state) => Ok(state),
        Stepped::Fork { .. } => Err(Fault::Fork),
    }
}

/// An instruction that doesn't fork.
fn step(
    graph: &mut Graph,
    alloc: Global,
    image: &Image,
    state: &SymState,
) -> Result<SymState, Fault>
    requires state { IsSymState graph.old state.now }
    requires words { graph.old.tables.first ≡ image.now.drom }
    ensures state { IfOk result (IsSymState graph.new) }
    ensures words { graph.new.tables.first ≡ image.now.drom }
{
    if graph.len() > 1 << 30 {
        return Err(Fault::Memory);
    }
    only(sym_step(graph, alloc, image, Side::A, state)?)
}

/// A write of the byte of a place that doesn't fork.
fn write(graph: &mut Graph, state: &SymState, place: u8) -> Result<SymState, Fault>
    requires state { IsSymState graph.old state.now }
    ensures state { IfOk result (IsSymState graph.new) }
    ensures words { graph.new.tables ≡ graph.old.tables }
{
    if graph.len() > 1 << 30 || place > 15 {
        return Err(Fault::Memory);
    }
    only(sym_write(graph, state, place)?)
}

/// So many instructions that don't fork.
fn follow(
    graph: &mut Graph,
    alloc: Global,
    image: &Image,
    state: SymState,
    count: u64,
) -> Result<SymState, Fault>
    requires state { IsSymState graph.old state }
    requires words { graph.old.tables.first ≡ image.now.drom }
    ensures state { IfOk result (IsSymState graph.new) }
    ensures words { graph.new.tables.first ≡ image.now.drom }
{
    let mut state = state;
    for _ in 0..count {
        state = step(graph, alloc, image, &state)?;
    }
    Ok(state)
}

/// Instructions before the first write, instructions after each write, writes, and how often all of this.
#[derive(Clone, Copy)]
struct Plan {
    first: u64,
    then: u64,
    writes: u8,
    tries: u64,
}

/// Power-up, instructions, and each write with its instructions.
fn run_once(graph: &mut Graph, alloc: Global, image: &Image, plan: Plan) -> Result<(), Fault>
    requires short { length graph.old.nodes ≤ 1000 }
    requires words { graph.old.tables.first ≡ image.now.drom }
{
    let state = SymState::reset(graph, alloc)?;
    let mut state = follow(graph, alloc, image, state, plan.first)?;
    for place in 0..plan.writes {
        let written = write(graph, &state, place)?;
        state = follow(graph, alloc, image, written, plan.then)?;
    }
    Ok(())
}

/// The image of a program's words.
fn image_of(alloc: Global, words: &[u32]) -> Result<Image, Fault> {
    let mut bytes = Vec::new(alloc);
    for word in words {
        bytes
            .extend_from_slice(&word.to_le_bytes()[..3])
            .map_err(|_| Fault::Memory)?;
    }
    bytes.resize(8192, 0).map_err(|_| Fault::Memory)?;
    Image::from_bytes(alloc, &bytes).map_err(|_| Fault::Words)
}

/// The arguments as numbers.
fn numbers(rt: &HostRuntime) -> Result<Vec<u64>, Fault> {
    let mut numbers = Vec::new(rt.alloc());
    for word in env::args(rt)?.skip(1) {
        let Ok(number) = word.parse::<u64>() else {
            return Err(Fault::Words);
        };
        numbers.push(number).map_err(|_| Fault::Memory)?;
    }
    Ok(numbers)
}

fn program(alloc: Global, numbers: &[u64]) -> Result<Vec<u32>, Fault> {
    let mut words = Vec::new(alloc);
    for number in numbers {
        let Ok(word) = u32::try_from(*number) else {
            return Err(Fault::Words);
        };
        words.push(word).map_err(|_| Fault::Memory)?;
    }
    Ok(words)
}

/// Prints how many nodes there are after one try, and the microseconds of all.
fn timed(rt: &HostRuntime, plan: Plan, words: &[u64]) -> Result<(), Fault> {
    let words = program(rt.alloc(), words)?;
    let image = image_of(rt.alloc(), &words)?;
    let mut nodes = 0;
    let start = Instant::now(rt)?;
    for _ in 0..plan.tries {
        let mut graph = Graph::new(rt.alloc(), &image.drom, &image.drom)?;
        run_once(&mut graph, rt.alloc(), &image, plan)?;
        nodes = graph.len();
    }
    let taken = start.elapsed(rt)?;
    println!(rt; "{nodes} {}", taken.as_micros())?;
    Ok(())
}

fn run(rt: &HostRuntime) -> Result<(), Fault> {
    let numbers = numbers(rt)?;
    let [first, then, writes, tries, words @ ..] = numbers.as_slice() else {
        return Err(Fault::Words);
    };
    let Ok(writes) = u8::try_from(*writes) else {
        return Err(Fault::Words);
    };
    let plan = Plan {
        first: *first,
        then: *then,
        writes,
        tries: *tries,
    };
    timed(rt, plan, words)
}

fn main(rt: HostRuntime) -> ExitCode {
    match run(&rt) {
        Ok(()) => ExitCode::SUCCESS,
        Err(_) => ExitCode::FAILURE,
    }
}
''',
}


def demo_words(number):
    """The first image of the demo pair of a number."""
    words = [0xC10007, 0x000026, 0x97C008, 0x000091]
    sources, targets = (1, 2, 3, 0, 13, 14, 7, 5), (0, 3, 14, 10, 13, 0, 0, 1)
    for _ in range(64):
        number = (number * 6364136223846793005 + 1442695040888963407) % 2**64
        bits = number >> 40
        words.append(1 << 20 | (bits & 15) << 16 | (bits >> 4 & 1) << 15 | sources[bits >> 5 & 7] << 4 | targets[bits >> 8 & 7])
    return words + [0x138010, 0xA00004]


# A byte comes to A. Then without end: DP takes A, A counts on, the RAM at DP takes B, and B adds that entry.
STORES = [0xC10007, 0x000080, 0x97C008, 0x000091, 0x090014, 0x00002F, 0x058000, 0xA00010]

# A name, the words, and how many instructions come before the first write and after each one, writes and repeats.
# A round of the demo is one poll, one move from DR, the body, two words, and the word that asks again.
CASES = (
    ("body", demo_words(7), (2, 69, 4, 200)),
    ("stores", STORES, (2, 2002, 1, 1)),
)


def built_program(folder):
    """The proved program, in a repository of its own."""
    for name in NAMES:
        shutil.copytree(TOP / "crates" / name, folder / "crates" / name)
    crate = folder / "crates" / "symbolic_bench"
    for name, text in FILES.items():
        (crate / name).parent.mkdir(parents=True, exist_ok=True)
        (crate / name).write_text(text)
    lines = (TOP / "crates.txt").read_text().splitlines(keepends=True)
    below = [line for line in lines if line.split(":")[0] in NAMES]
    (folder / "crates.txt").write_text("".join(below) + BENCH)
    subprocess.run(["rt", "run", "--", "0", "0", "0", "0"], cwd=crate, check=True, stdout=subprocess.DEVNULL, stderr=subprocess.DEVNULL)
    return crate / "out" / "symbolic_bench"


def symbolic(program, words, plan):
    """Instructions, the nodes after one try, and the seconds of all tries."""
    first, then, writes, tries = plan
    output = subprocess.run([program, *map(str, plan), *map(str, words)], check=True, capture_output=True, text=True).stdout
    nodes, micros = map(int, output.split())
    return first + then * writes, nodes, micros / 1e6


def plain(program, folder, words):
    """The seconds of many instructions of the same words, but with nothing in place of the word that waits."""
    image = folder / "plain.rom"
    data = b"".join((0 if word == 0x97C008 else word).to_bytes(3, "little") for word in words)
    image.write_bytes(data.ljust(8192, b"\0"))
    start = time.perf_counter()
    subprocess.run([program, image, str(PLAIN_COUNT)], check=True, stdout=subprocess.DEVNULL)
    return time.perf_counter() - start


def main():
    with tempfile.TemporaryDirectory() as folder:
        folder = pathlib.Path(folder)
        ours, other = built_program(folder), folder / "plain"
        subprocess.run(["gcc", "-O2", "-o", other, TOP / "bench/plain.c"], check=True)
        for name, words, plan in CASES:
            runs = [(symbolic(ours, words, plan), plain(other, folder, words)) for _ in range(TRIES)]
            (steps, nodes, _), _ = runs[0]
            mine = steps * plan[3] / min(run[0][2] for run in runs)
            theirs = PLAIN_COUNT / min(run[1] for run in runs)
            print(f"{name}: {mine:.0f} symbolic instructions a second, {nodes / steps:.1f} nodes each; "
                  f"plain {theirs / 1e6:.1f} million a second, ratio {theirs / mine:.0f}")


if __name__ == "__main__":
    sys.exit(main())
