#!/usr/bin/env python3
"""Builds a graph of 2,000,000 nodes, each asked for twice, and evaluates it under 16 inputs, with `wb_term` and with a
HashMap and a Vec of Rust's std, in one run; then the same for 2^24 nodes. Prints the ratios of the times, nanoseconds
for each node and the most bytes for each node. It proves the program below in a copy of the crates first, so it
runs for some minutes; wants `rt` and rustc."""
import os, pathlib, shutil, subprocess, sys, tempfile

TOP = pathlib.Path(__file__).resolve().parent.parent
CRATES = "wb_word:\nwb_term: wb_word indexmap\ngraph_bench: wb_term wb_word\n"
COUNTS, TRIES = (2_000_000, 1 << 24), 3

FILES = {
    "src/main.rt": r'''//! Builds a graph, each node asked for twice, and evaluates it under sixteen inputs. Its argument is how many nodes.
#![tactic(auto)]

ghost use Rattle.std.specs.Prelude.{◌≡◌, ◌<◌, ◌^◌, IfOk, OnOk, length};
ghost use Rattle.wb_term.specs.Terms.{HasWord, HasBit};
ghost use Rattle.wb_term.specs.Growth.{Grown};
ghost use Rattle.graph_bench.specs.Ready.{IsReady};

use std::env;
use std::io;
use std::process::ExitCode;
use std::time::Instant;
use wb_term::{BitId, BitNode, Graph, Inputs, OutOfMemory, Scratch, WordId, WordNode};
use wb_word::Rom;

#[derive(Drop)]
struct Operands {
    words: [WordId; 256],
    bits: [BitId; 16],
}

fn add_word(graph: &mut Graph, kind: u8, x: WordId, y: WordId, c: BitId) -> Result<WordId, OutOfMemory>
    requires x { HasWord graph.old x }
    requires y { HasWord graph.old y }
    requires c { HasBit graph.old c }
    requires room { length graph.old.nodes < 2 ^ 31 }
    ensures there { IfOk result (HasWord graph.new) }
    ensures grown { Grown graph.old graph.new }
{
    match kind {
        0 => graph.word(WordNode::And(x, y)),
        1 => graph.word(WordNode::Or(x, y)),
        2 => graph.word(WordNode::Xor(x, y)),
        3 => graph.word(WordNode::Sum(x, y, c)),
        4 => graph.word(WordNode::Diff(x, y, c)),
        _ => graph.word(WordNode::Ite(c, x, y)),
    }
}

/// One more node over operands that a random number picks. Every eighth is a bit.
#[tactic(auto, using(crate::proofs::Ready::with_word, crate::proofs::Ready::with_bit))]
fn grow(graph: &mut Graph, operands: &mut Operands, random: u64, at: u32) -> Result<(), OutOfMemory>
    requires ready { IsReady graph.old operands.old.words operands.old.bits }
    ensures ready { OnOk result (IsReady graph.new operands.new.words operands.new.bits) }
{
    if graph.len() >= 0x7FFF_FFFF {
        return Err(OutOfMemory);
    }
    let x = operands.words[(random >> 56) as usize];
    if at % 8 == 7 {
        let bit = graph.bit(BitNode::Pick(x, ((random >> 36) & 0xF) as u8))?;
        operands.bits[((random >> 40) & 0xF) as usize] = bit;
        return Ok(());
    }
    let y = operands.words[((random >> 48) & 0xFF) as usize];
    let c = operands.bits[((random >> 44) & 0xF) as usize];
    let word = add_word(graph, (((random >> 32) & 0xFF) % 6) as u8, x, y, c)?;
    operands.words[((random >> 24) & 0xFF) as usize] = word;
    Ok(())
}

fn first_operands(graph: &Graph, word: WordId, bit: BitId) -> Operands
    requires word { HasWord graph.now word }
    requires bit { HasBit graph.now bit }
    ensures { IsReady graph.now result.words result.bits }
{
    let _length = graph.len();
    Operands {
        words: [word; 256],
        bits: [bit; 16],
    }
}

#[tactic(auto, using(crate::proofs::Ready::word_of))]
fn picked(graph: &Graph, operands: &Operands, random: u64) -> WordId
    requires { IsReady graph.now operands.now.words operands.now.bits }
    ensures { HasWord graph.now result }
{
    operands.words[(random >> 56) as usize]
}

/// Asks for the nodes of a sequence that is the same each time. Gives the last.
fn pass(graph: &mut Graph, count: u32) -> Result<WordId, OutOfMemory>
    ensures { IfOk result (HasWord graph.new) }
{
    if graph.len() >= 0x7FFF_FFFE {
        return Err(OutOfMemory);
    }
    let word = graph.word(WordNode::Byte(0))?;
    let bit = graph.bit(BitNode::Pick(word, 0))?;
    let mut operands = first_operands(graph, word, bit);
    let mut random: u64 = 7725;
    for at in 0..count {
        random = random.wrapping_mul(6364136223846793005).wrapping_add(1442695040888963407);
        grow(graph, &mut operands, random, at)?;
    }
    if graph.len() >= 0x7FFF_FFFF {
        return Err(OutOfMemory);
    }
    let last = picked(graph, &operands, random);
    graph.word(WordNode::Not(last))
}

#[derive(Drop)]
enum Fault {
    Memory,
    Clock,
    Words,
}

impl From<OutOfMemory> for Fault {
    fn from(_: OutOfMemory) -> Self {
        Fault::Memory
    }
}

impl From<io::Error> for Fault {
    fn from(_: io::Error) -> Self {
        Fault::Clock
    }
}

/// The first argument as a number.
fn count_of(rt: &HostRuntime) -> Result<u32, Fault> {
    let mut words = env::args(rt)?.skip(1);
    let Some(word) = words.next() else {
        return Err(Fault::Words);
    };
    match word.parse::<u32>() {
        Ok(count) => Ok(count),
        Err(_) => Err(Fault::Words),
    }
}

/// Evaluates the last node under sixteen inputs, and so all nodes.
fn evaluate(rt: &HostRuntime, graph: &Graph, last: WordId) -> Result<u32, OutOfMemory>
    requires { HasWord graph.now last }
{
    let _node = graph.word_at(last);
    let mut scratch = Scratch::for_graph(rt.alloc(), graph)?;
    let mut sum = 0u32;
    for byte in 0..16u8 {
        let inputs = Inputs::new(rt.alloc(), &[byte; 16], &[7; 256])?;
        sum = sum.wrapping_add(u32::from(graph.value_word(last, &inputs, &mut scratch)));
    }
    Ok(sum)
}

fn run(rt: &HostRuntime) -> Result<(), Fault> {
    let count = count_of(rt)?;
    let first = Rom::zero(rt.alloc())?;
    let second = Rom::zero(rt.alloc())?;
    let mut graph = Graph::new(rt.alloc(), &first, &second)?;
    let start = Instant::now(rt)?;
    pass(&mut graph, count)?;
    let last = pass(&mut graph, count)?;
    let built = start.elapsed(rt)?;
    let start = Instant::now(rt)?;
    let sum = evaluate(rt, &graph, last)?;
    let evaluated = start.elapsed(rt)?;
    println!(rt; "{} {} {} {sum}", graph.len(), built.as_micros(), evaluated.as_micros())?;
    Ok(())
}

fn main(rt: HostRuntime) -> ExitCode {
    match run(&rt) {
        Ok(()) => ExitCode::SUCCESS,
        Err(_) => ExitCode::FAILURE,
    }
}
''',
    "specs/Lib.antt": r'''pub mod Ready
''',
    "specs/Ready.antt": r'''-- Operands that are nodes of a graph.
use Rattle.std.specs.Prelude.{List}
use Rattle.std.specs.List.{All}
use Rattle.wb_term.specs.declared.nodes.WordId.{WordId}
use Rattle.wb_term.specs.declared.nodes.BitId.{BitId}
use Rattle.wb_term.specs.Terms.{Terms, HasWord, HasBit}

pub record IsReady (g : Terms) (words : List WordId) (bits : List BitId) : Type 0 where
  pub there : All (HasWord g) words
  pub known : All (HasBit g) bits
''',
    "proofs/Lib.antt": r'''pub mod Ready
''',
    "proofs/Ready.antt": r'''-- Operands in a graph that grows.
use Rattle.std.proofs.Common.{ℕ, ◌<◌, List, set, get_or, length, replicate}
use Rattle.std.specs.List.{All}
use Rattle.std.proofs.lemmas.List.Elements.{All-set, All-get_or, All-from_get_or, All-replicate}
use Rattle.wb_term.specs.declared.nodes.WordId.{WordId}
use Rattle.wb_term.specs.declared.nodes.BitId.{BitId}
use Rattle.wb_term.specs.Terms.{Terms, HasWord, HasBit}
use Rattle.wb_term.specs.Growth.{Grown}
use Rattle.graph_bench.specs.Ready.{IsReady}

words_kept : (g h : Terms) → Grown g h → (ws : List WordId) → All (HasWord g) ws → All (HasWord h) ws
words_kept g h grown ws all = All-from_get_or (HasWord h) ws (record { number = 0 }) (λ i within. grown.words _ (All-get_or (HasWord g) ws i (record { number = 0 }) within all))

bits_kept : (g h : Terms) → Grown g h → (bs : List BitId) → All (HasBit g) bs → All (HasBit h) bs
bits_kept g h grown bs all = All-from_get_or (HasBit h) bs (record { number = 0 }) (λ i within. grown.bits _ (All-get_or (HasBit g) bs i (record { number = 0 }) within all))

pub with_word : (g h : Terms) (ws : List WordId) (bs : List BitId) (i : ℕ) (w : WordId) → IsReady g ws bs → Grown g h → HasWord h w → IsReady h (set ws i w) bs
with_word g h ws bs i w ready grown there = record {
  there = All-set (HasWord h) ws i w there (words_kept g h grown ws ready.there);
  known = bits_kept g h grown bs ready.known;
}

pub with_bit : (g h : Terms) (ws : List WordId) (bs : List BitId) (i : ℕ) (c : BitId) → IsReady g ws bs → Grown g h → HasBit h c → IsReady h ws (set bs i c)
with_bit g h ws bs i c ready grown there = record {
  there = words_kept g h grown ws ready.there;
  known = All-set (HasBit h) bs i c there (bits_kept g h grown bs ready.known);
}

pub at_first : (g : Terms) (w : WordId) (c : BitId) (m n : ℕ) → HasWord g w → HasBit g c → IsReady g (replicate m w) (replicate n c)
at_first g w c m n there known = record {
  there = All-replicate (HasWord g) m w there;
  known = All-replicate (HasBit g) n c known;
}

pub word_of : (g : Terms) (ws : List WordId) (bs : List BitId) (i : ℕ) → IsReady g ws bs → i < length ws → HasWord g (get_or ws i (record { number = 0 }))
word_of g ws bs i ready within = All-get_or (HasWord g) ws i (record { number = 0 }) within ready.there
''',
    "proofs/pass/Invariants.antt": r'''use Rattle.graph_bench.specs.Ready.{IsReady}
use Rattle.graph_bench.proofs.pass.Given as goal

abbrev pub invariant-loop-at : goal.invariant-loop-at
invariant-loop-at l = IsReady l.graph l.operands.words l.operands.bits
''',
    "proofs/evaluate/Invariants.antt": r'''use Rattle.std.proofs.Common.{◌≡◌, length}
use Rattle.graph_bench.proofs.evaluate.Given as goal

abbrev pub invariant-loop-byte : goal.invariant-loop-byte
invariant-loop-byte l = length l.scratch ≡ length l.graph.nodes
''',
    "proofs/first_operands/Answers.antt": r'''use Rattle.graph_bench.proofs.Ready.{at_first}
use Rattle.graph_bench.proofs.first_operands.Goals as goal

pub returns : goal.returns
returns c = at_first c.args.graph.now c.args.word c.args.bit 256 16 c.requires.word c.requires.bit
''',
}


def built_program(folder):
    """The proved program, in a repository of its own."""
    for name in ("wb_word", "wb_term"):
        shutil.copytree(TOP / "crates" / name, folder / "crates" / name)
    crate = folder / "crates" / "graph_bench"
    for name, text in FILES.items():
        (crate / name).parent.mkdir(parents=True, exist_ok=True)
        (crate / name).write_text(text)
    (folder / "crates.txt").write_text(CRATES)
    subprocess.run(["rt", "run", "--", "0"], cwd=crate, check=True, stdout=subprocess.DEVNULL, stderr=subprocess.DEVNULL)
    return crate / "out" / "graph_bench"


def measured(program, count):
    """The nodes, the microseconds of building and of evaluating, the sum of the values, and the most bytes."""
    process = subprocess.Popen([program, str(count)], stdout=subprocess.PIPE, text=True)
    numbers = [int(word) for word in process.stdout.read().split()]
    _, status, usage = os.wait4(process.pid, 0)
    if status or len(numbers) != 4:
        sys.exit(f"{program} failed")
    return *numbers, usage.ru_maxrss * 1024


def best(runs):
    return min(run[1] for run in runs), min(run[2] for run in runs)


def main():
    with tempfile.TemporaryDirectory() as folder:
        folder = pathlib.Path(folder)
        ours, plain = built_program(folder), folder / "plain"
        subprocess.run(["rustc", "-O", "-o", plain, TOP / "bench/graph.rs"], check=True)
        for count in COUNTS:
            pairs = [(measured(ours, count), measured(plain, count)) for _ in range(TRIES)]
            if any(one[0] != other[0] or one[3] != other[3] for one, other in pairs):
                sys.exit("the graphs differ")
            mine, theirs = [pair[0] for pair in pairs], [pair[1] for pair in pairs]
            (build, evaluate), (plain_build, plain_evaluate) = best(mine), best(theirs)
            nodes = mine[0][0]
            print(f"{nodes} nodes: building {1000 * build / nodes:.0f} ns a node, ratio {build / plain_build:.2f}; "
                  f"evaluating {1000 * evaluate / nodes / 16:.1f} ns, ratio {evaluate / plain_evaluate:.2f}; "
                  f"at most {mine[0][4] / nodes:.0f} bytes a node")


if __name__ == "__main__":
    sys.exit(main())
