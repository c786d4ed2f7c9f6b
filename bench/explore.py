#!/usr/bin/env python3
"""Explores programs from power-up with `wb_explore`, and prints points a second, and nodes and bytes for each point:
ECHO over `WR` again and again, with what twice the transfers cost; both images of a demo pair; and 200 instructions
with ten branches on two written bytes between two requests. Tells how often the solver was asked, which is never where
nothing forks. It proves the program below in a copy of the crates first, so from nothing it runs for many minutes;
wants `rt`."""
import pathlib, shutil, subprocess, sys, tempfile, time

TOP = pathlib.Path(__file__).resolve().parent.parent
BENCH = "explore_bench: wb_explored wb_explore wb_query wb_port wb_rom wb_term wb_word\n"
TRIES, MOST = 3, 20_000

SOURCE = r'''//! Explores one side of a program, with so many points at most. Its arguments are tries, the pace, the points, how many
//! transfers, each of which is 0 for a read or 1 for a write, and the words of the program.
#![tactic(auto)]

ghost use Rattle.std.specs.Prelude.{◌≡◌, ◌≤◌, IfOk, length};

use std::alloc::Global;
use std::process::ExitCode;
use std::time::Instant;
use std::{env, io};
use wb_explore::{Budget, ExploreFault};
use wb_explored::{Counting, Explored, Setting, explore};
use wb_port::{Kind, Power};
use wb_query::SolverOracle;
use wb_rom::Image;
use wb_word::Side;

const CONFLICTS: u64 = 100_000;

#[derive(Drop)]
enum Fault {
    Memory,
    Clock,
    Words,
    Explored,
}

impl From<io::Error> for Fault {
    fn from(_: io::Error) -> Self {
        Fault::Clock
    }
}

impl From<ExploreFault> for Fault {
    fn from(_: ExploreFault) -> Self {
        Fault::Explored
    }
}

/// The image of a program's words.
fn image_of(alloc: Global, words: &[u64]) -> Result<Image, Fault> {
    let mut bytes = Vec::new(alloc);
    for word in words {
        bytes
            .extend_from_slice(&word.to_le_bytes()[..3])
            .map_err(|_| Fault::Memory)?;
    }
    bytes.resize(8192, 0).map_err(|_| Fault::Memory)?;
    Image::from_bytes(alloc, &bytes).map_err(|_| Fault::Words)
}

/// The arguments as numbers.
fn numbers(rt: &HostRuntime) -> Result<Vec<u64>, Fault> {
    let mut numbers = Vec::new(rt.alloc());
    for word in env::args(rt)?.skip(1) {
        let Ok(number) = word.parse::<u64>() else {
            return Err(Fault::Words);
        };
        numbers.push(number).map_err(|_| Fault::Memory)?;
    }
    Ok(numbers)
}

/// The kinds of the transfers.
fn kinds_of(alloc: Global, numbers: &[u64]) -> Result<Vec<Kind>, Fault> {
    let mut kinds = Vec::new(alloc);
    for number in numbers {
        let kind = if *number == 0 {
            Kind::Read
        } else {
            Kind::Write
        };
        kinds.push(kind).map_err(|_| Fault::Memory)?;
    }
    Ok(kinds)
}

/// What is explored, where the pace and the points are such as may be.
fn setting_of(pace: u64, points: u64) -> Result<Setting, Fault>
    ensures paced { IfOk result (λ s. 1 ≤ s.pace) }
    ensures some { IfOk result (λ s. 1 ≤ s.budget.points) }
    ensures most { IfOk result (λ s. s.budget.points ≤ 8192) }
    ensures conflicts { IfOk result (λ s. s.budget.conflicts ≡ 100000) }
{
    let (Ok(pace), Ok(points)) = (u16::try_from(pace), u32::try_from(points)) else {
        return Err(Fault::Words);
    };
    if pace == 0 || points == 0 || points > 8192 {
        return Err(Fault::Words);
    }
    Ok(Setting {
        side: Side::A,
        pace,
        power: Power::Zero,
        budget: Budget {
            points,
            conflicts: CONFLICTS,
        },
    })
}

/// One exploration: how often the solver was asked, and what was found.
fn once(
    alloc: Global,
    image: &Image,
    setting: Setting,
    kinds: &[Kind],
) -> Result<(u64, Explored), Fault>
    requires paced { 1 ≤ setting.pace }
    requires some { 1 ≤ setting.budget.points }
    requires most { setting.budget.points ≤ 8192 }
    requires conflicts { setting.budget.conflicts ≡ 100000 }
{
    if kinds.len() > 16 {
        return Err(Fault::Words);
    }
    let mut oracle = Counting::new(SolverOracle::new(CONFLICTS));
    let explored = explore(alloc, image, setting, kinds, &mut oracle)?;
    Ok((oracle.asked(), explored))
}

/// Prints points, nodes, request states and questions of one exploration, and the microseconds of all.
fn timed(
    rt: &HostRuntime,
    tries: u64,
    image: &Image,
    setting: Setting,
    kinds: &[Kind],
) -> Result<(), Fault>
    requires paced { 1 ≤ setting.pace }
    requires some { 1 ≤ setting.budget.points }
    requires most { setting.budget.points ≤ 8192 }
    requires conflicts { setting.budget.conflicts ≡ 100000 }
{
    let mut counts = (0, 0, 0, 0);
    let start = Instant::now(rt)?;
    for _ in 0..tries {
        let (asked, found) = once(rt.alloc(), image, setting, kinds)?;
        counts = (
            found.purse.points().len(),
            found.graph.len(),
            found.layer.len(),
            asked,
        );
    }
    let taken = start.elapsed(rt)?;
    let (points, nodes, requests, asked) = counts;
    println!(rt; "{points} {nodes} {requests} {asked} {}", taken.as_micros())?;
    Ok(())
}

fn run(rt: &HostRuntime) -> Result<(), Fault> {
    let numbers = numbers(rt)?;
    let [tries, pace, points, transfers, rest @ ..] = numbers.as_slice() else {
        return Err(Fault::Words);
    };
    let Ok(transfers) = usize::try_from(*transfers) else {
        return Err(Fault::Words);
    };
    if transfers > rest.len() {
        return Err(Fault::Words);
    }
    let (kinds, words) = rest.split_at(transfers);
    let image = image_of(rt.alloc(), words)?;
    let kinds = kinds_of(rt.alloc(), kinds)?;
    timed(
        rt,
        *tries,
        &image,
        setting_of(*pace, *points)?,
        kinds.as_slice(),
    )
}

fn main(rt: HostRuntime) -> ExitCode {
    match run(&rt) {
        Ok(()) => ExitCode::SUCCESS,
        Err(_) => ExitCode::FAILURE,
    }
}
'''

FILES = {"proofs/Lib.antt": "", "specs/Lib.antt": "", "src/main.rt": SOURCE}

ECHO = [0xC10007, 0x000080, 0x97C008, 0x000091, 0x000016, 0x97C014, 0xA00004]


def demo_words(number, slow):
    """One image of the demo pair of a number; the slow one has a word that does nothing after each odd body word."""
    words = [0xC10007, 0x000026, 0x97C008, 0x000091]
    sources, targets = (1, 2, 3, 0, 13, 14, 7, 5), (0, 3, 14, 10, 13, 0, 0, 1)
    for place in range(1, 65):
        number = (number * 6364136223846793005 + 1442695040888963407) % 2**64
        bits = number >> 40
        words.append(1 << 20 | (bits & 15) << 16 | (bits >> 4 & 1) << 15 | sources[bits >> 5 & 7] << 4 | targets[bits >> 8 & 7])
        if slow and place % 2:
            words.append(0)
    return words + [0x138010, 0xA00004]


def branches():
    """Two written bytes come to A. Ten times a bit of it is shifted out and the next word is left out where it is 0,
    with words between that count in RAM; there are 200 words from the first request to the second."""
    words = [0x000080, 0x97C004, 0x000091]
    while len(words) < 198:
        part = len(words) % 20
        if part == 3:
            words += [0x0B0000, 0x900000 | (len(words) + 3) << 2, 0x098000]
        else:
            words.append((0x098000, 0x00002F, 0x0000F2)[part % 3])
    return words + [0x000016, 0x97C000 | (len(words) + 1) << 2, 0xA00000 | (len(words) + 1) << 2]


def closure(names, lines):
    """The crates with all those below them."""
    below = {line.split(":")[0]: line.split(":")[1].split() for line in lines}
    found, wanted = set(), list(names)
    while wanted:
        name = wanted.pop()
        if name in below and name not in found:
            found.add(name)
            wanted += below[name]
    return found


def built_program(folder):
    """The proved program, in a repository of its own."""
    lines = [line for line in (TOP / "crates.txt").read_text().splitlines(keepends=True) if ":" in line and line[0] != "#"]
    names = closure(["wb_explored"], lines)
    for name in names:
        shutil.copytree(TOP / "crates" / name, folder / "crates" / name)
    crate = folder / "crates" / "explore_bench"
    for name, text in FILES.items():
        (crate / name).parent.mkdir(parents=True, exist_ok=True)
        (crate / name).write_text(text)
    (folder / "crates.txt").write_text("".join(line for line in lines if line.split(":")[0] in names) + BENCH)
    subprocess.run(["rt", "run", "--", "0", "1", "1", "0"], cwd=crate, check=True, stdout=subprocess.DEVNULL, stderr=subprocess.DEVNULL)
    return crate / "out" / "explore_bench"


def explored(program, tries, pace, kinds, words):
    """Points, nodes, request states, questions, seconds of one exploration, and the most bytes that the program held."""
    numbers = [tries, pace, 8192, len(kinds), *("RW".index(kind) for kind in kinds), *words]
    child, held = subprocess.Popen([program, *map(str, numbers)], stdout=subprocess.PIPE, text=True), 0
    while child.poll() is None:
        held = max(held, peak(child.pid))
        time.sleep(0.005)
    assert child.returncode == 0
    points, nodes, requests, asked, micros = map(int, child.stdout.read().split())
    return points, nodes, requests, asked, micros / 1e6 / tries, held


def peak(number):
    """The most bytes that a process has held so far, or 0 where it is at its end."""
    try:
        text = pathlib.Path(f"/proc/{number}/status").read_text()
    except OSError:
        return 0
    return sum(int(line.split()[1]) * 1024 for line in text.splitlines() if line.startswith("VmHWM:"))


def best(program, tries, pace, kinds, words):
    """The fastest of some runs, with the most that one of them held."""
    runs = [explored(program, tries, pace, kinds, words) for _ in range(TRIES)]
    return *min(runs, key=lambda run: run[4])[:5], max(run[5] for run in runs)


def told(name, run, idle):
    points, nodes, requests, asked, seconds, held = run
    print(f"{name}: {points} points in {seconds * 1e3:.2f} ms, {points / seconds:.0f} a second; {nodes / points:.1f} nodes "
          f"and {(held - idle) / points:.0f} bytes a point; {requests} request states; asked {asked} times")


def main():
    slow = False
    with tempfile.TemporaryDirectory() as folder:
        program = sys.argv[1] if len(sys.argv) > 1 else built_program(pathlib.Path(folder))
        idle = best(program, 20_000, 1, "", [])[5]
        last = None
        for repeats in (1, 2, 4, 8):
            run = best(program, 4000, 4, "WR" * repeats, ECHO)
            told(f"ECHO, {2 * repeats} transfers", run, idle)
            slow |= run[3] > 0 or run[5] - idle > MOST * run[0]
            if last:
                print(f"  twice the transfers: {run[0] / last[0]:.2f} times the points, {run[4] / last[4]:.2f} times the time")
            last = run
        for side in range(2):
            run = best(program, 400, 101, "WRWR", demo_words(7, side == 1))
            told(f"demo pair, side {'AB'[side]}", run, idle)
            slow |= run[3] > 0 or run[5] - idle > MOST * run[0]
        run = best(program, 30, 260, "WW", branches())
        told("200 words with ten branches", run, idle)
        slow |= run[5] - idle > MOST * run[0]
    sys.exit(slow)


if __name__ == "__main__":
    main()
