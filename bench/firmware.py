#!/usr/bin/env python3
"""Compares the firmware of bench/firmware/, each written twice, and prints for each comparison the verdict that is
wanted and the one that came, seconds and the most seconds wanted, memory, and the conflicts of a question: 1 where the
verdict comes with one as well, else `more`. Before it compares, it runs random dialogues of the shape on both images by
`n7725 run`: where EQUAL is wanted, none may tell them apart. The dialogue of a DIFFERENT is run on both images too, and
must give what was printed. Ends with status 1 where a verdict is another or left open, or a reply is wrong; a slow
comparison is only marked. Usage: firmware.py [PROGRAM]. Wants a built program."""
import os, pathlib, random, resource, subprocess, sys, tempfile, time

TOP = pathlib.Path(__file__).resolve().parent.parent
SOURCES = TOP / "bench/firmware"
DIALOGUES = 50  # random ones of each comparison
LIMIT = 120  # seconds of the processor, after which a comparison is given up

# What it is, the two sources, the pace, the shape, further options, the verdict wanted, and the most seconds.
CASES = [
    ("product in the other order", "times_a", "times_b", 20, "WWWWRRRR", "", "EQUAL", 0.5),
    ("difference as a sum", "minus_a", "minus_b", 20, "WWWWRR", "", "EQUAL", 0.5),
    ("sum as bits and carries", "plus_a", "plus_b", 20, "WWWWRR", "", "EQUAL", 0.5),
    ("loop, lowest bit", "lowest_a", "lowest_b", 100, "WWRR", "", "EQUAL", 1),
    ("loop, twice", "lowest_a", "lowest_b", 100, "WWRRWWRR", "", "EQUAL", 1),
    ("table of 257 words", "table_a", "table_b", 60, "WWRR", "", "EQUAL", 1),
    ("table, twice", "table_a", "table_b", 60, "WWRRWWRR", "", "EQUAL", 1),
    ("normalising loop", "normal_a", "normal_b", 120, "WWRRRR", "", "EQUAL", 1),
    ("fault behind the loop", "normal_a", "normal_fault", 120, "WWRRRR", "", "DIFFERENT", 1),
    ("fault, the same loop", "normal_b", "normal_fault", 120, "WWRRRR", "", "DIFFERENT", 1),
    ("cells elsewhere", "stale_a", "stale_b", 20, "WWWRWWR", "", "EQUAL", 1),
    ("stale cell, one command", "stale_a", "stale_fault", 20, "WWWR", "", "EQUAL", 1),
    ("stale cell, two commands", "stale_a", "stale_fault", 20, "WWWRWWR", "", "DIFFERENT", 1),
    ("dispatch, one command", "dispatch_a", "dispatch_b", 50, "WWWWWRR", "", "EQUAL", 0.5),
    ("dispatch, two commands", "dispatch_a", "dispatch_b", 50, "WWWWWRRWWWWWRR", "", "EQUAL", 0.5),
    ("100 words: two words taken", "coproc_a", "coproc_b", 100, "WWWWWRR", "", "EQUAL", 5),
    ("100 words: shift", "coproc_a", "coproc_b", 100, "WWWWRR", "", "EQUAL", 5),
    ("100 words: table, recall", "coproc_a", "coproc_b", 100, "WWRR", "", "EQUAL", 5),
    ("100 words: store, recall", "coproc_a", "coproc_b", 100, "WWWWWWRR", "", "EQUAL", 5),
    ("100 words: mode, two words", "coproc_a", "coproc_b", 100, "WWWWWWWRR", "", "EQUAL", 5),
    ("100 words, fault: two words", "coproc_a", "coproc_fault", 100, "WWWWWRR", "", "EQUAL", 5),
    ("100 words, fault: mode first", "coproc_a", "coproc_fault", 100, "WWWWWWWRR", "", "DIFFERENT", 5),
    ("200 words: one word, one back", "whole_a", "whole_b", 200, "WWWRR", "points=8192", "EQUAL", 5),
    ("200 words: one word, two back", "whole_a", "whole_b", 200, "WWWRRRR", "points=8192", "EQUAL", 5),
    ("200 words: two words, one back", "whole_a", "whole_b", 200, "WWWWWRR", "points=8192", "EQUAL", 5),
]


class Bench:
    """Images in a folder, and the faults that were found."""

    def __init__(self, program, folder):
        self.program, self.folder, self.faults = program, folder, []

    def assemble(self, name):
        made = subprocess.run([self.program, "asm", SOURCES / f"{name}.asm"], capture_output=True)
        if made.returncode:
            sys.exit(f"{name}: {made.stdout.decode()}")
        (self.folder / name).write_bytes(made.stdout)

    def replies(self, name, accesses):
        """What an image answers to accesses, each given as soon as a request stands, and how the script ended."""
        script = self.folder / "script"
        script.write_text("".join(f"WAIT 8191\n{access}\n" for access in accesses))
        text = subprocess.run([self.program, "run", name, script], cwd=self.folder, capture_output=True, text=True).stdout
        return [line for line in text.splitlines() if not line.startswith("WAIT")]

    def try_dialogues(self, first, second, shape, pick):
        """Holds random dialogues on both images, with the status before and after each transfer."""
        for _ in range(DIALOGUES):
            accesses = ["S"]
            for letter in shape:
                byte = pick.randrange(pick.choice([16, 256]))  # many are commands
                accesses += ["R" if letter == "R" else f"W {byte:02X}", "S"]
            answer = self.replies(first, accesses)
            if answer[-1] != "DONE" or self.replies(second, accesses) != answer:
                self.faults.append(f"{first} and {second} differ, or fall silent: {' / '.join(accesses)}")
                return

    def replay(self, first, second, lines):
        """A printed dialogue gives its replies on both images."""
        rows = [line.split() for line in lines]
        accesses = [" ".join(row) if row[0] == "W" else row[0] for row in rows]
        for side, name in enumerate((first, second)):
            said = [" ".join(row) if row[0] == "W" else f"{row[0]} {row[1 + side]}" for row in rows]
            if self.replies(name, accesses) != said + ["DONE"]:
                self.faults.append(f"{name} doesn't answer as printed: {' / '.join(lines)}")
        if rows[-1][0] == "W" or rows[-1][1] == rows[-1][2]:
            self.faults.append(f"the last line shows no difference: {' / '.join(lines)}")

    def compare(self, words):
        """The lines, the status, the seconds and the mebibytes of one comparison; no lines where it was given up."""
        begun = time.time()
        child = subprocess.Popen([self.program, "compare", *words], cwd=self.folder, stdout=subprocess.PIPE, text=True,
            preexec_fn=lambda: resource.setrlimit(resource.RLIMIT_CPU, (LIMIT, LIMIT)))
        lines = child.stdout.read().splitlines()
        _, status, used = os.wait4(child.pid, 0)
        child.returncode = os.waitstatus_to_exitcode(status)
        return lines, child.returncode, time.time() - begun, used.ru_maxrss / 1024

    def judge(self, case, pick):
        """Tries, compares and prints one case."""
        what, first, second, pace, shape, options, wanted, most = case
        if wanted == "EQUAL":
            self.try_dialogues(first, second, shape, pick)
        words = [first, second, str(len(shape)), str(pace), f"shape={shape}", *options.split()]
        lines, status, seconds, size = self.compare(words)
        verdict = lines[0] if lines else "GIVEN UP"
        good = verdict == f"{wanted} {len(shape)} {pace}"
        good &= status == 1 if wanted == "DIFFERENT" else status == 0 and lines[1:] == ["PACE KEPT"]
        if verdict.startswith("DIFFERENT"):
            self.replay(first, second, lines[1:])
        if not good:
            self.faults.append(f"{what}, {' '.join(words)}: {' / '.join(lines) or verdict}")
        left_open = verdict.startswith(("UNKNOWN", "GIVEN UP"))
        mark = "OPEN" if left_open else "WRONG" if not good else "SLOW" if seconds > most else ""
        conflicts = "" if left_open else "1" if self.compare([*words, "conflicts=1"])[0] == lines else "more"
        print(f"{what:30} {wanted:9}  {verdict:24} {seconds:7.2f} {most:5} {size:6.0f} {conflicts:>9}  {mark:5}  {' '.join(words)}", flush=True)


def main():
    program = pathlib.Path(sys.argv[1]).resolve() if len(sys.argv) > 1 else TOP / "crates/n7725/out/n7725"
    if not program.exists():
        subprocess.run([TOP / "n7725", "demo", "0"], stdout=subprocess.DEVNULL, check=True)
    pick = random.Random(7725)
    with tempfile.TemporaryDirectory() as folder:
        bench = Bench(program, pathlib.Path(folder))
        for source in sorted(SOURCES.glob("*.asm")):
            bench.assemble(source.stem)
        print(f"{'':30} {'wanted':9}  {'got':24} {'seconds':>7} {'most':>5} {'MiB':>6} {'conflicts':>9}")
        for case in CASES:
            bench.judge(case, pick)
    for fault in bench.faults:
        print(fault)
    return 1 if bench.faults else 0


if __name__ == "__main__":
    sys.exit(main())
