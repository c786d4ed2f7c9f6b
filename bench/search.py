#!/usr/bin/env python3
"""Times the search and the checker beside minisat and cadical, in one run, on the same two formulas: a million gates
that propagation alone refutes, and two parities of 17 inputs, summed in different orders and said to differ.
Prints times, propagations a second, memory and ratios. Wants minisat and cadical, gcc, and `rt`: search.txt is the
program that makes and solves the formulas, which is proved and built in a copy of the crates that it stands on.
An argument names that program where it was built before."""
import pathlib, re, shutil, subprocess, sys, tempfile

TOP = pathlib.Path(__file__).resolve().parent.parent
GATES, INPUTS = 1000000, 17
LOW = ["wb_word", "wb_gate", "wb_derive", "wb_solve"]


def build(folder):
    for name in LOW:
        shutil.copytree(TOP / "crates" / name, folder / "crates" / name, ignore=shutil.ignore_patterns("out"))
    lines = [line for line in (TOP / "crates.txt").read_text().splitlines() if line.split(":")[0] in LOW]
    (folder / "crates.txt").write_text("\n".join(lines + ["searchbench: wb_solve wb_derive wb_gate wb_word arrayvec", ""]))
    crate = folder / "crates/searchbench"
    for part in ["src", "specs", "proofs"]:
        (crate / part).mkdir(parents=True)
    (crate / "specs/Lib.antt").touch()
    (crate / "proofs/Lib.antt").touch()
    shutil.copy(TOP / "bench/search.txt", crate / "src/main.rt")
    subprocess.run(["git", "init", "-q", folder], check=True)
    subprocess.run(["rt", "run", "--", "parity", "3", "build"], cwd=crate, check=True, stdout=subprocess.DEVNULL, stderr=subprocess.DEVNULL)
    return crate / "out/searchbench"


class Formula:
    def __init__(self, inputs):
        self.count, self.clauses = inputs, []

    def add(self, kind, *lits):
        self.count += 1
        g = self.count
        if kind == "and":
            x, y = lits
            self.clauses += [(-g, x), (-g, y), (g, -x, -y)]
        elif kind == "xor":
            x, y = lits
            self.clauses += [(-g, x, y), (-g, -x, -y), (g, -x, y), (g, x, -y)]
        elif kind == "mux":
            c, x, y = lits
            self.clauses += [(-g, -c, x), (g, -c, -x), (-g, c, y), (g, c, -y)]
        else:
            x, y, z = lits
            self.clauses += [(-g, x, y), (-g, x, z), (-g, y, z), (g, -x, -y), (g, -x, -z), (g, -y, -z)]
        return g

    def write(self, path):
        with open(path, "w") as out:
            out.write(f"p cnf {self.count} {len(self.clauses)}\n")
            out.writelines(" ".join(map(str, clause)) + " 0\n" for clause in self.clauses)


def chain(gates):
    """As `chain` of search.txt makes it."""
    formula, values, state = Formula(2), [True, True], 7725

    def earlier(shift, sign):
        var = max(0, formula.count - 1 - (state >> shift) % 64) + 1
        return -var if state >> sign & 1 else var

    def truth(lit):
        return values[abs(lit) - 1] == (lit > 0)

    for _ in range(gates):
        state = (state * 6364136223846793005 + 1442695040888963407) % 2 ** 64
        x, y, z = earlier(40, 33), earlier(48, 34), earlier(56, 35)
        a, b, d = truth(x), truth(y), truth(z)
        kind = ["and", "xor", "mux", "maj"][state >> 36 & 3]
        formula.add(kind, *([x, y] if kind in ["and", "xor"] else [x, y, z]))
        values.append({"and": a and b, "xor": a != b, "mux": b if a else d, "maj": a + b + d > 1}[kind])
    last = formula.count
    wrong = -last if truth(last) else last
    formula.clauses.append((formula.add("and", formula.add("and", 1, 2), wrong),))
    return formula


def parities(inputs):
    """As `parity` of search.txt makes it."""
    formula = Formula(inputs)
    one = two = 1
    for var in range(1, inputs):
        one = formula.add("xor", one, var + 1)
    for var in range(1, inputs):
        two = formula.add("xor", two, var * 5 % inputs + 1)
    formula.clauses.append((formula.add("xor", one, two),))
    return formula


def counted(formula):
    """Conflicts of the search, and literals that clauses made true in it, by a plain search in C."""
    with tempfile.TemporaryDirectory() as folder:
        text, program = pathlib.Path(folder) / "text", pathlib.Path(folder) / "plain"
        formula.write(text)
        subprocess.run(["gcc", "-O2", "-w", "-o", program, TOP / "bench/search.c"], check=True)
        words = subprocess.run([program, text, str(INPUTS)], check=True, stdout=subprocess.PIPE, text=True).stdout.split()
    return int(words[0]), int(words[1])


def timed(command, want):
    """The least processor time in seconds of three runs, the memory in bytes, and what was printed."""
    best = None
    for _ in range(3):
        done = subprocess.run(["/usr/bin/time", "-f", "%U %S %M", *command], stdout=subprocess.PIPE, stderr=subprocess.PIPE, text=True)
        if done.returncode != want:
            sys.exit(f"{command} ended with {done.returncode}")
        user, system, memory = done.stderr.split()[-3:]
        run = float(user) + float(system), int(memory) * 1024, done.stdout
        best = run if best is None or run[0] < best[0] else best
    return best


def main():
    with tempfile.TemporaryDirectory() as folder:
        folder = pathlib.Path(folder)
        program = pathlib.Path(sys.argv[1]) if len(sys.argv) > 1 else build(folder)
        for name, size, formula in [("chain", GATES, chain(GATES)), ("parity", INPUTS, parities(INPUTS))]:
            text = folder / name
            formula.write(text)
            made, solved, checked = (timed([program, name, str(size), action], 0) for action in ["build", "solve", "check"])
            mini, cada = timed(["minisat", text], 20), timed(["cadical", "-q", text], 20)
            ours, both = solved[0] - made[0], checked[0] - made[0]
            print(f"{name}: search {ours:.2f} s, with the check {both:.2f} s, minisat {mini[0]:.2f} s, cadical {cada[0]:.2f} s; "
                  f"search and check / minisat {both / mini[0]:.2f}")
            if name == "chain":
                print(f"{name}: {solved[1] / GATES:.0f} bytes a gate, minisat {mini[1] / GATES:.0f}")
            else:
                conflicts, propagations = counted(formula)
                theirs = float(re.search(r"propagations *: *\d+ *\((\d+)", mini[2]).group(1))
                print(f"{name}: {conflicts} conflicts, {propagations / ours / 1e6:.1f} million propagations a second, "
                      f"minisat {theirs / 1e6:.1f}; ratio {propagations / ours / theirs:.2f}; check / search {both / ours - 1:.2f}")


if __name__ == "__main__":
    main()
