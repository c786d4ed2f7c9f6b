#!/usr/bin/env python3
"""Hands derivations of the search to a checker of another make. For formulas of the kinds of bench/search.py it writes
the formula as DIMACS and the derivation as LRAT text, in which the clauses of the formula have the numbers from 1 on
and the steps those after them. The checker is `cake_lpr` or `lrat-check`, where one is installed, and else a small
one below, which knows nothing of gates; the first line says which. A derivation of which a hint was changed must be
refused. An argument names the program of bench/search.txt where it was built before; else it wants `rt`, which proves
and builds it in a copy of the crates that it stands on."""
import pathlib, shutil, subprocess, sys, tempfile

import search

KINDS = [("chain", 1000), ("chain", 100000), ("parity", 3), ("parity", 8), ("parity", 11)]


def refuted(clauses, clause, hints):
    """Whether the hints refute a clause: each is unit when its turn comes, and the last one is falsified."""
    true = {-lit for lit in clause}
    for place, hint in enumerate(hints):
        if hint not in clauses:
            return False
        left = {lit for lit in clauses[hint] if -lit not in true}
        if not left:
            return place + 1 == len(hints)
        if len(left) > 1:
            return False
        true |= left
    return False


def plain_check(text, proof):
    """The checker of this file: each step is refuted by its hints, and one is the empty clause."""
    lines = [line.split() for line in text.read_text().splitlines() if line[0] not in "pc"]
    clauses = {number: set(map(int, words[:-1])) for number, words in enumerate(lines, 1)}
    for line in proof.read_text().splitlines():
        number, *words = map(int, line.split())
        end = words.index(0)
        clause, hints = set(words[:end]), words[end + 1:-1]
        if number in clauses or not refuted(clauses, clause, hints):
            return False
        if not clause:
            return True
        clauses[number] = clause
    return False


def checker():
    """The name of a checker, and a function that says whether it accepts."""
    for name, word in [("cake_lpr", "s VERIFIED UNSAT"), ("lrat-check", "VERIFIED")]:
        if shutil.which(name):
            def run(text, proof, name=name, word=word):
                done = subprocess.run([name, text, proof], stdout=subprocess.PIPE, stderr=subprocess.STDOUT, text=True)
                return any(line.removeprefix("c ").strip() == word for line in done.stdout.splitlines())
            return name, run
    return "the checker of bench/lrat.py", plain_check


def formula_of(kind, size):
    formula = search.chain(size) if kind == "chain" else search.parities(size)
    formula.clauses = [list(dict.fromkeys(clause)) for clause in formula.clauses]
    return formula


def damaged(derivation):
    """The derivation without the first hint of its last step."""
    lines = derivation.splitlines()
    words = lines[-1].split()
    place = words.index("0") + 1
    return "\n".join(lines[:-1] + [" ".join(words[:place] + words[place + 1:])]) + "\n"


def main():
    name, accepts = checker()
    print("checked by", name)
    with tempfile.TemporaryDirectory() as folder:
        folder = pathlib.Path(folder)
        program = pathlib.Path(sys.argv[1]) if len(sys.argv) > 1 else search.build(folder)
        text, proof = folder / "formula.cnf", folder / "derivation.lrat"
        for kind, size in KINDS:
            formula_of(kind, size).write(text)
            done = subprocess.run([program, kind, str(size), "lrat"], stdout=subprocess.PIPE, text=True, check=True)
            proof.write_text(done.stdout)
            good = accepts(text, proof)
            proof.write_text(damaged(done.stdout))
            bad = accepts(text, proof)
            steps = done.stdout.count("\n")
            print(f"{kind} {size}: {steps} steps, {len(done.stdout)} bytes, {'accepted' if good else 'REFUSED'}; "
                  f"with a hint less {'ACCEPTED' if bad else 'refused'}")
            if bad or not good:
                sys.exit(1)


main()
