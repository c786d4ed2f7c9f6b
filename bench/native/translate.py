#!/usr/bin/env python3
"""Writes the crates that n7725 needs as one ordinary crate of Rust: contracts are stripped, paths become those of modules,
and Rattle's std that of shim.rs. Nothing of it is proved, and memory is never refused: it is for trying another limit or
order within seconds, and for profiles, never for use. Lines keep their numbers. Usage: translate.py TOP OUT, where TOP
is a checkout and OUT a folder for the crate; build.sh does that and builds it."""
import pathlib, re, sys

TOKEN = re.compile(r'''
    (?P<comment>//[^\n]*|/\*.*?\*/)
  | (?P<space>\s+)
  | (?P<string>b?"(?:\\.|[^"\\])*"|b?'(?:\\x[0-9a-fA-F]{2}|\\u\{[^}]*\}|\\.|[^'\\\n])')
  | (?P<life>'[A-Za-z_]\w*)
  | (?P<word>[A-Za-z_]\w*)
  | (?P<number>\d[\w]*)
  | (?P<punct>::|->|=>|.)
''', re.X | re.S)


def skip_braces(text, at):
    """Past the balanced braces that begin at `at`, by counting alone."""
    assert text[at] == "{", text[at:at + 40]
    depth = 0
    while True:
        if text[at] == "{": depth += 1
        if text[at] == "}":
            depth -= 1
            if depth == 0: return at + 1
        at += 1


CLAUSE = re.compile(r"(?:requires|ensures|invariant|measure|decreases)\s*(?:\w+\s*)?(?=\{)")
GHOST_USE = re.compile(r"(?:pub(?:\([^)]*\))?\s+)?ghost\s+use\b[^;]*;", re.S)
GHOST_ITEM = re.compile(r"(?:pub(?:\([^)]*\))?\s+)?ghost\s+\w+\s*[=:]\s*(?=\{)")
MODEL = re.compile(r"impl\s*(?:<[^{}]*?>)?\s*Model\s+for\s+[^{]*(?=\{)")


def strip(text, name):
    out, at, keep_newlines = [], 0, True
    def drop(to):
        nonlocal at
        out.append("\n" * text.count("\n", at, to))  # lines stay where they were
        at = to
    while at < len(text):
        m = TOKEN.match(text, at)
        kind, tok = m.lastgroup, m.group()
        if kind == "word" and tok in ("pub", "ghost"):
            g = GHOST_USE.match(text, at)
            if g: drop(g.end()); continue
            g = GHOST_ITEM.match(text, at)
            if g:
                end = skip_braces(text, g.end())
                after = re.compile(r"\s*[;,]").match(text, end)
                drop(after.end() if after else end)
                continue
            assert tok == "pub", (name, text[at:at + 80])
        if kind == "word" and tok in ("requires", "ensures", "invariant", "measure", "decreases"):
            g = CLAUSE.match(text, at)
            if g: drop(skip_braces(text, g.end())); continue
        if kind == "word" and tok == "impl":
            g = MODEL.match(text, at)
            if g: drop(skip_braces(text, g.end())); continue
        if tok == "#":
            g = re.compile(r"#!?\[(tactic|cycle)\b").match(text, at)
            if g:
                i, depth = text.index("[", at), 0
                while True:
                    depth += (text[i] == "[") - (text[i] == "]")
                    i += 1
                    if depth == 0: break
                drop(i); continue
            g = re.compile(r"#\[derive\(([^)]*)\)\]").match(text, at)
            if g:
                names = [n.strip() for n in g.group(1).split(",") if n.strip() not in ("Drop", "Model", "")]
                if names: out.append(f"#[derive({', '.join(names)})]")
                drop(g.end()); continue
            g = re.compile(r"#\[cfg\(test\)\]\s*(?:pub(?:\([^)]*\))?\s+)?mod\s+\w+\s*;").match(text, at)
            if g: drop(g.end()); continue
        if kind == "comment" and tok.startswith("//!"):
            tok = "//" + tok[3:]
        out.append(tok)
        at = m.end()
    return "".join(out)


HERE = pathlib.Path(__file__).resolve().parent
# For a file of the sources one beside this script may stand, CRATE/FILE.rs. These are left out.
LEFT_OUT = {"wb_base/mem_shelf.rt", "wb_base/mem_sink.rt", "wb_base/calls.rt", "wb_base/opened.rt"}


def rewrite(text, crate, names):
    """From a crate's paths to a module's, and from Rattle's std to the shim."""
    text = re.sub(r"(?<![\w$:])crate::", f"crate::{crate}::", text)
    text = re.sub(r"(?<![\w:])(%s)::" % "|".join(sorted(names, key=len, reverse=True)),
        lambda m: m.group() if text[:m.start()].endswith("crate::") else f"crate::{m.group(1)}::", text)
    for module in ("alloc", "rc"):
        text = re.sub(r"(?<![\w:])std::%s::" % module, f"crate::shim::{module}::", text)
    text = re.sub(r"(?<![\w:])(arrayvec|indexmap|itoa|byteorder|circular_buffer)::", r"crate::shim::\1::", text)
    text = re.sub(r"use std::marker::Model;", "", text)
    text = re.sub(r"\bvec!\[in\b", "crate::shim::rvec![in", text)
    text = re.sub(r"\bformat!\(in\b", "crate::shim::rformat!(in", text)
    text = re.sub(r"\.collect\(alloc\)", ".collect_with(alloc)", text)
    text = re.sub(r"\.to_vec\(alloc\)", ".to_vec_with(alloc)", text)
    text = re.sub(r"\.into_bytes\(\)", ".into_bytes_with()", text)
    text = re.sub(r"(?<=[<,] )?\b([A-Z]\w*): Drop\b", r"\1", text)
    text = re.sub(r"\bfn fmt<W: fmt::Write>\(&self, f: &mut fmt::Formatter<W>\)", "fn fmt(&self, f: &mut fmt::Formatter<'_>)", text)
    return text


def put(path, text):
    if not path.exists() or path.read_text() != text:
        path.parent.mkdir(parents=True, exist_ok=True)
        path.write_text(text)


def main():
    top, out = pathlib.Path(sys.argv[1]), pathlib.Path(sys.argv[2])
    deps = {}
    for line in (top / "crates.txt").read_text().splitlines():
        if line and not line.startswith("#"):
            head, tail = line.split(":", 1)
            deps[head.strip()] = tail.split()
    needed, todo = set(), ["n7725"]
    while todo:
        c = todo.pop()
        if c in deps and c not in needed:
            needed.add(c); todo += deps[c]
    needed.discard("n7725")
    src, made = out / "src", set()
    def emit(path, text):
        put(path, text); made.add(path)
    for crate in sorted(needed):
        base = top / "crates" / crate / "src"
        for path in sorted(base.rglob("*.rt")):
            rel = path.relative_to(base)
            if "tests" in rel.parts or rel.name.endswith("tests.rt") or f"{crate}/{rel}" in LEFT_OUT: continue
            target = "mod.rs" if str(rel) == "lib.rt" else str(rel)[:-3] + ".rs"
            hand = HERE / crate / target
            if hand.exists():
                text = hand.read_text()
            else:
                text = rewrite(strip(path.read_text(), f"{crate}/{rel}"), crate, needed)
                text = "#[allow(unused_imports)] use crate::shim::prelude::*; " + text
            emit(src / crate / target, text)
    emit(src / "shim.rs", (HERE / "shim.rs").read_text())
    mods = "".join(f"mod {c};\n" for c in sorted(needed))
    emit(src / "main.rs", "#![allow(dead_code, unused, non_snake_case)]\nmod shim;\n" + mods + (HERE / "main.rs").read_text())
    put(out / "Cargo.toml", """[package]
name = "n7725"
version = "0.0.0"
edition = "2024"

[profile.release]
opt-level = 3
debug = 1
overflow-checks = false
debug-assertions = false
panic = "abort"
codegen-units = 1
incremental = false

[workspace]
""")
    for path in src.rglob("*.rs"):
        if path not in made: path.unlink()


if __name__ == "__main__":
    main()
