#!/usr/bin/env python3
"""Times `n7725 compare` and `demo` on worked pairs and on pairs made here: seconds, memory and the verdict of each, and
whether it is the one expected. It uses the program as `./n7725` builds it, and sources that `n7725 asm` assembles."""
import os, pathlib, subprocess, sys, tempfile, time

TOP = pathlib.Path(__file__).resolve().parent.parent
PROGRAM = TOP / "crates/n7725/out/n7725"

WORDS = {
    "echo": "C10007 80 97C008 91 16 97C014 A00004",
    "slow": "C10007 80 97C008 91 0 16 97C018 A00004",
    "sum": "C10007 26 97C008 158090 A00004",
    "sumn": "C10007 26 97C008 0 158090 0 A00004",
    "mula": "80 97C004 8A 97C00C 9D C00001 210000 16 97C020 C00001 310000 16 97C030 A00000",
    "mulb": "80 97C004 8A 97C00C 9D C00002 218000 26 97C020 C00002 318000 26 97C030 A00000",
    "drcf": "80 97C004 97 80 97C010 A0000C",
}


def image(words):
    data = bytearray(8192)
    for place, word in enumerate(words.split()):
        data[3 * place : 3 * place + 3] = int(word, 16).to_bytes(3, "little")
    return bytes(data)


def behind(values, answer):
    """Writes as many bytes as there are values, then answers so where all of them are met, and else 0."""
    lines = ["ld sr,0x0400", "again: ld b,0"]
    for number, value in enumerate(values):
        lines += [
            "op mov non,dr",
            f"wait{number}: jrqm wait{number}",
            "op mov a,drnf",
            f"ld tr,{value}",
            "op xor a,idb | mov non,tr",
            "op or b,idb | mov non,a",
        ]
    lines += ["ld k,0", "jnzb other", f"ld k,{answer}", "other: op mov dr,k", "sent: jrqm sent", "jmp again"]
    return "\n".join(lines) + "\n"


def product(first, second):
    """Two words of 16 bits, multiplied: the upper half of the product is read."""
    return f"""
again: op mov non,dr
one: jrqm one
      op mov {first},drnf
      op mov non,dr
two: jrqm two
      op mov {second},drnf
      ld a,0
      op add a,m
      op mov dr,a
sent: jrqm sent
      jmp again
"""


def straight(padded):
    """A thousand words that compute between a written byte and the answer; the copy has an idle word after each hundredth."""
    lines = ["ld sr,0x0400", "again: op mov non,dr", "wait: jrqm wait", "op mov a,drnf"]
    for number in range(1000):
        lines.append(f"op {('add', 'xor', 'sub')[number % 3]} {'ab'[number % 2]},idb | mov tr,{('a', 'b', 'tr')[number // 2 % 3]}")
        if padded and number % 100 == 99:
            lines.append("nop")
    return "\n".join(lines + ["op mov dr,a", "sent: jrqm sent", "jmp again"]) + "\n"


SOURCES = {
    "two-a": behind([0xC3, 0x5A], 0),
    "two-b": behind([0xC3, 0x5A], 1),
    "four-a": behind([0xC3, 0x5A, 0x17, 0xE0], 0),
    "four-b": behind([0xC3, 0x5A, 0x17, 0xE0], 1),
    "xy": product("k", "l"),
    "yx": product("l", "k"),
    "straight": straight(False),
    "padded": straight(True),
}

# The words, the first line that is expected, and the most seconds.
CASES = [
    ("compare sum sumn 13 6 shape=WWWWWWWWWWWWR conflicts=0", "EQUAL 13 6", 0.5),
    ("compare mula mulb 8 5 shape=WWWWRRRR", "EQUAL 8 5", 0.5),
    ("compare echo slow 16 4 shape=WRWRWRWRWRWRWRWR", "EQUAL 16 4", 0.5),
    ("compare drcf drcf 4 3 shape=WWRR", "EQUAL 4 3", 0.5),
    ("demo 7", "DEMO 7", 0.5),
    ("compare two-a two-b 3 40 shape=WWR", "DIFFERENT 3 40", 1),
    ("compare four-a four-b 5 60 shape=WWWWR", "DIFFERENT 5 60", 1),
    ("compare xy yx 6 20 shape=WWWWRR", "EQUAL 6 20", 0.5),
    ("compare straight padded 8 1600 shape=WRWRWRWR points=8192", "EQUAL 8 1600", 5),
]


def run(words, folder):
    """The status, the text, the seconds and the mebibytes of one call."""
    begun = time.time()
    child = subprocess.Popen([PROGRAM] + words.split(), cwd=folder, stdout=subprocess.PIPE)
    text = child.stdout.read().decode()
    _, status, used = os.wait4(child.pid, 0)
    child.returncode = os.waitstatus_to_exitcode(status)
    return child.returncode, text, time.time() - begun, used.ru_maxrss / 1024


def main():
    if not PROGRAM.exists():
        subprocess.run([TOP / "n7725", "demo", "0"], stdout=subprocess.DEVNULL, check=True)
    with tempfile.TemporaryDirectory() as folder:
        for name, words in WORDS.items():
            pathlib.Path(folder, name).write_bytes(image(words))
        for name, source in SOURCES.items():
            pathlib.Path(folder, name + ".asm").write_text(source)
            made = subprocess.run([PROGRAM, "asm", name + ".asm"], cwd=folder, capture_output=True)
            if made.returncode:
                sys.exit(f"{name}: {made.stdout.decode()}")
            pathlib.Path(folder, name).write_bytes(made.stdout)
        for words, first, most in CASES:
            status, text, seconds, size = run(words, folder)
            lines = text.splitlines()
            good = lines[0] == first and seconds <= most
            print(f"{seconds:6.2f} s {size:6.0f} MiB  status {status}  {'' if good else 'NOT AS WANTED '}{words}: {' / '.join(lines[:3])}")


main()
