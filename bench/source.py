#!/usr/bin/env python3
"""Times `n7725 asm` on the largest sources and on sources half as large, and `n7725 dis` on an image, and prints
seconds and growth. Wants a built program."""
import itertools, pathlib, random, string, subprocess, sys, tempfile, time

TOP = pathlib.Path(__file__).resolve().parent.parent
LIMIT = 1_048_576
FIRST = string.ascii_letters + "_"
LATER = FIRST + string.digits


def names():
    """Distinct names, three letters each."""
    return ("".join(letters) for letters in itertools.product(FIRST, LATER, LATER))


def chained(size):
    """Definitions, each by the one before."""
    lines, taken, before = [], 0, "1"
    for name in names():
        line = f".equ {name},{before}\n"
        taken += len(line)
        if taken > size:
            return "".join(lines)
        lines.append(line)
        before = name


def labelled(size):
    """As many words as there are, each of which names a label that stands elsewhere, and comments to the size."""
    found = list(itertools.islice(names(), 2048))
    lines = [f"{name}: jmp {found[-1 - place]} ; {'-' * (size // 2048 - 16)}\n" for place, name in enumerate(found)]
    return "".join(lines)


def expressions(size):
    """Long expressions, which define names and place nothing."""
    lines, taken = [], 0
    for name in names():
        line = f".equ {name},(1+2*3-4)*((5-6)+7*8)-9+{'1+' * 40}10\n"
        taken += len(line)
        if taken > size:
            return "".join(lines)
        lines.append(line)


def empty(size):
    return "\n" * size


def timed(command):
    best = None
    for _ in range(3):
        start = time.perf_counter()
        subprocess.run(command, check=True, stdout=subprocess.DEVNULL)
        took = time.perf_counter() - start
        best = took if best is None else min(best, took)
    return best


def main():
    slow = False
    with tempfile.TemporaryDirectory() as folder:
        folder = pathlib.Path(folder)
        image, source = folder / "image.rom", folder / "source.asm"
        image.write_bytes(random.Random(7725).randbytes(8192))
        took = timed([TOP / "n7725", "dis", image])
        slow |= took > 0.1
        print(f"dis of an image: {took:.3f} s")
        for make in (chained, labelled, expressions, empty):
            seconds = []
            for size in (LIMIT // 2, LIMIT):
                source.write_text(make(size))
                seconds.append(timed([TOP / "n7725", "asm", source]))
            growth = seconds[1] / seconds[0]
            slow |= seconds[1] > 1 or growth > 2.2
            print(f"asm, {make.__name__}: {seconds[0]:.3f} s, twice the text {seconds[1]:.3f} s, growth {growth:.2f}")
    sys.exit(slow)


main()
