#!/usr/bin/env python3
"""Times `n7725 run` on a loop of mixed instructions, and the same loop in a plain C interpreter, in one run.
Prints instructions per second of both and the ratio of their times. Wants gcc and a built program."""
import pathlib, random, subprocess, sys, tempfile, time

TOP = pathlib.Path(__file__).resolve().parent.parent
ROUNDS, MOST = 1000, 65535


def loop_words(length=120, seed=7725):
    """Words of a loop: computing moves, loads, jumps that aren't taken, a call and a return, no port access."""
    pick = random.Random(seed)
    words = []
    while len(words) < length:
        kind = pick.randrange(8)
        if kind < 6:
            source = pick.choice([0, 1, 2, 3, 5, 6, 7, 13, 14, 15])
            target = pick.choice([0, 1, 2, 3, 10, 11, 12, 13, 14, 15])
            words.append(pick.randrange(4) << 20 | pick.randrange(16) << 16 | pick.randrange(2) << 15
                         | pick.randrange(4) << 13 | pick.randrange(16) << 9 | pick.randrange(2) << 8
                         | source << 4 | target)
        elif kind == 6:
            words.append(3 << 22 | pick.randrange(65536) << 6 | pick.choice([1, 2, 3, 10, 13, 14]))
        else:
            words.append(2 << 22 | pick.choice([0x080, 0x08A, 0x094, 0x0AA]) << 13 | (len(words) + 1) << 2)
    words.append(2 << 22 | 0x140 << 13 | (len(words) + 2) << 2)
    words.append(2 << 22 | 0x100 << 13 | 0 << 2)
    words.append(1 << 22)
    return words


def image_bytes(words):
    data = bytearray(8192)
    for place, word in enumerate(words):
        data[3 * place:3 * place + 3] = word.to_bytes(3, "little")
    pick = random.Random(1024)
    data[6144:] = pick.randbytes(2048)
    return bytes(data)


def timed(command):
    start = time.perf_counter()
    subprocess.run(command, check=True, stdout=subprocess.DEVNULL)
    return time.perf_counter() - start


def main():
    with tempfile.TemporaryDirectory() as folder:
        folder = pathlib.Path(folder)
        image, script, plain = folder / "loop.rom", folder / "loop.script", folder / "plain"
        image.write_bytes(image_bytes(loop_words()))
        script.write_text(f"REPEAT {ROUNDS}\nSTEP {MOST}\nEND\n")
        subprocess.run(["gcc", "-O2", "-o", plain, TOP / "bench/plain.c"], check=True)
        count = ROUNDS * MOST
        ours = min(timed([TOP / "n7725", "run", image, script]) for _ in range(3))
        theirs = min(timed([plain, image, str(count)]) for _ in range(3))
    print(f"n7725 {count / ours / 1e6:.1f} million instructions a second")
    print(f"plain {count / theirs / 1e6:.1f} million instructions a second")
    print(f"ratio {ours / theirs:.2f}")


if __name__ == "__main__":
    sys.exit(main())
