#!/usr/bin/env python3
"""Takes each of the 2^24 words through `n7725 dis` and back through `n7725 asm`, 2048 words an image, and counts the
words whose line isn't `.word`. It runs for some minutes; wants a built program."""
import concurrent.futures, os, pathlib, subprocess, sys, tempfile

TOP = pathlib.Path(__file__).resolve().parent.parent


def image_bytes(first):
    words = b"".join(word.to_bytes(3, "little") for word in range(first, first + 2048))
    return words + bytes(2048)


def there_and_back(first):
    image = image_bytes(first)
    with tempfile.TemporaryDirectory() as folder:
        rom, source = pathlib.Path(folder) / "image.rom", pathlib.Path(folder) / "source.asm"
        rom.write_bytes(image)
        text = subprocess.run([TOP / "n7725", "dis", rom], check=True, stdout=subprocess.PIPE).stdout
        source.write_bytes(text)
        back = subprocess.run([TOP / "n7725", "asm", source], check=True, stdout=subprocess.PIPE).stdout
    lines = text.split(b"\n")[:2048]
    return first, back == image, sum(not line.startswith(b".word") for line in lines), max(line.index(b"  ;") for line in lines)


def main():
    spelled = longest = 0
    with concurrent.futures.ThreadPoolExecutor(os.cpu_count()) as pool:
        for first, same, count, length in pool.map(there_and_back, range(0, 1 << 24, 2048)):
            if not same:
                sys.exit(f"the words from {first:06X} on don't come back")
            spelled += count
            longest = max(longest, length)
    print(f"2^24 words come back; {spelled} have a line that isn't .word; the longest line has {longest} bytes")


main()
