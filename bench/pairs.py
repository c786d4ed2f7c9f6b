#!/usr/bin/env python3
"""Compares small programs with `n7725 compare`, and holds each answer against an enumeration of all dialogues in C that
knows nothing of the crates: 200 pairs of images from a seed, the second of which is the first with one word changed,
with at most two transfers. Pairs are drawn until there are as many as wanted that breach, differ, overrun and do none
of these. Of each EQUAL it asks again with a budget of exactly the points that the enumeration reached, and with one
less. Prints how many of each answer there were and every disagreement, with status 1 where there is one.
Usage: pairs.py [PAIRS [SEED]]. Wants gcc and a built program."""
import collections, pathlib, random, re, subprocess, sys, tempfile

TOP = pathlib.Path(__file__).resolve().parent.parent
PROGRAM = TOP / "crates/n7725/out/n7725"

# The chip after docs/profile.md and the eager host after docs/dialogues.md.
# `all A B n k SHAPE` follows every dialogue that fits; `one A k held|plain ACCESS ..` replays one.
ENUMERATION = r"""
#include <stdint.h>
#include <stdio.h>
#include <stdlib.h>
#include <string.h>

typedef struct { int program[2048], data[1024], poll[2048]; } Image;
typedef struct { int c, z, s0, s1, ov0, ov1; } Flags;
typedef struct {
    int pc, sp, stack[4], dp, rp, acc[2], tr, trb, k, l, dr, sr, ram[256], asked, count;
    Flags flags[2];
} Chip;

enum { RQM = 0x8000, DRS = 0x1000, DRC = 0x0400 };
enum { ANSWERED, OVERRUN, BREACH };

/* Words. */

static int kind_of(int word) { return word >> 22; }
static int branch_of(int word) { return word >> 13 & 511; }
static int goal_of(int word) { return word >> 2 & 2047; }
static int source_of(int word) { return word >> 4 & 15; }
static int target_of(int word) { return word & 15; }

static int is_test(int word) { return kind_of(word) == 2 && (branch_of(word) == 0x0BC || branch_of(word) == 0x0BE); }
static int is_always(int word) { return kind_of(word) == 2 && branch_of(word) == 0x100; }

static int raises(int word) {
    if (kind_of(word) == 2) return 0;
    return target_of(word) == 6 || (kind_of(word) < 2 && source_of(word) == 8);
}

static int touches(int word) {
    if (kind_of(word) == 2) return is_test(word);
    if (target_of(word) == 6 || target_of(word) == 7) return 1;
    return kind_of(word) < 2 && source_of(word) >= 8 && source_of(word) <= 10;
}

/* The next address of a word of a wait loop while RQM is 1, or -1. */
static int onward(int word, int at) {
    if (word == 0 || (is_test(word) && branch_of(word) == 0x0BC)) return (at + 1) % 2048;
    return is_test(word) || is_always(word) ? goal_of(word) : -1;
}

/* Walks from the address until it comes back to it: at most eight words, with one test. */
static int is_poll(const Image *image, int at) {
    int tests = 0, now = at;
    for (int words = 0; words < 8; words++) {
        tests += is_test(image->program[now]);
        now = onward(image->program[now], now);
        if (now < 0) return 0;
        if (now == at) return tests == 1;
    }
    return 0;
}

/* The chip. */

static int signed_of(int word) { return word < 0x8000 ? word : word - 0x10000; }

static void compute(Chip *chip, int operation, int which, int p) {
    Flags *flags = &chip->flags[which];
    int q = chip->acc[which], c = chip->flags[!which].c, chained = flags->ov1;
    int sign = 0, add = 0, result = 0, carry = 0, over = 0;
    switch (operation) {
    case 0: return;
    case 1: result = q | p; break;
    case 2: result = q & p; break;
    case 3: result = q ^ p; break;
    case 4: sign = -1, add = p, c = 0; break;
    case 5: sign = 1, add = p, c = 0; break;
    case 6: sign = -1, add = p; break;
    case 7: sign = 1, add = p; break;
    case 8: sign = -1, add = 1, c = 0; break;
    case 9: sign = 1, add = 1, c = 0; break;
    case 10: result = 0xFFFF - q; break;
    case 11: result = q / 2 + (q & 0x8000), carry = q % 2; break;
    case 12: result = q * 2 + c, carry = q >> 15; break;
    case 13: result = q * 4 + 3; break;
    case 14: result = q * 16 + 15; break;
    case 15: result = q % 256 * 256 + q / 256; break;
    }
    if (sign) {
        int exact = q + sign * (add + c), by_sign = signed_of(q) + sign * (signed_of(add) + c);
        result = exact, carry = exact < 0 || exact > 0xFFFF, over = by_sign < -0x8000 || by_sign > 0x7FFF;
    }
    result &= 0xFFFF;
    chip->acc[which] = result;
    flags->c = carry, flags->z = result == 0, flags->s0 = result >> 15;
    if (!chained) flags->s1 = flags->s0;
    flags->ov0 = over;
    flags->ov1 = over && chained ? flags->s1 == flags->s0 : sign && (over || chained);
}

static int source(Chip *chip, const Image *image, int code) {
    switch (code) {
    case 0: return chip->trb;
    case 1: return chip->acc[0];
    case 2: return chip->acc[1];
    case 3: return chip->tr;
    case 4: return chip->dp;
    case 5: return chip->rp;
    case 6: return image->data[chip->rp];
    case 7: return chip->flags[0].s1 ? 0x7FFF : 0x8000;
    case 8: chip->sr |= RQM; return chip->dr;
    case 9: return chip->dr;
    case 10: return chip->sr;
    case 13: return chip->k;
    case 14: return chip->l;
    case 15: return chip->ram[chip->dp];
    }
    return 0;
}

static void move(Chip *chip, const Image *image, int code, int bus, int dp, int rp) {
    switch (code) {
    case 1: chip->acc[0] = bus; break;
    case 2: chip->acc[1] = bus; break;
    case 3: chip->tr = bus; break;
    case 4: chip->dp = bus & 255; break;
    case 5: chip->rp = bus & 1023; break;
    case 6: chip->dr = bus, chip->sr |= RQM; break;
    case 7: chip->sr = (chip->sr & ~0x6F83) | (bus & 0x6F83); break;
    case 10: chip->k = bus; break;
    case 11: chip->k = bus, chip->l = image->data[rp]; break;
    case 12: chip->l = bus, chip->k = chip->ram[dp | 64]; break;
    case 13: chip->l = bus; break;
    case 14: chip->trb = bus; break;
    case 15: chip->ram[dp] = bus; break;
    }
}

static void operate(Chip *chip, const Image *image, int word) {
    int dp = chip->dp, rp = chip->rp, cell = chip->ram[dp];
    uint32_t product = (uint32_t)(2 * (int64_t)signed_of(chip->k) * signed_of(chip->l));
    int bus = source(chip, image, source_of(word));
    int operands[4] = { cell, bus, (int)(product >> 16), (int)(product & 0xFFFF) };
    compute(chip, word >> 16 & 15, word >> 15 & 1, operands[word >> 20 & 3]);
    move(chip, image, target_of(word), bus, dp, rp);
    if (target_of(word) != 4) {
        int low[4] = { dp % 16, (dp + 1) % 16, (dp + 15) % 16, 0 };
        chip->dp = ((dp / 16) ^ (word >> 9 & 15)) * 16 + low[word >> 13 & 3];
    }
    if (word >> 8 & 1 && target_of(word) != 5) chip->rp = (rp + 1023) % 1024;
}

static int is_taken(const Chip *chip, int code) {
    const Flags *flags = &chip->flags[code >> 2 & 1];
    int wanted = code >> 1 & 1, low = chip->dp % 16;
    switch (code) {
    case 0x080: case 0x082: case 0x084: case 0x086: return flags->c == wanted;
    case 0x088: case 0x08A: case 0x08C: case 0x08E: return flags->z == wanted;
    case 0x090: case 0x092: case 0x094: case 0x096: return flags->ov0 == wanted;
    case 0x098: case 0x09A: case 0x09C: case 0x09E: return flags->ov1 == wanted;
    case 0x0A0: case 0x0A2: case 0x0A4: case 0x0A6: return flags->s0 == wanted;
    case 0x0A8: case 0x0AA: case 0x0AC: case 0x0AE: return flags->s1 == wanted;
    case 0x0B0: return low == 0;
    case 0x0B1: return low != 0;
    case 0x0B2: return low == 15;
    case 0x0B3: return low != 15;
    case 0x0B4: case 0x0B8: return 1;
    case 0x0BC: return !(chip->sr & RQM);
    case 0x0BE: return !!(chip->sr & RQM);
    case 0x100: case 0x140: return 1;
    }
    return 0;
}

static void execute(Chip *chip, const Image *image) {
    int word = image->program[chip->pc];
    chip->pc = (chip->pc + 1) % 2048;
    switch (kind_of(word)) {
    case 0: operate(chip, image, word); break;
    case 1:
        operate(chip, image, word);
        chip->sp = (chip->sp + 3) % 4;
        chip->pc = chip->stack[chip->sp];
        break;
    case 2:
        if (!is_taken(chip, branch_of(word))) break;
        if (branch_of(word) == 0x140) {
            chip->stack[chip->sp] = chip->pc;
            chip->sp = (chip->sp + 1) % 4;
        }
        chip->pc = goal_of(word);
        break;
    case 3: move(chip, image, target_of(word), word >> 6 & 0xFFFF, chip->dp, chip->rp); break;
    }
}

/* The host. */

static int is_high(const Chip *chip) { return !(chip->sr & DRC) && chip->sr & DRS; }
static int status(const Chip *chip) { return chip->sr >> 8; }
static int datum(const Chip *chip) { return is_high(chip) ? chip->dr >> 8 : chip->dr & 255; }

static void transferred(Chip *chip) {
    if (chip->sr & DRC) chip->sr &= ~RQM;
    else if (chip->sr & DRS) chip->sr &= ~(RQM | DRS);
    else chip->sr |= DRS;
}

static void put(Chip *chip, int byte) {
    chip->dr = is_high(chip) ? byte * 256 + chip->dr % 256 : chip->dr / 256 * 256 + byte;
    transferred(chip);
}

/* The observer. */

static void observe(Chip *chip, const Image *image) {
    int word = image->program[chip->pc], poll = image->poll[chip->pc], standing = !!(chip->sr & RQM);
    int idle = chip->asked && poll && (!is_test(word) || standing);
    if (!idle) chip->count = raises(word) ? 0 : chip->count + 1;
    chip->asked = raises(word) || (chip->asked && !(poll && is_test(word) && !standing));
    execute(chip, image);
}

/* One instruction, or how the run ends instead. */
static int go(Chip *chip, const Image *image, int k) {
    if (chip->count == k) return OVERRUN;
    if (chip->asked && touches(image->program[chip->pc]) && !image->poll[chip->pc]) return BREACH;
    observe(chip, image);
    return ANSWERED;
}

static int is_waiting(const Chip *chip, const Image *image) { return chip->sr & RQM && image->poll[chip->pc]; }

static Chip power_up(void) {
    Chip chip;
    memset(&chip, 0, sizeof chip);
    chip.rp = 1023;
    return chip;
}

/* Points. */

enum { ROOM = 1 << 18 };
typedef struct { int there, side, kinds, count, pc, sp, stack[4], asked, rqm, drs; } Point;
static Point *points;
static int reached;

static uint32_t hash_of(const Point *point) {
    const unsigned char *bytes = (const unsigned char *)point;
    uint32_t hash = 2166136261u;
    for (size_t at = 0; at < sizeof *point; at++) hash = (hash ^ bytes[at]) * 16777619u;
    return hash;
}

static void note(const Chip *chip, int side, int kinds) {
    int rqm = !!(chip->sr & RQM), drs = !!(chip->sr & DRS);
    Point point = { 1, side, kinds, chip->count, chip->pc, chip->sp, { 0 }, chip->asked, rqm, drs };
    memcpy(point.stack, chip->stack, sizeof point.stack);
    uint32_t at = hash_of(&point) % ROOM;
    for (; points[at].there; at = (at + 1) % ROOM) {
        if (!memcmp(&points[at], &point, sizeof point)) return;
    }
    if (++reached > ROOM / 2) exit(3);
    points[at] = point;
}

/* Every dialogue. */

static Image images[2];
static int most, pace;
static const char *shape;
static int path[16], length;
static int different, overruns[2], breaches[2];

static void show(const char *name, const char *last) {
    printf("%s", name);
    for (int place = 0; place < length; place++) {
        if (path[place] < 0) printf(" R");
        else printf(" W%02X", path[place]);
    }
    printf("%s\n", last);
}

static void found(int *known, const char *name, int side, const char *last) {
    char line[32];
    if ((*known)++) return;
    snprintf(line, sizeof line, side < 0 ? "%s" : "%s-%c", name, 'A' + side);
    show(line, last);
}

/* The held run from a chip, and whether it comes by a request, with the chip at the first one. */
static int hold(const Chip *from, int side, int kinds, Chip *request) {
    const Image *image = &images[side];
    Chip chip = *from;
    int met = 0, end = ANSWERED;
    for (;;) {
        note(&chip, side, kinds);
        if (!met && chip.sr & RQM) met = 1, *request = chip;
        if (is_waiting(&chip, image)) break;
        end = go(&chip, image, pace);
        if (end != ANSWERED) break;
    }
    if (end == OVERRUN) found(&overruns[side], "overrun", side, "");
    if (end == BREACH) found(&breaches[side], "breach", side, "");
    return met;
}

/* All dialogues that begin with the accesses so far, on the sides that still answer. */
static void follow(const Chip *const from[2], int kinds) {
    Chip requests[2];
    int met[2];
    for (int side = 0; side < 2; side++) met[side] = from[side] && hold(from[side], side, kinds, &requests[side]);
    int reads = length < most && shape[length] != 'W', writes = length < most && shape[length] != 'R';
    if (met[0] && met[1]) {
        if (status(&requests[0]) != status(&requests[1])) found(&different, "different", -1, " S");
        if (reads && datum(&requests[0]) != datum(&requests[1])) found(&different, "different", -1, " R");
    }
    if (!met[0] && !met[1]) return;
    for (int byte = reads ? -1 : 0; byte < (writes ? 256 : 0); byte++) {
        Chip next[2];
        const Chip *then[2] = { 0, 0 };
        for (int side = 0; side < 2; side++) {
            if (!met[side]) continue;
            next[side] = requests[side];
            if (byte < 0) transferred(&next[side]);
            else put(&next[side], byte);
            then[side] = &next[side];
        }
        path[length++] = byte;
        follow(then, kinds * 3 + (byte < 0 ? 1 : 2));
        length--;
    }
}

static void load(Image *image, const char *name) {
    static unsigned char bytes[8192];
    FILE *file = fopen(name, "rb");
    if (!file || fread(bytes, 1, 8192, file) != 8192) exit(2);
    fclose(file);
    for (int at = 0; at < 2048; at++) {
        const unsigned char *word = bytes + 3 * at;
        image->program[at] = word[0] | word[1] << 8 | word[2] << 16;
    }
    for (int at = 0; at < 1024; at++) image->data[at] = bytes[6144 + 2 * at] | bytes[6145 + 2 * at] << 8;
    for (int at = 0; at < 2048; at++) image->poll[at] = is_poll(image, at);
}

static int all(char **words) {
    load(&images[0], words[0]);
    load(&images[1], words[1]);
    most = atoi(words[2]), pace = atoi(words[3]), shape = words[4];
    points = calloc(ROOM, sizeof *points);
    if (!points) return 3;
    Chip chip = power_up();
    const Chip *from[2] = { &chip, &chip };
    follow(from, 0);
    printf("points %d\n", reached);
    return 0;
}

static int one(int count, char **words) {
    load(&images[0], words[0]);
    pace = atoi(words[1]);
    int held = words[2][0] == 'h', said[64], replies = 0, end = ANSWERED, given = 3;
    Chip chip = power_up();
    while (end == ANSWERED) {
        if (given == count && (!held || is_waiting(&chip, &images[0]))) break;
        if (given == count || !(chip.sr & RQM)) { end = go(&chip, &images[0], pace); continue; }
        const char *access = words[given++];
        if (access[0] == 'S') said[replies++] = status(&chip);
        if (access[0] == 'R') said[replies++] = datum(&chip), transferred(&chip);
        if (access[0] == 'W') put(&chip, (int)strtol(access + 1, 0, 16));
    }
    if (end == ANSWERED) printf("answered");
    if (end == OVERRUN) printf("overrun");
    if (end == BREACH) printf("breach-%03X", chip.pc);
    for (int place = 0; place < replies; place++) printf(" %02X", said[place]);
    printf("\n");
    return 0;
}

int main(int count, char **words) {
    if (count == 7 && !strcmp(words[1], "all")) return all(words + 2);
    if (count >= 5 && !strcmp(words[1], "one")) return one(count - 2, words + 2);
    return 2;
}
"""

# How large a share of the pairs comes to what.
SHARES = {"breach": 0.2, "different": 0.3, "overrun": 0.2, "none of these": 0.3}

SET_DRC, ASK, ANSWER, TAKE = 0xC10007, 0x000080, 0x000016, 0x000091
FLAG_JUMPS = [*range(0x080, 0x0B0, 2), 0x0B0, 0x0B1, 0x0B2, 0x0B3, 0x0B4, 0x0B6]
CALM_SOURCES = (0, 1, 2, 3, 4, 5, 6, 7, 13, 14, 15)
CALM_TARGETS = (0, 0, 1, 2, 3, 3, 4, 5, 10, 11, 12, 13, 14, 15)
SOME_VALUES = (0, 1, 0x5A, 0x80, 0xFF, 0x7FFF, 0x8000)


def jump(code, goal):
    return 2 << 22 | code << 13 | goal << 2


def load(value, target):
    return 3 << 22 | value << 6 | target


def operation(code, operand, which, source, target, rest=0):
    return operand << 20 | code << 16 | which << 15 | rest << 8 | source << 4 | target


class Maker:
    """Makes programs that mostly ask and wait, and changes of them."""

    def __init__(self, seed):
        self.pick = random.Random(seed)

    def chance(self, share):
        return self.pick.random() < share

    def wait(self, at):
        """A wait loop that stands at an address."""
        form = self.pick.randrange(10)
        if form < 7:
            return [jump(0x0BE, at)]
        if form == 7:
            return [0, jump(0x0BE, at)]
        if form == 8:
            return [jump(0x0BC, at + 2), jump(0x100, at)]
        return [jump(0x0BE, at + self.pick.randrange(3))]

    def computing(self):
        """A word that doesn't touch the port."""
        pick = self.pick
        form = pick.randrange(8)
        if form == 0:
            return load(pick.choice([*SOME_VALUES, pick.randrange(65536)]), pick.choice([1, 2, 3, 4, 10, 13]))
        source, target = pick.choice(CALM_SOURCES), pick.choice(CALM_TARGETS)
        if form == 1:
            return operation(0, 0, 0, source, target)
        if form == 2:
            code, operand, rest = pick.randrange(16), pick.randrange(4), pick.randrange(128)
            return operation(code, operand, pick.randrange(2), source, target, rest)
        if form == 3:
            return 0
        source, target = pick.choice([1, 1, 2, 3]), pick.choice([0, 0, 0, 1, 3])
        return operation(pick.randrange(1, 16), 1, pick.choice([0, 0, 1]), source, target)

    def near(self, at, length):
        return min(max(at + self.pick.choice([-3, -2, -1, 0, 1, 2, 2, 3, 3, 4]), 0), length + 1)

    def touching(self):
        return self.pick.choice([TAKE, ASK, ANSWER, SET_DRC, 0x0000A1, 0x000092, jump(0x0BC, self.pick.randrange(14))])

    def block(self, at):
        """A request with what belongs to it."""
        pick = self.pick
        words = []
        if self.chance(0.55):
            words.append(ASK if self.chance(0.8) else operation(0, 0, 0, 8, pick.choice([1, 2, 3])))
            words += self.wait(at + len(words))
            target = pick.choice([0, 1, 2, 3, 10, 13, 15])
            words.append(TAKE if self.chance(0.7) else operation(pick.randrange(16), 1, pick.randrange(2), 9, target))
        else:
            words.append(ANSWER if self.chance(0.7) else operation(0, 0, 0, pick.choice(CALM_SOURCES), 6))
            words += self.wait(at + len(words))
        for _ in range(pick.choice([0, 0, 1, 1, 2, 3])):
            words.append(self.computing())
        if self.chance(0.3):
            words.append(jump(pick.choice(FLAG_JUMPS), self.near(at + len(words), at + len(words))))
            words += [self.computing() for _ in range(pick.randrange(3))]
        return words

    def service(self, at):
        """An answer that hangs on a byte, or on nothing."""
        pick = self.pick
        words = []
        if self.chance(0.8):
            words.append(ASK)
            words += self.wait(at + len(words)) + [TAKE]
        else:
            words.append(load(pick.randrange(65536), 1))
        if self.chance(0.5):
            words.append(load(pick.randrange(256), 2))
            words.append(operation(pick.choice([2, 3, 3, 4, 5]), 1, 1, 1, 0))
            code = pick.choice([0x08C, 0x08E, 0x08C, 0x08E, 0x084, 0x086, 0x0A4])
            words.append(jump(code, at + len(words) + pick.choice([2, 2, 3])))
        for _ in range(pick.choice([1, 1, 2, 2])):
            source, target = pick.choice([1, 2, 2, 3, 6, 7, 15]), pick.choice([0, 0, 0, 3, 10])
            words.append(operation(pick.randrange(1, 16), pick.choice([0, 1, 1, 1, 2, 3]), 0, source, target))
            if self.chance(0.2):
                words.append(self.computing())
        words.append(ANSWER if self.chance(0.8) else operation(0, 0, 0, pick.choice([2, 3, 15]), 6))
        return words + self.wait(at + len(words))

    def words(self):
        """The words of a program."""
        pick = self.pick
        while True:
            words = []
            form = pick.randrange(10)
            if form < 6:
                words.append(SET_DRC)
            elif form == 6:
                words.append(load(pick.choice([0x0000, 0x6400, 0x0403, 0x6000]), 7))
            again = len(words)
            if self.chance(0.7):
                words += self.service(again)
            else:
                for _ in range(pick.choice([1, 2, 2, 2, 3])):
                    words += self.block(len(words))
            if self.chance(0.12):
                words.insert(pick.randrange(len(words) + 1), self.touching())
            if self.chance(0.06):
                words.insert(pick.randrange(len(words) + 1), jump(0x140, self.near(len(words), len(words))))
                words.append(1 << 22 | operation(0, 0, 0, pick.choice(CALM_SOURCES), pick.choice(CALM_TARGETS)))
            words.append(jump(0x100, again if self.chance(0.85) else pick.randrange(len(words) + 1)))
            if 5 <= len(words) <= 14:
                return words

    def changed(self, words):
        """The words with one of them changed."""
        pick = self.pick
        while True:
            at, form = pick.randrange(len(words)), pick.choice([0, 0, 0, 1, 1, 2, 3, 3, 3, 4, 5])
            word = words[at]
            if (word in (SET_DRC, ASK, ANSWER, TAKE) or word >> 22 == 2) and self.chance(0.7):
                continue
            kind = word >> 22
            if form == 0 and kind < 2:
                new = word & ~0xF0000 | pick.randrange(16) << 16
            elif form == 1 and kind == 2:
                new = word & ~0x1FFC | self.near(at, len(words)) << 2
            elif form == 2:
                new = 0
            elif form == 3 and kind == 3:
                new = word ^ 1 << 6 + pick.choice([0, 1, 4, 7, 10, pick.randrange(16)])
            elif form == 4 and kind < 2:
                new = word ^ pick.choice([1 << 8, 1 << 9, 1 << 13, 1 << 15, 1 << 20])
            elif form == 5 and kind >= 2:
                new = word ^ (1 if kind == 2 else 0x10)
            else:
                continue
            if new != word and (form != 2 or self.chance(0.4)) and (form != 5 or self.chance(0.3)):
                return words[:at] + [new] + words[at + 1 :]

    def data(self):
        """Data words: the highest addresses, where RP stands at first, hold something."""
        return [0] * 1008 + [self.pick.randrange(65536) for _ in range(16)]

    def pair(self):
        first = self.words()
        second, data = self.changed(first), self.data()
        n = self.pick.choice([0, 1, 1, 2, 2, 2, 2, 2, 2])
        shape = "".join(self.pick.choice("RWX") for _ in range(n)) if self.chance(0.7) else None
        if n == 2 and self.chance(0.4):
            shape = "WR"
        return first, second, data, n, max(self.pick.randrange(4, 13), self.pick.randrange(4, 13)), shape


def image(words, data):
    program = b"".join(word.to_bytes(3, "little") for word in words)
    return program.ljust(6144, b"\0") + b"".join(word.to_bytes(2, "little") for word in data)


class Disagreement(Exception):
    pass


def want(good, what):
    if not good:
        raise Disagreement(what)


class Judge:
    """Holds the answer of one pair against the enumeration."""

    def __init__(self, folder, program, n, k, shape):
        self.folder, self.program, self.n, self.k, self.shape = folder, program, n, k, shape
        self.letters = shape or "X" * n
        lines = self.enumerate("all", "A", "B", n, k, self.letters or "-").splitlines()
        self.facts = {line.split()[0]: line.split()[1:] for line in lines}

    def comes_to(self):
        """The first of the shares that the enumeration found."""
        return next((share for share in SHARES if any(fact.startswith(share) for fact in self.facts)), "none of these")

    def enumerate(self, *words):
        words = [self.program, *map(str, words)]
        return subprocess.run(words, cwd=self.folder, check=True, capture_output=True, text=True).stdout

    def ask(self, points):
        """The lines and the status of the program's answer."""
        words = ["compare", "A", "B", str(self.n), str(self.k), f"points={points}"]
        words += [f"shape={self.shape}"] if self.shape is not None else []
        done = subprocess.run([PROGRAM, *words], cwd=self.folder, capture_output=True, text=True)
        return done.stdout.splitlines(), done.returncode

    def replay(self, side, held, accesses):
        words = self.enumerate("one", side, self.k, "held" if held else "plain", *accesses).split()
        return words[0], words[1:]

    def dialogue(self, lines):
        """The accesses of printed lines, with the replies of each."""
        rows = [line.split(" ") for line in lines]
        for row in rows:
            want(re.fullmatch("W [0-9A-F]{2}|[RS]( [0-9A-F]{2}){0,2}", " ".join(row)), f"line {row}")
        accesses = [row[0] + row[1] if row[0] == "W" else row[0] for row in rows]
        moves = [access[0] for access in accesses if access != "S"]
        allowed = all(letter in ("X", move) for letter, move in zip(self.letters, moves))
        want(len(moves) <= self.n and allowed, "the dialogue doesn't fit")
        return accesses, [row[1:] for row in rows if row[0] != "W"]

    def held(self, side, lines, end):
        """A printed held dialogue ends so, and has the right replies."""
        want(lines and lines[-1] == "HOLD", "HOLD")
        accesses, replies = self.dialogue(lines[:-1])
        want("S" not in accesses, "a status read")
        came, said = self.replay(side, True, accesses)
        want(came == end, f"the held run is {came}")
        silent = len(replies) - len(said)
        want(replies == [[byte] for byte in said] + [[]] * silent, f"the replies are {said}")

    def equal(self, lines):
        for fact in ("different", "breach-A", "breach-B"):
            want(fact not in self.facts, f"there is {fact}")
        if "overrun-A" in self.facts or "overrun-B" in self.facts:
            side = "A" if "overrun-A" in self.facts else "B"
            want(lines[1:2] == [f"OVERRUN {side}"], f"there is overrun-{side}")
            self.held(side, lines[2:], "overrun")
        else:
            want(lines[1:] == ["PACE KEPT"], "no run overruns")

    def different(self, lines):
        want("different" in self.facts, "there is no difference")
        accesses, replies = self.dialogue(lines[1:])
        want(accesses and accesses[-1][0] in "RS" and "S" not in accesses[:-1], "the last access alone may be S")
        first, second = (self.replay(side, False, accesses) for side in "AB")
        want(first[0] == second[0] == "answered", f"the plain runs are {first[0]} and {second[0]}")
        right = [list(both) for both in zip(first[1], second[1])]
        want(replies == right, f"the replies are {right}")
        want(first[1][:-1] == second[1][:-1] and first[1][-1] != second[1][-1], "the last reply alone should differ")

    def breach(self, lines):
        want(re.fullmatch("BREACH [AB] [0-7][0-9A-F]{2}", lines[0]), "the first line")
        _, side, at = lines[0].split(" ")
        want(f"breach-{side}" in self.facts, f"there is no breach on {side}")
        self.held(side, lines[1:], f"breach-{at}")

    def budgets(self, lines):
        """With as many points as are reached the answer is the same, and with one less it is left open."""
        reached = int(self.facts["points"][0])
        want(reached <= 8192, f"{reached} points are reached")
        want(self.ask(reached) == (lines, 0), f"points={reached} should be enough: {self.ask(reached)}")
        few = reached - 1
        want(not few or self.ask(few) == ([f"UNKNOWN POINTS {few}"], 5), f"points={few} is too few: {self.ask(few)}")

    def judge(self, lines, status):
        """The name of the answer; raises what is wrong with it."""
        want(lines, f"no answer, status {status}")
        name = lines[0].split(" ")[0]
        heading = f"{name} {self.n} {self.k}"
        want({"EQUAL": 0, "DIFFERENT": 1, "BREACH": 4, "UNKNOWN": 5}.get(name) == status, f"status {status}")
        want(name not in ("EQUAL", "DIFFERENT") or lines[0] == heading, "the first line")
        if name == "EQUAL":
            self.equal(lines)
            self.budgets(lines)
            return "EQUAL, " + " ".join(lines[1].split(" ")[:2])
        if name == "DIFFERENT":
            self.different(lines)
            return f"DIFFERENT, {lines[-1][0]} after {len(lines) - 2}"
        if name == "BREACH":
            self.breach(lines)
            return " ".join(lines[0].split(" ")[:2])
        want(lines in (["UNKNOWN POINTS 8192"], ["UNKNOWN CONFLICTS 100000"]), "the first line")
        if lines == ["UNKNOWN POINTS 8192"]:
            want(int(self.facts["points"][0]) > 8192, f"{self.facts['points']} points are reached")
        return lines[0]


def main():
    pairs = int(sys.argv[1]) if len(sys.argv) > 1 else 200
    maker = Maker(int(sys.argv[2]) if len(sys.argv) > 2 else 7725)
    if not PROGRAM.exists():
        subprocess.run([TOP / "n7725", "demo", "0"], stdout=subprocess.DEVNULL, check=True)
    counts, kept, drawn, bad = collections.Counter(), collections.Counter(), 0, 0
    with tempfile.TemporaryDirectory() as folder:
        folder = pathlib.Path(folder)
        program = folder / "enumeration"
        (folder / "enumeration.c").write_text(ENUMERATION)
        subprocess.run(["gcc", "-O2", "-Wall", "-o", program, folder / "enumeration.c"], check=True)
        while kept.total() < pairs:
            drawn += 1
            first, second, data, n, k, shape = maker.pair()
            (folder / "A").write_bytes(image(first, data))
            (folder / "B").write_bytes(image(second, data))
            judge = Judge(folder, program, n, k, shape)
            if kept[judge.comes_to()] >= SHARES[judge.comes_to()] * pairs:
                continue
            kept[judge.comes_to()] += 1
            lines, status = judge.ask(8192)
            try:
                counts[judge.judge(lines, status)] += 1
            except Disagreement as fault:
                bad += 1
                print(f"DISAGREEMENT: {fault}")
                print(f"  compare A B {n} {k} shape={shape}: {' / '.join(lines)}, status {status}")
                print(f"  the enumeration: {judge.facts}")
                for name, words in (("A", first), ("B", second)):
                    print(f"  {name}: {' '.join(f'{word:06X}' for word in words)}")
                print(f"  data words from 3F0: {' '.join(f'{word:04X}' for word in data[1008:])}")
    for name, count in sorted(counts.items()):
        print(f"{count:4} {name}")
    print(f"{pairs} pairs of {drawn} drawn, {bad} disagreements")
    return 1 if bad else 0


if __name__ == "__main__":
    sys.exit(main())
