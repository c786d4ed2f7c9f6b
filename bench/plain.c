/* The chip as a plain interpreter in C, for the benchmark alone: it is the yardstick of step.sh, and nothing
   else rests on it. Usage: plain IMAGE COUNT executes COUNT instructions from reset, and prints PC, A and B,
   so that no compiler drops the work. */
#include <stdint.h>
#include <stdio.h>
#include <stdlib.h>

typedef struct { int c, z, s0, s1, ov0, ov1; } Flags;

typedef struct {
    uint16_t pc, rp, a, b, tr, trb, k, l, dr, sr, so, stack[4], ram[256];
    uint8_t sp, dp;
    Flags flags[2];
} Chip;

static uint32_t prog[2048];
static uint16_t drom[1024];

static uint16_t source(Chip *m, int src) {
    switch (src) {
    case 0: return m->trb;
    case 1: return m->a;
    case 2: return m->b;
    case 3: return m->tr;
    case 4: return m->dp;
    case 5: return m->rp;
    case 6: return drom[m->rp];
    case 7: return m->flags[0].s1 ? 0x7FFF : 0x8000;
    case 8: m->sr |= 0x8000; return m->dr;
    case 9: return m->dr;
    case 10: return m->sr;
    case 13: return m->k;
    case 14: return m->l;
    case 15: return m->ram[m->dp];
    default: return 0;
    }
}

static void sum(Flags *f, uint16_t q, uint16_t p, uint32_t wide, int less) {
    uint16_t r = (uint16_t)wide;
    int s0 = r >> 15;
    int over = ((less ? q ^ p : ~(q ^ p)) & (q ^ r)) >> 15 & 1;
    int s1 = f->ov1 ? f->s1 : s0;
    int ov1 = over && f->ov1 ? s1 == s0 : over || f->ov1;
    *f = (Flags){ (int)(wide >> 16 & 1), r == 0, s0, s1, over, ov1 };
}

static void plain(Flags *f, uint16_t r, int c) {
    int s0 = r >> 15;
    *f = (Flags){ c, r == 0, s0, f->ov1 ? f->s1 : s0, 0, 0 };
}

static uint16_t alu(int op, uint16_t q, uint16_t p, int c, Flags *f) {
    uint16_t r;
    uint32_t w;
    switch (op) {
    case 1: r = q | p; plain(f, r, 0); return r;
    case 2: r = q & p; plain(f, r, 0); return r;
    case 3: r = q ^ p; plain(f, r, 0); return r;
    case 4: w = (uint32_t)q - p; sum(f, q, p, w, 1); return (uint16_t)w;
    case 5: w = (uint32_t)q + p; sum(f, q, p, w, 0); return (uint16_t)w;
    case 6: w = (uint32_t)q - p - c; sum(f, q, p, w, 1); return (uint16_t)w;
    case 7: w = (uint32_t)q + p + c; sum(f, q, p, w, 0); return (uint16_t)w;
    case 8: w = (uint32_t)q - 1; sum(f, q, 1, w, 1); return (uint16_t)w;
    case 9: w = (uint32_t)q + 1; sum(f, q, 1, w, 0); return (uint16_t)w;
    case 10: r = (uint16_t)~q; plain(f, r, 0); return r;
    case 11: r = (q & 0x8000) | q >> 1; plain(f, r, q & 1); return r;
    case 12: r = (uint16_t)(q << 1 | c); plain(f, r, q >> 15); return r;
    case 13: r = (uint16_t)(q << 2 | 3); plain(f, r, 0); return r;
    case 14: r = (uint16_t)(q << 4 | 15); plain(f, r, 0); return r;
    default: r = (uint16_t)(q << 8 | q >> 8); plain(f, r, 0); return r;
    }
}

static void move(Chip *m, int dst, uint16_t bus, uint8_t dp, uint16_t rp) {
    switch (dst) {
    case 1: m->a = bus; break;
    case 2: m->b = bus; break;
    case 3: m->tr = bus; break;
    case 4: m->dp = (uint8_t)bus; break;
    case 5: m->rp = bus & 0x3FF; break;
    case 6: m->dr = bus; m->sr |= 0x8000; break;
    case 7: m->sr = (m->sr & 0x907C) | (bus & 0x6F83); break;
    case 8: case 9: m->so = bus; break;
    case 10: m->k = bus; break;
    case 11: m->k = bus; m->l = drom[rp]; break;
    case 12: m->l = bus; m->k = m->ram[dp | 0x40]; break;
    case 13: m->l = bus; break;
    case 14: m->trb = bus; break;
    case 15: m->ram[dp] = bus; break;
    default: break;
    }
}

static void operate(Chip *m, uint32_t w) {
    int op = w >> 16 & 15, acc = w >> 15 & 1, dst = w & 15;
    uint8_t dp = m->dp;
    uint16_t rp = m->rp;
    uint16_t k = m->k, l = m->l;
    uint16_t bus = source(m, w >> 4 & 15);
    if (op) {
        uint16_t *q = acc ? &m->b : &m->a;
        uint32_t product = (uint32_t)((int32_t)(int16_t)k * (int16_t)l) << 1;
        uint16_t p = 0;
        switch (w >> 20 & 3) {
        case 0: p = m->ram[dp]; break;
        case 1: p = bus; break;
        case 2: p = (uint16_t)(product >> 16); break;
        default: p = (uint16_t)product; break;
        }
        *q = alu(op, *q, p, m->flags[!acc].c, &m->flags[acc]);
    }
    move(m, dst, bus, dp, rp);
    if (dst != 4) {
        int low = dp & 15;
        switch (w >> 13 & 3) {
        case 1: low = (low + 1) & 15; break;
        case 2: low = (low - 1) & 15; break;
        case 3: low = 0; break;
        default: break;
        }
        m->dp = (uint8_t)(((dp >> 4 ^ (w >> 9 & 15)) << 4) | low);
    }
    if (w >> 8 & 1 && dst != 5) m->rp = (rp - 1) & 0x3FF;
}

static int taken(const Chip *m, int code) {
    const Flags *f = &m->flags[code >> 2 & 1];
    int one = code >> 1 & 1;
    switch (code) {
    case 0x0B0: return (m->dp & 15) == 0;
    case 0x0B1: return (m->dp & 15) != 0;
    case 0x0B2: return (m->dp & 15) == 15;
    case 0x0B3: return (m->dp & 15) != 15;
    case 0x0B4: case 0x0B8: return 1;
    case 0x0BC: return !(m->sr >> 15);
    case 0x0BE: return m->sr >> 15;
    case 0x100: case 0x140: return 1;
    default: break;
    }
    if (code & 1) return 0;
    switch (code >> 3) {
    case 0x10: return f->c == one;
    case 0x11: return f->z == one;
    case 0x12: return f->ov0 == one;
    case 0x13: return f->ov1 == one;
    case 0x14: return f->s0 == one;
    case 0x15: return f->s1 == one;
    default: return 0;
    }
}

static void step(Chip *m) {
    uint32_t w = prog[m->pc];
    m->pc = (m->pc + 1) & 0x7FF;
    switch (w >> 22) {
    case 0: operate(m, w); break;
    case 1: operate(m, w); m->sp = (m->sp - 1) & 3; m->pc = m->stack[m->sp]; break;
    case 2: {
        int code = w >> 13 & 0x1FF;
        if (!taken(m, code)) break;
        if (code == 0x140) { m->stack[m->sp] = m->pc; m->sp = (m->sp + 1) & 3; }
        m->pc = w >> 2 & 0x7FF;
        break;
    }
    default: move(m, w & 15, (uint16_t)(w >> 6), m->dp, m->rp); break;
    }
}

int main(int argc, char **argv) {
    static Chip chip;
    static unsigned char bytes[8192];
    FILE *file = argc == 3 ? fopen(argv[1], "rb") : NULL;
    if (!file || fread(bytes, 1, sizeof bytes, file) != sizeof bytes) return 2;
    for (int i = 0; i < 2048; i++) prog[i] = bytes[3 * i] | bytes[3 * i + 1] << 8 | (uint32_t)bytes[3 * i + 2] << 16;
    for (int i = 0; i < 1024; i++) drom[i] = (uint16_t)(bytes[6144 + 2 * i] | bytes[6145 + 2 * i] << 8);
    chip.rp = 0x3FF;
    for (uint64_t n = strtoull(argv[2], NULL, 10); n; n--) step(&chip);
    printf("%03X %04X %04X\n", chip.pc, chip.a, chip.b);
    return 0;
}
