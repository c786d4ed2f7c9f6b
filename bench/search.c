/* The search in its plainest form, over clauses in DIMACS: a plain pass over all clauses until nothing changes.
   Prints the conflicts and the literals that clauses made true. */
#include <stdio.h>
#include <stdlib.h>

enum { MOST = 4096, LONGEST = 8 };
static int clauses[MOST][LONGEST], lengths[MOST], count, variables, inputs;
static signed char value[MOST];
static int trail[MOST], made;
static long conflicts, propagations;

static int truth(int lit) { return lit > 0 ? value[lit] : -value[-lit]; }

static void set(int lit) {
    value[abs(lit)] = lit > 0 ? 1 : -1;
    trail[made++] = abs(lit);
}

static int falsified(void) {
    for (int changed = 1; changed;) {
        changed = 0;
        for (int c = 0; c < count; c++) {
            int open = 0, last = 0, holds = 0;
            for (int k = 0; k < lengths[c]; k++) {
                int t = truth(clauses[c][k]);
                holds |= t > 0;
                if (t == 0 && clauses[c][k] != last) { open++; last = clauses[c][k]; }
            }
            if (holds || open > 1) continue;
            if (open == 0) return 1;
            set(last);
            propagations++;
            changed = 1;
        }
    }
    return 0;
}

static void search(void) {
    if (falsified()) { conflicts++; return; }
    int x = 1;
    while (x <= inputs && value[x]) x++;
    if (x > inputs) { puts("values"); exit(1); }
    int start = made;
    set(-x);
    search();
    while (made > start) value[trail[--made]] = 0;
    set(x);
    propagations++;
    search();
}

int main(int argc, char **argv) {
    FILE *text = fopen(argv[1], "r");
    inputs = atoi(argv[2]);
    if (!text || fscanf(text, "p cnf %d %d", &variables, &count) != 2 || count > MOST) return 2;
    for (int c = 0; c < count; c++)
        for (int lit; fscanf(text, "%d", &lit) == 1 && lit;) clauses[c][lengths[c]++] = lit;
    search();
    printf("%ld %ld\n", conflicts, propagations);
    return 0;
}
