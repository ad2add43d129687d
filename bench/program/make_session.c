/* Writes a session: make_session KINDS MARKS LINES EDITS. It opens a book and builds a sparse one: one or two parents a kind, a rule at about one place
   in sixteen. Then come LINES lines, of which EDITS in a hundred are edits, one in a hundred is refused, and the others are finds; the edits keep to
   four parents a kind and to rules at one place in eight. The same arguments give the same session. */
#include <stdint.h>
#include <stdio.h>
#include <stdlib.h>

static uint64_t state = 88172645463325252u;

static unsigned below(unsigned n) {
    state ^= state << 13;
    state ^= state >> 7;
    state ^= state << 17;
    return (unsigned)(state >> 32) % n;
}

/* Of four parents that a child may have; each has a lower number, so that no link closes a circle. */
static unsigned parent(unsigned child, unsigned i) { return (child / (i + 2) + 5 * i) % child; }

/* Of the marks that may have a rule at a kind: one in eight. */
static unsigned mark(unsigned kind, unsigned m) { return (below(m) / 8 * 8 + kind % 8) % m; }

static void link_form(const char *verb, unsigned n) {
    unsigned child = 1 + below(n - 1);
    printf("(%s (under %u %u))\n", verb, child, parent(child, below(4)));
}

static void add_rule(unsigned n, unsigned m) {
    unsigned kind = below(n);
    printf("(add (rule %u %u %u))\n", kind, mark(kind, m), 1 + below(65535));
}

static void take_rule(unsigned n, unsigned m) {
    unsigned kind = below(n);
    printf("(take (rule %u %u))\n", kind, mark(kind, m));
}

static void edit(unsigned n, unsigned m) {
    switch (below(4)) {
    case 0: link_form("add", n); break;
    case 1: link_form("take", n); break;
    case 2: add_rule(n, m); break;
    default: take_rule(n, m);
    }
}

static void refused(unsigned n, unsigned m, int with_edits) {
    switch (below(with_edits ? 6 : 3)) {
    case 0: printf("(find %u %u)\n", n, below(m)); break;
    case 1: printf("(find %u %u)\n", below(n), m); break;
    case 2: printf("find %u %u\n", n, m); break;
    case 3: printf("(open %u %u)\n", 129 + n, m); break;
    case 4: printf("(add (rule %u %u 0))\n", below(n), below(m)); break;
    default: printf("(add (under 0 0))\n");
    }
}

int main(int argc, char **argv) {
    if (argc != 5) return 1;
    unsigned n = (unsigned)atoi(argv[1]), m = (unsigned)atoi(argv[2]), lines = (unsigned)atoi(argv[3]), edits = (unsigned)atoi(argv[4]);
    printf("(open %u %u)\n", n, m);
    for (unsigned c = 1; c < n; c++)
        for (unsigned i = 0; i < 1 + c % 2; i++) printf("(add (under %u %u))\n", c, parent(c, i));
    for (unsigned i = 0; i < n * m / 16; i++) add_rule(n, m);
    for (unsigned i = 0; i < lines; i++) {
        unsigned kind = below(100);
        if (kind < edits) edit(n, m);
        else if (kind < edits + 1) refused(n, m, edits > 0);
        else printf("(find %u %u)\n", below(n), below(m));
    }
    return 0;
}
