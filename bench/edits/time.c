/* Times the four edits, refresh, save, return and a list of edits of the static library against the twin in C and against the base, the library of another commit, in
   one run: on books of three sizes where parents differ at few, some and many places. All do the same calls on books of their own, batch by batch in turns; their
   answers and tables are compared as they go. The list is timed against its edits by single calls too. */
#define _POSIX_C_SOURCE 199309L /* for clock_gettime */
#include "base.h"
#include "house.h"
#include "twin.h"
#include <stdio.h>
#include <stdlib.h>
#include <string.h>
#include <time.h>

enum { PLACES = 48, ROUNDS = 60, REPEATS = 9, LIBRARY = 0, TWIN = 1, BASE = 2, SIDES = 3, CALLS = 5 };
enum { LIST = 400, LIST_ROUNDS = 12, STATE_ROUNDS = 20 };

static uint64_t state = 88172645463325252ull;
static uint32_t random_below(uint32_t k) {
    state ^= state << 13;
    state ^= state >> 7;
    state ^= state << 17;
    return (uint32_t)(state >> 16) % k;
}

static double now(void) {
    struct timespec t;
    clock_gettime(CLOCK_PROCESS_CPUTIME_ID, &t);
    return (double)t.tv_sec * 1e6 + (double)t.tv_nsec / 1e3;
}

static void *zeros(size_t count, size_t size) {
    void *p = calloc(count, size);
    if (!p) abort();
    return p;
}

static struct book new_book(uint16_t n, uint16_t m, size_t disputes_len) {
    struct book b = {n, m, 0, 0, 0, 0, 0, (size_t)n * n, (size_t)n * m, (size_t)n * m, CALLERS, disputes_len, 0};
    b.links = zeros(b.links_len, 1);
    b.rules = zeros(b.rules_len, 2);
    b.entries = zeros(b.entries_len, 2);
    b.tally = zeros(b.tally_len, 4);
    b.disputes = zeros(m, 2);
    return b;
}

static void free_book(const struct book *b) {
    free(b->links);
    free(b->rules);
    free(b->entries);
    free(b->tally);
    free(b->disputes);
}

/* Counts of disputes are copied and compared if the second book has them, which that of the base may not. */
static void copy(const struct book *from, const struct book *to) {
    memcpy(to->links, from->links, from->links_len);
    memcpy(to->rules, from->rules, 2 * from->rules_len);
    memcpy(to->entries, from->entries, 2 * from->entries_len);
    memcpy(to->tally, from->tally, 4 * from->tally_len);
    memcpy(to->disputes, from->disputes, 2 * to->disputes_len);
}

static int same(const struct book *a, const struct book *b) {
    return !memcmp(a->links, b->links, a->links_len) && !memcmp(a->rules, b->rules, 2 * a->rules_len) &&
           !memcmp(a->entries, b->entries, 2 * a->entries_len) && !memcmp(a->tally, b->tally, 4 * a->tally_len) &&
           !memcmp(a->disputes, b->disputes, 2 * b->disputes_len);
}

static void clear(const struct book *b) {
    memset(b->links, 0, b->links_len);
    memset(b->rules, 0, 2 * b->rules_len);
    memset(b->entries, 0, 2 * b->entries_len);
    memset(b->tally, 0, 4 * b->tally_len);
    memset(b->disputes, 0, 2 * b->disputes_len);
}

/* One edit of a caller: a rule at (x, y) or a link from x to y, added with a value or taken; or x is the name of a state. */
struct edit {
    uint16_t caller, x, y, value;
};

#define SIZE(b) (b)->n, (b)->m
#define FOUR(b) (b)->links, (b)->links_len, (b)->rules, (b)->rules_len, (b)->entries, (b)->entries_len, (b)->tally, (b)->tally_len
#define FIVE(b) FOUR(b), (b)->disputes, (b)->disputes_len
#define TABLES(b) SIZE(b), FIVE(b)

/* What the base is lent, and whether it counts disputes: it does not if it is from before that. */
#ifdef BASE_DISPUTES
#define BASE_TABLES(b) TABLES(b)
enum { BASE_COUNTS = 1 };
#else
#define BASE_TABLES(b) SIZE(b), FOUR(b)
enum { BASE_COUNTS = 0 };
#endif

typedef uint32_t call(const struct book *b, struct edit e);
static uint32_t house_1(const struct book *b, struct edit e) { return house_add_rule(TABLES(b), e.caller, e.x, e.y, e.value); }
static uint32_t house_2(const struct book *b, struct edit e) { return house_take_rule(TABLES(b), e.caller, e.x, e.y); }
static uint32_t house_3(const struct book *b, struct edit e) { return house_add_link(TABLES(b), e.caller, e.x, e.y); }
static uint32_t house_4(const struct book *b, struct edit e) { return house_take_link(TABLES(b), e.caller, e.x, e.y); }
static uint32_t twin_1(const struct book *b, struct edit e) { return twin_add_rule(b, e.caller, e.x, e.y, e.value); }
static uint32_t twin_2(const struct book *b, struct edit e) { return twin_take_rule(b, e.caller, e.x, e.y); }
static uint32_t twin_3(const struct book *b, struct edit e) { return twin_add_link(b, e.caller, e.x, e.y); }
static uint32_t twin_4(const struct book *b, struct edit e) { return twin_take_link(b, e.caller, e.x, e.y); }
static uint32_t base_1(const struct book *b, struct edit e) { return base_add_rule(BASE_TABLES(b), e.caller, e.x, e.y, e.value); }
static uint32_t base_2(const struct book *b, struct edit e) { return base_take_rule(BASE_TABLES(b), e.caller, e.x, e.y); }
static uint32_t base_3(const struct book *b, struct edit e) { return base_add_link(BASE_TABLES(b), e.caller, e.x, e.y); }
static uint32_t base_4(const struct book *b, struct edit e) { return base_take_link(BASE_TABLES(b), e.caller, e.x, e.y); }

/* Before a refresh one rule becomes another, or is put in or taken out, behind the back of the entries. */
static void disturb(const struct book *b, struct edit e) { b->rules[(size_t)e.x * b->m + e.y] ^= e.value; }
static uint32_t house_5(const struct book *b, struct edit e) { return disturb(b, e), house_refresh(TABLES(b)); }
static uint32_t twin_5(const struct book *b, struct edit e) { return disturb(b, e), twin_refresh(b); }
static uint32_t base_5(const struct book *b, struct edit e) { return disturb(b, e), base_refresh(BASE_TABLES(b)); }

static call *const calls[SIDES][CALLS] = {
    {house_1, house_2, house_3, house_4, house_5}, {twin_1, twin_2, twin_3, twin_4, twin_5}, {base_1, base_2, base_3, base_4, base_5}};
static const char *const name[CALLS] = {"add rule", "take rule", "add link", "take link", "refresh"};
static const int of_links[CALLS] = {0, 0, 1, 1, 0};

static int compare(const void *a, const void *b) {
    double x = *(const double *)a, y = *(const double *)b;
    return (x > y) - (x < y);
}
static double median(double *v, int k) {
    qsort(v, (size_t)k, sizeof *v, compare);
    return v[k / 2];
}

static double batch(call *f, const struct book *b, const struct edit *edits, uint64_t *sum) {
    double start = now();
    for (int i = 0; i < PLACES; i++) *sum = *sum * 31 + f(b, edits[i]);
    return (now() - start) / PLACES;
}

/* What the books are like: a kind has one to `parents` parents of lower number (some may be drawn twice), one place in `places` has a rule. */
struct shape {
    uint16_t n, m;
    const char *much;
    uint32_t parents, places;
};

static void fill(const struct book *b, const struct shape *s) {
    clear(b);
    for (uint32_t c = 1; c < b->n; c++)
        for (uint32_t k = 1 + random_below(s->parents); k > 0; k--) b->links[c * b->n + random_below(c)] = 1;
    for (size_t i = 0; i < b->rules_len; i++)
        if (random_below(s->places) == 0) b->rules[i] = (uint16_t)(1 + random_below(65535));
}

/* Whether kind c has no own rule for the mark, and parents with different entries that are not none. */
static int parents_differ(const struct book *b, size_t c, size_t mark) {
    uint16_t one = 0;
    if (b->rules[c * b->m + mark] != 0) return 0;
    for (size_t p = 0; p < b->n; p++) {
        uint16_t entry = b->links[c * b->n + p] ? b->entries[p * b->m + mark] : 0;
        if (entry != 0 && one != 0 && entry != one) return 1;
        if (entry != 0) one = entry;
    }
    return 0;
}

static double share(const struct book *b) {
    size_t differ = 0;
    for (size_t i = 0; i < b->entries_len; i++) differ += (size_t)parents_differ(b, i / b->m, i % b->m);
    return 100.0 * (double)differ / (double)b->entries_len;
}

/* The same new book for all. The share of its places where parents differ. */
static double renew(const struct book *books, int many, const struct shape *s) {
    fill(&books[0], s);
    if (house_refresh(TABLES(&books[0])) >= HOUSE_REFUSED) abort();
    for (int i = 1; i < many; i++) copy(&books[0], &books[i]);
    return share(&books[0]);
}

/* Rules at any places and links from any kind to a lower one, so that no link closes a cycle, of any callers. */
static void choose(uint16_t n, uint16_t m, struct edit *rules, struct edit *links) {
    for (int i = 0; i < PLACES; i++) {
        uint16_t caller = (uint16_t)random_below(CALLERS), child = (uint16_t)(1 + random_below((uint32_t)n - 1u));
        rules[i] = (struct edit){caller, (uint16_t)random_below(n), (uint16_t)random_below(m), (uint16_t)(1 + random_below(65535))};
        links[i] = (struct edit){caller, child, (uint16_t)random_below(child), 1};
    }
}

static int run(const struct shape *s) {
    struct book books[SIDES];
    struct edit rules[PLACES], links[PLACES];
    static double times[SIDES][CALLS][REPEATS];
    double differ = 0;
    uint64_t sum[SIDES] = {0};
    for (int side = 0; side < SIDES; side++) books[side] = new_book(s->n, s->m, side != BASE || BASE_COUNTS ? s->m : 0);
    memset(times, 0, sizeof times);
    for (int r = 0; r < REPEATS; r++)
        for (int round = 0; round < ROUNDS; round++) {
            differ += renew(books, SIDES, s) / (REPEATS * ROUNDS);
            choose(s->n, s->m, rules, links);
            for (int k = 0; k < CALLS; k++) {
                for (int i = 0; i < SIDES; i++) {
                    int side = (round + i) % SIDES; /* who comes first on a new book takes longer: caches do not hold it yet */
                    times[side][k][r] += batch(calls[side][k], &books[side], of_links[k] ? links : rules, &sum[side]) / ROUNDS;
                }
                for (int side = TWIN; side < SIDES; side++)
                    if (sum[side] != sum[LIBRARY] || !same(&books[LIBRARY], &books[side]))
                        return printf("%u x %u: %s differs\n", s->n, s->m, name[k]), 1;
            }
        }
    for (int k = 0; k < CALLS; k++) {
        double x = median(times[LIBRARY][k], REPEATS), y = median(times[TWIN][k], REPEATS), z = median(times[BASE][k], REPEATS);
        printf("%3u x %2u  %-4s (%2.0f %%)  %-9s  %6.2f us  C %6.2f us  ratio %.2f  base %6.2f us  ratio %.2f\n", s->n, s->m, s->much, differ, name[k],
               x, y, x / y, z, x / z);
    }
    for (int side = 0; side < SIDES; side++) free_book(&books[side]);
    return 0;
}

/* ---- a list of edits */

/* The ways to make a list: in one call, by single calls, whose answers are put together, by the twin, and by the base if it has lists. */
typedef uint64_t list_call(const struct book *b, uint16_t caller, const struct house_edit *edits);
static uint64_t house_list(const struct book *b, uint16_t caller, const struct house_edit *edits) {
    return house_make_list(SIZE(b), edits, LIST, FIVE(b), caller);
}
static uint64_t house_singly(const struct book *b, uint16_t caller, const struct house_edit *edits) {
    uint64_t changed = 0;
    for (int i = 0; i < LIST; i++) {
        struct house_edit e = edits[i];
        uint32_t answer = calls[LIBRARY][e.what - HOUSE_ADD_RULE](b, (struct edit){caller, e.kind, e.other, e.handling});
        if (house_is_refusal(answer)) return answer;
        changed += answer;
    }
    return changed << 32 | LIST;
}
static uint64_t twin_list(const struct book *b, uint16_t caller, const struct house_edit *edits) { return twin_make_list(b, caller, edits, LIST); }
#ifdef BASE_LISTS
static uint64_t base_list(const struct book *b, uint16_t caller, const struct house_edit *edits) {
    return base_make_list(SIZE(b), (const struct base_edit *)edits, LIST, FIVE(b), caller);
}
#endif

static const struct {
    const char *name;
    list_call *make;
} ways[] = {
    {"list", house_list},
    {"single calls", house_singly},
    {"C", twin_list},
#ifdef BASE_LISTS
    {"base", base_list},
#endif
};
enum { WAYS = sizeof ways / sizeof *ways };

/* The numbers below `many` in an order that is drawn. */
static void shuffle(uint16_t *order, uint32_t many) {
    for (uint32_t i = 0; i < many; i++) {
        uint32_t at = random_below(i + 1);
        order[i] = order[at];
        order[at] = (uint16_t)i;
    }
}

/* Two edits at one place, of which the first can be made on the book and the second undoes it. A pair is a link to a kind of lower number; they are numbered
   child by child. */
static void rule_and_back(const struct book *b, size_t place, struct house_edit *two) {
    uint16_t own = b->rules[place], kind = (uint16_t)(place / b->m), mark = (uint16_t)(place % b->m);
    two[own != 0] = (struct house_edit){HOUSE_ADD_RULE, kind, mark, own ? own : (uint16_t)(1 + random_below(65535))};
    two[own == 0] = (struct house_edit){HOUSE_TAKE_RULE, kind, mark, 0};
}
static void link_and_back(const struct book *b, size_t pair, struct house_edit *two) {
    size_t child = 1;
    while (pair >= child) pair -= child++;
    int there = b->links[child * b->n + pair];
    two[there] = (struct house_edit){HOUSE_ADD_LINK, (uint16_t)child, (uint16_t)pair, 0};
    two[!there] = (struct house_edit){HOUSE_TAKE_LINK, (uint16_t)child, (uint16_t)pair, 0};
}

/* A list of as many rules as links, all at different places, each changed and later changed back. Links lead to kinds of lower number, so that all are accepted in
   whatever order, and leave the book as it was. */
static void draw_list(const struct book *b, struct house_edit *edits) {
    static uint16_t places[128 * 64], pairs[128 * 127 / 2], slots[LIST];
    shuffle(places, (uint32_t)b->rules_len);
    shuffle(pairs, (uint32_t)b->n * (b->n - 1u) / 2);
    shuffle(slots, LIST);
    for (int i = 0; i < LIST / 2; i++) {
        struct house_edit two[2];
        uint16_t one = slots[2 * i], other = slots[2 * i + 1];
        if (i % 2) rule_and_back(b, places[i], two);
        else link_and_back(b, pairs[i], two);
        edits[one] = two[one > other];
        edits[other] = two[one < other];
    }
}

/* Makes the list in every way, and adds up the times. Whether all was accepted, and the answers and books are the same. */
static int make_list(const struct book *books, uint16_t caller, const struct house_edit *edits, int first, double *times) {
    uint64_t answers[WAYS];
    int alike = 1;
    for (int i = 0; i < WAYS; i++) {
        int way = (first + i) % WAYS;
        double start = now();
        answers[way] = ways[way].make(&books[way], caller, edits);
        times[way] += now() - start;
    }
    for (int i = 0; i < WAYS; i++) alike &= answers[i] == answers[0] && house_list_stop(answers[i]) == 0 && same(&books[0], &books[i]);
    return alike && house_list_accepted(answers[0]) == LIST;
}

/* On a new book the list is made once before it is timed, and again, which finds the book as it was: in the end the tally alone has grown. */
static int list_round(const struct book *books, const struct book *found, int first, double *times) {
    double untimed[WAYS] = {0};
    struct house_edit edits[LIST];
    uint16_t caller = (uint16_t)random_below(CALLERS);
    copy(&books[0], found);
    draw_list(found, edits);
    found->tally[caller] += 2 * LIST;
    return make_list(books, caller, edits, first, untimed) && make_list(books, caller, edits, first, times) && same(&books[0], found);
}

static int run_lists(const struct shape *s) {
    struct book books[WAYS], found = new_book(s->n, s->m, s->m);
    double times[WAYS][REPEATS] = {{0}}, differ = 0;
    for (int i = 0; i < WAYS; i++) books[i] = new_book(s->n, s->m, s->m);
    for (int r = 0; r < REPEATS; r++) {
        double sums[WAYS] = {0};
        for (int round = 0; round < LIST_ROUNDS; round++) {
            differ += renew(books, WAYS, s) / (REPEATS * LIST_ROUNDS);
            if (!list_round(books, &found, round, sums)) return printf("%u x %u: a list differs\n", s->n, s->m), 1;
        }
        for (int i = 0; i < WAYS; i++) times[i][r] = sums[i] / LIST_ROUNDS;
    }
    double x = median(times[0], REPEATS);
    printf("%3u x %2u  %-4s (%2.0f %%)  %s of %d  %7.1f us", s->n, s->m, s->much, differ, ways[0].name, LIST, x);
    for (int i = 1; i < WAYS; i++) {
        double y = median(times[i], REPEATS);
        printf("  %s %7.1f us  ratio %.2f", ways[i].name, y, x / y);
    }
    printf("\n");
    for (int i = 0; i < WAYS; i++) free_book(&books[i]);
    free_book(&found);
    return 0;
}

/* ---- save and return */

static struct store new_store(const struct book *b) {
    struct store s = {0, 0, 0, 0, 0, NAMES, NAMES * b->links_len, NAMES * b->rules_len, NAMES * b->entries_len, NAMES * b->disputes_len};
    s.flags = zeros(s.flags_len, 1);
    s.links = zeros(s.links_len, 1);
    s.rules = zeros(s.rules_len, 2);
    s.entries = zeros(s.entries_len, 2);
    s.disputes = zeros(s.disputes_len, 2);
    return s;
}

static void free_store(const struct store *s) {
    free(s->flags);
    free(s->links);
    free(s->rules);
    free(s->entries);
    free(s->disputes);
}

static void copy_store(const struct store *from, const struct store *to) {
    memcpy(to->flags, from->flags, from->flags_len);
    memcpy(to->links, from->links, from->links_len);
    memcpy(to->rules, from->rules, 2 * from->rules_len);
    memcpy(to->entries, from->entries, 2 * from->entries_len);
    memcpy(to->disputes, from->disputes, 2 * from->disputes_len);
}

static int same_store(const struct store *a, const struct store *b) {
    return !memcmp(a->flags, b->flags, a->flags_len) && !memcmp(a->links, b->links, a->links_len) && !memcmp(a->rules, b->rules, 2 * a->rules_len) &&
           !memcmp(a->entries, b->entries, 2 * a->entries_len) && !memcmp(a->disputes, b->disputes, 2 * a->disputes_len);
}

#define STORE(s) \
    (s)->flags, (s)->flags_len, (s)->links, (s)->links_len, (s)->rules, (s)->rules_len, (s)->entries, (s)->entries_len, (s)->disputes, (s)->disputes_len

static uint32_t house_6(const struct book *b, struct edit e) { return house_return(TABLES(b), STORE(b->store), e.caller, e.x); }
static uint32_t house_7(const struct book *b, struct edit e) { return house_save(TABLES(b), STORE(b->store), e.x); }
static uint32_t twin_6(const struct book *b, struct edit e) { return twin_return(b, e.caller, e.x); }
static uint32_t twin_7(const struct book *b, struct edit e) { return twin_save(b, e.x); }
#ifdef BASE_STATES
static uint32_t base_6(const struct book *b, struct edit e) { return base_return(TABLES(b), STORE(b->store), e.caller, e.x); }
static uint32_t base_7(const struct book *b, struct edit e) { return base_save(TABLES(b), STORE(b->store), e.x); }
#endif

/* Return comes first: the saves after it leave one book under all names. */
enum { STATE_CALLS = 2 };
static const char *const state_name[STATE_CALLS] = {"return", "save"};
static const struct {
    const char *name;
    call *make[STATE_CALLS];
} state_sides[] = {
    {"library", {house_6, house_7}},
    {"C", {twin_6, twin_7}},
#ifdef BASE_STATES
    {"base", {base_6, base_7}},
#endif
};
enum { STATE_SIDES = sizeof state_sides / sizeof *state_sides };

/* The same new book and store for all, with six rules more under each name than under the one before, and any names and callers for the calls. */
static double renew_states(const struct book *books, const struct shape *s, struct edit *edits) {
    struct edit rules[PLACES], links[PLACES];
    double differ = renew(books, 1, s);
    choose(s->n, s->m, rules, links);
    for (int i = 0; i < PLACES; i++) {
        if (house_is_refusal(house_1(&books[0], rules[i]))) abort();
        if (house_7(&books[0], (struct edit){0, (uint16_t)(i * NAMES / PLACES), 0, 0}) != 0) abort();
        edits[i] = (struct edit){rules[i].caller, (uint16_t)random_below(NAMES), 0, 0};
    }
    for (int i = 1; i < STATE_SIDES; i++) {
        copy(&books[0], &books[i]);
        copy_store(books[0].store, books[i].store);
    }
    return differ;
}

/* A batch of returns and then one of saves by every side, and the times added up. Whether the answers, books and stores are the same. */
static int state_round(const struct book *books, const struct edit *edits, int first, double times[][STATE_CALLS]) {
    uint64_t sum[STATE_SIDES] = {0};
    int alike = 1;
    for (int k = 0; k < STATE_CALLS; k++) {
        for (int i = 0; i < STATE_SIDES; i++) {
            int side = (first + i) % STATE_SIDES;
            times[side][k] += batch(state_sides[side].make[k], &books[side], edits, &sum[side]);
        }
        for (int i = 1; i < STATE_SIDES; i++)
            alike &= sum[i] == sum[0] && same(&books[0], &books[i]) && same_store(books[0].store, books[i].store);
    }
    return alike;
}

static int run_states(const struct shape *s) {
    struct book books[STATE_SIDES];
    struct store stores[STATE_SIDES];
    struct edit edits[PLACES];
    double times[STATE_SIDES][STATE_CALLS][REPEATS] = {{{0}}}, differ = 0;
    for (int i = 0; i < STATE_SIDES; i++) {
        books[i] = new_book(s->n, s->m, s->m);
        stores[i] = new_store(&books[i]);
        books[i].store = &stores[i];
    }
    for (int r = 0; r < REPEATS; r++) {
        double sums[STATE_SIDES][STATE_CALLS] = {{0}};
        for (int round = 0; round < STATE_ROUNDS; round++) {
            differ += renew_states(books, s, edits) / (REPEATS * STATE_ROUNDS);
            if (!state_round(books, edits, round, sums)) return printf("%u x %u: save or return differs\n", s->n, s->m), 1;
        }
        for (int i = 0; i < STATE_SIDES * STATE_CALLS; i++) times[i / STATE_CALLS][i % STATE_CALLS][r] = sums[i / STATE_CALLS][i % STATE_CALLS] / STATE_ROUNDS;
    }
    for (int k = 0; k < STATE_CALLS; k++) {
        double x = median(times[0][k], REPEATS);
        printf("%3u x %2u  %-4s (%2.0f %%)  %-9s  %6.2f us", s->n, s->m, s->much, differ, state_name[k], x);
        for (int i = 1; i < STATE_SIDES; i++) {
            double y = median(times[i][k], REPEATS);
            printf("  %s %6.2f us  ratio %.2f", state_sides[i].name, y, x / y);
        }
        printf("\n");
    }
    for (int i = 0; i < STATE_SIDES; i++) {
        free_book(&books[i]);
        free_store(&stores[i]);
    }
    return 0;
}

int main(void) {
    static const struct shape shapes[] = {{24, 16, "few", 2, 12},  {24, 16, "some", 3, 4},   {24, 16, "many", 14, 3},
                                          {64, 32, "few", 2, 20},  {64, 32, "some", 3, 8},   {64, 32, "many", 8, 6},
                                          {128, 64, "few", 2, 26}, {128, 64, "some", 3, 13}, {128, 64, "many", 6, 8}};
    for (size_t i = 0; i < sizeof shapes / sizeof *shapes; i++)
        if (run(&shapes[i]) || run_states(&shapes[i]) || run_lists(&shapes[i])) return EXIT_FAILURE;
    return EXIT_SUCCESS;
}
