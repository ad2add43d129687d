/* Holds every call of a house to docs/SCOPE.md as this file reads it: the kinds seen, those left of them and a plain
   recursive lookup, and the edits by working every entry out anew and counting the disputes anew.
   All books of up to 3 kinds and 2 marks whose links have no cycle, many random ones of 4 to 6 kinds and 2 marks, and
   more of 6 kinds with many parents: every call on each, with every kind and mark, the first that there is not, and the
   largest number, and an edit with each of these for some caller and for one that there is not; with each table one too
   short and one too long, the tally as short as it once was, and disputes of other lengths; and again on the book
   damaged, with its counts of disputes alone wrong and with other damage beside that, and as it was stored when the
   lookup was another. Callers, the numbers of the tally and the damage to counts are drawn, so that they meet all the
   rest and do not multiply it. A few named books have their answers, entries and counts written out as well, and larger
   tables show the edges of the sizes and the highest counts.
   Lists of edits are drawn for each book, with every refusal by which they stop, and tried on it in all these states;
   some are as long as a list may be, or longer. They are made in one call, by the single calls one after the other, and
   as this file reads those; on larger tables in the first two ways.
   A store is drawn for each book: zeros, anything, sound states and those that have each sort of damage, flags of any
   number. Save and return are tried with it on the book in all these states, and in sequences of all calls that write,
   whose answers and whose ten tables are compared after each call. From a return on, the calls are made on the state
   that was saved too, with the store as the return found it, which has to come to the same.
   It fails where a call differs, and where an answer of a call or a sort of damage came up too seldom. */

#include <stdio.h>
#include <stdlib.h>
#include <string.h>

#include "house.h"

#define MANY(list) (sizeof(list) / sizeof *(list))

/* A book has five tables, and so has a store. */
enum { KINDS = 6, MARKS = 2, MOST_MARKS = 64, TABLES = 5 };

/* Each table has room for one element more at least, and disputes for as many marks as any book has. There is no
   padding: books are compared as memory. */
struct book {
    uint16_t n, m;
    uint8_t links[KINDS * KINDS + 4];
    uint16_t rules[KINDS * MARKS + 2], entries[KINDS * MARKS + 2];
    uint32_t tally[HOUSE_CALLERS + 1];
    uint16_t disputes[MOST_MARKS + 2];
};

/* The store of a book, with room for one name more. There is no padding here either. */
struct store {
    uint8_t flags[HOUSE_NAMES + 2], links[(HOUSE_NAMES + 1) * KINDS * KINDS];
    uint16_t rules[(HOUSE_NAMES + 1) * KINDS * MARKS], entries[(HOUSE_NAMES + 1) * KINDS * MARKS];
    uint16_t disputes[(HOUSE_NAMES + 1) * MARKS];
};

/* ---- chance */

static unsigned long chance(void) {
    static uint64_t state = 88172645463325252u;
    state ^= state << 13;
    state ^= state >> 7;
    state ^= state << 17;
    return (unsigned long)(state >> 20);
}

/* A number from low to high; the two ends come often. */
static uint16_t between(unsigned low, unsigned high) {
    unsigned long way = chance() % 3;
    return (uint16_t)(way == 0 ? low : way == 1 ? high : low + chance() % (high - low + 1));
}

/* A number for a tally: often the highest that there is, or the one before it. */
static uint32_t tallied(void) {
    unsigned long way = chance() % 4;
    return way < 2 ? UINT32_MAX - (uint32_t)way : (uint32_t)chance();
}

/* ---- the calls */

/* All but the list; the edits have the numbers that its records give them. */
enum call {
    OPEN,
    ADD_RULE = HOUSE_ADD_RULE,
    TAKE_RULE = HOUSE_TAKE_RULE,
    ADD_LINK = HOUSE_ADD_LINK,
    TAKE_LINK = HOUSE_TAKE_LINK,
    REFRESH,
    INSPECT,
    PARTIES,
    SAVE,
    RETURN,
    CALLS
};

static int is_edit(enum call call) { return call >= ADD_RULE && call <= TAKE_LINK; }
static int has_caller(enum call call) { return is_edit(call) || call == RETURN; }
static int has_store(enum call call) { return call == SAVE || call == RETURN; }

/* Of each call its arguments (k a kind, m a mark, h a handling, s the name of a state), after the caller that an edit
   and a return have, and the refusals that it gives. They leave a 0 in each row, which stands for any other answer. */
static const struct {
    const char *name;
    char arguments[4];
    uint8_t refusals[7];
} calls[CALLS] = {
    [OPEN] = {"open", "", {1}},
    [ADD_RULE] = {"add rule", "kmh", {1, 13, 2, 3, 4, 5}},
    [TAKE_RULE] = {"take rule", "km", {1, 13, 2, 3, 5, 6}},
    [ADD_LINK] = {"add link", "kk", {1, 13, 2, 5, 7, 9}},
    [TAKE_LINK] = {"take link", "kk", {1, 13, 2, 5, 8}},
    [REFRESH] = {"refresh", "", {1, 5}},
    [INSPECT] = {"inspect", "", {1}},
    [PARTIES] = {"parties", "km", {1, 2, 3, 5, 11}},
    [SAVE] = {"save", "s", {1, 14}},
    [RETURN] = {"return", "s", {1, 13, 14, 15, 5}},
};

/* The numbers that follow the tables. */
struct arguments {
    uint16_t caller, x, y, z;
};

/* None of the first is wrong by itself, on any book; all of the others are. */
static const struct arguments good = {0, 0, 0, 20}, bad = {65535, 65535, 65535, 0};

/* A size, and the tables of a book and of a store with their lengths; and the book and the store, if they are those of
   one. */
struct lent {
    uint16_t n, m;
    uint8_t *links;
    uint16_t *rules, *entries;
    uint32_t *tally;
    uint16_t *disputes;
    uint8_t *flags, *saved_links;
    uint16_t *saved_rules, *saved_entries, *saved_disputes;
    size_t lengths[2 * TABLES];
    struct book *book;
    struct store *store;
};

/* The lengths that a size asks for. */
#define LENGTHS(n, m)                                                                                                 \
    {(n) * (n), (n) * (m), (n) * (m), HOUSE_CALLERS, (m), HOUSE_NAMES, HOUSE_NAMES * (n) * (n),                       \
     HOUSE_NAMES * (n) * (m), HOUSE_NAMES * (n) * (m), HOUSE_NAMES * (m)}

#define LENT_TABLES(t)                                                                                                \
    (t)->links, (t)->lengths[0], (t)->rules, (t)->lengths[1], (t)->entries, (t)->lengths[2], (t)->tally,              \
        (t)->lengths[3], (t)->disputes, (t)->lengths[4]
#define LENT(t) (t)->n, (t)->m, LENT_TABLES(t)
#define LENT_BOTH(t)                                                                                                  \
    LENT(t), (t)->flags, (t)->lengths[5], (t)->saved_links, (t)->lengths[6], (t)->saved_rules, (t)->lengths[7],       \
        (t)->saved_entries, (t)->lengths[8], (t)->saved_disputes, (t)->lengths[9]

/* What the library answers. */
static uint32_t make(enum call call, const struct lent *t, struct arguments a) {
    switch (call) {
    case OPEN: return house_open(LENT(t));
    case ADD_RULE: return house_add_rule(LENT(t), a.caller, a.x, a.y, a.z);
    case TAKE_RULE: return house_take_rule(LENT(t), a.caller, a.x, a.y);
    case ADD_LINK: return house_add_link(LENT(t), a.caller, a.x, a.y);
    case TAKE_LINK: return house_take_link(LENT(t), a.caller, a.x, a.y);
    case REFRESH: return house_refresh(LENT(t));
    case INSPECT: return house_inspect(LENT(t));
    case PARTIES: return house_parties(LENT(t), a.x, a.y);
    case SAVE: return house_save(LENT_BOTH(t), a.x);
    default: return house_return(LENT_BOTH(t), a.caller, a.x);
    }
}

/* A book and its store with the lengths that they should have. */
static struct lent lend_both(struct book *b, struct store *s) {
    size_t n = b->n, m = b->m;
    return (struct lent){b->n,        b->m,     b->links, b->rules, b->entries, b->tally,
                         b->disputes, s->flags, s->links, s->rules, s->entries, s->disputes, LENGTHS(n, m), b, s};
}

/* The store that is tried, and its copies: the one that is lent, and the one that this file works on. */
static struct store store, lent_store, read_store;

static struct lent lend(struct book *b) { return lend_both(b, &lent_store); }

static uint32_t made(enum call call, struct book *b) {
    struct lent t = lend(b);
    return make(call, &t, good);
}

/* ---- docs/SCOPE.md, read plainly */

static int linked(const struct book *b, unsigned child, unsigned parent) {
    return b->links[child * b->n + parent] == 1;
}

/* Whether p is above c by a chain of at most `links` links. */
static int above_within(const struct book *b, unsigned c, unsigned p, unsigned links) {
    if (links == 0) return 0;
    for (unsigned q = 0; q < b->n; q++)
        if (linked(b, c, q) && (q == p || above_within(b, q, p, links - 1))) return 1;
    return 0;
}
static int above(const struct book *b, unsigned c, unsigned p) { return above_within(b, c, p, b->n); }

/* Whether the rule of kind o is seen from c. */
static int seen(const struct book *b, unsigned c, unsigned o, unsigned mark) {
    if (b->rules[c * b->m + mark] != 0) return c == o;
    for (unsigned p = 0; p < b->n; p++)
        if (linked(b, c, p) && seen(b, p, o, mark)) return 1;
    return 0;
}

/* Whether it is left there: seen, and above no other that is. */
static int left(const struct book *b, unsigned c, unsigned o, unsigned mark) {
    if (!seen(b, c, o, mark)) return 0;
    for (unsigned q = 0; q < b->n; q++)
        if (seen(b, c, q, mark) && above(b, q, o)) return 0;
    return 1;
}

static unsigned lookup(const struct book *b, unsigned c, unsigned mark) {
    unsigned kinds = 0, rule = 0, shared = 0;
    for (unsigned o = 0; o < b->n; o++)
        if (left(b, c, o, mark)) {
            kinds++;
            rule = o + 1;
        }
    if (kinds < 2) return rule;
    for (unsigned p = 0; p < b->n; p++) {
        if (!linked(b, c, p)) continue;
        unsigned one = lookup(b, p, mark);
        if (one == 0) continue;
        if (one < 257 || (shared != 0 && shared != one)) return 257 + c;
        shared = one;
    }
    return shared;
}

/* The lookup as it once was: a rule hid those above it only along its own path. */
static unsigned old_lookup(const struct book *b, unsigned c, unsigned mark) {
    unsigned shared = 0;
    if (b->rules[c * b->m + mark] != 0) return c + 1;
    for (unsigned p = 0; p < b->n; p++) {
        unsigned one = linked(b, c, p) ? old_lookup(b, p, mark) : 0;
        if (one == 0) continue;
        if (shared != 0 && shared != one) return 257 + c;
        shared = one;
    }
    return shared;
}

/* How many kinds have a dispute entry for the mark. */
static uint16_t disputed(const struct book *b, unsigned mark) {
    uint16_t kinds = 0;
    for (unsigned c = 0; c < b->n; c++)
        if (b->entries[c * b->m + mark] >= 257) kinds++;
    return kinds;
}

static void count_disputes(struct book *b) {
    for (unsigned j = 0; j < b->m; j++) b->disputes[j] = disputed(b, j);
}

static uint32_t work_out(struct book *b) {
    uint32_t count = 0;
    for (unsigned i = 0; i < (unsigned)b->n * b->m; i++) {
        unsigned entry = lookup(b, i / b->m, i % b->m);
        count += b->entries[i] != entry;
        b->entries[i] = (uint16_t)entry;
    }
    count_disputes(b);
    return count;
}

static uint32_t inspected(const struct book *b) {
    for (unsigned i = 0; i < (unsigned)b->n * b->n; i++)
        if (b->links[i] > 1) return HOUSE_LINK_BYTE + i;
    for (unsigned c = 0; c < b->n; c++)
        if (above(b, c, c)) return HOUSE_ABOVE_ITSELF + c;
    for (unsigned i = 0; i < (unsigned)b->n * b->m; i++)
        if (b->entries[i] != lookup(b, i / b->m, i % b->m)) return HOUSE_WRONG_ENTRY + i;
    for (unsigned j = 0; j < b->m; j++)
        if (b->disputes[j] != disputed(b, j)) return HOUSE_WRONG_COUNT + j;
    return HOUSE_SOUND;
}

static uint32_t emptied(struct lent t) {
    memset(t.links, 0, sizeof *t.links * t.lengths[0]);
    memset(t.rules, 0, sizeof *t.rules * t.lengths[1]);
    memset(t.entries, 0, sizeof *t.entries * t.lengths[2]);
    memset(t.tally, 0, sizeof *t.tally * t.lengths[3]);
    memset(t.disputes, 0, sizeof *t.disputes * t.lengths[4]);
    return 0;
}

static void count_edit(struct book *b, uint16_t caller) {
    if (b->tally[caller] < UINT32_MAX) b->tally[caller]++;
}

static uint32_t accepted(struct book *b, uint16_t caller) {
    count_edit(b, caller);
    return work_out(b);
}

static uint32_t change_rule(struct book *b, enum call call, struct arguments a) {
    uint16_t *rule = &b->rules[a.x * b->m + a.y];
    if (call == TAKE_RULE && *rule == 0) return HOUSE_REFUSED_NO_RULE;
    *rule = call == ADD_RULE ? a.z : 0;
    return accepted(b, a.caller);
}

static uint32_t change_link(struct book *b, enum call call, struct arguments a) {
    int adding = call == ADD_LINK, there = linked(b, a.x, a.y);
    if (adding && there) return HOUSE_REFUSED_LINKED;
    if (adding && (a.x == a.y || above(b, a.y, a.x))) return HOUSE_REFUSED_CYCLE;
    if (!adding && !there) return HOUSE_REFUSED_NOT_LINKED;
    b->links[a.x * b->n + a.y] = (uint8_t)adding;
    return accepted(b, a.caller);
}

/* How often there were parties, of more than two kinds left, and with a lower kind seen that is not left. */
static unsigned long more_left, lower_hidden;

/* The lowest kind left, then the second lowest. */
static uint32_t parties(const struct book *b, struct arguments a) {
    unsigned pair = 0, kinds = 0, hidden = 0;
    if (b->entries[a.x * b->m + a.y] < 257) return HOUSE_REFUSED_NO_DISPUTE;
    for (unsigned o = 0; o < b->n; o++) {
        if (left(b, a.x, o, a.y) && ++kinds <= 2) pair = 256 * pair + o;
        if (kinds < 2 && seen(b, a.x, o, a.y) && !left(b, a.x, o, a.y)) hidden = 1;
    }
    more_left += kinds > 2;
    lower_hidden += hidden;
    return pair;
}

/* The book goes to the store, under a name. */
static uint32_t stored(struct lent t, size_t name) {
    size_t links = t.lengths[0], places = t.lengths[1], marks = t.lengths[4];
    t.flags[name] = 1;
    for (size_t i = 0; i < links; i++) t.saved_links[name * links + i] = t.links[i];
    for (size_t i = 0; i < places; i++) t.saved_rules[name * places + i] = t.rules[i];
    for (size_t i = 0; i < places; i++) t.saved_entries[name * places + i] = t.entries[i];
    for (size_t i = 0; i < marks; i++) t.saved_disputes[name * marks + i] = t.disputes[i];
    return 0;
}

/* What is there under a name comes to the book, but for the tally. How many entries differ from before. */
static uint32_t fetched(struct lent t, size_t name) {
    size_t links = t.lengths[0], places = t.lengths[1], marks = t.lengths[4];
    uint32_t count = 0;
    for (size_t i = 0; i < places; i++) count += t.entries[i] != t.saved_entries[name * places + i];
    for (size_t i = 0; i < links; i++) t.links[i] = t.saved_links[name * links + i];
    for (size_t i = 0; i < places; i++) t.rules[i] = t.saved_rules[name * places + i];
    for (size_t i = 0; i < places; i++) t.entries[i] = t.saved_entries[name * places + i];
    for (size_t i = 0; i < marks; i++) t.disputes[i] = t.saved_disputes[name * marks + i];
    return count;
}

/* Faults by their 65536s, with 0 for none. */
enum { FAULTS = HOUSE_WRONG_COUNT / 65536 + 1 };

/* How often a book of each fault was saved, and replaced by a return; how often the state had the fault and the book
   none; and how often a return was accepted by each flag, with 3 for all from there on. */
static unsigned long saved_faults[FAULTS], replaced_faults[FAULTS], state_faults[FAULTS], returned_by_flag[4];

static uint32_t save_to(struct book *b, struct store *s, struct arguments a, uint32_t fault) {
    saved_faults[fault / 65536]++;
    return stored(lend_both(b, s), a.x);
}

/* The state has to be sound, and the book need not be. */
static uint32_t return_to(struct book *b, struct store *s, struct arguments a, uint32_t fault) {
    struct book state = *b;
    if (s->flags[a.x] == 0) return HOUSE_REFUSED_UNSAVED;
    uint32_t count = fetched(lend_both(&state, s), a.x), unsound = inspected(&state);
    if (unsound != HOUSE_SOUND) {
        state_faults[unsound / 65536] += fault == HOUSE_SOUND;
        return HOUSE_REFUSED_UNSOUND;
    }
    replaced_faults[fault / 65536]++;
    returned_by_flag[s->flags[a.x] < 3 ? s->flags[a.x] : 3]++;
    *b = state;
    count_edit(b, a.caller);
    return count;
}

/* The refusals of an argument by itself. */
static uint32_t wrong_argument(const struct book *b, enum call call, struct arguments a) {
    const char *what = calls[call].arguments;
    if (has_caller(call) && a.caller >= HOUSE_CALLERS) return HOUSE_REFUSED_CALLER;
    if (what[0] == 's' && a.x >= HOUSE_NAMES) return HOUSE_REFUSED_NAME;
    if (what[0] == 'k' && a.x >= b->n) return HOUSE_REFUSED_KIND;
    if (what[1] == 'k' && a.y >= b->n) return HOUSE_REFUSED_KIND;
    if (what[1] == 'm' && a.y >= b->m) return HOUSE_REFUSED_MARK;
    return what[2] == 'h' && a.z == 0 ? HOUSE_REFUSED_HANDLING : 0;
}

/* What a call should answer on a book and a store of the right lengths, where inspect should say `fault` of the book;
   they become what it should leave. */
static uint32_t expect(enum call call, struct book *b, struct store *s, struct arguments a, uint32_t fault) {
    uint32_t refusal = wrong_argument(b, call, a);
    if (refusal != 0) return refusal;
    if (call == OPEN) return emptied(lend(b));
    if (call == INSPECT) return fault;
    if (call == SAVE) return save_to(b, s, a, fault);
    if (call == RETURN) return return_to(b, s, a, fault);
    if (fault != HOUSE_SOUND && (call != REFRESH || fault < HOUSE_WRONG_ENTRY)) return HOUSE_REFUSED_UNSOUND;
    if (call == REFRESH) return work_out(b);
    if (call == PARTIES) return parties(b, a);
    return call == ADD_RULE || call == TAKE_RULE ? change_rule(b, call, a) : change_link(b, call, a);
}

/* ---- compared */

static unsigned long books, old_books, calls_made;

/* How often each call gave each refusal, and under 0 any other answer; and inspect each fault. */
static unsigned long answers[CALLS][16], faults[FAULTS];

/* How often an edit changed a count, and how often only entries. */
static unsigned long counts_moved, counts_kept;

static void fail_at(const char *what, unsigned n, unsigned m) {
    fprintf(stderr, "%s differs on a book of %u kinds and %u marks\n", what, n, m);
    exit(EXIT_FAILURE);
}

static void fail(const char *what, const struct book *b) {
    for (unsigned c = 0; c < b->n; c++) {
        for (unsigned p = 0; p < b->n; p++) fprintf(stderr, " %u", b->links[c * b->n + p]);
        fprintf(stderr, "  rules");
        for (unsigned j = 0; j < b->m; j++) fprintf(stderr, " %u", b->rules[c * b->m + j]);
        fprintf(stderr, "  entries");
        for (unsigned j = 0; j < b->m; j++) fprintf(stderr, " %u", b->entries[c * b->m + j]);
        fprintf(stderr, "\n");
    }
    fprintf(stderr, " tally");
    for (unsigned c = 0; c < HOUSE_CALLERS; c++) fprintf(stderr, " %lu", (unsigned long)b->tally[c]);
    fprintf(stderr, "  disputes");
    for (unsigned j = 0; j < b->m; j++) fprintf(stderr, " %u", b->disputes[j]);
    fprintf(stderr, "\n");
    fail_at(what, b->n, b->m);
}

/* Makes a call and counts its answer. */
static uint32_t counted(enum call call, const struct lent *t, struct arguments a) {
    uint32_t answer = make(call, t, a);
    calls_made++;
    if (!house_is_refusal(answer)) answers[call][0]++;
    else if (house_refusal(answer) < MANY(answers[call])) answers[call][house_refusal(answer)]++;
    if (call == INSPECT && answer / 65536 < MANY(faults)) faults[answer / 65536]++;
    return answer;
}

static int same_entries(const struct book *a, const struct book *b, unsigned mark) {
    for (unsigned c = 0; c < b->n; c++)
        if (a->entries[c * b->m + mark] != b->entries[c * b->m + mark]) return 0;
    return 1;
}

/* An edit changes a count only at a mark where it changes entries. This is held by itself, whatever the counts are. */
static void hold_other_marks(enum call call, const struct book *before, const struct book *after) {
    for (unsigned j = 0; j < before->m; j++) {
        int counts = before->disputes[j] != after->disputes[j], entries = !same_entries(before, after, j);
        if (counts && !entries) fail(calls[call].name, before);
        counts_moved += (unsigned long)counts;
        counts_kept += (unsigned long)(entries && !counts);
    }
}

static int same_stores(const struct store *a, const struct store *b) { return memcmp(a, b, sizeof *a) == 0; }

/* The answer and all five tables are the same, and those of the store where the call has one. */
static void try_call(enum call call, const struct book *b, struct arguments a, uint32_t fault) {
    struct book ours = *b, theirs = *b;
    struct lent t = lend(&theirs);
    if (has_store(call)) read_store = lent_store = store;
    uint32_t given = counted(call, &t, a);
    if (expect(call, &ours, &read_store, a, fault) != given || memcmp(&ours, &theirs, sizeof ours) != 0)
        fail(calls[call].name, b);
    if (has_store(call) && !same_stores(&read_store, &lent_store)) fail(calls[call].name, b);
    if (is_edit(call)) hold_other_marks(call, b, &theirs);
}

/* ---- lists of edits */

/* Room for a list whose length, cut to 16 bits, would be that of a short one. */
enum { RECORDS = 65536 + 4 };

/* The list that is tried, and the copy that is lent; each with one record before it and one after. */
static size_t list_len;
static struct house_edit list[1 + RECORDS + 1], lent_list[1 + RECORDS + 1];

/* How often a list was refused by each number, and how often one stopped by each, with 0 for a whole list. */
static unsigned long lists_refused[20], lists_stopped[20];

/* Gives the list to the library, counts its answer, and holds that no record was written. An empty one may be NULL. */
static uint64_t make_list(const struct lent *t, uint16_t caller) {
    const struct house_edit *edits = list_len == 0 && caller % 2 == 0 ? NULL : lent_list + 1;
    size_t bytes = (1 + list_len + 1) * sizeof *list;
    memcpy(lent_list, list, bytes);
    uint64_t answer = house_make_list(t->n, t->m, edits, list_len, LENT_TABLES(t), caller);
    int refused = house_list_refused(answer);
    unsigned long number = refused ? answer % 65536 : house_list_stop(answer);
    calls_made++;
    if (number < MANY(lists_refused)) (refused ? lists_refused : lists_stopped)[number]++;
    if (memcmp(lent_list, list, bytes) != 0) fail_at("a record of a list", t->n, t->m);
    return answer;
}

static uint64_t packed(uint64_t changed, unsigned stop, uint64_t accepted) {
    return changed << 32 | (uint64_t)(stop == 0 ? 0 : 256 + stop) << 16 | accepted;
}

/* A way to carry out a single call: make, which is the library's, or the reading above. */
typedef uint32_t way(enum call call, const struct lent *t, struct arguments a);

/* The tables have the right lengths, and an edit gets a sound book. */
static uint32_t read_plainly(enum call call, const struct lent *t, struct arguments a) {
    return expect(call, t->book, t->store, a, call == INSPECT ? inspected(t->book) : HOUSE_SOUND);
}

static uint32_t make_record(way *carry_out, const struct lent *t, struct house_edit e, uint16_t caller) {
    if (!is_edit(e.what)) return HOUSE_REFUSED_NO_EDIT;
    return carry_out(e.what, t, (struct arguments){caller, e.kind, e.other, e.handling});
}

/* What the list should answer and leave, by its edits one after the other. */
static uint64_t one_by_one(way *carry_out, const struct lent *t, uint16_t caller) {
    uint64_t changed = 0;
    uint32_t fault = carry_out(INSPECT, t, good);
    if (house_is_refusal(fault) || list_len > HOUSE_MOST_EDITS) return HOUSE_REFUSED_BOOK;
    if (caller >= HOUSE_CALLERS) return HOUSE_REFUSED_CALLER;
    if (fault != HOUSE_SOUND) return HOUSE_REFUSED_UNSOUND;
    for (size_t i = 0; i < list_len; i++) {
        uint32_t answer = make_record(carry_out, t, list[1 + i], caller);
        if (house_is_refusal(answer)) return packed(changed, house_refusal(answer), i);
        changed += answer;
    }
    return packed(changed, 0, list_len);
}

/* The answer and all five tables are the same in the three ways. */
static void try_list(const struct book *b, uint16_t caller) {
    struct book ours = *b, singly = *b, theirs = *b;
    struct lent read = lend(&ours), single = lend(&singly), t = lend(&theirs);
    uint64_t given = make_list(&t, caller);
    if (one_by_one(read_plainly, &read, caller) != given || memcmp(&ours, &theirs, sizeof ours) != 0)
        fail("a list, as it is read,", b);
    if (one_by_one(make, &single, caller) != given || memcmp(&singly, &theirs, sizeof singly) != 0)
        fail("a list, by single calls,", b);
}

/* Whether the list is refused for its book, whoever enters it. */
static int lists_refused_for_book(const struct lent *t) {
    return make_list(t, good.caller) == HOUSE_REFUSED_BOOK && make_list(t, bad.caller) == HOUSE_REFUSED_BOOK;
}

/* A number that the book has, or at times one that it has not. */
static uint16_t draw_number(unsigned below) {
    return (uint16_t)(chance() % 16 == 0 ? between(below, 65535) : chance() % below);
}

/* From a drawn place of a kind's row on, the next one that holds something, if there is one. */
static uint16_t draw_held(const struct lent *t, struct house_edit e) {
    int rule = e.what == HOUSE_TAKE_RULE;
    unsigned width = rule ? t->m : t->n, at = e.other;
    if (e.kind >= t->n || at >= width) return e.other;
    for (unsigned i = 0; i < width; i++, at = (at + 1) % width)
        if (rule ? t->rules[e.kind * width + at] : t->links[e.kind * width + at]) break;
    return (uint16_t)at;
}

/* Any record: one of the four edits, or at times none, which may have the low byte of one. Half of the rules and links
   to take are there, if the kind has any. */
static struct house_edit draw_record(const struct lent *t) {
    static const uint16_t none[] = {0, 5, 65535};
    struct house_edit e = {(uint16_t)(1 + chance() % 4), draw_number(t->n), 0, between(0, 65535)};
    e.other = draw_number(e.what <= HOUSE_TAKE_RULE ? t->m : t->n);
    if ((e.what == HOUSE_TAKE_RULE || e.what == HOUSE_TAKE_LINK) && chance() % 2 == 0) e.other = draw_held(t, e);
    if (chance() % 16 == 0) e.what = none[chance() % MANY(none)];
    else if (chance() % 32 == 0) e.what = (uint16_t)(e.what + 256 * between(1, 255));
    return e;
}

/* Draws a list for a sound book, of which it uses up a copy. A record that is refused when its turn comes is mostly
   drawn again, and kept one time in so many. The records before the list and after it are drawn too. */
static void draw_list(const struct lent *copy, size_t length, unsigned long so_many) {
    list_len = length;
    list[0] = draw_record(copy);
    for (struct house_edit *e = list + 1; e <= list + 1 + length; e++) {
        do *e = draw_record(copy);
        while (house_is_refusal(make_record(make, copy, *e, 0)) && chance() % so_many != 0);
    }
}

/* Some short lists of a sound book. The last of them stays, for other calls on the book and on it damaged. */
static void try_lists(const struct book *b) {
    for (unsigned i = 0; i < 3; i++) {
        struct book spent = *b;
        struct lent copy = lend(&spent);
        draw_list(&copy, between(0, 40), 30);
        try_list(b, between(0, HOUSE_CALLERS - 1));
    }
}

/* ---- every call on a book */

/* How many numbers are tried for an argument, and which: the kinds or marks of the book, or two names, which are drawn;
   the first that there is not, and the largest number. */
static unsigned many(char what, const struct book *b) {
    return what == 'k' ? b->n + 2u : what == 'm' ? b->m + 2u : what == 's' ? 4 : what == 'h' ? 3 : 1;
}
static uint16_t number(char what, const struct book *b, unsigned i) {
    if (i + 1 == many(what, b)) return 65535;
    if (what == 's') return (uint16_t)(i == 2 ? HOUSE_NAMES : chance() % HOUSE_NAMES);
    return (uint16_t)(what == 'h' ? 20 * i : i);
}

static void try_calls(const struct book *b) {
    uint32_t fault = inspected(b);
    for (enum call call = 0; call < CALLS; call++) {
        const char *what = calls[call].arguments;
        for (unsigned i = 0; i < many(what[0], b); i++)
            for (unsigned j = 0; j < many(what[1], b); j++)
                for (unsigned k = 0; k < many(what[2], b); k++) {
                    uint16_t x = number(what[0], b, i), y = number(what[1], b, j), z = number(what[2], b, k);
                    try_call(call, b, (struct arguments){between(0, HOUSE_CALLERS - 1), x, y, z}, fault);
                    if (has_caller(call))
                        try_call(call, b, (struct arguments){between(HOUSE_CALLERS, 65535), x, y, z}, fault);
                }
    }
    try_list(b, between(0, HOUSE_CALLERS - 1));
    try_list(b, between(HOUSE_CALLERS, 65535));
}

/* Every call that is lent a table with a wrong length of it, whatever its arguments. */
static void try_length(const struct book *b, unsigned table, size_t length) {
    struct book lent = *b;
    lent_store = store;
    for (unsigned i = table < TABLES ? 0 : SAVE * 2; i < CALLS * 2; i++) {
        enum call call = i / 2;
        struct lent t = lend(&lent);
        t.lengths[table] = length;
        uint32_t given = counted(call, &t, i % 2 == 0 ? good : bad);
        if (given != HOUSE_REFUSED_BOOK || memcmp(&lent, b, sizeof lent) != 0) fail(calls[call].name, b);
    }
    if (!same_stores(&lent_store, &store)) fail("a store", b);
    if (table >= TABLES) return;
    struct lent t = lend(&lent);
    t.lengths[table] = length;
    if (!lists_refused_for_book(&t) || memcmp(&lent, b, sizeof lent) != 0) fail("a list", b);
}

/* Lengths that are one off; a tally of no number or of one, as it once was; disputes of no mark, of bytes, of as many
   marks as any book has and of any too many; tables of a store of no name, for one name, and for one less or more. */
static void try_lengths(const struct book *b) {
    struct book copy = *b;
    struct lent right = lend(&copy);
    for (unsigned table = 0; table < 2 * TABLES; table++) {
        try_length(b, table, right.lengths[table] - 1);
        try_length(b, table, right.lengths[table] + 1);
    }
    for (unsigned table = TABLES; table < 2 * TABLES; table++) {
        size_t one = right.lengths[table] / HOUSE_NAMES;
        try_length(b, table, 0);
        try_length(b, table, one);
        try_length(b, table, right.lengths[table] - one);
        try_length(b, table, right.lengths[table] + one);
    }
    try_length(b, 3, 0);
    try_length(b, 3, 1);
    try_length(b, 4, 0);
    try_length(b, 4, 2u * b->m);
    try_length(b, 4, MOST_MARKS);
    try_length(b, 4, between(b->m + 1u, MOST_MARKS + 1));
}

/* How often a call that may refuse with 5 got past that: its other answers and the refusals that are checked later, of
   which 13 is none; and lists that were not refused. */
static unsigned long past_five(void) {
    unsigned long sum = 0;
    for (size_t i = 0; i < MANY(lists_stopped); i++) sum += lists_stopped[i];
    for (enum call call = ADD_RULE; call <= PARTIES; call++)
        if (calls[call].arguments[0] != 0) {
            sum += answers[call][0];
            for (unsigned r = 6; r <= 11; r++) sum += answers[call][r];
        }
    return sum;
}

/* A book that is sound but for its entries and counts: inspect names the fault, no call gets past refusal 5, and
   refresh answers how many entries it changed and makes it the right book again. */
static void try_mended(struct book b, uint32_t fault, uint32_t count, const struct book *right) {
    if (made(INSPECT, &b) != fault) fail("inspect of a book to mend", &b);
    unsigned long before = past_five();
    try_calls(&b);
    if (past_five() != before) fail("edit of a book to mend", &b);
    if (made(REFRESH, &b) != count || memcmp(&b, right, sizeof b) != 0) fail("refresh of a book to mend", right);
    if (made(INSPECT, &b) != HOUSE_SOUND) fail("inspect of a mended book", right);
    if (house_is_refusal(made(ADD_RULE, &b))) fail("edit of a mended book", right);
}

/* The sorts of wrong counts. LOST and SWAPPED make a difference only where there are disputes. SHIFTED and SWAPPED keep
   the sum. */
enum { ONE_MORE, ONE_LESS, OTHER_BYTE, FULL, ANYTHING, SHIFTED, LOST, SWAPPED, SORTS };

static unsigned long wrong_counts[SORTS];

static void spoil_counts(struct book *b, unsigned sort) {
    unsigned mark = (unsigned)chance() % b->m;
    uint16_t *one = &b->disputes[mark], *other = &b->disputes[(mark + 1) % b->m], was = *one;
    switch (sort) {
    case ONE_MORE: ++*one; break;
    case ONE_LESS: --*one; break;
    case OTHER_BYTE: *one ^= (uint16_t)(256u << chance() % 8); break;
    case FULL: *one = UINT16_MAX; break;
    case ANYTHING: *one = (uint16_t)chance(), *other = between(0, b->n); break;
    case SHIFTED: ++*one, --*other; break;
    case LOST: memset(b->disputes, 0, sizeof *b->disputes * b->m); break;
    default: *one = *other, *other = was;
    }
}

/* The lowest mark where the counts of two books differ, or m. */
static unsigned other_count(const struct book *a, const struct book *b) {
    unsigned mark = 0;
    while (mark < b->m && a->disputes[mark] == b->disputes[mark]) mark++;
    return mark;
}

/* The book with wrong counts and nothing else wrong: those that need disputes wherever they make a difference, and of
   the others one in turn. */
static void try_wrong_counts(const struct book *b) {
    for (unsigned sort = 0; sort < SORTS; sort++) {
        struct book spoilt = *b;
        if (sort < LOST && sort != books % LOST) continue;
        spoil_counts(&spoilt, sort);
        unsigned mark = other_count(&spoilt, b);
        if (mark == b->m) continue;
        wrong_counts[sort]++;
        try_mended(spoilt, HOUSE_WRONG_COUNT + mark, 0, b);
    }
}

/* Counts for a book whose entries or links are damaged: as they were, those of the entries as they stand, or wrong. */
static void draw_counts(struct book *b) {
    unsigned long way = chance() % 3;
    if (way > 0) count_disputes(b);
    if (way > 1) spoil_counts(b, (unsigned)chance() % SORTS);
}

/* The book as it was stored when entries were worked out by the old lookup, if that differs. */
static void try_old(const struct book *b) {
    struct book old = *b;
    uint32_t count = 0, lowest = 0;
    for (unsigned i = (unsigned)b->n * b->m; i-- > 0;) {
        old.entries[i] = (uint16_t)old_lookup(b, i / b->m, i % b->m);
        if (old.entries[i] == b->entries[i]) continue;
        count++;
        lowest = i;
    }
    if (count == 0) return;
    old_books++;
    draw_counts(&old);
    try_mended(old, HOUSE_WRONG_ENTRY + lowest, count, b);
}

/* Every other entry may be anything, and the counts too: where the links have a fault refresh leaves them all, and else
   it makes them right. */
static void try_any_entries(struct book b) {
    for (unsigned i = 0; i < (unsigned)b.n * b.m; i++)
        if (chance() % 2 == 0) b.entries[i] = between(0, chance() % 2 == 0 ? 300 : 65535);
    draw_counts(&b);
    uint32_t fault = inspected(&b);
    try_call(INSPECT, &b, good, fault);
    try_call(REFRESH, &b, good, fault);
}

/* One entry wrong, with any counts. */
static void spoil_entry(struct book *b) {
    uint16_t *entry = &b->entries[chance() % ((unsigned)b->n * b->m)];
    *entry ^= (uint16_t)(chance() % 2 == 0 ? 1 + chance() % 3 : 256);
    draw_counts(b);
}

/* ---- stores, and calls in sequence */

/* Damage of any sort to a sound book: a link byte, a cycle, an entry or the counts. */
static void damage(struct book *b) {
    unsigned n = b->n, c = (unsigned)chance() % n, p = (unsigned)chance() % n;
    switch (chance() % 4) {
    case 0: b->links[c * n + p] = (uint8_t)between(2, 255); break;
    case 1:
        if (!above(b, c, p)) b->links[c * n + p] = 1;
        b->links[p * n + c] = 1;
        break;
    case 2: spoil_entry(b); break;
    default: spoil_counts(b, (unsigned)chance() % SORTS);
    }
}

/* The state under a name, as a book with the tally of another. */
static struct book state_in(struct store *s, size_t name, const struct book *b) {
    struct book state = *b;
    fetched(lend_both(&state, s), name);
    return state;
}

/* Puts a state under a name, and any flag beside it. */
static void put_state(struct store *s, size_t name, struct book state, uint8_t flag) {
    stored(lend_both(&state, s), name);
    s->flags[name] = flag;
}

/* A store for a sound book: zeros, or anything at all, with states among it that are some edits away from the book,
   sound or damaged. */
static void draw_store(const struct book *b) {
    static const uint8_t flags[] = {0, 1, 1, 2, 255};
    memset(&store, 0, sizeof store);
    if (chance() % 4 == 0) return;
    for (size_t i = 0; i < sizeof store; i++) ((uint8_t *)&store)[i] = (uint8_t)chance();
    for (size_t name = 0; name < HOUSE_NAMES; name++) {
        struct book state = *b;
        struct lent t = lend(&state);
        if (chance() % 8 == 0) continue;
        for (unsigned edits = (unsigned)chance() % 4; edits > 0; edits--) make_record(make, &t, draw_record(&t), 0);
        if (chance() % 2 == 0) damage(&state);
        put_state(&store, name, state, flags[chance() % MANY(flags)]);
    }
}

/* A book and its store. */
struct both {
    struct book book;
    struct store store;
};

/* What a sequence of calls works on: the library, and this file's reading. From an accepted return on the library makes
   the calls a second time, on the state as it was when it was saved, with a tally of its own, and the store as the
   return found it. */
static struct {
    struct both theirs, ours, after;
    struct book states[HOUSE_NAMES];
    uint16_t name; /* the one that is drawn most */
    int returned;
} sequence;

static unsigned long calls_after;

static struct lent lend_sequence(struct both *one) { return lend_both(&one->book, &one->store); }

static int same_both(const struct both *a, const struct both *b) {
    return memcmp(&a->book, &b->book, sizeof a->book) == 0 && same_stores(&a->store, &b->store);
}

/* The same answers, and the same ten tables; after a return, but for the tally. */
static void hold_sequence(const char *what, uint64_t theirs, uint64_t ours, uint64_t after) {
    struct both other = sequence.theirs;
    if (theirs != ours || !same_both(&sequence.theirs, &sequence.ours)) fail(what, &other.book);
    if (!sequence.returned) return;
    calls_after++;
    memcpy(other.book.tally, sequence.after.book.tally, sizeof other.book.tally);
    if (theirs != after || !same_both(&other, &sequence.after)) fail("a call after a return", &other.book);
}

/* The state that was returned to, with a tally of its own, and the store that was found. */
static void begin_after(size_t name, const struct store *found) {
    sequence.returned = 1;
    sequence.after.book = sequence.states[name];
    sequence.after.store = *found;
    for (unsigned c = 0; c < HOUSE_CALLERS; c++) sequence.after.book.tally[c] = tallied();
}

static void step_call(enum call call, struct arguments a) {
    struct both found = sequence.theirs;
    struct lent t = lend_sequence(&sequence.theirs), after = lend_sequence(&sequence.after);
    uint32_t fault = inspected(&found.book), theirs = counted(call, &t, a);
    uint32_t ours = expect(call, &sequence.ours.book, &sequence.ours.store, a, fault);
    hold_sequence(calls[call].name, theirs, ours, sequence.returned ? make(call, &after, a) : 0);
    if (house_is_refusal(theirs)) return;
    if (call == SAVE) sequence.states[a.x] = found.book;
    if (call != RETURN || (sequence.returned && chance() % 2 == 0)) return;
    begin_after(a.x, &found.store);
    hold_sequence("the state after a return", theirs, ours, theirs);
}

static void step_list(void) {
    struct book spent = sequence.theirs.book;
    struct lent copy = lend(&spent), t = lend_sequence(&sequence.theirs), read = lend_sequence(&sequence.ours);
    struct lent after = lend_sequence(&sequence.after);
    uint16_t caller = draw_number(HOUSE_CALLERS);
    draw_list(&copy, between(0, 8), 8);
    uint64_t theirs = make_list(&t, caller), ours = one_by_one(read_plainly, &read, caller);
    hold_sequence("a list", theirs, ours, sequence.returned ? make_list(&after, caller) : 0);
}

/* Something else than a call writes the book, or a state of the store. */
static void step_damage(void) {
    struct both *both = &sequence.theirs;
    size_t name = sequence.name;
    if (chance() % 2 == 0) {
        damage(&both->book);
    } else {
        damage(&sequence.states[name]);
        put_state(&both->store, name, sequence.states[name], (uint8_t)between(0, 255));
    }
    sequence.ours = *both;
    sequence.returned = 0;
}

static void try_step(void) {
    struct lent t = lend_sequence(&sequence.theirs);
    struct house_edit e = draw_record(&t);
    uint16_t caller = draw_number(HOUSE_CALLERS), name = chance() % 4 == 0 ? draw_number(HOUSE_NAMES) : sequence.name;
    switch (chance() % 16) {
    case 0: step_damage(); break;
    case 1: step_list(); break;
    case 2: step_call(chance() % 2 == 0 ? OPEN : REFRESH, good); break;
    case 3:
    case 4:
    case 5: step_call(SAVE, (struct arguments){caller, name, 0, 0}); break;
    case 6:
    case 7:
    case 8:
    case 9: step_call(RETURN, (struct arguments){caller, name, 0, 0}); break;
    default:
        if (is_edit(e.what)) step_call(e.what, (struct arguments){caller, e.kind, e.other, e.handling});
    }
}

/* A sequence of calls on a book and the store that was drawn for it. */
static void try_sequence(const struct book *b) {
    sequence.theirs.book = sequence.ours.book = *b;
    sequence.theirs.store = sequence.ours.store = store;
    for (size_t name = 0; name < HOUSE_NAMES; name++) sequence.states[name] = state_in(&store, name, b);
    sequence.name = (uint16_t)(chance() % HOUSE_NAMES);
    sequence.returned = 0;
    for (unsigned steps = between(6, 18); steps > 0; steps--) try_step();
}

/* ---- all of this on a book */

static void try_book(const struct book *b) {
    struct book damaged = *b;
    books++;
    draw_store(b);
    try_sequence(b);
    try_lists(b);
    try_calls(b);
    try_lengths(b);
    try_wrong_counts(b);
    try_old(b);
    try_any_entries(*b);
    /* one entry wrong, then one link byte */
    spoil_entry(&damaged);
    try_calls(&damaged);
    damaged = *b;
    damaged.links[books % ((unsigned)b->n * b->n)] ^= (uint8_t)(1 + books % 3);
    try_any_entries(damaged);
    draw_counts(&damaged);
    try_calls(&damaged);
}

/* The book whose links and own rules are the bits of two numbers. Two kinds in three say 20: the same handling is no
   agreement. */
static int make_book(struct book *b, uint16_t n, uint16_t m, unsigned long links, unsigned long rules) {
    memset(b, 0, sizeof *b);
    b->n = n;
    b->m = m;
    for (unsigned c = 0; c < MANY(b->tally); c++) b->tally[c] = tallied();
    for (unsigned j = 0; j < MANY(b->disputes); j++) b->disputes[j] = (uint16_t)chance();
    for (unsigned i = 0; i < (unsigned)n * n; i++) b->links[i] = links >> i & 1;
    for (unsigned i = 0; i < (unsigned)n * m; i++) b->rules[i] = rules >> i & 1 ? (i / m % 3 == 0 ? 10 : 20) : 0;
    for (unsigned c = 0; c < n; c++)
        if (above(b, c, c)) return 0;
    work_out(b);
    return 1;
}

/* Links as bits, from kinds to those before them in an order that is drawn, so that none makes a cycle: one in four of
   those between the first four kinds, and most of those from the others, which so have many parents. */
static unsigned long ordered_links(unsigned n) {
    unsigned order[KINDS];
    unsigned long links = 0;
    for (unsigned i = 0; i < n; i++) {
        unsigned at = (unsigned)chance() % (i + 1);
        order[i] = order[at];
        order[at] = i;
    }
    for (unsigned i = 0; i < n * n; i++)
        if (i % n < i / n && chance() % 8 < (i / n < 4 ? 2 : 7)) links |= 1ul << (order[i / n] * n + order[i % n]);
    return links;
}

/* ---- named books: a link is a child and its parent, a rule its kind and handling, for mark 0 */

struct pair {
    uint16_t one, other;
};

static struct book named_book(uint16_t n, uint16_t m, const struct pair *links, size_t many_links,
                              const struct pair *rules, size_t many_rules) {
    struct book b;
    memset(&b, 0, sizeof b);
    b.n = n;
    b.m = m;
    for (size_t i = 0; i < many_links; i++) b.links[links[i].one * n + links[i].other] = 1;
    for (size_t i = 0; i < many_rules; i++) b.rules[rules[i].one * m] = rules[i].other;
    work_out(&b);
    return b;
}

static void hold_counts(const char *what, const struct book *b, const uint16_t *counts) {
    if (memcmp(b->disputes, counts, sizeof *counts * b->m) != 0) fail(what, b);
}

/* Entries and counts as they are written out: of n kinds and m marks, n * m entries and then m counts. */
static void hold_entries(const char *what, const struct book *b, const uint16_t *entries) {
    if (memcmp(b->entries, entries, sizeof *entries * b->n * b->m) != 0) fail(what, b);
    hold_counts(what, b, entries + b->n * b->m);
}

/* Calls in a row, with what each answers. */
struct step {
    enum call call;
    struct arguments arguments;
    uint32_t answer;
};

static void hold_answers(const char *what, struct book *b, const struct step *steps, size_t many_steps) {
    for (size_t i = 0; i < many_steps; i++) {
        struct lent t = lend(b);
        if (make(steps[i].call, &t, steps[i].arguments) != steps[i].answer) fail(what, b);
    }
}

/* A book whose entries and counts are written out before an edit and after it. */
static void try_edit(const char *what, struct book b, const uint16_t *before, struct step edit, const uint16_t *after) {
    hold_entries(what, &b, before);
    try_book(&b);
    hold_answers(what, &b, &edit, 1);
    hold_entries(what, &b, after);
    try_book(&b);
}

/* Kind 1 is put below kind 0 and keeps its own rule; for kind 2, below both, it now hides that of kind 0. */
static void try_link_past_own_rule(void) {
    static const struct pair links[] = {{2, 0}, {2, 1}}, rules[] = {{0, 10}, {1, 20}};
    static const uint16_t before[] = {1, 2, 259, 1}, after[] = {1, 2, 2, 0};
    try_edit("a link past an own rule", named_book(3, 1, links, MANY(links), rules, MANY(rules)), before,
             (struct step){ADD_LINK, {0, 1, 0, 0}, 1}, after);
}

/* A rule at kind 2 leaves kind 3 disputed as it was, and yet kind 5 below that one is newly disputed: kind 4 hid the
   others, but not this. */
static void try_rule_past_same_entry(void) {
    static const struct pair links[] = {{3, 0}, {3, 1}, {3, 2}, {4, 0}, {4, 1}, {5, 3}, {5, 4}},
                             rules[] = {{0, 10}, {1, 20}, {4, 20}};
    static const uint16_t before[] = {1, 2, 0, 260, 5, 5, 1}, after[] = {1, 2, 3, 260, 5, 262, 2};
    try_edit("a rule past the same entry", named_book(6, 1, links, MANY(links), rules, MANY(rules)), before,
             (struct step){ADD_RULE, {0, 2, 0, 20}, 2}, after);
}

/* The diamond, stored when kind 3 was still disputed: nothing is edited before refresh has brought it over. */
static void try_stored_diamond(void) {
    static const struct pair links[] = {{1, 0}, {2, 0}, {3, 1}, {3, 2}}, rules[] = {{0, 10}, {1, 20}};
    static const uint16_t stored[] = {1, 0, 2, 0, 1, 0, 260, 0, 1, 0}, now[] = {1, 0, 2, 0, 1, 0, 2, 0, 0, 0},
                          after[] = {1, 0, 2, 0, 3, 0, 260, 0, 1, 0};
    static const struct step refused[] =
        {
            {INSPECT, {0, 0, 0, 0}, HOUSE_WRONG_ENTRY + 6},
            {ADD_RULE, {0, 2, 0, 20}, HOUSE_REFUSED_UNSOUND},
            {TAKE_RULE, {0, 2, 0, 0}, HOUSE_REFUSED_UNSOUND},
            {ADD_LINK, {0, 3, 1, 0}, HOUSE_REFUSED_UNSOUND},
            {ADD_LINK, {0, 0, 3, 0}, HOUSE_REFUSED_UNSOUND},
            {TAKE_LINK, {0, 3, 2, 0}, HOUSE_REFUSED_UNSOUND},
            {TAKE_LINK, {0, 3, 0, 0}, HOUSE_REFUSED_UNSOUND},
            {ADD_RULE, {HOUSE_CALLERS, 4, 2, 0}, HOUSE_REFUSED_CALLER},
            {ADD_RULE, {0, 4, 2, 0}, HOUSE_REFUSED_KIND},
            {ADD_RULE, {0, 2, 2, 0}, HOUSE_REFUSED_MARK},
            {ADD_RULE, {0, 2, 0, 0}, HOUSE_REFUSED_HANDLING},
        },
        refreshed[] = {{REFRESH, {0, 0, 0, 0}, 1}, {INSPECT, {0, 0, 0, 0}, HOUSE_SOUND}},
        edited[] = {{ADD_RULE, {0, 2, 0, 20}, 2}};
    struct book b = named_book(4, 2, links, MANY(links), rules, MANY(rules)), lent;
    hold_entries("the diamond", &b, now);
    try_book(&b);
    for (unsigned i = 0; i < (unsigned)b.n * b.m; i++) b.entries[i] = (uint16_t)old_lookup(&b, i / b.m, i % b.m);
    count_disputes(&b);
    hold_entries("the stored diamond", &b, stored);
    lent = b;
    hold_answers("a call on the stored diamond", &lent, refused, MANY(refused));
    if (memcmp(&lent, &b, sizeof lent) != 0) fail("tables of the stored diamond", &b);
    hold_answers("the diamond brought over", &lent, refreshed, MANY(refreshed));
    hold_entries("the diamond brought over", &lent, now);
    hold_answers("an edit of the diamond brought over", &lent, edited, MANY(edited));
    hold_entries("an edit of the diamond brought over", &lent, after);
}

/* Kind 4 is under kinds 0 to 3, all with rules, and kind 1 under kind 0, which it hides: kinds 1, 2 and 3 are left, at
   kind 5 below kind 4 too. Without the rule of kind 1 it is 0, 2 and 3; without the link to kind 2 it is 1 and 3. */
static void try_parties(void) {
    static const struct pair links[] = {{1, 0}, {4, 0}, {4, 1}, {4, 2}, {4, 3}, {5, 4}},
                             rules[] = {{0, 10}, {1, 20}, {2, 20}, {3, 30}};
    static const uint16_t entries[] = {1, 2, 3, 4, 261, 261, 2};
    static const struct step steps[] = {
        {PARTIES, {0, 4, 0, 0}, 256 * 1 + 2}, {PARTIES, {0, 5, 0, 0}, 256 * 1 + 2},
        {TAKE_RULE, {0, 1, 0, 0}, 1},         {PARTIES, {0, 4, 0, 0}, 256 * 0 + 2},
        {ADD_RULE, {0, 1, 0, 20}, 1},         {PARTIES, {0, 4, 0, 0}, 256 * 1 + 2},
        {TAKE_LINK, {0, 4, 2, 0}, 0},         {PARTIES, {0, 5, 0, 0}, 256 * 1 + 3},
        {TAKE_LINK, {0, 4, 3, 0}, 2},         {PARTIES, {0, 4, 0, 0}, HOUSE_REFUSED_NO_DISPUTE},
    };
    struct book b = named_book(6, 1, links, MANY(links), rules, MANY(rules));
    hold_entries("parties", &b, entries);
    try_book(&b);
    hold_answers("parties", &b, steps, MANY(steps));
}

/* A session with the counts of both marks after each call. Kind 2 is under kinds 0 and 1, and kind 3 under kind 2: a
   rule at kind 3 ends one of two disputes; kind 3 under kind 0 too is disputed at itself, and the count stays. */
static void try_counted_session(void) {
    static const struct {
        struct step step;
        uint16_t counts[2];
    } session[] = {
        {{OPEN, {0, 0, 0, 0}, 0}, {0, 0}},      {{ADD_LINK, {0, 2, 0, 0}, 0}, {0, 0}},
        {{ADD_LINK, {0, 2, 1, 0}, 0}, {0, 0}},  {{ADD_LINK, {0, 3, 2, 0}, 0}, {0, 0}},
        {{ADD_RULE, {0, 0, 1, 20}, 3}, {0, 0}}, {{ADD_RULE, {0, 1, 1, 20}, 3}, {0, 2}},
        {{ADD_RULE, {0, 3, 1, 20}, 1}, {0, 1}}, {{TAKE_RULE, {0, 3, 1, 0}, 1}, {0, 2}},
        {{ADD_LINK, {0, 3, 0, 0}, 1}, {0, 2}},  {{TAKE_LINK, {0, 3, 0, 0}, 1}, {0, 2}},
        {{ADD_RULE, {0, 0, 0, 10}, 3}, {0, 2}}, {{ADD_RULE, {0, 1, 0, 20}, 3}, {2, 2}},
        {{ADD_RULE, {0, 1, 0, 10}, 0}, {2, 2}}, {{ADD_LINK, {0, 2, 3, 0}, HOUSE_REFUSED_CYCLE}, {2, 2}},
        {{REFRESH, {0, 0, 0, 0}, 0}, {2, 2}},   {{TAKE_LINK, {0, 2, 1, 0}, 4}, {0, 0}},
    };
    struct book b;
    memset(&b, 165, sizeof b);
    b.n = 4;
    b.m = 2;
    for (size_t i = 0; i < MANY(session); i++) {
        hold_answers("a counted session", &b, &session[i].step, 1);
        hold_counts("a counted session", &b, session[i].counts);
    }
}

/* The session in lists, with the counts of both marks after each. Each refusal of an edit stops a list, and of the
   records from there on nothing is made. */
static void try_counted_lists(void) {
    static const struct {
        size_t many;
        struct house_edit edits[4];
        uint32_t changed;
        unsigned stop, accepted;
        uint16_t counts[2];
    } lists[] = {
        {0, {{ADD_RULE, 0, 0, 20}}, 0, 0, 0, {0, 0}},
        {3, {{ADD_LINK, 2, 0, 0}, {ADD_LINK, 2, 1, 0}, {ADD_LINK, 3, 2, 0}}, 0, 0, 3, {0, 0}},
        {3, {{ADD_RULE, 0, 1, 20}, {ADD_RULE, 1, 1, 20}, {ADD_RULE, 3, 1, 20}}, 7, 0, 3, {0, 1}},
        {3, {{TAKE_RULE, 3, 1, 0}, {TAKE_RULE, 3, 1, 20}, {ADD_LINK, 3, 0, 0}}, 1, 6, 1, {0, 2}},
        {4, {{ADD_LINK, 3, 0, 9}, {TAKE_LINK, 3, 0, 9}, {5, 3, 0, 0}, {ADD_LINK, 3, 0, 0}}, 2, 19, 2, {0, 2}},
        {3, {{ADD_RULE, 0, 0, 10}, {ADD_RULE, 1, 0, 20}, {ADD_RULE, 1, 0, 10}}, 6, 0, 3, {2, 2}},
        {2, {{ADD_LINK, 2, 3, 0}, {TAKE_LINK, 2, 1, 0}}, 0, 9, 0, {2, 2}},
        {3, {{TAKE_LINK, 2, 1, 0}, {TAKE_LINK, 2, 1, 0}, {ADD_LINK, 2, 1, 0}}, 4, 8, 1, {0, 0}},
        {3, {{ADD_LINK, 2, 1, 0}, {ADD_LINK, 2, 1, 0}, {TAKE_LINK, 2, 1, 0}}, 4, 7, 1, {2, 2}},
        {3, {{TAKE_RULE, 1, 0, 0}, {ADD_RULE, 1, 0, 0}, {TAKE_RULE, 1, 1, 0}}, 3, 4, 1, {0, 2}},
        {2, {{ADD_RULE, 3, 2, 0}, {TAKE_RULE, 1, 1, 0}}, 0, 3, 0, {0, 2}},
        {2, {{ADD_LINK, 3, 4, 0}, {TAKE_RULE, 1, 1, 0}}, 0, 2, 0, {0, 2}},
    };
    struct book b = named_book(4, 2, NULL, 0, NULL, 0);
    struct lent t = lend(&b);
    uint32_t made = 0;
    for (size_t i = 0; i < MANY(lists); i++) {
        list_len = lists[i].many;
        memcpy(list + 1, lists[i].edits, sizeof lists[i].edits);
        try_list(&b, 15);
        made += lists[i].accepted;
        uint64_t given = make_list(&t, 15);
        if (house_list_changed(given) != lists[i].changed || house_list_stop(given) != lists[i].stop ||
            house_list_accepted(given) != lists[i].accepted || b.tally[15] != made)
            fail("a counted session in lists", &b);
        hold_counts("a counted session in lists", &b, lists[i].counts);
    }
}

/* The diamond is saved under the first name, and under the last with a rule more, which makes a dispute. */
static void try_named_states(void) {
    static const struct pair links[] = {{1, 0}, {2, 0}, {3, 1}, {3, 2}}, rules[] = {{0, 10}, {1, 20}};
    static const uint16_t plain[] = {1, 0, 2, 0, 1, 0, 2, 0, 0, 0}, disputed[] = {1, 0, 2, 0, 3, 0, 260, 0, 1, 0};
    static const struct step saves[] =
        {
            {RETURN, {0, 0, 0, 0}, HOUSE_REFUSED_UNSAVED},
            {SAVE, {0, 0, 0, 0}, 0},
            {ADD_RULE, {0, 2, 0, 20}, 2},
            {SAVE, {0, 7, 0, 0}, 0},
            {SAVE, {0, 8, 0, 0}, HOUSE_REFUSED_NAME},
        },
        first[] = {{RETURN, {3, 0, 0, 0}, 2}, {RETURN, {3, 0, 0, 0}, 0}},
        last[] = {
            {RETURN, {16, 8, 0, 0}, HOUSE_REFUSED_CALLER},
            {RETURN, {15, 8, 0, 0}, HOUSE_REFUSED_NAME},
            {RETURN, {15, 1, 0, 0}, HOUSE_REFUSED_UNSAVED},
            {RETURN, {15, 7, 0, 0}, 2},
        };
    static const struct store kept = {
        .flags = {1, 0, 0, 0, 0, 0, 0, 1},
        .links = {[4] = 1, [8] = 1, [13] = 1, [14] = 1, [116] = 1, [120] = 1, [125] = 1, [126] = 1},
        .rules = {[0] = 10, [2] = 20, [56] = 10, [58] = 20, [60] = 20},
        .entries = {[0] = 1, [2] = 2, [4] = 1, [6] = 2, [56] = 1, [58] = 2, [60] = 3, [62] = 260},
        .disputes = {[14] = 1},
    };
    struct book b = named_book(4, 2, links, MANY(links), rules, MANY(rules));
    memset(&lent_store, 0, sizeof lent_store);
    hold_answers("saves", &b, saves, MANY(saves));
    hold_entries("saves", &b, disputed);
    hold_answers("a return to the first name", &b, first, MANY(first));
    hold_entries("a return to the first name", &b, plain);
    hold_answers("a return to the last name", &b, last, MANY(last));
    hold_entries("a return to the last name", &b, disputed);
    if (b.tally[0] != 1 || b.tally[3] != 2 || b.tally[15] != 1) fail("the tally of returns", &b);
    if (!same_stores(&lent_store, &kept)) fail("the store of named states", &b);
}

/* ---- sizes at and past the edges */

/* Tables for more kinds and marks than a book may have, and for its store. */
static struct room {
    uint8_t links[129 * 129];
    uint16_t rules[129 * 65], entries[129 * 65];
    uint32_t tally[HOUSE_CALLERS];
    uint16_t disputes[MOST_MARKS + 1];
    uint8_t flags[HOUSE_NAMES], saved_links[HOUSE_NAMES * 129 * 129];
    uint16_t saved_rules[HOUSE_NAMES * 129 * 65], saved_entries[HOUSE_NAMES * 129 * 65];
    uint16_t saved_disputes[HOUSE_NAMES * (MOST_MARKS + 1)];
} room, other_room;

/* Of a room its leading part, as long as the size asks. */
static struct lent fitting(struct room *r, size_t n, size_t m) {
    return (struct lent){(uint16_t)n, (uint16_t)m, r->links,       r->rules,       r->entries,       r->tally,
                         r->disputes, r->flags,    r->saved_links, r->saved_rules, r->saved_entries, r->saved_disputes,
                         LENGTHS(n, m), NULL, NULL};
}

/* Every call, and a list after each, refuses a size outside the range, though the tables fit it, and writes nothing. */
static void try_sizes_outside(void) {
    static const struct pair sizes[] = {{0, 0}, {0, 2}, {4, 0}, {129, 2}, {4, 65}, {129, 65}};
    for (unsigned i = 0; i < MANY(sizes) * CALLS * 2; i++) {
        struct pair size = sizes[i / 2 / CALLS];
        struct lent t = fitting(&room, size.one, size.other);
        enum call call = i / 2 % CALLS;
        memset(&room, i % 2 == 0 ? 0 : 165, sizeof room);
        memcpy(&other_room, &room, sizeof room);
        uint32_t given = counted(call, &t, i % 2 == 0 ? good : bad);
        if (given != HOUSE_REFUSED_BOOK || !lists_refused_for_book(&t) || memcmp(&room, &other_room, sizeof room) != 0)
            fail_at(calls[call].name, t.n, t.m);
    }
}

/* A book at the edges of the range, opened over other numbers, is all 0, and it has its last kind, mark and caller. */
static void try_sizes_at_the_edges(void) {
    static const struct pair sizes[] = {{1, 1}, {1, 64}, {128, 1}, {128, 64}};
    for (size_t i = 0; i < MANY(sizes); i++) {
        uint16_t n = sizes[i].one, m = sizes[i].other;
        struct lent t = fitting(&room, n, m);
        struct arguments last = {HOUSE_CALLERS - 1, (uint16_t)(n - 1), (uint16_t)(m - 1), 65535};
        memset(&room, 165, sizeof room);
        memset(&other_room, 165, sizeof room);
        emptied(fitting(&other_room, n, m));
        if (counted(OPEN, &t, good) != 0 || memcmp(&room, &other_room, sizeof room) != 0) fail_at("open", n, m);
        other_room.rules[n * m - 1] = last.z;
        other_room.entries[n * m - 1] = n;
        other_room.tally[last.caller] = 1;
        if (counted(ADD_RULE, &t, last) != 1 || memcmp(&room, &other_room, sizeof room) != 0 ||
            counted(INSPECT, &t, good) != HOUSE_SOUND)
            fail_at("a rule of the last kind, mark and caller", n, m);
    }
}

/* Parties with any two numbers that the largest book has: a kind of another number is put under both, for the last
   mark. */
static void try_parties_of_the_largest(void) {
    static const struct pair pairs[] = {{0, 1}, {0, 127}, {1, 63}, {62, 64}, {63, 64}, {64, 65}, {126, 127}};
    for (size_t i = 0; i < MANY(pairs); i++) {
        uint16_t one = pairs[i].one, other = pairs[i].other, kind = 100;
        struct lent t = fitting(&room, 128, 64);
        uint32_t refused = counted(OPEN, &t, good);
        refused |= counted(ADD_LINK, &t, (struct arguments){0, kind, other, 0});
        refused |= counted(ADD_LINK, &t, (struct arguments){0, kind, one, 0});
        refused |= counted(ADD_RULE, &t, (struct arguments){0, other, 63, 20}) - 2;
        refused |= counted(ADD_RULE, &t, (struct arguments){0, one, 63, 20}) - 2;
        if (refused != 0 || counted(PARTIES, &t, (struct arguments){0, kind, 63, 0}) != 256u * one + other)
            fail_at("parties", 128, 64);
    }
}

/* Every call that is lent one of these tables is refused for its book or store. */
static void hold_refused(const struct lent *t, unsigned table) {
    for (enum call call = table < TABLES ? OPEN : SAVE; call < CALLS; call++)
        if (counted(call, t, good) != HOUSE_REFUSED_BOOK) fail_at(calls[call].name, t->n, t->m);
    if (table < TABLES && !lists_refused_for_book(t)) fail_at("a list", t->n, t->m);
}

/* NULL with 0 elements is refused, for all tables and for each alone. */
static void try_null(void) {
    struct lent none = {.n = 4, .m = 2}, all = fitting(&room, 4, 2);
    hold_refused(&none, 0);
    for (unsigned table = 0; table < 2 * TABLES; table++) {
        struct lent t = all;
        t.lengths[table] = 0;
        switch (table) {
        case 0: t.links = NULL; break;
        case 1: t.rules = NULL; break;
        case 2: t.entries = NULL; break;
        case 3: t.tally = NULL; break;
        case 4: t.disputes = NULL; break;
        case 5: t.flags = NULL; break;
        case 6: t.saved_links = NULL; break;
        case 7: t.saved_rules = NULL; break;
        case 8: t.saved_entries = NULL; break;
        default: t.saved_disputes = NULL;
        }
        hold_refused(&t, table);
    }
}

/* ---- the largest book with as many disputes as there can be: all kinds from 2 on are under kinds 0 and 1, which both
   have a rule for every mark. The library works on one room, and the other has what should be there. */

enum { LARGEST = 128, DISPUTED = LARGEST - 2 };

static void hold_room(const char *what, uint32_t given, uint32_t answer) {
    if (given != answer || memcmp(&room, &other_room, sizeof room) != 0) fail_at(what, LARGEST, MOST_MARKS);
}

/* Gives the mark its two rules, of which the second makes the disputes. */
static void dispute_mark(const struct lent *t, uint16_t mark) {
    hold_room("no dispute", counted(INSPECT, t, good), HOUSE_SOUND);
    for (uint16_t kind = 0; kind < 2; kind++) {
        other_room.rules[kind * MOST_MARKS + mark] = 20;
        other_room.tally[kind]++;
        other_room.entries[kind * MOST_MARKS + mark] = (uint16_t)(kind + 1);
        for (unsigned c = 2; c < LARGEST; c++)
            other_room.entries[c * MOST_MARKS + mark] = (uint16_t)(kind == 0 ? 1 : 257 + c);
        other_room.disputes[mark] = kind == 0 ? 0 : DISPUTED;
        hold_room("a rule", counted(ADD_RULE, t, (struct arguments){kind, kind, mark, 20}), DISPUTED + 1);
    }
}

/* One count wrong, and often one of a higher mark as well: inspect names the lower, edits and parties refuse, and
   refresh puts both right. */
static void spoil_mark(const struct lent *t, uint16_t mark) {
    room.disputes[mark] ^= (uint16_t)(1u << chance() % 16);
    other_room.disputes[mark] = room.disputes[mark];
    uint16_t higher = between(mark, MOST_MARKS - 1);
    if (higher > mark) other_room.disputes[higher] = room.disputes[higher] = (uint16_t)chance();
    hold_room("inspect", counted(INSPECT, t, good), (uint32_t)HOUSE_WRONG_COUNT + mark);
    for (enum call call = ADD_RULE; call <= TAKE_LINK; call++)
        hold_room(calls[call].name, counted(call, t, good), HOUSE_REFUSED_UNSOUND);
    hold_room("parties", counted(PARTIES, t, (struct arguments){0, 2, mark, 0}), HOUSE_REFUSED_UNSOUND);
    other_room.disputes[mark] = other_room.disputes[higher] = DISPUTED;
    hold_room("refresh", counted(REFRESH, t, good), 0);
}

static void try_highest_counts(void) {
    struct lent t = fitting(&room, LARGEST, MOST_MARKS);
    memset(&room, 165, sizeof room);
    emptied(t);
    for (unsigned c = 2; c < LARGEST; c++) room.links[c * LARGEST] = room.links[c * LARGEST + 1] = 1;
    memcpy(&other_room, &room, sizeof room);
    for (uint16_t mark = 0; mark < MOST_MARKS; mark++) dispute_mark(&t, mark);
    for (uint16_t mark = 0; mark < MOST_MARKS; mark++) spoil_mark(&t, mark);
    /* the last kind leaves kind 0: one dispute less for every mark */
    other_room.links[(LARGEST - 1) * LARGEST] = 0;
    other_room.tally[0]++;
    for (unsigned mark = 0; mark < MOST_MARKS; mark++) {
        other_room.entries[(LARGEST - 1) * MOST_MARKS + mark] = 2;
        other_room.disputes[mark] = DISPUTED - 1;
    }
    hold_room("a link", counted(TAKE_LINK, &t, (struct arguments){0, LARGEST - 1, 0, 0}), MOST_MARKS);
}

/* ---- long lists, and lists of large books */

/* Lists as long as they may be, and longer. Of one that is too long nothing else is looked at. */
static void try_long_lists(void) {
    static const size_t lengths[] = {HOUSE_MOST_EDITS, HOUSE_MOST_EDITS + 1, HOUSE_MOST_EDITS - 1, RECORDS};
    struct book b;
    for (unsigned i = 0; i < 4 * MANY(lengths); i++) {
        while (!make_book(&b, (uint16_t)(3 + i % 3), (uint16_t)(1 + i % 2), chance() & chance(), chance())) {}
        struct book copy = b;
        struct lent t = lend(&copy);
        draw_list(&t, lengths[i % MANY(lengths)], i < MANY(lengths) ? 1000000 : 5000);
        try_list(&b, between(0, HOUSE_CALLERS - 1));
        try_list(&b, between(HOUSE_CALLERS, 65535));
        b.disputes[0]++;
        try_list(&b, between(0, HOUSE_CALLERS + 1));
    }
}

/* A book of about two parents a kind, whose numbers do not tell what is above what, and rules at one place in three. */
static void fill_room(uint16_t n, uint16_t m) {
    struct lent t = fitting(&room, n, m);
    memset(&room, 165, sizeof room);
    emptied(t);
    for (unsigned i = 0; i < 4u * n; i++) {
        unsigned child = (unsigned)chance() % n, parent = (unsigned)chance() % n;
        if (child * 37 % n < parent * 37 % n) room.links[child * n + parent] = 1;
    }
    for (unsigned i = 0; i < (unsigned)n * m; i++) room.rules[i] = chance() % 3 == 0 ? between(1, 65535) : 0;
    if (house_is_refusal(counted(REFRESH, &t, good))) fail_at("refresh", n, m);
}

/* A list of a large book by the call and by the single calls. The book is sound afterwards, as inspect has it. */
static void try_large_list(uint16_t n, uint16_t m, size_t length) {
    struct lent t = fitting(&room, n, m), singly = fitting(&other_room, n, m);
    uint16_t caller = between(0, HOUSE_CALLERS - 1);
    fill_room(n, m);
    memcpy(&other_room, &room, sizeof room);
    draw_list(&singly, length, 1000);
    memcpy(&other_room, &room, sizeof room);
    uint64_t given = make_list(&t, caller);
    if (one_by_one(make, &singly, caller) != given || memcmp(&room, &other_room, sizeof room) != 0 ||
        counted(INSPECT, &t, good) != HOUSE_SOUND)
        fail_at("a list", n, m);
}

static void try_large_lists(void) {
    static const struct pair sizes[] = {{24, 16}, {63, 64}, {64, 32}, {65, 33}, {100, 1}, {127, 63}, {128, 64}};
    for (size_t i = 0; i < 3 * MANY(sizes); i++)
        try_large_list(sizes[i % MANY(sizes)].one, sizes[i % MANY(sizes)].other, 400);
    try_large_list(LARGEST, MOST_MARKS, HOUSE_MOST_EDITS);
}

/* A state of a large book is saved and, after edits, returned to. */
static void try_large_state(uint16_t n, uint16_t m) {
    struct lent t = fitting(&room, n, m), read = fitting(&other_room, n, m);
    struct arguments a = {between(0, HOUSE_CALLERS - 1), between(0, HOUSE_NAMES - 1), 0, 0};
    fill_room(n, m);
    memcpy(&other_room, &room, sizeof room);
    if (counted(SAVE, &t, a) != stored(read, a.x) || memcmp(&room, &other_room, sizeof room) != 0)
        fail_at("save", n, m);
    draw_list(&t, 40, 1000);
    memcpy(&other_room, &room, sizeof room);
    other_room.tally[a.caller]++;
    if (counted(RETURN, &t, a) != fetched(read, a.x) || memcmp(&room, &other_room, sizeof room) != 0 ||
        counted(INSPECT, &t, good) != HOUSE_SOUND)
        fail_at("return", n, m);
    /* one bit of the copies wrong, and only there */
    size_t places = t.lengths[1], place = a.x * places + chance() % places, bit = 1u << chance() % 16;
    switch (chance() % 3) {
    case 0: room.saved_links[a.x * t.lengths[0] + chance() % t.lengths[0]] ^= 2; break;
    case 1: room.saved_entries[place] ^= (uint16_t)bit; break;
    default: room.saved_disputes[a.x * m + place % m] ^= (uint16_t)bit;
    }
    memcpy(&other_room, &room, sizeof room);
    if (counted(RETURN, &t, a) != HOUSE_REFUSED_UNSOUND || memcmp(&room, &other_room, sizeof room) != 0)
        fail_at("a return to a damaged state", n, m);
}

static void try_large_states(void) {
    static const struct pair sizes[] = {{1, 1},   {1, 64},  {128, 1}, {7, 3},    {24, 16},
                                        {63, 64}, {64, 63}, {65, 33}, {127, 63}, {128, 64}};
    for (size_t i = 0; i < 6 * MANY(sizes); i++)
        try_large_state(sizes[i % MANY(sizes)].one, sizes[i % MANY(sizes)].other);
}

/* The highest sum: the last kind has a rule for every mark and all others are under it, all but one by way of that one,
   whose link is taken and added again. The tally stays at its highest number. */
static void try_highest_sum(void) {
    enum { LAST = LARGEST - 1, MIDDLE = LAST - 1 };
    struct lent t = fitting(&room, LARGEST, MOST_MARKS);
    memset(&room, 165, sizeof room);
    emptied(t);
    for (unsigned c = 0; c < LAST; c++) room.links[c * LARGEST + (c == MIDDLE ? LAST : MIDDLE)] = 1;
    for (unsigned mark = 0; mark < MOST_MARKS; mark++) room.rules[LAST * MOST_MARKS + mark] = 20;
    for (size_t i = 0; i < t.lengths[2]; i++) room.entries[i] = LAST + 1;
    room.tally[0] = UINT32_MAX - 1;
    memcpy(&other_room, &room, sizeof room);
    other_room.tally[0] = UINT32_MAX;
    list_len = HOUSE_MOST_EDITS;
    for (size_t i = 0; i < 1 + list_len + 1; i++)
        list[i] = (struct house_edit){i % 2 == 0 ? HOUSE_ADD_LINK : HOUSE_TAKE_LINK, MIDDLE, LAST, 0};
    if (make_list(&t, 0) != packed(HOUSE_MOST_EDITS * LAST * MOST_MARKS, 0, HOUSE_MOST_EDITS) ||
        memcmp(&room, &other_room, sizeof room) != 0)
        fail_at("the highest sum", LARGEST, MOST_MARKS);
}

/* ---- how often */

static int rare(unsigned long times, const char *what, unsigned number) {
    if (times < 1000) fprintf(stderr, "only %lu times: %s, %u\n", times, what, number);
    return times < 1000;
}

/* Every refusal of every call came up often, with 0 for none, and so did every one by which a list stops, every fault,
   that of a book saved or replaced and that of a state too, every sort of flag and of wrong counts, and parties that
   tell the two lowest kinds left from other pairs. */
static void hold_often(void) {
    static const unsigned refused[] = {1, 13, 5}, stopped[] = {0, 19, 2, 3, 4, 6, 7, 8, 9};
    int any = rare(old_books, "other entries by the old lookup", 0);
    any |= rare(counts_moved, "an edit that changes a count", 0);
    any |= rare(counts_kept, "an edit that changes entries and no count", 0);
    any |= rare(more_left, "parties of more than two kinds left", 0);
    any |= rare(lower_hidden, "parties where a lower kind is seen and not left", 0);
    any |= rare(calls_after, "a call after a return", 0);
    for (enum call call = 0; call < CALLS; call++)
        for (size_t i = 0; i < MANY(calls[call].refusals); i++) {
            unsigned refusal = calls[call].refusals[i];
            any |= rare(answers[call][refusal], calls[call].name, refusal);
        }
    for (size_t i = 0; i < MANY(refused); i++) any |= rare(lists_refused[refused[i]], "a refused list", refused[i]);
    for (size_t i = 0; i < MANY(stopped); i++) any |= rare(lists_stopped[stopped[i]], "a list that stops", stopped[i]);
    for (unsigned i = HOUSE_LINK_BYTE / 65536; i < FAULTS; i++) {
        any |= rare(faults[i], "the fault, by 65536", i);
        any |= rare(saved_faults[i], "a save of a book with the fault", i);
        any |= rare(replaced_faults[i], "a return on a book with the fault", i);
        any |= rare(state_faults[i], "a return to a state with the fault", i);
    }
    for (unsigned i = 1; i < MANY(returned_by_flag); i++) any |= rare(returned_by_flag[i], "a return by the flag", i);
    for (unsigned i = 0; i < SORTS; i++) any |= rare(wrong_counts[i], "wrong counts of sort", i);
    if (any) exit(EXIT_FAILURE);
}

int main(void) {
    struct book b;
    for (uint16_t n = 1; n <= 3; n++)
        for (uint16_t m = 1; m <= MARKS; m++)
            for (unsigned long links = 0; links < 1ul << n * n; links++)
                for (unsigned long rules = 0; rules < 1ul << n * m; rules++)
                    if (make_book(&b, n, m, links, rules)) try_book(&b);
    unsigned long all = books;
    while (books < all + 15000)
        if (make_book(&b, (uint16_t)(books % 10 == 9 ? 6 : 4 + books % 2), 2, chance() & chance(), chance()))
            try_book(&b);
    while (books < all + 15000 + 6000)
        if (make_book(&b, KINDS, 2, ordered_links(KINDS), chance())) try_book(&b);
    try_link_past_own_rule();
    try_rule_past_same_entry();
    try_stored_diamond();
    try_parties();
    try_counted_session();
    try_counted_lists();
    try_named_states();
    try_sizes_outside();
    try_sizes_at_the_edges();
    try_parties_of_the_largest();
    try_null();
    try_highest_counts();
    try_long_lists();
    try_large_lists();
    try_large_states();
    try_highest_sum();
    hold_often();
    printf("%lu books, %lu of them all those of up to 3 kinds and 2 marks, %lu not sound as stored before; %lu calls\n",
           books, all, old_books, calls_made);
    return EXIT_SUCCESS;
}
