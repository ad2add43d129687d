/* The four edits, a list of them, refresh, save and return by hand, as quick as we could make them in plain C99: links read eight bytes at a time, the kinds put in
   order by one climb, entries worked out a row of marks at a time, where parents differ by the rule kinds left, and after an edit only for the kinds
   that it reaches. It counts on a machine that stores the lowest byte of a number first. */
#include "twin.h"
#include <string.h>

enum { MOST = 128, MARKS = 64, REFUSED = 65536 };

/* A set of kinds, or of places in the order of the kinds. */
struct set {
    uint64_t low, high;
};

/* What the soundness test reads from a book. In the order each kind stands before those above it. */
struct view {
    struct set parents[MOST]; /* of each kind */
    struct set reach[MOST];   /* of each kind: its own place and those of the kinds above it */
    struct set ruled[MARKS];  /* of each mark: the places of the kinds with a rule */
    uint8_t order[MOST], place[MOST];
    size_t taken; /* the places from this one on */
};

/* Instead of a place: the climb has not met the kind, or has not come back from those above it. */
enum { UNMET = MOST, ENTERED };

static inline struct set only(size_t i) { return (struct set){i < 64 ? (uint64_t)1 << i : 0, i < 64 ? 0 : (uint64_t)1 << (i - 64)}; }
static inline struct set both(struct set s, struct set t) { return (struct set){s.low & t.low, s.high & t.high}; }
static inline struct set either(struct set s, struct set t) { return (struct set){s.low | t.low, s.high | t.high}; }
static inline struct set without(struct set s, struct set t) { return (struct set){s.low & ~t.low, s.high & ~t.high}; }
static inline int empty(struct set s) { return (s.low | s.high) == 0; }
static inline int has(struct set s, size_t i) { return !empty(both(s, only(i))); }

static inline size_t lowest(uint64_t word) { return (unsigned)__builtin_ctzll(word); }
static inline size_t first(struct set s) { return s.low ? lowest(s.low) : 64 + lowest(s.high); }
static inline void drop_first(struct set *s) {
    if (s->low) s->low &= s->low - 1;
    else s->high &= s->high - 1;
}

static int shaped(const struct book *b) {
    size_t places = (size_t)b->n * b->m;
    return b->n >= 1 && b->n <= MOST && b->m >= 1 && b->m <= MARKS && b->links_len == (size_t)b->n * b->n && b->rules_len == places &&
           b->entries_len == places && b->tally_len == CALLERS && b->disputes_len == b->m;
}

static int stored(const struct book *b) {
    const struct store *s = b->store;
    return s->flags_len == NAMES && s->links_len == NAMES * b->links_len && s->rules_len == NAMES * b->rules_len &&
           s->entries_len == NAMES * b->entries_len && s->disputes_len == NAMES * b->disputes_len;
}

/* Eight bytes, each 0 or 1, as eight bits: byte i comes to bit 56 + i of the product. */
static inline uint64_t eight_bits(uint64_t bytes) { return bytes * 0x0102040810204080u >> 56; }

/* Up to 64 bytes, each 0 or 1, as bits. All that they hold is put into `held` too, for the test that they are. */
static inline uint64_t bits_of(const uint8_t *bytes, size_t many, uint64_t *held) {
    uint64_t bits = 0, eight = 0;
    size_t i = 0;
    for (; i + 8 <= many; i += 8) {
        memcpy(&eight, bytes + i, 8);
        *held |= eight;
        bits |= eight_bits(eight) << i;
    }
    if (i < many) {
        eight = 0;
        memcpy(&eight, bytes + i, many - i);
        *held |= eight;
        bits |= eight_bits(eight) << i;
    }
    return bits;
}

/* Whether every link byte is 0 or 1. The compiler unrolls where a whole 64 is asked for. */
static int read_links(const struct book *b, struct view *v) {
    size_t n = b->n;
    uint64_t held = 0;
    for (size_t c = 0; c < n; c++) {
        const uint8_t *row = b->links + c * n;
        v->parents[c].low = n < 64 ? bits_of(row, n, &held) : bits_of(row, 64, &held);
        v->parents[c].high = n <= 64 ? 0 : n < MOST ? bits_of(row + 64, n - 64, &held) : bits_of(row + 64, 64, &held);
    }
    return (held & ~(uint64_t)0x0101010101010101u) == 0;
}

/* Gives kind c a place, the last that is free, once all above it have theirs. Whether no cycle was met. */
static int climb(struct view *v, size_t c) {
    struct set reach = {0, 0};
    v->place[c] = ENTERED;
    for (struct set up = v->parents[c]; !empty(up); drop_first(&up)) {
        size_t p = first(up);
        if (v->place[p] == ENTERED || (v->place[p] == UNMET && !climb(v, p))) return 0;
        reach = either(reach, v->reach[p]);
    }
    size_t place = --v->taken;
    v->place[c] = (uint8_t)place;
    v->order[place] = (uint8_t)c;
    v->reach[c] = either(reach, only(place));
    return 1;
}

/* Whether no kind is above itself; if so, they are in order. */
static int arrange(struct view *v, size_t n) {
    v->taken = n;
    memset(v->place, UNMET, n);
    for (size_t c = 0; c < n; c++)
        if (v->place[c] == UNMET && !climb(v, c)) return 0;
    return 1;
}

/* The rules of the kinds at eight places give one byte of each mark's set, many marks at once. */
static void read_rules(const struct book *b, struct view *v) {
    size_t n = b->n, m = b->m;
    uint8_t bytes[MARKS][sizeof(struct set)];
    memset(bytes, 0, m * sizeof *bytes);
    for (size_t i = 0; i < n; i += 8) {
        uint8_t eight[MARKS] = {0};
        for (size_t k = i; k < n && k < i + 8; k++) {
            const uint16_t *rules = b->rules + v->order[k] * m;
            uint8_t bit = (uint8_t)(1 << (k - i));
            for (size_t j = 0; j < m; j++) eight[j] |= rules[j] ? bit : 0;
        }
        for (size_t j = 0; j < m; j++) bytes[j][i / 8] = eight[j];
    }
    memcpy(v->ruled, bytes, m * sizeof *bytes);
}

/* The entry of kind c for mark j by the rule kinds at or above it. The first of them in the order is left, for it is above none of the others; it is
   left alone if all the others are above it. Whether they are is as good as chance, so the answer is chosen without a branch. */
static inline uint16_t decide(const struct view *v, size_t c, size_t j) {
    struct set kinds = both(v->reach[c], v->ruled[j]);
    if (empty(kinds)) return 0;
    size_t o = v->order[first(kinds)], rule = o + 1, dispute = 257 + c;
    size_t more = (size_t)0 - (size_t)!empty(without(kinds, v->reach[o]));
    return (uint16_t)(rule ^ ((rule ^ dispute) & more));
}

static inline uint16_t higher(uint16_t a, uint16_t b) { return a > b ? a : b; }
static inline uint16_t lower(uint16_t a, uint16_t b) { return a < b ? a : b; }
static inline uint16_t less(uint16_t a) { return (uint16_t)(a - 1); }
static inline uint16_t own(size_t c, uint16_t rule, uint16_t inherited) { return rule ? (uint16_t)(c + 1) : inherited; }

/* The entries of kind c. Of its parents' entries for a mark we keep the highest, and the lowest after 1 is taken from each: none, 0, then becomes the
   highest number of all. So if the highest less 1 is that lowest, all that are not none are equal. Where they differ, the rule kinds decide. */
static void work_out(const struct book *b, const struct view *v, size_t c, uint16_t *restrict out) {
    size_t m = b->m;
    const uint16_t *rules = b->rules + c * m;
    struct set up = v->parents[c];
    if (empty(up)) {
        for (size_t j = 0; j < m; j++) out[j] = own(c, rules[j], 0);
        return;
    }
    const uint16_t *one = b->entries + first(up) * m;
    drop_first(&up);
    if (empty(up)) {
        for (size_t j = 0; j < m; j++) out[j] = own(c, rules[j], one[j]);
        return;
    }
    const uint16_t *other = b->entries + first(up) * m;
    uint16_t low[MARKS];
    for (size_t j = 0; j < m; j++) {
        out[j] = higher(one[j], other[j]);
        low[j] = lower(less(one[j]), less(other[j]));
    }
    for (drop_first(&up); !empty(up); drop_first(&up)) {
        other = b->entries + first(up) * m;
        for (size_t j = 0; j < m; j++) {
            out[j] = higher(out[j], other[j]);
            low[j] = lower(low[j], less(other[j]));
        }
    }
    uint8_t differ[MARKS] = {0};
    uint64_t held = 0;
    for (size_t j = 0; j < m; j++) {
        differ[j] = (rules[j] == 0) & (less(out[j]) != low[j]);
        out[j] = own(c, rules[j], out[j]);
    }
    for (uint64_t marks = bits_of(differ, MARKS, &held); marks; marks &= marks - 1) out[lowest(marks)] = decide(v, c, lowest(marks));
}

/* 1 for a dispute, else 0. */
static inline uint16_t dispute(uint16_t entry) { return entry >= 257; }

/* Each kind is worked out from its parents' entries as they stand. If all come out as they stand, they are right from the topmost kinds down; if not,
   some entry is wrong. So it does not matter what comes out below a wrong one. The disputes are counted on the way, down from what the book has. */
static int sound(const struct book *b, struct view *v) {
    size_t n = b->n, m = b->m;
    uint16_t out[MARKS], uncounted[MARKS], wrong = 0;
    if (!read_links(b, v) || !arrange(v, n)) return 0;
    read_rules(b, v);
    memcpy(uncounted, b->disputes, m * sizeof *uncounted);
    for (size_t c = 0; c < n; c++) {
        const uint16_t *entries = b->entries + c * m;
        work_out(b, v, c, out);
        for (size_t j = 0; j < m; j++) {
            wrong |= (uint16_t)(out[j] ^ entries[j]);
            uncounted[j] = (uint16_t)(uncounted[j] - dispute(out[j]));
        }
    }
    for (size_t j = 0; j < m; j++) wrong |= uncounted[j];
    return wrong == 0;
}

static void add_to_tally(const struct book *b, size_t caller) {
    if (b->tally[caller] < UINT32_MAX) b->tally[caller]++;
}

/* A count of disputes after one of its entries has changed. */
static inline uint16_t recounted(uint16_t count, uint16_t was, uint16_t is) { return (uint16_t)(count + dispute(is) - dispute(was)); }

/* One entry worked out and written, as a row is. Whether it was another. */
static uint32_t settle(const struct book *b, const struct view *v, size_t c, size_t mark) {
    size_t m = b->m;
    uint16_t high = 0, low = UINT16_MAX, was = b->entries[c * m + mark];
    for (struct set up = v->parents[c]; !empty(up); drop_first(&up)) {
        uint16_t entry = b->entries[first(up) * m + mark];
        high = higher(high, entry);
        low = lower(low, less(entry));
    }
    if (b->rules[c * m + mark] != 0) high = (uint16_t)(c + 1);
    else if (less(high) != low) high = decide(v, c, mark);
    b->entries[c * m + mark] = high;
    b->disputes[mark] = recounted(b->disputes[mark], was, high);
    return was != high;
}

/* The entries of kind c worked out and written. How many were others. Those that were there are in the counts, or not: `counted` is 1 or 0. */
static inline uint32_t settle_row(const struct book *b, const struct view *v, size_t c, uint16_t counted) {
    size_t m = b->m;
    uint16_t out[MARKS], *restrict entries = b->entries + c * m, *restrict disputes = b->disputes;
    uint32_t count = 0;
    work_out(b, v, c, out);
    for (size_t j = 0; j < m; j++) {
        count += entries[j] != out[j];
        disputes[j] = recounted(disputes[j], (uint16_t)(counted * entries[j]), out[j]);
        entries[j] = out[j];
    }
    return count;
}

/* The edit reaches the kind and those below it, as far as the next own rule. Places are gone through from its own down, so parents come first. */
static uint32_t set_rule(const struct book *b, struct view *v, size_t caller, size_t kind, size_t mark, uint16_t handling) {
    struct set reached = only(kind), here = only(v->place[kind]), *ruled = &v->ruled[mark];
    b->rules[kind * b->m + mark] = handling;
    *ruled = handling ? either(*ruled, here) : without(*ruled, here);
    uint32_t count = settle(b, v, kind, mark);
    for (size_t i = v->place[kind]; i-- > 0;) {
        size_t c = v->order[i];
        if (empty(both(v->parents[c], reached)) || b->rules[c * b->m + mark] != 0) continue;
        reached = either(reached, only(c));
        count += settle(b, v, c, mark);
    }
    add_to_tally(b, caller);
    return count;
}

/* The edit reaches the child and all below it. The order is made anew only if the new parent stands before the child. */
static uint32_t set_link(const struct book *b, struct view *v, size_t caller, size_t child, size_t parent, uint8_t byte) {
    struct set *parents = &v->parents[child];
    b->links[child * b->n + parent] = byte;
    *parents = byte ? either(*parents, only(parent)) : without(*parents, only(parent));
    if (byte && v->place[parent] < v->place[child]) {
        arrange(v, b->n);
        read_rules(b, v);
    }
    uint32_t count = 0;
    size_t last = v->place[child];
    for (size_t i = last + 1; i-- > 0;) {
        size_t c = v->order[i];
        if (!has(v->reach[c], last)) continue;
        v->reach[c] = only(i);
        for (struct set up = v->parents[c]; !empty(up); drop_first(&up)) v->reach[c] = either(v->reach[c], v->reach[first(up)]);
        count += settle_row(b, v, c, 1);
    }
    add_to_tally(b, caller);
    return count;
}

/* The refusals of an edit for its numbers alone, which come before soundness, or 0. */
static inline uint32_t wrong_numbers(const struct book *b, struct house_edit e) {
    int rule = e.what == HOUSE_ADD_RULE || e.what == HOUSE_TAKE_RULE;
    if (e.kind >= b->n || (!rule && e.other >= b->n)) return REFUSED + 2;
    if (rule && e.other >= b->m) return REFUSED + 3;
    return e.what == HOUSE_ADD_RULE && e.handling == 0 ? REFUSED + 4 : 0;
}

/* An edit of a sound book, whose view stays that of the book: what it changed, or its last refusals. */
static inline uint32_t edit(const struct book *b, struct view *v, uint16_t caller, struct house_edit e) {
    switch (e.what) {
    case HOUSE_ADD_RULE: return set_rule(b, v, caller, e.kind, e.other, e.handling);
    case HOUSE_TAKE_RULE:
        if (b->rules[(size_t)e.kind * b->m + e.other] == 0) return REFUSED + 6;
        return set_rule(b, v, caller, e.kind, e.other, 0);
    case HOUSE_ADD_LINK:
        if (has(v->parents[e.kind], e.other)) return REFUSED + 7;
        if (has(v->reach[e.other], v->place[e.kind])) return REFUSED + 9;
        return set_link(b, v, caller, e.kind, e.other, 1);
    default:
        if (!has(v->parents[e.kind], e.other)) return REFUSED + 8;
        return set_link(b, v, caller, e.kind, e.other, 0);
    }
}

static inline uint32_t single(const struct book *b, uint16_t caller, struct house_edit e) {
    struct view v;
    if (!shaped(b)) return REFUSED + 1;
    if (caller >= CALLERS) return REFUSED + 13;
    uint32_t wrong = wrong_numbers(b, e);
    if (wrong) return wrong;
    if (!sound(b, &v)) return REFUSED + 5;
    return edit(b, &v, caller, e);
}

uint32_t twin_add_rule(const struct book *b, uint16_t caller, uint16_t kind, uint16_t mark, uint16_t handling) {
    return single(b, caller, (struct house_edit){HOUSE_ADD_RULE, kind, mark, handling});
}

uint32_t twin_take_rule(const struct book *b, uint16_t caller, uint16_t kind, uint16_t mark) {
    return single(b, caller, (struct house_edit){HOUSE_TAKE_RULE, kind, mark, 0});
}

uint32_t twin_add_link(const struct book *b, uint16_t caller, uint16_t child, uint16_t parent) {
    return single(b, caller, (struct house_edit){HOUSE_ADD_LINK, child, parent, 0});
}

uint32_t twin_take_link(const struct book *b, uint16_t caller, uint16_t child, uint16_t parent) {
    return single(b, caller, (struct house_edit){HOUSE_TAKE_LINK, child, parent, 0});
}

/* Soundness once; each edit then finds the view as the one before left it. */
uint64_t twin_make_list(const struct book *b, uint16_t caller, const struct house_edit *edits, size_t many) {
    struct view v;
    uint64_t changed = 0;
    if (!shaped(b) || many > HOUSE_MOST_EDITS) return REFUSED + 1;
    if (caller >= CALLERS) return REFUSED + 13;
    if (!sound(b, &v)) return REFUSED + 5;
    for (size_t i = 0; i < many; i++) {
        struct house_edit e = edits[i];
        uint32_t answer = e.what < HOUSE_ADD_RULE || e.what > HOUSE_TAKE_LINK ? REFUSED + 19 : wrong_numbers(b, e);
        if (answer == 0) answer = edit(b, &v, caller, e);
        if (answer >= REFUSED) return changed << 32 | (uint64_t)(256 + answer - REFUSED) << 16 | i;
        changed += answer;
    }
    return changed << 32 | many;
}

/* The kinds from the last place to the first, so that parents come first. */
uint32_t twin_refresh(const struct book *b) {
    struct view v;
    uint32_t count = 0;
    if (!shaped(b)) return REFUSED + 1;
    if (!read_links(b, &v) || !arrange(&v, b->n)) return REFUSED + 5;
    read_rules(b, &v);
    memset(b->disputes, 0, b->m * sizeof *b->disputes);
    for (size_t i = b->n; i-- > 0;) count += settle_row(b, &v, v.order[i], 0);
    return count;
}

/* The state under a name, as a book with the tally of this one. */
static struct book state(const struct book *b, size_t name) {
    struct book copies = *b;
    copies.links = b->store->links + name * b->links_len;
    copies.rules = b->store->rules + name * b->rules_len;
    copies.entries = b->store->entries + name * b->entries_len;
    copies.disputes = b->store->disputes + name * b->disputes_len;
    return copies;
}

/* All but entries and tally. */
static void copy(const struct book *from, const struct book *to) {
    memcpy(to->links, from->links, from->links_len);
    memcpy(to->rules, from->rules, from->rules_len * sizeof *from->rules);
    memcpy(to->disputes, from->disputes, from->disputes_len * sizeof *from->disputes);
}

uint32_t twin_save(const struct book *b, uint16_t name) {
    if (!shaped(b) || !stored(b)) return REFUSED + 1;
    if (name >= NAMES) return REFUSED + 14;
    struct book to = state(b, name);
    copy(b, &to);
    memcpy(to.entries, b->entries, b->entries_len * sizeof *b->entries);
    b->store->flags[name] = 1;
    return 0;
}

/* The entries are compared as they are copied. There are fewer than 65536, so 16 bits will do for the count. */
uint32_t twin_return(const struct book *b, uint16_t caller, uint16_t name) {
    struct view v;
    if (!shaped(b) || !stored(b)) return REFUSED + 1;
    if (caller >= CALLERS) return REFUSED + 13;
    if (name >= NAMES) return REFUSED + 14;
    if (b->store->flags[name] == 0) return REFUSED + 15;
    struct book from = state(b, name);
    if (!sound(&from, &v)) return REFUSED + 5;
    copy(&from, b);
    const uint16_t *restrict saved = from.entries;
    uint16_t *restrict entries = b->entries, count = 0;
    for (size_t i = 0, many = b->entries_len; i < many; i++) {
        count = (uint16_t)(count + (entries[i] != saved[i]));
        entries[i] = saved[i];
    }
    add_to_tally(b, caller);
    return count;
}
