/* Holds lane_find to a version of find that is written here in plain C from docs/SCOPE.md: on the edges one by one,
   then on random books, sound and damaged. It fails where the two differ, or where an outcome came up too seldom. And
   house_save and house_return, which go through the tables of a store, are made on random books and stores.

   AddressSanitizer sees the reads of this file but not those of the library, which is compiled without it. So this file
   reads tables that malloc made exactly as long as they are, and the library is lent copies that stand against pages
   that cannot be read or written: a read or a write outside ends the test. */

#define _DEFAULT_SOURCE /* for MAP_ANONYMOUS */

#include <stdio.h>
#include <stdlib.h>
#include <string.h>
#include <sys/mman.h>
#include <unistd.h>

#include "house.h"
#include "lane.h"

/* ---- books */

struct table {
    uint8_t *bytes;
    size_t length;
};

struct book {
    unsigned n, m;
    struct table links, rules, entries, tally, disputes;
};

static struct table make_table(size_t length) {
    struct table table = {malloc(length), length};
    if (table.bytes == NULL && length > 0) {
        perror("malloc");
        exit(EXIT_FAILURE);
    }
    if (length > 0) {
        memset(table.bytes, 0, length);
    }
    return table;
}

/* Gives a table another length: its leading part stays, and what is new is 0. */
static void resize(struct table *table, size_t length) {
    struct table other = make_table(length);
    size_t kept = length < table->length ? length : table->length;
    if (kept > 0) {
        memcpy(other.bytes, table->bytes, kept);
    }
    free(table->bytes);
    *table = other;
}

/* A book of the right lengths, every number 0. */
static struct book make_book(unsigned n, unsigned m) {
    size_t places = (size_t)n * m;
    struct book book = {
        n,
        m,
        make_table((size_t)n * n),
        make_table(2 * places),
        make_table(2 * places),
        make_table(LANE_TALLY_BYTES),
        make_table(2 * (size_t)m),
    };
    return book;
}

static void free_book(struct book *book) {
    free(book->links.bytes);
    free(book->rules.bytes);
    free(book->entries.bytes);
    free(book->tally.bytes);
    free(book->disputes.bytes);
}

/* A store, as house.h has it: in each table the copies of all names. */
struct store {
    struct table flags, links, rules, entries, disputes;
};

static unsigned number_at(const struct table *table, size_t place) {
    return table->bytes[2 * place] + 256u * table->bytes[2 * place + 1];
}

static void put_number(struct table *table, size_t place, unsigned number) {
    table->bytes[2 * place] = (uint8_t)(number % 256);
    table->bytes[2 * place + 1] = (uint8_t)(number / 256);
}

/* ---- find, from docs/SCOPE.md */

enum outcome {
    NONE,
    RULE,
    DISPUTE,
    KINDS_OUTSIDE,
    MARKS_OUTSIDE,
    LINKS_LENGTH,
    RULES_LENGTH,
    ENTRIES_LENGTH,
    TALLY_LENGTH,
    DISPUTES_LENGTH,
    NO_SUCH_KIND,
    NO_SUCH_MARK,
    ENTRY_OUTSIDE,
    RULE_MISSING,
    OUTCOMES
};

static const char *const outcome_names[OUTCOMES] = {
    "none",
    "rule",
    "dispute",
    "1, number of kinds",
    "1, number of marks",
    "1, length of links",
    "1, length of rules",
    "1, length of entries",
    "1, length of tally",
    "1, length of disputes",
    "2, no such kind",
    "3, no such mark",
    "10, entry outside",
    "10, rule missing",
};

struct answer {
    enum outcome outcome;
    unsigned kind, handling; /* of a rule; of a dispute only the kind */
    uint32_t number;
};

static struct answer refuse(enum outcome why, uint32_t number) {
    struct answer answer = {why, 0, 0, number};
    return answer;
}

/* Refusal 1, test by test, or NONE where the size is right. */
static enum outcome size_fault(const struct book *book) {
    size_t n = book->n, m = book->m;
    if (n < 1 || n > 128) {
        return KINDS_OUTSIDE;
    }
    if (m < 1 || m > 64) {
        return MARKS_OUTSIDE;
    }
    if (book->links.length != n * n) {
        return LINKS_LENGTH;
    }
    if (book->rules.length != n * m * 2) {
        return RULES_LENGTH;
    }
    if (book->entries.length != n * m * 2) {
        return ENTRIES_LENGTH;
    }
    if (book->tally.length != LANE_TALLY_BYTES) {
        return TALLY_LENGTH;
    }
    return book->disputes.length != m * 2 ? DISPUTES_LENGTH : NONE;
}

static struct answer find(const struct book *book, unsigned kind, unsigned mark) {
    enum outcome fault = size_fault(book);
    if (fault != NONE) {
        return refuse(fault, 1);
    }
    if (kind >= book->n) {
        return refuse(NO_SUCH_KIND, 2);
    }
    if (mark >= book->m) {
        return refuse(NO_SUCH_MARK, 3);
    }
    struct answer answer = {NONE, 0, 0, 0};
    unsigned entry = number_at(&book->entries, kind * book->m + mark);
    if (entry == 0) {
        return answer;
    }
    for (unsigned k = 0; k < book->n; k++) {
        answer.kind = k;
        if (entry == k + 1) {
            answer.outcome = RULE;
            answer.handling = number_at(&book->rules, k * book->m + mark);
            answer.number = 65536 * (k + 1) + answer.handling;
            return answer.handling == 0 ? refuse(RULE_MISSING, 10) : answer;
        }
        if (entry == 257 + k) {
            answer.outcome = DISPUTE;
            answer.number = 65536 * (257 + k);
            return answer;
        }
    }
    return refuse(ENTRY_OUTSIDE, 10);
}

/* ---- tables lent to the library */

enum { ROOM = 1 << 17 }; /* bytes between the two pages that cannot be read: a whole number of pages */

enum standing { AT_THE_END, AT_THE_START, AT_AN_ODD_ADDRESS, STANDINGS };

struct lent {
    uint8_t *links, *rules, *entries, *tally, *disputes;
};

static uint8_t *make_room(void) {
    size_t page = (size_t)sysconf(_SC_PAGESIZE);
    uint8_t *all = mmap(NULL, ROOM + 2 * page, PROT_NONE, MAP_PRIVATE | MAP_ANONYMOUS, -1, 0);
    if (all == MAP_FAILED || ROOM % page != 0 || mprotect(all + page, ROOM, PROT_READ | PROT_WRITE) != 0) {
        perror("mmap");
        exit(EXIT_FAILURE);
    }
    return all + page;
}

/* Copies a table into a room of its own. A table of no bytes is NULL in one of the standings. */
static uint8_t *lend_table(uint8_t **room, const struct table *table, enum standing standing) {
    if (*room == NULL) {
        *room = make_room();
    }
    size_t odd = standing == AT_AN_ODD_ADDRESS;
    if (table->length + odd > ROOM) {
        fprintf(stderr, "a table of %zu bytes is too long for this test\n", table->length);
        exit(EXIT_FAILURE);
    }
    uint8_t *start = standing == AT_THE_END ? *room + (ROOM - table->length) : *room + odd;
    if (table->length == 0) {
        return standing == AT_THE_START ? NULL : start;
    }
    memcpy(start, table->bytes, table->length);
    return start;
}

static struct lent lend(const struct book *book, enum standing standing) {
    static uint8_t *rooms[5];
    struct lent lent = {
        lend_table(&rooms[0], &book->links, standing),
        lend_table(&rooms[1], &book->rules, standing),
        lend_table(&rooms[2], &book->entries, standing),
        lend_table(&rooms[3], &book->tally, standing),
        lend_table(&rooms[4], &book->disputes, standing),
    };
    return lent;
}

static bool same(const struct table *table, const uint8_t *lent) {
    return table->length == 0 || memcmp(table->bytes, lent, table->length) == 0;
}

static bool same_book(const struct book *book, const struct lent *lent) {
    return same(&book->links, lent->links) && same(&book->rules, lent->rules) && same(&book->entries, lent->entries) &&
           same(&book->tally, lent->tally) && same(&book->disputes, lent->disputes);
}

/* ---- the comparison */

static unsigned long mistakes, counts[OUTCOMES];

static void mistake(const char *what, const struct book *book, unsigned kind, unsigned mark, uint32_t got,
                    uint32_t want) {
    mistakes++;
    if (mistakes <= 10) {
        printf("WRONG: %s: n %u, m %u, lengths %zu %zu %zu %zu %zu, kind %u, mark %u: %lu, and not %lu\n", what,
               book->n, book->m, book->links.length, book->rules.length, book->entries.length, book->tally.length,
               book->disputes.length, kind, mark, (unsigned long)got, (unsigned long)want);
    }
}

static uint32_t ask_library(const struct book *book, const struct lent *lent, unsigned kind, unsigned mark) {
    return lane_find((uint16_t)book->n, (uint16_t)book->m, lent->links, book->links.length, lent->rules,
                     book->rules.length, lent->entries, book->entries.length, lent->tally, book->tally.length,
                     lent->disputes, book->disputes.length, (uint16_t)kind, (uint16_t)mark);
}

/* Whether lane.h takes a number apart as it was put together. */
static bool read_back(const struct answer *answer) {
    uint32_t number = answer->number;
    bool rule = answer->outcome == RULE, dispute = answer->outcome == DISPUTE;
    return lane_is_rule(number) == rule && lane_is_dispute(number) == dispute &&
           lane_is_refusal(number) == (answer->outcome > DISPUTE) &&
           (!(rule || dispute) || lane_kind(number) == answer->kind) &&
           (!rule || lane_handling(number) == answer->handling);
}

static struct answer compare(const struct book *book, const struct lent *lent, unsigned kind, unsigned mark) {
    struct answer want = find(book, kind, mark);
    uint32_t got = ask_library(book, lent, kind, mark);
    if (got != want.number) {
        mistake("lane_find", book, kind, mark, got, want.number);
    }
    if (!read_back(&want)) {
        mistake("lane.h", book, kind, mark, got, want.number);
    }
    return want;
}

/* ---- the edges, one by one */

/* Both versions give the number wanted, wherever the tables stand. */
static void expect(const char *what, const struct book *book, unsigned kind, unsigned mark, uint32_t want) {
    for (unsigned standing = 0; standing < STANDINGS; standing++) {
        struct lent lent = lend(book, (enum standing)standing);
        struct answer answer = compare(book, &lent, kind, mark);
        if (answer.number != want) {
            mistake(what, book, kind, mark, answer.number, want);
        }
    }
}

/* The entry is put at the last kind and mark, and every kind has the handling 7 for that mark. */
static void expect_entry(unsigned n, unsigned m, unsigned entry, uint32_t want) {
    struct book book = make_book(n, m);
    for (unsigned kind = 0; kind < n; kind++) {
        put_number(&book.rules, kind * m + m - 1, 7);
    }
    put_number(&book.entries, n * m - 1, entry);
    expect("an entry", &book, n - 1, m - 1, want);
    free_book(&book);
}

static void edges_of_entries(void) {
    static const unsigned ns[] = {1, 2, 4, 127, 128}, ms[] = {1, 2, 64};
    for (size_t i = 0; i < sizeof ns / sizeof *ns; i++) {
        for (size_t j = 0; j < sizeof ms / sizeof *ms; j++) {
            unsigned n = ns[i], m = ms[j];
            expect_entry(n, m, 0, 0);
            expect_entry(n, m, 1, 65536 + 7);
            expect_entry(n, m, n, 65536 * n + 7);
            expect_entry(n, m, n + 1, 10);
            expect_entry(n, m, 256, 10);
            expect_entry(n, m, 257, 65536 * 257);
            expect_entry(n, m, 256 + n, 65536 * (256 + n));
            expect_entry(n, m, 257 + n, 10);
            expect_entry(n, m, 512, 10);
            expect_entry(n, m, 32768, 10);
            expect_entry(n, m, 65535, 10);
        }
    }
}

static void edges_of_handling(void) {
    struct book book = make_book(4, 2);
    put_number(&book.entries, 3 * 2 + 1, 2 + 1);
    expect("handling 0", &book, 3, 1, 10);
    put_number(&book.rules, 2 * 2 + 1, 1);
    expect("handling 1", &book, 3, 1, 65536 * 3 + 1);
    put_number(&book.rules, 2 * 2 + 1, 65535);
    expect("handling 65535", &book, 3, 1, 65536 * 3 + 65535);
    put_number(&book.rules, 2 * 2 + 1, 256);
    expect("handling 256, whose lowest byte is 0", &book, 3, 1, 65536 * 3 + 256);
    book.rules.bytes[2 * (2 * 2 + 1)] = 2;
    book.rules.bytes[2 * (2 * 2 + 1) + 1] = 1;
    expect("the lowest byte first", &book, 3, 1, 65536 * 3 + 258);
    put_number(&book.rules, 2 * 2 + 1, 0);
    put_number(&book.rules, 2 * 2, 9);
    put_number(&book.rules, 3 * 2 + 1, 9);
    expect("a rule for the other mark, and of another kind", &book, 3, 1, 10);
    put_number(&book.entries, 3 * 2 + 1, 257 + 2);
    expect("a dispute at a kind without a rule", &book, 3, 1, 65536 * 259);
    put_number(&book.rules, 2 * 2 + 1, 9);
    expect("a dispute at a kind with a rule", &book, 3, 1, 65536 * 259);
    memset(book.links.bytes, 255, book.links.length);
    memset(book.tally.bytes, 255, book.tally.length);
    expect("links that no book has, and a full tally", &book, 3, 1, 65536 * 259);
    free_book(&book);
}

/* What the counts of disputes hold plays no part: too few, too many or more than there are kinds, at the mark asked for
   and at the other one. */
static void edges_of_counts(void) {
    static const unsigned counts[] = {0, 1, 2, 3, 255, 256, 257, 32768, 65535};
    for (size_t i = 0; i < sizeof counts / sizeof *counts * 2; i++) {
        struct book book = make_book(4, 2);
        put_number(&book.disputes, i % 2, counts[i / 2]);
        expect("a count, and no dispute", &book, 3, 1, 0);
        put_number(&book.entries, 3 * 2 + 1, 257 + 3);
        expect("a count, and a dispute", &book, 3, 1, 65536 * 260);
        put_number(&book.rules, 3 * 2 + 1, 9);
        put_number(&book.entries, 3 * 2 + 1, 3 + 1);
        expect("a count, and a rule", &book, 3, 1, 65536 * 4 + 9);
        put_number(&book.entries, 3 * 2 + 1, 5);
        expect("a count, and a damaged entry", &book, 3, 1, 10);
        free_book(&book);
    }
}

/* A book of the right lengths for n and m, which may be outside their ranges. */
static void expect_size(unsigned n, unsigned m, uint32_t want) {
    struct book book = make_book(n, m);
    expect("a size", &book, 0, 0, want);
    free_book(&book);
}

static void edges_of_size(void) {
    expect_size(0, 1, 1);
    expect_size(1, 0, 1);
    expect_size(0, 0, 1);
    expect_size(1, 1, 0);
    expect_size(128, 1, 0);
    expect_size(129, 1, 1);
    expect_size(256, 1, 1);
    expect_size(1, 64, 0);
    expect_size(1, 65, 1);
    expect_size(1, 256, 1);
    expect_size(1, 32768, 1);
    expect_size(128, 64, 0);
    expect_size(129, 64, 1);
    expect_size(128, 65, 1);
    expect_size(129, 65, 1);
    expect_size(64, 128, 1);

    struct book book = make_book(1, 1);
    book.n = 65535; /* whose square is 1 in 16 bits */
    expect("n 65535", &book, 0, 0, 1);
    book.m = 65535;
    expect("n and m 65535", &book, 0, 0, 1);
    book.n = 1;
    expect("m 65535", &book, 0, 0, 1);
    book.m = 32769; /* 2 * m is 2 in 16 bits */
    expect("m 32769", &book, 0, 0, 1);
    book.m = 1;
    expect("n 1 and m 1 again", &book, 0, 0, 0);
    resize(&book.links, 0);
    book.n = 256; /* whose square is 0 in 16 bits */
    expect("n 256", &book, 0, 0, 1);
    free_book(&book);
}

/* One table of a book of 4 kinds and 2 marks gets another length. */
static void expect_length(unsigned which, size_t length, uint32_t want) {
    struct book book = make_book(4, 2);
    struct table *const tables[] = {&book.links, &book.rules, &book.entries, &book.tally, &book.disputes};
    resize(tables[which], length);
    expect("a length", &book, 3, 1, want);
    expect("a length, and no such kind or mark", &book, 4, 2, want == 0 ? 2 : 1);
    free_book(&book);
}

static void edges_of_lengths(void) {
    static const size_t right[] = {16, 16, 16, LANE_TALLY_BYTES, 4};
    for (unsigned which = 0; which < 5; which++) {
        expect_length(which, right[which], 0);
        expect_length(which, right[which] - 4, 1);
        expect_length(which, right[which] - 2, 1);
        expect_length(which, right[which] - 1, 1);
        expect_length(which, right[which] + 1, 1);
        expect_length(which, right[which] + 2, 1);
        expect_length(which, right[which] + 4, 1);
        expect_length(which, right[which] / 2, 1);
        expect_length(which, right[which] * 2, 1);
        expect_length(which, right[which] + 65536, 1);
        expect_length(which, 1, 1);
        expect_length(which, 0, 1);
    }
    expect_length(3, 4, 1);                    /* one number, as every tally once was */
    expect_length(3, LANE_TALLY_BYTES / 4, 1); /* as many bytes as it has numbers */
    expect_length(4, 16, 1);                   /* a number for each kind and mark */
    expect_length(4, 2 * 64, 1);               /* one for each mark that any book has */
    struct book book = make_book(0, 0);
    resize(&book.tally, 0);
    expect("no tables, n and m 0", &book, 0, 0, 1);
    book.n = 4;
    book.m = 2;
    expect("no tables", &book, 0, 0, 1);
    free_book(&book);
    if (lane_find(4, 2, NULL, 0, NULL, 0, NULL, 0, NULL, 0, NULL, 0, 0, 0) != 1) {
        mistakes++;
        puts("WRONG: NULL with length 0");
    }
}

/* The length of the disputes for every number of marks: it goes by them and not by the kinds. */
static void lengths_of_disputes(void) {
    for (unsigned m = 1; m <= 64; m++) {
        struct book book = make_book(65 - m, m);
        for (size_t length = 0; length <= 2 * 64 + 2; length++) {
            resize(&book.disputes, length);
            expect("a length of disputes", &book, 0, m - 1, length == 2 * m ? 0 : 1);
        }
        free_book(&book);
    }
}

static void edges_of_questions(void) {
    struct book book = make_book(4, 2);
    put_number(&book.entries, 3 * 2 + 1, 5);
    expect("the last kind and mark, with a damaged entry", &book, 3, 1, 10);
    expect("the entry before it", &book, 3, 0, 0);
    expect("kind n", &book, 4, 0, 2);
    expect("kind n and mark m", &book, 4, 2, 2);
    expect("kind 256", &book, 256, 0, 2);
    expect("kind 65535", &book, 65535, 65535, 2);
    expect("mark m", &book, 3, 2, 3);
    expect("mark m, which would be the place of the damaged entry", &book, 0, 7, 3);
    expect("mark 256", &book, 0, 256, 3);
    expect("mark 65535", &book, 0, 65535, 3);
    free_book(&book);
}

/* ---- random books */

static unsigned chance(unsigned below) {
    static uint64_t state = 88172645463325252u;
    state ^= state << 13;
    state ^= state >> 7;
    state ^= state << 17;
    return (unsigned)(state >> 33) % below;
}

static void fill(struct table *table) {
    for (size_t i = 0; i < table->length; i++) {
        table->bytes[i] = (uint8_t)chance(256);
    }
}

/* A number from 1 to most; the two ends come often. */
static unsigned size_up_to(unsigned most) {
    unsigned way = chance(8);
    return way == 0 ? 1 : way == 1 ? most : 1 + chance(most);
}

/* Who is above whom, kept up to date while kinds get their parents: above[c][p] is 1 where p is above c. */
static uint8_t above[128][128];

/* What the rule kinds above a kind decide for a mark: each one that is above another is dropped. */
static unsigned decided(const struct book *book, unsigned kind, unsigned mark) {
    unsigned rule = 0;
    for (unsigned o = 0; o < book->n; o++) {
        if (above[kind][o] == 0 || number_at(&book->rules, o * book->m + mark) == 0) {
            continue;
        }
        bool hidden = false;
        for (unsigned q = 0; q < book->n; q++) {
            hidden = hidden || (above[kind][q] == 1 && above[q][o] == 1 && number_at(&book->rules, q * book->m + mark) != 0);
        }
        if (!hidden && rule != 0) {
            return 257 + kind;
        }
        rule = hidden ? rule : o + 1;
    }
    return rule;
}

/* The lookup's entry at a kind and a mark, once its parents' entries are right. */
static unsigned looked_up(const struct book *book, unsigned kind, unsigned mark) {
    if (number_at(&book->rules, kind * book->m + mark) != 0) {
        return kind + 1;
    }
    unsigned shared = 0;
    for (unsigned parent = 0; parent < book->n; parent++) {
        if (book->links.bytes[kind * book->n + parent] == 1) {
            unsigned entry = number_at(&book->entries, parent * book->m + mark);
            if (shared != 0 && entry != 0 && entry != shared) {
                return decided(book, kind, mark);
            }
            shared = shared == 0 ? entry : shared;
        }
    }
    return shared;
}

/* A sound book: kinds come in some order, each under at most three before it. */
static struct book sound_book(void) {
    struct book book = make_book(size_up_to(128), size_up_to(64));
    unsigned order[128], ruled = 2 + chance(12);
    memset(above, 0, sizeof above);
    for (unsigned i = 0; i < book.n; i++) {
        unsigned j = chance(i + 1);
        order[i] = order[j];
        order[j] = i;
    }
    for (unsigned i = 0; i < book.n; i++) {
        for (unsigned parents = i == 0 ? 0 : chance(4); parents > 0; parents--) {
            unsigned parent = order[chance(i)];
            book.links.bytes[order[i] * book.n + parent] = 1;
            above[order[i]][parent] = 1;
            for (unsigned p = 0; p < book.n; p++) {
                above[order[i]][p] |= above[parent][p];
            }
        }
        for (unsigned mark = 0; mark < book.m; mark++) {
            size_t place = order[i] * book.m + mark;
            put_number(&book.rules, place, chance(ruled) == 0 ? 1 + chance(65535) : 0);
            unsigned entry = looked_up(&book, order[i], mark);
            put_number(&book.entries, place, entry);
            put_number(&book.disputes, mark, number_at(&book.disputes, mark) + (entry >= 257));
        }
    }
    fill(&book.tally);
    return book;
}

/* An entry of any sort, with those beside the edges often. */
static unsigned any_entry(unsigned n) {
    const unsigned edges[] = {0, 1, n, n + 1, 255, 256, 257, 256 + n, 257 + n, 65535};
    switch (chance(4)) {
    case 0:
        return edges[chance(10)];
    case 1:
        return 1 + chance(n);
    case 2:
        return 257 + chance(n);
    default:
        return chance(65536);
    }
}

static void damage_entries(struct book *book) {
    for (unsigned place = 0; place < book->n * book->m; place++) {
        if (chance(2) == 0) {
            put_number(&book->entries, place, any_entry(book->n));
        }
        if (chance(4) == 0) {
            put_number(&book->rules, place, chance(3) == 0 ? chance(65536) : 0);
        }
    }
}

/* All of them 0, or full, or anything. */
static void damage_counts(struct book *book) {
    unsigned way = chance(4);
    for (size_t i = 0; i < book->disputes.length; i++) {
        book->disputes.bytes[i] = (uint8_t)(way == 0 ? 0 : way == 1 ? 255 : chance(256));
    }
}

static void damage_length(struct table *table) {
    switch (chance(6)) {
    case 0:
        resize(table, table->length + 1);
        break;
    case 1:
        resize(table, table->length < 1 ? 0 : table->length - 1);
        break;
    case 2:
        resize(table, table->length + 2);
        break;
    case 3:
        resize(table, table->length < 2 ? 0 : table->length - 2);
        break;
    case 4:
        resize(table, 0);
        break;
    default:
        resize(table, chance(40000));
        break;
    }
}

/* Another n or m, mostly outside; where the tables' lengths fit the room of this test, they go along half the time. */
static void damage_size(struct book *book) {
    static const unsigned ns[] = {0, 129, 130, 255, 256, 257, 65535}, ms[] = {0, 65, 66, 128, 256, 32769, 65535};
    unsigned n = chance(2) == 0 ? book->n : chance(4) == 0 ? chance(65536) : ns[chance(7)];
    unsigned m = n != book->n ? book->m : chance(4) == 0 ? chance(65536) : ms[chance(7)];
    size_t links = (size_t)n * n, places = (size_t)n * m;
    book->n = n;
    book->m = m;
    if (chance(2) == 0 && links < ROOM && 2 * places < ROOM) {
        resize(&book->links, links);
        resize(&book->rules, 2 * places);
        resize(&book->entries, 2 * places);
        resize(&book->disputes, 2 * (size_t)m);
    }
}

static void damage_shape(struct book *book) {
    struct table *const tables[] = {&book->links, &book->rules, &book->entries, &book->tally, &book->disputes};
    switch (chance(4)) {
    case 0:
        damage_size(book);
        break;
    case 1:
        damage_length(tables[chance(5)]);
        damage_length(tables[chance(5)]);
        break;
    default:
        damage_length(tables[chance(5)]);
        break;
    }
}

/* A number mostly below the limit. */
static unsigned question(unsigned limit) {
    switch (chance(12)) {
    case 0:
        return chance(2) == 0 ? limit : 65535;
    case 1:
        return chance(65536);
    default:
        return chance(limit == 0 ? 1 : limit);
    }
}

/* Puts questions to a book and counts what comes of them. */
static void ask(const struct book *book, unsigned questions, bool sound) {
    static unsigned turn;
    struct lent lent = lend(book, (enum standing)(turn++ % STANDINGS));
    for (unsigned i = 0; i < questions; i++) {
        unsigned kind = question(book->n) % 65536, mark = question(book->m) % 65536;
        struct answer answer = compare(book, &lent, kind, mark);
        counts[answer.outcome]++;
        if (sound && answer.number == 10) {
            mistake("a sound book", book, kind, mark, 10, 0);
        }
    }
    if (!same_book(book, &lent)) {
        mistake("a table was written", book, 0, 0, 0, 0);
    }
}

static void random_books(unsigned books) {
    for (unsigned i = 0; i < books; i++) {
        struct book book = sound_book();
        ask(&book, 1000, true);
        damage_counts(&book);
        ask(&book, 100, true); /* a find does not read them, so the book is as good as sound */
        damage_entries(&book);
        ask(&book, 1000, false);
        damage_shape(&book);
        ask(&book, 50, false);
        free_book(&book);
    }
}

/* ---- save and return */

struct lent_store {
    uint8_t *flags, *links, *rules, *entries, *disputes;
};

static struct lent_store lend_store(const struct store *store, enum standing standing) {
    static uint8_t *rooms[5];
    struct lent_store lent = {
        lend_table(&rooms[0], &store->flags, standing),
        lend_table(&rooms[1], &store->links, standing),
        lend_table(&rooms[2], &store->rules, standing),
        lend_table(&rooms[3], &store->entries, standing),
        lend_table(&rooms[4], &store->disputes, standing),
    };
    return lent;
}

/* A store for a book, which holds anything. */
static struct store any_store(const struct book *book) {
    struct store store = {
        make_table(HOUSE_NAMES),
        make_table(HOUSE_NAMES * book->links.length),
        make_table(HOUSE_NAMES * book->rules.length),
        make_table(HOUSE_NAMES * book->entries.length),
        make_table(HOUSE_NAMES * book->disputes.length),
    };
    fill(&store.flags);
    fill(&store.links);
    fill(&store.rules);
    fill(&store.entries);
    fill(&store.disputes);
    return store;
}

static void free_store(struct store *store) {
    free(store->flags.bytes);
    free(store->links.bytes);
    free(store->rules.bytes);
    free(store->entries.bytes);
    free(store->disputes.bytes);
}

/* The same memory as numbers, which stand at addresses that are right for them. */
static uint16_t *numbers(uint8_t *bytes) {
    return (uint16_t *)(void *)bytes;
}

#define LENT(book, lent)                                                                                              \
    (uint16_t)(book)->n, (uint16_t)(book)->m, (lent)->links, (book)->links.length, numbers((lent)->rules),            \
        (book)->rules.length / 2, numbers((lent)->entries), (book)->entries.length / 2,                               \
        (uint32_t *)(void *)(lent)->tally, (book)->tally.length / 4, numbers((lent)->disputes),                       \
        (book)->disputes.length / 2
#define LENT_STORE(store, lent)                                                                                       \
    (lent)->flags, (store)->flags.length, (lent)->links, (store)->links.length, numbers((lent)->rules),               \
        (store)->rules.length / 2, numbers((lent)->entries), (store)->entries.length / 2, numbers((lent)->disputes),  \
        (store)->disputes.length / 2

static bool same_store(const struct store *store, const struct lent_store *lent) {
    return same(&store->flags, lent->flags) && same(&store->links, lent->links) && same(&store->rules, lent->rules) &&
           same(&store->entries, lent->entries) && same(&store->disputes, lent->disputes);
}

static void put_copy(struct table *copies, unsigned name, const struct table *table) {
    memcpy(copies->bytes + name * table->length, table->bytes, table->length);
}

/* The book is saved under a name and overwritten, but for the tally, and the name is returned to: the tables are the
   same again, the tally has one more, and as many entries differ as were changed. */
static void save_and_return(struct book *book, struct store *store, unsigned name, enum standing standing) {
    struct lent lent = lend(book, standing);
    struct lent_store lent_store = lend_store(store, standing);
    unsigned caller = chance(HOUSE_CALLERS), changed = 0;
    uint32_t answer = house_save(LENT(book, &lent), LENT_STORE(store, &lent_store), (uint16_t)name), tally;
    store->flags.bytes[name] = 1;
    put_copy(&store->links, name, &book->links);
    put_copy(&store->rules, name, &book->rules);
    put_copy(&store->entries, name, &book->entries);
    put_copy(&store->disputes, name, &book->disputes);
    if (answer != 0 || !same_book(book, &lent) || !same_store(store, &lent_store)) {
        mistake("house_save", book, name, 0, answer, 0);
    }
    for (unsigned place = 0; place < book->n * book->m; place++) {
        if (chance(8) == 0) {
            numbers(lent.entries)[place] ^= 1;
            changed++;
        }
    }
    memset(lent.links, (int)chance(3), book->links.length);
    memset(lent.rules, (int)chance(256), book->rules.length);
    memset(lent.disputes, (int)chance(256), book->disputes.length);
    answer = house_return(LENT(book, &lent), LENT_STORE(store, &lent_store), (uint16_t)caller, (uint16_t)name);
    memcpy(&tally, book->tally.bytes + 4 * caller, 4);
    tally += tally < UINT32_MAX;
    memcpy(book->tally.bytes + 4 * caller, &tally, 4);
    if (answer != changed || !same_book(book, &lent) || !same_store(store, &lent_store)) {
        mistake("house_return", book, name, caller, answer, changed);
    }
}

/* Both calls with one of the tables one element shorter or longer, which is refused, and nothing is written. */
static void refuse_length(const struct book *book, const struct store *store, enum standing standing) {
    struct lent lent = lend(book, standing);
    struct lent_store lent_store = lend_store(store, standing);
    uint16_t name = (uint16_t)chance(HOUSE_NAMES), caller = (uint16_t)chance(HOUSE_CALLERS);
    uint32_t saved = house_save(LENT(book, &lent), LENT_STORE(store, &lent_store), name);
    uint32_t returned = house_return(LENT(book, &lent), LENT_STORE(store, &lent_store), caller, name);
    if (saved != HOUSE_REFUSED_BOOK || returned != HOUSE_REFUSED_BOOK || !same_book(book, &lent) ||
        !same_store(store, &lent_store)) {
        mistake("a length of a store", book, name, caller, saved, returned);
    }
}

/* Of each table, which gets its length back, the last element is then 0. */
static void try_lengths(struct book *book, struct store *store, enum standing standing) {
    struct table *const tables[] = {&book->links,   &book->rules,  &book->entries,  &book->tally,     &book->disputes,
                                    &store->flags,  &store->links, &store->rules,   &store->entries,  &store->disputes};
    static const size_t elements[] = {1, 2, 2, 4, 2, 1, 1, 2, 2, 2};
    for (unsigned i = 0; i < 10; i++) {
        size_t right = tables[i]->length;
        resize(tables[i], right - elements[i]);
        refuse_length(book, store, standing);
        resize(tables[i], right + elements[i]);
        if (tables[i]->length <= ROOM) {
            refuse_length(book, store, standing);
        }
        resize(tables[i], right);
    }
}

/* Tables of numbers stand at even addresses, so there are two standings here. */
static void random_stores(unsigned books) {
    for (unsigned i = 0; i < books; i++) {
        struct book book = sound_book();
        struct store store = any_store(&book);
        for (unsigned turn = 0; turn < 4; turn++) {
            unsigned name = turn < 2 ? chance(HOUSE_NAMES) : HOUSE_NAMES - 1;
            save_and_return(&book, &store, name, turn % 2 == 0 ? AT_THE_END : AT_THE_START);
        }
        try_lengths(&book, &store, i % 2 == 0 ? AT_THE_END : AT_THE_START);
        free_book(&book);
        free_store(&store);
    }
}

int main(void) {
    enum { BOOKS = 4000, STORES = 200, LEAST = 500 };
    edges_of_entries();
    edges_of_handling();
    edges_of_counts();
    edges_of_size();
    edges_of_lengths();
    lengths_of_disputes();
    edges_of_questions();
    printf("edges done, %lu mistakes\n", mistakes);
    random_books(BOOKS);
    for (unsigned i = 0; i < OUTCOMES; i++) {
        printf("%8lu times %s\n", counts[i], outcome_names[i]);
        if (counts[i] < LEAST) {
            mistakes++;
            printf("WRONG: that is fewer than %d\n", LEAST);
        }
    }
    random_stores(STORES);
    printf("%d random books and %d with stores done, %lu mistakes in all\n", BOOKS, STORES, mistakes);
    return mistakes == 0 ? EXIT_SUCCESS : EXIT_FAILURE;
}
