/* Measures the stack that each call of a house takes, and fails past what house.h says to leave. The book has 128 kinds
   in one chain of links, the longest that there is, since calls go along the links by recursion. */

#define _DEFAULT_SOURCE /* for makecontext */

#include <stdio.h>
#include <stdlib.h>
#include <string.h>
#include <ucontext.h>

#include "house.h"

enum { N = 128, M = 64, LEFT = 24 * 1024, LEFT_TO_INSPECT = 40 * 1024, FILL = 165 };

static uint8_t links[N * N];
static uint16_t rules[N * M], entries[N * M], disputes[M];
static uint32_t tally[HOUSE_CALLERS];

static uint8_t flags[HOUSE_NAMES], saved_links[HOUSE_NAMES * N * N];
static uint16_t saved_rules[HOUSE_NAMES * N * M], saved_entries[HOUSE_NAMES * N * M], saved_disputes[HOUSE_NAMES * M];

/* The longest list: the four edits below, in the same order, again and again. */
static const struct house_edit four[] = {{HOUSE_ADD_RULE, N - 1, 0, 20},
                                         {HOUSE_TAKE_RULE, N - 1, 0, 0},
                                         {HOUSE_TAKE_LINK, N - 2, N - 1, 0},
                                         {HOUSE_ADD_LINK, N - 2, N - 1, 0}};
static struct house_edit edits[HOUSE_MOST_EDITS];

#define TABLES links, N * N, rules, N * M, entries, N * M, tally, HOUSE_CALLERS, disputes, M
#define BOOK N, M, TABLES
#define EDIT BOOK, HOUSE_CALLERS - 1
#define STORE                                                                                                         \
    flags, HOUSE_NAMES, saved_links, HOUSE_NAMES * N * N, saved_rules, HOUSE_NAMES * N * M, saved_entries,            \
        HOUSE_NAMES * N * M, saved_disputes, HOUSE_NAMES * M

static uint64_t answer;

static void nothing(void) {
    answer = 0;
}
static void add_rule(void) {
    answer = house_add_rule(EDIT, N - 1, 0, 20);
}
static void take_rule(void) {
    answer = house_take_rule(EDIT, N - 1, 0);
}
static void take_link(void) {
    answer = house_take_link(EDIT, N - 2, N - 1);
}
static void add_link(void) {
    answer = house_add_link(EDIT, N - 2, N - 1);
}
static void make_list(void) {
    answer = house_make_list(N, M, edits, HOUSE_MOST_EDITS, TABLES, HOUSE_CALLERS - 1);
}
static void parties(void) {
    answer = house_parties(BOOK, 0, 0);
}
static void refresh(void) {
    answer = house_refresh(BOOK);
}
static void inspect(void) {
    answer = house_inspect(BOOK);
}
static void open_book(void) {
    answer = house_open(BOOK);
}
static void save(void) {
    answer = house_save(BOOK, STORE, HOUSE_NAMES - 1);
}
static void return_to(void) {
    answer = house_return(BOOK, STORE, HOUSE_CALLERS - 1, HOUSE_NAMES - 1);
}

/* In an order in which each gets past its refusals; there is no dispute, but parties has then done all else. The chain
   of links is saved and, after open, returned to. */
static const struct {
    const char *name;
    void (*make)(void);
    uint64_t answer;
    size_t left;
} calls[] = {
    {"add rule", add_rule, N, LEFT},
    {"take rule", take_rule, N, LEFT},
    {"take link", take_link, 0, LEFT},
    {"add link", add_link, 0, LEFT},
    {"list", make_list, 4294967296 * (HOUSE_MOST_EDITS / 4 * 2 * N) + HOUSE_MOST_EDITS, LEFT},
    {"parties", parties, HOUSE_REFUSED_NO_DISPUTE, LEFT},
    {"refresh", refresh, 0, LEFT},
    {"inspect", inspect, HOUSE_SOUND, LEFT_TO_INSPECT},
    {"save", save, 0, LEFT},
    {"open", open_book, 0, LEFT},
    {"return", return_to, 0, LEFT},
};

/* Makes a call on a stack that is filled with one number, and counts from its upper end to the lowest byte that is
   another one now. */
static size_t used(void (*make)(void)) {
    static uint8_t stack[1 << 18];
    static ucontext_t here, there;
    size_t free_bytes = 0;
    memset(stack, FILL, sizeof stack);
    getcontext(&there);
    there.uc_stack.ss_sp = stack;
    there.uc_stack.ss_size = sizeof stack;
    there.uc_link = &here;
    makecontext(&there, make, 0);
    swapcontext(&here, &there);
    while (free_bytes < sizeof stack && stack[free_bytes] == FILL) {
        free_bytes++;
    }
    return sizeof stack - free_bytes;
}

int main(void) {
    size_t unrelated = used(nothing);
    for (unsigned c = 0; c + 1 < N; c++) {
        links[c * N + c + 1] = 1;
    }
    for (size_t i = 0; i < HOUSE_MOST_EDITS; i++) {
        edits[i] = four[i % 4];
    }
    for (size_t i = 0; i < sizeof calls / sizeof *calls; i++) {
        size_t taken = used(calls[i].make) - unrelated;
        printf("%s takes %zu bytes of stack\n", calls[i].name, taken);
        if (answer != calls[i].answer || taken > calls[i].left) {
            fprintf(stderr, "%s answered %llu, or took more than %zu bytes\n", calls[i].name,
                    (unsigned long long)answer, calls[i].left);
            return EXIT_FAILURE;
        }
    }
    return EXIT_SUCCESS;
}
