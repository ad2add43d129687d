/* Times lane_find and the find written by hand on one book and prints a line for each function and sort of book: the
   book, the function, nanoseconds a call. The rounds of the functions take turns, so that a slow spell of the machine
   meets them all, and the median round counts. */

#define _POSIX_C_SOURCE 199309L /* for clock_gettime */

#include <stdio.h>
#include <stdlib.h>
#include <time.h>

#include "lane.h"

enum {
    KINDS = 128,
    MARKS = 64,
    PLACES = KINDS * MARKS,
    QUESTIONS = 1 << 18, /* more than the machine can learn by heart */
    ROUNDS = 25,
    CALLS = 4000000 /* in a round; the rounds of a function make 100 million */
};

typedef uint32_t find(uint16_t n, uint16_t m, const uint8_t *links, size_t links_len, const uint8_t *rules,
                      size_t rules_len, const uint8_t *entries, size_t entries_len, const uint8_t *tally,
                      size_t tally_len, const uint8_t *disputes, size_t disputes_len, uint16_t kind, uint16_t mark);

find find_by_gcc;
#ifdef CLANG
find find_by_clang;
#endif

/* The functions are called through here, so that no compiler knows which one it is. */
static find *const volatile finds[] = {
    lane_find,
    find_by_gcc,
#ifdef CLANG
    find_by_clang,
#endif
};
static const char *const names[] = {"lane", "gcc", "clang"};
enum { FINDS = sizeof finds / sizeof *finds };

static uint8_t links[KINDS * KINDS], rules[2 * PLACES], entries[2 * PLACES], tally[LANE_TALLY_BYTES];
static uint8_t disputes[2 * MARKS]; /* never read, so it may hold anything */
static uint16_t kinds[QUESTIONS], marks[QUESTIONS];

static uint32_t chance(uint32_t below) {
    static uint64_t state = 88172645463325252u;
    state ^= state << 13;
    state ^= state >> 7;
    state ^= state << 17;
    return (uint32_t)(state >> 33) % below;
}

static void put_number(uint8_t *table, size_t place, uint32_t number) {
    table[2 * place] = (uint8_t)(number % 256);
    table[2 * place + 1] = (uint8_t)(number / 256);
}

/* Every kind has a rule for every mark. An entry is some rule, or, in a mixed book, as often none or a dispute. */
static void fill(int mixed) {
    for (size_t place = 0; place < PLACES; place++) {
        uint32_t sort = mixed ? chance(3) : 1, kind = chance(KINDS);
        put_number(rules, place, 1 + chance(65535));
        put_number(entries, place, sort == 0 ? 0 : sort == 1 ? kind + 1 : kind + 257);
    }
    for (size_t i = 0; i < QUESTIONS; i++) {
        kinds[i] = (uint16_t)chance(KINDS);
        marks[i] = (uint16_t)chance(MARKS);
    }
}

/* The time of a round in nanoseconds a call; sum gets the sum of the answers. */
static double round_of(find *function, uint64_t *sum) {
    struct timespec before, after;
    *sum = 0;
    clock_gettime(CLOCK_PROCESS_CPUTIME_ID, &before);
    for (size_t i = 0; i < CALLS; i++) {
        size_t at = i % QUESTIONS;
        *sum += function(KINDS, MARKS, links, sizeof links, rules, sizeof rules, entries, sizeof entries, tally,
                         sizeof tally, disputes, sizeof disputes, kinds[at], marks[at]);
    }
    clock_gettime(CLOCK_PROCESS_CPUTIME_ID, &after);
    return ((double)(after.tv_sec - before.tv_sec) * 1e9 + (double)(after.tv_nsec - before.tv_nsec)) / CALLS;
}

static int by_size(const void *left, const void *right) {
    double a = *(const double *)left, b = *(const double *)right;
    return (a > b) - (a < b);
}

static void time_book(const char *book) {
    static double times[FINDS][ROUNDS];
    for (size_t round = 0; round < ROUNDS; round++) {
        uint64_t sums[FINDS];
        for (size_t i = 0; i < FINDS; i++) {
            times[i][round] = round_of(finds[i], &sums[i]);
            if (sums[i] != sums[0]) {
                fprintf(stderr, "%s answers otherwise than lane\n", names[i]);
                exit(EXIT_FAILURE);
            }
        }
    }
    for (size_t i = 0; i < FINDS; i++) {
        qsort(times[i], ROUNDS, sizeof times[i][0], by_size);
        printf("%s %s %.3f\n", book, names[i], times[i][ROUNDS / 2]);
    }
}

int main(void) {
    fill(0);
    time_book("rules");
    fill(1);
    time_book("mixed");
    return 0;
}
