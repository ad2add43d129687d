/* A line controller in small: it has a book as bytes, asks it, and says what the lane should do with the fruit. */

#include <stdio.h>

#include "lane.h"

/* A book as it was handed over: how many kinds and marks, and the five tables with their lengths in bytes. */
struct book {
    uint16_t n, m;
    const uint8_t *links, *rules, *entries, *tally, *disputes;
    size_t links_len, rules_len, entries_len, tally_len, disputes_len;
};

/* The diamond of docs/FORMS.md, once kinds 0, 1 and 2 have their rules: 4 kinds and 2 marks. Kinds 1 and 2 are under
   kind 0, and kind 3 is under both:

         0      has rule 10 for mark 0
        / \
       1   2    both have rule 20 for mark 0
        \ /
         3

   The lookups for mark 0: kinds 0, 1 and 2 have their own rules. Kind 3 sees those of kinds 1 and 2, and neither is
   above the other, so there is a dispute at kind 3 though both say 20; both hide the rule of kind 0. Nobody has a rule
   for mark 1. */
static const uint8_t links[4 * 4] = {
    /* parent 0, 1, 2, 3 */
    0, 0, 0, 0, /* of kind 0 */
    1, 0, 0, 0, /* of kind 1: under 0 */
    1, 0, 0, 0, /* of kind 2: under 0 */
    0, 1, 1, 0, /* of kind 3: under 1 and 2 */
};
static const uint8_t rules[2 * 4 * 2] = {
    /* mark 0, mark 1; of each number the lowest byte first */
    10, 0, 0, 0, /* kind 0: 10, no rule */
    20, 0, 0, 0, /* kind 1: 20, no rule */
    20, 0, 0, 0, /* kind 2: 20, no rule */
    0,  0, 0, 0, /* kind 3: no rule, no rule */
};
static const uint8_t entries[2 * 4 * 2] = {
    1, 0, 0, 0, /* kind 0: 0 + 1, the rule of kind 0; none */
    2, 0, 0, 0, /* kind 1: 1 + 1, the rule of kind 1; none */
    3, 0, 0, 0, /* kind 2: 2 + 1, the rule of kind 2; none */
    4, 1, 0, 0, /* kind 3: 257 + 3 = 260 = 4 + 256 * 1, a dispute at kind 3; none */
};
static const uint8_t tally[LANE_TALLY_BYTES] = {7}; /* seven edits of caller 0 were accepted: four links, three rules */
static const uint8_t disputes[2 * 2] = {1, 0, 0, 0}; /* mark 0: one kind has a dispute entry, kind 3; mark 1: none */

static const struct book session = {
    4, 2, links, rules, entries, tally, disputes,
    sizeof links, sizeof rules, sizeof entries, sizeof tally, sizeof disputes,
};

/* Asks the book about a fruit and prints what the lane should do with it. */
static void sort(const struct book *book, uint16_t kind, uint16_t mark) {
    uint32_t answer = lane_find(book->n, book->m, book->links, book->links_len, book->rules, book->rules_len,
                                book->entries, book->entries_len, book->tally, book->tally_len, book->disputes,
                                book->disputes_len, kind, mark);
    printf("kind %d, mark %d: ", kind, mark);
    if (lane_is_rule(answer)) {
        printf("handle as %d, by the rule of kind %d\n", lane_handling(answer), lane_kind(answer));
    } else if (lane_is_dispute(answer)) {
        printf("send to a person, the rules disagree at kind %d\n", lane_kind(answer));
    } else {
        switch (answer) {
        case LANE_NONE:
            puts("let it pass, there is no rule");
            break;
        case LANE_REFUSED_BOOK:
            puts("stop the lane, the book has not the right size (refusal 1)");
            break;
        case LANE_REFUSED_KIND:
            puts("stop the lane, the book has no such kind (refusal 2)");
            break;
        case LANE_REFUSED_MARK:
            puts("stop the lane, the book has no such mark (refusal 3)");
            break;
        default:
            puts("stop the lane, the entry is damaged (refusal 10)");
            break;
        }
    }
}

int main(void) {
    puts("the book of the session");
    sort(&session, 0, 0);
    sort(&session, 1, 0);
    sort(&session, 2, 0);
    sort(&session, 3, 0);
    sort(&session, 3, 1);
    sort(&session, 4, 0);
    sort(&session, 3, 2);

    puts("the same book, the last byte of its rules lost");
    struct book cut = session;
    cut.rules_len = cut.rules_len - 1;
    sort(&cut, 0, 0);

    puts("the same book, its rules lost to zeros");
    static const uint8_t zeros[sizeof rules] = {0};
    struct book blank = session;
    blank.rules = zeros;
    sort(&blank, 0, 0);
    return 0;
}
