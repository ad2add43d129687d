/* The find of the rule tree, for line controllers written in C or C++.

   docs/SCOPE.md says what it does, and the library is proved to do it. "rt lib" in crates/lane
   writes crates/lane/out/liblane.a, which links into x86-64 programs. The calls that make and edit a book are in
   house.h.

   A book has n kinds (1 to 128, numbered from 0) and m marks (1 to 64, numbered from 0). It is five tables:

     table     its length in bytes  what it holds
     links     n * n                bytes; place child * n + parent holds 1 for a link, 0 for none
     rules     2 * n * m            16-bit numbers; place kind * m + mark holds the kind's own handling for the mark,
                                    1 to 65535, or 0 for no own rule
     entries   2 * n * m            16-bit numbers, at the same places as rules: 0 for none, O + 1 for the rule of
                                    kind O, 257 + X for a dispute at kind X
     tally     64                   32-bit numbers; place c, 0 to 15, holds the accepted edits of caller c since opening
                                    (house.h says who a caller is)
     disputes  2 * m                16-bit numbers; place mark holds how many kinds have a dispute entry for the mark

   Numbers are spelled in bytes, the lowest byte first: the 16-bit number at place i is byte 2 * i plus 256 times byte
   2 * i + 1. A table may stand at any address. */

#ifndef LANE_H
#define LANE_H

#include <stdbool.h>
#include <stddef.h>
#include <stdint.h>

#ifdef __cplusplus
extern "C" {
#endif

/* The length of the tally, which is the same for every book. */
#define LANE_TALLY_BYTES 64

/* What the book says of a kind and a mark, in one number:

     0                           none: no rule applies
     65536 * (O + 1) + handling  the rule of kind O, with its handling, 1 to 65535
     65536 * (257 + X)           a dispute at kind X: rules of two or more kinds meet there and none of them wins
     1, 2, 3 or 10               a refusal (below): the question or the book is wrong, and there is no answer

   Each table is a pointer and then its length in bytes. lane_find only reads, and nothing outside the tables. It takes
   each length at its word: that many bytes must be there to read. A length that is not the book's is refused, so NULL
   with 0 is refused too. While it runs, nothing writes the tables; several lanes may ask at the same time.

   It looks at one entry and, where that is a rule, at the rule's handling. Whether the other entries are right, the
   links make sense, or the disputes are counted right, it does not test. */
uint32_t lane_find(uint16_t n, uint16_t m, const uint8_t *links, size_t links_len, const uint8_t *rules,
                   size_t rules_len, const uint8_t *entries, size_t entries_len, const uint8_t *tally, size_t tally_len,
                   const uint8_t *disputes, size_t disputes_len, uint16_t kind, uint16_t mark);

/* The answers that are one number. Where several refusals would apply, the first in this order is given. */
enum {
    LANE_NONE = 0,
    LANE_REFUSED_BOOK = 1,  /* n or m is outside its range, or a table has not exactly its length */
    LANE_REFUSED_KIND = 2,  /* the book has no such kind: kind is not below n */
    LANE_REFUSED_MARK = 3,  /* the book has no such mark: mark is not below m */
    LANE_REFUSED_ENTRY = 10 /* the entry is damaged: it is neither 0, nor 1 to n, nor 257 to 256 + n, or it is the
                               rule of a kind that has no own rule for the mark */
};

/* Whether an answer is a refusal. */
static inline bool lane_is_refusal(uint32_t answer) {
    return answer != LANE_NONE && answer < 65536;
}

/* Whether an answer is a rule; lane_kind and lane_handling then say which. */
static inline bool lane_is_rule(uint32_t answer) {
    return answer >= 65536 && answer / 65536 < 257;
}

/* Whether an answer is a dispute; lane_kind then says where. */
static inline bool lane_is_dispute(uint32_t answer) {
    return answer / 65536 >= 257;
}

/* The kind of a rule or of a dispute. Other answers have none. */
static inline uint16_t lane_kind(uint32_t answer) {
    return (uint16_t)(answer / 65536 - (lane_is_rule(answer) ? 1 : 257));
}

/* The handling of a rule. Other answers have none. */
static inline uint16_t lane_handling(uint32_t answer) {
    return (uint16_t)(answer % 65536);
}

#ifdef __cplusplus
}
#endif

#endif
