/* The calls of a house, for programs written in C or C++: open a book, edit its links and rules, by single edits or by
   a list of them, save states of it and return to them, see whose rules are in dispute, inspect a book and refresh it.
   The find is in lane.h.

   docs/SCOPE.md says call by call what the product does, and the library is proved to do it. "rt lib" in
   crates/house writes crates/house/out/libhouse.a, which links into x86-64 programs, beside liblane.a where a program
   asks the find too.

   THE BOOK. A book has n kinds (1 to 128, numbered from 0) and m marks (1 to 64, numbered from 0). It is five tables,
   which are the program's own memory:

     table     elements  their number  what it holds
     links     uint8_t   n * n         place child * n + parent holds 1 where the child is directly under the parent,
                                       and 0 for no link
     rules     uint16_t  n * m         place kind * m + mark holds the kind's own handling for the mark, 1 to 65535, or
                                       0 for no own rule
     entries   uint16_t  n * m         at the same places the lookup (below): 0 for none, O + 1 for the rule of kind O,
                                       257 + X for a dispute at kind X
     tally     uint32_t  16            place c holds the accepted edits of caller c since opening; at 4294967295 it
                                       stays
     disputes  uint16_t  m             place mark holds how many kinds have a dispute entry for the mark

   CALLERS. A caller is whoever enters an edit, such as one of two suppliers. The house gives its callers numbers from
   0 to 15, and each edit, list of edits or return, which counts as one edit, takes the number of the one who entered
   it, so that the tally has how many edits of each were accepted. Every caller may edit all of the book. A house that
   does not tell them apart gives 0.

   THE LOOKUP. Kind P is above kind C if a chain of one or more links leads from C up to P. The lookup at a kind and a
   mark starts from the kinds with their own rule for the mark that are seen: the kind itself if it has one, otherwise
   those that a chain leads up to with no own rule before them. Each one that is above another of them is dropped. The
   rest are the kinds left. None left: none. One left: its rule. Two or more left: a dispute, at X if every direct
   parent whose lookup is not none has the dispute at X, otherwise at the kind itself. Handlings are not compared: two
   kinds that both say 20 are two.

   A SOUND BOOK is one where every link byte is 0 or 1, no kind is above itself, every entry is its lookup, and
   disputes has the right count at every mark. Rules and tally may hold anything. An opened book is sound, and each call
   leaves a sound book sound.

   THE STORE. States of a book are kept under names, which are numbers from 0 to 7, in a store: five more tables of the
   program's own memory, which only save and return are lent. Open and the other calls do not touch it.

     table           elements  their number   what it holds
     flags           uint8_t   8              place name holds 0 if nothing was ever saved under the name; any other
                                              number counts as saved
     saved_links     uint8_t   8 * n * n      a copy of links for each name, in order of name: that of a name begins at
                                              place name * n * n
     saved_rules     uint16_t  8 * n * m      in the same way copies of rules
     saved_entries   uint16_t  8 * n * m      copies of entries
     saved_disputes  uint16_t  8 * m          copies of disputes

   Memory that is all 0 is a store where nothing is saved. The tally is no part of a state. A store fits books of one n
   and m, and is refused with others; for 128 kinds and 64 marks it takes 394248 bytes.

   LENDING. Each call takes n, m and the five tables, each as a pointer and then its number of elements, not of bytes;
   save and return take those of the store after them in the same way. A call writes those tables that are not const,
   and nothing else of the program's. Numbers are the machine's own, which on x86-64 has the lowest byte first. A call
   takes each length at its word: that many elements must be there, at an address that is right for their type, and no
   two tables may overlap, of book or store. A length that is not the book's is refused, so NULL with 0 is refused too.
   A list of edits is lent like a table, before the tables, and overlaps none of them.

   TAKING TURNS. While a call runs, nothing else writes any of the tables, or the list, lent to it, and nothing else
   reads those that it writes. So calls on one book, or with one store, take turns, unless all of them only read: either
   a lock is held around each call, finds included, or a copy is edited and swapped in once the call is back, and lanes
   go on with the old one meanwhile. A list is one call, and takes one turn. The library keeps nothing between calls, so
   calls on different books, with different stores if any, may run at the same time.

   MEMORY. A call takes stack and nothing else. Leave it 24 KB, and inspect 40 KB: c/stack.c measures 39 KB for inspect,
   which works the lookups out beside the entries, and at most 23.4 KB for parties, an edit, a return, a list of any
   length and refresh, on 128 kinds in one chain of links, which calls go along by recursion. Open takes what memset
   takes, and save a few hundred bytes.

   FOR LANES the same memory goes to lane_find as bytes, whose order lane.h asks for is that of x86-64:

     lane_find(n, m, links, n * n, (const uint8_t *)rules, 2 * n * m, (const uint8_t *)entries, 2 * n * m,
               (const uint8_t *)tally, LANE_TALLY_BYTES, (const uint8_t *)disputes, 2 * m, kind, mark) */

#ifndef HOUSE_H
#define HOUSE_H

#include <stdbool.h>
#include <stddef.h>
#include <stdint.h>

#ifdef __cplusplus
extern "C" {
#endif

/* The most callers: the tally has a number for each. */
#define HOUSE_CALLERS 16

/* The most names: the store has a flag and a copy of each table for each. */
#define HOUSE_NAMES 8

/* ---- refusals */

/* A refused call writes nothing. It answers one of these, 65536 + the refusal's number; of the numbers that are missing
   here, 10 is of the find, 12 of the text program, and the others of nothing yet. Below, each call has its refusals by
   number in the order of its checks: it gives the first that applies, and no other. */
enum {
    HOUSE_REFUSED = 65536,
    HOUSE_REFUSED_BOOK = 65536 + 1,        /* n or m is outside its range, or a table, of book or store, has not exactly
                                              its length, or a list has too many records */
    HOUSE_REFUSED_KIND = 65536 + 2,        /* the book has no such kind: kind, child or parent is not below n */
    HOUSE_REFUSED_MARK = 65536 + 3,        /* the book has no such mark: mark is not below m */
    HOUSE_REFUSED_HANDLING = 65536 + 4,    /* handling is 0 */
    HOUSE_REFUSED_UNSOUND = 65536 + 5,     /* the book is not sound, and inspect says where; of refresh: a link byte is
                                              above 1, or a kind is above itself; of return: the state is not sound */
    HOUSE_REFUSED_NO_RULE = 65536 + 6,     /* the kind has no own rule for the mark */
    HOUSE_REFUSED_LINKED = 65536 + 7,      /* the link is there already */
    HOUSE_REFUSED_NOT_LINKED = 65536 + 8,  /* there is no such link */
    HOUSE_REFUSED_CYCLE = 65536 + 9,       /* the parent is the child, or the child is above the parent */
    HOUSE_REFUSED_NO_DISPUTE = 65536 + 11, /* the entry is no dispute */
    HOUSE_REFUSED_CALLER = 65536 + 13,     /* there is no such caller: caller is above 15 */
    HOUSE_REFUSED_NAME = 65536 + 14,       /* there is no such name: name is above 7 */
    HOUSE_REFUSED_UNSAVED = 65536 + 15,    /* nothing was ever saved under the name: its flag is 0 */
    HOUSE_REFUSED_NO_EDIT = 65536 + 19     /* a record of a list, which stops there, is no edit: what is not 1 to 4 */
};

/* Whether an answer, of any call but a list, is a refusal. */
static inline bool house_is_refusal(uint32_t answer) {
    return answer / 65536 == 1;
}

/* The number of a refusal, 1 to 19. Other answers have none. */
static inline unsigned house_refusal(uint32_t answer) {
    return answer % 65536;
}

/* ---- open */

/* All numbers of the five tables become 0, whatever they were: a book with no links and no rules. Answers 0.
   Refusals: 1. */
uint32_t house_open(uint16_t n, uint16_t m, uint8_t *links, size_t links_len, uint16_t *rules, size_t rules_len,
                    uint16_t *entries, size_t entries_len, uint32_t *tally, size_t tally_len, uint16_t *disputes,
                    size_t disputes_len);

/* ---- the four edits */

/* An edit changes one place of rules or of links, makes every entry its lookup and every count of disputes right again,
   and adds 1 to its caller's number in the tally, and to no other. A count changes only at a mark where an entry does.
   It answers the number of places of entries that differ from before, 0 to n * m. 0 is no refusal: the change was
   made. */

/* The kind gets its own rule for the mark. A handling that is there is replaced, and the answer is then 0.
   Refusals: 1, 13, 2, 3, 4, 5. */
uint32_t house_add_rule(uint16_t n, uint16_t m, const uint8_t *links, size_t links_len, uint16_t *rules,
                        size_t rules_len, uint16_t *entries, size_t entries_len, uint32_t *tally, size_t tally_len,
                        uint16_t *disputes, size_t disputes_len, uint16_t caller, uint16_t kind, uint16_t mark,
                        uint16_t handling);

/* The kind loses its own rule for the mark. Refusals: 1, 13, 2, 3, 5, 6. */
uint32_t house_take_rule(uint16_t n, uint16_t m, const uint8_t *links, size_t links_len, uint16_t *rules,
                         size_t rules_len, uint16_t *entries, size_t entries_len, uint32_t *tally, size_t tally_len,
                         uint16_t *disputes, size_t disputes_len, uint16_t caller, uint16_t kind, uint16_t mark);

/* The child comes to be directly under the parent. Refusals: 1, 13, 2, 5, 7, 9. */
uint32_t house_add_link(uint16_t n, uint16_t m, uint8_t *links, size_t links_len, const uint16_t *rules,
                        size_t rules_len, uint16_t *entries, size_t entries_len, uint32_t *tally, size_t tally_len,
                        uint16_t *disputes, size_t disputes_len, uint16_t caller, uint16_t child, uint16_t parent);

/* The child is no longer directly under the parent. Refusals: 1, 13, 2, 5, 8. */
uint32_t house_take_link(uint16_t n, uint16_t m, uint8_t *links, size_t links_len, const uint16_t *rules,
                         size_t rules_len, uint16_t *entries, size_t entries_len, uint32_t *tally, size_t tally_len,
                         uint16_t *disputes, size_t disputes_len, uint16_t caller, uint16_t child, uint16_t parent);

/* ---- a list of edits */

/* An edit as a record of a list, of 8 bytes. It may hold any numbers. */
struct house_edit {
    uint16_t what;     /* one of the four below */
    uint16_t kind;     /* the kind of the rule, or the child of the link */
    uint16_t other;    /* the mark of the rule, or the parent of the link */
    uint16_t handling; /* that of a rule to add; not read for the other three */
};

enum { HOUSE_ADD_RULE = 1, HOUSE_TAKE_RULE = 2, HOUSE_ADD_LINK = 3, HOUSE_TAKE_LINK = 4 };

/* The most records of a list. */
#define HOUSE_MOST_EDITS 4096

/* Makes the edits of a list in order, all of one caller, each as its own call would, up to the first that is refused.
   Later ones are not tried, and the earlier stand: stopping there is no refused call. The book is tested once, before
   the first edit, so a long list takes much less time than its edits one by one. An empty list, for which NULL will do,
   changes nothing.
   Answers 4294967296 * the sum of what the accepted edits answered + how many they are, and where the list stopped,
   65536 * (256 + the refusal's number) is added. It stops by 19 at a record whose what is not 1 to 4, and at others by
   2, 3, 4, 6, 7, 8 or 9, as the call of the edit has them.
   Refusals of the list as a whole: 1, 13, 5. */
uint64_t house_make_list(uint16_t n, uint16_t m, const struct house_edit *edits, size_t edits_len, uint8_t *links,
                         size_t links_len, uint16_t *rules, size_t rules_len, uint16_t *entries, size_t entries_len,
                         uint32_t *tally, size_t tally_len, uint16_t *disputes, size_t disputes_len, uint16_t caller);

/* Whether the list was refused as a whole. Then no edit was made, and the answer is one of the refusals above. */
static inline bool house_list_refused(uint64_t answer) {
    return answer / 65536 == 1;
}

/* Of a list that was not refused: how many edits were accepted. If it stopped, this is the place in the list of the
   record that was refused. */
static inline size_t house_list_accepted(uint64_t answer) {
    return (size_t)(answer % 65536);
}

/* The sum of what they answered. An entry that changed more than once is in it more than once. */
static inline uint32_t house_list_changed(uint64_t answer) {
    return (uint32_t)(answer / 4294967296);
}

/* The number of the refusal by which it stopped, to which HOUSE_REFUSED is added for one of the refusals above; 0 if it
   did not stop. */
static inline unsigned house_list_stop(uint64_t answer) {
    return (unsigned)(answer / 65536 % 256);
}

/* ---- save and return */

/* Copies links, rules, entries and disputes, sound or not, into the store under the name, and sets its flag to 1. What
   was saved under the name is replaced; the other flags and copies stay, and nothing of the book changes. Answers 0.
   Refusals: 1, 14. */
uint32_t house_save(uint16_t n, uint16_t m, const uint8_t *links, size_t links_len, const uint16_t *rules,
                    size_t rules_len, const uint16_t *entries, size_t entries_len, const uint32_t *tally,
                    size_t tally_len, const uint16_t *disputes, size_t disputes_len, uint8_t *flags, size_t flags_len,
                    uint8_t *saved_links, size_t saved_links_len, uint16_t *saved_rules, size_t saved_rules_len,
                    uint16_t *saved_entries, size_t saved_entries_len, uint16_t *saved_disputes,
                    size_t saved_disputes_len, uint16_t name);

/* Links, rules, entries and disputes become what was saved under the name, which has to be sound; the book that is
   replaced need not be. Adds 1 to its caller's number in the tally, and to no other. The store stays, so that a state
   can be returned to again. Answers the number of places of entries that differ from before, 0 to n * m.
   Refusals: 1, 13, 14, 15, 5. */
uint32_t house_return(uint16_t n, uint16_t m, uint8_t *links, size_t links_len, uint16_t *rules, size_t rules_len,
                      uint16_t *entries, size_t entries_len, uint32_t *tally, size_t tally_len, uint16_t *disputes,
                      size_t disputes_len, const uint8_t *flags, size_t flags_len, const uint8_t *saved_links,
                      size_t saved_links_len, const uint16_t *saved_rules, size_t saved_rules_len,
                      const uint16_t *saved_entries, size_t saved_entries_len, const uint16_t *saved_disputes,
                      size_t saved_disputes_len, uint16_t caller, uint16_t name);

/* ---- refresh */

/* Every entry becomes its lookup and every count of disputes right, whatever they were; links, rules and tally stay.
   Answers the number of places of entries that differ from before; counts are not in it. This mends a book of which
   only entries or counts are wrong, as one is that was stored before there were counts. Refusals: 1, 5. */
uint32_t house_refresh(uint16_t n, uint16_t m, const uint8_t *links, size_t links_len, const uint16_t *rules,
                       size_t rules_len, uint16_t *entries, size_t entries_len, const uint32_t *tally, size_t tally_len,
                       uint16_t *disputes, size_t disputes_len);

/* ---- parties */

/* The two lowest of the kinds left at a kind and a mark that are in dispute: whose rules a person has to choose between.
   Answers 256 * the lowest + the second lowest. Refusals: 1, 2, 3, 5, 11. */
uint32_t house_parties(uint16_t n, uint16_t m, const uint8_t *links, size_t links_len, const uint16_t *rules,
                       size_t rules_len, const uint16_t *entries, size_t entries_len, const uint32_t *tally,
                       size_t tally_len, const uint16_t *disputes, size_t disputes_len, uint16_t kind, uint16_t mark);

/* The two kinds, the lowest and the second lowest. A refusal has none. */
static inline uint16_t house_one(uint32_t answer) {
    return (uint16_t)(answer / 256);
}

static inline uint16_t house_other(uint32_t answer) {
    return (uint16_t)(answer % 256);
}

/* ---- inspect */

/* Whether the book is sound, and if not, its first fault: link bytes come first, then kinds, then entries, then
   counts of disputes, and of each the lowest. Refusals: 1. */
uint32_t house_inspect(uint16_t n, uint16_t m, const uint8_t *links, size_t links_len, const uint16_t *rules,
                       size_t rules_len, const uint16_t *entries, size_t entries_len, const uint32_t *tally,
                       size_t tally_len, const uint16_t *disputes, size_t disputes_len);

/* What house_fault makes of an answer: one of these, or HOUSE_REFUSED. */
enum {
    HOUSE_SOUND = 0,             /* the whole answer: the book is sound */
    HOUSE_LINK_BYTE = 131072,    /* + place: a link byte is above 1; the child is place / n, the parent place % n */
    HOUSE_ABOVE_ITSELF = 196608, /* + kind: a chain of links leads from the kind up to itself */
    HOUSE_WRONG_ENTRY = 262144,  /* + place: an entry is not its lookup; the kind is place / m, the mark place % m */
    HOUSE_WRONG_COUNT = 327680   /* + mark: the count of disputes is not how many kinds have a dispute entry for it */
};

static inline uint32_t house_fault(uint32_t answer) {
    return answer - answer % 65536;
}

/* The place, the kind or the mark of a fault. */
static inline uint16_t house_fault_at(uint32_t answer) {
    return (uint16_t)(answer % 65536);
}

#ifdef __cplusplus
}
#endif

#endif
