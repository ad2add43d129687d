/* The four edits, a list of them, refresh, save and return by hand in C: the same checks and the same answers as the proved calls, on the same tables. */
#ifndef TWIN_H
#define TWIN_H
#include "house.h" /* for the records of a list */
#include <stddef.h>
#include <stdint.h>

/* The most callers: the tally has a number for each. */
enum { CALLERS = 16 };

/* The most names: the store has a flag and a copy of each table for each. */
enum { NAMES = 8 };

/* A store: its five tables. */
struct store {
    uint8_t *flags, *links;
    uint16_t *rules, *entries, *disputes;
    size_t flags_len, links_len, rules_len, entries_len, disputes_len;
};

/* A book: n kinds, m marks and its five tables, and its store, if it has one. */
struct book {
    uint16_t n, m;
    uint8_t *links;
    uint16_t *rules, *entries;
    uint32_t *tally;
    uint16_t *disputes;
    size_t links_len, rules_len, entries_len, tally_len, disputes_len;
    struct store *store;
};

/* The count of entries that differ, or 65536 + the refusal's number. */
uint32_t twin_add_rule(const struct book *b, uint16_t caller, uint16_t kind, uint16_t mark, uint16_t handling);
uint32_t twin_take_rule(const struct book *b, uint16_t caller, uint16_t kind, uint16_t mark);
uint32_t twin_add_link(const struct book *b, uint16_t caller, uint16_t child, uint16_t parent);
uint32_t twin_take_link(const struct book *b, uint16_t caller, uint16_t child, uint16_t parent);
uint32_t twin_refresh(const struct book *b);
uint32_t twin_return(const struct book *b, uint16_t caller, uint16_t name);

/* 0, or 65536 + the refusal's number. */
uint32_t twin_save(const struct book *b, uint16_t name);

/* The answer of house_make_list. */
uint64_t twin_make_list(const struct book *b, uint16_t caller, const struct house_edit *edits, size_t many);
#endif
