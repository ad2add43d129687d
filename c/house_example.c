/* A house in small: it opens a book, edits it for two suppliers while a lane asks, sees a dispute, mends a damaged
   copy, enters a list of edits, and saves the book to return to it.

     cc -o house_example c/house_example.c crates/house/out/libhouse.a crates/lane/out/liblane.a */

#include <stdio.h>

#include "house.h"
#include "lane.h"

/* A book of 4 kinds and 2 marks. */
enum { N = 4, M = 2 };

struct book {
    uint8_t links[N * N];
    uint16_t rules[N * M], entries[N * M];
    uint32_t tally[HOUSE_CALLERS];
    uint16_t disputes[M];
};

/* What the calls are lent: the size, and the five tables with their numbers of elements. */
#define TABLES(b) \
    (b)->links, N * N, (b)->rules, N * M, (b)->entries, N * M, (b)->tally, HOUSE_CALLERS, (b)->disputes, M
#define LENT(b) N, M, TABLES(b)

/* A store of states of the book, and what save and return are lent of it. */
struct store {
    uint8_t flags[HOUSE_NAMES], links[HOUSE_NAMES * N * N];
    uint16_t rules[HOUSE_NAMES * N * M], entries[HOUSE_NAMES * N * M], disputes[HOUSE_NAMES * M];
};

#define STORE(s) \
    (s)->flags, HOUSE_NAMES, (s)->links, HOUSE_NAMES * N * N, (s)->rules, HOUSE_NAMES * N * M, (s)->entries, \
        HOUSE_NAMES * N * M, (s)->disputes, HOUSE_NAMES * M

/* The names of states that this house has. */
enum { MORNING = 0, NOON = 1 };

/* The suppliers whose edits this house enters: the callers that it tells apart. */
enum { ORCHARD = 0, IMPORTER = 1 };

static const char *refusal_name(uint32_t answer) {
    switch (answer) {
    case HOUSE_REFUSED_BOOK:
        return "the tables have not the right size";
    case HOUSE_REFUSED_KIND:
        return "there is no such kind";
    case HOUSE_REFUSED_MARK:
        return "there is no such mark";
    case HOUSE_REFUSED_HANDLING:
        return "0 is no handling";
    case HOUSE_REFUSED_UNSOUND:
        return "the book is not sound";
    case HOUSE_REFUSED_NO_RULE:
        return "there is no rule to take";
    case HOUSE_REFUSED_LINKED:
        return "the link is there already";
    case HOUSE_REFUSED_NOT_LINKED:
        return "there is no link to take";
    case HOUSE_REFUSED_CYCLE:
        return "the kind would be above itself";
    case HOUSE_REFUSED_NO_DISPUTE:
        return "there is no dispute";
    case HOUSE_REFUSED_CALLER:
        return "there is no such caller";
    case HOUSE_REFUSED_NAME:
        return "there is no such name";
    case HOUSE_REFUSED_UNSAVED:
        return "nothing was saved under the name";
    case HOUSE_REFUSED_NO_EDIT:
        return "there is no such edit";
    default:
        return "an answer of no call";
    }
}

/* Prints what an edit, a return or a refresh answered, or any refusal. */
static void tell(const char *call, uint32_t answer) {
    if (house_is_refusal(answer)) {
        printf("%-24s refused: %s (refusal %u)\n", call, refusal_name(answer), house_refusal(answer));
    } else {
        printf("%-24s done, entries that changed: %u\n", call, (unsigned)answer);
    }
}

/* A lane asks the same memory, as bytes. */
static void ask(const struct book *b, uint16_t kind, uint16_t mark) {
    uint32_t answer = lane_find(N, M, b->links, sizeof b->links, (const uint8_t *)b->rules, sizeof b->rules,
                                (const uint8_t *)b->entries, sizeof b->entries, (const uint8_t *)b->tally,
                                sizeof b->tally, (const uint8_t *)b->disputes, sizeof b->disputes, kind, mark);
    printf("  kind %d, mark %d: ", kind, mark);
    if (lane_is_rule(answer)) {
        printf("handle as %d, by the rule of kind %d\n", lane_handling(answer), lane_kind(answer));
    } else if (lane_is_dispute(answer)) {
        printf("send to a person, the rules disagree at kind %d\n", lane_kind(answer));
    } else if (answer == LANE_NONE) {
        puts("let it pass, there is no rule");
    } else {
        printf("stop the lane, refusal %u\n", (unsigned)answer);
    }
}

/* Prints how much a person has to settle for a mark. */
static void show_disputes(const struct book *b, uint16_t mark) {
    printf("  kinds in dispute for mark %d: %d\n", mark, b->disputes[mark]);
}

/* Prints who is in dispute. */
static void show_parties(const struct book *b, uint16_t kind, uint16_t mark) {
    uint32_t answer = house_parties(LENT(b), kind, mark);
    if (house_is_refusal(answer)) {
        tell("parties", answer);
        return;
    }
    printf("  between the rules of kinds %d and %d\n", house_one(answer), house_other(answer));
}

static void inspect(const struct book *b) {
    uint32_t answer = house_inspect(LENT(b));
    int at = house_fault_at(answer);
    printf("%-24s ", "inspect");
    switch (house_fault(answer)) {
    case HOUSE_SOUND:
        puts("the book is sound");
        break;
    case HOUSE_LINK_BYTE:
        printf("the link byte of child %d and parent %d is above 1\n", at / N, at % N);
        break;
    case HOUSE_ABOVE_ITSELF:
        printf("kind %d is above itself\n", at);
        break;
    case HOUSE_WRONG_ENTRY:
        printf("the entry of kind %d and mark %d is wrong\n", at / M, at % M);
        break;
    case HOUSE_WRONG_COUNT:
        printf("the count of disputes of mark %d is wrong\n", at);
        break;
    default:
        printf("refused: %s\n", refusal_name(answer));
        break;
    }
}

/* The diamond: kinds 1 and 2 are under kind 0, and kind 3 is under both. All of it is the orchard's. */
static void link_kinds(struct book *book) {
    tell("add link 1 under 0", house_add_link(LENT(book), ORCHARD, 1, 0));
    tell("add link 2 under 0", house_add_link(LENT(book), ORCHARD, 2, 0));
    tell("add link 3 under 1", house_add_link(LENT(book), ORCHARD, 3, 1));
    tell("add link 3 under 2", house_add_link(LENT(book), ORCHARD, 3, 2));
    tell("add link 0 under 3", house_add_link(LENT(book), ORCHARD, 0, 3));
}

/* All kinds inherit from kind 0; then kind 1 hides that rule from kind 3, by the way over kind 2 too. Of kinds 1 and 2
   neither is above the other, so the rules of the two suppliers meet at kind 3, though both say 20. The last rule is
   refused at first, as callers are numbered below HOUSE_CALLERS. */
static void make_rules(struct book *book) {
    tell("add rule 0, mark 0: 10", house_add_rule(LENT(book), ORCHARD, 0, 0, 10));
    ask(book, 3, 0);
    tell("add rule 1, mark 0: 20", house_add_rule(LENT(book), ORCHARD, 1, 0, 20));
    ask(book, 3, 0);
    tell("add rule 2, mark 0: 20", house_add_rule(LENT(book), HOUSE_CALLERS, 2, 0, 20));
    tell("add rule 2, mark 0: 20", house_add_rule(LENT(book), IMPORTER, 2, 0, 20));
    ask(book, 3, 0);
    show_parties(book, 3, 0);
    show_disputes(book, 0);
    inspect(book);
}

/* A lane takes the damaged entry at its word. The house finds it, edits nothing before it is mended, and mends it. */
static void mend(struct book copy) {
    copy.entries[3 * M + 0] = 0 + 1;
    ask(&copy, 3, 0);
    inspect(&copy);
    tell("take rule 2, mark 0", house_take_rule(LENT(&copy), IMPORTER, 2, 0));
    tell("refresh", house_refresh(LENT(&copy)));
    inspect(&copy);
    ask(&copy, 3, 0);
}

/* Enters a list of the importer's. Where it stops at a record that is refused, it goes on after that. */
static void enter(struct book *book, const struct house_edit *edits, size_t many) {
    for (size_t next = 0; next < many; next++) {
        uint64_t answer = house_make_list(N, M, edits + next, many - next, TABLES(book), IMPORTER);
        if (house_list_refused(answer)) {
            tell("list", (uint32_t)answer);
            return;
        }
        next += house_list_accepted(answer);
        printf("%-24s done, accepted: %u, entries that changed: %u\n", "list", (unsigned)house_list_accepted(answer),
               (unsigned)house_list_changed(answer));
        if (house_list_stop(answer) != 0) {
            tell("  the next edit", HOUSE_REFUSED + house_list_stop(answer));
        }
    }
}

/* The importer's spring list, in which the third edit takes a rule that is not there. */
static void enter_spring_list(struct book *book) {
    static const struct house_edit spring[] = {
        {HOUSE_TAKE_RULE, 2, 0, 0}, {HOUSE_ADD_RULE, 2, 1, 30}, {HOUSE_TAKE_RULE, 0, 1, 0},
        {HOUSE_ADD_LINK, 3, 2, 0},  {HOUSE_TAKE_LINK, 3, 1, 0},
    };
    enter(book, spring, sizeof spring / sizeof *spring);
    ask(book, 3, 0);
    ask(book, 3, 1);
}

/* The morning's book is saved before a harder rule is tried, and brought back. The store starts as zeros: nothing is
   saved in it. */
static void try_harder_rule(struct book *book) {
    static struct store store;
    uint32_t answer = house_save(LENT(book), STORE(&store), MORNING);
    if (house_is_refusal(answer)) {
        tell("save the morning", answer);
        return;
    }
    printf("%-24s done\n", "save the morning");
    tell("add rule 0, mark 1: 90", house_add_rule(LENT(book), ORCHARD, 0, 1, 90));
    tell("take rule 2, mark 1", house_take_rule(LENT(book), ORCHARD, 2, 1));
    ask(book, 3, 1);
    tell("return to noon", house_return(LENT(book), STORE(&store), ORCHARD, NOON));
    tell("return to the morning", house_return(LENT(book), STORE(&store), ORCHARD, MORNING));
    ask(book, 3, 1);
}

int main(void) {
    struct book book;
    uint32_t answer = house_open(LENT(&book));
    if (house_is_refusal(answer)) {
        tell("open", answer);
        return 1;
    }
    puts("a new book");
    link_kinds(&book);
    make_rules(&book);
    puts("a copy of it, the entry of kind 3 and mark 0 overwritten");
    mend(book);
    puts("the book itself");
    tell("take link 3 under 2", house_take_link(LENT(&book), IMPORTER, 3, 2));
    show_disputes(&book, 0);
    ask(&book, 3, 0);
    ask(&book, 3, 1);
    puts("a list of five edits for it");
    enter_spring_list(&book);
    puts("a harder rule, and the morning's book again");
    try_harder_rule(&book);
    printf("edits accepted: %u of the orchard, %u of the importer\n", (unsigned)book.tally[ORCHARD],
           (unsigned)book.tally[IMPORTER]);
    return 0;
}
