/* The text program by hand in plain C: the same protocol, the same checks and the same answers, on the edits of ../edits/twin.c. */
#include "../edits/twin.h"
#include <string.h>
#include <unistd.h>

enum { KINDS = 128, MARKS = 64, LONGEST = 64, ANSWER = 32, BLOCK = 65536, REFUSED = 65536 };

static uint8_t links[KINDS * KINDS];
static uint16_t rules[KINDS * MARKS], entries[KINDS * MARKS], disputes[MARKS];
static uint32_t tally[CALLERS];
static struct book book = {0, 0, links, rules, entries, tally, disputes, 0, 0, 0, CALLERS, 0, NULL};

/* Whoever writes the text is one caller. */
enum { CALLER = 0 };

static char in[BLOCK], out[BLOCK], carry[LONGEST + 1];
static size_t carried, waiting;

static int flush(void) {
    for (size_t done = 0; done < waiting;) {
        ssize_t put = write(STDOUT_FILENO, out + done, waiting - done);
        if (put <= 0) return 0;
        done += (size_t)put;
    }
    waiting = 0;
    return 1;
}

#define SAY(text) (memcpy(out + waiting, text, sizeof text - 1), waiting += sizeof text - 1)

static void say_number(uint32_t v) {
    char digits[10];
    int i = 10;
    do digits[--i] = (char)('0' + v % 10);
    while ((v /= 10) != 0);
    memcpy(out + waiting, digits + i, (size_t)(10 - i));
    waiting += (size_t)(10 - i);
}

#define SAY_ONE(word, v) (SAY(word), say_number(v), SAY(")\n"))
#define SAY_TWO(word, v, w) (SAY(word), say_number(v), SAY(" "), say_number(w), SAY(")\n"))

static void say_edited(uint32_t answer) {
    if (answer >= REFUSED) SAY_ONE("(refused ", answer - REFUSED);
    else SAY_ONE("(done ", answer);
}

static const char *number(const char *p, const char *end, uint16_t *v) {
    uint32_t value = 0;
    const char *from = p;
    for (; p < end && *p >= '0' && *p <= '9'; p++) {
        value = value * 10 + (uint32_t)(*p - '0');
        if (value > 65535) return NULL;
    }
    if (p == from || (*from == '0' && p > from + 1)) return NULL;
    *v = (uint16_t)value;
    return p;
}

/* Whether the line is the head, the numbers with a space between two, and the tail. */
static inline int is(const char *p, const char *end, const char *head, size_t numbers, const char *tail, uint16_t *v) {
    size_t length = strlen(head);
    if ((size_t)(end - p) < length || memcmp(p, head, length) != 0) return 0;
    p += length;
    for (size_t i = 0; i < numbers; i++) {
        if (i > 0 && (p == end || *p++ != ' ')) return 0;
        if ((p = number(p, end, v + i)) == NULL) return 0;
    }
    length = strlen(tail);
    return (size_t)(end - p) == length && memcmp(p, tail, length) == 0;
}

static void open_book(uint16_t n, uint16_t m) {
    if (n < 1 || n > KINDS || m < 1 || m > MARKS) {
        SAY_ONE("(refused ", 1);
        return;
    }
    book.n = n;
    book.m = m;
    book.links_len = (size_t)n * n;
    book.rules_len = book.entries_len = (size_t)n * m;
    book.disputes_len = m;
    memset(links, 0, book.links_len);
    memset(rules, 0, book.rules_len * sizeof *rules);
    memset(entries, 0, book.entries_len * sizeof *entries);
    memset(tally, 0, sizeof tally);
    memset(disputes, 0, sizeof disputes);
    SAY_TWO("(opened ", n, m);
}

static void find(uint16_t kind, uint16_t mark) {
    uint32_t n = book.n, m = book.m, e;
    if (n == 0) SAY_ONE("(refused ", 1);
    else if (kind >= n) SAY_ONE("(refused ", 2);
    else if (mark >= m) SAY_ONE("(refused ", 3);
    else if ((e = entries[kind * m + mark]) == 0) SAY("(none)\n");
    else if (e <= n && rules[(e - 1) * m + mark] != 0) SAY_TWO("(rule ", e - 1, rules[(e - 1) * m + mark]);
    else if (e >= 257 && e <= 256 + n) SAY_ONE("(dispute ", e - 257);
    else SAY_ONE("(refused ", 10);
}

static int answer(const char *line, size_t length) {
    uint16_t v[3];
    const char *end = line + length;
    if (BLOCK - waiting < ANSWER && !flush()) return 0;
    if (length > LONGEST) SAY_ONE("(refused ", 12);
    else if (is(line, end, "(find ", 2, ")", v)) find(v[0], v[1]);
    else if (is(line, end, "(add (rule ", 3, "))", v)) say_edited(twin_add_rule(&book, CALLER, v[0], v[1], v[2]));
    else if (is(line, end, "(take (rule ", 2, "))", v)) say_edited(twin_take_rule(&book, CALLER, v[0], v[1]));
    else if (is(line, end, "(add (under ", 2, "))", v)) say_edited(twin_add_link(&book, CALLER, v[0], v[1]));
    else if (is(line, end, "(take (under ", 2, "))", v)) say_edited(twin_take_link(&book, CALLER, v[0], v[1]));
    else if (is(line, end, "(open ", 2, ")", v)) open_book(v[0], v[1]);
    else SAY_ONE("(refused ", 12);
    return 1;
}

static void add(const char *part, size_t length) {
    size_t room = sizeof carry - carried;
    if (length > room) length = room;
    memcpy(carry + carried, part, length);
    carried += length;
}

static int work(const char *p, const char *end) {
    const char *feed;
    for (; p < end && (feed = memchr(p, '\n', (size_t)(end - p))) != NULL; p = feed + 1) {
        if (carried == 0) {
            if (!answer(p, (size_t)(feed - p))) return 0;
        } else {
            add(p, (size_t)(feed - p));
            if (!answer(carry, carried)) return 0;
            carried = 0;
        }
    }
    add(p, (size_t)(end - p));
    return 1;
}

int main(void) {
    ssize_t got;
    while ((got = read(STDIN_FILENO, in, sizeof in)) > 0)
        if (!work(in, in + got) || !flush()) return 1;
    if (carried > 0 && answer(carry, carried)) flush();
    return 0;
}
