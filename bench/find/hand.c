/* The find for line controllers, written by hand in C: what lane_find is timed against. The compiler's command line
   gives it its name, so that one program can hold it from two compilers. */

#include "lane.h"

static uint32_t number_at(const uint8_t *table, size_t place) {
    return table[2 * place] | (uint32_t)table[2 * place + 1] << 8;
}

uint32_t FIND(uint16_t n, uint16_t m, const uint8_t *links, size_t links_len, const uint8_t *rules, size_t rules_len,
              const uint8_t *entries, size_t entries_len, const uint8_t *tally, size_t tally_len,
              const uint8_t *disputes, size_t disputes_len, uint16_t kind, uint16_t mark) {
    (void)links;
    (void)tally;
    (void)disputes;
    size_t places = (size_t)n * m;
    if (n < 1 || n > 128 || m < 1 || m > 64 || links_len != (size_t)n * n || rules_len != 2 * places ||
        entries_len != 2 * places || tally_len != LANE_TALLY_BYTES || disputes_len != 2 * (size_t)m) {
        return LANE_REFUSED_BOOK;
    }
    if (kind >= n) {
        return LANE_REFUSED_KIND;
    }
    if (mark >= m) {
        return LANE_REFUSED_MARK;
    }
    uint32_t entry = number_at(entries, (size_t)kind * m + mark);
    if (entry == 0) {
        return LANE_NONE;
    }
    if (entry <= n) {
        uint32_t handling = number_at(rules, (size_t)(entry - 1) * m + mark);
        return handling == 0 ? LANE_REFUSED_ENTRY : 65536 * entry + handling;
    }
    if (entry >= 257 && entry <= 256u + n) {
        return 65536 * entry;
    }
    return LANE_REFUSED_ENTRY;
}
