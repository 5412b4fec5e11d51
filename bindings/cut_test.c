/* Rows of a small rule and of a hex pattern, the two refusals, and rows handed on to the reader, through the C face. */
#include <stdio.h>
#include <string.h>

#include "../include/stableglow.h"

enum { LENT = 77, ROOM = 16, LONGEST = 1048576 };

static int failed = 0;
static uint32_t ids[ROOM], starts[ROOM], ends[ROOM], count;

static void expect(const char *what, int ok) {
    if (!ok) {
        failed = 1;
        printf("differs: %s\n", what);
    }
}

/* Cuts a text into lists of so many cells; everything is LENT before. */
static uint32_t cut(const void *text, size_t length, size_t id_room, size_t start_room, size_t end_room) {
    for (size_t i = 0; i < ROOM; i++) ids[i] = starts[i] = ends[i] = LENT;
    count = LENT;
    return stableglow_cut(text, length, ids, id_room, starts, start_room, ends, end_room, &count);
}

static int as_lent(void) {
    for (size_t i = 0; i < ROOM; i++)
        if (ids[i] != LENT || starts[i] != LENT || ends[i] != LENT) return 0;
    return count == 0;
}

static int rows(size_t n, const uint32_t *kinds, const uint32_t *bounds) {
    if (count != n) return 0;
    for (size_t i = 0; i < n; i++)
        if (ids[i] != kinds[i] || ends[i] != bounds[i] || starts[i] != (i ? bounds[i - 1] : 0)) return 0;
    return n == ROOM || (ids[n] == LENT && starts[n] == LENT && ends[n] == LENT);
}

int main(void) {
    static const char rule[] = "rule a{condition:true}";
    const uint32_t rule_ids[] = {37, 0, 74, 66, 12, 58, 41, 67}, rule_ends[] = {4, 5, 6, 7, 16, 17, 21, 22};
    const uint32_t hex_ids[] = {75, 60, 66, 81, 70, 80, 71, 67, 80}, hex_ends[] = {2, 3, 4, 6, 7, 8, 9, 10, 12};
    static uint8_t spaces[LONGEST + 1];
    uint32_t events[18 * STABLEGLOW_EVENT] = {0}, errors[16] = {0}, answer[5] = {0};
    uint64_t scratch[1] = {0};
    expect("a rule", cut(rule, 22, ROOM, ROOM, ROOM) == 0 && rows(8, rule_ids, rule_ends));
    expect("its rows read", stableglow_read((const uint8_t *)rule, 22, ids, count, starts, count, ends, count, NULL, 0, 1, 5, scratch, 1, events,
                                            18 * STABLEGLOW_EVENT, errors, 16, answer) == 0 && answer[0] == 0 && answer[1] == 8 && answer[3] == 0);
    expect("room exact", cut(rule, 22, 8, 8, 8) == 0 && rows(8, rule_ids, rule_ends));
    expect("no room for ids", cut(rule, 22, 7, ROOM, ROOM) == 13 && as_lent());
    expect("no room for starts", cut(rule, 22, ROOM, 7, ROOM) == 13 && as_lent());
    expect("no room for ends", cut(rule, 22, ROOM, ROOM, 7) == 13 && as_lent());
    expect("three modes", cut("$a={11[1]}11", 12, ROOM, ROOM, ROOM) == 0 && rows(9, hex_ids, hex_ends));
    expect("no bytes, no room", cut(rule, 0, 0, 0, 0) == 0 && count == 0);
    memset(spaces, ' ', sizeof spaces);
    expect("the longest source", cut(spaces, LONGEST, 1, 1, 1) == 0 && count == 1 && ids[0] == 0 && ends[0] == LONGEST);
    expect("one byte more", cut(spaces, LONGEST + 1, 0, 0, 0) == 1 && as_lent());
    puts(failed ? "0 passed, 1 failed" : "1 passed, 0 failed");
    return failed;
}
