/* A reader's list, merged and not, as rules and as an outline, and the refusals at their edges, through the C face. */
#include <stdio.h>
#include <string.h>

#include "../include/stableglow.h"

enum { LENT = 77, ROWS = 64, EVENTS = 128 * STABLEGLOW_EVENT, ROOM = 32 };

/* Neighbouring ERROR nodes inside the first rule; a name used twice; a tag and a pattern. */
static const char SOURCE[] = "rule a{strings:$a=1 condition:true}rule a:t{strings:$b=\"c\" condition:$b}";

static int failed = 0;
static uint32_t ids[ROWS], starts[ROWS], ends[ROWS], events[EVENTS], merged[EVENTS], errors[ROWS], room[ROOM], count;

static void expect(const char *what, int ok) {
    if (!ok) {
        failed = 1;
        printf("differs: %s\n", what);
    }
}

static void lend(void) {
    for (size_t i = 0; i < ROOM; i++) room[i] = LENT;
    count = LENT;
}

/* The room's first cells are these, the rest of what was lent is zero, and behind it nothing is touched. */
static int is(size_t lent, uint32_t n, const uint32_t *want, size_t cells) {
    for (size_t i = 0; i < ROOM; i++)
        if (room[i] != (i < cells ? want[i] : i < lent ? 0 : LENT)) return 0;
    return count == n;
}

static int as_lent(void) {
    for (size_t i = 0; i < ROOM; i++)
        if (room[i] != LENT) return 0;
    return count == 0;
}

static uint32_t rules(const uint32_t *list, size_t numbers, size_t lent) {
    lend();
    return stableglow_rules(list, numbers, room, lent, &count);
}

static uint32_t outline(const uint32_t *list, size_t numbers, size_t at, uint32_t depth, size_t lent) {
    lend();
    return stableglow_outline(list, numbers, at, depth, room, lent, &count);
}

int main(void) {
    const uint32_t two[] = {5, 6, 0, 35, 0, 0, 0, 1, 40, 41, 35, 72, 0, 1, 1, 0};
    const uint32_t items[] = {89, 0, 35, 1, 89, 35, 72, 1};
    const uint32_t crossed[] = {1, 88, 0, 1, 0, 3, 89, 0, 1, 0}, unnamed[] = {1, 89, 0, 1, 0, 3, 89, 0, 1, 0};
    uint32_t answer[5], rows, merged_count;
    uint64_t scratch[4];
    const uint8_t *source = (const uint8_t *)SOURCE;
    size_t length = strlen(SOURCE), n, m;
    expect("rows", stableglow_cut(source, length, ids, ROWS, starts, ROWS, ends, ROWS, &rows) == 0);
    expect("read", stableglow_read(source, length, ids, rows, starts, rows, ends, rows, NULL, 0, 1, 100, scratch, 4, events, EVENTS, errors, ROWS,
                                   answer) == 0 && answer[0] == 0 && answer[3] == 1);
    n = STABLEGLOW_EVENT * answer[2];
    expect("merged", stableglow_merge(events, n, merged, EVENTS, &merged_count) == 0);
    m = STABLEGLOW_EVENT * merged_count;
    expect("fewer events", m < n);
    expect("rules", rules(events, n, 20) == 0 && is(20, 2, two, 16));
    expect("rules of the merged list", rules(merged, m, 20) == 0 && is(20, 2, two, 16));
    expect("room exact", rules(events, n, 16) == 0 && is(16, 2, two, 16));
    expect("one number less", rules(events, n, 15) == 14 && as_lent());
    expect("no list of events", rules(events, n - 1, 16) == 9 && as_lent());
    expect("an end with none open", rules(crossed + STABLEGLOW_EVENT, STABLEGLOW_EVENT, 16) == 9 && as_lent());
    expect("left open", rules(events, n - STABLEGLOW_EVENT, 16) == 15 && as_lent());
    expect("crossed", rules(crossed, 10, 16) == 15 && as_lent());
    expect("a rule without a name", rules(unnamed, 10, 16) == 15 && as_lent());
    expect("nothing", rules(events, 0, 0) == 0 && count == 0);
    expect("outline to depth 0", outline(events, n, 0, 0, 8) == 0 && is(8, 0, items, 0));
    expect("outline to depth 1", outline(events, n, 0, 1, 12) == 0 && is(12, 2, items, 8));
    expect("its room exact", outline(merged, m, 0, 1, 8) == 0 && is(8, 2, items, 8));
    expect("its room one less", outline(events, n, 0, 1, 7) == 14 && as_lent());
    expect("an outline of a row", outline(events, n, 2, 1, 8) == 15 && as_lent());
    expect("an outline past the list", outline(events, n, n / STABLEGLOW_EVENT, 1, 8) == 15 && as_lent());
    puts(failed ? "0 passed, 1 failed" : "1 passed, 0 failed");
    return failed;
}
