/* check FILE: reads a rule file and tells its errors and its rules. It shows how the six functions are called: see include/stableglow.h.
   Rooms are lent with room to spare, and doubled where the library says that one is too small. Exit status: 0 accepted, 1 not, 2 not read. */
#include <stdio.h>
#include <stdlib.h>

#include "../../include/stableglow.h"

/* What stands where in the lists that the reader writes. */
enum { EVENT = 5, RECORD_FORM = 2, RECORD_COUNT = 4, RECORD_HEAD = 5, PLACED = 9, RULE = 8, FUEL = 1000000, MOST = 1048577 };

static void *room(size_t count, size_t size) {
    void *cells = calloc(count + 1, size);
    if (cells == NULL) exit(2);
    return cells;
}

static int refused(const char *path, uint32_t number) {
    printf("%s: refused, number %u\n", path, number);
    return 1;
}

static int tell_errors(const char *path, const uint8_t *source, size_t length, const uint32_t *errors, size_t numbers, uint32_t count) {
    for (uint32_t n = 0; n < count; n++) {
        uint32_t bytes, refusal;
        size_t text_room = 64;
        uint8_t *text = room(text_room, 1);
        while ((refusal = stableglow_message(source, length, errors, numbers, text, text_room, &bytes)) == 12) {
            free(text);
            text = room(text_room *= 2, 1);
        }
        if (refusal != 0) return refused(path, refusal);
        printf("%s: %u..%u: %.*s\n", path, errors[0], errors[1], (int)bytes, (const char *)text);
        free(text);
        size_t size = RECORD_HEAD + errors[RECORD_COUNT] + (errors[RECORD_FORM] == PLACED);
        errors += size;
        numbers -= size;
    }
    return 0;
}

static int tell_rules(const char *path, const uint8_t *source, const uint32_t *events, size_t numbers) {
    uint32_t count, refusal;
    size_t list_room = RULE;
    uint32_t *list = room(list_room, sizeof *list);
    while ((refusal = stableglow_rules(events, numbers, list, list_room, &count)) == 14) {
        free(list);
        list = room(list_room *= 2, sizeof *list);
    }
    if (refusal != 0) return refused(path, refusal);
    for (uint32_t n = 0; n < count; n++) {
        const uint32_t *rule = list + RULE * n;
        const char *damaged = rule[7] ? ", damaged" : "";
        printf("%s: rule %.*s%s\n", path, (int)(rule[1] - rule[0]), (const char *)source + rule[0], damaged);
    }
    free(list);
    return 0;
}

static int check(const char *path, const uint8_t *source, size_t length) {
    uint32_t *ids = room(length, sizeof *ids), *starts = room(length, sizeof *starts), *ends = room(length, sizeof *ends);
    uint32_t rows, answer[5], refusal = stableglow_cut(source, length, ids, length, starts, length, ends, length, &rows);
    if (refusal != 0) return refused(path, refusal);
    size_t words = (2 * ((size_t)rows + 1) + 63) / 64, event_room = EVENT * (3 * (size_t)rows + 64), error_room = rows + 256;
    uint64_t *scratch = room(words, sizeof *scratch);
    uint32_t *events = room(event_room, sizeof *events), *errors = room(error_room, sizeof *errors);
    while ((refusal = stableglow_read(source, length, ids, rows, starts, rows, ends, rows, NULL, 0, 1, FUEL, scratch, words, events, event_room, errors,
                                      error_room, answer)) != 0) {
        if (refusal == 7) {
            free(events);
            events = room(event_room *= 2, sizeof *events);
        } else if (refusal == 8) {
            free(errors);
            errors = room(error_room *= 2, sizeof *errors);
        } else {
            return refused(path, refusal);
        }
    }
    if (tell_errors(path, source, length, errors, error_room, answer[3]) || tell_rules(path, source, events, EVENT * (size_t)answer[2])) return 1;
    /* An empty list of errors says nothing of a reading that was stopped: look at the outcome first. */
    static const char *const told[] = {"with errors", "stopped: out of fuel", "stopped: too deep"};
    int accepted = answer[0] == 0 && answer[3] == 0;
    printf("%s: %s\n", path, accepted ? "accepted" : told[answer[0]]);
    free(ids), free(starts), free(ends), free(scratch), free(events), free(errors);
    return !accepted;
}

int main(int argc, char **argv) {
    FILE *file = argc == 2 ? fopen(argv[1], "rb") : NULL;
    if (file == NULL) {
        fputs("check: give a rule file that can be read\n", stderr);
        return 2;
    }
    /* One byte more than the library takes, so that it refuses what is longer. */
    uint8_t *source = room(MOST, 1);
    size_t length = fread(source, 1, MOST, file);
    if (ferror(file)) {
        fputs("check: the file cannot be read\n", stderr);
        return 2;
    }
    fclose(file);
    int status = check(argv[1], source, length);
    free(source);
    return status;
}
