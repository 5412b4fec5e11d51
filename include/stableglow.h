/* Stableglow: a proved reader of YARA rule files. Link libstableglow.a, which `bash tools/library` writes. */
#ifndef STABLEGLOW_H
#define STABLEGLOW_H

#include <stddef.h>
#include <stdint.h>

#ifdef __cplusplus
extern "C" {
#endif

/* An event's numbers: sort (1 begin, 2 token, 3 end, 4 error), kind or error record index (from 0), start, end, and depth, the count of nodes
   open around it: 0 for SOURCE_FILE, the same for a begin and its end. */
#define STABLEGLOW_EVENT 5

/* Cuts rule text into rows of tokens: the n-th row's id, start and end go to the n-th cell of each list. Rows tile the source.
   Returns 0 and writes the count of rows to *count; cells behind the last row stay as they were lent. Or returns 1 (the source has
   over 1,048,576 bytes) or 13 (a list is shorter than the rows needed), with 0 in *count and the lists as they were lent.
   There is at most one row a byte: lists as long as the source always have the room, and are filled in one pass.
   Rows that were cut are never refused 2, 3 or 4 by stableglow_read, nor 1 while there are at most 65,536.
   The lists must not overlap. */
uint32_t stableglow_cut(const uint8_t *source, size_t source_len, uint32_t *ids, size_t ids_len, uint32_t *starts,
                        size_t starts_len, uint32_t *ends, size_t ends_len, uint32_t *count);

/* Reads rows of tokens (ids, starts and ends, as long as each other) over their source into events and error records, by an edition of the
   settings text: one line an edition, from 2 on without gaps, its number, fuel, depth (1 to 1,024), quote length (0 to 255) and 1 or 0 for
   whether entrypoint is a term, tabs between and a line feed behind; where the last is missing it is 1. Edition 1 has no line, so that the
   text may be empty: the fuel argument, 1,024, 15 and 1. A later edition has its own fuel, and the argument is not looked at.
   Returns 0 and writes outcome (0 done, 1 out of fuel, 2 too deep), rows covered, count of events, count of error records
   and fuel left to answer[0..4], the events (STABLEGLOW_EVENT numbers each) and the error records from the first cell of their lists on,
   and zeros past them and into scratch. An error record is start, end, form, the number of its item (from 1; junk at item position is an
   item too), count of names, then the names; form 9 (text that is not UTF-8) has the count 0 and then one number more, the place in the
   source of the first byte that cannot begin or continue a character, or of the first byte of a character that is cut short. Item numbers
   never fall.
   Or returns a refusal's number and five zeros in answer: 1 too long, 2 lists that differ in length, 3 an unknown id, 4 rows
   that do not tile the source, 6 too little scratch, (2 x (rows + 1) + 63) / 64 words are enough, 18 an edition that is not there:
   each leaves the lists as they were lent (5 is not used). 19, before all of these: a settings line that does not read, has a value
   outside its range or a number out of turn; answer[0] then holds the number of the first such line, from 1, and the lists are as
   lent. 7 and 8: the events or the records exceeded their room: the lists are all zero.
   An empty list of errors means that every item was accepted only where the outcome is 0.
   The lists must not overlap. */
uint32_t stableglow_read(const uint8_t *source, size_t source_len, const uint32_t *ids, size_t ids_len,
                         const uint32_t *starts, size_t starts_len, const uint32_t *ends, size_t ends_len,
                         const uint8_t *settings, size_t settings_len, uint32_t edition, uint32_t fuel, uint64_t *scratch,
                         size_t scratch_len, uint32_t *events, size_t events_len, uint32_t *errors, size_t errors_len,
                         uint32_t answer[5]);

/* Joins neighbouring ERROR nodes of an event list into the room. Every event that is left keeps its depth.
   Returns 0 and writes the count of events to *count, the finished list to the room and zeros past it;
   or returns 9 (not a list of events: numbers that are no multiple of STABLEGLOW_EVENT, a sort outside 1..4, a depth that is not the
   counted one, or a place with more ends than begins before it), 10 (an ERROR end or begin without its other) or 7 (no room),
   with 0 in *count and the room as it was lent. The count has 32 bits; one that needs more takes a list of 80 GiB.
   The two lists must not overlap. */
uint32_t stableglow_merge(const uint32_t *events, size_t events_len, uint32_t *room, size_t room_len, uint32_t *count);

/* Writes the message of the error record that the numbers begin with, as text for people (UTF-8), into the room. The record is one that
   stableglow_read wrote for this source: start, end, form, item, count of names, names, and in form 9 the place. The item, and numbers behind
   the record, are not looked at.
   Returns 0 and writes the count of bytes to *length, the text to the front of the room and zeros behind it; or returns 11 (a record
   that does not read: cut short; a span that is none in the source; a form outside 1..10; a count that its form does not have; a number
   that is no name, or one twice; quoted text that is empty or not UTF-8; form 3 with a span that is not empty) or 12 (the text has no
   room), with 0 in *length and the room as it was lent. A record that stableglow_read wrote for this source is never refused 11.
   The room must not overlap the source or the numbers. */
uint32_t stableglow_message(const uint8_t *source, size_t source_len, const uint32_t *numbers, size_t numbers_len, uint8_t *room,
                            size_t room_len, uint32_t *length);

/* Lists the rules of an event list, the reader's or a merged one, into the room: eight numbers for each RULE_DECL node, in file order of
   their begins: name start, name end, start, end, counts of META_DEF nodes, PATTERN_DEF nodes and IDENT rows in RULE_TAGS inside it, and 1
   where an ERROR node lies inside it, else 0. A rule that closed as ERROR is none; a name used twice is listed twice.
   Returns 0 and writes the count of rules to *count and zeros past the list;
   or returns 9 (not a list of events, as stableglow_merge has it), 15 (the events do not nest, or more than 1,026 nodes are open, or a rule
   has no name) or 14 (no room), with 0 in *count and the room as it was lent. What the reader wrote, merged or not, is never refused 9 or
   15: hand on as many events as it counted. The two lists must not overlap. */
uint32_t stableglow_rules(const uint32_t *events, size_t events_len, uint32_t *room, size_t room_len, uint32_t *count);

/* Lists the nodes below the one that the event at index `at` (from 0) opens, to a depth, into the room: kind, start, end and depth of each,
   a node before those below it. The node's children have depth 1; depth 0 lists nothing.
   Returns 0 and writes the count of nodes to *count and zeros past the list; or a number as stableglow_rules does, and 15 also where no node
   is opened at that index, with 0 in *count and the room as it was lent. The two lists must not overlap. */
uint32_t stableglow_outline(const uint32_t *events, size_t events_len, size_t at, uint32_t depth, uint32_t *room, size_t room_len,
                            uint32_t *count);

#ifdef __cplusplus
}
#endif

#endif
