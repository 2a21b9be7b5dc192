/* Books that are not well formed, each one step away from one that is: for lookups and for judging. */
#ifndef BOOKS_H
#define BOOKS_H

#include <stddef.h>

/* What the longest book takes, circuits 1 to 2048 of nine hops each, and one line more. */
enum { PORTS = 2048 * 9, INDEX = 2049 * 6 };

/* A line of the index: number, offset and length, two bytes each, low byte first. */
struct line {
    unsigned number, offset, length;
};

/* A book of circuits 5, 300 and 2048, of 2, 9 and 1 hops, 12 in all. */
static const struct line good_lines[] = {{5, 0, 2}, {300, 2, 9}, {2048, 11, 1}};

static const struct {
    const char *what;
    size_t ports_length, index_length;
    unsigned circuits, hops;
    struct line lines[3];
} bad_books[] = {
    {"an index one byte short", 12, 17, 3, 12, {{5, 0, 2}, {300, 2, 9}, {2048, 11, 1}}},
    {"no index", 12, 0, 3, 12, {{5, 0, 2}, {300, 2, 9}, {2048, 11, 1}}},
    {"ports one byte short", 11, 18, 3, 12, {{5, 0, 2}, {300, 2, 9}, {2048, 11, 1}}},
    {"no ports", 0, 18, 3, 12, {{5, 0, 2}, {300, 2, 9}, {2048, 11, 1}}},
    {"one circuit too many for the index", 12, 23, 4, 12, {{5, 0, 2}, {300, 2, 9}, {2048, 11, 1}}},
    {"one circuit too many", 12, INDEX, 4, 12, {{5, 0, 2}, {300, 2, 9}, {2048, 11, 1}}},
    {"one circuit too few", 12, 18, 2, 12, {{5, 0, 2}, {300, 2, 9}, {2048, 11, 1}}},
    /* six times 10,923 is 65,538, and six times 10,925 is 65,550: their low 16 bits are 2 and 14 */
    {"10,923 circuits", 12, 18, 10923, 12, {{5, 0, 2}, {300, 2, 9}, {2048, 11, 1}}},
    {"10,925 circuits", 12, 18, 10925, 12, {{5, 0, 2}, {300, 2, 9}, {2048, 11, 1}}},
    {"65,535 circuits", 12, 18, 65535, 12, {{5, 0, 2}, {300, 2, 9}, {2048, 11, 1}}},
    {"259 circuits", 12, INDEX, 259, 12, {{5, 0, 2}, {300, 2, 9}, {2048, 11, 1}}},
    {"one hop too many for the ports", 12, 18, 3, 13, {{5, 0, 2}, {300, 2, 9}, {2048, 11, 1}}},
    {"the last pair ends before the hops", PORTS, 18, 3, 13, {{5, 0, 2}, {300, 2, 9}, {2048, 11, 1}}},
    {"the last pair ends behind the hops", 12, 18, 3, 11, {{5, 0, 2}, {300, 2, 9}, {2048, 11, 1}}},
    {"268 hops", PORTS, 18, 3, 268, {{5, 0, 2}, {300, 2, 9}, {2048, 11, 1}}},
    {"65,535 hops", PORTS, 18, 3, 65535, {{5, 0, 2}, {300, 2, 9}, {2048, 11, 1}}},
    {"no hop", 12, 18, 3, 0, {{5, 0, 2}, {300, 2, 9}, {2048, 11, 1}}},
    {"no circuit and one hop", 12, 18, 0, 1, {{5, 0, 2}, {300, 2, 9}, {2048, 11, 1}}},
    {"no circuit and twelve hops", 12, 18, 0, 12, {{5, 0, 2}, {300, 2, 9}, {2048, 11, 1}}},
    {"number 0", 12, 18, 3, 12, {{0, 0, 2}, {300, 2, 9}, {2048, 11, 1}}},
    {"number 2,049", 12, 18, 3, 12, {{5, 0, 2}, {300, 2, 9}, {2049, 11, 1}}},
    {"number 65,535", 12, 18, 3, 12, {{5, 0, 2}, {300, 2, 9}, {65535, 11, 1}}},
    {"number 2,049 first", 2, 6, 1, 2, {{2049, 0, 2}, {0, 0, 0}, {0, 0, 0}}},
    {"equal numbers at first", 12, 18, 3, 12, {{300, 0, 2}, {300, 2, 9}, {2048, 11, 1}}},
    {"equal numbers at last", 12, 18, 3, 12, {{5, 0, 2}, {300, 2, 9}, {300, 11, 1}}},
    {"falling numbers at first", 12, 18, 3, 12, {{301, 0, 2}, {300, 2, 9}, {2048, 11, 1}}},
    {"falling numbers at last", 12, 18, 3, 12, {{5, 0, 2}, {300, 2, 9}, {299, 11, 1}}},
    {"rising low bytes", 12, 18, 3, 12, {{256, 0, 2}, {5, 2, 9}, {2048, 11, 1}}},
    {"length 0 at first", 12, 18, 3, 10, {{5, 0, 0}, {300, 0, 9}, {2048, 9, 1}}},
    {"length 0 between", 12, 18, 3, 3, {{5, 0, 2}, {300, 2, 0}, {2048, 2, 1}}},
    {"length 0 at last", 12, 18, 3, 11, {{5, 0, 2}, {300, 2, 9}, {2048, 11, 0}}},
    {"length 0 alone", 12, 18, 1, 0, {{5, 0, 0}, {300, 0, 9}, {2048, 9, 1}}},
    {"length 10 at first", PORTS, 18, 3, 20, {{5, 0, 10}, {300, 10, 9}, {2048, 19, 1}}},
    {"length 10 between", PORTS, 18, 3, 13, {{5, 0, 2}, {300, 2, 10}, {2048, 12, 1}}},
    {"length 10 at last", PORTS, 18, 3, 21, {{5, 0, 2}, {300, 2, 9}, {2048, 11, 10}}},
    {"length 257", PORTS, 18, 3, 268, {{5, 0, 2}, {300, 2, 9}, {2048, 11, 257}}},
    {"length 65,535", PORTS, 18, 3, 10, {{5, 0, 2}, {300, 2, 9}, {2048, 11, 65535}}},
    {"a gap of one byte", PORTS, 18, 3, 13, {{5, 0, 2}, {300, 3, 9}, {2048, 12, 1}}},
    {"a gap before the last", PORTS, 18, 3, 13, {{5, 0, 2}, {300, 2, 9}, {2048, 12, 1}}},
    {"an overlap of one byte", PORTS, 18, 3, 11, {{5, 0, 2}, {300, 1, 9}, {2048, 10, 1}}},
    {"an overlap at the last", PORTS, 18, 3, 11, {{5, 0, 2}, {300, 2, 9}, {2048, 10, 1}}},
    {"the first offset 1", PORTS, 18, 3, 13, {{5, 1, 2}, {300, 3, 9}, {2048, 12, 1}}},
    {"the first offset 256", PORTS, 18, 3, 12, {{5, 256, 2}, {300, 2, 9}, {2048, 11, 1}}},
    {"the first offset 65,535", PORTS, 18, 3, 11, {{5, 65535, 2}, {300, 1, 9}, {2048, 10, 1}}},
    {"offsets that are not in order", 12, 18, 3, 12, {{5, 10, 2}, {300, 1, 9}, {2048, 0, 1}}},
    {"one pair twice", 12, 18, 3, 12, {{5, 0, 2}, {300, 2, 9}, {2048, 2, 1}}},
};

#endif
