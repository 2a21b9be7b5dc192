/* The printed list once more, written for checking: over the calls of reference.c, and with another way to read a line. A line is taken for what
 * a loose scan makes of it, printed again in the one form that Listing 5 to 8 allow, and accepted if that gives the very same bytes.
 *
 *   list_reference < calls            prints their list
 *   list_reference narrow < calls     the same on a narrow table (Listing 18); it has no M
 *   list_reference SEED LINES         prints a list of calls, most of them readable
 *   list_reference SEED LINES plain   the same without M */
#include "reference.h"

#include <stdio.h>
#include <stdlib.h>
#include <string.h>

enum { LIMIT = 60000, LONGEST = 40, HOPS = 9 };

/* The calls on a table of one kind, and its length. Without M there is no fold. */
struct kind {
    size_t bytes;
    uint16_t (*make)(uint8_t *, size_t, uint16_t);
    uint16_t (*block)(uint8_t *, size_t, uint16_t, uint16_t);
    uint16_t (*unblock)(uint8_t *, size_t, uint16_t, uint16_t);
    uint16_t (*arm)(uint8_t *, size_t, uint16_t, uint16_t);
    uint16_t (*disarm)(uint8_t *, size_t, uint16_t, uint16_t);
    maze_opened (*open)(uint8_t *, size_t, uint16_t, uint16_t, uint16_t, uint16_t, uint16_t);
    uint16_t (*close)(uint8_t *, size_t, uint16_t, uint16_t);
    maze_traced (*trace)(const uint8_t *, size_t, uint16_t, uint16_t, uint8_t *, size_t);
    uint16_t (*fold)(uint8_t *, size_t, uint16_t);
};

static const struct kind wide = {14338,         ref_wide_make, ref_wide_block, ref_wide_unblock, ref_wide_arm, ref_wide_disarm,
                                 ref_wide_open, ref_wide_close, ref_wide_trace, ref_wide_fold};
static const struct kind narrow = {8705, ref_make, ref_block, ref_unblock, ref_arm, ref_disarm, ref_open, ref_close, ref_trace, NULL};
static const struct kind *on = &wide;
static uint8_t table[14338];

struct line {
    char letter;
    unsigned long number[5];
};

static unsigned wanted(char letter) {
    switch (letter) {
    case 'F': return 1;
    case 'M': return on->fold ? 1 : 0;
    case 'B': case 'E': case 'C': case 'R': case 'D': return 2;
    case 'S': return 5;
    default: return 0;
    }
}

static int read_line(const char *bytes, size_t length, struct line *line) {
    char text[LONGEST + 1], again[128];
    size_t at;
    if (length > LONGEST || length == 0) return 0;
    memcpy(text, bytes, length);
    text[length] = 0;
    line->letter = text[0];
    if (wanted(text[0]) == 0) return 0;
    char *rest = text + 1;
    for (unsigned i = 0; i < wanted(text[0]); i++) line->number[i] = strtoul(rest, &rest, 10);
    at = (size_t)snprintf(again, sizeof again, "%c", text[0]);
    for (unsigned i = 0; i < wanted(text[0]); i++) {
        if (line->number[i] > 65535) return 0;
        at += (size_t)snprintf(again + at, sizeof again - at, " %lu", line->number[i]);
    }
    return at == length && memcmp(again, bytes, length) == 0;
}

static void print_path(uint16_t node, uint16_t channel) {
    uint8_t ports[HOPS];
    maze_traced traced = on->trace(table, on->bytes, node, channel, ports, HOPS);
    for (unsigned i = 0; i < traced.hops; i++) {
        if (ports[i] > 9) putchar("abcdefgh"[ports[i] - 10]);
        else printf("%u", ports[i]);
    }
}

static void answer(unsigned number, const char *bytes, size_t length) {
    struct line line = {0};
    if (!read_line(bytes, length, &line)) {
        printf("%u - 20 - - - - -\n", number);
        return;
    }
    uint16_t a = (uint16_t)line.number[0], b = (uint16_t)line.number[1], c = (uint16_t)line.number[2], d = (uint16_t)line.number[3],
             e = (uint16_t)line.number[4];
    printf("%u %c ", number, line.letter);
    switch (line.letter) {
    case 'F': printf("%u - - - - -\n", on->make(table, on->bytes, a)); break;
    case 'B': printf("%u %u - - - %u\n", on->block(table, on->bytes, a, b), a, b); break;
    case 'E': printf("%u %u - - - %u\n", on->unblock(table, on->bytes, a, b), a, b); break;
    case 'C': printf("%u %u %u - - -\n", on->close(table, on->bytes, a, b), a, b); break;
    case 'R': printf("%u %u %u - - -\n", on->arm(table, on->bytes, a, b), a, b); break;
    case 'D': printf("%u %u %u - - -\n", on->disarm(table, on->bytes, a, b), a, b); break;
    case 'M': printf("%u - - - - -\n", on->fold(table, on->bytes, a)); break;
    default: {
        maze_opened opened = on->open(table, on->bytes, a, b, c, d, e);
        printf("%u %u %u ", opened.number, a, b);
        if (opened.number == 0) {
            printf("%u %lu ", opened.receive, (unsigned long)opened.scouts);
            print_path(a, b);
            printf("\n");
        } else if (opened.number == 10 || opened.number == 11 || opened.number == 22) {
            printf("- %lu -\n", (unsigned long)opened.scouts);
        } else {
            printf("- - -\n");
        }
    }
    }
}

static void list(void) {
    static char input[LIMIT + 1];
    size_t length = fread(input, 1, sizeof input, stdin), from = 0;
    unsigned number = 1;
    if (length > LIMIT) {
        printf("too long\n");
        return;
    }
    printf("line call answer node channel receive scouts ports\n");
    on->make(table, on->bytes, 1);
    while (from < length) {
        const char *newline = memchr(input + from, '\n', length - from);
        size_t end = newline ? (size_t)(newline - input) : length;
        answer(number++, input + from, end - from);
        from = end + 1;
    }
}

/* ---- lists of calls ---- */

static uint64_t state;

static unsigned below(unsigned n) {
    state = state * 6364136223846793005u + 1442695040888963407u;
    return (unsigned)(state >> 33) % n;
}

/* A number below a bound; now and then one at it or just above, or any of 16 bits. */
static unsigned some(unsigned bound) {
    if (below(20) != 0) return below(bound);
    return below(2) == 0 ? bound + below(3) : below(65536);
}

/* A mask, mostly of dimensions that the cube has. In the large cubes it has few bits: the reference lists every path, and each bit nearly doubles them. */
static unsigned some_mask(unsigned dimension) {
    unsigned mask = below(1u << dimension);
    if (below(20) == 0) return below(2) == 0 ? mask + (1u << dimension) : below(65536) | 1u << dimension;
    for (unsigned most = dimension < 7 ? 8 : 9 - dimension; __builtin_popcount(mask) > (int)most;) mask &= mask - 1;
    return mask;
}

/* A port of the cube, a partner of one, or another number. */
static unsigned some_port(unsigned dimension) {
    unsigned port = some(dimension);
    return port < dimension && below(3) == 0 ? 17 - port : port;
}

/* A channel of the target is armed before most opens; what is disarmed is mostly of the last target. Many opens are from the last source, and many links
 * that are blocked lead out of it. */
static void generate(unsigned lines, int plain) {
    static const unsigned types[] = {0, 0, 1, 3, 4, 4};
    unsigned dimension = 1 + below(8), source = 0, target = 0;
    printf("F %u\n", dimension);
    for (unsigned i = 1; i < lines; i++) {
        unsigned nodes = 1u << dimension;
        switch (below(plain ? 13 : 14)) {
        case 0: printf("B %u %u\n", below(3) == 0 ? some(nodes) : source, plain ? some(dimension) : some_port(dimension)); break;
        case 1: printf("E %u %u\n", some(nodes), plain ? some(dimension) : some_port(dimension)); break;
        case 2: case 3: case 4: printf("C %u %u\n", some(nodes), some(8)); break;
        case 5: if (below(30) == 0) printf("F %u\n", dimension = 1 + below(8)); else printf("S 0%u 0 0 0 1\n", below(9)); break;
        case 6: {
            static const char *const odd[] = {"", " ", "F", "C 0", "C 0 0 0", "s 0 0 0 0 1", "B 0  0", "E 0 0 ", "F\t1", "F 65536", "F 01", "F -1",
                                              "R 0", "D 3", "D 0 0 0", "r 0 0", "R 0 08", "M", "M 1 1", "M 01", "m 1", "M 65536"};
            printf("%s\n", odd[below(sizeof odd / sizeof *odd)]);
            break;
        }
        case 7: printf("%c %u %u\n", below(3) == 0 ? 'R' : 'D', below(3) == 0 ? some(nodes) : target, some(8)); break;
        case 13: printf("M %u\n", some_mask(dimension)); break;
        default:
            if (below(2) == 0) source = some(nodes);
            target = some(nodes);
            if (below(4) != 0) printf("R %u %u\n", target, some(8)), i++;
            printf("S %u %u %u %u %u\n", source, some(8), target, below(12) == 0 ? 2 + below(7) : types[below(6)], below(10) == 0 ? 0 : some(nodes));
        }
    }
}

int main(int count, char **words) {
    if (count >= 3) {
        state = strtoul(words[1], NULL, 10) * 2654435761ul + 1;
        generate((unsigned)strtoul(words[2], NULL, 10), count == 4);
    } else {
        if (count == 2) on = &narrow;
        list();
    }
    return 0;
}
