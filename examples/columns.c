/* The columns of the printed list over a saved table: makes the calls of standard input on the table in a file, narrow or wide, and prints of each what maze_list would, however long the input is.
 *
 *     columns FILE < calls > list
 *
 * Where there is no such file it begins as maze_list does, with a made table of dimension 1, here a narrow one; a narrow table becomes wide by the first call that folds a dimension. The table is
 * saved once, when all calls are made and the list is written: a run that is stopped leaves the file as it was, and can be made again. Another process that has the file is told, and nothing is done. The status is 0 only if the list is whole and the table saved. */
#define _XOPEN_SOURCE 700
#include "table_file.h"

enum { LONGEST = 40, MOST_NUMBERS = 5 };

static struct any_table table = {MAZE_TABLE_BYTES, {0}};

/* The letter and the numbers of a line: decimal, 0 to 65535, no leading zeros, one space between fields. Answers how many numbers there are, or -1. */
static int read_call(const char *line, size_t length, char *letter, uint16_t *numbers) {
    size_t at = 1;
    int count = 0;
    if (length == 0 || length > LONGEST) return -1;
    *letter = line[0];
    while (at < length) {
        unsigned long number = 0;
        size_t digits = 0;
        if (line[at] != ' ' || count == MOST_NUMBERS) return -1;
        for (at++; at < length && line[at] >= '0' && line[at] <= '9' && digits < 6; at++, digits++) number = 10 * number + (unsigned long)(line[at] - '0');
        if (digits == 0 || number > 65535 || (digits > 1 && line[at - digits] == '0')) return -1;
        numbers[count++] = (uint16_t)number;
    }
    return count;
}

static int numbers_of(char letter) {
    return letter == 'F' || letter == 'M' ? 1 : letter == 'S' ? 5 : letter != '\0' && strchr("BERDC", letter) ? 2 : -1;
}

static void put_opened(unsigned long line, const uint16_t *n) {
    maze_opened opened = ANY_CALL(&table, open, n[0], n[1], n[2], n[3], n[4]);
    uint8_t ports[MAZE_TRACE_BYTES];
    maze_traced traced = {0, 0};
    printf("%lu S %u %u %u ", line, (unsigned)opened.number, (unsigned)n[0], (unsigned)n[1]);
    if (opened.number == MAZE_ACCEPTED) {
        traced = ANY_CALL(&table, trace, n[0], n[1], ports, sizeof ports);
        printf("%u ", (unsigned)opened.receive);
    } else printf("- ");
    if (opened.number == MAZE_ACCEPTED || opened.number >= MAZE_ROUTE_REJECTED) printf("%lu ", (unsigned long)opened.scouts);
    else printf("- ");
    for (unsigned hop = 0; hop < traced.hops; hop++) printf("%c", any_port_sign(ports[hop]));
    printf(traced.hops == 0 ? "-\n" : "\n");
}

/* Of a narrow table: as on the wide one that says the same, which takes its place where a dimension is folded. */
static unsigned fold(uint16_t mask) {
    static struct any_table other;
    unsigned number;
    if (any_is_wide(&table)) return maze_wide_fold(table.bytes, table.length, mask);
    other.length = MAZE_WIDE_TABLE_BYTES;
    number = maze_widen(table.bytes, table.length, other.bytes, other.length);
    if (number == MAZE_ACCEPTED) number = maze_wide_fold(other.bytes, other.length, mask);
    if (number == MAZE_ACCEPTED && mask != 0) table = other;
    return number;
}

static void put_call(unsigned long line, char letter, const uint16_t *n) {
    switch (letter) {
    case 'F': printf("%lu F %u - - - - -\n", line, (unsigned)ANY_CALL(&table, make, n[0])); break;
    case 'M': printf("%lu M %u - - - - -\n", line, fold(n[0])); break;
    case 'B': printf("%lu B %u %u - - - %u\n", line, (unsigned)ANY_CALL(&table, block, n[0], n[1]), (unsigned)n[0], (unsigned)n[1]); break;
    case 'E': printf("%lu E %u %u - - - %u\n", line, (unsigned)ANY_CALL(&table, unblock, n[0], n[1]), (unsigned)n[0], (unsigned)n[1]); break;
    case 'R': printf("%lu R %u %u %u - - -\n", line, (unsigned)ANY_CALL(&table, arm, n[0], n[1]), (unsigned)n[0], (unsigned)n[1]); break;
    case 'D': printf("%lu D %u %u %u - - -\n", line, (unsigned)ANY_CALL(&table, disarm, n[0], n[1]), (unsigned)n[0], (unsigned)n[1]); break;
    case 'C': printf("%lu C %u %u %u - - -\n", line, (unsigned)ANY_CALL(&table, close, n[0], n[1]), (unsigned)n[0], (unsigned)n[1]); break;
    default: put_opened(line, n); break;
    }
}

int main(int count, char **names) {
    struct table_file file;
    char line[LONGEST + 1];
    unsigned long number = 0;
    int c = 0;
    if (count != 2 || names[1][0] == '-') {
        fprintf(stderr, "usage: columns FILE < calls\n");
        return 2;
    }
    if (ANY_CALL(&table, make, 1) != MAZE_ACCEPTED) return 2;
    if (table_file_open(&file, names[1], &table) != TABLE_FILE_KEPT) {
        fprintf(stderr, "columns: %s: %s\n", names[1], file.why);
        return 1;
    }
    printf("line call answer node channel receive scouts ports\n");
    for (;;) {
        size_t length = 0;
        char letter = '\0';
        uint16_t numbers[MOST_NUMBERS];
        int given;
        while ((c = getchar()) != EOF && c != '\n') {
            if (length < sizeof line) line[length] = (char)c;
            if (length <= sizeof line) length++;
        }
        if (c == EOF && length == 0) break;
        number++;
        given = read_call(line, length, &letter, numbers);
        if (given >= 0 && given == numbers_of(letter)) put_call(number, letter, numbers);
        else printf("%lu - 20 - - - - -\n", number);
    }
    if (ferror(stdin) || ferror(stdout) || fflush(stdout) != 0) {
        fprintf(stderr, "columns: reading or writing failed, and %s stays as it was\n", names[1]);
        return 1;
    }
    if (!table_file_save(&file, &table)) {
        fprintf(stderr, "columns: %s cannot be written: %s\n", names[1], strerror(errno));
        return 1;
    }
    table_file_close(&file);
    return 0;
}
