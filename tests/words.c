/* Command words from C: every one of the 65,536 words read, and every command written with every carried number, beside a
 * check written separately from Words 3 and from the patent's patterns of status bits. */
#include "expect.h"

#include <maze.h>

/* The patent's command list, a row for each command: the pattern of its six status bits, where x is ignored and s says something;
 * NULL where the command is reserved. */
static const char *const pattern[16] = {
    "xxxxxx", "xxxxxx", "xxxxxx", NULL, "xxxxxs", "xxxxxx", "ssssss", "ssssss",
    "xxxxxx", "xxxxxs", NULL, NULL, "xxxxxx", "xxxxxx", "xxxxxs", NULL,
};

/* The status bits that a command carries, as a mask. */
static unsigned carried_mask(unsigned command) {
    unsigned mask = 0;
    for (int i = 0; i < 6; i++) mask = mask << 1 | (pattern[command][i] == 's');
    return mask;
}

static unsigned read_number(unsigned word) {
    if (word >= 1u << 12) return 15;
    unsigned type = word >> 10, command = word >> 6 & 15;
    if (!(type & 2)) return 16;
    if ((type & 1) != command >> 3) return 17;
    if (!pattern[command]) return 18;
    return 0;
}

/* The 64 words that differ in their status alone. */
static void read_statuses(unsigned first) {
    int good = 1;
    for (unsigned word = first; word < first + 64; word++) {
        maze_word_read_answer got = maze_word_read((uint16_t)word);
        unsigned number = read_number(word), command = 0, carried = 0;
        if (number == 0) {
            command = word >> 6 & 15;
            carried = word & carried_mask(command);
        }
        good &= got.number == number && got.command == command && got.carried == carried;
        if (number == 0) {
            maze_word_written back = maze_word_write(got.command, got.carried);
            good &= back.number == 0 && back.word == ((word & ~63u) | carried);
        }
    }
    expect(good, "read words from", first, 0);
}

static void write_every_pair(unsigned command) {
    int good = 1;
    for (unsigned carried = 0; carried < 65536; carried++) {
        maze_word_written got = maze_word_write((uint16_t)command, (uint16_t)carried);
        unsigned number = 0, word = 0;
        if (command > 15 || !pattern[command]) number = 18;
        else if (carried & ~carried_mask(command)) number = 19;
        else word = (command < 8 ? 2u : 3u) << 10 | command << 6 | carried;
        good &= got.number == number && got.word == word;
        if (number == 0) {
            maze_word_read_answer back = maze_word_read(got.word);
            good &= back.number == 0 && back.command == command && back.carried == carried;
        }
    }
    expect(good, "write command", command, 0);
}

/* Every command above 15, with a few carried numbers: reserved, each of them. */
static void write_high_commands(void) {
    static const uint16_t carried[] = {0, 1, 7, 63, 64, 65535};
    int good = 1;
    for (unsigned command = 16; command < 65536; command++)
        for (unsigned i = 0; i < sizeof carried / sizeof *carried; i++) {
            maze_word_written got = maze_word_write((uint16_t)command, carried[i]);
            good &= got.number == 18 && got.word == 0;
        }
    expect(good, "write high commands", 16, 65535);
}

int main(void) {
    for (unsigned first = 0; first < 65536; first += 64) read_statuses(first);
    for (unsigned command = 0; command < 64; command++) write_every_pair(command);
    for (unsigned command = 64; command < 65536; command += 4091) write_every_pair(command);
    write_high_commands();
    return verdict();
}
