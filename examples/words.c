/* Says what command words mean: each argument is a word, a number of decimal digits, as a board stored it. Ends with status 1 if an argument is no number
 * from 0 to 65535, or if writing fails; a word that cannot be read is an answer like any other. */
#include <maze.h>
#include <ctype.h>
#include <stdio.h>

/* Reads digits and nothing else. Answers the number, or 65536 for what is none from 0 to 65535. */
static unsigned long number_of(const char *text) {
    unsigned long number = 0;
    if (*text == '\0') return 65536;
    for (; *text != '\0' && number <= 65535; text++) number = isdigit((unsigned char)*text) ? 10 * number + (unsigned long)(*text - '0') : 65536;
    return number <= 65535 ? number : 65536;
}

static void say(unsigned word, maze_word_read_answer read) {
    unsigned carried = read.carried;
    if (read.number != MAZE_ACCEPTED)
        printf("%u: refused as %u, %s\n", word, (unsigned)read.number, maze_refusal_text(read.number));
    else if (read.command == MAZE_END_TO_END_NOT_ACKNOWLEDGED)
        printf("%u: %s, code %u, error %u\n", word, maze_word_text(read.command, carried), carried / MAZE_STATUS_CODE_PLACE, carried % MAZE_STATUS_CODE_PLACE);
    else
        printf("%u: %s, carrying %u\n", word, maze_word_text(read.command, carried), carried);
}

int main(int count, char **words) {
    int bad = 0;
    if (count < 2) {
        fprintf(stderr, "usage: words WORD ..\n");
        return 1;
    }
    for (int i = 1; i < count; i++) {
        unsigned long word = number_of(words[i]);
        if (word > 65535) {
            fprintf(stderr, "words: '%s' is not a number from 0 to 65535\n", words[i]);
            bad = 1;
            continue;
        }
        say((unsigned)word, maze_word_read((uint16_t)word));
    }
    if (ferror(stdout) || fflush(stdout) != 0) {
        fprintf(stderr, "words: writing failed\n");
        bad = 1;
    }
    return bad;
}
