/* A console: reads calls from standard input, one a line, makes them on the table of one cube, narrow or wide, and says what each answered.
 *
 *     console [FILE]
 *
 *     F dimension                          make a table
 *     B node port                          block a link
 *     E node port                          unblock a link
 *     R node channel                       arm a receive channel
 *     D node channel                       disarm a receive channel
 *     S node channel target type vector    open a circuit
 *     W node channel target type vector    why would that open be refused, and what would help?
 *     C node channel                       close a circuit
 *     X                                    make the table wide, or narrow again
 *     Y mask                               fold the dimensions of a wide table whose bits are set in the mask, and no others
 *     T node channel                       trace a circuit
 *     L                                    list the open circuits
 *     K                                    write the book of the open circuits
 *     G circuit                            look a circuit number up in the book as it was last written
 *     J                                    judge that book: whether the table could take its circuits now
 *     M                                    draw the map of links: . is free, x is blocked, a digit is the hop of the circuit that holds the link; a partner stands under its port
 *     M node channel                       draw it with the circuit of that send channel singled out; the links of the others are an o
 *     N                                    list the links and receive channels of each node, without colours
 *     U                                    list those of the nodes where something is held, blocked or armed
 *     help, quit
 *
 * Letters may be small. Numbers are decimal, hexadecimal as 0x1f or binary as 0b1011, and what stands behind a # is a remark. A circuit is written as its source and
 * send channel, its target and receive channel, and the ports of its path: 4.2 -> 7.1 ports 0 1. There the partners 10 to 17 of ports
 * 7 to 0 are a to h; everywhere else a port is a number. In the lists of N and U a link or a
 * receive channel that is held shows the source and send channel of its circuit. The map has colours where it goes to a terminal and NO_COLOR is not set.
 *
 * It starts from a made table of dimension 1; with a FILE, from the table saved there or, where there is none, with a file that it makes. Each call that changes the table
 * is in the file before its answer is printed, so nothing is lost where the console is stopped. While one console has a file, another one only looks at it.
 * It ends with status 1 if there was a line that it could not read or a change that it could not save, or if reading or writing failed, and with 2 if its arguments are wrong.
 *
 * At a terminal it asks for each call; compiled with -DMAZE_EDITLINE and -ledit, or with -DMAZE_READLINE and -lreadline, lines can be edited there. */
#define _XOPEN_SOURCE 700
#include <maze_explain.h>
#include "map_text.h"
#include "table_file.h"
#include <ctype.h>
#if defined MAZE_EDITLINE
#include <editline/readline.h>
#elif defined MAZE_READLINE
#include <readline/history.h>
#include <readline/readline.h>
#endif

enum { LINE_BYTES = 160, MOST_NUMBERS = 5 };
static const char prompt[] = "maze> ";

static struct any_table table = {MAZE_TABLE_BYTES, {0}};

/* Where the table is kept, if a file was named. */
static const char *name;
static struct table_file file;
static enum { NOT_KEPT, KEPT, LOOKS } kept;

static int at_terminal, bad;

/* The book as it was last written, which later calls on the table do not change; at first it has no circuit. */
static uint8_t book_ports[MAZE_WIDE_LINKS_LARGEST], book_index[MAZE_BOOK_LINE_BYTES * MAZE_CIRCUITS_LARGEST];
static maze_booked book;

static const struct form {
    char letter;
    int numbers;
    const char *names, *does;
    int changes; /* the table */
} forms[] = {
    {'F', 1, "dimension", "make a table", 1},
    {'B', 2, "node port", "block a link", 1},
    {'E', 2, "node port", "unblock a link", 1},
    {'R', 2, "node channel", "arm a receive channel", 1},
    {'D', 2, "node channel", "disarm a receive channel", 1},
    {'S', 5, "node channel target type vector", "open a circuit", 1},
    {'W', 5, "node channel target type vector", "why would that open be refused, and what would help", 0},
    {'C', 2, "node channel", "close a circuit", 1},
    {'X', 0, "nothing", "make the table wide, or narrow again", 1},
    {'Y', 1, "mask", "fold these dimensions of a wide table, and no others", 1},
    {'T', 2, "node channel", "trace a circuit", 0},
    {'L', 0, "nothing", "list the open circuits", 0},
    {'K', 0, "nothing", "write the book of the open circuits", 0},
    {'G', 1, "circuit", "look a circuit number up in the book", 0},
    {'J', 0, "nothing", "judge the book: could the table take its circuits", 0},
    {'M', 0, "nothing, or node channel", "draw the map of links, with one circuit singled out", 0},
    {'N', 0, "nothing", "list the links and receive channels of each node", 0},
    {'U', 0, "nothing", "list those where something is held, blocked or armed", 0},
};
enum { FORMS = sizeof forms / sizeof *forms };

static void help(void) {
    for (int i = 0; i < FORMS; i++) printf("%c %-33s %s\n", forms[i].letter, forms[i].numbers == 0 && forms[i].letter != 'M' ? "" : forms[i].names, forms[i].does);
    printf("help, quit\ntypes: 0 every path of the vector, 1 its helix paths, 3 the helix path of its lowest port, 4 as 0 and then the other ports\n"
           "vector: bit p for port p, as 7, 0x7 or 0b111, and so is a mask; behind a # stands a remark\n"
           "port 17 - p is the partner of port p where dimension p is folded; in a path the ports 10 to 17 are a to h\n");
}

/* What a call answered that gives its number alone. */
static void say(unsigned number, const char *done) {
    if (number == MAZE_ACCEPTED) printf("%s\n", done);
    else printf("refused as %u, %s\n", number, maze_refusal_text(number));
}

/* An open circuit, whose receive channel is numbered as send channels are. */
static void say_circuit(unsigned circuit, unsigned receive) {
    uint16_t node = (uint16_t)maze_circuit_node(circuit), channel = (uint16_t)maze_circuit_channel(circuit);
    uint8_t ports[MAZE_TRACE_BYTES];
    maze_traced traced = ANY_CALL(&table, trace, node, channel, ports, sizeof ports);
    printf("%u.%u -> %u.%u ports", (unsigned)node, (unsigned)channel, maze_circuit_node(receive), maze_circuit_channel(receive));
    for (unsigned hop = 0; hop < traced.hops; hop++) printf(" %c", any_port_sign(ports[hop]));
    printf("\n");
}

/* As `say`; and where a circuit stands in the way, which one. */
static void say_holder(unsigned number, const char *done, unsigned circuit) {
    if (number != MAZE_CHANNEL_IN_USE && number != MAZE_LINK_HELD && number != MAZE_CHANNEL_HELD) {
        say(number, done);
        return;
    }
    printf("refused as %u, %s: ", number, maze_refusal_text(number));
    say_circuit(circuit, ANY_READ(&table, circuit_receive, circuit));
}

static void say_traced(uint16_t node, uint16_t channel) {
    uint8_t ports[MAZE_TRACE_BYTES];
    unsigned number = ANY_CALL(&table, trace, node, channel, ports, sizeof ports).number, circuit = maze_circuit(node, channel);
    if (number == MAZE_ACCEPTED) say_circuit(circuit, ANY_READ(&table, circuit_receive, circuit));
    else say(number, "");
}

/* An open that the search refused, so by number 10 or above, carries the scouts. */
static void say_opened(maze_opened opened, uint16_t node, uint16_t channel) {
    if (opened.number == MAZE_ACCEPTED) {
        printf("opened after %lu scout%s: ", (unsigned long)opened.scouts, opened.scouts == 1 ? "" : "s");
        say_traced(node, channel);
    } else if (opened.number >= MAZE_ROUTE_REJECTED) {
        printf("refused as %u after %lu scout%s, %s\n", (unsigned)opened.number, (unsigned long)opened.scouts, opened.scouts == 1 ? "" : "s", maze_refusal_text(opened.number));
    } else {
        say_holder(opened.number, "", maze_circuit(node, channel));
    }
}

/* The bits of a mask, as numbers. */
static void say_bits(const char *before, unsigned mask) {
    if (mask == 0) return;
    printf("%s", before);
    for (unsigned bit = 0; bit < 32; bit++)
        if (mask >> bit & 1) printf(" %u", bit);
    printf("\n");
}

/* Whether a receive channel of a node is armed and not held. */
static int has_idle(unsigned node) {
    for (unsigned channel = 0; channel < MAZE_CHANNELS; channel++)
        if (any_receive_armed(&table, node, channel) && any_receive_circuit(&table, node, channel) == 0) return 1;
    return 0;
}

/* Why an open would be refused, and each single thing that would have it acknowledged. */
static void say_why(const uint16_t *n) {
    enum { MOST = 12 };
    uint16_t closes[MOST];
    maze_explained_link repairs[MOST];
    maze_explained told = ANY_CALL(&table, explain, n[0], n[1], n[2], n[3], n[4]);
    unsigned close_count = ANY_CALL(&table, explain_closes, n[0], n[1], n[2], n[3], n[4], closes, MOST);
    unsigned repair_count = ANY_CALL(&table, explain_repairs, n[0], n[1], n[2], n[3], n[4], repairs, MOST);
    maze_opened opened = {0, 0, 0, 0};
    if (told.number == MAZE_ACCEPTED) {
        printf("would be opened after %lu scout%s\n", (unsigned long)told.scouts, told.scouts == 1 ? "" : "s");
        return;
    }
    opened.number = told.number;
    opened.scouts = told.scouts;
    say_opened(opened, n[0], n[1]);
    if (told.held + told.blocked != 0) printf("scouts turned back at %u held and %u blocked links\n", (unsigned)told.held, (unsigned)told.blocked);
    if (told.nearest_circuit != 0) {
        printf("the nearest held one, node %u port %u, is of ", (unsigned)told.nearest.node, (unsigned)told.nearest.port);
        say_circuit(told.nearest_circuit, ANY_READ(&table, circuit_receive, told.nearest_circuit));
    }
    if (told.number == MAZE_RECEIVE_REJECTED)
        for (unsigned channel = 0; channel < MAZE_CHANNELS; channel++) {
            unsigned holder = any_receive_circuit(&table, n[2], channel);
            if (holder == 0) continue;
            printf("receive channel %u is held by ", channel);
            say_circuit(holder, maze_circuit(n[2], channel));
        }
    for (unsigned i = 0; i < close_count && i < MOST; i++) {
        unsigned receive = ANY_READ(&table, circuit_receive, closes[i]);
        printf("%s%u.%u", i ? ", " : "closing one of these would help: ", maze_circuit_node(closes[i]), maze_circuit_channel(closes[i]));
        if (maze_circuit_node(receive) == n[2] && !has_idle(n[2])) printf(" (and arming %u.%u again)", maze_circuit_node(receive), maze_circuit_channel(receive));
    }
    if (close_count > MOST) printf(" and %u more", close_count - MOST);
    if (close_count != 0) printf("\n");
    for (unsigned i = 0; i < repair_count && i < MOST; i++)
        printf("%snode %u port %u", i ? ", " : "unblocking one of these links would help: ", (unsigned)repairs[i].node, (unsigned)repairs[i].port);
    if (repair_count > MOST) printf(" and %u more", repair_count - MOST);
    if (repair_count != 0) printf("\n");
    say_bits(told.number == MAZE_RECEIVE_REJECTED ? "arming one of these receive channels of the target would help:"
                                                  : "no receive channel of the target is armed and not held; one of these has to be armed besides:", told.arms);
    say_bits("it would be opened from each of these send channels:", told.channels);
    say_bits("it would be opened with each of these types:", told.types);
    say_bits("it would be opened with type 0 and each of these ports in the vector:", told.ports);
    if (told.number >= MAZE_CHANNEL_IN_USE && close_count + repair_count == 0 && (told.channels | told.types | told.ports) == 0 && (told.number != MAZE_RECEIVE_REJECTED || told.arms == 0)) printf("no single change would help\n");
}

static void say_booked(void) {
    maze_booked booked = ANY_CALL(&table, book, book_ports, sizeof book_ports, book_index, sizeof book_index);
    if (booked.number != MAZE_ACCEPTED) {
        say(booked.number, "");
        return;
    }
    book = booked;
    printf("book: circuits %u, hops %u\n", (unsigned)book.circuits, (unsigned)book.hops);
}

static void say_found(uint16_t circuit) {
    uint8_t ports[MAZE_TRACE_BYTES];
    maze_traced found = maze_book_lookup(book_ports, sizeof book_ports, book_index, sizeof book_index, book.circuits, book.hops, circuit, ports, sizeof ports);
    if (found.number != MAZE_ACCEPTED) {
        /* the channel may have a circuit by now: it is the book that has none */
        if (found.number == MAZE_NO_CIRCUIT) printf("refused as %u, the book has no circuit of this number\n", (unsigned)found.number);
        else say(found.number, "");
        return;
    }
    printf("%u.%u ports", maze_circuit_node(circuit), maze_circuit_channel(circuit));
    for (unsigned hop = 0; hop < found.hops; hop++) printf(" %c", any_port_sign(ports[hop]));
    printf("\n");
}

static void say_judged(void) {
    unsigned number = ANY_CALL(&table, judge, book_ports, sizeof book_ports, book_index, sizeof book_index, book.circuits, book.hops);
    printf("book: ");
    say(number, "accepted");
}

/* The open circuits by source and send channel; a walk over the receive channels meets each of them once. */
static void list_circuits(void) {
    static unsigned receive_of[MAZE_CIRCUIT(MAZE_NODES - 1, MAZE_CHANNELS - 1) + 1];
    const unsigned circuits = sizeof receive_of / sizeof *receive_of;
    unsigned count = 0;
    memset(receive_of, 0, sizeof receive_of);
    for (unsigned node = 0; node < any_node_count(&table); node++)
        for (unsigned channel = 0; channel < MAZE_CHANNELS; channel++) {
            unsigned circuit = any_receive_circuit(&table, node, channel);
            if (circuit == 0) continue;
            receive_of[circuit] = maze_circuit(node, channel);
            count++;
        }
    printf("open circuits: %u\n", count);
    for (unsigned circuit = 1; circuit < circuits; circuit++)
        if (receive_of[circuit] != 0) say_circuit(circuit, receive_of[circuit]);
}

/* Whether nothing of a node is held, blocked or armed. */
static int is_untouched(unsigned node) {
    for (unsigned port = 0; port < MAZE_WIDE_PORTS; port++)
        if (any_has_port(&table, port) && (any_link_circuit(&table, node, port) != 0 || !any_link_enabled(&table, node, port))) return 0;
    for (unsigned channel = 0; channel < MAZE_CHANNELS; channel++)
        if (any_receive_armed(&table, node, channel)) return 0;
    return 1;
}

/* The circuit that holds something, or else a word. */
static void draw_circuit(unsigned circuit, const char *otherwise, int width) {
    char text[16] = "";
    if (circuit != 0) snprintf(text, sizeof text, "%u.%u", maze_circuit_node(circuit), maze_circuit_channel(circuit));
    printf("%*s", width, circuit != 0 ? text : otherwise);
}

/* The dimensions that are folded, where there are any. */
static void say_folded(void) {
    if (any_fold_mask(&table) == 0) return;
    printf(", folded:");
    for (unsigned port = 0; port < any_dimension(&table); port++)
        if (any_fold_mask(&table) >> port & 1) printf(" %u", port);
}

static void draw_link(unsigned node, unsigned port) {
    draw_circuit(any_link_circuit(&table, node, port), any_link_enabled(&table, node, port) ? "." : "x", 6);
}

/* A line for each node: its links by port, each partner beside its port, where . is free and x is blocked; then the receive channels that are armed, each with . where it is not held. */
static void list_nodes(int whole) {
    unsigned dimension = any_dimension(&table), left_out = 0;
    printf("nodes of dimension %u", dimension);
    say_folded();
    printf("\nnode ");
    for (unsigned port = 0; port < dimension; port++) {
        printf("%5s%u", "p", port);
        if (any_has_port(&table, maze_wide_partner(port))) printf("%4s%u", "p", maze_wide_partner(port));
    }
    printf("  receive\n");
    for (unsigned node = 0; node < any_node_count(&table); node++) {
        if (!whole && is_untouched(node)) {
            left_out++;
            continue;
        }
        printf("%4u ", node);
        for (unsigned port = 0; port < dimension; port++) {
            draw_link(node, port);
            if (any_has_port(&table, maze_wide_partner(port))) draw_link(node, maze_wide_partner(port));
        }
        for (unsigned channel = 0, shown = 0; channel < MAZE_CHANNELS; channel++) {
            if (!any_receive_armed(&table, node, channel)) continue;
            printf("%s%u:", shown++ ? " " : "  ", channel);
            draw_circuit(any_receive_circuit(&table, node, channel), ".", 0);
        }
        printf("\n");
    }
    if (left_out != 0) printf("and %u nodes where nothing is held, blocked or armed\n", left_out);
}

/* The map, or that with one circuit singled out. */
static void say_map(const uint16_t *n, int given) {
    const char *no_colours = getenv("NO_COLOR");
    unsigned only = 0;
    if (given == 2) {
        uint8_t ports[MAZE_TRACE_BYTES];
        unsigned number = ANY_CALL(&table, trace, n[0], n[1], ports, sizeof ports).number;
        if (number != MAZE_ACCEPTED) {
            say(number, "");
            return;
        }
        only = maze_circuit(n[0], n[1]);
        say_circuit(only, ANY_READ(&table, circuit_receive, only));
    }
    draw_map_text(&table, only, isatty(1) && !(no_colours && *no_colours));
}

/* Reads a line without its newline. Answers its length, which may be above LINE_BYTES though no more are kept, or -1 at the end of input. */
static long read_line(char *line) {
    long length = 0;
    int c;
#if defined MAZE_EDITLINE || defined MAZE_READLINE
    if (at_terminal) {
        char *edited = readline(prompt);
        if (!edited) return -1;
        length = (long)strlen(edited);
        snprintf(line, LINE_BYTES + 1, "%s", edited);
        if (length > 0) add_history(edited);
        free(edited);
        return length;
    }
#endif
    if (at_terminal) {
        printf("%s", prompt);
        fflush(stdout);
    }
    while ((c = getchar()) != EOF && c != '\n') {
        if (length < LINE_BYTES) line[length] = (char)c;
        if (length <= LINE_BYTES) length++;
    }
    line[length < LINE_BYTES ? length : LINE_BYTES] = '\0';
    return c == EOF && length == 0 ? -1 : length;
}

/* A number, decimal or behind 0x or 0b; 65536 for what is none from 0 to 65535. */
static unsigned long number_of(const char *word) {
    unsigned long number = 0, base = 10;
    if (word[0] == '0' && (word[1] == 'x' || word[1] == 'X')) base = 16;
    if (word[0] == '0' && (word[1] == 'b' || word[1] == 'B')) base = 2;
    if (base != 10) word += 2;
    if (*word == '\0') return 65536;
    for (; *word != '\0' && number <= 65535; word++) {
        unsigned long digit = isdigit((unsigned char)*word) ? (unsigned long)(*word - '0') : isxdigit((unsigned char)*word) ? (unsigned long)(tolower((unsigned char)*word) - 'a' + 10) : base;
        number = digit < base ? base * number + digit : 65536;
    }
    return number <= 65535 ? number : 65536;
}

/* Takes a line apart. Answers its form, with the numbers and how many they are; or NULL after saying what is wrong with it. */
static const struct form *read_call(char *line, long length, unsigned long line_number, uint16_t *numbers, int *given) {
    const struct form *form = NULL;
    int count = 0;
    char *word;
    if (length > LINE_BYTES) {
        printf("line %lu is longer than %d bytes\n", line_number, LINE_BYTES);
        return NULL;
    }
    for (long i = 0; i < length; i++)
        if (!isprint((unsigned char)line[i]) && line[i] != '\t' && line[i] != '\r') {
            printf("line %lu has a byte that is not text, at place %ld\n", line_number, i + 1);
            return NULL;
        }
    word = strtok(line, " \t\r");
    for (int i = 0; i < FORMS; i++)
        if (toupper((unsigned char)word[0]) == forms[i].letter && word[1] == '\0') form = &forms[i];
    if (!form) {
        printf("line %lu: '%s' is no call; help tells the calls\n", line_number, word);
        return NULL;
    }
    while ((word = strtok(NULL, " \t\r")) != NULL) {
        unsigned long number = number_of(word);
        if (number > 65535) {
            printf("line %lu: '%s' is not a number from 0 to 65535\n", line_number, word);
            return NULL;
        }
        if (count < MOST_NUMBERS) numbers[count] = (uint16_t)number;
        count++;
    }
    *given = count;
    if (count != form->numbers && !(form->letter == 'M' && count == 2)) {
        printf("line %lu: %c takes %s, and %d %s given\n", line_number, form->letter, form->names, count, count == 1 ? "number is" : "numbers are");
        return NULL;
    }
    return form;
}

/* Whether the table in the file is the one in memory by now. Where it cannot be written the change is taken back. */
static int save(const struct any_table *before) {
    if (kept != KEPT || (before->length == table.length && memcmp(before->bytes, table.bytes, table.length) == 0) || table_file_save(&file, &table)) return 1;
    printf("not done, %s cannot be written: %s\n", name, strerror(errno));
    table = *before;
    bad = 1;
    return 0;
}

/* The table of the other kind that says the same. */
static unsigned convert(void) {
    struct any_table other = {any_is_wide(&table) ? MAZE_TABLE_BYTES : MAZE_WIDE_TABLE_BYTES, {0}};
    unsigned number = any_is_wide(&table) ? maze_narrow(table.bytes, table.length, other.bytes, other.length) : maze_widen(table.bytes, table.length, other.bytes, other.length);
    if (number == MAZE_ACCEPTED) table = other;
    return number;
}

/* Folds the dimensions of a mask. Where it is refused as 13, `circuit` is one that holds a partner link to be unfolded. */
static unsigned fold(uint16_t mask, unsigned *circuit) {
    unsigned number = maze_wide_fold(table.bytes, table.length, mask), gone = any_fold_mask(&table) & ~(unsigned)mask;
    for (unsigned node = 0; number == MAZE_LINK_HELD && *circuit == 0 && node < any_node_count(&table); node++)
        for (unsigned port = 0; port < any_dimension(&table) && *circuit == 0; port++)
            if (gone >> port & 1) *circuit = any_link_circuit(&table, node, maze_wide_partner(port));
    return number;
}

static void make_call(char letter, const uint16_t *n, int given) {
    static struct any_table before;
    unsigned circuit = 0, number = 0;
    maze_opened opened = {0, 0, 0, 0};
    const char *done = "";
    before = table;
    switch (letter) {
    case 'F': number = ANY_CALL(&table, make, n[0]), done = "made"; break;
    case 'B': number = ANY_CALL(&table, block, n[0], n[1]), done = "blocked", circuit = any_link_circuit(&table, n[0], n[1]); break;
    case 'E': number = ANY_CALL(&table, unblock, n[0], n[1]), done = "enabled"; break;
    case 'R': number = ANY_CALL(&table, arm, n[0], n[1]), done = "armed"; break;
    case 'D': number = ANY_CALL(&table, disarm, n[0], n[1]), done = "disarmed", circuit = any_receive_circuit(&table, n[0], n[1]); break;
    case 'S': opened = ANY_CALL(&table, open, n[0], n[1], n[2], n[3], n[4]); break;
    case 'C': number = ANY_CALL(&table, close, n[0], n[1]), done = "closed"; break;
    case 'X': number = convert(), done = any_is_wide(&table) ? "wide" : "narrow"; break;
    case 'Y': number = fold(n[0], &circuit), done = n[0] != 0 ? "folded" : "nothing is folded"; break;
    case 'W': say_why(n); return;
    case 'T': say_traced(n[0], n[1]); return;
    case 'L': list_circuits(); return;
    case 'K': say_booked(); return;
    case 'G': say_found(n[0]); return;
    case 'J': say_judged(); return;
    case 'M': say_map(n, given); return;
    default: list_nodes(letter == 'N'); return;
    }
    if (!save(&before)) return;
    if (letter == 'S') say_opened(opened, n[0], n[1]);
    else if (letter == 'Y' && number == MAZE_BAD_LENGTH) printf("refused as %u, a narrow table has no fold mask; X makes it wide\n", number);
    else say_holder(number, done, circuit);
}

/* Takes the file, if one was named. Answers whether there is a table to go on with. */
static int take_file(void) {
    switch (table_file_open(&file, name, &table)) {
    case TABLE_FILE_KEPT: kept = KEPT; return 1;
    case TABLE_FILE_LOOKS: kept = LOOKS; return 1;
    default: return 0;
    }
}

/* One who looks sees the table as it is in the file now. Before a change it tries whether the file can be taken by now. Answers whether the call can be made. */
static int renew(int changes) {
    if (kept != LOOKS) return 1;
    if (changes ? !take_file() : table_file_look(&file, &table) == TABLE_FILE_BAD) {
        printf("not done, %s: %s\n", name, file.why);
        return 0;
    }
    if (!changes || kept == KEPT) return 1;
    printf("not done, this console only looks at %s: %s\n", name, file.why);
    return 0;
}

static int usage(const char *argument) {
    fprintf(stderr, "console: %s%s; usage: console [FILE], console --help, console --version\n", argument ? argument : "more than one file",
            argument ? " is no argument; a file of such a name is given as ./NAME" : "");
    return 2;
}

int main(int count, char **names) {
    char line[LINE_BYTES + 1] = "", shown[LINE_BYTES + 1];
    unsigned long line_number = 0;
    long length;
    if (count > 1) name = names[1];
    if (name && count == 2 && strcmp(name, "--help") == 0) {
        printf("usage: console [FILE]\nmakes the calls of its input, one a line, on the table in the file, which it keeps saved\n\n");
        help();
        return ferror(stdout) || fflush(stdout) != 0;
    }
    if (name && count == 2 && strcmp(name, "--version") == 0) {
        printf("console %s\n", MAZE_VERSION);
        return ferror(stdout) || fflush(stdout) != 0;
    }
    if (name && name[0] == '-') return usage(name);
    if (count > 2) return usage(NULL);
    at_terminal = isatty(0) && isatty(1);
    ANY_CALL(&table, make, 1);
    if (name && !take_file()) {
        fprintf(stderr, "console: %s: %s\n", name, file.why);
        return 1;
    }
    if (name && kept == LOOKS) fprintf(stderr, "console: %s cannot be written, so this console only looks: %s\n", name, file.why);
    if (at_terminal) {
        printf("maze %s, %sdimension %u", MAZE_VERSION, any_is_wide(&table) ? "wide, " : "", any_dimension(&table));
        say_folded();
        printf("%s%s; help tells the calls\n", name ? " in " : ", kept in no file", name ? name : "");
    }
    while ((length = read_line(line)) >= 0) {
        uint16_t numbers[MOST_NUMBERS] = {0};
        const struct form *form;
        int given = 0;
        char *remark = strchr(line, '#');
        line_number++;
        if (remark && length <= LINE_BYTES) {
            *remark = '\0';
            length = (long)strlen(line);
        }
        if (length == (long)strspn(line, " \t\r")) continue; /* an empty line */
        for (; length <= LINE_BYTES && (line[length - 1] == ' ' || line[length - 1] == '\t' || line[length - 1] == '\r'); length--) line[length - 1] = '\0';
        if (strcmp(line, "quit") == 0) break;
        if (strcmp(line, "help") == 0) {
            help();
            continue;
        }
        memcpy(shown, line, sizeof shown);
        form = read_call(line, length, line_number, numbers, &given);
        if (!form) bad = 1;
        else {
            if (given != 0 && !at_terminal) printf("%s: ", shown);
            if (renew(form->changes)) make_call(form->letter, numbers, given);
            else bad = 1;
        }
        if (fflush(stdout) != 0) break; /* each answer at once, also where nobody waits at a terminal */
    }
    if (at_terminal && length < 0) printf("\n");
    if (ferror(stdin) || ferror(stdout) || fflush(stdout) != 0) {
        fprintf(stderr, "console: reading or writing failed\n");
        bad = 1;
    }
    table_file_close(&file);
    return bad;
}
