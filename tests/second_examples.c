/* The examples of docs/SPECIFICATION.md, asked of the second router alone. */

#include "second_router.c"

#include <stdarg.h>

static unsigned long passed, failed;
static uint8_t table[14338], buffer[LONGEST];
static bool wide;

static void check(bool right, const char *what) {
    if (right) passed++;
    else {
        failed++;
        printf("wrong: %s\n", what);
    }
}

static size_t length(void) { return table_length(wide); }

/* A made table with every receive channel armed where `armed` says so. */
static void made(bool kind, unsigned dimension, unsigned mask, bool armed) {
    wide = kind;
    second_make(wide, table, length(), dimension);
    if (mask) second_fold(table, length(), mask);
    for (unsigned node = 0; armed && node < 1u << dimension; node++)
        for (unsigned channel = 0; channel < 8; channel++) second_arm(wide, table, length(), node, channel);
}

static unsigned block(unsigned node, unsigned port) { return second_block(wide, table, length(), node, port).number; }
static unsigned arm(unsigned node, unsigned channel) { return second_arm(wide, table, length(), node, channel).number; }
static unsigned close(unsigned node, unsigned channel) { return second_close(wide, table, length(), node, channel).number; }

/* An open on send channel 0: number, scouts, and the ports as Listing 16 writes them, "" where it is refused. */
static bool opens_on(unsigned channel, unsigned source, unsigned target, unsigned type, unsigned vector, unsigned number, unsigned scouts, const char *ports) {
    Answer answer = second_open(wide, table, length(), source, channel, target, type, vector);
    char written[LONGEST + 1] = "";
    if (answer.number == 0) {
        Answer trace = second_trace(wide, table, length(), source, channel, buffer, LONGEST);
        for (unsigned hop = 0; hop < trace.first; hop++) written[hop] = "0123456789abcdefgh"[buffer[hop]];
        written[trace.first] = 0;
    }
    return answer.number == number && answer.scouts == scouts && strcmp(written, ports) == 0;
}

static bool opens(unsigned source, unsigned target, unsigned type, unsigned vector, unsigned number, unsigned scouts, const char *ports) {
    return opens_on(0, source, target, type, vector, number, scouts, ports);
}

static bool prints(const char *input, const char *list) {
    static char out[LIST_OUT + 1];
    size_t written = second_list((const uint8_t *)input, strlen(input), out);
    return written == strlen(list) && memcmp(out, list, written) == 0;
}

static unsigned word(unsigned w, unsigned *command, unsigned *carried) {
    Answer answer = second_word_read(w);
    *command = answer.first, *carried = answer.second;
    return answer.number;
}

static bool arbitrates(uint16_t record, uint32_t requests, unsigned number, unsigned requester, unsigned after) {
    Answer answer = second_arbitrate(&record, requests);
    return answer.number == number && answer.first == requester && record == after;
}

static bool receives(Channel *channel, uint32_t address, uint32_t count, bool mark, uint32_t over) {
    return second_receive_data(channel) == 0 && channel->address == address && channel->count == count && !channel->overflow == !mark &&
           second_receive_overshoot(channel) == over;
}

static void sends(uint8_t *list, unsigned node, unsigned channel, unsigned target, unsigned type, unsigned vector) {
    put_low_first(list, node), put_low_first(list + 2, channel), put_low_first(list + 4, target), put_low_first(list + 6, type), put_low_first(list + 8, vector);
}

/* The port tried first behind an arrival, of those of a mask (Order 1). */
static unsigned first(uint32_t ports, unsigned arrival) {
    for (unsigned step = 1; step <= PORTS; step++)
        if (ports >> (arrival + step) % PORTS & 1) return (arrival + step) % PORTS;
    return 8;
}

static bool helix_of(unsigned source, unsigned target, unsigned port, const char *ports) {
    Shown s;
    Path path = {.target = target};
    uint32_t scouts = 0;
    bool right = tested(wide, table, length(), &s) == 0 && helix(&s, not_blocked, source, port, &path, &scouts) && path.hops == strlen(ports);
    for (unsigned hop = 0; right && hop < path.hops; hop++) right = "0123456789abcdefgh"[path.port[hop]] == ports[hop];
    return right;
}

/* Example 34: what a call says of a table where circuit 1 holds these links, two digits each; `how` is b blocked, u unarmed, o the channel of another, t two channels. */
static unsigned holds(bool kind, const char *links, char how, unsigned number) {
    Shown s;
    made(kind, 2, 0, false), arm(1, 0), tested(kind, table, length(), &s);
    for (; *links; links += links[2] ? 3 : 2) {
        s.link[links[0] - '0'][links[1] - '0'] = (uint16_t)number;
        if (how == 'b') s.enabled[links[0] - '0'] &= ~(1u << (links[1] - '0'));
    }
    s.receive[1][0] = how == 'o' ? 2 : (uint16_t)number;
    if (how == 'u') s.armed[1] = 0;
    if (how == 't') s.receive[1][1] = 1, s.armed[1] = 3;
    leave(kind, &s, table);
    return arm(3, 7);
}

static bool traces(const char *ports) {
    Answer trace = second_trace(wide, table, length(), 0, 0, buffer, LONGEST);
    bool right = trace.number == 0 && trace.first == strlen(ports);
    for (unsigned hop = 0; right && hop < trace.first; hop++) right = buffer[hop] == ports[hop] - '0';
    return right;
}

/* Example 37: a judging of circuit 1 over these ports. */
static unsigned judges(const char *written) {
    const unsigned hops = (unsigned)strlen(written);
    const uint8_t index[6] = {1, 0, 0, 0, (uint8_t)hops, 0};
    uint8_t ports[LONGEST];
    for (unsigned hop = 0; hop < hops; hop++) ports[hop] = (uint8_t)(written[hop] - '0');
    return second_judge(wide, table, length(), ports, hops, index, 6, 1, hops).number;
}

int main(void) {
    unsigned command, carried;
    for (int kind = 0; kind < 2; kind++) {
        made(kind, 3, 0, true);
        check(opens(0, 7, 0, 7, 0, 3, "012"), "1");
        made(kind, 3, 0, true), block(1, 2), block(3, 2);
        check(opens(0, 7, 0, 7, 0, 5, "120"), "2");
        made(kind, 1, 0, true);
        check(opens(0, 0, 0, 1, 0, 2, "00"), "3");
        made(kind, 2, 0, true);
        check(opens(0, 1, 0, 2, 0, 3, "101"), "4");
        made(kind, 2, 0, true), block(2, 0);
        check(opens(0, 1, 0, 2, 0, 3, "110"), "5");
        made(kind, 2, 0, true), block(0, 0);
        check(opens(0, 1, 0, 1, 22, 0, "") && opens(0, 1, 4, 1, 0, 3, "101"), "6");
        made(kind, 1, 0, true);
        check(opens(0, 1, 0, 1, 0, 1, "0") && opens_on(1, 0, 1, 0, 1, 10, 0, ""), "7");
        check(close(0, 0) == 0 && second_open(kind, table, length(), 0, 1, 1, 0, 1).second == 1, "7 after the close");
    }
    check(word(2175, &command, &carried) == 0 && command == 1 && carried == 0 && second_word_write(1, 0).first == 2112, "8");
    check(word(2437, &command, &carried) == 0 && command == 6 && carried == 5 && word(3649, &command, &carried) == 0 && command == 9 && carried == 1, "8");
    check(word(3136, &command, &carried) == 17 && word(2240, &command, &carried) == 18, "8");
    check(second_make(false, table, 8705, 8).number == 0 && second_make(false, table, 8705, 9).number == 2, "9");
    made(false, 3, 0, true);
    check(arm(7, 0) == 0 && arm(8, 0) == 4 && second_open(false, table, 8705, 0, 0, 7, 0, 7).number == 0 && second_open(false, table, 8705, 0, 1, 7, 0, 8).number == 8, "9");
    check(second_arm(false, table, 8704, 0, 0).number == 1, "9");
    check(prints("F 3\nR 7 0\nB 1 2\nB 3 2\nS 0 0 7 0 7\nC 0 0\nC 0 0\n",
                 "line call answer node channel receive scouts ports\n1 F 0 - - - - -\n2 R 0 7 0 - - -\n3 B 0 1 - - - 2\n4 B 0 3 - - - 2\n"
                 "5 S 0 0 0 0 5 120\n6 C 0 0 0 - - -\n7 C 12 0 0 - - -\n"), "10");
    check(first(5, 0) == 2 && first(5, 2) == 0 && first(1, 0) == 0, "11");
    check(first(0x30003, 17) == 0 && first(0x30002, 17) == 1 && first(0x30000, 17) == 16, "13");
    check(first(0x30003, 16) == 17 && first(0x10003, 16) == 0 && first(0x10002, 16) == 1 && first(0x30003, 7) == 16, "13");
    {
        Shown s;
        made(true, 3, 6, false), tested(true, table, 14338, &s);
        check(with_partners(&s, 5) == (1u << 0 | 1u << 2 | 1u << 15), "13");
        made(true, 2, 3, false), tested(true, table, 14338, &s);
        check(with_partners(&s, ~1u & 3) == (1u << 1 | 1u << 16), "13");
    }
    check(prints("F 8\nM 255\nR 255 0\nS 0 0 255 3 128\n",
                 "line call answer node channel receive scouts ports\n1 F 0 - - - - -\n2 M 0 - - - - -\n3 R 0 255 0 - - -\n4 S 0 0 0 0 8 7bcdefgh\n"), "14");
    check(prints("F 1\nM 1\nR 1 0\nS 0 0 1 0 1",
                 "line call answer node channel receive scouts ports\n1 F 0 - - - - -\n2 M 0 - - - - -\n3 R 0 1 0 - - -\n4 S 0 0 0 0 1 0\n"), "15");
    {
        Shown s;
        made(true, 2, 1, false), block(0, 17), second_fold(table, 14338, 3), tested(true, table, 14338, &s);
        check(blocked(&s, 0, 17), "16");
        second_fold(table, 14338, 2), second_fold(table, 14338, 3), tested(true, table, 14338, &s);
        check(!blocked(&s, 0, 17), "16");
    }
    made(true, 2, 0, true);
    check(second_fold(table, 14338, 4).number == 6 && second_fold(table, 14338, 8).number == 6 && second_fold(table, 14338, 256).number == 6, "17");
    check(prints("M 65536", "line call answer node channel receive scouts ports\n1 - 20 - - - - -\n"), "17");
    second_fold(table, 14338, 1);
    check(block(0, 17) == 0 && block(0, 16) == 6 && block(0, 8) == 6 && block(0, 9) == 6 && block(0, 10) == 6 && block(0, 18) == 6, "17");
    for (unsigned bit = 10; bit < 16; bit++) check(opens(0, 1, 0, 1u << bit, 8, 0, ""), "17");
    for (int kind = 0; kind < 2; kind++) {
        uint8_t ports[3], index[12];
        made(kind, 2, 0, false), arm(1, 0), arm(3, 0);
        check(opens_on(1, 0, 3, 0, 2, 0, 2, "10") && opens(0, 1, 0, 1, 0, 1, "0"), "18");
        check(second_book(kind, table, length(), ports, 3, index, 11).number == 23 && second_book(kind, table, length(), ports, 2, index, 12).number == 23, "18");
        Answer book = second_book(kind, table, length(), ports, 3, index, 12);
        check(book.number == 0 && book.first == 2 && book.second == 3 && memcmp(ports, "\0\1\0", 3) == 0 &&
                  memcmp(index, "\1\0\0\0\1\0\2\0\1\0\2\0", 12) == 0, "18");
        check(second_judge(kind, table, length(), ports, 3, index, 12, 2, 3).number == 26, "19");
        made(kind, 2, 0, false);
        check(second_judge(kind, table, length(), ports, 3, index, 12, 2, 3).number == 11, "19");
        arm(1, 0), arm(3, 0);
        check(second_judge(kind, table, length(), ports, 3, index, 12, 2, 3).number == 0 && second_judge(kind, table, length(), ports, 3, index, 12, 2, 2).number == 25, "19");
        block(0, 0);
        check(second_judge(kind, table, length(), ports, 3, index, 12, 2, 3).number == 27, "19");
        made(kind, 1, 0, true);
        check(second_judge(kind, table, length(), ports, 3, index, 12, 2, 3).number == 26, "19");
    }
    {
        uint8_t half[2][8705];
        Shown s;
        made(false, 1, 0, false), block(1, 0), arm(1, 2);
        check(opens(0, 1, 0, 1, 0, 1, "0"), "20");
        memcpy(half[0], table, 8705);
        made(false, 1, 0, false), arm(0, 0), arm(1, 5);
        check(opens_on(7, 1, 0, 0, 1, 0, 1, "0"), "20");
        memcpy(half[1], table, 8705);
        check(second_join(half[0], 8705, half[1], 8705, table, 8705).number == 0 && tested(false, table, 8705, &s) == 0 && s.dimension == 2, "20");
        check(s.link[0][0] == 1 && s.receive[1][2] == 1 && s.link[3][0] == 32 && s.receive[2][0] == 32 && s.armed[3] == 32 && blocked(&s, 1, 0), "20");
        for (unsigned node = 0; node < 4; node++) check(is_free(&s, node, 1), "20");
    }
    {
        Channel c = second_receive_start(4294967280, 2, 0);
        check(receives(&c, 4294967288, 1, false, 0) && receives(&c, 0, 0, false, 0) && receives(&c, 0, 4294967295, true, 1), "21");
        c = second_receive_start(64, 0, 0);
        check(receives(&c, 64, 4294967295, true, 1), "21");
    }
    check(arbitrates(17, 3u << 17, 0, 18, 18) && arbitrates(18, 3u << 17, 0, 17, 17) && arbitrates(25, 1u << 25 | 1, 0, 0, 0) &&
              arbitrates(0, 1u << 25 | 1, 0, 25, 25) && arbitrates(5, 1u << 5, 0, 5, 5) && arbitrates(5, 0, 0, 26, 5) &&
              arbitrates(5, 1u << 26, 31, 0, 5) && arbitrates(26, 0, 31, 0, 26), "22");
    for (int kind = 0; kind < 2; kind++) {
        made(kind, 3, 0, true), block(1, 2), block(3, 2);
        check(opens(0, 7, 3, 7, 22, 2, "") && opens(0, 7, 1, 7, 0, 5, "120"), "23");
        made(kind, 2, 0, true);
        check(opens(0, 2, 3, 3, 0, 3, "010"), "23");
        made(kind, 2, 0, true), block(2, 0);
        check(opens(0, 1, 3, 2, 22, 1, "") && opens(0, 1, 1, 2, 22, 1, ""), "23, 31");
        check(opens(0, 1, 0, 2, 0, 3, "110"), "31");
        made(kind, 2, 0, false), arm(1, 0);
        check(opens_on(1, 0, 1, 0, 1, 0, 1, "0"), "24");
        arm(3, 0), arm(3, 1);
        uint8_t kept[14338];
        memcpy(kept, table, length());
        check(opens(0, 3, 0, 3, 0, 2, "10") && opens(1, 3, 0, 2, 0, 1, "1"), "24");
        memcpy(table, kept, length());
        check(close(0, 1) == 0 && opens(0, 3, 0, 3, 0, 2, "01") && second_open(kind, table, length(), 1, 0, 3, 0, 2).number == 10, "24");
        made(kind, 3, 0, false);
        check(opens(0, 7, 0, 7, 11, 3, "") && arm(7, 0) == 0 && opens(0, 7, 0, 7, 0, 3, "012"), "25");
        check(second_disarm(kind, table, length(), 7, 8).number == 5 && second_disarm(kind, table, length(), 7, 0).number == 21, "25");
        check(close(0, 0) == 0 && opens(0, 7, 0, 7, 11, 3, ""), "25");
        uint8_t list[650] = {0};
        made(kind, 2, 0, false), arm(1, 0), arm(3, 0);
        sends(list, 0, 0, 1, 0, 1), sends(list + 10, 0, 1, 1, 0, 1);
        Answer job = second_open_all(kind, table, length(), list, 20);
        check(job.number == 10 && job.first == 1, "26");
        sends(list + 10, 0, 1, 3, 0, 2);
        job = second_open_all(kind, table, length(), list, 20);
        check(job.number == 0 && job.first == 2, "26");
        check(second_open_all(kind, table, length(), list, 9).number == 28 && second_open_all(kind, table, length(), list, 11).number == 28 &&
                  second_open_all(kind, table, length(), list, 641).number == 28 && second_open_all(kind, table, length(), list, 650).number == 28 &&
                  second_open_all(kind, table, length(), list, 0).number == 0 && second_open_all(kind, table, length(), list, 640).number != 28, "26");
        made(kind, 2, 0, true), block(1, 1);
        check(opens(0, 3, 4, 1, 0, 3, "10"), "28");
        made(kind, 2, 0, false), block(1, 1);
        check(opens(0, 3, 4, 1, 11, 3, ""), "28");
        made(kind, 2, 0, false);
        check(opens(0, 1, 4, 1, 11, 1, ""), "28");
        made(kind, 2, 0, true), block(1, 1);
        check(second_open(kind, table, length(), 0, 0, 3, 0, 1).number == 22 && second_open(kind, table, length(), 0, 0, 3, 1, 1).number == 22 &&
                  second_open(kind, table, length(), 0, 0, 3, 3, 1).number == 22 && second_open(kind, table, length(), 0, 1, 3, 4, 1).number != 22 &&
                  second_open(kind, table, length(), 0, 0, 3, 3, 3).number == 22 && second_open(kind, table, length(), 0, 0, 3, 1, 3).number != 22, "31");
        made(kind, 3, 0, false);
        check(helix_of(0, 7, 0, "012") && helix_of(0, 7, 1, "120") && helix_of(0, 7, 2, "201") && helix_of(0, 3, 2, "2012"), "32");
        made(kind, 1, 0, false);
        check(helix_of(0, 0, 0, "00"), "32");
    }
    made(true, 1, 1, false);
    check(helix_of(0, 0, 0, "0h"), "32");
    made(true, 2, 2, false);
    check(helix_of(0, 1, 1, "1g0"), "32");
    {
        const uint8_t ports[3] = {0, 1, 2}, index[12] = {1, 0, 0, 0, 2, 0, 9, 0, 2, 0, 1, 0};
        Answer a = second_lookup(ports, 3, index, 12, 2, 3, 1, buffer, 9);
        check(a.number == 0 && a.first == 2 && buffer[0] == 0 && buffer[1] == 1, "27");
        a = second_lookup(ports, 3, index, 12, 2, 3, 9, buffer, 9);
        check(a.number == 0 && a.first == 1 && buffer[0] == 2, "27");
        check(second_lookup(ports, 3, index, 12, 2, 3, 2, buffer, 8).number == 12 && second_lookup(ports, 3, index, 12, 2, 3, 1, buffer, 8).number == 14 &&
                  second_lookup(ports, 0, index, 12, 2, 3, 1, buffer, 9).number == 25, "27");
    }
    made(true, 3, 1, true), block(3, 2);
    check(opens(0, 7, 1, 1, 22, 4, ""), "23");
    made(true, 8, 255, false);
    for (unsigned port = 0; port < PORTS; port++) block(255 ^ 1u << axis(port), port);
    {
        Shown s;
        Path path = {.target = 255};
        uint32_t scouts = 0;
        tested(true, table, 14338, &s);
        check(!search(&s, is_free, 1, 0, 255, &path, &scouts) && scouts == 13810600, "Folding 12");
        check(!search(&s, is_free, 0, 0, 255, &path, &scouts) && scouts == 6696048, "Folding 12");
    }
    made(true, 1, 1, true);
    check(opens(0, 1, 0, 1, 0, 1, "0"), "29");
    made(true, 1, 1, true), block(0, 0);
    check(opens(0, 1, 3, 1, 22, 0, "") && opens(0, 1, 0, 1, 0, 1, "h"), "29");
    made(true, 1, 1, true), block(0, 0);
    check(opens(0, 1, 1, 1, 0, 1, "h"), "29");
    made(true, 1, 1, true);
    check(opens(0, 0, 0, 1, 0, 2, "0h"), "29");
    made(true, 1, 1, true), block(0, 0);
    check(opens(0, 0, 0, 1, 0, 2, "h0"), "29");
    made(true, 2, 3, true), block(1, 1), block(1, 16);
    check(opens(0, 3, 0, 1, 22, 2, "") && opens(0, 3, 4, 1, 0, 4, "1h"), "29");
    made(true, 2, 1, true), block(1, 1);
    check(opens(0, 2, 0, 1, 0, 3, "0h1"), "29");
    check(prints("F 1\nM 1\nR 1 0\nR 1 1\nS 0 0 1 0 1\nS 0 1 1 0 1\nM 0\nM 2\n",
                 "line call answer node channel receive scouts ports\n1 F 0 - - - - -\n2 M 0 - - - - -\n3 R 0 1 0 - - -\n4 R 0 1 1 - - -\n"
                 "5 S 0 0 0 0 1 0\n6 S 0 0 1 1 1 h\n7 M 13 - - - - -\n8 M 6 - - - - -\n"), "30");
    check(circuit_number(200, 3) == 1604, "33");
    put_low_first(buffer, 1604);
    check(buffer[0] == 68 && buffer[1] == 6, "33");
    for (int kind = 0; kind < 2; kind++) {
        check(holds(kind, "00", 0, 1) == 0 && holds(kind, "01 20 31", 0, 1) == 0 && traces("101") && holds(kind, "01 21 00", 0, 1) == 0 && traces("110"), "34");
        check(holds(kind, "", 0, 1) == 3 && holds(kind, "01", 0, 1) == 3 && holds(kind, "20", 0, 1) == 3 && holds(kind, "00 01", 0, 1) == 3 &&
                  holds(kind, "00 11", 0, 1) == 3 && holds(kind, "00 01 20", 0, 1) == 3, "34");
        check(holds(kind, "00", 'b', 1) == 3 && holds(kind, "00", 'u', 1) == 3 && holds(kind, "00", 'o', 1) == 3 && holds(kind, "00", 't', 1) == 3 &&
                  holds(kind, "00", 0, 33) == 3, "34");
    }
    {
        Channel c = second_receive_start(64, 1, 0);
        check(second_receive_word(&c, 3584) == 0 && !c.running, "35");
        check(second_receive_data(&c) == 30 && second_receive_word(&c, 2048) == 30 && second_receive_word(&c, 3136) == 17 && c.address == 64 && c.count == 1, "35");
        c = second_receive_start(64, 1, 256);
        check(c.ignores == 1 && second_receive_word(&c, 3584) == 0 && c.running && second_receive_word(&c, 2048) == 0 && c.running, "35");
        check(second_receive_word(&c, 3648) == 0 && !c.running, "35");
    }
    {
        uint8_t narrow[8705], again[8705], zero[14338] = {0};
        second_make(false, narrow, 8705, 1);
        check(second_convert(false, narrow, 8705, table, 14337).number == 1 && second_convert(false, narrow, 8705, table, 14338).number == 0, "36");
        check(memcmp(table, "\1\0\1\0\0\1\0\0", 8) == 0 && memcmp(table + 8, zero, 14330) == 0, "36");
        check(second_convert(true, table, 14338, again, 8705).number == 0 && memcmp(narrow, again, 8705) == 0, "36");
        check(second_fold(table, 14338, 1).number == 0 && second_convert(true, table, 14338, again, 8705).number == 24, "36");
    }
    for (int kind = 0; kind < 2; kind++) {
        made(kind, 2, 0, true);
        check(judges("0") == 0 && judges("110") == 0 && judges("00") == 0 && judges("101") == 0, "37");
        check(judges("011") == 26 && judges("000") == 26 && judges("02") == 26, "37");
    }
    printf("%lu passed, %lu failed\n", passed, failed);
    return failed != 0;
}
