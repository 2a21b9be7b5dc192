/* A receive channel from C: runs worked by hand at the edges of count, address and overflow, every kind of word to a running and to a stopped
 * channel, states that only C can hand over, and random lists of packets beside a version that keeps one 64-bit number of packets. */
#include "expect.h"
#include "subject.h"

#include <string.h>

enum { MESSAGE = 3584, TRANSMISSION = 3648, TRANSMISSION_ASKING = 3649, ACKNOWLEDGE = 2112 };

static maze_receive_channel state(uint32_t address, uint32_t count, uint8_t running, uint8_t overflow, uint8_t ignores) {
    maze_receive_channel channel;
    memset(&channel, 0xa5, sizeof channel); /* the byte of padding too */
    channel.address = address;
    channel.count = count;
    channel.running = running;
    channel.overflow = overflow;
    channel.ignores = ignores;
    return channel;
}

static int same(maze_receive_channel a, maze_receive_channel b) {
    return a.address == b.address && a.count == b.count && a.running == b.running && a.overflow == b.overflow && a.ignores == b.ignores;
}

/* What a packet left and answered, beside what it should. */
static void gives(const char *what, maze_received got, maze_receive_channel channel, unsigned number) {
    expect(same(got.channel, channel) && got.number == number, what, got.channel.count, got.number);
}

/* A data packet to each of a row of states gives the next one. */
static void data_run(const char *what, const maze_receive_channel *row, unsigned packets) {
    for (unsigned i = 0; i < packets; i++) gives(what, maze_receive_data(row[i]), row[i + 1], 0);
}

static void starts(void) {
    expect(same(maze_receive_start(0, 0, 0), state(0, 0, 1, 0, 0)), "start with zeros", 0, 0);
    expect(same(maze_receive_start(4294967295u, 4294967295u, 1), state(4294967295u, 4294967295u, 1, 0, 1)), "start with the largest", 0, 0);
    expect(same(maze_receive_start(1, 2, 256), state(1, 2, 1, 0, 1)), "256 is not 0", 0, 0);
    expect(same(maze_receive_start(1, 2, 65535), state(1, 2, 1, 0, 1)), "any other number ignores", 0, 0);
}

static void counts(void) {
    const maze_receive_channel none[] = {state(64, 0, 1, 0, 0), state(64, 4294967295u, 1, 1, 0), state(64, 4294967294u, 1, 1, 0), state(64, 4294967293u, 1, 1, 0)};
    const maze_receive_channel one[] = {state(64, 1, 1, 0, 0), state(72, 0, 1, 0, 0), state(72, 4294967295u, 1, 1, 0), state(72, 4294967294u, 1, 1, 0)};
    const maze_receive_channel two[] = {state(64, 2, 1, 0, 1), state(72, 1, 1, 0, 1), state(80, 0, 1, 0, 1), state(80, 4294967295u, 1, 1, 1)};
    /* the address wraps, at a multiple of 8 and elsewhere */
    const maze_receive_channel round[] = {state(4294967280u, 3, 1, 0, 0), state(4294967288u, 2, 1, 0, 0), state(0, 1, 1, 0, 0), state(8, 0, 1, 0, 0), state(8, 4294967295u, 1, 1, 0)};
    const maze_receive_channel odd[] = {state(4294967291u, 1, 1, 0, 0), state(3, 0, 1, 0, 0), state(3, 4294967295u, 1, 1, 0)};
    /* the counter wraps once more, 2^32 packets later: the mark and not the count holds the address */
    const maze_receive_channel again[] = {state(72, 2, 1, 1, 0), state(72, 1, 1, 1, 0), state(72, 0, 1, 1, 0), state(72, 4294967295u, 1, 1, 0), state(72, 4294967294u, 1, 1, 0)};
    data_run("count 0", none, 3);
    data_run("count 1", one, 3);
    data_run("count 2", two, 3);
    data_run("address wraps", round, 4);
    data_run("address wraps off its eights", odd, 2);
    data_run("counter wraps again", again, 4);
}

static void overshoots(void) {
    static const struct {
        uint32_t count;
        uint8_t overflow;
        uint32_t overshoot;
    } rows[] = {
        {0, 0, 0}, {1, 0, 0}, {4294967295u, 0, 0}, {4294967295u, 1, 1}, {4294967294u, 1, 2}, {1, 1, 4294967295u}, {0, 1, 0}, {4294967293u, 255, 3},
    };
    for (unsigned i = 0; i < sizeof rows / sizeof *rows; i++) {
        uint32_t running = maze_receive_overshoot(state(8, rows[i].count, 1, rows[i].overflow, 0)), stopped = maze_receive_overshoot(state(0, rows[i].count, 0, rows[i].overflow, 1));
        expect(running == rows[i].overshoot && stopped == rows[i].overshoot, "overshoot of", rows[i].count, running);
    }
}

static void ends(void) {
    maze_receive_channel obeys = state(8, 3, 1, 0, 0), ignores = state(8, 3, 1, 0, 1), over = state(8, 4294967290u, 1, 1, 1);
    gives("end of message", maze_receive_word(obeys, MESSAGE), state(8, 3, 0, 0, 0), 0);
    gives("end of message with status bits", maze_receive_word(obeys, MESSAGE + 63), state(8, 3, 0, 0, 0), 0);
    gives("end of message, ignored", maze_receive_word(ignores, MESSAGE), ignores, 0);
    gives("end of transmission", maze_receive_word(obeys, TRANSMISSION), state(8, 3, 0, 0, 0), 0);
    gives("end of transmission, ends of message ignored", maze_receive_word(ignores, TRANSMISSION), state(8, 3, 0, 0, 1), 0);
    gives("end of transmission, end-to-end requested", maze_receive_word(ignores, TRANSMISSION_ASKING), state(8, 3, 0, 0, 1), 0);
    gives("end of transmission after an overflow", maze_receive_word(over, TRANSMISSION), state(8, 4294967290u, 0, 1, 1), 0);
    gives("another word", maze_receive_word(obeys, ACKNOWLEDGE), obeys, 0);
    gives("data to a stopped channel", maze_receive_data(state(8, 3, 0, 0, 0)), state(8, 3, 0, 0, 0), 30);
    gives("data to a stopped channel at count zero", maze_receive_data(state(8, 0, 0, 0, 1)), state(8, 0, 0, 0, 1), 30);
    gives("a word to a stopped channel", maze_receive_word(state(8, 3, 0, 1, 0), ACKNOWLEDGE), state(8, 3, 0, 1, 0), 30);
    gives("an end to a stopped channel", maze_receive_word(state(8, 3, 0, 0, 0), TRANSMISSION), state(8, 3, 0, 0, 0), 30);
    gives("an end of message, ignored, to a stopped channel", maze_receive_word(state(8, 3, 0, 0, 1), MESSAGE), state(8, 3, 0, 0, 1), 30);
    gives("a channel of zeros", maze_receive_data(state(0, 0, 0, 0, 0)), state(0, 0, 0, 0, 0), 30);
}

static void unreadable(void) {
    static const uint16_t words[][2] = {{4096, 15}, {65535, 15}, {0, 16}, {2047, 16}, {MESSAGE - 1024, 17}, {3136, 17}, {2240, 18}, {4095, 18}};
    for (unsigned i = 0; i < sizeof words / sizeof *words; i++) {
        maze_receive_channel runs = state(16, 5, 1, 0, 0), stopped = state(16, 5, 0, 1, 1);
        gives("a word that cannot be read", maze_receive_word(runs, words[i][0]), runs, words[i][1]);
        gives("a word that cannot be read, stopped", maze_receive_word(stopped, words[i][0]), stopped, words[i][1]);
    }
}

/* States that no start gives: a flag is set where it is not 0. */
static void odd_states(void) {
    gives("running 255", maze_receive_data(state(8, 3, 255, 0, 2)), state(16, 2, 255, 0, 2), 0);
    gives("running 128", maze_receive_word(state(8, 3, 128, 0, 0), ACKNOWLEDGE), state(8, 3, 128, 0, 0), 0);
    gives("overflow 2", maze_receive_data(state(8, 3, 1, 2, 0)), state(8, 2, 1, 1, 0), 0);
    gives("overflow 128", maze_receive_data(state(8, 0, 1, 128, 0)), state(8, 4294967295u, 1, 1, 0), 0);
    gives("overflow 2, refused", maze_receive_data(state(8, 3, 0, 2, 4)), state(8, 3, 0, 2, 4), 30);
    gives("ignores 2", maze_receive_word(state(8, 3, 1, 0, 2), MESSAGE), state(8, 3, 1, 0, 2), 0);
    gives("ignores 254", maze_receive_word(state(8, 3, 254, 7, 254), TRANSMISSION), state(8, 3, 0, 7, 254), 0);
}

/* ---- a version that keeps how many data packets came, and works the rest out ---- */

struct plain {
    uint64_t address, count, packets;
    int ignores, ended;
};

/* What each run of 64 words is: e an end of transmission, m an end of message, a another command; x, y, z the refusals 16 to 18. */
static const char kinds[] =
    "xxxxxxxxxxxxxxxxxxxxxxxxxxxxxxxx"
    "aaazaaaayyyyyyyy"
    "yyyyyyyymezzaaaz";

/* A packet is a word, or DATA. */
enum { DATA = 65536 };

static unsigned plain_takes(struct plain *p, unsigned packet) {
    char kind = packet == DATA ? 'd' : packet / 64 < 64 ? kinds[packet / 64] : 'w';
    if (kind >= 'w') return 15u + (unsigned)(kind - 'w');
    if (p->ended) return 30;
    if (kind == 'd') p->packets++;
    p->ended = kind == 'e' || (kind == 'm' && !p->ignores);
    return 0;
}

static int plain_agrees(const struct plain *p, maze_receive_channel c) {
    uint64_t over = p->packets > p->count ? p->packets - p->count : 0, moved = p->packets - over;
    return c.address == (p->address + 8 * moved) % 4294967296u && c.count == (p->count + 4294967296u - p->packets % 4294967296u) % 4294967296u && c.running == !p->ended &&
           c.overflow == (over != 0) && c.ignores == p->ignores && maze_receive_overshoot(c) == over % 4294967296u;
}

static uint64_t seed = 1;

static uint32_t draw(void) {
    seed = seed * 6364136223846793005u + 1442695040888963407u;
    return (uint32_t)(seed >> 32);
}

static uint32_t edge(void) {
    static const uint32_t edges[] = {0, 1, 2, 3, 7, 8, 4294967280u, 4294967288u, 4294967295u};
    return draw() % 4 == 0 ? draw() : draw() % 2 ? edges[draw() % 9] : draw() % 40;
}

static unsigned packet(void) {
    unsigned kind = draw() % 64;
    if (kind < 48) return DATA;
    if (kind < 50) return TRANSMISSION + draw() % 64;
    if (kind < 53) return MESSAGE + draw() % 64;
    if (kind < 60) return draw() % 4096;
    return draw() % 65536;
}

static unsigned seen[32], overflowed;

static int random_list(unsigned length) {
    struct plain p = {edge(), draw() % 2 ? edge() : draw() % 20, 0, (int)(draw() % 2), 0};
    maze_receive_channel c = maze_receive_start((uint32_t)p.address, (uint32_t)p.count, (uint16_t)(p.ignores ? 1 + draw() % 65535 : 0));
    int good = plain_agrees(&p, c);
    for (unsigned i = 0; i < length; i++) {
        unsigned next = packet(), number = plain_takes(&p, next);
        maze_received got = next == DATA ? maze_receive_data(c) : maze_receive_word(c, (uint16_t)next);
        c = got.channel;
        good &= got.number == number && plain_agrees(&p, c);
        if (number < 32) seen[number]++;
    }
    if (p.packets > p.count + 1) overflowed++;
    return good;
}

int main(void) {
    static const unsigned numbers[] = {0, 15, 16, 17, 18, 30};
    starts();
    counts();
    overshoots();
    ends();
    unreadable();
    odd_states();
    for (unsigned group = 0; group < 100; group++) {
        int good = 1;
        for (unsigned i = 0; i < 200; i++) good &= random_list(1 + draw() % 100);
        expect(good, "random lists, group", group, 0);
    }
    for (unsigned i = 0; i < sizeof numbers / sizeof *numbers; i++) expect(seen[numbers[i]] > 100, "random lists with a number", numbers[i], seen[numbers[i]]);
    expect(overflowed > 100, "random lists that overflow", overflowed, 0);
    return verdict();
}
