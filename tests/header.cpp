/* The header as C++ sees it: it compiles there, and the calls link by their C names. */
#include "maze.h"

#include <cstdio>
#include <vector>

int main() {
    std::vector<uint8_t> table(MAZE_TABLE_BYTES);
    uint8_t ports[MAZE_TRACE_BYTES] = {0};
    unsigned passed = 0, failed = 0;
    auto check = [&](bool good, const char *what) {
        if (good) {
            ++passed;
        } else {
            ++failed;
            std::printf("header.cpp: %s\n", what);
        }
    };

    check(maze_make(table.data(), table.size(), 3) == MAZE_ACCEPTED, "make");
    check(maze_block(table.data(), table.size(), 1, 2) == MAZE_ACCEPTED, "block");
    check(maze_block(table.data(), table.size(), 3, 2) == MAZE_ACCEPTED, "block");
    check(maze_arm(table.data(), table.size(), 7, 0) == MAZE_ACCEPTED && MAZE_RECEIVE_ARMED(table.data(), 7, 0), "arm");
    const maze_opened opened = maze_open(table.data(), table.size(), 0, 0, 7, MAZE_TYPE_MAZE, 7);
    check(opened.number == MAZE_ACCEPTED && opened.hops == 3 && opened.receive == 0 && opened.scouts == 5, "open");
    const maze_traced traced = maze_trace(table.data(), table.size(), 0, 0, ports, sizeof ports);
    check(traced.number == MAZE_ACCEPTED && traced.hops == 3 && ports[0] == 1 && ports[1] == 2 && ports[2] == 0, "trace");
    std::vector<uint8_t> book_ports(3), index(MAZE_BOOK_LINE_BYTES);
    const maze_booked booked = maze_book(table.data(), table.size(), book_ports.data(), book_ports.size(), index.data(), index.size());
    check(booked.number == MAZE_ACCEPTED && booked.circuits == 1 && booked.hops == 3 && index[0] == 1 && index[4] == 3, "book");
    check(maze_book(table.data(), table.size(), book_ports.data(), 2, index.data(), index.size()).number == MAZE_BOOK_SHORT, "a short book");
    const maze_traced found = maze_book_lookup(book_ports.data(), book_ports.size(), index.data(), index.size(), booked.circuits, booked.hops, 1, ports, sizeof ports);
    check(found.number == MAZE_ACCEPTED && found.hops == 3 && ports[0] == 1 && ports[1] == 2 && ports[2] == 0, "look up");
    check(maze_book_lookup(book_ports.data(), 2, index.data(), index.size(), 1, 3, 1, ports, sizeof ports).number == MAZE_BAD_BOOK, "a book not well formed");
    auto judge = [&](uint16_t circuits) {
        return maze_judge(table.data(), table.size(), book_ports.data(), book_ports.size(), index.data(), index.size(), circuits, booked.hops);
    };
    check(judge(1) == MAZE_BAD_BOOK_CIRCUIT && judge(2) == MAZE_BAD_BOOK, "judge a book whose circuit is open");
    check(maze_disarm(table.data(), table.size(), 7, 0) == MAZE_CHANNEL_HELD, "disarm a held channel");
    check(maze_close(table.data(), table.size(), 0, 0) == MAZE_ACCEPTED && !MAZE_RECEIVE_ARMED(table.data(), 7, 0), "close");
    check(maze_close(table.data(), table.size(), 0, 0) == MAZE_NO_CIRCUIT, "close again");
    check(judge(1) == MAZE_RECEIVE_REJECTED, "judge it with no channel armed");
    check(maze_arm(table.data(), table.size(), 7, 0) == MAZE_ACCEPTED && judge(1) == MAZE_ACCEPTED, "judge it with a channel armed");
    book_ports[0] = 0; /* 0, 1, 5, 4: over the first of the two blocked links */
    check(judge(1) == MAZE_BAD_BOOK_LINK, "judge a path over a blocked link");
    check(maze_disarm(table.data(), table.size(), 7, 0) == MAZE_ACCEPTED, "disarm");
    check(maze_unblock(table.data(), table.size(), 1, 2) == MAZE_ACCEPTED, "unblock");
    const std::vector<uint8_t> sends = {0, 0, 0, 0, 7, 0, 0, 0, 7, 0, 0, 0, 1, 0, 7, 0, 0, 0, 7, 0};
    const maze_opened_all job = maze_open_all(table.data(), table.size(), sends.data(), sends.size());
    check(job.number == MAZE_RECEIVE_REJECTED && job.sends == 0, "a job with no channel armed");
    check(maze_open_all(table.data(), table.size(), sends.data(), sends.size() - 1).number == MAZE_BAD_SEND_LIST, "a list of 19 bytes");
    std::vector<uint8_t> joined(MAZE_TABLE_BYTES), smaller(MAZE_TABLE_BYTES);
    check(maze_arm(table.data(), table.size(), 7, 3) == MAZE_ACCEPTED && maze_open(table.data(), table.size(), 0, 1, 7, MAZE_TYPE_MAZE, 1).number == MAZE_ACCEPTED, "open one more");
    check(maze_join(table.data(), table.size(), table.data(), table.size(), joined.data(), joined.size()) == MAZE_ACCEPTED && MAZE_DIMENSION(joined.data()) == 4, "join a table and itself");
    check(maze_trace(joined.data(), joined.size(), 8, 1, ports, sizeof ports).hops == 3 && MAZE_RECEIVE_CIRCUIT(joined.data(), 15, 3) == 66 && MAZE_LINK_ENABLED(joined.data(), 15, 3), "its second half");
    check(maze_make(smaller.data(), smaller.size(), 2) == MAZE_ACCEPTED && maze_join(table.data(), table.size(), smaller.data(), smaller.size(), joined.data(), joined.size()) == MAZE_BAD_HALVES,
          "halves that differ");
    std::vector<uint8_t> wide(MAZE_WIDE_TABLE_BYTES), narrow(MAZE_TABLE_BYTES);
    check(maze_widen(table.data(), table.size(), wide.data(), wide.size()) == MAZE_ACCEPTED && maze_wide_check_table(wide.data(), wide.size()) == MAZE_ACCEPTED, "widen");
    check(maze_wide_trace(wide.data(), wide.size(), 0, 1, ports, sizeof ports).hops == 3 && maze_wide_receive_circuit(wide.data(), 7, 3) == 2, "trace in the wide table");
    check(maze_wide_trace(table.data(), table.size(), 0, 1, ports, sizeof ports).number == MAZE_BAD_LENGTH, "a wide call on a narrow table");
    check(maze_narrow(wide.data(), wide.size(), narrow.data(), narrow.size()) == MAZE_ACCEPTED && narrow == table, "and narrow again");
    check(maze_wide_fold(wide.data(), wide.size(), 1) == MAZE_ACCEPTED && maze_wide_link_enabled(wide.data(), 0, 17) && maze_wide_port_exists(wide.data(), 17), "fold");
    check(maze_wide_link_node(wide.data(), 0, 17) == 1 && maze_wide_axis(17) == 0 && maze_wide_partner(0) == 17, "a partner");
    check(maze_wide_fold(wide.data(), wide.size(), 8) == MAZE_BAD_PORT, "a fold bit at the dimension");
    check(maze_narrow(wide.data(), wide.size(), narrow.data(), narrow.size()) == MAZE_FOLDED && maze_wide_fold_mask(wide.data()) == 1, "a fold mask");
    check(maze_wide_make(wide.data(), wide.size(), 8) == MAZE_ACCEPTED && maze_wide_link_enabled(wide.data(), 255, 7) && !maze_wide_link_enabled(wide.data(), 255, 8), "a wide table");
    check(maze_word_read(2437).command == 6, "read a word");
    check(maze_word_write(1, 0).word == 2112, "write a word");
    maze_arbiter arbiter = {MAZE_REQUESTERS - 1};
    const maze_served served = maze_arbitrate(&arbiter, 1u << MAZE_REQUESTER_PORTS | 4);
    check(served.number == MAZE_ACCEPTED && served.requester == 2 && arbiter.last == 2, "arbitrate");
    const maze_received taken = maze_receive_data(maze_receive_start(4294967288u, 1, 256));
    check(taken.number == MAZE_ACCEPTED && taken.channel.address == 0 && taken.channel.count == 0 && taken.channel.running == 1 && taken.channel.overflow == 0 && taken.channel.ignores == 1, "a data packet");
    const maze_received over = maze_receive_data(taken.channel);
    check(over.number == MAZE_ACCEPTED && over.channel.address == 0 && over.channel.overflow == 1 && maze_receive_overshoot(over.channel) == 1, "one too many");
    const maze_received ended = maze_receive_word(over.channel, 3648);
    check(ended.number == MAZE_ACCEPTED && ended.channel.running == 0 && ended.channel.count == 4294967295u, "an end of transmission");
    check(maze_receive_data(ended.channel).number == MAZE_CHANNEL_STOPPED, "a stopped channel");

    std::printf("%u passed, %u failed\n", passed, failed);
    return failed != 0;
}
