/* A job, a book, a judging and a joining: opens the circuits of a job on a half cabinet of 8 nodes, all or none; takes the book of them apart; closes them, and asks whether the table could take them
 * again; and joins two such halves to a cabinet of 16 nodes. */
#include <maze.h>
#include <stdio.h>

static uint8_t half[MAZE_TABLE_BYTES], whole[MAZE_TABLE_BYTES];
static uint8_t ports[MAZE_CIRCUITS_LARGEST], index_of[MAZE_BOOK_LINE_BYTES * MAZE_CIRCUITS_LARGEST];

/* An answer in words; 1 where it is what was expected. */
static int say(const char *what, unsigned number, unsigned expected) {
    printf("%s: %s\n", what, maze_refusal_text(number));
    return number == expected;
}

/* The circuits of a book, each with its ports. */
static void say_book(maze_booked book) {
    for (unsigned place = 0; place < book.circuits; place++) {
        unsigned circuit = maze_book_circuit(index_of, place), at = maze_book_at(index_of, place);
        printf("  %u.%u ports", maze_circuit_node(circuit), maze_circuit_channel(circuit));
        for (unsigned hop = 0; hop < maze_book_hops(index_of, place); hop++) printf(" %u", (unsigned)ports[at + hop]);
        printf("\n");
    }
}

int main(void) {
    uint8_t sends[2 * MAZE_SEND_BYTES];
    maze_opened_all opened;
    maze_booked book;
    int good = maze_make(half, sizeof half, 3) == MAZE_ACCEPTED && maze_arm(half, sizeof half, 7, 0) == MAZE_ACCEPTED;

    /* the second send is refused, since one receive channel of node 7 is armed: the job opens neither */
    maze_put_send(sends, 0, 0, 0, 7, MAZE_TYPE_MAZE, 7);
    maze_put_send(sends, 1, 4, 2, 7, MAZE_TYPE_MAZE, 3);
    opened = maze_open_all(half, sizeof half, sends, sizeof sends);
    printf("send %u of the job: ", (unsigned)opened.sends);
    good &= say("refused", opened.number, MAZE_RECEIVE_REJECTED);
    good &= maze_arm(half, sizeof half, 7, 1) == MAZE_ACCEPTED;
    opened = maze_open_all(half, sizeof half, sends, sizeof sends);
    printf("%u sends of the job: ", (unsigned)opened.sends);
    good &= say("opened", opened.number, MAZE_ACCEPTED);

    book = maze_book(half, sizeof half, ports, sizeof ports, index_of, sizeof index_of);
    good &= say("the book", book.number, MAZE_ACCEPTED);
    say_book(book);

    /* the circuits of the book are open, so the table cannot take them a second time; it can once they are closed and their channels armed again */
    good &= say("the book, judged", maze_judge(half, sizeof half, ports, sizeof ports, index_of, sizeof index_of, book.circuits, book.hops), MAZE_BAD_BOOK_CIRCUIT);
    for (unsigned place = 0; place < book.circuits; place++) {
        unsigned circuit = maze_book_circuit(index_of, place), receive = maze_circuit_receive(half, circuit);
        good &= maze_close(half, sizeof half, (uint16_t)maze_circuit_node(circuit), (uint16_t)maze_circuit_channel(circuit)) == MAZE_ACCEPTED;
        good &= maze_arm(half, sizeof half, (uint16_t)maze_circuit_node(receive), (uint16_t)maze_circuit_channel(receive)) == MAZE_ACCEPTED;
    }
    good &= say("the book, once its circuits are closed", maze_judge(half, sizeof half, ports, sizeof ports, index_of, sizeof index_of, book.circuits, book.hops), MAZE_ACCEPTED);

    /* the second half's node n is node n + 8 of the cabinet */
    good &= maze_open(half, sizeof half, 0, 0, 7, MAZE_TYPE_MAZE, 7).number == MAZE_ACCEPTED;
    good &= say("two halves joined", maze_join(half, sizeof half, half, sizeof half, whole, sizeof whole), MAZE_ACCEPTED);
    book = maze_book(whole, sizeof whole, ports, sizeof ports, index_of, sizeof index_of);
    good &= say("the book of the cabinet", book.number, MAZE_ACCEPTED);
    say_book(book);
    return !good || ferror(stdout) || fflush(stdout) != 0;
}
