/* Memory with a page behind it that nobody may touch: a call that reads or writes one byte behind what it is lent ends the test. In front is another such page, and the
 * bytes between it and what is lent can be looked at. Its users define _DEFAULT_SOURCE first. */
#ifndef GUARDED_H
#define GUARDED_H

#include <signal.h>
#include <stdint.h>
#include <stdio.h>
#include <stdlib.h>
#include <string.h>
#include <sys/mman.h>
#include <unistd.h>

struct guarded {
    uint8_t *begin, *end; /* the page behind begins at `end` */
};

static void touched(int signal_number) {
    static const char said[] = "a byte was touched that was not lent, or written where it is only read\n";
    ssize_t written = write(STDOUT_FILENO, said, sizeof said - 1);
    (void)signal_number;
    _exit(written < 0 ? 3 : 1);
}

/* Room for so many bytes. */
static struct guarded guarded(size_t bytes) {
    const size_t page = (size_t)sysconf(_SC_PAGESIZE), pages = (bytes + page - 1) / page * page;
    uint8_t *all = mmap(NULL, pages + 2 * page, PROT_NONE, MAP_PRIVATE | MAP_ANONYMOUS, -1, 0);
    struct guarded room = {NULL, NULL};
    if (all == MAP_FAILED || mprotect(all + page, pages, PROT_READ | PROT_WRITE) != 0) {
        printf("no memory with pages around it\n");
        exit(2);
    }
    signal(SIGSEGV, touched);
    signal(SIGBUS, touched);
    room.begin = all + page;
    room.end = all + page + pages;
    return room;
}

/* The last so many bytes of it. */
static uint8_t *last_of(struct guarded room, size_t bytes) {
    return room.end - bytes;
}

/* Whether it may be written, or only read. */
static void may_be_written(struct guarded room, int yes) {
    if (mprotect(room.begin, (size_t)(room.end - room.begin), yes ? PROT_READ | PROT_WRITE : PROT_READ) != 0) exit(2);
}

#endif
