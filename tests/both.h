/* Tables of both kinds side by side: what a kind has, and its calls, of the library and of the reference. */
#ifndef BOTH_H
#define BOTH_H

#include "reference.h"
#include "subject.h"

enum { NARROW_KIND, WIDE_KIND, KINDS };

static const struct kind {
    const char *name;
    unsigned bytes, ports, mask_bytes, enabled_at, links_at, receives_at, armed_at;
} kinds[KINDS] = {
    {"narrow", 8705, 8, 1, 1, 257, 4353, 8449},
    {"wide", 14338, 18, 3, 2, 770, 9986, 14082},
};

struct calls {
    uint16_t (*make)(uint8_t *, size_t, uint16_t);
    uint16_t (*block)(uint8_t *, size_t, uint16_t, uint16_t);
    uint16_t (*unblock)(uint8_t *, size_t, uint16_t, uint16_t);
    uint16_t (*arm)(uint8_t *, size_t, uint16_t, uint16_t);
    uint16_t (*disarm)(uint8_t *, size_t, uint16_t, uint16_t);
    maze_opened (*open)(uint8_t *, size_t, uint16_t, uint16_t, uint16_t, uint16_t, uint16_t);
    maze_opened_all (*open_all)(uint8_t *, size_t, const uint8_t *, size_t);
    uint16_t (*close)(uint8_t *, size_t, uint16_t, uint16_t);
    maze_traced (*trace)(const uint8_t *, size_t, uint16_t, uint16_t, uint8_t *, size_t);
    maze_booked (*book)(const uint8_t *, size_t, uint8_t *, size_t, uint8_t *, size_t);
    uint16_t (*judge)(const uint8_t *, size_t, const uint8_t *, size_t, const uint8_t *, size_t, uint16_t, uint16_t);
    uint16_t (*convert)(const uint8_t *, size_t, uint8_t *, size_t); /* to the other kind */
};

static const struct calls library[KINDS] = {
    {maze_make, maze_block, maze_unblock, maze_arm, maze_disarm, maze_open, maze_open_all, maze_close, maze_trace, maze_book, maze_judge, maze_widen},
    {maze_wide_make, maze_wide_block, maze_wide_unblock, maze_wide_arm, maze_wide_disarm, maze_wide_open, maze_wide_open_all, maze_wide_close, maze_wide_trace,
     maze_wide_book, maze_wide_judge, maze_narrow},
};

static const struct calls reference[KINDS] = {
    {ref_make, ref_block, ref_unblock, ref_arm, ref_disarm, ref_open, ref_open_all, ref_close, ref_trace, ref_book, ref_judge, ref_widen},
    {ref_wide_make, ref_wide_block, ref_wide_unblock, ref_wide_arm, ref_wide_disarm, ref_wide_open, ref_wide_open_all, ref_wide_close, ref_wide_trace, ref_wide_book,
     ref_wide_judge, ref_narrow},
};

/* A call, and what it answers and writes beside its table. Buffers and lists are those of the caller. */
enum call_of { MAKING, BLOCKING, UNBLOCKING, ARMING, DISARMING, OPENING, JOB, CLOSING, TRACING, BOOKING, JUDGING, CALLS };

struct arguments {
    enum call_of call;
    uint16_t number[5];
    uint8_t *sends, *buffer, *ports, *index;
    size_t sends_len, buffer_len, ports_len, index_len;
};

struct answer {
    unsigned long number, hops, receive, scouts, circuits; /* hops: or the sends of a job */
};

static struct answer call_on(const struct calls *calls, uint8_t *table, size_t table_len, const struct arguments *a) {
    struct answer answer = {0, 0, 0, 0, 0};
    const uint16_t *n = a->number;
    maze_opened opened;
    maze_opened_all job;
    maze_traced traced;
    maze_booked booked;
    switch (a->call) {
    case MAKING: answer.number = calls->make(table, table_len, n[0]); break;
    case BLOCKING: answer.number = calls->block(table, table_len, n[0], n[1]); break;
    case UNBLOCKING: answer.number = calls->unblock(table, table_len, n[0], n[1]); break;
    case ARMING: answer.number = calls->arm(table, table_len, n[0], n[1]); break;
    case DISARMING: answer.number = calls->disarm(table, table_len, n[0], n[1]); break;
    case OPENING:
        opened = calls->open(table, table_len, n[0], n[1], n[2], n[3], n[4]);
        answer.number = opened.number, answer.hops = opened.hops, answer.receive = opened.receive, answer.scouts = opened.scouts;
        break;
    case JOB:
        job = calls->open_all(table, table_len, a->sends, a->sends_len);
        answer.number = job.number, answer.hops = job.sends;
        break;
    case CLOSING: answer.number = calls->close(table, table_len, n[0], n[1]); break;
    case TRACING:
        traced = calls->trace(table, table_len, n[0], n[1], a->buffer, a->buffer_len);
        answer.number = traced.number, answer.hops = traced.hops;
        break;
    case BOOKING:
        booked = calls->book(table, table_len, a->ports, a->ports_len, a->index, a->index_len);
        answer.number = booked.number, answer.circuits = booked.circuits, answer.hops = booked.hops;
        break;
    default: answer.number = calls->judge(table, table_len, a->ports, a->ports_len, a->index, a->index_len, n[0], n[1]); break;
    }
    return answer;
}

static int same_answer(const struct answer *a, const struct answer *b) {
    return a->number == b->number && a->hops == b->hops && a->receive == b->receive && a->scouts == b->scouts && a->circuits == b->circuits;
}

#endif
