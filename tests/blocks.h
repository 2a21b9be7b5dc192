/* Blocks of bytes that are lent to a call, each by itself, so that what watches memory sees a byte that is read or written behind it. */
#ifndef BLOCKS_H
#define BLOCKS_H

#include <stddef.h>
#include <stdint.h>
#include <stdlib.h>
#include <string.h>

/* A block of these bytes alone. */
static uint8_t *block_of(const uint8_t *bytes, size_t length) {
    uint8_t *block = calloc(1, length);
    if (!block && length) exit(2);
    if (length) memcpy(block, bytes, length);
    return block;
}

/* Takes a block away. Answers whether it has these bytes. */
static int block_had(uint8_t *block, const uint8_t *bytes, size_t length) {
    int same = length == 0 || memcmp(block, bytes, length) == 0;
    free(block);
    return same;
}

#endif
