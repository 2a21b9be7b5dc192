/* The library on a board with no C library: this file brings memset and memcpy, which are all that the library asks for, a start and a way out. It opens
 * the circuit of the patent's figure 7, and says over which ports.
 *
 *     gcc -O2 -ffreestanding -nostdlib -static -Iinclude examples/freestanding.c target/staticlib/libmaze.a -o freestanding
 *
 * What stands below `The board` is for Linux on x86-64, so that it can be tried here; a board has its own. */
#include <maze.h>

static uint8_t table[MAZE_TABLE_BYTES];

/* Through a volatile pointer, so that the compiler does not make a call of the function itself out of its loop. */
void *memset(void *bytes, int value, size_t count) {
    volatile uint8_t *at = bytes;
    while (count--) *at++ = (uint8_t)value;
    return bytes;
}

void *memcpy(void *to, const void *from, size_t count) {
    volatile uint8_t *at = to;
    const uint8_t *next = from;
    while (count--) *at++ = *next++;
    return to;
}

/* ---- The board ---- */

static long ask_kernel(long call, long first, const void *second, long third) {
    long answer;
    __asm__ volatile("syscall" : "=a"(answer) : "a"(call), "D"(first), "S"(second), "d"(third) : "rcx", "r11", "memory");
    return answer;
}

static long put(const char *text, long bytes) {
    return ask_kernel(1, 1, text, bytes) == bytes;
}

static _Noreturn void leave(int status) {
    for (;;) ask_kernel(60, status, 0, 0);
}

/* ---- The circuit ---- */

static int run(void) {
    char line[] = "ports          \n";
    uint8_t ports[MAZE_TRACE_BYTES];
    maze_traced traced;
    if (maze_make(table, sizeof table, 3) != MAZE_ACCEPTED || maze_arm(table, sizeof table, 7, 0) != MAZE_ACCEPTED) return 1;
    if (maze_block(table, sizeof table, 1, 2) != MAZE_ACCEPTED || maze_block(table, sizeof table, 3, 2) != MAZE_ACCEPTED) return 1;
    if (maze_open(table, sizeof table, 0, 0, 7, MAZE_TYPE_MAZE, 7).number != MAZE_ACCEPTED) return 1;
    traced = maze_trace(table, sizeof table, 0, 0, ports, sizeof ports);
    if (traced.number != MAZE_ACCEPTED) return 1;
    for (unsigned hop = 0; hop < traced.hops; hop++) line[6 + hop] = (char)('0' + ports[hop]);
    line[6 + traced.hops] = '\n';
    return !put(line, 7 + traced.hops);
}

/* The stack is aligned to 16 bytes where a call is made: the kernel starts a program with it aligned, and without the address that a call would have put
 * there. */
void start(void) {
    leave(run());
}
__asm__(".globl _start\n_start: xor %ebp, %ebp\n call start");
