/* Counting what a test has checked. A test that fails is printed with its name and two numbers, the first 40 of them. */
#ifndef EXPECT_H
#define EXPECT_H

#include <stdio.h>

static unsigned passed, failed;

static void expect(int ok, const char *what, unsigned long a, unsigned long b) {
    if (ok) passed++;
    else if (failed++ < 40) printf("failed: %s %lu %lu\n", what, a, b);
}

/* The last line of a test, and its exit status. */
static int verdict(void) {
    printf("%u passed, %u failed\n", passed, failed);
    return failed != 0;
}

#endif
