/* What the examples count with. */
#ifndef CHECK_H
#define CHECK_H

#include <stdio.h>

static int checks, failures;

static void check(int holds, const char *what)
{
    checks++;
    if (!holds) {
        failures++;
        fprintf(stderr, "does not hold: %s\n", what);
    }
}

/* Prints how many checks there were; the exit status. */
static int verdict(void)
{
    printf("%d checks, %d failed\n", checks, failures);
    return failures != 0;
}

#endif
