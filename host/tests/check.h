/* A test stops at the first thing that does not hold, and says which. PROGRAM, the test's name, is defined before this. */
#include <stdio.h>
#include <stdlib.h>

static unsigned long checks;

static void check(int holds, const char *what)
{
    checks++;
    if (!holds) {
        printf(PROGRAM ": wrong: %s\n", what);
        exit(1);
    }
}

/* The last line of a test that held. */
static int all_held(void)
{
    printf(PROGRAM ": %lu checks, all as they should be\n", checks);
    return 0;
}
