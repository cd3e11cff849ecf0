/*
 * checks.c: runs and compares what the documents say in figures.
 *
 * Document 01's worked numbers, its certificate example and its distance
 * example; 004's register table, its packet sizes (Table 22) and its packets
 * (Tables 25 to 29) as far as they are definite; then round trips through the
 * twin chain, and the refusals in their order. Written, like the program that
 * is checked, from documents 01, 02 and 004 and the readings in docs/DECISIONS.md;
 * shares no code with the proved crates. Prints how many checks ran and how
 * many failed.
 */
#include "checks.h"

#include <stdio.h>

static unsigned long checks, failed;

void check(int good, const char *what)
{
    checks++;
    if (good)
        return;
    failed++;
    if (failed <= 20)
        printf("failed: %s\n", what);
}

int main(void)
{
#define RUN(name) check_##name();
    PARTS(RUN)
    printf("%lu checks, %lu failed\n", checks, failed);
    return failed == 0 ? 0 : 1;
}
