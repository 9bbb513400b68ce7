/*
 * Counts the weft breaks of a short list, the sample `breaks`, within windows of several lengths. Written to standard output: the
 * most breaks within each, and the first tick of the earliest window that has them, or the refusal, which leaves both as they were.
 */
#include <stdio.h>

#include "figrummy.h"

static const uint32_t ticks[] = { 120,  480,  481,  481,  495,  1020,       1100,
                                  1110, 1112, 1119, 1119, 4294967290u, 4294967295u };
static const size_t number = sizeof ticks / sizeof ticks[0];

static size_t breaks;
static uint32_t first;

static void count(const char *what, const uint32_t *list, size_t length, uint32_t window)
{
    uint8_t answer = figrummy_weft_breaks(list, length, window, &breaks, &first);
    printf("%s, %lu ticks:", what, (unsigned long)window);
    if (answer != 0)
        printf(" refused, %u, still", answer);
    printf(" %lu from %lu on\n", (unsigned long)breaks, (unsigned long)first);
}

int main(void)
{
    static const uint32_t falls[] = { 7, 9, 8 };

    count("no breaks", ticks, 0, 20);
    count("all breaks", ticks, number, 1);
    count("all breaks", ticks, number, 19);
    count("all breaks", ticks, number, 20);
    count("all breaks", ticks, number, 4294967295u);
    count("all breaks", ticks, number, 0);
    count("no breaks", ticks, 0, 0);
    count("a tick that falls", falls, 3, 20);
    return 0;
}
