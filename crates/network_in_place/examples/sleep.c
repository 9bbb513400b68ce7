/*
 * A board that sleeps. Its network is an oil pump that rests for 20 ticks and then runs for 3, twice. The board asks how long it
 * may wait, sleeps as long, and wakes when something has to be done: a bound is reached or an urgent location is occupied.
 * Written to standard output: where the pump is before each sleep or step, and the longest wait there.
 */
#include <stdbool.h>
#include <stdio.h>

#include "figrummy_network.h"

static const uint8_t pump[] = {
    1, 0, 0, 0, 135,                /* version, and the length of the rest */
    1, 4, 0, 4, 1, 1, 0, 0,         /* automata, locations, edges (two bytes), clocks, variables, channels of both kinds */
    7, 0, 0, 1, 0, 0, 0, 20,        /* location 0, resting: of automaton 0, not urgent, initial, the clock is at most 20 */
    7, 0, 0, 0, 0, 0, 0, 3,         /* location 1, running: the clock is at most 3 */
    7, 0, 1, 0, 255, 255, 255, 255, /* location 2, counting: urgent, no bound */
    7, 0, 0, 0, 255, 255, 255, 255, /* location 3, done: no bound */
    0, 15, 0, 1, 255, 255, 0, 0, 0, 0, 0, 0, 0, 255, 1, 0, 0, /* edge 0, from resting to running: the clock is reset */
    0, 24, 1, 2, 255, 255, 0, 0, 0, 0, 0, 0, 0, 255, 0, 0, 1, /* edge 1, from running to counting, */
    0, 2, 1, 0, 0, 0, 0, 0, 1,                                /*   with the assignment v0 := v0 + 1 */
    0, 24, 2, 0, 255, 255, 0, 0, 0, 0, 0, 0, 0, 255, 1, 1, 0, /* edge 2, from counting to resting: the clock is reset, */
    0, 0, 1, 0, 0, 0, 0, 0, 2,                                /*   with the guard v0 < 2 */
    0, 24, 2, 3, 255, 255, 0, 0, 0, 0, 0, 0, 0, 255, 1, 1, 0, /* edge 3, from counting to done: the clock is reset, */
    0, 3, 1, 0, 0, 0, 0, 0, 2,                                /*   with the guard v0 >= 2 */
};

enum {
    EDGES = 4,
    SHIFT = 100000 /* ticks; a board on which nothing is due for as long may be switched off */
};

static const char *const names[] = {"resting", "running", "counting", "done"};

static struct figrummy_configuration board;

/* Takes the first edge that can be taken. Its number, or EDGES if there is none. */
static uint16_t take_first(void)
{
    uint16_t edge = 0;
    while (edge < EDGES && figrummy_step_in_place(pump, sizeof pump, &board, &edge, 1) != 0)
        edge++;
    return edge;
}

/* What the board does next. Whether there is anything. */
static bool act(uint32_t longest)
{
    if (longest >= SHIFT) {
        printf(" nothing is due\n");
        return false;
    }
    if (longest > 0) {
        printf(" sleep\n"); /* for as many ticks; the wait that follows is accepted */
        return figrummy_wait_in_place(pump, sizeof pump, &board, longest) == 0;
    }
    uint16_t edge = take_first();
    printf(" edge %u\n", edge);
    return edge < EDGES;
}

int main(void)
{
    uint32_t longest;
    uint8_t answer = figrummy_start_in_place(pump, sizeof pump, &board);
    if (answer != 0)
        return answer;
    do {
        answer = figrummy_longest_wait_in_place(pump, sizeof pump, &board, &longest);
        if (answer != 0)
            return answer;
        printf("%s, clock %u: longest wait %u,", names[board.locations[0]], board.clocks[0], longest);
    } while (act(longest));
    return 0;
}
