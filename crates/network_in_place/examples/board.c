/*
 * A board that runs a network of one automaton: a lamp that is on for at most five ticks. Written to standard output: what each
 * call answers, and where the automaton and its clock are after it.
 */
#include <stdio.h>

#include "figrummy_network.h"

static const uint8_t lamp[] = {
    1, 0, 0, 0, 58,               /* version, and the length of the rest */
    1, 2, 0, 2, 1, 0, 0, 0,       /* automata, locations, edges (two bytes), clocks, variables, channels of both kinds */
    7, 0, 0, 1, 255, 255, 255, 255, /* location 0, off: of automaton 0, not urgent, initial, no bound on the clock */
    7, 0, 0, 0, 0, 0, 0, 5,       /* location 1, on: the clock is at most 5 */
    0, 15, 0, 1, 255, 255, 0, 0, 0, 0, 0, 0, 0, 255, 1, 0, 0, /* edge 0, from off to on: the clock is reset */
    0, 15, 1, 0, 255, 255, 0, 0, 0, 0, 0, 0, 0, 255, 0, 0, 0, /* edge 1, from on to off */
};

static struct figrummy_configuration board;

static void print(uint8_t answer)
{
    if (answer != 0)
        printf(" refused, %u;", answer);
    printf(" %s, clock %u\n", board.locations[0] == 1 ? "on" : "off", board.clocks[0]);
}

static void take(uint16_t edge)
{
    printf("edge %u:", edge);
    print(figrummy_step_in_place(lamp, sizeof lamp, &board, &edge, 1));
}

static void pass(uint32_t ticks)
{
    printf("wait %u:", ticks);
    print(figrummy_wait_in_place(lamp, sizeof lamp, &board, ticks));
}

int main(void)
{
    printf("start:");
    print(figrummy_start_in_place(lamp, sizeof lamp, &board));
    pass(30);
    take(0);
    pass(5);
    pass(1); /* the lamp may not be on for longer */
    take(1);
    take(1); /* it is off */
    return 0;
}
