/*
 * Checks and flattens the sample `nested`, and takes two steps with its chart and the four moves that they are of its network.
 * Written to standard output: what each call answers, where the machines are after it, and how long they may wait.
 */
#include <stdbool.h>
#include <stdio.h>

#include "figrummy.h"

struct chart {
    uint8_t file[FIGRUMMY_CHART_BYTES + 1];
    size_t length;
    uint8_t active[FIGRUMMY_STATES];
    int32_t variables[FIGRUMMY_VARIABLES];
    uint32_t clocks[FIGRUMMY_CLOCKS];
};

struct network {
    uint8_t file[4096];
    size_t length;
    uint8_t locations[FIGRUMMY_AUTOMATA];
    uint8_t flags[FIGRUMMY_AUTOMATA];
    int32_t variables[FIGRUMMY_VARIABLES];
    uint32_t clocks[FIGRUMMY_CLOCKS];
};

static struct chart chart;
static struct network network;

/* The active states, or the refusal. */
static void print_chart(uint8_t answer)
{
    if (answer != 0) {
        printf(" refused, %u\n", answer);
        return;
    }
    printf(" states");
    for (int state = 0; state < FIGRUMMY_STATES; state++)
        if (chart.active[state])
            printf(" %d", state);
    printf("\n");
}

/* The locations of the two automata, or the refusal. */
static void print_network(uint8_t answer)
{
    if (answer != 0)
        printf(" refused, %u\n", answer);
    else
        printf(" locations %u %u\n", network.locations[0], network.locations[1]);
}

static void step_chart(uint16_t transition)
{
    printf("chart: transition %u:", transition);
    print_chart(figrummy_step_chart(chart.file, chart.length, chart.active, chart.variables, chart.clocks, &transition, 1));
}

static void step_network(const uint16_t *list, size_t count)
{
    printf("network: edges");
    for (size_t i = 0; i < count; i++)
        printf(" %u", list[i]);
    printf(":");
    print_network(figrummy_step_network(network.file, network.length, network.locations, network.flags, network.variables,
                                        network.clocks, list, count));
}

/* The longest wait of both machines. */
static void print_longest(void)
{
    uint32_t of_chart, of_network;
    uint8_t chart_answer = figrummy_longest_wait_chart(chart.file, chart.length, chart.active, chart.variables, chart.clocks,
                                                       &of_chart);
    uint8_t network_answer = figrummy_longest_wait_network(network.file, network.length, network.locations, network.flags,
                                                           network.variables, network.clocks, &of_network);
    if (chart_answer == 0 && network_answer == 0)
        printf("longest wait: chart %u, network %u\n", of_chart, of_network);
    else
        printf("longest wait: refused, %u and %u\n", chart_answer, network_answer);
}

/* The sample's file is read, checked and flattened; both machines start. Whether all of it succeeded. */
static bool open_sample(const char *name)
{
    FILE *input = fopen(name, "rb");
    if (input == NULL) {
        perror(name);
        return false;
    }
    chart.length = fread(chart.file, 1, sizeof chart.file, input);
    fclose(input);
    uint8_t answer = figrummy_check_chart(chart.file, chart.length);
    printf("check: %u\n", answer);
    if (answer != 0)
        return false;
    printf("flatten into 100 bytes: %u\n", figrummy_flatten(chart.file, chart.length, network.file, 100, &network.length));
    answer = figrummy_flatten(chart.file, chart.length, network.file, sizeof network.file, &network.length);
    printf("flatten into %zu bytes: %u, of which the network has %zu\n", sizeof network.file, answer, network.length);
    if (answer != 0)
        return false;
    printf("chart: start:");
    print_chart(figrummy_start_chart(chart.file, chart.length, chart.active, chart.variables, chart.clocks));
    printf("network: start:");
    print_network(figrummy_start_network(network.file, network.length, network.locations, network.flags, network.variables,
                                         network.clocks));
    return true;
}

int main(int count, char **arguments)
{
    if (count != 2) {
        fprintf(stderr, "usage: flatten CHART\n");
        return 2;
    }
    if (!open_sample(arguments[1]))
        return 1;
    /* A byte that is neither 0 nor 1 does not say whether the state is active, so no configuration is lent. */
    chart.active[1] = 2;
    step_chart(0);
    chart.active[1] = 1;
    /* Into the composite: the network's second move is the urgent one, from "pre" on. Before it the network may not wait. */
    step_chart(0);
    step_network((const uint16_t[]){0}, 1);
    print_longest();
    step_network((const uint16_t[]){2, 4}, 2);
    /* Nothing is owed, and there is no clock: both may wait as long as can be said. */
    print_longest();
    /* Out of it again, by the exit. */
    step_chart(1);
    step_network((const uint16_t[]){1}, 1);
    step_network((const uint16_t[]){3, 5}, 2);
    /* Neither can be left once more. */
    step_chart(1);
    step_network((const uint16_t[]){1}, 1);
    return 0;
}
