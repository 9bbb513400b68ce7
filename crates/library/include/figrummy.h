/*
 * Charts and networks: check, flatten, run both machines, and tell how long they may wait. Weft breaks: count them in a window.
 *
 * Link with liblibrary.a (x86-64 Linux), which `rt lib` in crates/library writes to its out/. It keeps nothing between
 * calls, allocates nothing, and calls nothing back. A program that only runs networks can link libnetwork_in_place.a
 * instead (figrummy_network.h of the crate `network_in_place`), which has no chart in it.
 *
 * Everything that a function is given is the caller's before, during and after a call. A file or a list passes as a pointer to
 * its first element and the number of its elements; it is read, never written, and every call checks a file from its first byte
 * to its last. What a function writes, it is lent by a pointer: during the call nobody else may read or write it. What it is
 * lent by a pointer to const it reads and does not write. No two things given to one call may share memory where one of them
 * is written. A pointer is never null and is aligned; where the number of elements is 0, any such pointer will do.
 *
 * Charts and networks have versions 1 and 2, told by the first byte of the file; version 2 has advances. Every function takes
 * both, and the network of a chart has the version of the chart.
 *
 * Nothing wraps. Where a sum, difference or product in a guard on variables has an exact result outside signed 32 bits, the guard
 * does not hold, whatever its relation. 28 looks at every such operation of an assignment, and of an advance at what it stores.
 *
 * Each function answers 0, or the number of the first refusal that applies; no call is forbidden. A refused call changes
 * nothing that it was lent, not one byte.
 */
#ifndef FIGRUMMY_H
#define FIGRUMMY_H

#include <stddef.h>
#include <stdint.h>

#ifdef __cplusplus
extern "C" {
#endif

/* The numbers of elements of what is lent. What a chart or a network does not declare is 0. */
#ifndef FIGRUMMY_SIZES
#define FIGRUMMY_SIZES
enum {
    FIGRUMMY_AUTOMATA = 16,
    FIGRUMMY_VARIABLES = 16,
    FIGRUMMY_CLOCKS = 8
};
#endif
enum {
    FIGRUMMY_STATES = 48,
    FIGRUMMY_CHART_BYTES = 65536 /* a longer chart file is refused */
};

/*
 * Refusals of a chart file, all functions of charts, in order:
 *    1      under 11 or over 65,536 bytes, a version other than 1 and 2, or a wrong length
 *    2      a count outside its range
 *    3, 4   by place: a record's length that disagrees with its content or the file; a field out of range
 *    5..14  a rule of charts is broken, the rule of the smallest number
 */

/* Whether the file holds a chart. Refusals: 1 to 14. */
uint8_t figrummy_check_chart(const uint8_t *file, size_t file_length);

/*
 * The network of the chart in the file is written from out[0] on, and its number of bytes into *size. The bytes of out after
 * the network, and all of them on a refusal, stay as they were; so does *size on a refusal. Refusals: those of the check, then
 *   15  the network has over 1,024 edges
 *   16  the network has over out_length bytes
 * A network can be far longer than its chart: the labels of a transition are there once for each of its alternatives.
 */
uint8_t figrummy_flatten(const uint8_t *file, size_t file_length, uint8_t *out, size_t out_length, size_t *size);

/*
 * A chart's configuration: a byte for each state, 1 where it is active and 0 where it is not, the variables, the clocks. Any
 * bytes may be lent: one that is neither 0 nor 1, also that of a state that the chart does not have, is refused by 17. Refusals
 * of the next four functions: those of the check, then in order
 *   17  the configuration is not one of this chart, or breaks a bound (step, wait, longest wait)
 *   18  the list is not 1 to 16 numbers of transitions, strictly ascending (step)
 *   19  a transition of the list is not active (step)
 *   22  no ticks, or a clock would pass 2,147,483,647 (wait)
 *   20  the transitions of the list are not an allowed set (step)
 *   28  a transition of the list has an assignment or an advance with a result outside signed 32 bits (step)
 *   21  the new configuration would break a bound (step, wait)
 */

/* The configuration in which the chart starts. What is lent need not be a configuration before. */
uint8_t figrummy_start_chart(const uint8_t *file, size_t file_length, uint8_t active[FIGRUMMY_STATES],
                             int32_t variables[FIGRUMMY_VARIABLES], uint32_t clocks[FIGRUMMY_CLOCKS]);

/* One step by the transitions whose numbers, from 0 in the order of the file, are in the list. */
uint8_t figrummy_step_chart(const uint8_t *file, size_t file_length, uint8_t active[FIGRUMMY_STATES],
                            int32_t variables[FIGRUMMY_VARIABLES], uint32_t clocks[FIGRUMMY_CLOCKS],
                            const uint16_t *list, size_t list_length);

/* A wait of so many ticks. */
uint8_t figrummy_wait_chart(const uint8_t *file, size_t file_length, uint8_t active[FIGRUMMY_STATES],
                            int32_t variables[FIGRUMMY_VARIABLES], uint32_t clocks[FIGRUMMY_CLOCKS], uint32_t ticks);

/*
 * The longest wait, into *ticks: a wait is accepted exactly for 1 tick up to so many. It is 0 where no wait is accepted, at most
 * 2,147,483,647 less the greatest clock, and 4,294,967,295 where the chart has no clock. On a refusal *ticks stays as it was.
 */
uint8_t figrummy_longest_wait_chart(const uint8_t *file, size_t file_length, const uint8_t active[FIGRUMMY_STATES],
                                    const int32_t variables[FIGRUMMY_VARIABLES], const uint32_t clocks[FIGRUMMY_CLOCKS],
                                    uint32_t *ticks);

/*
 * A network's configuration: the location of each automaton, its eight flags (bit i for exit i), the variables, the clocks.
 * Refusals of the next four functions, in order:
 *   24  the version of the file is neither 1 nor 2, or a count or a length is wrong
 *   25  a field of the file is out of range; of 24 and 25 the first from left to right. Then also: the file breaks a rule
 *   26  the configuration is not one of this network, or breaks a bound (step, wait, longest wait)
 *   18  the list is not 1 to 16 numbers of edges, strictly ascending (step)
 *   19  an edge of the list is not active (step)
 *   22  no ticks, or a clock would pass 2,147,483,647 (wait)
 *   27  an urgent location is occupied: no edge of the list leaves one (step), or a wait
 *   20  the edges of the list are not an allowed set (step)
 *   28  an edge of the list has an assignment or an advance with a result outside signed 32 bits (step)
 *   21  the new configuration would break a bound (step, wait)
 */

/* The configuration in which the network starts. What is lent need not be a configuration before. */
uint8_t figrummy_start_network(const uint8_t *file, size_t file_length, uint8_t locations[FIGRUMMY_AUTOMATA],
                               uint8_t flags[FIGRUMMY_AUTOMATA], int32_t variables[FIGRUMMY_VARIABLES],
                               uint32_t clocks[FIGRUMMY_CLOCKS]);

/* One step along the edges whose numbers, from 0 in the order of the file, are in the list. */
uint8_t figrummy_step_network(const uint8_t *file, size_t file_length, uint8_t locations[FIGRUMMY_AUTOMATA],
                              uint8_t flags[FIGRUMMY_AUTOMATA], int32_t variables[FIGRUMMY_VARIABLES],
                              uint32_t clocks[FIGRUMMY_CLOCKS], const uint16_t *list, size_t list_length);

/* A wait of so many ticks. */
uint8_t figrummy_wait_network(const uint8_t *file, size_t file_length, uint8_t locations[FIGRUMMY_AUTOMATA],
                              uint8_t flags[FIGRUMMY_AUTOMATA], int32_t variables[FIGRUMMY_VARIABLES],
                              uint32_t clocks[FIGRUMMY_CLOCKS], uint32_t ticks);

/*
 * The longest wait, into *ticks, as of a chart. It is 0 too where an urgent location is occupied, and 4,294,967,295 where none is
 * and the network has no clock. On a refusal *ticks stays as it was.
 */
uint8_t figrummy_longest_wait_network(const uint8_t *file, size_t file_length, const uint8_t locations[FIGRUMMY_AUTOMATA],
                                      const uint8_t flags[FIGRUMMY_AUTOMATA], const int32_t variables[FIGRUMMY_VARIABLES],
                                      const uint32_t clocks[FIGRUMMY_CLOCKS], uint32_t *ticks);

/*
 * The ticks of weft breaks, none smaller than the one before it; equal ticks are as many breaks. The most breaks within `window`
 * consecutive ticks, wherever they begin, into *breaks, and into *first the first tick of the earliest window that has so many and
 * begins at a break. A window is not cut at 4,294,967,295. No breaks give 0 and 0. The list may have any length, and the time goes
 * with its length alone. Refusal:
 *   29  the window has no tick, also with no breaks, or a tick is smaller than the one before it; *breaks and *first stay as they were
 */
uint8_t figrummy_weft_breaks(const uint32_t *ticks, size_t ticks_length, uint32_t window, size_t *breaks, uint32_t *first);

#ifdef __cplusplus
}
#endif

#endif
