/*
 * The network machine, on a configuration that the caller keeps.
 *
 * Link with libnetwork_in_place.a (x86-64 Linux), which `rt lib` in crates/network_in_place writes to its out/. It
 * needs no other library, keeps nothing between calls, allocates nothing, and calls nothing back.
 *
 * Networks have versions 1 and 2, told by the first byte of the file; version 2 has advances. Every function takes both.
 *
 * Nothing wraps. Where a sum, difference or product in a guard on variables has an exact result outside signed 32 bits, the
 * guard does not hold, whatever its relation. 28 looks at every such operation of an assignment, and of an advance at what it
 * stores.
 *
 * A network file passes as its first byte and its length. It is read, never written, and every call checks it from its
 * first byte to its last. The file, the configuration, the list and the ticks are the caller's before, during and after a
 * call. During a call nobody else may write any of them, and nobody else may read what the call may write: the configuration
 * or, where that is const, the ticks. No two of them may share memory. A pointer is never null; where the length is 0, any
 * pointer that is not null and is aligned will do.
 */
#ifndef FIGRUMMY_NETWORK_H
#define FIGRUMMY_NETWORK_H

#include <stddef.h>
#include <stdint.h>

#ifdef __cplusplus
extern "C" {
#endif

#ifndef FIGRUMMY_SIZES
#define FIGRUMMY_SIZES
enum {
    FIGRUMMY_AUTOMATA = 16,
    FIGRUMMY_VARIABLES = 16,
    FIGRUMMY_CLOCKS = 8
};
#endif

/* 128 bytes, no padding. What the network does not declare is 0. */
struct figrummy_configuration {
    uint8_t locations[FIGRUMMY_AUTOMATA]; /* where each automaton is */
    uint8_t flags[FIGRUMMY_AUTOMATA];     /* of each automaton eight flags, bit i for exit i */
    int32_t variables[FIGRUMMY_VARIABLES];
    uint32_t clocks[FIGRUMMY_CLOCKS];
};

/*
 * Each function answers 0 if the configuration was moved on, or the longest wait was told, and otherwise the number of the
 * refusal. On a refusal the configuration is as it was, each byte of it, and so are the ticks. Refusals of the file come
 * first, then in the order in which they stand here:
 *   24  the version of the file is neither 1 nor 2, or a count or a length is wrong
 *   25  a field of the file is out of range; of 24 and 25 the first from left to right. Then also: the file breaks a rule
 *   26  the configuration is not one of this network, or breaks a bound (step, wait and longest wait)
 *   18  the list is not 1 to 16 numbers of edges, strictly ascending (step)
 *   19  an edge of the list is not active (step)
 *   22  no ticks, or a clock would pass 2,147,483,647 (wait)
 *   27  an urgent location is occupied: no edge of the list leaves one (step), or a wait
 *   20  the edges of the list are not an allowed set (step)
 *   28  an edge of the list has an assignment or an advance with a result outside signed 32 bits (step)
 *   21  the new configuration would break a bound (step and wait)
 */

/* The configuration in which the network starts. What stands in *configuration before does not matter. */
uint8_t figrummy_start_in_place(const uint8_t *file, size_t file_length, struct figrummy_configuration *configuration);

/* One step along the edges whose numbers, from 0 in the order of the file, are in the list. */
uint8_t figrummy_step_in_place(const uint8_t *file, size_t file_length, struct figrummy_configuration *configuration,
                      const uint16_t *list, size_t list_length);

/* A wait of so many ticks. */
uint8_t figrummy_wait_in_place(const uint8_t *file, size_t file_length, struct figrummy_configuration *configuration,
                      uint32_t ticks);

/*
 * The longest wait, into *ticks: a wait is accepted exactly for 1 tick up to so many, so that a board can sleep as long. It is
 * 0 where an urgent location is occupied or a clock is at a bound, at most 2,147,483,647 less the greatest clock, and
 * 4,294,967,295 where no urgent location is occupied and the network has no clock. The configuration is read, never written.
 */
uint8_t figrummy_longest_wait_in_place(const uint8_t *file, size_t file_length,
                      const struct figrummy_configuration *configuration, uint32_t *ticks);

#ifdef __cplusplus
}
#endif

#endif
