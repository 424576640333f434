/*
 * conepalhui-network.h: simple temporal networks, for C (C99 or later) and C++ (C++98 or later).
 *
 * A simple temporal network has events, numbered from 0 on, and constraints: the time of one event minus the time of
 * another is at most so much. It is for timing wishes, such as "the press stands still at most 40 ms after the light
 * curtain is cut" and "a message takes at least 2 ms". Either all of them can be kept together, and times that keep
 * them are given. Or they cannot, and some are named that contradict each other.
 *
 *     const int64_t constraints[] = {
 *         0, 1, 10, // from event 0 to event 1 at most 10
 *         1, 2, -4, // from event 1 to event 2 at most -4: event 2 comes first, by 4 or more
 *         2, 0, -6,
 *     };
 *     uint32_t chain[3];
 *     conepalhui_network_answer answer = conepalhui_network(3, constraints, 9, chain, 3);
 *
 * The result is CONEPALHUI_NETWORK_TIMES, and answer.times begins with -10, 0, -4. With -7 in the place of -6 no times
 * keep all three. The result is CONEPALHUI_NETWORK_CHAIN, answer.number is 3, and chain has the constraints 0, 1, 2, or
 * 1, 2, 0, or 2, 0, 1: the way from an event back to itself takes 0, and they allow it at most 10 - 4 - 7 = -1.
 *
 * Constraints. Each is three numbers: from, to, most. Constraint k, counted from 0, is the numbers 3k, 3k + 1 and
 * 3k + 2, and says
 *
 *     times[to] - times[from] <= most
 *
 * "At least" is the same the other way round: times[to] - times[from] >= least is the constraint to, from, -least. The
 * unit is the caller's, the same for all. An event may be constrained with itself, and two events more than once. Where
 * words is no multiple of three, the last constraint is cut.
 *
 * Times. Each constraint holds, none is above zero, and they are the latest such times: no others are later at any
 * event. They can go down to -127,000,000,000. Constraints speak of differences alone: subtract the time of one event
 * from all, and they keep them with that event at 0. THEN THEY ARE NO LONGER THE LATEST, nor the earliest in general:
 * of one constraint, event 1 minus event 0 at most 10, the times are 0 and 0, and with event 0 at 0 event 1 may be as
 * late as 10.
 *
 * TIMES SAY THAT IT CAN GO WELL, NOT THAT IT ALWAYS DOES. Where the parts of a way take 42 ms at worst and the wish
 * allows 40, times exist: those at which the parts are quick. To be sure that it is never late, ask for the contrary:
 * give every part its upper limit, LEAVE THE WISH OUT, and add that it takes 41 or more. A chain with that constraint
 * in it shows that this cannot be; a chain without it, that the others contradict each other.
 *
 * Chains. A chain is numbers of constraints. Each begins at the event where the one before it ends, the first where
 * the last ends; no event is met twice; the sum of their mosts is below zero. It is given exactly where no times exist.
 * WHICH CHAIN IS GIVEN MAY DIFFER between versions of the library. A chain can be checked by hand, or with
 * conepalhui_network_chain(3, constraints, 9, chain, answer.number).
 *
 * Refusals, 100 + number as a result, in this order. A refusal writes nothing.
 *
 *   result  position  cause
 *   127     0         more than 128 events, or more than 2,048 constraints. A last one that is cut counts
 *   116     k         constraint k, and none before it, is cut, names an event that is not there, or has a most out of
 *                     range
 *   115     0         conepalhui_network alone: chain has fewer numbers than there are events, even where times exist
 *
 * What holds of every call
 *
 * Any numbers may be handed in. Each call ends. A pointer and the length that follows it lend memory to the call, until
 * it returns. EVERY LENGTH COUNTS NUMBERS, NOT BYTES: words is three times the number of constraints. A pointer may be
 * null where its length is 0. Memory that is only read may overlap; the chain that conepalhui_network writes may not
 * overlap other lent memory, and nobody else may use it during the call. Nothing is kept between calls, and there is no
 * memory from the heap: calls from several threads at once do not concern each other.
 *
 * This header belongs to the version that conepalhui.h tells. Neither needs the other; both may be included and linked.
 * './conepalhui library' proves the calls and builds the archive. It is for x86-64 and the System V calling convention
 * (Linux), and needs no more of other libraries than memset, memcpy and memmove:
 *
 *     cc -Iinclude program.c .built/libconepalhui-network.a
 *
 * and of an installed copy: cc program.c $(pkg-config --cflags --libs conepalhui). A whole program: examples/network.c.
 */
#ifndef CONEPALHUI_NETWORK_H
#define CONEPALHUI_NETWORK_H

#include <stddef.h>
#include <stdint.h>

#define CONEPALHUI_NETWORK_EVENTS 128        /* no network has more events */
#define CONEPALHUI_NETWORK_CONSTRAINTS 2048  /* nor more constraints */
#define CONEPALHUI_NETWORK_MOST 1000000000   /* the most of a constraint is from minus this number to this number */
#define CONEPALHUI_NETWORK_STACK_BYTES 16384 /* no call was seen to use more, with its answer: measured, not proved */

enum {
    CONEPALHUI_NETWORK_TIMES = 0,    /* times that keep all constraints */
    CONEPALHUI_NETWORK_CHAIN = 1,    /* a closed chain with a negative sum: no times keep all constraints */
    CONEPALHUI_NETWORK_BROKEN = 2,   /* the tested times break a constraint */
    CONEPALHUI_NETWORK_NO_CHAIN = 3, /* what was tested is no such chain */
    CONEPALHUI_NETWORK_REFUSED = 100 /* plus the number of the refusal: 115, 116 or 127 */
};

/* What conepalhui_network gives. It has 1,032 bytes, and comes by value. */
struct conepalhui_network_answer {
    uint32_t result; /* 0, 1, 115, 116 or 127 */
    uint32_t number; /* as the call says */
    /* Those of unused events are 0. Look at the result first: where it is not 0, all are 0, and are no answer. */
    int64_t times[CONEPALHUI_NETWORK_EVENTS];
};
typedef struct conepalhui_network_answer conepalhui_network_answer;

/* What a test gives. */
struct conepalhui_network_verdict {
    uint32_t result; /* 0 to 3, 116 or 127 */
    uint32_t number; /* as each test says */
};
typedef struct conepalhui_network_verdict conepalhui_network_verdict;

#ifdef __cplusplus
extern "C" {
#endif

/*
 * Finds times that keep all constraints, or a chain that shows that there are none. The chain stands in the first
 * numbers of chain, and those after it are what they were; where times are given, all of them are.
 *
 *   result                          number
 *   0 CONEPALHUI_NETWORK_TIMES      0
 *   1 CONEPALHUI_NETWORK_CHAIN      how many constraints the chain has, from 1 to events
 *   127, 116, 115                   the refusal's position
 */
conepalhui_network_answer conepalhui_network(size_t events, const int64_t *constraints, size_t words, uint32_t *chain,
                                             size_t chain_len);

/*
 * Tests times, whoever made them: whether they keep all constraints, and not whether they are the latest. Any numbers
 * will do, also above zero. An event past the end of times has no time, and a constraint on it is not kept. Times past
 * the last event are not looked at.
 *
 *   result                          number
 *   0 CONEPALHUI_NETWORK_TIMES      0: kept
 *   2 CONEPALHUI_NETWORK_BROKEN     the lowest constraint that is not kept
 *   127, 116                        the refusal's position
 */
conepalhui_network_verdict conepalhui_network_times(size_t events, const int64_t *constraints, size_t words,
                                                    const int64_t *times, size_t times_len);

/*
 * Tests a chain, whoever made it: all chain_len numbers, so give no more of them than conepalhui_network told. One that
 * passes shows that no times keep all constraints.
 *
 *   result                          number
 *   1 CONEPALHUI_NETWORK_CHAIN      0: a closed chain with a negative sum
 *   3 CONEPALHUI_NETWORK_NO_CHAIN   0: it is empty, has a number of no constraint, is not linked or closed, meets an
 *                                   event twice, or its sum is not below zero
 *   127, 116                        the refusal's position
 */
conepalhui_network_verdict conepalhui_network_chain(size_t events, const int64_t *constraints, size_t words,
                                                    const uint32_t *chain, size_t chain_len);

#ifdef __cplusplus
}
#endif

/* The number of the refusal that a result tells, or 0 where it tells none. */
static inline uint32_t conepalhui_network_refusal(uint32_t result)
{
    return result > CONEPALHUI_NETWORK_REFUSED ? result - CONEPALHUI_NETWORK_REFUSED : 0;
}

/* A result in words. */
static inline const char *conepalhui_network_text(uint32_t result)
{
    switch (result) {
    case CONEPALHUI_NETWORK_TIMES: return "times that keep all constraints";
    case CONEPALHUI_NETWORK_CHAIN: return "a closed chain with a negative sum: no times keep all constraints";
    case CONEPALHUI_NETWORK_BROKEN: return "the tested times break a constraint";
    case CONEPALHUI_NETWORK_NO_CHAIN: return "what was tested is no such chain";
    case CONEPALHUI_NETWORK_REFUSED + 15: return "chain has fewer numbers than there are events";
    case CONEPALHUI_NETWORK_REFUSED + 16: return "a constraint is cut, names an event that is not there, or has a most "
                                                 "out of range";
    case CONEPALHUI_NETWORK_REFUSED + 27: return "more than 128 events, or more than 2,048 constraints";
    default: return "this is no result of Conepalhui";
    }
}

#endif
