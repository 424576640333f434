/*
 * network.c: timing wishes of a press cell. It tells times that keep them all, and after one wish more which of them
 * contradict each other. An argument is the number of the event at which the times begin; without one it is 0.
 *
 * examples/README.md says how to build and run it.
 */
#include "conepalhui-network.h"

#include <assert.h>
#include <inttypes.h>
#include <stdio.h>
#include <stdlib.h>

enum { CUT, SEEN, SENT, HELD, STILL, EVENTS };

static const char *const names[EVENTS] = {"the light curtain is cut", "the cut is seen", "the stop message is sent",
                                          "the brake holds", "the press stands still"};

static int64_t constraints[3 * CONEPALHUI_NETWORK_CONSTRAINTS];
static size_t words;

/* Event to comes at most so many ms after event from. */
static void at_most(int from, int to, int64_t most)
{
    assert(words + 3 <= sizeof constraints / sizeof *constraints);
    constraints[words++] = from;
    constraints[words++] = to;
    constraints[words++] = most;
}

/* Event to comes at least so many ms after event from: seen from there, at most minus so many. */
static void at_least(int from, int to, int64_t least)
{
    at_most(to, from, -least);
}

static void print_times(const int64_t *times, int first)
{
    for (int event = 0; event < EVENTS; event++)
        printf("%6" PRId64 " ms  %s\n", times[event] - times[first], names[event]);
}

/* A chain may begin with any of its constraints: it is printed from the lowest on, each with the sum so far. */
static void print_chain(const uint32_t *chain, uint32_t length)
{
    uint32_t lowest = 0;
    int64_t sum = 0;
    for (uint32_t i = 1; i < length; i++)
        lowest = chain[i] < chain[lowest] ? i : lowest;
    for (uint32_t i = 0; i < length; i++) {
        const int64_t *one = &constraints[3 * chain[(lowest + i) % length]];
        const char *from = names[one[0]], *to = names[one[1]];
        sum += one[2];
        if (one[2] >= 0)
            printf("%6" PRId64 " ms  %s at most %" PRId64 " ms after %s\n", sum, to, one[2], from);
        else
            printf("%6" PRId64 " ms  %s at least %" PRId64 " ms after %s\n", sum, from, -one[2], to);
    }
}

static void solve(int first)
{
    uint32_t chain[EVENTS];
    conepalhui_network_answer answer = conepalhui_network(EVENTS, constraints, words, chain, EVENTS);
    printf("%zu constraints: %s\n", words / 3, conepalhui_network_text(answer.result));
    if (answer.result == CONEPALHUI_NETWORK_TIMES) {
        print_times(answer.times, first);
    } else if (answer.result == CONEPALHUI_NETWORK_CHAIN) {
        print_chain(chain, answer.number);
    } else {
        fprintf(stderr, "network: refused %" PRIu32 " %" PRIu32 "\n", conepalhui_network_refusal(answer.result),
                answer.number);
        exit(2);
    }
}

int main(int argc, char **argv)
{
    int first = argc > 1 ? argv[1][0] - '0' : CUT;
    if (argc > 2 || first < 0 || first >= EVENTS || (argc > 1 && argv[1][1] != '\0')) {
        fprintf(stderr, "network: give one event at most, a number from 0 to %d\n", EVENTS - 1);
        return 4;
    }
    at_most(CUT, STILL, 40);
    at_least(CUT, SEEN, 1);
    at_most(CUT, SEEN, 5);
    at_least(SEEN, SENT, 1);
    at_least(SENT, HELD, 2);
    at_least(HELD, STILL, 20);
    at_most(HELD, STILL, 25);
    solve(first);
    at_least(SENT, HELD, 20); /* a slower brake */
    solve(first);
    return 0;
}
