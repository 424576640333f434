/*
 * network_calls.c: every call of conepalhui-network.h at the numbers of the paper, at its limits, at every refusal, and
 * at the edges of its buffers.
 *
 * What is due stands here in numbers, worked out by hand. Only a chain may be any chain: whether it is one is told here
 * anew. Each call is made twice: once each lent buffer ends at a page that may not be touched, and once it begins after
 * one. What lies on its other side is compared. Where no numbers are lent, the pointer is once that page and once null.
 * The exit status is 0 only where all answers are those that are due. tests/network_c.test builds and runs it.
 */
#define _GNU_SOURCE

#include "conepalhui-network.h"

#include <inttypes.h>
#include <stdio.h>
#include <stdlib.h>
#include <string.h>
#include <sys/mman.h>

#include "stack.h"

#define ROOM 65536 /* bytes, as many as the largest lent buffer has */
#define PAGE 65536 /* as large as a page of any machine */
#define BESIDE 4096 /* so many bytes on the other side of a lent buffer are compared */
#ifndef MOST_FAULTS
#define MOST_FAULTS 10 /* after so many it ends */
#endif
#define ANY 0 /* no chain has this length */
#define UNTOUCHED 0xA5
#define EVENTS CONEPALHUI_NETWORK_EVENTS
#define MOST INT64_C(1000000000)
#define TOP INT64_MAX
#define BOTTOM INT64_MIN
/* The numbers of a list, and how many there are. */
#define NUMBERS(...) (const int64_t[]){__VA_ARGS__}, sizeof((int64_t[]){__VA_ARGS__}) / sizeof(int64_t)
#define CHAIN(...) (const uint32_t[]){__VA_ARGS__}, sizeof((uint32_t[]){__VA_ARGS__}) / sizeof(uint32_t)

static unsigned cases, faults;

static void fault(const char *name, const char *what)
{
    printf("WRONG %s: %s\n", name, what);
    if (++faults == MOST_FAULTS)
        exit(1);
}

/* ---- Lent buffers */

enum { AT_END, AT_BEGINNING, SIDES };
enum { CONSTRAINTS, TIMES, LINKS, BUFFERS };

static struct {
    uint8_t *memory; /* ROOM bytes between two pages that may not be touched */
    uint8_t *compared, before[ROOM]; /* the lent ones and those beside them, and what they were */
    size_t length;
    void *numbers; /* the lent ones */
} lent[BUFFERS];

static void make_buffers(void)
{
    for (int which = 0; which < BUFFERS; which++) {
        uint8_t *all = mmap(NULL, PAGE + ROOM + PAGE, PROT_NONE, MAP_PRIVATE | MAP_ANONYMOUS, -1, 0);
        if (all == MAP_FAILED || mprotect(all + PAGE, ROOM, PROT_READ | PROT_WRITE) != 0) {
            perror("network_calls");
            exit(2);
        }
        lent[which].memory = all + PAGE;
    }
}

/* Lends so many bytes on one side: these, or untouched ones where none are given. */
static void *lend(int which, int side, const void *bytes, size_t length)
{
    uint8_t *first = lent[which].memory + (side == AT_END ? ROOM - length : 0);
    lent[which].length = length + BESIDE < ROOM ? length + BESIDE : ROOM;
    lent[which].compared = lent[which].memory + (side == AT_END ? ROOM - lent[which].length : 0);
    memset(lent[which].compared, UNTOUCHED, lent[which].length);
    if (bytes != NULL && length > 0)
        memcpy(first, bytes, length);
    memcpy(lent[which].before, lent[which].compared, lent[which].length);
    lent[which].numbers = side == AT_BEGINNING && length == 0 ? NULL : first;
    return lent[which].numbers;
}

static void expect_untouched(const char *name, int which)
{
    if (memcmp(lent[which].before, lent[which].compared, lent[which].length) != 0)
        fault(name, which == LINKS ? "the numbers of the chain are not what is due" : "memory was written to");
}

/* ---- The network that is tried */

static struct {
    size_t events, words;
    int64_t constraints[ROOM / sizeof(int64_t)];
} given;

static void network(size_t events, const int64_t *constraints, size_t words)
{
    given.events = events;
    given.words = words;
    if (words > 0)
        memcpy(given.constraints, constraints, words * sizeof *constraints);
}

static void empty(size_t events)
{
    network(events, NULL, 0);
}

static void add(int64_t from, int64_t to, int64_t most)
{
    const int64_t numbers[] = {from, to, most};
    memcpy(given.constraints + given.words, numbers, sizeof numbers);
    given.words += 3;
}

/* Whether this is a closed chain with a negative sum. */
static int is_chain(const uint32_t *chain, size_t length)
{
    int met[EVENTS] = {0};
    int64_t sum = 0;
    for (size_t i = 0; i < length; i++)
        if (chain[i] >= given.words / 3)
            return 0;
    for (size_t i = 0; i < length; i++) {
        const int64_t *one = given.constraints + 3 * chain[i], *next = given.constraints + 3 * chain[(i + 1) % length];
        if (one[1] != next[0] || met[one[0]]++ > 0)
            return 0;
        sum += one[2];
    }
    return sum < 0;
}

/* ---- The calls, each beside what is due */

static void compare(const char *name, uint32_t result, uint32_t number, uint32_t due, uint32_t due_number)
{
    cases++;
    if (result != due || number != due_number) {
        fault(name, "another answer");
        printf("    it is %" PRIu32 " %" PRIu32 ", and %" PRIu32 " %" PRIu32 " is due\n", result, number, due,
               due_number);
    }
}

static conepalhui_network_answer call_solve(size_t chain_len)
{
    return conepalhui_network(given.events, lent[CONSTRAINTS].numbers, given.words, lent[LINKS].numbers, chain_len);
}

static conepalhui_network_verdict call_times(size_t length)
{
    return conepalhui_network_times(given.events, lent[CONSTRAINTS].numbers, given.words, lent[TIMES].numbers, length);
}

static conepalhui_network_verdict call_chain(size_t length)
{
    return conepalhui_network_chain(given.events, lent[CONSTRAINTS].numbers, given.words, lent[LINKS].numbers, length);
}

static void lend_constraints(int side)
{
    lend(CONSTRAINTS, side, given.constraints, given.words * sizeof *given.constraints);
}

static void test_times(const char *name, const int64_t *times, size_t length, uint32_t due, uint32_t number)
{
    for (int side = 0; side < SIDES; side++) {
        lend_constraints(side);
        lend(TIMES, side, times, length * sizeof *times);
        conepalhui_network_verdict verdict = call_times(length);
        compare(name, verdict.result, verdict.number, due, number);
        expect_untouched(name, CONSTRAINTS);
        expect_untouched(name, TIMES);
    }
}

static void kept(const char *name, const int64_t *times, size_t length)
{
    test_times(name, times, length, CONEPALHUI_NETWORK_TIMES, 0);
}

static void broken(const char *name, const int64_t *times, size_t length, uint32_t constraint)
{
    test_times(name, times, length, CONEPALHUI_NETWORK_BROKEN, constraint);
}

static void test_chain(const char *name, const uint32_t *chain, size_t length, uint32_t due, uint32_t number)
{
    for (int side = 0; side < SIDES; side++) {
        lend_constraints(side);
        lend(LINKS, side, chain, length * sizeof *chain);
        conepalhui_network_verdict verdict = call_chain(length);
        compare(name, verdict.result, verdict.number, due, number);
        expect_untouched(name, CONSTRAINTS);
        expect_untouched(name, LINKS);
    }
}

static void chained(const char *name, const uint32_t *chain, size_t length)
{
    test_chain(name, chain, length, CONEPALHUI_NETWORK_CHAIN, 0);
}

static void unchained(const char *name, const uint32_t *chain, size_t length)
{
    test_chain(name, chain, length, CONEPALHUI_NETWORK_NO_CHAIN, 0);
}

/* All 128 times are due, of which these are the first and the others 0. */
static void expect_times(const char *name, const conepalhui_network_answer *answer, const int64_t *times, size_t length)
{
    for (size_t event = 0; event < EVENTS; event++)
        if (answer->times[event] != (event < length ? times[event] : 0)) {
            fault(name, "another time");
            printf("    event %zu is at %" PRId64 "\n", event, answer->times[event]);
            return;
        }
}

/* The solver gives these times, and no number of the chain is written. The test takes them. */
static void solved(const char *name, size_t chain_len, const int64_t *times, size_t length)
{
    for (int side = 0; side < SIDES; side++) {
        lend_constraints(side);
        lend(LINKS, side, NULL, chain_len * sizeof(uint32_t));
        conepalhui_network_answer answer = call_solve(chain_len);
        compare(name, answer.result, answer.number, CONEPALHUI_NETWORK_TIMES, 0);
        expect_untouched(name, CONSTRAINTS);
        expect_untouched(name, LINKS);
        expect_times(name, &answer, times, length);
        kept(name, answer.times, given.events);
    }
}

/*
 * The solver gives a chain of so many constraints, and none is written past it. The test takes it. Such a network has
 * one chain, which may begin anywhere; where there are several, ANY length will do.
 */
static void contradicted(const char *name, size_t chain_len, uint32_t due)
{
    uint32_t chain[EVENTS];
    for (int side = 0; side < SIDES; side++) {
        lend_constraints(side);
        uint32_t *links = lend(LINKS, side, NULL, chain_len * sizeof *links);
        conepalhui_network_answer answer = call_solve(chain_len);
        uint32_t length = due == ANY && answer.number <= given.events ? answer.number : due;
        compare(name, answer.result, answer.number, CONEPALHUI_NETWORK_CHAIN, length);
        expect_times(name, &answer, NULL, 0);
        expect_untouched(name, CONSTRAINTS);
        memcpy(chain, links, length * sizeof *chain);
        memset(links, UNTOUCHED, length * sizeof *links);
        expect_untouched(name, LINKS);
        if (!is_chain(chain, length))
            fault(name, "this is no chain");
        chained(name, chain, length);
    }
}

/* The solver refuses this and writes nothing. */
static void unsolved(const char *name, size_t chain_len, uint32_t due, uint32_t at)
{
    for (int side = 0; side < SIDES; side++) {
        lend_constraints(side);
        lend(LINKS, side, NULL, chain_len * sizeof(uint32_t));
        conepalhui_network_answer answer = call_solve(chain_len);
        compare(name, answer.result, answer.number, due, at);
        expect_times(name, &answer, NULL, 0);
        expect_untouched(name, CONSTRAINTS);
        expect_untouched(name, LINKS);
    }
}

/* All three calls refuse this, whatever else they are given. */
static void refused(const char *name, uint32_t due, uint32_t at)
{
    static const int64_t times[EVENTS + 2];
    unsolved(name, EVENTS + 2, due, at);
    unsolved(name, 0, due, at);
    test_times(name, times, EVENTS + 2, due, at);
    test_times(name, NULL, 0, due, at);
    test_chain(name, CHAIN(0), due, at);
    test_chain(name, NULL, 0, due, at);
}

/* ---- Networks that are solved */

static void numbers_of_the_paper(void)
{
    network(3, NUMBERS(0, 1, 10, 1, 2, -4, 2, 0, -6));
    solved("the paper's", 3, NUMBERS(-10, 0, -4));
    solved("the paper's, with more room", 9, NUMBERS(-10, 0, -4));
    network(3, NUMBERS(0, 1, 10, 1, 2, -4, 2, 0, -7));
    contradicted("the paper's, with -7", 3, 3);
    contradicted("the paper's, with -7 and more room", 9, 3);
}

static void small_networks(void)
{
    empty(0);
    solved("no event", 0, NULL, 0);
    solved("no event, with room", 4, NULL, 0);
    empty(1);
    solved("one event", 1, NUMBERS(0));
    empty(EVENTS);
    solved("no constraint", EVENTS, NULL, 0);
    for (int64_t most = 0; most < 2; most++) {
        network(1, NUMBERS(0, 0, most));
        solved("an event with itself", 1, NUMBERS(0));
    }
    network(1, NUMBERS(0, 0, -1));
    contradicted("an event before itself", 1, 1);
    network(5, NUMBERS(0, 1, 5, 1, 2, 5, 3, 3, -MOST, 2, 0, 5));
    contradicted("an event before itself, among others", 5, 1);
    network(3, NUMBERS(0, 1, 5, 0, 1, -3, 0, 1, 4));
    solved("two events, three constraints", 3, NUMBERS(0, -3, 0));
    network(3, NUMBERS(0, 2, -3, 0, 2, 9, 2, 0, 2, 2, 0, 7));
    contradicted("two events, two ways back", 3, 2);
    network(4, NUMBERS(3, 2, -1, 2, 1, -20, 3, 1, -2, 1, 0, 300));
    solved("the shorter way is not the tighter", 4, NUMBERS(0, -21, -1, 0));
    network(4, NUMBERS(0, 1, -5, 2, 3, 5, 3, 2, -6));
    contradicted("a chain apart from other constraints", 4, 2);
    network(2, NUMBERS(0, 1, MOST, 1, 0, -MOST));
    solved("both limits", 2, NUMBERS(-MOST, 0));
    network(2, NUMBERS(0, 1, MOST - 1, 1, 0, -MOST));
    contradicted("both limits, one less", 2, 2);
    network(3, NUMBERS(0, 1, -MOST, 1, 2, -MOST, 2, 0, -MOST));
    contradicted("a sum below 32 bits", 3, 3);
    network(3, NUMBERS(0, 1, MOST, 1, 2, MOST, 2, 0, MOST));
    solved("a sum above 32 bits", 3, NUMBERS(0, 0, 0));
}

enum { FORWARD, BACKWARD, ORDERS };

/* A ring of 128 events, each at most -1 after the one before it, with this sum. Constraints stand in either order. */
static void ring(int order, int64_t sum)
{
    empty(EVENTS);
    for (int64_t i = 0; i < EVENTS; i++) {
        int64_t from = order == FORWARD ? i : EVENTS - 1 - i;
        add(from, (from + 1) % EVENTS, from == EVENTS - 1 ? EVENTS - 1 + sum : -1);
    }
}

/* 128 events in a row, each at most so much after the one before it. */
static void add_row(int order, int64_t most)
{
    for (int64_t i = 0; i < EVENTS - 1; i++) {
        int64_t from = order == FORWARD ? i : EVENTS - 2 - i;
        add(from, from + 1, most);
    }
}

static void row(int order, int64_t most)
{
    empty(EVENTS);
    add_row(order, most);
}

static void long_networks(void)
{
    int64_t steps[EVENTS], lowest[EVENTS];
    for (int i = 0; i < EVENTS; i++) {
        steps[i] = -i;
        lowest[i] = -MOST * i;
    }
    for (int order = 0; order < ORDERS; order++) {
        ring(order, 1);
        solved("a ring, sum 1", EVENTS, steps, EVENTS);
        ring(order, 0);
        solved("a ring, sum 0", EVENTS, steps, EVENTS);
        ring(order, -1);
        contradicted("a ring, sum -1", EVENTS, EVENTS);
        contradicted("a ring, sum -1, with more room", EVENTS + 9, EVENTS);
        row(order, -MOST);
        solved("the lowest times", EVENTS, lowest, EVENTS); /* to -127,000,000,000 */
        add(EVENTS - 1, 0, MOST);
        contradicted("the lowest times and back", EVENTS, EVENTS);
        row(order, -MOST);
        add(EVENTS - 1, 0, -MOST);
        contradicted("the lowest sum", EVENTS, EVENTS); /* -128,000,000,000 */
        row(order, MOST);
        add(EVENTS - 1, 0, MOST);
        solved("the highest sum", EVENTS, NULL, 0);
        empty(EVENTS);
        add(1, 0, -1);
        add_row(order, 0);
        contradicted("a chain of two, and a row from it", EVENTS, 2);
        row(order, -MOST);
        add(EVENTS - 1, EVENTS - 2, MOST - 1);
        contradicted("a chain of two, and a row to it", EVENTS, 2);
        row(order, -1);
        add(64, 62, 1);
        contradicted("a chain of three, and rows to it and from it", EVENTS, 3);
    }
}

/* Each of so many events comes before each, itself too or not: there are many chains. */
static void many_chains(int64_t events, int is_itself)
{
    empty((size_t)events);
    for (int64_t from = 0; from < events; from++)
        for (int64_t to = 0; to < events; to++)
            if (from != to || is_itself)
                add(from, to, -1 - (from * 7 + to * 5) % 11);
    contradicted("many chains", (size_t)events, ANY);
}

/* 2,048 constraints: a row or a ring, and then constraints that always hold. */
static void fill(size_t constraints)
{
    while (given.words < 3 * constraints)
        add((int64_t)(given.words % EVENTS), (int64_t)(given.words / EVENTS % EVENTS), MOST);
}

static void most_constraints(void)
{
    int64_t steps[EVENTS];
    for (int i = 0; i < EVENTS; i++)
        steps[i] = -i;
    ring(BACKWARD, 0);
    fill(CONEPALHUI_NETWORK_CONSTRAINTS);
    solved("2,048 constraints", EVENTS, steps, EVENTS);
    ring(BACKWARD, 0);
    fill(CONEPALHUI_NETWORK_CONSTRAINTS - 1);
    add(7, 6, 0);
    contradicted("the last of 2,048 contradicts", EVENTS, 2);
    fill(CONEPALHUI_NETWORK_CONSTRAINTS + 1);
    refused("2,049 constraints", 127, 0);
    given.words -= 1;
    refused("2,049 constraints, the last cut to two numbers", 127, 0);
    given.words -= 1;
    refused("2,049 constraints, the last cut to one number", 127, 0);
    given.words -= 2;
    refused("2,048 constraints, the last cut to two numbers", 116, 2047);
    given.words -= 1;
    refused("2,048 constraints, the last cut to one number", 116, 2047);
    given.words -= 1;
    solved("2,047 constraints", EVENTS, steps, EVENTS);
    given.words = ROOM / sizeof(int64_t);
    refused("2,731 constraints", 127, 0);
}

/* ---- Refusals */

/* Four constraints on five events, of which the second is this. The limits are in range, and one past them is not. */
static void second(int64_t from, int64_t to, int64_t most)
{
    network(5, NUMBERS(0, 1, 5, from, to, most, 2, 3, 5, 3, 4, 5));
}

static void constraints_out_of_range(void)
{
    static const int64_t events[] = {5, 6, -1, 128, -128, 4294967296, 4294967297, -4294967295, TOP, BOTTOM, BOTTOM + 1};
    static const int64_t mosts[] = {MOST + 1, -MOST - 1, 4294967296, -4294967296, TOP, BOTTOM};
    for (size_t i = 0; i < sizeof events / sizeof *events; i++) {
        second(events[i], 1, 5);
        refused("from an event that is not there", 116, 1);
        second(1, events[i], 5);
        refused("to an event that is not there", 116, 1);
    }
    for (size_t i = 0; i < sizeof mosts / sizeof *mosts; i++) {
        second(4, 0, mosts[i]);
        refused("a most out of range", 116, 1);
    }
    second(4, 0, MOST);
    solved("the highest most", 5, NUMBERS(0, 0, 0, 0, 0));
    second(4, 0, -MOST);
    solved("the lowest most", 5, NUMBERS(-MOST, 5 - MOST, 0, 0, 0));
    second(0, 4, -MOST);
    solved("the last event", 5, NUMBERS(0, 0, 0, 0, -MOST));
    network(0, NUMBERS(0, 0, 0));
    refused("a constraint on no event", 116, 0);
    network(5, NUMBERS(0, 1, 5, 0, 1, 5, 5, 1, 5, -1, 1, 5));
    refused("the lower of two", 116, 2);
    network(5, NUMBERS(0, 1, 5, 0, 1, MOST + 1, 5, 1, 5));
    refused("a most before an event", 116, 1);
    for (size_t words = 1; words < 3; words++) {
        network(5, NUMBERS(0, 1, 5));
        given.words = words;
        refused("the only constraint is cut", 116, 0);
        network(5, NUMBERS(0, 1, 5, 1, 2, 5, 9, 9, 9));
        given.words = 6 + words;
        refused("the last constraint is cut", 116, 2);
        network(5, NUMBERS(0, 1, 5, 1, 5, 5, 0, 1, 5));
        given.words = 6 + words;
        refused("another before the one that is cut", 116, 1);
    }
}

static void too_many_events(void)
{
    static const size_t events[] = {129, 256, 4294967296, 4294967297, SIZE_MAX - 1, SIZE_MAX};
    for (size_t i = 0; i < sizeof events / sizeof *events; i++) {
        empty(events[i]);
        refused("too many events", 127, 0);
        network(events[i], NUMBERS(0, 1, 5, -1, 1, 5));
        refused("27 before 16, events", 127, 0);
    }
    empty(5);
    fill(CONEPALHUI_NETWORK_CONSTRAINTS + 1);
    given.constraints[0] = -1;
    refused("27 before 16, constraints", 127, 0);
}

/* 15 comes last, and also where times exist. That 27 and 16 come before it: the calls above have no room once. */
static void too_few_words(void)
{
    network(3, NUMBERS(0, 1, 10, 1, 2, -4, 2, 0, -6));
    for (size_t words = 0; words < 3; words++)
        unsolved("room for fewer, and times", words, 115, 0);
    network(3, NUMBERS(0, 1, 10, 1, 2, -4, 2, 0, -7));
    for (size_t words = 0; words < 3; words++)
        unsolved("room for fewer, and a chain", words, 115, 0);
    network(3, NUMBERS(0, 0, -1));
    unsolved("room for the chain, and not for each event", 2, 115, 0);
    contradicted("exactly enough", 3, 1);
    empty(1);
    unsolved("no room, no constraint", 0, 115, 0);
    empty(EVENTS);
    unsolved("room for 127", EVENTS - 1, 115, 0);
}

/* ---- Tests of times */

static void times_of_others(void)
{
    network(3, NUMBERS(0, 1, 10, 1, 2, -4, 2, 0, -6));
    kept("the paper's, later", NUMBERS(990, 1000, 996));
    kept("the paper's, far earlier", NUMBERS(-1000010, -1000000, -1000004));
    broken("the first is broken", NUMBERS(-11, 0, -4), 0);
    broken("the second is broken", NUMBERS(-10, 0, -3), 1);
    broken("the last is broken", NUMBERS(-9, 0, -4), 2);
    broken("two are broken", NUMBERS(0, 0, 0), 1);
    broken("all are broken", NUMBERS(0, 11, 8), 0);
    kept("a time of no event", NUMBERS(-10, 0, -4, 7));
    kept("many times of no event", NUMBERS(-10, 0, -4, TOP, BOTTOM, 0, TOP));
    network(3, NUMBERS(0, 1, 10, 1, 2, -4, 2, 0, -7));
    broken("times where there are none", NUMBERS(-10, 0, -4), 2);
    network(2, NUMBERS(0, 0, 0, 1, 1, 3, 0, 0, -1));
    broken("an event before itself", NUMBERS(5, 6), 2);
}

static void short_lists(void)
{
    network(3, NUMBERS(0, 1, 10, 0, 0, 0, 2, 0, 5, 1, 2, 5));
    kept("three times", NUMBERS(0, 0, 0));
    broken("two times", NUMBERS(0, 0), 2);
    broken("two times, and one is broken before", NUMBERS(0, 11), 0);
    broken("one time", NUMBERS(0), 0);
    broken("no times", NULL, 0, 0);
    network(3, NUMBERS(0, 0, 0, 0, 2, MOST));
    broken("to an event without a time", NUMBERS(0, 0), 1);
    network(3, NUMBERS(0, 0, 0, 2, 0, MOST));
    broken("from an event without a time", NUMBERS(0, 0), 1);
    network(3, NUMBERS(0, 0, 0, 2, 2, MOST));
    broken("an event without a time, with itself", NUMBERS(0, 0), 1);
    network(3, NUMBERS(0, 1, 0));
    kept("an event without a time, and without a constraint", NUMBERS(0, 0));
    empty(3);
    kept("no times, no constraint", NULL, 0);
    empty(0);
    kept("no times, no event", NULL, 0);
    kept("times, no event", NUMBERS(TOP, BOTTOM));
}

/* The difference of two times may be far beyond 64 bits. */
static void far_times(void)
{
    static const struct {
        int64_t from, to, most; /* the lowest most that is kept, where one is */
    } differ[] = {
        {TOP, TOP, 0},           {BOTTOM, BOTTOM, 0},      {BOTTOM, BOTTOM + MOST, MOST},
        {TOP - MOST, TOP, MOST}, {TOP, TOP - MOST, -MOST}, {BOTTOM + MOST, BOTTOM, -MOST},
        {TOP - 1, TOP, 1},       {BOTTOM + 1, BOTTOM, -1}, {TOP - 8, TOP - 3, 5},
    };
    static const int64_t too_late[][2] = {
        {BOTTOM, TOP}, {BOTTOM, 0},          {-1, TOP},                   {0, TOP},
        {BOTTOM, -1},  {BOTTOM + MOST, TOP}, {BOTTOM, BOTTOM + MOST + 1}, {TOP - MOST - 1, TOP},
    };
    static const int64_t early[][2] = {
        {TOP, BOTTOM}, {0, BOTTOM},          {TOP, -1},         {1, BOTTOM},
        {TOP, 0},      {TOP, BOTTOM + MOST}, {TOP, TOP - MOST}, {BOTTOM + MOST, BOTTOM},
    };
    for (size_t i = 0; i < sizeof differ / sizeof *differ; i++) {
        network(2, NUMBERS(1, 1, 0, 0, 1, differ[i].most));
        kept("far times that just hold", NUMBERS(differ[i].from, differ[i].to));
        if (differ[i].most > -MOST) {
            network(2, NUMBERS(1, 1, 0, 0, 1, differ[i].most - 1));
            broken("far times that just do not", NUMBERS(differ[i].from, differ[i].to), 1);
        }
    }
    for (int64_t most = -MOST; most <= MOST; most += MOST) {
        network(2, NUMBERS(1, 1, 0, 0, 1, most));
        for (size_t i = 0; i < sizeof too_late / sizeof *too_late; i++)
            broken("far too late", NUMBERS(too_late[i][0], too_late[i][1]), 1);
        for (size_t i = 0; i < sizeof early / sizeof *early; i++)
            kept("far earlier", NUMBERS(early[i][0], early[i][1]));
    }
    network(2, NUMBERS(1, 1, -1));
    broken("the lowest time, with itself", NUMBERS(0, BOTTOM), 0);
    broken("the highest time, with itself", NUMBERS(0, TOP), 0);
}

/* ---- Tests of chains */

static void chains_of_others(void)
{
    network(3, NUMBERS(0, 1, 10, 1, 2, -4, 2, 0, -7));
    chained("from the first", CHAIN(0, 1, 2));
    chained("from the second", CHAIN(1, 2, 0));
    chained("from the third", CHAIN(2, 0, 1));
    unchained("backward", CHAIN(2, 1, 0));
    unchained("exchanged", CHAIN(0, 2, 1));
    unchained("empty", NULL, 0);
    unchained("not closed", CHAIN(0, 1));
    unchained("not closed, one", CHAIN(2));
    unchained("not linked", CHAIN(1, 0));
    unchained("twice", CHAIN(0, 1, 2, 0, 1, 2));
    unchained("one more", CHAIN(0, 1, 2, 0));
    unchained("no constraint's number", CHAIN(0, 1, 3));
    unchained("no constraint's number, alone", CHAIN(3));
    unchained("the highest number", CHAIN(UINT32_MAX, 1, 2));
    unchained("the highest number, last", CHAIN(0, 1, UINT32_MAX));
    unchained("a number whose place is past 32 bits", CHAIN(0, 1, 1431655767)); /* three times it is 5 there */
    network(3, NUMBERS(0, 1, 10, 1, 2, -4, 2, 0, -6));
    unchained("sum 0", CHAIN(0, 1, 2));
    network(3, NUMBERS(0, 1, 10, 1, 2, -4, 2, 0, -5));
    unchained("sum 1", CHAIN(1, 2, 0));
    empty(3);
    unchained("no constraint", CHAIN(0));
    unchained("no constraint, empty", NULL, 0);
    network(2, NUMBERS(0, 1, 5, 0, 1, -5, 1, 0, 1));
    chained("the tighter of two", CHAIN(1, 2));
    unchained("the other of two", CHAIN(0, 2));
    unchained("both of two", CHAIN(0, 1));
    network(2, NUMBERS(1, 1, -1, 1, 1, 0, 0, 1, -5, 1, 0, -5));
    chained("an event with itself", CHAIN(0));
    unchained("an event with itself, sum 0", CHAIN(1));
    unchained("an event with itself, twice", CHAIN(0, 0));
    unchained("an event with itself, in a longer chain", CHAIN(2, 0, 3));
    unchained("an event with itself, after a chain", CHAIN(2, 3, 0));
}

static void sums_and_crossings(void)
{
    network(5, NUMBERS(0, 1, -1, 1, 0, -1, 0, 2, -1, 2, 0, -1, 3, 4, -9, 4, 3, -9));
    unchained("two chains that meet", CHAIN(0, 1, 2, 3));
    unchained("two chains apart", CHAIN(0, 1, 4, 5));
    chained("either of two", CHAIN(2, 3));
    chained("the other of two", CHAIN(5, 4));
    network(3, NUMBERS(0, 1, MOST, 1, 2, MOST, 2, 0, MOST, 0, 1, -MOST, 1, 2, -MOST, 2, 0, -MOST));
    unchained("a sum above 32 bits", CHAIN(0, 1, 2));
    chained("a sum below 32 bits", CHAIN(3, 4, 5));
    unchained("the highest and the lowest", CHAIN(0, 4));
    network(5, NUMBERS(0, 1, -MOST, 1, 2, -MOST, 2, 3, -MOST, 3, 4, -MOST, 4, 0, -294967296));
    chained("a sum of -2^32", CHAIN(0, 1, 2, 3, 4)); /* its low 32 bits are 0 */
}

static void long_chains(void)
{
    static uint32_t all[ROOM / sizeof(uint32_t)];
    for (int64_t sum = -1; sum < 2; sum++) {
        ring(FORWARD, sum);
        for (uint32_t i = 0; i < sizeof all / sizeof *all; i++)
            all[i] = (i + 64) % EVENTS;
        test_chain("all of a ring", all, EVENTS, sum < 0 ? CONEPALHUI_NETWORK_CHAIN : CONEPALHUI_NETWORK_NO_CHAIN, 0);
        unchained("all but one of a ring", all, EVENTS - 1);
        unchained("one more than a ring", all, EVENTS + 1);
        unchained("a ring twice", all, 2 * EVENTS);
        unchained("a ring many times", all, sizeof all / sizeof *all);
    }
    row(FORWARD, -MOST);
    add(EVENTS - 1, 0, -MOST);
    chained("the lowest sum", all, EVENTS);
}

/* ---- The header's own */

static void layout_and_helpers(void)
{
    const conepalhui_network_answer answer = {0, 0, {0}};
    const char *none = conepalhui_network_text(100);
    cases++;
    if (sizeof answer != 1032 || offsetof(conepalhui_network_answer, times) != 8 ||
        sizeof(conepalhui_network_verdict) != 8)
        fault("layout", "another one");
    if (EVENTS != 128 || CONEPALHUI_NETWORK_CONSTRAINTS != 2048 || CONEPALHUI_NETWORK_MOST != MOST)
        fault("limits", "others");
    for (uint32_t result = 0; result < 300; result++) {
        uint32_t refusal = result == 115 || result == 116 || result == 127 ? result - 100 : 0;
        int is_result = result < 4 || refusal != 0;
        cases++;
        if ((result <= 100 || refusal != 0) && conepalhui_network_refusal(result) != refusal)
            fault("helpers", "refusal");
        if ((strcmp(conepalhui_network_text(result), none) != 0) != is_result)
            fault("helpers", "text");
    }
}

/* ---- The stack */

static conepalhui_network_answer last_answer;

static void stack_solve(void)
{
    last_answer = call_solve(EVENTS);
}

static void stack_times(void)
{
    last_answer.result = call_times(EVENTS).result;
}

static void stack_chain(void)
{
    last_answer.result = call_chain(EVENTS).result;
}

static void stacks(void)
{
    static const struct {
        const char *name;
        void (*call)(void);
    } calls[] = {{"solve", stack_solve}, {"times", stack_times}, {"chain", stack_chain}};
    uint32_t all[EVENTS];
    int64_t zeros[EVENTS] = {0};
    for (uint32_t i = 0; i < EVENTS; i++)
        all[i] = i;
    for (size_t i = 0; i < sizeof calls / sizeof *calls; i++) {
        size_t most = 0;
        for (int64_t sum = -1; sum < 2; sum++) {
            ring(sum < 0 ? FORWARD : BACKWARD, sum);
            fill(CONEPALHUI_NETWORK_CONSTRAINTS);
            lend_constraints(AT_END);
            lend(TIMES, AT_END, zeros, sizeof zeros);
            lend(LINKS, AT_END, all, sizeof all);
            size_t used = stack_of(calls[i].call);
            most = used > most ? used : most;
        }
        cases++;
        if (most > CONEPALHUI_NETWORK_STACK_BYTES)
            fault(calls[i].name, "it uses more of the stack than the header says");
        printf("stack of %s: %zu bytes\n", calls[i].name, most);
    }
}

int main(void)
{
    make_buffers();
    numbers_of_the_paper();
    small_networks();
    constraints_out_of_range();
    too_many_events();
    too_few_words();
    times_of_others();
    short_lists();
    far_times();
    chains_of_others();
    sums_and_crossings();
    layout_and_helpers();
    many_chains(2, 1);
    many_chains(12, 0);
    many_chains(45, 1);
    many_chains(45, 0);
    long_chains();
    long_networks();
    most_constraints();
    stacks();
    printf("%u calls, %u faults\n", cases, faults);
    return faults == 0 ? 0 : 1;
}
