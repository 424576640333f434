/* Makes the calls on networks that come on standard input, and writes what each gave to standard output.

   A call comes as its number of events (8 bytes), its kind (4 bytes), the lengths of its three buffers (4 bytes each), and
   what is in them: the words of the constraints (8 bytes each), times (8), words of a chain (4). What goes back is the
   call's result and its number (4 bytes each), 128 times (8 bytes each; of a test they are 0) and every byte of the three
   buffers, with the margin that lies before each. After each buffer lies a page that may not be touched; where a buffer is
   empty, every second call is given a null pointer. Numbers have their lowest byte first. The kind FLUSH is no call: what
   was answered so far is written out. The end of the input ends the program.

   With an argument the program spoils something in each call, so that a comparison which misses that is seen: 0 to 2
   change the last byte of a buffer after the call, 3 to 5 the byte before one, 6 the result, 7 the number, 8 the last
   of the times. */
#define _GNU_SOURCE
#include <stddef.h>
#include <string.h>

#include "conepalhui-network.h"
#include "lent.h"

enum { SOLVE, TIMES, CHAIN, FLUSH };
enum { WORDS, GIVEN, LENT, BUFFERS };
enum { EVENTS = 128 };

struct head {
    uint64_t events;
    uint32_t kind, length[BUFFERS];
};

typedef conepalhui_network_answer answered;
static const size_t width[BUFFERS] = {sizeof(int64_t), sizeof(int64_t), sizeof(uint32_t)};
static const size_t spoiled[] = {offsetof(answered, result), offsetof(answered, number),
                                 offsetof(answered, times[EVENTS - 1])};

static __attribute__((noinline)) void make(const struct head *call, uint8_t *const *at, answered *to) {
    const int64_t *words = (const int64_t *)at[WORDS], *times = (const int64_t *)at[GIVEN];
    conepalhui_network_verdict verdict;
    switch (call->kind) {
    case SOLVE: {
        conepalhui_network_answer answer =
            conepalhui_network(call->events, words, call->length[WORDS], (uint32_t *)at[LENT], call->length[LENT]);
        *to = answer;
        return;
    }
    case TIMES:
        verdict = conepalhui_network_times(call->events, words, call->length[WORDS], times, call->length[GIVEN]);
        break;
    case CHAIN:
        verdict = conepalhui_network_chain(call->events, words, call->length[WORDS], (const uint32_t *)at[LENT],
                                           call->length[LENT]);
        break;
    default: fail("no such call");
    }
    memset(to, 0, sizeof *to);
    to->result = verdict.result;
    to->number = verdict.number;
}

#include "serve.h"
