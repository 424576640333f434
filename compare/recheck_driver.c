/* Makes the rechecks that come on standard input, and writes what each gave to standard output.

   A call comes as its kind, the leg and the length of the plan (4 bytes each), and the bytes of the plan. What goes back is
   the result, the number, the leg and the place (4 bytes each) and every byte of the plan, with the margin that lies before
   it. After the plan lies a page that may not be touched; where it is empty, every second call is given a null pointer.
   Numbers have their lowest byte first. The kind FLUSH is no call: what was answered so far is written out. The end of the
   input ends the program.

   With an argument the program spoils something in each call, so that a comparison which misses that is seen: 0 changes the
   last byte of the plan after the call, 1 the byte before it, 2 the result, 3 the number, 4 the leg, 5 the place. */
#define _GNU_SOURCE
#include <stddef.h>

#include "conepalhui.h"
#include "lent.h"

enum { RECHECK, FLUSH };
enum { PLAN, BUFFERS };

struct head {
    uint32_t kind, leg, length[BUFFERS];
};

typedef conepalhui_rechecked answered;
static const size_t width[BUFFERS] = {sizeof(uint8_t)};
static const size_t spoiled[] = {offsetof(answered, result), offsetof(answered, number),
                                 offsetof(answered, leg), offsetof(answered, place)};

static __attribute__((noinline)) void make(const struct head *call, uint8_t *const *at, answered *to) {
    if (call->kind != RECHECK) fail("no such call");
    *to = conepalhui_recheck(at[PLAN], call->length[PLAN], call->leg);
}

#include "serve.h"
