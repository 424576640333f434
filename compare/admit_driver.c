/* Makes the admissions that come on standard input, and writes what each gave to standard output.

   A call comes as its kind, period, deadline and octets, the offsets from and until (4 bytes each; of a whole admission the
   offsets are not used), the lengths of its three buffers (4 bytes each), and what is in them: the bytes of the plan, the
   words of the route (4 bytes each), the bytes of the new plan. What goes back is the result, the number and the offset (4
   bytes each) and every byte of the three buffers, with the margin that lies before each. After each buffer lies a page that
   may not be touched; where a buffer is empty, every second call is given a null pointer. Numbers have their lowest byte
   first. The kind FLUSH is no call: what was answered so far is written out. The end of the input ends the program.

   With an argument the program spoils something in each call, so that a comparison which misses that is seen: 0 to 2
   change the last byte of a buffer after the call, 3 to 5 the byte before one, 6 the result, 7 the number, 8 the offset. */
#define _GNU_SOURCE
#include <stddef.h>

#include "conepalhui.h"
#include "lent.h"

enum { WHOLE, BETWEEN, FLUSH };
enum { PLAN, ROUTE, NEW_PLAN, BUFFERS };

struct head {
    uint32_t kind, period, deadline, octets, from, until, length[BUFFERS];
};

typedef conepalhui_admission answered;
static const size_t width[BUFFERS] = {sizeof(uint8_t), sizeof(uint32_t), sizeof(uint8_t)};
static const size_t spoiled[] = {offsetof(answered, result), offsetof(answered, number), offsetof(answered, offset)};

static __attribute__((noinline)) void make(const struct head *call, uint8_t *const *at, answered *to) {
    const uint32_t *route = (const uint32_t *)at[ROUTE], *length = call->length;
    if (call->kind == WHOLE)
        *to = conepalhui_admit(at[PLAN], length[PLAN], route, length[ROUTE], call->period, call->deadline, call->octets,
                               at[NEW_PLAN], length[NEW_PLAN]);
    else if (call->kind == BETWEEN)
        *to = conepalhui_admit_between(at[PLAN], length[PLAN], route, length[ROUTE], call->period, call->deadline,
                                       call->octets, call->from, call->until, at[NEW_PLAN], length[NEW_PLAN]);
    else
        fail("no such call");
}

#include "serve.h"
