/* Makes the calls for gate lists that come on standard input, and writes what each gave to standard output.

   A call comes as its kind, the link (4 bytes each; of a read it is not used), the lengths of its three buffers (4 bytes
   each), and what is in them: the bytes of a plan file or of a list file, the bytes that are lent for a list, the words that
   are lent for what is read (4 bytes each). What goes back is the result and the number (4 bytes each) and every byte of the
   three buffers, with the margin that lies before each. After each buffer lies a page that may not be touched; where a buffer
   is empty, every second call is given a null pointer. Numbers have their lowest byte first. The kind FLUSH is no call: what
   was answered so far is written out. The end of the input ends the program.

   With an argument the program spoils something in each call, so that a comparison which misses that is seen: 0 to 2
   change the last byte of a buffer after the call, 3 to 5 the byte before one, 6 the result, 7 the number. */
#define _GNU_SOURCE
#include <stddef.h>

#include "conepalhui.h"
#include "lent.h"

enum { GATES, READ, FLUSH };
enum { FILE_BYTES, LIST, WORDS, BUFFERS };

struct head {
    uint32_t kind, link, length[BUFFERS];
};

typedef conepalhui_answer answered;
static const size_t width[BUFFERS] = {sizeof(uint8_t), sizeof(uint8_t), sizeof(uint32_t)};
static const size_t spoiled[] = {offsetof(answered, result), offsetof(answered, number)};

static __attribute__((noinline)) void make(const struct head *call, uint8_t *const *at, answered *to) {
    const uint32_t *length = call->length;
    if (call->kind == GATES)
        *to = conepalhui_gates(at[FILE_BYTES], length[FILE_BYTES], call->link, at[LIST], length[LIST]);
    else if (call->kind == READ)
        *to = conepalhui_read_gates(at[FILE_BYTES], length[FILE_BYTES], (uint32_t *)at[WORDS], length[WORDS]);
    else
        fail("no such call");
}

#include "serve.h"
