/* Makes the calls that come on standard input, and writes what each gave to standard output.

   A call comes as its kind and three numbers (4 bytes each), the lengths of its four buffers (4 bytes each), and the bytes
   of the buffers: plan, cursor, new plan, out. What goes back is the call's result and its number (4 bytes each; the number
   is 0 where the call gives none) and every byte of the four buffers, with the margin that lies before each. After each
   buffer lies a page that may not be touched. Numbers have their lowest byte first. The kind FLUSH is no call: what was
   answered so far is written out. The end of the input ends the program.

   With an argument the program spoils something in each call, so that a comparison which misses that is seen: 0 to 3
   change the last byte of a buffer after the call, 4 to 7 the byte before one. */
#define _GNU_SOURCE
#include <stdlib.h>
#include <string.h>

#include "conepalhui.h"
#include "lent.h"

enum { SLICE, SLICE_FULL, START, MOVE, CONVERT, FLUSH };
enum { KIND, NUMBER, OFFSET, PERIODS, NUMBERS };
enum { PLAN, CURSOR, NEW_PLAN, OUT, BUFFERS };

static conepalhui_answer made(const uint32_t *head, uint8_t *const *at, const uint32_t *length) {
    conepalhui_answer answer = {0, 0};
    switch (head[KIND]) {
    case SLICE:
        answer.result =
            conepalhui_slice(at[PLAN], length[PLAN], at[CURSOR], length[CURSOR], head[NUMBER], at[OUT], length[OUT]);
        return answer;
    case SLICE_FULL:
        return conepalhui_slice_full(at[PLAN], length[PLAN], at[CURSOR], length[CURSOR], head[NUMBER], at[OUT],
                                     length[OUT]);
    case START:
        return conepalhui_start(at[PLAN], length[PLAN], at[OUT], length[OUT]);
    case MOVE:
        return conepalhui_move(at[PLAN], length[PLAN], at[CURSOR], length[CURSOR], head[NUMBER], head[OFFSET],
                               head[PERIODS], at[NEW_PLAN], length[NEW_PLAN], at[OUT], length[OUT]);
    case CONVERT:
        return conepalhui_convert_first(at[PLAN], length[PLAN], at[NEW_PLAN], length[NEW_PLAN]);
    }
    fail("no such call");
    return answer;
}

/* Changes a byte of the buffer or before it. An empty buffer has no last byte. */
static void spoil(int what, uint8_t *const *at, const uint32_t *length) {
    int buffer = what % BUFFERS;
    if (what >= BUFFERS)
        at[buffer][-1] ^= 1;
    else if (length[buffer] > 0)
        at[buffer][length[buffer] - 1] ^= 1;
}

int main(int count, char **arguments) {
    uint8_t *end[BUFFERS], *at[BUFFERS];
    uint32_t head[NUMBERS + BUFFERS];
    const uint32_t *length = head + NUMBERS;
    for (int i = 0; i < BUFFERS; i++) end[i] = lent_end();
    while (fread(head, sizeof head, 1, stdin) == 1) {
        if (head[KIND] == FLUSH) {
            flush();
            continue;
        }
        for (int i = 0; i < BUFFERS; i++) {
            if (length[i] > MOST - MARGIN) fail("a buffer is too long");
            at[i] = end[i] - length[i];
            memset(at[i] - MARGIN, 0xA5, MARGIN);
            if (fread(at[i], 1, length[i], stdin) != length[i]) fail("the input ends in a call");
        }
        conepalhui_answer answer = made(head, at, length);
        if (count > 1) spoil(atoi(arguments[1]), at, length);
        put(&answer.result, sizeof answer.result);
        put(&answer.number, sizeof answer.number);
        for (int i = 0; i < BUFFERS; i++) put(at[i] - MARGIN, MARGIN + length[i]);
    }
    if (ferror(stdin) || fflush(stdout) != 0) fail("cannot read or write");
    return 0;
}
