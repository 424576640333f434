/* Makes the calls that explain a plan, which come on standard input, and writes what each gave to standard output.

   A call comes as its kind, the leg, the other leg or the place or the budget, and the lengths of its two buffers (4 bytes
   each), and what is in them: the bytes of the plan, and the words that are lent for the places of a survey (4 bytes each).
   What goes back is 12 numbers (8 bytes each: what the struct of the call has, in its order, and 0 for the rest) and every
   byte of the two buffers, with the margin that lies before each. After each buffer lies a page that may not be touched;
   where it is empty, every second call is given a null pointer. Numbers have their lowest byte first. The kind FLUSH is no
   call: what was answered so far is written out. The end of the input ends the program.

   A survey is a start, and slices of this budget that go on one place after each violated one. Its numbers are the result and
   the position of the start, or 0 and how many places are violated; leg, place and result of each go to the words, as far as
   there is room.

   With an argument the program spoils something in each call, so that a comparison which misses that is seen: 0 and 1 change
   the last byte of a buffer after the call, 2 and 3 the byte before one, 4 to 15 one of the numbers. */
#define _GNU_SOURCE
#include <stddef.h>
#include <string.h>

#include "conepalhui.h"
#include "lent.h"

enum { MEETING, MARGIN_AT, NEAREST, SURVEY, FLUSH };
enum { PLAN, PLACES, BUFFERS };
enum { NUMBERS = 12 };

struct head {
    uint32_t kind, leg, second, length[BUFFERS];
};

typedef struct {
    uint64_t number[NUMBERS];
} answered;
static const size_t width[BUFFERS] = {sizeof(uint8_t), sizeof(uint32_t)};
static const size_t spoiled[NUMBERS] = {0, 8, 16, 24, 32, 40, 48, 56, 64, 72, 80, 88};

/* Writes a cursor, and gives how many bytes it has. */
static size_t write_cursor(struct conepalhui_place place, uint8_t *to) {
    uint32_t numbers[3] = {place.revision, place.leg, place.place};
    size_t length = 0;
    for (int i = 0; i < 3; i++) {
        for (; numbers[i] >= 0x80; numbers[i] >>= 7) to[length++] = (uint8_t)(numbers[i] | 0x80);
        to[length++] = (uint8_t)numbers[i];
    }
    return length;
}

/* The place after one. The place after the last is the end. */
static struct conepalhui_place after(struct conepalhui_place place) {
    if (++place.place == 3 + place.leg) {
        place.leg++;
        place.place = 0;
    }
    return place;
}

static void survey(const struct head *call, const uint8_t *plan, uint32_t *words, answered *to) {
    uint8_t cursor[CONEPALHUI_CURSOR_BYTES], next[CONEPALHUI_CURSOR_BYTES];
    uint32_t length = call->length[PLAN], found = 0;
    conepalhui_answer answer = conepalhui_start(plan, length, cursor, sizeof cursor);
    if (answer.result != CONEPALHUI_GRANTED) {
        to->number[0] = answer.result;
        to->number[1] = answer.number;
        return;
    }
    size_t bytes = conepalhui_cursor_length(cursor);
    for (;;) {
        answer = conepalhui_slice_full(plan, length, cursor, bytes, call->second, next, sizeof next);
        if (answer.result == CONEPALHUI_NOTHING_VIOLATED) break;
        if (conepalhui_refusal(answer.result) != 0) fail("a slice of a survey is refused");
        struct conepalhui_place place = conepalhui_cursor_place(next);
        if (answer.result != CONEPALHUI_PAUSED) {
            if (3 * found + 3 <= call->length[PLACES]) {
                words[3 * found] = place.leg;
                words[3 * found + 1] = place.place;
                words[3 * found + 2] = answer.result;
            }
            found++;
            place = after(place);
        }
        bytes = write_cursor(place, cursor);
    }
    to->number[1] = found;
}

static void meeting(const struct head *call, const uint8_t *plan, answered *to) {
    conepalhui_first_meeting met = conepalhui_meeting(plan, call->length[PLAN], call->leg, call->second);
    uint64_t numbers[] = {met.result, met.position, met.first, met.second, met.instant};
    memcpy(to->number, numbers, sizeof numbers);
}

static void margin(const struct head *call, const uint8_t *plan, answered *to) {
    conepalhui_place_margin s = conepalhui_margin(plan, call->length[PLAN], call->leg, call->second);
    uint64_t numbers[] = {s.result, s.position, s.rule,    s.asked, s.left, s.lacks,
                          s.needs,  s.has,      s.divisor, s.after, s.hold, s.other};
    memcpy(to->number, numbers, sizeof numbers);
}

static void nearest(const struct head *call, const uint8_t *plan, answered *to) {
    conepalhui_near_offsets near = conepalhui_nearest(plan, call->length[PLAN], call->leg, call->second);
    uint64_t numbers[] = {near.result, near.position, near.has_below, near.below, near.has_above, near.above};
    memcpy(to->number, numbers, sizeof numbers);
}

static __attribute__((noinline)) void make(const struct head *call, uint8_t *const *at, answered *to) {
    memset(to, 0, sizeof *to);
    switch (call->kind) {
    case MEETING: meeting(call, at[PLAN], to); return;
    case MARGIN_AT: margin(call, at[PLAN], to); return;
    case NEAREST: nearest(call, at[PLAN], to); return;
    case SURVEY: survey(call, at[PLAN], (uint32_t *)at[PLACES], to); return;
    }
    fail("no such call");
}

#include "serve.h"
