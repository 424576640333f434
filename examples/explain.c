/*
 * explain.c: checks a plan, and tells of the first violated place why it is violated.
 *
 *     explain FOLDER PLAN
 *
 * PLAN is a file in FOLDER. Nothing is written. Of a plan that keeps the rules it tells that alone. Otherwise it tells
 * the place and its rule; how many ns are lacking, and of what; where two frames want one link, when first and in which
 * repeats; and the nearest offsets of the leg with which this one place would hold. With such an offset another place
 * may be violated: after the move the plan has to be checked again.
 *
 * The exit status is 0 where nothing is violated, and 1 where a place is; 2 where the plan is refused, and 4 for bad
 * arguments and for a file that cannot be read.
 */
#define _DEFAULT_SOURCE

#include "conepalhui.h"
#include "durable.h"

#include <errno.h>
#include <inttypes.h>
#include <stdio.h>
#include <string.h>

enum { ACCEPTED = 0, VIOLATED = 1, REFUSED = 2, FAILED = 4 }; /* the exit status */
enum { OWN_PLACES = 3 }; /* the places of a leg before those with lower legs */

/* One byte more than is allowed: a file that is too long is refused as such. */
static uint8_t plan[CONEPALHUI_PLAN_BYTES + 1], cursor[CONEPALHUI_CURSOR_BYTES], next[CONEPALHUI_CURSOR_BYTES];
static size_t plan_len;

static int fail(const char *doing, const char *what)
{
    fprintf(stderr, "explain: cannot %s %s: %s\n", doing, what, strerror(errno));
    return FAILED;
}

static int refused(uint32_t result, uint32_t at)
{
    printf("plan refused %" PRIu32 " %" PRIu32 "\n", conepalhui_refusal(result), at);
    fprintf(stderr, "explain: %s\n", conepalhui_text(result));
    return REFUSED;
}

static const char *rule_of(uint32_t result)
{
    switch (result) {
    case CONEPALHUI_WINDOW: return "window";
    case CONEPALHUI_HOP: return "hop";
    case CONEPALHUI_DEADLINE: return "deadline";
    case CONEPALHUI_OVERLAP: return "overlap";
    default: return "unknown"; /* a rule of a later edition */
    }
}

/* By how much the rule is missed, with its numbers. */
static void tell_margin(uint32_t leg, uint32_t place)
{
    conepalhui_place_margin told = conepalhui_margin(plan, plan_len, leg, place);
    printf("%" PRIu64 " ns are lacking: ", told.lacks);
    if (told.rule != CONEPALHUI_OVERLAP)
        printf("%" PRIu64 " ns are needed, and there are %" PRIu64 "\n", told.needs, told.has);
    else
        printf("the legs hold the link for %" PRIu64 " and %" PRIu64 " ns, and by the divisor of their periods, "
               "%" PRIu64 " ns, the second begins %" PRIu64 " ns after the first\n",
               told.hold, told.other, told.divisor, told.after);
}

/* When the two legs of an overlap first hold their link at once. */
static void tell_meeting(uint32_t leg, uint32_t other)
{
    conepalhui_first_meeting told = conepalhui_meeting(plan, plan_len, leg, other);
    printf("first at %" PRIu64 " ns: repeat %" PRIu64 " of leg %" PRIu32 " and repeat %" PRIu64 " of leg %" PRIu32 "\n",
           told.instant, told.first, leg, told.second, other);
}

/* The nearest offsets with which this one place holds. */
static void tell_nearest(uint32_t leg, uint32_t place)
{
    conepalhui_near_offsets told = conepalhui_nearest(plan, plan_len, leg, place);
    printf("this place would hold with leg %" PRIu32 " at: ", leg);
    if (told.has_below != 0)
        printf("%" PRIu32 " ns%s", told.below, told.has_above != 0 ? ", " : "");
    if (told.has_above != 0)
        printf("%" PRIu32 " ns", told.above);
    printf("%s\n", told.has_below + told.has_above == 0 ? "no other offset" : "");
}

/* A whole check: a start, and one slice of all places. The first violated place is explained. */
static int explain(void)
{
    conepalhui_answer begun = conepalhui_start(plan, plan_len, cursor, sizeof cursor);
    if (begun.result != CONEPALHUI_GRANTED)
        return refused(begun.result, begun.number);
    conepalhui_answer told = conepalhui_slice_full(plan, plan_len, cursor, conepalhui_cursor_length(cursor),
                                                   begun.number, next, sizeof next);
    if (told.result == CONEPALHUI_NOTHING_VIOLATED) {
        printf("nothing violated\n");
        return ACCEPTED;
    }
    struct conepalhui_place at = conepalhui_cursor_place(next);
    printf("violated %" PRIu32 " %" PRIu32 " %s\n", at.leg, at.place, rule_of(told.result));
    tell_margin(at.leg, at.place);
    if (told.result == CONEPALHUI_OVERLAP)
        tell_meeting(at.leg, at.place - OWN_PLACES);
    tell_nearest(at.leg, at.place);
    return VIOLATED;
}

int main(int count, char **words)
{
    if (count != 3) {
        fprintf(stderr, "usage: explain FOLDER PLAN\n");
        return FAILED;
    }
    int folder = durable_open(words[1]);
    if (folder == -1)
        return fail("open the folder", words[1]);
    ssize_t length = durable_read(folder, words[2], plan, sizeof plan);
    if (length == -1)
        return fail("read the plan", words[2]);
    plan_len = (size_t)length;
    int status = explain();
    return fflush(stdout) == EOF || ferror(stdout) ? fail("write to", "standard output") : status;
}
