/*
 * recheck.c: checks a plan once as a whole, tries moves one after the other, and looks again only at what each can have
 * broken.
 *
 *     recheck FOLDER PLAN [LEG OFFSET PERIODS]...
 *
 * PLAN is a file in FOLDER. Each move sets the offset of a leg in ns, and how many whole periods late it lies. Nothing
 * is written: it tells what each move would do after those before it.
 *
 * A recheck speaks of the whole plan only where the plan before the move was accepted (include/conepalhui.h). This
 * program knows it by two rules, and says in each line what the line is about:
 *
 *   - After 'nothing violated in the whole plan' any leg may be moved.
 *   - After a violated recheck of the whole plan the same leg may be moved again.
 *
 * Otherwise the recheck is told as what it is, an answer about the places looked at, and a whole check follows.
 *
 * The exit status is 0 where nothing is violated in the whole plan after the last move, and 1 where a place is; 2 where
 * the plan or a move is refused, and 4 for bad arguments and for a file that cannot be read.
 */
#define _DEFAULT_SOURCE

#include "conepalhui.h"
#include "durable.h"

#include <errno.h>
#include <inttypes.h>
#include <stdbool.h>
#include <stdio.h>
#include <string.h>

enum { ACCEPTED = 0, VIOLATED = 1, REFUSED = 2, FAILED = 4 }; /* the exit status */

/* One byte more than is allowed: a file that is too long is refused as such. */
static uint8_t plan[CONEPALHUI_PLAN_BYTES + 1], new_plan[CONEPALHUI_PLAN_BYTES];
static uint8_t cursor[CONEPALHUI_CURSOR_BYTES], next[CONEPALHUI_CURSOR_BYTES];
static size_t plan_len;

/* What is known of the plan as it stands. */
static enum {
    NOT_ACCEPTED, /* nothing that a recheck could rest on */
    IS_ACCEPTED,  /* it is accepted */
    BUT_FOR_LEG   /* it was accepted with another offset or period word of the leg `tried` */
} known;
static uint32_t tried;

static int fail(const char *doing, const char *what)
{
    fprintf(stderr, "recheck: cannot %s %s: %s\n", doing, what, strerror(errno));
    return FAILED;
}

static int refused(const char *what, uint32_t result, uint32_t at)
{
    printf("%s refused %" PRIu32 " %" PRIu32 "\n", what, conepalhui_refusal(result), at);
    fprintf(stderr, "recheck: %s\n", conepalhui_text(result));
    return REFUSED;
}

/* Reads a number of decimal digits, up to 4294967295. */
static bool read_number(const char *word, uint32_t *number)
{
    uint64_t value = 0;
    size_t digits = strspn(word, "0123456789");
    if (digits == 0 || digits > 10 || word[digits] != '\0')
        return false;
    for (; *word != '\0'; word++)
        value = 10 * value + (uint64_t)(*word - '0');
    *number = (uint32_t)value;
    return value <= UINT32_MAX;
}

static const char *rule_of(uint32_t result)
{
    switch (result) {
    case CONEPALHUI_WINDOW: return "window";
    case CONEPALHUI_HOP: return "hop";
    case CONEPALHUI_DEADLINE: return "deadline";
    case CONEPALHUI_OVERLAP: return "overlap";
    default: return "unknown"; /* a rule of a later edition */
    }
}

/* Tells a verdict, how many places were looked at, and what it is about. */
static void tell(const char *what, uint32_t result, uint32_t leg, uint32_t place, uint32_t looked, const char *about)
{
    printf("%s of %" PRIu32 " places: ", what, looked);
    if (result == CONEPALHUI_NOTHING_VIOLATED)
        printf("nothing violated %s\n", about);
    else
        printf("violated %" PRIu32 " %" PRIu32 " %s, the first %s\n", leg, place, rule_of(result), about);
}

/* A whole check: a start, and one slice of all places. */
static int check_whole(void)
{
    conepalhui_answer begun = conepalhui_start(plan, plan_len, cursor, sizeof cursor);
    if (begun.result != CONEPALHUI_GRANTED)
        return refused("plan", begun.result, begun.number);
    conepalhui_answer told = conepalhui_slice_full(plan, plan_len, cursor, conepalhui_cursor_length(cursor),
                                                   begun.number, next, sizeof next);
    memcpy(cursor, next, sizeof cursor);
    struct conepalhui_place at = conepalhui_cursor_place(cursor);
    known = told.result == CONEPALHUI_NOTHING_VIOLATED ? IS_ACCEPTED : NOT_ACCEPTED;
    tell("check", told.result, at.leg, at.place, told.number, "in the whole plan");
    return known == IS_ACCEPTED ? ACCEPTED : VIOLATED;
}

/* Looks again at a leg that was moved. Where this says nothing of the whole plan, a whole check does. */
static int recheck(uint32_t leg)
{
    bool is_whole = known == IS_ACCEPTED || (known == BUT_FOR_LEG && leg == tried);
    conepalhui_rechecked told = conepalhui_recheck(plan, plan_len, leg);
    if (conepalhui_refusal(told.result) != 0)
        return refused("recheck", told.result, told.number);
    tell("recheck", told.result, told.leg, told.place, told.number,
         is_whole ? "in the whole plan" : "at the places looked at, and nothing is said of others");
    if (!is_whole)
        return check_whole();
    known = told.result == CONEPALHUI_NOTHING_VIOLATED ? IS_ACCEPTED : BUT_FOR_LEG;
    tried = leg;
    return known == IS_ACCEPTED ? ACCEPTED : VIOLATED;
}

/* Makes a move, from the cursor that the last call of the run left, and looks at the leg again. */
static int try_move(uint32_t leg, uint32_t offset, uint32_t periods)
{
    conepalhui_answer moved = conepalhui_move(plan, plan_len, cursor, conepalhui_cursor_length(cursor), leg, offset,
                                              periods, new_plan, sizeof new_plan, next, sizeof next);
    if (moved.result != CONEPALHUI_GRANTED)
        return refused("move", moved.result, moved.number);
    plan_len = moved.number;
    memcpy(plan, new_plan, plan_len);
    memcpy(cursor, next, sizeof cursor);
    printf("moved %" PRIu32 " %" PRIu32 " %" PRIu32 "\n", leg, offset, periods);
    return recheck(leg);
}

int main(int count, char **words)
{
    uint32_t numbers[3];
    bool good = count >= 3 && count % 3 == 0;
    for (int i = 3; good && i < count; i++)
        good = read_number(words[i], &numbers[0]);
    if (!good) {
        fprintf(stderr, "usage: recheck FOLDER PLAN [LEG OFFSET PERIODS]...\n");
        return FAILED;
    }
    int folder = durable_open(words[1]);
    if (folder == -1)
        return fail("open the folder", words[1]);
    ssize_t length = durable_read(folder, words[2], plan, sizeof plan);
    if (length == -1)
        return fail("read the plan", words[2]);
    plan_len = (size_t)length;
    int status = check_whole();
    for (int i = 3; status <= VIOLATED && i < count; i += 3) {
        for (int n = 0; n < 3; n++)
            read_number(words[i + n], &numbers[n]);
        status = try_move(numbers[0], numbers[1], numbers[2]);
    }
    return fflush(stdout) == EOF || ferror(stdout) ? fail("write to", "standard output") : status;
}
