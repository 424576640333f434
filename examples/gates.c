/*
 * gates.c: prints the gate control list of each link of a plan.
 *
 *     gates FOLDER PLAN
 *
 * PLAN is a file in FOLDER. For each link it has the list written as a list file, reads that file, and prints how many
 * pairs the list has, its cycle, and the pairs: a mask and a duration in ns. Nothing is saved.
 *
 * THE LISTS HAVE NO GUARD BANDS. What the switch has to do besides stands in include/conepalhui.h, at conepalhui_gates.
 *
 * The exit status is 0 where each link has a list; 2 where the plan or a list is refused, and 4 for bad arguments and
 * for a file that cannot be read.
 */
#define _DEFAULT_SOURCE

#include "conepalhui.h"
#include "durable.h"

#include <errno.h>
#include <inttypes.h>
#include <stdbool.h>
#include <stdio.h>
#include <string.h>

enum { DONE = 0, REFUSED = 2, FAILED = 4 }; /* the exit status */

/* One byte more than is allowed: a file that is too long is refused as such. */
static uint8_t plan[CONEPALHUI_PLAN_BYTES + 1], list[CONEPALHUI_LIST_BYTES];
static uint32_t words[CONEPALHUI_LIST_WORDS];
static size_t plan_len;

static int fail(const char *doing, const char *what)
{
    fprintf(stderr, "gates: cannot %s %s: %s\n", doing, what, strerror(errno));
    return FAILED;
}

static int refused(uint32_t link, conepalhui_answer told)
{
    printf("link %" PRIu32 " refused %" PRIu32 " %" PRIu32 "\n", link, conepalhui_refusal(told.result), told.number);
    fprintf(stderr, "gates: %s\n", conepalhui_text(told.result));
    return REFUSED;
}

/* Reads a list file of so many bytes and prints its pairs. */
static int print_list(uint32_t link, uint32_t length)
{
    uint64_t cycle = 0;
    conepalhui_answer told = conepalhui_read_gates(list, length, words, CONEPALHUI_LIST_WORDS);
    if (told.result != CONEPALHUI_GRANTED)
        return refused(link, told);
    for (uint32_t i = 0; i < told.number; i += 2)
        cycle += words[i + 1];
    printf("link %" PRIu32 " pairs %" PRIu32 " cycle %" PRIu64 "\n", link, told.number / 2, cycle);
    for (uint32_t i = 0; i < told.number; i += 2)
        printf("%" PRIu32 " %" PRIu32 "\n", words[i], words[i + 1]);
    return DONE;
}

/* A cycle that is too long and a list of too many pairs concern one link, and every other refusal the whole plan. */
static bool is_of_one_link(uint32_t refusal)
{
    return refusal == 21 || refusal == 22;
}

/* Goes from link to link until there is none. */
static int print_all(void)
{
    int status = DONE;
    for (uint32_t link = 0;; link++) {
        conepalhui_answer told = conepalhui_gates(plan, plan_len, link, list, sizeof list);
        uint32_t refusal = conepalhui_refusal(told.result);
        if (refusal == 23)
            return status;
        if (refusal != 0 && !is_of_one_link(refusal))
            return refused(link, told);
        if ((refusal != 0 ? refused(link, told) : print_list(link, told.number)) != DONE)
            status = REFUSED;
    }
}

int main(int count, char **arguments)
{
    if (count != 3) {
        fprintf(stderr, "usage: gates FOLDER PLAN\n");
        return FAILED;
    }
    int folder = durable_open(arguments[1]);
    if (folder == -1)
        return fail("open the folder", arguments[1]);
    ssize_t length = durable_read(folder, arguments[2], plan, sizeof plan);
    if (length == -1)
        return fail("read the plan", arguments[2]);
    plan_len = (size_t)length;
    int status = print_all();
    return fflush(stdout) == EOF || ferror(stdout) ? fail("write to", "standard output") : status;
}
