/*
 * admit.c: adds one stream to an accepted plan, and writes the new plan to a new file.
 *
 *     admit FOLDER PLAN NEW PERIOD DEADLINE OCTETS LINK...
 *
 * PLAN and NEW are files in FOLDER. PERIOD and DEADLINE are in ns, OCTETS is the length of a frame, and the LINKs are
 * the numbers of those that the stream takes, in order. No leg of the plan moves. The exit status is 0 where the stream
 * was admitted, 2 where it was refused, and 4 for bad arguments and for files that cannot be read or written.
 *
 * NEW is never replaced: a file of that name stays, and the program ends with 4. When 'admitted' is printed, NEW is on
 * the disk as a whole. The program may be killed at any moment; NEW is then there whole, or not at all.
 *
 * The search goes in pieces, and once a second it is told on standard error how far it is.
 *
 * A CHECK OF NEW STARTS ANEW. Before it does, destroy every saved cursor of PLAN, and of anything that had NEW's name:
 * PLAN after one move has the revision of NEW, and a cursor of it would be believed. examples/host.c looks at its copy
 * of the plan, and starts anew by itself.
 */
#define _DEFAULT_SOURCE

#include "conepalhui.h"
#include "durable.h"

#include <errno.h>
#include <inttypes.h>
#include <stdbool.h>
#include <stdio.h>
#include <stdlib.h>
#include <string.h>
#include <time.h>

enum { ADMITTED = 0, REFUSED = 2, FAILED = 4 }; /* the exit status */
enum { PIECE = 1000000 };                       /* so many first offsets are looked at in one call */
enum { LINKS_MOST = 8 };                        /* No stream takes more: one more is read, and refused as such. */

/* One byte more than is allowed: a file that is too long is refused as such. */
static uint8_t plan[CONEPALHUI_PLAN_BYTES + 1], new_plan[CONEPALHUI_PLAN_BYTES];

static int fail(const char *doing, const char *what)
{
    fprintf(stderr, "admit: cannot %s %s: %s\n", doing, what, strerror(errno));
    return FAILED;
}

/* Reads a number of decimal digits, up to 4294967295. */
static bool read_number(const char *word, uint32_t *number)
{
    uint64_t value = 0;
    size_t digits = strspn(word, "0123456789");
    if (digits == 0 || digits > 10 || word[digits] != '\0')
        return false;
    for (; *word != '\0'; word++)
        value = 10 * value + (uint64_t)(*word - '0');
    *number = (uint32_t)value;
    return value <= UINT32_MAX;
}

/* What is wanted of the new stream. */
struct wanted {
    uint32_t period, deadline, octets, links[LINKS_MOST + 1];
    size_t link_count;
};

static bool read_wanted(struct wanted *wanted, int count, char **words)
{
    if (count < 4 || count > 3 + LINKS_MOST + 1)
        return false;
    wanted->link_count = (size_t)count - 3;
    for (size_t i = 0; i < wanted->link_count; i++)
        if (!read_number(words[3 + i], &wanted->links[i]))
            return false;
    return read_number(words[0], &wanted->period) && read_number(words[1], &wanted->deadline) &&
           read_number(words[2], &wanted->octets);
}

/* Looks for the least first offset, a piece after the other, as include/conepalhui.h shows it. */
static conepalhui_admission look(size_t plan_len, const struct wanted *wanted)
{
    uint32_t from = 0;
    time_t told = time(NULL);
    conepalhui_admission given;
    do {
        uint32_t until = wanted->period - from > PIECE ? from + PIECE : wanted->period;
        given = conepalhui_admit_between(plan, plan_len, wanted->links, wanted->link_count, wanted->period,
                                         wanted->deadline, wanted->octets, from, until, new_plan, sizeof new_plan);
        from = given.offset;
        if (given.result == CONEPALHUI_NONE_YET && time(NULL) != told) {
            told = time(NULL);
            fprintf(stderr, "admit: none of the first %" PRIu32 " ns of %" PRIu32 " fits\n", from, wanted->period);
        }
    } while (given.result == CONEPALHUI_NONE_YET);
    return given;
}

int main(int count, char **words)
{
    struct wanted wanted;
    if (count < 5 || !read_wanted(&wanted, count - 4, words + 4)) {
        fprintf(stderr, "usage: admit FOLDER PLAN NEW PERIOD DEADLINE OCTETS LINK...\n");
        return FAILED;
    }
    int folder = durable_open(words[1]);
    if (folder == -1)
        return fail("open the folder", words[1]);
    ssize_t plan_len = durable_read(folder, words[2], plan, sizeof plan);
    if (plan_len == -1)
        return fail("read the plan", words[2]);
    if (durable_read(folder, words[3], new_plan, 0) != -1 || errno != ENOENT) { /* Before it is looked for long. */
        fprintf(stderr, "admit: %s is there already, and is never replaced\n", words[3]);
        return FAILED;
    }
    conepalhui_admission given = look((size_t)plan_len, &wanted);
    if (given.result != CONEPALHUI_GRANTED) {
        printf("refused %" PRIu32 " %" PRIu32 "\n", conepalhui_refusal(given.result), given.number);
        fprintf(stderr, "admit: %s\n", conepalhui_text(given.result));
        return REFUSED;
    }
    if (durable_create(folder, words[3], new_plan, given.number) == -1)
        return fail("make the new plan", words[3]);
    if (printf("admitted at %" PRIu32 " bytes %" PRIu32 "\n", given.offset, given.number) < 0 || fflush(stdout) == EOF)
        return fail("write to", "standard output");
    return ADMITTED;
}
