/*
 * host.c: checks a plan in slices, keeps plan and cursor in files, and takes moves while the check is paused.
 *
 *     host FOLDER BUDGET
 *
 * FOLDER/plan is the plan file. FOLDER/cursor is the saved cursor: where there is none, a new check begins. FOLDER/seen
 * tells what the cursor is of: a line with the edition of the rules, and then a whole copy of the plan. Each slice
 * looks at BUDGET places at most. Standard input gives the moves, a line 'LEG OFFSET' or 'LEG OFFSET PERIODS' each; the
 * first lies no period late. They are taken between two slices, and also after a verdict, until standard input ends;
 * then the exit status tells the last verdict: 0 accepted, 1 violated. It is 2 where the plan is refused, and 4 for bad
 * arguments and for files that cannot be read or written.
 *
 * Every answer is a line. It is printed when all that it tells is on the disk: a move that is told as moved is in the
 * plan. A move that was not answered may be in the plan or not: look at the plan before it is made again, since another
 * may have moved the same leg after it. A move that is told as refused was not made, and is not made again as it is.
 *
 * The program may be killed at any moment, and is then called again. While it does not run, the plan may be edited or
 * exchanged, and the program replaced by one of an earlier or later edition of the rules. This costs time, and never a
 * wrong verdict. Only this program writes cursor and seen: neither is ever put back from a backup, and after one of
 * them was put back both are removed. It saves the files in a fixed order, and each is on the disk before the next is
 * touched:
 *
 *   a move saves plan, seen, cursor. Killed between two of them, it leaves a cursor that is older than the plan, which
 *   the library refuses with 8.
 *
 *   a start removes the cursor, then saves seen, and then the first cursor. So an old cursor never stands beside the
 *   copy of another plan of the same revision, nor beside the line of another edition.
 *
 * At every moment, then, the saved cursor is one of the edition and of the plan in seen, or is of another revision than
 * that plan. It is believed unless one of these is due. The first that is due is told, and a new check starts:
 *
 *   cursor refused N AT   the library does not take it. This is asked first: after a killed move seen differs too
 *   plan unseen           there is no seen
 *   edition changed       seen does not begin with the line of this edition. Of the rest of it nothing is known then
 *   plan changed          after that line it is not this plan, byte by byte
 *
 * So a cursor that is believed is one of this plan, and all places that it has passed hold by the rules of today.
 */
#define _DEFAULT_SOURCE

#include "conepalhui.h"
#include "durable.h"

#include <errno.h>
#include <fcntl.h>
#include <poll.h>
#include <stdarg.h>
#include <stdbool.h>
#include <stdio.h>
#include <stdlib.h>
#include <string.h>
#include <unistd.h>

enum { ACCEPTED = 0, VIOLATED = 1, REFUSED = 2, FAILED = 4 }; /* the exit status */
enum { LINES_MOST = 16 };                                     /* of standard input, taken while a slice is due */

/*
 * The first line of seen, with its end: edition 2 is not edition 22. A cursor knows no edition, and a plan keeps its
 * revision when the rules change, so the library would believe a cursor from before. The header tells the edition: it
 * has to be the one that belongs to the archive.
 *
 * In edition 1 seen was the plan alone. No such copy begins with this line: in a plan file its bytes are revision 99
 * (c), 111 links (o), 110 streams (n), 101 legs (e), precision 112 (p), and then link 0, from node 97 (a) to node 108
 * (l) with 104 ns per octet (h). Refusal 4 excludes that, and only plans that are not refused were ever copied. So an
 * old copy is never taken for a new one. Nor is a new one for an old one: a host of edition 1 that finds it says 'plan
 * changed', and starts anew.
 */
#define IN_DIGITS(number) #number
#define EDITION_LINE_OF(number) "conepalhui edition " IN_DIGITS(number) "\n"
#define EDITION_LINE EDITION_LINE_OF(CONEPALHUI_EDITION)
enum { EDITION_BYTES = sizeof EDITION_LINE - 1 };

/* The check. Each buffer has room for one byte more than is allowed: a file that is too long is refused as such. */
static int folder;
static uint8_t plan[CONEPALHUI_PLAN_BYTES + 1];
static size_t plan_len;
static uint8_t seen[EDITION_BYTES + sizeof plan];
static size_t seen_len;
static uint8_t cursor[CONEPALHUI_CURSOR_BYTES + 1];
static size_t cursor_len;

/* ---- Messages */

/* Prints the line of one answer, at once. */
static void tell(const char *format, ...)
{
    va_list values;
    va_start(values, format);
    bool told = vprintf(format, values) >= 0;
    va_end(values);
    if (!told || putchar('\n') == EOF || fflush(stdout) == EOF) {
        fprintf(stderr, "host: cannot write to standard output: %s\n", strerror(errno));
        exit(FAILED);
    }
}

static void fail(const char *doing, const char *what)
{
    fprintf(stderr, "host: cannot %s %s: %s\n", doing, what, strerror(errno));
    exit(FAILED);
}

/* ---- Plan and cursor, in memory and on the disk */

static void save(const char *name, const uint8_t *bytes, size_t length)
{
    if (durable_replace(folder, name, bytes, length) == -1)
        fail("save the", name);
}

/* Saves what the next cursor is of. */
static void save_seen(void)
{
    memcpy(seen, EDITION_LINE, EDITION_BYTES);
    memcpy(seen + EDITION_BYTES, plan, plan_len);
    seen_len = EDITION_BYTES + plan_len;
    save("seen", seen, seen_len);
}

/* Goes on from the cursor that a call wrote. */
static void save_cursor(const uint8_t *out)
{
    cursor_len = conepalhui_cursor_length(out);
    memcpy(cursor, out, cursor_len);
    save("cursor", cursor, cursor_len);
}

/* Reads a file. Says whether there is one. A link is refused: the file that it leads to would not be replaced. */
static bool read_file(const char *name, uint8_t *bytes, size_t room, size_t *length)
{
    ssize_t got = durable_read(folder, name, bytes, room);
    if (got == -1 && errno == ENOENT)
        return false;
    if (got == -1 && errno == ELOOP) {
        fprintf(stderr, "host: %s is a link, and has to be the file itself\n", name);
        exit(FAILED);
    }
    if (got == -1)
        fail("read the file", name);
    *length = (size_t)got;
    return true;
}

/* ---- The check */

/* Says whether the library takes the saved cursor. A slice with a budget of 0 looks at nothing, and tells. */
static bool cursor_fits(void)
{
    uint8_t out[CONEPALHUI_CURSOR_BYTES];
    conepalhui_answer answer = conepalhui_slice_full(plan, plan_len, cursor, cursor_len, 0, out, sizeof out);
    uint32_t refusal = conepalhui_refusal(answer.result);
    if (refusal == 0)
        return true;
    tell("cursor refused %u %u", (unsigned)refusal, (unsigned)answer.number);
    return false;
}

/* Says whether edition and plan are those that the saved cursor is of, where there is a file that tells them. */
static bool plan_is_seen(bool copied)
{
    if (!copied) {
        tell("plan unseen");
        return false;
    }
    if (seen_len < EDITION_BYTES || memcmp(seen, EDITION_LINE, EDITION_BYTES) != 0) {
        tell("edition changed");
        return false;
    }
    if (seen_len == EDITION_BYTES + plan_len && memcmp(seen + EDITION_BYTES, plan, plan_len) == 0)
        return true;
    tell("plan changed");
    return false;
}

/* Begins a new check from the first cursor, which the library gave. For the order see above. */
static void save_start(const uint8_t *first)
{
    if (durable_remove(folder, "cursor") == -1)
        fail("remove the", "cursor");
    save_seen();
    save_cursor(first);
}

/*
 * Takes the check up, or begins a new one. The plan is tried first, so a refusal after that is the cursor's. All three
 * files are read before one is written.
 */
static void begin(void)
{
    uint8_t first[CONEPALHUI_CURSOR_BYTES];
    conepalhui_answer answer = conepalhui_start(plan, plan_len, first, sizeof first);
    uint32_t refusal = conepalhui_refusal(answer.result);
    if (refusal != 0) {
        tell("plan refused %u %u", (unsigned)refusal, (unsigned)answer.number);
        exit(REFUSED);
    }
    if (read_file("cursor.seen", seen, sizeof seen, &seen_len)) {
        fprintf(stderr, "host: cursor.seen is there: the commands work on this cursor. Give the host a folder of its own\n");
        exit(FAILED);
    }
    bool saved = read_file("cursor", cursor, sizeof cursor, &cursor_len);
    bool copied = read_file("seen", seen, sizeof seen, &seen_len);
    bool resumed = saved && cursor_fits() && plan_is_seen(copied);
    if (!resumed)
        save_start(first);
    struct conepalhui_place at = conepalhui_cursor_place(cursor);
    tell("%s revision %u at %u %u of %u places", resumed ? "resumed" : "started", (unsigned)at.revision,
         (unsigned)at.leg, (unsigned)at.place, (unsigned)answer.number);
}

/* The word of a violated rule. A later library may tell a rule that this program does not know. */
static const char *rule_word(uint32_t result)
{
    switch (result) {
    case CONEPALHUI_WINDOW: return "window";
    case CONEPALHUI_HOP: return "hop";
    case CONEPALHUI_DEADLINE: return "deadline";
    case CONEPALHUI_OVERLAP: return "overlap";
    default: return "unknown";
    }
}

/* Makes one slice. Gives its result: 1 is no verdict, 0 is accepted, and every other result is not. */
static uint32_t slice(uint32_t budget)
{
    uint8_t out[CONEPALHUI_CURSOR_BYTES];
    conepalhui_answer answer = conepalhui_slice_full(plan, plan_len, cursor, cursor_len, budget, out, sizeof out);
    uint32_t result = answer.result;
    unsigned number = answer.number;
    if (conepalhui_refusal(result) != 0) {
        tell("slice refused %u %u", (unsigned)conepalhui_refusal(result), number);
        exit(REFUSED);
    }
    save_cursor(out);
    struct conepalhui_place at = conepalhui_cursor_place(out);
    if (result == CONEPALHUI_NOTHING_VIOLATED)
        tell("accepted steps %u", number);
    else if (result == CONEPALHUI_PAUSED)
        tell("paused %u %u steps %u", (unsigned)at.leg, (unsigned)at.place, number);
    else
        tell("violated %u %u %s steps %u", (unsigned)at.leg, (unsigned)at.place, rule_word(result), number);
    return result;
}

/* What a line of standard input asks for: a leg, its new offset, and how many whole periods late it then lies. */
struct wanted {
    uint32_t leg, offset, periods;
};

/* Moves a leg. Says whether the plan has changed. */
static bool move(struct wanted wanted)
{
    static uint8_t new_plan[CONEPALHUI_PLAN_BYTES];
    uint8_t out[CONEPALHUI_CURSOR_BYTES];
    conepalhui_answer answer = conepalhui_move(plan, plan_len, cursor, cursor_len, wanted.leg, wanted.offset,
                                               wanted.periods, new_plan, sizeof new_plan, out, sizeof out);
    uint32_t refusal = conepalhui_refusal(answer.result);
    if (refusal != 0) {
        tell("move refused %u %u", (unsigned)refusal, (unsigned)answer.number);
        return false;
    }
    plan_len = answer.number;
    memcpy(plan, new_plan, plan_len);
    save("plan", plan, plan_len); /* For the order see above. */
    save_seen();
    save_cursor(out);
    struct conepalhui_place at = conepalhui_cursor_place(out);
    tell("moved %u %u %u revision %u at %u %u", (unsigned)wanted.leg, (unsigned)wanted.offset,
         (unsigned)wanted.periods, (unsigned)at.revision, (unsigned)at.leg, (unsigned)at.place);
    return true;
}

/* ---- The moves on standard input */

/* What has been read and not been taken yet. No move is longer than 32 characters. */
static char input[64];
static size_t input_len;
static bool input_too_long; /* What was read of this line before is dropped: it is too long for a move. */
static bool input_ended;

/* Reads more of standard input where some is there, or waits for it if told so. Says whether there was some. */
static bool read_input(bool wait)
{
    struct pollfd ready = {.fd = STDIN_FILENO, .events = POLLIN};
    int count = poll(&ready, 1, wait ? -1 : 0);
    if (count == 0 || (count == -1 && errno == EINTR))
        return false;
    if (count == -1)
        fail("wait for", "standard input");
    ssize_t got = read(STDIN_FILENO, input + input_len, sizeof input - input_len);
    if (got == -1 && (errno == EINTR || errno == EAGAIN || errno == EWOULDBLOCK))
        return false;
    if (got == -1)
        fail("read", "standard input");
    input_ended = got == 0;
    if (input_ended && (input_len > 0 || input_too_long))
        fprintf(stderr, "host: the last line of standard input has no end, and is not taken\n");
    input_len += (size_t)got;
    return got > 0;
}

/*
 * Gives the next line with its end, or null where no whole line is there yet. What stands after the last end of line
 * may be a part of a move, and is never taken. A line that is too long for a move is given as an empty one.
 */
static const char *next_line(bool wait)
{
    static char line[sizeof input + 1];
    const char *end;
    while ((end = memchr(input, '\n', input_len)) == NULL) {
        if (input_len == sizeof input) {
            input_too_long = true;
            input_len = 0;
        }
        if (input_ended || !read_input(wait))
            return NULL;
    }
    size_t length = (size_t)(end - input) + 1;
    memcpy(line, input, length);
    line[input_too_long ? 0 : length] = '\0';
    input_too_long = false;
    input_len -= length;
    memmove(input, input + length, input_len);
    return line;
}

/* Reads digits up to a mark. Gives what stands after the mark, or null where it is no number of 32 bits. */
static const char *read_number(const char *text, char mark, uint32_t *number)
{
    uint64_t value = 0;
    const char *at = text;
    for (; *at >= '0' && *at <= '9' && value <= UINT32_MAX; at++)
        value = 10 * value + (uint64_t)(*at - '0');
    if (at == text || *at != mark || value > UINT32_MAX)
        return NULL;
    *number = (uint32_t)value;
    return at + 1;
}

/* Reads a line of two numbers or three. Says whether it is one. */
static bool read_move(const char *line, struct wanted *wanted)
{
    const char *rest = read_number(line, ' ', &wanted->leg);
    wanted->periods = 0;
    if (rest == NULL)
        return false;
    if (read_number(rest, '\n', &wanted->offset) != NULL)
        return true;
    rest = read_number(rest, ' ', &wanted->offset);
    return rest != NULL && read_number(rest, '\n', &wanted->periods) != NULL;
}

/*
 * Takes the lines that are there, and waits for the first move if told so. It takes no more than a fixed number of
 * lines: a steady stream of moves must not keep the slices waiting. Says whether the plan has changed.
 */
static bool take_moves(bool wait)
{
    bool changed = false;
    const char *line;
    for (int taken = 0; taken < LINES_MOST && (line = next_line(wait && !changed)) != NULL; taken++) {
        struct wanted wanted;
        if (read_move(line, &wanted))
            changed = move(wanted) || changed;
        else
            tell("no move: a move is LEG OFFSET or LEG OFFSET PERIODS, numbers from 0 to 4294967295");
    }
    return changed;
}

/* ---- The start */

/* Slices until there is a verdict, again after each move, until no move can come any more. Gives the exit status. */
static int check(uint32_t budget)
{
    uint32_t result = CONEPALHUI_PAUSED;
    for (;;) {
        bool paused = result == CONEPALHUI_PAUSED;
        /* Here the controller would do its own work, and go on when it is idle. */
        if (take_moves(!paused) || paused)
            result = slice(budget);
        else if (input_ended)
            return result == CONEPALHUI_NOTHING_VIOLATED ? ACCEPTED : VIOLATED;
    }
}

int main(int count, char **words)
{
    uint32_t budget;
    /* A file of ours must not become standard input, output or error. */
    for (int fd = STDIN_FILENO; fd <= STDERR_FILENO; fd++)
        if (fcntl(fd, F_GETFD) == -1)
            return FAILED;
    if (count != 3 || read_number(words[2], '\0', &budget) == NULL || budget == 0) {
        fprintf(stderr, "usage: host FOLDER BUDGET, a budget from 1 to 4294967295\n");
        return FAILED;
    }
    folder = durable_open(words[1]);
    if (folder == -1 && errno == EWOULDBLOCK) {
        fprintf(stderr, "host: another process works on the folder %s\n", words[1]);
        return FAILED;
    }
    if (folder == -1)
        fail("open the folder", words[1]);
    if (!read_file("plan", plan, sizeof plan, &plan_len))
        fail("read the file", "plan");
    begin();
    return check(budget);
}
