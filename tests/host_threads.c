/*
 * host_threads.c: calls from several threads at once, each thread on a plan of its own.
 *
 *     host_threads ROUNDS PLAN...
 *
 * For each plan file there is a fixed row of calls: starts, slices, moves, rechecks, conversions, admissions, gate
 * lists and refused calls, each given what the calls before it wrote; conversions, admissions and gate lists are given
 * the plan file as it was read, and a list is read back. One thread alone makes the row first, and keeps each answer
 * and every byte of the lent memory. Then all threads make their rows at the same time and compare, again and again
 * until each has done so ROUNDS times. The exit status is 0 only where nothing differs. tests/host.test builds and runs
 * it.
 */
#define _GNU_SOURCE

#include "conepalhui.h"

#include <pthread.h>
#include <stdatomic.h>
#include <stdbool.h>
#include <stdio.h>
#include <stdlib.h>
#include <string.h>

enum { THREADS = 8, KINDS = 10, CALLS = 7 * KINDS, OUT = 24, MOVES = CALLS / KINDS, ROOM = CONEPALHUI_PLAN_BYTES };
enum { LIST = CONEPALHUI_LIST_BYTES, WORDS = CONEPALHUI_LIST_WORDS };

/* All that one call gives: its answer, and what the memory is that it was lent to write to. */
struct given {
    conepalhui_answer answer;
    uint32_t offset;        /* of an admission; otherwise 0 */
    uint32_t leg, place;    /* of a recheck; otherwise 0 */
    conepalhui_answer read; /* of the reading of a gate list; otherwise 0 */
    uint8_t out[OUT], new_plan[ROOM], list[LIST];
    uint32_t words[WORDS];
};

struct row {
    pthread_t thread;
    const char *name;
    uint8_t file[ROOM], first[ROOM], plan[ROOM], cursor[OUT]; /* first is the file in the first layout */
    size_t file_len, first_len, plan_len, cursor_len;
    uint32_t link; /* the last one of the file, which new streams take */
    struct given alone[CALLS], now;
    unsigned made, faults;
};

static struct row rows[THREADS];
static unsigned row_count, rounds;
static pthread_barrier_t gate;
static atomic_uint busy; /* how many threads have not made all their rounds yet */

static void stop(const char *what)
{
    fprintf(stderr, "host_threads: %s\n", what);
    exit(2);
}

/* Admits a stream to the file as it was read, whole or a piece of 1 ms. */
static void make_admission(struct row *row, unsigned which)
{
    struct given *now = &row->now;
    conepalhui_admission given;
    if (which % KINDS == 5)
        given = conepalhui_admit(row->file, row->file_len, &row->link, 1, 1000000, 1000000, 64 + which, now->new_plan,
                                 ROOM);
    else
        given = conepalhui_admit_between(row->file, row->file_len, &row->link, 1, 4000000, 4000000, 64, 1000 * which,
                                         1000 * which + 1000000, now->new_plan, ROOM);
    now->answer.result = given.result;
    now->answer.number = given.number;
    now->offset = given.offset;
}

/* Looks again at a leg that a move of the row may have moved. */
static void make_recheck(struct row *row, unsigned which)
{
    struct given *now = &row->now;
    conepalhui_rechecked told = conepalhui_recheck(row->plan, row->plan_len, which % 3);
    now->answer.result = told.result;
    now->answer.number = told.number;
    now->leg = told.leg;
    now->place = told.place;
}

/* Has the gate list of a link of the file written, as it was read, and reads it back. */
static void make_gates(struct row *row, unsigned which)
{
    struct given *now = &row->now;
    now->answer = conepalhui_gates(row->file, row->file_len, which / KINDS % (row->link + 1), now->list, LIST);
    if (conepalhui_refusal(now->answer.result) == 0)
        now->read = conepalhui_read_gates(now->list, now->answer.number, now->words, WORDS);
}

/* Makes one call of the row, with lent memory that is the same each time, and goes on from what it wrote. */
static void make_call(struct row *row, unsigned which)
{
    struct given *now = &row->now;
    memset(now->out, 0xA5, sizeof now->out);
    memset(now->new_plan, 0xA5, ROOM);
    memset(now->list, 0xA5, sizeof now->list);
    memset(now->words, 0xA5, sizeof now->words);
    now->offset = now->leg = now->place = now->read.result = now->read.number = 0;
    switch (which % KINDS) {
    case 0: /* a start, at first of the file as it was read */
        now->answer = conepalhui_start(row->plan, row->plan_len, now->out, sizeof now->out);
        break;
    case 1:
        now->answer = conepalhui_slice_full(row->plan, row->plan_len, row->cursor, row->cursor_len, 50 + which,
                                            now->out, sizeof now->out);
        break;
    case 2:
        now->answer = conepalhui_move(row->plan, row->plan_len, row->cursor, row->cursor_len, which % 3, 1000 * which,
                                      which % 7, now->new_plan, ROOM, now->out, sizeof now->out);
        break;
    case 3:
        now->answer.number = 0;
        now->answer.result = conepalhui_slice(row->plan, row->plan_len, row->cursor, row->cursor_len, which,
                                              now->out, sizeof now->out);
        break;
    case 4:
        now->answer = conepalhui_convert_first(row->first, row->first_len, now->new_plan, ROOM);
        return;
    case 5:
    case 6:
        make_admission(row, which);
        return;
    case 8:
        make_recheck(row, which);
        return;
    case 9:
        make_gates(row, which);
        return;
    default: /* refused: a byte is missing at the end of the plan */
        now->answer = conepalhui_slice_full(row->plan, row->plan_len - 1, row->cursor, row->cursor_len, which,
                                            now->out, sizeof now->out);
    }
    if (conepalhui_refusal(now->answer.result) != 0)
        return;
    row->cursor_len = conepalhui_cursor_length(now->out);
    memcpy(row->cursor, now->out, row->cursor_len);
    if (which % KINDS == 2) {
        row->plan_len = now->answer.number;
        memcpy(row->plan, now->new_plan, row->plan_len);
    }
}

/* Makes the file that the plan has in the first layout: all but the last number of each leg. Finds the last link. */
static void make_first(struct row *row)
{
    uint32_t head[5] = {0}, count = 0, shift = 0;
    for (size_t at = 0; at < row->file_len; at++) {
        uint8_t byte = row->file[at];
        if (count < 5)
            head[count] |= (uint32_t)(byte & 0x7F) << shift;
        uint32_t before_legs = 5 + 4 * head[1] + 5 * head[2];
        if (count < 5 || count < before_legs || (count - before_legs) % 4 != 3)
            row->first[row->first_len++] = byte;
        shift = byte < 0x80 ? 0 : shift + 7;
        count += byte < 0x80;
    }
    row->link = head[1] - 1;
}

static void begin_row(struct row *row)
{
    row->plan_len = row->file_len;
    memcpy(row->plan, row->file, row->file_len);
    row->cursor_len = 0;
}

static bool is_same(const struct row *row, unsigned which)
{
    const struct given *now = &row->now, *alone = &row->alone[which];
    return now->answer.result == alone->answer.result && now->answer.number == alone->answer.number &&
           now->offset == alone->offset && now->leg == alone->leg && now->place == alone->place &&
           now->read.result == alone->read.result && now->read.number == alone->read.number &&
           memcmp(now->out, alone->out, sizeof now->out) == 0 &&
           memcmp(now->new_plan, alone->new_plan, ROOM) == 0 &&
           memcmp(now->list, alone->list, sizeof now->list) == 0 &&
           memcmp(now->words, alone->words, sizeof now->words) == 0;
}

static void make_row(struct row *row)
{
    begin_row(row);
    for (unsigned which = 0; which < CALLS && row->faults == 0; which++) {
        make_call(row, which);
        row->made++;
        row->faults += !is_same(row, which);
    }
}

static void *run_rows(void *given)
{
    struct row *row = given;
    pthread_barrier_wait(&gate);
    for (unsigned round = 0; round < rounds && row->faults == 0; round++)
        make_row(row);
    busy--;
    while (busy > 0 && row->faults == 0)
        make_row(row);
    return NULL;
}

static void read_plan(struct row *row, const char *name)
{
    FILE *file = fopen(name, "rb");
    if (file == NULL)
        stop("a plan cannot be opened");
    row->name = name;
    row->file_len = fread(row->file, 1, sizeof row->file, file);
    fclose(file);
    if (row->file_len + MOVES * CONEPALHUI_MOVE_BYTES > ROOM)
        stop("a plan is too long");
    make_first(row);
}

/* Says whether the conversion gave the file as it was read, in which no leg lies a period late. */
static bool is_converted(const struct row *row)
{
    return row->now.answer.result == CONEPALHUI_GRANTED && row->now.answer.number == row->file_len &&
           memcmp(row->now.new_plan, row->file, row->file_len) == 0;
}

/*
 * Makes the row alone. Moves have to be granted, slices and rechecks to look at places, the cut plan to be refused, and
 * streams to be admitted and gate lists to be written, unless the plan is not accepted. Gives how many were admitted.
 */
static unsigned run_alone(struct row *row)
{
    unsigned seen[9] = {0, 0, 0, 0, 0, 0, 0, 0, 0};
    begin_row(row);
    for (unsigned which = 0; which < CALLS; which++) {
        make_call(row, which);
        row->alone[which] = row->now;
        bool admits = which % KINDS == 5 || which % KINDS == 6;
        seen[0] += which % KINDS == 2 && row->now.answer.result == CONEPALHUI_GRANTED;
        seen[1] += which % KINDS == 1 && row->now.answer.number > 0;
        seen[2] += which % KINDS == 7 && conepalhui_refusal(row->now.answer.result) == 12;
        seen[3] += which % KINDS == 4 && is_converted(row);
        seen[4] += admits && row->now.answer.result == CONEPALHUI_GRANTED;
        seen[5] += admits && conepalhui_refusal(row->now.answer.result) == 19;
        seen[6] += which % KINDS == 8 && conepalhui_refusal(row->now.answer.result) == 0 && row->now.answer.number > 0;
        seen[7] += which % KINDS == 9 && row->now.answer.result == CONEPALHUI_GRANTED && row->now.read.number > 2;
        seen[8] += which % KINDS == 9 && conepalhui_refusal(row->now.answer.result) == 19;
    }
    if (seen[0] != MOVES || seen[1] == 0 || seen[2] != MOVES || seen[3] != MOVES || seen[4] + seen[5] != 2 * MOVES ||
        seen[6] != MOVES || (seen[5] > 0 ? seen[8] != MOVES : seen[7] < 2))
        stop("a row of calls does not try what it is there for");
    return seen[4];
}

int main(int count, char **words)
{
    unsigned calls = 0, faults = 0, admitted = 0;
    if (count < 4 || count - 2 > THREADS)
        stop("usage: host_threads ROUNDS PLAN PLAN...");
    rounds = (unsigned)strtoul(words[1], NULL, 10);
    row_count = (unsigned)count - 2;
    busy = row_count;
    pthread_barrier_init(&gate, NULL, row_count);
    for (unsigned i = 0; i < row_count; i++) {
        read_plan(&rows[i], words[i + 2]);
        admitted += run_alone(&rows[i]);
    }
    if (admitted < 4 * MOVES)
        stop("too few streams are admitted");
    for (unsigned i = 0; i < row_count; i++)
        if (pthread_create(&rows[i].thread, NULL, run_rows, &rows[i]) != 0)
            stop("a thread cannot be made");
    for (unsigned i = 0; i < row_count; i++) {
        pthread_join(rows[i].thread, NULL);
        calls += rows[i].made;
        faults += rows[i].faults;
        if (rows[i].faults != 0)
            printf("WRONG: another answer on %s than a single thread gets\n", rows[i].name);
    }
    printf("%u calls by %u threads at once, %u faults\n", calls, row_count, faults);
    return faults == 0 && calls >= row_count * rounds * CALLS ? 0 : 1;
}
