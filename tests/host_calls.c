/*
 * host_calls.c: every call of conepalhui.h at the cases of the rules, at every refusal, and at the edges of its
 * buffers.
 *
 * What is due stands here in numbers, worked out by hand from the rules; but of meetings, margins and nearest offsets
 * it is reckoned here, by trying one instant and one offset after the other. Each lent buffer ends at a page that may
 * not be touched, so that a byte read or written after it ends the program; what lies before it is compared. The exit
 * status is 0 only where all answers are those that are due. tests/host.test builds and runs it.
 */
#define _GNU_SOURCE

#include "conepalhui.h"

#include <inttypes.h>
#include <stdbool.h>
#include <stdio.h>
#include <stdlib.h>
#include <string.h>
#include <sys/mman.h>

#include "stack.h"

#define ROOM 65536 /* more than any lent buffer */
#define PAGE 65536 /* as large as a page of any machine */
#define UNTOUCHED 0xA5
#define TOP UINT32_MAX

static unsigned cases, faults;

static void fault(const char *name, const char *what)
{
    faults++;
    printf("WRONG %s: %s\n", name, what);
}

/* ---- Lent buffers */

enum { PLAN, CURSOR, ROUTE, LIST, NEW_PLAN, NEW_LIST, WORDS, OUT, BUFFERS };

static struct {
    uint8_t *memory; /* ROOM bytes, and then a page that may not be touched */
    uint8_t before[ROOM];
    uint8_t *bytes; /* the lent ones, the last of the memory; null where none are lent */
    size_t length;
} lent[BUFFERS];

static void make_buffers(void)
{
    for (int which = 0; which < BUFFERS; which++) {
        lent[which].memory = mmap(NULL, ROOM + PAGE, PROT_READ | PROT_WRITE, MAP_PRIVATE | MAP_ANONYMOUS, -1, 0);
        if (lent[which].memory == MAP_FAILED || mprotect(lent[which].memory + ROOM, PAGE, PROT_NONE) != 0) {
            perror("host_calls");
            exit(2);
        }
    }
}

/* Byte strings are written here as hexadecimal numbers of two digits with one space between them. */
static size_t hex_length(const char *text)
{
    return (strlen(text) + 1) / 3;
}

static void put_hex(uint8_t *bytes, const char *text)
{
    size_t length = hex_length(text);
    for (size_t at = 0; at < length; at++)
        bytes[at] = (uint8_t)strtoul(text + 3 * at, NULL, 16);
}

/* Lends so many untouched bytes, and then those of a text. */
static void lend(int which, size_t length, const char *text)
{
    memset(lent[which].memory, UNTOUCHED, ROOM);
    lent[which].bytes = length == 0 ? NULL : lent[which].memory + ROOM - length;
    lent[which].length = length;
    put_hex(lent[which].bytes, text);
    memcpy(lent[which].before, lent[which].memory, ROOM);
}

/* Lends the numbers of so many links, at an address that a number may have. */
static void lend_route(const uint32_t *links, size_t count)
{
    lend(ROUTE, count * sizeof *links, "");
    if (count != 0)
        memcpy(lent[ROUTE].bytes, links, count * sizeof *links);
    memcpy(lent[ROUTE].before, lent[ROUTE].memory, ROOM);
}

/* Lends so many untouched words. */
static void lend_words(size_t count)
{
    lend(WORDS, count * sizeof(uint32_t), "");
}

/* Says that the buffer is to begin with these bytes now, and to be for the rest what it was. */
static void expect_bytes(const char *name, int which, const char *text)
{
    if (hex_length(text) > lent[which].length) {
        fault(name, "more bytes are due than were lent");
        return;
    }
    put_hex(lent[which].before + ROOM - lent[which].length, text);
    if (memcmp(lent[which].before, lent[which].memory, ROOM) != 0)
        fault(name, which == OUT ? "out is not what is due" : "a lent buffer is not what is due");
}

/* Says that words is to begin with these now, and to be for the rest what it was. */
static void expect_words(const char *name, const uint32_t *words, size_t count)
{
    if (count * sizeof *words > lent[WORDS].length) {
        fault(name, "more words are due than were lent");
        return;
    }
    if (count != 0)
        memcpy(lent[WORDS].before + ROOM - lent[WORDS].length, words, count * sizeof *words);
    expect_bytes(name, WORDS, "");
}

/* ---- The calls, each beside what is due */

struct due {
    uint32_t result, number;
    const char *out, *new_plan; /* what is written */
};

static struct due gives(uint32_t result, uint32_t number, const char *out)
{
    return (struct due){result, number, out, ""};
}

static struct due refused(uint32_t result, uint32_t at)
{
    return gives(result, at, "");
}

static struct due grants(uint32_t number, const char *out, const char *new_plan)
{
    return (struct due){0, number, out, new_plan};
}

static void compare(const char *name, conepalhui_answer answer, struct due due)
{
    cases++;
    if (answer.result != due.result || answer.number != due.number) {
        fault(name, "another answer");
        printf("    it is %" PRIu32 " %" PRIu32 ", and %" PRIu32 " %" PRIu32 " is due\n", answer.result, answer.number,
               due.result, due.number);
    }
    expect_bytes(name, PLAN, "");
    expect_bytes(name, CURSOR, "");
    expect_bytes(name, ROUTE, "");
    expect_bytes(name, LIST, "");
    expect_bytes(name, NEW_LIST, "");
    expect_bytes(name, WORDS, "");
    expect_bytes(name, NEW_PLAN, due.new_plan);
    expect_bytes(name, OUT, due.out);
    if (*due.out != '\0' && conepalhui_cursor_length(lent[OUT].bytes) != hex_length(due.out))
        fault(name, "another length of the cursor");
}

static conepalhui_answer call_start(void)
{
    return conepalhui_start(lent[PLAN].bytes, lent[PLAN].length, lent[OUT].bytes, lent[OUT].length);
}

static conepalhui_answer call_slice(uint32_t budget)
{
    return conepalhui_slice_full(lent[PLAN].bytes, lent[PLAN].length, lent[CURSOR].bytes, lent[CURSOR].length, budget,
                                 lent[OUT].bytes, lent[OUT].length);
}

static conepalhui_answer call_short_slice(uint32_t budget)
{
    uint32_t result = conepalhui_slice(lent[PLAN].bytes, lent[PLAN].length, lent[CURSOR].bytes, lent[CURSOR].length,
                                       budget, lent[OUT].bytes, lent[OUT].length);
    return (conepalhui_answer){result, 0};
}

struct moved {
    uint32_t leg, offset, periods;
};

static conepalhui_answer call_move(struct moved to)
{
    return conepalhui_move(lent[PLAN].bytes, lent[PLAN].length, lent[CURSOR].bytes, lent[CURSOR].length, to.leg,
                           to.offset, to.periods, lent[NEW_PLAN].bytes, lent[NEW_PLAN].length, lent[OUT].bytes,
                           lent[OUT].length);
}

static conepalhui_answer call_convert(void)
{
    return conepalhui_convert_first(lent[PLAN].bytes, lent[PLAN].length, lent[NEW_PLAN].bytes, lent[NEW_PLAN].length);
}

static void lend_all(const char *plan, const char *cursor, size_t new_plan_len, size_t out_len)
{
    lend(PLAN, hex_length(plan), plan);
    lend(CURSOR, hex_length(cursor), cursor);
    lend_route(NULL, 0);
    lend(LIST, 0, "");
    lend(NEW_LIST, 0, "");
    lend_words(0);
    lend(NEW_PLAN, new_plan_len, "");
    lend(OUT, out_len, "");
}

static void start(const char *name, const char *plan, size_t out_len, struct due due)
{
    lend_all(plan, "", 0, out_len);
    compare(name, call_start(), due);
}

/* Both forms of the slice: the short one tells the same result and writes the same, without the number. */
static void slice(const char *name, const char *plan, const char *cursor, uint32_t budget, size_t out_len,
                  struct due due)
{
    lend_all(plan, cursor, 0, out_len);
    compare(name, call_slice(budget), due);
    lend_all(plan, cursor, 0, out_len);
    due.number = 0;
    compare(name, call_short_slice(budget), due);
}

static void move(const char *name, const char *plan, const char *cursor, struct moved moved,
                 size_t new_plan_len, size_t out_len, struct due due)
{
    lend_all(plan, cursor, new_plan_len, out_len);
    compare(name, call_move(moved), due);
}

static void convert(const char *name, const char *old_plan, size_t new_plan_len, struct due due)
{
    lend_all(old_plan, "", new_plan_len, 0);
    compare(name, call_convert(), due);
}

/* What a recheck has to give. It writes nothing. */
struct due_recheck {
    uint32_t result, number, leg, place;
};

static struct due_recheck keeps(uint32_t looked)
{
    return (struct due_recheck){0, looked, 0, 0};
}

static struct due_recheck breaks(uint32_t result, uint32_t looked, uint32_t leg, uint32_t place)
{
    return (struct due_recheck){result, looked, leg, place};
}

static conepalhui_rechecked call_recheck(uint32_t leg)
{
    return conepalhui_recheck(lent[PLAN].bytes, lent[PLAN].length, leg);
}

static void recheck(const char *name, const char *plan, uint32_t leg, struct due_recheck due)
{
    lend_all(plan, "", 0, 0);
    conepalhui_rechecked told = call_recheck(leg);
    if (told.leg != due.leg || told.place != due.place) {
        fault(name, "another place");
        printf("    it is %" PRIu32 " %" PRIu32 ", and %" PRIu32 " %" PRIu32 " is due\n", told.leg, told.place, due.leg,
               due.place);
    }
    compare(name, (conepalhui_answer){told.result, told.number}, (struct due){due.result, due.number, "", ""});
}

static void not_rechecked(const char *name, const char *plan, uint32_t leg, uint32_t result, uint32_t at)
{
    recheck(name, plan, leg, (struct due_recheck){result, at, 0, 0});
}

/* ---- Explanations */

/* A plan as numbers, and the leg and its times as the rules have them (docs/ACCEPTED.md). */
static uint32_t words[16384];

static void read_words(const char *plan)
{
    size_t length = hex_length(plan), count = 0;
    unsigned shift = 0;
    memset(words, 0, sizeof words);
    for (size_t at = 0; at < length; at++) {
        uint32_t byte = (uint32_t)strtoul(plan + 3 * at, NULL, 16);
        words[count] |= (byte & 0x7F) << shift;
        shift = byte < 0x80 ? 0 : shift + 7;
        count += byte < 0x80;
    }
}

struct frame {
    uint64_t offset, period, hold, wire, start, ready, deadline;
    uint32_t link, first, end;
};

static uint32_t *leg_words(uint32_t leg)
{
    return words + 5 + 4 * words[1] + 5 * words[2] + 4 * leg;
}

static struct frame frame_of(uint32_t leg)
{
    const uint32_t *l = leg_words(leg), *stream = words + 5 + 4 * words[1] + 5 * l[0], *link = words + 5 + 4 * l[1];
    struct frame f = {.offset = l[2], .period = stream[0], .deadline = stream[1], .link = l[1], .first = stream[3]};
    f.end = f.first + stream[4];
    f.wire = (uint64_t)(stream[2] + 8) * link[2];
    f.hold = f.wire + 12 * (uint64_t)link[2];
    f.start = f.offset + l[3] * f.period;
    f.ready = f.start + f.wire + link[3] + words[4];
    return f;
}

/* The first of all instants at which both hold the link, among so many repeats as show every case of these plans. */
static conepalhui_first_meeting meeting_due(uint32_t leg, uint32_t other)
{
    struct frame a = frame_of(leg), b = frame_of(other);
    conepalhui_first_meeting due = {0, 0, 0, 0, 0};
    for (uint64_t k = 0; a.link == b.link && k < 40; k++)
        for (uint64_t m = 0; m < 40; m++) {
            uint64_t from = a.offset + k * a.period, other_from = b.offset + m * b.period;
            uint64_t x = from > other_from ? from : other_from;
            if (x < from + a.hold && x < other_from + b.hold && (due.result == 0 || x < due.instant)) {
                due.result = 1;
                due.instant = x;
            }
        }
    while (due.result == 1 && a.offset + (due.first + 1) * a.period <= due.instant)
        due.first++;
    while (due.result == 1 && b.offset + (due.second + 1) * b.period <= due.instant)
        due.second++;
    return due;
}

/* What is needed and had by window, hop and deadline. */
static void sides_due(uint32_t leg, uint32_t place, conepalhui_place_margin *due)
{
    struct frame a = frame_of(leg);
    due->asked = place == 0 || (place == 1 ? leg > a.first : leg + 1 == a.end);
    if (due->asked == 0)
        return;
    due->needs = place == 0 ? a.offset + a.hold : place == 1 ? frame_of(leg - 1).ready : a.ready;
    due->has = place == 0 ? a.period : place == 1 ? a.start : a.deadline + frame_of(a.first).start;
    if (due->needs <= due->has)
        due->left = due->has - due->needs;
    else
        due->lacks = due->needs - due->has;
}

/* The divisor, found by trying; how far the lower leg lies after the leg, by counting on; and what may be added. */
static void turns_due(uint32_t leg, uint32_t lower, conepalhui_place_margin *due)
{
    struct frame a = frame_of(leg), b = frame_of(lower);
    due->asked = a.link == b.link;
    if (due->asked == 0)
        return;
    due->hold = a.hold;
    due->other = b.hold;
    due->divisor = a.period;
    while (a.period % due->divisor != 0 || b.period % due->divisor != 0)
        due->divisor--;
    while ((a.offset + due->after) % due->divisor != b.offset % due->divisor)
        due->after++;
    while (due->hold > due->after + due->lacks || due->other + due->after > due->divisor + due->lacks)
        due->lacks++;
    while (due->hold + due->left + 1 <= due->after && due->other + due->left + 1 + due->after <= due->divisor)
        due->left++;
}

static conepalhui_place_margin margin_due(uint32_t leg, uint32_t place)
{
    conepalhui_place_margin due = {0, 0, place < 3 ? 2 + place : 5, 0, 0, 0, 0, 0, 0, 0, 0, 0};
    if (place < 3)
        sides_due(leg, place, &due);
    else
        turns_due(leg, place - 3, &due);
    due.result = due.lacks > 0 ? due.rule : 0;
    return due;
}

/* Whether the leg keeps its window at this offset and the place holds: overlaps by meetings, others by their sides. */
static bool stands(uint32_t leg, uint32_t place, uint32_t offset)
{
    uint32_t before = leg_words(leg)[2];
    leg_words(leg)[2] = offset;
    struct frame a = frame_of(leg);
    bool window = a.offset + a.hold <= a.period;
    bool holds = place < 3 ? margin_due(leg, place).lacks == 0 : meeting_due(leg, place - 3).result == 0;
    leg_words(leg)[2] = before;
    return window && holds;
}

static conepalhui_near_offsets nearest_due(uint32_t leg, uint32_t place)
{
    conepalhui_near_offsets due = {0, 0, 0, 0, 0, 0};
    struct frame a = frame_of(leg);
    for (uint32_t x = (uint32_t)a.offset; x > 0 && due.has_below == 0; x--)
        if (stands(leg, place, x - 1)) {
            due.has_below = 1;
            due.below = x - 1;
        }
    for (uint32_t x = (uint32_t)a.offset + 1; x <= a.period && due.has_above == 0; x++)
        if (stands(leg, place, x)) {
            due.has_above = 1;
            due.above = x;
        }
    return due;
}

static conepalhui_first_meeting call_meeting(uint32_t leg, uint32_t other)
{
    return conepalhui_meeting(lent[PLAN].bytes, lent[PLAN].length, leg, other);
}

static conepalhui_place_margin call_margin(uint32_t leg, uint32_t place)
{
    return conepalhui_margin(lent[PLAN].bytes, lent[PLAN].length, leg, place);
}

static conepalhui_near_offsets call_nearest(uint32_t leg, uint32_t place)
{
    return conepalhui_nearest(lent[PLAN].bytes, lent[PLAN].length, leg, place);
}

/* None of them writes anything; each is compared number by number. */
static void expect_meeting(const char *name, const char *plan, uint32_t leg, uint32_t other,
                           conepalhui_first_meeting due)
{
    lend_all(plan, "", 0, 0);
    conepalhui_first_meeting told = call_meeting(leg, other);
    if (told.first != due.first || told.second != due.second || told.instant != due.instant)
        fault(name, "another meeting");
    compare(name, (conepalhui_answer){told.result, told.position}, refused(due.result, due.position));
}

static void expect_margin(const char *name, const char *plan, uint32_t leg, uint32_t place,
                          conepalhui_place_margin due)
{
    lend_all(plan, "", 0, 0);
    conepalhui_place_margin told = call_margin(leg, place);
    if (told.rule != due.rule || told.asked != due.asked || told.left != due.left || told.lacks != due.lacks)
        fault(name, "another margin");
    if (told.needs != due.needs || told.has != due.has)
        fault(name, "other sides");
    if (told.divisor != due.divisor || told.after != due.after || told.hold != due.hold || told.other != due.other)
        fault(name, "other turns");
    compare(name, (conepalhui_answer){told.result, told.position}, refused(due.result, due.position));
}

static void expect_nearest(const char *name, const char *plan, uint32_t leg, uint32_t place,
                           conepalhui_near_offsets due)
{
    lend_all(plan, "", 0, 0);
    conepalhui_near_offsets told = call_nearest(leg, place);
    if (told.has_below != due.has_below || told.below != due.below)
        fault(name, "another offset below");
    if (told.has_above != due.has_above || told.above != due.above)
        fault(name, "another offset above");
    compare(name, (conepalhui_answer){told.result, told.position}, refused(due.result, due.position));
}

/* A refusal has its number and its position, and 0 in all else. */
static conepalhui_first_meeting no_meeting(uint32_t result, uint32_t at)
{
    return (conepalhui_first_meeting){result, at, 0, 0, 0};
}

static conepalhui_place_margin no_margin(uint32_t result, uint32_t at)
{
    return (conepalhui_place_margin){result, at, 0, 0, 0, 0, 0, 0, 0, 0, 0, 0};
}

static conepalhui_near_offsets no_offsets(uint32_t result, uint32_t at)
{
    return (conepalhui_near_offsets){result, at, 0, 0, 0, 0};
}

/* All of them are refused alike for the plan. */
static void not_explained(const char *name, const char *plan, uint32_t number, uint32_t result, uint32_t at)
{
    expect_meeting(name, plan, number, number, no_meeting(result, at));
    expect_margin(name, plan, number, number, no_margin(result, at));
    expect_nearest(name, plan, number, number, no_offsets(result, at));
}

/* ---- Admissions: what is wanted of a new stream */

/* What is wanted of a new stream: its route, as so many numbers of links, and its numbers. */
struct wanted {
    uint32_t links[9];
    size_t count;
    uint32_t period, deadline, octets;
};

/* What an admission has to give, and to write. */
struct due_admission {
    uint32_t result, number, offset;
    const char *new_plan;
};

static struct due_admission admits(uint32_t offset, const char *new_plan)
{
    return (struct due_admission){0, (uint32_t)hex_length(new_plan), offset, new_plan};
}

static struct due_admission none_yet(uint32_t until)
{
    return (struct due_admission){1, 0, until, ""};
}

static struct due_admission not_admitted(uint32_t result, uint32_t at)
{
    return (struct due_admission){result, at, 0, ""};
}

static conepalhui_admission call_admit(struct wanted wanted)
{
    return conepalhui_admit(lent[PLAN].bytes, lent[PLAN].length, (const uint32_t *)(const void *)lent[ROUTE].bytes,
                            wanted.count, wanted.period, wanted.deadline, wanted.octets, lent[NEW_PLAN].bytes,
                            lent[NEW_PLAN].length);
}

static conepalhui_admission call_between(struct wanted wanted, uint32_t from, uint32_t until)
{
    return conepalhui_admit_between(lent[PLAN].bytes, lent[PLAN].length,
                                    (const uint32_t *)(const void *)lent[ROUTE].bytes, wanted.count, wanted.period,
                                    wanted.deadline, wanted.octets, from, until, lent[NEW_PLAN].bytes,
                                    lent[NEW_PLAN].length);
}

static void compare_admission(const char *name, conepalhui_admission given, struct due_admission due)
{
    if (given.offset != due.offset) {
        fault(name, "another offset");
        printf("    it is %" PRIu32 ", and %" PRIu32 " is due\n", given.offset, due.offset);
    }
    compare(name, (conepalhui_answer){given.result, given.number},
            (struct due){due.result, due.number, "", due.new_plan});
}

static void lend_to_admit(const char *plan, struct wanted wanted, size_t new_plan_len)
{
    lend_all(plan, "", new_plan_len, 0);
    lend_route(wanted.links, wanted.count);
}

static void between(const char *name, const char *plan, struct wanted wanted, uint32_t from, uint32_t until,
                    size_t new_plan_len, struct due_admission due)
{
    lend_to_admit(plan, wanted, new_plan_len);
    compare_admission(name, call_between(wanted, from, until), due);
}

/* The whole admission, and the same as a piece of all first offsets, and of more than there are. */
static void admit(const char *name, const char *plan, struct wanted wanted, size_t new_plan_len,
                  struct due_admission due)
{
    lend_to_admit(plan, wanted, new_plan_len);
    compare_admission(name, call_admit(wanted), due);
    between(name, plan, wanted, 0, wanted.period, new_plan_len, due);
    between(name, plan, wanted, 0, TOP, new_plan_len, due);
}

static conepalhui_answer call_gates(uint32_t link)
{
    return conepalhui_gates(lent[PLAN].bytes, lent[PLAN].length, link, lent[NEW_LIST].bytes, lent[NEW_LIST].length);
}

static conepalhui_answer call_read_gates(void)
{
    return conepalhui_read_gates(lent[LIST].bytes, lent[LIST].length, (uint32_t *)(void *)lent[WORDS].bytes,
                                 lent[WORDS].length / sizeof(uint32_t));
}

static void read_gates(const char *name, const char *list, size_t words_len, const uint32_t *words, size_t count)
{
    lend_all("", "", 0, 0);
    lend(LIST, hex_length(list), list);
    lend_words(words_len);
    conepalhui_answer told = call_read_gates();
    expect_words(name, words, count);
    compare(name, told, gives(0, (uint32_t)count, ""));
}

static void gates_not_read(const char *name, const char *list, size_t words_len, uint32_t result, uint32_t at)
{
    lend_all("", "", 0, 0);
    lend(LIST, hex_length(list), list);
    lend_words(words_len);
    compare(name, call_read_gates(), refused(result, at));
}

/* Adds a number at the end of a text. Gives the new end. */
static char *add_number(char *end, uint32_t number)
{
    for (; number >= 0x80; number >>= 7)
        end += sprintf(end, "%02X ", (unsigned)(number % 0x80 + 0x80));
    return end + sprintf(end, "%02X ", (unsigned)number);
}

/* The list of a link: these words, with just as many bytes as its file has, with more, and with one less. */
static void gates(const char *name, const char *plan, uint32_t link, const uint32_t *words, size_t count)
{
    static char file[3 * CONEPALHUI_LIST_BYTES + 1];
    char *end = file;
    *end = '\0';
    for (size_t i = 0; i < count; i++)
        end = add_number(end, words[i]);
    size_t length = hex_length(file), rooms[] = {length, ROOM, length - 1};
    for (int which = 0; which < (length == 0 ? 2 : 3); which++) {
        lend_all(plan, "", 0, 0);
        lend(NEW_LIST, rooms[which], "");
        conepalhui_answer told = call_gates(link);
        expect_bytes(name, NEW_LIST, which == 2 ? "" : file);
        compare(name, told, which == 2 ? refused(115, 0) : gives(0, (uint32_t)length, ""));
    }
    read_gates(name, file, count, words, count);
}

/* Refused, with room for any list and with none. */
static void no_gates(const char *name, const char *plan, uint32_t link, uint32_t result, uint32_t at)
{
    for (int which = 0; which < 2; which++) {
        lend_all(plan, "", 0, 0);
        lend(NEW_LIST, which == 0 ? CONEPALHUI_LIST_BYTES : 0, "");
        compare(name, call_gates(link), refused(result, at));
    }
}

/* ---- Plan A, with another revision and with other offsets of the legs 0 and 2 */

#define PLAN_A(revision, leg_0, leg_2) \
    revision " 02 02 03 64 " \
    "01 02 08 F4 03 " \
    "02 03 08 F4 03 " \
    "A0 8D 06 B0 12 40 00 02 " \
    "F0 93 09 D0 0F 40 02 01 " \
    "00 00 " leg_0 " 00 " \
    "00 01 98 09 00 " \
    "01 00 " leg_2 " 00"

static const char plan_a[] = PLAN_A("00", "00", "00");
static const char plan_last[] = PLAN_A("FF FF FF FF 0F", "00", "00"); /* at the last revision */

static void numbered_cases(void)
{
    const char *moved_2 = PLAN_A("01", "00", "A0 05"), *moved_0 = PLAN_A("01", "D8 04", "00");
    start("case 11, start", plan_a, 15, gives(0, 12, "00 00 00"));
    slice("case 11, first", plan_a, "00 00 00", 5, 15, gives(1, 5, "00 01 02"));
    slice("case 11, second", plan_a, "00 01 02", 5, 15, gives(1, 5, "00 02 03"));
    slice("case 11, third", plan_a, "00 02 03", 5, 15, gives(5, 1, "00 02 03"));
    slice("case 11, at once", plan_a, "00 00 00", TOP, 15, gives(5, 11, "00 02 03"));
    move("case 12, move", plan_a, "00 02 03", (struct moved){2, 672, 0}, 45, 15, grants(45, "01 02 00", moved_2));
    slice("case 12, slice", moved_2, "01 02 00", 5, 15, gives(0, 5, "01 03 00"));
    slice("case 12, four", moved_2, "01 02 00", 4, 15, gives(1, 4, "01 02 04"));
    move("case 13, move", plan_a, "00 02 03", (struct moved){0, 600, 0}, 45, 15, grants(45, "01 00 00", moved_0));
    slice("case 13, slice", moved_0, "01 00 00", 5, 15, gives(3, 5, "01 01 01"));
    start("case 14, start", "00 00 00 00 00", 15, gives(0, 0, "00 00 00"));
    slice("case 14, slice", "00 00 00 00 00", "00 00 00", 0, 15, gives(0, 0, "00 00 00"));
    start("case 14, empty", "", 15, refused(112, 0));
    start("case 14, 80 00", "80 00", 15, refused(113, 0));
    slice("budget 0", plan_a, "00 01 02", 0, 15, gives(1, 0, "00 01 02"));
    slice("believed: the end of another plan", plan_a, "00 03 00", 0, 15, gives(0, 0, "00 03 00"));
    slice("window", PLAN_A("00", "A1 8D 06", "00"), "00 00 00", 9, 15, gives(2, 1, "00 00 00"));
}

/*
 * A leg holds its link for preamble, frame and the gap after it: 8 + 64 + 12 octets at 8 ns are 672 ns. Hop and
 * deadline are without the gap: 576 ns. Each is tried at the last number that holds, and at the first that does not.
 */
static void gap_cases(void)
{
    const char *in_time = "00 01 01 01 64 01 02 08 F4 03 A0 8D 06 98 09 40 00 01 00 00 00 00"; /* deadline 1,176 */
    const char *late = "00 01 01 01 64 01 02 08 F4 03 A0 8D 06 97 09 40 00 01 00 00 00 00";    /* and 1,175 */
    slice("window, 99,328", PLAN_A("00", "80 88 06", "00"), "00 00 00", 1, 15, gives(1, 1, "00 00 01"));
    slice("window, 99,329", PLAN_A("00", "81 88 06", "00"), "00 00 00", 1, 15, gives(2, 1, "00 00 00"));
    slice("overlap, 672", PLAN_A("00", "00", "A0 05"), "00 02 03", 1, 15, gives(1, 1, "00 02 04"));
    slice("overlap, 671", PLAN_A("00", "00", "9F 05"), "00 02 03", 1, 15, gives(5, 1, "00 02 03"));
    slice("overlap, 576, accepted in edition 1", PLAN_A("00", "00", "C0 04"), "00 00 00", TOP, 15,
          gives(5, 11, "00 02 03"));
    slice("overlap, 49,328", PLAN_A("00", "00", "B0 81 03"), "00 02 03", 1, 15, gives(1, 1, "00 02 04"));
    slice("overlap, 49,329", PLAN_A("00", "00", "B1 81 03"), "00 02 03", 1, 15, gives(5, 1, "00 02 03"));
    slice("hop, 0", PLAN_A("00", "00", "00"), "00 01 01", 1, 15, gives(1, 1, "00 01 02"));
    slice("hop, 1", PLAN_A("00", "01", "00"), "00 01 01", 1, 15, gives(3, 1, "00 01 01"));
    slice("deadline, 1,176", in_time, "00 00 00", 9, 15, gives(0, 3, "00 01 00"));
    slice("deadline, 1,175", late, "00 00 00", 9, 15, gives(4, 3, "00 00 02"));
}

/*
 * A cursor does not know its edition. Edition 1 accepted Plan A with leg 2 at 576 ns, and its cursors are believed
 * still: so whoever saves cursors keeps the edition beside them.
 */
static void cursors_of_edition_1(void)
{
    const char *plan = PLAN_A("01", "00", "C0 04");
    slice("believed: the end of a check in edition 1", plan, "01 03 00", 5, 15, gives(0, 0, "01 03 00"));
    slice("believed: a pause after the place that is violated now", plan, "01 02 04", 5, 15, gives(0, 1, "01 03 00"));
    slice("from its first place it is violated", plan, "01 00 00", TOP, 15, gives(5, 11, "01 02 03"));
}

/* ---- Plan D: stream 1 takes three links, and does not get over them in one period */

#define PLAN_D(revision, deadline, leg_0, leg_1, leg_2, leg_3) \
    revision " 03 02 04 64 " \
    "01 02 08 DC 0B " \
    "02 03 08 DC 0B " \
    "03 04 08 DC 0B " \
    "A0 1F A0 1F 40 00 01 " \
    "D0 0F " deadline " 40 01 03 " \
    "00 00 " leg_0 " " \
    "01 00 " leg_1 " " \
    "01 01 " leg_2 " " \
    "01 02 " leg_3

#define LEG_0 "A0 05 00" /* at 672 ns, of a stream of its own */
#define LEG_1 "00 00"    /* at 0 ns: the first leg of stream 1 */
#define LEG_2 "B0 01 01" /* at 176 ns and a period late */
#define LEG_3 "E0 02 02" /* at 352 ns and two periods late */
#define DUE "80 33"      /* a deadline of 6,528 ns, where the period is 2,000 */

/* One link, one stream of this period and deadline, and one leg. */
#define ONE_LEG(period, deadline, periods) \
    "00 01 01 01 00 01 02 08 00 " period " " deadline " 40 00 01 00 00 00 " periods

/*
 * Hop and deadline count the whole periods that a leg lies late; window and overlap do not. Each is tried at the last
 * number that holds, and at the first that does not.
 */
static void period_cases(void)
{
    const char *far = "00 02 01 02 64 01 02 08 F4 03 02 03 08 F4 03 80 94 EB DC 03 FF FF FF FF 0F 40 00 02 "
                      "00 00 00 03 00 01 00 05"; /* a period of 1 s: the legs start at 3 s and at 5 s */
    start("Plan D", PLAN_D("00", DUE, LEG_0, LEG_1, LEG_2, LEG_3), 15, gives(0, 18, "00 00 00"));
    slice("Plan D", PLAN_D("00", DUE, LEG_0, LEG_1, LEG_2, LEG_3), "00 00 00", TOP, 15, gives(0, 18, "00 04 00"));
    slice("leg 3 one period late", PLAN_D("00", DUE, LEG_0, LEG_1, LEG_2, "E0 02 01"), "00 00 00", TOP, 15,
          gives(3, 14, "00 03 01"));
    slice("leg 3 at 351 ns", PLAN_D("00", DUE, LEG_0, LEG_1, LEG_2, "DF 02 02"), "00 00 00", TOP, 15,
          gives(3, 14, "00 03 01"));
    slice("deadline 6,527", PLAN_D("00", "FF 32", LEG_0, LEG_1, LEG_2, LEG_3), "00 00 00", TOP, 15,
          gives(4, 15, "00 03 02"));
    slice("all of stream 1 a period later", PLAN_D("00", DUE, LEG_0, "00 01", "B0 01 02", "E0 02 03"), "00 00 00", TOP,
          15, gives(0, 18, "00 04 00"));
    slice("its first leg alone", PLAN_D("00", DUE, LEG_0, "00 01", LEG_2, LEG_3), "00 00 00", TOP, 15,
          gives(3, 9, "00 02 01"));
    slice("leg 0 seven periods late", PLAN_D("00", DUE, "A0 05 07", LEG_1, LEG_2, LEG_3), "00 00 00", TOP, 15,
          gives(0, 18, "00 04 00"));
    slice("leg 0 at 671 ns", PLAN_D("00", DUE, "9F 05 00", LEG_1, LEG_2, LEG_3), "00 00 00", TOP, 15,
          gives(5, 7, "00 01 03"));
    slice("leg 0 at 671 ns, seven late", PLAN_D("00", DUE, "9F 05 07", LEG_1, LEG_2, LEG_3), "00 00 00", TOP, 15,
          gives(5, 7, "00 01 03"));
    slice("starts past 32 bits", far, "00 00 00", TOP, 15, gives(0, 7, "00 02 00"));
    start("a period word of 7", ONE_LEG("01", "01", "07"), 15, gives(0, 3, "00 00 00"));
    start("a period word of 8", ONE_LEG("01", "01", "08"), 15, refused(107, 0));
    start("the highest period word", ONE_LEG("01", "01", "FF FF FF FF 0F"), 15, refused(107, 0));
    start("8 for leg 3", PLAN_D("00", DUE, LEG_0, LEG_1, LEG_2, "E0 02 08"), 15, refused(107, 3));
    start("8 periods", ONE_LEG("01", "08", "00"), 15, gives(0, 3, "00 00 00"));
    start("more than 8 periods", ONE_LEG("01", "09", "00"), 15, refused(106, 0));
    start("8 periods of 536,870,911", ONE_LEG("FF FF FF FF 01", "F8 FF FF FF 0F", "00"), 15, gives(0, 3, "00 00 00"));
    start("1 ns more", ONE_LEG("FF FF FF FF 01", "F9 FF FF FF 0F", "00"), 15, refused(106, 0));
    start("all but 1 ns of 8 times 536,870,912", ONE_LEG("80 80 80 80 02", "FF FF FF FF 0F", "00"), 15,
          gives(0, 3, "00 00 00"));
}

static void moves_by_periods(void)
{
    const char *early = PLAN_D("00", DUE, LEG_0, LEG_1, LEG_2, "E0 02 00");
    const char *mended = PLAN_D("01", DUE, LEG_0, LEG_1, LEG_2, LEG_3);
    const char *seven = PLAN_D("01", DUE, LEG_0, LEG_1, LEG_2, "E0 02 07");
    size_t length = hex_length(mended);
    move("two periods late", early, "00 03 01", (struct moved){3, 352, 2}, length, 15,
         grants((uint32_t)length, "01 03 00", mended));
    slice("then nothing is violated", mended, "01 03 00", TOP, 15, gives(0, 6, "01 04 00"));
    move("no period late", mended, "01 04 00", (struct moved){3, 352, 0}, length, 15,
         grants((uint32_t)length, "02 03 00", PLAN_D("02", DUE, LEG_0, LEG_1, LEG_2, "E0 02 00")));
    move("seven periods late", early, "00 00 00", (struct moved){3, 352, 7}, length, 15,
         grants((uint32_t)length, "01 00 00", seven));
    move("eight periods late", early, "00 00 00", (struct moved){3, 352, 8}, ROOM, 15, refused(117, 0));
    move("2^32 - 1 periods late", early, "00 00 00", (struct moved){3, 352, TOP}, ROOM, 15, refused(117, 0));
    move("10 before 17", early, "00 00 00", (struct moved){4, 0, 8}, ROOM, 15, refused(110, 0));
    move("11 before 17", plan_last, "FF FF FF FF 0F 00 00", (struct moved){2, 1, 8}, ROOM, 15, refused(111, 0));
    move("17 before 15 for the new plan", early, "00 00 00", (struct moved){3, 352, 8}, 0, 15, refused(117, 0));
    move("15 for out before 17", early, "00 00 00", (struct moved){3, 352, 8}, ROOM, 14, refused(115, 0));
}

/* Plan A in the first layout, as versions before 3.0.0 wrote it. */
static const char first_a[] = "00 02 02 03 64 01 02 08 F4 03 02 03 08 F4 03 A0 8D 06 B0 12 40 00 02 "
                              "F0 93 09 D0 0F 40 02 01 00 00 00 00 01 98 09 01 00 00";

static void conversions(void)
{
    const char *no_legs = "07 01 00 00 00 01 02 08 00", *wrong = "00 00 00 01 00 FF FF FF FF 0F 05 06";
    convert("Plan A", first_a, 44, grants(44, "", plan_a));
    convert("Plan A, rest of the new plan", first_a, ROOM, grants(44, "", plan_a));
    convert("Plan A, one byte too few", first_a, 43, refused(115, 0));
    convert("Plan A, room for the old file", first_a, 41, refused(115, 0));
    convert("no legs", no_legs, 9, grants(9, "", no_legs));
    convert("nothing is judged", wrong, 13, grants(13, "", "00 00 00 01 00 FF FF FF FF 0F 05 06 00"));
    convert("Plan A of today", plan_a, ROOM, refused(114, 41));
    convert("12", "00 02 02 03 64 01 02", ROOM, refused(112, 7));
    convert("12 inside a number", "00 02 02 03 64 01 82", ROOM, refused(112, 6));
    convert("13", "00 00 00 01 00 00 80 00 00", ROOM, refused(113, 6));
    convert("2", "00 81 02 00 00 00", ROOM, refused(102, 0));
    convert("12 before 2", "00 81 02 00 00", ROOM, refused(112, 5));
    convert("2 before 13", "00 81 02 00 00 00 80 00", ROOM, refused(102, 0));
    convert("13 before 12", "00 00 00 01 00 80 00", ROOM, refused(113, 5));
    convert("14 before 15", plan_a, 0, refused(114, 41));
    convert("12 before 15", "00 02 02 03 64 01 02", 0, refused(112, 7));
    convert("null", "", 0, refused(112, 0));
    convert("null for the new plan", first_a, 0, refused(115, 0));
    start("a file of the first layout is no plan of today", first_a, 15, refused(112, 41));
    slice("nor is it for a slice", first_a, "00 00 00", 5, 15, refused(112, 41));
    move("nor for a move", first_a, "00 00 00", (struct moved){0, 0, 0}, ROOM, 15, refused(112, 41));
}

/* ---- Admissions */

/* Plan A mended, with a third stream of this period over link 0, whose one leg begins at this offset. */
#define PLAN_A_AND(period, offset) \
    "01 02 03 04 64 " \
    "01 02 08 F4 03 " \
    "02 03 08 F4 03 " \
    "A0 8D 06 B0 12 40 00 02 " \
    "F0 93 09 D0 0F 40 02 01 " \
    period " D0 0F 40 03 01 " \
    "00 00 00 00 " \
    "00 01 98 09 00 " \
    "01 00 A0 05 00 " \
    "02 00 " offset " 00"

#define MENDED PLAN_A("00", "00", "A0 05") /* Plan A without its overlap: accepted */
#define NUMBERS 44                         /* so many has Plan A with a third stream of one leg */
#define THIRD(period) ((struct wanted){{0}, 1, period, 2000, 64})

/* Two links in a row, and no stream. A frame is at the next node 1,176 ns after it was sent, by every clock. */
static const char no_streams[] = "00 02 00 00 64 01 02 08 F4 03 02 03 08 F4 03";

/*
 * The legs on link 0 hold it from 0 to 672 and from 672 to 1,344 ns, and the new stream's leg comes right after them.
 * With a period of 50,000 ns it comes there too; with one of 2,016 ns it would meet them sooner or later.
 */
static void admissions(void)
{
    const char *carried = "01 02 01 02 64 01 02 08 F4 03 02 03 08 F4 03 98 09 B0 12 40 00 02 00 00 00 00 00 01 00 01";
    const char *later = "01 02 01 02 64 01 02 08 F4 03 02 03 08 F4 03 99 09 B0 12 40 00 02 00 00 01 00 00 01 00 01";
    const char *one_leg = ONE_LEG("E8 07", "E8 07", "00"); /* a stream of 1,000 ns on the only link */
    admit("after leg 2", MENDED, THIRD(100000), 5 * NUMBERS, admits(1344, PLAN_A_AND("A0 8D 06", "C0 0A")));
    admit("rest of the new plan", MENDED, THIRD(100000), ROOM, admits(1344, PLAN_A_AND("A0 8D 06", "C0 0A")));
    admit("period 50,000", MENDED, THIRD(50000), ROOM, admits(1344, PLAN_A_AND("D0 86 03", "C0 0A")));
    admit("no slot, period 2,016", MENDED, THIRD(2016), ROOM, not_admitted(118, 0));
    admit("a link that is full", one_leg, (struct wanted){{0}, 1, 1000, 1000, 64}, ROOM, not_admitted(118, 0));
    admit("deadline 1,176", MENDED, (struct wanted){{1}, 1, 100000, 1176, 64}, ROOM,
          admits(0, "01 02 03 04 64 01 02 08 F4 03 02 03 08 F4 03 A0 8D 06 B0 12 40 00 02 F0 93 09 D0 0F 40 02 01 "
                    "A0 8D 06 98 09 40 03 01 00 00 00 00 00 01 98 09 00 01 00 A0 05 00 02 01 00 00"));
    admit("deadline 1,175", MENDED, (struct wanted){{1}, 1, 100000, 1175, 64}, ROOM, not_admitted(118, 0));
    admit("a start of a period", no_streams, (struct wanted){{0, 1}, 2, 1176, 2352, 64}, ROOM, admits(0, carried));
    admit("1 ns less", no_streams, (struct wanted){{0, 1}, 2, 1177, 2352, 64}, ROOM, admits(1, later));
    admit("a window of its own", no_streams, (struct wanted){{0}, 1, 671, 671, 64}, ROOM, not_admitted(118, 0));
    start("the new plan", PLAN_A_AND("A0 8D 06", "C0 0A"), 15, gives(0, 18, "01 00 00"));
    slice("the new plan", PLAN_A_AND("A0 8D 06", "C0 0A"), "01 00 00", TOP, 15, gives(0, 18, "01 04 00"));
    slice("1 ns sooner", PLAN_A_AND("A0 8D 06", "BF 0A"), "01 00 00", TOP, 15, gives(5, 18, "01 03 05"));
    slice("believed: a cursor of Plan A, moved once", PLAN_A_AND("A0 8D 06", "C0 0A"), "01 03 00", TOP, 15,
          gives(0, 6, "01 04 00"));
}

/* Pieces: each admits at its own least offset, or tells where to look on. */
static void pieces(void)
{
    const char *at_1344 = PLAN_A_AND("A0 8D 06", "C0 0A"), *at_1345 = PLAN_A_AND("A0 8D 06", "C1 0A");
    between("up to 1,344", MENDED, THIRD(100000), 0, 1344, ROOM, none_yet(1344));
    between("from 1,344", MENDED, THIRD(100000), 1344, 1345, ROOM, admits(1344, at_1344));
    between("from 1,345", MENDED, THIRD(100000), 1345, 1346, ROOM, admits(1345, at_1345));
    between("up to 1,345", MENDED, THIRD(100000), 0, 1345, 5 * NUMBERS, admits(1344, at_1344));
    between("one byte too few", MENDED, THIRD(100000), 0, 1344, 5 * NUMBERS - 1, not_admitted(115, 0));
    between("nothing to look at", MENDED, THIRD(100000), 0, 0, ROOM, none_yet(0));
    between("the end before the start", MENDED, THIRD(100000), 5000, 4000, ROOM, none_yet(4000));
    between("the last ns of the window", MENDED, THIRD(100000), 99328, 100000, ROOM,
            admits(99328, PLAN_A_AND("A0 8D 06", "80 88 06")));
    between("after it", MENDED, THIRD(100000), 99329, 99999, ROOM, none_yet(99999));
    between("after it, to the end", MENDED, THIRD(100000), 99329, 100000, ROOM, not_admitted(118, 0));
    between("past the period", MENDED, THIRD(100000), 100000, TOP, ROOM, not_admitted(118, 0));
    between("nothing at the end", MENDED, THIRD(100000), TOP, TOP, ROOM, not_admitted(118, 0));
    between("20 before none yet", MENDED, THIRD(0), 0, 0, ROOM, not_admitted(120, 0));
    between("19 before none yet", plan_a, THIRD(100000), 0, 1, ROOM, not_admitted(119, 0));
}

/* Goes through the first offsets in pieces of this length, as the header does. The last answer is that of the whole. */
static void in_pieces(const char *name, const char *plan, struct wanted wanted, uint32_t step, struct due_admission due)
{
    uint32_t from = 0, end = 0;
    for (;;) {
        end = wanted.period - from > step ? from + step : wanted.period;
        bool last = due.result == 0 ? from <= due.offset && due.offset < end : end == wanted.period;
        between(name, plan, wanted, from, end, ROOM, last ? due : none_yet(end));
        if (last || faults > 20)
            return;
        from = end;
    }
}

/* A route of more links than a table may have legs. */
static void admit_long_route(void)
{
    const struct wanted wanted = {{0}, ROOM / 4, 100000, 2000, 64};
    lend_all(MENDED, "", ROOM, 0);
    lend(ROUTE, ROOM, "");
    compare_admission("a route of 16,384 links", call_admit(wanted), not_admitted(120, 0));
    compare_admission("a route of 16,384 links", call_between(wanted, 0, TOP), not_admitted(120, 0));
}

static void refused_admissions(void)
{
    const char *ring = "00 02 00 00 00 01 02 08 00 02 01 08 00";
    static const struct {
        const char *name;
        struct wanted wanted;
    } tried[] = {
        {"no link", {{0}, 0, 100000, 2000, 64}},
        {"a link that is not there", {{2}, 1, 100000, 2000, 64}},
        {"link 2^32 - 1", {{TOP}, 1, 100000, 2000, 64}},
        {"a broken route", {{1, 0}, 2, 100000, 4000, 64}},
        {"a link twice", {{0, 0}, 2, 100000, 4000, 64}},
        {"period 0", {{0}, 1, 0, 2000, 64}},
        {"a period of more than 1 s", {{0}, 1, 1000000001, 2000, 64}},
        {"period 2^32 - 1", {{0}, 1, TOP, 2000, 64}},
        {"deadline 0", {{0}, 1, 100000, 0, 64}},
        {"more than 8 periods", {{0}, 1, 1000, 8001, 64}},
        {"63 octets", {{0}, 1, 100000, 2000, 63}},
        {"1,523 octets", {{0}, 1, 100000, 2000, 1523}},
    };
    for (size_t i = 0; i < sizeof tried / sizeof *tried; i++) {
        admit(tried[i].name, MENDED, tried[i].wanted, ROOM, not_admitted(120, 0));
        admit(tried[i].name, MENDED, tried[i].wanted, 0, not_admitted(120, 0));
    }
    admit("back to node 1", ring, (struct wanted){{0, 1}, 2, 100000, 4000, 64}, ROOM, not_admitted(120, 0));
    admit("nine links", ring, (struct wanted){{0, 1, 0, 1, 0, 1, 0, 1, 0}, 9, 100000, 9000, 64}, ROOM,
          not_admitted(120, 0));
    admit("one byte too few", MENDED, THIRD(100000), 5 * NUMBERS - 1, not_admitted(115, 0));
    admit("room for its bytes alone", MENDED, THIRD(100000), 58, not_admitted(115, 0));
    admit("no room", MENDED, THIRD(100000), 0, not_admitted(115, 0));
    admit("not accepted", plan_a, THIRD(100000), 5 * NUMBERS, not_admitted(119, 0));
    admit("15 before 19", plan_a, THIRD(100000), 5 * NUMBERS - 1, not_admitted(115, 0));
    admit("19 before 18", plan_a, (struct wanted){{0}, 1, 100000, 1, 64}, ROOM, not_admitted(119, 0));
    admit("15 before 18", MENDED, (struct wanted){{0}, 1, 100000, 1, 64}, 0, not_admitted(115, 0));
    admit("20 before 19", plan_a, THIRD(0), ROOM, not_admitted(120, 0));
    admit("at the last revision", PLAN_A("FF FF FF FF 0F", "00", "A0 05"), THIRD(100000), ROOM, not_admitted(111, 0));
    admit("11 before 20", plan_last, THIRD(0), 0, not_admitted(111, 0));
    admit("to the last revision", "FE FF FF FF 0F 01 00 00 00 01 02 08 00", (struct wanted){{0}, 1, 1000, 1000, 64},
          ROOM, admits(0, "FF FF FF FF 0F 01 01 01 00 01 02 08 00 E8 07 E8 07 40 00 01 00 00 00 00"));
    admit_long_route();
    admit("a file of the first layout", first_a, THIRD(100000), ROOM, not_admitted(112, 41));
    admit("all null", "", (struct wanted){{0}, 0, 0, 0, 0}, 0, not_admitted(112, 0));
}

/* ---- Rechecks */

/*
 * Of Plan A's three legs, leg 0 can be read at 7 places and the others, each the last of its stream, at 5. Each plan
 * here is Plan A with one leg moved. What is violated elsewhere is not told.
 */
static void rechecks(void)
{
    const char *both = PLAN_A("00", "D8 04", "A0 05"); /* leg 0 at 600 ns breaks the next hop, and overlaps leg 2 */
    recheck("leg 0", MENDED, 0, keeps(7));
    recheck("leg 1, the last of its stream", MENDED, 1, keeps(5));
    recheck("leg 2, of a stream of its own", MENDED, 2, keeps(5));
    recheck("the overlap of a higher leg", plan_a, 0, breaks(5, 7, 2, 3));
    recheck("the overlap with a lower leg", plan_a, 2, breaks(5, 4, 2, 3));
    recheck("the overlap of two others", plan_a, 1, keeps(5));
    recheck("the next hop before the overlap", both, 0, breaks(3, 4, 1, 1));
    recheck("its own hop", both, 1, breaks(3, 2, 1, 1));
    recheck("the overlap, where another hop is violated", both, 2, breaks(5, 4, 2, 3));
    recheck("a window at place 0 of leg 0", PLAN_A("00", "81 88 06", "A0 05"), 0, breaks(2, 1, 0, 0));
    recheck("the window of another leg", PLAN_A("00", "81 88 06", "A0 05"), 2, keeps(5));
    recheck("at the last revision", plan_last, 0, breaks(5, 7, 2, 3));
    not_rechecked("leg 3", MENDED, 3, 110, 0);
    not_rechecked("leg 2^32 - 1", MENDED, TOP, 110, 0);
    not_rechecked("no legs", "00 00 00 00 00", 0, 110, 0);
    not_rechecked("a file of the first layout", first_a, 0, 112, 41);
    not_rechecked("null", "", 0, 112, 0);
    not_rechecked("null, and no such leg", "", TOP, 112, 0);
}

/* The three legs 1 to 3 of one stream: the deadline is at place 2 of leg 3, whichever of them was moved. */
static void rechecks_of_a_stream(void)
{
    const char *accepted = PLAN_D("00", DUE, LEG_0, LEG_1, LEG_2, LEG_3);
    const char *too_late = PLAN_D("00", "FF 32", LEG_0, LEG_1, LEG_2, LEG_3);
    const char *leg_3_early = PLAN_D("00", DUE, LEG_0, LEG_1, LEG_2, "E0 02 01");
    const char *leg_1_late = PLAN_D("00", DUE, LEG_0, "00 01", LEG_2, LEG_3);
    const char *leg_0_early = PLAN_D("00", DUE, "9F 05 00", LEG_1, LEG_2, LEG_3);
    const uint32_t places[] = {6, 8, 8, 6};
    for (uint32_t leg = 0; leg < 4; leg++)
        recheck("Plan D", accepted, leg, keeps(places[leg]));
    recheck("the deadline, of the first leg", too_late, 1, breaks(4, 7, 3, 2));
    recheck("the deadline, of the middle leg", too_late, 2, breaks(4, 7, 3, 2));
    recheck("the deadline, of the last leg", too_late, 3, breaks(4, 3, 3, 2));
    recheck("the deadline of another stream", too_late, 0, keeps(6));
    recheck("its own hop", leg_3_early, 3, breaks(3, 2, 3, 1));
    recheck("the next hop", leg_3_early, 2, breaks(3, 6, 3, 1));
    recheck("the hop after the next", leg_3_early, 1, keeps(8));
    recheck("the next hop, one period late", leg_1_late, 1, breaks(3, 5, 2, 1));
    recheck("the overlap of the next stream", leg_0_early, 0, breaks(5, 4, 1, 3));
    recheck("the overlap with the stream before", leg_0_early, 1, breaks(5, 4, 1, 3));
    recheck("the overlap of two others", leg_0_early, 2, keeps(8));
}

/* ---- Explanations */

/* Every pair of legs and every place of a plan, and what was seen of results and of offsets that are not there. */
static unsigned seen_results[6], seen_met, seen_apart, seen_free, seen_none;

static void explain_all(const char *name, const char *plan)
{
    read_words(plan);
    uint32_t legs = words[3];
    for (uint32_t leg = 0; leg < legs; leg++) {
        for (uint32_t other = 0; other < legs; other++) {
            conepalhui_first_meeting due = meeting_due(leg, other);
            expect_meeting(name, plan, leg, other, due);
            seen_met += due.result == 1 && leg != other;
            seen_apart += due.result == 0 && frame_of(leg).link == frame_of(other).link;
        }
        for (uint32_t place = 0; place < 3 + leg; place++) {
            conepalhui_place_margin margin = margin_due(leg, place);
            conepalhui_near_offsets nearest = nearest_due(leg, place);
            expect_margin(name, plan, leg, place, margin);
            expect_nearest(name, plan, leg, place, nearest);
            seen_results[margin.result]++;
            seen_free += margin.asked == 0;
            seen_none += nearest.has_below == 0 && nearest.has_above == 0;
        }
    }
}

/* Two legs on one link that hold it for 672 and 12,336 ns; their periods are 100,000 and 150,000 ns. */
#define LONG_AND_SHORT(offset) \
    "00 01 02 02 64 01 02 08 F4 03 A0 8D 06 B0 12 40 00 01 F0 93 09 D0 86 03 F2 0B 01 01 00 00 00 00 01 00 " \
    offset " 00"

static void explanations(void)
{
    const char *one_leg = "00 01 01 01 00 01 02 08 00 D0 0F 01 40 00 01 00 00 00 00"; /* due before it can arrive */
    explain_all("Plan A", plan_a);
    explain_all("Plan A with leg 2 at 672", MENDED);
    explain_all("a hop and an overlap", PLAN_A("00", "D8 04", "A0 05"));
    explain_all("a window", PLAN_A("00", "81 88 06", "A0 05"));
    explain_all("leg 2 at 671", PLAN_A("00", "00", "9F 05"));
    explain_all("leg 2 at 50,000: they meet in later repeats", PLAN_A("00", "00", "D0 86 03"));
    explain_all("leg 2 at 49,329", PLAN_A("00", "00", "B1 81 03"));
    explain_all("Plan D", PLAN_D("00", DUE, LEG_0, LEG_1, LEG_2, LEG_3));
    explain_all("Plan D, too late", PLAN_D("00", "FF 32", LEG_0, LEG_1, LEG_2, LEG_3));
    explain_all("Plan D, leg 3 early", PLAN_D("00", DUE, LEG_0, LEG_1, LEG_2, "E0 02 01"));
    explain_all("Plan D, leg 0 early", PLAN_D("00", DUE, "9F 05 00", LEG_1, LEG_2, LEG_3));
    explain_all("a long frame at 671", LONG_AND_SHORT("9F 05"));
    explain_all("a long frame at 700", LONG_AND_SHORT("BC 05"));
    explain_all("a long frame at 37,665", LONG_AND_SHORT("A1 A6 02"));
    explain_all("one leg", one_leg);
    bool rules = seen_results[0] && seen_results[2] && seen_results[3] && seen_results[4] && seen_results[5];
    if (!rules || seen_met == 0 || seen_apart == 0 || seen_free == 0 || seen_none == 0)
        fault("explanations", "not all that may be told was tried");
    for (uint32_t leg = 0; leg < 4; leg++) {
        uint32_t place = leg == 3 ? 0 : 3 + leg; /* the first that is not there */
        expect_margin("no such place", plan_a, leg, place, no_margin(109, 0));
        expect_nearest("no such place", plan_a, leg, place, no_offsets(109, 0));
        expect_margin("place 2^32 - 1", plan_a, leg, TOP, no_margin(109, 0));
        expect_nearest("place 2^32 - 1", plan_a, leg, TOP, no_offsets(109, 0));
    }
    expect_margin("leg 2^32 - 1", plan_a, TOP, 0, no_margin(109, 0));
    expect_nearest("leg 2^32 - 1", plan_a, TOP, 0, no_offsets(109, 0));
    for (uint32_t leg = 0; leg < 3; leg++) {
        expect_meeting("no such leg", plan_a, leg, 3, no_meeting(110, 0));
        expect_meeting("no such leg", plan_a, 3, leg, no_meeting(110, 0));
        expect_meeting("leg 2^32 - 1", plan_a, leg, TOP, no_meeting(110, 0));
        expect_meeting("leg 2^32 - 1", plan_a, TOP, leg, no_meeting(110, 0));
    }
    not_explained("a file of the first layout", first_a, 0, 112, 41);
    not_explained("null", "", 0, 112, 0);
    not_explained("null, and numbers that are not there", "", TOP, 112, 0);
}

/* ---- Gate lists */

#define COUNT(words) (sizeof(words) / sizeof *(words))

/* Plan A with other periods of its streams, and with all legs so much later that these are their offsets. */
#define PLAN_A_AT(period_0, period_1, leg_0, leg_1, leg_2) \
    "00 02 02 03 64 " \
    "01 02 08 F4 03 " \
    "02 03 08 F4 03 " \
    period_0 " B0 12 40 00 02 " \
    period_1 " D0 0F 40 02 01 " \
    "00 00 " leg_0 " 00 " \
    "00 01 " leg_1 " 00 " \
    "01 00 " leg_2 " 00"

/* Periods of 2,000 and 1,024,000 ns: leg 0 holds link 0 512 times in a cycle, and leg 2 follows its first hold. */
#define COMB(leg_0, leg_1, leg_2) PLAN_A_AT("D0 0F", "80 C0 3E", leg_0, leg_1, leg_2)

/* Periods of 700 and 800 ms; and of others whose least common multiple is just below 1 s, and 1 s and 1 ns. */
#define SLOW(leg_2) PLAN_A_AT("80 CE E4 CD 02", "80 90 BC FD 02", "00", "98 09", leg_2)
#define BELOW_1_S PLAN_A_AT("D4 86 F9 9E 01", "FE C9 B5 EE 01", "00", "98 09", "A0 05") /* 6 times 166,666,666 ns */
#define ABOVE_1_S PLAN_A_AT("C5 81 D7 24", "CB 94 01", "00", "98 09", "A0 05") /* 76,923,077 and 19,019 ns */

/*
 * On link 0 of Plan A with leg 2 at 672 ns, leg 0 holds from 0 up to 672 in each period of 100,000, and leg 2 from 672
 * up to 1,344 in each of 150,000: two holds that follow each other are one pair.
 */
static const uint32_t list_of_a[] = {128, 1344, 127, 98656, 128, 672, 127, 50000,
                                     128, 672,  127, 48656, 128, 672, 127, 99328};
static const char file_of_a[] = "80 01 C0 0A 7F E0 82 06 80 01 A0 05 7F D0 86 03 "
                                "80 01 A0 05 7F 90 FC 02 80 01 A0 05 7F 80 88 06";

static uint32_t comb[CONEPALHUI_LIST_WORDS]; /* 1,024 pairs */
static char comb_file[3 * CONEPALHUI_LIST_BYTES + 1];

static void make_comb(void)
{
    char *end = comb_file;
    for (size_t i = 0; i < CONEPALHUI_LIST_WORDS; i++) {
        comb[i] = (const uint32_t[]){128, 672, 127, 1328}[i % 4];
        comb[i] = i == 1 ? 1344 : i == 3 ? 656 : comb[i];
        end = add_number(end, comb[i]);
    }
}

static void gate_lists(void)
{
    const uint32_t link_1[] = {127, 1176, 128, 672, 127, 98152};
    const uint32_t slow_1[] = {127, 1176, 128, 672, 127, 699998152};
    const uint32_t below[] = {128, 1344, 127, 333331988, 128, 672, 127, 166666666,
                              128, 672,  127, 166665322, 128, 672, 127, 333332660};
    const uint32_t one_second[] = {128, 672, 127, 999999328}, held[] = {128, 672}, twice[] = {128, 672, 127, 328};
    lend_all(MENDED, "", 0, 0);
    lend(NEW_LIST, sizeof file_of_a / 3, "");
    conepalhui_answer told = call_gates(0);
    expect_bytes("Plan A, in bytes", NEW_LIST, file_of_a);
    compare("Plan A, in bytes", told, gives(0, 32, ""));
    gates("Plan A", MENDED, 0, list_of_a, COUNT(list_of_a));
    gates("Plan A, link 1", MENDED, 1, link_1, COUNT(link_1));
    gates("Plan A at the last revision", PLAN_A("FF FF FF FF 0F", "00", "A0 05"), 0, list_of_a, COUNT(list_of_a));
    gates("no legs", "00 01 00 00 00 01 02 08 F4 03", 0, NULL, 0);
    gates("no legs on link 1", "00 02 01 01 00 01 02 08 00 02 01 08 00 E8 07 E8 07 40 00 01 00 00 00 00", 1, NULL, 0);
    gates("a hold of 672 ns in 1,000", ONE_LEG("E8 07", "E8 07", "00"), 0, twice, COUNT(twice));
    gates("seven periods late", ONE_LEG("E8 07", "C0 3E", "07"), 0, twice, COUNT(twice));
    gates("held all the time", ONE_LEG("A0 05", "C0 04", "00"), 0, held, COUNT(held));
    gates("a cycle of 1 s", ONE_LEG("80 94 EB DC 03", "E8 07", "00"), 0, one_second, COUNT(one_second));
    gates("a cycle of just below 1 s", BELOW_1_S, 0, below, COUNT(below));
    gates("a link whose own cycle is short enough", SLOW("A0 05"), 1, slow_1, COUNT(slow_1));
    gates("1,024 pairs", COMB("00", "98 09", "A0 05"), 0, comb, CONEPALHUI_LIST_WORDS);
    no_gates("link 2", MENDED, 2, 123, 0);
    no_gates("link 2^32 - 1", MENDED, TOP, 123, 0);
    no_gates("no links", "00 00 00 00 00", 0, 123, 0);
    no_gates("not accepted", plan_a, 0, 119, 0);
    no_gates("not accepted, another link", plan_a, 1, 119, 0);
    no_gates("23 before 19", plan_a, 2, 123, 0);
    no_gates("a cycle of 5.6 s", SLOW("A0 05"), 0, 121, 0);
    no_gates("a cycle of 1 s and 1 ns", ABOVE_1_S, 0, 121, 0);
    no_gates("19 before 21", SLOW("00"), 0, 119, 0);
    no_gates("23 before 21", SLOW("A0 05"), 2, 123, 0);
    no_gates("1,025 pairs", COMB("01", "99 09", "A1 05"), 0, 122, 0);
    no_gates("19 before 22", COMB("01", "99 09", "9F 05"), 0, 119, 0);
    no_gates("a file of the first layout", first_a, 0, 112, 41);
    no_gates("null", "", 0, 112, 0);
    no_gates("null, and no such link", "", TOP, 112, 0);
}

static void lists_read(void)
{
    const uint32_t tops[] = {TOP, TOP}, small[] = {0, 0, 5, 127, 127, 5}, equal[] = {127, 1, 127, 1};
    read_gates("Plan A's list", file_of_a, COUNT(list_of_a), list_of_a, COUNT(list_of_a));
    read_gates("rest of the words", file_of_a, ROOM / 4, list_of_a, COUNT(list_of_a));
    read_gates("nothing", "", 0, NULL, 0);
    read_gates("nothing, and room", "", ROOM / 4, NULL, 0);
    read_gates("the highest numbers", "FF FF FF FF 0F FF FF FF FF 0F", 2, tops, 2);
    read_gates("any numbers", "00 00 05 7F 7F 05", 6, small, 6);
    read_gates("equal neighbours", "7F 01 7F 01", 4, equal, 4);
    read_gates("1,024 pairs", comb_file, CONEPALHUI_LIST_WORDS, comb, CONEPALHUI_LIST_WORDS);
    gates_not_read("one word too few", file_of_a, COUNT(list_of_a) - 1, 115, 0);
    gates_not_read("no words", file_of_a, 0, 115, 0);
    gates_not_read("1,024 pairs, one word too few", comb_file, CONEPALHUI_LIST_WORDS - 1, 115, 0);
    static const struct {
        const char *list;
        uint32_t result, at;
    } tried[] = {
        {"80 01 C0", 112, 2}, {"80 01", 112, 2},    {"80", 112, 0},          {"80 80 80 80", 112, 0},
        {"7F", 112, 1},       {"01 02 03", 112, 3}, {"01 02 80", 112, 2},    {"80 00 05", 113, 0},
        {"05 80 00", 113, 1}, {"80 00", 113, 0},    {"80 80 80 80 80", 113, 0}, {"05 FF FF FF FF 10", 113, 1},
        {"FF FF FF FF 10 05", 113, 0}, {"05 06 07 80 00", 113, 3}, {"80 00 80", 113, 0},
    };
    for (size_t i = 0; i < COUNT(tried); i++) {
        gates_not_read(tried[i].list, tried[i].list, ROOM / 4, tried[i].result, tried[i].at);
        gates_not_read(tried[i].list, tried[i].list, 0, tried[i].result, tried[i].at);
    }
}

/* Each plan here is refused in the same way by all calls, with the position of its refusal. */
static void refused_plans(void)
{
    static const struct {
        const char *plan;
        uint32_t result, at;
    } tried[] = {
        {"00 81 02 00 00 00", 102, 0},
        {"00 01 00 00 00 00 00 08 00", 104, 0},
        {"00 02 00 00 00 00 01 08 00 01 02 07 00", 104, 1},
        {"00 02 00 00 00 00 01 08 00 00 01 08 00", 105, 1},
        {"00 00 01 00 00 00 00 00 00 00", 106, 0},
        {"00 00 00 01 00 00 00 00 00", 106, 0},
        {"00 00 01 01 00 01 01 40 00 01 00 00 00 00", 107, 0},
        {"00 02 02 03 64 01 02", 112, 7},
        {"00 02 02 03 64 01 82", 112, 6},
        {"00 02 02 03 64 81 00", 113, 5},
        {"00 02 02 03 64 FF FF FF FF 10", 113, 5},
        {"00 00 00 00 00 00", 114, 5},
    };
    for (size_t i = 0; i < sizeof tried / sizeof *tried; i++) {
        struct due due = refused(tried[i].result, tried[i].at);
        const char *name = tried[i].plan;
        start(name, name, 15, due);
        slice(name, name, "00 00 00", 5, 15, due);
        move(name, name, "00 00 00", (struct moved){0, 0, 0}, ROOM, 15, due);
        not_rechecked(name, name, 0, tried[i].result, tried[i].at);
        not_rechecked(name, name, TOP, tried[i].result, tried[i].at);
        not_explained(name, name, 0, tried[i].result, tried[i].at);
        not_explained(name, name, TOP, tried[i].result, tried[i].at);
        admit(name, name, THIRD(100000), ROOM, not_admitted(tried[i].result, tried[i].at));
        admit(name, name, THIRD(0), 0, not_admitted(tried[i].result, tried[i].at));
        no_gates(name, name, 0, tried[i].result, tried[i].at);
        no_gates(name, name, TOP, tried[i].result, tried[i].at);
    }
}

/* Each cursor here is refused in the same way by slice and move of Plan A. */
static void refused_cursors(void)
{
    static const struct {
        const char *cursor;
        uint32_t result, at;
    } tried[] = {
        {"00 00", 112, 2},       {"00 80 80", 112, 1}, {"00 80 00 00", 113, 1}, {"00 00 00 00", 114, 3},
        {"01 00 00", 108, 0},    {"00 00 03", 109, 0}, {"00 02 05", 109, 0},    {"00 03 01", 109, 0},
        {"00 04 00", 109, 0},    {"01 04 00", 108, 0}, {"80 80 80 80 10 00 00", 113, 0},
        {"FF FF FF FF 0F 00 00", 108, 0},
    };
    for (size_t i = 0; i < sizeof tried / sizeof *tried; i++) {
        struct due due = refused(tried[i].result, tried[i].at);
        const char *name = tried[i].cursor;
        slice(name, plan_a, name, 5, 15, due);
        move(name, plan_a, name, (struct moved){0, 0, 0}, ROOM, 15, due);
    }
}

static void moves(void)
{
    const char *longer = PLAN_A("01", "00", "FF FF FF FF 0F"), *same = PLAN_A("01", "00", "00");
    const char *longest = PLAN_A("80 01", "00", "FF FF FF FF 0F");
    const char *last = PLAN_A("FF FF FF FF 0F", "00", "01");
    const char *before_last = PLAN_A("FE FF FF FF 0F", "00", "00");
    move("leg 3", plan_a, "00 00 00", (struct moved){3, 0, 0}, ROOM, 15, refused(110, 0));
    move("leg 2^32 - 1", plan_a, "00 00 00", (struct moved){TOP, 0, 0}, ROOM, 15, refused(110, 0));
    move("ahead", plan_a, "00 01 02", (struct moved){2, TOP, 0}, 48, 15, grants(48, "01 01 02", longer));
    move("longer by all five bytes", PLAN_A("7F", "00", "00"), "7F 00 00", (struct moved){2, TOP, 0},
         44 + CONEPALHUI_MOVE_BYTES, 15, grants(49, "80 01 00 00", longest));
    move("same offset", plan_a, "00 03 00", (struct moved){2, 0, 0}, 44, 15, grants(44, "01 02 00", same));
    move("from the end", plan_a, "00 03 00", (struct moved){0, 0, 0}, 44, 15, grants(44, "01 00 00", same));
    move("to the last revision", before_last, "FE FF FF FF 0F 00 00", (struct moved){2, 1, 0}, 48, 15,
         grants(48, "FF FF FF FF 0F 00 00", last));
    move("at the last revision", plan_last, "FF FF FF FF 0F 00 00", (struct moved){2, 1, 0}, ROOM, 15,
         refused(111, 0));
    move("10 before 11", plan_last, "FF FF FF FF 0F 00 00", (struct moved){3, 1, 0}, ROOM, 15,
         refused(110, 0));
}

static void rooms_and_orders(void)
{
    struct due no_room = refused(115, 0);
    const char *longer = PLAN_A("01", "00", "FF FF FF FF 0F");
    start("start, 14 bytes for out", plan_a, 14, no_room);
    slice("slice, 14 bytes for out", plan_a, "00 00 00", 5, 14, no_room);
    move("move, 14 bytes for out", plan_a, "00 00 00", (struct moved){0, 0, 0}, ROOM, 14, no_room);
    move("move, one byte too few", plan_a, "00 00 00", (struct moved){2, TOP, 0}, 47, 15, no_room);
    start("start, rest of out", plan_a, 99, gives(0, 12, "00 00 00"));
    slice("slice, rest of out", plan_a, "00 00 00", 1, 99, gives(1, 1, "00 00 01"));
    move("move, rest of both", plan_a, "00 00 00", (struct moved){2, TOP, 0}, ROOM, 99,
         grants(48, "01 00 00", longer));
    slice("14 in the plan before 12 in the cursor", "00 00 00 00 00 00", "", 5, 0, refused(114, 5));
    slice("12 in the cursor before 15", plan_a, "", 5, 0, refused(112, 0));
    slice("15 before 4", "00 01 00 00 00 00 00 08 00", "00 00 00", 5, 14, no_room);
    slice("4 before 8", "00 01 00 00 00 00 00 08 00", "01 00 00", 5, 15, refused(104, 0));
    move("15 for out before 8", plan_a, "01 00 00", (struct moved){9, 0, 0}, 0, 14, no_room);
    move("9 before 10", plan_a, "00 09 00", (struct moved){9, 0, 0}, 0, 15, refused(109, 0));
    move("11 before 15 for the new plan", plan_last, "FF FF FF FF 0F 00 00", (struct moved){2, 1, 0}, 0, 15,
         refused(111, 0));
}

/* A buffer of length 0 is lent as null. */
static void nulls(void)
{
    struct due empty = refused(112, 0), no_room = refused(115, 0);
    start("null plan", "", 15, empty);
    start("null out", plan_a, 0, no_room);
    start("all null, start", "", 0, empty);
    slice("null cursor", plan_a, "", 5, 15, empty);
    slice("all null, slice", "", "", 5, 0, empty);
    move("null new plan", plan_a, "00 00 00", (struct moved){0, 0, 0}, 0, 15, no_room);
    move("all null, move", "", "", (struct moved){0, 0, 0}, 0, 0, empty);
}

/* Memory that is only read may overlap: here the cursor lies in the plan. */
static void shared_memory(void)
{
    lend_all("00 00 00 00 00", "", 0, 15);
    compare("the cursor in the plan",
            conepalhui_slice_full(lent[PLAN].bytes, 5, lent[PLAN].bytes + 1, 3, 7, lent[OUT].bytes, 15),
            gives(0, 0, "00 00 00"));
    lend_all("00 00 00 00 00 A5 A5 A5", "", ROOM, 0);
    compare_admission("the route in the plan",
                      conepalhui_admit(lent[PLAN].bytes, 5, (const uint32_t *)(const void *)lent[PLAN].bytes, 1, 1000,
                                       1000, 64, lent[NEW_PLAN].bytes, ROOM),
                      not_admitted(120, 0));
}

static void helpers(void)
{
    static const struct {
        const char *cursor;
        size_t length;
        struct conepalhui_place place;
    } known[] = {
        {"00 00 00 00 00 00 00 00 00 00 00 00 00 00 00", 3, {0, 0, 0}},
        {"AC 02 FF 0F 82 10 A5 A5 A5 A5 A5 A5 A5 A5 A5", 6, {300, 2047, 2050}},
        {"FF FF FF FF 0F FF FF FF FF 0F FF FF FF FF 0F", 15, {TOP, TOP, TOP}},
        {"FF FF FF FF FF FF FF FF FF FF FF FF FF FF FF", 15, {TOP, 0, 0}}, /* no cursor, and no harm */
    };
    for (size_t i = 0; i < sizeof known / sizeof *known; i++) {
        uint8_t bytes[CONEPALHUI_CURSOR_BYTES];
        put_hex(bytes, known[i].cursor);
        struct conepalhui_place place = conepalhui_cursor_place(bytes);
        cases++;
        if (conepalhui_cursor_length(bytes) != known[i].length || memcmp(&place, &known[i].place, sizeof place) != 0)
            fault("helpers", known[i].cursor);
    }
    cases++;
    if (conepalhui_refusal(115) != 15 || conepalhui_refusal(101) != 1 || conepalhui_refusal(100) != 0 ||
        conepalhui_refusal(5) != 0)
        fault("helpers", "refusal");
}

/* ---- The stack */

static void stack_start(void)
{
    call_start();
}

static void stack_slice(void)
{
    call_slice(TOP);
}

static void stack_short_slice(void)
{
    call_short_slice(TOP);
}

static void stack_move(void)
{
    call_move((struct moved){2047, TOP, 7});
}

static void stack_recheck(void)
{
    call_recheck(2);
}

static void stack_meeting(void)
{
    call_meeting(2, 0);
}

static void stack_margin(void)
{
    call_margin(2, 3);
}

static void stack_nearest(void)
{
    call_nearest(2, 3);
}

static void stack_gates(void)
{
    call_gates(0);
}

static void stack_read_gates(void)
{
    call_read_gates();
}

static void stack_convert(void)
{
    call_convert();
}

/* A stream that is like those of the largest plan, and over the first link alone. */
static const struct wanted like_all = {{0, 1, 2, 3}, 4, 1000000000, 1000000000, 64};
static const struct wanted like_one = {{0}, 1, 1000000000, 1000000000, 64};

static void stack_admit(void)
{
    call_admit(lent[PLAN].length > 100 ? like_all : like_one);
}

static void stack_between(void)
{
    call_between(lent[PLAN].length > 100 ? like_all : like_one, 0, TOP);
}

/*
 * The largest plan: 512 streams of four legs over four links in a row, and 252 links that no stream takes. The second
 * is the same in the first layout, and the third has one stream less.
 */
static char largest[3 * CONEPALHUI_PLAN_BYTES], first_largest[3 * CONEPALHUI_PLAN_BYTES];
static char all_but_one[3 * CONEPALHUI_PLAN_BYTES];

static void make_largest(char *end, uint32_t revision, uint32_t streams, int leg_numbers)
{
    for (int i = 0; i < 5; i++)
        end = add_number(end, (const uint32_t[]){revision, 256, streams, 4 * streams, 100}[i]);
    for (uint32_t link = 0; link < 256; link++)
        for (int i = 0; i < 4; i++)
            end = add_number(end, (const uint32_t[]){link, link + 1, 8, 500}[i]);
    for (uint32_t stream = 0; stream < streams; stream++)
        for (int i = 0; i < 5; i++)
            end = add_number(end, (const uint32_t[]){1000000000, 1000000000, 64, 4 * stream, 4}[i]);
    for (uint32_t leg = 0; leg < 4 * streams; leg++)
        for (int i = 0; i < leg_numbers; i++)
            end = add_number(end, (const uint32_t[]){leg / 4, leg % 4, leg / 4 * 672 + leg % 4 * 1176, 0}[i]);
}

/* The largest plan without its last stream: the same stream is admitted again, where it was, and nothing more. */
static void full_plans(void)
{
    struct wanted five = {{0, 1, 2, 3, 4}, 5, 1000000000, 1000000000, 64};
    make_largest(all_but_one, 6, 511, 4);
    admit("the last stream of the largest plan", all_but_one, like_all, CONEPALHUI_PLAN_BYTES,
          admits(511 * 672, largest));
    admit("one byte too few for it", all_but_one, like_all, CONEPALHUI_PLAN_BYTES - 1, not_admitted(115, 0));
    admit("one leg too many", all_but_one, five, CONEPALHUI_PLAN_BYTES, not_admitted(120, 0));
    admit("one stream too many", largest, like_all, CONEPALHUI_PLAN_BYTES, not_admitted(120, 0));
    between("the last stream, up to its place", all_but_one, like_all, 0, 511 * 672, ROOM, none_yet(511 * 672));
}

static void stacks(void)
{
    static const struct {
        const char *name;
        void (*call)(void);
        const char *plans[2];
        size_t most;
    } calls[] = {
        {"start", stack_start, {largest, plan_a}, CONEPALHUI_STACK_BYTES},
        {"slice_full", stack_slice, {largest, plan_a}, CONEPALHUI_STACK_BYTES},
        {"slice", stack_short_slice, {largest, plan_a}, CONEPALHUI_STACK_BYTES},
        {"move", stack_move, {largest, plan_a}, CONEPALHUI_STACK_BYTES},
        {"recheck", stack_recheck, {largest, MENDED}, CONEPALHUI_STACK_BYTES},
        {"meeting", stack_meeting, {largest, plan_a}, CONEPALHUI_STACK_BYTES},
        {"margin", stack_margin, {largest, plan_a}, CONEPALHUI_STACK_BYTES},
        {"nearest", stack_nearest, {largest, plan_a}, CONEPALHUI_STACK_BYTES},
        {"convert_first", stack_convert, {first_largest, first_a}, CONEPALHUI_STACK_BYTES},
        {"gates", stack_gates, {largest, COMB("00", "98 09", "A0 05")}, CONEPALHUI_GATES_STACK_BYTES},
        {"read_gates", stack_read_gates, {largest, plan_a}, CONEPALHUI_STACK_BYTES},
        {"admit", stack_admit, {all_but_one, MENDED}, CONEPALHUI_ADMIT_STACK_BYTES},
        {"admit_between", stack_between, {all_but_one, MENDED}, CONEPALHUI_ADMIT_STACK_BYTES},
    };
    make_largest(largest, 7, 512, 4);
    make_largest(first_largest, 7, 512, 3);
    full_plans();
    start("largest plan", largest, 15, gives(0, 2102272, "07 00 00"));
    slice("largest plan", largest, "07 00 00", TOP, 15, gives(0, 2102272, "07 80 10 00"));
    slice("largest plan, paused", largest, "07 FF 0F 80 10", 1, 15, gives(1, 1, "07 FF 0F 81 10"));
    recheck("largest plan, a first leg", largest, 0, keeps(2052));
    recheck("largest plan, a middle leg", largest, 2046, keeps(2052));
    recheck("largest plan, the last leg", largest, 2047, keeps(2050));
    not_rechecked("largest plan, no such leg", largest, 2048, 110, 0);
    gates("largest plan", largest, 0, (const uint32_t[]){128, 344064, 127, 999655936}, 4);
    gates("largest plan, link 3", largest, 3, (const uint32_t[]){127, 3528, 128, 344064, 127, 999652408}, 6);
    gates("largest plan, a link without legs", largest, 255, NULL, 0);
    no_gates("largest plan, no such link", largest, 256, 123, 0);
    convert("largest plan", first_largest, hex_length(largest), grants((uint32_t)hex_length(largest), "", largest));
    convert("largest plan, too little room", first_largest, hex_length(largest) - 1, refused(115, 0));
    for (size_t i = 0; i < sizeof calls / sizeof *calls; i++) {
        size_t most = 0;
        for (int which = 0; which < 2; which++) {
            lend_all(calls[i].plans[which], which == 0 ? "07 00 00" : "00 00 00", CONEPALHUI_PLAN_BYTES, 15);
            lend_route(like_all.links, which == 0 ? like_all.count : like_one.count);
            lend(LIST, hex_length(comb_file), comb_file);
            lend(NEW_LIST, CONEPALHUI_LIST_BYTES, "");
            lend_words(CONEPALHUI_LIST_WORDS);
            size_t used = stack_of(calls[i].call);
            most = used > most ? used : most;
        }
        cases++;
        if (most > calls[i].most)
            fault(calls[i].name, "it uses more of the stack than the header says");
        printf("stack of %s: %zu bytes\n", calls[i].name, most);
    }
}

int main(void)
{
    make_buffers();
    numbered_cases();
    gap_cases();
    cursors_of_edition_1();
    period_cases();
    refused_plans();
    refused_cursors();
    moves();
    moves_by_periods();
    conversions();
    admissions();
    pieces();
    in_pieces("pieces of 1 ns", no_streams, (struct wanted){{0, 1}, 2, 1177, 2352, 64}, 1,
              admits(1, "01 02 01 02 64 01 02 08 F4 03 02 03 08 F4 03 99 09 B0 12 40 00 02 00 00 01 00 00 01 00 01"));
    in_pieces("pieces of 100 ns", MENDED, THIRD(100000), 100, admits(1344, PLAN_A_AND("A0 8D 06", "C0 0A")));
    in_pieces("pieces of 7 ns, and none fits", MENDED, THIRD(2016), 7, not_admitted(118, 0));
    refused_admissions();
    rechecks();
    rechecks_of_a_stream();
    explanations();
    make_comb();
    gate_lists();
    lists_read();
    rooms_and_orders();
    nulls();
    shared_memory();
    helpers();
    stacks();
    printf("%u calls, %u faults\n", cases, faults);
    return faults == 0 ? 0 : 1;
}
