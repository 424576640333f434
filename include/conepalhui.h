/*
 * conepalhui.h: the calls of Conepalhui, for C (C99 or later) and C++ (C++98 or later).
 *
 * Conepalhui checks a network timetable (IEEE 802.1Qbv): whether every frame keeps its window, its hops and its
 * deadline, and whether two frames ever want one wire. The check is done in slices as small as one likes. Between two
 * slices all that is known of it is a cursor of at most 15 bytes, which the caller saves where it likes.
 *
 *     uint8_t cursor[CONEPALHUI_CURSOR_BYTES], next[CONEPALHUI_CURSOR_BYTES];
 *     conepalhui_answer answer = conepalhui_start(plan, plan_len, cursor, sizeof cursor);
 *     if (answer.result != CONEPALHUI_GRANTED)
 *         return refused(answer);
 *     do {
 *         wait_until_idle();
 *         answer = conepalhui_slice_full(plan, plan_len, cursor, conepalhui_cursor_length(cursor), 200,
 *                                        next, sizeof next);
 *         if (conepalhui_refusal(answer.result) != 0)
 *             return refused(answer);
 *         memcpy(cursor, next, conepalhui_cursor_length(next));
 *     } while (answer.result == CONEPALHUI_PAUSED);
 *
 * The verdict is then answer.result; where a rule is violated, conepalhui_cursor_place(cursor) is its place. A whole
 * check is a start and one slice, whose budget is the number that the start gave. A program that checks so and saves
 * nothing keeps the rules below anyway.
 *
 * A frame may be given another slot while the check is paused: conepalhui_move gives the new plan file and the cursor
 * to go on with, and the verdict will be that of a whole check of the new plan.
 *
 * Where a plan was accepted and one of its legs is then moved, there is no need to look at every place again:
 * conepalhui_recheck looks at those that can read this leg, at most 4 more than there are legs. When its verdict is
 * that of a whole check, and when it is not, stands there.
 *
 * A stream may be added to a plan that keeps the rules: conepalhui_admit finds the least first offset with which the
 * plan still keeps them, moves no other frame, and gives the new plan file. Its check begins anew, with a start.
 *
 * Why a place holds or not is told in numbers: conepalhui_margin has what its rule needs and has there and what is to
 * spare, conepalhui_nearest the nearest offsets with which it would hold, and conepalhui_meeting when two legs first
 * hold their link at once.
 *
 * For the switches, conepalhui_gates writes the gate control list of each link of an accepted plan, and
 * conepalhui_read_gates reads a list file. What the switch has to do besides stands there.
 *
 * ---- WHAT THE CALLER MUST KEEP TO. OTHERWISE 'NOTHING VIOLATED' MAY BE SAID OF A PLAN THAT BREAKS A RULE. ----
 *
 *   1. The run. It begins with a start that is granted. Starts, slices and moves follow, in any order. A refused call
 *      writes nothing and is no part of the run; nor is a recheck, nor a gate list, nor a meeting, a margin or the
 *      nearest offsets.
 *   2. The plan. Until a move of the run is granted, each call is given the plan that the first start was given. After
 *      that it is given the plan that the last granted move wrote: the first bytes of new_plan, as many as the number
 *      beside its result says. Nothing else changes the plan.
 *   3. The cursor. Each slice and each move is given a cursor that an earlier call of this run left, the first start
 *      included: the first bytes of that call's out, as many as conepalhui_cursor_length says, unaltered. A cursor from
 *      before the last granted move is refused with 8.
 *   4. Other cursors. Before the first cursor of a run is saved, destroy every saved cursor of this plan, of its
 *      earlier and later versions, and of whatever else had its name. None of them is used again. Checks of plans
 *      under other names go on: their cursors are never given with this plan, nor those of this run with another plan.
 *      A plan to which a stream was added is a later version of the old one, whatever name it is given.
 *   5. Backups. A cursor from a backup is never put back. A plan that was put back goes on only where it is byte by
 *      byte the plan of rule 2; otherwise remove the saved cursor and begin a new run.
 *   6. The edition. A saved cursor does not outlive the edition of the rules (CONEPALHUI_EDITION, see there). Save the
 *      edition in one file with the copy of the plan (below). Begin a new run where it is another one, and where none
 *      was saved.
 *
 * Where 1 to 3 are kept, and memory is lent as below, this is proved of every run that begins and ends with one archive
 * (crates/demands/specs: HostRuns.antt, DemandThreeForC.antt):
 *
 *   - A slice that tells 0, or 2 to 5, tells the verdict of a whole check of the plan as it stands then.
 *   - A verdict comes in time. Take a start or a move of the run and the slices after it, up to the next start or move,
 *     each given the cursor that the call before it left. If there is at least one such slice, and the budgets of
 *     these slices add up to the number of places or more, then one of them told a verdict.
 *   - Where out has 15 bytes, no start is refused, and no slice that is given the cursor which the call before it left.
 *     Nor is a move of a leg of the plan with that cursor, where new_plan has plan_len + 5 bytes, the revision is
 *     below 4,294,967,295 and periods is at most 7.
 *
 * THE LIBRARY CANNOT SEE WHETHER THEY ARE KEPT. A cursor knows its plan by the revision alone. It is refused where that
 * is another one (8) or where the plan has no such place (9), and is believed otherwise. Take two plans of one revision
 * and one number of legs, of which the first keeps the rules and the second does not. The last cursor of the first,
 * given with the second, is answered with 0: nothing violated. So is the last cursor of a plan that kept the rules of
 * an earlier edition, and does not keep those of today.
 *
 * So whoever keeps plan and cursor in files also keeps a whole copy of the plan that the cursor belongs to, and the
 * edition at the head of that copy, in one file. Before the answer to a saved cursor is believed, the edition is
 * compared, and plan and copy byte by byte; if they differ, a new check starts. examples/host.c does so, and may be
 * killed at any moment: a move saves the plan, the copy and the cursor, in this order; a start first removes the old
 * cursor, so that it lasts (its folder is synced), then saves the copy and the new cursor. Like the cursor, the copy is
 * never put back from a backup.
 */
#ifndef CONEPALHUI_H
#define CONEPALHUI_H

#include <stddef.h>
#include <stdint.h>

/* The version of this header and of the archive that it belongs to. A NUMBER is 10000 MAJOR + 100 MINOR + PATCH. */
#define CONEPALHUI_VERSION "3.4.0"
#define CONEPALHUI_VERSION_MAJOR 3
#define CONEPALHUI_VERSION_MINOR 4
#define CONEPALHUI_VERSION_PATCH 0
#define CONEPALHUI_VERSION_NUMBER 30400

/*
 * The edition of the rules: what a plan file, a place and a cursor mean, and when a place holds. It is raised whenever
 * one of them changes. docs/ACCEPTED.md says what they are in this one.
 *
 *   1   the first
 *   2   a leg holds its link 12 octets longer, in window and overlap: for the gap between frames
 *   3   a leg has a fourth number, the whole periods that it lies late: hop and deadline count them. A deadline may be
 *       up to 8 periods. Plan files have the second layout; conepalhui_convert_first converts those of the first
 *
 * A SAVED CURSOR DOES NOT OUTLIVE ITS EDITION. It tells that all places before it hold by the rules of its own day, and
 * by those of today some may be violated, which would never be looked at again. The library cannot see this: a cursor
 * has no edition, and the plan keeps its revision. So whoever saves cursors saves the edition beside them and starts
 * anew where it is another one, be it higher or lower, as examples/host.c does.
 *
 * The number here is the archive's only where header and archive belong together. So start, move, recheck, meeting,
 * margin, nearest, the admissions and the writing of gate lists have the edition in their names there: a program that
 * was compiled with the header of another edition is not linked. Compile it anew.
 */
#define CONEPALHUI_EDITION 3
#define conepalhui_start conepalhui_start_3
#define conepalhui_move conepalhui_move_3
#define conepalhui_recheck conepalhui_recheck_3
#define conepalhui_meeting conepalhui_meeting_3
#define conepalhui_margin conepalhui_margin_3
#define conepalhui_nearest conepalhui_nearest_3
#define conepalhui_admit conepalhui_admit_3
#define conepalhui_admit_between conepalhui_admit_between_3
#define conepalhui_gates conepalhui_gates_3

/*
 * What holds of every call
 *
 * Any bytes and any numbers may be handed in. Each call ends, with an answer or a numbered refusal.
 *
 * Memory. A pointer and the length that follows it lend that many bytes to the call, until it returns; with route and
 * words, that many numbers of 32 bits. A pointer may be null where its length is 0. plan, old_plan, cursor, route and
 * list are only read, and may overlap one another. out, new_plan, new_list and words are written to: none of them may
 * overlap any other memory that is lent to the same call. While a call runs, nobody else may write to the lent memory,
 * nor read what is written to.
 *
 * A refusal writes nothing. Otherwise the cursor lies in the first bytes of out (and the new plan in the first bytes of
 * new_plan, a list file in those of new_list, its numbers in the first of words), and all after it is what it was.
 *
 * Nothing is kept between calls. There is no memory from the heap, no global state, no file and no lock: calls from
 * several threads at once do not concern each other.
 *
 * The stack. The two admissions were not seen to use more than CONEPALHUI_ADMIT_STACK_BYTES, conepalhui_gates not more
 * than CONEPALHUI_GATES_STACK_BYTES, and no other call more than CONEPALHUI_STACK_BYTES. This is measured and not
 * proved: the test fills a stack with a known byte, makes each call on it, on a small plan and on one of 2,048 legs,
 * and looks how much was written over. The most was three quarters of these numbers.
 *
 * Linking. './conepalhui library' proves the calls and builds the archive .built/libconepalhui.a. It is for x86-64 and
 * the System V calling convention (Linux), in programs and in shared libraries, and needs memset alone of other
 * libraries:
 *
 *     cc -Iinclude program.c .built/libconepalhui.a
 *
 * and of an installed copy: cc program.c $(pkg-config --cflags --libs conepalhui)
 */

#define CONEPALHUI_CURSOR_BYTES 15   /* room for every cursor; out must have this many bytes or more */
#define CONEPALHUI_PLAN_BYTES 58905  /* no plan file is longer; room for every new plan */
#define CONEPALHUI_MOVE_BYTES 5      /* a move makes a plan file longer by this many bytes at most */
#define CONEPALHUI_LIST_BYTES 10240  /* no list file that conepalhui_gates writes is longer; room for each of them */
#define CONEPALHUI_LIST_WORDS 2048   /* room for the words of each of them */
#define CONEPALHUI_STACK_BYTES 98304 /* a thread that calls should have this much stack left */
#define CONEPALHUI_ADMIT_STACK_BYTES 229376 /* and one that admits this much */
#define CONEPALHUI_GATES_STACK_BYTES 135168 /* and one that has gate lists written this much */

/*
 * The results. Each call gives one of them: conepalhui_slice returns it, and the others have it in an answer. The
 * results 6 to 99 are kept for rules of later editions: treat a result that you do not know as a plan that is not
 * accepted.
 */
enum {
    CONEPALHUI_NOTHING_VIOLATED = 0, /* a slice: nothing is violated from its cursor on, and the check is done; a
                                        recheck: nothing is violated at the places that it looked at */
    CONEPALHUI_HOLDS = 0,            /* a margin: the place holds */
    CONEPALHUI_NEVER_MEET = 0,       /* a meeting: the two legs never hold one link at once */
    CONEPALHUI_TOLD = 0,             /* nearest: the offsets are told */
    CONEPALHUI_GRANTED = 0,          /* start, move, conversion, admission, gates and read_gates: done */
    CONEPALHUI_PAUSED = 1,           /* paused: the budget is used up, and all that was looked at holds */
    CONEPALHUI_NONE_YET = 1,         /* admit_between: none of the first offsets that were looked at fits */
    CONEPALHUI_MEET = 1,             /* a meeting: the two legs hold one link at once, and it is told when first */
    CONEPALHUI_WINDOW = 2,           /* violated: the frame, with the gap after it, is not through in its period */
    CONEPALHUI_HOP = 3,              /* violated: the frame is sent on before it has arrived from its previous link */
    CONEPALHUI_DEADLINE = 4,         /* violated: the frame arrives at its last node after its deadline */
    CONEPALHUI_OVERLAP = 5,          /* violated: two frames, each with the gap after it, want one link at some time */
    CONEPALHUI_REFUSED = 100         /* plus the number of the refusal, 101 to 115 and 117 to 123 */
};

/* What a start, a slice_full, a move, a conversion, gates and read_gates give. */
struct conepalhui_answer {
    uint32_t result; /* one of those above */
    uint32_t number; /* after a refusal its position; otherwise places, steps, bytes or words: each call says which */
};
typedef struct conepalhui_answer conepalhui_answer;

/* What a recheck gives. */
struct conepalhui_rechecked {
    uint32_t result; /* one of those above */
    uint32_t number; /* how many places were looked at, a violated one included; refused: the position */
    uint32_t leg;    /* violated: the leg of the violated place; otherwise 0 */
    uint32_t place;  /* violated: its place; otherwise 0 */
};
typedef struct conepalhui_rechecked conepalhui_rechecked;

/* What a meeting gives: when two legs first hold their link at once. What is not told is 0. */
struct conepalhui_first_meeting {
    uint32_t result;   /* 0 they never meet, 1 they meet, or 100 + refusal */
    uint32_t position; /* refused: the position */
    uint64_t first;    /* they meet: the last repeat of leg that has begun then, counted from 0 */
    uint64_t second;   /* they meet: the last repeat of other that has begun then */
    uint64_t instant;  /* they meet: the instant in ns, counted from where the offsets are */
};
typedef struct conepalhui_first_meeting conepalhui_first_meeting;

/* What a margin gives: the numbers of the rule at a place, all times in ns. What is not told is 0. */
struct conepalhui_place_margin {
    uint32_t result;   /* 0 the place holds, 2 to 5 it is violated, or 100 + refusal */
    uint32_t position; /* refused: the position */
    uint32_t rule;     /* the rule of the place, 2 to 5, whether it is violated or not */
    uint32_t asked;    /* 1 where the rule asks something at this place, 0 where it does not; the rest is then 0 */
    uint64_t left;     /* the place holds: by how much */
    uint64_t lacks;    /* the place is violated: by how much, at least 1 */
    uint64_t needs;    /* window, hop and deadline: what the rule needs */
    uint64_t has;      /* window, hop and deadline: and what it has */
    uint64_t divisor;  /* overlap: the greatest common divisor of the two periods */
    uint64_t after;    /* overlap: how far the lower leg begins after the leg, by that divisor; less than it */
    uint64_t hold;     /* overlap: how long the leg holds the link */
    uint64_t other;    /* overlap: how long the lower leg holds it */
};
typedef struct conepalhui_place_margin conepalhui_place_margin;

/* What nearest gives: the nearest offsets of a leg with which one place of it holds. What is not told is 0. */
struct conepalhui_near_offsets {
    uint32_t result;    /* 0, or 100 + refusal */
    uint32_t position;  /* refused: the position */
    uint32_t has_below; /* 1 where there is such an offset below the leg's own, otherwise 0 */
    uint32_t below;     /* the nearest one below, in ns */
    uint32_t has_above; /* 1 where there is such an offset above the leg's own, otherwise 0 */
    uint32_t above;     /* the nearest one above, in ns */
};
typedef struct conepalhui_near_offsets conepalhui_near_offsets;

/* What an admission gives. */
struct conepalhui_admission {
    uint32_t result; /* one of those above */
    uint32_t number; /* admitted: how many bytes the new plan file has; none yet: 0; refused: the position */
    uint32_t offset; /* admitted: where the new stream's first leg begins; none yet: where to look on; refused: 0 */
};
typedef struct conepalhui_admission conepalhui_admission;

#ifdef __cplusplus
extern "C" {
#endif

/*
 * Begins a check. out gets the first cursor: the plan's revision, leg 0, place 0.
 *
 * Result: 0 granted, or 100 + refusal. Number: how many places the plan has, or the refusal's position.
 */
conepalhui_answer conepalhui_start(const uint8_t *plan, size_t plan_len, uint8_t *out, size_t out_len);

/*
 * Looks at the plan's places in order from the cursor on, at no more than budget of them, and stops sooner only at a
 * violated place or at the end. Any budget will do, 0 too. out gets the cursor to go on with:
 *
 *   0       nothing violated from the cursor on: the end. A slice that looks at the last place tells this at once
 *   1       paused: the first place that was not looked at
 *   2 to 5  violated: that very place. Another slice from there tells it again
 *
 * The call reads the whole plan whatever the budget is, so a slice of a few hundred places costs less for each of
 * them than a slice of one.
 *
 * Result: 0 to 5, or 100 + refusal. Number: the steps, which are the places that were looked at, or the refusal's
 * position.
 */
conepalhui_answer conepalhui_slice_full(const uint8_t *plan, size_t plan_len, const uint8_t *cursor, size_t cursor_len,
                                        uint32_t budget, uint8_t *out, size_t out_len);

/* The same slice. It returns the result alone, without the number. */
uint32_t conepalhui_slice(const uint8_t *plan, size_t plan_len, const uint8_t *cursor, size_t cursor_len,
                          uint32_t budget, uint8_t *out, size_t out_len);

/*
 * Sets the offset of one leg to any number of nanoseconds, and how many whole periods late it lies to 0 to 7, and
 * raises the plan's revision by one. new_plan gets the whole new plan file, out the cursor to go on with: of the new
 * revision, at the given place or at (leg, 0), whichever comes first. To set the two numbers that the leg has already
 * is a move like any other. Both are set: whoever wants to keep one of them gives it again.
 *
 * Given with the new plan, a cursor of the old one is refused with 8. Given with the old plan's bytes it is believed
 * as before: so drop those bytes once the new plan is saved, and give them to no call of this run again.
 *
 * plan_len + CONEPALHUI_MOVE_BYTES bytes are room enough for the new plan, and so are CONEPALHUI_PLAN_BYTES. Whoever
 * saves both saves the new plan before the new cursor: then a saved cursor is never newer than the saved plan. Whoever
 * drops the new plan drops the new cursor too, which is of that plan alone. The move is then no part of the run.
 *
 * Result: 0 granted, or 100 + refusal. Number: how many bytes the new plan file has, or the refusal's position.
 */
conepalhui_answer conepalhui_move(const uint8_t *plan, size_t plan_len, const uint8_t *cursor, size_t cursor_len,
                                  uint32_t leg, uint32_t offset, uint32_t periods,
                                  uint8_t *new_plan, size_t new_plan_len, uint8_t *out, size_t out_len);

/*
 * Looks again at one leg that was moved: in order, and only at the places of the plan at which this leg can be read.
 * These are
 *
 *   - all places of the leg itself,
 *   - of each higher leg the overlap with it,
 *   - the hop of the next leg of its stream, where there is one,
 *   - and the deadline of its stream, which is a place of the last leg of that stream, whichever leg was moved.
 *
 * In a plan of G legs they are G + 4, or G + 2 for the last leg of a stream.
 *
 * 'NOTHING VIOLATED' IS SAID OF THE PLACES THAT WERE LOOKED AT. OF THE WHOLE PLAN IT HOLDS ONLY WHERE THE PLAN BEFORE
 * THE MOVE WAS ACCEPTED. That is: with the offset and the period word that this one leg had then, and with all other
 * numbers as they are now (the revision plays no part), a whole check in this edition tells 'nothing violated'. Then
 * the recheck tells what a whole check of the plan as it stands tells: that nothing is violated, or the first violated
 * place of all and its rule. This is proved (crates/demands/specs/Rechecks.antt: RechecksAreSound). Otherwise the
 * answer says nothing of other places, neither that they hold nor that the place told is the first of all: check the
 * plan by a start and slices. THE LIBRARY CANNOT SEE WHICH OF THE TWO IT IS.
 *
 * What keeps it so, from one move to the next (EveningsAreSound there):
 *
 *   - Where it was so and the recheck told 0, the plan is accepted now. Any leg may be moved next, and rechecked.
 *   - Where it was so and the recheck told 2 to 5, move THE SAME LEG again, as often as you like, and recheck it. ONCE
 *     ANOTHER LEG IS MOVED it is lost, until a whole check accepts the plan.
 *   - Recheck the very leg that was moved: a recheck of another leg does not look at all that the move may have broken.
 *
 * examples/recheck.c keeps to this.
 *
 * A RECHECK IS NO PART OF A RUN. It takes no cursor, gives none and writes nothing. A cursor at the end is had by
 * slices alone; a check that was paused goes on from its own cursor, which the move gave.
 *
 * The call reads and judges the whole plan, as a start does, and then looks at these few places.
 *
 * Result: 0 nothing violated at the places looked at, 2 to 5 violated, or 100 + refusal; never 1. Number: how many
 * places were looked at, a violated one included, or the refusal's position: 12, 13, 2, 14 and 4 to 7 as for a start,
 * then 10 where the plan has no such leg.
 */
conepalhui_rechecked conepalhui_recheck(const uint8_t *plan, size_t plan_len, uint32_t leg);

/*
 * The next three calls explain: they tell in numbers why a place holds or not. None of them writes anything, takes or
 * gives a cursor, or is part of a run. Each reads and judges the whole plan, as a start does. They answer of any plan
 * that a start is granted for, accepted or not. Places and legs are those of the end of this header.
 *
 * Result: as each says, or 100 + refusal. The refusals in their order: 12, 13, 2, 14 and 4 to 7 as for a start, then
 * 10 at 0 where the plan has no such leg (meeting), or 9 at 0 where it has no such place (margin and nearest). The end
 * is no place here.
 *
 * examples/explain.c tells of the first violated place what they tell.
 */

/*
 * When two legs first hold their link at once: the earliest such instant of all, however many periods it takes, and
 * the repeat of each leg that holds the link then. A leg holds its link from each of its starts, with its frame and the
 * gap after it; start k of it is at its offset and k periods, whatever its period word is. Where a leg holds its link
 * for longer than a period, the last repeat that has begun is told.
 *
 * The place of leg a with a lower leg b, 3 + b, is violated exactly where they meet: MeetingsShowOverlaps in
 * crates/meeting/specs/Theorems.antt. The two legs may be given in either order, which exchanges first and second, and
 * nothing else. A leg given twice meets itself, at its offset.
 *
 * Result: 0 they never meet, be it that they are on different links; 1 they meet.
 */
conepalhui_first_meeting conepalhui_meeting(const uint8_t *plan, size_t plan_len, uint32_t leg, uint32_t other);

/*
 * The numbers of the rule at a place of a leg, and what is to spare:
 *
 *   window     needs: offset and hold time of the leg; has: its period
 *   hop        needs: when the frame has arrived from the previous link and may be sent on; has: when the leg starts
 *   deadline   needs: when the frame has arrived at its last node; has: the start of the first leg and the deadline
 *   overlap    of leg a with a lower leg b: divisor, after, hold, other
 *
 * The first three hold where needs <= has: left is has - needs, lacks is needs - has. An overlap holds where each of
 * the two ends before the other begins, hold <= after and other <= divisor - after: left is how much longer either of
 * them could hold the link, lacks the least by which it would hold if both held the link so much shorter.
 *
 * Nothing is asked (asked is 0) by the hop of the first leg of a stream, by the deadline of a leg that is not the last,
 * and by the overlap of legs on different links. Such a place holds.
 *
 * The result is what a check says of this place: 0 it holds, 2 to 5 it is violated. This is proved
 * (crates/host/specs/ExplainTheorems.antt: HostMarginsDecide). OF OTHER PLACES IT SAYS NOTHING.
 */
conepalhui_place_margin conepalhui_margin(const uint8_t *plan, size_t plan_len, uint32_t leg, uint32_t place);

/*
 * The nearest offsets of a leg, below and above its own, with which it keeps its window and this one place of it holds,
 * all other numbers of the plan staying as they are, its period word too. The offset that the leg has is not one of
 * them, whether the place holds with it or not.
 *
 * THEY SPEAK OF ONE PLACE ALONE, AND OF THE WINDOW OF THE LEG. With such an offset another place may be violated, of
 * this leg or of another one, and others may be violated already: after the move check the plan. A recheck of the leg
 * tells what the move broke, and no more.
 *
 * Result: 0. Whether there is one below is has_below, and whether there is one above has_above: 0 is an offset too.
 */
conepalhui_near_offsets conepalhui_nearest(const uint8_t *plan, size_t plan_len, uint32_t leg, uint32_t place);

/*
 * Converts a plan file of the first layout, as versions before 3.0.0 wrote it. new_plan gets the same plan as a file of
 * today: the same numbers in the same order, the revision too, and 0 as the period word of each leg. Its rules hold
 * exactly when those of edition 2 hold for the old numbers. (A deadline above its period, which was refused 6, may be
 * one of up to 8 periods now.)
 *
 * A plan file does not tell its layout. Whoever calls this names it: nothing is guessed. A plan file of today that has
 * a leg is refused with 14, and one of the first layout that has a leg is refused by the other calls with 12. A plan
 * without legs is the same file in both.
 *
 * Links, streams and legs are not judged: that does the start. A conversion is no part of a run. After it destroy every
 * cursor of the old plan, as before any first start (rule 4).
 *
 * The new file has one byte more for each leg; CONEPALHUI_PLAN_BYTES are always room enough.
 *
 * Result: 0 granted, or 100 + refusal. Number: how many bytes the new plan file has, or the refusal's position: 12 and
 * 13 from left to right, 2 after the fifth number, 14, and last 15 where new_plan has no room for the new file.
 */
conepalhui_answer conepalhui_convert_first(const uint8_t *old_plan, size_t old_plan_len,
                                           uint8_t *new_plan, size_t new_plan_len);

/*
 * Admits one stream to an accepted plan, and moves no leg of it. route has the numbers of the links that the stream
 * takes, in order; period and deadline are in ns. new_plan gets the whole plan file of the enlarged plan: its revision
 * is one higher, the new stream and its legs come last, and all other numbers are what they were.
 *
 * The legs follow one another without waiting: each starts at the very nanosecond from which on its hop holds, and a
 * start of a period or more is carried into the leg's period word. So all follows from the offset of the first leg,
 * whose period word is 0. The least offset below the period is taken with which the enlarged plan is accepted: a start
 * and slices of it would tell 'nothing violated'.
 *
 * THE RUN ON THE NEW PLAN STARTS ANEW. An admission is no part of a run, and gives no cursor. Before the first start of
 * the new plan destroy every saved cursor of the old plan, and of anything that had the new plan's name (rule 4). This
 * is no formality: the old plan, moved once, has the same revision as the new one, and a cursor of it that is given
 * with the new plan is believed, though it is of another plan.
 *
 * Room: 5 bytes for each number of the enlarged plan, which has 5 for each stream, 4 for each link and each leg, and 5
 * in front. CONEPALHUI_PLAN_BYTES are always enough.
 *
 * Result: 0 admitted, or 100 + refusal. The refusals in their order; those without a position are at 0:
 *
 *   12, 13, 2, 14   the plan is no plan file; positions as for a start
 *   4, 5, 6, 7      its links, streams or legs are wrong; positions as for a start
 *   11   its revision is 4,294,967,295
 *   20   the stream would break a limit or the shape: period, deadline or octets out of range; no link, or more than
 *        8; a link that is not there, or that does not begin where the one before it ended; a node met twice; 512
 *        streams already, or more than 2,048 legs with the new ones
 *   15   new_plan has too few bytes
 *   19   the plan is not accepted: a whole check of it tells what is violated
 *   18   no first offset fits. It means: none without waiting. A stream whose frames wait on their way may still have
 *        room, and so may this one after other legs were moved; neither is looked for. It is also told where the frame
 *        comes too late at any offset, and where a leg would lie more than 7 periods late
 *
 * With the periods of most plants this takes milliseconds on the fullest plan. With periods that have little in common
 * the search can be long, many seconds where the new one is near 1,000,000,000 ns. The call cannot be stopped; the next
 * one looks in pieces.
 */
conepalhui_admission conepalhui_admit(const uint8_t *plan, size_t plan_len, const uint32_t *route, size_t route_len,
                                      uint32_t period, uint32_t deadline, uint32_t octets,
                                      uint8_t *new_plan, size_t new_plan_len);

/*
 * A piece of an admission, for whoever shows how far it is, or may want to stop. Only the first offsets from `from` up
 * to but without `until` are looked at, and the least of them that fits is taken. Where none of them fits:
 *
 *   1    none yet, where until is below the period: nothing is written, and offset is until, from where to look on
 *   18   where until is the period or more: none from `from` on fits
 *
 * Result: 0 admitted, 1 none yet, or 100 + refusal, as for conepalhui_admit. Pieces of which the first is from 0, and
 * each other from where the one before it ended, tell together what conepalhui_admit tells, and the last one writes
 * the same, where all are given the same plan and the same numbers. This is proved
 * (crates/host/specs/AdmissionTheorems.antt: HostPiecesMakeTheWhole).
 *
 * ALL PIECES ARE GIVEN ONE PLAN, THE SAME BYTES. Where a leg was moved between two pieces, an offset that was passed by
 * may fit now: 18 may then be told though one fits, and an admission need not be at the least. Begin again from 0.
 *
 *     uint32_t from = 0;
 *     conepalhui_admission given;
 *     do {
 *         show_progress(from, period);
 *         given = conepalhui_admit_between(plan, plan_len, route, route_len, period, deadline, octets, from,
 *                                          period - from > STEP ? from + STEP : period, new_plan, new_plan_len);
 *         from = given.offset;
 *     } while (given.result == CONEPALHUI_NONE_YET && !stopped());
 *
 * Each call reads and judges the whole plan again, so a STEP should not be small: 1,000,000 ns are good.
 */
conepalhui_admission conepalhui_admit_between(const uint8_t *plan, size_t plan_len,
                                              const uint32_t *route, size_t route_len,
                                              uint32_t period, uint32_t deadline, uint32_t octets,
                                              uint32_t from, uint32_t until,
                                              uint8_t *new_plan, size_t new_plan_len);

/*
 * Writes the gate control list (IEEE 802.1Qbv) of one link of an accepted plan: when which gates are open on the port
 * that sends over this link. new_list gets it as a list file, which conepalhui_read_gates reads.
 *
 * A list is pairs of a mask and a duration in ns, from instant 0 on, which is the instant that the offsets of the plan
 * count from. A mask has a bit for each gate: 1 for gate 0, and so on up to 128 for gate 7.
 *
 *   128   gate 7 alone is open, while a leg holds the link: from its start to the end of the gap after its frame
 *   127   all gates but gate 7 are open, at all other times
 *
 * Each pair lasts at least 1 ns, and neighbours have different masks: frames that follow each other without a pause
 * share a pair. The durations add up to the cycle of the link, the least common multiple of the periods on it. The
 * switch repeats the list without end, and in every pass each mask is right. This is proved
 * (crates/gate_lists/specs/Theorems.antt: GateListsRepeat). The last pair may have the mask of the first. A link that
 * no leg takes has an empty list: a file of 0 bytes, with result 0.
 *
 * WHAT THE SWITCH MUST DO BESIDES (docs/OPERATIONS.md has more)
 *
 *   - The frames of the plan go into queue 7, and no others do. A frame is in its queue when its gate opens.
 *   - All ports count from one instant of the common clock. The clock precision of the plan is not in the list.
 *   - GUARD BANDS ARE NOT IN THE LIST: the other gates close at the very nanosecond at which gate 7 opens, and a frame
 *     of another queue that is still being sent then would delay the planned one. So the switch must begin no frame of
 *     another queue that cannot end, with the gap after it, before its gate closes, or it must be able to preempt such
 *     a frame. Where it does neither, other traffic has to be taken off the link.
 *
 * Room: CONEPALHUI_LIST_BYTES are always enough. The list has at most 1,024 pairs.
 *
 * The call checks the whole plan first, as a start and slices of it do, for each link anew, and on all plans of plans/ it
 * takes hardly longer than that. A link that is held without a pause through a cycle of almost a second, by hundreds of
 * legs, can take a second and more (docs/changes/L07.md). It is no part of a run.
 *
 * Result: 0 written, or 100 + refusal. Number: how many bytes the list file has, or the refusal's position. The
 * refusals in their order; those without a position are at 0:
 *
 *   12, 13, 2, 14   the plan is no plan file; positions as for a start
 *   4, 5, 6, 7      its links, streams or legs are wrong; positions as for a start
 *   23   the plan has no such link
 *   19   the plan is not accepted: a whole check of it tells what is violated
 *   21   the cycle of the link is longer than 1,000,000,000 ns: the periods on it have too little in common
 *   22   the list would have more than 1,024 pairs
 *   15   new_list has fewer bytes than the list file
 */
conepalhui_answer conepalhui_gates(const uint8_t *plan, size_t plan_len, uint32_t link,
                                   uint8_t *new_list, size_t new_list_len);

/*
 * Reads a list file into words: the mask of the first pair, its duration, the next mask, and so on. Any numbers are
 * taken, whatever they are as masks and durations; what conepalhui_gates wrote is read back as the list that it wrote
 * (crates/host/specs/GateTheorems.antt: HostListsComeBack).
 *
 * Room: a file of list_len bytes has at most list_len words. For what conepalhui_gates wrote CONEPALHUI_LIST_WORDS are
 * always enough.
 *
 * Result: 0 read, or 100 + refusal. Number: how many words the list has, two for each pair, or the refusal's position:
 * 12 and 13 from left to right, each at the start of its number; 12 at the end of the bytes where a mask has no
 * duration; then 15 at 0 where there are fewer words than the list has. A number or a position above 4,294,967,295,
 * which takes a file of more than 4 GiB, is told as 4,294,967,295.
 */
conepalhui_answer conepalhui_read_gates(const uint8_t *list, size_t list_len, uint32_t *words, size_t words_len);

#ifdef __cplusplus
}
#endif

/* ---- Reading results and cursors */

/* The number of the refusal that a result tells, or 0 where it tells none. */
static inline uint32_t conepalhui_refusal(uint32_t result)
{
    return result > CONEPALHUI_REFUSED ? result - CONEPALHUI_REFUSED : 0;
}

/* A result in words. The numbers 0 and 1 say several things each, one of a slice and others of other calls. */
static inline const char *conepalhui_text(uint32_t result)
{
    switch (result) {
    case CONEPALHUI_NOTHING_VIOLATED: return "after a slice: nothing violated; after a recheck: nothing violated at "
                                             "the places that were looked at; after a meeting: the legs never meet; "
                                             "after a margin: the place holds; after any other call: granted";
    case CONEPALHUI_PAUSED: return "after a slice: paused, and all that was looked at holds; after a piece of an "
                                   "admission: none of the first offsets that were looked at fits; after a meeting: "
                                   "the legs meet";
    case CONEPALHUI_WINDOW: return "violated: the frame, with the gap after it, is not through in its period";
    case CONEPALHUI_HOP: return "violated: the frame is sent on before it has arrived from its previous link";
    case CONEPALHUI_DEADLINE: return "violated: the frame arrives at its last node after its deadline";
    case CONEPALHUI_OVERLAP: return "violated: two frames, each with the gap after it, want one link at some time";
    case CONEPALHUI_REFUSED + 1: return "the table has fewer than five words";
    case CONEPALHUI_REFUSED + 2: return "more links, streams or legs than are allowed, or too high a precision";
    case CONEPALHUI_REFUSED + 3: return "the table has another length than its header says";
    case CONEPALHUI_REFUSED + 4: return "a link out of range, or from a node to itself";
    case CONEPALHUI_REFUSED + 5: return "a link from and to the same nodes as an earlier one";
    case CONEPALHUI_REFUSED + 6: return "a stream out of range, or its first leg or leg count is wrong; or "
                                        "all streams are right, and have fewer legs than the header says";
    case CONEPALHUI_REFUSED + 7: return "a leg's stream, its link, its period word or its route is wrong";
    case CONEPALHUI_REFUSED + 8: return "the cursor is of another revision than the plan";
    case CONEPALHUI_REFUSED + 9: return "the cursor is at no place of the plan, nor at its end; or "
                                        "there is no such place to explain";
    case CONEPALHUI_REFUSED + 10: return "there is no such leg to move, to recheck or to meet";
    case CONEPALHUI_REFUSED + 11: return "a move or an admission at revision 4,294,967,295";
    case CONEPALHUI_REFUSED + 12: return "the bytes end before the numbers do";
    case CONEPALHUI_REFUSED + 13: return "a number in more bytes than it needs, or above 4,294,967,295";
    case CONEPALHUI_REFUSED + 14: return "bytes left over after the last number";
    case CONEPALHUI_REFUSED + 15: return "out has fewer than 15 bytes, or new_plan has no room for the new plan; or "
                                         "new_list has no room for the list file, or words for its numbers";
    case CONEPALHUI_REFUSED + 17: return "a move to more than 7 periods late";
    case CONEPALHUI_REFUSED + 18: return "no first offset fits the new stream, whose frames never wait";
    case CONEPALHUI_REFUSED + 19: return "the plan is not accepted, so no stream is added and no gate list made";
    case CONEPALHUI_REFUSED + 20: return "the new stream would break a limit or the shape of the plan";
    case CONEPALHUI_REFUSED + 21: return "the cycle of the link is longer than 1,000,000,000 ns";
    case CONEPALHUI_REFUSED + 22: return "the gate list would have more than 1,024 pairs";
    case CONEPALHUI_REFUSED + 23: return "there is no such link";
    default: return result > CONEPALHUI_PAUSED && result < CONEPALHUI_REFUSED
                        ? "violated: a rule of a later edition, which this header does not know"
                        : "this is no result of Conepalhui";
    }
}

/* How many bytes the cursor has that a call wrote to out. Only for such cursors: other bytes may have no end. */
static inline size_t conepalhui_cursor_length(const uint8_t *cursor)
{
    size_t length = 0;
    int ends = 0;
    while (ends < 3 && length < CONEPALHUI_CURSOR_BYTES)
        ends += cursor[length++] < 0x80;
    return length;
}

/* A cursor as numbers. */
struct conepalhui_place {
    uint32_t revision, leg, place;
};

/* The three numbers of a cursor that a call wrote to out. */
static inline struct conepalhui_place conepalhui_cursor_place(const uint8_t *cursor)
{
    uint32_t numbers[3] = {0, 0, 0};
    size_t length = conepalhui_cursor_length(cursor), at;
    unsigned which = 0, shift = 0;
    struct conepalhui_place place;
    for (at = 0; at < length; at++) {
        if (shift < 32)
            numbers[which] |= (uint32_t)(cursor[at] & 0x7F) << shift;
        shift = cursor[at] < 0x80 ? 0 : shift + 7;
        which += cursor[at] < 0x80;
    }
    place.revision = numbers[0];
    place.leg = numbers[1];
    place.place = numbers[2];
    return place;
}

/*
 * Plans, places and cursors
 *
 * A number is 0 to 4,294,967,295, written in groups of seven bits, the lowest group first, the top bit set on all bytes
 * but the last, in as few bytes as possible: 300 is AC 02. A plan file is these numbers and nothing else, times in ns:
 *
 *   the header    revision, links (0 to 256), streams (0 to 512), legs (0 to 2,048), clock precision (0 to 1,000,000)
 *   each link     from node, to node (0 to 65,535), ns per octet (8, 80 or 800), propagation (0 to 100,000)
 *   each stream   period (1 to 1,000,000,000), deadline (1 to 8 periods), octets of its frame (64 to 1,522), the
 *                 number of its first leg, how many legs it has (1 to 8)
 *   each leg      stream, link, offset (any), period word (0 to 7): how many whole periods late it lies
 *
 * This is the second layout. In the first one, of versions before 3.0.0, a leg has no period word.
 *
 * A leg starts at its offset and as many periods of its stream as its period word says: hop and deadline count from
 * there. Window and overlap go by the offset alone, since a slot is there in every period.
 *
 * A link joins two different nodes, and no other link joins the same two in this direction. The legs stand in the order
 * of their streams. The legs of a stream are a route: each link begins where the previous one ended, and no node is met
 * twice.
 *
 * Leg a has the places 0 (window), 1 (hop), 2 (deadline) and 3 + b (overlap with leg b) for each leg b below a. A check
 * looks at them by leg, and then by place. G legs have G(G - 1)/2 + 3G places. The end is leg G, place 0.
 *
 * A cursor is three numbers: the plan's revision, a leg, and a place of that leg. It ends with the third byte below
 * 0x80.
 *
 * A list file is a mask, a duration in ns, the next mask, its duration and so on to its end, with no count in front:
 * 128 for 1,344 ns and then 127 for 98,656 is 80 01 C0 0A 7F E0 82 06.
 */

/*
 * The refusals, each with its position, which an answer has as its number. docs/REFUSALS.md has examples, and what to
 * do.
 *
 *   no.   cause                                                                     position
 *    1    the table has fewer than five words                                       0
 *    2    more links, streams or legs than are allowed, or too high a precision     0
 *    3    the table has another length than its header says                         0
 *    4    a link out of range, or from a node to itself                             the lowest such link
 *    5    a link from and to the same nodes as an earlier one                       the lowest later link
 *    6    a stream out of range, or its first leg or leg count is wrong             the lowest such stream
 *         all streams are right, and have fewer legs than the header says           the number of streams
 *    7    a leg's stream, its link, its period word or its route is wrong           the lowest such leg
 *    8    the cursor is of another revision than the plan                           0
 *    9    the cursor is at no place of the plan, nor at its end                     0
 *         there is no such place to explain                                         0
 *   10    there is no such leg to move, to recheck or to meet                       0
 *   11    a move or an admission at revision 4,294,967,295                          0
 *   12    the bytes end before the numbers do                                       the start of that number
 *   13    a number in more bytes than it needs, or above 4,294,967,295              the start of that number
 *   14    bytes left over after the last number                                     the first such byte
 *   15    out has fewer than 15 bytes, or new_plan has no room for the new plan     0
 *         new_list has no room for the list file, or words for its numbers          0
 *   17    a move to more than 7 periods late                                        0
 *   18    no first offset fits the new stream, whose frames never wait              0
 *   19    the plan is not accepted, so no stream is added and no gate list made     0
 *   20    the new stream would break a limit or the shape of the plan               0
 *   21    the cycle of the link is longer than 1,000,000,000 ns                     0
 *   22    the gate list would have more than 1,024 pairs                            0
 *   23    there is no such link                                                     0
 *
 * 1 and 3 concern tables in memory, and no call here gives them: a plan file that is too short or too long is refused
 * with 12 or 14.
 *
 * Where several are due the first is told: of the plan 12 and 13 from left to right, 2 after the fifth number, 14;
 * of the cursor 12, 13, 14; 15 for out; then 4 to 11 and 17 in their order; and last 15 for new_plan. A recheck has no
 * cursor, and after 7 only 10; so it is with a meeting, and margin and nearest have only 9 there. An admission has none
 * either, and an order of its own, after 7: 11, 20, 15, 19, 18. So has a gate list: 23, 19, 21, 22, 15. A 12, 13 or 14
 * of a slice or a move lies in the plan exactly when conepalhui_start refuses that plan with it too, and otherwise in
 * the cursor.
 */

#endif
