/*
 * network_wrong.c: libraries of temporal networks that are wrong on purpose, one thing each.
 *
 * It stands between network_calls.c, in which the calls have the names of this file, and the library. The environment
 * variable WRONG names what is wrong. Where it names nothing, the calls are passed on as they are. tests/network_c.test
 * takes the names from this file, and each has to be caught.
 */
#include "conepalhui-network.h"

#include <stdlib.h>
#include <string.h>

typedef conepalhui_network_answer answer;
typedef conepalhui_network_verdict verdict;
answer tried_network(size_t n, const int64_t *c, size_t words, uint32_t *chain, size_t len);
verdict tried_times(size_t n, const int64_t *c, size_t words, const int64_t *times, size_t len);
verdict tried_chain(size_t n, const int64_t *c, size_t words, const uint32_t *chain, size_t len);

static int wrong(const char *name)
{
    static const char *asked;
    if (asked == NULL)
        asked = getenv("WRONG") != NULL ? getenv("WRONG") : "";
    return strcmp(asked, name) == 0;
}

static volatile int64_t looked;

static void use_stack(void)
{
    volatile char much[CONEPALHUI_NETWORK_STACK_BYTES];
    for (size_t i = 0; i < sizeof much; i++)
        much[i] = 1;
    looked = much[0];
}

/* How many numbers a library takes that counts constraints in another way. */
static size_t misread(size_t words)
{
    if (wrong("a cut constraint is dropped"))
        return words / 3 * 3;
    if (wrong("a constraint cut to two numbers is dropped"))
        return words % 3 == 2 ? words - 2 : words;
    if (wrong("2,049 constraints are taken"))
        return words > 6144 && words < 6148 ? 6144 : words;
    return words;
}

static uint32_t wrong_refusal(uint32_t result, size_t events, size_t words, size_t len)
{
    if (result == 127 && events <= 128 && words < 6147 && wrong("a cut constraint does not count for 27"))
        return 116;
    if (result == 116 && len < events && wrong("15 before 16"))
        return 115;
    if (result == 127 && len < events && wrong("15 before 27"))
        return 115;
    if (result == 127 && words > 3 && wrong("16 before 27"))
        return 116;
    return result;
}

static uint32_t wrong_place(uint32_t number, const int64_t *c, size_t words)
{
    if (wrong("the place of 16 is that of its number"))
        return 3 * number;
    if (wrong("the place of 16 is the last"))
        return (uint32_t)((words - 1) / 3);
    if (wrong("mosts are looked at after events"))
        for (uint32_t k = number + 1; k < words / 3; k++)
            if (c[3 * k] < 0 || c[3 * k] > 4 || c[3 * k + 1] < 0 || c[3 * k + 1] > 4)
                return k;
    return number;
}

static void spoil_times(answer *a, size_t n)
{
    if (wrong("all times are one earlier"))
        for (size_t i = 0; i < n; i++)
            a->times[i]--;
    if (wrong("times are cut to 32 bits"))
        for (size_t i = 0; i < n; i++)
            a->times[i] = (int32_t)a->times[i];
    if (wrong("times are counted from the first event"))
        for (size_t i = n; i > 0; i--)
            a->times[i - 1] -= a->times[0];
    if (n < 128 && wrong("an unused time is not zero"))
        a->times[n] = -1;
    if (n < 128 && wrong("the last unused time is not zero"))
        a->times[127] = -1;
    if (wrong("times count events"))
        a->number = (uint32_t)n;
}

static void spoil_chain(answer *a, size_t n, uint32_t *chain, size_t len)
{
    uint32_t first = chain[0];
    if (wrong("a chain is given backward"))
        for (uint32_t i = 0; i < a->number / 2; i++) {
            first = chain[i];
            chain[i] = chain[a->number - 1 - i];
            chain[a->number - 1 - i] = first;
        }
    if (wrong("a chain counts from 1"))
        for (uint32_t i = 0; i < a->number; i++)
            chain[i]++;
    if (wrong("a chain has the places of its numbers"))
        for (uint32_t i = 0; i < a->number; i++)
            chain[i] *= 3;
    if (a->number < len && wrong("a number is written after the chain"))
        chain[a->number] = 0;
    if (wrong("all of the lent chain is written"))
        memset(chain + a->number, 0, (len - a->number) * sizeof *chain);
    if (wrong("a chain is one shorter"))
        a->number--;
    if (wrong("a chain tells the number of events"))
        a->number = (uint32_t)n;
    if (wrong("a chain leaves times"))
        a->times[n - 1] = -1;
    if (wrong("a chain leaves a time of an unused event"))
        a->times[127] = -1;
}

answer tried_network(size_t n, const int64_t *c, size_t words, uint32_t *chain, size_t len)
{
    answer a;
    if (wrong("the solver uses more of the stack"))
        use_stack();
    if (words == 0 && wrong("a null of constraints is read"))
        looked = *(volatile const int64_t *)c;
    if (len == 0 && wrong("a null of the chain is read"))
        looked = *(volatile uint32_t *)chain;
    if (words > 0 && wrong("a number after the constraints is read"))
        looked = ((volatile const int64_t *)c)[words];
    if (words > 0 && wrong("a number before the constraints is read"))
        looked = ((volatile const int64_t *)c)[-1];
    if (len > 0 && wrong("a number before the chain is written"))
        ((volatile uint32_t *)chain)[-1] = 0;
    if (wrong("events are cut to 32 bits"))
        n = (uint32_t)n;
    if (n == 129 && wrong("129 events are taken"))
        n = 128;
    if (len + 1 == n && wrong("one chain word fewer is taken")) {
        uint32_t more[128];
        a = conepalhui_network(n, c, misread(words), more, n);
    } else if (len == n && n > 0 && wrong("exactly enough chain words are refused")) {
        a = conepalhui_network(n, c, misread(words), chain, len - 1);
    } else {
        a = conepalhui_network(n, c, misread(words), chain, len);
    }
    if (a.result == 115 && wrong("15 is not told where times exist")) {
        uint32_t more[128];
        answer again = conepalhui_network(n, c, words, more, 128);
        a = again.result == 0 ? again : a;
    }
    if (a.result == 115 && wrong("15 is told at the number of words"))
        a.number = (uint32_t)len;
    if (a.result == 127 && wrong("27 is told at the number of events"))
        a.number = (uint32_t)n;
    if (a.result > 100 && len > 0 && wrong("a refusal writes to the chain"))
        chain[0] = 0;
    if (a.result > 100 && wrong("a refusal leaves times"))
        a.times[0] = -1;
    if (a.result == 0 && len > 0 && wrong("times write to the chain"))
        chain[len - 1] = 0;
    if (a.result == 116)
        a.number = wrong_place(a.number, c, words);
    a.result = wrong_refusal(a.result, n, words, len);
    if (a.result == 0)
        spoil_times(&a, n);
    if (a.result == 1)
        spoil_chain(&a, n, chain, len);
    if (a.result < 2 && wrong("times and chain are exchanged"))
        a.result = 1 - a.result;
    if (a.result == 1 && a.number == 1 && wrong("an event before itself is passed over"))
        a.result = a.number = 0;
    if (a.result == 1 && a.number == 128 && wrong("a chain of 128 is passed over"))
        a.result = a.number = 0;
    return a;
}

/* What a library gives that takes the difference, or the sum, in 64 bits and lets it wrap. */
static int wraps(const int64_t *c, size_t words, const int64_t *t, size_t len, int is_sum)
{
    for (size_t k = 0; k < words / 3; k++) {
        uint64_t from, to;
        if ((uint64_t)c[3 * k] >= len || (uint64_t)c[3 * k + 1] >= len)
            return 0;
        from = (uint64_t)t[c[3 * k]];
        to = (uint64_t)t[c[3 * k + 1]];
        if (is_sum ? (int64_t)to > (int64_t)(from + (uint64_t)c[3 * k + 2]) : (int64_t)(to - from) > c[3 * k + 2])
            return 0;
    }
    return 1;
}

verdict tried_times(size_t n, const int64_t *c, size_t words, const int64_t *times, size_t len)
{
    verdict v, kept = {0, 0};
    if (wrong("the test of times uses more of the stack"))
        use_stack();
    if (len == 0 && wrong("a null of times is read"))
        looked = *(volatile const int64_t *)times;
    if (len > 0 && wrong("a time after the list is read"))
        looked = ((volatile const int64_t *)times)[len];
    if (len > 0 && wrong("the test of times writes to them"))
        *(int64_t *)(uintptr_t)times = 0;
    v = conepalhui_network_times(n, c, misread(words), times, len);
    if (v.result == 116)
        v.number = wrong_place(v.number, c, words);
    if (v.result == 127 && words > 3 && wrong("the test of times tells 16 before 27"))
        v.result = 116;
    if (v.result == 0 && len > n && wrong("more times than events are refused"))
        v.result = 2;
    if (v.result == 2 && len < n && wrong("an event without a time is passed over"))
        v = kept;
    if (v.result == 2 && len < n && c[3 * v.number] == c[3 * v.number + 1] && wrong("a constraint with itself is kept"))
        v = kept;
    if (v.result < 3 && words > 0 && len >= n) {
        if (wrong("the difference of times wraps"))
            v.result = wraps(c, words, times, len, 0) ? 0 : 2;
        if (wrong("the sum of time and most wraps"))
            v.result = wraps(c, words, times, len, 1) ? 0 : 2;
        if (times[0] > 0 && wrong("times above zero are broken"))
            v.result = 2;
        if (v.result == 2 && wrong("the last of two is told"))
            for (uint32_t k = v.number; k < words / 3; k++)
                v.number = times[c[3 * k]] == 0 && times[c[3 * k + 1]] > c[3 * k + 2] ? k : v.number;
    }
    if (v.result == 2 && wrong("broken is told as no chain"))
        v.result = 3;
    return v;
}

static int64_t sum_of(const int64_t *c, const uint32_t *chain, size_t len)
{
    int64_t sum = 0;
    for (size_t i = 0; i < len; i++)
        sum += c[3 * chain[i] + 2];
    return sum;
}

/* Whether the numbers are linked and closed. They may meet an event twice. */
static int is_linked(const int64_t *c, size_t words, const uint32_t *chain, size_t len)
{
    for (size_t i = 0; i < len; i++)
        if (chain[i] >= words / 3)
            return 0;
    for (size_t i = 0; i < len; i++)
        if (c[3 * chain[i] + 1] != c[3 * chain[(i + 1) % len]])
            return 0;
    return len > 0;
}

verdict tried_chain(size_t n, const int64_t *c, size_t words, const uint32_t *chain, size_t len)
{
    verdict v;
    if (wrong("the test of a chain uses more of the stack"))
        use_stack();
    if (len == 0 && wrong("a null of the tested chain is read"))
        looked = *(volatile const uint32_t *)chain;
    if (len > 0 && wrong("a number after the tested chain is read"))
        looked = ((volatile const uint32_t *)chain)[len];
    if (len > 0 && wrong("the test of a chain writes to it"))
        *(uint32_t *)(uintptr_t)chain = 0;
    if (len > n && n <= 128 && wrong("a tested chain is cut to the events"))
        len = n;
    v = conepalhui_network_chain(n, c, misread(words), chain, len);
    if (v.result == 116)
        v.number = wrong_place(v.number, c, words);
    if (v.result == 127 && words > 3 && wrong("the test of a chain tells 16 before 27"))
        v.result = 116;
    if (v.result == 1 && wrong("the test of a chain tells its length"))
        v.number = (uint32_t)len;
    if (v.result == 3 && len == 0 && wrong("an empty chain is taken"))
        v.result = 1;
    if (v.result == 1 && len == 1 && wrong("a chain of one is not taken"))
        v.result = 3;
    if (v.result == 1 && len == 128 && wrong("a chain of 128 is not taken"))
        v.result = 3;
    if (v.result == 1 && chain[0] != 0 && len == 3 && wrong("a chain that begins elsewhere is not taken"))
        v.result = 3;
    if (v.result == 3 && is_linked(c, words, chain, len)) {
        int64_t sum = sum_of(c, chain, len);
        if (sum < 0 && wrong("an event may be met twice"))
            v.result = 1;
        if (len <= n && sum == 0 && wrong("sum 0 is taken"))
            v.result = 1;
        if (len <= n && sum == 1 && wrong("any sum is taken"))
            v.result = 1;
        if (len <= n && (int32_t)sum < 0 && wrong("a sum wraps to below zero"))
            v.result = 1;
    }
    if (v.result == 1 && (int32_t)sum_of(c, chain, len) >= 0 && wrong("a sum wraps to zero or above"))
        v.result = 3;
    if (v.result == 3 && len == 1 && chain[0] == 2 && words == 9 && wrong("a chain need not be closed"))
        v.result = 1;
    if (v.result == 3 && wrong("no chain is told as broken"))
        v.result = 2;
    return v;
}
