/* The rest of a driver, which makes the calls that come on standard input. Before it the driver declares:

     FLUSH, BUFFERS     the kind that is no call, and how many buffers a call has
     struct head        how a call comes, with its kind and the length of each buffer
     width              the bytes of an item in each buffer
     answered           what a call gives, which goes back as it is
     spoiled            where in that lie the bytes that an argument can have changed
     make               makes a call */
#include <stdlib.h>
#include <string.h>

/* Reads what is in the buffers of a call. Where one is empty, `at` may be null. */
static void take(const struct head *call, uint8_t **at, uint8_t *const *end, int nulls) {
    for (int i = 0; i < BUFFERS; i++) {
        size_t bytes = call->length[i] * width[i];
        if (bytes > MOST - MARGIN) fail("a buffer is too long");
        at[i] = end[i] - bytes;
        memset(at[i] - MARGIN, 0xA5, MARGIN);
        if (fread(at[i], 1, bytes, stdin) != bytes) fail("the input ends in a call");
        if (bytes == 0 && nulls) at[i] = NULL;
    }
}

/* Writes every byte of the buffers, with the margin that lies before each. */
static void put_back(const struct head *call, uint8_t *const *end) {
    for (int i = 0; i < BUFFERS; i++) {
        size_t bytes = call->length[i] * width[i] + MARGIN;
        put(end[i] - bytes, bytes);
    }
}

/* Changes the last byte of a buffer, or from the number of buffers on the byte before one, or from twice that number on the
   answer. An empty buffer has no last byte. */
static void spoil(size_t what, const struct head *call, uint8_t *const *end, answered *answer) {
    size_t buffer = what % BUFFERS, bytes = call->length[buffer] * width[buffer];
    if (what >= 2 * BUFFERS + sizeof spoiled / sizeof *spoiled) fail("there is nothing of that number to spoil");
    if (what >= 2 * BUFFERS)
        ((uint8_t *)answer)[spoiled[what - 2 * BUFFERS]] ^= 1;
    else if (what >= BUFFERS)
        end[buffer][-(ptrdiff_t)bytes - 1] ^= 1;
    else if (bytes > 0)
        end[buffer][-1] ^= 1;
}

/* Leaves no zeros on the stack, so that an answer which is not written whole is seen. */
static __attribute__((noinline)) void soil_the_stack(void) {
    volatile uint8_t bytes[1 << 14];
    for (size_t i = 0; i < sizeof bytes; i++) bytes[i] = 0xA5;
}

int main(int count, char **arguments) {
    uint8_t *end[BUFFERS], *at[BUFFERS];
    struct head call;
    answered answer;
    for (int i = 0; i < BUFFERS; i++) end[i] = lent_end();
    for (int odd = 0; fread(&call, sizeof call, 1, stdin) == 1; odd ^= 1) {
        if (call.kind == FLUSH) {
            flush();
            continue;
        }
        take(&call, at, end, odd);
        soil_the_stack();
        make(&call, at, &answer);
        if (count > 1) spoil((size_t)atoi(arguments[1]), &call, end, &answer);
        put(&answer, sizeof answer);
        put_back(&call, end);
    }
    if (ferror(stdin) || fflush(stdout) != 0) fail("cannot read or write");
    return 0;
}
