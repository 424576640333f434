/* How many bytes of the stack a function uses, measured by painting one. */
#include <stdint.h>
#include <string.h>
#include <ucontext.h>

#define PAINT 0xC7
#define STACK 262144

static uint8_t stack[STACK];
static ucontext_t outside, inside;
static void (*measured)(void);

static void run_measured(void)
{
    measured();
}

/* Gives how many bytes of the stack a function uses. */
static size_t stack_of(void (*function)(void))
{
    size_t clean = 0;
    measured = function;
    memset(stack, PAINT, sizeof stack);
    getcontext(&inside);
    inside.uc_stack.ss_sp = stack;
    inside.uc_stack.ss_size = sizeof stack;
    inside.uc_link = &outside;
    makecontext(&inside, run_measured, 0);
    swapcontext(&outside, &inside);
    while (clean < sizeof stack && stack[clean] == PAINT)
        clean++;
    return sizeof stack - clean;
}
