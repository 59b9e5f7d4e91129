/* Prints how many bytes of stack each function of the library takes, one line a function.
 *
 * Each is called once on circuit A by a thread whose stack was filled with a pattern; what lies below the caller's
 * frame and lost the pattern was used. The functions don't recurse and no frame's size depends on the input, so that
 * one accepted call shows all. It ends with 1 where a call is not accepted. Assumes a stack that grows down.
 */
#include "buzzlumen.h"

#include <pthread.h>
#include <stdio.h>
#include <stdlib.h>
#include <string.h>

enum { PATTERN = 0xA5, STACK = 1 << 20, PAGE = 4096 };

static const uint8_t netlist[48] = {
    1, 1, 0, 0, 3, 2, 1, 0, 5, 2, 3, 0,
    0, 0, 3, 0, 2, 0, 1, 0, 1, 0, 1, 0, 3, 0, 1, 0, 1, 0, 1, 0,
    4, 0, 34, 0, 0, 0, 2, 0, 3, 0, 5, 0, 1, 0, 1, 0,
};
static const uint32_t arrivals[2];
static const uint8_t vector[2];
static const int32_t refutation[1];
static uint8_t values[5], propagation[9];
static uint32_t times[5], pairs[6];
static int32_t formula[48];
static uint32_t number;
static uint8_t *frame;

/* Where the caller's frame lies. */
#define CALL(name, call)                   \
    static void *name(void *unused)        \
    {                                      \
        uint8_t here;                      \
        (void)unused;                      \
        frame = (uint8_t *)(void *)&here;  \
        number = (call).number;            \
        return NULL;                       \
    }

CALL(evaluate, buzzlumen_evaluate(netlist, 48, arrivals, 2, vector, 2, values, 5, times, 5))
CALL(build, buzzlumen_build(netlist, 48, arrivals, 2, 3, pairs, 6, formula, 48))
CALL(check, buzzlumen_check(8, formula, 48, refutation, 1, propagation, 9))
CALL(judge, buzzlumen_judge(netlist, 48, arrivals, 2, 2, vector, 2, refutation, 1, values, 5, times, 5, pairs, 6,
                            formula, 48, propagation, 9))

#ifdef RISE_FALL
static const uint32_t falls[5] = {3, 1, 1, 1, 1};
static const int32_t steps[3] = {2, 0, 0};
static uint32_t table[18];
static int32_t longer[95];
static uint8_t wider[12];

CALL(evaluate_rise_fall, buzzlumen_evaluate_rise_fall(netlist, 48, arrivals, 2, falls, 5, vector, 2, values, 5, times,
                                                      5))
CALL(build_rise_fall, buzzlumen_build_rise_fall(netlist, 48, arrivals, 2, falls, 5, 3, table, 18, longer, 95))
CALL(judge_rise_fall, buzzlumen_judge_rise_fall(netlist, 48, arrivals, 2, falls, 5, 2, vector, 2, steps, 3, values, 5,
                                                times, 5, table, 18, longer, 95, wider, 12))
#endif

static void measure(const char *name, void *(*call)(void *))
{
    uint8_t *stack = aligned_alloc(PAGE, STACK), *lowest = stack;
    pthread_attr_t attributes;
    pthread_t thread;
    if (stack == NULL)
        exit(2);
    memset(stack, PATTERN, STACK);
    pthread_attr_init(&attributes);
    if (pthread_attr_setstack(&attributes, stack, STACK) != 0 || pthread_create(&thread, &attributes, call, NULL) != 0)
        exit(2);
    pthread_join(thread, NULL);
    while (*lowest == PATTERN)
        lowest++;
    printf("%s %zu\n", name, (size_t)(frame - lowest));
    free(stack);
    if (number != BUZZLUMEN_ACCEPTED)
        exit(1);
}

int main(void)
{
    measure("evaluate", evaluate);
    measure("build", build);
    measure("check", check);
    measure("judge", judge);
#ifdef RISE_FALL
    measure("evaluate_rise_fall", evaluate_rise_fall);
    measure("build_rise_fall", build_rise_fall);
    measure("judge_rise_fall", judge_rise_fall);
#endif
    return 0;
}
