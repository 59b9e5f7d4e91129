/* A C host of the library for the comparison tests: reads calls from standard input, makes them, and writes back every
 * answer and every byte of every slice that it lent.
 *
 * A call is one byte (1 evaluate, 2 build, 3 check, 4 judge; and 5 evaluate, 6 build, 7 judge with rise and fall apart,
 * where RISE_FALL is defined), then the function's parameters in the header's order, numbers little endian: a number is
 * 4 bytes; a slice to read is its length (4 bytes) and its elements; a slice to be written is its length (4 bytes)
 * alone. The reply is the answer's fields in the header's order, without padding, then the bytes of each slice lent for
 * writing, then one byte: 1 if the bytes around the lent slices and the slices to read are as they were, else 0.
 *
 * Each slice lent for writing is filled with a pattern and lies between guards of the same pattern. With the argument
 * `tight` there are no guards and each block is just as long as its slice, for a run under valgrind.
 * Assumes a little endian machine and input from tests/compare.py: it ends with 2 where that breaks off inside a call.
 */
#include "buzzlumen.h"
#ifdef RISE_FALL
#include "rise_fall.h"
#endif

#include <stdio.h>
#include <stdlib.h>
#include <string.h>

enum { EVALUATE = 1, BUILD, CHECK, JUDGE, EVALUATE_RISE_FALL, BUILD_RISE_FALL, JUDGE_RISE_FALL };
enum { PATTERN = 0xAA, GUARD = 64, MOST_SLICES = 10 };

/* A slice to read, with a copy to compare it with, or one lent for writing. */
typedef struct {
    uint8_t *block, *start, *copy;
    size_t length, bytes;
    int lent;
} slice;

static slice slices[MOST_SLICES];
static size_t slice_count;
static size_t guard = GUARD;

static void take(void *to, size_t bytes)
{
    if (bytes != 0 && fread(to, 1, bytes, stdin) != bytes)
        exit(2);
}

static void give(const void *from, size_t bytes)
{
    if (bytes != 0 && fwrite(from, 1, bytes, stdout) != bytes)
        exit(3);
}

static uint32_t take_number(void)
{
    uint32_t number;
    take(&number, sizeof number);
    return number;
}

static uint8_t *block_of(size_t bytes)
{
    uint8_t *block = malloc(bytes != 0 ? bytes : 1);
    if (block == NULL)
        exit(4);
    return block;
}

static slice *next_slice(size_t element, int lent)
{
    slice *it = &slices[slice_count++];
    it->length = take_number();
    it->bytes = it->length * element;
    it->lent = lent;
    return it;
}

/* A slice to read: its own block of just its length, and a copy. */
static slice *take_slice(size_t element)
{
    slice *it = next_slice(element, 0);
    it->block = it->start = block_of(it->bytes);
    it->copy = block_of(it->bytes);
    take(it->start, it->bytes);
    memcpy(it->copy, it->start, it->bytes);
    return it;
}

/* A slice lent for writing: filled with the pattern, guards before and behind. */
static slice *lend_slice(size_t element)
{
    slice *it = next_slice(element, 1);
    it->block = block_of(it->bytes + 2 * guard);
    memset(it->block, PATTERN, it->bytes + 2 * guard);
    it->start = it->block + guard;
    it->copy = NULL;
    return it;
}

static int guards_hold(const slice *it)
{
    for (size_t i = 0; i < guard; i++)
        if (it->block[i] != PATTERN || it->start[it->bytes + i] != PATTERN)
            return 0;
    return 1;
}

/* Write back the lent slices and whether all else is as it was; free everything. */
static void give_slices(void)
{
    uint8_t held = 1;
    for (size_t i = 0; i < slice_count; i++) {
        slice *it = &slices[i];
        if (it->lent) {
            give(it->start, it->bytes);
            held = held && guards_hold(it);
        } else {
            held = held && memcmp(it->start, it->copy, it->bytes) == 0;
        }
        free(it->block);
        free(it->copy);
    }
    give(&held, 1);
    slice_count = 0;
}

static void give_number(uint32_t number)
{
    give(&number, sizeof number);
}

static void give_large(uint64_t number)
{
    give(&number, sizeof number);
}

#define BYTES(it) (it)->start, (it)->length
#define WORDS(it) (uint32_t *)(void *)(it)->start, (it)->length
#define SIGNED(it) (int32_t *)(void *)(it)->start, (it)->length

static void give_evaluated(buzzlumen_evaluated answer)
{
    give_number(answer.number);
    give_number(answer.time);
    give_large(answer.place);
}

static void give_built(buzzlumen_built answer)
{
    give_number(answer.number);
    give_number(answer.variables);
    give_large(answer.place);
    give_large(answer.clauses);
    give_large(answer.numbers);
    give_large(answer.pairs);
}

static void give_judged(buzzlumen_judged answer)
{
    give_number(answer.number);
    give_large(answer.place);
}

static void evaluate(void)
{
    slice *netlist = take_slice(1), *arrivals = take_slice(4), *vector = take_slice(1);
    slice *values = lend_slice(1), *times = lend_slice(4);
    give_evaluated(buzzlumen_evaluate(BYTES(netlist), WORDS(arrivals), BYTES(vector), BYTES(values), WORDS(times)));
}

static void build(void)
{
    slice *netlist = take_slice(1), *arrivals = take_slice(4);
    uint32_t target = take_number();
    slice *pairs = lend_slice(4), *formula = lend_slice(4);
    give_built(buzzlumen_build(BYTES(netlist), WORDS(arrivals), target, WORDS(pairs), SIGNED(formula)));
}

static void check(void)
{
    uint32_t variables = take_number();
    slice *formula = take_slice(4), *refutation = take_slice(4), *propagation = lend_slice(1);
    buzzlumen_checked answer = buzzlumen_check(variables, SIGNED(formula), SIGNED(refutation), BYTES(propagation));
    give_number(answer.number);
    give_large(answer.place);
}

static void judge(void)
{
    slice *netlist = take_slice(1), *arrivals = take_slice(4);
    uint32_t delay = take_number();
    slice *vector = take_slice(1), *refutation = take_slice(4);
    slice *values = lend_slice(1), *times = lend_slice(4), *pairs = lend_slice(4), *formula = lend_slice(4);
    slice *propagation = lend_slice(1);
    give_judged(buzzlumen_judge(BYTES(netlist), WORDS(arrivals), delay, BYTES(vector), SIGNED(refutation),
                                BYTES(values), WORDS(times), WORDS(pairs), SIGNED(formula), BYTES(propagation)));
}

#ifdef RISE_FALL
static void evaluate_rise_fall(void)
{
    slice *netlist = take_slice(1), *arrivals = take_slice(4), *falls = take_slice(4), *vector = take_slice(1);
    slice *values = lend_slice(1), *times = lend_slice(4);
    give_evaluated(buzzlumen_evaluate_rise_fall(BYTES(netlist), WORDS(arrivals), WORDS(falls), BYTES(vector),
                                                BYTES(values), WORDS(times)));
}

static void build_rise_fall(void)
{
    slice *netlist = take_slice(1), *arrivals = take_slice(4), *falls = take_slice(4);
    uint32_t target = take_number();
    slice *pairs = lend_slice(4), *formula = lend_slice(4);
    give_built(buzzlumen_build_rise_fall(BYTES(netlist), WORDS(arrivals), WORDS(falls), target, WORDS(pairs),
                                         SIGNED(formula)));
}

static void judge_rise_fall(void)
{
    slice *netlist = take_slice(1), *arrivals = take_slice(4), *falls = take_slice(4);
    uint32_t delay = take_number();
    slice *vector = take_slice(1), *refutation = take_slice(4);
    slice *values = lend_slice(1), *times = lend_slice(4), *pairs = lend_slice(4), *formula = lend_slice(4);
    slice *propagation = lend_slice(1);
    give_judged(buzzlumen_judge_rise_fall(BYTES(netlist), WORDS(arrivals), WORDS(falls), delay, BYTES(vector),
                                          SIGNED(refutation), BYTES(values), WORDS(times), WORDS(pairs),
                                          SIGNED(formula), BYTES(propagation)));
}
#endif

int main(int count, char **arguments)
{
    if (count > 1 && strcmp(arguments[1], "tight") == 0)
        guard = 0;
    for (int function = getchar(); function != EOF; function = getchar()) {
        if (function == EVALUATE)
            evaluate();
        else if (function == BUILD)
            build();
        else if (function == CHECK)
            check();
        else if (function == JUDGE)
            judge();
#ifdef RISE_FALL
        else if (function == EVALUATE_RISE_FALL)
            evaluate_rise_fall();
        else if (function == BUILD_RISE_FALL)
            build_rise_fall();
        else if (function == JUDGE_RISE_FALL)
            judge_rise_fall();
#endif
        else
            return 5;
        give_slices();
        fflush(stdout);
    }
    return 0;
}
