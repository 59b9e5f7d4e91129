/* Calls one function of the library, or of its twin in C, a given number of times on a case read from files, so that a
 * counter of instructions can tell what a call costs: the cost of two runs' difference. Prints the answer's numbers.
 *
 *     cost library|twin evaluate TIMES netlist arrivals vector
 *     cost library|twin build TIMES netlist arrivals TARGET PAIRS NUMBERS     (room in elements)
 *     cost library|twin evaluate_rise_fall TIMES netlist arrivals falls vector
 *     cost library|twin build_rise_fall TIMES netlist arrivals falls TARGET PAIRS NUMBERS
 *     cost library|twin check TIMES VARIABLES formula refutation
 *     cost library|twin zero TIMES ELEMENTS                           (a refused call that lends so many numbers)
 *
 * The calls for rise and fall apart are the library's where RISE_FALL is defined, and the twin's in any case.
 */
#include "buzzlumen.h"

#include <stdio.h>
#include <stdlib.h>
#include <string.h>

buzzlumen_evaluated twin_evaluate(const uint8_t *, size_t, const uint32_t *, size_t, const uint8_t *, size_t, uint8_t *,
                                  size_t, uint32_t *, size_t);
buzzlumen_built twin_build(const uint8_t *, size_t, const uint32_t *, size_t, uint32_t, uint32_t *, size_t, int32_t *,
                           size_t);
buzzlumen_checked twin_check(uint32_t, const int32_t *, size_t, const int32_t *, size_t, uint8_t *, size_t);

buzzlumen_evaluated twin_evaluate_rise_fall(const uint8_t *, size_t, const uint32_t *, size_t, const uint32_t *, size_t,
                                            const uint8_t *, size_t, uint8_t *, size_t, uint32_t *, size_t);
buzzlumen_built twin_build_rise_fall(const uint8_t *, size_t, const uint32_t *, size_t, const uint32_t *, size_t,
                                     uint32_t, uint32_t *, size_t, int32_t *, size_t);
#ifndef RISE_FALL
#define buzzlumen_evaluate_rise_fall twin_evaluate_rise_fall
#define buzzlumen_build_rise_fall twin_build_rise_fall
#endif

/* A file's bytes and their number. */
typedef struct {
    uint8_t *bytes;
    size_t length;
} contents;

static void *room(size_t bytes)
{
    void *space = malloc(bytes + 1);
    if (!space)
        exit(2);
    memset(space, 0xAA, bytes + 1);
    return space;
}

static contents read_file(const char *name)
{
    contents found = {0, 0};
    FILE *file = fopen(name, "rb");
    if (!file || fseek(file, 0, SEEK_END))
        exit(2);
    found.length = (size_t)ftell(file);
    rewind(file);
    found.bytes = room(found.length);
    if (fread(found.bytes, 1, found.length, file) != found.length)
        exit(2);
    fclose(file);
    return found;
}

static size_t number(const char *word)
{
    return (size_t)strtoull(word, 0, 10);
}

static int evaluate(int twin, size_t times, char **words)
{
    contents netlist = read_file(words[0]), arrivals = read_file(words[1]), vector = read_file(words[2]);
    uint8_t *values = room(512);
    uint32_t *settled = room(512 * sizeof *settled);
    buzzlumen_evaluated answer = {0, 0, 0};
    for (size_t i = 0; i < times; i++)
        answer = (twin ? twin_evaluate : buzzlumen_evaluate)(netlist.bytes, netlist.length,
                                                             (const uint32_t *)arrivals.bytes, arrivals.length / 4,
                                                             vector.bytes, vector.length, values, 512, settled, 512);
    printf("%u %u %llu\n", answer.number, answer.time, (unsigned long long)answer.place);
    return 0;
}

static int build(int twin, size_t times, char **words)
{
    contents netlist = read_file(words[0]), arrivals = read_file(words[1]);
    uint32_t target = (uint32_t)number(words[2]);
    size_t pairs = number(words[3]), numbers = number(words[4]);
    uint32_t *table = room(pairs * sizeof *table);
    int32_t *formula = room(numbers * sizeof *formula);
    buzzlumen_built answer = {0, 0, 0, 0, 0, 0};
    for (size_t i = 0; i < times; i++)
        answer = (twin ? twin_build : buzzlumen_build)(netlist.bytes, netlist.length,
                                                       (const uint32_t *)arrivals.bytes, arrivals.length / 4, target,
                                                       table, pairs, formula, numbers);
    printf("%u %llu %llu %llu\n", answer.number, (unsigned long long)answer.pairs,
           (unsigned long long)answer.clauses, (unsigned long long)answer.numbers);
    return 0;
}

static int evaluate_rise_fall(int twin, size_t times, char **words)
{
    contents netlist = read_file(words[0]), arrivals = read_file(words[1]), falls = read_file(words[2]);
    contents vector = read_file(words[3]);
    uint8_t *values = room(512);
    uint32_t *settled = room(512 * sizeof *settled);
    buzzlumen_evaluated answer = {0, 0, 0};
    for (size_t i = 0; i < times; i++)
        answer = (twin ? twin_evaluate_rise_fall : buzzlumen_evaluate_rise_fall)(
            netlist.bytes, netlist.length, (const uint32_t *)arrivals.bytes, arrivals.length / 4,
            (const uint32_t *)falls.bytes, falls.length / 4, vector.bytes, vector.length, values, 512, settled, 512);
    printf("%u %u %llu\n", answer.number, answer.time, (unsigned long long)answer.place);
    return 0;
}

static int build_rise_fall(int twin, size_t times, char **words)
{
    contents netlist = read_file(words[0]), arrivals = read_file(words[1]), falls = read_file(words[2]);
    uint32_t target = (uint32_t)number(words[3]);
    size_t pairs = number(words[4]), numbers = number(words[5]);
    uint32_t *table = room(pairs * sizeof *table);
    int32_t *formula = room(numbers * sizeof *formula);
    buzzlumen_built answer = {0, 0, 0, 0, 0, 0};
    for (size_t i = 0; i < times; i++)
        answer = (twin ? twin_build_rise_fall : buzzlumen_build_rise_fall)(
            netlist.bytes, netlist.length, (const uint32_t *)arrivals.bytes, arrivals.length / 4,
            (const uint32_t *)falls.bytes, falls.length / 4, target, table, pairs, formula, numbers);
    printf("%u %llu %llu %llu\n", answer.number, (unsigned long long)answer.pairs,
           (unsigned long long)answer.clauses, (unsigned long long)answer.numbers);
    return 0;
}

static int check(int twin, size_t times, char **words)
{
    uint32_t variables = (uint32_t)number(words[0]);
    contents formula = read_file(words[1]), refutation = read_file(words[2]);
    uint8_t *marks = room(variables + 1);
    buzzlumen_checked answer = {0, 0};
    for (size_t i = 0; i < times; i++)
        answer = (twin ? twin_check : buzzlumen_check)(variables, (const int32_t *)formula.bytes, formula.length / 4,
                                                       (const int32_t *)refutation.bytes, refutation.length / 4,
                                                       marks, variables + 1);
    printf("%u %llu\n", answer.number, (unsigned long long)answer.place);
    return 0;
}

static int zero(int twin, size_t times, char **words)
{
    size_t elements = number(words[0]);
    uint32_t *table = room(elements * sizeof *table);
    int32_t *formula = room(elements * sizeof *formula);
    buzzlumen_built answer = {0, 0, 0, 0, 0, 0};
    for (size_t i = 0; i < times; i++)
        answer = (twin ? twin_build : buzzlumen_build)((const uint8_t *)"", 0, (const uint32_t *)table, 0, 0, table,
                                                       elements, formula, elements);
    printf("%u %llu\n", answer.number, (unsigned long long)answer.place);
    return 0;
}

int main(int count, char **words)
{
    if (count < 5)
        return 2;
    int twin = !strcmp(words[1], "twin");
    size_t times = number(words[3]);
    if (!strcmp(words[2], "evaluate"))
        return evaluate(twin, times, words + 4);
    if (!strcmp(words[2], "build"))
        return build(twin, times, words + 4);
    if (!strcmp(words[2], "evaluate_rise_fall"))
        return evaluate_rise_fall(twin, times, words + 4);
    if (!strcmp(words[2], "build_rise_fall"))
        return build_rise_fall(twin, times, words + 4);
    if (!strcmp(words[2], "check"))
        return check(twin, times, words + 4);
    return zero(twin, times, words + 4);
}
