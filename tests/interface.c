/* The C interface as a host sees it: where each field of the answers lies, which parameters each function takes in
 * which order, and each function called twice, accepted and refused, with arguments that no exchange survives.
 *
 * No contract of the library speaks of the order of fields and parameters; this program does. It is compiled against
 * include/buzzlumen.h and linked with the archive. First every call must answer as the rules say of circuit A. Then
 * each two parameters and each two fields of one type are exchanged, one exchange at a time, and some answer must
 * change. Prints the exchanges that nothing tells apart, and a count; ends with 1 where there is one, or where a call
 * answers wrongly. The calls for rise and fall apart are among them where RISE_FALL is defined. Assumes a little endian
 * machine.
 */
#include "buzzlumen.h"

#include <stdio.h>
#include <string.h>

#define LIES(type, field, offset, bytes) \
    _Static_assert(offsetof(type, field) == (offset) && sizeof(((type *)0)->field) == (bytes), #type "." #field)
#define SIZE(type, bytes) _Static_assert(sizeof(type) == (bytes), #type)

LIES(buzzlumen_evaluated, number, 0, 4);
LIES(buzzlumen_evaluated, time, 4, 4);
LIES(buzzlumen_evaluated, place, 8, 8);
SIZE(buzzlumen_evaluated, 16);
LIES(buzzlumen_built, number, 0, 4);
LIES(buzzlumen_built, variables, 4, 4);
LIES(buzzlumen_built, place, 8, 8);
LIES(buzzlumen_built, clauses, 16, 8);
LIES(buzzlumen_built, numbers, 24, 8);
LIES(buzzlumen_built, pairs, 32, 8);
SIZE(buzzlumen_built, 40);
LIES(buzzlumen_checked, number, 0, 4);
LIES(buzzlumen_checked, place, 8, 8);
SIZE(buzzlumen_checked, 16);
LIES(buzzlumen_judged, number, 0, 4);
LIES(buzzlumen_judged, place, 8, 8);
SIZE(buzzlumen_judged, 16);

/* The functions by their types: a slice is a pointer, then a length in elements. */
static buzzlumen_evaluated (*const evaluate)(const uint8_t *, size_t, const uint32_t *, size_t, const uint8_t *, size_t,
                                             uint8_t *, size_t, uint32_t *, size_t) = buzzlumen_evaluate;
static buzzlumen_built (*const build)(const uint8_t *, size_t, const uint32_t *, size_t, uint32_t, uint32_t *, size_t,
                                      int32_t *, size_t) = buzzlumen_build;
static buzzlumen_checked (*const check)(uint32_t, const int32_t *, size_t, const int32_t *, size_t, uint8_t *,
                                        size_t) = buzzlumen_check;
static buzzlumen_judged (*const judge)(const uint8_t *, size_t, const uint32_t *, size_t, uint32_t, const uint8_t *,
                                       size_t, const int32_t *, size_t, uint8_t *, size_t, uint32_t *, size_t,
                                       uint32_t *, size_t, int32_t *, size_t, uint8_t *, size_t) = buzzlumen_judge;

#ifdef RISE_FALL
static buzzlumen_evaluated (*const evaluate_apart)(const uint8_t *, size_t, const uint32_t *, size_t, const uint32_t *,
                                                   size_t, const uint8_t *, size_t, uint8_t *, size_t, uint32_t *,
                                                   size_t) = buzzlumen_evaluate_rise_fall;
static buzzlumen_built (*const build_apart)(const uint8_t *, size_t, const uint32_t *, size_t, const uint32_t *, size_t,
                                            uint32_t, uint32_t *, size_t, int32_t *,
                                            size_t) = buzzlumen_build_rise_fall;
static buzzlumen_judged (*const judge_apart)(const uint8_t *, size_t, const uint32_t *, size_t, const uint32_t *,
                                             size_t, uint32_t, const uint8_t *, size_t, const int32_t *, size_t,
                                             uint8_t *, size_t, uint32_t *, size_t, uint32_t *, size_t, int32_t *,
                                             size_t, uint8_t *, size_t) = buzzlumen_judge_rise_fall;
#endif

/* What is exchanged: two slices of one element type, or two fields of one type. */
typedef enum {
    NOTHING,
    EVALUATE_NETLIST_VECTOR,
    EVALUATE_ARRIVALS_TIMES,
    EVALUATE_NUMBER_TIME,
    BUILD_ARRIVALS_PAIRS,
    BUILD_NUMBER_VARIABLES,
    BUILD_PLACE_CLAUSES,
    BUILD_PLACE_NUMBERS,
    BUILD_PLACE_PAIRS,
    BUILD_CLAUSES_NUMBERS,
    BUILD_CLAUSES_PAIRS,
    BUILD_NUMBERS_PAIRS,
    CHECK_FORMULA_REFUTATION,
    JUDGE_NETLIST_VECTOR,
    JUDGE_ARRIVALS_TIMES,
    JUDGE_ARRIVALS_PAIRS,
    JUDGE_REFUTATION_FORMULA,
    JUDGE_VALUES_PROPAGATION,
    JUDGE_TIMES_PAIRS,
#ifdef RISE_FALL
    EVALUATE_APART_NETLIST_VECTOR,
    EVALUATE_APART_ARRIVALS_FALLS,
    EVALUATE_APART_FALLS_TIMES,
    EVALUATE_APART_NUMBER_TIME,
    BUILD_APART_ARRIVALS_FALLS,
    BUILD_APART_FALLS_PAIRS,
    BUILD_APART_NUMBER_VARIABLES,
    BUILD_APART_PLACE_CLAUSES,
    BUILD_APART_CLAUSES_NUMBERS,
    BUILD_APART_NUMBERS_PAIRS,
    JUDGE_APART_NETLIST_VECTOR,
    JUDGE_APART_ARRIVALS_FALLS,
    JUDGE_APART_FALLS_TIMES,
    JUDGE_APART_FALLS_PAIRS,
    JUDGE_APART_REFUTATION_FORMULA,
    JUDGE_APART_VALUES_PROPAGATION,
    JUDGE_APART_TIMES_PAIRS,
#endif
    EXCHANGES
} exchange;

static const char *const names[EXCHANGES] = {
    "nothing",
    "evaluate: netlist and vector",
    "evaluate: arrivals and times",
    "evaluate: number and time",
    "build: arrivals and pairs",
    "build: number and variables",
    "build: place and clauses",
    "build: place and numbers",
    "build: place and pairs",
    "build: clauses and numbers",
    "build: clauses and pairs",
    "build: numbers and pairs",
    "check: formula and refutation",
    "judge: netlist and vector",
    "judge: arrivals and times",
    "judge: arrivals and pairs",
    "judge: refutation and formula",
    "judge: values and propagation",
    "judge: times and pairs",
#ifdef RISE_FALL
    "evaluate with falls: netlist and vector",
    "evaluate with falls: arrivals and falls",
    "evaluate with falls: falls and times",
    "evaluate with falls: number and time",
    "build with falls: arrivals and falls",
    "build with falls: falls and pairs",
    "build with falls: number and variables",
    "build with falls: place and clauses",
    "build with falls: clauses and numbers",
    "build with falls: numbers and pairs",
    "judge with falls: netlist and vector",
    "judge with falls: arrivals and falls",
    "judge with falls: falls and times",
    "judge with falls: falls and pairs",
    "judge with falls: refutation and formula",
    "judge with falls: values and propagation",
    "judge with falls: times and pairs",
#endif
};

enum { MOST = 64, PATTERN = 0x5A };

/* A slice of a block that is filled with a pattern: the elements behind the length must stay as they are. */
typedef struct {
    union {
        uint8_t bytes[MOST * 4];
        uint32_t words[MOST];
        int32_t numbers[MOST];
    };
    size_t length;
} lent;

static lent room(size_t length)
{
    lent it;
    memset(it.bytes, PATTERN, sizeof it.bytes);
    it.length = length;
    return it;
}

static lent copied(const void *from, size_t length, size_t element)
{
    lent it = room(length);
    memcpy(it.bytes, from, length * element);
    return it;
}

/* Whether a slice of so many elements holds these and zeros, and nothing behind it was written. */
static int holds(const lent *it, size_t element, const void *from, size_t count)
{
    size_t end = it->length * element;
    if (memcmp(it->bytes, from, count * element) != 0)
        return 0;
    for (size_t i = count * element; i < sizeof it->bytes; i++)
        if (it->bytes[i] != (i < end ? 0 : PATTERN))
            return 0;
    return 1;
}

static void swap_slices(lent *a, lent *b)
{
    lent kept = *a;
    *a = *b;
    *b = kept;
}

static void swap_words(uint32_t *a, uint32_t *b)
{
    uint32_t kept = *a;
    *a = *b;
    *b = kept;
}

static void swap_large(uint64_t *a, uint64_t *b)
{
    uint64_t kept = *a;
    *a = *b;
    *b = kept;
}

/* Circuit A, where a arrives at 4: its values and times under 1,0, its pairs and its formula at 3, which are those of
 * an a that arrives at 0. */
static const uint8_t circuit[48] = {
    1, 1, 0, 0, 3, 2, 1, 0, 5, 2, 3, 0, 0, 0, 3, 0, 2, 0, 1, 0, 1, 0, 1, 0,
    3, 0, 1, 0, 1, 0, 1, 0, 4, 0, 34, 0, 0, 0, 2, 0, 3, 0, 5, 0, 1, 0, 1, 0,
};
static const uint32_t a_late[2] = {4, 0};
static const uint8_t one_zero[2] = {1, 0}, zero_one[2] = {0, 1};
static const uint8_t values_of_a[5] = {1, 0, 1, 0, 0};
static const uint32_t times_of_a[5] = {4, 0, 7, 1, 2};
static const uint32_t pairs_of_a[6] = {2, 1, 3, 2, 4, 3};
static const int32_t formula_of_a[48] = {
    1, -3, 0, -1, 3, 0, 3, -4, 0, 2, -4, 0, -3, -2, 4, 0, -4, 5, 0, -2, 5, 0, 4, 2, -5, 0,
    -7, 6, 0, -7, 6, 3, 0, -7, 2, 0, -8, 7, 0, -8, 7, -4, 0, -8, -2, 0, 8, 0,
};
static const int32_t empty_clause[1] = {0};

/* Under 1,0 circuit A settles at 2; a file of 5 bytes is SHORT, 5. */
static int evaluates(exchange which, size_t bytes)
{
    lent netlist = copied(circuit, bytes, 1), arrivals = copied(a_late, 2, 4), vector = copied(one_zero, 2, 1);
    lent values = room(6), times = room(7);
    if (which == EVALUATE_NETLIST_VECTOR)
        swap_slices(&netlist, &vector);
    if (which == EVALUATE_ARRIVALS_TIMES)
        swap_slices(&arrivals, &times);
    buzzlumen_evaluated answer = evaluate(netlist.bytes, netlist.length, arrivals.words, arrivals.length, vector.bytes,
                                          vector.length, values.bytes, values.length, times.words, times.length);
    if (which == EVALUATE_ARRIVALS_TIMES)
        swap_slices(&arrivals, &times);
    if (which == EVALUATE_NUMBER_TIME)
        swap_words(&answer.number, &answer.time);
    if (bytes < 14)
        return answer.number == 1 && answer.time == 0 && answer.place == bytes && holds(&values, 1, NULL, 0)
               && holds(&times, 4, NULL, 0);
    return answer.number == 0 && answer.time == 2 && answer.place == 0 && holds(&values, 1, values_of_a, 5)
           && holds(&times, 4, times_of_a, 5);
}

/* At 3: 8 variables, 15 clauses, 48 numbers, 3 pairs; with room for 47 numbers it is ROOM, 48. */
static int builds(exchange which, size_t numbers)
{
    lent netlist = copied(circuit, 48, 1), arrivals = copied(a_late, 2, 4), pairs = room(8), formula = room(numbers);
    if (which == BUILD_ARRIVALS_PAIRS)
        swap_slices(&arrivals, &pairs);
    buzzlumen_built answer = build(netlist.bytes, netlist.length, arrivals.words, arrivals.length, 3, pairs.words,
                                   pairs.length, formula.numbers, formula.length);
    if (which == BUILD_ARRIVALS_PAIRS)
        swap_slices(&arrivals, &pairs);
    if (which == BUILD_NUMBER_VARIABLES)
        swap_words(&answer.number, &answer.variables);
    if (which == BUILD_PLACE_CLAUSES)
        swap_large(&answer.place, &answer.clauses);
    if (which == BUILD_PLACE_NUMBERS)
        swap_large(&answer.place, &answer.numbers);
    if (which == BUILD_PLACE_PAIRS)
        swap_large(&answer.place, &answer.pairs);
    if (which == BUILD_CLAUSES_NUMBERS)
        swap_large(&answer.clauses, &answer.numbers);
    if (which == BUILD_CLAUSES_PAIRS)
        swap_large(&answer.clauses, &answer.pairs);
    if (which == BUILD_NUMBERS_PAIRS)
        swap_large(&answer.numbers, &answer.pairs);
    if (numbers < 48)
        return answer.number == 9 && answer.variables == 0 && answer.place == 48 && answer.clauses == 0
               && answer.numbers == 0 && answer.pairs == 0 && holds(&pairs, 4, NULL, 0) && holds(&formula, 4, NULL, 0);
    return answer.number == 0 && answer.variables == 8 && answer.place == 0 && answer.clauses == 15
           && answer.numbers == 48 && answer.pairs == 3 && holds(&pairs, 4, pairs_of_a, 6)
           && holds(&formula, 4, formula_of_a, 48);
}

/* The four clauses over two variables: "1 0 0" passes; "1 0 2 0" has no empty clause, LAST, 2. */
static int checks(exchange which, size_t steps)
{
    static const int32_t four[12] = {1, 2, 0, 1, -2, 0, -1, 2, 0, -1, -2, 0};
    static const int32_t right[3] = {1, 0, 0}, wrong[4] = {1, 0, 2, 0};
    lent formula = copied(four, 12, 4), refutation = copied(steps == 3 ? right : wrong, steps, 4);
    lent propagation = room(5);
    if (which == CHECK_FORMULA_REFUTATION)
        swap_slices(&formula, &refutation);
    buzzlumen_checked answer = check(2, formula.numbers, formula.length, refutation.numbers, refutation.length,
                                     propagation.bytes, propagation.length);
    return answer.number == (steps == 3 ? 0 : 13) && answer.place == (steps == 3 ? 0 : 2)
           && holds(&propagation, 1, NULL, 0);
}

/* Delay 2 with vector 1,0 and the refutation "0" is accepted; vector 0,1 settles at 1, WITNESS, 1. */
static int judges(exchange which, const uint8_t *bits)
{
    lent netlist = copied(circuit, 48, 1), arrivals = copied(a_late, 2, 4), vector = copied(bits, 2, 1);
    lent refutation = copied(empty_clause, 1, 4);
    lent values = room(6), times = room(7), pairs = room(8), formula = room(50), propagation = room(11);
    if (which == JUDGE_NETLIST_VECTOR)
        swap_slices(&netlist, &vector);
    if (which == JUDGE_ARRIVALS_TIMES)
        swap_slices(&arrivals, &times);
    if (which == JUDGE_ARRIVALS_PAIRS)
        swap_slices(&arrivals, &pairs);
    if (which == JUDGE_REFUTATION_FORMULA)
        swap_slices(&refutation, &formula);
    if (which == JUDGE_VALUES_PROPAGATION)
        swap_slices(&values, &propagation);
    if (which == JUDGE_TIMES_PAIRS)
        swap_slices(&times, &pairs);
    buzzlumen_judged answer =
        judge(netlist.bytes, netlist.length, arrivals.words, arrivals.length, 2, vector.bytes, vector.length,
              refutation.numbers, refutation.length, values.bytes, values.length, times.words, times.length,
              pairs.words, pairs.length, formula.numbers, formula.length, propagation.bytes, propagation.length);
    if (which == JUDGE_ARRIVALS_TIMES)
        swap_slices(&arrivals, &times);
    if (which == JUDGE_ARRIVALS_PAIRS)
        swap_slices(&arrivals, &pairs);
    if (which == JUDGE_VALUES_PROPAGATION)
        swap_slices(&values, &propagation);
    if (which == JUDGE_TIMES_PAIRS)
        swap_slices(&times, &pairs);
    if (bits[1])
        return answer.number == 15 && answer.place == 1 && holds(&values, 1, NULL, 0) && holds(&times, 4, NULL, 0)
               && holds(&pairs, 4, NULL, 0) && holds(&formula, 4, NULL, 0) && holds(&propagation, 1, NULL, 0);
    return answer.number == 0 && answer.place == 0 && holds(&values, 1, values_of_a, 5)
           && holds(&times, 4, times_of_a, 5) && holds(&pairs, 4, pairs_of_a, 6) && holds(&formula, 4, formula_of_a, 48)
           && holds(&propagation, 1, NULL, 0);
}

#ifdef RISE_FALL
/* Two inverters in a row, the first rises in 5 and the second in 6, both fall in 2; the input arrives at 1. Under 1 it
 * settles at 1 + 2 + 6, under 0 at 1 + 5 + 2. Its pairs and its formula at 10. */
static const uint8_t inverters[32] = {
    2, 1, 0, 0, 2, 1, 1, 0, 0, 0, 5, 0, 1, 0, 6, 0, 2, 0, 18, 0, 0, 0, 1, 0, 2, 0, 2, 0, 1, 0, 1, 0,
};
static const uint32_t input_late[1] = {1}, falls_of_two[2] = {2, 2};
static const uint8_t one[1] = {1}, zero[1] = {0};
static const uint8_t values_of_two[3] = {1, 0, 1};
static const uint32_t times_of_two[3] = {1, 3, 9};
static const uint32_t pairs_of_two[12] = {1, 0, 4, 1, 1, 4, 2, 0, 10, 2, 1, 10};
static const int32_t formula_of_two[46] = {
    1, 2, 0, -1, -2, 0, 2, 3, 0, -2, -3, 0, -4, -2, 0, -4, 0, -4, 1, 0, -5, 2, 0,
    -6, -3, 0, -6, 0, -6, 2, 0, -7, 3, 0, -7, 4, 5, 0, -7, 4, 5, 2, 0, 6, 7, 0,
};

/* Under 1 it settles at 9; with one fall delay it is FALL, 2. */
static int evaluates_apart(exchange which, size_t fall_count)
{
    lent netlist = copied(inverters, 32, 1), arrivals = copied(input_late, 1, 4);
    lent falls = copied(falls_of_two, fall_count, 4), vector = copied(one, 1, 1), values = room(6), times = room(7);
    if (which == EVALUATE_APART_NETLIST_VECTOR)
        swap_slices(&netlist, &vector);
    if (which == EVALUATE_APART_ARRIVALS_FALLS)
        swap_slices(&arrivals, &falls);
    if (which == EVALUATE_APART_FALLS_TIMES)
        swap_slices(&falls, &times);
    buzzlumen_evaluated answer =
        evaluate_apart(netlist.bytes, netlist.length, arrivals.words, arrivals.length, falls.words, falls.length,
                       vector.bytes, vector.length, values.bytes, values.length, times.words, times.length);
    if (which == EVALUATE_APART_FALLS_TIMES)
        swap_slices(&falls, &times);
    if (which == EVALUATE_APART_NUMBER_TIME)
        swap_words(&answer.number, &answer.time);
    if (fall_count != 2)
        return answer.number == 19 && answer.time == 0 && answer.place == 2 && holds(&values, 1, NULL, 0)
               && holds(&times, 4, NULL, 0);
    return answer.number == 0 && answer.time == 9 && answer.place == 0 && holds(&values, 1, values_of_two, 3)
           && holds(&times, 4, times_of_two, 3);
}

/* At 10: 7 variables, 15 clauses, 46 numbers, 4 pairs; with room for 45 numbers it is ROOM, 46. */
static int builds_apart(exchange which, size_t numbers)
{
    lent netlist = copied(inverters, 32, 1), arrivals = copied(input_late, 1, 4), falls = copied(falls_of_two, 2, 4);
    lent pairs = room(14), formula = room(numbers);
    if (which == BUILD_APART_ARRIVALS_FALLS)
        swap_slices(&arrivals, &falls);
    if (which == BUILD_APART_FALLS_PAIRS)
        swap_slices(&falls, &pairs);
    buzzlumen_built answer = build_apart(netlist.bytes, netlist.length, arrivals.words, arrivals.length, falls.words,
                                         falls.length, 10, pairs.words, pairs.length, formula.numbers, formula.length);
    if (which == BUILD_APART_FALLS_PAIRS)
        swap_slices(&falls, &pairs);
    if (which == BUILD_APART_NUMBER_VARIABLES)
        swap_words(&answer.number, &answer.variables);
    if (which == BUILD_APART_PLACE_CLAUSES)
        swap_large(&answer.place, &answer.clauses);
    if (which == BUILD_APART_CLAUSES_NUMBERS)
        swap_large(&answer.clauses, &answer.numbers);
    if (which == BUILD_APART_NUMBERS_PAIRS)
        swap_large(&answer.numbers, &answer.pairs);
    if (numbers < 46)
        return answer.number == 9 && answer.variables == 0 && answer.place == 46 && answer.clauses == 0
               && answer.numbers == 0 && answer.pairs == 0 && holds(&pairs, 4, NULL, 0) && holds(&formula, 4, NULL, 0);
    return answer.number == 0 && answer.variables == 7 && answer.place == 0 && answer.clauses == 15
           && answer.numbers == 46 && answer.pairs == 4 && holds(&pairs, 4, pairs_of_two, 12)
           && holds(&formula, 4, formula_of_two, 46);
}

/* Delay 9 with vector 1 and the refutation "0" is accepted; vector 0 settles at 8, WITNESS, 8. */
static int judges_apart(exchange which, const uint8_t *bits)
{
    lent netlist = copied(inverters, 32, 1), arrivals = copied(input_late, 1, 4), falls = copied(falls_of_two, 2, 4);
    lent vector = copied(bits, 1, 1), refutation = copied(empty_clause, 1, 4);
    lent values = room(6), times = room(7), pairs = room(14), formula = room(50), propagation = room(11);
    if (which == JUDGE_APART_NETLIST_VECTOR)
        swap_slices(&netlist, &vector);
    if (which == JUDGE_APART_ARRIVALS_FALLS)
        swap_slices(&arrivals, &falls);
    if (which == JUDGE_APART_FALLS_TIMES)
        swap_slices(&falls, &times);
    if (which == JUDGE_APART_FALLS_PAIRS)
        swap_slices(&falls, &pairs);
    if (which == JUDGE_APART_REFUTATION_FORMULA)
        swap_slices(&refutation, &formula);
    if (which == JUDGE_APART_VALUES_PROPAGATION)
        swap_slices(&values, &propagation);
    if (which == JUDGE_APART_TIMES_PAIRS)
        swap_slices(&times, &pairs);
    buzzlumen_judged answer =
        judge_apart(netlist.bytes, netlist.length, arrivals.words, arrivals.length, falls.words, falls.length, 9,
                    vector.bytes, vector.length, refutation.numbers, refutation.length, values.bytes, values.length,
                    times.words, times.length, pairs.words, pairs.length, formula.numbers, formula.length,
                    propagation.bytes, propagation.length);
    if (which == JUDGE_APART_FALLS_TIMES)
        swap_slices(&falls, &times);
    if (which == JUDGE_APART_FALLS_PAIRS)
        swap_slices(&falls, &pairs);
    if (which == JUDGE_APART_VALUES_PROPAGATION)
        swap_slices(&values, &propagation);
    if (which == JUDGE_APART_TIMES_PAIRS)
        swap_slices(&times, &pairs);
    if (!bits[0])
        return answer.number == 15 && answer.place == 8 && holds(&values, 1, NULL, 0) && holds(&times, 4, NULL, 0)
               && holds(&pairs, 4, NULL, 0) && holds(&formula, 4, NULL, 0) && holds(&propagation, 1, NULL, 0);
    return answer.number == 0 && answer.place == 0 && holds(&values, 1, values_of_two, 3)
           && holds(&times, 4, times_of_two, 3) && holds(&pairs, 4, pairs_of_two, 12)
           && holds(&formula, 4, formula_of_two, 46) && holds(&propagation, 1, NULL, 0);
}

enum { CALLS = 14 };

static int all_right_apart(exchange which)
{
    return evaluates_apart(which, 2) && evaluates_apart(which, 1) && builds_apart(which, 50) && builds_apart(which, 45)
           && judges_apart(which, one) && judges_apart(which, zero);
}
#else
enum { CALLS = 8 };

static int all_right_apart(exchange which)
{
    (void)which;
    return 1;
}
#endif

/* Whether every call answers as it should, with one exchange. */
static int all_right(exchange which)
{
    return evaluates(which, 48) && evaluates(which, 5) && builds(which, 50) && builds(which, 47) && checks(which, 3)
           && checks(which, 4) && judges(which, one_zero) && judges(which, zero_one) && all_right_apart(which);
}

int main(void)
{
    int wrong = 0;
    if (!all_right(NOTHING)) {
        printf("interface: a call answers wrongly\n");
        wrong++;
    }
    for (exchange which = NOTHING + 1; which < EXCHANGES; which++)
        if (all_right(which)) {
            printf("interface: nothing tells this exchange: %s\n", names[which]);
            wrong++;
        }
    printf("interface: %d calls, %d exchanges, %d wrong\n", CALLS, EXCHANGES - 1, wrong);
    return wrong != 0;
}
