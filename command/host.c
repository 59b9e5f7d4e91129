/* The library for the command `buzzlumen`: reads requests from standard input, calls the library, writes the answers.
 *
 * A request is the function's number (4 bytes), the count of its arguments (4 bytes), then each argument as its form
 * (4 bytes), its length (8 bytes) and its elements. The forms:
 *   1  a number: the length is its value, and no elements follow;
 *   2  bytes to read;               3  numbers of 32 bits to read;
 *   4  bytes lent for writing;      5  numbers of 32 bits lent for writing: no elements follow;
 *   6  and 7  the same, for work alone: what was written there is not given back.
 * An answer is the count of its fields (4 bytes), the fields (8 bytes each), then each slice of form 4 or 5 as its
 * length (8 bytes) and its elements. All numbers are little endian. Arguments stand in the header's order, and so do
 * fields.
 *
 * Beside the library's own functions there are six for a search: a refutation without the steps that it does not need,
 * of a formula or of a netlist's formula for a target; a walk over all vectors, the times of some, a vector with fewer
 * ones; and a formula written to a file as DIMACS CNF. Where one takes a netlist, its arrivals come right behind it. An
 * argument more behind these is the fall delays: the library's calls for rise and fall apart are then made. They are
 * there where RISE_FALL is defined, and the last function says whether they are.
 *
 * One process answers any number of requests and ends with its input: 0 there, 2 where a request does not read, 3 where
 * the answer cannot be written, 4 where memory is short. Assumes a little endian machine.
 */
#include "buzzlumen.h"
#include "shorten.h"

#include <stdio.h>
#include <stdlib.h>
#include <string.h>

enum { EVALUATE = 1, BUILD, CHECK, JUDGE, SHORTEN, WALK, WRITE_FORMULA, SHORTEN_FOR, TIMES_OF, FEWER_ONES,
       TAKES_FALLS };
enum { NUMBER = 1, BYTES, WORDS, LENT_BYTES, LENT_WORDS, WORK_BYTES, WORK_WORDS };
enum { MOST_ARGUMENTS = 16, MOST_FIELDS = 8, MOST_NODES = 512, MOST_INPUTS = 64 };
enum { REQUEST_DOES_NOT_READ = 2, ANSWER_NOT_WRITTEN = 3, MEMORY_IS_SHORT = 4 };

typedef struct {
    uint32_t form;
    uint64_t length;
    void *start;
} argument;

/* The arguments in the order of the calls for one delay a pin; beside them the fall delays, without a block where there
 * are none. */
static argument arguments[MOST_ARGUMENTS], falls;
static uint32_t argument_count;
static uint64_t fields[MOST_FIELDS];
static uint32_t field_count;

static void take(void *to, size_t bytes)
{
    if (bytes != 0 && fread(to, 1, bytes, stdin) != bytes)
        exit(REQUEST_DOES_NOT_READ);
}

static void give(const void *from, size_t bytes)
{
    if (bytes != 0 && fwrite(from, 1, bytes, stdout) != bytes)
        exit(ANSWER_NOT_WRITTEN);
}

static size_t bytes_in(const argument *it)
{
    size_t element = it->form == WORDS || it->form == LENT_WORDS || it->form == WORK_WORDS ? 4 : 1;
    if (it->length > SIZE_MAX / 8)
        exit(MEMORY_IS_SHORT);
    return it->form == NUMBER ? 0 : it->length * element;
}

static int is_lent(const argument *it)
{
    return it->form == LENT_BYTES || it->form == LENT_WORDS;
}

/* One argument: a number, or a slice in a block of its own, never null. */
static void take_argument(argument *it)
{
    take(&it->form, sizeof it->form);
    take(&it->length, sizeof it->length);
    if (it->form < NUMBER || it->form > WORK_WORDS)
        exit(REQUEST_DOES_NOT_READ);
    it->start = is_lent(it) ? calloc(1, bytes_in(it) + 1) : malloc(bytes_in(it) + 1);
    if (it->start == NULL)
        exit(MEMORY_IS_SHORT);
    if (it->form == BYTES || it->form == WORDS)
        take(it->start, bytes_in(it));
}

static void take_arguments(uint32_t expected)
{
    take(&argument_count, sizeof argument_count);
    if (argument_count != expected)
        exit(REQUEST_DOES_NOT_READ);
    for (uint32_t i = 0; i < argument_count; i++)
        take_argument(&arguments[i]);
}

/* Arguments that begin with a netlist and its arrivals; where there is one more than expected, the third is the fall
 * delays, and is set aside. */
static void take_circuit(uint32_t expected)
{
    take(&argument_count, sizeof argument_count);
    if (argument_count != expected && argument_count != expected + 1)
        exit(REQUEST_DOES_NOT_READ);
    int apart = argument_count == expected + 1;
#ifndef RISE_FALL
    if (apart)
        exit(REQUEST_DOES_NOT_READ);
#endif
    for (uint32_t i = 0; i < expected; i++) {
        if (apart && i == 2)
            take_argument(&falls);
        take_argument(&arguments[i]);
    }
    argument_count = expected;
}

/* The answer; the arguments' blocks are freed. */
static void give_answer(void)
{
    give(&field_count, sizeof field_count);
    give(fields, field_count * sizeof fields[0]);
    for (uint32_t i = 0; i < argument_count; i++) {
        argument *it = &arguments[i];
        if (is_lent(it)) {
            give(&it->length, sizeof it->length);
            give(it->start, bytes_in(it));
        }
        free(it->start);
    }
    free(falls.start);
    falls.start = NULL;
    if (fflush(stdout) != 0)
        exit(ANSWER_NOT_WRITTEN);
    field_count = argument_count = 0;
}

static void field(uint64_t value)
{
    fields[field_count++] = value;
}

#define A_NUMBER(place) ((uint32_t)arguments[place].length)
#define SOME_BYTES(place) (uint8_t *)arguments[place].start, arguments[place].length
#define SOME_WORDS(place) (uint32_t *)arguments[place].start, arguments[place].length
#define SOME_SIGNED(place) (int32_t *)arguments[place].start, arguments[place].length

/* The library's calls on a request's circuit: those for rise and fall apart where it has fall delays. */

#ifdef RISE_FALL
#define FALLS (const uint32_t *)falls.start, falls.length
#endif

static buzzlumen_evaluated evaluate_circuit(const uint8_t *vector, size_t vector_length, uint8_t *values,
                                            size_t values_length, uint32_t *times, size_t times_length)
{
#ifdef RISE_FALL
    if (falls.start != NULL)
        return buzzlumen_evaluate_rise_fall(SOME_BYTES(0), SOME_WORDS(1), FALLS, vector, vector_length, values,
                                            values_length, times, times_length);
#endif
    return buzzlumen_evaluate(SOME_BYTES(0), SOME_WORDS(1), vector, vector_length, values, values_length, times,
                              times_length);
}

static buzzlumen_built build_circuit(uint32_t target, uint32_t *pairs, size_t pairs_length, int32_t *formula,
                                     size_t formula_length)
{
#ifdef RISE_FALL
    if (falls.start != NULL)
        return buzzlumen_build_rise_fall(SOME_BYTES(0), SOME_WORDS(1), FALLS, target, pairs, pairs_length, formula,
                                         formula_length);
#endif
    return buzzlumen_build(SOME_BYTES(0), SOME_WORDS(1), target, pairs, pairs_length, formula, formula_length);
}

static buzzlumen_judged judge_circuit(void)
{
#ifdef RISE_FALL
    if (falls.start != NULL)
        return buzzlumen_judge_rise_fall(SOME_BYTES(0), SOME_WORDS(1), FALLS, A_NUMBER(2), SOME_BYTES(3),
                                         SOME_SIGNED(4), SOME_BYTES(5), SOME_WORDS(6), SOME_WORDS(7), SOME_SIGNED(8),
                                         SOME_BYTES(9));
#endif
    return buzzlumen_judge(SOME_BYTES(0), SOME_WORDS(1), A_NUMBER(2), SOME_BYTES(3), SOME_SIGNED(4), SOME_BYTES(5),
                           SOME_WORDS(6), SOME_WORDS(7), SOME_SIGNED(8), SOME_BYTES(9));
}

static void evaluate(void)
{
    take_circuit(5);
    buzzlumen_evaluated answer = evaluate_circuit(SOME_BYTES(2), SOME_BYTES(3), SOME_WORDS(4));
    field(answer.number);
    field(answer.place);
    field(answer.time);
}

static void build(void)
{
    take_circuit(5);
    buzzlumen_built answer = build_circuit(A_NUMBER(2), SOME_WORDS(3), SOME_SIGNED(4));
    arguments[3].length = (falls.start != NULL ? 3 : 2) * answer.pairs;
    arguments[4].length = answer.numbers;
    field(answer.number);
    field(answer.place);
    field(answer.variables);
    field(answer.clauses);
    field(answer.numbers);
    field(answer.pairs);
}

static void check(void)
{
    take_arguments(4);
    buzzlumen_checked answer =
        buzzlumen_check(A_NUMBER(0), SOME_SIGNED(1), SOME_SIGNED(2), SOME_BYTES(3));
    field(answer.number);
    field(answer.place);
}

static void judge(void)
{
    take_circuit(10);
    buzzlumen_judged answer = judge_circuit();
    field(answer.number);
    field(answer.place);
}

/* A refutation without the steps that it does not need; 0 numbers where it does not hold. */
static void leave_out_steps(void)
{
    take_arguments(4);
    arguments[3].length = shorten(A_NUMBER(0), SOME_SIGNED(1), SOME_SIGNED(2), arguments[3].start);
}

/* The same for a refutation of a netlist's formula for a target, which is built in the room for work. */
static void leave_out_steps_for(void)
{
    take_circuit(7);
    buzzlumen_built answer = build_circuit(A_NUMBER(2), SOME_WORDS(4), SOME_SIGNED(5));
    arguments[6].length = answer.number != 0 ? 0 : shorten(answer.variables, arguments[5].start, answer.numbers,
                                                           SOME_SIGNED(3), arguments[6].start);
    field(answer.number);
    field(answer.place);
}

/* How the circuit of a request settles under a vector; the nodes' values and times are left aside. */
static buzzlumen_evaluated settle(const uint8_t *vector, size_t inputs)
{
    static uint8_t values[MOST_NODES];
    static uint32_t times[MOST_NODES];
    return evaluate_circuit(vector, inputs, values, MOST_NODES, times, MOST_NODES);
}

/* Of all vectors of so many inputs, input 0 most significant and 0 before 1, the first that settles
 * latest, or the first that settles at a given time or later. */
static void walk(void)
{
    static uint8_t vector[MOST_INPUTS];
    buzzlumen_evaluated answer = {0, 0, 0}, best = {0, 0, 0};
    take_circuit(5);
    size_t inputs = arguments[4].length;
    if (inputs > MOST_INPUTS - 1)
        exit(REQUEST_DOES_NOT_READ);
    for (uint64_t each = 0; each >> inputs == 0 && answer.number == 0; each++) {
        for (size_t i = 0; i < inputs; i++)
            vector[i] = each >> (inputs - 1 - i) & 1;
        answer = settle(vector, inputs);
        if (each == 0 || answer.time > best.time) {
            best = answer;
            memcpy(arguments[4].start, vector, inputs);
        }
        if (best.time >= A_NUMBER(2) && A_NUMBER(3))
            break;
    }
    field(answer.number);
    field(answer.place);
    field(best.time);
}

/* The settling times of some vectors of so many inputs, which stand one behind the other. */
static void times_of(void)
{
    buzzlumen_evaluated answer = {0, 0, 0};
    take_circuit(5);
    size_t inputs = A_NUMBER(3), count = arguments[4].length;
    if (arguments[2].length != inputs * count)
        exit(REQUEST_DOES_NOT_READ);
    for (size_t i = 0; i < count && answer.number == 0; i++) {
        answer = settle((uint8_t *)arguments[2].start + i * inputs, inputs);
        ((uint32_t *)arguments[4].start)[i] = answer.time;
    }
    field(answer.number);
    field(answer.place);
}

/* A vector that settles at a time, with a 0 for each of its ones that can go, in order, while it still does. */
static void fewer_ones(void)
{
    take_circuit(5);
    uint8_t *vector = arguments[4].start;
    size_t inputs = arguments[4].length;
    if (arguments[3].length != inputs)
        exit(REQUEST_DOES_NOT_READ);
    memcpy(vector, arguments[3].start, inputs);
    for (size_t i = 0; i < inputs; i++) {
        if (vector[i] != 0) {
            vector[i] = 0;
            vector[i] = settle(vector, inputs).time != A_NUMBER(2);
        }
    }
}

/* A number and what stands behind it as text; gives the place behind. */
static char *write_number(char *at, int32_t number, char behind)
{
    char digits[12];
    size_t count = 0;
    uint32_t rest = number < 0 ? 0 - (uint32_t)number : (uint32_t)number;
    do {
        digits[count++] = (char)('0' + rest % 10);
        rest /= 10;
    } while (rest != 0);
    if (number < 0)
        *at++ = '-';
    while (count != 0)
        *at++ = digits[--count];
    *at++ = behind;
    return at;
}

/* Clauses to a file, one a line; 0 where the file takes them. */
static int write_clauses(FILE *file, const int32_t *numbers, size_t length)
{
    enum { BLOCK = 65536, LONGEST = 12 };
    static char text[BLOCK + LONGEST];
    char *at = text;
    for (size_t i = 0; i < length; i++) {
        at = write_number(at, numbers[i], numbers[i] == 0 ? '\n' : ' ');
        if (at - text >= BLOCK || i + 1 == length) {
            size_t count = (size_t)(at - text);
            if (fwrite(text, 1, count, file) != count)
                return -1;
            at = text;
        }
    }
    return 0;
}

/* The formula for a target, built in the lent room, to the file of a name (its bytes end in 0) as DIMACS CNF. The last
 * field is 0 where the file took it all. */
static void write_formula(void)
{
    take_circuit(6);
    buzzlumen_built answer = build_circuit(A_NUMBER(2), SOME_WORDS(4), SOME_SIGNED(5));
    int wrong = 0;
    if (answer.number == 0) {
        FILE *file = fopen(arguments[3].start, "w");
        wrong = file == NULL ||
                fprintf(file, "p cnf %u %llu\n", answer.variables, (unsigned long long)answer.clauses) < 0 ||
                write_clauses(file, arguments[5].start, answer.numbers) != 0;
        wrong |= file != NULL && fclose(file) != 0;
    }
    field(answer.number);
    field(answer.place);
    field((uint64_t)wrong);
}

/* Whether the calls for rise and fall apart are there. */
static void takes_falls(void)
{
    take_arguments(0);
#ifdef RISE_FALL
    field(1);
#else
    field(0);
#endif
}

int main(void)
{
    uint32_t function;
    while (fread(&function, 1, sizeof function, stdin) == sizeof function) {
        switch (function) {
        case EVALUATE: evaluate(); break;
        case BUILD: build(); break;
        case CHECK: check(); break;
        case JUDGE: judge(); break;
        case SHORTEN: leave_out_steps(); break;
        case WALK: walk(); break;
        case WRITE_FORMULA: write_formula(); break;
        case SHORTEN_FOR: leave_out_steps_for(); break;
        case TIMES_OF: times_of(); break;
        case FEWER_ONES: fewer_ones(); break;
        case TAKES_FALLS: takes_falls(); break;
        default: return REQUEST_DOES_NOT_READ;
        }
        give_answer();
    }
    return 0;
}
