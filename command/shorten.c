/* Leaves out the steps of a refutation that its last step does not need.
 *
 * First forwards: the steps are stored one by one, and what follows without any assumption is kept as a trail of
 * literals, each with the clause that made it true, until some clause is false. The clauses of that contradiction are
 * marked as needed. Then backwards: a step is taken away, and if it is needed, it is tested against the clauses before
 * it, and the clauses by which it follows are marked in turn. Steps that no one marked are left out. Needed clauses are
 * looked at first, so that few others become so. Each clause is watched at two of its literals.
 *
 * Nothing here is trusted: the judge tests what is left from the start. Assumes that memory suffices; ends the program
 * with 4 where it does not.
 */
#include "shorten.h"

#include <stdlib.h>
#include <string.h>

enum { NONE = -1, MEMORY_IS_SHORT = 4, MOST_VARIABLES = 1 << 24 };

typedef struct {
    int32_t *literals; /* its different literals; the first two are watched */
    uint32_t size;
    uint8_t needed, stored;
} clause;

typedef struct {
    int32_t *items;
    uint32_t count, room;
} list;

static clause *clauses;     /* the formula's, then the refutation's */
static int32_t *own;        /* the memory of their literals */
static list *watchers;      /* the clauses that watch a literal, by the literal's code */
static int8_t *value;       /* 1 true, -1 false, 0 open, by the literal's code */
static int32_t *reason;     /* the clause that made a variable's literal true, or NONE */
static int32_t *place;      /* where a variable stands on the trail */
static uint8_t *wanted;     /* a variable whose reason is to be marked */
static int32_t *trail;      /* the true literals in order */
static int32_t *looked;     /* how far the trail had been looked at when the literal at a place came onto it */
static list waiting;        /* variables whose reasons are to be marked */
static int32_t trail_length, next_needed, next_any;

static void *room_for(size_t count, size_t size)
{
    void *room = calloc(count + 1, size);
    if (room == NULL)
        exit(MEMORY_IS_SHORT);
    return room;
}

static uint32_t code(int32_t literal)
{
    return literal > 0 ? 2 * (uint32_t)literal : 2 * (uint32_t)-literal + 1;
}

static uint32_t variable(int32_t literal)
{
    return (uint32_t)abs(literal);
}

static void append(list *it, int32_t item)
{
    if (it->count == it->room) {
        it->room = it->room ? 2 * it->room : 4;
        it->items = realloc(it->items, it->room * sizeof(int32_t));
        if (it->items == NULL)
            exit(MEMORY_IS_SHORT);
    }
    it->items[it->count++] = item;
}

/* A literal becomes true, by a clause or by assumption. */
static void make_true(int32_t literal, int32_t by)
{
    value[code(literal)] = 1;
    value[code(-literal)] = -1;
    reason[variable(literal)] = by;
    place[variable(literal)] = trail_length;
    looked[trail_length] = next_any;
    trail[trail_length++] = literal;
}

/* The trail is cut to a length; what had been looked at after the first literal that goes is looked at again. */
static void cut(int32_t length)
{
    if (length >= trail_length)
        return;
    next_needed = next_any = looked[length];
    while (trail_length > length) {
        int32_t literal = trail[--trail_length];
        value[code(literal)] = value[code(-literal)] = 0;
        wanted[variable(literal)] = 0;
    }
}

/* Looks for another literal to watch in place of the second, which is false. */
static int watch_another(int32_t number)
{
    clause *it = &clauses[number];
    for (uint32_t i = 2; i < it->size; i++) {
        if (value[code(it->literals[i])] >= 0) {
            int32_t other = it->literals[i];
            it->literals[i] = it->literals[1];
            it->literals[1] = other;
            append(&watchers[code(other)], number);
            return 1;
        }
    }
    return 0;
}

/* Looks at the clauses that watch a literal that became false, the needed ones or the others; gives one that is false
 * now, or NONE. Clauses that are not stored any more are forgotten. */
static int32_t look(int32_t false_literal, int needed, int stop_at_first)
{
    list *watching = &watchers[code(false_literal)];
    uint32_t kept = 0, at = 0;
    int32_t contradiction = NONE, before = trail_length;
    for (; at < watching->count; at++) {
        int32_t number = watching->items[at];
        clause *it = &clauses[number];
        if (!it->stored)
            continue;
        if (contradiction != NONE || it->needed != needed || (stop_at_first && trail_length > before)) {
            watching->items[kept++] = number;
            continue;
        }
        if (it->literals[0] == false_literal) {
            it->literals[0] = it->literals[1];
            it->literals[1] = false_literal;
        }
        if (value[code(it->literals[0])] <= 0 && watch_another(number))
            continue;
        watching->items[kept++] = number;
        if (value[code(it->literals[0])] < 0)
            contradiction = number;
        else if (value[code(it->literals[0])] == 0)
            make_true(it->literals[0], number);
    }
    watching->count = kept;
    return contradiction;
}

/* Makes true what follows, by needed clauses as far as they go, then by one other clause, and so on. */
static int32_t propagate(void)
{
    for (;;) {
        int32_t contradiction = NONE;
        if (next_needed < trail_length) {
            contradiction = look(-trail[next_needed], 1, 0);
            next_needed++;
        } else if (next_any < trail_length) {
            int32_t before = trail_length;
            contradiction = look(-trail[next_any], 0, 1);
            if (trail_length == before)
                next_any++;
        } else {
            return NONE;
        }
        if (contradiction != NONE)
            return contradiction;
    }
}

/* Marks a clause, and the reasons of its literals, and so on. */
static void mark(int32_t number)
{
    for (;;) {
        clause *it = &clauses[number];
        it->needed = 1;
        for (uint32_t i = 0; i < it->size; i++) {
            uint32_t each = variable(it->literals[i]);
            if (!wanted[each] && value[2 * each] != 0) {
                wanted[each] = 1;
                append(&waiting, (int32_t)each);
            }
        }
        do {
            if (waiting.count == 0)
                return;
            number = reason[waiting.items[--waiting.count]];
        } while (number == NONE);
    }
}

/* Reads one clause up to its 0 into its place; gives the count of numbers read. A literal that comes again is left
 * out. `seen` is all zeros, before and after. */
static size_t read_clause(const int32_t *numbers, int32_t *literals, clause *to, uint8_t *seen)
{
    size_t at = 0;
    to->literals = literals;
    for (; numbers[at] != 0; at++) {
        if (!seen[code(numbers[at])]) {
            seen[code(numbers[at])] = 1;
            literals[to->size++] = numbers[at];
        }
    }
    for (uint32_t i = 0; i < to->size; i++)
        seen[code(literals[i])] = 0;
    return at + 1;
}

static size_t clauses_in(const int32_t *numbers, size_t length)
{
    size_t count = 0;
    for (size_t i = 0; i < length; i++)
        count += numbers[i] == 0;
    return count;
}

/* Puts literals that are not false first. */
static void open_literals_first(clause *it)
{
    uint32_t open = 0;
    for (uint32_t i = 0; i < it->size && open < 2; i++) {
        if (value[code(it->literals[i])] >= 0) {
            int32_t literal = it->literals[i];
            it->literals[i] = it->literals[open];
            it->literals[open++] = literal;
        }
    }
}

/* Stores a clause and makes true what follows; gives a clause that is false now, or NONE. */
static int32_t store(int32_t number)
{
    clause *it = &clauses[number];
    it->stored = 1;
    open_literals_first(it);
    if (it->size == 0 || value[code(it->literals[0])] < 0)
        return number;
    if (it->size > 1) {
        append(&watchers[code(it->literals[0])], number);
        append(&watchers[code(it->literals[1])], number);
    }
    if (value[code(it->literals[0])] == 0 && (it->size == 1 || value[code(it->literals[1])] < 0))
        make_true(it->literals[0], number);
    return propagate();
}

/* Takes a step away, and what stood on the trail by it. */
static void take_away(int32_t number)
{
    clause *it = &clauses[number];
    it->stored = 0;
    if (it->size != 0 && value[code(it->literals[0])] > 0 && reason[variable(it->literals[0])] == number)
        cut(place[variable(it->literals[0])]);
}

/* Tests a step against what is stored and marks the clauses by which it follows; 0 where it doesn't. */
static int follows(const clause *it)
{
    int32_t before, contradiction = NONE;
    propagate();
    before = trail_length;
    for (uint32_t i = 0; i < it->size; i++) {
        int32_t literal = it->literals[i];
        if (value[code(literal)] > 0) {
            contradiction = reason[variable(literal)];
            cut(before);
            if (contradiction != NONE)
                mark(contradiction);
            return 1;
        }
        if (value[code(literal)] == 0)
            make_true(-literal, NONE);
    }
    contradiction = propagate();
    if (contradiction != NONE)
        mark(contradiction);
    cut(before);
    return contradiction != NONE;
}

/* Goes forwards to the first contradiction and marks it; gives the count of steps that were stored, or NONE. */
static int32_t forwards(int32_t of_formula, int32_t all)
{
    for (int32_t number = 0; number < all; number++) {
        int32_t contradiction = store(number);
        if (contradiction != NONE) {
            mark(contradiction);
            return number < of_formula ? 0 : number + 1 - of_formula;
        }
    }
    return NONE;
}

static int backwards(int32_t of_formula, int32_t steps)
{
    for (int32_t number = of_formula + steps - 1; number >= of_formula; number--) {
        take_away(number);
        if (clauses[number].needed && !follows(&clauses[number]))
            return 0;
    }
    return 1;
}

static void take_room(uint32_t variables, size_t count, size_t numbers)
{
    clauses = room_for(count, sizeof *clauses);
    own = room_for(numbers, sizeof *own);
    watchers = room_for(2 * variables + 2, sizeof *watchers);
    value = room_for(2 * variables + 2, sizeof *value);
    reason = room_for(variables + 1, sizeof *reason);
    place = room_for(variables + 1, sizeof *place);
    wanted = room_for(variables + 1, sizeof *wanted);
    trail = room_for(variables + 1, sizeof *trail);
    looked = room_for(variables + 1, sizeof *looked);
    trail_length = next_needed = next_any = 0;
}

static void give_room_back(uint32_t variables)
{
    for (size_t i = 0; i < 2 * (size_t)variables + 2; i++)
        free(watchers[i].items);
    free(waiting.items);
    memset(&waiting, 0, sizeof waiting);
    free(clauses);
    free(own);
    free(watchers);
    free(value);
    free(reason);
    free(place);
    free(wanted);
    free(trail);
    free(looked);
}

/* Copies the needed steps as they were given, then the empty clause. */
static size_t copy_needed(int32_t of_formula, int32_t steps, const int32_t *refutation, int32_t *shorter)
{
    size_t written = 0;
    for (int32_t step = 0; step < steps; step++) {
        int keep = clauses[of_formula + step].needed && clauses[of_formula + step].size != 0;
        do {
            if (keep)
                shorter[written++] = *refutation;
        } while (*refutation++ != 0);
    }
    shorter[written++] = 0;
    return written;
}

/* Whether a list ends in 0, or is empty, and every literal in it is at most `variables`. */
static int reads(const int32_t *numbers, size_t length, uint32_t variables)
{
    for (size_t i = 0; i < length; i++)
        if (numbers[i] == INT32_MIN || variable(numbers[i]) > variables)
            return 0;
    return length == 0 || numbers[length - 1] == 0;
}

size_t shorten(uint32_t variables, const int32_t *formula, size_t formula_length,
               const int32_t *refutation, size_t refutation_length, int32_t *shorter)
{
    size_t of_formula = clauses_in(formula, formula_length), written = 0;
    size_t all = of_formula + clauses_in(refutation, refutation_length), at = 0, used = 0;
    int32_t steps;
    uint8_t *seen;
    if (variables > MOST_VARIABLES || all > INT32_MAX / 2 || !reads(formula, formula_length, variables) ||
        !reads(refutation, refutation_length, variables))
        return 0;
    seen = room_for(2 * variables + 2, 1);
    take_room(variables, all, formula_length + refutation_length);
    for (size_t number = 0; number < of_formula; number++) {
        at += read_clause(formula + at, own + used, &clauses[number], seen);
        used += clauses[number].size;
    }
    at = 0;
    for (size_t number = of_formula; number < all; number++) {
        at += read_clause(refutation + at, own + used, &clauses[number], seen);
        used += clauses[number].size;
    }
    free(seen);
    steps = forwards((int32_t)of_formula, (int32_t)all);
    if (steps != NONE && backwards((int32_t)of_formula, steps))
        written = copy_needed((int32_t)of_formula, steps, refutation, shorter);
    give_room_back(variables);
    return written;
}
