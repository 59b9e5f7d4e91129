/* The library's twin in plain C: the same functions, each as fast as plain C has them, for comparison of speed and as a
 * stand-in for the library while the tests are tried.
 *
 * Written from docs/RULES.md alone. The functions are named twin_evaluate, twin_build, twin_check and twin_judge, for
 * rise and fall apart twin_evaluate_rise_fall, twin_build_rise_fall and twin_judge_rise_fall, so that they can be
 * linked beside the library; -DPREFIX=buzzlumen_ gives them the library's names instead.
 * Pairs are found by marking the wanted times of one node after the other, from the highest down, and are written with
 * a place in each driver's pairs that only moves on; unit propagation runs over both lists in list order, assigning as
 * it goes, until a pass assigns nothing.
 */
#include "buzzlumen.h"

#include <string.h>

#ifndef PREFIX
#define PREFIX twin_
#endif
#define JOINED(prefix, name) prefix##name
#define JOIN(prefix, name) JOINED(prefix, name)
#define NAMED(name) JOIN(PREFIX, name)

enum { BUF = 1, NOT, AND, NAND, OR, NOR, XOR, XNOR, MUX };
enum { TRAILER = 14, MOST_NODES = 512, MOST_DELAY = 999, MOST_PAIRS = 65536, MOST_VARIABLES = 100000 };
enum { MOST_INPUTS = 64, MOST_GATES = 448, MOST_PINS = 2048, MOST_OUTPUTS = 64, MOST_ARRIVAL = 9999 };
enum { FALL = 19 };

/* A refusal, or number 0. */
typedef struct {
    uint32_t number;
    uint64_t place;
} refusal;

static const refusal none = {0, 0};

static refusal refuse(uint32_t number, uint64_t place)
{
    refusal r = {number, place};
    return r;
}

/* The netlist file and the arrivals: the tables stay where they are, in the caller's bytes. */

typedef struct {
    const uint8_t *gates, *pins, *outputs;
    const uint32_t *arrivals;
    uint32_t inputs, gate_count, pin_count, output_count;
} netlist;

typedef struct {
    uint32_t kind, count, first;
} gate;

static uint32_t read16(const uint8_t *at)
{
    return (uint32_t)at[0] | (uint32_t)at[1] << 8;
}

static uint32_t read32(const uint8_t *at)
{
    return read16(at) | read16(at + 2) << 16;
}

static gate gate_at(const netlist *n, uint32_t g)
{
    const uint8_t *row = n->gates + 4 * (size_t)g;
    gate it = {row[0], row[1], read16(row + 2)};
    return it;
}

static uint32_t driver_at(const netlist *n, uint32_t pin)
{
    return read16(n->pins + 4 * (size_t)pin);
}

static uint32_t delay_at(const netlist *n, uint32_t pin)
{
    return read16(n->pins + 4 * (size_t)pin + 2);
}

static uint32_t output_at(const netlist *n, uint32_t position)
{
    return read16(n->outputs + 2 * (size_t)position);
}

static uint32_t nodes_of(const netlist *n)
{
    return n->inputs + n->gate_count;
}

static int is_simple(uint32_t kind)
{
    return kind <= NOR;
}

/* The controlling value c of a simple gate. */
static uint32_t controlling(uint32_t kind)
{
    return kind == OR || kind == NOR;
}

/* The output k that a controlling pin forces. */
static uint32_t forced(uint32_t kind)
{
    return kind == NOT || kind == NAND || kind == OR;
}

static int pins_allowed(uint32_t kind, uint32_t count)
{
    if (kind == BUF || kind == NOT)
        return count == 1;
    if (kind >= AND && kind <= NOR)
        return count >= 2 && count <= 8;
    if (kind == XOR || kind == XNOR)
        return count == 2;
    return kind == MUX && count == 3;
}

static refusal read_trailer(netlist *n, const uint8_t *data, size_t length)
{
    if (length < TRAILER)
        return refuse(BUZZLUMEN_SHORT, length);
    const uint8_t *trailer = data + (length - TRAILER);
    uint32_t version = read16(trailer + 12);
    if (version != 1)
        return refuse(BUZZLUMEN_VERSION, version);
    n->inputs = read16(trailer + 4);
    n->gate_count = read16(trailer + 6);
    n->pin_count = read16(trailer + 8);
    n->output_count = read16(trailer + 10);
    if (n->inputs < 1 || n->inputs > MOST_INPUTS)
        return refuse(BUZZLUMEN_COUNT, 0);
    if (n->gate_count > MOST_GATES)
        return refuse(BUZZLUMEN_COUNT, 1);
    if (n->pin_count > MOST_PINS)
        return refuse(BUZZLUMEN_COUNT, 2);
    if (n->output_count < 1 || n->output_count > MOST_OUTPUTS)
        return refuse(BUZZLUMEN_COUNT, 3);
    uint32_t back = read32(trailer);
    if (back != 4 * n->gate_count + 4 * n->pin_count + 2 * n->output_count || back > length - TRAILER)
        return refuse(BUZZLUMEN_BACK, 0);
    n->gates = trailer - back;
    n->pins = n->gates + 4 * n->gate_count;
    n->outputs = n->pins + 4 * n->pin_count;
    return none;
}

static refusal check_gates(const netlist *n)
{
    uint32_t sum = 0;
    for (uint32_t g = 0; g < n->gate_count; g++) {
        gate it = gate_at(n, g);
        if (!pins_allowed(it.kind, it.count) || it.first != sum)
            return refuse(BUZZLUMEN_GATE, g);
        sum += it.count;
    }
    return sum == n->pin_count ? none : refuse(BUZZLUMEN_GATE, n->gate_count);
}

static refusal check_pins(const netlist *n)
{
    for (uint32_t g = 0; g < n->gate_count; g++) {
        gate it = gate_at(n, g);
        for (uint32_t p = it.first; p < it.first + it.count; p++)
            if (driver_at(n, p) >= n->inputs + g || delay_at(n, p) > MOST_DELAY)
                return refuse(BUZZLUMEN_PIN, p);
    }
    return none;
}

static refusal check_outputs(const netlist *n)
{
    uint32_t least = 0;
    for (uint32_t q = 0; q < n->output_count; q++) {
        uint32_t node = output_at(n, q);
        if (node < least || node >= nodes_of(n))
            return refuse(BUZZLUMEN_OUTPUT, q);
        least = node + 1;
    }
    return none;
}

static refusal check_arrivals(netlist *n, const uint32_t *arrivals, size_t length)
{
    if (length != n->inputs)
        return refuse(BUZZLUMEN_ARRIVAL, n->inputs);
    for (size_t i = 0; i < length; i++)
        if (arrivals[i] > MOST_ARRIVAL)
            return refuse(BUZZLUMEN_ARRIVAL, i);
    n->arrivals = arrivals;
    return none;
}

/* Checks 1 to 7, then 16. */
static refusal open_netlist(netlist *n, const uint8_t *data, size_t length, const uint32_t *arrivals,
                            size_t arrivals_length)
{
    refusal r = read_trailer(n, data, length);
    if (r.number == 0)
        r = check_gates(n);
    if (r.number == 0)
        r = check_pins(n);
    if (r.number == 0)
        r = check_outputs(n);
    if (r.number == 0)
        r = check_arrivals(n, arrivals, arrivals_length);
    return r;
}

/* Settling. */

static refusal check_vector(const netlist *n, const uint8_t *vector, size_t length)
{
    if (length != n->inputs)
        return refuse(BUZZLUMEN_VECTOR, n->inputs);
    for (size_t i = 0; i < length; i++)
        if (vector[i] > 1)
            return refuse(BUZZLUMEN_VECTOR, i);
    return none;
}

/* A simple gate: the first controlling pin, or else the last of all. */
static void settle_simple(const netlist *n, gate it, uint32_t node, uint8_t *values, uint32_t *times)
{
    uint32_t c = controlling(it.kind), k = forced(it.kind);
    uint32_t first = UINT32_MAX, last = 0;
    for (uint32_t p = it.first; p < it.first + it.count; p++) {
        uint32_t driver = driver_at(n, p);
        uint32_t ready = times[driver] + delay_at(n, p);
        if (ready > last)
            last = ready;
        if (values[driver] == c && ready < first)
            first = ready;
    }
    values[node] = (uint8_t)(first != UINT32_MAX ? k : 1 - k);
    times[node] = first != UINT32_MAX ? first : last;
}

static uint32_t later(uint32_t a, uint32_t b)
{
    return a < b ? b : a;
}

/* XOR and XNOR: the last pin of the two. */
static void settle_parity(const netlist *n, gate it, uint32_t node, uint8_t *values, uint32_t *times)
{
    uint32_t first = driver_at(n, it.first), second = driver_at(n, it.first + 1);
    values[node] = (uint8_t)(values[first] ^ values[second] ^ (it.kind == XNOR));
    times[node] = later(times[first] + delay_at(n, it.first), times[second] + delay_at(n, it.first + 1));
}

/* MUX: select and the chosen data pin; where the data pins agree, these two, if that is earlier. */
static void settle_mux(const netlist *n, gate it, uint32_t node, uint8_t *values, uint32_t *times)
{
    uint32_t driver = driver_at(n, it.first);
    uint32_t select = times[driver] + delay_at(n, it.first);
    uint32_t chosen = it.first + 1 + values[driver], other = it.first + 2 - values[driver];
    uint32_t from = driver_at(n, chosen), beside = driver_at(n, other);
    uint32_t ready = times[from] + delay_at(n, chosen);
    values[node] = values[from];
    if (values[from] == values[beside]) {
        uint32_t agreed = times[beside] + delay_at(n, other);
        if (agreed < select)
            select = agreed;
    }
    times[node] = later(select, ready);
}

/* All nodes; gives the time at which the circuit settles. */
static uint32_t settle(const netlist *n, const uint8_t *vector, uint8_t *values, uint32_t *times)
{
    memcpy(values, vector, n->inputs);
    memcpy(times, n->arrivals, n->inputs * sizeof *times);
    for (uint32_t g = 0; g < n->gate_count; g++) {
        gate it = gate_at(n, g);
        if (is_simple(it.kind))
            settle_simple(n, it, n->inputs + g, values, times);
        else if (it.kind == MUX)
            settle_mux(n, it, n->inputs + g, values, times);
        else
            settle_parity(n, it, n->inputs + g, values, times);
    }
    uint32_t last = 0;
    for (uint32_t q = 0; q < n->output_count; q++)
        if (times[output_at(n, q)] > last)
            last = times[output_at(n, q)];
    return last;
}

/* Pairs. A node's wanted times are gathered as marks in a bitmap, from the pairs of the gates above it that it drives,
 * which stand in the table's end already; read from the highest mark down they are the node's pairs.
 */

enum { MOST_TOP = MOST_GATES * MOST_DELAY + MOST_ARRIVAL, WORD = 64, WORDS = MOST_TOP / WORD + 1, NO_PIN = MOST_PINS };

/* What a search for pairs and the writing of a formula both need. */
typedef struct {
    const netlist *n;
    uint32_t target;
    uint32_t tops[MOST_NODES];
    size_t starts[MOST_NODES + 1]; /* where each node's pairs begin in the table */
} lateness;

/* The pins that each node drives, as chains that NO_PIN ends. */
typedef struct {
    uint16_t first[MOST_NODES], next[MOST_PINS], node[MOST_PINS];
} readers;

/* The times that are wanted of one node, and between which they lie. */
typedef struct {
    uint64_t marks[WORDS];
    uint32_t least, most;
} wanted;

static void find_tops(const netlist *n, uint32_t *tops)
{
    memcpy(tops, n->arrivals, n->inputs * sizeof *tops);
    for (uint32_t g = 0; g < n->gate_count; g++) {
        gate it = gate_at(n, g);
        uint32_t top = 0;
        for (uint32_t p = it.first; p < it.first + it.count; p++) {
            uint32_t sum = tops[driver_at(n, p)] + delay_at(n, p);
            if (sum > top)
                top = sum;
        }
        tops[n->inputs + g] = top;
    }
}

static void find_readers(const netlist *n, readers *r)
{
    for (uint32_t node = 0; node < nodes_of(n); node++)
        r->first[node] = NO_PIN;
    for (uint32_t g = 0; g < n->gate_count; g++) {
        gate it = gate_at(n, g);
        for (uint32_t p = it.first; p < it.first + it.count; p++) {
            uint32_t driver = driver_at(n, p);
            r->next[p] = r->first[driver];
            r->first[driver] = (uint16_t)p;
            r->node[p] = (uint16_t)(n->inputs + g);
        }
    }
}

static void mark(wanted *w, uint32_t t)
{
    w->marks[t / WORD] |= (uint64_t)1 << t % WORD;
    if (t < w->least)
        w->least = t;
    if (t > w->most)
        w->most = t;
}

/* Mark what one pin of a gate wants of its driver: the times of the gate's pairs less the delay, where they are 1 to
 * the driver's top. */
static void mark_by_pin(wanted *w, const uint32_t *pairs, size_t count, uint32_t delay, uint32_t top)
{
    while (count > 0 && pairs[1] <= delay) {
        pairs += 2;
        count--;
    }
    while (count > 0 && pairs[2 * count - 1] - delay > top)
        count--;
    if (count == 0)
        return;
    mark(w, pairs[1] - delay);
    mark(w, pairs[2 * count - 1] - delay);
    for (size_t i = 1; i + 1 < count; i++) {
        uint32_t t = pairs[2 * i + 1] - delay;
        w->marks[t / WORD] |= (uint64_t)1 << t % WORD;
    }
}

/* Put the wanted times before place `at` of the table, and take their marks away; the place of the first, or SIZE_MAX
 * where the table has no room. */
static size_t put_wanted(wanted *w, uint32_t *table, size_t at, uint32_t node)
{
    for (size_t word = w->most / WORD + 1; word-- > w->least / WORD;) {
        uint64_t marks = w->marks[word];
        w->marks[word] = 0;
        while (marks != 0) {
            uint32_t bit = WORD - 1 - (uint32_t)__builtin_clzll(marks);
            marks ^= (uint64_t)1 << bit;
            if (at == 0)
                return SIZE_MAX;
            at--;
            table[2 * at] = node;
            table[2 * at + 1] = (uint32_t)word * WORD + bit;
        }
    }
    return at;
}

/* Fill the table from its end, then move the pairs to its front; their number, or SIZE_MAX where there are more than it
 * may hold. */
static size_t find_pairs(lateness *l, uint32_t *table, size_t length)
{
    const netlist *n = l->n;
    readers r;
    wanted w;
    uint8_t is_output[MOST_NODES] = {0};
    uint32_t highest = 0;
    for (uint32_t node = 0; node < nodes_of(n); node++)
        if (l->tops[node] > highest)
            highest = l->tops[node];
    memset(w.marks, 0, (highest / WORD + 1) * sizeof *w.marks);
    for (uint32_t q = 0; q < n->output_count; q++)
        is_output[output_at(n, q)] = 1;
    find_readers(n, &r);
    size_t capacity = length / 2 < MOST_PAIRS ? length / 2 : MOST_PAIRS;
    size_t at = capacity;
    memset(l->starts, 0, n->inputs * sizeof *l->starts);
    l->starts[nodes_of(n)] = at;
    for (uint32_t node = nodes_of(n); node-- > n->inputs;) {
        w.least = UINT32_MAX;
        w.most = 0;
        if (is_output[node] && l->target > 0 && l->target <= l->tops[node])
            mark(&w, l->target);
        for (uint32_t p = r.first[node]; p != NO_PIN; p = r.next[p]) {
            const size_t *of = l->starts + r.node[p];
            mark_by_pin(&w, table + 2 * of[0], of[1] - of[0], delay_at(n, p), l->tops[node]);
        }
        if (w.most > 0)
            at = put_wanted(&w, table, at, node);
        if (at == SIZE_MAX)
            return SIZE_MAX;
        l->starts[node] = at;
    }
    size_t count = capacity - at;
    memmove(table, table + 2 * at, 2 * count * sizeof *table);
    memset(table + 2 * count, 0, (length - 2 * count) * sizeof *table);
    for (uint32_t node = n->inputs; node <= nodes_of(n); node++)
        l->starts[node] -= at;
    return count;
}

/* The formula. */

typedef struct {
    int32_t *to;
    size_t room, numbers, clauses;
} writer;

/* Store where there is room, and count in any case. */
static void put(writer *w, int32_t number)
{
    if (w->numbers < w->room)
        w->to[w->numbers] = number;
    w->numbers++;
}

static void end_clause(writer *w)
{
    put(w, 0);
    w->clauses++;
}

static int32_t node_is(uint32_t node, uint32_t value)
{
    return value ? (int32_t)node + 1 : -((int32_t)node + 1);
}

static void put_three(writer *w, int32_t x, int32_t y, int32_t z)
{
    put(w, x);
    put(w, y);
    put(w, z);
    end_clause(w);
}

static void write_simple(writer *w, const netlist *n, gate it, uint32_t node)
{
    uint32_t c = controlling(it.kind), k = forced(it.kind);
    for (uint32_t p = it.first; p < it.first + it.count; p++) {
        put(w, node_is(driver_at(n, p), 1 - c));
        put(w, node_is(node, k));
        end_clause(w);
    }
    for (uint32_t p = it.first; p < it.first + it.count; p++)
        put(w, node_is(driver_at(n, p), c));
    put(w, node_is(node, 1 - k));
    end_clause(w);
}

static void write_parity(writer *w, const netlist *n, gate it, uint32_t node)
{
    uint32_t first = driver_at(n, it.first), second = driver_at(n, it.first + 1);
    for (uint32_t x = 0; x < 2; x++)
        for (uint32_t y = 0; y < 2; y++)
            put_three(w, node_is(first, 1 - x), node_is(second, 1 - y), node_is(node, x ^ y ^ (it.kind == XNOR)));
}

static void write_mux(writer *w, const netlist *n, gate it, uint32_t node)
{
    int32_t s = node_is(driver_at(n, it.first), 1), a = node_is(driver_at(n, it.first + 1), 1);
    int32_t b = node_is(driver_at(n, it.first + 2), 1), f = node_is(node, 1);
    put_three(w, s, -a, f);
    put_three(w, s, a, -f);
    put_three(w, -s, -b, f);
    put_three(w, -s, b, -f);
}

static void write_gate(writer *w, const netlist *n, uint32_t g)
{
    gate it = gate_at(n, g);
    if (is_simple(it.kind))
        write_simple(w, n, it, n->inputs + g);
    else if (it.kind == MUX)
        write_mux(w, n, it, n->inputs + g);
    else
        write_parity(w, n, it, n->inputs + g);
}

/* A pin of a gate whose pairs are written: what drives it, up to when its driver is surely late, and how far its
 * driver's pairs have been passed. */
typedef struct {
    uint32_t driver, delay, surely;
    size_t next, end;
    int32_t late; /* "driver late" as a literal, or one of the two below */
} pin;

enum { IS_LATE = -1, NOT_LATE = 0 };

/* The first place after `at` whose time is not before t, by steps that double and then by halves. */
static size_t place_after(const uint32_t *table, size_t at, size_t end, uint32_t t)
{
    size_t step = 1;
    while (at + step < end && table[2 * (at + step) + 1] < t) {
        at += step;
        step *= 2;
    }
    size_t high = at + step < end ? at + step : end;
    while (at + 1 < high) {
        size_t middle = at + (high - at) / 2;
        if (table[2 * middle + 1] < t)
            at = middle;
        else
            high = middle;
    }
    return high;
}

static pin pin_of(const lateness *l, uint32_t driver, uint32_t delay)
{
    uint32_t surely = driver < l->n->inputs ? l->tops[driver] + delay : delay;
    pin it = {driver, delay, surely, l->starts[driver], l->starts[driver + 1], NOT_LATE};
    return it;
}

/* "Driver late at t less the delay". An input has no pairs: it is surely late up to its top, its arrival, and not late
 * above. The times of a gate's pairs rise, so that those passed need not be seen again. */
static int32_t late(const lateness *l, const uint32_t *table, pin *p, uint32_t t)
{
    if (t <= p->surely)
        return IS_LATE;
    if (t - p->delay > l->tops[p->driver])
        return NOT_LATE;
    if (table[2 * p->next + 1] < t - p->delay)
        p->next++;
    if (table[2 * p->next + 1] < t - p->delay)
        p->next = place_after(table, p->next, p->end, t - p->delay);
    return (int32_t)(nodes_of(l->n) + 1 + p->next);
}

/* The clause of a multiplexer's cube, one pin at x and another at y: each of them late, or not at its value; left out
 * where one surely is late. */
static void write_cube(writer *w, int32_t variable, const pin *one, uint32_t x, const pin *other, uint32_t y)
{
    if (one->late == IS_LATE || other->late == IS_LATE)
        return;
    put(w, -variable);
    if (one->late != NOT_LATE)
        put(w, one->late);
    put(w, node_is(one->driver, 1 - x));
    if (other->late != NOT_LATE)
        put(w, other->late);
    put(w, node_is(other->driver, 1 - y));
    end_clause(w);
}

/* The clauses of a pair (rule F12): some driver is late, left out where one surely is; then a clause for each
 * controlling cube: where the gate is simple for each pin, and six where it is a multiplexer. */
static void write_pair(writer *w, gate it, const pin *pins, int32_t variable, int some_surely)
{
    if (!some_surely) {
        put(w, -variable);
        for (uint32_t i = 0; i < it.count; i++)
            if (pins[i].late != NOT_LATE)
                put(w, pins[i].late);
        end_clause(w);
    }
    if (it.kind == MUX) {
        for (uint32_t s = 0; s < 2; s++)
            for (uint32_t value = 0; value < 2; value++)
                write_cube(w, variable, pins, s, pins + 1 + s, value);
        for (uint32_t value = 0; value < 2; value++)
            write_cube(w, variable, pins + 1, value, pins + 2, value);
    }
    if (!is_simple(it.kind))
        return;
    for (uint32_t i = 0; i < it.count; i++) {
        if (pins[i].late == IS_LATE)
            continue;
        put(w, -variable);
        if (pins[i].late != NOT_LATE)
            put(w, pins[i].late);
        put(w, node_is(pins[i].driver, 1 - controlling(it.kind)));
        end_clause(w);
    }
}

/* The clauses of all pairs of one gate. */
static void write_pairs(writer *w, const lateness *l, const uint32_t *table, uint32_t g)
{
    const netlist *n = l->n;
    gate it = gate_at(n, g);
    pin pins[8];
    for (uint32_t i = 0; i < it.count; i++)
        pins[i] = pin_of(l, driver_at(n, it.first + i), delay_at(n, it.first + i));
    for (size_t k = l->starts[n->inputs + g]; k < l->starts[n->inputs + g + 1]; k++) {
        int some_surely = 0;
        for (uint32_t i = 0; i < it.count; i++) {
            pins[i].late = late(l, table, pins + i, table[2 * k + 1]);
            some_surely |= pins[i].late == IS_LATE;
        }
        write_pair(w, it, pins, (int32_t)(nodes_of(n) + 1 + k), some_surely);
    }
}

static void write_formula(writer *w, const lateness *l, const uint32_t *table)
{
    const netlist *n = l->n;
    for (uint32_t g = 0; g < n->gate_count; g++)
        write_gate(w, n, g);
    for (uint32_t g = 0; g < n->gate_count; g++)
        write_pairs(w, l, table, g);
    size_t before = w->numbers;
    for (uint32_t q = 0; q < n->output_count; q++) {
        pin it = pin_of(l, output_at(n, q), 0);
        int32_t literal = late(l, table, &it, l->target);
        if (literal == IS_LATE) {
            w->numbers = before;
            return;
        }
        if (literal != NOT_LATE)
            put(w, literal);
    }
    end_clause(w);
}

/* Check 10, then 9 for the formula; fills both slices whole where it is not refused. */
static refusal build_opened(const netlist *n, uint32_t target, uint32_t *pairs, size_t pairs_length,
                            int32_t *formula, size_t formula_length, buzzlumen_built *built)
{
    lateness l;
    l.n = n;
    l.target = target;
    find_tops(n, l.tops);
    size_t count = find_pairs(&l, pairs, pairs_length);
    if (count == SIZE_MAX)
        return refuse(BUZZLUMEN_PAIRS, 0);
    writer w = {formula, formula_length, 0, 0};
    write_formula(&w, &l, pairs);
    if (w.numbers > formula_length)
        return refuse(BUZZLUMEN_ROOM, w.numbers);
    memset(formula + w.numbers, 0, (formula_length - w.numbers) * sizeof *formula);
    built->variables = (uint32_t)(nodes_of(n) + count);
    built->clauses = w.clauses;
    built->numbers = w.numbers;
    built->pairs = count;
    return none;
}

/* Rise and fall apart: each pin has a second delay, for a gate that ends at 0. The netlist's own is for one that ends
 * at 1. A node's two rails, late with value 0 and late with value 1, hold the same times, because whatever asks for one
 * of them asks for the other: the times are found and searched once, and rail 1 lies directly behind rail 0.
 */

static refusal check_falls(const netlist *n, const uint32_t *falls, size_t length)
{
    if (length != n->pin_count)
        return refuse(FALL, n->pin_count);
    for (size_t i = 0; i < length; i++)
        if (falls[i] > MOST_DELAY)
            return refuse(FALL, i);
    return none;
}

/* Checks 1 to 7, 16, then 19. */
static refusal open_apart(netlist *n, const uint8_t *data, size_t length, const uint32_t *arrivals,
                          size_t arrivals_length, const uint32_t *falls, size_t falls_length)
{
    refusal r = open_netlist(n, data, length, arrivals, arrivals_length);
    return r.number == 0 ? check_falls(n, falls, falls_length) : r;
}

static uint32_t delay_for(const netlist *n, const uint32_t *falls, uint32_t pin, uint32_t value)
{
    return value ? delay_at(n, pin) : falls[pin];
}

/* A simple gate in one pass: a controlling pin counts with the delay for k, any other with the one for 1 - k. */
static inline __attribute__((always_inline)) void settle_simple_forced(const netlist *n, const uint32_t *falls, gate it,
                                                                       uint32_t node, uint8_t *values,
                                                                       uint32_t *times, uint32_t c, uint32_t k)
{
    uint32_t first = UINT32_MAX, last = 0;
    for (uint32_t p = it.first; p < it.first + it.count; p++) {
        uint32_t driver = driver_at(n, p);
        if (values[driver] == c) {
            uint32_t ready = times[driver] + delay_for(n, falls, p, k);
            if (ready < first)
                first = ready;
        } else {
            uint32_t ready = times[driver] + delay_for(n, falls, p, 1 - k);
            if (ready > last)
                last = ready;
        }
    }
    values[node] = (uint8_t)(first != UINT32_MAX ? k : 1 - k);
    times[node] = first != UINT32_MAX ? first : last;
}

/* Written out for both values of k, so that no pin asks which it is. */
static void settle_simple_apart(const netlist *n, const uint32_t *falls, gate it, uint32_t node, uint8_t *values,
                                uint32_t *times)
{
    if (forced(it.kind))
        settle_simple_forced(n, falls, it, node, values, times, controlling(it.kind), 1);
    else
        settle_simple_forced(n, falls, it, node, values, times, controlling(it.kind), 0);
}

static void settle_parity_apart(const netlist *n, const uint32_t *falls, gate it, uint32_t node, uint8_t *values,
                                uint32_t *times)
{
    uint32_t first = driver_at(n, it.first), second = driver_at(n, it.first + 1);
    uint32_t value = values[first] ^ values[second] ^ (it.kind == XNOR);
    values[node] = (uint8_t)value;
    times[node] = later(times[first] + delay_for(n, falls, it.first, value),
                        times[second] + delay_for(n, falls, it.first + 1, value));
}

static void settle_mux_apart(const netlist *n, const uint32_t *falls, gate it, uint32_t node, uint8_t *values,
                             uint32_t *times)
{
    uint32_t driver = driver_at(n, it.first);
    uint32_t chosen = it.first + 1 + values[driver], other = it.first + 2 - values[driver];
    uint32_t from = driver_at(n, chosen), beside = driver_at(n, other), value = values[from];
    uint32_t select = times[driver] + delay_for(n, falls, it.first, value);
    uint32_t ready = times[from] + delay_for(n, falls, chosen, value);
    values[node] = (uint8_t)value;
    if (value == values[beside]) {
        uint32_t agreed = times[beside] + delay_for(n, falls, other, value);
        if (agreed < select)
            select = agreed;
    }
    times[node] = later(select, ready);
}

static uint32_t settle_apart(const netlist *n, const uint32_t *falls, const uint8_t *vector, uint8_t *values,
                             uint32_t *times)
{
    memcpy(values, vector, n->inputs);
    memcpy(times, n->arrivals, n->inputs * sizeof *times);
    for (uint32_t g = 0; g < n->gate_count; g++) {
        gate it = gate_at(n, g);
        if (is_simple(it.kind))
            settle_simple_apart(n, falls, it, n->inputs + g, values, times);
        else if (it.kind == MUX)
            settle_mux_apart(n, falls, it, n->inputs + g, values, times);
        else
            settle_parity_apart(n, falls, it, n->inputs + g, values, times);
    }
    uint32_t last = 0;
    for (uint32_t q = 0; q < n->output_count; q++)
        if (times[output_at(n, q)] > last)
            last = times[output_at(n, q)];
    return last;
}

static void find_tops_apart(const netlist *n, const uint32_t *falls, uint32_t *tops)
{
    memcpy(tops, n->arrivals, n->inputs * sizeof *tops);
    for (uint32_t g = 0; g < n->gate_count; g++) {
        gate it = gate_at(n, g);
        uint32_t top = 0;
        for (uint32_t p = it.first; p < it.first + it.count; p++)
            top = later(top, tops[driver_at(n, p)] + later(delay_at(n, p), falls[p]));
        tops[n->inputs + g] = top;
    }
}

/* Mark what one pin of a gate wants of its driver, for one of the gate's values: the times of that rail less the delay,
 * where they are 1 to the driver's top. */
static void mark_by_rail(wanted *w, const uint32_t *rail, size_t count, uint32_t delay, uint32_t top)
{
    while (count > 0 && rail[2] <= delay) {
        rail += 3;
        count--;
    }
    while (count > 0 && rail[3 * count - 1] - delay > top)
        count--;
    if (count == 0)
        return;
    mark(w, rail[2] - delay);
    mark(w, rail[3 * count - 1] - delay);
    for (size_t i = 1; i + 1 < count; i++) {
        uint32_t t = rail[3 * i + 2] - delay;
        w->marks[t / WORD] |= (uint64_t)1 << t % WORD;
    }
}

/* Put the wanted times before place `at` of the table as rail 1, and take their marks away; then the same times before
 * them as rail 0. The place of the first, or SIZE_MAX where the table has no room. */
static size_t put_rails(wanted *w, uint32_t *table, size_t at, uint32_t node)
{
    size_t end = at;
    for (size_t word = w->most / WORD + 1; word-- > w->least / WORD;) {
        uint64_t marks = w->marks[word];
        w->marks[word] = 0;
        while (marks != 0) {
            uint32_t bit = WORD - 1 - (uint32_t)__builtin_clzll(marks);
            marks ^= (uint64_t)1 << bit;
            if (at == 0)
                return SIZE_MAX;
            at--;
            table[3 * at] = node;
            table[3 * at + 1] = 1;
            table[3 * at + 2] = (uint32_t)word * WORD + bit;
        }
    }
    size_t count = end - at;
    if (at < count)
        return SIZE_MAX;
    uint32_t *rail = table + 3 * (at - count);
    for (size_t i = 0; i < count; i++) {
        rail[3 * i] = node;
        rail[3 * i + 1] = 0;
        rail[3 * i + 2] = rail[3 * (count + i) + 2];
    }
    return at - count;
}

/* As find_pairs does. */
static size_t find_rails(lateness *l, const uint32_t *falls, uint32_t *table, size_t length)
{
    const netlist *n = l->n;
    readers r;
    wanted w;
    uint8_t is_output[MOST_NODES] = {0};
    uint32_t highest = 0;
    for (uint32_t node = 0; node < nodes_of(n); node++)
        highest = later(highest, l->tops[node]);
    memset(w.marks, 0, (highest / WORD + 1) * sizeof *w.marks);
    for (uint32_t q = 0; q < n->output_count; q++)
        is_output[output_at(n, q)] = 1;
    find_readers(n, &r);
    size_t capacity = length / 3 < MOST_PAIRS ? length / 3 : MOST_PAIRS;
    size_t at = capacity;
    memset(l->starts, 0, n->inputs * sizeof *l->starts);
    l->starts[nodes_of(n)] = at;
    for (uint32_t node = nodes_of(n); node-- > n->inputs;) {
        w.least = UINT32_MAX;
        w.most = 0;
        if (is_output[node] && l->target > 0 && l->target <= l->tops[node])
            mark(&w, l->target);
        for (uint32_t p = r.first[node]; p != NO_PIN; p = r.next[p]) {
            const size_t *of = l->starts + r.node[p];
            const uint32_t *rail = table + 3 * of[0];
            size_t count = (of[1] - of[0]) / 2;
            mark_by_rail(&w, rail, count, falls[p], l->tops[node]);
            if (delay_at(n, p) != falls[p])
                mark_by_rail(&w, rail, count, delay_at(n, p), l->tops[node]);
        }
        if (w.most > 0)
            at = put_rails(&w, table, at, node);
        if (at == SIZE_MAX)
            return SIZE_MAX;
        l->starts[node] = at;
    }
    size_t count = capacity - at;
    memmove(table, table + 3 * at, 3 * count * sizeof *table);
    memset(table + 3 * count, 0, (length - 3 * count) * sizeof *table);
    for (uint32_t node = n->inputs; node <= nodes_of(n); node++)
        l->starts[node] -= at;
    return count;
}

/* As place_after, in a table of three numbers a pair. */
static size_t rail_after(const uint32_t *table, size_t at, size_t end, uint32_t t)
{
    size_t step = 1;
    while (at + step < end && table[3 * (at + step) + 2] < t) {
        at += step;
        step *= 2;
    }
    size_t high = at + step < end ? at + step : end;
    while (at + 1 < high) {
        size_t middle = at + (high - at) / 2;
        if (table[3 * middle + 2] < t)
            at = middle;
        else
            high = middle;
    }
    return high;
}

/* A pin whose driver's pairs are those of rail 0; `beside` is how far behind them those of rail 1 lie. */
typedef struct {
    pin rail;
    int32_t beside;
} pin_apart;

static pin_apart pin_apart_of(const lateness *l, uint32_t driver, uint32_t delay)
{
    pin_apart it = {pin_of(l, driver, delay), 0};
    it.beside = driver < l->n->inputs ? 0 : (int32_t)((it.rail.end - it.rail.next) / 2);
    it.rail.end = it.rail.next + (size_t)it.beside;
    return it;
}

/* "Driver late at t less the delay with value 0" as late has it; with value 1 the literal is `beside` more. */
static int32_t late_apart(const lateness *l, const uint32_t *table, pin *p, uint32_t t)
{
    if (t <= p->surely)
        return IS_LATE;
    if (t - p->delay > l->tops[p->driver])
        return NOT_LATE;
    if (table[3 * p->next + 2] < t - p->delay)
        p->next++;
    if (table[3 * p->next + 2] < t - p->delay)
        p->next = rail_after(table, p->next, p->end, t - p->delay);
    return (int32_t)(nodes_of(l->n) + 1 + p->next);
}

/* "Driver late", value 0 and then value 1, where it is open. */
static void put_late(writer *w, const pin_apart *p)
{
    if (p->rail.late != NOT_LATE) {
        put(w, p->rail.late);
        put(w, p->rail.late + p->beside);
    }
}

static void write_cube_apart(writer *w, int32_t variable, const pin_apart *one, uint32_t x, const pin_apart *other,
                             uint32_t y)
{
    if (one->rail.late == IS_LATE || other->rail.late == IS_LATE)
        return;
    put(w, -variable);
    put_late(w, one);
    put(w, node_is(one->rail.driver, 1 - x));
    put_late(w, other);
    put(w, node_is(other->rail.driver, 1 - y));
    end_clause(w);
}

/* The clauses of a pair: "-p, gate is v", then as write_pair. */
static void write_pair_apart(writer *w, gate it, const pin_apart *pins, int32_t variable, int32_t gate_is,
                             int some_surely)
{
    put(w, -variable);
    put(w, gate_is);
    end_clause(w);
    if (!some_surely) {
        put(w, -variable);
        for (uint32_t i = 0; i < it.count; i++)
            put_late(w, pins + i);
        end_clause(w);
    }
    if (it.kind == MUX) {
        for (uint32_t s = 0; s < 2; s++)
            for (uint32_t value = 0; value < 2; value++)
                write_cube_apart(w, variable, pins, s, pins + 1 + s, value);
        for (uint32_t value = 0; value < 2; value++)
            write_cube_apart(w, variable, pins + 1, value, pins + 2, value);
    }
    if (!is_simple(it.kind))
        return;
    uint32_t not_c = 1 - controlling(it.kind);
    for (uint32_t i = 0; i < it.count; i++) {
        if (pins[i].rail.late == IS_LATE)
            continue;
        put(w, -variable);
        put_late(w, pins + i);
        put(w, node_is(pins[i].rail.driver, not_c));
        end_clause(w);
    }
}

/* The clauses of all pairs of one gate: rail 0 with the fall delays, then rail 1 with the netlist's own. */
static void write_rails(writer *w, const lateness *l, const uint32_t *falls, const uint32_t *table, uint32_t g)
{
    const netlist *n = l->n;
    gate it = gate_at(n, g);
    size_t start = l->starts[n->inputs + g], count = (l->starts[n->inputs + g + 1] - start) / 2;
    if (count == 0)
        return;
    for (uint32_t value = 0; value < 2; value++) {
        pin_apart pins[8];
        for (uint32_t i = 0; i < it.count; i++)
            pins[i] = pin_apart_of(l, driver_at(n, it.first + i), delay_for(n, falls, it.first + i, value));
        int32_t gate_is = node_is(n->inputs + g, value);
        for (size_t k = start + value * count; k < start + (1 + value) * count; k++) {
            int some_surely = 0;
            for (uint32_t i = 0; i < it.count; i++) {
                pins[i].rail.late = late_apart(l, table, &pins[i].rail, table[3 * k + 2]);
                some_surely |= pins[i].rail.late == IS_LATE;
            }
            write_pair_apart(w, it, pins, (int32_t)(nodes_of(n) + 1 + k), gate_is, some_surely);
        }
    }
}

static void write_formula_apart(writer *w, const lateness *l, const uint32_t *falls, const uint32_t *table)
{
    const netlist *n = l->n;
    for (uint32_t g = 0; g < n->gate_count; g++)
        write_gate(w, n, g);
    for (uint32_t g = 0; g < n->gate_count; g++)
        write_rails(w, l, falls, table, g);
    size_t before = w->numbers;
    for (uint32_t q = 0; q < n->output_count; q++) {
        pin_apart it = pin_apart_of(l, output_at(n, q), 0);
        it.rail.late = late_apart(l, table, &it.rail, l->target);
        if (it.rail.late == IS_LATE) {
            w->numbers = before;
            return;
        }
        put_late(w, &it);
    }
    end_clause(w);
}

/* Check 10, then 9 for the formula, as build_opened. */
static refusal build_apart(const netlist *n, const uint32_t *falls, uint32_t target, uint32_t *pairs,
                           size_t pairs_length, int32_t *formula, size_t formula_length, buzzlumen_built *built)
{
    lateness l;
    l.n = n;
    l.target = target;
    find_tops_apart(n, falls, l.tops);
    size_t count = find_rails(&l, falls, pairs, pairs_length);
    if (count == SIZE_MAX)
        return refuse(BUZZLUMEN_PAIRS, 0);
    writer w = {formula, formula_length, 0, 0};
    write_formula_apart(&w, &l, falls, pairs);
    if (w.numbers > formula_length)
        return refuse(BUZZLUMEN_ROOM, w.numbers);
    memset(formula + w.numbers, 0, (formula_length - w.numbers) * sizeof *formula);
    built->variables = (uint32_t)(nodes_of(n) + count);
    built->clauses = w.clauses;
    built->numbers = w.numbers;
    built->pairs = count;
    return none;
}

/* Unit propagation. */

enum { FREE = 0, IS_TRUE = 1, IS_FALSE = 2 };

static uint32_t magnitude(int32_t literal)
{
    return literal < 0 ? 0u - (uint32_t)literal : (uint32_t)literal;
}

static uint8_t mark_for(int32_t literal)
{
    return literal > 0 ? IS_TRUE : IS_FALSE;
}

typedef enum { NOTHING_NEW, ASSIGNED, CONFLICT } outcome;

/* One pass over a list of clauses, assigning as it goes; ends at the first clause that is false. A clause is left at a
 * true literal, or at a second free one: it has nothing to say. The list ends in 0. */
static outcome pass(const int32_t *list, size_t length, uint8_t *marks)
{
    outcome result = NOTHING_NEW;
    for (size_t i = 0; i < length; i++) {
        int32_t unit = 0;
        int idle = 0;
        for (int32_t x; (x = list[i]) != 0; i++) {
            uint8_t mark = marks[magnitude(x)];
            if (mark == FREE) {
                if (unit == 0)
                    unit = x;
                else if (unit != x) {
                    idle = 1;
                    break;
                }
            } else if (mark == mark_for(x)) {
                idle = 1;
                break;
            }
        }
        while (list[i] != 0)
            i++;
        if (idle)
            continue;
        if (unit == 0)
            return CONFLICT;
        marks[magnitude(unit)] = mark_for(unit);
        result = ASSIGNED;
    }
    return result;
}

/* Whether the clause at `start` of the refutation follows from the formula and the clauses before it. */
static int follows(const int32_t *formula, size_t formula_length, const int32_t *refutation, size_t start,
                   uint8_t *marks)
{
    for (size_t i = start; refutation[i] != 0; i++) {
        uint8_t mark = marks[magnitude(refutation[i])];
        if (mark == mark_for(refutation[i]))
            return 1;
        marks[magnitude(refutation[i])] = mark_for(-refutation[i]);
    }
    for (;;) {
        outcome in_formula = pass(formula, formula_length, marks);
        if (in_formula == CONFLICT)
            return 1;
        outcome in_refutation = pass(refutation, start, marks);
        if (in_refutation == CONFLICT)
            return 1;
        if (in_formula == NOTHING_NEW && in_refutation == NOTHING_NEW)
            return 0;
    }
}

/* The index of the first literal beyond the variables, or the length. */
static size_t first_beyond(const int32_t *list, size_t length, uint32_t variables)
{
    size_t i = 0;
    while (i < length && magnitude(list[i]) <= variables)
        i++;
    return i;
}

static refusal check_formula(uint32_t variables, const int32_t *formula, size_t length)
{
    if (variables > MOST_VARIABLES)
        return refuse(BUZZLUMEN_FORMULA, 0);
    size_t beyond = first_beyond(formula, length, variables);
    if (beyond < length)
        return refuse(BUZZLUMEN_FORMULA, beyond);
    if (length > 0 && formula[length - 1] != 0)
        return refuse(BUZZLUMEN_FORMULA, length);
    return none;
}

/* Check 13. */
static refusal check_last(const int32_t *refutation, size_t length)
{
    size_t clauses = 0;
    int empty = 1;
    for (size_t i = 0; i < length; i++) {
        if (refutation[i] != 0) {
            empty = 0;
            continue;
        }
        if (empty && i + 1 < length)
            return refuse(BUZZLUMEN_LAST, clauses);
        if (i + 1 == length && !empty)
            return refuse(BUZZLUMEN_LAST, clauses + 1);
        clauses++;
        empty = 1;
    }
    return none;
}

/* Check 14. */
static refusal check_steps(uint32_t variables, const int32_t *formula, size_t formula_length,
                           const int32_t *refutation, size_t refutation_length, uint8_t *marks)
{
    size_t step = 0;
    for (size_t start = 0; start < refutation_length; step++) {
        memset(marks, FREE, (size_t)variables + 1);
        if (!follows(formula, formula_length, refutation, start, marks))
            return refuse(BUZZLUMEN_STEP, step);
        while (refutation[start] != 0)
            start++;
        start++;
    }
    return none;
}

/* Checks 12, 13, 9 for propagation, 14. */
static refusal check_refutation(uint32_t variables, const int32_t *formula, size_t formula_length,
                                const int32_t *refutation, size_t refutation_length,
                                uint8_t *propagation, size_t propagation_length)
{
    size_t beyond = first_beyond(refutation, refutation_length, variables);
    if (beyond < refutation_length)
        return refuse(BUZZLUMEN_REFUTATION, beyond);
    if (refutation_length == 0 || refutation[refutation_length - 1] != 0)
        return refuse(BUZZLUMEN_REFUTATION, refutation_length);
    refusal r = check_last(refutation, refutation_length);
    if (r.number != 0)
        return r;
    if (propagation_length < (size_t)variables + 1)
        return refuse(BUZZLUMEN_ROOM, (uint64_t)variables + 1);
    return check_steps(variables, formula, formula_length, refutation, refutation_length, propagation);
}

/* Checks 8, 9 for values, 9 for times; then settles, with falls where there are some. */
static refusal evaluate_opened(const netlist *n, const uint32_t *falls, const uint8_t *vector, size_t vector_length,
                               uint8_t *values, size_t values_length, uint32_t *times, size_t times_length,
                               uint32_t *time)
{
    uint32_t nodes = nodes_of(n);
    refusal r = check_vector(n, vector, vector_length);
    if (r.number != 0)
        return r;
    if (values_length < nodes || times_length < nodes)
        return refuse(BUZZLUMEN_ROOM, nodes);
    *time = falls != NULL ? settle_apart(n, falls, vector, values, times) : settle(n, vector, values, times);
    memset(values + nodes, 0, values_length - nodes);
    memset(times + nodes, 0, (times_length - nodes) * sizeof *times);
    return none;
}

/* The functions. */

buzzlumen_evaluated NAMED(evaluate)(const uint8_t *netlist_bytes, size_t netlist_length,
                                    const uint32_t *arrivals, size_t arrivals_length,
                                    const uint8_t *vector, size_t vector_length,
                                    uint8_t *values, size_t values_length,
                                    uint32_t *times, size_t times_length)
{
    netlist n;
    uint32_t time = 0;
    refusal r = open_netlist(&n, netlist_bytes, netlist_length, arrivals, arrivals_length);
    if (r.number == 0)
        r = evaluate_opened(&n, NULL, vector, vector_length, values, values_length, times, times_length, &time);
    if (r.number != 0) {
        memset(values, 0, values_length);
        memset(times, 0, times_length * sizeof *times);
        time = 0;
    }
    buzzlumen_evaluated answer = {r.number, time, r.place};
    return answer;
}

buzzlumen_built NAMED(build)(const uint8_t *netlist_bytes, size_t netlist_length,
                             const uint32_t *arrivals, size_t arrivals_length,
                             uint32_t target,
                             uint32_t *pairs, size_t pairs_length,
                             int32_t *formula, size_t formula_length)
{
    netlist n;
    buzzlumen_built answer = {0, 0, 0, 0, 0, 0};
    refusal r = open_netlist(&n, netlist_bytes, netlist_length, arrivals, arrivals_length);
    if (r.number == 0)
        r = build_opened(&n, target, pairs, pairs_length, formula, formula_length, &answer);
    if (r.number != 0) {
        memset(pairs, 0, pairs_length * sizeof *pairs);
        memset(formula, 0, formula_length * sizeof *formula);
    }
    answer.number = r.number;
    answer.place = r.place;
    return answer;
}

buzzlumen_checked NAMED(check)(uint32_t variables,
                               const int32_t *formula, size_t formula_length,
                               const int32_t *refutation, size_t refutation_length,
                               uint8_t *propagation, size_t propagation_length)
{
    refusal r = check_formula(variables, formula, formula_length);
    if (r.number == 0)
        r = check_refutation(variables, formula, formula_length, refutation, refutation_length,
                             propagation, propagation_length);
    memset(propagation, 0, propagation_length);
    buzzlumen_checked answer = {r.number, r.place};
    return answer;
}

buzzlumen_judged NAMED(judge)(const uint8_t *netlist_bytes, size_t netlist_length,
                              const uint32_t *arrivals, size_t arrivals_length,
                              uint32_t delay,
                              const uint8_t *vector, size_t vector_length,
                              const int32_t *refutation, size_t refutation_length,
                              uint8_t *values, size_t values_length,
                              uint32_t *times, size_t times_length,
                              uint32_t *pairs, size_t pairs_length,
                              int32_t *formula, size_t formula_length,
                              uint8_t *propagation, size_t propagation_length)
{
    netlist n;
    uint32_t time = 0;
    buzzlumen_built built = {0, 0, 0, 0, 0, 0};
    refusal r = open_netlist(&n, netlist_bytes, netlist_length, arrivals, arrivals_length);
    if (r.number == 0)
        r = evaluate_opened(&n, NULL, vector, vector_length, values, values_length, times, times_length, &time);
    if (r.number == 0 && time != delay)
        r = refuse(BUZZLUMEN_WITNESS, time);
    if (r.number == 0)
        r = build_opened(&n, delay + 1, pairs, pairs_length, formula, formula_length, &built);
    if (r.number == 0)
        r = check_refutation(built.variables, formula, built.numbers, refutation, refutation_length,
                             propagation, propagation_length);
    if (r.number != 0) {
        memset(values, 0, values_length);
        memset(times, 0, times_length * sizeof *times);
        memset(pairs, 0, pairs_length * sizeof *pairs);
        memset(formula, 0, formula_length * sizeof *formula);
    }
    memset(propagation, 0, propagation_length);
    buzzlumen_judged answer = {r.number, r.place};
    return answer;
}

/* And for rise and fall apart. */

buzzlumen_evaluated NAMED(evaluate_rise_fall)(const uint8_t *netlist_bytes, size_t netlist_length,
                                              const uint32_t *arrivals, size_t arrivals_length,
                                              const uint32_t *falls, size_t falls_length,
                                              const uint8_t *vector, size_t vector_length,
                                              uint8_t *values, size_t values_length,
                                              uint32_t *times, size_t times_length)
{
    netlist n;
    uint32_t time = 0;
    refusal r = open_apart(&n, netlist_bytes, netlist_length, arrivals, arrivals_length, falls, falls_length);
    if (r.number == 0)
        r = evaluate_opened(&n, falls, vector, vector_length, values, values_length, times, times_length, &time);
    if (r.number != 0) {
        memset(values, 0, values_length);
        memset(times, 0, times_length * sizeof *times);
        time = 0;
    }
    buzzlumen_evaluated answer = {r.number, time, r.place};
    return answer;
}

buzzlumen_built NAMED(build_rise_fall)(const uint8_t *netlist_bytes, size_t netlist_length,
                                       const uint32_t *arrivals, size_t arrivals_length,
                                       const uint32_t *falls, size_t falls_length,
                                       uint32_t target,
                                       uint32_t *pairs, size_t pairs_length,
                                       int32_t *formula, size_t formula_length)
{
    netlist n;
    buzzlumen_built answer = {0, 0, 0, 0, 0, 0};
    refusal r = open_apart(&n, netlist_bytes, netlist_length, arrivals, arrivals_length, falls, falls_length);
    if (r.number == 0)
        r = build_apart(&n, falls, target, pairs, pairs_length, formula, formula_length, &answer);
    if (r.number != 0) {
        memset(pairs, 0, pairs_length * sizeof *pairs);
        memset(formula, 0, formula_length * sizeof *formula);
    }
    answer.number = r.number;
    answer.place = r.place;
    return answer;
}

buzzlumen_judged NAMED(judge_rise_fall)(const uint8_t *netlist_bytes, size_t netlist_length,
                                        const uint32_t *arrivals, size_t arrivals_length,
                                        const uint32_t *falls, size_t falls_length,
                                        uint32_t delay,
                                        const uint8_t *vector, size_t vector_length,
                                        const int32_t *refutation, size_t refutation_length,
                                        uint8_t *values, size_t values_length,
                                        uint32_t *times, size_t times_length,
                                        uint32_t *pairs, size_t pairs_length,
                                        int32_t *formula, size_t formula_length,
                                        uint8_t *propagation, size_t propagation_length)
{
    netlist n;
    uint32_t time = 0;
    buzzlumen_built built = {0, 0, 0, 0, 0, 0};
    refusal r = open_apart(&n, netlist_bytes, netlist_length, arrivals, arrivals_length, falls, falls_length);
    if (r.number == 0)
        r = evaluate_opened(&n, falls, vector, vector_length, values, values_length, times, times_length, &time);
    if (r.number == 0 && time != delay)
        r = refuse(BUZZLUMEN_WITNESS, time);
    if (r.number == 0)
        r = build_apart(&n, falls, delay + 1, pairs, pairs_length, formula, formula_length, &built);
    if (r.number == 0)
        r = check_refutation(built.variables, formula, built.numbers, refutation, refutation_length,
                             propagation, propagation_length);
    if (r.number != 0) {
        memset(values, 0, values_length);
        memset(times, 0, times_length * sizeof *times);
        memset(pairs, 0, pairs_length * sizeof *pairs);
        memset(formula, 0, formula_length * sizeof *formula);
    }
    memset(propagation, 0, propagation_length);
    buzzlumen_judged answer = {r.number, r.place};
    return answer;
}
