/* Buzzlumen for a C host: evaluate a circuit, build its timing formula, check a refutation, judge a delay certificate.
 *
 * Seven functions on numbers and slices. A slice is a pointer and then its length, in elements and not in bytes.
 * Calling convention: x86-64 System V. The rules behind them are docs/RULES.md; here stands what a caller needs of it.
 *
 * WHAT A CALL LEAVES in the slices lent for writing is fixed whole:
 * - on a refusal all of them hold zeros;
 * - on success each holds its results from the front and zeros behind; propagation holds zeros only.
 * How long they must be stands at each function. 512 values, 512 times and 131,072 numbers for pairs (196,608 with rise
 * and fall apart) are always enough; the length of a formula is best asked for: lend none, and refusal 9 names it.
 *
 * WHAT A HOST OWES. Whatever a slice holds is answered: no content is forbidden. But a call can't test its pointers.
 * - A pointer is not null, not even with length 0. It is aligned for its type, and so many elements lie behind it.
 * - All of that memory is initialised, also what is lent for writing alone: the proofs are about slices of numbers, and
 *   memory that was never written holds none.
 * - A slice lent for writing has no byte in common with another slice of the same call. Slices to read may have.
 * - Until the call returns, no other thread, process or mapping writes to any of the slices.
 * - There is room for 98,304 bytes of stack; no call takes more, whatever it is given. judge and build take most.
 * - The C library's memset can be linked: it is the only function that is called.
 * THREADS. Nothing is kept from one call to the next: no global data, no allocation, no pointer that outlives the call.
 * So any number of threads may be in these functions at a time, each lending slices of its own.
 * TIME. Every call ends; how soon, no proof says. A call writes all that it is lent, so its time grows with these
 * lengths, and besides: evaluate with gates and pins; build with pairs times the pins of their gates, and with the tops
 * of all gates; check with the refutation's clauses times the numbers stored so far times the passes over them, of
 * which there are at most variables + 1 for a clause; judge with all of these. docs/PERFORMANCE.md has figures.
 *
 * THE NETLIST FILE is read from its end; a number of several bytes has its lowest byte first. The last 14 bytes: back
 * in four, then I (inputs, 1..64), G (gates, 0..448), P (pins, 0..2048), Q (outputs, 1..64), version (1) in two each.
 * Right before them lie three tables, 4G+4P+2Q bytes together, which is what back says; bytes in front of these are a
 * note that is not read.
 * - A gate has 4 bytes: its kind, how many pins it has, and in two bytes its first pin: the total of all pin counts
 *   before it. The total of all is P.
 * - A pin has 4 bytes: the node that drives it, and its delay, 0..999.
 * - An output has 2 bytes, a node; each is a larger node than the one before.
 * Nodes are numbers below N = I+G: the inputs, then the gates. What drives a pin is a lower node than the pin's gate.
 * Kinds: 1 BUF and 2 NOT have one pin; 3 AND, 4 NAND, 5 OR and 6 NOR two to eight; 7 XOR and 8 XNOR two; 9 MUX three,
 * select, a and b, of which it gives a for select 0 and b for select 1.
 *
 * ARRIVALS. Beside the netlist each call but check takes one time for each of the I inputs, 0..9,999, in their order:
 * when the input arrives. Where no input is late, they are I zeros.
 *
 * SETTLING. An input settles at its arrival, and a pin is ready a delay after its driver settles. The kinds 1 to 6 are
 * settled by their earliest pin at the controlling value, which is 1 for OR and NOR and 0 for the others, if any pin
 * has it. MUX waits for select and the data pin that it chooses; where the two data pins agree, for these two instead,
 * if that is earlier. All other gates wait for their last pin. The circuit settles with its latest output, never after
 * 457,551.
 *
 * RISE AND FALL APART. Each of evaluate, build and judge has a sibling that takes a second delay for each pin beside the
 * arrivals: falls, P numbers, 0..999, number j for pin j. A gate that ends at 0 goes by these, a gate that ends at 1 by
 * the delays in the file: the gate's own final value chooses, for all of its pins. Where both lists are the same, the
 * times are those of the plain calls.
 */
#ifndef BUZZLUMEN_H
#define BUZZLUMEN_H

#include <stddef.h>
#include <stdint.h>

#ifdef __cplusplus
extern "C" {
#endif

/* The number of an answer: 0 for acceptance, with place 0, or the number of a refusal. Gates, pins, positions, indexes
 * and clauses are counted from 0. The comment says when a refusal is given, and after the colon its place. */
enum {
    BUZZLUMEN_ACCEPTED = 0,
    BUZZLUMEN_SHORT = 1,       /* the netlist doesn't even have 14 bytes: its length */
    BUZZLUMEN_VERSION = 2,     /* another version than 1: that version */
    BUZZLUMEN_COUNT = 3,       /* a count leaves its range: 0 for I, 1 for G, 2 for P, 3 for Q, the lowest that does */
    BUZZLUMEN_BACK = 4,        /* back is not the tables' total, or the file is too short for it: 0 */
    BUZZLUMEN_GATE = 5,        /* no such kind, no such pin count for it, or another first pin than the total so far:
                                  the gate; then, a total other than P: G */
    BUZZLUMEN_PIN = 6,         /* a driver at or above the pin's gate, or a delay of 1,000 or more: the pin */
    BUZZLUMEN_OUTPUT = 7,      /* a node at or below the previous output, or no node at all: its position */
    BUZZLUMEN_VECTOR = 8,      /* not just I bytes: I; then, a byte that is neither 0 nor 1: the first one's position */
    BUZZLUMEN_ROOM = 9,        /* a lent slice has too few elements: how many it needs */
    BUZZLUMEN_PAIRS = 10,      /* the pairs are over 65,536, or don't fit the table: 0 */
    BUZZLUMEN_FORMULA = 11,    /* over 100,000 variables: 0; then, a number whose size is above the variables: its
                                  index; then, a formula that has numbers and doesn't end in 0: its length */
    BUZZLUMEN_REFUTATION = 12, /* a number whose size is above the variables: its index; then, a refutation that has no
                                  numbers or doesn't end in 0: its length */
    BUZZLUMEN_LAST = 13,       /* a clause that is empty and not the last: the first such clause; then, no empty clause:
                                  how many clauses the refutation has */
    BUZZLUMEN_STEP = 14,       /* a clause of the refutation doesn't follow by unit propagation from the formula and
                                  the clauses before it: the first that doesn't */
    BUZZLUMEN_WITNESS = 15,    /* under the vector the circuit settles at another time than the delay: that time */
    BUZZLUMEN_ARRIVAL = 16,    /* not just I arrivals: I; then, an arrival over 9,999: the first one's position */
    BUZZLUMEN_FALL = 19        /* not just P fall delays: P; then, a delay over 999: the first one's position */
};

typedef struct {
    uint32_t number; /* 0, or the number of the refusal */
    uint32_t time;   /* the time at which the circuit settles; 0 on a refusal */
    uint64_t place;  /* 0, or the refusal's place */
} buzzlumen_evaluated;

typedef struct {
    uint32_t number;    /* 0, or the number of the refusal */
    uint32_t variables; /* variables of the formula: N plus the pairs; 0 on a refusal */
    uint64_t place;     /* 0, or the refusal's place */
    uint64_t clauses;   /* clauses of the formula; 0 on a refusal */
    uint64_t numbers;   /* numbers of the formula, each clause's 0 counted; 0 on a refusal */
    uint64_t pairs;     /* pairs in the table; 0 on a refusal */
} buzzlumen_built;

typedef struct {
    uint32_t number; /* 0: the refutation passes; or the number of the refusal */
    uint64_t place;  /* 0, or the refusal's place */
} buzzlumen_checked;

typedef struct {
    uint32_t number; /* 0: the certificate is accepted; or the number of the refusal */
    uint64_t place;  /* 0, or the refusal's place */
} buzzlumen_judged;

/* Values and settling times of all nodes under a vector, one byte 0 or 1 for each input.
 * Needed lengths: values N, times N.
 * Leaves: in values the value of each node, in times its settling time.
 * Order of checks: 1 to 7, 16, 8, 9 for values, 9 for times. */
buzzlumen_evaluated buzzlumen_evaluate(const uint8_t *netlist, size_t netlist_length,
                                       const uint32_t *arrivals, size_t arrivals_length,
                                       const uint8_t *vector, size_t vector_length,
                                       uint8_t *values, size_t values_length,
                                       uint32_t *times, size_t times_length);

/* The formula that says "some output settles at the target or later".
 * Needed lengths: formula its own count of numbers. The table of pairs holds half as many pairs as it has numbers,
 * rounded down, and at most 65,536; one that is too small is refusal 10, never 9.
 * Leaves: in pairs the pairs (node, time), two numbers each, by node rising, then time rising; in formula the clauses,
 * each ended by 0. Variables: a node's is its number plus 1, the pairs take N+1 and on in the table's order.
 * A caller that hands the formula on must hand on its first `numbers` numbers: a 0 behind them is an empty clause.
 * Order of checks: 1 to 7, 16, 10, 9 for the formula. */
buzzlumen_built buzzlumen_build(const uint8_t *netlist, size_t netlist_length,
                                const uint32_t *arrivals, size_t arrivals_length,
                                uint32_t target,
                                uint32_t *pairs, size_t pairs_length,
                                int32_t *formula, size_t formula_length);

/* Whether each clause of a refutation follows by unit propagation from the formula and the clauses before it, and the
 * last one alone is empty: then the formula has no solution.
 * Needed lengths: propagation variables + 1. Leaves: propagation all zeros, in every case.
 * Order of checks: 11, 12, 13, 9 for propagation, 14. */
buzzlumen_checked buzzlumen_check(uint32_t variables,
                                  const int32_t *formula, size_t formula_length,
                                  const int32_t *refutation, size_t refutation_length,
                                  uint8_t *propagation, size_t propagation_length);

/* Whether a delay is the circuit's true delay by this certificate: the vector settles at exactly the delay, and the
 * refutation passes the check against the formula for the delay + 1.
 * Acceptance means that with these arrivals the circuit settles under no vector whatever later than the delay, and
 * under the vector given at the delay: the delay is the largest settling time there is. A refusal means only that this
 * is no certificate; it says nothing about the delay.
 * Needed lengths: values N, times N, pairs and formula as for building at the delay + 1, propagation N + pairs + 1.
 * Leaves: values and times as evaluation does, pairs and formula as building at the delay + 1 does, propagation zeros.
 * Order of checks: 1 to 7, 16, 8, 9 for values, 9 for times, 15, 10, 9 for the formula, 12, 13, 9 for propagation,
 * 14. */
buzzlumen_judged buzzlumen_judge(const uint8_t *netlist, size_t netlist_length,
                                 const uint32_t *arrivals, size_t arrivals_length,
                                 uint32_t delay,
                                 const uint8_t *vector, size_t vector_length,
                                 const int32_t *refutation, size_t refutation_length,
                                 uint8_t *values, size_t values_length,
                                 uint32_t *times, size_t times_length,
                                 uint32_t *pairs, size_t pairs_length,
                                 int32_t *formula, size_t formula_length,
                                 uint8_t *propagation, size_t propagation_length);

/* The same with rise and fall apart. Slices, lengths, what is left and the order of checks are as above, but for these:
 * - falls has P delays; refusal 19 is looked for directly behind 16;
 * - a pair is (node, value, time): that the node ends at this value and is late at this time. The table has three
 *   numbers for it and holds a third as many pairs as it has numbers, rounded down, and at most 65,536; it is in the
 *   order of nodes, then values, then times, and so are the pairs' variables. */
buzzlumen_evaluated buzzlumen_evaluate_rise_fall(const uint8_t *netlist, size_t netlist_length,
                                                 const uint32_t *arrivals, size_t arrivals_length,
                                                 const uint32_t *falls, size_t falls_length,
                                                 const uint8_t *vector, size_t vector_length,
                                                 uint8_t *values, size_t values_length,
                                                 uint32_t *times, size_t times_length);

buzzlumen_built buzzlumen_build_rise_fall(const uint8_t *netlist, size_t netlist_length,
                                          const uint32_t *arrivals, size_t arrivals_length,
                                          const uint32_t *falls, size_t falls_length,
                                          uint32_t target,
                                          uint32_t *pairs, size_t pairs_length,
                                          int32_t *formula, size_t formula_length);

/* Acceptance means here too that the delay is the largest settling time there is, by these delays. */
buzzlumen_judged buzzlumen_judge_rise_fall(const uint8_t *netlist, size_t netlist_length,
                                           const uint32_t *arrivals, size_t arrivals_length,
                                           const uint32_t *falls, size_t falls_length,
                                           uint32_t delay,
                                           const uint8_t *vector, size_t vector_length,
                                           const int32_t *refutation, size_t refutation_length,
                                           uint8_t *values, size_t values_length,
                                           uint32_t *times, size_t times_length,
                                           uint32_t *pairs, size_t pairs_length,
                                           int32_t *formula, size_t formula_length,
                                           uint8_t *propagation, size_t propagation_length);

#ifdef __cplusplus
}
#endif

#endif
