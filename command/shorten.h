/* Leaves out the steps of a refutation that its last step does not need. */
#ifndef SHORTEN_H
#define SHORTEN_H

#include <stddef.h>
#include <stdint.h>

/* Writes a shorter refutation into `shorter`, which has the room of the given one, and gives its count of numbers.
 * Gives 0, and leaves the room as it may be, where a step does not follow, none is empty, a literal is over `variables`
 * or a list does not end in 0: then the refutation is for the judge as it is. */
size_t shorten(uint32_t variables, const int32_t *formula, size_t formula_length,
               const int32_t *refutation, size_t refutation_length, int32_t *shorter);

#endif
