/* The library's calls for rise and fall apart, as the tests know them. Where include/buzzlumen.h declares them
 * otherwise, what includes both does not compile.
 */
#ifndef RISE_FALL_H
#define RISE_FALL_H

#include "buzzlumen.h"

buzzlumen_evaluated buzzlumen_evaluate_rise_fall(const uint8_t *, size_t, const uint32_t *, size_t,
                                                 const uint32_t *, size_t, const uint8_t *, size_t,
                                                 uint8_t *, size_t, uint32_t *, size_t);
buzzlumen_built buzzlumen_build_rise_fall(const uint8_t *, size_t, const uint32_t *, size_t, const uint32_t *, size_t,
                                          uint32_t, uint32_t *, size_t, int32_t *, size_t);
buzzlumen_judged buzzlumen_judge_rise_fall(const uint8_t *, size_t, const uint32_t *, size_t, const uint32_t *, size_t,
                                           uint32_t, const uint8_t *, size_t, const int32_t *, size_t,
                                           uint8_t *, size_t, uint32_t *, size_t, uint32_t *, size_t,
                                           int32_t *, size_t, uint8_t *, size_t);

#endif
