/* What the library and the program ask of an x86-64 processor: they are compiled for x86-64-v2.
 * What includes this is compiled for any x86-64 processor. Other processors are not asked. */
#ifndef PROCESSOR_H
#define PROCESSOR_H

#define NO_PROCESSOR "this processor has no SSE4.2, which nonobench needs"

#ifdef __x86_64__
#include <cpuid.h>
#include <stdbool.h>

static inline bool has_processor(void) {
  unsigned a, b, features, d;
  __cpuid(1, a, b, features, d);
  return (features & bit_SSE4_2) && (features & bit_POPCNT);
}
#endif

#endif
