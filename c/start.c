/* The calls of libnonobench on x86-64 that need no desk, in front of the proved ones, which run
 * only if the processor can run them. Each other call needs a desk, which only nonobench_start
 * makes. This is C and tested, not proved; c/proved.names has the names of the proved calls. */
#include "nonobench.h"
#include "processor.h"

__typeof__(nonobench_version) proved_version;
__typeof__(nonobench_start) proved_start;
__typeof__(nonobench_end) proved_end;

size_t nonobench_version(uint8_t *out, size_t room) {
  return has_processor() ? proved_version(out, room) : 0;
}

uint32_t nonobench_start(nonobench_desk **desk) {
  return has_processor() ? proved_start(desk) : NONOBENCH_PROCESSOR;
}

void nonobench_end(nonobench_desk *desk) {
  if (desk) proved_end(desk);
}
