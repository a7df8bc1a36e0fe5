/* A caller may say true or false by the lowest byte of a register, and leave the others as they
 * are. */
#include "nonobench.h"

#include <string.h>

static const uint8_t PICTURE[] = "P3 1 1 1 0 0 0\n";

typedef uint32_t
opening(nonobench_desk **, const uint8_t *, size_t, uint32_t, const uint8_t *, size_t, uint32_t, uint32_t *);

int main(void) {
  opening *open_with = (opening *)nonobench_open;
  nonobench_desk *desk;
  uint32_t handle;
  if (nonobench_start(&desk) != NONOBENCH_DONE) return 2;
  int is_false =
      open_with(&desk, PICTURE, sizeof PICTURE - 1, 0xfffffe00, PICTURE, 0, 9, &handle) ==
      NONOBENCH_DONE;
  int is_true = open_with(&desk, PICTURE, sizeof PICTURE - 1, 0xfffffe01, PICTURE, 0, 9, &handle) ==
                NONOBENCH_REFUSED;
  nonobench_end(desk);
  return is_false && is_true ? 0 : 1;
}
