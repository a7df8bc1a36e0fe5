/* Each growth of some calls is refused in turn, as if memory had run out: refusals. It is linked
 * with --wrap=malloc,--wrap=realloc. A call whose growth is refused answers MEMORY and writes
 * `memory`, or answers as it does with ample memory, and then answers so again. No size is 0. */
#include "nonobench.h"

#include <stdio.h>
#include <stdlib.h>
#include <string.h>

enum { ROOM = 4096, MOST = 10000 };

void *__real_malloc(size_t size);
void *__real_realloc(void *block, size_t size);

/* The growths until one is refused, 0 for none; how many were of no size. */
static unsigned until, empty;

static bool is_refused(size_t size) {
  empty += size == 0;
  return until > 0 && --until == 0;
}

void *__wrap_malloc(size_t size) { return is_refused(size) ? NULL : __real_malloc(size); }
void *__wrap_realloc(void *block, size_t size) {
  return is_refused(size) ? NULL : __real_realloc(block, size);
}

/* Another picture has the clues of the first one, and a given decides it; the second is unique, and
 * no lines alone show it. */
static const char DIAGONAL[] = "P3 2 2 255 0 0 0 255 255 255 255 255 255 0 0 0\n";
static const char GIVEN[] = "nonocert 2\ngiven 1 1\nline r 1\nline c 1\nline r 2\ndone\n";
static const char ALONE[] = "P3 4 1 1 0 0 0 1 1 1 0 0 0 0 0 0\n";
static const nonobench_place FIRST = {1, 1};

/* A call by its number: the status, and what is found as a text. */
static uint32_t call(int which, char *said) {
  static const nonobench_options ONE = {NULL, &FIRST, 1, false}, NONE = {NULL, NULL, 0, false};
  nonobench_text text = {said, ROOM, 0};
  nonobench_audited found = {NONOBENCH_UNDECIDED, NULL, 0};
  uint32_t status = NONOBENCH_OPTIONS;
  said[0] = 0;
  switch (which) {
    case 0:
      return nonobench_clues(DIAGONAL, sizeof DIAGONAL - 1, NULL, &text);
    case 1:
      return nonobench_verdict(DIAGONAL, sizeof DIAGONAL - 1, NULL, 9, NULL, &text);
    case 2:
      return nonobench_check_pair(
          DIAGONAL, sizeof DIAGONAL - 1, GIVEN, sizeof GIVEN - 1, &ONE, &text
      );
    case 3:
      return nonobench_check_pair(
          DIAGONAL, sizeof DIAGONAL - 1, GIVEN, sizeof GIVEN - 1, &NONE, &text
      );
    case 4:
      status = nonobench_certify(ALONE, sizeof ALONE - 1, NULL, &found, &text);
      break;
    case 5:
      status = nonobench_prove_picture(ALONE, sizeof ALONE - 1, NULL, false, 2, &found, &text);
      break;
  }
  if (found.certificate && found.certificate_size < ROOM) strcpy(said, found.certificate);
  nonobench_free(found.certificate);
  return status;
}

/* How many growths of a call were refused, and how many of these it reported; 0 where an answer is
 * wrong. */
static unsigned refuse_each(int which, unsigned *reported) {
  char ample[ROOM], said[ROOM];
  uint32_t wanted = call(which, ample);
  for (unsigned at = 1; at < MOST; at++) {
    until = at;
    uint32_t status = call(which, said);
    bool was_refused = until == 0, is_same = status == wanted && strcmp(said, ample) == 0;
    until = 0;
    if (!was_refused) return is_same ? at - 1 : 0;
    if (!is_same && (status != NONOBENCH_MEMORY || strcmp(said, "memory") != 0)) return 0;
    *reported += status == NONOBENCH_MEMORY;
    if (call(which, said) != wanted || strcmp(said, ample) != 0) return 0;
  }
  return 0;
}

int main(void) {
  for (int which = 0; which < 6; which++) {
    unsigned reported = 0, refused = refuse_each(which, &reported);
    printf("call %d: %u growths refused, %u of them reported\n", which, refused, reported);
    if (refused == 0 || reported < 3 || empty > 0) return 1;
  }
  return 0;
}
